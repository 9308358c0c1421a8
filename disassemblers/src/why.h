// Why a disassembler and the manual's definition name a word differently.
#pragma once
#include <cstdint>
#include <string>

// the class of the difference, "?" if there is none for it
const char *why(const std::string &who, uint32_t w, const std::string &ours, const std::string &theirs);
