// The words whose home words are not as their page draws them, by the tests of crates/manual_drawn/specs/Exceptions.antt.
#pragma once
#include <cstdint>
#include <string>

// the exception's name, or none
const char *exceptionOf(const std::string &title, uint32_t w);
