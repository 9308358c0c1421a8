// From a disassembler's text to the manual's title.
#pragma once
#include <cstdint>
#include <string>

// the space of coprocessors 10 and 11 under a condition
inline const char *const floating = "Advanced SIMD, Floating-point";
// any name that one coprocessor alone has, of floating point before VFP, Maverick, XScale or iWMMXt
inline const char *const own = "of one coprocessor";

// of a word with this text: "UNDEFINED" for no text; "ARMv8 NAME" for a name that the manual does not have
std::string titleOf(const std::string &text, uint32_t w);
