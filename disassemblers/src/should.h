// The bits that a page draws in parentheses, "should be": which they are, and what they should be.
#pragma once
#include <cstdint>
#include <string>

// w with all of them as they should be
uint32_t mended(const std::string &title, uint32_t w);
