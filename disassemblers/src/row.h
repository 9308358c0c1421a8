// The twin of the definition, proved: the number of a word's row, its place in crates/manual_tables/specs/Titles.antt.
#pragma once
#include <cstdint>

extern "C" uint16_t brassdozen_manual_row(uint32_t word);
