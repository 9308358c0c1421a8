// A disassembler of A32: the text of a word, or none if it knows no instruction there.
#pragma once
#include <cstdint>
#include <memory>
#include <string>

struct Disassembler {
    virtual ~Disassembler() = default;
    virtual const std::string &text(uint32_t word) = 0;
    // whether it marked the last text as unpredictable
    virtual bool marked() const = 0;
};

std::unique_ptr<Disassembler> binutils();
std::unique_ptr<Disassembler> llvm14();
