#include "should.h"
#include <unordered_map>

namespace {

struct Bits {
    uint32_t mask;
    uint32_t value;
};

// bits hi to lo, all ones or all zeros
constexpr Bits ones(int hi, int lo) { return {(2u << hi) - (1u << lo), (2u << hi) - (1u << lo)}; }
constexpr Bits zeros(int hi, int lo) { return {(2u << hi) - (1u << lo), 0}; }
constexpr Bits operator+(Bits a, Bits b) { return {a.mask | b.mask, a.value | b.value}; }

const std::unordered_map<std::string, Bits> &table() {
    static const std::unordered_map<std::string, Bits> t = [] {
        std::unordered_map<std::string, Bits> t;
        for (const char *n : {"MOV (register, ARM)", "LSL (immediate)", "LSR (immediate)", "ASR (immediate)", "ROR (immediate)", "RRX", "MVN (register)",
                              "LSL (register)", "LSR (register)", "ASR (register)", "ROR (register)", "MVN (register-shifted register)", "MOV (immediate)", "MVN (immediate)"})
            t[n] = zeros(19, 16);
        for (const char *n : {"TST", "TEQ", "CMP", "CMN"})
            for (const char *k : {" (register)", " (register-shifted register)", " (immediate)"}) t[std::string(n) + k] = zeros(15, 12);
        for (const char *n : {"MUL", "SMULWB, SMULWT", "SMULBB, SMULBT, SMULTB, SMULTT"}) t[n] = zeros(15, 12);
        for (const char *n : {"SDIV", "UDIV"}) t[n] = ones(15, 12);
        for (const char *n : {"QADD", "QSUB", "QDADD", "QDSUB", "SWP, SWPB", "STRH (register)", "LDRH (register)", "LDRSB (register)", "LDRSH (register)", "LDRD (register)", "STRD (register)"})
            t[n] = zeros(11, 8);
        for (const char *n : {"BX", "BXJ", "BLX (register)"}) t[n] = ones(19, 8);
        t["CLZ"] = ones(19, 16) + ones(11, 8);
        t["MRS"] = ones(19, 16) + zeros(11, 10) + zeros(8, 8) + zeros(3, 0);
        t["MSR (register)"] = ones(15, 12) + zeros(11, 10) + zeros(8, 8);
        t["MRS (Banked register)"] = zeros(11, 10) + zeros(3, 0);
        t["MSR (Banked register)"] = ones(15, 12) + zeros(11, 10);
        t["MSR (immediate)"] = ones(15, 12);
        t["ERET"] = zeros(19, 8) + ones(3, 1) + zeros(0, 0);
        t["SMC"] = zeros(19, 8);
        for (const char *n : {"NOP", "YIELD", "WFE", "WFI", "SEV", "DBG", "unallocated hint"}) t[n] = ones(15, 12) + zeros(11, 8);
        for (const char *n : {"STREX", "STREXB", "STREXH", "STREXD"}) t[n] = ones(11, 8);
        for (const char *n : {"LDREX", "LDREXB", "LDREXH", "LDREXD"}) t[n] = ones(11, 8) + ones(3, 0);
        for (const char *n : {"LDR (literal)", "LDRB (literal)", "LDRH (literal)", "LDRD (literal)", "LDRSB (literal)", "LDRSH (literal)"}) t[n] = ones(24, 24) + zeros(21, 21);
        for (const char *n : {"S", "Q", "SH", "U", "UQ", "UH"})
            for (const char *k : {"ADD16", "ASX", "SAX", "SUB16", "ADD8", "SUB8"}) t[std::string(n) + k] = ones(11, 8);
        for (const char *n : {"SEL", "SSAT16", "USAT16"}) t[n] = ones(11, 8);
        for (const char *n : {"REV", "REV16", "RBIT", "REVSH"}) t[n] = ones(19, 16) + ones(11, 8);
        for (const char *n : {"SXT", "UXT"})
            for (const char *k : {"B", "B16", "H", "AB", "AB16", "AH"}) t[std::string(n) + k] = zeros(9, 8);
        for (const char *n : {"STM (User registers)", "LDM (User registers)"}) t[n] = zeros(21, 21);
        for (const char *n : {"PLD (immediate)", "PLD (register)", "PLDW (immediate)", "PLDW (register)", "PLI (immediate, literal)", "PLI (register)"})
            t[n] = ones(15, 12);
        t["PLD (literal)"] = ones(22, 22) + ones(15, 12);
        t["CLREX"] = ones(19, 12) + zeros(11, 8) + ones(3, 0);
        for (const char *n : {"DSB", "DMB", "ISB"}) t[n] = ones(19, 12) + zeros(11, 8);
        t["CPS"] = zeros(15, 9);
        t["SETEND"] = zeros(19, 17) + zeros(15, 10) + zeros(8, 8) + zeros(3, 0);
        t["SRS"] = {0x000fffe0, 0x000d0500};
        t["RFE"] = {0x0000ffff, 0x00000a00};
        return t;
    }();
    return t;
}

}

uint32_t mended(const std::string &title, uint32_t w) {
    // Rn of MOV and MVN
    if (title == "SUBS PC, LR and related instructions") return (w >> 21 & 13) == 13 ? w & ~0xf0000u : w;
    // the unprivileged extra loads and stores have two encodings: bit 22 is set for an immediate
    if (title == "STRHT" || title == "LDRHT" || title == "LDRSBT" || title == "LDRSHT") return w >> 22 & 1 ? w : w & ~0xf00u;
    auto f = table().find(title);
    return f == table().end() ? w : (w & ~f->second.mask) | f->second.value;
}
