#include "why.h"
#include "row.h"
#include "should.h"
#include "title.h"
#include <initializer_list>

namespace {

using std::string;

bool among(const string &s, std::initializer_list<const char *> l) {
    for (const char *x : l)
        if (s == x) return true;
    return false;
}
bool starts(const string &s, const char *p) { return s.rfind(p, 0) == 0; }
uint32_t bits(uint32_t w, int hi, int lo) { return w >> lo & ((2u << (hi - lo)) - 1); }

// B9.2.3: the banked registers, by R and SYSm
bool isBanked(uint32_t w) {
    const uint32_t m = bits(w, 8, 8) << 4 | bits(w, 19, 16);
    if (bits(w, 22, 22)) return m == 14 || m == 16 || m == 18 || m == 20 || m == 22 || m == 28 || m == 30;
    return m <= 6 || (m >= 8 && m <= 14) || (m >= 16 && m <= 23) || m >= 28;
}

// a page that says UNPREDICTABLE of the word: of its registers, or of what it is to change
bool isUnpredictable(const string &title, uint32_t w) {
    if (starts(title, "LDRD") || starts(title, "STRD")) return bits(w, 12, 12) || (!bits(w, 24, 24) && bits(w, 21, 21));
    if (title == "STREXD") return bits(w, 0, 0) || bits(w, 3, 0) == 14;
    if (title == "LDREXD") return bits(w, 12, 12) || bits(w, 15, 12) == 14;
    if (starts(title, "LDM") || starts(title, "STM")) return bits(w, 15, 0) == 0;
    if (title == "MRS (Banked register)" || title == "MSR (Banked register)") return !isBanked(w);
    if (title == "MSR (register)" || title == "MSR (immediate)") return bits(w, 19, 16) == 0;
    if (title == "CPS") {
        const uint32_t imod = bits(w, 19, 18), m = bits(w, 17, 17), aif = bits(w, 8, 6);
        return (bits(w, 4, 0) && !m) || (imod & 2 && !aif) || (!(imod & 2) && aif) || (imod == 0 && !m) || imod == 1;
    }
    return false;
}

// a title of any coprocessor under a condition
bool isGeneric(const string &title) { return among(title, {"STC", "LDC (immediate)", "LDC (literal)", "MCRR", "MRRC", "CDP", "MCR", "MRC"}); }

}

const char *why(const string &who, uint32_t w, const string &ours, const string &theirs) {
    const bool none = theirs == "UNDEFINED";
    if (starts(theirs, "ARMv8 ")) return "later: ARMv8 names it";
    if (ours == "UNPREDICTABLE") return none ? "unpredictable: so the table says, they have none" : "unpredictable: so the table says, they name it";
    if (starts(ours, "Advanced SIMD") && none) return "space: chapter A7 tells its words apart";
    if (among(ours, {"LDC2", "STC2", "MCRR2", "MRRC2", "CDP2", "MCR2", "MRC2"}) && none) {
        if (bits(w, 11, 9) == 5) return "space: the page says UNDEFINED of coprocessors 10 and 11";
        if (bits(w, 11, 8) == 9) return "later: ARMv8 takes coprocessor 9 for half precision";
    }
    if (isGeneric(ours)) {
        if (bits(w, 11, 8) == 9 && (none || theirs == floating)) return "later: ARMv8 takes coprocessor 9 for half precision";
        if (theirs == floating) return "later: ARMv8-M names it";
        if (theirs == own) return "older: a name of one coprocessor alone";
    }
    if (ours == floating && isGeneric(theirs)) return "space: chapter A7 tells its words apart, they name them as any coprocessor's";
    // the same row with those bits mended, where they are asked too
    if (const uint32_t m = mended(ours, w); m != w && brassdozen_manual_row(m) == brassdozen_manual_row(w)) return none ? "should-be: they have none" : "should-be: they name another";
    if (isUnpredictable(ours, w)) return none ? "unpredictable: so the page says, they have none" : "unpredictable: so the page says, they name another";
    if (ours == "unallocated memory hint") return none ? "hint: a NOP, they have none" : "loose: they name an unallocated hint";
    if (ours == "UNDEFINED" && who == "binutils") return "loose: they name what is UNDEFINED";
    return "?";
}
