#include "except.h"
#include <set>

namespace {

using Rows = std::set<std::string>;

struct Exception {
    const char *name;
    Rows rows;
    bool (*covers)(uint32_t);
};

bool toPc(uint32_t w) { return (w >> 12 & 15) == 15; }
bool offsetMode(uint32_t w) { return (w >> 24 & 1) && !(w >> 21 & 1); }

const Exception exceptions[] = {
    {"hint-bits", {"NOP", "YIELD", "WFE", "WFI", "SEV", "DBG", "unallocated hint"}, [](uint32_t w) { return !toPc(w); }},
    {"compare-15",
     {"TST (register)", "TEQ (register)", "CMP (register)", "CMN (register)", "TST (register-shifted register)", "TEQ (register-shifted register)",
      "CMP (register-shifted register)", "CMN (register-shifted register)"},
     toPc},
    {"literal-index",
     {"LDR (literal)", "LDRB (literal)", "LDRH (literal)", "LDRD (literal)", "LDRSB (literal)", "LDRSH (literal)"},
     [](uint32_t w) { return !offsetMode(w); }},
};

}

const char *exceptionOf(const std::string &title, uint32_t w) {
    for (const auto &e : exceptions)
        if (e.rows.count(title)) return e.covers(w) ? e.name : nullptr;
    return nullptr;
}
