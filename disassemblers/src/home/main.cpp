// Holds home words, under the filler that is the default, against the bits that their pages draw in parentheses: of COUNT words from FIRST on.
//
// WHO is "none": the home word of each accepted word. The bits have to be as drawn, exactly if the word is under no exception.
// WHO is a disassembler: each of the words that is its own home word. What it has no instruction for or marks as unpredictable is told apart by
// whether the bits are as drawn.
//
// It prints a line for each class and title that comes up, apart by tabs: how many words, the first of them, the class, the manual's title, and what
// the disassembler names. The class "?" is an error.
#include "../disassembler.h"
#include "../row.h"
#include "../should.h"
#include "../title.h"
#include "../why.h"
#include "brassdozen.h"
#include "except.h"
#include <cstdio>
#include <cstdlib>
#include <map>
#include <string>
#include <tuple>
#include <vector>

using std::string;

// crates/manual_tables/specs/Titles.antt
static const std::vector<string> titles = {
#include "titles.inc"
};

static bool asDrawn(const string &title, uint32_t w) { return mended(title, w) == w; }

// the home word of a word with this title
static string ofHome(const string &title, uint32_t w, uint32_t home) {
    const char *exception = exceptionOf(title, w);
    if (asDrawn(title, home)) return exception ? "?" : "as drawn";
    return exception ? string("not as drawn: ") + exception : "?";
}

// a home word with this title, and what a disassembler names
static string ofNamed(const string &who, const string &title, uint32_t w, const string &theirs, bool marked) {
    const bool none = theirs == "UNDEFINED";
    if (!asDrawn(title, w)) {
        const char *exception = exceptionOf(title, w);
        if (!exception) return "?";
        const char *how = none ? ": they have none" : theirs != title ? ": they name another" : marked ? ": they mark it" : ": they name it";
        return string("should-be, ") + exception + how;
    }
    if (theirs != title) return why(who, w, title, theirs);
    return marked ? "otherwise: they mark it" : "they name it";
}

struct Count {
    unsigned long words = 0;
    uint32_t first = 0;
    void add(uint32_t w) {
        if (!words++) first = w;
    }
};

int main(int argc, char **argv) {
    if (argc != 4) {
        fprintf(stderr, "usage: home WHO FIRST COUNT\n");
        return 2;
    }
    const string who = argv[1];
    auto disassembler = who == "none" ? nullptr : who == "binutils" ? binutils() : llvm14();
    const uint64_t first = strtoull(argv[2], nullptr, 16), count = strtoull(argv[3], nullptr, 16);
    std::map<std::tuple<string, string, string>, Count> counts;
    for (uint64_t i = 0; i < count; i++) {
        const uint32_t w = first + i;
        const uint64_t given = brassdozen_home(w);
        if (brassdozen_refusal(given)) continue;
        const uint32_t home = brassdozen_result(given);
        const string &title = titles[brassdozen_manual_row(w)];
        if (!disassembler)
            counts[{ofHome(title, w, home), title, ""}].add(w);
        else if (home == w) {
            const string theirs = titleOf(disassembler->text(w), w);
            counts[{ofNamed(who, title, w, theirs, disassembler->marked()), title, theirs}].add(w);
        }
    }
    for (const auto &[key, c] : counts)
        printf("%lu\t%08x\t%s\t%s\t%s\n", c.words, c.first, std::get<0>(key).c_str(), std::get<1>(key).c_str(), std::get<2>(key).c_str());
}
