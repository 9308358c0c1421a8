// Compares the rows of COUNT words from FIRST on with what a disassembler names, WHO. It prints a line for each pair of titles that
// comes up, apart by tabs: how many words, the first of them, the class of the difference, the manual's title and theirs. Words that
// agree are a class too, and those that they mark as unpredictable another.
#include "disassembler.h"
#include "row.h"
#include "title.h"
#include "why.h"
#include <cstdio>
#include <cstdlib>
#include <cstring>
#include <map>
#include <tuple>
#include <vector>

// crates/manual_tables/specs/Titles.antt
static const char *const titles[] = {
#include "titles.inc"
};

struct Count {
    unsigned long words = 0;
    uint32_t first = 0;
    void add(uint32_t w) {
        if (!words++) first = w;
    }
};

int main(int argc, char **argv) {
    if (argc != 4) {
        fprintf(stderr, "usage: named WHO FIRST COUNT\n");
        return 2;
    }
    const std::string who = argv[1];
    auto disassembler = who == "binutils" ? binutils() : llvm14();
    const uint64_t first = strtoull(argv[2], nullptr, 16), count = strtoull(argv[3], nullptr, 16);
    const std::vector<std::string> all(titles, titles + sizeof titles / sizeof *titles);
    std::vector<Count> agree(all.size()), marked(all.size());
    std::map<std::tuple<std::string, std::string, std::string>, Count> differ;
    for (uint64_t i = 0; i < count; i++) {
        const uint32_t w = first + i;
        const uint16_t n = brassdozen_manual_row(w);
        const std::string theirs = titleOf(disassembler->text(w), w);
        if (all[n] == theirs)
            (disassembler->marked() ? marked : agree)[n].add(w);
        else
            differ[{why(who, w, all[n], theirs), all[n], theirs}].add(w);
    }
    auto print = [](const Count &c, const std::string &why, const std::string &ours, const std::string &theirs) {
        if (c.words) printf("%lu\t%08x\t%s\t%s\t%s\n", c.words, c.first, why.c_str(), ours.c_str(), theirs.c_str());
    };
    for (size_t n = 0; n < all.size(); n++) {
        print(agree[n], "agree", all[n], all[n]);
        print(marked[n], "agree, marked", all[n], all[n]);
    }
    for (const auto &[titles, c] : differ) print(c, std::get<0>(titles), std::get<1>(titles), std::get<2>(titles));
}
