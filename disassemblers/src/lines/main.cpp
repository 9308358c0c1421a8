// Compares the lines of the words that have VALUE in the bits outside ANY, all with flow next or refused, with what a disassembler, WHO,
// reads: the name and the operands. It prints a line for each class that comes up: how many words, the first of them, the class, that word's
// line here and their text. It fails if a difference has no class.
#include "../disassembler.h"
#include "brassdozen.h"
#include <algorithm>
#include <cstdio>
#include <cstdlib>
#include <map>
#include <string>
#include <unordered_map>

namespace {

using std::string;

// a name and operands, as the listing spells them; no name is no instruction
struct Reading {
    string name;
    string operands;
};

// the text, without the blanks around it
string trimmed(const string &text) {
    const size_t first = text.find_first_not_of(" \t\n");
    return first == string::npos ? "" : text.substr(first, text.find_last_not_of(" \t\n") - first + 1);
}

// the same with one blank where there are tabs
string oneLine(string text) {
    for (char &c : text)
        if (c == '\t') c = ' ';
    return trimmed(text);
}

Reading split(const string &text) {
    const string t = trimmed(text);
    const size_t end = t.find_first_of(" \t");
    return end == string::npos ? Reading{t, ""} : Reading{t.substr(0, end), trimmed(t.substr(end))};
}

// what the line says between the word and the flow
string line(uint32_t w) {
    uint8_t out[BRASSDOZEN_LINE];
    const uint32_t length = brassdozen_result(brassdozen_line(0, w, out, sizeof out));
    return string(out, out + length).substr(18, length - 19);
}

Reading ours(const string &line) {
    const size_t flow = line.rfind(" next");
    return flow == string::npos ? Reading{} : split(line.substr(0, flow));
}

string coreRegister(const string &r) {
    static const std::unordered_map<string, string> others = {{"sl", "r10"}, {"fp", "r11"}, {"ip", "r12"}};
    const auto other = others.find(r);
    return other == others.end() ? r : other->second;
}

// "[r1, #-16]" as "[r1:-:-16:o:1]"
string address(const string &a) {
    const string in = a.substr(1, a.find(']') - 1);
    const size_t offset = in.find(", #");
    return "[" + coreRegister(in.substr(0, offset)) + ":-:" + (offset == string::npos ? "0" : in.substr(offset + 3)) + ":o:1]";
}

// "asr #3" as "asr,3"; else a register, a number or an option
string operand(const string &o) {
    const size_t amount = o.find(" #");
    return amount == string::npos ? coreRegister(o) : o.substr(0, amount) + "," + o.substr(amount + 2);
}

// "r1, #4, fp, lsl #2" as "r1 #4 r11 lsl,2"
string operands(const string &o) {
    if (o[0] == '[') return address(o);
    const size_t end = o.find(", ");
    return end == string::npos ? operand(o) : operand(o.substr(0, end)) + " " + operands(o.substr(end + 2));
}

// condition below 15, 27:26 = 11
bool isCoprocessor(uint32_t w) { return w >> 28 < 15 && (w >> 26 & 3) == 3; }

bool isNumber(const string &o) { return o.find_first_not_of("0123456789") == string::npos; }

// an operand of a coprocessor instruction; binutils has "15", "cr7" and "{3}" where LLVM has "p15", "c7" and "#3"
string coprocessorOperand(const string &o, bool first) {
    if (isNumber(o)) return (first ? "p" : "#") + o;
    if (o.compare(0, 2, "cr") == 0) return "c" + o.substr(2);
    if (o[0] == '{') return "#" + o.substr(1, o.size() - 2);
    return coreRegister(o);
}

// "[r1, #-16]!" as "[r1:-:-16:b:4]", "[r1], #4" as "[r1:-:4:a:4]", and the unindexed "[r1], {4}" as "[r1:{4}]"
string transferAddress(const string &a) {
    const size_t end = a.find(']'), offset = a.find(", #"), bare = a.find(", {");
    const string base = "[" + coreRegister(a.substr(1, std::min(end, offset) - 1)) + ":";
    if (bare != string::npos) return base + a.substr(bare + 2) + "]";
    const bool after = offset != string::npos && offset > end;
    const string by = offset == string::npos ? "0" : a.substr(offset + 3, after ? string::npos : end - offset - 3);
    return base + "-:" + by + (after ? ":a:4]" : a.back() == '!' ? ":b:4]" : ":o:4]");
}

string coprocessorOperands(const string &o, bool first = true) {
    if (o[0] == '[') return transferAddress(o);
    const size_t end = o.find(", ");
    if (end == string::npos) return coprocessorOperand(o, first);
    return coprocessorOperand(o.substr(0, end), first) + " " + coprocessorOperands(o.substr(end + 2), false);
}

Reading theirs(uint32_t w, const string &text) {
    const Reading r = split(text.substr(0, text.find_first_of("@;")));
    return {r.name, isCoprocessor(w) ? coprocessorOperands(r.operands) : operands(r.operands)};
}

// 3:0 of a barrier, by the name of its option or as a number; -1 if it is neither
int option(const string &o) {
    static const std::unordered_map<string, int> named = {
        {"oshld", 1}, {"oshst", 2}, {"osh", 3}, {"nshld", 5}, {"nshst", 6}, {"unst", 6}, {"nsh", 7}, {"un", 7},
        {"ishld", 9}, {"ishst", 10}, {"ish", 11}, {"ld", 13}, {"st", 14}, {"sy", 15},
    };
    if (o[0] == '#') return strtol(o.c_str() + 1, nullptr, 0);
    const auto n = named.find(o);
    return n == named.end() ? -1 : n->second;
}

// names of ARMv8 and later
bool later(const string &name) { return name == "ssbb" || name == "pssbb" || name == "dfb" || name == "sb"; }

bool isBarrier(const string &name) { return name == "dsb" || name == "dmb" || name == "isb"; }

// the line's address with the sign of a zero that is subtracted
string signedZero(const string &address, uint32_t w) {
    const size_t zero = address.find(":0:");
    return zero == string::npos || w >> 23 & 1 ? address : address.substr(0, zero) + ":-0:" + address.substr(zero + 3);
}

// the operands with 0 for the 32 that a shift to the right is by
string zeroFor32(const string &operands) {
    const size_t by = operands.find(" asr,32");
    return by == string::npos ? operands : operands.substr(0, by) + " asr,0";
}

// the operands with the mode that a displacement of 0 has where nothing is written back
string notWritten(string operands) {
    if (operands.find(":0:") != string::npos || operands.find(":-0:") != string::npos) operands[operands.size() - 4] = 'o';
    return operands;
}

// the operands with the flags for the register 15 that they go to
string toFlags(string operands, const char *flags) {
    const size_t pc = operands.find(" pc ");
    return pc == string::npos ? operands : operands.replace(pc + 1, 2, flags);
}

bool isTransfer(const string &name) { return name == "ldc" || name == "ldcl" || name == "stc" || name == "stcl"; }

// a name that the manual has for any coprocessor
bool isGeneric(const string &name) { return isTransfer(name) || name == "mrc" || name == "mcr" || name == "cdp" || name == "mrrc" || name == "mcrr"; }

// the class of a word of a coprocessor or of a supervisor call on which the two differ
string coprocessorClass(uint32_t w, const Reading &here, const Reading &there) {
    const uint32_t coprocessor = w >> 8 & 15;
    const bool same = here.name == there.name, transfer = isTransfer(here.name);
    if (here.name.empty() && (w >> 24 & 15) == 15) return "refused here: a supervisor call";
    if (here.name.empty() && (coprocessor == 10 || coprocessor == 11)) return "refused here: coprocessor 10 or 11";
    if (here.name.empty() && (w >> 21 & 31) == 0) return "they name what is UNDEFINED";
    if (same && transfer && !(w >> 24 & 1) && !(w >> 21 & 1) && there.operands.find(":{") != string::npos) return "unindexed, which the line has as post";
    if (same && transfer && signedZero(here.operands, w) == there.operands) return "minus zero, which they tell from zero";
    if (same && transfer && notWritten(here.operands) == there.operands) return "written back by 0, which they do not show";
    if (same && transfer && notWritten(signedZero(here.operands, w)) == there.operands) return "minus zero, whose write-back they do not show";
    if (same && (toFlags(here.operands, "APSR_nzcv") == there.operands || toFlags(here.operands, "apsr_nzcv") == there.operands))
        return "to the flags, where the line has pc";
    if (!here.name.empty() && coprocessor == 9 && (there.name.empty() || there.name[0] == 'v')) return "ARMv8 and later: coprocessor 9 has half precision";
    if (!here.name.empty() && there.name[0] == 'v') return "ARMv8-M: " + there.name;
    if (!here.name.empty() && !there.name.empty() && !isGeneric(there.name)) return "they name what one coprocessor makes of it";
    return "?";
}

bool isProduct(const string &name) { return name.compare(0, 4, "smul") == 0; }

// whether a bit of the word is not as its page draws it in parentheses
bool strayBits(uint32_t w, const string &name) { return (name == "clrex" && (w & 15) != 15) || (isProduct(name) && (w >> 12 & 15) != 0); }

// "?" if there is none
string classOf(uint32_t w, const Reading &here, const Reading &there, bool marked) {
    if (here.name.empty() && there.name.empty()) return "both have no instruction";
    if (here.name == there.name && here.operands == there.operands) return marked ? "agree, and they mark it as unpredictable" : "agree";
    if (isCoprocessor(w)) return coprocessorClass(w, here, there);
    if (here.name == there.name && isBarrier(here.name) && option(here.operands) == int(w & 15) && option(there.operands) == int(w & 15))
        return "the same option, spelled otherwise";
    if (here.name == there.name && signedZero(here.operands, w) == there.operands) return "minus zero, which they tell from zero";
    if (here.name == there.name && zeroFor32(here.operands) == there.operands) return "asr by 32, which they spell as 0";
    if (later(there.name)) return "ARMv8 and later: " + there.name;
    if (strayBits(w, here.name) && there.name.empty()) return "should-be bits: they have no instruction";
    if (strayBits(w, here.name) && here.name != there.name) return "should-be bits: they name another instruction";
    return "?";
}

struct Count {
    unsigned long words = 0;
    uint32_t first = 0;
    string here, there;
};

}

int main(int argc, char **argv) {
    if (argc != 4) {
        fprintf(stderr, "usage: lines WHO VALUE ANY\n");
        return 2;
    }
    auto disassembler = argv[1] == string("binutils") ? binutils() : llvm14();
    const uint32_t value = strtoul(argv[2], nullptr, 16), any = strtoul(argv[3], nullptr, 16);
    std::map<string, Count> classes;
    uint32_t bits = 0;
    do {
        const uint32_t w = value | bits;
        const string here = line(w), there = disassembler->text(w);
        Count &c = classes[classOf(w, ours(here), theirs(w, there), disassembler->marked())];
        if (!c.words++) c = {1, w, here, oneLine(there)};
        // the next larger number of bits in `any` alone, and 0 after the last
        bits = (bits - any) & any;
    } while (bits != 0);
    unsigned long all = 0;
    for (const auto &[name, c] : classes) {
        printf("%11lu  %08x  %s; %s | %s\n", c.words, c.first, name.c_str(), c.here.c_str(), c.there.c_str());
        all += c.words;
    }
    printf("%11lu  words\n", all);
    return classes.count("?");
}
