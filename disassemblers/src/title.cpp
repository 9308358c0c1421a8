#include "title.h"
#include <cctype>
#include <cstring>
#include <initializer_list>
#include <string_view>
#include <unordered_map>

namespace {

using std::string;
using view = std::string_view;

// the name, the operands (apart at commas outside brackets), and the comment
struct Line {
    view name;
    view ops[8];
    int count = 0;
    view note;
};

bool blank(char c) { return c == ' ' || c == '\t'; }

Line split(view text) {
    Line l;
    size_t at = text.find_first_of("@;");
    if (at != view::npos) {
        l.note = text.substr(at);
        text = text.substr(0, at);
    }
    size_t i = 0;
    while (i < text.size() && blank(text[i])) i++;
    size_t j = i;
    while (j < text.size() && !blank(text[j])) j++;
    l.name = text.substr(i, j - i);
    i = j;
    while (l.count < 8) {
        while (i < text.size() && (blank(text[i]) || text[i] == ',')) i++;
        if (i == text.size()) break;
        int deep = 0;
        for (j = i; j < text.size() && (deep || text[j] != ','); j++) {
            if (strchr("[{(", text[j])) deep++;
            if (strchr("]})", text[j])) deep--;
        }
        size_t end = j;
        while (end > i && blank(text[end - 1])) end--;
        l.ops[l.count++] = text.substr(i, end - i);
        i = j;
    }
    return l;
}

bool starts(view s, view p) { return s.substr(0, p.size()) == p; }
bool ends(view s, view p) { return s.size() >= p.size() && s.substr(s.size() - p.size()) == p; }
bool among(view s, std::initializer_list<view> l) {
    for (view x : l)
        if (x == s) return true;
    return false;
}
// a name, or it with one of these letters after it
bool with(view s, view name, const char *letters) {
    return s == name || (s.size() == name.size() + 1 && starts(s, name) && strchr(letters, s.back()));
}
string upper(view s) {
    string r(s);
    for (char &c : r) c = toupper(c);
    return r;
}

// what an operation takes last, from operand n on
const char *source(const Line &l, int n) {
    if (n >= l.count) return "?";
    if (starts(l.ops[n], "#")) return "immediate";
    if (n + 1 == l.count || l.ops[n + 1] == "rrx") return "register";
    return l.ops[n + 1].find('#') != view::npos ? "register" : "register-shifted register";
}

const char *const returns = "SUBS PC, LR and related instructions";

// data-processing; nothing if it is not
string operation(const Line &l) {
    // the operand that the source begins at
    static const std::unordered_map<view, int> from = {
        {"and", 2}, {"eor", 2}, {"sub", 2}, {"rsb", 2}, {"add", 2}, {"adc", 2}, {"sbc", 2}, {"rsc", 2},
        {"tst", 1}, {"teq", 1}, {"cmp", 1}, {"cmn", 1}, {"orr", 2}, {"mov", 1}, {"bic", 2}, {"mvn", 1},
    };
    view n = l.name;
    if (n.size() < 3 || n.size() > 4) return "";
    auto f = from.find(n.substr(0, 3));
    if (f == from.end()) return "";
    bool compare = among(f->first, {"tst", "teq", "cmp", "cmn"});
    // binutils: cmpp and its like have 15 in 15:12
    if (n.size() == 4 && n[3] != (compare ? 'p' : 's')) return "";
    bool s = n.size() == 4 && !compare;
    string kind = source(l, f->second);
    string name = upper(f->first);
    if (s && l.ops[0] == "pc" && kind != "register-shifted register") return returns;
    if (name == "ADD" || name == "SUB") {
        if (kind == "immediate" && !s && l.ops[1] == "pc") return "ADR";
        if (kind == "immediate") kind += ", ARM";
    }
    if (name == "MOV" && kind == "register") kind += ", ARM";
    return name + " (" + kind + ")";
}

string shift(const Line &l) {
    for (view k : {"lsl", "lsr", "asr", "ror", "rrx"}) {
        if (!with(l.name, k, "s")) continue;
        bool byRegister = l.count == 3 && !starts(l.ops[2], "#");
        if (l.name.size() == 4 && l.ops[0] == "pc" && !byRegister) return returns;
        if (k == "rrx") return "RRX";
        return upper(k) + (byRegister ? " (register)" : " (immediate)");
    }
    return "";
}

string status(const Line &l) {
    bool to = l.name == "msr";
    string r = upper(to ? l.ops[0] : l.ops[1]);
    size_t u = r.find('_');
    bool banked = !among(view(r).substr(0, 4), {"CPSR", "APSR", "SPSR"}) ||
                  (u != string::npos && among(view(r).substr(u + 1), {"ABT", "FIQ", "IRQ", "MON", "SVC", "UND", "HYP", "USR"}));
    if (banked) return to ? "MSR (Banked register)" : "MRS (Banked register)";
    return to ? string("MSR (") + source(l, 1) + ")" : "MRS";
}

string multiply(view n) {
    for (view k : {"mul", "mla", "umull", "umlal", "smull", "smlal"})
        if (with(n, k, "s")) return upper(k);
    for (view k : {"smlad", "smuad", "smlsd", "smusd", "smlald", "smlsld"})
        if (with(n, k, "x")) return upper(k);
    for (view k : {"smmla", "smmul", "smmls"})
        if (with(n, k, "r")) return upper(k);
    if (among(n, {"smlawb", "smlawt"})) return "SMLAWB, SMLAWT";
    if (among(n, {"smulwb", "smulwt"})) return "SMULWB, SMULWT";
    bool halves = n.size() > 2 && strchr("bt", n[n.size() - 1]) && strchr("bt", n[n.size() - 2]);
    if (halves && n.size() == 6 && starts(n, "smla")) return "SMLABB, SMLABT, SMLATB, SMLATT";
    if (halves && n.size() == 7 && starts(n, "smlal")) return "SMLALBB, SMLALBT, SMLALTB, SMLALTT";
    if (halves && n.size() == 6 && starts(n, "smul")) return "SMULBB, SMULBT, SMULTB, SMULTT";
    return "";
}

string block(const Line &l) {
    view n = l.name;
    bool load = starts(n, "ldm");
    if (ends(l.ops[1], "^")) {
        bool pc = l.ops[1].find("pc") != view::npos;
        return load ? pc ? "LDM (exception return)" : "LDM (User registers)" : "STM (User registers)";
    }
    view m = n.substr(3);
    if (among(m, load ? std::initializer_list<view>{"", "ia", "fd"} : std::initializer_list<view>{"", "ia", "ea"})) return load ? "LDM" : "STM";
    if (among(m, load ? std::initializer_list<view>{"da", "fa"} : std::initializer_list<view>{"da", "ed"})) return load ? "LDMDA" : "STMDA";
    if (among(m, load ? std::initializer_list<view>{"db", "ea"} : std::initializer_list<view>{"db", "fd"})) return load ? "LDMDB" : "STMDB";
    if (among(m, load ? std::initializer_list<view>{"ib", "ed"} : std::initializer_list<view>{"ib", "fa"})) return load ? "LDMIB" : "STMIB";
    return "";
}

// a load or a store of one register or of two, or a preload: by how its address is made
string access(const Line &l) {
    int k = 0;
    while (k < l.count && !starts(l.ops[k], "[")) k++;
    if (k == l.count) return "";
    view a = l.ops[k];
    view in = a.substr(1, a.find(']') - 1);
    size_t comma = in.find(',');
    view base = in.substr(0, comma);
    bool post = comma == view::npos && k + 1 < l.count;
    view offset = post ? l.ops[k + 1] : comma == view::npos ? view() : in.substr(comma + 1);
    while (starts(offset, " ")) offset.remove_prefix(1);
    view n = l.name;
    string name = upper(n);
    if (ends(n, "t")) return name;
    if (!offset.empty() && !starts(offset, "#")) return name + (n == "ldr" ? " (register, ARM)" : " (register)");
    if (n == "pli") return "PLI (immediate, literal)";
    if (base == "pc" && (starts(n, "ldr") || n == "pld")) return name + " (literal)";
    if (n == "str" && a == "[sp, #-4]!") return "PUSH, one register";
    if (n == "ldr" && a == "[sp]" && post && offset == "#4") return "POP, one register";
    return name + (among(n, {"ldr", "str", "ldrb", "strb", "ldrh", "strh"}) ? " (immediate, ARM)" : " (immediate)");
}

// a load or a store of a coprocessor, by its base
string transfer(const Line &l) {
    if (starts(l.name, "stc")) return "STC";
    for (view o : l.ops)
        if (starts(o, "[")) return starts(o, "[pc") ? "LDC (literal)" : "LDC (immediate)";
    return "?";
}

// a name under a condition, with 27:26 = 11
string coprocessor(const Line &l) {
    view n = l.name;
    if (n[0] == 'v' || starts(n, "fldm") || starts(n, "fstm")) return floating;
    if (among(n, {"ldc", "ldcl", "stc", "stcl"})) return transfer(l);
    return among(n, {"mrc", "mcr", "cdp", "mrrc", "mcrr", "svc"}) ? upper(n) : own;
}

// names of ARMv8 and later
bool later(view n) {
    for (view k : {"lda", "stl", "crc32", "aes", "sha1", "sha256"})
        if (starts(n, k)) return true;
    if (among(n, {"hlt", "sevl", "esb", "csdb", "tsb", "sb", "ssbb", "pssbb", "setpan", "dfb"})) return true;
    if (n[0] != 'v') return false;
    view v = n.substr(0, n.find('.'));
    return starts(v, "vmaxnm") || starts(v, "vminnm") || starts(v, "vrint") || starts(v, "vsel") || ends(v, "dot") || ends(v, "mmla") ||
           among(v, {"vcvta", "vcvtm", "vcvtn", "vcvtp", "vqrdmlah", "vqrdmlsh", "vcadd", "vcmla", "vfmab", "vfmat", "vfmal", "vfmsl", "vins", "vmovx", "vjcvt"});
}

}

std::string titleOf(const std::string &text, uint32_t w) {
    if (text.empty()) return "UNDEFINED";
    const Line l = split(text);
    view n = l.name;
    if (later(n)) return "ARMv8 " + upper(n.substr(0, n.find('.')));
    if (w >> 28 < 15 && (w >> 26 & 3) == 3) return coprocessor(l);
    // binutils: e1a00000
    if (n == "nop" && l.note.find("(mov r0, r0)") != view::npos) return "MOV (register, ARM)";
    // LLVM: e7ffdefe
    if (n == "trap") return "UDF";
    if (n == "movw") return "MOV (immediate), 16-bit";
    if (n == "movt") return "MOVT";
    for (const string &s : {operation(l), shift(l), multiply(n)})
        if (!s.empty()) return s;
    if (n == "mrs" || n == "msr") return status(l);
    if (n == "pkhbt" || n == "pkhtb") return "PKH";
    if (n == "swp" || n == "swpb") return "SWP, SWPB";
    if (n == "blx") return strchr("#0", l.ops[0][0]) ? "BLX (immediate)" : "BLX (register)";
    if (n == "push" || n == "pop") return upper(n) + (l.note.find("(str") != view::npos || l.note.find("(ldr") != view::npos ? ", one register" : "");
    if (starts(n, "ldm") || starts(n, "stm")) return block(l);
    if (starts(n, "ldrex") || starts(n, "strex")) return upper(n);
    if (starts(n, "ldr") || starts(n, "str") || n == "pld" || n == "pldw" || n == "pli") return access(l);
    // a hint by its number
    if (n == "hint" || (n == "nop" && l.count && l.ops[0] != "{0}")) return "unallocated hint";
    if (starts(n, "cps")) return "CPS";
    if (starts(n, "srs")) return "SRS";
    if (starts(n, "rfe")) return "RFE";
    if (among(n, {"ldc2", "ldc2l"})) return "LDC2";
    if (among(n, {"stc2", "stc2l"})) return "STC2";
    if (among(n.substr(0, 4), {"vld1", "vld2", "vld3", "vld4", "vst1", "vst2", "vst3", "vst4"})) return "Advanced SIMD load/store";
    if (n[0] == 'v') return "Advanced SIMD data-processing";
    return upper(n);
}
