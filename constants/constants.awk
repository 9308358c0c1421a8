# Constants as constants: awk -f constants/constants.awk <MODULE >MODULE, over an LLVM module as LLVM prints it before any pass.
#
# Rattle keeps no constant in memory: the bytes of a table are stored on the stack anew at each use, and LLVM leaves them there. Here each whole run
# of such stores becomes one copy from a constant of the module, which LLVM can read in place. A run is lines of one function with none between them,
#
#     store iN LITERAL, ptr %r, align ..
#     %g = getelementptr i8, ptr %r, i64 OFFSET
#     store iN LITERAL, ptr %g, align ..
#     ..
#
# with iN one of i8, i16, i32, i64, each OFFSET the number of bytes stored so far, no other use of a %g, and SIZE bytes in all, the size of
# `%r = alloca [SIZE x i8], align A` of that function. It becomes
#
#     call void @llvm.memcpy.p0.p0.i64(ptr align A %r, ptr align A @constant.K, i64 SIZE, i1 false)
#
# It is the same program. Nothing stands between the stores, so nothing sees a state between them. They write each byte of the alloca once, and
# nothing else; the copy writes the same bytes at the same point. It reads memory of its own, of which no byte is undefined, which is never written,
# and which does not overlap the alloca. What comes before or after it, later writes to the alloca among that, is untouched. That the copy can be left
# out, and the constant read, is LLVM's to show.
#
# All else is left to the letter, and so are runs of fewer than 8 bytes. A module is refused, with status 2 and no output, if it is not little-endian,
# has a name @constant. already, or ends within a function. constants/check has a case for each.

BEGIN {
    LEAST = 8
    COPY = "void @llvm.memcpy.p0.p0.i64("
    NAME = "%[-a-zA-Z$._0-9]+"
    ALLOCA = "^  " NAME " = alloca \\[[0-9]+ x i8\\], align [0-9]+$"
    PLACE = "^  " NAME " = getelementptr i8, ptr " NAME ", i64 [0-9]+$"
    STORE = "^  store i(8|16|32|64) (0|-?[1-9][0-9]*), ptr " NAME "(, align [0-9]+)?$"
}

/^target datalayout = "e-/ { little = 1 }
index($0, "@constant.") { named = 1 }
index($0, "declare " COPY) == 1 { declared = 1 }

# The lines of a function wait until its last, when it is known how often each name is used.
/^define / {
    within = 1
    lines = 0
    split("", uses)
    split("", size)
    split("", align)
}
!within { put($0); next }
{
    line[++lines] = $0
    for (rest = $0; match(rest, NAME); rest = substr(rest, RSTART + RLENGTH)) uses[substr(rest, RSTART, RLENGTH)]++
    if (read($0, ALLOCA)) {
        size[word[1]] = substr(word[4], 2)
        align[word[1]] = word[8]
    }
}
/^}/ {
    within = 0
    rewrite()
}

END {
    if (!little) refuse("the module is not little-endian")
    if (named) refuse("the module has a name @constant. already")
    if (within) refuse("the module ends within a function")
    for (k = 1; k <= puts; k++) print text[k]
    for (k = 1; k <= constants; k++) print constant[k]
    if (constants && !declared) print "declare " COPY "ptr, ptr, i64, i1 immarg)"
}

function refuse(why) {
    print "constants: " why > "/dev/stderr"
    exit 2
}

function put(one) { text[++puts] = one }

# Reads the words of a line of this form.
function read(one, form) {
    if (one !~ form) return 0
    gsub(/,/, "", one)
    return split(one, word, " ")
}

# Puts the function whose lines are read, with a copy for each whole run.
function rewrite(    i, last, aligned) {
    for (i = 1; i <= lines; i++) {
        last = run_from(i)
        if (last) {
            aligned = "ptr align " align[target] " "
            put("  call " COPY aligned target ", " aligned constant_of(bytes, align[target]) ", i64 " size[target] ", i1 false)")
            i = last
        } else put(line[i])
    }
}

# The last line of the whole run from line i on, or 0. Where there is one, `target` is what it fills, and `bytes` what with.
function run_from(i,    stored, place) {
    if (!read(line[i], STORE) || !(word[5] in size)) return 0
    target = word[5]
    bytes = bytes_of(word[2], word[3])
    stored = bits(word[2]) / 8
    while (read(line[i + 1], PLACE) && word[6] == target && word[8] == stored && uses[word[1]] == 2) {
        place = word[1]
        if (!read(line[i + 2], STORE) || word[5] != place) break
        bytes = bytes bytes_of(word[2], word[3])
        stored += bits(word[2]) / 8
        i += 2
    }
    return stored == size[target] && stored >= LEAST ? i : 0
}

function bits(type) { return substr(type, 2) + 0 }

# The bytes of a literal, low byte first. awk counts exactly to 2 ^ 53 alone, so the number is cut in two, ten digits each. A negative one has the
# complements of the bytes of the number that is less by one.
function bytes_of(type, literal,    negative, high, low, k, byte, all) {
    negative = sub(/^-/, "", literal)
    literal = sprintf("%20s", literal)
    high = substr(literal, 1, 10) + 0
    low = substr(literal, 11) - negative
    if (low < 0) {
        high -= 1
        low += 10000000000
    }
    for (k = 0; k < bits(type); k += 8) {
        low += high % 256 * 10000000000
        high = int(high / 256)
        byte = low % 256
        low = int(low / 256)
        all = all sprintf("\\%02X", negative ? 255 - byte : byte)
    }
    return all
}

# The name of the constant with these bytes, three characters each, at this alignment.
function constant_of(all, at,    value) {
    value = "private unnamed_addr constant [" length(all) / 3 " x i8] c\"" all "\", align " at
    if (!(value in name)) {
        name[value] = "@constant." ++constants
        constant[constants] = name[value] " = " value
    }
    return name[value]
}
