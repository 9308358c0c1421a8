/* The header's promises, through the header. Standard input has lines as crates/answers/stdout has them: an address, a digest and the line of
   a word, as the oracle has them. */
#include "brassdozen.h"
#include "check.h"

#include <inttypes.h>
#include <string.h>

enum { UNTOUCHED = 0xa5, ROOM = BRASSDOZEN_ROW + 3 };

static int untouched(const void *from, const void *to)
{
    for (const unsigned char *at = from; at != to; at++)
        if (*at != UNTOUCHED)
            return 0;
    return 1;
}

/* A row of each length: it is written whole, or not at all. */
static void check_row(uint32_t word, uint64_t address)
{
    uint64_t whole[ROOM], row[ROOM];
    memset(whole, UNTOUCHED, sizeof whole);
    unsigned refusal = brassdozen_decode(word, address, whole, ROOM);
    uint64_t home = brassdozen_home(word);
    CHECK(brassdozen_refusal(home) == refusal && brassdozen_refusal(brassdozen_home_zeros(word)) == refusal);
    if (refusal == 0) {
        CHECK(untouched(whole + BRASSDOZEN_ROW, whole + ROOM));
        CHECK(whole[0] == address && whole[2] == word >> 28);
        CHECK(brassdozen_encode(whole, BRASSDOZEN_ROW) == home);
        CHECK(brassdozen_home(brassdozen_result(home)) == home);
        uint64_t zeros = brassdozen_home_zeros(word);
        CHECK(brassdozen_encode_zeros(whole, BRASSDOZEN_ROW) == zeros);
        CHECK(brassdozen_home_zeros(brassdozen_result(home)) == zeros && brassdozen_home(brassdozen_result(zeros)) == home);
    } else {
        CHECK(refusal == BRASSDOZEN_COPROCESSOR || refusal == BRASSDOZEN_NO_ROW);
        CHECK(brassdozen_result(home) == 0);
        CHECK(untouched(whole, whole + ROOM));
    }
    for (size_t length = 0; length < ROOM; length++) {
        memset(row, UNTOUCHED, sizeof row);
        unsigned given = brassdozen_decode(word, address, row, length);
        if (refusal == 0 && length < BRASSDOZEN_ROW) {
            CHECK(given == BRASSDOZEN_NO_ROOM);
            CHECK(untouched(row, row + ROOM));
        } else {
            CHECK(given == refusal);
            CHECK(memcmp(row, whole, sizeof row) == 0);
        }
    }
}

/* Bytes, low byte first, with some after them: fewer than four are refused, whatever the row. */
static void check_bytes(uint32_t word, uint64_t address)
{
    uint8_t bytes[6] = {(uint8_t)word, (uint8_t)(word >> 8), (uint8_t)(word >> 16), (uint8_t)(word >> 24), 0xff, 0xff};
    uint64_t whole[ROOM], row[ROOM];
    memset(whole, UNTOUCHED, sizeof whole);
    unsigned refusal = brassdozen_decode(word, address, whole, ROOM);
    for (size_t count = 0; count <= sizeof bytes; count++) {
        memset(row, UNTOUCHED, sizeof row);
        CHECK(brassdozen_decode_bytes(bytes, count, address, row, ROOM) == (count < 4 ? BRASSDOZEN_SHORT : refusal));
        CHECK(count < 4 ? untouched(row, row + ROOM) : memcmp(row, whole, sizeof row) == 0);
    }
    memset(row, UNTOUCHED, sizeof row);
    CHECK(brassdozen_decode_bytes(bytes, 3, address, row, 0) == BRASSDOZEN_SHORT);
    CHECK(brassdozen_decode_bytes(bytes, 4, address, row, 0) == (refusal ? refusal : BRASSDOZEN_NO_ROOM));
    CHECK(untouched(row, row + ROOM));
}

/* An accepted word's row, with each number in turn beyond the width of its type. */
static void check_wide(uint32_t word, uint64_t address)
{
    const uint64_t no_word = (uint64_t)BRASSDOZEN_NO_WORD << 32;
    uint64_t row[BRASSDOZEN_ROW];
    if (brassdozen_decode(word, address, row, BRASSDOZEN_ROW) != 0)
        return;
    for (size_t place = 1; place < BRASSDOZEN_ROW; place++) {
        row[place] += (uint64_t)1 << 40;
        CHECK(brassdozen_encode(row, BRASSDOZEN_ROW) == no_word);
        row[place] -= (uint64_t)1 << 40;
    }
    row[5 + 1] += 256;
    CHECK(brassdozen_encode(row, BRASSDOZEN_ROW) == no_word);
}

/* A line in each room: it is written whole, or not at all. */
static void check_line(uint64_t address, uint32_t word, const char *expected)
{
    size_t whole = strlen(expected);
    uint8_t out[BRASSDOZEN_LINE + 3];
    for (size_t length = 0; length <= sizeof out; length++) {
        memset(out, UNTOUCHED, sizeof out);
        uint64_t given = brassdozen_line(address, word, out, length);
        if (length < whole) {
            CHECK(brassdozen_refusal(given) == BRASSDOZEN_NO_ROOM && brassdozen_result(given) == 0);
            CHECK(untouched(out, out + sizeof out));
        } else {
            CHECK(given == whole);
            CHECK(memcmp(out, expected, whole) == 0);
            CHECK(untouched(out + whole, out + sizeof out));
        }
    }
}

/* The listing of the words so far, at base 0: what stands between its first and its last line are the words' lines. */
static void check_listing(const uint8_t *words, size_t count)
{
    static uint8_t section[9 + 4 * 4096] = "RSX\1", out[BRASSDOZEN_LISTING + 3];
    memcpy(section + 9, words, 4 * count);
    memset(out, UNTOUCHED, sizeof out);
    uint64_t length = brassdozen_listing(section, 9 + 4 * count, out, sizeof out);
    CHECK(brassdozen_refusal(length) == 0 && length <= BRASSDOZEN_LISTING);
    CHECK(untouched(out + length, out + sizeof out));

    char expected[64];
    size_t at = (size_t)sprintf(expected, "RSX 1 00000000 %zu\n", count), named = 0;
    CHECK(memcmp(out, expected, at) == 0);
    for (size_t place = 0; place < count; place++) {
        const uint8_t *byte = words + 4 * place;
        uint32_t word = byte[0] | (uint32_t)byte[1] << 8 | (uint32_t)byte[2] << 16 | (uint32_t)byte[3] << 24;
        uint8_t line[BRASSDOZEN_LINE];
        uint64_t bytes = brassdozen_line(4 * place, word, line, sizeof line);
        CHECK(memcmp(out + at, line, bytes) == 0);
        at += bytes;
        named += brassdozen_refusal(brassdozen_home(word)) == 0;
        uint32_t here[3];
        CHECK(brassdozen_place(section, 9 + 4 * count, (uint32_t)place, here, 3) == 0);
        CHECK(here[0] == 4 * place && here[1] == word && here[2] == 0);
    }
    size_t last = (size_t)sprintf(expected, "%zu words %zu named %zu refused\n", count, named, count - named);
    CHECK(memcmp(out + at, expected, last) == 0 && at + last == length);

    memset(out, UNTOUCHED, sizeof out);
    CHECK(brassdozen_listing(section, 9 + 4 * count, out, length) == length);
    CHECK(untouched(out + length, out + sizeof out));
    memset(out, UNTOUCHED, sizeof out);
    CHECK(brassdozen_refusal(brassdozen_listing(section, 9 + 4 * count, out, length - 1)) == BRASSDOZEN_NO_ROOM);
    CHECK(untouched(out, out + sizeof out));

    /* One byte short of whole words. */
    if (count > 0) {
        CHECK(brassdozen_listing(section, 8 + 4 * count, out, sizeof out) == 10);
        CHECK(memcmp(out, "refused 7\n", 10) == 0);
    }
}

/* What stands at each place of a section, in each room: it is written whole, or not at all. */
static void check_place(void)
{
    uint8_t section[] = {'R', 'S', 'X', 2, 0, 0, 0x80, 0, 0, 1, 0, 1, 0, 0, 0, 1, 0, 0, 0, 0x1e, 0xff, 0x2f, 0xe1, 0x78, 0x56, 0x34, 0x12};
    static const uint32_t expected[2][3] = {{0x8000, 0xe12fff1e, 0}, {0x8004, 0x12345678, 1}};
    uint32_t out[5];
    for (size_t length = 0; length <= 5; length++) {
        for (uint32_t place = 0; place < 4; place++) {
            unsigned refusal = place >= 2 ? BRASSDOZEN_NO_PLACE : length < 3 ? BRASSDOZEN_NO_ROOM : 0;
            memset(out, UNTOUCHED, sizeof out);
            CHECK(brassdozen_place(section, sizeof section, place, out, length) == refusal);
            CHECK(refusal ? untouched(out, out + 5) : memcmp(out, expected[place], sizeof expected[place]) == 0 && untouched(out + 3, out + 5));
        }
        memset(out, UNTOUCHED, sizeof out);
        CHECK(brassdozen_place(section, sizeof section, UINT32_MAX, out, length) == BRASSDOZEN_NO_PLACE);
        CHECK(brassdozen_place(section, 8, 0, out, length) == BRASSDOZEN_BAD_LENGTH);
        CHECK(untouched(out, out + 5));
    }
    section[11] = 2; /* the range is no longer in the section */
    CHECK(brassdozen_place(section, sizeof section, 9, out, 0) == BRASSDOZEN_BAD_RANGES);
}

typedef uint64_t converter(const uint8_t *, size_t, uint8_t *, size_t);

static uint8_t lent[BRASSDOZEN_SECTION + 3];

/* A section as one of another version, or of its own: it is written whole, or not at all. */
static void check_converted(converter *convert, const uint8_t *section, size_t bytes, const uint8_t *expected, size_t whole)
{
    const size_t lengths[] = {0, whole - 1, whole, whole + 3};
    for (size_t n = 0; n < sizeof lengths / sizeof *lengths; n++) {
        memset(lent, UNTOUCHED, sizeof lent);
        uint64_t given = convert(section, bytes, lent, lengths[n]);
        if (lengths[n] < whole) {
            CHECK(brassdozen_refusal(given) == BRASSDOZEN_NO_ROOM && brassdozen_result(given) == 0);
            CHECK(untouched(lent, lent + sizeof lent));
        } else {
            CHECK(given == whole);
            CHECK(memcmp(lent, expected, whole) == 0);
            CHECK(untouched(lent + whole, lent + sizeof lent));
        }
    }
}

/* A section that is not converted, whatever the room. */
static void check_refused(converter *convert, const uint8_t *section, size_t bytes, unsigned refusal)
{
    const size_t lengths[] = {0, sizeof lent};
    for (size_t n = 0; n < sizeof lengths / sizeof *lengths; n++) {
        memset(lent, UNTOUCHED, sizeof lent);
        uint64_t given = convert(section, bytes, lent, lengths[n]);
        CHECK(brassdozen_refusal(given) == refusal && brassdozen_result(given) == 0);
        CHECK(untouched(lent, lent + sizeof lent));
    }
}

/* The words so far, without data in both versions, and with. */
static void check_conversion(const uint8_t *words, size_t count)
{
    static uint8_t one[9 + 4 * 4096] = "RSX\1", two[11 + 4 * 4096] = "RSX\2", data[19 + 4 * 4096] = "RSX\2";
    const size_t one_bytes = 9 + 4 * count, two_bytes = 11 + 4 * count, data_bytes = 19 + 4 * count;
    memcpy(one + 9, words, 4 * count);
    memcpy(two + 11, words, 4 * count);
    check_converted(brassdozen_to_v1, one, one_bytes, one, one_bytes);
    check_converted(brassdozen_to_v2, one, one_bytes, two, two_bytes);
    check_converted(brassdozen_to_v1, two, two_bytes, one, one_bytes);
    check_converted(brassdozen_to_v2, two, two_bytes, two, two_bytes);

    /* A range of one word, the first; of none; and of the word after the last. */
    memcpy(data + 19, words, 4 * count);
    data[9] = 1;
    data[15] = 1;
    if (count > 0) {
        check_refused(brassdozen_to_v1, data, data_bytes, BRASSDOZEN_HAS_RANGES);
        check_converted(brassdozen_to_v2, data, data_bytes, data, data_bytes);
        static uint8_t listing[BRASSDOZEN_LISTING];
        uint64_t length = brassdozen_listing(data, data_bytes, listing, sizeof listing);
        char expected[64];
        size_t at = (size_t)sprintf(expected, "RSX 2 00000000 %zu\n", count);
        sprintf(expected + at, "00000000 %02x%02x%02x%02x data\n", words[3], words[2], words[1], words[0]);
        CHECK(memcmp(listing, expected, strlen(expected)) == 0);
        CHECK(memcmp(listing + length - 8, " 1 data\n", 8) == 0);
    }
    data[15] = 0;
    check_refused(brassdozen_to_v1, data, data_bytes, BRASSDOZEN_BAD_RANGES);
    check_refused(brassdozen_to_v2, data, data_bytes, BRASSDOZEN_BAD_RANGES);
    data[15] = 1;
    data[11] = (uint8_t)count;
    data[12] = (uint8_t)(count >> 8);
    check_refused(brassdozen_to_v1, data, data_bytes, BRASSDOZEN_BAD_RANGES);
    check_refused(brassdozen_to_v2, data, data_bytes, BRASSDOZEN_BAD_RANGES);
    data[11] = data[12] = 0;

    /* Cut short: of the first nine bytes, in the count, in the range, and in the words. */
    const size_t cut[] = {0, 8, 9, 10, 11, 18};
    for (size_t n = 0; n < sizeof cut / sizeof *cut; n++) {
        check_refused(brassdozen_to_v1, data, cut[n], BRASSDOZEN_BAD_LENGTH);
        check_refused(brassdozen_to_v2, data, cut[n], BRASSDOZEN_BAD_LENGTH);
    }
    if (count > 0) {
        check_refused(brassdozen_to_v2, data, data_bytes - 1, BRASSDOZEN_BAD_LENGTH);
        check_refused(brassdozen_to_v2, one, one_bytes - 1, BRASSDOZEN_BAD_LENGTH);
    }
    one[5] = 2;
    check_refused(brassdozen_to_v2, one, one_bytes, BRASSDOZEN_BAD_BASE);
    one[5] = 0;
    one[3] = 3;
    check_refused(brassdozen_to_v1, one, one_bytes, BRASSDOZEN_BAD_VERSION);
    one[3] = 1;
    one[2] = 'Y';
    check_refused(brassdozen_to_v1, one, one_bytes, BRASSDOZEN_BAD_MARK);
    one[2] = 'X';
}

/* A section of version 2 at 8000, with each kind of record: 0 beq to 3, 1 bl out, 2 b to 6, 3 blx r3, 4 blx to the middle of 0, 5 bxne lr,
   6 bne to 8, 7 a supervisor call, 8 beq to 10, 9 data, 10 a word that goes on, 11 blx out. */
enum { WALKED = 12, WALKED_BYTES = 19 + 4 * WALKED };
static const uint32_t walked[WALKED] = {0x0a000001, 0xeb03e00d, 0xea000002, 0xe12fff33, 0xfbfffffa, 0x112fff1e,
                                        0x1a000000, 0xef000000, 0x0a000000, 0xe1a00000, 0xe1a00000, 0xfa000000};

/* A walk with each room: the report is written whole, or not at all. */
static void check_report(const uint8_t *section, uint32_t entry, const uint32_t (*expected)[3], size_t count, uint32_t words)
{
    uint32_t records[3 * 32];
    const size_t whole = 3 * count, room = sizeof records / sizeof *records;
    CHECK(whole + 3 <= room);
    for (size_t length = 0; length <= room; length++) {
        memset(records, UNTOUCHED, sizeof records);
        uint64_t given = brassdozen_walk(section, WALKED_BYTES, entry, records, length);
        if (length < whole) {
            CHECK(brassdozen_refusal(given) == BRASSDOZEN_NO_ROOM && brassdozen_result(given) == 0);
            CHECK(untouched(records, records + room));
        } else {
            CHECK(brassdozen_refusal(given) == 0);
            CHECK(brassdozen_walk_records(given) == count && brassdozen_walk_words(given) == words);
            CHECK(memcmp(records, expected, 4 * whole) == 0);
            CHECK(untouched(records + whole, records + room));
        }
    }
}

/* A walk that is refused, whatever the room. */
static void check_no_walk(const uint8_t *section, size_t bytes, uint32_t entry, unsigned refusal)
{
    static uint32_t records[BRASSDOZEN_REPORT];
    const size_t room = sizeof records / sizeof *records, lengths[] = {0, 2, 3, room};
    memset(records, UNTOUCHED, sizeof records);
    for (size_t n = 0; n < sizeof lengths / sizeof *lengths; n++) {
        uint64_t given = brassdozen_walk(section, bytes, entry, records, lengths[n]);
        CHECK(brassdozen_refusal(given) == refusal && brassdozen_result(given) == 0);
        CHECK(untouched(records, records + room));
    }
}

static void check_walk(void)
{
    static const uint32_t from_0[][3] = {
        {0, BRASSDOZEN_REACHED, 0x0a000001},
        {1, BRASSDOZEN_REACHED, 0xeb03e00d},
        {1, BRASSDOZEN_OUT, 0x00100040},
        {2, BRASSDOZEN_REACHED, 0xea000002},
        {3, BRASSDOZEN_REACHED, 0xe12fff33},
        {3, BRASSDOZEN_UNKNOWN, 0},
        {4, BRASSDOZEN_REACHED, 0xfbfffffa},
        {4, BRASSDOZEN_THUMB, 0x00008002},
        {5, BRASSDOZEN_REACHED, 0x112fff1e},
        {6, BRASSDOZEN_REACHED, 0x1a000000},
        {7, BRASSDOZEN_REACHED, 0xef000000},
        {7, BRASSDOZEN_STOPPED, BRASSDOZEN_NO_ROW},
        {8, BRASSDOZEN_REACHED, 0x0a000000},
        {9, BRASSDOZEN_REACHED, 0xe1a00000},
        {9, BRASSDOZEN_STOPPED, 0},
        {10, BRASSDOZEN_REACHED, 0xe1a00000},
        {11, BRASSDOZEN_REACHED, 0xfa000000},
        {11, BRASSDOZEN_OUT, 0x00008034},
        {11, BRASSDOZEN_THUMB, 0x00008034},
        {11, BRASSDOZEN_END, 0},
    };
    /* From 2 all but 0, 1 and what stands between 2 and its target. */
    enum { ALL = sizeof from_0 / sizeof *from_0, FROM_2 = ALL - 8 };
    uint32_t from_2[FROM_2][3];
    memcpy(from_2, from_0 + 3, sizeof *from_0);
    memcpy(from_2 + 1, from_0 + 9, (ALL - 9) * sizeof *from_0);

    uint8_t section[WALKED_BYTES + 4] = {'R', 'S', 'X', 2, 0, 0, 0x80, 0, 0, 1, 0, 9, 0, 0, 0, 1, 0, 0, 0};
    for (size_t place = 0; place < WALKED; place++)
        for (size_t byte = 0; byte < 4; byte++)
            section[19 + 4 * place + byte] = (uint8_t)(walked[place] >> 8 * byte);
    check_report(section, 0, from_0, ALL, WALKED);
    check_report(section, 2, (const uint32_t (*)[3])from_2, FROM_2, 7);
    check_report(section, 9, from_0 + 13, 2, 1);
    check_report(section, 11, from_0 + 16, 4, 1);

    check_no_walk(section, WALKED_BYTES, WALKED, BRASSDOZEN_NO_PLACE);
    check_no_walk(section, WALKED_BYTES, 0x8000, BRASSDOZEN_NO_PLACE);
    check_no_walk(section, WALKED_BYTES, UINT32_MAX, BRASSDOZEN_NO_PLACE);
    check_no_walk(section, 8, 0, BRASSDOZEN_BAD_LENGTH);
    check_no_walk(section, WALKED_BYTES - 1, WALKED, BRASSDOZEN_BAD_LENGTH);
    section[15] = 0;
    check_no_walk(section, WALKED_BYTES, 0, BRASSDOZEN_BAD_RANGES);
    section[15] = 1;
    section[5] = 1;
    check_no_walk(section, WALKED_BYTES, WALKED, BRASSDOZEN_BAD_BASE);
    section[3] = 3;
    check_no_walk(section, WALKED_BYTES, 0, BRASSDOZEN_BAD_VERSION);
    section[0] = 'r';
    check_no_walk(section, WALKED_BYTES, 0, BRASSDOZEN_BAD_MARK);
    static const uint8_t none[9] = "RSX\1", many[9 + 4 * 4097] = "RSX\1";
    check_no_walk(none, sizeof none, 0, BRASSDOZEN_NO_PLACE);
    check_no_walk(many, sizeof many, 0, BRASSDOZEN_TOO_MANY_WORDS);
}

/* A section that is refused, whatever the numbers and however many: none of them changes. */
static void check_not_added(const uint8_t *section, size_t bytes, const uint64_t *numbers, size_t length, unsigned refusal)
{
    uint64_t counts[BRASSDOZEN_TALLY + 3];
    memcpy(counts, numbers, sizeof counts);
    CHECK(brassdozen_tally(section, bytes, counts, length) == refusal);
    CHECK(memcmp(counts, numbers, sizeof counts) == 0);
}

/* At 8000 in version 2: 0 mov r0 r0, 1 bl, 2 data, 3 a supervisor call, 4 a word of coprocessor 10. */
static void check_tally(void)
{
    enum { BYTES = 19 + 4 * 5 };
    uint8_t section[BYTES] = {'R', 'S', 'X', 2, 0, 0, 0x80, 0, 0, 1, 0, 2, 0, 0, 0, 1, 0, 0, 0};
    static const uint32_t words[] = {0xe1a00000, 0xeb000000, 0xe1a00000, 0xef000000, 0xed900a00};
    for (size_t place = 0; place < 5; place++)
        for (size_t byte = 0; byte < 4; byte++)
            section[19 + 4 * place + byte] = (uint8_t)(words[place] >> 8 * byte);
    uint64_t row[BRASSDOZEN_ROW], once[BRASSDOZEN_TALLY] = {0};
    once[BRASSDOZEN_SECTIONS] = 1;
    once[BRASSDOZEN_WORDS] = 5;
    once[BRASSDOZEN_DATA] = 1;
    once[BRASSDOZEN_REFUSED + BRASSDOZEN_COPROCESSOR] = 1;
    once[BRASSDOZEN_REFUSED + BRASSDOZEN_NO_ROW] = 1;
    for (size_t place = 0; place < 2; place++) {
        CHECK(brassdozen_decode(words[place], 0x8000 + 4 * place, row, BRASSDOZEN_ROW) == 0);
        once[BRASSDOZEN_FLOWS + row[3]]++;
        once[BRASSDOZEN_ROOTS + row[1]]++;
    }

    uint64_t counts[BRASSDOZEN_TALLY + 3];
    memset(counts, UNTOUCHED, sizeof counts);
    memset(counts, 0, BRASSDOZEN_TALLY * sizeof *counts);
    for (uint64_t times = 1; times < 4; times++) {
        CHECK(brassdozen_tally(section, BYTES, counts, BRASSDOZEN_TALLY + 3 * (times & 1)) == 0);
        for (size_t place = 0; place < BRASSDOZEN_TALLY; place++)
            CHECK(counts[place] == times * once[place]);
        CHECK(untouched(counts + BRASSDOZEN_TALLY, counts + BRASSDOZEN_TALLY + 3));
    }
    for (size_t length = 0; length < BRASSDOZEN_TALLY; length++) {
        check_not_added(section, BYTES, counts, length, BRASSDOZEN_NO_ROOM);
        check_not_added(section, BYTES - 1, counts, length, BRASSDOZEN_BAD_LENGTH);
    }

    /* Any numbers are a tally: 65,535 sections take one more, and counts go on from 0. */
    counts[BRASSDOZEN_SECTIONS] = 65535;
    counts[BRASSDOZEN_WORDS] = UINT64_MAX;
    CHECK(brassdozen_tally(section, BYTES, counts, BRASSDOZEN_TALLY) == 0);
    CHECK(counts[BRASSDOZEN_SECTIONS] == 65536 && counts[BRASSDOZEN_WORDS] == 4);
    check_not_added(section, BYTES, counts, BRASSDOZEN_TALLY, BRASSDOZEN_TOO_MANY_SECTIONS);
    check_not_added(section, BYTES, counts, BRASSDOZEN_TALLY - 1, BRASSDOZEN_NO_ROOM);
    check_not_added(section, BYTES - 1, counts, BRASSDOZEN_TALLY, BRASSDOZEN_BAD_LENGTH);
    counts[BRASSDOZEN_SECTIONS] = UINT64_MAX;
    check_not_added(section, BYTES, counts, BRASSDOZEN_TALLY, BRASSDOZEN_TOO_MANY_SECTIONS);
    section[5] = 2;
    check_not_added(section, BYTES, counts, BRASSDOZEN_TALLY, BRASSDOZEN_BAD_BASE);
}

/* Where a run lies: `place` in the section, or in the patch. */
enum { PATCHED = 4, PATCHED_BYTES = 9 + 4 * PATCHED, PATCH_BYTES = 11 + 4 };

static void check_run(uint64_t address, uint64_t length, int in_patch, size_t place)
{
    static const uint8_t words[4 * PATCHED], patch[4];
    uint64_t given = brassdozen_run(words, sizeof words, 0x8000, patch, sizeof patch, 0x8008, address, length);
    CHECK(brassdozen_refusal(given) == 0);
    CHECK(brassdozen_run_in_patch(given) == in_patch && brassdozen_run_place(given) == place);
}

static void check_no_run(size_t bytes, uint32_t base, size_t patch_bytes, uint32_t patch_base, uint64_t address, uint64_t length, unsigned refusal)
{
    static const uint8_t many[4 * 4097];
    uint64_t given = brassdozen_run(many, bytes, base, many, patch_bytes, patch_base, address, length);
    CHECK(brassdozen_refusal(given) == refusal && brassdozen_result(given) == 0);
}

/* A patched section with each room: it is written whole, or not at all. */
static void check_patched(void)
{
    check_run(0x8000, 8, 0, 0);
    check_run(0x8003, 5, 0, 3);
    check_run(0x8008, 4, 1, 0);
    check_run(0x800b, 1, 1, 3);
    check_run(0x800c, 4, 0, 12);
    static const uint64_t none[][2] = {
        {0x8000, 0}, {0x8008, 0}, {0x8000, 9}, {0x8007, 2}, {0x8008, 5}, {0x800b, 2}, {0x8000, 16}, {0x7fff, 1}, {0x7fff, 2},
        {0x800c, 5}, {0x8010, 1}, {0, 1}, {0x8000, UINT64_MAX}, {UINT64_MAX, 1}, {UINT64_MAX, UINT64_MAX}, {0x100008000, 1},
    };
    for (size_t n = 0; n < sizeof none / sizeof *none; n++)
        check_no_run(16, 0x8000, 4, 0x8008, none[n][0], none[n][1], BRASSDOZEN_NO_RUN);
    check_no_run(15, 1, 3, 2, 0x8000, 0, BRASSDOZEN_BAD_LENGTH);
    check_no_run(4 * 4097, 1, 3, 2, 0x8000, 0, BRASSDOZEN_TOO_MANY_WORDS);
    check_no_run(16, 0x8002, 3, 2, 0x8000, 4, BRASSDOZEN_BAD_BASE);
    check_no_run(16, 0xfffffff4, 3, 2, 0x8000, 4, BRASSDOZEN_BAD_BASE);
    check_no_run(16, 0x8000, 3, 2, 0x8000, 4, BRASSDOZEN_BAD_LENGTH);
    check_no_run(16, 0x8000, 4, 2, 0x8000, 4, BRASSDOZEN_BAD_BASE);
    check_no_run(0, 0, 0, 0, 0, 1, BRASSDOZEN_NO_RUN);

    static const uint8_t section[PATCHED_BYTES] = "RSX\1\0\0\200\0\0" "aaaa" "bbbb" "cccc" "dddd";
    static const uint8_t patch[PATCH_BYTES] = "RSX\2\0\4\200\0\0\0\0" "BBBB";
    static const uint8_t right[PATCHED_BYTES] = "RSX\1\0\0\200\0\0" "aaaa" "BBBB" "cccc" "dddd";
    for (size_t length = 0; length <= PATCHED_BYTES + 3; length++) {
        uint8_t out[PATCHED_BYTES + 3];
        memset(out, UNTOUCHED, sizeof out);
        uint64_t given = brassdozen_patched(section, PATCHED_BYTES, patch, PATCH_BYTES, out, length);
        if (length < PATCHED_BYTES) {
            CHECK(brassdozen_refusal(given) == BRASSDOZEN_NO_ROOM && brassdozen_result(given) == 0);
            CHECK(untouched(out, out + sizeof out));
        } else {
            CHECK(given == PATCHED_BYTES);
            CHECK(memcmp(out, right, PATCHED_BYTES) == 0 && untouched(out + PATCHED_BYTES, out + sizeof out));
        }
        /* The section's refusal comes first, then the patch's, whatever the room. */
        memset(out, UNTOUCHED, sizeof out);
        given = brassdozen_patched(section, PATCHED_BYTES - 1, patch, 3, out, length);
        CHECK(given == (uint64_t)BRASSDOZEN_BAD_LENGTH << 32);
        given = brassdozen_patched(section, PATCHED_BYTES, section + 1, PATCH_BYTES, out, length);
        CHECK(given == (uint64_t)BRASSDOZEN_BAD_MARK << 32);
        CHECK(untouched(out, out + sizeof out));
    }
}

/* What is handed in for an index, and is behind its entries. */
static void untouched_index(uint32_t *index) { memset(index, UNTOUCHED, 4 * (BRASSDOZEN_INDEX + 2)); }

/* Building and replacing that are refused: not a byte and not a number changes. */
static void check_no_index(uint8_t *section, size_t bytes, uint32_t place, size_t length, uint32_t count, unsigned refusal)
{
    uint32_t index[BRASSDOZEN_INDEX + 2];
    static uint8_t before[9 + 4 * 4097];
    untouched_index(index);
    memcpy(before, section, bytes);
    uint64_t given = brassdozen_replace(section, bytes, place, 0xeb000000, index, length, count);
    CHECK(brassdozen_refusal(given) == refusal && brassdozen_result(given) == 0);
    if (refusal != BRASSDOZEN_NO_PLACE && refusal != BRASSDOZEN_TOO_MANY_CALLS) {
        given = brassdozen_index(section, bytes, index, length);
        CHECK(brassdozen_refusal(given) == refusal && brassdozen_result(given) == 0);
    }
    CHECK(memcmp(before, section, bytes) == 0);
    CHECK(untouched(index, index + BRASSDOZEN_INDEX + 2));
}

static void check_index(void)
{
    /* In order of target: 4, 11 and 1 of the section above call. */
    static const uint32_t calls[] = {0x8002, 0x8010, 0x8034, 0x802c, 0x100040, 0x8004};
    uint32_t index[BRASSDOZEN_INDEX + 2], fresh[BRASSDOZEN_INDEX + 2], out[4];
    uint8_t section[WALKED_BYTES] = {'R', 'S', 'X', 2, 0, 0, 0x80, 0, 0, 1, 0, 9, 0, 0, 0, 1, 0, 0, 0};
    for (size_t place = 0; place < WALKED; place++)
        for (size_t byte = 0; byte < 4; byte++)
            section[19 + 4 * place + byte] = (uint8_t)(walked[place] >> 8 * byte);
    untouched_index(index);
    CHECK(brassdozen_index(section, WALKED_BYTES, index, BRASSDOZEN_INDEX) == 3);
    CHECK(memcmp(index, calls, sizeof calls) == 0);
    CHECK(untouched(index + 6, index + BRASSDOZEN_INDEX + 2));

    /* Place 1 calls 8034 instead, so it comes before 11; place 10 calls it too; then 1 calls no more; data at 9 never does. */
    static const uint32_t changes[][3] = {{1, 0xeb00000a, 3}, {10, 0x0b000001, 4}, {1, 0xe1a00000, 3}, {9, 0xeb000000, 3}};
    for (size_t n = 0; n < sizeof changes / sizeof *changes; n++) {
        uint32_t count = n == 0 ? 3 : changes[n - 1][2];
        uint64_t given = brassdozen_replace(section, WALKED_BYTES, changes[n][0], changes[n][1], index, BRASSDOZEN_INDEX, count);
        CHECK(given == changes[n][2]);
        CHECK(section[19 + 4 * changes[n][0]] == (changes[n][1] & 0xff) && section[22 + 4 * changes[n][0]] == changes[n][1] >> 24);
        untouched_index(fresh);
        CHECK(brassdozen_index(section, WALKED_BYTES, fresh, BRASSDOZEN_INDEX + 2) == given);
        CHECK(memcmp(index, fresh, 8 * changes[n][2]) == 0);
    }
    for (size_t room = 0; room <= 4; room++) {
        memset(out, UNTOUCHED, sizeof out);
        uint64_t given = brassdozen_callers(index, BRASSDOZEN_INDEX, 3, 0x8034, out, room);
        if (room < 2) {
            CHECK(brassdozen_refusal(given) == BRASSDOZEN_NO_ROOM && untouched(out, out + 4));
        } else {
            CHECK(given == 2 && out[0] == 0x8028 && out[1] == 0x802c && untouched(out + 2, out + 4));
        }
    }
    CHECK(brassdozen_callers(index, BRASSDOZEN_INDEX, 3, 0x8035, out, 0) == 0);
    CHECK(brassdozen_refusal(brassdozen_callers(index, BRASSDOZEN_INDEX - 1, 1025, 0x8034, out, 4)) == BRASSDOZEN_NO_ROOM);
    CHECK(brassdozen_refusal(brassdozen_callers(index, BRASSDOZEN_INDEX, 1025, 0x8034, out, 0)) == BRASSDOZEN_TOO_MANY_CALLS);

    check_no_index(section, 8, WALKED, 0, 1025, BRASSDOZEN_BAD_LENGTH);
    check_no_index(section, WALKED_BYTES, WALKED, 0, 1025, BRASSDOZEN_NO_PLACE);
    check_no_index(section, WALKED_BYTES, 0, BRASSDOZEN_INDEX - 1, 1025, BRASSDOZEN_NO_ROOM);
    check_no_index(section, WALKED_BYTES, 0, BRASSDOZEN_INDEX, 1025, BRASSDOZEN_TOO_MANY_CALLS);
    check_no_index(section, WALKED_BYTES, 0, BRASSDOZEN_INDEX, 1024, BRASSDOZEN_TOO_MANY_CALLS);
    check_no_index(section, WALKED_BYTES, 0, BRASSDOZEN_INDEX, UINT32_MAX, BRASSDOZEN_TOO_MANY_CALLS);

    /* 1,024 calls are indexed, and one more is not. */
    static uint8_t many[9 + 4 * 1025] = "RSX\1";
    for (size_t place = 0; place < 1025; place++)
        many[9 + 4 * place + 3] = 0xeb;
    untouched_index(index);
    uint64_t given = brassdozen_index(many, sizeof many, index, BRASSDOZEN_INDEX);
    CHECK(brassdozen_refusal(given) == BRASSDOZEN_TOO_MANY_CALLS && brassdozen_result(given) == 0);
    CHECK(untouched(index, index + BRASSDOZEN_INDEX + 2));
    CHECK(brassdozen_index(many, sizeof many - 4, index, BRASSDOZEN_INDEX) == 1024);
    many[12] = 0xea;
    CHECK(brassdozen_index(many, sizeof many, index, BRASSDOZEN_INDEX) == 1024);
    given = brassdozen_replace(many, sizeof many, 0, 0xeb000000, index, BRASSDOZEN_INDEX, 1024);
    CHECK(brassdozen_refusal(given) == BRASSDOZEN_TOO_MANY_CALLS && many[12] == 0xea);
    CHECK(brassdozen_replace(many, sizeof many, 1, 0xeb000001, index, BRASSDOZEN_INDEX, 1024) == 1024);
}

/* A section of version 2 at 8000: bx lr with stray bits, an offset of 0 that is subtracted, a word that is refused, data that would change, ldc
   of the unindexed form, and a word at home. */
enum { HOMED = 6, HOMED_BYTES = 19 + 4 * HOMED };
static const uint32_t homed[HOMED] = {0xe120001e, 0xe5110000, 0xef000000, 0xe120001e, 0xecd00101, 0xe1a00000};

static void check_home_form(void)
{
    static const uint32_t right[][3] = {{0, 0xe120001e, 0xe12fff1e}, {1, 0xe5110000, 0xe5910000}, {4, 0xecd00101, 0xecf00101}};
    enum { NUMBERS = sizeof right / sizeof **right };
    uint8_t before[HOMED_BYTES] = {'R', 'S', 'X', 2, 0, 0, 0x80, 0, 0, 1, 0, 3, 0, 0, 0, 1, 0, 0, 0}, after[HOMED_BYTES], section[HOMED_BYTES];
    for (size_t place = 0; place < HOMED; place++)
        for (size_t byte = 0; byte < 4; byte++)
            before[19 + 4 * place + byte] = (uint8_t)(homed[place] >> 8 * byte);
    memcpy(after, before, sizeof after);
    for (size_t n = 0; n < sizeof right / sizeof *right; n++)
        for (size_t byte = 0; byte < 4; byte++)
            after[19 + 4 * right[n][0] + byte] = (uint8_t)(right[n][2] >> 8 * byte);

    uint32_t changes[NUMBERS + 4];
    for (size_t length = 0; length <= NUMBERS + 4; length++) {
        memcpy(section, before, sizeof section);
        memset(changes, UNTOUCHED, sizeof changes);
        uint64_t given = brassdozen_home_form(section, sizeof section, changes, length);
        if (length < NUMBERS) {
            CHECK(brassdozen_refusal(given) == BRASSDOZEN_NO_ROOM && brassdozen_result(given) == 0);
            CHECK(memcmp(section, before, sizeof section) == 0 && untouched(changes, changes + NUMBERS + 4));
            continue;
        }
        CHECK(brassdozen_refusal(given) == 0);
        CHECK(brassdozen_home_form_changes(given) == 3 && brassdozen_home_form_unindexed(given) == 1);
        CHECK(memcmp(section, after, sizeof section) == 0);
        CHECK(memcmp(changes, right, sizeof right) == 0 && untouched(changes + NUMBERS, changes + NUMBERS + 4));
        /* Nothing is left to change, so no room is needed. */
        CHECK(brassdozen_home_form(section, sizeof section, changes, 0) == 0);
        CHECK(memcmp(section, after, sizeof section) == 0);
    }
    memcpy(section, before, sizeof section);
    memset(changes, UNTOUCHED, sizeof changes);
    uint64_t given = brassdozen_home_form(section, sizeof section - 1, changes, 0);
    CHECK(brassdozen_refusal(given) == BRASSDOZEN_BAD_LENGTH && brassdozen_result(given) == 0);
    section[15] = 0;
    given = brassdozen_home_form(section, sizeof section, changes, NUMBERS);
    CHECK(brassdozen_refusal(given) == BRASSDOZEN_BAD_RANGES && brassdozen_result(given) == 0);
    section[15] = before[15];
    CHECK(memcmp(section, before, sizeof section) == 0 && untouched(changes, changes + NUMBERS + 4));
}

/* A routine that stores and returns, called before a barrier and a commit, and again between them. */
static void check_judge(void) {
    enum { KEEPS = BRASSDOZEN_CLEAN_CLEAN | BRASSDOZEN_DIRTY_DIRTY, CALLS = BRASSDOZEN_AIMS | BRASSDOZEN_CALLS, PLACES = 6, NODES = 2 * PLACES + 2 };
    uint32_t flags[PLACES] = {
        KEEPS | CALLS,
        BRASSDOZEN_CLEAN_CLEAN | BRASSDOZEN_DIRTY_CLEAN | BRASSDOZEN_GOES_ON,
        KEEPS | BRASSDOZEN_GOES_ON,
        KEEPS | BRASSDOZEN_COMMITS | BRASSDOZEN_RETURNS,
        BRASSDOZEN_CLEAN_DIRTY | BRASSDOZEN_DIRTY_DIRTY | BRASSDOZEN_GOES_ON,
        KEEPS | BRASSDOZEN_RETURNS,
    };
    uint32_t targets[PLACES] = {4, 4, 4, 4, 4, 4}, entry = 0, known = 0, way[NODES + 1];
    uint16_t dist[NODES], prior[NODES];
    for (int n = 0; n <= NODES; n++) way[n] = 77;
    uint64_t given = brassdozen_judge(flags, PLACES, targets, PLACES, targets, 0, &entry, 1, &known, 1, dist, NODES, prior, NODES, way, NODES);
    CHECK(given == BRASSDOZEN_HOLDS && way[0] == 77);
    flags[2] = KEEPS | CALLS;
    CHECK(brassdozen_refusal(brassdozen_judge(flags, PLACES, targets, PLACES, targets, 0, &entry, 1, &known, 1, dist, NODES, prior, NODES, way, NODES - 1)) ==
          BRASSDOZEN_NO_ROOM);
    CHECK(way[0] == 77);
    given = brassdozen_judge(flags, PLACES, targets, PLACES, targets, 0, &entry, 1, &known, 1, dist, NODES, prior, NODES, way, NODES);
    CHECK(brassdozen_refusal(given) == 0 && brassdozen_judge_verdict(given) == BRASSDOZEN_VIOLATED && brassdozen_judge_number(given) == 4);
    for (uint32_t n = 0; n < 4; n++) CHECK(way[n] == n);
    CHECK(way[4] == 77);
    flags[5] |= BRASSDOZEN_OPENS;
    flags[3] = KEEPS | BRASSDOZEN_RETURNS;
    given = brassdozen_judge(flags, PLACES, targets, PLACES, targets, 0, &entry, 1, &known, 1, dist, NODES, prior, NODES, way, NODES);
    CHECK(brassdozen_judge_verdict(given) == BRASSDOZEN_UNDECIDED && brassdozen_judge_number(given) == 5);
    targets[0] = PLACES;
    given = brassdozen_judge(flags, PLACES, targets, PLACES, targets, 0, &entry, 1, &known, 1, dist, NODES, prior, NODES, way, NODES);
    CHECK(brassdozen_refusal(given) == BRASSDOZEN_NO_PLACE && brassdozen_result(given) == 0);
}

int main(void)
{
    static uint8_t words[4 * 4096];
    size_t count = 0;
    char line[256];
    while (fgets(line, sizeof line, stdin) && count < 4096) {
        uint64_t address;
        uint32_t word;
        int text;
        CHECK(sscanf(line, "%" SCNx64 " %*u %n%*x %" SCNx32, &address, &text, &word) == 2);
        check_row(word, address);
        check_bytes(word, address);
        check_wide(word, address);
        check_line(address, word, line + text);
        for (int byte = 0; byte < 4; byte++)
            words[4 * count + (size_t)byte] = (uint8_t)(word >> 8 * byte);
        count++;
    }
    CHECK(count >= 3000);
    check_listing(words, 0);
    check_listing(words, 1);
    check_listing(words, count);
    check_place();
    check_conversion(words, 0);
    check_conversion(words, 1);
    check_conversion(words, count);
    static const uint8_t many[9 + 4 * 4097] = "RSX\1";
    check_refused(brassdozen_to_v2, many, sizeof many, BRASSDOZEN_TOO_MANY_WORDS);
    check_walk();
    check_tally();
    check_patched();
    check_index();
    check_home_form();
    check_judge();
    CHECK(brassdozen_version() == BRASSDOZEN_VERSION);
    uint64_t nothing = 0;
    CHECK(brassdozen_refusal(brassdozen_encode(&nothing, 0)) == BRASSDOZEN_NO_WORD);
    printf("%zu words, %lu checks\n", count, checks);
    return 0;
}
