/* The types of brassdozen_insn.h are the row, and a section is gone through as it stands. Standard input is that of check.c. */
#include "brassdozen_insn.h"
#include "check.h"

#include <inttypes.h>
#include <string.h>

/* Whether two rows are the same, number by number. */
static int same(const uint64_t *one, const uint64_t *other) { return memcmp(one, other, BRASSDOZEN_ROW * sizeof *one) == 0; }

/* A row with an instruction is that instruction's; a row without one is no word's. */
static void check_row(const uint64_t *row)
{
    brassdozen_insn insn;
    uint64_t given = brassdozen_encode(row, BRASSDOZEN_ROW), back[BRASSDOZEN_ROW];
    if (!brassdozen_insn_from_row(row, &insn)) {
        CHECK(brassdozen_refusal(given) == BRASSDOZEN_NO_WORD);
        return;
    }
    brassdozen_insn_to_row(&insn, back);
    CHECK(same(back, row));
    CHECK(brassdozen_insn_encode(&insn) == given);
}

/* Each number of a row changed in turn. */
static void check_damaged(uint64_t *row)
{
    for (size_t place = 0; place < BRASSDOZEN_ROW; place++) {
        const uint64_t right = row[place];
        const uint64_t wrong[] = {0, 1, 2, 3, 4, 7, 8, 16, 17, 255, 256, 65535, 65536, right + 1, right - 1, right + ((uint64_t)1 << 32),
                                  right ^ ((uint64_t)1 << 63)};
        for (size_t n = 0; n < sizeof wrong / sizeof *wrong; n++) {
            row[place] = wrong[n];
            check_row(row);
        }
        row[place] = right;
    }
}

/* Numbers out of their range, and where the operand has none: no instruction has such a row. */
static void check_none(void)
{
    enum { FIRST = BRASSDOZEN_ROW_OPERANDS, SECOND = FIRST + BRASSDOZEN_PARTS, LAST = BRASSDOZEN_ROW - BRASSDOZEN_PARTS };
    static const struct {
        uint32_t word;
        size_t place;
        uint64_t number;
    } none[] = {
        {0xe5310004, BRASSDOZEN_ROW_NAME, 65536 + BRASSDOZEN_NAME_LDR},
        {0xe5310004, BRASSDOZEN_ROW_CONDITION, 256 + BRASSDOZEN_CONDITION_AL},
        {0xe5310004, BRASSDOZEN_ROW_FLOW, 8},
        {0xe5310004, BRASSDOZEN_ROW_TARGET, 4},
        {0xe5310004, FIRST + BRASSDOZEN_PART_REG, 256},
        {0xe5310004, FIRST + BRASSDOZEN_PART_VALUE, 1},
        {0xe5310004, SECOND + BRASSDOZEN_PART_HOW, 2},
        {0xe5310004, SECOND + BRASSDOZEN_PART_AMOUNT, 1},
        {0xe5310004, SECOND + BRASSDOZEN_PART_NEGATIVE, 2},
        {0xe5310004, SECOND + BRASSDOZEN_PART_VALUE, (uint64_t)1 << 63},
        {0xe5310004, SECOND + BRASSDOZEN_PART_INDEX, 1},
        {0xe5310004, SECOND + BRASSDOZEN_PART_MODE, 3},
        {0xe5310004, SECOND + BRASSDOZEN_PART_DECIMAL, 2},
        {0xe5310004, SECOND + BRASSDOZEN_PART_MINUS, 2},
        {0xe5310004, LAST + BRASSDOZEN_PART_KIND, BRASSDOZEN_OPERAND_COPROCESSOR_REGISTER + 1},
        {0xe5310004, LAST + BRASSDOZEN_PART_KIND, 256 + BRASSDOZEN_OPERAND_REGISTER},
        {0xe1a00061, SECOND + BRASSDOZEN_PART_AMOUNT, 1},                                 /* rrx r0, r1 */
        {0xe0800102, SECOND + BRASSDOZEN_PARTS + BRASSDOZEN_PART_HOW, 4},                 /* add r0, r0, r2, lsl #2 */
        {0xe10f0000, SECOND + BRASSDOZEN_PART_HOW, 2},                                    /* mrs r0, apsr */
        {0xea000000, BRASSDOZEN_ROW_TARGET, (uint64_t)1 << 32},                           /* b */
    };
    for (size_t n = 0; n < sizeof none / sizeof *none; n++) {
        uint64_t row[BRASSDOZEN_ROW];
        brassdozen_insn insn;
        CHECK(brassdozen_decode(none[n].word, 0x8000, row, BRASSDOZEN_ROW) == 0);
        CHECK(brassdozen_insn_from_row(row, &insn));
        row[none[n].place] = none[n].number;
        CHECK(!brassdozen_insn_from_row(row, &insn));
    }
}

/* A line begins with the name behind the word, and ends with the flow. */
static void check_text(const brassdozen_insn *insn, const char *line)
{
    char name[32];
    const char *flow = brassdozen_flow_text(insn->flow), *condition = brassdozen_condition_text(insn->condition);
    if (insn->name == BRASSDOZEN_NAME_LDCL || insn->name == BRASSDOZEN_NAME_STCL)
        snprintf(name, sizeof name, "%.3s%sl ", brassdozen_name_text(insn->name), condition);
    else
        snprintf(name, sizeof name, "%s%s ", brassdozen_name_text(insn->name), condition);
    CHECK(strncmp(line + 18, name, strlen(name)) == 0);
    const size_t length = strlen(line), end = strlen(flow) + 1;
    CHECK(length > end && line[length - end - 1] == ' ' && strncmp(line + length - end, flow, end - 1) == 0);
}

/* The stored words, from place 1 on with data: each place has its word, and what it decodes to. */
static void check_places(const uint32_t *words, uint32_t count)
{
    static uint8_t section[19 + 4 * 4096] = {'R', 'S', 'X', 2, 0, 0, 0x80, 0, 0, 1, 0, 1, 0, 0, 0, 2, 0, 0, 0};
    const size_t bytes = 19 + 4 * (size_t)count;
    for (uint32_t place = 0; place < count; place++)
        for (int byte = 0; byte < 4; byte++)
            section[19 + 4 * place + (uint32_t)byte] = (uint8_t)(words[place] >> 8 * byte);
    brassdozen_placed at;
    uint8_t refusal;
    uint32_t place = 0;
    for (; (refusal = brassdozen_insn_place(section, bytes, place, &at)) == 0; place++) {
        CHECK(at.address == 0x8000 + 4 * place && at.word == words[place]);
        CHECK(at.is_data == (place == 1 || place == 2));
        if (at.is_data)
            continue;
        uint64_t row[BRASSDOZEN_ROW], back[BRASSDOZEN_ROW];
        CHECK(at.refusal == brassdozen_decode(at.word, at.address, row, BRASSDOZEN_ROW));
        if (at.refusal == 0) {
            brassdozen_insn_to_row(&at.insn, back);
            CHECK(same(back, row));
        }
    }
    CHECK(refusal == BRASSDOZEN_NO_PLACE && place == count);
    CHECK(brassdozen_insn_place(section, bytes - 1, 0, &at) == BRASSDOZEN_BAD_LENGTH);
}

int main(void)
{
    static uint32_t words[4096];
    uint32_t count = 0, accepted = 0;
    char line[256];
    while (fgets(line, sizeof line, stdin) && count < 4096) {
        uint64_t address, row[BRASSDOZEN_ROW], back[BRASSDOZEN_ROW];
        int text;
        CHECK(sscanf(line, "%" SCNx64 " %*u %n%*x %" SCNx32, &address, &text, &words[count]) == 2);
        brassdozen_insn insn;
        unsigned refusal = brassdozen_decode(words[count], address, row, BRASSDOZEN_ROW);
        CHECK(brassdozen_insn_decode(words[count], address, &insn) == refusal);
        if (refusal == 0) {
            accepted++;
            brassdozen_insn_to_row(&insn, back);
            CHECK(same(back, row));
            CHECK(brassdozen_insn_encode(&insn) == brassdozen_home(words[count]));
            check_text(&insn, line + text);
            check_row(row);
            if (accepted % 8 == 0)
                check_damaged(row);
        }
        count++;
    }
    CHECK(count >= 3000 && accepted >= 1000);
    check_none();
    check_places(words, count);
    printf("%" PRIu32 " words as structs, %lu checks\n", count, checks);
    return 0;
}
