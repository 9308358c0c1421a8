/* Changes an operand and encodes the instruction again: change WORD ADDRESS REGISTER puts the register of this number at the first place, and
   prints both words with what they read as. */
#include "brassdozen_insn.h"

#include <inttypes.h>
#include <stdio.h>
#include <stdlib.h>

static void print(uint32_t word, uint64_t address)
{
    uint8_t line[BRASSDOZEN_LINE];
    uint32_t length = brassdozen_result(brassdozen_line(address, word, line, sizeof line));
    /* The address, eight digits and a space, is left out. */
    fwrite(line + 9, 1, length - 9, stdout);
}

int main(int count, char **arguments)
{
    if (count != 4) {
        fprintf(stderr, "change WORD ADDRESS REGISTER\n");
        return 2;
    }
    uint32_t word = (uint32_t)strtoul(arguments[1], NULL, 16);
    uint64_t address = strtoull(arguments[2], NULL, 16);
    brassdozen_insn insn;
    unsigned refusal = brassdozen_insn_decode(word, address, &insn);
    if (refusal == 0) {
        print(word, address);
        insn.operands[0].kind = BRASSDOZEN_OPERAND_REGISTER;
        insn.operands[0].as.reg = (uint8_t)strtoul(arguments[3], NULL, 10);
        uint64_t given = brassdozen_insn_encode(&insn);
        refusal = brassdozen_refusal(given);
        word = brassdozen_result(given);
    }
    if (refusal != 0) {
        fprintf(stderr, "refused %u: %s\n", refusal, brassdozen_refusal_text(refusal));
        return 2;
    }
    print(word, address);
    return 0;
}
