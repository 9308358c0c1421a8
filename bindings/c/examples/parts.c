/* Decodes a word and prints its parts: parts WORD ADDRESS, both in hexadecimal. */
#include "brassdozen_insn.h"

#include <inttypes.h>
#include <stdio.h>
#include <stdlib.h>

static void print_memory(const brassdozen_memory *memory)
{
    printf("memory of %u bytes\n", memory->size);
    printf("  base %s\n", brassdozen_register_text(memory->base));
    printf("  displacement %s%" PRId64 "\n", memory->minus_zero ? "-" : "", memory->displacement);
    if (memory->has_index)
        printf("  index %s shifted by %u\n", brassdozen_register_text(memory->index), memory->shift);
}

int main(int count, char **arguments)
{
    if (count != 3) {
        fprintf(stderr, "parts WORD ADDRESS\n");
        return 2;
    }
    brassdozen_insn insn;
    uint8_t refusal = brassdozen_insn_decode((uint32_t)strtoul(arguments[1], NULL, 16), strtoull(arguments[2], NULL, 16), &insn);
    if (refusal != 0) {
        fprintf(stderr, "refused %u: %s\n", refusal, brassdozen_refusal_text(refusal));
        return 2;
    }
    printf("name %s\n", brassdozen_name_text(insn.name));
    printf("condition %u\n", insn.condition);
    for (size_t place = 0; place < BRASSDOZEN_PLACES; place++) {
        const brassdozen_operand *operand = &insn.operands[place];
        switch (operand->kind) {
        case BRASSDOZEN_OPERAND_EMPTY:
            break;
        case BRASSDOZEN_OPERAND_REGISTER:
            printf("register %s\n", brassdozen_register_text(operand->as.reg));
            break;
        case BRASSDOZEN_OPERAND_COUNT:
            printf("count %" PRId64 "\n", operand->as.count);
            break;
        case BRASSDOZEN_OPERAND_MEMORY:
            print_memory(&operand->as.memory);
            break;
        case BRASSDOZEN_OPERAND_ADDRESS:
            printf("operand @%08" PRIx32 "\n", operand->as.address);
            break;
        default:
            printf("operand of kind %u\n", operand->kind);
        }
    }
    printf("flow %s\n", brassdozen_flow_text(insn.flow));
    if (brassdozen_flow_is_direct(insn.flow))
        printf("target %08" PRIx32 "\n", insn.target);
    return 0;
}
