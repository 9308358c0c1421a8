/* Goes through a section and prints each call and where it goes: calls FILE.rsx. */
#include "brassdozen_insn.h"

#include <inttypes.h>
#include <stdio.h>

int main(int count, char **arguments)
{
    static uint8_t section[BRASSDOZEN_SECTION + 1];
    FILE *file = count == 2 ? fopen(arguments[1], "rb") : NULL;
    if (file == NULL) {
        fprintf(stderr, "calls FILE.rsx\n");
        return 2;
    }
    size_t bytes = fread(section, 1, sizeof section, file);
    fclose(file);

    brassdozen_placed at;
    uint8_t refusal;
    for (uint32_t place = 0; (refusal = brassdozen_insn_place(section, bytes, place, &at)) == 0; place++) {
        if (at.is_data || at.refusal != 0)
            continue;
        if (at.insn.flow == BRASSDOZEN_FLOW_CALL)
            printf("%08" PRIx32 " calls %08" PRIx32 "\n", at.address, at.insn.target);
        else if (at.insn.flow == BRASSDOZEN_FLOW_INDIRECT_CALL)
            printf("%08" PRIx32 " calls through a register\n", at.address);
    }
    if (refusal != BRASSDOZEN_NO_PLACE) {
        fprintf(stderr, "refused %u: %s\n", refusal, brassdozen_refusal_text(refusal));
        return 2;
    }
    return 0;
}
