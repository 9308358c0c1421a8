/* Walks through the section on standard input from each place that its arguments name, and says what each walk shows: how many words are reached,
   and the other records. */
#include "brassdozen.h"

#include <inttypes.h>
#include <stdio.h>
#include <stdlib.h>

static const char *const kinds[] = {"reached", "out", "thumb", "unknown", "end", "stopped"};

int main(int count, char **places)
{
    static uint8_t section[BRASSDOZEN_SECTION + 1];
    static uint32_t records[BRASSDOZEN_REPORT];
    size_t bytes = fread(section, 1, sizeof section, stdin);
    for (int n = 1; n < count; n++) {
        uint32_t entry = (uint32_t)strtoul(places[n], NULL, 10);
        uint64_t given = brassdozen_walk(section, bytes, entry, records, BRASSDOZEN_REPORT);
        if (brassdozen_refusal(given) != 0) {
            printf("%" PRIu32 ": refused %u\n", entry, brassdozen_refusal(given));
            continue;
        }
        printf("%" PRIu32 ": %" PRIu32 " words", entry, brassdozen_walk_words(given));
        for (uint32_t at = 0; at < 3 * brassdozen_walk_records(given); at += 3)
            if (records[at + 1] != 0)
                printf(", %" PRIu32 " %s %08" PRIx32, records[at], kinds[records[at + 1]], records[at + 2]);
        puts("");
    }
    return 0;
}
