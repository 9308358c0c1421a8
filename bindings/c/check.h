/* What the checks share. */
#include <stdio.h>
#include <stdlib.h>

static unsigned long checks;

#define CHECK(holds)                                                        \
    do {                                                                    \
        checks++;                                                           \
        if (!(holds)) {                                                     \
            fprintf(stderr, "%s:%d: %s\n", __FILE__, __LINE__, #holds);     \
            exit(1);                                                        \
        }                                                                   \
    } while (0)
