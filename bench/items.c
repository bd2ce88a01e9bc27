/* Counts the items of the source on standard input, which the C library gives. Built and run by bench/kinds. */
#include "pp.h"

#include <stdio.h>
#include <stdlib.h>

int main(void) {
    uint8_t *source = NULL;
    size_t length = 0, room = 0, got = 1;
    while (got) {
        if (length == room && !(source = realloc(source, room = 2 * room + 65536))) return 2;
        got = fread(source + length, 1, room - length, stdin);
        length += got;
    }
    pp_sizes sizes = {length / 4 + 16, length + 16}; /* a guess */
    pp_definition none;
    pp_item *items = NULL;
    uint8_t *texts = NULL;
    uint32_t answer;
    do {
        items = realloc(items, sizes.items * sizeof *items);
        texts = realloc(texts, sizes.texts + 1);
        if (!items || !texts) return 2;
        answer = pp_preprocess(source, length, source, 0, &none, 0, items, sizes.items, texts, sizes.texts, &sizes);
    } while (answer == PP_TOO_SMALL); /* `sizes` says how much room is needed */
    if (answer != PP_DONE) return 2;
    printf("%llu\n", (unsigned long long)sizes.items);
    free(items);
    free(texts);
    free(source);
    return 0;
}
