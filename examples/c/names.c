/* Prints the names that a shader has once it is preprocessed, each with its bytes: names < shader.frag */
#include "pp.h"

#include <stdio.h>
#include <stdlib.h>

int main(void) {
    static uint8_t source[1 << 20];
    size_t length = fread(source, 1, sizeof source, stdin);
    const uint8_t words[] = "GL_ES1"; /* the name and the content of the one definition */
    pp_definition gl_es = {.name_length = 5, .content_start = 5, .content_length = 1};
    pp_sizes sizes = {length + 16, length + 16}; /* a guess */
    pp_item *items = NULL;
    uint8_t *texts = NULL;
    uint32_t answer;
    do {
        items = realloc(items, sizes.items * sizeof *items);
        texts = realloc(texts, sizes.texts + 1);
        if (!items || !texts) return 2;
        answer = pp_preprocess(source, length, words, 6, &gl_es, 1, items, sizes.items, texts, sizes.texts, &sizes);
    } while (answer == PP_TOO_SMALL); /* `sizes` says how much room is needed */
    if (answer != PP_DONE) return 2;
    for (uint64_t n = 0; n < sizes.items; n += 1 + items[n].children) { /* children: the tokens of a directive */
        const pp_item *it = &items[n];
        if (it->kind == PP_ERROR) {
            fprintf(stderr, "%s, %u..%u\n", pp_error_sentence(it->error), items[n + 1].start, items[n + 1].end);
            return 1;
        }
        if (it->kind == PP_IDENT)
            printf("%.*s %u..%u\n", (int)it->text_length, (const char *)texts + it->value, it->start, it->end);
    }
    free(items);
    free(texts);
    return 0;
}
