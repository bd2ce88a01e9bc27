/* Prints the tokens that a shader has once it is preprocessed, with what it includes from the folder in which it is
 * run: including < shader.frag */
#include "pp.h"

#include <stdio.h>
#include <stdlib.h>

enum { MOST_TEXTS = 1000, MOST_BYTES = 1 << 20 };

/* The source, which is text 0, and those that it includes: they have to stay until the stream is closed. */
static uint8_t *texts[MOST_TEXTS];
static size_t lengths[MOST_TEXTS];
static uint32_t text_count;

/* Reads a file as the next text. Returns whether there is room for it. */
static int read_text(FILE *file) {
    uint8_t *text = text_count < MOST_TEXTS ? calloc(MOST_BYTES, 1) : NULL;
    if (!text) return 0;
    lengths[text_count] = fread(text, 1, MOST_BYTES - 1, file);
    texts[text_count++] = text;
    return 1;
}

/* Includes the file whose name stands on such a line of a text. Returns whether that went well. */
static int include_file(pp_stream *stream, const pp_item *line, uint32_t number) {
    char name[256];
    if (sscanf((const char *)texts[number] + line->start, " \"%255[^\"\n]\"", name) != 1) return 0;
    FILE *file = fopen(name, "rb");
    if (!file) return 0;
    int is_read = read_text(file);
    fclose(file);
    return is_read && pp_stream_include(stream, 0, texts[text_count - 1], lengths[text_count - 1]) == PP_DONE;
}

/* Prints an item. Returns whether it is a token. */
static int print(const pp_item *it, const uint8_t *spelled, uint32_t number) {
    if (it->kind == PP_ERROR) {
        fprintf(stderr, "text %u, line %u: %s\n", (unsigned)number, (unsigned)it[1].line, pp_error_sentence(it->error));
        return 0;
    }
    if (it->kind == PP_INTEGER) printf("%llu\n", (unsigned long long)it->value);
    else if (it->text_length) printf("%.*s\n", (int)it->text_length, (const char *)spelled + it->value);
    return 1;
}

int main(void) {
    static pp_item items[256];
    static uint8_t spelled[4096];
    static uint32_t numbers[256]; /* in which text each item is */
    pp_options options = {.size = sizeof options, .rules = PP_RULES_CORE, .version = 450, .budget = 100000000};
    pp_stream stream = {0};
    pp_sizes sizes;
    uint32_t answer;
    if (!read_text(stdin) || pp_stream_open(&options, PP_ASK_INCLUDES, texts[0], lengths[0], &stream) != PP_DONE) return 2;
    do {
        answer = pp_stream_next(&stream, 0, items, 256, spelled, sizeof spelled, numbers, 256, &sizes);
        if (answer != PP_PARTIAL && answer != PP_INCLUDE && answer != PP_DONE) return 2;
        /* A line that asks is the last item: an error, with its place and what follows the word `include`. */
        uint64_t count = answer == PP_INCLUDE ? sizes.items - 3 : sizes.items, last = sizes.items - 1;
        for (uint64_t n = 0; n < count; n += 1 + items[n].children)
            if (!print(&items[n], spelled, numbers[n])) return 1;
        if (answer == PP_INCLUDE && !include_file(&stream, &items[last], numbers[last])) {
            fprintf(stderr, "text %u, line %u: no such file\n", (unsigned)numbers[last], (unsigned)items[last].line);
            return 1;
        }
    } while (answer != PP_DONE);
    pp_stream_close(&stream);
    while (text_count) free(texts[--text_count]);
    return 0;
}
