/* Prints the items of the source on standard input, a line each and indented those that an item holds, and the answers to
 * definitions between them:
 *
 *     show [--room=ITEMS,TEXTS] [--options=RULES,VERSION,STEPS,ITEMS] [NAME=CONTENT | next]... < shader.frag
 *     show [--room=ITEMS,TEXTS] --lex < shader.frag
 *
 * A definition is added after as many items as there are words `next` before it. The room is what the first call gets. The
 * options are the numbers of a pp_options. */
#include "pp.h"

#include <inttypes.h>
#include <stdio.h>
#include <stdlib.h>
#include <string.h>

typedef struct {
    uint8_t *source;
    size_t source_length;
    uint8_t *words;
    size_t words_length;
    pp_definition *definitions;
    size_t definition_count;
    pp_item *items;
    uint8_t *texts;
    pp_sizes room;
    pp_sizes sizes;
    pp_options options;
    int has_options;
    int only_lexes;
} shown;

/* Memory for so many elements. No call may be handed a null pointer, so it is never empty. */
static void *room_for(uint64_t count, size_t size) {
    void *memory = count < SIZE_MAX / size ? malloc(count ? count * size : 1) : NULL;
    if (!memory) {
        fputs("show: out of memory\n", stderr);
        exit(2);
    }
    return memory;
}

static void read_source(shown *it) {
    size_t room = 1 << 16, got;
    it->source = (uint8_t *)room_for(room, 1);
    while ((got = fread(it->source + it->source_length, 1, room - it->source_length, stdin)) > 0) {
        it->source_length += got;
        if (it->source_length == room) {
            uint8_t *larger = (uint8_t *)room_for(room *= 2, 1);
            memcpy(larger, it->source, it->source_length);
            free(it->source);
            it->source = larger;
        }
    }
}

/* Puts a word behind the others. */
static void add_word(shown *it, const char *word, size_t length, uint64_t *start, uint64_t *word_length) {
    memcpy(it->words + it->words_length, word, length);
    *start = it->words_length;
    *word_length = length;
    it->words_length += length;
}

static int read_options(const char *argument, pp_options *options) {
    options->size = sizeof *options;
    return sscanf(argument, "--options=%" SCNu32 ",%" SCNu32 ",%" SCNu64 ",%" SCNu64, &options->rules, &options->version,
                  &options->budget, &options->most_items) == 4;
}

static void read_arguments(shown *it, int count, char **arguments) {
    size_t length = 0;
    uint64_t after = 0;
    for (int i = 1; i < count; i++) length += strlen(arguments[i]);
    it->words = (uint8_t *)room_for(length, 1);
    it->definitions = (pp_definition *)room_for((uint64_t)count, sizeof *it->definitions);
    for (int i = 1; i < count; i++) {
        const char *argument = arguments[i], *content = strchr(argument, '=');
        if (sscanf(argument, "--room=%" SCNu64 ",%" SCNu64, &it->room.items, &it->room.texts) == 2) continue;
        if (read_options(argument, &it->options)) {
            it->has_options = 1;
            continue;
        }
        if (strcmp(argument, "--lex") == 0) {
            it->only_lexes = 1;
        } else if (strcmp(argument, "next") == 0) {
            after++;
        } else if (content) {
            pp_definition *definition = &it->definitions[it->definition_count++];
            add_word(it, argument, (size_t)(content - argument), &definition->name_start, &definition->name_length);
            add_word(it, content + 1, strlen(content + 1), &definition->content_start, &definition->content_length);
            definition->after = after;
        }
    }
}

static uint32_t call(shown *it) {
    if (it->only_lexes)
        return pp_lex(it->source, it->source_length, it->items, it->room.items, it->texts, it->room.texts, &it->sizes);
    if (it->has_options)
        return pp_preprocess_with(&it->options, it->source, it->source_length, it->words, it->words_length, it->definitions,
                                  it->definition_count, it->items, it->room.items, it->texts, it->room.texts, &it->sizes);
    return pp_preprocess(it->source, it->source_length, it->words, it->words_length, it->definitions,
                         it->definition_count, it->items, it->room.items, it->texts, it->room.texts, &it->sizes);
}

/* Calls again with as much room as is needed, if there was too little. */
static uint32_t call_with_room(shown *it) {
    for (;;) {
        it->items = (pp_item *)room_for(it->room.items, sizeof *it->items);
        it->texts = (uint8_t *)room_for(it->room.texts, 1);
        uint32_t status = call(it);
        if (status != PP_TOO_SMALL) return status;
        free(it->items);
        free(it->texts);
        it->room = it->sizes;
    }
}

static void print_value(const shown *it, const pp_item *item) {
    const char *text = (const char *)it->texts + item->value;
    int length = (int)item->text_length;
    switch (item->kind) {
    case PP_IDENT: printf("identifier %.*s", length, text); break;
    case PP_INTEGER: printf("integer %" PRIu64 "%s", item->value, item->flags & PP_SIGNED ? "" : "u"); break;
    case PP_FLOAT: printf("float %.*s", length, text); break;
    case PP_NEW_LINE: printf("newline"); break;
    case PP_HASH: printf("hash"); break;
    case PP_ERROR: printf("error %u", (unsigned)item->error); break;
    case PP_PLACE: printf("place"); break;
    case PP_PRAGMA: printf("pragma"); break;
    case PP_VERSION:
        printf("version first=%d comments=%d", !!(item->flags & PP_FIRST_DIRECTIVE), !!(item->flags & PP_COMMENTS_BEFORE));
        break;
    case PP_EXTENSION: printf("extension before=%d", !!(item->flags & PP_NON_DIRECTIVE_BEFORE)); break;
    default: printf("punctuator %d %.*s", (int)item->kind, length, text);
    }
}

static void print_place(uint32_t start, uint32_t end, uint32_t line) {
    printf(" %" PRIu32 "..%" PRIu32 " L%" PRIu32, start, end, line);
}

/* Prints an item, and below it those that it holds. Returns the number of the one after them. */
static uint64_t print_item(const shown *it, uint64_t at, int depth) {
    const pp_item *item = &it->items[at];
    uint64_t end = at + 1 + item->children;
    printf("%*s", 2 * depth, "");
    print_value(it, item);
    print_place(item->start, item->end, item->line);
    if (it->only_lexes && item->kind != PP_ERROR && item->kind != PP_PLACE)
        printf(" leading=%d start=%d", !!(item->flags & PP_LEADING_WHITESPACE), !!(item->flags & PP_START_OF_LINE));
    putchar('\n');
    for (at++; at < end;) at = print_item(it, at, depth + 1);
    return end;
}

static void print_answer(const pp_definition *definition) {
    if (!definition->error) {
        puts("added");
        return;
    }
    printf("refused %" PRIu32, definition->error);
    print_place(definition->start, definition->end, definition->line);
    putchar('\n');
}

static void print_all(const shown *it) {
    uint64_t given = 0;
    size_t answered = 0;
    for (uint64_t at = 0; at < it->sizes.items; given++) {
        while (answered < it->definition_count && it->definitions[answered].after <= given)
            print_answer(&it->definitions[answered++]);
        at = print_item(it, at, 0);
    }
    while (answered < it->definition_count) print_answer(&it->definitions[answered++]);
}

int main(int argc, char **argv) {
    shown it;
    memset(&it, 0, sizeof it);
    read_source(&it);
    read_arguments(&it, argc, argv);
    uint32_t status = call_with_room(&it);
    int is_given = status == PP_DONE || status == PP_PARTIAL;
    if (is_given) print_all(&it);
    else fprintf(stderr, "show: status %" PRIu32 "\n", status);
    free(it.source);
    free(it.words);
    free(it.definitions);
    free(it.items);
    free(it.texts);
    return !is_given;
}
