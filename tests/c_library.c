/* Calls the library at its edges, and prints a line for each case. Run by tests/c_library, with sanitizers. */
#define _DEFAULT_SOURCE
#include "c_heap.h"
#include "pp.h"

#include <stdbool.h>
#include <stdio.h>
#include <stdlib.h>
#include <string.h>
#include <sys/mman.h>

_Static_assert(sizeof(pp_item) == 40, "docs/GUIDE.md says how much memory an item takes");
_Static_assert(sizeof(pp_options) == 32, "crates/pp_c/specs/Options.antt says how long options are");

static void check(const char *name, bool holds) {
    printf("%s: %s\n", name, holds ? "passed" : "it doesn't hold");
}

/* What is handed to a call. Behind the room lies a guard of one element. */
#define MOST 64
enum { GUARD = 0xA5 };

static const char *source = "#version 300 es\nA B(1.5f) = 7u; @ #extension x\n#define B(x) [x\nB(2.5)]";
static const char *words = "A12B3@";
static pp_definition definitions[3];
static pp_item items[MOST + 1];
static uint8_t texts[4 * MOST + 1];
static pp_sizes sizes;

static void define(size_t number, uint64_t name, uint64_t content, uint64_t length, uint64_t after) {
    memset(&definitions[number], GUARD, sizeof definitions[number]);
    definitions[number].name_start = name;
    definitions[number].name_length = 1;
    definitions[number].content_start = content;
    definitions[number].content_length = length;
    definitions[number].after = after;
}

static void define_all(void) {
    define(0, 0, 1, 2, 0);
    define(1, 3, 5, 1, 1);
    define(2, 3, 4, 1, 2);
}

static uint32_t call_over(const char *text, size_t length, size_t count, size_t items_room, size_t texts_room) {
    memset(items, GUARD, sizeof items);
    memset(texts, GUARD, sizeof texts);
    memset(&sizes, GUARD, sizeof sizes);
    return pp_preprocess((const uint8_t *)text, length, (const uint8_t *)words, strlen(words), definitions, count, items,
                         items_room, texts, texts_room, &sizes);
}

static uint32_t call(size_t items_room, size_t texts_room) {
    return call_over(source, strlen(source), 3, items_room, texts_room);
}

/* Whether nothing lies behind the room. */
static bool is_kept(size_t items_room, size_t texts_room) {
    for (const uint8_t *at = (const uint8_t *)(items + items_room); at < (const uint8_t *)(items + MOST + 1); at++)
        if (*at != GUARD) return false;
    for (size_t at = texts_room; at < sizeof texts; at++)
        if (texts[at] != GUARD) return false;
    return true;
}

/* Each room that is too small: the result, the sizes, and that nothing is written beyond it. */
static void check_rooms(void) {
    define_all();
    check("there is room", call(MOST, 4 * MOST) == PP_DONE);
    pp_sizes needed = sizes;
    check("only what the sizes say is written", is_kept(needed.items, needed.texts));
    bool answers = true, same = true, kept = true;
    for (size_t i = 0; i <= needed.items; i++)
        for (size_t t = 0; t <= needed.texts; t++) {
            bool fits = i == needed.items && t == needed.texts;
            answers &= call(i, t) == (fits ? PP_DONE : PP_TOO_SMALL);
            same &= sizes.items == needed.items && sizes.texts == needed.texts;
            kept &= is_kept(i, t);
        }
    check("too little room is answered", answers);
    check("with too little room the sizes are the same", same);
    check("nothing is written beyond the room", kept);
}

static void check_definitions(void) {
    define_all();
    bool done = call(MOST, 4 * MOST) == PP_DONE;
    check("a definition is added", done && definitions[0].error == 0);
    check("a definition is refused",
          definitions[1].error == PP_UNEXPECTED_CHARACTER && definitions[1].end == 0 && definitions[1].line == 1);
    check("a definition after another is added", definitions[2].error == 0);
    define(0, 0, 1, 2, 1000);
    check("a definition after the end is added", call(MOST, 4 * MOST) == PP_DONE && definitions[0].error == 0);
    define(0, 0, 1, 7, 0);
    check("a content beyond the words", call(MOST, 4 * MOST) == PP_BAD_DEFINITION);
    define(0, UINT64_MAX, 1, 1, 0);
    check("a name whose end has no number", call(MOST, 4 * MOST) == PP_BAD_DEFINITION);
    define(0, 7, 1, 1, 0);
    check("a name beyond the words", call(MOST, 4 * MOST) == PP_BAD_DEFINITION);
    words = "A\xc3\xa9";
    define(0, 0, 1, 1, 0);
    check("a content that cuts a character", call_over(source, 1, 1, MOST, MOST) == PP_BAD_DEFINITION);
    define(0, 0, 1, 2, 0);
    check("a content of one character", call_over(source, 1, 1, MOST, MOST) == PP_DONE);
    words = "A\xc3";
    check("words that are no UTF-8", call_over(source, 1, 0, MOST, MOST) == PP_NOT_UTF8);
    words = "A12B3@";
}

static void check_sources(void) {
    check("an empty source", call_over("", 0, 0, 0, 0) == PP_DONE && sizes.items == 0 && sizes.texts == 0);
    check("a source that is no UTF-8", call_over("a\xff", 2, 0, MOST, MOST) == PP_NOT_UTF8);
    check("a source of a NUL", call_over("\0", 1, 0, MOST, MOST) == PP_DONE && items[0].error == PP_UNEXPECTED_CHARACTER);
    size_t most = UINT32_MAX;
    void *long_source = mmap(NULL, most, PROT_READ, MAP_PRIVATE | MAP_ANONYMOUS | MAP_NORESERVE, -1, 0);
    if (long_source == MAP_FAILED) return;
    check("a source that is too long", call_over((const char *)long_source, most, 0, MOST, MOST) == PP_TOO_LONG);
    check("a source that is too long, lexed",
          pp_lex((const uint8_t *)long_source, most, items, MOST, texts, MOST, &sizes) == PP_TOO_LONG);
    munmap(long_source, most);
}

/* Each allocation fails in turn. */
static void check_refused(void) {
    define_all();
    bool answered = true;
    uint64_t number = 0, spared = 0;
    do {
        asked = 0;
        failing = ++number;
        uint32_t status = call(MOST, 4 * MOST);
        bool spares = asked >= failing && status == PP_DONE;
        spared += spares;
        answered &= spares || status == (asked < failing ? PP_DONE : PP_OUT_OF_MEMORY);
    } while (asked >= failing && number < 10000);
    failing = 0;
    check("an allocation that fails is answered", answered);
    /* Each of the four definitions and the item of #version asks for a smaller block, and keeps its own if there is none. */
    check("without five allocations at most nothing changes", spared <= 5);
    check("several allocations can fail", number > 10 && number < 10000);
}

/* The call with options, over the same memory. */
static pp_options options;

static uint32_t call_by(const char *text, size_t items_room, size_t texts_room) {
    memset(items, GUARD, sizeof items);
    memset(texts, GUARD, sizeof texts);
    memset(&sizes, GUARD, sizeof sizes);
    return pp_preprocess_with(&options, (const uint8_t *)text, strlen(text), (const uint8_t *)words, strlen(words),
                              definitions, 3, items, items_room, texts, texts_room, &sizes);
}

static void plain_options(void) {
    memset(&options, 0, sizeof options);
    options.size = sizeof options;
    define_all();
}

/* How many errors there are. */
static uint64_t count_errors(void) {
    uint64_t count = 0;
    for (uint64_t at = 0; at < sizes.items; at += 1 + items[at].children) count += items[at].kind == PP_ERROR;
    return count;
}

static void check_options(void) {
    static pp_item items_then[MOST + 1];
    static uint8_t texts_then[sizeof texts];
    static pp_definition definitions_then[3];
    define_all();
    bool done = call(MOST, 4 * MOST) == PP_DONE;
    memcpy(items_then, items, sizeof items);
    memcpy(texts_then, texts, sizeof texts);
    memcpy(definitions_then, definitions, sizeof definitions);
    plain_options();
    done &= call_by(source, MOST, 4 * MOST) == PP_DONE;
    done &= memcmp(items, items_then, sizeof items) == 0 && memcmp(texts, texts_then, sizeof texts) == 0;
    check("options of 0 change nothing", done && memcmp(definitions, definitions_then, sizeof definitions) == 0);
    bool refused = true;
    for (uint64_t size = 0; size < 100; size++) {
        plain_options();
        options.size = size;
        refused &= (call_by(source, MOST, 4 * MOST) == PP_BAD_OPTIONS) == (size != sizeof options);
    }
    for (uint32_t rules = 4; rules; rules *= 2) {
        plain_options();
        options.rules = rules;
        refused &= call_by(source, MOST, 4 * MOST) == PP_BAD_OPTIONS;
    }
    check("other options are refused", refused);
}

static void check_rules(void) {
    plain_options();
    const char *dead = "#if 0\nit's  not\n#endif\n1.0lf";
    check("pp-rs gives errors of dead text", call_by(dead, MOST, 4 * MOST) == PP_DONE && count_errors() == 2);
    for (options.rules = PP_RULES_CORE; options.rules <= PP_RULES_ES; options.rules++)
        check("GLSL gives none", call_by(dead, MOST, 4 * MOST) == PP_DONE && sizes.items == 1 && items[0].width == 64);
    /* The line after #line has its number from 3.30 and from ES 3.00 on. */
    static const struct {
        uint32_t rules, version;
        uint64_t line;
    } numbered[] = {
        {PP_RULES_PP_RS, 450, 8},        {PP_RULES_CORE, 320, 8}, {PP_RULES_CORE, 330, 7}, {PP_RULES_COMPATIBILITY, 320, 8},
        {PP_RULES_COMPATIBILITY, 330, 7}, {PP_RULES_ES, 100, 8},   {PP_RULES_ES, 300, 7},   {PP_RULES_ES, 320, 7},
    };
    bool right = true;
    for (size_t n = 0; n < sizeof numbered / sizeof *numbered; n++) {
        options.rules = numbered[n].rules;
        options.version = numbered[n].version;
        right &= call_by("#line 7\n__LINE__", MOST, 4 * MOST) == PP_DONE && items[0].value == numbered[n].line;
        right &= (items[0].flags & PP_SIGNED) == (options.rules != PP_RULES_PP_RS);
    }
    check("the version and the profile decide the number of a line", right);
    define(0, 0, 5, 1, 0);
    words = "A12B3@\n";
    options.rules = PP_RULES_CORE;
    check("contents are read by the rules too", call_by("", MOST, 4 * MOST) == PP_DONE && definitions[0].end == 0);
    words = "A12B3@";
}

static const char *bomb = "1 2 3\n#define A b b b b b b b b\n#define C A A A A A A A A\n#define D C C C C C C C C\n"
                          "#define E D D D D D D D D\n#define F E E E E E E E E\n#define G F F F F F F F F\n"
                          "#define H G G G G G G G G\n#define I H H H H H H H H\n#define J I I I I I I I I\n"
                          "#define K J J J J J J J J\n#define L K K K K K K K K\n#define M L L L L L L L L\n"
                          "#define N(x) x\nM N(M)";

static void check_budget(void) {
    plain_options();
    uint32_t over = 0, done = 0;
    bool known = true, same = true;
    pp_sizes needed = {0, 0};
    for (options.budget = 1; options.budget < 500; options.budget++) {
        uint32_t status = call_by(source, MOST, 4 * MOST);
        known &= status == PP_DONE || (status == PP_OVER_BUDGET && !done);
        over += status == PP_OVER_BUDGET;
        done += status == PP_DONE;
        if (done == 1) needed = sizes;
        same &= !done || memcmp(&sizes, &needed, sizeof sizes) == 0;
    }
    check("with fewer steps than are needed the budget is over", known && over > 10 && done > 10);
    check("with more steps nothing changes", same);
    options.budget = 1000000;
    check("a source without end is over", call_by(bomb, MOST, 4 * MOST) == PP_OVER_BUDGET);
    /* Each allocation fails in turn. */
    bool answered = true;
    uint64_t number = 0;
    do {
        asked = 0;
        failing = ++number;
        uint32_t status = call_by(source, MOST, 4 * MOST);
        answered &= status == PP_OUT_OF_MEMORY || status == PP_DONE;
    } while (asked >= failing && number < 10000);
    failing = 0;
    check("memory that runs out is no budget that is over", answered && number > 10 && number < 10000);
}

/* The number of items that no other holds. */
static uint64_t count_outer(void) {
    uint64_t count = 0;
    for (uint64_t at = 0; at < sizes.items; at += 1 + items[at].children) count++;
    return count;
}

static void check_most(void) {
    static pp_item whole[MOST];
    static uint8_t whole_texts[4 * MOST];
    plain_options();
    bool right = call_by(source, MOST, 4 * MOST) == PP_DONE;
    uint64_t all = count_outer();
    memcpy(whole, items, sizeof whole);
    memcpy(whole_texts, texts, sizeof whole_texts);
    bool front = true, answers = true, small = true;
    for (uint64_t most = 1; most <= all + 3; most++) {
        plain_options();
        options.most_items = most;
        uint32_t status = call_by(source, MOST, 4 * MOST);
        right &= status == (most <= all ? PP_PARTIAL : PP_DONE) && count_outer() == (most < all ? most : all);
        front &= memcmp(items, whole, sizes.items * sizeof *items) == 0 && memcmp(texts, whole_texts, sizes.texts) == 0;
        front &= is_kept(sizes.items, sizes.texts);
        answers &= definitions[0].error == 0 && definitions[1].error == PP_UNEXPECTED_CHARACTER && definitions[2].error == 0;
        pp_sizes needed = sizes;
        small &= call_by(source, needed.items - 1, needed.texts) == PP_TOO_SMALL && sizes.items == needed.items;
        small &= call_by(source, needed.items, needed.texts) == status;
    }
    check("as many items come as are asked for", right && all > 10);
    check("they are the first of all, and nothing is behind them", front);
    check("definitions that aren't reached are answered", answers);
    check("there has to be room for the items that are asked for", small);
    options.most_items = 3;
    check("items before a source without end", call_by(bomb, MOST, 4 * MOST) == PP_PARTIAL && sizes.items == 3);
    options.most_items = 50;
    check("items of a source without end", call_by(bomb, MOST, 4 * MOST) == PP_PARTIAL && count_outer() == 50);
}

/* A tree of texts for #include lines, each named by its last word, as a front end has it. */
typedef struct {
    const char *name, *text;
} named;

static const named tree[] = {
    {"a", "x\n#include \"b\"\ny"},          {"b", "#define B 7\nz"}, {"open", "#if 1\np"}, {"itself", "#include \"itself\"\n"},
    {"cut", "q\xc3\xa9"},                   {"deep1", "1\n#include \"deep2\"\n1"}, {"deep2", "2\n#include \"deep3\"\n2 D"},
    {"deep3", "#define D 3 __LINE__\nD"},
};

#define MOST_TEXTS 256
#define ROOM 4096
static struct {
    char words[16384];
    size_t words_length;
    pp_definition entries[MOST_TEXTS];
    size_t count;
    pp_item items[ROOM + 1];
    uint8_t texts[ROOM + 1];
    uint32_t numbers[ROOM + 1];
    pp_sizes sizes;
    uint64_t lines;
    size_t numbers_room;
    pp_options options;
} in;

static void begin_including(void) {
    memset(&in, 0, sizeof in);
    in.options.size = sizeof in.options;
    in.options.rules = PP_RULES_CORE;
    in.options.version = 450;
    in.numbers_room = ROOM;
}

static uint32_t include_over(const char *text, size_t items_room, size_t texts_room) {
    memset(in.items, GUARD, sizeof in.items);
    memset(in.texts, GUARD, sizeof in.texts);
    memset(in.numbers, GUARD, sizeof in.numbers);
    return pp_preprocess_including(&in.options, in.lines, (const uint8_t *)text, strlen(text), (const uint8_t *)in.words,
                                   in.words_length, in.entries, in.count, in.items, items_room, in.texts, texts_room,
                                   in.numbers, in.numbers_room, &in.sizes);
}

static void put(uint64_t name_start, const char *content, uint64_t after) {
    pp_definition *entry = &in.entries[in.count++];
    memset(entry, 0, sizeof *entry);
    entry->name_start = name_start;
    entry->content_start = in.words_length;
    entry->content_length = strlen(content);
    entry->after = after;
    entry->error = GUARD;
    memcpy(in.words + in.words_length, content, strlen(content));
    in.words_length += strlen(content);
}

static uint64_t outer_items(void) {
    uint64_t count = 0;
    for (uint64_t at = 0; at < in.sizes.items; at += 1 + in.items[at].children) count++;
    return count;
}

/* Answers the line that asks by the text that has its name, if one has. */
static void answer_line(const char *text) {
    const pp_item *line = &in.items[in.sizes.items - 1];
    uint32_t number = in.numbers[in.sizes.items - 1];
    const char *whole = number ? in.words + in.entries[number - 1].content_start : text;
    for (size_t n = 0; n < sizeof tree / sizeof *tree; n++) {
        size_t length = strlen(tree[n].name);
        if (line->end - line->start == length + 3 && memcmp(whole + line->start + 2, tree[n].name, length) == 0)
            put(PP_TEXT, tree[n].text, outer_items());
    }
    in.lines++;
}

/* Reads a source with all that it includes. */
static uint32_t include_all(const char *text) {
    uint32_t status;
    begin_including();
    while ((status = include_over(text, ROOM, ROOM)) == PP_INCLUDE) answer_line(text);
    return status;
}

/* The items that no other holds, as text: a number or a name, or the number of an error; and each text's number. */
static bool gives(const char *wanted) {
    static char found[8192];
    size_t length = 0;
    for (uint64_t at = 0; at < in.sizes.items; at += 1 + in.items[at].children) {
        const pp_item *it = &in.items[at];
        if (it->kind == PP_ERROR) length += (size_t)sprintf(found + length, "!%u", it->error);
        else if (it->kind == PP_INTEGER) length += (size_t)sprintf(found + length, "%u", (unsigned)it->value);
        else length += (size_t)sprintf(found + length, "%.*s", (int)it->text_length, (const char *)in.texts + it->value);
        length += (size_t)sprintf(found + length, ":%u ", (unsigned)in.numbers[at]);
        for (uint64_t held = at + 1; held <= at + it->children; held++)
            if (in.numbers[held] != in.numbers[at]) return false;
    }
    if (length) found[length - 1] = 0;
    else found[0] = 0;
    if (strcmp(found, wanted) == 0) return true;
    fprintf(stderr, "found %s, wanted %s\n", found, wanted);
    return false;
}

static void check_including(void) {
    const char *two = "#include \"a\"\nB __LINE__";
    begin_including();
    bool asks = include_over(two, ROOM, ROOM) == PP_INCLUDE && in.sizes.items == 3 && in.sizes.texts == 0;
    const pp_item *error = in.items, *place = error + 1, *line = error + 2;
    asks &= error->kind == PP_ERROR && error->error == PP_UNKNOWN_DIRECTIVE && error->children == 2 && error->start == 1;
    asks &= place->kind == PP_PLACE && place->start == 1 && place->end == 8 && place->line == 1 && place->children == 0;
    asks &= line->kind == PP_INCLUDE_LINE && line->start == 8 && line->end == 12 && line->line == 1 && line->children == 0;
    check("an #include line asks", asks && in.numbers[0] == 0 && in.numbers[2] == 0);
    answer_line(two);
    asks = include_over(two, ROOM, ROOM) == PP_INCLUDE && gives("!12:0 x:1 !12:1") && in.entries[0].error == 0;
    line = in.items + in.sizes.items - 1;
    check("so does one in a text", asks && line->kind == PP_INCLUDE_LINE && line->start == 10 && line->end == 14 && line->line == 2);
    check("texts within texts", include_all(two) == PP_DONE && gives("!12:0 x:1 !12:1 z:2 y:1 7:2 2:0"));
    check("texts three deep", include_all("#include \"deep1\"\nD") == PP_DONE &&
          gives("!12:0 1:1 !12:1 2:2 !12:2 3:3 2:3 2:2 3:3 3:3 1:1 3:3 2:3"));
    begin_including();
    in.lines = UINT64_MAX;
    check("all lines are passed", include_over(two, ROOM, ROOM) == PP_DONE && gives("!12:0 B:0 2:0") && in.items[0].children == 2);
    in.options.most_items = 1;
    check("fewer items than the line is at", include_over(two, ROOM, ROOM) == PP_PARTIAL && in.sizes.items == 3);
    in.lines = 0;
    check("a line that is the last item asks", include_over(two, ROOM, ROOM) == PP_INCLUDE);
    in.options.most_items = 3;
    check("an #include line that isn't found", include_all("#include \"no\"\nb") == PP_DONE && gives("!12:0 b:0"));
    check("a block of a text is its own", include_all("#include \"open\"\n#else\nb") == PP_DONE && gives("!12:0 p:1 !19:1 !15:0 b:0"));
    check("a dead #include asks for nothing", include_all("#if 0\n#include \"a\"\n#endif\nb") == PP_DONE && gives("b:0"));
    bool asks_not = include_all("#define F(x) x\nF(\n#include \"b\"\n) c") == PP_DONE && in.count == 0;
    check("nor does one in a call", asks_not && in.items[0].error == PP_UNKNOWN_DIRECTIVE && in.items[0].children == 1);
    check("a text that includes itself", include_all("#include \"itself\"\nb") == PP_TOO_DEEP && in.count == 201);
    in.count--;
    check("it is the error, and reading goes on", include_over("#include \"itself\"\nb", ROOM, ROOM) == PP_DONE &&
          outer_items() == 202 && in.items[in.sizes.items - 1].kind == PP_IDENT);
}

/* Each answer once more, with texts. */
static void check_including_refused(void) {
    const char *two = "#include \"a\"\nB __LINE__";
    include_all(two);
    pp_sizes needed = in.sizes;
    bool small = include_over(two, needed.items - 1, needed.texts) == PP_TOO_SMALL && in.sizes.items == needed.items;
    small &= include_over(two, needed.items, needed.texts - 1) == PP_TOO_SMALL && in.sizes.texts == needed.texts;
    small &= include_over(two, needed.items, needed.texts) == PP_DONE;
    bool kept = true;
    for (const uint8_t *at = (const uint8_t *)(in.items + needed.items); at < (const uint8_t *)(in.items + ROOM + 1); at++) kept &= *at == GUARD;
    for (size_t at = needed.texts; at <= ROOM; at++) kept &= in.texts[at] == GUARD;
    for (size_t at = needed.items; at <= ROOM; at++) kept &= in.numbers[at] == 0x01010101u * GUARD;
    check("texts need room too", small && kept);
    in.numbers_room = 2;
    check("numbers without room aren't written", include_over(two, ROOM, ROOM) == PP_DONE && in.numbers[1] == 0 && in.numbers[2] == 0x01010101u * GUARD);
    in.options.rules = 4;
    check("texts by no rules", include_over(two, ROOM, ROOM) == PP_BAD_OPTIONS);
    in.options.rules = PP_RULES_ES;
    in.options.budget = 5;
    check("texts over a budget", include_over(two, ROOM, ROOM) == PP_OVER_BUDGET);
    begin_including();
    put(PP_TEXT, "b", 1);
    in.lines = 1;
    in.entries[0].content_length = 2;
    check("a text beyond the words", include_over(two, ROOM, ROOM) == PP_BAD_DEFINITION);
    in.entries[0].content_length = UINT64_MAX;
    check("a text whose end has no number", include_over(two, ROOM, ROOM) == PP_BAD_DEFINITION);
    begin_including();
    put(PP_TEXT, "q\xc3\xa9", 1);
    in.lines = 1;
    in.entries[0].content_length = 2;
    check("a text that cuts a character", include_over(two, ROOM, ROOM) == PP_BAD_DEFINITION);
    in.entries[0].content_length = 3;
    check("a text with it", include_over(two, ROOM, ROOM) == PP_DONE && in.entries[0].error == 0);
    in.entries[0].name_start = 0;
    in.entries[0].name_length = 1;
    check("a definition among texts", include_over("q", ROOM, ROOM) == PP_DONE && in.entries[0].error == 0);
    in.words_length = 2;
    check("texts that are no UTF-8", include_over(two, ROOM, ROOM) == PP_NOT_UTF8);
    plain_options();
    define(0, PP_TEXT, 1, 2, 0);
    check("a call that takes no texts", call_by(source, MOST, 4 * MOST) == PP_BAD_DEFINITION);
    check("nor does one without options", call(MOST, 4 * MOST) == PP_BAD_DEFINITION);
    size_t most = UINT32_MAX;
    uint8_t *long_words = (uint8_t *)mmap(NULL, most, PROT_READ, MAP_PRIVATE | MAP_ANONYMOUS | MAP_NORESERVE, -1, 0);
    if (long_words != MAP_FAILED) {
        pp_definition text = {.name_start = PP_TEXT, .content_length = most, .after = 1};
        begin_including();
        check("a text that is too long", pp_preprocess_including(&in.options, 1, (const uint8_t *)two, strlen(two), long_words, most,
              &text, 1, in.items, ROOM, in.texts, ROOM, in.numbers, ROOM, &in.sizes) == PP_TOO_LONG);
        munmap(long_words, most);
    }
    /* Each allocation fails in turn, over texts within texts. */
    include_all("#include \"deep1\"\nD");
    needed = in.sizes;
    bool answered = true;
    uint64_t number = 0;
    do {
        asked = 0;
        failing = ++number;
        uint32_t status = include_over("#include \"deep1\"\nD", ROOM, ROOM);
        answered &= status == PP_OUT_OF_MEMORY || (status == PP_DONE && in.sizes.items == needed.items);
    } while (asked >= failing && number < 10000);
    failing = 0;
    check("an allocation that fails in texts is answered", answered && number > 10 && number < 10000);
}

/* A null pointer where the length is 0, alone and beside the others. */
static void check_nulls(void) {
    bool same = true, lexed = true, included = true;
    begin_including();
    for (unsigned nulls = 0; nulls < 64; nulls++) {
        const uint8_t *text = nulls & 1 ? NULL : (const uint8_t *)"";
        const uint8_t *some_words = nulls & 2 ? NULL : (const uint8_t *)"";
        pp_definition *none = nulls & 4 ? NULL : definitions;
        pp_item *no_items = nulls & 8 ? NULL : items;
        uint8_t *no_texts = nulls & 16 ? NULL : texts;
        uint32_t *no_numbers = nulls & 32 ? NULL : in.numbers;
        plain_options();
        same &= pp_preprocess(text, 0, some_words, 0, none, 0, no_items, 0, no_texts, 0, &sizes) == PP_DONE && sizes.items == 0;
        same &= pp_preprocess_with(&options, text, 0, some_words, 0, none, 0, no_items, 0, no_texts, 0, &sizes) == PP_DONE;
        same &= pp_preprocess((const uint8_t *)"a b", 3, some_words, 0, none, 0, no_items, 0, no_texts, 0, &sizes) == PP_TOO_SMALL &&
                sizes.items == 2 && sizes.texts == 2;
        same &= pp_preprocess((const uint8_t *)"#if 0", 5, some_words, 0, none, 0, items, MOST, no_texts, 0, &sizes) == PP_DONE &&
                sizes.items == 2 && items[0].error == PP_UNFINISHED_BLOCK;
        included &= pp_preprocess_including(&in.options, 0, text, 0, some_words, 0, none, 0, no_items, 0, no_texts, 0, no_numbers, 0,
                                            &sizes) == PP_DONE && sizes.items == 0;
        included &= pp_preprocess_including(&in.options, 0, (const uint8_t *)"#include", 8, some_words, 0, none, 0, items, MOST,
                                            no_texts, 0, no_numbers, 0, &sizes) == PP_INCLUDE && sizes.items == 3;
        lexed &= pp_lex(text, 0, no_items, 0, no_texts, 0, &sizes) == PP_DONE && sizes.items == 0;
        lexed &= pp_lex((const uint8_t *)"a", 1, no_items, 0, no_texts, 0, &sizes) == PP_TOO_SMALL && sizes.items == 2;
        pp_position it = {0, 0};
        lexed &= pp_line_column(text, 0, nulls, &it) == PP_DONE && it.line == 1 && it.column == 1;
    }
    check("null pointers of length 0", same);
    check("the same with texts", included);
    check("the same to the lexer", lexed);
    /* An empty text, of words that are null. */
    begin_including();
    put(PP_TEXT, "", 1);
    check("an empty text of no words", pp_preprocess_including(&in.options, 1, (const uint8_t *)"#include\nb", 10, NULL, 0, in.entries, 1,
          in.items, ROOM, in.texts, ROOM, in.numbers, ROOM, &in.sizes) == PP_DONE && gives("!12:0 b:0"));
}

/* A source with lines of each kind: the position of each byte and beyond. */
static void check_positions(void) {
    static const char lines[] = "a\xc3\xa9\\\nb\r\nc\rd\n";
    static const uint32_t wanted[][2] = {
        {1, 1}, {1, 2}, {1, 2}, {1, 3}, {1, 4}, {2, 1}, {2, 2}, {2, 2}, {3, 1}, {3, 2}, {4, 1}, {4, 2}, {5, 1}, {5, 1},
    };
    bool right = true;
    for (uint64_t at = 0; at < sizeof wanted / sizeof *wanted; at++) {
        pp_position it = {0, 0};
        right &= pp_line_column((const uint8_t *)lines, strlen(lines), at, &it) == PP_DONE;
        right &= it.line == wanted[at][0] && it.column == wanted[at][1];
    }
    check("lines and columns", right);
    pp_position it;
    check("an offset far beyond", pp_line_column((const uint8_t *)lines, strlen(lines), UINT64_MAX, &it) == PP_DONE && it.line == 5);
    check("a position in no text", pp_line_column((const uint8_t *)"a\xff", 2, 0, &it) == PP_NOT_UTF8);
    check("the version", pp_version() == PP_API_VERSION);
}

/* What each number is called. */
static void print_names(void) {
    for (uint32_t number = 0; number < 200; number++) {
        if (*pp_kind_name(number)) printf("kind %u %s\n", number, pp_kind_name(number));
        if (*pp_error_name(number)) printf("error %u %s\n", number, pp_error_name(number));
        if (*pp_error_sentence(number)) printf("sentence %u %s\n", number, pp_error_sentence(number));
    }
}

int main(int count, char **arguments) {
    if (count > 1 && strcmp(arguments[1], "names") == 0) {
        print_names();
        return 0;
    }
    check_rooms();
    check_definitions();
    check_sources();
    check_refused();
    check_options();
    check_rules();
    check_budget();
    check_most();
    check_including();
    check_including_refused();
    check_nulls();
    check_positions();
    return 0;
}
