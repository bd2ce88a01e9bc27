/* Calls the library's streams, and prints a line for each case. Run by tests/c_library, with sanitizers. */
#define _DEFAULT_SOURCE
#include "c_heap.h"
#include "pp.h"

#include <stdio.h>
#include <string.h>
#include <sys/mman.h>

static void check(const char *name, bool holds) {
    printf("%s: %s\n", name, holds ? "passed" : "it doesn't hold");
}

enum { ROOM = 2000, GUARD = 0xA5 };

/* A list of items that calls gave, one behind the other: their texts too, with places in this list. */
typedef struct {
    pp_item items[ROOM];
    uint32_t numbers[ROOM];
    uint8_t texts[ROOM];
    pp_sizes sizes;
} list;

static list given, wanted;
static uint16_t last_kind; /* of the last item that no other holds */
static pp_stream stream;
static pp_options options;
static pp_fault fault;

/* What a call of pp_stream_next writes, with guards behind its room. */
static struct {
    pp_item items[ROOM + 1];
    uint32_t numbers[ROOM + 1];
    uint8_t texts[ROOM + 1];
    pp_sizes sizes;
} out;

static const uint8_t *bytes(const char *text) {
    return (const uint8_t *)text;
}

static uint32_t open_with(uint32_t flags, const char *source) {
    memset(&given.sizes, 0, sizeof given.sizes);
    return pp_stream_open(&options, flags, bytes(source), strlen(source), &stream);
}

/* Opens a stream by GLSL's rules, without a budget. */
static uint32_t begin(uint32_t flags, const char *source) {
    pp_options plain = {.size = sizeof plain, .rules = PP_RULES_CORE, .version = 450};
    options = plain;
    return open_with(flags, source);
}

static uint32_t define(const char *name, const char *content) {
    memset(&fault, GUARD, sizeof fault);
    return pp_stream_define(&stream, bytes(name), strlen(name), bytes(content), strlen(content), &fault);
}

static uint32_t include(const char *text) {
    return pp_stream_include(&stream, 0, bytes(text), strlen(text));
}

/* Whether every byte from a place on up to an end is the guard's. */
static bool is_guarded(const void *from, const void *end) {
    for (const uint8_t *at = (const uint8_t *)from; at < (const uint8_t *)end; at++)
        if (*at != GUARD) return false;
    return true;
}

static bool is_unwritten(uint64_t items, uint64_t texts, uint64_t numbers) {
    return is_guarded(out.items + items, out.items + ROOM + 1) && is_guarded(out.texts + texts, out.texts + ROOM + 1) &&
           is_guarded(out.numbers + numbers, out.numbers + ROOM + 1);
}

/* Asks for the next items, and puts them behind those that were given. Nothing may be written but what is said. */
static uint32_t next_within(uint64_t most, size_t items_room, size_t texts_room) {
    memset(&out, GUARD, sizeof out);
    uint32_t status = pp_stream_next(&stream, most, out.items, items_room, out.texts, texts_room, out.numbers, items_room, &out.sizes);
    bool is_given = status == PP_PARTIAL || status == PP_INCLUDE || status == PP_DONE;
    uint64_t items = is_given ? out.sizes.items : 0, texts = is_given ? out.sizes.texts : 0;
    /* What has no room may be written as far as the room goes. */
    bool is_kept = status == PP_TOO_SMALL ? is_unwritten(items_room, texts_room, 0) : is_unwritten(items, texts, items);
    if (!is_kept) check("nothing is written but what is said", false);
    if (items > items_room || texts > texts_room) check("what is written has room", false);
    for (uint64_t n = 0; n < items; n++) {
        pp_item it = out.items[n];
        if (it.text_length) it.value += given.sizes.texts;
        given.items[given.sizes.items + n] = it;
        given.numbers[given.sizes.items + n] = out.numbers[n];
    }
    for (uint64_t n = 0; n < items; n += 1 + out.items[n].children) last_kind = out.items[n].kind;
    memcpy(given.texts + given.sizes.texts, out.texts, texts);
    given.sizes.items += items;
    given.sizes.texts += texts;
    return status;
}

static uint32_t next(uint64_t most) {
    return next_within(most, ROOM, ROOM);
}

/* The items that no other holds, as text: an integer, a name, or the number of an error; and the number of each one's text. */
static bool gives(const char *text) {
    static char found[8192];
    size_t length = 0;
    for (uint64_t at = 0; at < given.sizes.items; at += 1 + given.items[at].children) {
        const pp_item *it = &given.items[at];
        if (it->kind == PP_ERROR) length += (size_t)sprintf(found + length, "!%u", it->error);
        else if (it->kind == PP_INTEGER) length += (size_t)sprintf(found + length, "%u", (unsigned)it->value);
        else length += (size_t)sprintf(found + length, "%.*s", (int)it->text_length, (const char *)given.texts + it->value);
        length += (size_t)sprintf(found + length, ":%u ", (unsigned)given.numbers[at]);
    }
    found[length ? length - 1 : 0] = 0;
    if (strcmp(found, text) == 0) return true;
    fprintf(stderr, "found %s, wanted %s\n", found, text);
    return false;
}

static bool is_added(uint32_t status) {
    return status == PP_DONE && fault.error == 0 && fault.start == 0 && fault.end == 0 && fault.line == 1;
}

/* Each call once, by the written rules: Run, Calls and Includes of docs/RULES.md. */
static void check_calls(void) {
    check("a stream is opened", begin(0, "a A\n@ A 7u") == PP_DONE && stream.state);
    check("one item", next(1) == PP_PARTIAL && out.sizes.items == 1 && out.sizes.texts == 1 && gives("a:0"));
    const pp_item *it = out.items;
    check("its place", it->kind == PP_IDENT && it->start == 0 && it->end == 1 && it->line == 1 && it->text_length == 1);
    check("a definition between items", is_added(define("A", "b 1")));
    check("two items of it", next(2) == PP_PARTIAL && gives("a:0 b:1 1:1"));
    check("their texts begin anew", out.items[0].value == 0 && out.sizes.texts == 1);
    check("another replaces it", is_added(define("A", "c")));
    check("no item too many", next(0) == PP_DONE && gives("a:0 b:1 1:1 !3:0 c:2 7:0"));
    check("an error has its place", out.items[0].children == 1 && out.items[1].kind == PP_PLACE && out.items[1].start == 4 &&
          out.items[1].end == 5 && out.items[1].line == 2);
    check("the end again", next(1) == PP_DONE && out.sizes.items == 0 && out.sizes.texts == 0);
    check("a definition after the end", is_added(define("A", "")) && next(1) == PP_DONE);
    bool is_refused = define("A", "\n  @") == PP_DONE && fault.error == PP_UNEXPECTED_CHARACTER;
    check("a content with an error", is_refused && fault.start == 0 && fault.end == 0 && fault.line == 1);
    pp_stream_close(&stream);
    check("it is closed", !stream.state && bytes_held == 0);
    begin(0, "A");
    define("A", "1");
    define("A", "@");
    check("a content with an error changes nothing", next(0) == PP_DONE && gives("1:1"));
    check("an open stream is opened anew", begin(0, "A") == PP_DONE && next(0) == PP_DONE && gives("A:0"));
    pp_stream_close(&stream);
}

static void check_includes(void) {
    const char *source = "x\n#include \"a\" // b\nB __LINE__";
    begin(PP_ASK_INCLUDES, source);
    check("an #include line asks", next(0) == PP_INCLUDE && gives("x:0 !12:0") && out.sizes.items == 4);
    const pp_item *error = out.items + 1, *place = error + 1, *line = error + 2;
    check("its word", error->children == 2 && error->start == 3 && place->kind == PP_PLACE && place->start == 3 && place->end == 10);
    check("what follows it", line->kind == PP_INCLUDE_LINE && line->start == 10 && line->end == 19 && line->line == 2);
    check("a text", include("#define B 5\ny\n#if 1\n#line 9\n__LINE__") == PP_DONE);
    check("its items, and those after the line", next(0) == PP_DONE && gives("x:0 !12:0 y:1 9:1 !19:1 5:1 3:0"));
    begin(PP_ASK_INCLUDES, source);
    check("a line that isn't answered", next(2) == PP_INCLUDE && next(1) == PP_PARTIAL && next(0) == PP_DONE && gives("x:0 !12:0 B:0 3:0"));
    begin(PP_ASK_INCLUDES, source);
    check("numbers of definitions and texts", is_added(define("B", "b")) && next(2) == PP_INCLUDE && is_added(define("C", "c")) &&
          include("C B") == PP_DONE && is_added(define("D", "d")) && next(0) == PP_DONE && gives("x:0 !12:0 c:2 b:1 b:1 3:0"));
    begin(0, source);
    check("without the flag no line asks", next(0) == PP_DONE && gives("x:0 !12:0 B:0 3:0") && out.items[1].children == 1);
    begin(PP_ASK_INCLUDES, "#include 0");
    uint64_t depth = 0;
    while (next(0) == PP_INCLUDE && include("#include 0\na") == PP_DONE) depth++;
    check("200 texts inside each other", depth == 200 && include("") == PP_TOO_DEEP);
    given.sizes.items = 0;
    check("after that reading goes on", next(1) == PP_PARTIAL && gives("a:200") && next(0) == PP_DONE && out.sizes.items == 199);
    pp_stream_close(&stream);
}

/* A source with an item of each kind, and the definitions and texts of a run over it. */
static const char *all_kinds =
    "#version 450\n#extension all : warn\n#pragma once\nA F(1.5, (2u)) <<= @ b;\n#define F(x, y) [x A y]\n"
    "#include \"a\"\nF(0x7fu, 1e5f) F(1)\n#if )\n#elif 1\n#else\nd";

/* Gives items up to the end, so many at a time within this room: behind the pragma, which comes alone, with a definition, and
 * with a text for each line. Once more if memory ran out for one of those, since nothing changed then. */
static uint32_t read_in(uint64_t most, size_t items_room, size_t texts_room) {
    uint32_t status = begin(PP_ASK_INCLUDES, all_kinds), answer = PP_DONE;
    if (status != PP_DONE) return status;
    pp_sizes room = {items_room, texts_room}, usual = room;
    bool is_defined = false;
    do {
        status = next_within(is_defined ? most : 1, room.items, room.texts);
        if (status == PP_TOO_SMALL && out.sizes.items <= room.items && out.sizes.texts <= room.texts) return status;
        room = status == PP_TOO_SMALL ? out.sizes : usual;
        if (status == PP_INCLUDE)
            for (int tries = 0; tries == 0 || (tries == 1 && answer == PP_OUT_OF_MEMORY); tries++) answer = include("A e\n#define G A\n");
        if (!is_defined && status == PP_PARTIAL && last_kind == PP_PRAGMA) {
            for (int tries = 0; tries == 0 || (tries == 1 && answer == PP_OUT_OF_MEMORY); tries++) answer = define("A", "1 + b");
            is_defined = true;
        }
        if (answer != PP_DONE) return answer;
    } while (status == PP_PARTIAL || status == PP_INCLUDE || status == PP_TOO_SMALL);
    return status;
}

static bool is_same(void) {
    return given.sizes.items == wanted.sizes.items && given.sizes.texts == wanted.sizes.texts &&
           memcmp(given.texts, wanted.texts, wanted.sizes.texts) == 0 &&
           memcmp(given.numbers, wanted.numbers, wanted.sizes.items * sizeof *wanted.numbers) == 0 &&
           memcmp(given.items, wanted.items, wanted.sizes.items * sizeof *wanted.items) == 0;
}

/* Each number of items at a time, and each room: the items are those of one call. */
static void check_pieces(void) {
    check("a source of all kinds", read_in(0, ROOM, ROOM) == PP_DONE && given.sizes.items > 40);
    wanted = given;
    bool same = true, same_within = true;
    for (uint64_t most = 1; most < 70; most++) same &= read_in(most, ROOM, ROOM) == PP_DONE && is_same();
    check("so many items at a time", same);
    for (size_t items_room = 0; items_room < 20; items_room++)
        for (size_t texts_room = 0; texts_room < 20; texts_room++)
            same_within &= read_in(items_room % 3 * 5, items_room, texts_room) == PP_DONE && is_same();
    check("so much room at a time", same_within);
    /* Without room for it an item is only said to need some, and it stays. */
    begin(0, "abc d");
    bool stays = next_within(0, 0, 0) == PP_TOO_SMALL && out.sizes.items == 1 && out.sizes.texts == 3;
    stays &= next_within(0, 1, 2) == PP_TOO_SMALL && out.sizes.items == 1 && out.sizes.texts == 3;
    check("an item without room stays", stays && next_within(0, 1, 3) == PP_PARTIAL && gives("abc:0"));
    check("so does one that was read behind another", next_within(0, 2, 0) == PP_TOO_SMALL && next_within(0, 2, 1) != PP_TOO_SMALL && gives("abc:0 d:0"));
    /* With room for all that is asked for nothing is read ahead, so a definition comes in time. */
    begin(0, "abc d");
    check("nothing is read ahead", next_within(1, 1, 3) == PP_PARTIAL && is_added(define("d", "e")) && next(0) == PP_DONE && gives("abc:0 e:1"));
    pp_stream_close(&stream);
}

/* The same items as of one call that keeps nothing. */
static void check_held_against_calls(void) {
    static const char source[] = "#version 450\nA (1.5, 2u) <<= @ b; #extension\n#define A [A]\nA A\n#if )\n#elif 1\n#else\nd";
    pp_definition entry = {.name_length = 1, .content_start = 1, .content_length = 3, .after = 4};
    begin(0, source);
    uint32_t status = pp_preprocess_with(&options, bytes(source), strlen(source), bytes("A7 u"), 4, &entry, 1, wanted.items, ROOM,
                                         wanted.texts, ROOM, &wanted.sizes);
    bool same = status == PP_DONE && next(4) == PP_PARTIAL && is_added(define("A", "7 u"));
    while ((status = next(3)) == PP_PARTIAL) {}
    /* That call has no numbers. */
    memcpy(wanted.numbers, given.numbers, sizeof wanted.numbers);
    check("the items of a call without a stream", same && status == PP_DONE && given.sizes.items > 20 && is_same());
    pp_stream_close(&stream);
}

static void check_refused(void) {
    pp_stream closed = {0};
    stream = closed;
    check("a closed stream gives nothing", next(0) == PP_CLOSED && define("A", "b") == PP_CLOSED && include("a") == PP_CLOSED);
    pp_stream_close(&stream);
    check("it may be closed again", !stream.state);
    begin(0, "");
    check("an empty source", next(0) == PP_DONE && out.sizes.items == 0);
    options.size--;
    check("options of another size", open_with(0, "a") == PP_BAD_OPTIONS && !stream.state && bytes_held == 0);
    begin(0, "a");
    options.rules = 4;
    check("rules that there aren't", open_with(0, "a") == PP_BAD_OPTIONS && !stream.state);
    begin(0, "a");
    options.most_items = 1;
    check("a number of items", open_with(0, "a") == PP_BAD_OPTIONS);
    check("flags that there aren't", begin(4, "a") == PP_BAD_OPTIONS);
    check("a source that is no UTF-8", begin(0, "a\xff") == PP_NOT_UTF8 && !stream.state && bytes_held == 0);
    begin(PP_ASK_INCLUDES, "#include a\nA b");
    check("a name that is no UTF-8", define("A\xff", "c") == PP_NOT_UTF8);
    check("a content that is no UTF-8", define("A", "\xff") == PP_NOT_UTF8);
    next(1);
    check("a text that is no UTF-8", include("\xff") == PP_NOT_UTF8);
    check("flags of a text that there aren't", pp_stream_include(&stream, PP_ASK_INCLUDES, bytes("a"), 1) == PP_BAD_OPTIONS);
    check("a text that is vouched for", pp_stream_include(&stream, PP_IS_UTF8, bytes("\xc3\xa9"), 2) == PP_DONE);
    check("none of them changed anything", next(0) == PP_DONE && gives("!12:0 \xc3\xa9:1 A:0 b:0"));
    size_t most = UINT32_MAX;
    uint8_t *text = (uint8_t *)mmap(NULL, most, PROT_READ, MAP_PRIVATE | MAP_ANONYMOUS | MAP_NORESERVE, -1, 0);
    if (text != MAP_FAILED) {
        begin(PP_ASK_INCLUDES, "#include a\nA b");
        next(1);
        bool is_long = pp_stream_define(&stream, bytes("A"), 1, text, most, &fault) == PP_TOO_LONG;
        is_long &= pp_stream_include(&stream, PP_IS_UTF8, text, most) == PP_TOO_LONG;
        check("a content and a text that are too long", is_long && next(0) == PP_DONE && gives("!12:0 A:0 b:0"));
        check("a source that is too long", pp_stream_open(&options, PP_IS_UTF8, text, most, &stream) == PP_TOO_LONG && !stream.state);
        munmap(text, most);
    }
    check("nothing is held", bytes_held == 0);
}

static void check_nulls(void) {
    begin(PP_ASK_INCLUDES, "");
    bool same = pp_stream_open(&options, PP_ASK_INCLUDES, NULL, 0, &stream) == PP_DONE;
    same &= pp_stream_next(&stream, 0, NULL, 0, NULL, 0, NULL, 0, &out.sizes) == PP_DONE && out.sizes.items == 0;
    same &= pp_stream_define(&stream, NULL, 0, NULL, 0, &fault) == PP_DONE && fault.error == 0;
    check("null pointers of length 0", same && pp_stream_include(&stream, 0, NULL, 0) == PP_DONE);
    begin(0, "a b");
    check("items without room for numbers",
          pp_stream_next(&stream, 0, out.items, 3, out.texts, 3, NULL, 0, &out.sizes) == PP_DONE && out.sizes.items == 2);
    pp_stream_close(&stream);
}

/* A source without end: the budget of all calls together ends it. */
static void check_budget(void) {
    static char bomb[2000] = "#define A0 b\n";
    for (int n = 1; n <= 40; n++) sprintf(bomb + strlen(bomb), "#define A%d A%d A%d\n", n, n - 1, n - 1);
    strcat(bomb, "1 2 A40");
    begin(0, bomb);
    bool gives_front = next(3) == PP_PARTIAL && gives("1:0 2:0 b:0");
    for (int calls = 0; calls < 100; calls++) {
        given.sizes.items = given.sizes.texts = 0;
        gives_front &= next(100) == PP_PARTIAL && out.sizes.items == 100;
    }
    check("the front of a source without end", gives_front);
    options.budget = 2000;
    open_with(0, bomb);
    uint64_t items = 0;
    uint32_t status;
    while ((status = next(100)) == PP_PARTIAL) {
        items += out.sizes.items;
        given.sizes.items = given.sizes.texts = 0;
    }
    check("a budget ends it", status == PP_OVER_BUDGET && items > 100 && items < 2000);
    check("for good", next(1) == PP_OVER_BUDGET && define("A", "b") == PP_OVER_BUDGET && include("") == PP_OVER_BUDGET);
    open_with(0, bomb);
    uint64_t alone = 0;
    while (next(1) == PP_PARTIAL) {
        alone++;
        given.sizes.items = given.sizes.texts = 0;
    }
    check("after as many items, one by one", alone == items);
    options.budget = 20;
    check("a budget that suffices", open_with(0, "a b c") == PP_DONE && next(0) == PP_DONE && gives("a:0 b:0 c:0"));
    pp_stream_close(&stream);
}

/* Each allocation fails in turn: the answer says so, and what was given is the front of the items. */
static void check_memory(void) {
    read_in(1, ROOM, ROOM);
    wanted = given;
    pp_stream_close(&stream);
    bool answered = true, is_front = true, is_freed = true;
    uint64_t number = 0, times = 0;
    do {
        asked = 0;
        failing = ++number;
        uint32_t status = read_in(1, ROOM, ROOM);
        failing = 0;
        times += status == PP_OUT_OF_MEMORY;
        answered &= status == PP_OUT_OF_MEMORY ? !stream.state || next(1) == PP_OUT_OF_MEMORY : status == PP_DONE && is_same();
        is_front &= memcmp(given.items, wanted.items, given.sizes.items * sizeof *given.items) == 0;
        pp_stream_close(&stream);
        is_freed &= bytes_held == 0;
    } while (asked >= number && number < 10000);
    check("an allocation that fails is answered", answered && times > 10 && number < 10000);
    check("what was given before it stays", is_front);
    check("and nothing is kept", is_freed);
}

/* 10 MB take little memory, and the source may go once the stream is closed. */
static void check_large(void) {
    static const char line[] = "vec4 colour = mix(a, b, 0.5) * vec4(1.0, n, 2u, 3); // half of each\n";
    size_t length = 10000000 / (sizeof line - 1) * (sizeof line - 1);
    char *source = (char *)mmap(NULL, length, PROT_READ | PROT_WRITE, MAP_PRIVATE | MAP_ANONYMOUS, -1, 0);
    if (source == MAP_FAILED) return;
    for (size_t at = 0; at < length; at += sizeof line - 1) memcpy(source + at, line, sizeof line - 1);
    begin(0, "");
    most_bytes_held = bytes_held;
    uint32_t status = pp_stream_open(&options, PP_IS_UTF8, bytes(source), length, &stream);
    uint64_t items = 0;
    do {
        given.sizes.items = given.sizes.texts = 0;
        status = next(256);
        items += out.sizes.items;
    } while (status == PP_PARTIAL);
    check("10 MB", status == PP_DONE && items == length / (sizeof line - 1) * 23);
    check("in 64 KB", most_bytes_held < 65536);
    pp_stream_close(&stream);
    munmap(source, length);
    check("the source may go then", !stream.state && bytes_held == 0 && begin(0, "a") == PP_DONE && next(0) == PP_DONE);
    pp_stream_close(&stream);
}

int main(void) {
    check_calls();
    check_includes();
    check_pieces();
    check_held_against_calls();
    check_refused();
    check_nulls();
    check_budget();
    check_memory();
    check_large();
    return 0;
}
