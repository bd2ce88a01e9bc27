/* Calls the library over random sources, with all that it is handed up against memory that can't be touched:
 *
 *     fuzz SECONDS SEED < SOURCES
 *
 * SOURCES are texts with a NUL between them. Each run takes a part of one, changes some bytes, and calls with random rooms,
 * definitions, texts, options and refused allocations; or opens a stream, takes its items in random pieces with definitions and
 * texts between them, and holds them against those of one call. It ends by a signal if a call reads or writes where it may
 * not, and with status 1 if an answer can't be. Run by tests/c_library --fuzz. */
#define _DEFAULT_SOURCE
#include "c_heap.h"
#include "pp.h"

#include <stdbool.h>
#include <stdio.h>
#include <stdlib.h>
#include <string.h>
#include <sys/mman.h>
#include <time.h>

static uint64_t state;

static uint64_t draw(uint64_t below) {
    state ^= state << 13;
    state ^= state >> 7;
    state ^= state << 17;
    return below ? (state >> 11) % below : 0;
}

/* A part of memory behind which no byte may be touched. A list of no elements is null now and then. */
enum { PAGE = 4096, PART = 1 << 20, PARTS = 6 };
static uint8_t *ends[PARTS];

static void *up_to_the_end(int part, size_t count, size_t size) {
    if (!count && draw(2)) return NULL;
    return ends[part] - count * size;
}

static void make_parts(void) {
    for (int part = 0; part < PARTS; part++) {
        uint8_t *start = (uint8_t *)mmap(NULL, PART + PAGE, PROT_READ | PROT_WRITE, MAP_PRIVATE | MAP_ANONYMOUS, -1, 0);
        if (start == MAP_FAILED || mprotect(start + PART, PAGE, PROT_NONE)) exit(2);
        ends[part] = start + PART;
    }
}

static char *corpus;
static size_t corpus_length;

static void read_corpus(void) {
    size_t room = 1 << 16, got;
    corpus = (char *)malloc(room);
    while ((got = fread(corpus + corpus_length, 1, room - corpus_length, stdin)) > 0)
        if ((corpus_length += got) == room) corpus = (char *)realloc(corpus, room *= 2);
    if (!corpus || !corpus_length) exit(2);
}

/* A part of the sources of at most so many bytes, of which some are changed. */
static size_t take(uint8_t *to, size_t most) {
    size_t at = draw(corpus_length), length = draw(most + 1);
    if (draw(4)) while (at && corpus[at - 1]) at--;
    if (length > corpus_length - at) length = corpus_length - at;
    memcpy(to, corpus + at, length);
    for (size_t n = 0; n < length; n++)
        if (!to[n]) length = n;
    for (uint64_t changes = draw(4); changes && length; changes--)
        to[draw(length)] = draw(8) ? (uint8_t)"#\n\\()/*\"<>,0A _"[draw(15)] : (uint8_t)draw(256);
    return length;
}

static uint64_t answers[16], held_against;

static void fail(const char *what, uint32_t status) {
    fprintf(stderr, "%s, after the answer %u\n", what, (unsigned)status);
    exit(1);
}

/* Whether what was written may be: each text and what each item holds lie within the sizes. */
static void check_items(const pp_item *items, pp_sizes sizes, uint32_t status) {
    for (uint64_t n = 0; n < sizes.items; n++) {
        if (n + items[n].children >= sizes.items) fail("an item holds what isn't there", status);
        if (items[n].kind == PP_ERROR ? !items[n].error || !items[n].children : items[n].error) fail("an error without its place", status);
        if (items[n].start > items[n].end) fail("an item ends before it begins", status);
        if (items[n].text_length && items[n].value + items[n].text_length > sizes.texts) fail("a text isn't there", status);
    }
    if (status == PP_INCLUDE && (sizes.items < 3 || items[sizes.items - 1].kind != PP_INCLUDE_LINE)) fail("no line asks", status);
}

/* What is handed to calls, by chance. */
static uint8_t *source, *words;
static size_t source_length, words_length;
static pp_options options;

static void draw_texts(void) {
    static uint8_t source_bytes[1 << 14], word_bytes[1 << 14];
    source_length = take(source_bytes, draw(8) ? 300 : sizeof source_bytes - 1);
    words_length = take(word_bytes, draw(8) ? 100 : sizeof word_bytes - 1);
    source = (uint8_t *)up_to_the_end(0, source_length, 1);
    words = (uint8_t *)up_to_the_end(1, words_length, 1);
    if (source_length) memcpy(source, source_bytes, source_length);
    if (words_length) memcpy(words, word_bytes, words_length);
    pp_options it = {.size = draw(50) ? sizeof it : draw(100), .rules = (uint32_t)draw(draw(50) ? 4 : 9)};
    it.version = (uint32_t)(100 * draw(6));
    it.budget = 1 + draw(draw(3) ? 200000 : 100);
    options = it;
}

static void run_call(void) {
    size_t count = draw(4);
    pp_definition *entries = (pp_definition *)up_to_the_end(2, count, sizeof *entries);
    for (size_t n = 0; n < count; n++) {
        pp_definition it = {.name_start = draw(3) ? PP_TEXT : draw(words_length + 2), .name_length = draw(4)};
        it.content_start = draw(words_length + 1);
        it.content_length = draw(20) ? draw(words_length - it.content_start + 1) : draw(UINT64_MAX);
        it.after = draw(6);
        entries[n] = it;
    }
    options.most_items = draw(3) ? 0 : draw(40);
    pp_sizes room = {draw(2) ? 4000 : draw(60), draw(2) ? 8000 : draw(100)}, sizes = {0, 0};
    uint64_t call = draw(8), lines = draw(3);
    for (int tries = 0; tries < 2; tries++) {
        pp_item *items = (pp_item *)up_to_the_end(3, room.items, sizeof *items);
        uint8_t *texts = (uint8_t *)up_to_the_end(4, room.texts, 1);
        size_t numbers_room = draw(2) ? room.items : draw(10);
        uint32_t *numbers = (uint32_t *)up_to_the_end(5, numbers_room, sizeof *numbers), status;
        asked = 0;
        failing = draw(3) ? 0 : draw(60);
        if (call == 0) status = pp_lex(source, source_length, items, room.items, texts, room.texts, &sizes);
        else if (call < 4)
            status = pp_preprocess_with(&options, source, source_length, words, words_length, entries, count, items, room.items, texts,
                                        room.texts, &sizes);
        else
            status = pp_preprocess_including(&options, lines, source, source_length, words, words_length, entries, count, items,
                                             room.items, texts, room.texts, numbers, numbers_room, &sizes);
        if (status > PP_TOO_DEEP) fail("there is no such answer", status);
        answers[status]++;
        bool is_given = status == PP_DONE || status == PP_PARTIAL || status == PP_INCLUDE;
        if (is_given) {
            if (sizes.items > room.items || sizes.texts > room.texts) fail("there was no room", status);
            check_items(items, sizes, status);
            for (uint64_t n = 0; call > 3 && n < sizes.items && n < numbers_room; n++)
                if (numbers[n] > count) fail("there is no such text", status);
        }
        if (status != PP_TOO_SMALL) break;
        if (sizes.items <= room.items && sizes.texts <= room.texts) fail("there was room", status);
        if (tries || sizes.items > PART / sizeof *items || sizes.texts > PART) break;
        room = sizes;
    }
    pp_position position;
    if (pp_line_column(source, source_length, draw(400), &position) == PP_DONE && !(position.line && position.column))
        fail("a line without a number", 0);
}

/* The items of a stream, those of one call, and what was defined and included between them. */
enum { MOST_ITEMS = 20000, MOST_TEXTS = 40000, MOST_ENTRIES = 12 };
static struct {
    pp_item items[MOST_ITEMS];
    uint32_t numbers[MOST_ITEMS];
    uint8_t texts[MOST_TEXTS];
    pp_sizes sizes;
} pieces, whole;
static pp_definition entries[MOST_ENTRIES];
static pp_fault faults[MOST_ENTRIES];
static size_t entry_count;

/* Takes some of the next items, and puts them behind those that came. Says how many there are, those held not counted. */
static uint32_t take_piece(pp_stream *stream, uint64_t most, pp_sizes room, uint64_t *count) {
    pp_item *items = (pp_item *)up_to_the_end(3, room.items, sizeof *items);
    uint8_t *texts = (uint8_t *)up_to_the_end(4, room.texts, 1);
    uint32_t *numbers = (uint32_t *)up_to_the_end(5, room.items, sizeof *numbers);
    pp_sizes sizes = {0, 0};
    uint32_t status = pp_stream_next(stream, most, items, room.items, texts, room.texts, numbers, room.items, &sizes);
    *count = 0;
    if (status == PP_TOO_SMALL && sizes.items <= PART / sizeof *items && sizes.texts <= PART) {
        if (sizes.items <= room.items && sizes.texts <= room.texts) fail("there was room", status);
        return take_piece(stream, most, sizes, count);
    }
    if (status != PP_DONE && status != PP_PARTIAL && status != PP_INCLUDE) return status;
    if (sizes.items > room.items || sizes.texts > room.texts) fail("there was no room", status);
    check_items(items, sizes, status);
    for (uint64_t n = 0; n < sizes.items; n += 1 + items[n].children) ++*count;
    if (most && *count > most) fail("there are too many items", status);
    if (pieces.sizes.items + sizes.items > MOST_ITEMS || pieces.sizes.texts + sizes.texts > MOST_TEXTS) return PP_TOO_SMALL;
    for (uint64_t n = 0; n < sizes.items; n++) {
        pp_item it = items[n];
        if (it.text_length) it.value += pieces.sizes.texts;
        pieces.items[pieces.sizes.items + n] = it;
        pieces.numbers[pieces.sizes.items + n] = numbers[n];
    }
    if (sizes.texts) memcpy(pieces.texts + pieces.sizes.texts, texts, sizes.texts);
    pieces.sizes.items += sizes.items;
    pieces.sizes.texts += sizes.texts;
    return status;
}

/* Defines or includes a part of the words behind so many items. */
static void add_entry(pp_stream *stream, uint64_t after, bool is_text) {
    if (entry_count == MOST_ENTRIES) return;
    pp_definition it = {.name_start = is_text ? PP_TEXT : draw(words_length + 1), .after = after};
    if (!is_text) it.name_length = draw(words_length - it.name_start + 1) % 4;
    it.content_start = draw(words_length + 1);
    it.content_length = draw(words_length - it.content_start + 1);
    pp_fault fault = {0, 0, 0, 1};
    const uint8_t *content = words + it.content_start;
    uint32_t status = is_text ? pp_stream_include(stream, 0, content, it.content_length)
                              : pp_stream_define(stream, words + it.name_start, it.name_length, content, it.content_length, &fault);
    answers[status]++;
    if (status > PP_TOO_DEEP || (status != PP_DONE && status != PP_NOT_UTF8 && status != PP_TOO_DEEP && status != PP_OUT_OF_MEMORY))
        fail("it isn't defined or included", status);
    if (status != PP_DONE) return;
    faults[entry_count] = fault;
    entries[entry_count++] = it;
}

static void check_whole(uint32_t flags, uint32_t status) {
    options.most_items = 0;
    pp_definition *copied = (pp_definition *)up_to_the_end(2, entry_count, sizeof *copied);
    if (entry_count) memcpy(copied, entries, entry_count * sizeof *copied);
    uint32_t answer = flags & PP_ASK_INCLUDES
        ? pp_preprocess_including(&options, UINT64_MAX, source, source_length, words, words_length, copied, entry_count, whole.items,
                                  MOST_ITEMS, whole.texts, MOST_TEXTS, whole.numbers, MOST_ITEMS, &whole.sizes)
        : pp_preprocess_with(&options, source, source_length, words, words_length, copied, entry_count, whole.items, MOST_ITEMS,
                             whole.texts, MOST_TEXTS, &whole.sizes);
    if (answer == PP_NOT_UTF8 || answer == PP_BAD_DEFINITION || answer == PP_TOO_SMALL) return;
    /* A call may take some steps less than a stream. */
    if (answer == PP_OVER_BUDGET || status == PP_OVER_BUDGET) return;
    if (answer != status) fail("one call answers something else", answer);
    if (answer != PP_DONE) return;
    held_against++;
    bool same = pieces.sizes.items == whole.sizes.items && pieces.sizes.texts == whole.sizes.texts;
    same = same && memcmp(pieces.items, whole.items, whole.sizes.items * sizeof *whole.items) == 0;
    same = same && memcmp(pieces.texts, whole.texts, whole.sizes.texts) == 0;
    if (flags & PP_ASK_INCLUDES) same = same && memcmp(pieces.numbers, whole.numbers, whole.sizes.items * sizeof *whole.numbers) == 0;
    for (size_t n = 0; n < entry_count; n++)
        same = same && copied[n].error == faults[n].error && (!faults[n].error || (copied[n].start == faults[n].start &&
               copied[n].end == faults[n].end && copied[n].line == faults[n].line));
    if (!same) fail("one call gives something else", status);
}

static void run_stream(void) {
    pp_stream stream = {0};
    uint32_t flags = (uint32_t)draw(2);
    uint64_t given = 0, count;
    pieces.sizes.items = pieces.sizes.texts = entry_count = asked = 0;
    failing = draw(4) ? 0 : draw(60);
    uint32_t status = pp_stream_open(&options, flags, source, source_length, &stream);
    answers[status]++;
    if (status != PP_DONE && stream.state) fail("a stream is open", status);
    bool is_open = status == PP_DONE;
    for (bool goes_on = is_open; goes_on; given += count) {
        uint64_t most = draw(3) ? 1 + draw(9) : draw(200);
        pp_sizes room = {draw(2) ? 1000 : draw(30), draw(2) ? 2000 : draw(60)};
        status = take_piece(&stream, most, room, &count);
        answers[status]++;
        goes_on = status == PP_PARTIAL || status == PP_INCLUDE;
        if (status == PP_INCLUDE && draw(3)) add_entry(&stream, given + count, true);
        /* If fewer came than were asked for, one more may have been read. */
        if ((status == PP_INCLUDE || (status == PP_PARTIAL && count == most)) && !draw(4)) add_entry(&stream, given + count, false);
    }
    pp_stream_close(&stream);
    if (bytes_held) fail("memory is held", status);
    failing = 0;
    if (is_open && status != PP_OUT_OF_MEMORY && status != PP_TOO_SMALL) check_whole(flags, status);
}

int main(int argc, char **argv) {
    if (argc < 3) return 2;
    time_t end = time(NULL) + atol(argv[1]);
    state = 88172645463325252u ^ strtoull(argv[2], NULL, 10) << 20;
    make_parts();
    read_corpus();
    uint64_t runs = 0;
    while (runs % 256 || time(NULL) < end) {
        draw_texts();
        if (draw(2)) run_call();
        else run_stream();
        runs++;
    }
    printf("%llu runs, of which %llu held a stream against a call; answers 0 to 10:", (unsigned long long)runs,
           (unsigned long long)held_against);
    for (int status = 0; status <= PP_TOO_DEEP; status++) printf(" %llu", (unsigned long long)answers[status]);
    putchar('\n');
    free(corpus);
    return 0;
}
