/* A preprocessor and a lexer for GLSL: source text becomes tokens with exact places.
 *
 * One call gives all items, in memory of the caller's. If there is too little room it says how much is needed:
 *
 *     pp_sizes sizes = {0, 0};
 *     while (pp_preprocess(source, length, words, words_length, definitions, count,
 *                          items, items_room, texts, texts_room, &sizes) == PP_TOO_SMALL) {
 *         ... get room for sizes.items items and sizes.texts bytes ...
 *     }
 *
 * What is proved of these calls holds as long as the caller upholds this:
 *
 * - No pointer is null or badly aligned. One whose length is 0 may be null: that is tested and not proved.
 * - Each pointer leads to at least as many elements as the length after it says.
 * - Nothing that a call writes (definitions, items, texts, numbers, sizes) overlaps anything else that it is given.
 * - No other thread writes to any of this during a call, or reads what the call writes.
 * - malloc, realloc and free are one allocator's and align as C says, and no call is made from a signal handler or in a
 *   forked child of a process with threads.
 *
 * Any bytes may be handed in as source and words, and any numbers in options and definitions. Calls share nothing, and only
 * a pp_stream keeps anything: each thread may make its own, if it has 256 KB of stack.
 *
 * A stream gives the items piece by piece, and definitions and texts come between them: pp_stream_open, below. */
#ifndef PP_H
#define PP_H

#include <stddef.h>
#include <stdint.h>

/* The version of this interface, from 1. A library of a later one has all that is declared here. */
#define PP_API_VERSION 3

#ifdef __cplusplus
extern "C" {
#endif

/* What a call answers. */
enum {
    PP_DONE = 0,           /* all items and texts are there */
    PP_TOO_SMALL = 1,      /* there was too little room: `sizes` says how much is needed */
    PP_NOT_UTF8 = 2,       /* the source or the words are no UTF-8 */
    PP_TOO_LONG = 3,       /* the source or a content has 2^32 - 1 bytes or more */
    PP_BAD_DEFINITION = 4, /* a name or a content doesn't lie in the words, or cuts a character of theirs */
    PP_OUT_OF_MEMORY = 5,  /* an allocation failed */
    /* the others are of calls with options alone */
    PP_OVER_BUDGET = 6, /* the items need more steps than the budget has */
    PP_PARTIAL = 7,     /* as many items as were asked for are there; more may follow */
    PP_BAD_OPTIONS = 8, /* the options have another size or other rules than this library knows */
    /* these two are pp_preprocess_including's and a stream's */
    PP_INCLUDE = 9,   /* the last item is an #include line that asks for its text */
    PP_TOO_DEEP = 10, /* a text was handed in inside of 200 others */
    PP_CLOSED = 11    /* the stream isn't open */
};

/* What an item is. */
enum {
    PP_ERROR = 0, /* it holds a PP_PLACE, and after it the token that it carries, if it is PP_UNEXPECTED_TOKEN, or the
                     PP_INCLUDE_LINE of an #include that asks for its text, which is PP_UNKNOWN_DIRECTIVE */
    PP_PLACE,     /* where the error stands in the source. The item of a lexer's error says 0..0 on line 1 */
    PP_IDENT,
    PP_INTEGER,
    PP_FLOAT,
    PP_VERSION, /* #version: it holds the tokens of its line, unexpanded */
    PP_EXTENSION,
    PP_PRAGMA,
    PP_NEW_LINE, /* these two are pp_lex's alone */
    PP_HASH,
    PP_INCLUDE_LINE, /* what follows the word of an #include up to the line's end; pp_preprocess_including's alone */
    PP_ADD_ASSIGN = 16, PP_SUB_ASSIGN, PP_MUL_ASSIGN, PP_DIV_ASSIGN, PP_MOD_ASSIGN, PP_LEFT_SHIFT_ASSIGN,
    PP_RIGHT_SHIFT_ASSIGN, PP_AND_ASSIGN, PP_XOR_ASSIGN, PP_OR_ASSIGN, PP_INCREMENT, PP_DECREMENT, PP_LOGICAL_AND,
    PP_LOGICAL_OR, PP_LOGICAL_XOR, PP_LESS_EQUAL, PP_GREATER_EQUAL, PP_EQUAL_EQUAL, PP_NOT_EQUAL, PP_LEFT_SHIFT,
    PP_RIGHT_SHIFT, PP_LEFT_BRACE, PP_RIGHT_BRACE, PP_LEFT_PAREN, PP_RIGHT_PAREN, PP_LEFT_BRACKET, PP_RIGHT_BRACKET,
    PP_LEFT_ANGLE, PP_RIGHT_ANGLE, PP_SEMICOLON, PP_COMMA, PP_COLON, PP_DOT, PP_EQUAL, PP_BANG, PP_MINUS, PP_TILDE,
    PP_PLUS, PP_STAR, PP_SLASH, PP_PERCENT, PP_PIPE, PP_CARET, PP_AMPERSAND, PP_QUESTION
};

/* Which error it is. */
enum {
    PP_INTEGER_OVERFLOW = 1, PP_FLOAT_PARSING_ERROR, PP_UNEXPECTED_CHARACTER, PP_UNEXPECTED_TOKEN, PP_UNEXPECTED_HASH,
    PP_UNEXPECTED_NEW_LINE, PP_UNEXPECTED_END_OF_INPUT, PP_TOO_FEW_DEFINE_ARGUMENTS, PP_TOO_MANY_DEFINE_ARGUMENTS,
    PP_ERROR_DIRECTIVE, PP_DUPLICATE_PARAMETER, PP_UNKNOWN_DIRECTIVE, PP_DEFINE_REDEFINED, PP_ELIF_OUTSIDE_OF_BLOCK,
    PP_ELSE_OUTSIDE_OF_BLOCK, PP_ENDIF_OUTSIDE_OF_BLOCK, PP_ELIF_AFTER_ELSE, PP_MORE_THAN_ONE_ELSE, PP_UNFINISHED_BLOCK,
    PP_LINE_OVERFLOW, PP_NOT_SUPPORTED_16_BIT_LITERAL, PP_NOT_SUPPORTED_64_BIT_LITERAL, PP_MACRO_NOT_DEFINED,
    PP_RECURSION_LIMIT_REACHED, PP_DIVISION_BY_ZERO, PP_REMAINDER_BY_ZERO
};

/* Bits of `flags`. */
enum {
    PP_SIGNED = 1,               /* an integer without a suffix `u` */
    PP_FIRST_DIRECTIVE = 2,      /* a #version before all other directives and tokens */
    PP_COMMENTS_BEFORE = 4,      /* a #version after a comment */
    PP_NON_DIRECTIVE_BEFORE = 8, /* an #extension after an ordinary token */
    PP_LEADING_WHITESPACE = 16,  /* pp_lex: first on its line, or after a blank or a comment */
    PP_START_OF_LINE = 32        /* pp_lex: only blanks and comments are before it on its line */
};

typedef struct pp_item {
    uint16_t kind;
    uint16_t error; /* 0 unless it is a PP_ERROR */
    uint32_t flags;
    uint32_t children; /* how many of the items that follow it holds, with those that these hold */
    int32_t width;     /* of a number, in bits: 32, or by GLSL's rules 16 or 64 too */
    uint32_t start;    /* byte offsets in the source, in the content of a definition or in an included text */
    uint32_t end;
    uint32_t line; /* from 1 */
    uint32_t text_length;
    uint64_t value; /* the value of a PP_INTEGER; of any other, where its text begins in `texts` */
} pp_item;

/* Its text is texts[value .. value + text_length], UTF-8 without a NUL after it: the name of an identifier, the digits of a
   float without suffix, the characters of a punctuator. An integer and a directive have none. */

/* A macro without parameters. Its name and its content are words[start .. start + length].
 *
 * It is added as soon as `after` items were given, those that others hold not counted, and the definitions before it in the
 * list were added; if there are fewer items, after the end was reached. To add one between items call again with one more
 * definition: the items up to it stay the same. */
typedef struct pp_definition {
    uint64_t name_start;
    uint64_t name_length;
    uint64_t content_start;
    uint64_t content_length;
    uint64_t after;
    uint32_t error; /* written: 0 if it was added, else which error its content has, and where */
    uint32_t start;
    uint32_t end;
    uint32_t line;
} pp_definition;

/* How many items there are, with those that others hold, and how many bytes their texts have. It is so with PP_DONE,
 * PP_TOO_SMALL, PP_PARTIAL and PP_INCLUDE; after another answer it says nothing. */
typedef struct pp_sizes {
    uint64_t items;
    uint64_t texts;
} pp_sizes;

/* Whose rules a source is read by. */
enum {
    PP_RULES_PP_RS = 0, /* those of the Rust crate pp-rs, of any version */
    PP_RULES_CORE = 1,  /* GLSL's for a version, of the profile core, also before 1.50 */
    PP_RULES_COMPATIBILITY = 2,
    PP_RULES_ES = 3
};

/* How to preprocess. All but the size may be 0: pp_options options = {.size = sizeof options}; */
typedef struct pp_options {
    uint64_t size;       /* sizeof(pp_options) */
    uint32_t rules;      /* PP_RULES_PP_RS or another */
    uint32_t version;    /* of GLSL, as in #version: 450, or 310. PP_RULES_PP_RS has none */
    uint64_t budget;     /* how many steps the items may take; 0 for any number */
    uint64_t most_items; /* after how many items to stop, those that others hold not counted; 0 for all */
} pp_options;

/* Preprocesses `source` by pp-rs's rules. After an error the items go on.
 *
 * Proved of PP_DONE: the items are those of the written rules, those after errors too, with each definition added at its
 * number. Each error is where its PP_PLACE says, and none of the lexer's is missing. The texts follow one another from
 * texts[0] on, and what `items` and `texts` held after them stays. */
uint32_t pp_preprocess(const uint8_t *source, size_t source_length, const uint8_t *words, size_t words_length,
                       pp_definition *definitions, size_t definitions_length, pp_item *items, size_t items_length,
                       uint8_t *texts, size_t texts_length, pp_sizes *sizes);

/* The same by the rules of the options, within their budget, and up to their number of items.
 *
 * A step is a token that is read, put on a list, or passed in the body or an argument of a macro; some thousand bytes of
 * dead text may be one step. So the budget bounds the time and the memory of a call, with the length of the longest token
 * and the definitions, which take no steps.
 *
 * With PP_PARTIAL `most_items` items are there, the first of those that a call for more gives; it takes the time of these
 * alone. A definition whose number they don't reach was added after them. With PP_DONE there are fewer, and the end was
 * reached. To take the items piece by piece ask for twice as many each time. Proved of both is what is proved of PP_DONE
 * above, by the rules of the options: GLSL's pass errors of the lexer in dead text, and PP_PARTIAL leaves those to come. */
uint32_t pp_preprocess_with(const pp_options *options, const uint8_t *source, size_t source_length, const uint8_t *words,
                            size_t words_length, pp_definition *definitions, size_t definitions_length, pp_item *items,
                            size_t items_length, uint8_t *texts, size_t texts_length, pp_sizes *sizes);

/* The same, and the call stops after an #include line, once it has passed `lines` others: the answer is PP_INCLUDE, the last
 * item the error PP_UNKNOWN_DIRECTIVE at the word `include`, and the last of `items` its PP_INCLUDE_LINE, what follows the
 * word. Call again with `lines` one more. To include a text add one definition for it, behind those that were added so far,
 * with PP_TEXT as name_start, the text as its content, and as `after` the number of items so far, those that others hold
 * not counted: it comes in place of the line. Without one reading goes on after the line.
 *
 *     uint64_t lines = 0;
 *     while (pp_preprocess_including(&options, lines, ...) == PP_INCLUDE) {
 *         ... look for the text, and if there is one add it to `words` and to `definitions` ...
 *         lines++;
 *     }
 *
 * Into numbers[n] is written in which text items[n] is, if there is room: 0 for `source`, and then one number more for
 * each of the list that was added or included. An item that a macro gives is in the text of the macro's body or of the
 * argument. That is tested and not proved.
 *
 * Definitions are of all texts, and blocks and #line of one: a block that is open at a text's end is PP_UNFINISHED_BLOCK.
 * A text must be UTF-8, which pp_line_column says of it alone. If 200 texts are around it the answer is PP_TOO_DEEP, and no
 * items are there: call again without it. An #include in the arguments of a macro asks for nothing. So that a name between
 * `"` is no token, errors of the lexer in dead text and on skipped lines aren't given, as by GLSL's rules. */
#define PP_TEXT UINT64_MAX
uint32_t pp_preprocess_including(const pp_options *options, uint64_t lines, const uint8_t *source, size_t source_length,
                                 const uint8_t *words, size_t words_length, pp_definition *definitions,
                                 size_t definitions_length, pp_item *items, size_t items_length, uint8_t *texts,
                                 size_t texts_length, uint32_t *numbers, size_t numbers_length, pp_sizes *sizes);

/* A stream: a source whose items are taken piece by piece. With 0 it is closed: pp_stream stream = {0};
 *
 *     if (pp_stream_open(&options, 0, source, length, &stream) == PP_DONE) {
 *         do {
 *             answer = pp_stream_next(&stream, 0, items, 1000, texts, 10000, NULL, 0, &sizes);
 *             ... take sizes.items items ...
 *         } while (answer == PP_PARTIAL);
 *         pp_stream_close(&stream);
 *     }
 *
 * What is proved of its calls holds as long as the caller upholds this too:
 *
 * - The stream is {0}, or as the last of these calls left it, and is used at one place: a copy of it is not handed in.
 * - The source and each included text stay as they are and where they are until the stream is closed or opened anew. What is
 *   proved asks for more, that they stay for good; that it is enough until then is tested.
 * - The memory that it keeps is malloc's: no other code frees it. A stream that isn't closed keeps it.
 * - A stream stays on the thread that opened it. */
typedef struct pp_stream {
    void *state;
} pp_stream;

/* Bits of `flags` of a stream, and of a text of one. */
enum {
    PP_ASK_INCLUDES = 1, /* #include lines ask for their texts; not of a text */
    PP_IS_UTF8 = 2       /* the source, or the text, is UTF-8: the caller vouches for it, and it isn't looked through */
};

/* Opens a stream of the items of `source`, by the rules of the options and within their budget, which is of all calls of
 * the stream together. `most_items` has to be 0. A stream that is open is closed first.
 *
 * The answer is PP_DONE, PP_NOT_UTF8, PP_TOO_LONG, PP_OUT_OF_MEMORY or PP_BAD_OPTIONS, also for a flag that isn't known;
 * the stream is open with PP_DONE alone. It reads nothing yet: with PP_IS_UTF8 it takes the same time for any source. */
uint32_t pp_stream_open(const pp_options *options, uint32_t flags, const uint8_t *source, size_t source_length,
                        pp_stream *stream);

/* Gives the next items: at most `most`, those that others hold not counted, or any number with 0; and no more than there is
 * room for. `sizes` says how many are there. Texts are in `texts` of this call, and so are their places. Into numbers[n] is
 * written in which text items[n] is, as by pp_preprocess_including.
 *
 * PP_PARTIAL    more may come: `most` are there, or the next has no room
 * PP_INCLUDE    the last one is an #include line that asks for its text; pp_stream_include is called now, or never for it
 * PP_DONE       the end was reached; what is defined or included now may bring more
 * PP_TOO_SMALL  the first has no room: `sizes` says how much it takes. It stays the next; the room may be written to
 * PP_OUT_OF_MEMORY, PP_OVER_BUDGET  nothing was given, and no later call gives anything but this answer. Those before it
 *               came with PP_PARTIAL
 * PP_CLOSED     the stream isn't open
 *
 * Proved: all items of a stream, over all its calls, are those of the written rules with each definition and text at its
 * call, those after errors too, with errors as pp_preprocess has them. A call takes the time of what it gives and of one
 * item more, which it may have read for the next call. */
uint32_t pp_stream_next(pp_stream *stream, uint64_t most, pp_item *items, size_t items_length, uint8_t *texts,
                        size_t texts_length, uint32_t *numbers, size_t numbers_length, pp_sizes *sizes);

/* The first error of a content and its place there: 0 at 0..0 on line 1 if it has none. */
typedef struct pp_fault {
    uint32_t error;
    uint32_t start;
    uint32_t end;
    uint32_t line;
} pp_fault;

/* Adds a macro without parameters, for what is read from now on. The last call of pp_stream_next may have read one item that
 * it had no room for: with room for all of `most` there is none. If the content has an error, that is in `fault`, the answer
 * is PP_DONE too, and nothing was added. With PP_NOT_UTF8, PP_TOO_LONG, PP_OUT_OF_MEMORY and PP_CLOSED nothing happened; an
 * answer after which nothing comes stays. Name and content may go after the call. */
uint32_t pp_stream_define(pp_stream *stream, const uint8_t *name, size_t name_length, const uint8_t *content,
                          size_t content_length, pp_fault *fault);

/* Includes a text: its items come next, and then what came next before. `flags` is 0 or PP_IS_UTF8. If 200 texts are around
 * it the answer is PP_TOO_DEEP, and reading goes on without it. Else it answers as pp_stream_define, or PP_BAD_OPTIONS. */
uint32_t pp_stream_include(pp_stream *stream, uint32_t flags, const uint8_t *text, size_t text_length);

/* Closes the stream and gives its memory back. One that isn't open stays as it is. */
void pp_stream_close(pp_stream *stream);

/* Gives the tokens of `source` before preprocessing, newlines and number signs among them. Proved of PP_DONE: they are those
 * of the written rules, errors and what comes after them too. */
uint32_t pp_lex(const uint8_t *source, size_t source_length, pp_item *items, size_t items_length, uint8_t *texts,
                size_t texts_length, pp_sizes *sizes);

/* A line, and a column in characters, both from 1. */
typedef struct pp_position {
    uint32_t line;
    uint32_t column;
} pp_position;

/* Says where a byte of `source` is: PP_DONE, PP_NOT_UTF8 or PP_TOO_LONG. Lines are those of items. A byte inside of a
 * character is at that character, and an offset past the source is at its end. The time grows with the offset. */
uint32_t pp_line_column(const uint8_t *source, size_t source_length, uint64_t offset, pp_position *position);

/* The PP_API_VERSION of the library. */
uint32_t pp_version(void);

/* What an item or an error is called: "Ident" of PP_IDENT, "DivisionByZero" of PP_DIVISION_BY_ZERO; and what is wrong, in
 * lower case and without a full stop: "division by zero". Of any other number it is an empty text. These three aren't
 * proved, and are in pp_names.c: a program that links libpp_c.a in place of libpp compiles that file itself. */
const char *pp_kind_name(uint32_t kind);
const char *pp_error_name(uint32_t error);
const char *pp_error_sentence(uint32_t error);

#ifdef __cplusplus
}
#endif

#endif
