"""Preprocesses GLSL by a library that is proved correct: ctypes over libpp.so.1.

    for item in libpp.preprocess(source, {"GL_ES": "1"}):
        if isinstance(item, libpp.Error):
            raise item
        print(item.text, item.start, item.end)

The library is looked for in the folder that PP_LIB_DIR names, else beside this file, where a wheel has it, else where the
loader finds libraries. Only the library is proved. Calls may be made by several threads at a time.
"""

from __future__ import annotations

import collections
import ctypes
import enum
import math
import os
import struct
from typing import (
    Callable, Deque, Dict, Iterable, Iterator, List, Mapping, NamedTuple, Optional, Tuple, Type, Union
)

__all__ = [
    "Definition",
    "Error",
    "ErrorKind",
    "Flag",
    "Glsl",
    "IncludeLine",
    "Item",
    "Kind",
    "OverBudget",
    "Profile",
    "Token",
    "TooDeep",
    "lex",
    "line_column",
    "preprocess",
    "stream",
]


class Kind(enum.IntEnum):
    """What a token is. The numbers are those of pp.h."""

    IDENT = 2
    INTEGER = 3
    FLOAT = 4
    VERSION = 5
    EXTENSION = 6
    PRAGMA = 7
    NEW_LINE = 8
    HASH = 9
    ADD_ASSIGN = 16
    SUB_ASSIGN = 17
    MUL_ASSIGN = 18
    DIV_ASSIGN = 19
    MOD_ASSIGN = 20
    LEFT_SHIFT_ASSIGN = 21
    RIGHT_SHIFT_ASSIGN = 22
    AND_ASSIGN = 23
    XOR_ASSIGN = 24
    OR_ASSIGN = 25
    INCREMENT = 26
    DECREMENT = 27
    LOGICAL_AND = 28
    LOGICAL_OR = 29
    LOGICAL_XOR = 30
    LESS_EQUAL = 31
    GREATER_EQUAL = 32
    EQUAL_EQUAL = 33
    NOT_EQUAL = 34
    LEFT_SHIFT = 35
    RIGHT_SHIFT = 36
    LEFT_BRACE = 37
    RIGHT_BRACE = 38
    LEFT_PAREN = 39
    RIGHT_PAREN = 40
    LEFT_BRACKET = 41
    RIGHT_BRACKET = 42
    LEFT_ANGLE = 43
    RIGHT_ANGLE = 44
    SEMICOLON = 45
    COMMA = 46
    COLON = 47
    DOT = 48
    EQUAL = 49
    BANG = 50
    MINUS = 51
    TILDE = 52
    PLUS = 53
    STAR = 54
    SLASH = 55
    PERCENT = 56
    PIPE = 57
    CARET = 58
    AMPERSAND = 59
    QUESTION = 60


class ErrorKind(enum.IntEnum):
    """What is wrong. The numbers are those of pp.h, and docs/GUIDE.md of the repository has an example of each."""

    INTEGER_OVERFLOW = 1
    FLOAT_PARSING_ERROR = 2
    UNEXPECTED_CHARACTER = 3
    UNEXPECTED_TOKEN = 4
    UNEXPECTED_HASH = 5
    UNEXPECTED_NEW_LINE = 6
    UNEXPECTED_END_OF_INPUT = 7
    TOO_FEW_DEFINE_ARGUMENTS = 8
    TOO_MANY_DEFINE_ARGUMENTS = 9
    ERROR_DIRECTIVE = 10
    DUPLICATE_PARAMETER = 11
    UNKNOWN_DIRECTIVE = 12
    DEFINE_REDEFINED = 13
    ELIF_OUTSIDE_OF_BLOCK = 14
    ELSE_OUTSIDE_OF_BLOCK = 15
    ENDIF_OUTSIDE_OF_BLOCK = 16
    ELIF_AFTER_ELSE = 17
    MORE_THAN_ONE_ELSE = 18
    UNFINISHED_BLOCK = 19
    LINE_OVERFLOW = 20
    NOT_SUPPORTED_16_BIT_LITERAL = 21
    NOT_SUPPORTED_64_BIT_LITERAL = 22
    MACRO_NOT_DEFINED = 23
    RECURSION_LIMIT_REACHED = 24
    DIVISION_BY_ZERO = 25
    REMAINDER_BY_ZERO = 26

    @property
    def sentence(self) -> str:
        """What is wrong, in lower case and without a full stop: "division by zero"."""
        return str(_LIBRARY.pp_error_sentence(self).decode())


class Flag(enum.IntFlag):
    """What else is known of a token, as in pp.h. The last two are those of `lex`."""

    SIGNED = 1
    FIRST_DIRECTIVE = 2
    COMMENTS_BEFORE = 4
    NON_DIRECTIVE_BEFORE = 8
    LEADING_WHITESPACE = 16
    START_OF_LINE = 32


class Token(NamedTuple):
    """A token with its place: byte offsets in the source as UTF-8, or in the content of a definition, and a line from 1."""

    kind: Kind
    text: str
    """How it is spelled: an integer in decimal, with `u` if it is unsigned; of a directive its first word, such as `#version`."""
    start: int
    end: int
    line: int
    flags: Flag = Flag(0)
    value: Optional[int] = None
    """The value of an integer."""
    tokens: Tuple[Token, ...] = ()
    """The tokens of a directive's line, unexpanded."""
    source: int = 0
    """In which text it is, of `stream` with texts to include: 0 for the source, then one number more for each definition and each
    text, in the order in which they came."""


class Error(Exception):
    """What is wrong with a source or a definition, and where. An iterator gives it, and goes on after it."""

    def __init__(
        self,
        kind: ErrorKind,
        start: int,
        end: int,
        line: int,
        token: Optional[Token] = None,
        source: int = 0,
        rest: Optional[Tuple[int, ...]] = None,
    ) -> None:
        super().__init__(kind, start, end, line, token, source, rest)
        self.kind, self.start, self.end, self.line = kind, start, end, line
        self.token = token
        """The token that can't stand there, of an UNEXPECTED_TOKEN."""
        self.source = source
        """In which text it is, as of a `Token`."""
        self.rest = rest
        """What follows the word of an `#include` line that asks for its text: from where to where, and the line."""

    def __str__(self) -> str:
        token = f" `{self.token.text}`" if self.token else ""
        return f"line {self.line}: {self.kind.sentence}{token}"


Item = Union[Token, Error]


class Definition(NamedTuple):
    """A macro without parameters, which is added once so many items were given."""

    name: str
    content: str
    after: int = 0


Definitions = Union[Mapping[str, str], Iterable[Definition]]


class Profile(enum.IntEnum):
    """The profile of a version of GLSL. The numbers are those of pp.h."""

    CORE = 1
    COMPATIBILITY = 2
    ES = 3


class Glsl(NamedTuple):
    """GLSL's rules for a version, by its number in #version: `Glsl(450)`, or `Glsl(310, Profile.ES)`."""

    version: int
    profile: Profile = Profile.CORE


class IncludeLine(NamedTuple):
    """An `#include` line that asks for its text."""

    rest: str
    """What follows the word up to the line's end, with blanks and comments: ` "lights.glsl"`."""
    start: int
    """Where that begins in its text, in bytes."""
    end: int
    line: int
    source: int
    """In which text the line is, as of a `Token`."""


Includes = Callable[[IncludeLine], Union[str, bytes, None]]


class OverBudget(Exception):
    """The items need more steps than the budget has."""


class TooDeep(Exception):
    """A text was to be included inside of 200 others."""


def preprocess(
    source: Union[str, bytes],
    definitions: Definitions = (),
    rules: Optional[Glsl] = None,
    budget: int = 0,
    most_items: int = 0,
) -> Iterator[Item]:
    """The preprocessed tokens of a source, and its errors. The call makes all of them, and the iterator reads them.

    The rules are those of pp-rs, or those of a version of GLSL. The items may take `budget` steps, or any number if it is 0:
    a step is a token that is read, put on a list, or passed in the body or an argument of a macro; some thousand bytes of
    dead text may be one step. If `most_items` isn't 0, there are no more than so many.

    Raises the first `Error` of a definition's content; OverBudget; ValueError if the source isn't UTF-8, or it or a content
    has 2^32 - 1 bytes or more; MemoryError if memory runs out."""
    data, options, added = _data(source), _Options(rules, budget, most_items), _added(definitions)
    words, entries = _definitions(added)
    put = data, len(data), words, len(words), entries, len(added)
    items = _Room(*_guess(data)).fill(lambda room, sizes: _LIBRARY.pp_preprocess_with(options, *put, *room, sizes))[1]
    for entry in entries[: len(added)]:
        _raise_fault(entry)
    return items


def stream(
    source: Union[str, bytes],
    definitions: Definitions = (),
    rules: Optional[Glsl] = None,
    budget: int = 0,
    includes: Optional[Includes] = None,
) -> Iterator[Item]:
    """The same items, made as they are read, some at a time, on one thread. What `preprocess` raises is raised when it is met.

    With `includes` each `#include` line is asked for its text: the function is called with the line, and what it returns comes in
    place of the line, if it isn't None. Otherwise the item is the error UNKNOWN_DIRECTIVE at the word. Errors of the lexer in
    dead text and on skipped lines aren't given then. Raises TooDeep if the text is inside of 200 others."""
    opened = _Stream(_data(source), _Options(rules, budget, 0), asks=includes is not None)
    waiting = collections.deque(_added(definitions))
    given, most, answer = 0, 1, _PARTIAL
    try:
        while answer != _DONE:
            opened.define_due(waiting, given)
            answer, items = opened.next(min(most, waiting[0].after - given) if waiting else most)
            for item in items:
                given += 1
                line = opened.include_line(item)
                text = includes(line) if includes and line else None
                if text is None:
                    yield item
                else:
                    opened.define_due(waiting, given)
                    opened.include(_data(text))
            most = min(2 * most, _MOST_ITEMS)
        opened.define_due(waiting)
    finally:
        opened.close()


def lex(source: Union[str, bytes]) -> Iterator[Item]:
    """The tokens of a source before preprocessing, newlines and number signs among them. Raises as `preprocess` does."""
    data = _data(source)
    return _Room(*_guess(data)).fill(lambda room, sizes: _LIBRARY.pp_lex(data, len(data), *room, sizes))[1]


def line_column(source: Union[str, bytes], offset: int) -> Tuple[int, int]:
    """The line and the column of a byte of the source as UTF-8, both from 1. Columns count characters. Raises ValueError as
    `preprocess` does, and if the offset is negative."""
    if offset < 0:
        raise ValueError("the offset is negative")
    data, position = _data(source), _Position()
    _check(_LIBRARY.pp_line_column(data, len(data), min(offset, len(data)), position))
    return position.line, position.column


class _Definition(ctypes.Structure):
    _fields_ = [
        *((it, ctypes.c_uint64) for it in ("name_start", "name_length", "content_start", "content_length", "after")),
        *((it, ctypes.c_uint32) for it in ("error", "start", "end", "line")),
    ]


class _Fault(ctypes.Structure):
    _fields_ = [(it, ctypes.c_uint32) for it in ("error", "start", "end", "line")]


class _Handle(ctypes.Structure):
    _fields_ = [("state", ctypes.c_void_p)]


class _Sizes(ctypes.Structure):
    _fields_ = [("items", ctypes.c_uint64), ("texts", ctypes.c_uint64)]


class _Position(ctypes.Structure):
    _fields_ = [("line", ctypes.c_uint32), ("column", ctypes.c_uint32)]


class _Options(ctypes.Structure):
    _fields_ = [
        ("size", ctypes.c_uint64),
        ("rules", ctypes.c_uint32),
        ("version", ctypes.c_uint32),
        ("budget", ctypes.c_uint64),
        ("most_items", ctypes.c_uint64),
    ]

    def __init__(self, rules: Optional[Glsl], budget: int, most_items: int) -> None:
        version, profile = rules or (0, 0)
        for name, number, bits in (("version", version, 32), ("budget", budget, 64), ("most_items", most_items, 64)):
            if not 0 <= number < 1 << bits:
                raise ValueError(f"{name} is {number}, and not below 2^{bits}")
        super().__init__(ctypes.sizeof(_Options), profile, version, budget, most_items)


# A pp_item: kind, error, flags, children, width, start, end, line, text_length and value.
_ITEM = struct.Struct("=HHIIiIIIIQ")
_WORDS_OF_AN_ITEM = _ITEM.size // 8
_ERROR, _INCLUDE_LINE = 0, 10
_DONE, _TOO_SMALL, _PARTIAL = 0, 1, 7
# Flags of `pp_stream_open`.
_ASK_INCLUDES = 1
# How many items of a stream are asked for at a time.
_MOST_ITEMS = 256
_REFUSED: Dict[int, Tuple[Type[Exception], str]] = {
    2: (ValueError, "the source isn't UTF-8"),
    3: (ValueError, "the source or a content has 2^32 - 1 bytes or more"),
    5: (MemoryError, "the library has no memory left"),
    6: (OverBudget, "the items need more steps than the budget has"),
    8: (ValueError, "the library doesn't know these rules"),
    10: (TooDeep, "texts are included more than 200 deep"),
}
_KINDS = {int(it): it for it in Kind}
_FLAGS = [Flag(it) for it in range(64)]
_FIRST_WORDS = {Kind.VERSION: "#version", Kind.EXTENSION: "#extension", Kind.PRAGMA: "#pragma", Kind.NEW_LINE: "\n", Kind.HASH: "#"}


def _load() -> ctypes.CDLL:
    name = "libpp.so.1"
    beside = os.path.join(os.path.dirname(os.path.abspath(__file__)), name)
    folder = os.environ.get("PP_LIB_DIR")
    path = os.path.join(folder, name) if folder else beside if os.path.exists(beside) else name
    try:
        library = ctypes.CDLL(path)
        library.pp_version()
    except (OSError, AttributeError) as error:
        raise ImportError(f"{error}: ./install PREFIX makes it, and PP_LIB_DIR may name its folder") from error
    text = [ctypes.c_char_p, ctypes.c_size_t]
    room = [ctypes.c_void_p, ctypes.c_size_t, *text, ctypes.POINTER(_Sizes)]
    words = [*text, ctypes.POINTER(_Definition), ctypes.c_size_t]
    library.pp_preprocess_with.argtypes = [ctypes.POINTER(_Options), *text, *words, *room]
    numbers, stream = [ctypes.c_void_p, ctypes.c_size_t], ctypes.POINTER(_Handle)
    library.pp_stream_open.argtypes = [ctypes.POINTER(_Options), ctypes.c_uint32, *text, stream]
    library.pp_stream_next.argtypes = [stream, ctypes.c_uint64, *room[:-1], *numbers, room[-1]]
    library.pp_stream_define.argtypes = [stream, *text, *text, ctypes.POINTER(_Fault)]
    library.pp_stream_include.argtypes = [stream, ctypes.c_uint32, *text]
    library.pp_stream_close.argtypes, library.pp_stream_close.restype = [stream], None
    library.pp_lex.argtypes = [*text, *room]
    library.pp_line_column.argtypes = [*text, ctypes.c_uint64, ctypes.POINTER(_Position)]
    for name in ("preprocess_with", "stream_open", "stream_next", "stream_define", "stream_include", "lex", "line_column"):
        getattr(library, f"pp_{name}").restype = ctypes.c_uint32
    library.pp_error_sentence.argtypes, library.pp_error_sentence.restype = [ctypes.c_uint32], ctypes.c_char_p
    return library


_LIBRARY = _load()


def _added(definitions: Definitions) -> List[Definition]:
    given = definitions.items() if isinstance(definitions, Mapping) else definitions
    return [Definition(*it) for it in given]


def _definitions(added: List[Definition]) -> Tuple[bytes, ctypes.Array[_Definition]]:
    """The words of definitions, and where each is in them. No list is empty, since its pointer would lead to nothing."""
    words, entries = bytearray(), []
    for it in added:
        name, content = it.name.encode(), it.content.encode()
        entries.append(_Definition(len(words), len(name), len(words) + len(name), len(content), it.after))
        words += name + content
    return bytes(words), (_Definition * (len(entries) + 1))(*entries)


def _data(source: Union[str, bytes]) -> bytes:
    return source.encode() if isinstance(source, str) else bytes(memoryview(source))


def _check(answer: int) -> None:
    """Raises what an answer without items means."""
    if answer in _REFUSED:
        kind, sentence = _REFUSED[answer]
        raise kind(sentence)


def _raise_fault(it: Union[_Definition, _Fault]) -> None:
    """Raises the error of a definition that wasn't added."""
    if it.error:
        raise Error(ErrorKind(it.error), it.start, it.end, it.line)


def _guess(data: bytes) -> Tuple[int, int]:
    """How many items and bytes of texts a source may have."""
    return len(data) // 2 + 16, len(data) + 16


class _Room:
    """Room for items, for their texts, and for the number of the text that each is in."""

    def __init__(self, items: int, texts: int) -> None:
        self.make(items, texts)

    def make(self, items: int, texts: int) -> None:
        self.count, self.items = items, (ctypes.c_uint64 * (_WORDS_OF_AN_ITEM * items))()
        self.texts, self.numbers = ctypes.create_string_buffer(texts + 1), (ctypes.c_uint32 * items)()

    def fill(self, call: Callable[..., int]) -> Tuple[int, Iterator[Item]]:
        """The answer of a call, which is made with more room until there is enough, and its items. They have to be read before the
        room is filled again."""
        sizes = _Sizes()
        while True:
            answer = call((self.items, self.count, self.texts, len(self.texts)), sizes)
            if answer != _TOO_SMALL:
                break
            self.make(sizes.items, sizes.texts)
        _check(answer)
        written = memoryview(self.items).cast("B")[: sizes.items * _ITEM.size]
        return answer, _read(zip(_ITEM.iter_unpack(written), self.numbers), ctypes.string_at(self.texts, sizes.texts))


class _Stream:
    """A stream of the library, with the texts that it reads."""

    def __init__(self, data: bytes, options: _Options, asks: bool) -> None:
        self.handle, self.texts, self.room = _Handle(), [data], _Room(_MOST_ITEMS, 16 * _MOST_ITEMS)
        self.asks = asks
        _check(_LIBRARY.pp_stream_open(options, _ASK_INCLUDES * asks, data, len(data), self.handle))

    def next(self, most: int) -> Tuple[int, Iterator[Item]]:
        def call(room: Tuple[object, ...], sizes: _Sizes) -> int:
            numbers = (self.room.numbers, self.room.count) if self.asks else (None, 0)
            return int(_LIBRARY.pp_stream_next(self.handle, most, *room, *numbers, sizes))

        return self.room.fill(call)

    def define_due(self, waiting: Deque[Definition], given: float = math.inf) -> None:
        """Adds those that are first and come after at most so many items. Raises the first error."""
        while waiting and waiting[0].after <= given:
            it, fault = waiting.popleft(), _Fault()
            name, content = it.name.encode(), it.content.encode()
            _check(_LIBRARY.pp_stream_define(self.handle, name, len(name), content, len(content), fault))
            _raise_fault(fault)
            self.texts.append(content)

    def include(self, text: bytes) -> None:
        _check(_LIBRARY.pp_stream_include(self.handle, 0, text, len(text)))
        self.texts.append(text)

    def include_line(self, item: Item) -> Optional[IncludeLine]:
        """The line that the item asks with, if it does."""
        if not isinstance(item, Error) or not item.rest:
            return None
        start, end, line = item.rest
        return IncludeLine(self.texts[item.source][start:end].decode(), start, end, line, item.source)

    def close(self) -> None:
        _LIBRARY.pp_stream_close(self.handle)


# Each with the number of its text.
_Entry = Tuple[Tuple[int, ...], int]
_Entries = Iterator[_Entry]


def _read(entries: _Entries, texts: bytes) -> Iterator[Item]:
    for entry, source in entries:
        if entry[0] != _ERROR:
            yield _token((entry, source), entries, texts)
            continue
        # It holds its place in the source, and after it the token that it carries, or the rest of a line that asks for a text.
        place, _ = next(entries)
        held = next(entries) if entry[3] > 1 else None
        if held and held[0][0] == _INCLUDE_LINE:
            yield Error(ErrorKind(entry[1]), *place[5:8], source=source, rest=held[0][5:8])
        else:
            token = _token(held, entries, texts) if held else None
            yield Error(ErrorKind(entry[1]), *place[5:8], token, source)


def _token(held: _Entry, entries: _Entries, texts: bytes) -> Token:
    (number, _, flags, children, _, start, end, line, length, value), source = held
    kind, tokens = _KINDS[number], tuple(_token(next(entries), entries, texts) for _ in range(children))
    if kind is Kind.INTEGER:
        text = str(value) if flags & Flag.SIGNED else f"{value}u"
        return Token(kind, text, start, end, line, _FLAGS[flags], value, source=source)
    text = _FIRST_WORDS.get(kind) or texts[value : value + length].decode()
    return Token(kind, text, start, end, line, _FLAGS[flags], None, tokens, source)
