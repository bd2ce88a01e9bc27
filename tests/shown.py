"""What examples/c/show.c prints of items, in the words of the book."""

import os
import re
import sys

sys.dont_write_bytecode = True
sys.path.insert(0, os.path.dirname(os.path.abspath(__file__)))
import lexer_model
import programs

NOWHERE = "0..0 L1"


def variants(enum):
    """The variants of an enum of token.rt, in their order."""
    text = programs.text_of("crates/pp_lexer/src/token.rt")
    body = re.search(r"pub enum " + enum + r" \{\n(.*?)\n\}", text, re.S).group(1)
    return re.findall(r"^    (\w+)", body, re.M)


PUNCTUATORS = variants("Punct")
ERRORS = variants("PreprocessorError")


def truth(text):
    return "true" if text == "1" else "false"


def value_of(words):
    """The value of an item that examples/c/show.c printed, in the words of the book."""
    kind, *rest = words
    if kind in ("identifier", "integer"):
        return rest[0]
    if kind == "float":
        return f"Float {rest[0]}"
    if kind == "punctuator":
        name = PUNCTUATORS[int(rest[0]) - 16]
        return name if lexer_model.PUNCTUATORS[rest[1]] == name else f"{name} with the text {rest[1]}"
    if kind in ("version", "extension"):
        return " ".join([kind.title(), *[re.sub("[01]$", lambda it: truth(it.group()), word) for word in rest]])
    return {"pragma": "Pragma", "newline": "NL", "hash": "Hash"}[kind]


def part_of(printed):
    """An item or one that it holds: its value, its place, and what follows that."""
    words = printed.split(" ")
    at = next(i for i, word in enumerate(words) if re.fullmatch(r"\d+\.\.\d+", word))
    return words[:at], " ".join(words[at : at + 2]), words[at + 2 :]


def items_of(printed):
    """The items of the lines that show printed, in the words of the book, and the place of each error."""
    found = []
    for line in printed:
        if line.startswith("  "):
            found[-1].append(line.strip(" "))
        else:
            found.append([line])
    return [item_of(lines) for lines in found]


def item_of(lines):
    """An item with those that it holds, in the words of the book, and the place of an error."""
    if lines == ["added"]:
        return "Added", None
    (words, place, flags), *held = map(part_of, lines)
    if words[0] == "refused":
        return f"Refused {ERRORS[int(words[1]) - 1]} {place}", None
    if words[0] == "error":
        name = ERRORS[int(words[1]) - 1]
        (mark, at, _), *carried = held
        assert mark == ["place"] and len(carried) == (name == "UnexpectedToken"), lines
        if carried:
            assert carried[0][1] == place, lines
            name += f"({value_of(carried[0][0])})"
        return f"Error {name} {place}", at
    value = value_of(words)
    if words[0] in ("version", "extension", "pragma"):
        value += f" [{', '.join(f'{value_of(w)} {p}' for w, p, _ in held)}]"
    else:
        assert not held, lines
    return " ".join([value, place, *[re.sub("[01]$", lambda it: truth(it.group()), word) for word in flags]]), None
