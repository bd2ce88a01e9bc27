"""The worked cases: those of the book, and those of the sheet of calls."""

import os
import re
import sys

sys.dont_write_bytecode = True
sys.path.insert(0, os.path.dirname(os.path.abspath(__file__)))
import programs


class Case:
    """A source, the words of the calls over it, and the replies to these and the items that are left, up to the first error
    and after it. In a case of the sheet `places` has the place of each error, and `lexed` what the lexer gives. A case may be
    read by GLSL's rules for version 460, profile core."""

    def __init__(self, name):
        self.name, self.lines, self.calls, self.replies = name, [], [], []
        self.places = self.lexed = None
        self.has_replies = self.is_glsl = False

    @property
    def source(self):
        return "\n".join(self.lines)

    def more(self, text):
        self.lines[-1:] = [(self.lines[-1] if self.lines else "") + text]


def split(items):
    """The items of a list of the book."""
    found, depth, start = [], 0, 0
    for i, c in enumerate(items):
        depth += (c == "[") - (c == "]")
        if depth == 0 and items.startswith(", ", i):
            found.append(items[start:i])
            start = i + 2
    return [*found, items[start:]]


def worked_cases():
    """The cases of crates/pp_vectors/stdin."""
    cases, heading = [], ""
    for line in programs.text_of("crates/pp_vectors/stdin").split("\n"):
        mark, _, rest = line.partition(" ")
        if mark == "#":
            heading = rest
        elif mark == "##":
            cases.append(Case(f"{heading}: {rest}"))
        elif not cases:
            continue
        elif mark == "|":
            cases[-1].lines.append(rest)
        elif mark == "&":
            cases[-1].more(rest)
        elif mark == "*":
            times, _, text = rest.partition(" ")
            cases[-1].more(int(times) * text)
        elif mark == ">":
            cases[-1].calls.append(rest)
        elif mark == ">|":
            cases[-1].calls[-1] += "\n" + rest
        elif mark in ("=", "~"):
            cases[-1].replies += split(rest)
            cases[-1].has_replies = True
    return cases


def worked_sources():
    """The sources of the book."""
    return [case.source for case in worked_cases()]


ESCAPES = {"n": "\n", "r": "\r", "t": "\t"}


def unescaped(text):
    return re.sub(r"\\(.)", lambda it: ESCAPES.get(it.group(1), it.group(1)), text, flags=re.S)


# What a binding can't do, or what changes what comes after it: a bound of the steps, and included texts, among others.
OTHERS = ("all", "drain", "includes")
BEGUN = re.compile(r"at-most-|\d*\+|:")


def calls_of(case, answers):
    """Takes the calls that a binding can make: of `add_define` and `next` up to `rest`, or for the places of errors; and what
    the lexer gives."""
    is_open = True
    for word, lines in answers:
        if word == "glsl" and not (case.calls or case.has_replies or case.places or case.lexed):
            case.is_glsl = True
        elif word == "lexer":
            case.lexed = lines[:-1]
        elif word in OTHERS or word == "glsl" or BEGUN.match(word):
            is_open = False
        elif not is_open:
            continue
        elif word == "errors" and not case.calls:
            case.places = [re.fullmatch(r"Error \w+(?:\(.*\))? (.*)", line).group(1) for line in lines]
            is_open = False
        elif word == "rest":
            case.replies += lines[:-2]
            case.has_replies, is_open = True, False
        elif word == "next" or "=" in word:
            case.calls.append(word)
            case.replies += lines


def sheet():
    """The cases of crates/test_calls/stdin whose calls a binding can make, with what crates/test_calls/stdout says."""
    cases, answers = [], []
    for line in programs.text_of("crates/test_calls/stdout").split("\n")[:-1]:
        mark, _, rest = line.partition(" ")
        if mark in ("#", "=", "*") and (not cases or answers[-1]):
            cases.append(Case(f"the sheet, {rest[:60]}"))
            answers.append([])
        if mark == "=":
            cases[-1].more(unescaped(rest))
        elif mark == "*":
            times, _, text = rest.partition(" ")
            cases[-1].more(int(times) * unescaped(text))
        elif mark == ">":
            answers[-1].append((rest, []))
        elif mark != "#":
            answers[-1][-1][1].append(line)
    for case, answered in zip(cases, answers):
        calls_of(case, answered)
    return [it for it in cases if it.has_replies or it.places is not None or it.lexed is not None]
