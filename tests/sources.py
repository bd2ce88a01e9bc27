"""Random sources, by style, and lists of calls over them. Equal seeds and numbers give equal cases."""

import random

OBJECTS = ["A", "B", "C", "D", "E"]
FUNCTIONS = ["F", "G", "H"]
PLAIN = ["x", "y", "foo", "vec3", "__LINE__", "defined", "_", "é"]
NUMBERS = [
    "0", "1", "2", "3", "7", "42", "1u", "0x1F", "017", "1.5", ".5", "2.", "1e3", "08", "0x", "1.0e", "1.0l", "13s",
    "4294967295", "4294967296", "9223372036854775807", "9223372036854775808", "18446744073709551615",
    "18446744073709551616", "1.50", "1.5f",
]
SIGNS = list("+-*/%<>=!~&|^?:;,.()[]{}") + ["<<", ">>", "<=", ">=", "==", "!=", "&&", "||", "^^", "++", "--", "<<="]
HOSTILE = ["@", "$", "\\", "\ufeff", "\u2028", "\u0301", "\x00", "\x7f", "\U0001d11e", "'", '"', "`", "\u00a0", "\v", "\f"]
BINARY = ["+", "-", "*", "/", "%", "<<", ">>", "<", ">", "<=", ">=", "==", "!=", "&", "^", "|", "&&", "||"]


def some(r, most, give):
    return [give() for _ in range(r.randint(0, most))]


def name(r):
    return r.choice(OBJECTS + FUNCTIONS)


def token(r):
    """A token as text."""
    kind = r.random()
    if kind < 0.4:
        return name(r)
    if kind < 0.55:
        return r.choice(PLAIN)
    if kind < 0.75:
        return r.choice(NUMBERS[:12] if r.random() < 0.8 else NUMBERS)
    if kind < 0.985:
        return r.choice(SIGNS)
    return r.choice(["#", "@", *HOSTILE])


def call(r, depth=0):
    """A call, which may lack a parenthesis or have a wrong number of arguments."""
    arguments = []
    for _ in range(r.choice([0, 1, 1, 1, 2, 2, 3])):
        parts = some(r, 2, lambda: token(r))
        if depth < 3 and r.random() < 0.3:
            parts.append(call(r, depth + 1))
        if r.random() < 0.1:
            parts += ["(", *some(r, 2, lambda: token(r)), ",", ")"]
        arguments.append(r.choice([" ", " ", "\n"]).join(parts))
    end = ")" if r.random() < 0.95 else ""
    return r.choice(FUNCTIONS) + r.choice(["", " ", "\n"]) + "(" + ",".join(arguments) + end


def words(r, most):
    return " ".join(some(r, most, lambda: call(r) if r.random() < 0.15 else token(r)))


def definition(r):
    """A line of `#define`, mostly without fault."""
    body = " ".join(some(r, 4, lambda: r.choice([token(r), name(r), "x", "y", "a", "b"])))
    if r.random() < 0.5:
        return f"#define {r.choice(OBJECTS)} {body}"
    parameters = r.choice(["a", "a", "a,b", "a, b", "", "x,y,a", "a,a", "a b", "a,", "1"])
    if r.random() < 0.2:
        parameters = r.choice(["a", "a,b"])
    space = " " if r.random() < 0.05 else ""
    return f"#define {r.choice(FUNCTIONS)}{space}({parameters}) {body}"


def operand(r, depth):
    kind = r.random()
    if kind < 0.45:
        return r.choice(["0", "1", "2", "3", "63", "64", "9223372036854775807", "18446744073709551615", "1u", "0x10"])
    if kind < 0.6:
        return name(r)
    if kind < 0.7:
        return r.choice(["defined A", "defined(B)", "defined ( F )", "defined", "defined (", "defined 1", "defined(A"])
    if kind < 0.8:
        return r.choice("+-!~") + operand(r, depth)
    if kind < 0.9 and depth < 4:
        return "(" + expression(r, depth + 1) + r.choice([")"] * 12 + [""])
    if kind < 0.95:
        return call(r, 2).replace("\n", " ")
    return token(r)


def expression(r, depth=0):
    parts = [operand(r, depth)]
    for _ in range(r.choice([0, 0, 1, 1, 2, 3])):
        parts += [r.choice(BINARY), operand(r, depth)]
    return r.choice([" ", ""]).join(parts)


def of_text(r):
    return "\n".join(some(r, 5, lambda: words(r, 8)))


def of_macros(r):
    """Definitions, and their names with and without arguments."""
    parts = some(r, 7, lambda: definition(r))
    parts += some(r, 5, lambda: r.choice([words(r, 6), call(r), f"#undef {name(r)}", definition(r)]))
    return "\n".join(parts)


def of_calls(r):
    """Calls over lines, with directives among them."""
    parts = ["#define F(a) " + r.choice(["a", "a a", "[a]", "G(a)", "a F", "H", "x"])]
    parts.append("#define G(a,b) " + r.choice(["a+b", "b a", "F(a)b", "F(", "a", ")", "a,b"]))
    parts.append("#define " + r.choice(["A F", "A (", "A F(", "A ,", "A )", "A G(1", "H() 7", "H(a) F(a)"]))
    for _ in range(r.randint(1, 4)):
        parts.append(call(r))
        if r.random() < 0.4:
            parts[-1] = parts[-1][: r.randint(0, len(parts[-1]))]
            parts.append(r.choice([f"#undef {name(r)}", definition(r), "#if 1", "#endif", "#version 3", "#line 7", ""]))
            parts.append(r.choice([")", "(1)", ",2)", words(r, 2)]))
    return "\n".join(parts)


def of_depth(r):
    """Calls inside each other, about as deep as they may be."""
    deep = r.choice([1, 2, 3, 120, 126, 127, 128, 129, 130, 131])
    body = r.choice(["a", "a", "[a]", "a F", "A"])
    inner = r.choice(["1", "F", "G", "G(1)", "F(1,2)", "A", "__LINE__", "G(G(1))", ""])
    end = ")" * r.choice([deep, deep, deep, deep - 1, deep + 1])
    other = r.choice(["#define G(a) a", "#define G(a) F(a)", "#define G F", "#define A F(1)", ""])
    opening = r.choice(["F(", "F(", "F (", "F(1 ", "F(\n"])
    return f"#define F(a) {body}\n{other}\n{opening * deep}{inner}{end}{words(r, 2)}"


def of_blocks(r):
    """Blocks, mostly closed, with dead and live text."""
    lines, depth = some(r, 2, lambda: definition(r)), 0
    for _ in range(r.randint(1, 14)):
        kind = r.random()
        if kind < 0.3:
            depth += 1
            lines.append(
                r.choice([f"#if {r.choice('0011')}", f"#if {expression(r)}", f"#ifdef {name(r)}", f"#ifndef {name(r)}"])
            )
        elif kind < 0.45 and (depth or r.random() < 0.1):
            lines.append(r.choice([f"#elif {r.choice('01')}", f"#elif {expression(r)}", "#elif @", "#elif"]))
        elif kind < 0.55 and (depth or r.random() < 0.1):
            lines.append(r.choice(["#else"] * 9 + ["#else x"]))
        elif kind < 0.75 and (depth or r.random() < 0.1):
            depth -= 1
            lines.append(r.choice(["#endif"] * 9 + ["#endif x"]))
        else:
            lines.append(r.choice([words(r, 3), definition(r), "#nope", "#", "# 1", "x # y", "#error x", "08", ""]))
    lines += ["#endif"] * (max(depth, 0) if r.random() < 0.8 else 0)
    return "\n".join([*lines, r.choice(["", "x", "A"])])


def of_expressions(r):
    lines = some(r, 3, lambda: definition(r))
    for _ in range(r.randint(1, 4)):
        lines += [f"#if {expression(r)}", "1", r.choice(["#else", f"#elif {expression(r)}"]), "2", "#endif"]
    return "\n".join(lines)


def of_line_numbers(r):
    lines = []
    for _ in range(r.randint(1, 6)):
        lines.append(
            r.choice(
                [
                    f"#line {expression(r)}", f"#line {r.randint(0, 50)}", "#line 4294967295", "#line 4294967290 1",
                    f"#line {r.randint(0, 9)} {expression(r)}", "__LINE__ A", definition(r), "#define B __LINE__ B",
                    "A(__LINE__", "F(__LINE__,\n__LINE__)", "#if __LINE__ > 3", "#endif", "#line",
                ]
            )
        )
    return "\n".join([*lines, "__LINE__"])


def of_directives(r):
    return "\n".join(
        some(
            r,
            7,
            lambda: r.choice(
                [
                    "#version 300 es", f"#version {words(r, 3)}", f"#extension {words(r, 3)}", f"#pragma {words(r, 3)}",
                    "#version", "#extension", "#pragma", "/* c */ # /**/ version 1 // c", "#error", "#nope", "#",
                    "#1", "# #", "#define", "#define 1", "#undef", "#undef A B", "#undef 1", "#ifdef", "#ifdef A B",
                    "#if", "#else", "#elif 1", "#endif", "x #define A", definition(r), words(r, 3), "#pragma #",
                ]
            ),
        )
    )


# Lines with an error, in text, on a line or at its end, and good ones, among which the first are read on.
MIXED_LINES = [
    "#if 1", "#if 0", "#if 1/0", "#if @", "#if 1 @ 2", "#if", "#if F(", "#if 1 1", "#if defined", "#ifdef A",
    "#ifdef A B", "#ifndef", "#ifndef A", "#elif 1", "#elif 0", "#elif", "#elif @ 1", "#elif 1 @", "#elif 1/0",
    "#else", "#else", "#else x y", "#endif", "#endif", "#endif", "#endif x y", "#endif @", "#define A 1",
    "#define A 2", "#define A", "#define", "#define 1 2", "#define F(a) a", "#define F(a,a b) x", "#define F(a",
    "#define F(a b) c", "#define B x # y", "#define B @ z", "#define F(1) A", "#undef A", "#undef A x y",
    "#undef A @", "#undef", "#undef 1 A", "#undef F z", "#line 7", "#line 7 @", "#line 7 1/0", "#line 7 1 1",
    "#line 4294967296", "#line", "#line 1/0 2", "#line foo", "#line 5 A B", "#line #", "#version 1", "#version @ 1",
    "#version #", "#version 3 # 4", "#extension x", "#extension @ y z", "#extension # z", "#pragma p", "#pragma @ p",
    "#pragma #", "#error", "#error x A", "#nope", "#nope A x", "#", "# 1 x", "# @ A", "# # A", "x # y", "A", "x",
    "F(1)", "F(x", "1)", "F(1,2)", "F(A @ 1)", "F(\n#define A 3\n)", "A @ x", "08 x", "__LINE__", "x", "A F",
    "F F(1) x", "#include <a>",
]


def of_errors(r):
    """Many errors, and what comes after them."""
    end = r.choice(["", "\n", "\n#version 9", "\n#extension e\n#version 2", "\nx __LINE__"])
    return "\n".join(r.choice(MIXED_LINES) for _ in range(r.randint(1, 9))) + end


STYLES = [
    of_text, of_macros, of_macros, of_calls, of_calls, of_depth, of_blocks, of_blocks, of_expressions, of_line_numbers,
    of_directives, of_errors, of_errors,
]


def disguised(r, source):
    """The source with other newlines, continuations, comments or hostile characters, or with a part gone."""
    for _ in range(r.randint(1, 3)):
        kind, at = r.randrange(6), r.randint(0, len(source))
        if kind == 0:
            source = source.replace("\n", r.choice(["\r\n", "\r", "\n\r"]))
        elif kind == 1:
            source = source[:at] + r.choice(["\\\n", "\\\r\n", "\\\\\n\n"]) + source[at:]
        elif kind == 2:
            source = source[:at] + r.choice(["/**/", "/* c\n */", "/*", "*/", "// c\\\nd\n", "//"]) + source[at:]
        elif kind == 3:
            source = source[:at] + r.choice(HOSTILE) + source[at:]
        elif kind == 4:
            source = source[:at] + source[at + r.randint(1, 4) :]
        else:
            source = source.replace(" ", r.choice(["  ", "\t", "/**/", "\\\n "]))
    return source


def style(r):
    """A source of one style, or of parts of several, and the name of the first."""
    first = r.choice(STYLES)
    source = first(r)
    if r.random() < 0.15:
        other = r.choice(STYLES)
        # A macro of the first part that doubles its argument would be called inside itself a hundred times.
        source += ("\n#undef F\n#undef G\n" if other is of_depth else "\n") + other(r)
    if r.random() < 0.3:
        source = disguised(r, source)
    return first.__name__, source


def addition(r):
    content = r.choice(
        [
            "", "1", "A", "B C", "F", "F(", "A(", "(", ")", ",", "x y", "1 #", "@", "08", "F(1)", "__LINE__", "2\n3",
            "#", "A A", "/* c */ 4", "1.5f", "G(A", "\\\n", " ",
        ]
    )
    return r.choice([*OBJECTS, *OBJECTS, *FUNCTIONS, "x", "__LINE__", "defined", "", "a b"]) + "=" + content


def calls(r):
    """Calls before the items that are left are asked for."""
    if r.random() < 0.5:
        return []
    return some(r, 2, lambda: addition(r)) + some(r, 8, lambda: addition(r) if r.random() < 0.35 else "next")


def case(seed, number):
    """The name of a style, a source in it, and the calls over it."""
    r = random.Random(f"{seed} {number}")
    name, source = style(r)
    return name, source, [*calls(r), "rest"]


TEXTS = 8


def with_includes(r, number):
    """The name of a style, and a source with up to two `#include` lines of later texts, mostly between its lines."""
    name, source = style(r)
    if source.count("(") > 90:
        # A macro of another text that doubles its argument would be called inside itself a hundred times.
        return name, "#undef F\n#undef G\n" + source
    lines = source.split("\n")
    for _ in range(r.choice([0, 1, 1, 2]) if number < TEXTS else 0):
        later = r.randint(number + 1, TEXTS)
        line = r.choice(["#include ", "#include ", "# include", "#include//\n#include "]) + f'"{later}"' + r.choice(["", "", " // c", " @", " x"])
        at = r.randint(0, len(lines))
        lines.insert(at, line)
    source = "\n".join(lines)
    if r.random() < 0.05:
        source = source.replace("\n#include", " #include", 1)
    return name, source


def tree(seed, number):
    """The name of a style, a source that includes texts, which include others, and the words that name these texts."""
    r = random.Random(f"{seed} {number} tree")
    name, source = with_includes(r, 0)
    texts = [f":{k}:{with_includes(r, k)[1]}" for k in range(1, TEXTS + 1)]
    if r.random() < 0.02:
        texts[-1] = f':{TEXTS}:#include "{TEXTS}"'
    made = calls(r)
    if r.random() < 0.2:
        made.insert(r.randint(0, len(made)), "+" + with_includes(r, TEXTS)[1])
    # No word of a command line holds a NUL.
    return name, source, ["includes", *[it.replace("\x00", "") for it in [*texts, *made]], "rest"]


CHARACTERS = [
    "a", "b", "x", "e", "E", "u", "U", "l", "L", "h", "H", "s", "S", "f", "F", "_", "0", "1", "8", "9", ".", "+", "-",
    "0x", "08", "1.0", "0x1F", "1e5", "18446744073709551616", "01777777777777777777777", "\\\n", "\\\r\n", "\\", "\n",
    "\r", "\r\n", "\n\r", "/*", "*/", "//", "/", "*", " ", "\t", "\v", "\f", "#", "@", "=", "<", "<<", ">", "&", "|",
    "^", "!", "%", "(", ")", "é", "中", "\u0301", "\U0001d11e", *HOSTILE,
]


def characters(seed, number):
    """A text for the lexer."""
    r = random.Random(f"{seed} {number} characters")
    if r.random() < 0.2:
        return disguised(r, style(r)[1])
    return "".join(some(r, 40, lambda: r.choice(CHARACTERS)))
