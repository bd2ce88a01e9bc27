"""Short texts whose tokens double and double again, each with the words of the command line before it and a name."""


def doubled(line):
    """The line for 0 and 1, for 1 and 2, and so on, forty times."""
    return "".join(line.format(k, k + 1) for k in range(40))


def parameters(between):
    """A hundred names."""
    return between.join(f"p{k}" for k in range(100))


DOUBLING = "#define A0 x\n" + doubled("#define A{1} A{0} A{0}\n")
EMPTY = "#define A0\n" + doubled("#define A{1} A{0} A{0}\n")
SUMS = "#define A0 1+\n" + doubled("#define A{1} A{0} A{0}\n")
TWICE = "#define T(x) x x\n"
BOMBS = {
    "macros that double": ([], DOUBLING + "A40"),
    "macros that double, in an argument": ([], DOUBLING + TWICE + "T(A40)"),
    "macros without tokens that double": ([], EMPTY + "A40"),
    "macros without tokens, in an argument": ([], EMPTY + TWICE + "T(A40)"),
    "macros that double, in an #if": ([], SUMS + "#if A40 0\n#endif"),
    "macros without tokens, in an #if": ([], EMPTY + "#if A40 0\n#endif"),
    "macros that double, in a #line": ([], SUMS + "#line A40 0\n"),
    "macros that double, on the command line": (
        ["-DA0=x", *[f"-DA{k + 1}=A{k} A{k}" for k in range(40)]],
        "A40",
    ),
    "calls in calls": ([], TWICE + "T(" * 100 + "x" + ")" * 100),
    "calls in calls, in an #if": ([], TWICE + "#if " + "T(" * 100 + "1+" + ")" * 100 + "0\n#endif"),
    "arguments that double from call to call": (
        [],
        "#define F0(x) x\n" + doubled("#define F{1}(x) F{0}(x x)\n") + "F40(x)",
    ),
    "a parameter a thousand times": ([], f"#define M(x) {'x ' * 1000}\nM(M(M(M(x))))"),
    "many parameters": (
        [],
        f"#define M({parameters(', ')}) {parameters(' ')}\n#define N(x) M(x{', x' * 99})\nN(N(N(N(N(x)))))",
    ),
}
