"""The rules for characters and tokens of docs/RULES.md once more, in Python: slow, and written from the rules alone.

What says `is_glsl` goes by GLSL's rules, and otherwise by pp-rs's.
"""

import re

# The mark of a comment, as `COMMENT_SENTINEL_VALUE`. After the phases no other CR is left.
MARK = "\r"

PUNCTUATORS = {
    "+=": "AddAssign", "-=": "SubAssign", "*=": "MulAssign", "/=": "DivAssign", "%=": "ModAssign",
    "<<=": "LeftShiftAssign", ">>=": "RightShiftAssign", "&=": "AndAssign", "^=": "XorAssign", "|=": "OrAssign",
    "++": "Increment", "--": "Decrement", "&&": "LogicalAnd", "||": "LogicalOr", "^^": "LogicalXor",
    "<=": "LessEqual", ">=": "GreaterEqual", "==": "EqualEqual", "!=": "NotEqual", "<<": "LeftShift",
    ">>": "RightShift", "{": "LeftBrace", "}": "RightBrace", "(": "LeftParen", ")": "RightParen",
    "[": "LeftBracket", "]": "RightBracket", "<": "LeftAngle", ">": "RightAngle", ";": "Semicolon", ",": "Comma",
    ":": "Colon", ".": "Dot", "=": "Equal", "!": "Bang", "-": "Minus", "~": "Tilde", "+": "Plus", "*": "Star",
    "/": "Slash", "%": "Percent", "|": "Pipe", "^": "Caret", "&": "Ampersand", "?": "Question",
}

NUMBERS = [
    re.compile(r"0[xX][0-9a-fA-F]*(\.[0-9]*([eE][+-]?[0-9]*)?)?"),
    re.compile(r"[0-9]+(\.[0-9]*)?([eE][+-]?[0-9]*)?"),
    re.compile(r"\.[0-9]+([eE][+-]?[0-9]*)?"),
]

FLOAT_TEXT = re.compile(r"([0-9]+\.?[0-9]*|\.[0-9]+)(e[+-]?[0-9]+)?")


def lines(source):
    """Each character with its line and the end of its stretch, in bytes: Characters 1, 2 and 5."""
    found, line, offset, i = [], 1, 0, 0
    while i < len(source):
        if source[i] in "\r\n":
            pair = source[i : i + 2] in ("\r\n", "\n\r")
            offset += 2 if pair else 1
            i += 2 if pair else 1
            found.append(("\n", line, offset))
            line += 1
        else:
            offset += len(source[i].encode())
            found.append((source[i], line, offset))
            i += 1
    return found


def joined(source):
    """The same without continuations: Characters 3."""
    found, all_characters, i = [], lines(source), 0
    while i < len(all_characters):
        if all_characters[i][0] == "\\" and i + 1 < len(all_characters) and all_characters[i + 1][0] == "\n":
            i += 2
        else:
            found.append(all_characters[i])
            i += 1
    return found


def uncommented(source):
    """The same with a mark for each comment: Characters 4."""
    found, characters, i = [], joined(source), 0
    text = "".join(c for c, _, _ in characters)
    while i < len(characters):
        line = characters[i][1]
        if text.startswith("//", i):
            end = text.find("\n", i)
            end = len(text) if end < 0 else end
            found.append((MARK, line, characters[end - 1][2]))
            i = end
        elif text.startswith("/*", i):
            end = text.find("*/", i + 2)
            if end < 0:
                found.append((MARK, line, len(source.encode())))
                i = len(text)
            else:
                found.append((MARK, line, characters[end + 1][2]))
                i = end + 2
        else:
            found.append(characters[i])
            i += 1
    return found


def shown_characters(characters, source):
    """What test_calls prints of them."""
    shown = [f"{ord(c)} {line} {offset}" for c, line, offset in characters]
    return ["from 0", *shown, f"None {len(source.encode())}"]


def number_at(text, i):
    """The longest front that has one of the forms of Tokens 3."""
    return max((m.group() for m in (form.match(text, i) for form in NUMBERS) if m), key=len, default="")


def float_item(number, after, is_glsl):
    """Tokens 4: what is shown, and how many characters of the suffix are taken."""
    letters = after[:2].lower() if is_glsl and after[:2] in ("lf", "LF", "hf", "HF") else ""
    if not is_glsl and after[:1] in ("l", "L"):
        return "NotSupported64BitLiteral", 0
    if not is_glsl and after[:1] in ("h", "H"):
        return "NotSupported16BitLiteral", 0
    if number[:2] in ("0x", "0X"):
        text = number[0] + number[2:]
        point = text.find(".")
        text = text[:point] + text[point:].replace("E", "e")
    else:
        text = number.replace("E", "e")
    taken = len(letters) or (1 if after[:1] in ("f", "F") else 0)
    if FLOAT_TEXT.fullmatch(text):
        return "Float " + text + letters, taken
    return "FloatParsingError", taken


def integer_item(number, after, is_glsl):
    """Tokens 5: what is shown, and how many characters of the suffix are taken."""
    taken = 1 if after[:1] in ("u", "U") else 0
    letters = "u" if taken else ""
    for suffix in ("ul", "UL", "us", "US", "l", "L", "s", "S") if is_glsl else ():
        if after.startswith(suffix):
            taken, letters = len(suffix), suffix.lower()
            break
    if not is_glsl and after[taken : taken + 1] in ("l", "L"):
        return "NotSupported64BitLiteral", taken
    if not is_glsl and after[taken : taken + 1] in ("s", "S"):
        return "NotSupported16BitLiteral", taken
    if number[:2] in ("0x", "0X"):
        base, digits = 16, number[2:]
    elif re.match("0[0-9]", number):
        base, digits = 8, number[1:]
    else:
        base, digits = 10, number
    if not digits or any(int(digit, 16) >= base for digit in digits) or int(digits, base) >= 2**64:
        return "IntegerOverflow", taken
    return f"{int(digits, base)}{letters}", taken


def word_at(text, i, is_glsl):
    """The word that begins there: what is shown of it, its length, and whether it is an error."""
    c = text[i]
    if c == "\n":
        return "NL", 1, False
    if c == "#":
        return "Hash", 1, False
    if c == "_" or c.isidentifier():
        end = i + 1
        while end < len(text) and ("a" + text[end]).isidentifier():
            end += 1
        return text[i:end], end - i, False
    number = number_at(text, i)
    if number:
        after = text[i + len(number) : i + len(number) + 3]
        is_hexadecimal = number[:2] in ("0x", "0X")
        is_float = "." in number or (not is_hexadecimal and ("e" in number or "E" in number))
        shown, taken = (float_item if is_float else integer_item)(number, after, is_glsl)
        return shown, len(number) + taken, not (shown.startswith("Float ") or shown[0].isdigit())
    for length in (3, 2, 1):
        front = text[i : i + length]
        if front in PUNCTUATORS:
            return PUNCTUATORS[front], len(front), False
    return "UnexpectedCharacter", 1 if is_glsl else min(3, len(text) - i), True


def tokens(source, is_glsl=False):
    """What test_calls prints of the items of the lexer: Tokens 1 to 8."""
    characters = uncommented(source)
    text = "".join(c for c, _, _ in characters)
    begins = [0] + [offset for _, _, offset in characters]
    found, i, leading, start, comments, newline_last = [], 0, True, True, False, True

    def end_of(k):
        return begins[k] + len(characters[k][0].encode())

    def flags(is_leading, is_start):
        return f"leading={str(is_leading).lower()} start={str(is_start).lower()} comments={str(comments).lower()}"

    while i < len(text):
        if text[i] in " \t\v\f" + MARK:
            comments = comments or text[i] == MARK
            leading = True
            i += 1
            continue
        shown, length, is_error = word_at(text, i, is_glsl)
        if is_error:
            found.append(f"Error {shown} 0..0 L1 comments={str(comments).lower()}")
        else:
            place = f"{begins[i]}..{end_of(i + length - 1)} L{characters[i][1]}"
            found.append(f"{shown} {place} {flags(leading, start)}")
        newline_last = text[i] == "\n"
        leading = start = newline_last
        i += length
    if found and not newline_last:
        end = end_of(len(text) - 1)
        found.append(f"NL {end}..{end} L{characters[-1][1]} {flags(leading, False)}")
    return found + [f"None again=false comments={str(comments).lower()}"]
