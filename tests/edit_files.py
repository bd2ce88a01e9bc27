"""The must-fail edits: files of lines `file: `, `old: ` and `new: `, and what they make of other files."""

import os

import programs
from programs import text_of

EDITS = os.path.join(programs.TOP, "tests", "edits")

# Wrong bodies that no prover can refuse, in a folder for each program that shows them.
CASES = os.path.join(EDITS, "cases")


def names_in(folder):
    """The names of the edits in a folder."""
    if not os.path.isdir(folder):
        return []
    return sorted(name[: -len(".edit")] for name in os.listdir(folder) if name.endswith(".edit"))


def must_fail(crate):
    """The folder of a crate's edits that the gate tries."""
    return os.path.join(programs.folder_of(crate), "must-fail")


def place_of(crate, name):
    """The file of an edit of a crate, or None if there is no such edit."""
    places = [f"{folder}/{name}.edit" for folder in (os.path.join(EDITS, crate), must_fail(crate))]
    return next((it for it in places if os.path.isfile(it)), None)


def all_edits():
    """The edits of each crate, as pairs of the crate and the list of names."""
    crates = sorted(it for it in os.listdir(os.path.join(programs.TOP, "crates")) if os.path.isdir(programs.folder_of(it)))
    for crate in crates:
        names = names_in(os.path.join(EDITS, crate)) + names_in(must_fail(crate))
        if names:
            yield crate, names


def cases():
    """The wrong bodies that no prover can refuse, as pairs of a program and the list of names. Their paths begin at the top
    of the repository."""
    for crate in sorted(os.listdir(CASES)):
        yield crate, names_in(os.path.join(CASES, crate))


def pairs_of(text):
    """The pairs of old and new texts of an edit, each with its file; each line is `file: `, `old: ` or `new: `."""
    pairs, path, old = [], None, None
    for line in text.splitlines():
        kind, _, rest = line.partition(": ")
        if kind == "file":
            path = rest
        elif kind == "old":
            old = rest
        elif kind == "new" and path and old:
            pairs.append((path, old, rest))
            old = None
        else:
            raise ValueError(f"a line is neither file:, old: nor new:, or out of order: {line!r}")
    if old or not pairs:
        raise ValueError("an old text has no new one, or there is none")
    return pairs


def edited(folder, text):
    """The files that the edit changes, as they are and as it makes them."""
    before, after = {}, {}
    for path, old, new in pairs_of(text):
        if path not in before:
            before[path] = after[path] = text_of(f"{folder}/{path}")
        if after[path].count(old) != 1:
            raise ValueError(f"its old text stands {after[path].count(old)} times in {path}, and not once")
        after[path] = after[path].replace(old, new)
    unchanged = [path for path in after if after[path] == before[path]]
    if unchanged:
        raise ValueError(f"it leaves {unchanged[0]} as it is")
    return before, after


def misfit(folder, place):
    """What is wrong with an edit over the files of a folder, or None if it can be made."""
    try:
        edited(folder, text_of(place))
    except (OSError, ValueError) as error:
        return str(error)
    return None
