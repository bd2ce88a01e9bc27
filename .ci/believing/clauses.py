"""docs/CLAUSES.txt: what is promised, and a sum of each definition by which it is said."""
import hashlib
import re

HEAD = """\
# What the calls that users name promise. First each public function with its signature and its clauses, and what the
# impls of public types say; then each definition and type that these reach, by file. The sum before a line changes with
# the line, and with all that it reaches: of a definition that is in the second part it is the sum of its own lines.
# `.ci/believed --write` writes this file, and the gate fails if it isn't what that writes. So a clause that is taken away
# and a definition that says something else are seen in review."""


def one_line(text):
    return ' '.join(text.split())


def signature(text):
    text = re.sub(r'\{\}?$', '', one_line(text)).strip()
    return re.sub(r'(?<=\() | ?,? (?=\))', '', text)


def sum_of(*texts):
    return hashlib.sha256('\n'.join(texts).encode()).hexdigest()[:10]


class Sums:
    """The lines of the file."""

    def __init__(self, reached):
        self.reached, self.graph, self.tree = reached, reached.graph, reached.tree
        self.stanzas, self.things, self.sums = {}, {}, {}

    def sum_of_thing(self, thing):
        """The sum of the lines of a definition or type, and of what its names are imported as."""
        if thing not in self.sums:
            source = getattr(thing, 'source', None)
            text = thing.text(self.tree.sources[source.crate]) if source else thing.text()
            self.sums[thing] = sum_of(one_line(text), *sorted(self.graph.named_by(thing)[1]))
        return self.sums[thing]

    def note(self, things):
        for thing in things:
            self.things[str(thing)] = thing

    def line(self, text, things, meanings):
        self.note(things)
        below = sorted(f'{t} {self.sum_of_thing(t)}' for t in things)
        return f'{sum_of(text, *sorted(meanings), *below)} {text}'

    def promise(self, promise):
        lines = []
        if promise.signature:
            text = signature(promise.source.text(promise.signature))
            lines.append(self.line(text, self.reached.of_signature(promise), ()))
        for clause in promise.clauses:
            things, meanings = self.reached.of_clause(clause, promise)
            lines.append(self.line(one_line(clause.text()), things, meanings))
        self.stanzas[str(promise)] = lines

    def public_type(self, declared):
        self.note(self.reached.closure([declared], '', declared.name))

    def text(self):
        files = {}
        for thing in self.things.values():
            files.setdefault(thing.file, []).append(f'{self.sum_of_thing(thing)} {thing.name}')
        parts = [HEAD]
        for key, lines in [*sorted(self.stanzas.items()), *((f, sorted(n, key=by_name)) for f, n in sorted(files.items()))]:
            parts.append('\n'.join([key, *(f'  {line}' for line in lines)]))
        return '\n\n'.join(parts) + '\n'


def by_name(line):
    return line.split(' ', 1)[1]


def stanzas(text):
    """The parts of such a file: for each key the lines, each a sum and a text."""
    found = {}
    for part in text.split('\n\n'):
        if not part.startswith('#'):
            key, *lines = part.strip('\n').split('\n')
            found[key] = [tuple(line.strip().partition(' ')[::2]) for line in lines]
    return found


def summary(text):
    found = stanzas(text)
    calls = [lines for key, lines in found.items() if not is_file(key)]
    named = [lines for key, lines in found.items() if is_file(key)]
    return f'{len(calls)} calls and impls, {sum(map(len, calls))} signatures and clauses; {sum(map(len, named))} definitions and types in {len(named)} files'


def is_file(key):
    return key.startswith('crates/')


def differences(old, new):
    """How two such files differ, in words."""
    old, new = stanzas(old), stanzas(new)
    keys = sorted({*old, *new}, key=lambda key: (is_file(key), key))
    found = [line for key in keys for line in difference(key, old.get(key), new.get(key))]
    return found or [f'{key}: a name in its clauses means something else' for key in keys if old.get(key) != new.get(key)]


def difference(key, old, new):
    if old is None and not is_file(key):
        return [f'{key} is new']
    if new is None and not is_file(key):
        return [f'{key} is gone']
    old, new = old or [], new or []
    if is_file(key):
        return different_definitions(key, old, new)
    gone = [text for _, text in old if text not in [t for _, t in new]]
    added = [text for _, text in new if text not in [t for _, t in old]]
    return [f'{key} no longer says: {t}' for t in gone] + [f'{key} says now: {t}' for t in added]


def different_definitions(key, old, new):
    old, new = {name: s for s, name in old}, {name: s for s, name in new}
    for name in sorted({*old, *new}):
        if name not in old:
            yield f'{key}: {name} is reached now'
        elif name not in new:
            yield f'{key}: {name} is no longer reached'
        elif old[name] != new[name]:
            yield f'{key}: {name} says something else'
