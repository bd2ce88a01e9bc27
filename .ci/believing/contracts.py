"""The files of src/: functions, types and impls, with their clauses."""
import re

from definitions import Imports, whole_import

VISIBLE = r'(pub(?:\([^)]*\))? )?'
FUNCTION = re.compile(VISIBLE + r'(?:const |unsafe |final |extern "C" )*fn\s+(\w+)')
IMPL = re.compile(r'(?:unsafe )?impl(?:<_*>)?\s+(?:(\S.*?)\s+for\s+)?(\S.*?)(?:\s+where\b.*|\s*\{.*)?$')
CLAUSE = re.compile(r'\s*(requires|ensures|ghost)\b')
GIVEN_ON = re.compile(r'^pub use ([\w:]+)::(\{(?![^}]*\bas\b)[\w\s,]*\}|\w+);', re.M)
BEGIN = re.compile(VISIBLE + r'(?:const |unsafe |final |extern "C" )*(?:fn|impl|trait|struct|enum)\b')
# these words anywhere on a line
CLAUSE_WORD = re.compile(r'\b(requires|ensures|ghost)\b')
# what of a line is no code: characters, strings and a comment
NO_CODE = re.compile(r"'(?:\\(?:u\{[^}]*\}|.)|[^'\\])'|\"(?:[^\"\\]|\\.)*\"|//.*")


def masked(text):
    """A text of the same length, with `_` for all that is inside of brackets."""
    depth, found = 0, ''
    for before, sign in zip(' ' + text, text):
        depth -= sign in '>)]' and before != '-'
        found += '_' if depth else sign
        depth += sign in '<(['
    return found


def impl_head(line):
    """The trait, if any, and the type of an impl that begins on a line, the type without `&` and generics."""
    head = IMPL.match(masked(line))
    if not head:
        return None
    owner = re.sub(r"^&?(?:'\w+ )?(?:mut )?", '', line[head.start(2) : head.end(2)])
    trait = line[head.start(1) : head.end(1)] if head[1] else None
    return trait, re.sub(r'(?<=\w)<.*', '', owner)


def indentation(line):
    return len(line) - len(line.lstrip())


class Function:
    """A function: of which type and trait, and where its head is."""

    def __init__(self, source, owner, trait, name, is_public, start, end):
        self.source, self.owner, self.trait, self.name, self.is_public = source, owner, trait, name, is_public
        # the number of its first clause, or after its head if it has none
        self.first = next((n for n in range(start, end + 1) if CLAUSE.match(source.lines[n])), end + 1)
        self.start, self.end = start, end

    @property
    def path(self):
        return f'{self.owner}::{self.name}' if self.owner else self.name

    def signature_lines(self):
        return self.written(self.start, self.first)

    def clause_lines(self):
        return self.written(self.first, self.end + 1)

    def written(self, start, end):
        """Some lines of its head, without what begins a body."""
        return [n for n in range(start, end) if self.source.lines[n].strip() not in ('{', '{}', '')]

    def has_in_body(self, number):
        """Whether a line is in its body, so far in that it is no clause of its own."""
        lines, outer = self.source.lines, indentation(self.source.lines[self.start])
        return (number > self.end and indentation(lines[number]) >= outer + 8
            and all(indentation(line) > outer for line in lines[self.end + 1 : number] if line))


class Ghost:
    """What an impl or a trait says of itself: a name, and the lines."""

    def __init__(self, owner, trait, name, start, end):
        self.owner, self.trait, self.name, self.lines = owner, trait, name, range(start, end + 1)


class Type:
    """A type of src/: its lines, without comments and attributes."""

    def __init__(self, source, name, is_public, start, end):
        self.source, self.name, self.is_public = source, name, is_public
        self.lines = [n for n in range(start, end + 1)
                      if source.lines[n].strip() and not source.lines[n].strip().startswith(('//', '#['))]

    def __str__(self):
        return f'{self.file}: {self.name}'

    @property
    def file(self):
        return str(self.source)

    def values(self, sources):
        """What a caller sees of it, if it is a `Model`."""
        return [(s, g) for s in sources for g in s.ghosts if g.owner == self.name and g.name == 'Value']

    def text(self, sources):
        values = self.values(sources)
        seen = [n for n in self.lines if not values or n == self.lines[0] or self.source.lines[n].strip().startswith('pub ')]
        return '\n'.join([*self.derived(), self.source.text(seen), *(s.text(g.lines) for s, g in values)])

    def derived(self):
        """The `derive` lines above it: each is an impl with what such an impl ensures."""
        above = self.lines[0] - 1
        while above >= 0 and self.source.lines[above].startswith(('///', '#[')):
            if self.source.lines[above].startswith('#[derive'):
                yield self.source.lines[above]
            above -= 1


class Source:
    """A file of src/."""

    def __init__(self, crate, path, modules):
        self.crate, self.path, self.modules = crate, path, modules
        self.lines = path.read_text().split('\n')
        self.imports, self.functions, self.types, self.ghosts, self.traits = Imports(), [], {}, [], set()
        self.owner, self.trait, self.owner_end, self.is_trait_public = None, None, -1, False
        # the lines on which something begins that was read, and those that hold no clauses
        self.begun, self.passed = set(), set()
        number = 0
        while number < len(self.lines):
            number = self.take(number) + 1
        whole = '\n'.join(self.lines)
        self.given_on = GIVEN_ON.findall(whole)
        self.used = re.findall(r'^(?:pub )?use ([\w:]+)::(\{[^}]*\}|\w+(?: as \w+)?);', whole, re.M)
        self.public_modules = re.findall(r'^pub mod (\w+);', whole, re.M)

    def __str__(self):
        return f'crates/{self.crate}/src/{"/".join(self.modules) or "lib"}.rt'

    def take(self, number):
        """Takes what begins on a line, and gives the number of its last."""
        line = self.lines[number]
        if number > self.owner_end:
            self.owner, self.trait, self.is_trait_public = None, None, False
        if line.strip() == '#[cfg(test)]' and self.lines[number + 1].startswith('mod '):
            return self.pass_to(number, self.end_of_braces(number + 1))
        if line.strip().startswith('ghost use '):
            text, last = whole_import(self.lines, number, r'//.*', lambda t: t.endswith(';'))
            self.imports.add(text)
            return self.pass_to(number, last)
        for take in (self.take_impl, self.take_trait, self.take_ghost, self.take_type, self.take_function):
            last = take(number, line)
            if last is not None:
                self.begun.add(number)
                return last
        return number

    def pass_to(self, number, last):
        self.passed.update(range(number, last + 1))
        return last

    def take_impl(self, number, line):
        impl = impl_head(line)
        if impl:
            self.trait, self.owner = impl
            self.owner_end = self.end_of_braces(number)
            return number

    def take_trait(self, number, line):
        trait = re.match(VISIBLE + r'trait (\w+)', line)
        if trait:
            self.trait, self.owner, self.owner_end = trait[2], trait[2], self.end_of_braces(number)
            self.is_trait_public = trait[1] == 'pub '
            if self.is_trait_public:
                self.traits.add(trait[2])
            return number

    def take_ghost(self, number, line):
        ghost = re.match(r'\s*ghost (\w+)\s*[=:]', line)
        if ghost and self.owner:
            end = self.end_of_clause(number)
            self.ghosts.append(Ghost(self.owner, self.trait, ghost[1], number, end))
            return end

    def take_type(self, number, line):
        kind = re.match(VISIBLE + r'(struct|enum|type|const|static)\s+(\w+)', line)
        if kind:
            end = self.end_of_braces(number) if kind[2] in ('struct', 'enum') else self.end_of_text(number)
            self.types[kind[3]] = Type(self, kind[3], kind[1] == 'pub ', number, end)
            return end

    def end_of_text(self, number):
        """The last line of a constant, whose text may go over lines."""
        goes_on = re.search(r'= "[^"]*(?:\\"[^"]*)*$', self.lines[number])
        return next(n for n in range(number, len(self.lines)) if not goes_on or self.lines[n].endswith('";'))

    def take_function(self, number, line):
        function = FUNCTION.match(line.strip())
        if function:
            end = self.end_of_head(number)
            is_declared = self.trait is not None and self.trait == self.owner
            is_public = self.is_trait_public if is_declared else function[1] == 'pub ' or self.trait is not None
            self.functions.append(Function(self, self.owner, self.trait, function[2], is_public, number, end))
            return end

    def code(self, number):
        return NO_CODE.sub('', self.lines[number]).rstrip()

    def braces(self, number):
        """How many more braces are opened on a line than closed."""
        return self.code(number).count('{') - self.code(number).count('}')

    def bare(self, number):
        return self.code(number).strip()

    def end_of_head(self, start):
        """The line with which a function's body begins, or its declaration ends."""
        depth, has_clause = 0, False
        for number in range(start, len(self.lines)):
            bare = self.bare(number)
            is_clause = depth == 0 and CLAUSE.match(bare) is not None
            has_clause = has_clause or is_clause
            if depth == 0 and (bare.startswith('{') or not has_clause and bare.endswith(('{', '}'))):
                return number
            depth += self.braces(number)
            if depth == 0 and bare.endswith(';'):
                return number
        return len(self.lines) - 1

    def end_outside_braces(self, start, is_end):
        depth = 0
        for number in range(start, len(self.lines)):
            depth += self.braces(number)
            if depth == 0 and is_end(number):
                return number
        return len(self.lines) - 1

    def end_of_clause(self, start):
        return self.end_outside_braces(start, lambda number: self.bare(number).endswith(';'))

    def end_of_braces(self, start):
        return self.end_outside_braces(start, lambda number: '}' in self.code(number) or self.code(number).endswith(';'))

    def unread(self):
        """The lines that begin a function, a type, an impl or a `pub use`, or hold a word of a clause, and were not read as
        that."""
        read = {g.lines[0] for g in self.ghosts}
        read = read.union(*(f.clause_lines() for f in self.functions), *(t.lines for t in self.types.values()))
        for number, line in enumerate(self.lines):
            is_lost_clause = (CLAUSE_WORD.search(self.code(number)) and number not in read
                and not any(f.has_in_body(number) for f in self.functions))
            is_lost_begin = BEGIN.match(line.strip()) and number not in self.begun
            is_lost_use = line.strip().startswith('pub use ') and not GIVEN_ON.match('\n'.join(self.lines[number:]))
            if number not in self.passed and (is_lost_clause or is_lost_begin or is_lost_use):
                yield f'{self}:{number + 1} has what this script does not read: {line.strip()}'

    def text(self, lines):
        return '\n'.join(re.sub(r'//.*', '', self.lines[n]) for n in lines)
