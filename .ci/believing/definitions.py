"""The files of specs/: their imports and their definitions."""
import re

MODIFIER = r'(?:(?:abbrev|unfoldable|pub)\s+)*'
NAME = r'[^\s:(){}.,;]+'
TOKEN = re.compile(r'[^\s(){}\[\],;]+')


def without_strings(text):
    return re.sub(r'"[^"]*"', '""', text)


def without_comment(line):
    return re.sub(r'(^|\s)--.*', '', line).rstrip()


def whole_import(lines, start, comment, is_whole):
    """An import that may go over several lines, in one, and the number of its last line."""
    text = ''
    for number in range(start, len(lines)):
        text += ' ' + re.sub(comment, '', lines[number]).strip()
        if is_whole(text):
            return text.strip(), number
    return text.strip(), len(lines) - 1


class Imports:
    """The `use` lines of a file."""

    def __init__(self):
        self.names = {}    # name -> (path, name there)
        self.modules = {}  # name -> path

    def add(self, text):
        path = text.rstrip(';').split('use ', 1)[1].strip()
        listed = re.match(r'(\S+?)\s*\.\s*\{(.*)\}$', path)
        if not listed:
            there, _, here = path.partition(' as ')
            self.modules[here.strip() or there.strip().split('.')[-1]] = there.strip()
            return
        for item in filter(None, (i.strip() for i in listed[2].split(','))):
            there, _, here = item.partition(' as ')
            self.names[here.strip() or there.strip()] = (listed[1], there.strip())


class Definition:
    """A definition of specs/: its numbered lines, and the parts in which its variables are bound."""

    def __init__(self, module, name):
        self.module, self.name, self.label = module, name, f'{module}: {name}'
        self.lines, self.parts, self.members = [], [], []

    def __str__(self):
        return self.label

    @property
    def file(self):
        return str(self.module)

    def text(self):
        signs = [s for s in self.module.signs if self.name in s.split()]
        return '\n'.join(signs + self.parts)

    def variables(self, part, constructors):
        """The variables of an equation: on its left no function is found but its own."""
        left, equals, _ = part.split('\n')[0].partition(' =')
        left = left if equals and not self.members else ''
        functions = {n for n, d in self.module.definitions.items() if not d.members} | set(self.module.imports.names)
        taken = set(re.findall(r'[^\s(){}]+', left)) & functions - {self.name}
        return {t for t in taken if t[:1].islower() and '◌' not in t and t not in constructors}


class Module:
    """A file of specs/."""

    def __init__(self, crate, name, path):
        self.crate, self.name, self.path = crate, name, path
        self.label = f'crates/{crate}/specs/{name.replace(".", "/")}.antt'
        self.imports, self.definitions, self.members, self.signs = Imports(), {}, {}, []
        self.outer, self.current = [], None
        lines, number = path.read_text().split('\n'), 0
        while number < len(lines):
            number = self.take(lines, number) + 1

    def __str__(self):
        return self.label

    @property
    def folders(self):
        return self.name.split('.')

    def take(self, lines, number):
        """Takes what begins on a line, and gives the number of its last."""
        bare = without_comment(lines[number])
        depth, bare = len(bare) - len(bare.lstrip()), bare.strip()
        if re.match(r'(pub )?use ', bare):
            text, last = whole_import(lines, number, r'--.*', lambda t: t.count('{') == t.count('}'))
            self.imports.add(text)
            return last
        if bare.startswith('infix'):
            self.signs.append(bare)
        elif bare and not re.match(r'(pub )?mod ', bare):
            self.define(number + 1, depth, bare)
        return number

    def define(self, number, depth, bare):
        while self.outer and depth <= self.outer[-1][0]:
            self.outer.pop()
        if bare in ('mutual', 'abbrev mutual') or bare.startswith('module '):
            self.outer.append((depth, number))
            self.current = None
            return
        self.begin(depth, bare)
        if self.current is not None:
            self.go_on(number, depth, bare)

    def begin(self, depth, bare):
        """Notes which definition a line belongs to."""
        kind = re.match(MODIFIER + rf'(data|record)\s+({NAME})', bare)
        head = kind or re.match(MODIFIER + rf'()({NAME})\s*:\s', bare)
        if head and (self.current is None or depth <= self.current[0]):
            definition = self.definitions.setdefault(head[2], Definition(self, head[2]))
            definition.lines += [n for _, n in self.outer]
            self.current = (depth, definition, bool(head[1]))

    def go_on(self, number, depth, bare):
        base, definition, has_members = self.current
        definition.lines.append(number)
        member = re.match(rf'(pub )?({NAME})\s*:\s', bare)
        if has_members and member and depth == base + 2:
            definition.members.append(member[2])
            if not member[1]:
                self.members[member[2]] = definition
        if depth == base or (has_members and depth == base + 2):
            definition.parts.append(bare)
        else:
            definition.parts[-1] += '\n' + bare
