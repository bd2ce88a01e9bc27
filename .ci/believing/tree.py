"""All definitions and sources of a repository, and what names mean there."""
import re
from collections import defaultdict

from contracts import Source, Type
from definitions import NAME, TOKEN, Definition, Module, without_strings


class Tree:
    """A repository: its files of specs/ and src/."""

    def __init__(self, root):
        self.root, self.modules, self.sources, self.given_on = root, {}, defaultdict(list), {}
        self.resolved = {}
        self.crates = sorted(p.name for p in (root / 'crates').iterdir() if (p / 'src').is_dir())
        for crate in self.crates:
            self.read_specs(crate, root / 'crates' / crate / 'specs')
            self.read_sources(crate, root / 'crates' / crate / 'src')

    def read_specs(self, crate, folder):
        for path in sorted(folder.rglob('*.antt')):
            name = '.'.join(path.relative_to(folder).with_suffix('').parts)
            self.modules[crate, name] = Module(crate, name, path)
        library = folder / 'Lib.antt'
        text = library.read_text() if library.exists() else ''
        for there in re.findall(r'^pub use Rattle\.(\w+)\.specs\.(\S+)', text, re.M):
            self.given_on[crate, there[1]] = there

    def read_sources(self, crate, folder):
        for path in sorted(folder.rglob('*.rt')):
            parts = list(path.relative_to(folder).with_suffix('').parts)
            if parts[-1] != 'tests':
                self.sources[crate].append(Source(crate, path, [] if parts == ['lib'] else parts))

    def source(self, crate, modules):
        return next((s for s in self.sources[crate] if s.modules == list(modules)), None)

    def has_type(self, crate, name):
        return any(name in s.types or name in s.traits for s in self.sources[crate])

    def unread(self):
        """The lines of src/ that are not understood."""
        return (line for crate in self.crates for s in self.sources[crate] for line in s.unread())

    def module(self, path):
        """The file of specs/ that a path means, if the repository has it."""
        there = re.match(r'Rattle\.(\w+)\.specs\.(.+)$', path)
        return there and self.modules.get(self.given_on.get(there.groups(), there.groups()))

    def is_own(self, path):
        there = re.match(r'Rattle\.(\w+)\.specs\.', path)
        return there is not None and there[1] in self.crates

    def resolve(self, path, name):
        """The definition or the type that a path and a name mean, if the repository has it."""
        if (path, name) not in self.resolved:
            self.resolved[path, name] = self.find(path, name)
        return self.resolved[path, name]

    def find(self, path, name):
        there = re.match(r'Rattle\.(\w+)\.specs\.declared\.(.+)$', path)
        if there and there[1] in self.crates:
            parts = [p for p in there[2].split('.') if p not in ('TheVariants', 'TheDeep')]
            if parts[-1] == 'TheConstants':
                source = self.source(there[1], parts[:-1])
                return source and source.types.get(name)
            return self.declared(there[1], parts)
        derived = re.match(r'Rattle\.(\w+)\.specs\.contracts\.(.+)\.TheImpl$', path)
        if derived and derived[1] in self.crates:
            return self.derived(derived[1], derived[2].split('.'))
        # A type as a row, which says what memory its values own.
        row = re.match(r'Rattle\.(\w+)\.specs\.contracts\.(.+)$', path)
        if name == 'the_row' and row and row[1] in self.crates:
            return self.declared(row[1], row[2].split('.'))
        module = self.module(path)
        return module and self.inside(module, name)

    def declared(self, crate, parts, depth=0):
        """A type of a crate, or one that the crate passes on."""
        source = self.source(crate, parts[:-1])
        if source is not None and parts[-1] in source.types or depth > 9:
            return source and source.types.get(parts[-1])
        for modules, rest in ((parts[:n], parts[n:]) for n in range(len(parts))):
            for path, listed in getattr(self.source(crate, modules), 'given_on', ()):
                if rest[0] in re.findall(r'\w+', listed):
                    there, inside = self.place(crate, modules, path)
                    return self.declared(there, [*inside, *rest], depth + 1)
        return None

    def place(self, crate, modules, path):
        """The crate and the modules that the path of a `use` means."""
        parts = path.split('::')
        if parts[0] in self.crates:
            return parts[0], parts[1:]
        return crate, parts[1:] if parts[0] == 'crate' else [*modules, *parts]

    def derived(self, crate, parts):
        """The type of which an impl is derived. One that is written out isn't known here."""
        source = self.source(crate, parts[:-1])
        for declared in source.types.values() if source else ():
            trait = parts[-1].removeprefix(declared.name)
            written = [g for g in source.ghosts if g.owner == declared.name and (g.trait or '').startswith(trait)]
            if trait != parts[-1] and trait[:1].isupper() and not written:
                return declared
        return None

    def inside(self, module, name):
        """What a name means in a file that others take it from."""
        found = module.definitions.get(name) or module.members.get(name)
        if found is None and name in module.imports.names:
            return self.resolve(*module.imports.names[name])
        return found

    def unread_imports(self):
        """The imports from crates of the repository that mean nothing that is known here."""
        for file in [*self.modules.values(), *(s for crate in self.crates for s in self.sources[crate])]:
            for name, (path, there) in file.imports.names.items():
                if self.is_own(path) and self.resolve(path, there) is None:
                    yield f'{file} takes {there} from {path}, where this script finds none'
            for path in file.imports.modules.values():
                if self.is_own(path) and self.module(path) is None and self.resolve(path, '') is None:
                    yield f'{file} uses {path}, which this script does not find'

    def constructors(self, module):
        """The names that a pattern of this file may hold."""
        found = set(module.members)
        for name, (path, there) in module.imports.names.items():
            if 'TheVariants' in path or (path.startswith('Rattle.std') and name[:1].isupper()):
                found.add(name)
            other = self.resolve(path, there)
            if isinstance(other, Definition) and there in other.module.members:
                found.add(name)
        return found

    def types_in(self, source, text):
        """The types of the repository that a signature names."""
        names = sorted(set(re.findall(r'(?:\b(\w+)::)?\b([A-Z]\w*)', text)))
        found = [source.types.get(name) or self.used_type(source, module, name) for module, name in names]
        return [t for t in found if t is not None]

    def used_type(self, source, module, name):
        """The type that a name means by the `use` lines of a source."""
        for path, listed in source.used:
            there = re.search(rf'\b(\w+)\s+as\s+{module or name}\b|\b({module or name})\b', listed)
            if there:
                crate, inside = self.place(source.crate, source.modules, path)
                last = [name] if module else []
                return self.declared(crate, [*inside, there[1] or there[2], *last])
        return None


def bound_variables(text):
    bound = set()
    for variables in re.findall(r'λ\s*([^.]*?)\.\s', text) + re.findall(r'\blet\s+(\S+)', text):
        bound.update(re.findall(r'[^\s():→]+', variables))
    for variables in re.findall(r'[({]([^(){}:]+):\s', text):
        bound.update(variables.split())
    return bound


def occurs(name, tokens, bound):
    if '◌' in name:
        return all(part in tokens for part in name.split('◌') if part)
    return name in tokens and name not in bound


class Names:
    """What the names in a text mean."""

    def __init__(self, tree, text, imports, module=None, bound=()):
        text = re.sub(rf'([{{;]\s*){NAME}\s*=(?=\s)', r'\1', without_strings(text))
        self.tree, self.imports = tree, imports
        self.bound = set(bound) | bound_variables(text)
        self.found, self.meanings = [], set()
        words = TOKEN.findall(text)
        self.tokens = set(words) | {w.split('.')[0] for w in words}
        self.through_modules(words)
        self.through_names()
        self.beside(module)

    def meet(self, path, name, known_as):
        # Two names that are exchanged mean something else, so each is noted with what it is known as.
        self.meanings.add(f'{path}.{name}' if known_as == name else f'{path}.{name} as {known_as}')
        self.found.append(self.tree.resolve(path, name))

    def through_modules(self, words):
        for word in words:
            first, _, rest = word.partition('.')
            if rest and first in self.imports.modules and first not in self.bound:
                name = rest.split('.')[0]
                self.meet(self.imports.modules[first], name, name)

    def through_names(self):
        for name, (path, there) in self.imports.names.items():
            if occurs(name, self.tokens, self.bound):
                self.meet(path, there, name)

    def beside(self, module):
        for name, definition in ({**module.definitions, **module.members} if module else {}).items():
            if occurs(name, self.tokens, self.bound):
                self.found.append(definition)


class Graph:
    """What each definition and type names itself."""

    def __init__(self, tree):
        self.tree, self.known, self.constructors = tree, {}, {}

    def named_in(self, text, imports, module=None, bound=()):
        """What a text names, and the imports by which it does."""
        names = Names(self.tree, text, imports, module, bound)
        return [f for f in names.found if f is not None], names.meanings

    def named_by(self, thing):
        if thing not in self.known:
            found, meanings = self.of_type(thing) if isinstance(thing, Type) else self.of_definition(thing)
            self.known[thing] = list(dict.fromkeys(found)), meanings
        return self.known[thing]

    def of_definition(self, definition):
        module, found, meanings = definition.module, [], set()
        if module not in self.constructors:
            self.constructors[module] = self.tree.constructors(module)
        for part in definition.parts:
            named, meant = self.named_in(part, module.imports, module, definition.variables(part, self.constructors[module]))
            found += named
            meanings |= meant
        return found, meanings

    def of_type(self, declared):
        values = declared.values(self.tree.sources[declared.source.crate])
        if not values:
            return self.tree.types_in(declared.source, declared.source.text(declared.lines)), set()
        found, meanings = [], set()
        for source, ghost in values:
            named, meant = self.named_in(source.text(ghost.lines), source.imports)
            found += named
            meanings |= meant
        return found, meanings
