"""What a crate makes public, and what its clauses reach."""
import re

from contracts import CLAUSE

# what a caller doesn't see of a `Model`, whose `Value` goes with its type; and proofs
UNSEEN = ('Value', 'view', 'invariant', 'size', 'size_decreases', 'laws')


class Clause:
    """Some lines of a contract."""

    def __init__(self, source, lines):
        self.source, self.lines = source, list(lines)

    def text(self):
        return self.source.text(self.lines)


class Promise:
    """A public function, or what a public type or trait says of itself: its signature and its clauses."""

    def __init__(self, source, path, signature=(), clauses=()):
        self.source, self.path, self.signature, self.clauses = source, path, list(signature), list(clauses)

    def __str__(self):
        return '::'.join([self.source.crate, *self.source.modules, self.path])


def of_function(function):
    lines, clauses = function.clause_lines(), []
    for number in lines:
        if CLAUSE.match(function.source.lines[number]) or not clauses:
            clauses.append(Clause(function.source, []))
        clauses[-1].lines.append(number)
    clauses = [c for c in clauses if re.sub(r'[\s{};]', '', c.text())]
    return Promise(function.source, function.path, function.signature_lines(), clauses)


class Public:
    """All that a crate makes public, below a module."""

    def __init__(self, tree):
        self.tree, self.promises, self.types, self.seen = tree, {}, [], set()

    def add(self, promise):
        self.promises.setdefault(str(promise), promise)

    def module(self, crate, modules=()):
        source = self.tree.source(crate, modules)
        if source is None or source in self.seen:
            return
        self.seen.add(source)
        for function in source.functions:
            if function.owner is None and function.is_public:
                self.add(of_function(function))
        for name in [*(t.name for t in source.types.values() if t.is_public), *sorted(source.traits)]:
            self.named(source, name)
        for child in source.public_modules:
            self.module(crate, [*modules, child])
        for path, listed in source.given_on:
            self.given_on(source, path.split('::'), re.findall(r'\w+', listed))

    def given_on(self, source, parts, items):
        crate = parts[0] if parts[0] in self.tree.crates else source.crate
        modules = parts[1:] if parts[0] in (crate, 'crate') else [*source.modules, *parts]
        for item in items:
            self.item(crate, modules, item)

    def item(self, crate, modules, name):
        source = self.tree.source(crate, modules)
        functions = [f for f in source.functions if f.owner is None and f.name == name] if source else []
        for function in functions:
            self.add(of_function(function))
        if source and (name in source.types or name in source.traits):
            self.named(source, name)
        elif not functions:
            self.module(crate, [*modules, name])

    def named(self, source, name):
        """A public type or trait: its functions, and what its impls say."""
        if name in source.types:
            self.types.append(source.types[name])
        for other in self.tree.sources[source.crate]:
            for owner in [name, *self.foreign(other, name)]:
                for function in other.functions:
                    if function.owner == owner and function.is_public and (function.trait in (None, name) or function.clause_lines()):
                        self.add(of_function(function))
                self.impls(other, owner)

    def foreign(self, source, name):
        """The types of other crates for which this file has an impl that names a type or trait."""
        named = [i.owner for i in (*source.functions, *source.ghosts) if i.trait and re.search(rf'\b{name}\b', f'{i.owner} {i.trait}')]
        return [owner for owner in dict.fromkeys(named) if not self.tree.has_type(source.crate, owner)]

    def impls(self, source, name):
        ghosts = [g for g in source.ghosts if g.owner == name and g.name not in UNSEEN]
        for trait in dict.fromkeys(g.trait for g in ghosts):
            said = [Clause(source, g.lines) for g in ghosts if g.trait == trait]
            path = name if trait == name else f'{name} as {trait}'
            self.add(Promise(source, path, (), said))

    def entry(self, entry):
        """The promises of one public function, 'CRATE: FUNCTION' or 'CRATE: TYPE::FUNCTION', or of a crate."""
        crate, _, path = (p.strip() for p in entry.partition(':'))
        if not path:
            self.module(crate)
        for source in self.tree.sources[crate] if path else ():
            for function in (f for f in source.functions if f.is_public and path in (f.path, f.name)):
                self.function(function)
        return self

    def function(self, function):
        self.add(of_function(function))
        owner = function.source.types.get(function.owner)
        if owner:
            self.types.append(owner)
        if owner and function.trait:
            self.impls(function.source, function.owner)


class Reached:
    """What is reached from promises: definitions and types, with what leads to each."""

    def __init__(self, tree, graph, kept):
        self.tree, self.graph, self.kept = tree, graph, kept
        self.by = {}       # definition or type -> what it is reached from
        self.clauses = {}  # source -> the numbers of lines

    def add(self, public):
        for promise in public.promises.values():
            self.add_promise(promise)
        for declared in public.types:
            self.merge(self.closure([declared], f'the type {declared.name}', declared.name))

    def add_promise(self, promise):
        self.merge(self.of_signature(promise))
        for clause in promise.clauses:
            self.clauses.setdefault(clause.source, set()).update(clause.lines)
            self.merge(self.of_clause(clause, promise)[0])

    def merge(self, by):
        for thing, origin in by.items():
            self.by.setdefault(thing, origin)

    def of_signature(self, promise):
        types = self.tree.types_in(promise.source, promise.source.text(promise.signature))
        return self.closure(types, f'the signature of {promise}', promise.path)

    def of_clause(self, clause, promise):
        """What a clause reaches, and by which imports it names it."""
        found, meanings = self.graph.named_in(clause.text(), clause.source.imports)
        return self.closure(found, f'the clauses of {promise}', promise.path), meanings

    def is_kept(self, thing, path):
        return path in self.kept.get(str(thing), ())

    def closure(self, things, origin, path):
        """Follows what definitions and types name. `path` is that of the promise, which may name what is kept."""
        by, waiting = {}, [(thing, origin) for thing in things]
        while waiting:
            thing, origin = waiting.pop()
            if thing not in by and not self.is_kept(thing, path):
                by[thing] = origin
                waiting += [(t, str(thing)) for t in self.graph.named_by(thing)[0] if t not in by]
        return by
