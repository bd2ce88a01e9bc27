"""docs/ARCHITECTURE.md: whether its walks through the code name what is there, and each call in them is made.

A walk is a section whose title begins with `TITLE`. Its line that begins with `CHAINS` has chains of functions, each of which
calls the next one: `a` → `B::c` → `d`. They hang together: each chain begins with a function of a chain before it. A
function that the text names is in a chain. A name before a path in parentheses is declared in that file.
"""
import re

PAGE = 'docs/ARCHITECTURE.md'
TITLE = 'The way of'
CHAINS = 'Calls: '
# the plain program, through which no walk goes
OTHER = 'pp_reference'
CODE = re.compile(r'`([^`]+)`')
NAME = re.compile(r'[A-Za-z_]\w*(::\w+)?')
PLACED = re.compile(r'`([\w:]+)` \(`(crates/[\w/]+\.rt)`\)')


def wrong(tree):
    """What is wrong with the walks."""
    functions, words = by_name(tree), known_words(tree)
    for walk in re.findall(rf'^## {TITLE}[^\n]*\n(.*?)(?=^## |\Z)', (tree.root / PAGE).read_text(), re.S | re.M):
        text, _, last = walk.partition(f'\n{CHAINS}')
        line, _, after = last.partition('\n')
        chains = [CODE.findall(chain) for chain in line.split('; ')]
        for said in (*wrong_names(walk, words), *wrong_places(text, tree), *wrong_chains(chains, functions), *not_called(text, chains, functions)):
            yield f'{PAGE} {said}'


def wrong_names(walk, words):
    for name in CODE.findall(walk):
        if NAME.fullmatch(name) and not name.isupper() and not set(name.split('::')) <= words:
            yield f'names `{name}` in a walk, which is not there'


def wrong_places(text, tree):
    for name, path in PLACED.findall(text):
        file = tree.root / path
        if file.exists() and not re.search(rf'\b(fn|struct|enum|trait) {name.split("::")[-1]}\b', file.read_text()):
            yield f'says that `{name}` is in {path}, which it is not'


def wrong_chains(chains, functions):
    reached = {chains[0][0]} if chains[0] else set()
    for chain in chains:
        if chain and chain[0] not in reached:
            yield f'has calls of `{chain[0]}` in a walk that does not come to it'
        reached.update(chain)
        for caller, called in zip(chain, chain[1:]):
            if not any(calls(function, called) for function in functions.get(caller, ())):
                yield f'says that `{caller}` calls `{called}`, which it does not'


def not_called(text, chains, functions):
    """The functions that the text names and no chain has."""
    called = {name for chain in chains for name in chain}
    called |= {name.split('::')[-1] for name in called}
    for name in dict.fromkeys(CODE.findall(text)):
        if name in functions and name not in called:
            yield f'names `{name}` in a walk whose calls do not have it'


def by_name(tree):
    """The functions of the crates, by their names with and without their types. `OTHER` has some of the same names."""
    found = {}
    for function in (f for crate in tree.crates if crate != OTHER for s in tree.sources[crate] for f in s.functions):
        for name in {function.name, function.path}:
            found.setdefault(name, []).append(function)
    return found


def calls(function, name):
    source = function.source
    body = range(function.end, source.end_of_braces(function.end) + 1)
    return re.search(rf'\b{name.split("::")[-1]}\(', '\n'.join(source.code(n) for n in body)) is not None


def known_words(tree):
    """The words of the code, the definitions and the proofs, and the names of their files."""
    files = [path for folder in ('src/**/*.rt', 'specs/**/*.antt', 'proofs/**/*.antt') for path in tree.root.glob(f'crates/*/{folder}')]
    found = {*tree.crates, *(path.stem for path in files)}
    return found.union(*(re.findall(r'\w+', path.read_text()) for path in files))
