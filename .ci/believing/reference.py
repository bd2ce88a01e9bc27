"""docs/REFERENCE.md: each public call of `pp_rs` as the source has it. And whether docs/GUIDE.md has an example of each error.

For each module of the library the page has a part between two marks, `<!-- MODULE: written by .ci/believed -->` and
`<!-- MODULE: end -->`. `renewed` writes these parts: under a heading for each type, and for the functions of each source, the
doc comments, signatures and clauses, word for word. What the page says once isn't repeated: a `clone`, and a `try_new` that
tests the condition of `new`, have one line, a law that another module has is left to that one, and the errors are explained in
docs/GUIDE.md. An impl that names a type of the repository that isn't public isn't there.
"""
import re
import textwrap

from public import Public

PAGE, GUIDE = 'docs/REFERENCE.md', 'docs/GUIDE.md'
CRATE = 'pp_rs'
# the modules at which a user of `pp_rs` finds what is public, and the types with which a module begins
MODULES, FIRST = ('pp', 'rules', 'token', 'lexer', 'laws', 'lexer::laws'), ('Preprocessor', 'Lexer', 'Token')
# what the head of the page says of each `clone`
SAID_OF_COPIES = ('Returns a copy.', 'The only error is `OutOfMemory`, as `out_of_memory` returns it.')
# what docs/DIFFERENCES.md says of all that is new
SAID_OF_NEW = re.compile(r'( |\n/// )'.join(['', 'pp-rs', r'0\.2\.1', 'has', 'no', 'such', r'(function|iterator)\.']))
# the type whose variants docs/GUIDE.md explains, and how the page says so
ERRORS, EXPLAINED = 'PreprocessorError', '- [GUIDE.md](GUIDE.md#errors) has the cause, the place and an example of each error.'
# errors that no source gives: a row says why in place of an example
WITHOUT_SOURCE = ('MacroNotDefined', 'OutOfMemory')


def module_of(source):
    """The module at which a user of `pp_rs` finds what a source makes public."""
    outer = source.modules[:1] if source.crate in (CRATE, 'pp_lexer') else ['pp']
    return '::'.join([*outer, *(m for m in source.modules[1:] if m == 'laws')])


class Group:
    """What stands under one heading: a type with its calls and impls, or the functions of a source."""

    def __init__(self):
        self.names, self.quotes, self.copies = [], [], []

    def is_type_alone(self):
        return not any(re.search(r'^(pub )?(fn|impl)\b', quote, re.M) for quote in self.quotes)

    def text(self):
        quotes = sorted(self.quotes, key=rank)
        blocks = ['```rust\n' + '\n\n'.join(quotes) + '\n```'] if quotes else []
        heading = '### ' + ', '.join(f'`{name}`' for name in self.names)
        return '\n\n'.join([heading, *blocks, *(['\n'.join(self.copies)] if self.copies else [])])


class Reference:
    """What the page has to say: for each module its groups."""

    def __init__(self, tree):
        self.tree, self.groups = tree, {module: {} for module in MODULES}
        public = Public(tree).entry(CRATE)
        self.types = {declared.name for declared in public.types}
        for declared in dict.fromkeys(public.types):
            self.declared(declared)
        here = [promise for promise in public.promises.values() if not self.is_private(promise)]
        self.paths = {promise.path for promise in here}
        self.laws = {promise.path for promise in here if module_of(promise.source) == 'lexer::laws'}
        for promise in here:
            if module_of(promise.source) != 'laws' or promise.path not in self.laws:
                self.promised(promise)
        self.errors = variants(tree)

    def is_private(self, promise):
        named = re.findall(r'<(\w+)>', promise.path)
        return any(self.tree.has_type(crate, name) for crate in self.tree.crates for name in named if name not in self.types)

    def group(self, source, key, name):
        group = self.groups[module_of(source)].setdefault(key, Group())
        if name not in group.names:
            group.names.append(name)
        return group

    def declared(self, declared):
        source, lines = declared.source, list(range(declared.lines[0], declared.lines[-1] + 1))
        text = source.lines[lines[0]]
        if re.match(r'pub (const|type) ', text):
            lines, key = lines[:1], 'constants'
            quote = with_comment(source, lines).removesuffix(' {').removesuffix(' = Location')
        else:
            key = declared.name
            is_open = text.startswith('pub enum') or any(re.match(r'    pub ', source.lines[n]) for n in lines)
            if declared.name == ERRORS:
                lines = [n for n in lines if not source.lines[n].strip().startswith('///')]
                self.group(source, key, ERRORS).copies.append(EXPLAINED)
            quote = with_comment(source, lines if is_open else lines[:1]).removesuffix(' {')
        self.group(source, key, declared.name).quotes.append(quote)

    def promised(self, promise):
        path, source = promise.path, promise.source
        named = [name for name in re.findall(r'\w+', path) if name in self.types]
        owner = path.split('::')[0].split(' ')[0]
        if ' as ' not in path and '::' not in path and path not in self.types:
            group = self.group(source, '/'.join(source.modules), path)
        else:
            key = owner if owner in self.types or not named else named[-1]
            group = self.group(source, key, key)
        if path.endswith('::clone') and promise.signature:
            said = sentences(source, promise)
            for known in SAID_OF_COPIES:
                said = said.replace(known, '').strip()
            group.copies.append('- `clone(&self, alloc)`' + (f': {said}' if said else ''))
        elif self.is_tested(promise):
            group.copies.append(f'- `{path.split("::")[-1]}`: {plain(sentences(source, promise))}')
        elif path.endswith(' as Clone'):
            group.copies.append('- `clone(&self)`: Returns a copy at the same position. It takes no memory.')
        else:
            group.quotes.append(of_promise(promise))

    def is_tested(self, promise):
        """Whether it is a `try_new`, which returns what `new` does, or `None` if its condition doesn't hold."""
        owner, _, name = promise.path.rpartition('::')
        untested = f'{owner}::{name.removeprefix("try_")}'
        signature = promise.source.text(promise.signature)
        return name.startswith('try_') and '-> Option<' in signature and untested in self.paths

    def part(self, module):
        groups = self.groups[module]
        keys = sorted(groups, key=lambda key: (key not in FIRST, key == 'constants', groups[key].is_type_alone()))
        return '\n\n'.join(groups[key].text() for key in keys)

    def renewed(self, text):
        """The page with its parts as the source has them."""
        for module in MODULES:
            begin, end = marks(module)
            text = re.sub(f'{re.escape(begin)}.*?{re.escape(end)}', lambda _: f'{begin}\n\n{self.part(module)}\n\n{end}', text, flags=re.S)
        return text

    def wrong(self):
        """What is wrong with both pages."""
        text = (self.tree.root / PAGE).read_text()
        found = [f'{PAGE} has no marks of {module}' for module in MODULES if not all(mark in text for mark in marks(module))]
        if text != self.renewed(text):
            found.append(f'{PAGE} is not what the source has: {self.difference(text)}; `.ci/believed --write` writes it')
        return [*found, *self.without_example((self.tree.root / GUIDE).read_text())]

    def difference(self, text):
        """The first line that the source has otherwise."""
        old, new = text.split('\n'), self.renewed(text).split('\n')
        return next((b or a for a, b in zip(old, new) if a != b), 'its length')

    def without_example(self, text):
        rows = {}
        for row in re.findall(r'^\| `(\w+)(?:\(\w+\))?` (\|.*)$', text, re.M):
            rows.setdefault(row[0], []).append(row[1])
        for error in self.errors:
            if error not in rows:
                yield f'{GUIDE} has no example of the error {error}'
            elif error not in WITHOUT_SOURCE and not all(f'`error {error} ' in row for row in rows[error]):
                yield f'{GUIDE} has a row of the error {error} without an example'


def rank(quote):
    """What comes first under a heading: the type, what makes a value of it, and its iterator; then all else as in the source."""
    first = [r'^pub (enum|struct|trait) ', r'^pub fn (try_)?new\(', r'^impl.* Iterator for ']
    return next((n for n, pattern in enumerate(first) if re.search(pattern, quote, re.M)), len(first))


def marks(module):
    return f'<!-- {module}: written by .ci/believed -->', f'<!-- {module}: end -->'


def variants(tree):
    """The names of all errors."""
    declared = tree.source('pp_lexer', ['token']).types['PreprocessorError']
    return re.findall(r'^    ([A-Z]\w*)', declared.source.text(declared.lines), re.M)


def comment(source, line):
    """The doc comment above a line."""
    return [source.lines[n] for n in comment_lines(source, line)]


def sentences(source, promise):
    """The doc comment of a call, as one line."""
    return ' '.join(' '.join(comment(source, promise.signature[0])).replace('///', ' ').split())


def plain(text):
    """A line without the brackets of its links."""
    return re.sub(r'\[(`[^`]+`)\](\([^)]*\))?', r'\1', text)


def comment_lines(source, line):
    first = line
    while first > 0 and source.lines[first - 1].strip().startswith(('///', '#[')):
        first -= 1
    return [n for n in range(first, line) if source.lines[n].strip().startswith('///')]


def with_comment(source, lines):
    """Some lines with the doc comment above them, without the indentation that all have, and without what begins a body."""
    numbers = [*comment_lines(source, lines[0]), *lines]
    text = SAID_OF_NEW.sub('', textwrap.dedent('\n'.join(source.lines[n] for n in numbers)).rstrip())
    return text if text.endswith('}') and '{\n' in text else re.sub(r' \{\}?$', '', text)


def of_promise(promise):
    source, clauses = promise.source, [n for clause in promise.clauses for n in clause.lines]
    if promise.signature:
        return with_comment(source, [*promise.signature, *clauses])
    head = next(n for n in range(clauses[0], -1, -1) if re.match(r'(unsafe )?impl\b|pub trait\b', source.lines[n]))
    return '\n'.join([source.lines[head], *(source.lines[n] for n in clauses), '}'])
