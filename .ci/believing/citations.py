"""Whether the docs cite what is there."""
import re
from collections import defaultdict

INNER = 'inner'
CITED = re.compile(r'`([A-Z]\w*): ([^`]+)`')
# a citation, some words in code in parentheses, or words in code that are said to be cases
CASES = re.compile(r'`([A-Z]\w*: [^`]+)`|(\((?:`\w+`(?:, )?)+\))|\bcases? (`\w+`(?:(?:, | and )`\w+`)*)')
# the book of worked cases, which pages cite in italics in a column with this title
BOOK, COLUMN = 'crates/pp_vectors/stdin', 'case'
ITALICS = re.compile(r'\*([^*]+)\*')

QUOTED = re.compile(r'`(crates/[\w/]+\.rt)`[^\n]*\n\n```rust\n(.*?)```', re.S)


def renewed(text, tree):
    """A page whose quotes of functions of a file are as the file has them. Any other quote is left as it is."""
    return QUOTED.sub(lambda found: found[0].replace(found[2], quote(tree, found[1], found[2])), text)


def quote(tree, path, code):
    """The functions with the names of those in the code, as the file has them, or the code itself if one isn't there."""
    crate, modules = re.fullmatch(r'crates/(\w+)/src/([\w/]+)\.rt', path).groups()
    source = tree.source(crate, [] if modules == 'lib' else modules.split('/'))
    by_name = {function.name: function for function in source.functions if not function.owner} if source else {}
    names = re.findall(r'^(?:pub(?:\(\w+\))? )?fn (\w+)', code, re.M)
    if not names or code.startswith('//!') or not all(name in by_name for name in names):
        return code
    return '\n\n'.join(whole_function(by_name[name]) for name in names) + '\n'


def whole_function(function):
    source, first = function.source, function.start
    while first > 0 and source.lines[first - 1].startswith('//'):
        first -= 1
    return '\n'.join(source.lines[first : source.end_of_braces(function.end) + 1])


class Docs:
    """The citations of a file of docs."""

    def __init__(self, path, tree):
        self.path, self.tree, self.root, self.wrong = path, tree, tree.root, []
        self.by_name = defaultdict(list)
        for (crate, name), module in tree.modules.items():
            # rules are stated by what is believed
            if path.name != 'RULES.md' or INNER not in name.split('.'):
                self.by_name[name.split('.')[-1]].append(module)
        self.quotes(path.read_text())
        for number, line in enumerate(path.read_text().split('\n'), 1):
            self.line(f'{path.relative_to(self.root)}:{number}', line)
        self.worked(path.read_text())

    def line(self, where, line):
        self.paths(where, line)
        self.definitions(where, line)

    def missing(self, where, what):
        self.wrong.append(f'{where} cites {what}, which is not there')

    def quotes(self, text):
        """A block of code right after a line that names its file is in that file word for word."""
        for cited, code in QUOTED.findall(text):
            file = self.root / cited
            if file.exists() and code not in file.read_text():
                self.wrong.append(f'{self.path.name} quotes {cited} otherwise than it stands there')

    def worked(self, text):
        """The column of worked cases names cases of the book, in italics, and nothing else."""
        names, column = set(re.findall(r'^## (.*)$', (self.root / BOOK).read_text(), re.M)), None
        for number, line in enumerate(text.split('\n'), 1):
            cells = [cell.strip() for cell in line.strip('|').split('|')]
            column = None if not line.startswith('|') else cells.index(COLUMN) if COLUMN in cells else column
            if column is None or cells[column] in (COLUMN, '---'):
                continue
            where = f'{self.path.relative_to(self.root)}:{number}'
            for name in ITALICS.findall(cells[column]):
                if name not in names:
                    self.missing(where, f'the worked case "{name}"')
            if ITALICS.sub('', cells[column]).strip(';, '):
                self.wrong.append(f'{where} has more than names of worked cases in italics in the column "{COLUMN}"')

    def paths(self, where, line):
        for cited in re.findall(r'`([\w.][\w.-]*/[\w./-]*)', line) + re.findall(r'(?<![\w/`.-])((?:specs|proofs|src|docs|tests|crates)/\w[\w./-]*)', line):
            path = cited.rstrip('./').removeprefix('./')
            if not re.search(r'\b(CRATE|NAME)\b', path) and not any(p.exists() for p in self.places(path)):
                self.missing(where, cited)

    def places(self, path):
        """Where a cited path may be."""
        crates, name = self.root / 'crates', path.split('/')[-1]
        for place in (self.root, self.path.parent, *crates.iterdir()):
            yield from (place / path, place / f'{path}.antt', place / f'{path}.rt')
        for inner in crates.glob(f'*/specs/{INNER}'):
            yield from (inner / name, inner / f'{name}.antt')
        if path.startswith(('specs/', 'proofs/')):
            yield from crates.glob(f'*/{path.split("/")[0]}/**/{name}.*')

    def definitions(self, where, line):
        last, end = None, 0
        for found in CASES.finditer(line):
            cited, bracket, named = found.groups()
            if cited:
                last, end = self.cited(where, *cited.split(': ', 1), last), found.end()
            elif last and (named or line.startswith('|') or not line[end : found.start()].strip()):
                self.cases(where, re.findall(r'`(\w+)`', named or bracket), last)

    def cases(self, where, cases, definitions):
        for case in cases:
            if not any(case in d.members for d in definitions):
                self.missing(where, f'the case {case} of {definitions[0].name}')

    def cited(self, where, module, names, last):
        """The definitions of the last name that is cited."""
        modules = self.by_name.get(module)
        if not modules and re.fullmatch(r'[\w◌>=, ]+', names):
            self.missing(where, f'the definitions {module}')
        for name in names.split(', ') if modules else ():
            last = [m.definitions[name] for m in modules if name in m.definitions]
            if not last:
                self.missing(where, f'{module}: {name}')
        return last


def unnamed_files(page, definitions):
    """The files of these definitions that a page doesn't name, each with the definitions."""
    by_file = defaultdict(list)
    for definition in definitions:
        by_file[definition.module].append(definition.name)
    text = page.read_text()
    cited = {(file, name) for file, names in CITED.findall(text) for name in names.split(', ')}
    unnamed = {}
    for module, names in by_file.items():
        if str(module) not in text and not any((module.folders[-1], n) in cited for n in names):
            unnamed[str(module)] = sorted(names)
    return unnamed


def unnamed_types(page, types):
    """The files of these types of src/ that a page doesn't name, each with the types. A line names a file by its path, or
    by its name beside the folder of its crate."""
    lines, unnamed = page.read_text().split('\n'), defaultdict(list)
    for declared in types:
        folder, _, name = declared.file.partition('/src/')
        if not any(f'`{declared.file}`' in line or f'`{folder}/src`' in line and f'`{name}`' in line for line in lines):
            unnamed[declared.file].append(declared.name)
    return unnamed
