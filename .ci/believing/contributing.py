"""CONTRIBUTING.md: whether its lists name each file of the code that has all errors, or all directives."""
import re

PAGE = 'CONTRIBUTING.md'
# a section, and the enum whose variants its files have: the crate, the modules of its source, and its name
LISTS = [
    ('Add an error', 'pp_lexer', ['token'], 'PreprocessorError'),
    ('Add a directive', 'pp_model', ['directive'], 'Directive'),
]
FOLDERS = ('crates', 'bindings')
ENDINGS = ('.rt', '.antt', '.rs')


def unnamed(tree):
    """What is wrong with the lists."""
    text = (tree.root / PAGE).read_text()
    files = {path: set(re.findall(r'\w+', path.read_text())) for path in sources(tree.root)}
    for title, crate, modules, name in LISTS:
        section = re.search(rf'^## {title}\n(.*?)(?=^## |\Z)', text, re.S | re.M)
        declared = tree.source(crate, modules).types[name]
        variants = set(re.findall(r'^    ([A-Z]\w*)', declared.source.text(declared.lines), re.M))
        for path in sorted(path for path, words in files.items() if variants <= words):
            file = path.relative_to(tree.root).as_posix()
            if not section or f'`{file}`' not in section[1]:
                yield f'{PAGE}, "{title}", does not name {file}, which has all of {name}'


def sources(root):
    for folder in FOLDERS:
        for path in (root / folder).rglob('*'):
            if path.suffix in ENDINGS and 'out' not in path.parts:
                yield path
