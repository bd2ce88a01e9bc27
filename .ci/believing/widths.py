"""Lines that are too wide: of specs/, of src/, and of code in the docs."""

WIDEST = 120


def of_code(text):
    """The lines of blocks that name their language. A block without one is what a program prints, as wide as that is."""
    found, language = [], None
    for number, line in numbered(text):
        if line.startswith('```'):
            language = line.strip('`').strip() if language is None else None
        elif language:
            found.append((number, line))
    return found


def numbered(text):
    return enumerate(text.split('\n'), 1)


def read_lines(root):
    """The files of a repository that are checked, each with its lines that are."""
    for files in ('specs/**/*.antt', 'src/**/*.rt'):
        for path in sorted(root.glob(f'crates/*/{files}')):
            yield path, numbered(path.read_text())
    for path in [root / 'README.md', *sorted((root / 'docs').glob('*.md'))]:
        yield path, of_code(path.read_text())


def too_wide(root):
    for path, lines in read_lines(root):
        for number, line in lines:
            if len(line) > WIDEST:
                yield f'{path.relative_to(root)}:{number} has {len(line)} columns, and {WIDEST} is the most'
