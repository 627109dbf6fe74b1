"""The list of what must be believed, as docs/READING.md and README.md have it, and the table of all lines."""
import re
from typing import NamedTuple

import antt
import rattle

# The crates whose definitions say where a book is in lent memory. Who only works on books that were opened here, and never on a
# stored one, need not know them.
MEMORY_LAYOUT = ('vrf_words', 'vrf_table', 'vrf_store')
READING, README = 'docs/READING.md', 'README.md'
BEGIN, END = '<!-- believed -->', '<!-- /believed -->'
PHRASE = re.compile(r'([\d,]+)\s+lines\s+in\s+([\d,]+)\s+files')


class Row(NamedTuple):
    crate: str
    file: str
    lines: int
    says: str


def rows_of(tree):
    """A row for each file that has something to believe, with the lines of these definitions, bottom up."""
    rows = []
    for file in tree.files.values():
        lines = sum(declaration.count for declaration in file.declarations if declaration in tree.believed)
        if lines:
            rows.append(Row(file.crate, '/'.join(file.module), lines, file.says))
    return rows


def phrase(rows):
    return f'{sum(row.lines for row in rows):,} lines in {len(rows)} files'


def opened_here(rows):
    return [row for row in rows if row.crate not in MEMORY_LAYOUT]


def sentence(rows):
    layout = ', '.join(f'`{crate}`' for crate in MEMORY_LAYOUT)
    return f'{phrase(rows)}; for books opened here, without the memory layout ({layout}), {phrase(opened_here(rows))}.'


def read_list(tree):
    """The text between the marks of docs/READING.md and its rows; None where there are no marks."""
    path = tree.root / READING
    text = path.read_text('utf8') if path.exists() else ''
    if BEGIN not in text or END not in text:
        return None, []
    inside = text.split(BEGIN, 1)[1].split(END, 1)[0]
    rows = []
    for line in inside.split('\n'):
        cells = [cell.strip() for cell in line.strip().strip('|').split('|', 3)]
        if line.strip().startswith('|') and len(cells) == 4 and re.fullmatch(r'[\d,]+', cells[2]):
            crate, file = (cell.strip('`') for cell in cells[:2])
            file = re.sub(r'^specs/|\.antt$', '', file)
            rows.append(Row(crate, file, int(cells[2].replace(',', '')), cells[3]))
    return inside, rows


def list_faults(tree, rows):
    """Where docs/READING.md and README.md say something else."""
    inside, listed = read_list(tree)
    if inside is None:
        yield f'{READING}: there is no list between {BEGIN} and {END}'
    else:
        yield from row_faults(rows, listed)
        yield from phrase_faults(READING, inside, rows)
    path = tree.root / README
    yield from phrase_faults(README, path.read_text('utf8') if path.exists() else '', rows)


def row_faults(rows, listed):
    right = {(row.crate, row.file): row.lines for row in rows}
    seen = set()
    for row in listed:
        place = (row.crate, row.file)
        if place in seen:
            yield f'{READING}: {row.crate}: {row.file} is on the list twice'
        elif place not in right:
            yield f'{READING}: {row.crate}: {row.file} is on the list, and has nothing that must be believed'
        elif right[place] != row.lines:
            yield f'{READING}: {row.crate}: {row.file} has {right[place]} lines, not {row.lines}'
        seen.add(place)
    for row in rows:
        if (row.crate, row.file) not in seen:
            yield f'{READING}: {row.crate}: {row.file} is not on the list'


def phrase_faults(name, text, rows):
    """The text gives the number of all lines and files; it may also give that for books opened here, and no other."""
    said = [f'{lines} lines in {files} files' for lines, files in PHRASE.findall(text)]
    if phrase(rows) not in said:
        yield f"{name}: it does not say '{phrase(rows)}'"
    for other in said:
        if other not in (phrase(rows), phrase(opened_here(rows))):
            yield f"{name}: it says '{other}'"


def table(tree, rows):
    """The list for docs/READING.md: the rows that it has, in its order and in its words, then the others."""
    _, listed = read_list(tree)
    place = {(row.crate, row.file): at for at, row in reversed(list(enumerate(listed)))}
    words = {(row.crate, row.file): row.says for row in listed}
    yield '| crate | file | lines | what it says |'
    yield '|---|---|---|---|'
    for row in sorted(rows, key=lambda row: place.get((row.crate, row.file), len(listed))):
        says = words.get((row.crate, row.file)) or row.says
        yield f'| `{row.crate}` | `{row.file}` | {row.lines} | {says} |'
    yield ''
    yield sentence(rows)


def kind_of(tree, declaration):
    """The column of a declaration: by its place, and at the top of `specs/`, where everything stood before, by what reaches it."""
    file = declaration.file
    if file.place in ('inner', 'laws', 'examples'):
        return file.place
    return 'believed' if declaration in tree.believed else 'inner' if declaration in tree.inner else 'laws'


def lines_by_kind(tree, crate):
    """How many lines a crate has of each kind."""
    counts = dict.fromkeys(('believed', 'inner', 'laws', 'examples', 'code', 'proofs'), 0)
    for file in tree.files.values():
        for declaration in file.declarations if file.crate == crate else ():
            counts[kind_of(tree, declaration)] += declaration.count
    folder = tree.root / 'crates' / crate
    counts['code'] = sum(rattle.code_lines(path.read_text('utf8')) for path in (folder / 'src').rglob('*.rt'))
    proofs = set((folder / 'proofs').rglob('*.antt')) - {file.path for file in tree.files.values()}
    counts['proofs'] = sum(len(antt.lines_of(path.read_text('utf8'))) for path in proofs)
    return counts


def measure(tree):
    """The lines of every crate, by kind."""
    yield '| crate | believed | inner contracts | laws | examples | code | proofs | sum |'
    yield '|---|--:|--:|--:|--:|--:|--:|--:|'
    total = {}
    for crate in tree.crates:
        counts = lines_by_kind(tree, crate)
        total = {kind: total.get(kind, 0) + count for kind, count in counts.items()}
        yield measure_row(f'`{crate}`', counts)
    yield measure_row('all', total)


def measure_row(name, counts):
    return f'| {name} | {" | ".join(f"{count:,}" for count in [*counts.values(), sum(counts.values())])} |'
