#!/usr/bin/env python3
"""Which definitions must be believed, and whether they are where a reader looks for them.

Nobody proves that a definition says what was meant. To be believed is what the contracts of the exported functions name (`requires`,
`ensures`), what the statements of the theorems in theorems.txt name, and all that these definitions are made of. So:

    specs/*.antt         what must be believed: definitions, and each of them is reached so
    specs/Inner/         the contracts of inner functions: definitions that they reach, and that need not be believed
    proofs/Laws/         laws, and definitions that only laws and proofs use
    proofs/Examples      computed examples

A definition is a record, a data type, or what is marked `unfoldable` or `abbrev`; every other declaration is a law. `Lib.antt` lists
modules and declares nothing. The script names each declaration that is elsewhere than it should be, and each place in which
docs/READING.md or README.md have another list or another count. See selftest.sh for a small tree and its faults.

Lines: a line counts if it is not empty, no comment, and no import (`use`, `ghost use`, `mod`). A line `infix`, and the head of a
`module _ … where`, count with the declaration below them. `code` is src/ with its contracts, `proofs` is the rest of proofs/.
"""
import argparse
import sys
from pathlib import Path

sys.dont_write_bytecode = True  # a test leaves no files

import report
from tree import Tree


def shown(declaration):
    file = declaration.file
    return f'{file.crate}: {file.shown}: {declaration.name}'


def place_fault(tree, declaration):
    """Why a declaration should not be where it is, if so."""
    place = declaration.file.place
    if place == 'list':
        return 'Lib.antt lists modules and declares nothing'
    if place == 'nowhere':
        return 'a file is in specs/, specs/Inner, proofs/Laws or proofs/Examples'
    if declaration.is_law:
        return {'believed': 'a law among what must be believed', 'inner': 'a law among the contracts of inner functions'}.get(place)
    if declaration in tree.believed:
        return None if place == 'believed' else f'must be believed, and is outside specs/*.antt; {tree.believed[declaration]} names it'
    if place == 'believed':
        return 'need not be believed: it belongs into specs/Inner or proofs/Laws'
    if declaration in tree.inner:
        return None if place == 'inner' else f'belongs into specs/Inner; {tree.inner[declaration]} names it'
    return 'no contract reaches it: it belongs into proofs/Laws' if place == 'inner' else None


def faults_of(tree, rows):
    """All faults. The lists are compared when everything is in its place: before, they would only say the same again."""
    faults = list(tree.faults)
    unread = [declaration for reached in (tree.believed, tree.inner) for declaration in reached if declaration.file.place == 'unread']
    for declaration in [declaration for file in tree.files.values() for declaration in file.declarations] + unread:
        if why := place_fault(tree, declaration):
            faults.append(f'{shown(declaration)}: {why}')
    for declaration in tree.believed:
        for other in tree.references.get(declaration, ()):
            if other.is_law:
                faults.append(f'{shown(declaration)}: made of {other.name}, which is marked neither unfoldable nor abbrev')
    return faults or list(report.list_faults(tree, rows))


def main():
    parser = argparse.ArgumentParser(description=__doc__, formatter_class=argparse.RawDescriptionHelpFormatter)
    parser.add_argument('tree', nargs='?', default=Path(__file__).resolve().parents[2], help='the repository (this one)')
    parser.add_argument('--table', action='store_true', help='print the list for docs/READING.md, in its order and words where it has a row')
    parser.add_argument('--measure', action='store_true', help='print the lines of every crate by kind, as Markdown')
    arguments = parser.parse_args()
    tree = Tree(arguments.tree)
    rows = report.rows_of(tree)
    if arguments.table or arguments.measure:
        print('\n'.join(report.table(tree, rows) if arguments.table else report.measure(tree)))
        return 0
    faults = faults_of(tree, rows)
    for fault in faults:
        print(f'believed: {fault}')
    print(f'believed: {report.phrase(rows)}; for books opened here {report.phrase(report.opened_here(rows))}: {len(faults)} faults')
    return 1 if faults else 0


if __name__ == '__main__':
    sys.exit(main())
