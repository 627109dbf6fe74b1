#!/usr/bin/env python3
"""The places in which the must-fail edits are wrong.

rt only sees that the crate of an edit is refused. An edit can have many wrong programs, so it has a line for each place in which a fact
must fail:

    refuses: FUNCTION            the function itself is not proved; it is not enough that a function it calls is not proved. A function of
                                 `impl Trait for Type` is TypeTrait::NAME, as rt names it
    refuses: proofs/FILE         a law or an example of that file is wrong; it is not enough that a law it uses is wrong
    refuses: proofs/FILE NAME    the law of that name, or the field of that name in a record of laws, is wrong

Without arguments this script reads every edit: it can be applied, each of its lines is one that is read, and each place is there. That
takes a second, and is a part of the gate.

With --check, and the names of crates or of edits (`vrf_bitio`, `vrf_bitio/programs`), it proves an edited copy of the crate for each edit,
by `rt check`, and looks in what rt says for a fact that fails in each place. That takes as long as `rt must-fail`, and more where the
libraries below have to be built first, so it is no part of the gate. The logs stay in a temporary folder.
"""
import argparse
import re
import shutil
import subprocess
import sys
import tempfile
from pathlib import Path
from typing import NamedTuple

sys.dont_write_bytecode = True  # a test leaves no files

# An error that says only that something else is not proved, and one that says that the proof was written for another program.
WAITS = re.compile(r'was not admitted|(was|were) not checked')
MISFITS = re.compile(r'can be named|is not in scope|has no field|has no `|is no name')


class Place(NamedTuple):
    """A function, or a file with a name or none."""

    where: str
    name: str

    def __str__(self):
        return f'{self.where} {self.name}'.strip()

    @property
    def is_file(self):
        return '/' in self.where


class Edit:
    """A file of `must-fail/`: its places, and the texts of the files that it changes."""

    def __init__(self, path):
        self.path, self.crate = path, path.parent.parent
        self.label = f'{self.crate.name}/{path.stem}'
        self.places, self.texts, self.faults = [], {}, []
        self.file = self.old = None
        self.waiting = []  # places for which no pair of lines has come yet
        for number, line in enumerate(path.read_text('utf8').split('\n'), 1):
            if why := self.read(line):
                self.faults.append(f'line {number}: {why}')
        if not self.places:
            self.faults.append('it does not say what it refuses')
        self.faults += [f'it changes nothing for {place}' for place in self.waiting]

    def read(self, line):
        """Reads a line. Returns what is wrong with it, if something is."""
        word, _, rest = line.partition(': ')
        if not line.strip() or line.startswith('#'):
            return None
        if word == 'refuses':
            return self.read_place(rest)
        if word == 'file':
            self.file = rest.strip()
            return None if (self.crate / self.file).is_file() else f'there is no {self.file}'
        if word == 'old':
            self.old = rest
            return None
        if word == 'new' or line == 'new:':
            return self.replace(rest)
        return "it begins with none of '#', 'refuses: ', 'file: ', 'old: ', 'new: '"

    def read_place(self, text):
        where, _, name = text.strip().partition(' ')
        place = Place(where, name)
        self.places.append(place)
        self.waiting.append(place)
        return None if self.is_there(place) else f'there is no {place}'

    def is_there(self, place):
        if not place.is_file:
            return place.where in functions_of(self.crate / 'src')
        path = self.crate / place.where
        if not place.where.startswith(('proofs/', 'specs/')) or not path.is_file():
            return False
        return not place.name or bool(re.search(rf'^ *(pub )?{re.escape(place.name)}(?=[ :{{(])', path.read_text('utf8'), re.MULTILINE))

    def replace(self, new):
        old, self.old, self.waiting = self.old, None, []
        if not self.file or not old:
            return "it has no 'file: ' or no 'old: ' before it"
        if old == new:
            return 'its new text is the old one'
        if not (self.crate / self.file).is_file():
            return None  # as its line 'file: ' says
        text = self.texts.get(self.file) or (self.crate / self.file).read_text('utf8')
        if text.count(old) != 1:
            return f'its old text is in {self.file} {text.count(old)} times, not once'
        self.texts[self.file] = text.replace(old, new)
        return None


def functions_of(folder):
    """The functions of a crate's code, with their modules, types and traits. The files are laid out, so a block begins and ends at the edge."""
    found = set()
    for path in folder.rglob('*.rt'):
        module = [part for part in path.relative_to(folder).with_suffix('').parts if part not in ('lib', 'main', 'mod')]
        type_of = []
        for line in path.read_text('utf8').split('\n'):
            if match := re.match(r'impl\b(?:<[^>]*>)? *(?:([\w:]+).* for )?(\w+)', line):
                type_of = [match[2] + (match[1] or '').split('::')[-1]]
            elif line.startswith('}'):
                type_of = []
            elif match := re.match(r' *(?:pub(?:\([^)]*\))? +)?(?:(?:extern "C"|const|unsafe) +)*fn (\w+)', line):
                found.add('::'.join([*module, *type_of, match[1]]))
    return found


def errors_in(log, file, name, text):
    """The errors of a log in a file (a regular expression): all, or those in a declaration, or at the line of a field of a record."""
    field = text and name and re.search(rf'^ +{re.escape(name)} = ', text, re.MULTILINE)
    line = text.count('\n', 0, field.start()) + 1 if field else None
    found = []
    for match in re.finditer(rf'^(?:\S*/)?{file}:(\d+):\d+: error: (.*)$', log, re.MULTILINE):
        if not name or match[2].startswith(f'`{name}`:') or line == int(match[1]):
            found.append(match[2])
    return found


def fails(log, crate, place, read):
    """Whether a fact fails in a place, as a log says it. `read` gives the edited text of a file."""
    if place.is_file:
        errors = errors_in(log, re.escape(place.where), place.name, read(place.where))
    else:
        if re.search(rf'^fn {crate}::{place.where}: no proof: .*`search` did not prove `', log, re.MULTILINE):
            return True
        *above, name = place.where.split('::')
        folder = '/'.join([*above, rf'\+?{name}'])
        errors = errors_in(log, rf'proofs/{folder}/(?:Proof|Answers|Invariants)\.antt', '', None)
    errors = [error for error in errors if not WAITS.search(error)]
    return bool(errors) and not any(MISFITS.search(error) for error in errors)


def edits_of(root, names):
    """The edits of the crates, or of the names that are given."""
    found = [Edit(path) for path in sorted(root.glob('crates/*/must-fail/*.edit'))]
    lacking = [name for name in names if not any(name in (edit.label, edit.crate.name) for edit in found)]
    if lacking:
        sys.exit(f'places: there is no crate and no edit {lacking[0]}')
    return [edit for edit in found if not names or edit.label in names or edit.crate.name in names]


class Copy:
    """A copy of the crates, in which edits are made and checked. What rt makes there goes at the end, and the logs stay."""

    def __init__(self, root):
        self.root = Path(tempfile.mkdtemp(prefix='places-'))
        shutil.copy(root / 'crates.txt', self.root)
        if (root / 'HANDLES').exists():
            shutil.copy(root / 'HANDLES', self.root)
        shutil.copytree(root / 'crates', self.root / 'crates', ignore=shutil.ignore_patterns('out', 'must-fail'))

    def check(self, crate, label):
        """What a check of a crate says; it is also written into a file, whose path comes second."""
        ran = subprocess.run(['rt', 'check'], cwd=self.root / 'crates' / crate, stdin=subprocess.DEVNULL, stdout=subprocess.PIPE, stderr=subprocess.STDOUT)
        path = self.root / f'{label.replace("/", ".")}.log'
        path.write_bytes(ran.stdout)
        return ran.returncode, ran.stdout.decode('utf8', 'replace'), path

    def check_edited(self, edit):
        """The places of an edit in which no fact fails, and the log."""
        here = self.root / 'crates' / edit.crate.name
        before = {file: (here / file).read_text('utf8') for file in edit.texts}
        for file, text in edit.texts.items():
            (here / file).write_text(text, 'utf8')
        try:
            status, log, path = self.check(edit.crate.name, edit.label)
            read = lambda file: (here / file).read_text('utf8')
            return [place for place in edit.places if status == 0 or not fails(log, edit.crate.name, place, read)], path
        finally:
            for file, text in before.items():
                (here / file).write_text(text, 'utf8')

    def __enter__(self):
        return self

    def __exit__(self, *_):
        shutil.rmtree(self.root / 'crates', ignore_errors=True)


def check(copy, edits):
    """Checks edited copies; the number of places in which no fact fails."""
    lost, proved = 0, {}
    for edit in edits:
        crate = edit.crate.name
        if crate not in proved:
            status, _, path = copy.check(crate, crate)
            proved[crate] = status == 0
            if status:
                print(f'places: {crate} is not proved as it stands: {path}')
        if not proved[crate]:
            lost += len(edit.places)
            continue
        places, path = copy.check_edited(edit)
        for place in places:
            print(f'NOT HELD: {edit.label}: no fact fails in {place}: {path}')
        print(f'places: {edit.label}: a fact fails in {len(edit.places) - len(places)} of {len(edit.places)} places', flush=True)
        lost += len(places)
    return lost


def main():
    parser = argparse.ArgumentParser(description=__doc__, formatter_class=argparse.RawDescriptionHelpFormatter)
    parser.add_argument('--root', type=Path, default=Path(__file__).resolve().parents[2], help='the repository (this one)')
    parser.add_argument('--check', nargs='+', metavar='CRATE[/EDIT]', help='check an edited copy for each of these edits; `all` stands for all crates')
    arguments = parser.parse_args()
    names = [name for name in arguments.check or () if name != 'all']
    edits = edits_of(arguments.root, names)
    faults = [f'{edit.label}: {fault}' for edit in edits for fault in edit.faults]
    for fault in faults:
        print(f'places: {fault}')
    lost = 0
    if arguments.check and not faults:
        with Copy(arguments.root) as copy:
            lost = check(copy, edits)
    print(f'places: {sum(len(edit.places) for edit in edits)} places in {len(edits)} edits: {lost + len(faults)} faults')
    return 1 if faults or lost else 0


if __name__ == '__main__':
    sys.exit(main())
