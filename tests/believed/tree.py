"""The whole repository: which definitions must be believed, which ones contracts of inner functions reach, and where each one is."""
import re
from functools import cached_property
from pathlib import Path

import antt
import rattle
from names import References, Scope

# The crates whose public functions anyone may call, as in tests/exports/run.sh.
EXPORTED = 'vrf_bitio vrf_text vrf_path vrf_names vrf_schema vrf_tally vrf_host'.split()
# Modules whose public functions count as inner although `pub mod` leads to them, as (crate, file). There is none: the functions of
# vrf_schema's checked.rt are exported as long as lib.rt says `pub mod checked`, and inner by themselves where it says `mod checked`.
INNER_ALTHOUGH_PUBLIC = ()
# Where a file is, by its folder in the crate and the first folder or file below that. What else is in proofs/ is not read: the proofs of
# functions, and lemmas for these.
PLACES = {('specs', 'Lib'): 'list', ('specs', 'Inner'): 'inner', ('proofs', 'Laws'): 'laws', ('proofs', 'Examples'): 'examples'}
THEOREMS = Path('tests/believed/theorems.txt')


class File:
    """A file of `specs/`, or of laws or examples in `proofs/`. Its key is its crate, its folder there and its modules below that."""

    def __init__(self, tree, crate, path):
        self.tree, self.crate, self.path = tree, crate, path
        text = path.read_text('utf8')
        inside = path.relative_to(tree.root / 'crates' / crate)
        self.shown = str(inside)
        self.folder, *self.module = inside.with_suffix('').parts
        self.key = crate, self.folder, *self.module
        self.place = PLACES.get((self.folder, self.module[0]), 'believed' if len(self.module) == 1 else 'nowhere')
        self.says = antt.first_sentence(text)
        self.imports = antt.imports_of(antt.without_comments(text))
        try:
            self.declarations = antt.declarations(antt.lines_of(text))
        except ValueError as error:
            raise SystemExit(f'believed: {crate}: {self.shown}: {error}') from error
        self.owners = {}
        for declaration in self.declarations:
            declaration.file = self
            for name in declaration.names():
                self.owners[name] = (declaration, name != declaration.name)

    def find(self, name):
        """What a name of this file means to others: its own declaration, or one that it passes on."""
        if name in self.owners:
            return self.owners[name]
        for line in self.imports:
            for there, here in line.names or ():
                if line.public and here == name and (file := self.tree.find_module(line.path.split('.'))):
                    return file.find(there)
        return None

    @cached_property
    def scope(self):
        """What names mean in this file."""
        scope = self.tree.scope_of(self.imports, f'{self.crate}: {self.shown}')
        for name, meaning in self.owners.items():
            scope.add(name, *meaning)
        return scope


class Unread:
    """A file of `proofs/` that is not read. What is named in it would have to be believed, and is not where a reader looks."""

    place = 'unread'

    def __init__(self, crate, module):
        self.crate, self.shown, self.found = crate, f'proofs/{"/".join(module)}.antt', {}

    def find(self, name):
        if name not in self.found:
            self.found[name] = antt.Declaration(name, 'function', 0, [], file=self)
        return self.found[name], False


class Tree:
    """The files of `specs/` and `src/`, and of the laws and examples, of every crate, and who refers to what.

    `believed` and `inner` have for each definition what named it: a contract, a theorem or another definition.
    """

    def __init__(self, root):
        self.root, self.faults = Path(root), []
        self.crates, self.libraries = self.read_crates()
        self.files, self.unread = {}, {}
        for crate in self.crates:
            for path in self.paths_of(self.root / 'crates' / crate):
                file = File(self, crate, path)
                self.files[file.key] = file
        self.references = {}
        for file in self.files.values():
            for declaration in file.declarations:
                if not declaration.is_law:
                    finder = References(file.scope)
                    finder.declaration(declaration)
                    self.references[declaration] = list(finder.found)
        contracts, inner_clauses = self.read_contracts()
        self.believed = self.reach({**self.read_theorems(), **contracts})
        self.inner = self.reach(inner_clauses, self.believed)

    def fault(self, text):
        self.faults.append(text)

    def read_crates(self):
        """The crates, bottom up, and the toolchain's libraries. Between a crate's name and the colon there can be words, such as `staticlib`."""
        text = re.sub(r'#.*', '', (self.root / 'crates.txt').read_text('utf8'))
        lines = re.findall(r'^([\w-]+)[^:\n]*:(.*)$', text, re.MULTILINE)
        crates = [crate for crate, _ in lines]
        return crates, {library for _, uses in lines for library in uses.split()} - set(crates) | {'std', 'core'}

    def paths_of(self, crate):
        """The files of a crate that are read, specs first."""
        laws = [path for name in ('Laws', 'Examples') for path in [crate / f'proofs/{name}.antt', *(crate / f'proofs/{name}').rglob('*.antt')]]
        return sorted((crate / 'specs').rglob('*.antt')) + sorted(path for path in laws if path.exists())

    def is_own(self, path):
        """Whether a path, as a list, leads to a module that is written in this repository: not to a library's, and not to a type that code
        declares."""
        return path[0] == 'Rattle' and path[2:3] in (['specs'], ['proofs']) and path[1] not in self.libraries and path[3:4] != ['declared']

    def find_module(self, path):
        """The file of a path such as Rattle, vrf_path, specs, Keys."""
        if not self.is_own(path) or len(path) < 4:
            return None
        if path[2] == 'proofs' and (path[2], path[3]) not in PLACES:
            return self.unread.setdefault(tuple(path), Unread(path[1], path[3:]))
        return self.files.get(tuple(path[1:]))

    def scope_of(self, imports, where):
        """What imports bring into scope. One that names what is not there is a fault: then this test would not see what it means."""
        scope = Scope(self.find_module)
        for line in imports:
            path = line.path.split('.')
            if not self.is_own(path):
                continue
            file = self.find_module(path)
            if line.names is None:
                scope.modules[line.alias or path[-1]] = path
                if not file:
                    self.fault(f'{where}: there is no {line.path}')
            for there, here in line.names or ():
                if meaning := file and file.find(there):
                    scope.add(here, *meaning)
                else:
                    self.fault(f'{where}: there is no {there} in {line.path}')
        return scope

    def read_contracts(self):
        """The definitions that contracts name, each with a function: of exported functions, and of all others.

        What else a function's text says to the prover counts with the others.
        """
        exported, inner = {}, {}
        for crate in self.crates:
            folder = self.root / 'crates' / crate / 'src'
            for source in rattle.sources_of(folder, crate in EXPORTED):
                shown = f'{crate}: src/{source.path.relative_to(folder)}'
                scope = self.scope_of(source.imports, shown)
                hidden = (crate, source.path.name) in INNER_ALTHOUGH_PUBLIC
                for function in source.functions:
                    for word, text in function.clauses:
                        finder = References(scope)
                        finder.term(antt.tokens_of(text), function.parameters)
                        public = function.exported and not hidden and word in rattle.CONTRACT
                        for declaration in finder.found:
                            (exported if public else inner).setdefault(declaration, f'{function.name} ({shown})')
        return exported, inner

    def read_theorems(self):
        """The definitions that the theorems of the list speak of."""
        found = {}
        path = self.root / THEOREMS
        if not path.exists():
            self.fault(f'there is no {THEOREMS}')
            return found
        for number, line in enumerate(path.read_text('utf8').split('\n'), 1):
            words = line.split('#')[0].split()
            if not words:
                continue
            if len(words) != 3:
                self.fault(f'{THEOREMS}:{number}: a line has a crate, a module and a name')
                continue
            crate, module, name = words
            file = self.files.get((crate, 'proofs', *module.split('.')))
            declaration = file.owners.get(name, (None,))[0] if file else None
            if not declaration:
                self.fault(f'{THEOREMS}:{number}: there is no {name} in {module} of {crate}{self.elsewhere(crate, name)}')
                continue
            finder = References(file.scope)
            finder.signature(declaration)
            for reference in finder.found:
                found.setdefault(reference, f'{name} ({crate}: {file.shown})')
        return found

    def elsewhere(self, crate, name):
        modules = ['.'.join(file.module) for file in self.files.values() if file.key[:2] == (crate, 'proofs') and name in file.owners]
        return f'; it is in {", ".join(modules)}' if modules else ''

    def reach(self, roots, without=()):
        """All definitions that some lead to, each with what named it. A law is not followed: whatever it says is proved."""
        reached, waiting = {}, list(roots.items())
        for declaration, why in waiting:  # which grows meanwhile
            if declaration.is_law or declaration in reached or declaration in without:
                continue
            reached[declaration] = why
            file = declaration.file
            why = f'{declaration.name} ({file.crate}: {file.shown})'
            waiting += [(other, why) for other in self.references.get(declaration, ())]
        return reached
