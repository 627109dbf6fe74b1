"""Reads the functions of a crate's code (`src/**/*.rt`): who may call them, and the clauses of their contracts."""
import re
from typing import NamedTuple

from antt import blank, imports_of, MODULE_LINE

# What a function's text says to the prover. Only `requires` and `ensures` are its contract; Rattle has loop invariants and measures in
# `proofs/`, and they would be read here if they were in the code. A clause can have a star and a name: `ensures low { .. }`. A ghost
# parameter is no part of what is promised: its caller picks it.
CONTRACT = ('requires', 'ensures')
CLAUSE = re.compile(r'\b(?:(requires|ensures|invariant|decreases|measure)\*?(?:\s+\w+)?|(ghost)\s+\w+\s*:)\s*\{')
# What a type or an `impl` says to the prover besides: the facts that a type carries, and what an `impl` promises of a trait's functions.
# It is read as a contract of the type or the `impl`.
GHOST = re.compile(r'\bghost\s+(?!use\b)(\w+)\s*[:=]\s*\{')
# No code has a ghost word of another form, and this reader does not know it.
UNKNOWN_GHOST = re.compile(r'\bghost\s+(?!use\b)\w+(?!\w)(?!\s*[:=]\s*\{)')
ITEM = re.compile(r'(?P<pub>\bpub\s+)?\b(?P<kind>struct|impl|trait)\b[^{;]*\{')
COMMENT_OR_TEXT = re.compile(r"""//[^\n]*|/\*.*?\*/|b?"(?:\\.|[^"\\])*"|b?'(?:\\x..|\\.|[^'\\])'""", re.DOTALL)
FUNCTION = re.compile(r'(?P<pub>\bpub(?:\([^)]*\))?\s+)?(?:(?:extern\s*""|const|unsafe)\s+)*\bfn\s+(?P<name>\w+)')
# Up to the next brace or `;` that is not in the type of an array.
HEADER = re.compile(r'(?:\[(?:[^][]|\[[^][]*\])*\]|[^{;[])*([{;])')
PARAMETER = re.compile(r'(?:^|,)\s*(?:mut\s+)?(\w+)\s*:')
USE = re.compile(r'^\s*(?:pub |ghost )?use [^;]*;', re.MULTILINE)


class Function(NamedTuple):
    name: str
    exported: bool
    parameters: set
    clauses: list


class Source(NamedTuple):
    """A file of code: its imports of definitions, its functions."""

    path: object
    imports: list
    functions: list


def without_comments(text):
    """The code alone; a text is left empty, so that no bracket in it counts."""
    return COMMENT_OR_TEXT.sub(lambda match: blank(match) if match.group().startswith('/') else '""', text)


def code_lines(text):
    """How many lines are neither empty nor a comment nor an import (`use`, `mod`)."""
    text = MODULE_LINE.sub(blank, USE.sub(blank, without_comments(text)))
    return sum(1 for line in text.split('\n') if line.strip())


def closing(text, at):
    """The place after the bracket that closes the one at a place."""
    pair = {'(': ')', '{': '}'}[text[at]]
    depth = 0
    for place in range(at, len(text)):
        depth += (text[place] == text[at]) - (text[place] == pair)
        if depth == 0:
            return place + 1
    raise ValueError(f'a bracket stays open: {text[at : at + 40]!r}')


def clauses_in(text):
    """Each clause of a piece of code, as its word and its text."""
    found, at = [], 0
    while match := CLAUSE.search(text, at):
        at = closing(text, match.end() - 1)
        found.append((match[1] or match[2], text[match.end() : at - 1]))
    return found


def parameters_start(text, at):
    """The place of the bracket of a function's parameters, which is the first that is not between `<` and `>`."""
    depth = 0
    for place in range(at, len(text)):
        if text[place] == '(' and depth == 0:
            return place
        depth += (text[place] == '<') - (text[place] == '>' and text[place - 1] != '-')
    raise ValueError(f'a function has no parameters: {text[at : at + 40]!r}')


def function_end(text, at):
    """Where a function ends: after its body, whose brace is the first that opens no clause; without a body, after the `;` of its header."""
    while match := HEADER.match(text, at):
        if match[1] == ';':
            return match.end()
        is_clause = CLAUSE.search(text, at, match.end())
        at = closing(text, match.end() - 1)
        if not is_clause:
            return at
    raise ValueError(f'a function has no end: {text[at : at + 40]!r}')


def functions_of(text, exported):
    """The functions of a file. `exported` says whether its module can be named from outside."""
    found, at = [], 0
    while match := FUNCTION.search(text, at):
        start = parameters_start(text, match.end())
        inside = closing(text, start)
        at = function_end(text, inside)
        parameters = {'self', 'result', *PARAMETER.findall(text[start + 1 : inside - 1])}
        public = (match['pub'] or '').strip() == 'pub'
        found.append(Function(match['name'], public and exported, parameters, clauses_in(text[inside:at])))
    return found


def members_of(text, exported):
    """The ghost members of the types and `impl` blocks of a file, each as a function with one promise."""
    found = []
    for item in ITEM.finditer(text):
        inside = text[item.end() : closing(text, item.end() - 1) - 1]
        fields = {'self', *PARAMETER.findall(inside.replace('\n', ' '))} if item['kind'] == 'struct' else set()
        public = exported and (item['kind'] == 'impl' or bool(item['pub']))
        covered = [(match.start(), function_end(inside, closing(inside, parameters_start(inside, match.end())))) for match in FUNCTION.finditer(inside)]
        for ghost in GHOST.finditer(inside):
            if not any(start <= ghost.start() < end for start, end in covered):
                text_of = inside[ghost.end() : closing(inside, ghost.end() - 1) - 1]
                found.append(Function(ghost[1], public, fields, [('ensures', text_of)]))
    return found


def exported_files(folder):
    """The files of a crate's code whose modules can be named from outside: `pub mod` leads to them from `lib.rt`.

    A public function of a module that is only `mod` is inner: no other crate can call it, since `tests/exports` refuses every `pub use`.
    """
    found, waiting = set(), [(folder / 'lib.rt', folder)]
    while waiting:
        path, below = waiting.pop()
        if path.exists():
            found.add(path)
            names = re.findall(r'^\s*pub mod (\w+);', without_comments(path.read_text('utf8')), re.MULTILINE)
            waiting += [(below / f'{name}.rt', below / name) for name in names]
    return found


def sources_of(folder, exported):
    """The files of a crate's code. `exported` says whether the crate is."""
    public = exported_files(folder) if exported else set()
    found = []
    for path in sorted(folder.rglob('*.rt')):
        text = without_comments(path.read_text('utf8'))
        try:
            if ghost := UNKNOWN_GHOST.search(text):
                raise ValueError(f'line {text.count(chr(10), 0, ghost.start()) + 1}: tests/believed does not read `{ghost.group()}`')
            public_file = path in public
            found.append(Source(path, imports_of(text), functions_of(text, public_file) + members_of(text, public_file)))
        except ValueError as error:
            raise SystemExit(f'believed: {folder.parent.name}: src/{path.relative_to(folder)}: {error}') from error
    return found
