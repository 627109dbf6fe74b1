"""Reads a file of definitions and laws (`.antt`): its imports, and its declarations with the lines that they have.

A form that this reader does not know is an error that names the line: nothing is passed over in silence.
"""
import re
from dataclasses import dataclass, field
from typing import NamedTuple

NAME = r'[^\s(){}.;,@"«»]+'
# A text, an escaped name, a field (`.x`), a name or a path (`a.b`), or one other character.
TOKEN = re.compile(rf'"(?:\\.|[^"\\])*"|«[^»]*»|\.{NAME}(?:\.{NAME})*|{NAME}(?:\.{NAME})*|\S')
COMMENT = re.compile(r'"(?:\\.|[^"\\])*"|\{-.*?-\}|(?<!\S)--[^\n]*', re.DOTALL)
# `use PATH`, `use PATH as NAME`, `use PATH.{a, b as c}`, also over several lines; with `ghost` and `;` in code.
IMPORT = re.compile(
    r'^[ \t]*(?:ghost |unfoldable )?(?P<pub>pub )?use\s+(?P<path>[^\s{;]+?)(?:\.\{(?P<names>[^}]*)\})?(?:\s+as\s+(?P<alias>[^\s;]+))?;?$',
    re.MULTILINE,
)
MODULE_LINE = re.compile(r'^(?:pub )?mod [^\s;]+;?$', re.MULTILINE)
MARKS = {'unfoldable', 'abbrev', 'pub', 'axiom'}
BRACKETS = {'(': ')', '{': '}', '[': ']'}


class Line(NamedTuple):
    number: int
    indent: int
    text: str


class Import(NamedTuple):
    """`use path.{names} as alias`. Each name comes with the name that it has here; without names the path is a module."""

    path: str
    names: list
    alias: str
    public: bool


@dataclass
class Clause:
    """A clause of a function: what is before its `=`, what is after it, and the functions of its `where`."""

    left: list
    right: list
    helpers: list


@dataclass(eq=False)
class Declaration:
    """A declaration. `head` is its signature after the name, `context` are the parameters of the blocks around it, both as tokens.
    `parts` are the fields of a record or the constructors of a data type, as declarations."""

    name: str
    kind: str  # record, data, function, law
    line: int
    head: list
    context: tuple = ()
    clauses: list = field(default_factory=list)
    parts: list = field(default_factory=list)
    count: int = 0
    file: object = None

    @property
    def is_law(self):
        return self.kind == 'law'

    def names(self):
        """The names that others can use: constructors too, but fields only after a dot."""
        return [self.name] + ([part.name for part in self.parts] if self.kind == 'data' else [])


def tokens_of(text):
    return TOKEN.findall(text)


def blank(match):
    """A piece of text without its characters: the lines after it keep their numbers."""
    return re.sub(r'[^\n]', '', match.group())


def without_comments(text):
    return COMMENT.sub(lambda match: match.group() if match.group().startswith('"') else blank(match), text)


def imports_of(text):
    found = []
    for match in IMPORT.finditer(text):
        names = None
        if match['names'] is not None:
            pairs = [name.split(' as ') for name in re.split(r'\s*,\s*', match['names'].strip()) if name]
            names = [(pair[0].strip(), pair[-1].strip()) for pair in pairs]
        found.append(Import(match['path'], names, match['alias'], bool(match['pub'])))
    return found


def lines_of(text):
    """The lines of declarations: without comments, imports, lines that name modules, and empty lines."""
    text = MODULE_LINE.sub(blank, IMPORT.sub(blank, without_comments(text)))
    lines = [Line(number, len(line) - len(line.lstrip()), line.strip()) for number, line in enumerate(text.split('\n'), 1)]
    return [line for line in lines if line.text]


def items_of(lines):
    """Cuts a block: each line at its left edge begins an item, deeper lines go on with it, and so does a closing bracket."""
    items = []
    for line in lines:
        if items and (line.indent > lines[0].indent or line.text[0] in ')}]'):
            items[-1].append(line)
        else:
            items.append([line])
    return items


def joined(lines):
    return tokens_of('\n'.join(line.text for line in lines))


def closing(tokens, at):
    """The place of the bracket that closes the one at a place."""
    depth = 0
    for place in range(at, len(tokens)):
        if tokens[place] in BRACKETS:
            depth += 1
        elif tokens[place] in BRACKETS.values():
            depth -= 1
            if depth == 0:
                return place
    raise ValueError(f'a bracket stays open: {" ".join(tokens[at : at + 8])}')


def outside_brackets(tokens, at=0):
    """The places from one on that are in no bracket."""
    while at < len(tokens):
        yield at
        at = closing(tokens, at) + 1 if tokens[at] in BRACKETS else at + 1


def signature(tokens):
    """The names that a signature declares and what follows its colon; None where the tokens are no signature."""
    names = []
    for at in outside_brackets(tokens):
        if tokens[at] == ':':
            return names, tokens[at + 1 :]
        levels = tokens[at] == '{' and tokens[closing(tokens, at) + 1 :][:1] == [':']
        if tokens[at] in ('=', '(', '[') or (tokens[at] == '{' and not levels):
            return None
        if not levels:
            names.append(tokens[at])
    return None


def split_marks(tokens):
    at = 0
    while tokens[at] in MARKS:
        at += 1
    return set(tokens[:at]), tokens[at:]


def split_where(lines):
    """The head of a block, which ends with a line that ends with `where`, and the lines below it."""
    for at, line in enumerate(lines):
        if line.text.split()[-1] == 'where':
            return lines[: at + 1], lines[at + 1 :]
    return lines, []


def parts_of(lines):
    """The fields of a record, or the constructors of a data type; a line may declare several."""
    parts = []
    for item in items_of(lines):
        marks, tokens = split_marks(joined(item))
        if tokens[0] == 'deriving':
            parts.append(Declaration(tokens[-1], 'part', item[0].number, []))
            continue
        names, head = signature(tokens) or wrong(item[0], 'a field or a constructor has no type')
        parts += [Declaration(name, 'part', item[0].number, head) for name in names]
    return parts


def wrong(line, why):
    raise ValueError(f'line {line.number}: {why}: {line.text}')


def clause_of(lines):
    body, below = split_where(lines)
    tokens = joined(body)
    if body is not lines:
        tokens = tokens[:-1]
    equals = next((at for at in outside_brackets(tokens) if tokens[at] == '='), None)
    if equals is None:
        wrong(lines[0], 'this is neither a signature nor a clause')
    return Clause(tokens[:equals], tokens[equals + 1 :], declarations(below))


def typed(item, context):
    """A record or a data type."""
    head, below = split_where(item)
    tokens = split_marks(joined(head))[1]
    if tokens[-1] == 'where':
        tokens = tokens[:-1]
    return Declaration(tokens[1], tokens[0], item[0].number, tokens[2:], context, [], parts_of(below), len(item))


def declared(item, context, outer_marks):
    """The declaration that an item begins, or None where it is a clause."""
    marks, tokens = split_marks(joined(item))
    if tokens[0] in ('record', 'data'):
        return typed(item, context)
    if tokens[0] == 'ruleset':
        return Declaration(tokens[1], 'law', item[0].number, [], context, count=len(item))
    found = signature(tokens)
    if not found:
        return None
    names, head = found
    if len(names) != 1:
        wrong(item[0], 'a signature declares one name')
    kind = 'function' if (marks | outer_marks) & {'unfoldable', 'abbrev'} else 'law'
    return Declaration(names[0], kind, item[0].number, head, context, count=len(item))


def declarations(lines, context=(), outer_marks=frozenset()):
    """The declarations of a block, those of inner blocks too. A fixity and the head of an inner block count with the declaration below."""
    found, waiting = [], 0
    for item in items_of(lines):
        marks, tokens = split_marks(joined(item))
        new = []
        if tokens[0] in ('infix', 'infixl', 'infixr'):
            waiting += len(item)
        elif tokens[0] == 'module':
            head, below = split_where(item)
            new = declarations(below, context + (joined(head)[2:-1],), outer_marks)
            waiting += len(head)
        elif tokens[0] == 'mutual':
            new = declarations(item[1:], context, outer_marks | marks)
            waiting += 1
        elif tokens[0] == 'open':
            wrong(item[0], 'tests/believed does not read `open`')
        elif tokens[0] == 'unfolding':
            if found:
                found[-1].count += len(item)
            else:
                waiting += len(item)
        elif declaration := declared(item, context, outer_marks):
            new = [declaration]
        elif not found:
            wrong(item[0], 'a clause without a signature')
        else:
            found[-1].clauses.append(clause_of(item))
            found[-1].count += len(item)
        if new:
            new[0].count += waiting
            waiting = 0
            found += new
    return found


def first_sentence(text):
    """The first sentence of the comment at the front of a file."""
    lines = []
    for line in text.split('\n'):
        if not line.startswith('--'):
            break
        lines.append(line[2:].strip())
    return re.split(r'\.(?:\s|$)', ' '.join(lines), maxsplit=1)[0]
