"""What names mean: the scope of a file, and the declarations that a text refers to."""
from antt import BRACKETS, closing, outside_brackets


class Scope:
    """The names of a file. A meaning is a declaration, and whether the name is one of its constructors."""

    def __init__(self, find_module):
        self.find_module = find_module  # a path of modules, as a list, to the module's file, or None
        self.names = {}
        self.modules = {}
        self.operators = {}

    def add(self, name, declaration, constructor):
        self.names[name] = (declaration, constructor)
        # `◌++◌` is written `a ++ b`
        if '◌' in name:
            self.operators |= {part: (declaration, constructor) for part in name.split('◌') if part}

    def meaning(self, token):
        """What a name or a path means. In `a.b` the a is a module, a type with the constructor b, or a value with the field b."""
        first, *others = token.split('.')
        if others:
            return self.in_module(first, others) or self.names.get(first)
        return self.names.get(token) or self.operators.get(token)

    def in_module(self, first, others):
        start = self.modules.get(first, [first])
        for at, name in enumerate(others):
            file = self.find_module(start + others[:at])
            if file and (found := file.find(name)):
                return found
        return None


class References:
    """Gathers the declarations that a text refers to. A name that the text binds itself is no reference.

    `bound` is the set of names that are bound where the text is. `found` keeps the order of the text.
    """

    def __init__(self, scope):
        self.scope = scope
        self.found = {}

    def declaration(self, declaration, bound=frozenset()):
        """A whole declaration. The line `unfolding` says how it is checked, not what it means, and is not read."""
        bound = self.signature(declaration, bound)
        for part in declaration.parts:
            self.term(part.head, bound)
            if declaration.kind == 'record':
                bound = bound | {part.name}
        for clause in declaration.clauses:
            inside = bound | {helper.name for helper in clause.helpers} | self.pattern(clause.left)
            self.term(clause.right, inside)
            for helper in clause.helpers:
                self.declaration(helper, inside)

    def signature(self, declaration, bound=frozenset()):
        """A signature with the parameters of the blocks around it; the names that are bound after it."""
        for parameters in declaration.context:
            bound = self.term(parameters, bound)
        after = self.term(declaration.head, bound)
        return after if declaration.parts else bound

    def pattern(self, tokens):
        """The names that a pattern binds. Its constructors are references."""
        bound = set()
        for at, token in enumerate(tokens):
            if is_name(token) and tokens[at + 1 : at + 2] != ['=']:
                declaration, constructor = self.scope.meaning(token) or (None, False)
                if constructor or (declaration and '.' in token):
                    self.found[declaration] = True
                else:
                    bound.add(token)
        return bound

    def term(self, tokens, bound):
        """A term or a type; the names that are bound at its end."""
        bound, lets, at = set(bound), [], 0
        while at < len(tokens):
            token = tokens[at]
            if token in BRACKETS:
                end = closing(tokens, at)
                bound |= self.group(token, tokens[at + 1 : end], bound, tokens[end + 1 : end + 2] == ['←'])
                at = end + 1
            elif token == 'λ':
                at = self.binders(tokens, at + 1, bound)
            elif token == 'let':
                at = self.let(tokens, at + 1, bound, lets)
            elif token == 'in' and lets:
                bound |= lets.pop()
                at += 1
            elif tokens[at + 1 : at + 2] == ['←']:
                bound.add(token)
                at += 1
            else:
                self.name(token, bound)
                at += 1
        return bound

    def name(self, token, bound):
        if token in ('do', '←'):
            self.found |= {self.scope.names[name][0]: True for name in ('◌>>=◌', '◌>>◌') if name in self.scope.names}
        elif is_name(token) and token.split('.')[0] not in bound:
            if meaning := self.scope.meaning(token):
                self.found[meaning[0]] = True

    def group(self, bracket, inside, bound, is_pattern):
        """What is in brackets: `(x : T)`, which binds x after it, a pattern before `←`, cases, or fields, or a term."""
        if is_pattern:
            return self.pattern(inside)
        names, type_of = binder(inside)
        if names:
            self.term(type_of, bound)
            return names
        if bracket == '{':
            self.fields(inside, bound)
        elif bracket == '[':
            self.cases(inside, bound)
        else:
            self.term(inside, bound)
        return set()

    def fields(self, tokens, bound):
        """`{ x = e; y = f }`, or `{ x : A; y : B x }`, where later types may speak of x."""
        for piece in split(tokens, ';'):
            if piece[1:2] == [':']:
                self.term(piece[2:], bound)
                bound = bound | {piece[0]}
            else:
                self.term(piece[2:] if piece[1:2] == ['='] else piece, bound)

    def cases(self, tokens, bound):
        """`[ pattern ↦ term | … ]`."""
        for piece in split(tokens, '|'):
            left, *right = split(piece, '↦')
            if right:
                self.term(right[0], bound | self.pattern(left))
            else:
                self.term(left, bound)

    def binders(self, tokens, at, bound):
        """The binders of a λ, from a place up to the dot, which are added to the bound names; the place after the dot."""
        while tokens[at] != '.':
            if tokens[at] in BRACKETS:
                end = closing(tokens, at)
                names, type_of = binder(tokens[at + 1 : end])
                self.term(type_of, bound)
                bound |= names or self.pattern(tokens[at + 1 : end])
                at = end
            else:
                bound.add(tokens[at])
            at += 1
        return at + 1

    def let(self, tokens, at, bound, lets):
        """`let p : T = e in …`, from p on; the place of e. The names of p are bound after the `in`, or here where a `do` has none."""
        places = [place for place in outside_brackets(tokens, at) if tokens[place] in (':', '=', 'let', 'in')]
        equals = next(place for place in places if tokens[place] == '=')
        colon = next((place for place in places if tokens[place] == ':' and place < equals), equals)
        self.term(tokens[colon + 1 : equals], bound)
        names = self.pattern(tokens[at:colon])
        words = [tokens[place] for place in places]
        if words.count('in') > words.count('let'):
            lets.append(names)
        else:
            bound |= names
        return equals + 1


def is_name(token):
    return token[0] not in '(){}.;,@"«»'


def binder(tokens):
    """The names of `x y : T`, and T; no names where the tokens are no binder."""
    if ':' in tokens and ';' not in tokens:
        colon = tokens.index(':')
        if all(is_name(token) and token not in ('let', 'λ', 'elim', '=') for token in tokens[:colon]):
            return set(tokens[:colon]), tokens[colon + 1 :]
    return set(), []


def split(tokens, sign):
    """The pieces between signs that are in no bracket."""
    pieces, start = [], 0
    for at in outside_brackets(tokens):
        if tokens[at] == sign:
            pieces.append(tokens[start:at])
            start = at + 1
    return pieces + [tokens[start:]]
