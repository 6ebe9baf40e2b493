"""Sources: modules that have a type, by a random walk through the rules of types; and texts that are changed or extreme.

A type is `('com',)`, `('exp', W)`, `('var', W)`, `('pair', A, B)` or `('fun', A, B)`.
"""

import re

import changes
from case import command, lines

COM = ('com',)
# Of so many imports those that are there are used again.
MANY = 50
WIDTHS = (1, 1, 2, 8, 8, 16, 32, 63, 64)
# The widths of indexes: an array has 2, 4, 8 or 16 numbers.
INDEXES = (1, 1, 2, 3, 4)
TOKEN = re.compile(rb'[A-Za-z_]\w*|[0-9]+|:=|->|\|\||\S')
SOME_TOKENS = b'import export fun fst snd if then else while do new in skip not com exp var ( ) [ ] , . : ; := || | & + - = < ! * -> x 1 8'.split()


def ground(choose):
    return choose.choice((COM, ('exp', choose.choice(WIDTHS)), ('var', choose.choice(WIDTHS))))


def any_type(choose, depth=2):
    """A type, most often a ground one."""
    if depth == 0 or choose.random() < 0.7:
        return ground(choose)
    return (choose.choice(('fun', 'pair')), any_type(choose, depth - 1), any_type(choose, depth - 1))


def type_text(kind):
    """The text of a type. What stands before an arrow or a star is in brackets where it needs them."""
    if len(kind) < 3:
        return ' '.join(map(str, kind))
    first, second = type_text(kind[1]), type_text(kind[2])
    if len(kind[1]) == 3:
        first = f'({first})'
    if kind[0] == 'pair' and kind[2][0] == 'fun':
        second = f'({second})'
    return f'{first} {"*" if kind[0] == "pair" else "->"} {second}'


class Writer:
    """Writes terms of given types. Names that are missing become imports of the module. A careless one breaks rules of types."""

    def __init__(self, choose, prefix='', careless=False):
        self.choose, self.prefix, self.careless = choose, prefix, careless
        self.imports = []
        self.binders = 0

    def imported(self, kind):
        """A new import of this type; or where there are many one that is there, and a careless one any, or none at all."""
        if self.careless and self.choose.randrange(6) == 0:
            return self.choose.choice([name for name, _ in self.imports] + [f'{self.prefix}i0'])
        same = [name for name, its in self.imports if its == kind] if len(self.imports) >= MANY else []
        if same:
            return self.choose.choice(same)
        self.imports.append((f'{self.prefix}i{len(self.imports)}', kind))
        return self.imports[-1][0]

    def bound(self):
        self.binders += 1
        return f'x{self.binders}'

    def apart(self, scope):
        """A scope as two that share nothing."""
        if self.careless and self.choose.randrange(2):
            return scope, scope
        left = {name for name, _ in scope if self.choose.randrange(2)}
        return [it for it in scope if it[0] in left], [it for it in scope if it[0] not in left]

    def leaf(self, kind, scope):
        """The smallest term of a type: a name, or where there is none a literal, or an import."""
        names = [name for name, its in scope if its == kind]
        if names and self.choose.randrange(4):
            return self.choose.choice(names)
        if kind == COM and self.choose.randrange(2):
            return 'skip'
        if kind[0] == 'exp' and self.choose.randrange(3):
            return f'{self.choose.randrange(2 ** kind[1])}:{kind[1]}'
        if kind[0] in ('fun', 'pair'):
            return self.of_shape(kind, scope, 0)
        return self.choose.choice(names) if names else self.imported(kind)

    def term(self, kind, scope, size):
        """A term of this type and about this size, in brackets where it is no atom."""
        if self.careless and self.choose.randrange(30) == 0:
            kind = any_type(self.choose)
        if size <= 1:
            return self.leaf(kind, scope)
        ways = [self.applied, self.side]
        if kind[0] == 'var' and self.arrays(kind, scope):
            ways += [self.accessed] * 4
        if kind[0] in ('com', 'exp'):
            ways += [self.sequence, self.branch, self.local] * 2 + [self.block]
        ways += {'com': [self.beside, self.loop, self.assigned] * 3, 'exp': [self.operated] * 5 + [self.read] * 2}.get(kind[0], [])
        if kind[0] in ('fun', 'pair'):
            ways += [self.of_shape] * 6
        return f'({self.choose.choice(ways)(kind, scope, size - 1)})'

    def of_shape(self, kind, scope, size):
        """A function or a pair, written as one."""
        if kind[0] == 'fun':
            name = self.bound()
            return f'(fun {name} : {type_text(kind[1])} . {self.term(kind[2], scope + [(name, kind[1])], size)})'
        return f'({self.term(kind[1], scope, size // 2)}, {self.term(kind[2], scope, size // 2)})'

    def applied(self, kind, scope, size):
        given = any_type(self.choose, 1)
        left, right = self.apart(scope)
        return f'{self.term(("fun", given, kind), left, size // 2)} {self.term(given, right, size // 2)}'

    def side(self, kind, scope, size):
        other = any_type(self.choose, 1)
        if self.choose.randrange(2):
            return f'fst {self.term(("pair", kind, other), scope, size)}'
        return f'snd {self.term(("pair", other, kind), scope, size)}'

    def sequence(self, kind, scope, size):
        return f'{self.term(COM, scope, size // 2)} ; {self.term(kind, scope, size // 2)}'

    def branch(self, kind, scope, size):
        test, size = self.term(('exp', 1), scope, size // 3), size // 3
        return f'if {test} then {self.term(kind, scope, size)} else {self.term(kind, scope, size)}'

    def local(self, kind, scope, size):
        name, width = self.bound(), self.choose.choice(WIDTHS)
        return f'new {name} : {width} in {self.term(kind, scope + [(name, ("var", width))], size)}'

    def block(self, kind, scope, size):
        """A block with an array. Most often a number of it is written at first."""
        name, width, index = self.bound(), self.choose.choice(WIDTHS), self.choose.choice(INDEXES)
        scope, size = scope + [(name, ('fun', ('exp', index), ('var', width)))], size // 2
        written = ''
        if self.choose.randrange(4):
            written = f'{name} {self.term(("exp", index), scope[:-1], size // 2)} := {self.term(("exp", width), scope, size // 2)} ; '
        return f'new {name}[{2 ** index}] : {width} in {written}{self.term(kind, scope, size)}'

    def arrays(self, kind, scope):
        """The names of arrays in a scope whose numbers are variables of this type, and the types of their indexes."""
        return [(name, its[1]) for name, its in scope if its[0] == 'fun' and its[1][0] == 'exp' and its[2] == kind]

    def accessed(self, kind, scope, size):
        """A number of an array."""
        name, index = self.choose.choice(self.arrays(kind, scope))
        return f'{name} {self.term(index, [it for it in scope if it[0] != name], size // 2)}'

    def beside(self, _, scope, size):
        left, right = self.apart(scope)
        return f'{self.term(COM, left, size // 2)} || {self.term(COM, right, size // 2)}'

    def loop(self, _, scope, size):
        return f'while {self.term(("exp", 1), scope, size // 2)} do {self.term(COM, scope, size // 2)}'

    def assigned(self, _, scope, size):
        width = self.choose.choice(WIDTHS)
        return f'{self.term(("var", width), scope, size // 3)} := {self.term(("exp", width), scope, size // 2)}'

    def read(self, kind, scope, size):
        arrays = self.arrays(('var', kind[1]), scope)
        if arrays and self.choose.randrange(3):
            return f'!({self.accessed(("var", kind[1]), scope, size)})'
        return f'!{self.term(("var", kind[1]), scope, size // 2)}'

    def operated(self, kind, scope, size):
        if self.choose.randrange(6) == 0:
            return f'not {self.term(kind, scope, size)}'
        width, sign = kind[1], self.choose.choice('+-&|^')
        if width == 1 and self.choose.randrange(2):
            width, sign = self.choose.choice(WIDTHS), self.choose.choice('=<')
        return f'{self.term(("exp", width), scope, size // 2)} {sign} {self.term(("exp", width), scope, size // 2)}'


def module(choose, kind, size, prefix='', careless=False):
    """The text of a module of this type, and its imports by name and type."""
    writer = Writer(choose, prefix, careless)
    body = writer.term(kind, [], size)
    imports = ''.join(f'import {name} : {type_text(its)}\n' for name, its in writer.imports)
    return f'{imports}export {body} : {type_text(kind)}\n'.encode(), writer.imports


def tokens_changed(choose, text):
    """A source in which a token goes, comes, or becomes another."""
    places = list(TOKEN.finditer(text))
    if not places:
        return text
    place, other = choose.choice(places), choose.choice([choose.choice(places)[0], choose.choice(SOME_TOKENS)])
    new = choose.choice([b'', other, place[0] + b' ' + other, other + b' ' + place[0]])
    return text[:place.start()] + b' ' + new + b' ' + text[place.end():]


def nested(choose):
    """A source of forms within forms, at the limit of open tokens or of weight, or past it."""
    many = choose.choice((10, 100, 200, 255, 256, 300, 340, 341, 342, 500, 505, 510, 511, 512, 1_000, 1_010, 1_021, 1_024, 1_030))
    before, inside, behind = choose.choice([
        ('(', 'skip', ')'), ('not ', '1:1', ''), ('fun x : com . ', 'skip', ''), ('new x : 1 in ', 'skip', ''), ('fst ', 'skip', ''),
        ('(skip, ', 'skip', ')'), ('while 1:1 do ', 'skip', ''), ('if 1:1 then ', 'skip', ' else skip'), ('skip ; ', 'skip', ''),
        ('skip || ', 'skip', ''), ('(1:8 + ', '1:8', ')'), ('1:8 + ', '1:8', ''), ('(fun x : com . x) (', 'skip', ')'), ('!', 'x', ''),
        ('x ', 'x', ''), ('if 1:1 then skip else ', 'skip', ''), ('((', 'skip', ') ; skip)'), ('fst (', 'skip', ', skip)'),
    ])
    kind = choose.choice(('com', 'exp 8', 'exp 1', '(' * many + 'com' + ')' * many, 'com -> ' * many + 'com', 'com * ' * many + 'com'))
    behind *= many if choose.randrange(8) else many - 1
    return f'export {before * many}{inside}{behind} : {kind if choose.randrange(3) == 0 else "com"}'.encode()


def imports(choose):
    """A source of as many imports as a module may have, or more, of large types or small ones."""
    many = choose.choice((63, 64, 65, 70))
    kind = choose.choice(('com', 'exp 8', 'var 8', ' * '.join(['com'] * choose.choice((63, 64, 65))), ' -> '.join(['var 1'] * 33)))
    names = [f'c{n}' for n in range(many)]
    return lines(*[f'import {name} : {kind}' for name in names], f'export {" ; ".join(names)} : com')


def heavy(choose):
    """A source of about the greatest weight, of commands in brackets: one after the other or side by side."""
    many, sign = choose.choice((25, 27, 28, 29, 30, 40)), choose.choice((' ; ', ' || '))
    group = '(' + sign.join(['skip'] * 28) + ')'
    return f'export {" ; ".join([group] * many)} : com'.encode()


def text(choose):
    """A source: one with a type, one that was changed, or an extreme one."""
    how = choose.randrange(24)
    if how < 3:
        extreme = choose.choice((nested, nested, imports, heavy))(choose)
        return changes.often_changed(choose, extreme, 0.3)
    if how == 3:
        return b' '.join(choose.choice(SOME_TOKENS) for _ in range(choose.randrange(40)))
    kind = any_type(choose) if choose.randrange(3) else choose.choice((COM, ('exp', 8)))
    size = choose.choice((1, 2, 4, 8, 16, 40, 120)) if choose.randrange(60) else choose.choice((400, 1_000, 4_000))
    right = module(choose, kind, size, careless=10 <= how < 15)[0]
    if how < 15:
        return right
    if how < 19:
        return tokens_changed(choose, right)
    return changes.changed(choose, right)


def case(choose):
    """A case of `check` or `compile`."""
    return command(choose.choice(('check main.gos', 'compile main.gos main.obj')), {'main.gos': text(choose)})
