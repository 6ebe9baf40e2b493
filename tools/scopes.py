"""Which binder a name of a source is bound by, and of which type it is there: what tools/gos-lsp says of a name.

A name is bound by an import, by `fun` or by `new`, and the innermost binder around it wins (docs/LANGUAGE.md, "Typing"). Where a
binder's term ends, the grammar says (tools/grammar.py): at the token with which the symbols that were to come before it are gone on
with. A text that is no module, as while one types, is read all the same, as if what is missing were there; a token that may not stand
in its place even so is passed over, as is a byte with which none begins.
"""
from dataclasses import dataclass, field

import grammar

BINDERS = ("import", "fun", "new")
OF_TYPE = {"com", "exp", "var", "numeral", "(", ")", "*", "->"}
# The symbols that are still to come behind the first word of `fun x : T . M` and of `new x : w in M`, where `x` may have a length.
BEHIND_BINDER = {"fun": 5, "new": 6}
# The lengths of arrays, each with the bits of its index.
LENGTHS = {2: 1, 4: 2, 8: 3, 16: 4}
# What begins a term and no operand, and what goes on with a form.
FORMS, GOES_ON = {"if", "while", "fun", "new"}, {")", "then", "else", "do"}


@dataclass(frozen=True)
class Binder:
    """What binds a name: `import`, `fun` or `new`, the token of the name there, and its type, empty where none is written."""

    word: str
    name: grammar.Token
    type: str


@dataclass
class Module:
    """The names of a source: its tokens, its imports by name, what binds the name at each byte where a bound one begins, and more.

    `export` is the token of that word, if there is one, and `type` the type that the module gives.
    """

    tokens: list
    imports: dict = field(default_factory=dict)
    bound: dict = field(default_factory=dict)
    export: grammar.Token = None
    type: str = ""

    def name_at(self, at):
        """The token of the name at a byte, or that ends just before it; or none."""
        return next((it for it in self.tokens if it.kind == "name" and it.start <= at <= it.stop), None)


def all_tokens(data):
    """The tokens of a text, without the bytes with which none begins."""
    found, at = grammar.tokens_of(data)
    while at is not None:
        more, at = grammar.tokens_of(data, start=at + 1)
        found += more
    return found


def type_at(tokens, at):
    """The text of the type whose first token has this number."""
    words = []
    while at < len(tokens) and tokens[at].kind in OF_TYPE:
        words.append(tokens[at].text)
        at += 1
    return " ".join(words).replace("( ", "(").replace(" )", ")")


def binder_at(tokens, at):
    """The binder whose first word has this number, or none where no name stands behind it."""
    if [it.kind for it in tokens[at + 1:at + 2]] != ["name"]:
        return None
    behind = tokens[at + 2:at + 5]
    length = LENGTHS.get(int(behind[1].text)) if [it.kind for it in behind] == ["[", "numeral", "]"] else 0
    colon = at + 2 if length == 0 else at + 5
    has_type = [it.kind for it in tokens[colon:colon + 1]] == [":"] and length is not None
    written = type_at(tokens, colon + 1) if has_type else ""
    if tokens[at].kind == "new" and written:
        written = f"exp {length} -> var {written}" if length else f"var {written}"
    return Binder(tokens[at].kind, tokens[at + 1], written)


def mended(stack, kind):
    """The symbols that are still to come where a token of this kind may stand that may not: of a form that lacks its brackets, as if it
    had them; of a word or sign that goes on with what is open, as if nothing were missing before it. Else the same ones."""
    if kind in ("import", "export"):
        return ["module"]
    if kind in FORMS and "(" in grammar.following(stack):
        bracketed = list(stack)
        grammar.advance(bracketed, "(")
        return [*bracketed[:-3], "term"] if bracketed[-1] == "term" else stack
    if kind in GOES_ON and kind in stack:
        last = len(stack) - 1 - stack[::-1].index(kind)
        return stack[:last + 1] if ")" not in stack[last + 1:] else stack
    return stack


def take(stack, kind):
    """Takes a token of this kind, where symbols are still to come; whether it could be taken."""
    if kind not in grammar.following(stack):
        stack[:] = mended(stack, kind)
    if kind not in grammar.following(stack):
        return False
    grammar.advance(stack, kind)
    return True


def module_of(data):
    """The names of a source, given as its bytes."""
    return read(all_tokens(data))[0]


@dataclass
class Place:
    """A place in a source: what binds each name that may stand there, and the kinds of tokens that may."""

    names: dict
    kinds: set


def place_of(data, at):
    """The place at a byte, where a token is about to be written."""
    tokens = all_tokens(data[:at])
    _, stack, _, own = read(tokens)
    if own or tokens and tokens[-1].kind in BINDERS:
        return Place({}, {"name"})
    # (a name there ends the scopes that any token of a term would end)
    module, _, scopes, _ = read([*tokens, grammar.Token("name", "", at, at)])
    return Place({**module.imports, **{it.name.text: it for _, it in scopes}}, grammar.following(stack))


def read(tokens):
    """The names of a source's tokens; and behind the last one the symbols that are still to come, the scopes that are open, each with its
    binder, and the binder whose name comes next, if one does."""
    module = Module(tokens)
    stack, scopes, own = ["module"], [], None
    for at, token in enumerate(module.tokens):
        may_stand = take(stack, token.kind)
        while scopes and len(stack) <= scopes[-1][0]:
            scopes.pop()
        if token.kind == "name":
            inner = (it for _, it in reversed(scopes) if it.name.text == token.text)
            binder = own or next(inner, None) or module.imports.get(token.text)
            module.bound.update({token.start: binder} if binder else {})
        own = binder_at(module.tokens, at) if token.kind in BINDERS else None
        if own and own.word == "import":
            module.imports.setdefault(own.name.text, own)
        elif own:
            scopes.append((len(stack) - (BEHIND_BINDER[own.word] if may_stand else 1), own))
        elif token.kind == "export":
            module.export = module.export or token
        elif token.kind == ":":
            module.type = type_at(module.tokens, at + 1)
    return module, stack, scopes, own
