"""The tokens and the grammar of the language (docs/LANGUAGE.md), and which tokens may follow others: what tools/hints.py reads.

The grammar is predictive: the next token alone decides which alternative is taken. So the tokens that may follow are read off
the symbols that are still to come.
"""
import re
from dataclasses import dataclass

WORDS = "import export fun fst snd if then else while do new in skip not com exp var".split()
TOKEN = re.compile(rb"[ \t\r\n]+|#[^\n]*|(?P<name>[A-Za-z_][A-Za-z0-9_]*)|(?P<numeral>[0-9]+)|(?P<sign>:=|\|\||->|[()\[\],.:;|&^+\-=<!*])")

# Each rule's alternatives, as their symbols; the other symbols are tokens. `name` and `numeral` are any of these.
GRAMMAR = {
    "module": ["import name : type module", "export term : type"],
    "type": ["prod arrow"],
    "arrow": ["-> type", ""],
    "prod": ["base times"],
    "times": ["* prod", ""],
    "base": ["com", "exp numeral", "var numeral", "( type )"],
    "term": ["fun name : type . term", "new name long : numeral in term", "par then_term"],
    "long": ["[ numeral ]", ""],
    "then_term": ["; term", ""],
    "par": ["cmd beside"],
    "beside": ["|| par", ""],
    "cmd": ["if term then cmd else cmd", "while term do cmd", "rel assigned"],
    "assigned": [":= rel", ""],
    "rel": ["bits compared"],
    "compared": ["= bits", "< bits", ""],
    "bits": ["sum more_bits"],
    "more_bits": ["& sum more_bits", "| sum more_bits", "^ sum more_bits", ""],
    "sum": ["app more_sum"],
    "more_sum": ["+ app more_sum", "- app more_sum", ""],
    "app": ["pre arguments"],
    "arguments": ["pre arguments", ""],
    "pre": ["not pre", "! pre", "fst pre", "snd pre", "atom"],
    "atom": ["skip", "numeral : numeral", "name", "( term second )"],
    "second": [", term", ""],
}
RULES = {rule: [it.split() for it in alternatives] for rule, alternatives in GRAMMAR.items()}


@dataclass(frozen=True)
class Token:
    """A token of a source: its kind (itself for words and signs, else `name` or `numeral`), its text and its place in bytes."""

    kind: str
    text: str
    start: int
    stop: int


def tokens_of(data, stop=None, start=0):
    """The tokens of a source that begin in `start..stop`; and the place of the first byte there with which none begins, or none."""
    found, at, stop = [], start, len(data) if stop is None else stop
    while at < stop:
        token = TOKEN.match(data, at)
        if not token:
            return found, at
        if token.lastgroup:
            text = token[0].decode()
            kind = text if token.lastgroup == "sign" or text in WORDS else token.lastgroup
            found.append(Token(kind, text, token.start(), token.end()))
        at = token.end()
    return found, None


def first(symbol):
    """The tokens with which a symbol may begin; the empty text where it may be nothing."""
    if symbol not in RULES:
        return {symbol}
    return set().union(*(first(it[0]) if it else {""} for it in RULES[symbol]))


FIRST = {rule: first(rule) for rule in RULES}


def following(stack):
    """The kinds of tokens that may come next, where these symbols are still to come, the last one first."""
    found = set()
    for symbol in reversed(stack):
        begins = FIRST.get(symbol, {symbol})
        found |= begins - {""}
        if "" not in begins:
            return found
    return found


def advance(stack, kind):
    """Takes a token of this kind, which may come next."""
    while True:
        symbol = stack.pop()
        if symbol == kind:
            return
        chosen = next((it for it in RULES[symbol] if it and kind in FIRST.get(it[0], {it[0]})), [])
        stack.extend(reversed(chosen))


def stack_behind(tokens):
    """The symbols that are still to come behind these tokens, the last one first; or none where they begin no module."""
    stack = ["module"]
    for token in tokens:
        if token.kind not in following(stack):
            return None
        advance(stack, token.kind)
    return stack
