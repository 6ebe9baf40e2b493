"""Files of properties (docs/BENCH.md): claims in Verilog over the nets of a circuit's ports, one in a line, among further lines.

The text is Verilog of others. So nothing is taken from it that could make the module around the circuit another one, and nothing
that yosys reads otherwise than a simulator: what is left means the same wherever it stands.
"""
import re
from dataclasses import dataclass, field

import builds

CLAIM = re.compile(r"\s*(assert|assume)\s+([A-Za-z_]\w*)\s*:\s*(.*?)\s*;?\s*", re.A)
BEGINS_CLAIM = re.compile(r"\s*(assert|assume)\b", re.A)
FORM = "the form of this line is `assert NAME: EXPRESSION` or `assume NAME: EXPRESSION`"
# Comments and strings, which may hold anything, before all other tokens.
TOKEN = re.compile(r"""(?P<comment>//.*|/\*.*?\*/)|(?P<open>/\*)|(?P<string>"(?:\\.|[^"\\])*")|[$A-Za-z_][\w$]*|\d[\w']*|\(\*(?!\s*\))|\S""", re.A)
BRACKETS = {"(": ")", "[": "]", "{": "}"}
# What ends the module, claims something without a name, or is another world beside the one of registers and gates.
REFUSED = {
    **dict.fromkeys(("assert", "assume", "cover", "restrict", "property", "expect"), "`{}`: a claim is a line `assert NAME: EXPRESSION`"),
    **dict.fromkeys("module macromodule endmodule primitive package interface program checker class bind config".split(),
                    "`{}`: all lines stand in one module"),
    **dict.fromkeys("force release defparam fork wait forever specify tri0 tri1 triand trior trireg wand wor supply0 supply1"
                    " unique unique0 priority always_latch".split(), "`{}` is not taken here"),
    "#": "delays and parameters of parts are not taken here",
    "`": "directives are not taken here",
    "\\": "escaped names are not taken here",
    "(*": "attributes are not taken here",
}
ALWAYS = "an `always` is `always @(posedge clk)`, or `always @*`"
NAME = re.compile(r"[A-Za-z_][\w$]*", re.A)
# Words behind which names are declared, and other words of statements in a function.
DECLARES = frozenset("input output inout reg logic bit byte shortint int longint integer time real signed unsigned".split())
WORDS = DECLARES | frozenset("function automatic begin end if else case casez casex endcase default for while repeat return void".split())
EDGES = (["@", "(", "posedge", "clk", ")"], ["@", "*"], ["@", "(", "*", ")"])


@dataclass
class Claim:
    """A claim: its name, its expression in Verilog, and its line, which is 0 where it is no user's."""

    name: str
    expression: str
    line: int = 0


@dataclass
class Properties:
    """What is assumed and what is asserted, by line, and the lines of the file without comments and without these."""

    file: str = ""
    assumed: list = field(default_factory=list)
    asserted: list = field(default_factory=list)
    lines: list = field(default_factory=list)

    def wrong(self, number, said):
        """What is wrong with a line, as an error."""
        return builds.Wrong(f"{self.file}:{number}: {said}")


def blank(text):
    return " " * len(text)


def without_comments(found, text):
    """The lines of a text, with blanks for comments, and for each line that begins with `#`."""
    begun = 0
    for number, line in enumerate(text.split("\n"), 1):
        if begun:
            inner, ends, line = line.partition("*/")
            if not ends:
                yield ""
                continue
            line, begun = blank(inner + ends) + line, 0
        elif line.lstrip().startswith("#"):
            line = ""
        line = TOKEN.sub(lambda it: blank(it[0]) if it["comment"] else it[0], line)
        opened = next((it for it in TOKEN.finditer(line) if it["open"]), None)
        if opened:
            line, begun = line[: opened.start()], number
        yield line
    if begun:
        raise found.wrong(begun, "the comment that begins here has no end")


def tokens_of(line):
    return [it[0] for it in TOKEN.finditer(line)]


def is_whole(tokens):
    """Whether an expression ends where it stands: its brackets are closed in turn, and no `;` ends it."""
    waiting = []
    for token in tokens:
        if token in BRACKETS:
            waiting.append(BRACKETS[token])
        elif token in BRACKETS.values() and (not waiting or waiting.pop() != token):
            return False
    return not waiting and ";" not in tokens


def refuse(found, number, tokens):
    """Refuses what isn't taken in a line, whatever stands around it."""
    for token in tokens:
        if token in REFUSED:
            raise found.wrong(number, REFUSED[token].format(token))
        if token == '"' or not (token.isascii() and token.isprintable()):
            raise found.wrong(number, f"{token!r} isn't Verilog")


def refuse_other_edges(found, tokens):
    """Refuses each `always` that yosys and a simulator could read as two things."""
    for at, (number, token) in enumerate(tokens):
        following = [it for _, it in tokens[at + 1 : at + 6]]
        edges = EDGES[:1] if token == "always_ff" else EDGES
        if token in ("always", "always_ff") and not any(following[: len(it)] == it for it in edges):
            raise found.wrong(number, ALWAYS)


def bodies(tokens):
    """Each `always` at an edge: its tokens, up to the end of its one statement."""
    for at, (_, token) in enumerate(tokens):
        if token not in ("always", "always_ff") or [it for _, it in tokens[at + 1 : at + 4]] != ["@", "(", "posedge"]:
            continue
        depth, body = 0, []
        for place, (number, inner) in enumerate(tokens[at + 6 :], at + 6):
            depth += (inner in ("begin", "case", "casez", "casex", "(")) - (inner in ("end", "endcase", ")"))
            body.append((number, inner, depth))
            following = tokens[place + 1][1] if place + 1 < len(tokens) else ""
            if inner in (";", "end", "endcase") and depth == 0 and following != "else":
                break
        yield body


def refuse_races(found, tokens):
    """Refuses what takes its value at an edge before others have read it, or behind: that depends on the simulator."""
    for body in bodies(tokens):
        inside = 0
        for (_, before, _), (number, token, _), (_, behind, _) in zip(body, body[1:], body[2:]):
            inside += (before == "(") - (before == ")")
            if token == "=" and not inside and before not in tuple("<>=!") and behind != "=":
                raise found.wrong(number, "in `always @(posedge clk)` a register takes its value by `<=`")


def function_names(tokens):
    """The names that are declared within a function, its own among them."""
    found, declares, depth = set(), True, 0
    for _, token in tokens:
        depth += (token == "[") - (token == "]")
        declares = token in DECLARES or declares and token not in (";", "(", ")", "=")
        if declares and not depth and NAME.fullmatch(token):
            found.add(token)
    return found


def constants(tokens):
    """The names of parameters and of functions."""
    found, declares = set(), ""
    for (_, token), (_, following) in zip(tokens, tokens[1:]):
        declares = token if token in ("localparam", "parameter", "function") else declares if token != ";" else ""
        if declares and following in (("(", ";") if declares == "function" else ("=",)) and NAME.fullmatch(token):
            found.add(token)
    return found


def refuse_functions(found, tokens):
    """Refuses functions that read what isn't given to them: a simulator that waits for a change of their arguments doesn't see it."""
    known, begun = constants(tokens) | WORDS, 0
    for at, (_, token) in enumerate(tokens):
        begun = at + 1 if token == "function" else begun
        inside = tokens[begun:at] if token == "endfunction" else []
        own = known | function_names(inside)
        for (_, before), (number, name) in zip(inside, inside[1:]):
            if NAME.fullmatch(name) and name not in own and before not in ("'", "."):
                raise found.wrong(number, f"`{name}` isn't given to the function: it reads its arguments alone")


def read(name, taken=()):
    """The properties of a file, whose claims have no name twice, and none that is taken."""
    found = Properties(name)
    places = {}
    for number, line in enumerate(without_comments(found, builds.read_text(name)), 1):
        claim = CLAIM.fullmatch(line)
        if BEGINS_CLAIM.match(line):
            if not claim or not claim[3] or not is_whole(tokens_of(claim[3])):
                raise found.wrong(number, FORM)
            if claim[2] in taken:
                raise found.wrong(number, f"`{claim[2]}` is a name of gos-formal's own: a claim has another one")
            if claim[2] in places:
                raise found.wrong(number, f"`{claim[2]}` is the name of the claim in line {places[claim[2]]}")
            places[claim[2]] = number
            (found.asserted if claim[1] == "assert" else found.assumed).append(Claim(claim[2], claim[3], number))
        refuse(found, number, tokens_of(claim[3] if claim else line))
        found.lines.append("" if claim else line.rstrip())
    tokens = [(number, token) for number, line in enumerate(found.lines, 1) for token in tokens_of(line)]
    refuse_other_edges(found, tokens)
    refuse_races(found, tokens)
    refuse_functions(found, tokens)
    return found
