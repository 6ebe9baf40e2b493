"""What is meant by the commonest mistakes: the hints of tools/gos-where, each a line below the fault's place.

`hints_of` takes a fault's code and words and the file in which it is. What a fault of a source is about is told from the tokens
around its place; that of a build file from the lines before it; that of a pulse file from the netlist that is run.
"""
import difflib
import re
from dataclasses import dataclass, field
from pathlib import Path

import grammar
import ports
import scopes

NAME, FILE = re.compile(r"[A-Za-z_][A-Za-z0-9_]{0,254}"), re.compile(r"[A-Za-z0-9_.\-/]{1,255}")
ARGUMENT = grammar.FIRST["pre"]
OPERATORS = set("+-&|^=<")
# What begins a term and no operand, and so wants brackets where an operand stands.
FORMS = {"if", "while", "fun", "new"}


def listed(items):
    """Some texts as a list in words: `a, b or c`."""
    *most, last = items
    return f"{', '.join(most)} or {last}" if most else last


def ticked(items):
    return listed([f"`{it}`" for it in items])


@dataclass
class Place:
    """A place in a source: the tokens before it, the one there (none at the end), those behind, and its byte."""

    data: bytes
    at: int
    before: list = field(init=False)
    here: grammar.Token = field(init=False)
    behind: list = field(init=False)

    def __post_init__(self):
        tokens, _ = grammar.tokens_of(self.data)
        self.before = [it for it in tokens if it.start < self.at]
        rest = [it for it in tokens if it.start >= self.at]
        self.here, self.behind = (rest or [None])[0], rest[1:]

    @property
    def kind(self):
        return self.here.kind if self.here else "the end"

    def last(self, count=1):
        """The kind of the token that stands so many before the place, or nothing."""
        return self.before[-count].kind if len(self.before) >= count else ""

    def touches(self):
        """Whether the token here stands directly behind the one before."""
        return bool(self.here and self.before) and self.before[-1].stop == self.here.start

    def line_and_column(self, token):
        return f"{self.data.count(bytes([10]), 0, token.start) + 1}:{token.start - self.data.rfind(bytes([10]), 0, token.start)}"


# Faults of the text.


def may_stand(may):
    """The tokens of a set in words, those of a term, an argument and an operator as one."""
    said, left = [], set(may)
    for whole, name in ((grammar.FIRST["term"], "a term"), (ARGUMENT, "an argument" if "+" in may else "an operand"), (OPERATORS, "an operator")):
        if whole <= left:
            said.append(name)
            left -= whole
    order = [it for it in ("name", "numeral") if it in left] + sorted(left - {"name", "numeral"})
    names = {"name": "a name", "numeral": "a number"}
    return listed(said + [names.get(it, f"`{it}`") for it in order])


TWO_SIGNS = {
    "<=": "there is no `<=`: `a <= b` is `not (b < a)`",
    "<<": "there is no `<<`: `x + x` is `x` one bit further to the left",
    "==": "one `=` compares, and `:=` writes",
    "!=": "there is no `!=`: `a != b` is `not (a = b)`",
    "&&": "one `&` does it: it takes each bit of two numbers of one width",
    "->": "a function's type is `A -> B`, and no part of a term",
}
NO_WIDTH = "a number in a term has its width behind it: `{0}:8` is {0} in 8 bits"


def open_bracket(place):
    """The innermost bracket that is open at a place, or none."""
    stack = []
    for token in place.before:
        if token.kind == "(":
            stack.append(token)
        elif token.kind == ")" and stack:
            stack.pop()
    return stack[-1] if stack else None


def meant_by_syntax(place, may, stack):
    """What is meant where a token stands that may not: the first of the commonest mistakes that it could be, or nothing."""
    kind, last, text = place.kind, place.last(), place.here.text if place.here else ""
    whole = all("" in grammar.FIRST.get(it, ()) for it in stack)
    if may == {"name"} and kind in grammar.WORDS:
        return f"`{kind}` is a word of the language, and no name"
    if may == {"name"} and last == "fun":
        return "a parameter stands without brackets: `fun x : com . ..`"
    if kind == ";" and "import" in may:
        return "no sign ends an import: leave the `;` out"
    if kind == "," and place.last(2) == "import":
        return "each import has its own `import` and type: `import a : com`, `import b : com`"
    if last == "numeral" and may == {":"}:
        number = place.before[-1].text
        return "numbers are decimal: `16:8` is 16 in 8 bits" if place.touches() and text[:1] in "xXbB_" else NO_WIDTH.format(number)
    if last == ":" and place.last(2) == "numeral" and may == {"numeral"}:
        return NO_WIDTH.format(place.before[-2].text)
    if may == {"numeral"} and last in ("exp", "var"):
        return f"`{last}` has its bits behind it: `{last} 8`"
    if place.touches() and last + kind in TWO_SIGNS:
        return TWO_SIGNS[last + kind]
    if last == ";" and kind not in ARGUMENT | FORMS:
        return "`;` stands between two commands, and none behind the last one"
    return meant_by_term(place, may, stack, kind, last) or meant_by_module(kind, may, whole, place.before)


def meant_by_term(place, may, stack, kind, last):
    """The mistakes within a term."""
    if kind in FORMS and "(" in may:
        return f"`{kind}` wants brackets here: `({kind} ..)`"
    if kind == "-" and kind not in may:
        return "no number has a sign: `0:8 - x` is what `x` lacks to 256"
    if kind in ("=", "<") and "&" in may:
        return "one comparison stands without brackets, and `&`, `|`, `^` bind tighter than it: `(a < b) & (c = d)`"
    if kind == "*":
        return "there is no multiplication: lib/mul.gos is a module that does it"
    if kind == ":=" and "in" in may:
        return "a local begins with 0, and is written as others are: `new x : 8 in (x := 1:8 ; ..)`"
    if kind == "[":
        return "a length stands behind the name of `new a[4] : 8 in ..`; docs/COOKBOOK.md has how a bit of a number is read"
    if ":" in may and may <= {":", "["} and place.last(2) in ("new", "fun"):
        return {"new": "a local has its bits: `new x : 8 in ..`", "fun": "a parameter has its type: `fun x : com . ..`"}[place.last(2)]
    if "else" in may and kind == ";":
        return "between `then` and `else` stands one command, so `;` wants brackets: `if b then (c ; d) else skip`"
    if "else" in may:
        return "each `if` has its `else`: `else skip` where a command is over then"
    if kind == ")" and ")" not in stack:
        return "no bracket is open here"
    if kind == ",":
        return "a pair stands in brackets: `(a, b)`"
    if ")" in may and kind in (":", "the end"):
        return f"the bracket at {place.line_and_column(open_bracket(place))} is still open"
    return ""


def meant_by_module(kind, may, whole, before):
    """The mistakes in a module as a whole."""
    if not before or "export" in may:
        return "a module is its imports, each `import NAME : TYPE`, and then `export TERM : TYPE`"
    if whole:
        return "behind its type a module is at its end: one file holds one"
    if kind == "the end" and ":" in may:
        return "the module's type is missing: `: com`"
    return ""


def of_syntax(data, values):
    """S1: what could stand there, and what is meant."""
    place = Place(data, int(values["AT"]))
    stack = grammar.stack_behind(place.before)
    if stack is None:
        return
    may = grammar.following(stack)
    ends = " or the end" if all("" in grammar.FIRST.get(it, ()) for it in stack) else ""
    yield f"here may stand {may_stand(may)}{ends}"
    yield meant_by_syntax(place, may, stack)


BYTES = {
    b"\xef\xbb\xbf": "the file begins with a byte order mark: have your editor save it as UTF-8 without one",
    b"\xff\xfe": "the file is UTF-16: have your editor save it as UTF-8 without a byte order mark",
    b"\xfe\xff": "the file is UTF-16: have your editor save it as UTF-8 without a byte order mark",
    b"//": "a comment begins with `#`", b"/*": "a comment begins with `#`, and ends with its line",
    b"/": "there is no division", b"%": "there is no remainder",
    b">>": "there is no `>>`: docs/COOKBOOK.md has shifts to the right", b">=": "there is no `>=`: `a >= b` is `not (a < b)`",
    b">": "there is no `>`: `a > b` is `b < a`",
    b"{": "brackets are `(` and `)`", b"}": "brackets are `(` and `)`",
    b"~": "all bits are turned by `not`", b"?": "a choice is `if b then x else y`", b"\\": "a function is `fun x : com . ..`",
    b'"': "there are no texts", b"'": "there are no texts, and no `'` in a name",
}


def of_byte(data, values):
    """L2: what is meant by a byte with which no token begins."""
    at = int(values["AT"])
    found = next((said for text, said in BYTES.items() if data.startswith(text, at)), "")
    if not found and data[at:at + 1] >= b"\x80":
        letter = data[at:at + 4].decode(errors="ignore")[:1]
        found = f"outside comments all is ASCII, and this is U+{ord(letter):04X}" if letter else "the file is no text of ASCII"
    yield found


# Faults of names and types.


def bound(tokens):
    """The names that imports and binders of a source bind, each with its type where that is ground, and else with nothing."""
    found = {}
    for at, token in enumerate(tokens):
        words = [it.text for it in tokens[at + 1:at + 6]]
        if token.kind == "new" and words[1:2] == [":"] and len(words) > 2:
            found[words[0]] = f"var {words[2]}"
        elif token.kind in ("import", "fun") and len(words) > 3:
            whole = " ".join(words[2:4] if words[2] in ("exp", "var") else words[2:3])
            behind = words[4:] if words[2] in ("exp", "var") else words[3:]
            found[words[0]] = "" if words[2] == "(" or behind[:1] in (["->"], ["*"]) else whole
    return found


OTHER_WORDS = {
    "true": "a truth is a number of 1 bit: `1:1`", "false": "a truth is a number of 1 bit: `0:1`",
    "and": "`and` is `&`", "or": "`or` is `|`", "xor": "`xor` is `^`", "let": "a local is `new x : 8 in (x := 1:8 ; ..)`",
    **dict.fromkeys(("begin", "end", "done", "fi", "od", "endif"), "forms end where they end; brackets hold them together"),
}


def of_unbound(data, values):
    """C1: a name that is like this one."""
    name = values["NAME"]
    close = difflib.get_close_matches(name, sorted(set(bound(grammar.tokens_of(data)[0])) - {name}), 1)
    yield OTHER_WORDS.get(name) or (f"is `{close[0]}` meant?" if close else "")


# What ends the level of a comparison, beside the brackets around it.
ENDS = {";", "then", "do", "else", "if", "while", ":=", "||", "export", "in", ".", ","}


def level(tokens, opening, closing):
    """The kinds of the tokens up to the end of their level, but for what stands in brackets of its own."""
    depth = 0
    for token in tokens:
        depth += (token.kind == opening) - (token.kind == closing)
        if depth < 0 or (not depth and token.kind in ENDS):
            return
        if not depth:
            yield token.kind


def compares_beside(place, stop):
    """Whether a bit operator stands beside a term, and a comparison in the same brackets."""
    onwards = [it for it in (place.here, *place.behind) if it]
    behind = next((it.kind for it in onwards if it.start >= stop), "")
    around = {*level(reversed(place.before), ")", "("), *level(onwards, "(", ")")}
    return bool({place.last(), behind} & set("&|^")) and bool({"=", "<"} & around)


def of_type(data, values):
    """C2: what is meant where one type is wanted and another one stands."""
    start, stop = (int(it) for it in values["SPAN"].split(".."))
    place, want, got = Place(data, start), values["WANT"], values["TYPE"]
    text = data[start:stop].decode(errors="replace")
    behind = next((it.kind for it in [place.here, *place.behind] if it and it.start >= stop), "")
    wide = [it.removeprefix("exp ") for it in (want, got) if re.fullmatch(r"exp \d+", it)]
    if "->" in got and "->" not in want:
        word = place.last()
        takes = f"`{word}` takes the next word alone, and not the call: `{word} ({text} ..)`"
        yield takes if word in ("not", "!", "fst", "snd") else "it is a function, and lacks an argument"
    elif re.fullmatch(r"var \d+", got):
        read = f"!{text}" if NAME.fullmatch(text) else f"!({text})"
        yield f"`!` reads a variable: `{read}`" if re.fullmatch(r"exp \d+|any exp", want) else "a variable is read by `!` and written by `:=`"
        yield "and `:=`, not `=`, writes one" if behind == "=" and want == "any exp" else ""
    elif want == "any var":
        yield meant_by_variable(place, text)
    elif len(wide) == 2:
        apart = "`&`, `|` and `^` bind tighter than `=` and `<`: brackets round each comparison"
        yield apart if compares_beside(place, stop) else meant_by_width(*wide)
    elif want == "com" and re.fullmatch(r"exp \d+", got):
        yield f"an expression is run for its effect by `new t : {got[4:]} in t := ..` (docs/COOKBOOK.md)"


def meant_by_variable(place, text):
    if text.startswith("!"):
        return "on the left of `:=` the variable stands without `!`"
    if place.last() == "!":
        return "`!` reads a variable, and this is no such: leave it out"
    return "only a variable can be written: a local, or what is of type `var W`"


def meant_by_width(want, got):
    if want == "1":
        return f"a condition has 1 bit: `not (e = 0:{got})` is whether `e` isn't 0"
    if got == "1":
        return f"`if b then 1:{want} else 0:{want}` makes 1 bit wide"
    return "no width changes by itself; docs/COOKBOOK.md has how a number is widened"


def of_no_function(data, values):
    """C3: what is meant where something is applied that is no function."""
    if values["TYPE"] == "com":
        yield "a command takes no argument: is a `;` missing behind it?"
    elif "->" not in values["TYPE"]:
        yield "it takes no argument: is an operator missing behind it?"


def of_shared(data, values):
    """C5 of an application: what one part needs is put into a local before. Of `||` there is nothing to say."""
    (_, first), (second, _) = ([int(at) for at in it.split("..")] for it in (values["SPAN"], values["SPAN 2"]))
    tokens = grammar.tokens_of(data)[0]
    depth, lowest, beside = 0, 0, False
    for token in tokens:
        if first <= token.start < second:
            depth += (token.kind == "(") - (token.kind == ")")
            beside = token.kind == "||" if depth < lowest else beside or (token.kind == "||" and depth == lowest)
            lowest = min(lowest, depth)
    name, (sort, _, bits) = values["NAME"], bound(tokens).get(values["NAME"], "").partition(" ")
    if not beside and sort in ("exp", "var"):
        read = f"!{name}" if sort == "var" else name
        yield f"put it into a local before, for one of them: `new t : {bits} in (t := {read} ; ..)`, and `!t` in its place"


def of_width(data, values):
    """C6: how many bits a number needs."""
    number, bits = int(values["K"]), int(values["W"])
    if number and 1 <= bits <= 64:
        yield f"{number} needs {number.bit_length()} bits"
    elif bits > 64:
        yield "hold more bits in two numbers"


# Build file and pulse file.

STATEMENTS = {
    "gosbuild": "1", "inst": "NAME SOURCE OBJECT", "bind": "USER IMPORT GIVER", "root": "NAME",
    "net": "FILE", "verilog": "FILE", "pulses": "FILE", "trace": "FILE",
}
ORDER = list(STATEMENTS)
MAY_FOLLOW = {
    "": ["gosbuild"], "gosbuild": ["inst"], "inst": ["inst", "bind", "root"], "bind": ["bind", "root"],
    "root": ["net"], "net": ["verilog"], "verilog": ["pulses"], "pulses": ["trace"], "trace": [],
}
SORT = {"NAME": "an instance", "USER": "an instance", "GIVER": "an instance", "IMPORT": "an import"}


def statements(data):
    """The lines of a build file or pulse file that aren't passed over, by their number, each as its words."""
    lines = [re.findall(r"[^ \t]+", it.removesuffix("\r")) for it in data.decode(errors="replace").split("\n")]
    return {at: line for at, line in enumerate(lines, 1) if line and not line[0].startswith("#")}


def of_build(data, values, file):
    """B1: why this line of a build file is wrong in its place."""
    number = int(values["L"])
    lines = statements(data)
    before = {at: line for at, line in lines.items() if at < number}
    follow = MAY_FOLLOW.get(next(reversed(before.values()), [""])[0], [])
    line = lines.get(number)
    if line is None:
        yield "more than 65,536 bytes" if not number else f"behind the last line {ticked(follow)} is missing" if follow else ""
    elif line[0] not in follow:
        yield f"here may stand {ticked(follow) if follow else 'nothing more'}: the order is {', '.join(ORDER)}"
    else:
        yield from wrong_words(line, before, file)


def wrong_words(line, before, file):
    """What is wrong with the words of a line that may stand in its place."""
    roles = STATEMENTS[line[0]].split()
    if any(it.startswith("#") for it in line[1:]):
        yield "a `#` begins a comment only as the first word of a line"
        return
    if len(line) != len(roles) + 1:
        yield f"the line has {len(line) - 1} words behind `{line[0]}`, and not {len(roles)}: `{line[0]} {' '.join(roles)}`"
        return
    named = dict(objects(before))
    for role, word in zip(roles, line[1:]):
        if role in SORT:
            yield wrong_name(word, SORT[role])
        elif role != "1" and not FILE.fullmatch(word):
            yield f"`{word}` is no file name here: it has ASCII letters, digits, `_`, `.`, `-` and `/`, and 255 bytes at most"
        elif role == "1" and word != "1":
            yield "the form of the file is 1: `gosbuild 1`"
    new = list(objects({0: line}))
    for at, (key, _) in enumerate(new):
        sort, word = key
        earlier = named.get(key) or ("this line" if key in [it for it, _ in new[:at]] else "")
        if earlier:
            yield f"`{word}` is named as {sort} by {earlier} already"
        if sort == "a file" and word == Path(file).name and word == file:
            yield f"`{word}` is the build file itself"
    yield from clashes(line, before)


def objects(lines):
    """What the lines of a build file name that nothing else may be: instances and written files, each with its line."""
    for at, line in lines.items():
        if line[0] == "inst" and len(line) == 4:
            yield ("an instance", line[1]), f"line {at}"
            yield ("a file", line[3]), f"line {at}"
        elif line[0] in ("net", "verilog", "pulses", "trace") and len(line) == 2:
            yield ("a file", line[1]), f"line {at}"


def clashes(line, before):
    """A source that is named as something else, too."""
    own = {line[2]} if line[0] == "inst" else set()
    sources = {it[2]: f"line {at}" for at, it in before.items() if it[0] == "inst" and len(it) == 4} | dict.fromkeys(own, "this line")
    written = {word for (sort, word), _ in objects({0: line}) if sort == "a file"}
    for word in sorted(written & set(sources)):
        yield f"`{word}` is a source, by {sources[word]}, and would be written over"
    for (sort, word), earlier in objects(before):
        if sort == "a file" and word in own:
            yield f"`{word}` is a file of another kind, by {earlier}"


def wrong_name(word, sort):
    if word in grammar.WORDS:
        return f"`{word}` is a word of the language, and no name of {sort}"
    if not NAME.fullmatch(word):
        return f"`{word}` is no name of {sort}: it has ASCII letters, digits and `_`, no digit first, and 255 bytes at most"
    return ""


def import_that_stays(name, data):
    """The instance whose import of this name is bound to nothing, and its type; or two empty texts."""
    lines = list(statements(data).values())
    bound_ones = {tuple(it[1:3]) for it in lines if it[0] == "bind"}
    for user, source in (it[1:3] for it in lines if it[0] == "inst" and len(it) == 4):
        try:
            found = scopes.module_of(Path(source).read_bytes()).imports.get(name)
        except (OSError, ValueError):
            continue
        if found and found.type and (user, name) not in bound_ones:
            return user, found.type
    return "", ""


def of_no_ground(data, values, file):
    """B10: the ports that do what a function would, and the module that serves it by them."""
    name = values["NAME"]
    user, written = import_that_stays(name, data)
    found = re.fullmatch(r"exp (\d+) -> (com|exp \d+|var \d+)", written)
    if not found:
        yield f"`bind {user} {name} GIVER` has an instance serve it: {written}" if user else ""
        return
    place, cell = f"var {found[1]}", found[2]
    serves = "`{0}` serves `{1}`, as a module of its own by `bind {2} {1} GIVER`"
    if cell == "com":
        module = f"import {name}_value : {place}  export fun n : exp {found[1]} . {name}_value := n : {written}"
        yield f"one port does it: `import {name}_value : {place}`, to which the number is written"
        yield serves.format(module, name, user)
        return
    yield (f"two ports do it: `import {name}_place : {place}`, to which is written which one is meant, and `import {name}_cell : {cell}`; "
           "docs/PLAY.md says of a memory what stands at them")
    if cell.startswith("exp"):
        module = f"import {name}_place : {place}  import {name}_cell : {cell}  export fun n : exp {found[1]} . ({name}_place := n ; {name}_cell) : {written}"
        yield serves.format(module, name, user)


def netlist_of(file):
    """The netlist that is run under a pulse file: that of a build file of this folder that names it, else the only one here."""
    heads = {}
    for it in sorted(Path(".").iterdir()):
        if it.is_file():
            with it.open("rb") as opened:
                heads[it] = opened.read(65536)
    for head in heads.values():
        words = [it for it in statements(head).values() if len(it) == 2] if head.lstrip().startswith((b"gosbuild", b"#")) else []
        if ["pulses", file] in words:
            return next((Path(it[1]) for it in words if it[0] == "net"), None)
    nets = [it for it, head in heads.items() if head.startswith(b"gosnet ")]
    return nets[0] if len(nets) == 1 else None


def of_no_port(data, values, file):
    """P2: the inputs that the netlist has."""
    try:
        net = netlist_of(file)
        found = [it.name for port in ports.ports_of(net.read_text()) for it in port.events if not it.is_output] if net else []
    except (OSError, ValueError, KeyError, IndexError, StopIteration):
        return
    if found:
        yield f"the inputs of {net} are {', '.join(f'`{it}`' for it in found)}"


PULSE_FORMS = "a line is `next D PORT.EVENT`, with a value behind it where the event has one, or `at T PORT.EVENT`"


def of_pulse_line(data, values):
    """P1: which form the line should have."""
    lines = statements(data)
    line = lines.get(int(values["L"]), [])
    if not lines or int(values["L"]) == min(lines):
        yield "the first line is `cycles N`, with the number of cycles that are run"
    elif line[:1] == ["cycles"]:
        yield "`cycles` stands once, in the first line"
    elif any(it.startswith("#") for it in line[1:]):
        yield "a `#` begins a comment only as the first word of a line"
    else:
        yield PULSE_FORMS


def of_pulse_limit(data, values):
    """P4: which range a number of the line has."""
    word = statements(data).get(int(values["L"]), [""])[0]
    yield {
        "cycles": "a run has 1 to 1,000,000 cycles", "next": "a distance is 1,000,000 at most, and a file has 100,000 entries at most",
        "at": "a cycle is below the number of cycles that are run, and a file has 100,000 entries at most",
    }.get(word, "a pulse file has at most 16,777,216 bytes")


def of_broken(data, values):
    """P5: what it means that an event is out of turn."""
    event = values["PORT.EVENT"].rpartition(".")[2]
    if event in ("run", "ask", "read", "write"):
        yield "a request may come when the one before is answered; `next` waits for that"
    else:
        yield "an answer may come when it was asked for; `next` waits for that"


OF_TEXT = {
    "S1": of_syntax, "L2": of_byte, "C1": of_unbound, "C2": of_type, "C3": of_no_function, "C5": of_shared, "C6": of_width,
    "P1": of_pulse_line, "P4": of_pulse_limit, "P5": of_broken,
}
OF_FILE = {"B1": of_build, "B10": of_no_ground, "P2": of_no_port}


def hints_of(code, values, file, data):
    """What could stand at a fault's place and what is meant, as lines; `values` are the fault's words, each with what it is called."""
    named = {}
    for name, value in values:
        named[f"{name} 2" if name in named else name] = value
    if code in OF_TEXT:
        found = OF_TEXT[code](data, named)
    else:
        found = OF_FILE[code](data, named, file) if code in OF_FILE else ()
    return list(dict.fromkeys(it for it in found if it))
