"""Descriptions of environments, and how they are read (docs/PLAY.md has the grammar): a line for each port of a circuit."""
import difflib
import re

import circuits
import environments
from builds import Wrong
from environments import (
    After, Answering, Asking, Bound, Burst, Chance, Change, Delay, Dice, Environment, Every, Level, Memory, Received, Row, Serial, Wanted, Wave,
)

MOST_CYCLES, MOST_PLACES = 1_000_000, 65_536
TOKEN = re.compile(r"""[ \t\r]*(?:(?P<text>"[^"]*")|(?P<event>[A-Za-z_]\w*\.[A-Za-z_]\w*)|(?P<word>[A-Za-z_]\w*)
                       |(?P<frame>8n1)\b|(?P<number>0x[0-9a-fA-F]+|0b[01]+|[0-9]+)(?!\w)|(?P<sign>\.\.|,)|(?P<end>\#.*|$)|(?P<wrong>\S+))""", re.X | re.A)
# What a line of a port may say first, by what stands there.
SAYINGS = {
    "give": ["{} runs 3 times", "{} runs for ever after 1 to 9 cycles"],
    "com": ["{} answers", "{} answers after 4 cycles", "{} answers every 16 cycles", "{} never answers"],
    "exp": ["{} gives 1 0 0 1", "{} gives random", "{} is 0, 1 after 30 cycles", "{} is 1 0 1 for 8 cycles each", "{} sends \"a\" at 16 cycles a bit"],
    "var": ["{} is a variable", "{} is an array at PORT", "{} takes 1 2 3", "{} receives 8n1 every 64 cycles", "{} never answers"],
}


class Line:
    """A line that is read word by word. What could have stood at a place is kept, and said where nothing of it does."""

    def __init__(self, file, number, text):
        self.file, self.place, self.tokens, self.at, self.tried = file, number, [], 0, []
        # how many cycles a line with `within` allows
        self.most = 0
        at = 0
        while not self.tokens or self.tokens[-1][0] != "end":
            found = TOKEN.match(text, at)
            self.tokens.append((found.lastgroup, found[found.lastgroup], found.start(found.lastgroup) + 1))
            at = found.end()

    @property
    def kind(self):
        return self.tokens[self.at][0]

    def wrong(self, said, at=None):
        return Wrong(f"{self.file}:{self.place}:{self.tokens[self.at if at is None else at][2]}: {said}")

    def misfit(self):
        """The fault that nothing of what could stand here does."""
        kind, text, _ = self.tokens[self.at]
        near = difflib.get_close_matches(text, self.tried, 1) if kind == "word" else []
        could = ", ".join(f"`{it}`" if it.islower() and " " not in it or it in (",", "..") else it for it in dict.fromkeys(self.tried))
        here = "the line ends here" if kind == "end" else f"`{text}` can't stand here"
        return self.wrong(here + (f"; is `{near[0]}` meant?" if near else f"; what can: {could}"))

    def step(self):
        self.at, self.tried = self.at + 1, []
        return self.tokens[self.at - 1][1]

    def may(self, *words):
        """Whether these words stand here; if so they are passed."""
        self.tried.append(words[0])
        for ahead, word in enumerate(words):
            if self.at + ahead >= len(self.tokens) or self.tokens[self.at + ahead][1] != word:
                if ahead:
                    self.at, self.tried = self.at + ahead, list(words[ahead:ahead + 1])
                    raise self.misfit()
                return False
        self.at, self.tried = self.at + len(words), []
        return True

    def want(self, *words):
        if not self.may(*words):
            raise self.misfit()

    def want_one(self, word):
        """A word, in its singular or its plural."""
        if not self.may(word):
            self.want(word + "s")

    def number(self, low, high, what):
        if self.kind != "number":
            self.tried.append(what)
            raise self.misfit()
        value = int(self.step(), 0) if self.tokens[self.at][1][:2] in ("0x", "0b") else int(self.step())
        if not low <= value <= high:
            raise self.wrong(f"{what} is {low} to {high}, and not {value}", self.at - 1)
        return value

    def cycles(self, low):
        """So many cycles, and the word for it."""
        count = self.number(low, MOST_CYCLES, "a number of cycles")
        self.want_one("cycle")
        return count

    def value(self, bits):
        return self.number(0, 2**bits - 1, f"a value of {bits} bit{'s' * (bits > 1)}")

    def values(self, bits):
        """One value or more; a text stands for its bytes."""
        found = []
        while self.kind in ("number", "text") or not found:
            if self.kind == "text":
                at, letters = self.at, self.step()[1:-1].encode()
                if any(it >> bits for it in letters):
                    raise self.wrong(f"a letter has more than {bits} bits", at)
                found.extend(letters)
                if not found:
                    raise self.wrong("a text has one letter or more", at)
            else:
                found.append(self.value(bits))
        self.tried.append("a value")
        return found

    def end(self):
        if self.kind != "end":
            self.tried.append("the end of the line")
            raise self.misfit()


class Description:
    """A description while it is read: the lines of ports, which are taken in the order of the netlist's ports."""

    def __init__(self, file, text, ports):
        self.file, self.ports, self.lines, self.bounds = file, ports, {}, {}
        self.cycles, self.seed = None, 1
        self.events = {pin.name: pin for port in ports for pin in circuits.pins_of(port)}
        self.names = {port.name: port for port in ports}
        self.memories, self.sources = {}, []
        for number, line in enumerate(text.split("\n"), 1):
            self.sort(Line(file, number, line))

    def sort(self, line):
        """Takes a line that is of no port, and keeps one that is."""
        if line.kind == "end":
            return
        # (a port may be called `cycles` or `seed`)
        number_follows = line.tokens[1][0] == "number"
        if number_follows and line.may("cycles"):
            self.cycles = line.number(1, MOST_CYCLES, "a number of cycles")
            line.end()
        elif number_follows and line.may("seed"):
            self.seed = line.number(0, 2**32 - 1, "a seed")
            line.end()
        elif (name := line.tokens[0][1]) not in self.names:
            line.tried = ["cycles", "seed", *self.names]
            raise line.misfit()
        else:
            line.step()
            if line.tokens[line.at][1] == "receives":
                moment = environments.byte_of(name)
                self.events[moment.name] = moment
            lines = self.bounds if line.may("within") else self.lines
            if name in lines:
                raise line.wrong(f"of the port {name} line {lines[name].place} says something already", 0)
            lines[name] = line
            if lines is self.bounds:
                line.most = line.cycles(1)
                line.end()

    def environment(self):
        dice = {port.name: Dice(port.name, self.seed, at) for at, port in enumerate(self.ports)}
        # arrays come last, since what they are at has to be known
        known = [port for port in self.ports if port.name in self.lines]
        later = [port for port in known if any(token[1] == "array" for token in self.lines[port.name].tokens)]
        made = {}
        for port in [it for it in known if it not in later] + later:
            line = self.lines[port.name]
            made[port.name] = list(self.handshakes(port, line, dice[port.name]))
            line.end()
        for port in self.ports:
            if port.name not in made:
                kind = "give" if port.side == "give" else port.ty.split(" ")[0]
                such = "\n".join(f"    {it.format(port.name)}" for it in SAYINGS[kind])
                raise Wrong(f"{self.file}: nothing is said of the port {port.name}, which is {said_type(port)}. For example\n{such}")
        handshakes = [it for port in self.ports for it in made[port.name]]
        sources = list({id(it): it for shake in handshakes if isinstance(shake, Answering) for it in (shake.source, shake.memory) if it}.values())
        bounds = [self.bound(port, self.bounds[port.name].most, made[port.name]) for port in self.ports if port.name in self.bounds]
        return Environment(handshakes, sources, list(dice.values()), self.cycles, bounds)

    def bound(self, port, most, handshakes):
        """The bound of a port, of at most so many cycles, at whose handshakes these stand."""
        root = next(it for it in self.ports if it.side == "give")
        requests, answers = map(list, zip(*circuits.handshakes_of(port)))
        awaited, counted = (answers, requests) if port is root else (requests, answers)
        beats = [it for it in handshakes if isinstance(it, Answering) and isinstance(it.timing, Every)]
        return Bound(port.name, most, awaited, counted, circuits.handshakes_of(root)[0], beats[0] if beats else None)

    def handshakes(self, port, line, dice):
        """What stands at the handshakes of a port."""
        shakes = circuits.handshakes_of(port)
        kind = port.ty.split(" ")[0]
        if port.side == "give":
            line.want("runs")
            yield Asking(*shakes[0], *self.asked(line), dice)
        elif line.may("never"):
            line.want("answers")
            for request, answer in shakes:
                yield Answering(request, answer, After(Delay(), dice), limit=0)
        elif kind == "com":
            line.want("answers")
            limit = self.count(line) if line.kind == "number" or line.tokens[line.at][1] in ("once", "for") else None
            yield Answering(*shakes[0], self.timing(line, dice), limit=limit)
        elif kind == "exp":
            source, has_timing = self.expression(port, line, dice, shakes[0][1].bits)
            timing = self.timing(line, dice) if has_timing else After(Delay(), dice)
            yield Answering(*shakes[0], timing, source, limit=source.limit)
        else:
            memory = self.variable(port, line, shakes[0][1].bits)
            delay = self.delay(line)
            yield Answering(*shakes[0], After(delay, dice), memory)
            yield Answering(*shakes[1], After(delay, dice), memory=memory)

    def asked(self, line):
        """How often the root is run, and after which delay each time."""
        count = self.count(line)
        return self.delay(line), count

    def count(self, line):
        if line.may("once"):
            return 1
        if line.may("for", "ever"):
            return None
        count = line.number(1, MOST_CYCLES, "how often")
        line.want("times")
        return count

    def span(self, line):
        first = last = line.number(0, MOST_CYCLES, "a number of cycles")
        if line.may("to"):
            last = line.number(first, MOST_CYCLES, "a number of cycles")
        line.want_one("cycle")
        return Delay(first, last)

    def delay(self, line):
        return self.span(line) if line.may("after") else Delay()

    def event(self, line):
        """An event of any port."""
        if line.kind != "event":
            line.tried.append("an event such as " + next(iter(self.events)))
            raise line.misfit()
        if line.tokens[line.at][1] not in self.events:
            near = difflib.get_close_matches(line.tokens[line.at][1], self.events, 1)
            raise line.wrong(f"no port has an event `{line.tokens[line.at][1]}`" + (f"; is `{near[0]}` meant?" if near else ""))
        return self.events[line.step()]

    def timing(self, line, dice):
        """When answers come."""
        if line.may("every"):
            return Every(line.cycles(1), self.event(line) if line.may("from") else None)
        return After(self.delay(line), dice)

    def expression(self, port, line, dice, bits):
        """Where the values of an expression come from, and whether a delay may stand behind."""
        if line.may("gives"):
            if line.may("random"):
                low, high = 0, 2**bits - 1
                if line.kind == "number":
                    low = line.value(bits)
                    line.want("to")
                    high = line.number(low, 2**bits - 1, "a value")
                return Chance(low, high, dice), True
            values = line.values(bits)
            return Row(port.name, bits, values, ".." if line.may("..") else "again" if line.may("again") else ""), True
        if line.may("sends"):
            at, values = line.at, line.values(8)
            if bits != 1:
                raise line.wrong(f"bits are sent one after the other, and {port.name} is {said_type(port)}", at)
            line.want("at")
            each = line.cycles(1)
            line.want("a", "bit")
            bursts = [self.burst(line, values) if line.may("after") else Burst(framed(values), Delay())]
            while line.may(","):
                values = line.values(8)
                line.want("after")
                bursts.append(self.burst(line, values))
            return Serial(port.name, each, bursts, dice), False
        line.want("is")
        if line.may("an", "array"):
            return self.array(port, line, bits), True
        return self.level(port, line, dice, bits), False

    def burst(self, line, values):
        """A burst of these bytes, behind the word `after`."""
        if line.kind == "event":
            return Burst(framed(values), Delay(1, 1), self.event(line))
        at, delay = line.at, self.span(line)
        event = self.event(line) if line.may("from") else None
        if event and not delay.low:
            raise line.wrong("a line begins to send one cycle after an event or more", at)
        return Burst(framed(values), delay, event)

    def level(self, port, line, dice, bits):
        values = line.values(bits)
        if line.may("for"):
            each = line.cycles(1)
            line.want("each")
            return Wave(port.name, bits, values, each, 0, 0, line.may("again"))
        if len(values) > 1:
            line.tried.append("a value")
            raise line.misfit()
        changes = []
        while line.may(","):
            value = line.value(bits)
            line.want("after")
            if line.kind == "event":
                changes.append(Change(value, Delay(1, 1), self.event(line)))
                continue
            at, delay = line.at, self.span(line)
            event = self.event(line) if line.may("from") else None
            if event and not delay.low:
                raise line.wrong("a level changes one cycle after an event or more", at)
            changes.append(Change(value, delay, event))
        return Level(port.name, bits, values[0], changes, dice)

    def variable(self, port, line, bits):
        if line.may("takes"):
            return Wanted(port.name, bits, line.values(bits))
        if line.may("receives"):
            if bits != 1:
                raise line.wrong(f"bits are received one after the other, and {port.name} is {said_type(port)}", line.at - 1)
            line.want("8n1")
            line.want("every")
            each = line.cycles(1)
            return Received(port.name, each, line.values(8) if line.may("expects") else None)
        line.want("is")
        if line.may("an", "array"):
            return self.array(port, line, bits)
        line.want("a", "variable")
        if line.may("of"):
            at = line.at
            if line.number(1, 64, "a number of bits") != bits:
                raise line.wrong(f"{port.name} has {bits} bits", at)
            line.want_one("bit")
        memory = Memory(port.name, bits, [line.value(bits) if line.may("from") else 0])
        self.memories[port.name] = memory
        return memory

    def array(self, port, line, bits):
        size = line.number(1, MOST_PLACES, "a number of places") if line.may("of") else None
        values = line.values(bits) if line.may("from") else []
        line.want("at")
        name = line.tokens[line.at][1]
        if name not in self.memories:
            line.tried.extend(self.memories or ["a port of which a line says `is a variable`"])
            raise line.misfit()
        line.step()
        index = self.memories[name]
        size = size or max(len(values), min(2**index.bits, MOST_PLACES))
        if len(values) > size:
            raise line.wrong(f"{len(values)} values are more than {size} places")
        return Memory(port.name, bits, values + [0] * (size - len(values)), index)


def framed(values):
    """The levels of a serial line that sends bytes: for each a start bit, its bits from the least on, and a stop bit."""
    return [bit for value in values for bit in (0, *((value >> at) & 1 for at in range(8)), 1)]


def said_type(port):
    """What a port is, in words."""
    kind, *bits = port.ty.split(" ")
    width = f" of {bits[0]} bit{'s' * (bits[0] != '1')}" if bits else ""
    return ("the root, " if port.side == "give" else "") + {"com": "a command", "exp": "an expression", "var": "a variable"}[kind] + width


def read(file, text, ports):
    """The environment that a description says, for a circuit with these ports."""
    return Description(file, text, ports).environment()
