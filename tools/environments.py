"""What stands at the ports of a circuit: the devices that tools/gos-play knows (docs/PLAY.md), each one twice.

Each device has methods that do in Python what it does in a cycle, and methods that give the same as lines of Verilog. In a cycle

1. the outputs of the circuit are seen (`see`, `seen`): requests open handshakes and write memories, answers close them;
2. levels change (`Source.move`, `moved`);
3. what is due is given to the circuit (`give`, `gives`);
4. the pulses of the cycle are noted by whoever counts from them (`note`, `noted`).

Each of these goes through the ports in the netlist's order. Chance is that of a `Dice`, which throws the same in both languages.
"""
import re
from dataclasses import dataclass, field

NEVER = -1
# The letters that a text may have.
LETTERS = {chr(it) for it in range(32, 127)} - {'"'}


class Dice:
    """
    Numbers by chance, one row of them for each port and seed (Marsaglia's xorshift of 32 bits). One of a wider range is made of two
    of the row, the first its higher half.
    """

    FUNCTION = [
        "function [31:0] stirred(input [31:0] s);",
        "  begin",
        "    stirred = s ^ (s << 13);",
        "    stirred = stirred ^ (stirred >> 17);",
        "    stirred = stirred ^ (stirred << 5);",
        "  end",
        "endfunction",
    ]

    def __init__(self, port, seed, place):
        self.net = f"{port}__dice"
        self.first = self.state = (seed * 2654435761 + (place + 1) * 2246822519) % 2**32 or 1
        for _ in range(4):
            self.stir()
        self.first = self.state

    def stir(self):
        s = self.state
        s ^= (s << 13) & 0xFFFFFFFF
        s ^= s >> 17
        self.state = s ^ ((s << 5) & 0xFFFFFFFF)

    def throw(self, low, high):
        if low == high:
            return low
        self.stir()
        number = self.state
        if high - low >= 2**32:
            self.stir()
            number = (number << 32) + self.state
        return low + number % (high - low + 1)

    def thrown(self, low, high):
        """The same in Verilog: statements, and then the number as an expression."""
        if low == high:
            return [], str(low) if low < 2**31 else f"64'd{low}"
        count, bits = high - low + 1, 64 if high >= 2**32 else 32
        is_pair = count > 2**32
        dice = f"{{{self.net}__high, {self.net}}}" if is_pair else self.net
        number = dice if count == 2**bits else f"({bits}'d{low} + {dice} % {bits}'d{count})"
        first = [f"{self.net}__high = stirred({self.net});"] if is_pair else []
        return [*first, f"{self.net} = stirred({self.net}{'__high' if is_pair else ''});"], number

    def declared(self):
        return [f"reg [31:0] {self.net} = 32'd{self.first};", f"reg [31:0] {self.net}__high = 0;"]


@dataclass
class Delay:
    """So many cycles, or by chance one of these numbers of cycles."""

    low: int = 0
    high: int = 0


class After:
    """When an answer comes: so many cycles after its request."""

    def __init__(self, delay, dice):
        self.delay, self.dice, self.due = delay, dice, 0

    def asked(self, cycle):
        self.due = cycle + self.dice.throw(self.delay.low, self.delay.high)

    def next(self, cycle):
        """The first cycle from this one on in which an answer may come."""
        return max(cycle, self.due)

    def answered(self, cycle, is_last):
        pass

    def look(self, cycle):
        pass

    def note(self, cycle, events):
        pass

    def verilog(self, net):
        """The lines of declaring, of being asked and of noting, and whether an answer may come."""
        throws, number = self.dice.thrown(self.delay.low, self.delay.high)
        return [f"integer {net}__due = 0;"], [*throws, f"{net}__due = cycle + {number};"], [], f"cycle >= {net}__due"


class Every:
    """
    When an answer comes: at a beat, each so many cycles, counted from the beginning or from the last pulse of an event. It counts the
    beats that found the port asking, which were answered, and those that were missed: the port was not asking.
    """

    def __init__(self, cycles, event):
        self.cycles, self.event, self.base = cycles, event, 0
        self.met, self.missed, self.first_missed = 0, 0, None
        # the first beat that is not looked at yet isn't before this cycle; it is none when the last answer has come
        self.looked = 0
        self.bound = None

    def asked(self, cycle):
        pass

    def next(self, cycle):
        rounds = max(1, -(-(cycle - self.base) // self.cycles))
        return self.base + rounds * self.cycles

    def answered(self, cycle, is_last):
        self.met += 1
        self.look(cycle)
        self.looked = None if is_last else cycle + 1

    def look(self, cycle):
        """Looks at the beats before a cycle that are not looked at yet: each one was missed."""
        if self.looked is None or (first := self.next(self.looked)) >= cycle:
            return
        self.missed += (cycle - 1 - first) // self.cycles + 1
        self.first_missed = first if self.first_missed is None else self.first_missed
        self.looked = cycle
        if self.bound:
            self.bound.beat(first)

    def note(self, cycle, events):
        if self.event and self.event.name in events:
            self.look(cycle + 1)
            self.base = cycle

    def verilog(self, net):
        noted = [f"if ({self.event.verilog}) {net}__base = cycle;"] if self.event else []
        due = f"cycle > {net}__base && (cycle - {net}__base) % {self.cycles} == 0"
        return [f"integer {net}__base = 0;"], [], noted, due


class Source:
    """Where the values of answers come from. `limit` is how many there are, where they come to an end."""

    limit = None

    def value(self, cycle):
        return None

    def move(self, cycle):
        pass

    def note(self, cycle, events):
        pass

    def next(self, cycle):
        """The first cycle from this one on in which something of its own happens, or none."""
        return None

    def moments(self):
        """The names of events of its own that happen in this cycle."""
        return []

    def declared(self):
        return []

    def prepared(self):
        """What is set up before the first cycle."""
        return []

    def moved(self):
        return []

    def noted(self):
        return []

    def gives(self, net):
        """The lines by which the net of the value gets it."""
        return []


class Row(Source):
    """Values, one after the other; then none, or the last one for ever, or all of them again."""

    def __init__(self, port, bits, values, end):
        self.net, self.bits, self.values, self.end, self.at = f"{port}__row", bits, values, end, 0
        self.limit = None if end else len(values)

    def value(self, cycle):
        value = self.values[self.at]
        if self.at + 1 < len(self.values):
            self.at += 1
        elif self.end == "again":
            self.at = 0
        return value

    def declared(self):
        return [f"reg [{self.bits - 1}:0] {self.net} [0:{len(self.values) - 1}];", f"integer {self.net}__at = 0;"]

    def prepared(self):
        return [f"{self.net}[{at}] = {self.bits}'d{value};" for at, value in enumerate(self.values)]

    def gives(self, net):
        last = len(self.values) - 1
        yield f"{net} = {self.net}[{self.net}__at];"
        yield f"if ({self.net}__at < {last}) {self.net}__at = {self.net}__at + 1;"
        if self.end == "again":
            yield f"else {self.net}__at = 0;"


class Chance(Source):
    """A value by chance, of a range."""

    def __init__(self, low, high, dice):
        self.low, self.high, self.dice = low, high, dice

    def value(self, cycle):
        return self.dice.throw(self.low, self.high)

    def gives(self, net):
        throws, number = self.dice.thrown(self.low, self.high)
        return [*throws, f"{net} = {number};"]


@dataclass
class Change:
    """A change of a level: to this value, so many cycles after an event, or after the beginning where there is none."""

    value: int
    delay: Delay
    event: object = None
    due: int = NEVER


class Level(Source):
    """What a pin shows when it is asked: a value, until one of the changes comes."""

    def __init__(self, port, bits, first, changes, dice):
        self.net, self.bits, self.first, self.now, self.changes, self.dice = f"{port}__level", bits, first, first, changes, dice
        for change in changes:
            if not change.event:
                change.due = dice.throw(change.delay.low, change.delay.high)
        self.at_first = [change.due for change in changes]
        # in Verilog the dice are thrown from here on
        dice.first = dice.state

    def move(self, cycle):
        for change in sorted((it for it in self.changes if NEVER < it.due <= cycle), key=lambda it: it.due):
            self.now, change.due = change.value, NEVER

    def value(self, cycle):
        return self.now

    def note(self, cycle, events):
        for change in self.changes:
            if change.event and change.event.name in events:
                change.due = cycle + self.dice.throw(change.delay.low, change.delay.high)

    def declared(self):
        yield f"reg [{self.bits - 1}:0] {self.net} = {self.bits}'d{self.first};"
        for at, due in enumerate(self.at_first):
            yield f"integer {self.net}__due{at} = {due};"

    def moved(self):
        for at, change in enumerate(self.changes):
            yield f"if (cycle == {self.net}__due{at}) {self.net} = {self.bits}'d{change.value};"

    def noted(self):
        for at, change in enumerate(self.changes):
            if change.event:
                throws, number = self.dice.thrown(change.delay.low, change.delay.high)
                yield f"if ({change.event.verilog}) begin"
                yield from (f"  {line}" for line in [*throws, f"{self.net}__due{at} = cycle + {number};"])
                yield "end"

    def gives(self, net):
        return [f"{net} = {self.net};"]


class Wave(Source):
    """What a line shows when it is asked: values, each for so many cycles, from a cycle on; before it `idle`, then the last."""

    def __init__(self, port, bits, values, each, begin, idle, again):
        self.net, self.bits, self.values, self.each = f"{port}__wave", bits, values, each
        self.begin, self.idle, self.again = begin, idle, again

    def value(self, cycle):
        if cycle < self.begin:
            return self.idle
        at = (cycle - self.begin) // self.each
        return self.values[at % len(self.values) if self.again else min(at, len(self.values) - 1)]

    def declared(self):
        return [f"reg [{self.bits - 1}:0] {self.net} [0:{len(self.values) - 1}];", f"integer {self.net}__at = 0;"]

    def prepared(self):
        return [f"{self.net}[{at}] = {self.bits}'d{value};" for at, value in enumerate(self.values)]

    def gives(self, net):
        count = len(self.values)
        at = f"{self.net}__at"
        yield f"{at} = (cycle - {self.begin}) / {self.each};"
        yield f"{at} = {at} % {count};" if self.again else f"if ({at} >= {count}) {at} = {count - 1};"
        if self.begin:
            yield f"if (cycle < {self.begin}) {net} = {self.bits}'d{self.idle};"
            yield f"else {net} = {self.net}[{at}];"
        else:
            yield f"{net} = {self.net}[{at}];"


@dataclass
class Burst:
    """
    Bytes that are sent at once on a serial line: their levels, and the delay behind which they begin. It counts from an event, or else
    from the end of the burst before it, or from the beginning.
    """

    levels: list
    delay: Delay
    event: object = None


class Serial(Source):
    """A serial line, which is 1 where nothing is sent. Its bursts come in their order; an event counts once the burst before has begun."""

    def __init__(self, port, each, bursts, dice):
        self.net, self.each, self.bursts, self.dice = f"{port}__serial", each, bursts, dice
        # how many bursts have begun, when the last one did, and when the next one begins, as far as that is known
        self.begun, self.begin, self.due = 0, 0, NEVER
        self.plan()
        self.first_due = self.due
        # in Verilog the dice are thrown from here on
        dice.first = dice.state

    def lasts(self, burst):
        return self.each * len(burst.levels)

    def over(self):
        """The cycle in which the last burst that has begun is over."""
        return self.begin + self.lasts(self.bursts[self.begun - 1]) if self.begun else 0

    def next_one(self):
        return self.bursts[self.begun] if self.begun < len(self.bursts) else None

    def plan(self):
        """Says when the next burst begins, where it waits for no event."""
        burst = self.next_one()
        if burst and not burst.event:
            self.due = self.over() + self.dice.throw(burst.delay.low, burst.delay.high)

    def move(self, cycle):
        while NEVER < self.due <= cycle:
            self.begun, self.begin, self.due = self.begun + 1, self.due, NEVER
            self.plan()

    def note(self, cycle, events):
        burst = self.next_one()
        if burst and burst.event and self.due == NEVER and burst.event.name in events:
            self.due = max(cycle + self.dice.throw(burst.delay.low, burst.delay.high), self.over())

    def value(self, cycle):
        levels = self.bursts[self.begun - 1].levels if self.begun else []
        at = (cycle - self.begin) // self.each
        return levels[at] if at < len(levels) else 1

    def starts(self):
        """The place of each burst's first level among those of all, and that behind the last one."""
        return [sum(len(it.levels) for it in self.bursts[:at]) for at in range(len(self.bursts) + 1)]

    def declared(self):
        return [f"reg {self.net} [0:{self.starts()[-1] - 1}];", f"integer {self.net}__start [0:{len(self.bursts)}];",
                f"integer {self.net}__begun = 0, {self.net}__begin = 0, {self.net}__due = {self.first_due}, {self.net}__at = 0;"]

    def prepared(self):
        levels = [level for burst in self.bursts for level in burst.levels]
        yield from (f"{self.net}[{at}] = {level};" for at, level in enumerate(levels))
        yield from (f"{self.net}__start[{at}] = {start};" for at, start in enumerate(self.starts()))

    def moved(self):
        net, planned = self.net, []
        for at, burst in enumerate(self.bursts[1:], 1):
            if not burst.event:
                throws, number = self.dice.thrown(burst.delay.low, burst.delay.high)
                due = f"{net}__due = {net}__begin + {self.lasts(self.bursts[at - 1])} + {number};"
                planned += block(f"if ({net}__begun == {at})", [*throws, due])
        begins = [f"{net}__begun = {net}__begun + 1;", f"{net}__begin = cycle;", f"{net}__due = {NEVER};"]
        return block(f"if (cycle == {net}__due)", begins + planned)

    def noted(self):
        net = self.net
        for at, burst in enumerate(self.bursts):
            if burst.event:
                throws, number = self.dice.thrown(burst.delay.low, burst.delay.high)
                over = f"{net}__begin + {self.lasts(self.bursts[at - 1])}" if at else "0"
                yield from block(f"if ({net}__begun == {at} && {net}__due < 0 && {burst.event.verilog})", [
                    *throws, f"{net}__due = cycle + {number};", f"if ({net}__due < {over}) {net}__due = {over};"])

    def gives(self, net):
        at, begun = f"{self.net}__at", f"{self.net}__begun"
        yield f"{net} = 1;"
        yield from block(f"if ({begun} > 0)", [
            f"{at} = {self.net}__start[{begun} - 1] + (cycle - {self.net}__begin) / {self.each};",
            f"if ({at} < {self.net}__start[{begun}]) {net} = {self.net}[{at}];"])


class Memory(Source):
    """A variable; or an array, of which the variable at another port says which place is meant."""

    def __init__(self, port, bits, cells, index=None):
        self.net, self.bits, self.first, self.cells, self.index = f"{port}__cells", bits, list(cells), list(cells), index
        self.wrong = []

    def place(self):
        return self.index.cells[0] if self.index else 0

    def value(self, cycle):
        return self.cells[self.place()] if self.place() < len(self.cells) else 0

    def write(self, cycle, value):
        if self.place() < len(self.cells):
            self.cells[self.place()] = value

    def declared(self):
        return [f"reg [{self.bits - 1}:0] {self.net} [0:{len(self.cells) - 1}];"]

    def prepared(self):
        return [f"{self.net}[{at}] = {self.bits}'d{value};" for at, value in enumerate(self.first)]

    def guarded(self):
        """The place in Verilog, and whether it is one, where it need not be."""
        if not self.index:
            return "0", None
        place = f"{self.index.net}[0]"
        return place, None if len(self.cells) >= 2**self.index.bits else f"{place} < {len(self.cells)}"

    def gives(self, net):
        place, guard = self.guarded()
        return [f"{net} = {guard} ? {self.net}[{place}] : 0;" if guard else f"{net} = {self.net}[{place}];"]

    def writes(self, net):
        """The lines by which it takes what a net has."""
        place, guard = self.guarded()
        return [(f"if ({guard}) " if guard else "") + f"{self.net}[{place}] = {net};"]


class Wanted(Memory):
    """A variable to which these values have to be written, in this order, and no others."""

    def __init__(self, port, bits, values):
        super().__init__(port, bits, [0])
        self.port, self.values, self.at = port, values, 0

    def write(self, cycle, value):
        super().write(cycle, value)
        want = self.values[self.at] if self.at < len(self.values) else None
        if value != want:
            self.wrong.append(f"{self.port} takes {value} in cycle {cycle}, and " + ("nothing" if want is None else f"{want}") + " is wanted")
        self.at += 1

    def missing(self):
        if self.at < len(self.values):
            yield f"{self.port} takes {self.at} values, and {len(self.values)} are wanted"

    def declared(self):
        yield from super().declared()
        yield f"reg [{self.bits - 1}:0] {self.port}__wanted [0:{len(self.values) - 1}];"
        yield f"integer {self.port}__at = 0;"

    def prepared(self):
        yield from super().prepared()
        yield from (f"{self.port}__wanted[{at}] = {self.bits}'d{value};" for at, value in enumerate(self.values))

    def writes(self, net):
        yield from super().writes(net)
        at = f"{self.port}__at"
        yield f"if ({at} >= {len(self.values)})"
        yield f'  $display("wrong: {self.port} takes %0d in cycle %0d, and nothing is wanted", {net}, cycle);'
        yield f"else if ({net} !== {self.port}__wanted[{at}])"
        yield f'  $display("wrong: {self.port} takes %0d in cycle %0d, and %0d is wanted", {net}, cycle, {self.port}__wanted[{at}]);'
        yield f"{at} = {at} + 1;"


@dataclass
class Moment:
    """An event that is none of a port's: its name, and its net in Verilog."""

    name: str
    verilog: str


def byte_of(port):
    """The event that a byte has come on a port's line."""
    return Moment(f"{port}.byte", f"{port}__byte")


class Received(Memory):
    """
    A variable that is a serial line, 1 at first: what is written to it is read as bytes of 8 bits, without a parity bit and with one stop
    bit. They have to be these, in this order and no others, where it is said which.
    """

    def __init__(self, port, each, wanted):
        super().__init__(port, 1, [1])
        self.port, self.each, self.wanted = port, each, wanted
        # the cycle in which the start bit fell, the levels that were looked at since, the bytes before, and whether one has just come
        self.fell, self.levels, self.bytes, self.has_come = NEVER, [], [], False

    def write(self, cycle, value):
        self.look(cycle - 1)
        if self.fell == NEVER and self.cells[0] and not value:
            self.fell, self.levels = cycle, []
        super().write(cycle, value)

    def middle(self, at):
        """The cycle of the middle of a bit, of which the start bit is number 0."""
        return self.fell + self.each // 2 + self.each * at

    def look(self, cycle):
        """Looks at the line in the middle of each bit, up to a cycle."""
        while self.fell != NEVER and (at := self.middle(len(self.levels))) <= cycle:
            self.levels.append(self.cells[0])
            if self.levels == [1]:
                self.wrong.append(f"{self.port} is 0 for less than half a bit, from cycle {self.fell} on")
                self.fell = NEVER
            elif len(self.levels) == 10:
                self.take(at)

    def take(self, cycle):
        """A byte has come."""
        value = sum(level << at for at, level in enumerate(self.levels[1:9]))
        self.fell, self.has_come = NEVER, True
        if not self.levels[9]:
            self.wrong.append(f"{self.port} has no stop bit in cycle {cycle}")
        want = self.wanted[len(self.bytes)] if self.wanted and len(self.bytes) < len(self.wanted) else None
        if self.wanted and value != want:
            self.wrong.append(f"{self.port} receives {value} in cycle {cycle}, and " + ("nothing" if want is None else f"{want}") + " is wanted")
        self.bytes.append(value)

    def move(self, cycle):
        self.has_come = False
        self.look(cycle)

    def next(self, cycle):
        return max(cycle, self.middle(9)) if self.fell != NEVER else None

    def moments(self):
        return [byte_of(self.port).name] if self.has_come else []

    def missing(self):
        if self.wanted and len(self.bytes) < len(self.wanted):
            yield f"{self.port} receives {len(self.bytes)} bytes, and {len(self.wanted)} are wanted"

    def told(self):
        """What has come, where nothing says what is wanted: letters as a text, and other bytes as numbers."""
        if not self.wanted:
            parts = re.findall(r'[ !#-~]+|[^ !#-~]', "".join(map(chr, self.bytes)))
            said = [f'"{it}"' if it[0] in LETTERS else str(ord(it)) for it in parts]
            yield f"{self.port} receives {' '.join(said) or 'nothing'}"

    def declared(self):
        port = self.port
        yield from super().declared()
        yield f"integer {port}__fell = {NEVER}, {port}__count = 0, {port}__got = 0;"
        yield f"reg [9:0] {port}__levels = 0;"
        yield f"reg {port}__byte = 0;"
        if self.wanted:
            yield f"reg [7:0] {port}__wanted [0:{len(self.wanted) - 1}];"

    def prepared(self):
        yield from super().prepared()
        yield from (f"{self.port}__wanted[{at}] = 8'd{value};" for at, value in enumerate(self.wanted or []))

    def writes(self, net):
        port = self.port
        yield f"if ({port}__fell < 0 && {self.net}[0] && !{net}) begin {port}__fell = cycle; {port}__count = 0; end"
        yield from super().writes(net)

    def moved(self):
        port = self.port
        middle = f"{port}__fell + {self.each // 2} + {self.each} * {port}__count"
        yield f"{port}__byte = 0;"
        yield from block(f"if ({port}__fell >= 0 && cycle == {middle})", [
            f"{port}__levels[{port}__count] = {self.net}[0];",
            f"{port}__count = {port}__count + 1;",
            *block(f"if ({port}__count == 1 && {port}__levels[0])", [
                f'$display("wrong: {port} is 0 for less than half a bit, from cycle %0d on", {port}__fell);', f"{port}__fell = {NEVER};"]),
            *block(f"if ({port}__count == 10)", [f"{port}__fell = {NEVER};", f"{port}__byte = 1;", *self.compared()]),
        ])

    def compared(self):
        """The lines that compare a byte that has come."""
        port, value = self.port, f"{self.port}__levels[8:1]"
        yield f'if (!{port}__levels[9]) $display("wrong: {port} has no stop bit in cycle %0d", cycle);'
        if self.wanted:
            yield f"if ({port}__got >= {len(self.wanted)})"
            yield f'  $display("wrong: {port} receives %0d in cycle %0d, and nothing is wanted", {value}, cycle);'
            yield f"else if ({value} !== {port}__wanted[{port}__got])"
            yield f'  $display("wrong: {port} receives %0d in cycle %0d, and %0d is wanted", {value}, cycle, {port}__wanted[{port}__got]);'
            yield f"{port}__got = {port}__got + 1;"


@dataclass
class Answering:
    """A handshake at which the circuit asks, and the environment answers, at most `limit` times where it is one."""

    request: object
    answer: object
    timing: object
    source: Source = field(default_factory=Source)
    memory: Memory = None
    limit: int = None
    since: int = NEVER
    count: int = 0

    def may(self):
        return self.since != NEVER and (self.limit is None or self.count < self.limit)

    def see(self, cycle, events):
        self.timing.look(cycle)
        if self.request.name in events:
            self.since = cycle
            self.timing.asked(cycle)
            if self.memory:
                self.memory.write(cycle, events[self.request.name])

    def next(self, cycle):
        return self.timing.next(cycle) if self.may() else None

    def give(self, cycle):
        if self.next(cycle) != cycle:
            return []
        self.since, self.count = NEVER, self.count + 1
        self.timing.answered(cycle, self.count == self.limit)
        return [(self.answer, self.source.value(cycle) if self.answer.bits else None)]

    def stands(self):
        """Why it does nothing more, where a request waits for an answer that isn't to come."""
        if self.since != NEVER and not self.may():
            why = f"it was answered {self.limit} time{'s' * (self.limit > 1)}, and no answer is left" if self.limit else "it is never answered"
            yield f"{self.request.name} is open since cycle {self.since}: {why}"

    def missed(self):
        """How many beats found the port not asking, where some did."""
        if isinstance(self.timing, Every) and self.timing.missed:
            count, all_beats = self.timing.missed, self.timing.missed + self.timing.met
            yield f"{self.request.port}: {count} of {all_beats} beats found it not asking, the first in cycle {self.timing.first_missed}"

    def left(self):
        """In Verilog, what has to hold where an answer is left."""
        return f" && {self.request.verilog}__count < {self.limit}" if self.limit is not None else ""

    def verilog(self):
        """The lines of declaring, seeing, giving and noting."""
        net, (declared, asked, noted, due) = self.request.verilog, self.timing.verilog(self.request.verilog)
        may = f"{net}__waits{self.left()}"
        counts = [f"{net}__count = {net}__count + 1;"] if self.limit is not None else []
        writes = list(self.memory.writes(f"{net}value")) if self.memory else []
        values = list(self.source.gives(f"{self.answer.verilog}value")) if self.answer.bits else []
        return (
            [f"reg {net}__waits = 0;", *declared, *([f"integer {net}__count = 0;"] if counts else [])],
            block(f"if ({net})", [f"{net}__waits = 1;", *asked, *writes]),
            block(f"if ({may} && {due})", [f"{net}__waits = 0;", *counts, f"{self.answer.verilog} = 1;", *values]),
            noted,
        )


@dataclass
class Asking:
    """The handshake at which the environment asks: `count` times, or for ever where it is none, each time after a delay."""

    request: object
    answer: object
    delay: Delay
    count: int
    dice: Dice
    done: int = 0
    since: int = NEVER
    due: int = 0

    def __post_init__(self):
        self.due = self.first_due = self.dice.throw(self.delay.low, self.delay.high)
        self.dice.first = self.dice.state

    def see(self, cycle, events):
        if self.answer.name in events and self.since != NEVER:
            self.since = NEVER
            self.due = cycle + self.dice.throw(self.delay.low, self.delay.high)

    def next(self, cycle):
        return max(cycle, self.due) if self.since == NEVER and (self.count is None or self.done < self.count) else None

    def give(self, cycle):
        if self.next(cycle) != cycle:
            return []
        self.since, self.done = cycle, self.done + 1
        return [(self.request, None)]

    def stands(self):
        if self.since != NEVER:
            yield f"{self.request.name} is open since cycle {self.since}"

    def verilog(self):
        net, answer = self.request.verilog, self.answer.verilog
        throws, number = self.dice.thrown(self.delay.low, self.delay.high)
        may = f"!{net}__open && cycle >= {net}__due" + (f" && {net}__count < {self.count}" if self.count is not None else "")
        return (
            [f"reg {net}__open = 0;", f"integer {net}__due = {self.first_due};", f"integer {net}__count = 0;"],
            block(f"if ({answer} && {net}__open)", [f"{net}__open = 0;", *throws, f"{net}__due = cycle + {number};"]),
            block(f"if ({may})", [f"{net}__open = 1;", f"{net}__count = {net}__count + 1;", f"{net} = 1;"]),
            [],
        )


@dataclass
class Bound:
    """
    That a port asks again within so many cycles of its last answer, and of a beat that found it not asking; and that the root answers
    within so many cycles. `awaited` are the outputs for which it waits, and it counts from the inputs `counted`; where the root isn't
    asked, nothing is awaited.
    """

    port: str
    cycles: int
    awaited: list
    counted: list
    root: list
    beats: Answering = None
    since: int = NEVER
    what: str = ""
    is_open: bool = False
    is_quiet: bool = True
    is_told: bool = False
    late: list = field(default_factory=list)

    def __post_init__(self):
        if self.beats:
            self.beats.timing.bound = self

    def beat(self, cycle):
        """A beat found the port not asking."""
        if self.is_open and not self.is_told and self.since == NEVER:
            self.since, self.what = cycle, "the beat"

    def see(self, cycle, events):
        if self.since != NEVER and cycle - self.since > self.cycles:
            self.late.append(f"{self.what} in cycle {self.since}")
            self.since, self.is_told = NEVER, True
        if self.root[1].name in events:
            self.is_open, self.since = False, NEVER
        if any(it.name in events for it in self.awaited):
            self.is_quiet, self.since = False, NEVER

    def note(self, cycle, events):
        if self.root[0].name in events:
            self.is_open, self.is_told = True, False
        for it in self.counted:
            if it.name in events:
                self.is_quiet, self.is_told = True, False
                self.since, self.what = cycle if self.is_open else NEVER, it.name

    def next(self, cycle):
        """The cycle in which it is too late, as far as is known."""
        if self.since != NEVER:
            return self.since + self.cycles + 1
        if not self.beats or not self.is_open or not self.is_quiet or self.is_told or self.beats.timing.looked is None:
            return None
        return self.beats.timing.next(cycle) + self.cycles + 1

    def wrong(self):
        if self.late:
            more = len(self.late) - 1
            yield self.said(self.late[0]) + (f", and so {more} time{'s' * (more > 1)} more" if more else "")

    def said(self, since):
        what = "gives no answer" if self.port == self.root[0].port else "asks nothing"
        return f"{self.port} {what} within {self.cycles} cycle{'s' * (self.cycles != 1)} of {since}"

    def verilog(self):
        """The lines of declaring, seeing and noting."""
        net = f"{self.port}__within"
        awaited, counted = (" || ".join(it.verilog for it in pins) for pins in (self.awaited, self.counted))
        beat = f"{net}__open && {net}__quiet && !{net}__told && {net}__since < 0"
        seen = [
            *block(f"if ({net}__since >= 0 && cycle - {net}__since > {self.cycles})", [
                f'$display("wrong: {self.said("cycle %0d")}", {net}__since);', f"{net}__since = {NEVER};", f"{net}__told = 1;"]),
            *block(f"if ({self.root[1].verilog})", [f"{net}__open = 0;", f"{net}__since = {NEVER};"]),
            *block(f"if ({awaited})", [f"{net}__quiet = 0;", f"{net}__since = {NEVER};"]),
        ]
        noted = [
            *block(f"if ({self.root[0].verilog})", [f"{net}__open = 1;", f"{net}__told = 0;"]),
            *block(f"if ({counted})", [f"{net}__quiet = 1;", f"{net}__told = 0;", f"{net}__since = {net}__open ? cycle : {NEVER};"]),
        ]
        if self.beats:
            due = self.beats.timing.verilog(self.beats.request.verilog)[3]
            noted.append(f"if ({beat} && {due}{self.beats.left()}) {net}__since = cycle;")
        return [f"reg {net}__open = 0, {net}__quiet = 1, {net}__told = 0;", f"integer {net}__since = {NEVER};"], seen, noted


def block(head, lines):
    return [f"{head} begin", *(f"  {line}" for line in lines), "end"]


@dataclass
class Environment:
    """All that stands at the ports: their handshakes in order, where values come from, for how many cycles it is run, and what bounds
    there are."""

    handshakes: list
    sources: list
    dice: list
    cycles: int = None
    bounds: list = field(default_factory=list)

    def timings(self):
        return [it.timing for it in self.handshakes if isinstance(it, Answering)]

    def do(self, cycle, outputs):
        """The inputs of a cycle, each as its pin and its value or none, by the outputs of this cycle."""
        events = {pin.name: value for pin, value in outputs}
        for it in self.handshakes + self.bounds:
            it.see(cycle, events)
        for it in self.sources:
            it.move(cycle)
        inputs = [given for it in self.handshakes for given in it.give(cycle)]
        events.update((pin.name, value) for pin, value in inputs)
        events.update((name, None) for it in self.sources for name in it.moments())
        for it in self.bounds + self.timings() + self.sources:
            it.note(cycle, events)
        return inputs

    def end(self, cycles):
        """The run is over after so many cycles."""
        for it in self.timings():
            it.look(cycles)

    def next(self, cycle):
        """The first cycle from this one on in which something happens by itself: an input, a byte's end, the end of a bound; or none."""
        return min((at for it in self.handshakes + self.bounds + self.sources if (at := it.next(cycle)) is not None), default=None)

    def told(self):
        """What is to be said of beats that found a port not asking, and of bytes that have come."""
        yield from (line for it in self.handshakes if isinstance(it, Answering) for line in it.missed())
        yield from (line for it in self.sources if isinstance(it, Received) for line in it.told())

    def wrong(self):
        """What was written and not wanted, what was wanted and not written, and what came too late."""
        for it in self.sources:
            if isinstance(it, (Wanted, Received)):
                yield from it.wrong
                yield from it.missing()
        for it in self.bounds:
            yield from it.wrong()

    def stands(self):
        """Each handshake that is open and stays so as far as the environment knows."""
        return [line for it in self.handshakes for line in it.stands()]


@dataclass
class Run:
    """What happened: each pulse as its cycle, its pin and its value or none, outputs before inputs; and how many cycles."""

    pulses: list
    cycles: int
    is_over: bool


def run(circuit, environment, limit):
    """Runs a circuit in its environment, for the number of cycles that this has; or until nothing can happen any more, up to a limit."""
    made = played(circuit, environment, limit)
    environment.end(made.cycles)
    return made


def played(circuit, environment, limit):
    pulses, cycle, end, due = [], 0, environment.cycles or limit, environment.next(0)
    while cycle < end:
        outputs = circuit.outputs()
        is_looked_at = outputs or due == cycle
        inputs = environment.do(cycle, outputs) if is_looked_at else []
        # (the handshakes are in the order of the ports, and so are the inputs of a cycle in a trace)
        pulses.extend((cycle, pin, value) for pin, value in [*outputs, *inputs])
        circuit.give(inputs)
        moves = circuit.tick()
        cycle += 1
        if is_looked_at:
            due = environment.next(cycle)
        elif not moves:
            if due is None:
                return Run(pulses, environment.cycles or cycle, True)
            cycle = due
    return Run(pulses, end, environment.next(end) is None)
