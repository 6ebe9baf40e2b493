#!/usr/bin/env python3
"""Builds and runs each module of lib, and compares its table in lib/README.md with what it weighs and takes.

usage: tools/tests/test_lib.py GOS [WORDS OF unittest]
       tools/tests/test_lib.py GOS --write

With --write the table gets what is measured. A module is run by a main that gives it its arguments from ports. What has timers and
lines is played in a description of its environment (docs/PLAY.md).
"""
import re
import sys
import tempfile
from dataclasses import dataclass
from pathlib import Path

import built

import circuits  # (built has put the folder above into the path)
import descriptions
import environments

PAGE = built.LIBRARY / "README.md"
TABLE = re.compile(r"(?:^\|.*\n)+", re.M)


@dataclass
class User:
    """A main that uses a module: its imports beside the module, its term and its type, what the module does and its cycles in words."""

    imports: list
    term: str
    gives: str
    says: str
    cycles: str


USERS = {
    "repeat": User(["n : exp 8", "c : com"], "repeat n c", "com", "runs a command so often", "{base} + {round} a round"),
    "times": User(["n : exp 8", "v : var 8"], "times n (fun i : exp 8 . v := i)", "com", "runs it for 0, 1, 2 ..", "{base} + {round} a round"),
    "bit": User(["x : exp 8", "k : exp 3"], "bit x k", "exp 1", "the bit in a place", "{base} + {round} a place above it"),
    "shift_right": User(["x : exp 8", "n : exp 4"], "shift_right x n", "exp 8", "shifts by so many bits", "{base} + {round} a bit that stays"),
    "widen": User(["x : exp 8"], "widen x", "exp 16", "puts 8 bits into 16", "{base}"),
    "wait_until": User(["so : exp 1"], "wait_until so", "com", "asks until it is so", "{base} + {round} an answer of 0"),
    "mul": User(["x : exp 8", "y : exp 8"], "mul x y", "exp 8", "multiplies, modulo 256", "{base} + {round} a bit of 1 in y"),
    "divide": User(["x : exp 8", "y : exp 8", "rest : var 8"], "divide x y rest", "exp 8", "quotient and rest",
                   "{base} + {round} a 1 in the quotient"),
    "debounce": User(["pin : exp 1", "tick : com"], "debounce pin tick", "exp 1", "a level that stays", "{base} + {round} a look that differs"),
    "uart_receive": User(["line : exp 1", "half : com", "bit : com", "byte : var 8"], "uart_receive line (half, bit) byte", "exp 1",
                         "receives a byte", "{base} + {round} a bit of 1"),
    "uart_send": User(["byte : exp 8", "bit : com", "line : var 1"], "uart_send byte bit line", "com", "sends a byte", "{base}"),
    "spi": User(["byte : exp 8", "half : com", "sck : var 1", "mosi : var 1", "miso : exp 1"], "spi byte half sck mosi miso", "exp 8",
                "exchanges a byte, mode 0", "{base}"),
    "i2c_bit": User(["bit : exp 1", "half : com", "scl : var 1", "sda : var 1"], "i2c_bit bit half scl sda", "exp 1",
                    "exchanges a bit", "{base} + {round} an answer of 0"),
}
NUMBERS = (0, 1, 13, 85, 170, 203, 255)
USES = "| Module | In use | Where these are |\n|---|---|---|\n"


def module(name):
    return (built.LIBRARY / f"{name}.gos").read_text()


def type_of(name):
    """The type that a module gives, as its text has it."""
    return module(name).rsplit(" : ", 1)[1].strip()


def main_of(name, term="", gives="", imports=()):
    """The text of a main that uses a module: as its user does, or by another term and with more imports."""
    user = USERS[name]
    lines = "".join(f"import {it}\n" for it in [f"{name} : {type_of(name)}", *user.imports, *imports])
    return f"{lines}export {term or user.term} : {gives or user.gives}\n"


def run(room, name, runs):
    """Runs a module's main once for each list of answers that ports give, in the order in which they are asked.

    What came out, the cycles of each run, and what each answered.
    """
    request, answer = ("run", "done") if USERS[name].gives == "com" else ("ask", "ans")
    pulses = "".join(f"next 0 main.{request}\n" + "".join(f"next 0 {it}\n" for it in answers) for answers in runs)
    found = room.build({"main": main_of(name), name: module(name)}, f"cycles {900 * len(runs) + 9}\n{pulses}", [f"main {name} {name}"])
    taken = [end - start for start, end in zip(found.times(f"main.{request}"), found.times(f"main.{answer}"))]
    return found, taken, found.values(f"main.{answer}")


def looks(levels):
    """The answers of a pin that shows these levels, one at each tick."""
    return [it for level in levels for it in ("tick.done", f"pin.ans {level}")]


def received(byte, stop=1):
    """Answers with which uart_receive is given a byte and a stop bit."""
    bits = [it for at in range(8) for it in ("bit.done", f"line.ans {byte >> at & 1}")]
    return ["line.ans 0", "half.done", "line.ans 0", *bits, "byte.done", "bit.done", f"line.ans {stop}"]


class Wires:
    """A circuit at the wires scl and sda of I2C, with a slave that takes a byte and may acknowledge it. After each bit it holds scl low
    for a while."""

    HALF = 16

    def __init__(self, netlist, byte, acknowledges, held):
        self.circuit, self.byte, self.acknowledges, self.held = circuits.Circuit("net", netlist), byte, acknowledges, held
        self.master, self.level, self.free_from, self.pulls = {"scl": 0, "sda": 1}, 0, 0, False
        # what the slave has seen, and for how many cycles scl was low before each rise
        self.bits, self.lows, self.fell = [], [], 0

    def wires(self, cycle):
        return {"scl": int(self.master["scl"] and cycle >= self.free_from), "sda": int(self.master["sda"] and not self.pulls)}

    def follow(self, cycle):
        """What the slave does where scl has risen or fallen."""
        scl = self.wires(cycle)["scl"]
        if scl and not self.level:
            self.bits.append(self.wires(cycle)["sda"])
            self.lows.append(cycle - self.fell)
        elif self.level and not scl:
            self.pulls = self.acknowledges and len(self.bits) == 8
            self.fell, self.free_from = cycle, cycle + self.HALF + self.held
        self.level = scl

    def answer(self, cycle, name, value):
        """The answer to an output, how many cycles later it comes, and its value."""
        port, event = name.split(".")
        if event == "write":
            self.master[port] = value
        return {"ask": (0, f"{port}.ans", self.byte), "run": (self.HALF, f"{port}.done", None), "write": (0, f"{port}.done", None),
                "read": (0, f"{port}.ans", self.wires(cycle).get(port))}[event]

    def run(self, cycles):
        """Asks the root once; what it gives."""
        pins, due = {pin.name: pin for pin in self.circuit.pins}, {0: [("main.ask", None)]}
        for cycle in range(cycles):
            self.follow(cycle)
            for pin, value in self.circuit.outputs():
                if pin.name == "main.ans":
                    return value
                later, name, answer = self.answer(cycle, pin.name, value)
                due.setdefault(cycle + later, []).append((name, answer))
            self.follow(cycle)
            self.circuit.give([(pins[name], value) for name, value in due.pop(cycle, [])])
            self.circuit.tick()
        return None


def rounds(name, count):
    """Answers with which a module makes so many rounds."""
    return {
        "repeat": [f"n.ans {count}", *["c.done"] * count], "times": [f"n.ans {count}", *["v.done"] * count],
        "bit": ["x.ans 85", f"k.ans {7 - count}"], "shift_right": ["x.ans 85", f"n.ans {8 - count}"], "widen": [f"x.ans {count}"],
        "wait_until": [*["so.ans 0"] * count, "so.ans 1"], "mul": ["x.ans 85", f"y.ans {(1 << count) - 1}"],
        "divide": [f"x.ans {(1 << count) - 1}", "y.ans 1", "rest.done"],
        "debounce": looks([(at + 1) % 2 for at in range(count + 1)] + 3 * [(count + 1) % 2]),
        "uart_receive": received((1 << count) - 1), "uart_send": [f"byte.ans {count}", *["bit.done", "line.done"] * 10],
        "spi": [f"byte.ans {count}", *["mosi.done", "half.done", "sck.done", f"miso.ans {count % 2}", "half.done", "sck.done"] * 8],
        "i2c_bit": ["bit.ans 1", "sda.done", "half.done", "scl.done", *["scl.ans 0"] * count, "scl.ans 1", "half.done", "sda.ans 1", "scl.done"],
    }[name]


def row(room, name):
    """The row of the table for a module."""
    found, taken, _ = run(room, name, [rounds(name, count) for count in (0, 1, 2, 5)])
    base, each = taken[0], taken[1] - taken[0]
    assert taken == [base + count * each for count in (0, 1, 2, 5)], f"{name} takes {taken}"
    own = room.run(room.gos, "check", f"{name}.gos").stdout.split()[-1]
    cycles = USERS[name].cycles.format(base=base, round=each)
    return f"| `{name}` | `{type_of(name)}` | {USERS[name].says} | {own} | {found.cells} | {cycles} |"


def page(room, text):
    """The page with its table as it is measured, and with that of uses."""
    head = ["| Module | Type | What it does | Weight | Cells | Cycles |", "|---|---|---|---|---|---|"]
    uses = "".join(f"| `{name}` | `{user.term}` | `{', '.join(user.imports)}` |\n" for name, user in USERS.items())
    tables = iter(["\n".join([*head, *(row(room, name) for name in USERS)]) + "\n", f"{USES}{uses}"])
    return TABLE.sub(lambda _: next(tables), text, count=2)


class Library(built.Case):
    def check(self, name, cases, wanted):
        """Whether a module that gives a number gives these, with these answers of its arguments."""
        found, _, values = run(self.room, name, cases)
        self.assertEqual(found.unused, 0)
        self.assertEqual(values, wanted)

    def test_the_table(self):
        self.assertEqual(page(self.room, PAGE.read_text()), PAGE.read_text())

    def test_each_module_has_a_row(self):
        self.assertEqual(sorted(it.stem for it in built.LIBRARY.glob("*.gos")), sorted(USERS))

    def test_repeat(self):
        for count in (0, 1, 7):
            found, _, _ = run(self.room, "repeat", [rounds("repeat", count)] * 2)
            self.assertEqual(found.names(), 2 * ["main.run", "n.ask", "n.ans", *count * ["c.run", "c.done"], "main.done"])

    def test_times(self):
        found, _, _ = run(self.room, "times", [rounds("times", 4), rounds("times", 0), rounds("times", 2)])
        self.assertEqual((found.values("v.write"), found.unused), ([0, 1, 2, 3, 0, 1], 0))
        self.assertEqual(found.names().count("n.ask"), 3)

    def test_bit(self):
        cases = [(x, k) for x in (85, 203) for k in range(8)]
        self.check("bit", [[f"x.ans {x}", f"k.ans {k}"] for x, k in cases], [x >> k & 1 for x, k in cases])

    def test_shift_right(self):
        cases = [(x, n) for x in (170, 203) for n in (0, 1, 2, 5, 7, 8, 15)]
        self.check("shift_right", [[f"x.ans {x}", f"n.ans {n}"] for x, n in cases], [x >> n for x, n in cases])

    def test_widen(self):
        self.check("widen", [[f"x.ans {x}"] for x in NUMBERS], list(NUMBERS))

    def test_wait_until(self):
        found, _, _ = run(self.room, "wait_until", [rounds("wait_until", 3), rounds("wait_until", 0)])
        self.assertEqual(found.names(), ["main.run", *4 * ["so.ask", "so.ans"], "main.done", "main.run", "so.ask", "so.ans", "main.done"])

    def test_mul(self):
        cases = [*zip(NUMBERS, reversed(NUMBERS)), (0, 255), (1, 203), (255, 255), (16, 16), (15, 17)]
        self.check("mul", [[f"x.ans {x}", f"y.ans {y}"] for x, y in cases], [x * y % 256 for x, y in cases])

    def test_divide(self):
        cases = [(x, y) for x in (0, 1, 7, 100, 127, 128, 203, 255) for y in (0, 1, 3, 128, 129, 255)]
        found, _, values = run(self.room, "divide", [[f"x.ans {x}", f"y.ans {y}", "rest.done"] for x, y in cases])
        self.assertEqual(found.unused, 0)
        self.assertEqual(values, [x // y if y else 255 for x, y in cases])
        self.assertEqual(found.values("rest.write"), [x % y if y else x for x, y in cases])

    def test_debounce_at_each_look(self):
        cases = {(0, 0, 0, 0): 0, (1, 1, 1, 1): 1, (1, 0, 0, 0, 0): 0, (0, 0, 0, 1, 1, 1, 0, 1, 1, 1, 1): 1, (1, 1, 1, 0, 0, 1, 0, 0, 0, 0): 0}
        self.check("debounce", [looks(it) for it in cases], list(cases.values()))

    def test_debounce_passes_over_what_is_short(self):
        """A pin that is 1 for up to three ticks, and then, bouncing, for long."""
        main = main_of("debounce", "while not (debounce pin tick) do skip ; pressed", "com", ["pressed : com"])
        levels = "0, 1 after 100 cycles, 0 after 130 cycles, 1 after 400 cycles, 0 after 550 cycles, 1 after 1000 cycles, 0 after 1010 cycles"
        found = self.play(["debounce"], main, f"main runs once\npressed answers\ntick answers every 60 cycles\npin is {levels}, 1 after 1080 cycles")
        first = next(cycle for cycle in found.times("pin.ans") if cycle >= 1080)
        self.assertEqual(found.values("pin.ans").count(1), 1 + 3 + 4)
        self.assertEqual([cycle // 60 - first // 60 for cycle in found.times("pressed.run")], [3])

    UART = "half answers after 30 cycles\nbit answers every 60 cycles from half.done\n"

    def receive(self, line, *more):
        """What is received of a line that does so: the bytes, and the cycles in which it is looked at."""
        main = main_of("uart_receive", "if uart_receive line (half, bit) byte then skip else wrong", "com", ["wrong : com"])
        found = self.play(["uart_receive"], main, "\n".join([f"line {line}", self.UART, *more]))
        return found, found.times("line.ask")

    def test_uart_receive(self):
        text = b"gos\x00\xff\x55"
        found, looked = self.receive(f"sends {' '.join(map(str, text))} at 60 cycles a bit after 100 cycles",
                                     "main runs 6 times after 18 cycles", f"byte takes {' '.join(map(str, text))}", "wrong never answers")
        begin = 100
        for byte in text:
            # (it looks when half a bit is over, and then in the middle of each bit, as late as it saw the line fall)
            seen = next(cycle for cycle in looked if cycle >= begin)
            self.assertLess(seen - begin, 6)
            middles = [cycle for cycle in looked if seen + 28 < cycle < begin + 600 - 10]
            self.assertEqual(len(middles), 10)
            for at, cycle in enumerate(middles):
                self.assertTrue(30 <= cycle - begin - 60 * at < 46, (byte, at, cycle))
            begin += 600
        self.assertLess(found.times("main.done")[-1], begin)

    # What a bit has to be longer than half a bit and the caller's time together, and the shortest bit of all.
    SPARE, LEAST_BIT = 9, 34

    def receiver(self):
        """The circuit of a main that tells whether a byte had its stop bit."""
        main = main_of("uart_receive", "if uart_receive line (half, bit) byte then skip else wrong", "com", ["wrong : com"])
        self.room.build({"main": main, "uart_receive": module("uart_receive")}, "cycles 1\n", ["main uart_receive uart_receive"])
        return (self.room.path / "out.net").read_text()

    def stream(self, netlist, bit, caller, text, half=None):
        """What comes of bytes that follow one another at once, each call so many cycles behind the one before: the bytes that are written, and
        how late the beginning of each byte of the line is seen."""
        circuit = circuits.Circuit("out.net", netlist)
        around = descriptions.read("d", "\n".join([
            f"cycles {100 + 10 * bit * len(text) + 40}", f"main runs {len(text)} times after {caller} cycles", "byte is a variable", "wrong answers",
            f"line sends {' '.join(map(str, text))} at {bit} cycles a bit after 100 cycles", f"half answers after {half or bit // 2} cycles",
            f"bit answers every {bit} cycles from half.done"]), circuit.ports)
        pulses = environments.run(circuit, around, 10**6).pulses
        looked = [cycle for cycle, pin, _ in pulses if pin.name == "line.ans"]
        begins = range(100, 100 + 10 * bit * len(text), 10 * bit)
        late = [next((cycle for cycle in looked if cycle >= begin), begin + bit) - begin for begin in begins]
        wrong = [cycle for cycle, pin, _ in pulses if pin.name == "wrong.run"]
        return bytes(value for _, pin, value in pulses if pin.name == "byte.write") if not wrong else b"", late

    def test_uart_receive_and_its_caller(self):
        """Bits of 58 to 72 cycles and callers that take 0 to 20: these bytes are read right, and just where the page says so each one is seen
        at the next look at the line, which comes every 4 cycles."""
        netlist, text = self.receiver(), b"A\xff\x00U\x80g"
        for bit in range(58, 73):
            most = bit - bit // 2 - self.SPARE
            for caller in {0, 10, 20, most, most + 1}:
                with self.subTest(bit=bit, caller=caller):
                    got, late = self.stream(netlist, bit, caller, text)
                    self.assertEqual(got, text)
                    self.assertEqual(max(late) < 4, caller <= most, late)

    def test_uart_receive_for_long(self):
        """Where the caller takes a cycle too long, each byte is seen a cycle later than the one before, until one is wrong."""
        netlist, text = self.receiver(), bytes(range(255, 200, -1))
        for bit, half, caller in ((60, 30, 21), (60, 26, 25), (61, 30, 22)):
            self.assertEqual(self.stream(netlist, bit, caller, text, half)[0], text)
            self.assertNotEqual(self.stream(netlist, bit, caller + 1, text, half)[0], text)

    def test_uart_receive_at_its_shortest_bit(self):
        netlist, text = self.receiver(), b"\xff\xff\x00\xff"
        self.assertEqual(self.stream(netlist, self.LEAST_BIT, 0, text)[0], text)
        self.assertNotEqual(self.stream(netlist, self.LEAST_BIT - 1, 0, text)[0], text)

    def test_uart_receive_without_a_stop_bit(self):
        found, _ = self.receive("is 1 0 1 0 0 0 0 0 1 0 0 1 for 60 cycles each", "main runs once", "byte takes 65", "wrong answers")
        self.assertEqual(len(found.times("wrong.run")), 1)

    def test_uart_receive_passes_over_a_short_fall(self):
        levels = "1, 0 after 50 cycles, 1 after 70 cycles, 0 after 200 cycles, 1 after 260 cycles, 0 after 320 cycles, 1 after 740 cycles"
        found, _ = self.receive(f"is {levels}", "main runs once", "byte takes 1", "wrong never answers")
        self.assertEqual(len(found.times("half.run")), 2)

    def test_uart_send(self):
        text = (0x41, 0, 255, 0x80, 0x01)
        bits = [bit for byte in text for bit in (0, *(byte >> at & 1 for at in range(8)), 1)]
        found = self.play(["uart_send"], main_of("uart_send"), f"main runs 5 times\nbyte gives {' '.join(map(str, text))}\n"
                          f"bit answers every 50 cycles\nline takes {' '.join(map(str, bits))}")
        written = found.times("line.write")
        self.assertEqual([cycle - written[0] for cycle in written], [50 * at for at in range(50)])
        self.assertEqual({cycle - tick for cycle, tick in zip(written, found.times("bit.done"))}, {written[0] - found.times("bit.done")[0]})

    def test_uart_to_itself(self):
        """What one sends the other receives, in a circuit that has both."""
        imports = ["uart_receive : exp 1 -> com * com -> var 8 -> exp 1", "wire : exp 1", "half : com", "middle : com", "got : var 8", "wrong : com"]
        main = main_of("uart_send", "uart_send byte bit line || (if uart_receive wire (half, middle) got then skip else wrong)", "com", imports)
        around = ["main runs 3 times after 200 cycles", "byte gives 71 200 5", "bit answers every 40 cycles", "line is a variable from 1",
                  "wire is an array from 0 1 at line", "half answers after 20 cycles", "middle answers every 40 cycles from half.done",
                  "got takes 71 200 5", "wrong never answers"]
        self.play(["uart_send", "uart_receive"], main, "\n".join(around))

    def test_spi(self):
        sent, came = (0xA5, 0x00, 0xFF, 0x01), (0x3C, 0xFF, 0x80, 0x55)
        bits = [" ".join(str(byte >> at & 1) for byte in some for at in range(7, -1, -1)) for some in (sent, came)]
        found = self.play(["spi"], main_of("spi"), f"main runs 4 times\nbyte gives {' '.join(map(str, sent))}\nhalf answers after 16 cycles\n"
                          f"sck takes {'1 0 ' * 32}\nmosi takes {bits[0]}\nmiso gives {bits[1]}")
        self.assertEqual(found.values("main.ans"), list(came))
        turn = ["mosi.write", "mosi.done", "half.run", "half.done", "sck.write", "sck.done", "miso.ask", "miso.ans", "half.run", "half.done",
                "sck.write", "sck.done"]
        self.assertEqual(found.names(), ["main.ask", "byte.ask", "byte.ans", *8 * turn, "main.ans"] * 4)
        rises, falls = found.times("sck.write")[::2], found.times("sck.write")[1::2]
        self.assertTrue(all(16 <= fall - rise <= 48 for rise, fall in zip(rises, falls)))

    def test_i2c_bit(self):
        for bit, level, stretched in ((0, 0, 0), (1, 1, 0), (1, 0, 5), (0, 0, 17)):
            waits = ["scl.done", *["scl.ans 0"] * stretched, "scl.ans 1"]
            answers = [f"bit.ans {bit}", "sda.done", "half.done", *waits, "half.done", f"sda.ans {level}", "scl.done"]
            found, _, values = run(self.room, "i2c_bit", [answers])
            held = ["scl.read", "scl.ans"] * (stretched + 1)
            self.assertEqual((values, found.values("sda.write"), found.values("scl.write"), found.unused), ([level], [bit], [1, 0], 0))
            self.assertEqual(found.names()[3:-1], ["sda.write", "sda.done", "half.run", "half.done", "scl.write", "scl.done", *held,
                                                   "half.run", "half.done", "sda.read", "sda.ans", "scl.write", "scl.done"])

    def test_i2c_byte_on_wires(self):
        """A byte and its acknowledge, on two wires that a slave pulls down too, which holds scl after each bit."""
        byte = "while !i < 8:4 do (seen := i2c_bit (not (!n < 128:8)) half scl sda ; n := !n + !n ; i := !i + 1:4)"
        term = f"new n : 8 in new i : 4 in new seen : 1 in (n := byte ; {byte} ; seen := i2c_bit 1:1 half scl sda ; !seen)"
        main = main_of("i2c_bit", term, "exp 1").replace("import bit : exp 1", "import byte : exp 8")
        self.room.build({"main": main, "i2c_bit": module("i2c_bit")}, "cycles 9\n", ["main i2c_bit i2c_bit"])
        for sent, acknowledges, held in ((0xA6, True, 0), (0x01, False, 0), (0xFF, True, 40), (0x5B, True, 7)):
            wires = Wires((self.room.path / "out.net").read_text(), sent, acknowledges, held)
            self.assertEqual(wires.run(3000), int(not acknowledges))
            self.assertEqual(wires.bits, [sent >> at & 1 for at in range(7, -1, -1)] + [int(not acknowledges)])
            # (no rise comes before half is over, nor while the slave holds the line, as it does behind each bit)
            self.assertTrue(all(low >= 16 + held for low in wires.lows[1:]), wires.lows)

    def play(self, names, main, description):
        """Plays a main that uses these modules in the environment of this description, in which nothing goes wrong. What came out."""
        modules = {"main": main, **{name: module(name) for name in names}}
        return self.room.play(modules, description + "\n", [f"main {name} {name}" for name in names])


def write(gos):
    """Gives the table what is measured."""
    built.Room.gos = str(Path(gos).resolve())
    with tempfile.TemporaryDirectory() as room:
        PAGE.write_text(page(built.Room(room), PAGE.read_text()))


if __name__ == "__main__":
    if sys.argv[2:] == ["--write"]:
        write(sys.argv[1])
    else:
        built.main(__doc__)
