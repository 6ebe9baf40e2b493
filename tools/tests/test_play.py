#!/usr/bin/env python3
"""What gos-play, gos-why, gos-bench and gos-formal print, at worked examples, and what docs/PLAY.md says of them.

usage: tools/tests/test_play.py [GOS]

GOS is the program (crates/gos/out/gos); without it only what needs none is tried. Icarus Verilog and yosys are used where they are
installed. The status is 1 where something differs.
"""
import os
import re
import shutil
import subprocess
import sys
import tempfile
import unittest
from pathlib import Path

TOP = Path(__file__).resolve().parent.parent.parent
TOOLS, EXAMPLES, LATCH = TOP / "tools", TOP / "examples", TOP / "examples" / "latch"
sys.path.insert(0, str(TOOLS))
import circuits  # noqa: E402
import descriptions  # noqa: E402
import environments  # noqa: E402
from builds import Wrong  # noqa: E402

GOS = str(Path(sys.argv.pop(1)).resolve()) if len(sys.argv) > 1 and not sys.argv[1].startswith("-") else ""
# `c ; d`, as in docs/FORMATS.md.
SEQUENCE = """gosnet 1
cells 7
input 1
reg 1 6
const 1 0
reg 1 0
input 1
reg 1 4
input 1
ports 3
give main com 0 1
take c com 3 4
take d com 5 6
end
"""
# Asks e, writes what comes to x, reads x, and is done.
COPY = """gosnet 1
cells 11
input 1
reg 1 6
reg 1 0
input 1
input 4
reg 1 10
input 1
input 4
reg 1 3
reg 4 4
input 1
ports 3
give main com 0 1
take e exp 4 2 3 4
take x var 4 5 6 7 8 9 10
end
"""

# The same with numbers of one bit.
LINE = COPY.replace("input 4", "input 1").replace("reg 4 4", "reg 1 4").replace("exp 4", "exp 1").replace("var 4", "var 1")
# What a line sends that waits for what it is answered, to a circuit that writes what it reads.
DIALOGUE = """main runs for ever
e sends "A" at 20 cycles a bit after 30 cycles, "BC" after 10 to 40 cycles from x.byte, 255 after x.byte, "D" after 50 cycles
cycles 1700
"""


def command(*words, cwd=None):
    path = f"{cwd}:{TOOLS}:{os.environ['PATH']}"
    return subprocess.run([str(it) for it in words], cwd=cwd, capture_output=True, text=True, env={**os.environ, "PATH": path}, check=False)


def latch_in_verilog():
    text = (TOP / "docs" / "FORMATS.md").read_text()
    return "".join(f"{line[4:]}\n" for line in re.search(r"    module gos_main.*?    endmodule\n", text, re.S)[0].splitlines())


class Room(unittest.TestCase):
    """A test with a folder of its own."""

    def setUp(self):
        room = tempfile.TemporaryDirectory()
        self.addCleanup(room.cleanup)
        self.room = Path(room.name)

    def write(self, **texts):
        for name, text in texts.items():
            (self.room / name).write_text(text)

    def said(self, *words, status=0):
        ran = command(*words, cwd=self.room)
        self.assertEqual((ran.returncode, ran.stderr if not status else ""), (status, ""), ran.stdout + ran.stderr)
        return ran.stdout + ran.stderr


def played(net, text, limit=1000):
    """The pulses of a run in the environment of a description, as lines of a trace; and the environment."""
    circuit = circuits.Circuit("net", net)
    around = descriptions.read("d", text, circuit.ports)
    run = environments.run(circuit, around, limit)
    lines = [f"{cycle} {pin.name}" + (f" {value}" if pin.bits else "") for cycle, pin, value in run.pulses]
    return lines, run, around


class Playing(unittest.TestCase):
    def test_commands(self):
        lines, run, _ = played(SEQUENCE, "main runs once\nc answers\nd answers\n")
        self.assertEqual(lines, ["0 main.run", "1 c.run", "1 c.done", "2 d.run", "2 d.done", "3 main.done"])
        self.assertTrue(run.is_over)
        self.assertLess(run.cycles, 10)

    def test_delays(self):
        text = "# one\nmain runs 2 times after 3 cycles\nc answers after 4 cycles # two\nd answers every 10 cycles\ncycles 60\n"
        lines, run, _ = played(SEQUENCE, text)
        self.assertEqual(lines[:6], ["3 main.run", "4 c.run", "8 c.done", "9 d.run", "10 d.done", "11 main.done"])
        self.assertEqual(lines[6:], ["14 main.run", "15 c.run", "19 c.done", "20 d.run", "20 d.done", "21 main.done"])
        self.assertEqual(run.cycles, 60)

    def test_a_pace_from_an_event(self):
        lines, _, _ = played(SEQUENCE, "main runs once\nc answers after 7 cycles\nd answers every 5 cycles from c.done\n")
        self.assertEqual(lines[2:5], ["8 c.done", "9 d.run", "13 d.done"])

    def test_answers_come_to_an_end(self):
        lines, run, around = played(SEQUENCE, "main runs for ever\nc answers 2 times\nd answers\ncycles 30\n")
        self.assertEqual(lines[-1], "7 c.run")
        self.assertEqual(list(around.stands())[1], "c.run is open since cycle 7: it was answered 2 times, and no answer is left")
        self.assertEqual(run.cycles, 30)

    def values(self, saying, cycles=100):
        lines, _, _ = played(COPY, f"main runs for ever\ne {saying}\nx is a variable of 4 bits from 9\ncycles {cycles}\n")
        return [int(line.split()[2]) for line in lines if " e.ans " in line]

    def test_values(self):
        self.assertEqual(self.values("gives 1 0x2 0b11"), [1, 2, 3])
        self.assertEqual(self.values("gives 1 2 ..", 20), [1, 2, 2, 2, 2])
        self.assertEqual(self.values("gives 1 2 again", 20), [1, 2, 1, 2, 1])
        self.assertEqual(self.values("gives \"\t\" 5"), [9, 5])
        self.assertEqual(set(self.values("gives random 3 to 4")), {3, 4})
        self.assertEqual(self.values("never answers"), [])

    def test_levels(self):
        self.assertEqual(self.values("is 3, 4 after 6 cycles, 5 after 10 cycles", 20), [3, 3, 4, 5, 5])
        self.assertEqual(self.values("is 3, 4 after x.write", 20), [3, 4, 4, 4, 4])
        self.assertEqual(self.values("is 3, 4 after 4 cycles from x.write", 20), [3, 3, 4, 4, 4])
        # an event that comes again begins its count anew
        self.assertEqual(self.values("is 3, 4 after 5 cycles from x.write", 20), [3, 3, 3, 3, 3])
        self.assertEqual(self.values("is 3, 4 after 3 cycles from x.write, 6 after main.done", 20), [3, 6, 6, 6, 6])
        self.assertEqual(self.values("is 1 2 3 for 4 cycles each", 20), [1, 2, 3, 3, 3])
        self.assertEqual(self.values("is 1 2 3 for 4 cycles each again", 20), [1, 2, 3, 1, 2])

    def test_arrays(self):
        self.assertEqual(self.values("is an array from 7 8 9 at x", 20), [0, 7, 0, 7, 0])

    def test_memory(self):
        lines, _, around = played(COPY, "main runs 2 times\ne gives 5 6\nx takes 5 7 after 2 cycles\n")
        self.assertEqual([line for line in lines if " x." in line][:4], ["2 x.write 5", "4 x.done", "5 x.read", "7 x.ans 5"])
        self.assertEqual(list(around.wrong()), ["x takes 6 in cycle 10, and 7 is wanted"])
        _, _, around = played(COPY, "main runs once\ne gives 5\nx takes 5 7\n")
        self.assertEqual(list(around.wrong()), ["x takes 1 values, and 2 are wanted"])

    def test_serial_line(self):
        self.assertEqual(descriptions.framed([0x41]), [0, 1, 0, 0, 0, 0, 0, 1, 0, 1])

    def heard(self, saying, description=DIALOGUE):
        """What is said of a line to which a circuit writes, and what is wrong there."""
        around = played(LINE, f"{description}x receives 8n1 every 20 cycles {saying}\n")[2]
        return list(around.told()), list(around.wrong())

    def test_a_dialogue(self):
        self.assertEqual(self.heard(""), (['x receives "ABC" 255 "D"'], []))
        self.assertEqual(self.heard("expects \"ABC\" 255 \"D\""), ([], []))
        _, wrong = self.heard("expects \"AC\"")
        self.assertEqual([line.split(" in cycle ")[0] for line in wrong], ["x receives 66", "x receives 67", "x receives 255", "x receives 68"])
        self.assertRegex(wrong[0], r"^x receives 66 in cycle \d+, and 67 is wanted$")
        self.assertRegex(wrong[1], r"^x receives 67 in cycle \d+, and nothing is wanted$")
        self.assertEqual(self.heard("expects \"ABC\" 255 \"D\" 0")[1], ["x receives 5 bytes, and 6 are wanted"])

    def test_bursts_begin_at_their_events(self):
        """Bytes of ten cycles: at the beginning, at an event that came while the first one was sent, and behind the one before."""
        line = environments.Serial("e", 1, [environments.Burst([0] * 9 + [1], environments.Delay()),
                                            environments.Burst([0] * 9 + [1], environments.Delay(2, 2), environments.Moment("c.ans", "")),
                                            environments.Burst([0] * 9 + [1], environments.Delay(5, 5))], environments.Dice("e", 1, 0))
        seen = []
        for cycle in range(60):
            line.move(cycle)
            seen.append(line.value(cycle))
            line.note(cycle, {"c.ans": 1} if cycle in (4, 30) else {})
        zeros = [cycle for cycle in range(60) if not seen[cycle]]
        self.assertEqual(zeros, [*range(9), *range(10, 19), *range(25, 34)])

    def test_faults_of_a_line(self):
        short = "main runs for ever\ne is 1, 0 after 30 cycles, 1 after 36 cycles\ncycles 400\n"
        self.assertEqual(self.heard("", short), (["x receives nothing"], ["x is 0 for less than half a bit, from cycle 34 on"]))
        low = "main runs for ever\ne is 1, 0 after 30 cycles\ncycles 400\n"
        self.assertEqual(self.heard("expects 0", low)[1], ["x has no stop bit in cycle 224"])

    def test_a_run_goes_on_to_the_end_of_a_byte(self):
        lines, run, around = played(LINE, "main runs once\ne is 0\nx receives 8n1 every 20 cycles\n")
        self.assertEqual((lines[-1], list(around.told()), run.cycles > 190), ("4 main.done", ["x receives 0"], True))

    def test_beats_that_find_a_port_not_asking(self):
        """At beats of 4 cycles c asks in each second one; a beat of the cycle of its request is met, and so is none behind the last answer."""
        said = {}
        for pace in ("every 4 cycles", "every 4 cycles from main.run", "2 times every 4 cycles", "every 7 cycles"):
            text = f"main runs 3 times after 1 cycle\nc answers {pace}\nd answers after 4 cycles\n"
            lines, run, around = played(SEQUENCE, text)
            answered = [int(line.split()[0]) for line in lines if line.endswith("c.done")]
            said[pace] = answered, run.cycles, list(around.told())
        self.assertEqual(said, {
            "every 4 cycles": ([4, 12, 20], 28, ["c: 3 of 6 beats found it not asking, the first in cycle 8"]),
            "every 4 cycles from main.run": ([5, 16, 27], 35, ["c: 3 of 6 beats found it not asking, the first in cycle 9"]),
            "2 times every 4 cycles": ([4, 12], 22, ["c: 1 of 3 beats found it not asking, the first in cycle 8"]),
            "every 7 cycles": ([7, 21, 35], 43, ["c: 3 of 6 beats found it not asking, the first in cycle 14"]),
        })

    def test_a_circuit_that_is_too_late(self):
        text = "main runs 2 times\nc answers every 4 cycles\nd answers after {0} cycles\n{1}"
        cases = {
            # (c is done in cycles 4 and 16, and the root in cycles 15 and 27)
            (9, "c within 11 cycles"): [], (9, "c within 10 cycles"): ["c asks nothing within 10 cycles of c.done in cycle 4, and so 1 time more"],
            # (the root is done in cycles 9 and 17)
            (3, "main within 9 cycles"): [], (3, "main within 8 cycles"): ["main gives no answer within 8 cycles of main.run in cycle 0"],
        }
        for (cycles, line), wanted in cases.items():
            with self.subTest(line, cycles=cycles):
                self.assertEqual(list(played(SEQUENCE, text.format(cycles, line))[2].wrong()), wanted)

    def test_a_circuit_that_stands_still_is_too_late(self):
        """d is asked at none of its beats, and c never again."""
        lines, run, around = played(SEQUENCE, "main runs once\nc never answers\nd answers every 5 cycles\nd within 7 cycles\n")
        self.assertEqual((lines, list(around.wrong())), (["0 main.run", "1 c.run"], ["d asks nothing within 7 cycles of the beat in cycle 5"]))
        self.assertTrue(run.is_over and run.cycles >= 13, run)

    def test_chance_is_the_seeds(self):
        once, again, other = (played(SEQUENCE, f"seed {seed}\nmain runs 9 times\nc answers after 0 to 9 cycles\nd answers\n")[0] for seed in (1, 1, 2))
        self.assertEqual(once, again)
        self.assertNotEqual(once, other)

    def test_chance_of_64_bits(self):
        dice = environments.Dice("e", 1, 0)
        numbers = [dice.throw(2**63, 2**64 - 1) for _ in range(99)]
        self.assertTrue(all(2**63 <= number < 2**64 for number in numbers) and any(number >> 32 != 2**31 for number in numbers))
        self.assertEqual(dice.thrown(0, 2**64 - 1)[1], "{e__dice__high, e__dice}")
        self.assertEqual(dice.thrown(2**63, 2**63)[1], f"64'd{2**63}")

    def test_long_waits_cost_nothing(self):
        lines, _, _ = played(SEQUENCE, "main runs once\nc answers after 900000 cycles\nd answers\n", 1_000_000)
        self.assertEqual(lines[-1], "900003 main.done")

    def test_a_ring(self):
        with self.assertRaisesRegex(Wrong, "net: cells drive one another in a ring"):
            circuits.Circuit("net", "gosnet 1\ncells 3\ninput 1\nor 1 0 2\nand 1 1 1\nports 1\ngive main com 0 2\nend\n")


class Messages(unittest.TestCase):
    LINES = {
        "main runs 3 tims": "d:1:13: `tims` can't stand here; is `times` meant?",
        "main runs 0 times": "d:1:11: how often is 1 to 1000000, and not 0",
        "main run": "d:1:6: `run` can't stand here; is `runs` meant?",
        "main runs for a while": "d:1:15: `a` can't stand here; what can: `ever`",
        "e gives": "d:1:8: the line ends here; what can: `random`, a value of 4 bits",
        "e gives 16": "d:1:9: a value of 4 bits is 0 to 15, and not 16",
        "e gives \"a\"": "d:1:9: a letter has more than 4 bits",
        "e gives 1 afte 3 cycles": "d:1:11: `afte` can't stand here; is `after` meant?",
        "e gives 1 after 3": "d:1:18: the line ends here; what can: `to`, `cycle`, `cycles`",
        "e gives 1 after 3 to 2 cycles": "d:1:22: a number of cycles is 3 to 1000000, and not 2",
        "e is 1, 0 after x.wrote": "d:1:17: no port has an event `x.wrote`; is `x.write` meant?",
        "e is 1, 0 after 0 cycles from x.write": "d:1:17: a level changes one cycle after an event or more",
        "e sends 5 at 3 cycles a bit": "d:1:9: bits are sent one after the other, and e is an expression of 4 bits",
        "e is an array at e": "d:1:18: `e` can't stand here; what can: a port of which a line says `is a variable`",
        "e answers": "d:1:3: `answers` can't stand here; what can: `within`, `never`, `gives`, `sends`, `is`",
        "x is a variable of 5 bits": "d:1:20: x has 4 bits",
        "x is variable": "d:1:6: `variable` can't stand here; what can: `an`, `a`",
        "y answers": "d:1:1: `y` can't stand here; what can: `cycles`, `seed`, `main`, `e`, `x`",
        "e gives 1 ?": "d:1:11: `?` can't stand here; what can: a value, `..`, `again`, `every`, `after`, the end of the line",
        "e gives 1\ne gives 2": "d:2:1: of the port e line 1 says something already",
        "e within 3": "d:1:11: the line ends here; what can: `cycle`, `cycles`",
        "e within 3 cycles\ne within 2 cycles": "d:2:1: of the port e line 1 says something already",
        "x receives 8n1 every 3 cycles": "d:1:3: bits are received one after the other, and x is a variable of 4 bits",
        "cycles 0": "d:1:8: a number of cycles is 1 to 1000000, and not 0",
    }

    def test_each(self):
        for text, message in self.LINES.items():
            with self.subTest(text), self.assertRaises(Wrong) as wrong:
                played(COPY, text)
            self.assertEqual(str(wrong.exception), message)

    def test_of_lines(self):
        cases = {
            "x receives 8e1": "d:1:12: `8e1` can't stand here; what can: `8n1`",
            "x receives 8n1 every 3": "d:1:23: the line ends here; what can: `cycle`, `cycles`",
            "e sends 1 at 3 cycles a bit after 0 cycles from x.byte\nx receives 8n1 every 3 cycles":
                "d:1:35: a line begins to send one cycle after an event or more",
            "e sends 1 at 3 cycles a bit after 1 cycle from x.byte\nx is a variable": "d:1:48: no port has an event `x.byte`; is `x.write` meant?",
            "e sends 1 at 3 cycles a bit, 2": "d:1:31: the line ends here; what can: a value, `after`",
        }
        for text, message in cases.items():
            with self.subTest(text), self.assertRaises(Wrong) as wrong:
                played(LINE, text)
            self.assertEqual(str(wrong.exception), message)

    def test_a_port_of_which_nothing_is_said(self):
        with self.assertRaises(Wrong) as wrong:
            played(COPY, "main runs once\ne gives 1\n")
        said = str(wrong.exception).split("\n")
        self.assertEqual(said[:2], ["d: nothing is said of the port x, which is a variable of 4 bits. For example", "    x is a variable"])


class Why(Room):
    def why(self, net, pulses, trace, status=3):
        self.write(net=net, pulses=pulses, trace=trace)
        return self.said(TOOLS / "gos-why", "net", "pulses", "trace", status=status).splitlines()

    def test_all_is_over(self):
        pulses = "cycles 9\nnext 0 main.run\nnext 0 c.done\nat 5 d.done\n"
        trace = "0 main.run\n1 c.run\n1 c.done\n2 d.run\n5 d.done\n6 main.done\ncycles 9\n"
        self.assertEqual(self.why(SEQUENCE, pulses, trace, 0), ["all is over: each entry was given, and each handshake is closed, after 9 cycles"])

    def test_out_of_order(self):
        said = self.why(SEQUENCE, "# x\ncycles 9\nnext 0 main.run\nnext 0 d.done\nnext 0 c.done\n", "0 main.run\n1 c.run\ncycles 9\n")
        self.assertEqual(said, [
            "nothing moves in the circuit since cycle 2, of 9",
            "main.run is open since cycle 0: the circuit hasn't come to main.done",
            "c.run is open since cycle 1: pulses:5 answers it, but stands behind line 4, which isn't given yet",
            "pulses:4: `next 0 d.done` is not given: it waits for d.run, which never comes; so the one behind it waits too",
        ])

    def test_a_distance(self):
        said = self.why(SEQUENCE, "cycles 9\nnext 1 main.run\nnext 8 c.done\n", "1 main.run\n2 c.run\ncycles 9\n")
        self.assertEqual(said[2], "c.run is open since cycle 2: pulses:3 answers it")
        self.assertIn("its 8 cycles, counted from cycle 1, in which the entry before it was given, aren't over before the run ends", said[3])

    def test_a_root_that_is_open(self):
        said = self.why(SEQUENCE, "cycles 9\nnext 0 main.run\nnext 0 main.run\n", "0 main.run\n1 c.run\ncycles 9\n")
        self.assertEqual(said[2], "c.run is open since cycle 1: no entry is left for c.done")
        self.assertEqual(said[3], "pulses:3: `next 0 main.run` is not given: it waits for main.done: main.run is open since cycle 0")

    def test_a_trace_of_another_run(self):
        for trace in ("0 main.run\n1 c.run\ncycles 9\n", "0 main.run\n1 d.run\ncycles 9\n", "1 main.run\n2 c.run\ncycles 9\n", "cycles 8\n"):
            said = self.why(SEQUENCE, "cycles 9\nnext 0 main.run\nnext 0 c.done\n", trace, 2)
            self.assertEqual(said, ["trace is not the trace of net under pulses: run gos sim or gos build again"])

    def test_a_circuit_that_moves_on(self):
        ring = "gosnet 1\ncells 5\ninput 1\nor 1 0 4\nreg 1 1\nnot 1 2\nreg 1 3\nports 1\ngive main com 0 2\nend\n"
        self.assertEqual(self.why(ring, "cycles 1\nnext 0 main.run\n", "0 main.run\ncycles 1\n")[0], "the circuit moves on when the run ends, after 1 cycles")

    def test_what_is_missing(self):
        self.write(net="x", b="gosbuild 1\nroot main\nnet out.net\npulses in.pls\n")
        messages = {"net": "net: this is no build file", "b": "b: it has no line of trace, verilog", "no": "no: No such file or directory"}
        for file, message in messages.items():
            self.assertEqual(self.said(TOOLS / "gos-why", file, status=2).strip(), message)


@unittest.skipUnless(shutil.which("iverilog"), "Icarus Verilog is not installed")
class Bench(Room):
    def bench(self, trace, status):
        """What it says of the latch, by Icarus Verilog alone: a folder on the path hides what else there is."""
        self.write(v=latch_in_verilog(), trace=trace)
        there = self.room / "there"
        there.mkdir()
        for name in ("env", "python3", "iverilog", "vvp"):
            (there / name).symlink_to(shutil.which(name))
        words = [sys.executable, TOOLS / "gos-bench", LATCH / "a.net", "v", "trace"]
        ran = subprocess.run(words, cwd=self.room, capture_output=True, text=True, env={**os.environ, "PATH": str(there)}, check=False)
        self.assertEqual((ran.returncode, ran.stderr), (status, ""))
        return ran.stdout

    def test_it_agrees(self):
        said = self.bench((LATCH / "trace.txt").read_text(), 0)
        self.assertEqual(said, "iverilog: agrees in 3 cycles\nverilator: is not installed\n")

    def test_it_differs(self):
        said = self.bench("0 main.run\n1 main.done\ncycles 3\n", 3)
        self.assertEqual(said.split("\n")[0], "iverilog: differs in cycle 2: main__done is 1 and not 0")


class Formal(Room):
    def test_the_module(self):
        self.write(net=COPY, v="")
        self.said(TOOLS / "gos-formal", "--write", "f.sv", "--seconds", "1", "--steps", "1", "net", "nothing.v", status=2 if shutil.which("yosys") else 4)
        text = (self.room / "f.sv").read_text()
        for line in ("assign main__run = main__run__given & started & (~main__run__was_open | main__done);",
                     "assign x__ans = x__ans__given & started & (x__read__was_open | x__read);",
                     "assign e__ansvalue = e__ansvalue__given & {4{e__ans}};", "assert (~x__write | ~x__write__was_open);",
                     "assert (x__write | x__writevalue == 0);"):
            self.assertIn(line, text)

    def test_a_property_without_a_form(self):
        self.write(p="assert a b\n")
        said = self.said(TOOLS / "gos-formal", LATCH / "a.net", "v", "p", status=2)
        self.assertEqual(said, "p:1: the form of this line is `assert NAME: EXPRESSION` or `assume NAME: EXPRESSION`\n")

    @unittest.skipUnless(shutil.which("yosys"), "yosys is not installed")
    def test_the_latch_breaks_the_protocol(self):
        self.write(v=latch_in_verilog())
        said = self.said(TOOLS / "gos-formal", LATCH / "a.net", "v", status=3)
        self.assertTrue(said.startswith("fails: main__done__in_turn in cycle 2\n0 main.run\n1 main.done\n2 main.done\n"), said)


@unittest.skipUnless(GOS, "no program is given")
class Benches(Room):
    """A circuit of one module, in an environment that reacts, and the same as a testbench."""

    BUILD = "gosbuild 1\ninst main main.gos main.obj\nroot main\nnet out.net\nverilog out.v\npulses in.pls\ntrace out.trc\n"

    def play(self, module, description, status):
        """What gos-play prints of a module, and the lines that its testbench prints beside the trace, or none."""
        self.write(**{"main.gos": module, "b.txt": self.BUILD, "d.play": description})
        said = self.said(TOOLS / "gos-play", "--gos", GOS, "--verilog", "bench.v", "b.txt", "d.play", status=status)
        if not shutil.which("iverilog"):
            return said.splitlines(), None
        self.said("iverilog", "-g2005", "-o", "bench.vvp", "bench.v", "out.v")
        printed = self.said("vvp", "-n", "bench.vvp").splitlines()
        trace = [line for line in printed if not line.startswith("wrong: ")]
        self.assertEqual(trace, (self.room / "out.trc").read_text().splitlines())
        return said.splitlines(), [line for line in printed if line not in trace]

    def test_a_dialogue(self):
        module = "import e : exp 1\nimport x : var 1\nexport x := e : com\n"
        receives = "x receives 8n1 every 20 cycles"
        self.assertEqual(self.play(module, f"{DIALOGUE}{receives}\n", 0)[0][2:], ['x receives "ABC" 255 "D"'])
        said, wrong = self.play(module, f"{DIALOGUE}{receives} expects \"ABD\"\n", 3)
        self.assertEqual(len(said), 5)
        self.assertIn(wrong, (None, [f"wrong: {line}" for line in said[2:]]))

    def test_half_speed(self):
        module = "import tick : com\nimport out : var 8\nexport new n : 8 in while 1:1 do (tick ; n := !n + 1:8 ; out := !n ; out := !n + !n) : com\n"
        around = "cycles 4000\nmain runs once\nout is a variable\ntick answers every 16 cycles\n"
        said, _ = self.play(module, around, 0)
        self.assertEqual(said[2:], ["tick: 124 of 249 beats found it not asking, the first in cycle 32"])
        said, wrong = self.play(module, around + "tick within 16 cycles\n", 3)
        self.assertEqual(said[3:], ["tick asks nothing within 16 cycles of tick.done in cycle 16, and so 123 times more"])
        if wrong is not None:
            self.assertEqual(wrong, [f"wrong: tick asks nothing within 16 cycles of cycle {16 + 32 * at}" for at in range(124)])
        said, wrong = self.play(module, around + "tick within 32 cycles\nout within 16 cycles\n", 3)
        self.assertEqual(said[3:], ["out asks nothing within 16 cycles of out.done in cycle 33, and so 123 times more"])
        self.assertEqual(len(wrong or range(124)), 124)


@unittest.skipUnless(GOS, "no program is given")
class Examples(Room):
    def setUp(self):
        super().setUp()
        (self.room / "gos").symlink_to(GOS)

    def play(self, name):
        """An example, played in its description: pulse file and trace have to be as they stand in its folder."""
        for file in (EXAMPLES / name).iterdir():
            if file.suffix in (".gos", ".txt", ".play", ".props"):
                shutil.copy(file, self.room)
        self.said(TOOLS / "gos-play", "--verilog", "bench.v", "b.txt", f"{name}.play")
        for made, kept in (("in.pls", "in.pls"), ("out.trc", "trace.txt")):
            self.assertEqual((self.room / made).read_text(), (EXAMPLES / name / kept).read_text())
        self.said(TOOLS / "gos-why", "b.txt")
        self.assertIn('subgraph "cluster main.0"', self.said(TOOLS / "gos-picture", "--part", "main", "b.txt"))
        if shutil.which("iverilog"):
            self.said("iverilog", "-g2005", "-o", "bench.vvp", "bench.v", "out.v")
            self.assertEqual(self.said("vvp", "-n", "bench.vvp"), (EXAMPLES / name / "trace.txt").read_text())

    def test_mutex(self):
        self.play("mutex")
        if shutil.which("yosys"):
            said = self.said(TOOLS / "gos-formal", "b.txt", "mutex.props")
            self.assertEqual(said, "proved of all numbers of cycles: 6 of the ports, exclusion\n")

    def test_uart_and_the_page(self):
        self.play("uart")
        page = (TOP / "docs" / "PLAY.md").read_text()
        for name, text in re.findall(r"^```text (\S+)\n(.*?)^```$", page, re.M | re.S):
            if name == "uart.play":
                self.assertEqual(text, (EXAMPLES / "uart" / name).read_text())
            (self.room / name).write_text(text)
        (self.room / "wrong.play").write_text("main runs 3 tims\n")
        for block in re.findall(r"^```console\n(.*?)^```$", page, re.M | re.S):
            for part in re.split(r"^\$ ", block, flags=re.M)[1:]:
                line, _, printed = part.partition("\n")
                if line.startswith(("iverilog", "vvp")) and not shutil.which("iverilog"):
                    continue
                ran = command("bash", "-c", line, cwd=self.room)
                self.assertEqual(ran.stdout + ran.stderr, printed, line)


if __name__ == "__main__":
    unittest.main()
