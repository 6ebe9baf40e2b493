#!/usr/bin/env python3
"""Runs the benches of lib/rtl in Icarus Verilog and Verilator, and has yosys and abc prove the properties of each module.

usage: tools/tests/test_rtl.py GOS [WORDS OF unittest]
       tools/tests/test_rtl.py GOS --write

With --write the table of lib/rtl/README.md gets what yosys and nextpnr say of each module.

A module NAME has its bench in bench/NAME.v, which says `ok NAME`, and its properties in formal/NAME.v: an output `never_..` is 1 in no
run, and an output `seen_..` in some. A register without a first value may have any; a reset may come at any time.
"""
import re
import shutil
import sys
import tempfile
import unittest
from pathlib import Path

import built

import elaboration  # (built has put the folder above into the path)
import gates
import provers

RTL = built.LIBRARY / "rtl"
PAGE = RTL / "README.md"
NAMES = sorted(it.stem for it in RTL.glob("*.v"))
# The time for a property, by the clock, and how many cycles are searched for a run that a `seen_` wants.
SECONDS, CYCLES = 300, 100
# What is planted in each module, and which property finds it.
FAULTS = {
    "rtl_pins": ("far <= near", "far <= pins", "never_other_level"),
    "rtl_reset": ("run = age == RUNS", "run = age >= RUNS", "never_run_twice"),
    "rtl_register": ("done = write", "done = write & !read", "never_silent"),
    "rtl_ram": ("word_ans <= word_read", "word_ans <= (word_read | word_write)", "never_wrong_answer"),
    "rtl_rom": ("word <= words[place]", "word <= words[place_writevalue]", "never_other_value"),
    "rtl_timer": ("(kept | KEEP == 0) & ~&", "(KEEP == 0) & ~&", "never_lost"),
    "rtl_delay": ("left == 1", "left == 2", "never_early_or_late"),
    "rtl_fifo": ("put_waits ? late : put_writevalue", "put_writevalue", "never_other_number"),
    "rtl_uart_receive": ("comes & !(kept & !open)", "comes", "never_other_bit[0]"),
    "rtl_uart_send": ("{~next, 1'b1}", "{~next, 1'b0}", "never_other_bit"),
    "rtl_stream_in": ("ans = ready & valid", "ans = ask & valid", "never_silent"),
    "rtl_stream_out": ("write | valid & !ready", "write", "never_withdrawn"),
    "rtl_bank": ("by_port & ~mask", "value & ~mask", "never_other_value"),
    "rtl_wishbone": ("ack = seen & cyc & stb", "ack = seen & cyc", "never_ack_unasked"),
    "rtl_axi_lite": ("load | rvalid & !rready", "load", "never_withdrawn"),
}
# What modules are shown by a bus, and what they show it.
BUSES = {
    "rtl_axi_lite": (["awvalid", "awaddr", "wvalid", "wdata", "wstrb", "bready", "arvalid", "araddr", "rready"],
                     ["awready", "wready", "bvalid", "bresp", "arready", "rvalid", "rdata", "rresp"]),
    "rtl_stream_in": (["valid", "data"], ["ready"]),
    "rtl_stream_out": (["ready"], ["valid", "data"]),
}
# The least parameters, and those beside the first ones that a module needs.
LEAST = {
    "rtl_axi_lite": "ADDRESS=1 WIDTH=64", "rtl_bank": "ADDRESS=1 WIDTH=1", "rtl_wishbone": "ADDRESS=1 WIDTH=8", "rtl_reset": "CYCLES=1",
    "rtl_delay": "CYCLES=1", "rtl_timer": "CYCLES=1 MISSED=1", "rtl_uart_receive": "CYCLES=4", "rtl_uart_send": "CYCLES=2",
    "rtl_fifo": "WIDTH=1 DEPTH=1", "rtl_ram": "ADDRESS=1 WIDTH=1", "rtl_rom": 'ADDRESS=1 WIDTH=1 FILE="words.hex"',
    "rtl_pins": "WIDTH=1", "rtl_register": "WIDTH=1", "rtl_stream_in": "WIDTH=1", "rtl_stream_out": "WIDTH=1",
}
NEEDED = {"rtl_rom": 'FILE="words.hex"'}
# The words of the ROM that is measured, and a module around one that is measured, with a register at each of its ports.
WORDS = "\n".join(f"{(at * 73 + 41) % 251:02x}" for at in range(256))
AROUND = """module around(input clk, input rst, input in, output reg out);
  reg [{most}:0] ins;
  reg [{least}:0] outs;
  wire [{least}:0] shown;
  always @(posedge clk) begin
    ins <= {{ins[{most}-1:0], in}};
    outs <= shown;
    out <= ^outs;
  end
  {name} it({ports});
endmodule
"""


def has(*programs):
    """Skips a test where one of some programs isn't installed."""
    missing = [it for it in programs if not shutil.which(it)]
    return unittest.skipIf(missing, f"{', '.join(missing)} isn't installed")


def with_fault(name):
    """The text of a module with its fault."""
    old, new, _ = FAULTS[name]
    text = (RTL / f"{name}.v").read_text()
    assert text.count(old) == 1, f"{name}: {old} isn't there once"
    return text.replace(old, new)


def files_of(name, room, module=None):
    """The files of all modules, with another text in the place of one."""
    own = RTL / f"{name}.v"
    others = [it for it in sorted(RTL.glob("*.v")) if it != own]
    if module is not None:
        own = room / f"{name}.v"
        own.write_text(module)
    return [own, *others]


def made_of(name, room, module=None):
    """The gates of a module among its properties, by yosys; `module` is another text in its place."""
    room = Path(room)
    shutil.copy(RTL / "words.hex", room)
    files = [*files_of(name, room, module), RTL / "formal/handshake.v", RTL / f"formal/{name}.v"]
    commands = [f"read_verilog -noautowire {' '.join(map(str, files))}", "hierarchy -check -top formal", "proc -norom", "flatten", "memory -nomap",
                "memory_map", "opt_clean", *elaboration.GATES]
    said, is_done = provers.yosys(commands, room, provers.Clock(SECONDS))
    if not is_done:
        raise AssertionError(f"{name}: {said}")
    return gates.read((room / "formal.aag").read_text())


def properties(made, beginning):
    return sorted(name for name in made.outputs if name.startswith(beginning))


def is_never(made, name, room):
    """Whether a property is proved."""
    return provers.prove(room, gates.cone(made, made.outputs[name]), SECONDS, provers.Clock(SECONDS), name).is_never


def is_seen(made, name, room):
    """Whether there is a run in which an output is 1."""
    clock = provers.Clock(SECONDS)
    return bool(provers.search(room, gates.cone(made, made.outputs[name]), CYCLES, SECONDS, clock, name).rows)


class Properties(built.Case):
    @has("yosys")
    def test_all_are_proved(self):
        for name in NAMES:
            made = made_of(name, self.room.path)
            self.assertTrue(properties(made, "never_") and properties(made, "seen_"), name)
            for asked in properties(made, "never_"):
                with self.subTest(name, never=asked):
                    self.assertTrue(is_never(made, asked, self.room.path))
            for wanted in properties(made, "seen_"):
                with self.subTest(name, seen=wanted):
                    self.assertTrue(is_seen(made, wanted, self.room.path))

    @has("yosys")
    def test_no_path_goes_through_a_bus(self):
        """What a module shows a bus rests on nothing that the bus shows in the same cycle."""
        for name, (inputs, outputs) in BUSES.items():
            with self.subTest(name):
                looks = [f"select -assert-none o:{it} %ci*:-$dff {' '.join(f'i:{it}' for it in inputs)} {'%u ' * (len(inputs) - 1)}%i"
                         for it in outputs]
                commands = [f"read_verilog {' '.join(map(str, files_of(name, self.room.path)))}", f"hierarchy -check -top {name}",
                            "proc", "flatten", "opt_clean", "memory_map", "dffunmap", "opt_clean", *looks]
                said, is_done = provers.yosys(commands, self.room.path, provers.Clock(SECONDS))
                self.assertTrue(is_done, said)

    @has("yosys")
    def test_faults_are_found(self):
        self.assertEqual(sorted(FAULTS), NAMES)
        for name, (_, _, finds) in FAULTS.items():
            with self.subTest(name):
                made = made_of(name, self.room.path, with_fault(name))
                self.assertTrue(is_seen(made, finds, self.room.path))


class Benches(built.Case):
    def setUp(self):
        super().setUp()
        shutil.copy(RTL / "words.hex", self.room.path)

    def icarus(self, name, module=None):
        """What the bench of a module says under Icarus Verilog."""
        files = [*files_of(name, self.room.path, module), RTL / f"bench/{name}.v"]
        ran = self.room.run("iverilog", "-g2005", "-Wall", "-Wno-timescale", "-s", f"{name}_bench", "-o", "bench.vvp", *files)
        self.assertEqual((ran.returncode, ran.stdout + ran.stderr), (0, ""), name)
        return self.room.run("vvp", "-n", "bench.vvp").stdout

    @has("iverilog", "vvp")
    def test_icarus(self):
        for name in NAMES:
            with self.subTest(name):
                self.assertEqual(self.icarus(name), f"ok {name}\n")

    @has("iverilog", "vvp")
    def test_icarus_finds_faults(self):
        for name in NAMES:
            with self.subTest(name):
                self.assertNotIn("ok", self.icarus(name, with_fault(name)))

    @has("verilator")
    def test_verilator_has_no_warning(self):
        self.assertEqual(sorted(LEAST), NAMES)
        for name in NAMES:
            for given in NEEDED.get(name, ""), LEAST[name]:
                with self.subTest(name, given=given):
                    words = [f"-G{it}" for it in given.split()]
                    ran = self.room.run("verilator", "--lint-only", "-Wall", *words, "-y", RTL, RTL / f"{name}.v")
                    self.assertEqual((ran.returncode, ran.stdout + ran.stderr), (0, ""))

    @has("verilator")
    def test_verilator(self):
        top = "".join(f"  {name}_bench it_{name}();\n" for name in NAMES)
        self.room.write(benches__v=f"module benches;\n{top}endmodule\n")
        benches = [RTL / f"bench/{name}.v" for name in NAMES]
        made = self.room.run("verilator", "--binary", "-Wno-fatal", "-y", RTL, "--top", "benches", "-MAKEFLAGS",
                             "OPT_FAST=-O0 OPT_SLOW=-O0 OPT_GLOBAL=-O0", "-o", "benches", "benches.v", *benches)
        self.assertEqual(made.returncode, 0, made.stdout + made.stderr)
        said = self.room.run(self.room.path / "obj_dir/benches").stdout
        self.assertEqual(sorted(said.splitlines()), [f"ok {name}" for name in NAMES])


class Page(built.Case):
    def test_each_module_has_a_row(self):
        """In the table of what it is for, and in that of what it costs."""
        for row in (r"(?m)^\| `(rtl_\w+)` \| [^\d]", r"(?m)^\| `(rtl_\w+)` \| \d"):
            self.assertEqual(sorted(re.findall(row, PAGE.read_text())), NAMES)

    def test_no_name_stands_for_a_wire(self):
        """A module is read where names that nothing declares are faults, and leaves the text behind it as it would be."""
        for name in NAMES:
            text = (RTL / f"{name}.v").read_text()
            with self.subTest(name):
                self.assertEqual(re.findall(r"(?m)^`.*", text), ["`default_nettype none", "`default_nettype wire"])
                self.assertEqual(re.search(r"(?m)^(?!//).*", text)[0], "`default_nettype none")
                self.assertTrue(text.endswith("endmodule\n`default_nettype wire\n"))
                self.assertEqual(re.findall(r"\b(?:input|output) (?!wire |reg )", re.sub("//.*", "", text)), [])

    def test_each_module_says_its_handshake(self):
        for name in NAMES:
            self.assertEqual(len(re.findall(r"(?m)^// Handshake: ", (RTL / f"{name}.v").read_text())), 1, name)


class Measured:
    """What yosys and nextpnr say of modules with their first parameters, for an iCE40 HX8K."""

    def __init__(self, room):
        self.room = built.Room(room)
        for file in RTL.glob("*.v"):
            shutil.copy(file, room)
        rom = self.room.path / "rtl_rom.v"
        rom.write_text(rom.read_text().replace('FILE = ""', 'FILE = "rom.hex"'))
        self.room.write(rom__hex=WORDS)

    def run(self, *words):
        ran = self.room.run(*words)
        if ran.returncode:
            raise AssertionError(f"{' '.join(map(str, words))}: {ran.stdout}{ran.stderr}")
        return ran.stdout + ran.stderr

    def yosys(self, name, commands):
        return self.run("yosys", "-p", f"read_verilog {' '.join({f'{name}.v', 'rtl_bank.v'})}; {commands}")

    def cells(self, name):
        """LUTs, flip-flops and block RAMs of a module."""
        said = self.yosys(name, f"synth_ice40 -top {name}; stat").rpartition("Number of cells")[2]
        found = {kind: int(count) for kind, count in re.findall(r"(SB_\w+)\s+(\d+)", said)}
        return [sum(count for kind, count in found.items() if kind.startswith(it)) for it in ("SB_LUT4", "SB_DFF", "SB_RAM40")]

    def ports(self, name):
        """The sides, widths and names of a module's ports, without its clock and its reset."""
        said = self.yosys(name, f"hierarchy -top {name}; proc; select -list {name}/i:* {name}/o:*; write_rtlil ports.il")
        body = (self.room.path / "ports.il").read_text()
        body = body[re.search(rf"(?m)^module \\(?:{name})$", body).end():].partition("\nend\n")[0]
        found = re.findall(r"(?m)^  wire (?:width (\d+) )?(input|output) \d+ \\(\w+)$", body)
        assert found, said
        return [(side, int(width or 1), port) for width, side, port in found if port not in ("clk", "rst") or side == "output"]

    def mhz(self, name):
        """The frequency of a module between registers at its ports, after place and route."""
        at, ports = {"input": 0, "output": 0}, [".clk(clk)"]
        has_reset = "input wire rst" in (RTL / f"{name}.v").read_text()
        ports += [".rst(rst)"] * has_reset
        for side, width, port in self.ports(name):
            net = "ins" if side == "input" else "shown"
            ports.append(f".{port}({net}[{at[side]} +: {width}])")
            at[side] += width
        around = AROUND.format(name=name, ports=", ".join(ports), most=max(1, at["input"] - 1), least=at["output"] - 1)
        self.room.write(around__v=around)
        self.yosys(name, "read_verilog around.v; synth_ice40 -top around -json around.json")
        said = self.run("nextpnr-ice40", "--hx8k", "--package", "ct256", "--seed", "1", "--json", "around.json", "--asc", "around.asc")
        return re.findall(r"Max frequency for clock.*?: ([\d.]+) MHz", said)[-1].partition(".")[0]

    def table(self):
        yield "| Module | LUTs | Flip-flops | Block RAMs | MHz |"
        yield "|---|---|---|---|---|"
        for name in NAMES:
            yield f"| `{name}` | {' | '.join(map(str, self.cells(name)))} | {self.mhz(name)} |"


def write():
    with tempfile.TemporaryDirectory() as room:
        table = "\n".join(Measured(room).table())
    text = PAGE.read_text()
    PAGE.write_text(re.sub(r"(?m)^\| Module \| LUTs .*\n(?:\|.*\n)+", lambda _: f"{table}\n", text))


if __name__ == "__main__":
    if sys.argv[2:] == ["--write"]:
        write()
    else:
        built.main(__doc__)
