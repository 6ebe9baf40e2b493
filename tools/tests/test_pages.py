#!/usr/bin/env python3
"""What the pages say that can be tried: the first screen of README.md, counts and exceptions, links, and words that they avoid.

usage: tools/tests/test_pages.py GOS [WORDS OF unittest]
"""
import re
import shutil
import subprocess
import unittest
from pathlib import Path

import built

TOP, COFFEE = built.TOP, built.TOP / "examples" / "coffee"
README = (TOP / "README.md").read_text()
PAGES = [TOP / "README.md", *sorted((TOP / "docs").glob("*.md")), *sorted(TOP.glob("*/README.md"))]
# Pages that every user reads, and what they don't say.
READ_BY_ALL = ["README.md", *(f"docs/{name}.md" for name in "INSTALL TUTORIAL TRUST COSTS PLAY COOKBOOK BENCH VERILOG MAKE".split())]
AVOIDED = re.compile(r"\b(so many|so often|is none|are none)\b(?! of)", re.I)
LINK = re.compile(r"\]\(([^)\s]+)\)")
NUMBERS = "none one two three four five six seven eight nine ten eleven twelve".split()


def spec(path):
    """The text of a file of definitions."""
    return (TOP / "crates" / path).with_suffix(".antt").read_text()


def plain(text):
    """A text in one line."""
    return " ".join(text.split())


def anchors(text):
    """What links to the headings of a page end with."""
    headings = re.findall(r"^#+ (.*)$", re.sub(r"^```.*?^```$", "", text, flags=re.M | re.S), re.M)
    return {re.sub(r"[^\w -]", "", it.lower()).replace(" ", "-") for it in headings}


def first_example():
    """The two columns of the first example in README.md, line by line."""
    block = next(it for it in README.split("\n\n") if it.startswith("    "))
    return zip(*(re.match(r"    (.*?) {3,}(\d.*)", line).groups() for line in block.split("\n")))


def forward_edges():
    """The edges from a crate to one of a later part of docs/ARCHITECTURE.md, as crates.txt names them."""
    plan, uses = (TOP / "docs" / "ARCHITECTURE.md").read_text(), (TOP / "crates.txt").read_text()
    part = {name: at for at, block in enumerate(plan.split("\n\n")) for name in re.findall(r"(?m)^    (gos\w*)(?: |$)", block)}
    edges = [(name, other) for name, below in re.findall(r"(?m)^(\w+)[^:\n]*:(.*)$", uses) for other in below.split()]
    return {(name, other) for name, other in edges if name in part and part.get(other, 0) > part[name]}


def books():
    """The crates whose code is laws alone."""
    sources = {crate: {it.name for it in (crate / "src").iterdir()} for crate in (TOP / "crates").iterdir() if (crate / "src").is_dir()}
    return [crate.name for crate, names in sources.items() if names == {"lib.rt", "laws.rt", "laws"}]


class Readme(built.Case):
    def test_is_short(self):
        self.assertLessEqual(README.count("\n"), 110)

    def test_the_first_example_is_what_is_built(self):
        for name in ("main.gos", "b.txt", "in.pls"):
            shutil.copy(COFFEE / name, self.room.path)
        printed = self.room.run(built.Room.gos, "build", "b.txt").stdout
        self.assertIn(f"    cd examples/coffee; ../../gos build b.txt\n\nprints `{printed.strip()}`", README)
        written, seen = first_example()
        source = [line for line in (COFFEE / "main.gos").read_text().split("\n") if line and line[0] != "#"]
        self.assertEqual(list(written[:len(source)]), source)
        self.assertEqual([*seen, "cycles 1000", ""], (self.room.path / "out.trc").read_text().split("\n"))
        module = plain(" ".join(written[len(source):])).removesuffix("...").strip().replace("( ", "(")
        self.assertTrue((self.room.path / "out.v").read_text().startswith(module), module)

    def test_the_promise_has_its_number(self):
        number = re.search(r"^pace w = (.*)$", spec("gos_model/specs/Weight"), re.M)[1]
        self.assertIn(f"at least once every {number.replace('* ', '').upper()} cycles", plain(README))

    def test_all_that_may_differ_is_excepted(self):
        """The commands of which it isn't proved that they write the same of the same files."""
        free = re.findall(r"^IsDecided \((\w+) .*= ⊥$", spec("gos_tool/specs/Repeated"), re.M)
        names = "{}, {} and {}".format(*(f"`{name.lower()}`" for name in free))
        self.assertIn(f"All but {names}", README.replace("**", ""))
        self.assertIn(f"Each but {names} does", (TOP / "docs" / "DECISIONS.md").read_text())

    def test_the_limit_of_moves(self):
        """Up to how many bytes of moves `verify` takes what `explain` wrote."""
        limit = re.search(r"length \(bytes_at new moves\) ≤ (\d+)", spec("gos_tool/specs/explained/Complete"))[1]
        self.assertIn(f"`verify` takes what `explain` wrote, up to {int(limit):,} bytes", plain(README))

    def test_books_are_counted(self):
        count = NUMBERS[len(books())]
        self.assertIn(f"{count.capitalize()} crates of laws, `gos_programs` to `gos_linked`", plain(README))
        self.assertIn(f"Laws on programs and plans are {count} crates", (TOP / "docs" / "DECISIONS.md").read_text())

    def test_what_tidy_leaves_of_the_examples(self):
        self.assertIn("on the examples to two thirds of the cells, though an iCE40's LUTs stay about as many", plain(README))
        said = [self.tidied(it.parent) for it in sorted((TOP / "examples").glob("*/b.txt"))]
        before, after = map(sum, zip(*said))
        self.assertEqual(round(3 * after / before), 2, (before, after))

    def tidied(self, example):
        """How many cells an example's circuit has before and after `gos tidy`."""
        room = built.Room(shutil.copytree(example, self.room.path / example.name))
        for line in map(str.split, (room.path / "b.txt").read_text().split("\n")):
            if line[:1] == ["inst"]:
                room.run(room.gos, "compile", *line[2:])
            elif line[:1] == ["net"]:
                net = line[1]
        room.run(room.gos, "link", "b.txt")
        return [int(it) for it in re.findall(r"\d+", room.run(room.gos, "tidy", net, "tidy.net").stdout)]

    @unittest.skipUnless(shutil.which("strace"), "strace is not installed")
    def test_a_file_is_read_once_for_each_place_that_names_it(self):
        self.assertIn("A file is read once for each place that names it", plain(README))
        self.room.write(m__gos="import c : com\nexport c : com\n", in__pls="cycles 5\n", b__txt=built.BUILD.format(
            "inst a m.gos a.obj\ninst b m.gos b.obj\nbind a c b\n", "a"))
        words = ["strace", "-f", "-qq", "-e", "trace=open,openat", "-o", "calls", self.room.gos, "build", "b.txt"]
        ran = subprocess.run(words, cwd=self.room.path, capture_output=True, text=True)
        if "ok " not in ran.stdout:
            self.skipTest(f"strace can't be used: {ran.stderr}")
        calls = (self.room.path / "calls").read_text()
        self.assertEqual([calls.count(f'"{name}", O_RDONLY') for name in ("b.txt", "m.gos", "in.pls")], [1, 2, 1])

    def test_each_row_of_the_tables_has_links(self):
        rows = [row for row in re.findall(r"^\| (.*) \|$", README, re.M) if row not in ("You design | You verify", "To find | Read")]
        self.assertGreaterEqual(len(rows), 10)
        for row in rows:
            with self.subTest(row):
                self.assertRegex(row.split(" | ")[1], LINK)
                self.assertNotRegex(row, r"`[^`]*\.md`")

    def test_each_page_is_linked(self):
        linked = set(LINK.findall(README))
        pages = {str(page.relative_to(TOP)) for page in (TOP / "docs").glob("*.md")}
        self.assertEqual(pages - {it.split("#")[0] for it in linked}, set())


class Others(unittest.TestCase):
    """What docs/ARCHITECTURE.md, docs/TRUST.md and docs/INSTALL.md say."""

    def test_edges_that_lead_forward(self):
        edges = forward_edges()
        said = re.search(r"(\w+) edges lead forward: (.*?)\.", plain((TOP / "docs" / "ARCHITECTURE.md").read_text()))
        self.assertEqual(said[1].lower(), NUMBERS[len(edges)])
        # (a name behind `from` is that of a crate that the last one before stands on)
        named, user = set(), ""
        for before, name in re.findall(r"(from )?(gos_\w+)", said[2]):
            user = user if before else name
            named |= {(user, name)} if before else set()
        self.assertEqual(named, edges)

    def test_commands_that_could_write_over_what_they_read(self):
        """docs/TRUST.md names just those for which the script gos looks at the names of files."""
        script = (TOP / "gos").read_text()
        looked = re.findall(r'"(\w+) \d"', script[script.index("find_files() {"):script.index("find_keys_of_few() {")])
        said = re.search(r"That \*\*each file has one name\*\*.*?The script `gos` refuses this", plain((TOP / "docs" / "TRUST.md").read_text()))[0]
        self.assertEqual(sorted({*re.findall(r"`([a-z]+)`", said), "demo"}), sorted({*looked, "gos"}))

    def test_what_the_scripts_need(self):
        text = plain((TOP / "docs" / "INSTALL.md").read_text())
        self.assertIn("The scripts need Python 3.10 or later, Bash 4.4 or later, an awk, and GNU's `coreutils`, `findutils`, `diffutils`, `grep` and "
                      "`sed`", text)
        self.assertIn("`.ci/run` is the gate: it proves what changed", text)


class Pages(unittest.TestCase):
    def test_links_lead_somewhere(self):
        for page in PAGES:
            for link in LINK.findall(page.read_text()):
                path, _, anchor = link.partition("#")
                if "://" in path:
                    continue
                with self.subTest(page=page.name, link=link):
                    target = (page.parent / path) if path else page
                    self.assertTrue(target.exists())
                    self.assertTrue(not anchor or anchor in anchors(target.read_text()))

    def test_words_that_are_avoided(self):
        for name in READ_BY_ALL:
            with self.subTest(name):
                self.assertEqual(AVOIDED.findall(plain((TOP / name).read_text())), [])


class Examples(built.Case):
    def registers_of_none(self, example):
        """How many registers of an example's circuit are of no part: those of ports, and of joints."""
        folder = Path(shutil.copytree(example, self.room.path / example.name))
        room = built.Room(folder)
        for line in (folder / "b.txt").read_text().split("\n"):
            if line.startswith("inst "):
                room.run(built.Room.gos, "compile", *line.split()[2:])
        room.run(built.Room.gos, "link", "b.txt")
        return int(re.search(r"^ *of none .* (\d+)$", room.run(built.TOOLS / "gos-cost", "--parts", "b.txt").stdout, re.M)[1])

    def test_no_register_of_a_joint_is_kept(self):
        self.assertIn("In the builds of `examples` it keeps none.", plain((TOP / "docs" / "COSTS.md").read_text()))
        for build in sorted((TOP / "examples").glob("*/b.txt")):
            with self.subTest(build.parent.name):
                registers = self.registers_of_none(build.parent)
                outputs = re.findall(r"^  output ", (self.room.path / build.parent.name / "out.v").read_text(), re.M)
                self.assertEqual(registers, len(outputs))


if __name__ == "__main__":
    built.main(__doc__)
