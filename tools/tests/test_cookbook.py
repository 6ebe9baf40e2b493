#!/usr/bin/env python3
"""Does docs/COOKBOOK.md as a reader does, from its top to its end, and compares what is printed with what stands there.

usage: tools/tests/test_cookbook.py GOS [WORDS OF unittest]
       tools/tests/test_cookbook.py GOS --write

With --write the page gets what is printed.

A recipe is a section of the page. The page begins in an empty folder `start`, and each recipe goes into a folder of its own. A
block that begins with ```LANGUAGE NAME is the file NAME there. In a block ```console a line behind `$ ` is a command, and the
lines up to the next one are what it prints.
"""
import os
import re
import subprocess
import sys
import tempfile
import unittest
from pathlib import Path

import built

PAGE = built.TOP / "docs" / "COOKBOOK.md"
BLOCK = re.compile(r"^```(\w+)(?: (\S+))?\n(.*?)^```$", re.M | re.S)


def sections(text):
    """The page's sections, each with its heading; first what stands before the first of them."""
    return re.split(r"^(?=## )", text, flags=re.M)


def commands(block):
    """The commands of a console block."""
    return re.findall(r"^\$ (.*)$", block, re.M)


class Kitchen:
    """A shell in which the page is done, with the program as the command `gos`. It stays where a command has gone to."""

    def __init__(self, room):
        self.top, self.bin = Path(room) / "cookbook", Path(room) / "bin"
        self.folder = self.top / "start"
        self.folder.mkdir(parents=True)
        self.bin.mkdir()
        (self.bin / "gos").symlink_to(built.Room.gos)
        self.folders = []

    def run(self, command):
        """What a command prints."""
        path, place = f"{self.bin}:{built.TOOLS}:{os.environ['PATH']}", self.bin / "folder"
        how = {"cwd": self.folder, "text": True, "timeout": 600, "env": {**os.environ, "PATH": path}}
        words = ["bash", "-c", f"{command}\npwd -P >'{place}'"]
        printed = subprocess.run(words, stdout=subprocess.PIPE, stderr=subprocess.STDOUT, **how).stdout
        self.folder = Path(place.read_text().removesuffix("\n"))
        return printed

    def done(self, section):
        """A section as it has to be. The folder in which it ends is kept."""
        def block(found):
            language, name, body = found.groups()
            if name:
                (self.folder / name).write_text(body)
            if language != "console":
                return found[0]
            return "```console\n" + "".join(f"$ {it}\n{self.run(it)}" for it in commands(body)) + "```"

        section = BLOCK.sub(block, section)
        self.folders.append(self.folder.resolve())
        return section


def done(page):
    """A page as it has to be, done from an empty folder on."""
    with tempfile.TemporaryDirectory() as room:
        kitchen = Kitchen(room)
        return "".join([kitchen.done(it) for it in sections(page)])


def written_by(section):
    """The files that a section writes, each with its last text."""
    return {name: body for _, name, body in BLOCK.findall(section) if name}


class Recipes(unittest.TestCase):
    @classmethod
    def setUpClass(cls):
        room = tempfile.TemporaryDirectory()
        cls.addClassCleanup(room.cleanup)
        cls.kitchen, cls.sections = Kitchen(room.name), sections(PAGE.read_text())
        cls.done = [cls.kitchen.done(it) for it in cls.sections]

    def test_each_is_as_it_says(self):
        for section, done in zip(self.sections, self.done):
            with self.subTest(section.split("\n")[0]):
                self.assertEqual(done, section)

    def test_each_has_a_folder_of_its_own(self):
        """No recipe is done where another one was, so at the page's end each file is as its recipe wrote it."""
        folders = self.kitchen.folders
        self.assertEqual([it for it in folders if folders.count(it) > 1], [])
        for section, folder in zip(self.sections, folders):
            with self.subTest(section.split("\n")[0]):
                self.assertEqual(folder.parent, self.kitchen.top.resolve())
                wanted = written_by(section)
                self.assertEqual({name: (folder / name).read_text() for name in wanted}, wanted)

    def test_each_builds_a_module(self):
        """Each recipe has its module, its pulses, and a build that ends well."""
        for section in self.sections[1:]:
            with self.subTest(section.split("\n")[0]):
                self.assertLessEqual({"main.gos", "in.pls"}, written_by(section).keys())
                self.assertRegex(section, r"\$ gos build b\.txt\nok weight \d+ cycles \d+ pulses \d+ unused 0\n")

    def test_all_problems_have_a_recipe(self):
        self.assertGreaterEqual(len(self.sections) - 1, 14)


def write(gos):
    """Gives the page what is printed."""
    built.Room.gos = str(Path(gos).resolve())
    PAGE.write_text(done(PAGE.read_text()))


if __name__ == "__main__":
    if sys.argv[2:] == ["--write"]:
        write(sys.argv[1])
    else:
        built.main(__doc__)
