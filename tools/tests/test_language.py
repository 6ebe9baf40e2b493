#!/usr/bin/env python3
"""Checks the examples of docs/LANGUAGE.md: that each is taken, or refused with the line that stands there.

usage: tools/tests/test_language.py GOS [WORDS OF unittest]

An example is a paragraph in a block ```gos of the page: a module, and a comment of one line or more at its end. A comment that
begins with a fault, as `# C1 a at 7..8: ..`, is of a module that is refused with this fault, and may end with a body that is taken.
The others have to be taken, and all words and signs of the language stand in one of these.
"""
import re
import unittest
from dataclasses import dataclass

import built

PAGE = built.TOP / "docs" / "LANGUAGE.md"
BLOCK = re.compile(r"^```gos\n(.*?)^```$", re.M | re.S)
COMMENT = re.compile(r"(?m)^# (.*)$")
FAULT = re.compile(r"([LSC]\d+ .*?): ")
TAKEN = re.compile(r"is taken: (.*)\.$")
TOKEN = re.compile(r"[A-Za-z_]\w*|\d+|:=|\|\||->|[^\s\w]")
# What no short module shows: a text, a name, a nesting, a list of imports, a type and a weight that are too large.
LONG = {"L1", "L4", "S2", "S3", "C7", "C9"}


@dataclass
class Example:
    """A module of the page, and the fault with which it is refused, or nothing."""

    text: str
    fault: str = ""

    def tokens(self):
        return set(TOKEN.findall(re.sub(r"#.*", "", self.text)))


def examples(page):
    """The examples of the page, and behind each one the same module with the body that its comment says is taken."""
    for block in BLOCK.findall(page):
        for paragraph in block.strip("\n").split("\n\n"):
            said = " ".join(COMMENT.findall(paragraph))
            fault, taken = FAULT.match(said), TAKEN.search(said)
            yield Example(paragraph + "\n", fault[1] if fault else "")
            if taken:
                module = re.sub(r"\n#.*", "", paragraph)
                imports, _, body = module.partition("export ")
                yield Example(f"{imports}export {taken[1]} : {body.rpartition(' : ')[2]}\n# Taken.\n")


def named(page, sentence):
    """What a sentence of the page lists in backticks, as `if then else`."""
    return set(re.search(sentence + r" `([^`]*)`", page)[1].split())


class Examples(built.Case):
    def setUp(self):
        super().setUp()
        self.page = PAGE.read_text()
        self.examples = list(examples(self.page))

    def test_each_is_taken_or_refused_as_it_says(self):
        for example in self.examples:
            with self.subTest(example.text):
                self.room.write(main__gos=example.text)
                said = self.room.run(self.room.gos, "check", "main.gos").stdout.strip()
                if example.fault:
                    self.assertEqual(said, f"main.gos: {example.fault}")
                else:
                    self.assertRegex(said, r"^ok weight \d+$")

    def test_each_ends_with_what_it_does(self):
        for example in self.examples:
            self.assertRegex(example.text, r"(?m)^# .+\.\n\Z|^# .+\?\n\Z")

    def test_all_words_and_signs_stand_in_one_that_is_taken(self):
        shown = set().union(*(example.tokens() for example in self.examples if not example.fault))
        every = named(self.page, r"The words are") | named(self.page, r"The signs are")
        self.assertEqual(every - shown, set())

    def test_each_fault_stands_in_one_that_is_refused(self):
        shown = {example.fault.split()[0] for example in self.examples if example.fault}
        every = set(re.findall(r"(?m)^\| `([LSC]\d+) ", (built.TOP / "docs" / "FORMATS.md").read_text()))
        self.assertEqual(every - shown, LONG)


if __name__ == "__main__":
    built.main(__doc__)
