"""A case: a command, and what lies in the folder in which it runs."""

import re
from dataclasses import dataclass, field

BUILD = 'b.txt'
# What would lead out of the folder: a slash at a word's beginning, and two dots.
OUTWARDS = re.compile(rb'(?:(?<=\s)|^)/|\.\.')


@dataclass
class Case:
    """The words of a command, files by their names, and the names of folders and of links to a device that is full; and the pattern of the
    line that is wanted, where it is known: of a build that is linked otherwise than it seems a fault B may come in its place."""

    words: list
    files: dict
    folders: list = field(default_factory=list)
    full: list = field(default_factory=list)
    wanted: str = ''

    def kept_inside(self):
        """The case without words that lead out of its folder, so that no run of it can write elsewhere."""
        self.words = [OUTWARDS.sub(b'_', word) for word in self.words]
        if BUILD in self.files:
            self.files[BUILD] = OUTWARDS.sub(b'_', self.files[BUILD])
        return self


def lines(*texts):
    """A text of these lines."""
    return ''.join(f'{text}\n' for text in texts).encode()


def command(words, files):
    """A case of a command whose words are told apart by spaces."""
    return Case([word.encode() for word in words.split(' ')], files)
