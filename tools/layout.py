"""The layout of sources: the same tokens and comments, with the blanks that the repository's own sources have.

Lines end where they ended before, but each `import` and `export` begins one. What is laid out anew is where a line begins, what stands
between its tokens, and that no two empty lines follow one another. A line begins behind the bracket that is open, else 2 further
than the form that it belongs to. The grammar says which forms those are (tools/grammar.py).
"""
import re
from dataclasses import dataclass

import grammar

STEP = 2
COMMENT = "#"
# How many symbols are still to come behind a form's first word.
TO_COME = {"export": 3, "fun": 5, "new": 6, "if": 5, "while": 3, "term": 3, "type": 2}
# Behind these something begins, and before those as well; any other line goes on with the one before.
ENDS, GOES_ON = {";", "||", ",", "(", ".", "in", "do", "then", "else", "export"}, {";", "||", ","}
CLOSE_BEHIND, CLOSE_BEFORE = {"(", "[", "!"}, {")", "]", "[", ","}


class NoModule(Exception):
    """A text that is no module, so that its forms aren't known."""


@dataclass
class Piece:
    """A token or a comment: its kind, its text, and how many lines end before it, behind the piece before."""

    kind: str
    text: str
    breaks: int


@dataclass
class Frame:
    """A form that is open: how many symbols are left when it is over, where it begins, and where what stands in it begins on a new line.

    `begins_line` is whether it begins its line, and `is_below` whether its `then` begins one.
    """

    kind: str
    depth: int
    base: int
    body: int
    begins_line: bool
    is_below: bool = False


def pieces_of(data):
    """The tokens and comments of a source. Other bytes are kept by the way comments are read and written."""
    tokens, wrong = grammar.tokens_of(data)
    if wrong is not None:
        raise NoModule
    at, breaks, found = 0, 0, []
    for token in [*tokens, None]:
        for part in re.finditer(rb"#[^\n]*|\n", data[at:token.start if token else len(data)]):
            if part[0] == b"\n":
                breaks += 1
                continue
            found.append(Piece(COMMENT, part[0].decode(errors="surrogateescape").rstrip(), breaks))
            breaks = 0
        if token:
            found.append(Piece(token.kind, token.text, max(breaks, 1) if token.kind in ("import", "export") else breaks))
            at, breaks = token.stop, 0
    return found


class Layout:
    """The lines that are laid out, and the forms that are open behind the tokens so far."""

    def __init__(self):
        self.lines, self.waiting = [], []
        self.stack, self.frames = ["module"], []
        self.line, self.indent, self.before = None, 0, Piece("", "", 0)
        # The bracket that was opened last in this line and is open, if one is.
        self.bracket = None

    def comment(self, piece):
        if piece.breaks or self.line is None:
            self.end_line()
            self.waiting.append(piece)
        else:
            self.line += ("" if self.before.kind == "(" else " ") + piece.text

    def end_line(self):
        if self.line is not None:
            self.lines.append(self.line)
        self.line = None

    def put_waiting(self, indent):
        """Puts the comments that wait for the indent of the line below them, and the empty lines between."""
        for piece in self.waiting:
            self.put_empty(piece)
            self.lines.append(" " * indent + piece.text)
        self.waiting = []

    def put_empty(self, piece):
        if piece.breaks > 1 and self.lines:
            self.lines.append("")

    def token(self, piece, behind):
        """Puts a token, behind which stands one of another kind."""
        if piece.kind not in grammar.following(self.stack):
            raise NoModule
        grammar.advance(self.stack, piece.kind)
        closed = None
        while self.frames and len(self.stack) <= self.frames[-1].depth:
            closed = self.frames.pop()
            self.bracket = None if closed is self.bracket else self.bracket
        begins_line = self.line is None or piece.breaks > 0
        if begins_line:
            self.begin_line(piece, closed)
        else:
            self.line += ("" if self.is_close(piece, behind) else " ") + piece.text
        self.open(piece, begins_line)
        self.before_last, self.before = self.before, piece

    def begin_line(self, piece, closed):
        self.end_line()
        self.indent = self.place(piece, closed)
        self.put_waiting(self.indent)
        self.put_empty(piece)
        self.line, self.bracket = " " * self.indent + piece.text, None

    def place(self, piece, closed):
        """Where a line begins that begins with this token."""
        kind, before, top = piece.kind, self.before.kind, self.frames[-1] if self.frames else None
        if kind in ("import", "export"):
            return 0
        if kind == ")":
            return closed.base
        if top is None or kind == ":" and len(self.stack) == 1:
            return STEP
        if kind in ("then", "do"):
            top.is_below = kind == "then"
            return top.base + STEP
        if kind == "else":
            return top.base + (STEP if top.is_below else 0)
        if kind in ("fun", "new") and before in ("in", ".") and top.begins_line:
            return top.base
        return top.body + (STEP if top.is_below else 0) + (0 if before in ENDS or kind in GOES_ON else STEP)

    def is_close(self, piece, behind):
        """Whether nothing stands between a token and the one before it, as in `3:8` and `(!x)`."""
        before = self.before.kind
        is_of_number = piece.kind == ":" and before == behind == "numeral" or before == ":" and piece.kind == self.before_last.kind == "numeral"
        return before in CLOSE_BEHIND or piece.kind in CLOSE_BEFORE or is_of_number

    def open(self, piece, begins_line):
        """Keeps the form that a token begins."""
        kind = self.stack[-1] if piece.kind == "(" else piece.kind
        if kind not in TO_COME:
            return
        depth = len(self.stack) - TO_COME[kind]
        if piece.kind == "(":
            column = len(self.line) - 1
            self.bracket = Frame(kind, depth, column, column + 1, begins_line)
            self.frames.append(self.bracket)
            return
        base = self.indent if begins_line else self.bracket.body if self.bracket else max(self.indent, STEP)
        self.frames.append(Frame(kind, depth, base, base + STEP, begins_line))


def laid_out(data):
    """A source, laid out anew. One that is no module is none that can be."""
    pieces, layout = pieces_of(data), Layout()
    kinds = [it.kind for it in pieces if it.kind != COMMENT][1:] + [""]
    behind = iter(kinds)
    for piece in pieces:
        if piece.kind == COMMENT:
            layout.comment(piece)
        else:
            layout.token(piece, next(behind))
    if not all("" in grammar.FIRST.get(it, ()) for it in layout.stack):
        raise NoModule
    layout.end_line()
    layout.put_waiting(0)
    made = "\n".join([*layout.lines, ""]).encode(errors="surrogateescape")
    if [(it.kind, it.text) for it in pieces_of(made)] != [(it.kind, it.text) for it in pieces]:
        raise AssertionError("the layout has other tokens or comments")
    return made
