"""Cuts a script into its statements."""
from __future__ import annotations

import re
from dataclasses import dataclass
from typing import Iterator

WORDS = frozenset(
    "true false not and or impl repl equiv ex all cong ncong neq rlset rlnnf rlpnf rldnf rlcnf rlsimpl rlqe rlqea rlholds rlwitness rlassume rlretract "
    "rlgrid rlopt rlcert rlcheck load_package on off end bye quit".split()
)
PIECE = re.compile(r"%[^\n]*|[;$]|[^%;$]+")
NAME = re.compile(r"[A-Za-z]\w*")
NUMBERED = re.compile(r"(infinity|epsilon)\d*")


@dataclass(frozen=True)
class Statement:
    """A statement: its text with the end mark, from its first token on, and where that stands in the script, in characters."""

    text: str
    place: int

    @property
    def plain(self) -> str:
        """The text without comments and without the end mark."""
        return "".join(" " if piece.startswith("%") else piece for piece in PIECE.findall(self.text)).rstrip().rstrip(";$").strip()

    @property
    def is_ended(self) -> bool:
        """Whether it has an end mark."""
        return self.text[-1:] in (";", "$")

    @property
    def is_shown(self) -> bool:
        """Whether its line is printed."""
        return self.text.endswith(";")

    @property
    def word(self) -> str:
        """Its first word, or `:=` where it binds a name."""
        first = NAME.match(self.plain)
        if not first:
            return ""
        return ":=" if self.plain[first.end():].lstrip().startswith(":=") else first[0]

    @property
    def has_line(self) -> bool:
        """Whether it has a line where it is accepted."""
        return bool(self.plain) and self.word not in ("load_package", "on", "off", "end", "bye", "quit")

    @property
    def is_last(self) -> bool:
        """Whether it ends the script."""
        return self.plain in ("end", "bye", "quit")

    def names(self) -> list[str]:
        """The names in it that are no words, in their order, without the one that it binds."""
        found = NAME.findall(self.plain)
        if self.word == ":=":
            found = found[1:]
        if self.word in ("rlset", "load_package", "on", "off"):
            return []
        return list(dict.fromkeys(it for it in found if it not in WORDS and not NUMBERED.fullmatch(it)))


def statements(script: str) -> Iterator[Statement]:
    """The statements of a script. What stands behind the last end mark is one without an end mark, unless it is blank."""
    start: int | None = None
    place = 0
    for piece in PIECE.findall(script):
        if start is None and not piece.startswith("%") and piece.strip():
            start = place + len(piece) - len(piece.lstrip())
        place += len(piece)
        if piece in (";", "$"):
            assert start is not None
            yield Statement(script[start:place], start)
            start = None
    if start is not None:
        yield Statement(script[start:].rstrip(), start)


def line_and_column(script: str, place: int) -> tuple[int, int]:
    """The line and the column of a place of the script, both from 1."""
    before = script[:place]
    return before.count("\n") + 1, place - (before.rfind("\n") + 1) + 1
