"""Reads and writes the s-expressions of SMT-LIB 2.6."""
from __future__ import annotations

import re
from typing import Callable, Iterator, Union


class ReadError(Exception):
    """The text is no s-expression."""


class Token(str):
    """An atom of the text. Its subclasses say which kind."""


class Symbol(Token):
    """A symbol, without its bars."""


class Keyword(Token):
    """A keyword, with its colon."""


class Numeral(Token):
    """A whole number that is not negative."""


class Decimal(Token):
    """A number with a point."""


class Text(Token):
    """A string, without its quotes."""


class Literal(Token):
    """A number in binary or hexadecimal digits."""


Expression = Union[Token, "list[Expression]"]

SIMPLE = r"[A-Za-z0-9~!@$%^&*_+=<>.?/-]+"
TOKEN = re.compile(
    rf"""(?P<blank>[ \t\r\n]+|;[^\n]*\n)
    | (?P<open>\() | (?P<close>\))
    | "(?P<text>(?:[^"]|"")*)"
    | \|(?P<bars>[^|\\]*)\|
    | (?P<keyword>:{SIMPLE})
    | (?P<literal>\#[bx][0-9A-Fa-f]+)
    | (?P<word>{SIMPLE})""",
    re.VERBOSE,
)
NUMBER = re.compile(r"(?:0|[1-9][0-9]*)(\.[0-9]+)?")
PLAIN = re.compile(r"[A-Za-z~!@$%^&*_+=<>.?/-][A-Za-z0-9~!@$%^&*_+=<>.?/-]*")
# These may go on in the next piece of the text where they end with this piece.
UNFINISHED = frozenset(["text", "keyword", "literal", "word"])


def token_of(kind: str, text: str) -> Token:
    """The token of a match of TOKEN."""
    if kind == "text":
        return Text(text.replace('""', '"'))
    if kind == "bars":
        return Symbol(text)
    if kind == "keyword":
        return Keyword(text)
    if kind == "literal":
        return Literal(text)
    number = NUMBER.fullmatch(text)
    if number:
        return Decimal(text) if number[1] else Numeral(text)
    if text[0].isdigit():
        raise ReadError(f"{text} is no number and no symbol")
    return Symbol(text)


class Reader:
    """Cuts a source into top level expressions, each as soon as its last byte is there."""

    def __init__(self, read: Callable[[], str]) -> None:
        """`read` gives the next piece of the source, and an empty one at its end."""
        self._read = read
        self._open: list[list[Expression]] = []

    def expressions(self) -> Iterator[Expression]:
        """The expressions of the source. A ReadError ends it where the source ends within an expression."""
        left = ""
        while True:
            piece = self._read()
            at_end = not piece
            text = left + piece + ("\n" if at_end else "")
            place = 0
            while place < len(text):
                match = TOKEN.match(text, place)
                if match is None:
                    if at_end or not self._may_go_on(text, place):
                        self._open.clear()
                        raise ReadError(f"unexpected {text[place:place + 10]!r}")
                    break
                kind = match.lastgroup or ""
                if match.end() == len(text) and not at_end and kind in UNFINISHED:
                    break
                place = match.end()
                done = self._take(kind, match[kind])
                if done is not None:
                    yield done
            left = text[place:]
            if at_end:
                if self._open:
                    raise ReadError("the source ends within a command")
                return

    @staticmethod
    def _may_go_on(text: str, place: int) -> bool:
        """Whether what begins there may be the beginning of a token."""
        if text[place] in '";':
            return True
        if text[place] == "|":
            return "\\" not in text[place:]
        return text[place:] in (":", "#", "#b", "#x")

    def _take(self, kind: str, text: str) -> Expression | None:
        """Takes a token, and gives the expression that it ends at the top level."""
        if kind == "blank":
            return None
        if kind == "open":
            self._open.append([])
            return None
        if kind == "close":
            if not self._open:
                raise ReadError("a parenthesis closes that was not opened")
            done: Expression = self._open.pop()
        else:
            done = token_of(kind, text)
        if not self._open:
            return done
        self._open[-1].append(done)
        return None


def symbol_text(name: str) -> str:
    """The symbol as it is written, in bars where it has to be."""
    return name if PLAIN.fullmatch(name) else f"|{name}|"


def string_text(text: str) -> str:
    """The string in quotes."""
    return '"' + text.replace('"', '""') + '"'


def written(expression: Expression) -> str:
    """The text of an expression. It works without recursion, since expressions may be deep."""
    parts: list[str] = []
    rest: list[Expression | None] = [expression]
    while rest:
        it = rest.pop()
        if it is None:
            parts.append(")")
        elif isinstance(it, list):
            parts.append("(")
            rest.append(None)
            rest.extend(reversed(it))
        elif isinstance(it, Symbol):
            parts.append(symbol_text(it))
        elif isinstance(it, Text):
            parts.append(string_text(it))
        else:
            parts.append(it)
    text = " ".join(parts)
    return text.replace("( ", "(").replace(" )", ")")
