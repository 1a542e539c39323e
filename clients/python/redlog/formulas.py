"""Formulas as the program prints them. `str` of one is read back by the program."""
from __future__ import annotations

from dataclasses import dataclass
from enum import Enum
from fractions import Fraction
from typing import Iterator, Mapping


class Relation(Enum):
    """How an atom compares its term with 0."""

    EQUAL = "="
    UNEQUAL = "<>"
    BELOW = "<"
    AT_MOST = "<="
    ABOVE = ">"
    AT_LEAST = ">="

    def holds(self, value: Fraction) -> bool:
        """Whether the number compares with 0 so."""
        return {
            Relation.EQUAL: value == 0, Relation.UNEQUAL: value != 0, Relation.BELOW: value < 0,
            Relation.AT_MOST: value <= 0, Relation.ABOVE: value > 0, Relation.AT_LEAST: value >= 0,
        }[self]


@dataclass(frozen=True)
class Linear:
    """A linear form: names with their factors, and a constant."""

    factors: tuple[tuple[str, Fraction], ...]
    constant: Fraction = Fraction(0)

    def names(self) -> list[str]:
        """Its names, in their order."""
        return [name for name, _ in self.factors]

    def value(self, point: Mapping[str, Fraction | int]) -> Fraction:
        """Its value at a point, which has to have all its names."""
        return sum((factor * point[name] for name, factor in self.factors), self.constant)

    def __str__(self) -> str:
        """The form as the program writes one."""
        text = ""
        for name, factor in self.factors:
            size = "" if abs(factor) == 1 else f"{abs(factor)}*"
            text += _signed(text, factor < 0, f"{size}{name}")
        if self.constant or not text:
            text += _signed(text, self.constant < 0, str(abs(self.constant)))
        return text


def _signed(before: str, is_negative: bool, text: str) -> str:
    if not before:
        return f"-{text}" if is_negative else text
    return f" - {text}" if is_negative else f" + {text}"


class Formula:
    """A formula of the program's language."""

    def free_names(self) -> list[str]:
        """Its free names, in the order in which they stand."""
        return list(dict.fromkeys(self._free(frozenset())))

    def holds(self, point: Mapping[str, Fraction | int]) -> bool:
        """Its truth at a point; a formula with quantifiers has to be asked of the program."""
        raise ValueError("the truth of a quantifier is a question to the program")

    def _free(self, bound: frozenset[str]) -> Iterator[str]:
        raise NotImplementedError


@dataclass(frozen=True)
class Truth(Formula):
    """`true` or `false`."""

    value: bool

    def holds(self, point: Mapping[str, Fraction | int]) -> bool:
        return self.value

    def _free(self, bound: frozenset[str]) -> Iterator[str]:
        return iter(())

    def __str__(self) -> str:
        return "true" if self.value else "false"


@dataclass(frozen=True)
class Atom(Formula):
    """A linear form compared with 0."""

    form: Linear
    relation: Relation

    def holds(self, point: Mapping[str, Fraction | int]) -> bool:
        return self.relation.holds(self.form.value(point))

    def _free(self, bound: frozenset[str]) -> Iterator[str]:
        return (name for name in self.form.names() if name not in bound)

    def __str__(self) -> str:
        return f"{self.form} {self.relation.value} 0"


@dataclass(frozen=True)
class Congruence(Formula):
    """`cong(form,0,modulus)`, or `ncong` where it is negated."""

    form: Linear
    modulus: int
    negated: bool = False

    def holds(self, point: Mapping[str, Fraction | int]) -> bool:
        return (self.form.value(point) % self.modulus == 0) != self.negated

    def _free(self, bound: frozenset[str]) -> Iterator[str]:
        return (name for name in self.form.names() if name not in bound)

    def __str__(self) -> str:
        return f"{'ncong' if self.negated else 'cong'}({self.form},0,{self.modulus})"


@dataclass(frozen=True)
class Not(Formula):
    """`not`."""

    part: Formula

    def holds(self, point: Mapping[str, Fraction | int]) -> bool:
        return not self.part.holds(point)

    def _free(self, bound: frozenset[str]) -> Iterator[str]:
        return self.part._free(bound)

    def __str__(self) -> str:
        return f"not {_inside(self.part)}"


@dataclass(frozen=True)
class And(Formula):
    """`and` of two parts or more."""

    parts: tuple[Formula, ...]

    def holds(self, point: Mapping[str, Fraction | int]) -> bool:
        return all(part.holds(point) for part in self.parts)

    def _free(self, bound: frozenset[str]) -> Iterator[str]:
        return (name for part in self.parts for name in part._free(bound))

    def __str__(self) -> str:
        return " and ".join(map(_inside, self.parts))


@dataclass(frozen=True)
class Or(Formula):
    """`or` of two parts or more."""

    parts: tuple[Formula, ...]

    def holds(self, point: Mapping[str, Fraction | int]) -> bool:
        return any(part.holds(point) for part in self.parts)

    def _free(self, bound: frozenset[str]) -> Iterator[str]:
        return (name for part in self.parts for name in part._free(bound))

    def __str__(self) -> str:
        return " or ".join(map(_inside, self.parts))


@dataclass(frozen=True)
class _Pair(Formula):
    """A formula of two sides."""

    left: Formula
    right: Formula
    word = ""

    def _free(self, bound: frozenset[str]) -> Iterator[str]:
        yield from self.left._free(bound)
        yield from self.right._free(bound)

    def __str__(self) -> str:
        return f"{_inside(self.left)} {self.word} {_inside(self.right)}"


@dataclass(frozen=True)
class Implies(_Pair):
    """`impl`."""

    word = "impl"

    def holds(self, point: Mapping[str, Fraction | int]) -> bool:
        return not self.left.holds(point) or self.right.holds(point)


@dataclass(frozen=True)
class Replies(_Pair):
    """`repl`: the right side implies the left one."""

    word = "repl"

    def holds(self, point: Mapping[str, Fraction | int]) -> bool:
        return self.left.holds(point) or not self.right.holds(point)


@dataclass(frozen=True)
class Equivalent(_Pair):
    """`equiv`."""

    word = "equiv"

    def holds(self, point: Mapping[str, Fraction | int]) -> bool:
        return self.left.holds(point) == self.right.holds(point)


@dataclass(frozen=True)
class Quantified(Formula):
    """`ex` or `all` of one name."""

    kind: str
    name: str
    body: Formula

    def _free(self, bound: frozenset[str]) -> Iterator[str]:
        return self.body._free(bound | {self.name})

    def __str__(self) -> str:
        return f"{self.kind}({self.name},{self.body})"


def _inside(part: Formula) -> str:
    """The part as it stands inside another formula."""
    return f"({part})" if isinstance(part, (And, Or, Not, _Pair)) else str(part)
