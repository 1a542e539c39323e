"""What the program answers, as objects."""
from __future__ import annotations

from dataclasses import dataclass
from fractions import Fraction
from itertools import product
from typing import Iterator, Union

from .formulas import Formula, Linear

Point = dict[str, Fraction]


@dataclass(frozen=True)
class Place:
    """The value of a name in a case: a form of other names, and of `epsilon1`, `infinity1` and so on."""

    name: str
    value: Linear


@dataclass(frozen=True)
class Case:
    """A condition, and values of the names of the block where it is true."""

    guard: Formula
    places: tuple[Place, ...]


@dataclass(frozen=True)
class Cases:
    """The answer of `rlqea`."""

    cases: tuple[Case, ...]

    def __iter__(self) -> Iterator[Case]:
        return iter(self.cases)

    def __len__(self) -> int:
        return len(self.cases)


@dataclass(frozen=True)
class Axis:
    """An axis of a grid."""

    name: str
    low: Fraction
    high: Fraction
    step: Fraction

    def values(self) -> list[Fraction]:
        """Its values, from below."""
        count = (self.high - self.low) // self.step + 1 if self.high >= self.low else 0
        return [self.low + place * self.step for place in range(count)]


@dataclass(frozen=True)
class Grid:
    """The answer of `rlgrid`: a truth for each point, that of the first axis changing slowest."""

    axes: tuple[Axis, ...]
    truths: tuple[bool, ...]

    def points(self) -> Iterator[tuple[Point, bool]]:
        """Each point with its truth."""
        names = [axis.name for axis in self.axes]
        for values, truth in zip(product(*(axis.values() for axis in self.axes)), self.truths):
            yield dict(zip(names, values)), truth

    def rows(self) -> list[list[bool]]:
        """The truths of a grid of two axes: a row for each value of the first one."""
        width = len(self.axes[-1].values()) if self.axes else 0
        return [list(self.truths[start:start + width]) for start in range(0, len(self.truths), width or 1)]


@dataclass(frozen=True)
class Multipliers:
    """The multipliers of `rlcert`, by which no point meets the constraints."""

    numbers: tuple[int, ...]


@dataclass(frozen=True)
class Least:
    """The answer of `rlopt`: the least value, and a point that has it."""

    value: Fraction
    point: Point


@dataclass(frozen=True)
class Infeasible:
    """No point meets the constraints of `rlopt`."""


@dataclass(frozen=True)
class Unbounded:
    """There is no least value, since there are ever smaller ones."""


@dataclass(frozen=True)
class Binding:
    """The answer of `name := f`."""

    name: str
    formula: Formula


@dataclass(frozen=True)
class Assumptions:
    """The answer of `rlassume` and of `rlretract`: all that stands."""

    atoms: tuple[Formula, ...]


Value = Union[Formula, Cases, Point, Grid, Multipliers, Least, Infeasible, Unbounded, Binding, Assumptions, bool, str, None]


@dataclass(frozen=True)
class Answer:
    """The line that the program printed, and what it says. The value is None where the line is `none`."""

    line: str
    value: Value

    def __str__(self) -> str:
        return self.line
