"""Reads the lines that the program prints."""
from __future__ import annotations

import re
from fractions import Fraction

from .answers import Assumptions, Axis, Binding, Case, Cases, Grid, Infeasible, Least, Multipliers, Place, Point, Unbounded, Value
from .formulas import And, Atom, Congruence, Equivalent, Formula, Implies, Linear, Not, Or, Quantified, Relation, Replies, Truth

TOKEN = re.compile(r"\s*([A-Za-z]\w*|\d+|:=|<>|<=|>=|[-+*/(){},=<>])")
LISTS = {"and": And, "or": Or}
PAIRS = {"impl": Implies, "repl": Replies, "equiv": Equivalent}
RELATIONS = {relation.value: relation for relation in Relation}
NUMBER = r"\s*(-?\s*\d+(?:\s*/\s*\d+)?)\s*"
AXIS = re.compile(rf"\{{\s*([A-Za-z]\w*)\s*,{NUMBER},{NUMBER},{NUMBER}\}}")


class ParseError(ValueError):
    """The text is not what the program prints."""


class Reader:
    """Reads one line."""

    def __init__(self, text: str) -> None:
        self._tokens: list[str] = []
        self._place = 0
        place = 0
        text = text.rstrip()
        while place < len(text):
            match = TOKEN.match(text, place)
            if match is None:
                raise ParseError(f"unexpected {text[place:place + 20]!r}")
            self._tokens.append(match[1])
            place = match.end()

    def peek(self, ahead: int = 0) -> str:
        """The next token, or an empty text behind the last one."""
        place = self._place + ahead
        return self._tokens[place] if place < len(self._tokens) else ""

    def take(self, wanted: str | None = None) -> str:
        """Takes the next token, which has to be the wanted one."""
        token = self.peek()
        if not token or wanted not in (None, token):
            raise ParseError(f"{token or 'the end'} stands where {wanted or 'something'} is wanted")
        self._place += 1
        return token

    def accept(self, wanted: str) -> bool:
        """Takes the next token if it is the wanted one."""
        if self.peek() != wanted:
            return False
        self._place += 1
        return True

    def end(self) -> None:
        """Nothing may follow."""
        if self.peek():
            raise ParseError(f"{self.peek()} stands behind the end")

    # ---- numbers and forms

    def number(self) -> Fraction:
        """A number with its sign and its denominator."""
        sign = -1 if self.accept("-") else 1
        numerator = int(self.take())
        return Fraction(sign * numerator, int(self.take()) if self.accept("/") else 1)

    def form(self) -> Linear:
        """A linear form."""
        factors: dict[str, Fraction] = {}
        constant = Fraction(0)
        sign = -1 if self.accept("-") else 1
        while True:
            name, factor = self._product()
            if name:
                factors[name] = factors.get(name, Fraction(0)) + sign * factor
            else:
                constant += sign * factor
            if self.peek() not in ("+", "-"):
                return Linear(tuple(factors.items()), constant)
            sign = 1 if self.take() == "+" else -1

    def _product(self) -> tuple[str, Fraction]:
        """A name with its factor, or a number with an empty name."""
        if not self.peek()[:1].isdigit():
            return self.take(), Fraction(1)
        factor = self.number()
        return (self.take(), factor) if self.accept("*") else ("", factor)

    def value(self) -> Linear:
        """A form, or a form in parentheses over a number with more behind it, as in the places of a case."""
        if not self.accept("("):
            return self.form()
        inner = self.form()
        self.take(")")
        by = Fraction(1, int(self.take())) if self.accept("/") else Fraction(1)
        factors = {name: factor * by for name, factor in inner.factors}
        constant = inner.constant * by
        if self.peek() in ("+", "-"):
            sign = 1 if self.take() == "+" else -1
            rest = self.form()
            # The sign in front belongs to the first member alone.
            for place, (name, factor) in enumerate(rest.factors):
                factors[name] = factors.get(name, Fraction(0)) + (sign * factor if place == 0 else factor)
            constant += rest.constant if rest.factors else sign * rest.constant
        return Linear(tuple(factors.items()), constant)

    # ---- formulas

    def formula(self) -> Formula:
        """A formula."""
        first = self._member()
        word = self.peek()
        if word in PAIRS:
            self.take()
            return PAIRS[word](first, self._member())
        if word not in LISTS:
            return first
        members = [first]
        while self.accept(word):
            members.append(self._member())
        return LISTS[word](tuple(members))

    def _member(self) -> Formula:
        word = self.peek()
        if word in ("true", "false"):
            return Truth(self.take() == "true")
        if word == "not":
            self.take()
            return Not(self._member())
        if word in ("ex", "all") and self.peek(1) == "(":
            self.take()
            self.take("(")
            name = self.take()
            self.take(",")
            body = self.formula()
            self.take(")")
            return Quantified(word, name, body)
        if word in ("cong", "ncong") and self.peek(1) == "(":
            return self._congruence()
        if self.accept("("):
            inside = self.formula()
            self.take(")")
            return inside
        form = self.form()
        relation = self.take()
        if relation not in RELATIONS:
            raise ParseError(f"{relation} is no relation")
        self.take("0")
        return Atom(form, RELATIONS[relation])

    def _congruence(self) -> Formula:
        negated = self.take() == "ncong"
        self.take("(")
        form = self.form()
        self.take(",")
        self.take("0")
        self.take(",")
        modulus = int(self.take())
        self.take(")")
        return Congruence(form, modulus, negated)

    # ---- lists

    def point(self) -> Point:
        """`{x = 1/2,..}`."""
        values: Point = {}
        self.take("{")
        while not self.accept("}"):
            if values:
                self.take(",")
            name = self.take()
            self.take("=")
            values[name] = self.number()
        return values

    def cases(self) -> Cases:
        """`{{guard,{x = ..}},..}`."""
        found: list[Case] = []
        self.take("{")
        while not self.accept("}"):
            if found:
                self.take(",")
            self.take("{")
            guard = self.formula()
            self.take(",")
            found.append(Case(guard, self._places()))
            self.take("}")
        return Cases(tuple(found))

    def _places(self) -> tuple[Place, ...]:
        found: list[Place] = []
        self.take("{")
        while not self.accept("}"):
            if found:
                self.take(",")
            name = self.take()
            self.take("=")
            found.append(Place(name, self.value()))
        return tuple(found)

    def certificate(self) -> Point | Multipliers:
        """`{point,{..}}` or `{farkas,{..}}`."""
        self.take("{")
        kind = self.take()
        self.take(",")
        if kind == "point":
            point = self.point()
            self.take("}")
            return point
        numbers: list[int] = []
        self.take("{")
        while not self.accept("}"):
            if numbers:
                self.take(",")
            numbers.append(int(self.number()))
        self.take("}")
        return Multipliers(tuple(numbers))

    def least(self) -> Least | Infeasible | Unbounded:
        """`{value,{..}}`, `infeasible` or `unbounded`."""
        if self.accept("infeasible"):
            return Infeasible()
        if self.accept("unbounded"):
            return Unbounded()
        self.take("{")
        value = self.number()
        self.take(",")
        point = self.point()
        self.take("}")
        return Least(value, point)

    def assumptions(self) -> Assumptions:
        """`{a1,..}`."""
        found: list[Formula] = []
        self.take("{")
        while not self.accept("}"):
            if found:
                self.take(",")
            found.append(self._member())
        return Assumptions(tuple(found))

    def binding(self) -> Binding:
        """`name := f`."""
        name = self.take()
        self.take(":=")
        return Binding(name, self.formula())


def parse_formula(text: str) -> Formula:
    """The formula that the program printed."""
    reader = Reader(text)
    formula = reader.formula()
    reader.end()
    return formula


def grid_of(statement: str, line: str) -> Grid:
    """The grid: its axes stand at the end of the statement."""
    axes = [Axis(name, *(Fraction("".join(part.split())) for part in rest)) for name, *rest in AXIS.findall(statement)]
    return Grid(tuple(axes), tuple(digit == "1" for digit in line if digit in "01"))


def value_of(word: str, statement: str, line: str) -> Value:
    """What the line says, by the first word of its statement."""
    if word == "rlgrid":
        return grid_of(statement, line)
    if word == "rlset":
        return line
    if line == "none":
        return None
    reader = Reader(line)
    value: Value
    if word in ("rlholds", "rlcheck"):
        value = reader.take() == "true"
    elif word == "rlqea":
        value = reader.cases()
    elif word == "rlwitness":
        value = reader.point()
    elif word == "rlcert":
        value = reader.certificate()
    elif word == "rlopt":
        value = reader.least()
    elif word in ("rlassume", "rlretract"):
        value = reader.assumptions()
    elif word == ":=":
        value = reader.binding()
    else:
        value = reader.formula()
    reader.end()
    return value
