"""From terms to a script of `redlog --smt`, whose language has numbers of one sort, no `ite`, no `Bool` names and no functions.

A Bool name is a number that is above 0 where the name is true. `ite` of numbers, `div`, `mod` and `to_int` are new names with the conditions that fix them,
under the innermost quantifier whose names stand in them, or beside all that is asserted. A function that is applied to values without bound names is a
new name for each application, and two applications of it have equal values where their arguments are equal (Ackermann).
"""
from __future__ import annotations

from collections import defaultdict
from dataclasses import dataclass
from fractions import Fraction
from typing import Iterator, Sequence

from .terms import (
    BOOL, INT, REAL, And, Apply, Bound, Builder, Choice, Compare, Divides, Floor, Kind, Name, Not, Or, Quantified, Quotient, Relation, Remainder, Same, Sort, Sum,
    Symbol, Term, Truth,
)

# A formula that stands in many places and is larger than this gets a name of its own, and so does one that is higher than HIGH.
LARGE = 400
HIGH = 200
# So many branches of `ite` are put into a comparison; where there are more each `ite` gets a name.
BRANCHES = 4


class CannotSay(Exception):
    """The terms cannot be said in the language of the program."""


@dataclass
class Written:
    """A text with its nodes and its height."""

    text: str
    size: int = 1
    height: int = 1


@dataclass
class Script:
    """What the program is asked: the logic, its names, what is asserted, and the terms that the names stand for."""

    logic: str
    names: dict[Term, str]
    asserted: list[str]
    helpers: list[str]

    def text(self) -> str:
        """All up to the check."""
        sort = "Int" if self.logic == "LIA" else "Real"
        lines = [f"(set-logic {self.logic})"]
        lines += [f"(declare-const {name} {sort})" for name in [*self.names.values(), *self.helpers]]
        lines += [f"(assert {text})" for text in self.asserted]
        return "\n".join([*lines, "(check-sat)"]) + "\n"


def parts_of(term: Term) -> Sequence[Term]:
    """The terms directly inside a term."""
    if isinstance(term, (And, Or)):
        return term.parts
    if isinstance(term, Not):
        return (term.part,)
    if isinstance(term, Same):
        return (term.left, term.right)
    if isinstance(term, Quantified):
        return (term.body,)
    if isinstance(term, (Compare, Divides, Quotient, Remainder, Floor)):
        return (term.form,)
    if isinstance(term, Sum):
        return tuple(it for it, _ in term.items)
    if isinstance(term, Choice):
        return (term.condition, term.yes, term.no)
    if isinstance(term, Apply):
        return term.arguments
    return ()


def uses_of(terms: Sequence[Term]) -> dict[Term, int]:
    """How often each term stands in others, each of them counted once."""
    uses: dict[Term, int] = defaultdict(int)
    rest = list(terms)
    for term in terms:
        uses[term] += 1
    seen = set(rest)
    while rest:
        for part in parts_of(rest.pop()):
            uses[part] += 1
            if part not in seen:
                seen.add(part)
                rest.append(part)
    return uses


def sorts_of(terms: dict[Term, int]) -> set[Sort]:
    """The sorts of numbers that stand in the terms."""
    found: set[Sort] = set()
    for term in terms:
        if isinstance(term, (Name, Apply, Quotient, Remainder, Floor)) and term.sort in (INT, REAL):
            found.add(term.sort)
        if isinstance(term, Divides):
            found.add(INT)
        if isinstance(term, Quantified):
            found.update(it.sort for it in term.symbols if it.sort in (INT, REAL))
    return found


class Translator:
    """Makes one script of formulas."""

    def __init__(self, builder: Builder, formulas: Sequence[Term], logic: str, is_mixed: bool = False) -> None:
        """`is_mixed` says that whole names stand among real ones, as numbers without a sort; `whole_names` tells which."""
        self._is_mixed = is_mixed
        self._builder = builder
        self._formulas = formulas
        self._uses = uses_of(formulas)
        self._logic = logic
        self._written: dict[Term, Written] = {}
        self._names: dict[Term, str] = {}
        self._helpers: dict[Term, str] = {}
        self._definitions: dict[Symbol | None, list[tuple[str, Written]]] = defaultdict(list)
        self._applied: dict[Symbol, list[Apply]] = defaultdict(list)
        self._count = 0

    def script(self) -> Script:
        """The script. Raises CannotSay where there is none."""
        asserted = [self._formula(it).text for it in self._formulas]
        asserted += [self._formula(it).text for it in self._functions()]
        helpers = []
        for name, definition in self._definitions.pop(None, []):
            helpers.append(name)
            asserted.append(definition.text)
        assert not any(self._definitions.values())
        return Script(self._logic, dict(self._names), asserted, helpers)

    def whole_names(self) -> list[str]:
        """The names and helpers of the script that stand for whole numbers."""
        return [name for term, name in [*self._names.items(), *((it, self._helpers[it]) for it in self._helpers if not it.bound)] if term.sort == INT]

    def _functions(self) -> Iterator[Term]:
        """That applications with equal arguments have equal values. Saying it may meet further applications."""
        done: dict[Symbol, int] = defaultdict(int)
        while any(done[symbol] < len(found) for symbol, found in self._applied.items()):
            for symbol, found in list(self._applied.items()):
                for place in range(done[symbol], len(found)):
                    for other in found[:place]:
                        yield self._agree(found[place], other)
                    done[symbol] = place + 1

    def _agree(self, one: Apply, other: Apply) -> Term:
        pairs = [self._equal(left, right) for left, right in zip(one.arguments, other.arguments)]
        return self._builder.any([*(self._builder.negate(it) for it in pairs), self._equal(self._value(one), self._value(other))])

    def _value(self, term: Apply) -> Term:
        return term if term.sort == BOOL else self._builder.form(term.sort, Fraction(0), {term: Fraction(1)})

    def _equal(self, left: Term, right: Term) -> Term:
        if isinstance(left, Sum) and isinstance(right, Sum):
            return self._builder.compare(Relation.EQUAL, self._builder.total(left.sort, [(left, Fraction(1)), (right, Fraction(-1))]))
        return self._builder.same(left, right)

    # ---- names

    def _new(self, letter: str) -> str:
        self._count += 1
        return f"{letter}{self._count}"

    def _name(self, term: Name | Apply) -> str:
        """The number that stands for a name or an application."""
        if isinstance(term, Name) and term.bound:
            return f"b{term.symbol.number}"
        if term in self._names:
            return self._names[term]
        if isinstance(term, Apply):
            if term.bound:
                raise CannotSay(f"{term.symbol.name} is applied to a name that a quantifier binds")
            self._applied[term.symbol].append(term)
        self._names[term] = self._new("n")
        return self._names[term]

    @staticmethod
    def _owner(bound: Bound) -> Symbol | None:
        """The innermost of the bound names; those of inner quantifiers are newer."""
        return max(bound, key=lambda symbol: symbol.number) if bound else None

    def _helper(self, term: Term) -> str:
        """The number that stands for an `ite`, a quotient or a floor, or a formula."""
        if term in self._helpers:
            return self._helpers[term]
        if self._is_mixed and term.bound and term.sort == INT:
            raise CannotSay("a whole number under a quantifier over real ones")
        name = self._helpers[term] = self._new("h")
        self._definitions[self._owner(term.bound)].append((name, self._definition(term, name)))
        return name

    def _definition(self, term: Term, name: str) -> Written:
        """The condition that fixes the number."""
        if isinstance(term, Choice):
            condition = self._formula(term.condition)
            yes, no = (self._atom(Relation.EQUAL, it, ((name, -1),)) for it in (term.yes, term.no))
            text = f"(or (and {condition.text} {yes.text}) (and (not {condition.text}) {no.text}))"
            return Written(text, 2 * condition.size + yes.size + no.size + 4, max(condition.height + 1, yes.height, no.height) + 2)
        if isinstance(term, (Quotient, Floor)):
            by = term.divisor if isinstance(term, Quotient) else 1
            low = self._atom(Relation.AT_MOST, term.form, ((name, -by),), negative=True)
            high = self._atom(Relation.BELOW, term.form, ((name, -by),), further=-by)
            return self._joined("and", [low, high])
        body = self._formula_itself(term)
        return Written(f"(= (> {name} 0) {body.text})", body.size + 2, body.height + 1)

    # ---- atoms

    def _items(self, form: Sum) -> tuple[Fraction, list[tuple[str, Fraction]]]:
        """The form with a name for each of its terms."""
        constant, items = form.constant, list[tuple[str, Fraction]]()
        for term, factor in form.items:
            if isinstance(term, (Name, Apply)):
                items.append((self._name(term), factor))
            elif isinstance(term, (Choice, Quotient, Floor)):
                items.append((self._helper(term), factor))
            elif isinstance(term, Remainder):
                quotient = self._builder.quotient(term.form, term.divisor)
                inner_constant, inner = self._items(self._builder.total(INT, [(term.form, Fraction(1)), (quotient, Fraction(-term.divisor))]))
                constant += factor * inner_constant
                items += [(name, factor * it) for name, it in inner]
            else:
                raise CannotSay("a number is made in a way that is not understood")
        return constant, items

    def _atom(self, relation: Relation, form: Sum, more: Sequence[tuple[str, int]] = (), negative: bool = False, further: int = 0) -> Written:
        """The form, with more names and a further constant, compared with 0; `negative` takes the negative of it all."""
        constant, items = self._items(form)
        constant += further
        items = [*items, *((name, Fraction(factor)) for name, factor in more)]
        sign = -1 if negative else 1
        fractions = [constant, *(factor for _, factor in items)]
        times = 1
        for it in fractions:
            times = times * it.denominator // _common(times, it.denominator)
        left = [_product(int(sign * times * factor), name) for name, factor in items if sign * factor > 0]
        right = [_product(int(-sign * times * factor), name) for name, factor in items if sign * factor < 0]
        number = int(sign * times * constant)
        (left if number > 0 else right).append(str(abs(number)))
        return Written(f"({relation.value} {_sum(left)} {_sum(right)})", 3 * len(items) + 4, 4)

    def _choices(self, form: Sum) -> int:
        """How many forms the branches of the `ite`s of the form make."""
        count = 1
        for term, _ in form.items:
            if isinstance(term, Choice):
                count *= self._choices(term.yes) + self._choices(term.no)
        return count

    def _compare(self, term: Compare) -> Written:
        """A comparison; the branches of a few `ite`s are put into it."""
        found = next((it for it, _ in term.form.items if isinstance(it, Choice) and it not in self._helpers), None)
        if found is None or self._choices(term.form) > BRANCHES:
            return self._atom(term.relation, term.form)
        factor = dict(term.form.items)[found]
        rest = self._builder.form(term.form.sort, term.form.constant, {it: by for it, by in term.form.items if it is not found})
        yes, no = (
            self._builder.compare(term.relation, self._builder.total(rest.sort, [(rest, Fraction(1)), (branch, factor)])) for branch in (found.yes, found.no)
        )
        return self._formula(self._builder.choice(found.condition, yes, no))

    # ---- formulas

    def _formula(self, term: Term) -> Written:
        """The formula, by a name of its own where it is large and stands in many places, or is high."""
        if term in self._written:
            return self._written[term]
        made = self._formula_itself(term)
        shared = self._uses.get(term, 1) > 1 and made.size > LARGE
        if (shared or made.height > HIGH) and not term.bound and isinstance(term, (And, Or, Same, Quantified)):
            self._written[term] = made
            made = Written(f"(> {self._helper(term)} 0)", 3, 2)
        self._written[term] = made
        return made

    def _formula_itself(self, term: Term) -> Written:
        if term in self._written:
            return self._written[term]
        if isinstance(term, Truth):
            return Written("true" if term.value else "false")
        if isinstance(term, (Name, Apply)):
            return Written(f"(> {self._name(term)} 0)", 3, 2)
        if isinstance(term, Compare):
            return self._compare(term)
        if isinstance(term, Divides):
            return self._divides(term)
        if isinstance(term, Not):
            part = self._formula(term.part)
            return Written(f"(not {part.text})", part.size + 1, part.height + 1)
        if isinstance(term, (And, Or)):
            return self._joined("and" if isinstance(term, And) else "or", [self._formula(it) for it in term.parts])
        if isinstance(term, Same):
            return self._joined("=", [self._formula(term.left), self._formula(term.right)])
        if isinstance(term, Quantified):
            return self._quantified(term)
        raise CannotSay("a formula is made in a way that is not understood")

    @staticmethod
    def _joined(word: str, parts: Sequence[Written]) -> Written:
        size, height = sum(it.size for it in parts) + 1, max(it.height for it in parts) + 1
        return Written(f"({word} {' '.join(it.text for it in parts)})", size, height)

    def _divides(self, term: Divides) -> Written:
        if self._is_mixed:
            quotient = self._builder.quotient(term.form, term.divisor)
            return self._atom(Relation.EQUAL, self._builder.total(INT, [(term.form, Fraction(1)), (quotient, Fraction(-term.divisor))]))
        constant, items = self._items(term.form)
        if any(it.denominator != 1 for it in (constant, *(factor for _, factor in items))):
            raise CannotSay("divisibility of a fraction")
        parts = [_product(int(factor), name) for name, factor in items]
        return Written(f"((_ divisible {term.divisor}) {_sum([*parts, _numeral(int(constant))])})", 3 * len(items) + 4, 4)

    def _quantified(self, term: Quantified) -> Written:
        if any(symbol.sort not in (BOOL, INT, REAL) for symbol in term.symbols):
            raise CannotSay("a quantifier is over a declared sort")
        if self._is_mixed and any(symbol.sort == INT for symbol in term.symbols):
            raise CannotSay("a quantifier is over whole numbers, beside real ones")
        body = self._formula(term.body)
        names = [f"b{symbol.number}" for symbol in term.symbols]
        definitions = list[Written]()
        for symbol in term.symbols:
            for name, definition in self._definitions.pop(symbol, []):
                names.append(name)
                definitions.append(definition)
        if definitions and term.kind is Kind.EXISTS:
            body = self._joined("and", [*definitions, body])
        elif definitions:
            conditions = self._joined("and", definitions) if len(definitions) > 1 else definitions[0]
            body = self._joined("=>", [conditions, body])
        sort = "Int" if self._logic == "LIA" else "Real"
        listed = " ".join(f"({name} {sort})" for name in names)
        return Written(f"({term.kind.value} ({listed}) {body.text})", body.size + len(names), body.height + len(names))


def _common(one: int, other: int) -> int:
    while other:
        one, other = other, one % other
    return one


def _numeral(value: int) -> str:
    return str(value) if value >= 0 else f"(- {-value})"


def _product(factor: int, name: str) -> str:
    return name if factor == 1 else f"(* {_numeral(factor)} {name})"


def _sum(parts: Sequence[str]) -> str:
    kept = [it for it in parts if it != "0"]
    if not kept:
        return "0"
    return kept[0] if len(kept) == 1 else f"(+ {' '.join(kept)})"
