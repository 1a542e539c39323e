"""The value of a term at a model, exactly."""
from __future__ import annotations

from dataclasses import dataclass, field
from fractions import Fraction
from typing import Callable

from .instances import inside, is_beyond
from .rewrite import Rewriter
from .terms import (
    BOOL, And, Apply, Builder, Choice, Compare, Divides, Floor, Name, Not, Or, Quantified, Quotient, Remainder, Same, Sum, Symbol, Term, TermError, Truth, holds,
    whole_quotient,
)

Value = bool | Fraction


@dataclass
class Model:
    """A value for each name, and for each function its values at some arguments; all else is 0 or false."""

    values: dict[Symbol, Value] = field(default_factory=dict)
    tables: dict[Symbol, dict[tuple[Value, ...], Value]] = field(default_factory=dict)


def default(symbol: Symbol) -> Value:
    """The value of what the model says nothing of."""
    return False if symbol.sort == BOOL else Fraction(0)


class Evaluator:
    """Evaluates terms without free bound names at one model."""

    def __init__(self, builder: Builder, model: Model, decide: Callable[[Term], bool]) -> None:
        """`decide` tells the truth of a formula with quantifiers and without any other names."""
        self._builder = builder
        self._model = model
        self._decide = decide
        self._known: dict[Term, Value] = {}

    def value(self, term: Term) -> Value:
        """The value of the term."""
        if term not in self._known:
            self._known[term] = self._value(term)
        return self._known[term]

    def number(self, term: Term) -> Fraction:
        """The value of a term that is no formula."""
        value = self.value(term)
        assert isinstance(value, Fraction)
        return value

    def _value(self, term: Term) -> Value:
        if isinstance(term, Truth):
            return term.value
        if isinstance(term, Sum):
            return sum((factor * self.number(it) for it, factor in term.items), term.constant)
        if isinstance(term, Name):
            return self._model.values.get(term.symbol, default(term.symbol))
        if isinstance(term, Apply):
            arguments = tuple(self.value(it) for it in term.arguments)
            return self._model.tables.get(term.symbol, {}).get(arguments, default(term.symbol))
        if isinstance(term, Choice):
            return self.value(term.yes if self.value(term.condition) else term.no)
        if isinstance(term, Quotient):
            return Fraction(whole_quotient(self.number(term.form), term.divisor))
        if isinstance(term, Remainder):
            value = self.number(term.form)
            return value - term.divisor * whole_quotient(value, term.divisor)
        if isinstance(term, Floor):
            return Fraction(self.number(term.form).__floor__())
        return self._truth(term)

    def _truth(self, term: Term) -> bool:
        if isinstance(term, Compare):
            return holds(term.relation, self.number(term.form))
        if isinstance(term, Divides):
            return self.number(term.form) % term.divisor == 0
        if isinstance(term, Not):
            return not self.value(term.part)
        if isinstance(term, And):
            return all(self.value(it) for it in term.parts)
        if isinstance(term, Or):
            return any(self.value(it) for it in term.parts)
        if isinstance(term, Same):
            return self.value(term.left) == self.value(term.right)
        if isinstance(term, Quantified):
            return self._decide(self.filled(term))
        raise TermError("a term that is not understood")

    def filled(self, term: Term) -> Term:
        """The term with the values of its free names in their places. A function under a quantifier has no value."""
        if is_beyond([term]):
            raise TermError("what stands under a quantifier has no value here")
        values: dict[Term, Term] = {}
        for each in inside([term]):
            if isinstance(each, (Name, Apply)) and not each.bound:
                value = self.value(each)
                values[each] = self._builder.truth(value) if isinstance(value, bool) else self._builder.number(value, each.sort)
        return Rewriter(self._builder, values).term(term)
