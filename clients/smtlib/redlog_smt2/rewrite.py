"""Puts terms in the places of others."""
from __future__ import annotations

from fractions import Fraction

from .terms import BOOL, And, Apply, Builder, Choice, Compare, Divides, Floor, Name, Not, Or, Quantified, Quotient, Remainder, Same, Sum, Term, TermError, Truth


class Rewriter:
    """Replaces names and applications, wherever they stand. Names that quantifiers inside bind get new symbols, so no two quantifiers share one."""

    def __init__(self, builder: Builder, replaced: dict[Term, Term]) -> None:
        """`replaced` has names and applications by themselves, and what is to stand for each: a form, or a formula."""
        self._builder = builder
        self._replaced = dict(replaced)
        self._known: dict[Term, Term] = {}

    def term(self, term: Term) -> Term:
        """The term with all replaced."""
        if term not in self._known:
            self._known[term] = self._made(term)
        return self._known[term]

    def form(self, term: Term) -> Sum:
        """The same of a term that is no formula."""
        made = self.term(term)
        assert isinstance(made, Sum)
        return made

    def _atom(self, term: Term) -> Term:
        """A name or an application, replaced or by itself."""
        if term in self._replaced:
            return self._replaced[term]
        return term if term.sort == BOOL else self._builder.form(term.sort, Fraction(0), {term: Fraction(1)})

    def _made(self, term: Term) -> Term:
        make = self._builder
        if isinstance(term, Truth):
            return term
        if isinstance(term, Name):
            return self._atom(term)
        if isinstance(term, Apply):
            applied = make.apply(term.symbol, tuple(map(self.term, term.arguments)))
            return self._atom(applied.items[0][0] if isinstance(applied, Sum) else applied)
        if isinstance(term, Sum):
            parts = [(self.form(it), factor) for it, factor in term.items]
            return make.total(term.sort, [*parts, (make.number(term.constant, term.sort), Fraction(1))])
        if isinstance(term, Choice):
            return make.choice(self.term(term.condition), self.term(term.yes), self.term(term.no))
        if isinstance(term, Quotient):
            return make.quotient(self.form(term.form), term.divisor)
        if isinstance(term, Remainder):
            return make.remainder(self.form(term.form), term.divisor)
        if isinstance(term, Floor):
            return make.floor(self.form(term.form))
        if isinstance(term, Compare):
            return make.compare(term.relation, self.form(term.form))
        if isinstance(term, Divides):
            return make.divides(term.divisor, self.form(term.form))
        if isinstance(term, Not):
            return make.negate(self.term(term.part))
        if isinstance(term, And):
            return make.all([self.term(it) for it in term.parts])
        if isinstance(term, Or):
            return make.any([self.term(it) for it in term.parts])
        if isinstance(term, Same):
            return make.same(self.term(term.left), self.term(term.right))
        if isinstance(term, Quantified):
            return self._quantified(term)
        raise TermError("a term that is not understood")

    def _quantified(self, term: Quantified) -> Term:
        symbols = []
        for symbol in term.symbols:
            new = self._builder.symbol(symbol.name, symbol.sort)
            symbols.append(new)
            self._replaced[name_of(self._builder, self._builder.name(symbol, True))] = self._builder.name(new, True)
        return self._builder.quantified(term.kind, tuple(symbols), self.term(term.body))


def name_of(builder: Builder, value: Term) -> Term:
    """The name or application that a value is."""
    return value.items[0][0] if isinstance(value, Sum) else value
