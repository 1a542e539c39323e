"""From expressions to terms: scopes, sorts, definitions, and what of the language is understood."""
from __future__ import annotations

from dataclasses import dataclass, field
from fractions import Fraction
from typing import Callable, Sequence

from .expressions import Decimal, Expression, Keyword, Literal, Numeral, Symbol as Word, Text, written
from .terms import BOOL, INT, NUMBERS, REAL, Builder, Kind, Relation, Sort, Sum, Symbol, Term, TermError

RELATIONS = {"<=": (Relation.AT_MOST, 1), "<": (Relation.BELOW, 1), ">=": (Relation.AT_MOST, -1), ">": (Relation.BELOW, -1)}


@dataclass
class Definition:
    """A defined function with its arguments; without arguments its value is a term."""

    arguments: tuple[tuple[str, Sort], ...]
    sort: Sort
    body: Expression


# What a name of a script stands for.
Meaning = Term | Symbol | Definition


@dataclass
class Names:
    """What is declared and defined, and what `let`, quantifiers and arguments hide for a while."""

    known: dict[str, Meaning] = field(default_factory=dict)
    sorts: dict[str, tuple[tuple[str, ...], Expression | None]] = field(default_factory=dict)
    hidden: dict[str, list[Meaning]] = field(default_factory=dict)

    def find(self, name: str) -> Meaning:
        """What the name stands for here."""
        inner = self.hidden.get(name)
        if inner:
            return inner[-1]
        if name not in self.known:
            raise TermError(f"{name} is not declared")
        return self.known[name]

    def hide(self, names: Sequence[tuple[str, Meaning]]) -> None:
        """Lets the names stand for something else."""
        for name, meaning in names:
            self.hidden.setdefault(name, []).append(meaning)

    def show(self, names: Sequence[tuple[str, Meaning]]) -> None:
        """Ends what `hide` has begun."""
        for name, _ in names:
            self.hidden[name].pop()


class Elaborator:
    """Makes terms of expressions."""

    def __init__(self, builder: Builder, names: Names, keep_name: Callable[[str, Term, Expression], None]) -> None:
        """`keep_name` is told of each formula with `:named`."""
        self.builder = builder
        self.names = names
        self.only_reals = False
        self._keep_name = keep_name
        self._depth = 0

    # ---- sorts

    def sort(self, expression: Expression) -> Sort:
        """The sort of the expression."""
        return self._sort(expression, {})

    def _sort(self, expression: Expression, inside: dict[str, Sort]) -> Sort:
        head, parts = (expression[0], expression[1:]) if isinstance(expression, list) and expression else (expression, [])
        if not isinstance(head, Word):
            raise TermError(f"{written(expression)} is no sort that is understood")
        if not parts and head in inside:
            return inside[head]
        for known in (BOOL, INT, REAL):
            if head == known.name and not parts:
                return known
        if head not in self.names.sorts:
            raise TermError(f"the sort {head} is not declared")
        arguments, body = self.names.sorts[head]
        if len(arguments) != len(parts):
            raise TermError(f"the sort {head} takes {len(arguments)} arguments")
        values = [self._sort(part, inside) for part in parts]
        if body is None:
            return Sort(f"({head} {' '.join(it.name for it in values)})" if values else head)
        return self._sort(body, dict(zip(arguments, values)))

    # ---- terms

    def formula(self, expression: Expression) -> Term:
        """The formula of the expression."""
        term = self.term(expression)
        if term.sort != BOOL:
            raise TermError(f"{written(expression)[:60]} is no formula")
        return term

    def as_sort(self, term: Term, sort: Sort) -> Term:
        """The term where one of the sort is wanted: a whole number stands for a real one too."""
        if term.sort == sort:
            return term
        if term.sort == INT and sort == REAL and isinstance(term, Sum):
            return self.builder.as_real(term)
        raise TermError(f"a term of sort {term.sort.name} stands where one of sort {sort.name} is wanted")

    def term(self, expression: Expression) -> Term:
        """The term of the expression."""
        if not isinstance(expression, list):
            return self._atom(expression)
        if not expression:
            raise TermError("() is no term")
        head = expression[0]
        if isinstance(head, list):
            return self._indexed(head, expression)
        if not isinstance(head, Word):
            raise TermError(f"{written(head)} is no function")
        if head == "let":
            return self._let(expression)
        if head in ("forall", "exists"):
            return self._quantified(Kind(head), expression)
        if head == "!":
            return self._annotated(expression)
        if head not in self.names.hidden or not self.names.hidden[head]:
            made = OPERATIONS.get(head)
            if made is not None and head not in self.names.known:
                return made(self, [self.term(part) for part in expression[1:]])
        return self._applied(self.names.find(head), head, expression[1:])

    def _atom(self, token: Expression) -> Term:
        if isinstance(token, Numeral):
            return self.builder.number(Fraction(token), REAL if self.only_reals else INT)
        if isinstance(token, Decimal):
            return self.builder.number(Fraction(token), REAL)
        if isinstance(token, (Text, Keyword, Literal)) or not isinstance(token, Word):
            raise TermError(f"{written(token)} is no term that is understood")
        if token in ("true", "false") and token not in self.names.hidden:
            return self.builder.truth(token == "true")
        return self._applied(self.names.find(token), token, [])

    def _applied(self, meaning: Meaning, name: str, parts: Sequence[Expression]) -> Term:
        if isinstance(meaning, Term):
            if parts:
                raise TermError(f"{name} takes no arguments")
            return meaning
        values = [self.term(part) for part in parts]
        sorts = meaning.arguments if isinstance(meaning, Symbol) else tuple(sort for _, sort in meaning.arguments)
        if len(values) != len(sorts):
            raise TermError(f"{name} takes {len(sorts)} arguments")
        fitted = [self.as_sort(value, sort) for value, sort in zip(values, sorts)]
        if isinstance(meaning, Symbol):
            return self.builder.apply(meaning, tuple(fitted))
        given = [(argument, value) for (argument, _), value in zip(meaning.arguments, fitted)]
        return self.body(meaning.body, given, meaning.sort)

    def body(self, expression: Expression, given: Sequence[tuple[str, Meaning]], sort: Sort) -> Term:
        """A defined body with its arguments."""
        kept, self.names.hidden = self.names.hidden, {}
        self.names.hide(given)
        try:
            return self.as_sort(self.term(expression), sort)
        finally:
            self.names.hidden = kept

    def _let(self, expression: Expression) -> Term:
        begun: list[Sequence[tuple[str, Meaning]]] = []
        try:
            while isinstance(expression, list) and expression and expression[0] == "let":
                if len(expression) != 3 or not isinstance(expression[1], list) or not expression[1]:
                    raise TermError("a let is not well formed")
                values: list[tuple[str, Meaning]] = [(name, self.term(value)) for name, value in map(self._pair, expression[1])]
                if len({name for name, _ in values}) != len(values):
                    raise TermError("a let binds a name twice")
                self.names.hide(values)
                begun.append(values)
                expression = expression[2]
            return self.term(expression)
        finally:
            for each in reversed(begun):
                self.names.show(each)

    @staticmethod
    def _pair(expression: Expression) -> tuple[str, Expression]:
        if not isinstance(expression, list) or len(expression) != 2 or not isinstance(expression[0], Word):
            raise TermError(f"{written(expression)[:60]} is no name with its value or sort")
        return expression[0], expression[1]

    def arguments(self, expression: Expression) -> tuple[tuple[str, Sort], ...]:
        """Names with their sorts, as quantifiers and definitions have them."""
        if not isinstance(expression, list):
            raise TermError(f"{written(expression)[:60]} is no list of names with sorts")
        found = tuple((name, self.sort(sort)) for name, sort in map(self._pair, expression))
        if len({name for name, _ in found}) != len(found):
            raise TermError("a name stands twice")
        return found

    def _quantified(self, kind: Kind, expression: list[Expression]) -> Term:
        if len(expression) != 3 or not expression[1]:
            raise TermError("a quantifier is not well formed")
        symbols = [self.builder.symbol(name, sort) for name, sort in self.arguments(expression[1])]
        values: list[tuple[str, Meaning]] = [(it.name, self.builder.name(it, True)) for it in symbols]
        self.names.hide(values)
        try:
            return self.builder.quantified(kind, tuple(symbols), self.formula(expression[2]))
        finally:
            self.names.show(values)

    def _annotated(self, expression: list[Expression]) -> Term:
        if len(expression) < 2:
            raise TermError("an annotation is not well formed")
        term = self.term(expression[1])
        rest = expression[2:]
        for place, each in enumerate(rest):
            if each == ":named" and isinstance(each, Keyword):
                name = rest[place + 1] if place + 1 < len(rest) else None
                if not isinstance(name, Word) or term.bound:
                    raise TermError(":named wants a symbol, and a term without bound names")
                self._keep_name(name, term, expression[1])
        return term

    def _indexed(self, head: list[Expression], expression: list[Expression]) -> Term:
        if len(head) == 3 and head[:2] == ["_", "divisible"] and isinstance(head[2], Numeral) and int(head[2]) > 0 and len(expression) == 2:
            return self.builder.divides(int(head[2]), self._whole(self.term(expression[1])))
        if len(head) == 3 and head[0] == "as" and isinstance(head[1], Word):
            return self.as_sort(self.term([head[1], *expression[1:]]), self.sort(head[2]))
        raise TermError(f"{written(head)[:60]} is not understood")

    # ---- operations

    def _whole(self, term: Term) -> Sum:
        if isinstance(term, Sum) and term.sort == INT:
            return term
        raise TermError("a whole number is wanted")

    def numbers(self, terms: Sequence[Term]) -> list[Sum]:
        """The terms as numbers of one sort."""
        forms = [term for term in terms if isinstance(term, Sum) and term.sort in NUMBERS]
        if len(forms) != len(terms) or not forms:
            raise TermError("numbers are wanted")
        if any(it.sort == REAL for it in forms):
            return [self.builder.as_real(it) for it in forms]
        return forms

    def formulas(self, terms: Sequence[Term], least: int) -> Sequence[Term]:
        """The terms, which have to be formulas, and so many at least."""
        if len(terms) < least or any(it.sort != BOOL for it in terms):
            raise TermError("formulas are wanted")
        return terms

    def equal(self, left: Term, right: Term) -> Term:
        """`=` of two terms."""
        if left.sort == BOOL and right.sort == BOOL:
            return self.builder.same(left, right)
        if left.sort in NUMBERS and right.sort in NUMBERS:
            left, right = self.numbers([left, right])
        if left.sort != right.sort or not isinstance(left, Sum) or not isinstance(right, Sum):
            raise TermError(f"terms of the sorts {left.sort.name} and {right.sort.name} are compared")
        return self.builder.compare(Relation.EQUAL, self.builder.total(left.sort, [(left, Fraction(1)), (right, Fraction(-1))]))


Operation = Callable[[Elaborator, Sequence[Term]], Term]


def _not(it: Elaborator, terms: Sequence[Term]) -> Term:
    if len(terms) != 1:
        raise TermError("not takes one formula")
    return it.builder.negate(it.formulas(terms, 1)[0])


def _and(it: Elaborator, terms: Sequence[Term]) -> Term:
    return it.builder.all(it.formulas(terms, 1))


def _or(it: Elaborator, terms: Sequence[Term]) -> Term:
    return it.builder.any(it.formulas(terms, 1))


def _implies(it: Elaborator, terms: Sequence[Term]) -> Term:
    *conditions, last = it.formulas(terms, 2)
    return it.builder.any([*(it.builder.negate(each) for each in conditions), last])


def _xor(it: Elaborator, terms: Sequence[Term]) -> Term:
    first, *rest = it.formulas(terms, 2)
    for each in rest:
        first = it.builder.negate(it.builder.same(first, each))
    return first


def _equal(it: Elaborator, terms: Sequence[Term]) -> Term:
    if len(terms) < 2:
        raise TermError("= takes two terms at least")
    return it.builder.all([it.equal(left, right) for left, right in zip(terms, terms[1:])])


def _distinct(it: Elaborator, terms: Sequence[Term]) -> Term:
    if len(terms) < 2:
        raise TermError("distinct takes two terms at least")
    pairs = [(left, right) for place, left in enumerate(terms) for right in terms[place + 1:]]
    return it.builder.all([it.builder.negate(it.equal(left, right)) for left, right in pairs])


def _ite(it: Elaborator, terms: Sequence[Term]) -> Term:
    if len(terms) != 3 or terms[0].sort != BOOL:
        raise TermError("ite takes a formula and two terms")
    condition, yes, no = terms
    if yes.sort in NUMBERS and no.sort in NUMBERS:
        yes, no = it.numbers([yes, no])
    if yes.sort != no.sort:
        raise TermError("the branches of ite have different sorts")
    return it.builder.choice(condition, yes, no)


def _plus(it: Elaborator, terms: Sequence[Term]) -> Term:
    forms = it.numbers(terms)
    return it.builder.total(forms[0].sort, [(form, Fraction(1)) for form in forms])


def _minus(it: Elaborator, terms: Sequence[Term]) -> Term:
    first, *rest = it.numbers(terms)
    if not rest:
        return it.builder.total(first.sort, [(first, Fraction(-1))])
    return it.builder.total(first.sort, [(first, Fraction(1)), *((form, Fraction(-1)) for form in rest)])


def _times(it: Elaborator, terms: Sequence[Term]) -> Term:
    forms = it.numbers(terms)
    factor, others = Fraction(1), list[Sum]()
    for form in forms:
        if form.items:
            others.append(form)
        else:
            factor *= form.constant
    if factor == 0 or not others:
        return it.builder.number(factor, forms[0].sort)
    if len(others) > 1:
        raise TermError("a product has two factors that are not constant")
    return it.builder.total(forms[0].sort, [(others[0], factor)])


def _divisor(forms: Sequence[Sum]) -> Fraction:
    last = forms[-1]
    if len(forms) < 2 or last.items or last.constant == 0:
        raise TermError("a divisor is no number other than 0")
    return last.constant


def _over(it: Elaborator, terms: Sequence[Term]) -> Term:
    first, *rest = [it.builder.as_real(form) for form in it.numbers(terms)]
    for form in rest or [first]:
        first = it.builder.total(REAL, [(first, 1 / _divisor([first, form]))])
    if not rest:
        raise TermError("/ takes two terms at least")
    return first


def _div(it: Elaborator, terms: Sequence[Term]) -> Term:
    first, *rest = [it._whole(term) for term in terms]
    for form in rest:
        first = it.builder.quotient(first, int(_divisor([first, form])))
    return first


def _mod(it: Elaborator, terms: Sequence[Term]) -> Term:
    if len(terms) != 2:
        raise TermError("mod takes two terms")
    forms = [it._whole(term) for term in terms]
    return it.builder.remainder(forms[0], int(_divisor(forms)))


def _abs(it: Elaborator, terms: Sequence[Term]) -> Term:
    if len(terms) != 1:
        raise TermError("abs takes one term")
    form = it.numbers(terms)[0]
    opposite = it.builder.total(form.sort, [(form, Fraction(-1))])
    return it.builder.choice(it.builder.compare(Relation.AT_MOST, opposite), form, opposite)


def _to_real(it: Elaborator, terms: Sequence[Term]) -> Term:
    if len(terms) != 1:
        raise TermError("to_real takes one term")
    return it.builder.as_real(it.numbers(terms)[0])


def _to_int(it: Elaborator, terms: Sequence[Term]) -> Term:
    if len(terms) != 1:
        raise TermError("to_int takes one term")
    return it.builder.floor(it.numbers(terms)[0])


def _is_int(it: Elaborator, terms: Sequence[Term]) -> Term:
    if len(terms) != 1:
        raise TermError("is_int takes one term")
    form = it.builder.as_real(it.numbers(terms)[0])
    return it.equal(form, it.builder.floor(form))


def _compared(relation: Relation, sign: int) -> Operation:
    def made(it: Elaborator, terms: Sequence[Term]) -> Term:
        forms = it.numbers(terms)
        if len(forms) < 2:
            raise TermError("a comparison takes two terms at least")
        differences = [
            it.builder.total(left.sort, [(left, Fraction(sign)), (right, Fraction(-sign))]) for left, right in zip(forms, forms[1:])
        ]
        return it.builder.all([it.builder.compare(relation, form) for form in differences])

    return made


OPERATIONS: dict[str, Operation] = {
    "not": _not, "and": _and, "or": _or, "=>": _implies, "xor": _xor, "=": _equal, "distinct": _distinct, "ite": _ite,
    "+": _plus, "-": _minus, "*": _times, "/": _over, "div": _div, "mod": _mod, "abs": _abs,
    "to_real": _to_real, "to_int": _to_int, "is_int": _is_int,
    **{name: _compared(relation, sign) for name, (relation, sign) in RELATIONS.items()},
}
