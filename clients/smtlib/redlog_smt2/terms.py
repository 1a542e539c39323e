"""Terms with their sorts. Equal terms are one object, numbers are linear forms, and what is constant is folded."""
from __future__ import annotations

from dataclasses import dataclass
from enum import Enum
from fractions import Fraction
from typing import Iterable, Mapping


class TermError(Exception):
    """The text is no term of the language that is understood."""


@dataclass(frozen=True)
class Sort:
    """A sort. Those with other names than Bool, Int and Real are declared ones."""

    name: str


BOOL, INT, REAL = Sort("Bool"), Sort("Int"), Sort("Real")
NUMBERS = (INT, REAL)


class Relation(Enum):
    """How a form is compared with 0."""

    EQUAL = "="
    AT_MOST = "<="
    BELOW = "<"


class Kind(Enum):
    """The two quantifiers."""

    FORALL = "forall"
    EXISTS = "exists"


@dataclass(eq=False)
class Symbol:
    """A declared name, function or bound name. Each declaration makes a new one."""

    name: str
    number: int
    sort: Sort
    arguments: tuple[Sort, ...] = ()


Bound = frozenset[Symbol]
NONE: Bound = frozenset()


@dataclass(eq=False)
class Term:
    """A term; `bound` are the names of quantifiers around it that stand in it."""

    sort: Sort
    bound: Bound


@dataclass(eq=False)
class Name(Term):
    """A declared or bound name, of any sort."""

    symbol: Symbol


@dataclass(eq=False)
class Apply(Term):
    """A declared function at its arguments."""

    symbol: Symbol
    arguments: tuple[Term, ...]


@dataclass(eq=False)
class Choice(Term):
    """`ite` of numbers, or of values of a declared sort."""

    condition: Term
    yes: Sum
    no: Sum


@dataclass(eq=False)
class Quotient(Term):
    """`div` by a positive number."""

    form: Sum
    divisor: int


@dataclass(eq=False)
class Remainder(Term):
    """`mod` by a positive number."""

    form: Sum
    divisor: int


@dataclass(eq=False)
class Floor(Term):
    """`to_int`."""

    form: Sum


@dataclass(eq=False)
class Sum(Term):
    """A linear form: a constant and other terms with their factors. Values of declared sorts are forms too."""

    constant: Fraction
    items: tuple[tuple[Term, Fraction], ...]


@dataclass(eq=False)
class Truth(Term):
    """`true` or `false`."""

    value: bool


@dataclass(eq=False)
class Compare(Term):
    """A form compared with 0."""

    relation: Relation
    form: Sum


@dataclass(eq=False)
class Divides(Term):
    """That a whole number divides a form."""

    divisor: int
    form: Sum


@dataclass(eq=False)
class Not(Term):
    """Negation."""

    part: Term


@dataclass(eq=False)
class And(Term):
    """Conjunction of two parts or more."""

    parts: tuple[Term, ...]


@dataclass(eq=False)
class Or(Term):
    """Disjunction of two parts or more."""

    parts: tuple[Term, ...]


@dataclass(eq=False)
class Same(Term):
    """That two formulas have one truth."""

    left: Term
    right: Term


@dataclass(eq=False)
class Quantified(Term):
    """A quantifier over names."""

    kind: Kind
    symbols: tuple[Symbol, ...]
    body: Term


def joined(terms: Iterable[Term]) -> Bound:
    """The bound names of all the terms."""
    found = NONE
    for term in terms:
        if term.bound:
            found = found | term.bound if found else term.bound
    return found


class Builder:
    """Makes terms. Equal terms are made once."""

    def __init__(self) -> None:
        self._made: dict[tuple[object, ...], Term] = {}
        self._count = 0
        self.true = Truth(BOOL, NONE, True)
        self.false = Truth(BOOL, NONE, False)

    def symbol(self, name: str, sort: Sort, arguments: tuple[Sort, ...] = ()) -> Symbol:
        """A new symbol. Later ones have higher numbers."""
        self._count += 1
        return Symbol(name, self._count, sort, arguments)

    def _keep(self, key: tuple[object, ...], term: Term) -> Term:
        return self._made.setdefault(key, term)

    # ---- numbers and values

    def name(self, symbol: Symbol, is_bound: bool) -> Term:
        """A name by itself."""
        bound = frozenset([symbol]) if is_bound else NONE
        return self._as_value(self._keep((Name, symbol), Name(symbol.sort, bound, symbol)))

    def apply(self, symbol: Symbol, arguments: tuple[Term, ...]) -> Term:
        """A function at its arguments."""
        made = Apply(symbol.sort, joined(arguments), symbol, arguments)
        return self._as_value(self._keep((Apply, symbol, arguments), made))

    def _as_value(self, term: Term) -> Term:
        return term if term.sort == BOOL else self.form(term.sort, Fraction(0), {term: Fraction(1)})

    def form(self, sort: Sort, constant: Fraction, items: Mapping[Term, Fraction]) -> Sum:
        """A linear form."""
        kept = tuple((term, factor) for term, factor in items.items() if factor)
        made = Sum(sort, joined(term for term, _ in kept), constant, kept)
        found = self._keep((Sum, sort, constant, frozenset(kept)), made)
        assert isinstance(found, Sum)
        return found

    def number(self, value: Fraction, sort: Sort) -> Sum:
        """A constant."""
        return self.form(sort, value, {})

    def total(self, sort: Sort, forms: Iterable[tuple[Sum, Fraction]]) -> Sum:
        """The sum of forms, each times a number."""
        constant, items = Fraction(0), dict[Term, Fraction]()
        for form, times in forms:
            constant += times * form.constant
            for term, factor in form.items:
                items[term] = items.get(term, Fraction(0)) + times * factor
        return self.form(sort, constant, items)

    def as_real(self, form: Sum) -> Sum:
        """`to_real`: the same number."""
        return form if form.sort == REAL else self.form(REAL, form.constant, dict(form.items))

    def choice(self, condition: Term, yes: Term, no: Term) -> Term:
        """`ite`."""
        if isinstance(condition, Truth):
            return yes if condition.value else no
        if yes is no:
            return yes
        if yes.sort == BOOL:
            return self.any([self.all([condition, yes]), self.all([self.negate(condition), no])])
        assert isinstance(yes, Sum) and isinstance(no, Sum)
        made = Choice(yes.sort, joined([condition, yes, no]), condition, yes, no)
        return self._as_value(self._keep((Choice, condition, yes, no), made))

    def quotient(self, form: Sum, divisor: int) -> Sum:
        """`div`, rounded so that the remainder is not negative."""
        if not form.items:
            return self.number(Fraction(whole_quotient(form.constant, divisor)), INT)
        found = self._as_value(self._keep((Quotient, form, abs(divisor)), Quotient(INT, form.bound, form, abs(divisor))))
        assert isinstance(found, Sum)
        return found if divisor > 0 else self.total(INT, [(found, Fraction(-1))])

    def remainder(self, form: Sum, divisor: int) -> Sum:
        """`mod`."""
        if not form.items:
            return self.number(form.constant - divisor * whole_quotient(form.constant, divisor), INT)
        found = self._as_value(self._keep((Remainder, form, abs(divisor)), Remainder(INT, form.bound, form, abs(divisor))))
        assert isinstance(found, Sum)
        return found

    def floor(self, form: Sum) -> Sum:
        """`to_int`."""
        if is_whole(form):
            return self.form(INT, form.constant, dict(form.items))
        if not form.items:
            return self.number(Fraction(form.constant.__floor__()), INT)
        found = self._as_value(self._keep((Floor, form), Floor(INT, form.bound, form)))
        assert isinstance(found, Sum)
        return found

    # ---- formulas

    def truth(self, value: bool) -> Term:
        """A constant formula."""
        return self.true if value else self.false

    def compare(self, relation: Relation, form: Sum) -> Term:
        """The form compared with 0."""
        if not form.items:
            return self.truth(holds(relation, form.constant))
        special = self._remainder_is(form) if relation is Relation.EQUAL else None
        if special is not None:
            return special
        return self._keep((Compare, relation, form), Compare(BOOL, form.bound, relation, form))

    def _remainder_is(self, form: Sum) -> Term | None:
        """`mod` of a form by a number that is a number, said by divisibility."""
        if len(form.items) != 1:
            return None
        remainder, factor = form.items[0]
        if not isinstance(remainder, Remainder):
            return None
        value = -form.constant / factor
        if value.denominator != 1 or not 0 <= value < remainder.divisor:
            return self.false
        return self.divides(remainder.divisor, self.total(INT, [(remainder.form, Fraction(1)), (self.number(value, INT), Fraction(-1))]))

    def divides(self, divisor: int, form: Sum) -> Term:
        """That a positive number divides the form."""
        if not form.items:
            return self.truth(form.constant % divisor == 0)
        return self._keep((Divides, divisor, form), Divides(BOOL, form.bound, divisor, form))

    def negate(self, part: Term) -> Term:
        """`not`."""
        if isinstance(part, Truth):
            return self.truth(not part.value)
        if isinstance(part, Not):
            return part.part
        if isinstance(part, Compare) and part.relation is not Relation.EQUAL:
            opposite = Relation.BELOW if part.relation is Relation.AT_MOST else Relation.AT_MOST
            return self.compare(opposite, self.total(part.form.sort, [(part.form, Fraction(-1))]))
        return self._keep((Not, part), Not(BOOL, part.bound, part))

    def all(self, parts: Iterable[Term]) -> Term:
        """`and`."""
        return self._list(And, parts, self.true, self.false)

    def any(self, parts: Iterable[Term]) -> Term:
        """`or`."""
        return self._list(Or, parts, self.false, self.true)

    def _list(self, kind: type[And] | type[Or], parts: Iterable[Term], empty: Term, full: Term) -> Term:
        found: dict[Term, None] = {}
        for part in parts:
            if part is full:
                return full
            for each in part.parts if isinstance(part, (And, Or)) and isinstance(part, kind) else (part,):
                if each is not empty:
                    found[each] = None
        if len(found) < 2:
            return next(iter(found), empty)
        members = tuple(found)
        return self._keep((kind, members), kind(BOOL, joined(members), members))

    def same(self, left: Term, right: Term) -> Term:
        """`=` of two formulas."""
        if isinstance(left, Truth):
            return right if left.value else self.negate(right)
        if isinstance(right, Truth):
            return left if right.value else self.negate(left)
        if left is right:
            return self.true
        return self._keep((Same, left, right), Same(BOOL, joined([left, right]), left, right))

    def quantified(self, kind: Kind, symbols: tuple[Symbol, ...], body: Term) -> Term:
        """A quantifier; names that the body does not have are left out, since every sort has values."""
        used = tuple(symbol for symbol in symbols if symbol in body.bound)
        if not used:
            return body
        made = Quantified(BOOL, body.bound - frozenset(used), kind, used, body)
        return self._keep((Quantified, kind, used, body), made)


def whole_quotient(value: Fraction, divisor: int) -> int:
    """`div` as SMT-LIB has it: the remainder is from 0 up to below the divisor's absolute value."""
    quotient = (value / abs(divisor)).__floor__()
    return quotient if divisor > 0 else -quotient


def holds(relation: Relation, value: Fraction) -> bool:
    """Whether the number compares with 0 so."""
    if relation is Relation.EQUAL:
        return value == 0
    return value <= 0 if relation is Relation.AT_MOST else value < 0


def is_whole(form: Sum) -> bool:
    """Whether the form has whole values alone, as its parts show."""
    numbers = [form.constant, *(factor for _, factor in form.items)]
    return all(it.denominator == 1 for it in numbers) and all(term.sort == INT for term, _ in form.items)
