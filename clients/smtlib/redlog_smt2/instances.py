"""Functions under quantifiers, and quantifiers over declared sorts. What such an assertion says of the terms that are there is taken in its place: it follows from the assertion, so
`unsat` is right, and `sat` is never said."""
from __future__ import annotations

from dataclasses import dataclass, field
from itertools import product
from typing import Iterator, Sequence

from .rewrite import Rewriter, name_of
from .terms import BOOL, INT, REAL, And, Apply, Builder, Compare, Kind, Name, Not, Or, Quantified, Relation, Same, Sum, Symbol, Term
from .translate import parts_of

SORTS = (BOOL, INT, REAL)
ROUNDS = 4
MOST = 1500

Values = dict[Symbol, Term]


def inside(terms: Sequence[Term]) -> Iterator[Term]:
    """All terms inside the terms, each once."""
    rest, seen = list(terms), set(terms)
    while rest:
        term = rest.pop()
        yield term
        for part in parts_of(term):
            if part not in seen:
                seen.add(part)
                rest.append(part)


def is_beyond(terms: Sequence[Term]) -> bool:
    """Whether a function is applied to a name that a quantifier binds, or a quantifier is over a declared sort, which may have few values."""
    return any(
        isinstance(it, Apply) and bool(it.bound) or isinstance(it, Quantified) and any(symbol.sort not in SORTS for symbol in it.symbols) for it in inside(terms)
    )


@dataclass
class Rule:
    """What holds for all values of some names, with the applications that tell for which values it is looked at."""

    symbols: tuple[Symbol, ...]
    body: Term
    triggers: list[tuple[Apply, ...]] = field(default_factory=list)


class Opener:
    """Cuts what is asserted into its parts: names of outermost `exists` become declared ones."""

    def __init__(self, builder: Builder) -> None:
        self._builder = builder

    def parts(self, term: Term, is_true: bool = True) -> Iterator[Term]:
        """Formulas that together can be true where the term can be true, or false."""
        if isinstance(term, Not):
            yield from self.parts(term.part, not is_true)
        elif isinstance(term, (And, Or)) and isinstance(term, And) == is_true:
            for part in term.parts:
                yield from self.parts(part, is_true)
        elif isinstance(term, Quantified) and (term.kind is Kind.EXISTS) == is_true:
            values = {it: self._builder.name(self._builder.symbol(it.name, it.sort), False) for it in term.symbols}
            yield from self.parts(filled(self._builder, term.body, values), is_true)
        else:
            yield term if is_true else self._builder.negate(term)


def filled(builder: Builder, term: Term, values: Values) -> Term:
    """The term with values for bound names."""
    return Rewriter(builder, {name_of(builder, builder.name(symbol, True)): value for symbol, value in values.items()}).term(term)


class Instances:
    """The parts without these, and more of them in each round."""

    def __init__(self, builder: Builder, formulas: Sequence[Term]) -> None:
        self._builder = builder
        self._opener = Opener(builder)
        self.plain: dict[Term, None] = {}
        self._rules: list[Rule] = []
        self._done: set[Term] = set()
        self._take(part for formula in formulas for part in self._opener.parts(formula))

    def _take(self, parts: Iterator[Term]) -> None:
        for part in list(parts):
            if not is_beyond([part]):
                self.plain[part] = None
            else:
                rule = self._rule(part)
                if rule is not None:
                    self._rules.append(rule)

    def _rule(self, part: Term) -> Rule | None:
        """The rule of a part that is a quantifier; another part is left out, which is right where unsat is said."""
        symbols: list[Symbol] = []
        is_true = True
        while True:
            if isinstance(part, Not):
                part, is_true = part.part, not is_true
            elif isinstance(part, Quantified) and (part.kind is Kind.FORALL) == is_true:
                symbols += part.symbols
                part = part.body
            else:
                break
        if not symbols:
            return None
        rule = Rule(tuple(symbols), part if is_true else self._builder.negate(part))
        rule.triggers = list(triggers(rule))
        return rule if rule.triggers else None

    def round(self) -> bool:
        """Adds what the rules say of the terms that are there; tells whether there was something new."""
        ground: dict[Symbol, list[Apply]] = {}
        for term in inside(list(self.plain)):
            if isinstance(term, Apply) and not term.bound:
                ground.setdefault(term.symbol, []).append(term)
        found: list[Term] = []
        for rule in list(self._rules):
            for values in matches(rule, ground):
                if len(self._done) >= MOST:
                    break
                instance = filled(self._builder, rule.body, values)
                if instance not in self._done:
                    self._done.add(instance)
                    found.append(instance)
        self._take(part for instance in found for part in self._opener.parts(instance))
        return bool(found)

    def simplified(self) -> list[Term]:
        """The plain parts, in which each equation has replaced one of its names or applications."""
        parts = list(self.plain)
        while True:
            for place, part in enumerate(parts):
                solved = solution(self._builder, part)
                if solved is not None:
                    break
            else:
                return parts
            rewriter = Rewriter(self._builder, dict([solved]))
            made: dict[Term, None] = {}
            for other in [*parts[:place], *parts[place + 1:]]:
                for each in self._opener.parts(rewriter.term(other)):
                    if each is not self._builder.true:
                        made[each] = None
            parts = list(made)


def solution(builder: Builder, part: Term) -> tuple[Term, Term] | None:
    """A name or an application, and what it is equal to by the part."""
    truth = not isinstance(part, Not)
    atom = part if truth else part.part if isinstance(part, Not) else part
    if isinstance(atom, (Name, Apply)) and not atom.bound:
        return atom, builder.truth(truth)
    if isinstance(part, Same):
        for one, other in ((part.left, part.right), (part.right, part.left)):
            if isinstance(one, (Name, Apply)) and not one.bound and one not in set(inside([other])):
                return one, other
        return None
    if not isinstance(part, Compare) or part.relation is not Relation.EQUAL:
        return None
    found = [
        (term, factor) for term, factor in part.form.items
        if isinstance(term, (Name, Apply)) and not term.bound and (term.sort != INT or abs(factor) == 1) and (part.form.sort == term.sort)
    ]
    for term, factor in sorted(found, key=lambda it: -sum(1 for _ in inside([it[0]]))):
        rest = builder.form(part.form.sort, part.form.constant, {it: by for it, by in part.form.items if it is not term})
        whole = term.sort != INT or all(it.denominator == 1 for it in (rest.constant, *(by for _, by in rest.items)))
        if whole and term not in set(inside([rest])):
            return term, builder.total(term.sort, [(rest, -1 / factor)])
    return None


# ---- which values a rule is looked at for


def variable(term: Term) -> Symbol | None:
    """The bound name that the term is."""
    inner = term.items[0][0] if isinstance(term, Sum) and len(term.items) == 1 and term.items[0][1] == 1 and term.constant == 0 else term
    return inner.symbol if isinstance(inner, Name) and inner.bound else None


def application(term: Term) -> Apply | None:
    """The application that the term is."""
    inner = term.items[0][0] if isinstance(term, Sum) and len(term.items) == 1 and term.items[0][1] == 1 and term.constant == 0 else term
    return inner if isinstance(inner, Apply) else None


def can_match(pattern: Term, symbols: frozenset[Symbol]) -> bool:
    """Whether the term is made of functions, names of the rule and terms without bound names alone."""
    if not pattern.bound or variable(pattern) in symbols:
        return True
    applied = application(pattern)
    return applied is not None and all(can_match(it, symbols) for it in applied.arguments)


def triggers(rule: Rule) -> Iterator[tuple[Apply, ...]]:
    """Applications with all names of the rule: those that have no smaller one inside, or two together."""
    symbols = frozenset(rule.symbols)
    usable = [it for it in inside([rule.body]) if isinstance(it, Apply) and it.bound and it.bound <= symbols and can_match(it, symbols)]
    full = [it for it in usable if it.bound == symbols]
    smallest = [it for it in full if not any(other is not it and other in full for other in inside([it]))]
    if smallest:
        yield from ((it,) for it in smallest)
        return
    for place, one in enumerate(usable):
        for other in usable[place + 1:]:
            if one.bound | other.bound == symbols and one.bound != symbols:
                yield one, other


def matches(rule: Rule, ground: dict[Symbol, list[Apply]]) -> Iterator[Values]:
    """The values of the names for which a trigger is there."""
    for trigger in rule.triggers:
        for found in product(*(ground.get(it.symbol, []) for it in trigger)):
            values: Values = {}
            if all(match(pattern, it, values) for pattern, it in zip(trigger, found)):
                yield values


def match(pattern: Term, term: Term, values: Values) -> bool:
    """Whether the pattern is the term where its names have values, which are added."""
    if not pattern.bound:
        return pattern is term
    symbol = variable(pattern)
    if symbol is not None:
        return values.setdefault(symbol, term) is term
    one, other = application(pattern), application(term)
    if one is None or other is None or one.symbol is not other.symbol:
        return False
    return all(match(left, right, values) for left, right in zip(one.arguments, other.arguments))
