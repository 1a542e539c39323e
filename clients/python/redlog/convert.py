"""Formulas of sympy and of z3, where these are installed."""
from __future__ import annotations

from typing import Any, Callable

from .formulas import And, Atom, Congruence, Equivalent, Formula, Implies, Linear, Not, Or, Quantified, Relation, Replies, Truth


def to_sympy(formula: Formula, *, integers: bool = False) -> Any:
    """The formula for sympy, with real or integer symbols. It may have no quantifiers, since sympy has none."""
    import sympy

    def number(form: Linear) -> Any:
        total = sympy.Rational(form.constant.numerator, form.constant.denominator)
        for name, factor in form.factors:
            total += sympy.Rational(factor.numerator, factor.denominator) * sympy.Symbol(name, integer=True if integers else None, real=True)
        return total

    relations: dict[Relation, Callable[[Any, int], Any]] = {
        Relation.EQUAL: sympy.Eq, Relation.UNEQUAL: sympy.Ne, Relation.BELOW: sympy.Lt,
        Relation.AT_MOST: sympy.Le, Relation.ABOVE: sympy.Gt, Relation.AT_LEAST: sympy.Ge,
    }

    def made(it: Formula) -> Any:
        if isinstance(it, Truth):
            return sympy.true if it.value else sympy.false
        if isinstance(it, Atom):
            return relations[it.relation](number(it.form), 0)
        if isinstance(it, Congruence):
            equal = sympy.Eq(sympy.Mod(number(it.form), it.modulus), 0)
            return sympy.Not(equal) if it.negated else equal
        if isinstance(it, Not):
            return sympy.Not(made(it.part))
        if isinstance(it, (And, Or)):
            return (sympy.And if isinstance(it, And) else sympy.Or)(*map(made, it.parts))
        if isinstance(it, Implies):
            return sympy.Implies(made(it.left), made(it.right))
        if isinstance(it, Replies):
            return sympy.Implies(made(it.right), made(it.left))
        if isinstance(it, Equivalent):
            return sympy.Equivalent(made(it.left), made(it.right))
        raise ValueError("sympy has no quantifiers: eliminate them first")

    return made(formula)


def to_z3(formula: Formula, *, integers: bool = False) -> Any:
    """The formula for z3, with names of sort Int or Real, quantifiers included."""
    import z3

    def symbol(name: str) -> Any:
        return z3.Int(name) if integers else z3.Real(name)

    def number(form: Linear) -> Any:
        constant: Any = z3.IntVal(int(form.constant)) if integers else z3.RealVal(str(form.constant))
        for name, factor in form.factors:
            constant = constant + (int(factor) if integers else z3.RealVal(str(factor))) * symbol(name)
        return constant

    def compared(it: Atom) -> Any:
        value = number(it.form)
        return {
            Relation.EQUAL: lambda: value == 0, Relation.UNEQUAL: lambda: value != 0, Relation.BELOW: lambda: value < 0,
            Relation.AT_MOST: lambda: value <= 0, Relation.ABOVE: lambda: value > 0, Relation.AT_LEAST: lambda: value >= 0,
        }[it.relation]()

    def made(it: Formula) -> Any:
        if isinstance(it, Truth):
            return z3.BoolVal(it.value)
        if isinstance(it, Atom):
            return compared(it)
        if isinstance(it, Congruence):
            equal = number(it.form) % it.modulus == 0
            return z3.Not(equal) if it.negated else equal
        if isinstance(it, Not):
            return z3.Not(made(it.part))
        if isinstance(it, (And, Or)):
            return (z3.And if isinstance(it, And) else z3.Or)(*map(made, it.parts))
        if isinstance(it, Implies):
            return z3.Implies(made(it.left), made(it.right))
        if isinstance(it, Replies):
            return z3.Implies(made(it.right), made(it.left))
        if isinstance(it, Equivalent):
            return made(it.left) == made(it.right)
        if isinstance(it, Quantified):
            return (z3.Exists if it.kind == "ex" else z3.ForAll)([symbol(it.name)], made(it.body))
        raise ValueError("a formula that is not known")

    return made(formula)
