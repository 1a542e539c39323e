"""Ask the program redlog from Python. Nothing of this module is proved; the lines that the program prints are.

    with Session() as session:
        print(session.eliminate("ex(x, x > a and x < b)"))
"""
from .answers import Answer, Assumptions, Axis, Binding, Case, Cases, Grid, Infeasible, Least, Multipliers, Place, Point, Unbounded
from .convert import to_sympy, to_z3
from .formulas import And, Atom, Congruence, Equivalent, Formula, Implies, Linear, Not, Or, Quantified, Relation, Replies, Truth
from .reading import ParseError, parse_formula
from .session import Ended, Refusal, Session, Theory, TimeLimit, find_program

__all__ = [
    "And", "Answer", "Assumptions", "Atom", "Axis", "Binding", "Case", "Cases", "Congruence", "Ended", "Equivalent", "Formula", "Grid", "Implies", "Infeasible",
    "Least", "Linear", "Multipliers", "Not", "Or", "ParseError", "Place", "Point", "Quantified", "Refusal", "Relation", "Replies", "Session", "Theory",
    "TimeLimit", "Truth", "Unbounded", "find_program", "parse_formula", "to_sympy", "to_z3",
]
