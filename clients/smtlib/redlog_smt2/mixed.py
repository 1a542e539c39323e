"""Whole and real numbers in one comparison. The program has one sort of numbers in a script, so three questions are asked: rlqe over the rational numbers
takes the real names away, which leaves a condition on the whole ones that is right at whole numbers too; redlog --smt finds whole numbers with it; and
then real ones beside them. There is no such way where a quantifier binds a whole number: then nothing is known."""
from __future__ import annotations

from typing import Sequence

from redlog import And, Atom, Ended, Formula, Not, Or, Refusal, Relation, Session, TimeLimit, Truth

from .expressions import Expression, Reader, Symbol as Word
from .program import Program, Reply, Verdict
from .terms import Builder, Term
from .translate import CannotSay, Script, Translator

LISTS = {"and": "and", "or": "or", "=>": "impl"}
COMPARISONS = ("<", "<=", ">", ">=")


def asked(builder: Builder, program: Program, formulas: Sequence[Term]) -> tuple[Script, Reply]:
    """The script of the formulas, and its answer with values of the script's names."""
    translator = Translator(builder, formulas, "LRA", is_mixed=True)
    script = translator.script()
    whole = translator.whole_names()
    condition = _without_reals(program, script, whole)
    if isinstance(condition, str):
        return script, Reply(Verdict.UNKNOWN, {}, condition)
    text = "\n".join(["(set-logic LIA)", *(f"(declare-const {name} Int)" for name in whole), f"(assert {_smt(condition)})", "(check-sat)"]) + "\n"
    first = program.ask(text, whole)
    if first.verdict is not Verdict.SAT:
        return script, first
    fixed = Script("LRA", script.names, [*script.asserted, *(f"(= {name} {_numeral(int(value))})" for name, value in first.values.items())], script.helpers)
    return script, program.ask(fixed.text(), list(script.names.values()))


def _without_reals(program: Program, script: Script, whole: Sequence[str]) -> Formula | str:
    """The condition on the whole names, or why there is none."""
    names = [name for name in [*script.names.values(), *script.helpers] if name not in whole]
    body = " and ".join(f"({_redlog(_read(text))})" for text in script.asserted) or "true"
    question = f"rlqe ex({{{','.join(names)}}},{body})" if names else f"rlqe ({body})"
    program.asked += 1
    try:
        with Session(seconds=program.seconds) as session:
            answer = session.ask(question)
    except (Refusal, TimeLimit, Ended, OSError) as error:
        return str(error)
    assert answer is not None and isinstance(answer.value, Formula)
    return answer.value


def _read(text: str) -> Expression:
    pieces = iter([text, ""])
    return next(iter(Reader(lambda: next(pieces)).expressions()))


def _is_number(expression: Expression) -> bool:
    head = expression[0] if isinstance(expression, list) else expression
    return head in ("+", "-", "*") or not isinstance(expression, list) and expression not in ("true", "false")


def _redlog(expression: Expression) -> str:
    """A formula or a number of the translated language, as Redlog writes it."""
    if not isinstance(expression, list):
        return str(expression)
    head, *parts = expression
    if head == "not":
        return f"not ({_redlog(parts[0])})"
    if head in ("forall", "exists"):
        assert isinstance(parts[0], list)
        names = ",".join(str(it[0]) for it in parts[0])
        return f"{'all' if head == 'forall' else 'ex'}({{{names}}},{_redlog(parts[1])})"
    texts = [_redlog(it) for it in parts]
    if isinstance(head, Word) and head in LISTS:
        return f" {LISTS[head]} ".join(f"({it})" for it in texts)
    if head == "=" and not _is_number(parts[0]):
        return f"({texts[0]}) equiv ({texts[1]})"
    if head == "=" or head in COMPARISONS:
        return f"{texts[0]} {head} {texts[1]}"
    if head == "-" and len(texts) == 1:
        return f"(-{texts[0]})"
    if head in ("+", "*"):
        return "(" + f"{head}".join(texts) + ")"
    raise CannotSay("a term that is not understood")


def _numeral(value: int) -> str:
    return str(value) if value >= 0 else f"(- {-value})"


def _smt(formula: Formula) -> str:
    """A formula without quantifiers, of the program's answer, in SMT-LIB."""
    if isinstance(formula, Truth):
        return "true" if formula.value else "false"
    if isinstance(formula, (And, Or)):
        return f"({'and' if isinstance(formula, And) else 'or'} {' '.join(map(_smt, formula.parts))})"
    if isinstance(formula, Not):
        return f"(not {_smt(formula.part)})"
    if not isinstance(formula, Atom):
        raise CannotSay("an answer that is not understood")
    items = [f"(* {_numeral(int(factor))} {name})" for name, factor in formula.form.factors]
    value = f"(+ {' '.join(items)} {_numeral(int(formula.form.constant))})"
    if formula.relation is Relation.UNEQUAL:
        return f"(not (= {value} 0))"
    return f"({formula.relation.value} {value} 0)"

