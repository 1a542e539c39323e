"""One check: terms are asked of the program, and a model is held against them before it counts."""
from __future__ import annotations

from dataclasses import dataclass, field
from typing import Sequence

from .evaluate import Evaluator, Model, Value
from .instances import ROUNDS, Instances, inside, is_beyond
from .program import Program, Reply, Verdict
from .terms import BOOL, INT, REAL, And, Apply, Builder, Name, Term, TermError
from .translate import CannotSay, Script, Translator, sorts_of, uses_of


@dataclass
class Outcome:
    """A verdict, with a model after sat and a reason after unknown."""

    verdict: Verdict
    model: Model = field(default_factory=Model)
    reason: str = ""


class Undecided(Exception):
    """The program did not tell the truth of a formula with quantifiers at a model."""


class Checker:
    """Asks the program of terms."""

    def __init__(self, builder: Builder, program: Program) -> None:
        self._builder = builder
        self._program = program

    def check(self, formulas: Sequence[Term]) -> Outcome:
        """Whether some values make all formulas true."""
        wanted = self._builder.all(formulas)
        if wanted is self._builder.false:
            return Outcome(Verdict.UNSAT)
        if is_beyond(formulas):
            return self._by_instances(formulas)
        try:
            outcome = self._asked(list(formulas))
            if outcome.verdict is Verdict.SAT and not self._is_right(outcome.model, formulas):
                return Outcome(Verdict.UNKNOWN, reason="the values do not make all true that is asserted")
            return outcome
        except CannotSay as error:
            return Outcome(Verdict.UNKNOWN, reason=str(error))
        except Undecided:
            return Outcome(Verdict.UNKNOWN, reason="the values could not be held against a quantifier")

    def _by_instances(self, formulas: Sequence[Term]) -> Outcome:
        """Functions or declared sorts stand under quantifiers: unsat where some of what these say cannot be true, and else unknown."""
        instances = Instances(self._builder, formulas)
        reason = "functions or declared sorts stand under quantifiers"
        for _ in range(ROUNDS):
            try:
                parts = instances.simplified()
                if self._builder.all(parts) is self._builder.false or self._asked(parts).verdict is Verdict.UNSAT:
                    return Outcome(Verdict.UNSAT)
            except CannotSay as error:
                reason = str(error)
            if not instances.round():
                break
        return Outcome(Verdict.UNKNOWN, reason=reason)

    def evaluator(self, model: Model) -> Evaluator:
        """Values at the model."""
        return Evaluator(self._builder, model, self._decide)

    def _decide(self, formula: Term) -> bool:
        """The truth of a formula without free names."""
        verdict = self._asked([formula]).verdict
        if verdict is Verdict.UNKNOWN:
            raise Undecided
        return verdict is Verdict.SAT

    def _is_right(self, model: Model, formulas: Sequence[Term]) -> bool:
        evaluator = self.evaluator(model)
        try:
            return all(evaluator.value(it) is True for it in formulas)
        except TermError as error:
            raise Undecided from error

    def _asked(self, formulas: list[Term]) -> Outcome:
        """Asks without a look at the values. Parts with whole numbers, parts with real ones, and parts with both are questions by themselves."""
        sorts = sorts_of(uses_of(formulas))
        if not {INT, REAL} <= sorts:
            return self._outcome(*self._plain(formulas, "LIA" if INT in sorts else "LRA"))
        # Imported here, since it costs the start of each process time and few scripts need it.
        from . import mixed

        values: dict[Term, Value] = {}
        unknown: Outcome | None = None
        for logic, group in groups(formulas).items():
            try:
                script, reply = self._plain(group, logic) if logic else mixed.asked(self._builder, self._program, group)
            except CannotSay as error:
                unknown = Outcome(Verdict.UNKNOWN, reason=str(error))
                continue
            if reply.verdict is Verdict.UNSAT:
                return Outcome(Verdict.UNSAT)
            if reply.verdict is Verdict.UNKNOWN:
                unknown = Outcome(Verdict.UNKNOWN, reason=reply.reason)
            else:
                values.update(values_of(script, reply))
        return unknown or Outcome(Verdict.SAT, self._model(values))

    def _plain(self, formulas: Sequence[Term], logic: str) -> tuple[Script, Reply]:
        script = Translator(self._builder, formulas, logic).script()
        return script, self._program.ask(script.text(), list(script.names.values()))

    def _outcome(self, script: Script, reply: Reply) -> Outcome:
        if reply.verdict is not Verdict.SAT:
            return Outcome(reply.verdict, reason=reply.reason)
        return Outcome(Verdict.SAT, self._model(values_of(script, reply)))

    def _model(self, values: dict[Term, Value]) -> Model:
        """The model of the values of names and of applications."""
        model = Model({term.symbol: value for term, value in values.items() if isinstance(term, Name)})
        evaluator = KnownApplications(self._builder, model, self._decide, values)
        for term, value in values.items():
            if isinstance(term, Apply):
                arguments = tuple(evaluator.value(it) for it in term.arguments)
                model.tables.setdefault(term.symbol, {})[arguments] = value
        return model


def values_of(script: Script, reply: Reply) -> dict[Term, Value]:
    """The values of the names and applications of a script."""
    return {term: reply.values[name] > 0 if term.sort == BOOL else reply.values[name] for term, name in script.names.items()}


def groups(formulas: Sequence[Term]) -> dict[str, list[Term]]:
    """What is asserted, in groups without common names and functions: with whole numbers (`LIA`), with real ones (`LRA`), and with both (an empty name)."""
    parts = [part for formula in formulas for part in (formula.parts if isinstance(formula, And) else (formula,))]
    leader: dict[object, object] = {}

    def find(it: object) -> object:
        while leader.setdefault(it, it) is not it:
            it = leader[it]
        return it

    for part in parts:
        for term in inside([part]):
            if isinstance(term, (Name, Apply)) and not (isinstance(term, Name) and term.bound):
                leader[find(term.symbol)] = find(part)
    members: dict[object, list[Term]] = {}
    for part in parts:
        members.setdefault(find(part), []).append(part)
    found: dict[str, list[Term]] = {}
    for group in members.values():
        sorts = sorts_of(uses_of(group))
        found.setdefault("" if {INT, REAL} <= sorts else "LIA" if INT in sorts else "LRA", []).extend(group)
    return found


class KnownApplications(Evaluator):
    """Evaluates where the values of applications are those that the program gave."""

    def __init__(self, builder: Builder, model: Model, decide: object, values: dict[Term, Value]) -> None:
        super().__init__(builder, model, decide)  # type: ignore[arg-type]
        self._known.update({term: value for term, value in values.items() if isinstance(term, Apply)})
