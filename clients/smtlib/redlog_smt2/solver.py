"""The commands of SMT-LIB 2.6, each answered at once."""
from __future__ import annotations

from dataclasses import dataclass, field
from typing import Callable, Sequence, TextIO

from . import VERSION
from .checking import Checker, Outcome, Undecided
from .elaborate import Definition, Elaborator, Meaning, Names
from .evaluate import Model, Value, default
from .expressions import Expression, Keyword, Numeral, Symbol as Word, Text, string_text, symbol_text, written
from .program import Program, Verdict
from .terms import BOOL, INT, REAL, Builder, Sort, Symbol, Term, TermError

# What is declared under these names would hide a part of the language.
FIXED = frozenset("true false not and or => xor = distinct ite + - * / < <= > >= let forall exists ! _ as match par".split())


class CommandError(Exception):
    """A command that is not taken. It changes nothing but that checks say unknown from then on."""


class QuestionError(Exception):
    """A question that has no answer now. It changes nothing."""


class Unsupported(Exception):
    """An option or a question that is not known, and that no answer depends on."""


@dataclass
class Assertion:
    """What is asserted, as it was written, with the name of its `:named`."""

    term: Term
    expression: Expression
    name: str | None


@dataclass
class Level:
    """What a `push` has begun: `undo` takes back what was declared, `left_out` says which command was not taken."""

    assertions: list[Assertion] = field(default_factory=list)
    undo: list[Callable[[], None]] = field(default_factory=list)
    left_out: str = ""


@dataclass
class Checked:
    """The last check, while nothing has changed since."""

    outcome: Outcome
    assertions: list[Assertion]
    assumptions: list[tuple[Expression, Term]]


OPTIONS: dict[str, Expression] = {
    ":print-success": Word("false"), ":produce-models": Word("false"), ":produce-unsat-cores": Word("false"), ":produce-unsat-assumptions": Word("false"),
    ":produce-assertions": Word("false"), ":produce-assignments": Word("false"), ":produce-proofs": Word("false"), ":interactive-mode": Word("false"),
    ":global-declarations": Word("false"), ":random-seed": Numeral("0"), ":verbosity": Numeral("0"), ":reproducible-resource-limit": Numeral("0"),
    ":regular-output-channel": Text("stdout"), ":diagnostic-output-channel": Text("stderr"),
}


class Solver:
    """A session: commands in, lines out."""

    def __init__(self, program: Program, output: TextIO) -> None:
        self._program = program
        self._output = output
        self.had_errors = False
        self._reset()

    def _reset(self) -> None:
        self._builder = Builder()
        self._checker = Checker(self._builder, self._program)
        self._names = Names()
        self._declared: dict[str, Symbol] = {}
        self._labels: dict[str, Term] = {}
        self._elaborator = Elaborator(self._builder, self._names, self._keep_name)
        self._levels = [Level()]
        self._options = dict(OPTIONS)
        self._information: dict[str, Expression] = {}
        self._logic = ""
        self._checked: Checked | None = None

    # ---- the outside

    def say(self, line: str) -> None:
        """Writes a line at once."""
        self._output.write(line + "\n")
        self._output.flush()

    def error(self, text: str) -> None:
        """Says that a command is not taken."""
        self.had_errors = True
        self.say(f"(error {string_text(text)})")

    def unreadable(self, text: str) -> None:
        """The source could not be read further; nothing that follows is taken."""
        self._levels[0].left_out = "text that could not be read"
        self.error(text)

    def take(self, command: Expression) -> bool:
        """Answers a command, and tells whether the session goes on."""
        if not isinstance(command, list) or not command or not isinstance(command[0], Word):
            self._leave_out(command, "no command")
            return True
        word, parts = command[0], command[1:]
        if word == "exit" and not parts:
            self._succeed()
            return False
        try:
            made = COMMANDS.get(word)
            if made is None:
                raise CommandError(f"the command {word} is not understood")
            made(self, parts)
        except Unsupported:
            self.say("unsupported")
        except QuestionError as error:
            self.error(str(error))
        except (CommandError, TermError) as error:
            self._leave_out(command, str(error))
        except RecursionError:
            self._leave_out(command, "the term is too deep")
        return True

    def _leave_out(self, command: Expression, text: str) -> None:
        """Says unknown from here on, until the level of the command is taken back."""
        is_stack = isinstance(command, list) and bool(command) and command[0] in ("push", "pop")
        level = self._levels[0] if is_stack else self._levels[-1]
        level.left_out = level.left_out or f"a command was not taken: {written(command)[:80]}"
        self._checked = None
        self.error(text)

    def _succeed(self) -> None:
        if self._options[":print-success"] == "true":
            self.say("success")

    def _changed(self) -> None:
        self._checked = None
        self._succeed()

    def _is_on(self, option: str) -> bool:
        return self._options[option] == "true"

    # ---- names

    def _keep_name(self, name: str, term: Term, expression: Expression) -> None:
        self._add(name, term)
        if term.sort == BOOL:
            self._labels[name] = term
            self._levels[-1].undo.append(lambda: self._labels.pop(name, None) and None)

    def _add(self, name: str, meaning: Meaning) -> None:
        """Lets the name stand for something until the level is taken back."""
        if name in FIXED or name in self._names.known:
            raise CommandError(f"{name} is declared already, or stands for something else")
        self._names.known[name] = meaning
        level = self._levels[0 if self._is_on(":global-declarations") else -1]
        level.undo.append(lambda: self._names.known.pop(name, None) and None)

    def _symbol(self, expression: Expression) -> str:
        if not isinstance(expression, Word):
            raise CommandError(f"{written(expression)} is no symbol")
        return expression

    def _parts(self, parts: Sequence[Expression], count: int) -> None:
        if len(parts) != count:
            raise CommandError(f"the command takes {count} parts")

    def set_logic(self, parts: Sequence[Expression]) -> None:
        """Takes any logic: whether a term is understood is seen where it stands."""
        self._parts(parts, 1)
        if self._logic:
            raise CommandError("a logic is chosen already")
        self._logic = self._symbol(parts[0])
        arithmetic = self._logic.replace("QF_", "").replace("UF", "")
        self._elaborator.only_reals = arithmetic in ("LRA", "RDL", "NRA")
        self._succeed()

    def declare_const(self, parts: Sequence[Expression]) -> None:
        """Declares a name."""
        self._parts(parts, 2)
        self.declare_fun([parts[0], [], parts[1]])

    def declare_fun(self, parts: Sequence[Expression]) -> None:
        """Declares a name, or a function."""
        self._parts(parts, 3)
        name = self._symbol(parts[0])
        if not isinstance(parts[1], list):
            raise CommandError("the sorts of the arguments are no list")
        arguments = tuple(self._elaborator.sort(it) for it in parts[1])
        symbol = self._builder.symbol(name, self._elaborator.sort(parts[2]), arguments)
        self._add(name, symbol if arguments else self._builder.name(symbol, False))
        self._declared[name] = symbol
        level = self._levels[0 if self._is_on(":global-declarations") else -1]
        level.undo.append(lambda: self._declared.pop(name, None) and None)
        self._changed()

    def declare_sort(self, parts: Sequence[Expression]) -> None:
        """Declares a sort, with so many arguments."""
        if len(parts) not in (1, 2):
            raise CommandError("the command takes a symbol and a numeral")
        count = self._count(parts[1:]) if parts[1:] else 0
        self._add_sort(self._symbol(parts[0]), tuple(f"a{it}" for it in range(count)), None)

    def define_sort(self, parts: Sequence[Expression]) -> None:
        """Gives a sort another name."""
        self._parts(parts, 3)
        if not isinstance(parts[1], list):
            raise CommandError("the arguments of a sort are no list")
        self._add_sort(self._symbol(parts[0]), tuple(self._symbol(it) for it in parts[1]), parts[2])

    def _add_sort(self, name: str, arguments: tuple[str, ...], body: Expression | None) -> None:
        if name in self._names.sorts or name in ("Bool", "Int", "Real"):
            raise CommandError(f"the sort {name} is there already")
        self._names.sorts[name] = (arguments, body)
        level = self._levels[0 if self._is_on(":global-declarations") else -1]
        level.undo.append(lambda: self._names.sorts.pop(name, None) and None)
        self._changed()

    def define_const(self, parts: Sequence[Expression]) -> None:
        """Gives a term a name."""
        self._parts(parts, 3)
        self.define_fun([parts[0], [], parts[1], parts[2]])

    def define_fun(self, parts: Sequence[Expression]) -> None:
        """Defines a function; its body is looked at once by itself."""
        self._parts(parts, 4)
        name, arguments, sort = self._symbol(parts[0]), self._elaborator.arguments(parts[1]), self._elaborator.sort(parts[2])
        given = [(it, self._builder.name(self._builder.symbol(it, its_sort), True)) for it, its_sort in arguments]
        term = self._elaborator.body(parts[3], given, sort)
        self._add(name, Definition(arguments, sort, parts[3]) if arguments else term)
        self._changed()

    # ---- what is asserted

    def assert_(self, parts: Sequence[Expression]) -> None:
        """Asserts a formula."""
        self._parts(parts, 1)
        expression = parts[0]
        term = self._elaborator.formula(expression)
        self._levels[-1].assertions.append(Assertion(term, expression, _name_of(expression)))
        self._changed()

    def push(self, parts: Sequence[Expression]) -> None:
        """Begins levels."""
        for _ in range(self._count(parts)):
            self._levels.append(Level())
        self._changed()

    def pop(self, parts: Sequence[Expression]) -> None:
        """Takes levels back."""
        count = self._count(parts)
        if count >= len(self._levels):
            raise CommandError("there are not so many levels")
        for _ in range(count):
            self._undo(self._levels.pop())
        self._changed()

    @staticmethod
    def _undo(level: Level) -> None:
        for each in reversed(level.undo):
            each()

    def _count(self, parts: Sequence[Expression]) -> int:
        if not parts:
            return 1
        if len(parts) != 1 or not isinstance(parts[0], Numeral):
            raise CommandError("a numeral is wanted")
        return int(parts[0])

    def reset(self, parts: Sequence[Expression]) -> None:
        """Begins from nothing."""
        self._parts(parts, 0)
        self._reset()
        self._succeed()

    def reset_assertions(self, parts: Sequence[Expression]) -> None:
        """Takes all assertions and levels back, and the declarations unless they are global."""
        self._parts(parts, 0)
        for level in reversed(self._levels[1:]):
            self._undo(level)
        if not self._is_on(":global-declarations"):
            self._undo(self._levels[0])
            self._levels = [Level()]
        else:
            self._levels = [Level(undo=self._levels[0].undo)]
        self._changed()

    # ---- checks

    def check_sat(self, parts: Sequence[Expression]) -> None:
        """Asks whether all that is asserted can be true."""
        self._parts(parts, 0)
        self._check([])

    def check_sat_assuming(self, parts: Sequence[Expression]) -> None:
        """The same, with further formulas."""
        self._parts(parts, 1)
        if not isinstance(parts[0], list):
            raise CommandError("the assumptions are no list")
        self._check([(it, self._elaborator.formula(it)) for it in parts[0]])

    def _check(self, assumptions: list[tuple[Expression, Term]]) -> None:
        assertions = [it for level in self._levels for it in level.assertions]
        left_out = next((level.left_out for level in self._levels if level.left_out), "")
        if left_out:
            outcome = Outcome(Verdict.UNKNOWN, reason=left_out)
        else:
            outcome = self._checker.check([*(it.term for it in assertions), *(term for _, term in assumptions)])
        self._checked = Checked(outcome, assertions, assumptions)
        self.say(outcome.verdict.value)

    def _checked_as(self, verdict: Verdict) -> Checked:
        if self._checked is None or self._checked.outcome.verdict is not verdict:
            raise QuestionError(f"the last command that could change it was no check that said {verdict.value}")
        return self._checked

    def _checked_with_model(self) -> Checked:
        # Values are there whatever :produce-models says, since many tools ask without it.
        return self._checked_as(Verdict.SAT)

    # ---- questions

    def get_value(self, parts: Sequence[Expression]) -> None:
        """The values of terms."""
        self._question_parts(parts, 1)
        if not isinstance(parts[0], list) or not parts[0]:
            raise QuestionError("a list of terms is wanted")
        checked = self._checked_with_model()
        evaluator = self._checker.evaluator(checked.outcome.model)
        found = []
        for expression in parts[0]:
            try:
                term = self._elaborator.term(expression)
                found.append(f"({written(expression)} {value_text(evaluator.value(term), term.sort)})")
            except TermError as error:
                raise QuestionError(str(error)) from error
            except Undecided as error:
                raise QuestionError("the truth of a quantifier could not be told") from error
        self.say(f"({' '.join(found)})")

    def get_model(self, parts: Sequence[Expression]) -> None:
        """The values of all that is declared."""
        self._question_parts(parts, 0)
        model = self._checked_with_model().outcome.model
        lines = [definition_text(symbol, model) for symbol in self._declared.values()]
        self.say("\n".join(["(", *(f"  {line}" for line in lines), ")"]))

    def get_assignment(self, parts: Sequence[Expression]) -> None:
        """The truths of the formulas with names."""
        self._question_parts(parts, 0)
        evaluator = self._checker.evaluator(self._checked_with_model().outcome.model)
        found = [f"({symbol_text(name)} {value_text(evaluator.value(term), BOOL)})" for name, term in self._labels.items()]
        self.say(f"({' '.join(found)})")

    def get_assertions(self, parts: Sequence[Expression]) -> None:
        """What is asserted, as it was written."""
        self._question_parts(parts, 0)
        lines = [written(it.expression) for level in self._levels for it in level.assertions]
        self.say("(" + "\n ".join(lines) + ")")

    def get_unsat_core(self, parts: Sequence[Expression]) -> None:
        """Names of assertions that cannot be true together with those without names: none of them can be taken away."""
        self._question_parts(parts, 0)
        if not self._is_on(":produce-unsat-cores"):
            raise QuestionError("the option :produce-unsat-cores is not on")
        checked = self._checked_as(Verdict.UNSAT)
        named = [it for it in checked.assertions if it.name is not None]
        fixed = [it.term for it in checked.assertions if it.name is None] + [term for _, term in checked.assumptions]
        kept = self._smallest(fixed, [it.term for it in named])
        self.say(f"({' '.join(symbol_text(named[place].name or '') for place in kept)})")

    def get_unsat_assumptions(self, parts: Sequence[Expression]) -> None:
        """The assumptions of the last check that cannot be true together with all that is asserted."""
        self._question_parts(parts, 0)
        checked = self._checked_as(Verdict.UNSAT)
        kept = self._smallest([it.term for it in checked.assertions], [term for _, term in checked.assumptions])
        self.say(f"({' '.join(written(checked.assumptions[place][0]) for place in kept)})")

    def _smallest(self, fixed: Sequence[Term], terms: Sequence[Term]) -> list[int]:
        """The places of terms that are left where each is taken away without which the rest is still found unsat."""
        kept = list(range(len(terms)))
        for place in range(len(terms)):
            tried = [it for it in kept if it != place]
            if self._checker.check([*fixed, *(terms[it] for it in tried)]).verdict is Verdict.UNSAT:
                kept = tried
        return kept

    def _question_parts(self, parts: Sequence[Expression], count: int) -> None:
        if len(parts) != count:
            raise QuestionError(f"the command takes {count} parts")

    def echo(self, parts: Sequence[Expression]) -> None:
        """Prints a string."""
        if len(parts) != 1 or not isinstance(parts[0], Text):
            raise QuestionError("a string is wanted")
        self.say(string_text(parts[0]))

    def get_info(self, parts: Sequence[Expression]) -> None:
        """What is known of the solver and the last check."""
        self._question_parts(parts, 1)
        key = written(parts[0])
        reason = self._checked.outcome.reason if self._checked else ""
        known: dict[str, str] = {
            ":name": string_text("redlog-smt2"), ":version": string_text(VERSION), ":authors": string_text("The redlog authors"),
            ":error-behavior": "continued-execution", ":assertion-stack-levels": str(len(self._levels) - 1),
        }
        if reason or self._checked and self._checked.outcome.verdict is Verdict.UNKNOWN:
            known[":reason-unknown"] = "timeout" if reason == "timeout" else string_text(reason)
        if key == ":all-statistics":
            self.say(f"(:redlog-scripts {self._program.asked})")
        elif key in known or key in self._information:
            self.say(f"({key} {known.get(key) or written(self._information[key])})")
        else:
            raise Unsupported

    def set_info(self, parts: Sequence[Expression]) -> None:
        """Keeps what is told."""
        if not parts or not isinstance(parts[0], Keyword):
            raise CommandError("a keyword is wanted")
        if len(parts) == 2:
            self._information[parts[0]] = parts[1]
        self._succeed()

    def set_option(self, parts: Sequence[Expression]) -> None:
        """Sets an option; one that is not known changes no answer."""
        if not parts or not isinstance(parts[0], Keyword):
            raise CommandError("a keyword is wanted")
        if parts[0] in (":timeout", ":tlimit-per", ":tlimit") and len(parts) == 2 and isinstance(parts[1], Numeral):
            self._program.seconds = int(parts[1]) / 1000 or None
        elif parts[0] not in OPTIONS or len(parts) != 2:
            raise Unsupported
        self._options[parts[0]] = parts[1]
        self._succeed()

    def get_option(self, parts: Sequence[Expression]) -> None:
        """The value of an option."""
        self._question_parts(parts, 1)
        if parts[0] not in self._options:
            raise Unsupported
        self.say(written(self._options[str(parts[0])]))


def _name_of(expression: Expression) -> str | None:
    """The name that `:named` gives an assertion."""
    if isinstance(expression, list) and expression and expression[0] == "!":
        for place, each in enumerate(expression[:-1]):
            if isinstance(each, Keyword) and each == ":named":
                return str(expression[place + 1])
    return None


def value_text(value: Value, sort: Sort) -> str:
    """The value as SMT-LIB writes it."""
    if isinstance(value, bool):
        return "true" if value else "false"
    if sort == INT:
        return str(value) if value >= 0 else f"(- {-value})"
    if sort != REAL:
        return f"(as @{str(value).replace('/', '_over_').replace('-', 'minus_')} {sort.name})"
    text = f"{abs(value.numerator)}.0" if value.denominator == 1 else f"(/ {abs(value.numerator)}.0 {value.denominator}.0)"
    return text if value >= 0 else f"(- {text})"


def definition_text(symbol: Symbol, model: Model) -> str:
    """The value of a name, or of a function, as get-model prints it."""
    arguments = " ".join(f"(a!{place} {sort.name})" for place, sort in enumerate(symbol.arguments, 1))
    text = value_text(model.values.get(symbol, default(symbol)), symbol.sort)
    for given, value in model.tables.get(symbol, {}).items():
        equal = [f"(= a!{place} {value_text(it, symbol.arguments[place - 1])})" for place, it in enumerate(given, 1)]
        condition = equal[0] if len(equal) == 1 else f"(and {' '.join(equal)})"
        text = f"(ite {condition} {value_text(value, symbol.sort)} {text})"
    return f"(define-fun {symbol_text(symbol.name)} ({arguments}) {symbol.sort.name} {text})"


COMMANDS: dict[str, Callable[[Solver, Sequence[Expression]], None]] = {
    "set-logic": Solver.set_logic, "set-info": Solver.set_info, "set-option": Solver.set_option, "get-info": Solver.get_info,
    "get-option": Solver.get_option, "echo": Solver.echo, "declare-const": Solver.declare_const, "declare-fun": Solver.declare_fun,
    "declare-sort": Solver.declare_sort, "define-sort": Solver.define_sort, "define-const": Solver.define_const, "define-fun": Solver.define_fun,
    "assert": Solver.assert_, "push": Solver.push, "pop": Solver.pop, "reset": Solver.reset, "reset-assertions": Solver.reset_assertions,
    "check-sat": Solver.check_sat, "check-sat-assuming": Solver.check_sat_assuming, "get-value": Solver.get_value, "get-model": Solver.get_model,
    "get-assignment": Solver.get_assignment, "get-assertions": Solver.get_assertions, "get-unsat-core": Solver.get_unsat_core,
    "get-unsat-assumptions": Solver.get_unsat_assumptions,
}
