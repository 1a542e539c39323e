"""A session with the program over pipes."""
from __future__ import annotations

import os
import re
import selectors
import shutil
import subprocess
import time
from dataclasses import dataclass, field
from enum import Enum
from fractions import Fraction
from pathlib import Path
from types import TracebackType
from typing import Iterable, Iterator, Mapping, Sequence

from .answers import Answer, Assumptions, Axis, Binding, Cases, Grid, Infeasible, Least, Multipliers, Point, Unbounded
from .formulas import Formula
from .reading import value_of
from .statements import Statement, line_and_column, statements

# What stands behind each statement: the program prints it back, so all that the statement prints has come.
MARKER = "true or (false and (true or false))"
REFUSED = re.compile(r"\*\*\*\*\* ([a-z-]+) at (\d+)")

Number = int | Fraction | str
Written = Formula | str


class Theory(Enum):
    """What names stand for."""

    RATIONALS = "ofsf"
    INTEGERS = "pasf"


class Refusal(Exception):
    """The program refused a statement, which changed nothing.

    `offset` is that of the statement's first token in the text that the session was given, in bytes from 0; `line` and `column` are its place there, from 1.
    `note` is what the program wrote on standard error, if anything.
    """

    def __init__(self, word: str, offset: int, line: int, column: int, note: str, statement: str) -> None:
        super().__init__(f"{word} at line {line}, column {column}" + (f": {note}" if note else ""))
        self.word, self.offset, self.line, self.column, self.note, self.statement = word, offset, line, column, note, statement


class TimeLimit(Exception):
    """A statement took too long. It was ended, and the session goes on from what it had bound and assumed."""


class Ended(Exception):
    """The program ended, or the session was closed. `status` is that of the program, where there is one."""

    def __init__(self, status: int | None) -> None:
        super().__init__("the session is closed" if status is None else f"the program ended with status {status}")
        self.status = status


def find_program() -> str:
    """The program: that of the variable REDLOG, that of this repository, or that of the path."""
    given = os.environ.get("REDLOG")
    if given:
        return given
    built = Path(__file__).resolve().parents[3] / "bin" / "redlog"
    return str(built) if built.exists() else shutil.which("redlog") or "redlog"


@dataclass
class _Kept:
    """What a new process is told: the theory, the names in their order, what is assumed, and what is bound."""

    theory: Theory = Theory.RATIONALS
    names: list[str] = field(default_factory=list)
    assumed: list[str] = field(default_factory=list)
    bound: dict[str, Formula] = field(default_factory=dict)

    def statements(self) -> Iterator[str]:
        """The statements that bring a new session there."""
        yield f"rlset {self.theory.value}$"
        if self.names:
            # These are true by themselves, so nothing is assumed; but the names get their numbers.
            yield f"rlassume {{{','.join(f'{name}={name}' for name in self.names)}}}$"
        if self.assumed:
            yield f"rlassume {{{','.join(self.assumed)}}}$"
        rest = dict(self.bound)
        while True:
            free = [name for name in rest if not any(name in it.free_names() for other, it in rest.items() if other != name)]
            if not free:
                break
            # A name that stands as a variable in another formula is bound behind it.
            yield f"{free[0]} := {rest.pop(free[0])}$"
        for place, formula in enumerate(rest.values()):
            yield f"redlog_kept_{place} := {formula}$"
        for place, name in enumerate(rest):
            yield f"{name} := redlog_kept_{place}$"


class Session:
    """A session: each statement gets one answer.

    `seconds` is the time for each statement. After it, and after an interrupt, the one statement is ended: the program is started again, and told
    what was bound and assumed before.
    """

    def __init__(
        self, program: str | None = None, *, seconds: float | None = None, nodes: int | None = None, workers: int | None = None, theory: Theory = Theory.RATIONALS,
    ) -> None:
        self.seconds = seconds
        self._words = [program or find_program()]
        for name, number in (("--nodes", nodes), ("--workers", workers)):
            if number is not None:
                self._words += [name, str(number)]
        self._kept = _Kept()
        self._process: subprocess.Popen[bytes] | None = None
        self._sent = 0
        self._waiting = b""
        self._start()
        if theory is not Theory.RATIONALS:
            self.choose(theory)

    def __enter__(self) -> Session:
        return self

    def __exit__(self, kind: type[BaseException] | None, error: BaseException | None, trace: TracebackType | None) -> None:
        self.close()

    def close(self) -> None:
        """Ends the program."""
        process, self._process = self._process, None
        if process is None:
            return
        for pipe in (process.stdin, process.stdout, process.stderr):
            if pipe is not None:
                try:
                    pipe.close()
                except BrokenPipeError:
                    pass
        process.kill()
        process.wait()

    # ---- what stands

    @property
    def theory(self) -> Theory:
        """The theory that is in force."""
        return self._kept.theory

    @property
    def bound(self) -> Mapping[str, Formula]:
        """The formulas that names are bound to."""
        return dict(self._kept.bound)

    @property
    def assumed(self) -> Sequence[str]:
        """The standing assumptions."""
        return tuple(self._kept.assumed)

    # ---- statements as text

    def ask(self, statement: str, seconds: float | None = None) -> Answer | None:
        """The answer to one statement, or None where it has no line. The end mark may be left out."""
        found = list(statements(statement))
        if not found:
            return None
        if len(found) > 1:
            raise ValueError("ask takes one statement; run takes many")
        one = found[0]
        if not one.is_ended:
            one = Statement(one.text + "\n;" if "%" in one.text else one.text + ";", one.place)
        return self._answer(one, statement, seconds)

    def run(self, script: str, seconds: float | None = None) -> Iterator[tuple[Statement, Answer | Refusal | None]]:
        """Each statement of a script with its answer or its refusal, which is given and not raised. None is that of a statement without a line."""
        for one in statements(script):
            try:
                yield one, self._answer(one, script, seconds)
            except Refusal as refusal:
                yield one, refusal
            if one.is_last:
                return

    def _answer(self, one: Statement, script: str, seconds: float | None) -> Answer | None:
        if one.is_last:
            self.close()
            return None
        if not one.is_ended:
            raise self._refusal("syntax", one, script, "the last statement has no end mark")
        line, note = self._exchange(one, seconds)
        refused = REFUSED.fullmatch(line) if line is not None else None
        if refused:
            raise self._refusal(refused[1], one, script, note)
        answer = None if line is None else Answer(line, value_of(one.word, one.plain, line))
        self._keep(one, answer)
        return answer if one.is_shown else None

    @staticmethod
    def _refusal(word: str, one: Statement, script: str, note: str) -> Refusal:
        return Refusal(word, len(script[:one.place].encode()), *line_and_column(script, one.place), note, one.text)

    def _keep(self, one: Statement, answer: Answer | None) -> None:
        """Remembers what an accepted statement changed."""
        kept = self._kept
        kept.names += [name for name in one.names() if name not in kept.names and name not in kept.bound]
        value = answer.value if answer else None
        if isinstance(value, Formula) and "rlpnf" in one.plain:
            kept.names += [name for name in value.free_names() if name not in kept.names and name not in kept.bound]
        if isinstance(value, Binding):
            kept.bound[value.name] = value.formula
        elif isinstance(value, Assumptions):
            kept.assumed = [str(atom) for atom in value.atoms]
        elif one.word == "rlset" and answer is not None:
            theory = Theory(answer.line)
            if theory is not kept.theory:
                self._kept = _Kept(theory, kept.names)

    # ---- the process

    def _start(self) -> None:
        """Starts the program in a group of its own, so that an interrupt is the session's alone."""
        self._process = subprocess.Popen(
            self._words, stdin=subprocess.PIPE, stdout=subprocess.PIPE, stderr=subprocess.PIPE, bufsize=0, start_new_session=True,
        )
        assert self._process.stderr is not None and self._process.stdout is not None
        os.set_blocking(self._process.stderr.fileno(), False)
        self._sent, self._waiting = 0, b""

    def _start_again(self) -> None:
        """A new process that is told what was kept."""
        self.close()
        self._start()
        for text in self._kept.statements():
            self._send(f"{text}\n{MARKER};\n")
            line = self._line(None)
            if line != MARKER:
                raise Ended(None) from RuntimeError(f"{text[:60]} was answered with {line[:60]}")

    def _exchange(self, one: Statement, seconds: float | None) -> tuple[str | None, str]:
        """The line of a statement, or None, and what stands on standard error."""
        if self._process is None:
            raise Ended(None)
        text = one.text
        if one.word in (":=", "rlassume", "rlset") or "rlpnf" in text:
            # The line is wanted here, also where the script does not show it.
            text = text[:-1] + ";"
        is_shown = text.endswith(";") and one.has_line
        limit = seconds if seconds is not None else self.seconds
        until = None if limit is None else time.monotonic() + limit
        try:
            # Where `rl` stands in a read each line is written by itself, so a note has come before the line of the marker.
            self._send(f"{text}\n% rl\n{MARKER};\n")
            line: str | None = self._line(until)
            if is_shown or line != MARKER:
                marker = self._line(until)
                if marker != MARKER:
                    raise Ended(None) from RuntimeError(f"{marker[:60]} was not expected")
            else:
                line = None
            return line, self._note()
        except TimeoutError:
            self._start_again()
            raise TimeLimit(f"no answer within {limit} seconds") from None
        except KeyboardInterrupt:
            self._start_again()
            raise
        except Ended:
            self._start_again()
            raise

    def _send(self, text: str) -> None:
        process = self._process
        assert process is not None and process.stdin is not None
        rest = memoryview(text.encode())
        try:
            while rest:
                rest = rest[process.stdin.write(rest):]
        except BrokenPipeError:
            raise Ended(process.wait()) from None

    def _line(self, until: float | None) -> str:
        """The next line of the program. Raises TimeoutError where there is none by then."""
        process = self._process
        assert process is not None and process.stdout is not None
        parts: list[bytes] = []
        while b"\n" not in self._waiting:
            parts.append(self._waiting)
            with selectors.DefaultSelector() as selector:
                selector.register(process.stdout, selectors.EVENT_READ)
                if not selector.select(None if until is None else max(0.0, until - time.monotonic())):
                    raise TimeoutError
            self._waiting = os.read(process.stdout.fileno(), 1 << 16)
            if not self._waiting:
                raise Ended(process.wait())
        last, _, self._waiting = self._waiting.partition(b"\n")
        return b"".join([*parts, last]).decode()

    def _note(self) -> str:
        """What has come on standard error."""
        process = self._process
        assert process is not None and process.stderr is not None
        found = process.stderr.read()
        return (found or b"").decode(errors="replace").strip()

    # ---- statements by name

    def _value(self, statement: str) -> object:
        answer = self.ask(statement)
        assert answer is not None
        return answer.value

    def _formula(self, statement: str) -> Formula:
        value = self._value(statement)
        assert isinstance(value, Formula)
        return value

    def formula(self, formula: Written) -> Formula:
        """The formula with its atoms in normal form."""
        return self._formula(f"({formula})")

    def eliminate(self, formula: Written, assumed: Iterable[Written] = ()) -> Formula:
        """`rlqe`: an equivalent formula without quantifiers."""
        return self._formula(f"rlqe({formula},{_braces(assumed)})")

    def simplify(self, formula: Written, assumed: Iterable[Written] = ()) -> Formula:
        """`rlsimpl`."""
        return self._formula(f"rlsimpl({formula},{_braces(assumed)})")

    def negation_normal(self, formula: Written) -> Formula:
        """`rlnnf`."""
        return self._formula(f"rlnnf({formula})")

    def prenex(self, formula: Written) -> Formula:
        """`rlpnf`."""
        return self._formula(f"rlpnf({formula})")

    def disjunctive(self, formula: Written) -> Formula:
        """`rldnf`."""
        return self._formula(f"rldnf({formula})")

    def conjunctive(self, formula: Written) -> Formula:
        """`rlcnf`."""
        return self._formula(f"rlcnf({formula})")

    def cases(self, formula: Written, assumed: Iterable[Written] = ()) -> Cases:
        """`rlqea`: conditions, each with places for the names of the leading quantifiers."""
        value = self._value(f"rlqea({formula},{_braces(assumed)})")
        assert isinstance(value, Cases)
        return value

    def witness(self, formula: Written, point: Mapping[str, Number] | None = None) -> Point | None:
        """`rlwitness`: numbers for the names of the leading quantifiers, or None."""
        value = self._value(f"rlwitness({formula},{_point(point or {})})")
        assert value is None or isinstance(value, dict)
        return value

    def holds(self, formula: Written, point: Mapping[str, Number] | None = None) -> bool:
        """`rlholds`: the truth at a point."""
        return self._value(f"rlholds({formula},{_point(point or {})})") is True

    def grid(self, formula: Written, *axes: Axis | tuple[str, Number, Number, Number]) -> Grid:
        """`rlgrid`: the truths at the points of a grid."""
        given = [it if isinstance(it, Axis) else Axis(it[0], *(Fraction(part) for part in it[1:])) for it in axes]
        written = ",".join(f"{{{it.name},{it.low},{it.high},{it.step}}}" for it in given)
        value = self._value(f"rlgrid({formula},{written})")
        assert isinstance(value, Grid)
        return value

    def certificate(self, constraints: Iterable[Written]) -> Point | Multipliers:
        """`rlcert`: a point that meets the constraints, or multipliers by which none does."""
        value = self._value(f"rlcert({_braces(constraints)})")
        assert isinstance(value, (dict, Multipliers))
        return value

    def check(self, constraints: Iterable[Written], multipliers: Iterable[int]) -> bool:
        """`rlcheck`: whether the multipliers show that no point meets the constraints."""
        return self._value(f"rlcheck({_braces(constraints)},{_braces(map(str, multipliers))})") is True

    def least(self, constraints: Iterable[Written], target: str) -> Least | Infeasible | Unbounded:
        """`rlopt`: the least value of a term under constraints."""
        value = self._value(f"rlopt({_braces(constraints)},{target})")
        assert isinstance(value, (Least, Infeasible, Unbounded))
        return value

    def bind(self, name: str, formula: Written) -> Formula:
        """`name := f`. The formula may be a command, such as `rlqe ex(x,x>a)`."""
        value = self._value(f"{name} := {formula}")
        assert isinstance(value, Binding)
        return value.formula

    def assume(self, *atoms: Written) -> Assumptions:
        """`rlassume`: all that is assumed now."""
        value = self._value(f"rlassume {_braces(atoms)}")
        assert isinstance(value, Assumptions)
        return value

    def retract(self) -> None:
        """`rlretract`."""
        self.ask("rlretract")

    def choose(self, theory: Theory) -> None:
        """`rlset`. Another theory than before drops what is bound and assumed."""
        self.ask(f"rlset {theory.value}")


def _braces(parts: Iterable[Written]) -> str:
    return "{" + ",".join(map(str, parts)) + "}"


def _point(point: Mapping[str, Number]) -> str:
    return _braces(f"{name} = {Fraction(value)}" for name, value in point.items())
