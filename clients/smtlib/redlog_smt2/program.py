"""Runs the program redlog on one script."""
from __future__ import annotations

import os
import re
import shutil
import subprocess
from dataclasses import dataclass
from enum import Enum
from fractions import Fraction
from typing import Sequence

VALUE = re.compile(r"\(([A-Za-z][A-Za-z0-9]*) (\d+|\(/ \d+ \d+\)|\(- (?:\d+|\(/ \d+ \d+\))\))\)")


class Verdict(Enum):
    """What a check says."""

    SAT = "sat"
    UNSAT = "unsat"
    UNKNOWN = "unknown"


@dataclass
class Reply:
    """A verdict, values of the names after sat, and a reason after unknown."""

    verdict: Verdict
    values: dict[str, Fraction]
    reason: str = ""


def find_program() -> str:
    """The program: that of REDLOG, that of this repository, or that of the path."""
    given = os.environ.get("REDLOG")
    if given:
        return given
    built = os.path.join(os.path.dirname(os.path.realpath(__file__)), "..", "..", "..", "bin", "redlog")
    return built if os.path.exists(built) else shutil.which("redlog") or "redlog"


def number_of(text: str) -> Fraction:
    """The number that get-value prints."""
    digits = [int(it) for it in re.findall(r"\d+", text)]
    value = Fraction(digits[0], digits[1] if len(digits) > 1 else 1)
    return -value if text.startswith("(-") else value


class Program:
    """The program with its words and a limit of time for each script."""

    def __init__(self, seconds: float | None = None, words: Sequence[str] = ()) -> None:
        self.seconds = seconds
        self._words = [find_program(), "--smt", *words]
        self.asked = 0

    def ask(self, script: str, names: Sequence[str]) -> Reply:
        """Asks for a check of the script, and for the values of the names. No answer counts that is not wholly as it has to be."""
        self.asked += 1
        values = f"(get-value ({' '.join(names)}))\n" if names else ""
        try:
            done = subprocess.run(self._words, input=script + values, capture_output=True, text=True, timeout=self.seconds, check=False)
        except subprocess.TimeoutExpired:
            return Reply(Verdict.UNKNOWN, {}, "timeout")
        except OSError as error:
            return Reply(Verdict.UNKNOWN, {}, f"the program {self._words[0]} does not start: {error}")
        lines = done.stdout.splitlines()
        refused = [f'(error "{word} at {len(script.encode())}")' for word in ("mode", "overflow")] if names else []
        if lines == ["sat"] and not names and done.returncode == 0:
            return Reply(Verdict.SAT, {})
        if len(lines) == 2 and lines[0] == "sat" and done.returncode == 0:
            found = {name: number_of(value) for name, value in VALUE.findall(lines[1])}
            if set(found) == set(names):
                return Reply(Verdict.SAT, found)
        if lines in (["unsat"], ["unknown"]) and done.returncode == 0 or len(lines) == 2 and lines[1] in refused[:1] and done.returncode == 1:
            if lines[0] == "unsat":
                return Reply(Verdict.UNSAT, {})
            if lines[0] == "unknown":
                return Reply(Verdict.UNKNOWN, {}, "a limit of redlog")
        if len(lines) == 2 and lines[0] == "sat" and lines[1] in refused[1:]:
            return Reply(Verdict.UNKNOWN, {}, "values past 2^127 - 1")
        return Reply(Verdict.UNKNOWN, {}, f"redlog ended with status {done.returncode}: {' '.join(lines)[:100]}")
