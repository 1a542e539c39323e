"""What the tests of the clients share."""
from __future__ import annotations

import importlib.util
import os
import shutil
import subprocess
import sys
import time
from dataclasses import dataclass
from pathlib import Path
from typing import Sequence

CLIENTS = Path(__file__).resolve().parent
TOP = CLIENTS.parent
SOLVER = CLIENTS / "smtlib" / "redlog-smt2"
PASSED_OVER = 77


def has(*tools: str) -> bool:
    """Whether the programs are installed; tells which are not."""
    missing = [tool for tool in tools if shutil.which(tool) is None]
    for tool in missing:
        print(f"passed over: {tool} is not installed")
    return not missing


def has_module(*modules: str) -> bool:
    """Whether the modules of Python are installed; tells which are not."""
    missing = [module for module in modules if importlib.util.find_spec(module) is None]
    for module in missing:
        print(f"passed over: the module {module} of Python is not installed")
    return not missing


@dataclass
class Ran:
    """What a program printed, its status and its seconds."""

    lines: list[str]
    errors: str
    status: int | None
    seconds: float


def run(words: Sequence[str | Path], text: str = "", seconds: float = 120, **variables: str) -> Ran:
    """Runs a program to its end, or until the seconds have passed; then the status is None."""
    begun = time.monotonic()
    environment = {**os.environ, **variables}
    try:
        done = subprocess.run([str(it) for it in words], input=text, capture_output=True, text=True, timeout=seconds, check=False, env=environment)
    except subprocess.TimeoutExpired:
        return Ran([], "", None, time.monotonic() - begun)
    return Ran(done.stdout.splitlines(), done.stderr, done.returncode, time.monotonic() - begun)


class Checks:
    """Counts what holds, and tells what does not."""

    def __init__(self) -> None:
        self.count = 0
        self.failed = 0

    def that(self, holds: bool, text: str) -> None:
        """Tells the text where it does not hold."""
        self.count += 1
        if not holds:
            self.failed += 1
            print(f"WRONG: {text}")

    def end(self) -> None:
        """Ends the test."""
        print(f"{self.count} checks, {self.failed} wrong")
        sys.exit(1 if self.failed else 0)
