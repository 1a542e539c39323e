"""The command redlog-smt2."""
from __future__ import annotations

import argparse
import io
import os
import sys
import threading
from typing import Callable, Sequence

from .expressions import Reader, ReadError
from .program import Program
from .solver import Solver

STACK = 512 * 1024 * 1024


def words_of(words: Sequence[str] | None) -> argparse.Namespace:
    """The words of the command line."""
    parser = argparse.ArgumentParser(prog="redlog-smt2", description="Answers SMT-LIB 2.6 of the linear logics by asking redlog --smt.")
    parser.add_argument("file", nargs="?", help="the script; standard input where it is not given, or -")
    parser.add_argument("-in", dest="standard_input", action="store_true", help="read standard input")
    parser.add_argument("--seconds", type=float, help="time for each question to redlog; after it the answer is unknown")
    parser.add_argument("--nodes", help="passed on to redlog")
    parser.add_argument("--workers", help="passed on to redlog")
    return parser.parse_args(words)


def pieces(descriptor: int) -> Callable[[], str]:
    """Reads what is there, and waits only where nothing is."""
    return lambda: os.read(descriptor, 1 << 16).decode("latin-1")


def answer(words: Sequence[str] | None) -> int:
    """Answers the script. The status is 1 where a command was not taken."""
    given = words_of(words)
    passed = [part for name in ("nodes", "workers") if getattr(given, name) for part in (f"--{name}", getattr(given, name))]
    solver = Solver(Program(given.seconds, passed), sys.stdout)
    try:
        descriptor = sys.stdin.fileno() if given.file in (None, "-") else os.open(given.file, os.O_RDONLY)
    except OSError as error:
        sys.exit(f"redlog-smt2: {error}")
    try:
        for command in Reader(pieces(descriptor)).expressions():
            if not solver.take(command):
                break
    except ReadError as error:
        solver.unreadable(str(error))
    except BrokenPipeError:
        os.dup2(os.open(os.devnull, os.O_WRONLY), 1)
        return 1
    return 1 if solver.had_errors else 0


def main(words: Sequence[str] | None = None) -> int:
    """Runs in a thread with a large stack, since terms may be deep."""
    sys.setrecursionlimit(1_000_000)
    sys.set_int_max_str_digits(0)
    if isinstance(sys.stdout, io.TextIOWrapper):
        sys.stdout.reconfigure(encoding="latin-1")
    threading.stack_size(STACK)
    status = [2]
    worker = threading.Thread(target=lambda: status.__setitem__(0, answer(words)), daemon=True)
    worker.start()
    worker.join()
    return status[0]
