"""The command redlog-py."""
from __future__ import annotations

import argparse
import sys
from typing import Sequence

from .session import Ended, Refusal, Session, TimeLimit


def main(words: Sequence[str] | None = None) -> int:
    """Answers the files, each in a session of its own. The status is 1 where a statement was refused or ended."""
    parser = argparse.ArgumentParser(prog="redlog-py", description="Answers scripts by asking redlog, and tells where a statement that is refused stands.")
    parser.add_argument("files", nargs="+", metavar="FILE", help="a script")
    parser.add_argument("--seconds", type=float, help="time for each statement")
    parser.add_argument("--statements", action="store_true", help="print each statement before its line")
    given = parser.parse_args(words)
    return max([answer(file, given.seconds, given.statements) for file in given.files])


def answer(file: str, seconds: float | None, shows: bool) -> int:
    """Answers one file."""
    status = 0
    try:
        with open(file, encoding="utf-8", errors="surrogateescape") as opened:
            script = opened.read()
    except OSError as error:
        print(f"redlog-py: {error}", file=sys.stderr)
        return 2
    with Session(seconds=seconds) as session:
        asked = session.run(script)
        try:
            for statement, found in asked:
                if shows:
                    print(statement.text)
                if isinstance(found, Refusal):
                    status = 1
                    note = f": {found.note}" if found.note else ""
                    print(f"***** {found.word} at {found.offset}", flush=True)
                    print(f"{file}:{found.line}:{found.column}: {found.word}{note}", file=sys.stderr)
                elif found is not None:
                    print(found.line, flush=True)
        except (TimeLimit, Ended) as error:
            print(f"{file}: {error}", file=sys.stderr)
            return 1
    return status
