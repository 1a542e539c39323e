"""Cells are statements of one session; refusals are shown with their places and notes, grids and formulas with two names as pictures too."""
from __future__ import annotations

import base64
from typing import Any

from ipykernel.kernelbase import Kernel

from redlog import Answer, Ended, Refusal, Session, TimeLimit
from redlog.statements import WORDS

from .pictures import picture_of

# A cell whose first line is this has a limit of time for each of its statements.
LIMIT = "%seconds "


class RedlogKernel(Kernel):  # type: ignore[misc]
    """One session for each notebook."""

    implementation = "redlog"
    implementation_version = "0.1.0"
    language = "redlog"
    language_version = "0.1.0"
    language_info = {"name": "redlog", "mimetype": "text/x-redlog", "file_extension": ".red"}
    banner = "redlog: linear formulas over ordered fields and integers"

    def __init__(self, **words: Any) -> None:
        super().__init__(**words)
        self._session = Session()

    def _write(self, text: str, stream: str = "stdout") -> None:
        self.send_response(self.iopub_socket, "stream", {"name": stream, "text": text + "\n"})

    def _draw(self, answer: Answer) -> None:
        picture = picture_of(answer.value, self._session.theory)
        if picture is not None:
            data = {"image/png": base64.b64encode(picture).decode(), "text/plain": answer.line[:200]}
            self.send_response(self.iopub_socket, "display_data", {"data": data, "metadata": {}})

    def do_execute(
        self, code: str, silent: bool, store_history: bool = True, user_expressions: dict[str, Any] | None = None, allow_stdin: bool = False, **words: Any,
    ) -> dict[str, Any]:
        """Answers the statements of a cell. A refused one ends the cell."""
        seconds = None
        if code.startswith(LIMIT):
            first = code.partition("\n")[0]
            seconds = float(first[len(LIMIT):])
        try:
            # The line of the limit is a comment to the program, so offsets stay those of the cell.
            for _, found in self._session.run(code if code.rstrip().endswith((";", "$")) else code + "\n;", seconds):
                if isinstance(found, Refusal):
                    return self._failed(found.word, str(found), f"{found.statement}\n{found}")
                if found is not None and not silent:
                    self._write(found.line)
                    self._draw(found)
        except TimeLimit as limit:
            return self._failed("time", str(limit), f"{limit}: the session goes on from what was bound and assumed.")
        except Ended as ended:
            return self._failed("ended", str(ended), str(ended))
        except KeyboardInterrupt:
            return self._failed("interrupt", "interrupted", "The statement was ended: the session goes on from what was bound and assumed.")
        return {"status": "ok", "execution_count": self.execution_count, "payload": [], "user_expressions": {}}

    def _failed(self, name: str, value: str, text: str) -> dict[str, Any]:
        content = {"ename": name, "evalue": value, "traceback": [text]}
        self.send_response(self.iopub_socket, "error", content)
        return {"status": "error", "execution_count": self.execution_count, **content}

    def do_complete(self, code: str, cursor_pos: int) -> dict[str, Any]:
        """The words of the language, and the names that are bound, that go on what is written."""
        start = cursor_pos
        while start > 0 and (code[start - 1].isalnum() or code[start - 1] == "_"):
            start -= 1
        begun = code[start:cursor_pos]
        found = sorted(it for it in {*WORDS, *self._session.bound} if begun and it.startswith(begun))
        return {"status": "ok", "matches": found, "cursor_start": start, "cursor_end": cursor_pos, "metadata": {}}

    def do_is_complete(self, code: str) -> dict[str, Any]:
        """A cell is complete where its last statement has an end mark."""
        return {"status": "complete" if code.rstrip().endswith((";", "$")) else "incomplete", "indent": ""}

    def do_shutdown(self, restart: bool) -> dict[str, Any]:
        """Ends the session."""
        self._session.close()
        return {"status": "ok", "restart": restart}
