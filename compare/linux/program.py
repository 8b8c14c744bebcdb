"""The program's side: one process that answers the lines of a script."""

import json
import subprocess
from collections.abc import Sequence
from types import TracebackType

from linux.calls import Answer, Command

# What is sent before the answers are read, so that neither side waits for the other at a full pipe.
_BYTES_AT_ONCE = 16_384

_encoder = json.JSONEncoder(separators=(",", ":"), ensure_ascii=False)


class ProgramEnded(Exception):
    """The program ended before it had answered a line."""


class Program:
    """`snap_replay run`, as long as it is needed."""

    def __init__(self, path: str) -> None:
        self._process = subprocess.Popen(
            [path, "run"],
            stdin=subprocess.PIPE,
            stdout=subprocess.PIPE,
            stderr=subprocess.PIPE,
        )

    def __enter__(self) -> "Program":
        return self

    def __exit__(self, kind: type | None, error: BaseException | None, trace: TracebackType | None) -> None:
        self._process.kill()
        self._process.communicate()

    def ask(self, command: Command) -> Answer:
        """The answer of one line."""
        return self.ask_all([command])[0]

    def ask_all(self, commands: Sequence[Command]) -> list[Answer]:
        """The answers of lines, in order."""
        answers: list[Answer] = []
        waiting: list[bytes] = []
        size = 0
        for command in commands:
            line = line_of(command).encode()
            if waiting and size + len(line) > _BYTES_AT_ONCE:
                answers += self._exchange(waiting)
                waiting, size = [], 0
            waiting.append(line)
            size += len(line)
        return answers + self._exchange(waiting)

    def _exchange(self, lines: list[bytes]) -> list[Answer]:
        try:
            self._process.stdin.write(b"".join(lines))
            self._process.stdin.flush()
        except BrokenPipeError:
            raise self._ended() from None
        return [self._answer() for _ in lines]

    def _answer(self) -> Answer:
        line = self._process.stdout.readline()
        if not line:
            raise self._ended()
        return json.loads(line.decode())

    def _ended(self) -> ProgramEnded:
        words = self._process.stderr.read().decode(errors="replace").strip()
        return ProgramEnded(f"status {self._process.wait()}: {words}")


def line_of(command: Command) -> str:
    """The line of a command in a script."""
    return _encoder.encode(command) + "\n"
