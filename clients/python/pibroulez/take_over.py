"""Takes the log of a client of version 0.1.0 over, once: `python3 -m pibroulez.take_over OLD NEW`.

The lines of OLD are carried out by a process with a new log, which keeps those that change the store, and by one without
a log beside it: each answer has to be the same, and so has what the store of the new log answers when it is opened again. A
last line without its line feed is left out, since its call wasn't answered. OLD stays as it was, and NEW is there whole
or not at all. The status is 0, or 1 after a line that names the error.
"""
from __future__ import annotations

import argparse
import contextlib
import errno
import fcntl
import itertools
import json
import os
import subprocess
import sys
import tempfile
import threading
from typing import Any, Iterator, List, NamedTuple, Sequence

from ._peers import StrPath
from .errors import BadLog, Died, Error, Fault, LogFailed, NotKept, error_in
from .store import PROGRAM

# A line of a log that has sums of those before it begins so.
_MARK = b'{"do":"report","lines":"'
_CHUNK = 1 << 20


class TakenOver(NamedTuple):
    """How many lines the old log has and how many of them the new one, and the store's report."""

    lines: int
    kept: int
    report: str


def take_over(old: StrPath, new: StrPath, *, program: StrPath = PROGRAM) -> TakenOver:
    """Makes a new log with the store of an old one. With an error there is no new one, and the old one is as it was.

    Raises FileNotFoundError where there is no old log, or none with a whole line, BlockingIOError where another process
    has it, FileExistsError where there is a new one, BadLog where a line of the old one isn't taken, or the new one
    tells another store, and NotKept, LogFailed, Died or OSError where the new one can't be written.
    """
    path, folder = os.fsdecode(new), os.path.dirname(os.path.abspath(os.fsdecode(new)))
    with open(old, "rb") as file:
        try:
            fcntl.flock(file, fcntl.LOCK_EX | fcntl.LOCK_NB)
        except BlockingIOError as error:
            raise BlockingIOError(error.errno, "another process has the log", os.fsdecode(old)) from None
        size, questions = _size_of(file.fileno(), os.fsdecode(old)), _questions(file.readline())
        for it in (path, f"{path}-wal"):
            if os.path.lexists(it):
                raise FileExistsError(errno.EEXIST, "the new log is there", it)
        with tempfile.TemporaryDirectory(prefix=".take-over-", dir=folder) as place:
            made = os.path.join(place, "log")
            os.close(os.open(made, os.O_RDWR | os.O_CREAT, 0o600))
            lines, told = _carried_out(file.fileno(), size, questions, os.fsdecode(old), made, program)
            with _Run([program, "serve", f"--log={made}", "--checkpoint=0"], [b"".join(questions)]) as again:
                answers = list(again.answers)
                again.check(path)
                if answers != told:
                    raise BadLog(path, 0, "it tells another store")
            with open(made, "rb") as file_made:
                lines_made = itertools.takewhile(lambda line: line.startswith(b"{"), file_made)
                kept = sum(1 for line in lines_made if not line.startswith(_MARK))
            # Never in the place of a file that has come meanwhile.
            os.link(made, path)
        _sync(folder)
    return TakenOver(lines, kept, told[0].decode().strip())


def _size_of(file: int, path: str) -> int:
    """How many bytes the whole lines of a log take."""
    size = end = 0
    behind = b""
    while part := os.pread(file, _CHUNK, end):
        last = part.rfind(b"\n") + 1
        behind = (part[last:] if last else behind or part)[:1]
        size = end + last if last else size
        end += len(part)
    if behind == b" ":
        raise BadLog(path, 0, "it is no log of a client of version 0.1.0")
    if not size:
        raise FileNotFoundError(errno.ENOENT, "a log without a whole line", path)
    return size


def _questions(opening: bytes) -> List[bytes]:
    """What a store is asked that a line opens, without an entry."""
    names: List[Any] = []
    # Another line is found out when it is carried out.
    with contextlib.suppress(ValueError, RecursionError, TypeError, KeyError, IndexError):
        names = [it[0] for it in json.loads(opening)["namespaces"]]
    commands = [{"do": "report"}, {"do": "quota"}]
    for name in names:
        commands += [{"do": "tree", "ns": name}, {"do": "leases", "ns": name}]
        commands += [{"do": "walk", "ns": name, "quiet": True}]
    return [json.dumps(it).encode() + b"\n" for it in commands]


class _Run:
    """A process that is sent bytes, by a thread, and what it answers."""

    def __init__(self, words: Sequence[StrPath], text: Iterator[bytes] | List[bytes]) -> None:
        pipe = subprocess.PIPE
        self._process = subprocess.Popen(words, stdin=pipe, stdout=pipe, stderr=pipe)
        assert self._process.stdin and self._process.stdout and self._process.stderr
        self._input, self.answers, self._errors = self._process.stdin, self._process.stdout, self._process.stderr
        self._sender = threading.Thread(target=self._send, args=(text,), daemon=True)
        self._sender.start()

    def _send(self, text: Iterator[bytes]) -> None:
        with contextlib.suppress(BrokenPipeError):
            with self._input:
                for part in text:
                    self._input.write(part)

    def check(self, log: str) -> None:
        """Waits for the end, and raises what has ended it."""
        words = self._errors.read().decode(errors="replace").strip()
        status = self._process.wait()
        if status:
            raise LogFailed(log, status, words) if status == 8 else Died(status, words)

    def __enter__(self) -> _Run:
        return self

    def __exit__(self, *_: object) -> None:
        self._process.kill()
        self._process.wait()
        self._sender.join()
        self.answers.close()
        self._errors.close()


def _carried_out(
    file: int, size: int, questions: List[bytes], old: str, made: str, program: StrPath
) -> tuple[int, List[bytes]]:
    """Carries the lines out over a new log, and without one. How many there are, and what is answered to the questions at
    their end."""

    def text() -> Iterator[bytes]:
        at = 0
        while part := os.pread(file, min(_CHUNK, size - at), at):
            at += len(part)
            yield part
        yield b"".join(questions)

    count = 0
    told: List[bytes] = []
    with _Run([program, "serve", f"--log={made}", "--checkpoint=0"], text()) as kept, _Run([program, "serve"], text()) as run:
        for count, wanted in enumerate(run.answers, 1):
            answer = kept.answers.readline()
            if not answer:
                kept.check(made)
            _check_answer(answer, wanted, count, old)
            told = [*told[1 - len(questions) :], answer]
        run.check(made)
        kept.check(made)
    return count - len(questions), told


def _check_answer(answer: bytes, wanted: bytes, line: int, old: str) -> None:
    if wanted.startswith(b'{"fault":') or line == 1 and wanted != b'{"ok":true}\n':
        error = error_in(json.loads(wanted))
        raise BadLog(old, line, error.fault if isinstance(error, Fault) else f"it opens no store: {error}")
    if answer.startswith(b'{"error":"NotKept"'):
        raise NotKept("NotKept", "log")
    if answer != wanted:
        raise BadLog(old, line, f"its answer is {wanted[:200]!r}, and {answer[:200]!r} over the new log")


def _sync(folder: str) -> None:
    file = os.open(folder, os.O_RDONLY | os.O_DIRECTORY)
    try:
        os.fsync(file)
    finally:
        os.close(file)


def main() -> int:
    """The command."""
    words = argparse.ArgumentParser(
        prog="python3 -m pibroulez.take_over", description="Makes a log of this version from one of version 0.1.0."
    )
    words.add_argument("--program", default=PROGRAM, help="snap_replay, by default the built one")
    words.add_argument("old", metavar="OLD", help="the log of version 0.1.0, which stays as it is")
    words.add_argument("new", metavar="NEW", help="the new log, which must not be there yet")
    given = words.parse_args()
    try:
        taken = take_over(given.old, given.new, program=given.program)
    except (Error, OSError) as error:
        print(f"{type(error).__name__}: {error}", file=sys.stderr)
        return 1
    print(f"{given.new}: {taken.kept} of {taken.lines} lines, {taken.report}")
    return 0


if __name__ == "__main__":
    sys.exit(main())
