"""Who answers the lines of a store: a process of its own, or a daemon that others use too."""
from __future__ import annotations

import contextlib
import os
import signal
import socket
import struct
import subprocess
import threading
from typing import Protocol, Union

StrPath = Union[str, "os.PathLike[str]"]

#: How long a process may take to answer what it was sent and to end, in seconds, before it is killed.
END_SECONDS = 60.0


class Peer(Protocol):
    """Who reads lines and writes answers. One thread writes to it, another reads, and any one kills it."""

    #: The number of its process.
    pid: int
    #: The path of the log that its process keeps for this client alone, or None.
    log: str | None

    def write(self, part: memoryview) -> int:
        """Writes bytes of a line, as many as are taken. Raises BrokenPipeError where no more are read."""

    def read(self, size: int) -> bytes:
        """Reads some bytes of answers, or none at their end."""

    def end_lines(self) -> None:
        """Says that there are no more lines. The answers to those before come still."""

    def kill(self) -> None:
        """Has it end at once, or what connects it."""

    def ending(self) -> tuple[int, str]:
        """The status of its end, once it has ended, and its words. It is killed where that takes too long."""

    def leave(self) -> None:
        """Closes what a forked process has of it, so that it ends with its owner."""


class Process:
    """A process of the store's own, which keeps a log where one is named."""

    def __init__(self, program: StrPath, log: StrPath | None = None, checkpoint: int = 0) -> None:
        """Raises OSError where the program doesn't start."""
        self.log = None if log is None else os.fsdecode(log)
        words: list[StrPath] = [program, "serve"]
        if self.log is not None:
            words += [f"--log={self.log}", f"--checkpoint={checkpoint}"]
        pipe = subprocess.PIPE
        # In a session of its own, so that an interrupt at a terminal reaches the client alone. Without buffers,
        # whose locks a thread would hold where the interpreter ends during its read.
        self._process = subprocess.Popen(
            words, stdin=pipe, stdout=pipe, stderr=pipe, bufsize=0, start_new_session=True
        )
        assert self._process.stdin and self._process.stdout and self._process.stderr
        self._input, self._output, self._errors = self._process.stdin, self._process.stdout, self._process.stderr
        self.pid = self._process.pid

    def write(self, part: memoryview) -> int:
        return os.write(self._input.fileno(), part)

    def read(self, size: int) -> bytes:
        return os.read(self._output.fileno(), size)

    def end_lines(self) -> None:
        self._input.close()

    def kill(self) -> None:
        """Ends all of the process's session."""
        if self._process.poll() is None:
            with contextlib.suppress(ProcessLookupError):
                os.killpg(self.pid, signal.SIGKILL)

    def ending(self) -> tuple[int, str]:
        try:
            self._process.wait(END_SECONDS)
        except subprocess.TimeoutExpired:
            self.kill()
            self._process.wait()
        words = b""
        if not self._errors.closed:
            # Another process that the program has started may have it still.
            os.set_blocking(self._errors.fileno(), False)
            words = self._errors.read() or b""
        self._output.close()
        self._errors.close()
        return self._process.returncode, words.decode(errors="replace").strip()

    def leave(self) -> None:
        for pipe in (self._input, self._output, self._errors):
            pipe.close()


class Daemon:
    """A daemon behind a socket. Its end has status 0, and words where it wasn't asked for."""

    #: The daemon has the log.
    log = None

    def __init__(self, path: StrPath) -> None:
        """Raises OSError where nobody listens there."""
        self._socket = socket.socket(socket.AF_UNIX, socket.SOCK_STREAM)
        try:
            self._socket.connect(os.fspath(path))
            credentials = self._socket.getsockopt(socket.SOL_SOCKET, socket.SO_PEERCRED, struct.calcsize("3i"))
        except BaseException:
            self._socket.close()
            raise
        self.pid = struct.unpack("3i", credentials)[0]
        # Which of the two threads have come to their ends. The last one closes the socket.
        self._ends = threading.Lock()
        self._has_no_lines = self._has_no_answers = False

    def write(self, part: memoryview) -> int:
        try:
            return self._socket.send(part)
        except ConnectionResetError as error:
            raise BrokenPipeError(*error.args) from None

    def read(self, size: int) -> bytes:
        try:
            return self._socket.recv(size)
        except ConnectionResetError:
            return b""

    def end_lines(self) -> None:
        with self._ends:
            self._has_no_lines = True
            self._end_by(socket.SHUT_WR)

    def kill(self) -> None:
        with contextlib.suppress(OSError):
            self._socket.shutdown(socket.SHUT_RDWR)

    def ending(self) -> tuple[int, str]:
        with self._ends:
            self._has_no_answers = True
            self._end_by(socket.SHUT_RDWR)
            return 0, "" if self._has_no_lines else "the daemon has ended the connection"

    def _end_by(self, how: int) -> None:
        if self._has_no_lines and self._has_no_answers:
            self._socket.close()
        else:
            with contextlib.suppress(OSError):
                self._socket.shutdown(how)

    def leave(self) -> None:
        self._socket.close()
