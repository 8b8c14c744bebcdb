"""Who answers the lines of a store, and the two threads that write and read them."""
from __future__ import annotations

import collections
import contextlib
import copy
import errno
import json
import os
import queue
import signal
import threading
import weakref
from typing import Deque, Iterator, Sequence

from ._peers import Peer
from .errors import BadLog, Died, Error, Forked, LogFailed, error_in

_CHUNK = 1 << 16

# The statuses of a process that has no log, or whose log failed: docs/SCRIPT.md.
_BUSY, _NO_LOG, _LOG_FAILED, _LOG_DIFFERS = 6, 7, 8, 9


def is_fault(answer: bytes) -> bool:
    """Whether a line was no command. The members of an answer are in byte order, so this one is the first."""
    return answer.startswith((b'{"fault":', b'{"answer":{"fault":'))


def _error_of_open(answer: bytes) -> Error | None:
    """What the answer to an open refuses, if it isn't the one of a store that is open."""
    if answer == b'{"ok":true}':
        return None
    with contextlib.suppress(ValueError):
        members = json.loads(answer)
        error = error_in(members) if isinstance(members, dict) else None
        if error:
            return error
    return Died(-signal.SIGKILL, "the process has answered what is no answer to an open")


def _unasked(response: bytes, otherwise: str) -> Died:
    """What ends a connection with an answer that nobody waits for: the refusal of a daemon that ends it."""
    with contextlib.suppress(ValueError):
        members = json.loads(response)
        error = error_in(members) if isinstance(members, dict) else None
        if error:
            return Died(-signal.SIGKILL, str(error))
    return Died(-signal.SIGKILL, otherwise)


class Call:
    """A line on its way, and the place where its caller finds the answer."""

    def __init__(self, line: bytes) -> None:
        self.line = line
        self.number = 0
        self._answers: queue.SimpleQueue[bytes | Error] = queue.SimpleQueue()

    def numbered(self) -> bytes:
        """The line with the number of the call as its id, so that its answer is known by it."""
        return self.line[:-2] + (b"," if self.line != b"{}\n" else b"") + self._member() + b"\n"

    def _member(self) -> bytes:
        return b'"id":%d}' % self.number

    def answer_in(self, response: bytes) -> bytes:
        """The answer within a response that has the call's id. A line that is too long has none."""
        begin, end = b'{"answer":', b"," + self._member()
        if response.startswith(begin) and response.endswith(end):
            return response[len(begin) : -len(end)]
        if is_fault(response):
            return response
        raise _unasked(response, "the process has answered another call")

    def end(self, answer: bytes | Error) -> None:
        """Hands out the answer, or the error in its place."""
        self._answers.put(answer)

    def wait(self) -> bytes:
        """Waits for the answer."""
        answer = self._answers.get()
        if isinstance(answer, Error):
            raise answer
        return answer


class Connection:
    """A process or a daemon that answers each line by a line. The process may have a log.

    Within `beginning` it is asked for its store, or opens one. From then on any thread calls `exchange`, also a signal
    handler within one: it hands a line to a thread that writes, and waits until another, which reads, has its answer.
    Where a caller is interrupted as it waits, its call goes on, and the answer is dropped.
    """

    def __init__(self, peer: Peer) -> None:
        self._peer = peer
        self._log = peer.log
        self.pid = peer.pid
        self._owner = os.getpid()
        self._responses = self._batches()
        # The calls that the writer has yet to send, and None where it is to end.
        self._calls: queue.SimpleQueue[Call | None] = queue.SimpleQueue()
        # The calls whose answers have yet to be handed out.
        self._sent: Deque[Call] = collections.deque()
        # Why no call is answered any more.
        self._cause: Error | None = None
        self._finished = threading.Event()
        self._writer = threading.Thread(target=self._write, name="pibroulez-writer", daemon=True)
        self._reader = threading.Thread(target=self._read, name="pibroulez-reader", daemon=True)
        _connections.add(self)

    @contextlib.contextmanager
    def beginning(self) -> Iterator[None]:
        """Within it `has_store` and `open` are called, and behind it the others. An error ends the process."""
        try:
            yield
            self._run()
        except BaseException:
            self.kill()
            self._calls.put(None)
            if self._reader.is_alive():
                self._finished.wait()
            else:
                self._peer.ending()
                self._peer.end_lines()
            raise

    def has_store(self) -> bool:
        """Whether there is a store, by the process's answer: it has the log alone from before it to its end.

        Raises BlockingIOError where another process has the log, BadLog where the file is none, and Died.
        """
        if self._log is None:
            return False
        answer = self._ask(b'{"do":"report"}\n')
        if not is_fault(answer) and not answer.startswith(b'{"entries":'):
            raise Died(-signal.SIGKILL, "the process has answered what is no answer to a report")
        return not is_fault(answer)

    def open(self, opening: bytes) -> None:
        """Opens a store by a line. Raises what it is refused for, and what `has_store` raises."""
        if error := _error_of_open(self._ask(opening)):
            raise error

    def _run(self) -> None:
        self._writer.start()
        self._reader.start()

    # The lines and answers

    def _send(self, text: bytes) -> None:
        """Sends lines. Where the process takes none, `_batches` finds its end."""
        rest = memoryview(text)
        try:
            while rest:
                rest = rest[self._peer.write(rest) :]
        except BrokenPipeError:
            pass

    def _batches(self) -> Iterator[list[bytes]]:
        """The lines that the process writes, without their line feeds, as many at a time as have come together."""
        held = bytearray()
        while part := self._peer.read(_CHUNK):
            held += part
            end = held.rfind(b"\n", len(held) - len(part))
            if end >= 0:
                yield bytes(held[:end]).split(b"\n")
                del held[: end + 1]

    def _ask(self, line: bytes) -> bytes:
        """The answer to a line, where there are no threads yet."""
        self._send(line)
        for lines in self._responses:
            return lines[0]
        raise self._error_at_start(*self._peer.ending())

    def _error_at_start(self, status: int, words: str) -> Exception:
        """Why a process has ended that has answered nothing."""
        if self._log is not None and status == _BUSY:
            return BlockingIOError(errno.EWOULDBLOCK, "another process has the log", self._log)
        if self._log is not None and status in (_NO_LOG, _LOG_DIFFERS):
            return BadLog(self._log, 0, words)
        return self._error_of_end(status, words)

    def _error_of_end(self, status: int, words: str) -> Died:
        if self._log is not None and status == _LOG_FAILED:
            return LogFailed(self._log, status, words)
        return Died(status, words)

    def kill(self) -> None:
        """Has the process end at once, with all of its session, or the connection with a daemon."""
        self._peer.kill()

    # The threads

    def _write(self) -> None:
        """Sends the calls in their order, and ends the input of the process with them."""
        try:
            for number, call in enumerate(iter(self._calls.get, None), 1):
                call.number = number
                self._sent.append(call)
                self._send(call.numbered())
        finally:
            self._peer.end_lines()

    def _read(self) -> None:
        """Hands out the answers, until the process ends."""
        cause: BaseException | None = None
        try:
            for responses in self._responses:
                self._hand_out(responses)
        except BaseException as error:
            cause = error
            self.kill()
        self._finish(cause)

    def _hand_out(self, responses: Sequence[bytes]) -> None:
        """Hands out the answers that have come together."""
        if len(responses) > len(self._sent):
            raise _unasked(responses[-1], "the process has answered what it wasn't sent")
        for response in responses:
            answer = self._sent[0].answer_in(response)
            self._sent.popleft().end(answer)

    def _finish(self, cause: BaseException | None) -> None:
        """Has all calls from now on, and those that wait, answered with the cause, once the process has ended."""
        status, words = self._peer.ending()
        self._calls.put(None)
        self._writer.join()
        if isinstance(cause, Error):
            self._cause = cause
        else:
            self._cause = self._error_of_end(status, repr(cause) if cause else words)
        while self._sent:
            self._sent.popleft().end(copy.copy(self._cause))
        self._end_calls(self._cause)
        self._finished.set()

    def _end_calls(self, cause: Error) -> None:
        """Ends the calls that nobody sends any more."""
        with contextlib.suppress(queue.Empty):
            while True:
                call = self._calls.get_nowait()
                if call:
                    call.end(copy.copy(cause))

    # Its callers

    def exchange(self, line: bytes) -> bytes:
        """The answer to a line, which has its line feed. Raises why there is none, and Forked in a forked process."""
        return self.begin(line).wait()

    def begin(self, line: bytes) -> Call:
        """Sends a line, which has its line feed, without waiting for the answer. Raises Forked."""
        self.check_owner()
        call = Call(line)
        self._calls.put(call)
        if self._cause:
            # The call may have come after all were ended.
            self._end_calls(self._cause)
        return call

    def close(self, seconds: float) -> None:
        """Ends the process once it has answered all, and kills it where that takes longer. Raises Forked."""
        self.check_owner()
        if self._finished.is_set():
            return
        self._calls.put(None)
        if not self._finished.wait(seconds):
            self.kill()
            self._finished.wait()

    def let_go(self) -> None:
        """Ends the process once it has answered all, without waiting for that."""
        if os.getpid() == self._owner:
            self._calls.put(None)

    def check_owner(self) -> None:
        """Raises Forked in a process that was forked, in which nobody may hold what other threads held."""
        if os.getpid() != self._owner:
            raise Forked(self._owner)

    def leave(self) -> None:
        """Closes what a forked process has of the peer, so that it ends with its owner."""
        self._peer.leave()


_connections: weakref.WeakSet[Connection] = weakref.WeakSet()


def _leave_all() -> None:
    for connection in list(_connections):
        connection.leave()


os.register_at_fork(after_in_child=_leave_all)
