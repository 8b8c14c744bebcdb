"""A store that a process keeps."""
from __future__ import annotations

import collections
import contextlib
import errno
import json
import os
import threading
import weakref
from pathlib import Path
from types import TracebackType
from typing import Any, Deque, Iterable, Iterator, Mapping, Type, Union

from ._calls import text_of
from ._connection import Call, Connection, is_fault
from ._files import Files
from ._peers import END_SECONDS, Daemon, Process, StrPath
from ._snapshots import Snapshots
from .answers import Pair
from .errors import BadLog, BadRestore, Fault, Forked, JournalFull, ReservedField, error_in

_CRATE = Path(os.path.normpath(Path(__file__).resolve() / "../../../../crates/snap_replay"))
#: The program of a store that names none: the one that the repository builds, or where the package was installed from
#: it `snap_replay`, as the search path has it.
PROGRAM: Union[str, Path] = _CRATE / "out/snap_replay" if _CRATE.is_dir() else "snap_replay"

# Commands that begin a round.
_ROUNDS = ("roll", "reopen")

# What never changes of a store, as far as an open may leave it out.
_DEFAULTS = {"slots": 64, "layer_inodes": 65_536, "ancestors": 64}

# How many lines of a saved store are sent before the first is answered.
_MOST_RESTORING = 512


def _line(command: Mapping[str, object]) -> bytes:
    return text_of(command).encode() + b"\n"


def _opening(root: str, namespaces: Mapping[str, Pair], **bounds: int | None) -> bytes:
    """The line that opens a store."""
    limits = [[name, *limit] for name, limit in namespaces.items()]
    given = {name: bound for name, bound in bounds.items() if bound is not None}
    return _line({"do": "open", "root": root, "namespaces": limits, **given})


def _find(log: StrPath, *, create: bool) -> None:
    """Looks whether the file of a log can be opened, and its path is UTF-8. It is its owner's alone where it is made."""
    os.fsdecode(log).encode()
    flags = os.O_RDWR | os.O_CLOEXEC | os.O_NOCTTY | os.O_NONBLOCK
    os.close(os.open(log, flags | (os.O_CREAT if create else 0), 0o600))


def _counting(log: StrPath) -> StrPath:
    """The file that counts of a log: the one beside it where that has a line."""
    beside = f"{os.fspath(log)}-wal"
    with contextlib.suppress(FileNotFoundError), open(beside, "rb") as file:
        if file.read(1) == b"{":
            return beside
    return log


def _has_store(connection: Connection, log: StrPath, *, may_restore: bool = False) -> bool:
    """Whether the log of a process has a store. Raises BadLog where it has lines and no store, unless they are of a saved one
    and may be."""
    if connection.has_store():
        return True
    with open(_counting(log), "rb") as file:
        is_empty = file.read(1) != b"{"
    if is_empty or may_restore and next(_commands_in(log), {}).get("do") == "restore":
        return False
    raise BadLog(os.fspath(log), 1, "it opens no store")


def _commands_in(log: StrPath) -> Iterator[Mapping[str, Any]]:
    """The commands of a log, and its marks, as questions, among them."""
    with open(_counting(log), "rb") as file, contextlib.suppress(ValueError, RecursionError):
        for text in file:
            command = json.loads(text)
            if not isinstance(command, dict):
                return
            yield command


def _opening_in(log: StrPath) -> Mapping[str, Any]:
    """The command that opened a log's store, in its first line, or the line with which the saved store begins that was
    restored in it, or written by a checkpoint."""
    head: Mapping[str, Any] = {}
    for command in _commands_in(log):
        do = command.get("do")
        if do == "open" and not head:
            return command
        if do == "restore" and command.get("piece") == "store":
            # A store that wasn't restored to its end is begun anew.
            head = command
        elif do not in ("restore", "report"):
            break
    if not head:
        raise BadLog(os.fspath(log), 1, "no open")
    return head


def _in_order(value: object) -> object:
    """A field of an opening, in which the namespaces have any order."""
    return sorted(value, key=str) if isinstance(value, list) else value


def _saved_lines(lines: Iterable[str]) -> Iterator[tuple[int, Mapping[str, Any]]]:
    """The lines of a saved store with their numbers, but for empty ones. Raises ValueError for what is none."""
    for number, text in enumerate(lines, 1):
        if not text.strip():
            continue
        try:
            command = json.loads(text)
        except (ValueError, RecursionError) as error:
            raise ValueError(f"line {number}: not a line of a saved store: {error}") from error
        if not isinstance(command, dict) or command.get("do") != "restore":
            raise ValueError(f"line {number}: not a line of a saved store")
        if "id" in command:
            raise ReservedField("id")
        yield number, command


def _restore(connection: Connection, lines: Iterable[str]) -> int:
    """Sends the lines of a saved store, and waits until it is there. The most entries of its round."""
    waiting: Deque[tuple[int, Call]] = collections.deque()
    journal = 0

    def take(most: int) -> None:
        """Waits until only so many lines aren't taken."""
        while len(waiting) > most:
            number, call = waiting.popleft()
            error = error_in(json.loads(call.wait()))
            if error:
                waiting.clear()
                if isinstance(error, BadRestore):
                    raise BadRestore(error.name, error.source, error.why, error.of, number)
                raise Fault(error.fault, number) if isinstance(error, Fault) else error

    try:
        for number, command in _saved_lines(lines):
            journal = command.get("journal", journal)
            take(_MOST_RESTORING - 1)
            waiting.append((number, connection.begin(_line(command))))
    except Exception:
        # A line that isn't taken comes before one that can't be sent.
        take(0)
        raise
    take(0)
    if is_fault(connection.exchange(b'{"do":"report"}\n')):
        raise EOFError("the last line of the saved store is missing")
    return journal


class Store(Snapshots, Files):
    """A store that a process of its own keeps, or a daemon that others use too. A context manager: the process ends
    with it, or the connection with the daemon.

    Any thread may call it, and any number at one time. Each method makes the call of its command, waits for the answer,
    and raises the `Refused` that the store answers, `Fault` for what is no command, and `Died` once the process has
    ended. What is left out has the command's default; `session` is the number of the session that makes the call, 0
    where it is left out.

    Each call is sent as it is made, and its answer is that of its place in the order. Where there is a log, a call that
    changes the store is on the disk before it is answered: those that are read together share their syncs. A call that
    the log can't keep, as on a full disk, raises `NotKept` and changes nothing; no call is made again by itself. Where
    a sync fails the store ends: `LogFailed`. A call whose caller is interrupted as it waits may still be made; its
    answer is dropped. In a process that was forked from the one that has the store each call raises `Forked`.
    """

    def __init__(
        self,
        root: str,
        namespaces: Mapping[str, Pair],
        journal: int | None = None,
        *,
        slots: int | None = None,
        layer_inodes: int | None = None,
        ancestors: int | None = None,
        program: StrPath = PROGRAM,
        log: StrPath | None = None,
        roll_when_full: bool = False,
        checkpoint: int = 0,
    ) -> None:
        """Opens a store with namespaces and their limits, 4096 at most, and, where a log is named, begins that.

        `slots` is how many snapshots may be active at one time, of all namespaces together: 1 to 4096, and 64
        where it is left out. `layer_inodes` is the most inodes of each layer: 1 to 16,777,216, and 65,536 where it is
        left out. `ancestors` is the most committed ancestors of a snapshot: 1 to 500, and 64 where it is left out.

        With `roll_when_full` a call that finds the journal full begins the next round, as `roll` does, of as many
        entries as the store is opened with (`journal`), and is made once more. The entries of the round before and its
        sessions are gone then: a call in another session than 0 raises `NoSession`. Several calls that find one
        journal full begin one round. What the roll is refused for is raised by the call.

        With a `checkpoint` the process makes the log short by itself, once it has grown to so many times what it had behind
        the last checkpoint, of at least 1 MiB. The next round begins then, at any moment, as by `roll` to as many entries.

        Raises BadArgument or JournalFull where the store is refused, NotKept where the log has no room for it, OSError
        where the program doesn't start or the log can't be opened, FileExistsError where the log has a store, BadLog
        where the file is no log, BlockingIOError where another process has it, and LogFailed where its sync fails. A
        file that has text stays as it was. A log without a line may be left, on which a store can be begun.
        """
        bounds = {"journal": journal, "slots": slots, "layer_inodes": layer_inodes, "ancestors": ancestors}
        line = _opening(root, namespaces, **bounds)
        if log is not None:
            _find(log, create=True)
        connection = Connection(Process(program, log, checkpoint))
        with connection.beginning():
            if log is not None and _has_store(connection, log):
                raise FileExistsError(errno.EEXIST, "the log of a store, to be opened", os.fspath(log))
            connection.open(line)
        self._take(connection, journal, roll_when_full)

    @classmethod
    def connect(cls, socket: StrPath) -> Store:
        """The store that a daemon shares at a socket. The daemon has opened it, keeps its log and begins its rounds, and
        says by the roles of the caller's user and groups what a call may do: else it raises NotAllowed. Where its log has
        no room for a call, this raises NoSpace.

        Raises OSError where nobody listens there. Died is then of the connection.
        """
        connection = Connection(Daemon(socket))
        with connection.beginning():
            pass
        return cls._with(connection, None, False)

    @classmethod
    def from_log(
        cls, log: StrPath, *, program: StrPath = PROGRAM, roll_when_full: bool = False, checkpoint: int = 0
    ) -> Store:
        """A store as its log tells it, which goes on with the log. The cost is that of all calls in the log.

        Raises FileNotFoundError where there is no log, or none with a line, BadLog where the file is no log,
        BlockingIOError where another process has it, and OSError where the program doesn't start or the log can't be
        opened. A file that has text is as it was then. A log of version 0.1.0 is BadLog: see `pibroulez.take_over`.
        """
        _find(log, create=False)
        connection = Connection(Process(program, log, checkpoint))
        with connection.beginning():
            if not _has_store(connection, log):
                raise FileNotFoundError(errno.ENOENT, "a log without a line", os.fspath(log))
            opening = _opening_in(log)
        return cls._with(connection, opening.get("journal"), roll_when_full)

    @classmethod
    def restore(
        cls,
        lines: Iterable[str],
        *,
        log: StrPath | None = None,
        program: StrPath = PROGRAM,
        roll_when_full: bool = False,
    ) -> Store:
        """The store that saved lines make, as `iter_save` gives them and a file of them has them; empty ones don't count.
        Where a log is named the store goes on in it: it may have no store yet, but lines of one that wasn't restored.

        Raises BadRestore, with its `line`, where a line isn't taken or the store is refused; ValueError for what is no
        line of a saved store; EOFError where the last one is missing; what the iterable raises; and what `Store` raises.
        A log may have the lines so far then: `from_log` raises BadLog, and `restore` begins anew. Only where the last
        line was refused no store can be made in it any more, so it is to be removed. Where something stands behind the
        last line, this raises Fault or ValueError of its line, and a log has the store.
        """
        if log is not None:
            _find(log, create=True)
        connection = Connection(Process(program, log))
        with connection.beginning():
            if log is not None and _has_store(connection, log, may_restore=True):
                raise FileExistsError(errno.EEXIST, "the log of a store, to be restored", os.fspath(log))
        try:
            journal = _restore(connection, lines)
        except BaseException:
            connection.close(0)
            raise
        return cls._with(connection, journal, roll_when_full)

    @classmethod
    def open_or_new(
        cls,
        root: str,
        namespaces: Mapping[str, Pair],
        journal: int | None = None,
        *,
        log: StrPath,
        slots: int | None = None,
        layer_inodes: int | None = None,
        ancestors: int | None = None,
        program: StrPath = PROGRAM,
        roll_when_full: bool = False,
        checkpoint: int = 0,
    ) -> Store:
        """The store that the log tells, or a new one where there is no log, or none with a line.

        Raises what `from_log` and `Store` raise, and BadLog where the log's store was opened with other values than
        these. Limits that were changed later, and namespaces that were made or removed, don't count. Of a store that was
        restored in the log, and of a log that was made short, `root`, `slots`, `layer_inodes` and `ancestors` count, since
        nothing changes them.
        """
        bounds = {"journal": journal, "slots": slots, "layer_inodes": layer_inodes, "ancestors": ancestors}
        line = _opening(root, namespaces, **bounds)
        _find(log, create=True)
        connection = Connection(Process(program, log, checkpoint))
        with connection.beginning():
            if _has_store(connection, log):
                wanted, found = json.loads(line), _opening_in(log)
                fields = ["root", "namespaces", *bounds]
                if found["do"] == "restore":
                    wanted, fields = {**_DEFAULTS, **wanted}, ["root", *_DEFAULTS]
                for field in fields:
                    if _in_order(wanted.get(field)) != _in_order(found.get(field)):
                        fault = f"the store was opened with {field} {found.get(field)}, not {wanted.get(field)}"
                        raise BadLog(os.fspath(log), 1, fault)
            else:
                connection.open(line)
        return cls._with(connection, journal, roll_when_full)

    @classmethod
    def _with(cls, connection: Connection, journal: int | None, roll_when_full: bool) -> Store:
        store = cls.__new__(cls)
        store._take(connection, journal, roll_when_full)
        return store

    def _take(self, connection: Connection, journal: int | None, roll_when_full: bool) -> None:
        self._connection = connection
        self._journal = journal
        self._rolls = roll_when_full
        # How many rounds were begun, which is told under the lock.
        self._rounds = 0
        self._round = threading.RLock()
        # A store that nobody has any more is let go. Where the interpreter ends, so does the input of the process.
        weakref.finalize(self, connection.let_go).atexit = False

    def __enter__(self) -> Store:
        return self

    def __exit__(
        self, kind: Type[BaseException] | None, error: BaseException | None, trace: TracebackType | None
    ) -> None:
        try:
            self.close()
        except Forked:
            # The error by which a forked process leaves the block says more.
            if error is None:
                raise

    @property
    def pid(self) -> int:
        """The process, or the daemon's."""
        return self._connection.pid

    def close(self, seconds: float = END_SECONDS) -> None:
        """Ends the process, once it has answered all calls that were made. Where it hasn't ended after this number of seconds,
        it is killed, and the calls that wait raise Died. Later calls raise Died; a second close does nothing."""
        self._connection.close(seconds)

    def request(self, command: Mapping[str, object]) -> dict[str, Any]:
        """Makes the call of any command, with the fields that docs/SCRIPT.md names. The members of its answer.

        Raises ReservedField for an `id`, TypeError where a field's name is no text or its value no JSON, and
        UnicodeEncodeError where a text has no UTF-8. Nothing is sent then.
        """
        self._connection.check_owner()
        given = dict(command)
        for name in given:
            if type(name) is not str:
                raise TypeError(f"the name of a field is a text, and not {name!r}")
        if "id" in given:
            raise ReservedField("id")
        line = _line(given)
        if given.get("do") in _ROUNDS:
            with self._round:
                answer = self._made(line)
                self._rounds += 1
            return answer
        # To save needs no room in this round: the next one would lack an entry.
        rolled = not self._rolls or given.get("do") == "save"
        while True:
            rounds = self._rounds
            try:
                return self._made(line)
            except JournalFull:
                if rolled:
                    raise
                rolled = self._begin_round_after(rounds)

    def _begin_round_after(self, rounds: int) -> bool:
        """Begins a round where none was begun since there were this many. Whether it has."""
        with self._round:
            if self._rounds != rounds:
                return False
            self.roll(self._journal)
        return True

    def _made(self, line: bytes) -> dict[str, Any]:
        answer: dict[str, Any] = json.loads(self._connection.exchange(line))
        if error := error_in(answer):
            raise error
        return answer
