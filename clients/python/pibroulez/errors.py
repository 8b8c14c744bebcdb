"""The errors of a store. Each can be pickled and copied, with all that it says."""
from __future__ import annotations

import signal
from typing import Any, Mapping, Type

from .answers import Batched, Usage


class Error(Exception):
    """Any error of this package."""


class Refused(Error):
    """The store has refused a call. `source` is `book`, `world`, `file` for an error of a file, `log` or `restore`, and
    `door` or `cluster` for a refusal of a daemon.

    `of` is the field of the call that it is about, by its name in a line (docs/SCRIPT.md), as `parent` where a new
    snapshot's parent isn't found, and None where no field alone is the cause.
    """

    def __init__(self, name: str, source: str, of: str | None = None) -> None:
        super().__init__(name, source, of)
        self.name = name
        self.source = source
        self.of = of

    def __str__(self) -> str:
        return f"{self.name} (from {self.source})"


class BadArgument(Refused):
    """A key, name, lease, label, limit or page is malformed, or a field of `open`.

    `field` is the first malformed field of `open`, where a store is refused for it, and else None. It is `of`, too.
    """

    def __init__(self, name: str, source: str, field: str | None = None, of: str | None = None) -> None:
        super().__init__(name, source, of or field)
        self.args = (name, source, field, of)
        self.field = field


class NoNamespace(Refused):
    """The store doesn't have this namespace."""


class NamespaceExists(Refused):
    """The store has a namespace of this name."""


class TooManyNamespaces(Refused):
    """The store has 4096 namespaces, and can have no more."""


class NotFound(Refused):
    """There is no such snapshot or parent, or no such name in a lease; of a file, nothing is seen (ENOENT)."""


class AlreadyExists(Refused):
    """The key or name is taken."""


class NotCommitted(Refused):
    """The parent, or what a lease is to name, is active or a view."""


class NotActive(Refused):
    """The snapshot is committed, or a view where an active one is asked for."""


class HasChildren(Refused):
    """Another snapshot stands on it."""


class InUse(Refused):
    """It is active: a commit or a discard ends it."""


class Leased(Refused):
    """A lease names it."""


class NoLease(Refused):
    """There is no such lease."""


class LeaseExists(Refused):
    """The lease's name is taken."""


class TooDeep(Refused):
    """The snapshot would have more committed ancestors than the store allows (`ancestors`, 64)."""


class TooManyActives(Refused):
    """As many snapshots are active as the store was opened for."""


class OverLimit(Refused):
    """The namespace doesn't have that much free. `free` is what it has.

    `words` say why the cluster of a daemon has no room, and who has some; else they are empty.
    """

    def __init__(self, name: str, source: str, free: Usage, words: str = "", of: str | None = None) -> None:
        super().__init__(name, source, of)
        self.args = (name, source, free, words, of)
        self.free = free
        self.words = words

    def __str__(self) -> str:
        return super().__str__() + (f": {self.words}" if self.words else "")


class BelowCharge(Refused):
    """The limit would be below what is charged."""


class NumbersSpent(Refused):
    """Ids, or the numbers of entries or sessions, are used up."""


class JournalFull(Refused):
    """What is left of the journal is kept for discards."""


class NoSession(Refused):
    """The session isn't open."""


class NoHand(Refused):
    """The snapshot is sealed by a refused commit."""


class StillOut(Refused):
    """A snapshot is active, so no new round begins."""


class NotAllowed(Refused):
    """The caller's role may not make this call: a refusal of a daemon, and the store has not seen it."""


class NoSpace(Refused):
    """The log of a daemon has no room for the call, which the store has not seen."""


class TooManyConnections(Refused):
    """The caller's user has as many connections with a daemon as one may have. The connection ends: `Died`."""


class LateLine(Refused):
    """A line had no end for as long as a daemon waits. The connection ends: `Died`."""


class NotDir(Refused):
    """A directory is asked for, and something else is there (ENOTDIR)."""


class IsDir(Refused):
    """A directory is there (EISDIR)."""


class Exists(Refused):
    """Something is at the path (EEXIST)."""


class NotEmpty(Refused):
    """The namespace has a snapshot or a lease (`source` is `book`), or the directory has entries (`file`; ENOTEMPTY)."""


class CrossDevice(Refused):
    """The directory is, whole or in part, of a lower layer (EXDEV)."""


class Invalid(Refused):
    """The operation isn't for this file or value (EINVAL)."""


class NotPermitted(Refused):
    """A directory has no hard links (EPERM)."""


class TooBig(Refused):
    """A file or a symlink's target would be too large (EFBIG)."""


class TooManyLinks(Refused):
    """More than 40 symlinks (ELOOP)."""


class BadPath(Refused):
    """The text is no path."""


class LayerFull(Refused):
    """The layer would have more inodes than the store was opened with (`layer_inodes`, 65,536)."""


class NotKept(Refused):
    """The log can't keep the call, as on a full disk. Nothing was changed: make the call again once there is room.

    Calls that are read together are kept together or not at all, so another call's may be the line without room.
    """


class BadRestore(Refused):
    """A line of a saved store can't be taken, or the store that its lines make. `why` says what is wrong, in the words of
    docs/SCRIPT.md.

    `line` is the line's number, from 1, of those that `Store.restore` was given, and else None.
    """

    def __init__(self, name: str, source: str, why: str, of: str | None = None, line: int | None = None) -> None:
        super().__init__(name, source, of)
        self.args = (name, source, why, of, line)
        self.why = why
        self.line = line

    def __str__(self) -> str:
        return (f"line {self.line}: " if self.line else "") + f"{super().__str__()}: {self.why}"


class OperationRefused(Error):
    """An operation of a batch was refused. Those before it are done, as `batch` tells, or none, where it is whole; and no
    later one is.

    `number` is the operation's, from 1, and `why` the refusal.
    """

    def __init__(self, number: int, why: Refused, batch: Batched) -> None:
        super().__init__(number, why, batch)
        self.number = number
        self.why = why
        self.batch = batch

    def __str__(self) -> str:
        return f"operation {self.number}: {self.why}"


class Fault(Error):
    """A line was no command. Nothing has changed. `line` is its number, from 1, of all lines of the process."""

    def __init__(self, fault: str, line: int) -> None:
        super().__init__(fault, line)
        self.fault = fault
        self.line = line

    def __str__(self) -> str:
        return f"line {self.line}: {self.fault}"


class ReservedField(Error):
    """A command has a field that the client sets itself. Nothing is sent. `field` is its name."""

    def __init__(self, field: str) -> None:
        super().__init__(field)
        self.field = field

    def __str__(self) -> str:
        return f"the field {self.field} is set by the client"


class Died(Error):
    """The process has ended, and so has the store. Each call that waits, and each later one, is answered this.

    `status` is the process's, negative for a signal, and `words` what it has said on standard error, or why it was
    killed.
    """

    def __init__(self, status: int, words: str) -> None:
        super().__init__(status, words)
        self.status = status
        self.words = words

    def __str__(self) -> str:
        return f"the process has ended with status {self.status}" + (f": {self.words}" if self.words else "")


class LogFailed(Died):
    """A sync of the log has failed. The process has ended then, and the store with it.

    Whether the log has the calls that waited is unknown: `Store.from_log` opens the store again that it tells. `path` is
    the log.
    """

    def __init__(self, path: str, status: int, words: str) -> None:
        super().__init__(status, words)
        self.args = (path, status, words)
        self.path = path

    def __str__(self) -> str:
        return f"{self.path}: {super().__str__()}"


class BadLog(Error):
    """A file is no log, can't be read as one, or isn't as it was written, so no store can be opened from it. The file
    is as it was.

    `line` is the line's number, from 1, or 0 where it isn't that of a line, and `fault` what the program says of it.
    """

    def __init__(self, path: str, line: int, fault: str) -> None:
        super().__init__(path, line, fault)
        self.path = path
        self.line = line
        self.fault = fault

    def __str__(self) -> str:
        return f"{self.path}: " + (f"line {self.line}: " if self.line else "") + self.fault


class Forked(Error):
    """The process was forked from the one that has the store, and can't call it. `owner` is the latter's id."""

    def __init__(self, owner: int) -> None:
        super().__init__(owner)
        self.owner = owner

    def __str__(self) -> str:
        return f"the store is that of process {self.owner}, from which this one was forked"


_REFUSALS: Mapping[str, Type[Refused]] = {each.__name__: each for each in Refused.__subclasses__()}


def refusal_in(answer: Mapping[str, Any]) -> Refused:
    """The refusal that an answer with an `error` tells."""
    name, source, of = answer["error"], answer["from"], answer.get("of")
    if "free" in answer:
        return OverLimit(name, source, Usage(*answer["free"]), answer.get("words", ""), of)
    kind = _REFUSALS.get(name, Refused)
    if kind is BadArgument:
        return BadArgument(name, source, answer.get("field"), of)
    if kind is BadRestore:
        return BadRestore(name, source, answer["why"], of)
    return kind(name, source, of)


def error_in(answer: Mapping[str, Any]) -> Error | None:
    """The error that an answer tells, if it tells one."""
    if "fault" in answer:
        return Fault(answer["fault"], answer["line"])
    if "op" in answer:
        refused, batch = refusal_in(answer), batched_in(answer)
        return OperationRefused(answer["op"], refused, batch)
    return refusal_in(answer) if "error" in answer else None


def batched_in(answer: Mapping[str, Any]) -> Batched:
    """What the answer to a batch tells that was made."""
    return Batched(answer["done"], Usage(*answer["count"]), Usage(*answer["share"]))
