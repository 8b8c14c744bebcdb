"""What a store answers, as values."""
from __future__ import annotations

import enum
from dataclasses import dataclass
from typing import Mapping, NamedTuple, Tuple, Union


class Usage(NamedTuple):
    """Blocks of 4096 bytes, and inodes. A call takes any pair of numbers for one."""

    blocks: int
    inodes: int


Pair = Tuple[int, int]


class Kind(str, enum.Enum):
    """What a snapshot is."""

    VIEW = "View"
    ACTIVE = "Active"
    COMMITTED = "Committed"


@dataclass(frozen=True)
class Prepared:
    """A new active snapshot: the ids of its ancestors, nearest first, its own id, and its slot."""

    chain: tuple[int, ...]
    id: int
    slot: int


@dataclass(frozen=True)
class Viewed:
    """A new view: the ids of its ancestors, nearest first, and its own id."""

    chain: tuple[int, ...]
    id: int


@dataclass(frozen=True)
class Committed:
    """A committed snapshot: its id, and what its layer takes and is charged."""

    id: int
    usage: Usage


@dataclass(frozen=True)
class Changed:
    """What a layer takes after a file command, and what is charged for it."""

    count: Usage
    share: Usage


@dataclass(frozen=True)
class Batched:
    """How many operations of a batch were done, what the layer takes after them, and what is charged for it."""

    done: int
    count: Usage
    share: Usage


@dataclass(frozen=True)
class Unpacked:
    """What a layer takes that was unpacked, what is charged for it, and what was left out of its archive, by what it is
    and how many."""

    count: Usage
    share: Usage
    left_out: Mapping[str, int]


@dataclass(frozen=True)
class Info:
    """A snapshot. `created` and `updated` are numbers of entries of the journal."""

    name: str
    parent: str
    kind: Kind
    labels: Mapping[str, str]
    id: int
    created: int
    updated: int


@dataclass(frozen=True)
class Mount:
    """The arguments of mount(8)."""

    type: str
    source: str
    options: tuple[str, ...]


@dataclass(frozen=True)
class Swept:
    """What a sweep has taken: what was charged for it, how many leases, and the keys of the snapshots."""

    freed: Usage
    leases: int
    removed: tuple[str, ...]


@dataclass(frozen=True)
class Directory:
    """A directory that is seen at a path."""

    mode: int


@dataclass(frozen=True)
class File:
    """A file that is seen at a path. Its size is in bytes."""

    mode: int
    size: int


@dataclass(frozen=True)
class SizedFile:
    """A file that is seen at a path and whose bytes aren't kept: its size in bytes, and the digest by which its content
    is known, or None."""

    mode: int
    size: int
    digest: str | None


@dataclass(frozen=True)
class Symlink:
    """A symlink that is seen at a path."""

    target: str


Seen = Union[Directory, File, SizedFile, Symlink]


@dataclass(frozen=True)
class Content:
    """The first bytes of a file, at most 16, and its size in bytes."""

    head: bytes
    size: int


@dataclass(frozen=True)
class Part:
    """A part of the bytes of a file, and the file's size in bytes."""

    data: bytes
    size: int


@dataclass(frozen=True)
class SizedContent:
    """The size in bytes of a file whose bytes aren't kept, and the digest by which its content is known, or None."""

    size: int
    digest: str | None


@dataclass(frozen=True)
class Quota:
    """What a namespace may take and what it takes.

    What is charged is what the committed snapshots are charged and the active ones (`open`). What is spare of the
    latter a trim gives back.
    """

    limit: Usage
    charged: Usage
    committed: Usage
    open: Usage
    spare: Usage
    free: Usage


@dataclass(frozen=True)
class Lease:
    """A lease: the snapshots that it names, in the order in which it got them, and its last moment, if it has one."""

    lease: str
    names: tuple[str, ...]
    until: int | None = None


@dataclass(frozen=True)
class Node:
    """A snapshot in a tree: what is charged for it alone, and how many snapshots stand on it."""

    key: str
    parent: str
    kind: Kind
    id: int
    usage: Usage
    children: int


@dataclass(frozen=True)
class Change:
    """What a snapshot's layer changes at a path: it is `added`, `changed` or `removed`."""

    change: str
    path: str


@dataclass(frozen=True)
class Entry:
    """An entry of the journal. A refused call has the refusal's name.

    Where one namespace is asked for, `charge` is what this is charged after the call, and else `namespace` the one of
    the call, if it has one. `line` is the line of a script that makes the call, where the journal is asked for in full.
    """

    number: int
    session: int
    call: str
    charge: Usage | None = None
    key: str | None = None
    id: int | None = None
    refused: str | None = None
    line: str | None = None
    namespace: str | None = None


@dataclass(frozen=True)
class SavedPage:
    """A page of the lines of a saved store, each without its line feed, and the number after which the next page comes, or
    None where this is the last one."""

    lines: tuple[str, ...]
    next: int | None = None


@dataclass(frozen=True)
class Report:
    """The entries of the journal's round, the active snapshots, all snapshots, and what each namespace is charged."""

    entries: int
    open: int
    records: int
    totals: Mapping[str, Usage]
