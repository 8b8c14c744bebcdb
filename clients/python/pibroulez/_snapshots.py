"""The commands on the rounds, namespaces, snapshots, leases and limits of a store, and the questions to it."""
from __future__ import annotations

from typing import Any, Callable, Iterator, Mapping, Sequence, Type, TypeVar

from ._calls import Calls, text_of
from .answers import (
    Change,
    Committed,
    Entry,
    Info,
    Kind,
    Lease,
    Mount,
    Node,
    Pair,
    Prepared,
    Quota,
    Report,
    SavedPage,
    Swept,
    Usage,
    Viewed,
)

_Item = TypeVar("_Item")
_Answer = TypeVar("_Answer", Info, Node)


def _of_kind(answer: Type[_Answer], fields: Mapping[str, Any]) -> _Answer:
    """An answer whose fields are the members of an object, one of them its kind."""
    given: dict[str, Any] = {**fields, "kind": Kind(fields["kind"])}
    return answer(**given)


def _swept(answer: Mapping[str, Any]) -> Swept:
    return Swept(Usage(*answer["freed"]), answer["leases"], tuple(answer["removed"]))


def _entry(members: Mapping[str, Any]) -> Entry:
    fields = dict(members)
    if "charge" in fields:
        fields["charge"] = Usage(*fields["charge"])
    return Entry(namespace=fields.pop("ns", None), **fields)


def _each(page: Callable[[Any], Sequence[_Item]], after: object, last: Callable[[_Item], object]) -> Iterator[_Item]:
    """What is on the page after `after`, and on each page after the last of one, until one is empty."""
    while items := page(after):
        yield from items
        after = last(items[-1])


class Snapshots(Calls):
    """The calls of a store on snapshots, and on all of it.

    `stat`, `usage`, `mounts` and `walk` make an entry in the journal where `entry` is true, and `session` is of that
    entry. Without it they need no session, and are answered when the journal is full too.

    The iterators ask page by page: each page is of the store as it then is.
    """

    # Sessions and rounds

    def session(self) -> int:
        """Opens a session. Its number."""
        number: int = self._call("session")["session"]
        return number

    def reopen(self, journal: int | None = None) -> None:
        """Begins the next round of the journal, of at most this number of entries. No snapshot may be active."""
        self._call("reopen", journal=journal)

    def roll(self, journal: int | None = None) -> None:
        """Begins the next round of the journal, of at most this number of entries. Active snapshots stay as they are."""
        self._call("roll", journal=journal)

    # Snapshots

    def prepare(
        self,
        namespace: str,
        key: str,
        parent: str,
        *,
        labels: Mapping[str, str] | None = None,
        session: int | None = None,
    ) -> Prepared:
        """Makes an active snapshot on a committed one, or on none where the parent is empty."""
        answer = self._call("prepare", session, ns=namespace, key=key, parent=parent, labels=labels)
        return Prepared(tuple(answer["chain"]), answer["id"], answer["slot"])

    def view(
        self,
        namespace: str,
        key: str,
        parent: str,
        *,
        labels: Mapping[str, str] | None = None,
        session: int | None = None,
    ) -> Viewed:
        """Makes a view of a committed snapshot, or of none where the parent is empty."""
        answer = self._call("view", session, ns=namespace, key=key, parent=parent, labels=labels)
        return Viewed(tuple(answer["chain"]), answer["id"])

    def charge(
        self, namespace: str, key: str, need: Pair, want: Pair | None = None, *, session: int | None = None
    ) -> Usage:
        """Charges what is wanted for an active snapshot, or else what is needed. What is charged now."""
        return Usage(*self._call("charge", session, ns=namespace, key=key, need=need, want=want)["share"])

    def trim(self, namespace: str, key: str, *, session: int | None = None) -> Usage:
        """Lowers the charge of an active snapshot to what its layer takes. What is charged now."""
        return Usage(*self._call("trim", session, ns=namespace, key=key)["share"])

    def commit(
        self,
        namespace: str,
        key: str,
        name: str,
        *,
        lease: str | None = None,
        labels: Mapping[str, str] | None = None,
        session: int | None = None,
    ) -> Committed:
        """Commits an active snapshot under a name, which the lease then names. A refusal seals the snapshot.

        The committed snapshot has the labels that are given, or else those of the active one.
        """
        answer = self._call("commit", session, ns=namespace, key=key, name=name, lease=lease, labels=labels)
        return Committed(answer["id"], Usage(*answer["usage"]))

    def discard(self, namespace: str, key: str, *, session: int | None = None) -> Usage:
        """Drops an active snapshot. What was charged for it."""
        return Usage(*self._call("discard", session, ns=namespace, key=key)["freed"])

    def remove(self, namespace: str, key: str, *, session: int | None = None) -> Usage:
        """Removes a committed snapshot or a view. What was charged for it."""
        return Usage(*self._call("remove", session, ns=namespace, key=key)["freed"])

    def stat(self, namespace: str, key: str, *, entry: bool = False, session: int | None = None) -> Info:
        """A snapshot of any kind."""
        return _of_kind(Info, self._ask("stat", entry, session, ns=namespace, key=key)["info"])

    def update(
        self,
        namespace: str,
        key: str,
        labels: Mapping[str, str],
        paths: Sequence[str] = (),
        *,
        session: int | None = None,
    ) -> Info:
        """Sets the labels that the paths name (`labels.x`), or all, and removes those that get no value."""
        answer = self._call("update", session, ns=namespace, key=key, labels=labels, paths=paths)
        return _of_kind(Info, answer["info"])

    def usage(self, namespace: str, key: str, *, entry: bool = False, session: int | None = None) -> Usage:
        """What is charged for a snapshot alone."""
        return Usage(*self._ask("usage", entry, session, ns=namespace, key=key)["usage"])

    def chain_usage(self, namespace: str, key: str) -> Usage:
        """What is charged for a snapshot and all its ancestors, each once."""
        return Usage(*self._call("usage", ns=namespace, key=key, chain=True)["usage"])

    def mounts(
        self, namespace: str, key: str, *, entry: bool = False, session: int | None = None
    ) -> tuple[Mount, ...]:
        """How an active snapshot or a view is mounted."""
        mounts = self._ask("mounts", entry, session, ns=namespace, key=key)["mounts"]
        return tuple(Mount(it["type"], it["source"], tuple(it["options"])) for it in mounts)

    def walk(
        self,
        namespace: str,
        after: str | None = None,
        max: int | None = None,
        *,
        name: str | None = None,
        parent: str | None = None,
        kind: Kind | None = None,
        labels: Mapping[str, str | None] | None = None,
        entry: bool = False,
        session: int | None = None,
    ) -> tuple[Info, ...]:
        """A page of the snapshots that match, in byte order of their keys, from the key `after` on. A label that is None
        is asked for whatever its value."""
        matched = dict(name=name, parent=parent, kind=kind, labels=labels)
        answer = self._ask("walk", entry, session, ns=namespace, after=after, max=max, **matched)
        return tuple(_of_kind(Info, it) for it in answer["infos"])

    def iter_walk(
        self,
        namespace: str,
        after: str | None = None,
        *,
        name: str | None = None,
        parent: str | None = None,
        kind: Kind | None = None,
        labels: Mapping[str, str | None] | None = None,
        page: int | None = None,
    ) -> Iterator[Info]:
        """All snapshots that match, after the key `after`. A label that is None is asked for whatever its value. `page` is
        how many are asked for at a time."""

        def walk(after: str | None) -> tuple[Info, ...]:
            return self.walk(namespace, after, page, name=name, parent=parent, kind=kind, labels=labels)

        return _each(walk, after, lambda info: info.name)

    # Namespaces, leases, limits and sweeps

    def namespace_create(self, namespace: str, blocks: int, inodes: int, *, session: int | None = None) -> None:
        """Makes a namespace with its limit: blocks of 4096 bytes, and inodes, each 0 to 2**40. It has no snapshot, no
        lease and no charge, whatever an earlier one of this name had.

        `BadArgument` where the name isn't 1 to 255 bytes without NUL, or a quantity is above 2**40; else `NamespaceExists` where the store has it; else `TooManyNamespaces` where the store has 4096. After a
        refusal the namespaces are as they were.
        """
        self._call("namespace_create", session, ns=namespace, blocks=blocks, inodes=inodes)

    def namespace_remove(self, namespace: str, *, session: int | None = None) -> None:
        """Removes a namespace and its limit. A call on it is `NoNamespace` then, and no question tells it.

        `NoNamespace` where the store doesn't have it; else `NotEmpty` where it has a snapshot of any kind or a lease.
        After a refusal it is as it was.
        """
        self._call("namespace_remove", session, ns=namespace)

    def lease_create(
        self, namespace: str, lease: str, until: int | None = None, *, session: int | None = None
    ) -> None:
        """Makes a lease, with a last moment or without."""
        self._call("lease_create", session, ns=namespace, lease=lease, until=until)

    def lease_add(self, namespace: str, lease: str, name: str, *, session: int | None = None) -> None:
        """Lets a lease name a committed snapshot."""
        self._call("lease_add", session, ns=namespace, lease=lease, name=name)

    def lease_drop(self, namespace: str, lease: str, name: str, *, session: int | None = None) -> None:
        """Takes one name out of a lease; NotFound where the lease doesn't have it."""
        self._call("lease_drop", session, ns=namespace, lease=lease, name=name)

    def lease_release(self, namespace: str, lease: str, *, session: int | None = None) -> None:
        """Takes a lease away."""
        self._call("lease_release", session, ns=namespace, lease=lease)

    def limit(self, namespace: str, blocks: int, inodes: int, *, session: int | None = None) -> None:
        """Gives a namespace another limit."""
        self._call("limit", session, ns=namespace, blocks=blocks, inodes=inodes)

    def sweep(self, namespace: str, now: int, *, session: int | None = None) -> Swept:
        """Takes the leases that have ended, and the committed snapshots that nothing in use stands on."""
        return _swept(self._call("sweep", session, ns=namespace, now=now))

    def try_sweep(self, namespace: str, now: int) -> Swept:
        """What a sweep would take. Nothing goes."""
        return _swept(self._call("sweep", ns=namespace, now=now, **{"try": True}))

    # Questions to the store

    def quota(self, namespace: str) -> Quota:
        """What a namespace may take and what it takes."""
        return self._quotas(namespace)[namespace]

    def quotas(self) -> dict[str, Quota]:
        """What each namespace may take and what it takes."""
        return self._quotas(None)

    def _quotas(self, namespace: str | None) -> dict[str, Quota]:
        quotas = self._call("quota", ns=namespace)["quota"]
        return {name: Quota(**{it: Usage(*amount) for it, amount in found.items()}) for name, found in quotas.items()}

    def leases(self, namespace: str, lease: str | None = None) -> tuple[Lease, ...]:
        """The leases of a namespace, in the order in which they were created, or the one of a name."""
        found = self._call("leases", ns=namespace, lease=lease)["leases"]
        return tuple(Lease(it["lease"], tuple(it["names"]), it.get("until")) for it in found)

    def iter_leases(self, namespace: str) -> Iterator[Lease]:
        """The leases of a namespace, in the order in which they were created. The store tells all at once."""
        yield from self.leases(namespace)

    def tree(self, namespace: str, after: str | None = None, max: int | None = None) -> tuple[Node, ...]:
        """The snapshots of a namespace, in byte order of their keys: all of them, or where `after` or `max` is given a page,
        from the key `after` on."""
        nodes = self._call("tree", ns=namespace, after=after, max=max)["tree"]
        return tuple(_of_kind(Node, {**it, "usage": Usage(*it["usage"])}) for it in nodes)

    def iter_tree(self, namespace: str, after: str = "", *, page: int | None = None) -> Iterator[Node]:
        """All snapshots of a namespace after the key `after`. `page` is how many are asked for at a time."""
        return _each(lambda after: self.tree(namespace, after, page), after, lambda node: node.key)

    def diff(self, namespace: str, key: str, after: str | None = None, max: int | None = None) -> tuple[Change, ...]:
        """A page of what a snapshot's layer changes, in order of the paths, from the path `after` on."""
        changes = self._call("diff", ns=namespace, key=key, after=after, max=max)["changes"]
        return tuple(Change(**it) for it in changes)

    def iter_diff(
        self, namespace: str, key: str, after: str | None = None, *, page: int | None = None
    ) -> Iterator[Change]:
        """All that a snapshot's layer changes after the path `after`. `page` is how many are asked for at a time."""
        return _each(lambda after: self.diff(namespace, key, after, page), after, lambda change: change.path)

    def journal(
        self,
        namespace: str | None = None,
        after: int | None = None,
        max: int | None = None,
        full: bool = False,
    ) -> tuple[Entry, ...]:
        """A page of the entries of a namespace since it was last made, or of all, in order, from the number `after` on,
        in full with their lines."""
        entries = self._call("journal", ns=namespace, after=after, max=max, full=full or None)["journal"]
        return tuple(_entry(it) for it in entries)

    def iter_journal(
        self,
        namespace: str | None = None,
        after: int | None = None,
        *,
        full: bool = False,
        page: int | None = None,
    ) -> Iterator[Entry]:
        """All entries of a namespace, or of the round, after the number `after`. `page` is how many are asked for at a
        time. Entries of a round that ends meanwhile are passed over."""
        return _each(lambda after: self.journal(namespace, after, page, full), after, lambda entry: entry.number)

    def report(self) -> Report:
        """The whole store."""
        answer = self._call("report")
        totals = {namespace: Usage(*total) for namespace, total in answer["totals"].items()}
        return Report(answer["entries"], answer["open"], answer["records"], totals)

    # The store as lines

    def save(self, after: int | None = None, max: int | None = None) -> SavedPage:
        """A page of the lines of the saved store, at most `max` of them: the first, by which the store is saved as it is, or
        the one after the number that the page before names as `next`. All pages are of the store as it was at the first,
        whatever calls come between. It makes no entry.

        `BadArgument` where no page comes after this number. A store has the lines of the last first page alone, so this is
        also what another caller's leaves of the pages before it. The first is `JournalFull` or `NumbersSpent` where `roll`
        to as many entries would be: the lines couldn't be restored.
        """
        answer = self._call("save", after=after, max=max)
        return SavedPage(tuple(text_of(line) for line in answer["lines"]), answer.get("next"))

    def iter_save(self, *, page: int | None = None) -> Iterator[str]:
        """The lines of the store as it is when the first is asked for, each without its line feed: `Store.restore` takes
        them. `page` is how many are asked for at a time. Where it raises, the lines so far are no saved store."""
        saved = self.save(max=page)
        yield from saved.lines
        while saved.next is not None:
            saved = self.save(saved.next, page)
            yield from saved.lines
