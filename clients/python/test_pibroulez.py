"""Tests of the client's calls and errors.

Expected values are those of docs/SCRIPT.md: its examples, and sums by its rules.
"""
from __future__ import annotations

import builtins
import contextlib
import copy
import io
import json
import pickle
import re
import subprocess
import unittest
from pathlib import Path
from typing import Callable, Type

import example
import pibroulez
from pibroulez import (
    Batched,
    Change,
    Changed,
    Committed,
    Content,
    Directory,
    Entry,
    Fault,
    File,
    Info,
    Kind,
    Lease,
    Mount,
    Node,
    OperationRefused,
    Part,
    Prepared,
    Quota,
    Refused,
    Report,
    SizedContent,
    SizedFile,
    Store,
    Swept,
    Symlink,
    Usage,
    Viewed,
)
from stores import PROGRAM, open_store


def commit_empty(store: Store, name: str, parent: str = "") -> None:
    store.prepare("a", "new", parent)
    store.commit("a", "new", name)


class Commands(unittest.TestCase):
    def test_first_script(self) -> None:
        """The first script of README, and the answers that docs/SCRIPT.md has for it."""
        with open_store() as store:
            self.assertEqual(store.prepare("a", "k", ""), Prepared((), 1, 0))
            self.assertEqual(store.mkdir("a", "k", "/etc"), Changed(Usage(2, 2), Usage(2, 2)))
            self.assertEqual(store.create("a", "k", "/etc/x"), Changed(Usage(2, 3), Usage(2, 3)))
            self.assertEqual(
                store.write("a", "k", "/etc/x", fill=(120, 5000)), Changed(Usage(4, 3), Usage(4, 3))
            )
            self.assertEqual(store.commit("a", "k", "base"), Committed(1, Usage(4, 3)))
            self.assertEqual(store.usage("a", "base", entry=True), Usage(4, 3))
            with self.assertRaises(pibroulez.NotFound) as caught:
                store.stat("a", "k", entry=True)
            self.assertEqual(caught.exception.source, "book")
            self.assertEqual(store.report(), Report(8, 0, 1, {"a": Usage(4, 3)}))

    def test_each_command(self) -> None:
        with open_store() as store:
            self.files(store)
            self.snapshots(store)
            self.rounds(store)

    def files(self, store: Store) -> None:
        """Leaves the journal with 8 entries: the session, the prepare, and six charges."""
        store.prepare("a", "k", "", labels={"x": "1"})
        steps: list[tuple[Changed, Usage]] = [
            (store.mkdir("a", "k", "/d", 0o700), Usage(2, 2)),
            (store.create("a", "k", "/d/f"), Usage(2, 3)),
            (store.write("a", "k", "/d/f", "hi"), Usage(3, 3)),
            (store.truncate("a", "k", "/d/f", 5000), Usage(4, 3)),
            (store.setmode("a", "k", "/d/f", 0o600), Usage(4, 3)),
            (store.symlink("a", "k", "/s", "d/f"), Usage(4, 4)),
            (store.link("a", "k", "/d/f", "/d/g"), Usage(4, 4)),
            (store.rename("a", "k", "/d/g", "/h"), Usage(4, 4)),
            (store.unlink("a", "k", "/h"), Usage(4, 4)),
            (store.mkdir("a", "k", "/e"), Usage(5, 5)),
        ]
        for changed, count in steps:
            self.assertEqual(changed, Changed(count, count))
        self.assertEqual(store.rmdir("a", "k", "/e"), Changed(Usage(4, 4), Usage(5, 5)))
        self.assertEqual(store.look("a", "k", "/d"), Directory(0o700))
        self.assertEqual(store.look("a", "k", "/d/f"), File(0o600, 5000))
        self.assertEqual(store.look("a", "k", "/s"), Symlink("d/f"))
        self.assertIsNone(store.look("a", "k", "/e"))
        self.assertEqual(store.listdir("a", "k", "/"), ("d", "s"))
        self.assertEqual(store.read("a", "k", "/d/f"), Content(b"hi" + bytes(14), 5000))
        self.assertEqual(store.read_part("a", "k", "/d/f"), Part(b"hi" + bytes(4998), 5000))
        self.assertEqual(store.read_part("a", "k", "/d/f", 1, max=2), Part(b"i\0", 5000))
        self.assertEqual(store.read_part("a", "k", "/d/f", 4999), Part(b"\0", 5000))
        self.assertEqual(store.read_part("a", "k", "/d/f", 5001), Part(b"", 5000))
        self.assertEqual(store.resolve("a", "k", "/s"), "/d/f")
        self.assertEqual(store.du("a", "k", "/"), Usage(4, 4))
        self.assertEqual(store.du("a", "k", "/d/f"), Usage(2, 1))

    def test_files_of_a_size(self) -> None:
        digest = "sha256:ab"
        with open_store() as store:
            store.prepare("a", "k", "")
            put = store.put("a", "k", "/f", 5000, digest, 0o755)
            self.assertEqual(put, Changed(Usage(3, 2), Usage(3, 2)))
            self.assertEqual(store.look("a", "k", "/f"), SizedFile(0o755, 5000, digest))
            self.assertEqual(store.read("a", "k", "/f"), SizedContent(5000, digest))
            self.assertEqual(store.read_part("a", "k", "/f", 1, 2), SizedContent(5000, digest))
            store.write("a", "k", "/f", "x", offset=8192)
            self.assertEqual(store.look("a", "k", "/f"), SizedFile(0o755, 8193, None))
            store.put("a", "k", "/g", 0)
            self.assertEqual(store.read("a", "k", "/g"), SizedContent(0, None))
            with self.assertRaises(pibroulez.TooBig):
                store.put("a", "k", "/h", (1 << 40) + 1)

    def test_lines_of_a_journal(self) -> None:
        """A store that is given the lines of another one's journal comes to have the same journal."""
        with open_store() as store, open_store() as other:
            store.prepare("a", "k", "", labels={"x": "1"})
            store.charge("a", "k", (2, 3), (4, 5))
            store.lease_create("a", "lease", until=5)
            with self.assertRaises(pibroulez.NoLease):
                store.commit("a", "k", "base", lease="none")
            store.commit("a", "k", "base", lease="lease")
            store.view("a", "v", "base")
            store.update("a", "v", {"y": "2"}, ["labels.y"])
            store.walk("a", "a", 2, parent="base", kind=Kind.VIEW, labels={"y": None, "x": "1"}, entry=True)
            store.prepare("a", "k2", "base")
            store.trim("a", "k2")
            store.discard("a", "k2")
            store.limit("a", 50, 60)
            store.remove("a", "v")
            store.sweep("a", 6)
            lines = [entry.line or "" for entry in store.journal("a", full=True)]
            self.assertEqual(len(lines), 14)
            for line in lines:
                with contextlib.suppress(pibroulez.NoLease):
                    other.request(json.loads(line))
            self.assertEqual(other.journal("a", full=True), store.journal("a", full=True))

    def test_what_layers_below_have(self) -> None:
        with open_store() as store:
            store.prepare("a", "k", "")
            store.mkdir("a", "k", "/d")
            store.create("a", "k", "/d/f")
            store.mkdir("a", "k", "/e")
            store.create("a", "k", "/e/f")
            store.commit("a", "k", "base")
            store.prepare("a", "k", "base")
            self.assertEqual(store.opaque("a", "k", "/d"), Changed(Usage(2, 2), Usage(2, 2)))
            self.assertEqual(store.listdir("a", "k", "/d"), ())
            self.assertEqual(store.whiteout("a", "k", "/e"), Changed(Usage(2, 3), Usage(2, 3)))
            self.assertEqual(store.listdir("a", "k", "/"), ("d",))

    def snapshots(self, store: Store) -> None:
        """Leaves the journal with 30 entries, and the store empty."""
        self.assertEqual(store.trim("a", "k"), Usage(4, 4))
        self.assertEqual(store.charge("a", "k", (10, 10)), Usage(10, 10))
        self.assertEqual(store.charge("a", "k", (11, 11), (20, 20)), Usage(20, 20))
        self.assertEqual(store.usage("a", "k", entry=True), Usage(20, 20))
        mount = Mount("bind", "/r/snapshots/1/fs", ("rw", "rbind"))
        self.assertEqual(store.mounts("a", "k", entry=True), (mount,))
        self.assertEqual(store.stat("a", "k", entry=True), Info("k", "", Kind.ACTIVE, {"x": "1"}, 1, 2, 2))
        labels = {"x": "1", "y": "2"}
        self.assertEqual(
            store.update("a", "k", {"y": "2"}, ["labels.y"]), Info("k", "", Kind.ACTIVE, labels, 1, 2, 15)
        )
        store.lease_create("a", "lease", until=5)
        self.assertEqual(store.commit("a", "k", "base", lease="lease"), Committed(1, Usage(4, 4)))
        self.assertEqual(store.view("a", "v", "base", labels={"z": ""}), Viewed((1,), 2))
        self.assertEqual(store.prepare("a", "k2", "base"), Prepared((1,), 3, 0))
        self.assertEqual(store.discard("a", "k2"), Usage(1, 1))
        base = Info("base", "", Kind.COMMITTED, labels, 1, 17, 17)
        view = Info("v", "base", Kind.VIEW, {"z": ""}, 2, 18, 18)
        self.assertEqual(store.walk("a", entry=True), (base, view))
        for found in (
            store.walk("a", "base", entry=True),
            store.walk("a", name="v", entry=True),
            store.walk("a", parent="base", kind=Kind.VIEW, entry=True),
            store.walk("a", labels={"z": None}, entry=True),
        ):
            self.assertEqual(found, (view,))
        store.lease_add("a", "lease", "base")
        self.assertEqual(store.chain_usage("a", "v"), Usage(4, 4))
        self.assertEqual(store.try_sweep("a", 0), Swept(Usage(0, 0), 0, ()))
        nothing = Usage(0, 0)
        quota = Quota(Usage(100, 100), Usage(4, 4), Usage(4, 4), nothing, nothing, Usage(96, 96))
        self.assertEqual(store.quota("a"), quota)
        self.assertEqual(store.quotas(), {"a": quota})
        leases = (Lease("lease", ("base",), 5),)
        self.assertEqual(store.leases("a"), leases)
        self.assertEqual(store.leases("a", "lease"), leases)
        self.assertEqual(
            store.tree("a"),
            (
                Node("base", "", Kind.COMMITTED, 1, Usage(4, 4), 1),
                Node("v", "base", Kind.VIEW, 2, Usage(0, 0), 0),
            ),
        )
        self.assertEqual(store.tree("a", max=1), (Node("base", "", Kind.COMMITTED, 1, Usage(4, 4), 1),))
        self.assertEqual(store.tree("a", "base"), (Node("v", "base", Kind.VIEW, 2, Usage(0, 0), 0),))
        self.assertEqual(store.diff("a", "base", max=1), (Change("added", "/"),))
        self.assertEqual(store.diff("a", "v", after="/"), ())
        self.assertEqual(
            store.journal("a", after=16, max=3),
            (
                Entry(17, 0, "commit", Usage(4, 4), "base", 1),
                Entry(18, 0, "view", Usage(4, 4), "v", 2),
                Entry(19, 0, "prepare", Usage(5, 5), "k2", 3),
            ),
        )
        (entry,) = store.journal("a", after=17, max=1, full=True)
        line = '{"do":"view","key":"v","labels":{"z":""},"ns":"a","parent":"base","s":0}'
        self.assertEqual(entry, Entry(18, 0, "view", Usage(4, 4), "v", 2, line=line))
        self.assertEqual(store.remove("a", "v"), Usage(0, 0))
        store.lease_release("a", "lease")
        store.limit("a", 50, 50)
        self.assertEqual(store.sweep("a", 0), Swept(Usage(4, 4), 0, ("base",)))
        self.assertEqual(store.report(), Report(30, 0, 0, {"a": Usage(0, 0)}))

    def rounds(self, store: Store) -> None:
        number = store.session()
        self.assertEqual(number, 1)
        self.assertEqual(store.prepare("a", "k", "", session=number), Prepared((), 4, 0))
        store.discard("a", "k", session=number)
        store.reopen(journal=10)
        self.assertEqual(store.report(), Report(1, 0, 0, {"a": Usage(0, 0)}))
        store.prepare("a", "k", "")
        self.assertEqual(store.stat("a", "k").created, 35)
        with self.assertRaises(pibroulez.JournalFull):
            store.roll(journal=1)
        store.roll(journal=2)
        self.assertEqual(store.report(), Report(1, 1, 1, {"a": Usage(1, 1)}))
        with self.assertRaises(pibroulez.JournalFull):
            store.stat("a", "k", entry=True)
        store.roll()
        self.assertEqual(store.stat("a", "k").created, 35)

    def test_batch(self) -> None:
        """The third and fourth answers of `examples/files/batch`, and a charge of 6/5 with 5/4 in the limit."""
        with open_store(5, 4) as store:
            store.prepare("a", "k", "")
            made = [
                {"do": "mkdir", "path": "/d"},
                {"do": "create", "path": "/d/f"},
                {"do": "write", "path": "/d/f", "fill": (120, 5000)},
            ]
            self.assertEqual(store.batch("a", "k", (5, 4), made), Batched(3, Usage(4, 3), Usage(5, 4)))
            with self.assertRaises(OperationRefused) as refused:
                store.batch("a", "k", (5, 4), [{"do": "symlink", "path": "/l", "target": "d"}, made[0], made[0]])
            self.assertEqual(refused.exception.number, 2)
            self.assertIs(type(refused.exception.why), pibroulez.Exists)
            self.assertEqual(refused.exception.why.of, "path")
            self.assertEqual(refused.exception.batch, Batched(1, Usage(4, 4), Usage(5, 4)))
            with self.assertRaises(pibroulez.OverLimit):
                store.batch("a", "k", (6, 5), made)
            with self.assertRaises(Fault):
                store.batch("a", "k", (5, 4), [{"do": "mkdir", "path": "d"}])
            self.assertEqual(store.listdir("a", "k", "/"), ("d", "l"))

    def test_whole_batch(self) -> None:
        """The answers of `examples/files/whole-batch`: the third operation is refused, and the layer is as it was."""
        with open_store(20, 10) as store:
            store.prepare("a", "k", "")
            made = [{"do": "mkdir", "path": "/d"}, {"do": "create", "path": "/d/f"}]
            store.batch("a", "k", (5, 4), [*made, {"do": "write", "path": "/d/f", "fill": (120, 5000)}])
            given: list[dict[str, object]] = [
                {"do": "rename", "from": "/d/f", "to": "/g"},
                {"do": "write", "path": "/g", "offset": 5000, "fill": (120, 5000)},
                {"do": "rmdir", "path": "/none"},
                {"do": "unlink", "path": "/g"},
            ]
            with self.assertRaises(OperationRefused) as refused:
                store.batch("a", "k", (5, 4), given, whole=True)
            self.assertEqual(refused.exception.number, 3)
            self.assertIs(type(refused.exception.why), pibroulez.NotFound)
            self.assertEqual(refused.exception.batch, Batched(0, Usage(4, 3), Usage(5, 4)))
            self.assertEqual(store.listdir("a", "k", "/"), ("d",))
            given[2]["path"] = "/d"
            self.assertEqual(store.batch("a", "k", (5, 4), given, whole=True), Batched(4, Usage(1, 1), Usage(5, 4)))

    def test_full_journal_in_a_batch(self) -> None:
        """It is not made once more in the next round, since a part of it is done. The journal has room for the session, the
        prepare, the charge of the batch and the discard."""
        with open_store(journal=4, roll_when_full=True) as store:
            store.prepare("a", "k", "")
            with self.assertRaises(OperationRefused) as refused:
                store.batch("a", "k", (2, 2), [{"do": "mkdir", "path": "/d"}, {"do": "mkdir", "path": "/e"}])
            self.assertIs(type(refused.exception.why), pibroulez.JournalFull)
            self.assertEqual(store.listdir("a", "k", "/"), ("d",))

    def test_texts(self) -> None:
        """Texts beyond ASCII, and those that JSON escapes, come back as they were given. Others aren't sent."""
        key = 'k"\\\n\t\u00e9\u20ac\u2028\U0001f600'
        with open_store() as store:
            store.prepare("a", key, "")
            self.assertEqual(store.stat("a", key).name, key)
            calls: list[Callable[[], object]] = [
                lambda: store.stat("a", "\udcff"),
                lambda: store.update("a", key, {"x": "\udcff"}),
                lambda: store.update("a", key, {}, ["labels.x", "labels.\udcff"]),
                lambda: store.request({"do": "report", "why": {"a": [[{"\udcff": None}]]}}),
            ]
            for call in calls:
                with self.assertRaises(UnicodeEncodeError):
                    call()
            with self.assertRaises(UnicodeEncodeError):
                Store("/r", {"\udcff": (1, 1)}, program="/none")
            self.assertEqual(store.stat("a", key).updated, 2)
            self.assertEqual(store.report().entries, 2)

    def test_questions_without_an_entry(self) -> None:
        """Of three entries the session and the prepare take one each, and the discard keeps the last."""
        with open_store(journal=3) as store:
            store.prepare("a", "k", "")
            for _ in range(100):
                self.assertEqual(store.stat("a", "k").name, "k")
                self.assertEqual(store.usage("a", "k"), Usage(1, 1))
                self.assertEqual(store.mounts("a", "k"), (Mount("bind", "/r/snapshots/1/fs", ("rw", "rbind")),))
                self.assertEqual([it.name for it in store.walk("a")], ["k"])
            self.assertEqual(store.report().entries, 2)
            for ask in (store.stat, store.usage, store.mounts):
                with self.assertRaises(TypeError):
                    ask("a", "k", session=0)
                with self.assertRaises(pibroulez.JournalFull):
                    ask("a", "k", entry=True)

    def test_labels_of_a_commit(self) -> None:
        with open_store() as store:
            store.prepare("a", "k", "", labels={"x": "1", "y": "2"})
            store.commit("a", "k", "base", labels={"x": "3"})
            self.assertEqual(store.stat("a", "base").labels, {"x": "3"})

    def test_iterators(self) -> None:
        """Each has what all pages together have, with pages of two of five or seven."""
        with open_store() as store:
            for name in "abcde":
                commit_empty(store, name)
                store.lease_create("a", name)
            self.assertEqual([it.name for it in store.iter_walk("a", page=2)], list("abcde"))
            self.assertEqual([it.name for it in store.iter_walk("a", "b", name="d")], ["d"])
            self.assertEqual([it.key for it in store.iter_tree("a", page=2)], list("abcde"))
            self.assertEqual(tuple(store.iter_tree("a")), store.tree("a"))
            self.assertEqual([it.key for it in store.iter_tree("a", "b")], list("cde"))
            self.assertEqual(tuple(store.iter_leases("a")), store.leases("a"))
            store.prepare("a", "k", "")
            for name in "abcde":
                store.create("a", "k", f"/{name}")
            self.assertEqual([it.path for it in store.iter_diff("a", "k", "/", page=2)], ["/a", "/b", "/c", "/d", "/e"])
            # The session is entry 1, and makes no charge; then five times prepare, commit and lease_create.
            numbers = [it.number for it in store.iter_journal("a", 9, page=2)]
            self.assertEqual(numbers, list(range(10, store.report().entries + 1)))
            self.assertEqual(tuple(store.iter_journal("a", page=64)), store.journal("a"))

    def test_journal_of_all_namespaces(self) -> None:
        """What docs/SCRIPT.md has of the entries of the round: the session, and the calls with their namespaces."""
        with Store("/r", {"a": (9, 9), "b": (9, 9)}, program=PROGRAM) as store:
            store.prepare("b", "k", "")
            with self.assertRaises(pibroulez.NoNamespace):
                store.prepare("c", "k", "")
            session, prepare, refused = store.journal()
            self.assertEqual(session, Entry(1, 0, "session"))
            self.assertEqual(prepare, Entry(2, 0, "prepare", key="k", id=1, namespace="b"))
            self.assertEqual(refused, Entry(3, 0, "prepare", key="k", refused="NoNamespace", namespace="c"))
            self.assertEqual(list(store.iter_journal(page=1)), [session, prepare, refused])
            self.assertEqual(store.journal("b"), (Entry(2, 0, "prepare", Usage(1, 1), "k", 1),))

    def test_slots(self) -> None:
        with open_store() as store:
            for slot in range(64):
                self.assertEqual(store.prepare("a", f"k{slot}", ""), Prepared((), slot + 1, slot))
            with self.assertRaises(pibroulez.TooManyActives):
                store.prepare("a", "k64", "")

    def test_slots_of_a_store(self) -> None:
        with open_store(slots=1) as store:
            self.assertEqual(store.prepare("a", "k", ""), Prepared((), 1, 0))
            with self.assertRaises(pibroulez.TooManyActives):
                store.prepare("a", "l", "")

    def test_ancestors_of_a_store(self) -> None:
        """In a store of two ancestors a snapshot stands on the second layer, and none on the third."""
        with open_store(ancestors=2) as store:
            for name, parent in (("1", ""), ("2", "1"), ("3", "2")):
                commit_empty(store, name, parent)
            self.assertEqual(store.prepare("a", "k", "2"), Prepared((2, 1), 4, 0))
            for call in (store.prepare, store.view):
                with self.assertRaises(pibroulez.TooDeep):
                    call("a", "l", "3")

    def test_most_ancestors(self) -> None:
        """A store of 500 ancestors allows as many."""
        with open_store(1000, 1000, ancestors=500) as store:
            commit_empty(store, "0")
            for n in range(1, 501):
                commit_empty(store, str(n), str(n - 1))
            self.assertEqual(len(store.prepare("a", "k", "499").chain), 500)
            with self.assertRaises(pibroulez.TooDeep):
                store.view("a", "v", "500")


class Documents(unittest.TestCase):
    """What docs/SCRIPT.md has in its sections on commands and on logs."""

    page = (Path(__file__).parents[2] / "docs/SCRIPT.md").read_text(encoding="utf-8")
    text = page.partition("\n## Commands\n")[2].partition("\n## ")[0]
    log = page.partition("\n### Over a log\n")[2].partition("\n## ")[0]

    def test_commands(self) -> None:
        """Each is a method."""
        rows = re.findall(r"^\| (`[a-z_]+`(?:, `[a-z_]+`)*) \|", self.text, re.MULTILINE)
        commands = {word for row in rows for word in re.findall(r"[a-z_]+", row)} - {"do"}
        self.assertIn("prepare", commands)
        methods = commands - {"open", "list"} | {"listdir"}
        self.assertEqual([it for it in sorted(methods) if not hasattr(Store, it)], [])

    def test_names(self) -> None:
        """No method or name of the package hides a builtin."""
        names = {it for it in (*dir(Store), *pibroulez.__all__) if not it.startswith("__")}
        self.assertEqual(names & set(dir(builtins)), set())

    def test_refusals(self) -> None:
        """Each is an exception, and so is each of a daemon, and no other is."""
        daemon = (Path(__file__).parents[1] / "go/pibroulezd/README.md").read_text(encoding="utf-8")
        refusals = daemon.partition("\n## Refusals of the door\n")[2].partition("\n## ")[0]
        names = set(re.findall(r"`([A-Z][A-Za-z]+)`", self.text + self.log + refusals))
        self.assertEqual(names, {each.__name__ for each in Refused.__subclasses__()})


class Refusals(unittest.TestCase):
    def assert_refused(
        self, error: Type[Refused], source: str, call: Callable[[], object], of: str | None = "any"
    ) -> Refused:
        with self.assertRaises(error) as caught:
            call()
        self.assertEqual((caught.exception.name, caught.exception.source), (error.__name__, source))
        if of != "any":
            self.assertEqual(caught.exception.of, of)
        return caught.exception

    def test_snapshots(self) -> None:
        with open_store() as store:
            commit_empty(store, "base")
            commit_empty(store, "child", "base")
            self.assert_refused(pibroulez.NotActive, "book", lambda: store.look("a", "base", "/"))
            self.assertEqual(store.look("a", "base", "/", peek=True), Directory(0o755))
            self.assertEqual(store.listdir("a", "child", "/", peek=True), ())
            self.assertEqual(store.du("a", "child", "/", peek=True), Usage(1, 1))
            store.prepare("a", "k", "")
            for error, of, call in (
                (pibroulez.BadArgument, "key", lambda: store.prepare("a", "", "")),
                (pibroulez.NoNamespace, "ns", lambda: store.prepare("b", "x", "")),
                (pibroulez.NotFound, "parent", lambda: store.prepare("a", "x", "none")),
                (pibroulez.AlreadyExists, "key", lambda: store.prepare("a", "base", "")),
                (pibroulez.NotCommitted, "parent", lambda: store.prepare("a", "x", "k")),
                (pibroulez.NotActive, "key", lambda: store.commit("a", "base", "x")),
                (pibroulez.HasChildren, "key", lambda: store.remove("a", "base")),
                (pibroulez.InUse, "key", lambda: store.remove("a", "k")),
                (pibroulez.NoLease, "lease", lambda: store.lease_add("a", "lease", "base")),
                (pibroulez.NoLease, "lease", lambda: store.leases("a", "lease")),
                (pibroulez.BelowCharge, None, lambda: store.limit("a", 2, 100)),
            ):
                with self.subTest(error.__name__):
                    self.assert_refused(error, "book", call, of)
            store.lease_create("a", "lease")
            store.lease_add("a", "lease", "child")
            self.assertEqual(store.leases("a"), (Lease("lease", ("child",)),))
            self.assert_refused(pibroulez.LeaseExists, "book", lambda: store.lease_create("a", "lease"))
            self.assert_refused(pibroulez.Leased, "book", lambda: store.remove("a", "child"))
            store.lease_drop("a", "lease", "child")
            self.assert_refused(pibroulez.NotFound, "book", lambda: store.lease_drop("a", "lease", "child"))
            self.assertEqual(store.remove("a", "child"), Usage(1, 1))

    def test_namespaces(self) -> None:
        """A namespace is made, holds a snapshot or a lease, and is removed once it has none."""
        with open_store() as store:
            for name, blocks, inodes in (("", 1, 1), ("b", (1 << 40) + 1, 1), ("b", 1, (1 << 40) + 1)):
                self.assert_refused(
                    pibroulez.BadArgument, "book", lambda: store.namespace_create(name, blocks, inodes)
                )
            self.assert_refused(pibroulez.NamespaceExists, "book", lambda: store.namespace_create("a", 1, 1))
            self.assert_refused(pibroulez.NoNamespace, "book", lambda: store.namespace_remove("b"))
            store.namespace_create("b", 10, 1 << 40)
            self.assertEqual(store.quota("b").limit, Usage(10, 1 << 40))
            self.assertEqual(set(store.report().totals), {"a", "b"})
            store.prepare("b", "k", "")
            self.assert_refused(pibroulez.NotEmpty, "book", lambda: store.namespace_remove("b"))
            store.discard("b", "k")
            store.lease_create("b", "lease")
            self.assert_refused(pibroulez.NotEmpty, "book", lambda: store.namespace_remove("b"))
            store.lease_release("b", "lease")
            store.namespace_remove("b")
            self.assert_refused(pibroulez.NoNamespace, "book", lambda: store.prepare("b", "k", ""))
            self.assertEqual(set(store.quotas()), {"a"})
            store.namespace_create("b", 2, 2)
            self.assertEqual([entry.call for entry in store.journal("b")], ["namespace_create"])

    def test_no_namespaces(self) -> None:
        """A store is opened with none, and has as many as 4096."""
        with Store("/r", {}, program=PROGRAM) as store:
            self.assertEqual(store.report().totals, {})
            for number in range(4096):
                store.namespace_create(str(number), 1, 1)
            self.assert_refused(pibroulez.TooManyNamespaces, "book", lambda: store.namespace_create("more", 1, 1))
            store.namespace_remove("7")
            store.namespace_create("more", 1, 1)
            self.assertEqual(len(store.quotas()), 4096)

    def test_open(self) -> None:
        self.assert_refused(
            pibroulez.BadArgument, "book", lambda: Store("r", {"a": (1, 1)}, program=PROGRAM)
        )
        for namespaces in ({"": (1, 1)}, {f"n{number}": (1, 1) for number in range(4097)}):
            with self.subTest(len(namespaces)), self.assertRaises(pibroulez.BadArgument) as refused:
                Store("/r", namespaces, program=PROGRAM)
            self.assertEqual(refused.exception.field, "namespaces")
        for most in (0, 501):
            with self.subTest(most), self.assertRaises(pibroulez.BadArgument) as refused:
                open_store(ancestors=most)
            self.assertEqual((refused.exception.field, refused.exception.of), ("ancestors", "ancestors"))
        self.assert_refused(pibroulez.JournalFull, "book", lambda: open_store(journal=0))

    def test_world(self) -> None:
        with open_store() as store:
            commit_empty(store, "base")
            store.prepare("a", "k", "")
            self.assert_refused(pibroulez.NoSession, "world", lambda: store.stat("a", "k", entry=True, session=7))
            self.assert_refused(pibroulez.StillOut, "world", store.reopen)
            self.assert_refused(pibroulez.AlreadyExists, "book", lambda: store.commit("a", "k", "base"))
            self.assert_refused(pibroulez.NoHand, "world", lambda: store.mkdir("a", "k", "/d"))

    def test_over_limit(self) -> None:
        """The root takes 1/1 of 4/2; 4/3 are wanted."""
        with open_store(4, 2) as store:
            store.prepare("a", "k", "")
            with self.assertRaises(pibroulez.OverLimit) as caught:
                store.charge("a", "k", (4, 3))
            self.assertEqual(caught.exception.source, "book")
            self.assertEqual(caught.exception.free, Usage(3, 1))

    def test_depth(self) -> None:
        """Where nothing is said, a snapshot on 64 ancestors is made, and none on it."""
        with open_store() as store:
            commit_empty(store, "0")
            for n in range(1, 65):
                commit_empty(store, str(n), str(n - 1))
            self.assert_refused(pibroulez.TooDeep, "book", lambda: store.view("a", "v", "64"))

    def test_journal_full(self) -> None:
        """Of three entries the session and the prepare take one each, and the discard keeps the last."""
        with open_store(journal=3) as store:
            store.prepare("a", "k", "")
            self.assert_refused(pibroulez.JournalFull, "book", lambda: store.stat("a", "k", entry=True))
            store.discard("a", "k")

    def test_files(self) -> None:
        with open_store() as store:
            store.prepare("a", "below", "")
            store.mkdir("a", "below", "/lower")
            store.commit("a", "below", "base")
            store.prepare("a", "k", "base")
            store.mkdir("a", "k", "/d")
            store.create("a", "k", "/d/f")
            for n in range(41):
                store.symlink("a", "k", f"/l{n}", f"l{n + 1}")
            for error, of, call in (
                (pibroulez.NotFound, "path", lambda: store.unlink("a", "k", "/none")),
                (pibroulez.NotDir, "path", lambda: store.mkdir("a", "k", "/d/f/x")),
                (pibroulez.IsDir, "path", lambda: store.unlink("a", "k", "/d")),
                (pibroulez.Exists, "path", lambda: store.mkdir("a", "k", "/d")),
                (pibroulez.NotEmpty, "path", lambda: store.rmdir("a", "k", "/d")),
                (pibroulez.CrossDevice, "from", lambda: store.rename("a", "k", "/lower", "/upper")),
                (pibroulez.Invalid, "mode", lambda: store.create("a", "k", "/x", 0o10000)),
                (pibroulez.NotPermitted, "from", lambda: store.link("a", "k", "/d", "/x")),
                (pibroulez.TooBig, "size", lambda: store.truncate("a", "k", "/d/f", 1_048_577)),
                (pibroulez.TooManyLinks, "path", lambda: store.resolve("a", "k", "/l0")),
                (pibroulez.BadPath, "path", lambda: store.look("a", "k", "d")),
            ):
                with self.subTest(error.__name__):
                    self.assert_refused(error, "file", call, of)


class Errors(unittest.TestCase):
    def test_pickled(self) -> None:
        """An error that was pickled or copied says what it said."""
        path = "/log"
        others = {
            pibroulez.BadArgument: ("BadArgument", "book", "slots"),
            pibroulez.OverLimit: ("OverLimit", "book", Usage(3, 1), "", "need"),
            pibroulez.NotFound: ("NotFound", "book", "parent"),
            pibroulez.BadRestore: ("BadRestore", "restore", "snapshot 3: NotFound", None, 7),
            OperationRefused: (2, Refused("Exists", "file"), Batched(1, Usage(2, 2), Usage(3, 3))),
            Fault: ("too long", 2),
            pibroulez.ReservedField: ("id",),
            pibroulez.Died: (4, "want of memory"),
            pibroulez.LogFailed: (path, 8, "a sync of the log failed"),
            pibroulez.BadLog: (path, 1, "first line must be open"),
            pibroulez.Forked: (7,),
        }
        for kind in {getattr(pibroulez, it) for it in pibroulez.__all__}:
            if isinstance(kind, type) and issubclass(kind, pibroulez.Error):
                error = kind(*others.get(kind, (kind.__name__, "book") if issubclass(kind, Refused) else ()))
                for again in (pickle.loads(pickle.dumps(error)), copy.copy(error), copy.deepcopy(error)):
                    self.assertIs(type(again), kind)
                    self.assertEqual(str(again), str(error))
                    self.assertEqual(repr(vars(again)), repr(vars(error)))


class Lines(unittest.TestCase):
    def test_reserved_fields(self) -> None:
        """A command with an `id`, or with a `do` beside its own, isn't sent, and the next call has its own answer."""

        class Name(str):
            __hash__ = object.__hash__

        with open_store() as store:
            with self.assertRaises(pibroulez.ReservedField):
                store.request({"do": "report", "id": 7})
            with self.assertRaises(TypeError):
                store.request({"do": "look", Name("do"): "prepare", "ns": "a", "key": "k", "parent": ""})
            with self.assertRaises(TypeError):
                store.request({"do": "report", 7: 8})  # type: ignore[dict-item]
            self.assertEqual(store.report().records, 0)

    def test_faults(self) -> None:
        """Each is told with its line, and the store is as it was. The `open` is line 1."""
        prepare = {"do": "prepare", "ns": "a", "key": "k", "parent": ""}
        with open_store() as store:
            store.request(prepare)
            faults: list[tuple[int, str, dict[str, object]]] = [
                (3, "bad field mode: a number is wanted, a text is there", {"do": "mkdir", "ns": "a", "key": "k", "path": "/d", "mode": "x"}),
                (4, "no such command", {"do": "prepear"}),
                (5, "bad field do: the word of a command, in a job that of a file command, is wanted, an array is there", {"do": []}),
                (6, "open twice", {"do": "open", "root": "/r", "namespaces": []}),
                (7, "bad field fill: [byte, number up to 1048576] is wanted, nothing is there", {"do": "write", "ns": "a", "key": "k", "path": "/f"}),
            ]
            for line, fault, command in faults:
                with self.subTest(fault):
                    with self.assertRaises(Fault) as caught:
                        store.request(command)
                    self.assertEqual((caught.exception.fault, caught.exception.line), (fault, line))
            self.assertEqual(store.report(), Report(2, 1, 1, {"a": Usage(1, 1)}))

    def test_unknown_field(self) -> None:
        """A field that the command doesn't have is a fault, and nothing is made without it."""
        command = {"do": "prepare", "ns": "a", "key": "k", "parent": "", "lables": {"x": "1"}}
        with open_store() as store:
            with self.assertRaises(Fault) as caught:
                store.request(command)
            self.assertEqual((caught.exception.fault, caught.exception.line), ("unknown field lables: labels?", 2))
            self.assertEqual(store.report().records, 0)

    def test_each_line_has_one_answer(self) -> None:
        """Also one that is empty, no JSON or no object."""
        lines = [
            b'{"do":"open","root":"/r","namespaces":[["a",9,9]]}\n',
            b"\n",
            b" \t\r\n",
            b"{\n",
            b"[]\n",
            b"\xff\n",
            b'{"do":"report"}\n',
        ]
        ran = subprocess.run([PROGRAM, "serve"], input=b"".join(lines), stdout=subprocess.PIPE, check=True)
        answers = [json.loads(line) for line in ran.stdout.splitlines()]
        self.assertEqual(len(answers), len(lines))
        self.assertEqual(answers[0], {"ok": True})
        for answer in answers[1:3]:
            self.assertFalse({"fault", "error", "ok"} & answer.keys())
        self.assertEqual(answers[3], {"fault": "not JSON", "line": 4})
        self.assertEqual(answers[4], {"fault": "not an object", "line": 5})
        self.assertEqual(answers[5], {"fault": "not JSON", "line": 6})
        self.assertEqual(answers[6], {"entries": 1, "open": 0, "records": 0, "totals": {"a": [0, 0]}})


class Example(unittest.TestCase):
    def test_unpacked_image(self) -> None:
        """The layers of `examples/tour/12-unpack-an-image`, as archives: 7/5 and 4/5."""
        said = io.StringIO()
        with contextlib.redirect_stdout(said):
            example.main(PROGRAM)
        self.assertEqual(said.getvalue().splitlines()[-2:], ["layer-1 takes 7/5", "layer-2 takes 4/5"])


if __name__ == "__main__":
    unittest.main()
