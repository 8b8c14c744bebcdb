"""Tests of stores that are saved in pages and restored of the lines. Expected values are those of docs/SCRIPT.md."""
from __future__ import annotations

import io
import json
import os
import signal
import tempfile
import unittest
from pathlib import Path
from typing import Iterable, Iterator, Sequence

import pibroulez
from pibroulez import BadRestore, Content, Entry, Fault, Info, Kind, Lease, Prepared, Report, Store, Usage
from stores import PROGRAM, log_lines, open_store

# A store with an open snapshot that has a file with the bytes `hi`, by the forms of its lines.
HEAD = {"root": "/r", "slots": 3, "journal": 100, "first_id": 1, "layer_inodes": 65536, "ancestors": 64, "entries": 12}
HEAD["next_id"] = 6
ROOT = {"mode": 493, "opaque": False, "next": 2, "most": 65536}
OPEN = {"kind": "Active", "slot": 1, "blocks": 4, "inodes": 4, "sealed": False, **ROOT}
PIECES = (
    {"piece": "store", **HEAD},
    {"piece": "namespace", "name": "a", "blocks": 100, "inodes": 100},
    {"piece": "snapshot", "ns": "a", "key": "k", "parent": "", "snapshot_id": 3, "created": 6, "updated": 6, **OPEN},
    {"piece": "file", "number": 1, "mode": 420},
    {"piece": "bytes", "bytes": "6869"},
    {"piece": "name", "path": "/f"},
    {"piece": "end", "lines": 7},
)
LINES = tuple(json.dumps({"do": "restore", **piece}) for piece in PIECES)


def with_line(number: int, line: str) -> list[str]:
    """The lines with this one in place of the line of this number."""
    return [*LINES[: number - 1], line, *LINES[number:]]


def piece(number: int, **changed: object) -> str:
    """The line of this number with other fields."""
    return json.dumps({**json.loads(LINES[number - 1]), **changed})


class Saved(unittest.TestCase):
    def setUp(self) -> None:
        folder = tempfile.TemporaryDirectory()
        self.addCleanup(folder.cleanup)
        self.log = Path(folder.name) / "log"

    def restore(self, lines: Iterable[str] = LINES, **given: object) -> Store:
        return Store.restore(lines, program=PROGRAM, **given)  # type: ignore[arg-type]

    def assert_saved(self, store: Store) -> None:
        """Ids, slots and numbers of entries go on."""
        self.assertEqual(store.report(), Report(1, 1, 1, {"a": Usage(4, 4)}))
        self.assertEqual(store.journal(), (Entry(13, 0, "session"),))
        self.assertEqual(store.stat("a", "k"), Info("k", "", Kind.ACTIVE, {}, 3, 6, 6))
        self.assertEqual(store.read("a", "k", "/f"), Content(b"hi", 2))

    def test_restored(self) -> None:
        with self.restore() as store:
            self.assert_saved(store)
            self.assertEqual(store.prepare("a", "n", ""), Prepared((), 6, 0))
            # A store that is there takes no line of another one.
            for line in LINES:
                with self.assertRaises(Fault) as caught:
                    store.request(json.loads(line))
                self.assertEqual(caught.exception.fault, "open twice")
            self.assertEqual(store.report().records, 2)
        with self.restore(io.StringIO("\r\n \n\n".join([*LINES[:-1], piece(7, why="the last")]))) as store:
            self.assert_saved(store)

    def test_pages(self) -> None:
        """They are of one state, whatever is called between, and no line of the log."""
        with self.restore(log=self.log) as store:
            kept = log_lines(self.log)
            first = store.save(max=2)
            self.assertEqual((len(first.lines), first.next), (2, 2))
            self.assertEqual(store.report().entries, 1)
            self.assertEqual(log_lines(self.log), kept)
            store.discard("a", "k")
            second = store.save(2, 1)
            self.assertEqual((len(second.lines), second.next), (1, 3))
            last = store.save(3)
            self.assertIsNone(last.next)
            lines = [json.loads(line) for line in first.lines + second.lines + last.lines]
            # Session 0 is the entry after the twelfth.
            self.assertEqual(lines, [{**json.loads(LINES[0]), "entries": 13}, *map(json.loads, LINES[1:])])
            for after, most, of in ((7, None, "after"), (0, 1025, "max"), (0, 0, "max")):
                with self.assertRaises(pibroulez.BadArgument) as caught:
                    store.save(after, most)
                self.assertEqual(caught.exception.of, of)
            # The lines of the next ones are counted on, and end the pages of the one before.
            self.assertEqual((store.save(max=1).next, store.save(max=1).next), (8, 9))
            with self.assertRaises(pibroulez.BadArgument):
                store.save(8)
            # A namespace and an end are left.
            self.assertEqual(len(store.save(9).lines), 2)

    def test_whole_store(self) -> None:
        """Saved in pages of any size and restored, it is as after a roll, with texts beyond ASCII too."""
        label = {"é": 'é\n\u0001"\U0001f600\u2028'}
        with open_store() as store:
            store.prepare("a", "k", "", labels=label)
            store.create("a", "k", "/é")
            store.write("a", "k", "/é", "é\n")
            store.commit("a", "k", "base")
            store.view("a", "v", "base")
            store.lease_create("a", "l", until=2**64 - 1)
            store.lease_add("a", "l", "base")
            saved = list(store.iter_save())
            # A store, a namespace, a snapshot, its label, a file with bytes and a name, a view, a lease with a name, an end.
            self.assertEqual(len(saved), 11)
            self.assertEqual([list(store.iter_save(page=size)) for size in (1, 4, 11)], [saved] * 3)
            store.roll()
            with self.restore(saved) as other:
                for question in ("report", "quotas", "journal"):
                    self.assertEqual(getattr(other, question)(), getattr(store, question)())
                self.assertEqual(other.tree("a"), store.tree("a"))
                self.assertEqual(other.stat("a", "base").labels, label)
                self.assertEqual(other.leases("a"), (Lease("l", ("base",), 2**64 - 1),))
                self.assertEqual(other.read("a", "v", "/é"), Content("é\n".encode(), 3))
                self.assertEqual(list(other.iter_save()), list(store.iter_save()))

    def test_end_of_pages(self) -> None:
        """Another's save, and the end of the process. The lines so far are no saved store."""
        with open_store() as store:
            lines = store.iter_save(page=1)
            first = next(lines)
            store.save(max=1)
            with self.assertRaises(pibroulez.BadArgument):
                next(lines)
            lines = store.iter_save(page=1)
            next(lines)
            os.kill(store.pid, signal.SIGKILL)
            with self.assertRaises(pibroulez.Died):
                next(lines)
        with self.assertRaises(EOFError):
            self.restore([first])

    def test_without_room(self) -> None:
        """A full round doesn't matter, and where the next one couldn't begin none is rolled."""
        with open_store(journal=3, log=self.log, roll_when_full=True) as store:
            store.prepare("a", "k", "")
            self.assertEqual(len(store.save().lines), 4)
            store.discard("a", "k")
            # A round of no entries has none for session 0.
            with self.assertRaises(pibroulez.JournalFull):
                store.reopen(journal=0)
            with self.assertRaises(pibroulez.JournalFull):
                store.save()
        self.assertEqual([line for line in log_lines(self.log) if b'"roll"' in line], [])

    def test_refused(self) -> None:
        """The line is told and why, and there is no store. Only where the store is refused none is made in the log any more."""
        for lines, number, why, is_last in (
            (LINES[1:], 1, "not in its place", False),
            (with_line(1, piece(1, root=3)), 1, "bad field root", False),
            (with_line(5, piece(5, bytes="6")), 5, "bad field bytes", False),
            (with_line(7, piece(7, lines=8)), 7, "a line is missing", False),
            (with_line(6, LINES[6].replace("7", "6")), 6, "snapshot 0, file 0: NoNames", False),
            (with_line(1, piece(1, slots=0)), 7, "malformed slots", True),
            (with_line(3, piece(3, parent="x")), 7, "snapshot 0: NotFound", True),
        ):
            with self.subTest(why):
                self.log.unlink(missing_ok=True)
                for log in (None, self.log):
                    with self.assertRaises(BadRestore) as caught:
                        self.restore(lines, log=log)
                    error = caught.exception
                    self.assertEqual((error.source, error.why, error.line, error.of), ("restore", why, number, None))
                    self.assertEqual(str(error), f"line {number}: BadRestore (from restore): {why}")
                with self.assertRaises(pibroulez.BadLog):
                    open_store(log=self.log)
                with self.assertRaises(pibroulez.BadLog):
                    Store.from_log(self.log, program=PROGRAM)
                if is_last:
                    with self.assertRaises(BadRestore):
                        self.restore(log=self.log)
                    continue
                with self.restore(log=self.log) as store:
                    self.assert_saved(store)
                with Store.from_log(self.log, program=PROGRAM) as store:
                    self.assert_saved(store)

    def test_no_store(self) -> None:
        """What makes none, though each line that was sent is taken."""

        def broken() -> Iterator[str]:
            yield from LINES[:6]
            raise OSError("broken")

        cases: Sequence[tuple[type[BaseException], str, Iterable[str]]] = (
            (EOFError, "the last line", ()),
            (EOFError, "the last line", LINES[:6]),
            (OSError, "broken", broken()),
            (ValueError, "line 2: ", with_line(2, '{"do":"open","root":"/r","namespaces":[]}')),
            (ValueError, "line 7: ", with_line(7, LINES[6][:-1])),
            (ValueError, "line 3: ", with_line(3, '["restore"]')),
            (ValueError, "line 3: ", with_line(3, "[" * 100_000)),
            (UnicodeEncodeError, "", with_line(2, piece(2, name="\ud800"))),
            (pibroulez.ReservedField, "", with_line(2, piece(2, id=1))),
            # The line that isn't taken is told, and not a later one that isn't sent.
            (BadRestore, "line 2: ", [*with_line(2, LINES[3]), "none"]),
            (ValueError, "line 8: ", [*LINES, "none"]),
            (Fault, "line 8: open twice", [*LINES, LINES[0]]),
        )
        for error, words, lines in cases:
            with self.subTest(error=error, words=words), self.assertRaisesRegex(error, words):
                self.restore(lines)

    def test_log(self) -> None:
        """One that has a store, or is none, stays as it is. Its store goes on, and rolls to as many entries as were saved."""
        self.log.write_text("a text")
        with self.assertRaises(pibroulez.BadLog):
            self.restore(log=self.log)
        self.assertEqual(self.log.read_text(), "a text")
        self.log.unlink()
        other = with_line(1, piece(1, journal=7, slots=9))
        with self.assertRaises(EOFError):
            self.restore(other[:4], log=self.log)
        self.restore(with_line(1, piece(1, journal=4)), log=self.log).close()
        kept = self.log.read_bytes()
        with self.assertRaises(FileExistsError):
            self.restore(log=self.log)
        behind = self.log.with_name("behind")
        with self.assertRaises(Fault):
            self.restore([*LINES, LINES[0]], log=behind)
        with Store.from_log(behind, program=PROGRAM) as store:
            self.assert_saved(store)
        self.assertEqual(self.log.read_bytes(), kept)
        with Store.from_log(self.log, program=PROGRAM, roll_when_full=True) as store:
            for n in range(4):
                store.limit("a", 100 + n, 100)
        rolls = [json.loads(line) for line in log_lines(self.log) if b'"roll"' in line]
        self.assertEqual([it["journal"] for it in rolls], [4])

    def test_open_or_new(self) -> None:
        """A restored store is told by what nothing changes: its namespaces and its round are those of when it was saved."""

        def begin(root: str = "/r", slots: int | None = 3, **bounds: int) -> Store:
            return Store.open_or_new(root, {"b": (1, 1)}, 50, slots=slots, program=PROGRAM, log=self.log, **bounds)

        self.restore(log=self.log).close()
        with begin() as store:
            self.assert_saved(store)
        begin(layer_inodes=65_536, ancestors=64).close()
        for other in ({"root": "/s"}, {"slots": None}, {"slots": 4}, {"layer_inodes": 9}, {"ancestors": 9}):
            with self.subTest(other), self.assertRaises(pibroulez.BadLog):
                begin(**other)  # type: ignore[arg-type]


if __name__ == "__main__":
    unittest.main()
