"""Tests of logs, and of processes that are killed: PIBROULEZ_KILLS is how often, 20 where it isn't set."""
from __future__ import annotations

import contextlib
import itertools
import json
import os
import random
import re
import signal
import subprocess
import sys
import tempfile
import threading
import time
import unittest
from pathlib import Path
from typing import Iterator, Type

import pibroulez
from pibroulez import Died, Fault, Kind, Store, Usage
from stores import PROGRAM, log_lines, marked_lines, open_store, store_of, watched_program

# The mark of no line that changes something.
MARK = '{"do":"report","lines":"%s","answers":"%s"}\n' % ("0" * 64, "0" * 64)
KILLS = int(os.environ.get("PIBROULEZ_KILLS", "20"))
# A session's life that is killed: it commits snapshots, and prints each name once the commit has been answered.
COMMITTER = """
import itertools, sys
from pibroulez import Store
store = Store.from_log(sys.argv[1], program=sys.argv[2])
for n in itertools.count():
    name = f"{sys.argv[3]}-{n}"
    store.prepare("a", "key", "")
    store.create("a", "key", "/file")
    store.commit("a", "key", name)
    print(name, flush=True)
"""


class Logs(unittest.TestCase):
    def setUp(self) -> None:
        folder = tempfile.TemporaryDirectory()
        self.addCleanup(folder.cleanup)
        self.log = Path(folder.name) / "log"

    def reopen(self) -> Store:
        return Store.from_log(self.log, program=PROGRAM)

    def test_checkpoints(self) -> None:
        """The file that counts changes, and the store has what it had, also where it is opened again in either."""
        beside = self.log.with_name("log-wal")
        open_store(1000, log=self.log, journal=1000).close()
        for opened in range(4):
            store = Store.from_log(self.log, program=PROGRAM, checkpoint=1)
            store.prepare("a", f"k{opened}", "")
            store.create("a", f"k{opened}", "/f")
            for number in itertools.count():
                store.write("a", f"k{opened}", "/f", text="x" * 100_000)
                if beside.read_bytes()[:1] == (b"{", b"\0")[opened % 2]:
                    break
                self.assertLess(number, 100)
            self.assertEqual(store.report().records, opened + 1)
            store.close()
            store = Store.open_or_new("/r", {}, log=self.log, program=PROGRAM)
            store.close()
            with self.assertRaises(FileExistsError):
                open_store(log=self.log)
        self.assertLess(self.log.stat().st_size + beside.stat().st_size, 4 << 20)
        with Store.from_log(self.log, program=PROGRAM, roll_when_full=True) as store:
            for _ in range(1001):
                store.stat("a", "k0", entry=True)

    def fill(self, store: Store) -> None:
        """A few snapshots, refusals and questions. The last line of the log is the last prepare."""
        store.prepare("a", "k", "", labels={"x": "1"})
        store.create("a", "k", "/f")
        store.stat("a", "k", entry=True)
        store.usage("a", "k")
        with self.assertRaises(pibroulez.NotFound):
            store.remove("a", "none")
        store.commit("a", "k", "base")
        store.view("a", "view", "base")
        store.look("a", "view", "/f")
        store.prepare("a", "sealed", "base")
        with self.assertRaises(pibroulez.AlreadyExists):
            store.commit("a", "sealed", "base")
        store.update("a", "base", {"y": "2"})
        store.prepare("a", "last", "base")

    def test_state(self) -> None:
        """All is as it was, and goes on from there: numbers of entries, ids, and that a snapshot is sealed."""
        with open_store(log=self.log) as store:
            self.fill(store)
            before = store.report(), store.tree("a"), store.journal("a")
            infos = store.walk("a", entry=True)
        with self.reopen() as store:
            self.assertEqual(store.walk("a", entry=True), infos)
        with self.reopen() as store:
            self.assertEqual(store.tree("a"), before[1])
            self.assertEqual(store.journal("a")[: len(before[2])], before[2])
            # The walk of each store before is an entry.
            self.assertEqual(store.report().entries, before[0].entries + 2)
            self.assertEqual(store.report().totals, before[0].totals)
            with self.assertRaises(pibroulez.NoHand):
                store.create("a", "sealed", "/g")
            self.assertEqual(store.prepare("a", "next", "base").id, 5)

    def test_namespaces(self) -> None:
        """Those that were made are there, and those that were removed aren't."""
        with open_store(log=self.log) as store:
            store.namespace_create("b", 5, 6)
            store.prepare("b", "k", "")
            store.namespace_create("c", 1, 1)
            store.namespace_remove("c")
            quotas, journal = store.quotas(), store.journal()
        with self.reopen() as store:
            self.assertEqual(set(quotas), {"a", "b"})
            self.assertEqual(store.quotas(), quotas)
            self.assertEqual(store.journal(), journal)
            with self.assertRaises(pibroulez.NotEmpty):
                store.namespace_remove("b")
            store.discard("b", "k")
            store.namespace_remove("b")
        with self.reopen() as store:
            self.assertEqual(set(store.quotas()), {"a"})

    def test_is_a_script(self) -> None:
        """Its lines are commands of a script: of the calls, without lookups and what made no entry."""
        with open_store(log=self.log) as store:
            self.fill(store)
            store.report()
            with self.assertRaises(Fault):
                store.request({"do": "zap"})
        lines = [json.loads(line) for line in log_lines(self.log)]
        self.assertEqual(
            [line["do"] for line in lines],
            "open prepare create stat remove commit view prepare commit update prepare".split(),
        )
        with self.log.open("rb") as script:
            ran = subprocess.run([PROGRAM, "run"], stdin=script, stdout=subprocess.PIPE, check=True)
        # The last line is a mark, which is a question.
        self.assertEqual(len(ran.stdout.splitlines()), len(marked_lines(self.log)))
        self.assertEqual(json.loads(ran.stdout.splitlines()[-2]), {"chain": [1], "id": 4, "slot": 1})

    def test_synced(self) -> None:
        """What makes an entry is on the disk when it is answered, by two syncs. What makes none is not kept."""
        count = self.log.with_name("count")
        with open_store(log=self.log, program=watched_program(self.log.parent)) as store:
            calls = [
                (lambda: store.prepare("a", "k", ""), 2),
                (lambda: store.stat("a", "k", entry=True), 2),
                (lambda: store.stat("a", "k"), 0),
                (lambda: store.look("a", "k", "/"), 0),
                (lambda: store.try_sweep("a", 0), 0),
                (lambda: self.assertRaises(pibroulez.NotFound, store.remove, "a", "none"), 2),
                (lambda: self.assertRaises(Fault, store.request, {"do": "zap"}), 0),
            ]
            for number, (call, syncs) in enumerate(calls):
                before, lines = count.stat().st_size, len(log_lines(self.log))
                call()
                with self.subTest(number):
                    self.assertEqual(count.stat().st_size - before, syncs)
                    self.assertEqual(len(log_lines(self.log)) - lines, syncs // 2)

    def test_what_a_crash_leaves(self) -> None:
        """Behind the lines stands a blank in the place of a brace. However much of the last line a crash leaves behind
        it, the store is the one before its call, and the log goes on."""
        with open_store(log=self.log) as store:
            self.fill(store)
        lines, marked = log_lines(self.log), marked_lines(self.log)
        before, last = b"".join(marked[:-2]), b"".join(marked[-2:])
        for rest in (0, 1, len(last) // 2, len(last) - 2, len(last) - 1):
            self.log.write_bytes(before + b" " + last[1 : 1 + rest])
            with self.subTest(rest), store_of(self.log) as store:
                self.assertEqual([it.key for it in store.tree("a")], ["base", "sealed", "view"])
                self.assertEqual(store.prepare("a", "last", "base").id, 4)
            self.assertEqual(
                [{**json.loads(it), "id": 0} for it in log_lines(self.log)],
                [{**json.loads(it), "id": 0} for it in lines],
            )

    def test_cut_log(self) -> None:
        """A log that was cut is told, wherever it was, and stays as it was."""
        with open_store(log=self.log) as store:
            self.fill(store)
        whole = b"".join(marked_lines(self.log))
        last = b"".join(marked_lines(self.log)[-2:])
        for rest in (0, 1, len(last) // 2, len(last) - 1, len(last)):
            self.log.write_bytes(whole[: len(whole) - rest])
            with self.subTest(rest):
                with self.assertRaises(pibroulez.BadLog) as caught:
                    self.reopen()
                self.assertEqual(caught.exception.line, 0)
                self.assertIn("damaged at byte", caught.exception.fault)
                self.assertEqual(self.log.read_bytes(), whole[: len(whole) - rest])

    def test_flipped_bits(self) -> None:
        """A log with a flipped bit is told, and stays as it was. Within a mark that isn't the last one it may be read over,
        and then the store is the same."""
        with open_store(log=self.log) as store:
            self.fill(store)
            tree = store.tree("a")
        whole = self.log.read_bytes()
        marks = [it.span() for it in re.finditer(rb'\{"do":"report","lines"[^\n]*\n', whole)]
        first = whole.index(b"\n") + 1
        told = {0, whole.index(b"open"), *(n + 1 for n, byte in enumerate(whole) if byte == 10)}
        for at in sorted({*told, *range(0, first, 5), *range(first, len(whole), 11)}):
            text = bytearray(whole)
            text[at] ^= 1 << at % 8
            self.log.write_bytes(text)
            with self.subTest(at):
                try:
                    with store_of(self.log) as store:
                        self.assertEqual(store.tree("a"), tree)
                    self.assertNotIn(at, told)
                    self.assertTrue(any(begin <= at < end for begin, end in marks[:-1]))
                except pibroulez.BadLog:
                    pass
                self.assertEqual(self.log.read_bytes(), text)

    def test_bad_logs(self) -> None:
        """A file without a line is no store's, and one whose first line opens none is a bad log."""
        with self.assertRaises(FileNotFoundError):
            self.reopen()
        self.assertFalse(self.log.exists())
        for text in ("", "\0"):
            self.log.write_text(text)
            with self.subTest(text), self.assertRaises(FileNotFoundError):
                self.reopen()
        opening = '{"do":"open","root":"/r","namespaces":[]}\n'
        for line, text in (
            (1, '{"do":"report"}\n' + MARK + " "),
            (1, '{"do":"open","root":"r","namespaces":[]}\n{"do":"report"}\n' + MARK + " "),
            (1, opening.replace("open", "opeN") + MARK + " "),
            (0, opening + " "),
            (0, opening + MARK + " "),
            (0, '{"do":"open"'),
            (0, opening + "\x00\x00\n" + '{"do":"report"}\n'),
        ):
            self.log.write_text(text)
            for begin in (self.reopen, lambda: open_store(log=self.log), self.open_or_new):
                with self.subTest(text), self.assertRaises(pibroulez.BadLog) as caught:
                    begin()
                self.assertEqual((caught.exception.line, caught.exception.path), (line, os.fspath(self.log)))
                self.assertEqual(self.log.read_text(), text)

    def open_or_new(self) -> Store:
        return Store.open_or_new("/r", {}, program=PROGRAM, log=self.log)

    def test_one_store_at_a_time(self) -> None:
        with open_store(log=self.log):
            with self.assertRaises(BlockingIOError):
                self.reopen()
        with self.assertRaises(FileExistsError):
            open_store(log=self.log)

    def test_store_that_is_not_opened_leaves_no_line(self) -> None:
        with self.assertRaises(FileNotFoundError):
            Store("/r", {}, program="/none", log=self.log)
        for _ in range(2):
            with self.assertRaises(pibroulez.BadArgument):
                Store("r", {}, program=PROGRAM, log=self.log)
            self.assertEqual(log_lines(self.log), [])
            with self.assertRaises(FileNotFoundError):
                self.reopen()
        open_store(log=self.log).close()

    def test_file_of_a_log(self) -> None:
        """It is its owner's alone, and a file that can't be opened is an error of the system."""
        open_store(log=self.log).close()
        self.assertEqual(self.log.stat().st_mode & 0o777, 0o600)
        for begin in (Store.from_log, lambda log, program: Store("/r", {}, log=log, program=program)):
            with self.assertRaises(FileNotFoundError):
                begin(self.log.parent / "none" / "log", program=PROGRAM)
            with self.assertRaises(IsADirectoryError):
                begin(self.log.parent, program=PROGRAM)
            with self.assertRaises(UnicodeEncodeError):
                begin(os.fsdecode(os.fsencode(self.log) + b"\xff"), program=PROGRAM)

    def test_died_store_gives_its_log_back(self) -> None:
        with open_store(log=self.log) as store:
            store.prepare("a", "k", "")
            os.kill(store.pid, signal.SIGKILL)
            with self.assertRaises(Died):
                store.report()
            with self.reopen() as again:
                self.assertEqual(again.report().open, 1)

    def test_file_that_is_no_log(self) -> None:
        """It stays as it was, to the byte, whether a store is to be begun or to be opened again."""
        opening = '{"do":"open","root":"/r","namespaces":[]}\n'
        for text in ("note", "a\nb", opening[:-9] + "\n", opening.replace("do", "to"), opening + "no line\n\x00"):
            self.log.write_text(text)
            for begin in (lambda: open_store(log=self.log), self.reopen):
                with self.subTest(text), self.assertRaises(pibroulez.BadLog):
                    begin()
                self.assertEqual(self.log.read_text(), text)
        with self.assertRaises(pibroulez.BadLog):
            open_store(log="/dev/null")

    def test_open_or_new(self) -> None:
        def begin(root: str = "/r", limit: int = 9, journal: int | None = 50, names: str = "ab", most: int = 3) -> Store:
            limits = {name: (limit, limit) for name in names}
            return Store.open_or_new(root, limits, journal, ancestors=most, program=PROGRAM, log=self.log)

        for empty in (None, "", "\0"):
            if empty is not None:
                self.log.write_text(empty)
            with self.subTest(empty), begin() as store:
                self.assertEqual(store.prepare("a", "k", "").id, 1)
                store.limit("a", 5, 5)
        with begin(names="ba") as store:
            self.assertEqual(store.quota("a").limit, Usage(5, 5))
        text = self.log.read_bytes()
        for other in ({"root": "/s"}, {"limit": 5}, {"journal": None}, {"names": "a"}, {"most": 4}):
            with self.subTest(other), self.assertRaises(pibroulez.BadLog):
                begin(**other)  # type: ignore[arg-type]
            self.assertEqual(self.log.read_bytes(), text)

    def test_rounds_of_a_log(self) -> None:
        """A store that was opened again rolls to as many entries as it was opened with."""
        open_store(journal=7, log=self.log).close()
        with Store.from_log(self.log, program=PROGRAM, roll_when_full=True) as store:
            for n in range(7):
                store.limit("a", 100 + n, 100)
        rolls = [json.loads(line) for line in log_lines(self.log) if b'"roll"' in line]
        self.assertEqual([it["journal"] for it in rolls], [7])


class Kills(unittest.TestCase):
    """Processes are killed at random moments. What was answered is there in the store that its log tells."""

    def setUp(self) -> None:
        folder = tempfile.TemporaryDirectory()
        self.addCleanup(folder.cleanup)
        self.log = Path(folder.name) / "log"
        open_store(1 << 40, 1 << 40, log=self.log).close()
        self.random = random.Random(KILLS)

    @contextlib.contextmanager
    def store(self) -> Iterator[Store]:
        """The store, of which all active snapshots are discarded in the end."""
        with store_of(self.log) as store:
            yield store
            for node in store.tree("a"):
                if node.kind is Kind.ACTIVE:
                    store.discard("a", node.key)

    def check(self, kill: int, answered: dict[str, Kind], *, more: int) -> None:
        """The snapshots of this kill are those that were answered, and at most this many more. What was prepared may
        have been committed since."""
        with self.store() as store:
            found = {it.key: it for it in store.tree("a") if it.key.startswith(f"{kill}-")}
            for key, kind in answered.items():
                if kind is Kind.ACTIVE and key not in found:
                    key, kind = key[: -len("-key")], Kind.COMMITTED
                self.assertIs(found[key].kind, kind)
                if kind is Kind.COMMITTED:
                    self.assertEqual(found[key].usage, Usage(1, 2))
            self.assertLessEqual(len(found), len(answered) + more)

    def test_killed_process(self) -> None:
        """Two threads make snapshots as the program is killed. Their last calls, which weren't answered, may have been
        made."""
        for kill in range(KILLS):
            answered: dict[str, Kind] = {}
            ends: list[Type[BaseException]] = []
            with Store.from_log(self.log, program=PROGRAM) as store:

                def work(thread: int) -> None:
                    try:
                        for n in itertools.count():
                            key, name = f"{kill}-{thread}-{n}-key", f"{kill}-{thread}-{n}"
                            store.prepare("a", key, "")
                            answered[key] = Kind.ACTIVE
                            store.create("a", key, "/file")
                            store.commit("a", key, name)
                            del answered[key]
                            answered[name] = Kind.COMMITTED
                    except BaseException as error:
                        ends.append(type(error))

                threads = [threading.Thread(target=work, args=(n,)) for n in range(2)]
                for thread in threads:
                    thread.start()
                time.sleep(self.random.uniform(0, 0.1))
                os.kill(store.pid, signal.SIGKILL)
                for thread in threads:
                    thread.join()
            with self.subTest(kill=kill):
                self.assertEqual(ends, [Died, Died])
                self.check(kill, answered, more=2)

    def test_killed_client(self) -> None:
        """A client is killed, and its program ends. The one call that wasn't answered may have been made."""
        for kill in range(max(KILLS // 4, 1)):
            client = subprocess.Popen(
                [sys.executable, "-c", COMMITTER, self.log, PROGRAM, str(kill)],
                stdout=subprocess.PIPE,
                text=True,
                cwd=Path(__file__).parent,
            )
            assert client.stdout
            answered = [client.stdout.readline().strip()]
            time.sleep(self.random.uniform(0, 0.1))
            client.kill()
            answered += [line.strip() for line in client.stdout if line.endswith("\n")]
            client.stdout.close()
            client.wait()
            with self.subTest(kill=kill):
                self.check(kill, dict.fromkeys(answered, Kind.COMMITTED), more=1)


if __name__ == "__main__":
    unittest.main()
