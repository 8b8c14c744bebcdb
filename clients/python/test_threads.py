"""Tests of a store that several threads call, and of all that ends a call, a store or its client."""
from __future__ import annotations

import contextlib
import os
import resource
import signal
import subprocess
import sys
import tempfile
import threading
import time
import types
import unittest
from pathlib import Path
from typing import Callable, Iterator, List, Tuple, Union

import pibroulez
from pibroulez import Committed, Died, Fault, Forked, LogFailed, NotKept, Store, Usage
from stores import (
    PROGRAM,
    empty_disk,
    fill_disk,
    limited_program,
    log_lines, marked_lines,
    open_store,
    store_of,
    wait_until,
    watched_program,
)

Ended = List[Union[object, Exception]]
# A program that answers the open, and then each line with an id that no call had.
WRONG = """#!/bin/sh
read open && echo '{"ok":true}' && read call && echo '{"answer":{"ok":true},"id":7}' && read call
"""
# Two threads call as the interpreter ends: one that it waits for, and one that it doesn't.
ENDING = """
import sys, threading
from pibroulez import Store
store = Store("/r", {"a": (100, 100)}, program=sys.argv[1], log=sys.argv[2])
def daemon():
    while True:
        store.prepare("a", "daemon", "")
        store.discard("a", "daemon")
def waited_for():
    for n in range(20):
        store.prepare("a", "key", "")
        store.commit("a", "key", f"name-{n}")
        print(f"name-{n}", flush=True)
threading.Thread(target=daemon, daemon=True).start()
threading.Thread(target=waited_for).start()
"""


@contextlib.contextmanager
def stopped(store: Store) -> Iterator[None]:
    """The process doesn't go on within, and afterwards it does, where it hasn't ended."""
    os.kill(store.pid, signal.SIGSTOP)
    try:
        yield
    finally:
        with contextlib.suppress(ProcessLookupError):
            os.kill(store.pid, signal.SIGCONT)


def started(*calls: Callable[[], object]) -> Tuple[List[threading.Thread], Ended]:
    """A thread for each call, and a list that gets what they answer or raise."""
    ended: Ended = []

    def run(call: Callable[[], object]) -> None:
        try:
            ended.append(call())
        except Exception as error:
            ended.append(error)

    threads = [threading.Thread(target=run, args=(call,)) for call in calls]
    for thread in threads:
        thread.start()
    return threads, ended


def wait_for_sent(store: Store, count: int) -> None:
    """Waits until this many calls are sent, none of which is answered."""
    wait_until(lambda: len(store._connection._sent) == count)


def join(threads: List[threading.Thread]) -> None:
    for thread in threads:
        thread.join(60)
        if thread.is_alive():
            raise TimeoutError


class InFolder(unittest.TestCase):
    def setUp(self) -> None:
        folder = tempfile.TemporaryDirectory()
        self.addCleanup(folder.cleanup)
        self.log = Path(folder.name) / "log"

    def lines(self) -> List[bytes]:
        return log_lines(self.log)


class Threads(InFolder):
    def test_each_thread_gets_its_own_answers(self) -> None:
        """Eight threads make 20 snapshots each, of a file of n blocks: 1 + n blocks, 2 inodes."""
        threads, snapshots = 8, 20
        errors: list[BaseException] = []

        def work(n: int) -> None:
            try:
                session = store.session()
                for i in range(snapshots):
                    key, name = f"key-{n}-{i}", f"name-{n}-{i}"
                    made = store.prepare("a", key, "", session=session)
                    store.create("a", key, "/file", session=session)
                    store.write("a", key, "/file", fill=(0, 4096 * n), session=session)
                    self.assertEqual(store.read("a", key, "/file").size, 4096 * n)
                    committed = store.commit("a", key, name, session=session)
                    self.assertEqual(committed, Committed(made.id, Usage(1 + n, 2)))
                    self.assertEqual(store.stat("a", name).name, name)
            except BaseException as error:
                errors.append(error)

        with open_store(10_000, 10_000) as store:
            workers = [threading.Thread(target=work, args=(n,)) for n in range(threads)]
            for worker in workers:
                worker.start()
            for worker in workers:
                worker.join()
            self.assertEqual(errors, [])
            blocks = snapshots * sum(1 + n for n in range(threads))
            self.assertEqual(store.report().totals, {"a": Usage(blocks, 2 * snapshots * threads)})
            self.assertEqual(
                sorted(node.id for node in store.tree("a")), list(range(1, snapshots * threads + 1))
            )

    def test_synced_together(self) -> None:
        """Calls that are in flight together share their two syncs, and each is in the log when it is answered."""

        def calls(n: int) -> None:
            for i in range(10):
                store.prepare("a", f"{n}-{i}", "")
                self.assertIn(b'"key":"%d-%d"' % (n, i), b"".join(self.lines()))
                store.discard("a", f"{n}-{i}")

        program = watched_program(self.log.parent)
        count = self.log.with_name("count")
        with open_store(log=self.log, program=program) as store:
            self.log.with_name("slow").touch()
            before = count.stat().st_size
            threads, ended = started(*(lambda n=n: calls(n) for n in range(8)))
            join(threads)
            self.assertEqual(ended, [None] * 8)
            self.assertEqual(len(self.lines()), 1 + 2 * 10 * 8)
            self.assertLessEqual(count.stat().st_size - before, 2 * 10 * 8)

    def test_full_journal_is_rolled_once(self) -> None:
        """Calls that find one journal full begin one round, and each is made. Without the option they are refused."""
        with open_store(journal=12, log=self.log, roll_when_full=True) as store:
            # The session, the prepare and nine charges take eleven entries, and the discard keeps the last.
            store.prepare("a", "k", "")
            for blocks in range(2, 11):
                store.charge("a", "k", (blocks, 1))
            with stopped(store):
                threads, ended = started(*(lambda n=n: store.prepare("a", f"{n}", "").slot for n in range(4)))
                wait_for_sent(store, 4)
            join(threads)
            self.assertEqual(sorted(ended), [1, 2, 3, 4])
            self.assertEqual([b'"journal":12' in it for it in self.lines() if b'"roll"' in it], [True])
            self.assertEqual(store.report().entries, 5)

    def test_roll_that_does_not_help(self) -> None:
        """A prepare wants two entries, and a round of one has none: the call is made twice, and refused."""
        with open_store(journal=1, log=self.log, roll_when_full=True) as store:
            with self.assertRaises(pibroulez.JournalFull):
                store.prepare("a", "k", "")
            self.assertEqual([b'"prepare"' in it for it in self.lines()], [False, True, False, True])


class Ends(InFolder):
    def test_closed(self) -> None:
        store = open_store()
        store.close()
        store.close()
        for _ in range(2):
            with self.assertRaises(Died) as caught:
                store.report()
            self.assertEqual(caught.exception.status, 0)

    def test_killed(self) -> None:
        with open_store() as store:
            os.kill(store.pid, signal.SIGKILL)
            for _ in range(2):
                with self.assertRaises(Died) as caught:
                    store.report()
                self.assertEqual(caught.exception.status, -signal.SIGKILL)

    def test_refused_memory(self) -> None:
        """A process within 200 MB ends when it is to keep 400 files of a MiB each, with its status and its words."""
        with tempfile.TemporaryDirectory() as folder:
            limited = Path(folder) / "limited"
            limited.write_text(f'#!/bin/sh\nulimit -v 200000\nexec "{PROGRAM}" "$@"\n')
            limited.chmod(0o700)
            with Store("/r", {"a": (1 << 40, 1 << 40)}, program=limited) as store:
                store.prepare("a", "k", "")
                with self.assertRaises(Died) as caught:
                    for n in range(400):
                        store.create("a", "k", f"/{n}")
                        store.write("a", "k", f"/{n}", fill=(0, 1 << 20))
                self.assertEqual((caught.exception.status, caught.exception.words), (4, "want of memory"))

    def test_no_program(self) -> None:
        with self.assertRaises(FileNotFoundError):
            Store("/r", {}, program="/none")

    def test_another_program(self) -> None:
        for program in ("false", "cat", "echo"):
            with self.subTest(program), self.assertRaises(Died):
                Store("/r", {}, program=f"/bin/{program}")

    def test_answer_to_another_call(self) -> None:
        """A program that answers with an id that no call had is ended."""
        program = self.log.with_name("program")
        program.write_text(WRONG)
        program.chmod(0o700)
        with Store("/r", {"a": (100, 100)}, program=program) as store:
            for _ in range(2):
                with self.assertRaisesRegex(Died, "another call"):
                    store.report()

    def test_long_line(self) -> None:
        """A line of more than 16,777,216 bytes is a fault, and the next call has its own answer."""
        with open_store() as store:
            with self.assertRaises(Fault) as caught:
                store.prepare("a", "k" * (1 << 24), "")
            self.assertEqual((caught.exception.fault, caught.exception.line), ("too long", 2))
            self.assertEqual(store.report().records, 0)

    def test_interrupted(self) -> None:
        """A call whose caller is interrupted is made and kept, and the next call has its own answer. A call within the
        interrupt has its own, too."""
        within: List[object] = []

        def interrupt(number: int, frame: types.FrameType | None) -> None:
            if not store._connection._sent:
                signal.setitimer(signal.ITIMER_REAL, 0.05)
                return
            os.kill(store.pid, signal.SIGCONT)
            within.append(store.stat("a", "k").id)
            raise KeyboardInterrupt

        with open_store(log=self.log) as store:
            before = signal.signal(signal.SIGALRM, interrupt)
            self.addCleanup(signal.signal, signal.SIGALRM, before)
            os.kill(store.pid, signal.SIGSTOP)
            signal.setitimer(signal.ITIMER_REAL, 0.05)
            with self.assertRaises(KeyboardInterrupt):
                store.prepare("a", "k", "")
            self.assertEqual(within, [1])
            self.assertEqual(store.report().open, 1)
            self.assertIn(b"prepare", self.lines()[-1])

    def test_killed_as_calls_wait(self) -> None:
        with open_store() as store:
            with stopped(store):
                threads, ended = started(*[store.report] * 8)
                wait_for_sent(store, 8)
                os.kill(store.pid, signal.SIGKILL)
                join(threads)
                self.assertEqual([getattr(it, "status", it) for it in ended], [-signal.SIGKILL] * 8)

    def test_closed_as_calls_wait(self) -> None:
        """All calls that were sent are answered."""
        with open_store(log=self.log) as store:
            with stopped(store):
                threads, ended = started(*(lambda n=n: store.prepare("a", f"{n}", "").slot for n in range(8)))
                wait_for_sent(store, 8)
                closer, _ = started(store.close)
            join(threads + closer)
            self.assertEqual(sorted(ended), list(range(8)))
        self.assertEqual(len(self.lines()), 9)

    def test_stopped_process(self) -> None:
        """A close waits this many seconds, and kills it then. The calls that wait are told so."""
        store = open_store()
        with stopped(store):
            threads, ended = started(store.report)
            wait_for_sent(store, 1)
            began = time.monotonic()
            store.close(seconds=0.1)
            self.assertLess(time.monotonic() - began, 10)
            join(threads)
        self.assertEqual([getattr(it, "status", it) for it in ended], [-signal.SIGKILL])

    def test_store_that_nobody_has(self) -> None:
        """Its process ends."""
        store = open_store()
        process = store._connection._peer._process  # type: ignore[attr-defined]
        del store
        wait_until(lambda: process.returncode == 0)

    def test_end_of_the_interpreter(self) -> None:
        """It waits for the thread that it has to wait for, whose answers the log has, and ends."""
        words = [sys.executable, "-c", ENDING, os.fspath(PROGRAM), os.fspath(self.log)]
        folder = Path(__file__).parent
        ran = subprocess.run(words, cwd=folder, capture_output=True, text=True, timeout=60)
        self.assertEqual((ran.returncode, ran.stderr), (0, ""))
        self.assertEqual(ran.stdout.split(), [f"name-{n}" for n in range(20)])
        with store_of(self.log) as store:
            self.assertEqual(len(store.walk("a", kind=pibroulez.Kind.COMMITTED)), 20)


class Forks(InFolder):
    def in_child(self, store: Store) -> Tuple[int, int]:
        """Forks, and makes calls in the child. Its id, and a pipe by which it ends. In the child it doesn't return."""
        read, write = os.pipe()
        child = os.fork()
        if child:
            os.close(read)
            return child, write
        os.close(write)
        refused = 0
        calls: List[Callable[[], object]] = [store.report, store.roll, store.close]
        for call in calls:
            try:
                call()
            except Forked as error:
                refused += error.owner == os.getppid()
        os.read(read, 1)
        os._exit(refused)

    def test_fork(self) -> None:
        """A child can't call or close the store, also not where another thread rolls it as it forks. The parent can,
        and the log is free while the child goes on."""
        with open_store(log=self.log) as store:
            with stopped(store):
                roll, _ = started(store.roll)
                wait_for_sent(store, 1)
                child, pipe = self.in_child(store)
            join(roll)
            store.prepare("a", "k", "")
            began = time.monotonic()
            store.close()
            with Store.from_log(self.log, program=PROGRAM) as again:
                self.assertEqual([it.name for it in again.walk("a")], ["k"])
            self.assertLess(time.monotonic() - began, 10)
        os.close(pipe)
        self.assertEqual(os.waitstatus_to_exitcode(os.waitpid(child, 0)[1]), 3)

    def test_child_leaves_the_block(self) -> None:
        """By its own error, and not by that of a store which it can't close."""
        with open_store() as store:
            child = os.fork()
            if not child:
                try:
                    with store:
                        sys.exit(7)
                except SystemExit:
                    os._exit(7)
                finally:
                    os._exit(1)
        self.assertEqual(os.waitstatus_to_exitcode(os.waitpid(child, 0)[1]), 7)


class LogsThatFail(InFolder):
    def refused(self, store: Store) -> None:
        """Calls that change something are refused, and change nothing; others are answered."""
        before = store.report(), store.tree("a"), self.lines()
        with stopped(store):
            threads, ended = started(*(lambda n=n: store.prepare("a", f"{n}", "") for n in range(4)))
            wait_for_sent(store, 4)
        join(threads)
        self.assertEqual([(type(it), getattr(it, "source", "")) for it in ended], [(NotKept, "log")] * 4)
        for call in (lambda: store.discard("a", "k"), store.roll, lambda: store.stat("a", "k", entry=True)):
            self.assertRaises(NotKept, call)
        self.assertEqual(store.stat("a", "k").id, 1)
        self.assertEqual(store.listdir("a", "k", "/"), ())
        self.assertEqual(store.try_sweep("a", 0).removed, ())
        self.assertEqual((store.report(), store.tree("a"), self.lines()), before)

    def test_full_disk(self) -> None:
        """What changes nothing is answered; what changes something is refused until there is room again. The store goes
        on, and can be opened again on the full disk."""
        with open_store(log=self.log, program=limited_program(self.log.parent)) as store:
            store.prepare("a", "k", "")
            fill_disk(store, self.log)
            self.refused(store)
            empty_disk(store)
            self.assertEqual(store.prepare("a", "l", "").id, 2)
            fill_disk(store, self.log)
            self.refused(store)
        with store_of(self.log, limited_program(self.log.parent, "ulimit -S -f 0")) as store:
            self.refused(store)
            empty_disk(store)
            self.assertEqual(store.prepare("a", "m", "").id, 3)
        with store_of(self.log) as store:
            self.assertEqual([it.name for it in store.walk("a")], ["k", "l", "m"])

    def test_part_of_the_room(self) -> None:
        """Wherever the disk ends, a call is kept whole or not at all."""
        with open_store(log=self.log, program=limited_program(self.log.parent)) as store:
            store.prepare("a", "k", "")
            room = refused = 0
            while True:
                size = len(b"".join(marked_lines(self.log)))
                resource.prlimit(store.pid, resource.RLIMIT_FSIZE, (size + room, resource.RLIM_INFINITY))
                before = store.report(), self.lines()
                try:
                    store.update("a", "k", {"x": "1"})
                    break
                except NotKept:
                    self.assertEqual((store.report(), self.lines()), before)
                room, refused = room + 1, refused + 1
            # The call's line and its mark.
            self.assertEqual(refused, 1 + len(b"".join(marked_lines(self.log)[-2:])))
        with store_of(self.log) as store:
            self.assertEqual(store.stat("a", "k").labels, {"x": "1"})

    def test_failed_sync(self) -> None:
        """The calls that wait, and each later one, are told. The log has those that were read together, or none."""
        with open_store(log=self.log, program=watched_program(self.log.parent)) as store:
            store.prepare("a", "k", "")
            self.log.with_name("fail").touch()
            self.assertEqual(store.stat("a", "k").id, 1)
            with stopped(store):
                threads, ended = started(*(lambda n=n: store.prepare("a", f"{n}", "") for n in range(4)))
                wait_for_sent(store, 4)
            join(threads)
            self.assertEqual([type(it) for it in ended], [LogFailed] * 4)
            with self.assertRaises(LogFailed) as caught:
                store.report()
            self.assertEqual((caught.exception.path, caught.exception.status), (os.fspath(self.log), 8))
            self.assertIn("a sync of the log failed", caught.exception.words)
        with store_of(self.log) as store:
            self.assertLessEqual(len(store.walk("a")), 5)

    def test_new_log_on_a_full_disk(self) -> None:
        """It is refused, and can be begun there once there is room."""
        with self.assertRaises(pibroulez.BadLog) as caught:
            open_store(log=self.log, program=limited_program(self.log.parent, "ulimit -S -f 0"))
        self.assertIn("File too large", caught.exception.fault)
        self.log.write_bytes(b"\0")
        with self.assertRaises(NotKept):
            open_store(log=self.log, program=limited_program(self.log.parent, "ulimit -S -f 0"))
        open_store(log=self.log).close()


if __name__ == "__main__":
    unittest.main()
