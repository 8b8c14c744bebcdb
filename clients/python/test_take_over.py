"""Tests of logs of version 0.1.0 that are taken over."""
from __future__ import annotations

import fcntl
import json
import os
import random
import subprocess
import sys
import tempfile
import time
import unittest
from pathlib import Path
from typing import List

import pibroulez
from pibroulez import BadLog, Died, LogFailed, NotKept, Store, Usage
from pibroulez.take_over import take_over
from stores import PROGRAM, limited_program, log_lines, store_of, watched_program

# A log as version 0.1.0 wrote them: its questions make entries, so the prepare of `l` is the fifth one.
OLD: List[object] = [
    {"do": "open", "root": "/r", "namespaces": [["a", 100, 100], ["b", 5, 5]], "journal": 50},
    {"do": "prepare", "ns": "a", "key": "k", "parent": "", "labels": {"x": "\u00e9"}},
    {"do": "create", "ns": "a", "key": "k", "path": "/f"},
    {"do": "stat", "ns": "a", "key": "k"},
    {"do": "usage", "ns": "a", "key": "k"},
    {"do": "walk", "ns": "b"},
    {"do": "look", "ns": "a", "key": "k", "path": "/f"},
    {"do": "remove", "ns": "a", "key": "none"},
    {"do": "stat", "ns": "a", "key": "k", "quiet": True},
    {"do": "report"},
    {"do": "commit", "ns": "a", "key": "k", "name": "base"},
    {"do": "prepare", "ns": "a", "key": "sealed", "parent": "base"},
    {"do": "commit", "ns": "a", "key": "sealed", "name": "base"},
    {"do": "prepare", "ns": "a", "key": "last", "parent": "base"},
]
# Those that the new log has: the lookup, the quiet question and the report change nothing.
KEPT = [it for n, it in enumerate(OLD) if n not in (6, 8, 9)]


def text_of(commands: List[object]) -> bytes:
    return b"".join(json.dumps(it, ensure_ascii=False, separators=(",", ":")).encode() + b"\n" for it in commands)


class TakeOver(unittest.TestCase):
    def setUp(self) -> None:
        folder = tempfile.TemporaryDirectory()
        self.addCleanup(folder.cleanup)
        self.folder = Path(folder.name)
        self.old, self.new = self.folder / "old", self.folder / "new"
        self.old.write_bytes(text_of(OLD))

    def refused(self, error: type, *, program: str | Path = PROGRAM) -> BaseException:
        """It isn't taken over, and all that is there is as it was."""
        before = {it: it.read_bytes() for it in self.folder.iterdir() if it.is_file() and it.name != "count"}
        with self.assertRaises(error) as caught:
            take_over(self.old, self.new, program=program)
        found = {it for it in self.folder.iterdir() if it.name != "count"}
        self.assertEqual({it: it.read_bytes() for it in found if it.is_file()}, before)
        self.assertEqual([it for it in found if it.is_dir()], [])
        return caught.exception

    def test_taken_over(self) -> None:
        """The store is the one that the old log tells, with its numbers, and goes on. The old log stays."""
        taken = take_over(self.old, self.new, program=PROGRAM)
        self.assertEqual((taken.lines, taken.kept), (len(OLD), len(KEPT)))
        self.assertEqual([json.loads(it) for it in log_lines(self.new)], KEPT)
        self.assertEqual(self.old.read_bytes(), text_of(OLD))
        self.assertEqual(self.new.stat().st_mode & 0o777, 0o600)
        self.assertEqual({it.name for it in self.folder.iterdir()}, {"old", "new"})
        limits = {"b": (5, 5), "a": (100, 100)}
        with Store.open_or_new("/r", limits, 50, log=self.new, program=PROGRAM) as store:
            report = store.report()
            # Session 0, the prepare, the create's charge, three questions, the remove, and the last four calls.
            self.assertEqual((report.entries, report.records, report.open), (11, 3, 2))
            self.assertEqual(json.loads(taken.report)["entries"], 11)
            self.assertEqual(store.stat("a", "base").labels, {"x": "\u00e9"})
            self.assertEqual(store.quota("a").committed, Usage(1, 2))
            with self.assertRaises(pibroulez.NoHand):
                store.create("a", "sealed", "/g")
            self.assertEqual(store.prepare("a", "next", "base").id, 4)

    def test_torn_last_line(self) -> None:
        """Wherever the last line was cut off, its call isn't taken over."""
        whole = text_of(OLD)
        last = len(text_of(OLD[-1:]))
        for rest in (1, 2, last // 2, last - 1, last):
            with self.subTest(rest):
                self.old.write_bytes(whole[: len(whole) - rest])
                self.assertEqual(take_over(self.old, self.new, program=PROGRAM).lines, len(OLD) - 1)
                self.assertEqual([json.loads(it) for it in log_lines(self.new)], KEPT[:-1])
                self.assertEqual(self.old.read_bytes(), whole[: len(whole) - rest])
                self.new.unlink()
        self.old.write_bytes(whole + b"\0" * 4096)
        self.assertEqual(take_over(self.old, self.new, program=PROGRAM).lines, len(OLD))

    def test_damaged_lines(self) -> None:
        lines = text_of(OLD).splitlines(keepends=True)
        for line, text in (
            (1, b"\n"),
            (1, lines[0].replace(b"open", b"opeN")),
            (1, lines[0].replace(b'"/r"', b'"r"')),
            (2, b"\0\0\0\n"),
            (5, b'{"do":"usage","ns":"a","kez":"k"}\n'),
            (14, lines[-1].replace(b"prepare", b"prepar")),
        ):
            with self.subTest(text):
                self.old.write_bytes(b"".join(lines[: line - 1]) + text + b"".join(lines[line:]))
                error = self.refused(BadLog)
                assert isinstance(error, BadLog)
                self.assertEqual((error.line, error.path), (line, os.fspath(self.old)))

    def test_new_log_that_is_there(self) -> None:
        self.new.write_bytes(b"")
        self.refused(FileExistsError)
        self.new.unlink()
        self.new.with_name("new-wal").write_bytes(b"")
        self.refused(FileExistsError)
        self.new.with_name("new-wal").unlink()
        self.new.symlink_to("nowhere")
        with self.assertRaises(FileExistsError):
            take_over(self.old, self.new, program=PROGRAM)

    def test_old_log_that_is_none(self) -> None:
        self.old.write_bytes(text_of(OLD)[:20])
        self.refused(FileNotFoundError)
        self.old.unlink()
        self.refused(FileNotFoundError)
        Store("/r", {}, log=self.old, program=PROGRAM).close()
        self.assertEqual(getattr(self.refused(BadLog), "line"), 0)

    def test_old_log_that_is_in_use(self) -> None:
        """A client of version 0.1.0 has it by flock."""
        with self.old.open("rb") as file:
            fcntl.flock(file, fcntl.LOCK_EX)
            self.refused(BlockingIOError)
        take_over(self.old, self.new, program=PROGRAM)

    def program_that(self, name: str, script: str) -> Path:
        program = self.folder.parent / f"{self.folder.name}-{name}"
        program.write_text(f'#!/bin/sh\nprogram="{os.path.abspath(PROGRAM)}"\n{script}\n')
        program.chmod(0o700)
        self.addCleanup(program.unlink, missing_ok=True)
        return program

    def test_another_answer(self) -> None:
        """Programs whose answers differ, or end: of a call, of the report over the new log, and at its second start."""
        without = 'case "$*" in serve) exec "$program" "$@";; esac; '
        for script, error, line in (
            (without + '"$program" "$@" | sed "2s/1/2/"', BadLog, 2),
            (without + '"$program" "$@" | sed "s/.entries.:11/&0/"', BadLog, len(OLD) + 1),
            (without + '"$program" "$@" | head -n 5', BadLog, 6),
            (without + "head -n 5 | \"$program\" \"$@\"; exit 4", Died, 4),
            ('read line; { echo "$line"; cat; } | "$program" "$@" | case $line in *report*) sed s/1/2/;; *) cat;; esac', BadLog, 0),
        ):
            with self.subTest(script):
                caught = self.refused(error, program=self.program_that("other", script))
                self.assertEqual(getattr(caught, "line", getattr(caught, "status", None)), line)
        self.refused(Died, program="/bin/false")
        self.refused(OSError, program="/none")

    def test_disk_that_fails(self) -> None:
        """On a full disk, and where a sync fails, there is no new log."""
        for blocks, error in ((0, Died), (1, NotKept)):
            self.refused(error, program=limited_program(self.folder, f"ulimit -S -f {blocks}"))
        program = watched_program(self.folder)
        for syncs, error in ((0, Died), (1, Died), (4, LogFailed), (5, LogFailed)):
            self.folder.joinpath("fail").write_bytes(b"." * syncs)
            self.folder.joinpath("count").write_bytes(b"")
            with self.subTest(syncs):
                self.refused(error, program=program)

    def test_command(self) -> None:
        def ran() -> subprocess.CompletedProcess[str]:
            words = [sys.executable, "-m", "pibroulez.take_over", "--program", PROGRAM, self.old, self.new]
            return subprocess.run(words, cwd=Path(__file__).parent, capture_output=True, text=True)

        first, second = ran(), ran()
        report = '{"entries":11,"open":2,"records":3,"totals":{"a":[3,4],"b":[0,0]}}'
        self.assertEqual((first.returncode, first.stderr), (0, ""))
        self.assertEqual(first.stdout, f"{self.new}: 11 of 14 lines, {report}\n")
        self.assertEqual((second.returncode, second.stdout), (1, ""))
        self.assertRegex(second.stderr, "^FileExistsError: .*\n$")

    def test_killed(self) -> None:
        """A command that is killed at any moment leaves the new log whole or not at all, and can be given again."""
        chosen = random.Random(1)
        commands = [OLD[0]] + [{"do": "limit", "ns": "a", "blocks": 100 + n, "inodes": 9} for n in range(20_000)]
        commands[1:1] = [{"do": "roll"}]
        text = text_of(commands)
        self.old.write_bytes(text)
        words = [sys.executable, "-m", "pibroulez.take_over", "--program", PROGRAM, self.old, self.new]
        whole = 0
        for _ in range(10):
            process = subprocess.Popen(words, cwd=Path(__file__).parent, stdout=subprocess.DEVNULL)
            time.sleep(chosen.uniform(0, 1))
            process.kill()
            process.wait()
            self.assertEqual(self.old.read_bytes(), text)
            if self.new.exists():
                whole += 1
                with store_of(self.new) as store:
                    self.assertEqual(store.quota("a").limit, Usage(100 + 19_999, 9))
                for it in self.folder.glob("new*"):
                    it.unlink()
        taken = take_over(self.old, self.new, program=PROGRAM)
        self.assertEqual(taken.kept, len(commands))


if __name__ == "__main__":
    unittest.main()
