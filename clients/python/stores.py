"""What the tests share. PIBROULEZ_PROGRAM names the program, which is the built one where it isn't set."""
from __future__ import annotations

import itertools
import os
import resource
import shutil
import subprocess
import time
import unittest
from pathlib import Path
from typing import Callable, List

import pibroulez
from pibroulez import Store

PROGRAM = os.environ.get("PIBROULEZ_PROGRAM") or pibroulez.PROGRAM


def open_store(blocks: int = 100, inodes: int = 100, **given: object) -> Store:
    """A store with a namespace `a` of this limit."""
    return Store("/r", {"a": (blocks, inodes)}, **{"program": PROGRAM, **given})  # type: ignore[arg-type]


def wait_until(is_met: Callable[[], bool]) -> None:
    """Waits until something is so, at most a minute."""
    end = time.monotonic() + 60
    while not is_met():
        if time.monotonic() > end:
            raise TimeoutError
        time.sleep(0.001)


def marked_lines(log: Path) -> List[bytes]:
    """The lines that count of a log that may be written meanwhile, with its marks. What stands behind them is none."""
    with log.open("rb") as file:
        return list(itertools.takewhile(lambda line: line[:1] == b"{" and line[-1:] == b"\n", file))


def log_lines(log: Path) -> List[bytes]:
    """Those without the marks."""
    return [line for line in marked_lines(log) if not line.startswith(b'{"do":"report","lines":')]


def store_of(log: Path, program: str | Path = PROGRAM) -> Store:
    """The store of a log, once its process of before has ended."""
    end = time.monotonic() + 60
    while True:
        try:
            return Store.from_log(log, program=program)
        except BlockingIOError:
            if time.monotonic() > end:
                raise
            time.sleep(0.001)


def limited_program(folder: Path, begin: str = "") -> Path:
    """The program, to which a write beyond a limit of `fill_disk` is an error. `begin` is done before it, by a shell."""
    program = folder / "limited"
    program.write_text(f'#!/bin/sh\ntrap "" XFSZ\n{begin}\nexec "{os.path.abspath(PROGRAM)}" "$@"\n')
    program.chmod(0o700)
    return program


def fill_disk(store: Store, log: Path) -> None:
    """The process of a limited program can write nothing behind what the log has."""
    resource.prlimit(store.pid, resource.RLIMIT_FSIZE, (log.stat().st_size, resource.RLIM_INFINITY))


def empty_disk(store: Store) -> None:
    resource.prlimit(store.pid, resource.RLIMIT_FSIZE, (resource.RLIM_INFINITY, resource.RLIM_INFINITY))


def watched_program(folder: Path) -> Path:
    """The program with `.ci/syncs.c` below it, and the folder as the one that this is told of."""
    source, shim = Path(__file__).resolve().parents[2] / ".ci/syncs.c", folder / "syncs.so"
    if not shutil.which("cc"):
        raise unittest.SkipTest("cc isn't there")
    subprocess.run(["cc", "-shared", "-fPIC", "-O1", "-nostdlib", source, "-o", shim], check=True)
    return limited_program(folder, f'export SYNCS="{folder}" LD_PRELOAD="{shim}"')
