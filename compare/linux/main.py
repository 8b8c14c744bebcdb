"""The command `compare/overlayfs`."""

import argparse
import json
import os
import sys
from collections import Counter
from pathlib import Path
from random import Random

from linux.bench import Bench
from linux.calls import Command
from linux.cases import CASES, CaseFailed, run_case
from linux.comparison import Counts, Found
from linux.place import CannotMount, mount_chain, mounting_place
from linux.program import line_of
from linux.sequences import Sequence

REPOSITORY = Path(__file__).resolve().parents[2]
PROGRAM = REPOSITORY / "crates/snap_replay/out/snap_replay"

STEPS = 20_000
# The most layers below a snapshot of a script that is made up, and those of the one that is a long chain.
ANCESTORS, DEEP_ANCESTORS, MOST_ANCESTORS = 64, 300, 500
INTERRUPTED = 130

ABOUT = """
Compares the program with Linux's overlayfs. Each snapshot of a script is a directory of a tmpfs, and each
active one and each view a mount of them (index=off,redirect_dir=off,metacopy=off,xino=off). Each file operation is
made by the program and by its system call. After each of them both sides have to grant it, or refuse it with the
same error, to show the same by look, list, read, resolve and du, and to count the same blocks and inodes.

Without a SCRIPT it takes, in this order, a case of each declared difference (docs/LINUX.md), the scripts of
examples/, a chain of 300 layers, and scripts that it makes from the seed, until these have made this number of steps. With
SCRIPTs it takes these alone. A difference that is not declared is shown as a script, cut down to the fewest commands.
"""

EXAMPLE = """
It needs root and a kernel with overlayfs, and mounts in a namespace of its own, which ends with it.
Status 0: both sides agree, or nothing could be mounted, which one line `skipped: WHY` says. 1: they differ.

    sudo compare/overlayfs --steps 1000 --seed 7
    sudo compare/overlayfs examples/files/rmdir.jsonl
"""


def main() -> int:
    """Runs the command, and gives its status."""
    words = _words()
    sys.stdout.reconfigure(line_buffering=True)
    try:
        with mounting_place() as place:
            bench = Bench(str(words.program), place)
            try:
                return _compare(words, bench)
            except KeyboardInterrupt:
                print(f"interrupted; {_told(bench.counts)}")
                return INTERRUPTED
    except CannotMount as why:
        print(f"skipped: {why}")
        return 0


def _words() -> argparse.Namespace:
    parser = argparse.ArgumentParser(
        prog="compare/overlayfs",
        description=ABOUT,
        epilog=EXAMPLE,
        formatter_class=argparse.RawDescriptionHelpFormatter,
    )
    parser.add_argument("--program", type=Path, default=PROGRAM, help="the program (the repository's own)")
    parser.add_argument("--steps", type=int, default=STEPS, help=f"file operations that are made up ({STEPS})")
    parser.add_argument("--seed", type=int, default=1, help="what they are made from (1)")
    parser.add_argument(
        "--layers", type=int, default=ANCESTORS, help=f"the most layers below a snapshot ({ANCESTORS})"
    )
    parser.add_argument(
        "--deep", type=int, default=DEEP_ANCESTORS, help=f"those of the long chain, or 0 for none ({DEEP_ANCESTORS})"
    )
    parser.add_argument("scripts", metavar="SCRIPT", nargs="*", type=Path, help="scripts to compare, and no others")
    words = parser.parse_args()
    words.program = words.program.resolve()
    words.scripts = [script.resolve() for script in words.scripts]
    if not os.access(words.program, os.X_OK):
        parser.error(f"no program at {words.program}")
    if not 0 <= words.layers <= MOST_ANCESTORS or not 0 <= words.deep <= MOST_ANCESTORS:
        parser.error(f"--layers and --deep are 0 to {MOST_ANCESTORS}")
    return words


def _compare(words: argparse.Namespace, bench: Bench) -> int:
    if words.scripts:
        found = _compare_scripts(bench, words.scripts)
    elif _cases_hold(bench):
        found = _compare_scripts(bench, _examples()) or _compare_chain(bench, words) or _compare_sequences(bench, words)
    else:
        return 1
    if found:
        _show(bench.shortest(found), words.program)
        return 1
    print(_told(bench.counts))
    return 0


def _cases_hold(bench: Bench) -> bool:
    """Runs the case of each declared difference."""
    failures = 0
    for name, case in CASES.items():
        try:
            run_case(bench, case)
        except CaseFailed as failure:
            failures += 1
            print(f"case {name}: {failure}")
    print(f"cases: {len(CASES) - failures} of {len(CASES)} declared differences are as declared")
    return failures == 0


def _examples() -> list[Path]:
    """The scripts of the repository that end well, without those of jobs, those for a server, which have faulty lines, and those
    of saved stores, whose layers no operation makes."""
    scripts = sorted((REPOSITORY / "examples").glob("*/*.jsonl"))
    of_run = [path for path in scripts if path.parent.name not in ("serve", "saved")]
    return [path for path in of_run if not any(path.with_suffix(end).exists() for end in (".status", ".workers"))]


def _compare_scripts(bench: Bench, paths: list[Path]) -> Found | None:
    for path in paths:
        found = bench.compare(_read(path))
        if found:
            print(f"difference: by {path}; it is cut down:")
            return found
    print(f"scripts: {len(paths)}, {bench.counts.steps} steps")
    return None


def _read(path: Path) -> list[Command]:
    """The commands of a script."""
    lines = path.read_text(encoding="utf-8").split("\n")
    try:
        script = [json.loads(line) for line in lines if line.strip()]
    except ValueError as error:
        sys.exit(f"{path}: {error}")
    if not all(isinstance(command, dict) and "do" in command for command in script):
        sys.exit(f"{path}: a line is no command")
    return script


def _compare_chain(bench: Bench, words: argparse.Namespace) -> Found | None:
    """A chain of many layers, each mounted over all before it. A kernel may take fewer."""
    if not words.deep:
        return None
    try:
        mount_chain(bench.place, words.deep)
    except CannotMount as why:
        print(f"skipped: {why}")
        return None
    first = bench.counts.steps
    found = bench.compare(Sequence(Random(f"{words.seed} chain"), words.deep, is_deep=True).commands())
    if found:
        print(f"difference: by the chain of seed {words.seed}; it is cut down:")
        return found
    print(f"chain: {words.deep} layers, {bench.counts.steps - first} steps")
    return None


def _compare_sequences(bench: Bench, words: argparse.Namespace) -> Found | None:
    """Makes scripts until they have made a number of steps."""
    first = bench.counts.steps
    number = 0
    while bench.counts.steps - first < words.steps:
        number += 1
        sequence = Sequence(Random(f"{words.seed} {number}"), words.layers)
        found = bench.compare(sequence.commands())
        if found:
            print(f"difference: by script {number} of seed {words.seed}; it is cut down:")
            return found
    print(f"seed {words.seed}: {number} scripts, {bench.counts.steps - first} steps")
    return None


def _show(found: Found, program: Path) -> None:
    """A script that can be pasted, and what both sides answer to its last line."""
    difference = found.difference
    script = found.script
    if difference.command is not script[-1]:
        script = [*script, difference.command]
    print(f"{program} run <<'END'")
    print("".join(map(line_of, script)) + "END")
    print(f"Linux: {line_of(difference.linux)}here:  {line_of(difference.here)}", end="")


def _told(counts: Counts) -> str:
    return (
        f"compared: {counts.steps} steps, {counts.granted} granted,"
        f" {counts.refused.total()} refused ({_by_name(counts.refused)}), {counts.comparisons} comparisons,"
        f" {counts.snapshots} snapshots of up to {counts.most_layers} layers;"
        f" declared differences ({_by_name(counts.declared)})"
    )


def _by_name(numbers: Counter[str]) -> str:
    return ", ".join(f"{name} {number}" for name, number in sorted(numbers.items()) if number)
