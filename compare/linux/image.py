"""The command `compare/image`."""

import argparse
import hashlib
import json
import os
import stat
import subprocess
import sys
import tarfile
import tempfile
import time
from collections.abc import Iterator
from contextlib import contextmanager
from dataclasses import dataclass
from pathlib import Path
from typing import BinaryIO

from linux.archive import make_image
from linux.calls import BLOCK_BYTES, Answer, Command, look_up
from linux.containerd import CannotApply, CannotBuild, Containerd, build
from linux.layers import Layers, entries
from linux.main import INTERRUPTED, PROGRAM, REPOSITORY
from linux.moves import drawn_images, made_images
from linux.place import CannotMount, mounting_place
from linux.program import Program, ProgramEnded, line_of
from linux.unpack import unpack

FILES = 50_000
IMAGES = 100
SHOWN = 20
AT_ONCE = 4096
NAMESPACE = "image"

ABOUT = """
Compares the script of an image (examples/image_to_script) with the image unpacked on real overlay mounts. The first
image is made from files of this machine, in layers that delete, replace, link and hide what the ones below have. Then
come small ones, made and drawn from the seed, in which things take the place of others. An image's script is run by the
program. The same archive is unpacked twice, each layer on a mount over the ones before: by system calls, and by
containerd's own reader, which is built over Debian's packages where they are there. For each layer three counts have to
be one: what the script charges, what the commit answers, and what our rules count over the upper directory of the
first. And all sides have to show the same names, kinds, modes, sizes, targets and hard links, and the same digests of
files.
"""

EXAMPLE = """
It needs root and a kernel with overlayfs, and mounts in a namespace of its own, which ends with it.
Status 0: all sides agree, or nothing could be mounted, which one line `skipped: WHY` says. 1: they differ. Where
containerd's reader can't be built, one line `containerd skipped: WHY` says so.

    sudo compare/image --files 100000
    sudo compare/image --on /var/tmp    # layers on a disk's file system: what du and st_blocks count there
"""


def main() -> int:
    """Runs the command, and gives its status."""
    words = _words()
    sys.stdout.reconfigure(line_buffering=True)
    try:
        with mounting_place(), tempfile.TemporaryDirectory(dir=words.on) as scratch:
            os.chmod(scratch, 0o755)
            return _compare(words, Path(scratch))
    except CannotMount as why:
        print(f"skipped: {why}")
        return 0
    except KeyboardInterrupt:
        print("interrupted")
        return INTERRUPTED


def _words() -> argparse.Namespace:
    parser = argparse.ArgumentParser(
        prog="compare/image",
        description=ABOUT,
        epilog=EXAMPLE,
        formatter_class=argparse.RawDescriptionHelpFormatter,
    )
    parser.add_argument("--program", type=Path, default=PROGRAM, help="the program (the repository's own)")
    parser.add_argument("--files", type=int, default=FILES, help=f"files of the machine ({FILES})")
    parser.add_argument("--source", default="/usr", help="where they are (/usr)")
    parser.add_argument("--images", type=int, default=IMAGES, help=f"small images that are drawn ({IMAGES})")
    parser.add_argument("--seed", type=int, default=1, help="what the changes and small images are made from (1)")
    parser.add_argument("--on", type=Path, help="a directory for the image and its layers; else these are on a tmpfs")
    words = parser.parse_args()
    words.program = words.program.resolve()
    words.on = words.on and words.on.resolve()
    if not os.access(words.program, os.X_OK):
        parser.error(f"no program at {words.program}")
    return words


class DiskLayers(Layers):
    """Layers that are directories of a file system that is there."""

    def __post_init__(self) -> None:
        os.chmod(self.place, 0o755)

    def close(self) -> None:
        for ns, key in list(self.snapshots):
            self.drop(ns, key)


@dataclass
class Usage:
    """A layer's blocks of 4096 bytes and inodes: by our rules, and by `st_blocks` and inode numbers."""

    ours: list[int]
    linux: list[int]


def _compare(words: argparse.Namespace, scratch: Path) -> int:
    differences = Differences()
    try:
        containerd = build(scratch)
    except CannotBuild as why:
        print(f"containerd skipped: {why}")
        containerd = None
    sides = Sides(words, scratch, containerd, differences)
    image = make_image(scratch, words.source, words.files, words.seed)
    sides.compare("the machine's image", image, is_large=True)
    small = scratch / "small"
    small.mkdir()
    for name, image in made_images(small):
        sides.compare(name, image)
    for name, image in drawn_images(small, words.seed, words.images):
        sides.compare(name, image, is_drawn=True)
    by = ", also by containerd" if containerd else ""
    print(
        f"compared: {sides.images} images{by}, {sides.unsettled} left out, {differences.compared} comparisons,"
        f" {differences.number} differences"
    )
    return 1 if differences.number else 0


@dataclass
class Sides:
    """What an image is compared on, and how many have been."""

    words: argparse.Namespace
    scratch: Path
    containerd: Containerd | None
    differences: "Differences"
    images: int = 0
    unsettled: int = 0

    def compare(self, name: str, image: Path, is_large: bool = False, is_drawn: bool = False) -> None:
        """Compares an image. A large one is told of layer by layer, and its digests are compared in the end alone. One
        that is drawn may be left out."""
        self.differences.image = name
        script = image.with_suffix(".jsonl")
        _make_script(image, script, is_large)
        layers = self._layers()
        its_layers = self._layers() if self.containerd else None
        try:
            with Program(str(self.words.program)) as program:
                comparison = Comparison(program, layers, self.differences, self.containerd, its_layers, is_large)
                comparison.run(script, image)
            self.images += 1
        except Unsettled as which:
            self.unsettled += 1
            if not is_drawn:
                self.differences.add("an image that is made so as to be compared is left out", str(which))
        except ProgramEnded as ended:
            self.differences.add("the program ended", str(ended))
        finally:
            for each in (layers, its_layers):
                if each:
                    each.close()

    def _layers(self) -> Layers:
        place = tempfile.mkdtemp(dir=self.scratch)
        return DiskLayers(place) if self.words.on else Layers(place)


def _make_script(image: Path, script: Path, is_large: bool) -> None:
    """The image's script, of a large one with the time and memory that it takes to make it."""
    begin = time.monotonic()
    with open(script, "wb") as out:
        error = None if is_large else subprocess.DEVNULL
        made = subprocess.Popen([REPOSITORY / "examples/image_to_script", image], stdout=out, stderr=error)
        _, status, used = os.wait4(made.pid, 0)
    if status != 0:
        sys.exit("image_to_script failed")
    with open(script, "rb") as lines:
        number = sum(1 for _ in lines)
    if is_large:
        print(
            f"script: {number} lines in {time.monotonic() - begin:.1f} s, {used.ru_utime + used.ru_stime:.1f} s of the"
            f" processor, {used.ru_maxrss // 1024} MB"
        )


@dataclass
class Differences:
    """How many there are. The first are shown."""

    compared: int = 0
    number: int = 0
    image: str = ""

    def judge(self, what: str, linux: object, here: object) -> None:
        self.compared += 1
        if linux != here:
            self.add(what, f"\n  there: {linux}\n  here:  {here}")

    def add(self, what: str, text: str) -> None:
        self.number += 1
        if self.number <= SHOWN:
            print(f"difference: {self.image}: {what}: {text}")


class Unsettled(Exception):
    """An image of which our readers and containerd differ by choice (examples/README.md, "Why: the scripts of images"):
    a mark meets things of its own layer or would hide others from another place in the archive, or a way has `..`
    after symlinks of symlinks."""


@dataclass
class Comparison:
    """An image on all sides, layer by layer."""

    program: Program
    layers: Layers
    differences: Differences
    containerd: Containerd | None
    its_layers: Layers | None
    is_large: bool

    def run(self, script: Path, image: Path) -> None:
        parent, archives = "", _archives(image)
        with open(script, encoding="utf-8") as lines:
            self._ask([json.loads(next(lines))])
            for number, layer in enumerate(_layers(lines), 1):
                self._unpack(next(archives), parent, number)
                need, commit = layer[1]["need"], layer[-1]
                answers = self._ask(layer)
                usage = self._usage()
                name = commit["name"]
                self.layers.commit(NAMESPACE, "key", name)
                self.differences.judge(f"usage of layer {number}", usage.ours, answers[-1].get("usage"))
                self.differences.judge(f"charge of layer {number}", usage.ours, need)
                seen = self._look(name)
                if self.is_large:
                    print(
                        f"layer {number}: {_pair(usage.ours)} counted, {_pair(usage.linux)} by st_blocks and inode"
                        f" numbers; {seen} names seen"
                    )
                else:
                    self._digests(name)
                parent = name
            if self.is_large:
                self._digests(parent)
        self.differences.judge("layers", next(archives, None), None)

    def _unpack(self, archive: BinaryIO, parent: str, number: int) -> None:
        """Both readers unpack a layer: ours what can be made, and containerd that."""
        self.layers.prepare(NAMESPACE, "key", parent)
        with tempfile.TemporaryFile() as kept:
            with self.layers.inside(NAMESPACE, "key"):
                is_settled = unpack(archive, kept, is_small=not self.is_large)
            if not is_settled:
                raise Unsettled(f"layer {number}")
            if self.containerd:
                self.its_layers.prepare(NAMESPACE, "key", parent)
                try:
                    self.containerd.apply(kept, self.its_layers.shown_at(NAMESPACE, "key"))
                except CannotApply as why:
                    self.differences.add(f"layer {number} by containerd", str(why))

    def _usage(self) -> Usage:
        """The upper directory counted twice. containerd's package `fs` (`DiskUsage`) sums `st_blocks`, as du does."""
        ours = self.layers.usage(NAMESPACE, "key")
        with self.layers.inside_layer(NAMESPACE, "key"):
            found = {status.st_ino: status.st_blocks for _, status in entries(b"/")}
            found[os.lstat("/").st_ino] = os.lstat("/").st_blocks
        return Usage(ours, [sum(found.values()) * 512 // BLOCK_BYTES, len(found)])

    def _ask(self, commands: list[Command]) -> list[Answer]:
        answers = self.program.ask_all(commands)
        for command, answer in zip(commands, answers):
            if "error" in answer:
                self.differences.add("a refusal", f"{line_of(command)}{answer}")
        return answers

    def _look(self, name: str) -> int:
        """Compares all that a layer shows over those below. Answers how many names there are."""
        if self.its_layers:
            self.its_layers.commit(NAMESPACE, "key", name)
            self._look_at(name, self.its_layers)
        return self._look_at(name, self.layers)

    def _look_at(self, name: str, layers: Layers) -> int:
        seen = 0
        with self._shown(name, layers):
            for lookups in _some(_lookups(with_usage=not self.is_large)):
                seen += sum(each["do"] == "look" for each in lookups)
                for lookup, here in zip(lookups, self.program.ask_all(lookups)):
                    if "digest" in (here.get("seen") or {}):
                        del here["seen"]["digest"]
                    self.differences.judge(line_of(lookup), look_up(lookup), here)
        return seen

    def _digests(self, name: str) -> None:
        """Compares the bytes of all files that the image shows."""
        for layers in filter(None, (self.layers, self.its_layers)):
            with self._shown(name, layers):
                for lookups in _some(lookup for lookup, status in _looks() if stat.S_ISREG(status.st_mode)):
                    for lookup, here in zip(lookups, self.program.ask_all(lookups)):
                        with open(lookup["path"].encode(), "rb") as file:
                            digest = f"sha256:{hashlib.file_digest(file, 'sha256').hexdigest()}"
                        self.differences.judge(line_of(lookup), digest, (here.get("seen") or {}).get("digest"))

    @contextmanager
    def _shown(self, name: str, layers: Layers) -> Iterator[None]:
        """A committed layer is shown by a view of the program, and is the root of this process, for a while."""
        self._ask([{"do": "view", "ns": NAMESPACE, "key": "seen", "parent": name}])
        layers.view(NAMESPACE, "seen", name)
        with layers.inside(NAMESPACE, "seen"):
            yield
        layers.drop(NAMESPACE, "seen")
        self._ask([{"do": "remove", "ns": NAMESPACE, "key": "seen"}])


def _archives(image: Path) -> Iterator[BinaryIO]:
    """The layers' archives, from the lowest up."""
    with tarfile.open(image) as archive:
        for name in json.load(archive.extractfile("manifest.json"))[0]["Layers"]:
            yield archive.extractfile(name)


def _layers(lines: Iterator[str]) -> Iterator[list[Command]]:
    """The commands of each layer, from its `prepare` to its `commit`."""
    layer: list[Command] = []
    for line in lines:
        layer.append(json.loads(line))
        if layer[-1]["do"] == "commit":
            yield layer
            layer = []


def _looks() -> Iterator[tuple[Command, os.stat_result]]:
    """What is seen at each path in the root of this process."""
    yield {"do": "look", "ns": NAMESPACE, "key": "seen", "path": "/"}, os.lstat("/")
    for path, status in entries(b"/"):
        yield {"do": "look", "ns": NAMESPACE, "key": "seen", "path": path.decode()}, status


def _lookups(with_usage: bool) -> Iterator[Command]:
    """The same, and the names in each directory; and what is taken there, in which a hard link counts once."""
    for look, status in _looks():
        yield look
        if stat.S_ISDIR(status.st_mode):
            yield look | {"do": "list"}
            if with_usage or look["path"] == "/":
                yield look | {"do": "du"}


def _some(commands: Iterator[Command]) -> Iterator[list[Command]]:
    """The commands, some at once."""
    found: list[Command] = []
    for command in commands:
        found.append(command)
        if len(found) == AT_ONCE:
            yield found
            found = []
    yield found


def _pair(usage: list[int]) -> str:
    return f"{usage[0]}/{usage[1]}"
