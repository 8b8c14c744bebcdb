"""What makes a layer over what lower ones show, by the entries of its archive."""
from __future__ import annotations

from collections import Counter
from dataclasses import dataclass
from typing import Callable, Iterable, TypeVar

from .entries import WHITEOUT, Entry, clean
from .tree import LeftOut, Tree, name_reason, reason
from .ways import Ways

T = TypeVar("T")


def unpack(tree: Tree, found: Iterable[Entry], left_out: Counter[str]) -> None:
    """Makes a layer of its entries over what the tree shows: its whiteouts and opaque marks first, then the others."""
    marks, entries = sorted_out(found, left_out)
    if marks:
        ways = Ways(tree.root, tree.bounds, marks, entries)
        make(lambda mark: hide(tree, ways, mark), marks, left_out)
    make(tree.apply, entries, left_out)


def hide(tree: Tree, ways: Ways, mark: str) -> None:
    """Makes a mark, at the end of its way."""
    above, _, name = mark.rpartition("/")
    directory, is_there = ways.walk(above)
    if not is_there:
        raise LeftOut("whiteouts of nothing")
    tree.hide(directory, name)


@dataclass
class Lost:
    """A file or symlink whose name can't be kept. The first name of it that can be kept takes its place."""

    entry: Entry
    name: str | None = None

    def named(self, other: Entry) -> Entry:
        """The file under another of its names, which is a hard link of the archive."""
        if self.name is not None:
            return other._replace(text=self.name)
        return self.entry._replace(path=other.path, mode=other.mode)


def sorted_out(found: Iterable[Entry], left_out: Counter[str]) -> tuple[list[str], list[Entry]]:
    """The paths of the marks, and all other entries that can be kept. The root has no entry."""
    marks, entries = [], []
    lost: dict[str, Lost] = {}
    for entry in found:
        if f"/{WHITEOUT}" in entry.path:
            above, _, name = entry.path.rpartition("/")
            if why := name_reason(f"{above}/{name.removeprefix(WHITEOUT)}"):
                left_out[why] += 1
            else:
                marks.append(entry.path)
            continue
        file = lost.get(clean(entry.text)) if lost and entry.kind == "hard link" else None
        if file is not None:
            entry = file.named(entry)
        if why := reason(entry):
            left_out[why] += 1
            if entry.kind in ("file", "symlink", "hard link"):
                lost[entry.path] = file or Lost(entry)
            else:
                lost.pop(entry.path, None)
        elif entry.path != "/":
            entries.append(entry)
            if file is not None and file.name is None:
                file.name = entry.path
    return marks, entries


def make(step: Callable[[T], None], things: list[T], left_out: Counter[str]) -> None:
    """Makes a step with each of the things, in order, and lets it go. Counts what can't be made."""
    things.reverse()
    while things:
        try:
            step(things.pop())
        except LeftOut as why:
            left_out[str(why)] += 1
