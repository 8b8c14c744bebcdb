"""What a snapshot of a store shows, as far as it is asked for."""
from __future__ import annotations

from typing import Callable, Dict, Iterator, Sequence, Union

from ..answers import Directory as SeenDirectory
from ..answers import Seen, Symlink
from .bounds import Bounds
from .tree import BLOCK_BYTES, DIRECTORY_MODE, Directory, File, Node, Tree

Look = Callable[[str], Union[Seen, None]]
List = Callable[[str], Sequence[str]]


class SeenNames(Dict[str, Node]):
    """The names in a directory. They are listed once one is asked for, and what a name is of is looked at once it is."""

    def __init__(self, names: Callable[[], Sequence[str]], node: Callable[[str], Node]) -> None:
        super().__init__()
        self._names = names
        self._node = node
        self._left: set[str] | None = None

    def _unseen(self) -> set[str]:
        if self._left is None:
            self._left = set(self._names())
        return self._left

    def __contains__(self, name: object) -> bool:
        return super().__contains__(name) or name in self._unseen()

    def __missing__(self, name: str) -> Node:
        self._unseen().remove(name)
        node = self[name] = self._node(name)
        return node

    def __setitem__(self, name: str, node: Node) -> None:
        self._unseen().discard(name)
        super().__setitem__(name, node)

    def __iter__(self) -> Iterator[str]:
        return iter(sorted({*super().keys(), *self._unseen()}))

    def get(self, name: str, default: Node | None = None) -> Node | None:  # type: ignore[override]
        return self[name] if name in self else default

    def pop(self, name: str) -> Node:  # type: ignore[override]
        node = self[name]
        super().__delitem__(name)
        return node

    def clear(self) -> None:
        self._left = set()
        super().clear()


def tree_of(look: Look, names: List, bounds: Bounds) -> Tree:
    """What a snapshot shows whose own layer is a root alone."""

    def directory(parent: Directory | None, name: str, mode: int) -> Directory:
        made = Directory(parent, name, mode)
        path = made.path()
        made.names = SeenNames(lambda: names(path or "/"), lambda name: node(made, f"{path}/{name}", name))
        return made

    def node(parent: Directory, path: str, name: str) -> Node:
        seen = look(path)
        if seen is None:
            raise KeyError(path)
        if isinstance(seen, SeenDirectory):
            return directory(parent, name, seen.mode)
        if isinstance(seen, Symlink):
            return File(0, seen.target, 0)
        return File(-(-seen.size // BLOCK_BYTES), None, seen.mode)

    tree = Tree(bounds)
    tree.root = directory(None, "", DIRECTORY_MODE)
    return tree
