"""What the layers of an image show, and what the last of them counts."""
from __future__ import annotations

import io
import json
from typing import TextIO, Union

from .bounds import MOST_LINKS, Bounds
from .entries import OPAQUE, WHITEOUT, Entry

BLOCK_BYTES = 4096
MOST_NAME_BYTES = 255
MOST_PATH_BYTES = 4095
MOST_LETTER_BYTES = 4
MOST_FILE_BYTES = 1 << 40
DIRECTORY_MODE = 0o755

text_of = json.JSONEncoder(ensure_ascii=False).encode


class Directory:
    """A directory that is seen. The layer is the last that has it; of that layer alone are the names that cover what
    lower layers show: those of what stands there, and those of whiteouts."""

    __slots__ = ("parent", "name", "names", "mode", "layer", "covering", "whiteouts")

    def __init__(self, parent: Directory | None, name: str, mode: int) -> None:
        self.parent = parent
        self.name = name
        self.names: dict[str, Node] = {}
        self.mode = mode
        self.layer = 0
        self.covering: set[str] = NO_NAMES
        self.whiteouts: set[str] = NO_NAMES

    def path(self) -> str:
        """The path, without a closing `/`, so empty for the root."""
        names = []
        here = self
        while here.parent is not None:
            names.append(here.name)
            here = here.parent
        return "".join(f"/{name}" for name in reversed(names))


# A directory that a layer makes covers nothing.
NO_NAMES: set[str] = set()


class File:
    """A file or symlink that is seen, with the names that it has in the last layer that has it."""

    __slots__ = ("blocks", "target", "mode", "layer", "links")

    def __init__(self, blocks: int, target: str | None, mode: int) -> None:
        self.blocks = blocks
        self.target = target
        self.mode = mode
        self.layer = 0
        self.links = 0


Node = Union[Directory, File]


class LeftOut(Exception):
    """What kind of thing can't be kept."""


class Tree:
    """What the layers show, what the last one counts, and the operations that make it. In a single layer all that is
    hidden is its own."""

    def __init__(self, bounds: Bounds, is_single: bool = False) -> None:
        self.bounds = bounds
        self.is_single = is_single
        self.root = Directory(None, "", DIRECTORY_MODE)
        self.layer = 0
        self.blocks = self.inodes = self.steps = 0
        self.operations: TextIO = io.StringIO()
        self._near: tuple[str, Directory, str] | None = None

    def begin_layer(self, operations: TextIO) -> None:
        """The next layer: its root alone."""
        self.layer += 1
        self.blocks = self.inodes = 1
        self.steps = 0
        self.operations = operations
        self._take(self.root)

    # -- counts

    def _take(self, directory: Directory) -> None:
        directory.layer = self.layer
        directory.covering, directory.whiteouts = set(), set()

    def _copy_up(self, directory: Directory) -> None:
        """The layer gets the directory, and all above it."""
        missing = []
        while directory.layer != self.layer:
            missing.append(directory)
            directory = directory.parent
        for each in reversed(missing):
            self._take(each)
            each.parent.covering.add(each.name)
            self.blocks += 1
            self.inodes += 1

    def _copy_file_up(self, directory: Directory, name: str) -> File:
        """The layer gets the file; its other names in lower layers stay names of the lower file."""
        self._copy_up(directory)
        lower = directory.names[name]
        if lower.layer == self.layer:
            return lower
        own = File(lower.blocks, lower.target, lower.mode)
        directory.covering.add(name)
        self._put(directory, name, own)
        return own

    def _put(self, directory: Directory, name: str, node: Node) -> None:
        """A name where nothing is seen, or for a copy of what is seen. A whiteout there goes."""
        self._copy_up(directory)
        if name in directory.whiteouts:
            directory.whiteouts.remove(name)
            directory.covering.add(name)
            self.inodes -= 1
        directory.names[name] = node
        if node.layer != self.layer:
            node.layer = self.layer
            self.blocks += 1 if isinstance(node, Directory) else node.blocks
            self.inodes += 1
        if isinstance(node, File):
            node.links += 1

    def _drop(self, directory: Directory, name: str) -> None:
        """Takes a name with all in it. A whiteout stands where a lower layer shows something."""
        self._copy_up(directory)
        node = directory.names.pop(name)
        is_lower = node.layer != self.layer or name in directory.covering
        self._uncount(node)
        if is_lower:
            directory.covering.discard(name)
            directory.whiteouts.add(name)
            self.inodes += 1
        self._near = None

    def _uncount(self, node: Node) -> None:
        """The layer no longer has the node, and what it has in it."""
        waiting = [node]
        while waiting:
            each = waiting.pop()
            if each.layer != self.layer:
                continue
            if isinstance(each, Directory):
                self.blocks -= 1
                self.inodes -= 1 + len(each.whiteouts)
                waiting += each.names.values()
            else:
                each.links -= 1
                if each.links == 0:
                    self.blocks -= each.blocks
                    self.inodes -= 1

    # -- paths

    def _walk(self, path: str) -> tuple[Directory, list[str]]:
        """Where a path leads, symlinks followed within the root: a directory, and what is missing below it."""
        here, missing, links = self.root, [], 0
        left = path.split("/")[::-1]
        self.bounds.take("way_names", len(left))
        while left:
            name = left.pop()
            if name in ("", "."):
                continue
            if name == "..":
                here = here if missing else here.parent or here
                del missing[-1:]
                continue
            node = None if missing else here.names.get(name)
            if node is None:
                missing.append(name)
            elif isinstance(node, Directory):
                here = node
            elif node.target is None or links == MOST_LINKS:
                raise LeftOut("entries below what is no directory")
            else:
                links += 1
                here = self.root if node.target.startswith("/") else here
                names = node.target.split("/")
                self.bounds.take("way_names", len(names))
                left += reversed(names)
        return here, missing

    def _place(self, path: str) -> tuple[Directory, str, str]:
        """The directory of an entry, the entry's path there, and its name. Missing directories are made."""
        above, _, name = path.rpartition("/")
        if self._near is None or self._near[0] != above:
            directory, missing = self._walk(above)
            at = directory.path()
            check_length("/".join((at, *missing, name)))
            self.bounds.take("entries", len(missing))
            for each in missing:
                at = f"{at}/{each}"
                self.bounds.take("text_bytes", len(at))
                directory = self._make_directory(directory, at, each, DIRECTORY_MODE)
            self._near = above, directory, at
        _, directory, at = self._near
        path = f"{at}/{name}"
        check_length(path)
        return directory, path, name

    # -- operations

    def _say(self, do: str, path: str, more: str = "") -> None:
        self._write(f'{{"do":"{do}","path":{text_of(path)}{more}}}\n')

    def _write(self, line: str) -> None:
        self.steps += 1
        self.bounds.operation_bytes -= len(line)
        if self.bounds.operation_bytes < 0:
            self.bounds.check()
        self.operations.write(line)

    def _make_directory(self, above: Directory, path: str, name: str, mode: int) -> Directory:
        made = Directory(above, name, mode)
        self._put(above, name, made)
        self._say("mkdir", path, f',"mode":{mode}')
        return made

    def _remove(self, directory: Directory, path: str, name: str) -> None:
        """What stands at the path goes, to make room."""
        if name in directory.names:
            self._say("whiteout" if isinstance(directory.names[name], Directory) else "unlink", path)
            self._drop(directory, name)

    def hide(self, directory: Directory | None, name: str) -> None:
        """Makes a mark of this name: a whiteout or an opaque mark. It hides what lower layers show in the directory,
        which is none where the layer alone has one there."""
        if name == OPAQUE:
            if directory is not None:
                self._opaque(directory)
        elif name.startswith(WHITEOUT + WHITEOUT) or name in (WHITEOUT, WHITEOUT + ".", WHITEOUT + ".."):
            raise LeftOut("whiteouts of no name")
        elif directory is None or not name.startswith(WHITEOUT):
            raise LeftOut("whiteouts of nothing")
        else:
            self._whiteout(directory, name.removeprefix(WHITEOUT))

    def _whiteout(self, directory: Directory, name: str) -> None:
        if name not in directory.names:
            raise LeftOut("whiteouts of nothing")
        self._say("whiteout", f"{directory.path()}/{name}")
        self._drop(directory, name)

    def _opaque(self, directory: Directory) -> None:
        """Hides what is in the directory. Where the layer itself has something in it, which would stay, another
        directory takes its place. Linux doesn't look at a mark of the root: each name in it goes."""
        path = directory.path()
        has_own = directory.layer == self.layer and (directory.covering or directory.whiteouts)
        if directory.parent is None:
            for name in list(directory.names):
                self._whiteout(directory, name)
        elif self.is_single or has_own:
            self._whiteout(directory.parent, directory.name)
            self._make_directory(directory.parent, path, directory.name, directory.mode)
        else:
            self._say("opaque", path)
            self._copy_up(directory)
            directory.names.clear()
            self._near = None

    def apply(self, entry: Entry) -> None:
        """Makes an entry, in place of what is seen there unless both are directories."""
        if entry.kind == "hard link":
            self._link(entry)
            return
        directory, path, name = self._place(entry.path)
        if entry.kind == "directory":
            self._directory(directory, path, name, entry.mode)
            return
        self._remove(directory, path, name)
        if entry.kind == "file":
            self._put(directory, name, File(-(-entry.size // BLOCK_BYTES), None, entry.mode))
            self._say("put", path, f',"mode":{entry.mode},"size":{entry.size},"digest":"{entry.text}"')
        else:
            self._put(directory, name, File(0, entry.text, entry.mode))
            self._say("symlink", path, f',"target":{text_of(entry.text)}')

    def _directory(self, above: Directory, path: str, name: str, mode: int) -> None:
        found = above.names.get(name)
        if not isinstance(found, Directory):
            self._remove(above, path, name)
            self._make_directory(above, path, name, mode)
        elif found.layer != self.layer or found.mode != mode:
            self._copy_up(found)
            found.mode = mode
            self._say("setmode", path, f',"mode":{mode}')

    def _link(self, entry: Entry) -> None:
        """A hard link, which has the mode of its entry (containerd's package `archive`)."""
        source_above, _, source_name = entry.text.rstrip("/").rpartition("/")
        source_directory, missing = self._walk(source_above)
        if missing or not isinstance(source_directory.names.get(source_name), File):
            raise LeftOut("hard links to no file")
        directory, path, name = self._place(entry.path)
        here: Directory | None = source_directory
        while here is not None and here is not directory.names.get(name):
            here = here.parent
        if here is not None or (directory is source_directory and name == source_name):
            raise LeftOut("hard links to what they replace")
        self._remove(directory, path, name)
        file = self._copy_file_up(source_directory, source_name)
        self._put(directory, name, file)
        source = f"{source_directory.path()}/{source_name}"
        self._write(f'{{"do":"link","from":{text_of(source)},"to":{text_of(path)}}}\n')
        if file.target is None and file.mode != entry.mode:
            file.mode = entry.mode
            self._say("setmode", path, f',"mode":{entry.mode}')


def check_length(path: str) -> None:
    if len(path) * MOST_LETTER_BYTES > MOST_PATH_BYTES and len(path.encode()) > MOST_PATH_BYTES:
        raise LeftOut("paths that are too long")


def reason(entry: Entry) -> str | None:
    """Why the store can't keep an entry, whatever stands elsewhere."""
    if entry.kind not in ("directory", "file", "symlink", "hard link"):
        return f"{entry.kind}s"
    if why := name_reason(entry.path):
        return why
    if entry.kind == "file" and entry.size > MOST_FILE_BYTES:
        return "files above 2^40 bytes"
    return target_reason(entry.text) if entry.kind == "symlink" else None


def name_reason(path: str) -> str | None:
    if not path.isascii() and not is_utf_8(path):
        return "names that are no UTF-8"
    if len(path) * MOST_LETTER_BYTES > MOST_NAME_BYTES:
        if len(path.encode()) > MOST_PATH_BYTES:
            return "paths that are too long"
        if is_long(path):
            return "names that are too long"
    return None


def is_long(path: str) -> bool:
    return any(len(name.encode()) > MOST_NAME_BYTES for name in path.split("/"))


def target_reason(target: str) -> str | None:
    if not is_utf_8(target):
        return "targets that are no UTF-8"
    return None if 1 <= len(target.encode()) <= MOST_PATH_BYTES else "targets that are empty or too long"


def is_utf_8(text: str) -> bool:
    return not any("\ud800" <= letter <= "\udfff" for letter in text)
