"""The snapshots of a script as directories of a tmpfs, and as overlay mounts of them."""

import os
import stat
from collections.abc import Iterator
from contextlib import contextmanager
from dataclasses import dataclass, field

from linux.calls import BLOCK_BYTES, DEFAULT_DIRECTORY_MODE
from linux.system import mount, rooted_in, unmount

OPAQUE = "trusted.overlay.opaque"
MOUNT_OPTIONS = "index=off,redirect_dir=off,metacopy=off,xino=off"


@dataclass
class Snapshot:
    """A snapshot: its layers by their numbers, its own first, how many there are with those that an opaque root hides,
    and what shows them."""

    layers: list[int]
    depth: int
    root: int | None = None
    mounted_at: str | None = None


@dataclass
class Layers:
    """Snapshots by namespace and key, over layers that are directories of a tmpfs at `place`."""

    place: str
    snapshots: dict[tuple[str, str], Snapshot] = field(default_factory=dict)
    number: int = 0

    def __post_init__(self) -> None:
        mount("tmpfs", self.place, "mode=755")

    def close(self) -> None:
        """Unmounts everything, and drops all layers."""
        for snapshot in self.snapshots.values():
            _hide(snapshot)
        unmount(self.place)

    def prepare(self, ns: str, key: str, parent: str) -> None:
        """A new layer over those of the parent, mounted."""
        below = self.snapshots[ns, parent].layers if parent else []
        mode = self._mode_of(below[0]) if below else DEFAULT_DIRECTORY_MODE
        depth = 1 + (self.depth(ns, parent) if parent else 0)
        self._show(ns, key, [self._new_layer(mode), *below], depth, is_writable=True)

    def view(self, ns: str, key: str, parent: str) -> None:
        """The layers of the parent, or an empty one, without one above them."""
        layers = self.snapshots[ns, parent].layers if parent else [self._new_layer(DEFAULT_DIRECTORY_MODE)]
        depth = self.depth(ns, parent) if parent else 1
        self._show(ns, key, layers, depth, is_writable=False)

    def commit(self, ns: str, key: str, name: str) -> None:
        """Unmounts an active snapshot. Its layer is one of those that are prepared on it from now on."""
        snapshot = self.snapshots.pop((ns, key))
        _hide(snapshot)
        self.snapshots[ns, name] = Snapshot(snapshot.layers, snapshot.depth)

    def drop(self, ns: str, key: str) -> None:
        """Unmounts and forgets a snapshot, where there is one."""
        snapshot = self.snapshots.pop((ns, key), None)
        if snapshot:
            _hide(snapshot)

    def make_opaque(self, ns: str, key: str, path: str) -> None:
        """Sets the mark of a directory of an active snapshot's own layer, while it isn't mounted. Linux doesn't look at
        that of a layer's root: the layers below are left out."""
        layers, depth = self.snapshots[ns, key].layers, self.depth(ns, key)
        self.drop(ns, key)
        os.setxattr(self._directory(layers[0]) + path, OPAQUE, b"y", follow_symlinks=False)
        if path == "/" and len(layers) > 1:
            layers = [layers[0], self._new_layer(DEFAULT_DIRECTORY_MODE)]
        self._show(ns, key, layers, depth, is_writable=True)

    def is_shown(self, ns: str, key: str) -> bool:
        """Whether this is an active snapshot or a view."""
        snapshot = self.snapshots.get((ns, key))
        return snapshot is not None and snapshot.root is not None

    def depth(self, ns: str, key: str) -> int:
        """How many layers a snapshot has, its own among them, and those that an opaque root hides."""
        return self.snapshots[ns, key].depth

    def shown_at(self, ns: str, key: str) -> str:
        """The directory in which an active snapshot or a view is shown."""
        snapshot = self.snapshots[ns, key]
        return snapshot.mounted_at or self._directory(snapshot.layers[0])

    @contextmanager
    def inside(self, ns: str, key: str) -> Iterator[None]:
        """What an active snapshot or a view shows is the root of this process for a while."""
        with rooted_in(self.snapshots[ns, key].root):
            yield

    @contextmanager
    def inside_layer(self, ns: str, key: str) -> Iterator[None]:
        """The snapshot's own layer is the root of this process for a while, with its whiteouts."""
        descriptor = os.open(self._directory(self.snapshots[ns, key].layers[0]), os.O_PATH)
        try:
            with rooted_in(descriptor):
                yield
        finally:
            os.close(descriptor)

    def usage(self, ns: str, key: str) -> list[int]:
        """The blocks and inodes of the snapshot's own layer, counted over its directory. A whiteout counts one
        inode, although the kernel makes all whiteouts of a mount names of one."""
        blocks, inodes = 1, 1
        numbers = set()
        with self.inside_layer(ns, key):
            for _, status in entries(b"/"):
                kind = stat.S_IFMT(status.st_mode)
                if kind in (stat.S_IFREG, stat.S_IFLNK) and status.st_ino in numbers:
                    continue
                numbers.add(status.st_ino)
                inodes += 1
                if kind == stat.S_IFDIR:
                    blocks += 1
                elif kind == stat.S_IFREG:
                    blocks += -(-status.st_size // BLOCK_BYTES)
        return [blocks, inodes]

    def _new_layer(self, mode: int) -> int:
        number = self._new_directory()
        os.chmod(self._directory(number), mode)
        return number

    def _new_directory(self) -> int:
        self.number += 1
        os.mkdir(self._directory(self.number))
        return self.number

    def _directory(self, number: int) -> str:
        return f"{self.place}/{number}"

    def _mode_of(self, number: int) -> int:
        return stat.S_IMODE(os.stat(self._directory(number)).st_mode)

    def _show(self, ns: str, key: str, layers: list[int], depth: int, is_writable: bool) -> None:
        self.drop(ns, key)
        if len(layers) == 1:
            mounted_at = None
            root = self._directory(layers[0])
        else:
            mounted_at = root = self._directory(self._new_directory())
            self._mount(layers, mounted_at, is_writable)
        self.snapshots[ns, key] = Snapshot(layers, depth, os.open(root, os.O_PATH), mounted_at)

    def _mount(self, layers: list[int], place: str, is_writable: bool) -> None:
        """Names the layers from the directory that they are in, since all options have a page at most."""
        lowers = layers
        options = MOUNT_OPTIONS
        if is_writable:
            upper, *lowers = layers
            options += f",upperdir={upper},workdir={self._new_directory()}"
        os.chdir(self.place)
        mount("overlay", place, f"{options},lowerdir={':'.join(map(str, lowers))}")
        os.chdir("/")


def entries(directory: bytes) -> Iterator[tuple[bytes, os.stat_result]]:
    """The paths below a directory with what stands there, directories before what is in them."""
    waiting = [directory]
    while waiting:
        with os.scandir(waiting.pop()) as found:
            for entry in found:
                status = entry.stat(follow_symlinks=False)
                if stat.S_ISDIR(status.st_mode):
                    waiting.append(entry.path)
                yield entry.path, status


def _hide(snapshot: Snapshot) -> None:
    if snapshot.root is not None:
        os.close(snapshot.root)
        snapshot.root = None
    if snapshot.mounted_at:
        unmount(snapshot.mounted_at)
        snapshot.mounted_at = None
