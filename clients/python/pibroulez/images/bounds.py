"""How much is read of an image. What is beyond a bound ends with an error that names it."""
from __future__ import annotations

from dataclasses import dataclass

# Of all layers together, without their compression and with the holes of sparse files.
MOST_BYTES = 1 << 35
# Of all layers together: the holes of sparse files, which take no bytes of an archive.
MOST_HOLE_BYTES = 1 << 31
# Of all layers together, directories without an entry of their own among them.
MOST_ENTRIES = 1 << 21
# Of all layers together: the paths and targets of entries, and the paths of directories without an entry.
MOST_TEXT_BYTES = 1 << 28
# Of one entry: its PAX and GNU headers, and the map of a sparse file.
MOST_HEADER_BYTES = 1 << 20
# Symlinks above an entry (containerd's package `fs`, `RootPath`).
MOST_LINKS = 255
# Of all layers together: the names on the ways to entries and marks, in their paths and in the targets of symlinks.
# Entries of one directory that follow each other share their way.
MOST_WAY_NAMES = 1 << 23
# The manifests and configurations that are read, together.
MOST_DOCUMENT_BYTES = 1 << 24
# The files of an image's archive.
MOST_FILES = 1 << 18
MOST_LAYERS = 1 << 10
# The operations of all layers.
MOST_OPERATION_BYTES = 1 << 30


class Unreadable(Exception):
    """Why a source gives no script."""


@dataclass
class Bounds:
    """What may still be read."""

    bytes: int = MOST_BYTES
    hole_bytes: int = MOST_HOLE_BYTES
    entries: int = MOST_ENTRIES
    text_bytes: int = MOST_TEXT_BYTES
    way_names: int = MOST_WAY_NAMES
    document_bytes: int = MOST_DOCUMENT_BYTES
    operation_bytes: int = MOST_OPERATION_BYTES

    def __post_init__(self) -> None:
        self._most = {name: getattr(self, name) for name in NAMES}

    def take(self, name: str, number: int) -> None:
        """Uses this much of a bound. Unreadable where it isn't there."""
        setattr(self, name, getattr(self, name) - number)
        self.check()

    def check(self) -> None:
        """Unreadable where more of a bound is used than there was."""
        for name, what in NAMES.items():
            if getattr(self, name) < 0:
                raise Unreadable(f"more than {self._most[name]:,} {what}")


NAMES = {
    "bytes": "bytes of layers",
    "hole_bytes": "bytes of holes in sparse files",
    "entries": "entries",
    "text_bytes": "bytes of paths and targets",
    "way_names": "names on the ways to entries",
    "document_bytes": "bytes of manifests and configurations",
    "operation_bytes": "bytes of operations",
}
