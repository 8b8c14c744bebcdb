"""The entries of a layer, read from its archive or its directory."""
from __future__ import annotations

import hashlib
import os
import posixpath
import stat
from collections import Counter
from collections.abc import Iterator
from dataclasses import dataclass
from tarfile import BLOCKSIZE
from typing import BinaryIO, NamedTuple

from .bounds import Bounds, Unreadable
from .headers import FILES, MODE_BITS, Header, read_header, text_in

CHUNK_BYTES = 1 << 20

WHITEOUT = ".wh."
OPAQUE = ".wh..wh..opq"
OPAQUE_ATTRIBUTES = ("trusted.overlay.opaque", "user.overlay.opaque")


class Entry(NamedTuple):
    """An entry of a layer, by its path from the root. The text is a file's digest, a symlink's target, or the path of
    the file of a hard link."""

    kind: str
    path: str
    mode: int
    size: int
    text: str


KINDS = {
    **{kind: "file" for kind in FILES},
    b"1": "hard link",
    b"2": "symlink",
    b"3": "device file",
    b"4": "device file",
    b"5": "directory",
    b"6": "pipe",
}
PLAIN_KINDS = {b"0": "file", b"1": "hard link", b"2": "symlink", b"5": "directory"}


@dataclass
class LayerArchive:
    """A layer's archive, read from its begin to its end. A header without anything unusual is read here, in half the
    time, and another by `read_header`."""

    file: BinaryIO
    left_out: Counter[str]
    bounds: Bounds

    def entries(self) -> Iterator[Entry]:
        bounds = self.bounds
        while any(block := self.file.read(BLOCKSIZE)):
            if len(block) != BLOCKSIZE:
                raise Unreadable("an archive ends within a header")
            if entry := self._plain(block) or self._unusual(block):
                bounds.entries -= 1
                bounds.text_bytes -= len(entry.path) + len(entry.text)
                if bounds.entries < 0 or bounds.text_bytes < 0:
                    bounds.check()
                yield entry
        if any(self.file.read(BLOCKSIZE)):
            raise Unreadable("an archive goes on after a block of zeros")

    def _plain(self, block: bytes) -> Entry | None:
        """An entry by a header of POSIX.1-1988 ("ustar"), where its numbers are octal and the path has one part."""
        kind = PLAIN_KINDS.get(block[156:157])
        try:
            is_right = int(block[148:154], 8) == sum(block.replace(b"\0", b"")) - sum(block[148:156]) + 8 * ord(" ")
            has_owner = int(block[108:115], 8) or int(block[116:123], 8)
            mode, size = int(block[100:107], 8), int(block[124:135], 8)
        except ValueError:
            return None
        if kind is None or not is_right or block[345] or not block[124:135].isdigit():
            return None
        if has_owner:
            self.left_out["owners"] += 1
        if kind == "file":
            text = self._digest(size)
        else:
            text = text_in(block[157:257])
        return Entry(kind, clean(text_in(block[:100])), mode & MODE_BITS, size, text)

    def _unusual(self, block: bytes) -> Entry | None:
        header = read_header(block, self.file)
        if header is None:
            return None
        self.left_out["owners"] += header.has_owner
        self.left_out["extended attributes"] += header.xattrs
        kind, size, text = KINDS.get(header.kind, "entry of another kind"), header.size, header.link
        if header.sparse_size is not None:
            size, text = header.sparse_size, self._sparse_digest(header)
        elif kind == "file":
            text = self._digest(size)
        else:
            self._digest(size)
        return Entry(kind, clean(header.name), header.mode, size, text)

    def _digest(self, size: int) -> str:
        text = digest_of(self.file, size)
        self.file.read(-size % BLOCKSIZE)
        return text

    def _sparse_digest(self, header: Header) -> str:
        """The digest of a sparse file with its holes."""
        self.bounds.take("hole_bytes", header.sparse_size - header.size)
        self.bounds.take("bytes", header.sparse_size - header.size)
        found, at = hashlib.sha256(), 0
        for offset, size in header.parts:
            add_zeros(found, offset - at)
            add_bytes(found, self.file, size)
            at = offset + size
        add_zeros(found, header.sparse_size - at)
        self.file.read(-header.size % BLOCKSIZE)
        return f"sha256:{found.hexdigest()}"


def clean(path: str) -> str:
    """The path from the root, as Go's `filepath.Clean` writes it."""
    return posixpath.normpath("/" + path.lstrip("/"))


def digest_of(file: BinaryIO, size: int) -> str:
    """The digest of the next bytes."""
    found = hashlib.sha256()
    add_bytes(found, file, size)
    return f"sha256:{found.hexdigest()}"


def add_bytes(found: "hashlib._Hash", file: BinaryIO, size: int) -> None:
    """Takes the next bytes into a digest."""
    left = size
    while left > 0:
        chunk = file.read(min(left, CHUNK_BYTES))
        if not chunk:
            raise Unreadable("an archive ends within a file")
        found.update(chunk)
        left -= len(chunk)


def add_zeros(found: "hashlib._Hash", size: int) -> None:
    for _ in range(size // CHUNK_BYTES):
        found.update(ZEROS)
    found.update(ZEROS[: size % CHUNK_BYTES])


ZEROS = bytes(CHUNK_BYTES)


def entries_of_directory(top: str, left_out: Counter[str], bounds: Bounds) -> Iterator[Entry]:
    """The entries of a directory that is a layer, each directory before what is in it. It may be an upper directory
    of overlayfs, whose whiteouts are character devices 0/0 and whose opaque marks are extended attributes
    (overlayfs.rst, "whiteouts and opaque directories")."""
    firsts: dict[tuple[int, int], str] = {}
    waiting = [""]
    while waiting:
        path = waiting.pop()
        place = top + path
        status = os.lstat(place) if path else os.stat(place)
        if status.st_uid or status.st_gid:
            left_out["owners"] += 1
        bounds.take("entries", 1)
        yield entry_of(place, path or "/", status, firsts, bounds)
        if stat.S_ISDIR(status.st_mode):
            if is_opaque(place):
                yield Entry("file", f"{path}/{OPAQUE}", 0, 0, "")
            waiting += [f"{path}/{name}" for name in sorted(os.listdir(place), reverse=True)]


def entry_of(
    place: str, path: str, status: os.stat_result, firsts: dict[tuple[int, int], str], bounds: Bounds
) -> Entry:
    """What stands at a place, as the entry of a path. A file's first name is the file, all others are hard links."""
    mode, kind = stat.S_IMODE(status.st_mode), stat.S_IFMT(status.st_mode)
    if kind == stat.S_IFDIR:
        return Entry("directory", path, mode, 0, "")
    if kind == stat.S_IFCHR and status.st_rdev == 0:
        return Entry("file", f"{posixpath.dirname(path)}/{WHITEOUT}{posixpath.basename(path)}", 0, 0, "")
    if kind in (stat.S_IFREG, stat.S_IFLNK) and status.st_nlink > 1:
        first = firsts.setdefault((status.st_dev, status.st_ino), path)
        if first != path:
            return Entry("hard link", path, mode, 0, first)
    if kind == stat.S_IFLNK:
        return Entry("symlink", path, mode, 0, os.readlink(place))
    if kind == stat.S_IFREG:
        bounds.take("bytes", status.st_size)
        with open(place, "rb", buffering=0) as file:
            return Entry("file", path, mode, status.st_size, digest_of(file, status.st_size))
    return Entry(OTHER_KINDS.get(kind, "device file"), path, mode, 0, "")


OTHER_KINDS = {stat.S_IFIFO: "pipe", stat.S_IFSOCK: "socket"}


def is_opaque(directory: str) -> bool:
    """Whether overlayfs has marked a directory."""
    for name in OPAQUE_ATTRIBUTES:
        try:
            if os.getxattr(directory, name, follow_symlinks=False) == b"y":
                return True
        except OSError:
            continue
    return False
