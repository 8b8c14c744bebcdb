"""Unpacks a layer's archive in the root of this process, in the order of its entries, as containerd's package `archive`
does it."""

import errno
import os
import shutil
import stat
import tarfile
from collections.abc import Iterator
from contextlib import contextmanager
from dataclasses import dataclass, field
from typing import BinaryIO

WHITEOUT = ".wh."
OPAQUE = ".wh..wh..opq"
MOST_BYTES = 1 << 20
# The errors of a path that leads nowhere.
MISSING = (errno.ENOENT, errno.ENOTDIR, errno.ELOOP)
MOST_LINKS = 255


@dataclass
class Unpacking:
    """A layer that is unpacked. `is_settled` says that each mark hides things of lower layers alone, and would hide the
    same from any place in the archive."""

    archive: tarfile.TarFile
    is_small: bool
    own: set[str] = field(default_factory=set)
    sources: set[str] = field(default_factory=set)
    ways: list[tuple[str, str]] = field(default_factory=list)
    is_settled: bool = True

    def make(self, entry: tarfile.TarInfo) -> bool:
        """Makes an entry or a mark. Answers whether that can be done."""
        path = _path(entry.name)
        if os.path.basename(path).startswith(WHITEOUT):
            return self._hide(path)
        if path == "/":
            return True
        if not _is_kept(entry, path):
            return False
        way, name = os.path.split(path)
        above = self._go(way)
        if above is None:
            return False
        place = os.path.join(above, name)
        if self.is_small:
            self.ways.append((way, above))
            # containerd sets the times of directories in the end, and fails where one has gone.
            self.is_settled &= entry.isdir() or not (place in self.own or self._has_own_below(place))
        is_made = self._link(entry, place) if entry.islnk() else self._make(entry, place)
        if is_made:
            self.own.add(place)
        return is_made

    def end(self) -> None:
        """Looks once more where the ways of marks lead, now that all entries are made."""
        self.is_settled &= all(os.path.realpath(way) == place for way, place in self.ways)

    def _go(self, way: str) -> str | None:
        """Where a way leads, or None where its symlinks lead to one another. containerd takes `..` in the target of a
        symlink, and after one, as text where another symlink leads there (its package `fs`, `RootPath`): such a way
        isn't settled."""
        try:
            os.stat(way)
        except OSError as error:
            if error.errno == errno.ELOOP:
                self.is_settled = False
                return None
        place = os.path.realpath(way)
        self.is_settled &= not self.is_small or root_path(way) == place
        return place

    def _hide(self, path: str) -> bool:
        way, name = os.path.split(path)
        above = self._go(way)
        if above is None:
            return False
        self.ways.append((way, above))
        if name == OPAQUE:
            return self._empty(above)
        if name.startswith(WHITEOUT + WHITEOUT):
            return False
        place = os.path.join(above, name.removeprefix(WHITEOUT))
        if self._has_own_at(place) or self._has_own_below(place):
            self.is_settled = False
            return False
        return _remove(place)

    def _empty(self, directory: str) -> bool:
        """A directory in place of another one of its mode, which overlayfs makes opaque. The root stays."""
        if self._has_own_below(directory):
            self.is_settled = False
            return False
        if directory == "/":
            for name in os.listdir("/"):
                _remove(f"/{name}")
            return True
        with where_there():
            mode = os.lstat(directory).st_mode
            if stat.S_ISDIR(mode):
                shutil.rmtree(directory)
                os.mkdir(directory)
                os.chmod(directory, stat.S_IMODE(mode))
                return True
        return False

    def _has_own_at(self, place: str) -> bool:
        return place in self.own or place in self.sources

    def _has_own_below(self, place: str) -> bool:
        """Whether the layer has something below a place, or has taken something from there."""
        above = place.rstrip("/") + "/"
        return any(each.startswith(above) for places in (self.own, self.sources) for each in places)

    def _make(self, entry: tarfile.TarInfo, place: str) -> bool:
        if not _make_parents(place):
            return False
        if entry.isdir():
            if not os.path.isdir(place) or os.path.islink(place):
                _remove(place)
                os.mkdir(place)
            os.chmod(place, entry.mode & 0o7777)
            return True
        _remove(place)
        if entry.issym():
            os.symlink(entry.linkname, place)
        else:
            _write(self.archive, entry, place)
        return True

    def _link(self, entry: tarfile.TarInfo, place: str) -> bool:
        """A hard link of what is there, and not of what it would take the place of. It has the mode of its entry."""
        way, name = os.path.split("/" + entry.linkname.strip("/"))
        above = self._go(way)
        target = os.path.join(above or "", name)
        if above is None or name in ("", ".", "..") or not _is_there(target):
            return False
        if stat.S_ISDIR(os.lstat(target).st_mode) or f"{target}/".startswith(f"{place}/"):
            return False
        if not _make_parents(place):
            return False
        self.sources.add(target)
        _remove(place)
        os.link(target, place, follow_symlinks=False)
        if not os.path.islink(place):
            os.chmod(place, entry.mode & 0o7777)
        return True


def unpack(file: BinaryIO, kept: BinaryIO, is_small: bool) -> bool:
    """Makes the layer's entries. Those that can be made are written as an archive of their own. Answers whether the
    marks would hide the same from any place in the archive. Of a small one the ways of all entries are looked at too."""
    with tarfile.open(fileobj=file, encoding="utf-8", errors="surrogateescape") as archive:
        entries = archive.getmembers()
        ends = [entry.offset for entry in entries[1:]] + [archive.offset]
        unpacking = Unpacking(archive, is_small)
        made = [(entry.offset, end) for entry, end in zip(entries, ends) if unpacking.make(entry)]
        unpacking.end()
        for begin, end in made:
            archive.fileobj.seek(begin)
            kept.write(archive.fileobj.read(end - begin))
    kept.write(bytes(2 * tarfile.BLOCKSIZE))
    kept.flush()
    return unpacking.is_settled


def _path(name: str) -> str:
    return os.path.normpath("/" + name.lstrip("/"))


def root_path(way: str) -> str | None:
    """Where a way leads by containerd's package `fs` (`RootPath`), or None where it follows too many symlinks."""
    links = 0

    def follow(path: str) -> tuple[str, bool]:
        nonlocal links
        path = _path(path)
        if not os.path.islink(path):
            return path, False
        links += 1
        return os.readlink(path), True

    def walk(path: str) -> str:
        above, name = os.path.split(path.rstrip("/"))
        if not above.strip("/"):
            return follow(name)[0]
        above = walk(above)
        path, is_link = follow(os.path.join(above, name))
        return os.path.join(above, path) if is_link else path

    while links <= MOST_LINKS:
        before, way = links, walk(way)
        if before == links:
            return _path(way)
    return None


@contextmanager
def where_there() -> Iterator[None]:
    """Passes over a path that leads nowhere."""
    try:
        yield
    except OSError as error:
        if error.errno not in MISSING:
            raise


def _is_there(path: str) -> bool:
    with where_there():
        os.lstat(path)
        return True
    return False


def _remove(path: str) -> bool:
    with where_there():
        if stat.S_ISDIR(os.lstat(path).st_mode):
            shutil.rmtree(path)
        else:
            os.unlink(path)
        return True
    return False


def _is_kept(entry: tarfile.TarInfo, path: str) -> bool:
    if not (entry.isdir() or entry.isfile() or entry.issym() or entry.islnk()):
        return False
    try:
        names = [name.encode() for name in (*path.split("/"), entry.linkname)]
    except UnicodeEncodeError:
        return False
    if entry.issym() and not 1 <= len(names[-1]) <= 4095:
        return False
    return all(len(name) <= 255 for name in names[:-1])


def _make_parents(place: str) -> bool:
    """Makes the directories above that aren't there, unless something else is in their place."""
    old = os.umask(0o022)
    try:
        os.makedirs(os.path.dirname(place), exist_ok=True)
    except OSError as error:
        if error.errno not in (errno.EEXIST, *MISSING):
            raise
        return False
    finally:
        os.umask(old)
    return True


def _write(archive: tarfile.TarFile, entry: tarfile.TarInfo, place: str) -> None:
    """A file with its bytes. The holes of a sparse one stay holes."""
    descriptor = os.open(place, os.O_WRONLY | os.O_CREAT | os.O_EXCL, 0o600)
    with os.fdopen(descriptor, "wb") as file, archive.extractfile(entry) as content:
        if entry.issparse():
            file.truncate(entry.size)
            for offset, size in entry.sparse:
                content.seek(offset)
                file.seek(offset)
                file.write(content.read(size))
        else:
            shutil.copyfileobj(content, file, MOST_BYTES)
        os.fchmod(file.fileno(), entry.mode & 0o7777)
