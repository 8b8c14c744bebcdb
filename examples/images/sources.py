"""The layers of an image, from a layout, an archive or directories."""

import gzip
import io
import os
import posixpath
import stat
import tempfile
import zlib
from collections import Counter
from collections.abc import Callable, Iterator
from contextlib import contextmanager
from dataclasses import dataclass
from pathlib import Path
from tarfile import BLOCKSIZE
from typing import BinaryIO

from images.digests import Reader, Verifier
from images.documents import Blob, read_layers
from pibroulez.images.bounds import MOST_FILES, Bounds, Unreadable
from pibroulez.images.entries import CHUNK_BYTES, Entry, LayerArchive, entries_of_directory
from pibroulez.images.headers import FILES, Header, read_header

GZIP, ZSTD = b"\x1f\x8b", b"\x28\xb5\x2f\xfd"
BUFFER_BYTES = 1 << 18
# Of the name of a file in an image's archive: none that is looked for is longer.
MOST_FILE_NAME = 4095
HARD_LINK, SYMLINK = LINKS = b"1", b"2"


@dataclass
class Layer:
    """A layer: its digest, or none, and its entries. Where a digest isn't that of the layer's bytes, the entries end
    with an error."""

    digest: str | None
    entries: Callable[[Counter[str]], Iterator[Entry]]


@dataclass
class Folder:
    """The files of an image layout: those within it alone, also where a symlink leads to one."""

    top: Path

    def has(self, name: str) -> bool:
        return (self.top / name).is_file()

    def open(self, name: str) -> BinaryIO:
        top = os.path.realpath(self.top)
        try:
            place = os.path.realpath(os.path.join(top, name))
            if os.path.commonpath([top, place]) != top:
                raise Unreadable(f"{name} is outside of the layout")
            if not stat.S_ISREG(os.stat(place).st_mode):
                raise Unreadable(f"{name} is no file of the layout")
        except (FileNotFoundError, NotADirectoryError, ValueError):
            raise Unreadable(f"the layout has no file {name}") from None
        return open(place, "rb", buffering=0)


class Part(io.RawIOBase):
    """A part of a file, which reads it apart from its position."""

    def __init__(self, file: BinaryIO, begin: int, size: int) -> None:
        self._file, self._at, self._left = file, begin, size

    def readable(self) -> bool:
        return True

    def readinto(self, buffer: bytearray | memoryview) -> int:
        number = os.preadv(self._file.fileno(), [memoryview(buffer)[: self._left]], self._at)
        if number == 0 and self._left and len(buffer):
            raise Unreadable("an archive ends within a file")
        self._at += number
        self._left -= number
        return number


class Archive:
    """The files of an archive."""

    def __init__(self, file: BinaryIO) -> None:
        self._file = file
        self._members: dict[str, tuple[int, Header]] = {}
        size = file.seek(0, os.SEEK_END)
        file.seek(0)
        while any(block := file.read(BLOCKSIZE)):
            if len(block) != BLOCKSIZE:
                raise Unreadable("an archive ends within a header")
            header = read_header(block, file)
            if header is None:
                continue
            if header.size > size - file.tell():
                raise Unreadable("an archive ends within a file")
            if len(header.name) <= MOST_FILE_NAME:
                self._members[posixpath.normpath(header.name)] = file.tell(), header
            if len(self._members) > MOST_FILES:
                raise Unreadable(f"an archive of an image with more than {MOST_FILES:,} files")
            file.seek(header.size + -header.size % BLOCKSIZE, os.SEEK_CUR)

    def has(self, name: str) -> bool:
        return name in self._members

    def open(self, name: str) -> BinaryIO:
        found = self._members.get(name)
        if found and found[1].kind in LINKS:
            above = posixpath.dirname(name) if found[1].kind == SYMLINK else ""
            found = self._members.get(posixpath.normpath(posixpath.join(above, found[1].link)))
        if not found or found[1].kind not in FILES or found[1].sparse_size is not None:
            raise Unreadable(f"the archive has no file {name}")
        return Part(self._file, found[0], found[1].size)


@dataclass
class Files:
    """The files of an image, which are compared with their digests, unless that isn't wanted."""

    place: Folder | Archive
    bounds: Bounds
    is_verified: bool

    def has(self, name: str) -> bool:
        return self.place.has(name)

    def content(self, blob: Blob) -> bytes:
        """All bytes of a document."""
        with self.verifier(blob) as verifier, self.place.open(blob.name) as file:
            content = io.BufferedReader(Reader(file, verifier)).read(self.bounds.document_bytes + 1)
            self.bounds.take("document_bytes", len(content))
            verifier.verify()
        return content

    def entries(self, blob: Blob, digest: str, left_out: Counter[str]) -> Iterator[Entry]:
        """The entries of a layer. Its file and its archive are compared at the end."""
        with self.place.open(blob.name) as raw, self.verifier(blob) as packed:
            file = io.BufferedReader(Reader(raw, packed), BUFFER_BYTES)
            archive = unpacked(file)
            is_same = archive is file and blob.digest == digest
            with self.verifier(Blob("its archive", None if is_same else digest)) as plain:
                counted = io.BufferedReader(Reader(archive, plain, self.bounds), BUFFER_BYTES)
                yield from LayerArchive(counted, left_out, self.bounds).entries()
                while counted.read(CHUNK_BYTES):
                    pass
                packed.verify()
                plain.verify()

    def verifier(self, blob: Blob) -> Verifier:
        return Verifier(blob if self.is_verified else Blob(blob.name))


def layers_of(sources: list[Path], image: str | None, bounds: Bounds, is_verified: bool) -> list[Layer]:
    """The layers of the sources, from the lowest up."""
    first = sources[0]
    if first.is_dir() and not (first / "oci-layout").is_file():
        return [Layer(None, directory_of(number, str(it), bounds)) for number, it in enumerate(sources, 1)]
    if len(sources) != 1:
        raise Unreadable("one image, or directories")
    place = Folder(first) if first.is_dir() else Archive(seekable(open(first, "rb"), bounds))
    files = Files(place, bounds, is_verified)
    layers = enumerate(read_layers(files, image), 1)
    return [Layer(digest, archive_of(number, files, blob, digest)) for number, (blob, digest) in layers]


def directory_of(number: int, top: str, bounds: Bounds) -> Callable[[Counter[str]], Iterator[Entry]]:
    return lambda left_out: told_of(number, entries_of_directory(top, left_out, bounds))


def archive_of(number: int, files: Files, blob: Blob, digest: str) -> Callable[[Counter[str]], Iterator[Entry]]:
    return lambda left_out: told_of(number, files.entries(blob, digest, left_out))


def told_of(number: int, entries: Iterator[Entry]) -> Iterator[Entry]:
    """The entries of a layer, whose errors tell which layer it is."""
    try:
        yield from entries
    except (Unreadable, OSError, EOFError, zlib.error) as why:
        raise Unreadable(f"layer {number}: {why}") from why


def seekable(file: BinaryIO, bounds: Bounds) -> BinaryIO:
    """The file without compression, and where it can't be read from another place than the next, a copy of it."""
    plain = unpacked(file)
    if plain is file and file.seekable():
        return file
    copy = tempfile.TemporaryFile()
    while chunk := plain.read(CHUNK_BYTES):
        if copy.tell() + len(chunk) > bounds.bytes:
            raise Unreadable(f"more than {bounds.bytes:,} bytes of an archive")
        copy.write(chunk)
    copy.seek(0)
    return copy


def unpacked(file: BinaryIO) -> BinaryIO:
    """The bytes without their compression."""
    begin = file.peek(4)[:4]
    if begin == ZSTD:
        raise Unreadable("a layer or archive by zstd, which isn't read: save it by gzip, or without compression")
    return gzip.GzipFile(fileobj=file) if begin[:2] == GZIP else file
