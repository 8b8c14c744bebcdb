"""The headers of an archive: POSIX.1-1988 ("ustar"), PAX and GNU, read as Go's `archive/tar` does."""
from __future__ import annotations

import re
from dataclasses import dataclass, field
from tarfile import BLOCKSIZE
from typing import BinaryIO

from .bounds import MOST_HEADER_BYTES, Unreadable

ERRORS = "surrogateescape"
MODE_BITS = 0o7777
# The digits of the length of a PAX record.
MOST_DIGITS = 10
GREATEST_NUMBER = (1 << 63) - 1
OCTAL = re.compile(rb"[0-7]+")

PAX, PAX_OF_SOLARIS, PAX_GLOBAL, LONG_NAME, LONG_LINK = b"x", b"X", b"g", b"L", b"K"
EXTENDED = (PAX, PAX_OF_SOLARIS, LONG_NAME, LONG_LINK)
FILE, OLD_FILE, CONTIGUOUS_FILE, DIRECTORY, SPARSE = b"0", b"\0", b"7", b"5", b"S"
FILES = (FILE, CONTIGUOUS_FILE, SPARSE)
# Links, devices, directories and pipes have no bytes, whatever their size.
WITHOUT_BYTES = b"123456"
XATTR = "SCHILY.xattr."
TEXTS = (b"path", b"linkpath", b"GNU.sparse.name")

Part = tuple[int, int]


@dataclass
class Header:
    """What an archive says of an entry: its kind by its type flag, and the number of bytes that follow. A sparse file
    has more: its size, and the parts that these bytes are, each by its offset and size."""

    kind: bytes
    name: str
    link: str
    mode: int
    size: int
    has_owner: bool
    xattrs: int = 0
    sparse_size: int | None = None
    parts: list[Part] = field(default_factory=list)


@dataclass
class Room:
    """What is left of the bytes that the headers of an entry may have."""

    file: BinaryIO
    left: int = MOST_HEADER_BYTES

    def read(self, size: int) -> bytes:
        """The next bytes. Unreadable where these are too many or not there."""
        if size > self.left:
            raise Unreadable(f"the headers of an entry have more than {MOST_HEADER_BYTES:,} bytes")
        self.left -= size
        found = self.file.read(size)
        if len(found) != size:
            raise Unreadable("an archive ends within a header")
        return found

    def read_blocks(self, size: int) -> bytes:
        """The same, with what fills the last block."""
        return self.read(size + -size % BLOCKSIZE)[:size]


def read_header(block: bytes, file: BinaryIO) -> Header | None:
    """The header of an entry, of which the block is the first, and which leaves the file at the entry's bytes. None
    where it is a global one, which is passed over (containerd's package `archive`)."""
    room = Room(file)
    records: dict[str, str] = {}
    long: dict[bytes, str] = {}
    while (kind := kind_of(block)) in EXTENDED:
        content = room.read_blocks(size_of(block))
        if kind in (LONG_NAME, LONG_LINK):
            long[kind] = text_in(content)
        else:
            records = records_of(content)
        block = room.read(BLOCKSIZE)
        if not any(block):
            raise Unreadable("an archive ends within a header")
    if kind == PAX_GLOBAL:
        room.read_blocks(size_of(block))
        return None
    found = header_of(block, kind, records)
    found.name = long.get(LONG_NAME) or found.name
    found.link = long.get(LONG_LINK) or found.link
    if kind == SPARSE:
        add_gnu_parts(found, block, room)
    elif kind in FILES:
        add_pax_parts(found, records, room)
    return found


def header_of(block: bytes, kind: bytes, records: dict[str, str]) -> Header:
    """What a header and its PAX records say, but for a sparse file's parts."""
    name = records.get("path") or name_of(block)
    is_old_directory = block[156:157] == OLD_FILE and name.endswith("/")
    return Header(
        DIRECTORY if is_old_directory else kind,
        name,
        records.get("linkpath") or text_in(block[157:257]),
        number_in(block[100:108]) & MODE_BITS,
        0 if kind in WITHOUT_BYTES or is_old_directory else number_of(records, "size", size_of(block)),
        any(number_of(records, key, number_in(block[at : at + 8])) for key, at in (("uid", 108), ("gid", 116))),
        sum(key.startswith(XATTR) for key in records),
    )


def kind_of(block: bytes) -> bytes:
    """The type flag, of a header whose sum is right."""
    rest, told = block[:148] + b" " * 8 + block[156:], number_in(block[148:156])
    if told != sum(rest) and told != sum(byte - (byte & 0x80) * 2 for byte in rest):
        raise Unreadable("a header whose sum is wrong")
    kind = block[156:157]
    return FILE if kind == OLD_FILE else kind


def name_of(block: bytes) -> str:
    """The name of a header itself. Only that of POSIX has a prefix."""
    name, prefix = text_in(block[:100]), b""
    if block[257:263] == b"ustar\0":
        prefix = block[345:476] if block[508:] == b"tar\0" else block[345:500]
    return f"{text_in(prefix)}/{name}" if prefix.strip(b"\0") else name


def size_of(block: bytes) -> int:
    return not_negative(number_in(block[124:136]))


def not_negative(size: int) -> int:
    if size < 0:
        raise Unreadable("a size below 0")
    return size


def number_in(field: bytes) -> int:
    """A number of a header: octal, or by GNU binary with a mark in its first bit."""
    if field[0] & 0x80:
        number = int.from_bytes(field, "big") & (1 << 8 * len(field) - 1) - 1
        number -= (field[0] & 0x40) << 8 * len(field) - 7
    else:
        digits = field.strip(b" \0").partition(b"\0")[0]
        if digits and not OCTAL.fullmatch(digits):
            raise Unreadable("a number of a header that isn't octal")
        number = int(digits or b"0", 8)
    if abs(number) > GREATEST_NUMBER:
        raise Unreadable("a number of a header above 2^63")
    return number


def text_in(field: bytes) -> str:
    """A text of a header, up to its first NUL."""
    return field.partition(b"\0")[0].decode("utf-8", ERRORS)


def records_of(content: bytes) -> dict[str, str]:
    """The records of a PAX header (pax(1), "pax Extended Header"). Those of a sparse file's parts are put together,
    as the later form of them has it (GNU tar, "Storing Sparse Files")."""
    found: dict[str, str] = {}
    parts: list[str] = []
    at = 0
    while at < len(content):
        length, space, _ = content[at : at + MOST_DIGITS + 1].partition(b" ")
        end = at + int(length) if space and length.isdigit() else 0
        key, equals, value = content[at + len(length) + 1 : end].partition(b"=")
        if end > len(content) or not key or not equals or not value.endswith(b"\n") or b"\0" in key:
            raise Unreadable("a PAX record that is none")
        if b"\0" in value and key in TEXTS:
            raise Unreadable("a path or target with a NUL")
        at, text = end, value[:-1].decode("utf-8", ERRORS)
        if key in (b"GNU.sparse.offset", b"GNU.sparse.numbytes"):
            parts.append(text)
        else:
            found[key.decode("utf-8", ERRORS)] = text
    return found | {"GNU.sparse.map": ",".join(parts)} if parts else found


def number_of(records: dict[str, str], key: str, default: int) -> int:
    """A number of a record, or where there is none the default."""
    return not_negative(decimal(records[key])) if records.get(key) else default


def decimal(text: str | bytes) -> int:
    """A number that is written out. Unreadable where it is none."""
    digits = text.encode("utf-8", ERRORS) if isinstance(text, str) else text
    sign, digits = digits[:1] == b"-", digits.removeprefix(b"-")
    if not digits.isdigit() or len(digits) > 19 or int(digits) > GREATEST_NUMBER:
        raise Unreadable("a number of a PAX header that is none")
    return -int(digits) if sign else int(digits)


# -- sparse files (GNU tar, "Storing Sparse Files")


def add_gnu_parts(header: Header, block: bytes, room: Room) -> None:
    """The parts in a header of kind `S` and in the blocks after it."""
    numbers: list[int] = []
    header.sparse_size = not_negative(number_in(block[483:495]))
    at, count, has_more = 386, 4, block[482]
    while True:
        for begin in range(at, at + 24 * count, 24):
            if not block[begin]:
                break
            numbers += (number_in(block[begin : begin + 12]), number_in(block[begin + 12 : begin + 24]))
        if not has_more:
            break
        block = room.read(BLOCKSIZE)
        at, count, has_more = 0, 21, block[504]
    header.parts = parts_of(header, numbers)


def add_pax_parts(header: Header, records: dict[str, str], room: Room) -> None:
    """The parts of a file by the records of its PAX header, or where these say so by its first bytes."""
    version = records.get("GNU.sparse.major"), records.get("GNU.sparse.minor")
    if version == ("1", "0"):
        numbers, size = numbers_before(room)
        header.size = not_negative(header.size - size)
    elif "GNU.sparse.map" in records:
        numbers = [decimal(each) for each in records["GNU.sparse.map"].split(",") if each]
    else:
        return
    header.name = records.get("GNU.sparse.name") or header.name
    header.sparse_size = number_of(records, "GNU.sparse.realsize", number_of(records, "GNU.sparse.size", header.size))
    header.parts = parts_of(header, numbers)


def numbers_before(room: Room) -> tuple[list[int], int]:
    """The numbers of a map before a file's bytes: how many parts there are, then those of each. And the bytes that
    they take, in whole blocks."""
    lines: list[bytes] = []
    rest, size, wanted = b"", 0, 1
    while len(lines) < wanted:
        *found, rest = (rest + room.read(BLOCKSIZE)).split(b"\n")
        size += BLOCKSIZE
        if len(rest) > BLOCKSIZE:
            raise Unreadable("a number of a sparse file that is none")
        lines += found
        if lines:
            wanted = 1 + 2 * not_negative(decimal(lines[0]))
    return [decimal(line) for line in lines[1:wanted]], size


def parts_of(header: Header, numbers: list[int]) -> list[Part]:
    """The parts by their offsets and sizes: in order, within the file's size, and all of the bytes that follow."""
    parts = list(zip(numbers[::2], numbers[1::2]))
    end = 0
    for offset, size in parts:
        if offset < end or size < 0:
            raise Unreadable("a sparse file whose parts aren't in order")
        end = offset + size
    if len(numbers) % 2 or end > header.sparse_size or sum(size for _, size in parts) != header.size:
        raise Unreadable("a sparse file whose parts aren't its bytes")
    return parts
