"""Files whose bytes are compared with their digests."""

import hashlib
import io
from collections import deque
from concurrent.futures import Future, ThreadPoolExecutor
from typing import BinaryIO

from images.documents import Blob
from pibroulez.images.bounds import Bounds, Unreadable

# What waits for a digest, in reads.
MOST_WAITING = 8


class Verifier:
    """Compares the bytes of a file with what is told of it. A thread of its own takes their digest, beside the one
    that reads them."""

    def __init__(self, blob: Blob) -> None:
        self._blob, self._size = blob, 0
        self._hash = hashlib.new(blob.digest.partition(":")[0]) if blob.digest else None
        self._thread = ThreadPoolExecutor(1)
        self._waiting: deque[Future] = deque()

    def __enter__(self) -> "Verifier":
        return self

    def __exit__(self, *_: object) -> None:
        self._thread.shutdown()

    def take(self, chunk: bytes | memoryview) -> None:
        """The next bytes."""
        self._size += len(chunk)
        if self._hash:
            if len(self._waiting) == MOST_WAITING:
                self._waiting.popleft().result()
            self._waiting.append(self._thread.submit(self._hash.update, bytes(chunk)))

    def verify(self) -> None:
        """Unreadable where the bytes, all of them, aren't what is told."""
        blob = self._blob
        if blob.size is not None and self._size != blob.size:
            raise Unreadable(f"{blob.name} has {self._size:,} bytes, and not {blob.size:,}, as is told of it")
        while self._waiting:
            self._waiting.popleft().result()
        algorithm = blob.digest and blob.digest.partition(":")[0]
        if self._hash and (found := f"{algorithm}:{self._hash.hexdigest()}") != blob.digest:
            raise Unreadable(f"{blob.name} has the digest {found}, and not {blob.digest}, as is told of it")


class Reader(io.RawIOBase):
    """A file that is read from its begin to its end, with the digest of what is read, within bounds where there are
    some."""

    def __init__(self, file: BinaryIO, verifier: Verifier, bounds: Bounds | None = None) -> None:
        self._file, self._verifier, self._bounds = file, verifier, bounds

    def readable(self) -> bool:
        return True

    def readinto(self, buffer: bytearray | memoryview) -> int:
        number = self._file.readinto(buffer)
        self._verifier.take(memoryview(buffer)[:number])
        if self._bounds:
            self._bounds.take("bytes", number)
        return number
