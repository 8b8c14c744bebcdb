"""The commands on files of an active snapshot, and the lookups."""
from __future__ import annotations

import io
import json
from collections import Counter
from typing import BinaryIO, Mapping, Sequence

from ._calls import Calls
from .answers import (
    Batched,
    Changed,
    Content,
    Directory,
    File,
    Pair,
    Part,
    Seen,
    SizedContent,
    SizedFile,
    Symlink,
    Unpacked,
    Usage,
)
from .errors import NotEmpty, batched_in
from .images.batches import MOST_OPERATIONS, grouped
from .images.bounds import Bounds
from .images.entries import LayerArchive
from .images.seen import tree_of
from .images.unpack import unpack


class Files(Calls):
    """The calls of a store on files.

    `extra` is charged beyond what is needed, where a charge is made and it fits. `session` is the session of that
    charge. Lookups are in an active snapshot or a view, and with `peek` in a committed one.
    """

    def _change(self, do: str, session: int | None, extra: Pair | None, **fields: object) -> Changed:
        answer = self._call(do, session, extra=extra, **fields)
        return Changed(Usage(*answer["count"]), Usage(*answer["share"]))

    def mkdir(
        self,
        namespace: str,
        key: str,
        path: str,
        mode: int | None = None,
        *,
        extra: Pair | None = None,
        session: int | None = None,
    ) -> Changed:
        """Makes a directory."""
        return self._change("mkdir", session, extra, ns=namespace, key=key, path=path, mode=mode)

    def create(
        self,
        namespace: str,
        key: str,
        path: str,
        mode: int | None = None,
        *,
        extra: Pair | None = None,
        session: int | None = None,
    ) -> Changed:
        """Makes an empty file."""
        return self._change("create", session, extra, ns=namespace, key=key, path=path, mode=mode)

    def put(
        self,
        namespace: str,
        key: str,
        path: str,
        size: int,
        digest: str | None = None,
        mode: int | None = None,
        *,
        extra: Pair | None = None,
        session: int | None = None,
    ) -> Changed:
        """Makes a file of a size, whose bytes aren't kept."""
        return self._change(
            "put", session, extra, ns=namespace, key=key, path=path, mode=mode, size=size, digest=digest
        )

    def write(
        self,
        namespace: str,
        key: str,
        path: str,
        text: str | None = None,
        *,
        offset: int | None = None,
        fill: tuple[int, int] | None = None,
        extra: Pair | None = None,
        session: int | None = None,
    ) -> Changed:
        """Writes a text, or where there is none `fill`: a byte, and how many times."""
        return self._change(
            "write", session, extra, ns=namespace, key=key, path=path, text=text, offset=offset, fill=fill
        )

    def truncate(
        self,
        namespace: str,
        key: str,
        path: str,
        size: int,
        *,
        extra: Pair | None = None,
        session: int | None = None,
    ) -> Changed:
        """Cuts a file, or fills it with zero bytes, to a size."""
        return self._change("truncate", session, extra, ns=namespace, key=key, path=path, size=size)

    def setmode(
        self,
        namespace: str,
        key: str,
        path: str,
        mode: int,
        *,
        extra: Pair | None = None,
        session: int | None = None,
    ) -> Changed:
        """Sets the mode of a file or directory."""
        return self._change("setmode", session, extra, ns=namespace, key=key, path=path, mode=mode)

    def symlink(
        self,
        namespace: str,
        key: str,
        path: str,
        target: str,
        *,
        extra: Pair | None = None,
        session: int | None = None,
    ) -> Changed:
        """Makes a symlink."""
        return self._change("symlink", session, extra, ns=namespace, key=key, path=path, target=target)

    def link(
        self,
        namespace: str,
        key: str,
        old_path: str,
        new_path: str,
        *,
        extra: Pair | None = None,
        session: int | None = None,
    ) -> Changed:
        """Gives a file or symlink one more name. The paths are the command's `from` and `to`."""
        paths = {"from": old_path, "to": new_path}
        return self._change("link", session, extra, ns=namespace, key=key, **paths)

    def rename(
        self,
        namespace: str,
        key: str,
        old_path: str,
        new_path: str,
        *,
        extra: Pair | None = None,
        session: int | None = None,
    ) -> Changed:
        """Moves what is at a path. The paths are the command's `from` and `to`."""
        paths = {"from": old_path, "to": new_path}
        return self._change("rename", session, extra, ns=namespace, key=key, **paths)

    def unlink(
        self, namespace: str, key: str, path: str, *, extra: Pair | None = None, session: int | None = None
    ) -> Changed:
        """Removes a file or symlink."""
        return self._change("unlink", session, extra, ns=namespace, key=key, path=path)

    def rmdir(
        self, namespace: str, key: str, path: str, *, extra: Pair | None = None, session: int | None = None
    ) -> Changed:
        """Removes an empty directory."""
        return self._change("rmdir", session, extra, ns=namespace, key=key, path=path)

    def whiteout(
        self, namespace: str, key: str, path: str, *, extra: Pair | None = None, session: int | None = None
    ) -> Changed:
        """Removes what is at a path, a directory with all that is in it."""
        return self._change("whiteout", session, extra, ns=namespace, key=key, path=path)

    def opaque(
        self, namespace: str, key: str, path: str, *, extra: Pair | None = None, session: int | None = None
    ) -> Changed:
        """Hides what the layers below have in a directory."""
        return self._change("opaque", session, extra, ns=namespace, key=key, path=path)

    def batch(
        self,
        namespace: str,
        key: str,
        need: Pair,
        operations: Sequence[Mapping[str, object]],
        *,
        whole: bool = False,
        session: int | None = None,
    ) -> Batched:
        """Charges what is needed, and carries out operations in order, each the fields of a file command with its word
        `do` and without `ns`, `key` and `extra`.

        One that needs more than is charged makes a charge of its own. Raises OperationRefused at the first that is
        refused: those before it are done, or with `whole` none, and the layer is as it was. Where the charge is refused,
        that is raised, and nothing is done.
        """
        answer = self._call("batch", session, ns=namespace, key=key, need=need, ops=operations, whole=whole or None)
        return batched_in(answer)

    def unpack(
        self,
        namespace: str,
        key: str,
        archive: BinaryIO,
        *,
        bounds: Bounds | None = None,
        operations: int = MOST_OPERATIONS,
        whole: bool = False,
        session: int | None = None,
    ) -> Unpacked:
        """Makes the layer of a new active snapshot by a layer's archive (tar, without compression), in batches of
        `operations` that are charged what all need.

        Whiteouts (`.wh.NAME`) and opaque marks (`.wh..wh..opq`) come first, since they hide what lower layers show and
        nothing of their own (OCI image specification, "Whiteouts"). An entry takes the place of what is seen at its path,
        unless both are directories. Directories that have no entry of their own get the mode octal 755. Files are made
        by their sizes and digests. What the store doesn't keep is left out, and counted.

        The store is asked what lower layers show, and nothing is made before the archive is read. Raises NotEmpty where
        the layer has more than its root, and `images.bounds.Unreadable` for an archive that can't be read or is beyond
        the bounds. Where an operation is refused, that is raised: those before it are done, with `whole` those of the
        batches before.
        """
        last = self.batch(namespace, key, (0, 0), [], session=session)
        if last.count != (1, 1):
            raise NotEmpty("NotEmpty", "file")
        within = bounds or Bounds()
        tree = tree_of(lambda path: self.look(namespace, key, path), lambda path: self.listdir(namespace, key, path), within)
        left_out: Counter[str] = Counter()
        lines = io.StringIO()
        tree.begin_layer(lines)
        unpack(tree, LayerArchive(archive, left_out, within).entries(), left_out)
        lines.seek(0)
        for group in grouped(lines, operations):
            given = [json.loads(line) for line in group]
            last = self.batch(namespace, key, (tree.blocks, tree.inodes), given, whole=whole, session=session)
        return Unpacked(last.count, last.share, dict(left_out))

    # Lookups, which make no entry

    def look(self, namespace: str, key: str, path: str, peek: bool = False) -> Seen | None:
        """What is seen at a path, or None."""
        seen = self._call("look", ns=namespace, key=key, path=path, peek=peek or None)["seen"]
        if seen is None:
            return None
        if "dir" in seen:
            return Directory(seen["dir"])
        if "digest" in seen:
            return SizedFile(seen["file"], seen["size"], seen["digest"])
        if "file" in seen:
            return File(seen["file"], seen["size"])
        return Symlink(seen["symlink"])

    def listdir(self, namespace: str, key: str, path: str, peek: bool = False) -> tuple[str, ...]:
        """The names in a directory, in byte order. The command is `list`."""
        return tuple(self._call("list", ns=namespace, key=key, path=path, peek=peek or None)["names"])

    def read(self, namespace: str, key: str, path: str, peek: bool = False) -> Content | SizedContent:
        """The first bytes of a file, and its size; of one whose bytes aren't kept its size and its digest."""
        answer = self._call("read", ns=namespace, key=key, path=path, peek=peek or None)
        if "digest" in answer:
            return SizedContent(answer["size"], answer["digest"])
        return Content(bytes.fromhex(answer["head"]), answer["size"])

    def read_part(
        self, namespace: str, key: str, path: str, offset: int = 0, max: int | None = None, peek: bool = False
    ) -> Part | SizedContent:
        """The bytes of a file from an offset on, at most this number, or all, and its size; of one whose bytes aren't kept
        its size and its digest."""
        answer = self._call("read", ns=namespace, key=key, path=path, offset=offset, max=max, peek=peek or None)
        if "digest" in answer:
            return SizedContent(answer["size"], answer["digest"])
        return Part(bytes.fromhex(answer["bytes"]), answer["size"])

    def resolve(self, namespace: str, key: str, path: str, peek: bool = False) -> str:
        """Where a path leads, its symlinks followed."""
        found: str = self._call("resolve", ns=namespace, key=key, path=path, peek=peek or None)["path"]
        return found

    def du(self, namespace: str, key: str, path: str, peek: bool = False) -> Usage:
        """What is taken by what is seen at a path and below it, as du(1) counts it."""
        answer = self._call("du", ns=namespace, key=key, path=path, peek=peek or None)
        return Usage(answer["blocks"], answer["inodes"])
