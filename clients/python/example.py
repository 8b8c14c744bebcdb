"""The first task of docs/GUIDE.md, "To unpack an image": two layers are unpacked from their archives.

    python3 clients/python/example.py [PROGRAM]

They are those of examples/tour/12-unpack-an-image.jsonl, and take 7/5 and 4/5.
"""
from __future__ import annotations

import io
import os
import posixpath
import sys
import tarfile
from typing import Iterable

from pibroulez import PROGRAM, AlreadyExists, Directory, Error, NotFound, Store, Usage

NAMESPACE = "web"
LEASE = "pull"
WHITEOUT = ".wh."


def path_of(member: tarfile.TarInfo) -> str:
    return posixpath.normpath("/" + member.name)


def hidden_by(path: str) -> str | None:
    """What the path of an archive's whiteout hides."""
    folder, name = posixpath.split(path)
    return posixpath.join(folder, name[len(WHITEOUT) :]) if name.startswith(WHITEOUT) else None


def count_of(members: Iterable[tarfile.TarInfo]) -> Usage:
    """The layer's whole count by the archive's headers: its root, each entry, and the directories above them."""
    blocks, inodes = 1, 1
    there = {"/"}
    for member in members:
        path = path_of(member)
        above = posixpath.dirname(path)
        while above not in there:
            there.add(above)
            blocks, inodes = blocks + 1, inodes + 1
            above = posixpath.dirname(above)
        if path not in there and not member.islnk():
            blocks += 1 if member.isdir() else (member.size + 4095) // 4096
            inodes += 1
        if member.isdir():
            there.add(path)
    return Usage(blocks, inodes)


def unpack_member(store: Store, key: str, archive: tarfile.TarFile, member: tarfile.TarInfo) -> None:
    path = path_of(member)
    hidden = hidden_by(path)
    if hidden is not None:
        if isinstance(store.look(NAMESPACE, key, hidden), Directory):
            store.rmdir(NAMESPACE, key, hidden)
        else:
            store.unlink(NAMESPACE, key, hidden)
    elif member.isdir():
        store.mkdir(NAMESPACE, key, path, member.mode)
    elif member.issym():
        store.symlink(NAMESPACE, key, path, member.linkname)
    elif member.islnk():
        store.link(NAMESPACE, key, posixpath.normpath("/" + member.linkname), path)
    else:
        content = archive.extractfile(member)
        assert content
        store.create(NAMESPACE, key, path, member.mode)
        store.write(NAMESPACE, key, path, content.read().decode())


def unpack_layer(store: Store, name: str, parent: str, layer: bytes) -> Usage:
    """Unpacks a layer's archive under a name, where it isn't there already. What it takes."""
    try:
        store.stat(NAMESPACE, name)
        return store.usage(NAMESPACE, name)
    except NotFound:
        pass
    key = f"unpack {name}"
    store.prepare(NAMESPACE, key, parent)
    try:
        with tarfile.open(fileobj=io.BytesIO(layer)) as archive:
            store.charge(NAMESPACE, key, count_of(archive))
            for member in archive:
                unpack_member(store, key, archive, member)
        return store.commit(NAMESPACE, key, name, lease=LEASE).usage
    except AlreadyExists:
        store.discard(NAMESPACE, key)
        return store.usage(NAMESPACE, name)
    except Error:
        store.discard(NAMESPACE, key)
        raise


def archive_of(*entries: tuple[str, bytes | None]) -> bytes:
    """An archive of directories, which have no content, and of files."""
    written = io.BytesIO()
    with tarfile.open(fileobj=written, mode="w") as archive:
        for name, content in entries:
            member = tarfile.TarInfo(name)
            if content is None:
                member.type, member.mode = tarfile.DIRTYPE, 0o755
            else:
                member.size = len(content)
            archive.addfile(member, io.BytesIO(content or b""))
    return written.getvalue()


def main(program: str | os.PathLike[str]) -> None:
    image = {
        "layer-1": archive_of(("bin", None), ("bin/sh", bytes(10_000)), ("etc", None), ("etc/motd", b"hello")),
        "layer-2": archive_of(("srv", None), ("srv/index.html", b"<h1>hello</h1>"), ("etc/.wh.motd", b"")),
    }
    with Store("/var/lib/snapper", {NAMESPACE: (1000, 1000)}, program=program) as store:
        store.lease_create(NAMESPACE, LEASE, until=600)
        parent = ""
        for name, layer in image.items():
            usage = unpack_layer(store, name, parent, layer)
            print(f"{name} takes {usage.blocks}/{usage.inodes}")
            parent = name


if __name__ == "__main__":
    main(sys.argv[1] if len(sys.argv) > 1 else PROGRAM)
