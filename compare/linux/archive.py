"""Makes an archive of `docker save` from the files of this machine, whose layers delete, replace, link and hide what
the ones below have."""

import gzip
import hashlib
import io
import json
import os
import stat
import tarfile
from collections.abc import Callable, Iterator
from dataclasses import dataclass, field
from pathlib import Path
from random import Random

# A file of the machine above this is made sparse, and no larger than three times as much.
MOST_BYTES = 65_536
SPARSE_BYTES = 40_000_000
# Of a layer.
MOST_FILES = 400_000
FEW, SOME, MANY = 10, 100, 1000


@dataclass
class Maker:
    """The layers' archives, which are files of a directory, and what the layers so far have."""

    place: Path
    random: Random
    number: int = 0
    directories: list[str] = field(default_factory=list)
    files: list[str] = field(default_factory=list)
    # The directories in which the last layer has marks, and these, those that it has itself, and all above them.
    marked: set[str] = field(default_factory=set)
    own: set[str] = field(default_factory=set)

    def layer(self, fill: Callable[["Maker", tarfile.TarFile], None]) -> None:
        """Makes the next layer. Those of even numbers are compressed."""
        self.number += 1
        self.marked.clear()
        self.own.clear()
        with open(self.place / f"{self.number}.tar", "wb") as plain:
            with tarfile.open(fileobj=plain, mode="w", format=tarfile.PAX_FORMAT) as archive:
                fill(self, archive)

    def put(self, archive: tarfile.TarFile, path: str, content: bytes, mode: int = 0o644) -> None:
        """A file."""
        archive.addfile(make_entry(path, tarfile.REGTYPE, mode, len(content)), io.BytesIO(content))
        self.files.append(path)

    def mark(self, archive: tarfile.TarFile, path: str) -> None:
        """A whiteout or an opaque mark."""
        archive.addfile(make_entry(path, tarfile.REGTYPE, 0o644))
        self.marked.add(path.rpartition("/")[0])
        self._own(path.rpartition("/")[0])

    def put_directory(self, archive: tarfile.TarFile, path: str, mode: int = 0o755) -> None:
        archive.addfile(make_entry(path, tarfile.DIRTYPE, mode))
        self._own(path)

    def _own(self, path: str) -> None:
        """Notes a directory, in whose place nothing else comes in this layer: containerd would fail at its end."""
        while path and path not in self.own:
            self.own.add(path)
            path = path.rpartition("/")[0]

    def forget(self, path: str) -> None:
        """A directory that is something else from now on."""
        self.directories = [each for each in self.directories if not f"{each}/".startswith(f"{path}/")]
        self.files = [each for each in self.files if not each.startswith(f"{path}/")]

    def some_files(self, number: int) -> list[str]:
        return self.random.sample(self.files, min(number, len(self.files)))

    def some_directories(self, number: int) -> list[str]:
        """Directories that aren't near the root, so that few of them have most of the image."""
        deep = [path for path in self.directories if path.count("/") >= 3]
        return self.random.sample(deep, min(number, len(deep)))


def make_image(place: Path, source: str, files: int, seed: int) -> Path:
    """An archive of an image with a number of files of the source, in a directory."""
    maker = Maker(place, Random(seed))
    machine = _machine(source, files)
    at_once = min(MOST_FILES, -(-files * 3 // 5))
    for first in range(0, files, at_once):
        number = min(at_once, files - first)
        maker.layer(lambda it, archive: _add(it, archive, machine, number, is_first=not first))
    maker.layer(_changes)
    maker.layer(lambda it, archive: it.put(archive, "etc/image.conf", b"last\n", 0o600))
    return saved(maker)


def saved(maker: Maker) -> Path:
    """The layers as one archive."""
    saved, digests, names = maker.place / "image.tar", [], []
    with tarfile.open(saved, "w") as archive:
        for number in range(1, maker.number + 1):
            layer = maker.place / f"{number}.tar"
            digests.append(f"sha256:{_digest(layer)}")
            names.append(f"{number}/layer.tar")
            if number % 2 == 0:
                with open(layer, "rb") as plain, gzip.open(f"{layer}.gz", "wb", compresslevel=1) as packed:
                    packed.writelines(iter(lambda: plain.read(1 << 20), b""))
                layer = layer.with_suffix(".tar.gz")
            archive.add(layer, names[-1])
        config = json.dumps({"rootfs": {"type": "layers", "diff_ids": digests}}).encode()
        manifest = json.dumps([{"Config": "config.json", "RepoTags": ["machine:1"], "Layers": names}]).encode()
        for name, content in (("config.json", config), ("manifest.json", manifest)):
            archive.addfile(make_entry(name, tarfile.REGTYPE, 0o644, len(content)), io.BytesIO(content))
    return saved


def _digest(path: Path) -> str:
    with open(path, "rb") as file:
        return hashlib.file_digest(file, "sha256").hexdigest()


def _machine(source: str, files: int) -> Iterator[os.DirEntry]:
    """Directories before what is in them, files and symlinks, until there are enough files."""
    left, waiting = files, [source]
    while waiting and left > 0:
        try:
            with os.scandir(waiting.pop()) as found:
                below = sorted(found, key=lambda each: each.name)
        except OSError:
            continue
        for each in below:
            is_directory = each.is_dir(follow_symlinks=False)
            left -= not is_directory
            yield each
            if is_directory:
                waiting.append(each.path)


def _add(
    maker: Maker,
    archive: tarfile.TarFile,
    machine: Iterator[os.DirEntry],
    files: int,
    is_first: bool,
) -> None:
    """A number of files of the machine, and more: its marks, which come first, and changes."""
    gone = [] if is_first else _hide(maker, archive)
    firsts: dict[int, str] = {}
    while files > 0 and (each := next(machine, None)) is not None:
        files -= _add_entry(maker, archive, each, firsts)
    if is_first:
        _unusual(maker, archive)
    else:
        _change(maker, archive, gone)


def _add_entry(maker: Maker, archive: tarfile.TarFile, each: os.DirEntry, firsts: dict[int, str]) -> bool:
    """What stands on the machine. A second name is a hard link. Answers whether it is no directory."""
    path, status = each.path.lstrip("/"), each.stat(follow_symlinks=False)
    mode = stat.S_IMODE(status.st_mode)
    if stat.S_ISDIR(status.st_mode):
        maker.put_directory(archive, path, mode)
        maker.directories.append(path)
        return False
    if stat.S_ISLNK(status.st_mode):
        archive.addfile(make_entry(path, tarfile.SYMTYPE, 0o777, link=os.readlink(each.path)))
    elif not stat.S_ISREG(status.st_mode):
        return False
    elif (first := firsts.setdefault(status.st_ino, path)) != path:
        archive.addfile(make_entry(path, tarfile.LNKTYPE, mode, link=first))
    elif status.st_size > MOST_BYTES:
        _add_sparse(archive, path, MOST_BYTES + status.st_size % (2 * MOST_BYTES), mode)
    else:
        with open(each.path, "rb") as file:
            archive.addfile(make_entry(path, tarfile.REGTYPE, mode, status.st_size), file)
    maker.files.append(path)
    return True


def _add_sparse(archive: tarfile.TarFile, path: str, size: int, mode: int) -> None:
    """A file that is a hole but for its last byte (GNU tar, "Storing Sparse Files", PAX format 1.0)."""
    content = f"1\n{size - 1}\n1\n".encode().ljust(tarfile.BLOCKSIZE, b"\0") + b"x"
    entry = make_entry(path, tarfile.REGTYPE, mode, len(content))
    entry.pax_headers = {
        "GNU.sparse.major": "1",
        "GNU.sparse.minor": "0",
        "GNU.sparse.name": path,
        "GNU.sparse.realsize": str(size),
    }
    archive.addfile(entry, io.BytesIO(content))


def make_entry(path: str, kind: bytes, mode: int, size: int = 0, link: str = "") -> tarfile.TarInfo:
    """The header of an entry."""
    entry = tarfile.TarInfo(path)
    entry.type, entry.mode, entry.size, entry.linkname = kind, mode, size, link
    return entry


def _unusual(maker: Maker, archive: tarfile.TarFile) -> None:
    """What is left out, and what has no directory of its own."""
    for number in range(3):
        _add_sparse(archive, f"srv/sparse-{number}", SPARSE_BYTES, 0o600)
        archive.addfile(make_entry(f"srv/device-{number}", tarfile.CHRTYPE, 0o600))
        archive.addfile(make_entry(f"srv/pipe-{number}", tarfile.FIFOTYPE, 0o600))
    for path in ("srv/no-utf-8-\udcff", f"srv/{'long' * 64}", "srv/\udcff/below"):
        archive.addfile(make_entry(path, tarfile.REGTYPE, 0o644))
    for target in ("", "t" * 4096):
        archive.addfile(make_entry("srv/bad-target", tarfile.SYMTYPE, 0o777, link=target))
    long = "/".join(["a-directory-with-a-long-name"] * 12)
    maker.put(archive, f"./srv/{long}/file", b"deep", 0o4755)
    maker.put(archive, "srv/ünïcode \"quoted\"/\\x", b"text")
    archive.addfile(make_entry("srv/deep", tarfile.SYMTYPE, 0o777, link=f"../srv/{long}"))
    archive.addfile(make_entry("srv/absolute", tarfile.SYMTYPE, 0o777, link=f"/srv/{long}"))
    archive.addfile(make_entry("srv/outside", tarfile.SYMTYPE, 0o777, link="../../../../new/place"))
    for number, path in enumerate(maker.some_directories(FEW)):
        archive.addfile(make_entry(f"srv/to-a-directory-{number}", tarfile.SYMTYPE, 0o777, link=f"/{path}"))
    for path in ("srv/deep/by-a-symlink", "srv/absolute/by-a-symlink-too", "srv/outside/x"):
        maker.put(archive, path, b"text")
    for path in ("../above-the-root", "/srv//.//rooted", "srv/deep/../beside"):
        maker.put(archive, path, b"text")


def _changes(maker: Maker, archive: tarfile.TarFile) -> None:
    """What layers do to the ones below, in the order in which exporters write it: marks before what is beside them."""
    _change(maker, archive, _hide(maker, archive))


def _change(maker: Maker, archive: tarfile.TarFile, gone: list[str]) -> None:
    for path in maker.random.sample(gone, min(SOME, len(gone))):
        maker.put(archive, f"{path}-beside", b"beside")
        if path not in maker.own:
            maker.put(archive, path, b"again" * SOME)
    for path in maker.random.sample(sorted(maker.marked), min(FEW, len(maker.marked))):
        maker.put(archive, f"{path}/within", b"within")
    for path in sorted(set(maker.some_files(MANY)) - maker.own):
        maker.put(archive, path, b"new" * maker.random.randrange(5000), maker.random.choice((0o644, 0o755)))
    for path in maker.some_directories(SOME):
        maker.put_directory(archive, path, maker.random.choice((0o700, 0o755, 0o1777)))
    _link(maker, archive)
    _replace_kinds(maker, archive)


def _hide(maker: Maker, archive: tarfile.TarFile) -> list[str]:
    """Whiteouts of files, directories and nothing, and opaque marks, also of directories in place of symlinks. Answers
    what is hidden by name."""
    for number in maker.random.sample(range(FEW), 2):
        path = f"srv/to-a-directory-{number}"
        maker.put_directory(archive, path)
        maker.mark(archive, f"{path}/.wh..wh..opq")
    gone = [*maker.some_files(MANY), *maker.some_directories(SOME)]
    for path in gone:
        above, _, name = path.rpartition("/")
        maker.mark(archive, f"{above}/.wh.{name}")
    for path in maker.some_directories(SOME):
        maker.mark(archive, f"{path}/.wh..wh..opq")
    for path in ("no/such/.wh.directory", "srv/.wh.nothing", ".wh..wh.plnk"):
        maker.mark(archive, path)
    return gone


def _link(maker: Maker, archive: tarfile.TarFile) -> None:
    """Hard links of lower files and of the layer's own, of symlinks, of one another, and of nothing."""
    for number, path in enumerate(maker.some_files(MANY)):
        above = path.rpartition("/")[0]
        archive.addfile(make_entry(f"{above}/link-{maker.number}-{number}", tarfile.LNKTYPE, 0o644, link=path))
    for path, target in zip(sorted(set(maker.some_files(SOME)) - maker.own), maker.some_files(SOME)):
        archive.addfile(make_entry(path, tarfile.LNKTYPE, 0o644, link=f"/{target}"))
    archive.addfile(make_entry("srv/link-of-itself", tarfile.LNKTYPE, 0o644, link="srv/link-of-itself"))
    archive.addfile(make_entry("srv/link-of-a-directory", tarfile.LNKTYPE, 0o644, link="srv"))


def _replace_kinds(maker: Maker, archive: tarfile.TarFile) -> None:
    """A directory for a file, and a file or a symlink for a directory of which the layer has nothing."""
    for path in maker.some_files(SOME):
        maker.put_directory(archive, path)
        maker.put(archive, f"{path}/in-place-of-a-file", b"text")
    free = [path for path in maker.some_directories(SOME) if path not in maker.own]
    for number, path in enumerate(free[: 2 * FEW]):
        maker.forget(path)
        if number % 2:
            archive.addfile(make_entry(path, tarfile.SYMTYPE, 0o777, link="."))
        else:
            maker.put(archive, path, b"in place of a directory")
