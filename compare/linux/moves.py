"""Small images in which things take the place of others: made cases, and such as are drawn from a seed."""

import tarfile
from collections.abc import Iterator
from pathlib import Path
from random import Random

from linux.archive import Maker, make_entry, saved
from linux.unpack import OPAQUE, WHITEOUT

# An entry of a layer: its kind, its path, and a file's bytes, the target of a symlink, or the file of a hard link.
Entry = tuple[str, str, str]
TYPES = {"directory": tarfile.DIRTYPE, "symlink": tarfile.SYMTYPE, "link": tarfile.LNKTYPE}

NAMES = "abcd"
TARGETS = ("a", "b", "/", ".", "..", "/a/b", "../c", "b/../d", "missing")
MOST_LAYERS = 4
MOST_ENTRIES = 12

_LOWER: list[Entry] = [
    ("directory", "etc", ""),
    ("directory", "etc/d", ""),
    ("file", "etc/d/f", "f"),
    ("file", "etc/x", "x"),
    ("symlink", "conf", "etc"),
    ("symlink", "all", "/"),
    ("symlink", "deep", "conf/d"),
    ("symlink", "sub", "etc/d"),
    ("directory", "own", ""),
    ("symlink", "own/up", "../etc"),
    ("file", "own/f", "f"),
]

# By its name, what an upper layer is.
CASES: dict[str, list[Entry]] = {
    "a directory in place of a symlink": [
        ("directory", "conf", ""), ("mark", f"conf/{OPAQUE}", ""), ("file", "conf/new", "n"),
    ],
    "a directory in place of a symlink to the root": [
        ("directory", "all", ""), ("mark", f"all/{OPAQUE}", ""), ("file", "all/new", "n"),
    ],
    "a directory in place of a symlink through another": [
        ("directory", "deep", ""), ("mark", f"deep/{OPAQUE}", ""),
    ],
    "a directory in place of a symlink in a directory": [
        ("directory", "own", ""), ("directory", "own/up", ""), ("mark", f"own/up/{OPAQUE}", ""),
    ],
    "a whiteout in a directory in place of a symlink": [("directory", "conf", ""), ("mark", "conf/.wh.x", "")],
    "a directory below one in place of a symlink": [
        ("directory", "all", ""), ("directory", "all/etc", ""), ("mark", f"all/etc/{OPAQUE}", ""),
    ],
    "a symlink in place of a directory": [("symlink", "own", "etc"), ("mark", "own/.wh.x", "")],
    "another symlink in place of a symlink": [("symlink", "conf", "own"), ("mark", "conf/.wh.f", "")],
    "a whiteout through a symlink": [("mark", "conf/.wh.x", ""), ("file", "conf/y", "y")],
    "an opaque mark through a symlink": [("mark", f"conf/{OPAQUE}", ""), ("file", "conf/y", "y")],
    "a directory in place of a whiteout": [("mark", ".wh.conf", ""), ("file", "conf/new", "n")],
    "an opaque mark of a merged directory": [
        ("directory", "etc", ""), ("mark", f"etc/{OPAQUE}", ""), ("file", "etc/d/f", "n"),
    ],
    "an opaque mark of the root": [("mark", OPAQUE, ""), ("file", "etc/new", "n")],
    "a hard link through a symlink and `..`": [("link", "l", "sub/../x"), ("link", "m", "own/up/../own/f")],
    "hard links of a lower file and of a symlink": [("link", "l", "etc/x"), ("link", "m", "l"), ("link", "n", "conf")],
}


def made_images(place: Path) -> Iterator[tuple[str, Path]]:
    """An image for each case, of three layers: the last has a file beside what the second leaves."""
    for number, (name, upper) in enumerate(CASES.items()):
        layers = [_LOWER, upper, [("file", "last", "l"), ("file", "etc/last", "l")]]
        yield name, _image(place / f"case-{number}", layers)


def drawn_images(place: Path, seed: int, count: int) -> Iterator[tuple[str, Path]]:
    """A number of images that are drawn."""
    for number in range(count):
        random = Random(f"{seed} {number}")
        layers = [_draw_layer(random) for _ in range(random.randint(2, MOST_LAYERS))]
        yield f"drawn image {number}", _image(place / f"drawn-{number}", layers)


def _image(place: Path, layers: list[list[Entry]]) -> Path:
    place.mkdir()
    maker = Maker(place, Random(0))
    for entries in layers:
        maker.layer(lambda it, archive: _fill(it, archive, entries))
    return saved(maker)


def _fill(maker: Maker, archive: tarfile.TarFile, entries: list[Entry]) -> None:
    for kind, path, text in entries:
        if kind in TYPES:
            archive.addfile(make_entry(path, TYPES[kind], 0o755 if kind == "directory" else 0o644, link=text))
        else:
            maker.put(archive, path, text.encode())


def _draw_layer(random: Random) -> list[Entry]:
    """A layer in the order in which exporters write it: a directory before what is in it, its marks first."""
    entries: dict[str, Entry] = {}
    for _ in range(random.randint(1, MOST_ENTRIES)):
        path = "/".join(random.choices(NAMES, k=random.randint(1, 3)))
        for entry in _draw_entries(random, path):
            entries.setdefault(entry[1], entry)
    return sorted(entries.values(), key=_place_in_archive)


def _draw_entries(random: Random, path: str) -> Iterator[Entry]:
    """An entry of the path, and mostly those of the directories above it."""
    above, _, name = path.rpartition("/")
    if above and random.random() < 0.7:
        yield from (("directory", "/".join(path.split("/")[:each]), "") for each in range(1, path.count("/") + 1))
    kind = random.choice(("directory", "directory", "file", "symlink", "symlink", "link", "whiteout", "opaque"))
    if kind == "whiteout":
        yield "mark", f"{above}/{WHITEOUT}{name}".lstrip("/"), ""
    elif kind == "opaque":
        yield "mark", f"{path}/{OPAQUE}", ""
    elif kind == "symlink":
        yield kind, path, random.choice(TARGETS)
    elif kind == "link":
        yield kind, path, "/".join(random.choices((*NAMES, ".."), k=random.randint(1, 3)))
    else:
        yield kind, path, path * random.choice((0, 1, 3000)) if kind == "file" else ""
        if kind == "directory" and random.random() < 0.4:
            yield "mark", f"{path}/{OPAQUE}", ""


def _place_in_archive(entry: Entry) -> list[tuple[bool, str]]:
    *above, name = entry[1].split("/")
    return [(True, each) for each in above] + [(entry[0] != "mark", name)]
