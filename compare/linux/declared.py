"""Where a command is declared to be answered in another way than by Linux.

A rule looks at a command before it is made, in the root of this process, and tells what both sides have to answer.
The names are those of the cases in `cases`, and of the list in docs/DECISIONS.md.
"""

import os
import stat
from collections.abc import Callable
from dataclasses import dataclass

from linux.calls import LARGEST_FILE, Answer, Command, bytes_of, is_sized, paths_of
from linux.layers import entries

LONGEST_NAME = 255
LONGEST_PATH = 4095
GREATEST_MODE = 0o7777
LARGEST_SIZED = 1 << 40
LONGEST_DIGEST = 1024

# A directory made by mkdir(2) keeps these bits of its mode, and gets this one from the directory that it is in.
MKDIR_MODE = 0o1777
INHERITED_MODE = stat.S_ISGID


@dataclass(frozen=True)
class Declared:
    """A declared difference: its case, the answers that are right here, and the error that Linux answers. Linux is
    not asked where that is None: it would do what is refused here."""

    case: str
    here: tuple[Answer, ...]
    linux: str | None = None


@dataclass(frozen=True)
class Place:
    """Where a path leads without symlinks being followed: the error that ends the way to it, if one does, whether
    that is at a symlink, and the kind of what stands there, if something does."""

    path: str
    error: str | None = None
    is_at_symlink: bool = False
    kind: int | None = None

    def is_above(self, other: "Place") -> bool:
        """Whether this path is a proper prefix of the other."""
        return other.path.startswith(self.path.rstrip("/") + "/") and self.path != other.path


Rule = Callable[[Command, list[Place]], Declared | None]


def refusal(name: str) -> Answer:
    """The answer to a file operation or a lookup that is refused."""
    return {"error": name, "from": "file"}


def declared_of(command: Command) -> Declared | None:
    """The declared difference that a file operation or a lookup meets, where it meets one."""
    paths = paths_of(command)
    if not all(map(is_path, paths)):
        return Declared("texts-of-paths", (refusal("BadPath"),))
    places = [place_of(path) for path in paths]
    found = (rule(command, places) for rule in _RULES[command["do"]])
    return next((declared for declared in found if declared), None)


def is_path(text: str) -> bool:
    """Whether a text has the form of a path."""
    if text == "/":
        return True
    path = text.encode()
    start, *names = path.split(b"/")
    return (
        len(path) <= LONGEST_PATH
        and b"\0" not in path
        and not start
        and bool(names)
        and all(len(name) <= LONGEST_NAME and name not in (b"", b".", b"..") for name in names)
    )


def place_of(path: str) -> Place:
    """Walks to a path, as the file calls of a script do."""
    place = b""
    for name in path.encode().split(b"/")[1:-1]:
        place += b"/" + name
        kind = _kind_of(place)
        if kind is None:
            return Place(path, "NotFound")
        if kind != stat.S_IFDIR:
            return Place(path, "NotDir", kind == stat.S_IFLNK)
    return Place(path, kind=_kind_of(path.encode()))


def _kind_of(path: bytes) -> int | None:
    try:
        return stat.S_IFMT(os.lstat(path).st_mode)
    except FileNotFoundError:
        return None


def _by_the_target(command: Command, places: list[Place]) -> Declared | None:
    """Linux looks at a symlink's target first of all."""
    size = len(command["target"].encode())
    if "\0" in command["target"]:
        own, linux = "Invalid", None
    elif size == 0:
        own, linux = "Invalid", "NotFound"
    elif size > LONGEST_PATH:
        own, linux = "TooBig", "BadPath"
    else:
        return None
    here = places[0].error or ("Exists" if places[0].kind else own)
    return Declared("symlink-targets", (refusal(here),), linux)


def _on_the_way(command: Command, places: list[Place]) -> Declared | None:
    """Linux follows a symlink on the way to a path."""
    first = next((place for place in places if place.error), None)
    if first is None or not first.is_at_symlink:
        return None
    here = {"seen": None} if command["do"] == "look" else refusal("NotDir")
    return Declared("symlinks-on-the-way", (here,))


def _by_the_source(_: Command, places: list[Place]) -> Declared | None:
    """Linux looks for the source of a link before it walks to the target, and tests its kind last."""
    source, target = places
    if source.error:
        return None
    if target.error == "NotDir" and source.kind is None:
        return Declared("link-without-its-source", (refusal("NotDir"),), "NotFound")
    if source.kind == stat.S_IFDIR and target.kind:
        return Declared("link-of-a-directory", (refusal("NotPermitted"),), "Exists")
    return None


def _at_the_root(_: Command, places: list[Place]) -> Declared | None:
    """Linux says that the root is busy."""
    if any(place.error for place in places) or all(place.path != "/" for place in places):
        return None
    return Declared("root-is-busy", (refusal("Invalid"),), "EBUSY")


def _onto_a_directory_above(_: Command, places: list[Place]) -> Declared | None:
    """Linux says that a directory has names, whatever else is wrong with a rename of one of them onto it."""
    source, target = places
    if source.error or target.error or source.kind is None or not target.is_above(source):
        return None
    errors = ("CrossDevice", "NotEmpty") if source.kind == stat.S_IFDIR else ("IsDir",)
    return Declared("rename-onto-a-directory-above", tuple(map(refusal, errors)), "NotEmpty")


def _past_the_longest_path(_: Command, places: list[Place]) -> Declared | None:
    """Linux moves a directory whatever paths that makes."""
    source, target = places
    longer = len(target.path.encode()) - len(source.path.encode())
    if longer <= 0 or source.kind != stat.S_IFDIR or target.error or target.kind or source.is_above(target):
        return None
    longest = max((len(path) for path, _ in entries(source.path.encode())), default=0)
    is_reached = longest + longer > LONGEST_PATH
    return Declared("moved-paths-above-4095", (refusal("BadPath"),)) if is_reached else None


def _at_a_symlink(command: Command, places: list[Place]) -> Declared | None:
    """Linux has errors of its own for a symlink where a file is needed."""
    if places[0].kind != stat.S_IFLNK:
        return None
    linux = "EOPNOTSUPP" if command["do"] == "setmode" else "TooManyLinks"
    return Declared("symlinks-as-files", (refusal("Invalid"),), linux)


def _by_the_mode(command: Command, places: list[Place]) -> Declared | None:
    """Linux takes the last twelve bits of a mode."""
    is_asked = places[0].kind if command["do"] == "setmode" else not places[0].kind
    if places[0].error or not is_asked or command.get("mode", 0) <= GREATEST_MODE:
        return None
    return Declared("modes-above-7777", (refusal("Invalid"),))


def _by_the_size(command: Command, places: list[Place]) -> Declared | None:
    """Linux lets files be larger."""
    end = command["size"] if command["do"] == "truncate" else command.get("offset", 0) + len(bytes_of(command))
    if places[0].kind != stat.S_IFREG:
        return None
    if is_sized(places[0].path.encode()):
        return Declared("files-above-1-tib", (refusal("TooBig"),)) if end > LARGEST_SIZED else None
    return Declared("files-above-1-mib", (refusal("TooBig"),)) if end > LARGEST_FILE else None


def _by_its_size(command: Command, places: list[Place]) -> Declared | None:
    """Linux lets files be larger, and knows no digest."""
    if places[0].error or places[0].kind:
        return None
    if command["size"] > LARGEST_SIZED:
        return Declared("files-above-1-tib", (refusal("TooBig"),))
    is_long = len(command.get("digest", "").encode()) > LONGEST_DIGEST
    return Declared("digests-above-1024-bytes", (refusal("TooBig"),)) if is_long else None


_RULES: dict[str, list[Rule]] = {
    "mkdir": [_on_the_way, _by_the_mode],
    "create": [_on_the_way, _by_the_mode],
    "put": [_on_the_way, _by_the_mode, _by_its_size],
    "write": [_on_the_way, _at_a_symlink, _by_the_size],
    "truncate": [_on_the_way, _at_a_symlink, _by_the_size],
    "setmode": [_on_the_way, _at_a_symlink, _by_the_mode],
    "symlink": [_by_the_target, _on_the_way],
    "link": [_on_the_way, _by_the_source],
    "unlink": [_on_the_way],
    "rmdir": [_on_the_way, _at_the_root],
    "opaque": [_on_the_way],
    "whiteout": [_on_the_way, _at_the_root],
    "rename": [_on_the_way, _at_the_root, _onto_a_directory_above, _past_the_longest_path],
    "look": [_on_the_way],
    "list": [_on_the_way],
    "read": [_on_the_way, _at_a_symlink],
    "du": [_on_the_way],
    "resolve": [],
}
