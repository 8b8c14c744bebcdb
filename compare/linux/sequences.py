"""Makes scripts of file operations over chains of snapshots, from a seed."""

from collections.abc import Iterator
from dataclasses import dataclass, field
from random import Random
from typing import Any

from linux.calls import Command

NAMESPACE = "a"
NAMES = ("a", "b", "c", "d")
DEEPEST = 3
AMPLE = 1 << 30

MODES = (0o755, 0o700, 0o644, 0o600, 0o111, 0, 0o1777, 0o2755, 0o4711, 0o7777)
OFFSETS = (0, 0, 0, 1, 3, 15, 16, 17, 4095, 4096, 9000)
SIZES = (0, 0, 1, 5, 16, 17, 4095, 4096, 4097, 12_288)
FILE_ENDS = (1_048_575, 1_048_576, 1_048_577)
SIZED_ENDS = (104_857_600, (1 << 40) - 1, 1 << 40, (1 << 40) + 1)
DIGEST = "sha256:ab"
DEFAULT_ANCESTORS = 64
# The most operations of a snapshot in a long chain.
DEEP_STEPS = 4

# How often each operation comes in a snapshot: any, or mostly those that build, take away or move.
MIXED = {
    "mkdir": 20, "create": 16, "put": 6, "write": 12, "truncate": 4, "setmode": 6, "symlink": 7, "link": 9, "unlink": 9,
    "rmdir": 8, "rename": 18, "opaque": 3, "whiteout": 3,
}  # fmt: skip
BUILDING = MIXED | {"mkdir": 50, "create": 40, "unlink": 2, "rmdir": 2, "rename": 4}
TAKING = MIXED | {"unlink": 40, "rmdir": 30, "rename": 20, "mkdir": 10}
MOVING = MIXED | {"rename": 70, "link": 25}
MANNERS = (MIXED, MIXED, BUILDING, TAKING, MOVING)


@dataclass
class Guess:
    """What may stand where: the command that made it, by path. It decides nothing that is compared, and only makes
    commands meet each other's work more often."""

    made_by: dict[str, str] = field(default_factory=dict)
    own: set[str] = field(default_factory=set)

    def note(self, command: Command) -> None:
        """Takes a command to be granted, where that is likely."""
        do = command["do"]
        path, target = command.get("path", command.get("from")), command.get("to")
        match do:
            case "mkdir" | "create" | "put" | "symlink":
                self._make(path, do)
            case "link" if path in self.made_by and not self.is_directory(path):
                self._make(target, self.made_by[path])
            case "unlink" if not self.is_directory(path):
                self.made_by.pop(path, None)
            case "rmdir" if self.inside(path) == [path]:
                del self.made_by[path]
            case "rename" if path in self.made_by:
                self._move(path, target)
            case "whiteout":
                for each in self.inside(path):
                    del self.made_by[each]

    def find(self, kinds: tuple[str, ...]) -> list[str]:
        """The paths where something of these kinds may stand."""
        return [path for path, made_by in self.made_by.items() if made_by in kinds]

    def is_directory(self, path: str) -> bool:
        """Whether a directory may stand there."""
        return path == "" or self.made_by.get(path) == "mkdir"

    def inside(self, path: str) -> list[str]:
        """A path and those in it, directories before what is in them."""
        return sorted(each for each in self.made_by if each == path or each.startswith(path + "/"))

    def _make(self, path: str, made_by: str) -> None:
        if self.is_directory(path.rpartition("/")[0]) and path not in self.made_by:
            self.made_by[path] = made_by
            if made_by == "mkdir":
                self.own.add(path)

    def _move(self, path: str, target: str) -> None:
        is_directory = self.is_directory(path)
        is_same_kind = target not in self.made_by or self.is_directory(target) == is_directory
        is_free = not is_directory or (path in self.own and self.inside(target) in ([], [target]))
        is_inside = target.startswith(path + "/")
        if is_same_kind and is_free and not is_inside and self.is_directory(target.rpartition("/")[0]):
            for moved in self.inside(path):
                self.made_by[target + moved[len(path) :]] = self.made_by.pop(moved)
                self.own.add(target + moved[len(path) :])


# What an operation needs at its path.
FILES = ("create", "put")
NEEDED = {
    "write": FILES, "truncate": FILES, "unlink": (*FILES, "symlink"), "rmdir": ("mkdir",),
    "link": (*FILES, "symlink"), "setmode": (*FILES, "mkdir"), "rename": (*FILES, "symlink", "mkdir"),
    "opaque": ("mkdir",), "whiteout": (*FILES, "symlink", "mkdir"),
}  # fmt: skip


@dataclass
class Sequence:
    """One script, of snapshots with at most a number of ancestors. With `is_deep` it is a chain of as many, of few operations
    each."""

    random: Random
    most_ancestors: int
    is_deep: bool = False
    committed: dict[str, Guess] = field(default_factory=dict)
    guess: Guess = field(default_factory=Guess)

    def commands(self) -> Iterator[Command]:
        """The script, from its `open` on."""
        greatest = self.random.choice((2, 4, 4, 8, 16, self.most_ancestors))
        ancestors = self.most_ancestors if self.is_deep else min(greatest, self.most_ancestors)
        branching = 0 if self.is_deep else self.random.choice((0, 0, 0.2))
        yield {"do": "open", "root": "/r", "namespaces": [[NAMESPACE, AMPLE, AMPLE]], **self._allowed(ancestors)}
        steps = DEEP_STEPS if self.is_deep else 40 if ancestors <= 8 else 10
        for number in range(ancestors + 1):
            yield from self._snapshot(f"k{number}", branching, steps)

    def _allowed(self, ancestors: int) -> Command:
        """How many ancestors the store allows: mostly enough, now and then fewer, so that snapshots are too deep."""
        if ancestors > 1 and not self.is_deep and self._is(0.2):
            return {"ancestors": self.random.randrange(1, ancestors)}
        return {"ancestors": ancestors} if ancestors > DEFAULT_ANCESTORS or (ancestors > 0 and self._is(0.5)) else {}

    def _snapshot(self, key: str, branching: float, steps: int) -> Iterator[Command]:
        """A snapshot on the last one, or on any, with its operations and its end."""
        names = list(self.committed)
        parent = (self.random.choice(names) if self._is(branching) else names[-1]) if names else ""
        self.guess = Guess(dict(self.committed[parent].made_by)) if parent else Guess()
        yield _command("prepare", key, parent=parent)
        manner = self.random.choice(MANNERS)
        for _ in range(self.random.randint(1, steps)):
            made = self._replacement(key) if self._is(0.05) else [self._operation(key, manner)]
            for command in made:
                self.guess.note(command)
                yield command
        if self._is(branching / 2):
            yield _command("discard", key)
            return
        name = f"n{len(names)}"
        self.committed[name] = self.guess
        yield _command("commit", key, name=name)
        if self._is(0.1):
            yield _command("view", f"v{key}", parent=name)

    def _replacement(self, key: str) -> Iterator[Command]:
        """A directory is emptied, and another one made or moved in its place."""
        directories = self.guess.find(("mkdir",))
        if not directories:
            return
        place = self.random.choice(directories)
        for path in self.guess.inside(place)[:0:-1]:
            yield _command("rmdir" if self.guess.is_directory(path) else "unlink", key, path=path)
        if self._is(0.6):
            yield _command("rmdir", key, path=place)
        if self._is(0.3):
            yield _command("mkdir", key, path=place)
        else:
            yield _command("mkdir", key, path="/d")
            yield _command("rename", key, **{"from": "/d", "to": place})

    def _operation(self, key: str, manner: dict[str, int]) -> Command:
        do = self.random.choices(list(manner), list(manner.values()))[0]
        command = _command(do, key, path=self._path(NEEDED[do]) if do in NEEDED else self._new_path())
        match do:
            case "mkdir" | "create" if self._is(0.3):
                command["mode"] = self.random.choice(MODES)
            case "put":
                self._give_size(command)
            case "setmode":
                command["mode"] = self.random.choice(MODES)
            case "symlink":
                command["target"] = self._target()
            case "write":
                self._fill(command)
            case "truncate":
                command["size"] = self._size()
            case "link" | "rename":
                command["from"] = command.pop("path")
                command["to"] = self._new_path() if self._is(0.7) else self._path(NEEDED["rename"])
        return command

    def _size(self) -> int:
        """A size, now and then about the greatest of a file."""
        ends = FILE_ENDS if self._is(0.5) else SIZED_ENDS
        return self.random.choice(ends if self._is(0.02) else SIZES)

    def _give_size(self, command: Command) -> None:
        """What a file of a size has."""
        command["size"] = self._size()
        if self._is(0.3):
            command["mode"] = self.random.choice(MODES)
        if self._is(0.5):
            command["digest"] = DIGEST

    def _fill(self, command: Command) -> None:
        """What a write writes, and where."""
        if self._is(0.02):
            command |= {"offset": self.random.choice(FILE_ENDS + SIZED_ENDS), "text": ""}
            return
        command["offset"] = self.random.choice(OFFSETS)
        if self._is(0.3):
            command["fill"] = [self.random.randrange(256), self.random.choice(SIZES)]
        else:
            command["text"] = "".join(self.random.choices("uvwxyz", k=self.random.randrange(6)))

    def _path(self, kinds: tuple[str, ...]) -> str:
        """A path, mostly one where something of these kinds may stand."""
        found = self.guess.find(kinds) if self._is(0.85) else list(self.guess.made_by)
        if found and self._is(0.95):
            return self.random.choice(found)
        return "/" if self._is(0.1) else self._new_path()

    def _new_path(self) -> str:
        """A name, mostly in what may be a directory."""
        kinds = ("mkdir",) if self._is(0.95) else (*FILES, "symlink")
        places = [path for path in self.guess.find(kinds) if path.count("/") < DEEPEST]
        return f"{self.random.choice(['', '', *places])}/{self.random.choice(NAMES)}"

    def _target(self) -> str:
        """A symlink's target: absolute or not, with `.`, `..` and a closing `/` in places."""
        words = self.random.choices((*NAMES, *NAMES, ".", "..", ""), k=self.random.randint(1, 3))
        target = "/".join(words)
        return "/" + target if not target or self._is(0.4) else target

    def _is(self, chance: float) -> bool:
        return self.random.random() < chance


def _command(do: str, key: str, **fields: Any) -> Command:
    return {"do": do, "ns": NAMESPACE, "key": key, **fields}
