"""Takes a script through both sides, and compares what they answer and show after each of its commands."""

import os
import stat
from collections import Counter
from collections.abc import Callable, Iterable, Iterator, Sequence
from dataclasses import dataclass, field

from linux.calls import DEFAULT_DIRECTORY_MODE, LOOKUPS, OPERATIONS, Answer, Command, look_up, name_of, operate, paths_of
from linux.declared import INHERITED_MODE, MKDIR_MODE, declared_of, is_path, refusal
from linux.layers import Layers, entries
from linux.program import Program, ProgramEnded

GRANTED: Answer = {"granted": True}
NOT_ASKED: Answer = {"asked": False}
FULL = refusal("LayerFull")
TOO_DEEP = "TooDeep"
LAYER_INODES = 65_536
ANCESTORS = 64


@dataclass
class Difference(Exception):
    """What was asked, and what both sides answered."""

    command: Command
    linux: Answer
    here: Answer


@dataclass
class Found:
    """A difference, and the commands that lead to it."""

    script: list[Command]
    difference: Difference


@dataclass
class Counts:
    """What was compared."""

    steps: int = 0
    granted: int = 0
    refused: Counter[str] = field(default_factory=Counter)
    declared: Counter[str] = field(default_factory=Counter)
    comparisons: int = 0
    snapshots: int = 0
    most_layers: int = 0


@dataclass
class Comparison:
    """A script on both sides. Once in a number of steps all that a snapshot shows is compared, and else what stands at
    the paths of the step and beside them."""

    program: Program
    layers: Layers
    counts: Counts
    whole_every: int
    layer_inodes: int = LAYER_INODES
    ancestors: int = ANCESTORS

    def run(self, commands: Iterable[Command]) -> Found | None:
        """The first difference that is not declared, if there is one."""
        made: list[Command] = []
        for command in commands:
            made.append(command)
            try:
                self._make(command)
            except Difference as difference:
                return Found(made, difference)
            except ProgramEnded as ended:
                return Found(made, Difference(command, NOT_ASKED, {"ended": str(ended)}))
        return None

    def _make(self, command: Command) -> None:
        if command["do"] in OPERATIONS or command["do"] == "batch":
            self._operate(command)
        elif command["do"] in LOOKUPS:
            self._look(command)
        else:
            self._change_snapshots(command)

    def _change_snapshots(self, command: Command) -> None:
        """Does with the layers what the program grants, in which Linux has no say."""
        do, ns, key = command["do"], command.get("ns"), command.get("key")
        if do in ("commit", "discard"):
            self._look_at_all(ns, key)
        answer = self.program.ask(command)
        if do in ("prepare", "view"):
            self._judge_depth(command, answer)
        if "error" in answer:
            return
        match do:
            case "open":
                self.layer_inodes = command.get("layer_inodes", LAYER_INODES)
                self.ancestors = command.get("ancestors", ANCESTORS)
            case "prepare":
                self.layers.prepare(ns, key, command["parent"])
            case "view":
                self.layers.view(ns, key, command["parent"])
            case "commit":
                self.layers.commit(ns, key, command["name"])
            case "discard" | "remove":
                self.layers.drop(ns, key)
        if do in ("prepare", "view"):
            self.counts.snapshots += 1
            self.counts.most_layers = max(self.counts.most_layers, self.layers.depth(ns, key))
            self._look_at_all(ns, key)

    def _judge_depth(self, command: Command, here: Answer) -> None:
        """A snapshot is too deep exactly where its parent's layers are more than the store's number of ancestors. Linux is
        not asked: its own number is the greatest that a store may have."""
        is_deep = here.get("error") == TOO_DEEP
        if not is_deep and "error" in here:
            return
        lowers = self.layers.depth(command["ns"], command["parent"]) if command["parent"] else 0
        most = {"ancestors": self.ancestors}
        self._judge(command, most | {"layers": lowers}, here, is_deep == (lowers > self.ancestors))
        self.counts.declared["ancestors-of-a-store"] += is_deep

    def _look(self, command: Command) -> None:
        """A lookup of the script itself."""
        if self.layers.is_shown(command["ns"], command["key"]):
            with self.layers.inside(command["ns"], command["key"]):
                self._look_up([command])
        else:
            self.program.ask(command)

    def _operate(self, command: Command) -> None:
        """Makes a file operation on both sides, or those of a batch. What is refused for its snapshot or charge is not
        Linux's."""
        ns, key = command["ns"], command["key"]
        operations = [each | {"ns": ns, "key": key} for each in command.get("ops", [command])]
        lookups = [lookup | {"ns": ns, "key": key} for each in operations for lookup in _lookups_around(each)]
        here, *answers = self.program.ask_all([command, *lookups])
        if not self.layers.is_shown(ns, key):
            return
        before = self.counts.steps
        if command["do"] == "batch":
            self._make_batch(command, operations, here)
        elif here.get("from", "file") == "file":
            self._make_operation(command, here if "error" in here else GRANTED)
        with self.layers.inside(ns, key):
            for lookup, answer in zip(lookups, answers):
                self._compare(lookup, answer, look_up)
        if "count" in here:
            usage = self.layers.usage(ns, key)
            self._judge(command, {"count": usage}, {"count": here["count"]}, usage == here["count"])
        if self.counts.steps % self.whole_every < max(self.counts.steps - before, 1):
            self._look_at_all(ns, key)

    def _make_batch(self, command: Command, operations: Sequence[Command], here: Answer) -> None:
        """Makes those operations of a batch that the program has done, and the one that it refuses for its files. Of a whole
        one with a refused operation none is made."""
        if "done" not in here:
            return
        is_undone = "op" in here and command.get("whole", False)
        done = 0 if is_undone else here["op"] - 1 if "op" in here else len(operations)
        self._judge(command, {"done": done}, {"done": here["done"]}, done == here["done"])
        if is_undone:
            return
        made = [GRANTED] * done
        if here.get("from") == "file":
            made.append(refusal(here["error"]))
        for number, (operation, answer) in enumerate(zip(operations, made), 1):
            try:
                self._make_operation(operation, answer)
            except Difference as found:
                raise Difference(command, {"op": number} | found.linux, {"op": number} | found.here) from None

    def _make_operation(self, operation: Command, here: Answer) -> None:
        """Makes an operation that the program has granted, or refused for its files."""
        ns, key = operation["ns"], operation["key"]
        is_granted = "error" not in here
        if here == FULL:
            self._judge_full(operation)
        else:
            with self.layers.inside(ns, key):
                self._compare(operation, here, operate)
                if operation["do"] == "mkdir" and is_granted:
                    self._take_mode_as_given(operation)
        if operation["do"] == "opaque" and is_granted:
            self.layers.make_opaque(ns, key, operation["path"])
            self.counts.declared["marks-of-roots"] += operation["path"] == "/"
        self.counts.steps += 1
        if is_granted:
            self.counts.granted += 1
        else:
            self.counts.refused[here["error"]] += 1

    def _judge_full(self, command: Command) -> None:
        """A layer is full where the directories that it lacks, what is made and a whiteout could pass its limit. Linux
        has none, and is not asked."""
        most = sum(path.count("/") + 1 for path in paths_of(command))
        _, inodes = self.layers.usage(command["ns"], command["key"])
        self._judge(command, NOT_ASKED, FULL, inodes + most > self.layer_inodes)
        self.counts.declared["inodes-above-65536"] += 1

    def _take_mode_as_given(self, command: Command) -> None:
        """mkdir(2) keeps some bits of the mode alone. Where that is what happened, the rest is set too."""
        path, given = command["path"].encode(), command.get("mode", DEFAULT_DIRECTORY_MODE)
        inherited = os.lstat(os.path.dirname(path)).st_mode & INHERITED_MODE
        kept = (given & MKDIR_MODE) | inherited
        if kept != given and kept == stat.S_IMODE(os.lstat(path).st_mode):
            os.chmod(path, given)
            self.counts.declared["mkdir-modes"] += 1

    def _look_at_all(self, ns: str, key: str) -> None:
        """Compares everything that a snapshot shows."""
        if self.layers.is_shown(ns, key):
            with self.layers.inside(ns, key):
                self._look_up([lookup | {"ns": ns, "key": key} for lookup in _lookups_of_all()])

    def _look_up(self, lookups: Sequence[Command]) -> None:
        """Compares lookups in one snapshot, which is the root of this process."""
        for lookup, here in zip(lookups, self.program.ask_all(lookups)):
            self._compare(lookup, here, look_up)

    def _compare(self, command: Command, here: Answer, call: Callable[[Command], Answer | None]) -> None:
        """Asks Linux too, unless a declared difference is met at which it is not asked."""
        declared = declared_of(command)
        linux = NOT_ASKED if declared and declared.linux is None else _answer_of(call, command)
        here = _without_digest(here)
        if declared is None:
            self._judge(command, linux, here, linux == here)
            return
        is_linux = declared.linux is None or linux == refusal(declared.linux)
        self._judge(command, linux, here, is_linux and here in declared.here)
        self.counts.declared[declared.case] += linux != here

    def _judge(self, command: Command, linux: Answer, here: Answer, are_right: bool) -> None:
        self.counts.comparisons += 1
        if not are_right:
            raise Difference(command, linux, here)


def _answer_of(call: Callable[[Command], Answer | None], command: Command) -> Answer:
    try:
        return call(command) or GRANTED
    except OSError as error:
        return refusal(name_of(error))


def _without_digest(answer: Answer) -> Answer:
    """An answer without a digest, of which no mount knows."""
    if answer.get("seen"):
        return {"seen": {name: value for name, value in answer["seen"].items() if name != "digest"}}
    return {name: value for name, value in answer.items() if name != "digest"}


def _lookups_around(command: Command) -> Iterator[Command]:
    """All lookups at the paths of a command, also a part of a file, and a list of the directories that these are in."""
    for path in filter(is_path, paths_of(command)):
        for do in sorted(LOOKUPS):
            yield {"do": do, "path": path}
        yield {"do": "read", "path": path, "offset": 3, "max": 20}
        yield {"do": "list", "path": os.path.dirname(path)}


def _lookups_of_all() -> Iterator[Command]:
    """The lookups that show everything in the root of this process."""
    yield {"do": "look", "path": "/"}
    yield {"do": "list", "path": "/"}
    yield {"do": "du", "path": "/"}
    for name, status in entries(b"/"):
        path = name.decode()
        yield {"do": "look", "path": path}
        if stat.S_ISDIR(status.st_mode):
            yield {"do": "list", "path": path}
        elif stat.S_ISLNK(status.st_mode):
            yield {"do": "resolve", "path": path}
        else:
            yield {"do": "read", "path": path}
