"""A case of each declared difference: what Linux answers, and what the program answers.

A case fails where one of both sides answers something else, so also where the difference is gone. Its name is that
of its function, with hyphens. docs/DECISIONS.md has the reasons.
"""

import os
import stat
import subprocess
from collections.abc import Callable
from dataclasses import dataclass
from typing import Any

from linux.bench import Bench
from linux.calls import LOOKUPS, OPERATIONS, Answer, Command, look_up, name_in_linux, operate
from linux.layers import OPAQUE, Layers
from linux.program import Program, line_of
from linux.system import mount, unmount

NAMESPACE = "a"
KEY = "k"
AMPLE = 1 << 30
GRANTED = "granted"
NOBODY = 65_534
LONGEST_OPTIONS = 4095
# The most lower layers of a mount (OVL_MAX_STACK).
MOST_LAYERS = 500

# What a side answers: `granted`, an error, or what a lookup tells.
Outcome = str | Answer


class CaseFailed(Exception):
    """A side answered something else than is declared."""


@dataclass
class Trial:
    """Both sides, with one active snapshot at a time, on the one committed last."""

    bench: Bench
    program: Program
    layers: Layers
    base: str = ""

    def open(self, root: str = "/r", **bounds: int) -> None:
        """Opens the program's store."""
        self.program.ask({"do": "open", "root": root, "namespaces": [[NAMESPACE, AMPLE, AMPLE]], **bounds})

    def start(self, *commands: Command) -> None:
        """An active snapshot, in which these are granted by both sides."""
        self.here(_command("prepare", parent=self.base))
        self.layers.prepare(NAMESPACE, KEY, self.base)
        for command in commands:
            self.agree(command, GRANTED)

    def commit(self) -> None:
        """Commits the active snapshot."""
        self.base += "n"
        self.here(_command("commit", name=self.base))
        self.layers.commit(NAMESPACE, KEY, self.base)

    def layer(self, *commands: Command) -> None:
        """A committed snapshot, in which these were granted by both sides."""
        self.start(*commands)
        self.commit()

    def here(self, command: Command) -> Outcome:
        """What the program answers."""
        answer = self.program.ask(_command(**command))
        if "error" in answer:
            return answer["error"]
        return GRANTED if command["do"] in OPERATIONS else answer

    def linux(self, command: Command) -> Outcome:
        """What Linux answers."""
        with self.layers.inside(NAMESPACE, KEY):
            try:
                return look_up(command) if command["do"] in LOOKUPS else operate(command) or GRANTED
            except OSError as error:
                return name_in_linux(error.errno)

    def agree(self, command: Command, outcome: Outcome) -> None:
        """Both sides answer this."""
        self.differ(command, outcome, outcome)

    def differ(self, command: Command, linux: Outcome, here: Outcome) -> None:
        """Linux answers the first, and the program the second."""
        self.expect(f"Linux: {line_of(command).strip()}", self.linux(command), linux)
        self.expect(f"here: {line_of(command).strip()}", self.here(command), here)

    def expect(self, what: str, found: Any, wanted: Any) -> None:
        """Fails unless both are equal."""
        if found != wanted:
            raise CaseFailed(f"{what}: {found!r}, not {wanted!r}")

    def has_mark(self, path: str) -> bool:
        """Whether Linux has marked a directory of the active snapshot's layer as opaque."""
        with self.layers.inside_layer(NAMESPACE, KEY):
            return OPAQUE in os.listxattr(path)


Case = Callable[[Trial], None]
CASES: dict[str, Case] = {}


def run_case(bench: Bench, case: Case) -> None:
    """Runs a case on a program and layers of its own."""
    with bench.both() as (program, layers):
        trial = Trial(bench, program, layers)
        trial.open()
        case(trial)


def _case(case: Case) -> Case:
    CASES[case.__name__.replace("_", "-")] = case
    return case


def _command(do: str, **fields: Any) -> Command:
    return {"do": do, "ns": NAMESPACE, "key": KEY, **fields}


def _mkdir(path: str, mode: int = 0o755) -> Command:
    return {"do": "mkdir", "path": path, "mode": mode}


def _create(path: str, mode: int = 0o644) -> Command:
    return {"do": "create", "path": path, "mode": mode}


def _put(path: str, size: int, digest: str = "") -> Command:
    return {"do": "put", "path": path, "size": size, "digest": digest}


def _write(path: str, text: str, offset: int = 0) -> Command:
    return {"do": "write", "path": path, "text": text, "offset": offset}


def _truncate(path: str, size: int) -> Command:
    return {"do": "truncate", "path": path, "size": size}


def _set_mode(path: str, mode: int) -> Command:
    return {"do": "setmode", "path": path, "mode": mode}


def _symlink(path: str, target: str) -> Command:
    return {"do": "symlink", "path": path, "target": target}


def _at(do: str, path: str) -> Command:
    return {"do": do, "path": path}


def _from_to(do: str, source: str, target: str) -> Command:
    return {"do": do, "from": source, "to": target}


@_case
def texts_of_paths(trial: Trial) -> None:
    """A closing `/`, `//`, `.` and `..` are refused in paths."""
    trial.start()
    for path in ("/d/", "//e", "/./f", "/d/../g"):
        trial.differ(_mkdir(path), GRANTED, "BadPath")


@_case
def modes_above_7777(trial: Trial) -> None:
    """Modes above octal 7777 are refused. Linux takes their last twelve bits."""
    trial.start(_create("/f"))
    trial.differ(_set_mode("/f", 0o10600), GRANTED, "Invalid")
    trial.differ(_at("look", "/f"), {"seen": {"file": 0o600, "size": 0}}, {"seen": {"file": 0o644, "size": 0}})
    trial.differ(_mkdir("/d", 0o10755), GRANTED, "Invalid")
    trial.differ(_create("/g", 0o10644), GRANTED, "Invalid")


@_case
def files_above_1_mib(trial: Trial) -> None:
    """Files end at 1,048,576 bytes, and a write of no bytes beyond that is refused too."""
    trial.start(_create("/f"), _truncate("/f", 1_048_576))
    trial.differ(_write("/f", "", offset=1_048_577), GRANTED, "TooBig")
    trial.differ(_write("/f", "x", offset=1_048_576), GRANTED, "TooBig")
    trial.differ(_truncate("/f", 1_048_577), GRANTED, "TooBig")


@_case
def files_above_1_tib(trial: Trial) -> None:
    """Files of a size end at 2^40 bytes."""
    trial.start(_put("/f", 1 << 40))
    trial.differ(_put("/g", (1 << 40) + 1), GRANTED, "TooBig")
    trial.differ(_write("/f", "x", offset=1 << 40), GRANTED, "TooBig")
    trial.differ(_truncate("/f", (1 << 40) + 1), GRANTED, "TooBig")


@_case
def digests_above_1024_bytes(trial: Trial) -> None:
    """A digest has at most 1024 bytes."""
    trial.start(_put("/f", 1, "d" * 1024))
    trial.differ(_put("/g", 1, "d" * 1025), GRANTED, "TooBig")


@_case
def inodes_above_65536(trial: Trial) -> None:
    """A layer has at most 65,536 inodes, its root among them."""
    trial.start()
    trial.here(_command("charge", need=[1, 65_536]))
    files = [_create(f"/{number}") for number in range(65_535)]
    answers = trial.program.ask_all([_command(**file) for file in files])
    trial.expect("here: 65,535 files", answers[-1].get("count"), [1, 65_536])
    for file in files:
        trial.expect("Linux: a file", trial.linux(file), GRANTED)
    trial.differ(_create("/last"), GRANTED, "LayerFull")


@_case
def ancestors_of_a_store(trial: Trial) -> None:
    """A snapshot has at most as many ancestors as its store allows: 64 where nothing is said, and 500 at the most, which
    Linux has as its limit too."""
    for given, most in (({}, 64), ({"ancestors": 2}, 2), ({"ancestors": MOST_LAYERS}, MOST_LAYERS)):
        with trial.bench.both() as (trial.program, trial.layers):
            trial.base = ""
            trial.open(**given)
            for _ in range(most):
                trial.layer()
            trial.layer(_create("/f"))
            for do in ("prepare", "view"):
                trial.expect(f"here: {do} on {most + 1}", trial.here(_command(do, parent=trial.base)), "TooDeep")
            linux = "EINVAL" if most == MOST_LAYERS else {"names": ["f"]}
            trial.expect(f"Linux: a mount of {most + 1} lower layers", _listed_on_base(trial), linux)


def _listed_on_base(trial: Trial) -> Outcome:
    """What Linux lists in the root of a snapshot on the last one, or why it doesn't mount it."""
    try:
        trial.layers.prepare(NAMESPACE, KEY, trial.base)
    except OSError as error:
        return name_in_linux(error.errno)
    return trial.linux(_at("list", "/"))


@_case
def inodes_of_whiteouts(trial: Trial) -> None:
    """Every whiteout counts one inode. The kernel makes the whiteouts of a mount names of one inode."""
    trial.layer(_create("/a"), _create("/b"))
    trial.start(_at("unlink", "/a"), _at("unlink", "/b"))
    answer = trial.here(_command("trim"))
    trial.expect("here: the root and two whiteouts", answer, {"share": [1, 3]})
    with trial.layers.inside_layer(NAMESPACE, KEY):
        inodes = {os.lstat(path).st_ino for path in ("/a", "/b")}
    trial.expect("Linux: inodes of two whiteouts", len(inodes), 1)


@_case
def modes_refuse_nothing(trial: Trial) -> None:
    """Modes refuse nothing, there is no umask, and a write clears no set-ID bit."""
    trial.start(_mkdir("/d", 0o700), _create("/s", 0o666), _set_mode("/s", 0o4777), _mkdir("/t", 0o777))
    trial.expect("Linux: not the owner", _as_nobody(trial, _create("/d/f")), "EACCES")
    trial.expect("here: not the owner", trial.here(_create("/d/f")), GRANTED)
    trial.expect("Linux: umask 077", _as_nobody(trial, _create("/t/f", 0o666)), GRANTED)
    trial.expect("here: no umask", trial.here(_create("/t/f", 0o666)), GRANTED)
    trial.differ(_at("look", "/t/f"), {"seen": {"file": 0o600, "size": 0}}, {"seen": {"file": 0o666, "size": 0}})
    trial.expect("Linux: a write", _as_nobody(trial, _write("/s", "x")), GRANTED)
    trial.expect("here: a write", trial.here(_write("/s", "x")), GRANTED)
    trial.differ(_at("look", "/s"), {"seen": {"file": 0o777, "size": 1}}, {"seen": {"file": 0o4777, "size": 1}})


def _as_nobody(trial: Trial, command: Command) -> str:
    """What Linux answers to a user without rights, whose umask is 077."""
    process = os.fork()
    if process == 0:
        with trial.layers.inside(NAMESPACE, KEY):
            os._exit(_error_of_nobody(command))
    number = os.waitstatus_to_exitcode(os.waitpid(process, 0)[1])
    return name_in_linux(number) if number else GRANTED


def _error_of_nobody(command: Command) -> int:
    try:
        os.umask(0o077)
        os.setgroups([])
        os.setgid(NOBODY)
        os.setuid(NOBODY)
        operate(command)
    except OSError as error:
        return error.errno
    return 0


@_case
def mkdir_modes(trial: Trial) -> None:
    """`mkdir` takes its mode as given. mkdir(2) keeps octal 1777 of it, and lets set-group-ID be inherited."""
    trial.start(_mkdir("/d", 0o6755), _mkdir("/s"), _set_mode("/s", 0o2755), _mkdir("/s/x"))
    trial.differ(_at("look", "/d"), {"seen": {"dir": 0o755}}, {"seen": {"dir": 0o6755}})
    trial.differ(_at("look", "/s/x"), {"seen": {"dir": 0o2755}}, {"seen": {"dir": 0o755}})


@_case
def names_of_one_lower_file(trial: Trial) -> None:
    """rename(2) leaves two names of one file as they are. Names of one lower file are two files to overlayfs without
    an inode index, and here."""
    trial.start(_create("/a"), _from_to("link", "/a", "/b"), _from_to("rename", "/a", "/b"))
    trial.agree(_at("list", "/"), {"names": ["a", "b"]})
    trial.commit()
    trial.start(_from_to("rename", "/a", "/b"))
    trial.agree(_at("list", "/"), {"names": ["b"]})


@_case
def moved_paths_above_4095(trial: Trial) -> None:
    """A directory does not move where a path in it would pass 4095 bytes."""
    trial.start(*map(_mkdir, _deep_paths("/n", 4095)))
    trial.differ(_from_to("rename", "/n", "/nn"), GRANTED, "BadPath")


@_case
def resolved_paths_above_4095(trial: Trial) -> None:
    """A path above 4095 bytes that is met while symlinks are resolved is a bad path."""
    paths = _deep_paths("/n", 4000)
    trial.start(*map(_mkdir, paths), _symlink("/l", paths[-1]))
    trial.differ(_at("resolve", "/l/" + "x" * 100), "ENOENT", "BadPath")


def _deep_paths(top: str, size: int) -> list[str]:
    """Directories in one another, down to a path of a number of bytes."""
    paths = [top]
    while len(paths[-1]) < size:
        paths.append(paths[-1] + "/" + "m" * min(255, size - len(paths[-1]) - 1))
    return paths


@_case
def targets_of_any_bytes(trial: Trial) -> None:
    """A word of a symlink's target that is not UTF-8 is not found, and no script can make one. Linux takes any
    bytes as a name."""
    trial.start()
    with trial.layers.inside(NAMESPACE, KEY):
        os.mkdir(b"/\xff")
        os.symlink(b"\xff", b"/l")
        os.close(os.open(b"/l", os.O_PATH | os.O_DIRECTORY))
    line = b'{"do":"symlink","ns":"a","key":"k","path":"/l","target":"\xff"}\n'
    words = [trial.bench.program, "run"]
    opening = line_of({"do": "open", "root": "/r", "namespaces": []}).encode()
    ended = subprocess.run(words, input=opening + line, capture_output=True, check=False)
    trial.expect("here: a line", ended.stderr, b"line 2: not JSON\n")


@_case
def link_of_a_directory(trial: Trial) -> None:
    """A `link` of a directory is not permitted, whatever stands at its target. Linux says first that this exists."""
    trial.start(_mkdir("/d"), _create("/f"))
    trial.differ(_from_to("link", "/d", "/f"), "EEXIST", "NotPermitted")


@_case
def link_without_its_source(trial: Trial) -> None:
    """`link` looks for its source after both walks. Linux does before the target's walk."""
    trial.start(_create("/f"))
    trial.differ(_from_to("link", "/no", "/f/x"), "ENOENT", "NotDir")


@_case
def rename_onto_a_directory_above(trial: Trial) -> None:
    """The kinds are tested first. Linux says that the directory has names."""
    trial.layer(_mkdir("/l"), _mkdir("/l/d"))
    trial.start(_mkdir("/u"), _mkdir("/u/d"), _create("/u/f"))
    trial.differ(_from_to("rename", "/u/f", "/u"), "ENOTEMPTY", "IsDir")
    trial.differ(_from_to("rename", "/l/d", "/l"), "ENOTEMPTY", "CrossDevice")
    trial.differ(_from_to("rename", "/u/d", "/u"), "ENOTEMPTY", "NotEmpty")


@_case
def symlink_targets(trial: Trial) -> None:
    """A symlink's target is tested after its path. Linux does first of all, with other errors."""
    trial.start(_create("/f"))
    too_long = "t" * 4096
    trial.differ(_symlink("/l", ""), "ENOENT", "Invalid")
    trial.differ(_symlink("/f", ""), "ENOENT", "Exists")
    trial.differ(_symlink("/l", too_long), "ENAMETOOLONG", "TooBig")
    trial.differ(_symlink("/no/l", too_long), "ENAMETOOLONG", "NotFound")


@_case
def root_is_busy(trial: Trial) -> None:
    """`rmdir` and `rename` of the root are invalid. Linux says that it is busy."""
    trial.start(_mkdir("/d"))
    trial.differ(_at("rmdir", "/"), "EBUSY", "Invalid")
    trial.differ(_from_to("rename", "/", "/e"), "EBUSY", "Invalid")
    trial.differ(_from_to("rename", "/d", "/"), "EBUSY", "Invalid")


@_case
def symlinks_as_files(trial: Trial) -> None:
    """To write, truncate, read or set the mode of a symlink is invalid."""
    trial.start(_symlink("/l", "f"), _create("/f"))
    trial.differ(_write("/l", "x"), "ELOOP", "Invalid")
    trial.differ(_truncate("/l", 1), "ELOOP", "Invalid")
    trial.differ(_at("read", "/l"), "ELOOP", "Invalid")
    trial.differ(_set_mode("/l", 0o600), "EOPNOTSUPP", "Invalid")


@_case
def symlinks_on_the_way(trial: Trial) -> None:
    """A symlink inside the path of a file call is not a directory. Linux follows it, as `resolve` does."""
    trial.start(_mkdir("/d"), _create("/d/f"), _symlink("/l", "d"))
    trial.differ(_create("/l/g"), GRANTED, "NotDir")
    trial.differ(_at("look", "/l/f"), {"seen": {"file": 0o644, "size": 0}}, {"seen": None})
    trial.agree(_at("resolve", "/l/f"), {"path": "/d/f"})


@_case
def marks_of_moved_directories(trial: Trial) -> None:
    """A moved directory is opaque only where something below would be seen. The kernel marks it wherever its new
    parent is merged. What is seen is the same."""
    trial.layer(_mkdir("/m"))
    trial.start(_mkdir("/p"), _mkdir("/p/d"))
    trial.expect("Linux: a mark", trial.has_mark("/p/d"), False)
    trial.agree(_from_to("rename", "/p/d", "/m/d"), GRANTED)
    trial.expect("Linux: a mark over nothing", trial.has_mark("/m/d"), True)
    trial.commit()
    trial.start(_create("/m/d/f"))
    trial.agree(_at("list", "/m/d"), {"names": ["f"]})


@_case
def marks_of_refused_renames(trial: Trial) -> None:
    """A refused rename leaves the layer as it was. In the kernel it can leave a mark."""
    trial.layer(_mkdir("/m"))
    trial.start(_mkdir("/p"), _mkdir("/p/d"), _mkdir("/e"), _create("/e/f"))
    trial.differ(_from_to("rename", "/p/d", "/e"), "ENOTEMPTY", "NotEmpty")
    trial.expect("Linux: a mark", trial.has_mark("/p/d"), True)


@_case
def marks_of_roots(trial: Trial) -> None:
    """An opaque root hides what the layers below have. Linux doesn't look at the mark of a layer's root."""
    trial.layer(_mkdir("/m"))
    trial.start(_create("/f"))
    with trial.layers.inside_layer(NAMESPACE, KEY):
        os.setxattr("/", OPAQUE, b"y")
    trial.expect("here: opaque", trial.here(_at("opaque", "/")), GRANTED)
    trial.commit()
    trial.start()
    trial.differ(_at("list", "/"), {"names": ["f", "m"]}, {"names": ["f"]})


@_case
def marks_that_show_nothing(trial: Trial) -> None:
    """A directory in place of a whiteout is opaque. Over a file that shows nowhere: without the mark Linux shows
    the same."""
    trial.layer(_create("/f"))
    trial.start(_at("unlink", "/f"), _mkdir("/f"), _create("/f/x"))
    trial.expect("Linux: a mark", trial.has_mark("/f"), True)
    with trial.layers.inside_layer(NAMESPACE, KEY):
        os.removexattr("/f", OPAQUE)
    trial.commit()
    trial.start()
    trial.agree(_at("list", "/f"), {"names": ["x"]})


@_case
def whiteouts_over_nothing(trial: Trial) -> None:
    """The kernel lists a whiteout with nothing below it, in a directory that no other layer has. No command makes
    such a layer, so the program is not asked."""
    trial.start(_mkdir("/d"))
    with trial.layers.inside_layer(NAMESPACE, KEY):
        os.mknod("/d/w", stat.S_IFCHR, os.makedev(0, 0))
    trial.commit()
    trial.start()
    trial.expect("Linux: a list", trial.linux(_at("list", "/d")), {"names": ["w"]})
    trial.expect("Linux: a look", trial.linux(_at("look", "/d/w")), {"seen": None})


@_case
def options_above_a_page(trial: Trial) -> None:
    """The options of a mount with many ancestors under a long root can pass the page that mount(2) takes: what
    Linux then mounts, if it does, lacks the last layers."""
    with Program(trial.bench.program) as program:
        trial.program = program
        trial.open(root=f"{trial.layers.place}/" + "/".join(["r" * 200] * 4))
        for number in range(64):
            trial.here(_command("prepare", parent=trial.base))
            trial.base = f"n{number}"
            trial.here(_command("commit", name=trial.base))
        trial.here(_command("prepare", parent=trial.base))
        described = trial.here(_command("mounts"))["mounts"][0]
        options = ",".join(described["options"])
        trial.expect("here: options above a page", len(options) > LONGEST_OPTIONS, True)
        trial.expect("Linux: the last layer is seen", _shows_last_layer(trial, options), False)


def _shows_last_layer(trial: Trial, options: str) -> bool:
    """Makes the directories of a mount's options, and mounts them. The last one is the lowest layer."""
    values = [option.partition("=")[2] for option in options.split(",")]
    directories = [directory for value in values for directory in value.split(":")]
    for directory in directories:
        os.makedirs(directory)
    os.mkdir(f"{directories[-1]}/seen")
    place = f"{trial.layers.place}/m"
    os.mkdir(place)
    try:
        mount("overlay", place, options)
    except OSError:
        return False
    try:
        return os.path.exists(f"{place}/seen")
    finally:
        unmount(place)
