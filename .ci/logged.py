"""`snap_replay serve --log`: the program behind its standard streams, the disk under it, and the format of its log."""
import hashlib
import json
import mmap
import os
import re
import select
import struct
import subprocess
import time
from dataclasses import dataclass

TOP = os.path.dirname(os.path.dirname(os.path.realpath(__file__)))
PROGRAM = f"{TOP}/crates/snap_replay/out/snap_replay"
SECONDS = 60
NOT_KEPT = b'{"error":"NotKept","from":"log"}'
BUSY, NO_LOG, UNKNOWN, DIFFERS = 6, 7, 8, 9
CALLS = set(
    "session reopen roll prepare view stat update usage mounts walk remove commit charge trim discard limit sweep"
    " lease_create lease_add lease_drop lease_release namespace_create namespace_remove"
    " batch mkdir create put write truncate setmode symlink link unlink rmdir rename opaque whiteout".split()
)
ASKING = ("quiet", "chain", "try")


class Fault(Exception):
    """What is wrong, in words."""


def wanted(is_so, words):
    if not is_so:
        raise Fault(words)


# The format, by `crates/snap_log/specs/Texts.antt` and `crates/snap_marks/specs/Marks.antt`.

# A mark: the sum of the lines before it, and of the answers to those before its part.
MARK = re.compile(rb'\{"do":"report","lines":"[0-9a-f]{64}","answers":"[0-9a-f]{64}"(,"rebased":true)?\}')
MARK_HEAD = b'{"do":"report","lines":"'
NO_SUM = bytes(32)


def marked_text_of(file):
    """The text of a log with its marks: its lines that begin with an open brace, up to the first that doesn't or lacks its
    line feed."""
    end = 0
    while file[end : end + 1] == b"{" and (feed := file.find(b"\n", end)) >= 0:
        end = feed + 1
    return file[:end]


def text_of(file):
    """The same without the marks."""
    return as_text([line for line in marked_text_of(file).split(b"\n")[:-1] if not line.startswith(MARK_HEAD)])


def words_for(file):
    """What is said of a file that is no log; None where it is one."""
    end = len(marked_text_of(file))
    if len(file) <= 1 or file[end : end + 1] == (b" " if end else b"\0"):
        return None
    return b"the log is damaged at byte %d\n" % end if end else b"the file is no log\n"


def chained(total, text):
    return hashlib.sha256(total + text).digest()


def mark_of(lines, answers, rebased=False):
    """The mark with these sums."""
    return b'%s%s","answers":"%s"%s}' % (MARK_HEAD, lines.hex().encode(), answers.hex().encode(), b',"rebased":true' * rebased)


def log_of(parts, answers):
    """The log of these parts, with these answers to all their lines."""
    file, lines, told, answers = b"", NO_SUM, NO_SUM, iter(answers)
    for part in parts:
        for line in part:
            lines = chained(lines, line + b"\n")
        file += as_text([*part, mark_of(lines, told)])
        for _ in part:
            told = chained(told, next(answers) + b"\n")
    return file + (b" " if parts else b"\0")


def parts_of(file):
    """The lines of a log by its parts, each of which ends with a mark. Lines behind the last one are a part too."""
    parts = [[]]
    for line in marked_text_of(file).split(b"\n")[:-1]:
        if line.startswith(MARK_HEAD):
            parts.append([])
        else:
            parts[-1].append(line)
    return parts if parts[-1] else parts[:-1]


def is_change(line, is_open):
    """Whether a line without a fault changes the store, or opens one."""
    try:
        command = json.loads(line)
    except ValueError:
        return False
    if command.get("do") in ("open", "restore"):
        return not is_open
    return is_open and command.get("do") in CALLS and not any(command.get(word) is True for word in ASKING)


def opens(line, answer):
    """Whether a line that was answered so has opened a store, or was the last one of a saved store, which stands."""
    command = json.loads(line)
    return b'{"ok":true}' in answer and (command["do"] == "open" or command.get("piece") == "end")


def kept_lines(lines):
    """Those lines of a script that are in a log, as they stand there."""
    kept = []
    for line in lines:
        if is_change(line, bool(kept)):
            kept.append(line.lstrip(b" \t\r"))
    return kept


def as_text(lines):
    return b"".join(line + b"\n" for line in lines)


@dataclass(frozen=True)
class Ended:
    """How a run ended: its status, its answers, and its words."""

    status: int
    answers: list[bytes]
    words: bytes


def run(words, text, **how):
    """The program with these words and this input, up to its end."""
    how = {"input": text, "capture_output": True, "timeout": SECONDS, "check": False, "close_fds": False, **how}
    ended = subprocess.run([PROGRAM, *words], **how)
    wanted(not ended.stdout or ended.stdout.endswith(b"\n"), f"the output ends within a line: {ended.stdout[-80:]!r}")
    return Ended(ended.returncode, ended.stdout.splitlines(), ended.stderr)


def served(lines):
    """The answers without a log."""
    ended = run(["serve"], as_text(lines))
    wanted((ended.status, ended.words, len(ended.answers)) == (0, b"", len(lines)), f"without a log: {ended}")
    return ended.answers


# The words by which a log stays in one file, and by which it is made short where it has more than 1 MiB.
ALONE, SHORT = ("--checkpoint", "0"), ("--checkpoint", "1")


def started(path, lines, times=ALONE, **how):
    """The program over a log, with these lines."""
    return run(["serve", "--log", path, *times], as_text(lines), **how)


def not_kept(line):
    """The answer to a change that isn't kept."""
    number = json.loads(line).get("id")
    if number is None:
        return NOT_KEPT
    return b'{"answer":%s,"id":%s}' % (NOT_KEPT, json.dumps(number, ensure_ascii=False).encode())


def log_from(parts):
    """The log of these parts, of which each has lines that change the store."""
    return log_of(parts, served([line for part in parts for line in part]))


def is_marked(file):
    """The marks of a log are those that its lines and their answers want."""
    text = marked_text_of(file)
    wanted(log_from(parts_of(file))[:-1] == text, f"the marks are others: {text[-200:]!r}")


class Disk:
    """The library `disk.c` under a process, what steers it, and what it counts."""

    WRITES, SYNCS, READS, ROOM = 0, 4, 8, 12

    def __init__(self, shim, folder):
        self.shim, self.path, self.record = shim, f"{folder}/steering", f"{folder}/record"
        with open(self.path, "w+b") as it:
            it.truncate(mmap.PAGESIZE)
            self.words = memoryview(mmap.mmap(it.fileno(), mmap.PAGESIZE)).cast("Q")

    def begin(self, calls=WRITES, failing=0, error=0, bytes_done=0, room=2**62):
        """No call was made, and this one of a kind will fail."""
        for at in range(Disk.ROOM):
            self.words[at] = 0
        self.words[calls + 1], self.words[calls + 2], self.words[calls + 3] = failing, error, bytes_done
        self.words[Disk.ROOM] = room

    def counts(self):
        """How many writes and how many syncs there were."""
        return self.words[Disk.WRITES], self.words[Disk.SYNCS]

    def give_room(self):
        self.words[Disk.ROOM] = 2**62

    def under(self, is_recorded=False):
        """The environment of a process that has this disk."""
        if not is_recorded:
            return {**os.environ, "LD_PRELOAD": self.shim, "DISK": self.path}
        with open(self.record, "wb"):
            return {**os.environ, "LD_PRELOAD": self.shim, "DISK": self.path, "RECORD": self.record}

    def recorded(self):
        """What was written and synced and answered, in order: each kind, place and bytes."""
        with open(self.record, "rb") as it:
            record, at = it.read(), 0
        while at < len(record):
            kind, place, number = struct.unpack_from("3Q", record, at)
            yield kind, place, record[at + 24 : at + 24 + number]
            at += 24 + number


WRITTEN, SYNCED, ANSWERED = 1, 2, 3


class Server:
    """A process over a log, whose lines are sent and answered part by part."""

    def __init__(self, path, times=ALONE, **how):
        streams = dict.fromkeys(("stdin", "stdout", "stderr"), subprocess.PIPE)
        self.process = subprocess.Popen([PROGRAM, "serve", "--log", path, *times], bufsize=0, close_fds=False, **streams, **how)
        self.rest = b""

    def __enter__(self):
        return self

    def __exit__(self, *_):
        self.process.kill()
        self.end()

    def send(self, lines):
        """Sends lines, by one write."""
        self.write(as_text(lines))

    def write(self, text):
        """Writes bytes, which are lost where the process has ended."""
        try:
            self.process.stdin.write(text)
        except BrokenPipeError:
            pass

    def answers(self, number):
        """This number of answers, or fewer where the process ends before."""
        output, until = self.process.stdout.fileno(), time.monotonic() + SECONDS
        while self.rest.count(b"\n") < number:
            wanted(select.select([output], [], [], max(0, until - time.monotonic()))[0], f"no answer in {SECONDS} s")
            more = os.read(output, 1 << 16)
            if not more:
                break
            self.rest += more
        *told, self.rest = self.rest.split(b"\n", number)
        return told

    def ask(self, lines):
        """The answers to lines, which are one read of the process once a store is open."""
        self.send(lines)
        return self.answers(len(lines))

    def end(self):
        """Ends the input, and tells how the process ended, with the answers that weren't read."""
        output, words = self.process.communicate(timeout=SECONDS)
        return Ended(self.process.returncode, (self.rest + output).splitlines(), words)
