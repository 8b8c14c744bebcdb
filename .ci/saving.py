"""Stores that are made, saved in pages and restored of the lines, and the process that has one; for `.ci/saves`."""
import copy
import json
import os
import random
import subprocess
import sys
import threading
from importlib.machinery import SourceFileLoader
from importlib.util import module_from_spec, spec_from_loader

TOP = os.path.dirname(os.path.dirname(os.path.realpath(__file__)))
sys.dont_write_bytecode = True
rounds = module_from_spec(spec_from_loader("rounds", SourceFileLoader("rounds", f"{TOP}/.ci/rounds")))
rounds.__loader__.exec_module(rounds)
Failed, SECONDS = rounds.Failed, rounds.SECONDS
# What its scripts are made of, with all file commands and more names.
rounds.FILE_COMMANDS += ("setmode", "symlink", "opaque", "whiteout", "rmdir")
rounds.KEYS += ("base é", "top", "open", "sealed")
rounds.PATHS = ("/", "/d", "/d", "/d/é", "/f", "/f", "/d/f", "/d/é/g", "/o", "/o/x", "/s", "/p", "none")

OK = '{"ok":true}'
JOURNAL = 2**20
PAGE_LINES, PAGE_BYTES, LINE_BYTES, PIECE_BYTES = 1024, 2**20, 2**20, 262_144
SIZES, LARGE = (0, 1, 4096, 5000), (PIECE_BYTES - 1, PIECE_BYTES, PIECE_BYTES + 1, 600_000)
LAYER = ("dir", "whiteout", "file", "sized", "symlink", "bytes", "name")
TEXTS, HEXADECIMAL = ("root", "ns", "name", "key", "parent", "value", "path"), ("bytes", "digest", "target")


def compact(value):
    """The value as answers are written."""
    return json.dumps(value, sort_keys=True, separators=(",", ":"), ensure_ascii=False)


def wanted(is_so, words):
    if not is_so:
        raise Failed(words)


class Talk:
    """A process with a store, whose lines are answered."""

    def __init__(self, program, *words):
        self.process = subprocess.Popen([program, *words], stdin=subprocess.PIPE, stdout=subprocess.PIPE, stderr=subprocess.PIPE)
        # How many lines of saved stores have come.
        self.saved = 0

    def __enter__(self):
        return self

    def __exit__(self, *_):
        self.process.kill()
        self.process.communicate()

    def send(self, lines):
        try:
            self.process.stdin.write("".join((it if isinstance(it, str) else json.dumps(it)) + "\n" for it in lines).encode())
            self.process.stdin.flush()
        except BrokenPipeError:
            pass

    def answer(self):
        line = self.process.stdout.readline()
        if not line.endswith(b"\n"):
            raise Failed(f"no answer, status {self.process.wait()}, {self.process.stderr.read().decode()}")
        return line[:-1].decode()

    def ask_all(self, lines):
        """The answers to lines. It has so many seconds for all of them."""
        writer, clock = threading.Thread(target=self.send, args=(lines,)), threading.Timer(SECONDS, self.process.kill)
        writer.start()
        clock.start()
        try:
            return [self.answer() for _ in lines]
        finally:
            clock.cancel()
            writer.join()

    def ask(self, line):
        return json.loads(self.ask_all([line])[0])


class Maker(rounds.Script):
    """A script that is being made, with all file commands."""

    def setmode(self):
        return self.one_path() | {"mode": self.chance.choice((0o600, 0o4755, 0o7777))}

    def symlink(self):
        return self.one_path() | {"target": self.chance.choice(("d/é", "/f", "..", "s"))}

    opaque = whiteout = rmdir = rounds.Script.one_path

    def put(self):
        return self.sized() | self.some({"digest": "sha256:é"})

    def write(self):
        return self.one_path() | {"fill": [self.chance.randrange(256), self.chance.randint(0, 9000)]} | self.some({"offset": self.chance.choice((0, 3, 5000))})

    def add_calls(self, number):
        for _ in range(number):
            self.add_command()

    def add_roll(self):
        self.lines.append({"do": "roll"} | self.some({"journal": self.chance.choice((100, 400, 2000))}))
        self.sessions = 1

    def furnish(self, sizes):
        """Calls after which there are things of each kind."""
        chance, here = self.chance, "a"

        def add(do, key, **fields):
            self.lines.append({"do": do, "ns": here, "key": key} | fields)

        add("prepare", "one", parent="", labels={"ü": 'é\n\u0001"😀', "x1": ""})
        for path in ("/d", "/d/é", "/o"):
            add("mkdir", "one", path=path, mode=chance.choice((0o755, 0o1777)))
        for path in ("/gone", "/d/f", "/o/x", "/last"):
            add("create", "one", path=path)
        add("write", "one", path="/d/f", fill=[chance.randrange(256), chance.choice(sizes)])
        add("write", "one", path="/d/f", offset=chance.choice(sizes) // 2, text="öffset")
        for path in ("/gone", "/last"):
            add("unlink", "one", path=path)
        self.lines.append({"do": "link", "ns": here, "key": "one", "from": "/d/f", "to": "/d/é/g"})
        add("symlink", "one", path="/s", target="d/é")
        add("put", "one", path="/p", size=50_000, digest="sha256:ü")
        add("put", "one", path="/q", size=5000)
        add("commit", "one", name="base é")
        add("prepare", "two", parent="base é", labels={"of two": "2"})
        for do, path in (("unlink", "/d/é/g"), ("opaque", "/o"), ("create", "/o/y"), ("whiteout", "/q")):
            add(do, "two", path=path)
        add("setmode", "two", path="/d/f", mode=0o4711)
        add("commit", "two", name="top")
        add("view", "v é", parent="top", labels={"v": "w"})
        add("prepare", "open", parent="top")
        add("write", "open", path="/d/f", offset=7, text="over", extra=[4, 2])
        add("prepare", "sealed", parent="")
        add("create", "sealed", path="/x")
        add("commit", "sealed", name="top")
        add("prepare", "empty", parent="base é")
        for lease, fields in (("l1", {}), ("l2", {"until": 2**64 - 1}), ("l é", {"until": 0})):
            self.lines.append({"do": "lease_create", "ns": here, "lease": lease} | fields)
            self.lines.append({"do": "lease_add", "ns": here, "lease": lease, "name": "base é"})
        self.lines += [{"do": "lease_add", "ns": here, "lease": "l1", "name": "top"}, {"do": "lease_create", "ns": "b", "lease": "none"}]
        self.lines += [{"do": "namespace_create", "ns": name, "blocks": 90, "inodes": 80} for name in ("c", "d é")]
        self.lines.append({"do": "namespace_remove", "ns": "c"})
        self.actives += [(here, key) for key in ("open", "sealed", "empty")]
        self.committed += [(here, "base é"), (here, "top")]


def opening(chance, **fields):
    return {"do": "open", "root": "/r/é", "namespaces": [["a", 2**30, 2**20], ["b", 400, 400]], "slots": chance.randint(4, 9)} | fields


def script_of(seed, number):
    """The calls that make a store, those that come between its pages, and those that come after."""
    chance = random.Random(f"{seed} {number}")
    maker = Maker(chance)
    maker.lines.append(opening(chance, ancestors=chance.choice((2, 3, 64, 500)), layer_inodes=chance.choice((40, 65536)), journal=chance.choice((60, 200, JOURNAL))))
    # Each eighth store has a file of about a piece's bytes, the first one of more pieces.
    maker.furnish(SIZES if number % 8 else (LARGE[-1 - number // 8 % len(LARGE)],))
    for _ in range(chance.randint(0, 3)):
        maker.add_calls(chance.choice((0, 10, 60)))
        maker.add_roll()
    maker.add_calls(chance.choice((0, 10, 60)))
    calls, maker.lines = maker.lines, []
    other = copy.deepcopy(maker)
    other.add_calls(40)
    other.add_roll()
    other.add_calls(40)
    maker.sessions = 1
    maker.add_calls(chance.choice((100, 300)))
    if chance.random() < 0.3:
        maker.add_roll()
        maker.add_calls(60)
    return calls, other.lines, maker.lines


def limit_of(calls, answers):
    """The limit of the journal of the last round that began."""
    begun = [line for line, answer in zip(calls, answers) if rounds.has_begun(line, json.loads(answer))]
    return begun[-1].get("journal", JOURNAL)


def page_of(lines, most):
    """How many of the lines a page has, by the rule."""
    room = PAGE_BYTES
    for number, line in enumerate(lines[:most], 1):
        room -= sum(len(line.get(it, "").encode()) for it in TEXTS) + sum(len(line.get(it, "")) // 2 for it in HEXADECIMAL)
        if room <= 0:
            return number
    return min(most, len(lines))


def pages_of(talk, chance=None, calls=()):
    """The lines of a store, in pages of random sizes, with some of the calls between them; or in the largest pages."""
    lines, pages, calls, report, after = [], [], list(calls), talk.ask({"do": "report"}), 0
    while True:
        most = chance.choice((1, 2, 3, 7, 20, 100, 1024)) if chance else PAGE_LINES
        text = talk.ask_all([{"do": "save", "after": after} | ({"max": most} if most < PAGE_LINES else {})])[0]
        page = json.loads(text)
        wanted("lines" in page and compact(page) == text, f"a page after {after} lines is {text[:200]}")
        wanted(lines or report == talk.ask({"do": "report"}), "to save makes an entry")
        pages.append((most, len(page["lines"])))
        lines += page["lines"]
        talk.saved += len(page["lines"])
        if "next" not in page:
            judge_pages(lines, pages)
            return lines
        after = page["next"]
        wanted(after == talk.saved, f"after {talk.saved} lines the next is {after}")
        for field, value in (("after", after + 1), ("max", 0), ("max", PAGE_LINES + 1)) if chance else ():
            told = talk.ask({"do": "save", "after": after, field: value})
            wanted(told == {"error": "BadArgument", "from": "book", "of": field}, f"{field} {value} is answered {told}")
        talk.ask_all([calls.pop(0) for _ in range(min(len(calls), chance.choice((0, 1, 5))) if chance else 0)])


def judge_pages(lines, pages):
    """Each page has the lines that the rule gives it, and only the last one may have fewer."""
    at = 0
    for most, number in pages:
        wanted(number == page_of(lines[at:], most), f"a page after {at} lines has {number}, not {page_of(lines[at:], most)}")
        at += number
    for line in lines:
        wanted(len(compact(line).encode()) <= LINE_BYTES and len(line.get("bytes", "")) <= 2 * PIECE_BYTES, f"a line is too long: {compact(line)[:200]}")
    wanted(lines[-1].get("lines") == len(lines), f"the last line counts other than {len(lines)}: {lines[-1]}")
    wanted([it["piece"] in ("store", "end") for it in lines] == [True, *[False] * (len(lines) - 2), True], "the first line or the last isn't in its place")


def restore(talk, lines):
    """Sends the lines of a store, each of which is taken."""
    for line, answer in zip(lines, talk.ask_all([compact(it) for it in lines])):
        wanted(answer == OK, f"to {compact(line)[:300]} the answer {answer}")


def small_store(program, seed):
    """The lines of a store that has things of each kind, and the calls that made it."""
    maker = Maker(random.Random(f"{seed} small"))
    maker.lines.append(opening(maker.chance))
    maker.furnish((5, 30))
    with Talk(program, "run", "--strict") as talk:
        talk.ask_all(maker.lines)
        return pages_of(talk), maker.lines


def as_text(lines):
    return "".join(compact(it) + "\n" for it in lines).encode()


def many_lines():
    """Calls that make a store of many lines and bytes, with texts at their limits, and how many lines it has."""
    here, path = {"ns": "a", "key": "k" * 1024}, "/" + "/".join(["\u0001" * 255] * 15)
    ops = [{"do": "mkdir", "path": path[: 256 * depth]} for depth in range(1, 16)]
    ops += [{"do": "symlink", "path": f"{path}/{number}", "target": "\u0001" * 4095} for number in range(3)]
    ops += [{"do": "put", "path": "/put", "size": 2**40, "digest": "\u0001" * 1024}]
    files = [{"do": "create", "path": f"/{number}"} for number in range(1200)]
    writes = [{"do": "write", "path": f"/{number}", "fill": [7, size]} for number, size in enumerate((2**20, PIECE_BYTES + 1))]
    labels = {"l" * (2000 + number): "\u0001" * (2096 - number) for number in range(3)}
    calls = [{"do": "open", "root": "/r", "namespaces": [["a", 2**40, 2**40]]}, {"do": "prepare", "parent": "", "labels": labels} | here]
    calls += [{"do": "batch", "need": [0, 0], "ops": some} | here for some in (ops, files, writes)]
    return calls, 4 + len(labels) + 15 + 3 * 2 + 2 + 2 * len(files) + 4 + 2


def without_layers(lines):
    """The same without the layers of open snapshots."""
    left, is_open = [], False
    for line in lines:
        is_open = "slot" in line if line["piece"] in ("snapshot", "lease") else is_open
        if line["piece"] == "snapshot" and is_open:
            line = {name: value for name, value in line.items() if name not in ("sealed", "mode", "opaque", "next", "most")}
        if not is_open or line["piece"] not in LAYER:
            left.append(line)
    return [*left[:-1], left[-1] | {"lines": len(left)}]
