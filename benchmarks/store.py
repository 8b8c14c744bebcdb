#!/usr/bin/env python3
"""What calls take in a store of many snapshots, of the product and of the plain program.

    store.py SCRIPT_PROGRAM PLAIN_PROGRAM [SECONDS]

Prints a line for each figure, its parts separated by tabs. Times are in microseconds of processor time, memory is
in bytes. A store that would take the product more than a number of seconds to build (300 where no number is given) is
not built, and the larger ones neither: a line on standard error says so.
"""

import hashlib
import sys
from contextlib import ExitStack

from program import Pair, least

SIZES = (100, 1000, 10000, 100000, 1000000)
REPEATS = 100
CYCLES = 250
STATS = 1000
PAGES = 20
CHUNK = 1000
# The journal takes 1,048,576 entries, and a snapshot two.
ROUND = 400000
MEMORY_CALLS = 50000
DEFAULT_BUDGET = 300


def key(number):
    """A key whose place among the others says nothing of its number."""
    return f"{number * 2654435761 % 2**32:08x}"


def digest(number):
    """Such a key as image builders have it."""
    return "sha256:" + hashlib.sha256(str(number).encode()).hexdigest()


def line(verb, **fields):
    parts = "".join(f',"{field}":"{value}"' for field, value in fields.items())
    return f'{{"do":"{verb}","ns":"a"{parts}}}'


def snapshot(number, named=key):
    return [line("prepare", key="k", parent=""), line("commit", key="k", name=named(number))]


def cycle(number, size, named):
    """A snapshot on one that stands, with a key that is taken from no other."""
    own, name = named(size + 2 * number), named(size + 2 * number + 1)
    return [
        line("prepare", key=own, parent=named(number * 7919 % size)),
        line("stat", key=own),
        line("commit", key=own, name=name),
        line("remove", key=name),
    ]


def figure(what, size, unit, ours, plain):
    print(what, size, unit, f"{ours:.4g}", f"{plain:.4g}", sep="\t", flush=True)


def say(text):
    print(text, file=sys.stderr, flush=True)


class Bench:
    """Both programs with stores of as many snapshots."""

    def __init__(self, pair, budget, named=key):
        self.pair = pair
        self.budget = budget
        self.named = named
        self.size = 0
        self.entries = 0
        self.tell(['{"do":"open","root":"/r","namespaces":[["a",1099511627776,1099511627776]]}'])

    def tell(self, lines):
        """The processor time of both for lines that have an answer each. A round ends before its journal is full."""
        if self.entries + len(lines) > ROUND:
            self.reopen()
        self.entries += len(lines)
        return self.pair.ask(lines, len(lines))

    def reopen(self):
        self.pair.ask(['{"do":"reopen"}'], 1)
        self.entries = 1

    def grow(self, size):
        """Adds snapshots up to the size. The answer is whether that is done within the budget."""
        spent = 0
        for start in range(self.size, size, CHUNK):
            end = min(start + CHUNK, size)
            ours, _ = self.tell([text for number in range(start, end) for text in snapshot(number, self.named)])
            spent += ours
            # A call's cost may grow with the records: what is left takes at least as much for each.
            if spent + ours * (size - end) / (end - start) > self.budget:
                self.size = end
                return False
        self.size = size
        return True

    def cycles(self, what):
        return what, [text for number in range(CYCLES) for text in cycle(number, self.size, self.named)], CYCLES

    def calls(self):
        """What is measured: its name, its lines and how often it is done in them."""
        size = self.size
        return [
            self.cycles("prepare, stat, commit, remove"),
            ("stat", [line("stat", key=self.named(number * 7919 % size)) for number in range(STATS)], STATS),
            ("a page of walk", [line("walk", after=self.named(number * 7919 % size)) for number in range(PAGES)], PAGES),
        ]

    def calls_with_digests(self):
        return [self.cycles("the same four, keys of 71 bytes")]


def measure_times(script, plain, budget, sizes, named, calls_of):
    """The stores stand side by side and are measured in turns, so that what slows the machine slows each of them."""
    with ExitStack() as stack:
        measured = []
        for size in sizes:
            say(f"store: {size} snapshots")
            pair = stack.enter_context(Pair([script, "run"], [plain, "script"]))
            bench = Bench(pair, budget, named)
            if not bench.grow(size):
                say(f"store: {size} snapshots would take more than {budget:g} seconds to build")
                break
            bench.reopen()
            measured += [(bench, *call, []) for call in calls_of(bench)]
        for _ in range(REPEATS):
            for bench, _, lines, _, times in measured:
                times.append(bench.tell(lines))
        for bench, what, _, count, times in measured:
            ours, plain_time = least(times)
            figure(what, bench.size, "us", ours * 1e6 / count, plain_time * 1e6 / count)


def grown(bench, lines_of):
    """The bytes that both take more after each of many groups of lines."""
    before = bench.pair.resident_bytes()
    for start in range(0, MEMORY_CALLS, CHUNK):
        numbers = range(start, start + CHUNK)
        bench.pair.ask([text for number in numbers for text in lines_of(number)], CHUNK * len(lines_of(0)))
    after = bench.pair.resident_bytes()
    return [(end - start) / MEMORY_CALLS for start, end in zip(before, after)]


def measure_memory(script, plain):
    """What entries take, and then what a committed snapshot takes beside its two entries."""
    say("memory of entries and records")
    with Pair([script, "run"], [plain, "script"]) as pair:
        bench = Bench(pair, DEFAULT_BUDGET)
        bench.grow(100)
        entry = grown(bench, lambda number: [line("stat", key=key(number % 100))])
        figure("an entry of stat", MEMORY_CALLS, "bytes", *entry)
        life = grown(bench, lambda number: [*snapshot(200000), line("remove", key=key(200000))])
        figure("an entry of prepare, commit or remove, on average", MEMORY_CALLS, "bytes", *(all3 / 3 for all3 in life))
        kept = grown(bench, lambda number: snapshot(1000 + number))
        records = [whole - three * 2 / 3 for whole, three in zip(kept, life)]
        figure("a committed snapshot with an empty layer, without entries", MEMORY_CALLS, "bytes", *records)


def main():
    script, plain, *rest = sys.argv[1:]
    print("what", "snapshots", "unit", "ours", "plain", sep="\t")
    measure_memory(script, plain)
    budget = float(rest[0]) if rest else DEFAULT_BUDGET
    measure_times(script, plain, budget, SIZES, key, Bench.calls)
    measure_times(script, plain, budget, SIZES[:-1], digest, Bench.calls_with_digests)


if __name__ == "__main__":
    main()
