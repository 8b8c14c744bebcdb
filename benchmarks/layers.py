#!/usr/bin/env python3
"""What lookups and edits take through stacks of layers, of the product and of the plain program.

    layers.py LIBRARY_PROGRAM SCRIPT_PROGRAM PLAIN_PROGRAM

Prints a line for each figure, its parts separated by tabs. Times are in microseconds of processor time, memory is
in bytes.
"""

import math
import sys

from program import Pair, least

# The directory that all layers have, and that is seen merged.
DIRECTORY = "/usr/lib"
TREE = DIRECTORY + "/tree"
# Another directory, for looks beside great ones.
BESIDE = "/etc/passwd"

LAYERS = (1, 8, 64)
ENTRIES = (100, 1000, 10000, 60000)
# The stack for which there are goals, and the entries of the directory that is renamed in it.
MOST_LAYERS, MANY_ENTRIES, TREE_ENTRIES = 64, 20000, 10000
DEEP_NAMES = 2000
SMALL_FILE = "x" * 100

REPEATS = 5
PATHS = 1000
EDITS = 1500
CHUNK = 1000
# How long a measurement takes, in seconds.
LEAST_PLAIN, MOST_OURS = 0.02, 0.4
# A prime number, so that its multiples go through all entries in no order.
STRIDE = 7919


def name(number, layer):
    """A file's path. Those of different layers stand among each other."""
    return f"{DIRECTORY}/f{number:05}-{layer}"


def some(entries, count, first=0):
    """A number of numbers of entries, spread over all."""
    return [(first + k) * STRIDE % entries for k in range(count)]


def figure(surface, what, layers, entries, unit, ours, plain):
    print(surface, what, layers, entries, unit, f"{ours:.4g}", f"{plain:.4g}", sep="\t", flush=True)


def say(text):
    print(text, file=sys.stderr, flush=True)


# The library.


def fill(pair, operations):
    """Carries operations out on the upper layers without a look below them."""
    for start in range(0, len(operations), CHUNK):
        pair.ask([*operations[start : start + CHUNK], "fill", "clear"], 1)


def layer_of(entries, layer):
    return ["mkdir /usr", f"mkdir {DIRECTORY}", *(f"create {name(k, layer)}" for k in range(entries))]


def upper_of(pair, entries, layers, uppers):
    """Makes a number of upper layers anew."""
    pair.ask([f"uppers {uppers}", "fill"], 1)
    fill(pair, layer_of(entries, layers - 1))


def stack_of(pair, layers, entries):
    """The lower layers."""
    for layer in range(layers - 1):
        fill(pair, layer_of(entries, layer))
        pair.ask(["commit", "fill"], 1)


def measure_looks(pair, paths):
    """What a lookup takes."""
    pair.ask([*(f"look {path}" for path in paths), "looks 1"], 1)
    ours, plain = pair.ask(["looks 1"], 1)
    times = max(1, min(math.ceil(LEAST_PLAIN / plain), math.ceil(MOST_OURS / ours)))
    measured = least(pair.ask([f"looks {times}"], 1) for _ in range(REPEATS))
    pair.ask(["clear", "fill"], 1)
    return per_item(measured, times * len(paths))


def per_item(measured, count):
    """Seconds of both in microseconds for each of a number."""
    return tuple(seconds * 1e6 / count for seconds in measured)


def looks(pair, layers, entries):
    upper_of(pair, entries, layers, 1)
    paths = {
        "look, in the bottom layer": [name(k, 0) for k in some(entries, PATHS)],
        "look, in the top layer": [name(k, layers - 1) for k in some(entries, PATHS)],
        "look, nowhere": [name(k, "none") for k in some(entries, PATHS)],
    }
    for what, group in paths.items():
        figure("library", what, layers, entries, "us", *measure_looks(pair, group))


def edits(pair, layers, entries):
    count = min(EDITS, entries // 2)
    uppers = math.ceil(EDITS / count)
    lower = [name(k, 0) for k in some(entries, 2 * count)]
    groups = {
        "create": [f"create {name(k, 'new')}" for k in some(entries, count)],
        "copy-up by setmode": [f"setmode {path}" for path in lower[:count]],
        "unlink with a whiteout": [f"unlink {path}" for path in lower[count:]],
        "unlink of an own file": [f"unlink {name(k, 'new')}" for k in some(entries, count)],
    }
    measured = {what: [] for what in groups}
    for _ in range(REPEATS):
        upper_of(pair, entries, layers, uppers)
        for what, operations in groups.items():
            # The list is made first; an apply over none is what is asked for here.
            prepare(pair, operations)
            measured[what].append(pair.ask(["apply"], 1))
            pair.ask(["clear", "fill"], 1)
    for what, times in measured.items():
        figure("library", what, layers, entries, "us", *per_item(least(times), count * uppers))


def prepare(pair, operations):
    """Puts operations on the list. `looks 0` is answered once they are all there."""
    pair.ask([*operations, "looks 0"], 1)


def applied(pair, operations):
    """What a list of operations takes that leaves things as they were."""
    prepare(pair, operations)
    measured = least(pair.ask(["apply"], 1) for _ in range(REPEATS))
    pair.ask(["clear", "fill"], 1)
    return measured


def renames(pair, layers, entries, tree):
    """The renames of a directory of the upper layer with a tree of a number of entries."""
    upper_of(pair, entries, layers, 1)
    fill(pair, [f"mkdir {TREE}", *(f"create {TREE}/f{k:05}" for k in range(tree))])
    count = 200
    there_and_back = [f"rename {TREE} {TREE[:-1]}a", f"rename {TREE[:-1]}a {TREE}"]
    ours, plain = per_item(applied(pair, there_and_back * count), 2 * count)
    figure("library", "rename of a directory", layers, tree, "us", ours, plain)
    count = max(1, 20000 // tree)
    longer = [f"rename {TREE} {TREE}s", f"rename {TREE}s {TREE}"]
    both = per_item(applied(pair, longer * count), count)
    figure("library", "rename to a longer path", layers, tree, "us", both[0] - ours, both[1] - plain)


def measure_library(library, plain):
    for layers in LAYERS:
        for entries in ENTRIES:
            say(f"library: {layers} layers of {entries} entries")
            with Pair([library, "lists"], [plain, "layers"]) as pair:
                stack_of(pair, layers, entries)
                looks(pair, layers, entries)
                edits(pair, layers, entries)
                renames(pair, layers, 10, entries)
    say(f"library: {MOST_LAYERS} layers of {MANY_ENTRIES} entries")
    with Pair([library, "lists"], [plain, "layers"]) as pair:
        stack_of(pair, MOST_LAYERS, MANY_ENTRIES)
        looks(pair, MOST_LAYERS, MANY_ENTRIES)
        edits(pair, MOST_LAYERS, MANY_ENTRIES)
        renames(pair, MOST_LAYERS, MANY_ENTRIES, TREE_ENTRIES)


def measure_memory(library, plain):
    entries = ENTRIES[-1]
    say(f"memory of a layer of {entries} files")
    with Pair([library, "lists"], [plain, "layers"]) as pair:
        # One chunk before, so that what any list of operations takes is there.
        fill(pair, ["mkdir /usr", f"mkdir {DIRECTORY}", *(f"create {name(k, 'none')}" for k in range(CHUNK))])
        before = pair.resident_bytes()
        for k in range(0, entries, CHUNK // 2):
            files = [name(number, 0) for number in range(k, k + CHUNK // 2)]
            pair.ask(
                [
                    *(f"create {path}" for path in files),
                    *(f"write {path} {SMALL_FILE}" for path in files),
                    "fill",
                    "clear",
                ],
                1,
            )
        after = pair.resident_bytes()
    ours, plain = ((b - a) / entries for a, b in zip(before, after))
    figure("memory", "an inode, with its name and 100 bytes", 1, entries, "bytes", ours, plain)


def measure_deep(library, plain):
    """A look alone, and the same beside a path of many names and a directory of many."""
    say(f"a path of {DEEP_NAMES} names")
    with Pair([library, "lists"], [plain, "layers"]) as pair:
        fill(pair, ["mkdir /etc", f"create {BESIDE}"])
        figure("library", "look in a small layer", 1, 1, "us", *measure_looks(pair, [BESIDE] * PATHS))
        deeper = ["mkdir /b", "rename /a /b/a", "rename /b /a"]
        fill(pair, ["mkdir /a", *(line for _ in range(DEEP_NAMES - 1) for line in deeper)])
        fill(pair, layer_of(ENTRIES[-1], 0))
        what = f"the same beside a path of {DEEP_NAMES} names and a directory of {ENTRIES[-1]}"
        figure("library", what, 1, 1, "us", *measure_looks(pair, [BESIDE] * PATHS))
        what = f"look at the path of {DEEP_NAMES} names"
        figure("library", what, 1, DEEP_NAMES, "us", *measure_looks(pair, ["/a" * DEEP_NAMES]))


# The script.


def command(verb, key, **fields):
    parts = "".join(f',"{field}":"{value}"' for field, value in fields.items())
    return f'{{"do":"{verb}","ns":"a","key":"{key}"{parts}}}'


def lines_of_layer(layer, entries):
    parent = f"c{layer - 1}" if layer else ""
    yield command("prepare", f"k{layer}", parent=parent)
    yield f'{{"do":"charge","ns":"a","key":"k{layer}","need":[10,60000]}}'
    if layer == 0:
        yield command("mkdir", "k0", path="/usr")
        yield command("mkdir", "k0", path=DIRECTORY)
    for number in range(entries):
        yield command("create", f"k{layer}", path=name(number, layer))


def tell(pair, lines):
    """The processor time of both for lines that have an answer each."""
    return pair.ask(lines, len(lines))


def measure_script(script, plain):
    say(f"script: {MOST_LAYERS} layers of {MANY_ENTRIES} entries")
    with Pair([script, "run"], [plain, "script"]) as pair:
        tell(pair, ['{"do":"open","root":"/r","namespaces":[["a",1099511627776,1099511627776]]}'])
        for layer in range(MOST_LAYERS):
            tell(pair, list(lines_of_layer(layer, MANY_ENTRIES)))
            if layer < MOST_LAYERS - 1:
                tell(pair, [command("commit", f"k{layer}", name=f"c{layer}")])
        key = f"k{MOST_LAYERS - 1}"
        script_looks(pair, key)
        script_edits(pair, key)


def script_looks(pair, key):
    names = {
        "look, in the bottom layer": 0,
        "look, in the top layer": MOST_LAYERS - 1,
        "look, nowhere": "none",
    }
    for what, layer in names.items():
        lines = [command("look", key, path=name(k, layer)) for k in some(MANY_ENTRIES, PATHS)]
        measured = least(tell(pair, lines) for _ in range(REPEATS))
        figure("script", what, MOST_LAYERS, MANY_ENTRIES, "us", *per_item(measured, PATHS))


def script_edits(pair, key):
    count = 500

    def group(times, line):
        return [line(number) for number in some(MANY_ENTRIES, count, times * count)]

    lines = {
        "create": lambda k: command("create", key, path=name(k, "new")),
        "copy-up by setmode": lambda k: command("setmode", key, path=name(k, 0))[:-1] + ',"mode":384}',
    }
    for what, line in lines.items():
        measured = least(tell(pair, group(times, line)) for times in range(REPEATS))
        figure("script", what, MOST_LAYERS, MANY_ENTRIES, "us", *per_item(measured, count))
    measured = least(
        tell(pair, group(REPEATS + times, lambda k: command("unlink", key, path=name(k, 0)))) for times in range(REPEATS)
    )
    figure("script", "unlink with a whiteout", MOST_LAYERS, MANY_ENTRIES, "us", *per_item(measured, count))

    tell(pair, [command("mkdir", key, path=TREE)])
    tell(pair, [command("create", key, path=f"{TREE}/f{k:05}") for k in range(TREE_ENTRIES)])

    def rename(start, end):
        return f'{{"do":"rename","ns":"a","key":"{key}","from":"{start}","to":"{end}"}}'

    there_and_back = [rename(TREE, TREE[:-1] + "a"), rename(TREE[:-1] + "a", TREE)]
    measured = least(tell(pair, there_and_back * (count // 2)) for _ in range(REPEATS))
    figure("script", "rename of a directory", MOST_LAYERS, TREE_ENTRIES, "us", *per_item(measured, count))


def main():
    library, script, plain = sys.argv[1:]
    print("surface", "what", "layers", "entries", "unit", "ours", "plain", sep="\t")
    measure_memory(library, plain)
    measure_deep(library, plain)
    measure_library(library, plain)
    measure_script(script, plain)


if __name__ == "__main__":
    main()
