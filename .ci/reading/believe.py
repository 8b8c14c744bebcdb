"""How many lines of definitions a reader has to believe for the chief clauses that README.md names.

  .ci/tree believe            prints a line for each call in README's table of chief clauses
  .ci/tree believe CALL ..    prints the lines of each clause of these calls, as `Book::records`, and of each definition
  .ci/tree believe --files    prints for each file of `specs/` the public calls that cite it, first those of its crate
  .ci/tree believe --doubles  lists the names that are defined in more than one file of `specs/`
  .ci/tree believe --check    fails where a number of lines in README.md is not what this computes, or a name is defined
                              in more than one file of `specs/`

Counted are the lines of each definition in a `specs/` folder that the call's clauses name, or that one of these names,
by way of the imports of their files: signatures, equations and fields, without comments and empty lines. Not counted are
the enums and structs of the source, which definitions take as they stand, and the kit's library.

A file is cited by the public calls whose clauses lead to one of its definitions in that way, and by the laws that
public types keep of a trait (`TYPE as TRAIT`), but for their invariants.
"""
import re
import sys
from functools import cache
from itertools import groupby

from libraries import crates
from reading.clauses import exported, promises_in
from reading.sources import code_of, defined_in, is_there, module_of, product, read, scope, specs_of

WORD = re.compile(r"[^\s(){},;]+")
# How many lines are behind a call, in README.md.
NUMBER = re.compile(r"([\d,]+) for `([\w:]+)`")


@cache
def known():
    """Each definition of the product by its module and name: its lines, and what the words of its file stand for."""
    paths = [path for crate in product() for path in specs_of(crate)]
    return {(module_of(path), it.name): (it.lines, scope(path)) for path in paths for it in defined_in(path) if it.name}


def reached(texts, words):
    """The definitions that these texts lead to, of which the words stand for these."""
    found, left = set(), [(it, words) for it in texts]
    while left:
        text, words = left.pop()
        for word in WORD.findall(text):
            first, _, rest = word.partition(".")
            module, name = words.get(word) or words.get(first) or (None, None)
            key = module, name or rest
            if key in known() and key not in found:
                found.add(key)
                lines, inner = known()[key]
                left.append(("\n".join(lines), inner))
    return found


@cache
def public_calls():
    """Each public call, and each trait's laws, by its crate and name: its clauses, and what words stand for, place by place."""
    found = {}
    for crate in product():
        roots = [it for it in (f"crates/{crate}/src/lib.rt", f"crates/{crate}/src/main.rt") if is_there(it)]
        shown = {name for it in roots for name in exported(read(it))}
        for path in code_of(crate):
            for of, trait, call, pairs in promises_in(read(path), shown):
                if call:
                    found.setdefault((crate, f"{of}::{call}" if of else call), []).append((pairs, scope(path)))
                elif trait and trait != "Model":
                    found.setdefault((crate, f"{of} as {trait.rpartition('::')[2]}"), []).append((pairs, scope(path)))
    return found


@cache
def citing():
    """The calls that lead to each definition, by their crates and names."""
    found = {}
    for call, places in public_calls().items():
        for key in {it for pairs, words in places for it in reached([text for _, text in pairs], words)}:
            found.setdefault(key, []).append(call)
    return found


def cited_by(path):
    """The crates whose calls cite the file, the file's own first, each with these calls."""
    own, module = path.split("/")[1], module_of(path)
    calls = {call for key, them in citing().items() if key[0] == module for call in them}
    order = [own, *(it for it in product() if it != own)]
    # The laws of a trait come last.
    calls = sorted(calls, key=lambda it: (order.index(it[0]), " as " in it[1], it[1]))
    return [(crate, [call for _, call in some]) for crate, some in groupby(calls, key=lambda it: it[0])]


def cited_alone(path):
    """What else cites a file that no public call does."""
    return "test functions alone" if path.startswith("crates/test_") else "invariants and private clauses alone"


def print_files():
    for path in (it for crate in crates() for it in specs_of(crate)):
        print(path)
        for crate, calls in cited_by(path):
            print(f"  {crate}: {', '.join(calls)}")
        if not cited_by(path):
            print(f"  {cited_alone(path)}")
    return 0


def chief_calls():
    """The calls in the first column of README's table, with their crates."""
    for line in read("README.md").split("\n"):
        cell = re.match(r"\| (`.*?\[`snap_\w+`\]\([^)]*\)) \|", line)
        if cell and ":" in cell[1]:
            for named, crate in re.findall(r"(`.*?) of \[`(snap_\w+)`\]", cell[1]):
                first, _, more = named.partition(": ")
                calls = re.findall(r"(?:(?<=^)|(?<=, )|(?<=and ))`([\w:]+)`", first) + re.findall(r"`([\w:]+)`: ", more)
                yield from ((crate, call) for call in calls)


def chief_clauses():
    """Each chief call with its clauses, and the scope of their names."""
    of = None
    for crate, call in chief_calls():
        if "::" in call:
            of = call.rpartition("::")[0]
        if places := public_calls().get((crate, call)) or public_calls().get((crate, f"{of}::{call}")):
            yield call, *places[0]


def lines_of(named):
    return sum(len(known()[it][0]) for it in named)


def check_readme():
    lines = {call: lines_of(reached([it for _, it in pairs], words)) for call, pairs, words in chief_clauses()}
    numbers = NUMBER.findall(read("README.md"))
    wrong = [(number, call) for number, call in numbers if int(number.replace(",", "")) != lines.get(call)]
    for number, call in wrong:
        here = f"here it is {lines[call]:,}" if call in lines else "the table of chief clauses has no such call"
        print(f"believe: README.md: {number} for `{call}`, and {here}")
    if not numbers:
        print("believe: README.md: no numbers of lines")
    print(f"believe: {len(numbers)} numbers of lines in README.md, {len(wrong)} wrong")
    return 1 if wrong or not numbers else 0


def doubles():
    """The names that are defined in more than one file of `specs/`, with these files."""
    places = {}
    for module, name in sorted(known()):
        places.setdefault(name, []).append(module.replace(".specs.", "."))
    return {name: found for name, found in sorted(places.items()) if len(found) > 1}


def list_doubles():
    for name, found in doubles().items():
        print(f"{name}: {', '.join(found)}")
    print(f"{len(doubles())} names")
    return 0


def check():
    for name, found in doubles().items():
        print(f"believe: {name} is defined more than once: {', '.join(found)}")
    return check_readme() or int(bool(doubles()))


def calls_of(name):
    """The chief call of this name, or else each public one, with its clauses and the scope of their names."""
    public = [(name, *place) for (_, call), places in public_calls().items() if call == name for place in places]
    return [it for it in chief_clauses() if it[0] == name] or public


def print_calls(names):
    if unknown := [it for it in names if not calls_of(it)]:
        sys.exit(f"believe: there is no public call {', '.join(unknown)}")
    for call, pairs, words in [it for name in names for it in calls_of(name)] if names else chief_clauses():
        named = reached([it for _, it in pairs], words)
        print(f"{call}: {lines_of(named)} lines in {len(named)} definitions")
        if names:
            for kind, text in pairs:
                print(f"  {lines_of(reached([text], words))} {kind}")
            for module, name in sorted(named):
                print(f"  {len(known()[module, name][0])} {module}.{name}")
    return 0


def main(words):
    alone = {"--files": print_files, "--doubles": list_doubles, "--check": check}
    if len(words) == 1 and words[0] in alone:
        return alone[words[0]]()
    if any(it.startswith("-") for it in words):
        sys.exit(__doc__)
    return print_calls(words)
