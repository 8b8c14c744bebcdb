"""The crates by storey, and what each of them names of those below.

  .ci/tree crates            prints the table of crates that docs/ARCHITECTURE.md has
  .ci/tree crates --write    writes it there
  .ci/tree crates --check    fails where that table differs, or where crates.txt or a source breaks a rule
  .ci/tree crates NAME       prints what a crate's sources import from each library that it depends on: items of its
                             code, definitions, and lemmas

A crate that depends on no other is of storey 1, and every other one is a storey above the highest of those that it
depends on. What a crate holds is the first sentence of its README.md. Its dependencies are those of crates.txt; those
of a listed crate are not listed again.

The rules: crates.txt has exactly the folders of crates/, each after its dependencies, and of these only what its sources
name. No crate depends on a crate of tests. Only a proof names a lemma of another crate.
"""
import re
import sys

from libraries import TOP, all_below, crates
from reading.sources import files_of, found, imports_in, read

PAGE = "docs/ARCHITECTURE.md"
BEGIN, END = "<!-- crates: begin -->\n", "<!-- crates: end -->"


def storeys(table):
    heights = {}
    for name, below in table.items():
        heights[name] = 1 + max((heights.get(it, 0) for it in below), default=0)
    return heights


def nearest(table, name):
    """The crates that it depends on, without those that one of them depends on."""
    below = [it for it in table[name] if it in table]
    further = {it for one in below for it in all_below(table, one)}
    return [it for it in below if it not in further]


def holds(name):
    """The first sentence of the crate's page, its links as their texts."""
    paragraphs = read(f"crates/{name}/README.md").split("\n\n")
    if paragraphs[0].strip() != f"# {name}" or len(paragraphs) < 2:
        sys.exit(f"crates: crates/{name}/README.md has to begin with the crate's name and a sentence")
    text = re.sub(r"\[([^\]]*)\]\([^)]*\)", r"\1", " ".join(paragraphs[1].split()))
    return re.split(r"(?<=\.) ", text)[0].removesuffix(".").replace("|", "\\|")


def rows_of(table):
    heights = storeys(table)
    rows = ["| storey | crate | what it holds | depends on | libraries of the toolchain |", "|---|---|---|---|---|"]
    for name in sorted(table, key=heights.get):
        below = ", ".join(f"`{it}`" for it in nearest(table, name))
        kit = ", ".join(f"`{it}`" for it in table[name] if it not in table)
        rows.append(f"| {heights[name]} | [`{name}`](../crates/{name}/README.md) | {holds(name)} | {below} | {kit} |")
    return "".join(f"{it}\n" for it in rows)


def parts():
    """The page up to the table, the table, and the page after it."""
    front, begin, rest = read(PAGE).partition(BEGIN)
    old, end, back = rest.partition(END)
    if not begin or not end:
        sys.exit(f"crates: {PAGE} has no place for the table")
    return front + begin, old, end + back


def imports(name):
    """Each import of the crate's sources: the file, the library, the modules in it, and the names."""
    for path in files_of(name):
        for place, listed, _ in imports_in(path):
            words = re.split(r"::|\.", place.removeprefix("Rattle."))
            names = [it.partition(" as ")[0].strip() for it in listed] or [words.pop()]
            if words:
                yield path, words[0], words[1:], names


def faults(table):
    """Where a rule is broken."""
    folders = {it.split("/")[1] for it in found("crates/*/src")}
    for it in sorted(folders ^ set(table)):
        yield f"{it}: " + ("it is not in crates.txt" if it in folders else "it has no folder in crates/")
    order = list(table)
    for name in order:
        for it in table[name]:
            if it in table and order.index(it) > order.index(name):
                yield f"{name}: crates.txt has it before {it}, which it depends on"
            if it.startswith("test_"):
                yield f"{name}: it depends on {it}, a crate of tests"
    for name in sorted(folders & set(table)):
        words = {word for path in files_of(name) for word in re.findall(r"\w+", read(path))}
        for it in table[name]:
            if it not in words:
                yield f"{name}: crates.txt says that it depends on {it}, which no source of it names"
    for name in sorted(folders):
        for path, library, modules, _ in imports(name):
            is_proof = path.startswith(f"crates/{name}/proofs/")
            if library in table and library != name and modules[:1] == ["proofs"] and not is_proof:
                yield f"{path}: it names a lemma of {library}, and is no proof"


def check(table):
    wrong = list(faults(table))
    if not wrong and parts()[1] != rows_of(table):
        wrong = [f"the table of {PAGE} differs: `.ci/tree crates --write` writes it"]
    for it in wrong or [f"{len(table)} crates in {max(storeys(table).values())} storeys"]:
        print(f"crates: {it}")
    return int(bool(wrong))


def write(table):
    front, _, back = parts()
    text = front + rows_of(table) + back
    with open(f"{TOP}/{PAGE}", "w", encoding="utf-8") as it:
        it.write(text)


def print_imports(table, name):
    kinds = {"specs": "definitions", "proofs": "lemmas"}
    named = {}
    for _, library, modules, names in imports(name):
        # A type of the code that definitions name is in a module that the toolchain makes.
        if not {"declared", "contracts"} & set(modules):
            kind = kinds.get(modules[0] if modules else "", "code")
            named.setdefault((library, kind), set()).update(names)
    for library in table[name]:
        print(library)
        for kind in ("code", *kinds.values()):
            if (library, kind) in named:
                print(f"  {kind}: {', '.join(sorted(named[library, kind]))}")


def main(words):
    table = crates()
    if not words:
        print(rows_of(table), end="")
    elif words == ["--write"]:
        write(table)
    elif words == ["--check"]:
        return check(table)
    elif len(words) == 1 and words[0] in table:
        print_imports(table, words[0])
    elif len(words) == 1 and not words[0].startswith("-"):
        sys.exit(f"crates: crates.txt has no {words[0]}")
    else:
        sys.exit(__doc__)
    return 0
