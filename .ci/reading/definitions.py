"""The list of all definitions, made from the comments above them in `crates/*/specs/`.

  .ci/tree definitions          prints the list
  .ci/tree definitions --write  writes it to out/INDEX.md, and into docs/DEFINITIONS.md the order in which to read the
                                files that public clauses cite: each after those of its crate that it imports
  .ci/tree definitions --check  fails where a document names a file or a definition that isn't there, where the order
                                in docs/DEFINITIONS.md is another one, and where an exported definition has no comment
                                above it that WITHOUT doesn't name

The list has the crates in the order of crates.txt. Of each it has first the files that public clauses cite, and in these
the definitions that none leads to are marked as private; then come the other files. What a clause leads to, and so which
calls cite a file, is what `.ci/tree believe` computes. A definition has the comment right above it, its public source
included. A record of which some field has a comment has its fields below it.

Looked at are, in all of `docs/*.md`, links to files of `crates/`; an `.antt` file has to define a name in backticks that
is the text of its link. In docs/DEFINITIONS.md each other word in backticks has to be a crate, a public call or its type,
or a word of `specs/`, but for the section on notation, which explains words of the kit.
"""
import os
import re
import sys
from functools import cache
from itertools import groupby

from libraries import TOP, crates
from reading.believe import cited_alone, cited_by, citing, public_calls
from reading.sources import defined_in, found, halves, imports_in, is_there, module_of, read, specs_of

LIST, GUIDE = "out/INDEX.md", "docs/DEFINITIONS.md"
BEGIN, END = "<!-- order: begin -->\n", "<!-- order: end -->"

# The exported definitions that have no comment above them, mostly parts of what is above them, by their files.
WITHOUT = {
    "snap_layer/Edits.antt": "bodies_named",
    "snap_layer/Equal.antt": "node_eq_equiv content_eq_equiv body_eq_equiv tree_eq_equiv",
    "snap_layer/Rows.antt": "items_at bound_of items_from",
    "snap_mount/Mounts.antt": "bind_mount overlay_mount upperdir lowerdir",
    "snap_call/Records.antt": "record_at is_slot charge_at",
    "snap_call/Step.antt":
        "place_for prepared prepare prepare_view charge leases_after committed commit_as sweep_at sweep",
    "snap_history/Changes.antt":
        "with_share no_change change_by change_of recharged_to slot_shares shares_by shares_after is_own",
    "snap_book/Opening.antt": "IsSaid",
    "snap_tape/Following.antt": "IsProgress",
    "snap_round/Rounds.antt": "inner_of outer_of",
    "snap_world/Move.antt": "is_working move",
    "snap_world/Sums.antt": "spare_in",
    "snap_writers/Going.antt": "none_run",
    "snap_writers/Jobs.antt": "with_end",
    "snap_writers/Starting.antt": "AreAssigned AreStarted",
    "snap_json/Tokens.antt": "with_members",
    "snap_script/Gives.antt": "Fails",
    "snap_lines/Words.antt": "stop_words status_of",
    "snap_session/Wanting.antt": "is_memory is_reply_want is_error_want is_outcome_want",
    "test_parts/Worked.antt": "usage opened made charged small_round",
}

LINK = re.compile(r"\[(?:`([^`\]]+)`|[^\]]*)\]\((?:\.\./)*(crates/[^)#\s]+)[^)]*\)")


@cache
def files():
    """The files of `specs/` that have definitions, in the order of the list."""
    return [it for name in crates() for it in sorted(specs_of(name), key=lambda it: not cited_by(it))]


def exported_in(path):
    """The exported definitions of a file, with the titles between them."""
    return [it for it in defined_in(path) if it.is_exported]


def plain(text):
    """The text as Markdown, in which `<` and `*` outside of backticks stand for themselves."""
    parts = text.split("`")
    return "`".join(it if i % 2 else re.sub(r"[<*]", r"\\\g<0>", it) for i, it in enumerate(parts))


def listed(items, public, indent=""):
    """Names with their comments, and whether they are private. Those without one that follow each other have one line."""
    for (said, is_private), some in groupby(items, key=lambda it: (it.said, it.name not in public)):
        some = list(some)
        if not some[0].name:
            yield from ("", f"*{plain(said)}*", "")
            continue
        names = ", ".join(f"`{it.name}`" for it in some)
        yield f"{indent}- {names}{' (private)' if is_private else ''}{said and f': {plain(said)}'}"
        for it in some:
            if any(part.said for part in it.fields):
                yield from listed(it.fields, {part.name for part in it.fields}, f"{indent}  ")


def lines_of_file(path):
    """The part of the list that a file has."""
    items, calls = exported_in(path), cited_by(path)
    module, said = module_of(path), " ".join(it[3:] for it in halves(path)[0])
    public = {it.name for it in items if not calls or (module, it.name) in citing()}
    by = "; ".join(f"{crate}: " + ", ".join(f"`{it}`" for it in them) for crate, them in calls) or cited_alone(path)
    yield from ("", f"### [{path.split('/specs/')[1]}](../{path})", "", plain(said), "", f"Cited by {by}.", "")
    yield from listed(items, public)


@cache
def text_of_list():
    lines = ["# All definitions", "", "<!-- `.ci/tree definitions --write` makes this page from the comments in `crates/*/specs/`. -->", "",
             f"These are the definitions of `specs/`, each with the comment above it. [{os.path.basename(GUIDE)}](../{GUIDE}) has the notation, the order in which to read, and the chief ones.",
             "The crates are in the order of `crates.txt`. In each, the files that no public clause cites come last; in the others, `(private)` marks the definitions that no public clause leads to.",
             "A name without a text has no comment of its own, and is mostly a part of what is above it."]
    for crate, paths in groupby(files(), key=lambda it: it.split("/")[1]):
        lines += ["", f"## {crate}", *(line for path in paths for line in lines_of_file(path))]
    return re.sub(r"\n{3,}", "\n\n", "\n".join(lines)) + "\n"


def in_order(paths):
    """The files of a crate, each after those that it imports."""
    modules, ordered = {module_of(it): it for it in paths}, []

    def add(path):
        if path not in ordered:
            for place, _, _ in imports_in(path):
                if (below := modules.get(place.removeprefix("Rattle."))) and below != path:
                    add(below)
            ordered.append(path)

    for path in paths:
        add(path)
    return ordered


def text_of_order():
    """The crates in the order of crates.txt, each with the files that public clauses cite."""
    lines = []
    for crate in crates():
        cited = [it for it in in_order(specs_of(crate)) if cited_by(it)]
        if cited:
            links = (f"[{os.path.basename(it).removesuffix('.antt')}](../{it})" for it in cited)
            lines.append(f"- `{crate}`: {', '.join(links)}\n")
    return "".join(lines)


def parts_of_guide():
    """The guide up to the order, the order, and the guide after it."""
    front, begin, rest = read(GUIDE).partition(BEGIN)
    old, end, back = rest.partition(END)
    if not begin or not end:
        sys.exit(f"definitions: {GUIDE} has no place for the order")
    return front + begin, old, end + back


@cache
def names_in(path):
    """The names that a file of `specs/` or `proofs/` defines, cases and fields among them, and its own."""
    word = r"(?m)^ *(?:(?:abbrev|unfoldable|opaque|pub) )*(?:(?:data|record) ([^\s:(){}]+)|([^\s:(){}]+) :)"
    return {it for pair in re.findall(word, read(path)) for it in pair} | {os.path.basename(path)}


def wrong_names():
    """What a document names that isn't there."""
    for page in found("docs/*.md"):
        for name, path in LINK.findall(read(page)):
            if not is_there(path):
                yield f"{page}: there is no {path}"
            elif name and path.endswith(".antt") and name not in names_in(path):
                yield f"{page}: {path} doesn't define {name}"
    words = {*crates()} | {word for _, call in public_calls() for word in re.findall(r"\w+", call)}
    words |= {it for path in files() for it in [*re.findall(r"[A-Za-z][\w-]*", read(path)), os.path.basename(path)]}
    guide = re.sub(r"(?s)\n## Notation\n.*?(?=\n## )", "", LINK.sub("", read(GUIDE)))
    for name in dict.fromkeys(re.findall(r"`([A-Za-z][\w-]*(?:\.antt)?)`", guide)):
        if name not in words:
            yield f"{GUIDE}: no file of specs/ has {name}"
    if parts_of_guide()[1] != text_of_order():
        yield f"{GUIDE}: the order in which to read differs: `.ci/tree definitions --write` writes it"


def wrong_comments():
    """Each exported definition without a comment that WITHOUT doesn't name, and what it names beside these."""
    for path in files():
        bare = [it.name for it in exported_in(path) if not it.said]
        known = WITHOUT.get(path.removeprefix("crates/").replace("/specs/", "/"), "").split()
        yield from (f"{path}: {it} has no comment above it" for it in bare if it not in known)
        yield from (f"{path}: {it} isn't an exported definition without a comment" for it in known if it not in bare)
    for path in WITHOUT:
        if not is_there(f"crates/{path.replace('/', '/specs/', 1)}"):
            yield f"there is no {path} in a crate's specs/"


def check():
    wrong = [*wrong_names(), *wrong_comments()]
    print("\n".join([*wrong, f"definitions: {len(files())} files, {len(wrong)} wrong"]))
    return 1 if wrong else 0


def write():
    os.makedirs(os.path.dirname(f"{TOP}/{LIST}"), exist_ok=True)
    with open(f"{TOP}/{LIST}", "w", encoding="utf-8") as it:
        it.write(text_of_list())
    front, _, back = parts_of_guide()
    text = front + text_of_order() + back
    with open(f"{TOP}/{GUIDE}", "w", encoding="utf-8") as it:
        it.write(text)


def main(words):
    if words == ["--check"]:
        return check()
    if words == ["--write"]:
        write()
    elif not words:
        print(text_of_list(), end="")
    else:
        sys.exit(__doc__)
    return 0
