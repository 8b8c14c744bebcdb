"""Tests that the documents name only what is there, by their text and that of the sources.

  .ci/tree docs
  .ci/tree docs --words    how many words README.md and each page of docs/ have, and all together

| what | where | what it must meet |
|---|---|---|
| a relative link | all documents | it leads to a file or folder of the repository, and its anchor to a heading there |
| a name in code quotes that is a link | all documents | it is a word of the source to which it leads |
| a path in code quotes or a block of `sh` | all documents | from the top of the repository it is there; NAME and FILE stand for any name, and what is built below `out/` is left out |
| a script as FOLDER/NAME | examples/README.md, crates | it is one of `examples/` |
| a name of a `.rt` or `.antt` file | all documents | a file below `crates/` ends so; in a crate's page `src/..`, `specs/..` and `proofs/..` are its own |
| a call in a table's column `call` or `function` | crates | the crate declares it; a `Type::name` in the type's own text |
| a clause in a column `clause` | crates | it is one of the row's calls, or of a trait's laws |
| a module, a crate in columns of these names | crates | the crate has it; it is there |
| any other name in a table | crates | it is a word of the crate, of one below it, or of one that the cell names |
| a line of a block of `rust` or `antt` | docs | it is one of a source |
| a name in a column on wrong bodies | docs/CLAUSE.md | `wrong-bodies/` has it |
| a command in SCRIPT.md's table | docs/SCRIPT.md | it is a word that the program knows, and each such word is there |
| README.md | | it has at most 12,000 characters |
| README.md and docs/*.md together | | they have at most 25,000 words |

A word is what stands between spaces and has a letter or a digit, in tables and code too. What a command writes, or compares
with the source that it is copied from, stands between `<!-- THING: begin -->` and `<!-- THING: end -->`, and isn't counted.

A name is one word, or several with `::` between them; what else is in code quotes is left alone. Prints each fault
as `docs: FILE:LINE: WHAT`, and last `docs: N passed, M failed`; status 1 where there is a fault.
"""
import fnmatch
import os
import re
import sys
from functools import cache

from libraries import TOP, all_below, crates
from reading.sources import files_of, found, is_there, read

PAGES = (
    "README.md", "CONTRIBUTING.md", "CHANGELOG.md", "SECURITY.md", "docs/*.md", "crates/*/README.md",
    "examples/README.md", "clients/README.md", "clients/go/*/README.md", "benchmarks/README.md",
    "compare/README*", "packaging/README.md",
    ".github/*.md", ".github/*/*.md",
)
FOLDERS = (".ci", ".github", "benchmarks", "clients", "compare", "crates", "docs", "examples", "packaging", "wrong-bodies")
# Words of paths that stand for any name.
ANY = re.compile(r"\b(?:NAME|FILE)\b")
README_CHARACTERS = 12_000
COUNTED = ("README.md", "docs/*.md")
MADE = re.compile(r"(?s)<!-- ([\w ]+): begin -->.*?<!-- \1: end -->")
MOST_WORDS = 25_000
TABLE = crates()

NAME = re.compile(r"[A-Za-z_]\w*(?:::[A-Za-z_]\w*)*")
QUOTED = re.compile(r"`([^`]+)`")
LINK = re.compile(r"\]\(([^()\s]+)(?:\s+\"[^\"]*\")?\)")
OTHER_LINK = re.compile(r'\b(?:src|href)="([^"]+)"|^\[[^\]]+\]:\s+(\S+)')
NAMED_LINK = re.compile(r"\[`([^`]+)`\]\(([^()\s]+)\)")
WORDS = re.compile(r"\w+")
SOURCE = re.compile(r"[\w*.-]+(?:/[\w*.-]+)*\.(?:rt|antt)")
DECLARED = re.compile(r"\b(?:fn|struct|enum|trait|type|const|static|mod|ghost) (\w+)")
# What a member of a struct, an enum or a table of constants begins with.
MEMBER = re.compile(r"(?m)^    (?:pub )?(?:r#)?(\w+)(?:: |\(|,| \{|$)")
FUNCTION = re.compile(r"\bfn (\w+)")
CLAUSE = re.compile(r"\b(?:ensures|requires)\*?\s+(\w+)\s*\{")
LAW = re.compile(r"\bghost (\w+) = \{")
ITEM = re.compile(r"(?:pub(?:\(\w+\))? )?(?:unsafe )?(?:impl|struct|enum|trait)\b(.*)")


@cache
def endings():
    """All that a source's path ends with, from a `/` on."""
    paths = [path.split("/") for name in TABLE for path in files_of(name)]
    return {"/".join(path[at:]) for path in paths for at in range(1, len(path))}


def bare(path):
    """A source without the lines that are comments."""
    return re.sub(r"(?m)^[ \t]*(?://|--).*$", "", read(path))


def members_in(code):
    """What a crate's types have, by their names: the functions of their impls, their fields and variants."""
    members, of, head = {}, None, ""
    for line in code.split("\n"):
        item = ITEM.match(line)
        if item or head:
            head += item[1] if item else line
            if not re.search(r"[{;)]", head):
                continue
            plain = re.sub(r"<[^<>]*>", "", re.sub(r"<[^<>]*>", "", head)).partition("{")[0].partition(" where ")[0]
            of, head = re.search(r"(?:.* for )?[&\s]*(?:\w+::)*(\w+)", plain), ""
        elif line[:1] not in ("", " "):
            of = None
        elif of and line[4:5] != " ":
            members.setdefault(of[1], set()).update(DECLARED.findall(line), MEMBER.findall(line))
    return members


class Crate:
    """What the text of a crate has."""

    def __init__(self, name):
        files = [it for it in files_of(name) if it.split("/")[2] in ("src", "specs")]
        code = "\n".join(bare(it) for it in files if it.endswith(".rt"))
        self.words = set(WORDS.findall("\n".join([code, *(bare(it) for it in files if it.endswith(".antt"))])))
        self.declared = set(DECLARED.findall(code)) | set(MEMBER.findall(code))
        self.laws = set(LAW.findall(code))
        self.members = members_in(code)
        self.clauses = {}
        pieces = FUNCTION.split(code)
        for function, after in zip(pieces[1::2], pieces[2::2]):
            self.clauses.setdefault(function, set()).update(CLAUSE.findall(after))


@cache
def crate(name):
    return Crate(name)


@cache
def lines_of_code():
    """The lines of all sources of crates, without the space around them."""
    return {line.strip() for name in TABLE for path in files_of(name) for line in read(path).split("\n")}


def lines_of(page):
    """The lines of a page, with their numbers and the word of the block of code in which they are, None outside."""
    block = None
    for number, line in enumerate(read(page).split("\n"), 1):
        fence = re.match(r"\s*```(\w*)", line)
        if fence:
            block = fence[1] if block is None else None
        else:
            yield number, line, block


@cache
def anchors(page):
    """The anchors of a page's headings."""
    seen = {}
    for _, line, block in lines_of(page):
        heading = re.match(r"#+\s+(.*?)\s*#*$", line)
        if heading and block is None:
            text = re.sub(r"!?\[([^\]]*)\]\([^)]*\)", r"\1", heading[1])
            slug = re.sub(r"[^\w\- ]", "", text.lower()).replace(" ", "-")
            seen[slug] = seen.get(slug, -1) + 1
            if seen[slug]:
                seen[f"{slug}-{seen[slug]}"] = 0
    return set(seen)


class Checks:
    """How many checks have passed, and the faults."""

    def __init__(self):
        self.passed, self.faults = 0, []

    def test(self, page, number, is_met, fault):
        if is_met:
            self.passed += 1
        else:
            self.faults.append((page, number, fault))


def target_of(page, link):
    """The path and the anchor of a relative link, or None of another one."""
    if re.match(r"[a-z]+:", link):
        return None
    path, _, anchor = link.partition("#")
    return os.path.normpath(f"{os.path.dirname(page)}/{path}") if path else page, anchor


def check_links(checks, page, number, line):
    masked = QUOTED.sub(lambda it: "`" + "x" * len(it[1]) + "`", line)
    for link in LINK.findall(masked) + ["".join(it) for it in OTHER_LINK.findall(masked)]:
        target = target_of(page, link)
        if target:
            path, anchor = target
            checks.test(page, number, not path.startswith("..") and is_there(path), f"the link {link} leads to nothing")
            if anchor and is_there(path):
                checks.test(page, number, path.endswith(".md") and anchor in anchors(path), f"{link} leads to no heading")
    for name, link in NAMED_LINK.findall(line):
        target = target_of(page, link)
        if target and target[0].endswith((".rt", ".antt")) and is_there(target[0]) and NAME.fullmatch(name):
            last = name.rpartition("::")[2]
            there = re.search(rf"\b{last}\b", bare(target[0])) or f"/{last}." in target[0] or f"/{last}/" in target[0]
            checks.test(page, number, there, f"{target[0]} has no {name}")


def check_paths(checks, page, number, text):
    """The paths among the words of a code quote or of a command."""
    for word in re.split(r"[\s\"'<>()|;=,]+", text) if "/" in text else []:
        word = re.sub(r"^(?:\./|(?:\.\./)+)", "", word)
        first = word.partition("/")[0]
        if "/" not in word or "/out/" in word or "..." in word or word.endswith(("..", "/out")) or first not in FOLDERS:
            continue
        there = is_there(word) or ANY.search(word) and found(ANY.sub("*", word)) or "*" in word and found(word)
        checks.test(page, number, there, f"there is no {word}")


def check_file(checks, page, number, text, own):
    """A source by its name or the end of its path."""
    if not SOURCE.fullmatch(text) or text.partition("/")[0] in FOLDERS:
        return
    if own and re.match(r"(?:src|specs|proofs)/", text):
        text = f"{own}/{text}"
    there = text in endings() or "*" in text and fnmatch.filter(endings(), text)
    checks.test(page, number, there, f"there is no {text} below crates/")


def check_script(checks, page, number, text):
    folder, _, name = text.partition("/")
    if folder and re.fullmatch(r"[\w-]+", name) and folder not in FOLDERS and os.path.isdir(f"{TOP}/examples/{folder}"):
        checks.test(page, number, is_there(f"examples/{text}.jsonl"), f"examples/ has no script {text}")


def cells_of(line):
    """The cells of a table's row."""
    return [it.strip() for it in re.split(r"(?<!\\)\|", line.strip().removeprefix("|").removesuffix("|"))]


def names_in(cell):
    return [it for it in QUOTED.findall(cell) if NAME.fullmatch(it)]


def calls_in(cell):
    """The calls that a cell lists, or none where it has other words."""
    rest = QUOTED.sub("", re.sub(r"\([^()]*\)", "", cell))
    return [] if re.search(r"\w", rest.replace(" and ", "")) else [it.rpartition("::")[2] for it in names_in(cell)]


def check_call(checks, page, number, name, own):
    first, _, rest = name.partition("::")
    of, last = name.split("::")[-2:] if rest else (None, name)
    if rest and first in TABLE:
        there = last in crate(first).declared
    elif of in own.members:
        there = last in own.members[of]
    elif rest or last[0].islower():
        there = last in own.declared
    else:
        there = any(last in crate(it).words for it in TABLE)
    checks.test(page, number, there, f"crates/{page.split('/')[1]} declares no {name}")


def check_clause(checks, page, number, name, own, calls):
    known = [own.clauses.get(it, set()) for it in calls or own.clauses]
    there = name in own.laws or any(name in it for it in known)
    checks.test(page, number, there, f"the clause {name} is of none of these calls")


def is_known(name, cell, page):
    """Whether a name is a word of the page's crate, of one below it, or of one that the cell names, and where one of
    them declares the type before it, a member of that."""
    own, parts = page.split("/")[1], name.split("::")
    named = [own, *all_below(TABLE, own), *(it for it in re.findall(r"\b(?:snap|test)_\w+", cell) if it in TABLE)]
    types = [crate(it).members[parts[-2]] for it in named if len(parts) > 1 and parts[-2] in crate(it).members]
    return name in TABLE or any(parts[-1] in it for it in types or [crate(it).words for it in named])


def check_row(checks, page, number, cells, head, calls, own):
    for column, cell in zip(head, cells):
        for name in names_in(cell):
            if re.match(r"call|function", column):
                check_call(checks, page, number, name, own)
            elif column in ("clause", "clauses") and name[0].islower() and not re.search(r"\bof\b", cell):
                check_clause(checks, page, number, name, own, calls)
            elif column == "module":
                folder = f"{os.path.dirname(page)}/src/{name}"
                checks.test(page, number, is_there(f"{folder}.rt") or is_there(folder), f"there is no module {name}")
            elif column == "crate":
                checks.test(page, number, is_there(f"crates/{name}"), f"there is no crate {name}")
            elif column != "run":
                checks.test(page, number, is_known(name, cell, page), f"neither the crate nor one below it has {name}")


def check_tables(checks, page, name):
    """The tables of a crate's page."""
    own, head, calls = crate(name), None, []
    for number, line, block in lines_of(page):
        if block is not None or not line.startswith("|"):
            head = None
        elif head is None:
            head = cells_of(line)
        elif not re.fullmatch(r"[|\s:-]+", line):
            cells = cells_of(line)
            if cells[0]:
                calls = calls_in(cells[0])
            check_row(checks, page, number, cells, head, calls, own)


def check_wrong_bodies(checks):
    """The wrong bodies that the tables of docs/CLAUSE.md name."""
    page, head = "docs/CLAUSE.md", None
    for number, line, block in lines_of(page):
        head = head or cells_of(line) if block is None and line.startswith("|") else None
        for column, cell in zip(head or [], cells_of(line)):
            for name in names_in(cell) if "wrong bod" in column and cell != column else []:
                checks.test(page, number, found(f"wrong-bodies/*/{name}.edit"), f"there is no wrong body {name}")


def known_words():
    """The words of commands, as the program has them."""
    words = re.search(r"(?s)const WORDS: .*?= \[(.*?)\n\];", read("crates/snap_script/src/verb.rt"))[1]
    return set(re.findall(r"\(\s*\"(\w+)\"", words))


def check_commands(checks):
    page, inside, known, told = "docs/SCRIPT.md", False, known_words(), {}
    for number, line, block in lines_of(page):
        if block is None:
            inside = line.startswith("| `do` |") or inside and line.startswith("|")
            for word in QUOTED.findall(cells_of(line)[0]) if inside else []:
                if word != "do":
                    told[word] = number
                    checks.test(page, number, word in known, f"the program knows no command {word}")
    for word in sorted(known):
        checks.test(page, 1, word in told, f"no table has the command {word}")


def counted_words():
    """How many words each page has, without what a command writes or compares with a source."""
    pages = (page for pattern in COUNTED for page in found(pattern))
    return {page: sum(bool(re.search(r"\w", it)) for it in MADE.sub("", read(page)).split()) for page in pages}


def main(words):
    counts = counted_words()
    if words == ["--words"]:
        print(*(f"{count:7,} {page}" for page, count in counts.items()), f"{sum(counts.values()):7,} in all", sep="\n")
        return 0
    if words:
        sys.exit(__doc__)
    checks = Checks()
    for page in (page for pattern in PAGES for page in found(pattern)):
        own = page.split("/")[1] if page.startswith("crates/") else None
        for number, line, block in lines_of(page):
            if block in ("rust", "antt") and page.startswith("docs/"):
                checks.test(page, number, line.strip() in lines_of_code(), "no source has this line")
            if block is None:
                check_links(checks, page, number, line)
            for text in QUOTED.findall(line) if block is None else [line] if block == "sh" else []:
                check_paths(checks, page, number, text)
                if block is None:
                    check_file(checks, page, number, text, own)
                    if own or page == "examples/README.md":
                        check_script(checks, page, number, text)
        if own in TABLE:
            check_tables(checks, page, own)
    check_commands(checks)
    check_wrong_bodies(checks)
    size = len(read("README.md"))
    checks.test("README.md", 1, size <= README_CHARACTERS, f"it has {size:,} characters, above {README_CHARACTERS:,}")
    total = sum(counts.values())
    checks.test("docs", 1, total <= MOST_WORDS, f"README.md and docs/ have {total:,} words, above {MOST_WORDS:,}")
    for page, number, fault in sorted(checks.faults):
        print(f"docs: {page}:{number}: {fault}")
    print(f"docs: {checks.passed} passed, {len(checks.faults)} failed")
    return 1 if checks.faults else 0
