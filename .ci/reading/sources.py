"""The tree's files, each read and taken apart once: their texts, imports and definitions."""
import glob
import os
import re
from dataclasses import dataclass, field
from functools import cache

from libraries import TOP, crates

# An import: the path, and the names of its list, which may go over several lines, or the word for all of it.
USE = re.compile(r"(?m)^[ \t]*(?:pub )?(?:ghost )?use ([\w.:◌-]+?)(?:(?:::|\.)\{([^}]*)\}| as (\w+))?;?[ \t]*$")
# What a file of definitions shows of another one.
SHOWN = re.compile(r"(?m)^pub use Rattle\.([\w.]+)\.\{([^}]*)\}$")
HEAD = re.compile(r"((?:(?:pub|abbrev|unfoldable|opaque|data|record) )+)(?!mod |use |mutual$)([^\s:(){}]+)")
FIELD = re.compile(r"  pub (\w+) :")
TITLE = re.compile(r"-- -+ (.+)")
# A line that said who cites a file of definitions. It counts for nothing: `.ci/tree believe --files` finds it out.
CITED = re.compile(r"(?m)^-- Cited by .*\n")


@cache
def read(path):
    """A file's text, by its path from the top."""
    with open(f"{TOP}/{path}", encoding="utf-8") as it:
        text = it.read()
    return CITED.sub("", text) if path.endswith(".antt") else text


@cache
def is_there(path):
    return os.path.exists(f"{TOP}/{path}")


def found(pattern):
    return sorted(os.path.relpath(it, TOP) for it in glob.glob(f"{TOP}/{pattern}", recursive=True))


@cache
def files_of(crate):
    """A crate's code, definitions and proofs."""
    paths = [it for folder in ("src", "specs", "proofs") for it in found(f"crates/{crate}/{folder}/**/*.*t")]
    return [it for it in paths if it.endswith((".rt", ".antt"))]


def code_of(crate):
    return [it for it in files_of(crate) if it.endswith(".rt")]


def specs_of(crate):
    """The files of specs/ that have definitions."""
    folder = f"crates/{crate}/specs/"
    return [it for it in files_of(crate) if it.startswith(folder) and it != f"{folder}Lib.antt"]


def product():
    """The crates that aren't of tests."""
    return [it for it in crates() if it.startswith("snap_")]


@cache
def imports_in(path):
    """Each import of a source: its path, the names of its list, and the word that stands for all of it."""
    uses = USE.findall(read(path))
    return [(place, [it.strip() for it in listed.split(",") if it.strip()], word) for place, listed, word in uses]


@dataclass
class Definition:
    """A definition of a file, or a field of one, with the comment above it. A title in a file is one without a name."""

    name: str
    said: str
    is_exported: bool = True
    lines: list = field(default_factory=list)
    fields: list = field(default_factory=list)


@cache
def halves(path):
    """The lines of the comment at a file's top, and those below it."""
    lines = read(path).split("\n")
    at = next(i for i, it in enumerate(lines) if not it.startswith("--"))
    return lines[:at], lines[at:]


@cache
def defined_in(path):
    """What a file defines, in its order, with titles between; each with its lines, without comments and empty ones."""
    defined, said, is_mutual, is_open = [], [], False, False
    for line in halves(path)[1]:
        text = line.strip()
        if text.startswith("--"):
            if title := TITLE.fullmatch(line):
                defined.append(Definition("", title[1]))
                is_open = False
            else:
                said.append(line.lstrip(" -"))
            continue
        if text and line[0] != " ":
            is_mutual = text in ("mutual", "abbrev mutual")
        head, part = HEAD.match(text if is_mutual else line), FIELD.match(line)
        if head:
            defined.append(Definition(head[2], " ".join(said), "pub" in head[1].split()))
            said, is_open = [], True
        elif part and defined:
            defined[-1].fields.append(Definition(part[1], " ".join(said)))
            said = []
        elif not is_mutual and not line.startswith("infix"):
            said = []
        is_open = is_open and bool(text)
        if is_open:
            defined[-1].lines.append(line)
    return defined


def words_of(name):
    """The words that a text has of a name: itself, or those of an operator, of which a `do` block is made too."""
    return [name, *filter(None, name.split("◌")), *["do"] * (name == "◌>>=◌")] if "◌" in name else [name]


def module_of(path):
    _, crate, folder, *rest = path.removesuffix(".antt").split("/")
    return ".".join([crate, folder, *rest])


@cache
def shown_again():
    """The definitions that files of specs/ show of others, by module and name: the module and the name of each."""
    shown = [(module_of(path), *it) for crate in crates() for path in specs_of(crate) for it in SHOWN.findall(read(path))]
    return {(module, it.strip()): (place, it.strip()) for module, place, names in shown for it in names.split(",")}


@cache
def scope(path):
    """What each word of a source stands for: a module and a name, or a module alone for `use .. as WORD`."""
    words = {}
    for place, names, alias in imports_in(path):
        module = place.removeprefix("Rattle.")
        if module == place:
            continue
        if alias:
            words[alias] = (module, None)
        for item in names:
            name, _, short = item.partition(" as ")
            key = shown_again().get((module, name), (module, name))
            words |= {it: key for it in words_of(short or name)}
    for name in [it.name for it in defined_in(path) if it.name] if path.endswith(".antt") else []:
        words.setdefault(name, (module_of(path), name))
    return words
