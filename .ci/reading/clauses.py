"""What the product promises: the clauses of its public calls, what its public types keep, and the definitions that
these may cite.

  .ci/tree clauses              lists them, one a line
  .ci/tree clauses --since REV  compares them with those of the revision REV, and fails where a promise is gone or a
                                call that stood asks for more

A clause reads `CRATE TYPE::CALL ensures NAME TEXT`, a fact of a type `CRATE TYPE holds NAME TEXT`, a definition
`definition TEXT` without its crate, since it may move. Space is folded. Of the definitions those are listed that a
clause or a fact names, or one of these definitions does, by their names alone. A promise whose text changed is one
that is gone and one that is new: whether the new one is as strong is for a reader to say.
"""
import io
import re
import subprocess
import sys
import tarfile

from libraries import TOP
from reading.sources import files_of, product, read

PRODUCT = re.compile(r"crates/(snap_\w+)/(src|specs)/(.+)")
COMMENT = re.compile(r"(?m)^[ \t]*//.*\n")
BLOCK = re.compile(r"(?m)^(?=\S)(?:[^\n]*\{\n(?:(?:[ \t][^\n]*)?\n)*\}[^\n]*|[^\n]+)")
IMPL = re.compile(r"(?:unsafe )?impl(?:<.*?>)? (?:(?P<trait>[\w:]+(?:<.*>)?) for )?&?(?P<type>\w+)")
FACT = re.compile(r"(?s)\n    ghost (\w+) = \{(.*?)\};")
CLAUSE = re.compile(r"\s*((?:requires|ensures)\*?|ghost)(\s+[\w]+:?)?\s*\{")
WORD = re.compile(r"[^\s(){}.,;:]+")
HEAD = re.compile(r"definition (?:(?:pub|abbrev|unfoldable|opaque|data|record) )*([^\s:(){}]+)")


def files_now():
    for crate in product():
        yield from ((path, read(path)) for path in files_of(crate) if PRODUCT.match(path))


def files_at(revision):
    made = subprocess.run(["git", "archive", revision, "crates"], cwd=TOP, capture_output=True, check=False)
    if made.returncode:
        sys.exit(f"clauses: git has no crates of {revision}: {made.stderr.decode().strip()}")
    with tarfile.open(fileobj=io.BytesIO(made.stdout)) as archive:
        for it in archive:
            if it.isfile() and PRODUCT.match(it.name):
                yield it.name, archive.extractfile(it).read().decode()


def folded(text):
    return " ".join(text.split())


def exported(root):
    """The names that a crate's root shows."""
    found = set()
    for item in re.findall(r"(?m)^pub use [\w:]+::(\w+|\{[^}]*\});", root):
        found |= set(re.findall(r"\w+", item))
    return found | set(re.findall(r"(?m)^pub (?:fn|extern \"C\" fn|struct|enum|trait) (\w+)", root))


def clauses_in(text):
    """The clauses that stand after a signature: pairs of their words and their text, whose braces match."""
    at, found = 0, []
    while start := CLAUSE.match(text, at):
        depth, end = 1, start.end()
        while depth:
            depth += {"{": 1, "}": -1}.get(text[end], 0)
            end += 1
        found.append((folded(f"{start[1]} {start[2] or ''}"), folded(text[start.end() : end - 1])))
        at = end
    return found


def signatures_in(text, indent, is_public):
    """Each function at this depth, with the text after the end of its parameters and result."""
    words = r"pub (?:const |extern \"C\" )?fn" if is_public else r"(?:pub )?(?:extern \"C\" )?fn"
    for found in re.finditer(rf"(?m)^{indent}{words} (\w+)", text):
        after = re.compile(rf"\n{indent}    (?=requires|ensures|ghost)").search(text, found.end())
        body = re.compile(rf"\{{\n|\n{indent}\{{\n|\{{\}}\n").search(text, found.end())
        if after and (not body or after.start() < body.start()):
            yield found[1], text[after.start() :]


def promises_in(text, shown):
    """What a source promises: a type or none, the trait that it keeps or none, a call of it or none for what the type
    holds, and pairs of words and text."""
    bare = COMMENT.sub("", text)
    for block in BLOCK.findall(bare):
        impl = IMPL.match(block.split("{")[0])
        if impl and impl["type"] in shown:
            trait = folded(impl["trait"] or "")
            yield impl["type"], trait, "", [(name, folded(fact)) for name, fact in FACT.findall(block)]
            for name, after in signatures_in(block, "    ", not trait):
                yield impl["type"], trait, name, clauses_in(after)
    for name, after in signatures_in(bare, "", True):
        if name in shown:
            yield "", "", name, clauses_in(after)


def lines_of_source(crate, text, shown):
    for of, trait, call, pairs in promises_in(text, shown):
        who = f"{crate} {of}" + (f" as {trait}" if trait else "") + ("::" if of and call else "") + call
        yield from (f"{who}{'' if call else ' holds'} {words} {fact}" for words, fact in pairs)


def definitions_in(text):
    for block in re.split(r"\n\s*\n", text):
        kept = folded("\n".join(it for it in block.split("\n") if not it.lstrip().startswith("--")))
        if kept and not kept.startswith(("use ", "pub use ", "pub mod ", "mod ")):
            yield f"definition {kept}"


def named(clauses, definitions):
    """Those of the definitions that the clauses lead to."""
    by_name, found = {}, set()
    for it in definitions:
        head = HEAD.match(it)
        by_name.setdefault(head[1] if head else "", set()).add(it)
    left = list(clauses)
    while left:
        for word in set(WORD.findall(left.pop())):
            new = by_name.get(word, set()) - found
            found |= new
            left += new
    return found


def promises(files):
    files = list(files)
    shown = {PRODUCT.match(path)[1]: exported(text) for path, text in files if path.endswith(("src/lib.rt", "src/main.rt"))}
    found, definitions = set(), set()
    for path, text in files:
        crate, folder, name = PRODUCT.match(path).groups()
        if folder == "specs" and name.endswith(".antt"):
            definitions |= set(definitions_in(text))
        elif folder == "src" and name.endswith(".rt") and "test" not in name:
            found |= set(lines_of_source(crate, text, shown.get(crate, set())))
    return found | named(found, definitions)


def compare(revision):
    old, new = promises(files_at(revision)), promises(files_now())
    asks = re.compile(r"(\S+ \S+(?: as \S+)?) requires")
    is_asked = lambda it: not it.startswith("definition ") and asks.match(it)
    call = re.compile(r"(\S+ \S+(?: as \S+)?) (?:requires|ensures)")
    stood = {call.match(it)[1] for it in old if call.match(it)}
    worse = [f"gone: {it}" for it in sorted(old - new) if not is_asked(it)]
    worse += [f"asked anew: {it}" for it in sorted(new - old) if is_asked(it) and asks.match(it)[1] in stood]
    better = [f"new: {it}" for it in sorted(new - old) if not is_asked(it) or asks.match(it)[1] not in stood]
    better += [f"no longer asked: {it}" for it in sorted(old - new) if is_asked(it)]
    print("\n".join([*worse, *better]))
    print(f"clauses: {len(old)} before, {len(new)} now, {len(old & new)} the same to the letter, {len(worse)} gone or asked anew")
    return 1 if worse else 0


def main(words):
    if not words:
        print("\n".join(sorted(promises(files_now()))))
    elif words[0] == "--since" and len(words) == 2:
        return compare(words[1])
    else:
        sys.exit(__doc__)
    return 0
