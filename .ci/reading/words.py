"""Whether each list of commands, fields or refusals outside the program has those that the program has.

  .ci/tree words

The words of commands are those of the table `WORDS` of snap_script; a field and a refusal have the name that the program
writes. A list is found by the text before it and ends at the text given. It prints each word that a list lacks, or has
and the program doesn't, and how many lists are whole.
"""
import re

from reading.sources import found, read

VERBS = "crates/snap_script/src/verb.rt"
REFUSALS = (
    ("crates/snap_values/src/values.rt", "Refusal"),
    ("crates/snap_script/src/values.rt", "FsError"),
    ("crates/snap_script/src/refused.rt", "Refused"),
)
PYTHON, GO = "clients/python/pibroulez/*.py", "clients/go/*.go"
DOOR = "clients/go/pibroulezd/door"
# What no line is answered: what a plan says, and what ends the program.
UNTOLD = {"NeedsCharge", "OutOfMemory"}
COMMENT = re.compile(r"(?m)//.*|^ *#.*")


def named(path, kind):
    """The names that a file gives the variants of an enum."""
    return set(re.findall(rf'\b{kind}::\w+(?:\(_\)| \{{[^}}]*\}})? => "(\w+)"', read(path)))


def commands():
    """Each command's word, with the verb in the table."""
    return dict(re.findall(r'^    \("(\w+)", Verb::(.*)\),$', read(VERBS), re.M))


def kinds_of_words():
    """What a list can be asked for: the words of each kind."""
    words = commands()
    files = {word for word, verb in words.items() if verb.startswith("File(")}
    lookups = {word for word, verb in words.items() if verb.startswith("Lookup(")}
    calls = {word for word, verb in words.items() if verb.startswith("Call(")}
    questions = {it.lower() for it in re.findall(r"^    (\w+) \{$", read("crates/snap_call/src/question.rt"), re.M)}
    call, file, other = ({it for it in named(*where) if it[0].isupper()} for where in REFUSALS)
    fields = named("crates/snap_script/src/fault.rt", "Field")
    begin, rounds = {"open", "restore"}, {"batch", "reopen", "roll"}
    asking = set(words) - calls - files - begin - rounds
    return {
        "commands": set(words),
        "commands to an open store": set(words) - begin,
        "file commands": files,
        "lookups": lookups,
        "questions": questions,
        "commands that make no entry": asking,
        "questions on records": asking - lookups - {"report", "save"},
        "commands that make an entry": calls | files | rounds,
        "fields": fields,
        "fields of a script": fields - {"id"},
        "fields of a client": fields - {"end"},
        "refusals of calls": call,
        "errors of files": file,
        "refusals": (call | file | other) - UNTOLD,
    }


# Each list: its file, the text before it, the text behind it, and of which words it has to have all. With `+` it may have
# others.
LISTS = (
    ("clients/go/calls.go", "var fileCommands = []string{", "}", "file commands"),
    ("clients/go/calls.go", "var lookups = []string{", "}", "lookups"),
    ("clients/go/calls.go", "var questions = []string{", "}", "questions"),
    ("clients/go/reserve.go", "var isLookup = map[string]bool{", "}", "commands that make no entry"),
    ("clients/go/reserve.go", "var isQuestion = map[string]bool{", "}", "questions"),
    (f"{DOOR}/roles.go", "var isShort = setOf(", "\n)", "file commands+"),
    (f"{DOOR}/roles.go", "var isTenants = setOf(", "\n)", "file commands+"),
    (f"{DOOR}/roles.go", "var isTenants = setOf(", "\n)", "lookups+"),
    (f"{DOOR}/roles.go", "var isWhole = setOf(", "func setOf", "commands to an open store+"),
    (f"{DOOR}/charge.go", "var charges = setOf(", "\n)", "file commands+"),
    ("compare/linux/calls.py", "OPERATIONS = frozenset(", ".split()", "file commands"),
    ("compare/linux/calls.py", "LOOKUPS = frozenset(", ".split()", "lookups"),
    ("compare/linux/sequences.py", "\nMIXED = {", "}", "file commands"),
    (".ci/refusals", "FILE_COMMANDS = set(", ".split()", "file commands"),
    (".ci/logged.py", "CALLS = set(", ".split()", "commands that make an entry"),
    (".ci/fuzz", "\nFIELDS = (", ".split()", "fields of a script+"),
    (".ci/fuzz", "\nQUESTIONS = (", ")", "questions"),
    (".ci/examples", 'next\n        if (/"do": *"(', ")", "file commands+"),
    (".ci/examples", 'next\n        if (/"do": *"(', ")", "lookups+"),
    (".ci/examples", '<answers\n        if (/"do": *"(', ")", "questions on records"),
)
# Each place that has to have each word somewhere, written so.
PLACES = (
    ("commands to an open store", PYTHON, r'_(?:ask|call|change)\(\s*"{}"'),
    ("commands to an open store", GO, r'\(ctx, "{}"'),
    ("commands", "docs/SCRIPT.md", r"\| `{}` \|"),
    ("fields of a client", PYTHON, r'\b{}=|"{}"'),
    ("fields of a client", GO, '"{}"'),
    ("refusals of calls", "crates/test_stores/src/words.rt", r"Refusal::{}\b"),
    ("errors of files", "crates/test_parts/src/texts.rt", r"FsError::{}\b"),
    ("refusals", "clients/python/pibroulez/errors.py", r"class {}\("),
    ("refusals", "clients/python/pibroulez/__init__.py", '"{}",'),
    ("refusals", "clients/go/errors.go", 'Reason = "{}"'),
    ("refusals", "docs/GUIDE.md", "`{}`"),
    ("refusals", "docs/SCRIPT.md", "`{}`"),
    ("fields", "docs/SCRIPT.md", "`{}`"),
)


def faults_of_list(path, begin, end, wanted, more):
    _, found_begin, rest = read(path).partition(begin)
    listed, found_end, _ = rest.partition(end)
    if not found_begin or not found_end:
        yield f"{path} has no list after `{begin.strip()}`"
        return
    # A list may begin within a text.
    listed = '"' * (begin.count('"') % 2) + COMMENT.sub("", listed) + '"'
    listed = {it for text in re.findall(r'"([^"]*)"', listed) for it in re.findall(r"\w+", text)}
    for it in sorted(wanted - listed):
        yield f"{path}: the list after `{begin.strip()}` lacks {it}"
    for it in sorted(listed - wanted) if not more else ():
        yield f"{path}: the list after `{begin.strip()}` has {it}"


def main(words):
    if words:
        print(__doc__.strip())
        return 1
    kinds, wrong, whole = kinds_of_words(), [], 0
    for path, begin, end, kind in LISTS:
        faults = [*faults_of_list(path, begin, end, kinds[kind.rstrip("+")], kind.endswith("+"))]
        wrong += faults
        whole += not faults
    for kind, pattern, form in PLACES:
        text = "".join(read(it) for it in found(pattern))
        lacks = [it for it in sorted(kinds[kind]) if not re.search(form.replace("{}", it), text)]
        faults = [f"{pattern} lacks {it} of the {kind}" for it in lacks]
        wrong += faults
        whole += not faults
    for it in wrong:
        print(f"words: {it}")
    print(f"words: {whole} passed, {len(LISTS) + len(PLACES) - whole} failed")
    return 1 if wrong else 0
