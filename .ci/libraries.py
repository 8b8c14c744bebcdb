"""The repository's crates, and how rattle checks one of them over the libraries that `rt ci` has built."""
import os
import subprocess

TOP = os.path.dirname(os.path.dirname(os.path.realpath(__file__)))


def kit():
    """The folder of the toolchain, which has the page that `rt doc` names."""
    said = subprocess.run(["rt", "doc"], stdout=subprocess.PIPE, text=True, check=True)
    return os.path.dirname(said.stdout.strip())


def crates():
    """Each crate, lowest first, with the libraries that it stands on."""
    found = {}
    with open(f"{TOP}/crates.txt", encoding="utf-8") as lines:
        for line in lines:
            name, _, below = line.partition("#")[0].partition(":")
            if name.strip():
                found[name.split()[0]] = below.split()
    return found


def is_static(name):
    """Whether a crate is a static library."""
    with open(f"{TOP}/crates.txt", encoding="utf-8") as lines:
        return any(line.split()[:2] == [name, "staticlib:"] for line in lines)


def all_below(table, name, found=None):
    """The crates of the repository that a crate reaches."""
    found = [] if found is None else found
    for it in table[name]:
        if it in table and it not in found:
            all_below(table, it, found)
            found.append(it)
    return found


def built(name):
    """Where `rt ci` puts a crate's library."""
    return f"{TOP}/crates/{name}/out/rlib"


def lacking(table, name):
    """The crates below whose libraries are not there."""
    return [it for it in all_below(table, name) if not os.path.exists(f"{built(it)}/{it}.rlib/format")]


def root_of(name):
    library = os.path.exists(f"{TOP}/crates/{name}/src/lib.rt")
    return "src/lib.rt" if library else "src/main.rt"


def check_words(table, name, kit_folder):
    """A check of the crate, to be run in its folder or in a copy, as `rt ci` asks for it."""
    words = [f"{kit_folder}/bin/rattle", "check", "--crate-name", name, root_of(name)]
    words += ["--extern", f"std={kit_folder}/rlibs/std.rlib", "-L", f"dependency={kit_folder}/rlibs"]
    for it in table[name]:
        where = f"{built(it)}/{it}.rlib" if it in table else f"{kit_folder}/rlibs/{it}.rlib"
        words += ["--extern", f"{it}={where}"]
    for it in all_below(table, name):
        words += ["-L", f"dependency={built(it)}"]
    words += ["--crate-type", "staticlib"] * is_static(name)
    words += ["--antt-project", f"{kit_folder}/rattle/logic/antt-project.json"]
    return [*words, "--logic-built", f"{kit_folder}/logic_built", "--links", f"{name}="]
