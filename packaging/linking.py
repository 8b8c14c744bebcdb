"""The program as a static one, of the object file of which the gate linked its own."""
from __future__ import annotations

import sys
from functools import cache
from pathlib import Path
from typing import List

import parts
from parts import TOP, Unmade

sys.path.insert(0, str(TOP / ".ci"))

from libraries import check_words, crates, lacking  # noqa: E402  (found by the line above)

PROGRAM = "snap_replay"
FOLDER = TOP / "crates" / PROGRAM
OBJECT = FOLDER / f"out/{PROGRAM}.o"
TARGET = "x86_64-unknown-linux-gnu"
# As the toolchain's linker has it, but for what belongs to a loader.
FLAGS = "-Wl,-z,relro,-z,now,-z,noexecstack,--gc-sections,--no-dependent-libraries,--build-id=sha1,--threads=1,--fatal-warnings"
# What Debian says of the C library that is in the static program.
NOTICES = {"copyright": Path("/usr/share/doc/libc6-dev/copyright"), "LGPL-2.1": Path("/usr/share/common-licenses/LGPL-2.1")}


@cache
def kit() -> Path:
    """The toolchain's folder."""
    return Path(parts.run(["rt", "doc"]).strip()).parent


def libraries() -> List[Path]:
    """The toolchain's functions in C that the program calls."""
    return [kit() / "c/libos_c.a", kit() / "c/liblibc_c.a"]


def made_object(place: Path) -> Path:
    """The object file, where `rt ci` took the program from what it kept: the crate is proved and compiled once more."""
    table = crates()
    if lacks := lacking(table, PROGRAM):
        raise Unmade(f"there is no {place}, and `rt ci` has not built here: {' '.join(lacks)}")
    print(f"archive: there is no {place}: {PROGRAM} is proved and compiled once more", file=sys.stderr)
    words = check_words(table, PROGRAM, str(kit()))
    words[1:2] = ["build", "--toolchain", str(kit() / "toolchain"), "--backend", "llvm", "-o", str(place.absolute())]
    parts.run(words, folder=FOLDER)
    return place


def is_of(program: Path, code: Path, work: Path) -> bool:
    """Whether the toolchain's linker makes exactly this program of an object file."""
    again = work / "linked-again"
    words = [str(kit() / "bin/rattle-link"), "--target", TARGET, "--toolchain", str(kit() / "toolchain"), "-o", str(again)]
    parts.run([*words, str(code), *map(str, libraries())])
    return again.read_bytes() == program.read_bytes()


def object_of(program: Path, given: Path, work: Path) -> Path:
    """The object file of which the gate linked the program."""
    code = given if given.exists() else made_object(given)
    if not is_of(program, code, work):
        raise Unmade(f"{program} is not what the toolchain's linker makes of {code}, which is made anew where it isn't there")
    return code


def static_program(code: Path, work: Path) -> Path:
    """A static program of the object file: by the toolchain's linker too, but with Debian's C library."""
    made = work / "static"
    words = ["gcc", "-static-pie", "-fuse-ld=lld", f"-B{kit() / 'toolchain/bin'}", "-o", str(made), str(code), *map(str, libraries()), FLAGS]
    parts.run(words)
    return made
