"""What is packaged, and how it is made so that the same sources give the same bytes."""
from __future__ import annotations

import gzip
import os
import re
import shutil
import subprocess
import tempfile
from pathlib import Path
from typing import Dict, Mapping

TOP = Path(__file__).resolve().parent.parent
GO = TOP / "clients/go"
GO_MODULE = "pibroulez.example/pibroulez"
# Where Debian's packages have the sources of Go's libraries.
GO_LIBRARIES = "/usr/share/gocode"
# The programs in Go, by the folder of their sources.
GO_PROGRAMS = {"pibroulezd": "pibroulezd", "pibroulez": "pibroulez-cli"}
MANUALS = {
    "pibroulezd.8": GO / "pibroulezd/pibroulezd.8", "pibroulez.1": GO / "pibroulez-cli/pibroulez.1", "snap_replay.1": TOP / "packaging/snap_replay.1",
}
UNIT = GO / "pibroulezd/pibroulezd.service"
EXAMPLE = TOP / "packaging/pibroulezd.toml"
SHELLS = ("bash", "zsh", "fish")
# Where the unit expects the daemon.
UNIT_FOLDER = "/usr/local/bin/"


class Unmade(Exception):
    """Why nothing was made."""


def version() -> str:
    """The number of the release, as the program has it."""
    text = (TOP / "crates/snap_replay/src/main.rt").read_text(encoding="utf-8")
    found = re.search(r'^const VERSION: &str = "([0-9.]+)";$', text, re.MULTILINE)
    if not found:
        raise Unmade("crates/snap_replay/src/main.rt has no VERSION")
    return found[1]


def moment() -> int:
    """The time of each packaged file: that of the commit, or SOURCE_DATE_EPOCH."""
    given = os.environ.get("SOURCE_DATE_EPOCH")
    if given is None:
        words = ["git", "-C", str(TOP), "log", "-1", "--format=%ct"]
        given = run(words).strip()
    if not given.isdigit():
        raise Unmade(f"SOURCE_DATE_EPOCH is {given!r}, which is no number")
    return int(given)


def run(words: list[str], folder: Path | None = None, environment: Mapping[str, str] | None = None) -> str:
    """What a command prints. It is Unmade where its status isn't 0."""
    how = {"stdout": subprocess.PIPE, "stderr": subprocess.PIPE, "stdin": subprocess.DEVNULL}
    try:
        ran = subprocess.run(words, cwd=folder, env=environment, encoding="utf-8", check=False, **how)
    except FileNotFoundError as missing:
        raise Unmade(f"{words[0]} isn't there") from missing
    if ran.returncode:
        raise Unmade(f"{' '.join(words)}: status {ran.returncode}: {ran.stderr.strip()[-2000:]}")
    return ran.stdout


def go_programs(folder: Path) -> Dict[str, Path]:
    """Builds the programs in Go, static and without the paths of this machine."""
    made = {}
    with tempfile.TemporaryDirectory() as work:
        place = Path(work, "src", GO_MODULE)
        place.parent.mkdir(parents=True)
        place.symlink_to(GO)
        environment = {
            **os.environ, "GO111MODULE": "off", "GOFLAGS": "", "GOPATH": f"{work}:{GO_LIBRARIES}", "CGO_ENABLED": "0", "GOAMD64": "v1",
        }
        for name, source in GO_PROGRAMS.items():
            made[name] = folder / name
            words = ["go", "build", "-trimpath", "-ldflags", "-s -w -buildid=", "-o", str(made[name]), f"{GO_MODULE}/{source}"]
            run(words, environment=environment)
    return made


def completions(command: Path) -> Dict[str, bytes]:
    """The completion of the command for each shell."""
    return {shell: run([str(command), "completion", shell]).encode() for shell in SHELLS}


def packed(content: bytes) -> bytes:
    """The bytes as gzip packs them, without a time."""
    return gzip.compress(content, 9, mtime=0)


def unit_in(folder: str) -> bytes:
    """The unit for systemd with its programs in a folder."""
    return UNIT.read_text(encoding="utf-8").replace(UNIT_FOLDER, folder).encode()


def checked(program: Path) -> bytes:
    """The bytes of the program, which has to be of this version."""
    said = run([str(program), "--version"]).strip()
    if said != f"snap_replay {version()}":
        raise Unmade(f"{program} says {said!r}, and this is version {version()}")
    return program.read_bytes()


def write(root: Path, path: str, content: bytes, mode: int = 0o644) -> None:
    """Writes a file below a folder, with the folders that it needs."""
    place = root / path
    place.parent.mkdir(parents=True, exist_ok=True)
    place.write_bytes(content)
    place.chmod(mode)


def settle(root: Path, time: int) -> None:
    """Gives all folders their mode, and all that is there its time."""
    for folder, _, files in os.walk(root, topdown=False):
        for name in files:
            os.utime(Path(folder, name), (time, time))
        os.chmod(folder, 0o755)
        os.utime(folder, (time, time))


def has(command: str) -> bool:
    """Whether a command is there."""
    return shutil.which(command) is not None
