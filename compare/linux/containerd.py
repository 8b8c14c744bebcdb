"""containerd's own reader of archives, `archive.Apply`, built over Debian's package of its sources."""

import os
import shutil
import subprocess
from dataclasses import dataclass
from pathlib import Path
from typing import BinaryIO

SOURCES = "/usr/share/gocode"
PACKAGE = f"{SOURCES}/src/github.com/containerd/containerd/archive"
DEBIAN = "golang-go and golang-github-containerd-containerd-dev"


class CannotBuild(Exception):
    """Why containerd doesn't read the images."""


class CannotApply(Exception):
    """What containerd says of an archive."""


@dataclass
class Containerd:
    """The program that unpacks archives."""

    program: Path

    def apply(self, archive: BinaryIO, directory: str) -> None:
        """Unpacks a layer over what a directory shows."""
        archive.seek(0)
        ended = subprocess.run([self.program, directory], stdin=archive, capture_output=True, check=False)
        if ended.returncode != 0:
            raise CannotApply(ended.stderr.decode(errors="replace").strip())


def build(scratch: Path) -> Containerd:
    """Builds the program within a directory."""
    if not shutil.which("go") or not os.path.isdir(PACKAGE):
        raise CannotBuild(f"without Debian's packages {DEBIAN}")
    program = scratch / "apply"
    source = Path(__file__).resolve().parent / "apply"
    environment = os.environ | {
        "GO111MODULE": "off",
        "GOFLAGS": "",
        "GOPATH": SOURCES,
        "GOCACHE": os.environ.get("GOCACHE", str(scratch / "go")),
    }
    words = ["go", "build", "-o", program, "."]
    how = {"stdout": subprocess.PIPE, "stderr": subprocess.STDOUT, "text": True, "errors": "replace"}
    built = subprocess.run(words, cwd=source, env=environment, check=False, **how)
    if built.returncode != 0:
        raise CannotBuild(f"go build: {built.stdout.strip()[-500:]}")
    return Containerd(program)
