"""Builds the package for pip, by the hooks of PEP 517, with the standard library alone.

A wheel is a zip archive of the package and of three files that describe it (PEP 427). All code is Python's, so there is
nothing to compile.
"""
from __future__ import annotations

import base64
import hashlib
import io
import os
import tarfile
import zipfile
from pathlib import Path
from typing import Any, Iterator, Mapping, Tuple

import pibroulez

HERE = Path(__file__).resolve().parent
NAME = f"pibroulez-{pibroulez.__version__}"
SUMMARY = "A client of a store of container snapshots"
METADATA = f"""Metadata-Version: 2.1
Name: pibroulez
Version: {pibroulez.__version__}
Summary: {SUMMARY}
License: Apache-2.0
Classifier: Operating System :: POSIX :: Linux
Classifier: Typing :: Typed
Requires-Python: >=3.9
"""
WHEEL = """Wheel-Version: 1.0
Generator: pibroulez
Root-Is-Purelib: true
Tag: py3-none-any
"""
# The time of each file, so that the same sources make the same archive.
TIME = (1980, 1, 1, 0, 0, 0)

Settings = Mapping[str, Any]


def package() -> Iterator[Tuple[str, bytes]]:
    """Each file of the package, by its path."""
    for path in sorted((HERE / "pibroulez").rglob("*")):
        if path.suffix in (".py", ".typed"):
            yield str(path.relative_to(HERE)), path.read_bytes()


def build_wheel(
    wheel_directory: str, config_settings: Settings | None = None, metadata_directory: str | None = None
) -> str:
    """Writes the wheel. Its name."""
    files = [
        *package(),
        (f"{NAME}.dist-info/METADATA", METADATA.encode()),
        (f"{NAME}.dist-info/WHEEL", WHEEL.encode()),
    ]
    record = f"{NAME}.dist-info/RECORD"
    lines = []
    for path, content in files:
        digest = base64.urlsafe_b64encode(hashlib.sha256(content).digest()).rstrip(b"=").decode()
        lines.append(f"{path},sha256={digest},{len(content)}\n")
    files.append((record, "".join([*lines, f"{record},,\n"]).encode()))
    name = f"{NAME}-py3-none-any.whl"
    with zipfile.ZipFile(os.path.join(wheel_directory, name), "w", zipfile.ZIP_DEFLATED) as wheel:
        for path, content in files:
            info = zipfile.ZipInfo(path, TIME)
            info.external_attr = 0o100644 << 16
            wheel.writestr(info, content, zipfile.ZIP_DEFLATED)
    return name


def build_sdist(sdist_directory: str, config_settings: Settings | None = None) -> str:
    """Writes the archive of the sources. Its name."""
    files = [(path, (HERE / path).read_bytes()) for path in ("pyproject.toml", "backend.py")]
    name = f"{NAME}.tar.gz"
    with tarfile.open(os.path.join(sdist_directory, name), "w:gz", format=tarfile.PAX_FORMAT) as archive:
        for path, content in [*files, *package(), ("PKG-INFO", METADATA.encode())]:
            member = tarfile.TarInfo(f"{NAME}/{path}")
            member.size = len(content)
            archive.addfile(member, io.BytesIO(content))
    return name
