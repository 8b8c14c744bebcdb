"""What a release has and of what it is made, as a bill of materials of CycloneDX 1.5 (ECMA-424)."""
from __future__ import annotations

import hashlib
import json
import os
import re
import tempfile
import uuid
from datetime import datetime, timezone
from functools import cache
from pathlib import Path
from typing import Any, Dict, Iterable, List
from urllib.parse import quote

import parts
from parts import GO, GO_LIBRARIES, GO_MODULE, GO_PROGRAMS, TOP

LICENSE = [{"license": {"id": "Apache-2.0"}}]
PROGRAM, LIBRARY = "snap_replay", "snap_c"
# What the compiler's driver adds to a static program, with its terms.
OF_C = {"libc.a": "LGPL-2.1-or-later", "libgcc.a": "GPL-3.0-or-later WITH GCC-exception-3.1"}


def crates() -> Dict[str, List[str]]:
    """Each crate of the product, and the libraries that it stands on, as crates.txt has them."""
    found = {}
    for line in (TOP / "crates.txt").read_text(encoding="utf-8").splitlines():
        name, _, below = line.partition("#")[0].partition(":")
        if name.startswith("snap_"):
            found[name.split()[0]] = below.split()
    return found


@cache
def go_folders(package: str) -> List[str]:
    """The folders of the libraries that a program in Go is built over, but for Go's own and ours."""
    with tempfile.TemporaryDirectory() as work:
        place = Path(work, "src", GO_MODULE)
        place.parent.mkdir(parents=True)
        place.symlink_to(GO)
        environment = {
            **os.environ, "GO111MODULE": "off", "GOFLAGS": "", "GOPATH": f"{work}:{GO_LIBRARIES}", "CGO_ENABLED": "0",
        }
        words = ["go", "list", "-deps", "-f", "{{if not .Standard}}{{.Dir}}{{end}}", package]
        told = parts.run(words, environment=environment).split()
    return sorted(it for it in told if it.startswith(GO_LIBRARIES))


def debian_packages(folders: Iterable[str]) -> Dict[str, str]:
    """The packages of Debian that have these folders, with their versions."""
    names = set()
    for line in parts.run(["dpkg", "--search", *folders]).splitlines():
        owners, _, _ = line.partition(": ")
        names |= {it.split(":")[0].strip() for it in owners.split(",")}
    told = parts.run(["dpkg-query", "--show", "--showformat=${Package} ${Version}\n", *sorted(names)])
    return dict(line.split() for line in told.splitlines())


def notices() -> bytes:
    """The terms of all that is in the programs in Go beside our own, as Debian's packages tell them."""
    source = Path(parts.run(["go", "env", "GOROOT"]).strip(), "src/fmt").resolve()
    folders = {it for place in GO_PROGRAMS.values() for it in go_folders(f"{GO_MODULE}/{place}")} | {str(source)}
    told = []
    for name, number in sorted(debian_packages(sorted(folders)).items()):
        terms = Path("/usr/share/doc", name, "copyright").read_text(encoding="utf-8").strip()
        told.append(f"{'=' * 80}\n{name} {number}\n{'=' * 80}\n\n{terms}\n")
    return ("What is in pibroulezd and pibroulez beside Pibroulez, and its terms.\n\n" + "\n".join(told)).encode()


def of_debian(name: str, number: str, **more: Any) -> Dict[str, Any]:
    """A component that a package of Debian has, with its address (purl)."""
    return library(name, number, purl=f"pkg:deb/debian/{name}@{quote(number, safe=':')}", **more)


def library(name: str, version: str, **more: Any) -> Dict[str, Any]:
    """A component that is a library."""
    return {"type": "library", "name": name, "version": version, "bom-ref": f"{name}@{version}", **more}


def below(table: Dict[str, List[str]], crate: str) -> List[str]:
    """A crate with all that it stands on, ours and the toolchain's."""
    found = [crate]
    for name in found:
        found += [it for it in table.get(name, ()) if it not in found]
    return sorted(found)


def of_crates(version: str, kit: str) -> Dict[str, Dict[str, Any]]:
    """The components of the proved code, by their names: its crates, and the kit's libraries."""
    table = crates()
    theirs = sorted({it for them in table.values() for it in them} - set(table))
    found = {name: library(name, version, licenses=LICENSE) for name in sorted(table)}
    return found | {name: library(name, kit, description="a library of the toolchain") for name in theirs}


def of_c() -> List[Dict[str, Any]]:
    """What the static program has of Debian's C library and compiler."""
    found = []
    for file, terms in OF_C.items():
        path = Path(parts.run(["gcc", f"-print-file-name={file}"]).strip()).resolve()
        for name, number in debian_packages([str(path)]).items():
            found.append(of_debian(name, number, licenses=[{"expression": terms}]))
    return found


def of_go() -> tuple[List[Dict[str, Any]], Dict[str, List[str]]]:
    """The components of the programs in Go, and those of each program by their references."""
    version = re.sub(r"^go version go(\S+) .*$", r"\1", parts.run(["go", "version"]).strip())
    found = {"go": library("go", version, description="the standard library of Go")}
    uses = {}
    for name, source in GO_PROGRAMS.items():
        packages = debian_packages(go_folders(f"{GO_MODULE}/{source}"))
        for package, number in packages.items():
            found[package] = of_debian(package, number)
        uses[name] = sorted(found[it]["bom-ref"] for it in ["go", *packages])
    return [found[name] for name in sorted(found)], uses


def artifacts(files: Dict[str, bytes], version: str, kit: str) -> List[Dict[str, Any]]:
    """What an archive has of code, by the paths of its files: a component for each, with its sum."""
    told = {
        "lib/libpibroulez.a": {"name": "libpibroulez", "licenses": LICENSE},
        "lib/libpibroulez_kit.a": {"name": "liblibc_c", "version": kit, "description": "functions in C of the toolchain"},
        "lib/pibroulez/libos_c.a": {"name": "libos_c", "version": kit, "description": "functions in C of the toolchain"},
        "lib/pibroulez/snap_replay": {"type": "application", "name": PROGRAM, "licenses": LICENSE, "description": "as the gate linked it"},
        "lib/pibroulez/snap_replay.o": {"name": f"{PROGRAM}.o", "licenses": LICENSE, "description": "of which both programs are linked"},
    }
    found = []
    for path, content in sorted(files.items()):
        name = path.removeprefix("bin/")
        if name != path:
            it = {"type": "application", "name": name, "licenses": LICENSE, "bom-ref": name}
        elif path.endswith(".whl"):
            it = {"name": "pibroulez", "licenses": LICENSE, "purl": f"pkg:pypi/pibroulez@{version}"}
        elif path.startswith("go/") and path.endswith(".zip"):
            it = {"name": GO_MODULE, "licenses": LICENSE, "purl": f"pkg:golang/{GO_MODULE}@v{version}"}
        elif (it := told.get(path, {})) == {}:
            continue
        digest = {"alg": "SHA-256", "content": hashlib.sha256(content).hexdigest()}
        found.append({"type": "library", "version": version, "bom-ref": path, "hashes": [digest], **it})
    return found


def text(files: Dict[str, bytes], kit: str) -> bytes:
    """The bill of the files of an archive, by their paths."""
    version = parts.version()
    product = {"type": "application", "name": "pibroulez", "version": version, "bom-ref": f"pibroulez@{version}", "licenses": LICENSE}
    proved, c, made = of_crates(version, kit), of_c(), artifacts(files, version, kit)
    more, uses = of_go()
    of_program = [proved[it]["bom-ref"] for it in below(crates(), PROGRAM)]
    depends = uses | {
        PROGRAM: of_program + [it["bom-ref"] for it in c], "lib/pibroulez/snap_replay": of_program, "lib/pibroulez/snap_replay.o": of_program,
        "lib/libpibroulez.a": [proved[it]["bom-ref"] for it in below(crates(), LIBRARY)], product["bom-ref"]: [it["bom-ref"] for it in made],
    }
    when = datetime.fromtimestamp(parts.moment(), timezone.utc).strftime("%Y-%m-%dT%H:%M:%SZ")
    bill = {
        "bomFormat": "CycloneDX", "specVersion": "1.5", "version": 1, "metadata": {"timestamp": when, "component": product},
        "components": [*made, *proved.values(), *c, *more], "dependencies": [{"ref": it, "dependsOn": depends[it]} for it in sorted(depends)],
    }
    # The same bill has the same number.
    bill["serialNumber"] = f"urn:uuid:{uuid.uuid5(uuid.NAMESPACE_OID, json.dumps(bill, sort_keys=True))}"
    return json.dumps(bill, indent=1, sort_keys=True).encode() + b"\n"
