"""The libraries in C that take the place of the C library's functions under a program, by LD_PRELOAD."""
import os
import shutil
import subprocess
import sys

TOP = os.path.dirname(os.path.dirname(os.path.realpath(__file__)))


def compilers():
    """The C compilers that may be there: the system's, and the toolchain's own, which links by its own linker."""
    for name in ("cc", "clang", "gcc"):
        yield [name]
    rt = shutil.which("rt")
    if rt:
        kit = os.path.dirname(os.path.dirname(os.path.realpath(rt)))
        yield [f"{kit}/toolchain/bin/clang", "-fuse-ld=lld"]


def build_shim(name, folder):
    """The library of this source of `.ci`, built into the folder."""
    shim = f"{folder}/{os.path.splitext(name)[0]}.so"
    for compiler in compilers():
        if shutil.which(compiler[0]):
            command = [*compiler, "-shared", "-fPIC", "-O1", "-nostdlib", f"{TOP}/.ci/{name}", "-o", shim]
            if subprocess.run(command, check=False).returncode == 0:
                return shim
    sys.exit(f"{os.path.basename(sys.argv[0])}: no C compiler builds .ci/{name}")
