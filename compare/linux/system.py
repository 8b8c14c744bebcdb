"""System calls that Python's standard library lacks."""

import ctypes
import os
from collections.abc import Iterator
from contextlib import contextmanager

_CLONE_NEWNS = 0x0002_0000
_MS_REC = 0x4000
_MS_PRIVATE = 0x4_0000
_MNT_DETACH = 2

_libc = ctypes.CDLL(None, use_errno=True)
_libc.mount.argtypes = [ctypes.c_char_p, ctypes.c_char_p, ctypes.c_char_p, ctypes.c_ulong, ctypes.c_char_p]
_libc.umount2.argtypes = [ctypes.c_char_p, ctypes.c_int]


def _check(result: int, what: str) -> None:
    if result != 0:
        number = ctypes.get_errno()
        raise OSError(number, os.strerror(number), what)


def leave_mount_namespace() -> None:
    """Gives this process mounts of its own: none of them is seen outside, and all end with it."""
    _check(_libc.unshare(_CLONE_NEWNS), "unshare")
    _check(_libc.mount(b"none", b"/", None, _MS_REC | _MS_PRIVATE, None), "/")


def mount(kind: str, target: str, options: str) -> None:
    """mount(2) of a file system without a source."""
    _check(_libc.mount(kind.encode(), target.encode(), kind.encode(), 0, options.encode()), target)


def unmount(target: str) -> None:
    """umount2(2), also where a descriptor is still open."""
    _check(_libc.umount2(target.encode(), _MNT_DETACH), target)


@contextmanager
def rooted_in(directory: int) -> Iterator[None]:
    """Makes the directory of a descriptor the root of this process for a while, so that no path, `..` or absolute
    symlink leads out of it."""
    outside = os.open("/", os.O_PATH)
    try:
        os.fchdir(directory)
        os.chroot(".")
        yield
    finally:
        os.fchdir(outside)
        os.chroot(".")
        os.close(outside)
