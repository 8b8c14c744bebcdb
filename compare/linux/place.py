"""Where overlayfs can be mounted."""

import os
import signal
import sys
import tempfile
from collections.abc import Iterator
from contextlib import contextmanager, suppress

from linux.layers import OPAQUE, Layers
from linux.system import leave_mount_namespace, unmount


class CannotMount(Exception):
    """Why nothing is compared."""


@contextmanager
def mounting_place() -> Iterator[str]:
    """An empty directory, in a namespace in which overlayfs can be mounted."""
    if os.geteuid() != 0:
        raise CannotMount("only root can mount")
    signal.signal(signal.SIGTERM, lambda *_: sys.exit(1))
    os.umask(0)
    try:
        leave_mount_namespace()
    except OSError as error:
        raise CannotMount(f"no mount namespace: {error}") from error
    place = tempfile.mkdtemp(prefix="overlayfs-")
    try:
        _try_to_mount(place)
        yield place
    finally:
        with suppress(OSError):
            unmount(place)
        os.rmdir(place)


def mount_chain(place: str, number: int) -> None:
    """Mounts a chain of a number of lower layers, each over all before it. A kernel that takes fewer refuses it."""
    layers = Layers(place)
    try:
        parent = ""
        for name in map(str, range(number)):
            layers.prepare("", "key", parent)
            layers.commit("", "key", name)
            parent = name
        layers.prepare("", "key", parent)
    except OSError as error:
        raise CannotMount(f"no mount of {number} lower layers: {error}") from error
    finally:
        layers.close()


def _try_to_mount(place: str) -> None:
    """Root of a container may lack the right to mount, or to set the attributes that overlayfs keeps."""
    try:
        layers = Layers(place)
        try:
            os.setxattr(place, OPAQUE, b"y")
            layers.prepare("", "base", "")
            layers.commit("", "base", "base")
            layers.prepare("", "key", "base")
        finally:
            layers.close()
    except OSError as error:
        raise CannotMount(f"no overlay mount: {error}") from error
