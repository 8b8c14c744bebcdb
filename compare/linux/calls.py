"""The file operations and lookups of a script, made by system calls in the root of this process.

Each takes a command as the script has it. A refusal is an `OSError`; `name_of` gives its name in a script's answer.
"""

import errno
import os
import stat
from typing import Any

Command = dict[str, Any]
Answer = dict[str, Any]

DEFAULT_DIRECTORY_MODE = 0o755
DEFAULT_FILE_MODE = 0o644
HEAD_BYTES = 16
BLOCK_BYTES = 4096
LARGEST_FILE = 1_048_576
# Far behind the end of any file, and still an offset to the kernel.
GREATEST_OFFSET = 1 << 62

# What marks a file that was made of a size alone. Overlayfs copies it up with the file.
SIZED = "trusted.sized"

OPERATIONS = frozenset(
    "mkdir create put write truncate setmode symlink link unlink rmdir rename opaque whiteout".split()
)
LOOKUPS = frozenset("look list read resolve du".split())

_NAMES = {
    errno.ENOENT: "NotFound",
    errno.ENOTDIR: "NotDir",
    errno.EISDIR: "IsDir",
    errno.EEXIST: "Exists",
    errno.ENOTEMPTY: "NotEmpty",
    errno.EXDEV: "CrossDevice",
    errno.EINVAL: "Invalid",
    errno.EPERM: "NotPermitted",
    errno.EFBIG: "TooBig",
    errno.ELOOP: "TooManyLinks",
    errno.ENAMETOOLONG: "BadPath",
}

_descriptors = os.open("/proc/self/fd", os.O_RDONLY | os.O_DIRECTORY)


def name_of(error: OSError) -> str:
    """The name of an error in a script's answer; that of Linux where no answer has it."""
    return _NAMES.get(error.errno, name_in_linux(error.errno))


def name_in_linux(number: int) -> str:
    """Linux's own name of an error. One number has two names."""
    return "EOPNOTSUPP" if number == errno.EOPNOTSUPP else errno.errorcode[number]


def paths_of(command: Command) -> list[str]:
    """The paths that a command names, in the order of its tests."""
    return [command[field] for field in ("path", "from", "to") if field in command]


def bytes_of(command: Command) -> bytes:
    """The bytes of a `write`."""
    if "text" in command:
        return command["text"].encode()
    byte, number = command["fill"]
    return bytes([byte]) * number


def operate(command: Command) -> None:
    """Makes a file operation."""
    match command["do"]:
        case "mkdir":
            os.mkdir(_path(command), command.get("mode", DEFAULT_DIRECTORY_MODE))
        case "create":
            flags = os.O_WRONLY | os.O_CREAT | os.O_EXCL
            os.close(os.open(_path(command), flags, command.get("mode", DEFAULT_FILE_MODE)))
        case "put":
            _put(_path(command), command.get("mode", DEFAULT_FILE_MODE), command["size"])
        case "write":
            _write(_path(command), bytes_of(command), command.get("offset", 0))
        case "truncate":
            _truncate(_path(command), command["size"])
        case "setmode":
            _set_mode(_path(command), command["mode"])
        case "symlink":
            os.symlink(command["target"].encode(), _path(command))
        case "link":
            os.link(command["from"].encode(), command["to"].encode(), follow_symlinks=False)
        case "unlink":
            os.unlink(_path(command))
        case "rmdir":
            os.rmdir(_path(command))
        case "rename":
            os.rename(command["from"].encode(), command["to"].encode())
        case "opaque":
            _copy_up(_path(command))
        case "whiteout":
            _remove(_path(command))


def is_sized(path: bytes) -> bool:
    """Whether a file was made of a size alone."""
    return SIZED in os.listxattr(path, follow_symlinks=False)


def look_up(command: Command) -> Answer:
    """The answer of a lookup."""
    path = _path(command)
    match command["do"]:
        case "look":
            return {"seen": _look(path)}
        case "list":
            return {"names": _list(path)}
        case "read":
            return _read(path, command)
        case "du":
            return _disk_usage(path)
        case _:
            return {"path": _resolve(path)}


def _path(command: Command) -> bytes:
    return command["path"].encode()


def _put(path: bytes, mode: int, size: int) -> None:
    descriptor = os.open(path, os.O_WRONLY | os.O_CREAT | os.O_EXCL, mode)
    try:
        os.ftruncate(descriptor, size)
        os.setxattr(descriptor, SIZED, b"y")
    finally:
        os.close(descriptor)


def _write(path: bytes, content: bytes, offset: int) -> None:
    descriptor = os.open(path, os.O_WRONLY | os.O_NOFOLLOW)
    try:
        os.pwrite(descriptor, content, offset)
    finally:
        os.close(descriptor)


def _truncate(path: bytes, size: int) -> None:
    descriptor = os.open(path, os.O_WRONLY | os.O_NOFOLLOW)
    try:
        os.ftruncate(descriptor, size)
    finally:
        os.close(descriptor)


def _set_mode(path: bytes, mode: int) -> None:
    descriptor = os.open(path, os.O_PATH | os.O_NOFOLLOW)
    try:
        os.chmod(str(descriptor), mode, dir_fd=_descriptors)
    finally:
        os.close(descriptor)


def _copy_up(path: bytes) -> None:
    """Copies a directory up, by setting the mode that it has. The mark is set once it is unmounted."""
    descriptor = os.open(path, os.O_RDONLY | os.O_DIRECTORY | os.O_NOFOLLOW)
    try:
        os.fchmod(descriptor, stat.S_IMODE(os.fstat(descriptor).st_mode))
    finally:
        os.close(descriptor)


def _remove(path: bytes) -> None:
    """Takes what is there, a directory with all that is in it."""
    if path != b"/" and stat.S_ISDIR(os.lstat(path).st_mode):
        for name in os.listdir(path):
            _remove(os.path.join(path, name))
    if stat.S_ISDIR(os.lstat(path).st_mode):
        os.rmdir(path)
    else:
        os.unlink(path)


def _look(path: bytes) -> Answer | None:
    try:
        status = os.lstat(path)
    except (FileNotFoundError, NotADirectoryError):
        return None
    mode = stat.S_IMODE(status.st_mode)
    if stat.S_ISDIR(status.st_mode):
        return {"dir": mode}
    if stat.S_ISLNK(status.st_mode):
        return {"symlink": os.readlink(path).decode()}
    if stat.S_ISREG(status.st_mode):
        return {"file": mode, "size": status.st_size}
    return {"other": status.st_mode}


def _list(path: bytes) -> list[str]:
    descriptor = os.open(path, os.O_RDONLY | os.O_DIRECTORY | os.O_NOFOLLOW)
    try:
        names = sorted(os.fsencode(name) for name in os.listdir(descriptor))
    finally:
        os.close(descriptor)
    return [name.decode() for name in names]


def _read(path: bytes, command: Command) -> Answer:
    descriptor = os.open(path, os.O_RDONLY | os.O_NOFOLLOW)
    try:
        size = os.fstat(descriptor).st_size
        if SIZED in os.listxattr(descriptor):
            return {"size": size}
        if "offset" in command or "max" in command:
            most = min(command.get("max", LARGEST_FILE), LARGEST_FILE)
            return {"bytes": os.pread(descriptor, most, min(command.get("offset", 0), GREATEST_OFFSET)).hex(), "size": size}
        return {"head": os.read(descriptor, HEAD_BYTES).hex(), "size": size}
    finally:
        os.close(descriptor)


def _disk_usage(path: bytes) -> Answer:
    """What is taken at a path and below it, each inode once, as du(1) counts, with the blocks that the bytes need. A
    directory always counts."""
    blocks = inodes = 0
    seen = set()
    waiting = [path]
    while waiting:
        found = waiting.pop()
        status = os.lstat(found)
        if stat.S_ISDIR(status.st_mode):
            blocks += 1
            waiting += [os.path.join(found, name) for name in os.listdir(found)]
        elif (status.st_dev, status.st_ino) in seen:
            continue
        elif stat.S_ISREG(status.st_mode):
            blocks += -(-status.st_size // BLOCK_BYTES)
        seen.add((status.st_dev, status.st_ino))
        inodes += 1
    return {"blocks": blocks, "inodes": inodes}


def _opened(path: bytes) -> int:
    """What a path leads to. A walk that the kernel begins anew goes on counting the links of its first attempt, so
    it can meet too many where there are not: it is asked again, when what it needs is in its caches."""
    for _ in range(3):
        try:
            return os.open(path, os.O_PATH)
        except OSError as error:
            if error.errno != errno.ELOOP:
                raise
    return os.open(path, os.O_PATH)


def _resolve(path: bytes) -> str:
    descriptor = _opened(path)
    try:
        return os.readlink(str(descriptor).encode(), dir_fd=_descriptors).decode()
    finally:
        os.close(descriptor)
