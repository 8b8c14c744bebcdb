"""Makes the archives of images that `.ci/images` and `.ci/fuzz_images` give to `examples/image_to_script`.

A layer is a list of entries, each the bytes of its header and of what follows. An image is a dict of its files by their
names, which are written as an archive or as a folder.
"""

import gzip
import hashlib
import json
import os
import tarfile

BLOCK = tarfile.BLOCKSIZE
END = bytes(2 * BLOCK)


def entry(kind, path, text=b"", mode=None, form=tarfile.PAX_FORMAT, **more):
    """The bytes of an entry: of a file with its bytes, of a symlink or a hard link with its target."""
    it = tarfile.TarInfo(path)
    it.type, it.mode = kind, mode if mode is not None else 0o755 if kind == tarfile.DIRTYPE else 0o644
    if kind in (tarfile.SYMTYPE, tarfile.LNKTYPE):
        it.linkname = text
        text = b""
    it.size = len(text)
    for name, value in more.items():
        setattr(it, name, value)
    return it.tobuf(form, "utf-8", "surrogateescape") + text + bytes(-len(text) % BLOCK)


def folder(path, mode=None):
    return entry(tarfile.DIRTYPE, path, mode=mode)


def file(path, content=b"abc", mode=None):
    return entry(tarfile.REGTYPE, path, content, mode)


def symlink(path, target):
    return entry(tarfile.SYMTYPE, path, target)


def link(path, source):
    return entry(tarfile.LNKTYPE, path, source)


def mark(path):
    """A whiteout or an opaque mark."""
    return file(path, b"")


def header(path="f", kind=b"0", size=b"00000000000\0", **fields):
    """A header of GNU's form whose fields have just these bytes, with the right sum. Fields are by their offsets, as
    `at_345`."""
    block, name = bytearray(BLOCK), path.encode("utf-8", "surrogateescape")[:100]
    block[: len(name)] = name
    block[100:108], block[124:136], block[156:157], block[257:265] = b"0000644\0", size, kind, b"ustar  \0"
    for name, content in fields.items():
        at = int(name.removeprefix("at_"))
        block[at : at + len(content)] = content
    return summed(block)


def summed(block):
    """The header with its right sum."""
    block = bytearray(block)
    block[148:156] = b" " * 8
    block[148:156] = b"%06o\0 " % sum(block)
    return bytes(block)


def extended(content, kind=b"x", size=None):
    """An extended header with its bytes, or one that claims another size."""
    claimed = len(content) if size is None else size
    return header("pax", kind, b"%011o\0" % claimed) + content + bytes(-len(content) % BLOCK)


def record(key, value):
    """A record of a PAX header."""
    rest = f" {key}={value}\n".encode("utf-8", "surrogateescape")
    size = len(rest)
    while size != len(rest) + len(str(size)):
        size = len(rest) + len(str(size))
    return str(size).encode() + rest


def tar(entries):
    return b"".join(entries) + END


def sha256(content):
    return f"sha256:{hashlib.sha256(content).hexdigest()}"


def text_of(value):
    return json.dumps(value).encode()


def config_of(layers):
    return text_of({"rootfs": {"type": "layers", "diff_ids": [sha256(layer) for layer in layers]}})


def saved(layers, packed=None, **changes):
    """The files of an image of `docker save`. What is packed are the layers' files, which are plain otherwise."""
    names = [f"{number}.tar" for number in range(len(layers))]
    files = dict(zip(names, packed or layers))
    files["config.json"] = config_of(layers)
    files["manifest.json"] = text_of([{"Config": "config.json", "RepoTags": ["i:1"], "Layers": names}])
    return files | changes


def blob(files, content, **more):
    """Adds a blob to the files of a layout. Answers its descriptor."""
    files[f"blobs/sha256/{sha256(content)[7:]}"] = content
    return {"digest": sha256(content), "size": len(content), **more}


def layout(layers, packed=None, change=lambda name, document: document):
    """The files of an image layout. Its documents are changed before their digests are taken."""
    files = {"oci-layout": b'{"imageLayoutVersion":"1.0.0"}'}
    config = change("config", json.loads(config_of(layers)))
    manifest = change("manifest", {
        "schemaVersion": 2,
        "config": blob(files, text_of(config)),
        "layers": [blob(files, layer) for layer in packed or layers],
    })
    platform = {"os": "linux", "architecture": "amd64"}
    nested = change("nested", {"manifests": [blob(files, text_of(manifest), platform=platform)]})
    files["index.json"] = text_of(change("index", {"manifests": [blob(files, text_of(nested))]}))
    return files


def packed(content):
    return gzip.compress(content, 1, mtime=0)


def archive_of(files):
    """The files as an archive."""
    return tar(file(name, content) for name, content in files.items())


def write_folder(files, place):
    """The files as a folder."""
    for name, content in files.items():
        path = os.path.join(place, name)
        os.makedirs(os.path.dirname(path), exist_ok=True)
        with open(path, "wb") as out:
            out.write(content)
    return place


def sparse_1_0(path, size, parts, content):
    """A sparse file of GNU tar's PAX format 1.0."""
    numbers = [len(parts), *(number for part in parts for number in part)]
    table = "".join(f"{number}\n" for number in numbers).encode()
    content = table + bytes(-len(table) % BLOCK) + content
    records = [("major", "1"), ("minor", "0"), ("name", path), ("realsize", str(size))]
    pax = b"".join(record(f"GNU.sparse.{key}", value) for key, value in records)
    return extended(pax) + header("sparse", size=b"%011o\0" % len(content)) + content + bytes(-len(content) % BLOCK)


def sparse_gnu(path, size, parts, content):
    """One of GNU tar's old format, of at most four parts."""
    table = b"".join(b"%011o\0%011o\0" % part for part in parts)
    sizes = {"size": b"%011o\0" % len(content), "at_386": table, "at_483": binary(size)}
    return header(path, b"S", **sizes) + content + bytes(-len(content) % BLOCK)


def binary(number, size=12):
    """A number of a header in GNU's binary form, also one below 0."""
    return (number % (1 << 8 * size) | 1 << 8 * size - 1).to_bytes(size, "big")

