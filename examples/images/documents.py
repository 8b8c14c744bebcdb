"""The manifests and configuration of an image: which layers it has, and what their digests are."""

import json
import posixpath
import re
from collections import deque
from dataclasses import dataclass
from typing import NoReturn, Protocol, TypeVar

from pibroulez.images.bounds import MOST_LAYERS, Unreadable

# Algorithms of digests (OCI image specification, "Registered Algorithms").
DIGEST = re.compile(r"sha256:[0-9a-f]{64}|sha512:[0-9a-f]{128}")
# The name of a configuration in an archive of `docker save`, before it was a layout: its digest.
CONFIG_NAME = re.compile(r"([0-9a-f]{64})\.json")
BLOB_NAME = re.compile(r"blobs/(sha256|sha512)/([0-9a-f]+)")
KINDS = {dict: "object", list: "array", str: "text", int: "number"}

T = TypeVar("T")


@dataclass(frozen=True)
class Blob:
    """A file of an image: its name, and its digest and size where they are told."""

    name: str
    digest: str | None = None
    size: int | None = None


class Files(Protocol):
    """The files of an image."""

    def has(self, name: str) -> bool:
        """Whether there is a file of this name."""

    def content(self, blob: Blob) -> bytes:
        """All bytes of a document, which are those of its digest."""


def read_layers(files: Files, image: str | None) -> list[tuple[Blob, str]]:
    """The layers of the image of a name, or of the only one, from the lowest up: the file of each, and the digest of
    its archive."""
    if files.has("manifest.json"):
        config, blobs = docker_image(files, image)
    elif files.has("index.json"):
        config, blobs = oci_image(files, image)
    else:
        raise Unreadable("neither manifest.json nor index.json: no image")
    document = of_kind(document_of(files, config), dict, "the configuration")
    digests = part(part(document, "rootfs", dict, "the configuration"), "diff_ids", list, "rootfs")
    if len(digests) != len(blobs):
        raise Unreadable(f"{len(blobs)} layers, and {len(digests)} digests of them")
    if len(blobs) > MOST_LAYERS:
        raise Unreadable(f"more than {MOST_LAYERS:,} layers")
    return [(blob, digest_in(digest, "of diff_ids")) for blob, digest in zip(blobs, digests)]


def docker_image(files: Files, name: str | None) -> tuple[Blob, list[Blob]]:
    """The configuration of an image of `docker save`, and its layers."""
    images = {}
    where = "an image of manifest.json"
    for each in of_kind(document_of(files, Blob("manifest.json")), list, "manifest.json"):
        config = file_of(part(each, "Config", str, where))
        layers = [file_of(of_kind(layer, str, f"a layer of {where}")) for layer in part(each, "Layers", list, where)]
        tags = each.get("RepoTags") or [config.name]
        for tag in of_kind(tags, list, f"RepoTags of {where}"):
            images[of_kind(tag, str, f"a tag of {where}")] = config, layers
    return chosen_of(images, name)


def file_of(name: str) -> Blob:
    """A file that manifest.json names: within a layout's blobs by its digest, which is compared."""
    name = posixpath.normpath(name)
    if found := BLOB_NAME.fullmatch(name):
        return Blob(name, digest_in(f"{found[1]}:{found[2]}", "of a file's name"))
    found = CONFIG_NAME.fullmatch(name)
    return Blob(name, f"sha256:{found[1]}" if found else None)


def oci_image(files: Files, name: str | None) -> tuple[Blob, list[Blob]]:
    """The same of an image layout (OCI image layout specification, "index.json"). An index may name others; each is
    read once."""
    images, read = {}, set()
    index = of_kind(document_of(files, Blob("index.json")), dict, "index.json")
    waiting = deque(part(index, "manifests", list, "index.json"))
    while waiting:
        each = waiting.popleft()
        blob, called = blob_of(each), name_of(each)
        if (blob.digest, called) in read:
            continue
        read.add((blob.digest, called))
        found = of_kind(document_of(files, blob), dict, "a manifest")
        if "manifests" in found:
            waiting += part(found, "manifests", list, "an index")
        elif platform_of(each).get("os") != "unknown":
            config = blob_of(part(found, "config", dict, "a manifest"))
            images[called] = config, [blob_of(layer) for layer in part(found, "layers", list, "a manifest")]
    return chosen_of(images, name)


def blob_of(descriptor: object) -> Blob:
    """The file of a descriptor (OCI image specification, "Descriptors")."""
    digest = digest_in(part(descriptor, "digest", str, "a descriptor"), "of a descriptor")
    size = part(descriptor, "size", int, "a descriptor") if "size" in descriptor else None
    return Blob("blobs/" + digest.replace(":", "/"), digest, size)


def digest_in(value: object, where: str) -> str:
    """A digest. Anything else would name another file, or be a name of nothing."""
    if not isinstance(value, str) or not DIGEST.fullmatch(value):
        raise Unreadable(f"a digest {where} is none of sha256 or sha512: {value!r}")
    return value


def name_of(descriptor: dict) -> str:
    """What an image of an index is called: its name, its platform, or its digest."""
    annotations = of_kind(descriptor.get("annotations") or {}, dict, "annotations")
    name = annotations.get("org.opencontainers.image.ref.name")
    platform = platform_of(descriptor)
    parts = [platform[key] for key in ("os", "architecture", "variant") if key in platform]
    texts = [of_kind(each, str, "a name of an image or a platform") for each in ([name] if name else parts)]
    return "/".join(texts) or descriptor["digest"]


def platform_of(descriptor: dict) -> dict:
    return of_kind(descriptor.get("platform") or {}, dict, "a platform")


def chosen_of(images: dict[str, T], name: str | None) -> T:
    """The image of the name, or the only one."""
    if name in images:
        return images[name]
    if name is None and images and all(each == next(iter(images.values())) for each in images.values()):
        return next(iter(images.values()))
    raise Unreadable(f"--image is one of: {', '.join(sorted(images)) or 'none, there is no image'}")


def document_of(files: Files, blob: Blob) -> object:
    """A document of JSON."""
    try:
        return json.loads(files.content(blob), parse_constant=no_constant)
    except (ValueError, RecursionError) as why:
        raise Unreadable(f"{blob.name} is no JSON: {why}") from None


def no_constant(name: str) -> NoReturn:
    raise ValueError(f"{name} is no number")


def part(value: object, key: str, kind: type[T], where: str) -> T:
    """A part of an object, of a kind."""
    found = of_kind(value, dict, where)
    if key not in found:
        raise Unreadable(f"{where} has no {key}")
    return of_kind(found[key], kind, f"{key} of {where}")


def of_kind(value: object, kind: type[T], where: str) -> T:
    """The value, of a kind."""
    if not isinstance(value, kind) or isinstance(value, bool):
        raise Unreadable(f"{where} is no {KINDS[kind]}")
    return value
