"""The script or the jobs that unpack an image."""

import hashlib
import json
import sys
import tempfile
from collections import Counter
from collections.abc import Iterator
from dataclasses import dataclass
from itertools import islice
from typing import NamedTuple, TextIO

from images.sources import Layer
from pibroulez.images.batches import grouped
from pibroulez.images.bounds import Bounds
from pibroulez.images.tree import Tree, text_of
from pibroulez.images.unpack import unpack

# The most inodes of a layer that a store can be opened with.
MOST_INODES = 1 << 24
# The most ancestors of a snapshot in a store that says nothing, and in any.
DEFAULT_ANCESTORS, MOST_ANCESTORS = 64, 500
MOST_LINE_BYTES = 1 << 24
# Of what is told of a source, in letters.
MOST_TOLD = 1000

class Made(NamedTuple):
    """A layer that is made: its name, what it counts, and its operations, by where they begin and their number."""

    name: str
    blocks: int
    inodes: int
    begin: int
    steps: int


@dataclass
class Script:
    """What is printed, for each of the namespaces."""

    out: TextIO
    namespaces: list[str]
    limit: list[int]
    bounds: Bounds
    left_out: Counter[str]
    has_batches: bool = False

    def say(self, command: dict) -> None:
        self.out.write(json.dumps(command, separators=(",", ":"), ensure_ascii=False) + "\n")

    def open(self, layers: int = 1) -> None:
        """Opens a store in which a snapshot can stand on a number of layers, or on as many as it may."""
        namespaces = [[ns, *self.limit] for ns in self.namespaces]
        more = {"ancestors": min(layers, MOST_ANCESTORS)} if layers > DEFAULT_ANCESTORS else {}
        self.say({"do": "open", "root": "/r", "namespaces": namespaces, "layer_inodes": MOST_INODES, **more})

    def layers(self, layers: list[Layer]) -> None:
        """A snapshot for each layer, and what the store then has. Nothing is printed before all layers are read."""
        with tempfile.TemporaryFile("w+", encoding="utf-8", newline="\n") as operations:
            made = list(self._made(layers, operations))
            self.open(len(layers))
            parent = ""
            for number, layer in enumerate(made, 1):
                for ns in self.namespaces:
                    self._layer(ns, f"extract-{number}", parent, layer, operations)
                parent = layer.name
        if len(layers) > MOST_ANCESTORS + 1:
            told(f"layers {MOST_ANCESTORS + 2} to {len(layers)} are too deep: a snapshot has at most {MOST_ANCESTORS} ancestors")
        for ns in self.namespaces:
            self.say({"do": "tree", "ns": ns})
        self.say({"do": "report"})

    def _made(self, layers: list[Layer], operations: TextIO) -> Iterator[Made]:
        tree, name = Tree(self.bounds), ""
        for number, layer in enumerate(layers, 1):
            begin = operations.tell()
            tree.begin_layer(operations)
            unpack(tree, layer.entries(self.left_out), self.left_out)
            name = chain(name, layer.digest or digest_of_text(operations, begin))
            warn(f"layer {number}", tree)
            yield Made(name, tree.blocks, tree.inodes, begin, tree.steps)

    def _layer(self, ns: str, key: str, parent: str, layer: Made, operations: TextIO) -> None:
        of = {"ns": ns, "key": key}
        self.say({"do": "prepare", **of, "parent": parent})
        fields = f'"ns":{text_of(ns)},"key":{text_of(key)}'
        operations.seek(layer.begin)
        lines = islice(operations, layer.steps)
        if self.has_batches:
            self._batches(f'{fields},"need":[{layer.blocks},{layer.inodes}]', lines)
        else:
            self.say({"do": "charge", **of, "need": [layer.blocks, layer.inodes]})
            for line in lines:
                self.out.write(line.replace(",", f",{fields},", 1))
        self.say({"do": "commit", **of, "name": layer.name})

    def _batches(self, fields: str, lines: Iterator[str]) -> None:
        for group in grouped(line[:-1] for line in lines):
            self.out.write(f'{{"do":"batch",{fields},"ops":[{",".join(group)}]}}\n')

    def jobs(self, layers: list[Layer]) -> None:
        """A job for each namespace, that makes all layers in one. Nothing is printed before all layers are read."""
        tree, name = Tree(self.bounds, is_single=True), ""
        with tempfile.TemporaryFile("w+", encoding="utf-8", newline="\n") as operations:
            tree.begin_layer(operations)
            for layer in layers:
                begin = operations.tell()
                unpack(tree, layer.entries(self.left_out), self.left_out)
                name = chain(name, layer.digest or digest_of_text(operations, begin))
            warn("the image in one layer", tree)
            if operations.tell() >= MOST_LINE_BYTES:
                told(f"a job of {operations.tell():,} bytes: the program answers `too long` above {MOST_LINE_BYTES:,}")
            self.open()
            for ns in self.namespaces:
                self._job(ns, name, tree, operations)

    def _job(self, ns: str, name: str, tree: Tree, operations: TextIO) -> None:
        self.out.write(f'{{"ns":{text_of(ns)},"key":"extract","parent":"","ops":[')
        operations.seek(0)
        separator = ""
        for line in operations:
            self.out.write(separator + line[:-1])
            separator = ","
        self.out.write(f'],"end":"commit","name":{text_of(name)},"extra":[{tree.blocks},{tree.inodes}]}}\n')


def chain(parent: str, digest: str) -> str:
    """The digest of a chain of layers (OCI image configuration, "Layer ChainID")."""
    return f"sha256:{hashlib.sha256(f'{parent} {digest}'.encode()).hexdigest()}" if parent else digest


def digest_of_text(operations: TextIO, begin: int = 0) -> str:
    """The digest of a layer that has none of its own: that of its operations."""
    operations.seek(begin)
    found = hashlib.sha256()
    for line in operations:
        found.update(line.encode())
    return f"sha256:{found.hexdigest()}"


def warn(what: str, tree: Tree) -> None:
    if tree.inodes > MOST_INODES:
        told(f"{what}: {tree.inodes:,} inodes; above {MOST_INODES:,} the program answers LayerFull")


def told(text: str) -> None:
    """Tells the user, in one line."""
    print(f"image_to_script: {one_line(text)}", file=sys.stderr)


def one_line(text: str) -> str:
    """A text that may have any characters of a source, as a line of those that are printed."""
    line = "".join(letter if letter.isprintable() else repr(letter)[1:-1] for letter in text[:MOST_TOLD])
    return line + "..." * (len(text) > MOST_TOLD)
