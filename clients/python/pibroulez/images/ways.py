"""Where the marks of a layer lead: the whiteouts (`.wh.NAME`) and opaque marks (`.wh..wh..opq`)."""
from __future__ import annotations

from collections.abc import Iterable
from typing import NamedTuple

from .bounds import MOST_LINKS, Bounds
from .entries import OPAQUE, WHITEOUT, Entry
from .tree import Directory, File, LeftOut

# What a layer's own entries leave at a place, beside the target of a symlink.
DIRECTORY, FILE = object(), object()
BELOW_NO_DIRECTORY = "entries below what is no directory"


class Own:
    """A place, and what a layer's own entries leave there, if they leave something, and in it."""

    __slots__ = ("kind", "names")

    def __init__(self) -> None:
        self.kind: object | str | None = None
        self.names: dict[str, Own] = {}


class Marks:
    """A place, and whether a layer's marks hide what lower layers show there, or all in it; and what they do in it."""

    __slots__ = ("is_hidden", "is_emptied", "names")

    def __init__(self) -> None:
        self.is_hidden = self.is_emptied = False
        self.names: dict[str, Marks] = {}


class Place(NamedTuple):
    """A place on a way: its name, and what is told of it by the layer's entries, its marks, and lower layers."""

    name: str
    own: Own | None
    marks: Marks | None
    lower: Directory | None


class Ways:
    """The ways of a layer's marks, over what lower layers show, as the layer's own entries leave them: a directory in
    place of a lower symlink is that directory, wherever its mark stands in the archive. So a mark hides what lower
    layers show at its own place, and nothing elsewhere (OCI image specification, "Whiteouts")."""

    def __init__(self, root: Directory, bounds: Bounds, marks: Iterable[str], entries: Iterable[Entry]) -> None:
        self._bounds = bounds
        self._root = Place("", Own(), Marks(), root)
        self._near: tuple[str, list[Place]] | None = None
        for mark in marks:
            self._mark(mark)
        for entry in entries:
            try:
                self._add(entry)
            except LeftOut:
                continue

    def walk(self, way: str) -> tuple[Directory | None, bool]:
        """Where a way leads: the directory that lower layers show there, if they show one, and whether there is a
        directory at all. LeftOut where something else is on the way."""
        place = self._walk(way)[-1]
        is_own = place.own is not None and place.own.kind is DIRECTORY
        return place.lower, place.lower is not None or is_own

    def _walk(self, way: str) -> list[Place]:
        """The places from the root to the end of a way."""
        places = [self._root]
        left, links = way.split("/")[::-1], 0
        self._bounds.take("way_names", len(left))
        while left:
            name = left.pop()
            if name in ("", "."):
                continue
            if name == "..":
                if len(places) > 1:
                    places.pop()
                continue
            found, place = self._step(places[-1], name)
            if isinstance(found, str):
                if links == MOST_LINKS:
                    raise LeftOut(BELOW_NO_DIRECTORY)
                links += 1
                names = found.split("/")
                self._bounds.take("way_names", len(names))
                left += reversed(names)
                if found.startswith("/"):
                    places = [self._root]
            elif found is FILE:
                raise LeftOut(BELOW_NO_DIRECTORY)
            else:
                places.append(place)
        return places

    def _step(self, above: Place, name: str) -> tuple[object | str | Directory | None, Place]:
        """What is found by a name: the target of a symlink, FILE, a directory that lower layers show, one that the
        layer alone has, or nothing; and its place."""
        own = above.own.names.get(name) if above.own else None
        marks = above.marks.names.get(name) if above.marks else None
        node = None
        if above.lower is not None and not (above.marks and above.marks.is_emptied or marks and marks.is_hidden):
            node = above.lower.names.get(name)
        lower = node if isinstance(node, Directory) else None
        found = own.kind if own else None
        if found is None or found is DIRECTORY and lower is not None:
            found = lower
            if isinstance(node, File):
                found = FILE if node.target is None else node.target
        return found, Place(name, own, marks, lower)

    def _mark(self, mark: str) -> None:
        """Notes what a mark hides, by the text of its way."""
        *above, name = mark.split("/")[1:]
        at = self._root.marks
        for each in above:
            at = at.names.setdefault(each, Marks())
        if name == OPAQUE:
            at.is_emptied = True
        else:
            at.names.setdefault(name.removeprefix(WHITEOUT), Marks()).is_hidden = True

    def _add(self, entry: Entry) -> None:
        """What an entry leaves at its place, if it can be made."""
        above, _, name = entry.path.rpartition("/")
        places = self._above(above)
        kind = FILE if entry.kind == "file" else self._kind_of(entry, places, name)
        found, place = self._step(places[-1], name)
        if kind is DIRECTORY and (found is DIRECTORY or isinstance(found, Directory)):
            return
        own = places[-1].own.names.setdefault(name, Own())
        own.kind = kind
        if kind is not DIRECTORY:
            own.names = {}
        if kind is not FILE or found not in (None, FILE):
            self._near = None

    def _above(self, way: str) -> list[Place]:
        """Where the way to an entry leads, whose missing directories are made."""
        if self._near is None or self._near[0] != way:
            places = self._walk(way)
            for number, place in enumerate(places[1:], 1):
                if place.own is None:
                    own = places[number - 1].own.names.setdefault(place.name, Own())
                    places[number] = place = place._replace(own=own)
                if place.lower is None and place.own.kind is None:
                    place.own.kind = DIRECTORY
            self._near = way, places
        return self._near[1]

    def _kind_of(self, entry: Entry, places: list[Place], name: str) -> object | str:
        """What an entry in a directory is. LeftOut for a hard link of no file, or of what it would take the place
        of."""
        if entry.kind == "directory":
            return DIRECTORY
        if entry.kind == "symlink":
            return entry.text
        above, _, source_name = entry.text.rstrip("/").rpartition("/")
        source = self._walk(above)
        found, _ = self._step(source[-1], source_name)
        way, source_way = [each.name for each in places] + [name], [each.name for each in source] + [source_name]
        if not (found is FILE or isinstance(found, str)) or source_way[: len(way)] == way:
            raise LeftOut("hard links to no file")
        return found
