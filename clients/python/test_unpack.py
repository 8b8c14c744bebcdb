"""Tests of layers that are made by archives.

Expected counts are sums by docs/RULES.md, and what is seen follows the rules of examples/README.md ("Why the scripts of
images").
"""
from __future__ import annotations

import io
import tarfile
import unittest
from typing import Sequence, Tuple

from pibroulez import Directory, NotEmpty, SizedFile, Store, Symlink, Usage
from pibroulez.images.bounds import Bounds, Unreadable
from stores import open_store

EMPTY = "sha256:e3b0c44298fc1c149afbf4c8996fb92427ae41e4649b934ca495991b7852b855"
ABC = "sha256:ba7816bf8f01cfea414140de5dae2223b00361a396177a9cb410ff61f20015ad"

# A path that ends with a slash is a directory; `->` is a symlink, `=` a hard link, and any other has these bytes.
Row = Tuple[str, str]


def archive(rows: Sequence[Row], mode: int = 0o644) -> io.BytesIO:
    """An archive with an entry for each row."""
    made = io.BytesIO()
    with tarfile.open(fileobj=made, mode="w", format=tarfile.USTAR_FORMAT) as tar:
        for path, what in rows:
            it = tarfile.TarInfo(path.rstrip("/"))
            it.mode, data = mode, b""
            if path.endswith("/"):
                it.type, it.mode = tarfile.DIRTYPE, 0o755
            elif what.startswith("->"):
                it.type, it.linkname = tarfile.SYMTYPE, what[2:]
            elif what.startswith("="):
                it.type, it.linkname = tarfile.LNKTYPE, what[1:]
            else:
                data = what.encode()
                it.size = len(data)
            tar.addfile(it, io.BytesIO(data))
    made.seek(0)
    return made


LOWER = [
    ("d/", ""),
    ("d/f", "x" * 5000),
    ("d/gone", ""),
    ("etc/", ""),
    ("etc/x", "abc"),
    ("etc/y", "=etc/x"),
    ("usr/bin/l", "->../../etc/x"),
    ("sbin", "->usr/bin"),
]


class Unpacking(unittest.TestCase):
    def lower(self, store: Store) -> None:
        store.prepare("a", "k", "")
        made = store.unpack("a", "k", archive(LOWER))
        # The root and four directories 5/5, a file of two blocks 2/1, an empty one 0/1, one of two names 1/1, two
        # symlinks 0/2.
        self.assertEqual((made.count, made.share), (Usage(8, 10), Usage(8, 10)))
        self.assertEqual(made.left_out, {})
        store.commit("a", "k", "lower")

    def test_first_layer(self) -> None:
        """It asks for no path, and is charged by one entry a batch and one before."""
        with open_store() as store:
            self.lower(store)
            calls = [it.call for it in store.journal("a")]
            self.assertEqual(calls, ["prepare", "charge", "charge", "commit"])
            self.assertEqual(store.look("a", "lower", "/etc/y", peek=True), SizedFile(0o644, 3, ABC))
            self.assertEqual(store.look("a", "lower", "/usr", peek=True), Directory(0o755))
            self.assertEqual(store.look("a", "lower", "/sbin", peek=True), Symlink("usr/bin"))

    def test_over_a_layer(self) -> None:
        """Marks hide what is below and nothing of the layer's own, wherever they stand, and an entry below a symlink is
        where that leads."""
        rows = [
            ("d/f", "abc"),
            ("d/.wh..wh..opq", ""),
            ("etc/.wh.x", ""),
            ("etc/.wh.nothing", ""),
            ("sbin/m", ""),
            ("etc/l", "=etc/y"),
            ("usr/", ""),
        ]
        with open_store() as store:
            self.lower(store)
            store.prepare("a", "k", "lower")
            made = store.unpack("a", "k", archive(rows))
            # The root, /d, /etc, /usr and /usr/bin 5/5, /d/f 1/1, a whiteout 0/1, an empty file 0/1, and the lower file
            # under two names 1/1.
            self.assertEqual((made.count, made.share), (Usage(7, 9), Usage(7, 9)))
            self.assertEqual(made.left_out, {"whiteouts of nothing": 1})
            self.assertEqual(store.listdir("a", "k", "/d"), ("f",))
            self.assertEqual(store.listdir("a", "k", "/etc"), ("l", "y"))
            self.assertEqual(store.listdir("a", "k", "/usr/bin"), ("l", "m"))
            self.assertEqual(store.look("a", "k", "/d/f"), SizedFile(0o644, 3, ABC))
            self.assertEqual(store.look("a", "k", "/usr/bin/m"), SizedFile(0o644, 0, EMPTY))

    def test_marks_of_the_root(self) -> None:
        """Each name in it goes, and directories take the place of files."""
        with open_store() as store:
            self.lower(store)
            store.prepare("a", "k", "lower")
            made = store.unpack("a", "k", archive([(".wh..wh..opq", ""), ("d", "abc"), ("sbin/", "")]))
            # The root 1/1, a file in place of a whiteout 1/1, a directory in place of one 1/1, and whiteouts of /etc and
            # /usr.
            self.assertEqual(made.count, Usage(3, 5))
            self.assertEqual(store.listdir("a", "k", "/"), ("d", "sbin"))

    def test_batches(self) -> None:
        """Of at most as many operations as asked for: seven of the layer's eleven, and the rest."""
        with open_store() as store:
            store.prepare("a", "k", "")
            made = store.unpack("a", "k", archive(LOWER), operations=7)
            self.assertEqual(made.count, Usage(8, 10))
            calls = [it.call for it in store.journal("a")]
            self.assertEqual(calls, ["prepare", "charge", "charge", "charge"])

    def test_what_is_refused(self) -> None:
        """A layer that has something, an archive that ends early, one beyond the bounds, and a layer over the limit: of
        all these nothing is made."""
        with open_store(7, 100) as store:
            store.prepare("a", "k", "")
            cut = io.BytesIO(archive(LOWER).getvalue()[:700])
            for given, within in ((cut, None), (archive(LOWER), Bounds(entries=3))):
                with self.assertRaises(Unreadable):
                    store.unpack("a", "k", given, bounds=within)
            with self.assertRaises(Exception) as refused:
                store.unpack("a", "k", archive(LOWER))
            self.assertEqual(str(refused.exception), "OverLimit (from book)")
            self.assertEqual(store.listdir("a", "k", "/"), ())
            store.mkdir("a", "k", "/d")
            with self.assertRaises(NotEmpty):
                store.unpack("a", "k", archive(LOWER))


if __name__ == "__main__":
    unittest.main()
