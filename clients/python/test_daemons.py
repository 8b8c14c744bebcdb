"""Tests of a store behind a socket. The daemon is one of the tests: a process `serve` for each connection."""
from __future__ import annotations

import contextlib
import os
import pickle
import shutil
import signal
import socket
import subprocess
import tempfile
import threading
import unittest
from pathlib import Path

import pibroulez
from pibroulez import Committed, Died, Store, Usage
from pibroulez._peers import Daemon
from pibroulez.errors import error_in
from stores import PROGRAM

OPENING = b'{"do":"open","root":"/r","namespaces":[["a",1000,1000]]}\n'


class DaemonOfTests:
    """Hands on the lines of each connection to a process of its own, in which a store is open."""

    def __init__(self, path: Path) -> None:
        self._listener = socket.socket(socket.AF_UNIX, socket.SOCK_STREAM)
        self._listener.bind(os.fspath(path))
        self._listener.listen()
        self.connections: list[socket.socket] = []
        self.processes: list[subprocess.Popen[bytes]] = []
        #: What a new connection is told before it is ended, or nothing where it is served.
        self.refusal = b""
        threading.Thread(target=self._serve, daemon=True).start()

    def _serve(self) -> None:
        with contextlib.suppress(OSError):
            while True:
                self._take(self._listener.accept()[0])

    def _take(self, connection: socket.socket) -> None:
        if self.refusal:
            with connection:
                connection.sendall(self.refusal)
            return
        process = subprocess.Popen([PROGRAM, "serve"], stdin=subprocess.PIPE, stdout=subprocess.PIPE, bufsize=0)
        assert process.stdin and process.stdout
        process.stdin.write(OPENING)
        process.stdout.readline()
        self.connections.append(connection)
        self.processes.append(process)
        threading.Thread(target=self._lines, args=(connection, process), daemon=True).start()
        threading.Thread(target=self._answers, args=(connection, process), daemon=True).start()

    def _lines(self, connection: socket.socket, process: subprocess.Popen[bytes]) -> None:
        assert process.stdin
        with contextlib.suppress(OSError), process.stdin:
            while part := connection.recv(1 << 16):
                process.stdin.write(part)

    def _answers(self, connection: socket.socket, process: subprocess.Popen[bytes]) -> None:
        assert process.stdout
        with contextlib.suppress(OSError), process.stdout:
            while part := process.stdout.read(1 << 16):
                connection.sendall(part)
            connection.shutdown(socket.SHUT_RDWR)

    def close(self) -> None:
        # The thread that accepts is woken by that.
        self._listener.shutdown(socket.SHUT_RDWR)
        self._listener.close()
        for process in self.processes:
            process.kill()
            process.wait()
        for connection in self.connections:
            connection.close()


class Daemons(unittest.TestCase):
    def setUp(self) -> None:
        folder = Path(tempfile.mkdtemp())
        self.addCleanup(shutil.rmtree, folder)
        self.path = folder / "socket"
        self.daemon = DaemonOfTests(self.path)
        self.addCleanup(self.daemon.close)

    def test_calls(self) -> None:
        """The first script of README."""
        with Store.connect(self.path) as store:
            self.assertEqual(store.pid, os.getpid())
            store.prepare("a", "k", "")
            store.mkdir("a", "k", "/etc")
            store.create("a", "k", "/etc/x")
            store.write("a", "k", "/etc/x", fill=(120, 5000))
            self.assertEqual(store.commit("a", "k", "base"), Committed(1, Usage(4, 3)))
            with self.assertRaises(pibroulez.NotFound):
                store.stat("a", "k")
            with self.assertRaises(pibroulez.Fault):
                store.request({"do": "stat", "ns": 5})
        with self.assertRaises(Died) as caught:
            store.report()
        self.assertEqual((caught.exception.status, caught.exception.words), (0, ""))

    def test_threads(self) -> None:
        """Each of many has its own answers."""
        failures: list[object] = []

        def call(number: int) -> None:
            for turn in range(20):
                key = f"{number}-{turn}"
                store.prepare("a", key, "")
                if store.stat("a", key).name != key or store.discard("a", key) != Usage(1, 1):
                    failures.append(key)

        with Store.connect(self.path) as store:
            threads = [threading.Thread(target=call, args=(number,)) for number in range(16)]
            for it in threads:
                it.start()
            for it in threads:
                it.join()
            self.assertEqual((failures, store.report().records), ([], 0))

    def test_end_of_the_daemon(self) -> None:
        """A call then raises Died, which says so."""
        store = Store.connect(self.path)
        store.prepare("a", "k", "")
        self.daemon.processes[0].send_signal(signal.SIGKILL)
        for _ in range(2):
            with self.assertRaises(Died) as caught:
                while True:
                    store.report()
            self.assertEqual(caught.exception.words, "the daemon has ended the connection")
        store.close()

    def test_refused_connection(self) -> None:
        """What the daemon says before it ends the connection is told."""
        self.daemon.refusal = b'{"error":"TooManyConnections","from":"door"}\n'
        store = Store.connect(self.path)
        with self.assertRaises(Died) as caught:
            while True:
                store.report()
        self.assertIn(caught.exception.words, ("TooManyConnections (from door)",))

    def test_words_of_a_cluster(self) -> None:
        """A refusal for want of room in a cluster has the daemon's words, also where it was pickled."""
        members = {"error": "OverLimit", "free": [3, 4], "from": "cluster", "words": "idle on n 1/1"}
        error = pickle.loads(pickle.dumps(error_in(members)))
        self.assertIsInstance(error, pibroulez.OverLimit)
        self.assertEqual((error.free, error.source, error.words), (Usage(3, 4), "cluster", "idle on n 1/1"))
        self.assertEqual(str(error), "OverLimit (from cluster): idle on n 1/1")

    def test_lines_that_are_not_read(self) -> None:
        """Where the daemon has gone without having read them, no more are taken, as by a process that has ended."""
        path = self.path.with_name("other")
        with socket.socket(socket.AF_UNIX, socket.SOCK_STREAM) as listener:
            listener.bind(os.fspath(path))
            listener.listen()
            peer = Daemon(path)
            with listener.accept()[0]:
                peer.write(memoryview(b"x"))
        for _ in range(2):
            with self.assertRaises(BrokenPipeError):
                peer.write(memoryview(b"y"))
        self.assertEqual(peer.read(1), b"")
        peer.leave()

    def test_nobody_listens(self) -> None:
        with self.assertRaises(FileNotFoundError):
            Store.connect(self.path.with_name("none"))
        self.path.with_name("file").touch()
        with self.assertRaises(ConnectionRefusedError):
            Store.connect(self.path.with_name("file"))

    def test_fork(self) -> None:
        """A forked process can't call the store, and its end leaves the connection as it was."""
        with Store.connect(self.path) as store:
            store.prepare("a", "k", "")
            child = os.fork()
            if not child:
                try:
                    store.report()
                except pibroulez.Forked:
                    os._exit(0)
                os._exit(1)
            self.assertEqual(os.waitpid(child, 0)[1], 0)
            self.assertEqual(store.report().records, 1)


if __name__ == "__main__":
    unittest.main()
