"""A node as the tests of the snapshotter have it: Debian's containerd with its folders, and the proxy of clients/go/containerd,
which is started anew where it ends, as systemd does it."""
import contextlib
import os
import shutil
import signal
import stat
import subprocess
import threading
import time

from libraries import TOP
from packages import install

# Where Debian's packages have the sources of Go's libraries.
GO_LIBRARIES = "/usr/share/gocode"
GO_MODULE = "pibroulez.example/pibroulez"
NEEDED = {"go": "golang-go", "containerd": "containerd", "ctr": "containerd", "runc": "runc"}
LIBRARY = "golang-github-containerd-containerd-dev"


class Checks:
    """How many checks have passed and failed."""

    def __init__(self, name):
        self.name, self.passed, self.failed = name, 0, 0

    def same(self, what, wanted, found):
        if wanted == found:
            self.passed += 1
            return
        self.failed += 1
        print(f"{self.name}: {what}: {found!r}, not {wanted!r}")

    def holds(self, what, is_so, why=""):
        self.same(what, (True, ""), (bool(is_so), "" if is_so else why))


def lack():
    """Why nothing can be run, after an installation of what is missing, or None."""
    if os.getuid() != 0:
        return "mounts are root's alone"
    sources = f"{GO_LIBRARIES}/src/github.com/containerd/containerd"

    def missing():
        return [it for it in NEEDED if not shutil.which(it)] + [sources] * (not os.path.isdir(sources))

    why = missing() and install([*sorted(set(NEEDED.values())), LIBRARY])
    return f"{missing()[0]} isn't there: {why or 'the packages lack it'}" if missing() else None


def build(work, source, output):
    """Builds a program in Go without a module proxy."""
    os.makedirs(os.path.dirname(f"{work}/go/src/{GO_MODULE}"), exist_ok=True)
    if not os.path.exists(f"{work}/go/src/{GO_MODULE}"):
        os.symlink(f"{TOP}/clients/go", f"{work}/go/src/{GO_MODULE}")
    path = f"{work}/go:{GO_LIBRARIES}"
    environment = {**os.environ, "GO111MODULE": "off", "GOFLAGS": "", "GOPATH": path, "CGO_ENABLED": "0"}
    subprocess.run(["go", "build", "-o", output, source], cwd=work, env=environment, check=True)


class Supervised:
    """A process. Whenever it ends by itself it is started anew, as systemd does it."""

    def __init__(self, words, log):
        self.words, self.log = words, log
        self.statuses, self.is_ending = [], False
        self.process = None
        self.start()
        threading.Thread(target=self.supervise, daemon=True).start()

    def start(self):
        with open(self.log, "ab") as log:
            self.process = subprocess.Popen(self.words, stderr=log, stdout=log)

    def supervise(self):
        while True:
            status = self.process.wait()
            if self.is_ending:
                return
            self.statuses.append(status)
            time.sleep(0.1)
            self.start()

    def kill(self):
        """Kills it, and waits until another one is there. Its status."""
        return self.kill_process(self.process.pid)

    def kill_process(self, pid):
        before = len(self.statuses)
        with contextlib.suppress(ProcessLookupError, TypeError):
            os.kill(pid, signal.SIGKILL)
        wait_for(lambda: len(self.statuses) > before)
        return self.statuses[-1]

    def end(self):
        self.is_ending = True
        self.process.terminate()
        return self.process.wait(timeout=60)


class Keeper(Supervised):
    """A proxy or a daemon of a root, which has the process of its store."""

    def __init__(self, words, log, root, socket):
        self.root, self.socket = root, socket
        super().__init__(words, log)

    def store(self):
        """The process of its store."""
        for name in filter(str.isdigit, os.listdir("/proc")):
            with contextlib.suppress(OSError):
                with open(f"/proc/{name}/stat", encoding="utf-8", errors="replace") as it:
                    if int(it.read().rpartition(")")[2].split()[1]) == self.process.pid:
                        return int(name)
        return None

    def kill_store(self):
        """Kills its store, and waits until another one is there. The status with which it has ended itself."""
        return self.kill_process(self.store())

    def directories(self):
        return sorted(os.listdir(f"{self.root}/snapshots"))


def proxy_of(work, program, name, root):
    """The proxy of a root."""
    socket = f"{work}/{name}/proxy.sock"
    return Keeper([f"{work}/pibroulez-proxy", "--program", program, "--root", root, "--socket", socket], f"{work}/{name}.log", root, socket)


def wait_for(is_so, seconds=30):
    """Waits until something is so. Whether it is."""
    end = time.monotonic() + seconds
    while not is_so():
        if time.monotonic() > end:
            return False
        time.sleep(0.05)
    return True


class Containerd(Supervised):
    """containerd with its folders, and ctr of it. Snapshotters are named by what has a socket of each."""

    def __init__(self, work, proxies):
        self.work, self.socket = work, f"{work}/containerd.sock"
        lines = [
            "version = 2", f'root = "{work}/containerd/root"', f'state = "{work}/containerd/state"',
            'disabled_plugins = ["io.containerd.grpc.v1.cri", "io.containerd.internal.v1.opt"]',
            "[grpc]", f'address = "{self.socket}"', "[ttrpc]", f'address = "{work}/ttrpc.sock"',
        ]
        for name, proxy in proxies.items():
            lines += [f"[proxy_plugins.{name}]", 'type = "snapshot"', f'address = "{proxy.socket}"']
        with open(f"{work}/config.toml", "w", encoding="utf-8") as config:
            config.write("\n".join(lines) + "\n")
        # ctr of containerd 2 asks the daemon to unpack, which does so for snapshotters that its configuration names alone.
        told = subprocess.run(["ctr", "images", "import", "--help"], capture_output=True, text=True, check=True).stdout
        self.unpacking = ["--local"] * ("--local" in told)
        super().__init__(["containerd", "-c", f"{work}/config.toml"], f"{work}/containerd.log")

    def ctr(self, *words, namespace="a", seconds=60):
        """The status of ctr, and what it said."""
        ran = subprocess.run(
            ["ctr", "-a", self.socket, "-n", namespace, *words], stdin=subprocess.DEVNULL, stdout=subprocess.PIPE,
            stderr=subprocess.STDOUT, text=True, errors="replace", timeout=seconds, check=False,
        )
        return ran.returncode, ran.stdout.strip()

    def of_snapshots(self, snapshotter, *words, namespace="a"):
        return self.ctr("snapshots", "--snapshotter", snapshotter, *words, namespace=namespace)

    def listed(self, snapshotter, namespace="a"):
        """Each snapshot's key, parent and kind, or what ctr said where it failed."""
        status, said = self.of_snapshots(snapshotter, "ls", namespace=namespace)
        if status:
            return said
        rows = [line.split() for line in said.splitlines()[1:]]
        return sorted((it[0], it[1] if len(it) == 3 else "", it[-1]) for it in rows)

    def import_image(self, snapshotter, namespace="a", path=None, seconds=60):
        words = ["images", "import", *self.unpacking, "--snapshotter", snapshotter, path or f"{self.work}/image.tar"]
        return self.ctr(*words, namespace=namespace, seconds=seconds)

    @contextlib.contextmanager
    def mounted(self, snapshotter, key, namespace="a"):
        """Mounts a snapshot that is active or a view, by the words that ctr tells."""
        status, said = self.of_snapshots(snapshotter, "mounts", f"{self.work}/mounted", key, namespace=namespace)
        if status:
            raise RuntimeError(said)
        os.makedirs(f"{self.work}/mounted", exist_ok=True)
        subprocess.run(said.split(), check=True)
        try:
            yield f"{self.work}/mounted"
        finally:
            subprocess.run(["umount", f"{self.work}/mounted"], check=True)

    def shown(self, snapshotter, key, namespace="a"):
        """What a committed snapshot shows, by a view of it. ctr makes one that containerd may collect before it is looked
        at, so it is made once more then."""
        end = time.monotonic() + 10
        while True:
            self.of_snapshots(snapshotter, "view", "looked-at", key, namespace=namespace)
            self.of_snapshots(snapshotter, "label", "looked-at", "containerd.io/gc.root=now", namespace=namespace)
            try:
                with self.mounted(snapshotter, "looked-at", namespace) as folder:
                    return seen_in(folder)
            except RuntimeError as why:
                if time.monotonic() > end:
                    return str(why)
            finally:
                self.of_snapshots(snapshotter, "rm", "looked-at", namespace=namespace)


def seen_in(folder):
    """What is in a folder without its `bin`: each path's kind, mode, content or target, and other names."""
    found, names = {}, {}
    for above, folders, files in os.walk(folder):
        if above == folder:
            folders.remove("bin")
        for name in folders + files:
            path = f"{above}/{name}"
            it = os.lstat(path)
            kind, what = kind_and_content(path, it.st_mode)
            relative = os.path.relpath(path, folder)
            found[relative] = kind, stat.S_IMODE(it.st_mode), what
            if kind == "file":
                names.setdefault(it.st_ino, []).append(relative)
    others = {path: tuple(sorted(set(paths) - {path})) for paths in names.values() for path in paths}
    return {path: (*it, others.get(path, ())) for path, it in found.items()}


def kind_and_content(path, mode):
    if stat.S_ISDIR(mode):
        return "dir", None
    if stat.S_ISLNK(mode):
        return "symlink", os.readlink(path)
    if stat.S_ISREG(mode):
        with open(path, encoding="utf-8") as it:
            return "file", it.read()
    return f"a file of mode {mode:o}", None
