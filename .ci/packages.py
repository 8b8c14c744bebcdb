"""Debian's packages, which root installs where a check needs what isn't there."""
import os
import re
import shutil
import subprocess

# How many seconds apt-get may take.
INSTALL_SECONDS = 180
# Where these packages have the sources of Go's libraries, and those that the clients are built over.
GO_LIBRARIES = "/usr/share/gocode"
SNAPSHOTTER = f"{GO_LIBRARIES}/src/github.com/containerd/containerd/snapshots/testsuite"
ETCD_CLIENT = f"{GO_LIBRARIES}/src/go.etcd.io/etcd/clientv3"
TOML = f"{GO_LIBRARIES}/src/github.com/pelletier/go-toml"
PROMETHEUS = f"{GO_LIBRARIES}/src/github.com/prometheus/client_golang"
# The first version of Go that has what the clients use.
GO_VERSION = (1, 19)


def go_version():
    """That of the command `go`, or None where it isn't there."""
    if not shutil.which("go"):
        return None
    told = subprocess.run(["go", "version"], capture_output=True, text=True).stdout
    told = re.match(r"go version \D*(\d+)\.(\d+)", told)
    return told and (int(told[1]), int(told[2]))


def install(packages):
    """Installs them. Why that couldn't be, or None."""
    if os.getuid() != 0 or not shutil.which("apt-get"):
        return "only root of a Debian installs it"
    lock = ["-o", "DPkg::Lock::Timeout=60"]
    how = {"stdin": subprocess.DEVNULL, "stdout": subprocess.PIPE, "stderr": subprocess.STDOUT, "text": True}
    how["env"] = {**os.environ, "DEBIAN_FRONTEND": "noninteractive"}
    words = ["apt-get", *lock, "install", "-y", "--no-install-recommends", *packages]
    try:
        for before in ([], ["apt-get", *lock, "update"]):
            if before:
                subprocess.run(before, timeout=INSTALL_SECONDS, **how)
            installed = subprocess.run(words, timeout=INSTALL_SECONDS, **how)
            if not installed.returncode:
                return None
    except subprocess.TimeoutExpired:
        return f"apt-get took more than {INSTALL_SECONDS} s"
    return f"apt-get: {(installed.stdout.strip() or 'no word').splitlines()[-1]}"
