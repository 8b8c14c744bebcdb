"""Runs `examples/image_to_script` in a fork of this process, which saves the start of an interpreter for each run."""

import importlib.machinery
import importlib.util
import os
import resource
import signal
import sys
import tempfile
import traceback
from typing import NamedTuple

TOP = os.path.dirname(os.path.dirname(os.path.realpath(__file__)))
TOOL = f"{TOP}/examples/image_to_script"
# Of a run: the time of the processor, that of the clock, which other work takes too, and the memory that is addressed.
SECONDS = 20
MOST_SECONDS = 600
MEMORY = 1 << 31


class Ended(NamedTuple):
    """How a run ended. Below 0 the status is a signal's number."""

    status: int
    output: bytes
    error: bytes


def load(tool=TOOL):
    """The program's module, with those that it needs."""
    sys.dont_write_bytecode = True
    sys.path.insert(0, os.path.dirname(tool))
    loader = importlib.machinery.SourceFileLoader("image_to_script", tool)
    module = importlib.util.module_from_spec(importlib.util.spec_from_loader("image_to_script", loader))
    loader.exec_module(module)
    return module


def run(module, words):
    """A run with these words, within these bounds."""
    with tempfile.TemporaryFile() as output, tempfile.TemporaryFile() as error:
        child = os.fork()
        if child == 0:
            _become(module, words, output.fileno(), error.fileno())
        status = os.waitstatus_to_exitcode(os.waitpid(child, 0)[1])
        output.seek(0)
        error.seek(0)
        return Ended(status, output.read(), error.read())


def _become(module, words, output, error):
    """The fork: ends with the status of the program."""
    status = 70
    try:
        signal.signal(signal.SIGALRM, signal.SIG_DFL)
        signal.alarm(MOST_SECONDS)
        resource.setrlimit(resource.RLIMIT_CPU, (SECONDS, SECONDS))
        resource.setrlimit(resource.RLIMIT_AS, (MEMORY, MEMORY))
        os.dup2(output, 1)
        os.dup2(error, 2)
        sys.argv = ["image_to_script", *words]
        module.main()
        status = 0
    except SystemExit as ended:
        status = ended.code if isinstance(ended.code, int) else 1
        if isinstance(ended.code, str):
            print(ended.code, file=sys.stderr)
    except BaseException:
        traceback.print_exc()
    finally:
        sys.stderr.flush()
        os._exit(status)
