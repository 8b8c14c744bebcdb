"""Programs that answer lines, and the processor time and the memory that they take."""

import os
import subprocess
import tempfile
import time

POLL_SECONDS = 0.001


class Program:
    """A program that is running: it reads lines, and its answers go to a file."""

    def __init__(self, words):
        self.words = words
        self.output = tempfile.TemporaryFile()
        self.process = subprocess.Popen(words, stdin=subprocess.PIPE, stdout=self.output)
        self.read = 0

    def __enter__(self):
        return self

    def __exit__(self, *_):
        self.process.kill()
        self.process.wait()
        self.process.stdin.close()
        self.output.close()

    def seconds(self):
        """The processor time so far, of the program and of the system for it (clock_getcpuclockid(3))."""
        return time.clock_gettime(~self.process.pid << 3 | 2)

    def resident_bytes(self, field="VmRSS"):
        """The resident size, or the greatest so far where the field is `VmHWM` (proc(5))."""
        with open(f"/proc/{self.process.pid}/status", encoding="ascii") as status:
            for line in status:
                if line.startswith(f"{field}:"):
                    return int(line.split()[1]) * 1024
        raise RuntimeError(f"{self.words}: no resident size")

    def ask(self, lines, count):
        """Writes the lines and waits for a number of answers. Returns them and the processor time."""
        before = self.seconds()
        self.process.stdin.write(("\n".join(lines) + "\n").encode())
        self.process.stdin.flush()
        answers = self.answers(count)
        self.settle()
        return answers, self.seconds() - before

    def settle(self):
        """Waits until the program waits for input, since its time is complete only then."""
        while self.state() != "S":
            time.sleep(POLL_SECONDS)

    def state(self):
        with open(f"/proc/{self.process.pid}/stat", encoding="ascii") as stat:
            return stat.read().rpartition(") ")[2][0]

    def answers(self, count):
        text = b""
        while text.count(b"\n") < count:
            # By place, since the program writes to the same open file.
            new = os.pread(self.output.fileno(), 1 << 24, self.read)
            self.read += len(new)
            if not new:
                if self.process.poll() is not None:
                    raise RuntimeError(f"{self.words} ended with status {self.process.returncode}")
                time.sleep(POLL_SECONDS)
            text += new
        return text


class Pair:
    """The product's program and the plain one, which are asked the same and have to answer the same.

    Both run on one processor, one after the other, so that what else the machine does slows both.
    """

    def __init__(self, ours, plain):
        self.ours = Program(ours)
        self.plain = Program(plain)
        self.answers = b""
        processors = os.sched_getaffinity(0)
        for program in (self.ours, self.plain):
            os.sched_setaffinity(program.process.pid, {max(processors)})

    def __enter__(self):
        return self

    def __exit__(self, *_):
        self.ours.__exit__()
        self.plain.__exit__()

    def ask(self, lines, count):
        """The processor time of both for these lines, which have a number of answers."""
        ours, ours_seconds = self.ours.ask(lines, count)
        plain, plain_seconds = self.plain.ask(lines, count)
        self.answers = ours
        if ours != plain:
            differ = next((pair for pair in zip(ours.split(b"\n"), plain.split(b"\n")) if pair[0] != pair[1]), None)
            raise RuntimeError(f"the answers differ: {differ}")
        return ours_seconds, plain_seconds

    def resident_bytes(self, field="VmRSS"):
        return self.ours.resident_bytes(field), self.plain.resident_bytes(field)


def least(measured):
    """Of several measurements of both programs, the least of each."""
    ours, plain = zip(*measured)
    return min(ours), min(plain)
