"""Runs scripts on both sides, each on a program and a tmpfs of its own."""

from collections.abc import Iterable, Iterator
from contextlib import contextmanager
from dataclasses import dataclass, field

from linux.calls import Command
from linux.comparison import Comparison, Counts, Found
from linux.layers import Layers
from linux.program import Program
from linux.shortest import shortest

# Everything that a snapshot shows is compared after one in this number of steps, and at its ends.
WHOLE_EVERY = 8


@dataclass
class Bench:
    """Where the program is, and an empty directory to mount at."""

    program: str
    place: str
    counts: Counts = field(default_factory=Counts)

    @contextmanager
    def both(self) -> Iterator[tuple[Program, Layers]]:
        """A program and layers, both without a snapshot."""
        with Program(self.program) as program:
            layers = Layers(self.place)
            try:
                yield program, layers
            finally:
                layers.close()

    def compare(self, script: Iterable[Command]) -> Found | None:
        """The first difference of a script that is not declared."""
        return self._run(script, self.counts, WHOLE_EVERY)

    def shortest(self, found: Found) -> Found:
        """A difference by the fewest commands. All that a snapshot shows is compared after each of them."""
        return shortest(found, lambda script: self._run(script, Counts(), whole_every=1))

    def _run(self, script: Iterable[Command], counts: Counts, whole_every: int) -> Found | None:
        with self.both() as (program, layers):
            return Comparison(program, layers, counts, whole_every).run(script)
