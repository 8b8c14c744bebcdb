"""Operations as batches."""
from __future__ import annotations

from typing import Iterable, Iterator, List

# Of a batch. A line of the program has at most 16,777,216 bytes.
MOST_OPERATIONS = 1000
MOST_BYTES = 1 << 23


def grouped(operations: Iterable[str], most: int = MOST_OPERATIONS, most_bytes: int = MOST_BYTES) -> Iterator[List[str]]:
    """The operations in order, each the text of its object, in groups of at most a number, and of at most a number of bytes
    but for an operation that has more alone."""
    group: List[str] = []
    left = most_bytes
    for operation in operations:
        size = len(operation.encode())
        if group and (len(group) == most or size > left):
            yield group
            group, left = [], most_bytes
        group.append(operation)
        left -= size
    if group:
        yield group
