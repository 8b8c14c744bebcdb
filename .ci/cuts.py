"""What a cut of the power may leave of a file."""


def laid(file, pieces, length):
    """The bytes of a file with these pieces over them, up to a length."""
    left = bytearray(file)
    for at, piece in pieces:
        left = left.ljust(at, b"\0")
        left[at : at + len(piece)] = piece
    return bytes(left.ljust(length, b"\0")[:length])


def torn_once(writes):
    """All writes, but of one of them only a first part; a last part of one of them, and nothing of the others."""
    for number, (at, piece) in enumerate(writes):
        for cut in range(1, len(piece)):
            yield [*writes[:number], (at, piece[:cut]), *writes[number + 1 :]]
            yield [(at + cut, piece[cut:])]


def left_by_cut(file, writes, chance, samples):
    """Files that a cut of the power may leave of a synced file and writes after that: each byte of them is there or not,
    the length is the old one or a later one, and behind the old one anything may stand."""
    ends = sorted({len(file), *(max(len(file), at + len(piece)) for at, piece in writes)})
    for subset in range(2 ** len(writes)):
        pieces = [it for number, it in enumerate(writes) if subset >> number & 1]
        for length in ends:
            yield laid(file, pieces, length)
    for pieces in torn_once(writes):
        yield laid(file, pieces, ends[-1])
    for length in range(len(file), ends[-1]):
        yield laid(file, writes, length)
    for _ in range(samples if writes else 0):
        new, length = chance.random(), chance.randint(ends[0], ends[-1])
        pieces = [(at + it, piece[it : it + 1]) for at, piece in writes for it in range(len(piece)) if chance.random() < new]
        left = laid(file, pieces, length)
        yield left
        yield left[: len(file)] + bytes(chance.choice(b'{\n "\xff') for _ in left[len(file) :])
