"""Files of windows that are drawn from a seed: long and short messages, one or both in a window or none, whole and damaged, clean and in
noise. The same seed gives the same files everywhere."""
import random

from call import tool

make, tables = tool("make-window"), tool("tables")
# So many windows a file holds.
MOST = make.MOST_WINDOWS


def message(draw, size):
    """a clear message of so many bytes with a header that is taken"""
    head = bytes([draw.choice([0x8D, 0x88, 0x90, 0x95] if size == 14 else [0x5D, 0x58, 0x5F])]) + draw.randbytes(size - 4)
    return head + tables.remainder(head).to_bytes(3, "big")


def damage(draw, size):
    return tuple(draw.sample(range(8 * size), draw.choice([0, 0, 1, 1, 2, 3])))


def row(draw):
    """a window: nothing, a long message, a short one, or both, the long one in the real parts and the short one above it in the others"""
    kind = draw.randrange(8)
    noise = draw.choice([0.0, 0.1, 0.25, 0.4])
    sent = []
    if kind in (1, 2, 3, 4):
        sent.append(make.Sent(message(draw, 14), start=draw.randrange(8, 256), axis="re" if kind > 1 else "im", damage=damage(draw, 14)))
    if kind in (3, 4, 5, 6):
        start = draw.randrange(560, 700) if sent else draw.randrange(8, 704)
        sent.append(make.Sent(message(draw, 7), start=start, amplitude=2.0, axis="im" if sent or kind == 5 else "re", damage=damage(draw, 7)))
    return make.bytes_of(make.samples_of(*sent, noise=noise, seed=draw.randrange(2**32)))


def file_of(seed, first, windows):
    """the file of the windows from number `first` on, out of so many, with thresholds of its own"""
    draw = random.Random(f"{seed} {first}")
    rows = [row(draw) for _ in range(min(MOST, windows - first))]
    thresholds = {"threshold": draw.choice([67.0, 0.0, 75.0]), "second": draw.choice([71.0, 0.0, 80.0]), "distance": draw.choice([8, 0, 112])}
    return make.head_of([draw.randrange(128, 2**63) for _ in rows], **thresholds) + b"".join(rows)
