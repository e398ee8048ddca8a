"""Layers that are made from a seed, and their texts. A piece is its shape, X1, Y1, X2 and Y2; fixed masks stand beside, by the numbers of their
pieces."""


def draws(seed):
    """Numbers below 65536, by the generator of decomposer_main and reference.rs."""
    state = seed
    while True:
        state = (1_664_525 * state + 1_013_904_223) % 2**32
        yield state // 65_536


def made(seed, count):
    """Squares of 20 nm, each a shape of its own, on a grid of 32 by 32 places that are 40 nm apart: the more of them, the denser."""
    draw = draws(seed)
    pieces = []
    for shape in range(count):
        x, y = 40 * (next(draw) % 32), 40 * (next(draw) % 32)
        pieces.append((shape, x, y, x + 20, y + 20))
    return pieces


# How far a piece lies above or below the one before it where the two are tied: 9 nm are left to touch.
OFFSET = 11


def wires(seed, count, pitch, gap, tied=0):
    """Wires of 20 nm on four tracks, each cut into one to four pieces of 40 to 100 nm. Between two wires of a track there are 20 nm up to
    the gap. The track that is the shortest so far gets the next wire. Of four cuts, so many are tied on the average: the wire climbs or falls
    there."""
    draw = draws(seed)
    ends = [0] * 4
    pieces = []
    shape = 0
    while len(pieces) < count:
        track = ends.index(min(ends))
        x, y = ends[track] + 20 + 20 * (next(draw) % (gap // 20)), pitch * track
        for _ in range(1 + next(draw) % 4):
            length = 40 + 20 * (next(draw) % 4)
            pieces.append((shape, x, y, x + length, y + 20))
            x += length
            if tied and next(draw) % 4 < tied:
                y = 2 * pitch * track + OFFSET - y
        ends[track] = x
        shape += 1
    return pieces[:count]


def chain(count, stride=1):
    """Squares of 20 nm of one shape, each tied to the next. The numbers of two that follow each other differ by the stride, which has no
    common divisor with the count, so that a large one leaves them without order."""
    pieces = [None] * count
    for position in range(count):
        x, y = 20 * position, OFFSET * (position % 2)
        pieces[stride * position % count] = (0, x, y, x + 20, y + 20)
    return pieces


def clocks(pieces, masks, every=8):
    """Fixed masks: of so many wires one is fixed as a whole, and these wires have the masks in turn."""
    return {number: shape // every % masks for number, (shape, *_) in enumerate(pieces) if shape % every == 0}


SPACING, MARGIN, WEIGHT = 80, 10, 10


def text(pieces, masks, budget, fixed={}):
    """The layer text (RULES 9)."""
    settings = (("masks", masks), ("spacing", SPACING), ("margin", MARGIN), ("weight", WEIGHT), ("budget", budget), ("pieces", len(pieces)))
    lines = [f"{key}={value}\n" for key, value in settings]
    lines += ["piece=%d,%d,%d,%d,%d\n" % piece for piece in pieces]
    return "".join(lines + ["fixed=%d,%d\n" % line for line in sorted(fixed.items())])
