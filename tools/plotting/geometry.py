"""Where things lie: the layer on the page, the wires' outlines, and the points where pieces are nearest.

Places in the layer are in nm, whole numbers or halves; View turns them into pixels.
"""
import math

from plotting.layer import PIECE_LIMITS, Piece

PAGE_LEFT, PAGE_TOP, MOST_WIDTH, MOST_HEIGHT = 78, 98, 1000, 920
# A frame lower than this has the whole width, and the legend below it; others have the legend at their right.
HIGH_FRAME, LEAST_HEIGHT, LEAST_WIDTH = 480, 110, 520
PADDING = 28
# The shorter side of the smallest piece is drawn no longer than this, so that a layer of few pieces does not shout.
LARGEST_SMALL_PIECE = 100
# Marks have their full size where half of the pieces have this shorter side or more, and less among smaller pieces.
FULL_SIZE_PIECE, LEAST_MARK = 21, 0.55
TICK_DISTANCE = 80


class View:
    """The frame of the drawing, and the place in it of each point of the layer. One scale serves both axes, Y upwards."""

    def __init__(self, layer):
        pieces, spacing = layer.pieces, layer.settings.spacing
        x, y = min((p.x1 for p in pieces), default=0), min((p.y1 for p in pieces), default=0)
        across = max((p.x2 for p in pieces), default=8 * spacing) - x
        upwards = max((p.y2 for p in pieces), default=spacing) - y
        sides = sorted(min(p.x2 - p.x1, p.y2 - p.y1) for p in pieces) or [spacing]
        self.scale = min(
            (MOST_WIDTH - 2 * PADDING) / across,
            (MOST_HEIGHT - 2 * PADDING) / upwards,
            LARGEST_SMALL_PIECE / sides[0],
        )
        self.mark = min(max(sides[len(sides) // 2] * self.scale / FULL_SIZE_PIECE, LEAST_MARK), 1)
        height = max(upwards * self.scale + 2 * PADDING, LEAST_HEIGHT)
        self.high = height >= HIGH_FRAME
        width = max(across * self.scale + 2 * PADDING, LEAST_WIDTH) if self.high else MOST_WIDTH
        self.left, self.top = PAGE_LEFT, PAGE_TOP
        self.right, self.bottom = PAGE_LEFT + width, PAGE_TOP + height
        self.zero_x = (self.left + self.right - across * self.scale) / 2 - x * self.scale
        self.zero_y = (self.top + self.bottom + upwards * self.scale) / 2 + y * self.scale

    def x(self, nm):
        return self.zero_x + nm * self.scale

    def y(self, nm):
        return self.zero_y - nm * self.scale

    def points(self, places):
        return [(self.x(x), self.y(y)) for x, y in places]

    def ticks(self):
        """The round coordinates in the frame: those of X and those of Y."""
        step = round_length(TICK_DISTANCE / self.scale)

        def within(low, high):
            first = max(math.ceil(low / self.scale / step), 0) * step
            return range(first, min(math.floor(high / self.scale), PIECE_LIMITS[1][1]) + 1, step)
        return (within(self.left - self.zero_x, self.right - self.zero_x),
                within(self.zero_y - self.bottom, self.zero_y - self.top))


def round_length(least):
    """The smallest of 1, 2, 5, 10, 20, 50, … that is not below `least`."""
    power = 1
    while True:
        for digit in (1, 2, 5):
            if digit * power >= least:
                return digit * power
        power *= 10


def inside(nm, interval, inset):
    """The coordinate, moved into the interval until it is `inset`, or a quarter of it, from both ends."""
    low, high = interval
    inset = min(inset, (high - low) / 4)
    return min(max(nm, low + inset), high - inset)


def between(a, b, inset, clear):
    """On one axis, a coordinate between the intervals `a` and `b`, or one that they share.

    A shared one stays clear of the middle of both, where the numbers of the masks stand, if it can.
    """
    low, high = max(a[0], b[0]), min(a[1], b[1])
    if low >= high:
        return (low + high) / 2
    shared = [inside(low + (high - low) * part, (low, high), inset) for part in (1 / 2, 1 / 4, 3 / 4)]
    free = [nm for nm in shared if all(abs(nm - sum(interval) / 2) >= clear for interval in (a, b))]
    return (free or shared)[0]


def nearest_points(a, b, inset, clear):
    """A point of piece `a` and one of piece `b` where they are nearest, each moved into its piece by `inset`.

    On the very edge, a point could belong to the next piece of the wire as well.
    """
    ends = [], []
    for interval_a, interval_b in (((a.x1, a.x2), (b.x1, b.x2)), ((a.y1, a.y2), (b.y1, b.y2))):
        nm = between(interval_a, interval_b, inset, clear)
        ends[0].append(inside(nm, interval_a, inset))
        ends[1].append(inside(nm, interval_b, inset))
    return ends


def seam(a, b):
    """The ends of the segment along which two pieces of one shape meet."""
    return ((max(a.x1, b.x1), max(a.y1, b.y1)), (min(a.x2, b.x2), min(a.y2, b.y2)))


def without(low, high, taken):
    """What is left of the interval when those that are taken are cut out of it."""
    left = []
    for first, last in sorted(taken):
        if first > low:
            left.append((low, first))
        low = max(low, last)
    return left + [(low, high)] if low < high else left


def upright_sides(pieces):
    """The left and right sides of pieces of one shape, without what meets another piece."""
    segments = []
    for p in pieces:
        for x, facing in ((p.x1, "x2"), (p.x2, "x1")):
            meet = [(max(p.y1, q.y1), min(p.y2, q.y2)) for q in pieces if getattr(q, facing) == x]
            left = without(p.y1, p.y2, [(low, high) for low, high in meet if low < high])
            segments += [((x, low), (x, high)) for low, high in left]
    return segments


def outline(pieces):
    """The outline of pieces of one shape, as segments."""
    turned = [Piece(p.shape, p.y1, p.x1, p.y2, p.x2) for p in pieces]
    level = [tuple((x, y) for y, x in ends) for ends in upright_sides(turned)]
    return upright_sides(pieces) + level
