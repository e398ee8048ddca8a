"""What the plot tool draws: a layer text and a result text, judged by docs/RULES.md, and the edges between pieces.

All of it is computed in whole numbers.
"""
import re
from collections import namedtuple

Settings = namedtuple("Settings", "masks spacing margin weight budget")
Piece = namedtuple("Piece", "shape x1 y1 x2 y2")
# `fixed` has the mask of each piece that has a fixed one.
Layer = namedtuple("Layer", "settings pieces fixed")
Result = namedtuple("Result", "verdict conflicts stitches cost steps masks")
# Pairs of piece numbers: conflict edges with one mask at both ends, stitch edges with two, and all ties.
Edges = namedtuple("Edges", "conflicts stitches ties")

LONGEST_LAYER_TEXT = 32_768
SETTING_LIMITS = {
    "masks": (2, 8),
    "spacing": (1, 100_000),
    "margin": (1, 100_000),
    "weight": (1, 1_000),
    "budget": (0, 1_000_000_000),
    "pieces": (0, 512),
}
PIECE_LIMITS = [(0, 511)] + 4 * [(0, 1_000_000)]
# No count of a result is larger than the greatest budget.
COUNT_LIMITS = (0, 1_000_000_000)

NUMBER = re.compile(rb"0|[1-9][0-9]*")
REFUSED = re.compile(rb"refused=[0-9]+,[0-9]+\n")
REFUSAL = " (refusal {})"


class BadInput(Exception):
    """Why there is nothing to draw, in one line."""


def within(word, limits):
    """Whether a number of any length is within its limits."""
    least, most = limits
    return len(word) <= len(str(most)) and least <= int(word) <= most


class Lines:
    """The lines of a text, taken one after the other. `refusal` tells the number that a bad line has in RULES 11."""

    def __init__(self, name, data, refusal):
        self.name, self.refusal = name, refusal
        *self.lines, self.unended = data.split(b"\n")
        self.taken = 0

    def bad(self, number, why):
        return BadInput(f"{self.name}, line {self.taken}: {why}{self.refusal.format(number)}")

    def take(self, form):
        """The bytes of the next line, byte 10 not included."""
        self.taken += 1
        if self.taken > len(self.lines):
            raise self.bad(3, f"{form} is expected, and no whole line is there")
        return self.lines[self.taken - 1]

    def words(self, key, count, form):
        """The digits of so many numbers that the next line has."""
        line = self.take(form)
        start = f"{key}=".encode()
        words = line[len(start):].split(b",")
        if not line.startswith(start) or len(words) != count or not all(map(NUMBER.fullmatch, words)):
            raise self.bad(3, f"{form} is expected")
        return words

    def numbers(self, key, limits):
        """The numbers of the next line, one for each pair of limits."""
        words = self.words(key, len(limits), f"{key}=" + ",".join(["NUMBER"] * len(limits)))
        if not all(map(within, words, limits)):
            raise self.bad(4, f"each number of {key}= must be within its range")
        return [int(word) for word in words]

    def left(self):
        return len(self.lines) - self.taken

    def goes_on(self):
        return bool(self.left() or self.unended)

    def end(self):
        if self.goes_on():
            self.taken += 1
            raise self.bad(3, "the text goes on after its last line")


def read_fixed(lines, masks, count):
    """The fixed masks by their pieces, from all lines that are left."""
    fixed, last = {}, -1
    while lines.goes_on():
        words = lines.words("fixed", 2, "fixed=PIECE,MASK or the end of the text")
        if within(words[0], (0, last)):
            raise lines.bad(3, "the piece of fixed= must be above the last one")
        if not within(words[0], (0, count - 1)) or not within(words[1], (0, masks - 1)):
            raise lines.bad(13, "fixed= must have one of the pieces and one of the masks")
        last, mask = map(int, words)
        fixed[last] = mask
    return fixed


def first_differing(layer):
    """The first piece whose fixed mask is not that of an earlier one in its unit, or None."""
    unit_of = units(len(layer.pieces), tied_pairs(layer)) if layer.fixed else []
    of_unit = {}
    return next((number for number, mask in layer.fixed.items() if of_unit.setdefault(unit_of[number], mask) != mask), None)


def read_layer(name, data):
    """The layer that the text states (RULES 9)."""
    if len(data) > LONGEST_LAYER_TEXT:
        raise BadInput(f"{name}: a layer text has at most {LONGEST_LAYER_TEXT} bytes{REFUSAL.format(2)}")
    lines = Lines(name, data, REFUSAL)
    *values, count = [lines.numbers(key, [limits])[0] for key, limits in SETTING_LIMITS.items()]
    pieces = []
    for _ in range(count):
        piece = Piece(*lines.numbers("piece", PIECE_LIMITS))
        if piece.x1 >= piece.x2 or piece.y1 >= piece.y2:
            raise lines.bad(5, "a piece must have X1 < X2 and Y1 < Y2")
        pieces.append(piece)
    layer = Layer(Settings(*values), pieces, read_fixed(lines, values[0], count))
    for number, piece in enumerate(pieces):
        if any(piece.shape == other.shape and min(overlaps(piece, other)) > 0 for other in pieces[:number]):
            raise BadInput(f"{name}, piece {number}: it overlaps a piece of its own shape{REFUSAL.format(6)}")
    number = first_differing(layer)
    if number is not None:
        raise BadInput(f"{name}, piece {number}: an earlier one of its unit has another fixed mask{REFUSAL.format(14)}")
    return layer


def write_layer(layer):
    """The text that states the layer (RULES 9)."""
    lines = [f"{key}={value}" for key, value in layer.settings._asdict().items()] + [f"pieces={len(layer.pieces)}"]
    lines += ["piece=" + ",".join(map(str, piece)) for piece in layer.pieces]
    lines += [f"fixed={number},{mask}" for number, mask in sorted(layer.fixed.items())]
    return "".join(line + "\n" for line in lines).encode()


def read_result(name, data):
    """The result that the text states (RULES 10)."""
    if REFUSED.fullmatch(data):
        raise BadInput(f"{name}: the layer was refused ({data.decode().strip()}), so there is no result to draw")
    lines = Lines(name, data, "")
    verdict = lines.take("verdict=best or verdict=open")
    if verdict not in (b"verdict=best", b"verdict=open"):
        raise lines.bad(3, "verdict=best or verdict=open is expected")
    counts = [lines.numbers(key, [COUNT_LIMITS])[0] for key in ("conflicts", "stitches", "cost", "steps")]
    most = SETTING_LIMITS["masks"][1] - 1
    masks = [lines.numbers("mask", [(0, most)])[0] for _ in range(lines.left())]
    lines.end()
    return Result(verdict[len(b"verdict="):].decode(), *counts, masks)


def overlaps(a, b):
    """ox and oy of RULES 2."""
    return min(a.x2, b.x2) - max(a.x1, b.x1), min(a.y2, b.y2) - max(a.y1, b.y1)


def gaps(a, b):
    ox, oy = overlaps(a, b)
    return max(-ox, 0), max(-oy, 0)


def conflict_edge(a, b, spacing):
    if a.shape == b.shape:
        return False
    gap_x, gap_y = gaps(a, b)
    return gap_x**2 + gap_y**2 < spacing**2


def contact(a, b):
    """The length along which two pieces of one shape meet."""
    if a.shape != b.shape:
        return 0
    ox, oy = overlaps(a, b)
    return oy if ox == 0 and oy > 0 else ox if oy == 0 and ox > 0 else 0


def pairs(pieces):
    return [(i, j) for j in range(len(pieces)) for i in range(j)]


def is_tie(a, b, margin):
    return 0 < contact(a, b) < margin


def tied_pairs(layer):
    pieces = layer.pieces
    return [(i, j) for i, j in pairs(pieces) if is_tie(pieces[i], pieces[j], layer.settings.margin)]


def counted_edges(layer, masks):
    """The edges that the score counts (RULES 3), and the ties (RULES 2)."""
    spacing, margin = layer.settings.spacing, layer.settings.margin
    edges = Edges([], [], [])
    for i, j in pairs(layer.pieces):
        a, b = layer.pieces[i], layer.pieces[j]
        if is_tie(a, b, margin):
            edges.ties.append((i, j))
        elif masks[i] == masks[j] and conflict_edge(a, b, spacing):
            edges.conflicts.append((i, j))
        elif masks[i] != masks[j] and contact(a, b) >= margin:
            edges.stitches.append((i, j))
    return edges


def units(count, ties):
    """For each piece the number of its unit, the lowest piece that ties join it to."""
    above = list(range(count))

    def lowest(number):
        while above[number] != number:
            above[number] = number = above[above[number]]
        return number
    for i, j in ties:
        low, high = sorted((lowest(i), lowest(j)))
        above[high] = low
    return [lowest(number) for number in range(count)]


def judge(layer, result):
    """The counted edges of a result that belongs to the layer and whose numbers are those of its masks."""
    settings = layer.settings
    if len(result.masks) != len(layer.pieces):
        raise BadInput(f"the layer has {len(layer.pieces)} pieces, but the result has {len(result.masks)} masks")
    for number, mask in enumerate(result.masks):
        if mask >= settings.masks:
            raise BadInput(f"piece {number} is on mask {mask}, but the layer has masks 0 to {settings.masks - 1}")
        if layer.fixed.get(number, mask) != mask:
            raise BadInput(f"piece {number} is on mask {mask}, but its fixed mask is {layer.fixed[number]}")
    edges = counted_edges(layer, result.masks)
    for i, j in edges.ties:
        if result.masks[i] != result.masks[j]:
            raise BadInput(f"pieces {i} and {j} are tied, but they are on masks {result.masks[i]} and {result.masks[j]}")
    conflicts, stitches = len(edges.conflicts), len(edges.stitches)
    found = {"conflicts": conflicts, "stitches": stitches, "cost": settings.weight * conflicts + stitches}
    for key, value in found.items():
        if getattr(result, key) != value:
            raise BadInput(f"the result states {key}={getattr(result, key)}, but its masks have {key}={value}")
    if result.steps > settings.budget or result.verdict == "open" and result.steps < settings.budget:
        raise BadInput(f"a result that is {result.verdict} cannot have {result.steps} steps of {settings.budget}")
    return edges
