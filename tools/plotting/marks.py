"""Elements of the picture: how they are written, the fills of the masks, and the marks of conflicts, stitches, ties and fixed
masks."""
import math
import xml.etree.ElementTree as ET

INK, PALE, RED = "#1c1c1c", "#5f5f5f", "#d0021b"

# Colour, hatch, and colour of the hatch of each mask. Six colours are from the palette of Okabe and Ito; its black and
# its vermillion would be taken for the marks of stitches and conflicts, and brown and grey stand for them. The order
# keeps few masks far apart: the least CIEDE2000 difference between the first K colours, for normal vision and for
# protanopes, deuteranopes and tritanopes (Machado's matrices), is 51, 36, 25, 19, 12, 12 and 11 for K from 2 to 8. The
# hatches tell the masks apart without any colour. Conflict lines have a white edge, since a protanope sees red as brown.
RISING, FALLING = "M-2 2l4-4M0 8l8-8M6 10l4-4", "M-2 6l4 4M0 0l8 8M6-2l4 4"
LEVEL, UPRIGHT = "M0 4h8", "M4 0v8"
MASK_STYLES = [
    ("#0072b2", "", "#ffffff"),
    ("#e69f00", RISING, "#5c3f00"),
    ("#6b4a12", FALLING, "#ffffff"),
    ("#c8c8c8", LEVEL, "#444444"),
    ("#56b4e9", UPRIGHT, "#0b3d5c"),
    ("#f0e442", RISING + FALLING, "#6b6500"),
    ("#009e73", LEVEL + UPRIGHT, "#ffffff"),
    ("#cc79a7", "M2 1v2M6 5v2", "#4d1736"),
]

# Sizes of marks; a View makes all of them smaller among small pieces.
LEAST_CONFLICT, END_DOT, RING = 8, 3, 5.5
LEAST_STITCH, BEYOND_STITCH = 12, 6
TIE = 5
FRAME = 3.2


def style(mark):
    """The style sheet, with marks of the given size."""
    return f"""
text {{ font: 13px Helvetica, Arial, 'Liberation Sans', 'DejaVu Sans', sans-serif; fill: {INK} }}
text.small {{ font-size: 11px; fill: {PALE} }}
text.head {{ font-weight: bold }}
text.title {{ font-size: 20px; font-weight: bold }}
text.verdict {{ font-weight: bold; text-anchor: middle; fill: #fff }}
text.end {{ text-anchor: end }}
text.middle {{ text-anchor: middle }}
text.inside {{ text-anchor: middle; paint-order: stroke; stroke: #fff; stroke-width: 3px; stroke-linejoin: round }}
path, .halo, .line {{ fill: none }}
.grid {{ stroke: #ebebeb }}
.rule {{ stroke: {INK} }}
.wire {{ stroke: {INK}; stroke-width: {mark:.2f}; stroke-linecap: square }}
.nested {{ stroke: #fff; stroke-width: {mark:.2f} }}
.gap {{ stroke: #fff; stroke-width: {1.6 * mark:.2f} }}
.seam {{ stroke: {INK}; stroke-width: {0.8 * mark:.2f}; stroke-dasharray: 2 2 }}
.halo {{ stroke: #fff; stroke-width: {5.2 * mark:.2f}; stroke-linecap: round }}
.line {{ stroke: {RED}; stroke-width: {2.4 * mark:.2f}; stroke-linecap: round }}
.dot {{ fill: {RED}; stroke: #fff; stroke-width: {mark:.2f} }}
.bar {{ stroke: #000; stroke-width: {7 * mark:.2f} }}
.knot {{ fill: {INK}; stroke: #fff; stroke-width: {mark:.2f} }}
.frame {{ stroke: {INK}; fill: none }}
.light {{ stroke: #fff; fill: none }}
.core {{ stroke: #fff; stroke-width: {3.4 * mark:.2f}; stroke-dasharray: {3 * mark:.2f} {2 * mark:.2f} }}
"""


def rounded(value):
    """A number as it is written: whole, or to 1/100."""
    return f"{round(value, 2) + 0.0:.2f}".rstrip("0").rstrip(".") if isinstance(value, float) else str(value)


def add(parent, tag, text=None, **attributes):
    """A new element. Names of attributes have _ for -, and `kind` is the class."""
    names = {"kind": "class"}
    written = {names.get(name, name.replace("_", "-")): rounded(value) for name, value in attributes.items()}
    element = ET.SubElement(parent, tag, written)
    element.text = text
    return element


def path(*points):
    return "M" + "L".join(f"{rounded(float(x))} {rounded(float(y))}" for x, y in points)


def add_fills(parent, masks):
    """A pattern for each mask, `mask-0` and so on."""
    for number, (colour, hatch, ink) in enumerate(MASK_STYLES[:masks]):
        pattern = add(parent, "pattern", id=f"mask-{number}", width=8, height=8, patternUnits="userSpaceOnUse")
        add(pattern, "rect", width=8, height=8, fill=colour)
        if hatch:
            add(pattern, "path", d=hatch, stroke=ink, stroke_opacity=".55")


def resized(start, end, length):
    """The segment with the same middle and direction, and this length. A point becomes level."""
    x, y, old = (start[0] + end[0]) / 2, (start[1] + end[1]) / 2, math.dist(start, end)
    dx, dy = ((end[0] - start[0]) / old, (end[1] - start[1]) / old) if old else (1, 0)
    half = length / 2
    return (x - dx * half, y - dy * half), (x + dx * half, y + dy * half)


def add_conflict(parent, start, end, mark):
    """A red line with a dot at each end, or a crossed ring if both ends are one point."""
    if start == end:
        (x, y), arm = start, RING / 2 * mark
        add(parent, "circle", kind="halo", cx=x, cy=y, r=RING * mark)
        add(parent, "circle", kind="line", cx=x, cy=y, r=RING * mark)
        cross = path((x - arm, y - arm), (x + arm, y + arm)) + path((x - arm, y + arm), (x + arm, y - arm))
        add(parent, "path", kind="line", d=cross)
        return
    if math.dist(start, end) < LEAST_CONFLICT * mark:
        start, end = resized(start, end, LEAST_CONFLICT * mark)
    add(parent, "path", kind="halo", d=path(start, end))
    add(parent, "path", kind="line", d=path(start, end))
    for x, y in (start, end):
        add(parent, "circle", kind="dot", cx=x, cy=y, r=END_DOT * mark)


def add_stitch(parent, start, end, mark):
    """A black bar with a broken white core, along the segment where the pieces meet and a little beyond."""
    length = max(LEAST_STITCH * mark, math.dist(start, end) + BEYOND_STITCH * mark)
    add(parent, "path", kind="bar", d=path(*resized(start, end, length)))
    add(parent, "path", kind="core", d=path(*resized(start, end, length - 3 * mark)))


def add_tie(parent, start, end, size):
    """A dark diamond in the middle of the segment where the pieces meet."""
    x, y = (start[0] + end[0]) / 2, (start[1] + end[1]) / 2
    add(parent, "path", kind="knot", d=path((x, y - size), (x + size, y), (x, y + size), (x - size, y), (x, y - size)))


def add_frame(parent, x, y, width, height, thick):
    """A dark frame inside the sides, with a light one inside it, so that it shows on every mask."""
    for kind, line in (("light", 1.35 * thick), ("frame", thick)):
        add(parent, "rect", kind=kind, x=x + line / 2, y=y + line / 2, width=width - line, height=height - line, stroke_width=line)


def add_seams(parent, lines):
    """Where pieces of one wire meet: light and dark, so that it shows on every mask."""
    add(parent, "path", kind="gap", d=lines)
    add(parent, "path", kind="seam", d=lines)
