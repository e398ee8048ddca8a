"""The picture of a decomposed layer: the drawing with its axes, and the legend beside or below it."""
import xml.etree.ElementTree as ET
from collections import Counter, defaultdict

from plotting.geometry import View, nearest_points, outline, seam
from plotting.layer import contact, gaps, pairs, units
from plotting.legend import add_heading, add_legend, add_lengths, counted, heading, summary
from plotting.marks import FRAME, TIE, add, add_conflict, add_fills, add_frame, add_seams, add_stitch, add_tie, path, style

# Pieces are drawn at least this large, so that none is lost in a wide layer.
LEAST_PIECE = 4
# How far the end of a conflict line lies inside its piece and from the number there, and how far lines and rings in one
# place are drawn apart.
INSET, CLEAR, LINES_APART, RINGS_APART = 6, 12, 6, 13
# The mark of a tie is this part of the shortest side of its pieces, if that is less than its full size.
TIE_PART = 0.3
# So is the thickness of the frame of a piece with a fixed mask.
FRAME_PART = 0.12


class Box:
    """A piece on the page. Pieces that lie exactly on each other are nested, and small ones are enlarged."""

    def __init__(self, view, piece, share):
        width, height = (piece.x2 - piece.x1) * view.scale, (piece.y2 - piece.y1) * view.scale
        self.enlarged = min(width, height) < LEAST_PIECE
        self.nested = share < 1
        self.width = max(width, LEAST_PIECE) * share
        self.height = max(height, LEAST_PIECE) * share
        self.x = view.x((piece.x1 + piece.x2) / 2)
        self.y = view.y((piece.y1 + piece.y2) / 2)

    def covers(self, x, y):
        return abs(x - self.x) < self.width / 2 and abs(y - self.y) < self.height / 2


def boxes_of(view, pieces):
    """The box of each piece. Of m pieces with one rectangle, the first is drawn whole, the next (m - 1)/m as large, …"""
    places = [piece[1:] for piece in pieces]
    together, before = Counter(places), Counter()
    found = []
    for piece, place in zip(pieces, places):
        found.append(Box(view, piece, 1 - before[place] / together[place]))
        before[place] += 1
    return found


def add_axes(parent, view):
    """The frame, and a grid of round coordinates."""
    across, upwards = view.ticks()
    for nm in across:
        add(parent, "path", kind="grid", d=path((view.x(nm), view.top), (view.x(nm), view.bottom)))
        add(parent, "text", f"{nm:,}", kind="small middle", x=view.x(nm), y=view.bottom + 16)
    for nm in upwards:
        add(parent, "path", kind="grid", d=path((view.left, view.y(nm)), (view.right, view.y(nm))))
        add(parent, "text", f"{nm:,}", kind="small end", x=view.left - 7, y=view.y(nm) + 4)
    add(parent, "text", "X in nm", kind="small end", x=view.right, y=view.bottom + 32)
    add(parent, "text", "Y in nm", kind="small end", x=view.left - 7, y=view.top - 6)
    add(parent, "path", kind="rule", d=path((view.left, view.top), (view.left, view.bottom), (view.right, view.bottom)))


def drawing_order(pieces):
    """The numbers of the pieces, larger ones first, so that smaller ones that overlap them are seen."""
    areas = [(piece.x2 - piece.x1) * (piece.y2 - piece.y1) for piece in pieces]
    return sorted(range(len(pieces)), key=lambda number: (-areas[number], number))


def add_fixed(parent, number, mask, box, full):
    """The frame of a piece with a fixed mask, in front of this piece and behind those that are drawn over it."""
    group = add(parent, "g", kind="fixed")
    add(group, "title", f"fixed: piece {number} on mask {mask}")
    thick = min(full, FRAME_PART * min(box.width, box.height))
    add_frame(group, box.x - box.width / 2, box.y - box.height / 2, box.width, box.height, thick)


def add_pieces(parent, view, layer, masks, unit_of, boxes):
    """The pieces. Those that are not alone in their unit name it, and those that have a fixed mask say so."""
    sizes = Counter(unit_of)
    for number in drawing_order(layer.pieces):
        piece, box = layer.pieces[number], boxes[number]
        unit = f", unit {unit_of[number]}" if sizes[unit_of[number]] > 1 else ""
        fixed = ", fixed" if number in layer.fixed else ""
        kind = "piece" + " nested" * box.nested + " enlarged" * box.enlarged
        rect = add(parent, "rect", kind=kind, id=f"piece-{number}",
                   x=box.x - box.width / 2, y=box.y - box.height / 2, width=box.width, height=box.height,
                   fill=f"url(#mask-{masks[number]})")
        add(rect, "title", f"piece {number}, shape {piece.shape}{unit}, mask {masks[number]}{fixed}: "
            f"X {piece.x1} to {piece.x2}, Y {piece.y1} to {piece.y2} nm")
        if fixed:
            add_fixed(parent, number, masks[number], box, FRAME * view.mark)


def add_wires(parent, view, layer, boxes):
    """The outline of each shape, and the seams inside it. Enlarged pieces would be covered by theirs."""
    shapes = defaultdict(list)
    for piece, box in zip(layer.pieces, boxes):
        if not box.enlarged:
            shapes[piece.shape].append(piece)
    for _, pieces in sorted(shapes.items()):
        seams = [seam(pieces[i], pieces[j]) for i, j in pairs(pieces) if contact(pieces[i], pieces[j])]
        if seams:
            add_seams(parent, "".join(path(*view.points(ends)) for ends in seams))
        add(parent, "path", kind="wire", d="".join(path(*view.points(ends)) for ends in outline(pieces)))


def add_ties(parent, view, layer, masks, boxes, ties):
    for i, j in ties:
        a, b = layer.pieces[i], layer.pieces[j]
        side = min(min(box.width, box.height) for box in (boxes[i], boxes[j]))
        group = add(parent, "g", kind="tie")
        add(group, "title", f"tie: pieces {i} and {j}, both on mask {masks[i]}, contact {contact(a, b)} nm")
        add_tie(group, *view.points(seam(a, b)), min(TIE * view.mark, TIE_PART * side))


def add_stitches(parent, view, layer, masks, stitches):
    for i, j in stitches:
        a, b = layer.pieces[i], layer.pieces[j]
        group = add(parent, "g", kind="stitch")
        add(group, "title", f"stitch: pieces {i} and {j}, on masks {masks[i]} and {masks[j]}, contact {contact(a, b)} nm")
        add_stitch(group, *view.points(seam(a, b)), view.mark)


def moved(ends, aside):
    """A line that is moved sideways by so much."""
    (x1, y1), (x2, y2) = ends
    across = abs(x1 - x2) > abs(y1 - y2)
    return [(x, y + aside) if across else (x + aside, y) for x, y in ends]


def add_conflicts(parent, view, layer, masks, conflicts):
    """The conflicts left. Long lines come first, so that the ends of short ones are seen on them."""
    nm = view.mark / view.scale
    lines = []
    for i, j in conflicts:
        a, b = layer.pieces[i], layer.pieces[j]
        lines.append((gaps(a, b), i, j, view.points(nearest_points(a, b, INSET * nm, CLEAR * nm))))
    together, before = Counter(tuple(sorted(line[3])) for line in lines), Counter()
    for (gap_x, gap_y), i, j, ends in sorted(lines, key=lambda line: (-line[0][0]**2 - line[0][1]**2, line[1:3])):
        place = tuple(sorted(ends))
        apart = (LINES_APART if ends[0] != ends[1] else RINGS_APART) * view.mark
        group = add(parent, "g", kind="conflict")
        add(group, "title", f"conflict: pieces {i} and {j}, both on mask {masks[i]}, "
            f"gap {gap_x} nm in X and {gap_y} nm in Y")
        add_conflict(group, *moved(ends, (before[place] - (together[place] - 1) / 2) * apart), view.mark)
        before[place] += 1


def add_numbers(parent, layer, masks, boxes):
    """The mask's number in each piece that has room for it; in large ones, the piece and its shape too."""
    order = drawing_order(layer.pieces)
    for place, number in enumerate(order):
        box, words = boxes[number], f"piece {number}, shape {layer.pieces[number].shape}"
        size = round(min(box.height * 0.75, box.width * 0.9, 20))
        if size < 8 or any(boxes[other].covers(box.x, box.y) for other in order[place + 1:]):
            continue
        named = box.width >= 5.8 * len(words) and box.height >= 44
        y = box.y + size * 0.36 - (7 if named else 0)
        add(parent, "text", f"{masks[number]}", kind="inside head", style=f"font-size:{size}px", x=box.x, y=y)
        if named:
            add(parent, "text", words, kind="inside", style="font-size:11px", x=box.x, y=y + 17)


def notes_on(boxes):
    """What the reader must know of pieces that are not drawn as they lie."""
    nested, enlarged = sum(box.nested for box in boxes), sum(box.enlarged for box in boxes)
    notes = []
    if nested:
        notes.append(f"{counted(nested, 'piece')} drawn smaller, being exactly on another")
    if enlarged:
        notes.append(f"{counted(enlarged, 'piece')} drawn larger, being too small to see")
    return notes


def add_drawing(parent, view, layer, result, edges, unit_of):
    """The layer; returns the notes that it needs."""
    add_axes(parent, view)
    boxes = boxes_of(view, layer.pieces)
    add_pieces(parent, view, layer, result.masks, unit_of, boxes)
    add_wires(parent, view, layer, boxes)
    add_ties(parent, view, layer, result.masks, boxes, edges.ties)
    add_stitches(parent, view, layer, result.masks, edges.stitches)
    add_conflicts(parent, view, layer, result.masks, edges.conflicts)
    add_numbers(parent, layer, result.masks, boxes)
    if not boxes:
        add(parent, "text", "no pieces", kind="middle", x=(view.left + view.right) / 2, y=(view.top + view.bottom) / 2)
    return notes_on(boxes)


def picture(layer, result, edges):
    """The SVG text."""
    view, unit_of = View(layer), units(len(layer.pieces), edges.ties)
    root = ET.Element("svg", {"xmlns": "http://www.w3.org/2000/svg", "role": "img", "aria-labelledby": "title desc"})
    add(root, "title", f"Decomposition of a layer: {heading(layer)}, {result.verdict}", id="title")
    add(root, "desc", summary(layer, result, bool(edges.ties)), id="desc")
    add(root, "style", style(view.mark))
    add_fills(add(root, "defs"), layer.settings.masks)
    add(root, "rect", width="100%", height="100%", fill="#fff")
    add_heading(root, layer, result, bool(edges.ties))
    notes = add_drawing(root, view, layer, result, edges, unit_of)
    bottom = add_lengths(root, view, layer.settings.spacing, view.bottom + 58)
    corner = (view.right + 30, view.top + 10) if view.high else (view.left, bottom + 46)
    right, lowest = add_legend(root, layer, result, len(set(unit_of)), view.mark, notes, corner, view.high)
    width, height = round(max(right, view.right)) + 30, round(max(lowest, bottom)) + 30
    root.attrib.update(width=str(width), height=str(height), viewBox=f"0 0 {width} {height}")
    ET.indent(root, " ")
    return ET.tostring(root, encoding="unicode") + "\n"
