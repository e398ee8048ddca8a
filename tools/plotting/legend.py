"""What the picture says in words: the heading, the lengths below the drawing, and the legend."""
from collections import Counter

from plotting.geometry import PAGE_LEFT, round_length
from plotting.marks import FRAME, INK, TIE, add, add_conflict, add_frame, add_seams, add_stitch, add_tie, path

ROW = 22
# The least length of the scale bar, and the length of the words above the spacing's.
LENGTH, SPACING_WORDS = 100, 150
PANEL_WIDTHS = (150, 310, 310, 230)
COLOURS = {"best": "#1b6e3c", "open": "#8a5a00"}


def counted(number, noun):
    plural = noun + ("es" if noun.endswith("ch") else "s")
    return f"{number:,} {noun if number == 1 else plural}"


def heading(layer):
    return f"{counted(len(layer.pieces), 'piece')} on {counted(layer.settings.masks, 'mask')}"


def meaning(layer, verdict, tied):
    """What the verdict says of other assignments. Those that break a tie or have another mask than a fixed one do not count."""
    if verdict == "open":
        return "The budget ended the search; a cheaper assignment may exist."
    kept = " and ".join(["ties"] * tied + ["fixed masks"] * bool(layer.fixed))
    return f"No other assignment {f'that keeps the {kept}' if kept else 'of these pieces'} costs less."


def summary(layer, result, tied):
    return (f"{counted(result.conflicts, 'conflict')} left, {counted(result.stitches, 'stitch')} used, "
            f"cost {result.cost:,}, {counted(result.steps, 'step')}. {meaning(layer, result.verdict, tied)}")


def add_heading(parent, layer, result, tied):
    add(parent, "rect", x=PAGE_LEFT, y=22, width=64, height=26, rx=4, fill=COLOURS[result.verdict])
    add(parent, "text", result.verdict.upper(), kind="verdict", x=PAGE_LEFT + 32, y=40)
    add(parent, "text", heading(layer), kind="title", x=PAGE_LEFT + 78, y=42)
    add(parent, "text", summary(layer, result, tied), x=PAGE_LEFT, y=70)


def add_length(parent, x, y, length, words, goes_on=False):
    """A bar with its words above, and a tick at each end; an arrow at the end if it goes on."""
    end = x + length
    ticks = path((x, y - 5), (x, y + 5))
    ticks += path((end - 7, y - 5), (end, y), (end - 7, y + 5)) if goes_on else path((end, y - 5), (end, y + 5))
    add(parent, "path", kind="rule", d=path((x, y), (end, y)) + ticks)
    add(parent, "text", words, kind="small", x=x, y=y - 9)


def add_lengths(parent, view, spacing, y):
    """A round length and the spacing, at the scale of the drawing; returns where they end."""
    bar = round_length(LENGTH / view.scale)
    add_length(parent, view.left, y, bar * view.scale, f"{bar:,} nm")
    words, length, room = f"spacing S = {spacing:,} nm", spacing * view.scale, view.right - view.left
    beside = view.left + bar * view.scale + 60
    if beside + max(length, SPACING_WORDS) <= view.right:
        add_length(parent, beside, y, length, words)
    elif length <= room:
        y += 32
        add_length(parent, view.left, y, length, words)
    else:
        y += 32
        add_length(parent, view.left, y, room, f"{words}, more than the drawing is wide", goes_on=True)
    return y + 5


def add_masks(parent, count, masks):
    """A sample of each mask's fill, with the number of its pieces."""
    add(parent, "text", "Masks", kind="head")
    on_mask = Counter(masks)
    for mask in range(count):
        y = (mask + 1) * ROW
        add(parent, "rect", y=y - 13, width=34, height=17, fill=f"url(#mask-{mask})", stroke=INK)
        add(parent, "text", f"{mask}", kind="inside head", x=17, y=y)
        add(parent, "text", counted(on_mask[mask], "piece"), x=44, y=y)
    return count * ROW


def add_marks(parent, mark, notes):
    """A sample of each mark, and notes on pieces that are not drawn as they lie."""
    add(parent, "text", "Marks", kind="head")
    middle = [row * ROW - 4.5 for row in range(7)]
    add_conflict(parent, (4, middle[1]), (30, middle[1]), mark)
    add_conflict(parent, (17, middle[2]), (17, middle[2]), mark)
    add_stitch(parent, (8, middle[3]), (26, middle[3]), mark)
    add(parent, "rect", y=middle[4] - 8, width=34, height=16, fill="#c8c8c8")
    add_seams(parent, path((17, middle[4] - 8), (17, middle[4] + 8)))
    add(parent, "rect", kind="wire", y=middle[4] - 8, width=34, height=16, fill="none")
    for x, y in ((0, middle[5] - 9), (17, middle[5] - 2)):
        add(parent, "rect", kind="wire", x=x, y=y, width=17, height=11, fill="#c8c8c8")
    add_tie(parent, (17, middle[5] - 2), (17, middle[5] + 2), TIE * mark)
    add(parent, "rect", y=middle[6] - 8, width=34, height=16, fill="#c8c8c8")
    add_frame(parent, 0, middle[6] - 8, 34, 16, FRAME * mark)
    words = (
        "conflict left: one mask, too close",
        "conflict left: one mask, overlapping",
        "stitch used: the wire changes mask",
        "one wire, in two pieces",
        "tie: too little contact, so one mask",
        "fixed: the designer set this mask",
    )
    for row, text in enumerate(words, 1):
        add(parent, "text", text, x=44, y=row * ROW)
    for row, note in enumerate(notes, len(words) + 1):
        add(parent, "text", note, kind="small", y=row * ROW)
    return (len(words) + len(notes)) * ROW


def add_rows(parent, title, rows):
    """Words and their values."""
    add(parent, "text", title, kind="head")
    for number, (words, value) in enumerate(rows, 1):
        add(parent, "text", words, y=number * ROW)
        add(parent, "text", value, x=110, y=number * ROW)
    return len(rows) * ROW


def result_rows(layer, result):
    weight, budget = layer.settings.weight, layer.settings.budget
    return [
        ("verdict", result.verdict),
        ("conflicts left", f"{result.conflicts:,}"),
        ("stitches used", f"{result.stitches:,}"),
        ("cost", f"{result.cost:,} = {weight:,} × {result.conflicts:,} + {result.stitches:,}"),
        ("steps", f"{result.steps:,} of at most {budget:,}"),
    ]


def setting_rows(layer, units):
    settings, count = layer.settings, len(layer.pieces)
    pieces = [f"{count:,}"]
    if units < count:
        pieces.append(f"in {counted(units, 'unit')}")
    if layer.fixed:
        pieces.append(f"{len(layer.fixed):,} fixed")
    return [
        ("masks K", f"{settings.masks}"),
        ("spacing S", f"{settings.spacing:,} nm"),
        ("margin M", f"{settings.margin:,} nm"),
        ("weight W", f"{settings.weight:,}"),
        ("budget B", counted(settings.budget, "step")),
        ("pieces n", ", ".join(pieces)),
    ]


def add_legend(parent, layer, result, units, mark, notes, corner, downwards):
    """Four panels from the corner on, one below the other or side by side; returns the lower right end."""
    x, y = corner
    right, bottom = x, y
    panels = [
        lambda panel: add_masks(panel, layer.settings.masks, result.masks),
        lambda panel: add_marks(panel, mark, notes),
        lambda panel: add_rows(panel, "Result", result_rows(layer, result)),
        lambda panel: add_rows(panel, "Settings", setting_rows(layer, units)),
    ]
    for add_panel, width in zip(panels, PANEL_WIDTHS):
        panel = add(parent, "g", transform=f"translate({x:.0f} {y:.0f})")
        height = add_panel(panel)
        right, bottom = max(right, x + width), max(bottom, y + height)
        x, y = (x, y + height + 2 * ROW) if downwards else (x + width, y)
    return right, bottom
