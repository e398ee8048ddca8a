"""Writes a layer text as a GDSII stream with KLayout, and its settings as a settings text.

    klayout -b -r tools/klayout/from_layer.py -rd layer=LAYER -rd settings=SETTINGS -rd out=STREAM

Every piece becomes a box with user property 1, its shape number. `./decompose SETTINGS STREAM` then prints what
`./decompose < LAYER` prints. tools/klayout/check shows it. A layer text with fixed masks is refused, because a stream has
no place for them: without them other masks would be printed.

KLayout 0.28.5 from Debian's package `klayout` was used. `-b` runs it without a window.
"""
import pathlib
import sys

import pya

sys.dont_write_bytecode = True
sys.path.insert(0, str(pathlib.Path(__file__).resolve().parents[1]))
from plotting.layer import BadInput, Layer, read_layer, write_layer

# KLayout sorts the boxes of a layer by where they lie when there are more than 100. A piece has its number from its place
# in the stream, so every 100 pieces get a datatype of their own, which keeps their order.
PIECES_OF_A_DATATYPE = 100
LAYER = 1
NANOMETRE = 0.001


def drawn(pieces):
    """One cell with a box for each piece."""
    layout = pya.Layout()
    layout.dbu = NANOMETRE
    cell = layout.create_cell("TOP")
    for number, piece in enumerate(pieces):
        shapes = cell.shapes(layout.layer(LAYER, number // PIECES_OF_A_DATATYPE))
        shapes.insert(pya.Box(piece.x1, piece.y1, piece.x2, piece.y2), layout.properties_id([[1, str(piece.shape)]]))
    return layout


def save_options():
    """What the window offers at first, but for the dates: without them a layer always gives the same bytes."""
    options = pya.SaveLayoutOptions()
    options.format = "GDS2"
    options.dbu = NANOMETRE
    options.gds2_libname = "LIB"
    options.gds2_multi_xy_records = False
    options.gds2_write_cell_properties = False
    options.gds2_write_file_properties = False
    options.gds2_write_timestamps = False
    return options


def main(layer_file, settings_file, stream_file):
    read = read_layer(layer_file, pathlib.Path(layer_file).read_bytes())
    if read.fixed:
        raise BadInput(f"{layer_file}: a stream cannot have fixed masks; to go without them, take the fixed= lines out")
    drawn(read.pieces).write(stream_file, save_options())
    pathlib.Path(settings_file).write_bytes(write_layer(Layer(read.settings, [], {})))


# KLayout defines these three names from its -rd arguments. An exception ends it with status 1.
main(layer, settings, out)
