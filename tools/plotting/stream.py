"""The pieces of a GDSII stream as a layer text, so that they can be drawn.

Streams are judged by the program `layer`. What is read here is a stream that it has accepted, and of that only the
rectangles and the shape numbers.
"""
import struct

from plotting.layer import BadInput, Layer, Piece, read_layer, write_layer

# The types of the records that are looked at.
ENDLIB, XY, PROPVALUE = 0x04, 0x10, 0x2C


def records(stream):
    """The type and the data of each record up to ENDLIB."""
    at, kind = 0, None
    while kind != ENDLIB:
        length, kind = struct.unpack_from(">HBx", stream, at)
        if length < 4:
            raise ValueError("a record ends before its data begin")
        yield kind, stream[at + 4:at + length]
        at += length


def rectangle(data):
    """The lower left and the upper right corner of an outline that may begin at any corner."""
    numbers = struct.unpack(">10i", data)
    across, upwards = numbers[0::2], numbers[1::2]
    return min(across), min(upwards), max(across), max(upwards)


def pieces(stream):
    """The pieces in their order. The shape number stands after the outline."""
    found, corners = [], ()
    for kind, data in records(stream):
        if kind == XY:
            corners = rectangle(data)
        elif kind == PROPVALUE:
            found.append(Piece(int(data.rstrip(b"\0")), *corners))
    return found


def layer_text(settings_path, stream_path):
    """The layer text with these settings and these pieces."""
    settings = read_layer(settings_path, settings_path.read_bytes()).settings
    try:
        found = pieces(stream_path.read_bytes())
    except (struct.error, TypeError, ValueError) as error:
        raise BadInput(f"{stream_path}: it is no stream that was decomposed: {error}") from error
    return write_layer(Layer(settings, found, {}))
