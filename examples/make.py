#!/usr/bin/env python3
"""Writes the example sessions, and beside each what is expected of it: the replies, the stream, and the line that a replay of
the stream prints.

Each example is a list of calls. Beside each call stand the reply that WebGL 1.0 asks for, and the commands that the
driver is sent, both written by hand: nothing here runs the tool, and nothing here judges a call.

usage: examples/make.py [FOLDER]      (the folder of this script, where none is given)
"""

import pathlib
import struct
import sys

ARRAY_BUFFER, ELEMENT_ARRAY_BUFFER = 0x8892, 0x8893
STREAM_DRAW, STATIC_DRAW, DYNAMIC_DRAW = 0x88E0, 0x88E4, 0x88E8
NO_ERROR, INVALID_ENUM, INVALID_VALUE, INVALID_OPERATION = 0, 0x0500, 0x0501, 0x0502
BUFFER_SIZE, BUFFER_USAGE = 0x8764, 0x8765
SHORT, INT, FLOAT = 0x1402, 0x1404, 0x1406
VERTEX_ATTRIB_ARRAY_ENABLED, VERTEX_ATTRIB_ARRAY_STRIDE = 0x8622, 0x8624
CURRENT_VERTEX_ATTRIB, VERTEX_ATTRIB_ARRAY_POINTER = 0x8626, 0x8645
VERTEX_ATTRIB_ARRAY_BUFFER_BINDING = 0x889F
UNPACK_ALIGNMENT, UNPACK_FLIP_Y_WEBGL = 0x0CF5, 0x9240
BLEND, CULL_FACE_MODE, FRONT_FACE, DEPTH_WRITEMASK, DEPTH_FUNC = 0x0BE2, 0x0B45, 0x0B46, 0x0B72, 0x0B74
STENCIL_CLEAR_VALUE, VIEWPORT, SCISSOR_BOX, COLOR_CLEAR_VALUE = 0x0B91, 0x0BA2, 0x0C10, 0x0C22
COLOR_WRITEMASK, BLEND_COLOR, MAX_TEXTURE_SIZE = 0x0C23, 0x8005, 0x0D33
FRONT, BACK, FRONT_AND_BACK, CW, ALWAYS, LEQUAL = 0x0404, 0x0405, 0x0408, 0x0900, 0x0207, 0x0203
FUNC_ADD, FUNC_REVERSE_SUBTRACT, KEEP, REPLACE, INCR_WRAP = 0x8006, 0x800B, 0x1E00, 0x1E01, 0x8507
SRC_ALPHA, ONE_MINUS_SRC_ALPHA, ONE, ZERO, CONSTANT_COLOR, CONSTANT_ALPHA = 0x0302, 0x0303, 1, 0, 0x8001, 0x8003
NULL = 0


def words(*numbers):
    return b"".join(struct.pack("<I", number) for number in numbers)


def long(number):
    return struct.pack("<q", number)


def framed(operation, body):
    return words(operation, len(body)) + body


# The records of a session.
def create_buffer():
    return framed(1, b"")


def bind_buffer(target, handle):
    return framed(19, words(target, handle))


def delete_buffer(handle):
    return framed(7, words(handle))


def is_buffer(handle):
    return framed(13, words(handle))


def buffer_size(target, usage, size):
    return framed(20, words(target, usage) + long(size))


def buffer_data(target, usage, data):
    return framed(21, words(target, usage) + data)


def buffer_sub_data(target, offset, data):
    return framed(22, words(target) + long(offset) + data)


def get_buffer_parameter(target, name):
    return framed(23, words(target, name))


def enable_vertex_attrib_array(index):
    return framed(24, words(index))


def disable_vertex_attrib_array(index):
    return framed(25, words(index))


def vertex_attrib_pointer(index, size, kind, normalized, stride, offset):
    return framed(26, struct.pack("<IiIIiq", index, size, kind, normalized, stride, offset))


def vertex_attrib(index, *floats):
    return framed(27, struct.pack("<I4f", index, *floats))


def get_vertex_attrib(index, name):
    return framed(28, words(index, name))


def get_vertex_attrib_offset(index, name):
    return framed(29, words(index, name))


def pixel_store(name, value):
    return framed(56, words(name) + struct.pack("<i", value))


def enable(capability):
    return framed(65, words(capability))


def disable(capability):
    return framed(66, words(capability))


def is_enabled(capability):
    return framed(67, words(capability))


def blend_color(*floats):
    return framed(68, struct.pack("<4f", *floats))


def blend_equation_separate(rgb, alpha):
    return framed(69, words(rgb, alpha))


def blend_func_separate(*factors):
    return framed(70, words(*factors))


def color_mask(*flags):
    return framed(71, words(*flags))


def depth_func(comparison):
    return framed(72, words(comparison))


def depth_mask(flag):
    return framed(73, words(flag))


def stencil_func_separate(face, comparison, reference, mask):
    return framed(74, struct.pack("<IIiI", face, comparison, reference, mask))


def stencil_mask_separate(face, mask):
    return framed(75, words(face, mask))


def stencil_op_separate(face, *operations):
    return framed(76, words(face, *operations))


def cull_face(sides):
    return framed(77, words(sides))


def front_face(winding):
    return framed(78, words(winding))


def viewport(*box):
    return framed(79, struct.pack("<4i", *box))


def scissor(*box):
    return framed(80, struct.pack("<4i", *box))


def clear_color(*floats):
    return framed(81, struct.pack("<4f", *floats))


def clear_stencil(value):
    return framed(82, struct.pack("<i", value))


def get_parameter(name):
    return framed(87, words(name))


def flush():
    return framed(88, b"")


def finish():
    return framed(89, b"")


def get_error():
    return framed(86, b"")


def session(records):
    return b"WGLR" + words(1) + b"".join(records) + framed(0, b"")


# The replies: the code raised, the kind of value, the value.
def done():
    return words(NO_ERROR, 0)


def number(value):
    return words(NO_ERROR, 1, value)


def several(*values):
    return words(NO_ERROR, 2, len(values), *values)


def refused(code):
    return words(code, 0)


# The commands of a stream.
def make_buffer_command(name):
    return framed(1, words(name))


def drop_buffer_command(name):
    return framed(6, words(name))


def bind_buffer_command(target, name):
    return framed(11, words(target, name))


def buffer_size_command(target, usage, size):
    return framed(12, words(target, usage, size))


def buffer_bytes_command(target, offset, data):
    return framed(13, words(target, offset) + data)


def stream(commands):
    return b"ESCS" + words(1) + b"".join(commands)


# A buffer is made, bound, and given two bytes. The driver's name of a handle is two more than it.
BUFFERS = [
    (create_buffer(), number(1), [make_buffer_command(3)]),
    (bind_buffer(ARRAY_BUFFER, 1), done(), [bind_buffer_command(ARRAY_BUFFER, 3)]),
    (
        buffer_data(ARRAY_BUFFER, STATIC_DRAW, b"\xaa\xbb"),
        done(),
        [
            buffer_size_command(ARRAY_BUFFER, STATIC_DRAW, 2),
            buffer_bytes_command(ARRAY_BUFFER, 0, b"\xaa\xbb"),
        ],
    ),
    (get_error(), number(NO_ERROR), []),
]

TRIANGLE = struct.pack("<9f", 0, 0, 0, 1, 0, 0, 0, 1, 0)
INDICES = struct.pack("<3H", 0, 1, 2)

# Two buffers for a triangle, with calls between that WebGL refuses: a refused call changes nothing but the error flag
# of its code, and sends nothing.
REFUSALS = [
    # a handle that was never given
    (bind_buffer(ARRAY_BUFFER, 1), refused(INVALID_OPERATION), []),
    (create_buffer(), number(1), [make_buffer_command(3)]),
    (create_buffer(), number(2), [make_buffer_command(4)]),
    # nothing is bound yet
    (buffer_data(ARRAY_BUFFER, STATIC_DRAW, TRIANGLE), refused(INVALID_OPERATION), []),
    (bind_buffer(ARRAY_BUFFER, 1), done(), [bind_buffer_command(ARRAY_BUFFER, 3)]),
    (
        buffer_data(ARRAY_BUFFER, STATIC_DRAW, TRIANGLE),
        done(),
        [
            buffer_size_command(ARRAY_BUFFER, STATIC_DRAW, 36),
            buffer_bytes_command(ARRAY_BUFFER, 0, TRIANGLE),
        ],
    ),
    # the buffer was bound as an array buffer, and stays one
    (bind_buffer(ELEMENT_ARRAY_BUFFER, 1), refused(INVALID_OPERATION), []),
    (bind_buffer(ELEMENT_ARRAY_BUFFER, 2), done(), [bind_buffer_command(ELEMENT_ARRAY_BUFFER, 4)]),
    (
        buffer_data(ELEMENT_ARRAY_BUFFER, STATIC_DRAW, INDICES),
        done(),
        [
            buffer_size_command(ELEMENT_ARRAY_BUFFER, STATIC_DRAW, 6),
            buffer_bytes_command(ELEMENT_ARRAY_BUFFER, 0, INDICES),
        ],
    ),
    # 1 is no target, and 0x88E1 is no usage
    (bind_buffer(1, NULL), refused(INVALID_ENUM), []),
    (buffer_data(ELEMENT_ARRAY_BUFFER, 0x88E1, INDICES), refused(INVALID_ENUM), []),
    # each code has one flag, and the smallest code that is set comes first
    (get_error(), number(INVALID_ENUM), []),
    (get_error(), number(INVALID_OPERATION), []),
    (get_error(), number(NO_ERROR), []),
    # a buffer may be given no bytes, and then none are sent
    (
        buffer_data(ARRAY_BUFFER, DYNAMIC_DRAW, b""),
        done(),
        [buffer_size_command(ARRAY_BUFFER, DYNAMIC_DRAW, 0)],
    ),
    (bind_buffer(ARRAY_BUFFER, NULL), done(), [bind_buffer_command(ARRAY_BUFFER, 0)]),
    (buffer_data(ARRAY_BUFFER, STREAM_DRAW, b"\x01"), refused(INVALID_OPERATION), []),
    (bind_buffer(ARRAY_BUFFER, 3), refused(INVALID_OPERATION), []),
    (bind_buffer(ARRAY_BUFFER, 1), done(), [bind_buffer_command(ARRAY_BUFFER, 3)]),
    (get_error(), number(INVALID_OPERATION), []),
    (get_error(), number(NO_ERROR), []),
]


# A buffer is given a size and patched, and deleted. A deleted buffer is bound no longer, and its handle names none.
DELETION = [
    (create_buffer(), number(1), [make_buffer_command(3)]),
    (is_buffer(1), number(1), []),
    (bind_buffer(ELEMENT_ARRAY_BUFFER, 1), done(), [bind_buffer_command(ELEMENT_ARRAY_BUFFER, 3)]),
    # a size that no buffer has
    (buffer_size(ELEMENT_ARRAY_BUFFER, STATIC_DRAW, -1), refused(INVALID_VALUE), []),
    (
        buffer_size(ELEMENT_ARRAY_BUFFER, DYNAMIC_DRAW, 8),
        done(),
        [buffer_size_command(ELEMENT_ARRAY_BUFFER, DYNAMIC_DRAW, 8)],
    ),
    (
        buffer_sub_data(ELEMENT_ARRAY_BUFFER, 2, INDICES),
        done(),
        [buffer_bytes_command(ELEMENT_ARRAY_BUFFER, 2, INDICES)],
    ),
    # one byte past the end
    (buffer_sub_data(ELEMENT_ARRAY_BUFFER, 3, INDICES), refused(INVALID_VALUE), []),
    (get_buffer_parameter(ELEMENT_ARRAY_BUFFER, BUFFER_SIZE), number(8), []),
    (get_buffer_parameter(ELEMENT_ARRAY_BUFFER, BUFFER_USAGE), number(DYNAMIC_DRAW), []),
    (delete_buffer(1), done(), [drop_buffer_command(3)]),
    # once more, and of null, it does nothing
    (delete_buffer(1), done(), []),
    (delete_buffer(NULL), done(), []),
    (is_buffer(1), number(0), []),
    (bind_buffer(ELEMENT_ARRAY_BUFFER, 1), refused(INVALID_OPERATION), []),
    (get_buffer_parameter(ELEMENT_ARRAY_BUFFER, BUFFER_SIZE), refused(INVALID_OPERATION), []),
    (get_error(), number(INVALID_VALUE), []),
    (get_error(), number(INVALID_OPERATION), []),
    (get_error(), number(NO_ERROR), []),
]


# An attribute takes its values from a buffer, until the buffer is deleted. None of these calls sends a command.
ATTRIBUTES = [
    (create_buffer(), number(1), [make_buffer_command(3)]),
    # an offset without a buffer
    (vertex_attrib_pointer(2, 3, FLOAT, 0, 16, 4), refused(INVALID_OPERATION), []),
    (bind_buffer(ARRAY_BUFFER, 1), done(), [bind_buffer_command(ARRAY_BUFFER, 3)]),
    (vertex_attrib_pointer(2, 3, FLOAT, 0, 16, 4), done(), []),
    (enable_vertex_attrib_array(2), done(), []),
    # there is no attribute 16, INT is no type, 256 is too large a stride, and 6 is no multiple of a float's size
    (enable_vertex_attrib_array(16), refused(INVALID_VALUE), []),
    (vertex_attrib_pointer(2, 3, INT, 0, 256, 4), refused(INVALID_ENUM), []),
    (vertex_attrib_pointer(2, 3, SHORT, 0, 256, 4), refused(INVALID_VALUE), []),
    (vertex_attrib_pointer(2, 3, FLOAT, 0, 6, 4), refused(INVALID_OPERATION), []),
    (get_vertex_attrib(2, VERTEX_ATTRIB_ARRAY_ENABLED), number(1), []),
    (get_vertex_attrib(2, VERTEX_ATTRIB_ARRAY_STRIDE), number(16), []),
    (get_vertex_attrib_offset(2, VERTEX_ATTRIB_ARRAY_POINTER), several(4, 0), []),
    (get_vertex_attrib(2, VERTEX_ATTRIB_ARRAY_BUFFER_BINDING), number(1), []),
    # a disabled array stays in its buffer, up to the delete of the buffer; the rest stays then too
    (disable_vertex_attrib_array(2), done(), []),
    (get_vertex_attrib(2, VERTEX_ATTRIB_ARRAY_BUFFER_BINDING), number(1), []),
    (delete_buffer(1), done(), [drop_buffer_command(3)]),
    (get_vertex_attrib(2, VERTEX_ATTRIB_ARRAY_BUFFER_BINDING), number(0), []),
    (get_vertex_attrib_offset(2, VERTEX_ATTRIB_ARRAY_POINTER), several(4, 0), []),
    # the words of a constant are kept as they are
    (vertex_attrib(2, 1.0, -0.5, float("inf"), -0.0), done(), []),
    (get_vertex_attrib(2, CURRENT_VERTEX_ATTRIB), several(0x3F800000, 0xBF000000, 0x7F800000, 0x80000000), []),
    (get_vertex_attrib(3, CURRENT_VERTEX_ATTRIB), several(0, 0, 0, 0x3F800000), []),
    (get_error(), number(INVALID_ENUM), []),
    (get_error(), number(INVALID_VALUE), []),
    (get_error(), number(INVALID_OPERATION), []),
    (get_error(), number(NO_ERROR), []),
]


# Every call that only sets or returns state, once at least. None sends a command before something is drawn.
STATE = [
    (enable_vertex_attrib_array(15), done(), []),
    (vertex_attrib_pointer(15, 4, FLOAT, 1, 0, 0), done(), []),
    (vertex_attrib(1, 0.5, -0.5, 2.0, 1.0), done(), []),
    (get_vertex_attrib(1, CURRENT_VERTEX_ATTRIB), several(0x3F000000, 0xBF000000, 0x40000000, 0x3F800000), []),
    (get_vertex_attrib_offset(15, VERTEX_ATTRIB_ARRAY_POINTER), several(0, 0), []),
    (get_vertex_attrib(15, VERTEX_ATTRIB_ARRAY_ENABLED), number(1), []),
    (disable_vertex_attrib_array(15), done(), []),
    (get_vertex_attrib(15, VERTEX_ATTRIB_ARRAY_ENABLED), number(0), []),
    # 3 is no alignment; any number but 0 turns the rows round
    (pixel_store(UNPACK_ALIGNMENT, 1), done(), []),
    (pixel_store(UNPACK_ALIGNMENT, 3), refused(INVALID_VALUE), []),
    (pixel_store(UNPACK_FLIP_Y_WEBGL, -1), done(), []),
    (get_parameter(UNPACK_ALIGNMENT), number(1), []),
    (get_parameter(UNPACK_FLIP_Y_WEBGL), number(1), []),
    (enable(BLEND), done(), []),
    (is_enabled(BLEND), number(1), []),
    (disable(BLEND), done(), []),
    (is_enabled(BLEND), number(0), []),
    (blend_color(1.0, -0.0, float("inf"), 0.25), done(), []),
    (get_parameter(BLEND_COLOR), several(0x3F800000, 0x80000000, 0x7F800000, 0x3E800000), []),
    (blend_equation_separate(FUNC_ADD, FUNC_REVERSE_SUBTRACT), done(), []),
    (blend_func_separate(SRC_ALPHA, ONE_MINUS_SRC_ALPHA, ONE, ZERO), done(), []),
    # the constant colour and the constant alpha value don't go together
    (blend_func_separate(CONSTANT_COLOR, CONSTANT_ALPHA, ONE, ZERO), refused(INVALID_OPERATION), []),
    (color_mask(1, 0, 2, 0), done(), []),
    (get_parameter(COLOR_WRITEMASK), several(1, 0, 1, 0), []),
    (depth_func(LEQUAL), done(), []),
    (get_parameter(DEPTH_FUNC), number(LEQUAL), []),
    (depth_mask(0), done(), []),
    (get_parameter(DEPTH_WRITEMASK), number(0), []),
    (stencil_func_separate(FRONT_AND_BACK, ALWAYS, -1, 0xFF), done(), []),
    (stencil_mask_separate(FRONT, 0x0F), done(), []),
    (stencil_op_separate(BACK, KEEP, REPLACE, INCR_WRAP), done(), []),
    (stencil_op_separate(BACK, KEEP, REPLACE, 1), refused(INVALID_ENUM), []),
    (cull_face(FRONT_AND_BACK), done(), []),
    (get_parameter(CULL_FACE_MODE), number(FRONT_AND_BACK), []),
    (front_face(CW), done(), []),
    (get_parameter(FRONT_FACE), number(CW), []),
    (viewport(-1, 2, 640, 480), done(), []),
    (get_parameter(VIEWPORT), several(0xFFFFFFFF, 2, 640, 480), []),
    (scissor(0, 0, -1, 5), refused(INVALID_VALUE), []),
    (scissor(1, 2, 3, 4), done(), []),
    (get_parameter(SCISSOR_BOX), several(1, 2, 3, 4), []),
    (clear_color(0.0, 0.5, 1.0, 1.0), done(), []),
    (get_parameter(COLOR_CLEAR_VALUE), several(0, 0x3F000000, 0x3F800000, 0x3F800000), []),
    (clear_stencil(-2), done(), []),
    (get_parameter(STENCIL_CLEAR_VALUE), number(0xFFFFFFFE), []),
    (get_parameter(MAX_TEXTURE_SIZE), number(2048), []),
    (get_parameter(1), refused(INVALID_ENUM), []),
    (flush(), done(), []),
    (finish(), done(), []),
    (get_error(), number(INVALID_ENUM), []),
    (get_error(), number(INVALID_VALUE), []),
    (get_error(), number(INVALID_OPERATION), []),
    (get_error(), number(NO_ERROR), []),
]


def main():
    here = pathlib.Path(__file__).parent
    folder = pathlib.Path(sys.argv[1]) if len(sys.argv) > 1 else here
    examples = {"buffers": BUFFERS, "refusals": REFUSALS, "deletion": DELETION, "attributes": ATTRIBUTES, "state": STATE}
    for name, calls in examples.items():
        records = [record for record, _, _ in calls]
        replies = [reply for _, reply, _ in calls]
        commands = [command for _, _, some in calls for command in some]
        (folder / f"{name}.wglr").write_bytes(session(records))
        (folder / f"{name}.replies").write_bytes(b"".join(replies))
        (folder / f"{name}.stream").write_bytes(stream(commands))
        line = f"commands {len(commands)} draws 0 clears 0 mipmaps 0\n"
        (folder / f"{name}.replayed").write_text(line)


if __name__ == "__main__":
    main()
