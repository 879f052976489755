#!/usr/bin/env python3
"""Prints a session's calls with their replies, and the commands of a stream: the bytes, and what they say.

usage: examples/show.py SESSION REPLIES STREAM
"""

import pathlib
import struct
import sys

CALLS = {
    1: "createBuffer",
    7: "deleteBuffer",
    13: "isBuffer",
    19: "bindBuffer",
    20: "bufferSize",
    21: "bufferData",
    22: "bufferSubData",
    23: "getBufferParameter",
    24: "enableVertexAttribArray",
    25: "disableVertexAttribArray",
    26: "vertexAttribPointer",
    27: "vertexAttrib",
    28: "getVertexAttrib",
    29: "getVertexAttribOffset",
    56: "pixelStorei",
    65: "enable",
    66: "disable",
    67: "isEnabled",
    68: "blendColor",
    69: "blendEquationSeparate",
    70: "blendFuncSeparate",
    71: "colorMask",
    72: "depthFunc",
    73: "depthMask",
    74: "stencilFuncSeparate",
    75: "stencilMaskSeparate",
    76: "stencilOpSeparate",
    77: "cullFace",
    78: "frontFace",
    79: "viewport",
    80: "scissor",
    81: "clearColor",
    82: "clearStencil",
    86: "getError",
    87: "getParameter",
    88: "flush",
    89: "finish",
}
COMMANDS = {1: "MakeBuffer", 6: "DropBuffer", 11: "BindBuffer", 12: "BufferSize", 13: "BufferBytes"}
FIELDS = {
    "createBuffer": [],
    "deleteBuffer": ["handle"],
    "isBuffer": ["handle"],
    "bindBuffer": ["target", "handle"],
    "bufferSize": ["target", "usage", "long"],
    "bufferData": ["target", "usage"],
    "bufferSubData": ["target", "long"],
    "getBufferParameter": ["target", "parameter"],
    "enableVertexAttribArray": ["index"],
    "disableVertexAttribArray": ["index"],
    "vertexAttribPointer": ["index", "int", "type", "normalized", "int", "long"],
    "vertexAttrib": ["index", "float", "float", "float", "float"],
    "getVertexAttrib": ["index", "attribute"],
    "getVertexAttribOffset": ["index", "attribute"],
    "pixelStorei": ["pname", "int"],
    "enable": ["capability"],
    "disable": ["capability"],
    "isEnabled": ["capability"],
    "blendColor": ["float"] * 4,
    "blendEquationSeparate": ["word"] * 2,
    "blendFuncSeparate": ["word"] * 4,
    "colorMask": ["flag"] * 4,
    "depthFunc": ["word"],
    "depthMask": ["flag"],
    "stencilFuncSeparate": ["word", "word", "int", "word"],
    "stencilMaskSeparate": ["word"] * 2,
    "stencilOpSeparate": ["word"] * 4,
    "cullFace": ["word"],
    "frontFace": ["word"],
    "viewport": ["int"] * 4,
    "scissor": ["int"] * 4,
    "clearColor": ["float"] * 4,
    "clearStencil": ["int"],
    "getError": [],
    "getParameter": ["pname"],
    "flush": [],
    "finish": [],
    "MakeBuffer": ["name"],
    "DropBuffer": ["name"],
    "BindBuffer": ["target", "name"],
    "BufferSize": ["target", "usage", "size"],
    "BufferBytes": ["target", "offset"],
}
WORDS = {
    "target": {0x8892: "ARRAY_BUFFER", 0x8893: "ELEMENT_ARRAY_BUFFER"},
    "usage": {0x88E0: "STREAM_DRAW", 0x88E4: "STATIC_DRAW", 0x88E8: "DYNAMIC_DRAW"},
    "parameter": {0x8764: "BUFFER_SIZE", 0x8765: "BUFFER_USAGE"},
    "type": {0x1400: "BYTE", 0x1401: "UNSIGNED_BYTE", 0x1402: "SHORT", 0x1403: "UNSIGNED_SHORT", 0x1406: "FLOAT"},
    "attribute": {
        0x8622: "VERTEX_ATTRIB_ARRAY_ENABLED",
        0x8623: "VERTEX_ATTRIB_ARRAY_SIZE",
        0x8624: "VERTEX_ATTRIB_ARRAY_STRIDE",
        0x8625: "VERTEX_ATTRIB_ARRAY_TYPE",
        0x8626: "CURRENT_VERTEX_ATTRIB",
        0x8645: "VERTEX_ATTRIB_ARRAY_POINTER",
        0x886A: "VERTEX_ATTRIB_ARRAY_NORMALIZED",
        0x889F: "VERTEX_ATTRIB_ARRAY_BUFFER_BINDING",
    },
    "capability": {
        0x0B44: "CULL_FACE",
        0x0B71: "DEPTH_TEST",
        0x0B90: "STENCIL_TEST",
        0x0BD0: "DITHER",
        0x0BE2: "BLEND",
        0x0C11: "SCISSOR_TEST",
        0x8037: "POLYGON_OFFSET_FILL",
        0x809E: "SAMPLE_ALPHA_TO_COVERAGE",
        0x80A0: "SAMPLE_COVERAGE",
    },
    "pname": {
        0x0B45: "CULL_FACE_MODE",
        0x0B46: "FRONT_FACE",
        0x0B72: "DEPTH_WRITEMASK",
        0x0B74: "DEPTH_FUNC",
        0x0B91: "STENCIL_CLEAR_VALUE",
        0x0BA2: "VIEWPORT",
        0x0C10: "SCISSOR_BOX",
        0x0C22: "COLOR_CLEAR_VALUE",
        0x0C23: "COLOR_WRITEMASK",
        0x0CF5: "UNPACK_ALIGNMENT",
        0x0D05: "PACK_ALIGNMENT",
        0x0D33: "MAX_TEXTURE_SIZE",
        0x8005: "BLEND_COLOR",
        0x84E8: "MAX_RENDERBUFFER_SIZE",
        0x851C: "MAX_CUBE_MAP_TEXTURE_SIZE",
        0x8869: "MAX_VERTEX_ATTRIBS",
        0x8872: "MAX_TEXTURE_IMAGE_UNITS",
        0x8894: "ARRAY_BUFFER_BINDING",
        0x8895: "ELEMENT_ARRAY_BUFFER_BINDING",
        0x8B4C: "MAX_VERTEX_TEXTURE_IMAGE_UNITS",
        0x8B4D: "MAX_COMBINED_TEXTURE_IMAGE_UNITS",
        0x8DFB: "MAX_VERTEX_UNIFORM_VECTORS",
        0x8DFC: "MAX_VARYING_VECTORS",
        0x8DFD: "MAX_FRAGMENT_UNIFORM_VECTORS",
        0x9240: "UNPACK_FLIP_Y_WEBGL",
        0x9241: "UNPACK_PREMULTIPLY_ALPHA_WEBGL",
        0x9243: "UNPACK_COLORSPACE_CONVERSION_WEBGL",
    },
    "handle": {0: "null"},
    "error": {
        0: "NO_ERROR",
        0x0500: "INVALID_ENUM",
        0x0501: "INVALID_VALUE",
        0x0502: "INVALID_OPERATION",
        0x0505: "OUT_OF_MEMORY",
        0x0506: "INVALID_FRAMEBUFFER_OPERATION",
    },
}

HEXADECIMAL = ("target", "usage", "parameter", "pname", "type", "attribute", "capability", "word", "error")
# the fields that aren't words: how they are packed
PACKED = {"int": "<i", "long": "<q", "float": "<f"}


def word(data, at):
    return struct.unpack_from("<I", data, at)[0]


def spelled(kind, value):
    plain = f"0x{value:04X}" if kind in HEXADECIMAL else str(value)
    return WORDS.get(kind, {}).get(value, plain)


def taken(body, fields):
    """The arguments that a body begins with, and the bytes behind them."""
    arguments, at = [], 0
    for field in fields:
        if field in PACKED:
            number = struct.unpack_from(PACKED[field], body, at)[0]
            arguments.append(f"{number:g}" if field == "float" else str(number))
            at += struct.calcsize(PACKED[field])
        elif field == "flag":
            arguments.append("true" if word(body, at) else "false")
            at += 4
        else:
            arguments.append(spelled(field, word(body, at)))
            at += 4
    return arguments, body[at:]


def framed(data, names):
    """The name, the arguments and the bytes of each record or command after the header."""
    at = 8
    while at + 8 <= len(data):
        operation, size = word(data, at), word(data, at + 4)
        body = data[at + 8 : at + 8 + size]
        if (operation, size) == (0, 0) or len(body) < size:
            return
        name = names.get(operation, f"operation {operation}")
        arguments, tail = taken(body, FIELDS.get(name, []))
        if name in ("bufferData", "bufferSubData", "BufferBytes"):
            arguments.append(f"{len(tail)} bytes")
        yield name, f"{name}({', '.join(arguments)})", data[at : at + 8 + size]
        at += 8 + size


def replied(data, at, name):
    """What the reply at this byte says, and its size."""
    raised, tag = word(data, at), word(data, at + 4)
    if raised:
        return f"raises {spelled('error', raised)}", 8
    if tag == 0:
        return "done", 8
    value = word(data, at + 8)
    if tag == 2:
        items = [f"0x{word(data, at + 12 + 4 * i):X}" for i in range(value)]
        return f"[{', '.join(items)}]", 12 + 4 * value
    return spelled("error" if name == "getError" else "number", value), 12


def shown(data):
    text = data[:40].hex(" ", -4)
    return text if len(data) <= 40 else f"{text} .."


def main():
    session, replies, stream = (pathlib.Path(path).read_bytes() for path in sys.argv[1:4])
    print("calls and replies")
    at = 0
    for name, call, _ in framed(session, CALLS):
        if at + 8 > len(replies):
            print(f"  {call:<58} no reply")
            continue
        said, size = replied(replies, at, name)
        print(f"  {call:<58} {said:<27} {shown(replies[at:at + size])}")
        at += size
    print("commands")
    for _, command, data in framed(stream, COMMANDS):
        print(f"  {command:<58} {shown(data)}")


if __name__ == "__main__":
    main()
