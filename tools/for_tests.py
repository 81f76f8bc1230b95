"""What the tests of the tools share: a tool as a module, and a second, plain reading of what obj2panel writes, and of what hemsheet prints."""
import importlib.machinery
import importlib.util
import os
import struct

import cover as rules
import measure
import panel_format

HERE = os.path.dirname(os.path.abspath(__file__))
EXAMPLES = os.path.join(os.path.dirname(HERE), "examples")


def tool(name):
    """A tool of this folder, which has no ending, as a module."""
    loader = importlib.machinery.SourceFileLoader(name, os.path.join(HERE, name))
    module = importlib.util.module_from_spec(importlib.util.spec_from_loader(name, loader))
    loader.exec_module(module)
    return module


obj2panel = tool("obj2panel")


def records(data):
    """The records of a panel file: kind and body."""
    out = []
    while data:
        length, kind = struct.unpack_from("<HH", data)
        out.append((kind, data[4 : 4 + length]))
        data = data[4 + length :]
    return out


def faces(data):
    """The faces of a panel file, as lists of corners: of three numbers, and of four where the face has marks."""
    out = []
    for kind, body in records(data):
        if kind in (4, 5, 6):
            front, width = (1, 3) if kind == 4 else (2, kind - 2)
            count = int.from_bytes(body[:front], "little")
            flat = struct.unpack(f"<{width * count}I", body[front:])
            out.append([flat[i : i + width] for i in range(0, len(flat), width)])
    return out


def triples_of(data):
    """The triples of a hem file, as they stand behind its panel file."""
    behind = data[4 + int.from_bytes(data[:4], "little") :]
    return list(struct.iter_unpack("<3i", behind))


def hems_of(data):
    """Of each hem of a hem file its panel, its number of edges and its length; or Refused, by the numbers of document 02, CR 13, in its order."""
    if len(data) > panel_format.BYTES:
        panel_format.refuse(1)
    count = int.from_bytes(data[:4], "little")
    if len(data) < 4 or len(data) < 4 + count:
        panel_format.refuse(11)
    entries, faces = panel_format.read(data[4 : 4 + count])
    if len(data) != 4 + count + 12 * len(entries[1]):
        panel_format.refuse(18)
    triples = triples_of(data)
    if not all(map(measure.in_reach, triples)):
        panel_format.refuse(19)
    rings = rules.grouped([(number, [corner[0] for corner in face]) for number, face in faces])
    cover = rules.cover_of(range(len(triples)), rings, None)
    if cover.verdict not in ("Oriented", "Closed"):
        panel_format.refuse(10)
    return [(cover.panel_of(hem), len(hem), measure.hem_length(triples, hem)) for hem in cover.hems]


def hem_sheet(data):
    """What hemsheet has to print of a file, by this reading. The cover is taken as it is, and not cleaned."""
    try:
        return "".join("hem {} {} {}\n".format(*hem) for hem in hems_of(data))
    except panel_format.Refused as refused:
        return str(refused).split(":")[0] + "\n"


def panel(text, **options):
    return obj2panel.convert(text.encode(), **options)[0]


def notes(text, **options):
    return obj2panel.convert(text.encode(), **options)[1]


FACE = "f 1 1 1\n"
TRIANGLE = "v 0 0 0\nv 1 0 0\nv 0 1 0\n"
