"""The panel file of document 01, with the further kinds of face of document 02, for the tools: its limits, its records, a writer, and a reader that refuses by the same numbers.

A corner is (position, texture point, normal, mark): None where an index is missing, and 0 where there is no mark.

Outside the proofs. The numbers of a refusal have their words in refusals.txt, which ./meshsheet and ./meshclean read too; LONGEST in
them is how many bytes a file may have, for these tools as many as have a sheet.
"""
import math
import os
import struct
import sys

ENTRIES = 2048
CORNERS = 4096
CORNERS_OF_A_FACE = 300
BYTES = 65536
MISSING = 0xFFFFFFFF

END, FACE, LARGE_FACE, MARKED_FACE = 0, 4, 5, 6
# The kinds of face: how many bytes the count has, the fewest corners and the most that a length may say, the most that are taken, and the
# numbers of a corner: a mark is the fourth.
FACES = {FACE: (1, 0, 255, 32, 3), LARGE_FACE: (2, 33, 5461, CORNERS_OF_A_FACE, 3), MARKED_FACE: (2, 3, 4095, CORNERS_OF_A_FACE, 4)}
# Marks that have a name. A mark is any number of four bytes; no rule asks which.
MARKS = {"dart": 1, "notch": 2}
LARGEST_MARK = 0xFFFFFFFF
# Positions, texture points and normals: the number of the record, and how many coordinates it holds.
WIDTHS = {1: 3, 2: 2, 3: 3}
HEADER = 4


class Refused(Exception):
    """What cannot be taken, in one plain sentence."""


def plain(text, most=None):
    """Text that a terminal can show: no control character, and only the start of what is long."""
    cut = text if most is None else text[:most]
    return "".join(c if c.isprintable() else ascii(c)[1:-1] for c in cut)


def quoted(word):
    """A word in quotes, and only the start of a long one."""
    return f"'{plain(word, 40)}'" + (".." if len(word) > 40 else "")


def tell(tool, text):
    print(f"{tool}: {plain(text)}", file=sys.stderr)


def record(kind, body):
    return struct.pack("<HH", len(body), kind) + body


def entry_record(kind, numbers):
    return record(kind, struct.pack(f"<{WIDTHS[kind]}d", *numbers))


# The headers of the records that can come first in a panel file; no drawing begins with one.
FIRSTS = [entry_record(kind, [0.0] * width)[:HEADER] for kind, width in WIDTHS.items()]


def name_of_mark(mark):
    """A mark in words: its number, and its name where it has one."""
    return next((f"{mark}, {name}" for name, number in MARKS.items() if number == mark), str(mark))


def kind_of_face(corners):
    """The kind that a face of these corners is written with: by its marks, and then by its size."""
    if any(corner[3] for corner in corners):
        return MARKED_FACE
    return FACE if len(corners) <= FACES[FACE][3] else LARGE_FACE


def face_record(corners):
    """A face of corners; one that is given without its mark has none."""
    corners = [(*corner, 0)[:4] for corner in corners]
    kind = kind_of_face(corners)
    count, width = FACES[kind][0], FACES[kind][4]
    flat = [MISSING if i is None else i for corner in corners for i in corner[:width]]
    return record(kind, len(corners).to_bytes(count, "little") + struct.pack(f"<{len(flat)}I", *flat))


def size_of_entry(kind):
    return HEADER + 8 * WIDTHS[kind]


def size_of_face(corners):
    kind = kind_of_face(corners)
    return HEADER + FACES[kind][0] + 4 * FACES[kind][4] * len(corners)


def words_of(number):
    """What a refusal means for a file."""
    with open(os.path.join(os.path.dirname(os.path.abspath(__file__)), "refusals.txt"), encoding="utf-8") as file:
        texts = dict(line.rstrip("\n").split(" ", 1) for line in file)
    return texts.get(str(number), "").replace("LONGEST", f"{BYTES:,}")


def refuse(number):
    raise Refused(f"refused {number}: {words_of(number)}")


def wrong_length(kind, length):
    if kind in FACES:
        count, fewest, most, _, width = FACES[kind]
        return (length - count) % (4 * width) != 0 or not fewest <= (length - count) // (4 * width) <= most
    return length != (0 if kind == END else 8 * WIDTHS[kind])


def records_of(data):
    """The records in front of the end record, kind and body, in the document's order of refusals."""
    at = 0
    while True:
        if len(data) < at + HEADER:
            refuse(11)
        length, kind = struct.unpack_from("<HH", data, at)
        at += HEADER
        if kind not in (END, *WIDTHS, *FACES) or wrong_length(kind, length):
            refuse(12)
        if len(data) < at + length:
            refuse(11)
        if kind == END:
            break
        yield kind, data[at : at + length]
        at += length
    if at != len(data):
        refuse(13)


def face_of(kind, body):
    """The corners of a face of this kind; a kind that has no marks gives marks of 0."""
    count, _, _, most, width = FACES[kind]
    corners = int.from_bytes(body[:count], "little")
    if len(body) != count + 4 * width * corners:
        refuse(12)
    flat = struct.unpack(f"<{width * corners}I", body[count:])
    marks = flat[3::width] if kind == MARKED_FACE else [0] * corners
    if kind == MARKED_FACE and not any(marks):
        refuse(12)
    if corners > most:
        refuse(3)
    indices = [None if i == MISSING else i for i in flat]
    return [(*indices[width * k : width * k + 3], mark) for k, mark in enumerate(marks)]


def read(data):
    """Entries by kind, and the faces as they stand in the file: (number of the face record, counted from 0, and its corners)."""
    if len(data) > BYTES:
        refuse(1)
    entries = {kind: [] for kind in WIDTHS}
    faces, seen, corners = [], 0, 0
    for kind, body in records_of(data):
        if kind not in FACES:
            entries[kind].append(struct.unpack(f"<{WIDTHS[kind]}d", body))
            if not all(map(math.isfinite, entries[kind][-1])):
                refuse(14)
            if len(entries[kind]) > ENTRIES:
                refuse(1)
            continue
        face = face_of(kind, body)
        if len(face) >= 3:
            corners += len(face)
            if corners > CORNERS:
                refuse(1)
            faces.append((seen, face))
        seen += 1
    for _, face in faces:
        for corner in face:
            for i, kind in zip(corner, WIDTHS):
                if (i is None and kind == 1) or (i is not None and i >= len(entries[kind])):
                    refuse(5)
    return entries, faces
