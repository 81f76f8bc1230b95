"""Covers that take the product's stack deepest, for tools/stack: each has as many faces of 300 corners as fit, folded in a way of its own.

Only the splitting of a larger face calls itself; the rows of all else have one length, whatever the cover is. Where the row begins with equal
corners they are passed over at one level. Of all rings of up to 12 corners, each tried, the deepest are split at three quarters as many levels as
they have corners; `nested` is made as they are, and goes 225 levels deep. That no ring of 300 goes deeper is not proved. The others are what one
would think of first.
"""
import struct

MISSING = 0xFFFFFFFF
RING = 300
FACES = 13


def record(kind, body):
    return struct.pack("<HH", len(body), kind) + body


def position(i):
    return record(1, struct.pack("<3d", i, i % 7, i % 11))


def face(corners):
    body = b"".join(struct.pack("<3I", p, MISSING, MISSING) for p in corners)
    if len(corners) <= 32:
        return record(4, bytes([len(corners)]) + body)
    return record(5, struct.pack("<H", len(corners)) + body)


def marked_face(corners):
    """The same with a mark on each corner."""
    return record(6, struct.pack("<H", len(corners)) + b"".join(struct.pack("<4I", p, MISSING, MISSING, 1) for p in corners))


def cover(ring):
    """A triangle without marks and one with them, and FACES faces with the ring's corners: a face of each kind."""
    last = max(ring)
    faces = face([last, last + 1, last + 2]) + marked_face([last + 2, last + 1, last]) + face(ring) * FACES
    return b"".join(position(i) for i in range(last + 3)) + faces + record(0, b"")


def nested(turns):
    """Each position three times in a row, and then back to the first one; two of another position in front."""
    there = [0, 0] + [k for turn in range(1, turns + 1) for k in [turn] * 3] + [turns + 1] * 3
    return [turns + 2] * 2 + there + list(range(turns, -1, -1))


# Name, and the positions of a ring.
RINGS = {
    "equal": [0] * RING,
    "nested": nested(73),
    "aab": [k % 3 // 2 for k in range(RING)],
    "pairs": [k // 2 for k in range(RING)],
    "threes": [k // 3 for k in range(RING)],
    "ab": [k % 2 for k in range(RING)],
    "there_and_back": [min(k, RING - 1 - k) for k in range(RING)],
    "not_folded": list(range(RING)),
}

WORDS = {
    "equal": "all corners at one position",
    "nested": "each position three times in a row, then back to the first one",
    "aab": "two positions, the first twice and the second once, again and again",
    "pairs": "each position twice in a row",
    "threes": "each position three times in a row",
    "ab": "two positions in turn",
    "there_and_back": "150 positions and back again",
    "not_folded": "300 positions",
}


def covers():
    return {name: cover(ring) for name, ring in RINGS.items()}
