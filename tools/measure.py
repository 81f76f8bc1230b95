"""Lengths of hems in tenths of a millimetre, as document 02, CR 13, has them, for obj2hems, draw_hems and the tests.

Outside the proofs. A drawing is taken to be in millimetres. A coordinate becomes a whole number of tenths: the nearest one, and of two that are as
near the one farther from zero, so that a cover and its mirror image have the same lengths. It is worked out of the drawing's own digits: in
0.95 a half is a half, which it is not in the f64 that a panel file has for it.
"""
import decimal
import math

# How far a coordinate may lie from zero, either way, and what four bytes with a sign hold.
REACH = 1_000_000
FOUR_BYTES = range(-(2**31), 2**31)
TENTH = decimal.Decimal("0.1")


def value_of(text):
    """A finite number as it is written, exactly."""
    try:
        return decimal.Decimal(text)
    except decimal.InvalidOperation:
        return decimal.Decimal(0)  # an exponent of some twenty digits: a finite number that has one is as good as zero


def tenths(text):
    """The tenths of a millimetre nearest to a finite number as it is written; None where four bytes don't hold them."""
    value = value_of(text)
    if value.copy_abs() > FOUR_BYTES.stop:
        return None
    whole = int(value.quantize(TENTH, decimal.ROUND_HALF_UP).scaleb(1))
    return whole if whole in FOUR_BYTES else None


def is_whole(text):
    """Whether a number that four bytes hold is a whole number of tenths as it is written, so that nothing is rounded."""
    return decimal.Decimal(tenths(text)).scaleb(-1) == value_of(text)


def digits(point):
    """A point of f64, of which no text is left, as it might be written: by the fewest digits that stand for its bits."""
    return tuple(map(repr, point))


def in_reach(triple):
    return all(whole is not None and abs(whole) <= REACH for whole in triple)


def edge_length(a, b):
    """The greatest whole number whose square is at most the squared distance."""
    return math.isqrt(sum((x - y) ** 2 for x, y in zip(a, b)))


def hem_length(triples, hem):
    """The sum over the edges of a hem: from each position to the next, and from the last to the first."""
    return sum(edge_length(triples[p], triples[q]) for p, q in zip(hem, hem[1:] + hem[:1]))


def in_millimetres(length):
    return f"{length // 10:,}.{length % 10} mm"
