"""Looking at a cover from a side: where its points fall, what hides them, and which two sides show most of the marked edges.

Outside the proofs; for draw_hems.
"""
import math

SIZE = 1.0  # half the height and width that a cover is scaled to
NEARER = 1e-4  # cloth that is nearer than this much hides a point
CELLS = 48


def scaled(points):
    """The points moved and scaled into a cube round the origin."""
    bounds = []
    for axis in range(3):
        values = [p[axis] for p in points] or [0.0]
        bounds.append((min(values), max(values)))
    half = max(high / 2 - low / 2 for low, high in bounds) or 1.0
    middle = [low / 2 + high / 2 for low, high in bounds]
    return [tuple((p[a] - middle[a]) / half * SIZE for a in range(3)) for p in points]


def between(a, b, t):
    return tuple(x + (y - x) * t for x, y in zip(a, b))


class View:
    """The cover from a side, given by two angles in degrees; x to the right, y up, and depth toward the one who looks."""

    def __init__(self, points, rings, around, above):
        self.around, self.above = around, above
        a, e = math.radians(around), math.radians(above)
        self.right = (-math.sin(a), math.cos(a), 0.0)
        self.toward = (math.cos(e) * math.cos(a), math.cos(e) * math.sin(a), math.sin(e))
        d, r = self.toward, self.right
        self.up = (d[1] * r[2] - d[2] * r[1], d[2] * r[0] - d[0] * r[2], d[0] * r[1] - d[1] * r[0])
        self.flat = [self.seen(p) for p in points]
        self.cells = {}
        for ring in rings:
            for b, c in zip(ring[1:], ring[2:]):
                self.put((self.flat[ring[0]], self.flat[b], self.flat[c]))

    def seen(self, point):
        return tuple(sum(x * y for x, y in zip(point, axis)) for axis in (self.right, self.up, self.toward))

    def cell(self, value):
        return int((value / SIZE + 2) / 4 * CELLS)

    def put(self, triangle):
        (ax, ay, _), (bx, by, _), (cx, cy, _) = triangle
        area = (bx - ax) * (cy - ay) - (by - ay) * (cx - ax)
        if abs(area) < 1e-9:
            return
        for i in range(self.cell(min(ax, bx, cx)), self.cell(max(ax, bx, cx)) + 1):
            for j in range(self.cell(min(ay, by, cy)), self.cell(max(ay, by, cy)) + 1):
                self.cells.setdefault((i, j), []).append((triangle, area))

    def hidden(self, point):
        """Whether cloth stands in front of this point of the view."""
        x, y, depth = point
        for ((ax, ay, az), (bx, by, bz), (cx, cy, cz)), area in self.cells.get((self.cell(x), self.cell(y)), ()):
            u = ((x - ax) * (cy - ay) - (y - ay) * (cx - ax)) / area
            v = ((bx - ax) * (y - ay) - (by - ay) * (x - ax)) / area
            if u > 1e-6 and v > 1e-6 and u + v < 1 - 1e-6 and az + u * (bz - az) + v * (cz - az) > depth + NEARER:
                return True
        return False

    def pieces(self, a, b, steps):
        """The edge from a to b as pieces (from, to, hidden): as long as nothing changes, one piece."""
        p, q = self.flat[a], self.flat[b]
        out = []
        for k in range(steps):
            hidden = self.hidden(between(p, q, (k + 0.5) / steps))
            if out and out[-1][2] == hidden:
                out[-1] = (out[-1][0], between(p, q, (k + 1) / steps), hidden)
            else:
                out.append((between(p, q, k / steps), between(p, q, (k + 1) / steps), hidden))
        return out


def sides(points):
    """The sides to choose from; a cover that lies in a plane of the axes is looked at straight on."""
    for axis, side in ((2, (-90, 90)), (1, (-90, 0)), (0, (0, 0))):
        values = [p[axis] for p in points]
        if max(values) - min(values) < 1e-6:
            return [side]
    return [(around, above) for above in (30, -30, 55) for around in (-60, -30, 30, 60, 120, 150, 210, 240)]


def area_of(loop):
    """Twice the area that a closed line spans, as a vector across it."""
    out = [0.0, 0.0, 0.0]
    for (ax, ay, az), (bx, by, bz) in zip(loop, loop[1:] + loop[:1]):
        out[0] += ay * bz - az * by
        out[1] += az * bx - ax * bz
        out[2] += ax * by - ay * bx
    return out


def openness(view, points, edges):
    """How far these edges look as large as they are: by the area that they span, or by their length where they span none."""
    across = area_of([points[a] for a, _ in edges])
    whole = math.hypot(*across)
    if len(edges) > 2 and whole > 1e-9:
        return abs(sum(x * y for x, y in zip(across, view.toward))) / whole
    length = sum(math.dist(points[a], points[b]) for a, b in edges)
    return sum(math.dist(view.flat[a][:2], view.flat[b][:2]) for a, b in edges) / length if length else 0.0


def shown(view, points, edges):
    """How well these edges are seen from here, 0 to 1: the part that no cloth hides, less where they are seen from their side."""
    some = edges[:: len(edges) // 40 + 1]
    free = sum(
        not view.hidden(between(view.flat[a], view.flat[b], t)) for a, b in some for t in (0.2, 0.5, 0.8)
    )
    liked = 1.0 if view.above == 30 else 0.95
    return free / (3 * len(some)) * (0.3 + 0.7 * openness(view, points, edges)) * liked


def best_views(points, rings, loops):
    """The side that shows these marks best, each a list of edges, and the one from the back that shows best what it leaves; one alone
    for a flat cover."""
    few = loops[:: len(loops) // 60 + 1]
    views = [View(points, rings, *side) for side in sides(points)]
    if len(views) == 1:
        return views
    sights = [[shown(view, points, edges) for edges in few] for view in views]
    first = max(range(len(views)), key=lambda k: round(sum(sights[k]), 6))
    turns = [(view.around - views[first].around) % 360 for view in views]

    def both(k):
        return round(sum(max(pair) for pair in zip(sights[k], sights[first])) + 0.05 * (turns[k] == 180 and views[k].above == 30), 6)

    return [views[first], views[max((k for k, turn in enumerate(turns) if 120 <= turn <= 240), key=both)]]
