"""The picture of a cover as SVG: cloth tinted by panel, marked edges in colour and numbered, a sign in each corner that has a seam mark, and a key below.

Outside the proofs; for draw_hems.
"""
import math
from dataclasses import dataclass
from xml.sax.saxutils import escape

from panel_format import plain
from views import SIZE, area_of, best_views, between, scaled

MARK = "made by draw_hems"
HEMS = ("#c1121f", "#1d4ed8", "#15803d", "#b45309", "#7e22ce", "#0e7490", "#be185d", "#4d7c0f", "#334155", "#9a3412")
TINTS = ("#f6e7bd", "#cfe3f5", "#d9f0d3", "#f5d5dd", "#e3d7f4", "#cdeeea", "#f7dcc4", "#e4e4e0")
PANE, HEAD, GAP, ROW = 470, 64, 20, 20
MOST_ROWS = 40
MOST_BADGES = 60  # with more hems than this a small number must do, and positions have none


@dataclass
class Mark:
    """Edges of one colour, with the label that stands at them (empty for none) and the line of the key."""

    label: str
    colour: str
    edges: list
    text: str
    square: bool = False


@dataclass
class Sign:
    """A seam mark: its number, the corners that have it, each a face and a place in its ring, and the line of the key."""

    mark: int
    corners: list
    text: str


INK = "#111827"
UNEVEN = 0.02  # how far the corners of a face may lie before or behind its middle


def shade(tint, by):
    return "#" + "".join(f"{round(int(tint[i : i + 2], 16) * by):02x}" for i in (1, 3, 5))


class Labels:
    """Places for labels that don't cover one another and, where it can be had, no marked line. Boxes are kept by the cells they touch."""

    CELL = 24

    def __init__(self):
        self.cells = {}

    def around(self, x, y, w, h):
        for i in range(int((x - w) // self.CELL), int((x + w) // self.CELL) + 1):
            for j in range(int((y - h) // self.CELL), int((y + h) // self.CELL) + 1):
                yield self.cells.setdefault((i, j), [])

    def put(self, box, weight):
        for cell in self.around(*box):
            cell.append((box, weight))

    def put_line(self, x1, y1, x2, y2):
        steps = int(math.hypot(x2 - x1, y2 - y1) // 6) + 1
        for k in range(steps + 1):
            self.put((x1 + (x2 - x1) * k / steps, y1 + (y2 - y1) * k / steps, 2, 2), 1)

    def clash(self, x, y, w, h):
        """How much is covered of labels, and of labels and lines."""
        labels = lines = 0.0
        for cell in self.around(x, y, w, h):
            for (X, Y, W, H), weight in cell:
                over = max(0, min(x + w, X + W) - max(x - w, X - W)) * max(0, min(y + h, Y + H) - max(y - h, Y - H))
                labels += over * (weight > 1)
                lines += over * weight
        return labels, lines

    def place(self, x, y, w, h, away, distances, must):
        """Near (x, y), first on the side that points away; None where a label would be covered and none must be put."""
        best = None
        for distance in distances:
            for turn in (0, 30, -30, 60, -60, 90, -90, 120, -120, 150, -150, 180):
                angle = away + math.radians(turn)
                X, Y = x + distance * math.cos(angle), y + distance * math.sin(angle)
                labels, lines = self.clash(X, Y, w, h)
                if best is None or round(lines, 3) < best[0]:
                    best = (round(lines, 3), labels, X, Y)
                if best[0] == 0:
                    break
            if best[0] == 0:
                break
        if best[1] > 0 and not must:
            return None
        self.put((best[2], best[3], w, h), 4)
        return best[2:]


class Pane:
    """One view of the cover, at its place in the picture."""

    def __init__(self, view, left, top):
        self.view = view
        xs, ys = [p[0] for p in view.flat], [p[1] for p in view.flat]
        span = max(max(xs) - min(xs), max(ys) - min(ys), SIZE / 100)
        self.scale = (PANE - 90) / span
        self.middle = ((max(xs) + min(xs)) / 2, (max(ys) + min(ys)) / 2)
        self.centre = (left + PANE / 2, top + PANE / 2)
        self.labels = Labels()

    def at(self, point):
        return (
            self.centre[0] + (point[0] - self.middle[0]) * self.scale,
            self.centre[1] - (point[1] - self.middle[1]) * self.scale,
        )

    def away(self, x, y):
        """The direction from the middle of the cover to here."""
        return math.atan2(y - self.centre[1], x - self.centre[0])

    def cloth(self, rings, panels):
        """The faces, the farthest first; the inside of the cloth, seen through an opening, is darker."""
        flat = self.view.flat
        order = sorted(range(len(rings)), key=lambda f: (round(sum(flat[p][2] for p in rings[f]) / len(rings[f]), 6), f))
        for f in order:
            points = [flat[p] for p in rings[f]]
            across = area_of(points)
            slant = across[2] / (math.hypot(*across) or 1.0)
            fill = shade(TINTS[panels[f] % len(TINTS)], 0.9 + 0.1 * slant if slant >= 0 else 0.8 - 0.06 * slant)
            path = " ".join("{:.1f},{:.1f}".format(*self.at(p)) for p in points)
            yield f'<polygon points="{path}" fill="{fill}" fill-opacity="0.86" stroke="#8d8a80" stroke-width="0.8"/>'

    def lines(self, marks, steps):
        """The marked edges over the cloth: dashed where cloth hides them. Gives lines, and for each mark its longest sight."""
        behind, front, sights = [], [], []
        for mark in marks:
            sight = None
            for a, b in mark.edges:
                for p, q, hidden in self.view.pieces(a, b, steps):
                    (x1, y1), (x2, y2) = self.at(p), self.at(q)
                    style = 'stroke-width="1.6" stroke-dasharray="4 3"' if hidden else f'stroke-width="{3.4 if mark.label else 1.8}"'
                    line = f'<line x1="{x1:.1f}" y1="{y1:.1f}" x2="{x2:.1f}" y2="{y2:.1f}" stroke="{mark.colour}" {style} stroke-linecap="round"/>'
                    (behind if hidden else front).append(line)
                    if mark.label and not hidden and len(marks) <= MOST_BADGES:
                        self.labels.put_line(x1, y1, x2, y2)
                    length = round(math.hypot(x2 - x1, y2 - y1) - 1e6 * hidden, 3)
                    if sight is None or length > sight[0]:
                        sight = (length, (x1 + x2) / 2, (y1 + y2) / 2, hidden)
            sights.append(sight)
        return behind + front, sights

    def badges(self, marks, sights):
        """The number of each mark at its longest sight, hollow where the whole of it is hidden."""
        for mark, sight in zip(marks, sights):
            if mark.label and sight:
                _, x, y, hidden = sight
                if len(marks) > MOST_BADGES:
                    yield small(x, y + 2.4, mark.label, 7, mark.colour)
                    continue
                w = 5 + 4 * len(mark.label)
                X, Y = self.labels.place(x, y, max(w, 10), 10, self.away(x, y), (16, 24, 34, 46), must=True)
                yield f'<line x1="{x:.1f}" y1="{y:.1f}" x2="{X:.1f}" y2="{Y:.1f}" stroke="{mark.colour}" stroke-width="1"/>'
                yield badge(mark, X, Y, hidden)

    def numbers(self, marks):
        """The sheet's numbers of the positions along labelled marks, where there is room for them and no cloth before them."""
        seen = set()
        for mark in marks if len(marks) <= MOST_BADGES else ():
            for p in (p for edge in mark.edges for p in edge if mark.label):
                x, y = self.at(self.view.flat[p])
                if p in seen or self.view.hidden(self.view.flat[p]):
                    continue
                seen.add(p)
                w = 2 + 3.2 * len(str(p))
                place = self.labels.place(x, y, w, 6, self.away(x, y), (11, 15), must=False)
                if place:
                    yield small(place[0], place[1] + 3.6, p, 10.5, "#222")


    def signs(self, signs, rings):
        """A wedge in each marked corner, its point at the position and its back inside the face that has the mark, with the number of the mark; hollow
        where cloth hides it."""
        many = sum(len(sign.corners) for sign in signs) > MOST_BADGES
        for sign in signs:
            for f, k in sign.corners:
                ring = rings[f]
                flat = [self.view.flat[p] for p in ring]
                inside = tuple(sum(p[a] for p in flat) / len(flat) for a in range(3))
                u, v, depth = between(flat[k], inside, 0.15)
                hidden = self.view.hidden((u, v, depth + UNEVEN))
                (x, y), (X, Y) = self.at(flat[k]), self.at(inside)
                toward = math.atan2(Y - y, X - x)
                long = max(4.0, min(13.0, 0.45 * math.hypot(X - x, Y - y)))
                yield wedge(x, y, toward, long, hidden)
                x, y = x + long * math.cos(toward), y + long * math.sin(toward)
                if not many:
                    yield tag(*self.labels.place(x, y, wide(sign.mark), 6, toward, (7, 11, 15, 20), must=True), sign.mark, hidden)


def wide(mark):
    return 3 + 2.8 * len(str(mark))


def tag(x, y, mark, hollow):
    """The number of a mark, light on dark, so that it is no position's."""
    fill, ink = ("#fff", INK) if hollow else (INK, "#fff")
    return (
        f'<rect class="tag" x="{x - wide(mark):.1f}" y="{y - 6:.1f}" width="{2 * wide(mark):.1f}" height="12" fill="{fill}" stroke="{INK}" stroke-width="0.8"/>'
        f'<text x="{x:.1f}" y="{y + 3.3:.1f}" font-size="9.5" font-weight="bold" fill="{ink}" text-anchor="middle">{mark}</text>'
    )


def wedge(x, y, toward, long, hollow):
    """A narrow triangle with its point at (x, y)."""
    points = [(x, y)] + [(x + long * math.cos(toward + t), y + long * math.sin(toward + t)) for t in (0.35, -0.35)]
    path = " ".join(f"{a:.1f},{b:.1f}" for a, b in points)
    style = 'fill="#fff" stroke-dasharray="2 1.5"' if hollow else f'fill="{INK}"'
    return f'<polygon class="sign" points="{path}" stroke="{INK}" stroke-width="1" {style}/>'


def small(x, y, text, size, colour):
    """A number on a white ground that follows its shape."""
    return (
        f'<text x="{x:.1f}" y="{y:.1f}" font-size="{size}" fill="{colour}" stroke="#fff" stroke-width="2.6" '
        f'paint-order="stroke" text-anchor="middle">{text}</text>'
    )


def badge(mark, x, y, hollow=False):
    w = 5 + 4 * len(mark.label)
    fill, ink = ("#fff", mark.colour) if hollow else (mark.colour, "#fff")
    shape = f'x="{x - max(w, 9):.1f}" y="{y - 9:.1f}" width="{2 * max(w, 9):.1f}" height="18" rx="{2 if mark.square else 9}"'
    return (
        f'<rect {shape} fill="{fill}" stroke="{mark.colour}" stroke-width="1.5"/>'
        f'<text x="{x:.1f}" y="{y + 4:.1f}" font-size="12" font-weight="bold" fill="{ink}" text-anchor="middle">{mark.label}</text>'
    )


def words(x, y, text, size=12.5, weight="normal"):
    return f'<text x="{x:.1f}" y="{y:.1f}" font-size="{size}" font-weight="{weight}" fill="#222">{escape(plain(text))}</text>'


def key(marks, signs, panels, top):
    """The lines below the views: each mark, each sign, each panel, and how to read the picture."""
    out, y = [], top
    for mark in marks[:MOST_ROWS]:
        out.append(badge(mark, 36, y - 4) if mark.label else f'<line x1="26" y1="{y - 4}" x2="46" y2="{y - 4}" stroke="{mark.colour}" stroke-width="2"/>')
        out.append(words(60, y, mark.text))
        y += ROW
    if len(marks) > MOST_ROWS:
        out.append(words(60, y, f"and {len(marks) - MOST_ROWS:,} more: draw_hems lists them all"))
        y += ROW
    for sign in signs[:MOST_ROWS]:
        out += [wedge(25, y - 4, 0.0, 12, hollow=False), tag(40 + wide(sign.mark), y - 4, sign.mark, hollow=False)]
        out.append(words(max(60, 46 + 2 * wide(sign.mark)), y, sign.text))
        y += ROW
    if len(signs) > MOST_ROWS:
        out.append(words(60, y, f"and {len(signs) - MOST_ROWS:,} marks more: draw_hems lists them all"))
        y += ROW
    x = 27
    for panel in range(min(max(panels, default=-1) + 1, 10)):
        count = panels.count(panel)
        out.append(f'<rect x="{x}" y="{y - 13}" width="18" height="14" fill="{TINTS[panel % len(TINTS)]}" stroke="#8d8a80"/>')
        text = f"panel {panel}: {count:,} face{'s' * (count > 1)}"
        out.append(words(x + 24, y - 2, text))
        x += 50 + 7 * len(text)
        if x > 2 * PANE - 80:
            x, y = 27, y + ROW
    return out, y + ROW


READ = "A line is dashed where cloth hides it, and its label hollow where all of it is hidden. Small numbers are positions as on the sheet; darker cloth is seen from inside."

READ_SIGNS = "A wedge is a seam mark: its point is at the corner, and it lies in the face that has the mark, whose number stands beside it; hollow where cloth hides it."


def svg(title, subtitle, cover, points, marks, signs, below=()):
    """The whole picture. Points are those of the cover's positions, by the sheet's numbers; below the key stands how it is to be read, and the
    lines that are given for that."""
    rings = [ring for _, ring in cover.faces]
    loops = [mark.edges for mark in marks if mark.label] or [mark.edges for mark in marks]
    loops += [[(rings[f][k - 1], rings[f][k])] for sign in signs for f, k in sign.corners]
    views = best_views(scaled(points), rings, loops) if points else []
    steps = max(2, min(24, 4000 // (sum(map(len, loops)) + 1)))
    body = []
    for k, view in enumerate(views):
        left = GAP + k * (PANE + GAP) if len(views) > 1 else GAP + (PANE + GAP) // 2
        pane = Pane(view, left, HEAD)
        lines, sights = pane.lines(marks, steps)
        body += pane.cloth(rings, cover.panels)
        body += lines
        body += pane.badges(marks, sights)
        body += pane.signs(signs, rings)
        body += pane.numbers(marks)
        if len(views) > 1:
            body.append(words(left + 6, HEAD + 14, side_of(view), 11.5))
    top = HEAD + (PANE if views else 0) + 30
    keys, bottom = key(marks, signs, cover.panels, top)
    width = 2 * PANE + 3 * GAP
    body += keys
    for line in (READ, *below, *((READ_SIGNS,) if signs else ())):
        body.append(words(27, bottom + 4, line, 11))
        bottom += ROW
    bottom -= ROW
    head = [words(24, 30, title, 18, "bold"), words(24, 52, subtitle, 13)]
    size = f'width="{width}" height="{bottom + 20}" viewBox="0 0 {width} {bottom + 20}"'
    return "\n".join(
        [f'<svg xmlns="http://www.w3.org/2000/svg" {size} font-family="Helvetica, Arial, sans-serif">', f"<!-- {MARK} -->"]
        + [f'<rect width="{width}" height="{bottom + 20}" fill="#fff"/>', *head, *body, "</svg>", ""]
    )


def side_of(view):
    """Where one stands, in words."""
    around = ("+x", "+x +y", "+y", "-x +y", "-x", "-x -y", "-y", "+x -y")[round(view.around / 45) % 8]
    return f"seen from {around}, {'above' if view.above > 0 else 'below'}"
