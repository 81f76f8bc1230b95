"""What the sheet says of a cover, worked out again for its picture: folded faces, compaction, edges, verdict, hems, panels, marks.

Outside the proofs, by the rules of document 01, hems by request 5 of document 02 and marks by request 11; test_draw_hems holds it to the stored
sheets. A face here is (source, ring, marks): where it stands in the drawing, its positions, and the mark of each corner; without the last it has
none. Texture points, normals and marks change no hem.
"""
from dataclasses import dataclass, field


def grouped(faces):
    """Triangles, quadrangles, larger faces, each in the order they came."""
    return [f for n in (3, 4) for f in faces if len(f[1]) == n] + [f for f in faces if len(f[1]) > 4]


def split(ring, places):
    """A larger face cut open where two of its corners have equal positions; pieces of fewer than three corners vanish."""
    for i, place in enumerate(places):
        for j in range(i + 1, len(places)):
            if ring[places[j]] == ring[place]:
                return split(ring, places[i:j]) + split(ring, places[j:] + places[:i])
    return [places] if len(places) >= 3 else []


def unfolded(ring):
    """What a face leaves: nothing, itself, or pieces; each by the places of its corners in the ring, which say what else goes with them."""
    whole = list(range(len(ring)))
    if len(ring) == 3:
        return [whole] if len(set(ring)) == 3 else []
    if len(ring) > 4:
        return split(ring, whole)
    a, b, c, d = ring
    if a == c or b == d or (a == b and c == d) or (b == c and d == a):
        return []
    if a == b or b == c:
        return [[0, 2, 3]]
    return [[0, 1, 2]] if c == d or d == a else [whole]


@dataclass
class Edge:
    """An edge without direction: every use of it, as the face's number and whether it runs from the lower position."""

    uses: list = field(default_factory=list)

    def twice_one_way(self):
        return len(self.uses) == 2 and self.uses[0][1] == self.uses[1][1]


@dataclass
class Cover:
    """A cover after cleaning. Position p of the sheet is position old[p] of the drawing; faces and edges have the sheet's numbers. The marks are
    those of each face's corners; the panels are those of each face, counted from 0."""

    old: list
    faces: list
    marks: list
    edges: dict
    verdict: str
    hem_edges: list
    hems: list
    panels: list

    def faults(self):
        """The edges that keep the verdict from being Oriented or Closed: used three times or more, or twice in one direction."""
        return sorted(key for key, edge in self.edges.items() if len(edge.uses) > 2 or edge.twice_one_way())

    def panel_of(self, hem):
        """The panel that a hem lies in, which its first edge tells: all of its edges lie in one."""
        a, b = (hem + hem[:1])[:2]
        return self.panels[self.edges[min(a, b), max(a, b)].uses[0][0]]

    def marked(self):
        """The corners that have each mark, as (face, place in its ring), by mark."""
        out = {}
        for f, marks in enumerate(self.marks):
            for k, mark in enumerate(marks):
                if mark:
                    out.setdefault(mark, []).append((f, k))
        return dict(sorted(out.items()))


def edges_of(faces):
    edges = {}
    for number, (_, ring) in enumerate(faces):
        for a, b in zip(ring, ring[1:] + ring[:1]):
            edges.setdefault((min(a, b), max(a, b)), Edge()).uses.append((number, a <= b))
    return edges


def verdict_of(edges):
    uses = [len(edge.uses) for edge in edges.values()]
    if any(n > 2 for n in uses):
        return "Irregular"
    if any(edge.twice_one_way() for edge in edges.values()):
        return "Regular"
    return "Oriented" if 1 in uses else "Closed"


def house_wires(faces, hem_edges):
    """Begin at the smallest edge left; after each comes the next edge of its face, and where that is no hem edge, the next one of the face across
    it, until one is. The wire closes where its first edge comes again."""
    after = {(a, b): (b, c) for _, ring in faces for a, b, c in zip(ring, ring[1:] + ring[:1], ring[2:] + ring[:2])}
    hems, used, wires = set(hem_edges), set(), []
    for edge in sorted(hems):
        wire = []
        while edge not in used:
            used.add(edge)
            wire.append(edge[0])
            edge = after[edge]
            while edge not in hems:
                edge = after[edge[1], edge[0]]
        wires += [wire] if wire else []
    return wires


def panels_of(faces, edges):
    """The panel of each face, counted from 0 by the lowest face."""
    parent = list(range(len(faces)))

    def root(f):
        while parent[f] != f:
            parent[f] = parent[parent[f]]
            f = parent[f]
        return f

    for edge in edges.values():
        for number, _ in edge.uses[1:]:
            a, b = sorted((root(edge.uses[0][0]), root(number)))
            parent[b] = a
    numbers = {}
    return [numbers.setdefault(root(f), len(numbers)) for f in range(len(faces))]


def cover_of(old, faces, marks):
    """What is found of faces that are taken as they are, grouped."""
    edges = edges_of(faces)
    once = [(a, b) if edge.uses[0][1] else (b, a) for (a, b), edge in edges.items() if len(edge.uses) == 1]
    verdict = verdict_of(edges)
    hems = house_wires(faces, once) if verdict in ("Oriented", "Closed") else []
    return Cover(old, faces, marks, edges, verdict, once, hems, panels_of(faces, edges))


def cleaned(faces):
    """The cover that the faces of a drawing leave; a face is (source, ring, marks), or (source, ring) without marks."""
    pieces = []
    for source, ring, *marks in grouped(faces):
        marks = marks[0] if marks else [0] * len(ring)
        pieces += [(source, [ring[k] for k in piece], [marks[k] for k in piece]) for piece in unfolded(ring)]
    new = {}
    kept = [(source, [new.setdefault(p, len(new)) for p in ring]) for source, ring, _ in grouped(pieces)]
    marks = [marks for _, _, marks in grouped(pieces)]
    return cover_of(list(new), kept, marks)
