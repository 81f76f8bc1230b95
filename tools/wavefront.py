"""A Wavefront OBJ drawing, for obj2panel, obj2hems and draw_hems: entries of three kinds, and faces with the lines where they stand.

Outside the proofs. What is taken and what is refused stands in obj2panel's help.
"""
import math
import re

from panel_format import BYTES, CORNERS, CORNERS_OF_A_FACE, ENTRIES, HEADER, LARGEST_MARK, MARKS, Refused, quoted, size_of_entry, size_of_face

NUMBER = re.compile(r"[+-]?([0-9]+(\.[0-9]*)?|\.[0-9]+)([eE][+-]?[0-9]+)?")
# How programs write what is not finite; the last form, 1.#QNAN or 1.#INF, is that of older ones, and its '#' begins no comment.
OLDER = "#(?:qnan|snan|nan|ind|inf)[0-9]*"
NOT_FINITE = re.compile(rf"[+-]?(nan(\(.*\))?|inf|infinity|[0-9]\.{OLDER})", re.IGNORECASE)
COMMENT = re.compile(rf"(?!(?<=[0-9]\.){OLDER}(?:\s|$))#.*", re.IGNORECASE)
INDEX = "[+-]?[0-9]{1,18}"
CORNER = re.compile(rf"{INDEX}(/({INDEX})?){{0,2}}")
BLANKS = re.compile("[ \t\v\f]+")
KEYWORDS = ("v", "vt", "vn", "f")
# A comment behind a face that marks a corner of it: '# mark 2 dart'. Its words stand for a line with this keyword.
MARK = "# mark"
WHOLE = re.compile("[0-9]{1,18}")
# First words of other formats in which a drawing comes.
OTHERS = {"solid": "STL", "off": "OFF", "coff": "OFF", "noff": "OFF", "stoff": "OFF", "ply": "PLY"}


class Slip(Refused):
    """What cannot be taken, and the line where it stands."""

    def __init__(self, line, reason):
        super().__init__(f"line {line}: {reason}")


def number(line, word):
    if NOT_FINITE.fullmatch(word):
        raise Slip(line, f"{quoted(word)} is not finite")
    if not NUMBER.fullmatch(word):
        raise Slip(line, f"{quoted(word)} is no number")
    value = float(word)
    if math.isinf(value):
        raise Slip(line, f"{quoted(word)} is too large")
    return value


def corner_number(line, word):
    if not WHOLE.fullmatch(word):
        raise Slip(line, f"{quoted(word)} is no corner of a face: '{MARK}' takes a corner, counted from 1, and a mark, as in '{MARK} 2 dart'")
    return int(word)


def mark_number(line, word):
    if word in MARKS:
        return MARKS[word]
    if not WHOLE.fullmatch(word):
        names = " or ".join(f"'{name}'" for name in MARKS)
        raise Slip(line, f"{quoted(word)} is no mark: {names}, or a number from 1 to {LARGEST_MARK:,} without commas")
    if int(word) == 0:
        raise Slip(line, "mark 0 means that there is none: leave the line out")
    if int(word) > LARGEST_MARK:
        raise Slip(line, f"mark {word} is too large: {LARGEST_MARK:,} is the largest")
    return int(word)


class Kind:
    """Positions, texture points or normals: the keyword, the record's number, and how many numbers an entry has. Of each entry there are its
    numbers, its line, and its numbers as they are written."""

    def __init__(self, keyword, name, record, width, least, most):
        self.keyword, self.name, self.record = keyword, name, record
        self.width, self.least, self.most = width, least, most
        self.entries, self.lines, self.texts = [], [], []

    def add(self, line, words):
        if not self.least <= len(words) <= self.most:
            span = f"{self.least}" if self.least == self.most else f"{self.least} to {self.most}"
            raise Slip(line, f"'{self.keyword}' takes {span} numbers, and {len(words)} stand there")
        numbers = [number(line, word) for word in words] + [0.0]
        self.entries.append(tuple(numbers[: self.width]))
        self.lines.append(line)
        self.texts.append(tuple(words[: self.width]))

    def index(self, line, word):
        """The index that a corner gives, counted from 0, or None; one that counts back is settled here, any other by `check`."""
        if not word:
            return None
        i = int(word)
        if i == 0:
            raise Slip(line, f"index 0 of {self.name}: they count from 1")
        return i - 1 if i > 0 else len(self.entries) + i

    def check(self, line, i):
        if i is not None and not 0 <= i < len(self.entries):
            raise Slip(line, f"an index that none of the {len(self.entries):,} {self.name} has")


class Drawing:
    """What was read: entries of three kinds, and faces with the lines where they stand. Position p is the drawing's v numbers[p] + 1."""

    def __init__(self, positions_only=False):
        self.kinds = [
            Kind("v", "positions", record=1, width=3, least=3, most=7),
            Kind("vt", "texture points", record=2, width=2, least=1, most=3),
            Kind("vn", "normals", record=3, width=3, least=3, most=3),
        ]
        self.taken = self.kinds[:1] if positions_only else self.kinds
        self.faces = []
        self.above = None
        self.numbers = []
        self.notes = {}

    def take(self, line, words):
        """One line of the drawing, its keyword first."""
        keyword, rest = words[0], words[1:]
        if keyword == MARK:
            self.mark(line, rest)
            return
        self.above = None
        kind = next((kind for kind in self.taken if kind.keyword == keyword), None)
        if kind is not None:
            kind.add(line, rest)
            if len(rest) > kind.width:
                self.note(line, f"numbers of '{keyword}' beyond {kind.width} are left out")
        elif keyword == "f":
            self.face(line, rest)
        elif keyword not in KEYWORDS and keyword.lower() in KEYWORDS:
            raise Slip(line, f"{quoted(keyword)} is no keyword of an OBJ: '{keyword.lower()}' is written small")
        elif keyword not in KEYWORDS:
            self.note(line, f"{quoted(keyword)} is passed over")

    def face(self, line, words):
        if len(words) < 3:
            self.note(line, "a face of fewer than three corners is dropped")
            self.above = [None] * len(words)
            return
        if len(words) > CORNERS_OF_A_FACE:
            raise Slip(line, f"a face of {len(words)} corners: {CORNERS_OF_A_FACE} are the most")
        self.above = [self.corner(line, word) for word in words]
        self.faces.append((line, self.above))

    def mark(self, line, words):
        """A mark for a corner of the face above; that of a face that is dropped goes with it."""
        if self.above is None:
            raise Slip(line, f"'{MARK}' stands directly behind the face that it marks, and no face is there")
        if len(words) != 2:
            raise Slip(line, f"'{MARK}' takes a corner of the face above and a mark, as in '{MARK} 2 dart', and {len(words)} words stand there")
        corners, k, mark = self.above, corner_number(line, words[0]), mark_number(line, words[1])
        if not 1 <= k <= len(corners):
            raise Slip(line, f"a mark for corner {k} of a face of {len(corners)} corners; they count from 1")
        if corners[k - 1] is None:
            return
        if corners[k - 1][3]:
            raise Slip(line, f"corner {k} of this face has a mark already, and a corner has one")
        corners[k - 1] = (*corners[k - 1][:3], mark)

    def corner(self, line, word):
        if not CORNER.fullmatch(word):
            raise Slip(line, f"{quoted(word)} is none of v, v/vt, v//vn and v/vt/vn")
        given = [kind.index(line, part) for kind, part in zip(self.taken, word.split("/"))]
        return (*given, *[None] * (3 - len(given)), 0)

    def note(self, line, text):
        first, count = self.notes.get(text, (line, 0))
        self.notes[text] = (first, count + 1)

    def check(self):
        """There is a face, and every index has its entry; only now is it known how many there are."""
        if not self.faces:
            found = f"{len(self.kinds[0].entries):,} positions" if self.kinds[0].entries else "no position"
            raise Refused(f"no face of three corners or more, and {found}: is this a Wavefront OBJ drawing?")
        for line, corners in self.faces:
            for corner in corners:
                for kind, i in zip(self.kinds, corner):
                    kind.check(line, i)
        self.numbers = list(range(len(self.kinds[0].entries)))

    def join_equal(self):
        """Positions with equal coordinates become the first of them; gives back how many went."""
        positions = self.kinds[0]
        firsts = {}
        for i, point in enumerate(positions.entries):
            firsts.setdefault(point, i)
        kept = sorted(firsts.values())
        new = {old: i for i, old in enumerate(kept)}
        to = [new[firsts[point]] for point in positions.entries]
        gone = len(positions.entries) - len(kept)
        positions.entries = [positions.entries[i] for i in kept]
        positions.lines = [positions.lines[i] for i in kept]
        positions.texts = [positions.texts[i] for i in kept]
        self.numbers = kept
        self.faces = [(line, [(to[c[0]], *c[1:]) for c in corners]) for line, corners in self.faces]
        return gone

    def told(self):
        """The notes, each with the first line that it is about."""
        return [
            f"line {first}: {text}" + (f" ({count} times)" if count > 1 else "")
            for text, (first, count) in self.notes.items()
        ]


def text_of(data):
    """The text of a drawing, without the mark that some editors put in front; or Refused."""
    if data[:2] in (b"\xff\xfe", b"\xfe\xff"):
        raise Refused("this is UTF-16 text: save the drawing as UTF-8")
    if not data.strip():
        raise Refused("the drawing is empty")
    if b"\0" in data:
        raise Refused("this is no text, so no Wavefront OBJ drawing: is it a panel file, a binary STL, or UTF-16 text?")
    return data.removeprefix(b"\xef\xbb\xbf").decode("utf-8", "surrogateescape")


def words_of(line):
    return [word for word in BLANKS.split(line) if word]


def marks_in(line, count):
    """The mark that a comment of this line has, as words behind their keyword; any comment that begins with 'mark' must be one."""
    comment = COMMENT.search(line)
    words = words_of(comment[0].lstrip("#")) if comment else []
    if words and words[0].lower() == "mark":
        if words[0] == "mark":
            return [(count, [MARK, *words[1:]])]
        if WHOLE.fullmatch("".join(words[1:2])):
            raise Slip(count, f"{quoted(words[0])} in a comment that marks a corner: '{MARK}' is written small")
    return []


def lines(text):
    """The lines that say something, as words, each with the number of its first line, and behind each the mark of a comment.

    A '\\' at the end joins the next line, but only to one that is read: the name that follows a `mtllib` may end in one.
    """
    joined, first, marks = "", 1, []
    for count, line in enumerate(text.replace("\r\n", "\n").replace("\r", "\n").split("\n"), 1):
        joined += COMMENT.sub("", line).rstrip(" \t\v\f")
        marks += marks_in(line, count)
        words = words_of(joined.removesuffix("\\"))
        if joined.endswith("\\") and words[:1] in ([], *([k] for k in KEYWORDS)):
            joined = joined[:-1] + " "
            continue
        if words:
            yield first, words
        yield from marks
        joined, first, marks = "", count + 1, []
    if words_of(joined):
        yield first, words_of(joined)
    yield from marks


def read(data, positions_only=False):
    """The drawing in these bytes; or Refused."""
    drawing = Drawing(positions_only)
    for nth, (line, words) in enumerate(lines(text_of(data))):
        if nth == 0 and words[0].lower() in OTHERS:
            raise Refused(f"this looks like {OTHERS[words[0].lower()]}, and not like a Wavefront OBJ drawing")
        drawing.take(line, words)
    drawing.check()
    return drawing


def counts(drawing, kinds, beside):
    """Name, count and limit of all that has one, were these kinds written, with so many bytes beside the panel file."""
    corners = sum(len(face) for _, face in drawing.faces)
    size = beside + HEADER + sum(size_of_entry(kind.record) * len(kind.entries) for kind in kinds)
    size += sum(size_of_face(face) for _, face in drawing.faces)
    return [(kind.name, len(kind.entries), ENTRIES) for kind in kinds] + [("corners", corners, CORNERS), ("bytes", size, BYTES)]


def over(rows):
    return [name for name, count, limit in rows if count > limit]


def check_limits(drawing, beside=0):
    """All counts, and which are over their limit; the file has so many bytes beside its panel file."""
    rows = counts(drawing, drawing.kinds, beside)
    if not over(rows):
        return
    told = ", ".join(f"{name} {count:,} of at most {limit:,}" for name, count, limit in rows)
    hint = "" if over(counts(drawing, drawing.kinds[:1], beside)) else "; with --positions-only it fits"
    raise Refused(f"over the limit in {' and '.join(over(rows))}: {told}, in {len(drawing.faces):,} faces{hint}")
