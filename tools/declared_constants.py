"""The constants of the library's C interface: what the rules and the code say each one is, and what the Rust wrapper says.

Read by check_declarations. A limit is read from the constants of mesh, sheet and hem sheet and from the rules beside them, a number of the table from
the row of the rules that gives it, a verdict's number from the rules of what a call answers in C, and a stated room from the rule of number
9 of its call. What counts by number has room for each of them, by a constant NUMBERS, which is held to the table.
"""
import re

LIMITS = "crates/mesh/specs/Limits.antt"
CONSTS = "crates/mesh/src/lib.rt"
MESH = "crates/mesh/specs/Mesh.antt"
TABLE = "crates/mesh/specs/Table.antt"
COMPACTION = "crates/unused/specs/Compaction.antt"
IN_PLACE = "crates/inplace/specs/InPlace.antt"
MERGING = "crates/together/specs/Merging.antt"
PORTED = "crates/ported/specs/Answers.antt"
HOUSE = "crates/house/specs/Answers.antt"
RECORDS = "crates/records/specs/Records.antt"
LENGTHS = "crates/records/specs/Lengths.antt"
RECORD_CONSTS = "crates/records/src/lib.rt"
READING = "crates/reading/specs/Reading.antt"
LINES = "crates/lines/specs/Lines.antt"
PIECES = "crates/written/specs/Pieces.antt"
SAVING = "crates/written/specs/Answer.antt"
SMOOTHED = "crates/smoothed/specs/Refusals.antt"
SCAN = "crates/scanned/specs/Scan.antt"
WRITER = "crates/saving/src/lib.rt"
CLEANING = "crates/cleanfile/specs/Cleaning.antt"
SHEET = "crates/sheet/specs/Sheet.antt"
SHEET_CONSTS = "crates/sheet/src/lib.rt"
ANSWERS = "crates/answers/specs/Answers.antt"
FACES = "crates/faces/specs/Faces.antt"
FOLDED = "crates/removal/specs/Folded.antt"
FOURFOLD = "crates/smoothed/specs/Smoothed.antt"
SMOOTHABLE = "crates/smoothable/src/lib.rt"
EDGES = "crates/edges/specs/Answers.antt"
PANELS = "crates/panels/specs/Contract.antt"
HEM_LIST = "crates/hemlist/specs/HemList.antt"
DISTANCES = "crates/roots/specs/Distances.antt"
REACHING = "crates/reaching/src/lib.rt"
HEM_TEXT = "crates/hemtext/specs/HemText.antt"
HEM_TEXT_CONSTS = "crates/hemtext/src/lib.rt"
HEM_FILE = "crates/hemfile/specs/HemFile.antt"
HEM_FILE_CONSTS = "crates/hemfile/src/lib.rt"
REPLAY = "crates/try_replay/src/tally.rt"
DAMAGED = "crates/try_damaged/src/main.rt"
ORACLE = "oracle/judge/src/reading/numbers.rs"
SOURCES = (
    LIMITS, CONSTS, MESH, TABLE, COMPACTION, IN_PLACE, MERGING, PORTED, HOUSE, RECORDS, LENGTHS, RECORD_CONSTS, READING, PIECES, SAVING, WRITER, CLEANING, LINES, SHEET, SHEET_CONSTS, ANSWERS,
    FACES, FOLDED, SMOOTHED, SCAN, FOURFOLD, SMOOTHABLE, EDGES, PANELS, HEM_LIST, DISTANCES, REACHING, HEM_TEXT, HEM_TEXT_CONSTS, HEM_FILE, HEM_FILE_CONSTS, REPLAY, DAMAGED, ORACLE,
)


class Unreadable(Exception):
    """A text that has none of the known forms."""


# ---- what the rules and the code say

# A limit: its name behind BH_ and in the wrapper; each place of the source that has it, which must all say the same.
LIMIT_PLACES = {
    "MISSING": ((LIMITS, r"^largest = (\d+)$"), (CONSTS, r"const LARGEST: u32 = (\d+);")),
    "CORNER_WIDTH": ((LIMITS, r"^width = (\d+)$"), (CONSTS, r"const WIDTH: usize = (\d+);")),
    "MAX_ENTRIES": ((LIMITS, r"^entry_limit = (\d+)$"), (CONSTS, r"const ENTRIES: usize = (\d+);")),
    "MAX_CORNERS": ((LIMITS, r"^corner_limit = (\d+)$"), (CONSTS, r"const CORNERS: usize = (\d+);")),
    "MAX_FACES": ((LIMITS, r"^face_limit = (\d+)$"), (CONSTS, r"const FACES: usize = (\d+);")),
    "MAX_FACE_CORNERS": ((LIMITS, r"^ring_limit = (\d+)$"), (CONSTS, r"const RING: usize = (\d+);")),
    "COSINES": ((SMOOTHED, r"^cosine_count = (\d+)$"), (SMOOTHABLE, r"const COSINES: usize = (\d+);")),
    "MAX_COORDINATE": ((DISTANCES, r"^coordinate_limit = (\d+)$"), (REACHING, r"^pub const COORDINATES: u64 = (\d+);$")),
    "MAX_FILE": (
        (SHEET, r"^file_limit = (\d+)$"), (SHEET_CONSTS, r"const FILE: usize = (\d+);"),
        (HEM_FILE, r"^file_limit = (\d+)$"), (HEM_FILE_CONSTS, r"^pub const FILE: usize = (\d+);$"),
    ),
    "SHEET_ROOM": ((LINES, r"^sheet_room = (\d+)$"), (SHEET_CONSTS, r"const ROOM: usize = (\d+);")),
}

# The mark of a missing index is the largest number, by its name: each place, and the name that must stand there.
MISSING_PLACES = ((MESH, r"^missing = (.*)$", "largest"), (CONSTS, r"const MISSING: u32 = (.*);", "LARGEST"))

# A number of the table: its name behind BH_, its name in the wrapper, and the row that gives it.
NUMBER_ROWS = {
    ("OVER_LIMIT", "OverLimit"): (TABLE, r"when \(over_limits m\) (\d+)"),
    ("MISFIT", "Misfit"): (TABLE, r"when \(uneven m\) (\d+)"),
    ("FACE_SIZE", "FaceSize"): (TABLE, r"when \(misfit m\) (\d+)"),
    ("UNGROUPED", "Ungrouped"): (TABLE, r"when \(ungrouped m\) (\d+)"),
    ("INDEX", "Index"): (TABLE, r"when \(astray m\) (\d+)"),
    ("TOLERANCE", "Tolerance"): (MERGING, r"when \(unfit t\) (\d+)"),
    ("COORDINATE", "Coordinate"): (MERGING, r"when \(any_boundless m\) (\d+)"),
    ("QUOTIENT", "Quotient"): (MERGING, r"when \(any_distant m t\) (\d+)"),
    ("ROOM", "Room"): (COMPACTION, r"when \(too_short m r\) (\d+)"),
    ("NO_HOUSE_WIRES", "NoHouseWires"): (HOUSE, r"when \(unwired m\) (\d+)"),
    ("FILE_CUT", "FileCut"): (RECORDS, r"when \(ltb \(length s - at\) header_length\) (\d+)"),
    ("RECORD", "Record"): (RECORDS, r"when \(ltb last_kind kind\) (\d+)"),
    ("AFTER_END", "AfterEnd"): (READING, r"when \(ltb x\.at \(length s\)\) (\d+)"),
    ("NOT_FINITE", "NotFinite"): (RECORDS, r"when \(not \(every finite \(values_of r\)\)\) (\d+)"),
    ("NOT_TRIANGLE", "NotTriangle"): (SMOOTHED, r"when \(other_face m\) (\d+)"),
    ("FOLDED_OR_UNUSED", "FoldedOrUnused"): (SMOOTHED, r"when \(folded_or_idle m\) (\d+)"),
    ("UNFIT_COSINES", "UnfitCosines"): (SMOOTHED, r"when \(unfit_cosines m ones twos\) (\d+)"),
    ("TRIPLES", "Triples"): (HEM_LIST, r"when \(unmatched m cs\) (\d+)"),
    ("TOO_FAR", "TooFar"): (HEM_LIST, r"when \(beyond_reach cs\) (\d+)"),
}
# The rows of other calls that give one of these numbers too, by a rule of their own.
OTHER_ROWS = (
    ("NOT_FINITE", SAVING, r"when \(not \(finite_mesh m\)\) (\d+)"),
    ("COORDINATE", SMOOTHED, r"when \(boundless_position m\) (\d+)"),
    ("NO_HOUSE_WIRES", SMOOTHED, r"when \(unoriented m\) (\d+)"),
    ("OVER_LIMIT", SMOOTHED, r"when \(over_limits \(result_of m ones twos\)\) (\d+)"),
    ("ROOM", SMOOTHED, r"when \(too_short m r\) (\d+)"),
    ("FILE_CUT", SCAN, r"when \(ltb \(length s\) front_bytes\) (\d+)"),
    ("OVER_LIMIT", SCAN, r"when \(ltb face_limit \(scan_count s\)\) (\d+)"),
    ("FILE_CUT", SCAN, r"when \(ltb \(length s\) \(scan_length \(scan_count s\)\)\) (\d+)"),
    ("AFTER_END", SCAN, r"when \(ltb \(scan_length \(scan_count s\)\) \(length s\)\) (\d+)"),
    ("NOT_FINITE", SCAN, r"when \(some not_finite ps\) (\d+)"),
    ("OVER_LIMIT", SCAN, r"when \(ltb entry_limit \(length \(first_uses ps\)\)\) (\d+)"),
    ("ROOM", SCAN, r"when \(short rooms\) (\d+)"),
    ("ROOM", HEM_LIST, r"when \(list_short m panels edges lengths\) (\d+)"),
    ("NO_HOUSE_WIRES", HEM_LIST, r"when \(unwired m\) (\d+)"),
    ("OVER_LIMIT", HEM_FILE, r"when \(ltb file_limit \(length file\)\) (\d+)"),
    ("FILE_CUT", HEM_FILE, r"when \(ltb \(length file\) count_bytes\) (\d+)"),
    ("FILE_CUT", HEM_FILE, r"when \(ltb \(length file\) \(count_bytes \+ panel_count file\)\) (\d+)"),
    ("TRIPLES", HEM_FILE, r"when \(astray_triples .*\) (\d+)$"),
    ("TOO_FAR", HEM_FILE, r"when \(beyond_reach .*\) (\d+)$"),
    ("NO_HOUSE_WIRES", HEM_FILE, r"when \(unwired .*\) (\d+)$"),
    ("ROOM", HEM_FILE, r"when \(short \(lent room hem_room ∷ \[\]\)\) (\d+)"),
    ("ROOM", IN_PLACE, r"when \(short \(lent \(length numbers\) \(longest m\) ∷ \[\]\)\) (\d+)"),
)
# The record of a face, which no limit of the interface has: the bytes of its header, of its count and of a corner, in each kind, and the most corners of
# kind 4; by the rules, by the code, and by the wrapper, which has room for it.
FACE_RECORD = ("header_length", "wide_count", "marked_length", "byte_face_limit", "header_length", "wide_count", "corner_length", "header_length", "byte_count", "corner_length")
FACE_CODE = {
    "header_length": "HEADER_LENGTH",
    "byte_count": "BYTE_COUNT",
    "wide_count": "WIDE_COUNT",
    "corner_length": "CORNER_LENGTH",
    "marked_length": "MARKED_LENGTH",
    "byte_face_limit": "BYTE_FACE",
}
FACE_OF_WRAPPER = (
    r"fn face_length\(n: usize, is_marked: bool\) -> usize \{\n    match is_marked \{\n        true => (\d+) \+ (\d+) \+ (\d+) \* n,\n"
    r"        false if n > (\d+) => (\d+) \+ (\d+) \+ (\d+) \* n,\n        false => (\d+) \+ (\d+) \+ (\d+) \* n,\n    \}\n\}"
)
# What the rules say of that length, in words.
FACE_RULES = (
    (r"^face_bytes f = (.*)$", "header_length + body_length (with_marks f) (length f)"),
    (r"^with_marks f = (.*)$", "any_mark f"),
    (r"^body_length marked n = (.*)$", "count_length (wide marked n) + corner_size marked * n"),
    (r"^wide marked n = (.*)$", "marked || ltb byte_face_limit n"),
)
# Where it is said how many numbers there are, 0 among them.
COUNTS = {path: r"^(?:pub )?const NUMBERS: \w+ = (\d+);$" for path in (REPLAY, DAMAGED, ORACLE)}
VERDICTS = ("Irregular", "Regular", "Oriented", "Closed")

# The rule that has the stated room of each list that a call is lent, in the order of its parameters.
ROOM_RULES = {
    "bh_push": (FACES, "too_short"),
    "bh_remove_unused_attrs": (COMPACTION, "too_short"),
    "bh_compact_in_place": (IN_PLACE, "in_place_number"),
    "bh_remove_degenerate_faces": (FOLDED, "too_short"),
    "bh_put_together_same_attrs": (MERGING, "merge_number"),
    "bh_put_together_by_cell": (MERGING, "merge_number"),
    "bh_loop_subdivision": (SMOOTHED, "too_short"),
    "bh_hem_edges": (EDGES, "hem_number"),
    "bh_extract_boundaries": (PORTED, "ported_short"),
    "bh_house_wires": (HOUSE, "house_short"),
    "bh_components": (PANELS, "components_number"),
    "bh_read_panel": (READING, "full_room"),
    "bh_read_scan": (READING, "full_room"),
    "bh_write_panel": (SAVING, "saving_number"),
    "bh_clean_panel": (CLEANING, "cleaning_number"),
    "bh_sheet": (SHEET, "sheet_number"),
    "bh_list_hems": (HEM_LIST, "list_short"),
    "bh_hem_sheet": (HEM_FILE, "hem_sheet_number"),
}
# The lists of the mesh itself that a call changes where they stand: each has the length that it has, and no stated room. They come first.
CHANGED = {"bh_compact_in_place": ("positions", "textures", "normals", "corners")}
# The most entries of a list: by the rules, and by the wrapper.
LONGEST = r"^longest m = max \((\w+ m)\) \(max \((\w+ m)\) \((\w+ m)\)\)$"
LONGEST_OF_WRAPPER = r"fn longest\(&self\) -> usize \{\n        \((.*?)\)\.max\((.*?)\)\.max\((.*?)\)\n    \}"


def words_at(texts, path, pattern):
    """What the pattern finds in a text, which must have it once or say the same each time."""
    found = set(re.findall(pattern, texts[path], flags=re.M))
    if len(found) != 1:
        raise Unreadable(f"{path}: '{pattern}' is found {len(found)} times")
    return found.pop()


def only_one(texts, path, pattern):
    """The number that it finds."""
    return int(words_at(texts, path, pattern))


def limits_of(texts):
    values = {}
    for name, places in LIMIT_PLACES.items():
        said = {only_one(texts, path, pattern) for path, pattern in places}
        if len(said) != 1:
            raise Unreadable(f"{name}: the code and its rules differ")
        values[name] = said.pop()
    if any(words_at(texts, path, pattern) != name for path, pattern, name in MISSING_PLACES):
        raise Unreadable("MISSING is not the largest number")
    return values | {"FILE_ROOM": longest_file(texts, values), "HEM_ROOM": hem_room(texts, values)}


def longest_file(texts, limits):
    """How long the longest file is, which the rules and the code each say by the other limits."""
    numbers = limits["MAX_CORNERS"] * only_one(texts, LIMITS, r"^width = (\d+)$")
    rules = {"entry_limit": limits["MAX_ENTRIES"], "face_limit": limits["MAX_FACES"], "corner_numbers": numbers}
    code = {"ENTRIES": limits["MAX_ENTRIES"], "FACES": limits["MAX_FACES"], "CORNER_NUMBERS": numbers}
    said = value(words_at(texts, PIECES, r"^file_limit = (.*)$"), rules)
    if said != value(words_at(texts, WRITER, r"^pub const FILE: usize = (.*);$").replace("mesh::", ""), code):
        raise Unreadable("FILE_ROOM: the code and its rules differ")
    return said


def hem_room(texts, limits):
    """How much room every hem sheet has, which the rules and the code each say by the most corners and the longest line."""
    rules = {"line_room": only_one(texts, HEM_TEXT, r"^line_room = (\d+)$"), "corner_limit": limits["MAX_CORNERS"]}
    code = {"LINE_ROOM": only_one(texts, HEM_TEXT_CONSTS, r"^const LINE_ROOM: usize = (\d+);$"), "CORNERS": limits["MAX_CORNERS"]}
    said = value(words_at(texts, HEM_TEXT, r"^hem_room = (.*)$"), rules)
    if said != value(words_at(texts, HEM_TEXT_CONSTS, r"^pub const ROOM: usize = (.*);$").replace("mesh::", ""), code):
        raise Unreadable("HEM_ROOM: the code and its rules differ")
    return said


def numbers_of(texts):
    """The table: C name and wrapper's name, and the number."""
    numbers = {names: only_one(texts, *row) for names, row in NUMBER_ROWS.items()}
    by_name = {name: number for (name, _), number in numbers.items()}
    for name, path, row in OTHER_ROWS:
        if only_one(texts, path, row) != by_name[name]:
            raise Unreadable(f"{name}: two calls differ, by {path}")
    return numbers


def counts_in(texts):
    """How many numbers there are: by the table, and by each place that says so."""
    return 1 + max(numbers_of(texts).values()), {path: only_one(texts, path, pattern) for path, pattern in COUNTS.items()}


def verdicts_of(texts):
    return {name: only_one(texts, ANSWERS, rf"^verdict_number Verdict\.{name} = (\d+)$") for name in VERDICTS}


# ---- rooms: an expression of the rules and one of the wrapper are the same where they are so on these meshes; 'facebytes' is how many bytes the faces have
# in a file. Each of the three attribute lists is the longest in one of them

SAMPLES = (
    {"positions": 6144, "textures": 4096, "normals": 6144, "corners": 16384, "sizes": 1365, "facebytes": 55977},
    {"positions": 33, "textures": 14, "normals": 9, "corners": 280, "sizes": 17, "facebytes": 926},
    {"positions": 3, "textures": 0, "normals": 0, "corners": 20, "sizes": 1, "facebytes": 86},
    {"positions": 900, "textures": 0, "normals": 0, "corners": 15600, "sizes": 13, "facebytes": 46878},
    {"positions": 30, "textures": 46, "normals": 27, "corners": 48, "sizes": 4, "facebytes": 164},
    {"positions": 12, "textures": 10, "normals": 51, "corners": 36, "sizes": 3, "facebytes": 123},
)


def value(words, given):
    """An expression of names, numbers, + * / and max with brackets, where '/' cuts."""
    words = " ".join(words.split())
    if not re.fullmatch(r"[\w\s+*/(),]*", words):
        raise Unreadable(f"a room '{words}'")
    try:
        return eval(words.replace("/", "//"), {"__builtins__": {}, "max": max}, given)
    except (NameError, SyntaxError, TypeError) as why:
        raise Unreadable(f"a room '{words}'") from why


def term(text):
    """The first term of a text, a name or what stands in brackets, and the rest."""
    text = text.lstrip()
    if not text.startswith("("):
        return re.split(r"[\s)]", text, maxsplit=1)[0], re.sub(r"^[^\s)]+", "", text)
    depth = 0
    for i, letter in enumerate(text):
        depth += (letter == "(") - (letter == ")")
        if depth == 0:
            return text[: i + 1], text[i + 1 :]
    raise Unreadable(f"brackets in '{text}'")


def rooms_of_rule(text, name):
    """The stated rooms of a definition, in their order, in this tool's words."""
    found = re.search(rf"^{name} .*?=\s(.*?)(?=^\S|\Z)", text, flags=re.M | re.S)
    if not found:
        raise Unreadable(f"no definition '{name}'")
    rooms = []
    for behind in re.split(r"\blent ", found[1])[1:]:
        _, rest = term(behind)
        room, _ = term(rest)
        list_of = r"\b(?:length|corner_count) (?:m|given)\.(\w+)"
        rooms.append(counted(re.sub(list_of, lambda w: f"({w[1]} / width)" if "corner_count" in w[0] else w[1], room)))
    return rooms


def counted(words):
    """The counts of a mesh's entries in this tool's words."""
    counts = {"position_count m": "(positions / 3)", "texture_count m": "(textures / 2)", "normal_count m": "(normals / 3)"}
    for rule, count in counts.items():
        words = words.replace(rule, count)
    return words


def file_length(texts):
    """How long the whole file of a mesh is, by the rules, in this tool's words."""
    words = counted(words_at(texts, PIECES, r"^file_length m =\s+(.*)$")).replace("sum (map face_bytes (faces m))", "facebytes")
    if any(words_at(texts, PIECES, pattern) != said for pattern, said in FACE_RULES):
        raise Unreadable("how long the record of a face is")
    return re.sub(r"\blength m\.(\w+)", r"\1", words)


def rooms_in(texts):
    """Each call's stated rooms."""
    stated = {call: rooms_of_rule(texts[path], name) for call, (path, name) in ROOM_RULES.items()}
    known = {"file_length m": file_length(texts), "longest m": f"max({counted(', '.join(words_at(texts, IN_PLACE, LONGEST)))})"}
    for rule, room in known.items():
        stated = {call: [words.replace(rule, room) for words in rooms] for call, rooms in stated.items()}
    return {call: [*CHANGED.get(call, ()), *rooms] for call, rooms in stated.items()}


# ---- what the wrapper says


def body_of(text, head):
    """What stands in the braces behind this head."""
    found = re.search(head, text)
    if not found:
        raise Unreadable(f"no '{head}'")
    start = text.index("{", found.end() - 1)
    depth = 0
    for i in range(start, len(text)):
        depth += (text[i] == "{") - (text[i] == "}")
        if depth == 0:
            return text[start + 1 : i]
    raise Unreadable(f"no end of '{head}'")


def enumerated(text, name):
    """The cases of an enum, name and number; each must have its number."""
    body = re.sub(r"//[^\n]*", "", body_of(text, rf"pub enum {name} "))
    cases = [part.strip() for part in body.split(",") if part.strip()]
    read = [re.fullmatch(r"(\w+) = (\d+)", case) for case in cases]
    if not all(read):
        raise Unreadable(f"a case of {name}")
    return [(case[1], int(case[2])) for case in read]


def listed(text, pattern, name):
    """The cases of a table in the wrapper, in its order."""
    found = re.search(pattern, text, flags=re.S)
    if not found:
        raise Unreadable(f"the table of {name}")
    return re.findall(rf"{name}::(\w+)", found[1])


def texts_of(text, name):
    """What each case is in words."""
    return dict(re.findall(rf'{name}::(\w+) => "([^"]*)"', text))


def consts(text):
    """The public constants of the wrapper; one that stands twice is no one."""
    found = [(name, int(number.replace("_", ""))) for name, number in re.findall(r"^pub const (\w+): \w+ = ([\d_]+);$", text, flags=re.M)]
    if len(found) != len(re.findall(r"\bconst (\w+)\s*:", text)) or len(dict(found)) != len(found):
        raise Unreadable("a constant")
    return dict(found)


def lent_rooms(text):
    """The room of each list that the wrapper lends, by call and by the list's name."""
    plain = re.sub(r"//[^\n]*", "", text)
    shared, readers = (
        dict(re.findall(r"(\w+)(?:: | = )vec!\[\s*0(?:\.0)?;\s+([^\]]*)\]", body_of(plain, rf"macro_rules! {name} "))) for name in ("rows", "read")
    )
    rooms = {}
    for name in re.findall(r"pub fn (\w+)\(", plain):
        body = body_of(plain, rf"pub fn {name}\(")
        call = re.search(r"\bbh_\w+", body)
        if not call:
            continue
        through = re.search(r"rows!\(self, bh_\w+, (.*?)(?:, use_normal)?\)\s*\Z", body)
        if through:
            rooms[call[0]] = {list_: room.replace("$room", through[1]).replace("$mesh", "self") for list_, room in shared.items()}
        elif re.search(r"\A\s*read!\(bh_\w+, file\)\s*\Z", body):
            rooms[call[0]] = readers
        else:
            rooms[call[0]] = dict(re.findall(r"(\w+)(?:: | = )vec!\[\s*0(?:\.0)?;\s+([^\]]*)\]", body))
            # A list of its own that is changed where it stands.
            rooms[call[0]] |= {list_: f"self.{list_}.len()" for list_ in re.findall(r"self\.(\w+)\.as_mut_ptr\(\),\s+self\.\1\.len\(\),", body)}
    if "fn corner_count(self) -> usize {\n        self.corners.len() / CORNER_WIDTH\n    }" not in text:
        raise Unreadable("corner_count")
    longest = re.search(LONGEST_OF_WRAPPER, text)
    if not longest:
        raise Unreadable("longest")
    most = f"max({', '.join(longest.groups())})"
    return {call: {list_: room.replace("self.longest()", most) for list_, room in lists.items()} for call, lists in rooms.items()}


def face_records(texts):
    """The numbers of a face's record, by the rules, by the code, and by the wrapper, in one order."""
    rules = {name: only_one(texts, LENGTHS, rf"^{name} = (\d+)$") for name in FACE_CODE}
    code = {name: only_one(texts, RECORD_CONSTS, rf"const {word}: usize = (\d+);") for name, word in FACE_CODE.items()}
    wrapper = tuple(map(int, words_at(texts, "rust/barleyhinge/src/lib.rs", FACE_OF_WRAPPER)))
    return tuple(rules[name] for name in FACE_RECORD), tuple(code[name] for name in FACE_RECORD), wrapper


def room_of_wrapper(words):
    words = words.replace("self.corner_count()", "(corners / width)").replace("self.face_bytes()", "facebytes")
    return re.sub(r"\b(?:self\.)?(\w+)\.len\(\)", r"\1", words)
