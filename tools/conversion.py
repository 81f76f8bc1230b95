"""What obj2panel and obj2hems share: the panel file of a drawing and what is told of it, and how such a tool is run. Outside the proofs."""
import os
import sys

import wavefront
from panel_format import END, Refused, entry_record, face_record, record, tell

OPTIONS = ("--positions-only", "--join-equal")


def panel(drawing):
    """The bytes of the panel file: positions, texture points, normals, faces, end."""
    parts = [entry_record(kind.record, entry) for kind in drawing.kinds for entry in kind.entries]
    parts += [face_record(corners) for _, corners in drawing.faces]
    return b"".join(parts) + record(END, b"")


def equal_positions(drawing, join):
    """What is to be told of positions with equal coordinates, which are joined where that is asked."""
    if join:
        return [f"positions joined to another with equal coordinates: {drawing.join_equal():,}"]
    used = {corner[0] for _, corners in drawing.faces for corner in corners}
    again = len(used) - len({drawing.kinds[0].entries[i] for i in used})
    if again:
        return [f"positions with the coordinates of another, from which they count apart: {again:,}; --join-equal makes them one"]
    return []


def marked_corners(drawing):
    """How many corners have a mark, so that a mark which was not taken for one is seen."""
    count = sum(corner[3] != 0 for _, corners in drawing.faces for corner in corners)
    return [f"marked corners: {count:,}"] if count else []


def read_drawing(data, positions_only, join_equal):
    """The drawing, with its equal positions joined where that is asked, and the notes; or Refused."""
    drawing = wavefront.read(data, positions_only)
    return drawing, drawing.told() + equal_positions(drawing, join_equal) + marked_corners(drawing)


class Tool:
    """A tool that makes a file of a drawing: its name, its help, whose first words are how it is used, what the file is called, its ending,
    and the work itself, from the bytes of the drawing and the options to the bytes of the file and the notes."""

    def __init__(self, name, manual, what, ending, convert):
        self.name, self.manual, self.what, self.ending, self.convert = name, manual, what, ending, convert
        self.usage = f"usage: {manual.split(': ')[0]}; {name} --help says more"

    def check_target(self, source, target):
        """No drawing is written over: not by equal names, by exchanged ones, nor through a link."""
        if target == "-":
            if sys.stdout is None:
                raise Refused(f"standard output is closed: name the file that is to be written, COVER{self.ending}")
            if sys.stdout.isatty():
                raise Refused(f"a {self.what} is no text for a terminal: name the file that is to be written, COVER{self.ending}")
        elif source != "-" and os.path.exists(target) and os.path.samefile(source, target):
            raise Refused("the file to be written is the drawing itself")
        elif os.path.exists(target) and not os.path.realpath(target).endswith(self.ending):
            raise Refused(f"{target} is there already and does not end in '{self.ending}': it is not written over")

    def run(self, arguments):
        """The status with which the tool ends."""
        if "--help" in arguments:
            print(self.manual, end="")
            return 0
        names = [word for word in arguments if word not in OPTIONS]
        waits = not names and sys.stdin is not None and sys.stdin.isatty()
        if len(names) > 2 or any(word.startswith("-") and word != "-" for word in names) or waits:
            print(self.usage, file=sys.stderr)
            return 2
        source, target = (names + ["-", "-"])[:2]
        try:
            self.check_target(source, target)
            written, notes = self.convert(read(source), *(option in arguments for option in OPTIONS))
            for note in notes:
                tell(self.name, f"{source}: {note}")
            write(target, written)
        except Refused as refused:
            tell(self.name, f"{source}: {refused}")
            return 1
        except OSError as error:
            tell(self.name, f"{error.filename or target}: {error.strerror}")
            return 1
        return 0


def read(source):
    if source != "-":
        with open(source, "rb") as file:
            return file.read()
    if sys.stdin is None:
        raise Refused("standard input is closed")
    return sys.stdin.buffer.read()


def write(target, data):
    if target == "-":
        sys.stdout.buffer.write(data)
        sys.stdout.buffer.flush()
    else:
        with open(target, "wb") as out:
            out.write(data)
