//! The numbers of the library, by their types.

/// Why a call was refused: each number of the table but 0. More rows may come.
#[derive(Clone, Copy, Debug, PartialEq, Eq, PartialOrd, Ord, Hash)]
#[non_exhaustive]
#[repr(u32)]
pub enum Refusal {
    /// A list is over its limit, or would be in what smoothing gives, or in the mesh of a scan.
    OverLimit = 1,
    /// A length is no multiple of its width, or the sizes don't add up to the corners.
    Misfit = 2,
    /// A face size lies outside 3 to 300; in a file also: a record of kind 4 has more than 32 corners.
    FaceSize = 3,
    /// The sizes aren't grouped: triangles, quadrangles, larger faces.
    Ungrouped = 4,
    /// A position index, or another index that isn't missing, is not below its list's count.
    Index = 5,
    /// The tolerance is not a number from 2^-30 to 1 inclusive.
    Tolerance = 6,
    /// A coordinate is not finite, or its magnitude is above 2^60.
    Coordinate = 7,
    /// A texture or normal coordinate divided by the tolerance has magnitude 2^53 or more.
    Quotient = 8,
    /// A lent list is shorter than its stated room. No call of this crate gives it: each lends what is stated.
    Room = 9,
    /// House wires, the list of hems, or smoothing, where the verdict is neither Oriented nor Closed.
    NoHouseWires = 10,
    /// The file stops inside a record, or before its end record; a scan stops before the last triangle of its count.
    FileCut = 11,
    /// A record's kind is unknown, or its length is wrong for its kind, or it is a face with marks of which all are 0.
    Record = 12,
    /// Bytes follow the end record, or the last triangle of a scan.
    AfterEnd = 13,
    /// A coordinate in a file is not finite: not a number, or an infinity.
    NotFinite = 14,
    /// Smoothing: a face isn't a triangle.
    NotTriangle = 15,
    /// Smoothing: a face is folded, or a position is in no face.
    FoldedOrUnused = 16,
    /// Smoothing: a cosine list isn't 64 long or holds a value not within -1 to 1, or a position has over 64 neighbours.
    UnfitCosines = 17,
    /// The list of hems: the triples don't match the number of positions; in a file also: a triple is cut.
    Triples = 18,
    /// The list of hems: a coordinate of a triple is beyond 1,000,000 either way.
    TooFar = 19,
}

impl Refusal {
    /// In the order of their numbers, from 1 on.
    const ALL: &'static [Refusal] = &[
        Refusal::OverLimit,
        Refusal::Misfit,
        Refusal::FaceSize,
        Refusal::Ungrouped,
        Refusal::Index,
        Refusal::Tolerance,
        Refusal::Coordinate,
        Refusal::Quotient,
        Refusal::Room,
        Refusal::NoHouseWires,
        Refusal::FileCut,
        Refusal::Record,
        Refusal::AfterEnd,
        Refusal::NotFinite,
        Refusal::NotTriangle,
        Refusal::FoldedOrUnused,
        Refusal::UnfitCosines,
        Refusal::Triples,
        Refusal::TooFar,
    ];

    /// Its number in the table.
    pub fn number(self) -> u32 {
        self as u32
    }

    /// What a number that a call returned says. The contracts allow none beyond the table.
    pub(crate) fn unless_done(number: u32) -> Result<(), Refusal> {
        match number {
            0 => Ok(()),
            _ => Err(Refusal::ALL[number as usize - 1]),
        }
    }
}

impl Refusal {
    /// What it says, in words; the same as `bh_text` of the C header.
    pub fn text(self) -> &'static str {
        match self {
            Refusal::OverLimit => "a list is over its limit",
            Refusal::Misfit => "a length is no multiple of its width, or the sizes don't add up to the corners",
            Refusal::FaceSize => "a face size lies outside 3 to 300",
            Refusal::Ungrouped => "the sizes aren't grouped",
            Refusal::Index => "an index is out of range",
            Refusal::Tolerance => "the tolerance is not a number from 2^-30 to 1",
            Refusal::Coordinate => "a coordinate is not finite or too large",
            Refusal::Quotient => "a coordinate is too large for the tolerance",
            Refusal::Room => "a lent list is too short",
            Refusal::NoHouseWires => "the verdict is neither Oriented nor Closed",
            Refusal::FileCut => "the file stops too early",
            Refusal::Record => "a record's kind is unknown, or its length is wrong, or a face for marks has none",
            Refusal::AfterEnd => "bytes follow the end record, or the last triangle of a scan",
            Refusal::NotFinite => "a coordinate in a file is not finite",
            Refusal::NotTriangle => "a face isn't a triangle",
            Refusal::FoldedOrUnused => "a face is folded, or a position is in no face",
            Refusal::UnfitCosines => "a cosine list isn't 64 long or holds a value not within -1 to 1, or a position has over 64 neighbours",
            Refusal::Triples => "the triples don't match the number of positions",
            Refusal::TooFar => "a coordinate of a triple is beyond 1,000,000 either way",
        }
    }
}

impl std::fmt::Display for Refusal {
    fn fmt(&self, f: &mut std::fmt::Formatter) -> std::fmt::Result {
        write!(f, "refused {}: {}", self.number(), self.text())
    }
}

impl std::error::Error for Refusal {}

/// How the edges of a mesh are used, from the weakest to the strongest.
#[derive(Clone, Copy, Debug, PartialEq, Eq, PartialOrd, Ord, Hash)]
#[repr(u32)]
pub enum Verdict {
    /// Some edge is used three times or more.
    Irregular = 0,
    /// Else: some edge is used twice in the same direction.
    Regular = 1,
    /// Else: some edge is used exactly once.
    Oriented = 2,
    /// Else.
    Closed = 3,
}

/// Its name, as it stands on a sheet.
impl std::fmt::Display for Verdict {
    fn fmt(&self, f: &mut std::fmt::Formatter) -> std::fmt::Result {
        f.pad(match self {
            Verdict::Irregular => "Irregular",
            Verdict::Regular => "Regular",
            Verdict::Oriented => "Oriented",
            Verdict::Closed => "Closed",
        })
    }
}

impl Verdict {
    /// The verdict of a number that the library wrote. The contract allows none above 3.
    pub(crate) fn of(number: u32) -> Verdict {
        [Verdict::Irregular, Verdict::Regular, Verdict::Oriented, Verdict::Closed][number as usize]
    }
}
