//! The verified mesh library of Barleyhinge, for Rust.
//!
//! Each method passes on to the library's function of the same name (`include/barleyhinge.h` says what it promises), lends it the room
//! that is stated for it, and gives back what was written, as lists of its own, but for [`OwnedMesh::compact_in_place`], which changes the mesh's own lists. A number other than 0 comes back as a [`Refusal`].
//!
//! The library itself allocates nothing and has no statics, so calls may run side by side. It needs stack: the most for
//! [`sheet`] and for cleaning a file, less than 400 KB (`include/barleyhinge.h` has the figure of each call); a Rust thread has 2 MB unless it is asked for less.
//!
//! ```no_run
//! use barleyhinge::{read_panel, Refusal, Verdict};
//!
//! fn hems(file: &[u8]) -> Result<usize, Refusal> {
//!     let read = read_panel(file)?;
//!     let mesh = read.mesh();
//!     match mesh.shell_condition()? {
//!         Verdict::Oriented | Verdict::Closed => Ok(mesh.house_wires()?.rows().count()),
//!         _ => Ok(mesh.hem_edges()?.len()),
//!     }
//! }
//! ```

mod library;
mod numbers;

pub use numbers::{Refusal, Verdict};

/// The index that means 'missing'.
pub const MISSING: u32 = 4_294_967_295;

/// How many numbers a corner has: the index of its position, of its texture point and of its normal, and its mark, 0 for none.
pub const CORNER_WIDTH: usize = 4;

/// The most positions, texture points or normals of a mesh.
pub const MAX_ENTRIES: usize = 2_048;

/// The most corners of a mesh.
pub const MAX_CORNERS: usize = 4_096;

/// The most faces of a mesh.
pub const MAX_FACES: usize = 1_365;

/// The most corners of a face.
pub const MAX_FACE_CORNERS: usize = 300;

/// How many values a list of cosines has, and how many neighbours a position may have that is smoothed.
pub const COSINES: usize = 64;

/// The farthest from 0 that a coordinate of a triple may be, either way, in tenths of a millimetre.
pub const MAX_COORDINATE: i32 = 1_000_000;

/// The most bytes of a panel file that has a sheet, and of what [`hem_sheet`] takes in all; of a longer one the sheet is `refused 1`.
pub const MAX_FILE: usize = 65_536;

/// Room for every sheet, in bytes.
pub const SHEET_ROOM: usize = 65_536;

/// Room for every hem sheet, in bytes.
pub const HEM_ROOM: usize = 106_496;

/// Room for every panel file that a mesh can make, in bytes: all of its lists are at their limits, and every face has a mark.
pub const FILE_ROOM: usize = 229_378;

/// A mesh in five lists that are only read: 3 numbers to a position, 2 to a texture point, 3 to a normal; [`CORNER_WIDTH`] to a corner
/// (the indices of position, texture point and normal, and the mark, which no rule tests and which moves with its corner); and how many corners each
/// face has: triangles first, then quadrangles, then larger faces.
#[derive(Clone, Copy, Debug, Default)]
pub struct Mesh<'a> {
    pub positions: &'a [f64],
    pub textures: &'a [f64],
    pub normals: &'a [f64],
    pub corners: &'a [u32],
    pub sizes: &'a [u32],
}

/// A mesh that has its own lists.
#[derive(Clone, Debug, Default, PartialEq)]
pub struct OwnedMesh {
    pub positions: Vec<f64>,
    pub textures: Vec<f64>,
    pub normals: Vec<f64>,
    pub corners: Vec<u32>,
    pub sizes: Vec<u32>,
}

impl OwnedMesh {
    /// Its lists, to be read.
    pub fn mesh(&self) -> Mesh<'_> {
        Mesh {
            positions: &self.positions,
            textures: &self.textures,
            normals: &self.normals,
            corners: &self.corners,
            sizes: &self.sizes,
        }
    }

    /// How many entries the longest of the three attribute lists has.
    fn longest(&self) -> usize {
        (self.positions.len() / 3).max(self.textures.len() / 2).max(self.normals.len() / 3)
    }

    /// Compaction in place: what [`Mesh::remove_unused_attrs`] gives, without a second list of coordinates. Entries move to their first-use places
    /// within the list they stand in, corners are renumbered where they stand, and each list is cut behind its last entry; its memory stays its own.
    /// Beside them there is only a list of old-to-new numbers, one for each entry of the longest list. On a refusal nothing has moved.
    pub fn compact_in_place(&mut self) -> Result<(), Refusal> {
        let mut numbers = vec![0; self.longest()];
        let (mut positions, mut textures, mut normals) = (0, 0, 0);
        let number = unsafe {
            library::bh_compact_in_place(
                self.positions.as_mut_ptr(),
                self.positions.len(),
                self.textures.as_mut_ptr(),
                self.textures.len(),
                self.normals.as_mut_ptr(),
                self.normals.len(),
                self.corners.as_mut_ptr(),
                self.corners.len(),
                self.sizes.as_ptr(),
                self.sizes.len(),
                numbers.as_mut_ptr(),
                numbers.len(),
                &mut positions,
                &mut textures,
                &mut normals,
            )
        };
        Refusal::unless_done(number)?;
        self.positions.truncate(3 * positions);
        self.textures.truncate(2 * textures);
        self.normals.truncate(3 * normals);
        Ok(())
    }
}

/// Faces that a call gives, grouped: their corners and their sizes.
#[derive(Clone, Debug, Default, PartialEq, Eq)]
pub struct Faces {
    pub corners: Vec<u32>,
    pub sizes: Vec<u32>,
}

/// What the removal of folded faces gives: the faces that are left, and for each of them the number of the face it came from.
#[derive(Clone, Debug, Default, PartialEq, Eq)]
pub struct Unfolded {
    pub faces: Faces,
    pub origins: Vec<u32>,
}

/// The two lists of cosines that smoothing takes: of pi/n and of 2·pi/n, n from 1.
#[derive(Clone, Debug, PartialEq)]
pub struct Cosines {
    pub ones: Vec<f64>,
    pub twos: Vec<f64>,
}

impl Cosines {
    /// As this machine's `f64::cos` gives them.
    pub fn new() -> Cosines {
        let of = |turn: f64| (1..=COSINES).map(|n| (turn / n as f64).cos()).collect();
        Cosines { ones: of(std::f64::consts::PI), twos: of(2.0 * std::f64::consts::PI) }
    }
}

impl Default for Cosines {
    fn default() -> Self {
        Cosines::new()
    }
}

/// What merging gives: the corners, and how many pairs were compared in each list. The other lists don't change.
#[derive(Clone, Debug, Default, PartialEq, Eq)]
pub struct Merged {
    pub corners: Vec<u32>,
    pub position_pairs: usize,
    pub texture_pairs: usize,
    pub normal_pairs: usize,
}

/// Wires or panels: all rows one after the other, and the length of each.
#[derive(Clone, Debug, Default, PartialEq, Eq)]
pub struct Rows {
    pub flat: Vec<u32>,
    pub lengths: Vec<u32>,
}

impl Rows {
    /// The rows, one by one.
    pub fn rows(&self) -> impl Iterator<Item = &[u32]> {
        let mut left = &self.flat[..];
        self.lengths.iter().map(move |length| {
            let (row, behind) = left.split_at(*length as usize);
            left = behind;
            row
        })
    }
}

/// A hem: the number of its panel, as [`Mesh::components`] lists them without the normals setting, from 0; how many edges it has; and its length in tenths of
/// a millimetre, the sum of its edges' lengths, each cut to a whole number.
#[derive(Clone, Copy, Debug, Default, PartialEq, Eq)]
pub struct Hem {
    pub panel: u32,
    pub edges: u32,
    pub length: u64,
}

// Safety, above and below: each list is a live slice that passes as its pointer, which is never null, and its length; what may be
// written is lent as `&mut` and so overlaps nothing. The library asks nothing else (no function of it has a `requires`).

/// A call on the five lists of a mesh, with what follows them.
macro_rules! on {
    ($mesh: expr, $name: ident $(, $more: expr)*) => {
        unsafe {
            library::$name(
                $mesh.positions.as_ptr(), $mesh.positions.len(),
                $mesh.textures.as_ptr(), $mesh.textures.len(),
                $mesh.normals.as_ptr(), $mesh.normals.len(),
                $mesh.corners.as_ptr(), $mesh.corners.len(),
                $mesh.sizes.as_ptr(), $mesh.sizes.len()
                $(, $more)*
            )
        }
    };
}

/// A call that gives rows: a flat list with this room, and lengths with room for one number per corner.
macro_rules! rows {
    ($mesh: expr, $name: ident, $room: expr $(, $more: expr)*) => {{
        let mut flat = vec![0; $room];
        let mut lengths = vec![0; $mesh.corner_count()];
        let (mut numbers, mut rows) = (0, 0);
        let number = on!(
            $mesh, $name $(, $more)*,
            flat.as_mut_ptr(), flat.len(), lengths.as_mut_ptr(), lengths.len(), &mut numbers, &mut rows
        );
        Refusal::unless_done(number)?;
        flat.truncate(numbers);
        lengths.truncate(rows);
        Ok(Rows { flat, lengths })
    }};
}

/// A call that reads a file into the five lists of a mesh, which are lent at the full limits.
macro_rules! read {
    ($name: ident, $file: expr) => {{
        let mut read = OwnedMesh {
            positions: vec![0.0; 3 * MAX_ENTRIES],
            textures: vec![0.0; 2 * MAX_ENTRIES],
            normals: vec![0.0; 3 * MAX_ENTRIES],
            corners: vec![0; CORNER_WIDTH * MAX_CORNERS],
            sizes: vec![0; MAX_FACES],
        };
        let (mut positions, mut textures, mut normals, mut corners, mut faces) = (0, 0, 0, 0, 0);
        let number = unsafe {
            library::$name(
                $file.as_ptr(),
                $file.len(),
                read.positions.as_mut_ptr(),
                read.positions.len(),
                read.textures.as_mut_ptr(),
                read.textures.len(),
                read.normals.as_mut_ptr(),
                read.normals.len(),
                read.corners.as_mut_ptr(),
                read.corners.len(),
                read.sizes.as_mut_ptr(),
                read.sizes.len(),
                &mut positions,
                &mut textures,
                &mut normals,
                &mut corners,
                &mut faces,
            )
        };
        Refusal::unless_done(number)?;
        read.positions.truncate(3 * positions);
        read.textures.truncate(2 * textures);
        read.normals.truncate(3 * normals);
        read.corners.truncate(CORNER_WIDTH * corners);
        read.sizes.truncate(faces);
        Ok(read)
    }};
}

impl Faces {
    /// Faces in any order, grouped: triangles first, then quadrangles, then larger faces. `corners` has the corners of all faces, one
    /// face behind the other, and `sizes` how many corners each has; faces of fewer than three are dropped. Refuses 1, 2 and 3; indices
    /// are looked at where the faces become part of a [`Mesh`].
    pub fn push(corners: &[u32], sizes: &[u32]) -> Result<Faces, Refusal> {
        let mut made = Faces { corners: vec![0; corners.len()], sizes: vec![0; sizes.len()] };
        let (mut corner_count, mut face_count) = (0, 0);
        let number = unsafe {
            library::bh_push(
                corners.as_ptr(),
                corners.len(),
                sizes.as_ptr(),
                sizes.len(),
                made.corners.as_mut_ptr(),
                made.corners.len(),
                made.sizes.as_mut_ptr(),
                made.sizes.len(),
                &mut corner_count,
                &mut face_count,
            )
        };
        Refusal::unless_done(number)?;
        made.corners.truncate(CORNER_WIDTH * corner_count);
        made.sizes.truncate(face_count);
        Ok(made)
    }
}

impl<'a> Mesh<'a> {
    fn corner_count(self) -> usize {
        self.corners.len() / CORNER_WIDTH
    }

    /// How many bytes the faces have in a panel file. (Of lists that are no mesh, and have no file, the corners that are there.)
    fn face_bytes(self) -> usize {
        let (mut rest, mut bytes) = (self.corners, 0);
        for size in self.sizes {
            let corners = (*size as usize).min(rest.len() / CORNER_WIDTH);
            let (face, behind) = rest.split_at(CORNER_WIDTH * corners);
            bytes += face_length(corners, face.chunks(CORNER_WIDTH).any(|corner| corner[CORNER_WIDTH - 1] != 0));
            rest = behind;
        }
        bytes
    }

    /// Is this a mesh? Else the first of the numbers 1 to 5 that applies.
    pub fn check(self) -> Result<(), Refusal> {
        Refusal::unless_done(on!(self, bh_mesh_number))
    }

    /// The corners of face `k`, [`CORNER_WIDTH`] numbers to each: a part of the mesh's own list. Nothing where `k` is no face or the lists earn 1
    /// to 4.
    pub fn face(self, k: usize) -> &'a [u32] {
        let (mut start, mut len) = (0, 0);
        on!(self, bh_face, k, &mut start, &mut len);
        &self.corners[start..start + len]
    }

    /// Compaction: entries that no corner uses go, the others are renumbered by first use. [`OwnedMesh::compact_in_place`] does it without a second
    /// list.
    pub fn remove_unused_attrs(self) -> Result<OwnedMesh, Refusal> {
        let mut made = OwnedMesh {
            positions: vec![0.0; self.positions.len()],
            textures: vec![0.0; self.textures.len()],
            normals: vec![0.0; self.normals.len()],
            corners: vec![0; self.corners.len()],
            sizes: self.sizes.to_vec(),
        };
        let (mut positions, mut textures, mut normals) = (0, 0, 0);
        let number = on!(
            self,
            bh_remove_unused_attrs,
            made.corners.as_mut_ptr(),
            made.corners.len(),
            made.positions.as_mut_ptr(),
            made.positions.len(),
            made.textures.as_mut_ptr(),
            made.textures.len(),
            made.normals.as_mut_ptr(),
            made.normals.len(),
            &mut positions,
            &mut textures,
            &mut normals
        );
        Refusal::unless_done(number)?;
        made.positions.truncate(3 * positions);
        made.textures.truncate(2 * textures);
        made.normals.truncate(3 * normals);
        Ok(made)
    }

    /// Folded faces go or are cut open; each face that is left comes with the number of the face it came from. The attribute lists don't
    /// change. Compaction of what is left changes no face's number, so the origins hold after it too.
    pub fn remove_degenerate_faces(self) -> Result<Unfolded, Refusal> {
        let mut made = Faces { corners: vec![0; self.corners.len()], sizes: vec![0; self.corner_count() / 3] };
        let mut origins = vec![0; self.corner_count() / 3];
        let (mut corners, mut faces) = (0, 0);
        let number = on!(
            self,
            bh_remove_degenerate_faces,
            made.corners.as_mut_ptr(),
            made.corners.len(),
            made.sizes.as_mut_ptr(),
            made.sizes.len(),
            origins.as_mut_ptr(),
            origins.len(),
            &mut corners,
            &mut faces
        );
        Refusal::unless_done(number)?;
        made.corners.truncate(CORNER_WIDTH * corners);
        made.sizes.truncate(faces);
        origins.truncate(faces);
        Ok(Unfolded { faces: made, origins })
    }

    /// Merging: near positions, texture points and normals each get the index of one of them. It looks at every pair of points: take
    /// [`put_together_by_cell`](Self::put_together_by_cell) where there are hundreds of points or more.
    pub fn put_together_same_attrs(self, tolerance: f64) -> Result<Merged, Refusal> {
        let mut made = Merged { corners: vec![0; self.corners.len()], ..Merged::default() };
        let number = on!(
            self,
            bh_put_together_same_attrs,
            tolerance,
            made.corners.as_mut_ptr(),
            made.corners.len(),
            &mut made.position_pairs,
            &mut made.texture_pairs,
            &mut made.normal_pairs
        );
        Refusal::unless_done(number)?;
        Ok(made)
    }

    /// Merging by cell: the very answers of [`put_together_same_attrs`](Self::put_together_same_attrs), found another way. The points are ordered by
    /// cell, and only cells within two on each axis are looked at: take it for hundreds of points or more, as in a scan.
    pub fn put_together_by_cell(self, tolerance: f64) -> Result<Merged, Refusal> {
        let mut made = Merged { corners: vec![0; self.corners.len()], ..Merged::default() };
        let number = on!(
            self,
            bh_put_together_by_cell,
            tolerance,
            made.corners.as_mut_ptr(),
            made.corners.len(),
            &mut made.position_pairs,
            &mut made.texture_pairs,
            &mut made.normal_pairs
        );
        Refusal::unless_done(number)?;
        Ok(made)
    }

    /// Smoothing by Loop's method: four triangles for one, old positions moved and one new position on each edge. Texture points and
    /// normals are the mesh's own; the corners on edges have neither, and no mark. Refuses 7, 15 (a face is no triangle), 16 (a face is folded, or a
    /// position is in no face), 10, 17 and 1 (more than 341 faces), in this order.
    pub fn loop_subdivision(self, cosines: &Cosines) -> Result<OwnedMesh, Refusal> {
        let mut made = OwnedMesh {
            positions: vec![0.0; self.positions.len() + 3 * self.corner_count()],
            textures: self.textures.to_vec(),
            normals: self.normals.to_vec(),
            corners: vec![0; 4 * self.corners.len()],
            sizes: vec![0; 4 * self.sizes.len()],
        };
        let (mut positions, mut corners, mut faces) = (0, 0, 0);
        let number = on!(
            self,
            bh_loop_subdivision,
            cosines.ones.as_ptr(),
            cosines.ones.len(),
            cosines.twos.as_ptr(),
            cosines.twos.len(),
            made.positions.as_mut_ptr(),
            made.positions.len(),
            made.corners.as_mut_ptr(),
            made.corners.len(),
            made.sizes.as_mut_ptr(),
            made.sizes.len(),
            &mut positions,
            &mut corners,
            &mut faces
        );
        Refusal::unless_done(number)?;
        made.positions.truncate(3 * positions);
        made.corners.truncate(CORNER_WIDTH * corners);
        made.sizes.truncate(faces);
        Ok(made)
    }

    /// The verdict.
    pub fn shell_condition(self) -> Result<Verdict, Refusal> {
        let mut verdict = 0;
        Refusal::unless_done(on!(self, bh_shell_condition, &mut verdict))?;
        Ok(Verdict::of(verdict))
    }

    /// The hem edges, from start to end, ascending by their lower and then their higher position.
    pub fn hem_edges(self) -> Result<Vec<[u32; 2]>, Refusal> {
        let mut starts = vec![0; self.corner_count()];
        let mut ends = vec![0; self.corner_count()];
        let mut count = 0;
        let number = on!(self, bh_hem_edges, starts.as_mut_ptr(), starts.len(), ends.as_mut_ptr(), ends.len(), &mut count);
        Refusal::unless_done(number)?;
        Ok(starts.into_iter().zip(ends).take(count).map(|(start, end)| [start, end]).collect())
    }

    /// The ported wires: positions.
    pub fn extract_boundaries(self) -> Result<Rows, Refusal> {
        rows!(self, bh_extract_boundaries, 2 * self.corner_count())
    }

    /// The house wires: positions. Each turns through the cloth, from a face to the one across its edge, until it comes to the next hem edge; so
    /// pieces that touch at a point have no wire in common, and two openings of one piece that touch at one point are one wire. Only where the verdict is Oriented or Closed.
    pub fn house_wires(self) -> Result<Rows, Refusal> {
        rows!(self, bh_house_wires, self.corner_count())
    }

    /// The panels: face numbers. With `use_normal`, faces hang together only where the normals at their shared edge are the same too.
    pub fn components(self, use_normal: bool) -> Result<Rows, Refusal> {
        rows!(self, bh_components, self.corner_count(), use_normal)
    }

    /// The hems, in the order of [`house_wires`](Self::house_wires): of each its panel, its number of edges and its length. `triples` are coordinates in
    /// tenths of a millimetre, three for each position; lengths go by them, and not by the mesh's own coordinates. The mesh is taken as it is, not cleaned.
    /// Refuses, after 1 to 5: 18 (the triples don't match the number of positions), 19 (a coordinate is beyond [`MAX_COORDINATE`] either way) and 10, in this
    /// order.
    pub fn list_hems(self, triples: &[i32]) -> Result<Vec<Hem>, Refusal> {
        let mut panels = vec![0; self.corner_count()];
        let mut edges = vec![0; self.corner_count()];
        let mut lengths = vec![0; self.corner_count()];
        let mut hems = 0;
        let number = on!(
            self,
            bh_list_hems,
            triples.as_ptr(),
            triples.len(),
            panels.as_mut_ptr(),
            panels.len(),
            edges.as_mut_ptr(),
            edges.len(),
            lengths.as_mut_ptr(),
            lengths.len(),
            &mut hems
        );
        Refusal::unless_done(number)?;
        let listed = panels.into_iter().zip(edges).zip(lengths).take(hems);
        Ok(listed.map(|((panel, edges), length)| Hem { panel, edges, length }).collect())
    }

    /// The mesh as a panel file: positions, texture points, normals, faces in their order, end; faces with a mark are records of kind 6, others of up to 32
    /// corners of kind 4, larger ones of kind 5. [`read_panel`] gives the same mesh back, bit for bit. Refuses 14 where a coordinate is not finite.
    pub fn to_panel(self) -> Result<Vec<u8>, Refusal> {
        let mut file = vec![
            0;
            28 * (self.positions.len() / 3)
                + 20 * (self.textures.len() / 2)
                + 28 * (self.normals.len() / 3)
                + self.face_bytes()
                + 4
        ];
        let mut length = 0;
        Refusal::unless_done(on!(self, bh_write_panel, file.as_mut_ptr(), file.len(), &mut length))?;
        file.truncate(length);
        Ok(file)
    }
}

/// How many bytes the record of a face of `n` corners has: one with a mark is of kind 6, one of more than 32 corners of kind 5, any other of kind 4.
fn face_length(n: usize, is_marked: bool) -> usize {
    match is_marked {
        true => 4 + 2 + 16 * n,
        false if n > 32 => 4 + 2 + 12 * n,
        false => 4 + 1 + 12 * n,
    }
}

/// Reads a panel file. Every coordinate of the mesh is finite.
pub fn read_panel(file: &[u8]) -> Result<OwnedMesh, Refusal> {
    read!(bh_read_panel, file)
}

/// Reads a scan, a binary STL file: triangles without texture points and normals, whose points with equal bits are one position, numbered by first
/// appearance; a negative zero is read as zero first. Folded triangles are kept, and the file's header, normals and two-byte fields are passed
/// over, whatever is in them. No two positions of the mesh are equal, each is used, and every coordinate is finite. Refuses 11 (fewer than 84
/// bytes), 1 (a count over [`MAX_FACES`]), 11 or 13 (the length is below or above what the count asks), 14 (a point that is not finite) and 1 (more than
/// [`MAX_ENTRIES`] different positions), in this order.
pub fn read_scan(file: &[u8]) -> Result<OwnedMesh, Refusal> {
    read!(bh_read_scan, file)
}

/// Cleans a panel file, as the program `meshclean` does: folded faces go or are cut open, then the entries that no corner uses go, and what
/// is left is a panel file again. Refuses 1 where the file has more than [`FILE_ROOM`] bytes, and then what [`read_panel`] refuses.
pub fn clean_panel(file: &[u8]) -> Result<Vec<u8>, Refusal> {
    let mut cleaned = vec![0; FILE_ROOM];
    let mut length = 0;
    let number = unsafe { library::bh_clean_panel(file.as_ptr(), file.len(), cleaned.as_mut_ptr(), cleaned.len(), &mut length) };
    Refusal::unless_done(number)?;
    cleaned.truncate(length);
    cleaned.shrink_to_fit();
    Ok(cleaned)
}

/// The sheet of a panel file, as the program `meshsheet` prints it. A refused file has a sheet too: the line `refused` and its number.
pub fn sheet(file: &[u8]) -> String {
    let mut text = vec![0; SHEET_ROOM];
    let mut length = 0;
    let number = unsafe { library::bh_sheet(file.as_ptr(), file.len(), text.as_mut_ptr(), text.len(), &mut length) };
    assert_eq!(number, 0, "the room is the stated one");
    text.truncate(length);
    String::from_utf8(text).expect("a sheet is ASCII")
}

/// The hem sheet, as the program `hemsheet` prints it: a line for each hem, `hem`, panel, edges and length, as [`Mesh::list_hems`] gives them. `file` is a
/// four-byte count, that many bytes of panel file, then the triples of its positions, three four-byte signed numbers to each, all little-endian; [`hem_file`]
/// makes one. The cover is taken as it is, not cleaned. A refused file has a sheet too: the line `refused` and its number.
pub fn hem_sheet(file: &[u8]) -> String {
    let mut text = vec![0; HEM_ROOM];
    let mut length = 0;
    let number = unsafe { library::bh_hem_sheet(file.as_ptr(), file.len(), text.as_mut_ptr(), text.len(), &mut length) };
    assert_eq!(number, 0, "the room is the stated one");
    text.truncate(length);
    String::from_utf8(text).expect("a sheet is ASCII")
}

/// What [`hem_sheet`] reads: the count of the panel file's bytes, these, and the triples.
pub fn hem_file(panel: &[u8], triples: &[i32]) -> Vec<u8> {
    let mut file = (panel.len() as u32).to_le_bytes().to_vec();
    file.extend(panel);
    file.extend(triples.iter().flat_map(|coordinate| coordinate.to_le_bytes()));
    file
}
