//! The calls of the product's C interface, what can be asked of each, and the one shape of all their answers.

use crate::mesh::{Compacted, Hem, Merged, Mesh, Moved, Pushed, Smoothed, Unfolded, Verdict, WIDTH};
use crate::reading::smoothing::Cosines;

#[derive(Clone, Copy, Debug, PartialEq, Eq)]
pub enum Call {
    MeshNumber,
    Face,
    RemoveUnusedAttrs,
    RemoveDegenerateFaces,
    PutTogetherSameAttrs,
    ShellCondition,
    HemEdges,
    ExtractBoundaries,
    HouseWires,
    Components,
    ReadPanel,
    WritePanel,
    CleanPanel,
    Sheet,
    Push,
    LoopSubdivision,
    ReadScan,
    ScanSheet,
    PutTogetherByCell,
    CompactInPlace,
    ListHems,
    HemSheet,
}

impl Call {
    /// In the order in which they came to be compared.
    pub const ALL: [Call; 22] = [
        Call::MeshNumber,
        Call::Face,
        Call::RemoveUnusedAttrs,
        Call::RemoveDegenerateFaces,
        Call::PutTogetherSameAttrs,
        Call::ShellCondition,
        Call::HemEdges,
        Call::ExtractBoundaries,
        Call::HouseWires,
        Call::Components,
        Call::ReadPanel,
        Call::WritePanel,
        Call::CleanPanel,
        Call::Sheet,
        Call::Push,
        Call::LoopSubdivision,
        Call::ReadScan,
        Call::ScanSheet,
        Call::PutTogetherByCell,
        Call::CompactInPlace,
        Call::ListHems,
        Call::HemSheet,
    ];

    /// The name in the C interface, without its prefix.
    pub fn name(self) -> &'static str {
        match self {
            Call::MeshNumber => "mesh_number",
            Call::Face => "face",
            Call::RemoveUnusedAttrs => "remove_unused_attrs",
            Call::RemoveDegenerateFaces => "remove_degenerate_faces",
            Call::PutTogetherSameAttrs => "put_together_same_attrs",
            Call::ShellCondition => "shell_condition",
            Call::HemEdges => "hem_edges",
            Call::ExtractBoundaries => "extract_boundaries",
            Call::HouseWires => "house_wires",
            Call::Components => "components",
            Call::ReadPanel => "read_panel",
            Call::WritePanel => "write_panel",
            Call::CleanPanel => "clean_panel",
            Call::Sheet => "sheet",
            Call::Push => "push",
            Call::LoopSubdivision => "loop_subdivision",
            Call::ReadScan => "read_scan",
            Call::ScanSheet => "scan_sheet",
            Call::PutTogetherByCell => "put_together_by_cell",
            Call::CompactInPlace => "compact_in_place",
            Call::ListHems => "list_hems",
            Call::HemSheet => "hem_sheet",
        }
    }

    pub fn about(self) -> About {
        match self {
            // What the hem sheet reads is a panel file with a count before it and triples behind it.
            Call::ReadPanel | Call::CleanPanel | Call::Sheet | Call::HemSheet => About::PanelFile,
            Call::ReadScan | Call::ScanSheet => About::Scan,
            _ => About::Mesh,
        }
    }

    /// Whether it is one of the two calls that merge. They are asked the same and must answer the same.
    pub fn merges(self) -> bool {
        [Call::PutTogetherSameAttrs, Call::PutTogetherByCell].contains(&self)
    }

    /// Whether the call changes the lists of its mesh where they stand: `OWN_LISTS` of them, which come first among those that it may write.
    pub fn changes_its_mesh(self) -> bool {
        self == Call::CompactInPlace
    }

    /// Whether the call reads a file in the place of a mesh.
    pub fn reads_a_file(self) -> bool {
        self.about() != About::Mesh
    }
}

/// The lists of a mesh that are changed where they stand: all but the sizes.
pub const OWN_LISTS: usize = 4;

/// What a call is asked about.
#[derive(Clone, Copy, Debug, PartialEq, Eq)]
pub enum About {
    Mesh,
    PanelFile,
    Scan,
}

/// All that a call can be given. A call looks at its own part: `face`, `use_normal`, the cosines and the triples belong to one call each, `tolerance` to the two that merge, `file` to
/// those that read a panel file or a scan, of the mesh only the faces to `push`, `rooms` holds the length of each lent result list, in the order of the C interface; a list
/// of the mesh that is changed where it stands is none of these.
#[derive(Clone, Debug, Default)]
pub struct Question {
    pub mesh: Mesh,
    pub face: usize,
    pub tolerance: f64,
    pub use_normal: bool,
    pub ones: Vec<f64>,
    pub twos: Vec<f64>,
    pub triples: Vec<i32>,
    pub file: Vec<u8>,
    pub rooms: Vec<usize>,
}

impl Question {
    pub fn cosines(&self) -> Cosines<'_> {
        Cosines { ones: &self.ones, twos: &self.twos }
    }
}

/// The numbers at the front of one list that may be written; the room past them stays as it was.
#[derive(Clone, Debug)]
pub enum Numbers {
    Floats(Vec<f64>),
    Words(Vec<u32>),
    Longs(Vec<u64>),
    Bytes(Vec<u8>),
}

/// A number that is answered beside the lists.
#[derive(Clone, Copy, Debug, PartialEq, Eq)]
pub enum Count {
    Is(u64),
    Untouched,
}

/// The number of the table, what stands in each list that may be written, and each count, in the order of the C interface.
#[derive(Clone, Debug)]
pub struct Answer {
    pub number: u32,
    pub lists: Vec<Numbers>,
    pub counts: Vec<Count>,
}

impl Answer {
    /// A refusal: nothing is written to any list, each count is 0, and a verdict is not answered. (`unmoved` has the lists too that are the mesh's own.)
    pub fn refused(call: Call, number: u32) -> Answer {
        use Numbers::{Bytes, Floats, Longs, Words};
        let (floats, words) = (|| Floats(vec![]), || Words(vec![]));
        let (lists, counts) = match call {
            Call::MeshNumber => (vec![], 0),
            Call::Face => (vec![], 2),
            Call::RemoveUnusedAttrs => (vec![words(), floats(), floats(), floats()], 3),
            Call::RemoveDegenerateFaces => (vec![words(), words(), words()], 2),
            Call::PutTogetherSameAttrs | Call::PutTogetherByCell => (vec![words()], 3),
            Call::CompactInPlace => (vec![floats(), floats(), floats(), words(), words()], 3),
            Call::ShellCondition => return Answer { number, lists: vec![], counts: vec![Count::Untouched] },
            Call::HemEdges => (vec![words(), words()], 1),
            Call::Push | Call::ExtractBoundaries | Call::HouseWires | Call::Components => (vec![words(), words()], 2),
            Call::ReadPanel | Call::ReadScan => (vec![floats(), floats(), floats(), words(), words()], 5),
            Call::WritePanel | Call::CleanPanel | Call::Sheet | Call::ScanSheet | Call::HemSheet => (vec![Bytes(vec![])], 1),
            Call::ListHems => (vec![words(), words(), Longs(vec![])], 1),
            Call::LoopSubdivision => (vec![floats(), words(), words()], 3),
        };
        Answer { number, lists, counts: vec![Count::Is(0); counts] }
    }

    fn done(lists: Vec<Numbers>, counts: &[usize]) -> Answer {
        Answer { number: 0, lists, counts: counts.iter().map(|count| Count::Is(*count as u64)).collect() }
    }

    pub fn mesh_number(number: u32) -> Answer {
        Answer { number, lists: vec![], counts: vec![] }
    }

    pub fn face(start: usize, len: usize) -> Answer {
        Answer::done(vec![], &[start, len])
    }

    pub fn compacted(made: Compacted) -> Answer {
        let counts = [made.positions.len() / 3, made.textures.len() / 2, made.normals.len() / 3];
        let lists = vec![
            Numbers::Words(made.corners),
            Numbers::Floats(made.positions),
            Numbers::Floats(made.textures),
            Numbers::Floats(made.normals),
        ];
        Answer::done(lists, &counts)
    }

    /// A mesh that was changed where it stands, how many entries of each list count, and the front of the number list.
    pub fn in_place(moved: Moved) -> Answer {
        let counts = moved.counts;
        Answer::done(Answer::own_lists(moved.mesh, moved.numbers), &counts)
    }

    /// A refusal of a call that would change its mesh: the lists are as they were.
    pub fn unmoved(number: u32, mesh: &Mesh) -> Answer {
        Answer { number, lists: Answer::own_lists(mesh.clone(), vec![]), counts: vec![Count::Is(0); 3] }
    }

    fn own_lists(mesh: Mesh, numbers: Vec<u32>) -> Vec<Numbers> {
        let Mesh { positions, textures, normals, corners, .. } = mesh;
        let attributes = [positions, textures, normals].map(Numbers::Floats);
        attributes.into_iter().chain([Numbers::Words(corners), Numbers::Words(numbers)]).collect()
    }

    pub fn pushed(made: Pushed) -> Answer {
        let counts = [made.corners.len() / WIDTH, made.sizes.len()];
        Answer::done(vec![Numbers::Words(made.corners), Numbers::Words(made.sizes)], &counts)
    }

    /// The faces count their origins too.
    pub fn unfolded(made: Unfolded) -> Answer {
        let counts = [made.corners.len() / WIDTH, made.sizes.len()];
        let lists = vec![Numbers::Words(made.corners), Numbers::Words(made.sizes), Numbers::Words(made.origins)];
        Answer::done(lists, &counts)
    }

    pub fn smoothed(made: Smoothed) -> Answer {
        let counts = [made.positions.len() / 3, made.corners.len() / WIDTH, made.sizes.len()];
        Answer::done(vec![Numbers::Floats(made.positions), Numbers::Words(made.corners), Numbers::Words(made.sizes)], &counts)
    }

    pub fn merged(made: Merged) -> Answer {
        let counts = made.pairs.iter().map(|pairs| Count::Is(*pairs)).collect();
        Answer { number: 0, lists: vec![Numbers::Words(made.corners)], counts }
    }

    pub fn verdict(verdict: Verdict) -> Answer {
        Answer::done(vec![], &[verdict as usize])
    }

    pub fn hem_edges(hems: &[[u32; 2]]) -> Answer {
        let column = |end: usize| Numbers::Words(hems.iter().map(|hem| hem[end]).collect());
        Answer::done(vec![column(0), column(1)], &[hems.len()])
    }

    /// Wires or panels, as a flat list and a list of lengths.
    pub fn rows(rows: &[Vec<u32>]) -> Answer {
        let flat: Vec<u32> = rows.iter().flatten().copied().collect();
        let lengths: Vec<u32> = rows.iter().map(|row| row.len() as u32).collect();
        let counts = [flat.len(), lengths.len()];
        Answer::done(vec![Numbers::Words(flat), Numbers::Words(lengths)], &counts)
    }

    /// The panel, the number of edges and the length of each hem.
    pub fn hems(hems: &[Hem]) -> Answer {
        let column = |number: fn(&Hem) -> u32| Numbers::Words(hems.iter().map(number).collect());
        let lengths = Numbers::Longs(hems.iter().map(|hem| hem.length).collect());
        Answer::done(vec![column(|hem| hem.panel), column(|hem| hem.edges), lengths], &[hems.len()])
    }

    pub fn read(mesh: Mesh) -> Answer {
        let counts =
            [mesh.positions.len() / 3, mesh.textures.len() / 2, mesh.normals.len() / 3, mesh.corner_count(), mesh.sizes.len()];
        let lists = vec![
            Numbers::Floats(mesh.positions),
            Numbers::Floats(mesh.textures),
            Numbers::Floats(mesh.normals),
            Numbers::Words(mesh.corners),
            Numbers::Words(mesh.sizes),
        ];
        Answer::done(lists, &counts)
    }

    pub fn sheet(text: String) -> Answer {
        Answer::bytes(text.into_bytes())
    }

    /// A file, or a sheet, and its length.
    pub fn bytes(bytes: Vec<u8>) -> Answer {
        let length = bytes.len();
        Answer::done(vec![Numbers::Bytes(bytes)], &[length])
    }
}
