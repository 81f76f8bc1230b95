//! What is asked: the product by its C interface, as its header has it (a slice passes as pointer and length), or, in its place,
//! document 01's reading.

use crate::lent::Lent;
use judge::calls::OWN_LISTS;
use judge::{reading, Answer, Call, Count, Mesh, Question};
use std::os::raw::c_char;

/// Told before each call which call it is and on which mesh, so that a crash can be named.
pub type Watch = Option<extern "C" fn(*const c_char, u64)>;

macro_rules! on_mesh {
    ($($more: ty),* => $answer: ty) => {
        Option<unsafe extern "C" fn(
            *const f64, usize, *const f64, usize, *const f64, usize, *const u32, usize, *const u32, usize $(, $more)*
        ) -> $answer>
    };
}

/// A function that reads a file, a panel file or a scan, into the five lists of a mesh.
pub type Reader = Option<
    unsafe extern "C" fn(
        *const u8,
        usize,
        *mut f64,
        usize,
        *mut f64,
        usize,
        *mut f64,
        usize,
        *mut u32,
        usize,
        *mut u32,
        usize,
        *mut u64,
        *mut u64,
        *mut u64,
        *mut u64,
        *mut u64,
    ) -> u32,
>;

/// One that makes of a file another, or a sheet.
pub type Writer = Option<unsafe extern "C" fn(*const u8, usize, *mut u8, usize, *mut u64) -> u32>;

/// One that changes the lists of its mesh, but for the sizes, and is lent a list of numbers.
pub type InPlace = Option<
    unsafe extern "C" fn(
        *mut f64,
        usize,
        *mut f64,
        usize,
        *mut f64,
        usize,
        *mut u32,
        usize,
        *const u32,
        usize,
        *mut u32,
        usize,
        *mut u64,
        *mut u64,
        *mut u64,
    ) -> u32,
>;

/// Where each function of the product is; none where the library does not have it yet.
#[repr(C)]
#[derive(Clone, Copy)]
pub struct Library {
    pub mesh_number: on_mesh!(=> u32),
    pub face: on_mesh!(usize, *mut u64, *mut u64 => ()),
    pub remove_unused_attrs: on_mesh!(
        *mut u32, usize, *mut f64, usize, *mut f64, usize, *mut f64, usize, *mut u64, *mut u64, *mut u64 => u32),
    pub remove_degenerate_faces: on_mesh!(*mut u32, usize, *mut u32, usize, *mut u32, usize, *mut u64, *mut u64 => u32),
    pub put_together_same_attrs: on_mesh!(f64, *mut u32, usize, *mut u64, *mut u64, *mut u64 => u32),
    pub shell_condition: on_mesh!(*mut u32 => u32),
    pub hem_edges: on_mesh!(*mut u32, usize, *mut u32, usize, *mut u64 => u32),
    pub extract_boundaries: on_mesh!(*mut u32, usize, *mut u32, usize, *mut u64, *mut u64 => u32),
    pub house_wires: on_mesh!(*mut u32, usize, *mut u32, usize, *mut u64, *mut u64 => u32),
    pub components: on_mesh!(bool, *mut u32, usize, *mut u32, usize, *mut u64, *mut u64 => u32),
    pub read_panel: Reader,
    pub write_panel: on_mesh!(*mut u8, usize, *mut u64 => u32),
    pub clean_panel: Writer,
    pub sheet: Writer,
    pub push: Option<
        unsafe extern "C" fn(*const u32, usize, *const u32, usize, *mut u32, usize, *mut u32, usize, *mut u64, *mut u64) -> u32,
    >,
    pub loop_subdivision: on_mesh!(
        *const f64, usize, *const f64, usize, *mut f64, usize, *mut u32, usize, *mut u32, usize, *mut u64, *mut u64, *mut u64 => u32),
    pub read_scan: Reader,
    pub scan_sheet: Writer,
    pub put_together_by_cell: on_mesh!(f64, *mut u32, usize, *mut u64, *mut u64, *mut u64 => u32),
    pub compact_in_place: InPlace,
    pub list_hems: on_mesh!(
        *const i32, usize, *mut u32, usize, *mut u32, usize, *mut u64, usize, *mut u64 => u32),
    pub hem_sheet: Writer,
}

/// What came back from the product.
pub struct Asked {
    pub number: u32,
    pub lists: Vec<Lent>,
    /// Each filled with `UNTOUCHED` before the call.
    pub counts: Vec<u64>,
    /// Whether the lists that were only to be read are as they were.
    pub input_kept: bool,
}

/// What stands in a count before the call. (A verdict is 32 bits of it.)
pub const UNTOUCHED: u64 = 0x5a5a_5a5a_5a5a_5a5a;
const UNTOUCHED_VERDICT: u32 = 0x5a5a_5a5a;

impl Asked {
    /// The lists and counts of a question before it is asked. Those that a call changes hold the mesh's numbers.
    pub fn before(call: Call, question: &Question) -> Asked {
        let shape = Answer::refused(call, 0);
        let mut lists: Vec<Lent> = vec![];
        if call.changes_its_mesh() {
            lists.extend(Answer::unmoved(0, &question.mesh).lists[..OWN_LISTS].iter().map(Lent::holding));
        }
        let lent = shape.lists.iter().skip(lists.len()).zip(&question.rooms).map(|(list, room)| Lent::like(list, *room));
        lists.extend(lent);
        Asked { number: 0, lists, counts: vec![UNTOUCHED; shape.counts.len()], input_kept: true }
    }

    /// What a product would give back that answers so.
    pub fn answering(call: Call, question: &Question, answer: &Answer) -> Asked {
        let mut asked = Asked::before(call, question);
        asked.number = answer.number;
        asked.lists.iter_mut().zip(&answer.lists).for_each(|(list, numbers)| list.overwrite(numbers));
        for (place, count) in asked.counts.iter_mut().zip(&answer.counts) {
            if let Count::Is(count) = count {
                *place = *count;
            }
        }
        asked
    }
}

/// Something that answers the calls.
pub trait Product {
    /// Whether it has this call.
    fn has(&self, call: Call) -> bool;
    /// Asks a call that is there.
    fn ask(&self, call: Call, question: &Question) -> Asked;
}

/// Document 01's reading in the product's place.
pub struct Reading;

impl Product for Reading {
    fn has(&self, _: Call) -> bool {
        true
    }

    fn ask(&self, call: Call, question: &Question) -> Asked {
        Asked::answering(call, question, &reading::answer(call, question))
    }
}

impl Product for Library {
    fn has(&self, call: Call) -> bool {
        match call {
            Call::MeshNumber => self.mesh_number.is_some(),
            Call::Face => self.face.is_some(),
            Call::RemoveUnusedAttrs => self.remove_unused_attrs.is_some(),
            Call::RemoveDegenerateFaces => self.remove_degenerate_faces.is_some(),
            Call::PutTogetherSameAttrs => self.put_together_same_attrs.is_some(),
            Call::ShellCondition => self.shell_condition.is_some(),
            Call::HemEdges => self.hem_edges.is_some(),
            Call::ExtractBoundaries => self.extract_boundaries.is_some(),
            Call::HouseWires => self.house_wires.is_some(),
            Call::Components => self.components.is_some(),
            Call::ReadPanel => self.read_panel.is_some(),
            Call::WritePanel => self.write_panel.is_some(),
            Call::CleanPanel => self.clean_panel.is_some(),
            Call::Sheet => self.sheet.is_some(),
            Call::Push => self.push.is_some(),
            Call::LoopSubdivision => self.loop_subdivision.is_some(),
            Call::ReadScan => self.read_scan.is_some(),
            Call::ScanSheet => self.scan_sheet.is_some(),
            Call::PutTogetherByCell => self.put_together_by_cell.is_some(),
            Call::CompactInPlace => self.compact_in_place.is_some(),
            Call::ListHems => self.list_hems.is_some(),
            Call::HemSheet => self.hem_sheet.is_some(),
        }
    }

    fn ask(&self, call: Call, question: &Question) -> Asked {
        let (lent, mut asked) = (question.clone(), Asked::before(call, question));
        self.put(call, &lent, &mut asked);
        asked.input_kept = is_same(&lent.mesh, &question.mesh)
            && lent.file == question.file
            && lent.triples == question.triples
            && same_bits(&lent.ones, &question.ones)
            && same_bits(&lent.twos, &question.twos);
        asked
    }
}

impl Library {
    /// The call itself, over the lists and counts that are there.
    pub fn put(&self, call: Call, question: &Question, asked: &mut Asked) {
        // Safety: the pointers and lengths are those of live lists, and each count has its place.
        unsafe {
            if call.reads_a_file() {
                self.ask_of_file(call, &question.file, asked);
            } else {
                self.ask_of_mesh(call, question, asked);
            }
        }
    }

    unsafe fn ask_of_mesh(&self, call: Call, question: &Question, asked: &mut Asked) {
        let mesh = &question.mesh;
        macro_rules! on {
            ($name: ident $(, $more: expr)*) => {
                self.$name.unwrap()(
                    mesh.positions.as_ptr(), mesh.positions.len(),
                    mesh.textures.as_ptr(), mesh.textures.len(),
                    mesh.normals.as_ptr(), mesh.normals.len(),
                    mesh.corners.as_ptr(), mesh.corners.len(),
                    mesh.sizes.as_ptr(), mesh.sizes.len()
                    $(, $more)*
                )
            };
        }
        let counts = asked.counts.as_mut_ptr();
        macro_rules! merge {
            ($name: ident) => {{
                let (corners, room) = asked.lists[0].words();
                asked.number = on!($name, question.tolerance, corners, room, counts, counts.add(1), counts.add(2));
            }};
        }
        macro_rules! rows {
            ($name: ident $(, $more: expr)*) => {{
                let (flat, flat_room) = asked.lists[0].words();
                let (lengths, lengths_room) = asked.lists[1].words();
                asked.number = on!($name $(, $more)*, flat, flat_room, lengths, lengths_room, counts, counts.add(1));
            }};
        }
        match call {
            Call::MeshNumber => asked.number = on!(mesh_number),
            Call::Face => on!(face, question.face, counts, counts.add(1)),
            Call::RemoveUnusedAttrs => {
                let (corners, corners_room) = asked.lists[0].words();
                let (positions, positions_room) = asked.lists[1].floats();
                let (textures, textures_room) = asked.lists[2].floats();
                let (normals, normals_room) = asked.lists[3].floats();
                asked.number = on!(
                    remove_unused_attrs,
                    corners,
                    corners_room,
                    positions,
                    positions_room,
                    textures,
                    textures_room,
                    normals,
                    normals_room,
                    counts,
                    counts.add(1),
                    counts.add(2)
                );
            }
            Call::RemoveDegenerateFaces => {
                let (corners, corners_room) = asked.lists[0].words();
                let (sizes, sizes_room) = asked.lists[1].words();
                let (origins, origins_room) = asked.lists[2].words();
                asked.number = on!(
                    remove_degenerate_faces,
                    corners,
                    corners_room,
                    sizes,
                    sizes_room,
                    origins,
                    origins_room,
                    counts,
                    counts.add(1)
                );
            }
            Call::CompactInPlace => {
                let (positions, positions_len) = asked.lists[0].floats();
                let (textures, textures_len) = asked.lists[1].floats();
                let (normals, normals_len) = asked.lists[2].floats();
                let (corners, corners_len) = asked.lists[3].words();
                let (numbers, room) = asked.lists[OWN_LISTS].words();
                asked.number = self.compact_in_place.unwrap()(
                    positions,
                    positions_len,
                    textures,
                    textures_len,
                    normals,
                    normals_len,
                    corners,
                    corners_len,
                    mesh.sizes.as_ptr(),
                    mesh.sizes.len(),
                    numbers,
                    room,
                    counts,
                    counts.add(1),
                    counts.add(2),
                );
            }
            Call::PutTogetherSameAttrs => merge!(put_together_same_attrs),
            Call::PutTogetherByCell => merge!(put_together_by_cell),
            Call::ShellCondition => {
                let mut verdict = UNTOUCHED_VERDICT;
                asked.number = on!(shell_condition, &mut verdict);
                asked.counts[0] = if verdict == UNTOUCHED_VERDICT { UNTOUCHED } else { verdict as u64 };
            }
            Call::HemEdges => {
                let (starts, starts_room) = asked.lists[0].words();
                let (ends, ends_room) = asked.lists[1].words();
                asked.number = on!(hem_edges, starts, starts_room, ends, ends_room, counts);
            }
            Call::ExtractBoundaries => rows!(extract_boundaries),
            Call::HouseWires => rows!(house_wires),
            Call::Components => rows!(components, question.use_normal),
            Call::Push => {
                let (corners, corners_room) = asked.lists[0].words();
                let (sizes, sizes_room) = asked.lists[1].words();
                asked.number = self.push.unwrap()(
                    mesh.corners.as_ptr(),
                    mesh.corners.len(),
                    mesh.sizes.as_ptr(),
                    mesh.sizes.len(),
                    corners,
                    corners_room,
                    sizes,
                    sizes_room,
                    counts,
                    counts.add(1),
                );
            }
            Call::WritePanel => {
                let (file, room) = asked.lists[0].bytes();
                asked.number = on!(write_panel, file, room, counts);
            }
            Call::LoopSubdivision => {
                let (positions, positions_room) = asked.lists[0].floats();
                let (corners, corners_room) = asked.lists[1].words();
                let (sizes, sizes_room) = asked.lists[2].words();
                asked.number = on!(
                    loop_subdivision,
                    question.ones.as_ptr(),
                    question.ones.len(),
                    question.twos.as_ptr(),
                    question.twos.len(),
                    positions,
                    positions_room,
                    corners,
                    corners_room,
                    sizes,
                    sizes_room,
                    counts,
                    counts.add(1),
                    counts.add(2)
                );
            }
            Call::ListHems => {
                let (panels, panels_room) = asked.lists[0].words();
                let (edges, edges_room) = asked.lists[1].words();
                let (lengths, lengths_room) = asked.lists[2].longs();
                asked.number = on!(
                    list_hems,
                    question.triples.as_ptr(),
                    question.triples.len(),
                    panels,
                    panels_room,
                    edges,
                    edges_room,
                    lengths,
                    lengths_room,
                    counts
                );
            }
            Call::ReadPanel | Call::CleanPanel | Call::Sheet | Call::ReadScan | Call::ScanSheet | Call::HemSheet => {
                unreachable!()
            }
        }
    }

    /// The function of a call that makes bytes of a file's.
    fn writer(&self, call: Call) -> Writer {
        match call {
            Call::Sheet => self.sheet,
            Call::ScanSheet => self.scan_sheet,
            Call::HemSheet => self.hem_sheet,
            _ => self.clean_panel,
        }
    }

    unsafe fn ask_of_file(&self, call: Call, file: &[u8], asked: &mut Asked) {
        let counts = asked.counts.as_mut_ptr();
        let reader = match call {
            Call::ReadPanel => self.read_panel.unwrap(),
            Call::ReadScan => self.read_scan.unwrap(),
            _ => {
                let (made, room) = asked.lists[0].bytes();
                asked.number = self.writer(call).unwrap()(file.as_ptr(), file.len(), made, room, counts);
                return;
            }
        };
        let (positions, positions_room) = asked.lists[0].floats();
        let (textures, textures_room) = asked.lists[1].floats();
        let (normals, normals_room) = asked.lists[2].floats();
        let (corners, corners_room) = asked.lists[3].words();
        let (sizes, sizes_room) = asked.lists[4].words();
        asked.number = reader(
            file.as_ptr(),
            file.len(),
            positions,
            positions_room,
            textures,
            textures_room,
            normals,
            normals_room,
            corners,
            corners_room,
            sizes,
            sizes_room,
            counts,
            counts.add(1),
            counts.add(2),
            counts.add(3),
            counts.add(4),
        );
    }
}

/// Equal bit for bit.
fn is_same(a: &Mesh, b: &Mesh) -> bool {
    same_bits(&a.positions, &b.positions)
        && same_bits(&a.textures, &b.textures)
        && same_bits(&a.normals, &b.normals)
        && a.corners == b.corners
        && a.sizes == b.sizes
}

fn same_bits(list: &[f64], other: &[f64]) -> bool {
    list.iter().map(|x| x.to_bits()).eq(other.iter().map(|x| x.to_bits()))
}
