//! Writes the list of answers that crate `try_replay` replays: cases of every call but the sheets of a mesh, with every number that it can answer.
//! Each answer is document 01's reading; where the Rust has one too, untouched and ascending, it must be the same.
//!
//!     lister FILE     writes the list there, and prints how many cases each call has, and how many the Rust answered

mod broken;
mod faces;
mod hems;
mod large;
mod marks;
mod merging;
mod panel_files;
mod record;
mod scans;
mod smoothing;
mod subjects;
mod touching;

use comparer::check::{rust_differs, rust_knows};
use comparer::meshes::Case;
use judge::reading::numbers::{mesh_number, stated_rooms, NUMBERS};
use judge::{reading, Call, Mesh, Question};
use record::{File, List};

/// The longest file that the list holds as an answer.
const MOST_BYTES: usize = 4_096;

/// The calls that the list asks: all but the sheets of a mesh, from a panel file and from a scan, and compaction in place, which the replay asks of every case of ordinary
/// compaction.
fn calls() -> impl Iterator<Item = Call> {
    Call::ALL.into_iter().filter(|call| ![Call::Sheet, Call::ScanSheet, Call::CompactInPlace].contains(call))
}

/// Those that are asked of every mesh. Smoothing has surfaces of its own, and the list of hems meshes with triples.
fn calls_on_meshes() -> impl Iterator<Item = Call> {
    calls().filter(|call| !call.reads_a_file() && ![Call::LoopSubdivision, Call::ListHems].contains(call))
}

/// The place of a call among all of them.
fn place(call: Call) -> usize {
    Call::ALL.iter().position(|other| *other == call).unwrap()
}

/// The numbers that a call can answer: the list has each of them.
fn numbers(call: Call) -> &'static [u32] {
    match call {
        Call::Face => &[0],
        Call::MeshNumber | Call::ShellCondition => &[0, 1, 2, 3, 4, 5],
        Call::PutTogetherSameAttrs | Call::PutTogetherByCell => &[0, 1, 2, 3, 4, 5, 6, 7, 8, 9],
        Call::HouseWires => &[0, 1, 2, 3, 4, 5, 9, 10],
        Call::ReadPanel | Call::CleanPanel => &[0, 1, 3, 5, 9, 11, 12, 13, 14],
        Call::ReadScan => &[0, 1, 9, 11, 13, 14],
        Call::WritePanel => &[0, 1, 2, 3, 4, 5, 9, 14],
        Call::Push => &[0, 1, 2, 3, 9],
        Call::LoopSubdivision => &[0, 1, 2, 3, 4, 5, 7, 9, 10, 15, 16, 17],
        Call::ListHems => &[0, 1, 2, 3, 4, 5, 9, 10, 18, 19],
        Call::HemSheet => &[0, 9],
        _ => &[0, 1, 2, 3, 4, 5, 9],
    }
}

/// The list and what is in it: for each call how many cases there are by number, and how many the Rust answered.
#[derive(Default)]
struct Lister {
    list: List,
    cases: usize,
    by_number: [[usize; NUMBERS]; Call::ALL.len()],
    by_rust: [usize; Call::ALL.len()],
}

impl Lister {
    /// One case: the answer, once the Rust was found to agree.
    fn case(&mut self, call: Call, question: &Question) {
        let answer = reading::answer(call, question);
        if let Some(difference) = rust_differs(call, question, &answer) {
            panic!("{}: {difference}", call.name());
        }
        self.list.case(call, question, &answer);
        let place = place(call);
        self.cases += 1;
        self.by_number[place][answer.number as usize] += 1;
        self.by_rust[place] += rust_knows(call, question, &answer) as usize;
    }

    /// A mesh, put to every call that takes one, with exact rooms or `more` in each; panels by both settings, the first face, the last
    /// one, and some that are no faces. A file that is too long for the list is not asked for.
    fn mesh(&mut self, mesh: &Mesh, tolerance: f64, more: usize) {
        self.list.mesh(mesh);
        let mut question = Question { mesh: mesh.clone(), tolerance, ..Question::default() };
        for call in calls_on_meshes() {
            question.rooms = stated_rooms(call, mesh).iter().map(|room| room + more).collect();
            match call {
                Call::Face => {
                    let faces = mesh.sizes.len();
                    for face in [0, faces.saturating_sub(1), faces, usize::MAX] {
                        question.face = face;
                        self.case(call, &question);
                    }
                }
                Call::Components => {
                    for use_normal in [false, true] {
                        question.use_normal = use_normal;
                        self.case(call, &question);
                    }
                }
                Call::WritePanel if mesh_number(mesh) == 0 && question.rooms[0] > MOST_BYTES => (),
                _ => self.case(call, &question),
            }
        }
    }

    /// A mesh, put to every call that lends, with the room of each list one short in turn, and with all of them empty.
    fn short_rooms(&mut self, mesh: &Mesh, tolerance: f64) {
        self.list.mesh(mesh);
        for call in calls_on_meshes() {
            let mut question = Question { mesh: mesh.clone(), tolerance, ..Question::default() };
            self.short_rooms_of(call, &mut question);
        }
    }

    fn short_rooms_of(&mut self, call: Call, question: &mut Question) {
        let stated = stated_rooms(call, &question.mesh);
        for short in 0..stated.len() {
            question.rooms = stated.clone();
            question.rooms[short] -= 1;
            self.case(call, question);
        }
        if !stated.is_empty() {
            question.rooms = vec![0; stated.len()];
            self.case(call, question);
        }
    }

    /// The removal of faces some of which are folded: the result would fit where the stated room is not there.
    fn short_rooms_of_removal(&mut self, mesh: &Mesh) {
        self.list.mesh(mesh);
        let mut question = Question { mesh: mesh.clone(), ..Question::default() };
        self.short_rooms_of(Call::RemoveDegenerateFaces, &mut question);
    }

    /// A mesh, put to the removal, with exact rooms.
    fn removal(&mut self, mesh: &Mesh) {
        self.list.mesh(mesh);
        let rooms = stated_rooms(Call::RemoveDegenerateFaces, mesh);
        self.case(Call::RemoveDegenerateFaces, &Question { mesh: mesh.clone(), rooms, ..Question::default() });
    }

    /// A mesh, put to both calls that follow its hems, with exact rooms.
    fn wires(&mut self, mesh: &Mesh) {
        self.list.mesh(mesh);
        for call in [Call::ExtractBoundaries, Call::HouseWires] {
            self.case(call, &Question { mesh: mesh.clone(), rooms: stated_rooms(call, mesh), ..Question::default() });
        }
    }

    /// A mesh, put to both engines of merging.
    fn merging(&mut self, mesh: &Mesh, tolerance: f64) {
        self.list.mesh(mesh);
        let rooms = vec![mesh.corners.len()];
        let question = Question { mesh: mesh.clone(), tolerance, rooms, ..Question::default() };
        calls().filter(|call| call.merges()).for_each(|call| self.case(call, &question));
    }

    /// Faces in any order, put to `push`, with exact rooms or `more` in each.
    fn faces(&mut self, mesh: &Mesh, more: usize) -> Question {
        self.list.mesh(mesh);
        let rooms = stated_rooms(Call::Push, mesh).iter().map(|room| room + more).collect();
        let question = Question { mesh: mesh.clone(), rooms, ..Question::default() };
        self.case(Call::Push, &question);
        question
    }

    /// A surface and its cosines, put to smoothing.
    fn smoothing(&mut self, question: &Question) {
        self.list.surface(question);
        self.case(Call::LoopSubdivision, question);
    }

    /// A panel file, put to the reader and to the cleaner.
    fn file(&mut self, file: &File) -> Question {
        self.list.file(file);
        let mut question = Question { file: file.bytes(), ..Question::default() };
        for call in [Call::ReadPanel, Call::CleanPanel] {
            question.rooms = stated_rooms(call, &Mesh::default());
            self.case(call, &question);
        }
        question
    }

    /// A mesh, put to the writer, with so much room less than its file takes.
    fn write(&mut self, mesh: &Mesh, less: usize) {
        self.list.mesh(mesh);
        let rooms = stated_rooms(Call::WritePanel, mesh).iter().map(|room| room - less).collect();
        self.case(Call::WritePanel, &Question { mesh: mesh.clone(), rooms, ..Question::default() });
    }

    /// A scan, put to its reader, with exact rooms.
    fn scan(&mut self, file: &File) -> Question {
        self.list.file(file);
        let rooms = stated_rooms(Call::ReadScan, &Mesh::default());
        let question = Question { file: file.bytes(), rooms, ..Question::default() };
        self.case(Call::ReadScan, &question);
        question
    }

    /// A mesh and its triples, put to the list of hems.
    fn hems(&mut self, question: &Question) {
        self.list.hems(question);
        self.case(Call::ListHems, question);
    }

    /// A panel file with a count before it and triples behind it, put to the hem sheet, with exact room.
    fn hem_sheet(&mut self, file: &File) -> Question {
        self.list.file(file);
        let rooms = stated_rooms(Call::HemSheet, &Mesh::default());
        let question = Question { file: file.bytes(), rooms, ..Question::default() };
        self.case(Call::HemSheet, &question);
        question
    }

    /// A panel file, put to the cleaner alone.
    fn clean(&mut self, file: &File) {
        self.list.file(file);
        let rooms = stated_rooms(Call::CleanPanel, &Mesh::default());
        self.case(Call::CleanPanel, &Question { file: file.bytes(), rooms, ..Question::default() });
    }
}

/// The whole list.
fn list() -> Lister {
    let mut lister = Lister::default();
    subjects::examples().iter().enumerate().for_each(|(i, mesh)| lister.mesh(mesh, 0.625, i % 3));
    subjects::both_sides().iter().for_each(|mesh| lister.mesh(mesh, 0.5, 0));
    for (i, Case { mesh, tolerance }) in subjects::at_random().iter().enumerate() {
        lister.mesh(mesh, *tolerance, i % 3);
    }
    marks::meshes().iter().enumerate().for_each(|(i, mesh)| lister.mesh(mesh, 0.625, i % 3));
    let examples = subjects::examples();
    [&examples[10], &examples[11]].iter().for_each(|mesh| lister.short_rooms(mesh, 0.5));
    lister.short_rooms_of_removal(&examples[17]);
    large::folded().iter().chain(&marks::folded()).for_each(|mesh| lister.removal(mesh));
    touching::meshes().iter().for_each(|mesh| lister.wires(mesh));
    subjects::that_merge().iter().for_each(|case| lister.merging(&case.mesh, case.tolerance));
    for asked in [merging::tolerances(), merging::coordinates(), merging::quotients(), merging::merges()] {
        asked.iter().for_each(|(mesh, tolerance)| lister.merging(mesh, *tolerance));
    }
    panel_files::both_sides().iter().chain(&panel_files::at_random()).for_each(|file| {
        lister.file(file);
    });
    let mut question = lister.file(&panel_files::both_sides()[0]);
    lister.short_rooms_of(Call::ReadPanel, &mut question);
    lister.short_rooms_of(Call::CleanPanel, &mut question);
    panel_files::longest().iter().for_each(|file| lister.clean(file));
    broken::files().iter().for_each(|file| {
        lister.file(file);
    });
    large::files().iter().chain(&marks::files()).for_each(|file| {
        lister.file(file);
    });
    broken::meshes().iter().chain(&large::meshes()).chain(&marks::written()).for_each(|(mesh, less)| lister.write(mesh, *less));
    faces::orders().iter().chain(&faces::at_random()).enumerate().for_each(|(i, mesh)| {
        lister.faces(mesh, i % 3);
    });
    faces::both_sides().iter().for_each(|mesh| {
        lister.faces(mesh, 0);
    });
    for mesh in faces::for_short_rooms() {
        let mut question = lister.faces(&mesh, 0);
        lister.short_rooms_of(Call::Push, &mut question);
    }
    let asked = [smoothing::smallest(), smoothing::at_random(), smoothing::of_the_mesh(), smoothing::of_the_faces()];
    let asked = asked.into_iter().chain([smoothing::of_the_cosines(), smoothing::of_the_limits(), smoothing::ordered()]);
    asked.flatten().for_each(|question| lister.smoothing(&question));
    for mut question in smoothing::for_short_rooms() {
        lister.smoothing(&question);
        lister.short_rooms_of(Call::LoopSubdivision, &mut question);
    }
    for files in [scans::read(), scans::both_sides(), scans::limits(), scans::at_random()] {
        files.iter().for_each(|file| {
            lister.scan(file);
        });
    }
    let mut question = lister.scan(&scans::read()[2]);
    lister.short_rooms_of(Call::ReadScan, &mut question);
    list_hems(&mut lister);
    lister
}

/// The list of hems, and the hem sheet.
fn list_hems(lister: &mut Lister) {
    for asked in [hems::listed(), hems::of_the_mesh(), hems::of_the_triples(), hems::ordered()] {
        asked.iter().for_each(|question| lister.hems(question));
    }
    for mut question in hems::for_short_rooms() {
        lister.hems(&question);
        lister.short_rooms_of(Call::ListHems, &mut question);
    }
    hems::files().iter().for_each(|file| {
        lister.hem_sheet(file);
    });
    let mut question = lister.hem_sheet(&hems::files()[0]);
    lister.short_rooms_of(Call::HemSheet, &mut question);
    hems::numbers_on_sheets();
}

fn main() {
    let name = std::env::args().nth(1).expect("lister FILE");
    let lister = list();
    for call in calls() {
        let (by_number, by_rust) = (lister.by_number[place(call)], lister.by_rust[place(call)]);
        let missing = numbers(call).iter().find(|number| by_number[**number as usize] == 0);
        assert!(missing.is_none(), "{}: no case answers {missing:?}", call.name());
        println!("{}: {} cases, {by_rust} of them the Rust's too", call.name(), by_number.iter().sum::<usize>());
    }
    let bytes = lister.list.bytes();
    std::fs::write(&name, &bytes).expect("the list cannot be written");
    println!("{} cases, {} bytes", lister.cases, bytes.len());
}
