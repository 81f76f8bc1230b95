//! The runs: meshes, files, and the test of the comparer itself.

use crate::check::compare;
use crate::library::{Library, Product, Reading, Watch};
use crate::meshes::{self, Case};
use crate::options::{Options, USAGE};
use crate::random::Random;
use crate::tally::{grouped, Tally};
use crate::{damage, files, scans, show, shrink, slips, surfaces, triples};
use judge::reading::numbers::stated_rooms;
use judge::{About, Call, Question};
use std::ffi::CString;

/// Runs as the words say. Without a library document 01's reading stands in its place. 0: no difference; 1: a difference, or a slip
/// that was not found; 2: bad words.
pub fn run(library: Option<&Library>, watch: Watch, words: Vec<String>) -> i32 {
    let options = match Options::read(words) {
        Ok(options) => options,
        Err(why) => {
            eprint!("compare: {why}\n{USAGE}");
            return 2;
        }
    };
    let product: &dyn Product = match library {
        Some(library) if !options.reading => library,
        _ => &Reading,
    };
    println!("seed {}", options.seed);
    let calls = calls(product, &options);
    if calls.is_empty() {
        eprintln!("compare: the library has no such call");
        return 2;
    }
    if options.self_test {
        return slips::run(product, &calls, options.seed);
    }
    let mut tally = Tally::new();
    for index in indices(&options) {
        tell_progress(index, &indices(&options));
        if let Err(report) = one(product, watch, &calls, &options, index, &mut tally) {
            println!("{report}");
            return 1;
        }
    }
    let what = match options.about {
        About::Mesh => "meshes",
        About::PanelFile => "files",
        About::Scan => "scans",
    };
    tally.print();
    println!("{} {what}, {} questions, no difference", grouped(indices(&options).count() as u64), grouped(tally.questions()));
    0
}

/// The calls that are compared; what the library lacks is named.
fn calls(product: &dyn Product, options: &Options) -> Vec<Call> {
    let wanted = |call: &Call| options.self_test || call.about() == options.about;
    let chosen = |call: &Call| options.only.map_or(wanted(call), |only| only == *call);
    let (there, absent): (Vec<Call>, Vec<Call>) = Call::ALL.into_iter().filter(chosen).partition(|call| product.has(*call));
    if !absent.is_empty() {
        let names: Vec<&str> = absent.iter().map(|call| call.name()).collect();
        println!("not in the library, and not compared: {}", names.join(", "));
    }
    there
}

/// The indices of the meshes, files or scans of a run. The meshes that are gone through one by one come first.
fn indices(options: &Options) -> std::ops::Range<u64> {
    let small = if options.about == About::Mesh { meshes::exhaustive_count() } else { 0 };
    let from = if options.random_only { small } else { 0 };
    options.at.map_or(from..small + options.count, |at| at..at + 1)
}

/// Says on standard error how far a long run is.
fn tell_progress(index: u64, all: &std::ops::Range<u64>) {
    let (done, tenth) = (index - all.start, (all.end - all.start) / 10);
    if tenth >= 1_000 && done % tenth == 0 && (1..10).contains(&(done / tenth)) {
        eprintln!("{}0% compared", done / tenth);
    }
}

/// Puts one mesh, one file or one scan to all calls.
fn one(
    product: &dyn Product,
    watch: Watch,
    calls: &[Call],
    options: &Options,
    index: u64,
    tally: &mut Tally,
) -> Result<(), String> {
    let random = Random::of(options.seed, index);
    let mut subject = Subject::of(&random, options.about, index);
    for call in calls {
        if let Some(question) = subject.question(&random, *call) {
            tell(watch, *call, index);
            let compared = compare(product, *call, question, None);
            tally.add(*call, question, &compared);
            if let Some(difference) = compared.difference {
                return Err(report(product, *call, question, index, &difference));
            }
        }
    }
    Ok(())
}

/// What is asked about: a mesh, or a file, or a scan.
pub struct Subject {
    question: Question,
    /// The same with its faces in any order, for `push`.
    any_order: Question,
    /// A surface of triangles, for smoothing.
    surface: Question,
    /// A mesh with triples, for the list of hems, or a panel file with them, for the hem sheet.
    hems: Question,
    /// What merging is asked, by each of its engines: nothing yet, nothing this time, or the rooms.
    merging: Option<Option<Vec<usize>>>,
    is_small: bool,
}

impl Subject {
    /// The mesh, or the file, or the scan, with this index.
    pub fn of(random: &Random, about: About, index: u64) -> Subject {
        if about != About::Mesh {
            let file = match (about, random.below(20)) {
                (About::Scan, _) => scans::random(random),
                (_, 0..=3) => files::with_touching_hems(random),
                (_, 4..=6) => files::with_large_faces(random),
                (_, 7..=8) => files::with_marks(random),
                _ => files::random(random),
            };
            let question = Question { file, ..Question::default() };
            let (any_order, surface, hems) = (Question::default(), Question::default(), Question::default());
            return Subject { question, any_order, surface, hems, merging: None, is_small: false };
        }
        let is_small = index < meshes::exhaustive_count();
        let mut case = match is_small {
            true => meshes::exhaustive(index, random),
            false if random.once_in(3) => meshes::with_touching_hems(random),
            false if random.once_in(16) => meshes::with_large_faces(random),
            false => meshes::random(random),
        };
        if random.once_in(4) {
            meshes::to_borders(random, &mut case);
        }
        let Case { mut mesh, tolerance } = case;
        if !is_small && random.once_in(8) {
            damage::coordinates(random, &mut mesh);
        }
        let any_order = Question { mesh: meshes::any_order(random, &mesh), ..Question::default() };
        let question = Question { mesh, tolerance, ..Question::default() };
        let (surface, hems) = (Question::default(), Question::default());
        Subject { question, any_order, surface, hems, merging: None, is_small }
    }

    /// The question that a call is asked. Both engines of merging are asked the same one. Smoothing takes few meshes as they come, so it is asked of
    /// surfaces of its own, or of the small mesh. The list of hems is given triples, and the hem sheet a file that has them.
    pub fn question(&mut self, random: &Random, call: Call) -> Option<&Question> {
        if call == Call::Push {
            let stated = stated_rooms(call, &self.any_order.mesh);
            self.any_order.rooms = if self.is_small { stated } else { damage::rooms(random, stated) };
            return Some(&self.any_order);
        }
        let mesh = &self.question.mesh;
        if call == Call::LoopSubdivision {
            self.surface = if self.is_small { surfaces::small(random, mesh) } else { surfaces::question(random) };
            return Some(&self.surface);
        }
        if [Call::ListHems, Call::HemSheet].contains(&call) {
            self.hems = match call {
                Call::ListHems => triples::question(random, mesh, self.is_small),
                _ => triples::input(random, &self.question.file),
            };
            return Some(&self.hems);
        }
        if call.merges() {
            let rooms = self.merging.take().unwrap_or_else(|| self.rooms_of_merging(random, call));
            self.merging = Some(rooms.clone());
            self.question.rooms = rooms?;
            return Some(&self.question);
        }
        let (stated, faces) = (stated_rooms(call, mesh), mesh.sizes.len());
        self.question.face =
            if random.once_in(8) { random.pick(&[faces, faces + 1, usize::MAX, 1 << 32]) } else { random.below(faces) };
        self.question.use_normal = random.once_in(2);
        self.question.rooms = if self.is_small { stated } else { damage::rooms(random, stated) };
        Some(&self.question)
    }

    /// Merging takes long where there are many points, so it is not asked every time.
    fn rooms_of_merging(&self, random: &Random, call: Call) -> Option<Vec<usize>> {
        let mesh = &self.question.mesh;
        let points = mesh.positions.len() / 3 + mesh.textures.len() / 2 + mesh.normals.len() / 3;
        if random.below(if self.is_small { 32 } else { 1 + points / 200 }) != 0 {
            return None;
        }
        let stated = stated_rooms(call, mesh);
        Some(if self.is_small { stated } else { damage::rooms(random, stated) })
    }
}

fn tell(watch: Watch, call: Call, index: u64) {
    if let Some(watch) = watch {
        let name = CString::new(call.name()).unwrap();
        watch(name.as_ptr(), index);
    }
}

/// A difference in words, with the smallest question that shows it.
fn report(product: &dyn Product, call: Call, question: &Question, index: u64, difference: &str) -> String {
    let smallest = shrink::shrink(call, question, &|candidate| compare(product, call, candidate, None).difference.is_some());
    let why = compare(product, call, &smallest, None).difference.unwrap_or_default();
    format!(
        "DIFFERENCE in {}, found at index {index}: {difference}\nthe smallest that shows one: {why}\n{}",
        call.name(),
        show::question(call, &smallest)
    )
}
