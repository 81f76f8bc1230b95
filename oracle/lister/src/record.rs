//! The list's format: words of 32 bits, the lowest byte first. crates/try_replay/README.md has it in full.

use crate::place;
use judge::{Answer, Call, Count, Mesh, Numbers, Question};

/// The kind of a record that holds a mesh; `kind` has those of the calls.
const MESH: u32 = 0;
/// The kind of a record that holds a panel file, or a scan.
const FILE: u32 = 12;
/// The kind of a record that holds two lists of cosines.
const COSINES: u32 = 17;
/// The kind of a record that holds triples.
const TRIPLES: u32 = 22;
/// What stands for a verdict that is not answered.
const NONE: u32 = 0xffff_ffff;

/// A panel file, or a scan: some bytes, several times over, and then others.
#[derive(Clone, Debug, Default)]
pub struct File {
    pub unit: Vec<u8>,
    pub times: usize,
    pub rest: Vec<u8>,
}

impl File {
    pub fn plain(rest: Vec<u8>) -> File {
        File { rest, ..File::default() }
    }

    pub fn bytes(&self) -> Vec<u8> {
        [self.unit.repeat(self.times), self.rest.clone()].concat()
    }
}

/// The list as it is written.
#[derive(Default)]
pub struct List {
    words: Vec<u32>,
    /// The mesh, the cosines and the triples that were written last.
    mesh: Vec<u32>,
    cosines: Vec<u32>,
    triples: Vec<u32>,
}

impl List {
    pub fn bytes(&self) -> Vec<u8> {
        self.words.iter().flat_map(|word| word.to_le_bytes()).collect()
    }

    /// The mesh that the cases after it are about.
    pub fn mesh(&mut self, mesh: &Mesh) {
        let mut body = vec![];
        lists(&mut body, mesh);
        self.record(MESH, &body);
        self.mesh = body;
    }

    /// The panel file, or the scan, that the cases after it are about.
    pub fn file(&mut self, file: &File) {
        let mut body = [file.unit.len(), file.unit.len() * file.times, file.rest.len()].map(|n| n as u32).to_vec();
        body.extend(packed(&file.unit));
        body.extend(packed(&file.rest));
        self.record(FILE, &body);
    }

    /// A surface and its cosines, which the cases after it are about; each only where it is another than the one before.
    pub fn surface(&mut self, question: &Question) {
        let mut body = vec![];
        lists(&mut body, &question.mesh);
        if body != self.mesh {
            self.mesh(&question.mesh);
        }
        let mut body = vec![];
        floats(&mut body, &question.ones);
        floats(&mut body, &question.twos);
        if body != self.cosines {
            self.record(COSINES, &body);
            self.cosines = body;
        }
    }

    /// A mesh and its triples, which the cases after it are about; each only where it is another than the one before.
    pub fn hems(&mut self, question: &Question) {
        let mut body = vec![];
        lists(&mut body, &question.mesh);
        if body != self.mesh {
            self.mesh(&question.mesh);
        }
        let coordinates: Vec<u32> = question.triples.iter().map(|coordinate| *coordinate as u32).collect();
        let mut body = vec![];
        words(&mut body, &coordinates);
        if body != self.triples {
            self.record(TRIPLES, &body);
            self.triples = body;
        }
    }

    /// A case: what the call is given beside the mesh or the file, and its whole answer.
    pub fn case(&mut self, call: Call, question: &Question, answer: &Answer) {
        let given = given(call, question);
        let mut body = vec![given as u32, (given >> 32) as u32, answer.number];
        body.extend(answer.counts.iter().map(|count| match count {
            Count::Is(count) => *count as u32,
            Count::Untouched => NONE,
        }));
        for (room, list) in question.rooms.iter().zip(&answer.lists) {
            body.push(*room as u32);
            match list {
                Numbers::Floats(list) => floats(&mut body, list),
                Numbers::Words(list) => words(&mut body, list),
                Numbers::Longs(list) => longs(&mut body, list),
                Numbers::Bytes(list) => {
                    body.push(list.len() as u32);
                    body.extend(packed(list));
                }
            }
        }
        self.record(kind(call), &body);
    }

    fn record(&mut self, kind: u32, body: &[u32]) {
        self.words.extend([body.len() as u32 + 1, kind]);
        self.words.extend(body);
    }
}

/// The first eleven calls have 1 to 11; those that the list came to ask later have what follows the kind of a panel file.
fn kind(call: Call) -> u32 {
    match call {
        Call::Push => 13,
        Call::WritePanel => 14,
        Call::CleanPanel => 15,
        Call::LoopSubdivision => 16,
        Call::ReadScan => 18,
        Call::Sheet | Call::ScanSheet | Call::CompactInPlace => unreachable!("the list does not ask these"),
        Call::PutTogetherByCell => 19,
        // 20 is the replay's own, for compaction in place.
        Call::ListHems => 21,
        Call::HemSheet => 23,
        _ => 1 + place(call) as u32,
    }
}

/// The face, the tolerance or the normals setting, in 64 bits; 0 where the call takes none.
fn given(call: Call, question: &Question) -> u64 {
    match call {
        Call::Face => question.face as u64,
        Call::PutTogetherSameAttrs | Call::PutTogetherByCell => question.tolerance.to_bits(),
        Call::Components => question.use_normal as u64,
        _ => 0,
    }
}

/// The five lists of a mesh.
fn lists(body: &mut Vec<u32>, mesh: &Mesh) {
    floats(body, &mesh.positions);
    floats(body, &mesh.textures);
    floats(body, &mesh.normals);
    words(body, &mesh.corners);
    words(body, &mesh.sizes);
}

/// How many numbers a list has, how often its first is repeated at its front, and the numbers without these repetitions.
fn words(body: &mut Vec<u32>, list: &[u32]) {
    let repeats = repeats(list);
    body.extend([list.len() as u32, repeats as u32]);
    body.extend(&list[repeats..]);
}

/// The same of f64s, each by its bits in two words, the lower first. Every NaN is written alike: which one arithmetic makes is the
/// machine's own affair.
fn floats(body: &mut Vec<u32>, list: &[f64]) {
    let bits: Vec<u64> = list.iter().map(|x| if x.is_nan() { 0x7ff8_0000_0000_0000 } else { x.to_bits() }).collect();
    longs(body, &bits);
}

/// The same of u64s.
fn longs(body: &mut Vec<u32>, list: &[u64]) {
    let repeats = repeats(list);
    body.extend([list.len() as u32, repeats as u32]);
    body.extend(list[repeats..].iter().flat_map(|x| [*x as u32, (x >> 32) as u32]));
}

fn repeats<T: PartialEq>(list: &[T]) -> usize {
    list.iter().skip(1).take_while(|x| **x == list[0]).count()
}

/// Four bytes to a word, the last word filled up with zeros.
fn packed(bytes: &[u8]) -> Vec<u32> {
    bytes.chunks(4).map(|four| four.iter().rev().fold(0, |word, byte| word << 8 | *byte as u32)).collect()
}
