//! What was compared, in numbers.

use crate::check::Compared;
use judge::reading::edges::hem_edges;
use judge::reading::numbers::NUMBERS;
use judge::reading::{hems, panel_file};
use judge::{About, Call, Count, Mesh, Numbers, Question};

/// What one call was asked.
#[derive(Clone, Default)]
struct Asked {
    by_number: [u64; NUMBERS],
    /// Questions that the Rust was asked too.
    with_rust: u64,
    /// Questions whose answer shows something: see `shows`.
    telling: u64,
    /// Questions whose mesh was cleaned in every order, or whose cleaned file was cleaned again.
    with_orders: u64,
    /// Questions whose answer was held to the product's ordinary compaction.
    with_ordinary: u64,
    /// Accepted questions with a mark in their mesh, or in the mesh of their file.
    with_marks: u64,
    /// The most corners and the most points of a mesh that the Rust was asked about, and the most corners of a face.
    corners: usize,
    face: usize,
    points: usize,
}

pub struct Tally {
    calls: Vec<Asked>,
    verdicts: [u64; 4],
}

impl Tally {
    pub fn new() -> Tally {
        Tally { calls: vec![Asked::default(); Call::ALL.len()], verdicts: [0; 4] }
    }

    pub fn add(&mut self, call: Call, question: &Question, compared: &Compared) {
        let asked = &mut self.calls[call as usize];
        let mesh = &question.mesh;
        asked.by_number[compared.right.number as usize] += 1;
        asked.with_rust += compared.with_rust as u64;
        asked.with_orders += compared.with_orders as u64;
        asked.with_ordinary += compared.with_ordinary as u64;
        if compared.with_rust {
            asked.corners = asked.corners.max(mesh.corner_count());
            asked.face = asked.face.max(mesh.sizes.iter().max().map_or(0, |size| *size as usize));
            asked.points = asked.points.max(mesh.positions.len() / 3 + mesh.textures.len() / 2 + mesh.normals.len() / 3);
        }
        if compared.right.number != 0 {
            return;
        }
        asked.telling += is_telling(call, question, compared) as u64;
        asked.with_marks += has_marks(call, question) as u64;
        if call == Call::ShellCondition {
            self.verdicts[count(compared, 0) as usize] += 1;
        }
    }

    pub fn questions(&self) -> u64 {
        self.calls.iter().map(|asked| asked.by_number.iter().sum::<u64>()).sum()
    }

    pub fn print(&self) {
        println!("questions, by the number answered:");
        for (call, asked) in Call::ALL.iter().zip(&self.calls).filter(|(_, asked)| asked.by_number.iter().sum::<u64>() > 0) {
            let answered: Vec<String> = (0..NUMBERS)
                .filter(|n| asked.by_number[*n] > 0)
                .map(|n| format!("{n}: {}", grouped(asked.by_number[n])))
                .collect();
            println!("  {:<24}{}", call.name(), answered.join("  "));
            if asked.with_rust > 0 {
                let (corners, points) = (grouped(asked.corners as u64), grouped(asked.points as u64));
                println!(
                    "  {:<26}the Rust asked too: {}; up to {corners} corners, {} in one face, and {points} points",
                    "",
                    grouped(asked.with_rust),
                    asked.face
                );
            }
            if let Some(what) = shows(*call) {
                println!("  {:<26}{what}: {}", "", grouped(asked.telling));
            }
            if asked.with_marks > 0 {
                println!("  {:<26}with marks: {}", "", grouped(asked.with_marks));
            }
            if asked.with_orders > 0 {
                let what = if call.reads_a_file() { "cleaned again" } else { "cleaned in every order" };
                println!("  {:<26}{what}: {}", "", grouped(asked.with_orders));
            }
            if asked.with_ordinary > 0 {
                println!("  {:<26}held to ordinary compaction, bit for bit: {}", "", grouped(asked.with_ordinary));
            }
            if *call == Call::ShellCondition {
                let [irregular, regular, oriented, closed] = self.verdicts.map(grouped);
                println!("  {:<26}Irregular {irregular}, Regular {regular}, Oriented {oriented}, Closed {closed}", "");
            }
        }
    }
}

fn count(compared: &Compared, i: usize) -> u64 {
    match compared.right.counts[i] {
        Count::Is(count) => count,
        Count::Untouched => 0,
    }
}

/// What an answer may show, in words.
fn shows(call: Call) -> Option<&'static str> {
    match call {
        Call::RemoveUnusedAttrs | Call::CompactInPlace => Some("renumbered"),
        Call::RemoveDegenerateFaces => Some("removed or split"),
        Call::Push => Some("grouped anew"),
        Call::PutTogetherSameAttrs | Call::PutTogetherByCell => Some("merged"),
        Call::ExtractBoundaries => Some("several wires"),
        Call::Components => Some("several panels"),
        Call::WritePanel => Some("read back, and written again"),
        Call::CleanPanel => Some("another file than it was"),
        Call::ReadScan => Some("with points that became one position"),
        Call::ScanSheet => Some("a sheet, and no refusal"),
        Call::ListHems => Some("several hems"),
        Call::HemSheet => Some("hems, and no refusal"),
        Call::HouseWires | Call::LoopSubdivision => Some("with a position that has four hem edges or more"),
        _ => None,
    }
}

fn is_telling(call: Call, question: &Question, compared: &Compared) -> bool {
    match call {
        Call::RemoveUnusedAttrs
        | Call::RemoveDegenerateFaces
        | Call::PutTogetherSameAttrs
        | Call::PutTogetherByCell
        | Call::Push => {
            matches!(&compared.right.lists[0], Numbers::Words(corners) if *corners != question.mesh.corners)
        }
        Call::CompactInPlace => matches!(&compared.right.lists[3], Numbers::Words(corners) if *corners != question.mesh.corners),
        Call::ExtractBoundaries | Call::Components => count(compared, 1) > 1,
        Call::WritePanel => compared.with_way_back,
        Call::CleanPanel => matches!(&compared.right.lists[0], Numbers::Bytes(file) if *file != question.file),
        Call::HouseWires | Call::LoopSubdivision => is_pinched(&question.mesh),
        Call::ReadScan => count(compared, 0) < count(compared, 3),
        Call::ScanSheet => matches!(&compared.right.lists[0], Numbers::Bytes(text) if text.starts_with(b"mesh")),
        Call::ListHems => count(compared, 0) > 1,
        Call::HemSheet => matches!(&compared.right.lists[0], Numbers::Bytes(text) if text.starts_with(b"hem")),
        _ => false,
    }
}

/// Whether a corner of an accepted question has a mark. A scan has none.
fn has_marks(call: Call, question: &Question) -> bool {
    let is_marked = |mesh: &Mesh| mesh.marks().any(|mark| mark != 0);
    match call.about() {
        About::Mesh => is_marked(&question.mesh),
        About::PanelFile => {
            let panel = if call == Call::HemSheet {
                hems::parts(&question.file).map(|(panel, _)| panel)
            } else {
                Some(&question.file[..])
            };
            panel.map_or(false, |panel| panel_file::read(panel).map_or(false, |mesh| is_marked(&mesh)))
        }
        About::Scan => false,
    }
}

/// Whether openings touch: a position has more than two hem edges.
fn is_pinched(mesh: &Mesh) -> bool {
    let mut ends = vec![0; mesh.positions.len() / 3];
    hem_edges(mesh).iter().flatten().for_each(|end| ends[*end as usize] += 1);
    ends.iter().any(|hems| *hems > 2)
}

/// A number with a comma after every three digits.
pub fn grouped(number: u64) -> String {
    let digits = number.to_string();
    let first = digits.len() % 3;
    let mut groups: Vec<&str> = vec![];
    if first > 0 {
        groups.push(&digits[..first]);
    }
    groups.extend((first..digits.len()).step_by(3).map(|at| &digits[at..at + 3]));
    groups.join(",")
}
