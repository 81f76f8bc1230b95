//! Holds what the product answered to what the judge answers, and the judge's parts to each other.

use crate::library::{Asked, Product, UNTOUCHED};
use crate::{in_place, orders, round_trip};
use judge::{reading, rust, Answer, Call, Count, Numbers, Question};

/// A change to what the product answered, before it is compared: see `slips`.
pub type Slip<'a> = &'a dyn Fn(&mut Asked, &Question, &Answer);

/// How a comparison came out.
pub struct Compared {
    /// What document 01's reading answers.
    pub right: Answer,
    /// Whether the Rust, untouched or ascending, was asked too.
    pub with_rust: bool,
    /// Whether what was written was read back and written again.
    pub with_way_back: bool,
    /// Whether the mesh was cleaned in every order, or the cleaned file again.
    pub with_orders: bool,
    /// Whether the product's ordinary compaction was asked of the same mesh.
    pub with_ordinary: bool,
    /// What is wrong, in words; none where all agree.
    pub difference: Option<String>,
}

/// Asks the reading, the Rust and the product.
pub fn compare(product: &dyn Product, call: Call, question: &Question, slip: Option<Slip>) -> Compared {
    let right = reading::answer(call, question);
    let with_rust = rust_knows(call, question, &right) && has_turn(call, question, &right);
    if with_rust {
        if let Some(difference) = rust_differs(call, question, &right) {
            let difference = Some(difference);
            return Compared { right, with_rust, with_way_back: false, with_orders: false, with_ordinary: false, difference };
        }
    }
    let mut asked = product.ask(call, question);
    if let Some(slip) = slip {
        slip(&mut asked, question, &right);
    }
    let with_way_back = call == Call::WritePanel && right.number == 0 && product.has(Call::ReadPanel);
    let with_orders = right.number == 0 && has_orders(product, call);
    let with_ordinary = call == Call::CompactInPlace && right.number == 0 && product.has(Call::RemoveUnusedAttrs);
    let difference = difference(&asked, &right).or_else(|| match call {
        Call::WritePanel if with_way_back => round_trip::differs(product, &question.mesh, &asked),
        Call::RemoveDegenerateFaces if with_orders => orders::differ(product, &question.mesh, None),
        Call::CleanPanel if with_orders => orders::files_differ(product, &question.file, &asked),
        Call::CompactInPlace if with_ordinary => in_place::differs(product, &question.mesh, &asked),
        _ => None,
    });
    let difference = difference.map(|difference| format!("the product differs: {difference}"));
    Compared { right, with_rust, with_way_back, with_orders, with_ordinary, difference }
}

/// Whether the product can clean in another order what this call is asked of.
fn has_orders(product: &dyn Product, call: Call) -> bool {
    match call {
        Call::RemoveDegenerateFaces => product.has(Call::RemoveUnusedAttrs),
        Call::CleanPanel => true,
        _ => false,
    }
}

/// Where the Rust, untouched or ascending, answers something else than document 01's reading; none where it agrees, or is not asked.
pub fn rust_differs(call: Call, question: &Question, right: &Answer) -> Option<String> {
    if !rust_knows(call, question, right) {
        return None;
    }
    let untouched = rust::untouched::answer(call, question).map(|answer| ("the untouched Rust", answer));
    let ascending = rust::ascending::answer(call, question).map(|answer| ("the ascending Rust", answer));
    untouched
        .into_iter()
        .chain(ascending)
        .find_map(|(name, other)| between(right, &other).map(|difference| format!("{name} and document 01 differ: {difference}")))
}

/// Whether the Rust can be asked: it knows no refusal but an index out of range, has no house wires, no list of hems, no panel files and no scans, and smooths by its own
/// cosines alone.
pub fn rust_knows(call: Call, question: &Question, right: &Answer) -> bool {
    match call {
        Call::MeshNumber => [0, 5].contains(&right.number),
        Call::Face => reading::numbers::mesh_number(&question.mesh) == 0,
        Call::HouseWires | Call::ReadPanel | Call::WritePanel | Call::CleanPanel | Call::Sheet => false,
        Call::ReadScan | Call::ScanSheet | Call::ListHems | Call::HemSheet => false,
        // It has one merging, and is asked it with the plain engine's question, which is this one's too.
        Call::PutTogetherByCell => false,
        // It has one compaction, which the product's ordinary one is held to, and this one to that.
        Call::CompactInPlace => false,
        Call::LoopSubdivision => right.number == 0 && rust::has_its_cosines(question),
        _ => right.number == 0,
    }
}

/// Whether the comparer asks the Rust this time: its merging takes so long where many points lie close that it is asked the less
/// often the more there are.
fn has_turn(call: Call, question: &Question, right: &Answer) -> bool {
    if call != Call::PutTogetherSameAttrs {
        return true;
    }
    let compared = |count: &Count| if let Count::Is(pairs) = count { *pairs } else { 0 };
    let pairs: u64 = right.counts.iter().map(compared).sum();
    let once_in = 1 + pairs / 300 + (question.mesh.positions.len() as u64 / 100).min(40);
    lot(question) % once_in == 0
}

/// A number that goes by the coordinates and is otherwise like any other.
fn lot(question: &Question) -> u64 {
    let mesh = &question.mesh;
    let all = mesh.positions.iter().chain(&mesh.textures).chain(&mesh.normals).chain(std::iter::once(&question.tolerance));
    all.fold(0, |lot: u64, x| (lot ^ x.to_bits()).wrapping_mul(0x9e37_79b9_7f4a_7c15).rotate_left(29))
}

/// Where the product's answer is not the right one.
pub fn difference(asked: &Asked, right: &Answer) -> Option<String> {
    if asked.number != right.number {
        return Some(format!("number {}, not {}", asked.number, right.number));
    }
    for (i, (found, right)) in asked.counts.iter().zip(&right.counts).enumerate() {
        let expected = match right {
            Count::Is(count) => *count,
            Count::Untouched => UNTOUCHED,
        };
        if *found != expected {
            let found = if *found == UNTOUCHED { "nothing".to_string() } else { found.to_string() };
            return Some(format!("count {i} is {found}, not {right:?}"));
        }
    }
    for (i, (list, right)) in asked.lists.iter().zip(&right.lists).enumerate() {
        if let Some(difference) = list.difference(right) {
            return Some(format!("in list {i} {difference}"));
        }
    }
    if !asked.input_kept {
        return Some("a list that was only lent for reading was changed".to_string());
    }
    None
}

/// Where two of the judge's answers differ.
fn between(one: &Answer, other: &Answer) -> Option<String> {
    let lists_differ = one.lists.iter().zip(&other.lists).any(|pair| !is_same(pair.0, pair.1));
    if one.number != other.number || one.counts != other.counts || lists_differ {
        Some(format!("document 01 says {one:?}, the Rust says {other:?}"))
    } else {
        None
    }
}

fn is_same(one: &Numbers, other: &Numbers) -> bool {
    let same = |a: &f64, b: &f64| a.to_bits() == b.to_bits() || a.is_nan() && b.is_nan();
    match (one, other) {
        (Numbers::Floats(a), Numbers::Floats(b)) => a.len() == b.len() && a.iter().zip(b).all(|(a, b)| same(a, b)),
        (Numbers::Words(a), Numbers::Words(b)) => a == b,
        (Numbers::Longs(a), Numbers::Longs(b)) => a == b,
        (Numbers::Bytes(a), Numbers::Bytes(b)) => a == b,
        _ => false,
    }
}
