//! Tests of the comparer, and of what in the Rust rests on the order of its maps.

use crate::check::compare;
use crate::library::{Asked, Product, Reading};
use crate::meshes;
use crate::random::Random;
use crate::run::{run, Subject};
use crate::shrink::shrink;
use crate::wrong::answers;
use crate::wrong_by_cell::by_cell;
use crate::wrong_in_place::in_place;
use crate::{scans, surfaces, wrong_points, wrong_scan, wrong_smoothing};
use judge::mesh::{Corner, WIDTH};
use judge::reading::numbers::mesh_number;
use judge::{reading, rust, Answer, Call, Count, Mesh, Numbers, Question, MISSING};
use std::collections::{BTreeMap, BTreeSet};

fn words(words: &str) -> Vec<String> {
    words.split_whitespace().map(|word| word.to_string()).collect()
}

#[test]
fn the_rust_is_document_01_on_some_meshes() {
    assert_eq!(run(None, None, words("600 --random --seed 1")), 0)
}

#[test]
fn files_are_compared() {
    assert_eq!(run(None, None, words("--files 200 --seed 1")), 0)
}

#[test]
fn scans_are_compared() {
    assert_eq!(run(None, None, words("--scans 400 --seed 1")), 0)
}

#[test]
fn every_slip_is_found() {
    assert_eq!(run(None, None, words("--self-test --seed 1")), 0)
}

#[test]
fn bad_words_are_refused() {
    for bad in ["--only wires", "--seed x", "some", "--at"] {
        assert_eq!(run(None, None, words(bad)), 2);
    }
}

/// A product that misreads one call.
struct Misreading(Call, &'static str);

impl Product for Misreading {
    fn has(&self, call: Call) -> bool {
        call == self.0
    }

    fn ask(&self, call: Call, question: &Question) -> Asked {
        let right = reading::answer(call, question);
        let (_, wrong) = answers(call).find(|(name, _)| *name == self.1).unwrap();
        Asked::answering(call, question, &wrong(question, &right).unwrap_or(right))
    }
}

/// The smallest question that shows what a product misreads.
fn smallest(call: Call, name: &'static str) -> Question {
    let product = Misreading(call, name);
    let differs = |question: &Question| compare(&product, call, question, None).difference.is_some();
    let first = (0..5_000).find_map(|i| {
        let random = Random::of(7, i);
        let mut subject = Subject::of(&random, call.about(), meshes::exhaustive_count() + i);
        subject.question(&random, call).filter(|question| differs(question)).cloned()
    });
    shrink(call, &first.unwrap(), &differs)
}

/// A product whose writer is right and whose reader misreads something.
struct RightWriter(Misreading);

impl Product for RightWriter {
    fn has(&self, call: Call) -> bool {
        [Call::WritePanel, Call::ReadPanel].contains(&call)
    }

    fn ask(&self, call: Call, question: &Question) -> Asked {
        match call {
            Call::WritePanel => Asked::answering(call, question, &reading::answer(call, question)),
            _ => self.0.ask(call, question),
        }
    }
}

#[test]
fn what_is_not_read_back_is_found() {
    let product = RightWriter(Misreading(Call::ReadPanel, "a negative zero read as zero"));
    let mesh = Mesh { positions: vec![0.5, 1.0, -0.0], ..Mesh::default() };
    let rooms = reading::numbers::stated_rooms(Call::WritePanel, &mesh);
    let mut question = Question { mesh, rooms, ..Question::default() };
    let differs = |question: &Question| compare(&product, Call::WritePanel, question, None).difference;
    assert_eq!(differs(&question).unwrap(), "the product differs: read back: in list 0 place 2 holds 0.0, not -0.0");
    question.mesh.positions[2] = 0.0;
    assert_eq!(differs(&question), None);
}

#[test]
fn differences_become_small() {
    let third_use = smallest(Call::ShellCondition, "uses counted modulo two");
    assert_eq!(third_use.mesh.corners.iter().step_by(WIDTH).copied().collect::<Vec<_>>(), [0, 0, 0]);
    let both_rings = smallest(Call::RemoveDegenerateFaces, "corner i for both rings");
    assert_eq!(both_rings.mesh.sizes, [5]);
    let from_0_again = smallest(Call::RemoveDegenerateFaces, "faces behind the triangles numbered from 0 again");
    assert_eq!(from_0_again.mesh.sizes, [3, 4]);
    let touching = smallest(Call::HouseWires, "the smallest end, as document 01 had it");
    assert!(touching.mesh.corner_count() <= 6, "{:?}", touching);
    let after_the_end = smallest(Call::ReadPanel, "an index asked before bytes after the end");
    assert!(after_the_end.file.len() <= 4 + 1 + 36 + 4 + 1);
    let minus_zero = smallest(Call::ReadScan, "a negative zero kept apart");
    assert_eq!(minus_zero.file.len(), 84 + 50);
    let wraps = smallest(Call::MeshNumber, "sizes added in 32 bits");
    assert!(wraps.mesh.positions.is_empty() && wraps.mesh.sizes.len() <= 2, "{:?}", wraps);
}

/// Accepted meshes at random, with few points.
fn accepted() -> impl Iterator<Item = (Mesh, f64)> {
    let all = (0..3_000).map(|i| {
        let case = meshes::random(&Random::of(3, i));
        (case.mesh, case.tolerance)
    });
    let most = |mesh: &Mesh| mesh.positions.len().max(mesh.textures.len()).max(mesh.normals.len());
    all.filter(move |(mesh, _)| mesh_number(mesh) == 0 && most(mesh) < 90)
}

/// Whether two columns of corners put the same corners together.
fn is_same_grouping(one: &[u32], other: &[u32]) -> bool {
    let pairs: BTreeSet<(usize, u32, u32)> = (0..one.len()).map(|i| (i % WIDTH, one[i], other[i])).collect();
    let of = |pick: fn(&(usize, u32, u32)) -> (usize, u32)| pairs.iter().map(pick).collect::<BTreeSet<_>>().len();
    one.len() == other.len() && of(|p| (p.0, p.1)) == pairs.len() && of(|p| (p.0, p.2)) == pairs.len()
}

#[test]
fn the_order_of_sets_changes_representatives_but_no_group() {
    let mut another_representative = 0;
    for (mesh, tolerance) in accepted() {
        if reading::numbers::merging_number(&mesh, tolerance) == 0 {
            let untouched = rust::untouched::put_together_same_attrs(&mesh, tolerance);
            let ascending = rust::ascending::put_together_same_attrs(&mesh, tolerance);
            assert_eq!(untouched.pairs, ascending.pairs);
            assert!(is_same_grouping(&untouched.corners, &ascending.corners));
            another_representative += (untouched.corners != ascending.corners) as u32;
        }
    }
    assert!(another_representative > 0);
}

/// Without a slip merging by the runs of an order is merging; points at the borders of cells are among them, and cells that differ by 2 and by 3.
#[test]
fn the_runs_of_an_order_have_what_is_compared() {
    let mut at_reach = [0; 2];
    for i in 0..600 {
        let random = Random::of(9, i);
        let mut case = meshes::exhaustive(meshes::exhaustive_count() - 1 - i, &random);
        meshes::to_borders(&random, &mut case);
        let question =
            Question { rooms: vec![case.mesh.corners.len()], mesh: case.mesh, tolerance: case.tolerance, ..Question::default() };
        let right = reading::answer(Call::PutTogetherByCell, &question);
        assert_eq!(format!("{:?}", by_cell(&question, None)), format!("{right:?}"));
        let cells: Vec<f64> = question.mesh.textures.iter().map(|c| (c / question.tolerance).trunc()).collect();
        let apart = |by: f64| cells.chunks(2).any(|a| cells.chunks(2).any(|b| a[0] - b[0] == by && a[1] == b[1]));
        at_reach[0] += apart(2.0) as u32;
        at_reach[1] += apart(3.0) as u32;
    }
    assert!(at_reach[0] > 100 && at_reach[1] > 100, "{at_reach:?}");
}

/// Without a slip the rounds leave what the reading says; meshes whose entries stand in rounds of three and more are among them, and such with entries
/// that no corner uses.
#[test]
fn the_rounds_leave_what_is_compacted() {
    let (mut turned, mut freed) = (0, 0);
    for (mesh, _) in accepted() {
        let question = Question { rooms: vec![reading::in_place::longest(&mesh)], mesh, ..Question::default() };
        let right = reading::answer(Call::CompactInPlace, &question);
        assert_eq!(format!("{:?}", in_place(&question, None)), format!("{right:?}"));
        turned += matches!(&right.lists[3], Numbers::Words(corners) if *corners != question.mesh.corners) as u32;
        freed += (right.counts[0] != Count::Is(question.mesh.positions.len() as u64 / 3)) as u32;
    }
    assert!(turned > 100 && freed > 100, "{turned} {freed}");
}

/// A product whose compaction in place is right and whose ordinary compaction misreads something.
struct RightInPlace(Misreading);

impl Product for RightInPlace {
    fn has(&self, call: Call) -> bool {
        [Call::CompactInPlace, Call::RemoveUnusedAttrs].contains(&call)
    }

    fn ask(&self, call: Call, question: &Question) -> Asked {
        match call {
            Call::CompactInPlace => Asked::answering(call, question, &reading::answer(call, question)),
            _ => self.0.ask(call, question),
        }
    }
}

#[test]
fn what_is_not_ordinary_compaction_is_found() {
    let positions = (0..9).map(f64::from).collect();
    let corners = [2, 1, 0].iter().flat_map(|position| [*position, MISSING, MISSING, 0]).collect();
    let mesh = Mesh { positions, corners, sizes: vec![3], ..Mesh::default() };
    let question = Question { mesh, rooms: vec![3], ..Question::default() };
    let differs = |product: &dyn Product| compare(product, Call::CompactInPlace, &question, None).difference;
    assert_eq!(differs(&Reading), None);
    let old_order = RightInPlace(Misreading(Call::RemoveUnusedAttrs, "entries kept in their old order"));
    assert_eq!(differs(&old_order).unwrap(), "the product differs: the corners are other ones than ordinary compaction gives");
}

/// The steps of wires that close, each a pair of positions.
fn steps(wires: &[Vec<u32>]) -> BTreeMap<u32, u32> {
    wires.iter().flat_map(|wire| (0..wire.len()).map(move |i| (wire[i], wire[(i + 1) % wire.len()]))).collect()
}

#[test]
fn the_order_of_maps_changes_where_wires_begin_but_not_their_steps() {
    let mut another_order = 0;
    for (mesh, _) in accepted() {
        let starts: BTreeSet<u32> = reading::edges::hem_edges(&mesh).iter().map(|hem| hem[0]).collect();
        let ends: BTreeSet<u32> = reading::edges::hem_edges(&mesh).iter().map(|hem| hem[1]).collect();
        if starts == ends && starts.len() == reading::edges::hem_edges(&mesh).len() {
            let (untouched, ascending) = (rust::untouched::extract_boundaries(&mesh), rust::ascending::extract_boundaries(&mesh));
            assert_eq!(steps(&untouched), steps(&ascending));
            another_order += (untouched != ascending) as u32;
        }
    }
    assert!(another_order > 0);
}

#[test]
fn what_the_misreadings_of_scans_share_is_right() {
    let show = |read: Result<Mesh, u32>| format!("{read:?}");
    for i in 0..4_000 {
        let file = scans::random(&Random::of(8, i));
        assert_eq!(show(wrong_scan::read(&file, wrong_scan::Misread::None)), show(reading::scan::read(&file)));
    }
}

/// Questions to smoothing that are accepted, and their answers.
fn smoothed() -> impl Iterator<Item = (Question, Answer)> {
    let asked = (0..4_000).map(|i| surfaces::question(&Random::of(5, i)));
    let answered = asked.map(|question| (reading::answer(Call::LoopSubdivision, &question), question));
    answered.filter(|(answer, _)| answer.number == 0).map(|(answer, question)| (question, answer))
}

#[test]
fn what_the_misreadings_of_smoothing_share_is_right() {
    for i in 0..4_000 {
        let question = surfaces::question(&Random::of(6, i));
        let right = reading::answer(Call::LoopSubdivision, &question);
        assert!(wrong_smoothing::no_fault(&question, &right).is_none());
    }
    for (question, right) in smoothed() {
        let same = wrong_points::smoothed(&question, wrong_points::Misread::None);
        assert_eq!(format!("{same:?}"), format!("{right:?}"));
    }
}

/// Whether two faces have the same three positions.
fn has_equal_faces(mesh: &Mesh) -> bool {
    let sets = mesh.faces().into_iter().map(|face| face.iter().map(|corner| corner[0]).collect::<BTreeSet<u32>>());
    sets.collect::<BTreeSet<_>>().len() < mesh.sizes.len()
}

/// What request 4 has proved besides: where no two faces have the same three positions, the verdict stays, and no face of the result is folded.
#[test]
fn smoothing_keeps_the_verdict_and_folds_nothing() {
    let (mut kept, mut equal) = (0, 0);
    for (question, answer) in smoothed() {
        let (corners, sizes) = match &answer.lists[1..] {
            [Numbers::Words(corners), Numbers::Words(sizes)] => (corners.clone(), sizes.clone()),
            _ => panic!("corners and sizes"),
        };
        let result = Mesh { corners, sizes, ..Mesh::default() };
        let is_folded = |face: Vec<Corner>| face.iter().map(|corner| corner[0]).collect::<BTreeSet<u32>>().len() < 3;
        assert!(!result.faces().into_iter().any(is_folded));
        if has_equal_faces(&question.mesh) {
            equal += 1;
        } else {
            assert_eq!(reading::edges::verdict(&result), reading::edges::verdict(&question.mesh));
            kept += 1;
        }
    }
    assert!(kept > 1_000 && equal > 0);
}

#[test]
fn the_order_of_the_map_of_edges_changes_no_smoothing() {
    for (question, _) in smoothed() {
        let made = [rust::untouched::loop_subdivision(&question.mesh), rust::ascending::loop_subdivision(&question.mesh)];
        let [untouched, ascending] = made.map(|made| format!("{:?}", Answer::smoothed(made)));
        assert_eq!(untouched, ascending);
    }
}

/// A product whose removal is right and whose compaction misreads something.
struct RightRemoval(Misreading);

impl Product for RightRemoval {
    fn has(&self, call: Call) -> bool {
        [Call::RemoveDegenerateFaces, Call::RemoveUnusedAttrs].contains(&call)
    }

    fn ask(&self, call: Call, question: &Question) -> Asked {
        match call {
            Call::RemoveDegenerateFaces => Asked::answering(call, question, &reading::answer(call, question)),
            _ => self.0.ask(call, question),
        }
    }
}

#[test]
fn orders_that_leave_another_mesh_are_found() {
    let positions = (0..9).map(f64::from).collect();
    let corners = [2, 1, 0].iter().flat_map(|position| [*position, MISSING, MISSING, 0]).collect();
    let mesh = Mesh { positions, corners, sizes: vec![3], ..Mesh::default() };
    let rooms = reading::numbers::stated_rooms(Call::RemoveDegenerateFaces, &mesh);
    let question = Question { mesh, rooms, ..Question::default() };
    let differs = |product: &dyn Product| compare(product, Call::RemoveDegenerateFaces, &question, None).difference;
    assert_eq!(differs(&Reading), None);
    let old_order = RightRemoval(Misreading(Call::RemoveUnusedAttrs, "entries kept in their old order"));
    let found = "the product differs: [Remove, Compact, Compact] leaves another mesh than [Remove, Compact]";
    assert!(differs(&old_order).unwrap().starts_with(found));
}
