//! Tests of house wires over many meshes whose hems touch, and of what makes these.

use crate::pinched;
use crate::random::Random;
use crate::wrong_house::{wires, Misread};
use judge::mesh::{Corner, Verdict};
use judge::reading::edges::{hem_edges, ported_wires, verdict};
use judge::reading::house::house_wires;
use judge::reading::panels::components;
use judge::{Mesh, MISSING};
use std::collections::{BTreeMap, BTreeSet};

/// Faces by positions.
type Faces = Vec<Vec<u32>>;

/// An edge by start and end.
type Step = [u32; 2];

fn mesh(faces: &[Vec<u32>]) -> Mesh {
    let faces: Vec<Vec<Corner>> = faces.iter().map(|face| face.iter().map(|p| [*p, MISSING, MISSING, 0]).collect()).collect();
    Mesh::default().with_faces(&faces)
}

/// Faces whose hems touch, of up to 60 corners.
fn touching() -> impl Iterator<Item = (Random, Faces)> {
    (0..6_000).map(|i| {
        let random = Random::of(9, i);
        let (faces, _) = pinched::faces(&random, 6 + i as usize % 55);
        (random, faces)
    })
}

/// The steps of a row of positions that closes.
fn steps(row: &[u32]) -> Vec<Step> {
    (0..row.len()).map(|i| [row[i], row[(i + 1) % row.len()]]).collect()
}

#[test]
fn what_is_made_is_oriented_and_touches() {
    let (mut touch, mut folded, mut to_itself, mut selves, mut all) = (0, 0, 0, 0, 0);
    for (_, faces) in touching() {
        let mesh = mesh(&faces);
        assert!([Verdict::Oriented, Verdict::Closed].contains(&verdict(&mesh)));
        let starts: BTreeSet<u32> = hem_edges(&mesh).iter().map(|hem| hem[0]).collect();
        let meets = |face: &&Vec<u32>| face.iter().collect::<BTreeSet<_>>().len() < face.len();
        let crosses = |face: &Vec<u32>| steps(face).iter().any(|[a, b]| a != b && steps(face).contains(&[*b, *a]));
        touch += (starts.len() < hem_edges(&mesh).len()) as u32;
        folded += faces.iter().any(|face| meets(&face)) as u32;
        to_itself += faces.iter().any(crosses) as u32;
        selves += hem_edges(&mesh).iter().any(|[a, b]| a == b) as u32;
        all += 1;
    }
    assert!(
        2 * touch > all && 4 * folded > all && 8 * to_itself > all && 8 * selves > all,
        "{touch} {folded} {to_itself} {selves}"
    );
}

#[test]
fn what_the_misreadings_of_house_wires_share_is_right() {
    for (_, faces) in touching() {
        assert_eq!(wires(&mesh(&faces), Misread::None), house_wires(&mesh(&faces)));
    }
}

/// Each hem edge is used once and nothing else is; the edges of a wire are of faces that hang together by shared edges.
#[test]
fn every_hem_edge_once_and_each_hem_in_one_panel() {
    for (_, faces) in touching() {
        let mesh = mesh(&faces);
        let mut panel = BTreeMap::new();
        for (number, of) in components(&mesh, false).iter().enumerate() {
            of.iter().for_each(|face| panel.extend(steps(&faces[*face as usize]).into_iter().map(|step| (step, number))));
        }
        let mut used = vec![];
        for wire in house_wires(&mesh) {
            let panels: BTreeSet<usize> = steps(&wire).iter().map(|step| panel[step]).collect();
            assert_eq!(panels.len(), 1);
            used.extend(steps(&wire));
        }
        let (mut hems, count) = (hem_edges(&mesh), used.len());
        hems.sort_unstable();
        assert_eq!(
            (used.into_iter().collect::<BTreeSet<_>>().into_iter().collect::<Vec<_>>(), count),
            (hems.clone(), hems.len())
        );
    }
}

/// In another order, each begun anywhere, the faces have the very same wires.
#[test]
fn the_order_of_faces_changes_nothing() {
    for (random, faces) in touching() {
        let mut other = faces.clone();
        random.shuffle(&mut other);
        for face in other.iter_mut() {
            let begin = random.below(face.len());
            face.rotate_left(begin);
        }
        assert_eq!(house_wires(&mesh(&other)), house_wires(&mesh(&faces)));
    }
}

/// A wire begun at its smallest step.
fn ring(wire: &[u32]) -> Vec<u32> {
    let turned = |begin: usize| [&wire[begin..], &wire[..begin]].concat();
    (0..wire.len()).map(turned).min().unwrap()
}

/// Under other numbers wires begin elsewhere and come in another order, and that is all: by the smallest end it was not.
#[test]
fn other_numbers_change_only_where_wires_begin() {
    let rings = |wires: &[Vec<u32>]| wires.iter().map(|wire| ring(wire)).collect::<BTreeSet<_>>();
    let mut differed = 0;
    for (random, faces) in touching() {
        let mut names: Vec<u32> = (0..=faces.iter().flatten().copied().max().unwrap_or(0)).collect();
        random.shuffle(&mut names);
        let renamed =
            |rows: &[Vec<u32>]| -> Faces { rows.iter().map(|row| row.iter().map(|p| names[*p as usize]).collect()).collect() };
        let (one, other) = (mesh(&faces), mesh(&renamed(&faces)));
        assert_eq!(rings(&renamed(&house_wires(&one))), rings(&house_wires(&other)));
        let [old, new] = [&one, &other].map(crate::wrong_house::smallest_end);
        differed += (rings(&renamed(&old)) != rings(&new)) as u32;
    }
    assert!(differed > 500);
}

#[test]
fn where_no_two_hem_edges_start_at_one_position_ported_wires_are_the_same() {
    let mut same = 0;
    for (_, faces) in touching() {
        let mesh = mesh(&faces);
        let starts: BTreeSet<u32> = hem_edges(&mesh).iter().map(|hem| hem[0]).collect();
        if starts.len() == hem_edges(&mesh).len() {
            assert_eq!(house_wires(&mesh), ported_wires(&mesh));
            same += !starts.is_empty() as u32;
        }
    }
    assert!(same > 500);
}
