//! The product, by its C interface, over lists that are there beforehand: each lent list has exactly its stated room.

use crate::scan;
use crate::shapes::Case;
use crate::time::fastest;
use comparer::check::difference;
use comparer::{Asked, Library, Product};
use judge::reading::hems::{self, FARTHEST};
use judge::reading::numbers::stated_rooms;
use judge::reading::sheet::FILE;
use judge::reading::writing::write;
use judge::{rust, About, Answer, Call, Mesh, Question};
use std::time::Duration;

/// The triples of a mesh's positions: its coordinates in metres, drawn in tenths of a millimetre.
fn triples(mesh: &Mesh) -> Vec<i32> {
    let far = FARTHEST as f64;
    mesh.positions.iter().map(|x| (10_000.0 * x).clamp(-far, far) as i32).collect()
}

/// What a call on a file reads: a scan, a panel file, or one with a count before it and triples behind it.
fn file(call: Call, mesh: &Mesh) -> Vec<u8> {
    match call {
        _ if call.about() == About::Scan => scan::file(mesh),
        Call::HemSheet => {
            let panel = write(mesh);
            let behind: Vec<u8> = triples(mesh).iter().flat_map(|coordinate| coordinate.to_le_bytes()).collect();
            [&(panel.len() as u32).to_le_bytes()[..], &panel, &behind].concat()
        }
        _ => write(mesh),
    }
}

/// How long a call takes; none where the library does not have it or it refuses, and no sheet of a file that is too long for one, or of hems that are refused.
pub fn time(library: &Library, call: Call, case: &Case) -> Option<Duration> {
    let [ones, twos] = rust::cosines();
    let question = Question {
        mesh: case.mesh.clone(),
        face: case.mesh.sizes.len() - 1,
        tolerance: case.tolerance,
        use_normal: true,
        ones,
        twos,
        triples: triples(&case.mesh),
        file: file(call, &case.mesh),
        rooms: stated_rooms(call, &case.mesh),
    };
    if !library.has(call) || [Call::Sheet, Call::HemSheet].contains(&call) && question.file.len() > FILE {
        return None;
    }
    let mut asked = Asked::before(call, &question);
    library.put(call, &question, &mut asked);
    if asked.number != 0 || call == Call::HemSheet && hems::sheet(&question.file).starts_with("refused") {
        return None;
    }
    if call == Call::ReadScan {
        let read = Answer::read(scan::read(&question.file).unwrap());
        assert_eq!(difference(&asked, &read), None);
    }
    if call.changes_its_mesh() {
        // A mesh that was compacted has nothing left to move: each run has one of its own, which is made before the clock starts.
        let compacted = |mut fresh: Asked| {
            library.put(call, &question, &mut fresh);
            fresh
        };
        return Some(fastest(|| Asked::before(call, &question), compacted));
    }
    Some(fastest(|| (), |()| library.put(call, &question, &mut asked)))
}
