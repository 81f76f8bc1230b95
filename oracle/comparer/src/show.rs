//! A question in words.

use judge::mesh::{INDICES, WIDTH};
use judge::rust::has_its_cosines;
use judge::{Call, Mesh, Question, MISSING};
use std::fmt::Write;

/// The question, so that it can be put again by hand.
pub fn question(call: Call, question: &Question) -> String {
    let mut text = String::new();
    if call.reads_a_file() {
        let hex: String = question.file.iter().map(|byte| format!("{byte:02x}")).collect();
        let _ = writeln!(text, "  file, {} bytes: {hex}", question.file.len());
    } else {
        text += &mesh(&question.mesh);
    }
    if call == Call::Face {
        let _ = writeln!(text, "  face {}", question.face);
    }
    if call.merges() {
        let _ = writeln!(text, "  tolerance {:?} = {:#x}", question.tolerance, question.tolerance.to_bits());
    }
    if call == Call::Components {
        let _ = writeln!(text, "  normals setting {}", question.use_normal);
    }
    if call == Call::LoopSubdivision {
        if has_its_cosines(question) {
            text += "  cosines as the Rust has them\n";
        } else {
            for (name, list) in [("pi/n", &question.ones), ("2 pi/n", &question.twos)] {
                let _ = writeln!(text, "  cosines of {name}, {}:{}", list.len(), entries(list, 1));
            }
        }
    }
    if call == Call::ListHems {
        let _ = writeln!(text, "  triples, {} numbers: {:?}", question.triples.len(), question.triples);
    }
    if !question.rooms.is_empty() {
        let _ = writeln!(text, "  rooms {:?}", question.rooms);
    }
    text
}

fn mesh(mesh: &Mesh) -> String {
    let mut text = String::new();
    let lists = [("positions", &mesh.positions, 3), ("texture points", &mesh.textures, 2), ("normals", &mesh.normals, 3)];
    for (name, list, width) in lists {
        let _ = writeln!(text, "  {name}, {} numbers:{}", list.len(), entries(list, width));
    }
    let corners: String = mesh.corners.chunks(WIDTH).map(corner).collect();
    let _ = writeln!(text, "  corners, {} numbers:{corners}", mesh.corners.len());
    let _ = writeln!(text, "  face sizes, {}: {:?}", mesh.sizes.len(), mesh.sizes);
    text
}

fn entries(list: &[f64], width: usize) -> String {
    let number = |x: &f64| if x.is_nan() { format!("NaN({:#x})", x.to_bits()) } else { format!("{x:?}") };
    list.chunks(width).map(|entry| format!(" ({})", entry.iter().map(number).collect::<Vec<_>>().join(", "))).collect()
}

fn corner(corner: &[u32]) -> String {
    let number = |(place, n): (usize, &u32)| if *n == MISSING && place < INDICES { "-".to_string() } else { n.to_string() };
    format!(" {}", corner.iter().enumerate().map(number).collect::<Vec<_>>().join("/"))
}
