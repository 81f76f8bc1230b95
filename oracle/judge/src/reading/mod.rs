//! Document 01, read again: short, plain, and apart from the Rust and from the product. Each file is one section of it, or a request of
//! document 02.

pub mod cleaning;
pub mod door;
pub mod edges;
pub mod hems;
pub mod house;
pub mod in_place;
pub mod merging;
pub mod numbers;
pub mod panel_file;
pub mod panels;
pub mod scan;
pub mod sheet;
pub mod smoothing;
pub mod writing;

use crate::calls::{Answer, Call, Question};

/// What document 01 says to a question.
pub fn answer(call: Call, question: &Question) -> Answer {
    let (mesh, file) = (&question.mesh, &question.file);
    let number = numbers::number(call, question);
    if number != 0 && call.changes_its_mesh() {
        return Answer::unmoved(number, mesh);
    }
    if number != 0 && call != Call::MeshNumber {
        return Answer::refused(call, number);
    }
    match call {
        Call::MeshNumber => Answer::mesh_number(number),
        Call::Face => {
            let part = numbers::part_of_face(mesh, question.face);
            Answer::face(part.start, part.len())
        }
        Call::RemoveUnusedAttrs => Answer::compacted(cleaning::remove_unused_attrs(mesh)),
        Call::CompactInPlace => Answer::in_place(in_place::compact(mesh)),
        Call::RemoveDegenerateFaces => Answer::unfolded(cleaning::remove_degenerate_faces(mesh)),
        // Two engines, one meaning: request 9 of document 02 asks for the same representatives and the same pairs.
        Call::PutTogetherSameAttrs | Call::PutTogetherByCell => {
            Answer::merged(merging::put_together_same_attrs(mesh, question.tolerance))
        }
        Call::ShellCondition => Answer::verdict(edges::verdict(mesh)),
        Call::HemEdges => Answer::hem_edges(&edges::hem_edges(mesh)),
        Call::ExtractBoundaries => Answer::rows(&edges::ported_wires(mesh)),
        Call::HouseWires => Answer::rows(&house::house_wires(mesh)),
        Call::Components => Answer::rows(&panels::components(mesh, question.use_normal)),
        Call::ReadPanel => Answer::read(panel_file::read(file).unwrap()),
        Call::WritePanel => Answer::bytes(writing::write(mesh)),
        Call::CleanPanel => Answer::bytes(writing::clean(file).unwrap()),
        Call::Sheet => Answer::sheet(sheet::sheet(file)),
        Call::Push => Answer::pushed(cleaning::push(mesh)),
        Call::LoopSubdivision => Answer::smoothed(smoothing::loop_subdivision(mesh, question.cosines())),
        Call::ReadScan => Answer::read(scan::read(file).unwrap()),
        Call::ScanSheet => Answer::sheet(scan::sheet(file)),
        Call::ListHems => Answer::hems(&hems::list(mesh, &question.triples)),
        Call::HemSheet => Answer::sheet(hems::sheet(file)),
    }
}
