//! What was written is read back by the product itself: the same mesh, bit for bit, and written again the same bytes.

use crate::check::difference;
use crate::library::{Asked, Product};
use judge::mesh::WIDTH;
use judge::reading::numbers::stated_rooms;
use judge::{Answer, Call, Mesh, Question};

/// What is wrong with the way back, in words; none where nothing is. `asked` is what the writer gave, and it is right.
pub fn differs(product: &dyn Product, mesh: &Mesh, asked: &Asked) -> Option<String> {
    let file = asked.lists[0].front_bytes(asked.counts[0] as usize);
    let question = Question { file: file.clone(), rooms: stated_rooms(Call::ReadPanel, mesh), ..Question::default() };
    let read = product.ask(Call::ReadPanel, &question);
    if let Some(difference) = difference(&read, &Answer::read(mesh.clone())) {
        return Some(format!("read back: {difference}"));
    }
    let again = Question { mesh: taken(&read), rooms: vec![file.len()], ..Question::default() };
    let written = product.ask(Call::WritePanel, &again);
    difference(&written, &Answer::bytes(file)).map(|difference| format!("written again: {difference}"))
}

/// The mesh that the reader gave, from its own lists and counts.
fn taken(read: &Asked) -> Mesh {
    let count = |i: usize| read.counts[i] as usize;
    Mesh {
        positions: read.lists[0].front_floats(3 * count(0)),
        textures: read.lists[1].front_floats(2 * count(1)),
        normals: read.lists[2].front_floats(3 * count(2)),
        corners: read.lists[3].front_words(WIDTH * count(3)),
        sizes: read.lists[4].front_words(count(4)),
    }
}
