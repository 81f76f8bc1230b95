//! Compaction in place beside ordinary compaction (document 02, CR 12): the product's two calls on one mesh, bit for bit.

use crate::lent::Number;
use crate::library::{Asked, Product};
use crate::one_by_one::WIDTHS;
use judge::reading::numbers::stated_rooms;
use judge::{Call, Mesh, Question};

/// What is wrong, in words; none where nothing is. `asked` is what compaction in place left, and it is right.
pub fn differs(product: &dyn Product, mesh: &Mesh, asked: &Asked) -> Option<String> {
    let call = Call::RemoveUnusedAttrs;
    let question = Question { mesh: mesh.clone(), rooms: stated_rooms(call, mesh), ..Question::default() };
    let ordinary = product.ask(call, &question);
    if ordinary.number != 0 || ordinary.counts != asked.counts {
        return Some(format!(
            "beside ordinary compaction, which answers {} and counts {:?}, not {:?}",
            ordinary.number, ordinary.counts, asked.counts
        ));
    }
    let corners = mesh.corners.len();
    if ordinary.lists[0].front_words(corners) != asked.lists[3].front_words(corners) {
        return Some("the corners are other ones than ordinary compaction gives".to_string());
    }
    let is_other = |list: &usize| {
        let kept = WIDTHS[*list] * asked.counts[*list] as usize;
        let (moved, given) = (asked.lists[*list].front_floats(kept), ordinary.lists[1 + *list].front_floats(kept));
        !moved.iter().zip(&given).all(|(one, other)| one.same(*other))
    };
    (0..WIDTHS.len()).find(is_other).map(|list| format!("list {list} begins with other entries than ordinary compaction gives"))
}
