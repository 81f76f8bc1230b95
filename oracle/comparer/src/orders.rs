//! Cleaning in any sensible order (document 02, CR 10): the product removes folded faces and compacts, one after the other, in every order of up
//! to three steps, and what is left is held to itself. A file that was cleaned is cleaned again, and its sheet is held to the file's.

use crate::lent::Number;
use crate::library::{Asked, Product};
use judge::mesh::{INDICES, WIDTH};
use judge::reading::numbers::stated_rooms;
use judge::reading::sheet::FILE;
use judge::{Call, Mesh, Question};
use Step::{Compact, Remove};

#[derive(Clone, Copy, Debug, PartialEq, Eq)]
pub enum Step {
    Remove,
    Compact,
}

/// The steps that are tried: every order of as many, the first step first.
const STEPS: usize = 3;

/// What some steps left, and the origins of its faces where the last of them was a removal.
#[derive(Clone)]
pub struct Left {
    pub steps: Vec<Step>,
    pub mesh: Mesh,
    pub origins: Vec<u32>,
}

/// A change to what was left, before it is compared; what the steps before the last had left is given.
pub type Slip = fn(&mut Left, &Left);

/// What is wrong with the orders, in words; none where nothing is. The mesh is an accepted one.
pub fn differ(product: &dyn Product, mesh: &Mesh, slip: Option<Slip>) -> Option<String> {
    match tried(product, mesh, slip) {
        Ok(all) => difference(&all),
        Err(why) => Some(why),
    }
}

/// What every order of steps leaves, shorter ones first; the first of all is the mesh itself.
fn tried(product: &dyn Product, mesh: &Mesh, slip: Option<Slip>) -> Result<Vec<Left>, String> {
    let mut all = vec![Left { steps: vec![], mesh: mesh.clone(), origins: vec![] }];
    let mut next = 0;
    while all[next].steps.len() < STEPS {
        for step in [Remove, Compact] {
            let before = all[next].clone();
            let mut left = stepped(product, &before, step)?;
            if let Some(slip) = slip {
                slip(&mut left, &before);
            }
            all.push(left);
        }
        next += 1;
    }
    Ok(all)
}

/// One step further. Both calls take every mesh that either of them leaves.
fn stepped(product: &dyn Product, before: &Left, step: Step) -> Result<Left, String> {
    let call = if step == Remove { Call::RemoveDegenerateFaces } else { Call::RemoveUnusedAttrs };
    let question = Question { mesh: before.mesh.clone(), rooms: stated_rooms(call, &before.mesh), ..Question::default() };
    let asked = product.ask(call, &question);
    let steps: Vec<Step> = before.steps.iter().copied().chain([step]).collect();
    if asked.number != 0 {
        return Err(format!("{steps:?}: the last step is refused by {}", asked.number));
    }
    let (mesh, origins) = if step == Remove { removed(&before.mesh, &asked) } else { (compacted(&before.mesh, &asked), vec![]) };
    Ok(Left { steps, mesh, origins })
}

fn removed(mesh: &Mesh, asked: &Asked) -> (Mesh, Vec<u32>) {
    let (corners, faces) = (asked.counts[0] as usize, asked.counts[1] as usize);
    let left =
        Mesh { corners: asked.lists[0].front_words(WIDTH * corners), sizes: asked.lists[1].front_words(faces), ..mesh.clone() };
    (left, asked.lists[2].front_words(faces))
}

fn compacted(mesh: &Mesh, asked: &Asked) -> Mesh {
    let count = |i: usize| asked.counts[i] as usize;
    Mesh {
        corners: asked.lists[0].front_words(mesh.corners.len()),
        positions: asked.lists[1].front_floats(3 * count(0)),
        textures: asked.lists[2].front_floats(2 * count(1)),
        normals: asked.lists[3].front_floats(3 * count(2)),
        sizes: mesh.sizes.clone(),
    }
}

/// Whether a removal stands among the steps, and a compaction at some time after it.
fn is_sensible(steps: &[Step]) -> bool {
    steps.iter().position(|step| *step == Remove).map_or(false, |at| steps[at..].contains(&Compact))
}

/// Where two that must be the same are not.
fn difference(all: &[Left]) -> Option<String> {
    let of = |steps: &[Step]| all.iter().find(|left| left.steps == steps).unwrap();
    let clean = of(&[Remove, Compact]);
    let sensible = all.iter().filter(|left| is_sensible(&left.steps)).map(|left| (left, clean));
    let second_time = all.iter().filter(|left| matches!(left.steps[..], [.., a, b] if a == b));
    let twice = second_time.map(|left| (left, of(&left.steps[..left.steps.len() - 1])));
    let other = sensible.chain(twice).find(|(one, other)| !is_same(&one.mesh, &other.mesh));
    if let Some((one, other)) = other {
        return Some(format!("{:?} leaves another mesh than {:?}: {:?}, not {:?}", one.steps, other.steps, one.mesh, other.mesh));
    }
    let (after, before) = (of(&[Compact, Remove]), of(&[Remove]));
    (after.origins != before.origins)
        .then(|| format!("the origins after compaction are {:?}, and before it {:?}", after.origins, before.origins))
}

/// Equal bit for bit; a NaN is like any other NaN.
fn is_same(one: &Mesh, other: &Mesh) -> bool {
    let same = |a: &[f64], b: &[f64]| a.len() == b.len() && a.iter().zip(b).all(|(a, b)| a.same(*b));
    same(&one.positions, &other.positions)
        && same(&one.textures, &other.textures)
        && same(&one.normals, &other.normals)
        && one.corners == other.corners
        && one.sizes == other.sizes
}

/// Slips in one of the orders: each must be found.
pub const SLIPS: [(&str, Slip); 7] = [
    ("no second compaction behind a removal", |left, before| {
        if left.steps == [Compact, Remove, Compact] {
            left.mesh = before.mesh.clone();
        }
    }),
    ("a removal that changes nothing after a compaction", |left, before| {
        if left.steps == [Compact, Remove] {
            left.mesh = before.mesh.clone();
        }
    }),
    ("a second removal that turns the last face", |left, _| {
        if let ([Remove, Remove], Some(size)) = (&left.steps[..], left.mesh.sizes.last()) {
            let at = left.mesh.corners.len() - WIDTH * *size as usize;
            left.mesh.corners[at..].rotate_left(WIDTH);
        }
    }),
    ("a second compaction that makes a NaN a zero", |left, _| {
        if left.steps == [Compact, Compact] {
            left.mesh.positions.iter_mut().filter(|x| x.is_nan()).for_each(|x| *x = 0.0);
        }
    }),
    ("a compaction of a clean mesh that numbers positions backwards", |left, _| {
        if left.steps == [Remove, Compact, Compact] {
            let last = left.mesh.corners.iter().step_by(WIDTH).copied().max().unwrap_or(0);
            left.mesh.corners.iter_mut().step_by(WIDTH).for_each(|position| *position = last - *position);
        }
    }),
    ("a second compaction that clears marks", |left, _| {
        if left.steps == [Remove, Compact, Compact] {
            left.mesh.corners.iter_mut().skip(INDICES).step_by(WIDTH).for_each(|mark| *mark = 0);
        }
    }),
    ("origins that count the faces of the result after a compaction", |left, _| {
        if left.steps == [Compact, Remove] {
            left.origins = (0..left.origins.len() as u32).collect();
        }
    }),
];

/// What is wrong with a file that was cleaned, in words; none where nothing is. `asked` is what the cleaner gave, and it is right.
pub fn files_differ(product: &dyn Product, file: &[u8], asked: &Asked) -> Option<String> {
    let clean = asked.lists[0].front_bytes(asked.counts[0] as usize);
    let made = |call: Call, file: &[u8]| {
        let question = Question { file: file.to_vec(), rooms: stated_rooms(call, &Mesh::default()), ..Question::default() };
        let asked = product.ask(call, &question);
        (asked.number == 0).then(|| asked.lists[0].front_bytes(asked.counts[0] as usize))
    };
    if made(Call::CleanPanel, &clean).as_deref() != Some(&clean) {
        return Some("cleaned again it is another file".to_string());
    }
    let both_fit = product.has(Call::Sheet) && file.len() <= FILE && clean.len() <= FILE;
    (both_fit && made(Call::Sheet, &clean) != made(Call::Sheet, file)).then(|| "its sheet is another than the file's".to_string())
}
