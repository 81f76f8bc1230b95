//! The test of the comparer itself: slips are planted in the product's answers, one at a time, and each must be found.

use crate::check::{compare, Slip};
use crate::library::{Asked, Product, UNTOUCHED};
use crate::meshes;
use crate::orders;
use crate::random::Random;
use crate::run::Subject;
use crate::wrong::{self, Wrong};
use judge::reading::numbers::mesh_number;
use judge::{Answer, Call, Numbers, Question};

/// How many meshes or files a slip may take to be found.
const PATIENCE: u64 = 20_000;

/// A change to an answer, by its name.
type Planted = (&'static str, fn(&mut Asked, &Question, &Answer));

/// Slips that any call can make.
const ANYWHERE: [Planted; 6] = [
    ("another number", |asked, _, _| asked.number ^= 1),
    ("the last count one higher", |asked, _, right| {
        if let (0, Some(count)) = (right.number, asked.counts.last_mut()) {
            *count += 1;
        }
    }),
    ("the last number of a list is another", |asked, _, right| {
        for (list, numbers) in asked.lists.iter_mut().zip(&right.lists) {
            if length(numbers) > 0 {
                list.spoil(length(numbers) - 1);
            }
        }
    }),
    ("a number written past the result", |asked, _, right| {
        if right.number == 0 {
            asked.lists.iter_mut().zip(&right.lists).for_each(|(list, numbers)| list.spoil(length(numbers)));
        }
    }),
    ("a number written on a refusal", |asked, _, right| {
        if right.number != 0 {
            asked.lists.iter_mut().for_each(|list| list.spoil(0));
        }
    }),
    ("counts, or the verdict, the other way round on a refusal", |asked, _, right| {
        if right.number != 0 {
            asked.counts.iter_mut().for_each(|count| *count = if *count == UNTOUCHED { 0 } else { UNTOUCHED });
        }
    }),
];

fn length(numbers: &Numbers) -> usize {
    match numbers {
        Numbers::Floats(list) => list.len(),
        Numbers::Words(list) => list.len(),
        Numbers::Longs(list) => list.len(),
        Numbers::Bytes(list) => list.len(),
    }
}

/// Whether a slip of any call can show in this one.
fn applies(name: &str, call: Call) -> bool {
    let shape = Answer::refused(call, 0);
    match name {
        "another number" => call != Call::Face,
        "the last count one higher" => !shape.counts.is_empty(),
        "counts, or the verdict, the other way round on a refusal" => !shape.counts.is_empty() && call != Call::Face,
        _ => !shape.lists.is_empty(),
    }
}

/// Plants each slip in turn. 0: each was found, and without one there is no difference.
pub fn run(product: &dyn Product, calls: &[Call], seed: u64) -> i32 {
    let mut missed = 0;
    for call in calls {
        if let Some(questions) = found(product, *call, seed, None, 2_000) {
            println!("{}: a difference without a slip, after {questions} questions", call.name());
            missed += 1;
        }
        for (name, slip) in ANYWHERE.iter().filter(|(name, _)| applies(name, *call)) {
            missed += report(*call, name, found(product, *call, seed, Some(slip), PATIENCE));
        }
        for (name, wrong) in wrong::answers(*call) {
            let slip = |asked: &mut Asked, question: &Question, right: &Answer| mistake(*call, asked, question, right, *wrong);
            missed += report(*call, name, found(product, *call, seed, Some(&slip), PATIENCE));
        }
        if *call == Call::RemoveDegenerateFaces && product.has(Call::RemoveUnusedAttrs) {
            for (name, slip) in orders::SLIPS {
                missed += report(*call, name, found_in_orders(product, seed, slip));
            }
        }
    }
    println!("{}", if missed == 0 { "every slip was found" } else { "NOT EVERY SLIP WAS FOUND" });
    (missed > 0) as i32
}

/// Puts a wrong answer in the place of the right one.
fn mistake(call: Call, asked: &mut Asked, question: &Question, right: &Answer, wrong: Wrong) {
    if let Some(answer) = wrong(question, right) {
        *asked = Asked::answering(call, question, &answer);
    }
}

fn report(call: Call, name: &str, found: Option<u64>) -> i32 {
    match found {
        Some(questions) => println!("found, question {questions:>5}: {}: {name}", call.name()),
        None => println!("NOT FOUND: {}: {name}", call.name()),
    }
    found.is_none() as i32
}

/// The question at which the comparer saw a difference.
fn found(product: &dyn Product, call: Call, seed: u64, slip: Option<Slip>, patience: u64) -> Option<u64> {
    (1..=patience).find(|count| {
        let random = Random::of(seed, *count);
        let mut subject = Subject::of(&random, call.about(), meshes::exhaustive_count() + count);
        let question = subject.question(&random, call);
        question.map_or(false, |question| compare(product, call, question, slip).difference.is_some())
    })
}

/// The mesh at which the comparer saw a difference between two orders of cleaning.
fn found_in_orders(product: &dyn Product, seed: u64, slip: orders::Slip) -> Option<u64> {
    (1..=PATIENCE).find(|count| {
        let random = Random::of(seed, *count);
        let call = Call::RemoveDegenerateFaces;
        let mut subject = Subject::of(&random, call.about(), meshes::exhaustive_count() + count);
        let question = subject.question(&random, call);
        question.map_or(false, |question| {
            mesh_number(&question.mesh) == 0 && orders::differ(product, &question.mesh, Some(slip)).is_some()
        })
    })
}
