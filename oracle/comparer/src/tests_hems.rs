//! Tests of what the list of hems and the hem sheet are asked, and of the code by which they are misread.

use crate::random::Random;
use crate::run::Subject;
use crate::wrong_hem_sheet::{told, Slip};
use crate::wrong_hems::{hems, Misread};
use crate::{meshes, triples};
use judge::reading::edges::verdict;
use judge::reading::hems::{list, number, parts, sheet, FILE};
use judge::reading::numbers::{house_number, mesh_number};
use judge::reading::panel_file;
use judge::{reading, About, Call, Question, Verdict};
use std::collections::BTreeSet;

/// What a call is asked at random.
fn asked(call: Call, count: u64) -> impl Iterator<Item = Question> {
    (0..count).map(move |i| {
        let random = Random::of(11, i);
        let mut subject = Subject::of(&random, call.about(), meshes::exhaustive_count() + i);
        subject.question(&random, call).unwrap().clone()
    })
}

/// The hem goes to and fro between two points, so often that its length takes more than 32 bits.
#[test]
fn the_long_hem_is_one() {
    let mesh = triples::long_hem();
    assert_eq!((mesh_number(&mesh), verdict(&mesh)), (0, Verdict::Oriented));
    let far: Vec<i32> = [[1_000_000; 3], [-1_000_000; 3]].iter().flat_map(|point| point.repeat(40)).collect();
    let hems = list(&mesh, &far);
    assert_eq!(hems.len(), 1);
    assert_eq!((hems[0].panel, hems[0].edges, hems[0].length), (0, 1_280, 1_280 * 3_464_101));
    assert!(hems[0].length > u32::MAX as u64);
}

/// Panels by labels and roots by their digits, where nothing is misread.
#[test]
fn what_the_misreadings_of_hems_share_is_right() {
    let (mut listed, mut several) = (0, 0);
    for question in asked(Call::ListHems, 4_000) {
        let (mesh, triples) = (&question.mesh, &question.triples);
        if mesh_number(mesh) == 0 && number(mesh, triples) == 0 && house_number(mesh) == 0 {
            let right = list(mesh, triples);
            assert_eq!(hems(mesh, triples, Misread::None), right);
            listed += 1;
            several += (right.iter().map(|hem| hem.panel).collect::<BTreeSet<_>>().len() > 1) as u32;
        }
    }
    assert!(listed > 500 && several > 50, "{listed} {several}");
}

/// Every number of the list of hems is earned, and each of its three rooms is short at times.
#[test]
fn the_list_of_hems_is_asked_for_every_number() {
    let numbers: BTreeSet<u32> =
        asked(Call::ListHems, 4_000).map(|question| reading::answer(Call::ListHems, &question).number).collect();
    assert_eq!(numbers.into_iter().collect::<Vec<_>>(), [0, 1, 2, 3, 4, 5, 9, 10, 18, 19]);
}

#[test]
fn the_hem_sheet_is_asked_for_every_number() {
    let mut numbers = BTreeSet::new();
    let (mut shared, mut longest) = (0, 0);
    for question in asked(Call::HemSheet, 8_000) {
        let said = sheet(&question.file);
        numbers.insert(said.strip_prefix("refused ").map_or(0, |number| number.trim().parse::<u32>().unwrap()));
        longest += (question.file.len() == FILE) as u32;
        if let Some((panel, behind)) = parts(&question.file).filter(|_| question.file.len() <= FILE) {
            if let Ok(mesh) = panel_file::read(panel) {
                assert_eq!(told(mesh, behind, Slip::None), said);
                shared += 1;
            }
        }
    }
    assert_eq!(numbers.into_iter().collect::<Vec<_>>(), [0, 1, 3, 5, 10, 11, 12, 13, 14, 18, 19]);
    assert!(shared > 500 && longest > 10, "{shared} {longest}");
    assert_eq!(Call::HemSheet.about(), About::PanelFile);
}
