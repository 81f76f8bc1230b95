//! The outputs that are stored beside the product's programs, held to document 01 read again.

use judge::mesh::Mesh;
use judge::reading::smoothing::{self, Cosines};
use judge::reading::{panel_file, scan, sheet, writing};
use std::collections::BTreeMap;
use std::fs::{read, read_to_string};
use std::path::{Path, PathBuf};

fn root() -> PathBuf {
    Path::new(env!("CARGO_MANIFEST_DIR")).join("../..")
}

/// The files that a program's args name, from its data folder.
fn files(program: &str) -> Vec<(String, Vec<u8>)> {
    let folder = root().join("crates").join(program);
    let names = read_to_string(folder.join("args")).unwrap();
    names.lines().map(|name| (name.to_string(), read(folder.join("data").join(name)).unwrap())).collect()
}

fn stored(program: &str) -> String {
    read_to_string(root().join("crates").join(program).join("stdout")).unwrap()
}

#[test]
fn meshsheet_prints_the_sheet() {
    let file = read(root().join("crates/meshsheet/stdin")).unwrap();
    assert_eq!(file.len(), 267);
    assert_eq!(sheet::sheet(&file), stored("meshsheet"));
}

#[test]
fn meshclean_writes_the_cleaned_file() {
    let folder = root().join("crates/meshclean");
    let cleaned = writing::clean(&read(folder.join("stdin")).unwrap()).unwrap();
    assert_eq!(cleaned, read(folder.join("stdout")).unwrap());
}

/// A file cleaned, smoothed once with the Rust's own cosines, and written.
fn rounded(file: &[u8]) -> Vec<u8> {
    let mesh = panel_file::read(&writing::clean(file).unwrap()).unwrap();
    let [ones, twos] = judge::rust::cosines();
    let cosines = Cosines { ones: &ones, twos: &twos };
    assert_eq!(smoothing::number(&mesh, cosines), 0);
    let smoothed = smoothing::loop_subdivision(&mesh, cosines);
    writing::write(&Mesh { positions: smoothed.positions, corners: smoothed.corners, sizes: smoothed.sizes, ..mesh })
}

#[test]
fn meshround_writes_the_rounded_file() {
    let folder = root().join("crates/meshround");
    assert!(rounded(&read(folder.join("stdin")).unwrap()) == read(folder.join("stdout")).unwrap());
}

#[test]
fn sheets_prints_each_sheet() {
    let sheets: String = files("try_sheets").iter().map(|(name, file)| format!("== {name}\n{}", sheet::sheet(file))).collect();
    assert_eq!(sheets, stored("try_sheets"));
}

/// With SCAN_SHEETS the stored output is made.
#[test]
fn scans_prints_each_sheet() {
    let sheets: String = files("try_scans").iter().map(|(name, file)| format!("== {name}\n{}", scan::sheet(file))).collect();
    if std::env::var_os("SCAN_SHEETS").is_some() {
        std::fs::write(root().join("crates/try_scans/stdout"), &sheets).unwrap();
    }
    assert_eq!(sheets, stored("try_scans"));
}

#[test]
fn damaged_counts_each_number() {
    let counted: String = files("try_damaged")
        .iter()
        .map(|(name, file)| format!("== {name}\n{}{}{}", cuts(file), headers(file), broken(file)))
        .collect();
    assert_eq!(counted, stored("try_damaged"));
}

/// A file of a cover, by its ending: the name of a rounded cover has a point of its own.
fn of(cover: &Path, ending: &str) -> PathBuf {
    PathBuf::from(format!("{}.{ending}", cover.display()))
}

/// What of examples/ has a sheet, and beside it a file of this kind, each without its ending.
fn with_sheets(ending: &str) -> Vec<PathBuf> {
    let all = std::fs::read_dir(root().join("examples")).unwrap().map(|entry| entry.unwrap().path());
    let sheets = all.filter(|path| path.extension().map_or(false, |ending| ending == "sheet"));
    let found: Vec<PathBuf> = sheets.map(|path| path.with_extension("")).filter(|path| of(path, ending).exists()).collect();
    assert!(!found.is_empty());
    found
}

/// The covers.
fn covers() -> Vec<PathBuf> {
    with_sheets("panel")
}

#[test]
fn examples_have_the_sheets_of_their_scans() {
    for path in with_sheets("stl") {
        let file = read(of(&path, "stl")).unwrap();
        assert_eq!(scan::sheet(&file), read_to_string(of(&path, "sheet")).unwrap(), "{path:?}");
    }
}

#[test]
fn examples_have_their_sheets() {
    for cover in covers() {
        let file = read(of(&cover, "panel")).unwrap();
        assert_eq!(sheet::sheet(&file), read_to_string(of(&cover, "sheet")).unwrap(), "{cover:?}");
    }
}

/// A cover that is stored rounded is so, and rounded again it has as many hems, the same verdict and one panel.
#[test]
fn examples_have_their_rounded_files() {
    let drawn: Vec<PathBuf> = covers().into_iter().filter(|cover| of(cover, "round.panel").exists()).collect();
    assert!(!drawn.is_empty());
    for cover in drawn {
        let round = rounded(&read(of(&cover, "panel")).unwrap());
        assert!(round == read(of(&cover, "round.panel")).unwrap(), "{cover:?}");
        let kinds = |sheet: String| -> Vec<String> {
            let lines = sheet.lines().skip(1);
            lines.map(|line| if line.starts_with("hem ") { "hem".to_string() } else { line.to_string() }).collect()
        };
        let before = kinds(read_to_string(of(&cover, "sheet")).unwrap());
        assert_eq!(kinds(sheet::sheet(&round)), before, "{cover:?}");
        assert_eq!(kinds(sheet::sheet(&rounded(&round))), before, "{cover:?}");
    }
}

/// A cleaned cover has the sheet of the drawn one, and cleaned again it is the same file. With CLEAN_EXAMPLES the files are made.
#[test]
fn examples_have_their_cleaned_files() {
    for cover in covers() {
        let path = of(&cover, "clean.panel");
        let cleaned = writing::clean(&read(of(&cover, "panel")).unwrap()).unwrap();
        if std::env::var_os("CLEAN_EXAMPLES").is_some() {
            std::fs::write(&path, &cleaned).unwrap();
        }
        assert!(cleaned == read(&path).unwrap(), "{path:?}");
        assert!(cleaned == writing::clean(&cleaned).unwrap(), "{path:?}");
        assert_eq!(sheet::sheet(&cleaned), read_to_string(of(&cover, "sheet")).unwrap(), "{path:?}");
    }
}

fn number(file: &[u8]) -> u32 {
    panel_file::read(file).err().unwrap_or(0)
}

fn lines(what: &str, numbers: impl Iterator<Item = u32>) -> String {
    let mut counts = BTreeMap::new();
    numbers.for_each(|n| *counts.entry(n).or_insert(0) += 1);
    counts.iter().map(|(n, count)| format!("{what} {n}: {count}\n")).collect()
}

fn cuts(file: &[u8]) -> String {
    lines("cut", (0..=file.len()).map(|n| number(&file[..n])))
}

/// Where each record begins, and how long its body is.
fn records(file: &[u8]) -> Vec<(usize, usize)> {
    let (mut records, mut at) = (vec![], 0);
    while at < file.len() {
        let length = u16::from_le_bytes([file[at], file[at + 1]]) as usize;
        records.push((at, length));
        at += 4 + length;
    }
    records
}

/// Every coordinate changed: to NaNs and infinities, which are refused, and to the largest numbers of either sign, which are not.
fn broken(file: &[u8]) -> String {
    let entries = records(file).into_iter().filter(|(at, _)| (1..=3).contains(&file[at + 2]));
    let places: Vec<usize> = entries.flat_map(|(at, length)| (at + 4..at + 4 + length).step_by(8)).collect();
    let with = |values: &[u64]| -> Vec<u32> {
        let changes = places.iter().flat_map(|at| values.iter().map(move |value| (*at, *value)));
        changes.map(|(at, value)| number(&[&file[..at], &value.to_le_bytes(), &file[at + 8..]].concat())).collect()
    };
    let infinity = f64::INFINITY.to_bits();
    let broken = with(&[0x7ff8_0000_0000_0000, 0xfff0_0000_0000_0001, infinity, infinity | 1 << 63]);
    let large = with(&[f64::MAX.to_bits(), f64::MIN.to_bits()]);
    lines("broken coordinate", broken.into_iter()) + &lines("large coordinate", large.into_iter())
}

/// Every byte of every header changed to each other value.
fn headers(file: &[u8]) -> String {
    let bytes: Vec<usize> = records(file).into_iter().flat_map(|(at, _)| at..at + 4).collect();
    lines(
        "changed header",
        bytes.iter().flat_map(|at| {
            (0..=255).filter(move |value| *value != file[*at]).map(move |value| {
                let mut copy = file.to_vec();
                copy[*at] = value;
                number(&copy)
            })
        }),
    )
}
