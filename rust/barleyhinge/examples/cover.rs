//! The library tried from Rust: reads a panel file from standard input, cleans it and prints its sheet, as document 01 has it; then a
//! line from each call that the sheet does not need, the cleaned cover as a panel file among them. A refusal prints 'refused' and its
//! number. Last comes the sheet again, from the one call that makes all of it. One byte more than a file may have is read, so that a longer one is refused and not cut.
//! With any word after its name it reads a scan, a binary STL file, and goes on with the panel file of the scan's mesh.
//! examples/cover.c is the same from C; tools/try_library builds and runs both.
//!
//! It has C's `main`, since the start-up code of a Rust `main` does not get through the emulator that runs x86-64 programs on Arm.
#![no_main]

use barleyhinge::{clean_panel, hem_file, hem_sheet, read_panel, read_scan, sheet, Faces, Mesh, OwnedMesh, Refusal, Rows};
use barleyhinge::{CORNER_WIDTH, FILE_ROOM, MAX_COORDINATE, MAX_ENTRIES, MAX_FACES, MAX_FILE};
use std::io::Read;
use std::os::raw::{c_char, c_int};

/// Reads, removes folded faces, compacts: what the removal left, the clean cover, and for each face the number of the drawn face it came from.
fn draw(file: &[u8]) -> Result<(OwnedMesh, OwnedMesh, Vec<u32>), Refusal> {
    if file.len() > MAX_FILE {
        return Err(Refusal::OverLimit);
    }
    let drawn = read_panel(file)?;
    let unfolded = drawn.mesh().remove_degenerate_faces()?;
    let left = OwnedMesh { corners: unfolded.faces.corners, sizes: unfolded.faces.sizes, ..drawn };
    let clean = left.mesh().remove_unused_attrs()?;
    Ok((left, clean, unfolded.origins))
}

fn print_row(name: &str, row: &[u32]) {
    let numbers: String = row.iter().map(|number| format!(" {number}")).collect();
    println!("{name}{numbers}");
}

fn print_rows(name: &str, rows: &Rows) {
    rows.rows().for_each(|row| print_row(name, row));
}

fn print_sheet(mesh: Mesh) -> Result<(), Refusal> {
    let counts = [mesh.positions.len() / 3, mesh.textures.len() / 2, mesh.normals.len() / 3, mesh.sizes.len()];
    println!("mesh {} {} {} {}", counts[0], counts[1], counts[2], counts[3]);
    println!("verdict {}", mesh.shell_condition()?);
    println!("panels {}", mesh.components(false)?.lengths.len());
    match mesh.house_wires() {
        Ok(wires) => print_rows("hem", &wires),
        Err(refusal) => println!("hems refused {}", refusal.number()),
    }
    Ok(())
}

/// The faces in the opposite order, so that larger ones come first, and a face of no corners; grouped again.
fn turned(mesh: Mesh) -> Result<Faces, Refusal> {
    let faces: Vec<&[u32]> = (0..mesh.sizes.len()).rev().map(|k| mesh.face(k)).collect();
    let mut sizes: Vec<u32> = mesh.sizes.iter().rev().copied().collect();
    if sizes.len() < MAX_FACES {
        sizes.push(0);
    }
    Faces::push(&faces.concat(), &sizes)
}

/// What the removal left compacted once more, in its own lists: it must be the clean cover. (The number list is never too short here;
/// examples/cover.c tries that.)
fn print_in_place(mut left: OwnedMesh, clean: &OwnedMesh) -> Result<(), Refusal> {
    left.compact_in_place()?;
    println!("in place 0{}", if left == *clean { ", the same" } else { "" });
    Ok(())
}

fn print_more(mesh: Mesh) -> Result<(), Refusal> {
    println!("number {}", mesh.check().map_or_else(Refusal::number, |()| 0));
    let part = mesh.face(mesh.sizes.len().wrapping_sub(1));
    let start = if part.is_empty() { 0 } else { mesh.corners.len() - part.len() };
    println!("last face {start} {}", part.len());
    let turned = turned(mesh)?;
    println!("grouped {} of {}", turned.corners.len() / CORNER_WIDTH, turned.sizes.len());
    println!("hem edges {}", mesh.hem_edges()?.len());
    print_rows("ported", &mesh.extract_boundaries()?);
    for tolerance in [0.125, 2.0] {
        let (number, merged) = match mesh.put_together_same_attrs(tolerance) {
            Ok(merged) => (0, merged),
            Err(refusal) => (refusal.number(), Default::default()),
        };
        println!("merging {number} pairs {} {} {}", merged.position_pairs, merged.texture_pairs, merged.normal_pairs);
    }
    Ok(())
}

/// The cleaned cover as a panel file, which is read back as the same mesh; and the file cleaned by the one call that does all of it, which
/// must be the same. (The lent buffer is never too short here; examples/cover.c tries that.)
fn print_written(clean: &OwnedMesh, file: &[u8]) -> Result<(), Refusal> {
    let written = clean.mesh().to_panel()?;
    println!("written 0 bytes {}", written.len());
    let cleaned = clean_panel(file)?;
    let same = cleaned == written && read_panel(&written)? == *clean;
    println!("cleaned 0 bytes {}{}", cleaned.len(), if same { ", the same" } else { "" });
    Ok(())
}

/// The hems of the cover as it was drawn, by made-up coordinates in tenths of a millimetre: first with a triple that is cut, and with a coordinate that is
/// too far. The hem sheet of the same file must have the same lines. (No list is too short here; examples/cover.c tries that.)
fn print_hems(file: &[u8]) -> Result<(), Refusal> {
    let drawn = read_panel(file)?;
    let positions = drawn.positions.len() as i32 / 3;
    let mut triples: Vec<i32> = (0..positions).flat_map(|i| [100 * i, 0, i % 4 * -75]).collect();
    let print_refusal = |what: &str, triples: &[i32]| {
        if let Err(refusal) = drawn.mesh().list_hems(triples) {
            println!("{what} {}: {}", refusal.number(), refusal.text());
        }
    };
    print_refusal("triples", &[&triples[..], &[0]].concat());
    if let Some(last) = triples.last_mut() {
        *last -= MAX_COORDINATE + 1;
        print_refusal("too far", &triples);
        *triples.last_mut().unwrap() += MAX_COORDINATE + 1;
    }
    let (number, mut lines) = match drawn.mesh().list_hems(&triples) {
        Ok(hems) => (0, hems.iter().map(|hem| format!("hem {} {} {}\n", hem.panel, hem.edges, hem.length)).collect()),
        Err(refusal) => (refusal.number(), format!("refused {}\n", refusal.number())),
    };
    if number == 0 {
        print!("{}", lines.replace("hem ", "listed "));
    }
    let input = hem_file(file, &triples);
    if input.len() > MAX_FILE {
        lines = format!("refused {}\n", Refusal::OverLimit.number());
    }
    println!("hem sheet {number}{}", if hem_sheet(&input) == lines { ", the same" } else { "" });
    Ok(())
}

/// The cleaned cover with one more position that is not finite, and that no corner uses: it is a mesh, and no file is made of it.
fn print_broken(mut clean: OwnedMesh) {
    if clean.positions.len() < 3 * MAX_ENTRIES {
        clean.positions.extend([0.0, f64::INFINITY, 0.0]);
        let number = clean.mesh().check().map_or_else(Refusal::number, |()| 0);
        if let Err(refusal) = clean.mesh().to_panel() {
            println!("broken {number} written {}: {}", refusal.number(), refusal.text());
        }
    }
}

/// The file, or of a scan the panel file of its mesh.
fn read(is_scan: bool) -> Result<Vec<u8>, Refusal> {
    let mut file = vec![];
    let most = if is_scan { FILE_ROOM } else { MAX_FILE + 1 };
    std::io::stdin().take(most as u64).read_to_end(&mut file).unwrap();
    if is_scan {
        read_scan(&file)?.mesh().to_panel()
    } else {
        Ok(file)
    }
}

#[no_mangle]
pub extern "C" fn main(count: c_int, _: *const *const c_char) -> c_int {
    let file = match read(count > 1) {
        Ok(file) => file,
        Err(refusal) => {
            println!("refused {}", refusal.number());
            return 0;
        }
    };
    let done = draw(&file).and_then(|(left, clean, origins)| {
        print_sheet(clean.mesh())?;
        print_row("drawn as", &origins);
        print_in_place(left, &clean)?;
        print_more(clean.mesh())?;
        print_written(&clean, &file)?;
        print_hems(&file)?;
        print_broken(clean);
        Ok(())
    });
    if let Err(refusal) = done {
        println!("refused {}", refusal.number());
    }
    print!("{}", sheet(&file));
    0
}
