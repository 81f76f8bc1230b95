//! The build script of the three crates in this folder: it takes the Rust's own files from the folder of docs/src,
//! holds each to its hash in `../rust.sha256`, and lays them out in OUT_DIR, where the crates include them.
//!
//! The folder is named by the environment variable DOCS_SRC, seen from the root of the repository; without it,
//! `../shared/docs/src`. The files are copied as they are, with one exception, which `ascending` states.

use std::path::{Path, PathBuf};
use std::{env, fs, process};

#[path = "sha256.rs"]
mod sha256;

fn main() {
    let package = env::var("CARGO_PKG_NAME").unwrap();
    let out = PathBuf::from(env::var("OUT_DIR").unwrap());
    let here = PathBuf::from(env::var("CARGO_MANIFEST_DIR").unwrap());
    let list = here.join("../../rust.sha256");
    let source = here.join("../../..").join(env::var("DOCS_SRC").unwrap_or_else(|_| "../shared/docs/src".to_string()));
    println!("cargo:rerun-if-env-changed=DOCS_SRC");
    println!("cargo:rerun-if-changed={}", list.display());

    let folder = package.trim_end_matches("-ascending");
    for line in read(&list).lines() {
        let (hash, name) = line.split_once("  ").unwrap();
        if name.starts_with(folder) {
            let text = checked(&source, name, hash);
            let text = if package.ends_with("-ascending") { ascending(name, text) } else { text };
            fs::write(out.join(Path::new(name).file_name().unwrap()), text).unwrap();
        }
    }
    if package == "truck-polymesh" {
        lay_out_polymesh(&here, &out);
    }
}

/// The text of one of the Rust's files, if it is the file that the list knows.
fn checked(source: &Path, name: &str, hash: &str) -> String {
    let file = source.join(name);
    println!("cargo:rerun-if-changed={}", file.display());
    let text = read(&file);
    let found = sha256::hex(text.as_bytes());
    if found != hash {
        refuse(&format!("{} is not the file that oracle/rust.sha256 knows:\n  listed {hash}\n  found  {found}", file.display()));
    }
    text
}

/// The one change in the ascending copy. Keys of an ordered map must be `Ord`, and the trait of a cell's whole numbers
/// asks for less. (Arrays of whole numbers are `Ord` by themselves.)
fn ascending(name: &str, text: String) -> String {
    if !name.ends_with("optimizing.rs") {
        return text;
    }
    let (asked, needed) = ("+ Eq {", "+ Ord {");
    if text.matches(asked).count() != 1 {
        refuse(&format!("{name} no longer has `{asked}` exactly once: the ascending copy cannot be made"));
    }
    text.replace(asked, needed)
}

/// The Rust's lib.rs names modules that docs/src does not have: one has a stand-in here, the others are empty. It stands as
/// a module of our crate, since the root of a crate cannot be chosen at build time.
fn lay_out_polymesh(here: &Path, out: &Path) {
    let errors = here.join("src/errors.rs");
    println!("cargo:rerun-if-changed={}", errors.display());
    fs::copy(errors, out.join("errors.rs")).unwrap();
    for absent in ["expand", "meshing_shape", "obj", "polyline_curve", "stl", "structured_mesh"] {
        fs::write(out.join(absent).with_extension("rs"), "").unwrap();
    }
    let root = format!("#[path = {:?}]\nmod rust;\n", out.join("lib.rs"));
    fs::write(out.join("root.rs"), root).unwrap();
}

fn read(file: &Path) -> String {
    fs::read_to_string(file).unwrap_or_else(|e| {
        refuse(&format!("{}: {e}\nDOCS_SRC names the folder of docs/src, seen from the root of the repository", file.display()))
    })
}

fn refuse(why: &str) -> ! {
    eprintln!("oracle: {why}");
    process::exit(1)
}
