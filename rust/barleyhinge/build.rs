//! Links libbarleyhinge.a, which 'tools/staticlib' writes to target/staticlib in the repository; the environment variable
//! BARLEYHINGE_LIB names another folder. The archive is for x86-64 Linux; for any other target the build ends here.

use std::path::{Path, PathBuf};

/// The build ends, with this as its last word.
fn stop(why: String) -> ! {
    eprintln!("barleyhinge: {why}");
    std::process::exit(1)
}

fn main() {
    let (os, arch) = (std::env::var("CARGO_CFG_TARGET_OS").unwrap(), std::env::var("CARGO_CFG_TARGET_ARCH").unwrap());
    if (&os[..], &arch[..]) != ("linux", "x86_64") {
        stop(format!("the library is for x86-64 Linux, not for {}", std::env::var("TARGET").unwrap()));
    }
    let here = PathBuf::from(std::env::var("CARGO_MANIFEST_DIR").unwrap());
    let given = std::env::var_os("BARLEYHINGE_LIB").map(PathBuf::from);
    let folder = given.unwrap_or_else(|| here.join("../../target/staticlib"));
    let archive = folder.join("libbarleyhinge.a");
    if !Path::new(&archive).exists() {
        stop(format!(
            "{} is not there: 'tools/staticlib' makes it, and BARLEYHINGE_LIB names its folder",
            archive.display()
        ));
    }
    println!("cargo:rerun-if-env-changed=BARLEYHINGE_LIB");
    println!("cargo:rerun-if-changed={}", archive.display());
    println!("cargo:rustc-link-search=native={}", folder.display());
    println!("cargo:rustc-link-lib=static=barleyhinge");
}
