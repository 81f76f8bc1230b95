//! The comparer without the product's library: document 01's reading stands in its place, and the Rust is held to it.

fn main() {
    std::process::exit(comparer::run(None, None, std::env::args().skip(1).collect()))
}
