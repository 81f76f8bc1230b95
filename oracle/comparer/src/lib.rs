//! The comparer: the product's C interface against the judge, mesh by mesh.
//!
//! `library` asks the product, with lent lists that are filled with a pattern (`lent`); `check` holds what came back to the judge's
//! answer. `meshes`, `shapes`, `pinched`, `round`, `surfaces`, `coordinates`, `marks`, `damage`, `files`, `faults`, `scans` and `triples` make what is asked. A difference is made small by
//! `shrink` and printed by `show`. What was written is read back by `round_trip`, what was cleaned is cleaned in every other order by `orders`, and what was compacted
//! in place is held to ordinary compaction by `in_place`.
//! `slips`, `wrong`, `wrong_broken` (over `one_by_one`), `wrong_files`, `wrong_hems`, `wrong_hem_sheet`, `wrong_house`, `wrong_in_place`, `wrong_large`, `wrong_marks`,
//! `wrong_merging`, `wrong_removal`, `wrong_scans`
//! (over `wrong_scan`) and `wrong_smoothing` (over `wrong_points`) show that the comparer can fail. What is public
//! serves the lister too.

pub mod check;
mod coordinates;
mod damage;
mod faults;
pub mod files;
mod in_place;
mod lent;
mod library;
mod marks;
pub mod meshes;
mod one_by_one;
mod options;
mod orders;
mod pinched;
pub mod random;
mod round;
mod round_trip;
mod run;
pub mod scans;
mod shapes;
mod show;
mod shrink;
mod slips;
pub mod surfaces;
mod tally;
#[cfg(test)]
mod tests;
#[cfg(test)]
mod tests_hems;
#[cfg(test)]
mod tests_house;
pub mod triples;
mod wrong;
mod wrong_broken;
mod wrong_by_cell;
mod wrong_files;
mod wrong_hem_sheet;
mod wrong_hems;
mod wrong_house;
mod wrong_in_place;
mod wrong_large;
mod wrong_marks;
mod wrong_merging;
mod wrong_points;
mod wrong_removal;
mod wrong_scan;
mod wrong_scans;
mod wrong_smoothing;

pub use library::{Asked, Library, Product, Watch};
pub use random::Random;
pub use run::run;

use std::ffi::CStr;
use std::os::raw::{c_char, c_int};

/// The whole program, for a C `main` that knows where the product's functions are.
///
/// # Safety
/// `argv` holds `argc` strings.
#[no_mangle]
pub unsafe extern "C" fn compare(library: Library, watch: Watch, argc: c_int, argv: *const *const c_char) -> c_int {
    let words = (1..argc as usize).map(|i| CStr::from_ptr(*argv.add(i)).to_string_lossy().into_owned());
    run(Some(&library), watch, words.collect())
}
