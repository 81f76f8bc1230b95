//! The product and the Rust timed beside each other, in one process and on the same meshes: what `./bench` runs. It prints a line for
//! each call, mesh and size, with tabs: the call, the mesh, the corners, then nanoseconds, ours and the Rust's, where there is one.

mod ours;
mod rust;
mod scan;
mod shapes;
mod time;

use comparer::{Library, Watch};
use judge::{About, Call};
use shapes::Case;
use std::ffi::CStr;
use std::os::raw::{c_char, c_int};
use std::time::Duration;

/// About 1/16, 1/4 and the whole of the limits.
const CORNERS: [usize; 3] = [256, 1_024, 4_096];
/// One face of 300 corners, four, and as many as there may be.
const ROUND_CORNERS: [usize; 3] = [300, 1_200, 3_900];

/// The whole program, for a C `main` that knows where the product's functions are. With the word `short` it leaves out points in one cell, which take
/// the Rust long; with the word `round` it measures faces of 300 corners, and nothing else; with the name of a call it times that one alone.
///
/// # Safety
/// `argv` holds `argc` strings.
#[no_mangle]
pub unsafe extern "C" fn bench(library: Library, _: Watch, argc: c_int, argv: *const *const c_char) -> c_int {
    let words: Vec<String> = (1..argc as usize).map(|i| CStr::from_ptr(*argv.add(i)).to_string_lossy().into_owned()).collect();
    let has = |word: &str| words.iter().any(|given| given == word);
    let only = Call::ALL.into_iter().find(|call| has(call.name()));
    for call in Call::ALL.into_iter().filter(|call| only.map_or(true, |only| only == *call)) {
        for corners in if has("round") { ROUND_CORNERS } else { CORNERS } {
            let cases = if has("round") { round_cases(call, corners) } else { cases(call, corners, has("short")) };
            for case in cases {
                print_times(&library, call, corners, &case);
            }
        }
    }
    0
}

/// Faces of 300 corners, for what looks at faces: smoothing takes triangles alone, and so has a scan; merging looks at points.
fn round_cases(call: Call, corners: usize) -> Vec<Case> {
    match call {
        _ if call.about() == About::Scan => vec![],
        Call::LoopSubdivision | Call::PutTogetherSameAttrs | Call::PutTogetherByCell => vec![],
        _ => shapes::round(corners),
    }
}

/// What a call is measured on. Smoothing makes four triangles for one, so its corners are those of its result. A scan has triangles alone.
fn cases(call: Call, corners: usize, is_short: bool) -> Vec<Case> {
    if call.about() == About::Scan {
        return shapes::scanned(corners / 3);
    }
    if call == Call::LoopSubdivision {
        return shapes::of_triangles(corners / 12);
    }
    let mut cases = shapes::all(corners);
    if [Call::HemEdges, Call::ExtractBoundaries, Call::HouseWires, Call::ListHems, Call::HemSheet].contains(&call) {
        cases.push(shapes::touching_holes(corners));
    }
    if call.merges() {
        cases.push(shapes::spread_points(corners));
        if !is_short {
            cases.push(shapes::one_cell(corners));
        }
    }
    cases
}

/// Nothing where ours refuses.
fn print_times(library: &Library, call: Call, corners: usize, case: &Case) {
    let nanos = |time: Option<Duration>| time.map_or(String::new(), |time| time.as_nanos().to_string());
    if let Some(ours) = ours::time(library, call, case) {
        println!("{}\t{}\t{corners}\t{}\t{}", call.name(), case.name, ours.as_nanos(), nanos(rust::time(call, case)));
    }
}
