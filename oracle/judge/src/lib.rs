//! The judge: what the Rust answers and what document 01 says, over the product's own flat lists.
//!
//! `rust` asks the Rust, twice: untouched, and the copy whose maps and sets are read in ascending order. `reading` is document 01 read
//! again, in plain Rust and apart from the Rust. Both answer a `Question` about one `Call` in one shape, the `Answer`.

pub mod calls;
pub mod mesh;
pub mod reading;
pub mod rust;

pub use calls::{About, Answer, Call, Count, Numbers, Question};
pub use mesh::{Mesh, Verdict, MISSING};
