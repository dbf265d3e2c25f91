//! Calls of the Metzurgo SAS configurator: domain files, wiring, route tables,
//! request tracing, drives plugged and pulled, rig cards, rigs joined, exercises, loading frames, and a software expander
//! that obeys them.
//!
//! The functions at the top level take slices and give an answer with a type, or
//! a [`Refusal`]. The module [`raw`] has the same calls with the answer as the
//! archive gives it, one 64-bit number. include/metzurgo.h describes each call.
//! A domain that is traced over many times is decoded once, into a [`Form`].
//!
//! The archive libexports.a is looked for in the directory that METZURGO_LIB_DIR
//! names, else in target/staticlib of the repository. The examples use the pair
//! rig, crates/routes/stdin.
//!
//! ```
//! use metzurgo::{judge, needed, tables, trace, Expander, Outcome, Request, Setting};
//!
//! let file = std::fs::read("../../crates/routes/stdin")?;
//! let course = Setting::new(16, 32, 4)?;
//! let expanders = judge(course, &file)?;
//!
//! let needed = needed(course, &file)?;
//! let mut words = vec![0; needed.word_count()];
//! let mut bits = vec![0; needed.bit_bytes()];
//! tables(course, &file, &mut words, &mut bits)?;
//!
//! let mut passed = vec![Expander(0); expanders as usize];
//! let request = Request { expander: Expander(0), arrival: None, address: 0x50000000000000b1 };
//! let answer = trace(course, &file, &words, &bits, request, &mut passed)?;
//! assert_eq!(answer.outcome, Outcome::Arrived);
//! # Ok::<(), Box<dyn std::error::Error>>(())
//! ```

mod bits;
mod cards;
pub mod codes;
mod events;
mod exercises;
mod files;
mod forms;
mod frames;
mod joins;
mod places;
pub mod raw;
mod refusals;
mod settings;
mod shelves;

pub use bits::{bit_bytes, is_disabled, set_disabled};
pub use cards::{card_of_file, file_of_card, LONGEST_CARD, LONGEST_CARD_FILE};
pub use events::{plug, pull, Moved};
pub use exercises::{make, LONGEST_EXERCISE};
pub use files::{
    judge, needed, step, tables, trace, wire, word_place, Outcome, Request, Rule, Step, Tables,
    Trace, WordPlace,
};
pub use forms::{End, Form, LONGEST_FORM};
pub use frames::{
    read_discover, read_general, read_general_sas2, read_route, write_route, Discover, General,
    GeneralSas2, LongGeneral, Route,
};
pub use joins::{join, CableEnd};
pub use places::{Expander, Phy};
pub use refusals::{Cause, Refusal};
pub use settings::Setting;
pub use shelves::{FunctionResult, PhyKind, Shelf};

/// The version of the archive: major, minor, patch.
///
/// ```
/// let (major, minor, patch) = metzurgo::version();
/// assert_eq!(format!("{major}.{minor}.{patch}"), env!("CARGO_PKG_VERSION"));
/// ```
pub fn version() -> (u8, u8, u8) {
    let answer = raw::version();
    ((answer >> 16) as u8, (answer >> 8) as u8, answer as u8)
}
