//! Exercises: a rig made from its solution.

use crate::raw;
use crate::refusals::{accepted, Refusal};

/// The bytes of the longest file of an exercise.
pub const LONGEST_EXERCISE: usize = 6_782;

/// Makes the file of a rig at the front of `file`, and gives it. What lies behind it
/// stays. The rig has two expanders, with the addresses `first` and `second`, and one
/// table, at phy 0 of the first: its entries are `words`, zero for disabled.
///
/// ```
/// use metzurgo::{bit_bytes, make, tables, Setting, LONGEST_EXERCISE};
/// let solution = [0x50000000000000b1, 0, 0x50000000000000b2, 0];
/// let mut room = vec![0; LONGEST_EXERCISE];
/// let file = make(0x5000000000000010, 0x5000000000000020, &solution, &mut room)?;
/// let (mut words, mut bits) = ([0; 4], vec![0; bit_bytes(4)]);
/// tables(Setting::WIDEST, file, &mut words, &mut bits)?;
/// assert_eq!(words, solution);
/// # Ok::<(), metzurgo::Refusal>(())
/// ```
pub fn make<'a>(
    first: u64,
    second: u64,
    words: &[u64],
    file: &'a mut [u8],
) -> Result<&'a [u8], Refusal> {
    let length = accepted(raw::make(first, second, words, file))?;
    Ok(&file[..length as usize])
}
