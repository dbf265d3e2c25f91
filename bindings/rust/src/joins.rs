//! Two rigs joined by one cable.

use crate::places::{Expander, Phy};
use crate::raw;
use crate::refusals::{accepted, Refusal};
use crate::settings::Setting;

/// One end of the cable: a file, and a subtractive phy of it by the file's own numbers.
#[derive(Clone, Copy, Debug, PartialEq, Eq, Hash)]
pub struct CableEnd<'a> {
    pub file: &'a [u8],
    pub expander: Expander,
    pub phy: Phy,
}

impl<'a> CableEnd<'a> {
    fn raw(self) -> (&'a [u8], (u8, u8)) {
        (self.file, (self.expander.0, self.phy.0))
    }
}

/// Writes the joined file, the first's expanders and then the second's, at the front of
/// `out`, and gives it. What lies behind it stays. It has two bytes less than both files
/// together, and its tables are those of the first and those of the second.
///
/// A refusal of the second file has the first's number of expanders added to its
/// expander; one of the joined file is in its own numbers.
///
/// ```
/// use metzurgo::{join, judge, CableEnd, Expander, Phy, Setting};
/// # let mut left =
/// #     *include_bytes!(concat!(env!("CARGO_MANIFEST_DIR"), "/../../crates/routes/stdin"));
/// # // Phy 1 of expander 0: nothing attached, subtractive.
/// # (left[102], left[134]) = (0x00, 0x01);
/// # let mut right = left;
/// # for at in [9, 61, 69, 113, 149, 201, 209, 253, 261, 305] {
/// #     right[at] += 1;
/// # }
/// // Phy 1 of expander 0 is subtractive and empty in both files.
/// let end = |file| CableEnd { file, expander: Expander(0), phy: Phy(1) };
/// let mut out = [0; 1000];
/// let bench = join(Setting::WIDEST, end(&left), end(&right), &mut out)?;
/// assert_eq!(bench.len(), left.len() + right.len() - 2);
/// assert_eq!(judge(Setting::WIDEST, bench)?, 4);
/// # Ok::<(), metzurgo::Refusal>(())
/// ```
pub fn join<'a>(
    setting: Setting,
    first: CableEnd,
    second: CableEnd,
    out: &'a mut [u8],
) -> Result<&'a [u8], Refusal> {
    let length = accepted(raw::join(setting.packed(), first.raw(), second.raw(), out))?;
    Ok(&out[..length as usize])
}
