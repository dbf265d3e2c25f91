//! Numbers of expanders and phys.

use std::fmt;

/// The number of an expander: its place in the file, from 0.
///
/// ```
/// # use metzurgo::Expander;
/// assert_eq!(Expander(3).to_string(), "3");
/// assert!(Expander(3) < Expander(10));
/// ```
#[derive(Clone, Copy, Debug, Default, PartialEq, Eq, PartialOrd, Ord, Hash)]
#[repr(transparent)]
pub struct Expander(pub u8);

/// The number of a phy: its place among the phys of its expander, from 0.
///
/// Where a call can name the expander itself in place of a phy, this crate has
/// `Option<Phy>`, and `None` stands for the expander itself.
#[derive(Clone, Copy, Debug, Default, PartialEq, Eq, PartialOrd, Ord, Hash)]
#[repr(transparent)]
pub struct Phy(pub u8);

/// What the calls have in place of a phy, or of an expander, where there is none.
pub(crate) const NONE: u8 = 255;

impl Expander {
    pub(crate) fn found(number: u8) -> Option<Expander> {
        (number != NONE).then_some(Expander(number))
    }

    /// The numbers as the calls write them.
    pub(crate) fn bytes(numbers: &mut [Expander]) -> &mut [u8] {
        // An expander number is laid out as the byte that it holds.
        unsafe { std::slice::from_raw_parts_mut(numbers.as_mut_ptr().cast(), numbers.len()) }
    }
}

impl Phy {
    pub(crate) fn found(number: u8) -> Option<Phy> {
        (number != NONE).then_some(Phy(number))
    }
}

impl fmt::Display for Expander {
    fn fmt(&self, f: &mut fmt::Formatter<'_>) -> fmt::Result {
        self.0.fmt(f)
    }
}

impl fmt::Display for Phy {
    fn fmt(&self, f: &mut fmt::Formatter<'_>) -> fmt::Result {
        self.0.fmt(f)
    }
}
