//! Settings of courses.

use crate::places::{Expander, Phy};
use crate::refusals::{Cause, Refusal};

/// A course's setting: the most expanders of a domain, the most phys of an
/// expander, and the longest chain in expanders.
///
/// ```
/// use metzurgo::{Cause, Setting};
/// let course = Setting::new(16, 32, 4)?;
/// assert_eq!(course.packed(), 16 * 65536 + 32 * 256 + 4);
/// assert_eq!(Setting::new(65, 32, 4).unwrap_err().cause, Cause::Setting);
/// # Ok::<(), metzurgo::Refusal>(())
/// ```
#[derive(Clone, Copy, Debug, PartialEq, Eq, Hash)]
pub struct Setting {
    expanders: u8,
    phys: u8,
    chain: u8,
}

impl Setting {
    /// The limits of a domain file: 64 expanders, 128 phys, chains of 64.
    pub const WIDEST: Setting = Setting {
        expanders: 64,
        phys: 128,
        chain: 64,
    };

    /// A setting within its range: 1 to 64 expanders, 1 to 128 phys, chains of 1
    /// to 64 expanders. Any other is refused with 22, as by the calls.
    pub fn new(expanders: u8, phys: u8, chain: u8) -> Result<Setting, Refusal> {
        let widest = Setting::WIDEST;
        if (1..=widest.expanders).contains(&expanders)
            && (1..=widest.phys).contains(&phys)
            && (1..=widest.chain).contains(&chain)
        {
            Ok(Setting {
                expanders,
                phys,
                chain,
            })
        } else {
            Err(Refusal {
                cause: Cause::Setting,
                expander: Expander(0),
                phy: Phy(0),
            })
        }
    }

    /// The most expanders of a domain.
    pub fn expanders(self) -> u8 {
        self.expanders
    }

    /// The most phys of an expander.
    pub fn phys(self) -> u8 {
        self.phys
    }

    /// The longest chain in expanders.
    pub fn chain(self) -> u8 {
        self.chain
    }

    /// The setting as the calls of [`raw`](crate::raw) take it.
    pub fn packed(self) -> u32 {
        u32::from(self.expanders) << 16 | u32::from(self.phys) << 8 | u32::from(self.chain)
    }
}

impl Default for Setting {
    /// The widest setting.
    fn default() -> Setting {
        Setting::WIDEST
    }
}
