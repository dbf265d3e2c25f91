//! Drives plugged and pulled: a file, its tables and their disable bits edited together.

use std::num::NonZeroU64;

use crate::places::{Expander, Phy};
use crate::raw;
use crate::refusals::{accepted, Refusal};
use crate::settings::Setting;

/// What an accepted event moved.
#[derive(Clone, Copy, Debug, PartialEq, Eq, Hash)]
pub struct Moved {
    /// The tables with the named expander in one of their levels: these were written
    /// afresh, words and disable bits.
    pub tables: u32,
    /// The words whose value is another than the one lent. For an event on a direct phy,
    /// over tables that nothing else has altered, these are at most one of each table, and
    /// at most as many as there are table phys attached to expanders.
    pub words: u32,
}

impl Moved {
    fn of(answer: u64) -> Moved {
        Moved {
            tables: (answer >> 32) as u32,
            words: answer as u32,
        }
    }
}

/// Plugs a drive into a phy that is empty or has a drive, which it replaces: the file
/// then has type 1, this address and attached phy 0 there. The tables that the event
/// touches are written afresh in `words` and `bits`; all others stay as lent.
///
/// A refusal edits nothing. It may be that of the edited file, and name another phy.
///
/// ```
/// use metzurgo::{plug, pull, tables, Expander, Moved, Phy, Setting};
/// # let mut file =
/// #     *include_bytes!(concat!(env!("CARGO_MANIFEST_DIR"), "/../../crates/routes/stdin"));
/// let (mut words, mut bits) = ([0; 4], [0; 1]);
/// tables(Setting::WIDEST, &file, &mut words, &mut bits)?;
/// let drive = std::num::NonZeroU64::new(0x50000000000000b2).unwrap();
/// let place = (Expander(1), Phy(2));
/// let moved = plug(Setting::WIDEST, &mut file, &mut words, &mut bits, place, drive)?;
/// assert_eq!(moved, Moved { tables: 1, words: 1 });
/// assert_eq!((words[1], bits), (0x50000000000000b2, [0b0011_0000]));
/// pull(Setting::WIDEST, &mut file, &mut words, &mut bits, place)?;
/// assert_eq!((words[1], bits), (0, [0b0111_0000]));
/// # Ok::<(), metzurgo::Refusal>(())
/// ```
pub fn plug(
    setting: Setting,
    file: &mut [u8],
    words: &mut [u64],
    bits: &mut [u8],
    place: (Expander, Phy),
    address: NonZeroU64,
) -> Result<Moved, Refusal> {
    event(setting, file, words, bits, place, address.get())
}

/// Pulls the drive at a phy, if there is one: the file then has type 0 there. Its other
/// bytes stay, the attached address too, which plays no part then.
pub fn pull(
    setting: Setting,
    file: &mut [u8],
    words: &mut [u64],
    bits: &mut [u8],
    place: (Expander, Phy),
) -> Result<Moved, Refusal> {
    event(setting, file, words, bits, place, 0)
}

fn event(
    setting: Setting,
    file: &mut [u8],
    words: &mut [u64],
    bits: &mut [u8],
    (expander, phy): (Expander, Phy),
    address: u64,
) -> Result<Moved, Refusal> {
    let place = (expander.0, phy.0);
    let answer = raw::event(setting.packed(), file, words, bits, place, address);
    accepted(answer).map(Moved::of)
}
