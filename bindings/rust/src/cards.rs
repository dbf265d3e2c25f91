//! Rig cards: a domain as a row of bits, made of a file, and a file made of it.

use crate::raw;
use crate::refusals::{accepted, Refusal};
use crate::settings::Setting;

/// The bytes of the longest card.
pub const LONGEST_CARD: usize = 80_578;

/// The bytes of the longest file that is made of a card.
pub const LONGEST_CARD_FILE: usize = 428_290;

/// Makes the card of a file at the front of `card`, and gives it. What lies behind
/// it stays. The file is tested as far as causes 1 to 6.
///
/// ```
/// use metzurgo::{card_of_file, file_of_card, Setting, LONGEST_CARD, LONGEST_CARD_FILE};
/// # let file = include_bytes!(concat!(env!("CARGO_MANIFEST_DIR"), "/../../crates/routes/stdin"));
/// let mut room = vec![0; LONGEST_CARD];
/// let card = card_of_file(Setting::WIDEST, file, &mut room)?;
/// assert_eq!((file.len(), card.len()), (334, 64));
/// let mut back = vec![0; LONGEST_CARD_FILE];
/// assert_eq!(file_of_card(Setting::WIDEST, card, &mut back)?, file);
/// # Ok::<(), metzurgo::Refusal>(())
/// ```
pub fn card_of_file<'a>(
    setting: Setting,
    file: &[u8],
    card: &'a mut [u8],
) -> Result<&'a [u8], Refusal> {
    let length = accepted(raw::card_of_file(setting.packed(), file, card))?;
    Ok(&card[..length as usize])
}

/// Makes a file of short frames of a card at the front of `file`, and gives it.
/// What lies behind it stays.
pub fn file_of_card<'a>(
    setting: Setting,
    card: &[u8],
    file: &'a mut [u8],
) -> Result<&'a [u8], Refusal> {
    let length = accepted(raw::file_of_card(setting.packed(), card, file))?;
    Ok(&file[..length as usize])
}
