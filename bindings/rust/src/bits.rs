//! Disable bits.

/// The bytes that the disable bits of so many table words take: one bit for each
/// word in the words' order, packed most significant bit first.
pub const fn bit_bytes(words: usize) -> usize {
    words.div_ceil(8)
}

/// Whether the entry of a table word is switched off.
///
/// ```
/// assert!(!metzurgo::is_disabled(&[0b0111_0000], 0));
/// assert!(metzurgo::is_disabled(&[0b0111_0000], 3));
/// ```
///
/// # Panics
///
/// Where there are fewer bits.
pub fn is_disabled(bits: &[u8], word: usize) -> bool {
    bits[word / 8] & mask(word) != 0
}

/// Switches the entry of a table word off or on; its address stays.
///
/// ```
/// let mut bits = [0b0111_0000];
/// metzurgo::set_disabled(&mut bits, 0, true);
/// metzurgo::set_disabled(&mut bits, 3, false);
/// assert_eq!(bits, [0b1110_0000]);
/// ```
///
/// # Panics
///
/// Where there are fewer bits.
pub fn set_disabled(bits: &mut [u8], word: usize, disabled: bool) {
    if disabled {
        bits[word / 8] |= mask(word);
    } else {
        bits[word / 8] &= !mask(word);
    }
}

/// The bit of a table word within its byte.
fn mask(word: usize) -> u8 {
    0x80 >> (word % 8)
}
