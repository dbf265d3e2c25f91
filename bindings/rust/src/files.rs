//! The calls on a domain file.

use crate::bits::bit_bytes;
use crate::places::{Expander, Phy, NONE};
use crate::raw;
use crate::refusals::{accepted, Refusal};
use crate::settings::Setting;

/// How many tables a file has, and how many words they hold in all.
#[derive(Clone, Copy, Debug, PartialEq, Eq, Hash)]
pub struct Tables {
    pub tables: u32,
    pub words: u32,
}

impl Tables {
    /// The words to lend.
    pub fn word_count(self) -> usize {
        self.words as usize
    }

    /// The bytes of disable bits to lend: one bit for each word.
    pub fn bit_bytes(self) -> usize {
        bit_bytes(self.word_count())
    }

    pub(crate) fn of(answer: u64) -> Tables {
        Tables {
            tables: (answer >> 32) as u32,
            words: answer as u32,
        }
    }
}

/// The table that a word belongs to, and its route index there.
#[derive(Clone, Copy, Debug, PartialEq, Eq, PartialOrd, Ord, Hash)]
pub struct WordPlace {
    pub expander: Expander,
    pub phy: Phy,
    pub index: u16,
}

/// A connection request to an address. It starts at an expander, or comes to it
/// through the phy `arrival`.
#[derive(Clone, Copy, Debug, PartialEq, Eq, Hash)]
pub struct Request {
    pub expander: Expander,
    pub arrival: Option<Phy>,
    pub address: u64,
}

impl Request {
    /// The arrival phy as the calls take it. No expander has phy 254 or 255, and 255
    /// is the expander itself there: so phy 255 is given as 254, and refused with 15.
    pub(crate) fn arrival_byte(self) -> u8 {
        self.arrival.map_or(NONE, |phy| phy.0.min(NONE - 1))
    }
}

/// How a request ended.
#[derive(Clone, Copy, Debug, PartialEq, Eq, Hash)]
pub enum Outcome {
    Arrived,
    NoDestination,
    BadDestination,
}

impl Outcome {
    pub(crate) fn of(answer: u64) -> Outcome {
        match answer >> 24 {
            0 => Outcome::Arrived,
            1 => Outcome::NoDestination,
            _ => Outcome::BadDestination,
        }
    }
}

/// The answer of a trace: how the request ended and at which expander, the phy of
/// the end device arrived at, and the expanders passed, in order.
#[derive(Clone, Copy, Debug, PartialEq, Eq, Hash)]
pub struct Trace<'a> {
    pub outcome: Outcome,
    pub last: Expander,
    pub phy: Option<Phy>,
    pub passed: &'a [Expander],
}

impl<'a> Trace<'a> {
    pub(crate) fn of(answer: u64, passed: &'a [Expander]) -> Trace<'a> {
        Trace {
            outcome: Outcome::of(answer),
            last: Expander((answer >> 16) as u8),
            phy: Phy::found((answer >> 8) as u8),
            passed: &passed[..usize::from(answer as u8)],
        }
    }
}

/// Which of the rules (i) to (v) an expander goes by.
#[derive(Clone, Copy, Debug, PartialEq, Eq, Hash)]
pub enum Rule {
    /// (i): the expander has the address itself.
    Itself,
    /// (ii): the address is attached to one of its phys.
    Attached,
    /// (iii): the address is an entry of one of its tables.
    Listed,
    /// (iv): a subtractive phy leads on.
    Subtractive,
    /// (v): none of these.
    Nothing,
}

/// The one step of a request at one expander, and why.
#[derive(Clone, Copy, Debug, PartialEq, Eq, Hash)]
pub struct Step {
    pub rule: Rule,
    /// The phy picked leads back to where the request came from: BAD DESTINATION.
    pub bad: bool,
    /// The phy picked.
    pub phy: Option<Phy>,
    /// The route index of the entry that matched.
    pub index: Option<u16>,
    /// The expander that the request goes on to, and its phy to which it comes.
    pub next: Option<(Expander, Phy)>,
}

/// Writes one word of neighbours for each expander; gives the bits set in all. The
/// bit worth 2^j is set when expander j is a neighbour.
///
/// ```
/// # let file = include_bytes!(concat!(env!("CARGO_MANIFEST_DIR"), "/../../crates/routes/stdin"));
/// let mut words = [0; 2];
/// assert_eq!(metzurgo::wire(metzurgo::Setting::WIDEST, file, &mut words), Ok(2));
/// assert_eq!(words, [0b10, 0b01]);
/// ```
pub fn wire(setting: Setting, file: &[u8], words: &mut [u64]) -> Result<u64, Refusal> {
    accepted(raw::wire(setting.packed(), file, words))
}

/// Judges the file; gives the number of expanders.
///
/// ```
/// use metzurgo::{judge, Cause, Setting};
/// # let file = include_bytes!(concat!(env!("CARGO_MANIFEST_DIR"), "/../../crates/routes/stdin"));
/// assert_eq!(judge(Setting::WIDEST, file), Ok(2));
/// let refusal = judge(Setting::WIDEST, &file[..333]).unwrap_err();
/// assert_eq!(refusal.cause, Cause::Length);
/// ```
pub fn judge(setting: Setting, file: &[u8]) -> Result<u64, Refusal> {
    accepted(raw::judge(setting.packed(), file))
}

/// Judges the file; gives how many tables and words it needs.
///
/// ```
/// # let file = include_bytes!(concat!(env!("CARGO_MANIFEST_DIR"), "/../../crates/routes/stdin"));
/// let needed = metzurgo::needed(metzurgo::Setting::WIDEST, file)?;
/// assert_eq!((needed.tables, needed.words, needed.bit_bytes()), (1, 4, 1));
/// # Ok::<(), metzurgo::Refusal>(())
/// ```
pub fn needed(setting: Setting, file: &[u8]) -> Result<Tables, Refusal> {
    accepted(raw::needed(setting.packed(), file)).map(Tables::of)
}

/// Judges the file; gives the table and the index that a word belongs to. A word
/// that the tables do not have is refused with 15.
///
/// ```
/// use metzurgo::{word_place, Cause, Setting};
/// # let file = include_bytes!(concat!(env!("CARGO_MANIFEST_DIR"), "/../../crates/routes/stdin"));
/// assert_eq!(word_place(Setting::WIDEST, file, 3)?.index, 3);
/// assert_eq!(word_place(Setting::WIDEST, file, 4).unwrap_err().cause, Cause::Request);
/// # Ok::<(), metzurgo::Refusal>(())
/// ```
pub fn word_place(setting: Setting, file: &[u8], word: u64) -> Result<WordPlace, Refusal> {
    accepted(raw::word_place(setting.packed(), file, word)).map(|answer| WordPlace {
        expander: Expander((answer >> 24) as u8),
        phy: Phy((answer >> 16) as u8),
        index: answer as u16,
    })
}

/// Writes the route tables, by expander and then phy, and their disable bits: a
/// bit is set exactly where the word is 0.
///
/// ```
/// use metzurgo::{is_disabled, needed, tables, Setting};
/// # let file = include_bytes!(concat!(env!("CARGO_MANIFEST_DIR"), "/../../crates/routes/stdin"));
/// let needed = needed(Setting::WIDEST, file)?;
/// let mut words = vec![0; needed.word_count()];
/// let mut bits = vec![0; needed.bit_bytes()];
/// tables(Setting::WIDEST, file, &mut words, &mut bits)?;
/// assert_eq!(words, [0x50000000000000b1, 0, 0, 0]);
/// assert!(!is_disabled(&bits, 0) && is_disabled(&bits, 1));
/// # Ok::<(), metzurgo::Refusal>(())
/// ```
pub fn tables(
    setting: Setting,
    file: &[u8],
    words: &mut [u64],
    bits: &mut [u8],
) -> Result<Tables, Refusal> {
    accepted(raw::tables(setting.packed(), file, words, bits)).map(Tables::of)
}

/// Traces a request over the table words and disable bits given. `passed` has
/// room for as many expanders as the file has.
///
/// ```
/// use metzurgo::{trace, Expander, Outcome, Phy, Request, Setting};
/// # let file = include_bytes!(concat!(env!("CARGO_MANIFEST_DIR"), "/../../crates/routes/stdin"));
/// let request = Request { expander: Expander(0), arrival: None, address: 0x50000000000000b1 };
/// let words = [0x50000000000000b1, 0, 0, 0];
/// let mut passed = [Expander(0); 2];
/// let answer = trace(Setting::WIDEST, file, &words, &[0b0111_0000], request, &mut passed)?;
/// assert_eq!(answer.outcome, Outcome::Arrived);
/// assert_eq!((answer.last, answer.phy), (Expander(1), Some(Phy(1))));
/// assert_eq!(answer.passed, [Expander(0), Expander(1)]);
/// # Ok::<(), metzurgo::Refusal>(())
/// ```
pub fn trace<'a>(
    setting: Setting,
    file: &[u8],
    words: &[u64],
    bits: &[u8],
    request: Request,
    passed: &'a mut [Expander],
) -> Result<Trace<'a>, Refusal> {
    let answer = raw::trace(
        setting.packed(),
        file,
        words,
        bits,
        request.expander.0,
        request.arrival_byte(),
        request.address,
        Expander::bytes(passed),
    );
    accepted(answer).map(|answer| Trace::of(answer, passed))
}

/// The step of a request at the expander that it has come to, over the table
/// words and disable bits given.
///
/// ```
/// use metzurgo::{step, Expander, Phy, Request, Rule, Setting};
/// # let file = include_bytes!(concat!(env!("CARGO_MANIFEST_DIR"), "/../../crates/routes/stdin"));
/// let request = Request { expander: Expander(0), arrival: None, address: 0x50000000000000b1 };
/// let words = [0x50000000000000b1, 0, 0, 0];
/// let step = step(Setting::WIDEST, file, &words, &[0b0111_0000], request)?;
/// assert_eq!((step.rule, step.phy, step.index), (Rule::Listed, Some(Phy(0)), Some(0)));
/// assert_eq!(step.next, Some((Expander(1), Phy(0))));
/// # Ok::<(), metzurgo::Refusal>(())
/// ```
pub fn step(
    setting: Setting,
    file: &[u8],
    words: &[u64],
    bits: &[u8],
    request: Request,
) -> Result<Step, Refusal> {
    let course = setting.packed();
    let (expander, arrival) = (request.expander.0, request.arrival_byte());
    let answer = raw::step(
        course,
        file,
        words,
        bits,
        expander,
        arrival,
        request.address,
    );
    accepted(answer).map(|answer| Step {
        rule: match answer >> 40 & 0xff {
            1 => Rule::Itself,
            2 => Rule::Attached,
            3 => Rule::Listed,
            4 => Rule::Subtractive,
            _ => Rule::Nothing,
        },
        bad: answer >> 48 == 1,
        phy: Phy::found((answer >> 32) as u8),
        index: Some((answer >> 16) as u16).filter(|&index| index != u16::MAX),
        next: Expander::found((answer >> 8) as u8).zip(Phy::found(answer as u8)),
    })
}
