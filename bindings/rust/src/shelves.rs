//! A shelf: a software expander that obeys loading frames.

use std::fmt;

use crate::places::Phy;
use crate::raw::{self, SHELF_WORDS};
use crate::refusals::{accepted, Refusal};

/// What a shelf is told of a phy.
#[derive(Clone, Copy, Debug, PartialEq, Eq, Hash)]
#[repr(u8)]
pub enum PhyKind {
    Vacant = 0,
    Table = 1,
    Other = 2,
}

/// The SMP function result of a loading frame. `Display` gives the name that the
/// standard has for it.
///
/// ```
/// use metzurgo::FunctionResult;
/// assert_eq!(FunctionResult::PhyVacant.code(), 0x16);
/// assert_eq!(FunctionResult::PhyVacant.to_string(), "PHY VACANT");
/// ```
#[derive(Clone, Copy, Debug, PartialEq, Eq, Hash)]
#[repr(u8)]
pub enum FunctionResult {
    /// 00h: the entry and its disable bit were replaced.
    Accepted = 0x00,
    /// 10h: there is no such phy.
    PhyDoesNotExist = 0x10,
    /// 11h: it is no table phy, or the index is not below R.
    IndexDoesNotExist = 0x11,
    /// 16h: the phy is vacant.
    PhyVacant = 0x16,
}

impl FunctionResult {
    /// The number of a result.
    pub fn code(self) -> u8 {
        self as u8
    }

    fn of(answer: u64) -> FunctionResult {
        match answer {
            0x00 => FunctionResult::Accepted,
            0x10 => FunctionResult::PhyDoesNotExist,
            0x16 => FunctionResult::PhyVacant,
            _ => FunctionResult::IndexDoesNotExist,
        }
    }
}

impl fmt::Display for FunctionResult {
    fn fmt(&self, f: &mut fmt::Formatter<'_>) -> fmt::Result {
        f.write_str(match self {
            FunctionResult::Accepted => "SMP FUNCTION ACCEPTED",
            FunctionResult::PhyDoesNotExist => "PHY DOES NOT EXIST",
            FunctionResult::IndexDoesNotExist => "INDEX DOES NOT EXIST",
            FunctionResult::PhyVacant => "PHY VACANT",
        })
    }
}

/// A software expander, which holds the entries that loading frames set. Two shelves
/// are equal where all their bytes are.
///
/// ```
/// use metzurgo::{write_route, FunctionResult, Phy, PhyKind, Route, Shelf};
/// let mut shelf = Shelf::fresh(4, &[PhyKind::Table, PhyKind::Other])?;
/// assert_eq!(shelf.disabled(Phy(0), 3), Some(true));
///
/// let mut buf = [0; 40];
/// let address = 0x50000000000000b1;
/// let mut route = Route { length: 0x09, phy: Phy(0), index: 3, address, disabled: false };
/// let frame = write_route(&mut buf, route)?;
/// assert_eq!(shelf.obey(frame)?, FunctionResult::Accepted);
/// assert_eq!(shelf.entry(Phy(0), 3), Some(address));
/// assert_eq!(shelf.disabled(Phy(0), 3), Some(false));
///
/// route.phy = Phy(1);
/// let frame = write_route(&mut buf, route)?;
/// assert_eq!(shelf.obey(frame)?, FunctionResult::IndexDoesNotExist);
/// assert_eq!(shelf.entry(Phy(1), 3), None);
/// # Ok::<(), metzurgo::Refusal>(())
/// ```
#[derive(Clone, Debug, PartialEq, Eq)]
pub struct Shelf {
    words: Box<[u64; SHELF_WORDS]>,
}

impl Shelf {
    /// A fresh shelf with R route indexes (64 at most) and a phy for each kind (1 to
    /// 16); anything else is refused with 3. All entries are zero and disabled.
    pub fn fresh(indexes: u16, kinds: &[PhyKind]) -> Result<Shelf, Refusal> {
        let words = Box::new([0; SHELF_WORDS]);
        let mut shelf = Shelf { words };
        shelf.renew(indexes, kinds)?;
        Ok(shelf)
    }

    /// Makes this shelf a fresh one. Where that is refused it stays what it was.
    pub fn renew(&mut self, indexes: u16, kinds: &[PhyKind]) -> Result<(), Refusal> {
        let kinds: Vec<u8> = kinds.iter().map(|&kind| kind as u8).collect();
        // More than 255 phys are too many, as 255 are.
        let phys = u8::try_from(kinds.len()).unwrap_or(u8::MAX);
        accepted(raw::shelf_fresh(&mut self.words, phys, indexes, &kinds)).map(drop)
    }

    /// Obeys a CONFIGURE ROUTE INFORMATION request of 40 bytes. Nothing changes unless
    /// the result is [`FunctionResult::Accepted`].
    pub fn obey(&mut self, frame: &[u8]) -> Result<FunctionResult, Refusal> {
        accepted(raw::shelf_obey(&mut self.words, frame)).map(FunctionResult::of)
    }

    /// The address of an entry; `None` where there is no such entry.
    pub fn entry(&self, phy: Phy, index: u16) -> Option<u64> {
        self.disabled(phy, index)?;
        Some(raw::shelf_entry(&self.words, phy.0, index))
    }

    /// Whether an entry is disabled; `None` where there is no such entry.
    pub fn disabled(&self, phy: Phy, index: u16) -> Option<bool> {
        match raw::shelf_disabled(&self.words, phy.0, index) {
            0 => Some(false),
            1 => Some(true),
            _ => None,
        }
    }
}
