//! Shelves: the plain table of document 02 that a shelf is compared with, and lists
//! of frames for both.

use std::collections::HashMap;

use metzurgo::raw::SHELF_WORDS;

use crate::calls::Calls;
use crate::compare::{hex, same, Counts, Difference, Lent};
use crate::generate;
use crate::random::Random;
use crate::reference::{refuse, Refusal, Route, NOWHERE};

/// The bytes of a shelf, as its owner holds them.
pub type Words = [u64; SHELF_WORDS];

/// Function results, in the order in which they are counted.
pub const RESULTS: [u8; 4] = [0x00, 0x10, 0x11, 0x16];

#[derive(Clone, Copy, Debug, PartialEq, Eq)]
enum Kind {
    Vacant,
    Table,
    Other,
}

/// A plain table, indexed by phy and route index: address and disable bit of each
/// entry. An entry that is not in the map is zero and disabled.
#[derive(Clone, Debug)]
pub struct Plain {
    kinds: Vec<Kind>,
    indexes: u16,
    entries: HashMap<(u8, u16), (u64, bool)>,
}

impl Plain {
    /// 1 to 16 phys, R up to 64, exactly one byte per phy; anything else is 3.
    pub fn fresh(phys: u8, indexes: u16, kinds: &[u8]) -> Result<Plain, Refusal> {
        let known = kinds
            .iter()
            .map(|kind| match kind {
                0 => Some(Kind::Vacant),
                1 => Some(Kind::Table),
                2 => Some(Kind::Other),
                _ => None,
            })
            .collect::<Option<Vec<Kind>>>();
        let one_each = kinds.len() == usize::from(phys);
        let told = (1..=16).contains(&phys) && indexes <= 64 && one_each;
        refuse(!told, 3, NOWHERE)?;
        let kinds = known.ok_or(Refusal::of(3, NOWHERE))?;
        let entries = HashMap::new();
        Ok(Plain {
            kinds,
            indexes,
            entries,
        })
    }

    /// The function result that a phy and a route index have.
    fn result(&self, phy: u8, index: u16) -> u8 {
        match self.kinds.get(usize::from(phy)) {
            None => 0x10,
            Some(Kind::Vacant) => 0x16,
            Some(Kind::Other) => 0x11,
            Some(Kind::Table) if index >= self.indexes => 0x11,
            Some(Kind::Table) => 0x00,
        }
    }

    pub fn obey(&mut self, frame: &[u8]) -> Result<u8, Refusal> {
        let route = Route::read(frame)?;
        let result = self.result(route.phy, route.index);
        if result == 0x00 {
            let entry = (route.address, route.disabled);
            self.entries.insert((route.phy, route.index), entry);
        }
        Ok(result)
    }

    /// Address and disable bit of an entry that exists.
    pub fn entry(&self, phy: u8, index: u16) -> Option<(u64, bool)> {
        let exists = self.result(phy, index) == 0x00;
        exists.then(|| *self.entries.get(&(phy, index)).unwrap_or(&(0, true)))
    }

    /// Whatever stands in the bytes of a shelf: phys past 16 and route indexes past
    /// 64 do not exist, a kind above 2 is no table phy, and a disable byte counts as
    /// set unless it is 0.
    pub fn of(words: &Words) -> Plain {
        let number = |at| {
            (0..4)
                .rev()
                .fold(0, |sum, k| sum * 256 + u64::from(byte(words, at + k)))
        };
        let phys = number(PHYS).min(16) as usize;
        let kinds = (0..phys).map(|phy| match byte(words, KINDS + phy) {
            0 => Kind::Vacant,
            1 => Kind::Table,
            _ => Kind::Other,
        });
        let places = (0..16u8).flat_map(|phy| (0..64u16).map(move |index| (phy, index)));
        let entries = places.map(|(phy, index)| {
            let at = place(phy, index);
            ((phy, index), (words[at], byte(words, DISABLED + at) != 0))
        });
        Plain {
            kinds: kinds.collect(),
            indexes: number(INDEXES).min(64) as u16,
            entries: entries.collect(),
        }
    }
}

// ---------------------------------------------------------------- bytes

// Where the fields of a shelf begin, in bytes: 16 x 64 entries of a word each, from 0
// on, their disable bytes, the kinds of 16 phys, R and the number of phys.
const DISABLED: usize = 8 * 16 * 64;
const KINDS: usize = DISABLED + 16 * 64;
const INDEXES: usize = KINDS + 16;
const PHYS: usize = INDEXES + 4;

fn place(phy: u8, index: u16) -> usize {
    64 * usize::from(phy) + usize::from(index)
}

fn byte(words: &[u64], at: usize) -> u8 {
    words[at / 8].to_le_bytes()[at % 8]
}

fn put_byte(words: &mut [u64], at: usize, value: u8) {
    let mut bytes = words[at / 8].to_le_bytes();
    bytes[at % 8] = value;
    words[at / 8] = u64::from_le_bytes(bytes);
}

/// Replaces one entry and its disable byte.
pub fn put_entry(words: &mut [u64], phy: u8, index: u16, address: u64, disabled: bool) {
    let at = place(phy, index);
    words[at] = address;
    put_byte(words, DISABLED + at, disabled.into());
}

/// Writes what a fresh shelf is told, and entries that are zero and disabled.
pub fn put_fresh(words: &mut [u64], phys: u8, indexes: u16, kinds: &[u8]) {
    words.fill(0);
    for at in DISABLED..KINDS {
        put_byte(words, at, 1);
    }
    for (phy, &kind) in kinds.iter().enumerate() {
        put_byte(words, KINDS + phy, kind);
    }
    put_number(words, INDEXES, indexes.into());
    put_number(words, PHYS, phys.into());
}

fn put_number(words: &mut [u64], at: usize, value: u32) {
    for (k, byte) in value.to_le_bytes().into_iter().enumerate() {
        put_byte(words, at + k, byte);
    }
}

// ---------------------------------------------------------------- lists

/// What a fresh shelf is told, most often what it can be.
fn told(random: &mut Random) -> (u8, u16, Vec<u8>) {
    let phys = match random.below(12) {
        0 => random.pick(&[0, 17, 18, 32, 255]),
        1 => random.pick(&[1, 16]),
        _ => random.between(1, 16) as u8,
    };
    let indexes = match random.below(12) {
        0 => random.pick(&[65, 66, 128, 256, 257, 0x4000, u16::MAX]),
        1..=3 => random.pick(&[0, 1, 63, 64]),
        _ => random.between(0, 64) as u16,
    };
    let count = match random.below(16) {
        0 => usize::from(phys) + random.between(1, 3),
        1 => usize::from(phys).saturating_sub(random.between(1, 3)),
        _ => usize::from(phys),
    };
    let mut kinds: Vec<u8> = (0..count).map(|_| random.pick(&[0, 1, 1, 1, 2])).collect();
    if random.chance(1, 12) && count > 0 {
        kinds[random.below(count)] = random.pick(&[3, 4, 0x10, 0x80, 0x81, 255]);
    }
    (phys, indexes, kinds)
}

/// The content of a shelf before it is told anything: zeros, any bytes, or bytes
/// with a number of phys, an R and kinds that are in range or just out of it.
fn contents(random: &mut Random) -> Vec<u64> {
    let mut words = match random.below(3) {
        0 => return vec![0; SHELF_WORDS],
        _ => (0..SHELF_WORDS)
            .map(|_| random.next())
            .collect::<Vec<u64>>(),
    };
    if random.chance(2, 3) {
        put_number(&mut words, PHYS, random.between(0, 20) as u32);
        put_number(&mut words, INDEXES, random.between(0, 70) as u32);
        for at in KINDS..INDEXES {
            put_byte(&mut words, at, random.pick(&[0, 1, 1, 1, 2, 3, 255]));
        }
        for at in DISABLED..KINDS {
            put_byte(&mut words, at, random.pick(&[0, 0, 1, 2, 0x80, 255]));
        }
    }
    words
}

/// A loading frame for this shelf or past its ends, spoiled in some cases.
fn frame(plain: &Plain, random: &mut Random) -> Vec<u8> {
    if random.chance(1, 10) {
        return generate::frame(random);
    }
    let route = Route {
        length: random.pick(&[0x00, 0x09]),
        phy: match random.below(8) {
            0 => random.pick(&[0, 15, 16, 17, 63, 64, 127]),
            _ => random.below(plain.kinds.len() + 1) as u8,
        },
        index: match random.below(8) {
            0 => random.pick(&[0, 63, 64, 65, 255, 256, 257, u16::MAX]),
            _ => random.below(usize::from(plain.indexes) + 2) as u16,
        },
        address: match random.below(4) {
            0 => 0,
            1 => 1 << random.below(64),
            _ => random.next(),
        },
        disabled: random.chance(1, 2),
    };
    let mut frame = route.write(40).unwrap_or_else(|_| vec![0; 40]);
    if random.chance(1, 2) {
        // Bytes and bits that play no part.
        for at in [2, 4, 5, 8, 10, 11, 13, 14, 15].into_iter().chain(24..40) {
            frame[at] = random.byte();
        }
        frame[12] |= random.byte() & 0x7f;
    }
    match random.below(16) {
        0 => frame[random.pick(&[0, 1, 3, 9])] ^= 1 << random.below(8),
        1 => frame.truncate(random.below(40)),
        2 => frame.extend(random.bytes(4)),
        _ => {}
    }
    frame
}

/// The frames of one table of the shelf in any order, and again in another; its
/// entries are disabled exactly where they are zero. None where it has no table.
fn table(plain: &Plain, random: &mut Random) -> Vec<Vec<u8>> {
    let phys = plain.kinds.iter().enumerate();
    let phys: Vec<usize> = phys
        .filter(|phy| *phy.1 == Kind::Table)
        .map(|phy| phy.0)
        .collect();
    if phys.is_empty() {
        return Vec::new();
    }
    let phy = random.pick(&phys) as u8;
    let length = random.pick(&[0x00, 0x09]);
    let mut frames = Vec::new();
    for index in 0..plain.indexes {
        let address = random.next() * u64::from(random.chance(2, 3));
        let disabled = address == 0;
        let route = Route {
            length,
            phy,
            index,
            address,
            disabled,
        };
        frames.extend(route.write(40));
    }
    random.shuffle(&mut frames);
    let mut again = frames.clone();
    random.shuffle(&mut again);
    frames.extend(again);
    frames
}

// ---------------------------------------------------------------- comparison

/// A shelf of the subject, and the plain table beside it.
struct Pair<'a> {
    subject: &'a dyn Calls,
    shelf: Lent<u64>,
    plain: Plain,
}

/// One list of frames on one shelf, which is told afresh in between.
pub fn check(
    subject: &dyn Calls,
    random: &mut Random,
    counts: &mut Counts,
) -> Result<(), Difference> {
    let content = contents(random);
    let mut shelf = Lent::new(SHELF_WORDS, || random.next());
    shelf.part().copy_from_slice(&content);
    let plain = Plain::of(words(shelf.part()));
    let mut pair = Pair {
        subject,
        shelf,
        plain,
    };
    counts.shelves += 1;
    for round in 0..random.between(1, 3) {
        if round > 0 || random.chance(2, 3) {
            pair.fresh(random, counts)?;
        }
        for _ in 0..random.below(20) {
            let frame = frame(&pair.plain, random);
            pair.obey(&frame, counts)?;
        }
        if random.chance(1, 4) {
            for frame in table(&pair.plain, random) {
                pair.obey(&frame, counts)?;
            }
        }
        pair.entries(counts)?;
    }
    Ok(())
}

fn words(part: &mut [u64]) -> &mut Words {
    part.try_into().expect("the words of a shelf")
}

impl Pair<'_> {
    fn fresh(&mut self, random: &mut Random, counts: &mut Counts) -> Result<(), Difference> {
        let (phys, indexes, kinds) = told(random);
        let what = || format!("shelf_fresh of {phys} phys, R {indexes}, kinds {kinds:?}");
        let made = Plain::fresh(phys, indexes, &kinds);
        let expected = made.as_ref().map_or_else(|refusal| refusal.answer(), |_| 0);
        let before = self.shelf.after(&[]);
        let lent = Lent::of(&kinds);
        let shelf = words(self.shelf.part());
        let got = self.subject.shelf_fresh(shelf, phys, indexes, lent.read());
        counts.answer("shelf_fresh", expected);
        same(what, expected, got)?;
        match made {
            // What lies around the shelf stays.
            Ok(plain) => {
                self.shelf.written(what, &before, SHELF_WORDS)?;
                self.plain = plain;
                Ok(())
            }
            Err(_) => {
                counts.shelf_refusals += 1;
                self.shelf.check(what, &before)
            }
        }
    }

    /// On 00h one entry and its disable byte are replaced, else no byte.
    fn obey(&mut self, frame: &[u8], counts: &mut Counts) -> Result<(), Difference> {
        let what = || format!("shelf_obey of {}", hex(frame));
        let result = self.plain.obey(frame);
        let expected = result.map_or_else(Refusal::answer, u64::from);
        let mut left = self.shelf.read().to_vec();
        if let (Ok(0x00), Ok(route)) = (result, Route::read(frame)) {
            put_entry(
                &mut left,
                route.phy,
                route.index,
                route.address,
                route.disabled,
            );
        }
        let after = self.shelf.after(&left);
        let lent = Lent::of(frame);
        let got = self
            .subject
            .shelf_obey(words(self.shelf.part()), lent.read());
        counts.answer("shelf_obey", expected);
        counts.shelf_frames += 1;
        if let Ok(result) = result {
            let at = RESULTS.iter().position(|&each| each == result);
            counts.shelf_results[at.expect("a result")] += 1;
        }
        same(what, expected, got)?;
        self.shelf.check(what, &after)
    }

    /// Everything that can be read, and what cannot.
    fn entries(&mut self, counts: &mut Counts) -> Result<(), Difference> {
        let before = self.shelf.after(&[]);
        let shelf = words(self.shelf.part());
        for phy in (0..=17).chain([63, 127, 128, 255]) {
            for index in (0..=66).chain([127, 128, 255, 256, 0x4000, u16::MAX]) {
                let entry = self.plain.entry(phy, index);
                let (address, disabled) = entry.map_or((0, 2), |entry| (entry.0, entry.1.into()));
                let what = |call| move || format!("{call} of phy {phy}, index {index}");
                let got = self.subject.shelf_entry(shelf, phy, index);
                same(what("shelf_entry"), address, got)?;
                let got = self.subject.shelf_disabled(shelf, phy, index);
                same(what("shelf_disabled"), disabled, got)?;
                counts.calls += 2;
            }
        }
        self.shelf.check(|| "a shelf that is read".into(), &before)
    }
}
