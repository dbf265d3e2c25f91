//! Exercises: a file made from its solution as document 02 has it, and the call
//! compared on the tables of accepted rigs, on other words, and on words for which
//! there is no rig.

use crate::calls::Calls;
use crate::cards::compare;
use crate::compare::{same, Counts, Difference, Lent};
use crate::generate::WIDEST;
use crate::random::Random;
use crate::reference::{judged, Refusal, NOWHERE};

// ---------------------------------------------------------------- reference

/// An expander's address and its REPORT GENERAL response.
fn unit(address: u64, route_indexes: u16, phys: u8, configurable: bool) -> Vec<u8> {
    let mut general = [0; 28];
    general[0] = 0x41;
    general[6..=7].copy_from_slice(&route_indexes.to_be_bytes());
    general[9] = phys;
    general[10] = configurable as u8;
    [&address.to_be_bytes()[..], &general].concat()
}

/// A DISCOVER response.
struct Phy {
    device_type: u8,
    attribute: u8,
    attached: u64,
    attached_phy: u8,
    result: u8,
}

impl Phy {
    fn new(device_type: u8, attribute: u8, attached: u64) -> Phy {
        Phy {
            device_type,
            attribute,
            attached,
            attached_phy: 0,
            result: 0,
        }
    }

    fn frame(&self, own: u64, number: u8) -> Vec<u8> {
        let mut discover = vec![0; 52];
        discover[..3].copy_from_slice(&[0x41, 0x10, self.result]);
        discover[9] = number;
        discover[12] = self.device_type << 4;
        discover[16..24].copy_from_slice(&own.to_be_bytes());
        discover[24..32].copy_from_slice(&self.attached.to_be_bytes());
        discover[32] = self.attached_phy;
        discover[44] = self.attribute;
        discover
    }
}

/// A file of two expanders, of which the first has one phy, a table phy to phy `link`
/// of the second.
fn file(first: u64, second: (u64, bool), indexes: u16, link: u8, phys: &[Phy]) -> Vec<u8> {
    let (second, configurable) = second;
    let mut cable = Phy::new(2, 2, second);
    cable.attached_phy = link;
    let mut file = vec![0x10, 2];
    file.extend(unit(first, indexes, 1, true));
    file.extend(cable.frame(first, 0));
    file.extend(unit(second, 0, phys.len() as u8, configurable));
    for (number, phy) in (0..).zip(phys) {
        file.extend(phy.frame(second, number));
    }
    file
}

/// The table of the first expander's one phy: tables of the second, whose R is 0, have
/// no words. Nothing where the file is refused.
fn table(file: &[u8]) -> Option<Vec<u64>> {
    Some(judged(WIDEST, file).ok()?.table_words())
}

/// The file of a solution: the one that document 02 describes, where it is accepted
/// and has this table, else 24.
pub fn make(first: u64, second: u64, words: &[u64]) -> Result<Vec<u8>, Refusal> {
    let none = Err(Refusal::of(24, NOWHERE));
    let used = words
        .iter()
        .rposition(|&word| word != 0)
        .map_or(0, |last| last + 1);
    let Ok(indexes) = u16::try_from(words.len()) else {
        return none;
    };
    // The number of phys is one byte.
    if used > 254 {
        return none;
    }
    let mut phys = vec![Phy::new(2, 1, first)];
    phys.extend(
        words[..used]
            .iter()
            .map(|&word| Phy::new((word != 0) as u8, 0, word)),
    );
    let file = file(first, (second, false), indexes, 0, &phys);
    match table(&file) {
        Some(found) if found == words => Ok(file),
        _ => none,
    }
}

// ---------------------------------------------------------------- comparing

const FIRST: u64 = 0x5000_0000_0000_0010;
const SECOND: u64 = 0x5000_0000_0000_0020;

/// An address near those of the expanders, so that some are met twice.
fn address(random: &mut Random) -> u64 {
    match random.chance(1, 20) {
        true => random.next(),
        false => 0x5000_0000_0000_00b0 + random.below(16) as u64,
    }
}

/// A solution of some length, with holes.
fn solution(random: &mut Random) -> Vec<u64> {
    let length = match random.below(12) {
        0 => 0,
        1..=7 => random.between(1, 12),
        8 | 9 => random.between(120, 135),
        10 => random.between(126, 129),
        _ => random.between(130, 400),
    };
    let holes = random.pick(&[1, 3, 9, 40]);
    let mut words: Vec<u64> = (0..length)
        .map(|_| match random.chance(1, holes) {
            true => 0,
            false => address(random),
        })
        .collect();
    // Zeros from some index on, often just about the last that can have a drive.
    if random.chance(1, 2) {
        let from = random.pick(&[126, 127, 128, random.aside().below(length + 1)]);
        words.iter_mut().skip(from).for_each(|word| *word = 0);
    }
    words
}

/// An accepted rig of the kind with any second expander: its addresses and its table.
fn rig(random: &mut Random) -> Option<(u64, u64, Vec<u64>)> {
    let count = random.between(1, 10);
    let link = random.below(count);
    let attribute = random.pick(&[1, 1, 1, 2]);
    let phys: Vec<Phy> = (0..count)
        .map(|number| match number == link {
            true => Phy::new(2, attribute, FIRST),
            false => any_phy(random),
        })
        .collect();
    let indexes = random.between(0, 14) as u16;
    let file = file(FIRST, (SECOND, true), indexes, link as u8, &phys);
    Some((FIRST, SECOND, table(&file)?))
}

/// A phy at a drive, empty or vacant.
fn any_phy(random: &mut Random) -> Phy {
    let mut phy = Phy::new(0, random.pick(&[0, 0, 0, 2, 1]), 0);
    match random.below(8) {
        0 => phy.result = 0x16,
        1 | 2 => {}
        _ => {
            phy.device_type = 1;
            phy.attached = address(random);
            phy.attached_phy = random.byte();
        }
    }
    phy
}

/// One solution, valid or spoiled, and the table of one accepted rig.
pub fn check(
    subject: &dyn Calls,
    random: &mut Random,
    counts: &mut Counts,
) -> Result<(), Difference> {
    let mut words = solution(random);
    let (mut first, mut second) = (FIRST, SECOND);
    match random.below(12) {
        0 => first = 0,
        1 => second = 0,
        2 => second = first,
        3 if !words.is_empty() => {
            let at = random.below(words.len());
            words[at] = random.pick(&[first, second]);
        }
        4 if random.chance(1, 30) => words.resize(random.pick(&[65_535, 65_536]), 0),
        _ => {}
    }
    compared(subject, (first, second), &words, random, counts)?;
    if let Some((first, second, words)) = rig(random) {
        // There is such a rig: the reference has to make one, too.
        counts.exercises += 1;
        let made = make(first, second, &words);
        same(
            || "the table of an accepted rig, refused by the reference".into(),
            0,
            made.map_or_else(Refusal::answer, |_| 0),
        )?;
        compared(subject, (first, second), &words, random, counts)?;
    }
    Ok(())
}

/// The call, with buffers just long enough, a byte short and longer; the words stay.
fn compared(
    subject: &dyn Calls,
    (first, second): (u64, u64),
    words: &[u64],
    random: &mut Random,
    counts: &mut Counts,
) -> Result<(), Difference> {
    let made = make(first, second, words);
    let lengths = match &made {
        Ok(file) => vec![
            file.len() - 1,
            file.len(),
            file.len() + random.between(1, 20),
        ],
        Err(_) => vec![0, random.below(400)],
    };
    let mut lent = Lent::new(words.len(), || 0xa5);
    lent.part().copy_from_slice(words);
    let before = lent.after(&[]);
    for length in lengths {
        let what =
            || format!("make {first:016x} {second:016x} {words:x?} with {length} bytes lent");
        let call = |room: &mut [u8]| subject.make(first, second, lent.read(), room);
        compare("make", what, &made, length, call, random, counts)?;
        lent.check(what, &before)?;
    }
    let Ok(file) = made else {
        return Ok(());
    };
    // What the subject gives for the file is the solution.
    counts.solutions += 1;
    let mut given = vec![1; words.len()];
    let mut bits = vec![0; words.len().div_ceil(8)];
    let answer = subject.tables(WIDEST, &file, &mut given, &mut bits);
    counts.answer("tables", answer);
    same(
        || "tables of an exercise".into(),
        1 << 32 | words.len() as u64,
        answer,
    )?;
    match given == words {
        true => Ok(()),
        false => Err(Difference {
            what: "the table of an exercise".into(),
            expected: format!("{words:x?}"),
            got: format!("{given:x?}"),
        }),
    }
}
