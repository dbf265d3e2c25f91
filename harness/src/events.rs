//! Drives plugged and pulled as document 02 has it (papers 9 and 10), and lists of events
//! compared with it, over tables as the table call gave them and over altered ones.

use std::collections::BTreeMap;

use crate::calls::Calls;
use crate::compare::{hex, same, Counts, Difference, Lent};
use crate::generate::WIDEST;
use crate::joins::start_of;
use crate::layout::{DomainFile, Expander, DIRECT, SUBTRACTIVE, TABLE};
use crate::random::Random;
use crate::reference::{
    self, disable_bits, refuse, Attached, Attribute, Judged, Place, Refusal, NOWHERE,
};
use crate::vectors::{d, e};

// ---------------------------------------------------------------- reference

/// A phy, and the address that is plugged in there; 0 is a pull.
#[derive(Clone, Copy, Debug)]
pub struct Event {
    pub place: Place,
    pub address: u64,
}

/// What is lent to an event, and edited.
#[derive(Clone)]
pub struct Lab {
    pub file: Vec<u8>,
    pub words: Vec<u64>,
    pub bits: Vec<u8>,
}

/// The tables that an accepted event touched, and how many words it changed.
pub struct Moved {
    pub tables: Vec<Place>,
    pub words: usize,
}

impl Moved {
    fn answer(&self) -> u64 {
        self.tables.len() as u64 * 2u64.pow(32) + self.words as u64
    }
}

impl Event {
    /// The file with the event applied: type 1, address and attached phy 0, or type 0.
    fn edited(self, file: &[u8]) -> Vec<u8> {
        let mut file = file.to_vec();
        let start = start_of(&file, self.place);
        let frame = &mut file[start..];
        let other_bits = frame[12] - frame[12] / 16 % 8 * 16;
        match self.address {
            0 => frame[12] = other_bits,
            address => {
                frame[12] = other_bits + 0x10;
                frame[24..=31].copy_from_slice(&address.to_be_bytes());
                frame[32] = 0;
            }
        }
        file
    }

    /// 20: there is no such phy, it is vacant, or an expander is attached to it.
    fn test_phy(self, judged: &Judged) -> Result<(), Refusal> {
        let expander = judged.domain.expanders.get(&self.place.0);
        let phy = expander.and_then(|expander| expander.phys.get(&self.place.1));
        let free = phy.is_some_and(|phy| !matches!(phy.attached, Attached::Expander(..)));
        refuse(!free, 20, NOWHERE)
    }

    /// The event on what is lent, in the order of the document: the file as it is, 20, 16,
    /// 18, the edited file. A refusal leaves everything.
    pub fn happen(self, setting: u32, lab: &mut Lab) -> Result<Moved, Refusal> {
        let before = reference::judged(setting, &lab.file)?;
        self.test_phy(&before)?;
        refuse(lab.words.len() < before.needed, 16, NOWHERE)?;
        refuse(lab.bits.len() < before.needed_bits(), 18, NOWHERE)?;
        let file = self.edited(&lab.file);
        let after = reference::judged(setting, &file)?;
        lab.file = file;
        let fresh = after.table_words();
        let mut moved = Moved {
            tables: after.tables_beyond(self.place.0),
            words: 0,
        };
        for &table in &moved.tables {
            for word in after.stretch(table) {
                moved.words += (lab.words[word] != fresh[word]) as usize;
                lab.words[word] = fresh[word];
                set_bit(&mut lab.bits, word, fresh[word] == 0);
            }
        }
        Ok(moved)
    }
}

/// Sets or clears the bit of a word, the first of a byte worth 128.
fn set_bit(bits: &mut [u8], word: usize, set: bool) {
    let weight = 2u8.pow(7 - word as u32 % 8);
    let byte = &mut bits[word / 8];
    if (*byte / weight % 2 == 1) != set {
        *byte = if set { *byte + weight } else { *byte - weight };
    }
}

/// The whole call, in the form of the archive's.
pub fn put(setting: u32, file: &mut [u8], words: &mut [u64], bits: &mut [u8], event: Event) -> u64 {
    let mut lab = Lab {
        file: file.to_vec(),
        words: words.to_vec(),
        bits: bits.to_vec(),
    };
    let answer = event.happen(setting, &mut lab);
    file.copy_from_slice(&lab.file);
    words.copy_from_slice(&lab.words);
    bits.copy_from_slice(&lab.bits);
    answer.map_or_else(Refusal::answer, |moved| moved.answer())
}

// ---------------------------------------------------------------- vectors

/// Events on the pair rig one after the other, with bytes, words and answers written by
/// hand; the answers made.
pub fn vectors(subject: &dyn Calls) -> Result<usize, Difference> {
    const A1: u64 = 0x5000_0000_0000_00a1;
    const B1: u64 = 0x5000_0000_0000_00b1;
    const C1: u64 = 0x5000_0000_0000_00c1;
    const TOP: u64 = 0x5000_0000_0000_0010;
    let rig = crate::vectors::pair_rig();
    let address = |at: usize, address: u64| (at..).zip(address.to_be_bytes());
    let moved = |tables: u64, words: u64| (tables << 32) + words;
    let refused =
        |number: u64, expander: u64, phy: u64| (1 << 63) + number * 65536 + expander * 256 + phy;
    let c1: Vec<(usize, u8)> = address(306, C1).chain([(294, 0x9f), (314, 0)]).collect();
    let b1: Vec<(usize, u8)> = address(114, B1).chain([(102, 0x95), (122, 0)]).collect();
    // Each event with its answer, the bytes of the file that it sets, and the four words
    // and the byte of disable bits after it.
    type Step<'a> = (&'a str, Place, u64, u64, Vec<(usize, u8)>, [u64; 4], u8);
    let given = [B1, 0, 0, 0];
    let steps: Vec<Step> = vec![
        (
            "no expander",
            (2, 0),
            C1,
            refused(20, 0, 0),
            vec![],
            given,
            0x75,
        ),
        (
            "expander 255",
            (255, 1),
            C1,
            refused(20, 0, 0),
            vec![],
            given,
            0x75,
        ),
        ("no phy", (0, 2), 0, refused(20, 0, 0), vec![], given, 0x75),
        (
            "phy 255",
            (1, 255),
            C1,
            refused(20, 0, 0),
            vec![],
            given,
            0x75,
        ),
        (
            "at an expander",
            (0, 0),
            C1,
            refused(20, 0, 0),
            vec![],
            given,
            0x75,
        ),
        (
            "a cable pulled",
            (1, 0),
            0,
            refused(20, 0, 0),
            vec![],
            given,
            0x75,
        ),
        (
            "an expander's",
            (0, 1),
            TOP,
            refused(8, 0, 1),
            vec![],
            given,
            0x75,
        ),
        (
            "at a later one",
            (0, 1),
            B1,
            refused(8, 1, 1),
            vec![],
            given,
            0x75,
        ),
        (
            "at an earlier one",
            (1, 2),
            A1,
            refused(8, 1, 2),
            vec![],
            given,
            0x75,
        ),
        ("plugged", (1, 2), C1, moved(1, 1), c1, [B1, C1, 0, 0], 0x35),
        (
            "plugged again",
            (1, 2),
            C1,
            moved(1, 0),
            vec![],
            [B1, C1, 0, 0],
            0x35,
        ),
        (
            "pulled",
            (1, 1),
            0,
            moved(1, 1),
            vec![(242, 0x8f)],
            [0, C1, 0, 0],
            0xb5,
        ),
        (
            "pulled again",
            (1, 1),
            0,
            moved(1, 0),
            vec![],
            [0, C1, 0, 0],
            0xb5,
        ),
        ("no table", (0, 1), B1, moved(0, 0), b1, [0, C1, 0, 0], 0xb5),
        (
            "no table, pulled",
            (0, 1),
            0,
            moved(0, 0),
            vec![(102, 0x85)],
            [0, C1, 0, 0],
            0xb5,
        ),
    ];
    let mut file = rig.clone();
    // Bits that are ignored, which an event keeps, and an attached phy where nothing is attached.
    (file[242], file[294], file[314], file[102]) = (0x9f, 0x8f, 7, 0x95);
    let mut lent = Lent::of(&file);
    let mut words = Lent::new(5, || 9);
    words.part().copy_from_slice(&[B1, 0, 0, 0, 9]);
    let mut bits = Lent::new(2, || 0x5a);
    // The padding is not clear.
    bits.part()[0] = 0x75;
    let mut count = 0;
    for (name, place, address, answer, bytes, left, marks) in steps {
        let what = || format!("event: {name}");
        bytes.iter().for_each(|&(at, value)| file[at] = value);
        let after = (lent.after(&file), words.after(&left), bits.after(&[marks]));
        let got = subject.event(
            WIDEST,
            lent.part(),
            words.part(),
            bits.part(),
            Event { place, address },
        );
        same(what, answer, got)?;
        lent.check(what, &after.0)?;
        words.check(what, &after.1)?;
        bits.check(what, &after.2)?;
        count += 1;
    }
    Ok(count + levels(subject)? + order(subject, &rig)?)
}

/// Which tables are touched: e0, e1 and e3 in a row, and e2 behind a cable with table phys
/// at both ends, which is in no level. The two tables at that cable were altered.
fn levels(subject: &dyn Calls) -> Result<usize, Difference> {
    let row = [
        Expander::new(e(0), 4, true).link(TABLE, e(1), 0),
        Expander::new(e(1), 1, true)
            .link(SUBTRACTIVE, e(0), 0)
            .drive(DIRECT, d(1, 1))
            .link(TABLE, e(2), 0)
            .link(TABLE, e(3), 0),
        Expander::new(e(2), 1, true)
            .link(TABLE, e(1), 2)
            .drive(DIRECT, d(2, 1)),
        Expander::new(e(3), 0, false)
            .link(SUBTRACTIVE, e(1), 3)
            .drive(DIRECT, d(3, 1)),
    ];
    let row = DomainFile::of(row.into()).bytes();
    // A table of no words, and an event that leaves its list empty.
    let wordless = [
        Expander::new(e(0), 0, true).link(TABLE, e(1), 0),
        Expander::new(e(1), 0, false)
            .link(SUBTRACTIVE, e(0), 0)
            .empty(SUBTRACTIVE),
    ];
    let wordless = DomainFile::of(wordless.into()).bytes();
    let (new, far) = (d(9, 9), d(3, 1));
    let pulled = [d(1, 1), e(2), e(3), 0, 7, 0, 9];
    let plugged = [new, e(2), e(3), 0, 7, 0, 9];
    let given = [d(1, 1), e(2), e(3), far, 7, far, 9];
    let moved = |tables: u64, words: u64| (tables << 32) + words;
    let mut count = 0;
    let mut lab = (row, given.to_vec(), vec![0x01]);
    for (name, place, address, answer, words, bits) in [
        ("e2", (2, 1), new, moved(0, 0), given, 0x01),
        ("e2, pulled", (2, 1), 0, moved(0, 0), given, 0x01),
        ("e3", (3, 1), 0, moved(2, 2), pulled, 0x15),
        ("e1", (1, 1), new, moved(1, 1), plugged, 0x15),
        ("e0", (0, 0), new, (1 << 63) + 20 * 65536, plugged, 0x15),
    ] {
        let event = Event { place, address };
        let got = subject.event(WIDEST, &mut lab.0, &mut lab.1, &mut lab.2, event);
        let what = || format!("event: levels, {name}");
        same(what, answer, got)?;
        same(what, 1, (lab.1 == words && lab.2 == [bits]) as u64)?;
        count += 1;
    }
    let mut file = wordless.clone();
    let place = (1, 1);
    let event = Event { place, address: 0 };
    let got = subject.event(WIDEST, &mut file, &mut [], &mut [], event);
    let what = || "event: a table of no words".into();
    same(what, moved(1, 0), got)?;
    same(what, 1, (file == wordless) as u64)?;
    Ok(count + 1)
}

/// The order of the refusals, on the pair rig; nothing is edited.
fn order(subject: &dyn Calls, rig: &[u8]) -> Result<usize, Difference> {
    const B1: u64 = 0x5000_0000_0000_00b1;
    let setting = |expanders: u32, phys: u32, chain: u32| expanders << 16 | phys << 8 | chain;
    let mut vacant = rig.to_vec();
    vacant[284] = 0x16;
    let mut long_list = rig.to_vec();
    long_list[17] = 1;
    let cases = [
        (
            "setting",
            setting(0, 0, 0),
            &rig[..100],
            (9, 9),
            0,
            0,
            (22, 0, 0),
        ),
        (
            "a byte above",
            WIDEST | 1 << 24,
            rig,
            (1, 2),
            4,
            1,
            (22, 0, 0),
        ),
        ("cut", WIDEST, &rig[..333], (9, 9), 0, 0, (1, 1, 2)),
        ("no file", WIDEST, &rig[..0], (0, 0), 0, 0, (1, 0, 0)),
        ("phys", setting(2, 2, 2), rig, (9, 9), 0, 0, (3, 1, 0)),
        ("chain", setting(2, 3, 1), rig, (9, 9), 0, 0, (23, 0, 0)),
        (
            "list too long",
            WIDEST,
            &long_list,
            (9, 9),
            0,
            0,
            (14, 0, 0),
        ),
        ("vacant", WIDEST, &vacant, (1, 2), 0, 0, (20, 0, 0)),
        ("no words", WIDEST, rig, (0, 1), 0, 0, (16, 0, 0)),
        ("3 words", WIDEST, rig, (0, 1), 3, 1, (16, 0, 0)),
        ("no bits", WIDEST, rig, (0, 1), 4, 0, (18, 0, 0)),
        ("the edited file", WIDEST, rig, (0, 1), 4, 1, (8, 1, 1)),
    ];
    let count = cases.len();
    for (name, setting, file, place, words, bytes, (number, expander, phy)) in cases {
        let what = || format!("event: {name}");
        let mut lent = Lent::of(file);
        let (mut words, mut bits) = (Lent::new(words, || 9), Lent::new(bytes, || 0x5a));
        let kept = (lent.after(&[]), words.after(&[]), bits.after(&[]));
        let event = Event { place, address: B1 };
        let got = subject.event(setting, lent.part(), words.part(), bits.part(), event);
        same(what, Refusal::of(number, (expander, phy)).answer(), got)?;
        lent.check(what, &kept.0)?;
        words.check(what, &kept.1)?;
        bits.check(what, &kept.2)?;
    }
    Ok(count)
}

// ---------------------------------------------------------------- comparing

/// The ways to 20.
const NO_EXPANDER: usize = 0;
const NO_PHY: usize = 1;
const VACANT: usize = 2;
const AT_EXPANDER: usize = 3;

/// What the events of a run reached.
#[derive(Clone, Default)]
pub struct Reached {
    events: u64,
    plugs: u64,
    pulls: u64,
    /// Plugs that replaced a drive.
    replaced: u64,
    /// Refusals of the setting, of the file as lent, of 16 and of 18.
    setting: u64,
    file: u64,
    room: [u64; 2],
    /// Refusals with 20, by the way to it.
    phy: [u64; 4],
    /// Refusals of the edited file, by number, and those that name another phy.
    edited: [u64; 25],
    elsewhere: u64,
    /// Lists of events whose tables were compared with those of the edited file.
    lists: u64,
    /// Events over altered tables, and those that left an altered table as it was.
    altered: u64,
    left: u64,
    /// Events on direct phys over unaltered tables, and those that changed as many words as
    /// the bound allows; events on other phys that changed a list's length.
    direct: u64,
    most: u64,
    lengths: u64,
}

impl Reached {
    pub fn add(&mut self, other: &Reached) {
        for (sum, more) in [
            (&mut self.events, other.events),
            (&mut self.plugs, other.plugs),
            (&mut self.pulls, other.pulls),
            (&mut self.replaced, other.replaced),
            (&mut self.setting, other.setting),
            (&mut self.file, other.file),
            (&mut self.elsewhere, other.elsewhere),
            (&mut self.lists, other.lists),
            (&mut self.altered, other.altered),
            (&mut self.left, other.left),
            (&mut self.direct, other.direct),
            (&mut self.most, other.most),
            (&mut self.lengths, other.lengths),
        ] {
            *sum += more;
        }
        let sums = self.room.iter_mut().chain(&mut self.phy);
        let sums = sums.chain(&mut self.edited);
        let more = other.room.iter().chain(&other.phy).chain(&other.edited);
        for (sum, more) in sums.zip(more) {
            *sum += more;
        }
    }

    pub fn print(&self) {
        println!(
            "  events: {}; {} plugs ({} in a drive's place) and {} pulls accepted, {} over altered tables, of which {} left one; {} lists compared with the tables afresh",
            self.events, self.plugs, self.replaced, self.pulls, self.altered, self.left, self.lists
        );
        println!(
            "  events on a direct phy over unaltered tables: {}, all within the bound, {} at it; on other phys {} changed a list's length",
            self.direct, self.most, self.lengths
        );
        let [no_expander, no_phy, vacant, at_expander] = self.phy;
        println!(
            "  events refused: {} by the setting, {} by the file, with 20 {no_expander} at no expander, {no_phy} at no phy, {vacant} at a vacant one, {at_expander} at one to an expander, {} with 16, {} with 18; by the edited file 8: {}, 9: {}, 14: {}, {} of these at another phy",
            self.setting,
            self.file,
            self.room[0],
            self.room[1],
            self.edited[8],
            self.edited[9],
            self.edited[14],
            self.elsewhere
        );
    }

    /// Whether a run reached every kind.
    pub fn whole(&self) -> bool {
        let kinds = [
            self.plugs,
            self.pulls,
            self.replaced,
            self.setting,
            self.file,
            self.elsewhere,
            self.lists,
            self.altered,
            self.left,
            self.direct,
            self.most,
            self.lengths,
        ];
        let edited = [8, 9, 14].map(|number| self.edited[number]);
        !kinds.contains(&0)
            && !self.room.contains(&0)
            && !self.phy.contains(&0)
            && !edited.contains(&0)
    }
}

/// Files of which one has events; longer ones all do.
const FILES_PER_LIST: usize = 2;
const LARGE: usize = 400_000;
/// Longer tables are lent too short only.
const MOST_WORDS: usize = 600_000;
/// Longer tables have one event, over the tables given.
const MANY_WORDS: usize = 60_000;
/// Files with more phys have lists of two events.
const FEW_PHYS: usize = 400;

/// Lists of events on a file: over its tables as they are given, and over altered ones.
pub fn check(
    subject: &dyn Calls,
    setting: u32,
    file: &[u8],
    random: &mut Random,
    counts: &mut Counts,
) -> Result<(), Difference> {
    if file.len() < LARGE && !random.chance(1, FILES_PER_LIST) {
        return Ok(());
    }
    let check = List { subject, setting };
    let judged = match reference::judged(setting, file) {
        Ok(judged) if judged.needed <= MOST_WORDS => judged,
        judged => return check.refused(file, judged.err(), random, counts),
    };
    check.short(file, &judged, random, counts)?;
    let phys: usize = judged.domain.expanders.values().map(|e| e.phys.len()).sum();
    let events = if phys > FEW_PHYS {
        2
    } else {
        random.between(2, 7)
    };
    let words = judged.table_words();
    let bits = disable_bits(&words);
    let given = Lab {
        file: file.to_vec(),
        words,
        bits,
    };
    if judged.needed > MANY_WORDS {
        return check.given(&given, 1, random, counts);
    }
    check.given(&given, events, random, counts)?;
    check.altered(given, events, random, counts)
}

struct List<'a> {
    subject: &'a dyn Calls,
    setting: u32,
}

impl List<'_> {
    /// An event on a file that is refused, or whose tables are too long.
    fn refused(
        &self,
        file: &[u8],
        refusal: Option<Refusal>,
        random: &mut Random,
        counts: &mut Counts,
    ) -> Result<(), Difference> {
        match refusal {
            Some(Refusal { number: 22, .. }) => counts.events.setting += 1,
            Some(_) => counts.events.file += 1,
            None => {}
        }
        let mut lab = Lab {
            file: file.to_vec(),
            words: (0..random.below(9)).map(|_| random.next()).collect(),
            bits: random.bytes(random.aside().below(3)),
        };
        let event = Event {
            place: (random.below(3) as u8, random.below(4) as u8),
            address: random.next(),
        };
        self.happen(event, &mut lab, random, counts).map(|_| ())
    }

    /// Too few words, and too few bits, with events that are refused for other causes too.
    fn short(
        &self,
        file: &[u8],
        judged: &Judged,
        random: &mut Random,
        counts: &mut Counts,
    ) -> Result<(), Difference> {
        let (words, bits) = (judged.needed, judged.needed_bits());
        for (less, less_bits) in [(1, 0), (1, 1), (0, 1), (words, bits), (0, bits)] {
            let mut lab = Lab {
                file: file.to_vec(),
                words: vec![random.next(); words.saturating_sub(less)],
                bits: vec![random.byte(); bits.saturating_sub(less_bits)],
            };
            let event = any_event(judged, random);
            self.happen(event, &mut lab, random, counts)?;
        }
        Ok(())
    }

    /// A list of events over the tables given. After each accepted one the tables are
    /// those of the edited file.
    fn given(
        &self,
        given: &Lab,
        events: usize,
        random: &mut Random,
        counts: &mut Counts,
    ) -> Result<(), Difference> {
        let mut lab = given.clone();
        // Behind the tables stand others, which stay.
        let behind: Vec<u64> = (0..random.below(4)).map(|_| random.next()).collect();
        lab.words.extend(behind);
        lab.bits.extend(random.bytes(random.aside().below(4)));
        for _ in 0..events {
            let judged = self.judged(&lab.file);
            let before = lab.clone();
            let event = any_event(&judged, random);
            if self.happen(event, &mut lab, random, counts)?.is_some() {
                self.afresh(&lab, counts)?;
                self.bound(event, &judged, &before, &lab, counts)?;
            }
        }
        counts.events.lists += 1;
        Ok(())
    }

    /// A list of events over words and bits that were altered.
    fn altered(
        &self,
        given: Lab,
        events: usize,
        random: &mut Random,
        counts: &mut Counts,
    ) -> Result<(), Difference> {
        let mut lab = given;
        let share = random.pick(&[1, 2, 6]);
        let addresses = [0, random.next(), *lab.words.first().unwrap_or(&1)];
        for word in &mut lab.words {
            if random.chance(1, share) {
                *word = random.pick(&addresses);
            }
        }
        // The padding, too.
        for byte in &mut lab.bits {
            if random.chance(1, share) {
                *byte = random.byte();
            }
        }
        lab.words.extend([random.next(), 0]);
        lab.bits.extend([random.byte(), 0xff]);
        for _ in 0..events.div_ceil(2) {
            let judged = self.judged(&lab.file);
            let event = any_event(&judged, random);
            let fresh = judged.table_words();
            let Some(moved) = self.happen(event, &mut lab, random, counts)? else {
                continue;
            };
            counts.events.altered += 1;
            let is_left = |place: Place| {
                let stretch = judged.stretch(place);
                lab.words[stretch.clone()] != fresh[stretch] && !moved.tables.contains(&place)
            };
            counts.events.left += judged.table_phys().into_iter().any(is_left) as u64;
        }
        Ok(())
    }

    fn judged(&self, file: &[u8]) -> Judged {
        reference::judged(self.setting, file).expect("an accepted file")
    }

    /// One event: answer, file, words and bits, with what lies around them. Gives what it
    /// moved, and what is lent is then as the call left it.
    fn happen(
        &self,
        event: Event,
        lab: &mut Lab,
        random: &mut Random,
        counts: &mut Counts,
    ) -> Result<Option<Moved>, Difference> {
        let before = lab.clone();
        let what = || {
            let Lab { file, words, bits } = &before;
            let (file, bits) = (hex(file), hex(bits));
            format!("{event:x?} over words {words:x?} bits {bits} file {file}")
        };
        let mut file = Lent::of(&before.file);
        let mut words = Lent::new(before.words.len(), || random.next());
        words.part().copy_from_slice(&before.words);
        let mut bits = Lent::new(before.bits.len(), || random.byte());
        bits.part().copy_from_slice(&before.bits);

        let moved = event.happen(self.setting, lab);
        let expected = match &moved {
            Ok(moved) => moved.answer(),
            Err(refusal) => refusal.answer(),
        };
        let after = (
            file.after(&lab.file),
            words.after(&lab.words),
            bits.after(&lab.bits),
        );
        let got = self
            .subject
            .event(self.setting, file.part(), words.part(), bits.part(), event);
        counts.answer("event", expected);
        counts.events.events += 1;
        same(what, expected, got)?;
        file.check(|| format!("{}, the file", what()), &after.0)?;
        words.check(|| format!("{}, the words", what()), &after.1)?;
        bits.check(|| format!("{}, the disable bits", what()), &after.2)?;
        self.count(event, &before, moved.as_ref().err(), counts);
        Ok(moved.ok())
    }

    /// Counts what kind of event it was.
    fn count(&self, event: Event, lab: &Lab, refusal: Option<&Refusal>, counts: &mut Counts) {
        let Ok(judged) = reference::judged(self.setting, &lab.file) else {
            return;
        };
        let reached = &mut counts.events;
        let expander = judged.domain.expanders.get(&event.place.0);
        let phy = expander.and_then(|expander| expander.phys.get(&event.place.1));
        match refusal.map(|refusal| refusal.number) {
            None if event.address == 0 => reached.pulls += 1,
            None => {
                reached.plugs += 1;
                let replaced = phy.is_some_and(|phy| phy.attached != Attached::Nothing);
                reached.replaced += replaced as u64;
            }
            Some(20) => {
                let way = match (expander, phy) {
                    (None, _) => NO_EXPANDER,
                    (Some(expander), None) if event.place.1 >= expander.count => NO_PHY,
                    (_, None) => VACANT,
                    _ => AT_EXPANDER,
                };
                reached.phy[way] += 1;
            }
            Some(16) => reached.room[0] += 1,
            Some(18) => reached.room[1] += 1,
            Some(number) => {
                let place = refusal.map(|refusal| (refusal.expander, refusal.phy));
                reached.edited[usize::from(number)] += 1;
                reached.elsewhere += (place != Some(event.place)) as u64;
            }
        }
    }

    /// The tables and bits are those that configuring the file afresh gives, by the
    /// reference and by the table call.
    fn afresh(&self, lab: &Lab, counts: &mut Counts) -> Result<(), Difference> {
        let judged = self.judged(&lab.file);
        let words = judged.table_words();
        let bits = disable_bits(&words);
        let mut filled = (vec![1; words.len()], vec![0; bits.len()]);
        let answer = self
            .subject
            .tables(self.setting, &lab.file, &mut filled.0, &mut filled.1);
        counts.answer("tables", answer);
        let what = || format!("tables after events, file {}", hex(&lab.file));
        same(what, judged.table_answer(), answer)?;
        let left = (&lab.words[..words.len()], &lab.bits[..bits.len()]);
        let alike = left == (&words, &bits) && left == (&filled.0, &filled.1);
        same(what, 1, alike as u64)
    }

    /// Paper 10: an event on a direct phy changes each table at no more than one index
    /// and no list's length, and at most as many words as table phys are attached to
    /// expanders.
    fn bound(
        &self,
        event: Event,
        judged: &Judged,
        before: &Lab,
        lab: &Lab,
        counts: &mut Counts,
    ) -> Result<(), Difference> {
        let after = self.judged(&lab.file);
        let phy = |place: Place| judged.domain.expanders[&place.0].phys[&place.1];
        let tables = judged.table_phys();
        let length = |judged: &Judged, place| judged.list_of(place).map(Vec::len);
        let kept = |&place: &Place| length(judged, place) == length(&after, place);
        let lengths_stay = tables.iter().all(kept);
        if phy(event.place).attribute != Attribute::Direct {
            counts.events.lengths += !lengths_stay as u64;
            return Ok(());
        }
        // How many words of each table changed.
        let mut changes = BTreeMap::new();
        for (word, (old, new)) in before.words.iter().zip(&lab.words).enumerate() {
            if old != new {
                let (table, _) = judged.place_of(word as u64).expect("a word of a table");
                *changes.entry(table).or_insert(0) += 1;
            }
        }
        let linked = |place: &&Place| matches!(phy(**place).attached, Attached::Expander(..));
        let most = tables.iter().filter(linked).count();
        let changed: usize = changes.values().sum();
        let one_each = changes.values().all(|&count| count == 1);
        let what = || format!("the bound of {event:x?}, file {}", hex(&before.file));
        same(
            what,
            1,
            (lengths_stay && one_each && changed <= most) as u64,
        )?;
        counts.events.direct += 1;
        counts.events.most += (changed == most && most > 0) as u64;
        Ok(())
    }
}

/// An event: most often on a phy that is empty or has a drive, at times on another; an
/// address that nobody has, or a drive's, an expander's, or none.
fn any_event(judged: &Judged, random: &mut Random) -> Event {
    let expanders = &judged.domain.expanders;
    let mut free = Vec::new();
    let mut routed = Vec::new();
    let mut addresses = Vec::new();
    for (&number, expander) in expanders {
        addresses.push(expander.address);
        for (&phy, fields) in &expander.phys {
            addresses.extend(fields.attached_address());
            if !matches!(fields.attached, Attached::Expander(..)) {
                free.push((number, phy));
                if fields.attribute != Attribute::Direct {
                    routed.push((number, phy));
                }
            }
        }
    }
    let count = expanders.len() as u8;
    let any = random.below(expanders.len()) as u8;
    let phys = expanders[&any].count;
    let place = match random.below(16) {
        0 => (random.pick(&[count, 64, 255]), random.below(4) as u8),
        1 => (any, random.pick(&[phys, 128, 255])),
        2 | 3 => (any, random.below(phys.into()) as u8),
        // Subtractive and table phys, where a list's length may change.
        4..=7 if !routed.is_empty() => random.pick(&routed),
        _ if free.is_empty() => (any, random.below(phys.into()) as u8),
        _ => random.pick(&free),
    };
    let own = expanders.get(&place.0).into_iter();
    let beside: Vec<u64> = own
        .flat_map(|expander| expander.phys.values())
        .filter_map(|phy| phy.attached_address())
        .collect();
    let address = match random.below(12) {
        0..=3 => 0,
        4 => random.pick(&addresses),
        // A wide drive, or two attributes for one address.
        5 | 6 if !beside.is_empty() => random.pick(&beside),
        7 => random.pick(&[1, u64::MAX, 1 << 63]),
        _ => 0x5001_0000_0000_0000 + random.below(64) as u64,
    };
    Event { place, address }
}
