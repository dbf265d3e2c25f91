//! Rig cards: the reference's conversions, bit by bit as document 02 has them, and
//! both calls compared with them on cards of files and on spoiled cards.

use std::collections::HashSet;
use std::fmt::Debug;

use crate::calls::Calls;
use crate::compare::{hex, same, Counts, Difference, Lent};
use crate::generate::WIDEST;
use crate::random::Random;
use crate::reference::{refuse, Discover, Domain, General, Refusal, Setting, NOWHERE};
use crate::traces::Request;

// ---------------------------------------------------------------- reference

/// What a card says of an expander.
pub struct Expander {
    pub address: u64,
    pub route_indexes: u64,
    pub configurable: bool,
    pub phys: Vec<Phy>,
}

/// What a card says of a phy.
pub enum Phy {
    Vacant(u64),
    Fields {
        device_type: u64,
        attribute: u64,
        /// Address and phy, where the type is not 0.
        attached: Option<(u64, u64)>,
    },
}

/// A row of bits that is read from its front; nothing past its end.
struct Row {
    bits: Vec<bool>,
    at: usize,
}

impl Row {
    fn of(bytes: &[u8]) -> Row {
        let bits = bytes
            .iter()
            .flat_map(|byte| (0..8).rev().map(move |power| byte >> power & 1 == 1))
            .collect();
        Row { bits, at: 0 }
    }

    fn number(&mut self, width: usize) -> Option<u64> {
        let bits = self.bits.get(self.at..self.at + width)?;
        self.at += width;
        Some(bits.iter().fold(0, |sum, &bit| sum * 2 + u64::from(bit)))
    }
}

/// What is on a card; nothing where it is refused with 19.
fn read_card(card: &[u8]) -> Option<Vec<Expander>> {
    let mut row = Row::of(card);
    let version = row.number(4)?;
    let count = row.number(6)? + 1;
    let zeros = row.number(6)?;
    let expanders: Vec<Expander> = (0..count)
        .map(|_| read_expander(&mut row))
        .collect::<Option<_>>()?;
    let fill = &row.bits[row.at..];
    (version == 0b0010 && zeros == 0 && fill.len() < 8 && !fill.contains(&true))
        .then_some(expanders)
}

fn read_expander(row: &mut Row) -> Option<Expander> {
    let address = row.number(64)?;
    let route_indexes = row.number(16)?;
    let configurable = row.number(1)? == 1;
    let count = row.number(7)? + 1;
    let phys = (0..count).map(|_| read_phy(row)).collect::<Option<_>>()?;
    Some(Expander {
        address,
        route_indexes,
        configurable,
        phys,
    })
}

fn read_phy(row: &mut Row) -> Option<Phy> {
    if row.number(1)? == 0 {
        let result = row.number(8)?;
        return (result != 0).then_some(Phy::Vacant(result));
    }
    let device_type = row.number(3)?;
    let attribute = row.number(2)?;
    let attached = match device_type {
        0 => None,
        _ => Some((row.number(64)?, row.number(8)?)),
    };
    Some(Phy::Fields {
        device_type,
        attribute,
        attached,
    })
}

/// Causes 3, 4 and 6, unit by unit.
fn test(setting: Setting, expanders: &[Expander]) -> Result<(), Refusal> {
    refuse(expanders.len() > usize::from(setting.expanders), 3, NOWHERE)?;
    let mut used = HashSet::from([0]);
    for (number, expander) in (0..).zip(expanders) {
        let count = expander.phys.len();
        refuse(count > usize::from(setting.phys), 3, (number, 0))?;
        refuse(!used.insert(expander.address), 4, (number, 0))?;
        for (at, phy) in (0..).zip(&expander.phys) {
            let Phy::Fields {
                device_type,
                attribute,
                attached,
            } = phy
            else {
                continue;
            };
            let nowhere = matches!(attached, Some((0, _)));
            let reserved = *device_type > 3 || *attribute > 2;
            refuse(reserved || nowhere, 6, (number, at))?;
        }
    }
    Ok(())
}

/// A file of short frames; what is ignored is zero.
pub fn write_file(expanders: &[Expander]) -> Vec<u8> {
    let mut file = vec![0x10, expanders.len() as u8];
    for expander in expanders {
        let mut general = [0; 28];
        general[0] = 0x41;
        general[6..=7].copy_from_slice(&(expander.route_indexes as u16).to_be_bytes());
        general[9] = expander.phys.len() as u8;
        general[10] = expander.configurable as u8;
        file.extend(expander.address.to_be_bytes());
        file.extend(general);
        for (number, phy) in (0..).zip(&expander.phys) {
            let mut discover = [0; 52];
            discover[..2].copy_from_slice(&[0x41, 0x10]);
            match phy {
                Phy::Vacant(result) => discover[2] = *result as u8,
                Phy::Fields {
                    device_type,
                    attribute,
                    attached,
                } => {
                    let (address, far) = attached.unwrap_or_default();
                    discover[9] = number;
                    discover[12] = *device_type as u8 * 16;
                    discover[16..24].copy_from_slice(&expander.address.to_be_bytes());
                    discover[24..32].copy_from_slice(&address.to_be_bytes());
                    discover[32] = far as u8;
                    discover[44] = *attribute as u8;
                }
            }
            file.extend(discover);
        }
    }
    file
}

/// The response at the front, of one of two sizes, and what follows it.
fn response<T>(
    file: &[u8],
    sizes: [usize; 2],
    read: impl Fn(&[u8]) -> Result<T, u8>,
) -> (T, &[u8]) {
    sizes
        .iter()
        .find_map(|&size| Some((read(file.get(..size)?).ok()?, &file[size..])))
        .expect("a file that causes 1 to 6 leave")
}

/// What is in a file that causes 1 to 6 leave.
pub fn read_file(file: &[u8]) -> Vec<Expander> {
    let mut rest = &file[2..];
    let mut expanders = Vec::new();
    for _ in 0..file[1] {
        let (address, frames) = rest.split_at(8);
        let (general, mut frames) = response(frames, [28, 68], General::read);
        let mut phys = Vec::new();
        for _ in 0..general.phys {
            let (discover, after) = response(frames, [52, 64], Discover::read);
            frames = after;
            phys.push(match discover {
                Discover::Vacant(result) => Phy::Vacant(result.into()),
                Discover::Fields {
                    device_type,
                    attribute,
                    attached,
                    attached_phy,
                    ..
                } => Phy::Fields {
                    device_type: device_type.into(),
                    attribute: attribute.into(),
                    attached: (device_type != 0).then_some((attached, attached_phy.into())),
                },
            });
        }
        rest = frames;
        expanders.push(Expander {
            address: u64::from_be_bytes(address.try_into().expect("eight bytes")),
            route_indexes: general.route_indexes.into(),
            configurable: general.configurable,
            phys,
        });
    }
    expanders
}

/// The card: each field as its bits.
fn write_card(expanders: &[Expander]) -> Vec<u8> {
    let mut bits: Vec<bool> = Vec::new();
    let mut put = |value: u64, width: u32| {
        bits.extend((0..width).rev().map(|power| value >> power & 1 == 1));
    };
    put(0b0010, 4);
    put(expanders.len() as u64 - 1, 6);
    put(0, 6);
    for expander in expanders {
        put(expander.address, 64);
        put(expander.route_indexes, 16);
        put(expander.configurable.into(), 1);
        put(expander.phys.len() as u64 - 1, 7);
        for phy in &expander.phys {
            match *phy {
                Phy::Vacant(result) => {
                    put(0, 1);
                    put(result, 8);
                }
                Phy::Fields {
                    device_type,
                    attribute,
                    attached,
                } => {
                    put(1, 1);
                    put(device_type, 3);
                    put(attribute, 2);
                    if let Some((address, far)) = attached {
                        put(address, 64);
                        put(far, 8);
                    }
                }
            }
        }
    }
    bits.chunks(8)
        .map(|byte| {
            (0..8).fold(0, |sum, place| {
                sum * 2 + byte.get(place).copied().unwrap_or(false) as u8
            })
        })
        .collect()
}

/// The card of a file: 22, then 1 to 6.
pub fn card_of_file(setting: u32, file: &[u8]) -> Result<Vec<u8>, Refusal> {
    Domain::read(Setting::read(setting)?, file)?;
    Ok(write_card(&read_file(file)))
}

/// The file of a card: 22, 19, then 3, 4 and 6.
pub fn file_of_card(setting: u32, card: &[u8]) -> Result<Vec<u8>, Refusal> {
    let setting = Setting::read(setting)?;
    let expanders = read_card(card).ok_or(Refusal::of(19, NOWHERE))?;
    test(setting, &expanders)?;
    Ok(write_file(&expanders))
}

/// What a call answers that makes these bytes in a buffer.
pub fn put(made: Result<Vec<u8>, Refusal>, room: &mut [u8]) -> u64 {
    let written = made.and_then(|bytes| {
        refuse(room.len() < bytes.len(), 16, NOWHERE)?;
        room[..bytes.len()].copy_from_slice(&bytes);
        Ok(bytes.len() as u64)
    });
    written.unwrap_or_else(Refusal::answer)
}

// ---------------------------------------------------------------- comparing

/// Longer files are not compared again after converting.
const MOST_COMPARED: usize = 20_000;
/// Longer tables are not compared after converting.
const MOST_WORDS: usize = 10_000;
/// Of longer cards only some bits are flipped.
const SMALL: usize = 48;
/// Files of which one has its card spoiled.
const FILES_PER_SPOILED: usize = 10;

/// The two calls, under a setting.
struct Cards<'a> {
    subject: &'a dyn Calls,
    setting: u32,
}

/// The card of one file, the file of that card, and spoiled cards.
pub fn check(
    subject: &dyn Calls,
    setting: u32,
    file: &[u8],
    random: &mut Random,
    counts: &mut Counts,
) -> Result<(), Difference> {
    let cards = Cards { subject, setting };
    let made = card_of_file(setting, file);
    cards.card_of_file(file, &made, random, counts)?;
    let Ok(card) = made else {
        return cards.noise(random, counts);
    };
    counts.cards += 1;
    let short = file_of_card(setting, &card);
    cards.file_of_card(&card, &short, random, counts)?;
    let converted = cards.there_and_back(file, &card, counts)?;
    let other = Cards {
        subject,
        setting: crate::generate::setting(file, random),
    };
    other.file_of_card(&card, &file_of_card(other.setting, &card), random, counts)?;
    if file.len() <= MOST_COMPARED {
        let mut aside = random.aside();
        let refused = cards.alike([file, &converted], &mut aside, counts)?;
        let there = other.alike([file, &converted], &mut aside, counts)?;
        if !refused {
            counts.converted[there as usize] += 1;
        }
    }
    if random.chance(1, FILES_PER_SPOILED) {
        cards.spoiled(&card, random, counts)?;
    }
    Ok(())
}

impl Cards<'_> {
    /// Lengths of buffers to lend: just enough, one short, more, and any where refused.
    fn lengths(made: &Result<Vec<u8>, Refusal>, random: &mut Random) -> Vec<usize> {
        match made {
            Ok(bytes) => {
                let needed = bytes.len();
                vec![needed - 1, needed, needed + random.between(1, 20)]
            }
            Err(_) => vec![random.below(400)],
        }
    }

    fn card_of_file(
        &self,
        file: &[u8],
        made: &Result<Vec<u8>, Refusal>,
        random: &mut Random,
        counts: &mut Counts,
    ) -> Result<(), Difference> {
        for length in Cards::lengths(made, random) {
            let what = || format!("card_of_file with {length} bytes lent");
            let call = |room: &mut [u8]| self.subject.card_of_file(self.setting, file, room);
            compare("card_of_file", what, made, length, call, random, counts)?;
        }
        Ok(())
    }

    fn file_of_card(
        &self,
        card: &[u8],
        made: &Result<Vec<u8>, Refusal>,
        random: &mut Random,
        counts: &mut Counts,
    ) -> Result<(), Difference> {
        for length in Cards::lengths(made, random) {
            self.of_card(card, made, length, random, counts)?;
        }
        Ok(())
    }

    fn of_card(
        &self,
        card: &[u8],
        made: &Result<Vec<u8>, Refusal>,
        length: usize,
        random: &mut Random,
        counts: &mut Counts,
    ) -> Result<(), Difference> {
        let lent = Lent::of(card);
        let before = lent.after(&[]);
        let setting = self.setting;
        let what = || {
            let card = hex(card);
            format!("setting {setting:08x}h: file_of_card with {length} bytes lent, card {card}")
        };
        let call = |room: &mut [u8]| self.subject.file_of_card(setting, lent.read(), room);
        compare("file_of_card", what, made, length, call, random, counts)?;
        lent.check(what, &before)
    }

    /// What the subject makes of a card is the same card again; the file between them.
    fn there_and_back(
        &self,
        file: &[u8],
        card: &[u8],
        counts: &mut Counts,
    ) -> Result<Vec<u8>, Difference> {
        let (subject, setting) = (self.subject, self.setting);
        let mut short = vec![0; file.len()];
        let length = subject.file_of_card(setting, card, &mut short);
        same(
            || "file_of_card of the file's card, refused".into(),
            0,
            length >> 63,
        )?;
        short.truncate(length as usize);
        let mut again = vec![0; card.len()];
        let bytes = subject.card_of_file(setting, &short, &mut again);
        same(
            || "card to file to card, length".into(),
            card.len() as u64,
            bytes,
        )?;
        if again != card {
            return Err(Difference {
                what: "card to file to card".into(),
                expected: hex(card),
                got: hex(&again),
            });
        }
        counts.calls += 2;
        Ok(short)
    }

    /// A file and the one that was made of its card are the same to the calls: both are
    /// refused alike, or have the same tables and traces. Whether they are refused.
    fn alike(
        &self,
        files: [&[u8]; 2],
        random: &mut Random,
        counts: &mut Counts,
    ) -> Result<bool, Difference> {
        let (subject, setting) = (self.subject, self.setting);
        let judged = files.map(|file| subject.judge(setting, file));
        self.equal("judge", &judged, counts)?;
        let needed = files.map(|file| subject.needed(setting, file));
        self.equal("needed", &needed, counts)?;
        let refused = judged[0] >> 63 == 1;
        let (expanders, length) = match refused {
            true => (random.below(66), random.below(40)),
            false => (judged[0] as usize, needed[0] as u32 as usize),
        };
        if length > MOST_WORDS {
            return Ok(refused);
        }
        let tables = files.map(|file| {
            let (mut words, mut bits) = (vec![1; length], vec![1; length.div_ceil(8)]);
            let answer = subject.tables(setting, file, &mut words, &mut bits);
            (answer, words, bits)
        });
        self.equal("tables", &tables, counts)?;
        let (_, words, bits) = &tables[0];
        for request in requests(files[0], random) {
            let Request {
                start,
                arrival,
                address,
            } = request;
            let traces = files.map(|file| {
                let mut passed = vec![0xa5; expanders];
                let room = &mut passed;
                let answer =
                    subject.trace(setting, file, words, bits, start, arrival, address, room);
                (answer, passed)
            });
            let call = format!("trace, {},", request.text());
            self.equal(&call, &traces, counts)?;
        }
        Ok(refused)
    }

    /// What a call gives for a file and for the one that was made of its card.
    fn equal<T: PartialEq + Debug>(
        &self,
        call: &str,
        [expected, got]: &[T; 2],
        counts: &mut Counts,
    ) -> Result<(), Difference> {
        counts.calls += 2;
        if expected == got {
            return Ok(());
        }
        let setting = self.setting;
        Err(Difference {
            what: format!(
                "setting {setting:08x}h: {call} of the file that was made of the file's card"
            ),
            expected: format!("{expected:x?}"),
            got: format!("{got:x?}"),
        })
    }

    /// A card spoiled in each way: bits flipped, cut, a byte too many, an address zero or
    /// twice, and noise.
    fn spoiled(
        &self,
        card: &[u8],
        random: &mut Random,
        counts: &mut Counts,
    ) -> Result<(), Difference> {
        let (bits, bytes) = (8 * card.len(), card.len());
        let some = |all: usize, random: &mut Random| -> Vec<usize> {
            match bytes <= SMALL {
                true => (0..all).collect(),
                false => (0..12).map(|_| random.below(all)).collect(),
            }
        };
        let mut all = Vec::new();
        for bit in some(bits, random).into_iter().chain([0, bits - 1]) {
            let mut flipped = card.to_vec();
            flipped[bit / 8] ^= 0x80 >> (bit % 8);
            all.push(flipped);
        }
        for length in some(bytes, random).into_iter().chain([bytes - 1]) {
            all.push(card[..length].to_vec());
        }
        for more in [0x00, 0x80, 0x01, random.byte()] {
            all.push([card, &[more]].concat());
        }
        let mut changed = card.to_vec();
        for _ in 0..random.between(1, 4) {
            let any = random.byte();
            changed[random.below(bytes)] = random.pick(&[0x00, 0xff, any]);
        }
        all.push(changed);
        for spoiled in all {
            self.any(&spoiled, random, counts)?;
        }
        let mut aside = random.aside();
        self.any(&ill_addressed(card, &mut aside), &mut aside, counts)?;
        self.noise(random, counts)
    }

    /// Bytes of which most begin as a card does.
    fn noise(&self, random: &mut Random, counts: &mut Counts) -> Result<(), Difference> {
        let length = random.below(60);
        let mut noise = random.bytes(length);
        if let ([first, second, ..], true) = (&mut noise[..], random.chance(3, 4)) {
            *first = 0x20;
            *second = random.pick(&[0x00, 0x00, 0x40, 0x01]);
        }
        // Few phys, so that some of them are all there.
        if let (Some(phys), true) = (noise.get_mut(12), random.chance(3, 4)) {
            *phys &= 0x83;
        }
        self.any(&noise, random, counts)
    }

    /// Any bytes as a card, under this setting or the widest.
    fn any(&self, card: &[u8], random: &mut Random, counts: &mut Counts) -> Result<(), Difference> {
        let setting = random.pick(&[self.setting, WIDEST, WIDEST]);
        let made = file_of_card(setting, card);
        let lengths = Cards::lengths(&made, random);
        let length = random.pick(&lengths);
        let subject = self.subject;
        counts.spoiled_cards += 1;
        Cards { subject, setting }.of_card(card, &made, length, random, counts)
    }
}

/// The card with an expander's address zero or that of another.
fn ill_addressed(card: &[u8], random: &mut Random) -> Vec<u8> {
    let mut expanders = read_card(card).expect("the card of a file");
    let (at, other) = (random.below(expanders.len()), random.below(expanders.len()));
    expanders[at].address = match at == other {
        true => 0,
        false => expanders[other].address,
    };
    write_card(&expanders)
}

/// Requests of a file that causes 1 to 6 leave: from an expander, from a drive where there
/// is one, and from any phy, which may be refused.
fn requests(file: &[u8], random: &mut Random) -> [Request; 3] {
    let expanders = read_file(file);
    let mut addresses = Vec::new();
    let mut drives = Vec::new();
    for (number, expander) in (0..).zip(&expanders) {
        addresses.push(expander.address);
        for (at, phy) in (0..).zip(&expander.phys) {
            let Phy::Fields {
                device_type,
                attached: Some((address, _)),
                ..
            } = *phy
            else {
                continue;
            };
            addresses.push(address);
            if device_type == 1 {
                drives.push((number, at));
            }
        }
    }
    let start = random.below(expanders.len()) as u8;
    let drive = match drives.is_empty() {
        true => (start, 255),
        false => random.pick(&drives),
    };
    [(start, 255), drive, (start, random.below(8) as u8)].map(|(start, arrival)| Request {
        start,
        arrival,
        address: random.pick(&addresses),
    })
}

/// A call that makes bytes in a buffer of this length: its answer and the buffer.
pub fn compare(
    name: &'static str,
    what: impl Fn() -> String,
    made: &Result<Vec<u8>, Refusal>,
    length: usize,
    call: impl FnOnce(&mut [u8]) -> u64,
    random: &mut Random,
    counts: &mut Counts,
) -> Result<(), Difference> {
    let mut room = Lent::new(length, || random.byte());
    let (expected, after) = match made {
        Err(refusal) => (refusal.answer(), room.after(&[])),
        Ok(bytes) if length < bytes.len() => (Refusal::of(16, NOWHERE).answer(), room.after(&[])),
        Ok(bytes) => (bytes.len() as u64, room.after(bytes)),
    };
    let got = call(room.part());
    counts.answer(name, expected);
    same(&what, expected, got)?;
    room.check(what, &after)
}
