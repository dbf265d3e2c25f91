//! Compact forms: the reference's, word by word as document 02 has them, and the four
//! calls compared with it on forms of files, on spoiled forms and on other words.

use crate::calls::Calls;
use crate::cards::{read_file, write_file, Expander, Phy};
use crate::compare::{same, Counts, Difference, Lent};
use crate::generate::{self, WIDEST};
use crate::random::Random;
use crate::reference::{
    self, refuse, Attached, Domain, Judged, Refusal, Routes, Setting, Trace, NOWHERE,
};
use crate::traces::{Content, Request, Tables};

// ---------------------------------------------------------------- reference

/// Widths of the fields, from the top of their word.
const GENERAL: [u32; 2] = [16, 8];
const PHY: [u32; 5] = [1, 2, 2, 6, 8];

/// Fields packed from the top of a word, zeros below.
fn packed<const N: usize>(fields: [u64; N], widths: [u32; N]) -> u64 {
    let mut worth = 64;
    let placed = fields.iter().zip(widths).map(|(field, width)| {
        worth -= width;
        field * 2u64.pow(worth)
    });
    placed.sum()
}

/// The fields of a word; nothing where one of the bits below them is set.
fn fields<const N: usize>(word: u64, widths: [u32; N]) -> Option<[u64; N]> {
    let mut rest = u128::from(word);
    let found = widths.map(|width| {
        rest *= 2u128.pow(width);
        let field = rest >> 64;
        rest %= 1 << 64;
        field as u64
    });
    (rest == 0).then_some(found)
}

/// The words of these expanders. One that is attached and not there is number 0.
fn words_of(expanders: &[Expander]) -> Vec<u64> {
    let number = |address| {
        let borne = expanders.iter().position(|each| each.address == address);
        borne.unwrap_or(0) as u64
    };
    let mut words = Vec::new();
    for expander in expanders {
        let count = expander.phys.len() as u64;
        words.push(expander.address);
        words.push(packed([expander.route_indexes, count], GENERAL));
        for phy in &expander.phys {
            words.extend(match *phy {
                Phy::Vacant(_) => [0, packed([1, 0, 0, 0, 0], PHY)],
                Phy::Fields {
                    device_type,
                    attribute,
                    attached,
                } => {
                    let (address, far) = attached.unwrap_or((0, 0));
                    let expander = match device_type {
                        2 | 3 => number(address),
                        _ => 0,
                    };
                    let fields = [0, device_type, attribute, expander, far];
                    [address, packed(fields, PHY)]
                }
            });
        }
    }
    words
}

/// The expanders that the words are of, every configurable bit 1 and every vacant phy
/// with result 1; nothing where a field or a bit is not as it has to be.
fn expanders_of(form: &[u64]) -> Option<Vec<Expander>> {
    let mut words = form.iter().copied();
    let mut expanders = Vec::new();
    // Numbers of attached expanders, and the addresses that they have to bear.
    let mut named = Vec::new();
    while let Some(address) = words.next() {
        let [route_indexes, count] = fields(words.next()?, GENERAL)?;
        let mut phys = Vec::new();
        for _ in 0..count {
            let attached = words.next()?;
            let [vacant, device_type, attribute, expander, far] = fields(words.next()?, PHY)?;
            let meant = match (vacant, device_type) {
                (1, _) => [attached, device_type, attribute, expander, far] == [0; 5],
                (_, 0) => [attached, expander, far] == [0; 3],
                (_, 1) => expander == 0,
                _ => {
                    named.push((expander, attached));
                    true
                }
            };
            phys.push(match vacant {
                _ if !meant => return None,
                1 => Phy::Vacant(1),
                _ => Phy::Fields {
                    device_type,
                    attribute,
                    attached: (device_type != 0).then_some((attached, far)),
                },
            });
        }
        expanders.push(Expander {
            address,
            route_indexes,
            configurable: true,
            phys,
        });
    }
    let borne = |&(number, address): &(u64, u64)| {
        let expander = expanders.get(number as usize);
        expander.is_some_and(|expander: &Expander| expander.address == address)
    };
    (expanders.len() <= 64 && named.iter().all(borne)).then_some(expanders)
}

/// The form of a file: 22, and the causes of judging.
pub fn compact(setting: u32, file: &[u8]) -> Result<Vec<u64>, Refusal> {
    reference::judged(setting, file)?;
    Ok(words_of(&read_file(file)))
}

/// What a call answers that makes this form in a buffer.
pub fn put(made: Result<Vec<u64>, Refusal>, file: &[u8], room: &mut [u64]) -> u64 {
    let written = made.and_then(|words| {
        refuse(room.len() < words.len(), 16, NOWHERE)?;
        room[..words.len()].copy_from_slice(&words);
        Ok(counts(file, &words))
    });
    written.unwrap_or_else(Refusal::answer)
}

/// The counts of expanders and words.
fn counts(file: &[u8], words: &[u64]) -> u64 {
    u64::from(file[1]) * 2u64.pow(32) + words.len() as u64
}

/// The accepted domain whose form the words are: 22, then 1 where there is none.
pub fn judged(setting: u32, form: &[u64]) -> Result<Judged, Refusal> {
    Setting::read(setting)?;
    let none = Refusal::of(1, NOWHERE);
    let expanders = expanders_of(form).ok_or(none)?;
    reference::judged(setting, &write_file(&expanders)).map_err(|_| none)
}

/// Tables over a form: words and disable bits of these lengths.
pub fn tables(judged: &Judged, words: usize, bits: usize) -> Result<(Vec<u64>, Vec<u8>), Refusal> {
    refuse(words < judged.needed, 16, NOWHERE)?;
    refuse(bits < judged.needed_bits(), 18, NOWHERE)?;
    let given = judged.table_words();
    let disabled = reference::disable_bits(&given);
    Ok((given, disabled))
}

/// A trace over a form, with so many bytes for the expanders passed.
pub fn trace(
    judged: &Judged,
    words: &[u64],
    bits: &[u8],
    request: Request,
    passed: usize,
) -> Result<Trace, Refusal> {
    let Request {
        start,
        arrival,
        address,
    } = request;
    judged.test_request(words.len(), bits.len(), start, arrival, address, passed)?;
    Ok(judged.trace(&judged.routes(words, bits), start, arrival, address))
}

/// The answers to a list of requests, with room for so many of them.
pub fn trace_many(
    judged: &Judged,
    words: &[u64],
    bits: &[u8],
    requests: &[u64],
    answers: usize,
) -> Result<Vec<u64>, Refusal> {
    refuse(words.len() < judged.needed, 16, NOWHERE)?;
    refuse(answers < requests.len() / 2, 16, NOWHERE)?;
    refuse(bits.len() < judged.needed_bits(), 18, NOWHERE)?;
    let routes = judged.routes(words, bits);
    let each = requests.chunks_exact(2);
    Ok(each
        .map(|request| listed(judged, &routes, request[0], request[1]))
        .collect())
}

/// The answer to one request of a list.
fn listed(judged: &Judged, routes: &Routes, start: u64, address: u64) -> u64 {
    let Ok(start) = u16::try_from(start) else {
        return Refusal::of(15, NOWHERE).answer();
    };
    let [start, arrival] = start.to_be_bytes();
    let enough = usize::MAX;
    match judged.test_request(enough, enough, start, arrival, address, enough) {
        Err(refusal) => refusal.answer(),
        Ok(()) => judged.trace(routes, start, arrival, address).answer(),
    }
}

// ---------------------------------------------------------------- comparing

/// Files of which one has its form spoiled.
const FILES_PER_SPOILED: usize = 10;
/// In longer forms only some fields are altered.
const SMALL: usize = 24;
/// Fields altered in longer forms.
const FIELDS: usize = 24;
/// Traces over each content of words and disable bits, besides the list.
const SINGLES: usize = 4;
/// Requests of no particular kind in a list.
const WILD: usize = 12;
/// Tables of more words are lent too few of them, over other words than a file's form.
const FEW_WORDS: usize = 5_000;

/// Words lent as a form, under a setting, and what the reference takes them for.
pub struct Form<'a> {
    subject: &'a dyn Calls,
    setting: u32,
    lent: Lent<u64>,
    kept: Vec<u64>,
    judged: Result<&'a Judged, Refusal>,
}

/// Makes the form of one file, which is compared; then other words in its place.
pub fn check(
    subject: &dyn Calls,
    setting: u32,
    file: &[u8],
    random: &mut Random,
    counts: &mut Counts,
) -> Result<(), Difference> {
    let made = compact(setting, file);
    let other = generate::setting(file, random);
    compare_compact(subject, setting, file, &made, random, counts)
        .map_err(|difference| difference.under(setting))?;
    let Ok(form) = made else {
        // The words of a file that is not accepted can be a form all the same: the
        // configurable bits are not in them.
        if Domain::read(Setting::WIDEST, file).is_ok() {
            let words = words_of(&read_file(file));
            let under = random.pick(&[setting, WIDEST]);
            any(subject, under, &words, random, counts)?;
        }
        return noise(subject, random, counts);
    };
    counts.forms += 1;
    any(subject, other, &form, random, counts)?;
    if random.chance(1, FILES_PER_SPOILED) {
        for words in spoiled(&form, random) {
            let under = random.pick(&[setting, WIDEST, WIDEST]);
            any(subject, under, &words, random, counts)?;
        }
    }
    Ok(())
}

/// The call that makes a form: just enough words, one short, more; any where refused.
fn compare_compact(
    subject: &dyn Calls,
    setting: u32,
    file: &[u8],
    made: &Result<Vec<u64>, Refusal>,
    random: &mut Random,
    answered: &mut Counts,
) -> Result<(), Difference> {
    let lengths = match made {
        Ok(words) => vec![
            0,
            words.len() - 1,
            words.len(),
            words.len() + random.between(1, 9),
        ],
        Err(_) => vec![random.below(40)],
    };
    for length in lengths {
        let mut room = Lent::new(length, || random.next());
        let (expected, after) = match made {
            Err(refusal) => (refusal.answer(), room.after(&[])),
            Ok(words) if length < words.len() => (refused(16), room.after(&[])),
            Ok(words) => (counts(file, words), room.after(words)),
        };
        let what = || format!("compact with {length} words lent");
        let got = subject.compact(setting, file, room.part());
        answered.answer("compact", expected);
        same(what, expected, got)?;
        room.check(what, &after)?;
    }
    Ok(())
}

/// A copy of words that a call only reads.
fn lent(words: &[u64]) -> Lent<u64> {
    let mut lent = Lent::new(words.len(), || 0x5a5a_5a5a_5a5a_5a5a);
    lent.part().copy_from_slice(words);
    lent
}

fn refused(number: u8) -> u64 {
    Refusal::of(number, NOWHERE).answer()
}

/// Forms altered field by field, where there are few; a word more and fewer; words
/// that stand elsewhere.
fn spoiled(form: &[u64], random: &mut Random) -> Vec<Vec<u64>> {
    let mut places = places(form);
    if form.len() > SMALL {
        random.shuffle(&mut places);
        places.truncate(FIELDS);
    }
    let mut all = Vec::new();
    for (at, from, width) in places {
        for value in values(form, at, from, width, random) {
            let mut words = form.to_vec();
            let mask = (u64::MAX >> (64 - width)) << from;
            words[at] = words[at] & !mask | value << from & mask;
            all.push(words);
        }
    }
    let length = form.len();
    for more in [0, 1 << 63, random.next(), form[0]] {
        all.push([form, &[more]].concat());
    }
    for fewer in [1, 2, random.between(1, length), length] {
        all.push(form[..length - fewer].to_vec());
    }
    all.push([form, form].concat());
    let mut swapped = form.to_vec();
    swapped.swap(random.below(length), random.below(length));
    all.push(swapped);
    let mut dropped = form.to_vec();
    dropped.remove(random.below(length));
    all.push(dropped);
    all
}

/// Every field of a form, the zeros below the last of a word too: the number of its
/// word, the place of its lowest bit, and its width.
fn places(form: &[u64]) -> Vec<(usize, u32, u32)> {
    let mut places = Vec::new();
    let mut at = 0;
    let mut place = |at: usize, widths: &[u32]| {
        let mut from = 64;
        for &width in widths {
            from -= width;
            places.push((at, from, width));
        }
    };
    while at < form.len() {
        let phys = form[at + 1] >> 40 & 0xff;
        place(at, &[64]);
        place(at + 1, &[16, 8, 40]);
        at += 2;
        for _ in 0..phys {
            place(at, &[64]);
            place(at + 1, &[1, 2, 2, 6, 8, 45]);
            at += 2;
        }
    }
    places
}

/// What a field is altered to: all values of a few bits, some of more.
fn values(form: &[u64], at: usize, from: u32, width: u32, random: &mut Random) -> Vec<u64> {
    let value = form[at] >> from & u64::MAX >> (64 - width);
    let mut others = match width {
        1 | 2 => (0..1 << width).collect(),
        64 => vec![0, value ^ 1, random.pick(form), random.next()],
        45 | 40 => vec![1, 1 << (width - 1), 1 << random.below(width as usize)],
        _ => vec![0, value.wrapping_sub(1), value + 1, random.next(), u64::MAX],
    };
    others.retain(|&other| other & u64::MAX >> (64 - width) != value);
    others
}

/// Words of which some are like those of a form.
fn noise(subject: &dyn Calls, random: &mut Random, counts: &mut Counts) -> Result<(), Difference> {
    let length = random.below(12);
    let mut words: Vec<u64> = (0..length).map(|_| random.next()).collect();
    // One expander with as many phys as there are words for, or about so many.
    if let (Some(general), true) = (words.get_mut(1), random.chance(3, 4)) {
        let phys = random.between(length / 2 - 1, length / 2);
        *general = packed([random.next() & 0xffff, phys as u64], GENERAL);
    }
    // Vacant phys, or phys of any fields.
    let kind = random.below(3);
    for phy in words.get_mut(2..).unwrap_or_default().chunks_exact_mut(2) {
        match kind {
            0 => phy.copy_from_slice(&[0, 1 << 63]),
            1 => phy[1] &= !0 << 45,
            _ => {}
        }
    }
    any(subject, WIDEST, &words, random, counts)
}

/// Any words as a form, compared with what the reference takes them for.
fn any(
    subject: &dyn Calls,
    setting: u32,
    words: &[u64],
    random: &mut Random,
    counts: &mut Counts,
) -> Result<(), Difference> {
    let judged = judged(setting, words);
    counts.other_forms += 1;
    counts.other_forms_accepted += judged.is_ok() as u64;
    let judged = judged.as_ref().map_err(|&refusal| refusal);
    let form = Form::of(subject, setting, words, judged);
    form.around(random, counts)
        .map_err(|difference| difference.under(setting))
}

impl<'a> Form<'a> {
    fn of(
        subject: &'a dyn Calls,
        setting: u32,
        words: &[u64],
        judged: Result<&'a Judged, Refusal>,
    ) -> Form<'a> {
        let lent = lent(words);
        Form {
            subject,
            setting,
            kept: lent.after(&[]),
            lent,
            judged,
        }
    }

    /// The form of an accepted file.
    pub fn of_file(
        subject: &'a dyn Calls,
        setting: u32,
        file: &[u8],
        judged: &'a Judged,
    ) -> Form<'a> {
        Form::of(subject, setting, &words_of(&read_file(file)), Ok(judged))
    }

    /// The call, and the words of the form where they are few.
    fn text(&self, call: &str) -> String {
        let words = self.lent.read();
        let shown: Vec<String> = (words.iter().take(60))
            .map(|word| format!("{word:016x}"))
            .collect();
        format!("{call} over {} words {}", words.len(), shown.join(" "))
    }

    /// The form has to be as it was lent.
    fn kept(&self, call: &str) -> Result<(), Difference> {
        self.lent
            .check(|| format!("{}, the form", self.text(call)), &self.kept)
    }

    /// Over the words and bits of a file's traces: the list of these requests, whose
    /// answers are known, among others; single traces; and, over the tables given, the
    /// tables of the form.
    pub fn over(
        &self,
        tables: &Tables,
        traced: &[(Request, u64)],
        random: &mut Random,
        counts: &mut Counts,
    ) -> Result<(), Difference> {
        let judged = self.judged.expect("an accepted file");
        let (words, bits) = (tables.words.read(), tables.bits.read());
        let enough = random.between(judged.needed, words.len());
        let enough_bits = random.between(judged.needed_bits(), bits.len());
        let (few, few_bits) = (&words[..enough], &bits[..enough_bits]);
        self.whole_list(tables, few, few_bits, traced, random, counts)?;
        for _ in 0..SINGLES {
            let request = match random.chance(3, 4) {
                true if !traced.is_empty() => random.pick(traced).0,
                _ => self.wild_request(words, random),
            };
            let room = judged.expanders() + random.pick(&[0, 0, 1, 9]);
            self.single_over(tables, few, few_bits, request, room, random, counts)?;
        }
        match tables.content {
            Content::Given => self.given(random, counts)?,
            Content::Other => self.lengths(tables, random, counts)?,
            Content::WordsChanged | Content::BitsChanged => (),
        }
        self.kept("the calls")?;
        tables.check()
    }

    /// Every call, on words and disable bits of lengths around those needed.
    fn around(&self, random: &mut Random, counts: &mut Counts) -> Result<(), Difference> {
        let (words, bits, expanders) = match self.judged {
            Ok(judged) => (
                judged.needed.min(FEW_WORDS),
                judged.needed_bits().min(FEW_WORDS),
                judged.expanders(),
            ),
            Err(_) => (random.below(9), random.below(3), random.below(4)),
        };
        let mut about = |needed: usize| {
            let (less, more) = (needed.saturating_sub(1), needed + random.between(1, 9));
            random.pick(&[needed, needed, needed, more, less])
        };
        let (length, bytes, room) = (about(words), about(bits), about(expanders));
        let (words, bytes_lent) = (about(words), about(bits));
        let count = about(2);
        let answers = about(count);
        self.tables(length, bytes, random, counts)?;
        let words = self.table_words(words, random);
        let bits = random.bytes(bytes_lent);
        let request = self.wild_request(&words, random);
        self.single(&words, &bits, request, room, random, counts)?;
        let requests = self.wild(&words, count, random);
        self.many(&words, &bits, &requests, answers, None, random, counts)?;
        self.kept("the calls")
    }

    /// Over fewer words than needed every call is refused; 15 comes before that, 17
    /// after.
    pub fn too_few(
        &self,
        tables: &Tables,
        random: &mut Random,
        counts: &mut Counts,
    ) -> Result<(), Difference> {
        let (words, bits) = (tables.words.read(), tables.bits.read());
        self.tables(random.below(20), random.below(20), random, counts)?;
        for _ in 0..SINGLES {
            let request = self.wild_request(words, random);
            self.single(words, bits, request, 64, random, counts)?;
        }
        let requests = self.wild(words, 3, random);
        self.many(words, bits, &requests, 3, None, random, counts)
    }

    /// One list with all of these requests, and others among them.
    fn whole_list(
        &self,
        tables: &Tables,
        words: &[u64],
        bits: &[u8],
        traced: &[(Request, u64)],
        random: &mut Random,
        counts: &mut Counts,
    ) -> Result<(), Difference> {
        let judged = self.judged.expect("an accepted file");
        let routes = tables.routes.as_ref().expect("as many words as needed");
        let mut list: Vec<[u64; 3]> = traced
            .iter()
            .map(|&(request, answer)| {
                let start = u16::from_be_bytes([request.start, request.arrival]);
                [start.into(), request.address, answer]
            })
            .collect();
        let wild = self.wild(words, WILD, random);
        for other in wild.chunks_exact(2) {
            let answer = listed(judged, routes, other[0], other[1]);
            let at = random.below(list.len() + 1);
            list.insert(at, [other[0], other[1], answer]);
        }
        let mut requests: Vec<u64> = list.iter().flat_map(|each| [each[0], each[1]]).collect();
        requests.extend(random.chance(1, 2).then(|| random.next()));
        let answers: Vec<u64> = list.iter().map(|each| each[2]).collect();
        let room = answers.len() + random.pick(&[0, 0, 1, 9]);
        self.many(words, bits, &requests, room, Some(&answers), random, counts)
    }

    /// The tables of the form, with lengths of words and bits around those needed.
    fn given(&self, random: &mut Random, counts: &mut Counts) -> Result<(), Difference> {
        let judged = self.judged.expect("an accepted file");
        let (needed, needed_bits) = (judged.needed, judged.needed_bits());
        let (less, less_bits) = (needed.saturating_sub(1), needed_bits.saturating_sub(1));
        for (words, bits) in [
            (0, needed_bits),
            (less, less_bits),
            (needed, 0),
            (needed + 1, less_bits),
            (needed, needed_bits),
            (
                needed + random.between(1, 9),
                needed_bits + random.between(1, 9),
            ),
        ] {
            self.tables(words, bits, random, counts)?;
        }
        Ok(())
    }

    /// Traces and lists with every length around the needed one.
    fn lengths(
        &self,
        tables: &Tables,
        random: &mut Random,
        counts: &mut Counts,
    ) -> Result<(), Difference> {
        let judged = self.judged.expect("an accepted file");
        let around = |needed: usize| [needed, needed.saturating_sub(1)];
        for words in around(judged.needed) {
            for bits in around(judged.needed_bits()) {
                let words = &tables.words.read()[..words];
                let bits = &tables.bits.read()[..bits];
                for room in around(judged.expanders()) {
                    let request = self.wild_request(words, random);
                    self.single_over(tables, words, bits, request, room, random, counts)?;
                }
                let requests = self.wild(words, random.between(1, 3), random);
                for room in around(requests.len() / 2) {
                    self.many(words, bits, &requests, room, None, random, counts)?;
                }
            }
        }
        Ok(())
    }

    // Requests.

    /// Table words: addresses of the domain, zeros and others.
    fn table_words(&self, length: usize, random: &mut Random) -> Vec<u64> {
        (0..length).map(|_| self.address(&[], random)).collect()
    }

    /// An address: zero, any, one of the form or one of these words.
    fn address(&self, words: &[u64], random: &mut Random) -> u64 {
        let form = self.lent.read();
        match random.below(8) {
            0 => 0,
            1 => random.next(),
            2 | 3 if !words.is_empty() => random.pick(words),
            _ if !form.is_empty() => form[random.below(form.len()) & !1],
            _ => 1,
        }
    }

    fn wild_request(&self, words: &[u64], random: &mut Random) -> Request {
        let wild = self.wild(words, 1, random);
        let [start, arrival] = (wild[0] as u16).to_be_bytes();
        Request {
            start,
            arrival,
            address: wild[1],
        }
    }

    /// Requests of a list, with starts in and out of range, and at times a word more.
    fn wild(&self, words: &[u64], count: usize, random: &mut Random) -> Vec<u64> {
        let mut requests = Vec::new();
        for _ in 0..count {
            let (start, arrival) = self.start(random);
            let start = u64::from(start) * 256 + u64::from(arrival);
            requests.push(match random.below(10) {
                0 => random.next() >> random.below(48),
                1 => start + (1 << random.between(16, 63)),
                _ => start,
            });
            requests.push(self.address(words, random));
        }
        if count > 1 && random.chance(1, 3) {
            requests.push(random.next());
        }
        requests
    }

    /// Start and arrival phy, of which most are allowed.
    fn start(&self, random: &mut Random) -> (u8, u8) {
        let Ok(judged) = self.judged else {
            return (random.below(3) as u8, random.pick(&[255, 0, 1, 2]));
        };
        let count = judged.expanders();
        let start = match random.below(10) {
            0 => random.pick(&[count as u8, 64, 255]),
            _ => random.below(count) as u8,
        };
        let Some(expander) = judged.domain.expanders.get(&start) else {
            return (start, 255);
        };
        let drives: Vec<u8> = expander
            .phys
            .iter()
            .filter(|(_, phy)| matches!(phy.attached, Attached::EndDevice(_)))
            .map(|(&number, _)| number)
            .collect();
        match random.below(8) {
            0 => (start, random.below(usize::from(expander.count) + 1) as u8),
            1 => (start, random.byte()),
            2..=4 if !drives.is_empty() => (start, random.pick(&drives)),
            _ => (start, 255),
        }
    }

    // The calls.

    fn tables(
        &self,
        length: usize,
        bytes: usize,
        random: &mut Random,
        counts: &mut Counts,
    ) -> Result<(), Difference> {
        let mut words = Lent::new(length, || random.next());
        let mut bits = Lent::new(bytes, || random.byte());
        let made = self.judged.and_then(|judged| tables(judged, length, bytes));
        let (expected, given, disabled) = match made {
            Err(refusal) => (refusal.answer(), Vec::new(), Vec::new()),
            Ok((given, disabled)) => {
                let judged = self.judged.expect("tables are given");
                (judged.table_answer(), given, disabled)
            }
        };
        let after = (words.after(&given), bits.after(&disabled));
        let got =
            self.subject
                .compact_tables(self.setting, self.lent.read(), words.part(), bits.part());
        counts.answer("compact_tables", expected);
        let call = format!("compact_tables, {length} words, {bytes} bytes of disable bits");
        same(|| self.text(&call), expected, got)?;
        words.check(|| self.text(&call), &after.0)?;
        bits.check(|| format!("{}, disable bits", self.text(&call)), &after.1)?;
        self.kept(&call)
    }

    /// A trace over words and bits of its own.
    fn single(
        &self,
        words: &[u64],
        bits: &[u8],
        request: Request,
        room: usize,
        random: &mut Random,
        counts: &mut Counts,
    ) -> Result<(), Difference> {
        let made = self
            .judged
            .and_then(|judged| trace(judged, words, bits, request, room));
        self.compare_single(words, bits, request, room, made, random, counts)
    }

    /// A trace over words and bits whose routes are known.
    #[allow(clippy::too_many_arguments)]
    fn single_over(
        &self,
        tables: &Tables,
        words: &[u64],
        bits: &[u8],
        request: Request,
        room: usize,
        random: &mut Random,
        counts: &mut Counts,
    ) -> Result<(), Difference> {
        let Request {
            start,
            arrival,
            address,
        } = request;
        let judged = self.judged.expect("an accepted file");
        let made = judged
            .test_request(words.len(), bits.len(), start, arrival, address, room)
            .map(|()| {
                let routes = tables.routes.as_ref().expect("as many words as needed");
                judged.trace(routes, start, arrival, address)
            });
        self.compare_single(words, bits, request, room, made, random, counts)
    }

    #[allow(clippy::too_many_arguments)]
    fn compare_single(
        &self,
        words: &[u64],
        bits: &[u8],
        request: Request,
        room: usize,
        made: Result<Trace, Refusal>,
        random: &mut Random,
        counts: &mut Counts,
    ) -> Result<(), Difference> {
        let mut passed = Lent::new(room, || random.byte());
        let (expected, after) = match made {
            Err(refusal) => (refusal.answer(), passed.after(&[])),
            Ok(trace) => (trace.answer(), passed.after(&trace.passed)),
        };
        let got = self.subject.compact_trace(
            self.setting,
            self.lent.read(),
            words,
            bits,
            request.start,
            request.arrival,
            request.address,
            passed.part(),
        );
        counts.answer("compact_trace", expected);
        let what = || {
            let (length, bytes) = (words.len(), bits.len());
            let lent = format!("{length} words, {bytes} bytes of disable bits, {room} bytes");
            self.text(&format!("compact_trace, {}, {lent}", request.text()))
        };
        same(what, expected, got)?;
        passed.check(what, &after)
    }

    /// A list of requests, whose answers the reference finds where they are not known.
    #[allow(clippy::too_many_arguments)]
    fn many(
        &self,
        words: &[u64],
        bits: &[u8],
        requests: &[u64],
        room: usize,
        known: Option<&[u64]>,
        random: &mut Random,
        counts: &mut Counts,
    ) -> Result<(), Difference> {
        let made = match known {
            Some(answers) => Ok(answers.to_vec()),
            None => {
                (self.judged).and_then(|judged| trace_many(judged, words, bits, requests, room))
            }
        };
        let lent = lent(requests);
        let before = lent.after(&[]);
        let mut answers = Lent::new(room, || random.next());
        let (expected, written) = match made {
            Err(refusal) => (refusal.answer(), Vec::new()),
            Ok(answers) => (answers.len() as u64, answers),
        };
        let after = answers.after(&written);
        let got = self.subject.compact_trace_many(
            self.setting,
            self.lent.read(),
            words,
            bits,
            lent.read(),
            answers.part(),
        );
        counts.answer("compact_trace_many", expected);
        counts.list(&written);
        let what = || {
            let count = requests.len();
            let (length, bytes) = (words.len(), bits.len());
            let lent = format!("{length} words, {bytes} bytes of disable bits, {room} answers");
            let shown: Vec<String> = (requests.iter().take(24))
                .map(|word| format!("{word:x}"))
                .collect();
            let list = shown.join(" ");
            self.text(&format!(
                "compact_trace_many, {lent}, {count} words of requests {list}"
            ))
        };
        same(what, expected, got)?;
        answers.check(what, &after)?;
        lent.check(|| format!("{}, the requests", what()), &before)
    }
}
