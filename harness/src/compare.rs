//! Compares one implementation of the calls with the reference on one file and
//! on frames, with every byte and word of every lent buffer.

use std::collections::BTreeMap;
use std::fmt::{Debug, Write};

use crate::calls::Calls;
use crate::events;
use crate::generate;
use crate::joins;
use crate::random::Random;
use crate::reference::{
    self, Discover, General, Judged, Outcome, Refusal, Route, Setting, Step, Trace,
};
use crate::traces::Traces;

/// Bytes or words kept before and behind each lent buffer.
const EDGE: usize = 16;

/// Tables longer than this many words are not written out.
pub const MOST_WORDS: usize = 3_000_000;

pub struct Difference {
    pub what: String,
    pub expected: String,
    pub got: String,
}

impl Difference {
    /// The difference, with the setting of its call.
    pub fn under(self, setting: u32) -> Difference {
        Difference {
            what: format!("setting {setting:08x}h: {}", self.what),
            ..self
        }
    }
}

/// What a run reached.
#[derive(Clone, Default)]
pub struct Counts {
    pub calls: u64,
    /// Refusals by call and number.
    pub refusals: BTreeMap<(&'static str, u8), u64>,
    /// Files that the judging call refuses, by number.
    pub refused_files: [u64; 25],
    pub accepted_files: u64,
    /// Accepted files by their traces: all requests, a sample, none because the
    /// tables are too long.
    pub whole_files: u64,
    pub sampled_files: u64,
    pub untraced_files: u64,
    pub wired_files: u64,
    pub frames: u64,
    pub outcomes: [u64; 3],
    /// Traces that end otherwise than over the tables given, by a disable bit.
    pub switched: u64,
    /// Files that have a form; other words as a form, and those that are one.
    pub forms: u64,
    pub other_forms: u64,
    pub other_forms_accepted: u64,
    /// Requests in lists, and those refused with 15 and with 17.
    pub listed: u64,
    pub list_refusals: [u64; 2],
    pub longest_trace: u64,
    pub largest_file: u64,
    pub shelves: u64,
    pub shelf_frames: u64,
    /// Function results of shelves, in the order of `shelves::RESULTS`.
    pub shelf_results: [u64; 4],
    /// What a fresh shelf cannot be told (3).
    pub shelf_refusals: u64,
    /// Files that have a card, and cards that were spoiled.
    pub cards: u64,
    pub spoiled_cards: u64,
    /// Accepted files compared with the ones made of their cards under another setting,
    /// which accepts or refuses them.
    pub converted: [u64; 2],
    pub events: events::Reached,
    pub joins: joins::Reached,
    /// Solutions of which a file was made, and tables of accepted rigs among them.
    pub solutions: u64,
    pub exercises: u64,
    /// Steps by their rule, (i) to (v), and those that are BAD DESTINATION.
    pub rules: [u64; 5],
    pub bad_steps: u64,
    /// Traces followed by steps.
    pub walks: u64,
}

impl Counts {
    pub fn add(&mut self, other: &Counts) {
        self.calls += other.calls;
        self.accepted_files += other.accepted_files;
        self.whole_files += other.whole_files;
        self.sampled_files += other.sampled_files;
        self.untraced_files += other.untraced_files;
        self.wired_files += other.wired_files;
        self.frames += other.frames;
        self.forms += other.forms;
        self.other_forms += other.other_forms;
        self.other_forms_accepted += other.other_forms_accepted;
        self.listed += other.listed;
        for (sum, more) in self.list_refusals.iter_mut().zip(other.list_refusals) {
            *sum += more;
        }
        self.switched += other.switched;
        self.shelves += other.shelves;
        self.cards += other.cards;
        self.events.add(&other.events);
        self.joins.add(&other.joins);
        self.spoiled_cards += other.spoiled_cards;
        for (sum, more) in self.converted.iter_mut().zip(other.converted) {
            *sum += more;
        }
        self.solutions += other.solutions;
        self.exercises += other.exercises;
        self.shelf_frames += other.shelf_frames;
        self.shelf_refusals += other.shelf_refusals;
        for (sum, more) in self.shelf_results.iter_mut().zip(other.shelf_results) {
            *sum += more;
        }
        self.bad_steps += other.bad_steps;
        self.walks += other.walks;
        for (sum, more) in self.rules.iter_mut().zip(other.rules) {
            *sum += more;
        }
        self.add_refusals(other);
        for (sum, more) in self.refused_files.iter_mut().zip(other.refused_files) {
            *sum += more;
        }
        for (sum, more) in self.outcomes.iter_mut().zip(other.outcomes) {
            *sum += more;
        }
        self.longest_trace = self.longest_trace.max(other.longest_trace);
        self.largest_file = self.largest_file.max(other.largest_file);
    }

    fn add_refusals(&mut self, other: &Counts) {
        for (&pair, more) in &other.refusals {
            *self.refusals.entry(pair).or_default() += more;
        }
    }

    /// The answer of a call.
    pub fn answer(&mut self, call: &'static str, answer: u64) {
        self.calls += 1;
        if answer >> 63 == 1 {
            let number = (answer >> 16) as u8;
            *self.refusals.entry((call, number)).or_default() += 1;
        }
    }

    /// Refusals with this number, in all calls.
    pub fn refused_with(&self, number: u8) -> u64 {
        let all = self.refusals.iter();
        let with = all.filter(|((_, each), _)| *each == number);
        with.map(|(_, calls)| calls).sum()
    }

    /// The refusals of one call: number and how many.
    pub fn refusals_of(&self, call: &'static str) -> Vec<(u8, u64)> {
        let of = self.refusals.range((call, 0)..=(call, u8::MAX));
        of.map(|(&(_, number), &calls)| (number, calls)).collect()
    }

    /// The answers to a list of requests.
    pub fn list(&mut self, answers: &[u64]) {
        self.listed += answers.len() as u64;
        for answer in answers.iter().filter(|&answer| answer >> 63 == 1) {
            self.list_refusals[(answer >> 16 & 0xff != 15) as usize] += 1;
        }
    }

    pub fn step(&mut self, step: &Step) {
        self.rules[usize::from(step.rule) - 1] += 1;
        self.bad_steps += step.bad as u64;
    }

    pub fn trace(&mut self, trace: &Trace) {
        self.outcomes[match trace.outcome {
            Outcome::Arrived => 0,
            Outcome::NoDestination => 1,
            Outcome::BadDestination => 2,
        }] += 1;
        self.longest_trace = self.longest_trace.max(trace.passed.len() as u64);
    }
}

/// An answer in words.
pub fn describe(answer: u64) -> String {
    if answer >> 63 == 1 {
        format!(
            "{answer:016x}h (refused {} {} {})",
            answer >> 16 & 0xffff_ffff,
            answer >> 8 & 0xff,
            answer & 0xff
        )
    } else {
        format!("{answer:016x}h")
    }
}

/// A buffer to lend, with known content in it and on both sides of it.
pub struct Lent<T> {
    all: Vec<T>,
    length: usize,
}

impl Lent<u8> {
    /// A copy of what a call only reads.
    pub fn of(content: &[u8]) -> Lent<u8> {
        let mut lent = Lent::new(content.len(), || 0xa5);
        lent.part().copy_from_slice(content);
        lent
    }
}

impl<T: Copy + PartialEq + Debug> Lent<T> {
    pub fn new(length: usize, fill: impl FnMut() -> T) -> Lent<T> {
        let mut fill = fill;
        Lent {
            all: (0..length + 2 * EDGE).map(|_| fill()).collect(),
            length,
        }
    }

    pub fn part(&mut self) -> &mut [T] {
        &mut self.all[EDGE..EDGE + self.length]
    }

    pub fn read(&self) -> &[T] {
        &self.all[EDGE..EDGE + self.length]
    }

    /// Everything as it should be after `written` went into the first places.
    pub fn after(&self, written: &[T]) -> Vec<T> {
        let mut all = self.all.clone();
        all[EDGE..EDGE + written.len()].copy_from_slice(written);
        all
    }

    pub fn check(&self, what: impl FnOnce() -> String, expected: &[T]) -> Result<(), Difference> {
        match self.all.iter().zip(expected).position(|(a, b)| a != b) {
            None => Ok(()),
            Some(place) => Err(Difference {
                what: format!(
                    "{}: buffer of length {}, place {}",
                    what(),
                    self.length,
                    place as i64 - EDGE as i64
                ),
                expected: format!("{:x?}", expected[place]),
                got: format!("{:x?}", self.all[place]),
            }),
        }
    }

    /// What the first places hold; everything else has to be as before.
    pub fn written(
        &self,
        what: impl FnOnce() -> String,
        before: &[T],
        count: usize,
    ) -> Result<Vec<T>, Difference> {
        let places = EDGE..EDGE + count.min(self.length);
        let mut expected = before.to_vec();
        expected[places.clone()].copy_from_slice(&self.all[places.clone()]);
        self.check(what, &expected)?;
        Ok(self.all[places].to_vec())
    }
}

pub fn same(what: impl FnOnce() -> String, expected: u64, got: u64) -> Result<(), Difference> {
    if expected == got {
        return Ok(());
    }
    Err(Difference {
        what: what(),
        expected: describe(expected),
        got: describe(got),
    })
}

/// The calls that take a file, under a setting.
pub struct Check<'a> {
    pub subject: &'a dyn Calls,
    pub setting: u32,
    pub file: &'a [u8],
}

impl Check<'_> {
    /// All of them.
    pub fn whole(&self, random: &mut Random, counts: &mut Counts) -> Result<(), Difference> {
        counts.largest_file = counts.largest_file.max(self.file.len() as u64);
        if let Some(judged) = self.answers(MOST_WORDS, random, counts)? {
            let Check {
                subject,
                setting,
                file,
            } = *self;
            Traces::of(subject, setting, file, &judged, random).check(random, counts)?;
        }
        Ok(())
    }

    /// Under another setting, without traces of an accepted file.
    pub fn other(&self, random: &mut Random, counts: &mut Counts) -> Result<(), Difference> {
        // Files are counted under one setting only.
        let mut other = Counts::default();
        self.answers(10_000, random, &mut other)?;
        counts.calls += other.calls;
        counts.add_refusals(&other);
        Ok(())
    }

    /// All but traces of an accepted file, whose reading is given; tables of more
    /// words than `most` are not written out.
    fn answers(
        &self,
        most: usize,
        random: &mut Random,
        counts: &mut Counts,
    ) -> Result<Option<Judged>, Difference> {
        let wired = reference::wired(self.setting, self.file);
        self.wire(&wired, random, counts)?;
        let judged = wired.and_then(|domain| domain.judge(Setting::read(self.setting)?));
        self.judge(&judged, counts)?;
        self.word_places(&judged, &mut random.aside(), counts)?;
        match &judged {
            Err(refusal) => self.refused(*refusal, random, counts)?,
            Ok(judged) if judged.needed <= most => self.tables(judged, random, counts)?,
            Ok(judged) => self.too_long(judged, random, counts)?,
        }
        Ok(judged.ok())
    }

    fn wire(
        &self,
        wired: &Result<reference::Domain, Refusal>,
        random: &mut Random,
        counts: &mut Counts,
    ) -> Result<(), Difference> {
        let (neighbours, bits) = match wired {
            Ok(domain) => domain.neighbour_words(),
            Err(_) => (Vec::new(), 0),
        };
        counts.wired_files += wired.is_ok() as u64;
        let needed = neighbours.len();
        let lengths = match wired {
            Ok(_) => vec![
                0,
                needed - 1,
                needed,
                needed + 1,
                random.between(needed, 70),
            ],
            Err(_) => vec![random.below(70)],
        };
        for length in lengths {
            let mut words = Lent::new(length, || random.next());
            let (expected, after) = match wired {
                Err(refusal) => (refusal.answer(), words.after(&[])),
                Ok(_) if length < needed => (refused(16), words.after(&[])),
                Ok(_) => (bits, words.after(&neighbours)),
            };
            let got = self.subject.wire(self.setting, self.file, words.part());
            counts.answer("wire", expected);
            same(|| format!("wire, {length} words"), expected, got)?;
            words.check(|| "wire".into(), &after)?;
        }
        Ok(())
    }

    fn judge(
        &self,
        judged: &Result<Judged, Refusal>,
        counts: &mut Counts,
    ) -> Result<(), Difference> {
        let expected = match judged {
            Ok(judged) => judged.expanders() as u64,
            Err(refusal) => refusal.answer(),
        };
        match judged {
            Ok(_) => counts.accepted_files += 1,
            Err(refusal) => counts.refused_files[usize::from(refusal.number)] += 1,
        }
        counts.answer("judge", expected);
        let got = self.subject.judge(self.setting, self.file);
        same(|| "judge".into(), expected, got)?;
        let expected = match judged {
            Ok(judged) => judged.table_answer(),
            Err(refusal) => refusal.answer(),
        };
        counts.answer("needed", expected);
        let got = self.subject.needed(self.setting, self.file);
        same(|| "needed".into(), expected, got)
    }

    /// The places of table words: the first, the last, those at the borders of
    /// tables, any, and numbers that no word has.
    fn word_places(
        &self,
        judged: &Result<Judged, Refusal>,
        random: &mut Random,
        counts: &mut Counts,
    ) -> Result<(), Difference> {
        let mut numbers = vec![random.next() >> random.below(64), 0];
        if let Ok(judged) = judged {
            let needed = judged.needed as u64;
            numbers.extend([needed, 1 << 63, (1 << 32) + random.next() % (needed + 1)]);
            let borders = judged.borders();
            let mut any = || random.pick(&borders) as u64;
            if needed > 0 {
                let (first, last) = (any(), any().saturating_sub(1));
                numbers.extend([needed - 1, random.next() % needed, first, last]);
            }
        }
        for k in numbers {
            let expected = match judged {
                Ok(judged) => judged.place_answer(k),
                Err(refusal) => refusal.answer(),
            };
            counts.answer("word_place", expected);
            let got = self.subject.word_place(self.setting, self.file, k);
            same(|| format!("word_place {k}"), expected, got)?;
        }
        Ok(())
    }

    /// The table, trace and step calls on a file that is refused.
    fn refused(
        &self,
        refusal: Refusal,
        random: &mut Random,
        counts: &mut Counts,
    ) -> Result<(), Difference> {
        let length = random.pick(&[0, 1, 5, 40, 300]);
        let mut words = Lent::new(length, || random.next());
        let mut bits = Lent::new(random.pick(&[0, 1, 5, 40]), || random.byte());
        self.table_call(refusal.answer(), &mut words, &[], &mut bits, &[], counts)?;

        let start = random.pick(&[0, 0, 1, 63, 64, 255]);
        let arrival = random.pick(&[255, 255, 0, 1, 127, 128]);
        let address = (random.below(3) as u64).wrapping_mul(random.next());
        let mut passed = Lent::new(random.pick(&[0, 1, 3, 64, 70]), || random.byte());
        let kept = (words.after(&[]), bits.after(&[]), passed.after(&[]));
        let expected = refusal.answer();
        let got = self.subject.trace(
            self.setting,
            self.file,
            words.read(),
            bits.read(),
            start,
            arrival,
            address,
            passed.part(),
        );
        counts.answer("trace", expected);
        same(
            || format!("trace, {length} words, start {start}, arrival {arrival}, {address:016x}h"),
            expected,
            got,
        )?;
        passed.check(|| "trace, passed".into(), &kept.2)?;
        let got = self.subject.step(
            self.setting,
            self.file,
            words.read(),
            bits.read(),
            start,
            arrival,
            address,
        );
        counts.answer("step", expected);
        same(
            || {
                format!(
                    "step, {length} words, expander {start}, arrival {arrival}, {address:016x}h"
                )
            },
            expected,
            got,
        )?;
        words.check(|| "trace or step, words".into(), &kept.0)?;
        bits.check(|| "trace or step, disable bits".into(), &kept.1)
    }

    /// The table call with an expected answer, and what it is expected to write.
    fn table_call(
        &self,
        expected: u64,
        words: &mut Lent<u64>,
        written: &[u64],
        bits: &mut Lent<u8>,
        written_bits: &[u8],
        counts: &mut Counts,
    ) -> Result<(), Difference> {
        let after = (words.after(written), bits.after(written_bits));
        let (length, bytes) = (words.read().len(), bits.read().len());
        let what = || format!("tables, {length} words, {bytes} bytes of disable bits");
        let got = self
            .subject
            .tables(self.setting, self.file, words.part(), bits.part());
        counts.answer("tables", expected);
        same(what, expected, got)?;
        words.check(|| format!("{}, words", what()), &after.0)?;
        bits.check(|| format!("{}, disable bits", what()), &after.1)
    }

    /// Words and disable bits: exactly enough, one less, more, and none.
    fn tables(
        &self,
        judged: &Judged,
        random: &mut Random,
        counts: &mut Counts,
    ) -> Result<(), Difference> {
        let (needed, needed_bits) = (judged.needed, judged.needed_bits());
        let (less, less_bits) = (needed.saturating_sub(1), needed_bits.saturating_sub(1));
        let words = judged.table_words();
        let bits = reference::disable_bits(&words);
        for (length, bytes) in [
            (0, needed_bits),
            (less, needed_bits + 1),
            (less, less_bits),
            (needed, 0),
            (needed, less_bits),
            (needed + 9, less_bits),
            (needed, needed_bits),
            (needed, needed_bits + 1),
            (needed + 1, needed_bits),
            (
                needed + random.between(2, 20),
                needed_bits + random.between(2, 20),
            ),
        ] {
            let mut lent = Lent::new(length, || random.next());
            let mut lent_bits = Lent::new(bytes, || random.byte());
            let (expected, written, written_bits) = if length < needed {
                (refused(16), &[][..], &[][..])
            } else if bytes < needed_bits {
                (refused(18), &[][..], &[][..])
            } else {
                (judged.table_answer(), &words[..], &bits[..])
            };
            self.table_call(
                expected,
                &mut lent,
                written,
                &mut lent_bits,
                written_bits,
                counts,
            )?;
        }
        Ok(())
    }

    /// Fewer words than tables have that are too long to be written out.
    fn too_long(
        &self,
        judged: &Judged,
        random: &mut Random,
        counts: &mut Counts,
    ) -> Result<(), Difference> {
        for length in [0, random.below(100), judged.needed.min(MOST_WORDS) - 1] {
            let mut words = Lent::new(length, || random.next());
            let mut bits = Lent::new(random.below(20), || random.byte());
            self.table_call(refused(16), &mut words, &[], &mut bits, &[], counts)?;
        }
        Ok(())
    }
}

fn refused(number: u8) -> u64 {
    Refusal {
        number,
        expander: 0,
        phy: 0,
    }
    .answer()
}

/// The calls that read or write one frame.
pub fn check_frame(
    subject: &dyn Calls,
    random: &mut Random,
    counts: &mut Counts,
) -> Result<(), Difference> {
    counts.frames += 1;
    let frame = generate::frame(random);
    let lent = Lent::of(&frame);
    let read = lent.read();
    let what = |call: &str| format!("{call} of {}", hex(&frame));
    let own = Discover::addresses(&frame);
    let route = Route::read(&frame);
    let checks = [
        (
            "read_general",
            General::answer(&frame),
            subject.read_general(read),
        ),
        (
            "read_general_sas2",
            General::answer_sas2(&frame),
            subject.read_general_sas2(read),
        ),
        (
            "read_discover",
            Discover::answer(&frame),
            subject.read_discover(read),
        ),
        ("discover_own", own.0, subject.discover_own(read)),
        ("discover_attached", own.1, subject.discover_attached(read)),
        (
            "read_route",
            route.map_or_else(Refusal::answer, Route::answer),
            subject.read_route(read),
        ),
        (
            "read_route_address",
            route.map_or(0, |route| route.address),
            subject.read_route_address(read),
        ),
    ];
    for (call, expected, got) in checks {
        if !call.starts_with("discover") && call != "read_route_address" {
            counts.answer(call, expected);
        }
        same(|| what(call), expected, got)?;
    }
    lent.check(|| what("the frame of a read call"), &Lent::of(&frame).all)?;

    let route = Route {
        length: match random.below(4) {
            0 => random.pick(&[1, 8, 10, 0x80, 0x90, 255]),
            1 => random.byte(),
            _ => random.pick(&[0x00, 0x09]),
        },
        phy: match random.below(4) {
            0 => random.pick(&[0, 1, 127, 128, 255]),
            1 => random.byte(),
            _ => random.below(128) as u8,
        },
        index: random.next() as u16,
        address: match random.below(4) {
            0 => 0,
            1 => 1 << random.below(64),
            _ => random.next(),
        },
        disabled: random.chance(1, 2),
    };
    // Any value but 0 is a set bit.
    let disabled = match route.disabled {
        true => random.pick(&[1, 1, 2, 0x7f, 0x80, 255]),
        false => 0,
    };
    let length = match random.below(5) {
        0 => random.below(40),
        1 => 39,
        2 => 40,
        _ => random.between(40, 90),
    };
    let mut buf = Lent::new(length, || random.byte());
    let (expected, after) = match route.write(length) {
        Ok(written) => (40, buf.after(&written)),
        Err(refusal) => (refusal.answer(), buf.after(&[])),
    };
    let got = subject.write_route(
        buf.part(),
        route.length,
        route.phy,
        route.index,
        route.address,
        disabled,
    );
    counts.answer("write_route", expected);
    let what = || format!("write_route of {route:x?} by {disabled}, {length} bytes");
    same(what, expected, got)?;
    buf.check(what, &after)?;
    if expected == 40 {
        // What was written reads back.
        let frame = &buf.part()[..40];
        same(
            || "read_route of a written frame".into(),
            route.answer(),
            subject.read_route(frame),
        )?;
        same(
            || "read_route_address of a written frame".into(),
            route.address,
            subject.read_route_address(frame),
        )?;
    }
    Ok(())
}

pub fn hex(bytes: &[u8]) -> String {
    let mut text = String::with_capacity(bytes.len() * 2);
    for byte in bytes {
        let _ = write!(text, "{byte:02x}");
    }
    text
}
