//! Files and frames with the answers that documents 01 and 02 give, written by
//! hand.

use crate::calls::Calls;
use crate::compare::{hex, same, Difference, Lent};
use crate::events;
use crate::generate::WIDEST;
use crate::joins;
use crate::layout::*;
use crate::shelves::Words;
use crate::steps::walk;
use metzurgo::codes;
use metzurgo::raw::SHELF_WORDS;

// Addresses of the pair rig.
const X10: u64 = 0x5000_0000_0000_0010;
const X20: u64 = 0x5000_0000_0000_0020;
const A1: u64 = 0x5000_0000_0000_00a1;
const B1: u64 = 0x5000_0000_0000_00b1;
const FF: u64 = 0x5000_0000_0000_00ff;
/// An end device that the pair rig does not have.
const C1: u64 = 0x5000_0000_0000_00c1;

/// The address of expander `number` in the other files.
pub const fn e(number: usize) -> u64 {
    0x5000_0000_0000_0100 + number as u64
}

/// The address of the end device at a phy in the other files.
pub const fn d(expander: usize, phy: usize) -> u64 {
    0x6000_0000_0000_0000 + 256 * expander as u64 + phy as u64
}

/// A setting as the calls take it: most expanders, most phys, longest chain.
const fn course(expanders: u32, phys: u32, chain: u32) -> u32 {
    expanders * 65536 + phys * 256 + chain
}

fn refused(number: u64, expander: u64, phy: u64) -> u64 {
    0x8000_0000_0000_0000 + number * 65536 + expander * 256 + phy
}

fn arrived(last: u64, phy: u64, count: u64) -> u64 {
    last * 65536 + phy * 256 + count
}

fn no_destination(last: u64, count: u64) -> u64 {
    0x0100_0000 + last * 65536 + 255 * 256 + count
}

fn bad_destination(last: u64, count: u64) -> u64 {
    0x0200_0000 + last * 65536 + 255 * 256 + count
}

/// The answer of a step: the rule, what it picks and where the request goes on.
fn stepped(rule: u64, phy: u64, index: u64, (next, arrival): (u64, u64)) -> u64 {
    rule * 0x100_0000_0000 + phy * 0x1_0000_0000 + index * 0x1_0000 + next * 256 + arrival
}

/// No next expander and arrival phy.
const END: (u64, u64) = (255, 255);

/// No route index.
const NO_INDEX: u64 = 65535;

/// (i)
fn itself() -> u64 {
    stepped(1, 255, NO_INDEX, END)
}

/// (ii), (iii) and (iv)
fn attached(phy: u64, next: (u64, u64)) -> u64 {
    stepped(2, phy, NO_INDEX, next)
}

fn listed(phy: u64, index: u64, next: (u64, u64)) -> u64 {
    stepped(3, phy, index, next)
}

fn upward(phy: u64, next: (u64, u64)) -> u64 {
    stepped(4, phy, NO_INDEX, next)
}

/// (v)
fn nothing() -> u64 {
    stepped(5, 255, NO_INDEX, END)
}

/// BAD DESTINATION in place of moving on or arriving.
const BAD: u64 = 0x1_0000_0000_0000;

fn counts(tables: u64, words: u64) -> u64 {
    tables * 0x1_0000_0000 + words
}

/// The disable bits of these words as the table call gives them.
fn zero_bits(words: &[u64]) -> Vec<u8> {
    let mut bits = vec![0; words.len().div_ceil(8)];
    for (k, _) in words.iter().enumerate().filter(|&(_, &word)| word == 0) {
        bits[k / 8] |= 0x80 >> (k % 8);
    }
    bits
}

/// The card of the pair rig, bit by bit.
pub fn pair_card() -> Vec<u8> {
    let address = |last: &str| format!("0101{}{last}", "0".repeat(52));
    let (top, bottom) = (address("00010000"), address("00100000"));
    let bits = [
        // version, 2 expanders less 1, zeros
        "0010 000001 000000".into(),
        // expander 0: address, R 4, configurable, 2 phys less 1
        top.clone(),
        "0000000000000100 1 0000001".into(),
        // phy 0: type 2, table, to expander 1 phy 0
        format!("1 010 10 {bottom} 00000000"),
        // phy 1: type 1, direct, to drive A1
        format!("1 001 00 {} 00000000", address("10100001")),
        // expander 1: address, R 0, not configurable, 3 phys less 1
        bottom.clone(),
        "0000000000000000 0 0000010".into(),
        // phy 0: type 2, subtractive, to expander 0 phy 0
        format!("1 010 01 {top} 00000000"),
        // phy 1: type 1, direct, to drive B1
        format!("1 001 00 {} 00000000", address("10110001")),
        // phy 2: nothing attached, direct
        "1 000 00".into(),
        // fill
        "00".into(),
    ];
    let digits = bits.concat().replace(' ', "");
    (0..64)
        .map(|byte| u8::from_str_radix(&digits[8 * byte..8 * byte + 8], 2).expect("bits"))
        .collect()
}

/// The compact form of the pair rig, word by word, and its tables and disable bits.
pub const PAIR_FORM: [u64; 14] = [
    // expander 0: address; R 4, 2 phys
    X10,
    0x0004_0200_0000_0000,
    // phy 0: type 2, table, to expander 1 phy 0
    X20,
    0x5020_0000_0000_0000,
    // phy 1: type 1, direct, to drive A1
    A1,
    0x2000_0000_0000_0000,
    // expander 1: address; R 0, 3 phys
    X20,
    0x0000_0300_0000_0000,
    // phy 0: type 2, subtractive, to expander 0 phy 0
    X10,
    0x4800_0000_0000_0000,
    // phy 1: type 1, direct, to drive B1
    B1,
    0x2000_0000_0000_0000,
    // phy 2: nothing attached, direct
    0,
    0,
];
const PAIR_WORDS: [u64; 4] = [B1, 0, 0, 0];
const PAIR_BITS: [u8; 1] = [0x70];

/// The pair rig of document 01, byte by byte.
pub fn pair_rig() -> Vec<u8> {
    let mut file = vec![0; 334];
    for (at, value) in [
        // header
        (0, 0x10),
        (1, 2),
        // expander 0: address, REPORT GENERAL with R 4, 2 phys, configurable
        (2, 0x50),
        (9, 0x10),
        (10, 0x41),
        (17, 4),
        (19, 2),
        (20, 1),
        // phy 0: table, to expander 1 phy 0
        (38, 0x41),
        (39, 0x10),
        (50, 0x20),
        (54, 0x50),
        (61, 0x10),
        (62, 0x50),
        (69, 0x20),
        (82, 2),
        // phy 1: direct, to drive A1h
        (90, 0x41),
        (91, 0x10),
        (99, 1),
        (102, 0x10),
        (106, 0x50),
        (113, 0x10),
        (114, 0x50),
        (121, 0xa1),
        // expander 1: address, REPORT GENERAL with R 0, 3 phys
        (142, 0x50),
        (149, 0x20),
        (150, 0x41),
        (159, 3),
        // phy 0: subtractive, to expander 0 phy 0
        (178, 0x41),
        (179, 0x10),
        (190, 0x20),
        (194, 0x50),
        (201, 0x20),
        (202, 0x50),
        (209, 0x10),
        (222, 1),
        // phy 1: direct, to drive B1h
        (230, 0x41),
        (231, 0x10),
        (239, 1),
        (242, 0x10),
        (246, 0x50),
        (253, 0x20),
        (254, 0x50),
        (261, 0xb1),
        // phy 2: direct, empty
        (282, 0x41),
        (283, 0x10),
        (291, 2),
        (298, 0x50),
        (305, 0x20),
    ] {
        file[at] = value;
    }
    file
}

/// The pair rig as a plan, to be altered.
pub fn pair() -> DomainFile {
    DomainFile::of(vec![
        Expander::new(X10, 4, true)
            .link(TABLE, X20, 0)
            .drive(DIRECT, A1),
        Expander::new(X20, 0, false)
            .link(SUBTRACTIVE, X10, 0)
            .drive(DIRECT, B1)
            .empty(DIRECT),
    ])
}

fn pair_with(change: impl FnOnce(&mut Vec<Expander>)) -> Vec<u8> {
    let mut plan = pair();
    change(&mut plan.expanders);
    plan.bytes()
}

fn pair_bytes(change: impl FnOnce(&mut Vec<u8>)) -> Vec<u8> {
    let mut file = pair_rig();
    change(&mut file);
    file
}

fn file(expanders: Vec<Expander>) -> Vec<u8> {
    DomainFile::of(expanders).bytes()
}

/// The pair rig with some frames long: REPORT GENERAL of expander 0, and DISCOVER
/// of phy 0 of expander 0 and of phy 2 of expander 1.
fn mixed_pair() -> DomainFile {
    let mut plan = pair();
    plan.expanders[0].long = true;
    plan.expanders[0].phys[0].long = true;
    plan.expanders[1].phys[2].long = true;
    plan
}

/// 64 expanders with 128 phys each: a hub with 63 expanders; all other phys have
/// this attribute and end devices.
pub fn full_star(attribute: u8) -> Vec<u8> {
    file(star_of(attribute))
}

fn star_of(attribute: u8) -> Vec<Expander> {
    let mut hub = Expander::new(e(0), 127, true);
    for leaf in 1..64 {
        hub = hub.link(TABLE, e(leaf), 0);
    }
    for phy in 63..128 {
        hub = hub.drive(attribute, d(0, phy));
    }
    let mut expanders = vec![hub];
    for leaf in 1..64 {
        let mut expander = Expander::new(e(leaf), 1, true).link(SUBTRACTIVE, e(0), leaf as u8 - 1);
        for phy in 1..128 {
            expander = expander.drive(attribute, d(leaf, phy));
        }
        expanders.push(expander);
    }
    expanders
}

/// Runs all vectors; gives the number of answers compared.
pub fn run(subject: &dyn Calls) -> Result<usize, Difference> {
    let mut test = Test {
        subject,
        setting: WIDEST,
        count: 0,
    };
    test.headers()?;
    test.cuts()?;
    test.fixed_bytes()?;
    test.long_frames()?;
    test.response_lengths()?;
    test.counts_and_addresses()?;
    test.phy_fields()?;
    test.far_ends()?;
    test.end_devices()?;
    test.attributes()?;
    test.configurable()?;
    test.two_causes()?;
    test.self_cabled()?;
    test.loops()?;
    test.islands()?;
    test.table_to_table()?;
    test.rows_stars_rings()?;
    test.largest()?;
    test.settings()?;
    test.pair_rig()?;
    test.level_lists()?;
    test.tables()?;
    test.traces()?;
    test.disabled()?;
    test.trace_refusals()?;
    test.word_places()?;
    test.steps()?;
    test.step_refusals()?;
    test.pair_form()?;
    test.far_form()?;
    test.form_refusals()?;
    test.form_settings()?;
    test.form_traces()?;
    test.form_lists()?;
    test.largest_form()?;
    test.route_frames()?;
    test.single_frames()?;
    test.pair_card()?;
    test.card_refusals()?;
    test.card_settings()?;
    test.largest_card()?;
    test.exercises()?;
    test.no_exercises()?;
    test.shelves_told()?;
    test.shelf_results()?;
    test.shelf_entries()?;
    test.shelf_of_any_bytes()?;
    test.smp_utils()?;
    test.count += events::vectors(test.subject)?;
    test.count += joins::vectors(test.subject)?;
    Ok(test.count)
}

struct Test<'a> {
    subject: &'a dyn Calls,
    setting: u32,
    count: usize,
}

type Done = Result<(), Difference>;

impl Test<'_> {
    // ------------------------------------------------------------ helpers

    fn judge(&mut self, name: &str, file: &[u8], expected: u64) -> Done {
        self.count += 1;
        same(
            || format!("{name}: judge"),
            expected,
            self.subject.judge(self.setting, file),
        )
    }

    /// `words` is written into a longer buffer, the rest of which stays.
    fn wire(&mut self, name: &str, file: &[u8], bits: u64, words: &[u64]) -> Done {
        for longer in [0, 3] {
            self.count += 1;
            let mut lent = Lent::new(words.len() + longer, || 0x7777);
            let after = lent.after(words);
            let got = self.subject.wire(self.setting, file, lent.part());
            same(|| format!("{name}: wire"), bits, got)?;
            lent.check(|| format!("{name}: wire"), &after)?;
        }
        let mut lent = Lent::new(words.len() - 1, || 0x7777);
        let after = lent.after(&[]);
        self.count += 1;
        let got = self.subject.wire(self.setting, file, lent.part());
        same(
            || format!("{name}: wire, one word short"),
            refused(16, 0, 0),
            got,
        )?;
        lent.check(|| format!("{name}: wire, one word short"), &after)
    }

    fn wire_refused(&mut self, name: &str, file: &[u8], expected: u64) -> Done {
        self.count += 1;
        let mut lent = Lent::new(64, || 0x7777);
        let after = lent.after(&[]);
        let got = self.subject.wire(self.setting, file, lent.part());
        same(|| format!("{name}: wire"), expected, got)?;
        lent.check(|| format!("{name}: wire"), &after)
    }

    fn needed(&mut self, name: &str, file: &[u8], expected: u64) -> Done {
        self.count += 1;
        let got = self.subject.needed(self.setting, file);
        same(|| format!("{name}: needed"), expected, got)
    }

    fn word_place(&mut self, name: &str, file: &[u8], k: u64, expected: u64) -> Done {
        self.count += 1;
        let got = self.subject.word_place(self.setting, file, k);
        same(|| format!("{name}: word_place {k}"), expected, got)
    }

    /// The step of a request to an address at an expander and arrival phy.
    fn step(
        &mut self,
        name: &str,
        file: &[u8],
        (words, bits): (&[u64], &[u8]),
        (expander, arrival): (u8, u8),
        address: u64,
        expected: u64,
    ) -> Done {
        self.count += 1;
        let got = (self.subject).step(self.setting, file, words, bits, expander, arrival, address);
        let what = || format!("{name}: step at {expander}, arrival {arrival}, {address:016x}h");
        same(what, expected, got)
    }

    /// The judging, table, trace and step calls refuse.
    fn judge_refused(&mut self, name: &str, file: &[u8], expected: u64) -> Done {
        self.judge(name, file, expected)?;
        self.needed(name, file, expected)?;
        for k in [0, u64::MAX] {
            self.word_place(name, file, k, expected)?;
        }
        let mut words = Lent::new(9, || 0x7777);
        let mut bits = Lent::new(2, || 0x77);
        let after = words.after(&[]);
        let after_bits = bits.after(&[]);
        self.tables_lent(name, file, expected, (9, 2), None)?;

        let mut passed = Lent::new(64, || 0x77);
        let kept = passed.after(&[]);
        for (start, arrival, address) in [(0, 255, X20), (255, 7, 0)] {
            self.count += 1;
            let got = self.subject.trace(
                self.setting,
                file,
                words.part(),
                bits.part(),
                start,
                arrival,
                address,
                passed.part(),
            );
            same(|| format!("{name}: trace"), expected, got)?;
            words.check(|| format!("{name}: trace"), &after)?;
            bits.check(|| format!("{name}: trace"), &after_bits)?;
            passed.check(|| format!("{name}: trace"), &kept)?;
            let lent = (words.read(), bits.read());
            self.step(name, file, lent, (start, arrival), address, expected)?;
        }
        Ok(())
    }

    /// Every call on the file refuses (causes 1 to 10).
    fn refuses(&mut self, name: &str, file: &[u8], number: u64, expander: u64, phy: u64) -> Done {
        let expected = refused(number, expander, phy);
        self.wire_refused(name, file, expected)?;
        self.judge_refused(name, file, expected)
    }

    /// The tables, and the disable bits that follow from them.
    fn table_words(&mut self, name: &str, file: &[u8], tables: u64, words: &[u64]) -> Done {
        self.table_bits(name, file, tables, words, &zero_bits(words))
    }

    /// Words and bits are written into buffers as long, and into longer ones, the
    /// rest of which stays. With one word less the answer is 16, with all words and
    /// one byte of bits less it is 18.
    fn table_bits(
        &mut self,
        name: &str,
        file: &[u8],
        tables: u64,
        words: &[u64],
        bits: &[u8],
    ) -> Done {
        let expected = counts(tables, words.len() as u64);
        self.needed(name, file, expected)?;
        let (needed, bytes) = (words.len(), bits.len());
        for lengths in [(needed, bytes), (needed + 2, bytes), (needed, bytes + 3)] {
            self.tables_lent(name, file, expected, lengths, Some((words, bits)))?;
        }
        if needed > 0 {
            for lengths in [
                (needed - 1, bytes),
                (needed - 1, bytes - 1),
                (needed - 1, 0),
            ] {
                self.tables_lent(name, file, refused(16, 0, 0), lengths, None)?;
            }
            for lengths in [(needed, bytes - 1), (needed + 8, bytes - 1), (needed, 0)] {
                self.tables_lent(name, file, refused(18, 0, 0), lengths, None)?;
            }
        }
        Ok(())
    }

    /// The table call with so many words and bytes of disable bits, and what it
    /// writes.
    fn tables_lent(
        &mut self,
        name: &str,
        file: &[u8],
        expected: u64,
        (length, bytes): (usize, usize),
        written: Option<(&[u64], &[u8])>,
    ) -> Done {
        let (words, bits) = written.unwrap_or_default();
        let what = || format!("{name}: tables, {length} words, {bytes} bytes of disable bits");
        // What is in the bytes before the call plays no part.
        for before in [0x00, 0xff, 0x5a] {
            self.count += 1;
            let mut lent = Lent::new(length, || 0x7777);
            let mut lent_bits = Lent::new(bytes, || before);
            let after = lent.after(words);
            let after_bits = lent_bits.after(bits);
            let got = self
                .subject
                .tables(self.setting, file, lent.part(), lent_bits.part());
            same(what, expected, got)?;
            lent.check(|| format!("{}, words", what()), &after)?;
            lent_bits.check(|| format!("{}, disable bits", what()), &after_bits)?;
        }
        Ok(())
    }

    /// A trace over words with the disable bits that follow from them; a word that
    /// is 0 plays no part with its bit clear, either.
    #[allow(clippy::too_many_arguments)]
    fn trace(
        &mut self,
        name: &str,
        file: &[u8],
        words: &[u64],
        from: (u8, u8),
        address: u64,
        expected: u64,
        passed: &[u8],
    ) -> Done {
        let bits = zero_bits(words);
        let clear = vec![0; bits.len()];
        for bits in [bits, clear] {
            self.trace_bits(name, file, (words, &bits), from, address, expected, passed)?;
        }
        Ok(())
    }

    /// A trace over words and disable bits.
    #[allow(clippy::too_many_arguments)]
    fn trace_bits(
        &mut self,
        name: &str,
        file: &[u8],
        (words, bits): (&[u64], &[u8]),
        (start, arrival): (u8, u8),
        address: u64,
        expected: u64,
        passed: &[u8],
    ) -> Done {
        self.count += 1;
        let mut lent = Lent::new(70, || 0x77);
        let after = lent.after(passed);
        let got = self.subject.trace(
            self.setting,
            file,
            words,
            bits,
            start,
            arrival,
            address,
            lent.part(),
        );
        let what = || {
            let bits = crate::compare::hex(bits);
            format!("{name}: trace, start {start}, arrival {arrival}, {address:016x}h, bits {bits}")
        };
        same(what, expected, got)?;
        lent.check(what, &after)?;
        // Step by step it ends alike.
        let (end, walked) = walk((start, arrival), |(expander, arrival)| {
            self.count += 1;
            let subject = self.subject;
            Ok(subject.step(self.setting, file, words, bits, expander, arrival, address))
        })?;
        let what = || format!("{}, by steps", what());
        same(what, expected, end)?;
        let mut lent = Lent::new(70, || 0x77);
        lent.part()[..walked.len()].copy_from_slice(&walked);
        lent.check(what, &after)
    }

    /// Every cut of a file with the units of the pair rig; `ends` has where each
    /// phy ends.
    fn every_cut(&mut self, name: &str, file: &[u8], ends: [usize; 5]) -> Done {
        let phys = [(0, 0), (0, 1), (1, 0), (1, 1), (1, 2)];
        for length in 0..file.len() {
            let place = phys[ends.iter().filter(|&&end| end <= length).count()];
            let name = format!("{name} cut to {length} bytes");
            self.refuses(&name, &file[..length], 1, place.0, place.1)?;
        }
        Ok(())
    }

    // ------------------------------------------------------------ the file

    fn headers(&mut self) -> Done {
        if pair().bytes() != pair_rig() {
            return Err(Difference {
                what: "the pair rig as laid out".into(),
                expected: crate::compare::hex(&pair_rig()),
                got: crate::compare::hex(&pair().bytes()),
            });
        }
        self.refuses("empty file", &[], 1, 0, 0)?;
        self.refuses("one byte FFh", &[0xff], 1, 0, 0)?;
        self.refuses("one byte 10h", &[0x10], 1, 0, 0)?;
        self.refuses("byte 0 is 11h", &[0x11, 1], 2, 0, 0)?;
        self.refuses("byte 0 is 00h, count 0", &[0x00, 0], 2, 0, 0)?;
        self.refuses("count 0", &[0x10, 0], 3, 0, 0)?;
        self.refuses("count 65", &[0x10, 65], 3, 0, 0)?;
        self.refuses("count 255", &[0x10, 255], 3, 0, 0)?;
        self.refuses("count 64 and nothing", &[0x10, 64], 1, 0, 0)?;
        self.refuses("count 0 and more bytes", &[0x10, 0, 0], 3, 0, 0)?;
        self.refuses(
            "count 3 in the pair rig",
            &pair_bytes(|file| file[1] = 3),
            1,
            2,
            0,
        )?;
        self.refuses(
            "count 1 in the pair rig",
            &pair_bytes(|file| file[1] = 1),
            1,
            1,
            0,
        )?;
        self.refuses(
            "count 65 in the pair rig",
            &pair_bytes(|file| file[1] = 65),
            3,
            0,
            0,
        )
    }

    fn cuts(&mut self) -> Done {
        self.every_cut("pair rig", &pair_rig(), [90, 142, 230, 282, 334])?;
        self.refuses("335 bytes", &pair_bytes(|file| file.push(0)), 1, 2, 0)?;
        self.refuses(
            "335 bytes, the last FFh",
            &pair_bytes(|file| file.push(0xff)),
            1,
            2,
            0,
        )?;
        self.refuses(
            "386 bytes",
            &pair_bytes(|file| file.resize(386, 0)),
            1,
            2,
            0,
        )?;
        // Cut short comes before a wrong byte in the same unit.
        self.refuses(
            "cut unit with a wrong byte",
            &pair_bytes(|file| {
                file[10] = 0;
                file.truncate(37);
            }),
            1,
            0,
            0,
        )
    }

    fn fixed_bytes(&mut self) -> Done {
        let changes = [
            (0, 0, 0),
            (10, 0, 0),
            (11, 0, 0),
            (12, 0, 0),
            (13, 0, 0),
            (38, 0, 0),
            (39, 0, 0),
            (41, 0, 0),
            (90, 0, 1),
            (91, 0, 1),
            (93, 0, 1),
            (150, 1, 0),
            (151, 1, 0),
            (152, 1, 0),
            (153, 1, 0),
            (178, 1, 0),
            (179, 1, 0),
            (181, 1, 0),
            (282, 1, 2),
            (283, 1, 2),
            (285, 1, 2),
        ];
        for (at, expander, phy) in changes {
            for value in [0x40, 0x90, 0xff] {
                let changed = pair_bytes(|file| file[at] = value);
                let name = format!("byte {at} is {value:02x}h");
                self.refuses(&name, &changed, 2, expander, phy)?;
            }
        }
        // A vacant phy has its bytes 0, 1 and 3 checked too.
        for at in [282, 283, 285] {
            let changed = pair_bytes(|file| {
                file[284] = 9;
                file[at] = 0x77;
            });
            self.refuses(&format!("vacant phy, byte {at}"), &changed, 2, 1, 2)?;
        }
        // Ignored bytes and bits change nothing.
        let junk = pair().bytes_with(&mut || 0xff);
        self.judge("FFh in all ignored places", &junk, 2)?;
        self.table_words("FFh in all ignored places", &junk, 1, &[B1, 0, 0, 0])
    }

    /// The pair rig with long frames: all of them, and some.
    fn long_frames(&mut self) -> Done {
        let all = pair_with(|expanders| {
            for expander in expanders {
                *expander = expander.clone().long();
            }
        });
        let mixed = mixed_pair();
        let junk = mixed.bytes_with(&mut || 0xff);
        let mixed = mixed.bytes();
        for (name, file, length) in [
            ("all frames long", &all, 474),
            ("some frames long", &mixed, 398),
            ("some frames long, FFh in all ignored places", &junk, 398),
        ] {
            self.count += 1;
            same(|| format!("{name}: length"), length, file.len() as u64)?;
            self.judge(name, file, 2)?;
            self.wire(name, file, 2, &[2, 1])?;
            let tables = [B1, 0, 0, 0];
            self.table_words(name, file, 1, &tables)?;
            let cases = [
                ((0, 255), B1, arrived(1, 1, 2), &[0, 1][..]),
                ((1, 1), A1, arrived(0, 1, 2), &[1, 0]),
                ((1, 255), FF, no_destination(0, 2), &[1, 0]),
                ((1, 1), B1, bad_destination(1, 1), &[1]),
            ];
            for (from, address, answer, passed) in cases {
                self.trace(name, file, &tables, from, address, answer, passed)?;
            }
        }
        self.every_cut("some frames long,", &mixed, [142, 194, 282, 334, 398])?;
        let changed = |changes: &[(usize, u8)], length: usize| {
            let mut file = mixed.clone();
            for &(at, value) in changes {
                file[at] = value;
            }
            file.resize(length, 0);
            file
        };
        let after = changed(&[], 399);
        self.refuses("some frames long, a byte after", &after, 1, 2, 0)?;
        // A vacant phy can be long.
        let vacant = changed(&[(336, 9)], 398);
        self.table_words("a long vacant phy", &vacant, 1, &[B1, 0, 0, 0])?;
        // Fixed bytes of long frames: 1 by the size found comes before them.
        for (name, at, expander, phy) in [
            ("REPORT GENERAL, byte 0", 10, 0, 0),
            ("REPORT GENERAL, byte 1", 11, 0, 0),
            ("REPORT GENERAL, result", 12, 0, 0),
            ("DISCOVER, byte 0", 334, 1, 2),
            ("DISCOVER, byte 1", 335, 1, 2),
        ] {
            let file = changed(&[(at, 0x77)], 398);
            self.refuses(name, &file, 2, expander, phy)?;
        }
        let cut = changed(&[(334, 0x77)], 397);
        self.refuses("a wrong byte 0 in a cut frame", &cut, 1, 1, 2)?;
        let cut = changed(&[(10, 0x77)], 77);
        self.refuses("a wrong byte 0 in a cut unit", &cut, 1, 0, 0)
    }

    /// Byte 3 of every frame: tested once four bytes of the frame are there.
    fn response_lengths(&mut self) -> Done {
        let mixed = mixed_pair().bytes();
        // Where the frame begins, its place, and the other response's value.
        for (at, expander, phy, other) in [
            (10, 0, 0, 0x0f),
            (78, 0, 0, 0x10),
            (142, 0, 1, 0x10),
            (202, 1, 0, 0x0f),
            (230, 1, 0, 0x10),
            (282, 1, 1, 0x10),
            (334, 1, 2, 0x10),
        ] {
            for value in [other, 0x01, 0x0e, 0x11, 0x80, 0xff] {
                let mut file = mixed.clone();
                file[at] = 0x77;
                file[at + 3] = value;
                for length in [at + 4, at + 5, at + 27, at + 51, 398] {
                    let length = length.min(398);
                    let name = format!("byte 3 at {at} is {value:02x}h, {length} bytes");
                    self.refuses(&name, &file[..length], 2, expander, phy)?;
                }
                let name = format!("byte 3 at {at} is missing");
                self.refuses(&name, &file[..at + 3], 1, expander, phy)?;
            }
        }
        for (name, at, value, number, expander, phy) in [
            // A long frame that says it is short has twelve bytes too many.
            ("the last phy says short", 337, 0x00, 1, 2, 0),
            // A short frame that says it is long takes bytes of the next.
            ("the last phy but one says long", 285, 0x0f, 2, 1, 2),
            ("REPORT GENERAL says long", 205, 0x10, 2, 1, 0),
        ] {
            let mut file = mixed.clone();
            file[at] = value;
            self.refuses(name, &file, number, expander, phy)?;
        }
        let long = pair_bytes(|file| file[285] = 0x0f);
        self.refuses("the last phy says long and is short", &long, 1, 1, 2)
    }

    fn counts_and_addresses(&mut self) -> Done {
        for value in [0, 129, 255] {
            let name = format!("{value} phys");
            self.refuses(&name, &pair_bytes(|file| file[19] = value), 3, 0, 0)?;
            self.refuses(&name, &pair_bytes(|file| file[159] = value), 3, 1, 0)?;
        }
        // 128 phys are in range: the file is then too short.
        self.refuses("128 phys", &pair_bytes(|file| file[159] = 128), 1, 1, 3)?;
        // One phy less: the next unit is read where the phy stood.
        self.refuses(
            "2 phys at expander 1",
            &pair_bytes(|file| file[159] = 2),
            1,
            2,
            0,
        )?;

        let zero = |at: usize| pair_bytes(|file| file[at..at + 8].fill(0));
        self.refuses("address 0 at expander 0", &zero(2), 4, 0, 0)?;
        self.refuses("address 0 at expander 1", &zero(142), 4, 1, 0)?;
        self.refuses(
            "one address twice",
            &pair_bytes(|file| file[149] = 0x10),
            4,
            1,
            0,
        )?;
        // 2 before 3 before 4 in one unit.
        self.refuses(
            "result 1, no phys, address 0",
            &pair_bytes(|file| {
                file[142..150].fill(0);
                file[152] = 1;
                file[159] = 0;
            }),
            2,
            1,
            0,
        )?;
        self.refuses(
            "no phys, address 0",
            &pair_bytes(|file| {
                file[142..150].fill(0);
                file[159] = 0;
            }),
            3,
            1,
            0,
        )
    }

    fn phy_fields(&mut self) -> Done {
        self.refuses(
            "identifier 0 at phy 1",
            &pair_bytes(|file| file[99] = 0),
            5,
            0,
            1,
        )?;
        self.refuses(
            "identifier 128 at phy 0",
            &pair_bytes(|file| file[187] = 128),
            5,
            1,
            0,
        )?;
        for at in 298..306 {
            let changed = pair_bytes(|file| file[at] ^= 0x80);
            self.refuses(&format!("own address, byte {at}"), &changed, 5, 1, 2)?;
        }
        self.refuses(
            "own address 0",
            &pair_bytes(|file| file[54..62].fill(0)),
            5,
            0,
            0,
        )?;
        for device_type in 4..8 {
            let changed = pair_with(|rig| rig[1].phys[1].device_type = device_type);
            self.refuses(&format!("type {device_type}"), &changed, 6, 1, 1)?;
        }
        for attribute in 3..16 {
            let changed = pair_with(|rig| rig[1].phys[2].attribute = attribute);
            self.refuses(
                &format!("attribute {attribute}, empty phy"),
                &changed,
                6,
                1,
                2,
            )?;
        }
        for device_type in 1..4 {
            let changed = pair_with(|rig| {
                rig[0].phys[1].device_type = device_type;
                rig[0].phys[1].attached = 0;
            });
            self.refuses(&format!("type {device_type}, address 0"), &changed, 6, 0, 1)?;
        }
        // 5 before 6 in one unit; an earlier unit before a lower number.
        self.refuses(
            "identifier and type wrong",
            &pair_with(|rig| {
                rig[1].phys[2].identifier = 7;
                rig[1].phys[2].device_type = 7;
            }),
            5,
            1,
            2,
        )?;
        self.refuses(
            "type 4 at phy 0 1, byte 150 wrong",
            &pair_bytes(|file| {
                file[102] = 0x40;
                file[150] = 0;
            }),
            6,
            0,
            1,
        )?;
        self.refuses(
            "type 4 at the last phy and a byte more",
            &pair_bytes(|file| {
                file[294] = 0x40;
                file.push(0);
            }),
            6,
            1,
            2,
        )?;
        // A vacant phy is not tested for 5 and 6.
        let vacant = pair_with(|rig| {
            rig[1].phys[2] = Phy {
                result: 1,
                identifier: 200,
                device_type: 7,
                attribute: 15,
                own: 3,
                attached: 0,
                attached_phy: 200,
                long: false,
            }
        });
        self.judge("vacant phy with anything in it", &vacant, 2)?;
        self.table_words("vacant phy with anything in it", &vacant, 1, &[B1, 0, 0, 0])
    }

    // ------------------------------------------------------------ causes 7 to 10

    fn far_ends(&mut self) -> Done {
        self.refuses(
            "type 2 on a direct phy",
            &pair_with(|rig| rig[0].phys[0].attribute = DIRECT),
            7,
            0,
            0,
        )?;
        self.refuses(
            "type 3 on a direct phy of expander 1",
            &pair_with(|rig| {
                rig[1].phys[0].attribute = DIRECT;
                rig[1].phys[0].device_type = FANOUT_EXPANDER;
            }),
            7,
            1,
            0,
        )?;
        self.refuses(
            "no expander has the address",
            &pair_with(|rig| rig[0].phys[0].attached = FF),
            7,
            0,
            0,
        )?;
        for far in [3, 127, 128, 255] {
            self.refuses(
                &format!("far phy {far}"),
                &pair_with(|rig| rig[0].phys[0].attached_phy = far),
                7,
                0,
                0,
            )?;
        }
        self.refuses(
            "the far phy is another",
            &pair_with(|rig| rig[0].phys[0].attached_phy = 1),
            7,
            0,
            0,
        )?;
        self.refuses(
            "the far end names another phy",
            &pair_with(|rig| rig[1].phys[0].attached_phy = 1),
            7,
            0,
            0,
        )?;
        self.refuses(
            "the far end is vacant",
            &pair_with(|rig| rig[1].phys[0].result = 0x80),
            7,
            0,
            0,
        )?;
        self.refuses(
            "the far end has nothing attached",
            &pair_with(|rig| rig[0].phys[0].device_type = NO_DEVICE),
            7,
            1,
            0,
        )?;
        self.refuses(
            "the near end is vacant",
            &pair_with(|rig| rig[0].phys[0].result = 1),
            7,
            1,
            0,
        )?;
        // The far end is of type 1 and bears an expander's address: 7 before 8.
        self.refuses(
            "the far end is of type 1",
            &pair_with(|rig| rig[1].phys[0].device_type = END_DEVICE),
            7,
            0,
            0,
        )?;
        self.refuses(
            "type 2 at an end device",
            &pair_with(|rig| {
                rig[0].phys[1].attribute = SUBTRACTIVE;
                rig[0].phys[1].device_type = EDGE_EXPANDER;
            }),
            7,
            0,
            1,
        )?;
        // Type 3 beside type 2.
        let mixed = pair_with(|rig| rig[0].phys[0].device_type = FANOUT_EXPANDER);
        self.judge("type 3 beside type 2", &mixed, 2)?;
        self.wire("type 3 beside type 2", &mixed, 2, &[0b10, 0b01])?;
        let both = pair_with(|rig| {
            rig[0].phys[0].device_type = FANOUT_EXPANDER;
            rig[1].phys[0].device_type = FANOUT_EXPANDER;
        });
        self.table_words("type 3 at both ends", &both, 1, &[B1, 0, 0, 0])?;

        // A wide link, its lanes crossed and of both types.
        let wide = file(vec![
            Expander::new(e(0), 1, true)
                .phy(TABLE, EDGE_EXPANDER, e(1), 2)
                .phy(TABLE, FANOUT_EXPANDER, e(1), 0),
            Expander::new(e(1), 0, false)
                .phy(SUBTRACTIVE, FANOUT_EXPANDER, e(0), 1)
                .drive(DIRECT, d(1, 1))
                .phy(SUBTRACTIVE, EDGE_EXPANDER, e(0), 0),
        ]);
        self.judge("wide link", &wide, 2)?;
        self.wire("wide link", &wide, 2, &[0b10, 0b01])?;
        self.table_words("wide link", &wide, 2, &[d(1, 1), d(1, 1)])
    }

    fn end_devices(&mut self) -> Done {
        self.refuses(
            "type 1 with a later expander's address",
            &pair_with(|rig| rig[0].phys[1].attached = X20),
            8,
            0,
            1,
        )?;
        self.refuses(
            "type 1 with the own address",
            &pair_with(|rig| rig[0].phys[1].attached = X10),
            8,
            0,
            1,
        )?;
        self.refuses(
            "type 1 with an earlier expander's address",
            &pair_with(|rig| rig[1].phys[1].attached = X10),
            8,
            1,
            1,
        )?;
        self.refuses(
            "one end device at two expanders",
            &pair_with(|rig| rig[1].phys[1].attached = A1),
            8,
            1,
            1,
        )?;
        self.refuses(
            "two phys of one end device at the later expander",
            &pair_with(|rig| {
                rig[1].phys[1].attached = A1;
                rig[1].phys[2].device_type = END_DEVICE;
                rig[1].phys[2].attached = A1;
            }),
            8,
            1,
            1,
        )?;
        // A vacant or empty phy does not count.
        let vacant = pair_with(|rig| {
            rig[0].phys[1].result = 2;
            rig[1].phys[1].attached = A1;
        });
        self.judge("the earlier phy is vacant", &vacant, 2)?;
        let empty = pair_with(|rig| {
            rig[0].phys[1].device_type = NO_DEVICE;
            rig[1].phys[1].attached = A1;
        });
        self.judge("the earlier phy is empty", &empty, 2)?;
        // A wide end device is fine and gives two words.
        let wide = pair_with(|rig| {
            rig[1].phys[2].device_type = END_DEVICE;
            rig[1].phys[2].attached = B1;
        });
        self.table_words("wide end device", &wide, 1, &[B1, B1, 0, 0])
    }

    fn attributes(&mut self) -> Done {
        let alone = |phys: &[(u8, u64)]| {
            let mut expander = Expander::new(e(0), 2, true);
            for &(attribute, address) in phys {
                expander = match address {
                    0 => expander.empty(attribute),
                    _ => expander.drive(attribute, address),
                };
            }
            file(vec![expander])
        };
        let (one, two) = (d(0, 0), d(0, 1));
        for (name, phys, phy) in [
            ("direct and table", vec![(DIRECT, one), (TABLE, one)], 1),
            ("table and direct", vec![(TABLE, one), (DIRECT, one)], 1),
            (
                "direct and subtractive",
                vec![(DIRECT, one), (DIRECT, one), (SUBTRACTIVE, one)],
                2,
            ),
            (
                "all three",
                vec![(DIRECT, one), (TABLE, one), (SUBTRACTIVE, one)],
                1,
            ),
            (
                "two subtractive",
                vec![(SUBTRACTIVE, one), (SUBTRACTIVE, two)],
                1,
            ),
            (
                "two subtractive, others between",
                vec![
                    (SUBTRACTIVE, one),
                    (DIRECT, two),
                    (SUBTRACTIVE, 0),
                    (SUBTRACTIVE, d(0, 3)),
                ],
                3,
            ),
            (
                "a table pair after a subtractive pair",
                vec![
                    (TABLE, one),
                    (SUBTRACTIVE, two),
                    (SUBTRACTIVE, d(0, 3)),
                    (DIRECT, one),
                ],
                2,
            ),
        ] {
            self.refuses(name, &alone(&phys), 9, 0, phy)?;
        }
        self.judge(
            "one subtractive end device, wide, an empty subtractive phy between",
            &alone(&[(SUBTRACTIVE, one), (SUBTRACTIVE, 0), (SUBTRACTIVE, one)]),
            1,
        )?;
        self.judge(
            "one address each",
            &alone(&[
                (SUBTRACTIVE, one),
                (TABLE, two),
                (DIRECT, d(0, 2)),
                (TABLE, d(0, 3)),
            ]),
            1,
        )?;
        // A wide link with one table and one subtractive phy at an end.
        let wide = file(vec![
            Expander::new(e(0), 1, true)
                .link(TABLE, e(1), 0)
                .link(SUBTRACTIVE, e(1), 1),
            Expander::new(e(1), 0, true)
                .link(SUBTRACTIVE, e(0), 0)
                .link(SUBTRACTIVE, e(0), 1),
        ]);
        self.refuses("wide link of two attributes", &wide, 9, 0, 1)?;
        // A subtractive end device beside the subtractive neighbour.
        let beside = pair_with(|rig| rig[1].phys[1].attribute = SUBTRACTIVE);
        self.refuses(
            "subtractive to a neighbour and an end device",
            &beside,
            9,
            1,
            1,
        )?;
        let vacant = pair_with(|rig| {
            rig[1].phys[1].attribute = SUBTRACTIVE;
            rig[1].phys[1].result = 1;
        });
        self.judge("the second subtractive phy is vacant", &vacant, 2)
    }

    fn configurable(&mut self) -> Done {
        let mut bit_0 = pair();
        bit_0.expanders[0].configurable = false;
        self.refuses("table phy, bit 0", &bit_0.bytes(), 10, 0, 0)?;
        // The other bits of byte 10 are ignored.
        self.refuses(
            "table phy, bits 7 to 1",
            &pair_bytes(|file| file[20] = 0xfe),
            10,
            0,
            0,
        )?;
        self.judge(
            "table phy, all bits",
            &pair_bytes(|file| file[20] = 0xff),
            2,
        )?;
        self.refuses(
            "empty table phy, bit 0",
            &pair_with(|rig| rig[1].phys[2].attribute = TABLE),
            10,
            1,
            2,
        )?;
        self.refuses(
            "table phy at an end device, bit 0",
            &pair_with(|rig| rig[1].phys[1].attribute = TABLE),
            10,
            1,
            1,
        )?;
        let vacant = pair_with(|rig| {
            rig[1].phys[2].attribute = TABLE;
            rig[1].phys[2].result = 5;
        });
        self.judge("vacant table phy, bit 0", &vacant, 2)
    }

    fn two_causes(&mut self) -> Done {
        self.refuses(
            "6 at 1 2 and 7 at 0 0",
            &pair_with(|rig| {
                rig[0].phys[0].attached_phy = 255;
                rig[1].phys[2].attribute = 3;
            }),
            6,
            1,
            2,
        )?;
        self.refuses(
            "a byte more and 7 at 0 0",
            &pair_bytes(|file| {
                file[70] = 255;
                file.push(0);
            }),
            1,
            2,
            0,
        )?;
        self.refuses(
            "7 at 1 0 and 8 at 0 1",
            &pair_with(|rig| {
                rig[0].phys[0].device_type = NO_DEVICE;
                rig[0].phys[1].attached = X20;
            }),
            7,
            1,
            0,
        )?;
        let nine_at_0 = |rig: &mut Vec<Expander>| {
            rig[0] = rig[0].clone().drive(TABLE, A1);
        };
        self.refuses("9 at 0 2", &pair_with(nine_at_0), 9, 0, 2)?;
        self.refuses(
            "8 at 1 1 and 9 at 0 2",
            &pair_with(|rig| {
                nine_at_0(rig);
                rig[1].phys[1].attached = A1;
            }),
            8,
            1,
            1,
        )?;
        self.refuses(
            "9 at 1 3 and 10 at 0 0",
            &pair_with(|rig| {
                rig[0].configurable = false;
                rig[1] = rig[1].clone().drive(SUBTRACTIVE, C1);
            }),
            9,
            1,
            3,
        )?;
        self.refuses(
            "7 at 0 0 and 10 at 0 0",
            &pair_with(|rig| {
                rig[0].configurable = false;
                rig[0].phys[0].attached_phy = 9;
            }),
            7,
            0,
            0,
        )?;
        self.refuses(
            "10 at 0 0 and a loop",
            &file(vec![Expander::new(e(0), 9, false).link(TABLE, e(0), 0)]),
            10,
            0,
            0,
        )?;
        // The lowest place of one cause.
        let three = |far: [u8; 3]| {
            file(vec![
                Expander::new(e(0), 0, false).drive(DIRECT, d(0, 0)).link(
                    SUBTRACTIVE,
                    e(1),
                    far[0],
                ),
                Expander::new(e(1), 9, true)
                    .link(TABLE, e(2), far[1])
                    .link(SUBTRACTIVE, e(0), 1),
                Expander::new(e(2), 0, false).link(SUBTRACTIVE, e(1), far[2]),
            ])
        };
        self.judge("three expanders", &three([1, 0, 0]), 3)?;
        self.refuses("7 at 0 1, 1 0, 1 1 and 2 0", &three([9, 9, 9]), 7, 0, 1)?;
        self.refuses("7 at 1 0 and 2 0", &three([1, 9, 9]), 7, 1, 0)?;
        self.refuses("7 at 1 0 by the far end", &three([1, 0, 9]), 7, 1, 0)?;
        self.refuses(
            "10 at 0 0 and 0 2",
            &pair_with(|rig| {
                rig[0] = rig[0].clone().empty(TABLE);
                rig[0].configurable = false;
            }),
            10,
            0,
            0,
        )?;
        self.refuses(
            "8 at 0 1 and 1 1",
            &pair_with(|rig| {
                rig[0].phys[1].attached = X10;
                rig[1].phys[1].attached = X10;
            }),
            8,
            0,
            1,
        )
    }

    // ------------------------------------------------------------ causes 11 and 12, and table-to-table links

    fn looped(&mut self, name: &str, file: &[u8], bits: u64, words: &[u64]) -> Done {
        self.wire(name, file, bits, words)?;
        self.judge_refused(name, file, refused(11, 0, 0))
    }

    fn self_cabled(&mut self) -> Done {
        for attribute in [TABLE, SUBTRACTIVE] {
            let one = file(vec![Expander::new(e(0), 5, true).link(attribute, e(0), 0)]);
            self.looped("a phy cabled to itself", &one, 1, &[1])?;
            let two = file(vec![Expander::new(e(0), 5, true)
                .link(attribute, e(0), 1)
                .link(attribute, e(0), 0)]);
            self.looped("an expander cabled to itself", &two, 1, &[1])?;
        }
        let mixed = file(vec![Expander::new(e(0), 5, true)
            .link(TABLE, e(0), 1)
            .link(SUBTRACTIVE, e(0), 0)]);
        self.refuses("table to subtractive at one expander", &mixed, 9, 0, 1)?;
        let wrong = file(vec![Expander::new(e(0), 5, true)
            .link(TABLE, e(0), 1)
            .link(TABLE, e(0), 1)]);
        self.refuses("a phy naming another that names itself", &wrong, 7, 0, 0)?;
        // Beside a good link.
        let beside = pair_with(|rig| rig[0] = rig[0].clone().link(TABLE, X10, 2));
        self.looped("pair rig with a self-cabled phy", &beside, 3, &[0b11, 0b01])
    }

    fn loops(&mut self) -> Done {
        let triangle = ring(3);
        self.looped("triangle", &triangle, 6, &[0b110, 0b101, 0b011])?;
        self.looped("square", &ring(4), 8, &[0b1010, 0b0101, 0b1010, 0b0101])?;
        // Two lanes between one pair are no loop.
        let double = file(vec![
            Expander::new(e(0), 0, true)
                .link(TABLE, e(1), 0)
                .link(TABLE, e(1), 1),
            Expander::new(e(1), 0, false)
                .link(SUBTRACTIVE, e(0), 0)
                .link(SUBTRACTIVE, e(0), 1),
        ]);
        self.judge("double link", &double, 2)?;
        self.wire("double link", &double, 2, &[0b10, 0b01])?;
        // Two components, the loop in the one without expander 0.
        let far_loop = file(vec![
            Expander::new(e(0), 9, true).link(TABLE, e(1), 0),
            Expander::new(e(1), 0, false).link(SUBTRACTIVE, e(0), 0),
            Expander::new(e(2), 9, true)
                .link(TABLE, e(3), 0)
                .link(SUBTRACTIVE, e(4), 1),
            Expander::new(e(3), 9, true)
                .link(SUBTRACTIVE, e(2), 0)
                .link(TABLE, e(4), 0),
            Expander::new(e(4), 9, true)
                .link(SUBTRACTIVE, e(3), 1)
                .link(TABLE, e(2), 1),
        ]);
        self.looped(
            "a loop not joined to expander 0",
            &far_loop,
            8,
            &[2, 1, 24, 20, 12],
        )?;
        // Two components, the loop in the one with expander 0.
        let near_loop = file(vec![
            Expander::new(e(0), 9, true)
                .link(TABLE, e(1), 0)
                .link(SUBTRACTIVE, e(2), 1),
            Expander::new(e(1), 9, true)
                .link(SUBTRACTIVE, e(0), 0)
                .link(TABLE, e(2), 0),
            Expander::new(e(2), 9, true)
                .link(SUBTRACTIVE, e(1), 1)
                .link(TABLE, e(0), 1),
            Expander::new(e(3), 9, true).empty(DIRECT),
        ]);
        self.looped("a loop and an island", &near_loop, 6, &[6, 5, 3, 0])?;
        // A self-cabled expander not joined to expander 0.
        let island = file(vec![
            Expander::new(e(0), 0, false).empty(DIRECT),
            Expander::new(e(1), 0, true).link(TABLE, e(1), 0),
        ]);
        self.looped("a self-cabled island", &island, 1, &[0, 2])?;
        // A loop of table-to-table links only.
        let tables = file(vec![
            Expander::new(e(0), 0, true)
                .link(TABLE, e(1), 0)
                .link(TABLE, e(2), 1),
            Expander::new(e(1), 0, true)
                .link(TABLE, e(0), 0)
                .link(TABLE, e(2), 0),
            Expander::new(e(2), 0, true)
                .link(TABLE, e(1), 1)
                .link(TABLE, e(0), 1),
        ]);
        self.looped("triangle of table-to-table links", &tables, 6, &[6, 5, 3])
    }

    fn islands(&mut self) -> Done {
        let two_pairs = file(vec![
            Expander::new(e(0), 9, true).link(TABLE, e(1), 0),
            Expander::new(e(1), 0, false).link(SUBTRACTIVE, e(0), 0),
            Expander::new(e(2), 9, true).link(TABLE, e(3), 0),
            Expander::new(e(3), 0, false).link(SUBTRACTIVE, e(2), 0),
        ]);
        self.wire("two pairs", &two_pairs, 4, &[2, 1, 8, 4])?;
        self.judge_refused("two pairs", &two_pairs, refused(12, 2, 0))?;
        let between = file(vec![
            Expander::new(e(0), 9, true).link(TABLE, e(2), 0),
            Expander::new(e(1), 0, false).empty(DIRECT),
            Expander::new(e(2), 0, false).link(SUBTRACTIVE, e(0), 0),
        ]);
        self.wire("an island between", &between, 2, &[4, 0, 1])?;
        self.judge_refused("an island between", &between, refused(12, 1, 0))?;
        let alone = file(vec![
            Expander::new(e(0), 0, false).drive(DIRECT, d(0, 0)),
            Expander::new(e(1), 0, false).drive(DIRECT, d(1, 0)),
        ]);
        self.wire("two expanders and no link", &alone, 0, &[0, 0])?;
        self.judge_refused("two expanders and no link", &alone, refused(12, 1, 0))?;
        // 12 before 14.
        let tables = file(vec![
            Expander::new(e(0), 0, true).link(TABLE, e(1), 0),
            Expander::new(e(1), 0, true)
                .link(TABLE, e(0), 0)
                .drive(DIRECT, d(1, 1)),
            Expander::new(e(2), 0, false).empty(DIRECT),
        ]);
        self.wire("island and table-to-table", &tables, 2, &[2, 1, 0])?;
        self.judge_refused("island and table-to-table", &tables, refused(12, 2, 0))
    }

    fn table_to_table(&mut self) -> Done {
        let wide = |route_indexes| {
            file(vec![
                Expander::new(e(0), route_indexes, true)
                    .drive(DIRECT, d(0, 0))
                    .link(TABLE, e(1), 1)
                    .link(TABLE, e(1), 0),
                Expander::new(e(1), route_indexes, true)
                    .link(TABLE, e(0), 2)
                    .link(TABLE, e(0), 1)
                    .drive(DIRECT, d(1, 2)),
            ])
        };
        self.wire("wide table-to-table link", &wide(9), 2, &[2, 1])?;
        // Empty lists: R zeros in each of the four tables, and R 0 is enough.
        self.judge("wide table-to-table link", &wide(9), 2)?;
        self.table_words("wide table-to-table link", &wide(9), 4, &[0; 36])?;
        self.judge("wide table-to-table link, R 0", &wide(0), 2)?;
        self.table_words("wide table-to-table link, R 0", &wide(0), 4, &[])?;
        // Each expander reaches the other, and neither the other's drive.
        let name = "wide table-to-table link";
        let (rig, words) = (wide(0), []);
        self.trace(
            name,
            &rig,
            &words,
            (0, 0),
            e(1),
            arrived(1, 255, 2),
            &[0, 1],
        )?;
        self.trace(
            name,
            &rig,
            &words,
            (0, 0),
            d(1, 2),
            no_destination(0, 1),
            &[0],
        )?;
        self.trace(
            name,
            &rig,
            &words,
            (1, 2),
            d(0, 0),
            no_destination(1, 1),
            &[1],
        )?;
        // The link is lower down: the expander beyond is entered, its drive is not.
        let below = |route_indexes| {
            file(vec![
                Expander::new(e(0), route_indexes, true).link(TABLE, e(1), 0),
                Expander::new(e(1), 2, true)
                    .link(SUBTRACTIVE, e(0), 0)
                    .link(TABLE, e(2), 0)
                    .drive(DIRECT, d(1, 2)),
                Expander::new(e(2), 1, true)
                    .link(TABLE, e(1), 1)
                    .drive(DIRECT, d(2, 1)),
            ])
        };
        let name = "table to table below";
        self.wire(name, &below(2), 4, &[2, 5, 2])?;
        self.judge_refused(name, &below(1), refused(14, 0, 0))?;
        self.judge(name, &below(2), 3)?;
        let words = [e(2), d(1, 2), 0, 0, 0];
        self.table_words(name, &below(2), 3, &words)?;
        let rig = below(2);
        self.trace(
            name,
            &rig,
            &words,
            (0, 255),
            e(2),
            arrived(2, 255, 3),
            &[0, 1, 2],
        )?;
        self.trace(
            name,
            &rig,
            &words,
            (0, 255),
            d(2, 1),
            no_destination(0, 1),
            &[0],
        )?;
        self.trace(
            name,
            &rig,
            &words,
            (1, 2),
            d(2, 1),
            no_destination(0, 2),
            &[1, 0],
        )?;
        self.trace(name, &rig, &words, (2, 1), e(0), no_destination(2, 1), &[2])?;
        self.trace(
            name,
            &rig,
            &words,
            (2, 1),
            e(1),
            arrived(1, 255, 2),
            &[2, 1],
        )?;
        self.trace(
            name,
            &rig,
            &words,
            (0, 255),
            d(1, 2),
            arrived(1, 2, 2),
            &[0, 1],
        )
    }

    // ------------------------------------------------------------ many expanders

    fn rows_stars_rings(&mut self) -> Done {
        // A row: expander i has R as long as its list, 63 - i words.
        let row = row(|i| 63 - i as u16);
        let mut words = vec![0; 64];
        for (i, word) in words.iter_mut().enumerate() {
            *word = if i > 0 { 1 << (i - 1) } else { 0 } + if i < 63 { 2 << i } else { 0 };
        }
        self.wire("row of 64", &row, 126, &words)?;
        self.judge("row of 64", &row, 64)?;
        // Table i: the addresses of expanders i + 2 to 63, then the end device.
        let mut tables = Vec::new();
        for i in 0..63 {
            for far in i + 2..64 {
                tables.push(e(far));
            }
            tables.push(d(63, 1));
        }
        self.table_words("row of 64", &row, 63, &tables)?;
        let up: Vec<u8> = (0..64).collect();
        let down: Vec<u8> = (0..64).rev().collect();
        self.trace(
            "row of 64",
            &row,
            &tables,
            (0, 255),
            d(63, 1),
            arrived(63, 1, 64),
            &up,
        )?;
        self.trace(
            "row of 64",
            &row,
            &tables,
            (63, 1),
            e(0),
            arrived(0, 255, 64),
            &down,
        )?;
        self.trace(
            "row of 64",
            &row,
            &tables,
            (63, 1),
            FF,
            no_destination(0, 64),
            &down,
        )?;
        self.judge_refused(
            "row of 64, R 62 at expander 0",
            &self::row(|i| if i == 0 { 62 } else { 100 }),
            refused(14, 0, 1),
        )?;
        self.judge_refused(
            "row of 64, R 0 at expander 62",
            &self::row(|i| if i == 62 { 0 } else { 100 }),
            refused(14, 62, 1),
        )?;

        // A star: the hub is expander 0, then expander 63.
        for hub in [0, 63] {
            let star = star(hub, 1);
            let mut words = vec![1 << hub; 64];
            words[hub] = !(1 << hub);
            self.wire("star of 64", &star, 126, &words)?;
            self.judge("star of 64", &star, 64)?;
            let leaves: Vec<usize> = (0..64).filter(|&i| i != hub).collect();
            let tables: Vec<u64> = leaves.iter().map(|&i| d(i, 1)).collect();
            self.table_words("star of 64", &star, 63, &tables)?;
            let (one, two) = (leaves[0], leaves[62]);
            self.trace(
                "star of 64",
                &star,
                &tables,
                (one as u8, 1),
                d(two, 1),
                arrived(two as u64, 1, 3),
                &[one as u8, hub as u8, two as u8],
            )?;
            self.judge_refused(
                "star of 64, R 0",
                &self::star(hub, 0),
                refused(14, hub as u64, 0),
            )?;
        }

        let mut words = vec![0; 64];
        for (i, word) in words.iter_mut().enumerate() {
            *word = 1 << ((i + 63) % 64) | 1 << ((i + 1) % 64);
        }
        self.looped("ring of 64", &ring(64), 128, &words)
    }

    fn largest(&mut self) -> Done {
        let mut file = full_star(DIRECT);
        self.count += 1;
        same(
            || "length of the 64 x 128 file".into(),
            428_290,
            file.len() as u64,
        )?;
        self.judge("64 x 128", &file, 64)?;
        let mut words = vec![1; 64];
        words[0] = 0xffff_ffff_ffff_fffe;
        self.wire("64 x 128", &file, 126, &words)?;
        let mut tables = Vec::new();
        for leaf in 1..64 {
            for phy in 1..128 {
                tables.push(d(leaf, phy));
            }
        }
        self.table_words("64 x 128", &file, 63, &tables)?;
        self.trace(
            "64 x 128",
            &file,
            &tables,
            (1, 5),
            d(63, 127),
            arrived(63, 127, 3),
            &[1, 0, 63],
        )?;
        self.refuses("64 x 128 cut", &file[..428_289], 1, 63, 127)?;
        file.push(0);
        self.refuses("64 x 128 and a byte", &file, 1, 64, 0)?;

        let expanders = star_of(DIRECT).into_iter().map(Expander::long).collect();
        let mut file = DomainFile::of(expanders).bytes();
        self.count += 1;
        same(
            || "length of the 64 x 128 file of long frames".into(),
            529_154,
            file.len() as u64,
        )?;
        self.judge("64 x 128, long", &file, 64)?;
        self.table_words("64 x 128, long", &file, 63, &tables)?;
        self.refuses("64 x 128, long, cut", &file[..529_153], 1, 63, 127)?;
        file.push(0);
        self.refuses("64 x 128, long, and a byte", &file, 1, 64, 0)
    }

    // ------------------------------------------------------------ the pair rig

    /// Courses with other limits.
    fn settings(&mut self) -> Done {
        let rig = pair_rig();
        // Out of range, or a bit above the 24: before everything else, in every call.
        for setting in [
            0,
            course(0, 3, 2),
            course(2, 0, 2),
            course(2, 3, 0),
            course(65, 3, 2),
            course(2, 129, 2),
            course(2, 3, 65),
            course(255, 255, 255),
            course(2, 3, 2) | 1 << 24,
            course(2, 3, 2) | 1 << 31,
            WIDEST | 1 << 24,
            u32::MAX,
        ] {
            self.setting = setting;
            self.refuses("no setting in range", &rig, 22, 0, 0)?;
            self.refuses("no setting in range, no file", &[], 22, 0, 0)?;
        }

        // The narrowest course that accepts the pair rig, and narrower ones.
        self.setting = course(2, 3, 2);
        self.judge("pair rig, 2 3 2", &rig, 2)?;
        self.wire("pair rig, 2 3 2", &rig, 2, &[0b10, 0b01])?;
        self.table_words("pair rig, 2 3 2", &rig, 1, &[B1, 0, 0, 0])?;
        self.trace(
            "pair rig, 2 3 2",
            &rig,
            &[B1, 0, 0, 0],
            (0, 255),
            B1,
            arrived(1, 1, 2),
            &[0, 1],
        )?;
        self.setting = course(1, 128, 64);
        self.refuses("pair rig, one expander", &rig, 3, 0, 0)?;
        self.setting = course(64, 2, 64);
        self.refuses("pair rig, two phys", &rig, 3, 1, 0)?;
        self.setting = course(64, 1, 64);
        self.refuses("pair rig, one phy", &rig, 3, 0, 0)?;
        self.setting = course(64, 128, 1);
        self.wire("pair rig, chains of one", &rig, 2, &[0b10, 0b01])?;
        self.judge_refused("pair rig, chains of one", &rig, refused(23, 0, 0))?;

        // 23 comes before 14, and after 11 and 12.
        let long = pair_bytes(|file| file[17] = 1);
        self.judge_refused("23 and 14", &long, refused(23, 0, 0))?;
        let pair = |island: bool| {
            let mut expanders = vec![
                Expander::new(e(0), 4, true).link(TABLE, e(1), 0),
                Expander::new(e(1), 0, false).link(SUBTRACTIVE, e(0), 0),
            ];
            if island {
                expanders.push(Expander::new(e(2), 0, false).empty(DIRECT));
            }
            file(expanders)
        };
        self.judge_refused("23", &pair(false), refused(23, 0, 0))?;
        self.judge_refused("12 and 23", &pair(true), refused(12, 2, 0))?;

        // A row: a chain as long as the setting is allowed, odd or even.
        let row = row(|i| 63 - i as u16);
        for (chain, expected) in [(64, 64), (63, refused(23, 0, 0)), (1, refused(23, 0, 0))] {
            self.setting = course(64, 2, chain);
            self.judge("row of 64", &row, expected)?;
        }
        // A star: three expanders at most.
        let star = full_star(DIRECT);
        for (chain, expected) in [(4, 64), (3, 64), (2, refused(23, 0, 0))] {
            self.setting = course(64, 128, chain);
            self.judge("star of 64", &star, expected)?;
        }
        self.setting = course(63, 128, 64);
        self.judge("star of 64, 63 expanders", &star, refused(3, 0, 0))?;
        self.setting = course(64, 127, 64);
        self.judge("star of 64, 127 phys", &star, refused(3, 0, 0))?;
        self.setting = WIDEST;
        Ok(())
    }

    fn pair_rig(&mut self) -> Done {
        let rig = pair_rig();
        self.judge("pair rig", &rig, 2)?;
        self.wire("pair rig", &rig, 2, &[0b10, 0b01])?;
        self.table_bits("pair rig", &rig, 1, &[B1, 0, 0, 0], &[0x70])?;
        let with_r = |r: u8| pair_bytes(|file| file[17] = r);
        self.table_words("pair rig, R 2", &with_r(2), 1, &[B1, 0])?;
        self.judge_refused("pair rig, R 1", &with_r(1), refused(14, 0, 0))?;
        self.judge_refused("pair rig, R 0", &with_r(0), refused(14, 0, 0))?;
        self.wire("pair rig, R 1", &with_r(1), 2, &[0b10, 0b01])?;
        let large = pair_bytes(|file| file[16..18].fill(0xff));
        let mut words = vec![0; 65535];
        words[0] = B1;
        self.table_words("pair rig, R 65,535", &large, 1, &words)?;

        let words = [B1, 0, 0, 0];
        self.trace(
            "pair rig",
            &rig,
            &words,
            (0, 255),
            B1,
            arrived(1, 1, 2),
            &[0, 1],
        )?;
        self.trace(
            "pair rig",
            &rig,
            &words,
            (1, 1),
            A1,
            arrived(0, 1, 2),
            &[1, 0],
        )?;
        self.trace(
            "pair rig",
            &rig,
            &words,
            (1, 255),
            X10,
            arrived(0, 255, 2),
            &[1, 0],
        )?;
        self.trace(
            "pair rig",
            &rig,
            &words,
            (1, 255),
            FF,
            no_destination(0, 2),
            &[1, 0],
        )?;
        self.trace(
            "pair rig",
            &rig,
            &words,
            (1, 1),
            B1,
            bad_destination(1, 1),
            &[1],
        )?;
        self.trace(
            "pair rig, entry 0 zeroed",
            &rig,
            &[0; 4],
            (0, 255),
            B1,
            no_destination(0, 1),
            &[0],
        )?;
        self.trace_bits(
            "pair rig, the bit of entry 0 set",
            &rig,
            (&words, &[0xf0]),
            (0, 255),
            B1,
            no_destination(0, 1),
            &[0],
        )
    }

    // ------------------------------------------------------------ levels and tables

    fn level_lists(&mut self) -> Done {
        // Expander 0 leads to 1, 1 to 2 and 3, 2 to 4.
        let tree = file(vec![
            Expander::new(e(0), 10, true).link(TABLE, e(1), 0),
            Expander::new(e(1), 3, true)
                .link(SUBTRACTIVE, e(0), 0)
                .link(TABLE, e(2), 0)
                .drive(DIRECT, d(1, 2))
                .drive(DIRECT, d(1, 2))
                .empty(DIRECT)
                .vacant(1)
                .link(TABLE, e(3), 0)
                .drive(TABLE, d(1, 7))
                .drive(TABLE, d(1, 7))
                .empty(SUBTRACTIVE),
            Expander::new(e(2), 1, true)
                .link(SUBTRACTIVE, e(1), 1)
                .drive(DIRECT, d(2, 1))
                .link(TABLE, e(4), 0),
            Expander::new(e(3), 0, false)
                .link(SUBTRACTIVE, e(1), 6)
                .drive(DIRECT, d(3, 1)),
            Expander::new(e(4), 0, false)
                .link(SUBTRACTIVE, e(2), 2)
                .drive(DIRECT, d(4, 1)),
        ]);
        let words = [
            // expander 0 phy 0
            e(2),
            d(1, 2),
            d(1, 2),
            0,
            e(3),
            d(1, 7),
            d(2, 1),
            e(4),
            d(3, 1),
            d(4, 1),
            // expander 1 phy 1
            d(2, 1),
            e(4),
            d(4, 1),
            // expander 1 phy 6
            d(3, 1),
            0,
            0,
            // expander 1 phys 7 and 8
            0,
            0,
            0,
            0,
            0,
            0,
            // expander 2 phy 2
            d(4, 1),
        ];
        self.table_bits("tree of five", &tree, 6, &words, &[0x10, 0x03, 0xfc])?;
        let name = "tree of five";
        self.trace(
            name,
            &tree,
            &words,
            (4, 1),
            d(3, 1),
            arrived(3, 1, 4),
            &[4, 2, 1, 3],
        )?;
        self.trace(
            name,
            &tree,
            &words,
            (0, 255),
            d(4, 1),
            arrived(4, 1, 4),
            &[0, 1, 2, 4],
        )?;
        self.trace(
            name,
            &tree,
            &words,
            (3, 1),
            d(1, 7),
            arrived(1, 7, 2),
            &[3, 1],
        )?;
        self.trace(
            name,
            &tree,
            &words,
            (1, 3),
            d(1, 2),
            bad_destination(1, 1),
            &[1],
        )?;
        self.trace(
            name,
            &tree,
            &words,
            (1, 8),
            d(1, 7),
            bad_destination(1, 1),
            &[1],
        )?;
        self.trace(
            name,
            &tree,
            &words,
            (1, 8),
            e(4),
            arrived(4, 255, 3),
            &[1, 2, 4],
        )?;
        self.trace(
            name,
            &tree,
            &words,
            (4, 255),
            FF,
            no_destination(0, 4),
            &[4, 2, 1, 0],
        )?;

        // The order in a level goes by the place in the level before, not by
        // the number: 1 leads to 5 (phy 1) and 2 (phy 2), 5 to 4, 2 to 3.
        let order = file(vec![
            Expander::new(e(0), 7, true).link(TABLE, e(1), 0),
            Expander::new(e(1), 3, true)
                .link(SUBTRACTIVE, e(0), 0)
                .link(TABLE, e(5), 1)
                .link(TABLE, e(2), 1)
                .empty(DIRECT),
            Expander::new(e(2), 1, true)
                .link(TABLE, e(3), 0)
                .link(SUBTRACTIVE, e(1), 2),
            Expander::new(e(3), 0, false)
                .link(SUBTRACTIVE, e(2), 0)
                .drive(DIRECT, d(3, 1)),
            Expander::new(e(4), 0, false)
                .link(SUBTRACTIVE, e(5), 0)
                .drive(DIRECT, d(4, 1)),
            Expander::new(e(5), 1, true)
                .link(TABLE, e(4), 0)
                .link(SUBTRACTIVE, e(1), 1),
        ]);
        self.table_words(
            "order in a level",
            &order,
            5,
            &[
                // expander 0 phy 0
                e(5),
                e(2),
                0,
                e(4),
                e(3),
                d(4, 1),
                d(3, 1),
                // expander 1 phy 1
                e(4),
                d(4, 1),
                0,
                // expander 1 phy 2
                e(3),
                d(3, 1),
                0,
                // expander 2 phy 0
                d(3, 1),
                // expander 5 phy 0
                d(4, 1),
            ],
        )?;

        // A wide link below gives its expander once; both of its phys have tables.
        let wide = file(vec![
            Expander::new(e(0), 3, true).link(TABLE, e(1), 1),
            Expander::new(e(1), 1, true)
                .link(TABLE, e(2), 1)
                .link(SUBTRACTIVE, e(0), 0)
                .link(TABLE, e(2), 0)
                .drive(DIRECT, d(1, 3)),
            Expander::new(e(2), 0, false)
                .link(SUBTRACTIVE, e(1), 2)
                .link(SUBTRACTIVE, e(1), 0)
                .drive(DIRECT, d(2, 2)),
        ]);
        self.table_words(
            "wide link below",
            &wide,
            3,
            &[e(2), d(1, 3), d(2, 2), d(2, 2), d(2, 2)],
        )?;

        // A top pair, subtractive at both ends, has no tables between.
        let pair = file(vec![
            Expander::new(e(0), 2, true)
                .link(SUBTRACTIVE, e(1), 0)
                .link(TABLE, e(2), 0),
            Expander::new(e(1), 0, false)
                .link(SUBTRACTIVE, e(0), 0)
                .drive(DIRECT, d(1, 1)),
            Expander::new(e(2), 0, false)
                .link(SUBTRACTIVE, e(0), 1)
                .drive(DIRECT, d(2, 1)),
        ]);
        self.wire("top pair", &pair, 4, &[6, 1, 1])?;
        self.table_words("top pair", &pair, 1, &[d(2, 1), 0])?;
        let words = [d(2, 1), 0];
        let name = "top pair";
        self.trace(
            name,
            &pair,
            &words,
            (1, 1),
            d(2, 1),
            arrived(2, 1, 3),
            &[1, 0, 2],
        )?;
        self.trace(
            name,
            &pair,
            &words,
            (2, 1),
            d(1, 1),
            arrived(1, 1, 3),
            &[2, 0, 1],
        )?;
        self.trace(
            name,
            &pair,
            &words,
            (2, 1),
            FF,
            no_destination(1, 3),
            &[2, 0, 1],
        )?;
        self.trace(
            name,
            &pair,
            &words,
            (1, 1),
            FF,
            no_destination(0, 2),
            &[1, 0],
        )
    }

    fn tables(&mut self) -> Done {
        let empty = file(vec![Expander::new(e(0), 0, true).empty(TABLE)]);
        self.table_words("empty table phy, R 0", &empty, 1, &[])?;
        let drive = file(vec![Expander::new(e(0), 2, true).drive(TABLE, d(0, 0))]);
        self.table_words("table phy at an end device", &drive, 1, &[0, 0])?;
        let none = file(vec![Expander::new(e(0), 65535, true).drive(DIRECT, d(0, 0))]);
        self.table_words("no table phy, R 65,535", &none, 0, &[])?;
        let vacant = file(vec![Expander::new(e(0), 3, true).vacant(255)]);
        self.table_words("vacant phy alone", &vacant, 0, &[])?;
        self.judge("vacant phy alone", &vacant, 1)?;
        self.wire("vacant phy alone", &vacant, 0, &[0])?;
        // A vacant phy gives no word: R 1 is enough for the pair rig then.
        let shorter = pair_with(|rig| {
            rig[0].route_indexes = 1;
            rig[1].phys[2].result = 1;
        });
        self.table_words("pair rig, phy 1 2 vacant, R 1", &shorter, 1, &[B1])?;
        // An empty subtractive phy gives none either.
        let shorter = pair_with(|rig| {
            rig[0].route_indexes = 1;
            rig[1].phys[2].attribute = SUBTRACTIVE;
        });
        self.table_words("pair rig, phy 1 2 subtractive, R 1", &shorter, 1, &[B1])?;
        // The lower of two lists that are too long.
        let two = file(vec![
            Expander::new(e(0), 1, true)
                .link(TABLE, e(1), 0)
                .link(TABLE, e(2), 0)
                .link(TABLE, e(3), 0),
            Expander::new(e(1), 0, false)
                .link(SUBTRACTIVE, e(0), 0)
                .empty(DIRECT),
            Expander::new(e(2), 0, false)
                .link(SUBTRACTIVE, e(0), 1)
                .empty(DIRECT)
                .empty(DIRECT),
            Expander::new(e(3), 0, false)
                .link(SUBTRACTIVE, e(0), 2)
                .empty(DIRECT)
                .empty(DIRECT),
        ]);
        self.judge_refused("two lists too long", &two, refused(14, 0, 1))
    }

    // ------------------------------------------------------------ tracing

    fn traces(&mut self) -> Done {
        let rig = pair_rig();
        let given = [B1, 0, 0, 0];
        let name = "pair rig";
        self.trace(name, &rig, &given, (0, 255), X10, arrived(0, 255, 1), &[0])?;
        self.trace(name, &rig, &given, (0, 1), X10, arrived(0, 255, 1), &[0])?;
        self.trace(name, &rig, &given, (0, 1), X20, arrived(1, 255, 2), &[0, 1])?;
        self.trace(name, &rig, &given, (0, 255), A1, arrived(0, 1, 1), &[0])?;
        self.trace(name, &rig, &given, (0, 1), A1, bad_destination(0, 1), &[0])?;
        self.trace(name, &rig, &given, (0, 255), FF, no_destination(0, 1), &[0])?;
        self.trace(name, &rig, &given, (1, 1), X20, arrived(1, 255, 1), &[1])?;
        self.trace(name, &rig, &given, (0, 1), B1, arrived(1, 1, 2), &[0, 1])?;
        // Words behind the tables are not read.
        let longer = [0, 0, 0, 0, B1, FF];
        self.trace(
            name,
            &rig,
            &longer,
            (0, 255),
            B1,
            no_destination(0, 1),
            &[0],
        )?;
        self.trace(
            name,
            &rig,
            &[0, 0, 0, B1],
            (0, 255),
            B1,
            arrived(1, 1, 2),
            &[0, 1],
        )?;
        // A word that leads back is BAD DESTINATION, one that leads nowhere is
        // NO DESTINATION at the next expander.
        let wrong = [0, FF, 0, 0];
        self.trace(
            name,
            &rig,
            &wrong,
            (1, 255),
            FF,
            bad_destination(0, 2),
            &[1, 0],
        )?;
        self.trace(
            name,
            &rig,
            &wrong,
            (1, 1),
            FF,
            bad_destination(0, 2),
            &[1, 0],
        )?;
        self.trace(
            name,
            &rig,
            &wrong,
            (0, 255),
            FF,
            no_destination(1, 2),
            &[0, 1],
        )?;
        // An attached address comes before a table word, the expander's own
        // address before both.
        let all = [A1, X10, X20, B1];
        self.trace(name, &rig, &all, (0, 255), A1, arrived(0, 1, 1), &[0])?;
        self.trace(name, &rig, &all, (0, 255), X10, arrived(0, 255, 1), &[0])?;

        // A wide end device asks for itself from its higher phy.
        let wide = pair_with(|rig| {
            rig[1].phys[2].device_type = END_DEVICE;
            rig[1].phys[2].attached = B1;
        });
        self.trace(
            "wide",
            &wide,
            &given,
            (1, 2),
            B1,
            bad_destination(1, 1),
            &[1],
        )?;
        self.trace("wide", &wide, &given, (0, 1), B1, arrived(1, 1, 2), &[0, 1])?;

        // Three tables: each phy has its own stretch; a table phy at an end
        // device is passed by.
        let star = file(vec![
            Expander::new(e(0), 2, true)
                .drive(TABLE, d(0, 0))
                .link(TABLE, e(1), 0)
                .link(TABLE, e(2), 0),
            Expander::new(e(1), 0, false)
                .link(SUBTRACTIVE, e(0), 1)
                .drive(DIRECT, d(1, 1)),
            Expander::new(e(2), 0, false)
                .link(SUBTRACTIVE, e(0), 2)
                .drive(DIRECT, d(2, 1)),
        ]);
        let name = "two stretches";
        let given = [0, 0, d(1, 1), 0, d(2, 1), 0];
        self.table_bits(name, &star, 3, &given, &[0xd4])?;
        let words = [0, 0, 0, 0, FF, d(2, 1)];
        self.trace(
            name,
            &star,
            &words,
            (0, 255),
            d(2, 1),
            arrived(2, 1, 2),
            &[0, 2],
        )?;
        self.trace(
            name,
            &star,
            &words,
            (1, 1),
            FF,
            no_destination(2, 3),
            &[1, 0, 2],
        )?;
        let words = [FF, FF, 0, 0, 0, 0];
        self.trace(
            name,
            &star,
            &words,
            (0, 255),
            FF,
            no_destination(0, 1),
            &[0],
        )?;
        let words = [0, 0, 0, d(2, 1), d(2, 1), 0];
        self.trace(
            name,
            &star,
            &words,
            (0, 0),
            d(2, 1),
            no_destination(1, 2),
            &[0, 1],
        )?;
        // With that entry of the lower phy disabled the higher one is picked.
        for (from, bits, expected, passed) in [
            ((0, 0), 0x10, arrived(2, 1, 2), &[0, 2][..]),
            ((1, 1), 0x10, arrived(2, 1, 3), &[1, 0, 2]),
            ((0, 0), 0x08, no_destination(1, 2), &[0, 1]),
            ((0, 0), 0x18, no_destination(0, 1), &[0]),
            ((0, 0), 0xe7, no_destination(1, 2), &[0, 1]),
        ] {
            let tables = (&words[..], &[bits][..]);
            self.trace_bits(name, &star, tables, from, d(2, 1), expected, passed)?;
        }
        // The lowest table phy leads back to where the request came from.
        self.trace(
            name,
            &star,
            &words,
            (1, 1),
            d(2, 1),
            bad_destination(0, 2),
            &[1, 0],
        )?;
        self.trace(
            name,
            &star,
            &words,
            (1, 1),
            e(2),
            arrived(2, 255, 3),
            &[1, 0, 2],
        )
    }

    /// Traces with disable bits set and cleared at will.
    fn disabled(&mut self) -> Done {
        let rig = pair_rig();
        let name = "pair rig, disable bits";
        let off = (no_destination(0, 1), &[0][..]);
        let on = (arrived(1, 1, 2), &[0, 1][..]);
        for (words, bits, (expected, passed)) in [
            // Bits of other entries, padding bits and bytes behind play no part.
            ([B1, 0, 0, 0], &[0x70][..], on),
            ([B1, 0, 0, 0], &[0x00], on),
            ([B1, 0, 0, 0], &[0x7f], on),
            ([B1, 0, 0, 0], &[0x70, 0xff, 0xff], on),
            ([B1, 0, 0, 0], &[0x80], off),
            ([B1, 0, 0, 0], &[0xf0], off),
            ([B1, 0, 0, 0], &[0xff], off),
            ([B1, 0, 0, 0], &[0x8f, 0x00], off),
            ([0, B1, 0, 0], &[0xbf], on),
            ([0, B1, 0, 0], &[0x40], off),
            ([0, 0, B1, 0], &[0xdf], on),
            ([0, 0, B1, 0], &[0x20], off),
            ([0, 0, 0, B1], &[0xef], on),
            ([0, 0, 0, B1], &[0x10], off),
            // One of two entries with the address is enough.
            ([B1, 0, 0, B1], &[0xe0], on),
            ([B1, 0, 0, B1], &[0x70], on),
            ([B1, 0, 0, B1], &[0x90], off),
        ] {
            let tables = (&words[..], bits);
            self.trace_bits(name, &rig, tables, (0, 255), B1, expected, passed)?;
        }
        // An address that is the expander's own or attached needs no entry, and a
        // subtractive phy none.
        let all = (&[B1, 0, 0, 0][..], &[0xff][..]);
        for (from, address, expected, passed) in [
            ((0, 255), X10, arrived(0, 255, 1), &[0][..]),
            ((0, 1), X20, arrived(1, 255, 2), &[0, 1]),
            ((0, 255), A1, arrived(0, 1, 1), &[0]),
            ((1, 1), A1, arrived(0, 1, 2), &[1, 0]),
            ((1, 1), B1, bad_destination(1, 1), &[1]),
        ] {
            self.trace_bits(name, &rig, all, from, address, expected, passed)?;
        }
        // A disabled word that leads back is no BAD DESTINATION.
        let back = [0, FF, 0, 0];
        for (bits, expected) in [
            (0xb0, bad_destination(0, 2)),
            (0xf0, no_destination(0, 2)),
            (0x40, no_destination(0, 2)),
        ] {
            let tables = (&back[..], &[bits][..]);
            self.trace_bits(name, &rig, tables, (1, 255), FF, expected, &[1, 0])?;
        }

        // Nine words have two bytes of bits, eight have one.
        let nine = pair_bytes(|file| file[17] = 9);
        let name = "pair rig, R 9";
        let given = [B1, 0, 0, 0, 0, 0, 0, 0, 0];
        self.table_bits(name, &nine, 1, &given, &[0x7f, 0x80])?;
        let last = [0, 0, 0, 0, 0, 0, 0, 0, B1];
        for (bits, (expected, passed)) in [
            ([0xff, 0x00], on),
            ([0xff, 0x7f], on),
            ([0x00, 0x80], off),
            ([0xff, 0xff], off),
        ] {
            let tables = (&last[..], &bits[..]);
            self.trace_bits(name, &nine, tables, (0, 255), B1, expected, passed)?;
        }
        let eight = pair_bytes(|file| file[17] = 8);
        self.table_bits("pair rig, R 8", &eight, 1, &given[..8], &[0x7f])?;
        let last = ([0, 0, 0, 0, 0, 0, 0, B1], [0x01]);
        let tables = (&last.0[..], &last.1[..]);
        self.trace_bits("pair rig, R 8", &eight, tables, (0, 255), B1, off.0, off.1)
    }

    fn trace_refusals(&mut self) -> Done {
        let rig = pair_rig();
        let nine = pair_bytes(|file| file[17] = 9);
        let vacant = pair_with(|rig| rig[1].phys[2].result = 1);
        let words = [B1, 0, 0, 0, 0, 0, 0, 0, 0];
        let bits = [0x70, 0x00];
        // The lengths lent are words, bytes of disable bits and bytes for expanders.
        for (name, file, start, arrival, address, (length, bytes, room), number) in [
            ("start 2", &rig, 2, 255, B1, (4, 1, 2), 15),
            ("start 255", &rig, 255, 255, B1, (4, 1, 2), 15),
            ("arrival at an expander", &rig, 0, 0, B1, (4, 1, 2), 15),
            ("arrival at an expander", &rig, 1, 0, B1, (4, 1, 2), 15),
            ("arrival phy missing", &rig, 0, 2, B1, (4, 1, 2), 15),
            ("arrival phy missing", &rig, 1, 254, B1, (4, 1, 2), 15),
            ("arrival phy empty", &rig, 1, 2, B1, (4, 1, 2), 15),
            ("arrival phy vacant", &vacant, 1, 2, B1, (4, 1, 2), 15),
            ("no bytes", &rig, 0, 255, X10, (4, 1, 0), 16),
            ("one byte short", &rig, 0, 255, X10, (4, 1, 1), 16),
            ("one word short", &rig, 1, 255, X20, (3, 1, 2), 16),
            ("no words", &rig, 1, 255, X20, (0, 1, 2), 16),
            ("no disable bits", &rig, 1, 255, X20, (4, 0, 2), 18),
            ("no disable bits", &nine, 1, 255, X20, (9, 0, 2), 18),
            ("one byte of bits short", &nine, 1, 255, X20, (9, 1, 2), 18),
            ("address 0", &rig, 0, 255, 0, (4, 1, 2), 17),
            ("address 0", &rig, 1, 1, 0, (4, 1, 2), 17),
            ("address 0", &nine, 1, 1, 0, (9, 2, 2), 17),
            ("15, 16, 18 and 17", &rig, 2, 255, 0, (0, 0, 0), 15),
            ("15 and 18", &rig, 2, 255, B1, (4, 0, 2), 15),
            ("15 and 17", &rig, 0, 0, 0, (4, 1, 2), 15),
            ("16 and 18, bytes", &rig, 0, 255, B1, (4, 0, 1), 16),
            ("16 and 18, words", &rig, 0, 255, B1, (3, 0, 2), 16),
            ("16 and 18, words", &nine, 0, 255, B1, (8, 1, 2), 16),
            ("16 and 17, bytes", &rig, 0, 255, 0, (4, 1, 1), 16),
            ("16 and 17, words", &rig, 0, 255, 0, (3, 1, 2), 16),
            ("18 and 17", &rig, 0, 255, 0, (4, 0, 2), 18),
            ("18 and 17", &nine, 1, 1, 0, (9, 1, 2), 18),
        ] {
            self.count += 1;
            let mut passed = Lent::new(room, || 0x77);
            let after = passed.after(&[]);
            let got = self.subject.trace(
                self.setting,
                file,
                &words[..length],
                &bits[..bytes],
                start,
                arrival,
                address,
                passed.part(),
            );
            same(|| name.into(), refused(number, 0, 0), got)?;
            passed.check(|| name.into(), &after)?;
        }
        // Two bytes are enough for two expanders.
        self.count += 1;
        let mut passed = Lent::new(2, || 0x77);
        let after = passed.after(&[1, 0]);
        let (words, bits) = (&words[..4], &bits[..1]);
        let got = self
            .subject
            .trace(self.setting, &rig, words, bits, 1, 1, A1, passed.part());
        same(|| "two bytes".into(), arrived(0, 1, 2), got)?;
        passed.check(|| "two bytes".into(), &after)
    }

    // ------------------------------------------------------------ places and steps

    fn word_places(&mut self) -> Done {
        let none = refused(15, 0, 0);
        let at =
            |expander: u64, phy: u64, index: u64| expander * 0x100_0000 + phy * 0x1_0000 + index;
        let name = "pair rig";
        let rig = pair_rig();
        for k in 0..4 {
            self.word_place(name, &rig, k, at(0, 0, k))?;
        }
        for k in [4, 5, 255, 65536, 1 << 32, 1 << 63, u64::MAX] {
            self.word_place(name, &rig, k, none)?;
        }
        let large = pair_bytes(|file| file[16..18].fill(0xff));
        self.word_place(name, &large, 65534, at(0, 0, 65534))?;
        self.word_place(name, &large, 65535, none)?;

        // Vacant, direct and subtractive phys have no table, an empty table phy and
        // one at an end device have; R 0 makes tables without words.
        let mixed = file(vec![
            Expander::new(e(0), 2, true)
                .vacant(1)
                .link(TABLE, e(1), 3)
                .drive(DIRECT, d(0, 2))
                .empty(TABLE),
            Expander::new(e(1), 0, true)
                .empty(TABLE)
                .drive(TABLE, d(1, 1))
                .link(TABLE, e(2), 0)
                .link(SUBTRACTIVE, e(0), 1),
            Expander::new(e(2), 3, true)
                .link(SUBTRACTIVE, e(1), 2)
                .empty(TABLE),
        ]);
        let name = "tables of R 2, 0 and 3";
        let words = [d(1, 1), e(2), 0, 0, 0, 0, 0];
        self.table_words(name, &mixed, 6, &words)?;
        let places = [
            at(0, 1, 0),
            at(0, 1, 1),
            at(0, 3, 0),
            at(0, 3, 1),
            at(2, 1, 0),
            at(2, 1, 1),
            at(2, 1, 2),
            none,
        ];
        for (k, place) in (0..).zip(places) {
            self.word_place(name, &mixed, k, place)?;
        }
        let alone = file(vec![Expander::new(e(0), 9, true).drive(DIRECT, d(0, 0))]);
        self.needed("no tables", &alone, 0)?;
        self.word_place("no tables", &alone, 0, none)
    }

    fn steps(&mut self) -> Done {
        let rig = pair_rig();
        let given = (&[B1, 0, 0, 0][..], &[0x70][..]);
        for (at, address, expected) in [
            ((0, 255), X10, itself()),
            ((0, 255), A1, attached(1, END)),
            ((0, 255), X20, attached(0, (1, 0))),
            ((0, 255), B1, listed(0, 0, (1, 0))),
            ((0, 255), FF, nothing()),
            // From drive A1h.
            ((0, 1), X10, itself()),
            ((0, 1), A1, BAD + attached(1, END)),
            ((0, 1), X20, attached(0, (1, 0))),
            ((0, 1), B1, listed(0, 0, (1, 0))),
            ((0, 1), FF, nothing()),
            // From expander 1.
            ((0, 0), X10, itself()),
            ((0, 0), A1, attached(1, END)),
            ((0, 0), X20, BAD + attached(0, END)),
            ((0, 0), B1, BAD + listed(0, 0, END)),
            ((0, 0), FF, nothing()),
            ((1, 255), X20, itself()),
            ((1, 255), B1, attached(1, END)),
            ((1, 255), X10, attached(0, (0, 0))),
            ((1, 255), A1, upward(0, (0, 0))),
            ((1, 255), FF, upward(0, (0, 0))),
            // From drive B1h.
            ((1, 1), X20, itself()),
            ((1, 1), B1, BAD + attached(1, END)),
            ((1, 1), X10, attached(0, (0, 0))),
            ((1, 1), A1, upward(0, (0, 0))),
            // From expander 0: the subtractive phy is barred.
            ((1, 0), X20, itself()),
            ((1, 0), B1, attached(1, END)),
            ((1, 0), X10, BAD + attached(0, END)),
            ((1, 0), A1, nothing()),
            ((1, 0), FF, nothing()),
        ] {
            self.step("pair rig", &rig, given, at, address, expected)?;
        }
        // The first entry that is not disabled; entries come after what is attached.
        for (words, bits, address, expected) in [
            ([B1, 0, 0, 0], &[0xf0][..], B1, nothing()),
            ([B1, 0, 0, 0], &[0x0f], B1, listed(0, 0, (1, 0))),
            ([0, FF, 0, FF], &[0x00], FF, listed(0, 1, (1, 0))),
            ([0, FF, 0, FF], &[0xbf, 0xff], FF, listed(0, 1, (1, 0))),
            ([0, FF, 0, FF], &[0x40], FF, listed(0, 3, (1, 0))),
            ([0, FF, 0, FF], &[0x50], FF, nothing()),
            ([X10, A1, X20, B1], &[0x00], X10, itself()),
            ([X10, A1, X20, B1], &[0x00], A1, attached(1, END)),
            ([X10, A1, X20, B1], &[0x00], X20, attached(0, (1, 0))),
            ([X10, A1, X20, B1], &[0x00], B1, listed(0, 3, (1, 0))),
        ] {
            self.step(
                "pair rig",
                &rig,
                (&words, bits),
                (0, 255),
                address,
                expected,
            )?;
        }
        let large = pair_bytes(|file| file[16..18].fill(0xff));
        let mut words = vec![0; 65535];
        words[65534] = FF;
        let last = (&words[..], &[0; 8192][..]);
        let name = "pair rig, R 65,535";
        self.step(name, &large, last, (0, 1), FF, listed(0, 65534, (1, 0)))?;
        self.wide_steps()?;
        self.stretch_steps()
    }

    /// Two expanders with a wide link, and one alone.
    fn wide_steps(&mut self) -> Done {
        let wide = file(vec![
            Expander::new(e(0), 2, true)
                .link(TABLE, e(1), 1)
                .link(TABLE, e(1), 2),
            Expander::new(e(1), 0, false)
                .drive(DIRECT, d(1, 0))
                .link(SUBTRACTIVE, e(0), 0)
                .link(SUBTRACTIVE, e(0), 1),
        ]);
        let words = [d(1, 0), 0, d(1, 0), 0];
        self.table_words("wide link", &wide, 2, &words)?;
        for (bits, at, address, expected) in [
            (0x50, (0, 255), d(1, 0), listed(0, 0, (1, 1))),
            (0x80, (0, 255), d(1, 0), listed(1, 0, (1, 2))),
            (0xa0, (0, 255), d(1, 0), nothing()),
            (0x50, (0, 255), e(1), attached(0, (1, 1))),
            // The address at the arrival phy counts, not the phy.
            (0x50, (0, 1), d(1, 0), BAD + listed(0, 0, END)),
            (0x80, (0, 0), d(1, 0), BAD + listed(1, 0, END)),
            (0x50, (0, 1), e(1), BAD + attached(0, END)),
            (0x50, (1, 2), e(0), BAD + attached(1, END)),
            (0x50, (1, 2), FF, nothing()),
            (0x50, (1, 0), FF, upward(1, (0, 0))),
            (0x50, (1, 255), FF, upward(1, (0, 0))),
        ] {
            let tables = (&words[..], &[bits][..]);
            self.step("wide link", &wide, tables, at, address, expected)?;
        }
        // A subtractive phy at an end device does not lead on.
        let alone = file(vec![Expander::new(e(0), 0, false)
            .drive(SUBTRACTIVE, d(0, 0))
            .vacant(1)
            .empty(SUBTRACTIVE)]);
        for (at, address, expected) in [
            ((0, 255), e(0), itself()),
            ((0, 255), d(0, 0), attached(0, END)),
            ((0, 0), d(0, 0), BAD + attached(0, END)),
            ((0, 255), FF, nothing()),
            ((0, 0), FF, nothing()),
            ((0, 1), FF, refused(15, 0, 0)),
            ((0, 2), FF, refused(15, 0, 0)),
            ((0, 3), FF, refused(15, 0, 0)),
        ] {
            self.step("alone", &alone, (&[], &[]), at, address, expected)?;
        }
        Ok(())
    }

    /// Three tables of two entries: the index counts within the phy's own stretch,
    /// and a table phy at an end device is passed by.
    fn stretch_steps(&mut self) -> Done {
        let star = file(vec![
            Expander::new(e(0), 2, true)
                .drive(TABLE, d(0, 0))
                .link(TABLE, e(1), 0)
                .link(TABLE, e(2), 1),
            Expander::new(e(1), 0, false)
                .link(SUBTRACTIVE, e(0), 1)
                .drive(DIRECT, d(1, 1)),
            Expander::new(e(2), 0, false)
                .drive(DIRECT, d(2, 0))
                .link(SUBTRACTIVE, e(0), 2),
        ]);
        for (words, bits, at, expected) in [
            ([FF, FF, 0, 0, 0, 0], 0x00, (0, 255), nothing()),
            ([FF, 0, 0, FF, FF, FF], 0x00, (0, 255), listed(1, 1, (1, 0))),
            ([FF, 0, 0, FF, FF, FF], 0x10, (0, 0), listed(2, 0, (2, 1))),
            ([FF, 0, 0, FF, FF, FF], 0x18, (0, 0), listed(2, 1, (2, 1))),
            ([FF, 0, 0, FF, FF, FF], 0x1c, (0, 0), nothing()),
            // The lowest phy is picked, though a higher one would not lead back.
            ([FF, 0, 0, FF, FF, 0], 0x00, (0, 1), BAD + listed(1, 1, END)),
            ([FF, 0, 0, FF, FF, 0], 0x00, (0, 2), listed(1, 1, (1, 0))),
            ([FF, 0, 0, FF, FF, 0], 0x10, (0, 1), listed(2, 0, (2, 1))),
            ([FF, 0, 0, FF, FF, 0], 0x10, (0, 2), BAD + listed(2, 0, END)),
            // Words of expander 0 are none of expander 2.
            ([FF; 6], 0x00, (2, 255), upward(1, (0, 2))),
            ([FF; 6], 0x00, (2, 1), nothing()),
        ] {
            self.step("three tables", &star, (&words, &[bits]), at, FF, expected)?;
        }
        Ok(())
    }

    fn step_refusals(&mut self) -> Done {
        let rig = pair_rig();
        let nine = pair_bytes(|file| file[17] = 9);
        let vacant = pair_with(|rig| rig[1].phys[2].result = 1);
        let words = [B1, 0, 0, 0, 0, 0, 0, 0, 0];
        let bits = [0x70, 0x00];
        // The lengths lent are words and bytes of disable bits.
        for (name, file, at, address, (length, bytes), number) in [
            ("expander 2", &rig, (2, 255), B1, (4, 1), 15),
            ("expander 2, phy 0", &rig, (2, 0), B1, (4, 1), 15),
            ("expander 255", &rig, (255, 255), B1, (4, 1), 15),
            ("arrival phy missing", &rig, (0, 2), B1, (4, 1), 15),
            ("arrival phy missing", &rig, (1, 3), B1, (4, 1), 15),
            ("arrival phy missing", &rig, (1, 128), B1, (4, 1), 15),
            ("arrival phy missing", &rig, (1, 254), B1, (4, 1), 15),
            ("arrival phy empty", &rig, (1, 2), B1, (4, 1), 15),
            ("arrival phy vacant", &vacant, (1, 2), B1, (4, 1), 15),
            ("one word short", &rig, (1, 255), X20, (3, 1), 16),
            ("no words", &rig, (1, 0), X20, (0, 1), 16),
            ("no disable bits", &rig, (1, 0), X20, (4, 0), 18),
            ("one byte of bits short", &nine, (1, 1), X20, (9, 1), 18),
            ("address 0", &rig, (0, 255), 0, (4, 1), 17),
            ("address 0", &rig, (1, 0), 0, (4, 1), 17),
            ("address 0", &nine, (1, 1), 0, (9, 2), 17),
            ("15, 16, 18 and 17", &rig, (2, 255), 0, (0, 0), 15),
            ("15 and 18", &rig, (1, 2), B1, (4, 0), 15),
            ("15 and 17", &rig, (1, 2), 0, (4, 1), 15),
            ("16, 18 and 17", &rig, (0, 0), 0, (3, 0), 16),
            ("16 and 18", &nine, (0, 0), B1, (8, 1), 16),
            ("16 and 17", &rig, (0, 255), 0, (3, 1), 16),
            ("18 and 17", &rig, (0, 0), 0, (4, 0), 18),
        ] {
            let lent = (&words[..length], &bits[..bytes]);
            self.step(name, file, lent, at, address, refused(number, 0, 0))?;
        }
        Ok(())
    }

    // ------------------------------------------------------------ frames

    fn route_frames(&mut self) -> Done {
        let mut expected = [0u8; 40];
        expected[0] = 0x40;
        expected[1] = 0x90;
        expected[6] = 0x01;
        expected[7] = 0x02;
        expected[9] = 5;
        expected[16] = 0x50;
        expected[23] = 0xb1;
        let mut switched_off = expected;
        switched_off[12] = 0x80;
        let mut zero_address = expected;
        zero_address[16..24].fill(0);
        let mut disabled = [0u8; 40];
        disabled[0] = 0x40;
        disabled[1] = 0x90;
        disabled[6] = 0xff;
        disabled[7] = 0xff;
        disabled[9] = 127;
        disabled[12] = 0x80;
        // The bytes that smp_conf_route_info of smp_utils sends, without its CRC.
        let smp_utils: [u8; 40] = [
            0x40, 0x90, 0x00, 0x09, 0x00, 0x00, 0x01, 0x02, 0x00, 0x05, 0x00, 0x00, 0x00, 0x00,
            0x00, 0x00, 0x50, 0x00, 0x00, 0x00, 0x00, 0x00, 0x00, 0xb1, 0x00, 0x00, 0x00, 0x00,
            0x00, 0x00, 0x00, 0x00, 0x00, 0x00, 0x00, 0x00, 0x00, 0x00, 0x00, 0x00,
        ];
        // An entry is its address and whether it is disabled, which any value but 0
        // says; each is written as told.
        for (length, phy, index, (address, disabled), room, answer, frame) in [
            (0, 5, 0x0102, (B1, 0), 40, 40, Some(&expected)),
            (0, 5, 0x0102, (B1, 0), 60, 40, Some(&expected)),
            (9, 5, 0x0102, (B1, 0), 44, 40, Some(&smp_utils)),
            (0, 5, 0x0102, (B1, 1), 40, 40, Some(&switched_off)),
            (0, 5, 0x0102, (B1, 2), 50, 40, Some(&switched_off)),
            (0, 5, 0x0102, (B1, 0x80), 40, 40, Some(&switched_off)),
            (0, 5, 0x0102, (B1, 255), 40, 40, Some(&switched_off)),
            (0, 5, 0x0102, (0, 0), 40, 40, Some(&zero_address)),
            (0, 127, 0xffff, (0, 1), 41, 40, Some(&disabled)),
            (1, 5, 0x0102, (B1, 0), 40, refused(2, 0, 0), None),
            (8, 128, 0, (B1, 1), 39, refused(2, 0, 0), None),
            (10, 0, 0, (0, 1), 0, refused(2, 0, 0), None),
            (0x90, 127, 0, (B1, 0), 60, refused(2, 0, 0), None),
            (0, 128, 0, (B1, 0), 40, refused(15, 0, 0), None),
            (9, 255, 0, (0, 1), 0, refused(15, 0, 0), None),
            (9, 127, 0, (B1, 1), 39, refused(16, 0, 0), None),
            (0, 0, 0, (0, 0), 0, refused(16, 0, 0), None),
        ] {
            self.count += 1;
            let mut lent = Lent::new(room, || 0x77u8);
            let after = lent.after(frame.map_or(&[][..], |frame| frame));
            let got = self
                .subject
                .write_route(lent.part(), length, phy, index, address, disabled);
            let what = || {
                format!(
                    "write_route, length {length}, phy {phy}, index {index}, {address:016x}h, \
                     disabled {disabled}, {room} bytes"
                )
            };
            same(what, answer, got)?;
            lent.check(what, &after)?;
        }
        let mut other_bits = [0xff; 40];
        other_bits[0] = 0x40;
        other_bits[1] = 0x90;
        other_bits[3] = 0x09;
        other_bits[9] = 0;
        other_bits[12] = 0x7f;
        let mut all_bits = other_bits;
        all_bits[12] = 0xff;
        let mut byte_0 = expected;
        byte_0[0] = 0x41;
        let mut byte_1 = expected;
        byte_1[1] = 0x10;
        let mut byte_3 = expected;
        byte_3[3] = 0x08;
        let mut byte_3_other = expected;
        byte_3_other[3] = 0x89;
        let mut phy_128 = smp_utils;
        phy_128[9] = 128;
        let mut byte_3_and_phy = phy_128;
        byte_3_and_phy[3] = 0x0a;
        let mut both = phy_128;
        both[0] = 0;
        for (name, frame, answer, address) in [
            ("written frame", &expected[..], 0x0005_0102, B1),
            ("frame of smp_utils", &smp_utils[..], 0x0905_0102, B1),
            (
                "frame of smp_utils with its CRC",
                &[&smp_utils[..], &[0; 4]].concat()[..],
                refused(1, 0, 0),
                0,
            ),
            ("no entry", &disabled[..], 0x1_007f_ffff, 0),
            ("address 0, enabled", &zero_address[..], 0x0005_0102, 0),
            (
                "address with the disable bit",
                &switched_off[..],
                0x1_0005_0102,
                B1,
            ),
            ("all other bits", &other_bits[..], 0x0900_ffff, u64::MAX),
            ("all bits", &all_bits[..], 0x1_0900_ffff, u64::MAX),
            ("39 bytes", &expected[..39], refused(1, 0, 0), 0),
            ("no bytes", &[][..], refused(1, 0, 0), 0),
            (
                "41 bytes",
                &[&expected[..], &[0]].concat()[..],
                refused(1, 0, 0),
                0,
            ),
            ("byte 0", &byte_0[..], refused(2, 0, 0), 0),
            ("byte 1", &byte_1[..], refused(2, 0, 0), 0),
            ("byte 3 08h", &byte_3[..], refused(2, 0, 0), 0),
            ("byte 3 89h", &byte_3_other[..], refused(2, 0, 0), 0),
            (
                "byte 3 and phy 128",
                &byte_3_and_phy[..],
                refused(2, 0, 0),
                0,
            ),
            ("phy 128", &phy_128[..], refused(15, 0, 0), 0),
            ("byte 0 and phy 128", &both[..], refused(2, 0, 0), 0),
        ] {
            self.count += 2;
            let got = self.subject.read_route(frame);
            same(|| format!("{name}: read_route"), answer, got)?;
            let got = self.subject.read_route_address(frame);
            same(|| format!("{name}: read_route_address"), address, got)?;
        }
        Ok(())
    }

    fn single_frames(&mut self) -> Done {
        let rig = pair_rig();
        let general = &rig[10..38];
        let mut all_bits = vec![0xff; 28];
        all_bits[..4].copy_from_slice(&[0x41, 0, 0, 0]);
        let mut even = all_bits.clone();
        even[10] = 0xfe;
        even[9] = 0;
        let with = |at: usize, value: u8| {
            let mut frame = general.to_vec();
            frame[at] = value;
            frame
        };
        for (name, frame, answer) in [
            ("expander 0", general.to_vec(), 0x0000_0004_0201),
            ("expander 1", rig[150..178].to_vec(), 0x0000_0000_0300),
            ("all other bits", all_bits, 0x0000_ffff_ff01),
            ("bit 0 clear, no phys", even, 0x0000_ffff_0000),
            ("27 bytes", general[..27].to_vec(), refused(1, 0, 0)),
            ("29 bytes", rig[10..39].to_vec(), refused(1, 0, 0)),
            ("no bytes", vec![], refused(1, 0, 0)),
            ("byte 0", with(0, 0x40), refused(2, 0, 0)),
            ("byte 1", with(1, 0x10), refused(2, 0, 0)),
            ("result", with(2, 1), refused(2, 0, 0)),
            ("byte 3", with(3, 1), refused(2, 0, 0)),
        ] {
            self.count += 2;
            let got = self.subject.read_general(&frame);
            same(|| format!("{name}: read_general"), answer, got)?;
            // No frame here is long.
            let got = self.subject.read_general_sas2(&frame);
            same(|| format!("{name}: read_general_sas2"), answer, got)?;
        }
        self.long_generals(general)?;

        let discover = &rig[230..282];
        let with = |at: usize, value: u8| {
            let mut frame = discover.to_vec();
            frame[at] = value;
            frame
        };
        let mut all_bits = vec![0xff; 52];
        all_bits[..4].copy_from_slice(&[0x41, 0x10, 0, 0]);
        let mut vacant = all_bits.clone();
        vacant[2] = 0xfe;
        let long = |length: u8, size: usize| {
            let mut frame = discover.to_vec();
            frame[3] = length;
            frame.resize(size, 0xee);
            frame
        };
        let mut long_vacant = long(0x0f, 64);
        long_vacant[2] = 7;
        let mut long_byte_1 = long(0x0f, 64);
        long_byte_1[1] = 0x00;
        let mut long_cut = long(0x0f, 63);
        long_cut[0] = 0x00;
        let none = refused(2, 0, 0);
        for (name, frame, answer, own, attached) in [
            ("phy 1 1", discover.to_vec(), 0x0001_0100_0000, X20, B1),
            ("phy 0 0", rig[38..90].to_vec(), 0x0000_0202_0000, X10, X20),
            ("phy 1 2", rig[282..334].to_vec(), 0x0002_0000_0000, X20, 0),
            (
                "all other bits",
                all_bits,
                0x00ff_070f_00ff,
                u64::MAX,
                u64::MAX,
            ),
            ("vacant", vacant, 0x4000_0000_0000_00fe, 0, 0),
            ("result 1", with(2, 1), 0x4000_0000_0000_0001, 0, 0),
            (
                "bit 7 of byte 12",
                with(12, 0x8f),
                0x0001_0000_0000,
                X20,
                B1,
            ),
            (
                "bits 7 to 4 of byte 44",
                with(44, 0xf1),
                0x0001_0101_0000,
                X20,
                B1,
            ),
            ("attached phy 255", with(32, 255), 0x0001_0100_00ff, X20, B1),
            ("51 bytes", discover[..51].to_vec(), refused(1, 0, 0), 0, 0),
            ("53 bytes", rig[230..283].to_vec(), refused(1, 0, 0), 0, 0),
            ("28 bytes", discover[..28].to_vec(), refused(1, 0, 0), 0, 0),
            ("no bytes", vec![], refused(1, 0, 0), 0, 0),
            ("byte 0", with(0, 0x40), none, 0, 0),
            ("byte 1", with(1, 0x00), none, 0, 0),
            ("byte 3", with(3, 0x10), none, 0, 0),
            ("long", long(0x0f, 64), 0x0001_0100_0000, X20, B1),
            ("long, vacant", long_vacant, 0x4000_0000_0000_0007, 0, 0),
            ("long, byte 1", long_byte_1, none, 0, 0),
            ("long, 63 bytes", long_cut, refused(1, 0, 0), 0, 0),
            ("long, 65 bytes", long(0x0f, 65), refused(1, 0, 0), 0, 0),
            ("long, 52 bytes", with(3, 0x0f), refused(1, 0, 0), 0, 0),
            ("short, 64 bytes", long(0x00, 64), refused(1, 0, 0), 0, 0),
            ("10h, 68 bytes", long(0x10, 68), none, 0, 0),
            ("0eh, 60 bytes", long(0x0e, 60), none, 0, 0),
            ("10h, 4 bytes", long(0x10, 4), none, 0, 0),
            ("10h, 3 bytes", long(0x10, 3), refused(1, 0, 0), 0, 0),
            ("0fh, 4 bytes", long(0x0f, 4), refused(1, 0, 0), 0, 0),
        ] {
            self.count += 3;
            let got = self.subject.read_discover(&frame);
            same(|| format!("{name}: read_discover"), answer, got)?;
            let got = self.subject.discover_own(&frame);
            same(|| format!("{name}: discover_own"), own, got)?;
            let got = self.subject.discover_attached(&frame);
            same(|| format!("{name}: discover_attached"), attached, got)?;
        }
        self.every_code()
    }

    /// Long REPORT GENERAL responses, through both readers.
    fn long_generals(&mut self, general: &[u8]) -> Done {
        let long = |length: u8, size: usize, changes: &[(usize, u8)]| {
            let mut frame = general.to_vec();
            frame[3] = length;
            frame.resize(size, 0xee);
            for &(at, value) in changes {
                frame[at] = value;
            }
            frame
        };
        let shown = 0x0000_0004_0201;
        let bits = 0x4_0000_0000;
        let short = refused(1, 0, 0);
        let wrong = refused(2, 0, 0);
        for (name, frame, answer, sas2) in [
            ("long", long(0x10, 68, &[]), shown, shown + bits),
            (
                "table to table supported",
                long(0x10, 68, &[(10, 0x81)]),
                shown,
                shown + bits + 0x2_0000_0000,
            ),
            (
                "configures others",
                long(0x10, 68, &[(10, 0x05)]),
                shown,
                shown + bits + 0x1_0000_0000,
            ),
            (
                "all other bits of byte 10",
                long(0x10, 68, &[(10, 0x7b)]),
                shown,
                shown + bits,
            ),
            (
                "both, bit 0 clear",
                long(0x10, 68, &[(10, 0xfe)]),
                shown - 1,
                shown - 1 + bits + 0x3_0000_0000,
            ),
            ("long, 67 bytes", long(0x10, 67, &[(0, 0)]), short, short),
            ("long, 69 bytes", long(0x10, 69, &[(0, 0)]), short, short),
            ("long, 28 bytes", long(0x10, 28, &[]), short, short),
            ("short, 68 bytes", long(0x00, 68, &[]), short, short),
            ("long, byte 0", long(0x10, 68, &[(0, 0x40)]), wrong, wrong),
            ("long, byte 1", long(0x10, 68, &[(1, 0x10)]), wrong, wrong),
            ("long, result", long(0x10, 68, &[(2, 1)]), wrong, wrong),
            ("0fh, 64 bytes", long(0x0f, 64, &[]), wrong, wrong),
            ("11h, 72 bytes", long(0x11, 72, &[]), wrong, wrong),
            ("0fh, 4 bytes", long(0x0f, 4, &[]), wrong, wrong),
            ("0fh, 3 bytes", long(0x0f, 3, &[]), short, short),
            ("10h, 4 bytes", long(0x10, 4, &[]), short, short),
        ] {
            self.count += 2;
            let got = self.subject.read_general(&frame);
            same(|| format!("{name}: read_general"), answer, got)?;
            let got = self.subject.read_general_sas2(&frame);
            same(|| format!("{name}: read_general_sas2"), sas2, got)?;
        }
        Ok(())
    }

    /// The attached device type of every byte 12, and the routing attribute of
    /// every byte 44, by the tables of the standard.
    fn every_code(&mut self) -> Done {
        let types = [
            NO_DEVICE,
            END_DEVICE,
            EDGE_EXPANDER,
            FANOUT_EXPANDER,
            codes::RESERVED_4,
            codes::RESERVED_5,
            codes::RESERVED_6,
            codes::RESERVED_7,
        ];
        let attributes = [
            DIRECT,
            SUBTRACTIVE,
            TABLE,
            codes::RESERVED_3,
            codes::RESERVED_4,
            codes::RESERVED_5,
            codes::RESERVED_6,
            codes::RESERVED_7,
            codes::RESERVED_8,
            codes::RESERVED_9,
            codes::RESERVED_10,
            codes::RESERVED_11,
            codes::RESERVED_12,
            codes::RESERVED_13,
            codes::RESERVED_14,
            codes::RESERVED_15,
        ];
        let discover = &pair_rig()[230..282];
        for byte in 0..=255u8 {
            self.count += 2;
            let mut frame = discover.to_vec();
            frame[12] = byte;
            let device_type = types[usize::from(byte) % 128 / 16];
            let answer = 0x0001_0000_0000 + (u64::from(device_type) << 24);
            let got = self.subject.read_discover(&frame);
            same(
                || format!("byte 12 {byte:02x}h: read_discover"),
                answer,
                got,
            )?;

            let mut frame = discover.to_vec();
            frame[44] = byte;
            let attribute = attributes[usize::from(byte) % 16];
            let answer = 0x0001_0100_0000 + (u64::from(attribute) << 16);
            let got = self.subject.read_discover(&frame);
            same(
                || format!("byte 44 {byte:02x}h: read_discover"),
                answer,
                got,
            )?;
        }
        Ok(())
    }

    // ------------------------------------------------------------ shelves

    // ------------------------------------------------------------ exercises

    /// The file of an exercise by hand: no words, zeros alone, and a solution with a hole
    /// and a wide drive.
    fn exercises(&mut self) -> Done {
        let (first, second, b1, b2) = (0x10, 0x20, 0xb1, 0xb2);
        let unit = |address: u64, indexes: u16, phys: u8, configurable: u8| {
            let mut bytes = vec![0; 36];
            bytes[..8].copy_from_slice(&address.to_be_bytes());
            bytes[8] = 0x41;
            bytes[14..16].copy_from_slice(&indexes.to_be_bytes());
            bytes[17] = phys;
            bytes[18] = configurable;
            bytes
        };
        let phy = |number: u8, device: u8, attribute: u8, own: u64, attached: u64| {
            let mut bytes = vec![0; 52];
            bytes[..2].copy_from_slice(&[0x41, 0x10]);
            bytes[9] = number;
            bytes[12] = device << 4;
            bytes[16..24].copy_from_slice(&own.to_be_bytes());
            bytes[24..32].copy_from_slice(&attached.to_be_bytes());
            bytes[44] = attribute;
            bytes
        };
        let front = |indexes: u16, phys: u8| {
            [
                vec![0x10, 2],
                unit(first, indexes, 1, 1),
                phy(0, 2, 2, first, second),
                unit(second, 0, phys, 0),
                phy(0, 2, 1, second, first),
            ]
            .concat()
        };
        let drives = [
            phy(1, 1, 0, second, b1),
            phy(2, 0, 0, second, 0),
            phy(3, 1, 0, second, b2),
            phy(4, 1, 0, second, b2),
        ]
        .concat();
        for (words, file) in [
            (vec![], front(0, 1)),
            (vec![0; 65_535], front(65_535, 1)),
            (
                vec![b1, 0, b2, b2, 0, 0],
                [front(6, 5), drives.clone()].concat(),
            ),
        ] {
            self.makes("exercise", &file, |subject, _, room| {
                subject.make(first, second, &words, room)
            })?;
        }
        Ok(())
    }

    /// Each reason of 24, which comes before 16, and words just within it.
    fn no_exercises(&mut self) -> Done {
        let (first, second, b1) = (0x10, 0x20, 0xb1);
        let late = |index: usize| [vec![0; index], vec![b1, 0]].concat();
        for (name, first, second, words) in [
            ("first zero", 0, second, vec![b1]),
            ("second zero", first, 0, vec![b1]),
            ("equal", first, first, vec![b1]),
            ("both zero", 0, 0, vec![]),
            ("first a word", first, second, vec![b1, 0, first]),
            ("second a word", first, second, vec![second]),
            ("index 127", first, second, late(127)),
            ("index 300", first, second, late(300)),
            ("65,536 words", first, second, vec![0; 65_536]),
        ] {
            for length in [0, 400] {
                self.makes_nothing(name, refused(24, 0, 0), length, |subject, _, room| {
                    subject.make(first, second, &words, room)
                })?;
            }
        }
        let words = late(126);
        self.makes_nothing("index 126", refused(16, 0, 0), 6781, |subject, _, room| {
            subject.make(first, second, &words, room)
        })
    }

    // ------------------------------------------------------------ rig cards

    /// What a call makes in a buffer as long as needed and in a longer one, the rest
    /// of which stays, and 16 where it is one byte short.
    fn makes(
        &mut self,
        name: &str,
        expected: &[u8],
        call: impl Fn(&dyn Calls, u32, &mut [u8]) -> u64,
    ) -> Done {
        for more in [0, 5] {
            self.count += 1;
            let mut room = Lent::new(expected.len() + more, || 0x77);
            let after = room.after(expected);
            let got = call(self.subject, self.setting, room.part());
            same(|| name.into(), expected.len() as u64, got)?;
            room.check(|| name.into(), &after)?;
        }
        let short = refused(16, 0, 0);
        self.makes_nothing(name, short, expected.len() - 1, call)
    }

    /// A refusal leaves the buffer.
    fn makes_nothing(
        &mut self,
        name: &str,
        expected: u64,
        length: usize,
        call: impl Fn(&dyn Calls, u32, &mut [u8]) -> u64,
    ) -> Done {
        self.count += 1;
        let mut room = Lent::new(length, || 0x77);
        let before = room.after(&[]);
        same(
            || name.into(),
            expected,
            call(self.subject, self.setting, room.part()),
        )?;
        room.check(|| name.into(), &before)
    }

    fn card_of_file(&mut self, name: &str, file: &[u8], card: &[u8]) -> Done {
        let name = format!("{name}: card_of_file");
        self.makes(&name, card, |subject, setting, room| {
            subject.card_of_file(setting, file, room)
        })
    }

    fn file_of_card(&mut self, name: &str, card: &[u8], file: &[u8]) -> Done {
        let name = format!("{name}: file_of_card");
        self.makes(&name, file, |subject, setting, room| {
            subject.file_of_card(setting, card, room)
        })
    }

    fn no_file_of_card(&mut self, name: &str, card: &[u8], expected: u64) -> Done {
        let name = format!("{name}: file_of_card");
        for length in [0, 1000] {
            self.makes_nothing(&name, expected, length, |subject, setting, room| {
                subject.file_of_card(setting, card, room)
            })?;
        }
        Ok(())
    }

    /// Bits that are not on the card are not in the file that is made of it.
    fn pair_card(&mut self) -> Done {
        let card = pair_card();
        self.card_of_file("pair", &pair_rig(), &card)?;
        self.file_of_card("pair", &card, &pair_rig())?;
        self.card_of_file("mixed pair", &mixed_pair().bytes(), &card)?;
        // Ignored: byte 11 of the REPORT GENERAL of expander 0, bit 7 of byte 44 of its
        // phy 0, and what the empty phy says of something attached.
        let noisy = pair_bytes(|file| {
            file[21] = 0xee;
            file[82] = 0x82;
            file[306] = 0x50;
            file[314] = 9;
        });
        self.card_of_file("pair with ignored bytes", &noisy, &card)?;
        // One expander with R FFFFh, a vacant phy and a phy with nothing attached, table.
        let mut file = vec![0; 142];
        for (at, value) in [
            (0, 0x10),
            (1, 1),
            (9, 1),
            (10, 0x41),
            (16, 0xff),
            (17, 0xff),
            (19, 2),
            (20, 1),
            (38, 0x41),
            (39, 0x10),
            (40, 0x16),
            (90, 0x41),
            (91, 0x10),
            (99, 1),
            (113, 1),
            (134, 2),
        ] {
            file[at] = value;
        }
        let card = [
            0x20,
            0x00,
            0,
            0,
            0,
            0,
            0,
            0,
            0,
            1,
            0xff,
            0xff,
            0x81,
            // 0 00010110, 1 000 10, 0
            0b0000_1011,
            0b0100_0100,
        ];
        self.card_of_file("vacant", &file, &card)?;
        self.file_of_card("vacant", &card, &file)?;
        // A vacant phy's identifier and own address are not on the card.
        let mut told = file;
        told[47] = 7;
        told[61] = 1;
        self.card_of_file("vacant with an identifier", &told, &card)
    }

    /// 19 in each of its ways, and what is tested after it.
    fn card_refusals(&mut self) -> Done {
        let pair = pair_card();
        let wrong = refused(19, 0, 0);
        for length in 0..pair.len() {
            self.no_file_of_card(&format!("cut to {length}"), &pair[..length], wrong)?;
        }
        for more in [0x00, 0x01, 0x80] {
            let longer = [&pair[..], &[more]].concat();
            self.no_file_of_card("a byte too many", &longer, wrong)?;
        }
        let with = |bytes: &[(usize, u8)]| {
            let mut card = pair_card();
            for &(at, value) in bytes {
                card[at] = value;
            }
            card
        };
        for bit in [0, 1, 2, 3, 10, 11, 12, 13, 14, 15, 510, 511] {
            let mut card = pair_card();
            card[bit / 8] ^= 0x80 >> (bit % 8);
            self.no_file_of_card(&format!("bit {bit}"), &card, wrong)?;
        }
        // Of the vacant card of one expander the result.
        let vacant = |last: [u8; 2]| {
            let [first, second] = last;
            [0x20, 0, 0, 0, 0, 0, 0, 0, 0, 1, 0, 0, 0, first, second]
        };
        self.no_file_of_card("result 0", &vacant([0, 0]), wrong)?;
        for fill in 0..7 {
            let set = vacant([0x0b, 1 << fill]);
            self.no_file_of_card(&format!("fill bit {fill}"), &set, wrong)?;
        }
        // 19 is tested before all others, over the whole card.
        let zero = [(2, 0), (9, 0)];
        self.no_file_of_card("address 0", &with(&zero), refused(4, 0, 0))?;
        let both = with(&[(2, 0), (9, 0), (63, 0x01)]);
        self.no_file_of_card("address 0 and a fill bit", &both, wrong)?;
        // Type 4, with address and phy behind it, and attribute 3.
        self.no_file_of_card("type 4", &with(&[(13, 0xc9)]), refused(6, 0, 0))?;
        self.no_file_of_card("attribute 3", &with(&[(13, 0xad)]), refused(6, 0, 0))?;
        // The attached address of phy 0: bits 110 to 173.
        let nothing = with(&[(13, 0xa8), (14, 0), (21, 0)]);
        self.no_file_of_card("attached to 0", &nothing, refused(6, 0, 0))?;
        // The address of expander 1, bits 260 to 323, is that of expander 0.
        let used = with(&[(39, 0x01)]);
        self.no_file_of_card("address used", &used, refused(4, 1, 0))?;
        let cut = pair_rig();
        for (length, expected) in [(333, refused(1, 1, 2)), (1, refused(1, 0, 0))] {
            self.makes_nothing(
                "cut pair: card_of_file",
                expected,
                64,
                |subject, setting, room| subject.card_of_file(setting, &cut[..length], room),
            )?;
        }
        // Causes 7 and on are not tested: an expander attached to one that is not there.
        let far = pair_bytes(|file| file[69] = 0x30);
        let mut card = pair_card();
        card[21] ^= 0x40;
        self.card_of_file("cable to nowhere", &far, &card)?;
        self.file_of_card("cable to nowhere", &card, &far)
    }

    fn card_settings(&mut self) -> Done {
        let (card, file) = (pair_card(), pair_rig());
        for (setting, expected) in [
            (course(1, 3, 2), refused(3, 0, 0)),
            (course(2, 2, 2), refused(3, 1, 0)),
            (course(2, 1, 2), refused(3, 0, 0)),
            (course(0, 3, 2), refused(22, 0, 0)),
            (course(2, 129, 2), refused(22, 0, 0)),
            (WIDEST + (1 << 24), refused(22, 0, 0)),
        ] {
            self.setting = setting;
            self.no_file_of_card("pair in a course", &card, expected)?;
            self.makes_nothing(
                "pair: card_of_file",
                expected,
                64,
                |subject, setting, room| subject.card_of_file(setting, &file, room),
            )?;
        }
        // 22 before 19, and 19 before 3.
        self.no_file_of_card("no bytes", &[], refused(22, 0, 0))?;
        self.setting = course(1, 1, 1);
        self.no_file_of_card("cut pair", &card[..63], refused(19, 0, 0))?;
        // Chains are not tested.
        self.setting = course(2, 3, 1);
        self.card_of_file("pair in a course", &file, &card)?;
        self.file_of_card("pair in a course", &card, &file)?;
        self.setting = WIDEST;
        Ok(())
    }

    fn largest_card(&mut self) -> Done {
        let file = full_star(DIRECT);
        self.count += 2;
        let mut card = vec![0; 80_578];
        let bytes = self.subject.card_of_file(WIDEST, &file, &mut card);
        same(|| "largest: card_of_file".into(), 80_578, bytes)?;
        let mut back = vec![0x77; 428_290];
        let bytes = self.subject.file_of_card(WIDEST, &card, &mut back);
        same(|| "largest: file_of_card".into(), 428_290, bytes)?;
        self.judge("largest, from its card", &back, 64)
    }

    // ------------------------------------------------------------ compact forms

    /// The form of a file, in as many words as needed and in more, the rest of which
    /// stay; 16 where there is one word less.
    fn compact(&mut self, name: &str, file: &[u8], form: &[u64]) -> Done {
        let made = counts(file[1].into(), form.len() as u64);
        for (length, expected, written) in [
            (form.len(), made, form),
            (form.len() + 5, made, form),
            (form.len() - 1, refused(16, 0, 0), &[]),
        ] {
            self.compact_in(name, file, length, expected, written)?;
        }
        Ok(())
    }

    fn compact_in(
        &mut self,
        name: &str,
        file: &[u8],
        length: usize,
        expected: u64,
        written: &[u64],
    ) -> Done {
        self.count += 1;
        let mut room = Lent::new(length, || 0x7777);
        let after = room.after(written);
        let got = self.subject.compact(self.setting, file, room.part());
        let what = || format!("{name}: compact, {length} words lent");
        same(what, expected, got)?;
        room.check(what, &after)
    }

    /// Tables over a form, as the table call gives them for this file.
    fn compact_tables(&mut self, name: &str, form: &[u64], file: &[u8]) -> Done {
        let needed = self.subject.needed(self.setting, file);
        let count = (needed & 0xffff_ffff) as usize;
        let (mut words, mut bits) = (vec![0; count], vec![0; count.div_ceil(8)]);
        self.subject
            .tables(self.setting, file, &mut words, &mut bits);
        let bytes = bits.len();
        for (length, bytes, expected) in [
            (count, bytes, needed),
            (count + 2, bytes + 2, needed),
            (count.wrapping_sub(1), bytes, refused(16, 0, 0)),
            (count.wrapping_sub(1), 0, refused(16, 0, 0)),
            (count, bytes.wrapping_sub(1), refused(18, 0, 0)),
        ] {
            if length == usize::MAX || bytes == usize::MAX {
                continue;
            }
            let whole = expected == needed;
            let given = (
                if whole { &words[..] } else { &[] },
                if whole { &bits[..] } else { &[] },
            );
            self.form_tables(name, form, (length, bytes), expected, given)?;
        }
        Ok(())
    }

    fn form_tables(
        &mut self,
        name: &str,
        form: &[u64],
        (length, bytes): (usize, usize),
        expected: u64,
        (words, bits): (&[u64], &[u8]),
    ) -> Done {
        self.count += 1;
        let mut room = Lent::new(length, || 0x7777);
        let mut bit_room = Lent::new(bytes, || 0x77);
        let after = (room.after(words), bit_room.after(bits));
        let got = (self.subject).compact_tables(self.setting, form, room.part(), bit_room.part());
        let what = || format!("{name}: compact_tables, {length} words, {bytes} bytes");
        same(what, expected, got)?;
        room.check(what, &after.0)?;
        bit_room.check(what, &after.1)
    }

    /// A trace over a form and the pair rig's tables.
    fn form_trace(
        &mut self,
        name: &str,
        form: &[u64],
        (start, arrival, address): (u8, u8, u64),
        room: usize,
        expected: u64,
        passed: &[u8],
    ) -> Done {
        self.count += 1;
        let mut lent = Lent::new(room, || 0x77);
        let after = lent.after(passed);
        let got = self.subject.compact_trace(
            self.setting,
            form,
            &PAIR_WORDS,
            &PAIR_BITS,
            start,
            arrival,
            address,
            lent.part(),
        );
        let what = || format!("{name}: compact_trace from {start}, {arrival} to {address:016x}h");
        same(what, expected, got)?;
        lent.check(what, &after)
    }

    /// A list of requests over a form and these words and bits.
    fn form_list(
        &mut self,
        name: &str,
        form: &[u64],
        (words, bits): (&[u64], &[u8]),
        requests: &[u64],
        room: usize,
        expected: Result<&[u64], u64>,
    ) -> Done {
        self.count += 1;
        let mut lent = Lent::new(room, || 0x7777);
        let after = lent.after(expected.unwrap_or(&[]));
        let answer = expected.map_or_else(|refusal| refusal, |answers| answers.len() as u64);
        let got =
            self.subject
                .compact_trace_many(self.setting, form, words, bits, requests, lent.part());
        let what = || format!("{name}: compact_trace_many, {requests:x?}, room for {room}");
        same(what, answer, got)?;
        lent.check(what, &after)
    }

    /// The three calls over a form refuse, and write nothing.
    fn form_refused(&mut self, name: &str, form: &[u64], expected: u64) -> Done {
        for lengths in [(0, 0), (9, 2)] {
            self.form_tables(name, form, lengths, expected, (&[], &[]))?;
        }
        for request in [(0, 255, B1), (255, 7, 0)] {
            self.form_trace(name, form, request, 64, expected, &[])?;
            self.form_trace(name, form, request, 0, expected, &[])?;
        }
        let tables = (&PAIR_WORDS[..], &PAIR_BITS[..]);
        self.form_list(name, form, tables, &[255, B1], 1, Err(expected))?;
        self.form_list(name, form, (&[], &[]), &[255, B1], 0, Err(expected))?;
        self.form_list(name, form, (&[], &[]), &[], 0, Err(expected))
    }

    /// The pair rig with another word in its form.
    fn pair_form_with(at: usize, word: u64) -> Vec<u64> {
        let mut form = PAIR_FORM.to_vec();
        form[at] = word;
        form
    }

    fn pair_form(&mut self) -> Done {
        self.compact("pair", &pair_rig(), &PAIR_FORM)?;
        self.compact("mixed pair", &mixed_pair().bytes(), &PAIR_FORM)?;
        self.compact_tables("pair", &PAIR_FORM, &pair_rig())?;
        // What is ignored, and the configurable bit of expander 1.
        let noisy = pair_bytes(|file| {
            file[21] = 0xee;
            file[82] = 0x82;
            file[160] = 1;
            file[306] = 0x50;
            file[314] = 9;
        });
        self.compact("pair with ignored bytes", &noisy, &PAIR_FORM)?;
        // A drive's attached phy is kept; type 3; an empty phy keeps its attribute.
        let drive = pair_with(|rig| rig[0].phys[1].attached_phy = 0xff);
        let form = Test::pair_form_with(5, 0x201f_e000_0000_0000);
        self.compact("pair, phy 255 of drive A1", &drive, &form)?;
        self.compact_tables("pair, phy 255 of drive A1", &form, &drive)?;
        let fanout = pair_with(|rig| rig[1].phys[0].device_type = FANOUT_EXPANDER);
        let form = Test::pair_form_with(9, 0x6800_0000_0000_0000);
        self.compact("pair, type 3", &fanout, &form)?;
        self.compact_tables("pair, type 3", &form, &fanout)?;
        let empty = pair_with(|rig| rig[1].phys[2].attribute = SUBTRACTIVE);
        let form = Test::pair_form_with(13, 0x0800_0000_0000_0000);
        self.compact("pair, phy 2 subtractive", &empty, &form)?;
        self.compact_tables("pair, phy 2 subtractive", &form, &empty)?;
        // R of an expander without table phys, and a vacant phy, of any result.
        let other = pair_with(|rig| {
            rig[1].route_indexes = 0xfffe;
            rig[1].phys[2].result = 0x16;
        });
        let mut form = Test::pair_form_with(7, 0xfffe_0300_0000_0000);
        form[13] = 0x8000_0000_0000_0000;
        self.compact("pair, R FFFEh and vacant", &other, &form)?;
        self.compact_tables("pair, R FFFEh and vacant", &form, &other)
    }

    /// Numbers of attached expanders and phys: the third and the sixth expander are
    /// joined by phys 1 and 2.
    fn far_form(&mut self) -> Done {
        let mut rig: Vec<Expander> = (0..6)
            .map(|i| match i {
                0 => Expander::new(e(0), 9, true),
                _ => Expander::new(e(i), 0, true).link(SUBTRACTIVE, e(0), i as u8 - 1),
            })
            .collect();
        for leaf in 1..=4 {
            rig[0] = rig[0].clone().link(TABLE, e(leaf), 0);
        }
        rig[5].phys.clear();
        rig[5] = rig[5]
            .clone()
            .vacant(1)
            .empty(DIRECT)
            .link(SUBTRACTIVE, e(2), 1);
        rig[2] = rig[2].clone().link(TABLE, e(5), 2);
        rig[2].route_indexes = 1;
        let mut form = vec![e(0), 0x0009_0400_0000_0000];
        for leaf in 1..=4 {
            // type 2, table, expander, phy 0
            form.extend([e(leaf), 0x5000_0000_0000_0000 + ((leaf as u64) << 53)]);
        }
        for leaf in 1..=4 {
            let general = match leaf {
                2 => 0x0001_0200_0000_0000,
                _ => 0x0000_0100_0000_0000,
            };
            // type 2, subtractive, expander 0, phy of the hub
            let up = 0x4800_0000_0000_0000 + ((leaf as u64 - 1) << 45);
            form.extend([e(leaf), general, e(0), up]);
            if leaf == 2 {
                // type 2, table, expander 5, phy 2
                form.extend([e(5), 0x50a0_4000_0000_0000]);
            }
        }
        form.extend([e(5), 0x0000_0300_0000_0000]);
        form.extend([0, 0x8000_0000_0000_0000, 0, 0]);
        // type 2, subtractive, expander 2, phy 1
        form.extend([e(2), 0x4840_2000_0000_0000]);
        let bytes = file(rig);
        self.compact("six expanders", &bytes, &form)?;
        self.compact_tables("six expanders", &form, &bytes)
    }

    /// Words that are the form of no accepted domain.
    fn form_refusals(&mut self) -> Done {
        let no = refused(1, 0, 0);
        for length in 0..14 {
            self.form_refused(&format!("cut to {length}"), &PAIR_FORM[..length], no)?;
        }
        for more in [&[0][..], &[0, 0], &[e(1), 0]] {
            let longer = [&PAIR_FORM[..], more].concat();
            self.form_refused("words too many", &longer, no)?;
        }
        for (name, at, word) in [
            ("expander address 0", 0, 0),
            ("expander address used", 0, X20),
            ("a bit below R and phys", 1, PAIR_FORM[1] + 1),
            (
                "the topmost bit below R and phys",
                1,
                PAIR_FORM[1] + (1 << 39),
            ),
            ("R in the low bits", 1, 0x0000_0200_0000_0004),
            ("R too small", 1, 0x0001_0200_0000_0000),
            ("no phys", 1, 0x0004_0000_0000_0000),
            ("a phy too many", 1, 0x0004_0300_0000_0000),
            ("far end missing", 2, FF),
            ("attached expander left zero", 3, 0x5000_0000_0000_0000),
            ("another attached expander", 3, 0x5040_0000_0000_0000),
            ("another attached phy", 3, 0x5020_2000_0000_0000),
            ("direct to an expander", 3, 0x4020_0000_0000_0000),
            ("attribute 3", 3, 0x5820_0000_0000_0000),
            ("vacant and more", 3, 0xd020_0000_0000_0000),
            ("a bit below", 3, 0x5020_0000_0000_0001),
            ("the topmost bit below", 3, 0x5020_1000_0000_0000),
            ("a drive at address 0", 4, 0),
            ("a drive with an expander's address", 4, X20),
            ("a drive at two expanders", 4, B1),
            ("a drive's attached expander", 5, 0x2020_0000_0000_0000),
            ("vacant with an address", 5, 0x8000_0000_0000_0000),
            ("empty with an address", 5, 0),
            ("an empty phy's address kept", 12, A1),
            (
                "an empty phy's attached expander",
                13,
                0x0020_0000_0000_0000,
            ),
            ("an empty phy's attached phy", 13, 0x0000_2000_0000_0000),
            ("an empty phy's attribute 3", 13, 0x1800_0000_0000_0000),
            ("a vacant phy's attribute", 13, 0x8800_0000_0000_0000),
            ("a vacant phy's type", 13, 0xa000_0000_0000_0000),
        ] {
            self.form_refused(name, &Test::pair_form_with(at, word), no)?;
        }
        // Loops, islands and lists too long are no forms either; cause 10 is not in it.
        let island = [&PAIR_FORM[..], &[FF, 0x0000_0100_0000_0000, 0, 0]].concat();
        self.form_refused("an island", &island, no)?;
        let file = pair_with(|rig| rig[0].configurable = false);
        self.compact_in("not configurable", &file, 14, refused(10, 0, 0), &[])?;
        self.compact_in("cut", &pair_rig()[..333], 14, refused(1, 1, 2), &[])?;
        self.compact_in(
            "R 1",
            &pair_with(|rig| rig[0].route_indexes = 1),
            14,
            refused(14, 0, 0),
            &[],
        )?;
        let alone = [FF, 0x0000_0100_0000_0000, 0, 0x8000_0000_0000_0000];
        self.form_tables("one vacant phy", &alone, (0, 0), 0, (&[], &[]))?;
        let longest = vec![0x8000_0000_0000_0000; 20_000];
        self.form_refused("20,000 words", &longest, no)?;
        // 65 expanders.
        let many: Vec<u64> = (1..=65)
            .flat_map(|i| [i, 0x0000_0100_0000_0000, 0, 0])
            .collect();
        self.form_refused("65 expanders", &many, no)
    }

    fn form_settings(&mut self) -> Done {
        for (setting, file, form) in [
            (course(1, 3, 2), refused(3, 0, 0), refused(1, 0, 0)),
            (course(2, 2, 2), refused(3, 1, 0), refused(1, 0, 0)),
            (course(2, 3, 1), refused(23, 0, 0), refused(1, 0, 0)),
            (course(0, 3, 2), refused(22, 0, 0), refused(22, 0, 0)),
            (course(2, 3, 65), refused(22, 0, 0), refused(22, 0, 0)),
            (WIDEST + (1 << 24), refused(22, 0, 0), refused(22, 0, 0)),
        ] {
            self.setting = setting;
            self.compact_in("pair in a course", &pair_rig(), 14, file, &[])?;
            self.form_refused("pair in a course", &PAIR_FORM, form)?;
        }
        // 22 before 1.
        self.form_refused("no words", &[], refused(22, 0, 0))?;
        self.setting = course(2, 3, 2);
        self.compact("pair in a course", &pair_rig(), &PAIR_FORM)?;
        self.compact_tables("pair in a course", &PAIR_FORM, &pair_rig())?;
        self.setting = WIDEST;
        Ok(())
    }

    fn form_traces(&mut self) -> Done {
        for (request, room, expected, passed) in [
            ((0, 255, B1), 2, arrived(1, 1, 2), &[0, 1][..]),
            ((1, 1, A1), 5, arrived(0, 1, 2), &[1, 0]),
            ((1, 255, X10), 2, arrived(0, 255, 2), &[1, 0]),
            ((1, 255, FF), 2, no_destination(0, 2), &[1, 0]),
            ((1, 1, B1), 2, bad_destination(1, 1), &[1]),
            // 15, 16, 17
            ((2, 255, 0), 0, refused(15, 0, 0), &[]),
            ((1, 2, 0), 0, refused(15, 0, 0), &[]),
            ((0, 0, B1), 2, refused(15, 0, 0), &[]),
            ((0, 255, 0), 1, refused(16, 0, 0), &[]),
            ((0, 255, 0), 2, refused(17, 0, 0), &[]),
        ] {
            self.form_trace("pair", &PAIR_FORM, request, room, expected, passed)?;
        }
        // 18 after 16, before 17.
        self.count += 2;
        for (words, expected) in [(3, refused(16, 0, 0)), (4, refused(18, 0, 0))] {
            let words = &PAIR_WORDS[..words];
            let got = (self.subject).compact_trace(
                self.setting,
                &PAIR_FORM,
                words,
                &[],
                0,
                255,
                0,
                &mut [0; 2],
            );
            same(
                || "pair: compact_trace without disable bits".into(),
                expected,
                got,
            )?;
        }
        Ok(())
    }

    /// Requests are two words; an odd last word is none. 15 and 17 are answers.
    fn form_lists(&mut self) -> Done {
        let tables = (&PAIR_WORDS[..], &PAIR_BITS[..]);
        let list = [
            (0x00ff, B1, arrived(1, 1, 2)),
            (0x0101, A1, arrived(0, 1, 2)),
            (0x01ff, X10, arrived(0, 255, 2)),
            (0x01ff, FF, no_destination(0, 2)),
            (0x0101, B1, bad_destination(1, 1)),
            (0x02ff, B1, refused(15, 0, 0)),
            (0x0102, 0, refused(15, 0, 0)),
            (0x0000, B1, refused(15, 0, 0)),
            (0x0001_00ff, B1, refused(15, 0, 0)),
            (0x0001_0000_0000_00ff, 0, refused(15, 0, 0)),
            (u64::MAX, B1, refused(15, 0, 0)),
            (0x00ff, 0, refused(17, 0, 0)),
            (0x00ff, B1, arrived(1, 1, 2)),
        ];
        let requests: Vec<u64> = list.iter().flat_map(|each| [each.0, each.1]).collect();
        let answers: Vec<u64> = list.iter().map(|each| each.2).collect();
        let odd = [&requests[..], &[0x00ff]].concat();
        let (form, none) = (&PAIR_FORM, (&[][..], &[][..]));
        for count in 0..=list.len() {
            let requests = &requests[..2 * count];
            self.form_list("pair", form, tables, requests, count, Ok(&answers[..count]))?;
        }
        self.form_list("pair", form, tables, &odd, 13, Ok(&answers))?;
        self.form_list("pair", form, tables, &odd, 20, Ok(&answers))?;
        self.form_list("pair", form, tables, &odd[..1], 0, Ok(&[]))?;
        for (tables, requests, room, cause) in [
            (tables, &requests[..], 12, 16),
            (tables, &odd, 12, 16),
            (none, &requests, 13, 16),
            ((&PAIR_WORDS[..3], &PAIR_BITS), &requests, 13, 16),
            ((&PAIR_WORDS[..3], &[]), &[], 0, 16),
            ((&PAIR_WORDS, &[]), &requests, 12, 16),
            ((&PAIR_WORDS, &[]), &requests, 13, 18),
            ((&PAIR_WORDS, &[]), &[], 0, 18),
        ] {
            let refused = Err(refused(cause, 0, 0));
            self.form_list("pair", form, tables, requests, room, refused)?;
        }
        // With entry 0 switched off.
        let off = (&PAIR_WORDS[..], &[0xf0][..]);
        let answers = [no_destination(0, 1)];
        self.form_list(
            "pair, switched off",
            form,
            off,
            &requests[..2],
            1,
            Ok(&answers),
        )
    }

    fn largest_form(&mut self) -> Done {
        for (name, file) in [("star", full_star(DIRECT)), ("tables", full_star(TABLE))] {
            self.count += 1;
            let mut form = vec![0; 16_512];
            let answer = self.subject.compact(WIDEST, &file, &mut form);
            same(|| format!("{name}: compact"), counts(64, 16_512), answer)?;
            self.compact_tables(name, &form, &file)?;
            let longer = [&form[..], &[0]].concat();
            self.form_refused(name, &form[..16_511], refused(1, 0, 0))?;
            self.form_refused(name, &longer, refused(1, 0, 0))?;
        }
        Ok(())
    }

    /// A shelf of four phys: table, vacant, other, table; R is 2.
    fn shelf(&mut self) -> Result<Box<Words>, Difference> {
        let mut shelf = Box::new([0; SHELF_WORDS]);
        self.count += 1;
        let got = self.subject.shelf_fresh(&mut shelf, 4, 2, &[1, 0, 2, 1]);
        same(|| "shelf_fresh".into(), 0, got)?;
        Ok(shelf)
    }

    /// The answer to a frame; any but 00h leaves every word.
    fn obey(&mut self, shelf: &mut Words, frame: &[u8], expected: u64) -> Done {
        let before = *shelf;
        self.count += 1;
        let what = || format!("shelf_obey of {}", hex(frame));
        same(what, expected, self.subject.shelf_obey(shelf, frame))?;
        let changed = expected != 0 && *shelf != before;
        same(|| format!("{}: words changed", what()), 0, changed.into())
    }

    /// Address and disable byte of an entry; 0 and 2 where there is none.
    fn held(&mut self, shelf: &Words, phy: u8, index: u16, address: u64, disabled: u64) -> Done {
        self.count += 2;
        let what = |call| move || format!("{call} of phy {phy}, index {index}");
        let got = self.subject.shelf_entry(shelf, phy, index);
        same(what("shelf_entry"), address, got)?;
        let got = self.subject.shelf_disabled(shelf, phy, index);
        same(what("shelf_disabled"), disabled, got)
    }

    /// 1 to 16 phys, R up to 64, exactly one byte per phy, each 0, 1 or 2.
    fn shelves_told(&mut self) -> Done {
        let ones = [1; 18];
        for (phys, indexes, kinds, can) in [
            (4, 2, &[1, 0, 2, 1][..], true),
            (1, 0, &ones[..1], true),
            (16, 64, &ones[..16], true),
            (0, 2, &[], false),
            (0, 2, &ones[..1], false),
            (17, 2, &ones[..17], false),
            (255, 2, &ones[..16], false),
            (1, 65, &ones[..1], false),
            (1, 320, &ones[..1], false),
            (2, 64, &ones[..1], false),
            (1, 64, &ones[..2], false),
            (16, 64, &[], false),
            (2, 64, &[2, 3], false),
            (2, 64, &[3, 2], false),
            (1, 64, &[255], false),
        ] {
            let mut shelf = [0x7777; SHELF_WORDS];
            self.count += 1;
            let what = || format!("shelf_fresh of {phys} phys, R {indexes}, kinds {kinds:?}");
            let got = self.subject.shelf_fresh(&mut shelf, phys, indexes, kinds);
            same(what, if can { 0 } else { refused(3, 0, 0) }, got)?;
            let kept = shelf == [0x7777; SHELF_WORDS];
            same(|| format!("{}: kept", what()), (!can).into(), kept.into())?;
        }
        Ok(())
    }

    /// In this order: refused, 10h, 16h, 11h, 00h; both request lengths.
    fn shelf_results(&mut self) -> Done {
        let mut shelf = self.shelf()?;
        for length in [0x00, 0x09] {
            for (phy, index, expected) in [
                (4, 0, 0x10),
                (4, 2, 0x10),
                (127, 0, 0x10),
                (1, 0, 0x16),
                (1, 2, 0x16),
                (1, 65535, 0x16),
                (2, 0, 0x11),
                (2, 2, 0x11),
                (3, 2, 0x11),
                (0, 256, 0x11),
                (0, 65535, 0x11),
                (128, 0, refused(15, 0, 0)),
                (255, 2, refused(15, 0, 0)),
                (3, 1, 0x00),
                (0, 0, 0x00),
            ] {
                let frame = loading(length, phy, index, B1, 0x00);
                self.obey(&mut shelf, &frame, expected)?;
            }
        }
        let good = loading(0x09, 0, 1, B1, 0x00);
        self.obey(&mut shelf, &[], refused(1, 0, 0))?;
        self.obey(&mut shelf, &good[..39], refused(1, 0, 0))?;
        self.obey(&mut shelf, &[&good[..], &[0; 4]].concat(), refused(1, 0, 0))?;
        for (at, value) in [(0, 0x41), (1, 0x91), (3, 0x01), (3, 0x0a)] {
            let mut spoiled = good;
            spoiled[at] = value;
            self.obey(&mut shelf, &spoiled, refused(2, 0, 0))?;
        }
        self.held(&shelf, 0, 1, 0, 1)
    }

    /// One entry and its disable bit are replaced, and no other.
    fn shelf_entries(&mut self) -> Done {
        let mut shelf = self.shelf()?;
        for (phy, index) in [(0, 0), (0, 1), (3, 0), (3, 1)] {
            self.held(&shelf, phy, index, 0, 1)?;
        }
        for (phy, index) in [
            (0, 2),
            (3, 64),
            (1, 0),
            (2, 0),
            (4, 0),
            (128, 0),
            (255, 65535),
        ] {
            self.held(&shelf, phy, index, 0, 2)?;
        }
        for (address, byte, disabled) in [
            (B1, 0x00, 0),
            (A1, 0x80, 1),
            (B1, 0x7f, 0),
            (1 << 63, 0xff, 1),
            (0, 0x00, 0),
            (0, 0x80, 1),
            (B1, 0x00, 0),
        ] {
            self.obey(&mut shelf, &loading(0x00, 3, 1, address, byte), 0x00)?;
            self.held(&shelf, 3, 1, address, disabled)?;
            for (phy, index) in [(0, 0), (0, 1), (3, 0)] {
                self.held(&shelf, phy, index, 0, 1)?;
            }
        }
        // The same frame again changes nothing, and a fresh shelf has lost it.
        let before = *shelf;
        self.obey(&mut shelf, &loading(0x09, 3, 1, B1, 0x00), 0x00)?;
        same(|| "a frame sent again".into(), 1, (*shelf == before).into())?;
        let got = self.subject.shelf_fresh(&mut shelf, 4, 2, &[1, 0, 2, 1]);
        same(|| "shelf_fresh, again".into(), 0, got)?;
        self.held(&shelf, 3, 1, 0, 1)
    }

    /// Zeros have no phys; of other bytes at most 16 phys and 64 indexes count.
    fn shelf_of_any_bytes(&mut self) -> Done {
        let mut cleared = [0; SHELF_WORDS];
        self.obey(&mut cleared, &loading(0x00, 0, 0, B1, 0x00), 0x10)?;
        self.held(&cleared, 0, 0, 0, 2)?;
        // Every kind is 1; R and the number of phys are 01010101h.
        let mut full = [0x0101_0101_0101_0101; SHELF_WORDS];
        for (phy, index, expected) in [(16, 0, 0x10), (127, 0, 0x10), (15, 64, 0x11)] {
            self.obey(&mut full, &loading(0x00, phy, index, B1, 0x00), expected)?;
            self.held(&full, phy, index, 0, 2)?;
        }
        self.held(&full, 15, 63, 0x0101_0101_0101_0101, 1)?;
        self.obey(&mut full, &loading(0x00, 15, 63, B1, 0x00), 0x00)?;
        self.held(&full, 15, 63, B1, 0)?;
        // No kind is 0, 1 or 2: no phy is vacant, and none is a table phy.
        let mut other = [u64::MAX; SHELF_WORDS];
        self.obey(&mut other, &loading(0x00, 15, 0, B1, 0x00), 0x11)?;
        self.held(&other, 15, 0, 0, 2)
    }

    /// What smp_conf_route_info of smp_utils sends before the CRC: for phy 3, index 1
    /// and B1h; with --disable for phy 0, index 0 and 5000c50012345678h.
    fn smp_utils(&mut self) -> Done {
        let mut first = [0; 40];
        first[..4].copy_from_slice(&[0x40, 0x90, 0x00, 0x09]);
        let mut second = first;
        (first[7], first[9], first[16], first[23]) = (1, 3, 0x50, 0xb1);
        second[12] = 0x80;
        second[16..24].copy_from_slice(&[0x50, 0x00, 0xc5, 0x00, 0x12, 0x34, 0x56, 0x78]);
        let mut shelf = self.shelf()?;
        self.obey(&mut shelf, &first, 0x00)?;
        self.obey(&mut shelf, &second, 0x00)?;
        self.held(&shelf, 3, 1, B1, 0)?;
        self.held(&shelf, 0, 0, 0x5000_c500_1234_5678, 1)?;
        self.held(&shelf, 3, 0, 0, 1)
    }
}

/// A loading frame, byte by byte; `byte` is its byte 12.
fn loading(length: u8, phy: u8, index: u16, address: u64, byte: u8) -> [u8; 40] {
    let mut frame = [0; 40];
    (frame[0], frame[1], frame[3], frame[9], frame[12]) = (0x40, 0x90, length, phy, byte);
    frame[6..8].copy_from_slice(&index.to_be_bytes());
    frame[16..24].copy_from_slice(&address.to_be_bytes());
    frame
}

/// Each expander is table to the next and subtractive to the one before.
fn ring(expanders: usize) -> Vec<u8> {
    file(
        (0..expanders)
            .map(|i| {
                Expander::new(e(i), 100, true)
                    .link(SUBTRACTIVE, e((i + expanders - 1) % expanders), 1)
                    .link(TABLE, e((i + 1) % expanders), 0)
            })
            .collect(),
    )
}

/// 64 expanders in a row, expander 0 at the top, an end device at the last.
fn row(route_indexes: impl Fn(usize) -> u16) -> Vec<u8> {
    file(
        (0..64)
            .map(|i| {
                let mut expander = Expander::new(e(i), route_indexes(i), i < 63);
                expander = match i {
                    0 => expander.empty(DIRECT),
                    _ => expander.link(SUBTRACTIVE, e(i - 1), 1),
                };
                match i {
                    63 => expander.drive(DIRECT, d(63, 1)),
                    _ => expander.link(TABLE, e(i + 1), 0),
                }
            })
            .collect(),
    )
}

/// 63 expanders at one hub, an end device at each.
fn star(hub: usize, route_indexes: u16) -> Vec<u8> {
    let leaves: Vec<usize> = (0..64).filter(|&i| i != hub).collect();
    file(
        (0..64)
            .map(|i| {
                if i == hub {
                    leaves
                        .iter()
                        .fold(Expander::new(e(i), route_indexes, true), |hub, &leaf| {
                            hub.link(TABLE, e(leaf), 0)
                        })
                } else {
                    let phy = leaves.iter().position(|&leaf| leaf == i).expect("a leaf");
                    Expander::new(e(i), 0, false)
                        .link(SUBTRACTIVE, e(hub), phy as u8)
                        .drive(DIRECT, d(i, 1))
                }
            })
            .collect(),
    )
}
