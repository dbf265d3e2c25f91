//! Traces of one accepted file: which requests are taken, over which words and
//! disable bits, and each call compared with the reference.
//!
//! A file with few requests is traced whole: from every expander and every phy at
//! an end device to every address of the domain and to some that nobody bears,
//! over each content of words and bits. A sample takes every start and every
//! address over the tables given and over other words and bits, and random
//! requests besides.

use std::collections::{BTreeSet, HashSet};
use std::fmt::Write;

use crate::calls::Calls;
use crate::compare::{hex, same, Counts, Difference, Lent, MOST_WORDS};
use crate::forms::Form;
use crate::random::Random;
use crate::reference::{self, Attached, Judged, Outcome, Routes, Trace};
use crate::steps::Steps;

/// A file with more requests than this is traced by a sample.
const MOST_REQUESTS: usize = 4_000;

/// Random requests in a sample, beside those that take every start and address.
const MORE_REQUESTS: usize = 500;

/// Words, and bytes of disable bits, lent beyond those needed, at most.
const MORE: usize = 7;

/// So many words are looked at after each trace, with their bits; more of them
/// after all traces over them.
const FEW_WORDS: usize = 2_000;

/// Requests in and out of range for each file.
const WILD: usize = 12;

#[derive(Clone, Copy, PartialEq, Eq, Hash)]
pub struct Request {
    pub start: u8,
    pub arrival: u8,
    pub address: u64,
}

/// Starts and addresses for the traces of one domain.
pub struct Requests {
    /// Start expander and arrival phy.
    starts: Vec<(u8, u8)>,
    /// Addresses of the domain first, then some that nobody bears.
    pub addresses: Vec<u64>,
    borne: usize,
}

impl Requests {
    fn of(judged: &Judged, random: &mut Random) -> Requests {
        let mut starts = Vec::new();
        let mut addresses = Vec::new();
        let mut drives = BTreeSet::new();
        for (&number, expander) in &judged.domain.expanders {
            starts.push((number, 255));
            addresses.push(expander.address);
            for (&phy, fields) in &expander.phys {
                if let Attached::EndDevice(address) = fields.attached {
                    starts.push((number, phy));
                    drives.insert(address);
                }
            }
        }
        addresses.extend(drives);
        let borne = addresses.len();
        let near = random.pick(&addresses);
        for address in [
            random.next(),
            near ^ 1,
            near ^ 1 << random.below(64),
            u64::MAX,
            1,
        ] {
            if address != 0 && !addresses.contains(&address) {
                addresses.push(address);
            }
        }
        Requests {
            starts,
            addresses,
            borne,
        }
    }

    fn all(&self) -> usize {
        self.starts.len() * self.addresses.len()
    }

    fn at(start: (u8, u8), address: u64) -> Request {
        Request {
            start: start.0,
            arrival: start.1,
            address,
        }
    }

    pub fn any(&self, random: &mut Random) -> Request {
        Requests::at(random.pick(&self.starts), random.pick(&self.addresses))
    }

    /// All requests where there are few, otherwise a sample, which takes every
    /// start and every address where `every` says so.
    fn choose(&self, every: bool, random: &mut Random) -> Vec<Request> {
        if self.all() <= MOST_REQUESTS {
            let to_all = |&start| {
                let addresses = self.addresses.iter();
                addresses.map(move |&address| Requests::at(start, address))
            };
            return self.starts.iter().flat_map(to_all).collect();
        }
        let mut chosen = match every {
            true => self.each_once(random),
            false => Vec::new(),
        };
        chosen.extend((0..MORE_REQUESTS).map(|_| self.any(random)));
        chosen
    }

    /// As few requests as take every start and every address.
    fn each_once(&self, random: &mut Random) -> Vec<Request> {
        let mut starts = self.starts.clone();
        let mut addresses = self.addresses.clone();
        random.shuffle(&mut starts);
        random.shuffle(&mut addresses);
        (0..starts.len().max(addresses.len()))
            .map(|n| Requests::at(starts[n % starts.len()], addresses[n % addresses.len()]))
            .collect()
    }

    /// Tests that the requests taken are those that should have been: all, or
    /// (of a sample) some with every start and with every address.
    fn test_taken(&self, taken: &HashSet<Request>, every: bool) -> Result<(), Difference> {
        let starts: HashSet<_> = taken.iter().map(|r| (r.start, r.arrival)).collect();
        let addresses: HashSet<_> = taken.iter().map(|r| r.address).collect();
        let got = (starts.len(), addresses.len(), taken.len());
        let expected = match (self.all() <= MOST_REQUESTS, every) {
            (true, _) => (self.starts.len(), self.addresses.len(), self.all()),
            (false, true) => (self.starts.len(), self.addresses.len(), got.2),
            (false, false) => got,
        };
        if got == expected {
            return Ok(());
        }
        Err(Difference {
            what: "starts, addresses and requests that were traced".into(),
            expected: format!("{expected:?}"),
            got: format!("{got:?}"),
        })
    }

    /// A word for a table that need not be right.
    fn word(&self, random: &mut Random) -> u64 {
        match random.below(10) {
            0..=2 => 0,
            3 => random.next(),
            _ => random.pick(&self.addresses),
        }
    }

    /// Over the tables given a request to a device of the domain arrives there,
    /// but for an end device that asks for itself; no other request arrives. Where
    /// the chain crosses a table-to-table link, the steps decide.
    fn check_given(
        &self,
        judged: &Judged,
        request: Request,
        trace: &Trace,
    ) -> Result<(), Difference> {
        let source = judged.domain.expanders[&request.start]
            .phys
            .get(&request.arrival)
            .and_then(|phy| phy.attached_address());
        let expected = if source == Some(request.address) {
            Outcome::BadDestination
        } else if self.addresses[..self.borne].contains(&request.address) {
            if judged.crosses(request.start, request.address) {
                return Ok(());
            }
            Outcome::Arrived
        } else {
            Outcome::NoDestination
        };
        if trace.outcome == expected {
            return Ok(());
        }
        Err(Difference {
            what: format!("the reference over the tables given, {}", request.text()),
            expected: format!("{expected:?}"),
            got: format!("{trace:?}"),
        })
    }
}

impl Request {
    /// Whatever words and bits hold, a request passes no expander twice.
    fn check_passed(&self, trace: &Trace) -> Result<(), Difference> {
        let once: BTreeSet<_> = trace.passed.iter().collect();
        if once.len() == trace.passed.len() {
            return Ok(());
        }
        Err(Difference {
            what: format!("the reference, {}", self.text()),
            expected: "no expander twice".into(),
            got: format!("{trace:?}"),
        })
    }

    pub fn text(&self) -> String {
        format!(
            "start {}, arrival {}, {:016x}h",
            self.start, self.arrival, self.address
        )
    }
}

/// What the words and disable bits hold that a trace reads.
#[derive(Clone, Copy, PartialEq)]
pub enum Content {
    Given,
    WordsChanged,
    BitsChanged,
    Other,
}

/// The lengths of the buffers that a trace is lent.
#[derive(Clone, Copy)]
pub struct Lengths {
    pub words: usize,
    pub bits: usize,
    pub passed: usize,
}

/// Words and disable bits to trace over, and the reference's routes over them,
/// unless they are fewer than needed.
pub struct Tables {
    pub words: Lent<u64>,
    pub bits: Lent<u8>,
    kept: (Vec<u64>, Vec<u8>),
    pub routes: Option<Routes>,
    pub content: Content,
}

impl Tables {
    fn of(words: Lent<u64>, bits: Lent<u8>, content: Content, judged: &Judged) -> Tables {
        let enough =
            words.read().len() >= judged.needed && bits.read().len() >= judged.needed_bits();
        Tables {
            kept: (words.after(&[]), bits.after(&[])),
            routes: enough.then(|| judged.routes(words.read(), bits.read())),
            words,
            bits,
            content,
        }
    }

    pub fn check(&self) -> Result<(), Difference> {
        let what = |lent: &str| format!("{lent} of a trace or step");
        self.words.check(|| what("words"), &self.kept.0)?;
        self.bits.check(|| what("disable bits"), &self.kept.1)
    }

    /// Words and bits in hexadecimal, cut where there are many.
    pub fn text(&self, lengths: Lengths) -> String {
        let mut text = format!("{} words", lengths.words);
        let given = self.content == Content::Given;
        if given {
            text += " of the tables given";
        } else {
            for (place, word) in self.words.read()[..lengths.words]
                .iter()
                .take(600)
                .enumerate()
            {
                let _ = write!(text, "{} {word:016x}", if place == 0 { ":" } else { "" });
            }
        }
        let _ = write!(text, ", {} bytes of disable bits", lengths.bits);
        if !given {
            let _ = write!(text, " {}", hex(&self.bits.read()[..lengths.bits.min(75)]));
        }
        text
    }
}

pub struct Traces<'a> {
    subject: &'a dyn Calls,
    setting: u32,
    file: &'a [u8],
    judged: &'a Judged,
    requests: Requests,
}

impl<'a> Traces<'a> {
    pub fn of(
        subject: &'a dyn Calls,
        setting: u32,
        file: &'a [u8],
        judged: &'a Judged,
        random: &mut Random,
    ) -> Traces<'a> {
        let requests = Requests::of(judged, random);
        Traces {
            subject,
            setting,
            file,
            judged,
            requests,
        }
    }

    pub fn check(&self, random: &mut Random, counts: &mut Counts) -> Result<(), Difference> {
        let Traces {
            subject,
            setting,
            file,
            judged,
            ..
        } = *self;
        let steps = Steps::of(subject, setting, file, judged, &self.requests);
        let form = Form::of_file(subject, setting, file, judged);
        if judged.needed > MOST_WORDS {
            counts.untraced_files += 1;
            let words = Lent::new(10, || random.next());
            let bits = Lent::new(10, || random.byte());
            let tables = Tables::of(words, bits, Content::Other, judged);
            steps.refusals(&tables, &mut random.aside(), counts)?;
            form.too_few(&tables, &mut random.aside(), counts)?;
            return self.wild(&tables, random, counts);
        }
        let given = judged.table_words();
        for content in [
            Content::Given,
            Content::WordsChanged,
            Content::BitsChanged,
            Content::Other,
        ] {
            let tables = self.tables(content, &given, random);
            let traced = self.over(&tables, random, counts)?;
            steps.over(&tables, &mut random.aside(), counts)?;
            form.over(&tables, &traced, &mut random.aside(), counts)?;
            if content == Content::Other {
                self.lengths(&tables, random, counts)?;
                self.wild(&tables, random, counts)?;
            }
        }
        match self.requests.all() <= MOST_REQUESTS {
            true => counts.whole_files += 1,
            false => counts.sampled_files += 1,
        }
        Ok(())
    }

    /// Words and disable bits of this content, with others behind those needed.
    fn tables(&self, content: Content, given: &[u64], random: &mut Random) -> Tables {
        // In a quarter of the files no bit is set among the other ones.
        let mask = random.pick(&[0x00, 0xff, 0xff, 0xff]);
        let mut words = Lent::new(given.len() + MORE, || self.requests.word(random));
        let needed_bits = self.judged.needed_bits();
        let mut bits = Lent::new(needed_bits + MORE, || random.byte() & mask);
        if content != Content::Other {
            words.part()[..given.len()].copy_from_slice(given);
            bits.part()[..needed_bits].copy_from_slice(&reference::disable_bits(given));
        }
        if content == Content::WordsChanged {
            for word in words.part() {
                if random.chance(1, 6) {
                    *word = self.requests.word(random);
                }
            }
        }
        if content == Content::BitsChanged {
            for byte in bits.part() {
                for place in 0..8 {
                    *byte ^= u8::from(random.chance(1, 6)) << place;
                }
            }
        }
        Tables::of(words, bits, content, self.judged)
    }

    /// The requests chosen, over these words and bits, and their answers.
    fn over(
        &self,
        tables: &Tables,
        random: &mut Random,
        counts: &mut Counts,
    ) -> Result<Vec<(Request, u64)>, Difference> {
        let every = matches!(tables.content, Content::Given | Content::Other);
        let mut lengths = Lengths {
            words: self.judged.needed + random.pick(&[0, 0, 1, MORE]),
            bits: self.judged.needed_bits() + random.pick(&[0, 0, 1, MORE]),
            passed: 0,
        };
        let mut taken = HashSet::new();
        let mut traced = Vec::new();
        for request in self.requests.choose(every, random) {
            lengths.passed = self.judged.expanders() + random.pick(&[0, 0, 1, 9]);
            if let Some(trace) = self.one(tables, lengths, request, random, counts)? {
                request.check_passed(&trace)?;
                let given = || self.requests.check_given(self.judged, request, &trace);
                match tables.content {
                    Content::Given => given()?,
                    Content::BitsChanged => counts.switched += given().is_err() as u64,
                    Content::WordsChanged | Content::Other => (),
                }
                taken.insert(request);
                traced.push((request, trace.answer()));
            }
        }
        tables.check()?;
        self.requests.test_taken(&taken, every)?;
        Ok(traced)
    }

    /// Requests with every length around the needed one, of words, bits and bytes.
    fn lengths(
        &self,
        tables: &Tables,
        random: &mut Random,
        counts: &mut Counts,
    ) -> Result<(), Difference> {
        let around = |needed: usize| [0, needed.saturating_sub(1), needed, needed + 1];
        for words in around(self.judged.needed) {
            for bits in around(self.judged.needed_bits()) {
                for passed in around(self.judged.expanders()) {
                    let lengths = Lengths {
                        words,
                        bits,
                        passed,
                    };
                    let request = self.requests.any(random);
                    self.one(tables, lengths, request, random, counts)?;
                }
            }
        }
        tables.check()
    }

    /// Requests with starts, arrivals, addresses and lengths in and out of range.
    fn wild(
        &self,
        tables: &Tables,
        random: &mut Random,
        counts: &mut Counts,
    ) -> Result<(), Difference> {
        let expanders = self.judged.expanders();
        let length = |needed: usize, lent: usize, random: &mut Random| match random.below(4) {
            0 => needed.saturating_sub(1).min(lent),
            1 => 0,
            _ => lent,
        };
        for _ in 0..WILD {
            let request = self.wild_request(random);
            let passed = match random.below(4) {
                0 => random.below(expanders),
                1 => expanders - 1,
                _ => expanders + random.below(3),
            };
            let (words, bits) = (tables.words.read().len(), tables.bits.read().len());
            let lengths = Lengths {
                words: length(self.judged.needed, words, random),
                bits: length(self.judged.needed_bits(), bits, random),
                passed,
            };
            self.one(tables, lengths, request, random, counts)?;
        }
        tables.check()
    }

    fn wild_request(&self, random: &mut Random) -> Request {
        let expanders = self.judged.expanders();
        let start = match random.below(6) {
            0 => random.byte(),
            1 => expanders as u8,
            _ => random.below(expanders) as u8,
        };
        let arrival = match random.below(5) {
            0 => 255,
            1 => random.pick(&self.requests.starts).1,
            2 => random.byte(),
            _ => match self.judged.domain.expanders.get(&start) {
                Some(expander) => {
                    let last = expander.phys.keys().last().copied().unwrap_or(0);
                    random.between(0, usize::from(last) + 1) as u8
                }
                None => random.pick(&[255, 0, 1]),
            },
        };
        let address = match random.chance(1, 4) {
            true => 0,
            false => random.pick(&self.requests.addresses),
        };
        Requests::at((start, arrival), address)
    }

    /// One call, compared with the reference; nothing where it is refused.
    fn one(
        &self,
        tables: &Tables,
        lengths: Lengths,
        request: Request,
        random: &mut Random,
        counts: &mut Counts,
    ) -> Result<Option<Trace>, Difference> {
        let Request {
            start,
            arrival,
            address,
        } = request;
        let Lengths {
            words,
            bits,
            passed: room,
        } = lengths;
        let answered = self
            .judged
            .test_request(words, bits, start, arrival, address, room)
            .map(|()| {
                let routes = tables.routes.as_ref().expect("as many words as needed");
                self.judged.trace(routes, start, arrival, address)
            });
        let mut passed = Lent::new(room, || random.byte());
        let (expected, after) = match &answered {
            Ok(trace) => (trace.answer(), passed.after(&trace.passed)),
            Err(refusal) => (refusal.answer(), passed.after(&[])),
        };
        let got = self.subject.trace(
            self.setting,
            self.file,
            &tables.words.read()[..words],
            &tables.bits.read()[..bits],
            start,
            arrival,
            address,
            passed.part(),
        );
        counts.answer("trace", expected);
        let what = || {
            let tables = tables.text(lengths);
            format!("trace over {tables}, {room} bytes, {}", request.text())
        };
        same(what, expected, got)?;
        passed.check(what, &after)?;
        if tables.words.read().len() <= FEW_WORDS {
            tables.check()?;
        }
        let trace = answered.ok();
        trace.iter().for_each(|trace| counts.trace(trace));
        Ok(trace)
    }
}
