//! Steps of one accepted file: at expanders and arrival phys of every kind, to
//! addresses borne and not, each call compared with the reference; and requests
//! followed step by step beside their traces.

use crate::calls::Calls;
use crate::compare::{same, Counts, Difference, Lent};
use crate::random::Random;
use crate::reference::{Attached, Attribute, Judged, Place};
use crate::traces::{Content, Lengths, Request, Requests, Tables};

/// Steps over each content of words and disable bits, from each kind of arrival
/// that is allowed.
const STEPS: usize = 2;

/// Steps with lengths of words and bits around those needed.
const LENGTHS: usize = 6;

/// Expanders and arrival phys, by what is attached there.
struct Arrivals {
    /// 255, end devices, expanders.
    allowed: [Vec<Place>; 3],
    /// Empty, vacant, missing, and at no expander.
    refused: [Vec<Place>; 4],
}

impl Arrivals {
    fn of(judged: &Judged) -> Arrivals {
        let (mut itself, mut drives, mut links) = (Vec::new(), Vec::new(), Vec::new());
        let (mut empty, mut vacant, mut missing) = (Vec::new(), Vec::new(), Vec::new());
        for (&number, expander) in &judged.domain.expanders {
            itself.push((number, 255));
            for phy in 0..expander.count {
                let kind = match expander.phys.get(&phy).map(|phy| phy.attached) {
                    None => &mut vacant,
                    Some(Attached::Nothing) => &mut empty,
                    Some(Attached::EndDevice(_)) => &mut drives,
                    Some(Attached::Expander(..)) => &mut links,
                };
                kind.push((number, phy));
            }
            missing.extend([(number, expander.count), (number, 128), (number, 254)]);
        }
        let end = judged.expanders() as u8;
        let nowhere = vec![(end, 255), (end, 0), (255, 255), (254, 1)];
        Arrivals {
            allowed: [itself, drives, links],
            refused: [empty, vacant, missing, nowhere],
        }
    }
}

pub struct Steps<'a> {
    subject: &'a dyn Calls,
    setting: u32,
    file: &'a [u8],
    judged: &'a Judged,
    requests: &'a Requests,
    arrivals: Arrivals,
}

impl<'a> Steps<'a> {
    pub fn of(
        subject: &'a dyn Calls,
        setting: u32,
        file: &'a [u8],
        judged: &'a Judged,
        requests: &'a Requests,
    ) -> Steps<'a> {
        Steps {
            subject,
            setting,
            file,
            judged,
            requests,
            arrivals: Arrivals::of(judged),
        }
    }

    /// Steps over these words and bits, and one request followed by steps.
    pub fn over(
        &self,
        tables: &Tables,
        random: &mut Random,
        counts: &mut Counts,
    ) -> Result<(), Difference> {
        let lengths = Lengths {
            words: random.between(self.judged.needed, tables.words.read().len()),
            bits: random.between(self.judged.needed_bits(), tables.bits.read().len()),
            passed: self.judged.expanders(),
        };
        for places in self.arrivals.allowed.iter().filter(|kind| !kind.is_empty()) {
            for _ in 0..STEPS {
                let at = random.pick(places);
                let address = self.address(tables, at, random);
                self.one(tables, lengths, at, address, counts)?;
            }
        }
        self.walk(tables, lengths, self.requests.any(random), counts)?;
        if tables.content == Content::Other {
            self.refusals(tables, random, counts)?;
        }
        tables.check()
    }

    /// An address that the expander is likely to know.
    fn address(&self, tables: &Tables, (number, arrival): Place, random: &mut Random) -> u64 {
        let expander = &self.judged.domain.expanders[&number];
        let phys: Vec<_> = expander.phys.iter().collect();
        let known = match random.below(8) {
            0 => Some(expander.address),
            1 | 2 => (expander.phys.get(&arrival)).and_then(|phy| phy.attached_address()),
            3 if !phys.is_empty() => random.pick(&phys).1.attached_address(),
            4..=6 => self.word(tables, number, random),
            _ => None,
        };
        match known {
            Some(address) if address != 0 => address,
            _ => random.pick(&self.requests.addresses),
        }
    }

    /// A word of one of the expander's tables, often among the first.
    fn word(&self, tables: &Tables, number: u8, random: &mut Random) -> Option<u64> {
        let expander = &self.judged.domain.expanders[&number];
        let phys = expander.phys.iter();
        let table_phys: Vec<u8> = phys
            .filter(|(_, phy)| phy.attribute == Attribute::Table)
            .map(|(&phy, _)| phy)
            .collect();
        let indexes = usize::from(expander.route_indexes);
        if table_phys.is_empty() || indexes == 0 {
            return None;
        }
        let place = (number, random.pick(&table_phys));
        let end = random.pick(&[indexes, indexes.min(8)]);
        let word = self.judged.word_of(place, random.below(end))?;
        Some(tables.words.read()[word])
    }

    /// Steps that are refused, for one cause or several.
    pub fn refusals(
        &self,
        tables: &Tables,
        random: &mut Random,
        counts: &mut Counts,
    ) -> Result<(), Difference> {
        let lent = (tables.words.read().len(), tables.bits.read().len());
        let enough = Lengths {
            words: lent.0,
            bits: lent.1,
            passed: 0,
        };
        let Arrivals { allowed, refused } = &self.arrivals;
        for places in refused.iter().filter(|kind| !kind.is_empty()) {
            let at = random.pick(places);
            let address = self.requests.any(random).address;
            self.one(tables, enough, at, address, counts)?;
        }
        self.one(tables, enough, random.pick(&allowed[0]), 0, counts)?;
        let around = |needed: usize, lent: usize, random: &mut Random| {
            let length = random.pick(&[0, needed.saturating_sub(1), needed, needed, lent]);
            length.min(lent)
        };
        for _ in 0..LENGTHS {
            let lengths = Lengths {
                words: around(self.judged.needed, lent.0, random),
                bits: around(self.judged.needed_bits(), lent.1, random),
                passed: 0,
            };
            let kinds: Vec<_> = allowed.iter().chain(&refused[2..]).collect();
            let at = match random.pick(&kinds) {
                places if places.is_empty() => (0, 255),
                places => random.pick(places),
            };
            let address = match random.chance(1, 3) {
                true => 0,
                false => self.requests.any(random).address,
            };
            self.one(tables, lengths, at, address, counts)?;
        }
        Ok(())
    }

    /// One step, compared with the reference; gives its answer.
    fn one(
        &self,
        tables: &Tables,
        lengths: Lengths,
        at: Place,
        address: u64,
        counts: &mut Counts,
    ) -> Result<u64, Difference> {
        let tested = self
            .judged
            .test_step(lengths.words, lengths.bits, at, address);
        let expected = match tested {
            Err(refusal) => refusal.answer(),
            Ok(()) => {
                let routes = tables.routes.as_ref().expect("as many words as needed");
                let step = self.judged.step(routes, at, address);
                counts.step(&step);
                step.answer()
            }
        };
        let got = self.subject.step(
            self.setting,
            self.file,
            &tables.words.read()[..lengths.words],
            &tables.bits.read()[..lengths.bits],
            at.0,
            at.1,
            address,
        );
        counts.answer("step", expected);
        let what = || {
            let (expander, arrival) = at;
            let tables = tables.text(lengths);
            format!("step over {tables}, expander {expander}, arrival {arrival}, {address:016x}h")
        };
        same(what, expected, got)?;
        Ok(got)
    }

    /// The steps of a request end as its trace does, at the same expanders.
    fn walk(
        &self,
        tables: &Tables,
        lengths: Lengths,
        request: Request,
        counts: &mut Counts,
    ) -> Result<(), Difference> {
        let Request {
            start,
            arrival,
            address,
        } = request;
        let (end, walked) = walk((start, arrival), |at| {
            self.one(tables, lengths, at, address, counts)
        })?;
        let mut passed = Lent::new(lengths.passed, || 0x77);
        let after = passed.after(&walked);
        let got = self.subject.trace(
            self.setting,
            self.file,
            &tables.words.read()[..lengths.words],
            &tables.bits.read()[..lengths.bits],
            start,
            arrival,
            address,
            passed.part(),
        );
        counts.walks += 1;
        let what = || format!("trace beside steps, {}", request.text());
        same(what, end, got)?;
        passed.check(what, &after)
    }
}

/// Follows a request by steps alone; `step` gives the answer at an expander and
/// arrival phy. Gives what the trace should answer, and the expanders passed.
pub fn walk(
    start: Place,
    mut step: impl FnMut(Place) -> Result<u64, Difference>,
) -> Result<(u64, Vec<u8>), Difference> {
    let mut at = start;
    let mut passed = Vec::new();
    loop {
        passed.push(at.0);
        let answer = step(at)?;
        let [_, bad, rule, phy, _, _, next, arrival] = answer.to_be_bytes();
        if answer >> 63 == 1 {
            return Ok((answer, passed));
        }
        if next == 255 || passed.len() > 64 {
            let (outcome, phy) = match (bad, rule) {
                (1, _) => (2, 255),
                (_, 1 | 2) => (0, phy),
                _ => (1, 255),
            };
            let end = [outcome, at.0, phy, passed.len() as u8];
            return Ok((u32::from_be_bytes(end).into(), passed));
        }
        at = (next, arrival);
    }
}
