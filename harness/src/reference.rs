//! Reference implementation of documents 01 and 02. It shares no code with the
//! crates.
//!
//! A file becomes objects held in maps, and loops, chains, levels and routes
//! are found by recursive search. Speed does not matter here.

use std::collections::{BTreeMap, BTreeSet, HashMap, HashSet};
use std::ops::Range;

use crate::calls::{Calls, Part};
use crate::cards;
use crate::events::{self, Event};
use crate::exercises;
use crate::forms;
use crate::joins;
use crate::shelves::{self, Plain, Words};
use crate::traces::Request;

/// The answer "number, expander, phy".
#[derive(Clone, Copy, Debug, PartialEq, Eq)]
pub struct Refusal {
    pub number: u8,
    pub expander: u8,
    pub phy: u8,
}

impl Refusal {
    pub fn of(number: u8, (expander, phy): Place) -> Refusal {
        Refusal {
            number,
            expander,
            phy,
        }
    }

    /// The refusal as the calls answer it.
    pub fn answer(self) -> u64 {
        (1 << 63)
            + u64::from(self.number) * 65536
            + u64::from(self.expander) * 256
            + u64::from(self.phy)
    }
}

/// Expander number and phy number.
pub type Place = (u8, u8);

pub const NOWHERE: Place = (0, 0);

pub fn refuse(cause: bool, number: u8, place: Place) -> Result<(), Refusal> {
    match cause {
        true => Err(Refusal::of(number, place)),
        false => Ok(()),
    }
}

fn refuse_lowest(number: u8, place: Option<Place>) -> Result<(), Refusal> {
    place.map_or(Ok(()), |place| Err(Refusal::of(number, place)))
}

/// A number of several bytes, most significant first.
fn number(bytes: &[u8]) -> u64 {
    bytes
        .iter()
        .fold(0, |sum, &byte| sum * 256 + u64::from(byte))
}

// ---------------------------------------------------------------- settings

/// A course's setting: most expanders, most phys, and longest chain in expanders.
#[derive(Clone, Copy, Debug, PartialEq, Eq)]
pub struct Setting {
    pub expanders: u8,
    pub phys: u8,
    pub chain: u8,
}

impl Setting {
    pub const WIDEST: Setting = Setting {
        expanders: 64,
        phys: 128,
        chain: 64,
    };

    /// A setting as the calls take it, or cause 22.
    pub fn read(packed: u32) -> Result<Setting, Refusal> {
        let [above, expanders, phys, chain] = packed.to_be_bytes();
        refuse(above != 0, 22, NOWHERE)?;
        for (limit, most) in [(expanders, 64), (phys, 128), (chain, 64)] {
            refuse(limit == 0 || limit > most, 22, NOWHERE)?;
        }
        Ok(Setting {
            expanders,
            phys,
            chain,
        })
    }
}

// ---------------------------------------------------------------- frames

/// A response by its byte 3, RESPONSE LENGTH, and its bytes: short, and long.
type Sizes = [(u8, usize); 2];

const GENERAL: Sizes = [(0x00, 28), (0x10, 68)];
const DISCOVER: Sizes = [(0x00, 52), (0x0f, 64)];

/// How many bytes the response has that starts here, or the number of the
/// refusal.
fn size(response: &[u8], sizes: Sizes) -> Result<usize, u8> {
    match response {
        [_, _, _, length, ..] => HashMap::from(sizes).get(length).copied().ok_or(2),
        _ => Err(1),
    }
}

/// REPORT GENERAL.
#[derive(Clone, Copy, Debug)]
pub struct General {
    pub route_indexes: u16,
    pub phys: u8,
    pub configurable: bool,
    /// TABLE TO TABLE SUPPORTED and CONFIGURES OTHERS of a long response.
    pub long: Option<(bool, bool)>,
}

impl General {
    /// The number of the refusal where there is one.
    pub fn read(frame: &[u8]) -> Result<General, u8> {
        if frame.len() != size(frame, GENERAL)? {
            return Err(1);
        }
        if !frame.starts_with(&[0x41, 0x00, 0x00]) {
            return Err(2);
        }
        Ok(General {
            route_indexes: number(&frame[6..=7]) as u16,
            phys: frame[9],
            configurable: frame[10] % 2 == 1,
            long: (frame.len() == 68).then_some((frame[10] >= 0x80, frame[10] % 8 >= 4)),
        })
    }

    /// What the SAS-2 reader answers.
    pub fn answer_sas2(frame: &[u8]) -> u64 {
        let more = General::read(frame).ok().and_then(|general| general.long);
        General::answer(frame)
            + more.map_or(0, |(table_to_table, others)| {
                (1 << 34) + u64::from(table_to_table) * (1 << 33) + u64::from(others) * (1 << 32)
            })
    }

    pub fn answer(frame: &[u8]) -> u64 {
        match General::read(frame) {
            Err(cause) => Refusal::of(cause, NOWHERE).answer(),
            Ok(general) => {
                u64::from(general.route_indexes) * 65536
                    + u64::from(general.phys) * 256
                    + u64::from(general.configurable)
            }
        }
    }
}

/// DISCOVER: the fields of document 01 as they stand, or the result of a vacant
/// phy.
#[derive(Clone, Copy, Debug)]
pub enum Discover {
    Vacant(u8),
    Fields {
        identifier: u8,
        device_type: u8,
        attribute: u8,
        own: u64,
        attached: u64,
        attached_phy: u8,
    },
}

impl Discover {
    pub fn read(frame: &[u8]) -> Result<Discover, u8> {
        if frame.len() != size(frame, DISCOVER)? {
            return Err(1);
        }
        if !frame.starts_with(&[0x41, 0x10]) {
            return Err(2);
        }
        if frame[2] != 0 {
            return Ok(Discover::Vacant(frame[2]));
        }
        Ok(Discover::Fields {
            identifier: frame[9],
            device_type: frame[12] % 128 / 16,
            attribute: frame[44] % 16,
            own: number(&frame[16..=23]),
            attached: number(&frame[24..=31]),
            attached_phy: frame[32],
        })
    }

    pub fn answer(frame: &[u8]) -> u64 {
        match Discover::read(frame) {
            Err(cause) => Refusal::of(cause, NOWHERE).answer(),
            Ok(Discover::Vacant(result)) => (1 << 62) + u64::from(result),
            Ok(Discover::Fields {
                identifier,
                device_type,
                attribute,
                attached_phy,
                ..
            }) => [
                (identifier, 32),
                (device_type, 24),
                (attribute, 16),
                (attached_phy, 0),
            ]
            .iter()
            .map(|&(field, power)| u64::from(field) * 2u64.pow(power))
            .sum(),
        }
    }

    /// Own and attached address; both 0 where refused or vacant.
    pub fn addresses(frame: &[u8]) -> (u64, u64) {
        match Discover::read(frame) {
            Ok(Discover::Fields { own, attached, .. }) => (own, attached),
            _ => (0, 0),
        }
    }
}

/// CONFIGURE ROUTE INFORMATION.
#[derive(Clone, Copy, Debug, PartialEq, Eq)]
pub struct Route {
    pub length: u8,
    pub phy: u8,
    pub index: u16,
    pub address: u64,
    pub disabled: bool,
}

impl Route {
    /// REQUEST LENGTH, byte 3.
    const LENGTHS: [u8; 2] = [0x00, 0x09];

    /// The forty bytes; `room` is the length of the lent buffer.
    pub fn write(self, room: usize) -> Result<Vec<u8>, Refusal> {
        refuse(!Route::LENGTHS.contains(&self.length), 2, NOWHERE)?;
        refuse(self.phy > 127, 15, NOWHERE)?;
        refuse(room < 40, 16, NOWHERE)?;
        let fields: HashMap<usize, u8> = [(0, 0x40), (1, 0x90), (3, self.length), (9, self.phy)]
            .into_iter()
            .chain(self.disabled.then_some((12, 0x80)))
            .chain((6..).zip(self.index.to_be_bytes()))
            .chain((16..).zip(self.address.to_be_bytes()))
            .collect();
        Ok((0..40)
            .map(|place| fields.get(&place).copied().unwrap_or(0))
            .collect())
    }

    pub fn read(frame: &[u8]) -> Result<Route, Refusal> {
        refuse(frame.len() != 40, 1, NOWHERE)?;
        refuse(!frame.starts_with(&[0x40, 0x90]), 2, NOWHERE)?;
        refuse(!Route::LENGTHS.contains(&frame[3]), 2, NOWHERE)?;
        refuse(frame[9] > 127, 15, NOWHERE)?;
        Ok(Route {
            length: frame[3],
            phy: frame[9],
            index: number(&frame[6..=7]) as u16,
            address: number(&frame[16..=23]),
            disabled: frame[12] >= 0x80,
        })
    }

    /// What reading answers; the address is asked for by itself.
    pub fn answer(self) -> u64 {
        let fields = [u8::from(self.disabled), self.length, self.phy];
        number(&fields) * 65536 + u64::from(self.index)
    }
}

// ---------------------------------------------------------------- the domain

#[derive(Clone, Copy, Debug, PartialEq, Eq, Hash)]
pub enum Attribute {
    Direct,
    Subtractive,
    Table,
}

#[derive(Clone, Copy, Debug, PartialEq, Eq)]
pub enum Attached {
    Nothing,
    EndDevice(u64),
    /// The far expander's address and the far phy.
    Expander(u64, u8),
}

/// A phy that is not vacant.
#[derive(Clone, Copy, Debug)]
pub struct Phy {
    pub attribute: Attribute,
    pub attached: Attached,
}

impl Phy {
    pub fn attached_address(&self) -> Option<u64> {
        match self.attached {
            Attached::Nothing => None,
            Attached::EndDevice(address) | Attached::Expander(address, _) => Some(address),
        }
    }
}

#[derive(Clone, Debug)]
pub struct Expander {
    pub address: u64,
    pub route_indexes: u16,
    pub configurable: bool,
    /// How many phys there are, vacant ones too.
    pub count: u8,
    /// The non-vacant phys by number.
    pub phys: BTreeMap<u8, Phy>,
}

/// The expanders of a file by number.
#[derive(Clone, Debug, Default)]
pub struct Domain {
    pub expanders: BTreeMap<u8, Expander>,
    numbers: HashMap<u64, u8>,
}

struct Reader<'a> {
    rest: &'a [u8],
}

impl<'a> Reader<'a> {
    /// The next unit of the file, or refusal 1 at its place.
    fn unit(&mut self, length: usize, place: Place) -> Result<&'a [u8], Refusal> {
        refuse(self.rest.len() < length, 1, place)?;
        let (unit, rest) = self.rest.split_at(length);
        self.rest = rest;
        Ok(unit)
    }

    /// The next unit, which ends with a response: so many bytes before it, and
    /// the response.
    fn response(
        &mut self,
        before: usize,
        sizes: Sizes,
        place: Place,
    ) -> Result<(&'a [u8], &'a [u8]), Refusal> {
        let response = self.rest.get(before..).unwrap_or_default();
        let size = size(response, sizes).map_err(|cause| Refusal::of(cause, place))?;
        Ok(self.unit(before + size, place)?.split_at(before))
    }
}

impl Domain {
    /// Causes 1 to 6.
    pub fn read(setting: Setting, file: &[u8]) -> Result<Domain, Refusal> {
        let mut reader = Reader { rest: file };
        let header = reader.unit(2, NOWHERE)?;
        refuse(header[0] != 0x10, 2, NOWHERE)?;
        refuse(!(1..=setting.expanders).contains(&header[1]), 3, NOWHERE)?;
        let mut domain = Domain::default();
        domain.read_expanders(setting, &mut reader, 0, header[1])?;
        refuse(!reader.rest.is_empty(), 1, (header[1], 0))?;
        Ok(domain)
    }

    fn read_expanders(
        &mut self,
        setting: Setting,
        reader: &mut Reader,
        next: u8,
        end: u8,
    ) -> Result<(), Refusal> {
        if next == end {
            return Ok(());
        }
        let place = (next, 0);
        let (address, general) = reader.response(8, GENERAL, place)?;
        let general = General::read(general).map_err(|cause| Refusal::of(cause, place))?;
        refuse(!(1..=setting.phys).contains(&general.phys), 3, place)?;
        let address = number(address);
        refuse(
            address == 0 || self.numbers.contains_key(&address),
            4,
            place,
        )?;
        self.numbers.insert(address, next);
        let mut expander = Expander {
            address,
            route_indexes: general.route_indexes,
            configurable: general.configurable,
            count: general.phys,
            phys: BTreeMap::new(),
        };
        for phy in 0..general.phys {
            let (_, frame) = reader.response(0, DISCOVER, (next, phy))?;
            if let Some(read) = Domain::read_phy(frame, (next, phy), address)? {
                expander.phys.insert(phy, read);
            }
        }
        self.expanders.insert(next, expander);
        self.read_expanders(setting, reader, next + 1, end)
    }

    /// Nothing for a vacant phy.
    fn read_phy(frame: &[u8], place: Place, expander: u64) -> Result<Option<Phy>, Refusal> {
        let Discover::Fields {
            identifier,
            device_type,
            attribute,
            own,
            attached,
            attached_phy,
        } = Discover::read(frame).map_err(|cause| Refusal::of(cause, place))?
        else {
            return Ok(None);
        };
        refuse(identifier != place.1 || own != expander, 5, place)?;
        let attribute = match attribute {
            0 => Attribute::Direct,
            1 => Attribute::Subtractive,
            2 => Attribute::Table,
            _ => return Err(Refusal::of(6, place)),
        };
        let attached = match (device_type, attached) {
            (0, _) => Attached::Nothing,
            (1..=3, 0) => return Err(Refusal::of(6, place)),
            (1, address) => Attached::EndDevice(address),
            (2 | 3, address) => Attached::Expander(address, attached_phy),
            _ => return Err(Refusal::of(6, place)),
        };
        Ok(Some(Phy {
            attribute,
            attached,
        }))
    }

    /// The non-vacant phys of the domain, by expander and then phy.
    fn phys(&self) -> impl Iterator<Item = (Place, &Expander, &Phy)> {
        self.expanders.iter().flat_map(|(&number, expander)| {
            expander
                .phys
                .iter()
                .map(move |(&phy, fields)| ((number, phy), expander, fields))
        })
    }

    fn phy_at(&self, (expander, phy): Place) -> Option<&Phy> {
        self.expanders.get(&expander)?.phys.get(&phy)
    }

    /// The place of the far phy of a phy attached to an expander of the domain.
    fn far_end(&self, phy: &Phy) -> Option<Place> {
        match phy.attached {
            Attached::Expander(address, far) => Some((*self.numbers.get(&address)?, far)),
            _ => None,
        }
    }

    /// Cause 7 holds at this phy.
    fn badly_cabled(&self, place: Place, expander: &Expander, phy: &Phy) -> bool {
        if !matches!(phy.attached, Attached::Expander(..)) {
            return false;
        }
        let named_back = self
            .far_end(phy)
            .and_then(|far| self.phy_at(far))
            .is_some_and(|far| far.attached == Attached::Expander(expander.address, place.1));
        phy.attribute == Attribute::Direct || !named_back
    }

    /// Causes 7 to 10.
    pub fn test_wiring(&self) -> Result<(), Refusal> {
        refuse_lowest(
            7,
            self.phys()
                .find(|&(place, expander, phy)| self.badly_cabled(place, expander, phy))
                .map(|(place, ..)| place),
        )?;

        // The first expander at which each end device address is attached.
        let mut first: HashMap<u64, u8> = HashMap::new();
        for (place, _, phy) in self.phys() {
            if let Attached::EndDevice(address) = phy.attached {
                first.entry(address).or_insert(place.0);
            }
        }
        refuse_lowest(
            8,
            self.phys()
                .find(|(place, _, phy)| match phy.attached {
                    Attached::EndDevice(address) => {
                        self.numbers.contains_key(&address) || first[&address] < place.0
                    }
                    _ => false,
                })
                .map(|(place, ..)| place),
        )?;

        refuse_lowest(
            9,
            self.expanders.iter().find_map(|(&number, expander)| {
                expander.mixed_attributes().map(|phy| (number, phy))
            }),
        )?;

        refuse_lowest(
            10,
            self.phys()
                .find(|(_, expander, phy)| {
                    phy.attribute == Attribute::Table && !expander.configurable
                })
                .map(|(place, ..)| place),
        )
    }

    /// The neighbours of each expander.
    pub fn neighbours(&self) -> BTreeMap<u8, BTreeSet<u8>> {
        self.neighbours_over(|_| true)
    }

    /// The neighbours of each expander over phys of one kind.
    fn neighbours_over(&self, over: impl Fn(&Phy) -> bool) -> BTreeMap<u8, BTreeSet<u8>> {
        let mut neighbours: BTreeMap<u8, BTreeSet<u8>> = self
            .expanders
            .keys()
            .map(|&number| (number, BTreeSet::new()))
            .collect();
        for (place, _, phy) in self.phys().filter(|(_, _, phy)| over(phy)) {
            if let Some((far, _)) = self.far_end(phy) {
                neighbours.entry(place.0).or_default().insert(far);
                neighbours.entry(far).or_default().insert(place.0);
            }
        }
        neighbours
    }

    /// One word for each expander, and the bits set in all.
    pub fn neighbour_words(&self) -> (Vec<u64>, u64) {
        let neighbours = self.neighbours();
        let words = neighbours
            .values()
            .map(|set| set.iter().map(|&far| 2u64.pow(far.into())).sum())
            .collect();
        let bits = neighbours.values().map(|set| set.len() as u64).sum();
        (words, bits)
    }

    /// Causes 11 and 12.
    pub fn test_shape(&self) -> Result<(), Refusal> {
        let neighbours = self.neighbours();
        let mut seen = HashSet::new();
        let looped = self.expanders.keys().any(|&number| {
            !seen.contains(&number) && finds_loop(&neighbours, number, None, &mut seen)
        });
        refuse(looped, 11, NOWHERE)?;

        let mut reached = HashSet::new();
        reach(&neighbours, 0, &mut reached);
        refuse_lowest(
            12,
            self.expanders
                .keys()
                .find(|number| !reached.contains(number))
                .map(|&number| (number, 0)),
        )
    }

    /// How many expanders the longest chain has, where there is no loop.
    pub fn longest_chain(&self) -> usize {
        let neighbours = self.neighbours();
        self.expanders
            .keys()
            .map(|&number| longest_from(&neighbours, number, None))
            .max()
            .unwrap_or(0)
    }

    /// A table phy whose far end is a table phy: levels end there.
    fn is_table_to_table(&self, phy: &Phy) -> bool {
        phy.attribute == Attribute::Table
            && self
                .far_end(phy)
                .and_then(|far| self.phy_at(far))
                .is_some_and(|far| far.attribute == Attribute::Table)
    }

    /// For each expander the lowest of those that a chain joins to it which crosses
    /// no table-to-table link, itself included.
    fn parts(&self) -> BTreeMap<u8, u8> {
        let clear = self.neighbours_over(|phy| !self.is_table_to_table(phy));
        let mut parts = BTreeMap::new();
        for &number in self.expanders.keys() {
            let mut reached = HashSet::new();
            reach(&clear, number, &mut reached);
            for other in reached {
                parts.entry(other).or_insert(number);
            }
        }
        parts
    }

    /// The expander that bears each address, or at which an end device does.
    fn homes(&self) -> HashMap<u64, u8> {
        let devices = self
            .phys()
            .filter_map(|(place, _, phy)| match phy.attached {
                Attached::EndDevice(address) => Some((address, place.0)),
                _ => None,
            });
        let own = self
            .expanders
            .iter()
            .map(|(&number, e)| (e.address, number));
        devices.chain(own).collect()
    }

    /// The level list of a table phy of expander `x` attached to expander `n`.
    pub fn level_list(&self, x: u8, n: u8) -> Vec<u64> {
        let configured = &self.expanders[&x];
        let mut left_out: HashSet<u64> = configured
            .phys
            .values()
            .filter_map(Phy::attached_address)
            .collect();
        left_out.insert(configured.address);
        let mut list = LevelList {
            words: Vec::new(),
            left_out,
        };
        self.take_levels(
            vec![LevelExpander {
                expander: n,
                from: x,
            }],
            &mut list,
        );
        list.words
    }

    /// Takes the words of one level, then goes on with the next.
    fn take_levels(&self, level: Vec<LevelExpander>, list: &mut LevelList) {
        if level.is_empty() {
            return;
        }
        for step in &level {
            for phy in self.expanders[&step.expander].phys.values() {
                list.take(phy);
            }
        }
        let mut once = HashSet::new();
        let next = level
            .iter()
            .flat_map(|step| {
                self.expanders[&step.expander]
                    .phys
                    .values()
                    .filter(|phy| phy.attribute == Attribute::Table)
                    .filter(|phy| !self.is_table_to_table(phy))
                    .filter_map(|phy| self.far_end(phy))
                    .filter(|far| far.0 != step.from)
                    .map(|far| LevelExpander {
                        expander: far.0,
                        from: step.expander,
                    })
            })
            .filter(|step| once.insert(step.expander))
            .collect();
        self.take_levels(next, list);
    }

    /// The expanders in the levels of a table phy; none where it is attached to no
    /// expander, or to a table phy.
    pub fn beyond(&self, place: Place) -> BTreeSet<u8> {
        let mut found = BTreeSet::new();
        if let Some(next) = self.phy_at(place).and_then(|phy| self.downward(phy)) {
            self.find_beyond(next, place.0, &mut found);
        }
        found
    }

    /// Adds an expander of a level that was come to from another, and those beyond it.
    fn find_beyond(&self, at: u8, from: u8, found: &mut BTreeSet<u8>) {
        if found.insert(at) {
            let phys = self.expanders[&at].phys.values();
            for next in phys.filter_map(|phy| self.downward(phy)) {
                if next != from {
                    self.find_beyond(next, at, found);
                }
            }
        }
    }

    /// The expander that a table phy leads to, which is in a level.
    fn downward(&self, phy: &Phy) -> Option<u8> {
        let leads = phy.attribute == Attribute::Table && !self.is_table_to_table(phy);
        let far = self.far_end(phy).filter(|_| leads);
        far.map(|(expander, _)| expander)
    }

    /// Causes 11, 12, 23 and 14 on a domain that passed 1 to 10.
    pub fn judge(self, setting: Setting) -> Result<Judged, Refusal> {
        self.test_shape()?;
        refuse(
            self.longest_chain() > usize::from(setting.chain),
            23,
            NOWHERE,
        )?;
        let mut lists = HashMap::new();
        for (place, _, phy) in self.phys() {
            if phy.attribute == Attribute::Table {
                if let Some((far, _)) = self.far_end(phy) {
                    // A table phy cabled to a table phy has no levels and an empty list.
                    lists.entry((place.0, far)).or_insert_with(|| {
                        if self.is_table_to_table(phy) {
                            Vec::new()
                        } else {
                            self.level_list(place.0, far)
                        }
                    });
                }
            }
        }
        let judged = Judged::new(self, lists);
        refuse_lowest(
            14,
            judged
                .domain
                .phys()
                .find(|(place, expander, _)| {
                    judged
                        .list_of(*place)
                        .is_some_and(|list| list.len() > usize::from(expander.route_indexes))
                })
                .map(|(place, ..)| place),
        )?;
        Ok(judged)
    }
}

impl Expander {
    /// Cause 9: the lowest phy that disagrees with a lower one.
    fn mixed_attributes(&self) -> Option<u8> {
        let mut attributes: HashMap<u64, HashSet<Attribute>> = HashMap::new();
        let mut subtractive: HashSet<u64> = HashSet::new();
        for (&number, phy) in &self.phys {
            let Some(address) = phy.attached_address() else {
                continue;
            };
            let lower = attributes.entry(address).or_default();
            if lower.iter().any(|&attribute| attribute != phy.attribute) {
                return Some(number);
            }
            lower.insert(phy.attribute);
            if phy.attribute == Attribute::Subtractive {
                if subtractive.iter().any(|&lower| lower != address) {
                    return Some(number);
                }
                subtractive.insert(address);
            }
        }
        None
    }
}

/// Searches for a loop from `at`, not going back over the link to `from`.
fn finds_loop(
    neighbours: &BTreeMap<u8, BTreeSet<u8>>,
    at: u8,
    from: Option<u8>,
    seen: &mut HashSet<u8>,
) -> bool {
    if !seen.insert(at) {
        return true;
    }
    neighbours[&at].iter().any(|&next| {
        next == at || (Some(next) != from && finds_loop(neighbours, next, Some(at), seen))
    })
}

/// How many expanders the longest chain from `at` has that does not go to `from`,
/// where there is no loop.
fn longest_from(neighbours: &BTreeMap<u8, BTreeSet<u8>>, at: u8, from: Option<u8>) -> usize {
    let beyond = neighbours[&at]
        .iter()
        .filter(|&&next| Some(next) != from)
        .map(|&next| longest_from(neighbours, next, Some(at)));
    1 + beyond.max().unwrap_or(0)
}

/// Collects the expanders joined to `at` by a chain.
fn reach(neighbours: &BTreeMap<u8, BTreeSet<u8>>, at: u8, reached: &mut HashSet<u8>) {
    if reached.insert(at) {
        for &next in &neighbours[&at] {
            reach(neighbours, next, reached);
        }
    }
}

/// An expander of a level and the expander of the level before that led to it.
struct LevelExpander {
    expander: u8,
    from: u8,
}

struct LevelList {
    words: Vec<u64>,
    /// Addresses that a subtractive or table phy doesn't give: the configured
    /// expander's, those attached to it, and those in the list already.
    left_out: HashSet<u64>,
}

impl LevelList {
    fn take(&mut self, phy: &Phy) {
        match (phy.attribute, phy.attached_address()) {
            (Attribute::Direct, address) => {
                self.words.push(address.unwrap_or(0));
                self.left_out.extend(address);
            }
            (_, Some(address)) => {
                if self.left_out.insert(address) {
                    self.words.push(address);
                }
            }
            (_, None) => {}
        }
    }
}

// ---------------------------------------------------------------- tables

/// A domain that passed 1 to 12 (14 too when handed out), with its lists.
#[derive(Clone, Debug)]
pub struct Judged {
    pub domain: Domain,
    /// The level lists by expander and the expander attached.
    lists: HashMap<(u8, u8), Vec<u64>>,
    /// The stretch of words of each non-vacant table phy.
    stretches: BTreeMap<Place, Range<usize>>,
    /// The sum of R over the non-vacant table phys.
    pub needed: usize,
    /// The parts that table-to-table links leave of the domain, and homes of addresses.
    parts: BTreeMap<u8, u8>,
    homes: HashMap<u64, u8>,
}

impl Judged {
    fn new(domain: Domain, lists: HashMap<(u8, u8), Vec<u64>>) -> Judged {
        let mut stretches = BTreeMap::new();
        let mut needed = 0;
        for (place, expander, phy) in domain.phys() {
            if phy.attribute == Attribute::Table {
                let end = needed + usize::from(expander.route_indexes);
                stretches.insert(place, needed..end);
                needed = end;
            }
        }
        Judged {
            parts: domain.parts(),
            homes: domain.homes(),
            domain,
            lists,
            stretches,
            needed,
        }
    }

    pub fn expanders(&self) -> usize {
        self.domain.expanders.len()
    }

    /// Does the chain from an expander to the device that bears the address cross
    /// a table-to-table link?
    pub fn crosses(&self, start: u8, address: u64) -> bool {
        self.parts[&start] != self.parts[&self.homes[&address]]
    }

    /// Nothing for a phy that is not a table phy attached to an expander.
    pub fn list_of(&self, place: Place) -> Option<&Vec<u64>> {
        let phy = self.domain.phy_at(place)?;
        match phy.attribute {
            Attribute::Table => self.lists.get(&(place.0, self.domain.far_end(phy)?.0)),
            _ => None,
        }
    }

    /// The longest level list of each expander.
    pub fn longest_lists(&self) -> BTreeMap<u8, usize> {
        let mut longest = BTreeMap::new();
        for (&(expander, _), list) in &self.lists {
            let entry = longest.entry(expander).or_insert(0);
            *entry = list.len().max(*entry);
        }
        longest
    }

    pub fn tables(&self) -> usize {
        self.stretches.len()
    }

    /// All tables, one after the other.
    pub fn table_words(&self) -> Vec<u64> {
        self.stretches
            .iter()
            .flat_map(|(&place, stretch)| {
                let list = self.list_of(place).cloned().unwrap_or_default();
                list.into_iter()
                    .chain(std::iter::repeat(0))
                    .take(stretch.len())
            })
            .collect()
    }

    pub fn table_answer(&self) -> u64 {
        self.tables() as u64 * 2u64.pow(32) + self.needed as u64
    }

    /// The bytes of disable bits that the tables need.
    pub fn needed_bits(&self) -> usize {
        self.needed.div_ceil(8)
    }

    /// Where the entry of a table stands among the words of all tables.
    pub fn word_of(&self, place: Place, index: usize) -> Option<usize> {
        self.stretches.get(&place)?.clone().nth(index)
    }

    /// The table phy that a word of all tables belongs to, and its route index.
    pub fn place_of(&self, word: u64) -> Option<(Place, u16)> {
        let word = usize::try_from(word).ok()?;
        self.stretches
            .iter()
            .find(|(_, stretch)| stretch.contains(&word))
            .map(|(&place, stretch)| (place, (word - stretch.start) as u16))
    }

    /// What the call for the place of a word answers; cause 15 where there is no
    /// such word.
    pub fn place_answer(&self, word: u64) -> u64 {
        match self.place_of(word) {
            None => Refusal::of(15, NOWHERE).answer(),
            Some(((expander, phy), index)) => number(&[expander, phy]) * 65536 + u64::from(index),
        }
    }

    /// The non-vacant table phys, each of which has a table.
    pub fn table_phys(&self) -> Vec<Place> {
        self.stretches.keys().copied().collect()
    }

    /// The words of a table among those of all tables.
    pub fn stretch(&self, place: Place) -> Range<usize> {
        self.stretches[&place].clone()
    }

    /// The tables that have an expander in one of their levels.
    pub fn tables_beyond(&self, expander: u8) -> Vec<Place> {
        // The tables of a wide link have the same levels.
        let mut levels = HashMap::new();
        let mut tables = self.table_phys();
        tables.retain(|&place| {
            let phy = self.domain.phy_at(place).expect("a table phy");
            let link = (place.0, self.domain.far_end(phy).map(|far| far.0));
            let beyond = levels.entry(link);
            beyond
                .or_insert_with(|| self.domain.beyond(place))
                .contains(&expander)
        });
        tables
    }

    /// The words at which tables begin.
    pub fn borders(&self) -> Vec<usize> {
        self.stretches
            .values()
            .map(|stretch| stretch.start)
            .collect()
    }
}

/// The disable bits of table words as the table call gives them: set where the
/// word is zero, eight to a byte, the first of them worth 128. Padding is clear.
pub fn disable_bits(words: &[u64]) -> Vec<u8> {
    let byte = |words: &[u64]| {
        let weights = (0..8).map(|place| 2u8.pow(7 - place));
        words
            .iter()
            .zip(weights)
            .filter(|(&word, _)| word == 0)
            .map(|(_, weight)| weight)
            .sum()
    };
    words.chunks(8).map(byte).collect()
}

/// Is the word at this place of all table words disabled?
fn is_disabled(bits: &[u8], place: usize) -> bool {
    let weight = [128, 64, 32, 16, 8, 4, 2, 1][place % 8];
    bits[place / 8] / weight % 2 == 1
}

// ---------------------------------------------------------------- tracing

#[derive(Clone, Copy, Debug, PartialEq, Eq)]
pub enum Outcome {
    Arrived,
    NoDestination,
    BadDestination,
}

#[derive(Clone, Debug, PartialEq, Eq)]
pub struct Trace {
    pub outcome: Outcome,
    pub phy: u8,
    pub passed: Vec<u8>,
}

impl Trace {
    pub fn last(&self) -> u8 {
        *self.passed.last().expect("the start is passed")
    }

    pub fn answer(&self) -> u64 {
        let outcome = match self.outcome {
            Outcome::Arrived => 0,
            Outcome::NoDestination => 1,
            Outcome::BadDestination => 2,
        };
        outcome * 2u64.pow(24)
            + u64::from(self.last()) * 2u64.pow(16)
            + u64::from(self.phy) * 2u64.pow(8)
            + self.passed.len() as u64
    }
}

/// What one expander does with a request, by one of the rules (i) to (v).
#[derive(Clone, Copy, Debug, PartialEq, Eq)]
pub struct Step {
    /// 1 to 5 for (i) to (v).
    pub rule: u8,
    /// BAD DESTINATION.
    pub bad: bool,
    /// The phy picked.
    pub phy: Option<u8>,
    /// The route index of the entry that matched.
    pub index: Option<u16>,
    /// The expander to which the request moves on, and the arrival phy there.
    pub next: Option<Place>,
}

impl Step {
    /// A rule that picks no phy.
    fn by(rule: u8) -> Step {
        Step {
            rule,
            bad: false,
            phy: None,
            index: None,
            next: None,
        }
    }

    pub fn answer(&self) -> u64 {
        let (expander, arrival) = self.next.unwrap_or((255, 255));
        let picked = [u8::from(self.bad), self.rule, self.phy.unwrap_or(255)];
        number(&picked) * 2u64.pow(32)
            + u64::from(self.index.unwrap_or(65535)) * 2u64.pow(16)
            + number(&[expander, arrival])
    }

    /// How a request ends that does not move on, and its phy.
    fn end(&self) -> (Outcome, u8) {
        match self.rule {
            _ if self.bad => (Outcome::BadDestination, 255),
            1 | 2 => (Outcome::Arrived, self.phy.unwrap_or(255)),
            _ => (Outcome::NoDestination, 255),
        }
    }
}

/// Table words turned round: for an expander and an address, the lowest table
/// phy attached to an expander that has the address in its stretch, in a word
/// that is not disabled, and the lowest route index of such a word there.
pub struct Routes(HashMap<(u8, u64), (u8, u16)>);

impl Judged {
    pub fn routes(&self, words: &[u64], bits: &[u8]) -> Routes {
        let mut routes = HashMap::new();
        for (&place, stretch) in &self.stretches {
            let phy = self.domain.phy_at(place).expect("a table phy");
            if matches!(phy.attached, Attached::Expander(..)) {
                for (index, word) in (0..).zip(stretch.clone()) {
                    if !is_disabled(bits, word) {
                        let entry = routes.entry((place.0, words[word]));
                        entry.or_insert((place.1, index));
                    }
                }
            }
        }
        Routes(routes)
    }

    /// Is there such an expander, and is the arrival phy 255 or of this kind?
    fn may_come(&self, (expander, arrival): Place, kind: impl Fn(Attached) -> bool) -> bool {
        let Some(expander) = self.domain.expanders.get(&expander) else {
            return false;
        };
        let phy = expander.phys.get(&arrival);
        arrival == 255 || phy.is_some_and(|phy| kind(phy.attached))
    }

    /// Causes 16, 18 and 17 for these lengths of words and disable bits.
    fn test_lent(&self, words: usize, bits: usize, address: u64) -> Result<(), Refusal> {
        refuse(words < self.needed, 16, NOWHERE)?;
        refuse(bits < self.needed_bits(), 18, NOWHERE)?;
        refuse(address == 0, 17, NOWHERE)
    }

    /// Causes 15, 16, 18 and 17. `words`, `bits` and `passed` are the lengths of
    /// the lent buffers.
    pub fn test_request(
        &self,
        words: usize,
        bits: usize,
        start: u8,
        arrival: u8,
        address: u64,
        passed: usize,
    ) -> Result<(), Refusal> {
        let end_device = |attached| matches!(attached, Attached::EndDevice(_));
        refuse(!self.may_come((start, arrival), end_device), 15, NOWHERE)?;
        refuse(passed < self.expanders(), 16, NOWHERE)?;
        self.test_lent(words, bits, address)
    }

    /// The same of a step, whose arrival phy may be attached to an expander too.
    pub fn test_step(
        &self,
        words: usize,
        bits: usize,
        at: Place,
        address: u64,
    ) -> Result<(), Refusal> {
        let anything = |attached| attached != Attached::Nothing;
        refuse(!self.may_come(at, anything), 15, NOWHERE)?;
        self.test_lent(words, bits, address)
    }

    pub fn trace(&self, routes: &Routes, start: u8, arrival: u8, address: u64) -> Trace {
        self.follow(routes, (start, arrival), address, Vec::new())
    }

    /// Goes on from an expander and its arrival phy.
    fn follow(&self, routes: &Routes, at: Place, address: u64, mut passed: Vec<u8>) -> Trace {
        passed.push(at.0);
        let step = self.step(routes, at, address);
        if let Some(next) = step.next {
            return self.follow(routes, next, address, passed);
        }
        let (outcome, phy) = step.end();
        Trace {
            outcome,
            phy,
            passed,
        }
    }

    /// The steps at one expander, to which the request came over the arrival phy.
    pub fn step(&self, routes: &Routes, at: Place, address: u64) -> Step {
        let expander = &self.domain.expanders[&at.0];
        // (i)
        if expander.address == address {
            return Step::by(1);
        }
        // The address at the arrival phy.
        let source = self.domain.phy_at(at).and_then(Phy::attached_address);
        let picks = |rule, number, index| {
            let phy = &expander.phys[&number];
            let bad = phy.attached_address() == source;
            Step {
                rule,
                bad,
                phy: Some(number),
                index,
                next: self.domain.far_end(phy).filter(|_| !bad),
            }
        };
        let lowest = |kind: &dyn Fn(&Phy) -> bool| {
            let mut phys = expander.phys.iter();
            phys.find(|(_, phy)| kind(phy)).map(|(&number, _)| number)
        };
        // (ii)
        if let Some(phy) = lowest(&|phy| phy.attached_address() == Some(address)) {
            return picks(2, phy, None);
        }
        // (iii)
        if let Some(&(phy, index)) = routes.0.get(&(at.0, address)) {
            return picks(3, phy, Some(index));
        }
        // (iv)
        let upward = lowest(&|phy| {
            phy.attribute == Attribute::Subtractive
                && matches!(phy.attached, Attached::Expander(..))
        });
        match upward.map(|phy| picks(4, phy, None)) {
            Some(step) if !step.bad => step,
            // (v)
            _ => Step::by(5),
        }
    }
}

// ---------------------------------------------------------------- calls

/// A domain that passed 22 and 1 to 10.
pub fn wired(setting: u32, file: &[u8]) -> Result<Domain, Refusal> {
    let domain = Domain::read(Setting::read(setting)?, file)?;
    domain.test_wiring()?;
    Ok(domain)
}

/// A domain that passed 22, 1 to 12, 23 and 14.
pub fn judged(setting: u32, file: &[u8]) -> Result<Judged, Refusal> {
    wired(setting, file)?.judge(Setting::read(setting)?)
}

fn answer(result: Result<u64, Refusal>) -> u64 {
    result.unwrap_or_else(Refusal::answer)
}

/// The reference in the form of the archive's calls.
pub struct Reference;

impl Calls for Reference {
    fn name(&self) -> &'static str {
        "reference"
    }

    fn wire(&self, setting: u32, file: &[u8], words: &mut [u64]) -> u64 {
        answer(wired(setting, file).and_then(|domain| {
            let (neighbours, bits) = domain.neighbour_words();
            refuse(words.len() < neighbours.len(), 16, NOWHERE)?;
            words[..neighbours.len()].copy_from_slice(&neighbours);
            Ok(bits)
        }))
    }

    fn judge(&self, setting: u32, file: &[u8]) -> u64 {
        answer(judged(setting, file).map(|judged| judged.expanders() as u64))
    }

    fn needed(&self, setting: u32, file: &[u8]) -> u64 {
        answer(judged(setting, file).map(|judged| judged.table_answer()))
    }

    fn word_place(&self, setting: u32, file: &[u8], k: u64) -> u64 {
        answer(judged(setting, file).map(|judged| judged.place_answer(k)))
    }

    fn tables(&self, setting: u32, file: &[u8], words: &mut [u64], bits: &mut [u8]) -> u64 {
        answer(judged(setting, file).and_then(|judged| {
            refuse(words.len() < judged.needed, 16, NOWHERE)?;
            refuse(bits.len() < judged.needed_bits(), 18, NOWHERE)?;
            let given = judged.table_words();
            words[..judged.needed].copy_from_slice(&given);
            bits[..judged.needed_bits()].copy_from_slice(&disable_bits(&given));
            Ok(judged.table_answer())
        }))
    }

    fn trace(
        &self,
        setting: u32,
        file: &[u8],
        words: &[u64],
        bits: &[u8],
        start: u8,
        arrival: u8,
        address: u64,
        passed: &mut [u8],
    ) -> u64 {
        answer(judged(setting, file).and_then(|judged| {
            let (words_len, bits_len) = (words.len(), bits.len());
            judged.test_request(words_len, bits_len, start, arrival, address, passed.len())?;
            let trace = judged.trace(&judged.routes(words, bits), start, arrival, address);
            passed[..trace.passed.len()].copy_from_slice(&trace.passed);
            Ok(trace.answer())
        }))
    }

    fn step(
        &self,
        setting: u32,
        file: &[u8],
        words: &[u64],
        bits: &[u8],
        expander: u8,
        arrival: u8,
        address: u64,
    ) -> u64 {
        answer(judged(setting, file).and_then(|judged| {
            let at = (expander, arrival);
            judged.test_step(words.len(), bits.len(), at, address)?;
            let routes = judged.routes(words, bits);
            Ok(judged.step(&routes, at, address).answer())
        }))
    }

    fn compact(&self, setting: u32, file: &[u8], form: &mut [u64]) -> u64 {
        forms::put(forms::compact(setting, file), file, form)
    }

    fn compact_tables(
        &self,
        setting: u32,
        form: &[u64],
        words: &mut [u64],
        bits: &mut [u8],
    ) -> u64 {
        answer(forms::judged(setting, form).and_then(|judged| {
            let (given, disabled) = forms::tables(&judged, words.len(), bits.len())?;
            words[..given.len()].copy_from_slice(&given);
            bits[..disabled.len()].copy_from_slice(&disabled);
            Ok(judged.table_answer())
        }))
    }

    fn compact_trace(
        &self,
        setting: u32,
        form: &[u64],
        words: &[u64],
        bits: &[u8],
        start: u8,
        arrival: u8,
        address: u64,
        passed: &mut [u8],
    ) -> u64 {
        answer(forms::judged(setting, form).and_then(|judged| {
            let request = Request {
                start,
                arrival,
                address,
            };
            let trace = forms::trace(&judged, words, bits, request, passed.len())?;
            passed[..trace.passed.len()].copy_from_slice(&trace.passed);
            Ok(trace.answer())
        }))
    }

    fn compact_trace_many(
        &self,
        setting: u32,
        form: &[u64],
        words: &[u64],
        bits: &[u8],
        requests: &[u64],
        answers: &mut [u64],
    ) -> u64 {
        answer(forms::judged(setting, form).and_then(|judged| {
            let found = forms::trace_many(&judged, words, bits, requests, answers.len())?;
            answers[..found.len()].copy_from_slice(&found);
            Ok(found.len() as u64)
        }))
    }

    fn card_of_file(&self, setting: u32, file: &[u8], card: &mut [u8]) -> u64 {
        cards::put(cards::card_of_file(setting, file), card)
    }

    fn file_of_card(&self, setting: u32, card: &[u8], file: &mut [u8]) -> u64 {
        cards::put(cards::file_of_card(setting, card), file)
    }

    fn event(
        &self,
        setting: u32,
        file: &mut [u8],
        words: &mut [u64],
        bits: &mut [u8],
        event: Event,
    ) -> u64 {
        events::put(setting, file, words, bits, event)
    }

    fn join(&self, setting: u32, first: Part, second: Part, out: &mut [u8]) -> u64 {
        let [first, second] = [first, second].map(|(file, place)| joins::End {
            file: file.to_vec(),
            place,
        });
        joins::put(setting, [&first, &second], out)
    }

    fn make(&self, first: u64, second: u64, words: &[u64], out: &mut [u8]) -> u64 {
        cards::put(exercises::make(first, second, words), out)
    }

    fn write_route(
        &self,
        buf: &mut [u8],
        length: u8,
        phy: u8,
        index: u16,
        address: u64,
        disabled: u8,
    ) -> u64 {
        let route = Route {
            length,
            phy,
            index,
            address,
            disabled: disabled != 0,
        };
        answer(route.write(buf.len()).map(|frame| {
            buf[..40].copy_from_slice(&frame);
            40
        }))
    }

    fn read_route(&self, frame: &[u8]) -> u64 {
        answer(Route::read(frame).map(Route::answer))
    }

    fn read_route_address(&self, frame: &[u8]) -> u64 {
        Route::read(frame).map_or(0, |route| route.address)
    }

    fn read_general(&self, frame: &[u8]) -> u64 {
        General::answer(frame)
    }

    fn read_general_sas2(&self, frame: &[u8]) -> u64 {
        General::answer_sas2(frame)
    }

    fn read_discover(&self, frame: &[u8]) -> u64 {
        Discover::answer(frame)
    }

    fn discover_own(&self, frame: &[u8]) -> u64 {
        Discover::addresses(frame).0
    }

    fn discover_attached(&self, frame: &[u8]) -> u64 {
        Discover::addresses(frame).1
    }

    fn shelf_fresh(&self, shelf: &mut Words, phys: u8, indexes: u16, kinds: &[u8]) -> u64 {
        answer(Plain::fresh(phys, indexes, kinds).map(|_| {
            shelves::put_fresh(shelf, phys, indexes, kinds);
            0
        }))
    }

    fn shelf_obey(&self, shelf: &mut Words, frame: &[u8]) -> u64 {
        let read = Route::read(frame);
        answer(Plain::of(shelf).obey(frame).map(|result| {
            if let (0x00, Ok(route)) = (result, read) {
                let (address, disabled) = (route.address, route.disabled);
                shelves::put_entry(shelf, route.phy, route.index, address, disabled);
            }
            result.into()
        }))
    }

    fn shelf_entry(&self, shelf: &Words, phy: u8, index: u16) -> u64 {
        let entry = Plain::of(shelf).entry(phy, index);
        entry.map_or(0, |(address, _)| address)
    }

    fn shelf_disabled(&self, shelf: &Words, phy: u8, index: u16) -> u64 {
        let entry = Plain::of(shelf).entry(phy, index);
        entry.map_or(2, |(_, disabled)| disabled.into())
    }
}
