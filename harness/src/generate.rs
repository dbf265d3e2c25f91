//! Seeded domain files: valid trees, near-valid files, loops, islands,
//! table-to-table links, self-cabled expanders, random graphs and junk.
//!
//! A valid tree has at each expander at most one subtractive neighbour. Each
//! link is table at one end and subtractive at the other, but one link at the
//! top may be subtractive at both.

use std::collections::{BTreeSet, HashSet};

use crate::layout::*;
use crate::random::{Random, ROUND};
use crate::reference;

/// A file and the name of the way it was made.
/// The widest setting, as the calls take it.
pub const WIDEST: u32 = 64 << 16 | 128 << 8 | 64;

/// A setting for a file: often one that allows it, at times one of whose limits
/// is just too small, or out of range.
pub fn setting(file: &[u8], random: &mut Random) -> u32 {
    let (expanders, phys, chain) = needs(file);
    let packed = |limits: [usize; 3]| {
        limits
            .iter()
            .fold(0, |sum, &limit| sum << 8 | limit as u32 & 0xff)
    };
    let needed = [(expanders, 64), (phys, 128), (chain, 64)];
    match random.below(32) {
        0..=5 => WIDEST,
        6 => {
            let mut limits = needed.map(|(need, most)| random.between(need.min(most), most));
            let place = random.below(3);
            limits[place] = random.pick(&[0, needed[place].1 + 1, 129, 255]);
            packed(limits)
        }
        7 => packed(needed.map(|(need, most)| need.min(most))) | 1 << random.between(24, 31),
        8 => random.next() as u32,
        9..=13 => packed(needed.map(|(need, most)| {
            let most_near = (need + 2).min(most);
            random.between(need.saturating_sub(1).clamp(1, most_near), most_near)
        })),
        _ => packed(needed.map(|(need, most)| random.between(need.min(most), most))),
    }
}

/// The limits that a file needs, as far as it can be read: expanders, phys and
/// chain.
fn needs(file: &[u8]) -> (usize, usize, usize) {
    match reference::Domain::read(reference::Setting::WIDEST, file) {
        Ok(domain) => (
            domain.expanders.len(),
            domain
                .expanders
                .values()
                .map(|expander| usize::from(expander.count))
                .max()
                .unwrap_or(1),
            match domain.test_shape() {
                Ok(()) => domain.longest_chain(),
                Err(_) => domain.expanders.len().div_ceil(2),
            },
        ),
        Err(_) => (usize::from(*file.get(1).unwrap_or(&1)).clamp(1, 64), 16, 4),
    }
}

pub struct Made {
    pub file: Vec<u8>,
    pub way: &'static str,
}

/// Makes the file of a seed. Most are small; a few have up to 64 x 128 phys.
pub fn make(seed: u64, random: &mut Random) -> Made {
    if let Some(&(way, shape, lanes)) = LARGEST.get((seed % ROUND) as usize) {
        let file = largest(shape, lanes, random);
        return Made { file, way };
    }
    let choice = random.below(100);
    let size = Size::of(random);
    let (way, file) = match choice {
        0..=44 => {
            let mut plan = tree(random, &size).lay_out(random);
            set_route_indexes(&mut plan, random, false);
            ("tree", finish(&plan, random))
        }
        45..=51 => {
            let mut plan = tree(random, &size).lay_out(random);
            set_route_indexes(&mut plan, random, true);
            ("tree, lists too long", finish(&plan, random))
        }
        52..=71 => {
            let mut plan = tree(random, &size).lay_out(random);
            set_route_indexes(&mut plan, random, false);
            for _ in 0..random.pick(&[1, 1, 1, 2, 2, 3]) {
                change_field(&mut plan, random);
            }
            ("changed fields", finish(&plan, random))
        }
        72..=80 => {
            let mut plan = tree(random, &size).lay_out(random);
            set_route_indexes(&mut plan, random, false);
            let mut file = finish(&plan, random);
            for _ in 0..random.pick(&[1, 1, 1, 2]) {
                change_bytes(&plan, &mut file, random);
            }
            ("changed bytes", file)
        }
        81..=85 => ("loop", refused_shape(looped(random, &size), random)),
        86..=88 => (
            "self-cabled",
            refused_shape(self_cabled(random, &size), random),
        ),
        89..=92 => ("islands", refused_shape(islands(random, &size), random)),
        93..=95 => {
            let mut plan = table_to_table(random, &size).lay_out(random);
            let short = random.chance(1, 4);
            set_route_indexes(&mut plan, random, short);
            ("table to table", finish(&plan, random))
        }
        96..=97 => ("random graph", refused_shape(graph(random, &size), random)),
        _ => ("junk", junk(random)),
    };
    Made { file, way }
}

/// Trees of 64 x 128 phys, one of each among `ROUND` files of a run: the shape,
/// or any, and the lanes of each link.
const LARGEST: [(&str, Option<usize>, usize); 4] = [
    ("64 x 128, star", Some(STAR), 1),
    ("64 x 128, chain", Some(CHAIN), 1),
    ("64 x 128, chain of 64-wide links", Some(CHAIN), 64),
    ("64 x 128, any tree", None, 1),
];

fn largest(shape: Option<usize>, lanes: usize, random: &mut Random) -> Vec<u8> {
    let any = random.below(SHAPES);
    let shape = shape.unwrap_or(any);
    let mut sketch = tree_links(random, 64, shape);
    for link in 0..sketch.links.len() {
        (1..lanes).for_each(|_| sketch.widen(link));
    }
    let size = Size {
        expanders: 64,
        more_phys: (128, 128),
        width: 4,
    };
    match shape {
        STAR => sketch.furnish(random, &size),
        // With table phys at end devices the tables would be too long to write out.
        _ => sketch.furnish_with(random, &size, [100, 0, 0]),
    }
    let mut plan = sketch.lay_out(random);
    set_route_indexes(&mut plan, random, false);
    finish(&plan, random)
}

/// How many expanders, and how many phys beside the links.
struct Size {
    expanders: usize,
    more_phys: (usize, usize),
    width: usize,
}

impl Size {
    fn of(random: &mut Random) -> Size {
        let (low, high, more, width) = match random.below(100_000) {
            0..=9_999 => (1, 1, (1, 8), 4),
            10_000..=74_129 => (1, 5, (0, 5), 3),
            74_130..=95_129 => (2, 12, (0, 7), 4),
            95_130..=98_629 => (6, 40, (0, 6), 4),
            98_630..=99_629 => (30, 64, (0, 5), 3),
            99_630..=99_829 => (2, 10, (20, 128), 64),
            99_830..=99_979 => (20, 64, (10, 60), 8),
            99_980..=99_994 => (64, 64, (90, 128), 4),
            // Nearly the largest, with wide links.
            _ => (60, 64, (110, 128), 40),
        };
        Size {
            expanders: random.between(low, high),
            more_phys: more,
            width,
        }
    }
}

// ---------------------------------------------------------------- sketches

/// What one phy is for.
#[derive(Clone, Copy)]
enum Slot {
    /// Lane of a link; the end is 0 or 1.
    Link {
        link: usize,
        end: usize,
        lane: usize,
    },
    Drive {
        drive: usize,
        attribute: u8,
    },
    Empty {
        attribute: u8,
    },
    Vacant,
}

#[derive(Clone, Copy)]
struct Link {
    ends: [(usize, u8); 2],
    width: usize,
    /// Each lane is cabled to itself: both ends are the same phy.
    same_phy: bool,
}

/// A domain before its phys have numbers.
struct Sketch {
    links: Vec<Link>,
    slots: Vec<Vec<Slot>>,
    /// Expanders with no subtractive phy attached to anything.
    no_subtractive: Vec<bool>,
    drives: usize,
}

impl Sketch {
    fn new(expanders: usize) -> Sketch {
        Sketch {
            links: Vec::new(),
            slots: vec![Vec::new(); expanders],
            no_subtractive: vec![true; expanders],
            drives: 0,
        }
    }

    fn len(&self) -> usize {
        self.slots.len()
    }

    fn room(&self, expander: usize) -> usize {
        128 - self.slots[expander].len()
    }

    /// Links two expanders by one lane, if both have room.
    fn link(&mut self, near: (usize, u8), far: (usize, u8)) -> bool {
        let lanes = if near.0 == far.0 { 2 } else { 1 };
        if self.room(near.0) < lanes || self.room(far.0) < lanes {
            return false;
        }
        self.links.push(Link {
            ends: [near, far],
            width: 0,
            same_phy: false,
        });
        for (expander, attribute) in [near, far] {
            if attribute == SUBTRACTIVE {
                self.no_subtractive[expander] = false;
            }
        }
        self.widen(self.links.len() - 1);
        true
    }

    /// Adds one lane to a link, if there is room.
    fn widen(&mut self, link: usize) {
        let ends = self.links[link].ends;
        let need = if ends[0].0 == ends[1].0 { 2 } else { 1 };
        if ends.iter().any(|end| self.room(end.0) < need) {
            return;
        }
        let lane = self.links[link].width;
        self.links[link].width += 1;
        for (end, (expander, _)) in ends.into_iter().enumerate() {
            self.slots[expander].push(Slot::Link { link, end, lane });
        }
    }

    /// Cables a phy to itself.
    fn self_phy(&mut self, expander: usize, attribute: u8) {
        if self.room(expander) == 0 {
            return;
        }
        let link = self.links.len();
        self.links.push(Link {
            ends: [(expander, attribute); 2],
            width: 1,
            same_phy: true,
        });
        self.slots[expander].push(Slot::Link {
            link,
            end: 0,
            lane: 0,
        });
    }

    fn adjacent(&self, a: usize, b: usize) -> bool {
        self.links.iter().any(|link| {
            let ends = [link.ends[0].0, link.ends[1].0];
            ends == [a, b] || ends == [b, a]
        })
    }

    /// Adds lanes, end devices, empty and vacant phys.
    fn furnish(&mut self, random: &mut Random, size: &Size) {
        let attributes = random.pick(&[[80, 15, 5], [100, 0, 0], [30, 60, 10], [0, 100, 0]]);
        self.furnish_with(random, size, attributes);
    }

    /// The attributes are shares of: direct, table, subtractive end devices.
    fn furnish_with(&mut self, random: &mut Random, size: &Size, attributes: [usize; 3]) {
        let wide = random.chance(1, 2);
        for link in 0..self.links.len() {
            if self.links[link].same_phy || !wide || !random.chance(1, 2) {
                continue;
            }
            for _ in 0..random.below(size.width) {
                self.widen(link);
            }
        }
        // Shares of: end device, empty direct, other empty, vacant.
        let shares: [usize; 4] = random.pick(&[
            [60, 15, 10, 15],
            [100, 0, 0, 0],
            [30, 40, 10, 20],
            [40, 5, 10, 45],
            [70, 5, 20, 5],
        ]);
        for expander in 0..self.len() {
            let (low, high) = size.more_phys;
            let mut left = random.between(low, high).min(self.room(expander));
            if self.slots[expander].is_empty() {
                left = left.max(1);
            }
            while left > 0 {
                left -= 1;
                let slot = match share(random, &shares) {
                    0 => {
                        let mut attribute =
                            [DIRECT, TABLE, SUBTRACTIVE][share(random, &attributes)];
                        if attribute == SUBTRACTIVE {
                            if self.no_subtractive[expander] {
                                self.no_subtractive[expander] = false;
                            } else {
                                attribute = DIRECT;
                            }
                        }
                        let drive = self.drives;
                        self.drives += 1;
                        while left > 0 && random.chance(1, 4) {
                            left -= 1;
                            self.slots[expander].push(Slot::Drive { drive, attribute });
                        }
                        Slot::Drive { drive, attribute }
                    }
                    1 => Slot::Empty { attribute: DIRECT },
                    2 => Slot::Empty {
                        attribute: random.pick(&[SUBTRACTIVE, TABLE]),
                    },
                    _ => Slot::Vacant,
                };
                self.slots[expander].push(slot);
            }
        }
    }

    /// Puts the phys in order, numbers the expanders and gives addresses.
    fn lay_out(mut self, random: &mut Random) -> DomainFile {
        let mut order: Vec<usize> = (0..self.len()).collect();
        match random.below(5) {
            0 => {}
            1 => order.reverse(),
            _ => random.shuffle(&mut order),
        }
        let keep = random.chance(1, 6);
        for slots in &mut self.slots {
            if !keep {
                random.shuffle(slots);
            }
        }
        let mut addresses = Addresses::new(random);
        let own: Vec<u64> = (0..self.len()).map(|_| addresses.fresh(random)).collect();
        let drives: Vec<u64> = (0..self.drives).map(|_| addresses.fresh(random)).collect();

        // The phy of each lane end.
        let mut lanes: Vec<Vec<[u8; 2]>> = self
            .links
            .iter()
            .map(|link| vec![[0, 0]; link.width])
            .collect();
        for slots in &self.slots {
            for (phy, slot) in slots.iter().enumerate() {
                if let Slot::Link { link, end, lane } = *slot {
                    lanes[link][lane][end] = phy as u8;
                    if self.links[link].same_phy {
                        lanes[link][lane][1 - end] = phy as u8;
                    }
                }
            }
        }

        let all: Vec<u64> = own.iter().chain(&drives).copied().collect();
        let mut expanders: Vec<Expander> = Vec::new();
        for &sketched in &order {
            let mut expander = Expander::new(own[sketched], 0, false);
            for slot in &self.slots[sketched] {
                expander = match *slot {
                    Slot::Link { link, end, lane } => {
                        let (_, attribute) = self.links[link].ends[end];
                        let (far, _) = self.links[link].ends[1 - end];
                        let device_type = random.pick(&[EDGE_EXPANDER, FANOUT_EXPANDER]);
                        expander.phy(attribute, device_type, own[far], lanes[link][lane][1 - end])
                    }
                    Slot::Drive { drive, attribute } => {
                        expander.phy(attribute, END_DEVICE, drives[drive], random.byte())
                    }
                    Slot::Empty { attribute } => {
                        let attached = stray_address(random, &all);
                        expander.phy(attribute, NO_DEVICE, attached, random.byte())
                    }
                    Slot::Vacant => {
                        let mut vacant = expander.empty(DIRECT);
                        let phy = vacant.phys.last_mut().expect("just appended");
                        *phy = Phy {
                            result: random.between(1, 255) as u8,
                            identifier: if random.chance(1, 2) {
                                phy.identifier
                            } else {
                                random.byte()
                            },
                            device_type: random.below(8) as u8,
                            attribute: random.pick(&[0, 1, 2, 2, 3, 15]),
                            own: if random.chance(1, 2) {
                                phy.own
                            } else {
                                random.next()
                            },
                            attached: stray_address(random, &all),
                            attached_phy: random.pick(&[0, 1, 2, 255]),
                            long: false,
                        };
                        vacant
                    }
                };
            }
            expander.configurable = random.chance(1, 3)
                || expander
                    .phys
                    .iter()
                    .any(|phy| phy.result == 0 && phy.attribute == TABLE);
            expanders.push(expander);
        }
        lengthen(&mut expanders, random);
        DomainFile::of(expanders)
    }
}

/// Makes some frames long: none, some, most or all of them.
fn lengthen(expanders: &mut [Expander], random: &mut Random) {
    let sixths = random.pick(&[0, 0, 1, 3, 5, 6]);
    for expander in expanders {
        expander.long = random.chance(sixths, 6);
        for phy in &mut expander.phys {
            phy.long = random.chance(sixths, 6);
        }
    }
}

fn share(random: &mut Random, shares: &[usize]) -> usize {
    let mut left = random.below(shares.iter().sum());
    for (index, &part) in shares.iter().enumerate() {
        if left < part {
            return index;
        }
        left -= part;
    }
    unreachable!()
}

/// An address for a field that must be ignored.
fn stray_address(random: &mut Random, all: &[u64]) -> u64 {
    match random.below(4) {
        0 => 0,
        1 => random.next(),
        _ => random.pick(all),
    }
}

/// Addresses that differ from each other, by a way picked for the file.
struct Addresses {
    way: usize,
    base: u64,
    byte: u32,
    given: u64,
    used: HashSet<u64>,
}

impl Addresses {
    fn new(random: &mut Random) -> Addresses {
        Addresses {
            way: random.below(5),
            base: random.next(),
            byte: random.below(8) as u32,
            given: 0,
            used: HashSet::from([0]),
        }
    }

    fn fresh(&mut self, random: &mut Random) -> u64 {
        loop {
            self.given += 1;
            let address = match self.way {
                0 => 0x5000_0000_0000_0000 + self.given,
                1 => self.given,
                2 => u64::MAX - self.given + 1,
                // Two bytes differ and the rest is the same.
                3 => self.base ^ self.given.rotate_left(8 * self.byte),
                _ => random.next(),
            };
            if self.used.insert(address) {
                return address;
            }
        }
    }
}

// ---------------------------------------------------------------- shapes

const CHAIN: usize = 0;
const STAR: usize = 1;
const SHAPES: usize = 8;

/// The upper expander of each expander but the first.
fn upper(random: &mut Random, expanders: usize, shape: usize) -> Vec<usize> {
    let stride = random.between(1, 4);
    let mut upper = vec![0];
    for expander in 1..expanders {
        upper.push(match shape {
            CHAIN => expander - 1,
            STAR => 0,
            // binary tree
            2 => (expander - 1) / 2,
            // comb: every second expander is a tooth
            3 if expander % 2 == 1 => expander - 1,
            3 => expander - 2,
            // broom: a chain, then a star at its end
            4 => (expander - 1).min(expanders / 2),
            // near the last ones
            5 => expander - random.between(1, stride.min(expander)),
            _ => random.below(expander),
        });
    }
    upper
}

fn any_links(random: &mut Random, expanders: usize) -> Sketch {
    let shape = random.below(SHAPES);
    tree_links(random, expanders, shape)
}

fn tree_links(random: &mut Random, expanders: usize, shape: usize) -> Sketch {
    let mut sketch = Sketch::new(expanders);
    let upper = upper(random, expanders, shape);
    let top_pair = (expanders > 1 && random.chance(1, 3)).then(|| {
        let below: Vec<usize> = (1..expanders).filter(|&e| upper[e] == 0).collect();
        random.pick(&below)
    });
    for (expander, &above) in upper.iter().enumerate().skip(1) {
        let attribute = if Some(expander) == top_pair {
            SUBTRACTIVE
        } else {
            TABLE
        };
        sketch.link((above, attribute), (expander, SUBTRACTIVE));
    }
    sketch
}

fn tree(random: &mut Random, size: &Size) -> Sketch {
    if size.expanders > 1 && random.chance(1, 8) {
        return table_to_table(random, size);
    }
    let mut sketch = any_links(random, size.expanders);
    sketch.furnish(random, size);
    sketch
}

fn looped(random: &mut Random, size: &Size) -> Sketch {
    let expanders = size.expanders.max(3);
    let mut sketch = if random.chance(1, 3) {
        // ring: each expander is subtractive to one neighbour, table to the other
        let mut ring = Sketch::new(expanders);
        for expander in 0..expanders {
            ring.link((expander, TABLE), ((expander + 1) % expanders, SUBTRACTIVE));
        }
        ring
    } else {
        let mut sketch = any_links(random, expanders);
        for _ in 0..random.pick(&[1, 1, 2, 5]) {
            let (a, b) = (random.below(expanders), random.below(expanders));
            if a != b && !sketch.adjacent(a, b) {
                let attribute = match sketch.no_subtractive[a] && random.chance(1, 2) {
                    true => SUBTRACTIVE,
                    false => TABLE,
                };
                sketch.link((a, attribute), (b, TABLE));
            }
        }
        sketch
    };
    sketch.furnish(random, size);
    sketch
}

fn self_cabled(random: &mut Random, size: &Size) -> Sketch {
    let mut sketch = any_links(random, size.expanders);
    let expander = random.below(size.expanders);
    let same = match sketch.no_subtractive[expander] && random.chance(1, 2) {
        true => SUBTRACTIVE,
        false => TABLE,
    };
    match random.below(4) {
        0 => sketch.self_phy(expander, same),
        1 | 2 => {
            sketch.link((expander, same), (expander, same));
        }
        _ => {
            sketch.link((expander, TABLE), (expander, SUBTRACTIVE));
        }
    }
    sketch.furnish(random, size);
    sketch
}

fn islands(random: &mut Random, size: &Size) -> Sketch {
    let expanders = size.expanders.max(2);
    let parts = random.between(2, expanders.min(4));
    let mut sketch = Sketch::new(expanders);
    let mut ends: BTreeSet<usize> = BTreeSet::from([expanders]);
    while ends.len() < parts {
        ends.insert(random.between(1, expanders - 1));
    }
    let mut start = 0;
    let bad = random.below(4);
    for end in ends {
        let part = any_links(random, end - start);
        for link in part.links {
            let [near, far] = link.ends;
            sketch.link((near.0 + start, near.1), (far.0 + start, far.1));
        }
        // Now and then a loop or a table-to-table link in one part.
        if bad == 0 && end - start > 2 && !sketch.adjacent(start, end - 1) {
            sketch.link((start, TABLE), (end - 1, TABLE));
        }
        start = end;
    }
    sketch.furnish(random, size);
    sketch
}

/// A tree in which some links are table at both ends.
fn table_to_table(random: &mut Random, size: &Size) -> Sketch {
    let mut sketch = any_links(random, size.expanders.max(2));
    for _ in 0..random.pick(&[1, 1, 2]) {
        let link = random.below(sketch.links.len());
        for end in 0..2 {
            let (expander, attribute) = sketch.links[link].ends[end];
            if attribute == SUBTRACTIVE {
                sketch.no_subtractive[expander] = true;
                sketch.links[link].ends[end].1 = TABLE;
            }
        }
    }
    sketch.furnish(random, size);
    sketch
}

/// Random links, most of them table at both ends.
fn graph(random: &mut Random, size: &Size) -> Sketch {
    let expanders = size.expanders;
    let mut sketch = Sketch::new(expanders);
    let links = random.pick(&[1, expanders, 2 * expanders, expanders * expanders / 2 + 1]);
    for _ in 0..links {
        let (a, b) = (random.below(expanders), random.below(expanders));
        if sketch.adjacent(a, b) {
            continue;
        }
        let attribute = match sketch.no_subtractive[a] && random.chance(1, 3) {
            true if a != b => SUBTRACTIVE,
            _ => TABLE,
        };
        sketch.link((a, attribute), (b, TABLE));
    }
    sketch.furnish(random, size);
    sketch
}

fn refused_shape(sketch: Sketch, random: &mut Random) -> Vec<u8> {
    let mut plan = sketch.lay_out(random);
    for expander in &mut plan.expanders {
        expander.route_indexes = random.pick(&[0, 1, 5, 100, 65535]);
    }
    if random.chance(1, 6) {
        change_field(&mut plan, random);
    }
    finish(&plan, random)
}

/// Bytes with or without a right beginning.
fn junk(random: &mut Random) -> Vec<u8> {
    let length = random.pick(&[0, 1, 2, 3, 37, 38, 39, 90, 91, 200, 700]);
    let mut file = random.bytes(length);
    if random.chance(2, 3) && length > 1 {
        file[0] = 0x10;
        file[1] = random.pick(&[0, 1, 2, 3, 64, 65, 128, 255]);
    }
    if random.chance(1, 2) && length > 38 {
        let long = random.pick(&[0x00, 0x00, 0x10, 0x0f]);
        file[10..14].copy_from_slice(&[0x41, 0, 0, long]);
        file[19] = random.pick(&[0, 1, 2, 128, 129, 255]);
    }
    file
}

// ---------------------------------------------------------------- route indexes

/// Sets R at every expander of a tree: as long as the longest list, or longer,
/// or (when `short`) too short at one or two expanders.
fn set_route_indexes(plan: &mut DomainFile, random: &mut Random, short: bool) {
    for expander in &mut plan.expanders {
        expander.route_indexes = 65535;
    }
    let longest = match reference::judged(WIDEST, &plan.bytes()) {
        Ok(judged) => judged.longest_lists(),
        Err(refusal) => panic!("a tree was refused: {refusal:?}"),
    };
    let way = random.below(10);
    for (number, expander) in plan.expanders.iter_mut().enumerate() {
        let tables = expander
            .phys
            .iter()
            .filter(|phy| phy.result == 0 && phy.attribute == TABLE)
            .count();
        let need = longest.get(&(number as u8)).copied().unwrap_or(0);
        expander.route_indexes = if tables == 0 {
            random.pick(&[0, 1, 7, 65535])
        } else {
            let more = match way {
                0..=4 => 0,
                5..=7 => random.below(4),
                8 => random.below(40),
                _ if tables <= 3 && random.chance(1, 8) => 65535 - need,
                _ => random.below(2),
            };
            (need + more) as u16
        };
    }
    if short {
        let listed: Vec<u8> = longest
            .iter()
            .filter(|(_, &length)| length > 0)
            .map(|(&number, _)| number)
            .collect();
        for _ in 0..random.pick(&[1, 1, 2]) {
            if !listed.is_empty() {
                let number = random.pick(&listed);
                let length = longest[&number];
                let left_out = random.pick(&[1, 1, 1, length]);
                plan.expanders[number as usize].route_indexes = (length - left_out) as u16;
            }
        }
    }
}

// ---------------------------------------------------------------- changes

fn finish(plan: &DomainFile, random: &mut Random) -> Vec<u8> {
    match random.below(4) {
        0 => plan.bytes(),
        1 => plan.bytes_with(&mut || 0xff),
        _ => plan.bytes_with(&mut || random.byte()),
    }
}

/// Changes one field somewhere.
fn change_field(plan: &mut DomainFile, random: &mut Random) {
    let e = random.below(plan.expanders.len());
    let p = random.below(plan.expanders[e].phys.len());
    let own: Vec<u64> = plan
        .expanders
        .iter()
        .map(|expander| expander.address)
        .collect();
    let drives: Vec<u64> = plan
        .expanders
        .iter()
        .flat_map(|expander| &expander.phys)
        .filter(|phy| phy.result == 0 && phy.device_type == END_DEVICE)
        .map(|phy| phy.attached)
        .collect();
    let bit = 1u64 << random.below(64);
    let phys = plan.expanders[e].phys.len();
    let expander = &mut plan.expanders[e];
    let phy = &mut expander.phys[p];
    match random.below(24) {
        0 => expander.address ^= bit,
        1 => expander.address = 0,
        2 => rename(expander, random.pick(&own)),
        3 => rename(expander, own[e] ^ bit),
        4 => {
            expander.route_indexes = match random.below(4) {
                0 => 0,
                1 => expander.route_indexes.wrapping_sub(1),
                2 => expander.route_indexes.wrapping_add(1),
                _ => random.below(65536) as u16,
            }
        }
        5 | 6 => expander.configurable = false,
        7 => phy.identifier = random.pick(&[phy.identifier ^ 1, phy.identifier ^ 0x80, 255]),
        8 => phy.own = random.pick(&[phy.own ^ bit, 0, own[0]]),
        9 | 10 => phy.device_type = random.pick(&[0, 1, 1, 2, 3, 4, 5, 7]),
        11 | 12 => phy.attribute = random.pick(&[0, 1, 2, 0, 1, 2, 3, 7, 8, 15]),
        13 => phy.attached = 0,
        14 => phy.attached = random.pick(&own),
        15 => phy.attached = own[e],
        16 | 17 => {
            if !drives.is_empty() {
                phy.attached = random.pick(&drives);
            }
        }
        18 => phy.attached ^= bit,
        19 => {
            phy.attached_phy = match random.below(4) {
                0 => 255,
                1 => phy.attached_phy ^ 1 << random.below(8),
                2 => phys as u8,
                _ => random.below(phys + 1) as u8,
            }
        }
        20 => {
            phy.result = match phy.result {
                0 => random.between(1, 255) as u8,
                _ => 0,
            }
        }
        21 => {
            // One more phy at the end, a copy of another with its own identifier.
            if phys < 128 {
                let mut copy = *phy;
                copy.identifier = phys as u8;
                copy.own = expander.address;
                expander.phys.push(copy);
            }
        }
        22 => {
            // Two phys change places.
            let q = random.below(phys);
            expander.phys.swap(p, q);
            expander.phys[p].identifier = p as u8;
            expander.phys[q].identifier = q as u8;
        }
        _ => {
            // All phys at one address get one attribute.
            let (attached, attribute) = (phy.attached, random.below(3) as u8);
            for phy in &mut expander.phys {
                if phy.attached == attached {
                    phy.attribute = attribute;
                }
            }
        }
    }
}

fn rename(expander: &mut Expander, address: u64) {
    for phy in &mut expander.phys {
        if phy.own == expander.address {
            phy.own = address;
        }
    }
    expander.address = address;
}

/// Changes bytes, cuts the file or appends to it.
fn change_bytes(plan: &DomainFile, file: &mut Vec<u8>, random: &mut Random) {
    if file.is_empty() {
        return;
    }
    let e = random.below(plan.expanders.len());
    let p = random.below(plan.expanders[e].phys.len());
    let expander = plan.expander_at(e);
    let phy = plan.phy_at(e, p);
    let first_phy = expander + plan.expanders[e].size();
    let next_phy = phy + plan.expanders[e].phys[p].size();
    // RESPONSE LENGTH of either response, and where its frame begins.
    let frame = random.pick(&[expander + 8, phy]);
    let length = random.pick(&[0x00, 0x0f, 0x10, 0x01, 0x11, 0x80, 0xff]);
    let mut set = |at: usize, change: &mut dyn FnMut(u8) -> u8| {
        if at < file.len() {
            file[at] = change(file[at]);
        }
    };
    match random.below(16) {
        0 | 1 => set(random.next() as usize % next_phy, &mut |_| random.byte()),
        2 => set(0, &mut |byte| byte ^ 1 << random.below(8)),
        3 => set(1, &mut |byte| {
            random.pick(&[
                0,
                1,
                64,
                65,
                255,
                byte.wrapping_add(1),
                byte.wrapping_sub(1),
            ])
        }),
        4 => set(expander + 8 + random.below(4), &mut |byte| {
            byte ^ 1 << random.below(8)
        }),
        5 => set(expander + 17, &mut |byte| {
            random.pick(&[
                0,
                1,
                128,
                129,
                255,
                byte.wrapping_add(1),
                byte.wrapping_sub(1),
            ])
        }),
        6 | 7 => set(phy + random.below(4), &mut |byte| {
            byte ^ 1 << random.below(8)
        }),
        8 => set(phy + random.pick(&[9, 12, 32, 44]), &mut |_| random.byte()),
        9 => file.truncate(random.below(file.len())),
        10 => {
            let at = random.pick(&[expander, phy, first_phy, next_phy]);
            file.truncate((at + random.below(3)).saturating_sub(1));
        }
        11 | 12 => set(frame + 3, &mut |_| length),
        13 => {
            // A frame cut near its first four bytes, or at a size.
            set(frame + 3, &mut |_| length);
            let bytes = random.pick(&[2, 3, 4, 5, 28, 52, 64, 68]);
            file.truncate((frame + bytes + random.below(3)).saturating_sub(1));
        }
        14 => {
            // Cut within a frame whose byte 0 or 3 may be wrong.
            set(frame + random.pick(&[0, 3]), &mut |byte| {
                byte ^ 1 << random.below(8)
            });
            file.truncate(frame + random.between(3, 70));
        }
        _ => {
            let more = random.pick(&[1, 1, 2, 12, 36, 40, 52, 60, 64]);
            file.extend(random.bytes(more));
        }
    }
}

// ---------------------------------------------------------------- frames

/// A frame for the calls that read one frame by itself.
pub fn frame(random: &mut Random) -> Vec<u8> {
    let right = random.pick(&[28, 40, 52, 64, 68]);
    let length = match random.below(8) {
        0 => random.below(120),
        1 => right - 1,
        2 => right + 1,
        3 => random.pick(&[0, 3, 4, 5, 28, 52, 64, 68]),
        _ => right,
    };
    let mut frame = random.bytes(length);
    let fixed: &[(usize, u8)] = match random.below(6) {
        0 => &[],
        _ => match right {
            28 => &[(0, 0x41), (1, 0x00), (2, 0x00), (3, 0x00)],
            68 => &[(0, 0x41), (1, 0x00), (2, 0x00), (3, 0x10)],
            40 => &[(0, 0x40), (1, 0x90)],
            52 => &[(0, 0x41), (1, 0x10), (3, 0x00)],
            _ => &[(0, 0x41), (1, 0x10), (3, 0x0f)],
        },
    };
    for &(at, value) in fixed {
        if let Some(byte) = frame.get_mut(at) {
            *byte = value;
        }
    }
    if (right == 52 || right == 64) && random.chance(2, 3) && length > 2 {
        frame[2] = 0;
    }
    if right == 40 && random.chance(2, 3) && length > 9 {
        frame[9] &= 0x7f;
    }
    if right == 40 && random.chance(5, 6) && length > 3 {
        frame[3] = random.pick(&[0x00, 0x09]);
    }
    if right != 40 && random.chance(1, 6) && length > 3 {
        frame[3] = random.pick(&[0x00, 0x0f, 0x10, 0x01, 0x8f]);
    }
    // One byte, most often a fixed one, is changed.
    if random.chance(1, 4) && length > 12 {
        let at = random.pick(&[0, 1, 2, 3, 9, 12]);
        frame[at] ^= 1 << random.below(8);
    }
    frame
}
