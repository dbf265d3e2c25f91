//! A straightforward fast version of the calls: arrays, no hash maps, nothing
//! proved. The benchmark runs it beside the archive.

use crate::calls::{Calls, Part};
use crate::cards;
use crate::events::{self, Event};
use crate::exercises;
use crate::joins;
use crate::reference::Reference;
use crate::shelves::Words;

const VACANT: u8 = 0;
const EMPTY: u8 = 1;
const END_DEVICE: u8 = 2;
const EXPANDER: u8 = 3;

const DIRECT: u8 = 0;
const SUBTRACTIVE: u8 = 1;
const TABLE: u8 = 2;

fn refusal(number: u64, expander: usize, phy: usize) -> u64 {
    1 << 63 | number << 16 | (expander as u64) << 8 | phy as u64
}

fn be64(bytes: &[u8], at: usize) -> u64 {
    u64::from_be_bytes(bytes[at..at + 8].try_into().unwrap())
}

/// A bit for each word, set where it is zero, the last of them worth 1.
fn zero_bits(words: &[u64]) -> u8 {
    words
        .iter()
        .fold(0, |byte, &word| byte << 1 | u8::from(word == 0))
}

#[derive(Clone, Copy)]
struct Phy {
    attached: u64,
    /// Number of the attached device; devices below `count` are expanders.
    device: u32,
    kind: u8,
    attribute: u8,
    attached_phy: u8,
    expander: u8,
}

impl Phy {
    fn is_attached(&self) -> bool {
        self.kind >= END_DEVICE
    }
}

struct Domain {
    count: usize,
    /// The phys of expander i are first[i]..first[i + 1].
    first: [usize; 65],
    address: [u64; 64],
    route_indexes: [usize; 64],
    configurable: [bool; 64],
    phys: Vec<Phy>,
    devices: usize,
    neighbours: [u64; 64],
}

impl Domain {
    fn place(&self, index: usize) -> (usize, usize) {
        let expander = self.phys[index].expander as usize;
        (expander, index - self.first[expander])
    }

    fn refuse(&self, number: u64, index: usize) -> u64 {
        let (expander, phy) = self.place(index);
        refusal(number, expander, phy)
    }

    fn of(&self, expander: usize) -> &[Phy] {
        &self.phys[self.first[expander]..self.first[expander + 1]]
    }

    /// The far phy of a phy attached to an expander, once cause 7 is passed.
    fn far(&self, phy: &Phy) -> usize {
        self.first[phy.device as usize] + phy.attached_phy as usize
    }

    /// Causes 22 and 1 to 6.
    fn read(setting: u32, file: &[u8]) -> Result<Domain, u64> {
        let most = setting >> 16;
        let most_phys = (setting >> 8 & 0xff) as usize;
        let chain = setting & 0xff;
        // A bit above the 24 makes `most` too large.
        if most == 0 || most > 64 || most_phys == 0 || most_phys > 128 || chain == 0 || chain > 64 {
            return Err(refusal(22, 0, 0));
        }
        if file.len() < 2 {
            return Err(refusal(1, 0, 0));
        }
        if file[0] != 0x10 {
            return Err(refusal(2, 0, 0));
        }
        let count = file[1] as usize;
        if count == 0 || count > most as usize {
            return Err(refusal(3, 0, 0));
        }
        let mut domain = Domain {
            count,
            first: [0; 65],
            address: [0; 64],
            route_indexes: [0; 64],
            configurable: [false; 64],
            phys: Vec::with_capacity(file.len() / 52),
            devices: 0,
            neighbours: [0; 64],
        };
        let mut at = 2;
        for i in 0..count {
            if file.len() - at < 12 {
                return Err(refusal(1, i, 0));
            }
            let size = match file[at + 11] {
                0 => 36,
                0x10 => 76,
                _ => return Err(refusal(2, i, 0)),
            };
            if file.len() - at < size {
                return Err(refusal(1, i, 0));
            }
            let unit = &file[at..at + size];
            if unit[8..11] != [0x41, 0, 0] {
                return Err(refusal(2, i, 0));
            }
            let phys = unit[17] as usize;
            if phys == 0 || phys > most_phys {
                return Err(refusal(3, i, 0));
            }
            let address = be64(unit, 0);
            if address == 0 || domain.address[..i].contains(&address) {
                return Err(refusal(4, i, 0));
            }
            domain.address[i] = address;
            domain.route_indexes[i] = (unit[14] as usize) << 8 | unit[15] as usize;
            domain.configurable[i] = unit[18] & 1 == 1;
            domain.first[i] = domain.phys.len();
            at += size;
            for p in 0..phys {
                if file.len() - at < 4 {
                    return Err(refusal(1, i, p));
                }
                let size = match file[at + 3] {
                    0 => 52,
                    0x0f => 64,
                    _ => return Err(refusal(2, i, p)),
                };
                if file.len() - at < size {
                    return Err(refusal(1, i, p));
                }
                let unit = &file[at..at + size];
                if unit[0] != 0x41 || unit[1] != 0x10 {
                    return Err(refusal(2, i, p));
                }
                let mut phy = Phy {
                    attached: 0,
                    device: 0,
                    kind: VACANT,
                    attribute: 0,
                    attached_phy: 0,
                    expander: i as u8,
                };
                if unit[2] == 0 {
                    if unit[9] as usize != p || be64(unit, 16) != address {
                        return Err(refusal(5, i, p));
                    }
                    let device_type = unit[12] >> 4 & 7;
                    phy.attribute = unit[44] & 15;
                    phy.attached = be64(unit, 24);
                    phy.attached_phy = unit[32];
                    if device_type > 3
                        || phy.attribute > 2
                        || (device_type != 0 && phy.attached == 0)
                    {
                        return Err(refusal(6, i, p));
                    }
                    phy.kind = match device_type {
                        0 => EMPTY,
                        1 => END_DEVICE,
                        _ => EXPANDER,
                    };
                }
                domain.phys.push(phy);
                at += size;
            }
        }
        domain.first[count] = domain.phys.len();
        if at != file.len() {
            return Err(refusal(1, count, 0));
        }
        Ok(domain)
    }

    /// Causes 7 to 10; numbers the devices and fills the neighbour words.
    fn wire(setting: u32, file: &[u8]) -> Result<Domain, u64> {
        let mut domain = Domain::read(setting, file)?;
        let count = domain.count;

        let mut by_address = [(0u64, 0u32); 64];
        for (i, entry) in by_address[..count].iter_mut().enumerate() {
            *entry = (domain.address[i], i as u32);
        }
        by_address[..count].sort_unstable();
        let find = |address: u64| {
            by_address[..count]
                .binary_search_by_key(&address, |entry| entry.0)
                .ok()
                .map(|place| by_address[place].1)
        };

        // 7
        for index in 0..domain.phys.len() {
            let phy = domain.phys[index];
            if phy.kind != EXPANDER {
                continue;
            }
            let (expander, number) = domain.place(index);
            let named_back = match find(phy.attached) {
                Some(far) => {
                    domain.phys[index].device = far;
                    let far_phys = domain.of(far as usize);
                    let far_phy = phy.attached_phy as usize;
                    far_phy < far_phys.len()
                        && far_phys[far_phy].kind == EXPANDER
                        && far_phys[far_phy].attached == domain.address[expander]
                        && far_phys[far_phy].attached_phy as usize == number
                }
                None => false,
            };
            if phy.attribute == DIRECT || !named_back {
                return Err(refusal(7, expander, number));
            }
            domain.neighbours[expander] |= 1 << domain.phys[index].device;
        }

        // 8, and device numbers for the end devices
        let mut drives: Vec<(u64, u32)> = Vec::new();
        for (index, phy) in domain.phys.iter().enumerate() {
            if phy.kind == END_DEVICE {
                drives.push((phy.attached, index as u32));
            }
        }
        drives.sort_unstable();
        let mut lowest = usize::MAX;
        let mut device = count;
        let mut at = 0;
        while at < drives.len() {
            let (address, head) = drives[at];
            let expander = domain.phys[head as usize].expander;
            if find(address).is_some() {
                lowest = lowest.min(head as usize);
            }
            while at < drives.len() && drives[at].0 == address {
                let index = drives[at].1 as usize;
                if domain.phys[index].expander != expander {
                    lowest = lowest.min(index);
                }
                domain.phys[index].device = device as u32;
                at += 1;
            }
            device += 1;
        }
        domain.devices = device;
        if lowest != usize::MAX {
            return Err(domain.refuse(8, lowest));
        }

        // 9
        let mut seen = vec![(u8::MAX, 0u8); device];
        for expander in 0..count {
            let mut subtractive = None;
            for (number, phy) in domain.of(expander).iter().enumerate() {
                if !phy.is_attached() {
                    continue;
                }
                let seen = &mut seen[phy.device as usize];
                if seen.0 == expander as u8 {
                    if seen.1 != phy.attribute {
                        return Err(refusal(9, expander, number));
                    }
                } else {
                    *seen = (expander as u8, phy.attribute);
                }
                if phy.attribute == SUBTRACTIVE {
                    if subtractive.is_some_and(|device| device != phy.device) {
                        return Err(refusal(9, expander, number));
                    }
                    subtractive = Some(phy.device);
                }
            }
        }

        // 10
        for (index, phy) in domain.phys.iter().enumerate() {
            if phy.kind != VACANT
                && phy.attribute == TABLE
                && !domain.configurable[phy.expander as usize]
            {
                return Err(domain.refuse(10, index));
            }
        }
        Ok(domain)
    }

    /// Causes 11 to 14. Each level list is handed to `take` with the numbers of
    /// its expander and of the expander attached.
    fn judge(
        setting: u32,
        file: &[u8],
        mut take: impl FnMut(usize, usize, &[u64]),
    ) -> Result<Domain, u64> {
        let domain = Domain::wire(setting, file)?;
        let count = domain.count;

        // 11: more links than a forest has
        let mut left: u64 = if count == 64 { !0 } else { (1 << count) - 1 };
        let mut reached_from_0 = 0;
        let mut links = 0;
        for i in 0..count {
            if domain.neighbours[i] >> i & 1 == 1 {
                return Err(refusal(11, 0, 0));
            }
            links += domain.neighbours[i].count_ones();
        }
        let mut components = 0;
        while left != 0 {
            let mut reached = left & left.wrapping_neg();
            let mut edge = reached;
            while edge != 0 {
                let i = edge.trailing_zeros() as usize;
                edge &= edge - 1;
                let new = domain.neighbours[i] & !reached;
                reached |= new;
                edge |= new;
            }
            if components == 0 {
                reached_from_0 = reached;
            }
            left &= !reached;
            components += 1;
        }
        if links as usize / 2 > count - components {
            return Err(refusal(11, 0, 0));
        }
        // 12
        let cut_off = (!reached_from_0).trailing_zeros() as usize;
        if cut_off < count {
            return Err(refusal(12, cut_off, 0));
        }
        // 23: the longest chain starts at an expander farthest from any other
        let (_, end) = domain.farthest(0);
        if domain.farthest(end).0 > (setting & 0xff) as usize {
            return Err(refusal(23, 0, 0));
        }
        // 14
        let mut stamps = vec![0u32; domain.devices];
        let mut stamp = 0;
        let mut list = Vec::new();
        for x in 0..count {
            let mut done = 0u64;
            for (number, phy) in domain.of(x).iter().enumerate() {
                if phy.kind != EXPANDER || phy.attribute != TABLE || done >> phy.device & 1 == 1 {
                    continue;
                }
                done |= 1 << phy.device;
                if domain.is_table_to_table(phy) {
                    continue;
                }
                stamp += 1;
                domain.level_list(x, phy.device as usize, &mut stamps, stamp, &mut list);
                if list.len() > domain.route_indexes[x] {
                    return Err(refusal(14, x, number));
                }
                take(x, phy.device as usize, &list);
            }
        }
        Ok(domain)
    }

    /// Of a table phy attached to an expander: is its far end a table phy?
    fn is_table_to_table(&self, phy: &Phy) -> bool {
        self.phys[self.far(phy)].attribute == TABLE
    }

    /// The expanders of the longest chain from `start` in a tree, and its end.
    fn farthest(&self, start: usize) -> (usize, usize) {
        let mut reached = 1u64 << start;
        let mut edge = reached;
        let (mut length, mut end) = (0, start);
        while edge != 0 {
            length += 1;
            end = edge.trailing_zeros() as usize;
            let mut next = 0;
            while edge != 0 {
                next |= self.neighbours[edge.trailing_zeros() as usize];
                edge &= edge - 1;
            }
            edge = next & !reached;
            reached |= edge;
        }
        (length, end)
    }

    fn level_list(&self, x: usize, n: usize, stamps: &mut [u32], stamp: u32, list: &mut Vec<u64>) {
        list.clear();
        stamps[x] = stamp;
        for phy in self.of(x) {
            if phy.is_attached() {
                stamps[phy.device as usize] = stamp;
            }
        }
        // The expanders of all levels in order, each with the one before it.
        let mut order = [(0u8, 0u8); 64];
        order[0] = (n as u8, x as u8);
        let mut end = 1;
        let mut at = 0;
        while at < end {
            let (expander, from) = order[at];
            at += 1;
            let mut next = 0u64;
            for phy in self.of(expander as usize) {
                match (phy.kind, phy.attribute) {
                    (VACANT, _) => {}
                    (EMPTY, DIRECT) => list.push(0),
                    (EMPTY, _) => {}
                    (_, DIRECT) => {
                        list.push(phy.attached);
                        stamps[phy.device as usize] = stamp;
                    }
                    _ => {
                        if stamps[phy.device as usize] != stamp {
                            stamps[phy.device as usize] = stamp;
                            list.push(phy.attached);
                        }
                        if phy.kind == EXPANDER
                            && phy.attribute == TABLE
                            && phy.device != u32::from(from)
                            && next >> phy.device & 1 == 0
                            && !self.is_table_to_table(phy)
                        {
                            next |= 1 << phy.device;
                            order[end] = (phy.device as u8, expander);
                            end += 1;
                        }
                    }
                }
            }
        }
    }

    fn tables(&self) -> (usize, usize) {
        let mut tables = 0;
        let mut words = 0;
        for phy in &self.phys {
            if phy.kind != VACANT && phy.attribute == TABLE {
                tables += 1;
                words += self.route_indexes[phy.expander as usize];
            }
        }
        (tables, words)
    }

    /// Where the words of each expander begin.
    fn stretches(&self) -> [usize; 65] {
        let mut stretch = [0usize; 65];
        for x in 0..self.count {
            let phys = self.of(x).iter();
            let tables = phys.filter(|phy| phy.kind != VACANT && phy.attribute == TABLE);
            stretch[x + 1] = stretch[x] + tables.count() * self.route_indexes[x];
        }
        stretch
    }

    /// Causes 16, 18 and 17.
    fn test_lent(&self, words: &[u64], bits: &[u8], address: u64) -> Result<(), u64> {
        let (_, needed) = self.tables();
        if words.len() < needed {
            return Err(refusal(16, 0, 0));
        }
        if bits.len() < needed.div_ceil(8) {
            return Err(refusal(18, 0, 0));
        }
        match address {
            0 => Err(refusal(17, 0, 0)),
            _ => Ok(()),
        }
    }

    /// The lowest phy that is attached to the address.
    fn bearing(&self, at: usize, address: u64) -> Option<usize> {
        let mut phys = self.of(at).iter();
        phys.position(|phy| phy.is_attached() && phy.attached == address)
    }

    /// The lowest table phy attached to an expander with the address in a word that
    /// is not disabled, and the first such word of it; `offset` is the expander's
    /// first word.
    fn listed(
        &self,
        at: usize,
        address: u64,
        words: &[u64],
        bits: &[u8],
        mut offset: usize,
    ) -> Option<(usize, usize)> {
        let r = self.route_indexes[at];
        for (number, phy) in self.of(at).iter().enumerate() {
            if phy.kind == VACANT || phy.attribute != TABLE {
                continue;
            }
            let stretch = offset..offset + r;
            if phy.kind == EXPANDER && words[stretch.clone()].contains(&address) {
                let enabled = |&k: &usize| bits[k / 8] << (k % 8) & 0x80 == 0;
                let mut found = stretch.filter(|&k| words[k] == address);
                if let Some(k) = found.find(enabled) {
                    return Some((number, k - offset));
                }
            }
            offset += r;
        }
        None
    }

    /// The lowest subtractive phy attached to an expander.
    fn upward(&self, at: usize) -> Option<usize> {
        let mut phys = self.of(at).iter();
        phys.position(|phy| phy.kind == EXPANDER && phy.attribute == SUBTRACTIVE)
    }
}

pub struct Fast;

/// The bytes of a shelf.
#[repr(C)]
struct Shelf {
    entries: [u64; 1024],
    disabled: [u8; 1024],
    kinds: [u8; 16],
    indexes: u32,
    phys: u32,
}

const _: () = assert!(size_of::<Shelf>() == size_of::<Words>());

impl Shelf {
    // Any bytes are a shelf, and words are aligned as it is.
    fn at(words: &Words) -> &Shelf {
        unsafe { &*words.as_ptr().cast() }
    }

    fn at_mut(words: &mut Words) -> &mut Shelf {
        unsafe { &mut *words.as_mut_ptr().cast() }
    }

    fn result(&self, phy: u8, index: u16) -> u64 {
        if u32::from(phy) >= self.phys.min(16) {
            return 0x10;
        }
        match self.kinds[usize::from(phy)] {
            0 => 0x16,
            1 if u32::from(index) < self.indexes.min(64) => 0x00,
            _ => 0x11,
        }
    }
}

impl Calls for Fast {
    fn name(&self) -> &'static str {
        "fast version"
    }

    fn wire(&self, setting: u32, file: &[u8], words: &mut [u64]) -> u64 {
        match Domain::wire(setting, file) {
            Err(refused) => refused,
            Ok(domain) if words.len() < domain.count => refusal(16, 0, 0),
            Ok(domain) => {
                words[..domain.count].copy_from_slice(&domain.neighbours[..domain.count]);
                domain
                    .neighbours
                    .iter()
                    .map(|word| u64::from(word.count_ones()))
                    .sum()
            }
        }
    }

    fn judge(&self, setting: u32, file: &[u8]) -> u64 {
        match Domain::judge(setting, file, |_, _, _| ()) {
            Err(refused) => refused,
            Ok(domain) => domain.count as u64,
        }
    }

    fn needed(&self, setting: u32, file: &[u8]) -> u64 {
        match Domain::judge(setting, file, |_, _, _| ()) {
            Err(refused) => refused,
            Ok(domain) => {
                let (tables, words) = domain.tables();
                (tables as u64) << 32 | words as u64
            }
        }
    }

    fn word_place(&self, setting: u32, file: &[u8], k: u64) -> u64 {
        let domain = match Domain::judge(setting, file, |_, _, _| ()) {
            Err(refused) => return refused,
            Ok(domain) => domain,
        };
        let mut index = k;
        for (place, phy) in domain.phys.iter().enumerate() {
            let r = domain.route_indexes[phy.expander as usize] as u64;
            if phy.kind == VACANT || phy.attribute != TABLE {
                continue;
            }
            if index < r {
                let (expander, number) = domain.place(place);
                return (expander as u64) << 24 | (number as u64) << 16 | index;
            }
            index -= r;
        }
        refusal(15, 0, 0)
    }

    fn tables(&self, setting: u32, file: &[u8], words: &mut [u64], bits: &mut [u8]) -> u64 {
        let mut kept: Vec<u64> = Vec::new();
        let mut lists: Vec<(u8, u8, usize, usize)> = Vec::new();
        let domain = match Domain::judge(setting, file, |x, n, list| {
            lists.push((x as u8, n as u8, kept.len(), list.len()));
            kept.extend_from_slice(list);
        }) {
            Err(refused) => return refused,
            Ok(domain) => domain,
        };
        let (tables, needed) = domain.tables();
        if words.len() < needed {
            return refusal(16, 0, 0);
        }
        if bits.len() < needed.div_ceil(8) {
            return refusal(18, 0, 0);
        }
        let mut at = 0;
        let mut next_list = 0;
        for x in 0..domain.count {
            let from = next_list;
            while next_list < lists.len() && lists[next_list].0 as usize == x {
                next_list += 1;
            }
            for phy in domain.of(x) {
                if phy.kind == VACANT || phy.attribute != TABLE {
                    continue;
                }
                let stretch = &mut words[at..at + domain.route_indexes[x]];
                let mut filled = 0;
                if phy.kind == EXPANDER {
                    for &(_, n, start, length) in &lists[from..next_list] {
                        if u32::from(n) == phy.device {
                            stretch[..length].copy_from_slice(&kept[start..start + length]);
                            filled = length;
                        }
                    }
                }
                stretch[filled..].fill(0);
                at += domain.route_indexes[x];
            }
        }
        let (whole, rest) = words[..needed].split_at(needed / 8 * 8);
        for (byte, words) in bits.iter_mut().zip(whole.chunks_exact(8)) {
            *byte = zero_bits(words);
        }
        if !rest.is_empty() {
            bits[needed / 8] = zero_bits(rest) << (8 - rest.len());
        }
        (tables as u64) << 32 | needed as u64
    }

    fn trace(
        &self,
        setting: u32,
        file: &[u8],
        words: &[u64],
        bits: &[u8],
        start: u8,
        arrival: u8,
        address: u64,
        passed: &mut [u8],
    ) -> u64 {
        let domain = match Domain::judge(setting, file, |_, _, _| ()) {
            Err(refused) => return refused,
            Ok(domain) => domain,
        };
        let mut at = start as usize;
        if at >= domain.count {
            return refusal(15, 0, 0);
        }
        let mut source = 0;
        if arrival != 255 {
            match domain.of(at).get(arrival as usize) {
                Some(phy) if phy.kind == END_DEVICE => source = phy.attached,
                _ => return refusal(15, 0, 0),
            }
        }
        if passed.len() < domain.count {
            return refusal(16, 0, 0);
        }
        if let Err(refused) = domain.test_lent(words, bits, address) {
            return refused;
        }
        let stretch = domain.stretches();
        let mut count = 0;
        let end = |outcome: u64, last: usize, phy: usize, count: usize| {
            outcome << 24 | (last as u64) << 16 | (phy as u64) << 8 | count as u64
        };
        loop {
            passed[count] = at as u8;
            count += 1;
            if domain.address[at] == address {
                return end(0, at, 255, count);
            }
            let phys = domain.of(at);
            let picked = domain.bearing(at, address).or_else(|| {
                let listed = domain.listed(at, address, words, bits, stretch[at]);
                listed.map(|(number, _)| number)
            });
            let moved = match picked {
                Some(number) if phys[number].attached == source => return end(2, at, 255, count),
                Some(number) if phys[number].kind == END_DEVICE => {
                    return end(0, at, number, count)
                }
                Some(number) => &phys[number],
                None => match domain.upward(at) {
                    Some(number) if phys[number].attached != source => &phys[number],
                    _ => return end(1, at, 255, count),
                },
            };
            source = domain.address[at];
            at = moved.device as usize;
        }
    }

    fn step(
        &self,
        setting: u32,
        file: &[u8],
        words: &[u64],
        bits: &[u8],
        expander: u8,
        arrival: u8,
        address: u64,
    ) -> u64 {
        let domain = match Domain::judge(setting, file, |_, _, _| ()) {
            Err(refused) => return refused,
            Ok(domain) => domain,
        };
        let at = expander as usize;
        if at >= domain.count {
            return refusal(15, 0, 0);
        }
        let phys = domain.of(at);
        let source = match phys.get(arrival as usize) {
            _ if arrival == 255 => 0,
            Some(phy) if phy.is_attached() => phy.attached,
            _ => return refusal(15, 0, 0),
        };
        if let Err(refused) = domain.test_lent(words, bits, address) {
            return refused;
        }
        if domain.address[at] == address {
            return 0x01ff_ffff_ffff;
        }
        let bearing = domain.bearing(at, address).map(|number| (2, number, 65535));
        let picked = bearing.or_else(|| {
            let listed = domain.listed(at, address, words, bits, domain.stretches()[at]);
            listed.map(|(number, index)| (3, number, index))
        });
        let upward = || {
            let number = domain.upward(at)?;
            (phys[number].attached != source).then_some((4, number, 65535))
        };
        let Some((rule, number, index)) = picked.or_else(upward) else {
            return 0x05ff_ffff_ffff;
        };
        let phy = &phys[number];
        let bad = phy.attached == source;
        let next = match phy.kind {
            EXPANDER if !bad => u64::from(phy.device) << 8 | u64::from(phy.attached_phy),
            _ => 0xffff,
        };
        u64::from(bad) << 48 | rule << 40 | (number as u64) << 32 | (index as u64) << 16 | next
    }

    fn compact(&self, setting: u32, file: &[u8], form: &mut [u64]) -> u64 {
        Reference.compact(setting, file, form)
    }

    fn compact_tables(
        &self,
        setting: u32,
        form: &[u64],
        words: &mut [u64],
        bits: &mut [u8],
    ) -> u64 {
        Reference.compact_tables(setting, form, words, bits)
    }

    fn compact_trace(
        &self,
        setting: u32,
        form: &[u64],
        words: &[u64],
        bits: &[u8],
        start: u8,
        arrival: u8,
        address: u64,
        passed: &mut [u8],
    ) -> u64 {
        Reference.compact_trace(setting, form, words, bits, start, arrival, address, passed)
    }

    fn compact_trace_many(
        &self,
        setting: u32,
        form: &[u64],
        words: &[u64],
        bits: &[u8],
        requests: &[u64],
        answers: &mut [u64],
    ) -> u64 {
        Reference.compact_trace_many(setting, form, words, bits, requests, answers)
    }

    fn card_of_file(&self, setting: u32, file: &[u8], card: &mut [u8]) -> u64 {
        cards::put(cards::card_of_file(setting, file), card)
    }

    fn file_of_card(&self, setting: u32, card: &[u8], file: &mut [u8]) -> u64 {
        cards::put(cards::file_of_card(setting, card), file)
    }

    fn event(
        &self,
        setting: u32,
        file: &mut [u8],
        words: &mut [u64],
        bits: &mut [u8],
        event: Event,
    ) -> u64 {
        events::put(setting, file, words, bits, event)
    }

    fn join(&self, setting: u32, first: Part, second: Part, out: &mut [u8]) -> u64 {
        let [first, second] = [first, second].map(|(file, place)| joins::End {
            file: file.to_vec(),
            place,
        });
        joins::put(setting, [&first, &second], out)
    }

    fn make(&self, first: u64, second: u64, words: &[u64], out: &mut [u8]) -> u64 {
        cards::put(exercises::make(first, second, words), out)
    }

    fn write_route(
        &self,
        buf: &mut [u8],
        length: u8,
        phy: u8,
        index: u16,
        address: u64,
        disabled: u8,
    ) -> u64 {
        if length != 0 && length != 9 {
            return refusal(2, 0, 0);
        }
        if phy > 127 {
            return refusal(15, 0, 0);
        }
        if buf.len() < 40 {
            return refusal(16, 0, 0);
        }
        buf[..40].fill(0);
        buf[0] = 0x40;
        buf[1] = 0x90;
        buf[3] = length;
        buf[6..8].copy_from_slice(&index.to_be_bytes());
        buf[9] = phy;
        buf[12] = if disabled != 0 { 0x80 } else { 0 };
        buf[16..24].copy_from_slice(&address.to_be_bytes());
        40
    }

    fn read_route(&self, frame: &[u8]) -> u64 {
        if frame.len() != 40 {
            return refusal(1, 0, 0);
        }
        if frame[0] != 0x40 || frame[1] != 0x90 || frame[3] != 0 && frame[3] != 9 {
            return refusal(2, 0, 0);
        }
        if frame[9] > 127 {
            return refusal(15, 0, 0);
        }
        u64::from(frame[12] >> 7) << 32
            | u64::from(frame[3]) << 24
            | u64::from(frame[9]) << 16
            | u64::from(frame[6]) << 8
            | u64::from(frame[7])
    }

    fn read_route_address(&self, frame: &[u8]) -> u64 {
        if self.read_route(frame) >> 63 == 1 {
            0
        } else {
            be64(frame, 16)
        }
    }

    fn read_general(&self, frame: &[u8]) -> u64 {
        if frame.len() < 4 {
            return refusal(1, 0, 0);
        }
        if frame[3] != 0 && frame[3] != 0x10 {
            return refusal(2, 0, 0);
        }
        if frame.len() != if frame[3] == 0 { 28 } else { 68 } {
            return refusal(1, 0, 0);
        }
        if frame[..3] != [0x41, 0, 0] {
            return refusal(2, 0, 0);
        }
        u64::from(frame[6]) << 24
            | u64::from(frame[7]) << 16
            | u64::from(frame[9]) << 8
            | u64::from(frame[10] & 1)
    }

    fn read_general_sas2(&self, frame: &[u8]) -> u64 {
        let answer = self.read_general(frame);
        if answer >> 63 == 1 || frame[3] == 0 {
            return answer;
        }
        answer | 1 << 34 | u64::from(frame[10] >> 7 & 1) << 33 | u64::from(frame[10] >> 2 & 1) << 32
    }

    fn read_discover(&self, frame: &[u8]) -> u64 {
        if frame.len() < 4 {
            return refusal(1, 0, 0);
        }
        if frame[3] != 0 && frame[3] != 0x0f {
            return refusal(2, 0, 0);
        }
        if frame.len() != if frame[3] == 0 { 52 } else { 64 } {
            return refusal(1, 0, 0);
        }
        if frame[0] != 0x41 || frame[1] != 0x10 {
            return refusal(2, 0, 0);
        }
        if frame[2] != 0 {
            return 1 << 62 | u64::from(frame[2]);
        }
        u64::from(frame[9]) << 32
            | u64::from(frame[12] >> 4 & 7) << 24
            | u64::from(frame[44] & 15) << 16
            | u64::from(frame[32])
    }

    fn discover_own(&self, frame: &[u8]) -> u64 {
        match self.read_discover(frame) >> 62 {
            0 => be64(frame, 16),
            _ => 0,
        }
    }

    fn discover_attached(&self, frame: &[u8]) -> u64 {
        match self.read_discover(frame) >> 62 {
            0 => be64(frame, 24),
            _ => 0,
        }
    }

    fn shelf_fresh(&self, shelf: &mut Words, phys: u8, indexes: u16, kinds: &[u8]) -> u64 {
        let count = usize::from(phys);
        if count == 0 || count > 16 || indexes > 64 || kinds.len() != count {
            return refusal(3, 0, 0);
        }
        if kinds.iter().any(|&kind| kind > 2) {
            return refusal(3, 0, 0);
        }
        let shelf = Shelf::at_mut(shelf);
        shelf.entries = [0; 1024];
        shelf.disabled = [1; 1024];
        shelf.kinds = [0; 16];
        shelf.kinds[..count].copy_from_slice(kinds);
        shelf.indexes = indexes.into();
        shelf.phys = phys.into();
        0
    }

    fn shelf_obey(&self, shelf: &mut Words, frame: &[u8]) -> u64 {
        let read = self.read_route(frame);
        if read >> 63 == 1 {
            return read;
        }
        let shelf = Shelf::at_mut(shelf);
        let (phy, index) = ((read >> 16) as u8, read as u16);
        let result = shelf.result(phy, index);
        if result == 0 {
            let at = 64 * usize::from(phy) + usize::from(index);
            shelf.entries[at] = be64(frame, 16);
            shelf.disabled[at] = (read >> 32) as u8;
        }
        result
    }

    fn shelf_entry(&self, shelf: &Words, phy: u8, index: u16) -> u64 {
        let shelf = Shelf::at(shelf);
        match shelf.result(phy, index) {
            0 => shelf.entries[64 * usize::from(phy) + usize::from(index)],
            _ => 0,
        }
    }

    fn shelf_disabled(&self, shelf: &Words, phy: u8, index: u16) -> u64 {
        let shelf = Shelf::at(shelf);
        match shelf.result(phy, index) {
            0 => u64::from(shelf.disabled[64 * usize::from(phy) + usize::from(index)] != 0),
            _ => 2,
        }
    }
}
