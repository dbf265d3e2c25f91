//! Two rigs joined by one cable, as document 02 has it (paper 12), and pairs of files
//! compared with it.

use std::collections::HashSet;

use crate::calls::Calls;
use crate::cards;
use crate::compare::{hex, same, Counts, Difference, Lent};
use crate::generate::{self, WIDEST};
use crate::random::Random;
use crate::reference::{
    self, disable_bits, refuse, Attached, Attribute, Domain, Judged, Outcome, Phy, Place, Refusal,
    Setting, NOWHERE,
};
use crate::traces::Request;

// ---------------------------------------------------------------- reference

/// A file, and the phy of it that the cable is at.
#[derive(Clone)]
pub struct End {
    pub file: Vec<u8>,
    pub place: Place,
}

/// Where the DISCOVER response of a phy starts in a file that causes 1 to 6 leave.
pub fn start_of(file: &[u8], (expander, phy): Place) -> usize {
    let mut at = 2;
    for number in 0..=expander {
        let general = &file[at + 8..];
        let phys = general[9];
        at += 8 + if general[3] == 0x10 { 68 } else { 28 };
        let before = if number == expander { phy } else { phys };
        for _ in 0..before {
            at += if file[at + 3] == 0x0f { 64 } else { 52 };
        }
    }
    at
}

/// The joined file: 22 and the first file, the second file with its places behind the
/// first's, 21, the joined file.
pub fn join(setting: u32, ends: [&End; 2]) -> Result<Vec<u8>, Refusal> {
    judged_parts(setting, ends).and_then(|parts| join_parts(setting, ends, parts.each_ref()))
}

/// Both files by themselves.
fn judged_parts(setting: u32, [first, second]: [&End; 2]) -> Result<[Judged; 2], Refusal> {
    let one = reference::judged(setting, &first.file)?;
    let other = reference::judged(setting, &second.file).map_err(|refusal| Refusal {
        expander: refusal.expander + one.expanders() as u8,
        ..refusal
    })?;
    Ok([one, other])
}

fn join_parts(setting: u32, ends: [&End; 2], parts: [&Judged; 2]) -> Result<Vec<u8>, Refusal> {
    let pairs = ends.into_iter().zip(parts);
    let closed = pairs.filter(|(end, part)| !is_open(&part.domain, end.place));
    refuse(closed.count() > 0, 21, NOWHERE)?;
    let file = joined(ends, parts);
    reference::judged(setting, &file)?;
    Ok(file)
}

/// A subtractive phy that is not vacant and has nothing attached, at an expander
/// whose subtractive phys all have nothing attached.
fn is_open(domain: &Domain, (expander, phy): Place) -> bool {
    let Some(expander) = domain.expanders.get(&expander) else {
        return false;
    };
    let taken =
        |phy: &Phy| phy.attribute == Attribute::Subtractive && phy.attached != Attached::Nothing;
    let phy = expander.phys.get(&phy);
    phy.is_some_and(|phy| phy.attribute == Attribute::Subtractive)
        && phy.is_some_and(|phy| phy.attached == Attached::Nothing)
        && !expander.phys.values().any(taken)
}

/// The first's expanders, then the second's, and the cable at both ends.
fn joined([first, second]: [&End; 2], [one, other]: [&Judged; 2]) -> Vec<u8> {
    let count = one.expanders() + other.expanders();
    let mut file = vec![0x10, count as u8];
    file.extend(&first.file[2..]);
    file.extend(&second.file[2..]);
    let own = |end: &End, part: &Judged| part.domain.expanders[&end.place.0].address;
    let near = start_of(&first.file, first.place);
    let far = first.file.len() - 2 + start_of(&second.file, second.place);
    cable(&mut file[near..], own(second, other), second.place.1);
    cable(&mut file[far..], own(first, one), first.place.1);
    file
}

/// Type 2, far address and far phy in a DISCOVER response.
fn cable(frame: &mut [u8], address: u64, phy: u8) {
    frame[12] = frame[12] & 0b1000_1111 | 0b0010_0000;
    frame[24..=31].copy_from_slice(&address.to_be_bytes());
    frame[32] = phy;
}

/// The whole call, in the form of the archive's.
pub fn put(setting: u32, ends: [&End; 2], out: &mut [u8]) -> u64 {
    cards::put(join(setting, ends), out)
}

// ---------------------------------------------------------------- vectors

/// The pair rig with phy 1 of expander 0 empty and subtractive, every address with this
/// first byte.
fn half(first: u8) -> Vec<u8> {
    let mut file = crate::vectors::pair_rig();
    (file[102], file[134]) = (0x00, 0x01);
    // Own and attached addresses, by the offsets of docs/FILE-FORMAT.md.
    for at in [2, 54, 62, 106, 142, 194, 202, 246, 254, 298] {
        file[at] = first;
    }
    file
}

/// Halves of the pair rig joined, with bytes and answers written by hand; the answers made.
pub fn vectors(subject: &dyn Calls) -> Result<usize, Difference> {
    let (left, right) = (half(0x50), half(0x51));
    let change = |file: &[u8], bytes: &[(usize, u8)]| {
        let mut file = file.to_vec();
        bytes.iter().for_each(|&(at, value)| file[at] = value);
        file
    };
    let mut bench = [&[0x10, 4], &left[2..], &right[2..]].concat();
    // Phy 1 of expander 0 and that of expander 2, which is 332 bytes behind it.
    for (at, first) in [(0, 0x51), (332, 0x50)] {
        bench[102 + at] = 0x20;
        bench[114 + at..122 + at].copy_from_slice(&[first, 0, 0, 0, 0, 0, 0, 0x10]);
        bench[122 + at] = 1;
    }
    // An expander alone, with an empty subtractive phy 0, behind the left half.
    let mut single = vec![0; 90];
    single[..2].copy_from_slice(&[0x10, 1]);
    single[2..14].copy_from_slice(&[0x52, 0, 0, 0, 0, 0, 0, 1, 0x41, 0, 0, 0]);
    single[19] = 1;
    single[38..40].copy_from_slice(&[0x41, 0x10]);
    single[54..62].copy_from_slice(&[0x52, 0, 0, 0, 0, 0, 0, 1]);
    single[82] = 0x01;
    // The same with a subtractive phy 1 that a drive is attached to.
    let mut beside = [&single[..], &single[38..]].concat();
    (beside[19], beside[99], beside[102], beside[121]) = (2, 1, 0x10, 7);
    let mut row = [&[0x10, 3], &left[2..], &single[2..]].concat();
    for (at, address, phy) in [(90, [0x52, 1], 0), (332 + 38, [0x50, 0x10], 1)] {
        row[at + 12] = 0x20;
        (row[at + 24], row[at + 31], row[at + 32]) = (address[0], address[1], phy);
    }
    let refused = |number: u64, expander: u64, phy: u64| {
        Err((1 << 63) + number * 65536 + expander * 256 + phy)
    };
    let setting = |expanders: u32, phys: u32, chain: u32| expanders << 16 | phys << 8 | chain;
    let vacant = change(&left, &[(92, 0x16)]);
    let direct = change(&left, &[(134, 0x00)]);
    let drive = change(&left, &[(102, 0x10)]);
    // Phy 2 of expander 1 is subtractive, and so is phy 0, which is attached.
    let taken = change(&left, &[(326, 0x01)]);
    let short = change(&right, &[(17, 1)]);
    let island = change(&right, &[(50, 0x00), (190, 0x00)]);
    let shared_drive = change(&right, &[(254, 0x50)]);
    let cases = [
        (
            "phys of two numbers",
            WIDEST,
            (&left, (0, 1)),
            (&single, (0, 0)),
            Ok(&row),
        ),
        (
            "halves",
            WIDEST,
            (&left, (0, 1)),
            (&right, (0, 1)),
            Ok(&bench),
        ),
        (
            "just enough",
            setting(4, 3, 4),
            (&left, (0, 1)),
            (&right, (0, 1)),
            Ok(&bench),
        ),
        (
            "setting",
            setting(65, 3, 4),
            (&left, (0, 1)),
            (&right, (0, 1)),
            refused(22, 0, 0),
        ),
        (
            "expanders",
            setting(3, 3, 4),
            (&left, (0, 1)),
            (&right, (0, 1)),
            refused(3, 0, 0),
        ),
        (
            "chain",
            setting(4, 3, 3),
            (&left, (0, 1)),
            (&right, (0, 1)),
            refused(23, 0, 0),
        ),
        (
            "phys of the first",
            setting(4, 2, 4),
            (&left, (0, 1)),
            (&right, (0, 1)),
            refused(3, 1, 0),
        ),
        (
            "no expander",
            WIDEST,
            (&left, (2, 1)),
            (&right, (0, 1)),
            refused(21, 0, 0),
        ),
        (
            "no phy",
            WIDEST,
            (&left, (0, 2)),
            (&right, (0, 1)),
            refused(21, 0, 0),
        ),
        (
            "no expander there",
            WIDEST,
            (&left, (0, 1)),
            (&right, (2, 1)),
            refused(21, 0, 0),
        ),
        (
            "no phy there",
            WIDEST,
            (&left, (0, 1)),
            (&right, (0, 2)),
            refused(21, 0, 0),
        ),
        (
            "vacant",
            WIDEST,
            (&vacant, (0, 1)),
            (&right, (0, 1)),
            refused(21, 0, 0),
        ),
        (
            "direct",
            WIDEST,
            (&direct, (0, 1)),
            (&right, (0, 1)),
            refused(21, 0, 0),
        ),
        (
            "direct there",
            WIDEST,
            (&right, (0, 1)),
            (&direct, (0, 1)),
            refused(21, 0, 0),
        ),
        (
            "at a drive",
            WIDEST,
            (&drive, (0, 1)),
            (&right, (0, 1)),
            refused(21, 0, 0),
        ),
        (
            "at an expander",
            WIDEST,
            (&left, (1, 0)),
            (&right, (0, 1)),
            refused(21, 0, 0),
        ),
        (
            "one attached",
            WIDEST,
            (&taken, (1, 2)),
            (&right, (0, 1)),
            refused(21, 0, 0),
        ),
        (
            "a drive beside",
            WIDEST,
            (&left, (0, 1)),
            (&beside, (0, 0)),
            refused(21, 0, 0),
        ),
        (
            "one attached there",
            WIDEST,
            (&right, (0, 1)),
            (&taken, (1, 2)),
            refused(21, 0, 0),
        ),
        (
            "itself",
            WIDEST,
            (&left, (0, 1)),
            (&left, (0, 1)),
            refused(4, 2, 0),
        ),
        (
            "a drive in both",
            WIDEST,
            (&left, (0, 1)),
            (&shared_drive, (0, 1)),
            refused(8, 3, 1),
        ),
        (
            "an island there",
            WIDEST,
            (&left, (0, 1)),
            (&island, (0, 1)),
            refused(12, 3, 0),
        ),
        (
            "an island",
            WIDEST,
            (&island, (0, 1)),
            (&left, (0, 1)),
            refused(12, 1, 0),
        ),
        (
            "R too small there",
            WIDEST,
            (&left, (9, 9)),
            (&short, (9, 9)),
            refused(14, 2, 0),
        ),
    ];
    let empty: Vec<u8> = Vec::new();
    let longer = [&right[..], &[0]].concat();
    let more = [
        (
            "nothing",
            (&empty, NOWHERE),
            (&right, (0, 1)),
            refused(1, 0, 0),
        ),
        (
            "nothing there",
            (&left, (0, 1)),
            (&empty, NOWHERE),
            refused(1, 2, 0),
        ),
        (
            "a byte after",
            (&left, (9, 9)),
            (&longer, (0, 1)),
            refused(1, 4, 0),
        ),
    ];
    let more = more.map(|(name, first, second, answer)| (name, WIDEST, first, second, answer));
    let mut count = 0;
    for (name, setting, first, second, expected) in cases.into_iter().chain(more) {
        let enough = expected.map_or(bench.len(), Vec::len);
        for length in [0, enough - 1, enough, enough + 9] {
            let mut out = Lent::new(length, || 0x77);
            let (answer, after) = match expected {
                Err(answer) => (answer, out.after(&[])),
                Ok(_) if length < enough => ((1 << 63) + 16 * 65536, out.after(&[])),
                Ok(file) => (file.len() as u64, out.after(file)),
            };
            let what = || format!("join: {name}, {length} bytes");
            let got = subject.join(
                setting,
                (first.0, first.1),
                (second.0, second.1),
                out.part(),
            );
            same(what, answer, got)?;
            out.check(what, &after)?;
            count += 1;
        }
    }
    Ok(count)
}

// ---------------------------------------------------------------- comparing

/// What the joins of a run reached.
#[derive(Clone, Default)]
pub struct Reached {
    joins: u64,
    accepted: u64,
    /// Refusals of the second file alone.
    second: u64,
    /// Refusals of the joined file, by number.
    joined: [u64; 24],
    /// Requests from one rig to the other, and those of them that crossed no
    /// table-to-table link in either.
    traces: u64,
    arrived: u64,
    /// The latter from a drive of the first rig, and of the second.
    from_drives: [u64; 2],
}

impl Reached {
    pub fn add(&mut self, other: &Reached) {
        for (sum, more) in [
            (&mut self.joins, other.joins),
            (&mut self.accepted, other.accepted),
            (&mut self.second, other.second),
            (&mut self.traces, other.traces),
            (&mut self.arrived, other.arrived),
        ] {
            *sum += more;
        }
        for (sum, more) in self.joined.iter_mut().zip(other.joined) {
            *sum += more;
        }
        for (sum, more) in self.from_drives.iter_mut().zip(other.from_drives) {
            *sum += more;
        }
    }

    pub fn print(&self) {
        println!(
            "  joins: {}, {} accepted; refused: {} by the second file, as the joined file is 3: {}, 4: {}, 8: {}, 23: {}; {} traces across, {} arrived, {} and {} of these from a drive of the first and the second",
            self.joins,
            self.accepted,
            self.second,
            self.joined[3],
            self.joined[4],
            self.joined[8],
            self.joined[23],
            self.traces,
            self.arrived,
            self.from_drives[0],
            self.from_drives[1]
        );
    }

    /// Whether a run reached every kind.
    pub fn whole(&self) -> bool {
        let numbers = [3, 4, 8, 23].map(|number| self.joined[number]);
        let drives = !self.from_drives.contains(&0);
        self.accepted > 0 && self.second > 0 && drives && !numbers.contains(&0)
    }
}

/// Files of which one is joined with another.
const FILES_PER_JOIN: usize = 2;
/// Longer files are not joined.
const LONGEST: usize = 60_000;
/// Requests from one rig to the other in each joined file.
const REQUESTS: usize = 4;

/// A file joined with another that is made for it, in either order.
pub fn check(
    subject: &dyn Calls,
    file: &[u8],
    random: &mut Random,
    counts: &mut Counts,
) -> Result<(), Difference> {
    if file.len() > LONGEST || !random.chance(1, FILES_PER_JOIN) {
        return Ok(());
    }
    let mut ends = [
        opened(file.to_vec(), random),
        opened(partner(file, random), random),
    ];
    if random.chance(1, 2) {
        ends.swap(0, 1);
    }
    if random.chance(1, 6) {
        share(&mut ends, random);
    }
    if random.chance(1, 5) {
        let end = &mut ends[random.below(2)];
        end.place = elsewhere(&end.file, end.place, random);
    }
    for setting in [WIDEST, tight(&ends, random)] {
        one(subject, setting, [&ends[0], &ends[1]], random, counts)
            .map_err(|found| found.under(setting))?;
    }
    Ok(())
}

/// Another file, which is most often accepted, at times the same.
fn partner(file: &[u8], random: &mut Random) -> Vec<u8> {
    if random.chance(1, 20) {
        return file.to_vec();
    }
    let mut made = Vec::new();
    for _ in 0..random.pick(&[1, 6, 6]) {
        // Not one of the largest files.
        made = generate::make(16, random).file;
        if made.len() <= LONGEST && reference::judged(WIDEST, &made).is_ok() {
            break;
        }
    }
    made
}

/// The file with an open phy, as far as there is an expander for it, and that phy.
fn opened(mut file: Vec<u8>, random: &mut Random) -> End {
    let Ok(domain) = Domain::read(Setting::WIDEST, &file) else {
        let place = (random.below(3) as u8, random.below(4) as u8);
        return End { file, place };
    };
    let mut places = Vec::new();
    for (&number, expander) in &domain.expanders {
        let subtractive = |phy: &&Phy| phy.attribute == Attribute::Subtractive;
        let mut taken = expander.phys.values().filter(subtractive);
        if taken.any(|phy| matches!(phy.attached, Attached::Expander(..))) {
            continue;
        }
        let free = expander
            .phys
            .iter()
            .filter(|(_, phy)| !matches!(phy.attached, Attached::Expander(..)));
        places.extend(free.map(|(&phy, _)| (number, phy)));
    }
    if places.is_empty() {
        return End {
            file,
            place: NOWHERE,
        };
    }
    let place = random.pick(&places);
    // The other subtractive phys of the expander have nothing attached then, or keep it.
    let keep = random.chance(1, 6);
    for (&phy, fields) in &domain.expanders[&place.0].phys {
        let at = start_of(&file, (place.0, phy));
        if phy == place.1 || (fields.attribute == Attribute::Subtractive && !keep) {
            file[at + 12] &= 0b1000_1111;
        }
        if phy == place.1 {
            file[at + 44] = file[at + 44] & 0xf0 | 1;
        }
    }
    End { file, place }
}

/// A drive of one file gets the address of a device of the other.
fn share(ends: &mut [End; 2], random: &mut Random) {
    let from = random.below(2);
    let [Ok(given), Ok(taken)] =
        [from, 1 - from].map(|at| Domain::read(Setting::WIDEST, &ends[at].file))
    else {
        return;
    };
    let addresses: Vec<u64> = devices(&given).into_iter().collect();
    let drives = drives(&taken);
    if !drives.is_empty() {
        let mut sorted = addresses;
        sorted.sort_unstable();
        let at = start_of(&ends[1 - from].file, random.pick(&drives));
        let address = random.pick(&sorted).to_be_bytes();
        ends[1 - from].file[at + 24..at + 32].copy_from_slice(&address);
    }
}

/// The phys of a domain with an end device attached.
fn drives(domain: &Domain) -> Vec<Place> {
    let mut drives = Vec::new();
    for (&number, expander) in &domain.expanders {
        let phys = expander.phys.iter();
        let at = phys.filter(|(_, phy)| matches!(phy.attached, Attached::EndDevice(_)));
        drives.extend(at.map(|(&phy, _)| (number, phy)));
    }
    drives
}

/// The addresses of the devices of a domain.
fn devices(domain: &Domain) -> HashSet<u64> {
    let drive = |phy: &Phy| match phy.attached {
        Attached::EndDevice(address) => Some(address),
        _ => None,
    };
    let expanders = domain.expanders.values();
    expanders
        .flat_map(|expander| {
            let drives = expander.phys.values().filter_map(drive);
            drives.chain([expander.address])
        })
        .collect()
}

/// Another phy: any, a vacant one, one that does not exist, or of no expander.
fn elsewhere(file: &[u8], place: Place, random: &mut Random) -> Place {
    let count = *file.get(1).unwrap_or(&1);
    match random.below(4) {
        0 => (random.pick(&[count, 64, 255]), place.1),
        1 => (place.0, random.pick(&[127, 128, 255])),
        2 => (place.0, random.below(8) as u8),
        _ => (
            random.below(usize::from(count).max(1)) as u8,
            random.below(8) as u8,
        ),
    }
}

/// A setting for the joined file, at times one of whose limits is just too small.
fn tight(ends: &[End; 2], random: &mut Random) -> u32 {
    match join(WIDEST, [&ends[0], &ends[1]]) {
        Ok(file) => generate::setting(&file, random),
        Err(_) => generate::setting(&ends[random.below(2)].file, random),
    }
}

/// One join, in buffers just long enough, longer and too short.
fn one(
    subject: &dyn Calls,
    setting: u32,
    ends: [&End; 2],
    random: &mut Random,
    counts: &mut Counts,
) -> Result<(), Difference> {
    let parts = judged_parts(setting, ends);
    let made = match &parts {
        Err(refusal) => Err(*refusal),
        Ok(parts) => join_parts(setting, ends, parts.each_ref()),
    };
    counts.joins.joins += 1;
    let lengths = match &made {
        Ok(file) => vec![file.len() - 1, file.len(), file.len() + random.below(20)],
        Err(_) => vec![random.below(3) * 300],
    };
    for length in lengths {
        compare(subject, setting, ends, &made, length, random, counts)?;
    }
    let Ok(parts) = parts else {
        let first = reference::judged(setting, &ends[0].file);
        counts.joins.second += first.is_ok() as u64;
        return Ok(());
    };
    exactly_when(setting, ends, &parts, &made, counts)?;
    if let Ok(file) = made {
        across(subject, setting, &file, &parts, random, counts)?;
    }
    Ok(())
}

/// The call with so many bytes lent, its answer and all bytes.
fn compare(
    subject: &dyn Calls,
    setting: u32,
    ends: [&End; 2],
    made: &Result<Vec<u8>, Refusal>,
    length: usize,
    random: &mut Random,
    counts: &mut Counts,
) -> Result<(), Difference> {
    let what = || {
        let [first, second] = ends.map(|end| format!("{:?} {}", end.place, hex(&end.file)));
        format!("join with {length} bytes lent, first {first}, second {second}")
    };
    let files = ends.map(|end| Lent::of(&end.file));
    let kept = files.each_ref().map(|file| file.after(&[]));
    let mut out = Lent::new(length, || random.byte());
    let (expected, after) = match made {
        Err(refusal) => (refusal.answer(), out.after(&[])),
        Ok(file) if length < file.len() => (Refusal::of(16, NOWHERE).answer(), out.after(&[])),
        Ok(file) => (file.len() as u64, out.after(file)),
    };
    let [first, second] = files.each_ref().map(Lent::read);
    let [near, far] = ends.map(|end| end.place);
    let got = subject.join(setting, (first, near), (second, far), out.part());
    counts.answer("join", expected);
    same(what, expected, got)?;
    out.check(what, &after)?;
    for (file, kept) in files.iter().zip(&kept) {
        file.check(what, kept)?;
    }
    Ok(())
}

/// Of two accepted files: the joined file is made exactly when both phys are open, the
/// limits of the setting are kept, and no address is a device's in both.
fn exactly_when(
    setting: u32,
    ends: [&End; 2],
    parts: &[Judged; 2],
    made: &Result<Vec<u8>, Refusal>,
    counts: &mut Counts,
) -> Result<(), Difference> {
    let limits = Setting::read(setting).expect("a setting that accepts files");
    let [one, other] = parts;
    let few = one.expanders() + other.expanders() <= usize::from(limits.expanders);
    let open = is_open(&one.domain, ends[0].place) && is_open(&other.domain, ends[1].place);
    let apart = devices(&one.domain).is_disjoint(&devices(&other.domain));
    let expected = few && open && apart && {
        let file = joined(ends, parts.each_ref());
        let domain = Domain::read(limits, &file).expect("a joined file that can be read");
        domain.longest_chain() <= usize::from(limits.chain)
    };
    same(
        || "a join is made where a condition fails, or refused where all hold".into(),
        expected as u64,
        made.is_ok() as u64,
    )?;
    match made {
        Ok(_) => counts.joins.accepted += 1,
        Err(refusal) => counts.joins.joined[usize::from(refusal.number)] += 1,
    }
    Ok(())
}

/// The tables of the joined file are those of the first and those of the second, and
/// over them requests go from one rig to the other, half of them from a drive.
fn across(
    subject: &dyn Calls,
    setting: u32,
    file: &[u8],
    parts: &[Judged; 2],
    random: &mut Random,
    counts: &mut Counts,
) -> Result<(), Difference> {
    let whole = reference::judged(setting, file).expect("a joined file is accepted");
    let [one, other] = parts;
    let words = [one.table_words(), other.table_words()].concat();
    let changed = whole.table_words() != words;
    same(
        || "tables of a joined file that are no longer those of its parts".into(),
        0,
        changed as u64,
    )?;
    let bits = disable_bits(&words);
    let routes = whole.routes(&words, &bits);
    let mut aside = random.aside();
    for request in 0..REQUESTS {
        let back = random.chance(1, 2);
        let (from, to, before) = match back {
            true => (other, one, one.expanders() as u8),
            false => (one, other, 0),
        };
        let start = random.below(from.expanders()) as u8;
        let (start, arrival) = match request % 2 {
            0 => (start, 255),
            _ => drive(&from.domain, &mut aside).unwrap_or((start, 255)),
        };
        let mut addresses: Vec<u64> = devices(&to.domain).into_iter().collect();
        addresses.sort_unstable();
        let request = Request {
            start: before + start,
            arrival,
            address: random.pick(&addresses),
        };
        let expected = whole.trace(&routes, request.start, arrival, request.address);
        let what = || format!("trace of the joined file {}, {}", hex(file), request.text());
        let mut passed = Lent::new(whole.expanders(), || aside.byte());
        let after = passed.after(&expected.passed);
        let got = subject.trace(
            setting,
            file,
            &words,
            &bits,
            request.start,
            arrival,
            request.address,
            passed.part(),
        );
        counts.answer("trace", expected.answer());
        same(what, expected.answer(), got)?;
        passed.check(what, &after)?;
        let reached = &mut counts.joins;
        reached.traces += 1;
        let clear = !whole.crosses(request.start, request.address);
        let arrived = expected.outcome == Outcome::Arrived;
        same(what, 0, (clear && !arrived) as u64)?;
        reached.arrived += clear as u64;
        if arrival != 255 {
            reached.from_drives[back as usize] += clear as u64;
        }
    }
    Ok(())
}

/// A phy with an end device, where there is one.
fn drive(domain: &Domain, random: &mut Random) -> Option<Place> {
    let places = drives(domain);
    (!places.is_empty()).then(|| random.pick(&places))
}
