//! Times and stack of the archive's calls beside the fast version, in one
//! process and on the same input.

use std::hint::black_box;
use std::time::{Duration, Instant};

use crate::calls::{Archive, Calls};
use crate::events::Event;
use crate::fast::Fast;
use crate::generate::WIDEST;
use crate::layout::*;
use crate::random::Random;
use crate::reference::{self, Attached};
use crate::stack;
use crate::vectors::{self, d, e, full_star};

/// How long calls that are compared are made in turn.
const LONG_ENOUGH: Duration = Duration::from_millis(800);

/// A call is not repeated after this time.
const TOO_LONG: Duration = Duration::from_secs(5);

struct Case {
    name: &'static str,
    file: Vec<u8>,
    start: (u8, u8),
    address: u64,
}

pub fn run() {
    let cases = [
        Case {
            name: "pair rig",
            file: vectors::pair_rig(),
            start: (1, 1),
            address: 0x5000_0000_0000_00a1,
        },
        Case {
            name: "comb of 24 expanders",
            file: comb(),
            start: (23, 1),
            address: d(1, 3),
        },
        Case {
            name: "64 x 128, star",
            file: full_star(DIRECT),
            start: (1, 127),
            address: d(63, 127),
        },
        Case {
            name: "64 x 128, star, spread addresses",
            file: with_drives(full_star(DIRECT), spread),
            start: (1, 127),
            address: spread(d(63, 127)),
        },
        Case {
            name: "64 x 128, star, one key",
            file: with_drives(full_star(DIRECT), one_key),
            start: (1, 127),
            address: one_key(d(63, 127)),
        },
        Case {
            name: "64 x 128, chain of 64-wide links",
            file: chain(),
            start: (0, 0),
            address: d(63, 127),
        },
        Case {
            name: "64 x 128, table phys to end devices",
            file: full_star(TABLE),
            start: (1, 127),
            address: d(63, 127),
        },
    ];
    println!(
        "{:<36} {:<7} {:>14} {:>14} {:>8} {:>15} {:>15}",
        "input", "call", "archive", "fast version", "ratio", "archive stack", "fast stack"
    );
    for case in &cases {
        let mut words = vec![0; words_needed(case)];
        let mut other = words.clone();
        let mut bits = vec![0; words.len().div_ceil(8)];
        let mut other_bits = bits.clone();
        let file = &case.file[..];

        // Both must answer alike before they are timed.
        let judged = agree(case, "judge", |calls| calls.judge(WIDEST, file));
        let written = Archive.tables(WIDEST, file, &mut words, &mut bits);
        if written != Fast.tables(WIDEST, file, &mut other, &mut other_bits)
            || words != other
            || bits != other_bits
        {
            fail(case, "tables");
        }
        let (start, arrival) = case.start;
        let traced = agree(case, "trace", |calls| {
            calls.trace(
                WIDEST,
                file,
                &words,
                &bits,
                start,
                arrival,
                case.address,
                &mut [0; 64],
            )
        });
        println!(
            "{} ({} bytes, {} expanders, {} tables, {} words, trace over {} expanders)",
            case.name,
            file.len(),
            judged,
            written >> 32,
            written & 0xffff_ffff,
            traced & 0xff
        );

        let row = |call: &str, [archive, fast]: [Cost; 2]| {
            println!(
                "{:<36} {:<7} {:>14} {:>14} {:>8.2} {:>15} {:>15}",
                "",
                call,
                show(archive.time),
                show(fast.time),
                archive.time.as_secs_f64() / fast.time.as_secs_f64(),
                archive.stack,
                fast.stack
            );
        };
        row(
            "judge",
            measure([&mut || Archive.judge(WIDEST, black_box(file)), &mut || {
                Fast.judge(WIDEST, black_box(file))
            }]),
        );
        row(
            "tables",
            measure([
                &mut || Archive.tables(WIDEST, black_box(file), &mut words, &mut bits),
                &mut || Fast.tables(WIDEST, black_box(file), &mut other, &mut other_bits),
            ]),
        );
        let trace = |calls: &dyn Calls| {
            let mut passed = [0; 64];
            calls.trace(
                WIDEST,
                black_box(file),
                &words,
                &bits,
                start,
                arrival,
                case.address,
                &mut passed,
            )
        };
        row(
            "trace",
            measure([&mut || trace(&Archive), &mut || trace(&Fast)]),
        );
    }
    println!(
        "The calls of a row are made in turn for {LONG_ENOUGH:?}, and the time is the shortest of \
         each; slow ones are made 3 times, or fewer when these take {TOO_LONG:?}."
    );
    println!(
        "No buffer was cleared between calls; the table call writes all its words and disable \
         bits each time."
    );
    println!(
        "The stack is in bytes, from the top of a stack painted before the call down to the lowest \
         word that it changed; a call that does nothing changes {}.",
        stack::used(|| 0)
    );
    println!("The fast version takes working memory from the allocator in each call, besides.");
    println!();
    many(&cases[..3]);
    println!();
    events(&cases);
}

/// A drive plugged in another's place, beside one judging plus the words that it writes: as the
/// table call writes them, and filled with one number.
fn events(cases: &[Case]) {
    println!(
        "{:<36} {:>8} {:>8} {:>8} {:>10} {:>10} {:>10} {:>10} {:>6} {:>10} {:>6} {:>8}",
        "input",
        "touched",
        "written",
        "changed",
        "judge",
        "tables",
        "words",
        "event",
        "ratio",
        "filled",
        "ratio",
        "stack"
    );
    for case in cases {
        let mut file = case.file.clone();
        let mut words = vec![0; words_needed(case)];
        let mut bits = vec![0; words.len().div_ceil(8)];
        Archive.tables(WIDEST, &file, &mut words, &mut bits);
        let place = last_drive(&file);
        let written = written(&file, place.0);
        let part = written as f64 / words.len() as f64;
        let mut afresh = (words.clone(), bits.clone());
        let mut plain = (words.clone(), bits.clone());
        let (mut drive, mut answer, mut value) = (0x7000_0000_0000_0000, 0, 0);
        let [judge, tables, event, fill] = measure([
            &mut || Archive.judge(WIDEST, black_box(&case.file)),
            &mut || Archive.tables(WIDEST, black_box(&case.file), &mut afresh.0, &mut afresh.1),
            &mut || {
                // Another drive each time, so that words change.
                drive += 1;
                let event = Event {
                    place,
                    address: drive,
                };
                answer = Archive.event(WIDEST, &mut file, &mut words, &mut bits, event);
                answer
            },
            &mut || {
                value += 1;
                black_box(&mut plain.0[..written]).fill(value);
                black_box(&mut plain.1[..written / 8]).fill(value as u8);
                value
            },
        ]);
        Archive.tables(WIDEST, &file, &mut afresh.0, &mut afresh.1);
        if answer >> 63 == 1 || afresh != (words, bits) {
            fail(case, "event");
        }
        let writing = tables.time.saturating_sub(judge.time).mul_f64(part);
        let beside =
            |words: Duration| event.time.as_secs_f64() / (judge.time + words).as_secs_f64();
        println!(
            "{:<36} {:>8} {:>8} {:>8} {:>10} {:>10} {:>10} {:>10} {:>6.2} {:>10} {:>6.2} {:>8}",
            case.name,
            answer >> 32,
            written,
            answer & 0xffff_ffff,
            show(judge.time),
            show(tables.time),
            show(writing),
            show(event.time),
            beside(writing),
            show(fill.time),
            beside(fill.time),
            event.stack
        );
    }
    println!(
        "An event plugs a drive into the last phy that has one, in its place. \"words\" is the time \
         that the table call takes for the words written: what it takes more than judging, for as \
         many of its words. \"filled\" is a loop that fills as many words and disable bits with one \
         number. The ratio after each is of the event to one judging plus that time."
    );
}

/// The last phy of a file that a drive is attached to.
fn last_drive(file: &[u8]) -> reference::Place {
    let judged = reference::judged(WIDEST, file).expect("accepted");
    let mut found = (0, 0);
    for (&number, expander) in &judged.domain.expanders {
        for (&phy, fields) in &expander.phys {
            if let Attached::EndDevice(_) = fields.attached {
                found = (number, phy);
            }
        }
    }
    found
}

/// How many words the tables have that an event at an expander touches.
fn written(file: &[u8], expander: u8) -> usize {
    let judged = reference::judged(WIDEST, file).expect("accepted");
    let tables = judged.tables_beyond(expander);
    tables
        .into_iter()
        .map(|place| judged.stretch(place).len())
        .sum()
}

/// Requests that are traced one by one over the file, and as one list over its form.
const REQUESTS: usize = 1_000;

/// Traces over the file beside traces over its compact form.
fn many(cases: &[Case]) {
    println!(
        "{:<36} {:<14} {:>14} {:>14} {:>8} {:>15} {:>15}",
        "input", "traced", "over the file", "over the form", "ratio", "file stack", "form stack"
    );
    for case in cases {
        let list = Requests::of(case);
        let (file, form) = (&case.file[..], &list.form[..]);
        println!("{} ({} words of form)", case.name, form.len());
        let row = |what: &str, [file, form]: [Cost; 2]| {
            println!(
                "{:<36} {:<14} {:>14} {:>14} {:>8.3} {:>15} {:>15}",
                "",
                what,
                show(file.time),
                show(form.time),
                form.time.as_secs_f64() / file.time.as_secs_f64(),
                file.stack,
                form.stack
            );
        };
        let (start, arrival) = case.start;
        row(
            "one request",
            measure([
                &mut || list.over_file(black_box(file), start, arrival, case.address),
                &mut || list.one_over_form(black_box(form), start, arrival, case.address),
            ]),
        );
        let mut answers = vec![0; REQUESTS];
        row(
            "1,000 requests",
            measure_many([
                &mut || list.answers_over_file(black_box(file)).len() as u64,
                &mut || list.over_form(black_box(form), &mut answers),
            ]),
        );
        let mut room = vec![0; form.len()];
        row(
            "judge, compact",
            measure([&mut || Archive.judge(WIDEST, black_box(file)), &mut || {
                Archive.compact(WIDEST, black_box(file), &mut room)
            }]),
        );
    }
    println!(
        "Of 1,000 requests, from any start to any address of the input, the time is the processor \
         time of all: 1,000 calls over the file, one over the form."
    );
}

/// A list of requests, from any expander or end device to any address of a file.
struct Requests {
    form: Vec<u64>,
    words: Vec<u64>,
    bits: Vec<u8>,
    requests: Vec<u64>,
}

impl Requests {
    fn of(case: &Case) -> Requests {
        let file = &case.file[..];
        let mut form = vec![0; metzurgo::LONGEST_FORM];
        let made = Archive.compact(WIDEST, file, &mut form);
        form.truncate((made & 0xffff_ffff) as usize);
        let mut words = vec![0; words_needed(case)];
        let mut bits = vec![0; words.len().div_ceil(8)];
        Archive.tables(WIDEST, file, &mut words, &mut bits);
        let (starts, addresses) = ends(file);
        let mut random = Random::new(1);
        let requests = (0..REQUESTS)
            .flat_map(|_| [random.pick(&starts), random.pick(&addresses)])
            .collect();
        let list = Requests {
            form,
            words,
            bits,
            requests,
        };
        let mut answers = vec![0; REQUESTS];
        let counted = list.over_form(&list.form, &mut answers);
        if counted != REQUESTS as u64 || answers != list.answers_over_file(file) {
            fail(case, "compact_trace_many");
        }
        list
    }

    fn over_file(&self, file: &[u8], start: u8, arrival: u8, address: u64) -> u64 {
        let mut passed = [0; 64];
        Archive.trace(
            WIDEST,
            file,
            &self.words,
            &self.bits,
            start,
            arrival,
            address,
            &mut passed,
        )
    }

    fn one_over_form(&self, form: &[u64], start: u8, arrival: u8, address: u64) -> u64 {
        let mut passed = [0; 64];
        Archive.compact_trace(
            WIDEST,
            form,
            &self.words,
            &self.bits,
            start,
            arrival,
            address,
            &mut passed,
        )
    }

    fn answers_over_file(&self, file: &[u8]) -> Vec<u64> {
        self.requests
            .chunks_exact(2)
            .map(|request| {
                let [start, arrival] = (request[0] as u16).to_be_bytes();
                self.over_file(file, start, arrival, request[1])
            })
            .collect()
    }

    fn over_form(&self, form: &[u64], answers: &mut [u64]) -> u64 {
        let (words, bits) = (&self.words, &self.bits);
        Archive.compact_trace_many(WIDEST, form, words, bits, &self.requests, answers)
    }
}

/// Every start of a file, as the first word of a request, and every address.
fn ends(file: &[u8]) -> (Vec<u64>, Vec<u64>) {
    let judged = reference::judged(WIDEST, file).expect("accepted");
    let (mut starts, mut addresses) = (Vec::new(), Vec::new());
    for (&number, expander) in &judged.domain.expanders {
        let first = u64::from(number) * 256;
        starts.push(first + 255);
        addresses.push(expander.address);
        for (&phy, fields) in &expander.phys {
            if let Attached::EndDevice(address) = fields.attached {
                starts.push(first + u64::from(phy));
                addresses.push(address);
            }
        }
    }
    (starts, addresses)
}

fn words_needed(case: &Case) -> usize {
    let mut room = vec![0; 8_000_000];
    let mut bits = vec![0; 1_000_000];
    let answer = Fast.tables(WIDEST, &case.file, &mut room, &mut bits);
    if answer >> 63 == 1 {
        fail(case, "tables");
    }
    (answer & 0xffff_ffff) as usize
}

fn agree(case: &Case, call: &str, answer: impl Fn(&dyn Calls) -> u64) -> u64 {
    let (one, two) = (answer(&Archive), answer(&Fast));
    if one != two || one >> 63 == 1 {
        println!("archive {one:016x}h, fast version {two:016x}h");
        fail(case, call);
    }
    one
}

fn fail(case: &Case, call: &str) -> ! {
    println!(
        "{}: the answers of {call} differ or are refusals",
        case.name
    );
    std::process::exit(1);
}

struct Cost {
    time: Duration,
    stack: usize,
}

type Call<'a> = &'a mut dyn FnMut() -> u64;

/// Calls that are compared.
fn measure<const N: usize>(calls: [Call; N]) -> [Cost; N] {
    let began = Instant::now();
    measure_by(|| began.elapsed(), calls)
}

/// Calls that take long enough to be measured by processor time.
fn measure_many<const N: usize>(calls: [Call; N]) -> [Cost; N] {
    measure_by(processor_time, calls)
}

/// The stack of each call, and its shortest time by a clock. The calls are made in turn: a
/// processor may run slower for seconds, and then does so for all of them.
fn measure_by<const N: usize>(clock: impl Fn() -> Duration, mut calls: [Call; N]) -> [Cost; N] {
    let mut costs = calls.each_mut().map(|call| Cost {
        time: Duration::MAX,
        stack: stack::used(call),
    });
    let began = Instant::now();
    let mut rounds = 0;
    while began.elapsed() < LONG_ENOUGH || (rounds < 3 && began.elapsed() < TOO_LONG) {
        for (call, cost) in calls.iter_mut().zip(&mut costs) {
            let start = clock();
            black_box(call());
            cost.time = cost.time.min(clock() - start);
        }
        rounds += 1;
    }
    costs
}

extern "C" {
    fn clock_gettime(clock: i32, time: *mut [i64; 2]) -> i32;
}

/// The processor time of this process, which other processes do not lengthen. Asking
/// for it takes about as long as a trace on the pair rig.
fn processor_time() -> Duration {
    const CLOCK_PROCESS_CPUTIME_ID: i32 = 2;
    let mut time = [0; 2];
    unsafe { clock_gettime(CLOCK_PROCESS_CPUTIME_ID, &mut time) };
    Duration::new(time[0] as u64, time[1] as u32)
}

fn show(time: Duration) -> String {
    let nanoseconds = time.as_nanos() as f64;
    match nanoseconds {
        n if n < 1e4 => format!("{n:.0} ns"),
        n if n < 1e7 => format!("{:.1} us", n / 1e3),
        n => format!("{:.1} ms", n / 1e6),
    }
}

/// A spine of 12 expanders (even numbers), a tooth at each (odd numbers).
fn comb() -> Vec<u8> {
    let mut expanders = Vec::new();
    for spine in 0..12 {
        let (number, tooth) = (2 * spine, 2 * spine + 1);
        let mut expander = Expander::new(e(number), 200, true);
        expander = match spine {
            0 => expander.empty(DIRECT),
            _ => expander.link(SUBTRACTIVE, e(number - 2), 1),
        };
        expander = match spine {
            11 => expander.empty(DIRECT),
            _ => expander.link(TABLE, e(number + 2), 0),
        };
        expander = expander.link(TABLE, e(tooth), 0);
        for phy in 3..8 {
            expander = expander.drive(DIRECT, d(number, phy));
        }
        expanders.push(expander);
        let mut expander = Expander::new(e(tooth), 0, false).link(SUBTRACTIVE, e(number), 2);
        for phy in 1..8 {
            expander = expander.drive(DIRECT, d(tooth, phy));
        }
        expanders.push(expander);
    }
    DomainFile::of(expanders).bytes()
}

/// 64 expanders, each with 64 phys to the one before and 64 to the next.
fn chain() -> Vec<u8> {
    let mut expanders = Vec::new();
    for i in 0..64 {
        let mut expander = Expander::new(e(i), 126, i < 63);
        for phy in 0..64 {
            expander = match i {
                0 => expander.drive(DIRECT, d(0, phy)),
                _ => expander.link(SUBTRACTIVE, e(i - 1), phy as u8 + 64),
            };
        }
        for phy in 64..128 {
            expander = match i {
                63 => expander.drive(DIRECT, d(63, phy)),
                _ => expander.link(TABLE, e(i + 1), phy as u8 - 64),
            };
        }
        expanders.push(expander);
    }
    DomainFile::of(expanders).bytes()
}

/// A file of expanders with 128 phys each, with other addresses of its end
/// devices.
fn with_drives(mut file: Vec<u8>, other: fn(u64) -> u64) -> Vec<u8> {
    for unit in file[2..].chunks_mut(36 + 128 * 52) {
        for phy in unit[36..].chunks_mut(52) {
            if phy[12] >> 4 & 7 == 1 {
                let mut address = [0; 8];
                address.copy_from_slice(&phy[24..32]);
                let address = other(u64::from_be_bytes(address));
                phy[24..32].copy_from_slice(&address.to_be_bytes());
            }
        }
    }
    file
}

/// Another address for each, with no order in them.
fn spread(address: u64) -> u64 {
    let mixed = (address ^ address >> 30).wrapping_mul(0xbf58_476d_1ce4_e5b9);
    let mixed = (mixed ^ mixed >> 27).wrapping_mul(0x94d0_49bb_1331_11eb);
    mixed ^ mixed >> 31
}

/// Another address for each, all with one key in the archive's search trees and
/// the low 39 bits in common, so that a search takes as many steps as it can.
fn one_key(address: u64) -> u64 {
    0x6000_0000_0000_0001 | (address & 0x3fff) << 39
}
