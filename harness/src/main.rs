//! Compares the archive with the reference implementation of documents 01 and 02.
//!
//!     harness [files] [seed]      vectors, then random files (20000, seed 1)
//!     harness one <file seed>     one file of such a run again
//!     harness vectors             the vectors alone
//!     harness bench               times and stack beside the fast version
//!     harness call <file> <call>  one call on one domain file (src/call.rs)
//!     harness call-reference ...  the same call on the reference
//!     harness vectors-reference   the vectors on the reference
//!     harness vectors-fast        the vectors on the fast version
//!     harness self [files] [seed] the fast version in the archive's place

mod bench;
mod call;
mod calls;
mod cards;
mod compare;
mod events;
mod exercises;
mod fast;
mod forms;
mod generate;
mod joins;
mod layout;
mod random;
mod reference;
mod shelves;
mod stack;
mod steps;
mod traces;
mod vectors;

use std::collections::BTreeMap;
use std::env;
use std::fs;
use std::panic;
use std::process::exit;
use std::sync::atomic::{AtomicBool, AtomicU64, Ordering};
use std::sync::Mutex;
use std::thread;
use std::time::{Duration, Instant};

use calls::{Archive, Calls};
use compare::{Check, Counts, Difference, Lent};
use fast::Fast;
use random::{file_seed, Random};
use reference::Reference;

const THREADS: usize = 2;
const FRAMES_PER_FILE: usize = 6;
/// Settings under which a file is judged besides the one under which it is traced.
const OTHER_SETTINGS: usize = 3;
/// Files of which one has a shelf with it.
const FILES_PER_SHELF: usize = 12;
/// A file that takes longer than this is taken for a hang.
const HANG: Duration = Duration::from_secs(300);

/// A run of so many files has to reach the refusals below, but for the rare ones.
const MANY_FILES: u64 = 2_000;
/// A run of so many files has to reach the rare ones, too.
const MORE_FILES: u64 = 20_000;
/// Causes 22 and 1 to 6, by which a file cannot be read.
const READ: &[u8] = &[1, 2, 3, 4, 5, 6, 22];
/// These and the causes of its wiring.
const WIRED: &[u8] = &[1, 2, 3, 4, 5, 6, 7, 8, 9, 10, 22];
/// All causes of a file.
const JUDGED: &[u8] = &[1, 2, 3, 4, 5, 6, 7, 8, 9, 10, 11, 12, 14, 22, 23];
/// Each call that refuses: the causes of a file that it gives, and its other numbers.
const REFUSALS: [(&str, &[u8], &[u8]); 23] = [
    ("wire", WIRED, &[16]),
    ("judge", JUDGED, &[]),
    ("needed", JUDGED, &[]),
    ("word_place", JUDGED, &[15]),
    ("tables", JUDGED, &[16, 18]),
    ("trace", JUDGED, &[15, 16, 17, 18]),
    ("step", JUDGED, &[15, 16, 17, 18]),
    ("compact", JUDGED, &[16]),
    ("compact_tables", &[1, 22], &[16, 18]),
    ("compact_trace", &[1, 22], &[15, 16, 17, 18]),
    ("compact_trace_many", &[1, 22], &[16, 18]),
    ("card_of_file", READ, &[16]),
    ("file_of_card", &[3, 4, 6, 22], &[16, 19]),
    ("event", JUDGED, &[16, 18, 20]),
    ("join", JUDGED, &[16, 21]),
    ("make", &[], &[16, 24]),
    ("write_route", &[], &[2, 15, 16]),
    ("read_route", &[], &[1, 2, 15]),
    ("read_general", &[], &[1, 2]),
    ("read_general_sas2", &[], &[1, 2]),
    ("read_discover", &[], &[1, 2]),
    ("shelf_fresh", &[], &[3]),
    ("shelf_obey", &[], &[1, 2, 15]),
];
/// Those that some ten of 2,000 files reach, or fewer.
const RARE: [(&str, u8); 5] = [
    ("event", 10),
    ("event", 23),
    ("join", 9),
    ("join", 10),
    ("shelf_obey", 15),
];

fn main() {
    let arguments: Vec<String> = env::args().skip(1).collect();
    let words: Vec<&str> = arguments.iter().map(String::as_str).collect();
    let (files, seed) = match words.split_first() {
        Some((&"vectors-reference", _)) => return vectors(&Reference),
        Some((&"vectors-fast", _)) => return vectors(&Fast),
        Some((&"call-reference", [file, words @ ..])) => return call(&Reference, file, words),
        Some((&"self", rest)) => {
            vectors(&Reference);
            vectors(&Fast);
            let (files, seed) = numbers(rest);
            return run(&Fast, files, seed);
        }
        Some((&"vectors", _)) => return vectors(&Archive),
        Some((&"bench", _)) => return bench::run(),
        Some((&"call", [file, words @ ..])) => return call(&Archive, file, words),
        Some((&"one", [seed])) => return one(&Archive, number(seed)),
        _ => numbers(&words),
    };
    vectors(&Archive);
    run(&Archive, files, seed);
}

fn vectors(subject: &dyn Calls) {
    match vectors::run(subject) {
        Ok(count) => println!(
            "vectors: {count} answers of the {} as expected",
            subject.name()
        ),
        Err(difference) => fail("vectors", &difference),
    }
}

fn fail(place: &str, difference: &Difference) -> ! {
    println!("DIFFERENCE in {place}");
    println!("call      {}", difference.what);
    println!("expected  {}", difference.expected);
    println!("got       {}", difference.got);
    exit(1);
}

fn call(subject: &dyn Calls, path: &str, words: &[&str]) {
    let file = fs::read(path).unwrap_or_else(|error| {
        eprintln!("{path}: {error}");
        exit(2);
    });
    match call::answer(subject, &file, words) {
        Ok(answer) => println!("{answer}"),
        Err(call::Failed::Buffer(difference)) => fail(path, &difference),
        Err(call::Failed::Usage(message)) => {
            eprintln!("{message}");
            exit(2);
        }
    }
}

fn number(text: &str) -> u64 {
    let parsed = match text.strip_prefix("0x") {
        Some(digits) => u64::from_str_radix(digits, 16).ok(),
        None => text.parse().ok(),
    };
    parsed.unwrap_or_else(|| {
        eprintln!("not a number: {text}");
        exit(2);
    })
}

/// Number of files and seed.
fn numbers(words: &[&str]) -> (u64, u64) {
    (
        words.first().map_or(20_000, |text| number(text)),
        words.get(1).map_or(1, |text| number(text)),
    )
}

/// Makes the file of a seed and checks it.
fn check(subject: &dyn Calls, seed: u64, counts: &mut Counts) -> Result<&'static str, Failure> {
    let mut random = Random::new(seed);
    let made = generate::make(seed, &mut random);
    // The largest files are traced in every run.
    let setting = match made.way.starts_with("64 x 128") {
        true => generate::WIDEST,
        false => generate::setting(&made.file, &mut random),
    };
    let lent = Lent::of(&made.file);
    let kept = lent.after(&[]);
    let under = |setting| Check {
        subject,
        setting,
        file: lent.read(),
    };
    under(setting)
        .whole(&mut random, counts)
        .map_err(|difference| difference.under(setting))
        .and_then(|()| {
            for _ in 0..OTHER_SETTINGS {
                let setting = generate::setting(&made.file, &mut random);
                under(setting)
                    .other(&mut random, counts)
                    .map_err(|difference| difference.under(setting))?;
            }
            lent.check(|| "the file".into(), &kept)?;
            for _ in 0..FRAMES_PER_FILE {
                compare::check_frame(subject, &mut random, counts)?;
            }
            if random.chance(1, FILES_PER_SHELF) {
                shelves::check(subject, &mut random, counts)?;
            }
            forms::check(subject, setting, &made.file, &mut random.aside(), counts)?;
            cards::check(subject, setting, &made.file, &mut random, counts)
                .map_err(|difference| difference.under(setting))?;
            joins::check(subject, &made.file, &mut random, counts)?;
            events::check(subject, setting, &made.file, &mut random.aside(), counts)
                .map_err(|difference| difference.under(setting))?;
            exercises::check(subject, &mut random, counts)
        })
        .map_err(|difference| Failure {
            seed,
            way: made.way,
            file: made.file,
            difference,
        })?;
    Ok(made.way)
}

struct Failure {
    seed: u64,
    way: &'static str,
    file: Vec<u8>,
    difference: Difference,
}

impl Failure {
    fn report(&self) -> ! {
        println!(
            "file seed {:#x} ({}, {} bytes)",
            self.seed,
            self.way,
            self.file.len()
        );
        println!("file      {}", compare::hex(&self.file));
        fail(&format!("file seed {:#x}", self.seed), &self.difference);
    }
}

fn one(subject: &dyn Calls, seed: u64) {
    let mut counts = Counts::default();
    match check(subject, seed, &mut counts) {
        Ok(way) => println!("file seed {seed:#x} ({way}): {} calls agree", counts.calls),
        Err(failure) => failure.report(),
    }
}

fn run(subject: &dyn Calls, files: u64, seed: u64) {
    let began = Instant::now();
    let next = AtomicU64::new(0);
    let stop = AtomicBool::new(false);
    let running = AtomicU64::new(THREADS as u64);
    let total = Mutex::new((Counts::default(), BTreeMap::<&'static str, u64>::new()));
    let failed: Mutex<Option<Failure>> = Mutex::new(None);
    watch_for_signals();

    thread::scope(|scope| {
        for current in &CURRENT {
            let (next, stop, running) = (&next, &stop, &running);
            let (total, failed) = (&total, &failed);
            let work = move || {
                let _ends = Ends(running);
                let mut counts = Counts::default();
                let mut ways = BTreeMap::new();
                while !stop.load(Ordering::Relaxed) {
                    let index = next.fetch_add(1, Ordering::Relaxed);
                    if index >= files {
                        break;
                    }
                    let seed = file_seed(seed, index);
                    current.store(seed, Ordering::Relaxed);
                    match check(subject, seed, &mut counts) {
                        Ok(way) => *ways.entry(way).or_insert(0) += 1,
                        Err(failure) => {
                            stop.store(true, Ordering::Relaxed);
                            failed.lock().unwrap().get_or_insert(failure);
                        }
                    }
                }
                let mut total = total.lock().unwrap();
                total.0.add(&counts);
                for (way, count) in ways {
                    *total.1.entry(way).or_insert(0) += count;
                }
            };
            // The stack is as large as that of a main thread.
            thread::Builder::new()
                .stack_size(8 << 20)
                .spawn_scoped(scope, work)
                .expect("a thread");
        }
        let mut seen = [(0, Instant::now()); THREADS];
        let mut told = Instant::now();
        while running.load(Ordering::Relaxed) > 0 {
            thread::sleep(Duration::from_millis(20));
            for (worker, (seed, since)) in seen.iter_mut().enumerate() {
                let now = CURRENT[worker].load(Ordering::Relaxed);
                if now != *seed {
                    (*seed, *since) = (now, Instant::now());
                } else if since.elapsed() > HANG && next.load(Ordering::Relaxed) < files {
                    println!("file seed {now:#x} takes longer than {} s", HANG.as_secs());
                    exit(1);
                }
            }
            if told.elapsed() > Duration::from_secs(30) {
                told = Instant::now();
                eprintln!("{} files begun", next.load(Ordering::Relaxed).min(files));
            }
        }
    });

    if let Some(failure) = failed.into_inner().unwrap() {
        failure.report();
    }
    let (counts, ways) = total.into_inner().unwrap();
    println!(
        "{files} files, seed {seed}: the {} agrees with the reference in {} calls ({:.1} s)",
        subject.name(),
        counts.calls,
        began.elapsed().as_secs_f64()
    );
    for (way, count) in ways {
        println!("  made as {way}: {count}");
    }
    println!(
        "  passed 1 to 10: {}, accepted: {}, largest file {} bytes, frames {}",
        counts.wired_files, counts.accepted_files, counts.largest_file, counts.frames
    );
    println!(
        "  traced whole: {} files, by a sample: {}, tables too long to trace over: {}",
        counts.whole_files, counts.sampled_files, counts.untraced_files
    );
    println!(
        "  traces: {} in all, {} arrived, {} NO DESTINATION, {} BAD DESTINATION, longest {} expanders",
        counts.outcomes.iter().sum::<u64>(), counts.outcomes[0], counts.outcomes[1], counts.outcomes[2], counts.longest_trace
    );
    println!(
        "  of these {} ended otherwise than over the tables given, by a disable bit",
        counts.switched
    );
    println!(
        "  forms: {} of files, {} other words, {} of these a form; requests in lists: {}, {} of these refused with 15, {} with 17",
        counts.forms, counts.other_forms, counts.other_forms_accepted, counts.listed, counts.list_refusals[0], counts.list_refusals[1]
    );
    println!(
        "  shelves: {}, frames {}, not to be told (3): {}",
        counts.shelves, counts.shelf_frames, counts.shelf_refusals
    );
    for (result, frames) in shelves::RESULTS.iter().zip(counts.shelf_results) {
        println!("  function result {result:02x}h: {frames} frames");
    }
    println!(
        "  cards: {} of files, {} spoiled; accepted files beside those of their cards under another setting: {} accepted, {} refused",
        counts.cards, counts.spoiled_cards, counts.converted[0], counts.converted[1]
    );
    counts.events.print();
    counts.joins.print();
    println!(
        "  exercises: {} solutions with a rig, {} of them tables of accepted rigs",
        counts.solutions, counts.exercises
    );
    println!(
        "  steps: {} in all, {} by (i), {} (ii), {} (iii), {} (iv), {} (v), {} BAD DESTINATION; {} traces followed by steps",
        counts.rules.iter().sum::<u64>(), counts.rules[0], counts.rules[1], counts.rules[2], counts.rules[3], counts.rules[4], counts.bad_steps, counts.walks
    );
    let mut missing = false;
    // 13 is withdrawn.
    for number in (1..=12).chain(14..=24) {
        let calls = counts.refused_with(number);
        let files = counts.refused_files[usize::from(number)];
        match number {
            // Causes of a file.
            1..=14 | 22 | 23 => {
                println!("refusal {number:2}: {calls} calls, {files} files");
                missing |= files == 0;
            }
            _ => {
                println!("refusal {number:2}: {calls} calls");
                missing |= calls == 0;
            }
        }
    }
    let unreached = refusals(&counts, files);
    if missing {
        println!("a refusal number was never reached");
        exit(1);
    }
    if unreached {
        println!("a call never refused with a number that it has to in so many files");
        exit(1);
    }
    if counts.other_forms_accepted == 0 || counts.other_forms_accepted == counts.other_forms {
        println!("no other words, or all of them, were a form");
        exit(1);
    }
    if counts.list_refusals.contains(&0) {
        println!("no request of a list was refused with 15, or none with 17");
        exit(1);
    }
    if counts.shelf_refusals == 0 || counts.shelf_results.contains(&0) {
        println!("a function result of a shelf, or its refusal 3, was never reached");
        exit(1);
    }
    if counts.rules.contains(&0) || counts.bad_steps == 0 || counts.walks == 0 {
        println!("a rule of a step was never reached");
        exit(1);
    }
    if counts.converted.contains(&0) {
        println!(
            "no accepted file made of a card was accepted, or none refused, under another setting"
        );
        exit(1);
    }
    if !counts.events.whole() {
        println!("a kind of event was never reached");
        exit(1);
    }
    if !counts.joins.whole() {
        println!("a kind of join was never reached");
        exit(1);
    }
    if counts.switched == 0 {
        println!("no request ended otherwise by a disable bit");
        exit(1);
    }
}

/// Prints the refusals of each call; whether one is missing that so many files have to reach.
fn refusals(counts: &Counts, files: u64) -> bool {
    let mut unreached = false;
    for (call, causes, others) in REFUSALS {
        let given = counts.refusals_of(call);
        let each = given
            .iter()
            .map(|(number, calls)| format!("{number}: {calls}"));
        println!("refused by {call}: {}", each.collect::<Vec<_>>().join(", "));
        for &number in causes.iter().chain(others) {
            let enough = match RARE.contains(&(call, number)) {
                true => MORE_FILES,
                false => MANY_FILES,
            };
            if files >= enough && !counts.refusals.contains_key(&(call, number)) {
                println!("  never with {number}");
                unreached = true;
            }
        }
    }
    unreached
}

/// Counts a thread off when it ends, by a panic too.
struct Ends<'a>(&'a AtomicU64);

impl Drop for Ends<'_> {
    fn drop(&mut self) {
        self.0.fetch_sub(1, Ordering::Relaxed);
    }
}

/// The seed of the file each thread works on.
static CURRENT: [AtomicU64; THREADS] = [const { AtomicU64::new(0) }; THREADS];

extern "C" {
    fn signal(number: i32, handler: extern "C" fn(i32)) -> usize;
    fn write(file: i32, text: *const u8, length: usize) -> isize;
    fn _exit(code: i32) -> !;
}

/// Prints the seeds at work and ends the process.
extern "C" fn ended(number: i32) {
    let mut text = *b"signal 00, file seeds 0x0000000000000000 0x0000000000000000\n";
    text[7] = b'0' + (number / 10) as u8;
    text[8] = b'0' + (number % 10) as u8;
    for (worker, at) in [(0, 24), (1, 43)] {
        let seed = CURRENT[worker].load(Ordering::Relaxed);
        for digit in 0..16 {
            text[at + digit] = b"0123456789abcdef"[(seed >> (60 - 4 * digit) & 15) as usize];
        }
    }
    unsafe {
        write(2, text.as_ptr(), text.len());
        _exit(1);
    }
}

/// Has the seeds at work printed when a call ends the process or panics.
fn watch_for_signals() {
    let print = panic::take_hook();
    panic::set_hook(Box::new(move |info| {
        print(info);
        ended(0);
    }));
    // SIGILL, SIGTRAP, SIGABRT, SIGBUS, SIGFPE, SIGSEGV
    for number in [4, 5, 6, 7, 8, 11] {
        unsafe {
            signal(number, ended);
        }
    }
}
