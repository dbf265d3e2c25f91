//! One call on one domain file, its answer as text.
//!
//!     judge                                       expanders 2
//!     wire WORDS                                  bits 2
//!     tables WORDS [bits BYTES]                   tables 1 entries 4
//!     trace START ARRIVAL ADDRESS [words WORDS] [bits BYTES] [bytes BYTES]
//!           [disable ENTRY] [enable ENTRY]        arrived 1 1 count 2
//!                                                 NO DESTINATION 0 count 2
//!                                                 BAD DESTINATION 1 count 1
//!     compact [words WORDS]                       expanders 2 words 14
//!     compact_tables FORM WORDS [bits BYTES]      tables 1 entries 4
//!     compact_trace_many [REQUEST ...]            requests 1
//!     card_of_file [bytes BYTES]                  bytes 64
//!     file_of_card CARD [bytes BYTES]             bytes 334
//!     join EXPANDER PHY FILE EXPANDER PHY [bytes BYTES] [then CALL]
//!                                                 bytes 666
//!     event EXPANDER PHY ADDRESS [words WORDS] [bits BYTES] [set ENTRY=ADDRESS]
//!           [disable ENTRY] [enable ENTRY] [then CALL]
//!                                                 touched 1 changed 1
//!     make FIRST SECOND WORD.. [bytes BYTES]      bytes 230
//!
//! Before the call may stand `setting EXPANDERS PHYS CHAIN`; without it the
//! setting is 64 128 64. WORDS and BYTES are the lengths of the lent buffers:
//! table words, `bits` disable bits, `bytes` expanders passed. A trace goes over the
//! words and bits that the table call gives for the file. An ENTRY is
//! EXPANDER.PHY.INDEX; `disable` sets its bit before the trace, `enable` clears it,
//! as often as they stand there and in that order. Without lengths the buffers are
//! as long as needed, the bits of the table call as long as WORDS need. An `event` is over
//! the words and bits that the table call gives, too, in which `set` replaces the word of an
//! entry; address 0 is a pull; `then` makes a call on the edited file. A CARD is in
//! hexadecimal; `file_of_card` reads it in place of the file. `join` joins the file with
//! another, and `then` makes a call on what it wrote. `make` makes a file from the
//! addresses of two expanders and table words, and reads none; COUNTxWORD is a word so
//! often. Further lines have the
//! words and the bits written, the expanders passed, or the card or file made. A
//! refusal is the line `refused` with number, expander and phy.
//!
//! A FORM is its words in hexadecimal, 16 digits each, one after the other;
//! `compact_tables` reads it in place of the file. A REQUEST is
//! START.ARRIVAL.ADDRESS; `compact_trace_many` goes over the form of the file and over
//! the words and bits that its table call gives. Their further lines have the form
//! made, or the answers of the list.

use crate::calls::{Calls, Part};
use crate::compare::{hex, Difference, Lent};
use crate::events::Event;
use crate::generate::WIDEST;
use crate::reference;
use metzurgo::{LONGEST_CARD, LONGEST_CARD_FILE, LONGEST_EXERCISE, LONGEST_FORM};

/// The most words that the table call is lent for a trace.
const MOST_WORDS: usize = 1 << 24;

const USAGE: &str = "[setting EXPANDERS PHYS CHAIN] judge | wire WORDS | \
                     tables WORDS [bits BYTES] | trace START ARRIVAL ADDRESS [words WORDS] \
                     [bits BYTES] [bytes BYTES] [disable EXPANDER.PHY.INDEX] \
                     [enable EXPANDER.PHY.INDEX] | \
                     compact [words WORDS] | compact_tables FORM WORDS [bits BYTES] | \
                     compact_trace_many [START.ARRIVAL.ADDRESS ...] | \
                     event EXPANDER PHY ADDRESS [words WORDS] [bits BYTES] [set EXPANDER.PHY.INDEX=ADDRESS] \
                     [disable EXPANDER.PHY.INDEX] [enable EXPANDER.PHY.INDEX] [then CALL] | \
                     card_of_file [bytes BYTES] | \
                     file_of_card CARD [bytes BYTES] | join EXPANDER PHY FILE EXPANDER PHY \
                     [bytes BYTES] [then CALL] | make FIRST SECOND WORD.. [bytes BYTES]";

pub enum Failed {
    /// The words do not state a call.
    Usage(String),
    /// A lent buffer was written to where it should stay.
    Buffer(Difference),
}

impl From<Difference> for Failed {
    fn from(difference: Difference) -> Failed {
        Failed::Buffer(difference)
    }
}

/// The answer to the call that the words state.
pub fn answer(subject: &dyn Calls, file: &[u8], call: &[&str]) -> Result<String, Failed> {
    match *call {
        ["setting", expanders, phys, chain, ref call @ ..] => {
            let limits = [0, number(expanders)?, number(phys)?, number(chain)?];
            under(subject, u32::from_be_bytes(limits), file, call)
        }
        _ => under(subject, WIDEST, file, call),
    }
}

/// The same under a setting.
fn under(subject: &dyn Calls, setting: u32, file: &[u8], call: &[&str]) -> Result<String, Failed> {
    match *call {
        ["judge"] => {
            let answer = subject.judge(setting, file);
            Ok(refusal(answer).unwrap_or_else(|| format!("expanders {answer}")))
        }
        ["wire", length] => {
            let mut lent = Lent::new(number(length)?, || 0x7777_7777_7777_7777);
            let before = lent.after(&[]);
            let answer = subject.wire(setting, file, lent.part());
            if let Some(refused) = refusal(answer) {
                lent.check(|| "wire".into(), &before)?;
                return Ok(refused);
            }
            let written = lent.written(|| "wire".into(), &before, usize::from(file[1]))?;
            Ok(format!("bits {answer}\n{}", list("words", &written)))
        }
        ["tables", length, ref rest @ ..] => {
            let call =
                |words: &mut [u64], bits: &mut [u8]| subject.tables(setting, file, words, bits);
            tables(length, rest, call)
        }
        ["trace", start, arrival, address, ref rest @ ..] => {
            let request = Request {
                start: number(start)?,
                arrival: number(arrival)?,
                address: self::address(address)?,
            };
            trace(subject, setting, file, request, rest)
        }
        ["compact"] => compact(subject, setting, file, LONGEST_FORM),
        ["compact", "words", length] => compact(subject, setting, file, number(length)?),
        ["compact_tables", form, length, ref rest @ ..] => {
            let form = words(form)?;
            let call = |words: &mut [u64], bits: &mut [u8]| {
                subject.compact_tables(setting, &form, words, bits)
            };
            tables(length, rest, call)
        }
        ["compact_trace_many", ref requests @ ..] => {
            let mut list = Vec::new();
            for request in requests {
                list.extend(request_words(request)?);
            }
            trace_many(subject, setting, file, &list)
        }
        ["card_of_file", ref rest @ ..] => {
            let call = |room: &mut [u8]| subject.card_of_file(setting, file, room);
            made("card", room(rest, LONGEST_CARD)?, call)
        }
        ["file_of_card", card, ref rest @ ..] => {
            let card = bytes(card)?;
            let call = |room: &mut [u8]| subject.file_of_card(setting, &card, room);
            made("file", room(rest, LONGEST_CARD_FILE)?, call)
        }
        ["event", expander, phy, address, ref rest @ ..] => {
            let event = Event {
                place: (number(expander)?, number(phy)?),
                address: self::address(address)?,
            };
            self::event(subject, setting, file, event, rest)
        }
        ["join", expander, phy, other, far, far_phy, ref rest @ ..] => {
            let near = (number(expander)?, number(phy)?);
            let far = (number(far)?, number(far_phy)?);
            let other =
                std::fs::read(other).map_err(|error| Failed::Usage(format!("{other}: {error}")))?;
            join(subject, setting, (file, near), (&other, far), rest)
        }
        ["make", first, second, ref words @ .., "bytes", length] => {
            make(subject, [first, second], words, number(length)?)
        }
        ["make", first, second, ref words @ ..] => {
            make(subject, [first, second], words, LONGEST_EXERCISE)
        }
        _ => Err(usage()),
    }
}

/// The bytes to lend that `rest` states, or so many.
fn room(rest: &[&str], most: usize) -> Result<usize, Failed> {
    match *rest {
        [] => Ok(most),
        ["bytes", length] => number(length),
        _ => Err(usage()),
    }
}

/// A call that makes a card or a file, with so many bytes lent.
fn made(what: &str, length: usize, call: impl FnOnce(&mut [u8]) -> u64) -> Result<String, Failed> {
    let mut lent = Lent::new(length, || 0x77);
    let before = lent.after(&[]);
    let answer = call(lent.part());
    if let Some(refused) = refusal(answer) {
        lent.check(|| what.into(), &before)?;
        return Ok(refused);
    }
    let written = lent.written(|| what.into(), &before, answer as usize)?;
    Ok(format!("bytes {answer}\n{what} {}", hex(&written)))
}

/// A file from its solution, with so many bytes lent.
fn make(
    subject: &dyn Calls,
    expanders: [&str; 2],
    words: &[&str],
    length: usize,
) -> Result<String, Failed> {
    let [first, second] = expanders;
    let (first, second) = (address(first)?, address(second)?);
    let mut given = Vec::new();
    for word in words {
        // One word, or COUNTxWORD.
        let (count, word) = word.split_once('x').unwrap_or(("1", word));
        given.extend(std::iter::repeat_n(address(word)?, number(count)?));
    }
    let call = |room: &mut [u8]| subject.make(first, second, &given, room);
    made("file", length, call)
}

/// The bytes of hexadecimal digits.
fn bytes(text: &str) -> Result<Vec<u8>, Failed> {
    let pair = |at| u8::from_str_radix(text.get(at..at + 2)?, 16).ok();
    (0..text.len())
        .step_by(2)
        .map(pair)
        .collect::<Option<_>>()
        .ok_or_else(|| Failed::Usage(format!("not bytes in hexadecimal: {text}")))
}

/// The words of hexadecimal digits, 16 for each.
fn words(text: &str) -> Result<Vec<u64>, Failed> {
    let bytes = bytes(text)?;
    let word = |eight: &[u8]| eight.try_into().map(u64::from_be_bytes).ok();
    bytes
        .chunks(8)
        .map(word)
        .collect::<Option<_>>()
        .ok_or_else(|| Failed::Usage(format!("not words of 16 digits: {text}")))
}

/// The form of the file, with so many words lent.
fn compact(
    subject: &dyn Calls,
    setting: u32,
    file: &[u8],
    length: usize,
) -> Result<String, Failed> {
    let mut lent = Lent::new(length, || 0x7777_7777_7777_7777);
    let before = lent.after(&[]);
    let answer = subject.compact(setting, file, lent.part());
    if let Some(refused) = refusal(answer) {
        lent.check(|| "compact".into(), &before)?;
        return Ok(refused);
    }
    let (expanders, count) = (answer >> 32, (answer & 0xffff_ffff) as usize);
    let written = lent.written(|| "compact".into(), &before, count)?;
    let form = list("form", &written);
    Ok(format!("expanders {expanders} words {count}\n{form}"))
}

/// The two words of START.ARRIVAL.ADDRESS.
fn request_words(request: &str) -> Result<[u64; 2], Failed> {
    let parts: Vec<&str> = request.split('.').collect();
    let [start, arrival, address] = parts[..] else {
        return Err(usage());
    };
    let start = [number(start)?, number(arrival)?];
    Ok([u16::from_be_bytes(start).into(), self::address(address)?])
}

/// The answers to a list of requests over the form of the file.
fn trace_many(
    subject: &dyn Calls,
    setting: u32,
    file: &[u8],
    requests: &[u64],
) -> Result<String, Failed> {
    let mut form = vec![0; LONGEST_FORM];
    let made = subject.compact(setting, file, &mut form);
    if let Some(refused) = refusal(made) {
        return Ok(refused);
    }
    form.truncate((made & 0xffff_ffff) as usize);
    let (words, bits) = given(subject, setting, file);
    let mut lent = Lent::new(requests.len() / 2, || 0x7777_7777_7777_7777);
    let before = lent.after(&[]);
    let answer = subject.compact_trace_many(setting, &form, &words, &bits, requests, lent.part());
    if let Some(refused) = refusal(answer) {
        lent.check(|| "compact_trace_many".into(), &before)?;
        return Ok(refused);
    }
    let what = || "compact_trace_many".into();
    let written = lent.written(what, &before, answer as usize)?;
    Ok(format!("requests {answer}\n{}", list("answers", &written)))
}

/// The table call, of a file or a form, with so many words, and with the bytes of
/// disable bits that `rest` states or that the words need.
fn tables(
    length: &str,
    rest: &[&str],
    call: impl FnOnce(&mut [u64], &mut [u8]) -> u64,
) -> Result<String, Failed> {
    let length: usize = number(length)?;
    let bytes = match *rest {
        [] => length.div_ceil(8),
        ["bits", bytes] => number(bytes)?,
        _ => return Err(usage()),
    };
    let mut words = Lent::new(length, || 0x7777_7777_7777_7777);
    let mut bits = Lent::new(bytes, || 0x77);
    let before = (words.after(&[]), bits.after(&[]));
    let answer = call(words.part(), bits.part());
    if let Some(refused) = refusal(answer) {
        words.check(|| "tables".into(), &before.0)?;
        bits.check(|| "tables, disable bits".into(), &before.1)?;
        return Ok(refused);
    }
    let (tables, count) = (answer >> 32, (answer & 0xffff_ffff) as usize);
    let words = words.written(|| "tables".into(), &before.0, count)?;
    let bits = bits.written(
        || "tables, disable bits".into(),
        &before.1,
        count.div_ceil(8),
    )?;
    let bits: Vec<String> = bits.iter().map(|byte| format!(" {byte:02x}")).collect();
    Ok(format!(
        "tables {tables} entries {count}\n{}\nbits{}",
        list("words", &words),
        bits.concat()
    ))
}

struct Request {
    start: u8,
    arrival: u8,
    address: u64,
}

/// A trace over what the table call gives, with the lengths and bits that `rest`
/// states.
fn trace(
    subject: &dyn Calls,
    setting: u32,
    file: &[u8],
    request: Request,
    rest: &[&str],
) -> Result<String, Failed> {
    let (words, mut bits) = given(subject, setting, file);
    let (mut length, mut bytes) = (words.len(), bits.len());
    let mut room = usize::from(*file.get(1).unwrap_or(&0));
    for pair in rest.chunks(2) {
        match *pair {
            ["words", number] => length = self::number(number)?,
            ["bits", number] => bytes = self::number(number)?,
            ["bytes", number] => room = self::number(number)?,
            [switch @ ("disable" | "enable"), entry] => {
                self::switch(&mut bits, switch, word_of(setting, file, entry)?, entry)?;
            }
            _ => return Err(usage()),
        }
    }
    let mut words = lent_of(&words, length);
    let mut bits = lent_of(&bits, bytes);
    let mut passed = Lent::new(room, || 0x77);
    let before = (words.after(&[]), bits.after(&[]), passed.after(&[]));
    let answer = subject.trace(
        setting,
        file,
        words.part(),
        bits.part(),
        request.start,
        request.arrival,
        request.address,
        passed.part(),
    );
    words.check(|| "trace, words".into(), &before.0)?;
    bits.check(|| "trace, disable bits".into(), &before.1)?;
    if let Some(refused) = refusal(answer) {
        passed.check(|| "trace".into(), &before.2)?;
        return Ok(refused);
    }
    let (last, phy, count) = (answer >> 16 & 0xff, answer >> 8 & 0xff, answer & 0xff);
    let outcome = match (answer >> 24, phy) {
        (0, _) => format!("arrived {last} {phy}"),
        (1, 255) => format!("NO DESTINATION {last}"),
        (2, 255) => format!("BAD DESTINATION {last}"),
        (outcome, _) => format!("outcome {outcome} {last} {phy}"),
    };
    let written = passed.written(|| "trace".into(), &before.2, count as usize)?;
    let numbers: Vec<String> = written.iter().map(u8::to_string).collect();
    Ok(format!(
        "{outcome} count {count}\npassed {}",
        numbers.join(" ")
    ))
}

/// An event over what the table call gives, with the lengths, words and bits that `rest`
/// states, and the call on the edited file.
fn event(
    subject: &dyn Calls,
    setting: u32,
    file: &[u8],
    event: Event,
    rest: &[&str],
) -> Result<String, Failed> {
    let at = rest.iter().position(|&word| word == "then");
    let (own, then) = rest.split_at(at.unwrap_or(rest.len()));
    let (mut given, mut bits) = given(subject, setting, file);
    let needed = given.len();
    let (mut length, mut bytes) = (needed, bits.len());
    for pair in own.chunks(2) {
        match *pair {
            ["words", number] => length = self::number(number)?,
            ["bits", number] => bytes = self::number(number)?,
            ["set", entry] => {
                let (entry, word) = entry.split_once('=').ok_or_else(usage)?;
                let place = word_of(setting, file, entry)?;
                *given.get_mut(place).ok_or_else(|| missing(entry))? = address(word)?;
            }
            [switch @ ("disable" | "enable"), entry] => {
                self::switch(&mut bits, switch, word_of(setting, file, entry)?, entry)?;
            }
            _ => return Err(usage()),
        }
    }
    let mut lent = Lent::of(file);
    let (mut words, mut bits) = (lent_of(&given, length), lent_of(&bits, bytes));
    let before = (lent.after(&[]), words.after(&[]), bits.after(&[]));
    let answer = subject.event(setting, lent.part(), words.part(), bits.part(), event);
    let what = || "event".into();
    if let Some(refused) = refusal(answer) {
        lent.check(what, &before.0)?;
        words.check(what, &before.1)?;
        bits.check(what, &before.2)?;
        return Ok(refused);
    }
    let file = lent.written(what, &before.0, file.len())?;
    let words = words.written(what, &before.1, needed)?;
    let bits = bits.written(what, &before.2, needed.div_ceil(8))?;
    if let [_, call @ ..] = then {
        return under(subject, setting, &file, call);
    }
    let bits: Vec<String> = bits.iter().map(|byte| format!(" {byte:02x}")).collect();
    Ok(format!(
        "touched {} changed {}\n{}\nbits{}\nfile {}",
        answer >> 32,
        answer & 0xffff_ffff,
        list("words", &words),
        bits.concat(),
        hex(&file)
    ))
}

/// Sets or clears the bit of a word.
fn switch(bits: &mut [u8], switch: &str, word: usize, entry: &str) -> Result<(), Failed> {
    let byte = bits.get_mut(word / 8).ok_or_else(|| missing(entry))?;
    match switch {
        "disable" => *byte |= 0x80 >> (word % 8),
        _ => *byte &= !(0x80 >> (word % 8)),
    }
    Ok(())
}

/// A join, and the call on the joined file that `rest` states.
fn join(
    subject: &dyn Calls,
    setting: u32,
    first: Part,
    second: Part,
    rest: &[&str],
) -> Result<String, Failed> {
    let at = rest.iter().position(|&word| word == "then");
    let (own, then) = rest.split_at(at.unwrap_or(rest.len()));
    let length = room(own, first.0.len() + second.0.len())?;
    let mut out = Lent::new(length, || 0x77);
    let before = out.after(&[]);
    let answer = subject.join(setting, first, second, out.part());
    if let Some(refused) = refusal(answer) {
        out.check(|| "join".into(), &before)?;
        return Ok(refused);
    }
    let written = out.written(|| "join".into(), &before, answer as usize)?;
    match then {
        [_, call @ ..] => under(subject, setting, &written, call),
        [] => Ok(format!("bytes {answer}\nfile {}", hex(&written))),
    }
}

/// A buffer of some length to lend, with this content as far as it goes.
fn lent_of<T: Copy + Default + PartialEq + std::fmt::Debug>(
    content: &[T],
    length: usize,
) -> Lent<T> {
    let mut lent = Lent::new(length, T::default);
    for (place, &item) in lent.part().iter_mut().zip(content) {
        *place = item;
    }
    lent
}

/// Where the entry EXPANDER.PHY.INDEX stands among the table words.
fn word_of(setting: u32, file: &[u8], entry: &str) -> Result<usize, Failed> {
    let parts: Vec<&str> = entry.split('.').collect();
    let [expander, phy, index] = parts[..] else {
        return Err(usage());
    };
    let place = (number(expander)?, number(phy)?);
    reference::judged(setting, file)
        .ok()
        .and_then(|judged| judged.word_of(place, number(index).ok()?))
        .ok_or_else(|| missing(entry))
}

fn missing(entry: &str) -> Failed {
    Failed::Usage(format!("no such entry: {entry}"))
}

fn usage() -> Failed {
    Failed::Usage(format!("a call is: {USAGE}"))
}

fn number<T: std::str::FromStr>(text: &str) -> Result<T, Failed> {
    text.parse()
        .map_err(|_| Failed::Usage(format!("not a number, or too large: {text}")))
}

fn refusal(answer: u64) -> Option<String> {
    (answer >> 63 == 1).then(|| {
        format!(
            "refused {} {} {}",
            answer >> 16 & 0x7fff_ffff_ffff,
            answer >> 8 & 0xff,
            answer & 0xff
        )
    })
}

fn list(what: &str, words: &[u64]) -> String {
    let words: Vec<String> = words.iter().map(|word| format!(" {word:016x}")).collect();
    format!("{what}{}", words.concat())
}

/// An address in hexadecimal.
fn address(text: &str) -> Result<u64, Failed> {
    u64::from_str_radix(text, 16).map_err(|_| Failed::Usage(format!("not an address: {text}")))
}

/// The words and disable bits of the table call; none where it refuses for another
/// cause than 16.
fn given(subject: &dyn Calls, setting: u32, file: &[u8]) -> (Vec<u64>, Vec<u8>) {
    let mut length = 64;
    loop {
        let mut words = vec![0; length];
        let mut bits = vec![0; length / 8];
        let answer = subject.tables(setting, file, &mut words, &mut bits);
        if answer >> 63 == 0 {
            words.truncate((answer & 0xffff_ffff) as usize);
            bits.truncate(words.len().div_ceil(8));
            return (words, bits);
        }
        if answer >> 16 & 0xff != 16 || length >= MOST_WORDS {
            return (Vec::new(), Vec::new());
        }
        length *= 2;
    }
}
