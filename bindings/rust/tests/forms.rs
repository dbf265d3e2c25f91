//! The compact form of the pair rig, with its words written by hand.

use metzurgo::{
    raw, Cause, End, Expander, Form, Outcome, Phy, Refusal, Request, Setting, Tables, LONGEST_FORM,
};

const RIG: &[u8; 334] = include_bytes!(concat!(
    env!("CARGO_MANIFEST_DIR"),
    "/../../crates/routes/stdin"
));
const WIDEST: Setting = Setting::WIDEST;
const X10: u64 = 0x5000_0000_0000_0010;
const X20: u64 = 0x5000_0000_0000_0020;
const A1: u64 = 0x5000_0000_0000_00a1;
const B1: u64 = 0x5000_0000_0000_00b1;
/// An address that nobody has.
const FF: u64 = 0x5000_0000_0000_00ff;
const WORDS: [u64; 4] = [B1, 0, 0, 0];
const BITS: [u8; 1] = [0b0111_0000];

/// R (16 bits) and phy count (8) from the top, zeros below.
fn general(indexes: u64, phys: u64) -> u64 {
    packed(&[(indexes, 16), (phys, 8)])
}

/// Vacant bit (1), type (2), attribute (2), attached expander (6), attached phy (8).
fn phy(device_type: u64, attribute: u64, expander: u64, far: u64) -> u64 {
    packed(&[
        (0, 1),
        (device_type, 2),
        (attribute, 2),
        (expander, 6),
        (far, 8),
    ])
}

fn packed(fields: &[(u64, u32)]) -> u64 {
    let width: u32 = fields.iter().map(|field| field.1).sum();
    let value = fields.iter().fold(0, |sum, field| sum << field.1 | field.0);
    value << (64 - width)
}

fn pair() -> Vec<u64> {
    vec![
        X10,
        general(4, 2),
        X20,
        phy(2, 2, 1, 0),
        A1,
        phy(1, 0, 0, 0),
        X20,
        general(0, 3),
        X10,
        phy(2, 1, 0, 0),
        B1,
        phy(1, 0, 0, 0),
        0,
        phy(0, 0, 0, 0),
    ]
}

fn refused(cause: Cause) -> Refusal {
    let (expander, phy) = (Expander(0), Phy(0));
    Refusal {
        cause,
        expander,
        phy,
    }
}

fn request(expander: u8, arrival: Option<u8>, address: u64) -> Request {
    let (expander, arrival) = (Expander(expander), arrival.map(Phy));
    Request {
        expander,
        arrival,
        address,
    }
}

fn end(outcome: Outcome, last: u8, phy: Option<u8>, count: u8) -> End {
    let (last, phy) = (Expander(last), phy.map(Phy));
    End {
        outcome,
        last,
        phy,
        count,
    }
}

#[test]
fn the_words_of_the_pair_rig() {
    let form = Form::of_file(WIDEST, RIG).unwrap();
    assert_eq!(form.words(), pair());
    assert_eq!(form.words()[3], 0x5020_0000_0000_0000);
    assert_eq!((form.setting(), form.expanders()), (WIDEST, 2));
    let needed = Tables {
        tables: 1,
        words: 4,
    };
    assert_eq!(form.needed(), needed);
    assert_eq!(Form::of_words(WIDEST, pair()), Ok(form));
}

#[test]
fn the_room() {
    let mut room = [7; 16];
    let answer = raw::compact(WIDEST.packed(), RIG, &mut room);
    assert_eq!(answer, 2 << 32 | 14);
    assert_eq!((&room[..14], &room[14..]), (&pair()[..], &[7, 7][..]));
    let mut short = [7; 13];
    let answer = raw::compact(WIDEST.packed(), RIG, &mut short);
    assert_eq!((answer, short), (1 << 63 | 16 << 16, [7; 13]));
}

#[test]
fn files_that_are_refused() {
    let cut = Form::of_file(WIDEST, &RIG[..333]).unwrap_err();
    assert_eq!(
        (cut.cause, cut.expander, cut.phy),
        (Cause::Length, Expander(1), Phy(2))
    );
    let short = Setting::new(2, 3, 1).unwrap();
    assert_eq!(Form::of_file(short, RIG), Err(refused(Cause::Chain)));
    assert_eq!(Form::of_words(short, pair()), Err(refused(Cause::Length)));
    assert_eq!(
        raw::compact_tables(0, &pair(), &mut [], &mut []),
        1 << 63 | 22 << 16
    );
}

#[test]
fn words_that_are_no_form() {
    let no = Err(refused(Cause::Length));
    assert_eq!(Form::of_words(WIDEST, Vec::new()), no);
    for length in 0..14 {
        assert_eq!(
            Form::of_words(WIDEST, pair()[..length].to_vec()),
            no,
            "{length} words"
        );
    }
    assert_eq!(Form::of_words(WIDEST, [&pair()[..], &[0]].concat()), no);
    assert_eq!(Form::of_words(WIDEST, vec![0; LONGEST_FORM + 1]), no);
    for (at, word) in [
        (0, 0),
        (1, general(4, 2) | 1),
        (1, general(0, 2)),
        (3, phy(2, 2, 0, 0)),
        (3, phy(2, 2, 1, 1)),
        (3, phy(2, 3, 1, 0)),
        (3, phy(2, 2, 1, 0) | 1),
        (4, 0),
        (5, phy(1, 0, 1, 0)),
        (5, 1 << 63),
        (12, A1),
        (13, phy(0, 0, 0, 1)),
    ] {
        let mut words = pair();
        words[at] = word;
        assert_eq!(Form::of_words(WIDEST, words), no, "word {at} {word:016x}");
    }
    // Another R, a drive's phy, and an empty phy's attribute make other rigs.
    for (at, word) in [
        (1, general(2, 2)),
        (5, phy(1, 0, 0, 255)),
        (13, phy(0, 1, 0, 0)),
    ] {
        let mut words = pair();
        words[at] = word;
        let form = Form::of_words(WIDEST, words.clone());
        assert_eq!(form.map(|form| form.words().to_vec()), Ok(words));
    }
}

#[test]
fn tables_and_a_trace() {
    let form = Form::of_file(WIDEST, RIG).unwrap();
    let (mut words, mut bits) = ([7; 5], [0xff; 2]);
    let short = form.tables(&mut words[..3], &mut bits);
    assert_eq!(short, Err(refused(Cause::Room)));
    let short = form.tables(&mut words, &mut []);
    assert_eq!(short, Err(refused(Cause::BitRoom)));
    assert_eq!((words, bits), ([7; 5], [0xff; 2]));
    assert_eq!(form.tables(&mut words, &mut bits), Ok(form.needed()));
    assert_eq!((words, bits), ([B1, 0, 0, 0, 7], [0b0111_0000, 0xff]));

    let mut passed = [Expander(9); 3];
    let traced = form.trace(&WORDS, &BITS, request(1, Some(1), A1), &mut passed);
    let traced = traced.unwrap();
    assert_eq!(
        (traced.outcome, traced.last),
        (Outcome::Arrived, Expander(0))
    );
    assert_eq!(
        (traced.phy, traced.passed),
        (Some(Phy(1)), &[Expander(1), Expander(0)][..])
    );
    assert_eq!(passed[2], Expander(9));
    for (request, room, cause) in [
        (request(2, None, A1), 0, Cause::Request),
        (request(0, Some(0), A1), 2, Cause::Request),
        (request(0, Some(255), A1), 2, Cause::Request),
        (request(0, None, 0), 1, Cause::Room),
        (request(0, None, 0), 2, Cause::AddressZero),
    ] {
        let mut passed = [Expander(9); 2];
        let answer = form.trace(&WORDS, &BITS, request, &mut passed[..room]);
        assert_eq!(answer, Err(refused(cause)), "{request:?}");
        assert_eq!(passed, [Expander(9); 2]);
    }
    let none = form.trace(&WORDS, &[], request(0, None, 0), &mut passed);
    assert_eq!(none, Err(refused(Cause::BitRoom)));
}

#[test]
fn a_list_of_requests() {
    let form = Form::of_file(WIDEST, RIG).unwrap();
    let (ends, requests): (Vec<_>, Vec<_>) = [
        (
            Ok(end(Outcome::Arrived, 1, Some(1), 2)),
            request(0, None, B1),
        ),
        (
            Ok(end(Outcome::Arrived, 0, Some(1), 2)),
            request(1, Some(1), A1),
        ),
        (Ok(end(Outcome::Arrived, 0, None, 2)), request(1, None, X10)),
        (
            Ok(end(Outcome::NoDestination, 0, None, 2)),
            request(1, None, FF),
        ),
        (
            Ok(end(Outcome::BadDestination, 1, None, 1)),
            request(1, Some(1), B1),
        ),
        (Err(refused(Cause::Request)), request(2, None, B1)),
        (Err(refused(Cause::Request)), request(1, Some(2), 0)),
        (Err(refused(Cause::Request)), request(0, Some(255), B1)),
        (Err(refused(Cause::AddressZero)), request(1, None, 0)),
    ]
    .into_iter()
    .unzip();
    assert_eq!(form.trace_many(&WORDS, &BITS, &requests), Ok(ends));
    assert_eq!(form.trace_many(&WORDS, &BITS, &[]), Ok(Vec::new()));
    let short = form.trace_many(&WORDS[..3], &BITS, &requests);
    assert_eq!(short, Err(refused(Cause::Room)));
    let short = form.trace_many(&WORDS, &[], &requests);
    assert_eq!(short, Err(refused(Cause::BitRoom)));
    // With entry 0 switched off.
    let ends = form.trace_many(&WORDS, &[0xf0], &requests[..1]).unwrap();
    assert_eq!(ends, [Ok(end(Outcome::NoDestination, 0, None, 1))]);
}

#[test]
fn lists_in_words() {
    let course = WIDEST.packed();
    let many = |requests: &[u64], answers: &mut [u64]| {
        raw::compact_trace_many(course, &pair(), &WORDS, &BITS, requests, answers)
    };
    let arrived = 1 << 16 | 1 << 8 | 2;
    let no = 1 << 63 | 15 << 16;
    let list = [255, B1, 65536 + 255, B1, u64::MAX, 0, 1 << 32, B1, 255];
    let mut answers = [7; 5];
    // The last word by itself is no request.
    assert_eq!(many(&list, &mut answers), 4);
    assert_eq!(answers, [arrived, no, no, no, 7]);
    let mut answers = [7; 3];
    assert_eq!(many(&list, &mut answers), 1 << 63 | 16 << 16);
    assert_eq!(answers, [7; 3]);
    assert_eq!((many(&list[..1], &mut []), many(&[], &mut [])), (0, 0));
}
