//! Every call on the pair rig, with the answers written by hand.

use metzurgo::{codes, is_disabled, raw, set_disabled};
use metzurgo::{
    Cause, Discover, Expander, General, GeneralSas2, LongGeneral, Outcome, Phy, Refusal, Request,
    Route, Rule, Setting, Step, Tables, Trace, WordPlace,
};

const RIG: &[u8; 334] = include_bytes!(concat!(
    env!("CARGO_MANIFEST_DIR"),
    "/../../crates/routes/stdin"
));
const WIDEST: Setting = Setting::WIDEST;
const X10: u64 = 0x5000_0000_0000_0010;
const X20: u64 = 0x5000_0000_0000_0020;
const A1: u64 = 0x5000_0000_0000_00a1;
const B1: u64 = 0x5000_0000_0000_00b1;
/// An address that nobody has.
const FF: u64 = 0x5000_0000_0000_00ff;
const WORDS: [u64; 4] = [B1, 0, 0, 0];
const BITS: [u8; 1] = [0b0111_0000];

fn refused(cause: Cause, expander: u8, phy: u8) -> Refusal {
    let (expander, phy) = (Expander(expander), Phy(phy));
    Refusal {
        cause,
        expander,
        phy,
    }
}

fn request(expander: u8, arrival: Option<u8>, address: u64) -> Request {
    let (expander, arrival) = (Expander(expander), arrival.map(Phy));
    Request {
        expander,
        arrival,
        address,
    }
}

#[test]
fn version_is_that_of_the_crate() {
    let (major, minor, patch) = metzurgo::version();
    let version = format!("{major}.{minor}.{patch}");
    assert_eq!(version, env!("CARGO_PKG_VERSION"));
}

#[test]
fn wiring() {
    let mut words = [7; 5];
    assert_eq!(metzurgo::wire(WIDEST, RIG, &mut words), Ok(2));
    assert_eq!(words, [2, 1, 7, 7, 7]);
    let short = metzurgo::wire(WIDEST, RIG, &mut words[..1]);
    assert_eq!(short, Err(refused(Cause::Room, 0, 0)));
}

#[test]
fn judging_by_settings() {
    for (limits, expected) in [
        ((2, 3, 2), Ok(2)),
        ((1, 3, 2), Err(refused(Cause::Count, 0, 0))),
        ((2, 2, 2), Err(refused(Cause::Count, 1, 0))),
        ((2, 3, 1), Err(refused(Cause::Chain, 0, 0))),
        ((0, 3, 2), Err(refused(Cause::Setting, 0, 0))),
        ((2, 129, 2), Err(refused(Cause::Setting, 0, 0))),
        ((2, 3, 65), Err(refused(Cause::Setting, 0, 0))),
    ] {
        let setting = Setting::new(limits.0, limits.1, limits.2);
        let got = setting.and_then(|setting| metzurgo::judge(setting, RIG));
        assert_eq!(got, expected, "{limits:?}");
    }
    assert_eq!(Setting::new(64, 128, 64), Ok(WIDEST));
    assert_eq!(Setting::default(), WIDEST);
}

/// What Setting::new refuses is what the calls refuse.
#[test]
fn settings_are_refused_by_the_calls() {
    for (expanders, phys, chain) in [(0, 1, 1), (65, 1, 1), (1, 0, 1), (1, 129, 1), (1, 1, 65)] {
        let refusal = Setting::new(expanders, phys, chain).unwrap_err();
        let packed = u32::from_be_bytes([0, expanders, phys, chain]);
        let answer = 1 << 63 | u64::from(refusal.cause.number()) << 16;
        assert_eq!(raw::judge(packed, RIG), answer);
    }
}

#[test]
fn judging_a_cut_file() {
    let cut = metzurgo::judge(WIDEST, &RIG[..333]);
    assert_eq!(cut, Err(refused(Cause::Length, 1, 2)));
    assert_eq!(
        cut.unwrap_err().to_string(),
        "refused 1 1 2: The file ends too early, or has bytes after its last phy; or words are the form of no accepted rig."
    );
}

#[test]
fn needed_and_places() {
    let needed = Tables {
        tables: 1,
        words: 4,
    };
    assert_eq!(metzurgo::needed(WIDEST, RIG), Ok(needed));
    let cut = metzurgo::needed(WIDEST, &RIG[..333]);
    assert_eq!(cut, Err(refused(Cause::Length, 1, 2)));
    assert_eq!((needed.word_count(), needed.bit_bytes()), (4, 1));
    for (words, bytes) in [(0, 0), (1, 1), (8, 1), (9, 2)] {
        let tables = Tables { words, ..needed };
        assert_eq!(tables.bit_bytes(), bytes, "{words}");
    }
    for index in 0..4 {
        let place = WordPlace {
            expander: Expander(0),
            phy: Phy(0),
            index,
        };
        let got = metzurgo::word_place(WIDEST, RIG, index.into());
        assert_eq!(got, Ok(place));
    }
    for beyond in [4, u64::MAX] {
        let got = metzurgo::word_place(WIDEST, RIG, beyond);
        assert_eq!(got, Err(refused(Cause::Request, 0, 0)));
    }
}

#[test]
fn tables_and_bits() {
    let (mut words, mut disabled) = ([7; 5], [0xff; 2]);
    let written = Tables {
        tables: 1,
        words: 4,
    };
    let got = metzurgo::tables(WIDEST, RIG, &mut words, &mut disabled);
    assert_eq!(got, Ok(written));
    assert_eq!(words, [B1, 0, 0, 0, 7]);
    assert_eq!(disabled, [0b0111_0000, 0xff]);
    let short = metzurgo::tables(WIDEST, RIG, &mut words[..3], &mut disabled);
    assert_eq!(short, Err(refused(Cause::Room, 0, 0)));
    let short = metzurgo::tables(WIDEST, RIG, &mut words, &mut []);
    assert_eq!(short, Err(refused(Cause::BitRoom, 0, 0)));
}

#[test]
fn traces() {
    for (start, arrival, address, outcome, last, phy, route) in [
        (0, None, B1, Outcome::Arrived, 1, Some(1), &[0, 1][..]),
        (1, Some(1), A1, Outcome::Arrived, 0, Some(1), &[1, 0]),
        (1, None, X10, Outcome::Arrived, 0, None, &[1, 0]),
        (1, None, FF, Outcome::NoDestination, 0, None, &[1, 0]),
        (1, Some(1), B1, Outcome::BadDestination, 1, None, &[1]),
    ] {
        let mut passed = [Expander(7); 3];
        let route: Vec<Expander> = route.iter().copied().map(Expander).collect();
        let expected = Trace {
            outcome,
            last: Expander(last),
            phy: phy.map(Phy),
            passed: &route,
        };
        let asked = request(start, arrival, address);
        let got = metzurgo::trace(WIDEST, RIG, &WORDS, &BITS, asked, &mut passed);
        assert_eq!(got, Ok(expected));
        assert_eq!(passed[2], Expander(7));
    }
}

#[test]
fn traces_refused_and_disabled() {
    let mut passed = [Expander(7); 2];
    let mut ask = |words: &[u64], bits: &[u8], request| {
        let answer = metzurgo::trace(WIDEST, RIG, words, bits, request, &mut passed);
        answer.map(|answer| answer.outcome)
    };
    let to_b1 = request(0, None, B1);
    assert_eq!(ask(&WORDS, &BITS, to_b1), Ok(Outcome::Arrived));
    assert_eq!(
        ask(&WORDS, &[0b1111_0000], to_b1),
        Ok(Outcome::NoDestination)
    );
    let refusals = [
        (ask(&WORDS, &BITS, request(2, None, B1)), Cause::Request),
        (ask(&WORDS, &BITS, request(0, Some(0), B1)), Cause::Request),
        (
            ask(&WORDS, &BITS, request(0, Some(254), B1)),
            Cause::Request,
        ),
        (
            ask(&WORDS, &BITS, request(0, Some(255), B1)),
            Cause::Request,
        ),
        (ask(&WORDS[..3], &BITS, to_b1), Cause::Room),
        (ask(&WORDS, &[], to_b1), Cause::BitRoom),
        (ask(&WORDS, &BITS, request(0, None, 0)), Cause::AddressZero),
    ];
    for (got, cause) in refusals {
        assert_eq!(got, Err(refused(cause, 0, 0)));
    }
}

fn step(rule: Rule, bad: bool, phy: Option<u8>) -> Step {
    Step {
        rule,
        bad,
        phy: phy.map(Phy),
        index: None,
        next: None,
    }
}

#[test]
fn steps() {
    let listed = Step {
        index: Some(0),
        next: Some((Expander(1), Phy(0))),
        ..step(Rule::Listed, false, Some(0))
    };
    let up = Step {
        next: Some((Expander(0), Phy(0))),
        ..step(Rule::Subtractive, false, Some(0))
    };
    for (asked, expected) in [
        (request(0, None, X10), step(Rule::Itself, false, None)),
        (request(0, None, A1), step(Rule::Attached, false, Some(1))),
        (request(0, None, B1), listed),
        (request(1, Some(1), A1), up),
        (request(0, Some(0), FF), step(Rule::Nothing, false, None)),
    ] {
        let got = metzurgo::step(WIDEST, RIG, &WORDS, &BITS, asked);
        assert_eq!(got, Ok(expected), "{asked:?}");
    }
    let back = metzurgo::step(WIDEST, RIG, &WORDS, &BITS, request(1, Some(1), B1));
    let back = back.map(|step| (step.rule, step.bad, step.next));
    assert_eq!(back, Ok((Rule::Attached, true, None)));
}

#[test]
fn steps_refused() {
    let ask = |words: &[u64], bits: &[u8], asked| metzurgo::step(WIDEST, RIG, words, bits, asked);
    for (got, cause) in [
        (ask(&WORDS, &BITS, request(2, None, B1)), Cause::Request),
        (ask(&WORDS, &BITS, request(1, Some(2), B1)), Cause::Request),
        (
            ask(&WORDS, &BITS, request(0, Some(255), B1)),
            Cause::Request,
        ),
        (ask(&WORDS[..3], &BITS, request(0, None, B1)), Cause::Room),
        (ask(&WORDS, &[], request(0, None, B1)), Cause::BitRoom),
        (ask(&WORDS, &BITS, request(0, None, 0)), Cause::AddressZero),
    ] {
        assert_eq!(got, Err(refused(cause, 0, 0)));
    }
}

#[test]
fn loading_frames() {
    for (length, address, disabled) in [(0x00, B1, false), (0x09, B1, true), (0x09, 0, false)] {
        let route = Route {
            length,
            phy: Phy(3),
            index: 0x0405,
            address,
            disabled,
        };
        let mut buf = [7; 50];
        let frame = metzurgo::write_route(&mut buf, route).map(|frame| frame.to_vec());
        assert_eq!(frame.as_ref().map(Vec::len), Ok(40));
        assert_eq!(buf[40..], [7; 10]);
        assert_eq!(metzurgo::read_route(&frame.unwrap()), Ok(route));
        let beyond = metzurgo::write_route(
            &mut buf,
            Route {
                phy: Phy(128),
                ..route
            },
        )
        .err();
        assert_eq!(beyond, Some(refused(Cause::Request, 0, 0)));
        let other = metzurgo::write_route(&mut buf, Route { length: 1, ..route }).err();
        assert_eq!(other, Some(refused(Cause::FixedByte, 0, 0)));
        let short = metzurgo::write_route(&mut buf[..39], route).err();
        assert_eq!(short, Some(refused(Cause::Room, 0, 0)));
    }
}

#[test]
fn report_general() {
    let general = General {
        route_indexes: 4,
        phys: 2,
        configurable: true,
    };
    let sas2 = |long| Ok(GeneralSas2 { general, long });
    let mut frame = RIG[10..38].to_vec();
    assert_eq!(metzurgo::read_general(&frame), Ok(general));
    assert_eq!(metzurgo::read_general_sas2(&frame), sas2(None));
    (frame[3], frame[10]) = (0x10, frame[10] | 0x80);
    frame.resize(68, 0);
    let fields = LongGeneral {
        table_to_table_supported: true,
        configures_others: false,
    };
    assert_eq!(metzurgo::read_general(&frame), Ok(general));
    assert_eq!(metzurgo::read_general_sas2(&frame), sas2(Some(fields)));
}

#[test]
fn discover() {
    let phy = Discover::Phy {
        identifier: Phy(1),
        device_type: codes::END_DEVICE,
        attribute: codes::DIRECT,
        own: X20,
        attached: B1,
        attached_phy: Phy(0),
    };
    assert_eq!(metzurgo::read_discover(&RIG[230..282]), Ok(phy));
    let mut vacant = RIG[230..282].to_vec();
    vacant[2] = 0x1f;
    let expected = Discover::Vacant { result: 0x1f };
    assert_eq!(metzurgo::read_discover(&vacant), Ok(expected));
    let none = metzurgo::read_discover(&[]);
    assert_eq!(none, Err(refused(Cause::Length, 0, 0)));
}

#[test]
fn bit_places() {
    let mut given = [0b1000_0000, 0b0000_0001];
    let set: Vec<usize> = (0..16).filter(|&word| is_disabled(&given, word)).collect();
    assert_eq!(set, [0, 15]);
    set_disabled(&mut given, 8, true);
    set_disabled(&mut given, 0, false);
    assert_eq!(given, [0, 0b1000_0001]);
}
