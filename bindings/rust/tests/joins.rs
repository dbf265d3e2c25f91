//! Two halves of a bench joined, with the bytes of the cable written by hand.

use metzurgo::{
    join, judge, needed, tables, trace, CableEnd, Cause, Expander, Outcome, Phy, Refusal, Request,
    Setting,
};

const RIG: &[u8; 334] = include_bytes!(concat!(
    env!("CARGO_MANIFEST_DIR"),
    "/../../crates/routes/stdin"
));
const WIDEST: Setting = Setting::WIDEST;

/// The pair rig with phy 1 of expander 0 empty and subtractive, every address with this
/// first byte.
fn half(first: u8) -> [u8; 334] {
    let mut file = *RIG;
    (file[102], file[134]) = (0x00, 0x01);
    for at in [2, 54, 62, 106, 142, 194, 202, 246, 254, 298] {
        file[at] = first;
    }
    file
}

fn end(file: &[u8], expander: u8, phy: u8) -> CableEnd<'_> {
    CableEnd {
        file,
        expander: Expander(expander),
        phy: Phy(phy),
    }
}

fn refused<T>(cause: Cause, expander: u8, phy: u8) -> Result<T, Refusal> {
    let (expander, phy) = (Expander(expander), Phy(phy));
    Err(Refusal {
        cause,
        expander,
        phy,
    })
}

#[test]
fn the_joined_file() {
    let (left, right) = (half(0x50), half(0x51));
    let mut expected = [&[0x10, 4], &left[2..], &right[2..]].concat();
    for (at, first) in [(0, 0x51), (332, 0x50)] {
        expected[102 + at] = 0x20;
        expected[114 + at..122 + at].copy_from_slice(&[first, 0, 0, 0, 0, 0, 0, 0x10]);
        expected[122 + at] = 1;
    }
    let mut out = [0x77; 670];
    let bench = join(WIDEST, end(&left, 0, 1), end(&right, 0, 1), &mut out);
    assert_eq!(bench, Ok(&expected[..]));
    assert_eq!(out[666..], [0x77; 4]);
    assert_eq!(judge(WIDEST, &expected), Ok(4));
}

#[test]
fn tables_stay_and_requests_cross() {
    let (left, right) = (half(0x50), half(0x51));
    let mut out = [0; 666];
    let bench = join(WIDEST, end(&left, 0, 1), end(&right, 0, 1), &mut out).unwrap();
    let counts = needed(WIDEST, bench).unwrap();
    assert_eq!((counts.tables, counts.words), (2, 8));
    let (mut words, mut bits) = ([0; 8], [0; 1]);
    tables(WIDEST, bench, &mut words, &mut bits).unwrap();
    assert_eq!(
        words,
        [
            0x5000_0000_0000_00b1,
            0,
            0,
            0,
            0x5100_0000_0000_00b1,
            0,
            0,
            0
        ]
    );
    let request = Request {
        expander: Expander(1),
        arrival: Some(Phy(1)),
        address: 0x5100_0000_0000_00b1,
    };
    let mut passed = [Expander(0); 4];
    let answer = trace(WIDEST, bench, &words, &bits, request, &mut passed).unwrap();
    assert_eq!(
        (answer.outcome, answer.phy),
        (Outcome::Arrived, Some(Phy(1)))
    );
    assert_eq!(answer.passed, [1, 0, 2, 3].map(Expander));
}

#[test]
fn refusals_write_nothing() {
    let (left, right) = (half(0x50), half(0x51));
    let mut drive = right;
    drive[254] = 0x50;
    let cut = &right[..333];
    for (first, second, expected) in [
        (
            end(&left, 2, 1),
            end(&right, 0, 1),
            refused(Cause::Join, 0, 0),
        ),
        (
            end(&left, 0, 1),
            end(&right, 0, 0),
            refused(Cause::Join, 0, 0),
        ),
        (
            end(&left, 0, 1),
            end(&left, 0, 1),
            refused(Cause::ExpanderAddress, 2, 0),
        ),
        (
            end(&left, 0, 1),
            end(&drive, 0, 1),
            refused(Cause::DriveAddress, 3, 1),
        ),
        // The places of the second file stand behind those of the first.
        (
            end(&left, 0, 1),
            end(cut, 0, 1),
            refused(Cause::Length, 3, 2),
        ),
        (
            end(cut, 0, 1),
            end(&left, 0, 1),
            refused(Cause::Length, 1, 2),
        ),
    ] {
        let mut out = [0x77; 670];
        assert_eq!(join(WIDEST, first, second, &mut out), expected);
        assert_eq!(out, [0x77; 670]);
    }
    let mut out = [0x77; 665];
    let (first, second) = (end(&left, 0, 1), end(&right, 0, 1));
    assert_eq!(
        join(WIDEST, first, second, &mut out),
        refused(Cause::Room, 0, 0)
    );
    assert_eq!(out, [0x77; 665]);
    for (limits, cause) in [((3, 3, 4), Cause::Count), ((4, 3, 3), Cause::Chain)] {
        let setting = Setting::new(limits.0, limits.1, limits.2).unwrap();
        assert_eq!(join(setting, first, second, &mut out), refused(cause, 0, 0));
    }
}
