//! The card of the pair rig, with the bytes written by hand.

use metzurgo::{card_of_file, file_of_card, Cause, Expander, Phy, Refusal, Setting};

const RIG: &[u8; 334] = include_bytes!(concat!(
    env!("CARGO_MANIFEST_DIR"),
    "/../../crates/routes/stdin"
));
const WIDEST: Setting = Setting::WIDEST;

/// Bits in this order: of a number its lowest `width` bits, most significant first.
fn packed(fields: &[(u64, u32)]) -> Vec<u8> {
    let bits: String = fields
        .iter()
        .map(|&(value, width)| format!("{:064b}", value)[64 - width as usize..].to_string())
        .collect();
    bits.as_bytes()
        .chunks(8)
        .map(|byte| {
            let digits = format!("{:0<8}", std::str::from_utf8(byte).unwrap());
            u8::from_str_radix(&digits, 2).unwrap()
        })
        .collect()
}

fn pair() -> Vec<u8> {
    packed(&[
        // version, 2 expanders less 1, zeros
        (0b0010, 4),
        (1, 6),
        (0, 6),
        // expander 0: address, R 4, configurable, 2 phys less 1
        (0x5000_0000_0000_0010, 64),
        (4, 16),
        (1, 1),
        (1, 7),
        // phy 0: not vacant, type 2, table, attached to phy 0 of expander 1
        (1, 1),
        (2, 3),
        (2, 2),
        (0x5000_0000_0000_0020, 64),
        (0, 8),
        // phy 1: type 1, direct, drive A1
        (1, 1),
        (1, 3),
        (0, 2),
        (0x5000_0000_0000_00a1, 64),
        (0, 8),
        // expander 1: address, R 0, not configurable, 3 phys less 1
        (0x5000_0000_0000_0020, 64),
        (0, 16),
        (0, 1),
        (2, 7),
        // phy 0: type 2, subtractive, attached to phy 0 of expander 0
        (1, 1),
        (2, 3),
        (1, 2),
        (0x5000_0000_0000_0010, 64),
        (0, 8),
        // phy 1: type 1, direct, drive B1
        (1, 1),
        (1, 3),
        (0, 2),
        (0x5000_0000_0000_00b1, 64),
        (0, 8),
        // phy 2: nothing attached, direct
        (1, 1),
        (0, 3),
        (0, 2),
    ])
}

fn refused<T>(cause: Cause, expander: u8, phy: u8) -> Result<T, Refusal> {
    let (expander, phy) = (Expander(expander), Phy(phy));
    Err(Refusal {
        cause,
        expander,
        phy,
    })
}

#[test]
fn the_pair_rig_and_back() {
    let expected = pair();
    assert_eq!(expected.len(), 64);
    let mut room = [0x77; 70];
    assert_eq!(card_of_file(WIDEST, RIG, &mut room), Ok(&expected[..]));
    assert_eq!(room[64..], [0x77; 6]);
    let mut back = [0x77; 340];
    assert_eq!(file_of_card(WIDEST, &expected, &mut back), Ok(&RIG[..]));
    assert_eq!(back[334..], [0x77; 6]);
}

#[test]
fn too_little_room() {
    let mut room = [0x77; 63];
    assert_eq!(
        card_of_file(WIDEST, RIG, &mut room),
        refused(Cause::Room, 0, 0)
    );
    assert_eq!(room, [0x77; 63]);
    let mut back = [0x77; 333];
    assert_eq!(
        file_of_card(WIDEST, &pair(), &mut back),
        refused(Cause::Room, 0, 0)
    );
    assert_eq!(back, [0x77; 333]);
}

#[test]
fn a_file_that_is_no_card() {
    let mut room = [0x77; 64];
    assert_eq!(
        card_of_file(WIDEST, &RIG[..333], &mut room),
        refused(Cause::Length, 1, 2)
    );
    assert_eq!(room, [0x77; 64]);
}

#[test]
fn cards_that_are_refused() {
    let spoil = |at: usize, byte: u8| {
        let mut card = pair();
        card[at] = byte;
        card
    };
    let longer = [&pair()[..], &[0]].concat();
    for (name, card, expected) in [
        ("version", spoil(0, 0x30), refused(Cause::Card, 0, 0)),
        ("zero bits", spoil(1, 0x41), refused(Cause::Card, 0, 0)),
        ("cut", pair()[..63].to_vec(), refused(Cause::Card, 0, 0)),
        ("nothing", Vec::new(), refused(Cause::Card, 0, 0)),
        ("a byte too many", longer, refused(Cause::Card, 0, 0)),
        (
            "attached type 4",
            spoil(13, 0xc9),
            refused(Cause::PhyCodes, 0, 0),
        ),
        (
            "address zero",
            spoil(2, 0x00)
                .iter()
                .enumerate()
                .map(|(at, &byte)| if at == 9 { 0 } else { byte })
                .collect(),
            refused(Cause::ExpanderAddress, 0, 0),
        ),
    ] {
        let mut back = [0x77; 334];
        assert_eq!(file_of_card(WIDEST, &card, &mut back), expected, "{name}");
        assert_eq!(back, [0x77; 334], "{name}");
    }
}

#[test]
fn by_the_setting() {
    let mut back = [0x77; 334];
    for (limits, expected) in [
        ((2, 3, 2), Ok(&RIG[..])),
        ((1, 3, 2), refused(Cause::Count, 0, 0)),
        ((2, 2, 2), refused(Cause::Count, 1, 0)),
        // Chains are not tested.
        ((2, 3, 1), Ok(&RIG[..])),
    ] {
        let setting = Setting::new(limits.0, limits.1, limits.2).unwrap();
        assert_eq!(
            file_of_card(setting, &pair(), &mut back),
            expected,
            "{limits:?}"
        );
    }
    let answer = metzurgo::raw::file_of_card(0, &[], &mut []);
    assert_eq!(answer, 1 << 63 | 22 << 16);
}
