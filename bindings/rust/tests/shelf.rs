//! A shelf: what it can be told, its results and what it holds, written by hand.

use metzurgo::{raw, write_route, Cause, FunctionResult, Phy, PhyKind, Refusal, Route, Shelf};

/// Phys 0 to 3; R is 2.
const KINDS: [PhyKind; 4] = [
    PhyKind::Table,
    PhyKind::Vacant,
    PhyKind::Other,
    PhyKind::Table,
];
const B1: u64 = 0x5000_0000_0000_00b1;

fn frame(length: u8, phy: u8, index: u16, address: u64, disabled: bool) -> [u8; 40] {
    let phy = Phy(phy);
    let mut buf = [0; 40];
    let route = Route {
        length,
        phy,
        index,
        address,
        disabled,
    };
    write_route(&mut buf, route).expect("a frame");
    buf
}

fn causes(got: Result<FunctionResult, Refusal>) -> Cause {
    let refusal = got.expect_err("a refusal");
    assert_eq!((refusal.expander.0, refusal.phy.0), (0, 0));
    refusal.cause
}

#[test]
fn size_is_that_of_the_archive() {
    assert_eq!(raw::shelf_size(), 8 * raw::SHELF_WORDS as u64);
}

#[test]
fn what_a_shelf_can_be_told() {
    for (indexes, phys, can) in [
        (0, 1, true),
        (64, 16, true),
        (65, 1, false),
        (u16::MAX, 1, false),
        (1, 0, false),
        (1, 17, false),
        (1, 256, false),
        (1, 257, false),
    ] {
        let made = Shelf::fresh(indexes, &vec![PhyKind::Table; phys]);
        match made {
            Ok(_) => assert!(can, "{indexes} {phys}"),
            Err(refusal) => {
                assert!(!can, "{indexes} {phys}");
                assert_eq!(
                    refusal.to_string(),
                    format!("refused 3 0 0: {}", Cause::Count)
                );
            }
        }
    }
    let mut words = [7; raw::SHELF_WORDS];
    let refused = 1 << 63 | 3 << 16;
    assert_eq!(raw::shelf_fresh(&mut words, 1, 2, &[3]), refused);
    assert_eq!(raw::shelf_fresh(&mut words, 2, 2, &[1]), refused);
    assert_eq!(raw::shelf_fresh(&mut words, 1, 2, &[1, 1]), refused);
    assert_eq!(words, [7; raw::SHELF_WORDS]);
}

#[test]
fn entries_of_a_fresh_shelf() {
    let shelf = Shelf::fresh(2, &KINDS).unwrap();
    for phy in 0..=255 {
        for index in [0, 1, 2, 63, 64, 65535] {
            let exists = (phy == 0 || phy == 3) && index < 2;
            assert_eq!(shelf.entry(Phy(phy), index), exists.then_some(0));
            assert_eq!(shelf.disabled(Phy(phy), index), exists.then_some(true));
        }
    }
}

#[test]
fn results_in_their_order() {
    use FunctionResult::*;
    let fresh = Shelf::fresh(2, &KINDS).unwrap();
    for (phy, index, result) in [
        (4, 0, PhyDoesNotExist),
        (127, 9, PhyDoesNotExist),
        (1, 0, PhyVacant),
        (1, 2, PhyVacant),
        (2, 0, IndexDoesNotExist),
        (3, 2, IndexDoesNotExist),
        (3, 1, Accepted),
        (0, 0, Accepted),
    ] {
        for length in [0x00, 0x09] {
            let mut shelf = fresh.clone();
            let got = shelf.obey(&frame(length, phy, index, B1, false));
            assert_eq!(got, Ok(result), "phy {phy}, index {index}");
            assert_eq!(shelf == fresh, result != Accepted);
        }
    }
}

#[test]
fn what_the_reader_refuses() {
    let fresh = Shelf::fresh(2, &KINDS).unwrap();
    let mut shelf = fresh.clone();
    let good = frame(9, 0, 0, B1, false);
    assert_eq!(causes(shelf.obey(&good[..39])), Cause::Length);
    assert_eq!(causes(shelf.obey(&[])), Cause::Length);
    let mut spoiled = good;
    spoiled[3] = 8;
    assert_eq!(causes(shelf.obey(&spoiled)), Cause::FixedByte);
    spoiled = good;
    spoiled[9] = 128;
    assert_eq!(causes(shelf.obey(&spoiled)), Cause::Request);
    assert_eq!(shelf, fresh);
}

#[test]
fn an_entry_is_replaced_and_renewed() {
    let mut shelf = Shelf::fresh(2, &KINDS).unwrap();
    for (address, disabled) in [(B1, false), (1 << 63, true), (0, false)] {
        shelf.obey(&frame(9, 3, 1, address, disabled)).unwrap();
        assert_eq!(shelf.entry(Phy(3), 1), Some(address));
        assert_eq!(shelf.disabled(Phy(3), 1), Some(disabled));
        assert_eq!(shelf.entry(Phy(3), 0), Some(0));
        assert_eq!(shelf.disabled(Phy(0), 1), Some(true));
    }
    let loaded = shelf.clone();
    assert!(shelf.renew(65, &KINDS).is_err());
    assert_eq!(shelf, loaded);
    shelf.renew(2, &KINDS).unwrap();
    assert_eq!(shelf.disabled(Phy(3), 1), Some(true));
}
