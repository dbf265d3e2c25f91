//! Drives plugged and pulled on the pair rig, with bytes and words written by hand.

use std::num::NonZeroU64;

use metzurgo::{
    plug, pull, tables, trace, Cause, Expander, Moved, Outcome, Phy, Refusal, Request, Setting,
};

const RIG: &[u8; 334] = include_bytes!(concat!(
    env!("CARGO_MANIFEST_DIR"),
    "/../../crates/routes/stdin"
));
const WIDEST: Setting = Setting::WIDEST;
const A1: u64 = 0x5000_0000_0000_00a1;
const B1: u64 = 0x5000_0000_0000_00b1;
const C1: u64 = 0x5000_0000_0000_00c1;

/// A file with its tables and bits, a word and a byte more than needed.
#[derive(Clone, Debug, PartialEq)]
struct Lab {
    file: [u8; 334],
    words: [u64; 5],
    bits: [u8; 2],
}

impl Lab {
    fn new() -> Lab {
        let mut lab = Lab {
            file: *RIG,
            words: [7; 5],
            bits: [0x5a; 2],
        };
        tables(WIDEST, &lab.file, &mut lab.words, &mut lab.bits).unwrap();
        lab
    }

    fn plug(&mut self, expander: u8, phy: u8, address: u64) -> Result<Moved, Refusal> {
        let (file, words, bits) = (&mut self.file, &mut self.words, &mut self.bits);
        let place = (Expander(expander), Phy(phy));
        match NonZeroU64::new(address) {
            Some(address) => plug(WIDEST, file, words, bits, place, address),
            None => pull(WIDEST, file, words, bits, place),
        }
    }
}

fn refused<T>(cause: Cause, expander: u8, phy: u8) -> Result<T, Refusal> {
    let (expander, phy) = (Expander(expander), Phy(phy));
    Err(Refusal {
        cause,
        expander,
        phy,
    })
}

#[test]
fn plugged_and_pulled() {
    let mut lab = Lab::new();
    assert_eq!(lab.words, [B1, 0, 0, 0, 7]);
    let moved = |tables, words| Ok(Moved { tables, words });
    // C1 is plugged into the empty phy 2 of expander 1: type, address, attached phy.
    lab.file[314] = 9;
    let mut file = lab.file;
    assert_eq!(lab.plug(1, 2, C1), moved(1, 1));
    file[294] = 0x10;
    file[306..314].copy_from_slice(&C1.to_be_bytes());
    file[314] = 0;
    assert_eq!(lab.file, file);
    assert_eq!((lab.words, lab.bits), ([B1, C1, 0, 0, 7], [0x30, 0x5a]));
    // B1 is pulled: its type, and nothing else.
    assert_eq!(lab.plug(1, 1, 0), moved(1, 1));
    file[242] = 0x00;
    assert_eq!(lab.file, file);
    assert_eq!((lab.words, lab.bits), ([0, C1, 0, 0, 7], [0xb0, 0x5a]));
    // Again, and C1 again: accepted, and nothing changes.
    assert_eq!(lab.plug(1, 1, 0), moved(1, 0));
    assert_eq!(lab.plug(1, 2, C1), moved(1, 0));
    assert_eq!(lab.file, file);
    // A drive at expander 0 is in no level of the one table.
    assert_eq!(lab.plug(0, 1, B1), moved(0, 0));
    assert_eq!(lab.words, [0, C1, 0, 0, 7]);
    let request = Request {
        expander: Expander(1),
        arrival: None,
        address: B1,
    };
    let mut passed = [Expander(0); 2];
    let ended = trace(
        WIDEST,
        &lab.file,
        &lab.words,
        &lab.bits,
        request,
        &mut passed,
    );
    assert_eq!(ended.unwrap().outcome, Outcome::Arrived);
}

#[test]
fn altered_tables() {
    // The touched table is written afresh; padding, later words and bytes stay.
    let mut lab = Lab::new();
    lab.words = [A1, A1, 5, B1, 9];
    lab.bits = [0xff, 0x77];
    let moved = lab.plug(1, 1, C1).unwrap();
    assert_eq!((moved.tables, moved.words), (1, 4));
    assert_eq!((lab.words, lab.bits), ([C1, 0, 0, 0, 9], [0x7f, 0x77]));
    // One that is not touched stays.
    lab.words = [A1, A1, 5, B1, 9];
    let before = lab.clone();
    let moved = lab.plug(0, 1, A1).unwrap();
    assert_eq!((moved.tables, moved.words), (0, 0));
    assert_eq!(lab, before);
}

#[test]
fn refusals_edit_nothing() {
    for (expander, phy, address, expected) in [
        // 20: no such expander, no such phy, at an expander.
        (2, 0, C1, refused(Cause::Event, 0, 0)),
        (0, 2, C1, refused(Cause::Event, 0, 0)),
        (1, 0, 0, refused(Cause::Event, 0, 0)),
        // The edited file: an expander's address; B1 at expander 0, and still at 1.
        (
            0,
            1,
            0x5000_0000_0000_0020,
            refused(Cause::DriveAddress, 0, 1),
        ),
        (0, 1, B1, refused(Cause::DriveAddress, 1, 1)),
        (1, 2, A1, refused(Cause::DriveAddress, 1, 2)),
    ] {
        let mut lab = Lab::new();
        let before = lab.clone();
        assert_eq!(lab.plug(expander, phy, address), expected);
        assert_eq!(lab, before);
    }
    let mut vacant = Lab::new();
    vacant.file[284] = 0x16;
    let before = vacant.clone();
    assert_eq!(vacant.plug(1, 2, C1), refused(Cause::Event, 0, 0));
    assert_eq!(vacant, before);
}

#[test]
fn order_of_refusals() {
    let drive = NonZeroU64::new(B1).unwrap();
    let here = (Expander(0), Phy(1));
    let event = |file: &mut [u8], words: usize, bits: usize, place| {
        let (mut words, mut bits) = (vec![7; words], vec![7; bits]);
        let kept = (file.to_vec(), words.clone(), bits.clone());
        let answer = plug(WIDEST, file, &mut words, &mut bits, place, drive);
        assert_eq!((file.to_vec(), words, bits), kept);
        answer
    };
    let mut file = *RIG;
    let nowhere = (Expander(9), Phy(9));
    let cut = &mut RIG.to_vec()[..333];
    assert_eq!(event(cut, 0, 0, nowhere), refused(Cause::Length, 1, 2));
    assert_eq!(event(&mut file, 0, 0, nowhere), refused(Cause::Event, 0, 0));
    assert_eq!(event(&mut file, 3, 0, here), refused(Cause::Room, 0, 0));
    assert_eq!(event(&mut file, 4, 0, here), refused(Cause::BitRoom, 0, 0));
    assert_eq!(
        event(&mut file, 4, 1, here),
        refused(Cause::DriveAddress, 1, 1)
    );
}
