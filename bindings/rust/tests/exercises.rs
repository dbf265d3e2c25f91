//! Exercises: the made file byte by byte, what its table call gives, and each reason of 24.

use metzurgo::{
    judge, make, tables, Cause, Expander, Phy, Refusal, Setting, Tables, LONGEST_EXERCISE,
};

const FIRST: u64 = 0x5000_0000_0000_0010;
const SECOND: u64 = 0x5000_0000_0000_0020;
const B1: u64 = 0x5000_0000_0000_00b1;
const B2: u64 = 0x5000_0000_0000_00b2;

fn refused<T>(cause: Cause) -> Result<T, Refusal> {
    let (expander, phy) = (Expander(0), Phy(0));
    Err(Refusal {
        cause,
        expander,
        phy,
    })
}

/// An expander's unit: address, REPORT GENERAL response.
fn unit(address: u64, indexes: u16, phys: u8, configurable: u8) -> Vec<u8> {
    let mut general = [0; 28];
    general[0] = 0x41;
    general[6..8].copy_from_slice(&indexes.to_be_bytes());
    general[9] = phys;
    general[10] = configurable;
    [&address.to_be_bytes()[..], &general].concat()
}

/// A DISCOVER response; what is attached has phy 0.
fn discover(phy: u8, device: u8, own: u64, attached: u64, attribute: u8) -> Vec<u8> {
    let mut frame = vec![0; 52];
    frame[..2].copy_from_slice(&[0x41, 0x10]);
    frame[9] = phy;
    frame[12] = device << 4;
    frame[16..24].copy_from_slice(&own.to_be_bytes());
    frame[24..32].copy_from_slice(&attached.to_be_bytes());
    frame[44] = attribute;
    frame
}

/// The words that the table call gives of a file.
fn listed(file: &[u8], count: usize) -> Vec<u64> {
    let (mut words, mut bits) = (vec![1; count], vec![0; metzurgo::bit_bytes(count)]);
    let given = tables(Setting::WIDEST, file, &mut words, &mut bits).unwrap();
    let expected = Tables {
        tables: 1,
        words: count as u32,
    };
    assert_eq!(given, expected);
    words
}

#[test]
fn the_file_byte_by_byte() {
    let solution = [B1, 0, B2, B2, 0, 0];
    let expected = [
        vec![0x10, 2],
        unit(FIRST, 6, 1, 1),
        discover(0, 2, FIRST, SECOND, 2),
        unit(SECOND, 0, 5, 0),
        discover(0, 2, SECOND, FIRST, 1),
        discover(1, 1, SECOND, B1, 0),
        discover(2, 0, SECOND, 0, 0),
        discover(3, 1, SECOND, B2, 0),
        discover(4, 1, SECOND, B2, 0),
    ]
    .concat();
    let mut room = [0x77; 400];
    assert_eq!(make(FIRST, SECOND, &solution, &mut room), Ok(&expected[..]));
    assert_eq!(expected.len(), 386);
    assert_eq!(room[386..], [0x77; 14]);
    assert_eq!(judge(Setting::WIDEST, &expected), Ok(2));
    assert_eq!(listed(&expected, 6), solution);
}

#[test]
fn the_longest() {
    let mut solution = vec![0; 65_535];
    solution[126] = B1;
    let mut room = vec![0; LONGEST_EXERCISE];
    let file = make(FIRST, SECOND, &solution, &mut room).unwrap();
    assert_eq!(file.len(), LONGEST_EXERCISE);
    assert_eq!(listed(file, 65_535), solution);
}

#[test]
fn zeros_and_nothing() {
    for count in [0, 1, 65_535] {
        let mut room = [0; 178];
        let file = make(FIRST, SECOND, &vec![0; count], &mut room).unwrap();
        assert_eq!(file.len(), 178);
        assert_eq!(listed(file, count), vec![0; count]);
    }
}

#[test]
fn no_such_rig() {
    let late = [vec![0; 127], vec![B1]].concat();
    for (name, first, second, words) in [
        ("first zero", 0, SECOND, vec![B1]),
        ("second zero", FIRST, 0, vec![B1]),
        ("equal", FIRST, FIRST, vec![B1]),
        ("first among the words", FIRST, SECOND, vec![B1, FIRST]),
        ("second among the words", FIRST, SECOND, vec![SECOND]),
        ("a drive at index 127", FIRST, SECOND, late),
        ("too many words", FIRST, SECOND, vec![0; 65_536]),
    ] {
        // Also where nothing is lent: 24 comes before 16.
        for length in [0, 400] {
            let mut room = vec![0x77; length];
            assert_eq!(
                make(first, second, &words, &mut room),
                refused(Cause::NoRig),
                "{name}"
            );
            assert_eq!(room, vec![0x77; length], "{name}");
        }
    }
}

#[test]
fn too_little_room() {
    let mut room = [0x77; 229];
    assert_eq!(make(FIRST, SECOND, &[B1], &mut room), refused(Cause::Room));
    assert_eq!(room, [0x77; 229]);
}
