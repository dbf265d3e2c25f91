//! The causes have the numbers and the words of docs/FILE-FORMAT.md.

use metzurgo::Cause;

/// Number and words of each row of the table of refusals.
fn rows() -> Vec<(u8, String)> {
    let page = concat!(env!("CARGO_MANIFEST_DIR"), "/../../docs/FILE-FORMAT.md");
    let page = std::fs::read_to_string(page).expect("docs/FILE-FORMAT.md");
    let (_, table) = page
        .split_once("| Number | In words |")
        .expect("the table of refusals");
    table
        .lines()
        .skip(2)
        .take_while(|line| line.starts_with('|'))
        .map(|line| {
            let cells: Vec<&str> = line.split('|').map(str::trim).collect();
            (cells[1].parse().expect("a number"), cells[2].into())
        })
        .collect()
}

#[test]
fn each_row_has_a_cause() {
    let rows = rows();
    assert!(rows.len() >= 18, "only {} rows", rows.len());
    for (number, words) in rows {
        let cause = Cause::of(number);
        assert!(Cause::ALL.contains(&cause), "no cause {number}");
        assert_eq!(cause.number(), number);
        assert_eq!(cause.to_string(), words, "cause {number}");
    }
}

#[test]
fn each_cause_has_a_row() {
    let rows = rows();
    for cause in Cause::ALL {
        let number = cause.number();
        assert_eq!(Cause::of(number), *cause);
        assert!(rows.iter().any(|row| row.0 == number), "no row {number}");
    }
}

#[test]
fn other_numbers_are_kept() {
    for number in [0, 13, 25, 255] {
        assert_eq!(Cause::of(number), Cause::Other(number));
        assert_eq!(Cause::of(number).number(), number);
    }
}
