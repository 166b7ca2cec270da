//! The crate's reasons are those of the one list of refusals, docs/refusals.tsv.
use offers::Reason;

const LIST: &str = include_str!("../../docs/refusals.tsv");

struct Row {
    number: u64,
    name: &'static str,
    text: &'static str,
}

fn rows() -> Vec<Row> {
    let names: Vec<&str> = LIST.lines().next().unwrap().split('\t').collect();
    let column = |name| names.iter().position(|&other| other == name).unwrap();
    let of_row = |line: &'static str| {
        let cells: Vec<&'static str> = line.split('\t').collect();
        Row {
            number: cells[column("number")].parse().unwrap(),
            name: cells[column("Rust")],
            text: cells[column("text")],
        }
    };
    LIST.lines().skip(1).map(of_row).collect()
}

#[test]
fn every_number_of_the_list_has_its_reason_and_text() {
    assert!(!rows().is_empty());
    for Row { number, name, text } in rows() {
        let reason = Reason::from(number);
        assert_eq!((format!("{reason:?}").as_str(), reason.to_string().as_str()), (name, text));
        assert_eq!(reason.number(), number);
    }
}

#[test]
fn no_other_number_has_one() {
    let listed: Vec<u64> = rows().iter().map(|row| row.number).collect();
    for number in (0..=255).chain([u64::MAX]).filter(|number| !listed.contains(number)) {
        assert_eq!(Reason::from(number), Reason::Other(number));
    }
}

#[test]
fn a_number_that_is_gone_has_none() {
    assert_eq!(Reason::from(16), Reason::Other(16));
}
