//! Renders "The verdict program": the one line it writes.

use crate::verdict::{verdict, Verdict};

pub const LONGEST_INPUT: usize = 65_536;

pub fn line(verdict: &Verdict) -> String {
    match verdict {
        Verdict::Accepted(count) => format!("OK {count}"),
        Verdict::Refused {
            number,
            place,
            detail,
        } => format!("NO {number} {place} {detail}"),
    }
}

pub fn library_line(bundle: &[u8]) -> String {
    line(&verdict(bundle))
}

pub fn program_line(input: &[u8]) -> String {
    if input.len() > LONGEST_INPUT {
        "NO 1 0 0".to_string()
    } else {
        library_line(input)
    }
}

#[cfg(test)]
mod tests {
    use super::*;
    use crate::generate::random::Random;
    use crate::generate::valid::sized_bundle;

    #[test]
    fn the_three_examples() {
        assert_eq!(program_line(b""), "OK 0");
        assert_eq!(program_line(b"XX"), "NO 2 0 0");
        assert_eq!(
            program_line(b"AR1185000420000007030000Y001N+050202401010120241231"),
            "NO 7 0 1"
        );
    }

    #[test]
    fn the_program_has_a_limit_of_its_own() {
        let mut random = Random::from_seed(1);
        let longest = sized_bundle(&mut random, LONGEST_INPUT);
        assert_eq!(longest.len(), LONGEST_INPUT);
        assert!(program_line(&longest).starts_with("OK "));
        let longer = sized_bundle(&mut random, LONGEST_INPUT + 1);
        assert_eq!(longer.len(), LONGEST_INPUT + 1);
        assert!(library_line(&longer).starts_with("OK "));
        assert_eq!(program_line(&longer), "NO 1 0 0");
    }

    #[test]
    fn too_much_input_is_told_before_a_bad_first_record() {
        assert_eq!(program_line(&[b'X'; LONGEST_INPUT]), "NO 2 0 0");
        assert_eq!(program_line(&[b'X'; LONGEST_INPUT + 1]), "NO 1 0 0");
    }
}
