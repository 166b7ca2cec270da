//! The rules of operation that a season can break, one at a time, to see that it is caught.

use crate::holds::Check;
use crate::tally::Keeper;

#[derive(Clone, Copy, Debug)]
pub struct Rules {
    pub till_saves_before_it_prints: bool,
    pub till_asks_earlier_books: bool,
    pub till_sends_again_under_the_number: bool,
    pub till_names_the_bundle_of_the_sale: bool,
    pub till_takes_over_only_all: bool,
    pub office_saves_before_it_answers: bool,
    pub office_asks_earlier_books: bool,
}

pub const KEPT: Rules = Rules {
    till_saves_before_it_prints: true,
    till_asks_earlier_books: true,
    till_sends_again_under_the_number: true,
    till_names_the_bundle_of_the_sale: true,
    till_takes_over_only_all: true,
    office_saves_before_it_answers: true,
    office_asks_earlier_books: true,
};

/// A way to break one rule.
#[derive(Clone, Copy, Debug)]
pub struct Broken {
    /// As on the command line.
    pub name: &'static str,
    pub rules: Rules,
    /// What has to notice it: for a rule about money, the evening's balances and not only an answer that is odd.
    pub noticed_by: Check,
    /// Of how many saves one is cut off. Cuts take time, so they are seldom where they show nothing of the rule.
    pub saves_to_a_cut: u64,
}

pub const SAVES_TO_A_CUT: u64 = 9;
const SELDOM: u64 = 100;

pub const BROKEN: [Broken; 7] = [
    Broken {
        name: "till-prints-first",
        rules: Rules { till_saves_before_it_prints: false, ..KEPT },
        noticed_by: Check::Balance(Keeper::Till),
        saves_to_a_cut: SAVES_TO_A_CUT,
    },
    Broken {
        name: "till-asks-no-earlier-book",
        rules: Rules { till_asks_earlier_books: false, ..KEPT },
        noticed_by: Check::Balance(Keeper::Till),
        saves_to_a_cut: SELDOM,
    },
    Broken {
        name: "till-sends-without-number",
        rules: Rules { till_sends_again_under_the_number: false, ..KEPT },
        noticed_by: Check::Balance(Keeper::Office),
        saves_to_a_cut: SELDOM,
    },
    Broken {
        name: "till-names-newest-bundle",
        rules: Rules { till_names_the_bundle_of_the_sale: false, ..KEPT },
        noticed_by: Check::Balance(Keeper::Office),
        saves_to_a_cut: SELDOM,
    },
    Broken {
        name: "till-takes-over-too-early",
        rules: Rules { till_takes_over_only_all: false, ..KEPT },
        noticed_by: Check::Balance(Keeper::Till),
        saves_to_a_cut: SELDOM,
    },
    Broken {
        name: "office-answers-first",
        rules: Rules { office_saves_before_it_answers: false, ..KEPT },
        noticed_by: Check::OnTheWay,
        saves_to_a_cut: SAVES_TO_A_CUT,
    },
    Broken {
        name: "office-asks-no-earlier-book",
        rules: Rules { office_asks_earlier_books: false, ..KEPT },
        noticed_by: Check::Balance(Keeper::Office),
        saves_to_a_cut: SELDOM,
    },
];

pub fn broken(name: &str) -> Option<Broken> {
    BROKEN.into_iter().find(|broken| broken.name == name)
}
