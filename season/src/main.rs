//! A season, simulated. `season kept SEED DAYS TILLS FOLDER SHIM` plays one with the built library and stored books in
//! the folder; with the name of a rule in place of `kept` that rule is broken. tests/season builds the shim.

mod again;
mod answers;
mod bundles;
mod counter;
mod cuts;
mod evening;
mod holds;
mod message;
mod met;
mod mishaps;
mod office;
mod outbox;
mod recovery;
mod report;
mod restarts;
mod riders;
mod rules;
mod season;
mod settlement;
mod shelf;
mod signal;
mod tally;
mod till;
mod uplink;

use std::path::{Path, PathBuf};
use std::process::ExitCode;

use season::{Plan, MOST_TILLS};

const USAGE: &str = "season kept|RULE SEED DAYS TILLS FOLDER SHIM, season rules, or season save-words FROM TO";

fn main() -> ExitCode {
    let arguments: Vec<String> = std::env::args().skip(1).collect();
    let words: Vec<&str> = arguments.iter().map(String::as_str).collect();
    match words[..] {
        ["save-words", from, to] => saved(Path::new(from), Path::new(to)),
        ["rules"] => listed(),
        [rules, seed, days, tills, folder, shim] => match plan_of(rules, [seed, days, tills], folder, shim) {
            Some(plan) => report::played(plan),
            None => wrong_use(),
        },
        _ => wrong_use(),
    }
}

fn wrong_use() -> ExitCode {
    eprintln!("{USAGE}");
    ExitCode::from(2)
}

fn saved(from: &Path, to: &Path) -> ExitCode {
    match cuts::save_words(from, to) {
        Ok(()) => ExitCode::SUCCESS,
        Err(_) => ExitCode::FAILURE,
    }
}

/// The ways to break a rule.
fn listed() -> ExitCode {
    for broken in rules::BROKEN {
        println!("{}", broken.name);
    }
    ExitCode::SUCCESS
}

fn plan_of(rules: &str, [seed, days, tills]: [&str; 3], folder: &str, shim: &str) -> Option<Plan> {
    let broken = rules::broken(rules);
    if broken.is_none() && rules != "kept" {
        return None;
    }
    Some(Plan {
        seed: seed.parse().ok()?,
        days: days.parse().ok()?,
        tills: tills.parse().ok().filter(|tills| (1..=MOST_TILLS).contains(tills))?,
        broken,
        folder: PathBuf::from(folder),
        shim: PathBuf::from(shim),
    })
}
