//! What is told of a season that was played.

use std::collections::BTreeSet;
use std::process::ExitCode;

use crate::holds::{Check, Holds};
use crate::met::Met;
use crate::rules::Broken;
use crate::season::{Plan, Season};

/// From this size on every kind of event has to be met, if the season was played to its end.
const FULL_DAYS: u64 = 12;
const FULL_TILLS: usize = 4;
const MOST_TOLD: usize = 20;

/// A season by the rules has to pass; one in which a rule is broken has to be found out.
pub fn played(plan: Plan) -> ExitCode {
    let folder = plan.folder.clone();
    let mut season = match Season::new(plan) {
        Ok(season) => season,
        Err(error) => {
            println!("FAILED {}: {error}\n0 passed, 1 failed", folder.display());
            return ExitCode::FAILURE;
        }
    };
    let days = season.play();
    let (passed, failed) = match season.plan.broken {
        None => told_of_kept(&season, days),
        Some(broken) => told_of_broken(&season, broken, days),
    };
    println!("{passed} passed, {failed} failed");
    if failed == 0 {
        ExitCode::SUCCESS
    } else {
        ExitCode::FAILURE
    }
}

/// How much passed and how much failed.
fn told_of_kept(season: &Season, days: u64) -> (u64, u64) {
    println!("seed {}: {} tills, {days} days", season.plan.seed, season.plan.tills);
    let Holds { passed, complaints } = &season.holds;
    let is_full = season.plan.days >= FULL_DAYS && season.plan.tills >= FULL_TILLS && complaints.is_empty();
    let (met, holes) = told_of_met(&season.met, is_full);
    for complaint in complaints.iter().take(MOST_TOLD) {
        println!("FAILED day {days}: {}: {}", complaint.check, complaint.text);
    }
    (passed + met, complaints.len() as u64 + holes)
}

/// How many kinds of events were met, and how many had to be and were not.
fn told_of_met(met: &Met, is_full: bool) -> (u64, u64) {
    let table = met.table();
    for (text, times) in &table {
        let is_hole = *times == 0 && is_full;
        println!("{}{times:>9}  {text}", if is_hole { "FAILED never met:" } else { "" });
    }
    let holes = table.iter().filter(|(_, times)| *times == 0).count() as u64;
    (table.len() as u64 - holes, if is_full { holes } else { 0 })
}

fn told_of_broken(season: &Season, broken: Broken, days: u64) -> (u64, u64) {
    let of = format!("{}, seed {}", broken.name, season.plan.seed);
    let complaints = season.holds.complaints.iter().map(|complaint| complaint.check);
    let others: BTreeSet<Check> = complaints.filter(|check| *check != broken.noticed_by).collect();
    let others: Vec<String> = others.iter().map(|check| check.to_string()).collect();
    if !season.is_found_out() {
        println!("FAILED {of}: not noticed by {} in {days} days, but by: {}", broken.noticed_by, others.join(", "));
        return (0, 1);
    }
    let also = if others.is_empty() { String::new() } else { format!(" (also by {})", others.join(", ")) };
    println!("{of}: noticed on day {days} by {}{also}", broken.noticed_by);
    (1, 0)
}
