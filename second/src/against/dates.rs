//! Renders R-3, "every date is judged as before": dates and what is none, wherever a day is judged.

use std::collections::BTreeMap;
use std::fmt;
use std::io;

use super::wire::{Answer, Call, Lent, Name};
use super::{Bench, FULL_RUN};
use crate::calendar::join;
use crate::generate::dated::{book_with, bundle_with, question_on};
use crate::generate::dates::{noted_years, years_of_each_remainder, Sheet};
use crate::layout::{Rule, Table};

/// Before the full run, so many cases bring one year with them.
const CASES_PER_YEAR: u64 = 125;
const LAST_YEAR_OF_EIGHT_DIGITS: u64 = 9999;

/// Where a day stands.
#[derive(Clone, Copy, Debug, PartialEq, Eq)]
pub enum Place {
    Asked,
    Recorded { table: Table, field: u8 },
    Booked,
}

/// Of one year: a month, a day of it, and whether there is such a day.
pub type Judged = BTreeMap<(u64, u64), bool>;

impl Place {
    pub fn all() -> Vec<Place> {
        let mut places = vec![Place::Asked];
        places.extend(Table::ALL.into_iter().flat_map(Place::of_table));
        places.push(Place::Booked);
        places
    }

    fn of_table(table: Table) -> impl Iterator<Item = Place> {
        let has_a_day = |rule| matches!(rule, Rule::FirstDay | Rule::LastDay);
        let rows = table.rows().iter().filter(move |row| has_a_day(row.rule));
        rows.map(move |row| Place::Recorded {
            table,
            field: row.field,
        })
    }

    fn can_hold(self, year: u64) -> bool {
        !matches!(self, Place::Recorded { .. }) || year <= LAST_YEAR_OF_EIGHT_DIGITS
    }

    fn ask(self, bench: &mut Bench, day: u64) -> io::Result<Answer> {
        let (call, bundle, book) = match self {
            Place::Asked => (Call::fare(&question_on(day)), vec![], vec![]),
            Place::Recorded { table, field } => (
                Call::of(Name::Verdict),
                bundle_with(table, field, day),
                vec![],
            ),
            Place::Booked => (Call::of(Name::Count), vec![], book_with(day)),
        };
        let compared = bench.ask_unnoted(&call, &Lent::of(&bundle, &book), &[])?;
        Ok(compared.second)
    }

    /// None where the answer is about something else. A good question finds no conditions in the empty bundle.
    fn judgement(self, answer: &Answer) -> Option<bool> {
        match (self, answer.number) {
            (Place::Asked, 12) | (Place::Recorded { .. } | Place::Booked, 0) => Some(true),
            (Place::Asked, 11) | (Place::Booked, 21) => Some(false),
            (Place::Recorded { field, .. }, 4) if answer.detail == u64::from(field) => Some(false),
            _ => None,
        }
    }

    fn sheets(self, count: u64) -> Vec<Sheet> {
        if count < FULL_RUN {
            return some_ends(count).into_iter().collect();
        }
        let ends_of_many_years = || Sheet::of_ends(years_of_each_remainder());
        match self {
            Place::Asked => vec![
                Sheet::of_each_month_and_day(),
                Sheet::of_each_year(),
                ends_of_many_years(),
            ],
            Place::Recorded {
                table: Table::Co, ..
            } => vec![Sheet::of_each_year(), ends_of_many_years()],
            _ => vec![Sheet::of_ends(noted_years())],
        }
    }
}

fn some_ends(count: u64) -> Option<Sheet> {
    let mut years = noted_years();
    years.truncate((count / CASES_PER_YEAR) as usize);
    (!years.is_empty()).then(|| Sheet::of_ends(years))
}

impl fmt::Display for Place {
    fn fmt(&self, out: &mut fmt::Formatter) -> fmt::Result {
        match self {
            Place::Asked => out.write_str("asked"),
            Place::Recorded { table, field } => write!(out, "{} {field}", table.mark()),
            Place::Booked => out.write_str("booked"),
        }
    }
}

/// After so many other cases.
pub fn run(bench: &mut Bench, count: u64) -> io::Result<()> {
    let sheets_of = |place: Place| {
        let of_place = move |sheet| (place, sheet);
        place.sheets(count).into_iter().map(of_place)
    };
    let sheets = Place::all().into_iter().flat_map(sheets_of);
    for (case, (place, sheet)) in (count..).zip(sheets) {
        bench.begin(case);
        for &year in sheet.years.iter().filter(|&&year| place.can_hold(year)) {
            let judged = judge_year(bench, place, year, &sheet)?;
            bench.coverage.note_year(place, year, &judged);
        }
        bench.end_case();
    }
    Ok(())
}

fn judge_year(bench: &mut Bench, place: Place, year: u64, sheet: &Sheet) -> io::Result<Judged> {
    let mut judged = Judged::new();
    for (month, day) in sheet.days_of_a_year() {
        let answer = place.ask(bench, join(year, month, day))?;
        if let Some(is_day) = place.judgement(&answer) {
            judged.insert((month, day), is_day);
        }
    }
    Ok(judged)
}

#[cfg(test)]
mod tests {
    use super::*;
    use crate::calendar::{FIRST_DAY, LAST_DAY};

    fn lone_bench() -> Bench {
        Bench::new(1, &std::env::temp_dir().join("second-dates"), None).unwrap()
    }

    #[test]
    fn a_day_stands_in_ten_places() {
        let words: Vec<String> = Place::all().iter().map(Place::to_string).collect();
        let due = "asked, CO 42, CO 44, RE 9, RE 11, AR 11, AR 13, ME 9, ME 11, booked";
        assert_eq!(words.join(", "), due);
    }

    #[test]
    fn in_each_place_the_day_decides() {
        let mut bench = lone_bench();
        let mut judgement = |place: Place, day| {
            let answer = place.ask(&mut bench, day).unwrap();
            place.judgement(&answer)
        };
        for place in Place::all() {
            for day in [FIRST_DAY, 20_240_229, 20_230_228, LAST_DAY] {
                assert_eq!(judgement(place, day), Some(true), "{place}, {day}");
            }
            for day in [0, 15_821_231, 20_230_229, 20_241_301, 20_240_100] {
                assert_eq!(judgement(place, day), Some(false), "{place}, {day}");
            }
        }
    }

    #[test]
    fn another_refusal_is_no_judgement() {
        let refused = |number, detail| Answer {
            number,
            detail,
            ..Answer::default()
        };
        let first_day = Place::Recorded {
            table: Table::Co,
            field: 42,
        };
        assert_eq!(first_day.judgement(&refused(4, 42)), Some(false));
        assert_eq!(first_day.judgement(&refused(4, 44)), None);
        assert_eq!(first_day.judgement(&refused(7, 3)), None);
        assert_eq!(Place::Asked.judgement(&refused(0, 0)), None);
        assert_eq!(Place::Booked.judgement(&refused(25, 0)), None);
    }

    #[test]
    fn a_short_run_judges_few_years() {
        assert!(Place::Asked.sheets(CASES_PER_YEAR - 1).is_empty());
        let years = |count| Place::Asked.sheets(count)[0].years.len();
        assert_eq!((years(CASES_PER_YEAR), years(500)), (1, 4));
    }

    #[test]
    fn every_month_is_met_in_every_place() {
        for count in [500, FULL_RUN] {
            let mut bench = lone_bench();
            run(&mut bench, count).unwrap();
            let gaps = bench.coverage.gaps();
            let months: Vec<&String> = gaps.iter().filter(|gap| gap.contains("month")).collect();
            assert_eq!(months, Vec::<&String>::new(), "{count}");
            assert_eq!(bench.failed, 0);
        }
    }
}
