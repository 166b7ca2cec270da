//! Renders no section: the built library, asked through its driver, held against the second program.

mod cases;
mod coverage;
mod dates;
mod driver;
mod histories;
mod saved;
mod second;
mod tally;
mod wire;

use std::fs;
use std::io;
use std::path::{Path, PathBuf};

use cases::Cases;
use coverage::Coverage;
use driver::{apply, Driver};
use wire::{Answer, Call, Lent, Reply};

/// From this many cases on, a run must reach everything.
pub const FULL_RUN: u64 = 3000;
const MOST_SAVED: u64 = 100;

/// What a run comes to.
pub struct Outcome {
    pub passed: u64,
    pub failed: u64,
    pub table: String,
    pub calls: u64,
}

/// Without a driver the second program stands in for the library: then only its books are held, to their histories.
pub fn run(seed: u64, count: u64, folder: &Path, driver: Option<&[String]>) -> io::Result<Outcome> {
    let mut bench = Bench::new(seed, folder, driver)?;
    let cases = Cases::of_seed(seed);
    for index in 0..count {
        bench.begin(index);
        cases.run(&mut bench, index)?;
        bench.end_case();
    }
    dates::run(&mut bench, count)?;
    if let Some(driver) = bench.driver.take() {
        driver.end()?;
    }
    let gaps = bench.coverage.gaps();
    let mut failed = bench.failed;
    if count >= FULL_RUN && !gaps.is_empty() {
        println!("FAILED: never reached: {}", gaps.join("; "));
        failed += 1;
    }
    Ok(Outcome {
        passed: bench.passed,
        failed,
        table: bench.coverage.table(),
        calls: bench.calls,
    })
}

/// Asks a saved request again and tells both answers, and whether they agree.
pub fn replay(file: &Path, driver: &[String]) -> io::Result<(String, bool)> {
    let request = wire::decode(&mut &fs::read(file)?[..])?;
    let mut driver = Driver::start(driver)?;
    let compared = compare(Some(&mut driver), &request.call, &request.lent())?;
    driver.end()?;
    let told = saved::text(&request.call, &request.lent(), &compared);
    Ok((told, compared.difference.is_none()))
}

/// What both sides say to one call.
pub struct Compared {
    pub library: Result<Reply, String>,
    pub second: Answer,
    pub book: Vec<u32>,
    pub difference: Option<String>,
}

/// Another reckoning of an answer, and what it comes to.
type Due = (&'static str, Answer);

impl Compared {
    fn of_second_alone(second: Answer, book: Vec<u32>) -> Compared {
        let reply = Reply {
            finding: 0,
            answer: second,
            changes: Vec::new(),
        };
        Compared {
            library: Ok(reply),
            second,
            book,
            difference: None,
        }
    }

    /// What the library tells, unless it ends.
    fn told(&self) -> Option<Answer> {
        self.library.as_ref().ok().map(|reply| reply.answer)
    }

    fn hold(&mut self, dues: &[Due]) {
        let told = self.told();
        let wrong = dues.iter().filter(|due| told != Some(due.1));
        let complaints = wrong.map(|(reckoning, due)| format!("{reckoning} comes to {due}"));
        let all: Vec<String> = self
            .difference
            .take()
            .into_iter()
            .chain(complaints)
            .collect();
        self.difference = (!all.is_empty()).then(|| all.join("; "));
    }
}

fn compare(driver: Option<&mut Driver>, call: &Call, lent: &Lent) -> io::Result<Compared> {
    let (second, book) = second::answer(call, lent);
    let Some(driver) = driver else {
        return Ok(Compared::of_second_alone(second, book));
    };
    let library = driver.ask(call, lent)?;
    let difference = difference(lent, &library, &second, &book);
    Ok(Compared {
        library,
        second,
        book,
        difference,
    })
}

fn difference(
    lent: &Lent,
    library: &Result<Reply, String>,
    second: &Answer,
    book: &[u32],
) -> Option<String> {
    let reply = match library {
        Ok(reply) => reply,
        Err(ended) => return Some(ended.clone()),
    };
    match reply.finding {
        0 => (),
        1 => return Some("the library answers otherwise at the other guard page".to_string()),
        2 => return Some("the library leaves another book at the other guard page".to_string()),
        _ => return Some("the library wrote beside a lent buffer".to_string()),
    }
    if reply.answer != *second {
        return Some("the answers differ".to_string());
    }
    let mut left = lent.book.to_vec();
    apply(&mut left, &reply.changes);
    (left != book).then(|| "the books differ".to_string())
}

/// Where cases ask their calls.
struct Bench {
    seed: u64,
    folder: PathBuf,
    driver: Option<Driver>,
    coverage: Coverage,
    case: u64,
    case_failed: bool,
    calls: u64,
    passed: u64,
    failed: u64,
    differences: u64,
}

impl Bench {
    fn new(seed: u64, folder: &Path, driver: Option<&[String]>) -> io::Result<Bench> {
        Ok(Bench {
            seed,
            folder: folder.to_path_buf(),
            driver: driver.map(Driver::start).transpose()?,
            coverage: Coverage::default(),
            case: 0,
            case_failed: false,
            calls: 0,
            passed: 0,
            failed: 0,
            differences: 0,
        })
    }

    fn begin(&mut self, case: u64) {
        self.case = case;
        self.case_failed = false;
    }

    fn end_case(&mut self) {
        if self.case_failed {
            self.failed += 1;
        } else {
            self.passed += 1;
        }
    }

    fn ask(&mut self, call: &Call, lent: &Lent) -> io::Result<()> {
        self.ask_held(call, lent, &[])?;
        Ok(())
    }

    /// Holds the library to other reckonings as well.
    fn ask_held(&mut self, call: &Call, lent: &Lent, dues: &[Due]) -> io::Result<Compared> {
        let compared = self.ask_unnoted(call, lent, dues)?;
        self.coverage.note(call, lent, &compared.second);
        Ok(compared)
    }

    /// What is met is for the caller to note.
    fn ask_unnoted(&mut self, call: &Call, lent: &Lent, dues: &[Due]) -> io::Result<Compared> {
        let mut compared = compare(self.driver.as_mut(), call, lent)?;
        compared.hold(dues);
        if compared.difference.is_some() {
            self.save(call, lent, &compared)?;
        }
        self.calls += 1;
        Ok(compared)
    }

    fn save(&mut self, call: &Call, lent: &Lent, compared: &Compared) -> io::Result<()> {
        self.case_failed = true;
        self.differences += 1;
        if self.differences > MOST_SAVED {
            return Ok(());
        }
        fs::create_dir_all(&self.folder)?;
        let name = format!("{}-{}-{}", self.seed, self.case, self.differences);
        let path = saved::save(&self.folder.join(name), call, lent, compared)?;
        let difference = compared.difference.as_deref().unwrap_or("no difference");
        println!(
            "FAILED case {}: {difference}: {}",
            self.case,
            path.display()
        );
        Ok(())
    }
}

#[cfg(test)]
mod tests {
    use super::*;
    use crate::refusal::Refusal;

    fn told(answer: Answer) -> Compared {
        Compared::of_second_alone(answer, Vec::new())
    }

    fn due(reckoning: &'static str, amount: u64) -> Due {
        (reckoning, Answer::of_value(amount))
    }

    #[test]
    fn an_amount_is_held_to_each_reckoning() {
        let mut compared = told(Answer::of_value(5));
        compared.hold(&[due("one", 5), due("two", 5)]);
        assert_eq!(compared.difference, None);
        compared.hold(&[due("one", 5), due("two", 6)]);
        compared.hold(&[due("three", 7)]);
        let complaints = compared.difference.as_deref();
        assert_eq!(complaints, Some("two comes to 6; three comes to 7"));
    }

    #[test]
    fn a_refusal_tells_no_amount() {
        let mut compared = told(Answer::of_refusal(&Refusal::of_call(21)));
        compared.hold(&[due("one", 0)]);
        assert_eq!(compared.difference.as_deref(), Some("one comes to 0"));
    }

    #[test]
    fn the_second_program_alone_keeps_to_the_histories() {
        let folder = std::env::temp_dir().join("second-alone");
        let outcome = run(1, 60, &folder, None).unwrap();
        assert_eq!((outcome.passed, outcome.failed), (60, 0));
        assert!(outcome.calls > 2000);
    }
}
