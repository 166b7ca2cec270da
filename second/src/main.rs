//! Renders "The verdict program", writes corpora of bundles, and holds the built library to the second program.

use std::fs;
use std::io::{self, Read, Write};
use std::path::Path;
use std::process::ExitCode;

use second::against;
use second::generate::corpus::{Corpus, Coverage, FULL_CORPUS};
use second::program::{library_line, line, program_line};
use second::verdict::verdict;

const USAGE: &str = "usage: second verdict | second program | second bundles SEED COUNT DIR
  | second against SEED COUNT DIR -- DRIVER.. | second alone SEED COUNT DIR | second replay FILE -- DRIVER..";

fn main() -> ExitCode {
    let arguments: Vec<String> = std::env::args().skip(1).collect();
    let words: Vec<&str> = arguments.iter().map(String::as_str).collect();
    match words[..] {
        ["verdict"] => say(&library_line(&standard_input())),
        ["program"] => say(&program_line(&standard_input())),
        ["bundles", seed, count, folder] => match (seed.parse(), count.parse()) {
            (Ok(seed), Ok(count)) => bundles(seed, count, Path::new(folder)),
            _ => fail(USAGE),
        },
        ["against", seed, count, folder, "--", ..] => match (seed.parse(), count.parse()) {
            (Ok(seed), Ok(count)) => against(seed, count, Path::new(folder), Some(&arguments[5..])),
            _ => fail(USAGE),
        },
        ["alone", seed, count, folder] => match (seed.parse(), count.parse()) {
            (Ok(seed), Ok(count)) => against(seed, count, Path::new(folder), None),
            _ => fail(USAGE),
        },
        ["replay", file, "--", ..] => replay(Path::new(file), &arguments[3..]),
        _ => fail(USAGE),
    }
}

/// After a read error, what came before it is the input.
fn standard_input() -> Vec<u8> {
    let mut input = Vec::new();
    let _ = io::stdin().lock().read_to_end(&mut input);
    input
}

fn say(line: &str) -> ExitCode {
    match writeln!(io::stdout(), "{line}") {
        Ok(()) => ExitCode::SUCCESS,
        Err(_) => ExitCode::FAILURE,
    }
}

fn fail(message: &str) -> ExitCode {
    let _ = writeln!(io::stderr(), "{message}");
    ExitCode::FAILURE
}

fn against(seed: u64, count: u64, folder: &Path, driver: Option<&[String]>) -> ExitCode {
    let outcome = match against::run(seed, count, folder, driver) {
        Ok(outcome) => outcome,
        Err(error) => return fail(&error.to_string()),
    };
    let (passed, failed) = (outcome.passed, outcome.failed);
    let said = say(&format!(
        "{}{} calls\n{passed} passed, {failed} failed",
        outcome.table, outcome.calls
    ));
    if failed > 0 {
        return ExitCode::FAILURE;
    }
    said
}

fn replay(file: &Path, driver: &[String]) -> ExitCode {
    let (text, agree) = match against::replay(file, driver) {
        Ok(told) => told,
        Err(error) => return fail(&format!("{}: {error}", file.display())),
    };
    let said = say(text.trim_end());
    if agree {
        said
    } else {
        ExitCode::FAILURE
    }
}

fn bundles(seed: u64, count: u64, folder: &Path) -> ExitCode {
    match write_corpus(seed, count, folder) {
        Ok(coverage) => judge_coverage(&coverage, count),
        Err(error) => fail(&format!("{}: {error}", folder.display())),
    }
}

fn write_corpus(seed: u64, count: u64, folder: &Path) -> io::Result<Coverage> {
    fs::create_dir_all(folder)?;
    let corpus = Corpus::of_seed(seed);
    let mut coverage = Coverage::default();
    let mut expected = String::new();
    for index in 0..count {
        let bundle = corpus.bundle(index);
        let answer = verdict(&bundle);
        coverage.note(&bundle, &answer);
        expected.push_str(&line(&answer));
        expected.push('\n');
        fs::write(folder.join(format!("{index:05}.bin")), &bundle)?;
    }
    fs::write(folder.join("expected"), expected)?;
    Ok(coverage)
}

fn judge_coverage(coverage: &Coverage, count: u64) -> ExitCode {
    let gaps = coverage.gaps();
    let report = coverage.report();
    if count < FULL_CORPUS || gaps.is_empty() {
        return say(report.trim_end());
    }
    say(report.trim_end());
    fail(&format!("never reached: {}", gaps.join(", ")))
}
