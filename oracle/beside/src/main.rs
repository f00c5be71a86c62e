//! The original beside the rules: `oracle/run` says how to call it.

use beside::{bounds, compare, differences, driver, edges, generator, late, sample, sheet};
use std::io::{self, BufWriter, Write};
use std::process::ExitCode;

const USAGE: &str = "edges | bounds | driver | generate SEED COUNT | generate small | compare SEED COUNT | \
                     compare small | late | differences | sheet | sample FOLDER";

fn main() -> ExitCode {
    let words: Vec<String> = std::env::args().skip(1).collect();
    let words: Vec<&str> = words.iter().map(String::as_str).collect();
    match words[..] {
        ["edges"] => passed(edges::all()),
        ["bounds"] => passed(bounds::all()),
        ["differences"] => passed(differences::all()),
        ["late"] => passed(late::all()),
        ["sheet"] => ended(sheet::answer()),
        ["driver"] => ended(driver::drive()),
        ["sample", folder] => ended(sample::write(folder.as_ref())),
        ["generate", "small"] => ended(write_cases(generator::small::cases())),
        ["generate", seed, count] => {
            with_numbers(seed, count, |seed, count| ended(write_cases(generator::cases(seed, count))))
        }
        ["compare", "small"] => passed(compare::all_small()),
        ["compare", seed, count] => {
            with_numbers(seed, count, |seed, count| passed(compare::seeded(seed, count)))
        }
        _ => usage(),
    }
}

fn write_cases(cases: impl Iterator<Item = record::Case>) -> io::Result<()> {
    let mut out = BufWriter::new(io::stdout().lock());
    for case in cases {
        writeln!(out, "{}", case.line())?;
    }
    out.flush()
}

fn with_numbers(seed: &str, count: &str, act: impl FnOnce(u64, u64) -> ExitCode) -> ExitCode {
    match (seed.parse(), count.parse()) {
        (Ok(seed), Ok(count)) => act(seed, count),
        _ => usage(),
    }
}

fn usage() -> ExitCode {
    eprintln!("usage: {USAGE}");
    ExitCode::from(2)
}

fn passed(passed: bool) -> ExitCode {
    if passed {
        ExitCode::SUCCESS
    } else {
        ExitCode::FAILURE
    }
}

/// A reader that stops early, such as `head`, is no failure.
fn ended(result: io::Result<()>) -> ExitCode {
    match result {
        Err(error) if error.kind() != io::ErrorKind::BrokenPipe => {
            eprintln!("{error}");
            ExitCode::FAILURE
        }
        _ => ExitCode::SUCCESS,
    }
}
