//! Two programs on the same fresh day sheet: the port's and the plain one. Prints the table;
//! `bench/run` calls it.

mod rows;

use std::fs::{self, File};
use std::io::{self, BufWriter};
use std::path::{Path, PathBuf};
use std::process::{Command, ExitCode, Stdio};
use std::time::{Instant, SystemTime, UNIX_EPOCH};
use std::{env, process};

const USAGE: &str = "usage: sheet ROWS NAME=PROGRAM...";
const ROUNDS: usize = 5;

struct Program {
    name: String,
    path: PathBuf,
    seconds: Vec<f64>,
}

fn main() -> ExitCode {
    let words: Vec<String> = env::args().skip(1).collect();
    let arguments = words.split_first().and_then(|(rows, programs)| {
        let programs: Option<Vec<Program>> = programs.iter().map(|word| program(word)).collect();
        Some((rows.parse().ok()?, programs?))
    });
    let Some((rows, programs)) = arguments else {
        eprintln!("{USAGE}");
        return ExitCode::from(2);
    };
    let folder = env::temp_dir().join(format!("day-sheet-{}", process::id()));
    let result = fs::create_dir_all(&folder).and_then(|()| compared(&folder, rows, programs));
    let removed = fs::remove_dir_all(&folder);
    match result.and_then(|same| removed.map(|()| same)) {
        Ok(true) => ExitCode::SUCCESS,
        Ok(false) => {
            eprintln!("the programs' answers differ");
            ExitCode::FAILURE
        }
        Err(error) => {
            eprintln!("{error}");
            ExitCode::FAILURE
        }
    }
}

fn program(word: &str) -> Option<Program> {
    let (name, path) = word.split_once('=')?;
    Some(Program { name: name.into(), path: path.into(), seconds: Vec::new() })
}

/// Runs the programs in turn; whether they all gave the same answers.
fn compared(folder: &Path, rows: u64, mut programs: Vec<Program>) -> io::Result<bool> {
    let input = folder.join("input");
    let seed = SystemTime::now().duration_since(UNIX_EPOCH).map_or(0, |since| since.as_nanos() as u64);
    rows::write(BufWriter::new(File::create(&input)?), seed, rows)?;
    for round in 0..ROUNDS {
        eprintln!("{rows} rows, round {} of {ROUNDS}", round + 1);
        for program in &mut programs {
            let seconds = program.run(&input, &folder.join(&program.name))?;
            program.seconds.push(seconds);
        }
    }
    print_table(&programs, rows);
    let answers: io::Result<Vec<Vec<u8>>> =
        programs.iter().map(|program| fs::read(folder.join(&program.name))).collect();
    Ok(answers?.windows(2).all(|pair| pair[0] == pair[1]))
}

impl Program {
    fn run(&self, input: &Path, output: &Path) -> io::Result<f64> {
        let mut command = Command::new(&self.path);
        command.stdin(Stdio::from(File::open(input)?)).stdout(Stdio::from(File::create(output)?));
        let start = Instant::now();
        let status = command.status()?;
        let seconds = start.elapsed().as_secs_f64();
        if status.success() {
            Ok(seconds)
        } else {
            Err(io::Error::other(format!("{} ended with {status}", self.path.display())))
        }
    }

    fn rows_a_second(&self, rows: u64) -> f64 {
        let mut seconds = self.seconds.clone();
        seconds.sort_by(f64::total_cmp);
        rows as f64 / seconds[seconds.len() / 2]
    }
}

/// Each program beside the last.
fn print_table(programs: &[Program], rows: u64) {
    let last = programs.last().map_or(1.0, |program| program.rows_a_second(rows));
    println!("| program | million rows a second | times the plain program |\n|---|---:|---:|");
    for program in programs {
        let speed = program.rows_a_second(rows);
        println!("| {} | {:.2} | {:.2} |", program.name, speed / 1e6, speed / last);
    }
}
