//! One call a line, answered by the original.

use record::{call_answer, Call, Case, Grid, State};
use runner::{Cause, Change, Outcome, Run};
use std::io::{self, BufRead, BufWriter, Write};

/// Reads lines until the input ends. A `#` starts a remark.
pub fn drive() -> io::Result<()> {
    let mut out = BufWriter::new(io::stdout().lock());
    let mut state = model::empty();
    for line in io::stdin().lock().lines() {
        let line = line?;
        let words = line.split('#').next().unwrap_or_default().trim();
        if !words.is_empty() {
            writeln!(out, "{}", reply(words, &mut state))?;
        }
    }
    out.flush()
}

/// A call by hand leaves its state too; `+` goes on from the state that is left.
fn reply(words: &str, state: &mut State) -> String {
    if let Some(rest) = words.strip_prefix('+') {
        return on_left_state(rest.trim(), state);
    }
    let Some(case) = Case::read(words) else {
        return unreadable(words);
    };
    match case.call() {
        Some(call) => {
            let before = case.state();
            call_reply(before, &call, state)
        }
        None => alone_reply(runner::answer(&case)),
    }
}

fn on_left_state(words: &str, state: &mut State) -> String {
    let numbers: Option<Vec<u64>> = words.split(' ').map(|word| word.parse().ok()).collect();
    let call = numbers.and_then(|numbers| {
        let (kind, arguments) = numbers.split_first()?;
        Call::from_words(*kind, arguments)
    });
    match call {
        Some(call) => call_reply(state.clone(), &call, state),
        None => unreadable(words),
    }
}

fn call_reply(before: State, call: &Call, state: &mut State) -> String {
    match runner::run(&before, call) {
        Err(reason) => {
            *state = before;
            format!("- # not in the Rust: {reason}")
        }
        Ok(run) => {
            *state = run.state.clone();
            let answer = call_answer(call.kind(), run.number, &run.receipt, &run.state);
            format!("{} # {}", answer.line(), remarks(&before, call, &run))
        }
    }
}

fn remarks(before: &State, call: &Call, run: &Run) -> String {
    let mut remarks = vec![cause(&run.cause)];
    let swap = matches!(call, Call::SwapByInput(_) | Call::SwapByOutput(_));
    if swap && model::calls::rate_limits(&before.pool.rates).is_err() {
        remarks.push("rate limits are not in the Rust".into());
    }
    if before.pool.bears_charges() {
        remarks.push("its tokens bear no charges".into());
    }
    if swap && before.pool.grid != Grid::DEFAULT {
        remarks.push("its spacing is 15 and its length 100".into());
    }
    if run.number != 0 {
        remarks.push(booked(&run.booked));
    } else if matches!(call, Call::Settlement { .. }) {
        remarks.push("paying out is not in the Rust: its vaults stay".into());
    }
    remarks.join("; ")
}

fn alone_reply(outcome: Outcome) -> String {
    match outcome {
        Outcome::Absent(reason) => format!("- # not in the Rust: {reason}"),
        Outcome::Wide(results) => format!("- # past u64: {results:?}"),
        Outcome::Answered { answer, booked: changes, cause: from } if answer.number != 0 => {
            format!("{} # {}; {}", answer.line(), cause(&from), booked(&changes))
        }
        Outcome::Answered { answer, .. } => format!("{} # accepted", answer.line()),
    }
}

fn cause(cause: &Cause) -> String {
    match cause {
        Cause::None => "accepted".into(),
        Cause::Check => "refused by a check".into(),
        Cause::Panic(place) => format!("panic at {place}"),
        Cause::StandIn => "refused by the stand-in for the token program".into(),
    }
}

fn booked(changes: &[Change]) -> String {
    if changes.is_empty() {
        return "nothing was changed before".into();
    }
    let changes: Vec<String> = changes.iter().map(change).collect();
    format!("rolled back: {}", changes.join(", "))
}

pub fn change(change: &Change) -> String {
    format!("{} {} -> {}", change.column, change.before, change.after)
}

fn unreadable(words: &str) -> String {
    format!("- # no such line: {words}")
}
