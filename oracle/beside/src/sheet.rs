//! Document 01's day sheet, answered by the model: rows from standard input, answers to standard
//! output.

use model::calls::rate_limits;
use record::{Call, Grid, Rates, Receipt, State};
use std::io::{self, Read, Write};

const ROW: usize = 102;
const UNREADABLE: u64 = 12;
const INVALID_INPUT: u64 = 3;
/// How many of a row's five numbers each kind uses; the others are 0.
const USED: [usize; 8] = [5, 5, 4, 4, 3, 4, 0, 2];

pub fn answer() -> io::Result<()> {
    let mut bytes = vec![];
    io::stdin().lock().read_to_end(&mut bytes)?;
    io::stdout().lock().write_all(answers(&bytes).as_bytes())
}

/// A row ends at a newline, or at the end of the input where bytes follow the last newline.
fn answers(bytes: &[u8]) -> String {
    let mut sheet = Sheet { rates: Rates::default(), state: model::empty() };
    let ended = bytes.strip_suffix(b"\n").unwrap_or(bytes);
    if bytes.is_empty() {
        return String::new();
    }
    ended.split(|byte| *byte == b'\n').map(|row| sheet.answer(row)).collect()
}

struct Sheet {
    /// For every opening up to the next accepted row of kind 0.
    rates: Rates,
    state: State,
}

impl Sheet {
    fn answer(&mut self, row: &[u8]) -> String {
        let (number, [first, second]) = match read(row) {
            Some((kind, numbers)) => self.turn(kind, &numbers),
            None => (UNREADABLE, [0, 0]),
        };
        let pool = &self.state.pool;
        let net = |t: usize| pool.vaults[t] - pool.protocol[t] - pool.fund[t] - pool.creator[t];
        format!("{number:2}{first:20}{second:20}{:20}{:20}{:20}\n", net(0), net(1), pool.supply)
    }

    fn turn(&mut self, kind: u64, numbers: &[u64]) -> (u64, [u64; 2]) {
        if kind == 0 {
            return (self.keep_rates(numbers), [0, 0]);
        }
        let Rates { trade, protocol, fund, creator, share } = self.rates;
        let mut words = numbers[..USED[kind as usize]].to_vec();
        match kind {
            // The sheet's tokens are not charged, and its rings have spacing 15 and length 100.
            1 => {
                words.extend([trade, protocol, fund, creator, share, 0, 0, 0, 0]);
                words.extend(Grid::DEFAULT.words());
            }
            6 => words.push(self.state.pool.rates.share),
            _ => {}
        }
        let call = Call::from_words(kind, &words).expect("each kind has its arguments");
        let after = model::run(&self.state, &call);
        if after.number == 0 {
            self.state = after.state;
        }
        (after.number, amounts(kind, &after.receipt))
    }

    fn keep_rates(&mut self, numbers: &[u64]) -> u64 {
        let rates = Rates {
            trade: numbers[0],
            protocol: numbers[1],
            fund: numbers[2],
            creator: numbers[3],
            share: numbers[4],
        };
        if rate_limits(&rates).is_err() || rates.share > 1_000_000 {
            return INVALID_INPUT;
        }
        self.rates = rates;
        0
    }
}

/// A swap's input and output; tokens 0 and 1 of a deposit, withdrawal or settlement; else 0.
fn amounts(kind: u64, receipt: &Receipt) -> [u64; 2] {
    let Receipt { paid_in, paid_out, .. } = receipt;
    match kind {
        2 | 3 => [paid_in[0] + paid_in[1], paid_out[0] + paid_out[1]],
        4 => *paid_in,
        5 | 6 => *paid_out,
        _ => [0, 0],
    }
}

/// The kind and the five numbers; none where the row can't be read.
fn read(row: &[u8]) -> Option<(u64, Vec<u64>)> {
    if row.len() != ROW {
        return None;
    }
    let kind = column(&row[..2])?;
    let numbers: Option<Vec<u64>> = row[2..].chunks(20).map(column).collect();
    let numbers = numbers?;
    let used = *USED.get(usize::try_from(kind).ok()?)?;
    numbers[used..].iter().all(|spare| *spare == 0).then_some((kind, numbers))
}

/// Decimal, right-justified, at least one digit, blanks before, no zero before a digit, at most 2^64 - 1.
fn column(bytes: &[u8]) -> Option<u64> {
    let digits = std::str::from_utf8(bytes).ok()?.trim_start_matches(' ');
    let plain = digits.bytes().all(|byte| byte.is_ascii_digit());
    let leading = digits.len() > 1 && digits.starts_with('0');
    (plain && !leading).then(|| digits.parse().ok()).flatten()
}
