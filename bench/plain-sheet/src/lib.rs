//! The day sheet of document 01 with the standard library and u128, for the benchmark: what the
//! port's sheet is measured against.

mod pool;
mod ring;
mod row;
mod swap;

use pool::{Amounts, Pool, Rates};
use row::Row;
use std::io::{self, BufRead, Write};

pub const UNREADABLE: u64 = 12;

/// Answers each row of the input.
pub fn run(mut input: impl BufRead, mut output: impl Write) -> io::Result<()> {
    let mut sheet = Sheet::default();
    let mut line = Vec::new();
    loop {
        line.clear();
        if input.read_until(b'\n', &mut line)? == 0 {
            return output.flush();
        }
        let (number, [first, second]) = match sheet.perform(line.strip_suffix(b"\n").unwrap_or(&line)) {
            Ok(amounts) => (0, amounts),
            Err(number) => (number, [0, 0]),
        };
        let [net_0, net_1] = sheet.pool.nets().unwrap_or_default();
        let supply = sheet.pool.supply;
        writeln!(output, "{number:>2}{first:>20}{second:>20}{net_0:>20}{net_1:>20}{supply:>20}")?;
    }
}

#[derive(Default)]
struct Sheet {
    rates: Rates,
    pool: Pool,
}

impl Sheet {
    fn perform(&mut self, line: &[u8]) -> Amounts {
        let Row { kind, numbers } = row::read(line).ok_or(UNREADABLE)?;
        match (kind, numbers) {
            (0, [trade, protocol, fund, creator, share]) => {
                let rates = Rates { trade, protocol, fund, creator, share };
                rates.check()?;
                self.rates = rates;
                Ok([0, 0])
            }
            (1, [amount_0, amount_1, model, enabled, open_time]) => {
                self.pool = Pool::open([amount_0, amount_1], model, enabled, open_time, self.rates)?;
                Ok([0, 0])
            }
            (2, [direction, amount, minimum, clock, 0]) => {
                self.pool.swap_by_input(direction, amount, minimum, clock)
            }
            (3, [direction, amount, maximum, clock, 0]) => {
                self.pool.swap_by_output(direction, amount, maximum, clock)
            }
            (4, [lp, maximum_0, maximum_1, 0, 0]) => self.pool.deposit(lp, [maximum_0, maximum_1]),
            (5, [lp, owned, minimum_0, minimum_1, 0]) => {
                self.pool.withdraw(lp, owned, [minimum_0, minimum_1])
            }
            (6, [0, 0, 0, 0, 0]) => self.pool.settle(),
            (7, [bit, flag, 0, 0, 0]) => self.pool.set_status(bit, flag),
            _ => Err(UNREADABLE),
        }
    }
}
