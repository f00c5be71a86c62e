//! The table, as it goes into docs/BENCHMARKS.md.

use crate::measure::Times;
use data::Bench;

pub struct Row {
    pub bench: Bench,
    pub times: Times,
}

const HEAD: &str = "\
| call | amounts | clock | port | handler | ratio | with accounts | ratio | bare core | ratio |
|---|---|---|---:|---:|---:|---:|---:|---:|---:|
";

/// Each ratio is the port's time to the one before it.
pub fn markdown(rows: &[Row]) -> String {
    let mut table = HEAD.to_string();
    for Row { bench, times } in rows {
        let beside = [times.handler, times.with_accounts, times.core];
        let beside = beside.map(|time| {
            time.map_or("– | –".into(), |time| format!("{time:.1} | {:.2}", times.port / time))
        });
        table += &format!(
            "| `{}` | {} | {} | {:.1} | {} |\n",
            bench.name(),
            bench.amounts.name(),
            bench.clocks.name(),
            times.port,
            beside.join(" | ")
        );
    }
    table
}
