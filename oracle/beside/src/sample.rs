//! The fixed sample: cases of every kind, every refusal and every class of difference, with
//! the answers that a replay must give. The same seed writes the same bytes.

use crate::generator::alone::ring_at_nets;
use crate::generator::{divisions, registers, small, Generator};
use crate::random::Random;
use crate::shrink::shrunk;
use crate::verdict::{verdict, Side, Verdict};
use crate::{bounds, differences, edges, late};
use record::{entry_at, Answer, Case, POOL_LENGTH, RECEIPT_LENGTH, RING_ENTRIES};
use std::collections::{BTreeMap, HashSet};
use std::fs::File;
use std::io::{self, BufWriter, Write};
use std::path::Path;

const SEED: u64 = 1;
const SCANNED: usize = 400_000;
const RINGS_SCANNED: usize = 4_000;
const DIVISIONS_SCANNED: usize = 4_000;
const REGISTERS_SCANNED: usize = 20_000;
/// One in so many small cases. New ones go behind the others, whose rows then stay as they are.
const SMALL_ONE_IN: usize = 4_076;
/// One in so many of those that take a register and have a row.
const SMALL_REGISTER_ONE_IN: usize = 997;
/// As many entries as a row has columns for.
const ROW_ENTRIES: usize = 2;

/// Writes `cases.txt` into the folder and prints what it holds.
pub fn write(folder: &Path) -> io::Result<()> {
    let mut sample = Sample::default();
    let chosen = [edges::cases(), late::cases(), bounds::cases(), differences::cases()];
    chosen.into_iter().flatten().filter(|case| !takes_list(case)).for_each(|case| sample.keep(case));
    small::cases().step_by(SMALL_ONE_IN).filter(|case| !takes_list(case)).for_each(|case| sample.keep(case));
    sample.fill_from(Generator::new(SEED).take(SCANNED));
    let mut random = Random::new(SEED);
    sample.fill_from((0..RINGS_SCANNED).map(|_| ring_at_nets(&mut random)));
    sample.fill_from(divisions(SEED).take(DIVISIONS_SCANNED));
    let chosen = [edges::cases(), bounds::register_cases(), differences::cases()];
    chosen.into_iter().flatten().filter(fits_row).for_each(|case| sample.keep(case));
    let small = small::cases().filter(takes_list).filter(fits_row).step_by(SMALL_REGISTER_ONE_IN);
    small.for_each(|case| sample.keep(case));
    sample.fill_from(registers::cases(SEED).take(REGISTERS_SCANNED).filter(fits_row));
    // Behind the others, whose rows and altered ones then stay as they are.
    edges::slice_cases().into_iter().for_each(|case| sample.keep(case));
    sample.save(&folder.join("cases.txt"))?;
    sample.print_contents();
    Ok(())
}

fn takes_list(case: &Case) -> bool {
    case.form().takes_list()
}

/// Whether a row has columns for its list: whole entries, and few.
fn fits_row(case: &Case) -> bool {
    case.register().is_some_and(|(_, list)| list.len() % 2 == 0 && list.len() <= 2 * ROW_ENTRIES)
}

/// A case with its answer, as the replay's columns.
struct Row {
    kind: u64,
    side: u64,
    given: Vec<u64>,
    answer: Vec<u64>,
}

const ALTERED: u64 = 3;

#[derive(Default)]
struct Sample {
    /// By kind, in the order in which they were kept.
    rows: BTreeMap<u64, Vec<Row>>,
    seen: HashSet<String>,
    contents: BTreeMap<(u64, u64), u64>,
}

impl Sample {
    fn keep(&mut self, case: Case) {
        let verdict = verdict(&case);
        self.keep_answered(&case, &verdict);
    }

    fn keep_answered(&mut self, case: &Case, verdict: &Verdict) {
        let side = match verdict.side {
            Side::Both => 1,
            Side::DocumentAlone | Side::Left => 2,
            Side::Unlisted => panic!("a difference of no class: {}", case.line()),
        };
        if is_replayed(case.kind, verdict.document.number) && self.seen.insert(case.line()) {
            self.rows.entry(case.kind).or_default().push(row(case, &verdict.document, side));
            *self.contents.entry((case.kind, verdict.document.number)).or_default() += 1;
        }
    }

    /// Takes so many of each kind, number and class, and each class once more as small as
    /// it can be made.
    fn fill_from(&mut self, cases: impl Iterator<Item = Case>) {
        let mut taken: BTreeMap<(u64, u64, String), u64> = BTreeMap::new();
        for case in cases {
            let verdict = verdict(&case);
            let key = (case.kind, verdict.document.number, verdict.class.clone());
            let count = taken.entry(key).or_default();
            if *count == 0 && !verdict.class.is_empty() {
                self.keep(shrunk(&case, &verdict.class));
            }
            if *count < quota(case.kind, &verdict) {
                *count += 1;
                self.keep_answered(&case, &verdict);
            }
        }
    }

    /// Behind the rows of each kind stand its altered ones.
    fn save(&self, path: &Path) -> io::Result<()> {
        let mut out = BufWriter::new(File::create(path)?);
        for rows in self.rows.values() {
            for row in rows.iter().chain(&altered(rows)) {
                writeln!(out, "{}", row.line())?;
            }
        }
        out.flush()
    }

    fn print_contents(&self) {
        for (kind, rows) in &self.rows {
            let of_kind = self.contents.range((*kind, 0)..(kind + 1, 0));
            let counts: Vec<String> =
                of_kind.map(|((_, number), count)| format!("{number}: {count}")).collect();
            let name = record::form(*kind).map_or("", |form| form.name);
            println!("{kind:2} {name:32} {}; altered: {}", counts.join(", "), altered(rows).len());
        }
        println!("{} rows", self.seen.len());
    }
}

/// Whether the pool has a function that answers such a row by itself: directions and fee models out
/// of range are the swaps' to refuse.
fn is_replayed(kind: u64, number: u64) -> bool {
    match kind {
        17 | 23 | 30 | 35 => false,
        33 | 34 => number != 5 && number != 9,
        _ => true,
    }
}

/// Calls but an opening have four arguments, pool and entry; fees, charges and the curve three
/// arguments; nets and prices a whole pool.
fn row(case: &Case, document: &Answer, side: u64) -> Row {
    let mut given = case.columns.clone();
    let mut answer = vec![document.number];
    answer.extend(&document.values);
    match case.kind {
        1 => answer.push(0),
        2..=7 => {
            let state = case.state();
            let entry = entry_at(&state.ring, state.pool.head.index);
            given = case.arguments().to_vec();
            given.resize(4, 0);
            given.extend(state.pool.words());
            given.extend(entry);
            // A call that is not lent the ring leaves its entry.
            let pool_end = RECEIPT_LENGTH + POOL_LENGTH;
            answer.truncate(1 + pool_end);
            answer.extend(if case.kind < 4 { &document.values[pool_end..] } else { &entry });
        }
        40.. => return registered_row(case, document, side),
        10..=21 => given.resize(3, 0),
        31 | 32 => given.resize(POOL_LENGTH, 0),
        _ => {}
    }
    Row { kind: case.kind, side, given, answer }
}

/// Two entries, of which the row says how many there are; the others are zeros. Behind its answer a call has
/// the holder's balance in the list that it leaves, 0 where that is no register, and that list.
fn registered_row(case: &Case, document: &Answer, side: u64) -> Row {
    let (holder, list) = case.register().expect("the row is of a register");
    let filled = |list: &[u64]| {
        let mut list = list.to_vec();
        list.resize(2 * ROW_ENTRIES, 0);
        list
    };
    let entries = list.len() as u64 / 2;
    let after = case.list_after(document);
    let balance = model::register::balance(after, holder).unwrap_or(0);
    let call = &document.values[..document.values.len() - after.len()];
    let given = &case.columns[..case.columns.len() - list.len() - 1];
    let lent = filled(list);
    let given = match case.kind {
        44 | 45 => [&given[POOL_LENGTH..], &[entries], &given[..POOL_LENGTH], &[holder], &lent].concat(),
        _ => [given, &[entries, holder], &lent].concat(),
    };
    let mut answer = [&[document.number], call].concat();
    if case.kind == 41 {
        answer.push(0);
    }
    if case.form().is_registered_call() {
        answer.push(balance);
        answer.extend(filled(after));
    }
    Row { kind: case.kind, side, given, answer }
}

/// For each column of a kind's answer an accepted row and a refused one with that column altered: no
/// replay may agree with one.
fn altered(rows: &[Row]) -> Vec<Row> {
    let in_ring = rows.iter().filter(|row| row.ring_index() < RING_ENTRIES as u64);
    let (accepted, refused): (Vec<&Row>, Vec<&Row>) = in_ring.partition(|row| row.answer[0] == 0);
    [accepted, refused].iter().flat_map(|rows| altered_columns(rows)).collect()
}

fn altered_columns(rows: &[&Row]) -> Vec<Row> {
    let columns = 0..rows.first().map_or(0, |row| row.answer.len());
    let with_altered = |column: usize| {
        let Row { kind, given, answer, .. } = rows[column % rows.len()];
        let mut answer = answer.clone();
        answer[column] ^= 1;
        Row { kind: *kind, side: ALTERED, given: given.clone(), answer }
    };
    columns.map(with_altered).collect()
}

impl Row {
    /// The index that the answer gives, past which there is no entry to compare.
    fn ring_index(&self) -> u64 {
        match self.kind {
            2..=7 => self.answer[1 + RECEIPT_LENGTH + 19],
            36 => self.answer[2],
            _ => 0,
        }
    }

    fn line(&self) -> String {
        let words = [self.kind, self.side].into_iter().chain(self.given.iter().chain(&self.answer).copied());
        words.map(|word| word.to_string()).collect::<Vec<_>>().join(" ")
    }
}

/// How many of a kind, a number and a class are taken.
fn quota(kind: u64, verdict: &Verdict) -> u64 {
    match (kind, verdict.document.number) {
        (2 | 3, 0) if verdict.side == Side::Left => 100,
        (2 | 3, 0) => 300,
        (4 | 5, 0) => 120,
        (1 | 6 | 7, 0) => 50,
        (2..=5, _) => 16,
        (44 | 45, 0) => 24,
        (40 | 41, 0) => 12,
        (40.., _) => 4,
        (24, 0) => 300,
        (36, 0) => 150,
        (10.., 0) => 60,
        _ => 12,
    }
}
