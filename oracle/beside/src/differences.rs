//! The rows of docs/DIFFERENCES.md, run: each with what the Rust does and what the rules answer.
//! Part G has what the Rust no longer decides, where it is asked nevertheless.

use crate::generator::registers::with;
use crate::left::LeftCounts;
use record::{Case, Grid, Left, State, POOL_COLUMNS};
use runner::{Cause, Outcome};

struct Row {
    /// As docs/DIFFERENCES.md counts it.
    row: &'static str,
    case: Case,
    rust: &'static str,
    port: u64,
    /// None where the Rust decides.
    left: Option<Left>,
    /// Some columns of the port's answer, and of the Rust's.
    shows: &'static [(&'static str, u64)],
    rust_shows: &'static [(&'static str, u64)],
    /// The list after a call with a register.
    list: &'static [u64],
}

const MOST: u64 = u64::MAX;
const HALF: u64 = 1 << 63;
/// What is printed of a case; only the list of one too many entries is longer.
const LONGEST_LINE: usize = 400;
const WORKED: [(&str, u64); 6] = [
    ("vault 0", 1_000_000),
    ("vault 1", 4_000_000),
    ("supply", 2_000_000),
    ("trade rate", 2500),
    ("protocol rate", 120_000),
    ("fund rate", 40_000),
];

/// Prints each row; whether both sides are as the page says.
pub fn all() -> bool {
    let rows = rows();
    let right = rows.iter().filter(|row| row.holds()).count();
    LeftCounts::of(rows.iter().map(|row| &row.case)).print();
    println!("{right} of {} rows as docs/DIFFERENCES.md says", rows.len());
    right == rows.len()
}

pub fn cases() -> Vec<Case> {
    rows().into_iter().map(|row| row.case).collect()
}

fn rows() -> Vec<Row> {
    [
        limits(),
        added(),
        full_vaults(),
        panics_of_swaps(),
        panics_of_counters(),
        panics_of_liquidity(),
        ring(),
        wide(),
        alone(),
        free_days(),
        closed_pools(),
        charged_swaps_in(),
        charged_swaps_out(),
        charged_liquidity(),
        charges(),
        locked(),
        refused_grids(),
        spacings(),
        lengths(),
        rings_alone(),
        opened_grids(),
        registers(),
        entries(),
    ]
    .into_iter()
    .flatten()
    .collect()
}

fn row(row: &'static str, case: Case, rust: &'static str, port: u64) -> Row {
    Row { row, case, rust, port, left: None, shows: &[], rust_shows: &[], list: &[] }
}

/// A call on a pool of zeros but for spacing 15, length 100 and these columns.
fn on(columns: &[(&str, u64)], kind: u64, arguments: &[u64]) -> Case {
    let mut words = record::Pool { grid: Grid::DEFAULT, ..record::Pool::default() }.words();
    for (name, value) in columns {
        let at = POOL_COLUMNS.iter().position(|column| column == name).expect("the pool has this column");
        words[at] = *value;
    }
    let pool = record::Pool::from_words(&words).expect("yes and no are given as 1 and 0");
    let ring = record::filled_ring(pool.head.index, [0; 5]);
    Case::of_call(&State { pool, ring }, kind, arguments)
}

fn worked(more: &[(&str, u64)], kind: u64, arguments: &[u64]) -> Case {
    on(&[&WORKED[..], more].concat(), kind, arguments)
}

fn function(kind: u64, columns: &[u64]) -> Case {
    Case { kind, columns: columns.to_vec() }
}

/// At fee model and rates 0, with these points of token 0.
fn opening(amounts: [u64; 2], points: u64) -> Case {
    opening_at(amounts, points, Grid::DEFAULT)
}

fn opening_at([amount_0, amount_1]: [u64; 2], points: u64, Grid { spacing, length }: Grid) -> Case {
    function(1, &[amount_0, amount_1, 0, 0, 0, 0, 0, 0, 0, 0, points, 0, 0, 0, spacing, length])
}

fn limits() -> Vec<Row> {
    let swap = &[0, 10_000, 0, 0];
    vec![
        row("B1", worked(&[("trade rate", 1_000_000)], 2, swap), "10", 3),
        row("B2", worked(&[("trade rate", 1_000_001)], 2, swap), "4", 3),
        row("B3", worked(&[("protocol rate", 1_000_001), ("fund rate", 0)], 2, swap), "accepts", 3),
        row("B4", worked(&[("creator rate", 997_500)], 2, swap), "accepts", 3),
        row(
            "B5",
            worked(&[("creator rate", MOST), ("enabled", 1)], 2, swap),
            "panics at calculator.rs:109",
            3,
        ),
        row(
            "B6",
            worked(&[("trade rate", 1_000_000)], 3, &[0, 1, MOST, 0]),
            "panics at calculator.rs:178",
            3,
        ),
        row("B7", worked(&[("trade rate", 1_000_000), ("status", 4)], 2, swap), "1", 3),
        row("B8", worked(&[("trade rate", 1_000_000)], 3, &[0, 0, MOST, 0]), "10", 3),
        row("B8", worked(&[("trade rate", 1_000_000), ("status", 4)], 3, &[0, 0, MOST, 0]), "10", 3),
    ]
}

fn added() -> Vec<Row> {
    vec![
        row("B9", opening([101, 101], 0), "has none", 0),
        row("B10", opening([100, 100], 0), "has none", 13),
        row("B11", on(&[], 7, &[3, 0]), "has none", 3),
        row("B12", on(&[], 7, &[0, 2]), "has none", 3),
        row("B13", on(&[("vault 1", 1), ("creator 1", 1)], 6, &[0]), "accepts", 0),
        row("B14", on(&[("creator 1", 1)], 6, &[0]), "accepts", 7),
    ]
}

fn full_vaults() -> Vec<Row> {
    let one_by_two = [("vault 0", 1), ("vault 1", 2), ("trade rate", 1)];
    let nearly_half = [("vault 0", NEARLY_HALF), ("vault 1", 2), ("trade rate", 1)];
    let lp = [("vault 0", HALF), ("vault 1", 1), ("supply", 1)];
    vec![
        row("B15", on(&one_by_two, 2, &[0, MOST, 0, 0]), "8 of the stand-in", 8),
        row("B16", on(&nearly_half, 3, &[0, 1, MOST, 0]), "8 of the stand-in", 8),
        row("B17", on(&lp, 4, &[1, MOST, MOST]), "8 of the stand-in", 8),
    ]
}

/// The least vault that passes 2^64 - 1 where one of two tokens 1 costs it once more and the fee.
const NEARLY_HALF: u64 = 9_223_367_425_166_451_536;

fn panics_of_swaps() -> Vec<Row> {
    let empty = [("trade rate", 1)];
    let one_by_none = [("vault 0", 1), ("trade rate", 1)];
    let one_by_one = [("vault 0", 1), ("vault 1", 1), ("trade rate", 1)];
    let creator =
        [("vault 0", 1 << 45), ("vault 1", 1), ("fee model", 2), ("enabled", 1), ("creator rate", 999_999)];
    let past = [("vault 0", HALF), ("vault 1", 3), ("trade rate", 1)];
    let past_with_fee = [("vault 0", HALF), ("vault 1", 2), ("trade rate", 500_000)];
    let far = [("vault 0", MOST), ("vault 1", MOST), ("trade rate", 1)];
    let far_on_output = [("vault 0", MOST), ("vault 1", MOST), ("fee model", 2), ("trade rate", 1)];
    vec![
        row("C1", on(&empty, 2, &[0, 1, 0, 0]), "panics at pool.rs:251", 11),
        row("C1", on(&one_by_none, 2, &[0, 1, 0, 0]), "panics at pool.rs:252", 11),
        row("C2", on(&one_by_one, 3, &[0, 1, MOST, 0]), "panics at constant_product.rs:41", 11),
        row("C3", on(&one_by_one, 3, &[0, 2, MOST, 0]), "panics at constant_product.rs:40", 11),
        row("C4", on(&creator, 3, &[0, MOST, MOST, 0]), "panics at constant_product.rs:39", 11),
        row("C5", on(&past, 3, &[0, 2, MOST, 0]), "panics at swap_base_output.rs:79", 11),
        row("C6", on(&past_with_fee, 3, &[0, 1, MOST, 0]), "panics at swap_base_output.rs:79", 11),
        row("C7", on(&far, 3, &[0, MOST - 1, MOST, 0]), "panics at calculator.rs:178", 11),
        row("C7", on(&far_on_output, 3, &[0, MOST - 1, MOST, 0]), "panics at calculator.rs:185", 11),
    ]
}

/// A counter of nearly the whole vault, beside a net of 2 and rates that give all to it.
fn panics_of_counters() -> Vec<Row> {
    let full = MOST - 2;
    let pool = |counter, rate, more: &[(&'static str, u64)]| {
        let columns =
            [("vault 0", MOST), ("vault 1", 4), (counter, full), ("trade rate", 500_000), (rate, 1_000_000)];
        on(&[&columns[..], more].concat(), 2, &[0, 6, 0, 0])
    };
    let creator =
        [("vault 0", MOST), ("vault 1", 4), ("creator 0", full), ("enabled", 1), ("creator rate", 500_000)];
    vec![
        row("C8", pool("protocol 0", "protocol rate", &[]), "panics at pool.rs:367", 11),
        row("C8", pool("fund 0", "fund rate", &[]), "panics at pool.rs:368", 11),
        row("C8", on(&creator, 2, &[0, 6, 0, 0]), "panics at pool.rs:372", 11),
    ]
}

fn panics_of_liquidity() -> Vec<Row> {
    let lp = |vault_0, vault_1, supply| [("vault 0", vault_0), ("vault 1", vault_1), ("supply", supply)];
    vec![
        row("C9", on(&lp(2, 1, 1), 4, &[HALF, MOST, MOST]), "panics at deposit.rs:114", 11),
        row("C9", on(&lp(1, 2, 1), 4, &[HALF, MOST, MOST]), "panics at deposit.rs:124", 11),
        row(
            "C10",
            on(&lp(1, 1, 2), 4, &[MOST - 1, MOST, MOST]),
            "panics at deposit.rs:192 after booking",
            11,
        ),
        row("C11", on(&lp(2, 1, 1), 5, &[HALF, HALF, 0, 0]), "panics at withdraw.rs:127", 11),
        row("C11", on(&lp(1, 2, 1), 5, &[HALF, HALF, 0, 0]), "panics at withdraw.rs:138", 11),
        row("C12", on(&lp(1, 1, 1), 5, &[2, 2, 0, 0]), "panics at withdraw.rs:178", 11),
    ]
}

fn ring() -> Vec<Row> {
    let past_its_end =
        |used| [("vault 0", 1), ("vault 1", 2), ("trade rate", 1), ("ring used", used), ("ring index", 100)];
    let swap = &[0, 2, 0, 0];
    let counters = [("protocol 1", MOST), ("creator 0", 1), ("creator 1", 1), ("vault 0", 1)];
    vec![
        row("C13", on(&past_its_end(0), 2, swap), "panics at oracle.rs:88 after booking", 11),
        row("C13", on(&past_its_end(1), 2, swap), "panics at oracle.rs:94 after booking", 11),
        row("A8", on(&counters, 6, &[1_000_000]), "8 after booking", 8),
        row("A9", function(30, &[1, 0, 0, 15, 100, 1, 0, 0, 0, 0, 3, HALF, 0, 0, 0]), "8 after booking", 8),
    ]
}

fn wide() -> Vec<Row> {
    let steep = [("vault 0", FAR), ("vault 1", FAR), ("trade rate", 999_999), ("protocol rate", 1_000_000)];
    vec![
        row("D1", on(&steep, 3, &[0, FAR - 1, MOST, 0]), "4", 11),
        row("E1", on(&[("status", 256)], 7, &[0, 0]), "has none", 0),
        row("E1", on(&[("fee model", 256)], 7, &[0, 0]), "has none", 0),
        row("E1", on(&[("ring index", 65_536)], 7, &[0, 0]), "has none", 0),
    ]
}

/// The least nets, both alike, at which the Rust says 4.
const FAR: u64 = 18_446_753_297_090;

fn alone() -> Vec<Row> {
    let million = 1_000_001;
    let mut rows: Vec<Row> = [11, 12, 14]
        .map(|kind| row("D2", function(kind, &[million, MOST]), "gives 18446762520453625324", 8))
        .into();
    rows.extend(
        [10, 13].map(|kind| row("D2", function(kind, &[million, MOST]), "gives 18446762520453625325", 8)),
    );
    rows.extend([
        row("D3", function(16, &[18_446_744_073_710, 999_999]), "gives 18446744073710000000", 8),
        row("D4", function(15, &[0, MOST, 1]), "panics at fees.rs:82", 8),
        row("D5", function(21, &[2, HALF, 3]), "gives 18446744073709551616", 11),
        row("D6", function(22, &[2, 1, HALF, 0, 0]), "gives 18446744073709551616 0", 11),
        row("C14", function(20, &[0, 0, 0]), "panics at constant_product.rs:28", 11),
        row("C14", function(21, &[0, 0, 0]), "panics at constant_product.rs:41", 11),
        row("C14", function(21, &[1, 0, 0]), "panics at constant_product.rs:40", 11),
    ]);
    rows
}

/// Both rates 0 with the fee on input, 02 (a): no split in the Rust, a split of 0 in the port.
fn free_days() -> Vec<Row> {
    let nets = |net_0, net_1| [("vault 0", net_0), ("vault 1", net_1)];
    let one_by_two = nets(1, 2);
    let past_its_end = [("vault 0", 1), ("vault 1", 2), ("ring index", 100)];
    let steep = [("vault 0", 1), ("vault 1", 1 << 33), ("ring used", 1)];
    let rows = vec![
        row("G1", function(15, &[0, 0, 0]), "4", 0).shows(&[("result", 0)]),
        row("G2", on(&one_by_two, 2, &[0, 1, 0, 0]), "4", 0).shows(&ONE_FOR_ONE),
        row("G3", on(&one_by_two, 3, &[0, 1, MOST, 0]), "4", 0).shows(&ONE_FOR_ONE),
        row("G4", on(&nets(1, 1), 2, &[0, 1, 0, 0]), "4", 10),
        row("G5", on(&one_by_two, 2, &[0, 1, 2, 0]), "4", 2),
        row("G5", on(&one_by_two, 3, &[0, 1, 0, 0]), "4", 2),
        row("G6", on(&nets(HALF, 3), 3, &[0, 2, MOST, 0]), "4", 11),
        row("G7", on(&one_by_two, 2, &[0, MOST, 0, 0]), "4", 8),
        row("G7", on(&nets(HALF, 2), 3, &[0, 1, MOST, 0]), "4", 8),
        row("G8", on(&past_its_end, 2, &[0, 1, 0, 0]), "4", 11),
        row("G9", on(&steep, 2, &[0, 1, 0, HALF]), "4", 8),
    ];
    left_to_model(rows, Left::RateSumOfZero)
}

/// A closed pool and an amount that is refused too, 02 (b): the Rust looks at the amount first.
fn closed_pools() -> Vec<Row> {
    let by_output = |closed| on(&[("trade rate", 1), closed], 3, &[0, 0, MOST, 0]);
    let rows = vec![
        row("G10", by_output(("status", 4)), "10", 1),
        row("G11", by_output(("open time", 1)), "10", 1),
        row("G12", on(&[("status", 1)], 4, &[0, MOST, MOST]), "10", 1),
        row("G13", on(&[("status", 2)], 5, &[0, 0, 0, 0]), "10", 1),
        row("G14", on(&[("status", 2)], 5, &[1, 0, 0, 0]), "10", 1),
    ];
    left_to_model(rows, Left::AmountOnClosedPool)
}

/// Nets 1 and 3 at trade rate 1, where 3 in give 2, and one token charged.
fn charged(token: usize, kind: u64, arguments: &[u64]) -> Case {
    on_charged(&[("vault 0", 1), ("vault 1", 3), ("trade rate", 1)], token, kind, arguments)
}

/// A pool of which one token is charged 1 on every amount above 0.
fn on_charged(pool: &[(&str, u64)], token: usize, kind: u64, arguments: &[u64]) -> Case {
    const COLUMNS: [[&str; 2]; 2] = [["points 0", "maximum 0"], ["points 1", "maximum 1"]];
    on(&[pool, &COLUMNS[token].map(|column| (column, 1))].concat(), kind, arguments)
}

/// Both nets and the supply are this.
fn even(number: u64) -> [(&'static str, u64); 3] {
    [("vault 0", number), ("vault 1", number), ("supply", number)]
}

/// Swaps by input of a charged token or for one, 02 (c): the Rust's tokens bear no charges.
fn charged_swaps_in() -> Vec<Row> {
    let one_by_two = [("vault 0", 1), ("vault 1", 2), ("trade rate", 1)];
    let nearly_full = [("vault 0", MOST - 2), ("vault 1", 2), ("protocol 0", MOST - 3), ("trade rate", 1)];
    let on_output = [("vault 0", 1), ("vault 1", 4), ("fee model", 2), ("enabled", 1), ("creator rate", 1)];
    let rows = vec![
        row("G15", charged(0, 2, &[0, 3, 0, 0]), "accepts", 0).shows(&TWO_ARRIVE),
        row("G16", on_charged(&on_output, 0, 2, &[0, 1, 0, 0]), "accepts", 10),
        row("G17", charged(1, 2, &[0, 3, 0, 0]), "accepts", 0).shows(&[("out 1", 2), ("charge 1", 1)]),
        row("G18", on_charged(&one_by_two, 1, 2, &[0, 2, 0, 0]), "accepts", 10),
        row("G19", charged(1, 2, &[0, 3, 2, 0]), "accepts", 2),
        row("G20", on_charged(&nearly_full, 0, 2, &[0, 3, 0, 0]), "8 of the stand-in", 0)
            .shows(&[("in 0", 2), ("vault 0", MOST)]),
    ];
    left_to_model(rows, Left::Charge)
}

const TWO_ARRIVE: [(&str, u64); 5] =
    [("in 0", 2), ("out 1", 1), ("charge 0", 1), ("charge 1", 0), ("vault 0", 3)];

/// Swaps by output, 02 (c).
fn charged_swaps_out() -> Vec<Row> {
    // One of two tokens 1 costs the net of token 0, and the fee with it is 2^64 - 1.
    let costs_all = [("vault 0", 18_446_725_626_965_477_905), ("vault 1", 2), ("trade rate", 1)];
    let rows = vec![
        row("G21", charged(1, 3, &[0, 1, MOST, 0]), "accepts", 0).shows(&ONE_RECEIVED),
        row("G22", charged(0, 3, &[0, 1, 2, 0]), "accepts", 2),
        row("G23", charged(1, 3, &[0, 2, MOST, 0]), "accepts", 11),
        row("G24", charged(1, 3, &[0, MOST, MOST, 0]), "panics at constant_product.rs:40", 14),
        row("G25", on_charged(&costs_all, 0, 3, &[0, 1, MOST, 0]), "8 of the stand-in", 14),
    ];
    left_to_model(rows, Left::Charge)
}

const ONE_RECEIVED: [(&str, u64); 3] = [("out 1", 2), ("charge 1", 1), ("vault 1", 1)];

/// Deposits, withdrawals and settlements, 02 (c).
fn charged_liquidity() -> Vec<Row> {
    let owed = [("vault 1", 1), ("creator 1", 1)];
    let one = |token, kind, arguments: &[u64]| on_charged(&even(1), token, kind, arguments);
    // Of as many LP one can be withdrawn.
    let least = |arguments: &[u64]| on_charged(&even(101), 0, 5, arguments);
    let rows = vec![
        row("G26", one(0, 4, &[1, MOST, MOST]), "accepts", 0).shows(&[
            ("in 0", 1),
            ("charge 0", 1),
            ("vault 0", 2),
        ]),
        row("G27", one(0, 4, &[1, 1, MOST]), "accepts", 2),
        row("G28", one(0, 4, &[MOST, MOST, MOST]), "8 of the stand-in", 14),
        row("G29", least(&[1, 1, 0, 0]), "accepts", 0).shows(&[
            ("out 0", 1),
            ("charge 0", 1),
            ("vault 0", 100),
        ]),
        row("G30", least(&[1, 1, 1, 0]), "accepts", 2),
        row("G31", on_charged(&owed, 1, 6, &[0]), "accepts", 0).shows(&[
            ("out 1", 1),
            ("charge 1", 1),
            ("vault 1", 0),
        ]),
    ];
    left_to_model(rows, Left::Charge)
}

/// What the Rust has in a file that is stood in for, or not at all.
fn charges() -> Vec<Row> {
    let alone = vec![
        row("G32", function(18, &[1, 1, 1]), "has none", 0).shows(&[("result", 1)]),
        row("G33", function(19, &[1, 1, 1]), "has none", 0).shows(&[("result", 1)]),
        row("G34", function(19, &[MOST, 1, 1]), "has none", 14),
    ];
    let mut rows = left_to_model(alone, Left::Charge);
    rows.push(row("G35", opening([101, 101], 10_000), "has none", 3));
    rows
}

/// Withdrawals that leave fewer than 100 LP, 02 (e). With charges (c) leaves them already.
fn locked() -> Vec<Row> {
    let withdrawal = |supply, lp| on(&even(supply), 5, &[lp, lp, 0, 0]);
    let uncharged = vec![
        row("G36", withdrawal(1, 1), "accepts", 15).shows(&[("vault 0", 1), ("vault 1", 1), ("supply", 1)]),
        row("G37", withdrawal(100, 1), "accepts", 15).shows(&[("vault 0", 100), ("supply", 100)]),
        row("G38", withdrawal(101, 2), "accepts", 15).shows(&[("vault 0", 101), ("supply", 101)]),
    ];
    let charged = vec![row("G39", on_charged(&even(1), 0, 5, &[1, 1, 0, 0]), "accepts", 15)];
    let mut rows = left_to_model(uncharged, Left::LockedLp);
    rows.extend(left_to_model(charged, Left::Charge));
    rows
}

/// Nets 1 and 2 at trade rate 1, where 2 in give 1, with these columns of the ring, 02 (f).
fn at_ring(columns: &[(&str, u64)], clock: u64) -> Case {
    on(&[&[("vault 0", 1), ("vault 1", 2), ("trade rate", 1)], columns].concat(), 2, &[0, 2, 0, clock])
}

/// The same with a ring that is used.
fn at_used_ring(columns: &[(&str, u64)], clock: u64) -> Case {
    at_ring(&[&[("ring used", 1)], columns].concat(), clock)
}

/// A length above 100 and an index at or past the length, 02 (f): the Rust looks at its hundred entries.
fn refused_grids() -> Vec<Row> {
    let index_2 = [("length", 2), ("ring index", 2)];
    let steep = [("vault 0", 1), ("vault 1", 1 << 33), ("trade rate", 1), ("ring used", 1), ("length", 101)];
    let by_output = [("vault 0", 1), ("vault 1", 3), ("trade rate", 1), ("length", 2), ("ring index", 2)];
    let rows = vec![
        row("G40", at_ring(&index_2, 0), "accepts", 11).shows(&[("vault 0", 1), ("ring used", 0)]),
        row("G41", at_used_ring(&index_2, 0), "accepts", 11).shows(&[("vault 0", 1)]),
        row("G42", at_ring(&[("length", 101)], 0), "accepts", 11).shows(&[("ring used", 0)]),
        row("G43", at_ring(&[("length", 0)], 0), "accepts", 11).shows(&[("ring used", 0)]),
        row("G44", on(&steep, 2, &[0, 2, 0, HALF]), "8 after booking", 11).shows(&[("vault 0", 1)]),
        row("G45", on(&by_output, 3, &[0, 1, MOST, 0]), "accepts", 11).shows(&[("vault 0", 1)]),
    ];
    left_to_model(rows, Left::OtherGrid)
}

const MOVED_ON: [(&str, u64); 2] = [("ring index", 1), ("entry clock", 1)];
const MOVED_ON_AT_15: [(&str, u64); 2] = [("ring index", 1), ("entry clock", 15)];
const OVERWRITTEN: [(&str, u64); 2] = [("ring index", 0), ("entry clock", 0)];

/// Another spacing, 02 (f): the Rust's is 15.
fn spacings() -> Vec<Row> {
    let at_spacing = |spacing, clock| at_used_ring(&[("spacing", spacing)], clock);
    let rows = vec![
        row("G46", at_spacing(1, 1), "accepts", 0).shows(&MOVED_ON).rust_shows(&OVERWRITTEN),
        row("G47", at_spacing(0, 1), "accepts", 0).shows(&MOVED_ON).rust_shows(&OVERWRITTEN),
        row("G48", at_spacing(16, 15), "accepts", 0).shows(&OVERWRITTEN).rust_shows(&MOVED_ON_AT_15),
    ];
    left_to_model(rows, Left::OtherGrid)
}

const BEGUN_ANEW: [(&str, u64); 2] = [("ring index", 0), ("entry clock", 15)];
const AT_INDEX_2: [(&str, u64); 2] = [("ring index", 2), ("entry clock", 15)];

/// Another length, 02 (f): the Rust's is 100.
fn lengths() -> Vec<Row> {
    let length_2 = [("length", 2), ("ring index", 1)];
    let rows = vec![
        row("G49", at_used_ring(&length_2, 15), "accepts", 0).shows(&BEGUN_ANEW).rust_shows(&AT_INDEX_2),
        row("G50", at_used_ring(&[("length", 1)], 15), "accepts", 0)
            .shows(&BEGUN_ANEW)
            .rust_shows(&MOVED_ON_AT_15),
    ];
    left_to_model(rows, Left::OtherGrid)
}

/// The ring alone, 02 (f): unused at index 2 of length 2, and used at spacing 1.
fn rings_alone() -> Vec<Row> {
    let unused = [0, 2, 0, 15, 2, 0, 0, 0, 0, 0, 0];
    let used = [1, 0, 0, 1, 100, 0, 0, 0, 0, 0, 1];
    let mut rows = vec![];
    // At two prices, and at those of two nets.
    for (kind, behind) in [(30, &[0, 0, 0, 0][..]), (36, &[1, 1])] {
        let alone = |ring: [u64; 11]| function(kind, &[&ring[..], behind].concat());
        rows.push(row("G51", alone(unused), "accepts", 11));
        rows.push(row("G52", alone(used), "accepts", 0).shows(&MOVED_ON).rust_shows(&OVERWRITTEN));
    }
    left_to_model(rows, Left::OtherGrid)
}

/// Spacing and length of an opening, which the Rust has not.
fn opened_grids() -> Vec<Row> {
    let opening = |spacing, length| opening_at([101, 101], 0, Grid { spacing, length });
    vec![
        row("G53", opening(1, 2), "has none", 0).shows(&[("spacing", 1), ("length", 2)]),
        row("G54", opening(0, 100), "has none", 3).shows(&[("spacing", 0), ("length", 0)]),
        row("G54", opening(3601, 100), "has none", 3),
        row("G55", opening(15, 1), "has none", 3).shows(&[("spacing", 0), ("length", 0)]),
        row("G55", opening(15, 101), "has none", 3),
    ]
}

/// Deposits, withdrawals and openings by holder 7 with what is no register, 02 (g). Without one the Rust
/// accepts deposit and withdrawal.
fn registers() -> Vec<Row> {
    const TOO_MANY: [u64; 514] = [0; 514];
    let deposit = on(&even(101), 4, &[1, MOST, MOST]);
    let withdrawal = on(&even(101), 5, &[1, 1, 0, 0]);
    let lists: [(&'static str, u64, &'static [u64]); 6] = [
        ("G56", 7, &[]),
        ("G57", 7, &TOO_MANY),
        ("G58", 7, &[7, 1, 0]),
        ("G59", 7, &[7, 1, 0, 1]),
        ("G60", 7, &[7, 1, 7, 1]),
        ("G61", 0, &[7, 1]),
    ];
    let mut rows = vec![];
    for (name, holder, list) in lists {
        for call in [&deposit, &withdrawal, &opening([101, 101], 0), &opening([0, 0], 0)] {
            rows.push(row(name, with(call, holder, list), "has none", 3).listing(list));
        }
    }
    left_to_model(rows, Left::Register)
}

/// What a call does to the entries, and the two tests of the holder's.
fn entries() -> Vec<Row> {
    let deposit = |list: &[u64]| with(&on(&even(101), 4, &[1, MOST, MOST]), 7, list);
    let withdrawal = |lp, list: &[u64]| with(&on(&even(102), 5, &[lp, 0, 0, 0]), 7, list);
    let opened = with(&opening([101, 101], 0), 7, &[8, 5, 9, 5]);
    let read = |holder, list: &[u64]| function(40, &[&[holder], list].concat());
    let rows = vec![
        row("G62", opened, "has none", 0).listing(&[7, 1, 0, 0]),
        row("G63", deposit(&[8, 0, 7, 0]), "has none", 0).listing(&[7, 1, 7, 0]),
        row("G64", deposit(&[8, 0, 7, 5]), "has none", 0).listing(&[8, 0, 7, 6]),
        row("G65", deposit(&[7, MOST]), "has none", 8).listing(&[7, MOST]),
        row("G66", deposit(&[8, 1]), "has none", 16).listing(&[8, 1]),
        row("G67", withdrawal(2, &[7, 2]), "has none", 0).listing(&[7, 0]),
        row("G68", withdrawal(2, &[7, 1]), "has none", 10).listing(&[7, 1]),
        row("G68", withdrawal(2, &[8, 2]), "has none", 10).listing(&[8, 2]),
        row("G69", read(7, &[8, 1, 7, 2]), "has none", 0).shows(&[("balance", 2)]),
        row("G69", read(9, &[8, 1, 7, 2]), "has none", 0).shows(&[("balance", 0)]),
        row("G69", read(0, &[8, 1, 7, 2]), "has none", 3),
    ];
    left_to_model(rows, Left::Register)
}

/// The rows of part G, with the reason why they are there.
fn left_to_model(rows: Vec<Row>, left: Left) -> Vec<Row> {
    rows.into_iter().map(|row| Row { left: Some(left), ..row }).collect()
}

const ONE_FOR_ONE: [(&str, u64); 8] = [
    ("in 0", 1),
    ("out 1", 1),
    ("trade fee", 0),
    ("protocol fee", 0),
    ("fund fee", 0),
    ("creator fee", 0),
    ("vault 0", 2),
    ("vault 1", 1),
];

impl Row {
    fn shows(self, shows: &'static [(&'static str, u64)]) -> Row {
        Row { shows, ..self }
    }

    fn listing(self, list: &'static [u64]) -> Row {
        Row { list, ..self }
    }

    fn rust_shows(self, rust_shows: &'static [(&'static str, u64)]) -> Row {
        Row { rust_shows, ..self }
    }

    fn holds(&self) -> bool {
        let case = &self.case;
        let outcome = runner::answer(case);
        let (rust, port) = (rust_says(&outcome), model::answer(case));
        let number = port.number;
        let rust_shown = match &outcome {
            Outcome::Answered { answer, .. } => case.shows(answer, self.rust_shows),
            _ => self.rust_shows.is_empty(),
        };
        let rust_right = rust == self.rust && rust_shown;
        let shown = case.shows(&port, self.shows) && case.list_after(&port) == self.list;
        let answered = rust_right && number == self.port && shown;
        let right = answered && case.left_to_model() == self.left;
        let mark = if right { "ok" } else { "FAIL" };
        let line: String = case.line().chars().take(LONGEST_LINE).collect();
        println!("{:4} {mark}: {line}\n     the Rust: {rust}; the rules: {number}", self.row);
        right
    }
}

fn rust_says(outcome: &Outcome) -> String {
    let (answer, booked, cause) = match outcome {
        Outcome::Absent(_) => return "has none".into(),
        Outcome::Wide(results) => {
            let results: Vec<String> = results.iter().map(u128::to_string).collect();
            return format!("gives {}", results.join(" "));
        }
        Outcome::Answered { answer, booked, cause } => (answer, booked, cause),
    };
    let late = if booked.is_empty() { "" } else { " after booking" };
    match cause {
        Cause::None => "accepts".into(),
        Cause::Panic(place) => format!("panics at {place}{late}"),
        Cause::StandIn => format!("{} of the stand-in{late}", answer.number),
        Cause::Check => format!("{}{late}", answer.number),
    }
}
