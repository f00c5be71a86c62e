//! Each bound of the rules at the last number that passes and at the first that doesn't, and places
//! where the order of two steps decides. Each row says its number, some the fees, charges or results too,
//! and stands once more with the tokens exchanged.

mod charges;
mod division;
mod grid;
mod locked;
mod register;

use crate::left::LeftCounts;
use crate::verdict::{verdict, Side};
use record::{filled_ring, Case, Entry, Grid, Pool, Rates, RingHead, State};
use record::{POOL_COLUMNS, POOL_LENGTH, RECEIPT_COLUMNS};

struct Bound {
    says: String,
    number: u64,
    /// Columns of the answer.
    shows: Vec<(&'static str, u64)>,
    /// The list after a call with a register.
    list: Vec<u64>,
    case: Case,
}

const MOST: u64 = u64::MAX;
const HALF: u64 = 1 << 63;
const MILLION: u64 = 1_000_000;

/// Prints each; whether all are as the rules say.
pub fn all() -> bool {
    let bounds = bounds();
    let right = bounds.iter().filter(|bound| bound.holds()).count();
    LeftCounts::of(bounds.iter().map(|bound| &bound.case)).print();
    println!("{right} of {} bounds as the rules say", bounds.len());
    right == bounds.len()
}

/// The bounds as cases, for the sample.
pub fn cases() -> Vec<Case> {
    bounds().into_iter().map(|bound| bound.case).collect()
}

/// Those with a register, without the tokens exchanged.
pub fn register_cases() -> Vec<Case> {
    register::bounds().into_iter().map(|bound| bound.case).collect()
}

fn bounds() -> Vec<Bound> {
    let named = [
        openings(),
        rates(),
        counters(),
        limits(),
        closed_swaps(),
        swaps_out(),
        free_swaps(),
        charged_swaps(),
        vaults(),
        booked(),
        ring(),
        ring_sums(),
        deposits(),
        withdrawals(),
        closed_deposits_and_withdrawals(),
        settlements(),
        statuses(),
        fees(),
        curve(),
        lp_tokens(),
        bookings(),
    ];
    let requested =
        [charges::bounds(), division::bounds(), locked::bounds(), grid::bounds(), register::bounds()];
    named.into_iter().chain(requested).flatten().flat_map(Bound::with_mirror).collect()
}

impl Bound {
    fn with_mirror(self) -> Vec<Bound> {
        let case = mirrored(&self.case);
        if case == self.case {
            return vec![self];
        }
        let says = "  the same with the tokens exchanged".into();
        let shows = self.shows.iter().map(|(column, number)| (exchanged(column), *number)).collect();
        let mirror = Bound { says, number: self.number, shows, list: self.list.clone(), case };
        vec![self, mirror]
    }

    /// Trade and creator fee of an accepted swap.
    fn charging(self, trade: u64, creator: u64) -> Bound {
        Bound { shows: vec![("trade fee", trade), ("creator fee", creator)], ..self }
    }

    /// The result of a function alone.
    fn giving(self, result: u64) -> Bound {
        Bound { shows: vec![("result", result)], ..self }
    }

    fn holds(&self) -> bool {
        let verdict = verdict(&self.case);
        let number = verdict.document.number;
        let answered = number == self.number && self.case.shows(&verdict.document, &self.shows);
        let listed = self.case.list_after(&verdict.document) == self.list;
        let right = answered && listed && verdict.side != Side::Unlisted;
        let left = if verdict.side == Side::Left { ", left to the model" } else { "" };
        println!("{:70} {:2} {}{left}", self.says, number, if right { "ok" } else { "FAIL" });
        right
    }
}

/// The column of the other token; a column that is of none stays.
fn exchanged(column: &'static str) -> &'static str {
    let other = match column.split_at(column.len() - 1) {
        (name, "0") => format!("{name}1"),
        (name, "1") => format!("{name}0"),
        _ => return column,
    };
    let mut columns = RECEIPT_COLUMNS.into_iter().chain(POOL_COLUMNS);
    columns.find(|column| *column == other).unwrap_or(column)
}

/// Where the arguments stand of a call that takes the pool, and of a swap, which takes an entry too.
const ARGUMENTS: usize = POOL_LENGTH;
const SWAP_ARGUMENTS: usize = POOL_LENGTH + 5;

/// Token 0 for token 1 in every column.
fn mirrored(case: &Case) -> Case {
    const VAULTS: [(usize, usize); 4] = [(0, 1), (2, 3), (4, 5), (6, 7)];
    const CHARGES: [(usize, usize); 2] = [(21, 23), (22, 24)];
    const SUMS: [(usize, usize); 2] =
        [(POOL_LENGTH + 1, POOL_LENGTH + 3), (POOL_LENGTH + 2, POOL_LENGTH + 4)];
    let (pairs, model, direction): (&[(usize, usize)], _, _) = match case.kind {
        1 | 41 => (&[(0, 1), (10, 12), (11, 13)], Some(2), None),
        2 | 3 => (&SUMS, Some(11), Some(SWAP_ARGUMENTS)),
        4 | 44 | 45 => (&[(ARGUMENTS + 1, ARGUMENTS + 2)], Some(11), None),
        5 => (&[(ARGUMENTS + 2, ARGUMENTS + 3)], Some(11), None),
        6 | 7 => (&[], Some(11), None),
        22 => (&[(2, 3)], None, None),
        31 | 32 => (&VAULTS, None, None),
        33 => (&[(0, 1), (2, 3), (4, 5)], Some(6), Some(7)),
        36 => (&[(6, 8), (7, 9), (11, 12)], None, None),
        _ => (&[], None, None),
    };
    let on_pool = matches!(case.kind, 2..=7 | 44 | 45);
    let pool: &[&[(usize, usize)]] = if on_pool { &[&VAULTS, &CHARGES] } else { &[] };
    let mut columns = case.columns.clone();
    pairs.iter().chain(pool.iter().copied().flatten()).for_each(|(one, other)| columns.swap(*one, *other));
    if let Some(model) = model {
        columns[model] = [0, 2, 1].get(columns[model] as usize).copied().unwrap_or(columns[model]);
    }
    if let Some(direction) = direction {
        columns[direction] ^= 1;
    }
    Case { kind: case.kind, columns }
}

fn bound(says: impl Into<String>, number: u64, case: Case) -> Bound {
    Bound { says: says.into(), number, shows: vec![], list: vec![], case }
}

fn alone(kind: u64, columns: &[u64]) -> Case {
    Case { kind, columns: columns.to_vec() }
}

/// A call on a pool whose newest entry is zeros.
fn on(pool: Pool, kind: u64, arguments: &[u64]) -> Case {
    at_entry(pool, [0; 5], kind, arguments)
}

fn at_entry(pool: Pool, entry: Entry, kind: u64, arguments: &[u64]) -> Case {
    let state = State { pool, ring: filled_ring(pool.head.index, entry) };
    Case::of_call(&state, kind, arguments)
}

fn rated(trade: u64, protocol: u64, fund: u64, creator: u64, share: u64) -> Rates {
    Rates { trade, protocol, fund, creator, share }
}

/// The worked day's pool.
fn day() -> Pool {
    let rates = rated(2500, 120_000, 40_000, 0, 0);
    Pool { vaults: [MILLION, 4 * MILLION], supply: 2 * MILLION, rates, ..usual() }
}

/// A pool of zeros but for spacing 15 and length 100.
fn usual() -> Pool {
    Pool { grid: Grid::DEFAULT, ..Pool::default() }
}

/// A pool whose one fee on the input is the trade fee: the creator's is on the output.
fn trade(vaults: [u64; 2], rate: u64) -> Pool {
    Pool { vaults, supply: 100, fee_model: 2, rates: rated(rate, 0, 0, 0, 0), ..usual() }
}

/// A pool whose one fee is the creator's, on the output.
fn creator(vaults: [u64; 2], rate: u64) -> Pool {
    Pool { enabled: true, rates: rated(0, 0, 0, rate, 0), ..trade(vaults, 0) }
}

/// A pool whose rate sum is 0, with the fee on the input.
fn free(vaults: [u64; 2]) -> Pool {
    Pool { fee_model: 0, ..trade(vaults, 0) }
}

fn opening(amounts: [u64; 2], model: u64, enabled: u64, rates: [u64; 5]) -> Case {
    alone(1, &[&amounts[..], &[model, enabled, 0], &rates, &[0; 4], &Grid::DEFAULT.words()].concat())
}

fn openings() -> Vec<Bound> {
    let day = [2500, 120_000, 40_000, 0, 0];
    let past = [MILLION, 0, 0, 0, 0];
    vec![
        bound("an opening of 0 by 5 with model 3", 6, opening([0, 5], 3, 0, day)),
        bound("an opening of 0 by 0", 6, opening([0, 0], 0, 0, day)),
        bound("an opening with model 3 and enabled 2", 9, opening([5, 5], 3, 2, day)),
        bound("an opening with model 2", 0, opening([101, 101], 2, 1, day)),
        bound("an opening with model 3", 9, opening([101, 101], 3, 1, day)),
        bound("an opening with enabled 2", 3, opening([101, 101], 0, 2, day)),
        bound("an opening with rates and supply refused", 3, opening([5, 5], 0, 0, past)),
        bound("an opening of 100 by 102, product 10,200", 13, opening([100, 102], 0, 0, day)),
        bound("an opening of 1 by 10,200", 13, opening([1, 10_200], 0, 0, day)),
        bound("an opening of 1 by 10,201", 0, opening([1, 10_201], 0, 0, day)),
        bound("an opening of all by all", 0, opening([MOST, MOST], 0, 0, day)),
        bound("an opening of all by all less 1", 0, opening([MOST - 1, MOST], 0, 0, day)),
    ]
}

/// The limits on rates, of an opening and of both swaps, summed without wrap.
fn rates() -> Vec<Bound> {
    let limits = [
        ("trade + creator 999,999", 0, [999_998, 0, 0, 1, 0]),
        ("trade + creator 1,000,000", 3, [999_999, 0, 0, 1, 0]),
        ("trade alone 1,000,000", 3, [MILLION, 0, 0, 0, 0]),
        ("creator alone 1,000,000", 3, [0, 0, 0, MILLION, 0]),
        ("trade + creator 2^64", 3, [MOST, 0, 0, 1, 0]),
        ("creator + trade 2^64", 3, [1, 0, 0, MOST, 0]),
        ("protocol + fund 1,000,000", 0, [2500, 999_999, 1, 0, 0]),
        ("protocol + fund 1,000,001", 3, [2500, 999_999, 2, 0, 0]),
        ("protocol alone 1,000,001", 3, [2500, 1_000_001, 0, 0, 0]),
        ("protocol + fund 2^64", 3, [2500, MOST, 1, 0, 0]),
        ("fund + protocol 2^64", 3, [2500, 1, MOST, 0, 0]),
    ];
    let mut out = vec![
        bound("share 1,000,000", 0, opening([MILLION, 4 * MILLION], 0, 0, [2500, 0, 0, 0, MILLION])),
        bound("share 1,000,001", 3, opening([MILLION, 4 * MILLION], 0, 0, [2500, 0, 0, 0, 1_000_001])),
    ];
    for (says, number, words) in limits {
        let [trade, protocol, fund, creator, share] = words;
        let rates = rated(trade, protocol, fund, creator, share);
        out.push(bound(says, number, opening([MILLION, 4 * MILLION], 0, 0, words)));
        for enabled in [false, true] {
            let pool = Pool { rates, enabled, ..day() };
            let swap = [(2, [0, MILLION, 0, 5]), (3, [0, 1000, MOST, 5])];
            out.extend(swap.map(|(kind, arguments)| bound(says, number, on(pool, kind, &arguments))));
        }
    }
    out
}

/// Counters' sums 8, vaults 7, a net of 0: in each call, and alone.
fn counters() -> Vec<Bound> {
    let pool = |vault, protocol, fund, creator| Pool {
        vaults: [vault, 4 * MILLION],
        protocol: [protocol, 0],
        fund: [fund, 0],
        creator: [creator, 0],
        ..day()
    };
    let third = MOST / 3;
    let mixed = Pool { protocol: [1, MOST], fund: [0, 1], ..pool(0, 1, 0, 0) };
    let pools = [
        ("counters' sum 2^64 - 1, vault the same", [11, 4, 0, 11], pool(MOST, third, third, third)),
        ("counters' sum 2^64 - 1, vault one less", [7; 4], pool(MOST - 1, third, third, third)),
        ("protocol + fund 2^64 - 1, vault the same", [11, 4, 0, 11], pool(MOST, MOST - 1, 1, 0)),
        ("protocol + fund 2^64 - 1, vault one less", [7; 4], pool(MOST - 1, MOST - 1, 1, 0)),
        ("counters' sum 2^64 by the fund", [8; 4], pool(MOST, MOST, 1, 0)),
        ("counters' sum 2^64 by the creator", [8; 4], pool(MOST, third, third, third + 1)),
        ("counters' sum 2^64 by the creator alone", [8; 4], pool(MOST, HALF, 0, HALF)),
        ("vault at its counters", [11, 4, 0, 11], pool(6, 1, 2, 3)),
        ("vault one below its counters", [7; 4], pool(5, 1, 2, 3)),
        ("vault one above its counters", [0, 4, 0, 0], pool(7, 1, 2, 3)),
        ("a sum past and the other vault short", [8; 4], mixed),
    ];
    let calls =
        [(2, &[0, 10, 0, 5][..]), (3, &[0, 1, MOST, 5]), (4, &[100, MOST, MOST]), (5, &[100, 100, 0, 0])];
    let mut out = vec![];
    for (says, [swap, change, nets, prices], pool) in pools {
        for (kind, arguments) in calls {
            let number = if kind < 4 { swap } else { change };
            out.push(bound(says, number, on(pool, kind, arguments)));
        }
        let words = &pool.words()[..8];
        out.push(bound(says, nets, alone(31, words)));
        out.push(bound(says, prices, alone(32, words)));
    }
    out
}

/// A swap's own limits: open time, status, the caller's limit, the order of its first steps.
fn limits() -> Vec<Bound> {
    let opens = Pool { open_time: 100, ..day() };
    let closed = |status| Pool { status, ..day() };
    let model = |fee_model| Pool { fee_model, ..day() };
    vec![
        bound("by input at the open time", 0, on(opens, 2, &[0, 10_000, 1, 100])),
        bound("by input one second before", 1, on(opens, 2, &[0, 10_000, 1, 99])),
        bound("by output at the open time", 0, on(opens, 3, &[0, 39_505, MOST, 100])),
        bound("by output one second before", 1, on(opens, 3, &[0, 39_505, MOST, 99])),
        bound("by input, only bit 2 set", 1, on(closed(4), 2, &[0, 10_000, 1, 5])),
        bound("by input, all bits but 2 set", 0, on(closed(MOST - 4), 2, &[0, 10_000, 1, 5])),
        bound("by output, only bit 2 set", 1, on(closed(4), 3, &[0, 39_505, MOST, 5])),
        bound("by output, all bits but 2 set", 0, on(closed(MOST - 4), 3, &[0, 39_505, MOST, 5])),
        bound("by input with direction 2 and model 3", 5, on(model(3), 2, &[2, 10_000, 1, 5])),
        bound("by output with direction 2 and model 3", 5, on(model(3), 3, &[2, 39_505, MOST, 5])),
        bound("by input with model 2", 0, on(model(2), 2, &[0, 10_000, 1, 5])),
        bound("by input with model 3", 9, on(model(3), 2, &[0, 10_000, 1, 5])),
        bound("by output with model 3", 9, on(model(3), 3, &[0, 39_505, MOST, 5])),
        bound("output at the minimum", 0, on(day(), 2, &[0, 10_000, 39_505, 5])),
        bound("output one below the minimum", 2, on(day(), 2, &[0, 10_000, 39_506, 5])),
        bound("output 0, below the minimum", 10, on(day(), 2, &[0, 1, 1, 5])),
        bound("input at the maximum", 0, on(day(), 3, &[0, 39_505, 10_000, 5])),
        bound("input one above the maximum", 2, on(day(), 3, &[0, 39_505, 9_999, 5])),
    ]
}

/// The worked day's pool with counters of token 0 whose sum is 2^64, and with one above its vault.
fn counters_past() -> [Pool; 2] {
    [Pool { protocol: [MOST, 0], fund: [1, 0], ..day() }, Pool { protocol: [MILLION + 1, 0], ..day() }]
}

/// Document 02 (b), of both swaps alike: the rate limits, then closed, then the amount, then the rest.
fn closed_swaps() -> Vec<Bound> {
    let closed = |pool| Pool { status: 4, ..pool };
    let opens = |pool| Pool { open_time: 100, ..pool };
    let other_bits = Pool { status: 3, ..day() };
    let limits = Pool { rates: rated(MILLION, 0, 0, 0, 0), ..day() };
    let free = Pool { rates: rated(0, 0, 0, 0, 0), ..day() };
    let [sum, vault] = counters_past();
    // The pool, and direction, amount and clock.
    let rows = [
        ("of 0, rates past the limits", 3, limits, [0, 0, 5]),
        ("of 0, rates past the limits, closed", 3, closed(limits), [0, 0, 5]),
        ("of 0, rates past the limits, before the open time", 3, opens(limits), [0, 0, 99]),
        ("of 0, closed", 1, closed(day()), [0, 0, 5]),
        ("of 0, closed, direction 2", 1, closed(day()), [2, 0, 5]),
        ("of 0, closed, rate sum 0", 1, closed(free), [0, 0, 5]),
        ("of 0, closed, counters' sum 2^64", 1, closed(sum), [0, 0, 5]),
        ("of 10, closed, counters' sum 2^64", 1, closed(sum), [0, 10, 5]),
        ("of 10, closed, a counter above its vault", 1, closed(vault), [0, 10, 5]),
        ("of 0, closed, before the open time", 1, opens(closed(day())), [0, 0, 99]),
        ("of 0, closed, at the open time", 1, opens(closed(day())), [0, 0, 100]),
        ("of 0, before the open time", 1, opens(day()), [0, 0, 99]),
        ("of 0, before the open time, direction 2", 1, opens(day()), [2, 0, 99]),
        ("of 10, before the open time, counters' sum 2^64", 1, opens(sum), [0, 10, 99]),
        ("of 0, at the open time", 10, opens(day()), [0, 0, 100]),
        ("of 0, bits 0 and 1 set", 10, other_bits, [0, 0, 5]),
        ("of 0", 10, day(), [0, 0, 5]),
        ("of 0, direction 2", 10, day(), [2, 0, 5]),
        ("of 0, counters' sum 2^64", 10, sum, [0, 0, 5]),
        ("of 0, a counter above its vault", 10, vault, [0, 0, 5]),
    ];
    let mut out = vec![];
    for (swap, kind, wide) in [("by input", 2, 0), ("by output", 3, MOST)] {
        for (says, number, pool, [direction, amount, clock]) in rows {
            let case = on(pool, kind, &[direction, amount, wide, clock]);
            out.push(bound(format!("{swap} {says}"), number, case));
        }
    }
    out
}

/// By output: the output against the net, and the input before and after fees at 2^64 - 1, which
/// no vault then takes (8), and past it (11).
fn swaps_out() -> Vec<Bound> {
    let even = trade([1000, 1000], 1);
    let half = creator([1000, 1000], 500_000);
    let on_input = |net_in| Pool { fee_model: 0, ..trade([net_in, 2], 1) };
    // The creator's fee on a few tokens at rate 1 is 1, and the input has no fee.
    let least = |net_in, net_out| creator([net_in, net_out], 1);
    let most_after_fee = 18_446_725_626_965_477_905;
    let by_output = |pool, output| on(pool, 3, &[0, output, MOST, 5]);
    vec![
        bound("output one below the net", 0, by_output(even, 999)),
        bound("output at the net", 11, by_output(even, 1000)),
        bound("output one above the net", 11, by_output(even, 1001)),
        bound("output with creator fee below the net", 0, by_output(half, 499)),
        bound("output with creator fee at the net", 11, by_output(half, 500)),
        bound("output with creator fee past u64", 11, by_output(half, HALF)),
        bound("input before fees 2^64 - 1", 8, by_output(least(MOST, 4), 1)),
        bound("input before fees 2^64", 11, by_output(least(HALF, 3), 1)),
        bound("input before fees 2^64 - 1, rounded up", 8, by_output(least(784_967_832_923_810_707, 49), 46)),
        bound("input before fees 2^64, rounded up", 11, by_output(least(1_190_112_520_884_487_201, 33), 30)),
        bound("input after fees 2^64 - 1", 8, by_output(trade([most_after_fee, 2], 1), 1)),
        bound("input after fees 2^64", 11, by_output(trade([most_after_fee + 1, 2], 1), 1)),
        bound("input after fees on input 2^64 - 1", 8, by_output(on_input(most_after_fee), 1)),
        bound("input after fees on input 2^64", 11, by_output(on_input(most_after_fee + 1), 1)),
        bound("input past u64, above the maximum", 11, on(least(HALF, 3), 3, &[0, 1, 0, 5])),
    ]
}

/// Document 02 (a): swaps at a rate sum of 0, and the steps before and behind the split.
fn free_swaps() -> Vec<Bound> {
    let day = Pool { rates: rated(0, 120_000, 40_000, 0, 0), ..day() };
    let not_enabled = Pool { rates: rated(0, 120_000, 40_000, 1000, 0), ..day };
    let on_output = Pool { fee_model: 2, ..day };
    let by_input = |pool, input, minimum| on(pool, 2, &[0, input, minimum, 5]);
    let by_output = |pool, output, maximum| on(pool, 3, &[0, output, maximum, 5]);
    let mut out = vec![
        bound("free, 1 in", 0, by_input(day, 1, 3)).charging(0, 0),
        bound("free, output one below the minimum", 2, by_input(day, 10_000, 39_604)),
        bound("free, input one above the maximum", 2, by_output(day, 39_603, 9_999)),
        bound("free, the least that gives 1", 0, on(day, 2, &[1, 5, 1, 5])),
        bound("free, output 0, below the minimum", 10, on(day, 2, &[1, 4, 1, 5])),
        bound("free, output one below the net", 0, by_output(free([1000, 1000]), 999, 999_000)),
        bound("free, output at the net, above the maximum", 11, by_output(free([1000, 1000]), 1000, 0)),
        bound("free, input 2^64 - 1", 8, by_output(free([MOST, 2]), 1, MOST)),
        bound("free, input 2^64 - 1, above the maximum", 2, by_output(free([MOST, 2]), 1, MOST - 1)),
        bound("free, input 2^64, above the maximum", 11, by_output(free([HALF, 3]), 2, 0)),
        bound("free, by input, vault at 2^64 - 1", 0, by_input(free([MOST - 2, MOST]), 2, 1)),
        bound("free, by input, vault past it", 8, by_input(free([MOST - 1, MOST]), 2, 1)),
    ];
    let at_limit =
        [("free", day), ("free, creator rate not enabled", not_enabled), ("free, fee on output", on_output)];
    for (says, pool) in at_limit {
        out.push(bound(says, 0, by_input(pool, 10_000, 39_603)).charging(0, 0));
        out.push(bound(says, 0, by_output(pool, 39_603, 10_000)).charging(0, 0));
    }
    // Each also fails the steps behind it, down to output 0 or output at the net.
    let before = [
        ("free, closed", 1, Pool { status: 4, fee_model: 3, ..day }),
        ("free, a net of 0, model 3", 11, Pool { vaults: [4, 0], fee_model: 3, ..day }),
        ("free, model 3", 9, Pool { fee_model: 3, ..day }),
    ];
    for (says, number, pool) in before {
        out.push(bound(says, number, on(pool, 2, &[1, 1, 1, 5])));
        out.push(bound(says, number, on(pool, 3, &[0, 4 * MILLION, 0, 5])));
    }
    out
}

/// The least rate sum that charges, and a creator's fee without a trade fee: all of it by the split.
fn charged_swaps() -> Vec<Bound> {
    let pool = |trade, creator| {
        let rates = rated(trade, 120_000, 40_000, creator, 0);
        Pool { enabled: true, rates, ..day() }
    };
    let by_input = |pool, input, minimum| on(pool, 2, &[0, input, minimum, 5]);
    let by_output = |pool, output, maximum| on(pool, 3, &[0, output, maximum, 5]);
    vec![
        bound("trade rate 1, 1 in", 10, by_input(pool(1, 0), 1, 0)),
        bound("creator rate 1, 1 in", 10, by_input(pool(0, 1), 1, 0)),
        bound("trade rate 1, by input", 0, by_input(pool(1, 0), 10_000, 39_600)).charging(1, 0),
        bound("trade rate 1, output one below the minimum", 2, by_input(pool(1, 0), 10_000, 39_601)),
        bound("creator rate 1, by input", 0, by_input(pool(0, 1), 10_000, 39_600)).charging(0, 1),
        bound("trade rate 1, by output", 0, by_output(pool(1, 0), 39_603, 10_001)).charging(1, 0),
        bound("trade rate 1, input one above the maximum", 2, by_output(pool(1, 0), 39_603, 10_000)),
        bound("creator rate 1, by output", 0, by_output(pool(0, 1), 39_603, 10_001)).charging(0, 1),
        bound("creator rate 1,000, by input", 0, by_input(pool(0, 1000), 10_000, 39_564)).charging(0, 10),
        bound("creator rate 1,000, by output", 0, by_output(pool(0, 1000), 39_603, 10_011)).charging(0, 11),
    ]
}

/// A vault at 2^64 - 1 and past it.
fn vaults() -> Vec<Bound> {
    // The net of token 0 is 1,000, which one unit of token 1 costs, and a fee of 1.
    let pool = |vault| Pool { fund: [vault - 1000, 0], ..trade([vault, 2], 1) };
    vec![
        bound("by input, vault at 2^64 - 1", 0, on(pool(MOST - 5000), 2, &[0, 5000, 1, 5])),
        bound("by input, vault past it", 8, on(pool(MOST - 4999), 2, &[0, 5000, 1, 5])),
        bound("by output, vault at 2^64 - 1", 0, on(pool(MOST - 1001), 3, &[0, 1, MOST, 5])),
        bound("by output, vault past it", 8, on(pool(MOST - 1000), 3, &[0, 1, MOST, 5])),
    ]
}

/// A counter at 2^64 - 1, after which the vault is past it (8), and past it (11).
fn booked() -> Vec<Bound> {
    let all = |protocol, fund, creator| Pool {
        vaults: [MOST, 4 * MILLION],
        enabled: true,
        rates: rated(500_000, protocol, fund, creator, 0),
        ..day()
    };
    // Of 2,000 in the trade fee is 1,000, or with the creator's 1,000 and 500.
    let swap = |pool| on(pool, 2, &[0, 2000, 1, 5]);
    let protocol = |counter| Pool { protocol: [counter, 0], ..all(MILLION, 0, 0) };
    let fund = |counter| Pool { fund: [counter, 0], ..all(0, MILLION, 0) };
    let creator = |counter| Pool { creator: [counter, 0], ..all(0, 0, 250_000) };
    vec![
        bound("protocol counter at 2^64 - 1", 8, swap(protocol(MOST - 1000))),
        bound("protocol counter past it", 11, swap(protocol(MOST - 999))),
        bound("fund counter at 2^64 - 1", 8, swap(fund(MOST - 1000))),
        bound("fund counter past it", 11, swap(fund(MOST - 999))),
        bound("creator counter at 2^64 - 1", 8, swap(creator(MOST - 500))),
        bound("creator counter past it", 11, swap(creator(MOST - 499))),
    ]
}

/// The ring of a pool by hand, in a swap and alone: head, entry's clock and sums, clock, nets.
fn at_ring(
    says: &'static str,
    number: u64,
    head: RingHead,
    entry: Entry,
    clock: u64,
    nets: [u64; 2],
) -> [Bound; 2] {
    let pool = Pool { head, ..trade(nets, 1) };
    in_swap_and_alone(says, number, pool, entry, clock)
}

/// The ring of this pool in a swap and alone; no fee is booked, so that the vaults are the nets.
fn in_swap_and_alone(says: &str, number: u64, pool: Pool, entry: Entry, clock: u64) -> [Bound; 2] {
    let Pool { head, grid, vaults: nets, .. } = pool;
    let lent = [&[u64::from(head.used), head.index, head.mark][..], &grid.words(), &entry].concat();
    // Of 3 in the fee takes 1, and 2 are enough for the swap itself to pass.
    [
        bound(says, number, at_entry(pool, entry, 2, &[0, 3, 0, clock])),
        bound(says, number, Case { kind: 36, columns: [&lent[..], &[clock], &nets].concat() }),
    ]
}

fn head(used: bool, index: u64, mark: u64) -> RingHead {
    RingHead { used, index, mark }
}

/// Clocks, marks and the index.
fn ring() -> Vec<Bound> {
    let nets = [3000, 7000];
    let entry = |clock| [clock, 1, 2, 3, 4];
    let clocks = [
        ("clock at the entry's, beyond the mark", head(true, 7, 50), 100, 100),
        ("clock one beyond the entry's and the mark", head(true, 7, 50), 100, 101),
        ("clock at the mark, beyond the entry's", head(true, 7, 100), 50, 100),
        ("clock one beyond the mark", head(true, 7, 100), 50, 101),
        ("clock before the mark, beyond the entry's", head(true, 7, 100), 50, 70),
        ("a mark of 0, clock at the entry's", head(true, 7, 0), 100, 100),
        ("a mark of 0, clock before the entry's", head(true, 7, 0), 100, 99),
        ("a mark of 0, clock one beyond the entry's", head(true, 7, 0), 100, 101),
        ("a mark of 0, entry and clock 0", head(true, 7, 0), 0, 0),
        ("14 seconds since the entry", head(true, 7, 100), 100, 114),
        ("15 seconds since the entry", head(true, 7, 100), 100, 115),
        ("15 seconds since the entry, 1 since the mark", head(true, 7, 114), 100, 115),
        ("the index moves on from 98", head(true, 98, 100), 100, 115),
        ("the index moves on from 99", head(true, 99, 100), 100, 115),
        ("first use at index 99", head(false, 99, 5), 100, 115),
        ("first use at clock 0", head(false, 0, 5), 100, 0),
    ];
    let mut out = vec![];
    for (says, head, entry_clock, clock) in clocks {
        out.extend(at_ring(says, 0, head, entry(entry_clock), clock, nets));
    }
    for used in [false, true] {
        for index in [100, 65_535, MOST] {
            out.extend(at_ring("an index past the ring", 11, head(used, index, 0), [0; 5], 115, nets));
        }
    }
    out
}

/// Price times seconds at 2^128 - 1 and past it, and sums that wrap.
fn ring_sums() -> Vec<Bound> {
    let used = |mark| head(true, 0, mark);
    // (2^64 + 1) × (2^64 - 1) is 2^128 - 1, and 2^65 × 2^63 is 2^128.
    let most = [2_147_483_649, 9_223_372_041_149_743_105];
    let past = [1, 1 << 33];
    // At 3 by 3 each price is 2^32.
    let even = [3, 3];
    let sums = |high, low| [1, high, low, 0, 0];
    [
        at_ring("price × seconds 2^128 - 1", 0, used(0), [0; 5], MOST, most),
        at_ring("price × seconds 2^128 - 1, added to 1", 0, used(0), [0, 0, 1, 0, 1], MOST, most),
        at_ring("price × seconds 2^128", 8, used(0), [0; 5], HALF, past),
        at_ring("price × seconds one price below 2^128", 0, used(0), [0; 5], HALF - 1, past),
        at_ring("a sum to 2^128 - 1", 0, used(1), sums(MOST, MOST - (1 << 32)), 2, even),
        at_ring("a sum to 2^128", 0, used(1), sums(MOST, MOST - (1 << 32) + 1), 2, even),
        at_ring("a low half to 2^64 - 1", 0, used(1), sums(5, MOST - (1 << 32)), 2, even),
        at_ring("a low half to 2^64", 0, used(1), sums(5, MOST - (1 << 32) + 1), 2, even),
    ]
    .into_iter()
    .flatten()
    .collect()
}

fn deposits() -> Vec<Bound> {
    let pool = |vaults, supply| Pool { vaults, supply, ..day() };
    let full = |vault| Pool { fund: [vault - 10, 0], ..pool([vault, 10], 10) };
    let deposit = |pool, lp| on(pool, 4, &[lp, MOST, MOST]);
    vec![
        bound("a deposit of 2^63 LP with vaults 0 and 10, supply 1", 4, deposit(pool([0, 10], 1), HALF)),
        bound("a deposit at supply 0", 4, deposit(pool([10, 10], 0), 1)),
        bound("an amount of 2^64 - 1", 8, deposit(pool([1, 1], 1), MOST)),
        bound("an amount of 2^64", 11, deposit(pool([2, 1], 1), HALF)),
        bound("an amount of 2^64 - 1, rounded up", 8, deposit(pool([47, 10], 2), 784_967_832_923_810_707)),
        bound("an amount of 2^64, rounded up", 11, deposit(pool([31, 10], 2), 1_190_112_520_884_487_201)),
        bound("a vault at 2^64 - 1", 0, deposit(full(MOST - 5), 5)),
        bound("a vault past it", 8, deposit(full(MOST - 4), 5)),
        bound("a supply at 2^64 - 1", 0, deposit(pool([1 << 40, 1 << 40], MOST - (1 << 30)), 1 << 30)),
        bound("a supply past it", 11, deposit(pool([1 << 40, 1 << 40], MOST - (1 << 30) + 1), 1 << 30)),
        bound("a vault and the supply past it", 8, deposit(pool([MOST / 2, MOST], MOST - 3), 5)),
        bound("amounts at the maximums", 0, on(day(), 4, &[3, 2, 6])),
        bound("an amount one above its maximum", 2, on(day(), 4, &[3, 1, 6])),
        bound("above a maximum and past the vault", 2, on(full(MOST - 4), 4, &[5, 4, MOST])),
        bound("a deposit, only bit 0 set", 1, on(Pool { status: 1, ..day() }, 4, &[3, 2, 6])),
        bound("a deposit, all bits but 0 set", 0, on(Pool { status: MOST - 1, ..day() }, 4, &[3, 2, 6])),
    ]
}

fn withdrawals() -> Vec<Bound> {
    let pool = |vaults, supply| Pool { vaults, supply, ..day() };
    let (hundred, two_hundred) = (pool([1000, 1000], 100), pool([1000, 1000], 200));
    let withdrawal = |pool, lp, minimum| on(pool, 5, &[lp, lp, minimum, 0]);
    vec![
        bound("200 of supply 100, nets 1,000, minimum 1,500", 2, withdrawal(hundred, 200, 1500)),
        bound("200 of supply 100, nets 1,000, minimum 1,000", 11, withdrawal(hundred, 200, 1000)),
        bound("the whole supply", 15, withdrawal(hundred, 100, 1000)),
        bound("the whole supply, minimum one above", 2, withdrawal(hundred, 100, 1001)),
        bound("half of the supply of 200", 0, withdrawal(two_hundred, 100, 500)),
        bound("half of the supply of 200, minimum one above", 2, withdrawal(two_hundred, 100, 501)),
        bound("one above the supply", 11, withdrawal(hundred, 101, 0)),
        bound("one above the worked day's supply", 11, on(day(), 5, &[2_000_001, 2_000_001, 0, 0])),
        bound("one above the owner's", 10, on(two_hundred, 5, &[11, 10, 0, 0])),
        bound("all of the owner's", 0, on(two_hundred, 5, &[10, 10, 0, 0])),
        bound("an amount of 2^64 - 1, capped, below the minimum", 2, withdrawal(pool([1, 1], 1), MOST, 2)),
        bound("an amount of 2^64, below the minimum", 11, withdrawal(pool([2, 1], 1), HALF, 3)),
        bound("an amount of 0, the other past u64", 4, withdrawal(pool([0, 10], 1), HALF, 3)),
        bound("a withdrawal at supply 0", 4, withdrawal(pool([10, 10], 0), 1, 0)),
        bound("a withdrawal, only bit 1 set", 1, on(Pool { status: 2, ..day() }, 5, &[3, 3, 0, 0])),
        bound(
            "a withdrawal, all bits but 1 set",
            0,
            on(Pool { status: MOST - 2, ..day() }, 5, &[3, 3, 0, 0]),
        ),
    ]
}

/// Document 02 (b): closed, then the amount, then the rest. The open time closes neither call.
fn closed_deposits_and_withdrawals() -> Vec<Bound> {
    // The kind, the bit that closes it, and the arguments.
    let passing =
        [("a deposit of 3", 4, 1, &[3, MOST, MOST][..]), ("a withdrawal of 3", 5, 2, &[3, 3, 0, 0])];
    let refused = [
        ("a deposit of 0", 4, 1, &[0, MOST, MOST][..]),
        ("a withdrawal of 0", 5, 2, &[0, 3, 0, 0]),
        ("a withdrawal above the owner's", 5, 2, &[4, 3, 0, 0]),
    ];
    let [sum, vault] = counters_past();
    let at_status = |status, pool| Pool { status, ..pool };
    let opens = Pool { open_time: MOST, ..day() };
    let mut out = vec![];
    for (says, kind, bit, arguments) in passing {
        let row = |more, number, pool| bound(format!("{says}, {more}"), number, on(pool, kind, arguments));
        out.extend([
            row("closed, counters' sum 2^64", 1, at_status(bit, sum)),
            row("closed, a counter above its vault", 1, at_status(bit, vault)),
            row("before the open time", 0, opens),
        ]);
    }
    for (says, kind, bit, arguments) in refused {
        let row = |more, number, pool| bound(format!("{says}, {more}"), number, on(pool, kind, arguments));
        out.extend([
            row("closed", 1, at_status(bit, day())),
            row("closed, counters' sum 2^64", 1, at_status(bit, sum)),
            row("both other bits set", 10, at_status(7 - bit, day())),
            row("before the open time", 10, opens),
            row("counters' sum 2^64", 10, sum),
            row("a counter above its vault", 10, vault),
        ]);
    }
    out
}

fn settlements() -> Vec<Bound> {
    let pool = |vault, protocol, creator| Pool {
        vaults: [vault, 10],
        protocol: [protocol, 0],
        creator: [creator, 4],
        ..day()
    };
    let by_hand = Pool { vaults: [1, 0], protocol: [0, MOST], creator: [1, 1], ..usual() };
    let mixed = Pool { vaults: [0, 10], protocol: [0, MOST], creator: [3, 2], ..day() };
    let settle = |pool, share| on(pool, 6, &[share]);
    vec![
        bound("share 1,000,000", 0, settle(pool(10, 0, 4), MILLION)),
        bound("share 1,000,001", 3, settle(pool(10, 0, 4), MILLION + 1)),
        bound("share 2^64 - 1", 3, settle(pool(10, 0, 4), MOST)),
        bound("protocol counter at 2^64 - 1", 0, settle(pool(10, MOST - 2, 4), 500_000)),
        bound("protocol counter past it", 8, settle(pool(10, MOST - 1, 4), 500_000)),
        bound("protocol counter past it, pool by hand", 8, settle(by_hand, MILLION)),
        bound("vault at the creators' amount", 0, settle(pool(3, 0, 4), 250_000)),
        bound("vault one below the creators' amount", 7, settle(pool(2, 0, 4), 250_000)),
        bound("a counter past u64 and the other vault short", 8, settle(mixed, 500_000)),
        bound("all that a creator counter can hold", 0, settle(pool(MOST, 0, MOST), 0)),
        bound("all of it shared", 0, settle(pool(0, 0, MOST), MILLION)),
        bound("all of it and 1 shared", 8, settle(pool(0, 1, MOST), MILLION)),
    ]
}

fn statuses() -> Vec<Bound> {
    let status = |status, bit, flag| on(Pool { status, ..day() }, 7, &[bit, flag]);
    let mut out = vec![
        bound("flag 2", 3, status(0, 2, 2)),
        bound("bit 3", 3, status(0, 3, 1)),
        bound("flag 2^64 - 1", 3, status(0, 0, MOST)),
        bound("bit 2^64 - 1", 3, status(0, MOST, 0)),
    ];
    for bit in 0..3 {
        for (says, held) in [("a bit of none", 0), ("a bit of all", MOST), ("a bit of all 8", 255)] {
            out.extend([0, 1].map(|flag| bound(says, 0, status(held, bit, flag))));
        }
    }
    out
}

/// Fees alone: results at 2^64 - 1 and past it, rate sums.
fn fees() -> Vec<Bound> {
    let mut out = vec![];
    for kind in [10, 13] {
        out.extend([
            bound("a fee of 2^64 - 1", 0, alone(kind, &[MOST, MILLION])),
            bound("a fee of 2^64 - 1, rounded up", 0, alone(kind, &[18_446_725_626_983_924_631, 1_000_001])),
            bound("a fee of 2^64, rounded up", 8, alone(kind, &[18_446_725_626_983_924_632, 1_000_001])),
            bound("a fee far past it", 8, alone(kind, &[MOST, MOST])),
        ]);
    }
    for kind in [11, 12, 14] {
        out.extend([
            bound("a part of 2^64 - 1", 0, alone(kind, &[MOST, MILLION])),
            bound(
                "a part of 2^64 - 1, rounded down",
                0,
                alone(kind, &[18_446_725_626_983_924_632, 1_000_001]),
            ),
            bound("a part of 2^64", 8, alone(kind, &[HALF, 2 * MILLION])),
            bound("a part far past it", 8, alone(kind, &[MOST, MOST])),
        ]);
    }
    let least = 18_446_725_626_965_477_905;
    out.extend([
        bound("a rate sum of 2^64 - 1", 0, alone(15, &[MOST, 1, MOST - 1])),
        bound("a rate sum of 2^64", 8, alone(15, &[MOST, 1, MOST])),
        bound("a rate sum of 2^64 by the trade rate", 8, alone(15, &[MOST, MOST, 1])),
        bound("a creator's part of all", 0, alone(15, &[MOST, 0, MOST])),
        bound("a rate sum of 0, of 2^64 - 1", 0, alone(15, &[MOST, 0, 0])).giving(0),
        bound("a rate sum of 0, of 25", 0, alone(15, &[25, 0, 0])).giving(0),
        bound("a rate sum of 0, of nothing", 0, alone(15, &[0, 0, 0])).giving(0),
        bound("a rate sum of 1, the creator's", 0, alone(15, &[MOST, 0, 1])).giving(MOST),
        bound("a rate sum of 1, not the creator's", 0, alone(15, &[MOST, 1, 0])).giving(0),
        bound("before the fee 2^64 - 1", 0, alone(16, &[least, 1])),
        bound("before the fee 2^64", 8, alone(16, &[least + 1, 1])),
        bound("before no fee 2^64 - 1", 0, alone(16, &[MOST, 0])),
        bound("before the highest fee", 0, alone(16, &[18_446_744_073_709, 999_999])),
        bound("before the highest fee, past u64", 8, alone(16, &[18_446_744_073_710, 999_999])),
        bound("before a fee of all", 4, alone(16, &[1, MILLION])),
        bound("before a fee above all", 4, alone(16, &[1, MILLION + 1])),
    ]);
    out
}

/// The curve alone: divisors of 0 and of 65 bits, results at 2^64 - 1 and past it.
fn curve() -> Vec<Bound> {
    vec![
        bound("by input, a divisor of 0", 11, alone(20, &[0, 0, 5])),
        bound("by input, a divisor of 1", 0, alone(20, &[0, 1, 5])),
        bound("by input, a divisor of 2^64 - 1", 0, alone(20, &[1, MOST - 1, MOST])),
        bound("by input, a divisor of 2^64", 0, alone(20, &[1, MOST, MOST])),
        bound("by input, the greatest divisor", 0, alone(20, &[MOST, MOST, MOST])),
        bound("by input, all of the net", 0, alone(20, &[MOST, 0, MOST])),
        bound("by output, one below the net", 0, alone(21, &[4, 5, 5])),
        bound("by output, the net", 11, alone(21, &[5, 5, 5])),
        bound("by output, above the net", 11, alone(21, &[6, 5, 5])),
        bound("by output, 2^64 - 1", 0, alone(21, &[1, MOST, 2])),
        bound("by output, 2^64 - 1, rounded up", 0, alone(21, &[47, 784_967_832_923_810_707, 49])),
        bound("by output, 2^64", 11, alone(21, &[2, HALF, 3])),
        bound("by output, 2^64, rounded up", 11, alone(21, &[31, 1_190_112_520_884_487_201, 33])),
    ]
}

fn lp_tokens() -> Vec<Bound> {
    let mut out = vec![
        bound("2^64 - 1, rounded up", 0, alone(22, &[784_967_832_923_810_707, 2, 47, 1, 1])),
        bound("2^64, rounded up", 11, alone(22, &[1_190_112_520_884_487_201, 2, 31, 1, 1])),
        bound("2^64 - 1, rounded down", 0, alone(22, &[1_190_112_520_884_487_201, 2, 31, 1, 0])),
        bound("a quotient of 0 that is not rounded up", 0, alone(22, &[1, 2, 1, 3, 1])),
    ];
    for up in [0, 1] {
        out.extend([
            bound("a supply of 0", 4, alone(22, &[1, 0, 1, 1, up])),
            bound("an amount of 2^64 - 1", 0, alone(22, &[MOST, 1, 1, 1, up])),
            bound("an amount of 2^64", 11, alone(22, &[HALF, 1, 2, 1, up])),
            bound("an amount of 0, the other past u64", 11, alone(22, &[HALF, 1, 0, 2, up])),
        ]);
    }
    out
}

/// The booking alone: each counter at 2^64 - 1 and past it, for each fee model.
fn bookings() -> Vec<Bound> {
    let mut out = vec![];
    for model in 0..3 {
        for (at, fee) in [(0, 8), (2, 9), (4, 10)] {
            let mut columns = vec![5, 6, 7, 8, 9, 10, model, 0, 11, 12, 13];
            // On output the creator's counter is the other token's.
            let counter = if at == 4 && model == 2 { at + 1 } else { at };
            columns[counter] = MOST - columns[fee];
            out.push(bound("a counter at 2^64 - 1", 0, alone(33, &columns)));
            columns[counter] += 1;
            out.push(bound("a counter past it", 11, alone(33, &columns)));
        }
    }
    out
}
