//! Document 02 (e): what a withdrawal leaves, at 100 LP and beside it, and the tests before that one.

use super::charges::{with, ALL, WORKED};
use super::*;
use record::Call;

pub fn bounds() -> Vec<Bound> {
    let named = [left(), orders(), orders_above_supply(), orders_below(), opened(), other_calls()];
    named.into_iter().flatten().collect()
}

/// A supply, and LP with the number that each gives.
type Supply = (u64, &'static [(u64, u64)]);

const SUPPLIES: [Supply; 10] = [
    (0, &[(1, 4)]),
    (1, &[(1, 15), (2, 11)]),
    (99, &[(1, 15), (98, 15), (99, 15), (100, 11)]),
    (100, &[(1, 15), (99, 15), (100, 15), (101, 11)]),
    (101, &[(1, 0), (2, 15), (100, 15), (101, 15), (102, 11)]),
    (102, &[(1, 0), (2, 0), (3, 15)]),
    (199, &[(98, 0), (99, 0), (100, 15), (199, 15), (200, 11)]),
    (200, &[(99, 0), (100, 0), (101, 15), (200, 15), (201, 11)]),
    (2 * MILLION, &[(1_999_899, 0), (1_999_900, 0), (1_999_901, 15), (2_000_000, 15), (2_000_001, 11)]),
    (MOST, &[(MOST - 101, 0), (MOST - 100, 0), (MOST - 99, 15), (MOST, 15)]),
];

/// A pool of this supply.
type Made = fn(u64) -> Pool;

/// A pool by hand that pays as much of token 0 as LP and twice as much of token 1, or a little less.
fn pool(supply: u64) -> Pool {
    let vaults = [supply, supply.saturating_mul(2)].map(|vault| vault.min(MOST - 100));
    Pool { vaults, supply, ..day() }
}

/// The same nets under fees that are booked.
fn booked(supply: u64) -> Pool {
    let Pool { vaults: [net_0, net_1], .. } = pool(supply);
    let vaults = [net_0 + 1 + 2 + 3, net_1 + 10 + 20 + 30];
    Pool { vaults, protocol: [1, 10], fund: [2, 20], creator: [3, 30], ..pool(supply) }
}

/// With closed deposits and swaps, before the open time.
fn half_closed(supply: u64) -> Pool {
    Pool { status: MOST - 2, open_time: MOST, ..pool(supply) }
}

impl Bound {
    /// The supply after an accepted withdrawal, or before a refused one.
    fn leaving(self, supply: u64) -> Bound {
        Bound { shows: vec![("supply", supply)], ..self }
    }

    fn paying_out(mut self, [out_0, out_1]: [u64; 2]) -> Bound {
        self.shows.extend([("out 0", out_0), ("out 1", out_1)]);
        self
    }
}

fn withdrawal(says: String, number: u64, pool: Pool, lp: u64) -> Bound {
    let left = if number == 0 { pool.supply - lp } else { pool.supply };
    bound(says, number, on(pool, 5, &[lp, lp, 0, 0])).leaving(left)
}

/// Each supply, plain and in other pools: nothing but the supply and the LP matters.
fn left() -> Vec<Bound> {
    let pools: [(&str, Made); 5] = [
        ("", pool),
        (", counters not 0", booked),
        (", all bits but 1 set", half_closed),
        (", charged", |supply| with(booked(supply), WORKED)),
        (", all is charged", |supply| with(pool(supply), [ALL, ALL])),
    ];
    let mut out = vec![];
    for (more, pool) in pools {
        for (supply, lps) in SUPPLIES {
            let row = |&(lp, number): &(u64, u64)| {
                withdrawal(format!("{lp} of {supply} LP{more}"), number, pool(supply), lp)
            };
            out.extend(lps.iter().map(row));
        }
    }
    out
}

/// Too little is left and a test before it fails as well, of supplies below 100, at it and above.
fn orders() -> Vec<Bound> {
    let withdrawals = [(50, 50), (100, 100), (100, 1), (101, 2), (150, 51), (2 * MILLION, 1_999_901)];
    let mut out = vec![];
    for (supply, lp) in withdrawals {
        out.extend(order("", pool(supply), lp, [lp, 2 * lp]));
        // At 10,000 points nothing is received.
        out.extend(order(", all is charged", with(booked(supply), [ALL, ALL]), lp, [0, 0]));
    }
    // Of 1,999,901 and 3,999,802 the charges take 50 and 10,000.
    let charged = with(booked(2 * MILLION), WORKED);
    out.extend(order(", charged", charged, 1_999_901, [1_999_851, 3_989_802]));
    out
}

/// The tests in their order, each failing with the last of them. The owner would receive so much.
fn order(more: &str, pool: Pool, lp: u64, [received_0, received_1]: [u64; 2]) -> Vec<Bound> {
    let closed = |pool| Pool { status: 2, ..pool };
    let sum = |pool| Pool { protocol: [MOST, 0], fund: [1, 0], ..pool };
    let vault = Pool { protocol: [pool.vaults[0] + 1, 0], ..pool };
    let empty = Pool { vaults: [0, 9], protocol: [0; 2], fund: [0; 2], creator: [0; 2], ..pool };
    let (at, one_above) = ([received_0, received_1], [received_0 + 1, received_1]);
    // The pool, the owner's LP and the minimums.
    let rows = [
        ("closed", 1, closed(pool), lp, [0, 0]),
        ("closed, above the owner's", 1, closed(pool), lp - 1, [0, 0]),
        ("closed, counters' sum 2^64", 1, closed(sum(pool)), lp, [MOST; 2]),
        ("above the owner's", 10, pool, lp - 1, [0, 0]),
        ("above the owner's, counters' sum 2^64", 10, sum(pool), lp - 1, [MOST; 2]),
        ("counters' sum 2^64", 8, sum(pool), lp, [0, 0]),
        ("counters' sum 2^64, below the minimums", 8, sum(pool), lp, [MOST; 2]),
        ("a counter above its vault", 7, vault, lp, [0, 0]),
        ("a counter above its vault, below the minimums", 7, vault, lp, [MOST; 2]),
        ("a net of 0", 4, empty, lp, [0, 0]),
        ("a net of 0, below the minimums", 4, empty, lp, [MOST; 2]),
        ("received one below a minimum", 2, pool, lp, one_above),
        ("received below both minimums", 2, pool, lp, [MOST; 2]),
        ("received at the minimums", 15, pool, lp, at),
        ("minimums 0", 15, pool, lp, [0, 0]),
        ("the owner has all", 15, pool, MOST, [0, 0]),
    ];
    let row = |(says, number, pool, owned, minimums): (&str, u64, Pool, u64, [u64; 2])| {
        let says = format!("{lp} of {} LP{more}, {says}", pool.supply);
        let case = on(pool, 5, &[&[lp, owned][..], &minimums].concat());
        bound(says, number, case).leaving(pool.supply)
    };
    rows.map(row).into()
}

/// Above the supply nothing would be left, but 11 comes first, and 2 before it.
fn orders_above_supply() -> Vec<Bound> {
    let mut out = vec![];
    for supply in [1, 50, 99, 100, 101, 2 * MILLION, MOST - 1] {
        let lp = supply + 1;
        let of = |says: &str, number, pool, minimum| {
            let case = on(pool, 5, &[lp, lp, minimum, 0]);
            bound(format!("{lp} of {supply} LP, {says}"), number, case).leaving(supply)
        };
        let net = pool(supply).vaults[0];
        let all = Pool { vaults: [MOST, MOST], ..pool(supply) };
        out.extend([
            of("capped, at the minimum", 11, pool(supply), net),
            of("capped, below the minimum", 2, pool(supply), net + 1),
            of("all is charged, at the minimum", 11, with(pool(supply), [ALL, ALL]), 0),
            of("all is charged, below the minimum", 2, with(pool(supply), [ALL, ALL]), 1),
            of("an amount past u64", 11, all, MOST),
        ]);
    }
    out
}

/// Supply 0, LP 0 and an amount that is rounded down to 0, where fewer than 100 LP would be left.
fn orders_below() -> Vec<Bound> {
    let few = |supply| Pool { vaults: [1, 1000], ..pool(supply) };
    let none = Pool { vaults: [1000, 1000], ..pool(0) };
    let zero = |says: &str, number, pool| bound(says, number, on(pool, 5, &[0, MOST, 0, 0]));
    vec![
        zero("0 of 0 LP", 10, none),
        zero("0 of 1 LP", 10, pool(1)),
        zero("0 of 99 LP", 10, pool(99)),
        zero("0 of 100 LP", 10, pool(100)),
        zero("0 of 99 LP, closed", 1, Pool { status: 2, ..pool(99) }),
        withdrawal("1 of 0 LP, nets not 0".into(), 4, none, 1),
        withdrawal("2^64 - 1 of 0 LP, nets not 0".into(), 4, none, MOST),
        withdrawal("49 of 50 LP, an amount of 0".into(), 4, few(50), 49),
        withdrawal("50 of 50 LP, an amount of 1".into(), 15, few(50), 50),
        withdrawal("149 of 150 LP, an amount of 0".into(), 4, few(150), 149),
        withdrawal("150 of 150 LP, an amount of 1".into(), 15, few(150), 150),
    ]
}

/// A call's kind and arguments.
type Words<'a> = (u64, &'a [u64]);

/// The pool after an opening, whose points and maximums stand last, and after calls.
fn after(amounts: [u64; 2], charges: [u64; 4], calls: &[Words]) -> Pool {
    let rates = [2500, 120_000, 40_000, 1000, 0];
    let opening = [&amounts[..], &[0, 1, 0], &rates, &charges, &Grid::DEFAULT.words()].concat();
    let next = |state: State, (kind, arguments): &Words| {
        let call = Call::from_words(*kind, arguments).expect("a list holds calls");
        model::run(&state, &call).state
    };
    [&[(1, &opening[..])], calls].concat().iter().fold(model::empty(), next).pool
}

/// From openings, with and without charges, and after other calls.
fn opened() -> Vec<Bound> {
    let day = |calls: &[Words]| after([MILLION, 4 * MILLION], [0; 4], calls);
    let charged = |calls: &[Words]| after([MILLION, 4 * MILLION], [100, 50, 25, MOST], calls);
    let swaps: [Words; 2] = [(2, &[0, 10_000, 0, 100]), (3, &[1, 5000, MOST, 120])];
    let most: Words = (5, &[1_999_900, 1_999_900, 0, 0]);
    let deposit: Words = (4, &[5, MOST, MOST]);
    let least = after([101, 101], [0; 4], &[]);
    let uneven = after([1, 10_201], [0; 4], &[]);
    let full = after([MOST, MOST], [0; 4], &[]);
    // What is paid out where it is accepted.
    let rows = [
        ("opened", day(&[]), 1_999_900, Ok([999_950, 3_999_800])),
        ("opened", day(&[]), 1_999_901, Err(15)),
        ("opened with charges", charged(&[]), 1_999_900, Ok([999_950, 3_999_800])),
        ("opened with charges", charged(&[]), 1_999_901, Err(15)),
        ("after swaps", day(&swaps), 1_999_900, Ok([1_004_935, 3_980_081])),
        ("after swaps", day(&swaps), 1_999_901, Err(15)),
        ("after swaps with charges", charged(&swaps), 1_999_900, Ok([1_004_835, 3_980_477])),
        ("after swaps with charges", charged(&swaps), 1_999_901, Err(15)),
        ("drained", day(&[most]), 1, Err(4)),
        ("drained", day(&[most]), 2, Err(15)),
        ("drained", day(&[most]), 100, Err(15)),
        ("drained", day(&[most]), 101, Err(11)),
        ("drained, then 5 LP", day(&[most, deposit]), 5, Ok([2, 10])),
        ("drained, then 5 LP", day(&[most, deposit]), 6, Err(15)),
        ("drained with charges, then 5 LP", charged(&[most, deposit]), 5, Ok([2, 10])),
        ("drained with charges, then 5 LP", charged(&[most, deposit]), 6, Err(15)),
        ("opened 101 by 101", least, 1, Ok([1, 1])),
        ("opened 101 by 101", least, 2, Err(15)),
        ("opened 101 by 101", least, 101, Err(15)),
        ("opened 101 by 101", least, 102, Err(11)),
        ("opened 1 by 10,201", uneven, 1, Err(4)),
        ("opened 1 by 10,201", uneven, 100, Err(4)),
        ("opened 1 by 10,201", uneven, 101, Err(15)),
        ("opened all by all", full, MOST - 100, Ok([MOST - 100, MOST - 100])),
        ("opened all by all", full, MOST - 99, Err(15)),
        ("opened all by all", full, MOST, Err(15)),
    ];
    let row = |(says, pool, lp, paid): (&str, Pool, u64, Result<[u64; 2], u64>)| {
        let row = withdrawal(format!("{says}, {lp} LP"), paid.err().unwrap_or(0), pool, lp);
        row.paying_out(paid.unwrap_or_default())
    };
    rows.map(row).into()
}

/// No other call looks at what is locked.
fn other_calls() -> Vec<Bound> {
    let mut out = vec![];
    for supply in [1, 99, 100] {
        let pool = Pool { vaults: [1000, 2000], creator: [10, 0], ..pool(supply) };
        let call = |says: &str, kind, arguments: &[u64]| {
            bound(format!("{says} at {supply} LP"), 0, on(pool, kind, arguments))
        };
        out.extend([
            call("a swap by input", 2, &[0, 100, 1, 5]),
            call("a swap by output", 3, &[0, 100, MOST, 5]),
            call("a deposit of 1", 4, &[1, MOST, MOST]).leaving(supply + 1),
            call("a settlement", 6, &[0]),
            call("a status change", 7, &[1, 1]),
        ]);
    }
    out
}
