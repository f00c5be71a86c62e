//! Document 02 (c): the charge alone, and in each call the tests that look at what is sent, arrives,
//! leaves or is received.

use super::*;
use record::Charge;

/// Points and maximum.
pub type Terms = [u64; 2];

const NONE: Terms = [0, 0];
/// Those of the worked opening with charges.
pub const WORKED: [Terms; 2] = [[100, 50], [25, MOST]];
/// A maximum of 1 is charged on every amount above 0.
const ONE: Terms = [1, 1];
/// By hand: an amount above 0 never arrives, and none above 0 can be sent for.
pub const ALL: Terms = [10_000, MOST];
/// Half of it, rounded up.
const HALVED: Terms = [5000, MOST];

pub fn bounds() -> Vec<Bound> {
    let named = [
        charges(),
        least_sent(),
        openings(),
        arriving(),
        before_arriving(),
        received(),
        wanted_output(),
        input_to_send(),
        vaults(),
        deposits(),
        withdrawals(),
        settlements(),
    ];
    named.into_iter().flatten().collect()
}

impl Bound {
    /// The charges on token 0 and token 1.
    fn paying(self, charge_0: u64, charge_1: u64) -> Bound {
        self.also(&[("charge 0", charge_0), ("charge 1", charge_1)])
    }

    fn also(mut self, columns: &[(&'static str, u64)]) -> Bound {
        self.shows.extend(columns);
        self
    }
}

pub fn with(pool: Pool, [token_0, token_1]: [Terms; 2]) -> Pool {
    let charge = |[points, maximum]: Terms| Charge { points, maximum };
    Pool { charges: [charge(token_0), charge(token_1)], ..pool }
}

/// The charge on an amount, rounded up and capped twice.
fn charges() -> Vec<Bound> {
    let on = |says: &str, amount, [points, maximum]: Terms, charge| {
        bound(format!("charge on {says}"), 0, alone(18, &[amount, points, maximum])).giving(charge)
    };
    let all_but = MOST - 1_844_674_407_370_955;
    vec![
        on("0 at 9,999 points", 0, [9999, MOST], 0),
        on("1 at 1 point", 1, [1, MOST], 1),
        on("10,000 at 1 point", 10_000, [1, MOST], 1),
        on("10,001 at 1 point", 10_001, [1, MOST], 2),
        on("10,000 at 100 points, maximum 101", 10_000, [100, 101], 100),
        on("10,000 at 100 points, maximum 100", 10_000, [100, 100], 100),
        on("10,000 at 100 points, maximum 99", 10_000, [100, 99], 99),
        on("10,000 at 100 points, maximum 0", 10_000, [100, 0], 0),
        on("10,000 at 0 points", 10_000, [0, MOST], 0),
        on("7 at 10,000 points", 7, ALL, 7),
        on("7 at 10,001 points", 7, [10_001, MOST], 7),
        on("7 at 20,000 points, maximum 6", 7, [20_000, 6], 6),
        on("7 at 2^64 - 1 points", 7, [MOST, MOST], 7),
        on("2^64 - 1 at 1 point", MOST, [1, MOST], 1_844_674_407_370_956),
        on("2^64 - 1 at 9,999 points", MOST, [9999, MOST], all_but),
        on("2^64 - 1 at 2^64 - 1 points", MOST, [MOST, MOST], MOST),
        on("2^64 - 1 at 2^64 - 1 points, maximum 2^63", MOST, [MOST, HALF], HALF),
    ]
}

/// The charge on the least that is sent, and 14 above the most that can arrive.
fn least_sent() -> Vec<Bound> {
    let least = |says: &str, wanted, [points, maximum]: Terms, charge: Option<u64>| {
        let row = bound(
            format!("least sent for {says}"),
            if charge.is_some() { 0 } else { 14 },
            alone(19, &[wanted, points, maximum]),
        );
        row.giving(charge.unwrap_or(0))
    };
    vec![
        least("0 at 9,999 points", 0, [9999, MOST], Some(0)),
        least("0 at 10,000 points", 0, ALL, Some(0)),
        least("1 at 10,000 points", 1, ALL, None),
        least("1 at 10,000 points, maximum one less", 1, [10_000, MOST - 1], Some(MOST - 1)),
        least("1 at 1 point", 1, [1, MOST], Some(1)),
        least("9,998 at 1 point", 9998, [1, MOST], Some(1)),
        least("9,999 at 1 point", 9999, [1, MOST], Some(1)),
        least("10,000 at 1 point", 10_000, [1, MOST], Some(2)),
        least("10 at 9,999 points, maximum 99,990", 10, [9999, 99_990], Some(99_990)),
        least("10 at 9,999 points, maximum 99,989", 10, [9999, 99_989], Some(99_989)),
        least("2^64 - 1 at 0 points", MOST, [0, MOST], Some(0)),
        least("2^64 - 1, maximum 0", MOST, [9999, 0], Some(0)),
        least("2^64 - 51, maximum 50", MOST - 50, [1, 50], Some(50)),
        least("2^64 - 50, maximum 50", MOST - 49, [1, 50], None),
        least("2^64 - 6 at 20,000 points, maximum 5", MOST - 5, [20_000, 5], Some(5)),
        least("2^64 - 5 at 20,000 points, maximum 5", MOST - 4, [20_000, 5], None),
        least("the most at 1 point", 18_444_899_399_302_180_659, [1, MOST], Some(1_844_674_407_370_956)),
        least("one above it", 18_444_899_399_302_180_660, [1, MOST], None),
        least("the most at 5,000 points", HALF - 1, HALVED, Some(HALF - 1)),
        least("one above it", HALF, HALVED, None),
        least(
            "the most at 9,999 points",
            1_844_674_407_370_955,
            [9999, MOST],
            Some(18_444_899_399_302_179_045),
        ),
        least("one above it", 1_844_674_407_370_956, [9999, MOST], None),
    ]
}

/// Points above 9,999: 3, behind the fee model and before the supply.
fn openings() -> Vec<Bound> {
    let opening = |amount, model, share, [token_0, token_1]: [Terms; 2]| {
        let terms = [amount, amount, model, 0, 0, 2500, 120_000, 40_000, 0, share];
        alone(1, &[&terms[..], &token_0, &token_1, &Grid::DEFAULT.words()].concat())
    };
    let past = [[10_000, 0], NONE];
    vec![
        bound("opening, 9,999 points", 0, opening(101, 0, 0, [[9999, MOST], [9999, 0]])).paying(0, 0),
        bound("opening, 10,000 points", 3, opening(101, 0, 0, past)),
        bound("opening, 2^64 - 1 points", 3, opening(101, 0, 0, [[MOST, 0], NONE])),
        bound("opening, 9,999 and 10,000 points", 3, opening(101, 0, 0, [[10_000, 0], [9999, 0]])),
        bound("opening, maximums 2^64 - 1", 0, opening(101, 0, 0, [[0, MOST], [0, MOST]])),
        bound("opening of 0, 10,000 points", 6, opening(0, 0, 0, past)),
        bound("opening, model 3, 10,000 points", 9, opening(101, 3, 0, past)),
        bound("opening, 10,000 points, supply 5", 3, opening(5, 0, 0, past)),
        bound("opening, 9,999 points, supply 100", 13, opening(100, 0, 0, [[9999, 0], NONE])),
        bound("opening, share past and 10,000 points", 3, opening(101, 0, MILLION + 1, past)),
    ]
}

/// By input: what arrives is 0, and the least of which 1 arrives. The pool charges no fee.
fn arriving() -> Vec<Bound> {
    let by_input = |charge, amount| on(with(free([1000, 5000]), [charge, NONE]), 2, &[0, amount, 0, 5]);
    let one_in = [("in 0", 1), ("out 1", 4)];
    vec![
        bound("1 in at 1 point, 0 arrive", 10, by_input([1, MOST], 1)),
        bound("2 in at 1 point, 1 arrives", 0, by_input([1, MOST], 2)).paying(1, 0).also(&one_in),
        bound("1 in at 9,999 points, maximum 0", 0, by_input([9999, 0], 1)).paying(0, 0).also(&one_in),
        bound("1 in at 0 points, maximum 2^64 - 1", 0, by_input([0, MOST], 1)).paying(0, 0).also(&one_in),
        bound("9,999 in at 9,999 points", 10, by_input([9999, MOST], 9999)),
        bound("10,000 in at 9,999 points", 0, by_input([9999, MOST], 10_000)).paying(9999, 0).also(&one_in),
        bound("5 in at 10,000 points, maximum 5", 10, by_input([10_000, 5], 5)),
        bound("6 in at 10,000 points, maximum 5", 0, by_input([10_000, 5], 6)).paying(5, 0).also(&one_in),
        bound("2^64 - 1 in at 10,000 points", 10, by_input(ALL, MOST)),
        bound("2^64 - 1 in, maximum one less", 0, by_input([MOST, MOST - 1], MOST)).also(&one_in),
    ]
}

/// By input: what comes before and behind 'what arrives is 0'. Of an unknown direction the amount itself
/// is looked at, though both tokens would be charged all of it.
fn before_arriving() -> Vec<Bound> {
    let all = |pool| with(pool, [ALL, ALL]);
    let limits = Pool { rates: rated(MILLION, 0, 0, 0, 0), ..day() };
    let closed = |pool| Pool { status: 4, ..pool };
    let opens = Pool { open_time: 100, ..day() };
    let [sum, vault] = counters_past();
    let empty = Pool { vaults: [0, 0], ..day() };
    let model = Pool { fee_model: 3, ..day() };
    // The pool, and direction, amount and clock.
    let rows = [
        ("rates past the limits", 3, limits, [0, 10, 5]),
        ("rates past the limits, direction 2", 3, limits, [2, 10, 5]),
        ("closed", 1, closed(day()), [0, 10, 5]),
        ("closed, direction 2", 1, closed(day()), [2, 10, 5]),
        ("before the open time", 1, opens, [0, 10, 99]),
        ("at the open time", 10, opens, [0, 10, 100]),
        ("counters' sum 2^64", 10, sum, [0, 10, 5]),
        ("a counter above its vault", 10, vault, [0, 10, 5]),
        ("a net of 0", 10, empty, [0, 10, 5]),
        ("model 3", 10, model, [0, 10, 5]),
        ("direction 2", 5, day(), [2, 1, 5]),
        ("direction 2^64 - 1", 5, day(), [MOST, MOST, 5]),
        ("direction 2, of 0", 10, day(), [2, 0, 5]),
        ("direction 2, counters' sum 2^64", 5, sum, [2, 1, 5]),
    ];
    let mut out = vec![];
    for (says, number, pool, [direction, amount, clock]) in rows {
        let case = on(all(pool), 2, &[direction, amount, 0, clock]);
        out.push(bound(format!("0 arrive, {says}"), number, case));
    }
    out
}

/// By input: what is received is 0, and below the minimum.
fn received() -> Vec<Bound> {
    let worked = |minimum| on(with(day(), WORKED), 2, &[0, 10_000, minimum, 5]);
    // Of 2 and 3 in, 1 and 2 leave.
    let even =
        |charge, amount, minimum| on(with(free([1000, 1000]), [NONE, charge]), 2, &[0, amount, minimum, 5]);
    // The counter or the vault would be past u64 behind these tests.
    let past = Pool { protocol: [MOST - 1000, 0], ..trade([MOST, 1000], 500_000) };
    let past = Pool { rates: rated(500_000, MILLION, 0, 0, 0), ..past };
    vec![
        bound("39,210 received at the minimum", 0, worked(39_210)).paying(50, 99),
        bound("received one below the minimum", 2, worked(39_211)),
        bound("what leaves is at the minimum", 2, worked(39_309)),
        bound("1 leaves, 0 are received", 10, even(HALVED, 2, 0)),
        bound("1 leaves, 0 are received, minimum 1", 10, even(HALVED, 2, 1)),
        bound("2 leave, 1 is received", 0, even(HALVED, 3, 1)).paying(0, 1),
        bound("2 leave, 1 is received, minimum 2", 2, even(HALVED, 3, 2)),
        bound("all that leaves is charged", 10, even(ALL, 1000, 0)),
        bound("500 leave, 499 are charged", 0, even([10_000, 499], 1000, 1)).paying(0, 499),
        bound("500 leave, 500 are charged", 10, even([10_000, 500], 1000, 1)),
        bound("0 received, a counter past u64", 10, on(with(past, [NONE, ALL]), 2, &[0, 4000, 0, 5])),
        bound(
            "below the minimum, a counter past u64",
            2,
            on(with(past, [NONE, ONE]), 2, &[0, 4000, MOST, 5]),
        ),
        bound("a counter past u64", 11, on(with(past, [NONE, ONE]), 2, &[0, 4000, 1, 5])),
    ]
}

/// By output: 14 where no u64 leaves the wanted output, right behind the direction; and what leaves
/// against the net.
fn wanted_output() -> Vec<Bound> {
    let one = |pool| with(pool, [NONE, ONE]);
    let by_output = |pool, output| on(pool, 3, &[0, output, MOST, 5]);
    let even = with(trade([1000, 1000], 1), [NONE, [100, MOST]]);
    let [sum, vault] = counters_past();
    let limits = Pool { rates: rated(MILLION, 0, 0, 0, 0), ..day() };
    let closed = Pool { status: 4, ..day() };
    let opens = Pool { open_time: 6, ..day() };
    let empty = Pool { vaults: [0, 0], ..day() };
    let model = Pool { fee_model: 3, ..day() };
    let mut out = vec![
        bound("989 out, 999 of 1,000 leave", 0, by_output(even, 989))
            .also(&[("out 1", 999), ("charge 1", 10)]),
        bound("990 out, 1,000 of 1,000 leave", 11, by_output(even, 990)),
        bound("0 out, nothing can be sent for more", 10, by_output(with(day(), [ALL, ALL]), 0)),
        bound("1 out, nothing can be sent for it", 14, by_output(with(day(), [NONE, ALL]), 1)),
        bound("1 out, the input's charge takes all", 14, by_output(with(day(), [ALL, NONE]), 1)),
        bound("2^64 - 1 out, direction 2", 5, on(with(day(), [ALL, ALL]), 3, &[2, MOST, MOST, 5])),
    ];
    // The pool, the number at 2^64 - 1 wanted, and at one less, for which 2^64 - 1 can leave.
    let rows = [
        ("rates past the limits", 3, 3, limits),
        ("closed", 1, 1, closed),
        ("before the open time", 1, 1, opens),
        ("counters' sum 2^64", 14, 8, sum),
        ("a counter above its vault", 14, 7, vault),
        ("a net of 0", 14, 11, empty),
        ("model 3", 14, 9, model),
        ("above the net", 14, 11, day()),
    ];
    for (says, none, least, pool) in rows {
        out.push(bound(format!("2^64 - 1 out, {says}"), none, by_output(one(pool), MOST)));
        out.push(bound(format!("2^64 - 2 out, {says}"), least, by_output(one(pool), MOST - 1)));
    }
    out
}

/// By output: 14 where no u64 leaves the input, behind its u64 test and before the maximum; what is sent
/// against the maximum.
fn input_to_send() -> Vec<Bound> {
    let worked = |maximum| on(with(day(), WORKED), 3, &[0, 39_210, maximum, 5]);
    // Of 4 tokens 1 with 1 of fee 2 leave the curve, which costs the net of token 0 once more.
    let pool = |net_in, charge| with(creator([net_in, 4], 1), [charge, NONE]);
    let by_output = |pool, maximum| on(pool, 3, &[0, 1, maximum, 5]);
    let past = with(creator([HALF, 3], 1), [ONE, NONE]);
    vec![
        bound("10,000 sent at the maximum", 0, worked(10_000)).paying(50, 99),
        bound("sent one above the maximum", 2, worked(9999)),
        bound("what arrives is at the maximum", 2, worked(9950)),
        bound("input 2^64 - 1, charge 0", 8, by_output(pool(MOST, [1, 0]), MOST)),
        bound("input 2^64 - 1, charge 1", 14, by_output(pool(MOST, ONE), MOST)),
        bound("input 2^64 - 1, charge 1, above the maximum", 14, by_output(pool(MOST, ONE), 0)),
        bound("input 2^64 - 2, charge 1", 8, by_output(pool(MOST - 1, ONE), MOST)),
        bound("input 2^64 - 2, charge 1, above the maximum", 2, by_output(pool(MOST - 1, ONE), MOST - 1)),
        bound("input 2^64, charge 1, above the maximum", 11, by_output(past, 0)),
        bound("input 2^63, half is charged", 14, by_output(pool(HALF, HALVED), 0)),
        bound("input 2^63 - 1, half is charged", 0, by_output(pool(HALF - 1, HALVED), MOST - 1))
            .also(&[("in 0", HALF - 1), ("charge 0", HALF - 1)]),
        bound("input 2^63 - 1, half is charged, maximum", 2, by_output(pool(HALF - 1, HALVED), MOST - 2)),
    ]
}

/// The vault counts what arrives, and loses what leaves.
fn vaults() -> Vec<Bound> {
    // The net of token 0 is 1,000, which one unit of token 1 costs, and a fee of 1.
    let pool = |vault| {
        let pool = Pool { fund: [vault - 1000, 0], ..trade([vault, 2], 1) };
        with(pool, [[100, 50], NONE])
    };
    let by_input = |vault| on(pool(vault), 2, &[0, 5050, 1, 5]);
    let by_output = |vault| on(pool(vault), 3, &[0, 1, MOST, 5]);
    vec![
        bound("5,000 of 5,050 arrive, vault at 2^64 - 1", 0, by_input(MOST - 5000)).paying(50, 0),
        bound("5,000 of 5,050 arrive, vault past it", 8, by_input(MOST - 4999)),
        bound("1,001 of 1,012 arrive, vault at 2^64 - 1", 0, by_output(MOST - 1001)).paying(11, 0),
        bound("1,001 of 1,012 arrive, vault past it", 8, by_output(MOST - 1000)),
    ]
}

/// Of both tokens 11, then 14, then the maximums, then the vaults.
fn deposits() -> Vec<Bound> {
    let pool = |vaults, supply, charges| with(Pool { vaults, supply, ..day() }, charges);
    let worked = |maximums: [u64; 2]| on(with(day(), WORKED), 4, &[&[10_000][..], &maximums].concat());
    let deposit = |pool, lp, maximum| on(pool, 4, &[lp, maximum, MOST]);
    let even = |charges| pool([1, 1], 1, charges);
    let full = |vault| Pool { fund: [vault - 10, 0], ..pool([vault, 10], 10, [HALVED, HALVED]) };
    let one = [ONE, NONE];
    vec![
        bound("sent at the maximums", 0, worked([5050, 20_051])).paying(50, 51),
        bound("sent one above a maximum", 2, worked([5049, 20_051])),
        bound("what arrives is at the maximum", 2, worked([5000, MOST])),
        bound("2^64 - 1 to arrive, charge 0", 8, deposit(even([[1, 0], NONE]), MOST, MOST)),
        bound("2^64 - 1 to arrive, charge 1", 14, deposit(even(one), MOST, MOST)),
        bound("2^64 - 1 to arrive, above the maximum", 14, deposit(even(one), MOST, 0)),
        bound("2^64 - 1 to arrive, the other above", 14, on(even(one), 4, &[MOST, MOST, 0])),
        bound("2^64 - 2 to arrive, charge 1", 0, deposit(even(one), MOST - 1, MOST)).paying(1, 0),
        bound("2^64 - 2 to arrive, above the maximum", 2, deposit(even(one), MOST - 1, MOST - 1)),
        bound(
            "2^64 to arrive, none to send of the other",
            11,
            deposit(pool([2, 1], 1, [NONE, ALL]), HALF, 0),
        ),
        bound("2^64 to arrive, none to send of it", 11, deposit(pool([2, 1], 1, [ALL, NONE]), HALF, 0)),
        bound("0 to arrive, none to send of the other", 4, deposit(pool([0, 9], 1, [NONE, ALL]), 1, 0)),
        bound("none to send, closed", 1, deposit(Pool { status: 1, ..even([ALL, ALL]) }, 1, 0)),
        bound("LP 0, none to send for more", 10, deposit(even([ALL, ALL]), 0, 0)),
        bound("none to send of either", 14, deposit(even([ALL, ALL]), 1, 0)),
        bound("5 of 10 arrive, vault at 2^64 - 1", 0, deposit(full(MOST - 5), 5, 10)).paying(5, 5),
        bound("5 of 10 arrive, vault past it", 8, deposit(full(MOST - 4), 5, 10)),
        bound("10 to send, above the maximum, vault past it", 2, deposit(full(MOST - 4), 5, 9)),
    ]
}

/// Capped at the nets, then charged; an owner may receive nothing.
fn withdrawals() -> Vec<Bound> {
    let worked =
        |minimums: [u64; 2]| on(with(day(), WORKED), 5, &[&[10_000, 10_000][..], &minimums].concat());
    let of_day = |charges, minimum| on(with(day(), charges), 5, &[3, 3, minimum, 0]);
    let even = |supply| with(Pool { vaults: [1000, 1000], supply, ..day() }, [[100, MOST], NONE]);
    let capped = |minimum| on(even(100), 5, &[200, 200, minimum, 0]);
    vec![
        bound("received at the minimums", 0, worked([4950, 19_950])).paying(50, 50),
        bound("received one below a minimum", 2, worked([4951, 19_950])),
        bound("what leaves is at the minimum", 2, worked([5000, 0])),
        bound("1 leaves, 0 are received", 0, of_day([HALVED, NONE], 0)).paying(1, 0).also(&[("out 0", 1)]),
        bound("1 leaves, 0 are received, minimum 1", 2, of_day([HALVED, NONE], 1)),
        bound("nothing is received of either", 0, of_day([ALL, ALL], 0)).paying(1, 6),
        bound("200 of 100 LP, capped, 990 received", 11, capped(990)),
        bound("200 of 100 LP, capped, below the minimum", 2, capped(991)),
        bound("the whole supply", 15, on(even(100), 5, &[100, 100, 990, 1000])),
        bound("half of the supply of 200", 0, on(even(200), 5, &[100, 100, 495, 500])).paying(5, 0),
    ]
}

/// What the creators are owed leaves the vaults whole.
fn settlements() -> Vec<Bound> {
    let pool = |vault, charge| with(Pool { vaults: [vault, 10], creator: [4, 0], ..day() }, [charge, HALVED]);
    let settle = |vault, charge, share| on(pool(vault, charge), 6, &[share]);
    vec![
        bound("of 4 to the creators 2 are charged", 0, settle(4, HALVED, 0))
            .paying(2, 0)
            .also(&[("out 0", 4)]),
        bound("vault below what leaves", 7, settle(3, HALVED, 0)),
        bound("of 3 to the creators 2 are charged", 0, settle(3, HALVED, 250_000)).paying(2, 0),
        bound("all to the creators is charged", 0, settle(4, ALL, 0)).paying(4, 0),
        bound("all is shared, nothing charged", 0, settle(0, ALL, MILLION)).paying(0, 0),
    ]
}
