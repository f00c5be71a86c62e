//! Document 01's worked example and its edges, with document 02 (a), (b), (c) and (e) to (h), answered by
//! both sides. Openings are added by document 01, so there the original has no answer.

mod register;
mod slices;

use crate::left::LeftCounts;
use crate::verdict::{verdict, Side};
use record::{Answer, Call, Case, Grid, State};
use runner::Outcome;

/// What the rules say: a number, and some columns of the answer.
struct Edge {
    says: String,
    case: Case,
    number: u64,
    columns: Vec<(&'static str, u64)>,
    /// The list after a call with a register.
    list: Vec<u64>,
}

const RATES: [u64; 5] = [2500, 120_000, 40_000, 0, 0];
const CREATOR_RATES: [u64; 5] = [2500, 120_000, 40_000, 1000, 0];
/// Points and maximum of either token.
const CHARGES: [[u64; 2]; 2] = [[100, 50], [25, u64::MAX]];
const WORKED_OUTPUT: [&str; 3] = [
    " 0                   0                   0                   0                   0                   0",
    " 0                   0                   0             1000000             4000000             2000000",
    " 0               10000               39505             1009996             3960495             2000000",
];

/// Prints each edge; whether all are as the rules say.
pub fn all() -> bool {
    let worked = worked_example();
    let edges: Vec<Edge> = edges().into_iter().chain(slices::worked()).collect();
    let right = edges.iter().filter(|edge| edge.holds()).count();
    LeftCounts::of(edges.iter().map(|edge| &edge.case)).print();
    println!("{right} of {} edges as the rules say", edges.len());
    worked && right == edges.len()
}

/// The edges but those of slices, as cases for the sample.
pub fn cases() -> Vec<Case> {
    edges().into_iter().map(|edge| edge.case).collect()
}

/// Those of slices.
pub fn slice_cases() -> Vec<Case> {
    slices::worked().into_iter().map(|edge| edge.case).collect()
}

fn edges() -> Vec<Edge> {
    let named = [
        worked_day(),
        calls(),
        creator_fees(),
        free_day(),
        closed_day(),
        charged_swaps(),
        charged_liquidity(),
        charges(),
        locked(),
        openings(),
        rate_limits(),
        ring(),
        grids(),
        spacings(),
        short_ring(),
        grids_by_hand(),
        register::worked(),
        register::refused(),
        register::balances(),
    ];
    named.into_iter().flatten().collect()
}

fn opening(amounts: [u64; 2], model: u64, enabled: u64, rates: [u64; 5]) -> Case {
    let terms = [&amounts[..], &[model, enabled, 0], &rates].concat();
    Case { kind: 1, columns: [&terms[..], &[0; 4], &Grid::DEFAULT.words()].concat() }
}

/// The worked opening with these points and maximums.
fn charged_opening(charges: [[u64; 2]; 2]) -> Case {
    let mut case = opening([1_000_000, 4_000_000], 0, 0, RATES);
    case.columns[10..14].copy_from_slice(charges.as_flattened());
    case
}

/// The worked opening with this spacing and length.
fn opening_at(spacing: u64, length: u64) -> Case {
    let mut case = opening([1_000_000, 4_000_000], 0, 0, RATES);
    case.columns[14..].copy_from_slice(&[spacing, length]);
    case
}

fn opened(model: u64, enabled: u64, rates: [u64; 5]) -> State {
    after(&opening([1_000_000, 4_000_000], model, enabled, rates))
}

/// The state after an opening.
fn after(opening: &Case) -> State {
    model::run(&opening.state(), &opening.call().expect("an opening is a call")).state
}

fn edge(says: impl Into<String>, case: Case, number: u64, columns: &[(&'static str, u64)]) -> Edge {
    Edge { says: says.into(), case, number, columns: columns.to_vec(), list: vec![] }
}

/// The worked day, and its edges with limits that a caller would give.
fn worked_day() -> Vec<Edge> {
    let pool = opened(0, 0, RATES);
    let call = |kind, arguments: &[u64]| Case::of_call(&pool, kind, arguments);
    let worked = opening([1_000_000, 4_000_000], 0, 0, RATES);
    let paid = [("in 0", 10_000), ("out 1", 39_505)];
    vec![
        edge("opening 1,000,000 by 4,000,000", worked, 0, &[("supply", 2_000_000)]),
        edge("10,000 in gives 39,505", call(2, &[0, 10_000, 1, 100]), 0, &paid),
        edge("at most 10,000 in for 39,505", call(3, &[0, 39_505, 10_000, 100]), 0, &paid),
        edge("at most 10,000 in for 4,000,000 is 11", call(3, &[0, 4_000_000, 10_000, 100]), 11, &[]),
        edge("2 in pays a fee of 1", call(2, &[0, 2, 0, 100]), 0, &[("trade fee", 1), ("out 1", 3)]),
        edge("at most 100 for LP 1 is 4", call(4, &[1, 100, 100]), 4, &[]),
        edge("at most 100 for LP 3", call(4, &[3, 100, 100]), 0, &[("in 0", 2), ("in 1", 6)]),
        edge("3 of 2,000,000 LP", call(5, &[3, 2_000_000, 0, 0]), 0, &[("out 0", 1), ("out 1", 6)]),
    ]
}

fn calls() -> Vec<Edge> {
    let pool = opened(0, 0, RATES);
    let call = |kind, arguments: &[u64]| Case::of_call(&pool, kind, arguments);
    let most = u64::MAX;
    vec![
        edge(
            "by output 39,505 costs 10,000",
            call(3, &[0, 39_505, most, 100]),
            0,
            &[("in 0", 10_000), ("out 1", 39_505)],
        ),
        edge("by output 4,000,000 is 11", call(3, &[0, 4_000_000, most, 100]), 11, &[]),
        edge("input 1 is 10", call(2, &[0, 1, 0, 100]), 10, &[]),
        edge("fee on 2 is 1", Case { kind: 10, columns: vec![2, 2500] }, 0, &[("result", 1)]),
        edge("deposit LP 1 is 4", call(4, &[1, most, most]), 4, &[]),
        edge(
            "deposit LP 3 takes 2 and 6",
            call(4, &[3, most, most]),
            0,
            &[("in 0", 2), ("in 1", 6), ("supply", 2_000_003)],
        ),
        edge(
            "withdrawal of 3 gives 1 and 6",
            call(5, &[3, 3, 0, 0]),
            0,
            &[("out 0", 1), ("out 1", 6), ("supply", 1_999_997)],
        ),
    ]
}

fn creator_fees() -> Vec<Edge> {
    let swap = |model, enabled, rates| Case::of_call(&opened(model, enabled, rates), 2, &[0, 10_000, 1, 100]);
    vec![
        edge(
            "enabled creator rate 1,000: 10,000 in pays creator 10, trade 25",
            swap(0, 1, CREATOR_RATES),
            0,
            &[("creator fee", 10), ("trade fee", 25), ("creator fee's token", 0)],
        ),
        edge(
            "model 2, token 0 in: creator 40, out 39,465",
            swap(2, 1, CREATOR_RATES),
            0,
            &[("creator fee", 40), ("out 1", 39_465), ("creator fee's token", 1)],
        ),
        edge(
            "model 2, token 0 in: curve 39,505",
            Case { kind: 20, columns: vec![9975, 1_000_000, 4_000_000] },
            0,
            &[("result", 39_505)],
        ),
    ]
}

/// Trade and creator rate 0, fee on input: accepted, with fees of 0.
fn free_day() -> Vec<Edge> {
    let pool = opened(0, 0, [0, 120_000, 40_000, 0, 0]);
    let swapped = [
        ("in 0", 10_000),
        ("out 1", 39_603),
        ("trade fee", 0),
        ("protocol fee", 0),
        ("fund fee", 0),
        ("creator fee", 0),
        ("vault 0", 1_010_000),
        ("vault 1", 3_960_397),
        ("protocol 0", 0),
        ("fund 0", 0),
        ("creator 0", 0),
    ];
    let swap = |kind, arguments: &[u64]| Case::of_call(&pool, kind, arguments);
    vec![
        edge("rates 0, fee on input: 10,000 in gives 39,603", swap(2, &[0, 10_000, 1, 100]), 0, &swapped),
        edge("rates 0, by output 39,603 costs 10,000", swap(3, &[0, 39_603, 10_000, 100]), 0, &swapped),
    ]
}

/// The worked day closed, and an amount that is refused too: closed comes first.
fn closed_day() -> Vec<Edge> {
    let worked = opened(0, 0, RATES);
    let closed = |bit, kind, arguments: &[u64]| {
        let after = model::run(&worked, &Call::Status { bit, flag: 1 });
        Case::of_call(&after.state, kind, arguments)
    };
    let by_output = [0, 0, 10_000, 100];
    let mut early = worked.clone();
    early.pool.open_time = 101;
    vec![
        edge("bit 2 set, by output 0 is 1", closed(2, 3, &by_output), 1, &[]),
        edge("open time 101, by output 0 at clock 100 is 1", Case::of_call(&early, 3, &by_output), 1, &[]),
        edge("bit 0 set, deposit LP 0 is 1", closed(0, 4, &[0, 100, 100]), 1, &[]),
        edge("bit 1 set, withdrawal of 0 is 1", closed(1, 5, &[0, 2_000_000, 0, 0]), 1, &[]),
        edge("bit 1 set, withdrawal of 3 of 2 LP is 1", closed(1, 5, &[3, 2, 0, 0]), 1, &[]),
    ]
}

/// What is sent, what reaches and leaves the vaults, and what is received.
fn charged_swaps() -> Vec<Edge> {
    let pool = after(&charged_opening(CHARGES));
    let call = |kind, arguments: &[u64]| Case::of_call(&pool, kind, arguments);
    let swapped = [
        ("in 0", 9950),
        ("out 1", 39_309),
        ("charge 0", 50),
        ("charge 1", 99),
        ("vault 0", 1_009_950),
        ("vault 1", 3_960_691),
    ];
    vec![
        edge("charged, 10,000 in gives 39,210", call(2, &[0, 10_000, 39_210, 100]), 0, &swapped),
        edge("charged, 10,000 in for at least 39,211 is 2", call(2, &[0, 10_000, 39_211, 100]), 2, &[]),
        edge("charged, 39,210 cost 10,000", call(3, &[0, 39_210, 10_000, 100]), 0, &swapped),
        edge("charged, 39,210 for at most 9,999 is 2", call(3, &[0, 39_210, 9999, 100]), 2, &[]),
        edge("charged, input 1 is 10", call(2, &[0, 1, 0, 100]), 10, &[]),
        edge("charged, direction 2 with input 1 is 5", call(2, &[2, 1, 0, 100]), 5, &[]),
        edge("charged, direction 2 with input 0 is 10", call(2, &[2, 0, 0, 100]), 10, &[]),
    ]
}

fn charged_liquidity() -> Vec<Edge> {
    let pool = after(&charged_opening(CHARGES));
    let call = |kind, arguments: &[u64]| Case::of_call(&pool, kind, arguments);
    let deposited = [("in 0", 5000), ("in 1", 20_000), ("charge 0", 50), ("charge 1", 51)];
    let withdrawn = [("out 0", 5000), ("out 1", 20_000), ("charge 0", 50), ("charge 1", 50)];
    vec![
        edge("charged, 10,000 LP for 5,050 and 20,051", call(4, &[10_000, 5050, 20_051]), 0, &deposited),
        edge("10,000 LP give 4,950 and 19,950", call(5, &[10_000, 10_000, 4950, 19_950]), 0, &withdrawn),
    ]
}

/// Openings with charges, and the charge on the least that is sent so that 10 arrive.
fn charges() -> Vec<Edge> {
    let most = u64::MAX;
    let opened = [("in 0", 1_000_000), ("in 1", 4_000_000), ("charge 0", 0), ("charge 1", 0)];
    let on_least = |points, maximum| Case { kind: 19, columns: vec![10, points, maximum] };
    let at_9999 = charged_opening([[9999, most], [9999, 5]]);
    vec![
        edge("opening with charges bears none", charged_opening(CHARGES), 0, &opened),
        edge("opening at 9,999 points is accepted", at_9999, 0, &opened),
        edge("opening at 10,000 points of token 0 is 3", charged_opening([[10_000, 0], [0, 0]]), 3, &[]),
        edge("opening at 10,000 points of token 1 is 3", charged_opening([[0, 0], [10_000, 0]]), 3, &[]),
        edge("of 100,000 at 9,999 points 10 arrive", on_least(9999, most), 0, &[("result", 99_990)]),
        edge("of 11 at 1 point 10 arrive", on_least(1, most), 0, &[("result", 1)]),
        edge("of 15 at 9,999 points, maximum 5, 10 arrive", on_least(9999, 5), 0, &[("result", 5)]),
    ]
}

/// Of the worked opening's LP and of the least opening's, 100 stay.
fn locked() -> Vec<Edge> {
    let (worked, least) = (opened(0, 0, RATES), after(&opening([101, 101], 0, 0, RATES)));
    let of = |pool: &State, lp, minimum_0| Case::of_call(pool, 5, &[lp, lp, minimum_0, 0]);
    let most = [("out 0", 999_950), ("out 1", 3_999_800), ("lp", 1_999_900), ("supply", 100)];
    let one = [("out 0", 1), ("out 1", 1), ("lp", 1), ("supply", 100)];
    vec![
        edge("withdrawal of 1,999,900 leaves 100 LP", of(&worked, 1_999_900, 0), 0, &most),
        edge("withdrawal of 1,999,901 is 15", of(&worked, 1_999_901, 0), 15, &[]),
        edge("withdrawal of all 2,000,000 is 15", of(&worked, 2_000_000, 0), 15, &[]),
        edge("withdrawal of 2,000,001 is 11", of(&worked, 2_000_001, 0), 11, &[]),
        edge("withdrawal of 1,999,901, minimum 999,951, is 2", of(&worked, 1_999_901, 999_951), 2, &[]),
        edge("opening 101 by 101, withdrawal of 1 leaves 100 LP", of(&least, 1, 0), 0, &one),
        edge("opening 101 by 101, withdrawal of 2 is 15", of(&least, 2, 0), 15, &[]),
    ]
}

fn openings() -> Vec<Edge> {
    vec![
        edge("opening 100 by 100 is 13", opening([100, 100], 0, 0, RATES), 13, &[]),
        edge("opening 101 by 101 is accepted", opening([101, 101], 0, 0, RATES), 0, &[("supply", 101)]),
        edge(
            "opening at trade + creator 999,999 passes",
            opening([1_000_000, 4_000_000], 0, 0, [999_000, 0, 0, 999, 0]),
            0,
            &[("supply", 2_000_000)],
        ),
        edge(
            "opening at trade 999,999 passes",
            opening([1_000_000, 4_000_000], 0, 0, [999_999, 120_000, 40_000, 0, 0]),
            0,
            &[("supply", 2_000_000)],
        ),
        edge(
            "opening at trade 999,999 + creator 1 is 3",
            opening([1_000_000, 4_000_000], 0, 0, [999_999, 120_000, 40_000, 1, 0]),
            3,
            &[],
        ),
        edge(
            "opening at 1,000,000 is 3",
            opening([1_000_000, 4_000_000], 0, 0, [999_000, 0, 0, 1000, 0]),
            3,
            &[],
        ),
    ]
}

fn rate_limits() -> Vec<Edge> {
    let swap = |creator| {
        let mut pool = opened(0, 0, [999_000, 0, 0, 999, 0]);
        pool.pool.rates.creator = creator;
        Case::of_call(&pool, 2, &[0, 10_000, 0, 100])
    };
    vec![
        edge(
            "swap at trade + creator 999,999 passes",
            swap(999),
            0,
            &[("in 0", 10_000), ("trade fee", 9990)],
        ),
        edge("swap at 1,000,000 is 3", swap(1000), 3, &[]),
    ]
}

/// Price 0 after the worked swap.
const PRICE_0: u64 = 3_960_495 * (1 << 32) / 1_009_996;

/// A swap of 10,000 tokens 0 at this clock.
fn swap_at(state: &State, clock: u64) -> Case {
    Case::of_call(state, 2, &[0, 10_000, 1, clock])
}

/// The state after such swaps, each accepted.
fn swapped_at(state: &State, clocks: &[u64]) -> State {
    let next = |state: State, clock: &u64| {
        let after = model::run(&state, &swap_at(&state, *clock).call().expect("a swap is a call"));
        assert!(after.number == 0, "the swaps before an edge are accepted");
        after.state
    };
    clocks.iter().fold(state.clone(), next)
}

/// After clock 100, a swap at 114 overwrites, at 115 advances.
fn ring() -> Vec<Edge> {
    let pool = opened(0, 0, RATES);
    let used = swapped_at(&pool, &[100]);
    let swap = |clock| swap_at(&used, clock);
    let first_case = Case::of_call(&pool, 2, &[0, 10_000, 0, 100]);
    vec![
        edge(
            "first use writes the clock 100",
            first_case,
            0,
            &[("ring index", 0), ("entry clock", 100), ("sum 0 low", 0)],
        ),
        edge(
            "after clock 100, a swap at 114 overwrites",
            swap(114),
            0,
            &[("ring index", 0), ("ring mark", 114), ("entry clock", 100), ("sum 0 low", PRICE_0 * 14)],
        ),
        edge(
            "after clock 100, a swap at 115 advances",
            swap(115),
            0,
            &[("ring index", 1), ("ring mark", 115), ("entry clock", 115), ("sum 0 low", PRICE_0 * 15)],
        ),
    ]
}

/// Openings at and past the bounds of spacing and length.
fn grids() -> Vec<Edge> {
    let with = |model, amount, spacing, length| {
        let mut case = opening_at(spacing, length);
        (case.columns[0], case.columns[1], case.columns[2]) = (amount, amount, model);
        case
    };
    let accepted = |says, spacing, length| {
        edge(says, opening_at(spacing, length), 0, &[("spacing", spacing), ("length", length)])
    };
    let refused = |says, spacing, length| {
        edge(says, opening_at(spacing, length), 3, &[("spacing", 0), ("length", 0), ("vault 0", 0)])
    };
    vec![
        accepted("opening with spacing 15 and length 100", 15, 100),
        accepted("opening with spacing 1 and length 2", 1, 2),
        accepted("opening with spacing 3,600 and length 100", 3600, 100),
        refused("opening with spacing 0 is 3", 0, 100),
        refused("opening with spacing 3,601 is 3", 3601, 100),
        refused("opening with length 1 is 3", 15, 1),
        refused("opening with length 101 is 3", 15, 101),
        refused("opening with spacing and length 0 is 3", 0, 0),
        edge("opening with model 3 and spacing 0 is 9", with(3, 4_000_000, 0, 100), 9, &[]),
        edge("opening 100 by 100 with length 101 is 3", with(0, 100, 15, 101), 3, &[]),
        edge("opening 100 by 100 with length 2 is 13", with(0, 100, 15, 2), 13, &[]),
    ]
}

/// After clock 100, the last swap that overwrites and the first that advances.
fn spacings() -> Vec<Edge> {
    let swap = |spacing, clock| swap_at(&swapped_at(&after(&opening_at(spacing, 100)), &[100]), clock);
    let later = |says, spacing, clock, index, entry_clock| {
        let sum = ("sum 0 low", PRICE_0 * (clock - 100));
        let columns = [("ring index", index), ("ring mark", clock), ("entry clock", entry_clock), sum];
        edge(says, swap(spacing, clock), 0, &columns)
    };
    let overwritten = |says, spacing, clock| later(says, spacing, clock, 0, 100);
    let advanced = |says, spacing, clock| later(says, spacing, clock, 1, clock);
    vec![
        advanced("at spacing 1, a swap at 101 advances", 1, 101),
        overwritten("at spacing 2, a swap at 101 overwrites", 2, 101),
        advanced("at spacing 2, a swap at 102 advances", 2, 102),
        overwritten("at spacing 16, a swap at 115 overwrites", 16, 115),
        overwritten("at spacing 3,600, a swap at 3,699 overwrites", 3600, 3699),
        advanced("at spacing 3,600, a swap at 3,700 advances", 3600, 3700),
    ]
}

/// At length 2 the third entry is written at index 0, at length 3 at index 2.
fn short_ring() -> Vec<Edge> {
    let swap =
        |length, clocks: &[u64], clock| swap_at(&swapped_at(&after(&opening_at(15, length)), clocks), clock);
    let at = |index, clock| [("ring index", index), ("entry clock", clock), ("ring mark", clock)];
    vec![
        edge("at length 2 the second entry is at index 1", swap(2, &[100], 115), 0, &at(1, 115)),
        edge("at length 2 the third entry is at index 0", swap(2, &[100, 115], 130), 0, &at(0, 130)),
        edge("at length 2 the fourth entry is at index 1", swap(2, &[100, 115, 130], 145), 0, &at(1, 145)),
        edge("at length 3 the third entry is at index 2", swap(3, &[100, 115], 130), 0, &at(2, 130)),
        edge("at length 3 the fourth entry is at index 0", swap(3, &[100, 115, 130], 145), 0, &at(0, 145)),
    ]
}

/// Records that no opening gives: spacing, length and index as they are, in a ring used at clock 100.
fn grids_by_hand() -> Vec<Edge> {
    let hand = |spacing, length, index, clock| {
        let mut state = swapped_at(&opened(0, 0, RATES), &[100]);
        (state.pool.grid, state.pool.head.index) = (Grid { spacing, length }, index);
        state.ring.swap(0, index as usize);
        swap_at(&state, clock)
    };
    let unused = |length, index| {
        let mut state = opened(0, 0, RATES);
        (state.pool.grid.length, state.pool.head.index) = (length, index);
        swap_at(&state, 100)
    };
    let moved = [("ring index", 1), ("entry clock", 101), ("sum 0 low", PRICE_0)];
    let stays = [("ring index", 0), ("entry clock", 115), ("sum 0 low", PRICE_0 * 15)];
    let kept = [("ring index", 0), ("entry clock", 100), ("ring mark", 9_999_999)];
    vec![
        edge("length 101 is 11", hand(15, 101, 0, 115), 11, &[]),
        edge("length 0 is 11", hand(15, 0, 0, 115), 11, &[]),
        edge("index 2 at length 2 is 11", hand(15, 2, 2, 115), 11, &[]),
        edge("index 99 at length 99 is 11", hand(15, 99, 99, 115), 11, &[]),
        edge("index 2 at length 2 is 11, though nothing is due", hand(15, 2, 2, 100), 11, &[]),
        edge("first use at index 2 of length 2 is 11", unused(2, 2), 11, &[]),
        edge("first use at length 101 is 11", unused(101, 0), 11, &[]),
        edge("first use at index 1 of length 2", unused(2, 1), 0, &[("ring index", 1), ("entry clock", 100)]),
        edge("at length 1 the index stays 0", hand(15, 1, 0, 115), 0, &stays),
        edge("at spacing 0 a swap at 101 advances", hand(0, 100, 0, 101), 0, &moved),
        edge(
            "at spacing 2^64 - 1 a swap at 9,999,999 overwrites",
            hand(u64::MAX, 100, 0, 9_999_999),
            0,
            &kept,
        ),
    ]
}

impl Edge {
    fn holds(&self) -> bool {
        let verdict = verdict(&self.case);
        let document = self.is_met(&verdict.document);
        let original = match &verdict.original {
            Some(Outcome::Answered { answer, .. }) => Some(self.is_met(answer)),
            Some(Outcome::Wide(_)) => Some(false),
            Some(Outcome::Absent(_)) | None => None,
        };
        // A swap past the rate limits is refused by document 01 alone.
        let ruled_alone = verdict.class == "rates past the limits";
        let original_says = match original {
            None if verdict.side == Side::Left => "no longer decides",
            None if verdict.side == Side::Unlisted => "FAIL",
            None => "has no such call",
            Some(true) => "ok",
            Some(false) if ruled_alone => "has no such limit",
            Some(false) => "FAIL",
        };
        let document_says = if document { "ok" } else { "FAIL" };
        println!("{:66} original {original_says}, rules {document_says}", self.says);
        document && verdict.side != Side::Unlisted && (original != Some(false) || ruled_alone)
    }

    fn is_met(&self, answer: &Answer) -> bool {
        let shown = self.case.shows(answer, &self.columns) && self.case.list_after(answer) == self.list;
        answer.number == self.number && shown
    }
}

/// The day sheet's three rows: rates and opening by document 01, the swap by the original.
fn worked_example() -> bool {
    let pool = opened(0, 0, RATES);
    let swap = Call::from_words(2, &[0, 10_000, 1, 100]).expect("a swap takes four words");
    let after = runner::run(&pool, &swap).expect("the Rust has this swap");
    let [amount_in, amount_out] = [after.receipt.paid_in[0], after.receipt.paid_out[1]];
    let rows = [
        row(0, [0, 0], &model::empty()),
        row(0, [0, 0], &pool),
        row(after.number, [amount_in, amount_out], &after.state),
    ];
    let right = rows.iter().zip(WORKED_OUTPUT).all(|(row, output)| row == output);
    rows.iter().for_each(|row| println!("{row}"));
    println!("worked example: {}", if right { "ok" } else { "FAIL" });
    right
}

fn row(number: u64, [first, second]: [u64; 2], state: &State) -> String {
    let net = |t: usize| {
        let pool = &state.pool;
        pool.vaults[t] - pool.protocol[t] - pool.fund[t] - pool.creator[t]
    };
    format!("{number:2}{first:20}{second:20}{:20}{:20}{:20}", net(0), net(1), state.pool.supply)
}
