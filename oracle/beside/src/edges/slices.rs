//! Document 02 (h): amounts swapped at once and in slices, the rows of crates/slicing/specs/Worked.antt.

use super::*;

/// Amount and clock.
type Slice = (u64, u64);

/// What a swap must show: charge 0, charge 1 and the output.
type Shown = [u64; 3];

/// With charges of 0.
fn gives(output: u64) -> Shown {
    [0, 0, output]
}

/// 10,000 in three, the last 15 seconds later.
const THREE: [Slice; 3] = [(3333, 100), (3333, 100), (3334, 115)];

/// The seven rows.
pub fn worked() -> Vec<Edge> {
    let day = |model, enabled, rates| opening([1_000_000, 4_000_000], model, enabled, rates);
    let (worked, charged) = (day(0, 0, RATES), charged_opening(CHARGES));
    let (on_input, on_output) = (day(0, 1, CREATOR_RATES), day(2, 1, CREATOR_RATES));
    let in_ten = [3984, 3976, 3968, 3960, 3952, 3944, 3936, 3928, 3921, 3913].map(gives);
    let fee_on_input = [13_240, 13_152, 13_069].map(gives);
    let fee_on_output = [13_237, 13_150, 13_067].map(gives);
    let charged_three = [[34, 33, 13_116], [34, 33, 13_031], [34, 33, 12_949]];
    let halves = [(15_000, 100), (15_000, 115)];
    let charged_two = [[38, 38, 3717], [37, 38, 3689]];
    let rows = [
        row("10,000 in two", &worked, 0, [(5000, 100); 2], gives(39_505), [19_849, 19_652].map(gives)),
        row("10,000 in ten", &worked, 0, [(1000, 100); 10], gives(39_505), in_ten),
        row("10,000 in three, creator fee on input", &on_input, 0, THREE, gives(39_466), fee_on_input),
        row("10,000 in three, creator fee on output", &on_output, 0, THREE, gives(39_465), fee_on_output),
        row("12 tokens 1 in two", &worked, 1, [(6, 100), (6, 115)], gives(2), [gives(1); 2]),
        row("charged, 10,000 in three", &charged, 0, THREE, [50, 99, 39_309], charged_three),
        row("charged, 30,000 tokens 1 in two", &charged, 1, halves, [50, 75, 7407], charged_two),
    ];
    rows.into_iter().flatten().collect()
}

/// The whole at clock 100, then each slice on what the one before left.
fn row<const COUNT: usize>(
    says: &str,
    opening: &Case,
    direction: u64,
    slices: [Slice; COUNT],
    whole: Shown,
    each: [Shown; COUNT],
) -> Vec<Edge> {
    let mut state = after(opening);
    let amount = slices.iter().map(|(amount, _)| amount).sum();
    let mut edges = vec![accepted(format!("{says}, at once"), &state, direction, (amount, 100), whole)];
    for (place, (slice, shown)) in (1..).zip(slices.into_iter().zip(each)) {
        let edge = accepted(format!("{says}, slice {place}"), &state, direction, slice, shown);
        state = model::run(&state, &edge.case.call().expect("a swap is a call")).state;
        edges.push(edge);
    }
    edges
}

/// A swap by input with a limit of 0.
fn accepted(says: String, state: &State, direction: u64, (amount, clock): Slice, shown: Shown) -> Edge {
    let [charge_0, charge_1, output] = shown;
    let out = if direction == 0 { "out 1" } else { "out 0" };
    let case = Case::of_call(state, 2, &[direction, amount, 0, clock]);
    edge(says, case, 0, &[("charge 0", charge_0), ("charge 1", charge_1), (out, output)])
}
