//! The plain program gives document 01's example, and the answers of the rules' model to any list.

use beside::generator::{list, Draws};
use beside::random::Random;
use record::{Call, Case, State};

const EXAMPLE: &str =
    " 0                2500              120000               40000                   0                   0
 1             1000000             4000000                   0                   0                   0
 2                   0               10000                   1                 100                   0
";
const ANSWERS: &str =
    " 0                   0                   0                   0                   0                   0
 0                   0                   0             1000000             4000000             2000000
 0               10000               39505             1009996             3960495             2000000
";

fn answers(sheet: &str) -> String {
    let mut output = Vec::new();
    plain_sheet::run(sheet.as_bytes(), &mut output).expect("memory can be written");
    String::from_utf8(output).expect("rows are ASCII")
}

fn row(kind: u64, numbers: &[u64]) -> String {
    let number = |at: usize| numbers.get(at).copied().unwrap_or(0);
    format!(
        "{kind:>2}{:>20}{:>20}{:>20}{:>20}{:>20}\n",
        number(0),
        number(1),
        number(2),
        number(3),
        number(4)
    )
}

#[test]
fn the_example_of_document_01() {
    assert_eq!(answers(EXAMPLE), ANSWERS);
}

#[test]
fn rows_that_cannot_be_read() {
    let good = row(7, &[0, 1]);
    let no_newline = good.trim_end_matches('\n');
    assert_eq!(answers(no_newline), row(0, &[]));
    assert_eq!(answers(""), "");
    for bad in [
        "\n".to_string(),
        good.replacen(" 7", " 8", 1),
        good.replacen(" 7", "07", 1),
        good.replacen("\n", "\r\n", 1),
        good.replacen("  0", " +0", 1),
        good.replacen("  0", " 00", 1),
        row(7, &[0, 1, 1]),
        row(6, &[1]),
        good[1..].to_string(),
        row(7, &[u64::MAX, 0]).replacen("15", "16", 1),
    ] {
        assert_eq!(answers(&bad), row(12, &[]), "{bad:?}");
    }
}

/// A list as a sheet: the arguments of an opening and a settlement are partly the sheet's rates, and the
/// sheet's tokens are not charged, and its rings have spacing 15 and length 100.
fn rows_of(call: &Call, case: &Case) -> String {
    match call {
        Call::Opening(_) => row(0, &case.columns[5..10]) + &row(1, &case.columns[..5]),
        Call::Settlement { .. } => row(6, &[]),
        _ => row(case.kind, case.arguments()),
    }
}

#[test]
fn lists_of_calls() {
    let mut random = Random::new(5);
    let (mut sheet, mut expected) = (String::new(), String::new());
    let mut state = model::empty();
    for _ in 0..400 {
        let opening = next(list::opening(&mut random, Draws::USUAL), &mut state, &mut sheet, &mut expected);
        for _ in 0..if opening == 0 { 40 } else { 0 } {
            let case = list::call(&mut random, &state);
            next(case, &mut state, &mut sheet, &mut expected);
        }
    }
    let given = answers(&sheet);
    for ((row, given), expected) in sheet.lines().zip(given.lines()).zip(expected.lines()) {
        assert_eq!(given, expected, "{row}");
    }
}

/// Adds a call's rows and their answers; an opening whose rates are refused is left out, since
/// the sheet would open with the rates before.
fn next(case: Case, state: &mut State, sheet: &mut String, expected: &mut String) -> u64 {
    let mut call = case.call().expect("lists hold calls");
    if let Call::Settlement { share } = &mut call {
        *share = state.pool.rates.share;
    }
    if let Call::Opening(opening) = &call {
        if model::calls::rate_limits(&opening.rates).is_err() || opening.rates.share > 1_000_000 {
            return 3;
        }
        *expected += &answer(0, [0, 0], state);
    }
    let after = model::run(state, &call);
    let shown = match call {
        Call::Opening(_) | Call::Status { .. } => [0, 0],
        Call::SwapByInput(swap) | Call::SwapByOutput(swap) if after.number == 0 => {
            let token_in = swap.direction as usize;
            [after.receipt.paid_in[token_in], after.receipt.paid_out[1 - token_in]]
        }
        Call::Deposit { .. } => after.receipt.paid_in,
        _ => after.receipt.paid_out,
    };
    // A refused opening keeps the pool that there was.
    if after.number == 0 {
        *state = after.state;
    }
    *sheet += &rows_of(&call, &case);
    *expected += &answer(after.number, shown, state);
    after.number
}

fn answer(number: u64, [first, second]: [u64; 2], state: &State) -> String {
    let [net_0, net_1] = model::calls::nets(&state.pool).expect("a list's counters are within its vaults");
    row(number, &[first, second, net_0, net_1, state.pool.supply])
}
