//! Document 02 (d): an LP amount's product with a net by the supply, quotient and remainder.

use super::*;

/// LP, net and supply; the quotient's halves and the remainder.
type Row = (&'static str, [u64; 3], [u64; 3]);

pub fn bounds() -> Vec<Bound> {
    let divided = [least(), products(), quotients(), multiples(), supplies(), guesses()];
    none().into_iter().chain(divided.into_iter().flatten().map(row)).collect()
}

fn row((says, given, [high, low, remainder]): Row) -> Bound {
    let shows = vec![("quotient high", high), ("quotient low", low), ("remainder", remainder)];
    Bound { shows, ..bound(format!("division, {says}"), 0, alone(24, &given)) }
}

/// Supply 0, whatever the product: 4 and zeros.
fn none() -> Vec<Bound> {
    let rows = [
        ("nothing by supply 0", [0, 0, 0]),
        ("no LP by supply 0", [0, 5, 0]),
        ("a net of 0 by supply 0", [5, 0, 0]),
        ("all by all by supply 0", [MOST, MOST, 0]),
    ];
    rows.map(|(says, given)| Bound { number: 4, ..row((says, given, [0; 3])) }).into()
}

/// LP, net and supply of 0, 1 and all, and the worked day's.
fn least() -> Vec<Row> {
    vec![
        ("no LP by supply 1", [0, MOST, 1], [0, 0, 0]),
        ("a net of 0 by supply 1", [MOST, 0, 1], [0, 0, 0]),
        ("no LP by supply 2^64 - 1", [0, MOST, MOST], [0, 0, 0]),
        ("1 by 1 by supply 1", [1, 1, 1], [0, 1, 0]),
        ("1 by 1 by supply 2", [1, 1, 2], [0, 0, 1]),
        ("1 by 1 by supply 2^64 - 1", [1, 1, MOST], [0, 0, 1]),
        ("the worked day's 3 LP, token 0", [3, MILLION, 2 * MILLION], [0, 1, MILLION]),
        ("the worked day's 3 LP, token 1", [3, 4 * MILLION, 2 * MILLION], [0, 6, 0]),
    ]
}

/// The greatest product of 64 bits, and one more.
fn products() -> Vec<Row> {
    vec![
        ("2^64 - 1 by supply 1", [MOST, 1, 1], [0, MOST, 0]),
        ("2^64 by supply 1", [HALF, 2, 1], [1, 0, 0]),
        ("2^64 - 1 by supply 2", [1, MOST, 2], [0, HALF - 1, 1]),
        ("2^64 by supply 2", [2, HALF, 2], [0, HALF, 0]),
        ("2^64 - 1 by supply 2^64 - 1", [MOST, 1, MOST], [0, 1, 0]),
        ("2^64 by supply 2^64 - 1", [HALF, 2, MOST], [0, 1, 1]),
    ]
}

/// The least quotients, the greatest of 64 bits and one more, with and without a remainder; the greatest.
fn quotients() -> Vec<Row> {
    // (2^65 - 1) / 31 and (2^65 + 1) / 3.
    let (below, above) = (1_190_112_520_884_487_201, 12_297_829_382_473_034_411);
    vec![
        ("a quotient of 0, remainder 2^64 - 2", [MOST - 1, 1, MOST], [0, 0, MOST - 1]),
        ("a quotient of 1", [1, MOST - 1, MOST - 1], [0, 1, 0]),
        ("a quotient of 2^64 - 1", [MOST, 2, 2], [0, MOST, 0]),
        ("a quotient of 2^64 - 1, remainder 1", [below, 31, 2], [0, MOST, 1]),
        ("a quotient of 2^64", [HALF, 4, 2], [1, 0, 0]),
        ("a quotient of 2^64, remainder 1", [above, 3, 2], [1, 0, 1]),
        ("all by all by 1", [MOST, MOST, 1], [MOST - 1, 1, 0]),
        ("all by all by 2", [MOST, MOST, 2], [HALF - 1, 0, 1]),
    ]
}

/// One below a multiple of the supply, the multiple, and one above it: 64 bits and more.
fn multiples() -> Vec<Row> {
    const LONG: u64 = 10_000_000_000_000_000_000;
    vec![
        ("34 by 7", [17, 2, 7], [0, 4, 6]),
        ("35 by 7", [5, 7, 7], [0, 5, 0]),
        ("36 by 7", [6, 6, 7], [0, 5, 1]),
        ("one below 10^38 by 10^19", [LONG - 1, LONG + 1, LONG], [0, LONG - 1, LONG - 1]),
        ("10^38 by 10^19", [LONG, LONG, LONG], [0, LONG, 0]),
        ("(10^19 - 1)^2 by 10^19", [LONG - 1, LONG - 1, LONG], [0, LONG - 2, 1]),
    ]
}

/// Supplies at and beside the product's high half, 2^64 - 2: above it the quotient has 64 bits.
fn supplies() -> Vec<Row> {
    vec![
        ("all by all by 2^63", [MOST, MOST, HALF], [1, MOST - 3, 1]),
        ("all by all by 2^64 - 3", [MOST, MOST, MOST - 2], [1, 1, 4]),
        ("all by all by 2^64 - 2", [MOST, MOST, MOST - 1], [1, 0, 1]),
        ("all by all by 2^64 - 1", [MOST, MOST, MOST], [0, MOST, 0]),
    ]
}

/// By a supply whose upper 32 bits alone guess digits of 32 bits two too high.
fn guesses() -> Vec<Row> {
    const GUESSED: u64 = HALF + (1 << 32) - 1;
    vec![
        ("2^95 by 2^63 + 2^32 - 1", [1 << 32, HALF, GUESSED], [0, (1 << 32) - 2, 3 * (1 << 32) - 2]),
        ("a quotient of 2^64 - 1 by it", [MOST - 1, GUESSED + 1, GUESSED], [0, MOST, MOST - 1 - GUESSED]),
    ]
}
