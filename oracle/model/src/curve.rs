//! Document 01, 'constant_product.rs, then calculator.rs', before any fee, with document 02 (d).

use crate::whole::{divided_up, Whole, ONE, ZERO};

/// None where the divisor is 0.
pub fn output_for(input: Whole, net_in: Whole, net_out: Whole) -> Option<Whole> {
    let divisor = net_in + input;
    (divisor != ZERO).then(|| input * net_out / divisor)
}

/// None where the output is at or above the net.
pub fn input_for(output: Whole, net_in: Whole, net_out: Whole) -> Option<Whole> {
    (output < net_out).then(|| divided_up(net_in * output, net_out - output))
}

/// Document 02 (d): the product by the supply, quotient and remainder; the supply is not 0.
pub fn lp_divided(lp: Whole, net: Whole, supply: Whole) -> (Whole, Whole) {
    let product = lp * net;
    (product / supply, product % supply)
}

/// One token's part for LP tokens; the supply is not 0. For deposits it is rounded up,
/// but the 1 is added only where the quotient is not 0.
pub fn tokens_for(lp: Whole, supply: Whole, net: Whole, up: bool) -> Whole {
    let (quotient, remainder) = lp_divided(lp, net, supply);
    if up && quotient != ZERO && remainder != ZERO {
        quotient + ONE
    } else {
        quotient
    }
}
