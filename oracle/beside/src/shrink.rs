//! Makes a case smaller for as long as it shows the same class.

use crate::verdict::verdict;
use record::Case;

const PASSES: usize = 12;

/// No single number of the result can be made smaller by a power of two without leaving
/// the class.
pub fn shrunk(case: &Case, class: &str) -> Case {
    smaller(case, |case| verdict(case).class == class)
}

pub fn smaller(case: &Case, keeps: impl Fn(&Case) -> bool) -> Case {
    let mut smallest = case.clone();
    for _ in 0..PASSES {
        let before = smallest.clone();
        for column in 0..smallest.columns.len() {
            lower(&mut smallest, column, &keeps);
        }
        if smallest == before {
            break;
        }
    }
    smallest
}

fn lower(case: &mut Case, column: usize, keeps: &impl Fn(&Case) -> bool) {
    let number = case.columns[column];
    case.columns[column] = 0;
    if case.is_whole() && keeps(case) {
        return;
    }
    case.columns[column] = number;
    for power in (0..64).rev() {
        let Some(less) = case.columns[column].checked_sub(1 << power) else {
            continue;
        };
        let kept = std::mem::replace(&mut case.columns[column], less);
        if !(case.is_whole() && keeps(case)) {
            case.columns[column] = kept;
        }
    }
}

/// How large a case is: the lengths of its numbers, then their sum.
pub fn size(case: &Case) -> (u32, u128) {
    let lengths = case.columns.iter().map(|number| 64 - number.leading_zeros()).sum();
    (lengths, case.columns.iter().map(|number| u128::from(*number)).sum())
}
