//! Functions alone and the ring alone.

use super::{charges, grids};
use crate::random::Random;
use record::{Case, Form, FORMS, RING_ENTRIES, RING_LENT};

/// The ring at nets, the division of an LP amount's product and what takes a register have cases of their
/// own, so that the others stay as they are.
const AT_NETS: u64 = 36;
const DIVISION: u64 = 24;

pub fn case(random: &mut Random) -> Case {
    let of_their_own = |form: &Form| form.takes_list() || [AT_NETS, DIVISION].contains(&form.kind);
    let alone = FORMS.iter().filter(|form| !form.is_call() && !of_their_own(form));
    let kinds: Vec<u64> = alone.map(|form| form.kind).chain([30, 30, 30]).collect();
    let kind = random.pick(&kinds);
    let columns = match kind {
        10..=17 => fee(random, kind),
        18 | 19 => charge(random, kind),
        20 | 21 => curve(random),
        22 => vec![random.any(), random.any(), random.any(), random.any(), random.below(2)],
        23 => vec![random.any(), random.any(), random.pick(&[0, 0, 1, u64::MAX]), random.any()],
        30 => ring(random),
        31 | 32 => vaults(random),
        33 => booking(random),
        34 => vec![random.below(5), random.below(3)],
        _ => vec![random.any(), random.any()],
    };
    Case { kind, columns }
}

fn rate(random: &mut Random) -> u64 {
    match random.below(4) {
        0 => random.pick(&[0, 1, 999_999, 1_000_000, 1_000_001, u64::MAX]),
        1 => random.any(),
        _ => random.up_to(1_000_000),
    }
}

fn fee(random: &mut Random, kind: u64) -> Vec<u64> {
    let mut columns = vec![random.any(), rate(random)];
    if kind == 15 {
        columns.push(rate(random));
    }
    columns
}

/// What is to arrive is also at and beside the most that can, past which there is 14.
fn charge(random: &mut Random, kind: u64) -> Vec<u64> {
    let [charge, _] = charges::by_hand(random, charges::some);
    let amount = if kind == 19 && random.chance(3) {
        random.near(charges::most_arriving(charge))
    } else {
        random.any()
    };
    vec![amount, charge.points, charge.maximum]
}

fn curve(random: &mut Random) -> Vec<u64> {
    let (amount, net_in) = (random.any(), random.any());
    let net_out = if random.chance(3) { amount.saturating_add(random.below(4)) } else { random.any() };
    vec![amount, net_in, net_out]
}

/// LP and net are also at or beside the supply, where the remainder turns over; each of the three is often
/// of full length.
pub fn division(random: &mut Random) -> Case {
    let supply = if random.chance(3) { random.word() } else { random.any() };
    let mut factor = || match random.below(4) {
        0 => random.near(supply),
        1 => random.word(),
        _ => random.any(),
    };
    Case { kind: DIVISION, columns: vec![factor(), factor(), supply] }
}

/// The ring at two nets, neither of them 0.
pub fn ring_at_nets(random: &mut Random) -> Case {
    let mut columns = ring(random);
    columns.truncate(RING_LENT + 1);
    columns.extend([random.any().max(1), random.any().max(1)]);
    Case { kind: AT_NETS, columns }
}

fn ring(random: &mut Random) -> Vec<u64> {
    let grid = grids::by_hand(random, grids::mixed);
    let used = u64::from(!random.chance(8));
    let index = grids::index(random, grid, 12);
    let mark = if random.chance(4) { 0 } else { random.any() };
    let seconds = [(); 2].map(|()| grids::seconds(random, grid));
    let entry_clock = if random.chance(3) { random.any() } else { mark.saturating_sub(seconds[0] / 2) };
    let clock = if random.chance(3) { random.any() } else { entry_clock.saturating_add(seconds[1]) };
    let mut columns = vec![used, index, mark, grid.spacing, grid.length, entry_clock];
    columns.extend((0..4).map(|_| random.any()));
    if index >= RING_ENTRIES as u64 {
        columns[5..].fill(0);
    }
    columns.push(clock);
    for _ in 0..2 {
        let high = if random.chance(2) { 0 } else { random.sized() };
        columns.extend([high, random.any()]);
    }
    columns
}

fn vaults(random: &mut Random) -> Vec<u64> {
    let mut columns = vec![random.any(), random.any()];
    let shift = random.below(64);
    columns.extend((0..6).map(|_| if shift < 4 { random.any() } else { random.sized() >> shift }));
    columns
}

fn booking(random: &mut Random) -> Vec<u64> {
    let mut columns: Vec<u64> = (0..6).map(|_| random.any()).collect();
    let model = if random.chance(10) { random.pick(&[3, 255, 256]) } else { random.below(3) };
    let direction = if random.chance(20) { 2 } else { random.below(2) };
    columns.extend([model, direction]);
    columns.extend((0..3).map(|_| random.any()));
    columns
}
