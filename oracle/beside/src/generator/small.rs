//! Every case over small numbers.

use record::{Case, Grid};

/// The values that each column of a kind takes; every choice of one in each is a case.
struct Choices {
    kind: u64,
    columns: Vec<Vec<u64>>,
}

const YES_NO: [u64; 2] = [0, 1];
const WORKED: [u64; 5] = [2500, 120_000, 40_000, 1000, 0];
const RATES: [[u64; 5]; 7] = [
    [0, 0, 0, 0, 0],
    WORKED,
    [0, 0, 0, 500_000, 0],
    [500_000, 1_000_000, 0, 0, 0],
    [250_000, 500_000, 500_000, 250_000, 0],
    [999_999, 0, 1_000_000, 0, 0],
    [500_000, 0, 0, 500_000, 0],
];
const PAST_LIMITS: [u64; 5] = [1_000_000, 0, 0, 0, 0];
/// Spacing and length.
const USUAL_GRID: [u64; 2] = Grid::DEFAULT.words();

pub fn cases() -> impl Iterator<Item = Case> {
    all().into_iter().flat_map(Choices::cases)
}

/// How many cases there are.
pub fn count() -> u64 {
    all().iter().map(Choices::count).sum()
}

fn all() -> Vec<Choices> {
    let mut all = alone();
    for rates in RATES {
        all.extend([2, 3].map(|kind| swaps(kind, rates)));
    }
    for rates in [RATES[0], WORKED, PAST_LIMITS] {
        all.extend([2, 3].map(|kind| refused_swaps(kind, rates)));
    }
    all.extend([deposits(), withdrawals(), settlements(), statuses(), openings(), ring()]);
    all.push(ring_past_its_end());
    for rates in [RATES[0], WORKED] {
        all.extend([2, 3].map(|kind| charged_swaps(kind, rates)));
    }
    all.extend([charged_deposits(), charged_withdrawals(), charged_settlements(), charged_openings()]);
    all.push(Choices { kind: 24, columns: vec![to(15), to(15), to(15)] });
    all.extend([locked_withdrawals(), charged_locked_withdrawals()]);
    all.extend([short_rings(), long_rings(), openings_at_grids()]);
    all.extend([2, 3].map(swaps_at_grids));
    all.extend(others_at_grids());
    for list in lists() {
        all.extend(with_list(&list));
    }
    all
}

fn to(greatest: u64) -> Vec<u64> {
    (0..=greatest).collect()
}

/// A pool without fees booked or charges, of which the caller widens single columns. One maximum is not
/// 0, which at points 0 changes nothing.
fn pool(rates: [u64; 5]) -> Vec<Vec<u64>> {
    let mut columns = vec![vec![0]; 13];
    columns.extend(rates.map(|rate| vec![rate]));
    columns.extend([vec![1], vec![99], vec![5]]);
    columns.extend([vec![0], vec![3], vec![0], vec![0]]);
    columns.extend(USUAL_GRID.map(|number| vec![number]));
    columns
}

/// Puts charges into a pool's columns; at times there are none of either token.
fn charge(columns: &mut [Vec<u64>]) {
    (columns[21], columns[22]) = (vec![0, 1, 5000, 10_000], vec![0, 1, u64::MAX]);
    (columns[23], columns[24]) = (vec![0, 9999], vec![2, u64::MAX]);
}

/// A swap's pool, with the newest entry of its ring.
fn pool_and_entry(rates: [u64; 5]) -> Vec<Vec<u64>> {
    let mut columns = pool(rates);
    columns.extend([[5], [0], [7], [0], [9]].map(Vec::from));
    columns
}

fn swaps(kind: u64, rates: [u64; 5]) -> Choices {
    let mut columns = pool_and_entry(rates);
    (columns[0], columns[1]) = (to(5), to(5));
    (columns[2], columns[7]) = (to(1), to(1));
    (columns[11], columns[12]) = (to(3), YES_NO.to_vec());
    let limits = if kind == 2 { to(2) } else { vec![1, 4, u64::MAX] };
    columns.extend([to(2), to(8), limits, vec![20]]);
    Choices { kind, columns }
}

/// Swaps that fail several of their first tests at once, and some that fail none.
fn refused_swaps(kind: u64, rates: [u64; 5]) -> Choices {
    let mut columns = pool_and_entry(rates);
    (columns[0], columns[1]) = (vec![0, 3], vec![9]);
    (columns[2], columns[4]) = (vec![0, 1, 4], vec![0, u64::MAX]);
    (columns[9], columns[10], columns[11]) = (to(7), vec![0, 20, 21], vec![0, 3]);
    let limit = if kind == 2 { 0 } else { u64::MAX };
    columns.extend([to(2), vec![0, 2], vec![limit], vec![20]]);
    Choices { kind, columns }
}

fn deposits() -> Choices {
    let mut columns = pool(WORKED);
    (columns[0], columns[1], columns[8]) = (to(6), to(6), to(6));
    (columns[4], columns[9]) = (to(1), to(1));
    columns.extend([to(8), vec![0, 1, 2, 9], vec![0, 1, 2, 9]]);
    Choices { kind: 4, columns }
}

fn withdrawals() -> Choices {
    let mut columns = pool(WORKED);
    (columns[0], columns[1], columns[8]) = (to(6), to(6), to(6));
    (columns[5], columns[9]) = (to(1), vec![0, 2]);
    columns.extend([to(8), vec![0, 3, 9], to(2), to(2)]);
    Choices { kind: 5, columns }
}

fn settlements() -> Choices {
    let mut columns = pool(WORKED);
    (columns[0], columns[1], columns[2]) = (to(6), to(6), to(2));
    (columns[6], columns[7]) = (to(6), to(6));
    columns.push(vec![0, 1, 333_333, 500_000, 999_999, 1_000_000, 1_000_001]);
    Choices { kind: 6, columns }
}

fn charged_swaps(kind: u64, rates: [u64; 5]) -> Choices {
    let mut columns = pool_and_entry(rates);
    (columns[0], columns[1]) = (vec![1, 3, 6], vec![2, 9]);
    charge(&mut columns);
    let limits = if kind == 2 { to(2) } else { vec![1, 4, u64::MAX] };
    columns.extend([to(2), to(8), limits, vec![20]]);
    Choices { kind, columns }
}

fn charged_deposits() -> Choices {
    let mut columns = pool(WORKED);
    (columns[0], columns[1], columns[8]) = (vec![0, 2, 5], vec![3, 6], vec![1, 4]);
    charge(&mut columns);
    columns.extend([to(6), vec![0, 1, 3, 9], vec![0, 2, 9, u64::MAX]]);
    Choices { kind: 4, columns }
}

fn charged_withdrawals() -> Choices {
    let mut columns = pool(WORKED);
    (columns[0], columns[1], columns[8]) = (vec![0, 2, 5], vec![3, 6], vec![1, 4]);
    charge(&mut columns);
    columns.extend([to(6), vec![0, 9], to(2), to(2)]);
    Choices { kind: 5, columns }
}

/// Withdrawals about the locked 100 LP, some that a test before refuses.
fn locked_withdrawals() -> Choices {
    let mut columns = pool(WORKED);
    (columns[0], columns[1]) = (vec![0, 1, 101, 150, 410], vec![100, 205, 333, 1000]);
    columns[8] = vec![0, 1, 99, 100, 101, 102, 103, 107, 200, 201];
    (columns[3], columns[9]) = (to(1), vec![0, 2]);
    columns.extend([vec![0, 1, 2, 3, 5, 7, 99, 100, 101, 102, 103, 200, 202], vec![2, u64::MAX]]);
    columns.extend([vec![0, 1, 2, 102], to(1)]);
    Choices { kind: 5, columns }
}

fn charged_locked_withdrawals() -> Choices {
    let mut columns = pool(WORKED);
    (columns[0], columns[1]) = (vec![101, 410], vec![205]);
    columns[8] = vec![100, 101, 102, 103, 200];
    charge(&mut columns);
    columns.extend([vec![1, 2, 3, 100, 101, 102], vec![u64::MAX], to(2), to(1)]);
    Choices { kind: 5, columns }
}

fn charged_settlements() -> Choices {
    let mut columns = pool(WORKED);
    (columns[0], columns[1]) = (to(4), to(4));
    (columns[6], columns[7]) = (to(4), to(4));
    charge(&mut columns);
    columns.push(vec![0, 500_000]);
    Choices { kind: 6, columns }
}

fn charged_openings() -> Choices {
    let (points, maximums) = (vec![0, 1, 9999, 10_000, u64::MAX], vec![0, u64::MAX]);
    let mut columns = vec![vec![0, 100, 101]; 2];
    columns.extend([vec![0, 3], to(2), vec![0]]);
    columns.extend([vec![0, 1_000_000], vec![0], vec![0], vec![0], vec![0, 1_000_001]]);
    columns.extend([points.clone(), maximums.clone(), points, maximums]);
    columns.extend(USUAL_GRID.map(|number| vec![number]));
    Choices { kind: 1, columns }
}

fn statuses() -> Choices {
    let mut columns = pool(WORKED);
    columns[9] = to(16);
    columns.extend([to(4), to(3)]);
    Choices { kind: 7, columns }
}

fn openings() -> Choices {
    let mut columns = vec![(0..=110).step_by(5).chain([101, 102]).collect(); 2];
    columns.extend([to(3), to(2), vec![0]]);
    columns.extend([vec![0, 999_999], vec![0, 1_000_000], to(1), to(1), vec![0, 1_000_000, 1_000_001]]);
    columns.extend(vec![vec![0]; 4]);
    columns.extend(USUAL_GRID.map(|number| vec![number]));
    Choices { kind: 1, columns }
}

fn alone() -> Vec<Choices> {
    let rates = vec![0, 1, 2, 333_333, 500_000, 999_998, 999_999, 1_000_000, 1_000_001, 2_000_000];
    let mut all: Vec<Choices> = [10, 11, 12, 13, 14, 16, 17]
        .map(|kind| Choices { kind, columns: vec![to(40), rates.clone()] })
        .into();
    all.push(Choices { kind: 15, columns: vec![to(20), to(6), to(6)] });
    let points = vec![0, 1, 2, 25, 3333, 5000, 9998, 9999, 10_000, 10_001, 20_000];
    let charged = vec![to(40), points, vec![0, 1, 5, 39, u64::MAX]];
    all.extend([18, 19].map(|kind| Choices { kind, columns: charged.clone() }));
    all.extend([20, 21].map(|kind| Choices { kind, columns: vec![to(15), to(15), to(15)] }));
    all.push(Choices { kind: 22, columns: vec![to(8), to(8), to(8), to(8), YES_NO.to_vec()] });
    all.push(Choices { kind: 23, columns: vec![to(1), to(20), to(1), to(20)] });
    all.push(Choices { kind: 31, columns: vec![to(3); 8] });
    all.push(Choices { kind: 32, columns: vec![to(3); 8] });
    all.push(Choices { kind: 34, columns: vec![to(4), to(2)] });
    all.push(Choices { kind: 35, columns: vec![to(2), to(2)] });
    all
}

fn ring() -> Choices {
    let price = [vec![0, u64::MAX / 16], vec![0, 3]];
    let mut columns = vec![YES_NO.to_vec(), vec![0, 98, 99], to(4)];
    columns.extend(USUAL_GRID.map(|number| vec![number]));
    columns.extend([to(4), vec![0, u64::MAX], vec![1], vec![0], vec![u64::MAX]]);
    columns.push(to(22));
    columns.extend(price.clone());
    columns.extend(price);
    Choices { kind: 30, columns }
}

fn ring_past_its_end() -> Choices {
    let mut columns = vec![YES_NO.to_vec(), vec![100, 101, 65_535], vec![0]];
    columns.extend(USUAL_GRID.map(|number| vec![number]));
    columns.extend(vec![vec![0]; 5]);
    columns.extend([to(2), vec![0], to(1), vec![0], to(1)]);
    Choices { kind: 30, columns }
}

/// Short rings of few seconds, of no entry, and of more than the hundred; at times price times seconds is
/// past 2^128 - 1.
fn short_rings() -> Choices {
    let mut columns = vec![YES_NO.to_vec(), to(3), to(2)];
    columns.extend([vec![0, 1, 2, 3, u64::MAX], vec![0, 1, 2, 3, 99, 100, 101, u64::MAX]]);
    columns.extend([to(3), vec![0], vec![1], vec![0], vec![u64::MAX]]);
    columns.extend([to(7), vec![0, u64::MAX / 2], vec![3], vec![0], vec![5]]);
    Choices { kind: 30, columns }
}

/// About the last of a hundred entries, and of one fewer.
fn long_rings() -> Choices {
    let mut columns = vec![YES_NO.to_vec(), vec![97, 98, 99], vec![0, 5]];
    columns.extend([vec![1, 15, 16, 3600], vec![98, 99, 100, 101]]);
    columns.extend([vec![5], vec![0], vec![1], vec![0], vec![2]]);
    columns.extend([vec![5, 6, 19, 20, 21, 3604, 3605], vec![0], vec![3], vec![0], vec![5]]);
    Choices { kind: 30, columns }
}

/// Swaps that reach such rings, and some that a test before refuses.
fn swaps_at_grids(kind: u64) -> Choices {
    let mut columns = pool(WORKED);
    (columns[0], columns[1], columns[9]) = (vec![0, 50], vec![90], vec![0, 4]);
    (columns[18], columns[19], columns[20]) = (YES_NO.to_vec(), to(3), vec![0, 5]);
    (columns[25], columns[26]) = (vec![0, 1, 2, 15, u64::MAX], vec![0, 1, 2, 3, 100, 101]);
    columns.extend([[5], [0], [7], [0], [9]].map(Vec::from));
    let limit = if kind == 2 { 0 } else { u64::MAX };
    columns.extend([to(1), vec![0, 9], vec![limit], vec![5, 6, 7, 19, 20]]);
    Choices { kind, columns }
}

/// Calls that look at no grid, of whichever the pool is.
fn others_at_grids() -> [Choices; 4] {
    let at_grids = |kind, arguments: Vec<Vec<u64>>| {
        let mut columns = pool(WORKED);
        (columns[0], columns[1], columns[8]) = (vec![0, 300], vec![400], vec![0, 150]);
        (columns[7], columns[19]) = (to(3), vec![0, 2, 99]);
        (columns[25], columns[26]) = (vec![0, 1, 15, 3600, 3601], vec![0, 1, 2, 99, 100, 101]);
        columns.extend(arguments);
        Choices { kind, columns }
    };
    [
        at_grids(4, vec![to(2), vec![5], vec![0, 5]]),
        at_grids(5, vec![vec![0, 2, 51], vec![150], vec![0, 9], vec![0]]),
        at_grids(6, vec![vec![0, 500_000, 1_000_001]]),
        at_grids(7, vec![to(3), to(2)]),
    ]
}

/// Grids at and past their bounds, beside what is tested before and behind them.
fn openings_at_grids() -> Choices {
    let mut columns = vec![vec![0, 100, 101]; 2];
    columns.extend([vec![0, 3], vec![0, 2], vec![0], vec![0, 1_000_000]]);
    columns.extend([vec![0], vec![0], vec![0], vec![0, 1_000_001]]);
    columns.extend([vec![0, 10_000], vec![0], vec![0], vec![0]]);
    columns.extend([vec![0, 1, 2, 15, 3599, 3600, 3601, u64::MAX], vec![0, 1, 2, 3, 99, 100, 101, u64::MAX]]);
    Choices { kind: 1, columns }
}

/// The numbers of every list of up to three entries, and of one number more; and lists of up to two with
/// balances at which a credit passes u64.
fn lists() -> Vec<Vec<Vec<u64>>> {
    let list = |numbers: usize, entry: [Vec<u64>; 2]| entry.into_iter().cycle().take(numbers).collect();
    let small = (0..=6).map(|numbers| list(numbers, [to(3), to(2)]));
    let great = [2, 4].map(|numbers| list(numbers, [to(3), vec![0, 1, u64::MAX - 1, u64::MAX]]));
    small.chain(great).collect()
}

/// Calls with this list by holders 0 to 3, and the reading of their balances.
fn with_list(list: &[Vec<u64>]) -> [Choices; 4] {
    let behind =
        |kind, columns: Vec<Vec<u64>>| Choices { kind, columns: [&columns[..], &[to(3)], list].concat() };
    let mut opening = vec![vec![0, 101]; 2];
    opening.extend([vec![0, 3], vec![0], vec![0], vec![0, 1_000_000]]);
    opening.extend(vec![vec![0]; 8]);
    opening.extend(USUAL_GRID.map(|number| vec![number]));
    // Of 102 LP two can be withdrawn; vault 0 is full or not.
    let mut pool = pool(WORKED);
    (pool[0], pool[1], pool[8]) = (vec![204, u64::MAX], vec![204], vec![102]);
    (pool[2], pool[9]) = (vec![0, u64::MAX - 204], vec![0, 3]);
    let call = |limit: u64| [&pool[..], &[to(3), vec![limit], vec![limit]]].concat();
    [behind(40, vec![]), behind(41, opening), behind(44, call(u64::MAX)), behind(45, call(0))]
}

impl Choices {
    fn count(&self) -> u64 {
        self.columns.iter().map(|choices| choices.len() as u64).product()
    }

    /// The case whose choices are the digits of this number, the first column's the lowest.
    fn case(&self, mut number: u64) -> Case {
        let mut choose = |choices: &Vec<u64>| {
            let chosen = choices[(number % choices.len() as u64) as usize];
            number /= choices.len() as u64;
            chosen
        };
        Case { kind: self.kind, columns: self.columns.iter().map(&mut choose).collect() }
    }

    fn cases(self) -> impl Iterator<Item = Case> {
        (0..self.count()).map(move |number| self.case(number))
    }
}
