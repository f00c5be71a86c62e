//! A pool's first day: opened, swapped both ways, a deposit, calls that are refused, and all withdrawn
//! but what is locked. Then a pool whose tokens are charged, and whose ring has an entry each hour.

use cp_swap::{
    Charge, Direction, Grid, Opening, Pool, Rates, Receipt, Refusal, Ring, StatusBit, LOCK_LP_AMOUNT,
};

fn main() -> Result<(), Refusal> {
    let (mut pool, mut ring) = (Pool::default(), Ring::default());
    let rates = Rates { trade: 2_500, protocol: 120_000, fund: 40_000, ..Rates::default() };
    let opening = Opening { amounts: [1_000_000, 4_000_000], rates, ..Opening::default() };

    let answer = pool.open(&mut ring, &opening);
    show("opening", &pool, answer)?;
    let answer = pool.swap_base_input(&mut ring, Direction::ZeroForOne, 10_000, 1, 100);
    show("swap by input", &pool, answer)?;
    let answer = pool.swap_base_output(&mut ring, Direction::OneForZero, 9_000, u64::MAX, 115);
    show("swap by output", &pool, answer)?;
    let answer = pool.deposit(&mut ring, 1_000, [u64::MAX; 2]);
    show("deposit", &pool, answer)?;
    let answer = pool.set_status(&mut ring, StatusBit::Swaps, true);
    show("closing the swaps", &pool, answer)?;
    let answer = pool.swap_base_input(&mut ring, Direction::ZeroForOne, 10_000, 1, 130);
    show("swap by input", &pool, answer)?;
    let answer = pool.withdraw(&mut ring, 2_001_000, 2_001_000, [0, 0]);
    show("withdrawal of all", &pool, answer)?;
    let answer = pool.withdraw(&mut ring, 2_001_000 - LOCK_LP_AMOUNT, 2_001_000, [0, 0]);
    show("withdrawal of all but the locked", &pool, answer)?;

    let charges = [Charge { points: 100, maximum: 50 }, Charge { points: 25, maximum: u64::MAX }];
    let grid = Grid { spacing: 3_600, length: 24 };
    let answer = pool.open(&mut ring, &Opening { charges, grid, ..opening });
    show("opening with charges", &pool, answer)?;
    let answer = pool.swap_base_input(&mut ring, Direction::ZeroForOne, 10_000, 39_210, 100);
    show("10000 sent for at least 39210", &pool, answer)?;
    let answer = pool.swap_base_input(&mut ring, Direction::ZeroForOne, 1, 0, 115);
    show("1 sent", &pool, answer)
}

fn show(call: &str, pool: &Pool, answer: Result<Receipt, Refusal>) -> Result<(), Refusal> {
    let [net_0, net_1] = pool.nets()?;
    match answer {
        Ok(Receipt { paid_in, paid_out, charges, .. }) => {
            print!("{call}: in {} and {}, ", paid_in[0], paid_in[1]);
            print!("out {} and {}, charges {} and {}", paid_out[0], paid_out[1], charges[0], charges[1])
        }
        Err(refusal) => print!("{call}: refused with {}", refusal.number()),
    }
    println!("; nets {net_0} and {net_1}, LP {}", pool.supply);
    Ok(())
}
