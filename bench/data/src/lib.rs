//! Fresh pools and calls on them, and what every timing of such calls needs.

use beside::random::Random;
use port::Port;
use record::{filled_ring, Call, Charge, Grid, Opening, Pool, Rates, RingHead, State, Swap};
use std::hint::black_box;
use std::time::{SystemTime, UNIX_EPOCH};

/// As many pools as a processor's nearest cache holds for one side.
pub const BATCH: usize = 16;
const FIRST_CLOCK: u64 = 1_700_000_000;

#[derive(Clone, Copy, PartialEq, Eq)]
pub enum Amounts {
    /// Vaults and amounts within 32 bits.
    Small,
    /// Vaults of 63 bits.
    Wide,
}

#[derive(Clone, Copy, PartialEq, Eq)]
pub enum Clocks {
    /// The ring has counted up to this second.
    Still,
    /// Up to half a minute has passed, so that the ring is written, and half of the time moves on.
    Moving,
    /// The call has no clock.
    None,
}

#[derive(Clone, Copy)]
pub struct Bench {
    pub kind: u64,
    pub amounts: Amounts,
    pub clocks: Clocks,
}

pub struct Work {
    pub state: State,
    pub call: Call,
}

impl Amounts {
    pub fn name(self) -> &'static str {
        match self {
            Amounts::Small => "32 bits",
            Amounts::Wide => "64 bits",
        }
    }

    fn vault(self, random: &mut Random) -> u64 {
        match self {
            Amounts::Small => (1 << 24) + random.below(1 << 31),
            Amounts::Wide => (1 << 62) + random.below(1 << 62),
        }
    }

    fn counter(self, random: &mut Random) -> u64 {
        match self {
            Amounts::Small => random.below(1 << 16),
            Amounts::Wide => random.below(1 << 50),
        }
    }
}

impl Clocks {
    pub fn name(self) -> &'static str {
        match self {
            Clocks::Still => "still",
            Clocks::Moving => "moving",
            Clocks::None => "",
        }
    }
}

impl Bench {
    pub fn name(&self) -> &'static str {
        record::form(self.kind).expect("every call has its form").name
    }

    pub fn label(&self) -> String {
        let words = [self.name(), self.amounts.name(), self.clocks.name()];
        words.into_iter().filter(|word| !word.is_empty()).collect::<Vec<_>>().join(", ")
    }

    /// A call at this clock; nearly all are accepted.
    pub fn work(&self, random: &mut Random, clock: u64) -> Work {
        let state = self.state(random, clock);
        let call = self.call(random, &state, clock);
        Work { state, call }
    }

    fn state(&self, random: &mut Random, clock: u64) -> State {
        let vaults = [self.amounts.vault(random), self.amounts.vault(random)];
        let mut counters = || [self.amounts.counter(random), self.amounts.counter(random)];
        let (protocol, fund, creator) = (counters(), counters(), counters());
        let mark = if self.clocks == Clocks::Moving { clock - 1 - random.below(30) } else { clock };
        let pool = Pool {
            vaults,
            protocol,
            fund,
            creator,
            supply: (u128::from(vaults[0]) * u128::from(vaults[1])).isqrt() as u64,
            fee_model: random.below(3),
            enabled: random.chance(2),
            rates: rates(random),
            head: RingHead { used: true, index: random.below(100), mark },
            grid: Grid::DEFAULT,
            ..Pool::default()
        };
        let entry = [mark - random.below(15), random.word(), random.word(), random.word(), random.word()];
        State { pool, ring: filled_ring(pool.head.index, entry) }
    }

    fn call(&self, random: &mut Random, state: &State, clock: u64) -> Call {
        let pool = &state.pool;
        let direction = random.below(2);
        let swap = |amount, limit| Swap { direction, amount, limit, clock };
        let (token_in, token_out) = (direction as usize, 1 - direction as usize);
        match self.kind {
            1 => Call::Opening(self.opening(random)),
            2 => Call::SwapByInput(swap(part(random, pool.vaults[token_in]), 1)),
            3 => Call::SwapByOutput(swap(part(random, pool.vaults[token_out]), u64::MAX)),
            4 => Call::Deposit { lp: part(random, pool.supply), maximums: [u64::MAX; 2] },
            5 => Call::Withdrawal { lp: part(random, pool.supply), owned: u64::MAX, minimums: [0, 0] },
            6 => Call::Settlement { share: random.below(1_000_001) },
            _ => Call::Status { bit: random.below(3), flag: random.below(2) },
        }
    }

    fn opening(&self, random: &mut Random) -> Opening {
        Opening {
            amounts: [self.amounts.vault(random), self.amounts.vault(random)],
            fee_model: random.below(3),
            enabled: random.below(2),
            open_time: 0,
            rates: rates(random),
            // As in every pool of the benchmark: the original has no charges and no other grid.
            charges: [Charge::default(); 2],
            grid: Grid::DEFAULT,
        }
    }
}

/// Other data in each run.
pub fn seed() -> u64 {
    SystemTime::now().duration_since(UNIX_EPOCH).map_or(0, |since| since.as_nanos() as u64)
}

/// Another second for each batch.
pub fn clock(random: &mut Random) -> u64 {
    FIRST_CLOCK + random.below(1 << 30)
}

/// The calls that are timed, with their amounts and clocks.
pub fn benches() -> Vec<Bench> {
    let mut benches = Vec::new();
    for kind in [2, 3] {
        for amounts in [Amounts::Small, Amounts::Wide] {
            for clocks in [Clocks::Still, Clocks::Moving] {
                benches.push(Bench { kind, amounts, clocks });
            }
        }
    }
    for kind in [4, 5, 6, 7, 1] {
        for amounts in [Amounts::Small, Amounts::Wide] {
            benches.push(Bench { kind, amounts, clocks: Clocks::None });
        }
    }
    benches
}

/// Reads what the port is going to read.
pub fn touch_port(port: &Port) {
    let newest = 5 * port.pool[19] as usize;
    black_box((port.pool, port.receipt));
    black_box([port.ring[newest], port.ring[newest + 4], port.ring[(newest + 9) % 500]]);
}

fn rates(random: &mut Random) -> Rates {
    Rates {
        trade: 1 + random.below(10_000),
        protocol: random.below(200_000),
        fund: random.below(100_000),
        creator: random.below(10_000),
        share: random.below(1_000_001),
    }
}

/// From a thousandth or so up to an eighth.
fn part(random: &mut Random, whole: u64) -> u64 {
    1 + (random.up_to(whole / 8) >> random.below(8))
}
