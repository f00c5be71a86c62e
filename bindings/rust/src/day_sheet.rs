//! A day sheet: rows in, a row out for each.

use crate::plain::{self, RowBytes, SheetWords};
use crate::{Pool, Rates, Ring};

/// A row that is written: 102 bytes and a newline.
pub const ROW_LENGTH: usize = 103;

/// How far a piece of the input has come.
#[derive(Clone, Copy, Debug, Default, PartialEq, Eq)]
pub struct Progress {
    /// So many bytes of the input were taken.
    pub taken: usize,
    /// So many bytes of the output were written: whole rows from its beginning.
    pub written: usize,
}

/// A day sheet under way: the input may be cut anywhere, and the memory that it takes is always the
/// same.
///
/// A row is a number in 2 columns and five in 20 each, decimal and right-justified, and a newline. The
/// first says what the row asks for: 0 rates for the next openings (trade, protocol, fund, creator,
/// share), 1 an opening (two amounts, fee model, enabled, open time), 2 a swap by input (direction,
/// amount, minimum, clock), 3 a swap by output (direction, amount, maximum, clock), 4 a deposit (LP,
/// two maximums), 5 a withdrawal (LP, the owner's LP, two minimums), 6 a settlement, 7 a status (bit,
/// flag). Numbers that are not used are 0. The pools that rows open carry no charges, and have
/// [`Grid::DEFAULT`](crate::Grid::DEFAULT).
///
/// The answer has the same widths: the number of a [`Refusal`](crate::Refusal) or 0, two amounts, the
/// two nets and the LP supply. A row that is refused changes nothing.
///
/// ```
/// use cp_swap::{DaySheet, ROW_LENGTH};
///
/// let row = |kind, numbers: [u64; 5]| {
///     let numbers: String = numbers.iter().map(|number| format!("{number:>20}")).collect();
///     format!("{kind:>2}{numbers}\n")
/// };
/// let input = row(0, [2_500, 120_000, 40_000, 0, 0])
///     + &row(1, [1_000_000, 4_000_000, 0, 0, 0])
///     + &row(2, [0, 10_000, 1, 100, 0]);
///
/// let mut sheet = DaySheet::new();
/// let mut output = [0; 3 * ROW_LENGTH];
/// let progress = sheet.feed(input.as_bytes(), &mut output);
/// assert_eq!((progress.taken, progress.written), (input.len(), output.len()));
/// let answer = row(0, [10_000, 39_505, 1_009_996, 3_960_495, 2_000_000]);
/// assert_eq!(&output[2 * ROW_LENGTH..], answer.as_bytes());
/// assert_eq!(sheet.finish(), None);
/// ```
#[derive(Clone, Debug, PartialEq, Eq)]
pub struct DaySheet {
    pool: Pool,
    ring: Ring,
    sheet: SheetWords,
    held: RowBytes,
}

impl DaySheet {
    /// A sheet of which no row is read: no pool is open, and all rates are 0.
    pub fn new() -> DaySheet {
        DaySheet { pool: Pool::default(), ring: Ring::default(), sheet: [0; 6], held: [0; ROW_LENGTH] }
    }

    /// Takes bytes of the input as long as the output has room for another row, and answers each row
    /// that they end; bytes behind the last newline are kept for the next piece.
    ///
    /// With room for a row, at least one byte of an input that is not empty is taken. The output after
    /// the rows that are written stays as it was.
    pub fn feed(&mut self, input: &[u8], output: &mut [u8]) -> Progress {
        let mut progress = [0; 2];
        let (pool, ring) = (self.pool.words_mut(), self.ring.words_mut());
        let number =
            plain::day_sheet(pool, ring, &mut self.sheet, &mut self.held, input, output, &mut progress);
        assert_eq!(number, 0, "a sheet's record is a pool");
        // Neither is more than a slice's length.
        let [taken, written] = progress.map(|bytes| bytes as usize);
        Progress { taken, written }
    }

    /// The end of the input: the answer to its last row, if that has no newline.
    ///
    /// Where more is fed, it begins with a new row.
    pub fn finish(&mut self) -> Option<[u8; ROW_LENGTH]> {
        let (mut output, mut progress) = ([0; ROW_LENGTH], [0; 2]);
        let (pool, ring) = (self.pool.words_mut(), self.ring.words_mut());
        let number =
            plain::day_sheet_end(pool, ring, &mut self.sheet, &self.held, &mut output, &mut progress);
        assert_eq!(number, 0, "a sheet's record is a pool");
        (progress[1] > 0).then_some(output)
    }

    /// The pool after the rows so far; all zeros before an opening is accepted.
    pub fn pool(&self) -> &Pool {
        &self.pool
    }

    /// The pool's ring.
    pub fn ring(&self) -> &Ring {
        &self.ring
    }

    /// The rates for the next opening.
    pub fn rates(&self) -> Rates {
        let [trade, protocol, fund, creator, share, _] = self.sheet;
        Rates { trade, protocol, fund, creator, share }
    }
}

impl Default for DaySheet {
    fn default() -> DaySheet {
        DaySheet::new()
    }
}
