//! A day sheet from standard input to standard output.

use cp_swap::DaySheet;
use std::io::{self, BufRead, Write};

fn main() -> io::Result<()> {
    let (mut input, mut output) = (io::stdin().lock(), io::stdout().lock());
    let mut sheet = DaySheet::new();
    let mut rows = [0; 1 << 16];
    loop {
        let piece = input.fill_buf()?;
        if piece.is_empty() {
            break;
        }
        let progress = sheet.feed(piece, &mut rows);
        output.write_all(&rows[..progress.written])?;
        input.consume(progress.taken);
    }
    if let Some(row) = sheet.finish() {
        output.write_all(&row)?;
    }
    output.flush()
}
