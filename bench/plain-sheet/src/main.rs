//! The day sheet as a plain program: standard input to standard output.

use std::io::{self, BufReader, BufWriter};

fn main() -> io::Result<()> {
    plain_sheet::run(BufReader::new(io::stdin().lock()), BufWriter::new(io::stdout().lock()))
}
