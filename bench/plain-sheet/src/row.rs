//! Rows: a kind in 2 columns and five numbers in 20 each.

const WIDTH: usize = 20;
const LENGTH: usize = 2 + 5 * WIDTH;

pub struct Row {
    pub kind: u64,
    pub numbers: [u64; 5],
}

/// None where the row can't be read.
pub fn read(line: &[u8]) -> Option<Row> {
    if line.len() != LENGTH || !line.is_ascii() {
        return None;
    }
    let text = std::str::from_utf8(line).ok()?;
    let mut numbers = [0; 5];
    for (at, number) in numbers.iter_mut().enumerate() {
        *number = read_number(&text[2 + WIDTH * at..][..WIDTH])?;
    }
    Some(Row { kind: read_number(&text[..2])?, numbers })
}

/// Blanks, then digits with no zero before them.
fn read_number(column: &str) -> Option<u64> {
    let digits = column.trim_start_matches(' ');
    let plain =
        digits.bytes().all(|byte| byte.is_ascii_digit()) && (digits == "0" || !digits.starts_with('0'));
    if plain {
        digits.parse().ok()
    } else {
        None
    }
}
