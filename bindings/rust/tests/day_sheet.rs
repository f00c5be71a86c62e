//! The day sheet: however the input is cut, and rows that can't be read.

use cp_swap::{plain, DaySheet, Grid, Progress, Rates, ROW_LENGTH};

/// The rules' worked example.
const ROWS: &[u8] =
    b" 0                2500              120000               40000                   0                   0
 1             1000000             4000000                   0                   0                   0
 2                   0               10000                   1                 100                   0
";
const ANSWERS: &[u8] =
    b" 0                   0                   0                   0                   0                   0
 0                   0                   0             1000000             4000000             2000000
 0               10000               39505             1009996             3960495             2000000
";

fn row(number: u64, numbers: [u64; 5]) -> Vec<u8> {
    let numbers: String = numbers.iter().map(|number| format!("{number:>20}")).collect();
    format!("{number:>2}{numbers}\n").into_bytes()
}

fn unreadable() -> Vec<u8> {
    row(12, [0; 5])
}

/// All that a sheet writes for these pieces, with so much room at a time.
fn answers<'a>(pieces: impl IntoIterator<Item = &'a [u8]>, room: usize) -> Vec<u8> {
    let (mut sheet, mut answers) = (DaySheet::new(), Vec::new());
    for piece in pieces {
        feed_all(&mut sheet, piece, room, &mut answers);
    }
    answers.extend(sheet.finish().into_iter().flatten());
    answers
}

/// The output beyond what is written must stay as it was.
fn feed_all(sheet: &mut DaySheet, mut rest: &[u8], room: usize, answers: &mut Vec<u8>) {
    while !rest.is_empty() {
        let mut output = vec![b'#'; room];
        let progress = sheet.feed(rest, &mut output);
        assert!(progress.taken > 0);
        assert!(output[progress.written..].iter().all(|byte| *byte == b'#'));
        answers.extend(&output[..progress.written]);
        rest = &rest[progress.taken..];
    }
}

fn answers_whole(input: &[u8]) -> Vec<u8> {
    answers([input], 1 << 16)
}

#[test]
fn the_example_whole() {
    let mut sheet = DaySheet::new();
    let mut output = [0; 3 * ROW_LENGTH];
    let progress = sheet.feed(ROWS, &mut output);
    assert_eq!(progress, Progress { taken: ROWS.len(), written: output.len() });
    assert_eq!(output, ANSWERS);
    assert_eq!(sheet.finish(), None);
    let rates = Rates { trade: 2_500, protocol: 120_000, fund: 40_000, creator: 0, share: 0 };
    assert_eq!((sheet.rates(), sheet.pool().rates, sheet.pool().grid), (rates, rates, Grid::DEFAULT));
    assert_eq!(sheet.pool().nets(), Ok([1_009_996, 3_960_495]));
    assert_eq!(sheet.ring().entries[0].clock, 100);
}

#[test]
fn the_example_cut_at_every_place() {
    for at in 0..=ROWS.len() {
        assert_eq!(answers([&ROWS[..at], &ROWS[at..]], 1 << 16), ANSWERS, "cut at {at}");
    }
    for length in 1..=ROWS.len() {
        assert_eq!(answers(ROWS.chunks(length), 1 << 16), ANSWERS, "pieces of {length}");
    }
}

#[test]
fn the_example_with_little_room() {
    for room in ROW_LENGTH..4 * ROW_LENGTH {
        assert_eq!(answers([ROWS], room), ANSWERS, "room for {room}");
    }
}

#[test]
fn nothing_is_taken_without_room_for_a_row() {
    let mut sheet = DaySheet::new();
    let mut output = [b'#'; ROW_LENGTH - 1];
    assert_eq!(sheet.feed(ROWS, &mut output), Progress::default());
    assert_eq!(sheet.feed(ROWS, &mut []), Progress::default());
    assert_eq!((sheet, output), (DaySheet::new(), [b'#'; ROW_LENGTH - 1]));
}

#[test]
fn an_empty_input_has_no_rows() {
    assert_eq!(answers_whole(b""), b"");
    let mut sheet = DaySheet::new();
    assert_eq!(sheet.feed(b"", &mut [0; ROW_LENGTH]), Progress::default());
    assert_eq!(sheet.finish(), None);
}

#[test]
fn a_last_row_without_newline() {
    assert_eq!(answers_whole(&ROWS[..ROWS.len() - 1]), ANSWERS);
    let short = [&ROWS[..2 * ROW_LENGTH], b" 2"].concat();
    let unreadable = row(12, [0, 0, 1_000_000, 4_000_000, 2_000_000]);
    assert_eq!(answers_whole(&short), [&ANSWERS[..2 * ROW_LENGTH], &unreadable].concat());
}

#[test]
fn the_end_begins_a_new_row() {
    let mut sheet = DaySheet::new();
    let mut output = [0; 3 * ROW_LENGTH];
    sheet.feed(b" 0 and no more", &mut output);
    assert_eq!(sheet.finish().map(Vec::from), Some(unreadable()));
    assert_eq!(sheet.finish(), None);
    sheet.feed(ROWS, &mut output);
    assert_eq!(output, ANSWERS);
}

#[test]
fn a_row_of_a_million_bytes_is_one_refused_row() {
    let long = vec![b' '; 1_000_000];
    assert_eq!(answers_whole(&long), unreadable());
    let input = [&long, &b"\n"[..], ROWS].concat();
    let expected = [&unreadable(), ANSWERS].concat();
    assert_eq!(answers_whole(&input), expected);
    assert_eq!(answers(input.chunks(4_096), ROW_LENGTH), expected);
}

#[test]
fn rows_that_cannot_be_read() {
    let good = row(7, [0, 1, 0, 0, 0]);
    assert_eq!(answers_whole(&good), row(0, [0; 5]));
    let with = |at: usize, byte: u8| {
        let mut row = good.clone();
        row[at] = byte;
        row
    };
    let bad = [
        b"\n".to_vec(),
        good[1..].to_vec(),
        [b" ", &good[..]].concat(),
        with(1, b'8'),
        with(0, b'0'),
        with(20, b'0'),
        with(20, b'-'),
        with(21, b' '),
        with(61, b'1'),
        with(101, b'\r'),
        row(6, [0, 0, 0, 0, 1]),
    ];
    for row in bad {
        assert_eq!(answers_whole(&row), unreadable(), "{:?}", String::from_utf8_lossy(&row));
    }
}

#[test]
fn a_refused_opening_keeps_the_pool() {
    let input = [ROWS, &row(1, [100, 100, 0, 0, 0])].concat();
    let answer = row(13, [0, 0, 1_009_996, 3_960_495, 2_000_000]);
    assert_eq!(answers_whole(&input), [ANSWERS, &answer].concat());
}

#[test]
fn a_record_that_is_no_pool_is_refused() {
    for flag in [12, 18] {
        let (mut pool, mut ring) = ([0; 27], [0; 500]);
        pool[flag] = 2;
        let (mut sheet, mut held) = ([5; 6], [b'h'; ROW_LENGTH]);
        let (mut output, mut progress) = ([b'#'; ROW_LENGTH], [7; 2]);
        let before = (pool, ring, sheet, held);
        let fed =
            plain::day_sheet(&mut pool, &mut ring, &mut sheet, &mut held, ROWS, &mut output, &mut progress);
        let ended = plain::day_sheet_end(&mut pool, &mut ring, &mut sheet, &held, &mut output, &mut progress);
        assert_eq!([fed, ended], [3, 3]);
        assert_eq!((pool, ring, sheet, held), before);
        assert_eq!((output, progress), ([b'#'; ROW_LENGTH], [7; 2]));
    }
}

#[test]
fn no_more_than_a_row_is_held() {
    let (mut pool, mut ring) = ([0; 27], [0; 500]);
    let (mut sheet, mut held) = ([0, 0, 0, 0, 0, u64::MAX], [b'h'; ROW_LENGTH]);
    let (mut output, mut progress) = ([0; ROW_LENGTH], [7; 2]);
    let fed = plain::day_sheet(&mut pool, &mut ring, &mut sheet, &mut held, b"h", &mut output, &mut progress);
    assert_eq!((fed, sheet[5], held, progress), (0, 103, [b'h'; ROW_LENGTH], [1, 0]));
    let ended = plain::day_sheet_end(&mut pool, &mut ring, &mut sheet, &held, &mut output, &mut progress);
    assert_eq!((ended, sheet[5], progress), (0, 0, [0, 103]));
    assert_eq!(output.to_vec(), unreadable());
}
