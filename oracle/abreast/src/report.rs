//! The result, as it goes into docs/COMPARISON.md.

use crate::registers;
use crate::rings::{LENGTHS, SPACINGS};
use crate::tally::{Answers, Group, Tally};
use beside::verdict::Side;
use std::fmt::Write;

const KINDS: &[u64] = &[1, 2, 3, 4, 5, 6, 7];
const REGISTERED_KINDS: &[u64] = &[41, 44, 45];
const GREATEST_NUMBER: u64 = 16;

pub fn page(tally: &Tally, command: &str) -> String {
    let mut page = String::new();
    let put = "a String can always be written";
    writeln!(page, "{}", sentence(tally, command)).expect(put);
    writeln!(page, "\n{}", answers("call", KINDS, &tally.answers[Group::Usual])).expect(put);
    let other_grid = "call at another spacing or length";
    writeln!(page, "{}", answers(other_grid, KINDS, &tally.answers[Group::OtherGrid])).expect(put);
    writeln!(page, "{}", answers("call with charges", KINDS, &tally.answers[Group::Charged])).expect(put);
    writeln!(page, "{}", answers("call with a register", REGISTERED_KINDS, &all_answers(tally))).expect(put);
    writeln!(page, "{}", lengths(tally)).expect(put);
    writeln!(page, "{}", pairs(tally)).expect(put);
    writeln!(page, "{}", classes(tally)).expect(put);
    for fault in &tally.faults {
        writeln!(page, "FAULT {}: `{}`", fault.what, fault.case).expect(put);
    }
    page
}

fn sentence(tally: &Tally, command: &str) -> String {
    format!(
        "`oracle/compare {command}`: {} calls in {:.0} s, {} of them on pools of another spacing or length and \
         {} on pools with charges; {} take a register, {} are slices of a swap or their whole.\n\n\
         {}\n{}\n{}\n{}\n{}\n{}",
        grouped(tally.calls),
        tally.seconds(),
        grouped(tally.on_pools[Group::OtherGrid]),
        grouped(tally.on_pools[Group::Charged]),
        grouped(tally.registers.calls),
        grouped(tally.slices.calls),
        port_side(tally),
        original_side(tally),
        ring_side(tally),
        register_side(tally),
        claims(tally),
        slices(tally),
    )
}

fn port_side(tally: &Tally) -> String {
    let [output, input, deposit] = tally.fourteens.map(grouped);
    let [all, one_more] = tally.fifteens.map(grouped);
    format!(
        "- the port beside the rules, every number of receipt, pool, ring and list: **{} differences**; \
         {} more calls on records with a wrong flag, each refused with 3; \
         14 for a swap's output {output} times, for its input {input}, for a deposit {deposit}; \
         {} withdrawals left just 100 LP, 15 for all LP {all} times, for one more than may be {one_more}",
        tally.port_faults,
        grouped(tally.wrong_flags),
        grouped(tally.drained),
    )
}

fn original_side(tally: &Tally) -> String {
    format!(
        "- the original beside the rules, outside the rows of DIFFERENCES.md: **{} differences**; \
         left to the model: {}",
        tally.original_faults,
        left(tally),
    )
}

/// Swaps on rings of another spacing or length, with charges or without.
fn ring_side(tally: &Tally) -> String {
    let rings = &tally.rings;
    format!(
        "- swaps at another spacing or length: {} at a ring's first use, {} overwrote its newest entry, {} moved \
         on, {} of these to its first; 11 in the ring's first step for a length above 100 {} times, for an index \
         at the length {}, for one past it {}",
        grouped(rings.begun),
        grouped(rings.overwritten),
        grouped(rings.moved_on),
        grouped(rings.around),
        grouped(rings.too_long),
        grouped(rings.at_length),
        grouped(rings.past_length),
    )
}

/// Calls with a register, and balances read from one.
fn register_side(tally: &Tally) -> String {
    let found = &tally.registers;
    let [empty, too_many, odd, zero, twice, holder] = found.faults.map(grouped);
    format!(
        "- calls with a register: {} of {} beside the same call without one, which gives pool, ring and receipt; \
         3 for no entry {empty} times, for more than 256 {too_many}, for an odd count of numbers {odd}, for a \
         number 0 {zero}, for a number twice {twice}, for a holder 0 {holder}; 8 for a credit {} times, 16 {}; {} \
         new holders, of whom {} had their number in another free entry, and {} emptied entries; {} balances \
         read, {} refused",
        grouped(found.beside),
        grouped(found.calls),
        grouped(found.past),
        grouped(found.full),
        grouped(found.entered),
        grouped(found.stood_elsewhere),
        grouped(found.emptied),
        grouped(found.read),
        grouped(found.unread),
    )
}

/// Calls with a register by the length of its list.
fn lengths(tally: &Tally) -> String {
    let names = registers::LENGTHS.map(|(_, name)| name);
    let counts = tally.registers.lengths.map(grouped);
    let line = "---:|".repeat(names.len());
    format!(
        "| entries | {} |\n|---|{line}\n| calls with a register | {} |\n",
        names.join(" | "),
        counts.join(" | ")
    )
}

/// Of all groups.
fn all_answers(tally: &Tally) -> Answers {
    let mut all = Answers::new();
    for group in [Group::Usual, Group::OtherGrid, Group::Charged] {
        tally.answers[group].iter().for_each(|(key, count)| *all.entry(*key).or_default() += count);
    }
    all
}

fn claims(tally: &Tally) -> String {
    let of_lists = |group| {
        let (lists, calls) = (grouped(tally.lists[group]), grouped(tally.list_calls[group]));
        format!("{lists} lists, {calls} calls and {} rounds", grouped(tally.ring_rounds[group]))
    };
    format!(
        "- demand 3's claims over {} lists ({} calls, {} rounds of the ring; {} of these at another spacing or \
         length, {} with charges): {} points afresh, floor, supply at least 100, nets above 0 ({} points at just \
         100, with which {} lists end), spacing and length the opening's, index before the length and no entry \
         written at or past it, {} pairs of points rise; in {} lists opened with a register, {} of them with \
         LP moved outside it, {} points at which its balances and 100 are the supply, and {} calls that \
         change no balance but their holder's; **{} failures**",
        grouped(tally.lists.sum()),
        grouped(tally.list_calls.sum()),
        grouped(tally.ring_rounds.sum()),
        of_lists(Group::OtherGrid),
        of_lists(Group::Charged),
        grouped(tally.points),
        grouped(tally.drained_points),
        grouped(tally.drained_lists),
        grouped(tally.pairs),
        grouped(tally.registers.lists),
        grouped(tally.registers.mixed_lists),
        grouped(tally.registers.points),
        grouped(tally.registers.changes),
        tally.claim_faults,
    )
}

/// Slices in turn beside the whole.
fn slices(tally: &Tally) -> String {
    let found = &tally.slices;
    format!(
        "- slicing gains nothing, 02 (h), of {} swaps by input cut into 1 to 10 slices: {} with a slice refused and {} \
         with the whole alone refused, of which nothing is claimed; {} accepted as a whole and in each of their {} \
         slices, {} of these swaps with charges: together no more leaves the vault than for the whole, just as much {} \
         times ({} of them in one slice), and no more is received; **{} failures**",
        grouped(found.cuts),
        grouped(found.slice_refused),
        grouped(found.whole_refused),
        grouped(found.accepted),
        grouped(found.slices),
        grouped(found.charged),
        grouped(found.as_much),
        grouped(found.single),
        found.faults,
    )
}

/// What was not compared with the original, by reason.
fn left(tally: &Tally) -> String {
    let counts = tally.left.0.iter().map(|(left, count)| format!("{} calls, {left}", grouped(*count)));
    counts.collect::<Vec<_>>().join("; ")
}

fn answers(title: &str, kinds: &[u64], answers: &Answers) -> String {
    let count = |kind: u64, number: u64| answers.get(&(kind, number)).copied().unwrap_or(0);
    let given = |number: &u64| kinds.iter().any(|kind| count(*kind, *number) > 0);
    let seen: Vec<u64> = (0..=GREATEST_NUMBER).filter(given).collect();
    let titles: Vec<String> = seen.iter().map(u64::to_string).collect();
    let mut table = format!("| {title} | {} |\n|---|{}\n", titles.join(" | "), "---:|".repeat(seen.len()));
    for kind in kinds {
        let name = record::form(*kind).expect("every call has its form").name;
        let counts: Vec<String> = seen.iter().map(|number| grouped(count(*kind, *number))).collect();
        table += &format!("| `{name}` | {} |\n", counts.join(" | "));
    }
    table
}

/// All calls by the spacing and length of their pool, or of what they open.
fn pairs(tally: &Tally) -> String {
    let names = LENGTHS.map(|(_, name)| name);
    let mut table =
        format!("| calls by spacing, and by length | {} |\n|---|{}\n", names.join(" | "), "---:|".repeat(7));
    for ((_, name), counts) in SPACINGS.iter().zip(tally.rings.calls) {
        table += &format!("| {name} | {} |\n", counts.map(grouped).join(" | "));
    }
    table
}

fn classes(tally: &Tally) -> String {
    let mut table = "| what the original does | rows | calls |\n|---|---|---:|\n".to_string();
    for side in [Side::DocumentAlone, Side::Both] {
        for (name, class) in tally.classes.iter().filter(|(_, class)| class.side == side) {
            table += &format!("| {name} | {} | {} |\n", class.rows, grouped(class.count));
        }
    }
    table
}

/// With a comma at each thousand.
fn grouped(number: u64) -> String {
    let digits = number.to_string();
    let groups = digits.as_bytes().rchunks(3).rev();
    let groups: Vec<&str> =
        groups.map(|group| std::str::from_utf8(group).expect("digits are ASCII")).collect();
    groups.join(",")
}
