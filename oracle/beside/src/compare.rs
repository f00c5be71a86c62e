//! The original beside the rules on many cases.

use crate::generator::{self, small};
use crate::left::LeftCounts;
use crate::shrink::{shrunk, size};
use crate::verdict::{verdict, Side, Verdict};
use record::Case;
use runner::Outcome;
use std::collections::BTreeMap;
use std::time::Instant;

struct Class {
    side: Side,
    count: u64,
    smallest: Case,
}

#[derive(Default)]
pub struct Tally {
    /// By kind and the rules' number.
    answers: BTreeMap<(u64, u64), u64>,
    classes: BTreeMap<String, Class>,
    left: LeftCounts,
    unlisted: u64,
    cases: u64,
}

/// Compares and prints; whether every difference was of a listed class.
pub fn seeded(seed: u64, count: u64) -> bool {
    report(over(generator::cases(seed, count), generator::count(count)))
}

/// All small cases.
pub fn all_small() -> bool {
    report(over(small::cases(), small::count()))
}

fn over(cases: impl Iterator<Item = Case>, count: u64) -> Tally {
    let start = Instant::now();
    let mut tally = Tally::default();
    for case in cases {
        tally.add(&case);
        if tally.cases % 250_000 == 0 {
            let seconds = start.elapsed().as_secs_f64();
            eprintln!("{} of {count} cases, {} unlisted, {seconds:.1} s", tally.cases, tally.unlisted);
        }
    }
    println!("{} cases in {:.1} s", tally.cases, start.elapsed().as_secs_f64());
    tally
}

impl Tally {
    fn add(&mut self, case: &Case) {
        let verdict = verdict(case);
        self.cases += 1;
        *self.answers.entry((case.kind, verdict.document.number)).or_default() += 1;
        if let Some(left) = case.left_to_model() {
            self.left.add(left);
        }
        if verdict.side == Side::Unlisted {
            self.unlisted += 1;
        }
        if !verdict.class.is_empty() {
            self.count_class(case, verdict);
        }
    }

    fn count_class(&mut self, case: &Case, verdict: Verdict) {
        let class = self.classes.entry(verdict.class);
        let class = class.or_insert_with(|| Class { side: verdict.side, count: 0, smallest: case.clone() });
        class.count += 1;
        if size(case) < size(&class.smallest) {
            class.smallest = case.clone();
        }
    }
}

fn report(tally: Tally) -> bool {
    println!("\nanswers of the rules, by kind and number:");
    for form in record::FORMS {
        let of_kind = tally.answers.range((form.kind, 0)..(form.kind + 1, 0));
        let counts: Vec<String> = of_kind.map(|((_, number), count)| format!("{number}: {count}")).collect();
        if counts.is_empty() {
            continue;
        }
        println!("  {:2} {:32} {}", form.kind, form.name, counts.join(", "));
    }
    for (side, title) in [
        (Side::Both, "the original agrees, but panics or has booked before"),
        (Side::DocumentAlone, "document 01 alone rules"),
        (Side::Left, "left to the model"),
        (Side::Unlisted, "UNLISTED"),
    ] {
        println!("\n{title}:");
        let of_side = tally.classes.iter().filter(|(_, class)| class.side == side);
        of_side.for_each(|(name, class)| print_class(name, class));
    }
    println!();
    tally.left.print();
    let compared = tally.cases - tally.left.sum();
    println!("{} unlisted differences, with {compared} cases compared with the original", tally.unlisted);
    tally.unlisted == 0
}

fn print_class(name: &str, class: &Class) {
    let smallest = shrunk(&class.smallest, name);
    println!("  {name}: {}\n    {}", class.count, smallest.line());
    println!("    {}", both_answers(&verdict(&smallest)));
}

fn both_answers(verdict: &Verdict) -> String {
    let document = verdict.document.line();
    match &verdict.original {
        None | Some(Outcome::Absent(_)) => format!("the rules: {document}"),
        Some(Outcome::Wide(results)) => format!("the Rust: {results:?}; the rules: {document}"),
        Some(Outcome::Answered { answer, booked, .. }) => {
            let left: Vec<String> = booked.iter().map(crate::driver::change).collect();
            let booked =
                if left.is_empty() { String::new() } else { format!("; had booked {}", left.join(", ")) };
            format!("the Rust: {}{booked}; the rules: {document}", answer.line())
        }
    }
}
