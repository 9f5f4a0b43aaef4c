//! House beside the unchanged Rust engine, on frames by chance: every answer line is compared, and every so often a snapshot is asked of both.
//!
//!     beside HOUSE SEED COUNT [PROFILE]          compares COUNT frames; without a profile all of them take turns on one ledger
//!     beside --lines SEED COUNT                  prints COUNT lines of each profile, one night's

use drivers::exact_sum;
use drivers::frames::SNAPSHOT;
use drivers::house::House;
use drivers::profiles::{Profile, Shift, PROFILES};
use oracle::{line_of_bytes, Oracle};
use std::collections::BTreeMap;

/// How many frames of one profile follow each other.
const TURN: u64 = 5_000;
/// How often both are asked for a snapshot, whatever the profile.
const SNAPSHOT_EVERY: u64 = 500;
/// How many lines are sent to house at a time.
const STRETCH: u64 = 2_000;

/// The lines of one night, one after the other, with the Rust's answers.
struct Night {
    shift: Shift,
    oracle: Oracle,
    asked: u64,
}

impl Night {
    fn new(seed: u64) -> Self {
        Night { shift: Shift::new(seed), oracle: Oracle::new(), asked: 0 }
    }

    fn next(&mut self, profile: Profile) -> (Vec<u8>, Vec<u8>) {
        self.asked += 1;
        let frame = if self.asked % SNAPSHOT_EVERY == 0 { vec![SNAPSHOT] } else { self.shift.frame(profile) };
        let line = line_of_bytes(&frame);
        let answer = self.oracle.line(&line);
        assert_ne!(answer, b"outside", "line {} is outside of the Rust's domain", self.asked);
        self.shift.learn(&frame, &answer);
        (line, answer)
    }
}

/// What was compared: how many lines had which operation, which answer, and the listed difference.
#[derive(Default)]
struct Tally {
    operations: BTreeMap<String, u64>,
    answers: BTreeMap<u8, u64>,
    exact_sums: u64,
}

impl Tally {
    fn count(&mut self, line: &[u8], answer: &[u8]) {
        *self.operations.entry(text(&line[..2])).or_default() += 1;
        *self.answers.entry(u8::from_str_radix(&text(&answer[..2]), 16).unwrap()).or_default() += 1;
    }

    fn print(&self, count: u64, seed: u64) {
        println!("{count} frames, seed {seed}: every answer is the Rust's, but for {} of the exact sum (docs/DIFFERENCES.md)", self.exact_sums);
        println!("  by operation: {}", self.operations.iter().map(|(k, n)| format!("{k}: {n}")).collect::<Vec<_>>().join(", "));
        println!("  by answer: {}", self.answers.iter().map(|(k, n)| format!("{k}: {n}")).collect::<Vec<_>>().join(", "));
    }
}

fn text(bytes: &[u8]) -> String {
    String::from_utf8_lossy(bytes).into_owned()
}

fn compare(program: &str, seed: u64, count: u64, only: Option<Profile>) {
    let mut house = House::start(program);
    let mut night = Night::new(seed);
    let mut tally = Tally::default();
    let mut answer = Vec::new();
    while night.asked < count {
        let first = night.asked;
        let stretch: Vec<_> = (first..count.min(first + STRETCH))
            .map(|n| night.next(only.unwrap_or(PROFILES[(n / TURN) as usize % PROFILES.len()])))
            .collect();
        house.send(stretch.iter().flat_map(|(line, _)| [line.as_slice(), b"\n"].concat()).collect());
        for (n, (line, rust)) in stretch.iter().enumerate() {
            house.answer(&mut answer);
            tally.count(line, &answer);
            if answer == *rust {
                continue;
            }
            if !exact_sum::accounts_for(line, rust, &answer) {
                println!("seed {seed}, line {}: {}\n  Rust:  {}\n  house: {}", first + n as u64 + 1, text(line), text(rust), text(&answer));
                std::process::exit(1);
            }
            tally.exact_sums += 1;
        }
    }
    house.finish();
    tally.print(count, seed);
}

fn print_lines(seed: u64, count: u64) {
    let mut night = Night::new(seed);
    for profile in PROFILES {
        for _ in 0..count {
            println!("{}", text(&night.next(profile).0));
        }
    }
}

fn main() {
    let words: Vec<String> = std::env::args().skip(1).collect();
    let number = |n: usize| words.get(n).and_then(|w| w.replace('_', "").parse().ok()).expect("beside HOUSE SEED COUNT [PROFILE]");
    if words.first().map(String::as_str) == Some("--lines") {
        return print_lines(number(1), number(2));
    }
    let only = words.get(3).map(|w| {
        let named = |p: &&Profile| format!("{p:?}").eq_ignore_ascii_case(w);
        *PROFILES.iter().find(named).unwrap_or_else(|| panic!("profiles: {PROFILES:?}"))
    });
    compare(&words[0], number(1), number(2), only);
}
