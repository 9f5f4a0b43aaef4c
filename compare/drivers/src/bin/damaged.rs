//! House on damaged and random lines: each gets exactly one answer line, each is an answer that document 01 knows, and over a stretch of refused lines nothing but
//! the id and the version of a snapshot changes.
//!
//!     damaged HOUSE SEED COUNT

use drivers::chance::Chance;
use drivers::frames::{M, SNAPSHOT, TAG};
use drivers::house::House;
use drivers::profiles::{Profile, Shift, PROFILES};
use oracle::{bytes_of_line, line_of_bytes, supplied, Reader};
use std::collections::BTreeMap;

/// How many damaged lines stand between two snapshots.
const DAMAGED: usize = 20;
const LONGEST_LINE: usize = 29_238;

/// What an answer tells of the ledger after it.
#[derive(PartialEq)]
enum Effect {
    Nothing,
    IdDrawn,
    Changed,
}

/// Whether bytes are the values of a number of answer 0: none; three or two amounts; a certificate; a proof; a snapshot.
fn is_done(values: &[u8]) -> bool {
    matches!(values.len(), 0 | 16 | 24 | 41 | 50) || supplied(&mut Reader(values)).is_some()
}

/// Whether bytes are a name, as in a snapshot row, and then so many bytes.
fn is_named(values: &[u8], rest: usize) -> bool {
    values.first().is_some_and(|n| *n <= 24 && values.len() == 1 + *n as usize + rest)
}

/// Document 01's table of answer numbers: what each carries.
fn is_known(answer: &[u8]) -> bool {
    let Some((number, values)) = answer.split_first() else { return false };
    match number {
        0 => is_done(values),
        1 | 8 | 10 | 17 => values.len() == 8,
        4 => matches!(values.len(), 0 | 8),
        5 | 6 => values.len() == 16,
        11 => is_named(values, 0),
        12 | 14 => is_named(values, 8),
        13 => is_named(values, 9),
        2 | 3 | 7 | 9 | 15 | 16 | 18..=23 => values.is_empty(),
        _ => false,
    }
}

fn effect(line: &[u8], answer: &[u8]) -> Effect {
    let takes_ledger = !matches!(line.get(..2), Some(b"0a" | b"0c" | b"0e"));
    match answer[0] {
        0 if takes_ledger => Effect::Changed,
        6 if answer[9] < 0x80 && answer[9..].iter().any(|b| *b != 0) => Effect::IdDrawn,
        15 if line == b"0d" => Effect::IdDrawn,
        _ => Effect::Nothing,
    }
}

/// A line of no frame at all, or a frame's line damaged somewhere.
fn damaged(chance: &mut Chance, whole: &[u8]) -> Vec<u8> {
    let size = if chance.once_in(500) { chance.index(3 * LONGEST_LINE) } else { chance.index(90) };
    let mut line = whole.to_vec();
    let at = chance.index(line.len());
    match chance.below(10) {
        0 => return (0..size).map(|_| chance.word() as u8).filter(|c| *c != b'\n').collect(),
        1 => return (0..size).map(|_| *chance.one_of(b"0123456789abcdef")).collect(),
        2 => line.truncate(at),
        3 => line.insert(at, *chance.one_of(b"0123456789abcdefABCDEF xg\0\xff\r")),
        4 => line.make_ascii_uppercase(),
        5 => line.extend_from_within(at..),
        6 => line[at] = chance.word() as u8,
        7 => line[..2].copy_from_slice(chance.one_of(&[b"00", b"0f", b"10", b"ff", b"0g"]).as_slice()),
        8 => line.truncate(at & !1),
        _ => line.drain(..at.min(4)).for_each(drop),
    }
    line.retain(|c| *c != b'\n');
    line
}

/// A stretch of damaged lines: the snapshot before it, the ids drawn in it, and whether a line of it was accepted after all.
struct Stretch {
    before: Vec<u8>,
    drawn: u64,
    changed: bool,
}

#[derive(Default)]
struct Watch {
    numbers: BTreeMap<u8, u64>,
    unchanged: u64,
    changed: u64,
}

impl Watch {
    fn known(&mut self, text: &[u8]) -> Vec<u8> {
        let answer = bytes_of_line(text).filter(|a| is_known(a));
        let answer = answer.unwrap_or_else(|| panic!("no answer of document 01: {}", String::from_utf8_lossy(text)));
        *self.numbers.entry(answer[0]).or_default() += 1;
        answer
    }

    /// A snapshot's version is the tag plus next id after it, so that the one after the stretch is known: refused with 9 where next id has come to M.
    fn close(&mut self, stretch: &Stretch, after: &[u8]) {
        if stretch.changed {
            self.changed += 1;
            return;
        }
        self.unchanged += 1;
        let version = |s: &[u8]| u64::from_be_bytes(s[1..9].try_into().unwrap());
        if stretch.before[0] == 9 || version(&stretch.before) + stretch.drawn == TAG + M {
            assert_eq!(after, [9], "a stretch of refused lines gave ids back");
            return;
        }
        assert!(stretch.before[9..] == after[9..], "a stretch of refused lines changed the ledger");
        assert_eq!(version(after), version(&stretch.before) + stretch.drawn + 1, "a stretch of refused lines drew other ids");
    }
}

/// A snapshot, damaged lines, a snapshot; then some whole frames, so that the ledger under the damaged lines is never the same for long.
fn pass(house: &mut House, shift: &mut Shift, profile: Profile, watch: &mut Watch) {
    let snapshot = line_of_bytes(&[SNAPSHOT]);
    let damaged: Vec<_> = (0..DAMAGED)
        .map(|_| {
            let whole = line_of_bytes(&shift.frame(profile));
            damaged(&mut shift.chance, &whole)
        })
        .collect();
    let whole: Vec<_> = (0..4).map(|_| shift.frame(profile)).collect();
    let lines = [&[snapshot.clone()], damaged.as_slice(), &[snapshot], &whole.iter().map(|f| line_of_bytes(f)).collect::<Vec<_>>()].concat();
    house.send(lines.iter().flat_map(|line| [line.as_slice(), b"\n"].concat()).collect());
    let mut text = Vec::new();
    house.answer(&mut text);
    let mut stretch = Stretch { before: watch.known(&text), drawn: 0, changed: false };
    for line in &damaged {
        house.answer(&mut text);
        match effect(line, &watch.known(&text)) {
            Effect::Nothing => {}
            Effect::IdDrawn => stretch.drawn += 1,
            Effect::Changed => stretch.changed = true,
        }
    }
    house.answer(&mut text);
    let after = watch.known(&text);
    watch.close(&stretch, &after);
    for frame in &whole {
        house.answer(&mut text);
        watch.known(&text);
        shift.learn(frame, &text);
    }
}

fn main() {
    let words: Vec<String> = std::env::args().skip(1).collect();
    let number = |n: usize| words.get(n).and_then(|w| w.replace('_', "").parse::<u64>().ok()).expect("damaged HOUSE SEED COUNT");
    let (seed, count) = (number(1), number(2));
    let mut house = House::start(&words[0]);
    let (mut shift, mut watch) = (Shift::new(seed), Watch::default());
    let mut sent = 0;
    while sent < count {
        pass(&mut house, &mut shift, PROFILES[(sent / 20_000) as usize % PROFILES.len()], &mut watch);
        sent += DAMAGED as u64;
    }
    house.finish();
    println!("{sent} damaged lines, seed {seed}: one answer each, all of document 01's");
    println!("  {} stretches of {DAMAGED} changed nothing but id and version; {} held an accepted line", watch.unchanged, watch.changed);
    println!("  by answer: {}", watch.numbers.iter().map(|(k, n)| format!("{k}: {n}")).collect::<Vec<_>>().join(", "));
    assert!(watch.unchanged > watch.changed, "too few stretches were refused whole to tell anything");
}
