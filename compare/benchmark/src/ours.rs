//! This ledger: single calls, each of which asks whether the whole room is a sound ledger, and batches, which ask once.

use crate::work::{self, Size, Turns, Work};
use drivers::frames::{Row, Snapshot};
use std::hint::black_box;
use zatovola::{Identifier, Ledger, Microcents};

/// As much as a batch of the house program is lent.
const OUTPUT: usize = 65_536;
const INPUT: usize = 65_536;

fn fresh() -> Ledger {
    Ledger::new(256, 1_024).unwrap()
}

pub struct Single {
    ledger: Ledger,
    names: Vec<String>,
    size: Size,
    turns: Turns,
    live: Vec<Identifier>,
}

impl Single {
    pub fn filled(size: Size) -> Self {
        let mut ledger = fresh();
        let names: Vec<_> = (0..size.airlines).map(work::name).collect();
        names.iter().for_each(|n| ledger.ensure(n.as_bytes(), Microcents(work::INITIAL)).unwrap());
        let mut booked = |n: usize| ledger.reserve(names[n % size.airlines].as_bytes(), Microcents(work::COST)).unwrap().id;
        let live = (0..size.live).map(&mut booked).collect();
        Single { ledger, names, size, turns: Turns::new(), live }
    }

    pub fn pairs(&mut self, work: Work) {
        for _ in 0..work::PAIRS {
            let (airline, place) = self.turns.next(self.size);
            self.live.push(self.ledger.reserve(self.names[airline].as_bytes(), Microcents(work::COST)).unwrap().id);
            let id = self.live.swap_remove(place);
            if work == Work::Commit {
                self.ledger.commit(id, Microcents(work::FARE)).unwrap();
            } else {
                self.ledger.release(id).unwrap();
            }
        }
    }

    pub fn snapshots(&mut self) {
        for _ in 0..work::SNAPSHOTS {
            black_box(self.ledger.snapshot().unwrap());
        }
    }

    pub fn restores(&mut self, rows: usize) {
        let row = |n| Row { name: work::name(n).into_bytes(), initial: work::INITIAL, remaining: work::INITIAL - 7, reserved: 0, committed: 7 };
        let bytes = Snapshot { version: (1 << 63) + 9, active: 0, rows: (0..rows).map(row).collect() }.bytes();
        for _ in 0..work::SNAPSHOTS {
            self.ledger.restore(&bytes).unwrap();
        }
    }
}

pub struct Batch(Ledger);

impl Batch {
    pub fn fresh() -> Self {
        Batch(fresh())
    }

    pub fn filled(size: Size) -> Self {
        let mut batch = Batch::fresh();
        batch.answer(&work::filling_lines(size));
        batch
    }

    /// In stretches as long as the house program's; soundness is asked once for each.
    pub fn answer(&mut self, lines: &[u8]) {
        let mut output = vec![0; OUTPUT];
        let mut used = 0;
        while used < lines.len() {
            let end = lines.len().min(used + INPUT);
            let progress = self.0.batch(&lines[used..end], &mut output);
            assert!(progress.used > 0, "a batch answers at least one line");
            used += progress.used;
        }
        black_box(&output);
    }
}
