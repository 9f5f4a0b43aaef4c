//! The unchanged Rust engine: called, and behind frames.

use crate::work::{self, Size, Turns, Work};
use engine::budget::{BudgetEngine, BudgetSettlement, BudgetSnapshot, TenantLedger};
use oracle::Oracle;
use std::hint::black_box;

pub struct Engine {
    engine: BudgetEngine,
    names: Vec<String>,
    size: Size,
    turns: Turns,
    live: Vec<u64>,
}

impl Engine {
    pub fn filled(size: Size) -> Self {
        let engine = BudgetEngine::new();
        let names: Vec<_> = (0..size.airlines).map(work::name).collect();
        names.iter().for_each(|n| engine.try_ensure_tenant(n, work::INITIAL).unwrap());
        let live = (0..size.live).map(|n| engine.try_reserve(&names[n % size.airlines], work::COST).1.unwrap()).collect();
        Engine { engine, names, size, turns: Turns::new(), live }
    }

    pub fn pairs(&mut self, work: Work) {
        for _ in 0..work::PAIRS {
            let (airline, place) = self.turns.next(self.size);
            self.live.push(self.engine.try_reserve(&self.names[airline], work::COST).1.unwrap());
            let id = self.live.swap_remove(place);
            let settled = if work == Work::Commit { self.engine.commit(id, work::FARE) } else { self.engine.release(id) };
            assert!(matches!(settled, BudgetSettlement::Committed { .. } | BudgetSettlement::Released { .. }));
        }
    }

    pub fn snapshots(&mut self) {
        for _ in 0..work::SNAPSHOTS {
            black_box(self.engine.try_snapshot().unwrap());
        }
    }

    /// The engine takes the snapshot by value, so that each restore is handed a copy of its own.
    pub fn restores(&mut self, rows: usize) {
        let tenants = (0..rows).map(|n| TenantLedger {
            tenant_id: work::name(n),
            initial_microcents: work::INITIAL,
            remaining_microcents: work::INITIAL - 7,
            reserved_microcents: 0,
            committed_microcents: 7,
        });
        let snapshot = BudgetSnapshot { version: (1 << 63) + 9, tenants: tenants.collect(), active_reservations: 0, wal_high_watermark: None };
        for _ in 0..work::SNAPSHOTS {
            self.engine.restore_from_snapshot(snapshot.clone()).unwrap();
        }
    }
}

pub struct Frames(Oracle);

impl Frames {
    pub fn fresh() -> Self {
        Frames(Oracle::new())
    }

    pub fn filled(size: Size) -> Self {
        let frames = Frames::fresh();
        frames.answer(&work::filling_lines(size));
        frames
    }

    /// The answers are gathered, as they are in a batch.
    pub fn answer(&self, lines: &[u8]) {
        let mut output = Vec::with_capacity(lines.len());
        for line in lines.split(|c| *c == b'\n').filter(|line| !line.is_empty()) {
            output.extend(self.0.line(line));
            output.push(b'\n');
        }
        black_box(output);
    }
}
