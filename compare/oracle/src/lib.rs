//! Lines of document 01's frames, answered by the unchanged engine.
//!
//! Its domain is document 01's: names in UTF-8, room never full. A line outside of it is answered `outside`. Frames themselves (23, 19) are no part of the
//! engine; they are read here as document 01 says.

use engine::budget::{
    conservation_status_for_snapshot, migrate_legacy_snapshot, BudgetEngine, BudgetReservation,
    BudgetSettlement, BudgetSnapshot, ConservationStatus, LegacySnapshotMigrationError,
    RecoverySnapshotError, RestoreError, TenantLedger, TopUpResult,
};
use engine::finance::{certify_ledger, certify_snapshot, prove_conservation, FinancialCertificate};
use std::panic::{catch_unwind, AssertUnwindSafe};

/// What a frame comes to: an answer's bytes, or that the engine cannot be asked.
enum Answer {
    Bytes(Vec<u8>),
    Outside,
}

fn number(n: u8) -> Answer {
    Answer::Bytes(vec![n])
}

struct Writer(Vec<u8>);

impl Writer {
    fn new(n: u8) -> Self {
        Writer(vec![n])
    }
    fn amount(mut self, z: i64) -> Self {
        self.0.extend(z.to_be_bytes());
        self
    }
    fn word(mut self, n: u64) -> Self {
        self.0.extend(n.to_be_bytes());
        self
    }
    fn byte(mut self, b: u8) -> Self {
        self.0.push(b);
        self
    }
    fn name(mut self, a: &str) -> Self {
        self.0.push(a.len() as u8);
        self.0.extend(a.as_bytes());
        self
    }
    fn done(self) -> Answer {
        Answer::Bytes(self.0)
    }
}

/// The frame's bytes, read from the front; every reader fails where they end too early.
pub struct Reader<'a>(pub &'a [u8]);

impl<'a> Reader<'a> {
    pub fn part(&mut self, n: usize) -> Option<&'a [u8]> {
        if self.0.len() < n {
            return None;
        }
        let (part, rest) = self.0.split_at(n);
        self.0 = rest;
        Some(part)
    }
    pub fn word(&mut self) -> Option<u64> {
        Some(u64::from_be_bytes(self.part(8)?.try_into().unwrap()))
    }
    pub fn amount(&mut self) -> Option<i64> {
        Some(self.word()? as i64)
    }
    pub fn name(&mut self) -> Option<&'a [u8]> {
        let n = self.part(1)?[0] as usize;
        self.part(n)
    }
    pub fn end(&self) -> Option<()> {
        self.0.is_empty().then_some(())
    }
}

/// A supplied snapshot: its rows' names are still bytes, which may be too long or no text.
pub struct Supplied<'a> {
    pub version: u64,
    pub active: u64,
    pub rows: Vec<(&'a [u8], i64, i64, i64, i64)>,
}

pub fn supplied<'a>(r: &mut Reader<'a>) -> Option<Supplied<'a>> {
    let version = r.word()?;
    let active = r.word()?;
    let count = r.part(2)?;
    let count = u16::from_be_bytes([count[0], count[1]]);
    if count > 256 {
        return None;
    }
    let mut rows = Vec::new();
    for _ in 0..count {
        rows.push((r.name()?, r.amount()?, r.amount()?, r.amount()?, r.amount()?));
    }
    r.end()?;
    Some(Supplied { version, active, rows })
}

fn snapshot_bytes(s: &BudgetSnapshot) -> Vec<u8> {
    let mut w = Writer(Vec::new()).word(s.version).word(s.active_reservations as u64);
    w.0.extend((s.tenants.len() as u16).to_be_bytes());
    for t in &s.tenants {
        w = w
            .name(&t.tenant_id)
            .amount(t.initial_microcents)
            .amount(t.remaining_microcents)
            .amount(t.reserved_microcents)
            .amount(t.committed_microcents);
    }
    w.0
}

fn conservation(status: &ConservationStatus) -> Answer {
    match status {
        ConservationStatus::Balanced => number(0),
        ConservationStatus::Violation { tenant_id, delta_microcents } => {
            Writer::new(14).name(tenant_id).amount(*delta_microcents).done()
        }
        ConservationStatus::AggregateOverflow => number(15),
    }
}

fn restore_error(e: &RestoreError) -> Answer {
    match e {
        RestoreError::ActiveReservations { count } => Writer::new(10).word(*count as u64).done(),
        RestoreError::DuplicateTenant { tenant_id } => Writer::new(11).name(tenant_id).done(),
        RestoreError::GhostReservation { tenant_id, reserved_microcents } => {
            Writer::new(12).name(tenant_id).amount(*reserved_microcents).done()
        }
        RestoreError::NegativeLedgerField { tenant_id, field, value } => {
            let (name, byte) = match *field {
                "remaining_microcents" => (tenant_id.as_str(), 1),
                "initial_microcents" => (tenant_id.as_str(), 2),
                "committed_microcents" => (tenant_id.as_str(), 3),
                _ => ("", 4),
            };
            Writer::new(13).name(name).byte(byte).amount(*value).done()
        }
        RestoreError::ConservationViolation { status } => conservation(status),
        _ => Answer::Outside,
    }
}

fn certificate(c: &FinancialCertificate) -> Answer {
    Writer::new(0)
        .word(c.snapshot_version)
        .word(c.tenant_count as u64)
        .word(c.active_reservations as u64)
        .byte(c.conservation_balanced as u8)
        .amount(c.total_initial_microcents)
        .amount(c.total_committed_microcents)
        .byte(c.aggregate_totals_representable as u8)
        .amount(c.committed_since_last_certificate)
        .done()
}

fn named(engine: &BudgetEngine, code: u8, name: &str, amount: i64) -> Answer {
    match code {
        1 => match engine.try_ensure_tenant(name, amount) {
            Ok(()) => number(0),
            Err(_) => Writer::new(1).amount(amount).done(),
        },
        2 => match engine.top_up_tenant(name, amount) {
            TopUpResult::ToppedUp { added_microcents, new_initial_microcents, remaining_microcents } => {
                Writer::new(0)
                    .amount(added_microcents)
                    .amount(new_initial_microcents)
                    .amount(remaining_microcents)
                    .done()
            }
            TopUpResult::InvalidAmount => number(2),
            TopUpResult::MissingTenant => number(3),
            _ => number(4),
        },
        3 => match engine.try_set_max_reserved_microcents(name, amount) {
            Ok(()) => number(0),
            Err(_) => Writer::new(1).amount(amount).done(),
        },
        _ => match engine.try_reserve(name, amount) {
            (BudgetReservation::Reserved { remaining_microcents }, Some(id)) => {
                Writer::new(0).amount(remaining_microcents).word(id).done()
            }
            (BudgetReservation::Insufficient { remaining_microcents, required_microcents }, _) => {
                Writer::new(6).amount(remaining_microcents).amount(required_microcents).done()
            }
            (BudgetReservation::MissingTenant, _) => number(3),
            (
                BudgetReservation::ExposureLimitExceeded {
                    current_reserved_microcents,
                    max_reserved_microcents,
                },
                _,
            ) => Writer::new(5)
                .amount(current_reserved_microcents)
                .amount(max_reserved_microcents)
                .done(),
            (BudgetReservation::Overflow { current_reserved_microcents }, _) => {
                Writer::new(4).amount(current_reserved_microcents).done()
            }
            _ => Answer::Outside,
        },
    }
}

fn settlement(s: BudgetSettlement) -> Answer {
    match s {
        BudgetSettlement::Committed { remaining_microcents, actual_microcents } => {
            Writer::new(0).amount(remaining_microcents).amount(actual_microcents).done()
        }
        BudgetSettlement::Released { remaining_microcents, returned_microcents } => {
            Writer::new(0).amount(remaining_microcents).amount(returned_microcents).done()
        }
        BudgetSettlement::Overrun { remaining_microcents } => {
            Writer::new(8).amount(remaining_microcents).done()
        }
        BudgetSettlement::InvalidAmount => number(2),
        BudgetSettlement::MissingReservation => number(7),
        BudgetSettlement::MissingTenant => number(3),
        BudgetSettlement::Overflow { remaining_microcents } => {
            Writer::new(4).amount(remaining_microcents).done()
        }
    }
}

/// The engine's snapshot of a supplied one, or the answer where it cannot be made: 19, or outside the domain.
fn budget_snapshot(s: &Supplied) -> Result<BudgetSnapshot, Answer> {
    if s.rows.iter().any(|r| r.0.len() > 24) {
        return Err(number(19));
    }
    let mut tenants = Vec::new();
    for (name, initial, remaining, reserved, committed) in &s.rows {
        tenants.push(TenantLedger {
            tenant_id: std::str::from_utf8(name).map_err(|_| Answer::Outside)?.to_owned(),
            initial_microcents: *initial,
            remaining_microcents: *remaining,
            reserved_microcents: *reserved,
            committed_microcents: *committed,
        });
    }
    Ok(BudgetSnapshot {
        version: s.version,
        tenants,
        active_reservations: s.active as usize,
        wal_high_watermark: None,
    })
}

fn on_snapshot(engine: &BudgetEngine, code: u8, word: u64, s: &Supplied) -> Answer {
    let snapshot = match budget_snapshot(s) {
        Ok(snapshot) => snapshot,
        Err(answer) => return answer,
    };
    match code {
        8 => match engine.restore_from_snapshot(snapshot) {
            Ok(()) => number(0),
            Err(e) => restore_error(&e),
        },
        9 => match engine.restore_from_recovery_snapshot(snapshot) {
            Ok(()) => number(0),
            Err(RecoverySnapshotError::LegacySnapshotRequiresMigration) => number(18),
            Err(RecoverySnapshotError::InvalidAllocatorFence { value }) => Writer::new(17).word(value).done(),
            Err(RecoverySnapshotError::InvalidSnapshot(e)) => restore_error(&e),
            Err(_) => Answer::Outside,
        },
        10 => match migrate_legacy_snapshot(snapshot, word) {
            Ok(migrated) => {
                let mut w = Writer::new(0);
                w.0.extend(snapshot_bytes(&migrated));
                w.done()
            }
            Err(LegacySnapshotMigrationError::AlreadyRecoveryAware) => number(16),
            Err(LegacySnapshotMigrationError::InvalidAllocatorFence { value, .. }) => Writer::new(17).word(value).done(),
            Err(LegacySnapshotMigrationError::InvalidSnapshot(e)) => restore_error(&e),
            Err(_) => Answer::Outside,
        },
        12 => certificate(&certify_snapshot(&snapshot, true, word as i64)),
        _ => conservation(&conservation_status_for_snapshot(&snapshot)),
    }
}

/// What the engine gives, or nothing where it panics. That panic is expected, and says nothing on standard error.
fn unless_it_panics<T>(ask: impl FnOnce() -> T) -> Option<T> {
    let usual = std::panic::take_hook();
    std::panic::set_hook(Box::new(|_| {}));
    let given = catch_unwind(AssertUnwindSafe(ask)).ok();
    std::panic::set_hook(usual);
    given
}

/// What takes a snapshot of the ledger. The Rust's certificate and proof panic where the ids have ended: 9 here (docs/DIFFERENCES.md).
fn on_ledger(engine: &BudgetEngine, code: u8) -> Answer {
    match code {
        7 => match engine.try_snapshot() {
            Ok(s) => {
                let mut w = Writer::new(0);
                w.0.extend(snapshot_bytes(&s));
                w.done()
            }
            Err(_) => number(9),
        },
        11 => match unless_it_panics(|| certify_ledger(engine)) {
            Some(c) => certificate(&c),
            None => number(9),
        },
        _ => match unless_it_panics(|| prove_conservation(engine)) {
            Some(Ok(p)) => Writer::new(0)
                .word(p.snapshot_version)
                .word(p.tenant_count as u64)
                .word(p.active_reservations as u64)
                .amount(p.total_initial_microcents)
                .amount(p.total_committed_microcents)
                .byte(p.aggregate_totals_representable as u8)
                .done(),
            Some(Err(status)) => conservation(&status),
            None => number(9),
        },
    }
}

fn frame(engine: &BudgetEngine, bytes: &[u8]) -> Option<Answer> {
    let mut r = Reader(bytes);
    let code = r.part(1)?[0];
    match code {
        1..=4 => {
            let name = r.name()?;
            let amount = r.amount()?;
            r.end()?;
            if name.len() > 24 {
                return Some(number(19));
            }
            Some(match std::str::from_utf8(name) {
                Ok(name) => named(engine, code, name, amount),
                Err(_) => Answer::Outside,
            })
        }
        5 => {
            let id = r.word()?;
            let amount = r.amount()?;
            r.end()?;
            Some(settlement(engine.commit(id, amount)))
        }
        6 => {
            let id = r.word()?;
            r.end()?;
            Some(settlement(engine.release(id)))
        }
        7 | 11 | 13 => {
            r.end()?;
            Some(on_ledger(engine, code))
        }
        8 | 9 | 14 => {
            let s = supplied(&mut r)?;
            Some(on_snapshot(engine, code, 0, &s))
        }
        10 | 12 => {
            let word = r.word()?;
            let s = supplied(&mut r)?;
            Some(on_snapshot(engine, code, word, &s))
        }
        _ => None,
    }
}

fn digit(c: u8) -> Option<u8> {
    match c {
        b'0'..=b'9' => Some(c - b'0'),
        b'a'..=b'f' => Some(c - b'a' + 10),
        _ => None,
    }
}

pub fn line_of_bytes(bytes: &[u8]) -> Vec<u8> {
    const DIGITS: &[u8; 16] = b"0123456789abcdef";
    bytes.iter().flat_map(|b| [DIGITS[(b >> 4) as usize], DIGITS[(b & 15) as usize]]).collect()
}

pub fn bytes_of_line(line: &[u8]) -> Option<Vec<u8>> {
    if line.len() > 29_238 || line.len() % 2 == 1 {
        return None;
    }
    line.chunks(2).map(|c| Some(digit(c[0])? << 4 | digit(c[1])?)).collect()
}

/// The unchanged engine behind document 01's lines.
pub struct Oracle(BudgetEngine);

impl Oracle {
    /// A fresh engine.
    #[allow(clippy::new_without_default)]
    pub fn new() -> Self {
        Oracle(BudgetEngine::new())
    }

    /// The answer line to a line without its line feed, or `outside`.
    pub fn line(&self, line: &[u8]) -> Vec<u8> {
        let answer = bytes_of_line(line).and_then(|b| frame(&self.0, &b));
        match answer.unwrap_or_else(|| number(23)) {
            Answer::Bytes(bytes) => line_of_bytes(&bytes),
            Answer::Outside => b"outside".to_vec(),
        }
    }
}
