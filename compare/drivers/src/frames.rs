//! Document 01's frames, as bytes.

/// 2^63 - 1.
pub const M: u64 = i64::MAX as u64;
/// Bit 63, which a recovery-aware version has.
pub const TAG: u64 = 1 << 63;

pub const ENSURE: u8 = 1;
pub const TOP_UP: u8 = 2;
pub const LIMIT: u8 = 3;
pub const RESERVE: u8 = 4;
pub const SNAPSHOT: u8 = 7;
pub const RESTORE: u8 = 8;
pub const RECOVERY_RESTORE: u8 = 9;
pub const MIGRATE: u8 = 10;
pub const CERTIFICATE: u8 = 11;
pub const CERTIFICATE_OF_SNAPSHOT: u8 = 12;
pub const PROOF: u8 = 13;
pub const STATUS: u8 = 14;

pub fn named(code: u8, name: &[u8], amount: i64) -> Vec<u8> {
    let mut frame = vec![code, name.len() as u8];
    frame.extend(name);
    frame.extend(amount.to_be_bytes());
    frame
}

pub fn commit(id: u64, amount: i64) -> Vec<u8> {
    let mut frame = vec![5];
    frame.extend(id.to_be_bytes());
    frame.extend(amount.to_be_bytes());
    frame
}

pub fn release(id: u64) -> Vec<u8> {
    let mut frame = vec![6];
    frame.extend(id.to_be_bytes());
    frame
}

#[derive(Clone)]
pub struct Row {
    pub name: Vec<u8>,
    pub initial: i64,
    pub remaining: i64,
    pub reserved: i64,
    pub committed: i64,
}

pub struct Snapshot {
    pub version: u64,
    pub active: u64,
    pub rows: Vec<Row>,
}

impl Snapshot {
    pub fn bytes(&self) -> Vec<u8> {
        let mut bytes = Vec::new();
        bytes.extend(self.version.to_be_bytes());
        bytes.extend(self.active.to_be_bytes());
        bytes.extend((self.rows.len() as u16).to_be_bytes());
        for row in &self.rows {
            bytes.push(row.name.len() as u8);
            bytes.extend(&row.name);
            for amount in [row.initial, row.remaining, row.reserved, row.committed] {
                bytes.extend(amount.to_be_bytes());
            }
        }
        bytes
    }
}

/// A frame of an operation on a snapshot, with its word (fence or since) where it takes one.
pub fn on_snapshot(code: u8, word: u64, snapshot: &[u8]) -> Vec<u8> {
    let mut frame = vec![code];
    if code == MIGRATE || code == CERTIFICATE_OF_SNAPSHOT {
        frame.extend(word.to_be_bytes());
    }
    frame.extend(snapshot);
    frame
}
