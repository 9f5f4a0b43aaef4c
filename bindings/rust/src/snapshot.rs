//! A snapshot's bytes, and what stands in them.

use crate::{Microcents, Name};

/// The bytes of a snapshot that a ledger or a migration gave: what a restore takes.
#[derive(Clone, Debug, PartialEq, Eq)]
pub struct Snapshot(Vec<u8>);

/// One airline in a snapshot.
#[derive(Clone, Debug, PartialEq, Eq)]
pub struct Row {
    pub name: Name,
    pub initial: Microcents,
    pub remaining: Microcents,
    pub reserved: Microcents,
    pub committed: Microcents,
}

/// Reading never fails: bytes that are not there read as zero (a snapshot has them all).
struct Values<'a>(&'a [u8]);

impl Values<'_> {
    fn part<const N: usize>(&mut self) -> [u8; N] {
        let mut part = [0; N];
        let size = N.min(self.0.len());
        part[..size].copy_from_slice(&self.0[..size]);
        self.0 = &self.0[size..];
        part
    }

    fn word(&mut self) -> u64 {
        u64::from_be_bytes(self.part())
    }

    fn amount(&mut self) -> Microcents {
        Microcents(i64::from_be_bytes(self.part()))
    }

    fn name(&mut self) -> Name {
        let [size] = self.part();
        let (name, rest) = self.0.split_at(usize::from(size).min(self.0.len()));
        self.0 = rest;
        Name(name.to_vec())
    }
}

impl Snapshot {
    pub(crate) fn of(bytes: &[u8]) -> Snapshot {
        Snapshot(bytes.to_vec())
    }

    pub fn bytes(&self) -> &[u8] {
        &self.0
    }

    pub fn version(&self) -> u64 {
        Values(&self.0).word()
    }

    /// How many reservations were live.
    pub fn active(&self) -> u64 {
        Values(self.0.get(8..).unwrap_or_default()).word()
    }

    /// The airlines, ascending by name.
    pub fn rows(&self) -> Vec<Row> {
        let mut values = Values(self.0.get(16..).unwrap_or_default());
        let count = u16::from_be_bytes(values.part());
        (0..count)
            .map(|_| Row {
                name: values.name(),
                initial: values.amount(),
                remaining: values.amount(),
                reserved: values.amount(),
                committed: values.amount(),
            })
            .collect()
    }
}
