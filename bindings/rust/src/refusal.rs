//! Document 01's answer numbers 1 to 24: what each refusal carries.

use crate::answer::Numbers;
use crate::interface::Told;
use crate::{Microcents, Name};

/// The one operation whose overflow carries nothing.
const TOP_UP: u8 = 2;

/// An operation that was refused. No balance has changed.
#[derive(Clone, Debug, PartialEq, Eq)]
#[non_exhaustive]
pub enum Refusal {
    NegativeAmount { value: Microcents },
    InvalidAmount,
    MissingTenant,
    /// Of a reserve, what is reserved; of a commit, what remains; of a top-up, nothing.
    Overflow { current: Option<Microcents> },
    ExposureLimitExceeded { reserved: Microcents, limit: Microcents },
    /// With a cost above 0 an id was drawn.
    Insufficient { remaining: Microcents, required: Microcents },
    MissingReservation,
    Overrun { remaining: Microcents },
    AllocatorExhausted,
    ActiveReservations { count: u64 },
    DuplicateTenant { name: Name },
    GhostReservation { name: Name, reserved: Microcents },
    /// Field 1 is remaining, 2 initial, 3 committed, 4 the version.
    NegativeLedgerField { name: Name, field: u8, value: Microcents },
    ConservationViolation { name: Name, delta: Microcents },
    /// In answer to a conservation proof an id was drawn and the last version moved.
    AggregateOverflow,
    AlreadyRecoveryAware,
    InvalidAllocatorFence { fence: u64 },
    LegacySnapshotRequiresMigration,
    NameTooLong,
    NamesFull,
    ReservationsFull,
    OutputTooShort,
    BadFrame,
    UnsoundLedger,
}

impl Refusal {
    /// The refusal that an answer is. No other number is ever answered; it would be told as a bad frame.
    pub(crate) fn of(answer: &Numbers) -> Refusal {
        match answer.number() {
            1 => Refusal::NegativeAmount { value: answer.amount(1) },
            2 => Refusal::InvalidAmount,
            3 => Refusal::MissingTenant,
            4 => Refusal::Overflow { current: (answer.code != TOP_UP).then(|| answer.amount(1)) },
            5 => Refusal::ExposureLimitExceeded { reserved: answer.amount(1), limit: answer.amount(2) },
            6 => Refusal::Insufficient { remaining: answer.amount(1), required: answer.amount(2) },
            7 => Refusal::MissingReservation,
            8 => Refusal::Overrun { remaining: answer.amount(1) },
            9 => Refusal::AllocatorExhausted,
            10 => Refusal::ActiveReservations { count: answer.words[1] },
            11 => Refusal::DuplicateTenant { name: answer.name() },
            12 => Refusal::GhostReservation { name: answer.name(), reserved: answer.amount(2) },
            13 => Refusal::NegativeLedgerField { name: answer.name(), field: answer.words[2] as u8, value: answer.amount(3) },
            14 => Refusal::ConservationViolation { name: answer.name(), delta: answer.amount(2) },
            15 => Refusal::AggregateOverflow,
            16 => Refusal::AlreadyRecoveryAware,
            17 => Refusal::InvalidAllocatorFence { fence: answer.words[1] },
            18 => Refusal::LegacySnapshotRequiresMigration,
            19 => Refusal::NameTooLong,
            20 => Refusal::NamesFull,
            21 => Refusal::ReservationsFull,
            22 => Refusal::OutputTooShort,
            24 => Refusal::UnsoundLedger,
            _ => Refusal::BadFrame,
        }
    }

    /// A word for each value that it carries, and its name, whose word is its length.
    pub(crate) fn carried(&self) -> ([u64; 3], &[u8]) {
        let size = |name: &Name| name.0.len() as u64;
        match self {
            Refusal::NegativeAmount { value } => ([value.word(), 0, 0], &[]),
            Refusal::Overflow { current } => ([current.map_or(0, Microcents::word), 0, 0], &[]),
            Refusal::ExposureLimitExceeded { reserved, limit } => ([reserved.word(), limit.word(), 0], &[]),
            Refusal::Insufficient { remaining, required } => ([remaining.word(), required.word(), 0], &[]),
            Refusal::Overrun { remaining } => ([remaining.word(), 0, 0], &[]),
            Refusal::ActiveReservations { count } => ([*count, 0, 0], &[]),
            Refusal::DuplicateTenant { name } => ([size(name), 0, 0], &name.0),
            Refusal::GhostReservation { name, reserved } => ([size(name), reserved.word(), 0], &name.0),
            Refusal::NegativeLedgerField { name, field, value } => ([size(name), u64::from(*field), value.word()], &name.0),
            Refusal::ConservationViolation { name, delta } => ([size(name), delta.word(), 0], &name.0),
            Refusal::InvalidAllocatorFence { fence } => ([*fence, 0, 0], &[]),
            _ => ([0; 3], &[]),
        }
    }

    /// Document 01's number and name.
    fn row(&self) -> (u8, &'static str) {
        match self {
            Refusal::NegativeAmount { .. } => (1, "NegativeAmount"),
            Refusal::InvalidAmount => (2, "InvalidAmount"),
            Refusal::MissingTenant => (3, "MissingTenant"),
            Refusal::Overflow { .. } => (4, "Overflow"),
            Refusal::ExposureLimitExceeded { .. } => (5, "ExposureLimitExceeded"),
            Refusal::Insufficient { .. } => (6, "Insufficient"),
            Refusal::MissingReservation => (7, "MissingReservation"),
            Refusal::Overrun { .. } => (8, "Overrun"),
            Refusal::AllocatorExhausted => (9, "AllocatorExhausted"),
            Refusal::ActiveReservations { .. } => (10, "ActiveReservations"),
            Refusal::DuplicateTenant { .. } => (11, "DuplicateTenant"),
            Refusal::GhostReservation { .. } => (12, "GhostReservation"),
            Refusal::NegativeLedgerField { .. } => (13, "NegativeLedgerField"),
            Refusal::ConservationViolation { .. } => (14, "ConservationViolation"),
            Refusal::AggregateOverflow => (15, "AggregateOverflow"),
            Refusal::AlreadyRecoveryAware => (16, "AlreadyRecoveryAware"),
            Refusal::InvalidAllocatorFence { .. } => (17, "InvalidAllocatorFence"),
            Refusal::LegacySnapshotRequiresMigration => (18, "LegacySnapshotRequiresMigration"),
            Refusal::NameTooLong => (19, "NameTooLong"),
            Refusal::NamesFull => (20, "NamesFull"),
            Refusal::ReservationsFull => (21, "ReservationsFull"),
            Refusal::OutputTooShort => (22, "OutputTooShort"),
            Refusal::BadFrame => (23, "BadFrame"),
            Refusal::UnsoundLedger => (24, "UnsoundLedger"),
        }
    }

    pub fn number(&self) -> u8 {
        self.row().0
    }

    pub fn name(&self) -> &'static str {
        self.row().1
    }
}

impl std::fmt::Display for Refusal {
    fn fmt(&self, f: &mut std::fmt::Formatter<'_>) -> std::fmt::Result {
        write!(f, "{} {}", self.number(), self.name())
    }
}

impl std::error::Error for Refusal {}

/// What a function of the archive told, or its refusal: those that come as a number alone carry nothing.
pub(crate) fn told<T>((number, value): Told<T>) -> Result<T, Refusal> {
    match number {
        0 => Ok(value),
        _ => Err(Refusal::of(&Numbers::new(0, number, &[], &[]))),
    }
}

#[cfg(test)]
mod tests {
    use super::*;

    #[test]
    fn every_number_has_its_own_refusal() {
        for number in 1..=24 {
            assert_eq!(Refusal::of(&Numbers::new(4, number, &[], &[])).number(), number);
        }
    }

    #[test]
    fn a_refusal_is_the_one_of_its_own_numbers() {
        for number in 1..=24 {
            let refusal = Refusal::of(&Numbers::new(4, number, &[2, 3, 5], b"Q1 and more"));
            let (values, name) = refusal.carried();
            assert_eq!(Refusal::of(&Numbers::new(4, number, &values, name)), refusal);
        }
    }
}
