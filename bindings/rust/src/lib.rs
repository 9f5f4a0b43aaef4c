//! Zatovola: a prepaid-money ledger whose every answer is proved, for workers in Rust.
//!
//! A [`Ledger`] owns its room. Every operation of document 01 is a method; a refusal is a [`Refusal`] with the paper's number, name and values, and changes no
//! balance. The nine reads are methods too, and change nothing. Each single call asks whether the whole room is a sound ledger; [`Ledger::batch`] asks once for
//! many lines. An [`Operation`] writes its line or bytes, and an [`Answer`] is written and read as the answer to one.
//!
//! ```
//! use zatovola::{Ledger, Microcents};
//!
//! let mut ledger = Ledger::new(256, 1_024)?;
//! ledger.ensure(b"Q1", Microcents(1_000))?;
//! let booking = ledger.reserve(b"Q1", Microcents(300))?;
//! let settled = ledger.commit(booking.id, Microcents(250))?;
//! assert_eq!(settled.remaining, Microcents(750));
//! assert_eq!(ledger.committed(b"Q1")?, Microcents(250));
//! # Ok::<(), zatovola::Refusal>(())
//! ```

mod answer;
mod interface;
mod operation;
mod refusal;
mod snapshot;

pub use answer::{Answer, Booking, Certificate, ConservationProof, Settled, ToppedUp};
pub use operation::Operation;
pub use refusal::Refusal;
pub use snapshot::{Row, Snapshot};

use answer::{Numbers, LONGEST_ANSWER, LONGEST_OTHER_ANSWER};
use operation::LONGEST_WITHOUT_SNAPSHOT;
use refusal::told;

/// An amount: 1,000,000 to a cent.
#[derive(Clone, Copy, Debug, Default, PartialEq, Eq, PartialOrd, Ord)]
pub struct Microcents(pub i64);

impl Microcents {
    /// In two's complement.
    fn word(self) -> u64 {
        self.0 as u64
    }
}

/// A reservation's number.
#[derive(Clone, Copy, Debug, PartialEq, Eq, PartialOrd, Ord, Hash)]
pub struct Identifier(pub u64);

/// An airline's name as an answer carries it: at most 24 bytes, of any kind.
#[derive(Clone, Debug, PartialEq, Eq, PartialOrd, Ord, Hash)]
pub struct Name(pub Vec<u8>);

/// How far a batch came.
#[derive(Clone, Copy, Debug, PartialEq, Eq)]
pub struct Progress {
    /// Bytes of input that were answered: whole lines.
    pub used: usize,
    /// Bytes of output that were written.
    pub written: usize,
}

/// A ledger in a room of its own.
#[derive(Clone)]
pub struct Ledger {
    room: Box<[u8]>,
}

impl Ledger {
    /// A fresh ledger with room for 1 to 256 names and 1 to 1,024 reservations; [`Refusal::UnsoundLedger`] where a number is out of range.
    pub fn new(names: u64, reservations: u64) -> Result<Ledger, Refusal> {
        let mut room = vec![0; interface::room_size(names, reservations) as usize].into_boxed_slice();
        match interface::make(&mut room, names, reservations) {
            0 => Ok(Ledger { room }),
            _ => Err(Refusal::UnsoundLedger),
        }
    }

    /// The ledger whose room these bytes are, with its accounts, limits and live bookings as they were. Nothing is assumed of the bytes:
    /// [`Refusal::UnsoundLedger`] where they are no sound ledger.
    pub fn from_room(room: Vec<u8>) -> Result<Ledger, Refusal> {
        told(interface::live_reservations(&room))?;
        Ok(Ledger { room: room.into_boxed_slice() })
    }

    pub fn room(&self) -> &[u8] {
        &self.room
    }

    /// All that the ledger is, as bytes, to be moved or kept: [`Ledger::from_room`] takes it up again where it was left.
    pub fn into_room(self) -> Vec<u8> {
        self.room.into_vec()
    }

    /// Opens an account with this amount prepaid; an existing one is left as it is.
    pub fn ensure(&mut self, name: &[u8], amount: Microcents) -> Result<(), Refusal> {
        self.ask(Operation::Ensure { name, amount }, |_| ())
    }

    pub fn top_up(&mut self, name: &[u8], amount: Microcents) -> Result<ToppedUp, Refusal> {
        self.ask(Operation::TopUp { name, amount }, |answer| answer.topped_up())
    }

    /// The most that may be reserved at a time; 0 removes the limit.
    pub fn limit(&mut self, name: &[u8], amount: Microcents) -> Result<(), Refusal> {
        self.ask(Operation::Limit { name, amount }, |_| ())
    }

    /// A booking: its cost is set aside.
    pub fn reserve(&mut self, name: &[u8], cost: Microcents) -> Result<Booking, Refusal> {
        self.ask(Operation::Reserve { name, cost }, |answer| answer.booking())
    }

    /// A delivery: the booking ends and the real fare is paid.
    pub fn commit(&mut self, id: Identifier, actual: Microcents) -> Result<Settled, Refusal> {
        self.ask(Operation::Commit { id, actual }, |answer| answer.settled())
    }

    /// A bag found on the belt: the booking ends and its amount comes back.
    pub fn release(&mut self, id: Identifier) -> Result<Settled, Refusal> {
        self.ask(Operation::Release { id }, |answer| answer.settled())
    }

    /// What an airline has left to reserve. Like every read it changes nothing, and draws no id as a snapshot does.
    pub fn remaining(&self, name: &[u8]) -> Result<Microcents, Refusal> {
        told(interface::remaining(&self.room, name)).map(Microcents)
    }

    /// What an airline has prepaid, with all top-ups.
    pub fn initial(&self, name: &[u8]) -> Result<Microcents, Refusal> {
        told(interface::initial(&self.room, name)).map(Microcents)
    }

    /// What an airline has paid for deliveries.
    pub fn committed(&self, name: &[u8]) -> Result<Microcents, Refusal> {
        told(interface::committed(&self.room, name)).map(Microcents)
    }

    /// What an airline's live bookings set aside; 0 where the name has no account, which the other three reads refuse with [`Refusal::MissingTenant`].
    pub fn reserved(&self, name: &[u8]) -> Result<Microcents, Refusal> {
        told(interface::reserved(&self.room, name)).map(Microcents)
    }

    /// What all airlines have paid for deliveries; [`Refusal::AggregateOverflow`] where that is no amount.
    pub fn committed_total(&self) -> Result<Microcents, Refusal> {
        told(interface::committed_total(&self.room)).map(Microcents)
    }

    pub fn accounts(&self) -> Result<u64, Refusal> {
        told(interface::accounts(&self.room))
    }

    pub fn live_reservations(&self) -> Result<u64, Refusal> {
        told(interface::live_reservations(&self.room))
    }

    pub fn last_version(&self) -> Result<u64, Refusal> {
        told(interface::last_version(&self.room))
    }

    /// What is committed above the baseline, which a certificate of the ledger moves up and a restore sets.
    pub fn committed_since(&self) -> Result<Microcents, Refusal> {
        told(interface::committed_since(&self.room)).map(Microcents)
    }

    pub fn snapshot(&mut self) -> Result<Snapshot, Refusal> {
        asked(&mut self.room, Operation::Snapshot, &mut vec![0; LONGEST_ANSWER], |answer| answer.snapshot())
    }

    /// All or nothing: the snapshot's accounts take the place of what the ledger held; reservations and limits are gone.
    pub fn restore(&mut self, snapshot: &[u8]) -> Result<(), Refusal> {
        asked_with_snapshot(&mut self.room, Operation::Restore { snapshot }, &mut [0; LONGEST_OTHER_ANSWER], |_| ())
    }

    /// As [`Ledger::restore`], and it says of a version of older days that it wants a migration.
    pub fn recovery_restore(&mut self, snapshot: &[u8]) -> Result<(), Refusal> {
        asked_with_snapshot(&mut self.room, Operation::RecoveryRestore { snapshot }, &mut [0; LONGEST_OTHER_ANSWER], |_| ())
    }

    pub fn certificate(&mut self) -> Result<Certificate, Refusal> {
        self.ask(Operation::Certificate, |answer| answer.certificate())
    }

    pub fn conservation_proof(&mut self) -> Result<ConservationProof, Refusal> {
        self.ask(Operation::ConservationProof, |answer| answer.conservation_proof())
    }

    /// Any bytes as a frame, to its answer's bytes: how many were written, or none where the output is shorter than the longest answer to this frame. More bytes
    /// than the longest frame has are [`Refusal::BadFrame`], as they are as a line.
    pub fn answer(&mut self, frame: &[u8], output: &mut [u8]) -> usize {
        interface::answer(&mut self.room, frame, output)
    }

    /// Whole lines of lowercase hexadecimal to their answer lines. It stops before a line that is not whole or whose answer might not fit.
    pub fn batch(&mut self, input: &[u8], output: &mut [u8]) -> Progress {
        let (used, written) = interface::batch(&mut self.room, input, output);
        Progress { used, written }
    }

    /// An operation that neither takes nor gives a snapshot.
    fn ask<T>(&mut self, operation: Operation, done: impl FnOnce(&Numbers) -> T) -> Result<T, Refusal> {
        asked(&mut self.room, operation, &mut [0; LONGEST_OTHER_ANSWER], done)
    }
}

/// A snapshot of older days, made recovery-aware with this fence.
pub fn migrate(snapshot: &[u8], fence: u64) -> Result<Snapshot, Refusal> {
    asked_with_snapshot(&mut [], Operation::Migrate { snapshot, fence }, &mut vec![0; LONGEST_ANSWER], |answer| answer.snapshot())
}

pub fn certificate_of_snapshot(snapshot: &[u8], since: Microcents) -> Result<Certificate, Refusal> {
    asked_with_snapshot(&mut [], Operation::CertificateOfSnapshot { snapshot, since }, &mut [0; LONGEST_OTHER_ANSWER], |answer| answer.certificate())
}

/// Done where every row of the snapshot is balanced.
pub fn conservation_status(snapshot: &[u8]) -> Result<(), Refusal> {
    asked_with_snapshot(&mut [], Operation::ConservationStatus { snapshot }, &mut [0; LONGEST_OTHER_ANSWER], |_| ())
}

/// An operation that takes no snapshot: its bytes stay on the stack. The writer refuses a long name with 19 before the room is looked at, and 24 would come first; but a
/// ledger's room is always sound: it was made or asked, and none but the archive has written to it.
fn asked<T>(room: &mut [u8], operation: Operation, output: &mut [u8], done: impl FnOnce(&Numbers) -> T) -> Result<T, Refusal> {
    let mut frame = [0; LONGEST_WITHOUT_SNAPSHOT];
    let size = operation.write_bytes(&mut frame)?;
    answered(room, operation, &frame[..size], output, done)
}

/// An operation that takes a snapshot, with 19 and 24 in the order told above.
fn asked_with_snapshot<T>(
    room: &mut [u8],
    operation: Operation,
    output: &mut [u8],
    done: impl FnOnce(&Numbers) -> T,
) -> Result<T, Refusal> {
    answered(room, operation, &operation.bytes()?, output, done)
}

fn answered<T>(
    room: &mut [u8],
    operation: Operation,
    frame: &[u8],
    output: &mut [u8],
    done: impl FnOnce(&Numbers) -> T,
) -> Result<T, Refusal> {
    let written = interface::answer(room, frame, output);
    let answer = Numbers::of_bytes(operation.code(), output.get(..written).unwrap_or_default())?;
    match answer.number() {
        0 => Ok(done(&answer)),
        _ => Err(Refusal::of(&answer)),
    }
}
