//! What an operation is answered with. The archive reads and writes answers; here their words get names.

use crate::interface::{self, Words, MOST_WORDS};
use crate::refusal::told;
use crate::{Identifier, Microcents, Name, Operation, Refusal, Snapshot};

/// The longest answer to a snapshot or a migration, in bytes.
pub(crate) const LONGEST_ANSWER: usize = 14_611;
/// The longest answer to any other frame.
pub(crate) const LONGEST_OTHER_ANSWER: usize = 51;

/// What a top-up came to.
#[derive(Clone, Copy, Debug, PartialEq, Eq)]
pub struct ToppedUp {
    pub amount: Microcents,
    pub initial: Microcents,
    pub remaining: Microcents,
}

/// A granted reservation.
#[derive(Clone, Copy, Debug, PartialEq, Eq)]
pub struct Booking {
    pub remaining: Microcents,
    pub id: Identifier,
}

/// A delivery paid, or a booking given back: what remains, and the fare or the amount returned.
#[derive(Clone, Copy, Debug, PartialEq, Eq)]
pub struct Settled {
    pub remaining: Microcents,
    pub amount: Microcents,
}

/// A certificate, of a ledger or of a supplied snapshot.
#[derive(Clone, Copy, Debug, PartialEq, Eq)]
pub struct Certificate {
    pub version: u64,
    pub rows: u64,
    pub active: u64,
    pub balanced: bool,
    pub initial_total: Microcents,
    pub committed_total: Microcents,
    pub representable: bool,
    pub since: Microcents,
}

/// A conservation proof. A ledger's is always representable: totals that are not are [`Refusal::AggregateOverflow`].
#[derive(Clone, Copy, Debug, PartialEq, Eq)]
pub struct ConservationProof {
    pub version: u64,
    pub accounts: u64,
    pub active: u64,
    pub initial_total: Microcents,
    pub committed_total: Microcents,
    pub representable: bool,
}

/// An answer in numbers, as the archive takes and gives it, with the code of the operation that it answers: its number, a word for each value that it carries, and the
/// bytes at whose front its name or snapshot stands.
pub(crate) struct Numbers<'a> {
    pub code: u8,
    pub words: Words,
    pub part: &'a [u8],
}

impl<'a> Numbers<'a> {
    pub fn new(code: u8, number: u8, values: &[u64], part: &'a [u8]) -> Self {
        let mut words = [0; MOST_WORDS];
        words[0] = u64::from(number);
        words[1..].iter_mut().zip(values).for_each(|(word, value)| *word = *value);
        Numbers { code, words, part }
    }

    /// Of an answer's bytes; [`Refusal::BadFrame`] where they are none to this operation.
    pub fn of_bytes(code: u8, bytes: &'a [u8]) -> Result<Self, Refusal> {
        told(interface::read_answer_bytes(code, bytes)).map(|words| Numbers::standing_in(code, words, bytes))
    }

    /// Of an answer's words and bytes: a snapshot stands behind the number, a name behind its length too.
    fn standing_in(code: u8, words: Words, bytes: &'a [u8]) -> Self {
        let start = if words[0] == 0 { 1 } else { 2 };
        Numbers { code, words, part: bytes.get(start..).unwrap_or_default() }
    }

    pub fn number(&self) -> u8 {
        self.words[0] as u8
    }

    pub fn amount(&self, place: usize) -> Microcents {
        Microcents(self.words[place] as i64)
    }

    fn yes(&self, place: usize) -> bool {
        self.words[place] != 0
    }

    /// The name or the snapshot, whose word is its length and comes first.
    fn part(&self) -> &'a [u8] {
        self.part.get(..self.words[1] as usize).unwrap_or_default()
    }

    pub fn name(&self) -> Name {
        Name(self.part().to_vec())
    }

    pub fn snapshot(&self) -> Snapshot {
        Snapshot::of(self.part())
    }

    pub fn topped_up(&self) -> ToppedUp {
        ToppedUp { amount: self.amount(1), initial: self.amount(2), remaining: self.amount(3) }
    }

    pub fn booking(&self) -> Booking {
        Booking { remaining: self.amount(1), id: Identifier(self.words[2]) }
    }

    pub fn settled(&self) -> Settled {
        Settled { remaining: self.amount(1), amount: self.amount(2) }
    }

    pub fn certificate(&self) -> Certificate {
        Certificate {
            version: self.words[1],
            rows: self.words[2],
            active: self.words[3],
            balanced: self.yes(4),
            initial_total: self.amount(5),
            committed_total: self.amount(6),
            representable: self.yes(7),
            since: self.amount(8),
        }
    }

    pub fn conservation_proof(&self) -> ConservationProof {
        ConservationProof {
            version: self.words[1],
            accounts: self.words[2],
            active: self.words[3],
            initial_total: self.amount(4),
            committed_total: self.amount(5),
            representable: self.yes(6),
        }
    }
}

/// What an operation is answered with: done, with what it came to, or refused.
#[derive(Clone, Debug, PartialEq, Eq)]
pub enum Answer {
    Ensured,
    ToppedUp(ToppedUp),
    Limited,
    Reserved(Booking),
    Committed(Settled),
    Released(Settled),
    Snapshot(Snapshot),
    /// Of a restore and of a recovery restore.
    Restored,
    Migrated(Snapshot),
    /// Of the ledger and of a supplied snapshot.
    Certified(Certificate),
    Proved(ConservationProof),
    Balanced,
    Refused(Refusal),
}

impl Answer {
    /// The answer to this operation that a line, without its line feed, is; [`Refusal::BadFrame`] where it is none that this operation can get. The values themselves
    /// are not judged.
    pub fn of_line(operation: &Operation, line: &[u8]) -> Result<Answer, Refusal> {
        // a line longer than the longest answer's would be refused with 22 for want of room; it is no answer
        let mut bytes = vec![0; line.len().div_ceil(2).min(LONGEST_ANSWER)];
        let words = told(interface::read_answer(operation.code(), line, &mut bytes)).map_err(|_| Refusal::BadFrame)?;
        Ok(Answer::of(operation, &Numbers::standing_in(operation.code(), words, &bytes)))
    }

    /// The answer to this operation that these bytes are; [`Refusal::BadFrame`] where they are none.
    pub fn of_bytes(operation: &Operation, bytes: &[u8]) -> Result<Answer, Refusal> {
        Numbers::of_bytes(operation.code(), bytes).map(|numbers| Answer::of(operation, &numbers))
    }

    /// Its line as an answer to this operation, without a line feed: [`Answer::of_line`] reads it back. [`Refusal::BadFrame`] where this operation never gets such an
    /// answer, [`Refusal::NameTooLong`] for a name of more than 24 bytes.
    pub fn line(&self, operation: &Operation) -> Result<Vec<u8>, Refusal> {
        let mut line = vec![0; 2 * self.most_bytes()];
        let size = self.write_line(operation, &mut line)?;
        line.truncate(size);
        Ok(line)
    }

    /// Its line at the front of the output, and how long it is. Refused as [`Answer::line`] is, and then with [`Refusal::OutputTooShort`] where it does not fit; a
    /// refusal leaves the output as it is.
    pub fn write_line(&self, operation: &Operation, output: &mut [u8]) -> Result<usize, Refusal> {
        let numbers = self.numbers(operation.code());
        // the numbers alone do not tell one done answer from another: those of this operation must mean this answer
        if Answer::of(operation, &numbers) != *self {
            return Err(Refusal::BadFrame);
        }
        told(interface::write_answer(&numbers, output))
    }

    /// As much as its bytes can take: a name is part of the shorter answers.
    fn most_bytes(&self) -> usize {
        match self {
            Answer::Snapshot(snapshot) | Answer::Migrated(snapshot) => 1 + snapshot.bytes().len(),
            _ => LONGEST_OTHER_ANSWER,
        }
    }

    fn of(operation: &Operation, numbers: &Numbers) -> Answer {
        if numbers.number() != 0 {
            return Answer::Refused(Refusal::of(numbers));
        }
        match operation {
            Operation::Ensure { .. } => Answer::Ensured,
            Operation::TopUp { .. } => Answer::ToppedUp(numbers.topped_up()),
            Operation::Limit { .. } => Answer::Limited,
            Operation::Reserve { .. } => Answer::Reserved(numbers.booking()),
            Operation::Commit { .. } => Answer::Committed(numbers.settled()),
            Operation::Release { .. } => Answer::Released(numbers.settled()),
            Operation::Snapshot => Answer::Snapshot(numbers.snapshot()),
            Operation::Restore { .. } | Operation::RecoveryRestore { .. } => Answer::Restored,
            Operation::Migrate { .. } => Answer::Migrated(numbers.snapshot()),
            Operation::Certificate | Operation::CertificateOfSnapshot { .. } => Answer::Certified(numbers.certificate()),
            Operation::ConservationProof => Answer::Proved(numbers.conservation_proof()),
            Operation::ConservationStatus { .. } => Answer::Balanced,
        }
    }

    fn numbers(&self, code: u8) -> Numbers<'_> {
        let done = |values: &[u64]| Numbers::new(code, 0, values, &[]);
        match self {
            Answer::Ensured | Answer::Limited | Answer::Restored | Answer::Balanced => done(&[]),
            Answer::ToppedUp(told) => done(&[told.amount.word(), told.initial.word(), told.remaining.word()]),
            Answer::Reserved(told) => done(&[told.remaining.word(), told.id.0]),
            Answer::Committed(told) | Answer::Released(told) => done(&[told.remaining.word(), told.amount.word()]),
            Answer::Snapshot(told) | Answer::Migrated(told) => Numbers::new(code, 0, &[told.bytes().len() as u64], told.bytes()),
            Answer::Certified(told) => done(&[
                told.version,
                told.rows,
                told.active,
                told.balanced.into(),
                told.initial_total.word(),
                told.committed_total.word(),
                told.representable.into(),
                told.since.word(),
            ]),
            Answer::Proved(told) => done(&[
                told.version,
                told.accounts,
                told.active,
                told.initial_total.word(),
                told.committed_total.word(),
                told.representable.into(),
            ]),
            Answer::Refused(refusal) => {
                let (values, name) = refusal.carried();
                Numbers::new(code, refusal.number(), &values, name)
            }
        }
    }
}
