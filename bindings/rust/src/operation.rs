//! The fourteen operations of document 01. The archive writes their lines and bytes; nothing is spelled here.

use crate::interface::{self, Parts};
use crate::refusal::told;
use crate::{Identifier, Microcents, Refusal};

/// The longest frame, in bytes.
const LONGEST_FRAME: usize = 14_619;
/// The longest frame of an operation that takes no snapshot: code, a name of 24 bytes behind its length, amount.
pub(crate) const LONGEST_WITHOUT_SNAPSHOT: usize = 1 + 1 + 24 + 8;

/// An operation, its name or snapshot borrowed: any bytes may be handed in, and writing says what is wrong with them.
///
/// ```
/// use zatovola::{Answer, Booking, Identifier, Microcents, Operation};
///
/// let reserve = Operation::Reserve { name: b"Q1", cost: Microcents(300) };
/// assert_eq!(reserve.line()?, b"04025131000000000000012c");
/// let answer = Answer::of_line(&reserve, b"0000000000000004b00000000000000001")?;
/// assert_eq!(answer, Answer::Reserved(Booking { remaining: Microcents(1_200), id: Identifier(1) }));
/// # Ok::<(), zatovola::Refusal>(())
/// ```
#[derive(Clone, Copy, Debug, PartialEq, Eq)]
pub enum Operation<'a> {
    Ensure { name: &'a [u8], amount: Microcents },
    TopUp { name: &'a [u8], amount: Microcents },
    Limit { name: &'a [u8], amount: Microcents },
    Reserve { name: &'a [u8], cost: Microcents },
    Commit { id: Identifier, actual: Microcents },
    Release { id: Identifier },
    Snapshot,
    Restore { snapshot: &'a [u8] },
    RecoveryRestore { snapshot: &'a [u8] },
    Migrate { snapshot: &'a [u8], fence: u64 },
    Certificate,
    CertificateOfSnapshot { snapshot: &'a [u8], since: Microcents },
    ConservationProof,
    ConservationStatus { snapshot: &'a [u8] },
}

impl<'a> Operation<'a> {
    /// Document 01's code, and the fields as the archive takes them.
    fn parts(&self) -> Parts<'a> {
        const NONE: Parts = Parts { code: 0, number: 0, amount: 0, part: &[] };
        match *self {
            Operation::Ensure { name, amount } => Parts { code: 1, amount: amount.0, part: name, ..NONE },
            Operation::TopUp { name, amount } => Parts { code: 2, amount: amount.0, part: name, ..NONE },
            Operation::Limit { name, amount } => Parts { code: 3, amount: amount.0, part: name, ..NONE },
            Operation::Reserve { name, cost } => Parts { code: 4, amount: cost.0, part: name, ..NONE },
            Operation::Commit { id, actual } => Parts { code: 5, number: id.0, amount: actual.0, ..NONE },
            Operation::Release { id } => Parts { code: 6, number: id.0, ..NONE },
            Operation::Snapshot => Parts { code: 7, ..NONE },
            Operation::Restore { snapshot } => Parts { code: 8, part: snapshot, ..NONE },
            Operation::RecoveryRestore { snapshot } => Parts { code: 9, part: snapshot, ..NONE },
            Operation::Migrate { snapshot, fence } => Parts { code: 10, number: fence, part: snapshot, ..NONE },
            Operation::Certificate => Parts { code: 11, ..NONE },
            Operation::CertificateOfSnapshot { snapshot, since } => Parts { code: 12, amount: since.0, part: snapshot, ..NONE },
            Operation::ConservationProof => Parts { code: 13, ..NONE },
            Operation::ConservationStatus { snapshot } => Parts { code: 14, part: snapshot, ..NONE },
        }
    }

    /// Document 01's code, 1 to 14.
    pub fn code(&self) -> u8 {
        self.parts().code
    }

    /// Its line, without a line feed; or [`Refusal::BadFrame`] for bytes that are no snapshot, [`Refusal::NameTooLong`] for a name of more than 24 bytes, in a
    /// snapshot too.
    pub fn line(&self) -> Result<Vec<u8>, Refusal> {
        let mut line = vec![0; 2 * self.most_bytes()];
        let size = self.write_line(&mut line)?;
        line.truncate(size);
        Ok(line)
    }

    /// Its bytes; refused as [`Operation::line`] is.
    pub fn bytes(&self) -> Result<Vec<u8>, Refusal> {
        let mut bytes = vec![0; self.most_bytes()];
        let size = self.write_bytes(&mut bytes)?;
        bytes.truncate(size);
        Ok(bytes)
    }

    /// Its line at the front of the output, and how long it is. Refused as [`Operation::line`] is, and then with [`Refusal::OutputTooShort`] where it does not fit;
    /// a refusal leaves the output as it is.
    pub fn write_line(&self, output: &mut [u8]) -> Result<usize, Refusal> {
        told(interface::write_operation(&self.parts(), output))
    }

    /// Its bytes at the front of the output; refused as [`Operation::write_line`] is.
    pub fn write_bytes(&self, output: &mut [u8]) -> Result<usize, Refusal> {
        told(interface::write_frame(&self.parts(), output))
    }

    /// As much as its bytes can take. What would take more than the longest frame is refused before it is asked whether it fits.
    fn most_bytes(&self) -> usize {
        LONGEST_FRAME.min(LONGEST_WITHOUT_SNAPSHOT.saturating_add(self.parts().part.len()))
    }
}
