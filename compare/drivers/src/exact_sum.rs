//! The one difference inside the domain that answers can show (docs/DIFFERENCES.md): the conservation of a supplied row. Document 01 adds remaining, reserved and
//! committed exactly; the Rust adds remaining and reserved first and asks that this sum fits by itself. Both rules are worked out here, so that a difference is
//! accepted only where both programs answer as their own rule says.

use crate::frames::{CERTIFICATE_OF_SNAPSHOT, STATUS};
use oracle::{bytes_of_line, line_of_bytes, supplied, Reader, Supplied};

fn fits(z: i128) -> bool {
    i64::try_from(z).is_ok()
}

/// The answer's bytes for the conservation of the rows; `first_two` says whether remaining plus reserved must fit by itself.
fn status(snapshot: &Supplied, first_two: bool) -> Vec<u8> {
    for (name, initial, remaining, reserved, committed) in &snapshot.rows {
        let pair = *remaining as i128 + *reserved as i128;
        let sum = pair + *committed as i128;
        let delta = sum - *initial as i128;
        if (first_two && !fits(pair)) || !fits(sum) || !fits(delta) {
            return vec![15];
        }
        let shown = if delta != 0 { delta as i64 } else { *remaining };
        if delta != 0 || *remaining < 0 {
            return [&[14, name.len() as u8], *name, &shown.to_be_bytes()].concat();
        }
    }
    vec![0]
}

/// The answer line of one rule, made from that of the other: of a certificate only the balanced flag can differ.
fn answered(code: u8, snapshot: &Supplied, answer: &[u8], first_two: bool) -> Option<Vec<u8>> {
    if code == STATUS {
        return Some(line_of_bytes(&status(snapshot, first_two)));
    }
    let mut bytes = bytes_of_line(answer)?;
    let (balanced, representable) = (25, 42);
    if bytes.len() != 51 || bytes[0] != 0 {
        return None;
    }
    bytes[balanced] = (bytes[representable] == 1 && status(snapshot, first_two) == [0]) as u8;
    Some(line_of_bytes(&bytes))
}

/// Whether this line's two answers differ, each as its own rule says.
pub fn accounts_for(line: &[u8], rust: &[u8], house: &[u8]) -> bool {
    let Some(bytes) = bytes_of_line(line) else { return false };
    let Some((&code, rest)) = bytes.split_first() else { return false };
    let skipped = match code {
        STATUS => 0,
        CERTIFICATE_OF_SNAPSHOT => 8,
        _ => return false,
    };
    let Some(mut reader) = rest.get(skipped..).map(Reader) else { return false };
    let Some(snapshot) = supplied(&mut reader) else { return false };
    let exact = answered(code, &snapshot, rust, false);
    let in_steps = answered(code, &snapshot, house, true);
    exact.as_deref() == Some(house) && in_steps.as_deref() == Some(rust)
}
