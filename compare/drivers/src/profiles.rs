//! Frames by chance. Each profile looks where a desk's nights, or the ends of the numbers, would show a difference.

use crate::chance::Chance;
use crate::frames::*;
use crate::names;
use oracle::bytes_of_line;

#[derive(Clone, Copy, Debug, PartialEq)]
pub enum Profile {
    /// A night: mostly bookings, deliveries and bags found on the belt, some 200 of them live.
    Desk,
    /// Amounts around 0, M and the ends of 64 bits.
    Amounts,
    /// Ids near M, reached through restores.
    Ids,
    /// Snapshots good and bad of every kind, to every operation that takes one.
    Snapshots,
    /// Names empty, prefixes of each other, with bytes 0 and characters of several bytes.
    Names,
}

pub const PROFILES: [Profile; 5] = [Profile::Desk, Profile::Amounts, Profile::Ids, Profile::Snapshots, Profile::Names];

const ENDS: [i64; 14] =
    [0, 1, 2, -1, -2, 99, 100, 101, i64::MAX, i64::MAX - 1, i64::MAX / 2, i64::MAX / 2 + 1, i64::MIN, i64::MIN + 1];

/// Fewer than R = 1,024, so that the room is never full.
const MOST_LIVE: usize = 1_000;

/// What the frames sent before came to, as the Rust's answers tell it.
pub struct Shift {
    pub chance: Chance,
    airlines: Vec<Vec<u8>>,
    odd: Vec<Vec<u8>>,
    live: Vec<u64>,
    taken: Vec<u8>,
}

impl Shift {
    pub fn new(seed: u64) -> Self {
        Shift { chance: Chance::new(seed), airlines: names::airlines(), odd: names::odd(), live: Vec::new(), taken: Vec::new() }
    }

    /// Granted ids, ended reservations and taken snapshots are known from the answers.
    pub fn learn(&mut self, frame: &[u8], answer: &[u8]) {
        if !answer.starts_with(b"00") {
            return;
        }
        let word = |bytes: &[u8]| u64::from_be_bytes(bytes.try_into().unwrap());
        match frame[0] {
            RESERVE => self.live.push(word(&bytes_of_line(answer).unwrap()[9..])),
            5 | 6 => {
                let ended = word(&frame[1..9]);
                self.live.retain(|id| *id != ended);
            }
            SNAPSHOT => self.taken = bytes_of_line(answer).unwrap()[1..].to_vec(),
            RESTORE | RECOVERY_RESTORE => self.live.clear(),
            _ => {}
        }
    }

    pub fn frame(&mut self, profile: Profile) -> Vec<u8> {
        if self.live.len() >= MOST_LIVE {
            let id = self.live[0];
            return release(id);
        }
        match profile {
            Profile::Desk => self.desk(),
            Profile::Amounts => self.amounts(),
            Profile::Ids => self.ids(),
            Profile::Snapshots => self.snapshots(),
            Profile::Names => self.names(),
        }
    }

    /// A live id as a rule; at times one that never was or has ended.
    fn booking(&mut self) -> u64 {
        if self.live.is_empty() || self.chance.once_in(12) {
            return *self.chance.one_of(&[0, 1, 2, M - 2, M - 1, M, u64::MAX]);
        }
        *self.chance.one_of(&self.live)
    }

    fn whole_ledger(&mut self) -> Vec<u8> {
        vec![*self.chance.one_of(&[SNAPSHOT, CERTIFICATE, PROOF])]
    }

    fn desk(&mut self) -> Vec<u8> {
        let name = if self.chance.once_in(200) { self.chance.one_of(&self.odd) } else { self.chance.one_of(&self.airlines) }.clone();
        let settles = if self.live.len() < 200 { 35 } else { 55 };
        let kind = self.chance.below(100);
        match kind {
            0..=3 => named(ENSURE, &name, self.chance.between(0, 2_000_000)),
            4..=6 => named(TOP_UP, &name, self.chance.between(1, 500_000)),
            7 => named(LIMIT, &name, self.chance.between(0, 90_000)),
            8 if self.chance.once_in(10) => self.whole_ledger(),
            _ if kind < 9 + settles => {
                let id = self.booking();
                if self.chance.once_in(3) {
                    release(id)
                } else {
                    commit(id, self.chance.between(0, 12_000))
                }
            }
            _ => named(RESERVE, &name, self.chance.between(1, 10_000)),
        }
    }

    fn end(&mut self) -> i64 {
        match self.chance.below(8) {
            0 => self.chance.word() as i64,
            1 => self.chance.between(-5, 300),
            _ => *self.chance.one_of(&ENDS),
        }
    }

    fn amounts(&mut self) -> Vec<u8> {
        let among = self.chance.index(6);
        let (name, amount) = (self.odd[among].clone(), self.end());
        match self.chance.below(40) {
            0..=20 => named(*self.chance.one_of(&[ENSURE, TOP_UP, LIMIT, RESERVE, RESERVE, RESERVE]), &name, amount),
            21..=29 => commit(self.booking(), amount),
            30..=35 => release(self.booking()),
            36..=37 => self.whole_ledger(),
            _ => {
                let snapshot = self.sound_snapshot(6, true);
                on_snapshot(*self.chance.one_of(&[RESTORE, RECOVERY_RESTORE]), 0, &snapshot.bytes())
            }
        }
    }

    fn ids(&mut self) -> Vec<u8> {
        let name = self.odd[self.chance.index(6)].clone();
        match self.chance.below(24) {
            0..=9 => named(RESERVE, &name, self.chance.between(0, 120)),
            10..=12 => named(*self.chance.one_of(&[ENSURE, TOP_UP]), &name, self.chance.between(1, 900)),
            13..=15 => commit(self.booking(), self.chance.between(0, 130)),
            16..=18 => release(self.booking()),
            19..=21 => self.whole_ledger(),
            _ => {
                let mut snapshot = self.sound_snapshot(6, false);
                snapshot.version = TAG + M - self.chance.below(7);
                on_snapshot(*self.chance.one_of(&[RESTORE, RECOVERY_RESTORE]), 0, &snapshot.bytes())
            }
        }
    }

    fn names(&mut self) -> Vec<u8> {
        let name = self.chance.one_of(&self.odd).clone();
        match self.chance.below(60) {
            0..=15 => named(*self.chance.one_of(&[ENSURE, TOP_UP, LIMIT]), &name, self.chance.between(-1, 900)),
            16..=38 => named(RESERVE, &name, self.chance.between(0, 200)),
            39..=46 => commit(self.booking(), self.chance.between(-1, 250)),
            47..=52 => release(self.booking()),
            53..=56 => self.whole_ledger(),
            57 => {
                let snapshot = self.sound_snapshot(40, false);
                on_snapshot(*self.chance.one_of(&[RESTORE, RECOVERY_RESTORE]), 0, &snapshot.bytes())
            }
            _ => named(LIMIT, &name, 0),
        }
    }

    /// A snapshot that a restore takes: rows in any order, amounts that add up, nothing reserved.
    fn sound_snapshot(&mut self, most: usize, at_the_ends: bool) -> Snapshot {
        let mut rows = Vec::new();
        let mut left = self.odd.clone();
        for _ in 0..self.chance.index(most + 1) {
            let name = left.swap_remove(self.chance.index(left.len().min(most)));
            let initial = if at_the_ends { self.end().max(0) } else { self.chance.between(0, 5_000) };
            let committed = *self.chance.one_of(&[0, initial, initial / 2, initial - initial.min(1)]);
            rows.push(Row { name, initial, remaining: initial - committed, reserved: 0, committed });
        }
        let version = TAG + 1 + self.chance.below(1_000);
        Snapshot { version, active: 0, rows }
    }

    /// One thing about a snapshot that some rule looks at is changed.
    fn spoil(&mut self, snapshot: &mut Snapshot) {
        let amount = self.end();
        let kind = self.chance.below(14);
        if kind < 3 {
            snapshot.version = *self.chance.one_of(&[0, 1, 5, M, TAG, TAG + 1, TAG + M - 1, TAG + M]);
            return;
        }
        if kind == 3 {
            snapshot.active = *self.chance.one_of(&[1, 7, u64::MAX]);
            return;
        }
        if snapshot.rows.is_empty() {
            return;
        }
        let among = self.chance.index(snapshot.rows.len());
        let again = snapshot.rows[self.chance.index(snapshot.rows.len())].clone();
        let row = &mut snapshot.rows[among];
        match kind {
            4 => snapshot.rows.push(again),
            5 => row.reserved = amount,
            6 => row.remaining = amount,
            7 => row.initial = amount,
            8 => row.committed = amount,
            9 => {
                row.committed = amount;
                row.initial = row.remaining.wrapping_add(row.reserved).wrapping_add(amount);
            }
            10 => {
                // the exact sum fits although remaining plus reserved does not (docs/DIFFERENCES.md)
                row.remaining = i64::MAX - self.chance.between(0, 1);
                row.reserved = self.chance.between(1, 3);
                row.committed = -self.chance.between(1, 3);
                row.initial = row.remaining.wrapping_add(row.reserved).wrapping_add(row.committed);
            }
            11 => row.name = vec![b'n'; 25 + self.chance.index(231)],
            12 => (row.remaining, row.reserved, row.committed) = (i64::MIN, -1, self.chance.between(0, 2)),
            _ => (row.remaining, row.committed) = (row.committed, row.remaining),
        }
    }

    /// Bytes cut, added or changed anywhere.
    fn damage(&mut self, bytes: &mut Vec<u8>) {
        let at = self.chance.index(bytes.len());
        match self.chance.below(4) {
            0 => bytes.truncate(at),
            1 => bytes.push(self.chance.word() as u8),
            2 => bytes[at.min(17)] ^= 1 << self.chance.below(8),
            _ => bytes[16 + self.chance.index(2)] = self.chance.word() as u8,
        }
    }

    fn snapshots(&mut self) -> Vec<u8> {
        let code = *self.chance.one_of(&[RESTORE, RECOVERY_RESTORE, MIGRATE, CERTIFICATE_OF_SNAPSHOT, STATUS]);
        let word = match self.chance.below(3) {
            0 => self.chance.below(900),
            1 => self.end() as u64,
            _ => *self.chance.one_of(&[0, 1, M, M + 1, u64::MAX]),
        };
        match self.chance.below(20) {
            0..=3 => self.desk(),
            4 => self.whole_ledger(),
            5 if !self.taken.is_empty() => {
                let mut bytes = self.taken.clone();
                if code == MIGRATE {
                    bytes[0] &= 0x7f;
                }
                on_snapshot(code, word, &bytes)
            }
            6 => {
                let mut bytes = self.sound_snapshot(5, true).bytes();
                self.damage(&mut bytes);
                on_snapshot(code, word, &bytes)
            }
            7..=8 => {
                let mut snapshot = self.sound_snapshot(30, false);
                snapshot.version &= if code == MIGRATE { M } else { u64::MAX };
                on_snapshot(code, word, &snapshot.bytes())
            }
            _ => {
                let at_the_ends = self.chance.once_in(2);
                let mut snapshot = self.sound_snapshot(8, at_the_ends);
                snapshot.version &= if code == MIGRATE { M } else { u64::MAX };
                for _ in 0..1 + self.chance.below(2) {
                    self.spoil(&mut snapshot);
                }
                on_snapshot(code, word, &snapshot.bytes())
            }
        }
    }
}
