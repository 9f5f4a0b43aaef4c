//! The work of a row: the same bookings for every program. Which live booking is settled next is drawn by chance, the same for all.

use drivers::chance::Chance;
use drivers::frames::{commit, named, release, ENSURE, RESERVE};
use drivers::profiles::{Profile, Shift};
use oracle::{line_of_bytes, Oracle};

/// Pairs of a reserve and a settlement in a round.
pub const PAIRS: usize = 4_000;
/// Snapshots, and restores, in a round.
pub const SNAPSHOTS: usize = 200;
/// Frames of a night.
pub const NIGHT: usize = 50_000;

pub const INITIAL: i64 = 1_000_000_000_000;
pub const COST: i64 = 5_000;
pub const FARE: i64 = 4_200;

#[derive(Clone, Copy)]
pub struct Size {
    pub airlines: usize,
    pub live: usize,
}

#[derive(Clone, Copy, PartialEq)]
pub enum Work {
    Commit,
    Release,
}

pub fn name(n: usize) -> String {
    format!("AIRLINE-{n:03}")
}

/// Who books next, and which of the live bookings is settled: the same for every program.
pub struct Turns(Chance);

impl Turns {
    pub fn new() -> Self {
        Turns(Chance::new(520))
    }

    /// An airline, and a place among the live bookings and the new one.
    pub fn next(&mut self, size: Size) -> (usize, usize) {
        (self.0.index(size.airlines), self.0.index(size.live + 1))
    }
}

/// Each airline prepaid, and as many bookings as are to be live.
pub fn filling(size: Size) -> Vec<Vec<u8>> {
    let opened = (0..size.airlines).map(|n| named(ENSURE, name(n).as_bytes(), INITIAL));
    let booked = (0..size.live).map(|n| named(RESERVE, name(n % size.airlines).as_bytes(), COST));
    opened.chain(booked).collect()
}

fn joined(frames: &[Vec<u8>]) -> Vec<u8> {
    frames.iter().flat_map(|f| [line_of_bytes(f).as_slice(), b"\n"].concat()).collect()
}

pub fn filling_lines(size: Size) -> Vec<u8> {
    joined(&filling(size))
}

/// The lines of each round: ids are granted one after the other, so that they are known beforehand.
pub fn lines(size: Size, work: Work, rounds: usize) -> Vec<Vec<u8>> {
    let mut turns = Turns::new();
    let mut live: Vec<u64> = (1..=size.live as u64).collect();
    let mut next = size.live as u64 + 1;
    let mut round = || {
        let mut frames = Vec::new();
        for _ in 0..PAIRS {
            let (airline, place) = turns.next(size);
            frames.push(named(RESERVE, name(airline).as_bytes(), COST));
            live.push(next);
            next += 1;
            let id = live.swap_remove(place);
            frames.push(if work == Work::Commit { commit(id, FARE) } else { release(id) });
        }
        joined(&frames)
    };
    (0..rounds).map(|_| round()).collect()
}

/// A desk's night, from a fresh ledger.
pub fn night(seed: u64) -> Vec<u8> {
    let (mut shift, oracle) = (Shift::new(seed), Oracle::new());
    let mut frames = Vec::new();
    for _ in 0..NIGHT {
        let frame = shift.frame(Profile::Desk);
        shift.learn(&frame, &oracle.line(&line_of_bytes(&frame)));
        frames.push(frame);
    }
    joined(&frames)
}
