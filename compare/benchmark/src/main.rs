//! This ledger beside the unchanged Rust engine, in one process and one run, both built for release. compare/run benchmark
//!
//! Of each pair of programs the rounds alternate and the best round of each counts. A ratio above 1 says how many times as fast as the Rust this ledger is. Before a
//! row the ledgers are made anew and filled; between rounds nothing is cleared: the live bookings stay as many, balances move on.

mod ours;
mod rust;
mod work;

use work::{Size, Work};

const ROUNDS: usize = 25;

/// The best of the rounds, in nanoseconds for one operation, of each of several runners that take turns.
fn best<const N: usize>(operations: usize, mut runners: [&mut dyn FnMut(); N]) -> [f64; N] {
    let mut times = [f64::MAX; N];
    for _ in 0..ROUNDS {
        for (time, runner) in times.iter_mut().zip(&mut runners) {
            let start = std::time::Instant::now();
            runner();
            *time = time.min(start.elapsed().as_nanos() as f64 / operations as f64);
        }
    }
    times
}

/// A pair of operations as calls and as frames: the engine called, the engine behind frames, this ledger's checked calls, its batches.
fn settlements(size: Size, work: Work) -> [f64; 4] {
    let mut engine = rust::Engine::filled(size);
    let frames = rust::Frames::filled(size);
    let mut single = ours::Single::filled(size);
    let mut batch = ours::Batch::filled(size);
    let lines = work::lines(size, work, ROUNDS);
    let (mut first, mut second) = (lines.iter(), lines.iter());
    best(
        2 * work::PAIRS,
        [
            &mut || engine.pairs(work),
            &mut || frames.answer(first.next().unwrap()),
            &mut || single.pairs(work),
            &mut || batch.answer(second.next().unwrap()),
        ],
    )
}

fn settlement_rows(work: Work, title: &str) {
    println!("\n{title}, nanoseconds for one operation");
    println!("airlines   live |  Rust: call   frame |  here: checked call   batch | batch over call   over frame | checked call over call");
    for airlines in [16, 64, 256] {
        for live in [10, 200, 1_000] {
            let [call, frame, checked, batch] = settlements(Size { airlines, live }, work);
            println!(
                "{airlines:8} {live:6} | {call:11.0} {frame:7.0} | {checked:19.0} {batch:7.0} | {:15.2} {:12.2} | {:22.2}",
                call / batch,
                frame / batch,
                call / checked
            );
        }
    }
}

/// A desk's night of 60 airlines, by the profile of the comparison: most frames are bookings and settlements, some 200 are live.
fn night_row() {
    let nights: Vec<_> = (0..ROUNDS as u64).map(work::night).collect();
    let (mut rust, mut ours) = (nights.iter(), nights.iter());
    let [frame, batch] = best(
        work::NIGHT,
        [&mut || rust::Frames::fresh().answer(rust.next().unwrap()), &mut || ours::Batch::fresh().answer(ours.next().unwrap())],
    );
    println!("\nA desk's night through frames (60 airlines, some 200 live), nanoseconds for one frame");
    println!("Rust {frame:.0}, batch here {batch:.0}: {:.2} times as fast", frame / batch);
}

fn snapshot_rows() {
    println!("\nSnapshots, nanoseconds for one");
    println!("airlines   live |  Rust: snapshot   restore |  here: snapshot   restore | snapshot over   restore over");
    for airlines in [16, 64, 256] {
        for live in [10, 200, 1_000] {
            let size = Size { airlines, live };
            let (mut engine, mut ledger) = (rust::Engine::filled(size), ours::Single::filled(size));
            let [rust_taken, taken] = best(work::SNAPSHOTS, [&mut || engine.snapshots(), &mut || ledger.snapshots()]);
            let [rust_restored, restored] = best(work::SNAPSHOTS, [&mut || engine.restores(airlines), &mut || ledger.restores(airlines)]);
            println!(
                "{airlines:8} {live:6} | {rust_taken:15.0} {rust_restored:9.0} | {taken:15.0} {restored:9.0} | {:13.2} {:14.2}",
                rust_taken / taken,
                rust_restored / restored
            );
        }
    }
}

fn main() {
    println!("This ledger (T 256, R 1,024) beside the Rust engine; best of {ROUNDS} rounds each, by turns. A ratio above 1: this ledger is as many times as fast.");
    settlement_rows(Work::Commit, "Reserve and commit");
    settlement_rows(Work::Release, "Reserve and release");
    night_row();
    snapshot_rows();
}
