//! A ledger opened; a courier booked, a bag delivered, another found on the belt; and a line for the log. cargo run --example first

use zatovola::{Answer, Ledger, Microcents, Operation, Refusal};

const CENT: i64 = 1_000_000;

fn euros(amount: Microcents) -> f64 {
    amount.0 as f64 / (100 * CENT) as f64
}

fn main() -> Result<(), Refusal> {
    let mut ledger = Ledger::new(256, 1_024)?;
    ledger.ensure(b"TP", Microcents(100_000 * CENT))?;
    ledger.limit(b"TP", Microcents(20_000 * CENT))?;

    let first = ledger.reserve(b"TP", Microcents(4_500 * CENT))?;
    let second = ledger.reserve(b"TP", Microcents(6_000 * CENT))?;
    println!("booked {} and {}, {:.2} remaining", first.id.0, second.id.0, euros(second.remaining));

    let delivered = ledger.commit(first.id, Microcents(4_180 * CENT))?;
    println!("delivered for {:.2}, {:.2} remaining", euros(delivered.amount), euros(delivered.remaining));

    let found = ledger.release(second.id)?;
    println!("found on the belt, {:.2} given back, {:.2} remaining", euros(found.amount), euros(found.remaining));

    match ledger.reserve(b"TP", Microcents(30_000 * CENT)) {
        Ok(booking) => println!("booked {}", booking.id.0),
        Err(refusal) => println!("refused: {refusal}"),
    }

    println!("asked without a snapshot: {:.2} of {:.2} left", euros(ledger.remaining(b"TP")?), euros(ledger.initial(b"TP")?));

    let snapshot = ledger.snapshot()?;
    for row in snapshot.rows() {
        println!("{}: {:.2} of {:.2} left", String::from_utf8_lossy(&row.name.0), euros(row.remaining), euros(row.initial));
    }

    // what another worker would send for a booking, and its answer as the log keeps it
    let reserve = Operation::Reserve { name: b"TP", cost: Microcents(4_500 * CENT) };
    let answer = ledger.reserve(b"TP", Microcents(4_500 * CENT)).map_or_else(Answer::Refused, Answer::Reserved);
    let (sent, kept) = (reserve.line()?, answer.line(&reserve)?);
    println!("> {}\n< {}", String::from_utf8_lossy(&sent), String::from_utf8_lossy(&kept));
    assert_eq!(Answer::of_line(&reserve, &kept)?, answer);
    Ok(())
}
