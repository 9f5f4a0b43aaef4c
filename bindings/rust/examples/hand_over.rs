//! The rebalance of 5:20. Four partitions have a ledger each; at the rebalance two airlines' messages change places, and two partitions move to other workers: one,
//! its bookings settled, by snapshot and recovery restore; the other, with live bookings and a limit, as the bytes of its room. At the end every airline's balances
//! are those of one ledger that nothing disturbed.
//! cargo run --example hand_over

use std::collections::HashMap;
use zatovola::{Identifier, Ledger, Microcents, Refusal, Row};

/// What the desk recorded: a time, an airline, what was asked, and its numbers. A booking is named by its number among the airline's own.
pub const NIGHT: &str = include_str!("night.txt");

const PARTITIONS: [[&str; 3]; 4] = [["AF", "BA", "KL"], ["LH", "LX", "OS"], ["TP", "UX", "IB"], ["SK", "AY", "DY"]];
/// Two airlines of one partition, whose messages after the rebalance come in the other order.
const CHANGED_PLACES: [&str; 2] = ["BA", "KL"];
/// The partition that moves by snapshot. It has no limits: those are no part of a snapshot, and a new owner would have to set them again.
const SETTLED: usize = 2;
/// The partition that moves as the bytes of its room: bookings are live, and LH has a limit.
const LIVE: usize = 1;

#[derive(Clone, Debug, PartialEq)]
pub struct Message {
    pub airline: String,
    pub asked: String,
    pub numbers: Vec<i64>,
}

pub fn message(line: &str) -> Message {
    let words: Vec<&str> = line.split(' ').collect();
    let numbers = words[3..].iter().map(|w| w.parse().expect("a number")).collect();
    Message { airline: words[1].to_owned(), asked: words[2].to_owned(), numbers }
}

/// A worker: a ledger, which id each airline's bookings were granted, and the number of each answer that an airline got.
struct Worker {
    ledger: Ledger,
    granted: HashMap<String, Vec<Identifier>>,
    answers: HashMap<String, Vec<u8>>,
}

impl Worker {
    fn new() -> Result<Worker, Refusal> {
        Ok(Worker { ledger: Ledger::new(256, 1_024)?, granted: HashMap::new(), answers: HashMap::new() })
    }

    fn booking(&self, message: &Message) -> Identifier {
        let number = message.numbers[0] as usize;
        self.granted.get(&message.airline).and_then(|ids| ids.get(number - 1)).copied().unwrap_or(Identifier(0))
    }

    fn take(&mut self, message: &Message) {
        let number = self.ask(message).map_or_else(|refusal| refusal.number(), |()| 0);
        self.answers.entry(message.airline.clone()).or_default().push(number);
    }

    /// The desk asks, the ledger answers; a refused booking is no booking.
    fn ask(&mut self, message: &Message) -> Result<(), Refusal> {
        let (name, amount) = (message.airline.as_bytes(), Microcents(*message.numbers.last().expect("an amount")));
        match message.asked.as_str() {
            "prepay" => self.ledger.ensure(name, amount),
            "top-up" => self.ledger.top_up(name, amount).map(|_| ()),
            "limit" => self.ledger.limit(name, amount),
            "deliver" => self.ledger.commit(self.booking(message), amount).map(|_| ()),
            "found" => self.ledger.release(self.booking(message)).map(|_| ()),
            _ => {
                let booking = self.ledger.reserve(name, amount)?;
                self.granted.entry(message.airline.clone()).or_default().push(booking.id);
                Ok(())
            }
        }
    }

    /// Another worker takes the partition over: its balances come by snapshot, and no booking is live.
    fn hand_over_by_snapshot(mut self) -> Result<Worker, Refusal> {
        let snapshot = self.ledger.snapshot()?;
        let mut next = Worker { ledger: Ledger::new(256, 1_024)?, ..self };
        next.ledger.recovery_restore(snapshot.bytes())?;
        Ok(next)
    }

    /// Another worker takes the partition over as it is: the bytes of its room hold bookings, their ids and limits too. It asks of them only that they are a sound
    /// ledger.
    fn hand_over_by_room(self) -> Result<Worker, Refusal> {
        let Worker { ledger, granted, answers } = self;
        let bytes = ledger.into_room();
        Ok(Worker { ledger: Ledger::from_room(bytes)?, granted, answers })
    }
}

/// The messages of two airlines change places: where one of either stood, those of the second come first. Each airline's own order is kept.
fn change_places(messages: &[Message]) -> Vec<Message> {
    let [first, second] = CHANGED_PLACES;
    let of = |airline| messages.iter().filter(move |m| m.airline == airline);
    let mut others_way = of(second).chain(of(first));
    messages.iter().map(|m| if CHANGED_PLACES.contains(&m.airline.as_str()) { others_way.next().unwrap_or(m) } else { m }.clone()).collect()
}

/// An airline's row and answers of one ledger, beside those of its partition's.
pub struct SideBySide {
    pub undisturbed: (Row, Vec<u8>),
    pub handed_over: (Row, Vec<u8>),
}

/// Each airline's row in the ledger of its worker, and the numbers of the answers it got there.
fn told(worker: &mut Worker) -> Result<Vec<(Row, Vec<u8>)>, Refusal> {
    let rows = worker.ledger.snapshot()?.rows();
    Ok(rows.into_iter().map(|row| (row.clone(), worker.answers[&String::from_utf8_lossy(&row.name.0).into_owned()].clone())).collect())
}

pub fn run() -> Result<Vec<SideBySide>, Refusal> {
    let mut parts = NIGHT.split("05:20 rebalance\n");
    let [before, after] = [0, 1].map(|_| parts.next().unwrap_or_default().lines().map(message).collect::<Vec<_>>());
    let mut one = Worker::new()?;
    before.iter().chain(&after).for_each(|m| one.take(m));

    let mut workers = [Worker::new()?, Worker::new()?, Worker::new()?, Worker::new()?];
    let owner = |m: &Message| PARTITIONS.iter().position(|p| p.contains(&m.airline.as_str())).expect("a partition");
    before.iter().for_each(|m| workers[owner(m)].take(m));
    assert_eq!(workers[SETTLED].ledger.live_reservations()?, 0, "a snapshot of live bookings could not be restored");
    assert!(workers[LIVE].ledger.live_reservations()? > 0, "bookings are live while they move");
    let settled = std::mem::replace(&mut workers[SETTLED], Worker::new()?);
    workers[SETTLED] = settled.hand_over_by_snapshot()?;
    let live = std::mem::replace(&mut workers[LIVE], Worker::new()?);
    workers[LIVE] = live.hand_over_by_room()?;
    let changed = change_places(&after);
    assert_ne!(changed, after, "two airlines' messages come in another order");
    changed.iter().for_each(|m| workers[owner(m)].take(m));

    let mut handed_over = Vec::new();
    for worker in &mut workers {
        handed_over.extend(told(worker)?);
    }
    handed_over.sort_by(|a, b| a.0.name.cmp(&b.0.name));
    let undisturbed = told(&mut one)?;
    assert_eq!(undisturbed.len(), handed_over.len(), "as many airlines on both sides");
    Ok(undisturbed.into_iter().zip(handed_over).map(|(undisturbed, handed_over)| SideBySide { undisturbed, handed_over }).collect())
}

#[allow(dead_code)]
fn main() -> Result<(), Refusal> {
    let balances = |r: &Row| format!("{:>8}{:>11}{:>10}{:>11}", r.initial.0, r.remaining.0, r.reserved.0, r.committed.0);
    println!("airline  one ledger                               handed over");
    println!("          initial  remaining  reserved  committed  initial  remaining  reserved  committed");
    for row in run()? {
        let same = if row.undisturbed == row.handed_over { "same" } else { "DIFFERENT" };
        let name = String::from_utf8_lossy(&row.undisturbed.0.name.0).into_owned();
        println!("{name:<7}{}  {}  {same}", balances(&row.undisturbed.0), balances(&row.handed_over.0));
    }
    Ok(())
}
