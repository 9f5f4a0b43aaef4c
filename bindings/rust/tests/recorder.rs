//! The recorder over the linked archive: operations and answers as lines, there and back, by chance from a fixed seed, beside a spelling of the test's own.

use zatovola::*;

#[allow(dead_code)]
#[path = "../examples/hand_over.rs"]
mod hand_over;

const SEED: u64 = 520;
const OPERATIONS: u64 = 1_000_000;
const ANSWERS: u64 = 1_000_000;
const DAMAGED: u64 = 300_000;
/// What lent output is filled with: no digit and no byte that the samples favour.
const UNTOUCHED: u8 = b'-';

/// Marsaglia's xorshift of 64 bits.
struct Chance(u64);

impl Chance {
    fn next(&mut self) -> u64 {
        self.0 ^= self.0 << 13;
        self.0 ^= self.0 >> 7;
        self.0 ^= self.0 << 17;
        self.0
    }

    /// A number below this one.
    fn below(&mut self, end: u64) -> u64 {
        (self.next() >> 11) % end
    }

    fn one_in(&mut self, count: u64) -> bool {
        self.below(count) == 0
    }

    /// Any word, with a liking for the edges.
    fn word(&mut self) -> u64 {
        const EDGES: [u64; 8] = [0, 1, 255, 256, i64::MAX as u64, i64::MAX as u64 + 1, u64::MAX - 1, u64::MAX];
        if self.one_in(2) {
            self.next()
        } else {
            EDGES[self.below(EDGES.len() as u64) as usize]
        }
    }

    fn amount(&mut self) -> Microcents {
        Microcents(self.word() as i64)
    }

    fn yes(&mut self) -> bool {
        self.one_in(2)
    }

    fn bytes(&mut self, size: u64) -> Vec<u8> {
        (0..size).map(|_| self.below(256) as u8).collect()
    }

    fn settled(&mut self) -> Settled {
        Settled { remaining: self.amount(), amount: self.amount() }
    }
}

fn hexadecimal(bytes: &[u8]) -> Vec<u8> {
    const DIGITS: &[u8; 16] = b"0123456789abcdef";
    bytes.iter().flat_map(|byte| [DIGITS[usize::from(byte >> 4)], DIGITS[usize::from(byte & 15)]]).collect()
}

/// A name or a snapshot by chance, and what an operation that carries it is refused with.
struct Sample {
    bytes: Vec<u8>,
    refused: Option<Refusal>,
}

/// 0 to 26 bytes.
fn name(chance: &mut Chance) -> Sample {
    let size = chance.below(27);
    Sample { bytes: chance.bytes(size), refused: (size > 24).then_some(Refusal::NameTooLong) }
}

/// Of no row up to four, some with a long name; not always whole.
fn snapshot(chance: &mut Chance) -> Sample {
    let rows = chance.below(5);
    let mut bytes = [chance.word().to_be_bytes(), chance.word().to_be_bytes()].concat();
    bytes.extend((rows as u16).to_be_bytes());
    let mut refused = None;
    for _ in 0..rows {
        let size = if chance.one_in(20) { 20 + chance.below(236) } else { chance.below(25) };
        if size > 24 {
            refused = Some(Refusal::NameTooLong);
        }
        bytes.push(size as u8);
        bytes.extend(chance.bytes(size));
        (0..4).for_each(|_| bytes.extend(chance.word().to_be_bytes()));
    }
    if chance.one_in(6) {
        refused = Some(Refusal::BadFrame);
        damage(chance, &mut bytes);
    }
    Sample { bytes, refused }
}

/// Into bytes that are no snapshot: cut, longer, or of more rows than can be.
fn damage(chance: &mut Chance, bytes: &mut Vec<u8>) {
    match chance.below(3) {
        0 => bytes.truncate(chance.below(bytes.len() as u64) as usize),
        1 => bytes.push(chance.below(256) as u8),
        _ => bytes[16] = 1 + chance.below(255) as u8,
    }
}

/// The operation with this code, and its bytes as the test spells them.
fn operation<'a>(chance: &mut Chance, code: u8, part: &'a [u8]) -> (Operation<'a>, Vec<u8>) {
    let (number, amount) = (chance.word(), chance.amount());
    let (numbered, behind, sized) = (number.to_be_bytes(), amount.0.to_be_bytes(), [part.len() as u8]);
    let (operation, fields) = match code {
        1 => (Operation::Ensure { name: part, amount }, vec![&sized, part, &behind]),
        2 => (Operation::TopUp { name: part, amount }, vec![&sized, part, &behind]),
        3 => (Operation::Limit { name: part, amount }, vec![&sized, part, &behind]),
        4 => (Operation::Reserve { name: part, cost: amount }, vec![&sized, part, &behind]),
        5 => (Operation::Commit { id: Identifier(number), actual: amount }, vec![&numbered[..], &behind]),
        6 => (Operation::Release { id: Identifier(number) }, vec![&numbered[..]]),
        7 => (Operation::Snapshot, vec![]),
        8 => (Operation::Restore { snapshot: part }, vec![part]),
        9 => (Operation::RecoveryRestore { snapshot: part }, vec![part]),
        10 => (Operation::Migrate { snapshot: part, fence: number }, vec![&numbered[..], part]),
        11 => (Operation::Certificate, vec![]),
        12 => (Operation::CertificateOfSnapshot { snapshot: part, since: amount }, vec![&behind[..], part]),
        13 => (Operation::ConservationProof, vec![]),
        _ => (Operation::ConservationStatus { snapshot: part }, vec![part]),
    };
    (operation, [&[code][..], &fields.concat()].concat())
}

/// What a writer told that was lent so much output, and the output after it.
fn lent(size: usize, write: impl FnOnce(&mut [u8]) -> Result<usize, Refusal>) -> (Result<usize, Refusal>, Vec<u8>) {
    let mut output = vec![UNTOUCHED; size];
    let result = write(&mut output);
    (result, output)
}

/// A writer writes this text, into just enough room and into more, and nothing into one character less.
fn assert_writes(text: &[u8], write: impl Fn(&mut [u8]) -> Result<usize, Refusal>) {
    assert_eq!(lent(text.len(), &write), (Ok(text.len()), text.to_vec()));
    assert_eq!(lent(text.len() + 3, &write), (Ok(text.len()), [text, &[UNTOUCHED; 3]].concat()));
    assert_eq!(lent(text.len() - 1, &write), (Err(Refusal::OutputTooShort), vec![UNTOUCHED; text.len() - 1]));
}

/// A writer refuses, whatever room it is lent, and leaves it as it is.
fn assert_refuses(refusal: &Refusal, most: usize, write: impl Fn(&mut [u8]) -> Result<usize, Refusal>) {
    for size in [0, 1, most] {
        assert_eq!(lent(size, &write), (Err(refusal.clone()), vec![UNTOUCHED; size]));
    }
}

#[test]
fn operations_are_written_as_their_one_line() {
    let mut chance = Chance(SEED);
    let mut refused = [0; 25];
    for turn in 0..OPERATIONS {
        let code = 1 + (turn % 14) as u8;
        let part = if code <= 4 { name(&mut chance) } else { snapshot(&mut chance) };
        let (operation, bytes) = operation(&mut chance, code, &part.bytes);
        assert_eq!(operation.code(), code);
        // commit, release and the ledger's own operations do not look at a part
        match part.refused.filter(|_| ![5, 6, 7, 11, 13].contains(&code)) {
            None => {
                assert_eq!(operation.bytes().as_deref(), Ok(&bytes[..]));
                assert_eq!(operation.line(), Ok(hexadecimal(&bytes)));
                assert_writes(&bytes, |output| operation.write_bytes(output));
                assert_writes(&hexadecimal(&bytes), |output| operation.write_line(output));
            }
            Some(refusal) => {
                assert_eq!((operation.bytes(), operation.line()), (Err(refusal.clone()), Err(refusal.clone())));
                assert_refuses(&refusal, 2 * bytes.len(), |output| operation.write_bytes(output));
                assert_refuses(&refusal, 2 * bytes.len(), |output| operation.write_line(output));
                refused[usize::from(refusal.number())] += 1;
            }
        }
    }
    assert!(refused[19] > 10_000 && refused[23] > 10_000, "both refusals are met often");
}

/// Answer numbers that the operation with this code can be refused with (document 01, in the order of its checks).
fn refusals(code: u8) -> &'static [u8] {
    match code {
        1 | 3 => &[24, 19, 1, 20],
        2 => &[24, 19, 2, 3, 4],
        4 => &[24, 19, 6, 3, 4, 5, 21],
        5 => &[24, 2, 7, 4, 8],
        6 => &[24, 7],
        7 | 11 => &[24, 9],
        8 => &[24, 19, 13, 10, 11, 12, 15, 14, 20],
        9 => &[24, 19, 18, 17, 10, 11, 12, 13, 15, 14, 20],
        10 => &[19, 16, 17, 10, 11, 12, 13, 15, 14],
        12 => &[19],
        13 => &[24, 9, 15],
        _ => &[19, 15, 14],
    }
}

/// An answer by chance, and its bytes as the test spells them.
type Spelled = (Answer, Vec<u8>);

fn spelled(answer: Answer, number: u8, fields: &[&[u8]]) -> Spelled {
    (answer, [&[number][..], &fields.concat()].concat())
}

/// The refusal of this number; that of 4 is the one to the operation with this code.
fn refusal(chance: &mut Chance, code: u8, number: u8) -> Spelled {
    let (first, second, field) = (chance.amount(), chance.amount(), chance.below(256) as u8);
    let (one, two) = (&first.0.to_be_bytes()[..], &second.0.to_be_bytes()[..]);
    let size = chance.below(25);
    let bytes = chance.bytes(size);
    let (sized, name) = ([&[size as u8][..], &bytes].concat(), Name(bytes));
    let (refusal, fields) = match number {
        1 => (Refusal::NegativeAmount { value: first }, vec![one]),
        2 => (Refusal::InvalidAmount, vec![]),
        3 => (Refusal::MissingTenant, vec![]),
        4 if code == 2 => (Refusal::Overflow { current: None }, vec![]),
        4 => (Refusal::Overflow { current: Some(first) }, vec![one]),
        5 => (Refusal::ExposureLimitExceeded { reserved: first, limit: second }, vec![one, two]),
        6 => (Refusal::Insufficient { remaining: first, required: second }, vec![one, two]),
        7 => (Refusal::MissingReservation, vec![]),
        8 => (Refusal::Overrun { remaining: first }, vec![one]),
        9 => (Refusal::AllocatorExhausted, vec![]),
        10 => (Refusal::ActiveReservations { count: first.0 as u64 }, vec![one]),
        11 => (Refusal::DuplicateTenant { name }, vec![&sized[..]]),
        12 => (Refusal::GhostReservation { name, reserved: first }, vec![&sized, one]),
        13 => (Refusal::NegativeLedgerField { name, field, value: first }, vec![&sized, std::slice::from_ref(&field), one]),
        14 => (Refusal::ConservationViolation { name, delta: first }, vec![&sized, one]),
        15 => (Refusal::AggregateOverflow, vec![]),
        16 => (Refusal::AlreadyRecoveryAware, vec![]),
        17 => (Refusal::InvalidAllocatorFence { fence: first.0 as u64 }, vec![one]),
        18 => (Refusal::LegacySnapshotRequiresMigration, vec![]),
        19 => (Refusal::NameTooLong, vec![]),
        20 => (Refusal::NamesFull, vec![]),
        21 => (Refusal::ReservationsFull, vec![]),
        22 => (Refusal::OutputTooShort, vec![]),
        23 => (Refusal::BadFrame, vec![]),
        _ => (Refusal::UnsoundLedger, vec![]),
    };
    spelled(Answer::Refused(refusal), number, &fields)
}

fn certificate(chance: &mut Chance) -> Spelled {
    let (version, rows, active, balanced, representable) = (chance.word(), chance.word(), chance.word(), chance.yes(), chance.yes());
    let (initial_total, committed_total, since) = (chance.amount(), chance.amount(), chance.amount());
    let counts = [version, rows, active].map(u64::to_be_bytes).concat();
    let totals = [initial_total, committed_total].map(|amount| amount.0.to_be_bytes()).concat();
    let fields = [&counts[..], &[balanced.into()], &totals, &[representable.into()], &since.0.to_be_bytes()];
    let told = Certificate { balanced, representable, since, version, rows, active, initial_total, committed_total };
    spelled(Answer::Certified(told), 0, &fields)
}

fn proof(chance: &mut Chance) -> Spelled {
    let (version, accounts, active, representable) = (chance.word(), chance.word(), chance.word(), chance.yes());
    let (initial_total, committed_total) = (chance.amount(), chance.amount());
    let counts = [version, accounts, active].map(u64::to_be_bytes).concat();
    let totals = [initial_total, committed_total].map(|amount| amount.0.to_be_bytes()).concat();
    let told = ConservationProof { version, accounts, active, initial_total, committed_total, representable };
    spelled(Answer::Proved(told), 0, &[&counts, &totals, &[representable.into()]])
}

/// A snapshot is had from an answer alone.
fn given(chance: &mut Chance) -> (Snapshot, Vec<u8>) {
    loop {
        let sample = snapshot(chance);
        match (sample.refused, Answer::of_bytes(&Operation::Snapshot, &[&[0], &sample.bytes[..]].concat())) {
            (None, Ok(Answer::Snapshot(snapshot))) => return (snapshot, sample.bytes),
            (Some(_), answer) => assert_eq!(answer, Err(Refusal::BadFrame)),
            (None, answer) => panic!("{answer:?}"),
        }
    }
}

/// What the operation with this code is done with.
fn done(chance: &mut Chance, code: u8) -> Spelled {
    let settled = chance.settled();
    let both = [settled.remaining.0.to_be_bytes(), settled.amount.0.to_be_bytes()].concat();
    match code {
        1 => spelled(Answer::Ensured, 0, &[]),
        2 => {
            let told = ToppedUp { amount: chance.amount(), initial: settled.remaining, remaining: settled.amount };
            spelled(Answer::ToppedUp(told), 0, &[&told.amount.0.to_be_bytes(), &both])
        }
        3 => spelled(Answer::Limited, 0, &[]),
        4 => {
            let id = Identifier(settled.amount.0 as u64);
            spelled(Answer::Reserved(Booking { remaining: settled.remaining, id }), 0, &[&both])
        }
        5 => spelled(Answer::Committed(settled), 0, &[&both]),
        6 => spelled(Answer::Released(settled), 0, &[&both]),
        7 | 10 => {
            let (snapshot, bytes) = given(chance);
            spelled(if code == 7 { Answer::Snapshot(snapshot) } else { Answer::Migrated(snapshot) }, 0, &[&bytes])
        }
        8 | 9 => spelled(Answer::Restored, 0, &[]),
        11 | 12 => certificate(chance),
        13 => proof(chance),
        _ => spelled(Answer::Balanced, 0, &[]),
    }
}

/// A line that may be an answer to this operation: none, or the one whose line it is.
fn assert_read_or_refused(operation: &Operation, line: &[u8]) -> bool {
    match Answer::of_line(operation, line) {
        Ok(answer) => {
            assert_eq!(answer.line(operation).as_deref(), Ok(line));
            true
        }
        Err(refusal) => {
            assert_eq!(refusal, Refusal::BadFrame);
            false
        }
    }
}

/// One character of the line is another one, a digit as a rule.
fn flipped(chance: &mut Chance, line: &[u8]) -> Vec<u8> {
    let mut line = line.to_vec();
    let place = if chance.one_in(2) { chance.below(line.len().min(4) as u64) } else { chance.below(line.len() as u64) } as usize;
    let before = line[place];
    while line[place] == before {
        line[place] = if chance.one_in(8) { chance.below(256) as u8 } else { b"0123456789abcdef"[chance.below(16) as usize] };
    }
    line
}

#[test]
fn answers_are_read_back_by_their_operation() {
    let mut chance = Chance(SEED);
    let (mut met, mut others) = ([[false; 25]; 15], [0; 2]);
    for turn in 0..ANSWERS {
        let (code, other_code) = (1 + (turn % 14) as u8, 1 + chance.below(14) as u8);
        let ((asked, _), (other, _)) = (operation(&mut chance, code, b"Q1"), operation(&mut chance, other_code, b""));
        let numbers = refusals(code);
        let number = if chance.one_in(3) { 0 } else { numbers[chance.below(numbers.len() as u64) as usize] };
        let (answer, bytes) = if number == 0 { done(&mut chance, code) } else { refusal(&mut chance, code, number) };
        let line = hexadecimal(&bytes);
        met[usize::from(code)][usize::from(number)] = true;
        assert_eq!(answer.line(&asked).as_deref(), Ok(&line[..]));
        assert_writes(&line, |output| answer.write_line(&asked, output));
        assert_eq!(Answer::of_line(&asked, &line).as_ref(), Ok(&answer));
        assert_eq!(Answer::of_bytes(&asked, &bytes).as_ref(), Ok(&answer));
        let changed = flipped(&mut chance, &line);
        others[0] += usize::from(assert_read_or_refused(&asked, &changed));
        assert_ne!(Answer::of_line(&asked, &changed), Ok(answer));
        others[1] += usize::from(assert_read_or_refused(&other, &line));
    }
    for code in 1..=14 {
        assert!(refusals(code).iter().chain(&[0]).all(|number| met[usize::from(code)][usize::from(*number)]));
    }
    assert!(others.iter().all(|count| *count > 10_000), "many a line is another answer, or one to another operation");
}

#[test]
fn an_answer_that_an_operation_never_gets_is_not_written() {
    let mut chance = Chance(SEED);
    for code in 1..=14 {
        let (asked, _) = operation(&mut chance, code, b"Q1");
        let write = |answer: Answer| move |output: &mut [u8]| answer.write_line(&asked, output);
        for number in (1..=24).filter(|number| !refusals(code).contains(number)) {
            let (answer, bytes) = refusal(&mut chance, code, number);
            assert_refuses(&Refusal::BadFrame, 200, write(answer));
            assert_eq!(Answer::of_line(&asked, &hexadecimal(&bytes)), Err(Refusal::BadFrame));
        }
        for other in 1..=14 {
            let answer = done(&mut chance, other).0;
            if other == code || [[8, 9], [9, 8], [11, 12], [12, 11]].contains(&[code, other]) {
                assert!(answer.line(&asked).is_ok());
            } else {
                assert_refuses(&Refusal::BadFrame, 20_000, write(answer));
            }
        }
        // an overflow tells an amount, and after a top-up none
        let overflow = |current| Answer::Refused(Refusal::Overflow { current });
        assert_eq!(overflow(None).line(&asked).is_ok(), code == 2);
        assert_eq!(overflow(Some(Microcents(0))).line(&asked).is_ok(), [4, 5].contains(&code));
    }
}

#[test]
fn a_long_name_in_an_answer_is_refused_before_the_room() {
    let asked = Operation::Restore { snapshot: &[] };
    for size in [25, 26, 255, 256, 5_000] {
        let name = Name(vec![b'n'; size]);
        for refusal in [
            Refusal::DuplicateTenant { name: name.clone() },
            Refusal::GhostReservation { name: name.clone(), reserved: Microcents(1) },
            Refusal::NegativeLedgerField { name: name.clone(), field: 1, value: Microcents(-1) },
            Refusal::ConservationViolation { name: name.clone(), delta: Microcents(1) },
        ] {
            let answer = Answer::Refused(refusal);
            assert_eq!(answer.line(&asked), Err(Refusal::NameTooLong));
            assert_refuses(&Refusal::NameTooLong, 20_000, |output| answer.write_line(&asked, output));
        }
        let named = Operation::Ensure { name: &name.0, amount: Microcents(1) };
        assert_eq!((named.line(), named.bytes()), (Err(Refusal::NameTooLong), Err(Refusal::NameTooLong)));
    }
}

#[test]
fn damaged_lines_are_no_answers_or_their_own() {
    let mut chance = Chance(SEED);
    for turn in 0..DAMAGED {
        let code = 1 + (turn % 14) as u8;
        let (asked, _) = operation(&mut chance, code, b"");
        let size = chance.below(120);
        let mut line = match chance.below(3) {
            0 => chance.bytes(size),
            1 => hexadecimal(&chance.bytes(size)),
            _ => hexadecimal(&done(&mut chance, code).1),
        };
        match chance.below(4) {
            0 => line.truncate(chance.below(line.len() as u64 + 1) as usize),
            1 => line.push(b"0a\nG\xff"[chance.below(5) as usize]),
            2 if line.len() > 1 => line[..2].copy_from_slice(&hexadecimal(&[chance.below(26) as u8])),
            _ => (),
        }
        assert_read_or_refused(&asked, &line);
        if let Ok(answer) = Answer::of_bytes(&asked, &line) {
            assert_eq!(answer.line(&asked), Ok(hexadecimal(&line)));
        }
    }
}

#[test]
fn the_longest_lines_and_longer_ones() {
    let rows = |names: usize, size: usize| -> Vec<u8> {
        let row = |i: usize| [&[size as u8][..], &vec![i as u8; size], &[0; 32]].concat();
        [&[0; 16][..], &(names as u16).to_be_bytes(), &(0..names).flat_map(row).collect::<Vec<_>>()].concat()
    };
    let longest = rows(256, 24);
    let asked = Operation::Migrate { snapshot: &longest, fence: 9 };
    assert_eq!((asked.bytes().unwrap().len(), asked.line().unwrap().len()), (14_619, 29_238));
    let line = hexadecimal(&[&[0], &longest[..]].concat());
    assert_eq!(line.len(), 29_222);
    assert!(assert_read_or_refused(&asked, &line));
    for (snapshot, refusal) in [
        (rows(257, 24), Refusal::BadFrame),
        (rows(256, 25), Refusal::NameTooLong),
        (rows(256, 255), Refusal::NameTooLong),
        (vec![0; 1_000_000], Refusal::BadFrame),
    ] {
        let migrate = Operation::Migrate { snapshot: &snapshot, fence: 9 };
        assert_eq!((migrate.bytes(), migrate.line()), (Err(refusal.clone()), Err(refusal)));
        assert!(!assert_read_or_refused(&asked, &hexadecimal(&[&[0], &snapshot[..]].concat())));
    }
    for size in [29_221, 29_223, 29_224, 60_000] {
        assert!(!assert_read_or_refused(&asked, &vec![b'0'; size]));
    }
}

/// A ledger that is asked by lines alone.
struct ByLine {
    ledger: Ledger,
    output: Vec<u8>,
}

impl ByLine {
    fn ask(&mut self, operation: Operation) -> Answer {
        let line = [&operation.line().unwrap()[..], b"\n"].concat();
        let progress = self.ledger.batch(&line, &mut self.output);
        assert_eq!(progress.used, line.len());
        let answer = &self.output[..progress.written - 1];
        let read = Answer::of_line(&operation, answer).unwrap();
        assert_eq!(read.line(&operation).as_deref(), Ok(answer));
        read
    }
}

fn answer<T>(result: Result<T, Refusal>, done: impl FnOnce(T) -> Answer) -> Answer {
    result.map_or_else(Answer::Refused, done)
}

#[test]
fn a_nights_answers_read_back_are_what_the_methods_return() {
    let mut called = Ledger::new(256, 1_024).unwrap();
    let mut by_line = ByLine { ledger: called.clone(), output: vec![0; 65_536] };
    let mut granted: std::collections::HashMap<String, Vec<Identifier>> = Default::default();
    let (mut accepted, mut refused) = (0, 0);
    for line in hand_over::NIGHT.lines().filter(|line| !line.ends_with("rebalance")) {
        let message = hand_over::message(line);
        let ids = granted.entry(message.airline.clone()).or_default();
        let id = ids.get((message.numbers[0] as usize).wrapping_sub(1)).copied().unwrap_or(Identifier(0));
        let (name, amount) = (message.airline.as_bytes(), Microcents(*message.numbers.last().unwrap()));
        let (read, told) = match message.asked.as_str() {
            "prepay" => (by_line.ask(Operation::Ensure { name, amount }), answer(called.ensure(name, amount), |()| Answer::Ensured)),
            "top-up" => (by_line.ask(Operation::TopUp { name, amount }), answer(called.top_up(name, amount), Answer::ToppedUp)),
            "limit" => (by_line.ask(Operation::Limit { name, amount }), answer(called.limit(name, amount), |()| Answer::Limited)),
            "deliver" => (by_line.ask(Operation::Commit { id, actual: amount }), answer(called.commit(id, amount), Answer::Committed)),
            "found" => (by_line.ask(Operation::Release { id }), answer(called.release(id), Answer::Released)),
            _ => (by_line.ask(Operation::Reserve { name, cost: amount }), answer(called.reserve(name, amount), Answer::Reserved)),
        };
        assert_eq!(read, told, "{line}");
        assert_eq!(by_line.ledger.room(), called.room());
        match told {
            Answer::Refused(_) => refused += 1,
            Answer::Reserved(booking) => ids.push(booking.id),
            _ => accepted += 1,
        }
    }
    assert!(accepted > 50 && refused > 5, "{accepted} {refused}");
    assert_eq!(by_line.ask(Operation::Certificate), answer(called.certificate(), Answer::Certified));
    assert_eq!(by_line.ask(Operation::ConservationProof), answer(called.conservation_proof(), Answer::Proved));
    let taken = called.snapshot().unwrap();
    assert_eq!(by_line.ask(Operation::Snapshot), Answer::Snapshot(taken.clone()));
    let (snapshot, since) = (taken.bytes(), Microcents(-7));
    let status = answer(conservation_status(snapshot), |()| Answer::Balanced);
    assert_eq!((by_line.ask(Operation::ConservationStatus { snapshot }), status.clone()), (status, Answer::Balanced));
    let certified = answer(certificate_of_snapshot(snapshot, since), Answer::Certified);
    assert_eq!(by_line.ask(Operation::CertificateOfSnapshot { snapshot, since }), certified);
    // bookings are live: neither restore takes it, and a migration neither
    let restored = answer(called.restore(snapshot), |()| Answer::Restored);
    assert_eq!(by_line.ask(Operation::Restore { snapshot }), restored);
    let migrated = answer(migrate(snapshot, 9), Answer::Migrated);
    assert_eq!(by_line.ask(Operation::Migrate { snapshot, fence: 9 }), migrated);
    for id in granted.into_values().flatten() {
        assert_eq!(by_line.ask(Operation::Release { id }), answer(called.release(id), Answer::Released));
    }
    let taken = called.snapshot().unwrap();
    let snapshot = taken.bytes();
    let restored = answer(called.recovery_restore(snapshot), |()| Answer::Restored);
    by_line.ask(Operation::Snapshot);
    assert_eq!((by_line.ask(Operation::RecoveryRestore { snapshot }), restored), (Answer::Restored, Answer::Restored));
    let legacy = [&[0; 8][..], &snapshot[8..]].concat();
    let migrated = answer(migrate(&legacy, 9), Answer::Migrated);
    assert!(matches!(migrated, Answer::Migrated(_)));
    assert_eq!(by_line.ask(Operation::Migrate { snapshot: &legacy, fence: 9 }), migrated);
}
