//! The wrapper over the linked archive: the paper's cases, every kind of refusal that a call can meet, rooms of any bytes, batches.

use zatovola::*;

const M: i64 = i64::MAX;
const TAG: u64 = 1 << 63;

fn open(amount: i64) -> Ledger {
    let mut ledger = Ledger::new(4, 3).unwrap();
    ledger.ensure(b"Q1", Microcents(amount)).unwrap();
    ledger
}

fn reserve(ledger: &mut Ledger, cost: i64) -> Result<Booking, Refusal> {
    ledger.reserve(b"Q1", Microcents(cost))
}

fn snapshot_bytes(version: u64, active: u64, rows: &[(&[u8], i64, i64, i64, i64)]) -> Vec<u8> {
    let mut bytes = [version.to_be_bytes(), active.to_be_bytes()].concat();
    bytes.extend((rows.len() as u16).to_be_bytes());
    for (name, initial, remaining, reserved, committed) in rows {
        bytes.push(name.len() as u8);
        bytes.extend(*name);
        bytes.extend([initial, remaining, reserved, committed].iter().flat_map(|z| z.to_be_bytes()));
    }
    bytes
}

#[test]
fn rooms_are_made_in_range_only() {
    assert!(Ledger::new(256, 1_024).is_ok());
    assert_eq!(Ledger::new(256, 1_024).unwrap().room().len(), 35_384);
    for (names, reservations) in [(0, 1), (1, 0), (257, 1), (1, 1_025), (u64::MAX, u64::MAX)] {
        assert_eq!(Ledger::new(names, reservations).err(), Some(Refusal::UnsoundLedger));
    }
}

#[test]
fn marked_cases_of_the_account_rules() {
    let mut none = Ledger::new(4, 3).unwrap();
    assert_eq!(reserve(&mut none, 0), Err(Refusal::Insufficient { remaining: Microcents(0), required: Microcents(0) }));
    assert_eq!(reserve(&mut none, 5), Err(Refusal::MissingTenant));

    let mut w4 = open(100);
    assert_eq!(reserve(&mut w4, 101), Err(Refusal::Insufficient { remaining: Microcents(100), required: Microcents(101) }));
    assert_eq!(reserve(&mut w4, 100), Ok(Booking { remaining: Microcents(0), id: Identifier(2) }));

    let mut w5 = open(100);
    w5.limit(b"Q1", Microcents(50)).unwrap();
    reserve(&mut w5, 50).unwrap();
    assert_eq!(reserve(&mut w5, 1), Err(Refusal::ExposureLimitExceeded { reserved: Microcents(50), limit: Microcents(50) }));

    let mut w6 = open(100);
    reserve(&mut w6, 10).unwrap();
    assert_eq!(reserve(&mut w6, M), Err(Refusal::Overflow { current: Some(Microcents(10)) }));

    let mut w8 = open(100);
    let booking = reserve(&mut w8, 10).unwrap();
    assert_eq!(w8.commit(booking.id, Microcents(101)), Err(Refusal::Overrun { remaining: Microcents(90) }));
    assert_eq!(w8.commit(booking.id, Microcents(-1)), Err(Refusal::InvalidAmount));
    assert_eq!(w8.commit(booking.id, Microcents(100)), Ok(Settled { remaining: Microcents(0), amount: Microcents(100) }));
    assert_eq!(w8.release(booking.id), Err(Refusal::MissingReservation));

    let mut w10 = open(M - 5);
    assert_eq!(w10.top_up(b"Q1", Microcents(6)), Err(Refusal::Overflow { current: None }));
    assert_eq!(w10.top_up(b"Q1", Microcents(5)), Ok(ToppedUp { amount: Microcents(5), initial: Microcents(M), remaining: Microcents(M) }));
}

#[test]
fn full_rooms_and_long_names() {
    let mut ledger = open(100);
    for name in [b"A", b"B", b"C"] {
        ledger.ensure(name, Microcents(1)).unwrap();
    }
    assert_eq!(ledger.ensure(b"D", Microcents(1)), Err(Refusal::NamesFull));
    for _ in 0..3 {
        reserve(&mut ledger, 1).unwrap();
    }
    assert_eq!(reserve(&mut ledger, 1), Err(Refusal::ReservationsFull));
    assert_eq!(ledger.ensure(b"D", Microcents(-1)), Err(Refusal::NegativeAmount { value: Microcents(-1) }));
    for size in [25, 255, 256, 5_000] {
        assert_eq!(ledger.ensure(&vec![b'n'; size], Microcents(1)), Err(Refusal::NameTooLong));
    }
}

#[test]
fn snapshots_and_restores() {
    let mut ledger = open(1_000);
    let booking = reserve(&mut ledger, 300).unwrap();
    let busy = ledger.snapshot().unwrap();
    assert_eq!((busy.version(), busy.active()), (TAG + 3, 1));
    assert_eq!(ledger.restore(busy.bytes()), Err(Refusal::ActiveReservations { count: 1 }));
    ledger.commit(booking.id, Microcents(250)).unwrap();
    let settled = ledger.snapshot().unwrap();
    let row = Row { name: Name(b"Q1".to_vec()), initial: Microcents(1_000), remaining: Microcents(750), reserved: Microcents(0), committed: Microcents(250) };
    assert_eq!(settled.rows(), [row.clone()]);
    let mut other = Ledger::new(256, 1_024).unwrap();
    other.recovery_restore(settled.bytes()).unwrap();
    assert_eq!(other.snapshot().unwrap().rows(), [row]);
    assert_eq!(conservation_status(settled.bytes()), Ok(()));
    let certificate = other.certificate().unwrap();
    assert_eq!((certificate.balanced, certificate.representable, certificate.committed_total, certificate.since), (true, true, Microcents(250), Microcents(0)));
    assert_eq!(other.conservation_proof().unwrap().accounts, 1);
    assert_eq!(certificate_of_snapshot(settled.bytes(), Microcents(-7)).unwrap().since, Microcents(-7));
}

#[test]
fn refusals_of_supplied_snapshots() {
    let mut ledger = open(1);
    let q: &[u8] = b"Q1";
    let name = || Name(q.to_vec());
    let cases = [
        (snapshot_bytes(0, 0, &[]), Refusal::NegativeLedgerField { name: Name(vec![]), field: 4, value: Microcents(0) }),
        (snapshot_bytes(TAG, 0, &[]), Refusal::NegativeLedgerField { name: Name(vec![]), field: 4, value: Microcents(M) }),
        (snapshot_bytes(TAG + 5, 0, &[(q, 1, 1, 0, 0), (q, 1, 1, 0, 0)]), Refusal::DuplicateTenant { name: name() }),
        (snapshot_bytes(TAG + 5, 0, &[(q, 1, 0, 1, 0)]), Refusal::GhostReservation { name: name(), reserved: Microcents(1) }),
        (snapshot_bytes(TAG + 5, 0, &[(q, 0, 0, 0, -3)]), Refusal::NegativeLedgerField { name: name(), field: 3, value: Microcents(-3) }),
        (snapshot_bytes(TAG + 5, 0, &[(q, 10, 4, 0, 7)]), Refusal::ConservationViolation { name: name(), delta: Microcents(1) }),
        (snapshot_bytes(TAG + 5, 0, &[(q, 5, M, 0, M)]), Refusal::AggregateOverflow),
        (snapshot_bytes(TAG + 5, 0, &[(&[b'n'; 25], 1, 1, 0, 0)]), Refusal::NameTooLong),
        (vec![1, 2, 3], Refusal::BadFrame),
    ];
    for (bytes, refusal) in cases {
        assert_eq!(ledger.restore(&bytes), Err(refusal));
    }
    assert_eq!(ledger.recovery_restore(&snapshot_bytes(5, 0, &[])), Err(Refusal::LegacySnapshotRequiresMigration));
    assert_eq!(ledger.recovery_restore(&snapshot_bytes(TAG, 0, &[])), Err(Refusal::InvalidAllocatorFence { fence: 0 }));
    assert_eq!(migrate(&snapshot_bytes(TAG + 5, 0, &[]), 9), Err(Refusal::AlreadyRecoveryAware));
    assert_eq!(migrate(&snapshot_bytes(5, 0, &[]), TAG), Err(Refusal::InvalidAllocatorFence { fence: TAG }));
    assert_eq!(migrate(&snapshot_bytes(5, 0, &[(q, 1, 1, 0, 0)]), 9).unwrap().bytes(), snapshot_bytes(TAG + 9, 0, &[(q, 1, 1, 0, 0)]));
    ledger.restore(&snapshot_bytes(TAG + M as u64, 0, &[])).unwrap();
    assert_eq!(ledger.snapshot(), Err(Refusal::AllocatorExhausted));
}

#[test]
fn reads_of_one_name() {
    let mut ledger = open(1_000);
    let booking = reserve(&mut ledger, 300).unwrap();
    reserve(&mut ledger, 40).unwrap();
    ledger.commit(booking.id, Microcents(250)).unwrap();
    ledger.top_up(b"Q1", Microcents(5)).unwrap();
    ledger.limit(b"limited", Microcents(9)).unwrap();
    let room = ledger.room().to_vec();
    assert_eq!(ledger.remaining(b"Q1"), Ok(Microcents(715)));
    assert_eq!(ledger.initial(b"Q1"), Ok(Microcents(1_005)));
    assert_eq!(ledger.committed(b"Q1"), Ok(Microcents(250)));
    assert_eq!(ledger.reserved(b"Q1"), Ok(Microcents(40)));
    for name in [&b"limited"[..], b"none", b""] {
        assert_eq!(ledger.remaining(name), Err(Refusal::MissingTenant));
        assert_eq!(ledger.initial(name), Err(Refusal::MissingTenant));
        assert_eq!(ledger.committed(name), Err(Refusal::MissingTenant));
        assert_eq!(ledger.reserved(name), Ok(Microcents(0)));
    }
    for size in [25, 255, 256, 5_000] {
        let name = vec![b'n'; size];
        for read in [Ledger::remaining, Ledger::initial, Ledger::committed, Ledger::reserved] {
            assert_eq!(read(&ledger, &name), Err(Refusal::NameTooLong));
        }
    }
    assert_eq!(ledger.room(), room);
    assert_eq!(reserve(&mut ledger, 1).unwrap().id, Identifier(3));
}

#[test]
fn reads_of_the_ledger() {
    let mut ledger = open(1_000);
    ledger.ensure(b"Q2", Microcents(1)).unwrap();
    ledger.limit(b"limited", Microcents(9)).unwrap();
    let first = reserve(&mut ledger, 300).unwrap();
    reserve(&mut ledger, 40).unwrap();
    ledger.commit(first.id, Microcents(250)).unwrap();
    assert_eq!((ledger.accounts(), ledger.live_reservations(), ledger.last_version()), (Ok(2), Ok(1), Ok(0)));
    assert_eq!((ledger.committed_total(), ledger.committed_since()), (Ok(Microcents(250)), Ok(Microcents(250))));
    let certificate = ledger.certificate().unwrap();
    assert_eq!(ledger.last_version(), Ok(certificate.version));
    assert_eq!((ledger.committed_total(), ledger.committed_since()), (Ok(Microcents(250)), Ok(Microcents(0))));
    ledger.ensure(b"Q3", Microcents(M)).unwrap();
    let all = ledger.reserve(b"Q3", Microcents(M)).unwrap();
    ledger.commit(all.id, Microcents(M)).unwrap();
    let room = ledger.room().to_vec();
    assert_eq!(ledger.committed_total(), Err(Refusal::AggregateOverflow));
    assert_eq!(ledger.committed_since(), Ok(Microcents(M - 250)));
    assert_eq!(ledger.room(), room);
}

#[test]
fn a_room_that_is_no_sound_ledger_is_refused() {
    let sound = open(7).into_room();
    let cut = sound[..sound.len() - 1].to_vec();
    let longer = [&sound[..], &[0]].concat();
    let mut changed = sound.clone();
    changed[0] ^= 1;
    for room in [cut, longer, changed, vec![], vec![0; 35_384], vec![255; 35_384], b"no ledger at all".to_vec()] {
        assert_eq!(Ledger::from_room(room).err(), Some(Refusal::UnsoundLedger));
    }
    assert!(Ledger::from_room(sound).is_ok());
}

#[test]
fn a_room_moves_with_its_bookings_and_limits() {
    let mut kept = open(7);
    kept.limit(b"Q1", Microcents(3)).unwrap();
    reserve(&mut kept, 2).unwrap();
    let mut again = Ledger::from_room(kept.clone().into_room()).unwrap();
    assert_eq!(again.room(), kept.room());
    assert_eq!(reserve(&mut again, 2), Err(Refusal::ExposureLimitExceeded { reserved: Microcents(2), limit: Microcents(3) }));
    assert_eq!(again.release(Identifier(1)), Ok(Settled { remaining: Microcents(7), amount: Microcents(2) }));
}

#[test]
fn the_whole_case_as_a_batch() {
    let mut ledger = Ledger::new(256, 1_024).unwrap();
    let input = b"0102513100000000000003e8\n04025131000000000000012c\n05000000000000000100000000000000fa\n07\n0";
    let answers = b"00\n0000000000000002bc0000000000000001\n0000000000000002ee00000000000000fa\n\
        0080000000000000030000000000000000000102513100000000000003e800000000000002ee000000000000000000000000000000fa\n";
    let mut output = vec![b'-'; 60_000];
    let progress = ledger.batch(input, &mut output);
    assert_eq!(progress, Progress { used: input.len() - 1, written: answers.len() });
    assert_eq!(&output[..progress.written], answers);
    assert!(output[progress.written..].iter().all(|c| *c == b'-'));
    assert_eq!(ledger.batch(b"07\n", &mut [0; 100]), Progress { used: 0, written: 0 });
}

#[test]
fn frames_of_any_bytes() {
    let mut ledger = open(5);
    let mut output = [9; 51];
    assert_eq!(ledger.answer(&[], &mut output), 1);
    assert_eq!(output[..2], [23, 9]);
    assert_eq!(ledger.answer(&[7], &mut output), 0);
    assert_eq!(ledger.answer(&[0x0f], &mut []), 0);
    assert_eq!(reserve(&mut ledger, 9).unwrap_err().to_string(), "6 Insufficient");
}

/// A frame's answer number, which it gets as bytes and as a line.
fn either_way(frame: &[u8]) -> u8 {
    let mut output = [0; 200];
    assert!(open(5).answer(frame, &mut output) > 0);
    let number = output[0];
    let line: String = frame.iter().map(|byte| format!("{byte:02x}")).collect::<String>() + "\n";
    let progress = open(5).batch(line.as_bytes(), &mut output);
    assert_eq!(progress.used, line.len());
    assert_eq!(output[..2], *format!("{number:02x}").as_bytes());
    number
}

#[test]
fn the_longest_frame_and_a_longer_one_are_the_same_as_bytes_and_as_a_line() {
    let certificate = |names: Vec<Vec<u8>>| {
        let rows: Vec<_> = names.iter().map(|name| (&name[..], 1, 1, 0, 0)).collect();
        [&[12, 0, 0, 0, 0, 0, 0, 0, 0], &snapshot_bytes(TAG + 5, 0, &rows)[..]].concat()
    };
    let names = |size: usize| (0..=255).map(|i| vec![i; size]).collect::<Vec<_>>();
    let longest = certificate(names(24));
    assert_eq!((longest.len(), either_way(&longest)), (14_619, 0));
    let mut too_long = names(24);
    too_long[0].push(0);
    let longer = certificate(too_long);
    assert_eq!((longer.len(), either_way(&longer)), (14_620, 23));
    assert_eq!(either_way(&certificate(vec![vec![b'n'; 25]])), 19);
    assert_eq!(either_way(&certificate(names(255))), 23);
}
