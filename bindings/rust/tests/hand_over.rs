//! The hand-over example, held to what it shows.

#[path = "../examples/hand_over.rs"]
mod hand_over;

#[test]
fn every_airline_has_the_balances_and_answers_of_one_undisturbed_ledger() {
    let rows = hand_over::run().unwrap();
    assert_eq!(rows.len(), 12);
    for row in &rows {
        assert_eq!(row.undisturbed, row.handed_over);
    }
    // the night is no empty one: fares were paid, bookings are live, and some were refused
    assert!(rows.iter().all(|r| r.undisturbed.0.committed.0 > 0));
    assert!(rows.iter().any(|r| r.undisturbed.0.reserved.0 > 0));
    assert!(rows.iter().any(|r| r.undisturbed.1.contains(&5)));
    // LH moves with live bookings and its limit, which refuses it twice before and four times after
    let limited = rows.iter().find(|r| r.handed_over.0.name == zatovola::Name(b"LH".to_vec())).unwrap();
    assert_eq!(limited.handed_over.1.iter().filter(|number| **number == 5).count(), 6);
}
