//! Seats, tickets and turns: docs/DECISIONS.md, 17 to 20.

use compare::desk::{Desk, Seat, Turn, LAST_TICKET, SEATS};

const GOOD: &[u8] = b"xs:date($1) eq xs:date($1)";

fn with_seats(length: usize, count: usize) -> Desk {
    let mut desk = Desk::fresh(length).unwrap();
    for ticket in 1..=count {
        assert_eq!(desk.open(GOOD), Ok(ticket as u32));
    }
    desk
}

#[test]
fn a_fresh_desk() {
    let desk = Desk::fresh(65_536).unwrap();
    assert!(desk.is_sound() && desk.last_served == 15 && desk.last_issued == 0);
    assert!(desk.seats.iter().all(|seat| *seat == Seat::default()));
    assert_eq!(Desk::fresh(65_537), Err(11));
}

#[test]
fn open_takes_the_lowest_free_seat_and_the_next_ticket() {
    let mut desk = with_seats(10, SEATS);
    assert_eq!(desk.open(GOOD), Err(10));
    assert_eq!(desk.open(b"bad"), Err(7));
    assert_eq!(desk.close(5), Ok(()));
    assert_eq!(desk.close(3), Ok(()));
    assert_eq!(desk.seats[2], Seat::default());
    assert_eq!(desk.open(GOOD), Ok(17));
    assert_eq!(desk.seats[2].ticket, 17);
    assert_eq!(desk.open(GOOD), Ok(18));
    assert_eq!(desk.seats[4].ticket, 18);
}

#[test]
fn a_refused_call_leaves_the_desk_equal() {
    let mut desk = with_seats(10, 3);
    let before = desk.clone();
    assert_eq!(desk.open(b"xs:date($1)"), Err(9));
    assert_eq!(desk.close(9), Err(13));
    assert_eq!(desk.close(0), Err(13));
    assert_eq!(desk.turn(b""), Err(11));
    assert_eq!(desk, before);
}

#[test]
fn the_last_ticket() {
    let mut desk = with_seats(0, 0);
    desk.last_issued = LAST_TICKET - 1;
    assert_eq!(desk.open(GOOD), Ok(LAST_TICKET));
    assert_eq!(desk.open(GOOD), Err(14));
    for (ticket, seat) in (1..).zip(&mut desk.seats) {
        *seat = Seat::opened(ticket, GOOD);
    }
    assert_eq!(desk.open(GOOD), Err(10));
}

#[test]
fn turns_go_round() {
    let table = b"2000-01-01\nbad\n";
    let mut desk = with_seats(table.len(), 2);
    assert_eq!(desk.turn(table), Ok(Turn::Hit { ticket: 1, offset: 0, place: 0 }));
    assert_eq!(desk.close(1), Ok(()));
    assert_eq!(desk.open(GOOD), Ok(3));
    assert_eq!(desk.last_served, 0);
    assert_eq!(desk.turn(table), Ok(Turn::Hit { ticket: 2, offset: 0, place: 0 }));
    assert_eq!(desk.turn(table), Ok(Turn::Hit { ticket: 3, offset: 0, place: 0 }));
    assert_eq!(desk.turn(table), Ok(Turn::Unreadable { ticket: 2, offset: 11, number: 1 }));
    assert_eq!(desk.turn(table), Ok(Turn::Unreadable { ticket: 3, offset: 11, number: 1 }));
    assert_eq!(desk.turn(table), Ok(Turn::Done { ticket: 2, hits: 1, unreadable: 1 }));
    assert_eq!(desk.last_served, 1);
    assert_eq!(desk.turn(table), Ok(Turn::Done { ticket: 3, hits: 1, unreadable: 1 }));
    let before = desk.clone();
    assert_eq!(desk.turn(table), Ok(Turn::Idle));
    assert_eq!(desk, before);
}

#[test]
fn a_turn_reads_from_an_offset_within_a_line() {
    let table = b"12000-01-01\n";
    let mut desk = with_seats(table.len(), 1);
    desk.seats[0].offset = 1;
    assert_eq!(desk.turn(table), Ok(Turn::Hit { ticket: 1, offset: 1, place: 0 }));
    assert_eq!(desk.seats[0].offset, table.len());
}

#[test]
fn what_is_not_sound() {
    let damage: [fn(&mut Desk); 15] = [
        |desk| desk.last_served = 16,
        |desk| desk.last_served = usize::MAX,
        |desk| desk.length = 65_537,
        |desk| desk.length = usize::MAX,
        |desk| desk.seats[0].ticket = 0,
        |desk| desk.seats[0].ticket = 2,
        |desk| desk.last_issued = 1,
        |desk| desk.seats[1].condition_length = 0,
        |desk| desk.seats[1].condition_length = 241,
        |desk| desk.seats[1].condition_length = usize::MAX,
        |desk| desk.seats[1] = Seat::opened(2, b"xs:date(\"bad\") eq xs:date($1)"),
        |desk| desk.seats[0].offset = 11,
        |desk| desk.seats[0].offset = usize::MAX,
        |desk| desk.seats[0].hits = 1,
        |desk| (desk.seats[0].hits, desk.seats[0].unreadable) = (usize::MAX, 1),
    ];
    for (place, harm) in damage.iter().enumerate() {
        let mut desk = with_seats(10, 2);
        assert!(desk.is_sound());
        harm(&mut desk);
        let before = desk.clone();
        assert!(!desk.is_sound(), "damage {place}");
        assert_eq!(desk.open(b""), Err(12));
        assert_eq!(desk.close(1), Err(12));
        assert_eq!(desk.turn(b"too long for this desk"), Err(12));
        assert_eq!(desk, before);
    }
}

#[test]
fn free_seats_are_not_asked() {
    let mut desk = with_seats(10, 1);
    desk.seats[7] = Seat { held: false, offset: 99, hits: 100, condition_length: 241, ..Seat::opened(1, b"bad") };
    assert!(desk.is_sound());
}

#[test]
fn bytes_after_a_condition_are_not_asked() {
    let mut desk = with_seats(10, 1);
    desk.seats[0].condition[GOOD.len()..].fill(b'(');
    assert!(desk.is_sound());
    assert_eq!(desk.turn(b"2000-01-01"), Ok(Turn::Hit { ticket: 1, offset: 0, place: 0 }));
    assert_eq!(desk.seats[0].condition[239], b'(');
    assert_eq!(desk.close(1), Ok(()));
    assert_eq!(desk.seats[0], Seat::default());
}

#[test]
fn no_desk_is_not_sound() {
    let mut desk = Desk::none();
    assert_eq!((desk.open(GOOD), desk.close(1), desk.turn(b"")), (Err(12), Err(12), Err(12)));
    assert_eq!(desk, Desk::none());
}

#[test]
fn counts_may_reach_the_offset() {
    let mut desk = with_seats(10, 1);
    (desk.seats[0].offset, desk.seats[0].hits, desk.seats[0].unreadable) = (10, 4, 6);
    assert!(desk.is_sound());
    assert_eq!(desk.turn(b"0123456789"), Ok(Turn::Done { ticket: 1, hits: 4, unreadable: 6 }));
}
