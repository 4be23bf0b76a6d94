//! docs/LINES.md, "Hostile desks": the events, their answers, and desks built wrong.

use compare::desk::{Desk, Seat, SEATS};
use compare::generator::random::Random;
use compare::hostile::{hostile_desks, many_turns, Script};
use compare::programs::turn_line;

const FILE: &str = "2000-01-01\n2000-01-02\nbad\n";
const GOOD: &str = "xs:date($1) eq xs:date(\"2000-01-01\")";

/// The answers to events, both with one space for a tab, but for what follows `open` and `condition`.
fn answers(file: &str, events: &[&str]) -> Vec<String> {
    let input: Vec<String> = events.iter().map(|event| tabbed(event)).collect();
    let output = hostile_desks(file.as_bytes(), input.join("\n").as_bytes());
    output.strip_suffix('\n').unwrap_or("").replace('\t', " ").split('\n').map(str::to_string).collect()
}

fn tabbed(event: &str) -> String {
    let count = if event.starts_with("open ") { 2 } else { 4 };
    event.splitn(count, ' ').collect::<Vec<&str>>().join("\t")
}

/// Each event with its answer, lines parted by `|`.
fn all(file: &str, cases: &[(&str, &str)]) {
    let events: Vec<&str> = cases.iter().map(|case| case.0).collect();
    let expected: Vec<&str> = cases.iter().flat_map(|case| case.1.split('|')).collect();
    assert_eq!(answers(file, &events), expected);
}

#[test]
fn one_query_from_open_to_idle() {
    let open = format!("open {GOOD}");
    let hex: String = GOOD.bytes().map(|byte| format!("{byte:02x}")).collect();
    let held = |numbers: &str| format!("{numbers} {} {hex}", GOOD.len());
    all(
        FILE,
        &[
            ("show", "desk 15 26 0"),
            (&open, "open 1"),
            ("sound", "sound"),
            ("show", &format!("desk 15 26 1|seat 0 {}", held("1 1 0 0 0 0"))),
            ("turn", "hit 1 0 0"),
            ("turn", "miss 1 11 0"),
            ("turn", "unreadable 1 22 1"),
            ("show", &format!("desk 0 26 1|seat 0 {}", held("1 1 26 1 1 0"))),
            ("turn", "done 1 1 1"),
            ("turn", "idle"),
            ("show", "desk 0 26 1"),
            ("close 1", "refused 13"),
            (&open, "open 2"),
            ("close 0002", "closed"),
            ("turn", "idle"),
        ],
    );
}

#[test]
fn many_turns_write_whole_lines() {
    let open = format!("open {GOOD}");
    all(
        FILE,
        &[
            (&open, "open 1"),
            ("turns 0", "refused 15|"),
            ("turns 9", "refused 15|........."),
            ("turns 10", "wrote 10 more|hit 1 0 0|"),
            ("turns 12", "wrote 12 more|miss 1 11 0|"),
            ("turns 29", "wrote 29 more|unreadable 1 22 1|done 1 1 1|"),
            ("turns 4", "refused 15|...."),
            ("turns 5", "wrote 5 idle|idle|"),
            ("turns 12", "wrote 5 idle|idle|......."),
            ("part 25", "part"),
            ("turns 3", "refused 11|..."),
            ("set last_served 16", "set"),
            ("turns 3", "refused 12|..."),
            ("turns 4097", "refused 7"),
        ],
    );
}

#[test]
fn desks_are_made_and_refused() {
    all(
        FILE,
        &[
            ("fresh 65537", "refused 11"),
            ("show", "desk 16 0 0"),
            ("sound", "unsound"),
            ("open ", "refused 12"),
            ("close 1", "refused 12"),
            ("turn", "refused 12"),
            ("set last_served 15", "set"),
            ("sound", "sound"),
            ("turn", "refused 11"),
            ("part 0", "part"),
            ("turn", "idle"),
            ("fresh 65536", "made"),
            ("show", "desk 15 65536 0"),
            ("part 27", "refused 7"),
            ("turn", "refused 11"),
            ("fresh 18446744073709551615", "refused 11"),
            ("fresh 18446744073709551616", "refused 7"),
        ],
    );
}

#[test]
fn a_file_that_is_too_long() {
    let file = "x".repeat(65_537);
    all(
        &file,
        &[
            ("show", "desk 16 0 0"),
            ("fresh 65536", "made"),
            ("turn", "refused 11"),
            ("part 65536", "part"),
            ("turn", "idle"),
            ("part 65537", "part"),
            ("turn", "refused 11"),
            ("part 65538", "refused 7"),
        ],
    );
}

#[test]
fn every_number_is_set() {
    let greatest = "18446744073709551615";
    all(
        "",
        &[
            ("seat 15 held 1", "set"),
            ("seat 15 ticket 4294967295", "set"),
            (&format!("seat 15 offset {greatest}"), "set"),
            (&format!("seat 15 hits {greatest}"), "set"),
            (&format!("seat 15 unreadable {greatest}"), "set"),
            ("seat 15 place 4294967295", "set"),
            (&format!("seat 15 condition_length {greatest}"), "set"),
            ("seat 15 condition a b", "set"),
            (&format!("set last_served {greatest}"), "set"),
            (&format!("set length {greatest}"), "set"),
            ("set issued 4294967295", "set"),
            (
                "show",
                &format!(
                    "desk {greatest} {greatest} 4294967295|\
                     seat 15 1 4294967295 {greatest} {greatest} {greatest} 4294967295 {greatest} 612062"
                ),
            ),
            ("sound", "unsound"),
            ("seat 15 condition ", "set"),
            ("seat 00000000000000000015 held 00", "set"),
            ("seat 15 ticket 0", "set"),
            (
                "show",
                &format!(
                    "desk {greatest} {greatest} 4294967295|\
                     seat 15 0 0 {greatest} {greatest} {greatest} 4294967295 {greatest} "
                ),
            ),
        ],
    );
}

#[test]
fn the_texts_keep_their_tabs() {
    let input = b"open\ta\tb\nseat\t3\tcondition\t\ta\t\nshow\nopen\t\n";
    assert_eq!(hostile_desks(b"", input), "refused\t7\nset\ndesk\t15\t0\t0\nseat\t3\t0\t0\t0\t0\t0\t0\t0\t096109\nrefused\t7\n");
}

#[test]
fn lines_that_are_no_events() {
    let long = format!("seat 0 condition {}", "x".repeat(241));
    let wrong = [
        "",
        " ",
        "open",
        "turn ",
        "sound 1",
        "show ",
        "turn\r",
        "Turn",
        "turns",
        "turns ",
        "turns -1",
        "fresh",
        "fresh 1 2",
        "fresh +1",
        "fresh 000000000000000000001",
        "part",
        "part 1x",
        "close",
        "close 4294967296",
        "close 1 ",
        "set length",
        "set length 1 ",
        "set size 1",
        "set issued 4294967296",
        "set length 18446744073709551616",
        "seat 0 held",
        "seat 0 held 2",
        "seat 16 held 1",
        "seat  held 1",
        "seat 0 ticket 4294967296",
        "seat 0 places 1",
        "seat 0 place",
        "seat 0 place ",
        "seat 0 place 4294967296",
        "seat 0 place 1 ",
        "seat 16 place 1",
        "set place 1",
        "seat 0 condition",
        "idle",
        &long,
    ];
    let mut events = wrong.to_vec();
    events.push("show");
    let given = answers("", &events);
    for (place, event) in wrong.iter().enumerate() {
        assert_eq!(given[place], "refused 7", "{event:?}");
    }
    assert_eq!(given[wrong.len()], "desk 15 0 0");
}

#[test]
fn the_whole_input() {
    assert_eq!(hostile_desks(b"", b""), "");
    assert_eq!(hostile_desks(b"", b"\n"), "refused\t7\n");
    assert_eq!(hostile_desks(b"", b"turn"), "idle\n");
    let most = "turn\n".repeat(13_108);
    assert_eq!(hostile_desks(b"", &most.as_bytes()[..65_536]), format!("{}refused\t7\n", "idle\n".repeat(13_107)));
    assert_eq!(hostile_desks(b"", &most.as_bytes()[..65_537]), "refused\t7\n");
}

/// A desk with any numbers at all, most of them near the bounds.
fn any_desk(random: &mut Random) -> Desk {
    const NUMBERS: &[usize] = &[0, 1, 2, 15, 16, 26, 27, 240, 241, 65_536, 65_537, 1 << 32, 1 << 63, usize::MAX - 1, usize::MAX];
    let mut desk = Desk::none();
    desk.last_served = if random.chance(80) { random.below(SEATS) } else { random.pick(NUMBERS) };
    desk.length = if random.chance(80) { FILE.len() } else { random.pick(NUMBERS) };
    desk.last_issued = random.pick(&[0, 15, 16, 16, 16, 16, u32::MAX, u32::MAX - 1]);
    for place in 0..SEATS {
        if random.chance(60) {
            continue;
        }
        let mut seat = Seat::opened(place as u32 + 1, GOOD.as_bytes());
        match random.below(30) {
            0 => seat.ticket = random.pick(&[0, 1, 2, 17, u32::MAX]),
            1 => seat.offset = random.pick(NUMBERS),
            2 => seat.condition_length = random.pick(NUMBERS),
            3 => (seat.hits, seat.unreadable) = (random.pick(NUMBERS), random.pick(NUMBERS)),
            4 => (seat.offset, seat.hits, seat.unreadable) = (26, 37_430 + random.below(11), random.below(3)),
            7 => seat.place = random.pick(&[1, 2, 1_439, 1_440, 1_441, 1 << 16, u32::MAX]),
            8 => (seat.place, seat.hits, seat.unreadable) = (random.below(1_442) as u32, random.below(1_442), random.below(3)),
            5 => seat.condition[random.below(240)] = random.below(256) as u8,
            6 => seat.held = false,
            _ => {}
        }
        desk.seats[place] = seat;
    }
    desk
}

/// Document 01's sentence, pair by pair and with sums that have room.
fn sound_in_other_words(desk: &Desk) -> bool {
    let held = |place: &usize| desk.seats[*place].held;
    let good = |place: usize| {
        let seat = &desk.seats[place];
        let stored = seat.condition.iter().copied().take(seat.condition_length).collect::<Vec<u8>>();
        let twice = (0..SEATS).filter(held).any(|other| other != place && desk.seats[other].ticket == seat.ticket);
        !twice
            && seat.ticket != 0
            && seat.ticket <= desk.last_issued
            && seat.condition_length == stored.len()
            && compare::conditions::accept(&stored).is_ok()
            && seat.offset <= desk.length
            && seat.place < 1_440
            && seat.hits as u128 + seat.unreadable as u128 <= 1_440 * seat.offset as u128 + seat.place as u128
    };
    desk.last_served < 16 && desk.length <= 65_536 && (0..SEATS).filter(held).all(good)
}

#[test]
fn a_desk_that_is_not_sound_is_refused_and_kept() {
    let random = &mut Random::new(5);
    let mut sound = 0;
    for _ in 0..20_000 {
        let desk = any_desk(random);
        assert_eq!(desk.is_sound(), sound_in_other_words(&desk));
        if desk.is_sound() {
            sound += 1;
            continue;
        }
        let mut script = Script { file: FILE.as_bytes(), timetable: FILE.as_bytes(), desk: desk.clone() };
        for event in ["turn", "close\t1", "close\t0", "open\t", &format!("open\t{GOOD}")] {
            assert_eq!(script.answer(event.as_bytes()), "refused\t12\n");
        }
        assert_eq!(script.answer(b"turns\t7"), "refused\t12\n.......\n");
        assert_eq!(script.desk, desk);
    }
    assert!((2_000..18_000).contains(&sound));
}

/// Many turns are the single ones, one after another, as long as their lines fit; the rest of the room is kept.
#[test]
fn many_turns_are_single_turns() {
    let random = &mut Random::new(6);
    for _ in 0..5_000 {
        let mut desk = any_desk(random);
        desk.length = FILE.len();
        if !desk.is_sound() {
            continue;
        }
        let mut single = desk.clone();
        let mut room = vec![b'.'; random.below(120)];
        let Ok((count, idle)) = many_turns(&mut desk, FILE.as_bytes(), &mut room) else {
            assert!(turn_line(single.turn(FILE.as_bytes()).unwrap()).len() > room.len());
            continue;
        };
        let mut written = String::new();
        while written.len() < count {
            written += &turn_line(single.turn(FILE.as_bytes()).unwrap());
        }
        assert_eq!(single, desk);
        assert!(desk.is_sound());
        assert_eq!(idle, written.ends_with("idle\n"));
        assert_eq!(room, format!("{written}{}", ".".repeat(room.len() - count)).as_bytes());
        let next = turn_line(single.turn(FILE.as_bytes()).unwrap());
        assert!(idle || count + next.len() > room.len());
    }
}
