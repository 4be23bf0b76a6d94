//! Which cases are measured.

use crate::inputs::{
    self, DELAYS_TO_PAD, DEPARTURES_TO_PAD, FIRST_YEAR, MOST_TIMETABLE_BYTES, ONE_FIELD_TEST, PADDING, RUN_DEPARTURES, SEATS,
    YEAR,
};
use crate::measure::{Case, Programs};
use std::io;
use std::path::Path;

/// What the cases of a series differ in.
#[derive(Clone, Copy, PartialEq, Eq, Debug)]
pub enum Series {
    /// The number of conditions, over a timetable of departures.
    Asked,
    /// The same in year 1.
    AskedInFirstYear,
    EmptyLines,
    LongConditions,
    DeepConditions,
    /// The number of seats held with one and the same condition, over a timetable of delays.
    SeatsOverDelays,
    /// The same over a timetable of departures.
    SeatsOverDepartures,
    /// The bytes of the timetable.
    TimetableBytes,
    /// The spaces in a condition.
    Spaces,
    /// The tests in a condition that are not evaluated.
    TestsReadOver,
    /// The tests in a condition that are evaluated.
    TestsEvaluated,
    /// A day of departures, a line each.
    EachDeparture,
    /// The occurrences of a run, over the same departures.
    Occurrences,
    /// The blanks in the same departures: none, CR LF line ends, padded columns; and none in lines as long as the padded ones.
    PaddedDepartures,
    /// The blanks in the same delays: none, CR LF line ends, a padded column.
    PaddedDelays,
    /// The blanks before a value.
    BlanksBefore,
    /// The blanks after a value.
    BlanksAfter,
    /// The bytes of a second field, which is not read.
    UnreadBytes,
    /// A quarter of the departures, in which instructions are counted.
    Profiled,
}

use Series::*;

const ALL: [Series; 19] = [
    Asked,
    AskedInFirstYear,
    EmptyLines,
    LongConditions,
    DeepConditions,
    SeatsOverDelays,
    SeatsOverDepartures,
    TimetableBytes,
    Spaces,
    TestsReadOver,
    TestsEvaluated,
    EachDeparture,
    Occurrences,
    PaddedDepartures,
    PaddedDelays,
    BlanksBefore,
    BlanksAfter,
    UnreadBytes,
    Profiled,
];

/// A case that the tables call by a name: its series, and its place there.
#[derive(Clone, Copy)]
pub struct Named {
    pub name: &'static str,
    series: Series,
    place: usize,
}

const fn named(name: &'static str, series: Series, place: usize) -> Named {
    Named { name, series, place }
}

pub const ONE_ASKED: Named = named("1 condition over departures", Asked, 0);
pub const FOUR_ASKED: Named = named("4 conditions over departures", Asked, 1);
pub const ALL_ASKED: Named = named("16 conditions over departures", Asked, 2);
pub const ALL_IN_FIRST_YEAR: Named = named("16 conditions over departures of year 0001", AskedInFirstYear, 0);
pub const OVER_EMPTY_LINES: Named = named("16 conditions over 65,536 empty lines", EmptyLines, 0);
pub const LONG: Named = named("16 conditions of 240 bytes over departures", LongConditions, 0);
pub const DEEP: Named = named("16 conditions of 240 bytes, 16 deep, over departures", DeepConditions, 0);
pub const SHORT_TEST: Named = named("a short test over delays", Spaces, 0);

/// What the peers are asked: cases with so many turns that machine code warms up over them.
pub const ASKED_OF_PEERS: [Named; 3] = [ALL_ASKED, LONG, DEEP];

/// What the program before is asked too.
const BEFORE: [Named; 3] = [ALL_ASKED, ALL_IN_FIRST_YEAR, SHORT_TEST];

pub struct Plan {
    pub cases: Vec<(Series, Case)>,
}

impl Plan {
    pub fn new(programs: &Programs, work: &Path) -> io::Result<Plan> {
        let mut cases = Vec::new();
        for series in ALL {
            for (place, (timetable, conditions)) in inputs_of(series).iter().enumerate() {
                let folder = work.join(format!("{series:?}-{place}"));
                let is_asked_before = BEFORE.iter().any(|named| (named.series, named.place) == (series, place));
                let before = programs.before.as_deref().filter(|_| is_asked_before);
                cases.push((series, Case::new(programs, before, folder, timetable, conditions)?));
            }
        }
        let plan = Plan { cases };
        plan.check()?;
        Ok(plan)
    }

    /// Empty lines are unreadable and no others, departures are answered alike in both years, the occurrences of a run as the same
    /// departures in lines of their own, and padded lines as those without blanks: the work is what it is meant to be.
    fn check(&self) -> io::Result<()> {
        for (series, case) in &self.cases {
            let expected = if *series == EmptyLines { case.turns } else { 0 };
            if case.answers.lines().filter(|line| line.starts_with("unreadable\t")).count() != expected {
                return Err(io::Error::other(format!("not {expected} unreadable lines: {}", case.folder.display())));
            }
        }
        if self.case(ALL_ASKED).answers != self.case(ALL_IN_FIRST_YEAR).answers {
            return Err(io::Error::other("departures are answered differently in another year"));
        }
        answered_alike(self.last(EachDeparture), &self.of(Occurrences))?;
        for series in [PaddedDepartures, PaddedDelays] {
            answered_alike(self.of(series)[0], &self.of(series))?;
        }
        Ok(())
    }

    pub fn of(&self, series: Series) -> Vec<&Case> {
        self.cases.iter().filter(|(own, _)| *own == series).map(|(_, case)| case).collect()
    }

    /// What the program before is asked too, with the nanoseconds of a turn before and now; empty where no such program is given.
    pub fn before_and_now(&self) -> Vec<(&'static str, [f64; 2])> {
        let costs = |named: Named| {
            let case = self.case(named);
            Some((named.name, [case.cost_before()?, case.costs().proved]))
        };
        BEFORE.into_iter().filter_map(costs).collect()
    }

    pub fn case(&self, named: Named) -> &Case {
        self.of(named.series)[named.place]
    }

    /// The greatest case of a series.
    pub fn last(&self, series: Series) -> &Case {
        self.of(series).last().expect("no series is empty")
    }
}

/// Each answer without its ticket, offset and place.
fn words(case: &Case) -> Vec<&str> {
    case.answers.lines().filter_map(|line| line.split('\t').next()).collect()
}

fn answered_alike(plain: &Case, others: &[&Case]) -> io::Result<()> {
    match others.iter().find(|case| words(case) != words(plain)) {
        Some(case) => {
            let (other, plain) = (case.folder.display(), plain.folder.display());
            Err(io::Error::other(format!("{other} and {plain} are answered differently")))
        }
        None => Ok(()),
    }
}

type Input = (Vec<u8>, Vec<String>);

fn inputs_of(series: Series) -> Vec<Input> {
    let departures = |year| inputs::departures(MOST_TIMETABLE_BYTES, year);
    let delays = || inputs::delays(MOST_TIMETABLE_BYTES);
    let blanks = |count| " ".repeat(count);
    let all = inputs::asked(SEATS, YEAR);
    match series {
        Asked => [1, 4, SEATS].map(|count| (departures(YEAR), inputs::asked(count, YEAR))).into(),
        AskedInFirstYear => vec![(departures(FIRST_YEAR), inputs::asked(SEATS, FIRST_YEAR))],
        EmptyLines => vec![(inputs::empty_lines(), all)],
        LongConditions => vec![(departures(YEAR), inputs::long_conditions())],
        DeepConditions => vec![(departures(YEAR), inputs::deep_conditions())],
        SeatsOverDelays => seats(delays(), inputs::with_spaces(0)),
        SeatsOverDepartures => seats(departures(YEAR), all[0].clone()),
        TimetableBytes => [8_192, 16_384, 32_768, 65_536].map(|bytes| (inputs::departures(bytes, YEAR), all.clone())).into(),
        Spaces => [0, 12, 72, 192].map(|spaces| (delays(), vec![inputs::with_spaces(spaces)])).into(),
        TestsReadOver => [0, 1, 2, 3].map(|count| (delays(), vec![inputs::with_tests_read_over(count)])).into(),
        TestsEvaluated => [1, 2, 3, 4].map(|count| (delays(), vec![inputs::with_tests_evaluated(count)])).into(),
        EachDeparture => vec![(inputs::each_departure(), inputs::asked_of_second())],
        Occurrences => [2, 8, RUN_DEPARTURES].map(|occurrences| (inputs::runs(occurrences), inputs::asked_of_second())).into(),
        PaddedDepartures => {
            let plain = inputs::departures(DEPARTURES_TO_PAD, YEAR);
            let longer = inputs::lengthened(&plain, inputs::padding_bytes(&[2, 3]));
            [paddings(plain, &[2, 3], &all), vec![(longer, all)]].concat()
        }
        PaddedDelays => paddings(inputs::delays(DELAYS_TO_PAD), &[1], &[inputs::with_spaces(0)]),
        BlanksBefore => lengths(|count| inputs::delays_within(&blanks(count), "")),
        BlanksAfter => lengths(|count| inputs::delays_within("", &blanks(count))),
        UnreadBytes => lengths(|count| inputs::delays_within("", &inputs::second_field(count))),
        Profiled => vec![(inputs::departures(16_384, YEAR), all)],
    }
}

fn seats(timetable: Vec<u8>, condition: String) -> Vec<Input> {
    [1, 2, 4, 8, SEATS].map(|count| (timetable.clone(), vec![condition.clone(); count])).into()
}

/// The same lines without blanks, with CR LF line ends, and with these and the fields of these numbers padded.
fn paddings(plain: Vec<u8>, numbers: &[usize], conditions: &[String]) -> Vec<Input> {
    let [ended, padded] = [0, PADDING].map(|spaces| inputs::padded(&plain, numbers, spaces));
    [plain, ended, padded].map(|timetable| (timetable, conditions.to_vec())).into()
}

/// Few lines, each so many bytes longer, and one condition that all seats hold, so that there are enough turns.
fn lengths(timetable: impl Fn(usize) -> Vec<u8>) -> Vec<Input> {
    [0, 100, 1_000, 10_000].map(|bytes| (timetable(bytes), vec![ONE_FIELD_TEST.to_string(); SEATS])).into()
}
