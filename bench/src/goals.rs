//! The goals, the figure of each and whether it is met.

use crate::inputs::{FIRST_YEAR, YEAR};
use crate::markdown::{heading, paragraph, percent, row, times};
use crate::measure::Case;
use crate::plan::{Plan, Series, ALL_ASKED, ALL_IN_FIRST_YEAR, SHORT_TEST};
use crate::profile::{Part, Profile};
use crate::shares::{byte_costs, bytes_beside_delay, condition_bytes, Length};

/// What counts as the same: a cost may be so many times another and still not have grown.
const SAME: f64 = 1.1;
/// The most that it may take for a short test over delays, times the independent one's time.
const MOST_TIMES_SHORT: f64 = 0.65;
/// The most that a turn at a run may take, times that at a plain line under the same conditions.
const MOST_TIMES_PLAIN: f64 = 2.0;
/// The most that a turn at a plain line may take, times that of the program before.
const MOST_TIMES_BEFORE: f64 = 1.05;
/// The most of a turn's instructions that may copy bytes.
const MOST_COPYING: f64 = 0.02;

pub fn goals(plan: &Plan, profile: Option<&Profile>) {
    heading("Goals", &["Goal", "Figure", "Met"]);
    seats(plan);
    timetable(plan);
    condition(plan);
    blanks(plan);
    years(plan);
    independent(plan);
    short_test(plan);
    runs(plan);
    late_places(plan);
    before(plan);
    copying(profile);
    paragraph(&format!("Up to {SAME} times counts as the same. The short test is the first one over delays below, of 48 bytes."));
}

fn goal(name: &str, figure: String, met: bool) {
    row(&[name.to_string(), figure, if met { "yes" } else { "no" }.to_string()]);
}

/// The cost of the greatest case of a series over that of its first.
fn grown(plan: &Plan, series: Series) -> f64 {
    plan.last(series).costs().proved / plan.of(series)[0].costs().proved
}

fn seats(plan: &Plan) {
    let held = [Series::SeatsOverDelays, Series::SeatsOverDepartures].map(|series| grown(plan, series));
    let [delays, departures] = held.map(times);
    goal(
        "a cost of a turn that does not grow with the number of held seats",
        format!("with 16 seats {delays} times that with 1 (delays), {departures} times (departures)"),
        held.iter().all(|&ratio| ratio <= SAME),
    );
}

fn timetable(plan: &Plan) {
    let ratio = grown(plan, Series::TimetableBytes);
    let figure = format!("cost of a turn over 65,536 bytes {} times that over 8,192", times(ratio));
    goal("linear in the timetable's length", figure, ratio <= SAME);
}

fn condition(plan: &Plan) {
    let series = [Series::Spaces, Series::TestsReadOver, Series::TestsEvaluated];
    let above = series.map(|series| above_line(condition_bytes, &plan.of(series)));
    let [spaces, read_over, evaluated] = above.map(times);
    goal(
        "linear in the condition's length",
        format!("the longest costs {spaces} (spaces), {read_over} (tests read), {evaluated} (tests evaluated) times what the line through two shorter ones gives"),
        above.iter().all(|&ratio| ratio <= SAME),
    );
}

fn blanks(plan: &Plan) {
    let series = [Series::BlanksBefore, Series::BlanksAfter];
    let above = series.map(|series| above_line(bytes_beside_delay, &plan.of(series)));
    let [before, after] = above.map(times);
    goal(
        "linear in the blanks round a value",
        format!("the longest costs {before} (blanks before), {after} (blanks after) times what the line through two shorter ones gives"),
        above.iter().all(|&ratio| ratio <= SAME),
    );
}

/// The cost of the longest case over that on the straight line through the first one and the last but one.
fn above_line(length: Length, cases: &[&Case]) -> f64 {
    let [first, .., middle, last] = cases else { panic!("a series has at least three cases") };
    let expected = first.costs().proved + byte_costs(length, first, middle).proved * (length(last) - length(first)) as f64;
    last.costs().proved / expected
}

fn years(plan: &Plan) {
    let ratio = plan.case(ALL_ASKED).costs().proved / plan.case(ALL_IN_FIRST_YEAR).costs().proved;
    goal(
        &format!("departures of {YEAR} at most {SAME} times the time of year {FIRST_YEAR}, 16 conditions"),
        format!("{} times", times(ratio)),
        ratio <= SAME,
    );
}

fn independent(plan: &Plan) {
    let ratio = plan.case(ALL_ASKED).costs().to_independent();
    goal("below the independent program's time, 16 conditions over departures", format!("{} times", times(ratio)), ratio < 1.0);
}

fn short_test(plan: &Plan) {
    let ratio = plan.case(SHORT_TEST).costs().to_independent();
    goal(
        &format!("a short test over delays at most {MOST_TIMES_SHORT} times the independent program's time"),
        format!("{} times", times(ratio)),
        ratio <= MOST_TIMES_SHORT,
    );
}

fn runs(plan: &Plan) {
    let plain = plan.last(Series::EachDeparture).costs().proved;
    let most = plan.of(Series::Occurrences).iter().map(|case| case.costs().proved / plain).fold(0.0, f64::max);
    goal(
        &format!("a turn at a run at most {MOST_TIMES_PLAIN} times one at a plain line"),
        format!("at most {} times, over runs of 2, 8 and 1,440 occurrences", times(most)),
        most <= MOST_TIMES_PLAIN,
    );
}

fn late_places(plan: &Plan) {
    let ratio = grown(plan, Series::Occurrences);
    let figure = format!("a turn at a run of 1,440 occurrences {} times one at a run of 2", times(ratio));
    goal("a turn at a late place that is no dearer than one at an early place", figure, ratio <= SAME);
}

/// Left out where no program before is given.
fn before(plan: &Plan) {
    let compared = plan.before_and_now();
    if compared.is_empty() {
        return;
    }
    let figures: Vec<String> =
        compared.iter().map(|(name, [before, now])| format!("{} times ({name})", times(now / before))).collect();
    goal(
        &format!("a turn at a plain line at most {MOST_TIMES_BEFORE} times that of the program before"),
        figures.join(", "),
        compared.iter().all(|(_, [before, now])| now / before <= MOST_TIMES_BEFORE),
    );
}

fn copying(profile: Option<&Profile>) {
    let most = percent(MOST_COPYING);
    let name =
        format!("bytes copied (`memcpy`, `memset`) at most {most} of a turn's instructions, 16 conditions over departures");
    match profile {
        None => row(&[name.as_str(), "valgrind is not there", "not measured"].map(str::to_string)),
        Some(profile) => {
            let share = profile.share(Part::Copying);
            goal(&name, percent(share), share <= MOST_COPYING);
        }
    }
}
