//! What was measured, as Markdown.

use crate::inputs::{FEW_LINES, ONE_FIELD_TEST, PADDING, RUN_DEPARTURES};
use crate::markdown::{heading, nanoseconds, paragraph, percent, row, tenths, thousands, times};
use crate::measure::{has_processor_time, Case, ROUNDS, SHORT_RUNS};
use crate::peers::{Figures, RUNS};
use crate::plan::{
    Plan, Series, ALL_ASKED, ALL_IN_FIRST_YEAR, ASKED_OF_PEERS, DEEP, FOUR_ASKED, LONG, ONE_ASKED, OVER_EMPTY_LINES, SHORT_TEST,
};
use crate::profile::{Profile, PARTS};
use crate::shares::{byte_costs, bytes_beside_delay, condition_bytes, Length, Shares};

pub fn method(plan: &Plan) {
    let clock = if has_processor_time() { "the time that the program had the processor" } else { "elapsed time" };
    let starts = plan.case(ALL_ASKED).starts();
    let [proved, independent] = [starts.proved, starts.independent].map(|start| start.as_secs_f64() * 1e3);
    let short = ROUNDS * SHORT_RUNS;
    paragraph(&format!(
        "The programs are built for release and run in turn over the same files. Before anything is measured, what they write is \
         compared byte for byte. A time is {clock}, its output thrown away: the least of {ROUNDS} runs, of {short} where a run is short. \
         The cost of a turn is the time of the whole run less that with an empty timetable (sixteen conditions: {proved:.1} ms proved, \
         {independent:.1} ms independent), over the turns at lines. The proved program and the independent one read the condition's text \
         at each turn; the latter also makes all of Open's checks of it again. \"Text read once\" is the independent program changed so \
         that it reads each condition, with its literals, once, when it is opened: what that would leave of a turn, and the mark that a \
         desk which settles a condition at opening has to beat."
    ));
}

pub fn turns_a_second(plan: &Plan) {
    let columns = [
        "Case",
        "Turns at lines",
        "Proved",
        "Independent",
        "Independent, text read once",
        "Time proved / independent",
        "Time proved / text read once",
    ];
    heading("Turns a second", &columns);
    for named in [ONE_ASKED, FOUR_ASKED, ALL_ASKED, ALL_IN_FIRST_YEAR, OVER_EMPTY_LINES, LONG, DEEP] {
        let case = plan.case(named);
        let costs = case.costs();
        let a_second = costs.each().map(|cost| thousands((1e9 / cost) as u64));
        let ratios = [costs.to_independent(), costs.to_read_once()].map(times);
        row(&[vec![named.name.to_string(), thousands(case.turns as u64)], a_second.to_vec(), ratios.to_vec()].concat());
    }
    let lines = thousands(plan.case(ONE_ASKED).turns as u64);
    paragraph(&format!(
        "Departures: 65,536 bytes, {lines} lines such as `550→2024-03-30T04:30:00+02:00→PT0S→Kamppi`. The conditions are those that \
         `bench/src/inputs.rs` lists."
    ));
}

pub fn seats(plan: &Plan) {
    let columns = ["Held seats", "Proved, delays", "Independent, delays", "Proved, departures", "Independent, departures"];
    heading("Cost of a turn and the number of held seats, ns", &columns);
    for (delays, departures) in plan.of(Series::SeatsOverDelays).iter().zip(plan.of(Series::SeatsOverDepartures)) {
        let (first, second) = (delays.costs(), departures.costs());
        let cells = [first.proved, first.independent, second.proved, second.independent].map(nanoseconds);
        row(&[vec![delays.conditions.len().to_string()], cells.to_vec()].concat());
    }
    let lines = thousands(plan.of(Series::SeatsOverDelays)[0].turns as u64);
    paragraph(&format!(
        "Every seat holds the same condition. Delays: {lines} lines of one delay each and a test that compares no dates. Departures: the \
         first of the sixteen conditions. The proved program checks the desk's soundness once for each 4,096 bytes of output."
    ));
}

pub fn timetable(plan: &Plan) {
    let columns = ["Bytes", "Turns at lines", "Proved", "Independent"];
    heading("Cost of a turn and the timetable's length, 16 conditions over departures, ns", &columns);
    for case in plan.of(Series::TimetableBytes) {
        let costs = case.costs();
        let sizes = [case.timetable_bytes as u64, case.turns as u64].map(thousands);
        row(&[sizes.to_vec(), [costs.proved, costs.independent].map(nanoseconds).to_vec()].concat());
    }
}

pub fn condition(plan: &Plan) {
    let more = "for each byte more";
    let columns = ["Made longer by", "Bytes", "Proved", more, "Independent", more, "Text read once", more];
    heading("Cost of a turn and the condition's length, one condition over delays, ns", &columns);
    length_rows("spaces between two symbols", condition_bytes, &plan.of(Series::Spaces));
    length_rows("tests that are read and not evaluated", condition_bytes, &plan.of(Series::TestsReadOver));
    length_rows("tests that are evaluated", condition_bytes, &plan.of(Series::TestsEvaluated));
}

fn length_rows(name: &str, length: Length, cases: &[&Case]) {
    for (place, case) in cases.iter().enumerate() {
        let more = match place {
            0 => Default::default(),
            _ => byte_costs(length, cases[place - 1], case).each().map(tenths),
        };
        let pairs = case.costs().each().map(nanoseconds).into_iter().zip(more);
        let cells = pairs.flat_map(|(cost, more)| [cost, more]).collect();
        row(&[vec![name.to_string(), thousands(length(case) as u64)], cells].concat());
    }
}

pub fn runs(plan: &Plan) {
    let plainly = "times a plain line's";
    let columns = ["Timetable", "Turns", "Proved", plainly, "Independent", plainly, "Text read once", plainly];
    heading("Cost of a turn at a run of departures, ns", &columns);
    let plain = plan.last(Series::EachDeparture);
    times_row(&["a line for each departure"], plain, plain);
    for case in plan.of(Series::Occurrences) {
        let occurrences = thousands((RUN_DEPARTURES / case.timetable_lines) as u64);
        let runs = if case.timetable_lines == 1 { "run" } else { "runs" };
        times_row(&[&format!("{} {runs} of {occurrences} occurrences", case.timetable_lines)], case, plain);
    }
    let (departures, conditions) = (thousands(RUN_DEPARTURES as u64), plain.conditions.len());
    paragraph(&format!(
        "The same {departures} departures, a minute apart, and the same {conditions} conditions: those of the sixteen that look at the \
         second field alone. A turn at a run reads three values more, and writes the occurrence's text."
    ));
}

/// What the row is called, the turns, and the cost of each program with how many times that of a plain case it is.
fn times_row(names: &[&str], case: &Case, plain: &Case) {
    let costs = case.costs().each().into_iter().zip(plain.costs().each());
    let cells = costs.flat_map(|(cost, least)| [nanoseconds(cost), times(cost / least)]).collect();
    row(&[names.iter().map(|name| name.to_string()).collect(), vec![thousands(case.turns as u64)], cells].concat());
}

pub fn padded_columns(plan: &Plan) {
    let bare = "times without blanks";
    let columns = ["Case", "Lines", "Turns", "Proved", bare, "Independent", bare, "Text read once", bare];
    heading("Cost of a turn and padded columns, ns", &columns);
    let padded = format!("{PADDING} spaces before and after each value that is read, CR LF line ends");
    let names = ["without blanks", "CR LF line ends", &padded, "without blanks, as long as the padded ones"];
    for (asked, series) in [(ALL_ASKED, Series::PaddedDepartures), (SHORT_TEST, Series::PaddedDelays)] {
        let cases = plan.of(series);
        for (name, case) in names.iter().zip(&cases) {
            times_row(&[asked.name, name], case, cases[0]);
        }
    }
    let lines = |series| thousands(plan.last(series).timetable_lines as u64);
    let (departures, delays) = (lines(Series::PaddedDepartures), lines(Series::PaddedDelays));
    paragraph(&format!(
        "The same {departures} departures, and the same {delays} delays: as many as fit when they are padded. Of departures the \
         conditions read the second field and the third; the CR stands after the last one, which none reads. Of delays the test reads \
         the only field, twice, and the CR is a blank after its value. In the lines that are as long without blanks the last field is \
         longer: what they cost more is the longer line alone."
    ));
}

pub fn blanks(plan: &Plan) {
    let more = "for each byte more";
    let columns = ["Line made longer by", "Bytes", "Proved", more, "Independent", more, "Text read once", more];
    heading("Cost of a turn and the blanks round a value, ns", &columns);
    length_rows("blanks before the value", bytes_beside_delay, &plan.of(Series::BlanksBefore));
    length_rows("blanks after the value", bytes_beside_delay, &plan.of(Series::BlanksAfter));
    length_rows("a second field, not read", bytes_beside_delay, &plan.of(Series::UnreadBytes));
    paragraph(&format!(
        "One delay a line, {FEW_LINES} lines or as many as fit in 65,536 bytes, and sixteen seats that hold the same condition, \
         `{ONE_FIELD_TEST}`: it reads the field once. A blank is also a byte of the line, and the second field, which is not read, \
         shows what such a byte costs by itself."
    ));
}

/// Left out where no program before is given.
pub fn before(plan: &Plan) {
    let compared = plan.before_and_now();
    if compared.is_empty() {
        return;
    }
    heading("Cost of a turn at a plain line, before and now, ns", &["Case", "Before", "Now", "Now / before"]);
    for (name, [before, now]) in compared {
        row(&[name.to_string(), nanoseconds(before), nanoseconds(now), times(now / before)]);
    }
    paragraph("The proved program before and now, in turn in every round. What the two write is the same, byte for byte.");
}

pub fn shares(shares: &Shares) {
    let columns = ["Part", "ns", "Share", "How it was got"];
    heading("Where the time of a proved turn goes, 16 conditions over departures", &columns);
    let text = format!(
        "{:.1} ns a byte, from the tests above that are read and not evaluated, times {:.0} bytes, the sixteen conditions' average; \
         the values of literals, read at each turn too, are not in it",
        shares.text_byte, shares.text_bytes
    );
    let line = |name: &str, cost: f64, how: String| {
        row(&[name.to_string(), nanoseconds(cost), format!("{:.0}%", 100.0 * cost / shares.whole), how])
    };
    line("the whole turn", shares.whole, "as above".to_string());
    line("in it: the condition's text read, its symbols and grammar", shares.text(), text);
}

pub fn instructions(plan: &Plan, profile: Option<&Profile>) {
    let title = "Instructions of a proved turn, 16 conditions over departures";
    let Some(profile) = profile else {
        println!("\n### {title}\n\nNot counted: valgrind is not there.");
        return;
    };
    heading(title, &["Part", "Instructions", "Share"]);
    let profiled = plan.last(Series::Profiled);
    for (part, name) in PARTS {
        row(&[name.to_string(), thousands(profile.of(part) / profiled.turns as u64), percent(profile.share(part))]);
    }
    let conditions = profiled.conditions.concat();
    let (literals, fields) = (conditions.matches('"').count() / 2, conditions.matches('$').count());
    paragraph(&format!(
        "Counted by callgrind over a quarter of the departures, start included, by the crate of the function; what the compiler placed \
         within another crate's function counts there. The sixteen conditions hold {literals} literals and {fields} fields."
    ));
}

pub fn memory(rows: &[(&str, [u64; 2])]) {
    heading("Peak memory, KiB", &["Case", "Proved", "Independent"]);
    for (name, peaks) in rows {
        row(&[vec![name.to_string()], peaks.map(thousands).to_vec()].concat());
    }
    paragraph(
        "The kernel's high-water mark, `VmHWM` of `/proc/PID/status`, read while the program waits for its output to be taken.",
    );
}

pub fn peers(plan: &Plan, peers: &[Figures]) {
    heading("Peers: XQuery processors", &["Peer", "Case", "ns a turn", "Times the proved program's"]);
    for Figures { name, costs } in peers {
        let Some(costs) = costs else {
            row(&[name, "not installed", "", ""].map(str::to_string));
            continue;
        };
        for (named, cost) in ASKED_OF_PEERS.iter().zip(costs) {
            let ratio = cost / plan.case(*named).costs().proved;
            row(&[name.clone(), named.name.to_string(), nanoseconds(*cost), times(ratio)]);
        }
    }
    paragraph(&format!(
        "A query counts the hits of each condition, and its counts are the desk's. The conditions are taken as they stand, but for their \
         fields: `$2` is written `$f[2]`, since no name in XQuery begins with a digit. A value without zone counts as UTC. Elapsed time, \
         the least of {RUNS} runs within one start of the peer, by which its machine code is warm, less the least of {RUNS} runs of the \
         same query over an empty timetable, over the turns: the start, the reading of the query and the warming up are left out."
    ));
}
