//! The programs kept at six digits: over texts without longer fractions nothing else is different. All that is asked of the
//! crate itself stands in one test, since the setting is one of the whole program.

use compare::generator::{blanks, calls, cycle, desks, judgements, nine, random::Random, six, texts};
use compare::programs::{answer_line, desk, judgements as judged};
use compare::values::reading::read;
use compare::values::ticks::{fraction_digits, keep_six_digits, most_duration_ticks, ticks_a_second};
use compare::values::writing::write;
use compare::values::{Kind, Value, KINDS};
use std::io::Write;
use std::process::{Command, Stdio};

/// The value in ticks that are a thousand times as short.
fn in_nanoseconds(value: Value) -> Value {
    match value {
        Value::Time { tick, zone } => Value::Time { tick: tick * 1_000, zone },
        Value::DateTime { tick, zone } => Value::DateTime { tick: tick * 1_000, zone },
        Value::DayTime(ticks) => Value::DayTime(ticks * 1_000),
        other => other,
    }
}

/// Texts of every kind, good, beyond a bound and damaged, without longer fractions.
fn some_texts() -> Vec<(Kind, Vec<u8>)> {
    let random = &mut Random::new(41);
    let mut texts = Vec::new();
    for _ in 0..5_000 {
        for kind in KINDS {
            texts.push((kind, six::cut(texts::good(random, kind).as_bytes())));
            texts.push((kind, six::cut(texts::beyond(random, kind).as_bytes())));
        }
    }
    texts
}

/// Calls at random and those of all tables.
fn some_calls() -> Vec<Vec<u8>> {
    let random = &mut Random::new(43);
    let mut calls: Vec<Vec<u8>> = (0..30_000).map(|_| calls::call(random)).collect();
    let tabbed = |call: String| call.replace('|', "\t").into_bytes();
    calls.extend(nine::calls::parts().into_iter().flat_map(|(_, calls)| calls).map(tabbed));
    calls.extend(cycle::calls::parts().into_iter().flat_map(|(_, calls)| calls).map(tabbed));
    calls.extend(blanks::calls::parts().into_iter().flat_map(|(_, calls)| calls));
    calls.iter().map(|call| six::cut(call)).collect()
}

#[test]
fn at_six_digits_nothing_else_is_different() {
    let (texts, calls) = (some_texts(), some_calls());
    let lines: Vec<Vec<u8>> = judgements::lines(47, 3_000).map(|line| six::cut(&line)).collect();
    let cases: Vec<(Vec<u8>, Vec<u8>)> =
        (0..150).map(desks::case).map(|case| (six::cut(case.timetable.bytes()), six::cut(&case.conditions))).collect();
    let answers = || -> Vec<String> {
        let called = calls.iter().map(|call| answer_line(call));
        let judged = lines.iter().map(|line| judged(line));
        called.chain(judged).chain(cases.iter().map(|(timetable, conditions)| desk(timetable, conditions))).collect()
    };
    let read_all = || texts.iter().map(|(kind, text)| read(*kind, text)).collect::<Vec<_>>();
    let written = |values: &[Result<Value, u8>]| -> Vec<Result<String, u8>> {
        values.iter().map(|value| value.as_ref().map(write).map_err(|number| *number)).collect()
    };
    let (nine, answers_at_nine) = (read_all(), answers());
    let written_at_nine = written(&nine);
    assert_eq!((fraction_digits(), ticks_a_second(), most_duration_ticks()), (9, 1_000_000_000, 10_i128.pow(21)));
    keep_six_digits();
    assert_eq!((fraction_digits(), ticks_a_second(), most_duration_ticks()), (6, 1_000_000, 10_i128.pow(18)));
    let six = read_all();
    let mut values = 0;
    for ((nine, six), (_, text)) in nine.iter().zip(&six).zip(&texts) {
        assert_eq!(*nine, six.map(in_nanoseconds), "{}", String::from_utf8_lossy(text));
        values += usize::from(six.is_ok());
    }
    assert!(values > 25_000, "{values}");
    assert_eq!(written_at_nine, written(&six));
    for (nine, six) in answers_at_nine.iter().zip(&answers()) {
        assert_eq!(nine, six);
    }
}

/// What a program writes.
fn run(program: &str, words: &[&str], input: &str) -> (Option<i32>, String) {
    let mut child = Command::new(program)
        .args(words)
        .current_dir(env!("CARGO_TARGET_TMPDIR"))
        .stdin(Stdio::piped())
        .stdout(Stdio::piped())
        .stderr(Stdio::null())
        .spawn()
        .expect("the program is there");
    // A program that stops at its words reads nothing.
    let _ = child.stdin.take().expect("it has one").write_all(input.as_bytes());
    let output = child.wait_with_output().expect("it ends");
    (output.status.code(), String::from_utf8(output.stdout).expect("ASCII"))
}

#[test]
fn the_programs_take_one_word() {
    let calculator = env!("CARGO_BIN_EXE_calculator");
    let calls = "read\txs:time\t00:00:00.000001\nread\txs:time\t00:00:00.0000000\nread\txs:time\t00:00:00.0000000000\n";
    assert_eq!(run(calculator, &[], calls).1, "00:00:00.000001\n00:00:00\nrefused\t3\n");
    assert_eq!(run(calculator, &["--six"], calls).1, "00:00:00.000001\nrefused\t3\nrefused\t3\n");
    assert_eq!(run(calculator, &["--seven"], calls), (Some(1), String::new()));
    let judgements = env!("CARGO_BIN_EXE_judgements");
    let line = "xs:time($1) gt xs:time(\"00:00:00\")\t00:00:00.000000001\n";
    assert_eq!(run(judgements, &[], line).1, "hit\n");
    assert_eq!(run(judgements, &["--six"], line).1, "unreadable\t3\n");
    let desk = env!("CARGO_BIN_EXE_desk");
    let conditions = "xs:time(\"00:00:00.0000000\") eq xs:time(\"24:00:00\")\n";
    assert_eq!(run(desk, &[], conditions).1, "open\t1\ndone\t1\t0\t0\nidle\n");
    assert_eq!(run(desk, &["--six"], conditions).1, "refused\t3\nidle\n");
}
