//! Every call with each of its fields left out, doubled, emptied or replaced by each of many. Most lines are no calls.

/// Good calls, with `|` for a tab.
const GOOD: &[&str] = &[
    "date|2024|2|29|+120",
    "time|28800|5|-0060",
    "dateTime|2024|2|29|0|0|none",
    "dayTime|-129600|5",
    "yearMonth|+13",
    "record|12|xs:date|2024|3|31|0|0|none",
    "record|8|xs:time|1972|12|31|0|0|none",
    "record|35|xs:dateTime|2024|3|31|1|1|-60",
    "record|16|xs:dayTimeDuration|-90|1",
    "record|16|xs:yearMonthDuration|+90",
    "write|xs:time|9|24:00:00Z",
    "bytes|xs:time|9|0a32343a30303a30305a20",
    "compare|xs:dayTimeDuration|PT24H|xs:dayTimeDuration|+86400|0",
    "compare|xs:date|2024-03-31|xs:date|2024|3|31|0|0|+0",
    "late|xs:time|08:00:00|08:04:00|PT3M",
    "open|xs:date($1) eq xs:date($1)",
    "close|1",
    "turn",
];

/// What is put in a field's place: words, kinds, numbers either side of each bound and of each form.
const PUT: &[&str] = &[
    "",
    " ",
    "-",
    "+",
    "--1",
    "+-1",
    "-+1",
    "+ 1",
    " 1",
    "1 ",
    "1\r",
    "\r1",
    "+1 ",
    "+1\r",
    "1.0",
    "1e3",
    "0x1",
    "1_000",
    "1,000",
    "one",
    "\0",
    "\u{ff}",
    "0",
    "-0",
    "+0",
    "00",
    "0A",
    "1",
    "+1",
    "-1",
    "64",
    "65",
    "255",
    "256",
    "840",
    "+840",
    "-841",
    "65535",
    "65536",
    "+65535",
    "-65536",
    "4294967295",
    "4294967296",
    "+4294967295",
    "-4294967296",
    "18446744073709551615",
    "18446744073709551616",
    "+18446744073709551615",
    "-18446744073709551616",
    "99999999999999999999",
    "+99999999999999999999",
    "00000000000000000001",
    "000000000000000000001",
    "+00000000000000000001",
    "-000000000000000000001",
    "100000000000000000000",
    "36893488147419103233",
    "340282366920938463463374607431768211457",
    "none",
    "None",
    "none ",
    "+none",
    "Z",
    "+02:00",
    "xs:date",
    "xs:dateTime",
    "xs:dayTimeDuration",
    "xs:yearMonthDuration",
    "xs:Date",
    "xs:date ",
    "xs:duration",
    "date",
    "record",
    "turn",
    "Turn",
    "idle",
    "read",
    "|",
    "1|1",
];

pub fn forms() -> Vec<String> {
    let mut calls = Vec::new();
    for call in GOOD {
        calls.push(call.to_string());
        calls.push(format!("{call}|"));
        calls.push(format!("|{call}"));
        calls.push(format!("{call}\r"));
        let fields: Vec<&str> = call.split('|').collect();
        for place in 0..fields.len() {
            calls.push(without(&fields, place));
            calls.push(fields[..place].join("|"));
            for text in PUT.iter().chain(&fields) {
                calls.push(with(&fields, place, text));
            }
            calls.push([&fields[..=place], &fields[place..]].concat().join("|"));
        }
    }
    calls
}

fn without(fields: &[&str], place: usize) -> String {
    [&fields[..place], &fields[place + 1..]].concat().join("|")
}

fn with(fields: &[&str], place: usize, text: &str) -> String {
    [&fields[..place], &[text], &fields[place + 1..]].concat().join("|")
}
