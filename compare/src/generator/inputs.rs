//! Many calls in as many inputs as they need, none of them longer than a program takes.

use crate::programs::MOST_CALLS_BYTES;

/// The inputs, numbered after the name. The calls are written with `|` for a tab.
pub fn named(name: &str, calls: &[String]) -> Vec<(String, Vec<u8>)> {
    let lines: Vec<Vec<u8>> = calls.iter().map(|call| call.replace('|', "\t").into_bytes()).collect();
    of_lines(name, &lines)
}

/// The same of calls that are any bytes, tabs among them.
pub fn of_lines(name: &str, calls: &[Vec<u8>]) -> Vec<(String, Vec<u8>)> {
    let mut inputs: Vec<Vec<u8>> = vec![Vec::new()];
    for call in calls {
        if inputs[inputs.len() - 1].len() + call.len() + 1 > MOST_CALLS_BYTES {
            inputs.push(Vec::new());
        }
        let input = inputs.last_mut().expect("there is one");
        input.extend(call);
        input.push(b'\n');
    }
    (1..).zip(inputs).map(|(part, calls)| (format!("{name}-{part}"), calls)).collect()
}
