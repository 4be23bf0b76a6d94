//! Tables, prose and numbers as the pages have them.

/// The characters of a line of prose.
const WIDTH: usize = 120;

pub fn heading(title: &str, columns: &[&str]) {
    println!("\n### {title}\n");
    println!("| {} |", columns.join(" | "));
    println!("|{}", "---|".repeat(columns.len()));
}

pub fn row(cells: &[String]) {
    println!("| {} |", cells.join(" | "));
}

pub fn paragraph(text: &str) {
    println!("\n{}", wrapped(text));
}

fn wrapped(text: &str) -> String {
    let mut lines = vec![String::new()];
    for word in text.split(' ') {
        let line = lines.last_mut().expect("there is always a line");
        if line.is_empty() {
            *line += word;
        } else if line.chars().count() + 1 + word.chars().count() <= WIDTH {
            *line += " ";
            *line += word;
        } else {
            lines.push(word.to_string());
        }
    }
    lines.join("\n")
}

pub fn times(ratio: f64) -> String {
    format!("{ratio:.2}")
}

pub fn percent(share: f64) -> String {
    format!("{:.1}%", 100.0 * share)
}

/// A small one below zero is zero.
pub fn tenths(cost: f64) -> String {
    format!("{:.1}", (10.0 * cost).round() / 10.0 + 0.0)
}

pub fn nanoseconds(cost: f64) -> String {
    thousands(cost.round() as u64)
}

pub fn thousands(number: u64) -> String {
    match number {
        0..=999 => number.to_string(),
        _ => format!("{},{:03}", thousands(number / 1_000), number % 1_000),
    }
}

#[cfg(test)]
mod tests {
    use super::*;

    #[test]
    fn no_zero_has_a_sign() {
        assert_eq!([-0.04, 0.04, -0.06, 5.66].map(tenths), ["0.0", "0.0", "-0.1", "5.7"]);
    }

    #[test]
    fn prose_is_wrapped_at_its_width() {
        let text = ["turns"; 41].join(" ");
        let lines = [["turns"; 20].join(" "), ["turns"; 20].join(" "), "turns".to_string()];
        assert_eq!(wrapped(&text), lines.join("\n"));
        assert_eq!(wrapped(&"→".repeat(WIDTH - 2)).len(), 3 * (WIDTH - 2));
    }
}
