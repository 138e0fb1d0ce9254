//! Shows a difference so that a reader sees what went wrong without running
//! anything again.

use crate::compare::Difference;

/// More bytes or lines than these are not printed; the saved file has all.
const LONGEST_SHOWN: usize = 4096;
const MOST_LINES: usize = 60;

pub fn show_difference(input: &[u8], difference: &Difference) {
    println!("input in hexadecimal ({} bytes):", input.len());
    println!("{}", hexadecimal(input));
    println!("this program answers:");
    println!("{}", shortened(&difference.here));
    println!("the program under test answers ({}):", difference.remark);
    println!("{}", shortened(&difference.there));
    show_first_line(&difference.here, &difference.there);
}

fn hexadecimal(bytes: &[u8]) -> String {
    let shown = &bytes[..bytes.len().min(LONGEST_SHOWN)];
    let rows: Vec<String> = shown
        .chunks(32)
        .map(|row| {
            let pairs: Vec<String> = row.iter().map(|byte| format!("{:02X}", byte)).collect();
            format!("    {}", pairs.join(" "))
        })
        .collect();
    let mut text = rows.join("\n");
    if shown.len() < bytes.len() {
        text.push_str(&format!("\n    ... {} bytes in all", bytes.len()));
    }
    text
}

/// The lines of an answer. Bytes that do not print are shown as escapes, for
/// a program under test may answer anything.
fn shortened(answer: &[u8]) -> String {
    let all = lines(answer);
    let mut text = String::new();
    for line in all.iter().take(MOST_LINES) {
        text.push_str(&format!("    {}\n", line));
    }
    if all.len() > MOST_LINES {
        text.push_str(&format!("    ... {} lines in all\n", all.len()));
    }
    if all.is_empty() {
        text.push_str("    (nothing)\n");
    }
    text.pop();
    text
}

fn lines(answer: &[u8]) -> Vec<String> {
    let mut all: Vec<String> = answer
        .split(|byte| *byte == b'\n')
        .map(|line| line.escape_ascii().to_string())
        .collect();
    // Behind the last line end stands no further line.
    if answer.last().map_or(true, |byte| *byte == b'\n') {
        all.pop();
    }
    all
}

fn show_first_line(here: &[u8], there: &[u8]) {
    let (here, there) = (lines(here), lines(there));
    let longest = here.len().max(there.len());
    let none = "(no such line)".to_string();
    for number in 0..longest {
        let ours = here.get(number).unwrap_or(&none);
        let theirs = there.get(number).unwrap_or(&none);
        if ours != theirs {
            println!("first differing line is line {}:", number + 1);
            println!("    this program:           {}", ours);
            println!("    the program under test: {}", theirs);
            return;
        }
    }
    println!("all lines are the same; the exit status or the last line end differs");
}
