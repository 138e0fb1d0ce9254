//! The program `replay`: runs a script of calls on one fresh stream reader
//! and prints what each call answers.

use crate::frames::{kind_text, values, written, Family, LONGEST_INPUT};
use crate::stream::{Answer, Found, Reader};

/// One call of a script.
#[derive(Clone, PartialEq, Eq, Debug)]
pub enum Call {
    Close,
    /// `f` makes a single call; `o` goes on with the rest after each frame.
    Offer {
        letter: u8,
        bytes: Vec<u8>,
    },
}

/// The whole output of the program `replay` for one input.
pub fn replay(input: &[u8]) -> String {
    let family = match input.first().and_then(|byte| Family::from_ascii(*byte)) {
        Some(family) => family,
        None => return "refused 1\n".to_string(),
    };
    let mut script = &input[1..];
    if script.len() > LONGEST_INPUT {
        return "refused 7\n".to_string();
    }
    let mut reader = Reader::fresh(family);
    let mut text = String::new();
    while !script.is_empty() {
        match first_call(script) {
            Some((call, length)) => {
                run_call(&mut reader, &call, &mut text);
                script = &script[length..];
            }
            None => {
                text.push_str("bad script\n");
                return text;
            }
        }
    }
    text.push_str("end\n");
    text
}

/// The call a script begins with and how many bytes of the script it uses;
/// nothing for an unknown letter or a call cut short.
pub fn first_call(script: &[u8]) -> Option<(Call, usize)> {
    match *script.first()? {
        b'c' => Some((Call::Close, 1)),
        letter @ (b'f' | b'o') => {
            let length = 2 + usize::from(*script.get(1)?);
            let bytes = script.get(2..length)?.to_vec();
            Some((Call::Offer { letter, bytes }, length))
        }
        _ => None,
    }
}

fn run_call(reader: &mut Reader, call: &Call, text: &mut String) {
    match call {
        Call::Close => {
            reader.close();
            text.push_str("closed\n");
        }
        Call::Offer { letter, bytes } => {
            let mut rest = &bytes[..];
            loop {
                let answer = reader.call(rest);
                text.push_str(&answer_line(&answer));
                match answer {
                    Answer::Frame(found) if *letter == b'o' => rest = &rest[found.taken..],
                    _ => break,
                }
            }
        }
    }
}

fn answer_line(answer: &Answer) -> String {
    match answer {
        Answer::Frame(found) => frame_line(found),
        Answer::More { taken } => format!("more {}\n", taken),
        Answer::Done { taken } => format!("done {}\n", taken),
        Answer::Refused(number) => format!("refused {}\n", number),
    }
}

fn frame_line(found: &Found) -> String {
    let mut words = vec![
        "frame".to_string(),
        found.taken.to_string(),
        found.start.to_string(),
        found.skipped.to_string(),
        found.length.to_string(),
        kind_text(&found.frame),
    ];
    words.extend(values(&found.frame));
    words.push("|".to_string());
    words.push(match written(&found.frame) {
        Some(bytes) => bytes.iter().map(|byte| format!("{:02X}", byte)).collect(),
        None => "-".to_string(),
    });
    words.join(" ") + "\n"
}
