//! Makes KPA1500 messages for tests: sound ones of every kind, and starts that
//! wait long for a semicolon. What breaks a rule is made in `spoil_kpa.rs`.
//!
//! Letters, digits and days are written down here once more, so that a slip in
//! the rules does not repeat itself in what is made to find it.

use crate::kpa::{enclose_body, is_body_byte, LONGEST_BODY};
use crate::make_spe::edge_or_middle;
use crate::rng::Rng;

/// Letters with one number behind them: its digits and the highest.
const ONE_NUMBER: &[(&str, usize, usize)] = &[
    ("SN", 5, 99_999),
    ("PWF", 4, 9999),
    ("PWI", 4, 9999),
    ("PWR", 4, 9999),
    ("PWD", 4, 9999),
    ("FR", 5, 99_999),
    ("FQ", 5, 99_999),
    ("FS", 1, 5),
    ("HS", 1, 1),
];

/// All that can be asked for; FT is listed too, but never asked.
pub const ASKED: &[&str] = &[
    "SN", "RV", "PWF", "PWI", "PWR", "PWD", "FR", "FQ", "FS", "HS", "CC",
];

/// Letters that are not listed, many of them beside or around listed ones.
const NOT_LISTED: &[&str] = &[
    "S", "N", "R", "V", "P", "W", "F", "Q", "H", "C", "T", "PW", "WF", "SM", "SO", "TN", "RU",
    "RW", "QV", "PWE", "PWG", "PWH", "PWJ", "PWQ", "PWS", "PWC", "PVF", "FP", "GR", "FU", "ES",
    "HR", "HT", "IS", "CB", "CD", "BC", "NS", "VR", "SF", "SNA", "SNSN", "ASN", "RVM", "RVRV",
    "PWFW", "PWFS", "FRF", "FQR", "FSH", "HSAB", "HSA", "CCT", "CCC", "FTT", "FTA", "AFT", "BT",
    "I", "KPA", "VM", "VMH", "STA", "ABAB", "AZ", "ZA", "A", "Z",
];

/// First bytes that are no letters; most stand beside one in the code.
pub const NOT_LETTERS: &[u8] = b" 0159@[\\_`{~!?-.:/|";

/// How many bytes stand behind the caret in `long_start`.
const LONG_BODIES: &[usize] = &[36, 37, 38, 39, 40, 41, 76];

// ------------------------------------------------------------------ sound

pub fn sound_message(rng: &mut Rng) -> Vec<u8> {
    let body = match rng.below(12) {
        0..=2 => {
            let letters = rng.pick(ASKED);
            in_some_case(rng, letters)
        }
        3..=5 => sound_number(rng),
        6 => sound_version(rng),
        7 | 8 => sound_moment(rng),
        9 => in_some_case(rng, "FT"),
        _ => other_body(rng),
    };
    enclose_body(&body)
}

/// Capitals mostly, as the writer has them; else small letters or both.
pub fn in_some_case(rng: &mut Rng, letters: &str) -> Vec<u8> {
    let mut bytes = letters.as_bytes().to_vec();
    match rng.below(6) {
        0 => bytes.make_ascii_lowercase(),
        1 | 2 => {
            for byte in bytes.iter_mut().filter(|_| rng.percent(50)) {
                byte.make_ascii_lowercase();
            }
        }
        _ => {}
    }
    bytes
}

pub fn with_letters(rng: &mut Rng, letters: &str, text: &str) -> Vec<u8> {
    [&in_some_case(rng, letters)[..], text.as_bytes()].concat()
}

fn sound_number(rng: &mut Rng) -> Vec<u8> {
    let (letters, digits, highest) = rng.pick(ONE_NUMBER);
    let number = edge_or_middle(rng, highest);
    let text = format!("{:0digits$}", number, digits = digits);
    with_letters(rng, letters, &text)
}

fn sound_version(rng: &mut Rng) -> Vec<u8> {
    let (before, behind) = (edge_or_middle(rng, 99), edge_or_middle(rng, 99));
    with_letters(rng, "RV", &format!("{:02}.{:02}", before, behind))
}

fn sound_moment(rng: &mut Rng) -> Vec<u8> {
    let any = rng.below(100);
    let year = rng.pick(&[0, 1, 3, 4, 17, 24, 96, 99, any, any]);
    let any = rng.between(1, 12);
    let month = rng.pick(&[1, 2, 2, 2, 12, any, any, any]);
    let last = last_day(year, month);
    let any = rng.between(1, last);
    let day = rng.pick(&[1, last, last, last - 1, any]);
    let mut time = [0; 3];
    for (part, highest) in time.iter_mut().zip([23, 59, 59]) {
        *part = edge_or_middle(rng, highest);
    }
    let [hour, minute, second] = time;
    let text = format!(
        "{:02}-{:02}-{:02}T{:02}:{:02}:{:02}",
        year, month, day, hour, minute, second
    );
    with_letters(rng, "CC", &text)
}

fn last_day(year: usize, month: usize) -> usize {
    let leap = year % 4 == 0 && month == 2;
    [31, 28, 31, 30, 31, 30, 31, 31, 30, 31, 30, 31][month - 1] + usize::from(leap)
}

/// Letters that are not listed, and anything behind them or nothing.
pub fn other_body(rng: &mut Rng) -> Vec<u8> {
    let letters = other_letters(rng);
    let any = rng.between(1, LONGEST_BODY);
    let length = rng.pick(&[1, 37, LONGEST_BODY, LONGEST_BODY, any, any]);
    filled_body(rng, letters, length)
}

pub fn other_letters(rng: &mut Rng) -> Vec<u8> {
    if rng.percent(60) {
        let letters = rng.pick(NOT_LISTED);
        return in_some_case(rng, letters);
    }
    loop {
        let any = rng.between(1, LONGEST_BODY);
        let count = rng.pick(&[1, 2, 3, 4, 5, 8, 9, 36, 37, LONGEST_BODY, any]);
        let letters: String = (0..count).map(|_| any_letter(rng)).collect();
        if letters != "FT" && !ASKED.contains(&letters.as_str()) {
            return in_some_case(rng, &letters);
        }
    }
}

fn any_letter(rng: &mut Rng) -> char {
    char::from(rng.pick(b"ABCDEFGHIJKLMNOPQRSTUVWXYZAZSNRVPWFCHT"))
}

/// Text behind the letters up to a length, which may also be a wrong one. The
/// text begins with no letter, so the letters stay what they are.
pub fn filled_body(rng: &mut Rng, letters: Vec<u8>, length: usize) -> Vec<u8> {
    let mut body = letters;
    if body.len() < length {
        body.push(rng.pick(b" 0159@[`{.-?~!"));
    }
    while body.len() < length {
        body.push(text_byte(rng));
    }
    body
}

fn text_byte(rng: &mut Rng) -> u8 {
    match rng.below(3) {
        0 => rng.pick(b" ~.:-T$*,!]_"),
        1 => rng.pick(b"0123456789SNRVPWFCHT"),
        _ => loop {
            let byte = rng.between(0x20, 0x7E) as u8;
            if is_body_byte(byte) {
                break byte;
            }
        },
    }
}

/// Every pair of letters, every third letter behind PW, and both ends of every
/// month of three years, with days and months that are none.
pub fn letters_and_days() -> Vec<u8> {
    let mut bytes = Vec::new();
    for first in b'A'..=b'Z' {
        bytes.extend(enclose_body(&[b'P', b'W', first]));
        for second in b'A'..=b'Z' {
            bytes.extend(enclose_body(&[first, second]));
        }
    }
    for year in [0, 1, 96] {
        for month in 0..=13 {
            for day in (0..=2).chain(27..=33) {
                let text = format!("CC{:02}-{:02}-{:02}T23:59:59", year, month, day);
                bytes.extend(enclose_body(text.as_bytes()));
            }
        }
    }
    bytes
}

// ------------------------------------------------------------ long starts

/// Starts around the length at which they are given up, each with every end:
/// some of them are sound, some not, and some only begin something.
pub fn all_long_starts(rng: &mut Rng) -> Vec<Vec<u8>> {
    let mut all = Vec::new();
    for length in LONG_BODIES {
        for letter_first in [true, false] {
            for end in 0..5 {
                all.push(long_start(rng, *length, letter_first, end));
            }
        }
    }
    all
}

/// One of them by chance.
pub fn any_long_start(rng: &mut Rng) -> Vec<u8> {
    let length = rng.pick(LONG_BODIES);
    let (letter_first, end) = (rng.percent(50), rng.below(5));
    long_start(rng, length, letter_first, end)
}

/// A caret and so many allowed bytes. Then nothing, a semicolon, a forbidden
/// byte or a sound message; or one of the bytes is a caret, so that another
/// start stands behind the first.
fn long_start(rng: &mut Rng, length: usize, letter_first: bool, end: usize) -> Vec<u8> {
    let mut bytes = waiting(rng, length, letter_first);
    match end {
        0 => {}
        1 => bytes.push(b';'),
        2 => bytes.push(rng.pick(&[0x1F, 0x7F, 0x00, 0xFF])),
        3 => bytes.extend(sound_message(rng)),
        _ => {
            let any = rng.between(1, length);
            let place = rng.pick(&[1, 2, any, any, length - 1, length]);
            bytes[place] = b'^';
            bytes.push(b';');
        }
    }
    bytes
}

/// A start that is still undecided when it has no more than 38 bytes.
fn waiting(rng: &mut Rng, length: usize, letter_first: bool) -> Vec<u8> {
    let mut bytes = vec![b'^'];
    bytes.extend((0..length).map(|_| text_byte(rng)));
    if length > 0 {
        bytes[1] = match letter_first {
            true => rng.pick(b"ASNRVPWFCHTZaz"),
            false => rng.pick(NOT_LETTERS),
        };
    }
    bytes
}

/// The end of a stream at which a start is still undecided.
pub fn undecided_end(rng: &mut Rng) -> Vec<u8> {
    let any = rng.below(LONGEST_BODY + 1);
    let length = rng.pick(&[0, 37, LONGEST_BODY, any]);
    let letter_first = rng.percent(50);
    waiting(rng, length, letter_first)
}
