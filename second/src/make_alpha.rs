//! Makes Alpha sentences for tests: sound ones of every kind, and ones in
//! which exactly one rule is broken.

use crate::alpha::{check_digits, enclose_payload, LONGEST_PAYLOAD};
use crate::make_spe::edge_or_middle;
use crate::rng::Rng;

const WIDTHS_02: [usize; 13] = [5, 3, 4, 4, 4, 3, 3, 3, 1, 1, 2, 1, 5];
const WIDTHS_03: [usize; 8] = [3, 3, 3, 3, 3, 4, 3, 1];

/// Fields that break a rule of their own, separated by bars: the sentence's
/// number, the field's place from 0, the texts. An empty text is an empty
/// field.
const FIELD_BREAKAGES: &[(u8, usize, &str)] = &[
    (
        2,
        0,
        "|000000|100000| 1501|1501 |1501.|-1501|+1501|15O17|0x10|A|:",
    ),
    (2, 1, "|0010|1.0|01A| 10|-10|/10"),
    (2, 2, "|02590|259.0|2 90|-1"),
    (2, 3, "|03169|316g|+316"),
    (2, 4, "|00768|076 | "),
    (2, 5, "|0230|23.|A30"),
    (2, 6, "|0255|256|257|260|299|300|511|999|25.|FF|-1"),
    (2, 7, "|0057|57:|/57"),
    (2, 8, "|0|00|01|09|10|A| |:|-"),
    (2, 9, "|06|10|A| |-|:"),
    (2, 10, "|001|1 |A1|0A|-1"),
    (2, 11, "|2|3|9|00|01|A| |-"),
    (2, 12, "|015721|157210|1572.|1572 |F0000"),
    (3, 0, "|0499|4.99|4 9|-49"),
    (3, 1, "|0121|12.|A21"),
    (3, 2, "|0240|24O|+24"),
    (3, 3, "|0121|-12|12 "),
    (3, 4, "|0389|:89|38/"),
    (3, 5, "|02370|237.0| 237|23F0"),
    (3, 6, "|0000|00 |0x0"),
    (3, 7, "|0|6|7|8|9|05|00|A| |-"),
    (3, 8, "|028.0|28.0|+.0|-.0|+0028.0|+1000.0|+028"),
    (3, 8, "+0280|+028.|+028.00|+028:0| 028.0|+ 28.0|+28 .0"),
    (3, 8, "+-28.0|++28.0|=028.0|028.0+|+028.A|+02A.0|.0"),
    (3, 8, "+|-|+28.0 | +28.0|/28.0|+2.8.0|+:28.0"),
    (5, 0, "|1|111|1a|aA|G1|1G| 1|1 |0x|-1|:1|@1|1/"),
    (5, 1, "|8|018|b8|/8"),
    (5, 2, "|B|01B|1b|1:"),
    (5, 3, "|3|034|f4|3@"),
    (5, 4, "|0|000|0 |a0|G0"),
    (5, 5, "|A|02A|2a|2G"),
    (5, 6, "|1|001|0f| 1|01 "),
];

/// Wrong beginnings of a payload, each before a comma and further bytes.
const WRONG_NAMES: &[&str] = &[
    "APB99", "APa99", "apa99", "BPA99", "PAA99", " PA99", "AP 99", "APA9A", "APAA9", "APA 9",
    "APA9 ", "APA-1", "APA1.", "APA999", "APA020", "APA9", "APA", "APA:0", "APA0/", "XAPA9",
    "APA99;", "APA99 ", "APA990",
];

/// Bytes that no payload may hold.
const FORBIDDEN: &[u8] = &[0x1F, 0x7F, 0x80, 0x00, 0x0A, 0x0D, 0xA0, 0xFF, b'$', b'*'];

/// Wrong lengths: one byte short of the shortest, and beyond the longest.
const WRONG_LENGTHS: &[usize] = &[0, 1, 4, 129, 130, 131, 140, 200];

/// How many breakages `broken_shape` and `broken_frame` know.
const SHAPES: usize = 9;
const FRAMES: usize = 14;

// ------------------------------------------------------------------ sound

pub fn sound_sentence(rng: &mut Rng) -> Vec<u8> {
    let payload = match rng.below(5) {
        0 | 1 => sound_payload(rng, 2),
        2 => sound_payload(rng, 3),
        3 => sound_payload(rng, 5),
        _ => other_payload(rng),
    };
    enclose_payload(&payload)
}

fn sound_payload(rng: &mut Rng, number: u8) -> Vec<u8> {
    let fields = sound_fields(rng, number);
    payload_of(number, &fields)
}

fn payload_of(number: u8, fields: &[String]) -> Vec<u8> {
    format!("APA{:02},{}", number, fields.join(",")).into_bytes()
}

fn sound_fields(rng: &mut Rng, number: u8) -> Vec<String> {
    let form = rng.below(3);
    match number {
        2 => sound_fields_02(rng, form),
        3 => {
            let mut fields: Vec<String> = (0..7)
                .map(|place| sound_decimal(rng, form, 0, 9999, WIDTHS_03[place]))
                .collect();
            fields.push(rng.between(1, 5).to_string());
            fields.push(sound_temperature(rng, form));
            fields
        }
        _ => (0..7)
            .map(|_| {
                let random = rng.byte();
                format!(
                    "{:02X}",
                    rng.pick(&[0x00, 0x01, 0x0F, 0x10, 0x9A, 0xF0, 0xFF, random])
                )
            })
            .collect(),
    }
}

fn sound_fields_02(rng: &mut Rng, form: usize) -> Vec<String> {
    (0..13)
        .map(|place| {
            let (lowest, highest) = match place {
                6 => (0, 255),
                8 => (1, 9),
                11 => (0, 1),
                _ => (0, 99_999),
            };
            sound_decimal(rng, form, lowest, highest, WIDTHS_02[place])
        })
        .collect()
}

/// Form 0 has the full width, form 1 the fewest digits, form 2 any between.
fn sound_decimal(
    rng: &mut Rng,
    form: usize,
    lowest: usize,
    highest: usize,
    width: usize,
) -> String {
    let highest = highest.min([9, 99, 999, 9999, 99_999][width - 1]);
    let value = edge_or_middle(rng, highest).max(lowest);
    let text = value.to_string();
    let digits = match form {
        0 => width,
        1 => text.len(),
        _ => rng.between(text.len(), width),
    };
    format!("{:0>digits$}", text, digits = digits)
}

fn sound_temperature(rng: &mut Rng, form: usize) -> String {
    let whole = sound_decimal(rng, form, 0, 999, 3);
    format!(
        "{}{}.{}",
        rng.pick(&["+", "-"]),
        whole,
        rng.pick(&[0, 1, 5, 9])
    )
}

/// A sentence with a number that has no record; its length at the edges too.
fn other_payload(rng: &mut Rng) -> Vec<u8> {
    let random = rng.between(7, 60);
    let length = rng.pick(&[5, 6, 7, 8, 127, LONGEST_PAYLOAD, random]);
    filled_payload(rng, length)
}

/// `APAnn,` and text up to the wanted length, which may also be a wrong one.
/// Numbers beside those with a record come often.
fn filled_payload(rng: &mut Rng, length: usize) -> Vec<u8> {
    let random = rng.between(6, 99);
    let number = rng.pick(&[0, 1, 4, 6, 10, 12, 20, 30, 50, 98, 99, random]);
    let mut payload = format!("APA{:02},", number).into_bytes();
    while payload.len() < length {
        payload.push(text_byte(rng));
    }
    payload.truncate(length);
    payload
}

fn text_byte(rng: &mut Rng) -> u8 {
    match rng.below(3) {
        0 => rng.pick(b" ,.~!#%)+-"),
        1 => rng.pick(b"0123456789ABCDEF"),
        _ => loop {
            let byte = rng.between(0x20, 0x7E) as u8;
            if byte != b'$' && byte != b'*' {
                break byte;
            }
        },
    }
}

// ----------------------------------------------------------------- broken

/// Every breakage of a sentence once.
pub fn all_broken_sentences(rng: &mut Rng) -> Vec<Vec<u8>> {
    let mut frames = Vec::new();
    for (number, place, texts) in FIELD_BREAKAGES {
        for text in texts.split('|') {
            frames.push(sentence_with_field(rng, *number, *place, text));
        }
    }
    for number in [2, 3, 5] {
        frames.extend((0..SHAPES).map(|which| broken_shape(rng, number, which)));
    }
    frames.extend(WRONG_NAMES.iter().map(|name| sentence_with_name(name)));
    for length in WRONG_LENGTHS {
        frames.push(enclose_payload(&filled_payload(rng, *length)));
    }
    for byte in FORBIDDEN {
        frames.push(sentence_with_forbidden(rng, *byte));
    }
    frames.extend((0..FRAMES).map(|which| broken_frame(rng, which)));
    frames
}

/// One sentence with one rule broken, by chance.
pub fn broken_sentence(rng: &mut Rng) -> Vec<u8> {
    match rng.below(12) {
        0 | 1 => {
            let (number, which) = (rng.pick(&[2, 3, 5]), rng.below(SHAPES));
            broken_shape(rng, number, which)
        }
        2 => sentence_with_name(rng.pick(WRONG_NAMES)),
        3 => {
            let length = rng.pick(WRONG_LENGTHS);
            enclose_payload(&filled_payload(rng, length))
        }
        4 => {
            let byte = rng.pick(FORBIDDEN);
            sentence_with_forbidden(rng, byte)
        }
        5 | 6 => {
            let which = rng.below(FRAMES);
            broken_frame(rng, which)
        }
        _ => {
            let (number, place, texts) = rng.pick(FIELD_BREAKAGES);
            let texts: Vec<&str> = texts.split('|').collect();
            let text = rng.pick(&texts);
            sentence_with_field(rng, number, place, text)
        }
    }
}

fn sentence_with_field(rng: &mut Rng, number: u8, place: usize, text: &str) -> Vec<u8> {
    let mut fields = sound_fields(rng, number);
    fields[place] = text.to_string();
    enclose_payload(&payload_of(number, &fields))
}

fn sentence_with_name(name: &str) -> Vec<u8> {
    enclose_payload(format!("{},01,02", name).as_bytes())
}

fn sentence_with_forbidden(rng: &mut Rng, byte: u8) -> Vec<u8> {
    let mut payload = filled_payload(rng, 20);
    let place = rng.between(6, 19);
    payload[place] = byte;
    enclose_payload(&payload)
}

/// A sentence with a record whose row of fields is wrong.
fn broken_shape(rng: &mut Rng, number: u8, which: usize) -> Vec<u8> {
    let mut fields = sound_fields(rng, number);
    let any = rng.below(fields.len());
    match which {
        0 => {
            fields.pop();
        }
        1 => fields.push("00".to_string()),
        2 => fields.push(String::new()),
        3 => fields.insert(0, String::new()),
        4 => return enclose_payload(format!("APA{:02}", number).as_bytes()),
        5 => return enclose_payload(format!("APA{:02},", number).as_bytes()),
        6 => fields.insert(any, String::new()),
        7 => fields = vec![fields.join(";")],
        _ => {
            let mut payload = payload_of(number, &fields);
            payload[5] = b';';
            return enclose_payload(&payload);
        }
    }
    enclose_payload(&payload_of(number, &fields))
}

/// A sentence that is sound but for its first byte, star or check digits.
fn broken_frame(rng: &mut Rng, which: usize) -> Vec<u8> {
    let payload = payload_with_letters_in_sum(rng);
    let mut frame = enclose_payload(&payload);
    let end = frame.len();
    match which {
        0 => frame[end - 4..].make_ascii_lowercase(),
        // Such a payload has sums whose two bytes differ, see there.
        1 => frame[end - 4..].rotate_left(2),
        2 => frame[end - 1] = other_digit(frame[end - 1]),
        3 => frame[end - 2] = other_digit(frame[end - 2]),
        4 => frame[end - 3] = other_digit(frame[end - 3]),
        5 => frame[end - 4] = other_digit(frame[end - 4]),
        6 => frame[end - 4..].copy_from_slice(&printed_loop_digits(&payload)),
        7 => frame[end - 5] = rng.pick(b"#+ ,.\x2B\xAA"),
        8 => frame[0] = rng.pick(b"#!%&\xA4\x04"),
        9 => frame.truncate(end - 1),
        10 => frame[end - rng.between(1, 4)] = rng.pick(b"G @/:` "),
        11 => {
            frame.remove(end - 5);
        }
        12 => frame.insert(end - 4, b'*'),
        _ => frame.insert(end - 4, b' '),
    }
    frame
}

/// Lowercase digits or exchanged sums only break a sentence whose sums hold a
/// letter and differ.
fn payload_with_letters_in_sum(rng: &mut Rng) -> Vec<u8> {
    loop {
        let number = rng.pick(&[2, 3, 5]);
        let payload = sound_payload(rng, number);
        let digits = check_digits(&payload);
        let letters = digits.iter().any(u8::is_ascii_uppercase);
        if letters && digits[..2] != digits[2..] && digits != printed_loop_digits(&payload) {
            return payload;
        }
    }
}

fn other_digit(digit: u8) -> u8 {
    if digit == b'0' {
        b'1'
    } else {
        b'0'
    }
}

/// The sums by the source document's printed loop, which forgets to add.
fn printed_loop_digits(payload: &[u8]) -> [u8; 4] {
    let sum1 = payload[payload.len() - 1];
    let sum2 = payload
        .iter()
        .fold(0u8, |sum, byte| sum.wrapping_add(*byte));
    let text = format!("{:02X}{:02X}", sum2, sum1);
    let mut digits = [0u8; 4];
    digits.copy_from_slice(text.as_bytes());
    digits
}

/// Changes one payload byte and makes the sums right again, so that only the
/// rules of payload and fields stand between it and the panel.
pub fn changed_and_resealed(rng: &mut Rng) -> Vec<u8> {
    let number = rng.pick(&[2, 3, 5]);
    let mut payload = sound_payload(rng, number);
    let place = rng.below(payload.len());
    payload[place] = match rng.below(4) {
        0 => rng.byte(),
        1 => payload[place] ^ (1 << rng.below(8)),
        2 => rng.pick(b",0123456789"),
        _ => rng.pick(b"+-. ABCDEFabcdef"),
    };
    enclose_payload(&payload)
}
