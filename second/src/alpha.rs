//! The rules of Alpha 9500 sentences (family 2).

pub const SHORTEST_PAYLOAD: usize = 5;
pub const LONGEST_PAYLOAD: usize = 128;

/// Widths of the fields of sentences 02 and 03 (without 03's temperature).
pub const WIDTHS_02: [usize; 13] = [5, 3, 4, 4, 4, 3, 3, 3, 1, 1, 2, 1, 5];
pub const WIDTHS_03: [usize; 8] = [3, 3, 3, 3, 3, 4, 3, 1];

/// Places of the fields that have limits of their own.
pub const GRID_VOLTAGE: usize = 6;
pub const BAND: usize = 8;
pub const KEY: usize = 11;
pub const MAINS_TAP: usize = 7;

#[derive(Clone, PartialEq, Eq, Debug)]
pub enum Sentence {
    /// 02: the thirteen numbers in the order of the format line.
    Radio([u32; 13]),
    /// 03: eight numbers, then the temperature in tenths.
    Supplies([u32; 8], i32),
    /// 05: four bytes split into upper and lower nibble, then three bytes.
    Indicators([u8; 8], [u8; 3]),
    /// Any other number; its contents are not read.
    Other(u8),
}

impl Sentence {
    pub fn number(&self) -> u8 {
        match self {
            Sentence::Radio(_) => 2,
            Sentence::Supplies(_, _) => 3,
            Sentence::Indicators(_, _) => 5,
            Sentence::Other(number) => *number,
        }
    }
}

// ---------------------------------------------------------------- reading

/// The sentence that begins at the first of these bytes, with its length.
pub fn sentence_at_front(bytes: &[u8]) -> Option<(Sentence, usize)> {
    if bytes.first() != Some(&b'$') {
        return None;
    }
    let length = payload_run(&bytes[1..]);
    if !(SHORTEST_PAYLOAD..=LONGEST_PAYLOAD).contains(&length) {
        return None;
    }
    let payload = &bytes[1..1 + length];
    let end = &bytes[1 + length..];
    if end.len() < 5 || end[0] != b'*' || end[1..5] != check_digits(payload) {
        return None;
    }
    let sentence = read_payload(payload)?;
    Some((sentence, 1 + length + 5))
}

/// How many payload bytes stand here in a row. Counting one beyond the
/// longest payload is enough to know that it is too long.
fn payload_run(bytes: &[u8]) -> usize {
    bytes
        .iter()
        .take(LONGEST_PAYLOAD + 1)
        .take_while(|byte| is_payload_byte(**byte))
        .count()
}

fn is_payload_byte(byte: u8) -> bool {
    (0x20..=0x7E).contains(&byte) && byte != b'$' && byte != b'*'
}

/// The four digits behind the star: sum2, then sum1. Comparing text with text
/// is what makes lowercase digits wrong.
pub fn check_digits(payload: &[u8]) -> [u8; 4] {
    let mut sum1 = 0u8;
    let mut sum2 = 0u8;
    for byte in payload {
        sum1 = sum1.wrapping_add(*byte);
        sum2 = sum2.wrapping_add(sum1);
    }
    const DIGITS: &[u8; 16] = b"0123456789ABCDEF";
    let digit = |nibble: u8| DIGITS[usize::from(nibble)];
    [
        digit(sum2 >> 4),
        digit(sum2 & 15),
        digit(sum1 >> 4),
        digit(sum1 & 15),
    ]
}

/// `APA`, two digits, then nothing, or a comma and the fields.
fn read_payload(payload: &[u8]) -> Option<Sentence> {
    if &payload[..3] != b"APA" || !payload[3..5].iter().all(u8::is_ascii_digit) {
        return None;
    }
    let number = (payload[3] - b'0') * 10 + (payload[4] - b'0');
    let fields: Vec<&[u8]> = match payload.get(5) {
        None => Vec::new(),
        Some(b',') => payload[6..].split(|byte| *byte == b',').collect(),
        Some(_) => return None,
    };
    match number {
        2 => read_radio(&fields),
        3 => read_supplies(&fields),
        5 => read_indicators(&fields),
        other => Some(Sentence::Other(other)),
    }
}

fn read_radio(fields: &[&[u8]]) -> Option<Sentence> {
    if fields.len() != WIDTHS_02.len() {
        return None;
    }
    let mut numbers = [0u32; 13];
    for (place, number) in numbers.iter_mut().enumerate() {
        *number = read_decimal(fields[place], WIDTHS_02[place])?;
    }
    if numbers[GRID_VOLTAGE] > 255 || numbers[BAND] < 1 || numbers[KEY] > 1 {
        return None;
    }
    Some(Sentence::Radio(numbers))
}

fn read_supplies(fields: &[&[u8]]) -> Option<Sentence> {
    if fields.len() != WIDTHS_03.len() + 1 {
        return None;
    }
    let mut numbers = [0u32; 8];
    for (place, number) in numbers.iter_mut().enumerate() {
        *number = read_decimal(fields[place], WIDTHS_03[place])?;
    }
    if numbers[MAINS_TAP] < 1 || numbers[MAINS_TAP] > 5 {
        return None;
    }
    let temperature = read_temperature(fields[8])?;
    Some(Sentence::Supplies(numbers, temperature))
}

fn read_indicators(fields: &[&[u8]]) -> Option<Sentence> {
    if fields.len() != 7 {
        return None;
    }
    let mut nibbles = [0u8; 8];
    let mut numbers = [0u8; 3];
    for (place, field) in fields.iter().enumerate() {
        let byte = read_hexadecimal(field)?;
        if place < 4 {
            nibbles[2 * place] = byte >> 4;
            nibbles[2 * place + 1] = byte & 15;
        } else {
            numbers[place - 4] = byte;
        }
    }
    Some(Sentence::Indicators(nibbles, numbers))
}

/// One to `width` decimal digits and nothing else.
fn read_decimal(field: &[u8], width: usize) -> Option<u32> {
    if field.is_empty() || field.len() > width || !field.iter().all(u8::is_ascii_digit) {
        return None;
    }
    Some(
        field
            .iter()
            .fold(0, |value, digit| value * 10 + u32::from(digit - b'0')),
    )
}

/// A sign, one to three digits, a point and one digit, in tenths.
fn read_temperature(field: &[u8]) -> Option<i32> {
    if field.len() < 4 || field[field.len() - 2] != b'.' {
        return None;
    }
    let whole = read_decimal(&field[1..field.len() - 2], 3)?;
    let tenth = read_decimal(&field[field.len() - 1..], 1)?;
    let tenths = (whole * 10 + tenth) as i32;
    match field[0] {
        b'+' => Some(tenths),
        b'-' => Some(-tenths),
        _ => None,
    }
}

fn read_hexadecimal(field: &[u8]) -> Option<u8> {
    if field.len() != 2 {
        return None;
    }
    Some(hexadecimal_digit(field[0])? * 16 + hexadecimal_digit(field[1])?)
}

fn hexadecimal_digit(byte: u8) -> Option<u8> {
    match byte {
        b'0'..=b'9' => Some(byte - b'0'),
        b'A'..=b'F' => Some(byte - b'A' + 10),
        _ => None,
    }
}

// -------------------------------------------------------------- undecided

/// `$` and 0 to 128 payload bytes, perhaps a star and fewer than four bytes
/// of any value behind it. The payload's meaning is not looked at early.
pub fn start_is_undecided(bytes: &[u8]) -> bool {
    if bytes.first() != Some(&b'$') {
        return false;
    }
    let length = payload_run(&bytes[1..]);
    if length > LONGEST_PAYLOAD {
        return false;
    }
    let end = &bytes[1 + length..];
    end.is_empty() || (end[0] == b'*' && end.len() - 1 < 4)
}

// ---------------------------------------------------------------- writing

/// What the writer makes of a record; there is none for an "other".
pub fn write_sentence(sentence: &Sentence) -> Option<Vec<u8>> {
    let mut fields = Vec::new();
    match sentence {
        Sentence::Radio(numbers) => {
            fields.extend(numbers.iter().zip(WIDTHS_02).map(decimal_text));
        }
        Sentence::Supplies(numbers, temperature) => {
            fields.extend(numbers.iter().zip(WIDTHS_03).map(decimal_text));
            fields.push(temperature_text(*temperature));
        }
        Sentence::Indicators(nibbles, numbers) => {
            for pair in nibbles.chunks(2) {
                fields.push(format!("{:02X}", pair[0] << 4 | pair[1]));
            }
            fields.extend(numbers.iter().map(|number| format!("{:02X}", number)));
        }
        Sentence::Other(_) => return None,
    }
    let payload = format!("APA{:02},{}", sentence.number(), fields.join(","));
    Some(enclose_payload(payload.as_bytes()))
}

/// Puts the dollar sign before the payload, star and check digits behind it.
pub fn enclose_payload(payload: &[u8]) -> Vec<u8> {
    let mut frame = vec![b'$'];
    frame.extend_from_slice(payload);
    frame.push(b'*');
    frame.extend_from_slice(&check_digits(payload));
    frame
}

fn decimal_text((number, width): (&u32, usize)) -> String {
    format!("{:0width$}", number, width = width)
}

fn temperature_text(tenths: i32) -> String {
    let sign = if tenths < 0 { '-' } else { '+' };
    let size = tenths.abs();
    format!("{}{:03}.{}", sign, size / 10, size % 10)
}
