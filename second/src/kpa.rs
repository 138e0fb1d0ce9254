//! The rules of KPA1500 messages (family 4). Both directions look alike: a
//! question goes to the amplifier, a reply comes from it.

pub const CARET: u8 = b'^';
pub const SEMICOLON: u8 = b';';

/// The most bytes between caret and semicolon, and the longest message.
pub const LONGEST_BODY: usize = 38;
pub const LONGEST_MESSAGE: usize = LONGEST_BODY + 2;

/// Numbers in a row, each with what stands before it and its count of digits.
pub type Fields = &'static [(&'static str, usize)];

const FOUR_DIGITS: Fields = &[("", 4)];
const FIVE_DIGITS: Fields = &[("", 5)];
const VERSION: Fields = &[("", 2), (".", 2)];
const CLOCK: Fields = &[("", 2), ("-", 2), ("-", 2), ("T", 2), (":", 2), (":", 2)];

/// Letters that are listed, with what stands behind them in a reply.
#[derive(PartialEq, Eq, Debug)]
pub struct Known {
    pub letters: &'static str,
    pub fields: Fields,
}

const fn known(letters: &'static str, fields: Fields) -> Known {
    Known { letters, fields }
}

/// FT alone has no fields: it is whole without anything behind it, and so is
/// never a question.
pub static KNOWN: [Known; 12] = [
    known("SN", FIVE_DIGITS),
    known("RV", VERSION),
    known("PWF", FOUR_DIGITS),
    known("PWI", FOUR_DIGITS),
    known("PWR", FOUR_DIGITS),
    known("PWD", FOUR_DIGITS),
    known("FR", FIVE_DIGITS),
    known("FQ", FIVE_DIGITS),
    known("FS", &[("", 1)]),
    known("HS", &[("", 1)]),
    known("CC", CLOCK),
    known("FT", &[]),
];

#[derive(Clone, PartialEq, Eq, Debug)]
pub enum Message {
    /// Listed letters with nothing behind them.
    Question(&'static Known),
    /// Listed letters with their numbers; FT has none.
    Reply(&'static Known, Vec<u32>),
    /// Other letters, as capitals. What stands behind them is not read.
    Other(Vec<u8>),
}

impl Message {
    pub fn letters(&self) -> &[u8] {
        match self {
            Message::Question(known) | Message::Reply(known, _) => known.letters.as_bytes(),
            Message::Other(letters) => letters,
        }
    }
}

impl Known {
    /// Whether there is a question with these letters.
    pub fn is_asked(&self) -> bool {
        !self.fields.is_empty()
    }

    /// Whether a reply can carry these numbers. That each fits its digits is
    /// looked at elsewhere.
    pub fn allows(&self, numbers: &[u32]) -> bool {
        match (self.letters, numbers) {
            ("FS", [speed]) => *speed <= 5,
            ("HS", [enabled]) => *enabled <= 1,
            ("CC", [year, month, day, hour, minute, second]) => {
                (1..=days_of(*year, *month)).contains(day)
                    && *hour <= 23
                    && *minute <= 59
                    && *second <= 59
            }
            _ => true,
        }
    }
}

/// The days of a month; none where there is no such month. From 2000 to 2099
/// every fourth year is a leap year, 2000 among them.
fn days_of(year: u32, month: u32) -> u32 {
    match month {
        1 | 3 | 5 | 7 | 8 | 10 | 12 => 31,
        4 | 6 | 9 | 11 => 30,
        2 if year % 4 == 0 => 29,
        2 => 28,
        _ => 0,
    }
}

// ---------------------------------------------------------------- reading

/// The message that begins at the first of these bytes, with its length.
pub fn message_at_front(bytes: &[u8]) -> Option<(Message, usize)> {
    let behind = bytes.strip_prefix(&[CARET])?;
    let length = body_run(behind);
    if length > LONGEST_BODY || behind.get(length) != Some(&SEMICOLON) {
        return None;
    }
    Some((read_body(&behind[..length])?, length + 2))
}

/// How many bytes in a row may stand between caret and semicolon. Counting one
/// beyond the most is enough to know that they are too many.
fn body_run(bytes: &[u8]) -> usize {
    bytes
        .iter()
        .take(LONGEST_BODY + 1)
        .take_while(|byte| is_body_byte(**byte))
        .count()
}

pub fn is_body_byte(byte: u8) -> bool {
    (0x20..=0x7E).contains(&byte) && byte != CARET && byte != SEMICOLON
}

/// The letters are the whole first run of them: what continues a listed name
/// by a letter makes another name of it.
fn read_body(body: &[u8]) -> Option<Message> {
    let run = body
        .iter()
        .take_while(|byte| byte.is_ascii_alphabetic())
        .count();
    if run == 0 {
        return None;
    }
    let (letters, rest) = body.split_at(run);
    let letters = letters.to_ascii_uppercase();
    let known = match KNOWN
        .iter()
        .find(|known| known.letters.as_bytes() == letters)
    {
        Some(known) => known,
        None => return Some(Message::Other(letters)),
    };
    if rest.is_empty() && known.is_asked() {
        return Some(Message::Question(known));
    }
    let numbers = read_fields(known.fields, rest)?;
    if known.allows(&numbers) {
        Some(Message::Reply(known, numbers))
    } else {
        None
    }
}

/// Each field in turn, and nothing behind the last.
fn read_fields(fields: Fields, text: &[u8]) -> Option<Vec<u32>> {
    let mut numbers = Vec::new();
    let mut rest = text;
    for (before, digits) in fields {
        rest = rest.strip_prefix(before.as_bytes())?;
        numbers.push(read_digits(rest.get(..*digits)?)?);
        rest = &rest[*digits..];
    }
    if rest.is_empty() {
        Some(numbers)
    } else {
        None
    }
}

fn read_digits(digits: &[u8]) -> Option<u32> {
    let mut number = 0;
    for digit in digits {
        if !digit.is_ascii_digit() {
            return None;
        }
        number = number * 10 + u32::from(digit - b'0');
    }
    Some(number)
}

// -------------------------------------------------------------- undecided

/// A caret and 0 to 38 bytes that may stand behind it. Whether the first is a
/// letter is not looked at early, on purpose: both programs have to agree on
/// when a start is given up.
pub fn start_is_undecided(bytes: &[u8]) -> bool {
    match bytes.strip_prefix(&[CARET]) {
        Some(behind) => {
            let length = body_run(behind);
            length <= LONGEST_BODY && length == behind.len()
        }
        None => false,
    }
}

// ---------------------------------------------------------------- writing

/// What the writer makes of a message; nothing of an "other", whose contents
/// are not kept.
pub fn write_message(message: &Message) -> Option<Vec<u8>> {
    let mut body = String::new();
    match message {
        Message::Question(known) => body.push_str(known.letters),
        Message::Reply(known, numbers) => {
            body.push_str(known.letters);
            for ((before, digits), number) in known.fields.iter().zip(numbers) {
                body.push_str(&format!("{}{:0digits$}", before, number, digits = *digits));
            }
        }
        Message::Other(_) => return None,
    }
    Some(enclose_body(body.as_bytes()))
}

/// Puts the caret before the body and the semicolon behind it.
pub fn enclose_body(body: &[u8]) -> Vec<u8> {
    let mut frame = vec![CARET];
    frame.extend_from_slice(body);
    frame.push(SEMICOLON);
    frame
}
