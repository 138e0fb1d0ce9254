//! Frames as rows of numbers, the way the archive's header lays them out, and
//! back: which kind, code and values stand for a frame that can be written.

use crate::alpha::{self, Sentence, WIDTHS_02, WIDTHS_03};
use crate::amp::*;
use crate::frames::Frame;
use crate::kpa::{Known, Message, KNOWN};
use crate::spe::{self, Id, Status, COMMAND_CODES, DECIMALS, STATUS_CODE};

/// Kind, code and values of a frame.
pub struct Entry {
    pub kind: u32,
    pub code: u32,
    pub values: Vec<i64>,
}

/// Where a frame was found; all zero for a frame read by itself.
#[derive(Clone, Copy, Default)]
pub struct Found {
    pub taken: usize,
    pub start: u32,
    pub skipped: u32,
}

// ------------------------------------------------------------ to a row

pub fn entry_of(frame: &Frame) -> Entry {
    let (kind, code, values) = match frame {
        Frame::Acknowledgement(code) => (AMP_ACK, u32::from(*code), Vec::new()),
        Frame::Command(code) => (AMP_COMMAND, u32::from(*code), Vec::new()),
        Frame::Status(status) => (AMP_STATUS, 0, status_values(status)),
        Frame::Sentence(sentence) => {
            let number = u32::from(sentence.number());
            (AMP_SENTENCE, number, sentence_values(sentence))
        }
        Frame::Message(message) => return message_entry(message),
    };
    Entry { kind, code, values }
}

fn message_entry(message: &Message) -> Entry {
    let (kind, code, values) = match message {
        Message::Question(known) => (AMP_QUESTION, code_of(known), Vec::new()),
        Message::Reply(known, numbers) => {
            let values = numbers.iter().map(|number| i64::from(*number)).collect();
            (AMP_RESPONSE, code_of(known), values)
        }
        Message::Other(letters) => (AMP_OTHER, 0, letter_values(letters)),
    };
    Entry { kind, code, values }
}

/// Letters as one number, the first the highest.
fn letters_number(letters: &[u8]) -> u32 {
    letters
        .iter()
        .fold(0, |number, letter| number << 8 | u32::from(*letter))
}

pub fn code_of(known: &Known) -> u32 {
    letters_number(known.letters.as_bytes())
}

/// Four letters to a value, and always as many values as the most letters
/// need.
fn letter_values(letters: &[u8]) -> Vec<i64> {
    let mut values: Vec<i64> = letters
        .chunks(4)
        .map(|four| i64::from(letters_number(four)))
        .collect();
    values.resize(AMP_OTHER_VALUES, 0);
    values
}

/// The whole row of a frame; how long it is, is also how long it has to be.
pub fn frame_row(frame: &Frame, found: Found, length: usize) -> Vec<i64> {
    let entry = entry_of(frame);
    let mut row = vec![
        i64::from(entry.kind),
        i64::from(entry.code),
        found.taken as i64,
        i64::from(found.start),
        i64::from(found.skipped),
        length as i64,
    ];
    row.extend(entry.values);
    row
}

/// The row of an answer without a frame.
pub fn bare_row(kind: u32, taken: usize) -> Vec<i64> {
    vec![i64::from(kind), 0, taken as i64, 0, 0, 0]
}

fn status_values(status: &Status) -> Vec<i64> {
    let id = match status.id {
        Id::Expert20K => 20,
        Id::Expert13K => 13,
    };
    let mut values = vec![
        id,
        i64::from(status.standby_or_operate),
        i64::from(status.receive_or_transmit),
        i64::from(status.bank),
        i64::from(status.input),
        i64::from(status.band),
        i64::from(status.transmit_antenna),
        i64::from(status.transmit_letter),
        i64::from(status.receive_antenna),
        i64::from(status.level),
    ];
    values.extend(status.numbers.iter().map(|number| i64::from(*number)));
    values.push(i64::from(status.warning));
    values.push(i64::from(status.alarm));
    values.push(i64::from(status.comma));
    values
}

fn sentence_values(sentence: &Sentence) -> Vec<i64> {
    match sentence {
        Sentence::Radio(numbers) => numbers.iter().map(|number| i64::from(*number)).collect(),
        Sentence::Supplies(numbers, temperature) => numbers
            .iter()
            .map(|number| i64::from(*number))
            .chain([i64::from(*temperature)])
            .collect(),
        Sentence::Indicators(nibbles, numbers) => nibbles
            .iter()
            .chain(numbers)
            .map(|number| i64::from(*number))
            .collect(),
        Sentence::Other(_) => Vec::new(),
    }
}

// ---------------------------------------------------------- from a row

/// The frame that kind, code and values stand for, or the number of the
/// refusal. Only codes of packets have a number of their own. Other letters
/// have no writer, so their rows are refused like those of no kind.
pub fn frame_of(kind: u32, code: u32, values: &[i64]) -> Result<Frame, u32> {
    match kind {
        AMP_ACK => packet_code(code)
            .filter(|code| *code != STATUS_CODE)
            .map(Frame::Acknowledgement)
            .ok_or(AMP_NO_CODE),
        AMP_COMMAND => packet_code(code).map(Frame::Command).ok_or(AMP_NO_CODE),
        // A report has no code: a number in its place is not looked at.
        AMP_STATUS => status_of(values).map(Frame::Status).ok_or(AMP_NO_RECORD),
        AMP_SENTENCE => sentence_of(code, values)
            .map(Frame::Sentence)
            .ok_or(AMP_NO_RECORD),
        AMP_QUESTION => question_of(code).map(Frame::Message).ok_or(AMP_NO_RECORD),
        AMP_RESPONSE => reply_of(code, values)
            .map(Frame::Message)
            .ok_or(AMP_NO_RECORD),
        _ => Err(AMP_NO_RECORD),
    }
}

fn packet_code(code: u32) -> Option<u8> {
    let code = u8::try_from(code).ok()?;
    Some(code).filter(|code| COMMAND_CODES.contains(code))
}

fn within(value: i64, lowest: i64, highest: i64) -> Option<i64> {
    Some(value).filter(|value| (lowest..=highest).contains(value))
}

fn small(value: i64, lowest: u8, highest: u8) -> Option<u8> {
    within(value, i64::from(lowest), i64::from(highest)).map(|value| value as u8)
}

fn letter(value: i64, allowed: &[u8]) -> Option<u8> {
    let byte = small(value, 0, 255)?;
    Some(byte).filter(|byte| allowed.contains(byte))
}

fn status_of(values: &[i64]) -> Option<Status> {
    let values = values.get(..AMP_STATUS_VALUES)?;
    let id = match values[AMP_STATUS_ID] {
        20 => Id::Expert20K,
        13 => Id::Expert13K,
        _ => return None,
    };
    let mut numbers = [0u16; 8];
    for (place, number) in numbers.iter_mut().enumerate() {
        let value = values[AMP_STATUS_WATTS + place];
        *number = within(value, 0, highest_number(id, place))? as u16;
    }
    let antenna = |place: usize| small(values[place], 0, id.highest_antenna());
    Some(Status {
        id,
        standby_or_operate: letter(values[AMP_STATUS_STATE], b"SO")?,
        receive_or_transmit: letter(values[AMP_STATUS_DIRECTION], b"RT")?,
        bank: letter(values[AMP_STATUS_BANK], id.banks())?,
        input: small(values[AMP_STATUS_INPUT], 1, 2)?,
        band: small(values[AMP_STATUS_BAND], 0, id.highest_band())?,
        transmit_antenna: antenna(AMP_STATUS_TRANSMIT)?,
        transmit_letter: letter(values[AMP_STATUS_TUNER], b"tba")?,
        receive_antenna: antenna(AMP_STATUS_RECEIVE)?,
        level: letter(values[AMP_STATUS_LEVEL], b"LMH")?,
        numbers,
        warning: letter(values[AMP_STATUS_WARNING], spe::WARNINGS)?,
        alarm: letter(values[AMP_STATUS_ALARM], spe::ALARMS)?,
        comma: small(values[AMP_STATUS_COMMA], 0, 1)? == 1,
    })
}

/// The highest count that fits one of fields 10 to 17. A point takes one of
/// the field's places; the smaller amplifier has one temperature only.
fn highest_number(id: Id, place: usize) -> i64 {
    if id == Id::Expert13K && place >= 6 {
        return 0;
    }
    let point = usize::from(DECIMALS[place] > 0);
    nines(spe::WIDTHS[9 + place] - point)
}

fn nines(digits: usize) -> i64 {
    10i64.pow(digits as u32) - 1
}

fn known_of(code: u32) -> Option<&'static Known> {
    KNOWN.iter().find(|known| code_of(known) == code)
}

fn question_of(code: u32) -> Option<Message> {
    known_of(code)
        .filter(|known| known.is_asked())
        .map(Message::Question)
}

fn reply_of(code: u32, values: &[i64]) -> Option<Message> {
    let known = known_of(code)?;
    let values = values.get(..known.fields.len())?;
    let mut numbers = Vec::new();
    for ((_, digits), value) in known.fields.iter().zip(values) {
        numbers.push(within(*value, 0, nines(*digits))? as u32);
    }
    if known.allows(&numbers) {
        Some(Message::Reply(known, numbers))
    } else {
        None
    }
}

fn sentence_of(code: u32, values: &[i64]) -> Option<Sentence> {
    match code {
        2 => radio_of(values.get(..AMP_02_VALUES)?),
        3 => supplies_of(values.get(..AMP_03_VALUES)?),
        5 => indicators_of(values.get(..AMP_05_VALUES)?),
        _ => None,
    }
}

fn radio_of(values: &[i64]) -> Option<Sentence> {
    let mut numbers = [0u32; 13];
    for (place, number) in numbers.iter_mut().enumerate() {
        let (lowest, highest) = match place {
            alpha::GRID_VOLTAGE => (0, 255),
            alpha::BAND => (1, 9),
            alpha::KEY => (0, 1),
            _ => (0, nines(WIDTHS_02[place])),
        };
        *number = within(values[place], lowest, highest)? as u32;
    }
    Some(Sentence::Radio(numbers))
}

fn supplies_of(values: &[i64]) -> Option<Sentence> {
    let mut numbers = [0u32; 8];
    for (place, number) in numbers.iter_mut().enumerate() {
        let (lowest, highest) = match place {
            alpha::MAINS_TAP => (1, 5),
            _ => (0, nines(WIDTHS_03[place])),
        };
        *number = within(values[place], lowest, highest)? as u32;
    }
    let temperature = within(values[AMP_03_TEMP], -nines(4), nines(4))? as i32;
    Some(Sentence::Supplies(numbers, temperature))
}

fn indicators_of(values: &[i64]) -> Option<Sentence> {
    let mut nibbles = [0u8; 8];
    let mut numbers = [0u8; 3];
    for (place, nibble) in nibbles.iter_mut().enumerate() {
        *nibble = small(values[place], 0, 15)?;
    }
    for (place, number) in numbers.iter_mut().enumerate() {
        *number = small(values[8 + place], 0, 255)?;
    }
    Some(Sentence::Indicators(nibbles, numbers))
}
