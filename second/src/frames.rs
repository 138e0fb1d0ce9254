//! The four families side by side: which frame begins at a place, whether a
//! start is undecided, and how a frame is shown.

use crate::{alpha, kpa, spe};

#[derive(Clone, Copy, PartialEq, Eq, Debug)]
pub enum Family {
    /// Family 1: packets from the SPE amplifier.
    SpeReplies,
    /// Family 2: sentences from the Alpha.
    Alpha,
    /// Family 3: packets from the host to the SPE amplifier.
    SpeCommands,
    /// Family 4: messages to and from the KPA1500.
    Kpa,
}

pub const FAMILIES: [Family; 4] = [
    Family::SpeReplies,
    Family::Alpha,
    Family::SpeCommands,
    Family::Kpa,
];

impl Family {
    /// The family named by an input's first byte.
    pub fn from_ascii(byte: u8) -> Option<Family> {
        match byte {
            b'1' => Some(Family::SpeReplies),
            b'2' => Some(Family::Alpha),
            b'3' => Some(Family::SpeCommands),
            b'4' => Some(Family::Kpa),
            _ => None,
        }
    }

    pub fn ascii(self) -> u8 {
        match self {
            Family::SpeReplies => b'1',
            Family::Alpha => b'2',
            Family::SpeCommands => b'3',
            Family::Kpa => b'4',
        }
    }
}

/// A capture or a script may not be longer than this.
pub const LONGEST_INPUT: usize = 65_536;

#[derive(Clone, PartialEq, Eq, Debug)]
pub enum Frame {
    Acknowledgement(u8),
    Status(spe::Status),
    Command(u8),
    Sentence(alpha::Sentence),
    Message(kpa::Message),
}

/// The good frame that begins at the first of these bytes, with its length.
/// Bytes behind the frame are of no concern.
pub fn frame_at_front(family: Family, bytes: &[u8]) -> Option<(Frame, usize)> {
    match family {
        Family::SpeReplies => {
            if let Some(code) = spe::acknowledgement_at_front(bytes) {
                return Some((Frame::Acknowledgement(code), spe::CODE_LENGTH));
            }
            let (status, length) = spe::status_at_front(bytes)?;
            Some((Frame::Status(status), length))
        }
        Family::Alpha => {
            let (sentence, length) = alpha::sentence_at_front(bytes)?;
            Some((Frame::Sentence(sentence), length))
        }
        Family::SpeCommands => {
            let code = spe::command_at_front(bytes)?;
            Some((Frame::Command(code), spe::CODE_LENGTH))
        }
        Family::Kpa => {
            let (message, length) = kpa::message_at_front(bytes)?;
            Some((Frame::Message(message), length))
        }
    }
}

/// Whether nothing can be said yet about a frame that would begin at the
/// first of these bytes. There must be at least one byte.
pub fn start_is_undecided(family: Family, bytes: &[u8]) -> bool {
    match family {
        Family::SpeReplies => spe::start_is_undecided(
            bytes,
            spe::AMPLIFIER_MARK,
            &[spe::CODE_COUNT, spe::STATUS_COUNT],
        ),
        Family::Alpha => alpha::start_is_undecided(bytes),
        Family::SpeCommands => spe::start_is_undecided(bytes, spe::HOST_MARK, &[spe::CODE_COUNT]),
        Family::Kpa => kpa::start_is_undecided(bytes),
    }
}

pub fn kind_text(frame: &Frame) -> String {
    match frame {
        Frame::Acknowledgement(code) => format!("ack {:02X}", code),
        Frame::Status(_) => "status".to_string(),
        Frame::Command(code) => format!("command {:02X}", code),
        Frame::Sentence(sentence) => format!("APA{:02}", sentence.number()),
        Frame::Message(message) => String::from_utf8_lossy(message.letters()).into_owned(),
    }
}

/// The values of a record as words; none for a frame without a record. A
/// question has the sign for one.
pub fn values(frame: &Frame) -> Vec<String> {
    match frame {
        Frame::Acknowledgement(_) | Frame::Command(_) => Vec::new(),
        Frame::Status(status) => status_values(status),
        Frame::Sentence(sentence) => sentence_values(sentence),
        Frame::Message(kpa::Message::Question(_)) => vec!["?".to_string()],
        Frame::Message(kpa::Message::Reply(_, numbers)) => {
            numbers.iter().map(u32::to_string).collect()
        }
        Frame::Message(kpa::Message::Other(_)) => Vec::new(),
    }
}

fn status_values(status: &spe::Status) -> Vec<String> {
    let letter = |byte: u8| char::from(byte).to_string();
    let mut words = vec![
        status.id.text().to_string(),
        letter(status.standby_or_operate),
        letter(status.receive_or_transmit),
        letter(status.bank),
        status.input.to_string(),
        status.band.to_string(),
        format!(
            "{}{}",
            status.transmit_antenna,
            letter(status.transmit_letter)
        ),
        status.receive_antenna.to_string(),
        letter(status.level),
    ];
    words.extend(status.numbers.iter().map(u16::to_string));
    words.push(letter(status.warning));
    words.push(letter(status.alarm));
    words.push(u8::from(status.comma).to_string());
    words
}

fn sentence_values(sentence: &alpha::Sentence) -> Vec<String> {
    match sentence {
        alpha::Sentence::Radio(numbers) => numbers.iter().map(u32::to_string).collect(),
        alpha::Sentence::Supplies(numbers, temperature) => {
            let mut words: Vec<String> = numbers.iter().map(u32::to_string).collect();
            words.push(temperature.to_string());
            words
        }
        alpha::Sentence::Indicators(nibbles, numbers) => {
            nibbles.iter().chain(numbers).map(u8::to_string).collect()
        }
        alpha::Sentence::Other(_) => Vec::new(),
    }
}

/// The bytes the writer makes of a frame's record or code. An "other" has
/// neither, so there is nothing to write.
pub fn written(frame: &Frame) -> Option<Vec<u8>> {
    match frame {
        Frame::Acknowledgement(code) => Some(spe::write_code(spe::AMPLIFIER_MARK, *code)),
        Frame::Command(code) => Some(spe::write_code(spe::HOST_MARK, *code)),
        Frame::Status(status) => Some(spe::write_status(status)),
        Frame::Sentence(sentence) => alpha::write_sentence(sentence),
        Frame::Message(message) => kpa::write_message(message),
    }
}
