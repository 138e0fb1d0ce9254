//! What a call must come to by this program's own rules, with every refusal
//! and every place of lent memory.

use crate::amp::*;
use crate::calls::{Call, Lent, Outcome};
use crate::frames::{frame_at_front, written, Family, Frame, LONGEST_INPUT};
use crate::listing::list_frames;
use crate::rows::{bare_row, frame_of, frame_row, Found};
use crate::stream::{Answer, Reader};
use crate::{kpa, spe};

/// The three bytes that enable the Alpha.
const ENABLE: &[u8] = b"+++";

pub fn answer(call: &Call) -> Outcome {
    let before = call.untouched();
    let after = match call {
        Call::Fresh { family, .. } => fresh(*family, &before),
        Call::Feed {
            reader,
            offered,
            row,
        } => feed(reader, offered, row, &before),
        Call::Close { reader } => close(reader, &before),
        Call::Read { family, bytes, row } => read(*family, bytes, row, &before),
        Call::List {
            family,
            capture,
            starts,
            ..
        } => list(*family, capture, starts, &before),
        Call::Next { .. } => return next(call, before),
        Call::Write {
            kind,
            code,
            values,
            out,
            ..
        } => frame_of(*kind, *code, values)
            .and_then(|frame| lay_bytes(&bytes_of(&frame), out, &before)),
        Call::Enable { out, .. } => lay_bytes(ENABLE, out, &before),
        Call::Order { a, b } => return order(*a, *b),
    };
    after.unwrap_or_else(|refusal| Outcome {
        number: refusal as usize,
        ..before
    })
}

pub fn family_of(number: u32) -> Result<Family, u32> {
    match number {
        1 => Ok(Family::SpeReplies),
        2 => Ok(Family::Alpha),
        3 => Ok(Family::SpeCommands),
        4 => Ok(Family::Kpa),
        _ => Err(AMP_NO_FAMILY),
    }
}

/// A reader waits for the last byte of its longest frame at most.
pub fn most_held(family: Family) -> usize {
    match family {
        Family::SpeReplies => spe::COMMA_LENGTH - 1,
        Family::Alpha => 133,
        Family::SpeCommands => 5,
        Family::Kpa => kpa::LONGEST_MESSAGE - 1,
    }
}

// --------------------------------------------------------------- streams

fn fresh(family: u32, before: &Outcome) -> Result<Outcome, u32> {
    let reader = Reader::fresh(family_of(family)?);
    Ok(Outcome {
        reader: Some(state_of(&reader)),
        ..before.clone()
    })
}

fn close(reader: &AmpReader, before: &Outcome) -> Result<Outcome, u32> {
    let mut reader = reader_of(reader)?;
    reader.close();
    Ok(Outcome {
        reader: Some(state_of(&reader)),
        ..before.clone()
    })
}

fn feed(
    reader: &AmpReader,
    offered: &[u8],
    row: &Lent<i64>,
    before: &Outcome,
) -> Result<Outcome, u32> {
    let closed = reader.closed;
    let mut reader = reader_of(reader)?;
    let laid = match reader.call(offered) {
        Answer::Refused(number) => return Err(u32::from(number)),
        Answer::More { taken } => bare_row(AMP_MORE, taken),
        Answer::Done { taken } => bare_row(AMP_DONE, taken),
        Answer::Frame(found) => {
            let place = Found {
                taken: found.taken,
                start: found.start,
                skipped: found.skipped,
            };
            frame_row(&found.frame, place, found.length)
        }
    };
    let after = lay_row(&laid, row, before)?;
    // A call leaves the number that says whether the reader is closed.
    let state = AmpReader {
        closed,
        ..state_of(&reader)
    };
    Ok(Outcome {
        reader: Some(state),
        ..after
    })
}

/// This program's reader in the given state, refused if there is no such.
fn reader_of(state: &AmpReader) -> Result<Reader, u32> {
    let family = family_of(u32::from(state.family))?;
    let count = usize::from(state.count);
    if count > most_held(family) {
        return Err(AMP_HOLDS_TOO_MUCH);
    }
    Ok(Reader {
        family,
        held: state.held[..count].to_vec(),
        place: state.at,
        skipped: state.skipped,
        closed: state.closed != 0,
    })
}

fn state_of(reader: &Reader) -> AmpReader {
    assert!(reader.held.len() <= most_held(reader.family));
    let mut held = [0; 133];
    held[..reader.held.len()].copy_from_slice(&reader.held);
    AmpReader {
        family: reader.family.ascii() - b'0',
        closed: u8::from(reader.closed),
        count: reader.held.len() as u8,
        held,
        at: reader.place,
        skipped: reader.skipped,
    }
}

// --------------------------------------------------- frames and captures

fn read(family: u32, bytes: &[u8], row: &Lent<i64>, before: &Outcome) -> Result<Outcome, u32> {
    match frame_at_front(family_of(family)?, bytes) {
        Some((frame, length)) if length == bytes.len() => {
            lay_row(&frame_row(&frame, Found::default(), length), row, before)
        }
        _ => Err(AMP_NOT_GOOD),
    }
}

fn list(family: u32, capture: &[u8], starts: &Lent<u32>, before: &Outcome) -> Result<Outcome, u32> {
    let family = family_of(family)?;
    if capture.len() > LONGEST_INPUT {
        return Err(AMP_TOO_LONG);
    }
    let listed = list_frames(family, capture);
    if starts.room < listed.len() {
        return Err(AMP_NO_ROOM);
    }
    let mut after = before.clone();
    for (place, line) in after.starts.iter_mut().zip(&listed) {
        *place = line.start as u32;
    }
    after.size = Some(listed.len());
    Ok(after)
}

/// Nothing found, a refusal and a place beyond the end look alike here.
fn next(call: &Call, before: Outcome) -> Outcome {
    let (family, capture, place, reports) = match call {
        Call::Next {
            family,
            capture,
            place,
            reports,
            ..
        } => (*family, capture, *place, *reports),
        _ => return before,
    };
    match (family_of(family), capture.get(place..)) {
        (Ok(family), Some(rest)) if capture.len() <= LONGEST_INPUT => {
            match first_frame(family, rest, reports != 0) {
                Some((start, length)) => Outcome {
                    number: length,
                    size: Some(place + start),
                    ..before
                },
                None => before,
            }
        }
        _ => before,
    }
}

/// Start and length of the first frame, or of the first report. What is no
/// report is passed over as a whole.
fn first_frame(family: Family, bytes: &[u8], only_reports: bool) -> Option<(usize, usize)> {
    let mut place = 0;
    while place < bytes.len() {
        place += match frame_at_front(family, &bytes[place..]) {
            Some((Frame::Status(_), length)) => return Some((place, length)),
            Some((_, length)) if !only_reports => return Some((place, length)),
            Some((_, length)) => length,
            None => 1,
        };
    }
    None
}

fn order(a: u32, b: u32) -> Outcome {
    let number = match b.wrapping_sub(a) {
        0 => AMP_EQUAL,
        1..=0x7FFF_FFFF => AMP_EARLIER,
        0x8000_0000 => AMP_CANNOT_SAY,
        _ => AMP_LATER,
    };
    Outcome {
        number: number as usize,
        ..Outcome::default()
    }
}

// ----------------------------------------------------------- lent memory

/// A frame that came from a row in range always has a writer, and what it
/// writes reads back as the same frame.
fn bytes_of(frame: &Frame) -> Vec<u8> {
    let bytes = written(frame).expect("a frame from a row is written");
    let family = match frame {
        Frame::Acknowledgement(_) | Frame::Status(_) => Family::SpeReplies,
        Frame::Sentence(_) => Family::Alpha,
        Frame::Command(_) => Family::SpeCommands,
        Frame::Message(_) => Family::Kpa,
    };
    let again = frame_at_front(family, &bytes);
    assert_eq!(again, Some((frame.clone(), bytes.len())));
    bytes
}

fn lay_row(laid: &[i64], row: &Lent<i64>, before: &Outcome) -> Result<Outcome, u32> {
    if row.room < laid.len() {
        return Err(AMP_NO_ROOM);
    }
    let mut after = before.clone();
    after.row[..laid.len()].copy_from_slice(laid);
    Ok(after)
}

fn lay_bytes(laid: &[u8], out: &Lent<u8>, before: &Outcome) -> Result<Outcome, u32> {
    if out.room < laid.len() {
        return Err(AMP_NO_ROOM);
    }
    let mut after = before.clone();
    after.bytes[..laid.len()].copy_from_slice(laid);
    after.size = Some(laid.len());
    Ok(after)
}
