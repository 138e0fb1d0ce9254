//! Puts test streams together from pieces: sound frames, frames with one rule
//! broken, damaged frames, clicks, rubbish, runs, and frames that begin
//! inside others.

use crate::alpha::{check_digits, enclose_payload};
use crate::frames::{Family, FAMILIES};
use crate::kpa::CARET;
use crate::rng::Rng;
use crate::spe::{check_bytes, enclose_data, needed_bytes, write_code};
use crate::spe::{AMPLIFIER_MARK, BEHIND_CHECK, CODE_COUNT, HOST_MARK};
use crate::spe::{COMMA_LENGTH, PLAIN_LENGTH, STATUS_COUNT, STATUS_DATA};
use crate::{make_alpha, make_comma, make_kpa, make_spe, spoil_kpa};

/// A stream of at least `length` bytes, longer by no more than two pieces.
pub fn stream(family: Family, rng: &mut Rng, length: usize) -> Vec<u8> {
    let mut bytes = Vec::new();
    // Some streams are mostly sound, so that long rows of frames occur, and
    // some hold hardly a sound frame.
    let sound_share = rng.pick(&[10, 30, 30, 70, 95]);
    while bytes.len() < length {
        if rng.percent(sound_share) {
            bytes.extend(sound_frame(family, rng));
        } else {
            bytes.extend(piece(family, rng));
        }
    }
    if rng.percent(30) {
        bytes.extend(undecided_end(family, rng));
    }
    bytes
}

/// Every breakage once, now and then with a sound frame between. What is not
/// good must not keep the frame behind it from being found.
pub fn catalogue(family: Family, rng: &mut Rng) -> Vec<u8> {
    let broken = match family {
        Family::SpeReplies => make_spe::all_broken_replies(rng),
        Family::Alpha => make_alpha::all_broken_sentences(rng),
        Family::SpeCommands => make_spe::all_broken_commands(rng),
        Family::Kpa => spoil_kpa::all_broken_messages(rng),
    };
    let mut bytes = every_code_or_number(family);
    for frame in broken {
        bytes.extend(frame);
        if rng.percent(10) {
            bytes.extend(sound_frame(family, rng));
        }
    }
    bytes
}

/// Frames at whose ends a reader may slip, each for itself: whole, and cut
/// before one of the last bytes with a sound frame right behind; of reports
/// also whatever can go wrong around the comma, of messages also starts that
/// wait as long as can be.
pub fn ends(family: Family, rng: &mut Rng) -> Vec<Vec<u8>> {
    let mut all = Vec::new();
    for missing in 0..6 {
        for _ in 0..2 {
            let mut frame = sound_frame(family, rng);
            frame.truncate(frame.len().saturating_sub(missing));
            frame.extend(sound_frame(family, rng));
            all.push(frame);
        }
    }
    match family {
        Family::SpeReplies => {
            all.push(make_comma::RECORDED.to_vec());
            all.extend(make_comma::all_broken_commas(rng));
        }
        Family::Kpa => all.extend(make_kpa::all_long_starts(rng)),
        Family::Alpha | Family::SpeCommands => {}
    }
    all
}

/// The frames of `ends` in a row, some with bytes between that decide every
/// start before them. The last one's end is also the stream's.
pub fn row_of_ends(family: Family, rng: &mut Rng) -> Vec<u8> {
    let mut bytes = Vec::new();
    for frame in ends(family, rng) {
        bytes.extend(frame);
        bytes.extend(between_ends(family, rng));
    }
    let mut last = match family {
        Family::SpeReplies => enclose_data(&make_spe::sound_data(rng), true),
        _ => sound_frame(family, rng),
    };
    last.pop();
    bytes.extend(last);
    bytes
}

pub fn between_ends(family: Family, rng: &mut Rng) -> Vec<u8> {
    match rng.below(3) {
        0 => vec![0; COMMA_LENGTH],
        1 => sound_frame(family, rng),
        _ => Vec::new(),
    }
}

/// Each of the 256 possible codes, or each sentence number with no fields, or
/// each pair of letters.
fn every_code_or_number(family: Family) -> Vec<u8> {
    match family {
        Family::Alpha => (0..100)
            .flat_map(|number| enclose_payload(format!("APA{:02}", number).as_bytes()))
            .collect(),
        Family::Kpa => make_kpa::letters_and_days(),
        Family::SpeReplies | Family::SpeCommands => (0..=255)
            .flat_map(|code| write_code(mark_of(family), code))
            .collect(),
    }
}

/// A sound frame again and again, one of its bytes taking every value in
/// turn. The check bytes follow it, so that no other rule is broken.
pub fn byte_sweep(family: Family, rng: &mut Rng) -> Vec<u8> {
    let sound = sound_frame(family, rng);
    let place = rng.below(sound.len());
    let mut bytes = Vec::new();
    for value in 0..=255 {
        let mut frame = sound.clone();
        frame[place] = value;
        reseal(family, &mut frame, place);
        bytes.extend(frame);
    }
    bytes
}

/// Makes the check of a frame right again after a change at `place`, unless
/// the change was outside of what is checked. Messages have no check.
fn reseal(family: Family, frame: &mut [u8], place: usize) {
    let length = frame.len();
    if family == Family::Kpa {
        return;
    }
    if family == Family::Alpha {
        if (1..length - 5).contains(&place) {
            let digits = check_digits(&frame[1..length - 5]);
            frame[length - 4..].copy_from_slice(&digits);
        }
    } else if length >= PLAIN_LENGTH {
        if (4..4 + STATUS_DATA).contains(&place) {
            let sums = check_bytes(&frame[4..4 + STATUS_DATA]);
            frame[71..73].copy_from_slice(&sums);
        }
    } else if place == 4 {
        frame[5] = frame[4];
    }
}

pub fn sound_frame(family: Family, rng: &mut Rng) -> Vec<u8> {
    match family {
        Family::SpeReplies if rng.percent(45) => make_spe::sound_acknowledgement(rng),
        Family::SpeReplies => make_spe::sound_report(rng),
        Family::Alpha => make_alpha::sound_sentence(rng),
        Family::SpeCommands => make_spe::sound_command(rng),
        Family::Kpa => make_kpa::sound_message(rng),
    }
}

fn broken_frame(family: Family, rng: &mut Rng) -> Vec<u8> {
    match family {
        Family::SpeReplies => make_spe::broken_reply(rng),
        Family::Alpha => make_alpha::broken_sentence(rng),
        Family::SpeCommands => make_spe::broken_command(rng),
        Family::Kpa => spoil_kpa::broken_message(rng),
    }
}

/// Anything but a plain sound frame.
pub fn piece(family: Family, rng: &mut Rng) -> Vec<u8> {
    match rng.below(20) {
        0..=6 => broken_frame(family, rng),
        7 | 8 => damaged_frame(family, rng),
        9 | 10 => changed_and_resealed(family, rng),
        11 | 12 => click_in_length(family, rng),
        13 => rubbish(family, rng),
        14 => run(rng),
        15..=17 => frame_inside_frame(family, rng),
        18 => shortened_frame(family, rng),
        _ => foreign_frame(family, rng),
    }
}

fn mark_of(family: Family) -> u8 {
    match family {
        Family::SpeReplies => AMPLIFIER_MARK,
        Family::Alpha => b'$',
        Family::SpeCommands => HOST_MARK,
        Family::Kpa => CARET,
    }
}

/// A sound frame with one byte changed, dropped, doubled or inserted.
fn damaged_frame(family: Family, rng: &mut Rng) -> Vec<u8> {
    let mut frame = sound_frame(family, rng);
    let place = rng.below(frame.len());
    let stray = telling_byte(family, rng);
    match rng.below(5) {
        0 => frame[place] = stray,
        1 => frame[place] ^= 1 << rng.below(8),
        2 => {
            frame.remove(place);
        }
        3 => frame.insert(place, frame[place]),
        _ => frame.insert(place, stray),
    }
    frame
}

fn changed_and_resealed(family: Family, rng: &mut Rng) -> Vec<u8> {
    match family {
        Family::SpeReplies => make_spe::changed_and_resealed(rng),
        Family::Alpha => make_alpha::changed_and_resealed(rng),
        Family::SpeCommands => {
            let code = rng.byte();
            vec![HOST_MARK, HOST_MARK, HOST_MARK, CODE_COUNT, code, code]
        }
        Family::Kpa => spoil_kpa::changed_message(rng),
    }
}

/// The trouble of the evening in standby: a wrong count makes sound frames
/// look like contents. A sentence has no count; there its star is struck, and
/// of a message the semicolon.
fn click_in_length(family: Family, rng: &mut Rng) -> Vec<u8> {
    let mut frame = sound_frame(family, rng);
    let counts = [
        0x00,
        CODE_COUNT,
        0x02,
        0x42,
        STATUS_COUNT,
        STATUS_COUNT,
        0x44,
        0xFF,
    ];
    let place = match family {
        Family::Alpha => frame.len() - 5,
        Family::Kpa => frame.len() - 1,
        Family::SpeReplies | Family::SpeCommands => 3,
    };
    frame[place] = match family {
        Family::Alpha => rng.pick(b"+, \x0A\x2B\xAA"),
        Family::Kpa => rng.pick(b":3, \x0A\x1B\xBB"),
        Family::SpeReplies | Family::SpeCommands => rng.pick(&counts),
    };
    for _ in 0..rng.between(1, 4) {
        frame.extend(sound_frame(family, rng));
    }
    frame
}

/// A byte that means something to the reader, or any byte.
fn telling_byte(family: Family, rng: &mut Rng) -> u8 {
    let any = rng.byte();
    let mark = mark_of(family);
    rng.pick(&[
        mark,
        mark,
        mark,
        CODE_COUNT,
        STATUS_COUNT,
        0x0D,
        0x0A,
        b'$',
        b'*',
        b',',
        b' ',
        b'^',
        b';',
        any,
    ])
}

fn rubbish(family: Family, rng: &mut Rng) -> Vec<u8> {
    let length = rng.between(1, 40);
    if rng.percent(50) {
        (0..length).map(|_| rng.byte()).collect()
    } else {
        (0..length).map(|_| telling_byte(family, rng)).collect()
    }
}

/// The same byte many times, with lengths around those of the longest frames.
fn run(rng: &mut Rng) -> Vec<u8> {
    let random = rng.between(1, 300);
    let length = rng.pick(&[
        2, 3, 4, 5, 6, 7, 38, 39, 40, 41, 73, 74, 75, 76, 77, 128, 129, 133, 134, 135, random,
    ]);
    let byte = rng.pick(&[
        AMPLIFIER_MARK,
        HOST_MARK,
        b'$',
        b'*',
        b'^',
        b';',
        0x00,
        b'A',
        b' ',
        CODE_COUNT,
    ]);
    vec![byte; length]
}

fn frame_inside_frame(family: Family, rng: &mut Rng) -> Vec<u8> {
    match (family, rng.below(4)) {
        (Family::SpeReplies, 0 | 1) => frames_in_report_data(rng),
        (Family::Alpha, 0) => half_end_then_sentence(rng),
        (Family::Kpa, 0 | 1) => long_start_then_message(rng),
        (_, 2) => begun_many_times(family, rng),
        _ => {
            // The outer frame breaks off anywhere and the inner one begins.
            let mut outer = shortened_frame(family, rng);
            outer.extend(sound_frame(family, rng));
            if rng.percent(50) {
                outer.extend(sound_frame(family, rng));
            }
            outer
        }
    }
}

/// A report whose 67 data bytes hold acknowledgements or the begin of another
/// report; its check bytes and its end, of either form, may be right all the
/// same.
fn frames_in_report_data(rng: &mut Rng) -> Vec<u8> {
    let mut data = match rng.below(3) {
        0 => vec![0; rng.below(30)],
        1 => make_spe::sound_data(rng)[..rng.between(1, 60)].to_vec(),
        _ => Vec::new(),
    };
    while data.len() < STATUS_DATA {
        let inner = sound_frame(Family::SpeReplies, rng);
        data.extend(inner);
        data.extend(vec![rng.pick(&[0x00, AMPLIFIER_MARK, b',']); rng.below(8)]);
    }
    if rng.percent(60) {
        data.truncate(STATUS_DATA);
    }
    let mut frame = enclose_data(&data, rng.percent(50));
    // A comma that belongs to something else makes the start wait as well.
    if rng.percent(20) {
        frame[BEHIND_CHECK] = b',';
    }
    frame
}

/// A sentence's star and a few of its check digits, then another sentence:
/// the inner dollar sign stands where check digits are awaited.
fn half_end_then_sentence(rng: &mut Rng) -> Vec<u8> {
    let mut bytes = make_alpha::sound_sentence(rng);
    bytes.truncate(bytes.len() - rng.between(1, 4));
    bytes.extend(make_alpha::sound_sentence(rng));
    bytes
}

/// A start that waits nearly as long as it may or longer, then a message.
fn long_start_then_message(rng: &mut Rng) -> Vec<u8> {
    let mut bytes = make_kpa::any_long_start(rng);
    bytes.extend(make_kpa::sound_message(rng));
    bytes
}

/// The end of a stream at which a start is still undecided. In a report's
/// place whole acknowledgements may stand behind that start; only the close
/// brings them out. A comma at its place allows one byte more.
fn undecided_end(family: Family, rng: &mut Rng) -> Vec<u8> {
    if family == Family::Kpa && rng.percent(80) {
        return make_kpa::undecided_end(rng);
    }
    if family != Family::SpeReplies || rng.percent(20) {
        return shortened_frame(family, rng);
    }
    let mut bytes = frames_in_report_data(rng);
    if rng.percent(70) {
        bytes.truncate(4);
        for _ in 0..rng.between(1, 10) {
            bytes.extend(make_spe::sound_acknowledgement(rng));
            bytes.extend(vec![rng.pick(&[0x00, AMPLIFIER_MARK]); rng.below(4)]);
        }
    }
    if bytes.len() > BEHIND_CHECK && rng.percent(30) {
        bytes[BEHIND_CHECK] = b',';
    }
    let longest = needed_bytes(&bytes) - 1;
    let any = rng.between(10, longest);
    bytes.truncate(rng.pick(&[any, any, longest]));
    bytes
}

/// Beginnings in a row, each of which keeps the next ones waiting.
fn begun_many_times(family: Family, rng: &mut Rng) -> Vec<u8> {
    let mut bytes = Vec::new();
    for _ in 0..rng.between(2, 30) {
        let frame = sound_frame(family, rng);
        let kept = rng.between(1, frame.len().min(9));
        bytes.extend_from_slice(&frame[..kept]);
    }
    bytes.extend(sound_frame(family, rng));
    bytes
}

/// The first part of a sound frame.
fn shortened_frame(family: Family, rng: &mut Rng) -> Vec<u8> {
    let mut frame = sound_frame(family, rng);
    let kept = rng.below(frame.len());
    frame.truncate(kept);
    frame
}

/// A sound frame of a family that is not being read.
fn foreign_frame(family: Family, rng: &mut Rng) -> Vec<u8> {
    let foreign = rng.pick(&FAMILIES);
    if foreign == family {
        return Vec::new();
    }
    sound_frame(foreign, rng)
}
