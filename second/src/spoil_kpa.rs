//! Makes KPA1500 messages for tests in which one rule is broken. As a whole
//! none of them is one good frame, though one may stand in it or begin it.

use crate::kpa::{enclose_body, LONGEST_MESSAGE};
use crate::make_kpa::{filled_body, in_some_case, other_body, other_letters, sound_message};
use crate::make_kpa::{with_letters, ASKED, NOT_LETTERS};
use crate::rng::Rng;

/// What breaks a rule behind listed letters, separated by bars. None begins
/// with a letter, which would only make other letters of them.
#[rustfmt::skip]
const BREAKAGES: &[(&str, &str)] = &[
    ("SN", "0022|000022|0002 | 0022|0002A|00.22|-0022|+0022|0002:"),
    ("SN", "/0022|00022 |00 22|2| |?|0002\u{7F}|99999.|1234567890"),
    ("RV", "1.23|01.2|0123|01.230|001.23|01,23|01:23|01-23|01.2A"),
    ("RV", " 1.23|01. 3|01..3|01.23 |.|01.|.23|1.234|01 23|0A.23"),
    ("RV", "01.23.45|01/23|:1.23|01./3|01.2:|-1.23| |1|00000"),
    ("PWF", "750|00750|075 | 750|075A|07.5|-750|+750|0750W|0750 "),
    ("PWF", "0|/750|075:|0,75| |?|7 50"),
    ("PWI", "750|00750|075 | 750|075A|:000|-001"),
    ("PWR", "750|00750|075 | 750|075A|/999|0.01"),
    ("PWD", "750|00750|075 | 750|075A|000:|+001"),
    ("FR", "4200|014200|1420 |1420O| 4200|14.20|-4200|1420:|/4200| "),
    ("FQ", "4200|014200|1420 |1420O| 4200|14.20|+4200|:4200|1420/|0"),
    ("FS", "6|7|8|9|00|05|10|55| |-|5 | 5|:|/|5A|.|-1|0.|?"),
    ("HS", "2|3|9|00|01|10|11| |-| 1|1 |:|/|-1|001|051|01AB|?"),
    ("FT", "1|0| |?|-|.|0000|00022|1FT| FT|_|@|["),
    // Months and days that are none.
    ("CC", "17-00-31T13:15:00|17-13-31T13:15:00|17-20-01T13:15:00"),
    ("CC", "17-07-00T13:15:00|17-07-32T13:15:00|17-12-32T13:15:00"),
    ("CC", "17-01-32T13:15:00|17-03-32T13:15:00|17-05-32T13:15:00"),
    ("CC", "17-08-32T13:15:00|17-10-32T13:15:00|17-00-00T13:15:00"),
    ("CC", "17-04-31T13:15:00|17-06-31T13:15:00|17-09-31T13:15:00"),
    ("CC", "17-11-31T13:15:00|17-02-29T13:15:00|01-02-29T00:00:00"),
    ("CC", "02-02-29T00:00:00|03-02-29T00:00:00|99-02-29T23:59:59"),
    ("CC", "00-02-30T00:00:00|04-02-30T00:00:00|17-02-30T00:00:00"),
    ("CC", "16-02-31T00:00:00|10-02-29T00:00:00|98-02-29T00:00:00"),
    ("CC", "31-17-07T13:15:00|07-31-17T13:15:00|17-31-07T13:15:00"),
    // Times that are none.
    ("CC", "17-07-31T24:00:00|17-07-31T25:15:00|17-07-31T99:15:00"),
    ("CC", "17-07-31T13:60:00|17-07-31T13:99:00|17-07-31T13:15:60"),
    ("CC", "17-07-31T23:59:60|17-07-31T13:15:61|17-07-31T13:15:99"),
    // Something else between the numbers.
    ("CC", "17-07-31t13:15:00|17-07-31 13:15:00|17-07-31S13:15:00"),
    ("CC", "17-07-31U13:15:00|17-07-31-13:15:00|17-07-31TT13:15:0"),
    ("CC", "17/07/31T13:15:00|17-07-31T13.15.00|17:07:31T13-15-00"),
    ("CC", "17-07:31T13:15:00|17-07-31T13:15-00|17-07-31T13-15:00"),
    ("CC", "17,07-31T13:15:00|17-07.31T13:15:00|17-07-31T13:15;00"),
    // More or fewer bytes.
    ("CC", "17-07-31T13:15:00Z|17-07-31T13:15:00 |2017-07-31T13:15:00"),
    ("CC", "17-7-31T13:15:00|17-07-31T13:15|17-07-31|17-07-31T"),
    ("CC", "17-07-31T13:15:0|17-07-31T13:15:000|17-007-31T13:15:00"),
    ("CC", "7-07-31T13:15:00|17-07-31T1:15:00|17-07-31T13:5:00|1"),
    ("CC", "170731T131500|170731131500|?| "),
    // No digit where one belongs.
    ("CC", " 7-07-31T13:15:00|17- 7-31T13:15:00|17-07-3 T13:15:00"),
    ("CC", "1A-07-31T13:15:00|17-0A-31T13:15:00|17-07-3AT13:15:00"),
    ("CC", "17-07-31TA3:15:00|17-07-31T13:1A:00|17-07-31T13:15:0A"),
    ("CC", "/7-07-31T13:15:00|1:-07-31T13:15:00|17-0:-31T13:15:00"),
    ("CC", "17-07-31T/3:15:00|17-07-31T13:1::00|17-07-31T13:15:0/"),
];

/// Bytes that may not stand between caret and semicolon.
const FORBIDDEN: &[u8] = &[
    0x1F, 0x7F, 0x80, 0x00, 0x0A, 0x0D, 0xA0, 0xC1, 0xDE, 0xFF, b'^',
];

/// Bodies that are longer than allowed.
const WRONG_LENGTHS: &[usize] = &[39, 40, 41, 42, 60, 100];

/// How many breakages `broken_frame` knows.
const FRAMES: usize = 12;

/// Every breakage of a message once.
pub fn all_broken_messages(rng: &mut Rng) -> Vec<Vec<u8>> {
    let mut frames = Vec::new();
    for (letters, texts) in BREAKAGES {
        for text in texts.split('|') {
            frames.push(enclose_body(&with_letters(rng, letters, text)));
        }
    }
    for byte in NOT_LETTERS {
        frames.push(message_without_letter(rng, *byte));
    }
    for byte in FORBIDDEN {
        frames.push(message_with_forbidden(rng, *byte));
    }
    for length in WRONG_LENGTHS {
        frames.push(message_of_length(rng, *length));
    }
    frames.extend((0..FRAMES).map(|which| broken_frame(rng, which)));
    frames
}

/// One message with one rule broken, by chance.
pub fn broken_message(rng: &mut Rng) -> Vec<u8> {
    match rng.below(12) {
        0 | 1 => {
            let byte = rng.pick(NOT_LETTERS);
            message_without_letter(rng, byte)
        }
        2 => {
            let byte = rng.pick(FORBIDDEN);
            message_with_forbidden(rng, byte)
        }
        3 => {
            let length = rng.pick(WRONG_LENGTHS);
            message_of_length(rng, length)
        }
        4 | 5 => {
            let which = rng.below(FRAMES);
            broken_frame(rng, which)
        }
        _ => {
            let (letters, texts) = rng.pick(BREAKAGES);
            let texts: Vec<&str> = texts.split('|').collect();
            let text = rng.pick(&texts);
            enclose_body(&with_letters(rng, letters, text))
        }
    }
}

/// A byte that is no letter stands first, or in place of the first letter.
fn message_without_letter(rng: &mut Rng, byte: u8) -> Vec<u8> {
    let mut frame = sound_message(rng);
    if frame.len() < LONGEST_MESSAGE && rng.percent(50) {
        frame.insert(1, byte);
    } else {
        frame[1] = byte;
    }
    frame
}

fn message_with_forbidden(rng: &mut Rng, byte: u8) -> Vec<u8> {
    let mut body = other_body(rng);
    let place = rng.below(body.len());
    body[place] = byte;
    enclose_body(&body)
}

/// Too long for a message, with nothing else wrong but perhaps what stands
/// behind listed letters.
fn message_of_length(rng: &mut Rng, length: usize) -> Vec<u8> {
    let letters = if rng.percent(70) {
        other_letters(rng)
    } else {
        let letters = rng.pick(ASKED);
        in_some_case(rng, letters)
    };
    enclose_body(&filled_body(rng, letters, length))
}

/// A message that is sound but for its caret or its semicolon.
fn broken_frame(rng: &mut Rng, which: usize) -> Vec<u8> {
    let mut frame = sound_message(rng);
    let end = frame.len() - 1;
    match which {
        0 => return b"^;".to_vec(),
        1 => frame[0] = rng.pick(b"]_~v \x1E\xDE;"),
        2 => {
            frame.remove(0);
        }
        3 => frame.insert(0, b'^'),
        4 => frame.insert(1, b';'),
        5 => frame[end] = rng.pick(b":<,. \x1B\xBB\r\n"),
        6 => frame[end] = b'^',
        7 => {
            frame.pop();
        }
        8 => frame.push(b';'),
        9 => frame.extend(b"\r\n"),
        10 => frame.insert(end, b'^'),
        _ => {
            frame.truncate(1 + rng.below(end));
            frame.push(rng.pick(&[0x00, 0x1F, 0x7F, b'\r']));
        }
    }
    frame
}

/// A sound message with one byte changed for one that means something.
pub fn changed_message(rng: &mut Rng) -> Vec<u8> {
    let mut frame = sound_message(rng);
    let place = rng.between(1, frame.len() - 2);
    frame[place] = match rng.below(4) {
        0 => rng.byte(),
        1 => frame[place] ^ (1 << rng.below(8)),
        2 => rng.pick(b"0123456789:/.-T "),
        _ => rng.pick(b"SNRVPWFIDQHCTsnrvpwfidqhct^;"),
    };
    frame
}
