//! Makes status reports for tests that go wrong around the comma before the
//! line end: a wrong end, a comma at a wrong place, a report broken off behind
//! its comma, and a report that holds the begin of another frame. As a whole
//! none of them is one good frame, though one may stand in it or begin it.

use crate::make_spe::{sound_acknowledgement, sound_data, sound_report};
use crate::rng::Rng;
use crate::spe::{check_bytes, enclose_data, AMPLIFIER_MARK};
use crate::spe::{BEHIND_CHECK, COMMA_LENGTH, PLAIN_LENGTH, STATUS_DATA};

/// A report of the comma form that a real 1.3K-FA sent, with its temperatures
/// filled up with zeros.
pub const RECORDED: &[u8] = b"\xAA\xAA\xAA\x43,13K,S,R,A,1,07,2a,0r,M,0000\
    , 0.00, 0.00, 0.0, 0.0,077,000,000,N,N,\x51\x0D,\x0D\x0A";

/// What is tried behind the check bytes of an otherwise sound report. Where a
/// right end comes first, the report is good and what follows is not its own.
const WRONG_ENDS: &[&[u8]] = &[
    // The comma, and then too little.
    b",",
    b",\r",
    b",\n",
    // The comma, and then no line end.
    b",\r\r",
    b",\n\r",
    b",\n\n",
    b",\r\x0B",
    b",\r\x00",
    b",\x0C\n",
    b",\x8D\n",
    b", \r\n",
    b",\r,\n",
    b",\r\xAA",
    b",\xAA\xAA",
    b",\xAA\n",
    // More commas than one.
    b",,",
    b",,\n",
    b",,\r\n",
    b",,,\r\n",
    // The comma behind a part of the line end.
    b"\r,",
    b"\r,\n",
    b"\n,\r",
    // A right end, and then something.
    b"\r\n,",
    b"\r\n,\r\n",
    b"\r\n\r\n",
    b",\r\n,",
    b",\r\n\n",
    // Something else where the comma may stand.
    b"+\r\n",
    b"-\r\n",
    b".\r\n",
    b";\r\n",
    b" \r\n",
    b"\x00\r\n",
    b"\x0C\r\n",
    b"\xAC\r\n",
    b"\xAA\r\n",
    b"\n\r\n",
    b"\r\r\n",
];

/// How many breakages `misplaced_comma`, `broken_off` and `frame_laid_over`
/// know.
const MISPLACED: usize = 11;
const BROKEN_OFF: usize = 6;
const LAID_OVER: usize = 8;

/// Every breakage around the comma once.
pub fn all_broken_commas(rng: &mut Rng) -> Vec<Vec<u8>> {
    let mut frames: Vec<Vec<u8>> = Vec::new();
    frames.extend(WRONG_ENDS.iter().map(|end| report_with_end(rng, end)));
    frames.extend((0..MISPLACED).map(|which| misplaced_comma(rng, which)));
    frames.extend((0..BROKEN_OFF).map(|which| broken_off(rng, which)));
    frames.extend((0..LAID_OVER).map(|which| frame_laid_over(rng, which)));
    frames
}

/// One of them by chance.
pub fn broken_comma(rng: &mut Rng) -> Vec<u8> {
    match rng.below(8) {
        0..=2 => {
            let end = rng.pick(WRONG_ENDS);
            report_with_end(rng, end)
        }
        3 | 4 => {
            let which = rng.below(MISPLACED);
            misplaced_comma(rng, which)
        }
        5 => {
            let which = rng.below(BROKEN_OFF);
            broken_off(rng, which)
        }
        _ => {
            let which = rng.below(LAID_OVER);
            frame_laid_over(rng, which)
        }
    }
}

fn report_with_end(rng: &mut Rng, end: &[u8]) -> Vec<u8> {
    let mut frame = enclose_data(&sound_data(rng), false);
    frame.truncate(BEHIND_CHECK);
    frame.extend_from_slice(end);
    frame
}

/// The comma among or before the check bytes, in the sum, or in the count.
fn misplaced_comma(rng: &mut Rng, which: usize) -> Vec<u8> {
    let data = sound_data(rng);
    let sums_with_comma = check_bytes(&[&data[..], b","].concat());
    let mut plain = enclose_data(&data, false);
    let mut comma = enclose_data(&data, true);
    match which {
        0 => plain.insert(72, b','),
        1 => plain.insert(71, b','),
        2 => plain[72] = b',',
        // The sum itself may end in the number of a comma.
        3 if plain[71] != b',' => plain[71] = b',',
        3 => plain[71] = b';',
        4 => {
            comma[71..73].copy_from_slice(&sums_with_comma);
            return comma;
        }
        5..=7 => {
            comma[3] = [0x44, 0x42, 0x4C][which - 5];
            return comma;
        }
        8 | 9 => {
            // The comma as one more data byte, counted or not.
            plain.insert(71, b',');
            plain[72..74].copy_from_slice(&sums_with_comma);
            plain[3] += (which - 8) as u8;
        }
        _ => return enclose_data(&data_with_comma_sum(), rng.percent(50)),
    }
    plain
}

/// Data, no good one, with a sum whose second check byte is itself a comma.
fn data_with_comma_sum() -> [u8; STATUS_DATA] {
    [AMPLIFIER_MARK; STATUS_DATA]
}

/// A report of the comma form that ends behind its comma or before its last
/// byte, and right there another frame.
fn broken_off(rng: &mut Rng, which: usize) -> Vec<u8> {
    let mut frame = enclose_data(&sound_data(rng), true);
    frame.truncate(COMMA_LENGTH - 1 - which % 2);
    frame.extend(match which / 2 {
        0 => sound_acknowledgement(rng),
        1 => enclose_data(&sound_data(rng), false),
        _ => enclose_data(&sound_data(rng), true),
    });
    frame
}

/// A report of the comma form over which another frame is laid, from a place
/// among its first 75 bytes on. The sum may be right all the same, so that
/// only the data tells; and the comma may be one of the inner report's own.
fn frame_laid_over(rng: &mut Rng, which: usize) -> Vec<u8> {
    let mut outer = enclose_data(&sound_data(rng), true);
    let inner = match which % 2 {
        0 => sound_acknowledgement(rng),
        _ => sound_report(rng),
    };
    let place = match which / 2 {
        0 => rng.between(4, 65),
        1 => rng.between(66, PLAIN_LENGTH - 1),
        2 => PLAIN_LENGTH,
        // These data bytes of a report are commas.
        _ => BEHIND_CHECK - 4 - rng.pick(&[0, 4, 6, 8, 10, 12]),
    };
    let covered = inner.len().min(outer.len() - place);
    outer[place..place + covered].copy_from_slice(&inner[..covered]);
    outer.extend_from_slice(&inner[covered..]);
    if outer.len() == COMMA_LENGTH && place + covered <= 71 && rng.percent(50) {
        let sums = check_bytes(&outer[4..71]);
        outer[71..73].copy_from_slice(&sums);
    }
    outer
}
