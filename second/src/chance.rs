//! What the calls of the archive have in common: families that are none, lent
//! memory with anything in it, and captures.

use crate::amp::AMP_ROW;
use crate::frames::Family;
use crate::rng::Rng;
use crate::{make_comma, make_kpa, pieces};

/// The families, and numbers that are none; some would be if only their last
/// byte counted.
pub const FAMILY_NUMBERS: &[u32] = &[
    1,
    2,
    3,
    4,
    0,
    5,
    6,
    0x31,
    0x34,
    0xFF,
    0x101,
    0x104,
    0x1_0002,
    0x8000_0003,
    0x8000_0004,
    u32::MAX,
];

/// Places behind a lent row, list or output that must stay as they are.
pub const BEHIND: usize = 4;

pub fn family(rng: &mut Rng) -> Family {
    rng.pick(&[
        Family::SpeReplies,
        Family::SpeReplies,
        Family::Alpha,
        Family::SpeCommands,
        Family::Kpa,
        Family::Kpa,
    ])
}

pub fn number(family: Family) -> u32 {
    u32::from(family.ascii() - b'0')
}

/// Mostly the family's own number, now and then another or a wrong one.
pub fn number_near(rng: &mut Rng, family: Family) -> u32 {
    if rng.percent(85) {
        number(family)
    } else {
        rng.pick(FAMILY_NUMBERS)
    }
}

/// A number of any size; each size is as frequent, small ones too.
pub fn any_number(rng: &mut Rng) -> u64 {
    let shift = rng.below(64);
    rng.word() >> shift
}

/// Room for every row, with anything in it.
pub fn row_places(rng: &mut Rng) -> Vec<i64> {
    (0..AMP_ROW + 1 + BEHIND)
        .map(|_| rng.word() as i64)
        .collect()
}

pub fn byte_places(rng: &mut Rng, room: usize) -> Vec<u8> {
    (0..room + BEHIND).map(|_| rng.byte()).collect()
}

pub fn list_places(rng: &mut Rng, room: usize) -> Vec<u32> {
    (0..room + BEHIND).map(|_| rng.word() as u32).collect()
}

/// A short capture that may begin and break off anywhere.
pub fn capture(rng: &mut Rng, family: Family) -> Vec<u8> {
    let length = rng.pick(&[0, 5, 60, 80, 160, 160, 300, 600]);
    let mut capture = pieces::stream(family, rng, length);
    if rng.percent(25) {
        match family {
            Family::SpeReplies => capture.extend(make_comma::broken_comma(rng)),
            Family::Kpa => capture.extend(make_kpa::any_long_start(rng)),
            Family::Alpha | Family::SpeCommands => {}
        }
    }
    if rng.percent(40) {
        let kept = rng.below(capture.len() + 1);
        capture.truncate(kept.max(capture.len().saturating_sub(90)));
    }
    if rng.percent(30) {
        let dropped = rng.below(capture.len().min(80) + 1);
        capture.drain(..dropped);
    }
    capture
}
