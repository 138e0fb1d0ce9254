//! Calls of the stream reader: whole streams from a fresh reader to the last
//! frame behind the close, and calls on states that no stream leads to.

use crate::amp::*;
use crate::answers::most_held;
use crate::calls::{Call, Lent, Outcome};
use crate::chance;
use crate::frames::Family;
use crate::held_against::Tally;
use crate::make_kpa::{all_long_starts, undecided_end};
use crate::make_spe::sound_data;
use crate::pieces;
use crate::rng::Rng;
use crate::spe::enclose_data;

/// How many bytes a call offers; each stream keeps to one of these rows.
const SIZES: &[&[usize]] = &[
    &[1],
    &[0, 1, 2, 3],
    &[5, 6, 7],
    &[38],
    &[39],
    &[40],
    &[37, 38, 39, 40, 41, 1, 1],
    &[74],
    &[75],
    &[76],
    &[73, 74, 75, 76, 77, 1, 1],
    &[1, 74, 2, 75],
    &[133, 134, 135],
    &[20, 150, 300],
    &[300],
    &[1000],
];

/// Stream places and counts near their turning point.
const COUNTS: &[u32] = &[0, 1, 75, 0x8000_0000, u32::MAX - 80, u32::MAX - 1, u32::MAX];

/// Every number of held bytes for every family, and none.
pub fn all(tally: &mut Tally, rng: &mut Rng) {
    for family in [0, 1, 2, 3, 4, 5, 0x34, 255] {
        for count in 0..=255 {
            for closed in [0, 1, 2, 255] {
                let mut state = any_state(rng);
                state.family = family;
                state.count = count;
                state.closed = closed;
                tally.ask(Call::Close { reader: state });
                let offered: &[u8] = if rng.percent(50) { b"" } else { b"\xAA" };
                feed(tally, rng, &state, offered, AMP_ROW);
            }
        }
    }
    for number in chance::FAMILY_NUMBERS {
        fresh(tally, rng, *number);
    }
    for missing in 0..10 {
        for room in 0..=AMP_ROW + 1 {
            comma_report_held(tally, rng, missing, room);
        }
    }
    messages_held(tally, rng);
    for start in all_long_starts(rng) {
        long_start_offered(tally, rng, &start);
    }
}

/// A report of the comma form up to its last bytes is held, and the rest is
/// offered with a row of any length; then the same reader without a comma.
fn comma_report_held(tally: &mut Tally, rng: &mut Rng, missing: usize, room: usize) {
    for comma in [true, false] {
        let report = enclose_data(&sound_data(rng), comma);
        let kept = report.len() - 1 - missing;
        let mut state = any_state(rng);
        state.family = 1;
        state.closed = 0;
        state.count = kept as u8;
        state.held[..kept].copy_from_slice(&report[..kept]);
        for taken in kept..=report.len() {
            feed(tally, rng, &state, &report[kept..taken], room);
        }
        let wrong = [&report[kept..report.len() - 1], b"\xAA\xAA\xAA\x01"].concat();
        feed(tally, rng, &state, &wrong, room);
    }
}

/// A caret and as many bytes as can wait behind it are held, whatever the first
/// of them is, and one byte more comes, or more than one. When a start is given
/// up shows in nothing but what the reader holds afterwards.
fn messages_held(tally: &mut Tally, rng: &mut Rng) {
    let offers: [&[u8]; 11] = [
        b"", b"x", b"7", b";", b"^", b"\x1F", b"\x7F", b"\x00", b"\xFF", b"x;", b"^SN;",
    ];
    for first in b"SsZ0 ~@[" {
        for count in 1..=39 {
            let mut state = any_state(rng);
            state.family = 4;
            state.closed = 0;
            state.count = count;
            state.held[0] = b'^';
            state.held[1] = *first;
            state.held[2..].fill(b'x');
            for offered in offers {
                feed(tally, rng, &state, offered, AMP_ROW);
            }
        }
    }
}

/// A start that waits long, offered to a fresh reader whole, and cut in two
/// around the place where it is decided at the latest.
fn long_start_offered(tally: &mut Tally, rng: &mut Rng, start: &[u8]) {
    let fresh = fresh(tally, rng, 4);
    for cut in [0, 1, 2, 37, 38, 39, 40, 41, 42, 77] {
        let (head, tail) = start.split_at(cut.min(start.len()));
        let outcome = feed(tally, rng, &fresh, head, AMP_ROW);
        let state = outcome.reader.unwrap_or(fresh);
        let outcome = feed(tally, rng, &state, tail, AMP_ROW);
        drain(tally, rng, outcome.reader.unwrap_or(state));
    }
}

pub fn by_chance(tally: &mut Tally, rng: &mut Rng) {
    if rng.percent(50) {
        whole_stream(tally, rng);
        return;
    }
    let mut state = any_state(rng);
    for _ in 0..rng.between(1, 5) {
        let size = rng.pick(&[0, 1, 1, 2, 38, 39, 40, 70, 75, 76, 80, 140]);
        let family = chance::family(rng);
        let offered = pieces::stream(family, rng, size);
        let size = size.min(offered.len());
        let room = any_room(rng);
        let outcome = match rng.below(8) {
            0 => tally.ask(Call::Close { reader: state }),
            _ => feed(tally, rng, &state, &offered[..size], room),
        };
        state = outcome.reader.unwrap_or(state);
    }
}

/// Any bytes are a state; most of these have a family and few enough bytes.
fn any_state(rng: &mut Rng) -> AmpReader {
    let family = chance::family(rng);
    let most = most_held(family);
    let any = rng.below(most + 1);
    let count = rng.pick(&[0, any, any, any, most - 1, most, most + 1, 200, 255]);
    AmpReader {
        family: chance::number_near(rng, family) as u8,
        closed: rng.pick(&[0, 0, 0, 0, 1, 1, 2, 128, 255]),
        count: count as u8,
        held: any_held(rng, family),
        at: rng.pick(COUNTS),
        skipped: rng.pick(COUNTS),
    }
}

/// Held bytes from a stream, from a report's or a message's first byte on, or
/// just anything.
fn any_held(rng: &mut Rng, family: Family) -> [u8; 133] {
    let mut bytes = match rng.below(4) {
        0 => (0..133).map(|_| rng.byte()).collect(),
        1 if family == Family::Kpa => undecided_end(rng),
        1 => enclose_data(&sound_data(rng), rng.percent(70)),
        _ => pieces::stream(family, rng, 300),
    };
    if bytes.len() > 200 {
        let dropped = rng.below(bytes.len() - 150);
        bytes.drain(..rng.pick(&[0, dropped]));
    }
    bytes.resize(133, 0xAA);
    let mut held = [0; 133];
    held.copy_from_slice(&bytes);
    held
}

fn any_room(rng: &mut Rng) -> usize {
    if rng.percent(80) {
        AMP_ROW
    } else {
        rng.between(0, AMP_ROW + 1)
    }
}

/// A whole stream, fed, closed and drained, with short rows now and then and
/// bytes offered after the close.
fn whole_stream(tally: &mut Tally, rng: &mut Rng) {
    let family = chance::family(rng);
    let stream = chance::capture(rng, family);
    let sizes = rng.pick(SIZES);
    let mut state = fresh(tally, rng, chance::number(family));
    let mut rest = &stream[..];
    let mut offered = 0;
    while !rest.is_empty() {
        if offered == 0 {
            offered = rng.pick(sizes).min(rest.len());
        }
        let room = any_room(rng);
        let outcome = feed(tally, rng, &state, &rest[..offered], room);
        if outcome.number == 0 {
            state = outcome.reader.unwrap_or(state);
            let taken = outcome.row[AMP_TAKEN] as usize;
            rest = &rest[taken..];
            offered -= taken;
        }
    }
    drain(tally, rng, state);
}

fn drain(tally: &mut Tally, rng: &mut Rng, mut state: AmpReader) {
    for _ in 0..rng.between(1, 2) {
        let outcome = tally.ask(Call::Close { reader: state });
        state = outcome.reader.unwrap_or(state);
    }
    let mut done = 0;
    while done < 2 {
        if rng.percent(20) {
            feed(tally, rng, &state, b"\xAA", AMP_ROW);
        }
        let room = any_room(rng);
        let outcome = feed(tally, rng, &state, b"", room);
        if outcome.number == 0 {
            state = outcome.reader.unwrap_or(state);
            done += usize::from(outcome.row[AMP_KIND] == i64::from(AMP_DONE));
        }
    }
}

fn fresh(tally: &mut Tally, rng: &mut Rng, family: u32) -> AmpReader {
    let reader = any_state(rng);
    let outcome = tally.ask(Call::Fresh { reader, family });
    outcome.reader.unwrap_or(reader)
}

fn feed(
    tally: &mut Tally,
    rng: &mut Rng,
    reader: &AmpReader,
    offered: &[u8],
    room: usize,
) -> Outcome {
    let row = Lent {
        places: chance::row_places(rng),
        room,
    };
    tally.ask(Call::Feed {
        reader: *reader,
        offered: offered.to_vec(),
        row,
    })
}
