//! Calls of the lister and of the search for the next frame.

use crate::calls::{Call, Lent};
use crate::chance;
use crate::frames::{Family, FAMILIES, LONGEST_INPUT};
use crate::held_against::Tally;
use crate::listing::list_frames;
use crate::pieces;
use crate::rng::Rng;

/// Numbers for "only reports"; whatever is not 0 asks for them.
const REPORTS: &[u32] = &[0, 0, 0, 1, 1, 2, 0x100, 0x8000_0000, u32::MAX];

/// The longest captures and too long ones, and the rows of ends.
pub fn all(tally: &mut Tally, rng: &mut Rng) {
    for family in FAMILIES {
        let mut capture = pieces::stream(family, rng, LONGEST_INPUT + 2);
        for length in [LONGEST_INPUT + 2, LONGEST_INPUT + 1, LONGEST_INPUT] {
            capture.truncate(length);
            let frames = list_frames(family, &capture).len();
            for number in [chance::number(family), 0, 5] {
                for room in [0, frames.saturating_sub(1), frames, frames + 1] {
                    list(tally, rng, number, &capture, room);
                }
                for place in [0, 1, length - 100, length, length + 1, usize::MAX] {
                    next(tally, rng, number, &capture, place, 0);
                }
            }
        }
        for capture in [pieces::row_of_ends(family, rng), Vec::new()] {
            rooms_around(tally, rng, family, &capture);
            walk(tally, rng, family, &capture, 0);
            walk(tally, rng, family, &capture, 1);
            every_place(tally, rng, family, &capture);
        }
    }
}

fn rooms_around(tally: &mut Tally, rng: &mut Rng, family: Family, capture: &[u8]) {
    let frames = list_frames(family, capture).len();
    for number in chance::FAMILY_NUMBERS {
        for room in frames.saturating_sub(2)..=frames + 2 {
            list(tally, rng, *number, capture, room);
        }
    }
}

/// From each frame to the next until there is none.
fn walk(tally: &mut Tally, rng: &mut Rng, family: Family, capture: &[u8], reports: u32) {
    let mut place = 0;
    loop {
        let number = chance::number(family);
        match next(tally, rng, number, capture, place, reports) {
            Some(behind) => place = behind,
            None => return,
        }
    }
}

fn every_place(tally: &mut Tally, rng: &mut Rng, family: Family, capture: &[u8]) {
    let few = &capture[..capture.len().min(500)];
    for place in 0..few.len() + 3 {
        for reports in [0, 1] {
            next(tally, rng, chance::number(family), few, place, reports);
        }
    }
}

pub fn list_by_chance(tally: &mut Tally, rng: &mut Rng) {
    let family = chance::family(rng);
    let capture = chance::capture(rng, family);
    let frames = list_frames(family, &capture).len();
    let room = match rng.below(4) {
        0 => rng.below(frames + 1),
        1 => frames + rng.below(3),
        _ => capture.len(),
    };
    let number = chance::number_near(rng, family);
    list(tally, rng, number, &capture, room);
}

pub fn next_by_chance(tally: &mut Tally, rng: &mut Rng) {
    let family = chance::family(rng);
    let capture = chance::capture(rng, family);
    for _ in 0..4 {
        let place = match rng.below(10) {
            0 => capture.len() + rng.below(3),
            1 => chance::any_number(rng) as usize,
            _ => rng.below(capture.len() + 1),
        };
        let number = chance::number_near(rng, family);
        let reports = rng.pick(REPORTS);
        next(tally, rng, number, &capture, place, reports);
    }
    if rng.percent(20) {
        let reports = rng.pick(REPORTS);
        walk(tally, rng, family, &capture, reports);
    }
}

fn list(tally: &mut Tally, rng: &mut Rng, family: u32, capture: &[u8], room: usize) {
    let starts = Lent {
        places: chance::list_places(rng, room),
        room,
    };
    tally.ask(Call::List {
        family,
        capture: capture.to_vec(),
        starts,
        count: rng.word() as usize,
    });
}

/// The place right behind the frame that was found.
fn next(
    tally: &mut Tally,
    rng: &mut Rng,
    family: u32,
    capture: &[u8],
    place: usize,
    reports: u32,
) -> Option<usize> {
    let outcome = tally.ask(Call::Next {
        family,
        capture: capture.to_vec(),
        place,
        reports,
        start: rng.word() as usize,
    });
    match (outcome.number, outcome.size) {
        (0, _) | (_, None) => None,
        (length, Some(start)) => Some(start + length),
    }
}
