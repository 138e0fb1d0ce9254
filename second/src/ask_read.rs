//! Calls of the reader of one frame: sound frames, broken, cut and lengthened
//! ones, for every family and none, with rows of every length.

use crate::amp::AMP_ROW;
use crate::calls::{Call, Lent};
use crate::frames::{Family, FAMILIES};
use crate::held_against::Tally;
use crate::kpa::CARET;
use crate::make_alpha::sound_sentence;
use crate::make_comma::{all_broken_commas, RECORDED};
use crate::make_kpa::{all_long_starts, sound_message};
use crate::make_spe::{sound_acknowledgement, sound_command, sound_data};
use crate::rng::Rng;
use crate::spe::{enclose_data, HOST_MARK};
use crate::spoil_kpa::all_broken_messages;
use crate::{chance, pieces};

/// A message for each length that a row of messages can have.
const MESSAGE_ROWS: &[&[u8]] = &[
    b"^SN00022;",
    b"^rV01.23;",
    b"^CC00-02-29T23:59:59;",
    b"^sn;",
    b"^ft;",
    b"^bt ok;",
    b"^abcdefghijklmnopqrstuvwxyzabcdefghijkl;",
];

/// More messages: the other replies, and others with one letter, with as many
/// as fill a value and with one more or fewer.
const MESSAGES: &[&[u8]] = &[
    b"^PWF0750;",
    b"^pwi9999;",
    b"^PWR0000;",
    b"^PWD0001;",
    b"^FR14200;",
    b"^FQ99999;",
    b"^FS5;",
    b"^HS1;",
    b"^CC99-12-31T00:00:00;",
    b"^I;",
    b"^Rvm01.23;",
    b"^HSAB1;",
    b"^ABCDE;",
    b"^abcdefgh~;",
    b"^ABCDEFGHIJKLMNOPQRSTUVWXYZABCDEFGHIJK7;",
];

/// Every family and row length for one frame of each kind, every cut of each,
/// and every byte behind them and at their ends.
pub fn all(tally: &mut Tally, rng: &mut Rng) {
    for frame in one_of_each(rng) {
        for family in chance::FAMILY_NUMBERS {
            for room in 0..=AMP_ROW + 1 {
                ask(tally, rng, *family, &frame, room);
            }
        }
        for length in 0..frame.len() {
            ask_every(tally, rng, &frame[..length]);
        }
        ends(tally, rng, &frame);
    }
    ask_every(tally, rng, RECORDED);
    let mut broken = all_broken_commas(rng);
    broken.extend(all_broken_messages(rng));
    broken.extend(all_long_starts(rng));
    for frame in broken {
        ask_every(tally, rng, &frame);
    }
    for frame in MESSAGE_ROWS.iter().chain(MESSAGES) {
        ask(tally, rng, 4, frame, AMP_ROW);
        every_letter(tally, rng, frame);
    }
}

fn ask_every(tally: &mut Tally, rng: &mut Rng, bytes: &[u8]) {
    for family in FAMILIES {
        ask(tally, rng, chance::number(family), bytes, AMP_ROW);
    }
}

fn one_of_each(rng: &mut Rng) -> Vec<Vec<u8>> {
    let mut frames = vec![
        sound_acknowledgement(rng),
        enclose_data(&sound_data(rng), false),
        enclose_data(&sound_data(rng), true),
        sound_command(rng),
        b"$APA02,15017,010,2590,3169,0768,230,096,057,1,6,01,0,15721*D83F".to_vec(),
        b"$APA03,499,121,240,121,389,2370,000,5,+028.0*9D7D".to_vec(),
        b"$APA05,11,18,1B,34,00,2A,01*A844".to_vec(),
        b"$APA11,02,0000,00EA,0068,0068*72B4".to_vec(),
    ];
    frames.extend((0..3).map(|_| sound_sentence(rng)));
    frames.extend(MESSAGE_ROWS.iter().map(|message| message.to_vec()));
    frames.extend((0..2).map(|_| sound_message(rng)));
    frames
}

/// A byte of each value behind a frame, and in place of its last ones.
fn ends(tally: &mut Tally, rng: &mut Rng, frame: &[u8]) {
    let family = match frame[0] {
        b'$' => 2,
        HOST_MARK => 3,
        CARET => 4,
        _ => 1,
    };
    for byte in 0..=255 {
        ask(tally, rng, family, &[frame, &[byte]].concat(), AMP_ROW);
        for place in frame.len().saturating_sub(6)..frame.len() {
            let mut changed = frame.to_vec();
            changed[place] = byte;
            ask(tally, rng, family, &changed, AMP_ROW);
        }
    }
}

/// A message with another letter, digit or sign in each of its places.
fn every_letter(tally: &mut Tally, rng: &mut Rng, frame: &[u8]) {
    for place in 1..frame.len() - 1 {
        for byte in b"AaZzSNsnTt059:/-. @[`{^;\x1F\x7F" {
            let mut changed = frame.to_vec();
            changed[place] = *byte;
            ask(tally, rng, 4, &changed, AMP_ROW);
        }
    }
}

pub fn by_chance(tally: &mut Tally, rng: &mut Rng) {
    let family = chance::family(rng);
    let bytes = candidate(rng, family);
    let number = chance::number_near(rng, family);
    let room = if rng.percent(50) {
        rng.between(0, AMP_ROW + 1)
    } else {
        AMP_ROW
    };
    ask(tally, rng, number, &bytes, room);
}

fn candidate(rng: &mut Rng, family: Family) -> Vec<u8> {
    let mut bytes = match rng.below(10) {
        0..=4 => pieces::sound_frame(family, rng),
        5 => [
            pieces::sound_frame(family, rng),
            pieces::sound_frame(family, rng),
        ]
        .concat(),
        _ => pieces::piece(family, rng),
    };
    match rng.below(12) {
        0 => bytes.push(rng.byte()),
        1 => bytes.extend(pieces::piece(family, rng)),
        2 => bytes.truncate(bytes.len().saturating_sub(rng.between(1, 3))),
        3 if !bytes.is_empty() => {
            bytes.remove(0);
        }
        _ => {}
    }
    bytes
}

fn ask(tally: &mut Tally, rng: &mut Rng, family: u32, bytes: &[u8], room: usize) {
    let row = Lent {
        places: chance::row_places(rng),
        room,
    };
    tally.ask(Call::Read {
        family,
        bytes: bytes.to_vec(),
        row,
    });
}
