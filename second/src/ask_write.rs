//! Calls of the writers: every value at its ends and beyond, rows cut short,
//! codes and kinds that are none, and outputs of every length.

use crate::amp::*;
use crate::calls::{Call, Lent};
use crate::chance;
use crate::frames::{frame_at_front, Family};
use crate::held_against::Tally;
use crate::kpa::{enclose_body, CARET, KNOWN};
use crate::make_comma::RECORDED;
use crate::pieces;
use crate::rng::Rng;
use crate::rows::{code_of, entry_of, Entry};
use crate::spe::{enclose_data, COMMA_LENGTH, HOST_MARK};

/// Room for the longest frame that can be written, and more.
const ROOM: usize = COMMA_LENGTH + 64;

/// Numbers beside the ends of some value's range, and where a number of fewer
/// bits would turn over.
#[rustfmt::skip]
const EDGES: &[i64] = &[
    253, 254, 255, 256, 257, 258, 511, 512, 998, 999, 1000, 1001, 9998, 9999, 10_000, 10_001,
    32_767, 32_768, 65_534, 65_535, 65_536, 65_537, 99_998, 99_999, 100_000, 100_001,
    -255, -256, -257, -998, -999, -1000, -9998, -9999, -10_000, -10_001, -32_768, -65_536,
    0x7FFF_FFFF, 0x8000_0000, 0xFFFF_FFFF, 0x1_0000_0000, 0x1_0000_0001, -0x8000_0000,
    -0xFFFF_FFFF, -0x1_0000_0000, i64::MAX, i64::MAX - 1, i64::MIN, i64::MIN + 1,
];

/// What is added to a right value so that only its last bits are still right.
const TURNS: &[i64] = &[
    0x100,
    0x1_0000,
    0x1_0000_0000,
    -0x100,
    -0x1_0000,
    -0x1_0000_0000,
    i64::MIN,
];

/// Codes and kinds that are none, or would be with fewer bits.
const LARGE: &[u32] = &[
    0x101,
    0x10D,
    0x190,
    0x102,
    0x103,
    0x105,
    0x1_0001,
    0x1_0002,
    0x8000_0004,
    0x8000_000D,
    u32::MAX,
    u32::MAX - 1,
];

/// Codes of letters that are not listed: small letters, other letters, fewer,
/// more, exchanged, with something before or behind.
const LETTERS: &[u32] = &[
    0x736E,
    0x4E53,
    0x53,
    0x4E,
    0x5000,
    0x5057,
    0x5357,
    0x464C,
    0x4655,
    0x46_5400,
    0x53_4E00,
    0x53_4E41,
    0x41_534E,
    0x52_564D,
    0x50_5745,
    0x70_7766,
    0x2000_534E,
    0x8000_534E,
    0x1_534E,
    0x5050_5746,
    0x5057_4600,
    0x4853_4142,
    0x4650,
    0x4343_4343,
    0x5346,
];

/// One row of each kind that has a writer, and of other letters, which have
/// none.
fn samples() -> Vec<Entry> {
    let data = b",20K,O,T,x,2,10,6t,3r,H,1998, 1.20,12.34,48.0,31.5, 31, 29,130,K,H,";
    let mut all = vec![
        entry(b"\xAA\xAA\xAA\x01\x0D\x0D"),
        entry(b"\x55\x55\x55\x01\x90\x90"),
        entry(RECORDED),
        entry(&enclose_data(data, false)),
        entry(&enclose_data(data, true)),
    ];
    all.extend(
        [
            "$APA02,15017,010,2590,3169,0768,230,096,057,1,6,01,0,15721*D83F",
            "$APA03,499,121,240,121,389,2370,000,5,+028.0*9D7D",
            "$APA05,11,18,1B,34,00,2A,01*A844",
        ]
        .map(|sentence| entry(sentence.as_bytes())),
    );
    all.extend(
        [
            "^SN00022;",
            "^RV01.23;",
            "^PWF0750;",
            "^PWI0047;",
            "^PWR0000;",
            "^PWD9999;",
            "^FR14200;",
            "^FQ07032;",
            "^FS3;",
            "^HS1;",
            "^CC17-07-31T13:15:00;",
            "^CC00-02-29T00:59:00;",
            "^FT;",
            "^PWF;",
            "^RVM01.23;",
        ]
        .map(|message| entry(message.as_bytes())),
    );
    all
}

/// The row of a good frame; its first byte tells the family.
fn entry(frame: &[u8]) -> Entry {
    let family = match frame[0] {
        b'$' => Family::Alpha,
        HOST_MARK => Family::SpeCommands,
        CARET => Family::Kpa,
        _ => Family::SpeReplies,
    };
    let (frame, _) = frame_at_front(family, frame).expect("a sample is good");
    entry_of(&frame)
}

pub fn all(tally: &mut Tally, rng: &mut Rng) {
    for sample in samples() {
        all_values(tally, rng, &sample);
        all_rooms(tally, rng, &sample);
        all_codes(tally, rng, &sample);
    }
    all_letters(tally, rng);
    all_days(tally, rng);
}

/// Every code of letters, listed or not, as a question and as a response with
/// few or many values, or values of no use, and with an output that just fits.
fn all_letters(tally: &mut Tally, rng: &mut Rng) {
    let listed = KNOWN.iter().map(code_of);
    for code in listed.chain(LETTERS.iter().copied()) {
        for kind in [AMP_QUESTION, AMP_RESPONSE, AMP_OTHER, AMP_SENTENCE, AMP_ACK] {
            for values in [
                &[][..],
                &[-1, i64::MIN],
                &[0],
                &[1],
                &[6],
                &[1, 2],
                &[1, -1],
                &[1, 2, 3, 4, 5],
                &[1, 2, 3, 4, 5, 6],
                &[1, 2, 3, 4, 5, 6, -7],
                &[0x534E, 0, 0, 0, 0, 0, 0, 0, 0, 0],
            ] {
                for room in [ROOM, 4, 0] {
                    ask(tally, rng, (kind, code), values, room);
                }
            }
        }
    }
    for known in &KNOWN {
        let question = enclose_body(known.letters.as_bytes());
        for room in 0..=question.len() + 1 {
            ask(tally, rng, (AMP_QUESTION, code_of(known)), &[], room);
        }
    }
}

/// Both ends of every month of leap and common years, with days, months and
/// years that are none.
fn all_days(tally: &mut Tally, rng: &mut Rng) {
    for year in [-1, 0, 1, 16, 99, 100] {
        for month in -1..=14 {
            for day in (-1..=2).chain(27..=33) {
                let values = [year, month, day, 23, 59, 59];
                ask(tally, rng, (AMP_RESPONSE, AMP_CC), &values, ROOM);
            }
        }
    }
}

/// Every value of a row in turn takes every small number and every edge.
fn all_values(tally: &mut Tally, rng: &mut Rng, sample: &Entry) {
    for place in 0..sample.values.len() {
        let right = sample.values[place];
        let turned = TURNS.iter().map(|turn| right.wrapping_add(*turn));
        let candidates: Vec<i64> = (-3..=130)
            .chain(EDGES.iter().copied())
            .chain(turned)
            .chain([-right, right + 1, right - 1, !right])
            .collect();
        for value in candidates {
            let mut values = sample.values.clone();
            values[place] = value;
            ask(tally, rng, (sample.kind, sample.code), &values, ROOM);
        }
    }
}

/// Every length of the output and of the values, each with the other as it
/// should be and with the other too short.
fn all_rooms(tally: &mut Tally, rng: &mut Rng, sample: &Entry) {
    let kind_and_code = (sample.kind, sample.code);
    for room in 0..ROOM {
        ask(tally, rng, kind_and_code, &sample.values, room);
    }
    let longer = [&sample.values[..], &[7, -1, i64::MAX]].concat();
    for length in 0..=longer.len() {
        for room in [0, 5, ROOM] {
            ask(tally, rng, kind_and_code, &longer[..length], room);
        }
    }
    if let Some(first) = longer.first() {
        // A wrong value and too short an output: the value is named.
        let mut values = longer.clone();
        values[0] = first + 1000;
        ask(tally, rng, kind_and_code, &values, 0);
    }
}

/// Every code of a byte and some beyond, and kinds that are none.
fn all_codes(tally: &mut Tally, rng: &mut Rng, sample: &Entry) {
    for code in (0..=300).chain(LARGE.iter().copied()) {
        for room in [ROOM, 0] {
            ask(tally, rng, (sample.kind, code), &sample.values, room);
        }
    }
    for kind in (0..=20).chain(LARGE.iter().copied()) {
        ask(tally, rng, (kind, sample.code), &sample.values, ROOM);
    }
}

pub fn by_chance(tally: &mut Tally, rng: &mut Rng) {
    let family = chance::family(rng);
    let frame = pieces::sound_frame(family, rng);
    let (read, _) = frame_at_front(family, &frame).expect("a sound frame is good");
    let mut entry = entry_of(&read);
    for _ in 0..rng.pick(&[0, 0, 0, 1, 1, 2]) {
        spoil_value(rng, &mut entry.values);
    }
    match rng.below(30) {
        0 => entry.code = rng.below(256) as u32,
        1 => entry.code = chance::any_number(rng) as u32,
        2 => entry.kind = rng.below(11) as u32,
        3 => entry.kind = rng.pick(LARGE),
        4 | 5 => {
            let kept = rng.below(entry.values.len() + 1);
            entry.values.truncate(kept);
        }
        6..=8 => entry.values.push(rng.word() as i64),
        9 => entry.code = code_of(&KNOWN[rng.below(KNOWN.len())]),
        10 => entry.code = rng.pick(LETTERS),
        _ => {}
    }
    let near = (frame.len() + 2).saturating_sub(rng.below(6));
    let room = match rng.below(4) {
        0 => near,
        1 => rng.below(ROOM),
        _ => ROOM,
    };
    ask(tally, rng, (entry.kind, entry.code), &entry.values, room);
}

fn spoil_value(rng: &mut Rng, values: &mut [i64]) {
    if values.is_empty() {
        return;
    }
    // The last value of a report is its form, which has few wrong numbers.
    let any = rng.below(values.len());
    let place = rng.pick(&[any, any, any, values.len() - 1]);
    let right = values[place];
    values[place] = match rng.below(6) {
        0 => rng.pick(EDGES),
        1 => right.wrapping_add(rng.pick(TURNS)),
        2 => right + rng.pick(&[-1, 1]),
        3 => rng.between(0, 130) as i64,
        4 => rng.pick(b"SORTxABLMHtbaNKDPYWCxr12") as i64,
        _ => chance::any_number(rng) as i64,
    };
}

fn ask(tally: &mut Tally, rng: &mut Rng, (kind, code): (u32, u32), values: &[i64], room: usize) {
    let out = Lent {
        places: chance::byte_places(rng, room),
        room,
    };
    tally.ask(Call::Write {
        kind,
        code,
        values: values.to_vec(),
        out,
        length: rng.word() as usize,
    });
}

/// The other two functions: the bytes that enable the Alpha, and stamps.
pub fn others(tally: &mut Tally, rng: &mut Rng) {
    for room in 0..8 {
        let out = Lent {
            places: chance::byte_places(rng, room),
            room,
        };
        let length = rng.word() as usize;
        tally.ask(Call::Enable { out, length });
    }
    let gaps = [0, 1, 2, 0x7FFF_FFFF, 0x8000_0000, 0x8000_0001, u32::MAX];
    for a in [0, 1, 0x7FFF_FFFF, 0x8000_0000, u32::MAX, rng.word() as u32] {
        for gap in gaps {
            let b = a.wrapping_add(gap);
            tally.ask(Call::Order { a, b });
            tally.ask(Call::Order { a: b, b: a });
        }
    }
}

pub fn other_by_chance(tally: &mut Tally, rng: &mut Rng) {
    let a = rng.word() as u32;
    let gap = chance::any_number(rng) as u32;
    let b = a.wrapping_add(gap);
    tally.ask(Call::Order { a, b });
}
