//! The generator: one test input for a kind, a family, a seed and an index,
//! always the same one for the same four.

use crate::frames::{Family, LONGEST_INPUT};
use crate::rng::Rng;
use crate::{cuts, pieces};

#[derive(Clone, Copy, PartialEq, Eq, Debug)]
pub enum What {
    Capture,
    Script,
}

impl What {
    pub fn from_word(word: &str) -> Option<What> {
        match word {
            "capture" => Some(What::Capture),
            "script" => Some(What::Script),
            _ => None,
        }
    }

    pub fn word(self) -> &'static str {
        match self {
            What::Capture => "capture",
            What::Script => "script",
        }
    }
}

/// So many indexes, from 0 on, are odd cases.
pub const FIXED_CASES: u64 = 13;

/// The family byte, then the capture or the script.
///
/// The first indexes are the odd cases, so that even a short comparison has
/// them all; behind them such cases come now and then by chance.
pub fn input(what: What, family: Family, seed: u64, index: u64) -> Vec<u8> {
    let numbers = [what as u64, u64::from(family.ascii()), seed, index];
    let mut rng = Rng::from_numbers(&numbers);
    let case = if index < FIXED_CASES {
        index as usize
    } else {
        rng.below(1000)
    };
    let body = match case {
        0 => return Vec::new(),
        1 => return with_bad_family(&mut rng, what, family),
        2 => Vec::new(),
        3 | 13..=18 => {
            let stream = pieces::catalogue(family, &mut rng);
            whole(what, &mut rng, stream)
        }
        4 => of_length(what, family, &mut rng, LONGEST_INPUT),
        5 => of_length(what, family, &mut rng, LONGEST_INPUT + 1),
        6 => return with_bad_family_and_too_long(&mut rng),
        7 | 19..=22 => of_length(what, family, &mut rng, LONGEST_INPUT - 1),
        8 | 23..=70 => tiny(what, family, &mut rng),
        9 => vec![family.ascii()],
        11 | 86..=100 => {
            let stream = pieces::byte_sweep(family, &mut rng);
            whole(what, &mut rng, stream)
        }
        12 | 101..=115 => ends(what, family, &mut rng),
        10 | 71..=85 => ordinary(what, family, &mut rng, 12_000),
        _ => {
            let length = rng.pick(&[60, 300, 300, 800, 800, 1500, 3000]);
            ordinary(what, family, &mut rng, length)
        }
    };
    let mut input = vec![family.ascii()];
    input.extend(body);
    input
}

/// A capture that begins anywhere and may break off anywhere, or a script.
fn ordinary(what: What, family: Family, rng: &mut Rng, length: usize) -> Vec<u8> {
    let length = rng.between(length / 2, length);
    if what == What::Script {
        let script = cuts::script(family, rng, length);
        if cuts::fits(&script) {
            return script;
        }
        return cuts::exactly(family, rng, length);
    }
    let mut capture = pieces::stream(family, rng, length);
    if rng.percent(50) {
        let cut_off = rng.below(capture.len().min(80));
        capture.truncate(capture.len() - cut_off);
    }
    if rng.percent(30) {
        let cut_off = rng.below(capture.len().min(80));
        capture.drain(..cut_off);
    }
    capture
}

/// Frames that go wrong at their ends, in a script cut there.
fn ends(what: What, family: Family, rng: &mut Rng) -> Vec<u8> {
    match what {
        What::Capture => pieces::row_of_ends(family, rng),
        What::Script => cuts::cut_ends(family, rng),
    }
}

/// A stream made for a purpose: all of it matters, so it is offered whole.
fn whole(what: What, rng: &mut Rng, stream: Vec<u8>) -> Vec<u8> {
    match what {
        What::Capture => stream,
        What::Script => cuts::whole_stream(rng, &stream),
    }
}

fn of_length(what: What, family: Family, rng: &mut Rng, length: usize) -> Vec<u8> {
    match what {
        What::Script => cuts::exactly(family, rng, length),
        What::Capture => {
            let mut capture = pieces::stream(family, rng, length);
            capture.truncate(length);
            capture
        }
    }
}

/// A few bytes only, where a slip at an end shows at once.
fn tiny(what: What, family: Family, rng: &mut Rng) -> Vec<u8> {
    let length = rng.between(1, 12);
    let mut stream = pieces::stream(family, rng, length);
    stream.truncate(length);
    if what == What::Capture {
        return stream;
    }
    if rng.percent(30) {
        // Read as a script, a stream is nearly always a bad one.
        return stream;
    }
    let mut script = vec![rng.pick(b"fo"), stream.len() as u8];
    script.extend(stream);
    script.extend(rng.pick(&[&b""[..], b"c", b"co\x00", b"cc", b"f\x00cf\x00", b"o"]));
    script
}

fn with_bad_family(rng: &mut Rng, what: What, family: Family) -> Vec<u8> {
    let mut input = vec![rng.pick(b"05\x01\x02\x03\x04\x00\xFFaA $^")];
    input.extend(tiny(what, family, rng));
    input
}

/// Both refusals would fit; the bad family is named.
fn with_bad_family_and_too_long(rng: &mut Rng) -> Vec<u8> {
    vec![rng.pick(b"05\x01\x00"); LONGEST_INPUT + 2]
}
