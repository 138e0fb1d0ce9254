//! Cuts test streams into calls and so makes the scripts for `replay`.

use crate::frames::{Family, LONGEST_INPUT};
use crate::kpa::CARET;
use crate::pieces;
use crate::rng::Rng;
use crate::spe::{AMPLIFIER_MARK, HOST_MARK};

/// Call sizes at which something may change: none, one, around the marks, and
/// around the longest frames.
const SIZES: &[usize] = &[
    0, 1, 1, 2, 3, 4, 5, 6, 7, 8, 12, 38, 39, 40, 41, 64, 73, 74, 75, 76, 77, 127, 128, 129, 132,
    133, 134, 135, 150, 254, 255,
];

/// A script of roughly `length` bytes in one of several styles of cutting.
pub fn script(family: Family, rng: &mut Rng, length: usize) -> Vec<u8> {
    let mut script = match rng.below(8) {
        0 | 1 => swept_cuts(family, rng, length),
        2 => wild_calls(family, rng, length),
        _ => {
            let stream = pieces::stream(family, rng, length * 3 / 4);
            cut_stream(rng, &stream)
        }
    };
    script.extend(ending(family, rng));
    script
}

/// A script that offers a whole stream, closes and drains. Cut into single
/// bytes a long stream makes too long a script; then other cuts are tried.
pub fn whole_stream(rng: &mut Rng, stream: &[u8]) -> Vec<u8> {
    loop {
        let mut script = cut_stream_with(rng, stream, 0);
        script.extend(b"co\x00");
        if fits(&script) {
            return script;
        }
    }
}

/// The frames of `pieces::ends`, each offered several times and each time cut
/// in two at another place near where a report or a message is decided at the
/// latest, or near its end.
pub fn cut_ends(family: Family, rng: &mut Rng) -> Vec<u8> {
    let mut script = Vec::new();
    for frame in pieces::ends(family, rng) {
        for _ in 0..3 {
            let near_end = frame.len() - rng.below(7).min(frame.len());
            // No call can offer more than 255 bytes.
            let longest = frame.len().min(255);
            let cut = match family {
                Family::Kpa => rng.pick(&[38, 39, 40, 41, near_end]),
                _ => rng.pick(&[73, 74, 75, 76, near_end]),
            };
            let cut = cut.min(longest);
            push_offer(&mut script, b'o', &frame[..cut]);
            push_offer(&mut script, b'o', &frame[cut..]);
            let between = pieces::between_ends(family, rng);
            push_offer(&mut script, b'o', &between);
        }
    }
    script.extend(b"co\x00");
    script
}

/// A script of exactly `length` bytes that is good to its end.
pub fn exactly(family: Family, rng: &mut Rng, length: usize) -> Vec<u8> {
    let stream = pieces::stream(family, rng, length);
    let mut rest = &stream[..];
    let mut script = Vec::new();
    while script.len() < length {
        let room = length - script.len();
        if room == 1 {
            script.push(b'c');
            break;
        }
        let size = rng.pick(SIZES).min(room - 2).min(rest.len());
        push_offer(&mut script, b'o', &rest[..size]);
        rest = &rest[size..];
    }
    script
}

fn push_offer(script: &mut Vec<u8>, letter: u8, bytes: &[u8]) {
    script.push(letter);
    script.push(bytes.len() as u8);
    script.extend_from_slice(bytes);
}

fn cut_stream(rng: &mut Rng, stream: &[u8]) -> Vec<u8> {
    // How often a call throws its untaken rest away.
    let thrown = rng.pick(&[0, 0, 0, 10, 50, 100]);
    cut_stream_with(rng, stream, thrown)
}

fn cut_stream_with(rng: &mut Rng, stream: &[u8], thrown: usize) -> Vec<u8> {
    let mut script = Vec::new();
    let mut rest = stream;
    let style = rng.below(5);
    let fixed = rng.pick(&SIZES[1..]);
    while !rest.is_empty() {
        let size = match style {
            0 => fixed,
            1 => rng.pick(SIZES),
            2 => rng.below(256),
            3 => behind_next_mark(rng, rest),
            _ => rng.pick(&[0, 1, 1, 1, 2]),
        };
        let size = size.min(rest.len());
        let letter = if rng.percent(thrown) { b'f' } else { b'o' };
        push_offer(&mut script, letter, &rest[..size]);
        rest = &rest[size..];
        if rng.percent(3) {
            script.extend(rng.pick(&[b"o\x00", b"f\x00"]));
        }
    }
    script
}

/// A size that ends a call where the next frame is about to be decided.
fn behind_next_mark(rng: &mut Rng, rest: &[u8]) -> usize {
    let is_mark = |byte: &u8| [AMPLIFIER_MARK, HOST_MARK, b'$', CARET].contains(byte);
    let before = rest.iter().position(is_mark).unwrap_or(0);
    let sizes: &[usize] = match rest.get(before) {
        Some(&CARET) => &[1, 2, 3, 4, 38, 39, 40, 41],
        _ => &[3, 4, 5, 6, 73, 74, 75, 76],
    };
    (before + rng.pick(sizes)).min(255)
}

/// The same short stream again and again, each time cut in two at another
/// place, until every place has had its turn or the script is long enough.
fn swept_cuts(family: Family, rng: &mut Rng, length: usize) -> Vec<u8> {
    let wanted = rng.between(1, 100);
    let mut stream = pieces::stream(family, rng, wanted);
    stream.truncate(255);
    let mut script = Vec::new();
    let first = rng.below(stream.len() + 1);
    for step in 0..=stream.len() {
        let (head, tail) = stream.split_at((first + step) % (stream.len() + 1));
        push_offer(&mut script, b'o', head);
        push_offer(&mut script, b'o', tail);
        if script.len() > length * 3 {
            break;
        }
    }
    script
}

/// Calls without a plan: closes in the middle, offers after them.
fn wild_calls(family: Family, rng: &mut Rng, length: usize) -> Vec<u8> {
    let mut script = Vec::new();
    let stream = pieces::stream(family, rng, length);
    let mut rest = &stream[..];
    let closes = rng.pick(&[0, 1, 5, 20]);
    while script.len() < length {
        if rng.percent(closes) {
            script.push(b'c');
            continue;
        }
        let size = rng.pick(SIZES).min(rest.len());
        let letter = rng.pick(b"fo");
        push_offer(&mut script, letter, &rest[..size]);
        // Sometimes the same bytes are offered once more.
        if rng.percent(80) {
            rest = &rest[size..];
        }
    }
    script
}

/// How a script ends: open, closed, drained in several ways, offered to after
/// close, or spoiled.
fn ending(family: Family, rng: &mut Rng) -> Vec<u8> {
    let frame = pieces::sound_frame(family, rng);
    let mut late = Vec::new();
    push_offer(&mut late, rng.pick(b"fo"), &frame);
    match rng.below(14) {
        0 => Vec::new(),
        1 => b"c".to_vec(),
        2..=5 => b"co\x00".to_vec(),
        6 => b"cf\x00f\x00f\x00f\x00".to_vec(),
        7 => b"cco\x00cf\x00o\x00".to_vec(),
        8 => [&b"co\x00"[..], &late, b"co\x00"].concat(),
        9 => [&b"c"[..], &late, b"f\x00", &late, b"o\x00c"].concat(),
        10 => vec![rng.pick(b"fo")],
        11 => late[..rng.between(1, late.len() - 1)].to_vec(),
        12 => vec![b'c', rng.pick(b"xFCO \x00\xFF1g"), b'c'],
        _ => b"o\x00f\x00cf\x00o\x00".to_vec(),
    }
}

/// Whether a script still has an allowed length; longer ones are made on
/// purpose elsewhere.
pub fn fits(script: &[u8]) -> bool {
    script.len() <= LONGEST_INPUT
}
