//! Tests of KPA1500 messages: what is read and what not, when a start is
//! decided, what is written and what the programs print.

use crate::frames::{frame_at_front, start_is_undecided, values, written, Family, Frame};
use crate::kpa::{enclose_body, Message, KNOWN, LONGEST_MESSAGE};
use crate::listing::listing;
use crate::make_kpa;
use crate::replay::replay;
use crate::rng::Rng;
use crate::stream::{Answer, Reader};
use crate::tests::{good, places, read_in_calls, values_of};

const FAMILY: Family = Family::Kpa;

/// What is expected of bytes as one frame: "not good", "other", or values.
fn reading_of(bytes: &[u8]) -> String {
    match frame_at_front(FAMILY, bytes) {
        Some((_, length)) if length != bytes.len() => "not good".to_string(),
        Some((Frame::Message(Message::Other(letters)), _)) => {
            format!("other {}", String::from_utf8_lossy(&letters))
        }
        _ => values_of(FAMILY, bytes),
    }
}

fn check(expected: &[(&str, &str)]) {
    for (frame, reading) in expected {
        assert_eq!(&reading_of(frame.as_bytes()), reading, "{}", frame);
    }
}

fn again(frame: &str) -> Option<String> {
    let (read, _) = frame_at_front(FAMILY, frame.as_bytes())?;
    written(&read).map(|bytes| String::from_utf8_lossy(&bytes).into_owned())
}

/// The bytes that a fresh reader holds after it was offered these.
fn held_after(bytes: &[u8]) -> usize {
    let mut reader = Reader::fresh(FAMILY);
    assert!(matches!(reader.call(bytes), Answer::More { .. }));
    reader.held.len()
}

#[test]
fn questions_replies_and_others() {
    check(&[
        ("^SN;", "?"),
        ("^SN00022;", "22"),
        ("^SN99999;", "99999"),
        ("^RV01.23;", "1 23"),
        ("^RV99.00;", "99 0"),
        ("^PWF0750;", "750"),
        ("^PWI0000;", "0"),
        ("^PWR0001;", "1"),
        ("^PWD9999;", "9999"),
        ("^FR14200;", "14200"),
        ("^FQ00000;", "0"),
        ("^FS0;", "0"),
        ("^FS5;", "5"),
        ("^HS1;", "1"),
        ("^CC17-07-31T13:15:00;", "17 7 31 13 15 0"),
        ("^FT;", ""),
        ("^ft;", ""),
        ("^rv;", "?"),
        ("^rV;", "?"),
        ("^cc;", "?"),
        ("^RVM01.23;", "other RVM"),
        ("^HSAB1;", "other HSAB"),
        ("^HSAB;", "other HSAB"),
        ("^PW0750;", "other PW"),
        ("^SNA00022;", "other SNA"),
        ("^FTX;", "other FTX"),
        ("^I;", "other I"),
        ("^kpa1500;", "other KPA"),
        ("^S N;", "other S"),
        ("^bt ok;", "other BT"),
        ("^BT $*~;", "other BT"),
        ("^TB032 1565W;", "other TB"),
        ("^ABAB 31 31 31 31 02 31 31 31 31 02 01;", "other ABAB"),
    ]);
}

#[test]
fn listed_letters_with_anything_else_are_not_good() {
    let bad = [
        "^HS01;",
        "^HS2;",
        "^FT1;",
        "^FT ;",
        "^SN0022;",
        "^SN000022;",
        "^SN 0022;",
        "^SN ;",
        "^SN00022 ;",
        "^SN00022A;",
        "^RV1.23;",
        "^RV01.2;",
        "^RV01,23;",
        "^PWF750;",
        "^PWF07500;",
        "^FS6;",
        "^FS;;",
        "^FS00;",
        "^;",
        "^ SN;",
        "^1SN;",
        "^@A;",
        "^[A;",
        "^`A;",
        "^{A;",
        "^^SN;",
        "SN;",
        "^SN",
        "^",
        ";",
        "",
    ];
    for frame in bad {
        assert_eq!(reading_of(frame.as_bytes()), "not good", "{}", frame);
    }
    let long = "^ALAB 000 010 020 030 040 050 060 070 080 090 100;";
    assert!(!good(FAMILY, long.as_bytes()));
}

#[test]
fn dates_and_times() {
    check(&[
        ("^CC00-02-29T00:00:00;", "0 2 29 0 0 0"),
        ("^CC96-02-29T23:59:59;", "96 2 29 23 59 59"),
        ("^cC99-12-31T23:59:59;", "99 12 31 23 59 59"),
        ("^CC00-01-01T00:00:00;", "0 1 1 0 0 0"),
        ("^CC01-02-29T00:00:00;", "not good"),
        ("^CC00-02-30T00:00:00;", "not good"),
        ("^CC17-00-01T00:00:00;", "not good"),
        ("^CC17-13-01T00:00:00;", "not good"),
        ("^CC17-01-00T00:00:00;", "not good"),
        ("^CC17-04-31T00:00:00;", "not good"),
        ("^CC17-12-32T00:00:00;", "not good"),
        ("^CC17-07-31T24:00:00;", "not good"),
        ("^CC17-07-31T00:60:00;", "not good"),
        ("^CC17-07-31T00:00:60;", "not good"),
        ("^CC17-07-31t13:15:00;", "not good"),
        ("^CC17-07-31T13:15:00Z;", "not good"),
        ("^CC17-07-31T13:15;", "not good"),
        ("^CC2017-07-31T13:15:00;", "not good"),
    ]);
}

/// Every day of the hundred years, counted in another way: the good ones must
/// be as many as there are, and each must be the day after the one before.
#[test]
fn all_days_of_a_hundred_years() {
    let mut days = Vec::new();
    for year in 0..100 {
        for month in 0..100 {
            for day in 0..100 {
                let text = format!("^CC{:02}-{:02}-{:02}T00:00:00;", year, month, day);
                if good(FAMILY, text.as_bytes()) {
                    days.push((year, month, day));
                }
            }
        }
    }
    assert_eq!(days.len(), 100 * 365 + 25);
    for (number, (year, month, day)) in days.iter().enumerate() {
        assert_eq!(day_number(2000 + year, *month, *day), number as i64);
    }
}

/// Days since the first of January 2000. The year begins with March here, so
/// that a leap day is its last and the months before it follow one formula.
fn day_number(year: i64, month: i64, day: i64) -> i64 {
    let (year, month) = if month < 3 {
        (year - 1, month + 9)
    } else {
        (year, month - 3)
    };
    let before_year = 365 * year + year / 4 - year / 100 + year / 400;
    before_year + (153 * month + 2) / 5 + day - 1 - 730_425
}

#[test]
fn bytes_that_may_stand_inside() {
    for byte in 0..=255 {
        let allowed = (0x20..=0x7E).contains(&byte) && byte != b'^' && byte != b';';
        assert_eq!(good(FAMILY, &[b'^', b'b', b't', byte, b';']), allowed);
        let start = [b'^', byte];
        assert_eq!(start_is_undecided(FAMILY, &start), allowed);
        let first = [b'^', byte, b';'];
        assert_eq!(good(FAMILY, &first), byte.is_ascii_alphabetic());
    }
}

#[test]
fn the_longest_messages() {
    for letters in [1, 2, 37, 38, 39] {
        for length in [36, 37, 38, 39, 40] {
            if letters > length {
                continue;
            }
            let body = [vec![b'q'; letters], vec![b'7'; length - letters]].concat();
            assert_eq!(good(FAMILY, &enclose_body(&body)), length <= 38);
        }
    }
    let (frame, length) = frame_at_front(FAMILY, &enclose_body(&[b'z'; 38])).unwrap();
    assert_eq!(length, LONGEST_MESSAGE);
    assert_eq!(frame, Frame::Message(Message::Other(vec![b'Z'; 38])));
}

#[test]
fn when_a_start_is_decided() {
    for first in [&b"S"[..], b"0", b" ", b"~"] {
        let long = [b"^", first, &[b'x'; 90]].concat();
        for length in 1..=39 {
            assert!(start_is_undecided(FAMILY, &long[..length]));
            assert_eq!(held_after(&long[..length]), length);
            for decider in [b';', b'^', 0x1F, 0x7F, 0x00, 0xFF] {
                let mut decided = long[..length].to_vec();
                decided.push(decider);
                assert!(!start_is_undecided(FAMILY, &decided));
            }
        }
        for length in 40..=62 {
            assert!(!start_is_undecided(FAMILY, &long[..length]));
            assert_eq!(held_after(&long[..length]), 0);
        }
        // With a caret among them the second start waits in its turn.
        for place in 1..=39 {
            let mut two = long.clone();
            two[place] = b'^';
            assert!(!start_is_undecided(FAMILY, &two[..place + 1]));
            assert_eq!(held_after(&two[..40]), 40 - place);
            assert_eq!(held_after(&two[..place + 39]), 39);
            assert_eq!(held_after(&two[..place + 40]), 0);
        }
    }
    assert!(!start_is_undecided(FAMILY, b"x"));
    assert!(!start_is_undecided(FAMILY, b";"));
    assert_eq!(held_after(b"^^^"), 1);
    assert_eq!(held_after(b"^1;^"), 1);
}

/// A message behind a start that waits comes once that start is decided, by
/// its own semicolon at the earliest and by 39 bytes at the latest.
#[test]
fn no_message_comes_late() {
    let mut rng = Rng::from_numbers(&[6]);
    for _ in 0..3000 {
        let mut stream = make_kpa::any_long_start(&mut rng);
        stream.extend(make_kpa::sound_message(&mut rng));
        let size = rng.between(1, 50);
        let found = read_in_calls(FAMILY, &stream, &[size]);
        let without: Vec<(usize, usize)> = found.iter().map(|line| (line.0, line.1)).collect();
        assert_eq!(without, places(FAMILY, &stream));
        assert!(found.iter().all(|line| line.2 <= line.0 + LONGEST_MESSAGE));
    }
}

#[test]
fn the_writer_uses_capitals() {
    for (frame, form) in [
        ("^pWf0750;", "^PWF0750;"),
        ("^sn;", "^SN;"),
        ("^fT;", "^FT;"),
        ("^rv01.23;", "^RV01.23;"),
        ("^hs0;", "^HS0;"),
        ("^cc17-07-31T13:15:00;", "^CC17-07-31T13:15:00;"),
    ] {
        assert_eq!(again(frame).as_deref(), Some(form));
        assert_eq!(again(form).as_deref(), Some(form));
    }
    assert_eq!(again("^RVM01.23;"), None);
}

/// Written and read again, a message is the same; read and written again, it
/// is the same exactly when its letters were capitals.
#[test]
fn only_the_case_of_letters_is_not_kept() {
    let mut rng = Rng::from_numbers(&[7]);
    let mut small = 0;
    for _ in 0..20_000 {
        let bytes = make_kpa::sound_message(&mut rng);
        let (frame, _) = frame_at_front(FAMILY, &bytes).unwrap();
        if let Some(again) = written(&frame) {
            assert_eq!(frame_at_front(FAMILY, &again), Some((frame, bytes.len())));
            assert_eq!(again, bytes.to_ascii_uppercase());
            small += usize::from(again != bytes);
        }
    }
    assert!(small > 3000);
}

/// The generator reaches every listed name, in every kind that it has.
#[test]
fn sound_messages_are_of_every_kind() {
    let mut rng = Rng::from_numbers(&[8]);
    let mut seen = Vec::new();
    for _ in 0..5000 {
        let bytes = make_kpa::sound_message(&mut rng);
        let (frame, _) = frame_at_front(FAMILY, &bytes).unwrap();
        if let Frame::Message(message) = &frame {
            let asked = matches!(message, Message::Question(_));
            let other = matches!(message, Message::Other(_));
            let name = if other { b"" } else { message.letters() };
            seen.push((name.to_vec(), asked, values(&frame).len()));
        }
    }
    for known in &KNOWN {
        let letters = known.letters.as_bytes().to_vec();
        assert!(seen.contains(&(letters.clone(), false, known.fields.len())));
        let asked = seen.contains(&(letters, true, 1));
        assert_eq!(asked, known.letters != "FT");
    }
    assert!(seen.contains(&(Vec::new(), false, 0)));
}

#[test]
fn what_listing_prints() {
    let capture = b"4;;^rv;^RV01.23;^hsab1;^FT;^FT1;^SN00022;\r\n^I";
    assert_eq!(
        listing(capture),
        "start length skipped kind\n2 4 2 RV\n6 9 0 RV\n15 7 0 HSAB\n22 4 0 FT\n\
         31 9 5 SN\nframes 5 bytes 44 skipped 11\n"
    );
    let nothing = "start length skipped kind\nframes 0 bytes 0 skipped 0\n";
    assert_eq!(listing(b"4"), nothing);
}

#[test]
fn what_replay_prints() {
    let script = [
        &b"4o\x1D^^pwf0750;^PWF;^bt ok;^FT;^SN"[..],
        b"f\x0600022;",
        b"co\x00",
    ]
    .concat();
    assert_eq!(
        replay(&script),
        "frame 10 1 1 9 PWF 750 | 5E505746303735303B\n\
         frame 5 10 0 5 PWF ? | 5E5057463B\n\
         frame 7 15 0 7 BT | -\n\
         frame 4 22 0 4 FT | 5E46543B\n\
         more 3\n\
         frame 6 26 0 9 SN 22 | 5E534E30303032323B\n\
         closed\ndone 0\nend\n"
    );
    assert_eq!(
        replay(b"4f\x0A^RV01.23;^f\x00cf\x00f\x01^"),
        "frame 9 0 0 9 RV 1 23 | 5E525630312E32333B\n\
         more 0\nclosed\ndone 0\nrefused 5\nend\n"
    );
}
