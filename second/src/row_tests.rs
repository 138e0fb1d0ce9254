//! Tests of what the archive is held against for KPA1500 messages: rows of
//! numbers, refusals and their order, and the state of a reader. The archive
//! itself is not needed here.

use crate::amp::*;
use crate::answers::answer;
use crate::calls::{Call, Lent, Outcome};
use crate::kpa::KNOWN;
use crate::rows::code_of;

const CARET_STATE: AmpReader = AmpReader {
    family: 4,
    closed: 0,
    count: 1,
    held: [b'^'; 133],
    at: 7,
    skipped: 3,
};

fn lent<T: Clone>(value: T, room: usize) -> Lent<T> {
    Lent {
        places: vec![value; room + 2],
        room,
    }
}

/// The row of a frame read by itself, less what is behind it; or the refusal.
fn row_of(frame: &[u8], room: usize) -> Result<Vec<i64>, usize> {
    let outcome = answer(&Call::Read {
        family: 4,
        bytes: frame.to_vec(),
        row: lent(-9, room),
    });
    if outcome.number != 0 {
        assert_eq!(outcome.row, vec![-9; room + 2]);
        return Err(outcome.number);
    }
    let laid = outcome.row.iter().take_while(|value| **value != -9);
    Ok(laid.copied().collect())
}

fn write(kind: u32, code: u32, values: &[i64], room: usize) -> Result<String, usize> {
    let outcome = answer(&Call::Write {
        kind,
        code,
        values: values.to_vec(),
        out: lent(b'#', room),
        length: 77,
    });
    if outcome.number != 0 {
        assert_eq!(outcome.bytes, vec![b'#'; room + 2]);
        assert_eq!(outcome.size, Some(77));
        return Err(outcome.number);
    }
    let (laid, behind) = outcome.bytes.split_at(outcome.size.unwrap());
    assert!(behind.iter().all(|byte| *byte == b'#'));
    Ok(String::from_utf8_lossy(laid).into_owned())
}

fn feed(reader: AmpReader, offered: &[u8]) -> Outcome {
    answer(&Call::Feed {
        reader,
        offered: offered.to_vec(),
        row: lent(-9, AMP_ROW),
    })
}

fn held(outcome: &Outcome) -> Vec<u8> {
    let reader = outcome.reader.unwrap();
    let (used, unused) = reader.held.split_at(usize::from(reader.count));
    assert!(unused.iter().all(|byte| *byte == 0));
    used.to_vec()
}

#[test]
fn codes_are_the_headers() {
    let codes = [
        AMP_SN, AMP_RV, AMP_PWF, AMP_PWI, AMP_PWR, AMP_PWD, AMP_FR, AMP_FQ, AMP_FS, AMP_HS, AMP_CC,
        AMP_FT,
    ];
    assert!(KNOWN.iter().map(code_of).eq(codes));
}

#[test]
fn rows_of_messages() {
    for (frame, row) in [
        (&b"^SN00022;"[..], &[8, 0x534E, 0, 0, 0, 9, 22][..]),
        (b"^sn;", &[7, 0x534E, 0, 0, 0, 4]),
        (b"^RV01.23;", &[8, 0x5256, 0, 0, 0, 9, 1, 23]),
        (b"^pwf0750;", &[8, 0x50_5746, 0, 0, 0, 9, 750]),
        (b"^FT;", &[8, 0x4654, 0, 0, 0, 4]),
    ] {
        assert_eq!(row_of(frame, AMP_ROW), Ok(row.to_vec()));
        assert_eq!(row_of(frame, row.len()), Ok(row.to_vec()));
        assert_eq!(row_of(frame, row.len() - 1), Err(4));
    }
    let clock = [8, 0x4343, 0, 0, 0, 21, 17, 7, 31, 13, 15, 0];
    assert_eq!(row_of(b"^CC17-07-31T13:15:00;", 12), Ok(clock.to_vec()));
    assert_eq!(row_of(b"^CC17-07-31T13:15:00;", 11), Err(4));
    assert_eq!(row_of(b"^CC17-07-32T13:15:00;", 11), Err(8));
}

#[test]
fn rows_of_others() {
    let first = |frame: &[u8]| row_of(frame, 16).map(|row| row[AMP_VALUES..].to_vec());
    let filled = |values: &[i64]| {
        let mut values = values.to_vec();
        values.resize(10, 0);
        Ok(values)
    };
    assert_eq!(first(b"^i;"), filled(&[0x49]));
    assert_eq!(first(b"^bt ok;"), filled(&[0x4254]));
    assert_eq!(first(b"^RVM01.23;"), filled(&[0x52_564D]));
    assert_eq!(first(b"^HSAB1;"), filled(&[0x4853_4142]));
    assert_eq!(first(b"^ABCDE;"), filled(&[0x4142_4344, 0x45]));
    let long = first(b"^zzzzzzzzzzzzzzzzzzzzzzzzzzzzzzzzzzzzzz;").unwrap();
    assert_eq!(long[..9], [0x5A5A_5A5A; 9]);
    assert_eq!(long[9], 0x5A5A);
    let row = row_of(b"^bt ok;", AMP_ROW).unwrap();
    assert_eq!(row[..AMP_VALUES], [9, 0, 0, 0, 0, 7]);
    assert_eq!(row.len(), 16);
    assert_eq!(row_of(b"^bt ok;", 15), Err(4));
}

#[test]
fn what_is_written() {
    assert_eq!(write(7, AMP_PWF, &[], 5), Ok("^PWF;".to_string()));
    assert_eq!(write(7, AMP_SN, &[-1], 9), Ok("^SN;".to_string()));
    assert_eq!(write(8, AMP_FT, &[], 4), Ok("^FT;".to_string()));
    assert_eq!(write(8, AMP_FT, &[5], 4), Ok("^FT;".to_string()));
    assert_eq!(write(8, AMP_SN, &[22], 9), Ok("^SN00022;".to_string()));
    assert_eq!(write(8, AMP_RV, &[1, 23], 9), Ok("^RV01.23;".to_string()));
    let values = [0, 2, 29, 23, 59, 59, i64::MIN];
    let clock = Ok("^CC00-02-29T23:59:59;".to_string());
    assert_eq!(write(8, AMP_CC, &values, 21), clock);
    assert_eq!(write(8, AMP_CC, &values, 20), Err(4));
    assert_eq!(write(7, AMP_PWF, &[], 4), Err(4));
}

#[test]
fn what_is_not_written() {
    for (kind, code, values) in [
        (7, AMP_FT, &[][..]),
        (7, 0, &[]),
        (7, 0x4254, &[]),
        (7, 0x736E, &[]),
        (7, 0x8000_534E, &[]),
        (8, 0, &[]),
        (8, 0x4254, &[1]),
        (8, AMP_SN, &[]),
        (8, AMP_SN, &[-1]),
        (8, AMP_SN, &[100_000]),
        (8, AMP_SN, &[0x1_0000_0000]),
        (8, AMP_RV, &[1]),
        (8, AMP_RV, &[1, 100]),
        (8, AMP_PWD, &[10_000]),
        (8, AMP_FS, &[6]),
        (8, AMP_HS, &[2]),
        (8, AMP_CC, &[17, 7, 31, 13, 15]),
        (8, AMP_CC, &[1, 2, 29, 0, 0, 0]),
        (8, AMP_CC, &[100, 1, 1, 0, 0, 0]),
        (8, AMP_CC, &[17, 0, 1, 0, 0, 0]),
        (8, AMP_CC, &[17, 7, 31, 24, 0, 0]),
        (9, 0, &[0x4254, 0, 0, 0, 0, 0, 0, 0, 0, 0]),
        (9, AMP_SN, &[22]),
        (5, AMP_SN, &[22]),
        (10, AMP_SN, &[22]),
        (4, AMP_SN, &[22]),
    ] {
        assert_eq!(write(kind, code, values, 40), Err(3));
        assert_eq!(write(kind, code, values, 0), Err(3));
    }
    assert_eq!(write(1, AMP_SN, &[22], 40), Err(2));
}

#[test]
fn states_of_a_reader() {
    let mut state = CARET_STATE;
    state.held[1..].fill(b'7');
    for count in 1..=39 {
        state.count = count;
        let outcome = feed(state, b"");
        assert_eq!(held(&outcome).len(), usize::from(count));
        // The first byte behind the caret is no letter, and still it waits.
        let outcome = feed(state, b"x");
        let expected = if count < 39 {
            usize::from(count) + 1
        } else {
            0
        };
        assert_eq!(held(&outcome).len(), expected);
        assert_eq!(held(&feed(state, b";")).len(), 0);
        assert_eq!(held(&feed(state, b"\x1F")).len(), 0);
        assert_eq!(held(&feed(state, b"^")), b"^");
    }
    state.count = 40;
    assert_eq!(feed(state, b"").number, 6);
    assert_eq!(answer(&Call::Close { reader: state }).number, 6);
    state.closed = 1;
    assert_eq!(feed(state, b"x").number, 6);
    state.count = 39;
    assert_eq!(feed(state, b"x").number, 5);
    state.family = 5;
    assert_eq!(feed(state, b"x").number, 1);
}

#[test]
fn frames_of_a_stream() {
    let outcome = feed(CARET_STATE, b"^Sn00022;^F");
    assert_eq!(outcome.row[..7], [8, 0x534E, 9, 8, 4, 9, 22]);
    assert_eq!(held(&outcome), b"");
    let outcome = feed(CARET_STATE, b"RV;");
    assert_eq!(outcome.row[..6], [7, 0x5256, 3, 7, 3, 4]);
    let reader = outcome.reader.unwrap();
    assert_eq!((reader.at, reader.skipped, reader.count), (11, 0, 0));
}

/// No message is a status report.
#[test]
fn captures_of_messages() {
    let capture = b"..^SN;^FT;";
    for (family, place, reports, found) in [
        (4, 0, 0, (4, 2)),
        (4, 3, 0, (4, 6)),
        (4, 0, 1, (0, 9)),
        (4, 11, 0, (0, 9)),
        (5, 0, 0, (0, 9)),
    ] {
        let outcome = answer(&Call::Next {
            family,
            capture: capture.to_vec(),
            place,
            reports,
            start: 9,
        });
        assert_eq!((outcome.number, outcome.size), (found.0, Some(found.1)));
    }
    for (family, room, number) in [(4, 2, 0), (4, 1, 4), (5, 2, 1)] {
        let outcome = answer(&Call::List {
            family,
            capture: capture.to_vec(),
            starts: lent(77, room),
            count: 9,
        });
        assert_eq!(outcome.number, number);
        if number == 0 {
            assert_eq!(outcome.starts, [2, 6, 77, 77]);
            assert_eq!(outcome.size, Some(2));
        }
    }
}
