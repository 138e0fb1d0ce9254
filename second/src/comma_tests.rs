//! Tests of the two forms of a status report: with the line end right behind
//! the check bytes, and with a comma between.

use crate::frames::{frame_at_front, start_is_undecided, values, written, Family, Frame};
use crate::listing::listing;
use crate::make_comma::{all_broken_commas, RECORDED};
use crate::make_spe;
use crate::replay::replay;
use crate::rng::Rng;
use crate::spe::enclose_data;
use crate::stream::{Answer, Reader};
use crate::tests::{good, places, read_in_calls, values_of, CASE_2, CASE_5};

const FAMILY: Family = Family::SpeReplies;
const ACKNOWLEDGEMENT: &[u8] = b"\xAA\xAA\xAA\x01\x0D\x0D";

fn hexadecimal(bytes: &[u8]) -> String {
    bytes.iter().map(|byte| format!("{:02X}", byte)).collect()
}

#[test]
fn both_forms_are_read_written_and_read_back() {
    for (comma, length, last) in [(false, 75, "0"), (true, 76, "1")] {
        let report = enclose_data(CASE_5, comma);
        let (frame, found) = frame_at_front(FAMILY, &report).unwrap();
        assert_eq!((report.len(), found), (length, length));
        assert_eq!(values(&frame).last().unwrap(), last);
        assert_eq!(written(&frame), Some(report.clone()));
        // What stands behind it is of no concern.
        let longer = [&report[..], b",\r\n"].concat();
        assert_eq!(frame_at_front(FAMILY, &longer), Some((frame, length)));
        assert!(!good(FAMILY, &longer));
        assert_eq!(report[3], 0x43);
        assert_eq!(report[71..73], [0x6A, 0x0D]);
    }
}

/// But for the comma the record is the same.
#[test]
fn the_forms_differ_in_the_comma_only() {
    let mut rng = Rng::from_numbers(&[4]);
    let mut commas = 0;
    for _ in 0..2000 {
        let data = make_spe::sound_data(&mut rng);
        let plain = values_of(FAMILY, &enclose_data(&data, false));
        let comma = values_of(FAMILY, &enclose_data(&data, true));
        assert_eq!(plain.strip_suffix('0'), comma.strip_suffix('1'));
        commas += usize::from(make_spe::sound_report(&mut rng).len() == 76);
    }
    assert!((900..1100).contains(&commas));
}

#[test]
fn a_start_waits_for_76_bytes_with_a_comma_only() {
    let plain = enclose_data(CASE_5, false);
    let comma = enclose_data(CASE_5, true);
    for length in 1..75 {
        assert!(start_is_undecided(FAMILY, &plain[..length]));
        assert!(start_is_undecided(FAMILY, &comma[..length]));
    }
    assert!(!start_is_undecided(FAMILY, &plain));
    assert!(start_is_undecided(FAMILY, &comma[..75]));
    assert!(!start_is_undecided(FAMILY, &comma));
    // Nothing but that byte is looked at, whatever else is wrong.
    for byte in 0..=255 {
        let mut bytes = [&b"\xAA\xAA\xAA\x43"[..], &[0; 72]].concat();
        bytes[73] = byte;
        assert!(start_is_undecided(FAMILY, &bytes[..74]));
        assert_eq!(start_is_undecided(FAMILY, &bytes[..75]), byte == b',');
        assert!(!start_is_undecided(FAMILY, &bytes));
    }
    let mut counted = comma;
    counted[3] = 0x44;
    assert!(!start_is_undecided(FAMILY, &counted[..4]));
}

#[test]
fn the_recorded_report() {
    assert_eq!(RECORDED.len(), 76);
    let expected = "13K S R A 1 7 2a 0 M 0 0 0 0 0 77 0 0 N N 1";
    assert_eq!(values_of(FAMILY, RECORDED), expected);
    let (frame, length) = frame_at_front(FAMILY, RECORDED).unwrap();
    assert_eq!(length, 76);
    let again = written(&frame).unwrap();
    assert_eq!(again.len(), 76);
    assert_ne!(again, RECORDED);
    assert_eq!(&again[54..66], b", 77,  0,  0");
    assert_eq!(frame_at_front(FAMILY, &again), Some((frame, 76)));
    let script = [&b"1f\x4C"[..], RECORDED].concat();
    let line = format!(
        "frame 76 0 0 76 status {} | {}\nend\n",
        expected,
        hexadecimal(&again)
    );
    assert_eq!(replay(&script), line);
    let capture = [&b"1"[..], RECORDED, &enclose_data(CASE_5, false)].concat();
    assert_eq!(
        listing(&capture),
        "start length skipped kind\n0 76 0 status\n76 75 0 status\n\
         frames 2 bytes 151 skipped 0\n"
    );
}

/// Case 4 of the bench sheet: 75 bytes decide where no comma stands, and one
/// more where one does.
#[test]
fn case_4_with_a_comma_behind_the_data() {
    let mut stream = [&b"\xAA\xAA\xAA\x43"[..], CASE_2].concat();
    stream.resize(90, 0);
    for (byte, decided) in [(0x00, 75), (0x0D, 75), (b'+', 75), (b',', 76)] {
        stream[73] = byte;
        for size in 1..95 {
            let found = read_in_calls(FAMILY, &stream, &[size]);
            assert_eq!(found, [(4, 4, decided), (10, 0, decided)]);
        }
        // Closed one byte earlier, it comes to the same frames.
        let found = read_in_calls(FAMILY, &stream[..decided - 1], &[1]);
        assert_eq!(found, [(4, 4, decided - 1), (10, 0, decided - 1)]);
    }
}

#[test]
fn a_report_cut_before_its_last_byte() {
    let cut = &enclose_data(CASE_5, true)[..75];
    assert!(places(FAMILY, cut).is_empty());
    let mut reader = Reader::fresh(FAMILY);
    assert!(matches!(reader.call(cut), Answer::More { taken: 75 }));
    let stream = [cut, ACKNOWLEDGEMENT].concat();
    assert_eq!(places(FAMILY, &stream), [(75, 75)]);
    for size in 1..90 {
        let found = read_in_calls(FAMILY, &stream, &[size]);
        assert_eq!(found, [(75, 75, 81)]);
    }
    // Closed with those 75 bytes there is no frame.
    assert!(read_in_calls(FAMILY, cut, &[1]).is_empty());
}

#[test]
fn a_comma_right_behind_a_plain_report() {
    let stream = [&enclose_data(CASE_5, false)[..], b",", ACKNOWLEDGEMENT].concat();
    assert_eq!(places(FAMILY, &stream), [(0, 0), (76, 1)]);
    assert_eq!(
        read_in_calls(FAMILY, &stream, &[74, 1]),
        [(0, 0, 75), (76, 1, 82)]
    );
}

/// An outer report with a comma, in whose data a whole acknowledgement stands:
/// it comes out once the outer one is known to be bad, and not before.
#[test]
fn a_frame_in_the_data_waits_for_the_comma_form() {
    let mut data = CASE_5.to_vec();
    data[60..66].copy_from_slice(ACKNOWLEDGEMENT);
    let stream = enclose_data(&data, true);
    for size in 1..80 {
        assert_eq!(read_in_calls(FAMILY, &stream, &[size]), [(64, 64, 76)]);
    }
    assert_eq!(places(FAMILY, &stream[..75]), [(64, 64)]);
}

/// The second check byte is 0D here, as it nearly always is, and a comma right
/// behind it makes no line end of it.
#[test]
fn wrong_ends_are_no_frames() {
    let report = enclose_data(CASE_5, true);
    assert_eq!(report[72], 0x0D);
    for end in [
        &b",\r\r"[..],
        b",\n\r",
        b",\r\xAA",
        b",,\r\n",
        b",\r",
        b"\r,\n",
    ] {
        let bytes = [&report[..73], end].concat();
        assert!(frame_at_front(FAMILY, &bytes).is_none());
    }
    let mut rng = Rng::from_numbers(&[5]);
    for frame in all_broken_commas(&mut rng) {
        assert!(!good(FAMILY, &frame), "{}", frame.escape_ascii());
        if let Some((inner, length)) = frame_at_front(FAMILY, &frame) {
            assert!(matches!(inner, Frame::Status(_)) && length < frame.len());
        }
    }
}
