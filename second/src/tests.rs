//! Tests: the bench sheet, the printed sentences, the example of `replay`, and
//! the generator held against the rules. Built with `rustc --test`.

use crate::alpha::{check_digits, enclose_payload};
use crate::frames::{frame_at_front, values, written, Family, FAMILIES};
use crate::generate::{self, What};
use crate::listing::{list_frames, listing};
use crate::replay::replay;
use crate::rng::Rng;
use crate::spe::{check_bytes, enclose_data};
use crate::stream::{Answer, Reader};
use crate::{make_alpha, make_spe, pieces, spoil_kpa};

pub const CASE_2: &[u8] = b"\xAA\xAA\xAA\x01\x0D\x0D\xAA\xAA\xAA\x01\x09\x09";
pub const CASE_5: &[u8] = b",20K,S,R,x,2,03,2t,0r,M,0000, 0.00, 0.00, 0.0, 0.0, 31, 29, 30,N,N,";
const CASE_7: &[u8] = b"$APA05,11,18,1B,34,00,2A,01*A844";

/// Sentences printed in the Alpha's document, with their line breaks undone.
const PRINTED: &[&str] = &[
    "$APA00,AmateurProto,63942A0008,1.19,1.19,1.16,1.16,1.16*283E",
    "$APA02,15017,010,2590,3169,0768,230,096,057,1,6,01,0,15721*D83F",
    "$APA03,499,121,240,121,389,2370,000,5,+028.0*9D7D",
    "$APA04,01750,02000,03450,04100,06900,07500,09900,10600,13900,14600,17900,18600,20900,21600,24400,25000,27995,29900*E213",
    "$APA05,11,18,1B,34,00,2A,01*A844",
    "$APA06,FF,FF,FF,FF,FF,FF,FF,FF,FF,FF,71,01,01,01,01,01,01,01,04,01,01,01,01,01,01,01,01,01,01,01,01*4203",
    "$APA11,02,0000,00EA,0068,0068*72B4",
];

pub fn good(family: Family, bytes: &[u8]) -> bool {
    match frame_at_front(family, bytes) {
        Some((_, length)) => length == bytes.len(),
        None => false,
    }
}

/// Start and skipped of each frame of a whole capture.
pub fn places(family: Family, capture: &[u8]) -> Vec<(usize, usize)> {
    list_frames(family, capture)
        .iter()
        .map(|line| (line.start, line.skipped))
        .collect()
}

pub fn values_of(family: Family, bytes: &[u8]) -> String {
    match frame_at_front(family, bytes) {
        Some((frame, _)) => values(&frame).join(" "),
        None => "not good".to_string(),
    }
}

/// Offers a stream in calls of the given sizes, closes and drains; gives
/// start and skipped of each frame, and the bytes taken up to each.
pub fn read_in_calls(family: Family, stream: &[u8], sizes: &[usize]) -> Vec<(usize, usize, usize)> {
    let mut reader = Reader::fresh(family);
    let mut found = Vec::new();
    let (mut taken, mut offered) = (0, 0);
    let mut sizes = sizes.iter().cycle();
    while offered < stream.len() {
        offered = (offered + sizes.next().unwrap()).min(stream.len());
        while let Answer::Frame(frame) = {
            let answer = reader.call(&stream[taken..offered]);
            if let Answer::More { taken: more } = answer {
                assert_eq!(taken + more, offered);
                taken = offered;
            }
            answer
        } {
            taken += frame.taken;
            found.push((frame.start as usize, frame.skipped as usize, taken));
        }
    }
    reader.close();
    while let Answer::Frame(frame) = reader.call(&[]) {
        found.push((frame.start as usize, frame.skipped as usize, taken));
    }
    assert!(matches!(reader.call(&[]), Answer::Done { taken: 0 }));
    assert!(matches!(reader.call(&[1]), Answer::Refused(5)));
    found
}

#[test]
fn bench_cases_1_to_3() {
    let printed = "start length skipped kind\n1 6 1 ack 0D\nframes 1 bytes 7 skipped 1\n";
    assert_eq!(listing(b"1\xAA\xAA\xAA\xAA\x01\x0D\x0D"), printed);
    assert_eq!(places(Family::SpeReplies, CASE_2), [(0, 0), (6, 0)]);
    let case_3 = [&b"\xAA\xAA\xAA\x01\x0D\x0E"[..], &CASE_2[..6]].concat();
    assert_eq!(places(Family::SpeReplies, &case_3), [(6, 6)]);
}

#[test]
fn bench_case_4() {
    let mut stream = [&b"\xAA\xAA\xAA\x43"[..], CASE_2].concat();
    assert_eq!(
        read_in_calls(Family::SpeReplies, &stream, &[1]),
        [(4, 4, 16), (10, 0, 16)]
    );
    assert_eq!(places(Family::SpeReplies, &stream), [(4, 4), (10, 0)]);
    stream.extend([0; 70]);
    for size in 1..90 {
        let found = read_in_calls(Family::SpeReplies, &stream, &[size]);
        assert_eq!(found, [(4, 4, 75), (10, 0, 75)]);
    }
}

#[test]
fn bench_cases_5_and_6() {
    assert_eq!(check_bytes(CASE_5), [0x6A, 0x0D]);
    let mut frame = enclose_data(CASE_5, false);
    assert_eq!(frame.len(), 75);
    let expected = "20K S R x 2 3 2t 0 M 0 0 0 0 0 31 29 30 N N 0";
    assert_eq!(values_of(Family::SpeReplies, &frame), expected);
    frame.swap(71, 72);
    assert!(!good(Family::SpeReplies, &frame));
}

#[test]
fn bench_cases_7_to_9() {
    assert_eq!(values_of(Family::Alpha, CASE_7), "1 1 1 8 1 11 3 4 0 42 1");
    assert!(!good(Family::Alpha, b"$APA05,11,18,1B,34,00,2A,01*a844"));
    let case_9 = [&b"$APA0"[..], CASE_7].concat();
    assert_eq!(places(Family::Alpha, &case_9), [(5, 5)]);
    assert_eq!(read_in_calls(Family::Alpha, &case_9, &[3]), [(5, 5, 37)]);
}

#[test]
fn bench_cases_10_to_13() {
    assert!(!good(Family::SpeReplies, b"\xAA\xAA\xAA\x01\x90\x90"));
    assert!(good(Family::SpeCommands, b"\x55\x55\x55\x01\x90\x90"));
    for (byte, family) in [(b'1', Family::SpeReplies), (b'2', Family::Alpha)] {
        assert!(read_in_calls(family, &[], &[1]).is_empty());
        assert_eq!(replay(&[byte, b'c', b'f', 0]), "closed\ndone 0\nend\n");
        let nothing = "start length skipped kind\nframes 0 bytes 0 skipped 0\n";
        assert_eq!(listing(&[byte]), nothing);
    }
    for (length, expected) in [(4, false), (128, true), (129, false)] {
        let payload = format!("{:x<length$}", "APA99,", length = length);
        let payload = &payload.as_bytes()[..length];
        assert_eq!(good(Family::Alpha, &enclose_payload(payload)), expected);
    }
    let data = ",13K,S,R,A,2,11,2t,0r,M,0000, 0.00, 0.00, 0.0, 0.0, 31,  0,000,N,N,";
    let data_20k = String::from_utf8_lossy(CASE_5).replace(",03,", ",11,");
    for comma in [false, true] {
        let report = enclose_data(data.as_bytes(), comma);
        assert!(good(Family::SpeReplies, &report));
        let report = enclose_data(data_20k.as_bytes(), comma);
        assert!(!good(Family::SpeReplies, &report));
    }
}

#[test]
fn refusals_of_the_programs() {
    for program in [listing, replay] {
        assert_eq!(program(b""), "refused 1\n");
        assert_eq!(program(b"5c"), "refused 1\n");
        assert_eq!(program(&[b'0'; 65_538]), "refused 1\n");
        assert_eq!(program(&[b'1'; 65_538]), "refused 7\n");
        assert!(program(&[b'1'; 65_537]) != "refused 7\n");
    }
    assert_eq!(replay(b"3"), "end\n");
    assert_eq!(
        replay(b"3cccf\x01Uo\x01Uf\x00"),
        "closed\nclosed\nclosed\nrefused 5\nrefused 5\ndone 0\nend\n"
    );
    assert_eq!(replay(b"3f\x01Ux"), "more 1\nbad script\n");
    assert_eq!(replay(b"3f"), "bad script\n");
    assert_eq!(replay(b"3co\x02U"), "closed\nbad script\n");
}

#[test]
fn example_of_replay() {
    let frame = enclose_data(CASE_5, false);
    let script = [
        &b"1o\x09\xAA\xAA\xAA\xAA\x01\x0D\x0D\xAA\x55f\x4B"[..],
        &frame,
        b"co\x00",
    ]
    .concat();
    let hexadecimal: String = frame.iter().map(|byte| format!("{:02X}", byte)).collect();
    let expected = format!(
        "frame 7 1 1 6 ack 0D | AAAAAA010D0D\nmore 2\n\
         frame 75 9 2 75 status 20K S R x 2 3 2t 0 M 0 0 0 0 0 31 29 30 N N 0 | {}\n\
         closed\ndone 0\nend\n",
        hexadecimal
    );
    assert_eq!(replay(&script), expected);
}

#[test]
fn printed_sentences_are_good() {
    for sentence in PRINTED {
        let bytes = sentence.as_bytes();
        assert_eq!(
            &check_digits(&bytes[1..bytes.len() - 5]),
            &bytes[bytes.len() - 4..]
        );
        assert!(good(Family::Alpha, bytes), "{}", sentence);
        let (frame, _) = frame_at_front(Family::Alpha, bytes).unwrap();
        // The printed ones with a record stand in the writer's form.
        if let Some(again) = written(&frame) {
            assert_eq!(again, bytes);
        }
    }
    let radio = "15017 10 2590 3169 768 230 96 57 1 6 1 0 15721";
    assert_eq!(values_of(Family::Alpha, PRINTED[1].as_bytes()), radio);
    assert_eq!(
        values_of(Family::Alpha, PRINTED[2].as_bytes()),
        "499 121 240 121 389 2370 0 5 280"
    );
}

#[test]
fn temperatures() {
    for (text, tenths, form) in [
        ("-000.0", "0", "+000.0"),
        ("-28.5", "-285", "-028.5"),
        ("-0.1", "-1", "-000.1"),
        ("+999.9", "9999", "+999.9"),
        ("-999.9", "-9999", "-999.9"),
    ] {
        let sentence = enclose_payload(format!("APA03,1,2,3,4,5,6,7,1,{}", text).as_bytes());
        let (frame, _) = frame_at_front(Family::Alpha, &sentence).unwrap();
        assert_eq!(
            values(&frame).join(" "),
            format!("1 2 3 4 5 6 7 1 {}", tenths)
        );
        let payload = format!("APA03,001,002,003,004,005,0006,007,1,{}", form);
        assert_eq!(written(&frame), Some(enclose_payload(payload.as_bytes())));
    }
}

/// What the generator calls sound must be good, and what the writer makes of
/// it must read back the same and be written as it is.
#[test]
fn sound_frames_are_good_and_read_back() {
    let mut rng = Rng::from_numbers(&[1]);
    for family in FAMILIES {
        for _ in 0..20_000 {
            let bytes = pieces::sound_frame(family, &mut rng);
            assert!(good(family, &bytes), "{}", bytes.escape_ascii());
            let (frame, _) = frame_at_front(family, &bytes).unwrap();
            if let Some(again) = written(&frame) {
                assert_eq!(frame_at_front(family, &again), Some((frame, again.len())));
            }
        }
    }
}

#[test]
fn broken_frames_are_not_good() {
    let mut rng = Rng::from_numbers(&[2]);
    for _ in 0..50 {
        for (family, broken) in [
            (Family::SpeReplies, make_spe::all_broken_replies(&mut rng)),
            (Family::Alpha, make_alpha::all_broken_sentences(&mut rng)),
            (Family::SpeCommands, make_spe::all_broken_commands(&mut rng)),
            (Family::Kpa, spoil_kpa::all_broken_messages(&mut rng)),
        ] {
            for frame in broken {
                assert!(!good(family, &frame), "{}", frame.escape_ascii());
            }
        }
    }
}

/// Demand 3 on generated captures: stream reader and lister find the same,
/// however the stream is cut, and no frame is handed out too late.
#[test]
fn stream_and_lister_find_the_same() {
    let mut rng = Rng::from_numbers(&[3]);
    for (family, reach) in FAMILIES.iter().zip([76, 134, 6, 40]) {
        for index in 8..600 {
            let input = generate::input(What::Capture, *family, 7, index);
            let capture = input.get(1..).unwrap_or(&[]);
            let expected = places(*family, capture);
            let sizes = [rng.between(1, 140), rng.below(5), rng.below(300)];
            let found = read_in_calls(*family, capture, &sizes);
            let without: Vec<(usize, usize)> = found.iter().map(|line| (line.0, line.1)).collect();
            assert_eq!(without, expected);
            assert!(found.iter().all(|line| line.2 <= line.0 + reach));
        }
    }
}

/// The generator keeps to the longest input but for the cases that are too
/// long on purpose, and gives the same input each time.
#[test]
fn generated_inputs_have_allowed_lengths() {
    for family in FAMILIES {
        for what in [What::Capture, What::Script] {
            for index in generate::FIXED_CASES..1500 {
                let input = generate::input(what, family, 11, index);
                assert_eq!(input, generate::input(what, family, 11, index));
                if input.len() > 65_537 {
                    assert!(input.len() <= 65_539);
                }
            }
            for index in [3, 11, 12] {
                assert!(generate::input(what, family, 11, index).len() <= 65_537);
            }
            assert_eq!(generate::input(what, family, 11, 4).len(), 65_537);
            assert_eq!(generate::input(what, family, 11, 5).len(), 65_538);
        }
    }
}
