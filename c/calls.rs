//! Calls every function of the library from Rust, through c/amp.rs, and holds the results to what is
//! known of them. A line for each check that fails, and a last line 'N checks, M wrong'.
//! Nothing here is newer than Rust 1.63.

#[path = "amp.rs"]
mod amp;

use amp::*;

const CASE_2: &[u8] = b"\xAA\xAA\xAA\x01\x0D\x0D\xAA\xAA\xAA\x01\x09\x09";
const CASE_7: &[u8] = b"$APA05,11,18,1B,34,00,2A,01*A844";
const VALUES_7: [i64; AMP_05_VALUES] = [1, 1, 1, 8, 1, 11, 3, 4, 0, 42, 1];

/// The recorded report of c/calls.h, and the same values as a writer pads them.
const RECORDED: &[u8] = b"\xAA\xAA\xAA\x43,13K,S,R,A,1,07,2a,0r,M,0000, 0.00, 0.00, 0.0, 0.0\
,077,000,000,N,N,\x51\x0D,\x0D\x0A";
const REWRITTEN: &[u8] = b"\xAA\xAA\xAA\x43,13K,S,R,A,1,07,2a,0r,M,0000, 0.00, 0.00, 0.0, 0.0\
, 77,  0,  0,N,N,\x01\x0D,\x0D\x0A";
const VALUES_RECORDED: [i64; AMP_STATUS_VALUES] = [
    13,
    b'S' as i64,
    b'R' as i64,
    b'A' as i64,
    1,
    7,
    2,
    b'a' as i64,
    0,
    b'M' as i64,
    0,
    0,
    0,
    0,
    0,
    77,
    0,
    0,
    b'N' as i64,
    b'N' as i64,
    1,
];

/// The clock's example in the reference of the KPA1500, and its longest message.
const CLOCK: &[u8] = b"^CC17-07-31T13:15:00;";
const VALUES_CLOCK: [i64; AMP_CC_VALUES] = [17, 7, 31, 13, 15, 0];
const OTHER_38: &[u8] = b"^ABCDEFGHIJKLMNOPQRSTUVWXYZABCDEFGHIJKL;";
const VALUES_38: [i64; AMP_OTHER_VALUES] = [
    0x4142_4344,
    0x4546_4748,
    0x494A_4B4C,
    0x4D4E_4F50,
    0x5152_5354,
    0x5556_5758,
    0x595A_4142,
    0x4344_4546,
    0x4748_494A,
    0x4B4C,
];

struct Checks {
    tried: usize,
    wrong: usize,
}

impl Checks {
    fn check(&mut self, right: bool, what: &str) {
        self.tried += 1;
        if !right {
            self.wrong += 1;
            println!("wrong: {}", what);
        }
    }
}

fn layout(checks: &mut Checks, reader: &AmpReader) {
    let base = reader as *const AmpReader as usize;
    checks.check(
        std::mem::size_of::<AmpReader>() == 144,
        "a reader has 144 bytes",
    );
    checks.check(
        std::mem::align_of::<AmpReader>() == 4,
        "a reader is aligned to 4",
    );
    checks.check(&reader.at as *const u32 as usize - base == 136, "at at 136");
    checks.check(
        &reader.skipped as *const u32 as usize - base == 140,
        "skipped at 140",
    );
}

/// Feeds the reader, with room for so many numbers of the row.
fn feed(reader: &mut AmpReader, bytes: &[u8], row: &mut [i64; AMP_ROW], room: usize) -> u32 {
    unsafe { amp_feed(reader, bytes.as_ptr(), bytes.len(), row.as_mut_ptr(), room) }
}

/// What a reader may be before it is made a fresh one.
const FILLED: AmpReader = AmpReader {
    family: 9,
    closed: 9,
    count: 9,
    held: [9; 133],
    at: 9,
    skipped: 9,
};

fn streams(checks: &mut Checks) {
    let mut reader = FILLED;
    let mut row = [-77i64; AMP_ROW];
    layout(checks, &reader);
    checks.check(unsafe { amp_fresh(&mut reader, 2) } == 0, "fresh");
    let before = reader;
    let number = feed(&mut reader, CASE_7, &mut row, AMP_VALUES);
    checks.check(
        number == AMP_NO_ROOM && reader == before && row == [-77; AMP_ROW],
        "no room",
    );
    let number = feed(&mut reader, CASE_7, &mut row, AMP_ROW);
    checks.check(number == 0, "feed");
    checks.check(
        row[..AMP_VALUES] == [AMP_SENTENCE as i64, 5, 32, 0, 0, 32],
        "the fed row",
    );
    checks.check(
        row[AMP_VALUES..][..AMP_05_VALUES] == VALUES_7,
        "the fed values",
    );
    checks.check(
        unsafe { amp_close(&mut reader) } == 0 && reader.closed == 1,
        "close",
    );
    let number = feed(&mut reader, &CASE_7[..1], &mut row, AMP_ROW);
    checks.check(number == AMP_CLOSED, "closed");
}

fn frames(checks: &mut Checks) {
    let mut row = [-77i64; AMP_ROW];
    let mut out = [0xEEu8; 64];
    let mut length = 0usize;
    let number = unsafe { amp_read(2, CASE_7.as_ptr(), CASE_7.len(), row.as_mut_ptr(), AMP_ROW) };
    checks.check(
        number == 0 && row[..AMP_VALUES] == [AMP_SENTENCE as i64, 5, 0, 0, 0, 32],
        "read",
    );
    checks.check(
        row[AMP_VALUES..][..AMP_05_VALUES] == VALUES_7,
        "the read values",
    );
    checks.check(
        row[AMP_VALUES + AMP_05_VALUES] == -77,
        "untouched behind the values",
    );
    let number = unsafe {
        let (values, many) = (VALUES_7.as_ptr(), VALUES_7.len());
        amp_write(
            AMP_SENTENCE,
            5,
            values,
            many,
            out.as_mut_ptr(),
            out.len(),
            &mut length,
        )
    };
    checks.check(number == 0 && &out[..length] == CASE_7, "write");
    checks.check(out[length] == 0xEE, "untouched behind the frame");
    let number = unsafe { amp_write_enable(out.as_mut_ptr(), out.len(), &mut length) };
    checks.check(number == 0 && &out[..length] == b"+++", "enable");
}

/// A report read, with a place for each number of its row and with one less.
fn read_reports(checks: &mut Checks) {
    let mut row = [-77i64; AMP_ROW];
    let (bytes, n) = (RECORDED.as_ptr(), RECORDED.len());
    let number = unsafe { amp_read(1, bytes, n, row.as_mut_ptr(), AMP_ROW - 1) };
    checks.check(
        number == AMP_NO_ROOM && row == [-77; AMP_ROW],
        "no room for the last value",
    );
    let number = unsafe { amp_read(1, bytes, n, row.as_mut_ptr(), AMP_ROW) };
    checks.check(
        number == 0 && row[..AMP_VALUES] == [AMP_STATUS as i64, 0, 0, 0, 0, 76],
        "read a report with a comma",
    );
    checks.check(row[AMP_VALUES..] == VALUES_RECORDED, "its values");
    let number = unsafe { amp_read(1, bytes, n - 1, row.as_mut_ptr(), AMP_ROW) };
    checks.check(number == AMP_NOT_GOOD, "a byte short");
}

/// Writes the recorded report with this for its comma, so many of its values into so many places. Gives
/// the number for no and what was written.
fn rewrite(comma: i64, many: usize, room: usize) -> (u32, Vec<u8>) {
    let mut values = VALUES_RECORDED;
    let mut out = [0xEEu8; 80];
    let mut length = 0usize;
    values[AMP_STATUS_COMMA] = comma;
    let number = unsafe {
        let (values, out) = (values.as_ptr(), out.as_mut_ptr());
        amp_write(AMP_STATUS, 0, values, many, out, room, &mut length)
    };
    (number, out[..length].to_vec())
}

fn write_reports(checks: &mut Checks) {
    let plain = [&REWRITTEN[..73], b"\x0D\x0A"].concat();
    checks.check(REWRITTEN != RECORDED, "not in the writer's form");
    checks.check(rewrite(1, 21, 76) == (0, REWRITTEN.to_vec()), "a comma");
    checks.check(rewrite(0, 21, 75) == (0, plain), "no comma");
    checks.check(rewrite(1, 21, 75) == (AMP_NO_ROOM, vec![]), "no room");
    checks.check(rewrite(0, 21, 74) == (AMP_NO_ROOM, vec![]), "no room");
    checks.check(rewrite(1, 20, 80) == (AMP_NO_RECORD, vec![]), "20 values");
    checks.check(rewrite(2, 21, 80) == (AMP_NO_RECORD, vec![]), "comma 2");
    checks.check(rewrite(-1, 21, 0) == (AMP_NO_RECORD, vec![]), "comma -1");
}

/// The recorded report as a stream, cut anywhere.
fn cut_reports(checks: &mut Checks) {
    for cut in 0..RECORDED.len() {
        let mut reader = FILLED;
        let mut row = [-77i64; AMP_ROW];
        checks.check(unsafe { amp_fresh(&mut reader, 1) } == 0, "fresh");
        let number = feed(&mut reader, &RECORDED[..cut], &mut row, AMP_ROW);
        checks.check(
            number == 0 && row[..AMP_VALUES] == [AMP_MORE as i64, 0, cut as i64, 0, 0, 0],
            "up to a cut",
        );
        checks.check(reader.count as usize == cut, "held up to a cut");
        let number = feed(&mut reader, &RECORDED[cut..], &mut row, AMP_ROW);
        let taken = (RECORDED.len() - cut) as i64;
        checks.check(
            number == 0 && row[..AMP_VALUES] == [AMP_STATUS as i64, 0, taken, 0, 0, 76],
            "behind the cut",
        );
        checks.check(row[AMP_VALUES..] == VALUES_RECORDED, "the values then");
    }
}

/// The most that a reader of family 1 may hold, and one byte more.
fn held_most(checks: &mut Checks) {
    let mut row = [-77i64; AMP_ROW];
    let mut reader = FILLED;
    reader.family = 1;
    reader.closed = 0;
    reader.count = 76;
    let before = reader;
    let number = feed(&mut reader, &[], &mut row, AMP_ROW);
    checks.check(
        number == AMP_HOLDS_TOO_MUCH && reader == before && row == [-77; AMP_ROW],
        "76 held",
    );
    reader.count = 75;
    let number = feed(&mut reader, &[], &mut row, AMP_ROW);
    checks.check(number == 0 && reader.count == 0, "75 held");
}

/// What is read of a message: the number for no, then kind, code, length and values; it has so many places.
fn read_message(bytes: &[u8], room: usize, many: usize) -> (u32, Vec<i64>) {
    let mut row = [-77i64; AMP_ROW];
    let number = unsafe { amp_read(4, bytes.as_ptr(), bytes.len(), row.as_mut_ptr(), room) };
    let mut told = vec![row[AMP_KIND], row[AMP_CODE], row[AMP_LENGTH]];
    told.extend(&row[AMP_VALUES..][..many]);
    (number, told)
}

fn read_messages(checks: &mut Checks) {
    let question = vec![AMP_QUESTION as i64, AMP_PWF as i64, 5];
    let tune = vec![AMP_RESPONSE as i64, AMP_FT as i64, 4];
    let clock = [&[AMP_RESPONSE as i64, AMP_CC as i64, 21][..], &VALUES_CLOCK].concat();
    let other = [&[AMP_OTHER as i64, 0, 40][..], &VALUES_38].concat();
    checks.check(read_message(b"^pwf;", 6, 0) == (0, question), "a question");
    checks.check(read_message(b"^ft;", 6, 0) == (0, tune), "a tune");
    checks.check(read_message(CLOCK, 12, 6) == (0, clock), "a response");
    checks.check(
        read_message(OTHER_38, 16, 10) == (0, other),
        "other letters",
    );
    let none = vec![-77; 3];
    checks.check(
        read_message(CLOCK, 11, 0) == (AMP_NO_ROOM, none.clone()),
        "no room",
    );
    checks.check(
        read_message(OTHER_38, 15, 0) == (AMP_NO_ROOM, none.clone()),
        "no room",
    );
    checks.check(
        read_message(b"^FS6;", 0, 0) == (AMP_NOT_GOOD, none.clone()),
        "FS 6",
    );
    checks.check(
        read_message(b"^1;", AMP_ROW, 0) == (AMP_NOT_GOOD, none),
        "no letter",
    );
}

/// Writes a message into so many places. Gives the number for no and what was written.
fn write_message(kind: u32, code: u32, values: &[i64], room: usize) -> (u32, Vec<u8>) {
    let mut out = [0xEEu8; 40];
    let mut length = 0usize;
    let number = unsafe {
        let (given, many, out) = (values.as_ptr(), values.len(), out.as_mut_ptr());
        amp_write(kind, code, given, many, out, room, &mut length)
    };
    (number, out[..length].to_vec())
}

fn write_messages(checks: &mut Checks) {
    let refused = (AMP_NO_RECORD, vec![]);
    let (asks, tells) = (AMP_QUESTION, AMP_RESPONSE);
    let clock = |room| write_message(tells, AMP_CC, &VALUES_CLOCK, room);
    checks.check(clock(21) == (0, CLOCK.to_vec()), "a clock");
    checks.check(clock(20) == (AMP_NO_ROOM, vec![]), "no room");
    checks.check(
        write_message(asks, AMP_SN, &[], 4) == (0, b"^SN;".to_vec()),
        "SN",
    );
    checks.check(
        write_message(tells, AMP_FT, &[], 4) == (0, b"^FT;".to_vec()),
        "FT",
    );
    let version = write_message(tells, AMP_RV, &[1, 64], 9);
    checks.check(version == (0, b"^RV01.64;".to_vec()), "RV");
    checks.check(write_message(asks, AMP_FT, &[], 40) == refused, "FT asked");
    checks.check(
        write_message(AMP_OTHER, 0, &VALUES_38, 40) == refused,
        "other",
    );
    checks.check(
        write_message(tells, AMP_RV, &[1], 0) == refused,
        "one value",
    );
    checks.check(write_message(tells, 0x5257, &[1], 40) == refused, "RW");
    checks.check(write_message(tells, AMP_FS, &[6], 40) == refused, "FS 6");
    checks.check(write_message(tells, AMP_HS, &[2], 40) == refused, "HS 2");
    checks.check(
        write_message(tells, AMP_PWF, &[10000], 40) == refused,
        "PWF",
    );
    checks.check(
        write_message(tells, AMP_SN, &[100_000], 40) == refused,
        "SN",
    );
    checks.check(
        write_message(tells, AMP_RV, &[0, 100], 40) == refused,
        "RV 0.100",
    );
    for bad in [[1, 2, 29], [17, 0, 1], [17, 13, 1], [100, 1, 1]] {
        let values = [&bad[..], &[0, 0, 0]].concat();
        checks.check(
            write_message(tells, AMP_CC, &values, 40) == refused,
            "a date",
        );
    }
    for bad in [[24, 0, 0], [0, 60, 0], [0, 0, 60], [0, 0, -1]] {
        let values = [&[17, 7, 31][..], &bad].concat();
        checks.check(
            write_message(tells, AMP_CC, &values, 40) == refused,
            "a time",
        );
    }
}

/// The longest message as a stream, cut anywhere; and the most that a reader of family 4 may hold.
fn cut_messages(checks: &mut Checks) {
    let mut row = [-77i64; AMP_ROW];
    let mut reader = FILLED;
    for cut in 0..OTHER_38.len() {
        checks.check(unsafe { amp_fresh(&mut reader, 4) } == 0, "fresh");
        let number = feed(&mut reader, &OTHER_38[..cut], &mut row, AMP_ROW);
        checks.check(
            number == 0 && row[AMP_KIND] == AMP_MORE as i64 && reader.count as usize == cut,
            "up to a cut",
        );
        let number = feed(&mut reader, &OTHER_38[cut..], &mut row, 16);
        let taken = (OTHER_38.len() - cut) as i64;
        checks.check(
            number == 0 && row[..AMP_VALUES] == [AMP_OTHER as i64, 0, taken, 0, 0, 40],
            "behind the cut",
        );
        checks.check(row[AMP_VALUES..][..AMP_OTHER_VALUES] == VALUES_38, "values");
    }
    reader.count = 40;
    let number = feed(&mut reader, b";", &mut row, AMP_ROW);
    checks.check(number == AMP_HOLDS_TOO_MUCH, "40 held");
    let number = unsafe { amp_close(&mut reader) };
    checks.check(number == AMP_HOLDS_TOO_MUCH, "40 held, close");
    reader.count = 39;
    let number = unsafe { amp_close(&mut reader) };
    checks.check(number == 0 && reader.closed == 1, "39 held, close");
}

fn message_captures(checks: &mut Checks) {
    let mut starts = [u32::MAX; 3];
    let (mut count, mut start) = (0usize, 0usize);
    let line = b";^FR;^FS6;^FS5;";
    let (bytes, n) = (line.as_ptr(), line.len());
    let number = unsafe { amp_list(4, bytes, n, starts.as_mut_ptr(), 3, &mut count) };
    checks.check(
        number == 0 && count == 2 && starts == [1, 10, u32::MAX],
        "list messages",
    );
    let size = unsafe { amp_next(4, bytes, n, 2, 0, &mut start) };
    checks.check(size == 5 && start == 10, "the next message");
    let size = unsafe { amp_next(4, bytes, n, 0, 1, &mut start) };
    checks.check(size == 0 && start == 10, "no report among messages");
}

fn captures(checks: &mut Checks) {
    let mut starts = [u32::MAX; 3];
    let mut count = 0usize;
    let mut start = 0usize;
    let (bytes, n) = (CASE_2.as_ptr(), CASE_2.len());
    let number = unsafe { amp_list(1, bytes, n, starts.as_mut_ptr(), starts.len(), &mut count) };
    checks.check(
        number == 0 && count == 2 && starts == [0, 6, u32::MAX],
        "list",
    );
    let size = unsafe { amp_next(1, bytes, n, 1, 0, &mut start) };
    checks.check(size == 6 && start == 6, "next");
    let size = unsafe { amp_next(1, bytes, n, 7, 0, &mut start) };
    checks.check(size == 0 && start == 6, "no next, and the start as it was");
    checks.check(
        unsafe { amp_stamp_order(u32::MAX, 0) } == AMP_EARLIER,
        "stamps",
    );
}

fn main() {
    let mut checks = Checks { tried: 0, wrong: 0 };
    streams(&mut checks);
    frames(&mut checks);
    read_reports(&mut checks);
    write_reports(&mut checks);
    cut_reports(&mut checks);
    held_most(&mut checks);
    read_messages(&mut checks);
    write_messages(&mut checks);
    cut_messages(&mut checks);
    message_captures(&mut checks);
    captures(&mut checks);
    println!("{} checks, {} wrong", checks.tried, checks.wrong);
    std::process::exit(if checks.wrong == 0 { 0 } else { 1 });
}
