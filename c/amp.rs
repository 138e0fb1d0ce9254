//! The header for Rust: what a Rust program needs of libamp.a, name by name as c/amp.h has it, where
//! each function and number is explained, and what is asked of a caller. A lent slice is a pointer and a
//! length here too.
#![allow(dead_code)]

/// The numbers for no.
pub const AMP_NO_FAMILY: u32 = 1;
pub const AMP_NO_CODE: u32 = 2;
pub const AMP_NO_RECORD: u32 = 3;
pub const AMP_NO_ROOM: u32 = 4;
pub const AMP_CLOSED: u32 = 5;
pub const AMP_HOLDS_TOO_MUCH: u32 = 6;
pub const AMP_TOO_LONG: u32 = 7;
pub const AMP_NOT_GOOD: u32 = 8;

/// The places of a row.
pub const AMP_KIND: usize = 0;
pub const AMP_CODE: usize = 1;
pub const AMP_TAKEN: usize = 2;
pub const AMP_START: usize = 3;
pub const AMP_SKIPPED: usize = 4;
pub const AMP_LENGTH: usize = 5;
pub const AMP_VALUES: usize = 6;
/// The longest row.
pub const AMP_ROW: usize = 27;

/// The kinds of a row. In a row they are i64, as every number there; amp_write takes a kind as u32.
pub const AMP_ACK: u32 = 1;
pub const AMP_STATUS: u32 = 2;
pub const AMP_COMMAND: u32 = 3;
pub const AMP_SENTENCE: u32 = 4;
pub const AMP_MORE: u32 = 5;
pub const AMP_DONE: u32 = 6;
pub const AMP_QUESTION: u32 = 7;
pub const AMP_RESPONSE: u32 = 8;
pub const AMP_OTHER: u32 = 9;

/// The values of a status report, from AMP_VALUES on.
pub const AMP_STATUS_ID: usize = 0;
pub const AMP_STATUS_STATE: usize = 1;
pub const AMP_STATUS_DIRECTION: usize = 2;
pub const AMP_STATUS_BANK: usize = 3;
pub const AMP_STATUS_INPUT: usize = 4;
pub const AMP_STATUS_BAND: usize = 5;
pub const AMP_STATUS_TRANSMIT: usize = 6;
pub const AMP_STATUS_TUNER: usize = 7;
pub const AMP_STATUS_RECEIVE: usize = 8;
pub const AMP_STATUS_LEVEL: usize = 9;
pub const AMP_STATUS_WATTS: usize = 10;
pub const AMP_STATUS_SWR_ATU: usize = 11;
pub const AMP_STATUS_SWR_ANT: usize = 12;
pub const AMP_STATUS_VOLTS: usize = 13;
pub const AMP_STATUS_AMPERES: usize = 14;
pub const AMP_STATUS_UPPER: usize = 15;
pub const AMP_STATUS_LOWER: usize = 16;
pub const AMP_STATUS_COMBINER: usize = 17;
pub const AMP_STATUS_WARNING: usize = 18;
pub const AMP_STATUS_ALARM: usize = 19;
pub const AMP_STATUS_COMMA: usize = 20;
pub const AMP_STATUS_VALUES: usize = 21;

/// Those of sentence 02.
pub const AMP_02_PFWD: usize = 0;
pub const AMP_02_SWR: usize = 1;
pub const AMP_02_PIN: usize = 2;
pub const AMP_02_VP: usize = 3;
pub const AMP_02_IP: usize = 4;
pub const AMP_02_GAIN: usize = 5;
pub const AMP_02_VG: usize = 6;
pub const AMP_02_IG: usize = 7;
pub const AMP_02_BAND: usize = 8;
pub const AMP_02_STATE: usize = 9;
pub const AMP_02_FAULT: usize = 10;
pub const AMP_02_KEY: usize = 11;
pub const AMP_02_PEP: usize = 12;
pub const AMP_02_VALUES: usize = 13;

/// Those of sentence 03.
pub const AMP_03_V5: usize = 0;
pub const AMP_03_V12: usize = 1;
pub const AMP_03_V24: usize = 2;
pub const AMP_03_M12: usize = 3;
pub const AMP_03_V40: usize = 4;
pub const AMP_03_ACLINE: usize = 5;
pub const AMP_03_MBSTATUS: usize = 6;
pub const AMP_03_MBTAP: usize = 7;
pub const AMP_03_TEMP: usize = 8;
pub const AMP_03_VALUES: usize = 9;

/// Those of sentence 05.
pub const AMP_05_BAND: usize = 0;
pub const AMP_05_SEGMENT: usize = 1;
pub const AMP_05_MEMORY: usize = 2;
pub const AMP_05_ANTENNA: usize = 3;
pub const AMP_05_METER: usize = 4;
pub const AMP_05_CONTROL: usize = 5;
pub const AMP_05_OPTIONS: usize = 6;
pub const AMP_05_STATE: usize = 7;
pub const AMP_05_WTIME: usize = 8;
pub const AMP_05_TCMD: usize = 9;
pub const AMP_05_LCMD: usize = 10;
pub const AMP_05_VALUES: usize = 11;

/// The letters of a question or a response, as its code.
pub const AMP_SN: u32 = 0x534E;
pub const AMP_RV: u32 = 0x5256;
pub const AMP_PWF: u32 = 0x50_5746;
pub const AMP_PWI: u32 = 0x50_5749;
pub const AMP_PWR: u32 = 0x50_5752;
pub const AMP_PWD: u32 = 0x50_5744;
pub const AMP_FR: u32 = 0x4652;
pub const AMP_FQ: u32 = 0x4651;
pub const AMP_FS: u32 = 0x4653;
pub const AMP_HS: u32 = 0x4853;
pub const AMP_CC: u32 = 0x4343;
pub const AMP_FT: u32 = 0x4654;

/// The values of CC.
pub const AMP_CC_YEAR: usize = 0;
pub const AMP_CC_MONTH: usize = 1;
pub const AMP_CC_DAY: usize = 2;
pub const AMP_CC_HOUR: usize = 3;
pub const AMP_CC_MINUTE: usize = 4;
pub const AMP_CC_SECOND: usize = 5;
pub const AMP_CC_VALUES: usize = 6;

/// The values of other letters: four letters to each.
pub const AMP_OTHER_VALUES: usize = 10;

/// How stamp a stands to stamp b.
pub const AMP_EARLIER: u32 = 1;
pub const AMP_LATER: u32 = 2;
pub const AMP_EQUAL: u32 = 3;
pub const AMP_CANNOT_SAY: u32 = 4;

/// A stream reader's state, 144 bytes; any bytes in it are a legal argument.
#[repr(C)]
#[derive(Clone, Copy, PartialEq, Eq, Debug)]
pub struct AmpReader {
    pub family: u8,
    pub closed: u8,
    pub count: u8,
    pub held: [u8; 133],
    pub at: u32,
    pub skipped: u32,
}

extern "C" {
    pub fn amp_fresh(reader: *mut AmpReader, family: u32) -> u32;
    pub fn amp_feed(
        reader: *mut AmpReader,
        offered: *const u8,
        offered_len: usize,
        row: *mut i64,
        row_len: usize,
    ) -> u32;
    pub fn amp_close(reader: *mut AmpReader) -> u32;
    pub fn amp_read(
        family: u32,
        bytes: *const u8,
        bytes_len: usize,
        row: *mut i64,
        row_len: usize,
    ) -> u32;
    pub fn amp_list(
        family: u32,
        capture: *const u8,
        capture_len: usize,
        starts: *mut u32,
        starts_len: usize,
        count: *mut usize,
    ) -> u32;
    pub fn amp_next(
        family: u32,
        capture: *const u8,
        capture_len: usize,
        place: usize,
        reports: u32,
        start: *mut usize,
    ) -> usize;
    pub fn amp_write(
        kind: u32,
        code: u32,
        values: *const i64,
        values_len: usize,
        out: *mut u8,
        out_len: usize,
        length: *mut usize,
    ) -> u32;
    pub fn amp_write_enable(out: *mut u8, out_len: usize, length: *mut usize) -> u32;
    pub fn amp_stamp_order(a: u32, b: u32) -> u32;
}
