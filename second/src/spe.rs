//! The rules of SPE packets: commands from the host (family 3), and
//! acknowledgements and status reports from the amplifier (family 1).

pub const HOST_MARK: u8 = 0x55;
pub const AMPLIFIER_MARK: u8 = 0xAA;

/// The count byte of a command or an acknowledgement, and their whole length.
pub const CODE_COUNT: u8 = 0x01;
pub const CODE_LENGTH: usize = 6;

/// The count byte of a status report and its data bytes, the same in both of
/// its forms.
pub const STATUS_COUNT: u8 = 0x43;
pub const STATUS_DATA: usize = 67;

/// The whole lengths of the two forms of a report. In the plain form the line
/// end stands right behind the check bytes; in the comma form a comma comes
/// between. The byte behind the check bytes alone tells which form it is.
pub const PLAIN_LENGTH: usize = 75;
pub const COMMA_LENGTH: usize = 76;
pub const BEHIND_CHECK: usize = 73;
pub const LINE_END: [u8; 2] = [0x0D, 0x0A];

/// The command that asks for a status report. The report is its answer, so
/// it is never acknowledged.
pub const STATUS_CODE: u8 = 0x90;

#[rustfmt::skip]
pub const COMMAND_CODES: [u8; 20] = [
    0x01, 0x02, 0x03, 0x04, 0x05, 0x06, 0x07, 0x08, 0x09, 0x0A,
    0x0B, 0x0C, 0x0D, 0x0E, 0x0F, 0x10, 0x11, 0x82, 0x83, STATUS_CODE,
];

/// Widths of the 19 fields of a report's data.
pub const WIDTHS: [usize; 19] = [3, 1, 1, 1, 1, 2, 2, 2, 1, 4, 5, 5, 4, 4, 3, 3, 3, 1, 1];

/// Digits behind the point in fields 10 to 17; 0 means there is no point.
pub const DECIMALS: [usize; 8] = [0, 2, 2, 1, 1, 0, 0, 0];

pub const WARNINGS: &[u8] = b"MASBPOYWKRTCN";
pub const ALARMS: &[u8] = b"SADHCN";

#[derive(Clone, Copy, PartialEq, Eq, Debug)]
pub enum Id {
    Expert20K,
    Expert13K,
}

impl Id {
    pub fn text(self) -> &'static str {
        match self {
            Id::Expert20K => "20K",
            Id::Expert13K => "13K",
        }
    }

    pub fn banks(self) -> &'static [u8] {
        match self {
            Id::Expert20K => b"x",
            Id::Expert13K => b"AB",
        }
    }

    pub fn highest_band(self) -> u8 {
        match self {
            Id::Expert20K => 10,
            Id::Expert13K => 11,
        }
    }

    pub fn highest_antenna(self) -> u8 {
        match self {
            Id::Expert20K => 6,
            Id::Expert13K => 4,
        }
    }
}

/// The record of a status report. Letters are kept as their ASCII bytes,
/// numbers as counts of their last printed digit.
#[derive(Clone, PartialEq, Eq, Debug)]
pub struct Status {
    pub id: Id,
    pub standby_or_operate: u8,
    pub receive_or_transmit: u8,
    pub bank: u8,
    pub input: u8,
    pub band: u8,
    pub transmit_antenna: u8,
    pub transmit_letter: u8,
    pub receive_antenna: u8,
    pub level: u8,
    /// Fields 10 to 17: watts, two SWRs in hundredths, volts and amperes in
    /// tenths, three temperatures.
    pub numbers: [u16; 8],
    pub warning: u8,
    pub alarm: u8,
    /// Whether the report had, and gets, a comma before its line end.
    pub comma: bool,
}

// ---------------------------------------------------------------- reading

pub fn command_at_front(bytes: &[u8]) -> Option<u8> {
    let code = code_sent_twice(bytes, HOST_MARK)?;
    if COMMAND_CODES.contains(&code) {
        Some(code)
    } else {
        None
    }
}

pub fn acknowledgement_at_front(bytes: &[u8]) -> Option<u8> {
    let code = code_sent_twice(bytes, AMPLIFIER_MARK)?;
    if COMMAND_CODES.contains(&code) && code != STATUS_CODE {
        Some(code)
    } else {
        None
    }
}

/// Three marks, count 01, then a byte and its checksum. The checksum of a
/// single byte is that byte.
fn code_sent_twice(bytes: &[u8], mark: u8) -> Option<u8> {
    if bytes.len() < CODE_LENGTH
        || bytes[..3] != [mark; 3]
        || bytes[3] != CODE_COUNT
        || bytes[4] != bytes[5]
    {
        return None;
    }
    Some(bytes[4])
}

/// The report that begins at the first of these bytes, with its length.
pub fn status_at_front(bytes: &[u8]) -> Option<(Status, usize)> {
    if bytes.len() < PLAIN_LENGTH || bytes[..3] != [AMPLIFIER_MARK; 3] || bytes[3] != STATUS_COUNT {
        return None;
    }
    let data = &bytes[4..4 + STATUS_DATA];
    let comma = bytes[BEHIND_CHECK] == b',';
    let length = status_length(comma);
    // The end is looked for at its fixed place: a check byte may itself be 0D.
    if bytes[71..73] != check_bytes(data) || bytes.get(length - 2..length)? != LINE_END {
        return None;
    }
    Some((read_status_data(data, comma)?, length))
}

pub fn status_length(comma: bool) -> usize {
    if comma {
        COMMA_LENGTH
    } else {
        PLAIN_LENGTH
    }
}

/// The sum of the data modulo 256, then that same sum divided by 256.
pub fn check_bytes(data: &[u8]) -> [u8; 2] {
    let sum: u32 = data.iter().map(|byte| u32::from(*byte)).sum();
    [(sum % 256) as u8, (sum / 256) as u8]
}

fn read_status_data(data: &[u8], comma: bool) -> Option<Status> {
    let fields = split_fields(data)?;
    let id = read_id(fields[0])?;
    let (transmit_antenna, transmit_letter) = read_antenna(id, fields[6], b"tba")?;
    let (receive_antenna, _) = read_antenna(id, fields[7], b"r")?;
    let mut numbers = [0u16; 8];
    for (place, number) in numbers.iter_mut().enumerate() {
        *number = read_padded_number(fields[9 + place], DECIMALS[place])?;
    }
    // The smaller amplifier has one temperature only.
    if id == Id::Expert13K && (numbers[6] != 0 || numbers[7] != 0) {
        return None;
    }
    Some(Status {
        id,
        standby_or_operate: read_letter(fields[1], b"SO")?,
        receive_or_transmit: read_letter(fields[2], b"RT")?,
        bank: read_letter(fields[3], id.banks())?,
        input: read_letter(fields[4], b"12")? - b'0',
        band: read_band(id, fields[5])?,
        transmit_antenna,
        transmit_letter,
        receive_antenna,
        level: read_letter(fields[8], b"LMH")?,
        numbers,
        warning: read_letter(fields[17], WARNINGS)?,
        alarm: read_letter(fields[18], ALARMS)?,
        comma,
    })
}

/// A comma stands before each field and one behind the last.
fn split_fields(data: &[u8]) -> Option<Vec<&[u8]>> {
    let mut fields = Vec::new();
    let mut place = 0;
    for width in WIDTHS {
        if data[place] != b',' {
            return None;
        }
        fields.push(&data[place + 1..place + 1 + width]);
        place += 1 + width;
    }
    if data[place] != b',' {
        return None;
    }
    Some(fields)
}

fn read_id(field: &[u8]) -> Option<Id> {
    match field {
        b"20K" => Some(Id::Expert20K),
        b"13K" => Some(Id::Expert13K),
        _ => None,
    }
}

fn read_letter(field: &[u8], allowed: &[u8]) -> Option<u8> {
    if allowed.contains(&field[0]) {
        Some(field[0])
    } else {
        None
    }
}

fn read_band(id: Id, field: &[u8]) -> Option<u8> {
    if !field.iter().all(u8::is_ascii_digit) {
        return None;
    }
    let band = (field[0] - b'0') * 10 + (field[1] - b'0');
    if band <= id.highest_band() {
        Some(band)
    } else {
        None
    }
}

fn read_antenna(id: Id, field: &[u8], letters: &[u8]) -> Option<(u8, u8)> {
    let (digit, letter) = (field[0], field[1]);
    if !digit.is_ascii_digit() || digit - b'0' > id.highest_antenna() || !letters.contains(&letter)
    {
        return None;
    }
    Some((digit - b'0', letter))
}

/// Spaces first, perhaps none; then at least one digit; then, if the field
/// has a point, the point and exactly `decimals` digits.
fn read_padded_number(field: &[u8], decimals: usize) -> Option<u16> {
    let spaces = field.iter().take_while(|byte| **byte == b' ').count();
    let text = &field[spaces..];
    let behind = if decimals == 0 { 0 } else { decimals + 1 };
    if text.len() < behind + 1 {
        return None;
    }
    let (whole, rest) = text.split_at(text.len() - behind);
    if decimals > 0 && rest[0] != b'.' {
        return None;
    }
    let fraction = if decimals > 0 { &rest[1..] } else { rest };
    let mut count = 0u16;
    for digit in whole.iter().chain(fraction) {
        if !digit.is_ascii_digit() {
            return None;
        }
        count = count * 10 + u16::from(digit - b'0');
    }
    Some(count)
}

// -------------------------------------------------------------- undecided

/// Whether the packet that may begin here needs more bytes before anything
/// can be said. Only the marks, the count and the byte that tells a report's
/// form are looked at, on purpose: both programs have to agree on when a start
/// is given up.
pub fn start_is_undecided(bytes: &[u8], mark: u8, allowed_counts: &[u8]) -> bool {
    if bytes.len() < 4 {
        return bytes.iter().all(|byte| *byte == mark);
    }
    if bytes[..3] != [mark; 3] || !allowed_counts.contains(&bytes[3]) {
        return false;
    }
    bytes.len() < needed_bytes(bytes)
}

/// How many bytes decide a packet of which at least marks and count are there.
/// A report whose form is not known yet needs no fewer than a plain one.
pub fn needed_bytes(bytes: &[u8]) -> usize {
    if bytes[3] == CODE_COUNT {
        CODE_LENGTH
    } else {
        status_length(bytes.get(BEHIND_CHECK) == Some(&b','))
    }
}

// ---------------------------------------------------------------- writing

pub fn write_code(mark: u8, code: u8) -> Vec<u8> {
    vec![mark, mark, mark, CODE_COUNT, code, code]
}

pub fn write_status(status: &Status) -> Vec<u8> {
    let mut fields = vec![
        status.id.text().to_string(),
        letter_text(status.standby_or_operate),
        letter_text(status.receive_or_transmit),
        letter_text(status.bank),
        status.input.to_string(),
        format!("{:02}", status.band),
        format!(
            "{}{}",
            status.transmit_antenna,
            letter_text(status.transmit_letter)
        ),
        format!("{}r", status.receive_antenna),
        letter_text(status.level),
        format!("{:04}", status.numbers[0]),
    ];
    for place in 1..8 {
        let text = number_text(status.numbers[place], DECIMALS[place]);
        fields.push(format!("{:>width$}", text, width = WIDTHS[9 + place]));
    }
    fields.push(letter_text(status.warning));
    fields.push(letter_text(status.alarm));
    enclose_data(format!(",{},", fields.join(",")).as_bytes(), status.comma)
}

/// Puts marks and count before the data, check bytes and line end behind it,
/// with or without the comma between these two.
pub fn enclose_data(data: &[u8], comma: bool) -> Vec<u8> {
    let mut frame = vec![AMPLIFIER_MARK, AMPLIFIER_MARK, AMPLIFIER_MARK, STATUS_COUNT];
    frame.extend_from_slice(data);
    frame.extend_from_slice(&check_bytes(data));
    if comma {
        frame.push(b',');
    }
    frame.extend_from_slice(&LINE_END);
    frame
}

fn letter_text(letter: u8) -> String {
    char::from(letter).to_string()
}

fn number_text(count: u16, decimals: usize) -> String {
    match decimals {
        2 => format!("{}.{:02}", count / 100, count % 100),
        1 => format!("{}.{}", count / 10, count % 10),
        _ => count.to_string(),
    }
}
