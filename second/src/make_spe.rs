//! Makes SPE packets for tests: sound ones with every field at its edges and
//! in its middle, and ones in which exactly one rule is broken. Reports come in
//! both forms; what can go wrong around the comma is made in `make_comma.rs`.

use crate::make_comma;
use crate::rng::Rng;
use crate::spe::{
    check_bytes, enclose_data, write_code, Id, AMPLIFIER_MARK, COMMAND_CODES, HOST_MARK, LINE_END,
    STATUS_CODE, STATUS_DATA,
};

/// Fields that break a rule of their own, separated by bars: the amplifier
/// for which they do ("any" for both), the field's number, the texts. Each
/// text is as wide as the field, so that nothing else is wrong.
const FIELD_BREAKAGES: &[(&str, usize, &str)] = &[
    ("any", 1, "15K|2OK|20k|13k|   |10K|23K|K20|1K3|00K|20 |13A"),
    ("any", 2, "s|o|0| |R|T|N|P|1|x"),
    ("any", 3, "r|t| |S|O|X|0|U|Q"),
    ("20K", 4, "A|B|X|a|b| |0|y|w|C"),
    ("13K", 4, "x|X|C|a|b| |0|@"),
    ("any", 5, "0|3| |9|A|x|l"),
    (
        "20K",
        6,
        "11|12|19|20|99| 3|3 |0A|A0|-1|1.|  |:0|0:|0/|/9|+5",
    ),
    (
        "13K",
        6,
        "12|13|20|21|99| 3|3 |0B|A1|-1|1.|  |:0|0:|0/|/9|+5",
    ),
    (
        "20K",
        7,
        "7t|8b|9a| t|-t|At|/t|:a|1T|1B|1A|1r|1c|1 |t1|11|10|0x",
    ),
    (
        "13K",
        7,
        "5t|6b|7a|9t| t|-t|At|/t|:a|1T|1B|1A|1r|1c|1 |t1|11|0x",
    ),
    (
        "20K",
        8,
        "7r|8r|9r| r|-r|/r|:r|1R|1t|1b|1a|1 |r1|00|  |0s|0q",
    ),
    (
        "13K",
        8,
        "5r|6r|7r|9r| r|-r|/r|:r|1R|1t|1b|1a|1 |r1|00|  |0s|0q",
    ),
    ("any", 9, "l|m|h|0|N| |X|G|I|K"),
    ("any", 10, "    |   .| 1 2|12 3|1.23|-012|+100|123 "),
    ("any", 10, "1   |00A0|   O|0x10|0/00|:000| 0 0"),
    ("any", 11, "     |  .00|00.0 |0.000| 0,00| 0.0A| 0.A0|1 .00"),
    ("any", 11, " 1.2 |00000|  100|.0000|123.4|-1.00|+1.00"),
    ("any", 11, " 0:00| . 00|1..00| 0 00|    0| 0. 1"),
    ("any", 11, "0 .00|/0.00| :.00| 1.0.|   .0| A.00"),
    ("any", 12, "     |  .00|00.0 |0.000| 0,00| 0.0A| 0.A0|1 .00"),
    ("any", 12, " 1.2 |00000|  100|.0000|123.4|-1.00|+1.00"),
    ("any", 12, " 0:00| . 00|1..00| 0 00|    0| 0. 1"),
    ("any", 12, "0 .00|/0.00| :.00| 1.0.|   .0| A.00"),
    ("any", 13, "    |  .0| 0. |0.00|1 .0|0000|   0|123.|12,3"),
    ("any", 13, ".000|-1.0|+1.0| 0.A| 1. |0..0| A.0|12:3|  1."),
    ("any", 14, "    |  .0| 0. |0.00|1 .0|0000|   0|123.|12,3"),
    ("any", 14, ".000|-1.0|+1.0| 0.A| 1. |0..0| A.0|12:3|  1."),
    ("any", 15, "   | 1 |1  |-01|+25|1 2|2A5|1.2|0x1"),
    ("any", 15, "25 | -0|.25|  .|25F|/00|00:| O0"),
    ("any", 16, "   | 0 |0  |-00|+00|0 0|0A0|0.0|0x0"),
    ("any", 16, "00 | -0|.00|  .|00F|/00|00:| O0"),
    ("any", 17, "   | 0 |0  |-00|+00|0 0|0A0|0.0|0x0"),
    ("any", 17, "00 | -0|.00|  .|00F|/00|00:| O0"),
    ("13K", 16, "  1|001| 10|100| 29|999|010"),
    ("13K", 17, "  1|001| 10|100| 30|999|010"),
    ("any", 18, "D|E|F|G|H|I|J|L|Q|U|V|X|Z|n|m|a|0| |1|@|["),
    ("any", 19, "M|B|P|O|Y|W|K|R|T|E|G|Z|n|s|a|d|h|c|0| |@"),
];

/// Bytes that are tried where a comma belongs.
const NOT_COMMAS: &[u8] = b" ;.0-+/\x00\xAC\x2B\x2D";

/// Codes that are in no table, many of them next to one that is.
const NOT_CODES: &[u8] = &[
    0x00, 0x12, 0x13, 0x7F, 0x80, 0x81, 0x84, 0x8F, 0x91, 0xAA, 0x55, 0xFF,
];

/// How many breakages `broken_ending` and `broken_code_packet` know.
const ENDINGS: usize = 14;
const CODE_BREAKAGES: usize = 8;

// ------------------------------------------------------------------ sound

pub fn sound_command(rng: &mut Rng) -> Vec<u8> {
    write_code(HOST_MARK, rng.pick(&COMMAND_CODES))
}

pub fn sound_acknowledgement(rng: &mut Rng) -> Vec<u8> {
    write_code(AMPLIFIER_MARK, rng.pick(&COMMAND_CODES[..19]))
}

/// Both forms of a report are as frequent.
pub fn sound_report(rng: &mut Rng) -> Vec<u8> {
    let data = sound_data(rng);
    in_either_form(rng, &data)
}

/// The data of a sound report, to be enclosed or spoiled and enclosed.
pub fn sound_data(rng: &mut Rng) -> Vec<u8> {
    let id = rng.pick(&[Id::Expert20K, Id::Expert13K]);
    data_of(&sound_fields(rng, id))
}

fn data_of(fields: &[String]) -> Vec<u8> {
    format!(",{},", fields.join(",")).into_bytes()
}

fn in_either_form(rng: &mut Rng, data: &[u8]) -> Vec<u8> {
    enclose_data(data, rng.percent(50))
}

fn sound_fields(rng: &mut Rng, id: Id) -> Vec<String> {
    let (banks, bands, antennas): (&[&str], usize, usize) = match id {
        Id::Expert20K => (&["x"], 10, 6),
        Id::Expert13K => (&["A", "B"], 11, 4),
    };
    let one_temperature = id == Id::Expert13K;
    let form = rng.below(3);
    let mut fields = vec![
        id.text().to_string(),
        rng.pick(&["S", "O"]).to_string(),
        rng.pick(&["R", "T"]).to_string(),
        rng.pick(banks).to_string(),
        rng.pick(&["1", "2"]).to_string(),
        format!("{:02}", edge_or_middle(rng, bands)),
        format!(
            "{}{}",
            edge_or_middle(rng, antennas),
            rng.pick(&["t", "b", "a"])
        ),
        format!("{}r", edge_or_middle(rng, antennas)),
        rng.pick(&["L", "M", "H"]).to_string(),
        sound_number(rng, form, 9999, 4, 0),
        sound_number(rng, form, 9999, 2, 2),
        sound_number(rng, form, 9999, 2, 2),
        sound_number(rng, form, 999, 2, 1),
        sound_number(rng, form, 999, 2, 1),
        sound_number(rng, form, 999, 3, 0),
    ];
    for _ in 0..2 {
        let highest = if one_temperature { 0 } else { 999 };
        fields.push(sound_number(rng, form, highest, 3, 0));
    }
    fields.push(one_letter(rng, "MASBPOYWKRTCN"));
    fields.push(one_letter(rng, "SADHCN"));
    fields
}

fn one_letter(rng: &mut Rng, letters: &str) -> String {
    char::from(rng.pick(letters.as_bytes())).to_string()
}

/// A number from 0 to `highest`, often one at which something changes.
pub fn edge_or_middle(rng: &mut Rng, highest: usize) -> usize {
    let edges = [0, 1, 9, 10, 99, 100, 255, 999, 1000, highest];
    let number = if rng.percent(60) {
        rng.pick(&edges)
    } else {
        rng.between(0, highest)
    };
    number.min(highest)
}

/// One of fields 10 to 17. Form 0 is the writer's form; form 1 fills up with
/// zeros; form 2 mixes spaces and zeros at random.
fn sound_number(
    rng: &mut Rng,
    form: usize,
    highest: usize,
    width: usize,
    decimals: usize,
) -> String {
    let count = edge_or_middle(rng, highest);
    let unit = [1, 10, 100][decimals];
    let whole = (count / unit).to_string();
    let writer_zeros = decimals == 0 && width == 4;
    let digits = match form {
        0 if writer_zeros => width,
        0 => whole.len(),
        1 => width,
        _ => rng.between(whole.len(), width),
    };
    let text = format!(
        "{:>width$}",
        format!("{:0>digits$}", whole, digits = digits),
        width = width
    );
    match decimals {
        0 => text,
        _ => format!("{}.{:0decimals$}", text, count % unit, decimals = decimals),
    }
}

// ----------------------------------------------------------------- broken

/// Every breakage of a family 1 packet once.
pub fn all_broken_replies(rng: &mut Rng) -> Vec<Vec<u8>> {
    let mut frames = Vec::new();
    for (amplifier, number, texts) in FIELD_BREAKAGES {
        for text in texts.split('|') {
            frames.push(report_with_field(rng, amplifier, *number, text));
        }
    }
    for place in 0..20 {
        for byte in NOT_COMMAS {
            frames.push(report_with_other_comma(rng, place, *byte));
        }
    }
    frames.extend((0..ENDINGS).map(|which| broken_ending(rng, which)));
    frames.push(report_with_a_field_less(rng));
    frames.push(report_with_shifted_comma(rng));
    frames.extend(make_comma::all_broken_commas(rng));
    frames.extend(all_broken_codes(rng, AMPLIFIER_MARK));
    frames.push(write_code(AMPLIFIER_MARK, STATUS_CODE));
    frames
}

pub fn all_broken_commands(rng: &mut Rng) -> Vec<Vec<u8>> {
    all_broken_codes(rng, HOST_MARK)
}

/// One family 1 packet with one rule broken, by chance.
pub fn broken_reply(rng: &mut Rng) -> Vec<u8> {
    match rng.below(24) {
        0 => {
            let (place, byte) = (rng.below(20), rng.pick(NOT_COMMAS));
            report_with_other_comma(rng, place, byte)
        }
        1..=3 => {
            let which = rng.below(ENDINGS);
            broken_ending(rng, which)
        }
        4 => report_with_a_field_less(rng),
        5 => report_with_shifted_comma(rng),
        6 => write_code(AMPLIFIER_MARK, STATUS_CODE),
        7..=9 => broken_code(rng, AMPLIFIER_MARK),
        10..=13 => make_comma::broken_comma(rng),
        _ => {
            let (amplifier, number, texts) = rng.pick(FIELD_BREAKAGES);
            let texts: Vec<&str> = texts.split('|').collect();
            let text = rng.pick(&texts);
            report_with_field(rng, amplifier, number, text)
        }
    }
}

pub fn broken_command(rng: &mut Rng) -> Vec<u8> {
    broken_code(rng, HOST_MARK)
}

fn report_with_field(rng: &mut Rng, amplifier: &str, number: usize, text: &str) -> Vec<u8> {
    let id = match amplifier {
        "20K" => Id::Expert20K,
        "13K" => Id::Expert13K,
        _ => rng.pick(&[Id::Expert20K, Id::Expert13K]),
    };
    let mut fields = sound_fields(rng, id);
    fields[number - 1] = text.to_string();
    in_either_form(rng, &data_of(&fields))
}

fn report_with_other_comma(rng: &mut Rng, which: usize, byte: u8) -> Vec<u8> {
    let mut data = sound_data(rng);
    let commas: Vec<usize> = (0..data.len())
        .filter(|place| data[*place] == b',')
        .collect();
    data[commas[which]] = byte;
    in_either_form(rng, &data)
}

/// The mistake of the printed example: a number is missing and the rest moved
/// up, with spaces at the end so that the count still fits.
fn report_with_a_field_less(rng: &mut Rng) -> Vec<u8> {
    let mut fields = sound_fields(rng, Id::Expert20K);
    fields.remove(rng.between(9, 16));
    let mut data = data_of(&fields);
    data.resize(STATUS_DATA, b' ');
    in_either_form(rng, &data)
}

/// One field a digit wider and its neighbour a digit narrower.
fn report_with_shifted_comma(rng: &mut Rng) -> Vec<u8> {
    let mut fields = sound_fields(rng, Id::Expert20K);
    let place = rng.pick(&[10, 14, 15]);
    fields[place].insert(0, '0');
    fields[place + 1].remove(0);
    in_either_form(rng, &data_of(&fields))
}

/// A report that is sound but for its check bytes, line end, marks or count.
fn broken_ending(rng: &mut Rng, which: usize) -> Vec<u8> {
    let mut frame = sound_report(rng);
    let [low, high] = check_bytes(&frame[4..71]);
    let end = frame.len() - LINE_END.len();
    match which {
        0 => frame[71] = low.wrapping_add(1),
        1 => frame[71] = low.wrapping_sub(1),
        2 => frame[72] = high.wrapping_add(1),
        3 => frame[72] = high.wrapping_sub(1),
        // A sum with two equal bytes would survive the exchange.
        4 if low != high => frame.swap(71, 72),
        4 => frame[72] = !high,
        5 => frame[72] = 0,
        6 => frame.swap(end, end + 1),
        7 => frame[end + 1] = 0x0D,
        8 => frame[end] = 0x0A,
        9 => frame[end] = rng.pick(&[0x00, b' ', 0x8D, 0x0C, 0x0E]),
        10 => frame[end + 1] = rng.pick(&[0x00, b' ', 0x8A, 0x0B, 0x09]),
        11 => frame.truncate(end),
        12 => frame[3] = rng.pick(&[0x00, 0x01, 0x02, 0x42, 0x44, 0x4B, 0xC3, 0xAA]),
        _ => frame[rng.below(3)] = rng.pick(&[0x55, 0xAB, 0x2A, 0x00]),
    }
    frame
}

fn all_broken_codes(rng: &mut Rng, mark: u8) -> Vec<Vec<u8>> {
    let mut frames: Vec<Vec<u8>> = NOT_CODES
        .iter()
        .map(|code| write_code(mark, *code))
        .collect();
    frames.extend((0..CODE_BREAKAGES).map(|which| broken_code_packet(rng, mark, which)));
    frames
}

fn broken_code(rng: &mut Rng, mark: u8) -> Vec<u8> {
    if rng.percent(50) {
        return write_code(mark, rng.pick(NOT_CODES));
    }
    let which = rng.below(CODE_BREAKAGES);
    broken_code_packet(rng, mark, which)
}

fn broken_code_packet(rng: &mut Rng, mark: u8, which: usize) -> Vec<u8> {
    let mut frame = write_code(mark, rng.pick(&COMMAND_CODES[..19]));
    match which {
        0 => frame[5] = frame[5].wrapping_add(1),
        1 => frame[5] = frame[5].wrapping_sub(1),
        2 => frame[5] = !frame[5],
        3 => frame[3] = rng.pick(&[0x00, 0x02, 0x03, 0x81, 0xFF]),
        4 => frame[rng.below(3)] = !mark,
        5 => frame[4] ^= 1 << rng.below(8),
        6 => frame.truncate(5),
        _ => {
            frame.remove(0);
        }
    }
    frame
}

/// Changes one data byte of a report and makes the sum right again, so that
/// only the rules of the fields stand between it and the panel.
pub fn changed_and_resealed(rng: &mut Rng) -> Vec<u8> {
    let mut data = sound_data(rng);
    let place = rng.below(data.len());
    data[place] = match rng.below(4) {
        0 => rng.byte(),
        1 => data[place] ^ (1 << rng.below(8)),
        2 => rng.pick(b" .,0123456789"),
        _ => rng.pick(b"xABCDHKLMNOPRSTWYabrt"),
    };
    in_either_form(rng, &data)
}
