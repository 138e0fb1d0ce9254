//! Makes the calls of the archive itself. Everything unsafe stands here.

use crate::amp::{self, AmpReader};
use crate::calls::{Call, Outcome};

/// What stands around a lent reader and must be the same afterwards.
const FENCE: [u64; 2] = [0x0123_4567_89AB_CDEF, 0xFEDC_BA98_7654_3210];

#[repr(C)]
struct Fenced {
    before: [u64; 2],
    reader: AmpReader,
    behind: [u64; 2],
}

pub fn answer(call: &Call) -> Outcome {
    let mut after = call.untouched();
    match call {
        Call::Fresh { reader, family } => {
            let ask = |reader: *mut AmpReader| unsafe { amp::amp_fresh(reader, *family) };
            with_reader(&mut after, reader, ask);
        }
        Call::Feed {
            reader,
            offered,
            row,
        } => {
            let (offer, size) = (offered.as_ptr(), offered.len());
            let (laid, room) = (after.row.as_mut_ptr(), row.room);
            let ask =
                |reader: *mut AmpReader| unsafe { amp::amp_feed(reader, offer, size, laid, room) };
            with_reader(&mut after, reader, ask);
        }
        Call::Close { reader } => {
            let ask = |reader: *mut AmpReader| unsafe { amp::amp_close(reader) };
            with_reader(&mut after, reader, ask);
        }
        Call::Next { .. } => next(call, &mut after),
        Call::Order { a, b } => after.number = unsafe { amp::amp_stamp_order(*a, *b) } as usize,
        _ => after.number = without_reader(call, &mut after) as usize,
    }
    after
}

/// Lends a fenced copy of the reader to the call and takes it back.
fn with_reader(after: &mut Outcome, reader: &AmpReader, ask: impl Fn(*mut AmpReader) -> u32) {
    let mut fenced = Fenced {
        before: FENCE,
        reader: *reader,
        behind: FENCE,
    };
    // Taken from the whole, so that a write beside the reader would be seen.
    let whole: *mut Fenced = &mut fenced;
    after.number = ask(unsafe { std::ptr::addr_of_mut!((*whole).reader) }) as usize;
    assert!(
        fenced.before == FENCE && fenced.behind == FENCE,
        "the archive wrote outside of the reader"
    );
    after.reader = Some(fenced.reader);
}

fn without_reader(call: &Call, after: &mut Outcome) -> u32 {
    let mut size = after.size.unwrap_or(0);
    let number = match call {
        Call::Read { family, bytes, row } => unsafe {
            let laid = after.row.as_mut_ptr();
            amp::amp_read(*family, bytes.as_ptr(), bytes.len(), laid, row.room)
        },
        Call::List {
            family,
            capture,
            starts,
            ..
        } => unsafe {
            let (bytes, many) = (capture.as_ptr(), capture.len());
            let laid = after.starts.as_mut_ptr();
            amp::amp_list(*family, bytes, many, laid, starts.room, &mut size)
        },
        _ => write(call, after.bytes.as_mut_ptr(), &mut size),
    };
    after.size = after.size.map(|_| size);
    number
}

fn write(call: &Call, laid: *mut u8, size: &mut usize) -> u32 {
    match call {
        Call::Write {
            kind,
            code,
            values,
            out,
            ..
        } => unsafe {
            let (given, many) = (values.as_ptr(), values.len());
            amp::amp_write(*kind, *code, given, many, laid, out.room, size)
        },
        Call::Enable { out, .. } => unsafe { amp::amp_write_enable(laid, out.room, size) },
        _ => unreachable!("the other calls are made elsewhere"),
    }
}

fn next(call: &Call, after: &mut Outcome) {
    if let Call::Next {
        family,
        capture,
        place,
        reports,
        start,
    } = call
    {
        let mut found = *start;
        let (bytes, size) = (capture.as_ptr(), capture.len());
        after.number = unsafe { amp::amp_next(*family, bytes, size, *place, *reports, &mut found) };
        after.size = Some(found);
    }
}
