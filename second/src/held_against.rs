//! Holds this program's answer to a call against the archive's, counts what
//! agreed, and ends everything at the first difference.

use crate::calls::{Call, Group, Outcome, GROUPS};
use crate::{answers, boundary};

pub struct Tally {
    calls: u64,
    groups: [u64; GROUPS.len()],
    /// Whether each call is shown before it is made, to find one that never
    /// comes back.
    shown: bool,
}

impl Tally {
    pub fn new(shown: bool) -> Tally {
        Tally {
            calls: 0,
            groups: [0; GROUPS.len()],
            shown,
        }
    }

    pub fn calls(&self) -> u64 {
        self.calls
    }

    pub fn of_group(&self, group: Group) -> u64 {
        self.groups[group as usize]
    }

    /// Asks both. What they agree on is given back.
    pub fn ask(&mut self, call: Call) -> Outcome {
        if self.shown {
            println!("call {}: {:?}", self.calls, call);
        }
        let here = answers::answer(&call);
        let there = boundary::answer(&call);
        if here != there {
            println!("DIFFERENCE at call {}", self.calls);
            show_call(&call);
            show_outcome("this program", &call, &here);
            show_outcome("the archive", &call, &there);
            std::process::exit(1);
        }
        self.calls += 1;
        self.groups[call.group() as usize] += 1;
        here
    }

    pub fn summary(&self) -> String {
        let parts: Vec<String> = GROUPS
            .iter()
            .map(|group| format!("{} {}", group.word(), self.of_group(*group)))
            .collect();
        format!("archive: {} calls agree ({})", self.calls, parts.join(", "))
    }
}

// ---------------------------------------------------------------- showing

fn hexadecimal(bytes: &[u8]) -> String {
    let pairs: Vec<String> = bytes.iter().map(|byte| format!("{:02X}", byte)).collect();
    format!("{} bytes: {}", bytes.len(), pairs.join(" "))
}

fn show_call(call: &Call) {
    match call {
        Call::Fresh { reader, family } => {
            println!("amp_fresh, family {} ({:X})", family, family);
            show_reader(reader);
        }
        Call::Feed {
            reader,
            offered,
            row,
        } => {
            println!("amp_feed, row of {} places", row.room);
            println!("    offered, {}", hexadecimal(offered));
            show_reader(reader);
        }
        Call::Close { reader } => {
            println!("amp_close");
            show_reader(reader);
        }
        Call::Read { family, bytes, row } => {
            println!("amp_read, family {}, row of {} places", family, row.room);
            println!("    {}", hexadecimal(bytes));
        }
        Call::Enable { out, .. } => println!("amp_write_enable, output of {} bytes", out.room),
        Call::Order { a, b } => println!("amp_stamp_order, {:X} and {:X}", a, b),
        _ => show_longer_call(call),
    }
}

fn show_longer_call(call: &Call) {
    match call {
        Call::List {
            family,
            capture,
            starts,
            ..
        } => {
            println!("amp_list, family {}, list of {}", family, starts.room);
            println!("    {}", hexadecimal(capture));
        }
        Call::Next {
            family,
            capture,
            place,
            reports,
            ..
        } => {
            println!(
                "amp_next, family {}, place {}, reports {}",
                family, place, reports
            );
            println!("    {}", hexadecimal(capture));
        }
        Call::Write {
            kind,
            code,
            values,
            out,
            ..
        } => {
            println!(
                "amp_write, kind {}, code {:X}, output of {} bytes",
                kind, code, out.room
            );
            println!("    {} values: {:?}", values.len(), values);
            println!("    in hexadecimal: {:X?}", values);
        }
        _ => println!("{:?}", call),
    }
}

fn show_reader(reader: &crate::amp::AmpReader) {
    println!(
        "    reader: family {}, closed {}, count {}, at {}, skipped {}",
        reader.family, reader.closed, reader.count, reader.at, reader.skipped
    );
    println!("    held places, {}", hexadecimal(&reader.held));
}

/// Memory that the call left alone is only named.
fn show_outcome(who: &str, call: &Call, outcome: &Outcome) {
    let before = call.untouched();
    println!("{} gives back {}", who, outcome.number);
    if outcome.reader != before.reader {
        outcome.reader.iter().for_each(show_reader);
    }
    if outcome.row != before.row {
        println!("    row and what is behind it: {:?}", outcome.row);
    }
    if outcome.starts != before.starts {
        println!("    list and what is behind it: {:?}", outcome.starts);
    }
    if outcome.bytes != before.bytes {
        println!("    output and behind it, {}", hexadecimal(&outcome.bytes));
    }
    if outcome.size != before.size {
        println!("    by pointer: {:?}", outcome.size);
    }
    let unchanged = Outcome {
        number: outcome.number,
        ..before
    };
    if *outcome == unchanged {
        println!("    lent memory as before");
    }
}
