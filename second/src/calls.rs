//! The calls that a C program can make of the archive, as data: what goes in,
//! and what a call came to. `answers.rs` and `boundary.rs` both answer them.

use crate::amp::AmpReader;

/// Lent memory that a call may write: what it holds before, and how many of
/// its places are lent. There are always more, and none of those may change.
#[derive(Clone, Debug)]
pub struct Lent<T> {
    pub places: Vec<T>,
    pub room: usize,
}

#[derive(Clone, Debug)]
pub enum Call {
    Fresh {
        reader: AmpReader,
        family: u32,
    },
    Feed {
        reader: AmpReader,
        offered: Vec<u8>,
        row: Lent<i64>,
    },
    Close {
        reader: AmpReader,
    },
    Read {
        family: u32,
        bytes: Vec<u8>,
        row: Lent<i64>,
    },
    List {
        family: u32,
        capture: Vec<u8>,
        starts: Lent<u32>,
        count: usize,
    },
    Next {
        family: u32,
        capture: Vec<u8>,
        place: usize,
        reports: u32,
        start: usize,
    },
    Write {
        kind: u32,
        code: u32,
        values: Vec<i64>,
        out: Lent<u8>,
        length: usize,
    },
    Enable {
        out: Lent<u8>,
        length: usize,
    },
    Order {
        a: u32,
        b: u32,
    },
}

/// The number a call gives back, and what it may write as it is afterwards.
/// What a call does not have stays empty.
#[derive(Clone, PartialEq, Eq, Debug, Default)]
pub struct Outcome {
    pub number: usize,
    pub reader: Option<AmpReader>,
    pub row: Vec<i64>,
    pub starts: Vec<u32>,
    pub bytes: Vec<u8>,
    /// The count, the length or the start that is given back by pointer.
    pub size: Option<usize>,
}

/// What is counted together.
#[derive(Clone, Copy, PartialEq, Eq, Debug)]
pub enum Group {
    Read,
    Write,
    List,
    Next,
    Stream,
    Other,
}

pub const GROUPS: [Group; 6] = [
    Group::Read,
    Group::Write,
    Group::List,
    Group::Next,
    Group::Stream,
    Group::Other,
];

impl Group {
    pub fn word(self) -> &'static str {
        match self {
            Group::Read => "read",
            Group::Write => "write",
            Group::List => "list",
            Group::Next => "next",
            Group::Stream => "stream",
            Group::Other => "other",
        }
    }
}

impl Call {
    pub fn group(&self) -> Group {
        match self {
            Call::Fresh { .. } | Call::Feed { .. } | Call::Close { .. } => Group::Stream,
            Call::Read { .. } => Group::Read,
            Call::List { .. } => Group::List,
            Call::Next { .. } => Group::Next,
            Call::Write { .. } => Group::Write,
            Call::Enable { .. } | Call::Order { .. } => Group::Other,
        }
    }

    /// How everything that may be written stands before the call. This is
    /// also how a refusal leaves it.
    pub fn untouched(&self) -> Outcome {
        let nothing = Outcome::default();
        match self.clone() {
            Call::Fresh { reader, .. } | Call::Close { reader } => Outcome {
                reader: Some(reader),
                ..nothing
            },
            Call::Feed { reader, row, .. } => Outcome {
                reader: Some(reader),
                row: row.places,
                ..nothing
            },
            Call::Read { row, .. } => Outcome {
                row: row.places,
                ..nothing
            },
            Call::List { starts, count, .. } => Outcome {
                starts: starts.places,
                size: Some(count),
                ..nothing
            },
            Call::Next { start, .. } => Outcome {
                size: Some(start),
                ..nothing
            },
            Call::Write { out, length, .. } | Call::Enable { out, length } => Outcome {
                bytes: out.places,
                size: Some(length),
                ..nothing
            },
            Call::Order { .. } => nothing,
        }
    }
}
