//! The stream reader: takes a stream in calls of any size and hands out the
//! good frames, one for each call.
//!
//! It works byte by byte in the plainest way: try what is held, take one
//! byte, try again. Speed is of no concern here, being obviously right is.

use crate::frames::{frame_at_front, start_is_undecided, Family, Frame};

pub enum Answer {
    Frame(Box<Found>),
    More { taken: usize },
    Done { taken: usize },
    Refused(u8),
}

pub struct Found {
    pub taken: usize,
    pub start: u32,
    pub skipped: u32,
    pub length: usize,
    pub frame: Frame,
}

/// Any contents are a state to go on from, also one that no stream leads to.
pub struct Reader {
    pub family: Family,
    /// Bytes taken but not yet handed out or given up, in stream order.
    pub held: Vec<u8>,
    /// Place in the stream of the first held byte.
    pub place: u32,
    /// Bytes given up since the last frame.
    pub skipped: u32,
    pub closed: bool,
}

impl Reader {
    pub fn fresh(family: Family) -> Reader {
        Reader {
            family,
            held: Vec::new(),
            place: 0,
            skipped: 0,
            closed: false,
        }
    }

    pub fn close(&mut self) {
        self.closed = true;
    }

    pub fn call(&mut self, offered: &[u8]) -> Answer {
        if self.closed && !offered.is_empty() {
            return Answer::Refused(5);
        }
        let mut taken = 0;
        loop {
            if let Some((frame, length)) = self.try_held() {
                return Answer::Frame(Box::new(self.hand_out(taken, frame, length)));
            }
            if taken == offered.len() {
                break;
            }
            self.held.push(offered[taken]);
            taken += 1;
        }
        if self.closed {
            Answer::Done { taken }
        } else {
            Answer::More { taken }
        }
    }

    /// Looks at the held bytes from the front, giving up each byte that is no
    /// start, until a good frame or an undecided start stands in front or
    /// nothing is held. An undecided start stops the search, because a frame
    /// behind it must not be handed out before it is decided. After close it
    /// can never become a frame, so it is given up like any other.
    fn try_held(&mut self) -> Option<(Frame, usize)> {
        let mut front = 0;
        let mut found = None;
        while front < self.held.len() {
            let rest = &self.held[front..];
            found = frame_at_front(self.family, rest);
            if found.is_some() || (!self.closed && start_is_undecided(self.family, rest)) {
                break;
            }
            front += 1;
        }
        self.held.drain(..front);
        self.place = self.place.wrapping_add(front as u32);
        self.skipped = self.skipped.wrapping_add(front as u32);
        found
    }

    /// Moves the reader behind the frame that stands at the front.
    fn hand_out(&mut self, taken: usize, frame: Frame, length: usize) -> Found {
        let found = Found {
            taken,
            start: self.place,
            skipped: self.skipped,
            length,
            frame,
        };
        self.held.drain(..length);
        self.place = self.place.wrapping_add(length as u32);
        self.skipped = 0;
        found
    }
}
