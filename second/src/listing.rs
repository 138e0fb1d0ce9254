//! The lister: the frames of a whole capture by the rule of demand 3. Take
//! the good frame that begins earliest, go on right behind it, and so on.
//!
//! It shares nothing with the stream reader but the rules of single frames,
//! so that each of the two can be held against the other.

use crate::frames::{frame_at_front, kind_text, Family, Frame, LONGEST_INPUT};

pub struct Listed {
    pub start: usize,
    pub length: usize,
    pub skipped: usize,
    pub frame: Frame,
}

/// The whole output of the program `listing` for one input.
pub fn listing(input: &[u8]) -> String {
    let family = match input.first().and_then(|byte| Family::from_ascii(*byte)) {
        Some(family) => family,
        None => return "refused 1\n".to_string(),
    };
    let capture = &input[1..];
    if capture.len() > LONGEST_INPUT {
        return "refused 7\n".to_string();
    }
    let listed = list_frames(family, capture);
    let mut text = String::from("start length skipped kind\n");
    let mut in_frames = 0;
    for line in &listed {
        in_frames += line.length;
        text.push_str(&format!(
            "{} {} {} {}\n",
            line.start,
            line.length,
            line.skipped,
            kind_text(&line.frame)
        ));
    }
    text.push_str(&format!(
        "frames {} bytes {} skipped {}\n",
        listed.len(),
        capture.len(),
        capture.len() - in_frames
    ));
    text
}

pub fn list_frames(family: Family, capture: &[u8]) -> Vec<Listed> {
    let mut listed = Vec::new();
    let mut behind_last = 0;
    let mut place = 0;
    while place < capture.len() {
        match frame_at_front(family, &capture[place..]) {
            Some((frame, length)) => {
                listed.push(Listed {
                    start: place,
                    length,
                    skipped: place - behind_last,
                    frame,
                });
                place += length;
                behind_last = place;
            }
            // A bad start costs one byte and never the declared length.
            None => place += 1,
        }
    }
    listed
}
