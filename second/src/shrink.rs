//! Makes an input smaller as long as it keeps a property, here: that two
//! programs answer it differently.

use crate::frames::LONGEST_INPUT;
use crate::generate::What;
use crate::replay::{first_call, Call};

/// Calls the property a bounded number of times; after that it says no, and
/// every loop below runs out quickly.
pub struct Trial<'a> {
    pub left: usize,
    pub still_differs: &'a mut dyn FnMut(&[u8]) -> bool,
}

impl Trial<'_> {
    fn holds(&mut self, input: &[u8]) -> bool {
        if self.left == 0 {
            return false;
        }
        self.left -= 1;
        (self.still_differs)(input)
    }
}

/// The smallest input found. The first byte is kept.
pub fn shrink(what: What, input: &[u8], trial: &mut Trial) -> Vec<u8> {
    let mut best = input.to_vec();
    loop {
        let before = best.len();
        if what == What::Script {
            best = shrink_script(&best, trial);
        }
        best = shrink_list(best, 1, trial, &|bytes: &[u8]| bytes.to_vec());
        // Something small may have made room for more; try until it did not.
        if best.len() == before || trial.left == 0 {
            return best;
        }
    }
}

/// Deletes stretches of half the length, then a quarter, and so on down to
/// single items; the first `kept` items stay.
fn shrink_list<T: Clone>(
    mut items: Vec<T>,
    kept: usize,
    trial: &mut Trial,
    input_of: &dyn Fn(&[T]) -> Vec<u8>,
) -> Vec<T> {
    let mut size = items.len().saturating_sub(kept);
    while size > 0 && trial.left > 0 {
        let mut place = kept;
        while place < items.len() && trial.left > 0 {
            let end = (place + size).min(items.len());
            let mut fewer = items[..place].to_vec();
            fewer.extend_from_slice(&items[end..]);
            if trial.holds(&input_of(&fewer)) {
                items = fewer;
            } else {
                place = end;
            }
        }
        size /= 2;
    }
    items
}

/// In a script a byte cannot go alone, its call's count has to go down with
/// it. So whole calls are deleted first, then bytes inside calls.
fn shrink_script(input: &[u8], trial: &mut Trial) -> Vec<u8> {
    if input.is_empty() || input.len() - 1 > LONGEST_INPUT {
        return input.to_vec();
    }
    let (calls, tail) = calls_of(&input[1..]);
    let first = input[0];
    let calls = shrink_list(calls, 0, trial, &|calls: &[Call]| {
        input_from(first, calls, &tail)
    });
    let mut best = calls;
    for which in 0..best.len() {
        if let Call::Offer { letter, bytes } = best[which].clone() {
            let others = best.clone();
            let with_bytes = |bytes: &[u8]| {
                let mut calls = others.clone();
                calls[which] = Call::Offer {
                    letter,
                    bytes: bytes.to_vec(),
                };
                input_from(first, &calls, &tail)
            };
            let bytes = shrink_list(bytes, 0, trial, &with_bytes);
            best[which] = Call::Offer { letter, bytes };
        }
    }
    input_from(first, &best, &tail)
}

/// The calls of a script and the bytes behind the last good one.
fn calls_of(script: &[u8]) -> (Vec<Call>, Vec<u8>) {
    let mut calls = Vec::new();
    let mut rest = script;
    while let Some((call, length)) = first_call(rest) {
        calls.push(call);
        rest = &rest[length..];
    }
    (calls, rest.to_vec())
}

fn input_from(first: u8, calls: &[Call], tail: &[u8]) -> Vec<u8> {
    let mut input = vec![first];
    for call in calls {
        match call {
            Call::Close => input.push(b'c'),
            Call::Offer { letter, bytes } => {
                input.push(*letter);
                input.push(bytes.len() as u8);
                input.extend_from_slice(bytes);
            }
        }
    }
    input.extend_from_slice(tail);
    input
}
