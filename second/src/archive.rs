//! Holds this program against the archive that C programs link: the same calls
//! to both, with every refusal and every place of lent memory compared. What
//! `listing` and `replay` never show is compared here. See README.md.

#[path = "../../c/amp.rs"]
mod amp;

#[allow(dead_code)]
mod alpha;
mod answers;
mod ask_list;
mod ask_read;
mod ask_stream;
mod ask_write;
mod boundary;
mod calls;
mod chance;
#[allow(dead_code)]
mod frames;
mod held_against;
#[allow(dead_code)]
mod kpa;
#[allow(dead_code)]
mod listing;
#[allow(dead_code)]
mod make_alpha;
#[allow(dead_code)]
mod make_comma;
#[allow(dead_code)]
mod make_kpa;
#[allow(dead_code)]
mod make_spe;
#[allow(dead_code)]
mod pieces;
mod rng;
mod rows;
#[allow(dead_code)]
mod spe;
#[allow(dead_code)]
mod spoil_kpa;
mod stream;

use calls::Group;
use held_against::Tally;
use rng::Rng;

/// A group of functions, its part of all calls, and what makes some of them.
type Share = (Group, u64, fn(&mut Tally, &mut Rng));

const SHARES: &[Share] = &[
    (Group::Read, 24, ask_read::by_chance),
    (Group::Write, 30, ask_write::by_chance),
    (Group::List, 8, ask_list::list_by_chance),
    (Group::Next, 12, ask_list::next_by_chance),
    (Group::Stream, 25, ask_stream::by_chance),
    (Group::Other, 1, ask_write::other_by_chance),
];

fn main() {
    let words: Vec<String> = std::env::args().skip(1).collect();
    match settings(&words) {
        Some((seed, count, shown)) => compare(seed, count, Tally::new(shown)),
        None => {
            eprintln!("usage: archive SEED COUNT [show]");
            std::process::exit(2);
        }
    }
}

/// A count of 0 is wrong usage, as in the other comparison.
fn settings(words: &[String]) -> Option<(u64, u64, bool)> {
    let (shown, numbers) = match words.split_last() {
        Some((last, before)) if last == "show" => (true, before),
        _ => (false, words),
    };
    match numbers {
        [seed, count] => {
            let count = count.parse().ok().filter(|count| *count > 0)?;
            Some((seed.parse().ok()?, count, shown))
        }
        _ => None,
    }
}

/// The fixed calls first, all of them whatever the count; then calls by chance
/// until there are as many as wanted, each time of the functions that are
/// furthest behind their share.
fn compare(seed: u64, count: u64, mut tally: Tally) {
    assert_eq!(std::mem::size_of::<amp::AmpReader>(), 144);
    let mut rng = Rng::from_numbers(&[u64::from(b'a'), seed]);
    ask_read::all(&mut tally, &mut rng);
    ask_write::all(&mut tally, &mut rng);
    ask_write::others(&mut tally, &mut rng);
    ask_list::all(&mut tally, &mut rng);
    ask_stream::all(&mut tally, &mut rng);
    while tally.calls() < count {
        let behind = |(group, share, _): &&Share| tally.of_group(*group) * 1000 / share;
        if let Some((_, _, by_chance)) = SHARES.iter().min_by_key(behind) {
            by_chance(&mut tally, &mut rng);
        }
    }
    println!("{}", tally.summary());
}
