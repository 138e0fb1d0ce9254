//! The comparison: gives generated inputs to the programs under test and to
//! this program, and stops loudly at the first answer that is not the same.

use std::path::{Path, PathBuf};
use std::sync::atomic::{AtomicBool, AtomicU64, Ordering};
use std::sync::Mutex;
use std::thread;
use std::time::{Duration, Instant};

use crate::frames::{Family, FAMILIES};
use crate::generate::{self, What};
use crate::report;
use crate::run::{run, Outcome};
use crate::shrink::{shrink, Trial};

const WORKERS: usize = 2;

/// A single answer may take this long before it counts as none.
const LONGEST_RUN: Duration = Duration::from_secs(30);

/// Bounds for making a differing input smaller.
const SHRINK_TRIES: usize = 2000;
const SHRINK_TIME: Duration = Duration::from_secs(60);

pub struct Settings {
    pub listing: PathBuf,
    pub replay: PathBuf,
    pub seed: u64,
    pub count: u64,
    pub save: PathBuf,
    pub seconds: Option<u64>,
}

/// The two answers to one input.
pub struct Difference {
    pub here: Vec<u8>,
    pub there: Vec<u8>,
    /// What else there is to say about the program under test.
    pub remark: String,
}

/// Why a round ended before its last input.
enum Stop {
    Differs(u64),
    TimeIsUp,
    CannotRun(String),
}

/// One kind of input for one family.
struct Round<'a> {
    settings: &'a Settings,
    what: What,
    family: Family,
    deadline: Option<Instant>,
}

impl Round<'_> {
    fn program(&self) -> &Path {
        match self.what {
            What::Capture => &self.settings.listing,
            What::Script => &self.settings.replay,
        }
    }

    fn input(&self, index: u64) -> Vec<u8> {
        generate::input(self.what, self.family, self.settings.seed, index)
    }

    fn time_is_up(&self) -> bool {
        self.deadline
            .map_or(false, |deadline| Instant::now() >= deadline)
    }
}

/// Runs everything; the answer is the exit status.
pub fn compare(settings: &Settings) -> i32 {
    let began = Instant::now();
    let deadline = settings
        .seconds
        .map(|seconds| began + Duration::from_secs(seconds));
    let mut agreed = 0;
    for what in [What::Capture, What::Script] {
        for family in FAMILIES {
            let round = Round {
                settings,
                what,
                family,
                deadline,
            };
            let (count, stop) = run_round(&round);
            agreed += count;
            if let Some(stop) = stop {
                return explain(&round, stop, agreed, began);
            }
            let number = char::from(family.ascii());
            println!("family {}: {} {}s agreed", number, count, what.word());
        }
    }
    println!("{} agreed, 0 differed", agreed);
    0
}

/// How many inputs agreed, and why the round stopped early if it did.
fn run_round(round: &Round) -> (u64, Option<Stop>) {
    let next = AtomicU64::new(0);
    let agreed = AtomicU64::new(0);
    let stopped = AtomicBool::new(false);
    let stops = Mutex::new(Vec::new());
    thread::scope(|scope| {
        for _ in 0..WORKERS {
            scope.spawn(|| {
                while !stopped.load(Ordering::SeqCst) {
                    let index = next.fetch_add(1, Ordering::SeqCst);
                    if index >= round.settings.count {
                        return;
                    }
                    match try_index(round, index) {
                        None => {
                            agreed.fetch_add(1, Ordering::SeqCst);
                        }
                        Some(stop) => {
                            stopped.store(true, Ordering::SeqCst);
                            stops.lock().unwrap().push(stop);
                        }
                    }
                }
            });
        }
    });
    let stop = weightiest(stops.into_inner().unwrap());
    (agreed.into_inner(), stop)
}

fn try_index(round: &Round, index: u64) -> Option<Stop> {
    if round.time_is_up() {
        return Some(Stop::TimeIsUp);
    }
    match difference(round, &round.input(index), round.deadline) {
        Ok(None) => None,
        // An answer cut off by the deadline says nothing about the program.
        Ok(Some(_)) if round.time_is_up() => Some(Stop::TimeIsUp),
        Ok(Some(_)) => Some(Stop::Differs(index)),
        Err(error) => Some(Stop::CannotRun(error.to_string())),
    }
}

/// Both workers may have stopped. A difference says the most, and of two the
/// one with the smaller index is shown, so that runs are alike.
fn weightiest(stops: Vec<Stop>) -> Option<Stop> {
    stops.into_iter().min_by_key(|stop| match stop {
        Stop::Differs(index) => (0, *index),
        Stop::CannotRun(_) => (1, 0),
        Stop::TimeIsUp => (2, 0),
    })
}

/// A crash or a status other than 0 is a difference even when the output is
/// the same.
fn difference(
    round: &Round,
    input: &[u8],
    deadline: Option<Instant>,
) -> std::io::Result<Option<Difference>> {
    let limit = Instant::now() + LONGEST_RUN;
    let until = deadline.map_or(limit, |deadline| deadline.min(limit));
    let here = match round.what {
        What::Capture => crate::listing::listing(input).into_bytes(),
        What::Script => crate::replay::replay(input).into_bytes(),
    };
    Ok(match run(round.program(), input, until)? {
        Outcome::Ended { status, output } if status.success() && output == here => None,
        Outcome::Ended { status, output } => Some(Difference {
            here,
            there: output,
            remark: status.to_string(),
        }),
        Outcome::TooSlow => {
            let remark = "it did not end in time".to_string();
            Some(Difference {
                here,
                there: Vec::new(),
                remark,
            })
        }
    })
}

/// The last line must not look like a success when not all was compared.
fn explain(round: &Round, stop: Stop, agreed: u64, began: Instant) -> i32 {
    match stop {
        Stop::Differs(index) => {
            explain_difference(round, index);
            println!("{} agreed, 1 differed", agreed);
        }
        Stop::TimeIsUp => println!(
            "FAILED: time is up after {} seconds, only {} inputs were compared",
            began.elapsed().as_secs(),
            agreed
        ),
        Stop::CannotRun(error) => {
            println!(
                "FAILED: {} cannot be run: {}",
                round.program().display(),
                error
            )
        }
    }
    1
}

fn explain_difference(round: &Round, index: u64) {
    let found = round.input(index);
    let limit = Instant::now() + SHRINK_TIME;
    let mut still_differs = |input: &[u8]| {
        Instant::now() < limit && matches!(difference(round, input, None), Ok(Some(_)))
    };
    let mut trial = Trial {
        left: SHRINK_TRIES,
        still_differs: &mut still_differs,
    };
    let smallest = shrink(round.what, &found, &mut trial);
    let tries = SHRINK_TRIES - trial.left;
    let number = char::from(round.family.ascii());
    println!("DIFFERENCE: family {}, {}", number, round.what.word());
    println!(
        "found at seed {}, index {} with {} bytes; made smaller to {} bytes in {} tries",
        round.settings.seed,
        index,
        found.len(),
        smallest.len(),
        tries
    );
    // The answers are asked for once more, for exactly the saved input.
    match difference(round, &smallest, None) {
        Ok(Some(difference)) => report::show_difference(&smallest, &difference),
        Ok(None) => println!("this time both agreed: the program under test is not steady"),
        Err(error) => println!("the program under test cannot be run again: {}", error),
    }
    match std::fs::write(&round.settings.save, &smallest) {
        Ok(()) => println!("the input is saved in {}", round.settings.save.display()),
        Err(error) => println!("the input could NOT be saved: {}", error),
    }
}
