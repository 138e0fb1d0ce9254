//! Runs the program under test on one input, so that nothing it does can
//! block or outlast the comparison.

use std::io::{Read, Write};
use std::path::Path;
use std::process::{Child, Command, ExitStatus, Stdio};
use std::sync::mpsc;
use std::thread;
use std::time::{Duration, Instant};

/// No right output comes near this; a program that writes on and on is cut.
const LONGEST_OUTPUT: u64 = 16 << 20;

/// What a run came to.
pub enum Outcome {
    Ended {
        status: ExitStatus,
        output: Vec<u8>,
    },
    /// It was still running at the given moment and has been ended.
    TooSlow,
}

/// The input is written and the output read by threads of their own: a
/// program may answer before it has read everything, or not read at all.
pub fn run(program: &Path, input: &[u8], until: Instant) -> std::io::Result<Outcome> {
    let mut child = Command::new(program)
        .stdin(Stdio::piped())
        .stdout(Stdio::piped())
        .stderr(Stdio::null())
        .spawn()?;
    let standard_input = child.stdin.take();
    let standard_output = child.stdout.take();
    let bytes = input.to_vec();
    thread::spawn(move || {
        if let Some(mut pipe) = standard_input {
            // A program that stops reading early is judged by what it says.
            let _ = pipe.write_all(&bytes);
        }
    });
    let (sender, receiver) = mpsc::channel();
    thread::spawn(move || {
        let mut output = Vec::new();
        if let Some(pipe) = standard_output {
            let _ = pipe.take(LONGEST_OUTPUT).read_to_end(&mut output);
        }
        let _ = sender.send(output);
    });
    let left = until.saturating_duration_since(Instant::now());
    match receiver.recv_timeout(left) {
        Ok(output) => end_of(child, output, until),
        Err(_) => {
            give_up(&mut child);
            Ok(Outcome::TooSlow)
        }
    }
}

/// The output has ended; the program itself follows at once, as a rule.
fn end_of(mut child: Child, output: Vec<u8>, until: Instant) -> std::io::Result<Outcome> {
    loop {
        if let Some(status) = child.try_wait()? {
            return Ok(Outcome::Ended { status, output });
        }
        if Instant::now() >= until {
            give_up(&mut child);
            return Ok(Outcome::TooSlow);
        }
        thread::sleep(Duration::from_micros(100));
    }
}

fn give_up(child: &mut Child) {
    let _ = child.kill();
    let _ = child.wait();
}
