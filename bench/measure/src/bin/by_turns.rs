//! `by_turns`: runs commands by turns on one input, and tells what each took.

use measure::at_share;
use std::fs::File;
use std::io;
use std::process::{Command, ExitCode, Stdio};
use std::time::Instant;

const HELP: &str = "\
Usage: by_turns RUNS INPUT -- PROGRAM [word ..] [-- PROGRAM [word ..]] ..

Runs each command RUNS times by turns, with INPUT as standard input, and its text thrown away.
Prints one line a command: seconds of the clock, least and median; seconds of the processor (user and system), least
and median; the greatest peak memory in kB; how many runs ended with a status that is not 0. Linux alone.
";

/// What one run took.
struct Run {
    clock: f64,
    processor: f64,
    /// In kB.
    peak_memory: i64,
    is_good: bool,
}

/// Seconds and microseconds, as the system counts them.
#[repr(C)]
#[derive(Default)]
struct Time {
    seconds: i64,
    microseconds: i64,
}

impl Time {
    fn seconds(&self) -> f64 {
        self.seconds as f64 + self.microseconds as f64 / 1e6
    }
}

/// What the system tells of a process that ended: `struct rusage` of Linux on 64-bit machines.
#[repr(C)]
#[derive(Default)]
struct Usage {
    user: Time,
    system: Time,
    peak_memory: i64,
    others: [i64; 13],
}

unsafe extern "C" {
    fn wait4(process: i32, status: *mut i32, options: i32, usage: *mut Usage) -> i32;
}

/// Runs a command once.
fn run(words: &[String], input: &str) -> io::Result<Run> {
    let input = File::open(input)?;
    let start = Instant::now();
    let mut command = Command::new(&words[0]);
    command.args(&words[1..]).stdin(input).stdout(Stdio::null()).stderr(Stdio::null());
    let process = command.spawn()?;
    let (mut status, mut usage) = (0, Usage::default());
    // Safety: the process is a child of this one, nobody else waits for it, and both places are writable.
    let ended = unsafe { wait4(process.id() as i32, &mut status, 0, &mut usage) };
    if ended < 0 {
        return Err(io::Error::last_os_error());
    }
    Ok(Run {
        clock: start.elapsed().as_secs_f64(),
        processor: usage.user.seconds() + usage.system.seconds(),
        peak_memory: usage.peak_memory,
        is_good: status == 0,
    })
}

/// Gives the least and the median of a figure.
fn least_and_median(runs: &[Run], figure: impl Fn(&Run) -> f64) -> (f64, f64) {
    let mut figures: Vec<f64> = runs.iter().map(figure).collect();
    figures.sort_by(f64::total_cmp);
    (at_share(&figures, 0).unwrap_or(0.0), at_share(&figures, 500).unwrap_or(0.0))
}

fn measure(count: usize, input: &str, commands: &[&[String]]) -> io::Result<()> {
    let mut runs: Vec<Vec<Run>> = commands.iter().map(|_| Vec::new()).collect();
    for _ in 0..count {
        for (command, runs) in commands.iter().zip(&mut runs) {
            runs.push(run(command, input)?);
        }
    }
    for runs in &runs {
        let (least_clock, median_clock) = least_and_median(runs, |run| run.clock);
        let (least, median) = least_and_median(runs, |run| run.processor);
        let memory = runs.iter().map(|run| run.peak_memory).max().unwrap_or(0);
        let bad = runs.iter().filter(|run| !run.is_good).count();
        println!("{least_clock:.4} {median_clock:.4} {least:.4} {median:.4} {memory} {bad}");
    }
    Ok(())
}

fn main() -> ExitCode {
    let words: Vec<String> = std::env::args().skip(1).collect();
    let mut parts = words.split(|word| word == "--");
    let head = parts.next().unwrap_or(&[]);
    let commands: Vec<&[String]> = parts.filter(|words| !words.is_empty()).collect();
    let (Some(count), [_, input], false) = (head.first().and_then(|word| word.parse().ok()), head, commands.is_empty())
    else {
        eprint!("{HELP}");
        return ExitCode::from(2);
    };
    match measure(count, input, &commands) {
        Ok(()) => ExitCode::SUCCESS,
        Err(why) => {
            eprintln!("by_turns: {why}");
            ExitCode::FAILURE
        }
    }
}
