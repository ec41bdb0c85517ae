//! `bench JUDGE FILE TIMES` judges the trace in a file that many times with `library` or `fast`, for tools that count
//! instructions: the difference of two runs is what the judgements take. `bench --time FILE...` prints the time per
//! event of both judges for each file.

use gorbuzte::fast::Fast;
use gorbuzte::{Judge, Refusal, Verdict};
use std::hint::black_box;
use std::process::ExitCode;
use std::time::{Duration, Instant};

/// What is timed: one judgement of a trace.
type Judging<'a> = &'a mut dyn FnMut(&[u8]) -> Result<Verdict, Refusal>;

fn main() -> ExitCode {
    let words: Vec<String> = std::env::args().skip(1).collect();
    let words: Vec<&str> = words.iter().map(String::as_str).collect();
    let done = match words[..] {
        ["--time", ref files @ ..] if !files.is_empty() => files.iter().all(|file| print_times(file)),
        ["library", file, times] => {
            let mut judge = Judge::new();
            repeat(file, times, &mut |trace| judge.judge(trace))
        }
        ["fast", file, times] => {
            let mut fast = Fast::new();
            repeat(file, times, &mut |trace| fast.judge(trace))
        }
        _ => false,
    };
    if done {
        return ExitCode::SUCCESS;
    }
    eprintln!("usage: bench library|fast FILE TIMES, or bench --time FILE...");
    ExitCode::from(2)
}

/// The bytes of a file.
fn read(file: &str) -> Option<Vec<u8>> {
    std::fs::read(file).map_err(|error| eprintln!("{file}: {error}")).ok()
}

/// Judges the trace in a file that many times. Gives whether there was such a file and number.
fn repeat(file: &str, times: &str, judging: Judging) -> bool {
    let (Some(trace), Ok(times)) = (read(file), times.parse::<u32>()) else { return false };
    for _ in 0..times {
        let _ = black_box(judging(black_box(&trace)));
    }
    true
}

/// Prints the time per event of both judges for a file. Gives whether there was such a file with an accepted trace.
fn print_times(file: &str) -> bool {
    let Some(trace) = read(file) else { return false };
    let (mut judge, mut fast) = (Judge::new(), Fast::new());
    let answer = judge.judge(&trace);
    let Ok(Verdict::Robust { events, .. } | Verdict::Broken { events, .. }) = answer else {
        eprintln!("{file}: {answer:?}");
        return false;
    };
    let library = time(&trace, &mut |trace| judge.judge(trace)) / f64::from(events.max(1));
    let fast = time(&trace, &mut |trace| fast.judge(trace)) / f64::from(events.max(1));
    println!("{file}: {events} events, library {library:.2} ns per event, fast {fast:.2} ns per event");
    true
}

/// The nanoseconds of one judgement: the least of several rounds, each of which is the mean of many judgements.
fn time(trace: &[u8], judging: Judging) -> f64 {
    let mut least = f64::INFINITY;
    let start = Instant::now();
    while start.elapsed() < Duration::from_millis(300) {
        let round = Instant::now();
        for _ in 0..100 {
            let _ = black_box(judging(black_box(trace)));
        }
        least = least.min(round.elapsed().as_nanos() as f64 / 100.0);
    }
    least
}
