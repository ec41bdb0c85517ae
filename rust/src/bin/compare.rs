//! `compare SEED COUNT` compares the library, the reference and the fast judge on COUNT generated traces.

use gorbuzte::comparison::{Comparison, Counts};
use gorbuzte::generator::{Family, Generator, Random, FAMILIES};
use gorbuzte::REFUSALS;
use std::process::ExitCode;
use std::time::Instant;

fn main() -> ExitCode {
    let numbers: Vec<u64> = std::env::args().skip(1).filter_map(|word| word.parse().ok()).collect();
    let [seed, count] = numbers[..] else {
        eprintln!("usage: compare SEED COUNT");
        return ExitCode::from(2);
    };
    let start = Instant::now();
    let mut generator = Generator::new();
    let mut comparison = Comparison::new();
    let mut made = [0_u64; FAMILIES.len()];
    for number in 0..count {
        let (trace, family) = generator.trace(seed, number);
        made[family as usize] += 1;
        if let Err(difference) = comparison.check(trace, &Random::new(!seed, number)) {
            tell(seed, number, family, trace, &difference);
            return ExitCode::FAILURE;
        }
    }
    print_counts(&comparison.counts, &made);
    println!("{:.1} seconds", start.elapsed().as_secs_f64());
    println!("{count} traces, 0 differences");
    ExitCode::SUCCESS
}

/// Prints a difference with all that is needed to repeat it.
fn tell(seed: u64, number: u64, family: Family, trace: &[u8], difference: &str) {
    println!("seed {seed}, trace {number} ({family:?}), {} bytes:", trace.len());
    println!("{}", trace.iter().map(|byte| format!("{byte:02x}")).collect::<String>());
    println!("{difference}");
    println!("{} traces, 1 difference", number + 1);
}

fn print_counts(counts: &Counts, made: &[u64]) {
    for (family, number) in FAMILIES.iter().zip(made) {
        println!("made {family:?}: {number}");
    }
    println!("robust: {}, of them with a store in the cut: {}", counts.robust, counts.robust_with_stores);
    println!("of them of no bytes, given to every call: {}", counts.no_bytes);
    println!("broken, contradiction: {}", counts.contradiction);
    println!("broken, flush: {}", counts.flush);
    println!("of them without a window of the primary thread: {}", counts.primary_without_window);
    println!("of them with windows of several threads: {}", counts.several_windows);
    println!("of them without a window of the observed store's thread: {}", counts.observing_without_window);
    println!("of them with locations fewer than eight apart: {}", counts.flush_at_border);
    println!("broken, impossible: {}, of them with two locations: {}", counts.impossible, counts.impossible_apart);
    println!("accepted, with a locked operation: {}", counts.locked);
    println!(
        "broken, with a locked operation as load: {}, as missing: {}, as observed: {}",
        counts.load_locked, counts.missing_locked, counts.observed_locked
    );
    println!("accepted, with a wait: {}, of them broken by waits alone: {}", counts.waits, counts.broken_by_waits);
    println!("broken, flush, with a window that a wait opens: {}", counts.opened_by_waits);
    println!(
        "accepted, with a close that counts loads: {}, of them several at once: {}",
        counts.counting_closes, counts.several_held
    );
    println!(
        "broken at a close: {}, robust by loads that are dropped: {}",
        counts.broken_at_close, counts.robust_by_drops
    );
    for refusal in REFUSALS {
        println!("refused {refusal}: {}", counts.refused[usize::from(refusal)]);
    }
    println!("checked by all choices: {}, of them broken: {}", counts.all_choices, counts.all_choices_broken);
    println!("order queries: {}, traces queried in all pairs: {}", counts.queries, counts.all_pairs);
    println!("calls with buffers of a wrong size: {}", counts.wrong_buffers);
    println!("records read, written and framed: {}", counts.records);
}
