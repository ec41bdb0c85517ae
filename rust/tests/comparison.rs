//! What the generator reaches, and a short comparison.

use gorbuzte::comparison::{events_of, location_of, Comparison};
use gorbuzte::generator::{Family, Generator, Random, FAMILIES};
use gorbuzte::{reference, Event, Judge, Kind, Refusal, Verdict, REFUSALS};
use std::collections::BTreeSet;

const SEED: u64 = 2_026;
const TRACES: u64 = 4_000;

#[test]
fn the_judges_agree() {
    let (mut generator, mut comparison) = (Generator::new(), Comparison::new());
    for number in 0..TRACES {
        let (trace, family) = generator.trace(SEED, number);
        if let Err(difference) = comparison.check(trace, &Random::new(!SEED, number)) {
            panic!("trace {number} of seed {SEED} ({family:?}): {difference}");
        }
    }
    let counts = &comparison.counts;
    assert_eq!(counts.traces, TRACES);
    let kinds = [counts.contradiction, counts.flush, counts.impossible];
    assert!(counts.robust > TRACES / 5 && kinds.iter().sum::<u64>() > TRACES / 5);
    assert!(counts.robust_with_stores > TRACES / 20 && kinds.iter().all(|&met| met > TRACES / 15), "{kinds:?}");
    assert!(counts.no_bytes > TRACES / 1_000, "{}", counts.no_bytes);
    assert!(counts.flush_at_border > TRACES / 50 && counts.impossible_apart > TRACES / 50);
    assert!(REFUSALS.iter().all(|&number| counts.refused[usize::from(number)] > 0), "{:?}", counts.refused);
    assert!(counts.primary_without_window > TRACES / 200 && counts.several_windows > TRACES / 200);
    assert!(counts.locked > TRACES / 5 && counts.observing_without_window > TRACES / 1_000);
    assert!([counts.load_locked, counts.missing_locked, counts.observed_locked].iter().all(|&met| met > TRACES / 50));
    assert!(counts.waits > TRACES / 5 && counts.broken_by_waits > TRACES / 50 && counts.opened_by_waits > TRACES / 50);
    assert!(counts.counting_closes > TRACES / 10 && counts.several_held > TRACES / 10);
    assert!(counts.broken_at_close > TRACES / 25 && counts.robust_by_drops > TRACES / 100);
    assert!(counts.all_choices > TRACES / 5 && counts.all_choices_broken > 0);
    assert!(counts.all_pairs > 0 && counts.queries > 0 && counts.wrong_buffers > 0 && counts.records > 0);
}

#[test]
fn a_trace_depends_on_seed_and_number_only() {
    let mut kept = Generator::new();
    for number in (0..500).rev() {
        let trace = kept.trace(SEED, number).0.to_vec();
        assert_eq!(trace, Generator::new().trace(SEED, number).0);
    }
    assert_ne!(kept.trace(1, 0).0.to_vec(), kept.trace(2, 0).0);
}

#[test]
fn accepted_families_are_accepted_and_both_verdicts_are_common() {
    let (mut generator, mut judge) = (Generator::new(), Judge::new());
    let (mut robust, mut broken) = (0, 0);
    for number in 0..TRACES {
        let (trace, family) = generator.trace(SEED, number);
        if matches!(family, Family::Small | Family::Large) {
            match judge.judge(trace).expect("accepted") {
                Verdict::Robust { .. } => robust += 1,
                Verdict::Broken { .. } => broken += 1,
            }
        }
    }
    assert!(3 * broken > robust && 3 * robust > broken, "{robust} robust, {broken} broken");
}

#[test]
fn limits_are_met_from_both_sides() {
    let (mut generator, mut judge) = (Generator::new(), Judge::new());
    let (mut families, mut refusals) = (BTreeSet::new(), BTreeSet::new());
    let (mut most_events, mut most_stretches, mut kinds) = (0, 0, BTreeSet::new());
    for number in 0..20_000 {
        let (trace, family) = generator.trace(SEED, number);
        families.insert(family as usize);
        match judge.judge(trace) {
            Err(Refusal { number, event }) => drop(refusals.insert((number, event == 2_049))),
            Ok(Verdict::Robust { events, cut, .. }) => {
                most_events = most_events.max(events);
                most_stretches =
                    most_stretches.max(cut.iter().rposition(|&count| count > 0).map_or(0, |at| at / 8 + 1));
            }
            Ok(Verdict::Broken { events, kind, .. }) => {
                most_events = most_events.max(events);
                kinds.insert(match kind {
                    Kind::Contradiction => 1,
                    Kind::Flush(_) => 2,
                    Kind::Impossible => 3,
                });
            }
        }
    }
    assert_eq!(families.len(), FAMILIES.len());
    assert_eq!((most_events, most_stretches, kinds.len()), (2_048, 7, 3));
    assert!(refusals.contains(&(13, true)) && refusals.contains(&(13, false)), "{refusals:?}");
}

/// Traces of both versions come up about as often, and kinds 15 and 16 in version 1 with right and wrong lengths.
#[test]
fn both_versions_come_up() {
    let mut generator = Generator::new();
    let mut versions = [0; 2];
    let (mut right, mut wrong) = (0, 0);
    for number in 0..TRACES {
        let (trace, family) = generator.trace(SEED, number);
        let Ok((Event::Begin { version: version @ 1..=2, .. }, _)) = reference::read_at(trace, 0) else { continue };
        if family == Family::Small {
            versions[usize::from(version) - 1] += 1;
        }
        if let (1, Err(Refusal { number: 3, event })) = (version, reference::judge(trace)) {
            let record = reference::frame(trace, event.into()).expect("a record that is refused with 3 is framed");
            match (record[2], reference::read_at(record, 0)) {
                (15..=16, Ok(_)) => right += 1,
                (15..=16, Err(Refusal { number: 4, .. })) => wrong += 1,
                _ => {}
            }
        }
    }
    assert!(versions.iter().all(|&met| met > TRACES / 4), "{versions:?}");
    assert!(right > 10 && wrong > 10, "{right}, {wrong}");
}

/// No bytes come up as accepted traces, and close to them single bytes and first records that are no begin.
#[test]
fn no_bytes_come_up() {
    let mut generator = Generator::new();
    let (mut none, mut one, mut no_begin) = (0, 0, 0);
    let traces = 20_000;
    for number in 0..traces {
        let (trace, family) = generator.trace(SEED, number);
        none += u64::from(trace.is_empty() && family == Family::Small);
        one += u64::from(trace.len() == 1);
        no_begin += u64::from(reference::judge(trace) == Err(Refusal { number: 1, event: 0 }));
    }
    assert!(none > traces / 1_000 && none < traces / 100, "{none}");
    assert!(one > 0 && no_begin > traces / 200, "{one}, {no_begin}");
}

/// A cache line, by a location on it.
type LineOf = fn(u16) -> u16;

/// Wrong lines. A judge that goes by one of them gives some pairs another kind.
const WRONG_LINES: [(&str, LineOf); 6] = [
    ("of one location", |location| location),
    ("of 4 locations", |location| location / 4),
    ("of 16 locations", |location| location / 16),
    ("rounded up", |location| location.div_ceil(8)),
    ("rounded to the nearest", |location| (location + 4) / 8),
    ("the places in the line", |location| location % 8),
];

#[test]
fn wrong_lines_are_told() {
    let mut generator = Generator::new();
    let mut told = WRONG_LINES.map(|(name, _)| (name, 0));
    for number in 0..TRACES {
        let (trace, _) = generator.trace(SEED, number);
        let Ok(Verdict::Broken { missing, observed, kind, .. }) = reference::judge(trace) else { continue };
        let events = events_of(trace);
        let [p, q] = [missing, observed].map(|store| location_of(&events[usize::from(store)]));
        for ((_, times), (_, line)) in told.iter_mut().zip(WRONG_LINES) {
            let impossible = missing != observed && line(p) == line(q);
            *times += u64::from(impossible != (kind == Kind::Impossible));
        }
    }
    assert!(told.iter().all(|(_, times)| *times > TRACES / 100), "{told:?}");
}
