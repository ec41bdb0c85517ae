//! Loads under a checksum, document 02, job 7: sessions with the answers that follow from its words, given to all four
//! ways of judging. A close counts the loads that its thread has held since its open, all as of the close, or drops
//! them.

mod common;

use common::{session, Expected, OrderRow, Row};
use gorbuzte::fast::Fast;
use gorbuzte::generator::Generator;
use gorbuzte::{read_at, reference, Event, Order, Refusal, Verdict};

/// "6 lets versions 1 and 2 pass". "Read alone, or as a trace's first record, the two kinds are known; later in a
/// version 1 trace they get 3, ahead of a wrong length."
const VERSIONS: &[Row] = &[
    ("version 2 passes", "B2.1.2", "events 0 / verdict robust / share 100"),
    ("version 0 does not", "B0.1.2", "refused 6 0"),
    ("nor version 3", "B3.1.2", "refused 6 0"),
    ("nor version 258, whose lower byte is 2", "B258.1.2", "refused 6 0"),
    ("version 2, and 9 threads", "B2.9.2", "refused 6 0"),
    ("a first record of kind 15 is known, and no begin", "O0", "refused 1 0"),
    ("so is one of kind 16", "K0.1", "refused 1 0"),
    ("1 before 19: a close with outcome 2 comes first", "K0.2", "refused 1 0"),
    ("a first record of kind 15 with length 2: 4 before 1", "x02000f00", "refused 4 0"),
    ("a first record of kind 16 with length 4", "x040010000000", "refused 4 0"),
    ("an open in version 1", "B1.1.2 O0", "refused 3 1"),
    ("a close in version 1", "B1.1.2 K0.1", "refused 3 1"),
    ("in version 1, 3 before 7: no thread 1", "B1.1.2 O1", "refused 3 1"),
    ("in version 1, 3 before 19: outcome 2", "B1.1.2 K0.2", "refused 3 1"),
    ("in version 1, 3 before a wrong length: kind 15 with length 2", "B1.1.2 x02000f00", "refused 3 1"),
    ("in version 2 that length is 4", "B2.1.2 x02000f00", "refused 4 1"),
    ("in version 1, 3 before a wrong length: kind 16 with length 4", "B1.1.2 x040010000000", "refused 3 1"),
    ("in version 2 that length is 4, too", "B2.1.2 x040010000000", "refused 4 1"),
    ("length under 2 before 3: kind 15 with length 1", "B1.1.2 x01000f00", "refused 4 1"),
    ("2 before 3: kind 15, its thread missing", "B1.1.2 x04000f00", "refused 2 1"),
    ("2 before 3: kind 16, its outcome missing", "B1.1.2 x060010000000", "refused 2 1"),
    ("no version knows kind 17", "B2.1.2 x02001100", "refused 3 1"),
    ("nor kind 256 + 15", "B2.1.2 x04000f010000", "refused 3 1"),
    ("5 after 3: a later begin is of no version", "B2.1.2 B1.1.2", "refused 5 1"),
    ("event 2,049 in version 1: 3 before 13", "B1.1.2 2048*SF0 O0", "refused 3 2049"),
    ("event 2,049 in version 2: 13", "B2.1.2 2048*SF0 O0", "refused 13 2049"),
    ("event 2,049 in version 1, of a wrong length: 3", "B1.1.2 2048*SF0 x02001000", "refused 3 2049"),
    ("event 2,049 in version 2, of a wrong length: 4", "B2.1.2 2048*SF0 x02001000", "refused 4 2049"),
    ("13 before 7, 19 and 12", "B2.1.2 2048*SF0 K1.2", "refused 13 2049"),
    ("signals and waits are of both versions", "B2.1.2 S0 W0<1", "events 2 / verdict robust / share 100"),
    (
        "what has no region is judged as in version 1: case 7",
        "B2.1.2 I0.0 C0 X L0.0<1 L0.0<0",
        "events 5 / verdict broken / load 5 / missing 1 / observed 1 / kind contradiction",
    ),
];

/// "12 for open when open, or close when not; 19 for another outcome, before 12."
const REFUSALS: &[Row] = &[
    ("open: no thread 1", "B2.1.2 O1", "refused 7 1"),
    ("close: 7 before 19 and 12", "B2.1.2 K1.2", "refused 7 1"),
    ("outcome 2, nothing open: 19 before 12", "B2.1.2 K0.2", "refused 19 1"),
    ("outcome 2 of an open thread", "B2.1.2 O0 K0.2", "refused 19 2"),
    ("outcome 256, whose lower byte is 0", "B2.1.2 O0 K0.256", "refused 19 2"),
    ("outcome 65,535", "B2.1.2 O0 K0.65535", "refused 19 2"),
    ("close when not open, with outcome 1", "B2.1.2 K0.1", "refused 12 1"),
    ("close when not open, with outcome 0", "B2.1.2 K0.0", "refused 12 1"),
    ("open when open", "B2.1.2 O0 O0", "refused 12 2"),
    ("a close ends the open state", "B2.1.2 O0 K0.1 K0.0", "refused 12 3"),
    ("another thread is not open", "B2.2.2 O0 K1.1", "refused 12 2"),
    ("a crash ends the open state", "B2.1.2 O0 X K0.1", "refused 12 3"),
    ("of all threads", "B2.3.2 O1 O2 X K2.0", "refused 12 4"),
    ("a held load is checked", "B2.1.2 O0 L0.0<1", "refused 9 2"),
    ("so is a locked operation: its thread has a waiting store", "B2.1.2 O0 I0.0 R0.1<0", "refused 11 3"),
    ("a refusal outranks broken", "B2.1.2 I0.0 C0 X O0 L0.0<1 L0.0<0 K0.1 K0.1", "refused 12 8"),
    ("a close leaves the skip on", "B2.1.2 O0 SKIP0 K0.1 SKIP0", "refused 12 4"),
    ("the end of a skip leaves the thread open", "B2.1.2 O0 SKIP0 UNSKIP0 O0", "refused 12 4"),
    ("two threads may be open", "B2.2.2 O0 O1 K0.1 K1.0", "events 4 / verdict robust / share 100"),
    ("open again behind a close", "B2.1.2 O0 K0.0 O0", "events 3 / verdict robust / share 100"),
    ("open again behind a crash", "B2.1.2 O0 X O0", "events 3 / verdict robust / cut 1 0 / share 100"),
    ("a skip from outside ends inside", "B2.1.2 SKIP0 O0 UNSKIP0 K0.1", "events 4 / verdict robust / share 100"),
    ("an open thread may have waiting stores", "B2.1.2 I0.0 O0 K0.1 C0", "events 4 / verdict robust / share 100"),
];

/// "A thread's crossing loads in between are held. Outcome 1 counts them all as of the close; 0 drops them; a crash or
/// the trace's end drops them". "Broken may then name a close as its load."
const HELD: &[Row] = &[
    (
        "load 5 observes 1 and load 6 forbids it, both as of the close",
        "B2.1.2 I0.0 C0 X O0 L0.0<1 L0.0<0 K0.1",
        "events 7 / verdict broken / load 7 / missing 1 / observed 1 / kind contradiction",
    ),
    ("outcome 0 drops them", "B2.1.2 I0.0 C0 X O0 L0.0<1 L0.0<0 K0.0", "events 7 / verdict robust / cut 1 0 / share 0"),
    (
        "the trace's end drops them",
        "B2.1.2 I0.0 C0 X O0 L0.0<1 L0.0<0",
        "events 6 / verdict robust / cut 1 0 / share 0",
    ),
    (
        "a crash drops them",
        "B2.1.2 I0.0 C0 X O0 L0.0<1 L0.0<0 X",
        "events 7 / verdict robust / cut 1 0 / cut 2 0 / share 0",
    ),
    (
        "and they do not come back in a region of the next stretch, which counts load 8 alone",
        "B2.1.2 I0.0 C0 X O0 L0.0<1 X O0 L0.0<0 K0.1",
        "events 9 / verdict robust / cut 1 0 / cut 2 0 / share 0",
    ),
    (
        "nor do those that outcome 0 dropped",
        "B2.1.2 I0.0 C0 X O0 L0.0<1 K0.0 O0 L0.0<0 K0.1",
        "events 9 / verdict robust / cut 1 0 / share 0",
    ),
    (
        "nor at a close with nothing held: load 6 would forbid 1, which load 4 observes",
        "B2.2.2 I0.0 C0 X L1.0<1 O0 L0.0<0 K0.0 O0 K0.1",
        "events 9 / verdict robust / cut 1 1 0 / share 100",
    ),
    (
        "nor do those that were counted: load 8 is dropped",
        "B2.1.2 I0.0 C0 X O0 L0.0<1 K0.1 O0 L0.0<0 K0.0",
        "events 9 / verdict robust / cut 1 1 / share 100",
    ),
    (
        "both regions count: the second breaks the trace",
        "B2.1.2 I0.0 C0 X O0 L0.0<1 K0.1 O0 L0.0<0 K0.1",
        "events 9 / verdict broken / load 9 / missing 1 / observed 1 / kind contradiction",
    ),
    (
        "case 2 under a checksum: the counted loads are explained as ever",
        "B2.2.2 I0.0 C0 I1.1 C1 X O0 L0.0<0 L0.1<3 K0.1",
        "events 9 / verdict robust / cut 1 0 1 / share 50",
    ),
    (
        "thread 1 is not open: load 6 counts at once, load 5 as of the close",
        "B2.2.2 I0.0 C0 X O0 L0.0<0 L1.0<1 K0.1",
        "events 7 / verdict broken / load 7 / missing 1 / observed 1 / kind contradiction",
    ),
    (
        "before the close load 5 does not count",
        "B2.2.2 I0.0 C0 X O0 L0.0<0 L1.0<1",
        "events 6 / verdict robust / cut 1 1 0 / share 100",
    ),
    (
        "load 5 counts as of 6, so load 7 breaks the trace",
        "B2.1.2 I0.0 C0 X O0 L0.0<1 K0.1 L0.0<0",
        "events 7 / verdict broken / load 7 / missing 1 / observed 1 / kind contradiction",
    ),
    (
        "dropped: load 7 alone counts",
        "B2.1.2 I0.0 C0 X O0 L0.0<1 K0.0 L0.0<0",
        "events 7 / verdict robust / cut 1 0 / share 0",
    ),
    (
        "thread 0's close leaves what thread 1 holds",
        "B2.2.2 I0.0 C0 X O0 O1 L0.0<1 L1.0<0 K0.1",
        "events 8 / verdict robust / cut 1 1 0 / share 100",
    ),
    (
        "thread 1's own close counts it",
        "B2.2.2 I0.0 C0 X O0 O1 L0.0<1 L1.0<0 K0.1 K1.1",
        "events 9 / verdict broken / load 9 / missing 1 / observed 1 / kind contradiction",
    ),
    (
        "a close with nothing held counts nothing: the trace breaks at load 6",
        "B2.2.2 I0.0 C0 X O1 L0.0<1 L0.0<0 K1.1",
        "events 7 / verdict broken / load 6 / missing 1 / observed 1 / kind contradiction",
    ),
    (
        "at the last event that there may be",
        "B2.1.2 I0.0 C0 X O0 L0.0<1 L0.0<0 2041*SF0 K0.1",
        "events 2048 / verdict broken / load 2048 / missing 1 / observed 1 / kind contradiction",
    ),
];

/// "All loads of one close count together": of all pairs, the smallest missing, then the smallest observed.
const TOGETHER: &[Row] = &[
    (
        "loads 7 and 8 alone would give 3 and 3; with 9 and 10, store 1 is missing and observed",
        "B2.1.2 I0.0 C0 I0.1 C0 X O0 L0.1<3 L0.1<0 L0.0<1 L0.0<0 K0.1",
        "events 11 / verdict broken / load 11 / missing 1 / observed 1 / kind contradiction",
    ),
    (
        "the same from the other end: loads 9 and 10 alone would give 3 and 3",
        "B2.1.2 I0.0 C0 I0.1 C0 X O0 L0.0<1 L0.0<0 L0.1<3 L0.1<0 K0.1",
        "events 11 / verdict broken / load 11 / missing 1 / observed 1 / kind contradiction",
    ),
    (
        "loads 9 and 10 alone would give 1 and 5; load 11 observes 3, which is smaller",
        "B2.1.2 I0.0 C0 I0.1 C0 I0.1 C0 X O0 L0.0<0 L0.1<5 L0.1<3 K0.1",
        "events 12 / verdict broken / load 12 / missing 1 / observed 3 / kind impossible",
    ),
    (
        "sources 3, 1, 5, 1 of one location: 1 forbids 3 and 5, and both are observed",
        "B2.1.1 I0.0 C0 I0.0 C0 I0.0 C0 X O0 L0.0<3 L0.0<1 L0.0<5 L0.0<1 K0.1",
        "events 13 / verdict broken / load 13 / missing 3 / observed 3 / kind contradiction",
    ),
    (
        "source 0 between two others forbids 1, which happens before 3",
        "B2.1.1 I0.0 C0 I0.0 C0 I0.0 C0 X O0 L0.0<3 L0.0<0 L0.0<5 K0.1",
        "events 12 / verdict broken / load 12 / missing 1 / observed 3 / kind impossible",
    ),
    (
        "2 takes effect before 1, so load 8 forbids 1, which load 7 observes",
        "B2.2.2 I0.0 I1.0 C1 C0 X O0 L0.0<1 L0.0<2 K0.1",
        "events 9 / verdict broken / load 9 / missing 1 / observed 1 / kind contradiction",
    ),
    (
        "the same with the loads exchanged",
        "B2.2.2 I0.0 I1.0 C1 C0 X O0 L0.0<2 L0.0<1 K0.1",
        "events 9 / verdict broken / load 9 / missing 1 / observed 1 / kind contradiction",
    ),
    (
        "load 7 counted 3, so 1 must be in; as of the close load 9 forbids it",
        "B2.2.2 I0.0 C0 I0.1 C0 X O0 L1.1<3 L0.1<3 L0.0<0 K0.1",
        "events 10 / verdict broken / load 10 / missing 1 / observed 3 / kind impossible",
    ),
    (
        "load 4 forbids nothing; load 10 forbids 6, which is of a stretch in between, and load 11 observes it",
        "B2.2.2 I0.0 C0 X L1.0<1 X I0.0 C0 X O0 L0.0<1 L0.0<6 K0.1",
        "events 12 / verdict broken / load 12 / missing 6 / observed 6 / kind contradiction",
    ),
];

/// "A load in a skip is never held." A locked operation's load is held, its store stands; loads that are not crossing
/// order stores as ever; and what a load forbids is of the stretches before its own.
const AROUND: &[Row] = &[
    (
        "load 6 is in a skip, so only load 8 counts",
        "B2.1.2 I0.0 C0 X O0 SKIP0 L0.0<1 UNSKIP0 L0.0<0 K0.1",
        "events 9 / verdict robust / cut 1 0 / share 0",
    ),
    (
        "the skip begins behind load 5, which is held, and load 7 is not",
        "B2.1.2 I0.0 C0 X O0 L0.0<1 SKIP0 L0.0<0 K0.1",
        "events 8 / verdict robust / cut 1 1 / share 100",
    ),
    (
        "a skip of another thread changes nothing",
        "B2.2.2 I0.0 C0 X SKIP1 O0 L0.0<1 L0.0<0 K0.1",
        "events 8 / verdict broken / load 8 / missing 1 / observed 1 / kind contradiction",
    ),
    (
        "record 5's load is dropped, its store stands and is observed",
        "B2.1.2 I0.0 C0 X O0 R0.0<1 K0.0 X L0.0<5",
        "events 8 / verdict robust / cut 1 0 / cut 2 1 / share 50",
    ),
    (
        "record 5's load counts as of the close",
        "B2.1.2 I0.0 C0 X O0 R0.0<1 K0.1 X L0.0<5",
        "events 8 / verdict robust / cut 1 1 / cut 2 1 / share 100",
    ),
    (
        "record 8's load, in a skip, is not held, or it would forbid 1, which happens before 3; its store stands",
        "B2.1.2 I0.0 C0 I0.1 C0 X O0 SKIP0 R0.0<0 UNSKIP0 L0.1<3 K0.1 X L0.0<8",
        "events 13 / verdict robust / cut 1 2 / cut 2 1 / share 100",
    ),
    (
        "it forbids 1 and not its own store",
        "B2.1.2 I0.0 C0 X O0 R0.0<0 K0.1 X L0.0<5",
        "events 8 / verdict robust / cut 1 0 / cut 2 1 / share 50",
    ),
    (
        "load 4 observed 1; the locked operation's load forbids it as of the close",
        "B2.1.2 I0.0 C0 X L0.0<1 O0 R0.0<0 K0.1",
        "events 7 / verdict broken / load 7 / missing 1 / observed 1 / kind contradiction",
    ),
    (
        "store 6 takes effect before the close, but is of load 5's own stretch: not forbidden",
        "B2.1.2 I0.0 C0 X O0 L0.0<0 I0.0 C0 K0.1 X L0.0<6",
        "events 10 / verdict robust / cut 1 0 / cut 2 1 / share 50",
    ),
    (
        "load 8 is not crossing, since thread 1 stored; load 5 counts",
        "B2.2.2 I0.0 C0 X O0 L0.0<1 I1.0 C1 L0.0<6 K0.1",
        "events 9 / verdict robust / cut 1 1 0 / share 100",
    ),
    (
        "load 4 is dropped by its region and yet orders 1 before 5: it is not crossing",
        "B2.2.2 I0.0 C0 O1 L1.0<1 I1.1 C1 K1.0 X L0.0<0 L0.1<5",
        "events 10 / verdict broken / load 10 / missing 1 / observed 5 / kind impossible",
    ),
    (
        "a crossing load adds no order, held or not: 1 need not be in for 6",
        "B2.1.2 I0.0 C0 X O0 L0.0<1 I0.1 C0 K0.0 X L0.0<0 L0.1<6",
        "events 11 / verdict robust / cut 1 0 / cut 2 1 / share 50",
    ),
];

/// The missing and the observed store, the primary thread and each thread's window.
const WINDOWS: &[Row] = &[
    (
        "broken at the close: thread 0 may flush between its two stores",
        "B2.1.9 I0.0 C0 I0.8 C0 X O0 L0.0<0 L0.8<3 K0.1",
        "1 before 3, primary 0, thread 0: 2 to 3",
    ),
    (
        "a load in a dropped region brings 1 to thread 1, which may flush behind it",
        "B2.2.9 I0.0 C0 O1 L1.0<1 I1.8 C1 K1.0 X L0.0<0 L0.8<5",
        "1 before 5, primary 0, thread 1: 5 to 5",
    ),
    (
        "an open and a close between the stores take their event numbers",
        "B2.1.9 I0.0 C0 O0 K0.1 I0.8 C0 X O0 L0.0<0 L0.8<5 K0.1",
        "1 before 5, primary 0, thread 0: 2 to 5",
    ),
    ("a contradiction at a close has none", "B2.1.2 I0.0 C0 X O0 L0.0<1 L0.0<0 K0.1", "none"),
];

/// Trace, the two numbers, the answer.
const ORDERS: &[OrderRow] = &[
    ("B2.2.2 O1 I0.0 C0 L1.0<2 K1.0 I1.1", 2, 6, Ok(Order::Before)),
    ("B2.2.2 O1 I0.0 C0 L1.0<2 K1.0 I1.1", 1, 2, Err(Refusal { number: 16, event: 0 })),
    ("B2.2.2 O1 I0.0 C0 L1.0<2 K1.0 I1.1", 2, 5, Err(Refusal { number: 16, event: 0 })),
    ("B2.1.2 I0.0 O0 K0.2", 1, 1, Err(Refusal { number: 19, event: 3 })),
    ("B1.1.2 I0.0 O0", 1, 1, Err(Refusal { number: 3, event: 2 })),
];

const EXPECTED: Expected =
    Expected { verdicts: &[VERSIONS, REFUSALS, HELD, TOGETHER, AROUND], windows: WINDOWS, orders: ORDERS };

#[test]
fn the_library_judges_loads_under_a_checksum() {
    EXPECTED.check_library();
}

#[test]
fn the_other_judges_judge_loads_under_a_checksum() {
    EXPECTED.check_others();
}

/// "Read alone [...] the two kinds are known", whatever the version of the trace around them; a wrong length is 4.
#[test]
fn both_kinds_are_known_to_a_record_alone() {
    let trace = session("B1.1.2 O7 K8.9 x02000f00 x040010000000");
    for read in [read_at, reference::read_at] {
        assert_eq!(read(&trace, 10), Ok((Event::Open { thread: 7 }, 16)));
        assert_eq!(read(&trace, 16), Ok((Event::Close { thread: 8, outcome: 9 }, 24)));
        assert_eq!(read(&trace, 24), Err(Refusal { number: 4, event: 0 }));
        assert_eq!(read(&trace, 28), Err(Refusal { number: 4, event: 0 }));
    }
}

/// What is left of a judge's state does not reach the next trace: open threads, held loads, the version.
#[test]
fn one_judge_serves_traces_of_both_versions() {
    let (mut judge, mut fast) = (gorbuzte::Judge::new(), Fast::new());
    let texts = [
        "B2.1.2 I0.0 C0 X O0 L0.0<1",
        "B1.1.2 I0.0 C0 X L0.0<0",
        "B2.1.2 I0.0 C0 X O0 K0.1 L0.0<0",
        "B1.1.2 O0",
        "B2.1.2 K0.1",
        "",
        "B2.1.2 O0",
    ];
    for text in texts.iter().chain(texts.iter().rev()) {
        let trace = session(text);
        let expected = reference::judge(&trace);
        assert_eq!((judge.judge(&trace), fast.judge(&trace)), (expected, expected), "{text}");
    }
}

/// "Load is the smallest event number for which records 0 to load, taken as a trace, have none either": the records
/// before it are robust, and those up to it have the same evidence.
#[test]
fn records_before_the_load_are_robust() {
    let (mut generator, mut fast) = (Generator::new(), Fast::new());
    let (mut broken, mut at_close) = (0, 0);
    for number in 0..6_000 {
        let (trace, _) = generator.trace(2_026, number);
        let Ok(Verdict::Broken { load, missing, observed, kind, .. }) = reference::judge(trace) else { continue };
        let end = (0..load).map(|e| reference::frame(trace, e.into()).unwrap().len()).sum::<usize>();
        let record = reference::frame(trace, load.into()).unwrap();
        let [before, with] = [end, end + record.len()].map(|size| &trace[..size]);
        for answer in [reference::judge(before), fast.judge(before)] {
            assert!(matches!(answer, Ok(Verdict::Robust { .. })), "trace {number}: {answer:?}");
        }
        let expected = Ok(Verdict::Broken { events: load, load, missing, observed, kind });
        assert_eq!((reference::judge(with), fast.judge(with)), (expected, expected), "trace {number}");
        broken += 1;
        at_close += u32::from(matches!(reference::read_at(record, 0), Ok((Event::Close { outcome: 1, .. }, _))));
    }
    assert!(broken > 1_000 && at_close > 100, "{broken}, {at_close}");
}
