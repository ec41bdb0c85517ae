//! The sessions of document 01 with their expected answers, given to all four ways of judging.

mod common;

use common::{lines, session};
use gorbuzte::fast::Fast;
use gorbuzte::{reference, Judge, Order, Refusal};

/// A name, a trace and the lines of `verdict`, joined by ' / '.
type Row = (&'static str, &'static str, &'static str);

/// Cases 1 to 11 of document 01: name, trace, the lines of `verdict`.
const CASES: &[Row] = &[
    (
        "case 1",
        "B1.1.2 I0.0 C0 I0.1 C0 I0.0 C0 I0.1 C0 X L0.0<1 L0.1<7",
        "events 11 / verdict broken / load 11 / missing 5 / observed 7 / kind impossible",
    ),
    ("case 2", "B1.2.2 I0.0 C0 I1.1 C1 X L0.0<0 L0.1<3", "events 7 / verdict robust / cut 1 0 1 / share 50"),
    (
        "case 3",
        "B1.1.2 I0.0 C0 I0.1 C0 I0.0 C0 I0.1 C0 X L0.0<5 L0.1<7",
        "events 11 / verdict robust / cut 1 4 / share 100",
    ),
    (
        "case 4",
        "B1.1.2 I0.0 C0 I0.1 C0 X L0.0<0 I0.1 C0 X L0.1<3",
        "events 10 / verdict broken / load 10 / missing 1 / observed 3 / kind impossible",
    ),
    (
        "case 5",
        "B1.2.2 I0.0 C0 L1.0<1 I1.1 C1 X L0.0<0 L0.1<4",
        "events 8 / verdict broken / load 8 / missing 1 / observed 4 / kind impossible",
    ),
    ("case 6", "B1.2.2 I0.0 C0 I1.1 L1.0<1 C1 X L0.0<0 L0.1<3", "events 8 / verdict robust / cut 1 0 1 / share 50"),
    (
        "case 7",
        "B1.1.2 I0.0 C0 X L0.0<1 L0.0<0",
        "events 5 / verdict broken / load 5 / missing 1 / observed 1 / kind contradiction",
    ),
    ("case 8", "B1.1.2 I0.0 X L0.0<1", "refused 9 3"),
    ("case 9", "B1.1.2", "events 0 / verdict robust / share 100"),
    (
        "case 10",
        "B1.1.2 I0.0 C0 I0.1 C0 I0.0 C0 I0.1 C0 X L0.0<1 SKIP0 L0.1<7",
        "events 12 / verdict robust / cut 1 1 / share 25",
    ),
    ("case 11, from 1", "B1.2.2 I0.0 I1.0 C1 C0 X L0.0<1", "events 6 / verdict robust / cut 1 1 0 / share 50"),
    ("case 11, from 2", "B1.2.2 I0.0 I1.0 C1 C0 X L0.0<2", "events 6 / verdict robust / cut 1 0 1 / share 50"),
];

/// Every example of the refusal table that is a trace. That of 1, empty, holds of order queries: document 02, job 6,
/// has empty bytes judged (`no_bytes.rs`), and leaves 1 "for bytes that begin with some other record".
const REFUSALS: &[Row] = &[
    ("refusal 1, first is no begin", "X", "refused 1 0"),
    ("refusal 2", "x080001", "refused 2 0"),
    ("refusal 3", "B1.1.2 x02006300", "refused 3 1"),
    ("refusal 4", "B1.1.2 x040009000000", "refused 4 1"),
    ("refusal 5", "B1.1.2 B1.1.2", "refused 5 1"),
    ("refusal 6, 9 threads", "B1.9.2", "refused 6 0"),
    ("refusal 7", "B1.1.2 C1", "refused 7 1"),
    ("refusal 8", "B1.1.2 I0.2", "refused 8 1"),
    ("refusal 9", "B1.1.2 L0.0<1", "refused 9 1"),
    ("refusal 10", "B1.1.2 C0", "refused 10 1"),
    ("refusal 11", "B1.1.2 I0.0 MF0", "refused 11 2"),
    ("refusal 12, already off", "B1.1.2 UNSKIP0", "refused 12 1"),
    ("refusal 13, 8 crashes", "B1.1.2 8*X", "refused 13 8"),
];

/// More refusals, the order between them ("length under 2, 2, 3, wrong length, 1, 5, 13, 6, 7, 8, and the kind's own
/// rule"), and records that are close to a refusal.
const MORE_REFUSALS: &[Row] = &[
    ("one leftover byte", "B1.1.2 x00", "refused 2 1"),
    ("length 1 alone", "x0100", "refused 4 0"),
    ("length and kind 65535", "B1.1.2 xffffffff", "refused 2 1"),
    ("length and kind 0", "B1.1.2 x00000000", "refused 4 1"),
    ("length 0 after begin", "B1.1.2 x0000", "refused 4 1"),
    ("length only", "x0800", "refused 2 0"),
    ("bytes missing before unknown kind", "x08006300", "refused 2 0"),
    ("unknown kind before wrong length", "B1.1.2 x0300630000", "refused 3 1"),
    ("kind 0", "B1.1.2 x02000000", "refused 3 1"),
    ("kind 17", "B1.1.2 x02001100", "refused 3 1"),
    ("length 2 of kind 14", "B1.1.2 x02000e00", "refused 4 1"),
    ("kind 256 + 9", "B1.1.2 x02000901", "refused 3 1"),
    ("odd length for the kind", "B1.1.2 x0300090000", "refused 4 1"),
    ("wrong length before no begin", "x040009000000", "refused 4 0"),
    ("unknown kind before no begin", "x02006300", "refused 3 0"),
    ("version 3", "B3.1.2", "refused 6 0"),
    ("version 0", "B0.1.2", "refused 6 0"),
    ("0 threads", "B1.0.2", "refused 6 0"),
    ("0 locations", "B1.1.0", "refused 6 0"),
    ("later begin before its range", "B1.1.2 B1.9.257", "refused 5 1"),
    ("eighth crash before later begin", "B1.1.2 8*X B1.1.2", "refused 13 8"),
    ("later begin after 7 crashes", "B1.1.2 7*X B1.1.2", "refused 5 8"),
    ("thread before location", "B1.1.2 I1.2", "refused 7 1"),
    ("location before source", "B1.1.2 L0.2<5", "refused 8 1"),
    ("flush: thread", "B1.1.2 F1.0", "refused 7 1"),
    ("flush: location", "B1.1.2 O0.2", "refused 8 1"),
    ("sfence: thread", "B1.1.2 SF1", "refused 7 1"),
    ("mfence: thread before queue", "B1.1.2 I0.0 MF1", "refused 7 2"),
    ("sfence passes with a waiting store", "B1.1.2 I0.0 SF0", "events 2 / verdict robust / share 100"),
    ("skip already on", "B1.1.2 SKIP0 SKIP0", "refused 12 2"),
    ("skip ended by a crash", "B1.1.2 SKIP0 X UNSKIP0", "refused 12 3"),
    ("skip on again after a crash", "B1.1.2 SKIP0 X SKIP0", "events 3 / verdict robust / cut 1 0 / share 100"),
    ("commit of a dropped store", "B1.1.2 I0.0 X C0", "refused 10 3"),
    ("mfence after drop", "B1.1.2 I0.0 X MF0", "events 3 / verdict robust / cut 1 0 / share 100"),
    ("load past the own waiting store", "B1.1.2 I0.0 L0.0<0", "refused 9 2"),
    ("load from the older waiting store", "B1.1.2 I0.0 I0.0 L0.0<1", "refused 9 3"),
    ("load from another's waiting store", "B1.2.2 I0.0 L1.0<1", "refused 9 2"),
    ("load past a commit", "B1.2.2 I0.0 C0 L1.0<0", "refused 9 3"),
    ("load from the commit before the last", "B1.1.2 I0.0 C0 I0.0 C0 L0.0<1", "refused 9 5"),
    ("load from another location", "B1.1.2 I0.0 C0 X L0.1<1", "refused 9 4"),
    ("load from a commit's number", "B1.1.2 I0.0 C0 L0.0<2", "refused 9 3"),
    ("load in a skip is checked", "B1.1.2 SKIP0 L0.0<1", "refused 9 2"),
    ("a refusal outranks broken", "B1.1.2 I0.0 C0 X L0.0<1 L0.0<0 C0", "refused 10 6"),
    (
        "own waiting store before another's commit",
        "B1.2.2 I0.0 I1.0 C1 L0.0<1",
        "events 4 / verdict robust / share 100",
    ),
    ("last commit counts, not last issue", "B1.2.2 I0.0 I1.0 C1 C0 L1.0<1", "events 5 / verdict robust / share 100"),
];

/// "Edges: 2,048 events pass, 2,049 refused; 7 crashes pass, 8 refused; 8 threads pass, 9 refused; 256 locations pass,
/// 257 refused."
const EDGES: &[Row] = &[
    ("2,048 events", "B1.1.2 2048*SF0", "events 2048 / verdict robust / share 100"),
    ("2,049 events", "B1.1.2 2049*SF0", "refused 13 2049"),
    ("event 2,049 of no such thread", "B1.1.2 2048*SF0 SF1", "refused 13 2049"),
    ("event 2,049 is a begin", "B1.1.2 2048*SF0 B1.1.2", "refused 5 2049"),
    ("event 2,049 is unreadable", "B1.1.2 2048*SF0 x0200", "refused 2 2049"),
    (
        "last load at 2,048",
        "B1.1.2 I0.0 C0 X L0.0<1 2043*SF0 L0.0<0",
        "events 2048 / verdict broken / load 2048 / missing 1 / observed 1 / kind contradiction",
    ),
    (
        "7 crashes",
        "B1.1.2 7*X",
        "events 7 / verdict robust / cut 1 0 / cut 2 0 / cut 3 0 / cut 4 0 / cut 5 0 / cut 6 0 / cut 7 0 / share 100",
    ),
    ("8 crashes", "B1.1.2 8*X", "refused 13 8"),
    ("8 threads", "B1.8.2 I7.0 C7 X L0.0<1", "events 4 / verdict robust / cut 1 0 0 0 0 0 0 0 1 / share 100"),
    ("9 threads", "B1.9.2 I7.0 C7 X L0.0<1", "refused 6 0"),
    ("256 locations", "B1.1.256 I0.255 C0 X L0.255<1", "events 4 / verdict robust / cut 1 1 / share 100"),
    ("257 locations", "B1.1.257 I0.255 C0 X L0.255<1", "refused 6 0"),
    ("65,535 bytes", "65535*x00", "refused 4 0"),
];

/// "Errors the trade has made": a session for each that has no case of its own, and for rules with no session.
const ERRORS: &[Row] = &[
    (
        "stretches in between forgotten",
        "B1.1.2 I0.0 C0 X I0.0 C0 X L0.0<1 L0.0<4",
        "events 8 / verdict broken / load 8 / missing 4 / observed 4 / kind contradiction",
    ),
    (
        "clocks kept over a crash, same thread",
        "B1.1.2 I0.0 C0 X I0.1 C0 X L0.0<0 L0.1<4",
        "events 8 / verdict robust / cut 1 0 / cut 2 1 / share 50",
    ),
    (
        "clocks kept over a crash, by a load",
        "B1.2.2 I0.0 C0 X SKIP1 L1.0<1 I1.1 C1 X L0.0<0 L0.1<6",
        "events 10 / verdict robust / cut 1 0 0 / cut 2 0 1 / share 50",
    ),
    (
        "a read of source 0 taken as free",
        "B1.1.2 I0.0 C0 I0.1 C0 X L0.0<0 L0.1<3",
        "events 7 / verdict broken / load 7 / missing 1 / observed 3 / kind impossible",
    ),
    (
        "loads in a skip still order",
        "B1.2.2 I0.0 C0 SKIP1 L1.0<1 I1.1 C1 X L0.0<0 L0.1<5",
        "events 9 / verdict broken / load 9 / missing 1 / observed 5 / kind impossible",
    ),
    (
        "a chain over three threads",
        "B1.3.3 I0.0 C0 L1.0<1 I1.1 C1 L2.1<4 I2.2 C2 X L0.0<0 L0.2<7",
        "events 11 / verdict broken / load 11 / missing 1 / observed 7 / kind impossible",
    ),
    (
        "a waiting store stays out of the share",
        "B1.1.2 I0.0 C0 I0.1 X L0.0<1 I0.1 C0",
        "events 7 / verdict robust / cut 1 1 / share 100",
    ),
    (
        "share is rounded down",
        "B1.1.2 I0.0 C0 I0.0 C0 I0.0 C0 X L0.0<3",
        "events 8 / verdict robust / cut 1 2 / share 66",
    ),
    (
        "smallest missing goes before smallest observed",
        "B1.2.3 I0.0 C0 I1.0 C1 I1.1 C1 I0.2 C0 X L0.1<5 L0.2<7 L0.0<0",
        "events 12 / verdict broken / load 12 / missing 1 / observed 7 / kind impossible",
    ),
    (
        "every load before the issue orders",
        "B1.3.3 I0.0 C0 I1.1 C1 L2.0<1 L2.1<3 I2.2 C2 X L0.0<0 L0.2<7",
        "events 11 / verdict broken / load 11 / missing 1 / observed 7 / kind impossible",
    ),
    (
        "a skip is a matter of its own thread",
        "B1.2.2 I0.0 C0 X SKIP1 L0.0<1 L0.0<0",
        "events 6 / verdict broken / load 6 / missing 1 / observed 1 / kind contradiction",
    ),
    (
        "a dropped store in between changes nothing",
        "B1.1.2 I0.0 C0 X I0.0 X L0.0<1",
        "events 6 / verdict robust / cut 1 1 / cut 2 0 / share 100",
    ),
    (
        "another's waiting store leaves the load crossing",
        "B1.2.2 I0.0 C0 X I1.0 L0.0<1",
        "events 5 / verdict robust / cut 1 1 0 / share 100",
    ),
    (
        "an own waiting store does not",
        "B1.2.2 I0.0 C0 X I1.0 L1.0<4 L0.0<0",
        "events 6 / verdict robust / cut 1 0 0 / share 0",
    ),
    (
        "a load of the first stretch forbids nothing",
        "B1.1.2 L0.0<0 I0.0 C0 X L0.0<2",
        "events 5 / verdict robust / cut 1 1 / share 100",
    ),
];

/// Order queries: trace, the two numbers, the answer.
const ORDERS: &[(&str, u16, u16, Result<Order, Refusal>)] = &[
    ("", 0, 0, Err(Refusal { number: 1, event: 0 })),
    ("B1.1.2", 0, 0, Err(Refusal { number: 16, event: 0 })),
    ("B1.1.2 I0.0", 1, 2, Err(Refusal { number: 16, event: 0 })),
    ("B1.1.2 I0.0 C0", 2, 1, Err(Refusal { number: 16, event: 0 })),
    ("B1.1.2 I0.0 C0", 2, 2, Err(Refusal { number: 16, event: 0 })),
    ("B1.1.2 C0", 0, 0, Err(Refusal { number: 10, event: 1 })),
    ("B1.1.2 I0.0", 1, 1, Ok(Order::Same)),
    ("B1.1.2 I0.0 I0.1", 1, 2, Ok(Order::Before)),
    ("B1.1.2 I0.0 I0.1", 2, 1, Ok(Order::After)),
    ("B1.2.2 I0.0 C0 L1.0<1 I1.1", 1, 4, Ok(Order::Before)),
    ("B1.2.2 I0.0 C0 I1.1 L1.0<1 C1", 1, 3, Ok(Order::Neither)),
    ("B1.1.2 I0.0 C0 X I0.1", 1, 4, Ok(Order::Neither)),
    ("B1.2.2 I0.0 C0 X L1.0<1 I1.1", 1, 5, Ok(Order::Neither)),
    ("B1.1.2 I0.0 I0.1 X", 1, 2, Ok(Order::Before)),
];

/// Judges each trace of a table in all four ways, with judges that are kept from one trace to the next.
fn check(table: &[Row]) {
    let (mut judge, mut fast) = (Judge::new(), Fast::new());
    for (name, text, expected) in table {
        let trace = session(text);
        assert_eq!(lines(&trace, &judge.judge(&trace)), *expected, "library, {name}");
        assert_eq!(lines(&trace, &reference::judge(&trace)), *expected, "reference, {name}");
        assert_eq!(lines(&trace, &fast.judge(&trace)), *expected, "fast judge, {name}");
        if trace.len() < 1_000 {
            let answer = reference::judge_by_all_choices(&trace, 100_000).unwrap();
            assert_eq!(lines(&trace, &answer), *expected, "by all choices, {name}");
        }
    }
}

#[test]
fn cases() {
    check(CASES);
}

#[test]
fn refusals() {
    check(REFUSALS);
}

#[test]
fn more_refusals() {
    check(MORE_REFUSALS);
}

#[test]
fn edges() {
    check(EDGES);
}

#[test]
fn errors_of_the_trade() {
    check(ERRORS);
}

#[test]
fn orders() {
    let mut judge = Judge::new();
    for &(text, first, second, expected) in ORDERS {
        let trace = session(text);
        assert_eq!(judge.order(&trace, first, second), expected, "library, {text}");
        assert_eq!(gorbuzte::order(&trace, first, second), expected, "library with a new work area, {text}");
        assert_eq!(reference::order(&trace, first, second), expected, "reference, {text}");
    }
}
