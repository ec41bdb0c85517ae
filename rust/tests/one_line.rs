//! Two stores on one cache line, document 02, job 5: sessions with the answers that follow from its words, given to all
//! four ways of judging. Document 01: "location ÷ 8 without remainder is its 64-byte cache line".

mod common;

use common::{Expected, OrderRow, Row};
use gorbuzte::Order;

/// Which locations are on one line: 0 to 7, 8 to 15, and so on, 248 to 255 on the last.
const LINES: &[Row] = &[
    (
        "0 and 7, the ends of line 0",
        "B1.1.8 I0.0 C0 I0.7 C0 X L0.0<0 L0.7<3",
        "events 7 / verdict broken / load 7 / missing 1 / observed 3 / kind impossible",
    ),
    (
        "7 and 0: the missing store has the higher location",
        "B1.1.8 I0.7 C0 I0.0 C0 X L0.7<0 L0.0<3",
        "events 7 / verdict broken / load 7 / missing 1 / observed 3 / kind impossible",
    ),
    (
        "3 and 4, in the middle of line 0",
        "B1.1.5 I0.3 C0 I0.4 C0 X L0.3<0 L0.4<3",
        "events 7 / verdict broken / load 7 / missing 1 / observed 3 / kind impossible",
    ),
    (
        "8 and 15, the ends of line 1",
        "B1.1.16 I0.8 C0 I0.15 C0 X L0.8<0 L0.15<3",
        "events 7 / verdict broken / load 7 / missing 1 / observed 3 / kind impossible",
    ),
    (
        "248 and 255, the ends of the last line",
        "B1.1.256 I0.248 C0 I0.255 C0 X L0.248<0 L0.255<3",
        "events 7 / verdict broken / load 7 / missing 1 / observed 3 / kind impossible",
    ),
    (
        "one location twice: load 6 reads past 1 and 3, and of what it forbids 1 is the smallest",
        "B1.1.1 I0.0 C0 I0.0 C0 X L0.0<0 L0.0<3",
        "events 7 / verdict broken / load 7 / missing 1 / observed 3 / kind impossible",
    ),
    (
        "7 and 8, neighbours on two lines",
        "B1.1.9 I0.7 C0 I0.8 C0 X L0.7<0 L0.8<3",
        "events 7 / verdict broken / load 7 / missing 1 / observed 3 / kind flush",
    ),
    (
        "8 and 7",
        "B1.1.9 I0.8 C0 I0.7 C0 X L0.8<0 L0.7<3",
        "events 7 / verdict broken / load 7 / missing 1 / observed 3 / kind flush",
    ),
    (
        "0 and 8, the first locations of lines 0 and 1",
        "B1.1.9 I0.0 C0 I0.8 C0 X L0.0<0 L0.8<3",
        "events 7 / verdict broken / load 7 / missing 1 / observed 3 / kind flush",
    ),
    (
        "15 and 16, neighbours on two lines",
        "B1.1.17 I0.15 C0 I0.16 C0 X L0.15<0 L0.16<3",
        "events 7 / verdict broken / load 7 / missing 1 / observed 3 / kind flush",
    ),
    (
        "247 and 248, neighbours on the last two lines",
        "B1.1.256 I0.247 C0 I0.248 C0 X L0.247<0 L0.248<3",
        "events 7 / verdict broken / load 7 / missing 1 / observed 3 / kind flush",
    ),
    (
        "7 and 135, on lines 0 and 16",
        "B1.1.256 I0.7 C0 I0.135 C0 X L0.7<0 L0.135<3",
        "events 7 / verdict broken / load 7 / missing 1 / observed 3 / kind flush",
    ),
];

/// "A broken pair on one line has the kind "impossible" unless it is a contradiction.": however the missing store comes
/// to happen before the observed one, and wherever they and their loads are.
const PAIRS: &[Row] = &[
    (
        "by a load",
        "B1.2.8 I0.0 C0 L1.0<1 I1.7 C1 X L0.0<0 L0.7<4",
        "events 8 / verdict broken / load 8 / missing 1 / observed 4 / kind impossible",
    ),
    (
        "the observed store is a locked operation's, which loads the missing one",
        "B1.2.2 I0.0 C0 R1.0<1 X L0.0<0 L0.0<3",
        "events 6 / verdict broken / load 6 / missing 1 / observed 3 / kind impossible",
    ),
    (
        "the missing store is a locked operation's",
        "B1.1.8 R0.0<0 I0.7 C0 X L0.0<0 L0.7<2",
        "events 6 / verdict broken / load 6 / missing 1 / observed 2 / kind impossible",
    ),
    (
        "a locked operation observes",
        "B1.1.8 I0.0 C0 I0.7 C0 X L0.0<0 R0.7<3",
        "events 7 / verdict broken / load 7 / missing 1 / observed 3 / kind impossible",
    ),
    (
        "both stores and both loads are locked operations'",
        "B1.2.8 R0.0<0 R0.7<0 X R1.0<0 R1.7<2",
        "events 5 / verdict broken / load 5 / missing 1 / observed 2 / kind impossible",
    ),
    (
        "by a signal and a wait",
        "B1.2.8 I0.0 C0 S0 W1<3 I1.7 C1 X L0.0<0 L0.7<5",
        "events 9 / verdict broken / load 9 / missing 1 / observed 5 / kind impossible",
    ),
    (
        "1 happens before 3 and 3 before 5, and 3 is on another line",
        "B1.1.9 I0.0 C0 I0.8 C0 I0.7 C0 X L0.0<0 L0.7<5",
        "events 9 / verdict broken / load 9 / missing 1 / observed 5 / kind impossible",
    ),
    (
        "a chain of loads over three threads, by 4 on another line",
        "B1.3.9 I0.0 C0 L1.0<1 I1.8 C1 L2.8<4 I2.7 C2 X L0.0<0 L0.7<7",
        "events 11 / verdict broken / load 11 / missing 1 / observed 7 / kind impossible",
    ),
    (
        "a chain of hand-overs over three threads, by 5 on another line",
        "B1.3.9 I0.0 C0 S0 W1<3 I1.8 C1 S1 W2<7 I2.7 C2 X L0.0<0 L0.7<9",
        "events 13 / verdict broken / load 13 / missing 1 / observed 9 / kind impossible",
    ),
    (
        "both stores wait before the first takes effect",
        "B1.1.8 I0.0 I0.7 C0 C0 X L0.0<0 L0.7<2",
        "events 7 / verdict broken / load 7 / missing 1 / observed 2 / kind impossible",
    ),
    (
        "a clflush and an sfence between them change nothing",
        "B1.1.8 I0.0 C0 F0.0 SF0 I0.7 C0 X L0.0<0 L0.7<5",
        "events 9 / verdict broken / load 9 / missing 1 / observed 5 / kind impossible",
    ),
    (
        "nor do a clwb and an mfence",
        "B1.1.8 I0.0 C0 O0.0 MF0 I0.7 C0 X L0.0<0 L0.7<5",
        "events 9 / verdict broken / load 9 / missing 1 / observed 5 / kind impossible",
    ),
    (
        "the loads are of a thread that stores nothing",
        "B1.2.8 I0.0 C0 I0.7 C0 X L1.0<0 L1.7<3",
        "events 7 / verdict broken / load 7 / missing 1 / observed 3 / kind impossible",
    ),
    (
        "the loads are of two stretches, with a store between them",
        "B1.1.8 I0.0 C0 I0.7 C0 X L0.0<0 I0.7 C0 X L0.7<3",
        "events 10 / verdict broken / load 10 / missing 1 / observed 3 / kind impossible",
    ),
    (
        "in stretch 2: load 9 reads past 4",
        "B1.1.8 I0.0 C0 X I0.0 C0 I0.7 C0 X L0.0<1 L0.7<6",
        "events 10 / verdict broken / load 10 / missing 4 / observed 6 / kind impossible",
    ),
    (
        "in stretch 7",
        "B1.1.8 6*X I0.0 C0 I0.7 C0 X L0.0<0 L0.7<9",
        "events 13 / verdict broken / load 13 / missing 7 / observed 9 / kind impossible",
    ),
    ("a refusal outranks it", "B1.1.8 I0.0 C0 I0.7 C0 X L0.0<0 L0.7<3 C0", "refused 10 8"),
];

/// "The pair chosen is the one already defined.": the smallest missing, then the smallest observed.
const CHOSEN: &[Row] = &[
    (
        "3 is on the line of 1, 5 is not: 1 before 3",
        "B1.1.9 I0.0 C0 I0.7 C0 I0.8 C0 X L0.7<3 L0.8<5 L0.0<0",
        "events 10 / verdict broken / load 10 / missing 1 / observed 3 / kind impossible",
    ),
    (
        "5 is on the line of 1, 3 is not: 1 before 3",
        "B1.1.9 I0.0 C0 I0.8 C0 I0.7 C0 X L0.8<3 L0.7<5 L0.0<0",
        "events 10 / verdict broken / load 10 / missing 1 / observed 3 / kind flush",
    ),
    (
        "1 is on the line of 5, 3 is not: 1 before 5",
        "B1.1.9 I0.0 C0 I0.8 C0 I0.7 C0 X L0.0<0 L0.8<0 L0.7<5",
        "events 10 / verdict broken / load 10 / missing 1 / observed 5 / kind impossible",
    ),
    (
        "3 is on the line of 5, 1 is not: 1 before 5",
        "B1.1.9 I0.8 C0 I0.0 C0 I0.7 C0 X L0.8<0 L0.0<0 L0.7<5",
        "events 10 / verdict broken / load 10 / missing 1 / observed 5 / kind flush",
    ),
    (
        "broken at load 9 by 1 and 3 on one line; 5 on another is observed later",
        "B1.1.9 I0.0 C0 I0.7 C0 I0.8 C0 X L0.0<0 L0.7<3 L0.8<5",
        "events 10 / verdict broken / load 9 / missing 1 / observed 3 / kind impossible",
    ),
    (
        "broken at load 9 by 1 and 5 on two lines; 3 on the line of 1 is observed later",
        "B1.1.9 I0.0 C0 I0.7 C0 I0.8 C0 X L0.0<0 L0.8<5 L0.7<3",
        "events 10 / verdict broken / load 9 / missing 1 / observed 5 / kind flush",
    ),
    (
        "a contradiction, with 3 on another line",
        "B1.1.9 I0.0 C0 I0.8 C0 X L0.0<1 L0.8<3 L0.0<0",
        "events 8 / verdict broken / load 8 / missing 1 / observed 1 / kind contradiction",
    ),
    (
        "a contradiction, with 3 on one line with it",
        "B1.1.8 I0.0 C0 I0.7 C0 X L0.0<1 L0.7<3 L0.0<0",
        "events 8 / verdict broken / load 8 / missing 1 / observed 1 / kind contradiction",
    ),
    (
        "one location twice: 3 is observed and forbidden, and 1 is not missing",
        "B1.1.1 I0.0 C0 I0.0 C0 X L0.0<3 L0.0<1",
        "events 7 / verdict broken / load 7 / missing 3 / observed 3 / kind contradiction",
    ),
];

/// A line orders nothing: choices are closed under happens-before, and need not keep the commit order of a line.
const ROBUST: &[Row] = &[
    (
        "1 is committed before 3 on the same line, but does not happen before it",
        "B1.2.8 I0.0 C0 I1.7 C1 X L0.0<0 L0.7<3",
        "events 7 / verdict robust / cut 1 0 1 / share 50",
    ),
    (
        "2 is committed before 1, which is issued before it",
        "B1.2.8 I0.0 I1.7 C1 C0 X L0.7<0 L0.0<1",
        "events 7 / verdict robust / cut 1 1 0 / share 50",
    ),
    (
        "thread 1 loads 1 behind its own issue",
        "B1.2.8 I0.0 C0 I1.7 L1.0<1 C1 X L0.0<0 L0.7<3",
        "events 8 / verdict robust / cut 1 0 1 / share 50",
    ),
    (
        "two stores of two stretches",
        "B1.1.8 I0.0 C0 X I0.7 C0 X L0.0<0 L0.7<4",
        "events 8 / verdict robust / cut 1 0 / cut 2 1 / share 50",
    ),
    (
        "a load in a skip does not count",
        "B1.1.8 I0.0 C0 I0.7 C0 X L0.0<0 SKIP0 L0.7<3",
        "events 8 / verdict robust / cut 1 0 / share 0",
    ),
];

/// "It has no windows.", and the windows of pairs close to that. The answers are the missing and the observed store,
/// the primary thread and each thread's window.
const WINDOWS: &[Row] = &[
    ("0 and 7, on one line", "B1.1.8 I0.0 C0 I0.7 C0 X L0.0<0 L0.7<3", "none"),
    ("one location twice", "B1.1.1 I0.0 C0 I0.0 C0 X L0.0<0 L0.0<3", "none"),
    ("by a signal and a wait", "B1.2.8 I0.0 C0 S0 W1<3 I1.7 C1 X L0.0<0 L0.7<5", "none"),
    ("by 4 on another line", "B1.3.9 I0.0 C0 L1.0<1 I1.8 C1 L2.8<4 I2.7 C2 X L0.0<0 L0.7<7", "none"),
    ("1 before 5 is on two lines and not chosen", "B1.1.9 I0.0 C0 I0.7 C0 I0.8 C0 X L0.7<3 L0.8<5 L0.0<0", "none"),
    ("7 and 8, on two lines", "B1.1.9 I0.7 C0 I0.8 C0 X L0.7<0 L0.8<3", "1 before 3, primary 0, thread 0: 2 to 3"),
    (
        "247 and 248, on two lines, by a load",
        "B1.2.256 I0.247 C0 L1.247<1 I1.248 C1 X L0.247<0 L0.248<4",
        "1 before 4, primary 0, thread 1: 4 to 4",
    ),
    (
        "16 and 15, on two lines, by a signal and a wait",
        "B1.2.17 I0.16 C0 S0 W1<3 I1.15 C1 X L0.16<0 L0.15<5",
        "1 before 5, primary 0, thread 1: 5 to 5",
    ),
    (
        "store 3 between them is on the line of the missing one",
        "B1.1.9 I0.7 C0 I0.0 C0 I0.8 C0 X L0.7<0 L0.8<5",
        "1 before 5, primary 0, thread 0: 2 to 5",
    ),
    (
        "store 3 between them is on the line of the observed one, whose own record brings 1 to thread 1",
        "B1.2.9 I0.7 C0 R0.8<0 R1.8<3 X L0.7<0 L0.8<4",
        "1 before 4, primary 0, thread 0: 2 to 3",
    ),
];

/// Order queries know no lines: trace, the two numbers, the answer.
const ORDERS: &[OrderRow] = &[
    ("B1.2.8 I0.0 C0 I1.7 C1", 1, 3, Ok(Order::Neither)),
    ("B1.1.8 I0.0 I0.7", 1, 2, Ok(Order::Before)),
    ("B1.1.8 I0.0 C0 X I0.7", 1, 4, Ok(Order::Neither)),
];

const EXPECTED: Expected = Expected { verdicts: &[LINES, PAIRS, CHOSEN, ROBUST], windows: WINDOWS, orders: ORDERS };

#[test]
fn the_library_judges_pairs_on_one_line() {
    EXPECTED.check_library();
}

#[test]
fn the_other_judges_judge_pairs_on_one_line() {
    EXPECTED.check_others();
}
