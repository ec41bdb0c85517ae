//! Where the flush may go, document 02, job 1: sessions with the windows that follow from its words, given to all four
//! ways of judging.

mod common;

use common::{Expected, Row};

/// Expected are the missing and the observed store, the primary thread and each thread's window.
const WINDOWS: &[Row] = &[
    (
        "thread 0's last store before 4 is 1, in front of its first place 2",
        "B1.2.9 I0.0 C0 L1.0<1 I1.8 C1 X L0.0<0 L0.8<4",
        "1 before 4, primary 0, thread 1: 4 to 4",
    ),
    (
        "case 1 of document 01, but on two lines: from one past the missing store to the observed one",
        "B1.1.9 I0.0 C0 I0.8 C0 I0.0 C0 I0.8 C0 X L0.0<1 L0.8<7",
        "5 before 7, primary 0, thread 0: 6 to 7",
    ),
    (
        "the thread issues on, but not before the observed store",
        "B1.1.17 I0.0 C0 I0.8 C0 I0.16 C0 X L0.0<0 L0.8<3",
        "1 before 3, primary 0, thread 0: 2 to 3",
    ),
    (
        "a flush record that is there already moves no place",
        "B1.1.9 I0.0 C0 F0.0 I0.8 C0 X L0.0<0 L0.8<4",
        "1 before 4, primary 0, thread 0: 2 to 4",
    ),
    (
        "a chain over three threads: load 6 is of 4, which happens after 1",
        "B1.3.17 I0.0 C0 L1.0<1 I1.8 C1 L2.8<4 I2.16 C2 X L0.0<0 L0.16<7",
        "1 before 7, primary 0, thread 1: 4 to 4, thread 2: 7 to 7",
    ),
    (
        "thread 0 stores 3 before thread 1 reads it, so both have one",
        "B1.2.17 I0.0 C0 I0.8 C0 L1.8<3 I1.16 C1 X L0.0<0 L0.16<6",
        "1 before 6, primary 0, thread 0: 2 to 3, thread 1: 6 to 6",
    ),
    (
        "there and back: 4 of thread 1 happens before 7 of thread 0",
        "B1.2.17 I0.0 C0 L1.0<1 I1.8 C1 L0.8<4 I0.16 C0 X L0.0<0 L0.16<7",
        "1 before 7, primary 0, thread 0: 2 to 7, thread 1: 4 to 4",
    ),
    (
        "thread 0 stores 4 too late for 6",
        "B1.2.17 I0.0 C0 L1.0<1 I0.8 C0 I1.16 C1 X L0.0<0 L0.16<6",
        "1 before 6, primary 0, thread 1: 4 to 6",
    ),
    (
        "load 3 is of another store, loads 6 and 7 are both of the missing one",
        "B1.2.17 I1.8 C1 L1.8<1 I0.0 C0 L1.0<4 L1.0<4 I1.16 C1 X L0.0<0 L0.16<8",
        "4 before 8, primary 0, thread 1: 7 to 8",
    ),
    (
        "loads 2 and 7 are of thread 1's own waiting stores",
        "B1.2.17 I1.8 L1.8<1 I0.0 C0 L1.0<3 I1.16 L1.16<6 I1.8 C1 C1 C1 X L0.0<0 L0.8<8",
        "3 before 8, primary 0, thread 1: 6 to 8",
    ),
    (
        "thread 2's ends are out of order: it stores 1 and then loads 3",
        "B1.3.17 I2.8 C2 I0.0 C0 L2.0<3 L1.0<3 L1.8<1 I1.16 C1 X L0.0<0 L0.16<8",
        "3 before 8, primary 0, thread 1: 7 to 8",
    ),
    (
        "thread 2 loads the missing store and stores, but not before 4",
        "B1.3.17 I0.0 C0 L1.0<1 I1.8 C1 L2.0<1 I2.16 C2 X L0.0<0 L0.8<4",
        "1 before 4, primary 0, thread 1: 4 to 4",
    ),
    (
        "load 3 is of an earlier stretch",
        "B1.2.9 I0.0 C0 L1.0<1 X I0.0 C0 L1.0<5 I1.8 C1 X L0.0<1 L0.8<8",
        "5 before 8, primary 0, thread 1: 8 to 8",
    ),
    (
        "the last two of eight threads",
        "B1.8.9 I7.0 C7 L6.0<1 I6.8 C6 X L0.0<0 L0.8<4",
        "1 before 4, primary 7, thread 6: 4 to 4",
    ),
    ("a contradiction has none", "B1.1.2 I0.0 C0 X L0.0<1 L0.0<0", "none"),
    ("a robust trace has none", "B1.2.9 I0.0 C0 I1.8 C1 X L0.0<0 L0.8<3", "none"),
    ("a refused trace has none", "B1.1.9 I0.0 C0 I0.8 C0 X L0.0<0 L0.8<3 C0", "none"),
];

const EXPECTED: Expected = Expected { verdicts: &[], windows: WINDOWS, orders: &[] };

#[test]
fn the_library_answers_windows() {
    EXPECTED.check_library();
}

#[test]
fn the_other_judges_answer_windows() {
    EXPECTED.check_others();
}
