//! Locked operations, document 02, job 2: sessions with the answers that follow from its words, given to all four ways
//! of judging.

mod common;

use common::{Expected, OrderRow, Row};
use gorbuzte::{Order, Refusal};

/// "11 also if kind 12's thread has a waiting store, before 9", and the rules that every record has.
const REFUSALS: &[Row] = &[
    ("its thread has a waiting store, if at another location", "B1.1.2 I0.0 R0.1<0", "refused 11 2"),
    ("a load could read the waiting store, a locked operation may not", "B1.1.2 I0.0 R0.0<1", "refused 11 2"),
    ("11 before 9: a waiting store, and no store 5", "B1.1.2 I0.0 R0.0<5", "refused 11 2"),
    ("8 before 11: a waiting store, and no location 2", "B1.1.2 I0.0 R0.2<0", "refused 8 2"),
    ("7 before 8: no thread 1, and no location 2", "B1.1.2 R1.2<0", "refused 7 1"),
    ("its own store is not its source", "B1.1.2 R0.0<1", "refused 9 1"),
    ("the store that took effect last is 1", "B1.2.2 I0.0 C0 R1.0<0", "refused 9 3"),
    ("store 1 takes effect in its record, so the next one loads it", "B1.1.2 R0.0<0 R0.0<0", "refused 9 2"),
    ("a load behind it is not crossing", "B1.1.2 I0.0 C0 X R0.0<1 L0.0<1", "refused 9 5"),
    ("store 1 was dropped by the crash", "B1.1.2 I0.0 X R0.0<1", "refused 9 3"),
    ("in a skip it is checked", "B1.1.2 SKIP0 R0.0<1", "refused 9 2"),
    ("its store does not wait for a commit", "B1.1.2 R0.0<0 C0", "refused 10 2"),
    ("event 2,049", "B1.1.2 2048*SF0 R0.0<0", "refused 13 2049"),
    ("its bytes end early", "B1.1.2 x08000c000000", "refused 2 1"),
    ("another thread may have waiting stores", "B1.2.2 I0.0 R1.0<0", "events 2 / verdict robust / share 100"),
    ("a crash drops the waiting store", "B1.1.2 I0.0 X R0.0<0", "events 3 / verdict robust / cut 1 0 / share 100"),
    ("its queue is empty behind it", "B1.1.2 R0.0<0 MF0", "events 2 / verdict robust / share 100"),
    ("event 2,048", "B1.1.2 2047*SF0 R0.0<0", "events 2048 / verdict robust / share 100"),
];

/// "Wherever issues, commits or loads are named, this record is meant too."
const VERDICTS: &[Row] = &[
    (
        "the chain of location 0 is 1, 3: load 5 forbids 3",
        "B1.2.2 I0.0 C0 R1.0<1 X L0.0<1",
        "events 5 / verdict robust / cut 1 1 0 / share 50",
    ),
    (
        "1 is loaded by the record of 3, so it happens before 3 and is in with it",
        "B1.2.2 I0.0 C0 R1.0<1 X L0.0<3",
        "events 5 / verdict robust / cut 1 1 1 / share 100",
    ),
    (
        "2 takes effect at once and 1 at event 3: load 5 forbids 1",
        "B1.2.2 I1.0 R0.0<0 C1 X L0.0<2",
        "events 5 / verdict robust / cut 1 1 0 / share 50",
    ),
    (
        "2 takes effect before 1, so load 5 forbids nothing; neither happens before the other",
        "B1.2.2 I1.0 R0.0<0 C1 X L0.0<1",
        "events 5 / verdict robust / cut 1 0 1 / share 50",
    ),
    (
        "its load counts: 5 forbids what 4 observed",
        "B1.1.2 I0.0 C0 X L0.0<1 R0.0<0",
        "events 5 / verdict broken / load 5 / missing 1 / observed 1 / kind contradiction",
    ),
    (
        "and observes: 7 reads 3, and 6 read past 1",
        "B1.1.9 I0.0 C0 I0.8 C0 X L0.0<0 R0.8<3",
        "events 7 / verdict broken / load 7 / missing 1 / observed 3 / kind flush",
    ),
    (
        "at the last event that there may be",
        "B1.1.2 I0.0 C0 X L0.0<1 2043*SF0 R0.0<0",
        "events 2048 / verdict broken / load 2048 / missing 1 / observed 1 / kind contradiction",
    ),
    (
        "in a skip its load does not count",
        "B1.1.2 I0.0 C0 X L0.0<1 SKIP0 R0.0<0",
        "events 6 / verdict robust / cut 1 1 / share 100",
    ),
    (
        "in a skip its store stands, and store 1 is not observed",
        "B1.1.2 I0.0 C0 X SKIP0 R0.0<1 X L0.0<5",
        "events 7 / verdict robust / cut 1 0 / cut 2 1 / share 50",
    ),
    (
        "in no skip store 1 is observed",
        "B1.1.2 I0.0 C0 X R0.0<1 X L0.0<4",
        "events 6 / verdict robust / cut 1 1 / cut 2 1 / share 100",
    ),
    (
        "its load forbids 1 and not its own store, which is of a later stretch",
        "B1.1.2 I0.0 C0 X R0.0<0 X L0.0<4",
        "events 6 / verdict robust / cut 1 0 / cut 2 1 / share 50",
    ),
    (
        "stores of two stretches are unordered: 1 need not be in for 4, though thread 0 stores both",
        "B1.1.2 I0.1 C0 X R0.0<0 X L0.1<0 L0.0<4",
        "events 7 / verdict robust / cut 1 0 / cut 2 1 / share 50",
    ),
    (
        "a load of its store in the same stretch is not crossing",
        "B1.2.2 I0.0 C0 X R0.0<1 L1.0<4",
        "events 5 / verdict robust / cut 1 1 0 / share 100",
    ),
    (
        "3 is committed in a later stretch than 1: load 5 forbids it, load 6 observes it",
        "B1.1.2 R0.0<0 X R0.0<1 X L0.0<1 L0.0<3",
        "events 6 / verdict broken / load 6 / missing 3 / observed 3 / kind contradiction",
    ),
    ("a refusal outranks broken", "B1.1.2 I0.0 C0 X L0.0<1 R0.0<0 I0.0 R0.0<5", "refused 11 7"),
];

/// "if q's own record is the load that first brings p to its thread, that thread has no window", and close to that. The
/// answers are the missing and the observed store, the primary thread and each thread's window.
const WINDOWS: &[Row] = &[
    (
        "record 6 is the observed store and the first that brings 1 to thread 1; thread 0's last store before it is 1",
        "B1.3.9 I0.0 C0 L2.0<1 I2.8 C2 R1.8<4 X L0.0<0 L0.8<6",
        "1 before 6, primary 0, thread 2: 4 to 4",
    ),
    (
        "the same in a skip: the load orders",
        "B1.3.9 I0.0 C0 L2.0<1 I2.8 C2 SKIP1 R1.8<4 X L0.0<0 L0.8<7",
        "1 before 7, primary 0, thread 2: 4 to 4",
    ),
    (
        "record 4 loads 3, which happens after 1, and thread 1 has no window; thread 0 stores 3 before 4",
        "B1.2.17 I0.8 C0 R0.0<0 R1.0<3 X L0.8<0 L0.0<4",
        "1 before 4, primary 0, thread 0: 2 to 3",
    ),
    (
        "load 3 of thread 1 is of 1, which does not happen after 4",
        "B1.2.17 I1.16 C1 L1.16<1 I0.0 C0 I0.8 C0 R1.8<6 X L0.0<0 L0.8<8",
        "4 before 8, primary 0, thread 0: 5 to 6",
    ),
    (
        "thread 1's first place is behind its only store, 5; thread 2's own record brings 1",
        "B1.3.9 I0.0 C0 I0.8 C0 R1.8<3 R2.8<5 X L0.0<0 L0.8<6",
        "1 before 6, primary 0, thread 0: 2 to 3",
    ),
    (
        "load 5 brought 1 before record 6",
        "B1.2.9 I0.0 C0 I0.8 C0 L1.0<1 R1.8<3 X L0.0<0 L0.8<6",
        "1 before 6, primary 0, thread 0: 2 to 3, thread 1: 6 to 6",
    ),
    (
        "load 4 is of 3, which happens after 1, and comes before record 5",
        "B1.2.17 I0.8 C0 R0.0<0 L1.0<3 R1.0<3 X L0.8<0 L0.0<5",
        "1 before 5, primary 0, thread 0: 2 to 3, thread 1: 5 to 5",
    ),
    (
        "record 3 brought 1 before record 4, both of thread 1",
        "B1.2.9 I0.0 C0 R1.0<1 R1.8<0 X L0.0<0 L0.8<4",
        "1 before 4, primary 0, thread 1: 4 to 4",
    ),
    (
        "the observed store is of the missing one's thread, whose first place is 2, and its record loads 3",
        "B1.1.9 I0.0 C0 I0.8 C0 R0.8<3 X L0.0<0 L0.8<5",
        "1 before 5, primary 0, thread 0: 2 to 5",
    ),
    (
        "record 4 brings 1 to thread 1, whose later store 5 is observed",
        "B1.2.17 I0.8 C0 R0.0<0 R1.0<3 I1.16 C1 X L0.8<0 L0.16<5",
        "1 before 5, primary 0, thread 0: 2 to 3, thread 1: 5 to 5",
    ),
    (
        "the missing store is a locked operation's: one past its record",
        "B1.1.9 R0.0<0 I0.8 C0 X L0.0<0 L0.8<2",
        "1 before 2, primary 0, thread 0: 2 to 2",
    ),
    (
        "record 5 is an issue of thread 1, and the last before 7",
        "B1.3.25 I0.0 C0 L1.0<1 SF1 R1.8<0 L2.8<5 R2.16<0 X L0.0<0 L0.16<7",
        "1 before 7, primary 0, thread 1: 4 to 5, thread 2: 7 to 7",
    ),
];

/// "its event number names its store": trace, the two numbers, the answer.
const ORDERS: &[OrderRow] = &[
    ("B1.1.2 R0.0<0", 1, 1, Ok(Order::Same)),
    ("B1.1.2 R0.0<0 I0.1", 1, 2, Ok(Order::Before)),
    ("B1.2.2 I0.0 C0 R1.0<1", 1, 3, Ok(Order::Before)),
    ("B1.2.2 R0.0<0 R1.0<1", 2, 1, Ok(Order::After)),
    ("B1.2.2 R0.0<0 R1.1<0", 1, 2, Ok(Order::Neither)),
    ("B1.2.2 R0.0<0 L1.0<1 I1.1", 1, 3, Ok(Order::Before)),
    ("B1.3.2 I0.1 C0 R0.0<0 R1.0<3 R2.0<4", 1, 5, Ok(Order::Before)),
    ("B1.2.2 R0.0<0 X R1.0<1", 1, 3, Ok(Order::Neither)),
    ("B1.2.2 R0.0<0 L1.0<1", 1, 2, Err(Refusal { number: 16, event: 0 })),
];

const EXPECTED: Expected = Expected { verdicts: &[REFUSALS, VERDICTS], windows: WINDOWS, orders: ORDERS };

#[test]
fn the_library_judges_locked_operations() {
    EXPECTED.check_library();
}

#[test]
fn the_other_judges_judge_locked_operations() {
    EXPECTED.check_others();
}
