//! Signals and waits, document 02, job 4: sessions with the answers that follow from its words, given to all four ways
//! of judging.

mod common;

use common::{Expected, OrderRow, Row};
use gorbuzte::{Order, Refusal};

/// "11 for a signal with waiting stores; 18 for a wait whose source is no earlier signal of the same stretch, after 7",
/// and the rules that every record has.
const REFUSALS: &[Row] = &[
    ("the signal's thread has a waiting store", "B1.1.2 I0.0 S0", "refused 11 2"),
    ("no thread 1 signals", "B1.1.2 I0.0 S1", "refused 7 2"),
    ("7 before 18: no thread 1, and no signal 0", "B1.1.2 W1<0", "refused 7 1"),
    ("no thread 1 waits for signal 1", "B1.1.2 S0 W1<1", "refused 7 2"),
    ("source 0 is no signal", "B1.1.2 W0<0", "refused 18 1"),
    ("the wait itself is no signal", "B1.1.2 W0<1", "refused 18 1"),
    ("signal 2 is later", "B1.1.2 W0<2 S0", "refused 18 1"),
    ("event 1 is an issue", "B1.1.2 I0.0 W0<1", "refused 18 2"),
    ("event 1 is a load", "B1.1.2 L0.0<0 W0<1", "refused 18 2"),
    ("event 1 is a locked operation", "B1.1.2 R0.0<0 W0<1", "refused 18 2"),
    ("event 2 is a wait", "B1.2.2 S0 W1<1 W0<2", "refused 18 3"),
    ("signal 1 is of an earlier stretch", "B1.2.2 S0 X W1<1", "refused 18 3"),
    ("signal 1 is of an earlier stretch, signal 3 of this one", "B1.2.2 S0 X S0 W1<1", "refused 18 4"),
    ("no event has so high a number", "B1.1.2 S0 W0<4097", "refused 18 2"),
    ("the highest number", "B1.1.2 S0 W0<65535", "refused 18 2"),
    ("a signal is no source of a load", "B1.1.2 I0.0 C0 S0 X L0.0<3", "refused 9 5"),
    ("a signal is not committed", "B1.1.2 S0 C0", "refused 10 2"),
    ("a signal at event 2,049", "B1.1.2 2048*SF0 S0", "refused 13 2049"),
    ("13 before 18, at event 2,049", "B1.1.2 2048*SF0 W0<0", "refused 13 2049"),
    ("no begin before a signal", "S0", "refused 1 0"),
    ("no begin before a wait", "W0<0", "refused 1 0"),
    ("a signal's bytes end early", "B1.1.2 x04000d00", "refused 2 1"),
    ("a wait's bytes end early", "B1.1.2 x06000e000000", "refused 2 1"),
    ("a signal of length 6", "B1.1.2 x06000d0000000000", "refused 4 1"),
    ("a wait of length 4", "B1.1.2 x04000e000000", "refused 4 1"),
    ("another thread may have waiting stores", "B1.2.2 I0.0 S1", "events 2 / verdict robust / share 100"),
    ("a crash drops the waiting store", "B1.1.2 I0.0 X S0", "events 3 / verdict robust / cut 1 0 / share 100"),
    ("a wait needs no empty queue", "B1.2.2 S0 I1.0 W1<1", "events 3 / verdict robust / share 100"),
    ("a thread may wait for itself", "B1.1.2 S0 W0<1", "events 2 / verdict robust / share 100"),
    ("several waits may name one signal", "B1.3.2 S0 W1<1 W2<1 W1<1", "events 4 / verdict robust / share 100"),
    ("both in skips", "B1.2.2 SKIP0 SKIP1 S0 W1<3", "events 4 / verdict robust / share 100"),
    ("a wait at event 2,048", "B1.1.2 S0 2046*SF0 W0<1", "events 2048 / verdict robust / share 100"),
];

/// "Each store that would happen before a store issued in the signal's place happens before all stores that the waiting
/// thread issues, in that stretch, after a wait naming that signal; so a hand-over passes on what came by loads and
/// earlier waits."
const VERDICTS: &[Row] = &[
    (
        "1 is handed over to thread 1, which stores 5",
        "B1.2.9 I0.0 C0 S0 W1<3 I1.8 C1 X L0.0<0 L0.8<5",
        "events 9 / verdict broken / load 9 / missing 1 / observed 5 / kind flush",
    ),
    (
        "the same without the wait",
        "B1.2.9 I0.0 C0 S0 I1.8 C1 X L0.0<0 L0.8<4",
        "events 8 / verdict robust / cut 1 0 1 / share 50",
    ),
    (
        "1 happens before 5, so it is in with it",
        "B1.2.9 I0.0 C0 S0 W1<3 I1.8 C1 X L0.8<5",
        "events 8 / verdict robust / cut 1 1 1 / share 100",
    ),
    (
        "4 is issued before the wait, and committed after it",
        "B1.2.9 I0.0 C0 S0 I1.8 W1<3 C1 X L0.0<0 L0.8<4",
        "events 9 / verdict robust / cut 1 0 1 / share 50",
    ),
    (
        "2 is issued after the signal",
        "B1.2.9 S0 I0.0 C0 W1<1 I1.8 C1 X L0.0<0 L0.8<5",
        "events 9 / verdict robust / cut 1 0 1 / share 50",
    ),
    (
        "the later signal is not the one that is named",
        "B1.2.9 S0 I0.0 C0 S0 W1<1 I1.8 C1 X L0.0<0 L0.8<6",
        "events 10 / verdict robust / cut 1 0 1 / share 50",
    ),
    (
        "the second wait is for the later signal",
        "B1.2.9 S0 I0.0 C0 S0 W1<1 W1<4 I1.8 C1 X L0.0<0 L0.8<7",
        "events 11 / verdict broken / load 11 / missing 2 / observed 7 / kind flush",
    ),
    (
        "an earlier hand-over stays when a later one brings less",
        "B1.3.9 S2 I0.0 C0 S0 W1<4 W1<1 I1.8 C1 X L0.0<0 L0.8<7",
        "events 11 / verdict broken / load 11 / missing 2 / observed 7 / kind flush",
    ),
    (
        "thread 1 passes on what came by a load",
        "B1.3.9 I0.0 C0 L1.0<1 S1 W2<4 I2.8 C2 X L0.0<0 L0.8<6",
        "events 10 / verdict broken / load 10 / missing 1 / observed 6 / kind flush",
    ),
    (
        "thread 1 loads 1 after its signal",
        "B1.3.9 I0.0 C0 S1 L1.0<1 W2<3 I2.8 C2 X L0.0<0 L0.8<6",
        "events 10 / verdict robust / cut 1 0 0 1 / share 50",
    ),
    (
        "thread 1 passes on what came by a wait",
        "B1.3.9 I0.0 C0 S0 W1<3 S1 W2<5 I2.8 C2 X L0.0<0 L0.8<7",
        "events 11 / verdict broken / load 11 / missing 1 / observed 7 / kind flush",
    ),
    (
        "thread 1 waits after its signal",
        "B1.3.9 I0.0 C0 S0 S1 W1<3 W2<4 I2.8 C2 X L0.0<0 L0.8<7",
        "events 11 / verdict robust / cut 1 0 0 1 / share 50",
    ),
    (
        "what happens before a store that is handed over, is handed over",
        "B1.3.17 I0.0 C0 L1.0<1 I1.8 C1 S1 W2<6 I2.16 C2 X L0.0<0 L0.16<8",
        "events 12 / verdict broken / load 12 / missing 1 / observed 8 / kind flush",
    ),
    (
        "thread 2 does not wait",
        "B1.3.9 I0.0 C0 S0 W1<3 I2.8 C2 X L0.0<0 L0.8<5",
        "events 9 / verdict robust / cut 1 0 0 1 / share 50",
    ),
    (
        "a thread that waits for itself gains nothing",
        "B1.2.9 I1.0 C1 S0 W0<3 I0.8 C0 X L0.0<0 L0.8<5",
        "events 9 / verdict robust / cut 1 1 0 / share 50",
    ),
    (
        "two threads wait for one signal: 1 happens before 6 and before 8",
        "B1.3.17 I0.0 C0 S0 W1<3 W2<3 I2.8 C2 I1.16 C1 X L0.8<6 L0.16<8 L0.0<0",
        "events 13 / verdict broken / load 13 / missing 1 / observed 6 / kind flush",
    ),
    (
        "a crash ends what was handed over",
        "B1.2.9 I0.0 C0 S0 W1<3 X I1.8 C1 X L0.0<0 L0.8<6",
        "events 10 / verdict robust / cut 1 0 0 / cut 2 0 1 / share 50",
    ),
    (
        "nothing of an earlier stretch is handed over",
        "B1.2.9 I0.0 C0 X S0 W1<4 I1.8 C1 X L0.0<0 L0.8<6",
        "events 10 / verdict robust / cut 1 0 0 / cut 2 0 1 / share 50",
    ),
    (
        "a hand-over in stretch 2",
        "B1.2.9 S0 X I0.0 C0 S0 W1<5 I1.8 C1 X L0.0<0 L0.8<7",
        "events 11 / verdict broken / load 11 / missing 3 / observed 7 / kind flush",
    ),
    (
        "a wait in a skip orders",
        "B1.2.9 I0.0 C0 S0 SKIP1 W1<3 I1.8 C1 X L0.0<0 L0.8<6",
        "events 10 / verdict broken / load 10 / missing 1 / observed 6 / kind flush",
    ),
    (
        "locked operations before the signal and after the wait",
        "B1.2.9 R0.0<0 S0 W1<2 R1.8<0 X L0.0<0 L0.8<4",
        "events 7 / verdict broken / load 7 / missing 1 / observed 4 / kind flush",
    ),
    ("a refusal outranks broken", "B1.2.9 I0.0 C0 S0 W1<3 I1.8 C1 X L0.0<0 L0.8<5 W0<3", "refused 18 10"),
];

/// "outside p's thread a window's first place is one past the first such load or the first wait whose signal passes p
/// on, the earlier of the two". The answers are the missing and the observed store, the primary thread and each
/// thread's window.
const WINDOWS: &[Row] = &[
    (
        "one past the wait; thread 0's last store before 5 is 1, in front of its first place 2",
        "B1.2.9 I0.0 C0 S0 W1<3 I1.8 C1 X L0.0<0 L0.8<5",
        "1 before 5, primary 0, thread 1: 5 to 5",
    ),
    (
        "3 is handed over too, so thread 0 has one",
        "B1.2.17 I0.0 C0 I0.8 C0 S0 W1<5 I1.16 C1 X L0.0<0 L0.16<7",
        "1 before 7, primary 0, thread 0: 2 to 3, thread 1: 7 to 7",
    ),
    (
        "a chain over three threads",
        "B1.3.17 I0.0 C0 S0 W1<3 I1.8 C1 S1 W2<7 I2.16 C2 X L0.0<0 L0.16<9",
        "1 before 9, primary 0, thread 1: 5 to 5, thread 2: 9 to 9",
    ),
    (
        "thread 1 passes 1 on and stores nothing",
        "B1.3.9 I0.0 C0 S0 W1<3 S1 W2<5 I2.8 C2 X L0.0<0 L0.8<7",
        "1 before 7, primary 0, thread 2: 7 to 7",
    ),
    (
        "signal 4 passes on what thread 1 loaded",
        "B1.3.9 I0.0 C0 L1.0<1 S1 W2<4 SF2 I2.8 C2 X L0.0<0 L0.8<7",
        "1 before 7, primary 0, thread 2: 6 to 7",
    ),
    (
        "signal 1 does not pass 3 on, signal 5 does",
        "B1.2.9 S0 W1<1 I0.0 C0 S0 W1<5 I1.8 C1 X L0.0<0 L0.8<7",
        "3 before 7, primary 0, thread 1: 7 to 7",
    ),
    (
        "signal 1 does not pass 2 on, though the wait comes after 2",
        "B1.2.9 S0 I0.0 C0 S0 W1<1 W1<4 I1.8 C1 X L0.0<0 L0.8<7",
        "2 before 7, primary 0, thread 1: 7 to 7",
    ),
    (
        "of two waits the first",
        "B1.2.9 I0.0 C0 S0 W1<3 W1<3 I1.8 C1 X L0.0<0 L0.8<6",
        "1 before 6, primary 0, thread 1: 5 to 6",
    ),
    (
        "load 3 is earlier than the wait",
        "B1.2.9 I0.0 C0 L1.0<1 S0 W1<4 I1.8 C1 X L0.0<0 L0.8<6",
        "1 before 6, primary 0, thread 1: 4 to 6",
    ),
    (
        "the wait is earlier than load 5",
        "B1.2.9 I0.0 C0 S0 W1<3 L1.0<1 I1.8 C1 X L0.0<0 L0.8<6",
        "1 before 6, primary 0, thread 1: 5 to 6",
    ),
    (
        "thread 0 waits for itself, and its first place stays",
        "B1.1.9 I0.0 C0 S0 W0<3 I0.8 C0 X L0.0<0 L0.8<5",
        "1 before 5, primary 0, thread 0: 2 to 5",
    ),
    (
        "there and back: 5 of thread 1 happens before 9 of thread 0",
        "B1.2.17 I0.0 C0 S0 W1<3 I1.8 C1 S1 W0<7 I0.16 C0 X L0.0<0 L0.16<9",
        "1 before 9, primary 0, thread 0: 2 to 9, thread 1: 5 to 5",
    ),
    (
        "thread 2's ends are out of order: it stores 1 and then waits",
        "B1.3.17 I2.8 C2 I0.0 C0 S0 W2<5 W1<5 L1.8<1 I1.16 C1 X L0.0<0 L0.16<9",
        "3 before 9, primary 0, thread 1: 8 to 9",
    ),
    (
        "the wait brought 1 before the locked operation loads 3, which happens after it",
        "B1.2.9 I0.0 C0 I0.8 C0 S0 W1<5 R1.8<3 X L0.0<0 L0.8<7",
        "1 before 7, primary 0, thread 0: 2 to 3, thread 1: 7 to 7",
    ),
    (
        "record 4 brought 1 before the wait, and is an issue in front of the first place",
        "B1.2.9 I0.0 C0 S0 R1.0<1 W1<3 I1.8 C1 X L0.0<0 L0.8<6",
        "1 before 6, primary 0, thread 1: 5 to 6",
    ),
    ("a contradiction has none", "B1.2.2 I0.0 C0 S0 W1<3 X L0.0<1 L0.0<0", "none"),
];

/// Trace, two numbers, how their stores stand. Signals and waits are no stores.
const ORDERS: &[OrderRow] = &[
    ("B1.2.2 I0.0 C0 S0 W1<3 I1.1", 1, 5, Ok(Order::Before)),
    ("B1.2.2 I0.0 C0 S0 W1<3 I1.1", 5, 1, Ok(Order::After)),
    ("B1.2.2 I0.0 C0 S0 I1.1 W1<3", 1, 4, Ok(Order::Neither)),
    ("B1.2.2 S0 I0.0 W1<1 I1.1", 2, 4, Ok(Order::Neither)),
    ("B1.2.2 I1.0 C1 S0 W0<3 I0.1", 1, 5, Ok(Order::Neither)),
    ("B1.2.2 I0.0 C0 S0 W1<3 X I1.1", 1, 6, Ok(Order::Neither)),
    ("B1.2.2 I0.0 C0 S0 W1<3 R1.1<0", 1, 5, Ok(Order::Before)),
    ("B1.3.2 I0.0 C0 L1.0<1 S1 W2<4 I2.1", 1, 6, Ok(Order::Before)),
    ("B1.3.2 I0.0 C0 S0 W1<3 S1 W2<5 I2.1", 1, 7, Ok(Order::Before)),
    ("B1.2.2 I0.0 C0 S0 W1<3 I1.1 C1 S1 W0<7 I0.0", 5, 9, Ok(Order::Before)),
    ("B1.1.2 I0.0 C0 S0", 1, 3, Err(Refusal { number: 16, event: 0 })),
    ("B1.2.2 S0 W1<1 I1.0", 2, 3, Err(Refusal { number: 16, event: 0 })),
    ("B1.2.2 I0.0 W0<1", 1, 1, Err(Refusal { number: 18, event: 2 })),
];

const EXPECTED: Expected = Expected { verdicts: &[REFUSALS, VERDICTS], windows: WINDOWS, orders: ORDERS };

#[test]
fn the_library_judges_hand_overs() {
    EXPECTED.check_library();
}

#[test]
fn the_other_judges_judge_hand_overs() {
    EXPECTED.check_others();
}
