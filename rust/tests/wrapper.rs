//! The calls of the wrapper: buffers of any size, the record layer, and one judge for many traces.

mod common;

use common::{lines, session};
use gorbuzte::{ffi, frame, judge, judge_with, order, order_with, read_at, write};
use gorbuzte::{Event, Judge, Order, Refusal, Verdict, CUT, LARGEST_RECORD, WORK};

const ROBUST: &str = "B1.2.2 I0.0 C0 I1.1 C1 X L0.0<0 L0.1<3";
const BROKEN: &str = "B1.1.2 I0.0 C0 X L0.0<1 L0.0<0";
const FLUSH: &str = "B1.2.9 I0.0 C0 L1.0<1 I1.8 C1 X L0.0<0 L0.8<4";
const IMPOSSIBLE: &str = "B1.2.2 I0.0 C0 L1.0<1 I1.1 C1 X L0.0<0 L0.1<4";
const AT_CLOSE: &str = "B2.1.2 I0.0 C0 X O0 L0.0<1 L0.0<0 K0.1";
const OUTCOME: &str = "B2.1.2 O0 K0.2";
const REFUSED: &str = "B1.1.2 I0.0 X L0.0<1";
const NO_BEGIN: &str = "X";
const NO_BYTES: &str = "";

fn refused<T>(number: u16, event: u16) -> Result<T, Refusal> {
    Err(Refusal { number, event })
}

#[test]
fn a_robust_answer_fills_the_cut_buffer() {
    let (mut work, mut cut) = (vec![7; WORK + 3], [7; CUT]);
    let mut expected = [0; CUT];
    expected[1] = 1;
    let answer = judge_with(&session(ROBUST), &mut work, &mut cut);
    assert_eq!(answer, Ok(Verdict::Robust { events: 7, share: 50, cut: expected }));
    assert_eq!(cut, expected);
    assert!(work[..WORK].iter().all(|&number| number == 0));
    assert_eq!(work[WORK..], [7, 7, 7]);
}

/// Document 02, job 6, on empty bytes: "robust, all-zero cut, share 100, `events 0`."
#[test]
fn no_bytes_fill_the_cut_buffer_with_0() {
    for more in [0, 1, 3] {
        let (mut work, mut cut) = (vec![7; WORK + more], [7; CUT]);
        let answer = judge_with(&session(NO_BYTES), &mut work, &mut cut);
        assert_eq!(answer, Ok(Verdict::Robust { events: 0, share: 100, cut: [0; CUT] }));
        assert_eq!(cut, [0; CUT]);
        assert!(work[..WORK].iter().all(|&number| number == 0));
        assert_eq!(work[WORK..], [7, 7, 7][..more]);
    }
}

#[test]
fn other_answers_leave_the_cut_buffer() {
    for text in [BROKEN, FLUSH, IMPOSSIBLE, AT_CLOSE, OUTCOME, REFUSED, NO_BEGIN] {
        let (mut work, mut cut) = (vec![7; WORK + 3], [7; CUT]);
        let trace = session(text);
        assert_eq!(judge_with(&trace, &mut work, &mut cut), judge(&trace));
        assert_eq!(cut, [7; CUT], "{text}");
        assert!(work[..WORK].iter().all(|&number| number == 0), "{text}");
        assert_eq!(work[WORK..], [7, 7, 7], "{text}");
    }
}

#[test]
fn refusals_14_and_15_touch_nothing() {
    let sizes = [
        (WORK - 1, CUT, 14),
        (0, CUT, 14),
        (WORK - 1, CUT - 1, 14),
        (0, 0, 14),
        (WORK, CUT - 1, 15),
        (WORK, CUT + 1, 15),
        (WORK + 1, 0, 15),
    ];
    for (work_size, cut_size, number) in sizes {
        for text in [ROBUST, BROKEN, REFUSED, NO_BEGIN, NO_BYTES] {
            let (mut work, mut cut) = (vec![7; work_size], vec![7; cut_size]);
            assert_eq!(judge_with(&session(text), &mut work, &mut cut), refused(number, 0));
            assert!(work.iter().chain(&cut).all(|&number| number == 7));
        }
    }
}

#[test]
fn the_order_query_clears_the_work_area() {
    let stores = "B1.1.2 I0.0 I0.1";
    let rows = [
        (stores, 1, 2, Ok(Order::Before)),
        (stores, 0, 1, refused(16, 0)),
        (stores, 1, 3, refused(16, 0)),
        (NO_BEGIN, 1, 2, refused(1, 0)),
        (NO_BYTES, 0, 0, refused(1, 0)),
        (NO_BYTES, 1, 2, refused(1, 0)),
        (NO_BYTES, u16::MAX, u16::MAX, refused(1, 0)),
    ];
    for (text, first, second, expected) in rows {
        let trace = session(text);
        let mut work = vec![7; WORK + 3];
        assert_eq!(order_with(&trace, &mut work, first, second), expected);
        assert!(work[..WORK].iter().all(|&number| number == 0));
        assert_eq!(work[WORK..], [7, 7, 7]);
        let mut small = vec![7; WORK - 1];
        assert_eq!(order_with(&trace, &mut small, first, second), refused(14, 0));
        assert!(small.iter().all(|&number| number == 7));
    }
}

#[test]
fn the_numbers_of_an_answer() {
    let rows: [(&str, &[u16], &[u16]); 9] = [
        (ROBUST, &[0, 0, 1, 7, 50, 0, 0, 0, 0], &[0; 17]),
        (BROKEN, &[0, 0, 2, 5, 0, 5, 1, 1, 1], &[0; 17]),
        (AT_CLOSE, &[0, 0, 2, 7, 0, 7, 1, 1, 1], &[0; 17]),
        (OUTCOME, &[19, 2, 0, 0, 0, 0, 0, 0, 0], &[0; 17]),
        (REFUSED, &[9, 3, 0, 0, 0, 0, 0, 0, 0], &[0; 17]),
        (NO_BEGIN, &[1, 0, 0, 0, 0, 0, 0, 0, 0], &[0; 17]),
        (NO_BYTES, &[0, 0, 1, 0, 100, 0, 0, 0, 0], &[0; 17]),
        (IMPOSSIBLE, &[0, 0, 2, 8, 0, 8, 1, 4, 3], &[0; 17]),
        (FLUSH, &[0, 0, 2, 8, 0, 8, 1, 4, 2], &[1, 0, 0, 4, 4, 0, 0, 0, 0, 0, 0, 0, 0, 0, 0, 0, 0]),
    ];
    for (text, front, windows) in rows {
        let answer = ffi::judge(&session(text), &mut vec![7; WORK], &mut [7; CUT]);
        assert_eq!(answer, *[front, windows].concat(), "{text}");
    }
    assert_eq!(ffi::order(&[], &mut vec![7; WORK], 1, 2), [1, 0, 0]);
}

#[test]
fn one_judge_serves_many_traces() {
    let mut kept = Judge::default();
    for text in [ROBUST, NO_BYTES, BROKEN, NO_BYTES, NO_BYTES, FLUSH, IMPOSSIBLE, REFUSED, NO_BYTES, ROBUST, "B1.1.1"] {
        let trace = session(text);
        assert_eq!(kept.judge(&trace), judge(&trace));
        assert_eq!(kept.order(&trace, 1, 1), order(&trace, 1, 1));
    }
    let trace = session(BROKEN);
    let expected = "events 5 / verdict broken / load 5 / missing 1 / observed 1 / kind contradiction";
    assert_eq!(lines(&trace, &kept.judge(&trace)), expected);
}

#[test]
fn empty_slices() {
    assert_eq!(judge(&[]), Ok(Verdict::Robust { events: 0, share: 100, cut: [0; CUT] }));
    assert_eq!(judge_with(&[], &mut [], &mut []), refused(14, 0));
    assert_eq!(judge_with(&[], &mut vec![7; WORK], &mut []), refused(15, 0));
    assert_eq!(order(&[], 0, 0), refused(1, 0));
    assert_eq!(order_with(&[], &mut [], 0, 0), refused(14, 0));
    assert_eq!(read_at(&[], 0), refused(1, 0));
    assert_eq!(frame(&[], 0), None);
    assert_eq!(write(&Event::Crash, &mut []), refused(17, 0));
}

#[test]
fn reading() {
    let trace = session("B1.2.3 L65535.65535<65535 C0 x0000");
    let begin = Event::Begin { version: 1, threads: 2, locations: 3 };
    assert_eq!(read_at(&trace, 0), Ok((begin, 10)));
    assert_eq!(read_at(&trace, 10), Ok((Event::Load { thread: 65535, location: 65535, source: 65535 }, 20)));
    assert_eq!(read_at(&trace, 20), Ok((Event::Commit { thread: 0 }, 26)));
    assert_eq!(read_at(&trace, 26), refused(4, 0));
    assert_eq!(read_at(&trace, 27), refused(2, 0));
    for past in [28, 29, usize::MAX] {
        assert_eq!(read_at(&trace, past), refused(1, 0));
    }
    assert_eq!(read_at(&session("x02006300"), 0), refused(3, 0));
    assert_eq!(read_at(&session("x080001"), 0), refused(2, 0));
}

#[test]
fn writing() {
    let mut output = [0xaa; 6];
    assert_eq!(write(&Event::Crash, &mut output[..3]), refused(17, 0));
    assert_eq!(output, [0xaa; 6]);
    assert_eq!(write(&Event::Crash, &mut output), Ok(4));
    assert_eq!(output, [2, 0, 9, 0, 0xaa, 0xaa]);
}

#[test]
fn each_kind_reads_back() {
    let words = "B1.2.3 I4.5 C6 L7.8<9 F10.11 O12.13 SF14 MF15 X SKIP16 UNSKIP17 R18.19<20 S21 W22<23 O24 K25.26";
    let trace = session(words);
    let mut at = 0;
    for number in 0..words.split(' ').count() {
        let (event, next) = read_at(&trace, at).unwrap();
        let mut output = [0; LARGEST_RECORD];
        assert_eq!(write(&event, &mut output), Ok(next - at));
        assert_eq!(output[..next - at], trace[at..next]);
        assert_eq!(frame(&trace, number), Some(&trace[at..next]));
        assert_eq!(write(&event, &mut output[..next - at - 1]), refused(17, 0));
        at = next;
    }
    assert_eq!(at, trace.len());
}

#[test]
fn the_numbers_of_an_open_and_a_close() {
    let trace = session("O7 K8.9");
    assert_eq!(ffi::read(&trace, 0), (6, [0, 15, 0, 0, 0, 7, 0, 0, 0]));
    assert_eq!(ffi::read(&trace, 6), (14, [0, 16, 0, 0, 0, 8, 0, 0, 9]));
}

#[test]
fn framing() {
    let trace = session("B1.1.2 C0 X x0300630000 x01");
    assert_eq!(frame(&trace, 1), Some(&trace[10..16]));
    assert_eq!(frame(&trace, 3), Some(&trace[20..25]));
    for past in [4, 5, 100, usize::MAX] {
        assert_eq!(frame(&trace, past), None);
    }
    assert_eq!(frame(&session("x0100 B1.1.2"), 1), None);
    assert_eq!(frame(&session("x0100 B1.1.2"), 0), None);
    let ended = session("B1.1.2 x0100");
    assert_eq!(frame(&ended, 0), Some(&ended[..10]));
}

#[test]
fn the_interface_refuses_an_unknown_kind() {
    for kind in [0, 17, 265, u16::MAX] {
        let mut record = [0, kind, 1, 2, 3, 4, 5, 6, 7];
        let mut output = [0xaa; LARGEST_RECORD];
        assert_eq!(ffi::write(&mut record, &mut output), 0);
        assert_eq!(record, [3, kind, 1, 2, 3, 4, 5, 6, 7]);
        assert_eq!(output, [0xaa; LARGEST_RECORD]);
    }
}
