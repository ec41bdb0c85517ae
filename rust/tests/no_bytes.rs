//! A recorder that never started, document 02, job 6: sessions with the answers that follow from its words, given to
//! all four ways of judging. "For judging, empty bytes mean a trace with no events: robust, all-zero cut, share 100,
//! `events 0`. Other calls still turn it away. Answers: 1 in judging only for bytes that begin with some other record."

mod common;

use common::{session, Expected, OrderRow, Row};
use gorbuzte::fast::Fast;
use gorbuzte::{frame, read_at, reference, Judge, Refusal, Verdict, CUT};

/// No bytes, and the accepted traces closest to them. There is "one cut line per finished stretch": of no bytes, and of
/// a trace without a crash, none.
const ACCEPTED: &[Row] = &[
    ("no bytes: robust, share 100, no events", "", "events 0 / verdict robust / share 100"),
    ("a begin alone has no events behind it", "B1.1.2", "events 0 / verdict robust / share 100"),
    ("nor has one of version 2", "B2.1.2", "events 0 / verdict robust / share 100"),
    ("nor has the smallest begin", "B1.1.1", "events 0 / verdict robust / share 100"),
    ("nor the largest", "B1.8.256", "events 0 / verdict robust / share 100"),
    ("a crash behind a begin finishes a stretch", "B1.1.2 X", "events 1 / verdict robust / cut 1 0 / share 100"),
    ("a load of what was there before the trace", "B1.1.1 L0.0<0", "events 1 / verdict robust / share 100"),
];

/// Bytes that are not empty and end inside the first record: 2, at event 0.
const MISSING: &[Row] = &[
    ("byte 00 is half a length", "x00", "refused 2 0"),
    ("byte 01 is half a length, be that under 2 or not", "x01", "refused 2 0"),
    ("byte 02 is half a length", "x02", "refused 2 0"),
    ("byte 08 is half a begin's length", "x08", "refused 2 0"),
    ("byte ff is half a length", "xff", "refused 2 0"),
    ("length 2 with nothing behind: the kind is missing", "x0200", "refused 2 0"),
    ("length 8 with nothing behind", "x0800", "refused 2 0"),
    ("length 65,535 with nothing behind", "xffff", "refused 2 0"),
    ("half a kind behind a begin's length: document 01's example", "x080001", "refused 2 0"),
    ("half a kind behind a crash's length", "x020009", "refused 2 0"),
    ("a begin's length and kind, and no field", "x08000100", "refused 2 0"),
    ("a begin without its last byte", "x080001000100010002", "refused 2 0"),
    ("2 before 3: kind 99, and six bytes missing", "x08006300", "refused 2 0"),
    ("2 before wrong length: a crash of length 4, its field missing", "x04000900", "refused 2 0"),
    ("2 before 1: an issue without its location", "x060002000000", "refused 2 0"),
    ("2 before 6: a begin with 9 threads, its locations missing", "x0800010001000900", "refused 2 0"),
];

/// A first record of a length under 2, or one that is wrong for its kind: 4, at event 0.
const LENGTHS: &[Row] = &[
    ("length 0 with nothing behind: length under 2 comes first", "x0000", "refused 4 0"),
    ("length 1 with nothing behind", "x0100", "refused 4 0"),
    ("length 0 and one more byte", "x000000", "refused 4 0"),
    ("length 1 and the one byte that it asks for", "x010009", "refused 4 0"),
    ("length 0, though a begin follows", "x0000 B1.1.2", "refused 4 0"),
    ("length under 2 before 3: kind 99", "x01006300", "refused 4 0"),
    ("a begin of length 2", "x02000100", "refused 4 0"),
    ("a begin of length 6, without locations", "x0600010001000100", "refused 4 0"),
    ("a begin of length 10, with a fourth field", "x0a0001000100010002000000", "refused 4 0"),
    ("4 before 1: a crash of length 4", "x040009000000", "refused 4 0"),
    ("4 before 1: a crash of odd length", "x0300090000", "refused 4 0"),
    ("4 before 1: a commit of length 2, with a begin behind it", "x02000300 B1.1.2", "refused 4 0"),
    ("4 before 6: a begin of length 6 with 9 threads", "x0600010001000900", "refused 4 0"),
];

/// A first record of an unknown kind: 3, at event 0, ahead of a wrong length and of 1.
const UNKNOWN: &[Row] = &[
    ("kind 0", "x02000000", "refused 3 0"),
    ("kind 17, the first behind those that there are", "x02001100", "refused 3 0"),
    ("kind 99", "x02006300", "refused 3 0"),
    ("kind 256 + 1, whose lower byte is a begin's", "x08000101010001000200", "refused 3 0"),
    ("kind 256 + 9, whose lower byte is a crash's", "x02000901", "refused 3 0"),
    ("kind 65,535", "x0200ffff", "refused 3 0"),
    ("kind 99 with an odd length", "x0300630000", "refused 3 0"),
    ("kind 99, with a begin behind it", "x02006300 B1.1.2", "refused 3 0"),
];

/// "1 in judging only for bytes that begin with some other record": each kind but a begin, alone and with a begin
/// behind it, and ahead of all that comes behind 1.
const OTHERS: &[Row] = &[
    ("an issue is another record", "I0.0", "refused 1 0"),
    ("a commit is", "C0", "refused 1 0"),
    ("a load is", "L0.0<0", "refused 1 0"),
    ("a clflush is", "F0.0", "refused 1 0"),
    ("a clflushopt or clwb is", "O0.0", "refused 1 0"),
    ("an sfence is", "SF0", "refused 1 0"),
    ("an mfence is", "MF0", "refused 1 0"),
    ("a crash is", "X", "refused 1 0"),
    ("a skip on is", "SKIP0", "refused 1 0"),
    ("a skip off is", "UNSKIP0", "refused 1 0"),
    ("a locked operation is", "R0.0<0", "refused 1 0"),
    ("a signal is", "S0", "refused 1 0"),
    ("a wait is", "W0<0", "refused 1 0"),
    ("an open is", "O0", "refused 1 0"),
    ("a close is", "K0.0", "refused 1 0"),
    ("a begin behind an issue is not the first record", "I0.0 B1.1.2", "refused 1 0"),
    ("nor behind a commit", "C0 B1.1.2", "refused 1 0"),
    ("nor behind a load", "L0.0<0 B1.1.2", "refused 1 0"),
    ("nor behind a clflush", "F0.0 B1.1.2", "refused 1 0"),
    ("nor behind a clflushopt or clwb", "O0.0 B1.1.2", "refused 1 0"),
    ("nor behind an sfence", "SF0 B1.1.2", "refused 1 0"),
    ("nor behind an mfence", "MF0 B1.1.2", "refused 1 0"),
    ("nor behind a crash", "X B1.1.2", "refused 1 0"),
    ("nor behind a skip on", "SKIP0 B1.1.2", "refused 1 0"),
    ("nor behind a skip off", "UNSKIP0 B1.1.2", "refused 1 0"),
    ("nor behind a locked operation", "R0.0<0 B1.1.2", "refused 1 0"),
    ("nor behind a signal", "S0 B1.1.2", "refused 1 0"),
    ("nor behind a wait", "W0<0 B1.1.2", "refused 1 0"),
    ("nor behind an open", "O0 B2.1.2", "refused 1 0"),
    ("nor behind a close", "K0.0 B2.1.2", "refused 1 0"),
    ("1 ahead of what follows: the next record cannot be read", "SF0 x0000", "refused 1 0"),
    ("1 before 13: the first of 8 crashes", "8*X", "refused 1 0"),
    ("1 before 7, 8 and 9: no such thread, location or source", "L9.300<7", "refused 1 0"),
    ("the largest fields are still some other record's", "I65535.65535", "refused 1 0"),
];

/// A first record that is a begin: 6 if a field is out of range, and refusals of later records carry their numbers.
const BEGINS: &[Row] = &[
    ("version 0", "B0.1.2", "refused 6 0"),
    ("version 3", "B3.1.2", "refused 6 0"),
    ("no threads", "B1.0.2", "refused 6 0"),
    ("9 threads", "B1.9.2", "refused 6 0"),
    ("no locations", "B1.1.0", "refused 6 0"),
    ("257 locations", "B1.1.257", "refused 6 0"),
    ("a begin of all zeros is no trace with no events", "B0.0.0", "refused 6 0"),
    ("6 ahead of what follows: a byte that is no record", "B1.9.2 x00", "refused 6 0"),
    ("a byte behind a begin is half the length of event 1", "B1.1.2 x00", "refused 2 1"),
    ("a second begin is event 1", "B1.1.2 B1.1.2", "refused 5 1"),
];

const fn refused<T>(number: u16) -> Result<T, Refusal> {
    Err(Refusal { number, event: 0 })
}

/// Order queries: trace, the two numbers, the answer. "Other calls still turn it away": on no bytes that is 1, whatever
/// the numbers, since 16 comes behind the refusals over records. A begin alone is no issue, and nothing follows it: 16.
const ORDERS: &[OrderRow] = &[
    ("", 0, 0, refused(1)),
    ("", 0, 1, refused(1)),
    ("", 1, 0, refused(1)),
    ("", 1, 1, refused(1)),
    ("", 1, 2, refused(1)),
    ("", 2_048, 2_049, refused(1)),
    ("", 65_535, 65_535, refused(1)),
    ("", 0, 65_535, refused(1)),
    ("B1.1.2", 0, 0, refused(16)),
    ("B1.1.2", 0, 1, refused(16)),
    ("B1.1.2", 1, 1, refused(16)),
    ("B1.1.2", 65_535, 65_535, refused(16)),
    ("x00", 0, 0, refused(2)),
    ("x0000", 0, 0, refused(4)),
    ("x02006300", 0, 0, refused(3)),
    ("X", 0, 0, refused(1)),
    ("I0.0", 0, 0, refused(1)),
    ("B1.9.2", 0, 0, refused(6)),
];

const EXPECTED: Expected =
    Expected { verdicts: &[ACCEPTED, MISSING, LENGTHS, UNKNOWN, OTHERS, BEGINS], windows: &[], orders: ORDERS };

/// "robust, all-zero cut, share 100, `events 0`"
const NO_EVENTS: Result<Verdict, Refusal> = Ok(Verdict::Robust { events: 0, share: 100, cut: [0; CUT] });

#[test]
fn the_library_judges_no_bytes() {
    EXPECTED.check_library();
    assert_eq!(Judge::new().judge(&[]), NO_EVENTS);
}

#[test]
fn the_other_judges_judge_no_bytes() {
    EXPECTED.check_others();
    assert_eq!(Fast::new().judge(&[]), NO_EVENTS);
    assert_eq!(reference::judge(&[]), NO_EVENTS);
    assert_eq!(reference::judge_by_all_choices(&[], 1), Some(NO_EVENTS));
}

/// Traces that leave something behind in a judge that keeps its tables: waiting and committed stores, skips, signals,
/// crashes, a cut, held loads, evidence.
const LEFT_BEHIND: &[&str] = &[
    "B1.2.9 I0.0 I1.8",
    "B1.2.9 I0.0 C0 S0 SKIP1",
    "B1.8.256 I7.255 C7 7*X L0.255<1",
    "B2.1.2 I0.0 C0 X O0 L0.0<1",
    "B1.1.2 I0.0 C0 X L0.0<1 L0.0<0",
    "B1.2.9 I0.0 C0 L1.0<1 I1.8 C1 X L0.0<0 L0.8<4",
    "B1.1.2 I0.0 X L0.0<1",
    "X",
    "x00",
];

/// "a trace with no events", whatever was judged before it; and it changes nothing for what is judged after it.
#[test]
fn no_bytes_between_other_traces() {
    let (mut judge, mut fast) = (Judge::new(), Fast::new());
    for text in LEFT_BEHIND {
        let trace = session(text);
        let expected = reference::judge(&trace);
        for _ in 0..2 {
            assert_eq!((judge.judge(&trace), fast.judge(&trace)), (expected, expected), "{text}");
            assert_eq!(fast.judge(&[]), NO_EVENTS, "fast judge, behind {text}");
            assert_eq!(judge.judge(&[]), NO_EVENTS, "library, behind {text}");
            assert_eq!(judge.order(&[], 1, 1), refused(1), "library, behind {text}");
        }
    }
}

/// "Other calls still turn it away": reading gives 1, and framing an empty part, which is `None` here.
#[test]
fn reading_and_framing_no_bytes() {
    for number in [0, 1, 2, 10, usize::MAX] {
        assert_eq!(read_at(&[], number), refused(1));
        assert_eq!(reference::read_at(&[], number), refused(1));
        assert_eq!(frame(&[], number), None);
        assert_eq!(reference::frame(&[], number), None);
    }
}
