//! Safe calls to the proved library, with answers as Rust types.

use crate::ffi;
use crate::types::{Event, Kind, Order, Refusal, Verdict, Window, Windows, CUT, THREADS, WORK};

/// Judges a trace. No bytes are a trace with no events, which is robust. Each call allocates a work area; [`Judge`]
/// keeps one for many calls.
///
/// # Errors
///
/// The refusal (1 to 13, 18 or 19) if the trace is not accepted; 1 is for bytes that begin with another record than a
/// begin.
pub fn judge(trace: &[u8]) -> Result<Verdict, Refusal> {
    Judge::new().judge(trace)
}

/// How the store that event `first` issues stands to that of event `second`, by happens-before. Each call allocates a
/// work area; [`Judge`] keeps one for many calls.
///
/// # Errors
///
/// The refusal (1 to 13, 18 or 19) if the trace is not accepted, 1 for no bytes too, or 16 if one of the numbers is no
/// issue's (kind 2 or 12).
pub fn order(trace: &[u8], first: u16, second: u16) -> Result<Order, Refusal> {
    Judge::new().order(trace, first, second)
}

/// A judge that owns its work area: its calls allocate nothing.
#[derive(Clone, Debug)]
pub struct Judge {
    work: Box<[u16]>,
    cut: [u16; CUT],
}

impl Default for Judge {
    fn default() -> Self {
        Self::new()
    }
}

impl Judge {
    /// A judge with a work area of its own.
    #[must_use]
    pub fn new() -> Self {
        Judge { work: vec![0; WORK].into_boxed_slice(), cut: [0; CUT] }
    }

    /// Judges a trace. No bytes are a trace with no events, which is robust.
    ///
    /// # Errors
    ///
    /// The refusal (1 to 13, 18 or 19) if the trace is not accepted.
    pub fn judge(&mut self, trace: &[u8]) -> Result<Verdict, Refusal> {
        judge_with(trace, &mut self.work, &mut self.cut)
    }

    /// How the store that event `first` issues stands to that of event `second`, by happens-before.
    ///
    /// # Errors
    ///
    /// The refusal (1 to 13, 18 or 19) if the trace is not accepted, 1 for no bytes too, or 16 if one of the numbers is
    /// no issue's (kind 2 or 12).
    pub fn order(&mut self, trace: &[u8], first: u16, second: u16) -> Result<Order, Refusal> {
        order_with(trace, &mut self.work, first, second)
    }
}

/// Judges a trace with the caller's buffers. A robust answer fills the cut buffer, that on no bytes with 0; any other
/// leaves it as it was. Afterwards the first [`WORK`] numbers of the work area are 0 and the others as they were.
///
/// # Errors
///
/// 14 if the work area is smaller than [`WORK`] numbers, 15 if the cut buffer is not [`CUT`] numbers (both change
/// nothing), or the refusal (1 to 13, 18 or 19) if the trace is not accepted.
pub fn judge_with(trace: &[u8], work: &mut [u16], cut: &mut [u16]) -> Result<Verdict, Refusal> {
    let [refusal, event, verdict, events, share, load, missing, observed, kind, primary, places @ ..] =
        ffi::judge(trace, work, cut);
    if refusal != 0 {
        return Err(Refusal { number: refusal, event });
    }
    match verdict {
        1 => {
            let cut = cut.try_into().expect("a robust answer has a cut buffer of 56 numbers");
            Ok(Verdict::Robust { events, share, cut })
        }
        2 => Ok(Verdict::Broken { events, load, missing, observed, kind: kind_of(kind, primary, &places) }),
        _ => unreachable!("no such verdict: {verdict}"),
    }
}

/// The order query with the caller's work area. Afterwards its first [`WORK`] numbers are 0 and the others as they
/// were.
///
/// # Errors
///
/// 14 if the work area is smaller than [`WORK`] numbers (it stays as it was then), the refusal (1 to 13, 18 or 19) if
/// the trace is not accepted, 1 for no bytes too, or 16 if one of the numbers is no issue's (kind 2 or 12).
pub fn order_with(trace: &[u8], work: &mut [u16], first: u16, second: u16) -> Result<Order, Refusal> {
    match ffi::order(trace, work, first, second) {
        [0, _, 1] => Ok(Order::Before),
        [0, _, 2] => Ok(Order::After),
        [0, _, 3] => Ok(Order::Same),
        [0, _, 4] => Ok(Order::Neither),
        [0, _, other] => unreachable!("no such standing: {other}"),
        [number, event, _] => Err(Refusal { number, event }),
    }
}

/// The event of the record that starts at a position, and the position past the record. It is read alone, so every kind
/// is known, those of version 2 too.
///
/// # Errors
///
/// 1 (no bytes there), 2, 3 or 4, always with event 0.
pub fn read_at(trace: &[u8], at: usize) -> Result<(Event, usize), Refusal> {
    let (next, record) = ffi::read(trace, at);
    match event_of(&record) {
        Some(event) if record[0] == 0 => Ok((event, next)),
        _ => Err(Refusal { number: record[0], event: 0 }),
    }
}

/// Writes the record of an event to the start of the output and gives its size. Other bytes stay as they were.
///
/// # Errors
///
/// 17 if the output is shorter than the record; the output stays as it was.
pub fn write(event: &Event, output: &mut [u8]) -> Result<usize, Refusal> {
    let mut record = record_of(event);
    match ffi::write(&mut record, output) {
        0 => Err(Refusal { number: record[0], event: 0 }),
        size => Ok(size),
    }
}

/// Record number e as a part of the trace, length bytes included; `None` exactly if the records 0 to e cannot all be
/// framed (a length under 2, or bytes missing), so of no bytes for each e.
#[must_use]
pub fn frame(trace: &[u8], e: usize) -> Option<&[u8]> {
    match ffi::frame(trace, e) {
        [_, 0] => None,
        [at, size] => Some(&trace[at..at + size]),
    }
}

/// The kind of a broken trace by its number, the number of its primary thread and the places of its windows.
fn kind_of(number: u16, primary: u16, places: &[u16; 2 * THREADS]) -> Kind {
    match number {
        1 => Kind::Contradiction,
        2 => Kind::Flush(Windows {
            primary: primary - 1,
            threads: std::array::from_fn(|thread| window_of(places[2 * thread], places[2 * thread + 1])),
        }),
        3 => Kind::Impossible,
        _ => unreachable!("no such kind: {number}"),
    }
}

/// The window of a thread by its places; 0 and 0 are none.
fn window_of(first: u16, last: u16) -> Option<Window> {
    (first != 0 || last != 0).then_some(Window { first, last })
}

/// The event of a record's numbers; `None` if the kind is no number from 1 to 16.
fn event_of(record: &[u16; ffi::RECORD]) -> Option<Event> {
    let [_, kind, version, threads, locations, thread, location, source, outcome] = *record;
    Some(match kind {
        1 => Event::Begin { version, threads, locations },
        2 => Event::Issue { thread, location },
        3 => Event::Commit { thread },
        4 => Event::Load { thread, location, source },
        5 => Event::Clflush { thread, location },
        6 => Event::Clwb { thread, location },
        7 => Event::Sfence { thread },
        8 => Event::Mfence { thread },
        9 => Event::Crash,
        10 => Event::SkipOn { thread },
        11 => Event::SkipOff { thread },
        12 => Event::Locked { thread, location, source },
        13 => Event::Signal { thread },
        14 => Event::Wait { thread, source },
        15 => Event::Open { thread },
        16 => Event::Close { thread, outcome },
        _ => return None,
    })
}

/// The numbers of an event's record.
pub(crate) fn record_of(event: &Event) -> [u16; ffi::RECORD] {
    match *event {
        Event::Begin { version, threads, locations } => [0, 1, version, threads, locations, 0, 0, 0, 0],
        Event::Issue { thread, location } => [0, 2, 0, 0, 0, thread, location, 0, 0],
        Event::Commit { thread } => [0, 3, 0, 0, 0, thread, 0, 0, 0],
        Event::Load { thread, location, source } => [0, 4, 0, 0, 0, thread, location, source, 0],
        Event::Clflush { thread, location } => [0, 5, 0, 0, 0, thread, location, 0, 0],
        Event::Clwb { thread, location } => [0, 6, 0, 0, 0, thread, location, 0, 0],
        Event::Sfence { thread } => [0, 7, 0, 0, 0, thread, 0, 0, 0],
        Event::Mfence { thread } => [0, 8, 0, 0, 0, thread, 0, 0, 0],
        Event::Crash => [0, 9, 0, 0, 0, 0, 0, 0, 0],
        Event::SkipOn { thread } => [0, 10, 0, 0, 0, thread, 0, 0, 0],
        Event::SkipOff { thread } => [0, 11, 0, 0, 0, thread, 0, 0, 0],
        Event::Locked { thread, location, source } => [0, 12, 0, 0, 0, thread, location, source, 0],
        Event::Signal { thread } => [0, 13, 0, 0, 0, thread, 0, 0, 0],
        Event::Wait { thread, source } => [0, 14, 0, 0, 0, thread, 0, source, 0],
        Event::Open { thread } => [0, 15, 0, 0, 0, thread, 0, 0, 0],
        Event::Close { thread, outcome } => [0, 16, 0, 0, 0, thread, 0, 0, outcome],
    }
}
