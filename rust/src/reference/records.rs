//! Records of a trace. "The record layer knows nothing of threads or crashes"; of versions it knows which kinds they
//! have.

use crate::types::{Event, Refusal};

/// "Kinds and their lengths are one fixed table": the length of kind k stands at k - 1.
const LENGTHS: [u16; 16] = [8, 6, 4, 8, 6, 6, 4, 4, 2, 4, 4, 8, 4, 6, 4, 6];

/// Document 02, job 7: "Version 2 of the begin record admits kind 15 [...] and kind 16". The largest kind that a record
/// behind the first may have.
fn last_kind(version: u16) -> u16 {
    if version == 1 {
        14
    } else {
        16
    }
}

/// "Little-endian." The two-byte number at a position.
fn number(bytes: &[u8], at: usize) -> u16 {
    u16::from(bytes[at]) + 256 * u16::from(bytes[at + 1])
}

/// "A record is a two-byte length (of all that follows it), a two-byte kind, and two-byte fields." Gives the first
/// record of the bytes, length bytes included, or the refusal: "length under 2, 2".
fn framed(bytes: &[u8]) -> Result<&[u8], u16> {
    if bytes.len() < 2 {
        return Err(2);
    }
    let length = number(bytes, 0);
    if length < 2 {
        return Err(4);
    }
    bytes.get(..2 + usize::from(length)).ok_or(2)
}

/// The event of a framed record that may have the kinds 1 to `last`, or the refusal: "3, wrong length".
fn decoded(record: &[u8], last: u16) -> Result<Event, u16> {
    let kind = number(record, 2);
    if kind == 0 || kind > last {
        return Err(3);
    }
    if number(record, 0) != LENGTHS[usize::from(kind) - 1] {
        return Err(4);
    }
    let field = |place: usize| number(record, 4 + 2 * place);
    Ok(match kind {
        1 => Event::Begin { version: field(0), threads: field(1), locations: field(2) },
        2 => Event::Issue { thread: field(0), location: field(1) },
        3 => Event::Commit { thread: field(0) },
        4 => Event::Load { thread: field(0), location: field(1), source: field(2) },
        5 => Event::Clflush { thread: field(0), location: field(1) },
        6 => Event::Clwb { thread: field(0), location: field(1) },
        7 => Event::Sfence { thread: field(0) },
        8 => Event::Mfence { thread: field(0) },
        9 => Event::Crash,
        10 => Event::SkipOn { thread: field(0) },
        11 => Event::SkipOff { thread: field(0) },
        12 => Event::Locked { thread: field(0), location: field(1), source: field(2) },
        13 => Event::Signal { thread: field(0) },
        14 => Event::Wait { thread: field(0), source: field(1) },
        15 => Event::Open { thread: field(0) },
        _ => Event::Close { thread: field(0), outcome: field(1) },
    })
}

/// "Reading one record alone, the first of the bytes given, ignores what follows it and gives its event, or 1 (no
/// bytes), 2, 3 or 4, with event 0." The bytes given are those from a position on; also gives the position past it.
/// Document 02, job 6, on empty bytes: "Other calls still turn it away." Job 7 on kinds 15 and 16: "Read alone, or as a
/// trace's first record, the two kinds are known".
///
/// # Errors
///
/// The refusal, with event 0.
pub fn read_at(trace: &[u8], at: usize) -> Result<(Event, usize), Refusal> {
    read_kinds(trace, at, last_kind(2)).map_err(|number| Refusal { number, event: 0 })
}

/// The record at a position of a trace, behind its first one. Document 02, job 7, on kinds 15 and 16: "later in a
/// version 1 trace they get 3, ahead of a wrong length."
pub fn read_later(trace: &[u8], at: usize, version: u16) -> Result<(Event, usize), u16> {
    read_kinds(trace, at, last_kind(version))
}

/// The record at a position, which may have the kinds 1 to `last`, or its refusal.
fn read_kinds(trace: &[u8], at: usize, last: u16) -> Result<(Event, usize), u16> {
    let bytes = trace.get(at..).unwrap_or(&[]);
    if bytes.is_empty() {
        return Err(1);
    }
    let record = framed(bytes)?;
    Ok((decoded(record, last)?, at + record.len()))
}

/// "A call returns record number e as a part of the caller's trace, length bytes included; it returns an empty part
/// exactly if records 0 to e cannot all be framed (a length under 2, or bytes missing)." The empty part is `None` here.
/// Of no bytes, record 0 cannot be framed; document 02, job 6: "Other calls still turn it away."
#[must_use]
pub fn frame(trace: &[u8], e: usize) -> Option<&[u8]> {
    let mut rest = trace;
    for _ in 0..e {
        let record = framed(rest).ok()?;
        rest = &rest[record.len()..];
    }
    framed(rest).ok()
}

/// "Writing takes all field values from 0 to 65,535, since ranges are the judge's matter, and refuses only with 17."
/// "Writing fills the record's bytes and no others." Gives the number of bytes written.
///
/// # Errors
///
/// 17, "output shorter than the record"; it carries 0.
pub fn write(event: &Event, output: &mut [u8]) -> Result<usize, Refusal> {
    let (kind, fields) = fields_of(event);
    let length = LENGTHS[usize::from(kind) - 1];
    let size = 2 + usize::from(length);
    if output.len() < size {
        return Err(Refusal { number: 17, event: 0 });
    }
    let numbers = [length, kind, fields[0], fields[1], fields[2]];
    let bytes = numbers.into_iter().flat_map(|number| [(number % 256) as u8, (number / 256) as u8]);
    output[..size].iter_mut().zip(bytes).for_each(|(place, byte)| *place = byte);
    Ok(size)
}

/// An event's kind and its fields in the order of the table; what the kind does not have is 0.
fn fields_of(event: &Event) -> (u16, [u16; 3]) {
    match *event {
        Event::Begin { version, threads, locations } => (1, [version, threads, locations]),
        Event::Issue { thread, location } => (2, [thread, location, 0]),
        Event::Commit { thread } => (3, [thread, 0, 0]),
        Event::Load { thread, location, source } => (4, [thread, location, source]),
        Event::Clflush { thread, location } => (5, [thread, location, 0]),
        Event::Clwb { thread, location } => (6, [thread, location, 0]),
        Event::Sfence { thread } => (7, [thread, 0, 0]),
        Event::Mfence { thread } => (8, [thread, 0, 0]),
        Event::Crash => (9, [0, 0, 0]),
        Event::SkipOn { thread } => (10, [thread, 0, 0]),
        Event::SkipOff { thread } => (11, [thread, 0, 0]),
        Event::Locked { thread, location, source } => (12, [thread, location, source]),
        Event::Signal { thread } => (13, [thread, 0, 0]),
        Event::Wait { thread, source } => (14, [thread, source, 0]),
        Event::Open { thread } => (15, [thread, 0, 0]),
        Event::Close { thread, outcome } => (16, [thread, outcome, 0]),
    }
}

#[cfg(test)]
mod tests {
    use super::*;

    fn refused<T>(number: u16) -> Result<T, Refusal> {
        Err(Refusal { number, event: 0 })
    }

    #[test]
    fn refusals_of_records_in_their_order() {
        assert_eq!(read_at(&[], 0), refused(1));
        assert_eq!(read_at(&[1], 0), refused(2));
        assert_eq!(read_at(&[1, 0], 0), refused(4));
        assert_eq!(read_at(&[4, 0, 99, 0], 0), refused(2));
        assert_eq!(read_at(&[3, 0, 99, 0, 0], 0), refused(3));
        assert_eq!(read_at(&[3, 0, 9, 0, 0], 0), refused(4));
        assert_eq!(read_at(&[2, 0, 9, 0, 0], 0), Ok((Event::Crash, 4)));
    }

    #[test]
    fn kinds_15_and_16_are_unknown_behind_a_begin_of_version_1() {
        let (open, close) = ([4, 0, 15, 0, 2, 0], [6, 0, 16, 0, 3, 0, 1, 0]);
        let events = [Event::Open { thread: 2 }, Event::Close { thread: 3, outcome: 1 }];
        for (record, event) in [&open[..], &close].into_iter().zip(events) {
            let read = (event, record.len());
            assert_eq!((read_at(record, 0), read_later(record, 0, 2)), (Ok(read), Ok(read)));
            assert_eq!(read_later(record, 0, 1), Err(3));
            let wrong = [&[3, 0], &record[2..5]].concat();
            assert_eq!((read_at(&wrong, 0), read_later(&wrong, 0, 2)), (refused(4), Err(4)));
            assert_eq!(read_later(&wrong, 0, 1), Err(3));
            assert_eq!(read_later(&record[..3], 0, 1), Err(2));
        }
    }

    #[test]
    fn writing_and_framing() {
        let mut output = [170; 7];
        assert_eq!(write(&Event::Sfence { thread: 513 }, &mut output[..5]), refused(17));
        assert_eq!(write(&Event::Sfence { thread: 513 }, &mut output), Ok(6));
        assert_eq!(output, [4, 0, 7, 0, 1, 2, 170]);
        assert_eq!(frame(&output, 0), Some(&output[..6]));
        assert_eq!(frame(&output, 1), None);
        assert_eq!(frame(&[], 0), None);
    }
}
