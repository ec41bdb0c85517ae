//! The C interface of the proved library, call by call. This is the only module with unsafe code.
//!
//! Each function here takes slices, so the pointers that reach the library are never NULL, not even those of no bytes,
//! are aligned, and do not overlap where something is written. The answers are the numbers of `include/gorbuzte.h`, as
//! they come.

/// The number of numbers of an answer to [`judge`].
pub const ANSWER: usize = 26;

/// The number of numbers of a record.
pub const RECORD: usize = 9;

extern "C" {
    fn gorbuzte_judge(
        trace: *const u8,
        trace_len: usize,
        work: *mut u16,
        work_len: usize,
        cut: *mut u16,
        cut_len: usize,
        answer: *mut u16,
    );
    fn gorbuzte_order(
        trace: *const u8,
        trace_len: usize,
        work: *mut u16,
        work_len: usize,
        first: u16,
        second: u16,
        answer: *mut u16,
    );
    fn gorbuzte_read(trace: *const u8, trace_len: usize, at: usize, record: *mut u16) -> usize;
    fn gorbuzte_write(record: *mut u16, output: *mut u8, output_len: usize) -> usize;
    fn gorbuzte_frame(trace: *const u8, trace_len: usize, e: usize, place: *mut usize);
}

/// Judges a trace. The answer is: refusal, its event, verdict (1 robust, 2 broken), events, share, load, missing,
/// observed, kind (1 contradiction, 2 flush, 3 impossible), primary thread + 1, then for each of eight threads the
/// first and the last place of its window; what the verdict does not have is 0. No bytes are robust: of their answer
/// only verdict and share, 100, are not 0.
pub fn judge(trace: &[u8], work: &mut [u16], cut: &mut [u16]) -> [u16; ANSWER] {
    let mut answer = [0; ANSWER];
    // SAFETY: each pointer and length is of a slice or an array of the size that the header names; the three that are
    // written to are borrowed exclusively, so no two overlap.
    unsafe {
        gorbuzte_judge(
            trace.as_ptr(),
            trace.len(),
            work.as_mut_ptr(),
            work.len(),
            cut.as_mut_ptr(),
            cut.len(),
            answer.as_mut_ptr(),
        );
    }
    answer
}

/// How two stores stand. The answer is: refusal, its event, standing (1 before, 2 after, 3 same, 4 neither). No bytes
/// are refused with 1.
pub fn order(trace: &[u8], work: &mut [u16], first: u16, second: u16) -> [u16; 3] {
    let mut answer = [0; 3];
    // SAFETY: as in `judge`.
    unsafe {
        gorbuzte_order(trace.as_ptr(), trace.len(), work.as_mut_ptr(), work.len(), first, second, answer.as_mut_ptr());
    }
    answer
}

/// Reads the record at a position. Gives the position past it, 0 if it is refused, and its numbers: refusal, kind,
/// version, threads, locations, thread, location, source, outcome; what its kind does not have is 0.
pub fn read(trace: &[u8], at: usize) -> (usize, [u16; RECORD]) {
    let mut record = [0; RECORD];
    // SAFETY: the trace is a slice, and the record an array of the size that the header names.
    let next = unsafe { gorbuzte_read(trace.as_ptr(), trace.len(), at, record.as_mut_ptr()) };
    (next, record)
}

/// Writes a record to the start of the output. Gives its size, 0 if it is refused; of the record only the refusal
/// changes.
pub fn write(record: &mut [u16; RECORD], output: &mut [u8]) -> usize {
    // SAFETY: the record is an array of the size that the header names, and the output a slice; both are borrowed
    // exclusively.
    unsafe { gorbuzte_write(record.as_mut_ptr(), output.as_mut_ptr(), output.len()) }
}

/// The position of record number e in a trace and its size, length bytes included; the size is 0 exactly if the records
/// 0 to e cannot all be framed.
pub fn frame(trace: &[u8], e: usize) -> [usize; 2] {
    let mut place = [0; 2];
    // SAFETY: the trace is a slice, and the place an array of the size that the header names.
    unsafe { gorbuzte_frame(trace.as_ptr(), trace.len(), e, place.as_mut_ptr()) };
    place
}
