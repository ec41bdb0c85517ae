//! The plain data types that the wrapper and the judges written in Rust have in common.

/// The least number of two-byte numbers of a work area.
pub const WORK: usize = 32_768;

/// The number of two-byte numbers of a cut buffer.
pub const CUT: usize = 56;

/// The most threads of a trace.
pub const THREADS: usize = 8;

/// The number of bytes of the largest record, its length bytes included.
pub const LARGEST_RECORD: usize = 10;

/// The numbers of the refusals over the records of a trace.
pub const REFUSALS: [u16; 15] = [1, 2, 3, 4, 5, 6, 7, 8, 9, 10, 11, 12, 13, 18, 19];

/// What the judge says of an accepted trace. No bytes are one with no events: robust, with a share of 100 and a cut of
/// zeros.
#[derive(Clone, Copy, Debug, PartialEq, Eq)]
pub enum Verdict {
    /// A closed choice of crash points explains all counted loads.
    Robust {
        /// The number of events after the begin; of no bytes 0.
        events: u16,
        /// The percentage of the stores committed in finished stretches that are in the least choice, rounded down; 100
        /// if there are none.
        share: u16,
        /// The least choice: the count of stretch j (from 1), thread t (from 0) stands at 8 * (j - 1) + t.
        cut: [u16; CUT],
    },
    /// No closed choice of crash points explains all counted loads.
    Broken {
        /// The number of events after the begin.
        events: u16,
        /// The smallest event number for which the records up to it have no such choice either: that of a load, of a
        /// locked operation, or of a close, as of which all loads that it counts do.
        load: u16,
        /// The event number of the smallest store that a counted load forbids and that must be in.
        missing: u16,
        /// The event number of the smallest store that a counted load observes and that `missing` is or happens before.
        observed: u16,
        /// Whether the two stores are one, or two on one cache line; if neither, where the flush may go.
        kind: Kind,
    },
}

/// The three kinds of broken traces.
#[derive(Clone, Copy, Debug, PartialEq, Eq)]
pub enum Kind {
    /// One store is forbidden and observed.
    Contradiction,
    /// The forbidden store happens before the observed one, and they are on two cache lines.
    Flush(Windows),
    /// The forbidden store happens before the observed one, and both are on one cache line, whose stores reach memory
    /// in commit order: no flush between them is missing.
    Impossible,
}

/// Where the line of the missing store may be flushed.
#[derive(Clone, Copy, Debug, PartialEq, Eq)]
pub struct Windows {
    /// The thread of the missing store. It may have no window itself.
    pub primary: u16,
    /// The window of each thread, if it has one.
    pub threads: [Option<Window>; THREADS],
}

/// The records in front of which a thread may flush: from the first to the last, both included.
#[derive(Clone, Copy, Debug, PartialEq, Eq)]
pub struct Window {
    /// The event number of the first record.
    pub first: u16,
    /// The event number of the last record, not below `first`.
    pub last: u16,
}

/// Why a trace, a call or a record is turned away.
#[derive(Clone, Copy, Debug, PartialEq, Eq)]
pub struct Refusal {
    /// The number of the refusal, 1 to 19. In judging, 1 is for bytes that begin with another record than a begin; the
    /// order query gives it for no bytes too, and reading for these alone.
    pub number: u16,
    /// The number of the event that is turned away; 0 for the refusals 14 to 17.
    pub event: u16,
}

/// How the first of two stores stands to the second by happens-before.
#[derive(Clone, Copy, Debug, PartialEq, Eq)]
pub enum Order {
    /// The first happens before the second.
    Before,
    /// The second happens before the first.
    After,
    /// The two are one store.
    Same,
    /// Neither happens before the other.
    Neither,
}

/// One record of a trace.
#[derive(Clone, Copy, Debug, PartialEq, Eq)]
pub enum Event {
    /// Kind 1, the first record of a trace.
    Begin {
        /// The version of the format: 1, or 2, which admits [`Event::Open`] and [`Event::Close`].
        version: u16,
        /// The number of threads.
        threads: u16,
        /// The number of locations.
        locations: u16,
    },
    /// Kind 2: a store joins the queue of its thread.
    Issue {
        /// The thread that issues.
        thread: u16,
        /// The location that is stored to.
        location: u16,
    },
    /// Kind 3: the oldest waiting store of the thread takes effect.
    Commit {
        /// The thread whose store it is.
        thread: u16,
    },
    /// Kind 4: a load that read what a store, or the time before the trace, has left.
    Load {
        /// The thread that loads.
        thread: u16,
        /// The location that is loaded.
        location: u16,
        /// The event number of the issue of the store that was read, or 0.
        source: u16,
    },
    /// Kind 5: a clflush.
    Clflush {
        /// The thread that flushes.
        thread: u16,
        /// The location that is flushed.
        location: u16,
    },
    /// Kind 6: a clflushopt or a clwb.
    Clwb {
        /// The thread that flushes.
        thread: u16,
        /// The location that is flushed.
        location: u16,
    },
    /// Kind 7: an sfence.
    Sfence {
        /// The thread that fences.
        thread: u16,
    },
    /// Kind 8: an mfence.
    Mfence {
        /// The thread that fences.
        thread: u16,
    },
    /// Kind 9: a crash of all threads.
    Crash,
    /// Kind 10: from here on crossing loads of the thread are not counted.
    SkipOn {
        /// The thread that skips.
        thread: u16,
    },
    /// Kind 11: from here on crossing loads of the thread are counted again.
    SkipOff {
        /// The thread that skips no more.
        thread: u16,
    },
    /// Kind 12: a locked operation, such as a compare-and-swap. It is a load, the issue of a store to the same location
    /// and its commit, with nothing between; the store has this record's event number.
    Locked {
        /// The thread that loads and stores, which has no waiting store.
        thread: u16,
        /// The location that is loaded and stored to.
        location: u16,
        /// The source of the load: the event number of the issue of the store that was read, or 0.
        source: u16,
    },
    /// Kind 13: the thread hands over what it has stored and seen, to each thread that waits for this signal.
    Signal {
        /// The thread that signals, which has no waiting store.
        thread: u16,
    },
    /// Kind 14: what a signal hands over happens before all stores that the thread issues from here on in the stretch.
    Wait {
        /// The thread that waits.
        thread: u16,
        /// The event number of the signal, which is earlier in the same stretch.
        source: u16,
    },
    /// Kind 15, of version 2: from here on crossing loads of the thread are held, but for those in a skip.
    Open {
        /// The thread whose loads are under a checksum.
        thread: u16,
    },
    /// Kind 16, of version 2: the loads that the thread has held since its open count from here on, or are dropped.
    Close {
        /// The thread, which is open.
        thread: u16,
        /// 1 if the checksum was right: the loads count. 0 if not: they are dropped.
        outcome: u16,
    },
}
