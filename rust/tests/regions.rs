//! What the generator reaches of loads under a checksum, document 02, job 7: each sort of region, and each refusal of
//! kinds 15 and 16. If it did not make one of them, a wrong judge would pass the comparison.

use gorbuzte::comparison::events_of;
use gorbuzte::generator::{Family, Generator};
use gorbuzte::{reference, Event, Refusal, Verdict};
use std::collections::{BTreeMap, BTreeSet, VecDeque};

const SEED: u64 = 2_026;
const TRACES: u64 = 20_000;

/// What a trace shows, by its name in `WANTED`.
type Shown = BTreeSet<&'static str>;

/// A crossing load that is held.
struct Held {
    location: u16,
    source: u16,
    locked: bool,
    /// A store took effect at its location since.
    stored: bool,
}

/// What is known of a thread.
#[derive(Default)]
struct Thread {
    queue: VecDeque<u16>,
    skips: bool,
    open: Option<Vec<Held>>,
    /// A region of it was closed in this stretch.
    closed: bool,
}

/// Follows an accepted trace and notes what its regions show.
struct Follower {
    threads: Vec<Thread>,
    /// The locations at which a store of this stretch took effect.
    stored: BTreeSet<u16>,
    stretch: u32,
    shown: Shown,
}

impl Follower {
    fn new(threads: u16) -> Self {
        let threads = (0..threads).map(|_| Thread::default()).collect();
        Follower { threads, stored: BTreeSet::new(), stretch: 1, shown: Shown::new() }
    }

    /// Notes a name, if what it says holds.
    fn note(&mut self, holds: bool, name: &'static str) {
        if holds {
            self.shown.insert(name);
        }
    }

    /// Follows an event.
    fn take(&mut self, event: &Event) {
        match *event {
            Event::Issue { thread, location } => self.threads[usize::from(thread)].queue.push_back(location),
            Event::Commit { thread } => {
                let location = self.threads[usize::from(thread)].queue.pop_front().expect("accepted");
                self.store(location);
            }
            Event::Load { thread, location, source } => self.load(thread.into(), location, source, false),
            Event::Locked { thread, location, source } => {
                self.load(thread.into(), location, source, true);
                self.store(location);
            }
            Event::SkipOn { thread } | Event::SkipOff { thread } => self.threads[usize::from(thread)].skips ^= true,
            Event::Open { thread } => self.open(thread.into()),
            Event::Close { thread, outcome } => self.close(thread.into(), outcome),
            Event::Crash => self.crash(),
            _ => {}
        }
    }

    /// A store takes effect.
    fn store(&mut self, location: u16) {
        self.stored.insert(location);
        let held = self.threads.iter_mut().filter_map(|thread| thread.open.as_mut()).flatten();
        held.filter(|load| load.location == location).for_each(|load| load.stored = true);
    }

    /// A load, which is held if it is crossing and its thread is open and in no skip.
    fn load(&mut self, thread: usize, location: u16, source: u16, locked: bool) {
        let crossing = !self.threads[thread].queue.contains(&location) && !self.stored.contains(&location);
        let others_hold = self.threads.iter().enumerate().any(|(other, state)| {
            other != thread && state.open.as_ref().is_some_and(|held| held.iter().any(|load| load.location == location))
        });
        let Thread { skips, open, .. } = &mut self.threads[thread];
        let (skips, is_open) = (*skips, open.is_some());
        if let (true, false, Some(held)) = (crossing, skips, open.as_mut()) {
            held.push(Held { location, source, locked, stored: false });
        }
        self.note(is_open && !crossing, "a load in a region that is not crossing");
        self.note(is_open && crossing && skips, "a crossing load in a region and in a skip");
        self.note(is_open && crossing && skips && locked, "a locked operation's load likewise");
        self.note(!is_open && crossing && !skips && others_hold, "a load counts at once where another is held");
    }

    /// A region begins.
    fn open(&mut self, thread: usize) {
        let Thread { closed, skips, .. } = self.threads[thread];
        self.note(closed, "a second region of a thread in its stretch");
        self.note(skips, "an open in a skip");
        self.threads[thread].open = Some(Vec::new());
    }

    /// A close ends a region; what its thread holds counts or is dropped.
    fn close(&mut self, thread: usize, outcome: u16) {
        let state = &mut self.threads[thread];
        let held = state.open.take().expect("accepted");
        state.closed = true;
        let skips = state.skips;
        let others = self.holds();
        let sources: BTreeSet<(u16, u16)> = held.iter().map(|load| (load.location, load.source)).collect();
        let locations: BTreeSet<u16> = held.iter().map(|load| load.location).collect();
        let counts = outcome == 1;
        self.note(counts && !held.is_empty(), "outcome 1 with something held");
        self.note(counts && held.is_empty(), "outcome 1 with nothing held");
        self.note(!counts && !held.is_empty(), "outcome 0 with something held");
        self.note(counts && held.len() > 1, "several loads count");
        self.note(counts && locations.len() > 1, "loads of several locations count");
        self.note(counts && sources.len() > locations.len(), "two sources of one location count");
        self.note(counts && held.iter().any(|load| load.locked), "a locked operation's load counts");
        self.note(!counts && held.iter().any(|load| load.locked), "a locked operation's load is dropped");
        self.note(counts && held.iter().any(|load| load.stored && !load.locked), "a store there before the close");
        self.note(counts && skips && !held.is_empty(), "a close in a skip, with something held");
        self.note(counts && others && !held.is_empty(), "two threads hold at once");
        self.note(counts && self.stretch > 2 && !held.is_empty(), "a region behind two crashes");
    }

    /// A crash drops what is held and ends the open states.
    fn crash(&mut self) {
        let held = self.holds();
        self.note(held, "a crash with something held");
        self.threads.iter_mut().for_each(|thread| *thread = Thread::default());
        self.stored.clear();
        self.stretch += 1;
    }

    /// Whether some thread holds a load.
    fn holds(&self) -> bool {
        self.threads.iter().any(|thread| thread.open.as_ref().is_some_and(|held| !held.is_empty()))
    }
}

/// What the regions of an accepted trace show.
fn regions(trace: &[u8], family: Family, verdict: &Verdict) -> Shown {
    let events = events_of(trace);
    let Some(&Event::Begin { threads, .. }) = events.first() else { return Shown::new() };
    let mut follower = Follower::new(threads);
    events.iter().for_each(|event| follower.take(event));
    let held = follower.holds();
    follower.note(held, "the trace ends with something held");
    let has_region = events.iter().any(|event| matches!(event, Event::Open { .. }));
    follower.note(has_region && family == Family::Large, "regions in a trace of many events");
    follower.note(has_region && matches!(verdict, Verdict::Robust { .. }), "robust, with regions");
    if let Verdict::Broken { load, .. } = verdict {
        let at_close = matches!(events[usize::from(*load)], Event::Close { .. });
        follower.note(at_close, "broken at a close");
        follower.note(has_region && !at_close, "broken at a load, with regions");
    }
    follower.shown
}

/// What a refused trace shows of versions and of kinds 15 and 16.
fn refusals(trace: &[u8], refusal: Refusal) -> Shown {
    let version = match reference::read_at(trace, 0) {
        Ok((Event::Begin { version, .. }, _)) => version,
        _ => 0,
    };
    match (refusal, version) {
        (Refusal { number: 6, .. }, 0) => Shown::from(["6: version 0"]),
        (Refusal { number: 6, .. }, 3) => Shown::from(["6: version 3"]),
        (Refusal { event: 0, .. }, _) => first_record(trace, refusal.number),
        _ => later_record(trace, refusal, version),
    }
}

/// What the refusal of the first record shows, if it is of kind 15 or 16.
fn first_record(trace: &[u8], number: u16) -> Shown {
    Shown::from_iter(match (number, trace) {
        (1, [_, _, 15, 0, ..]) => Some("1: an open first"),
        (1, [_, _, 16, 0, ..]) => Some("1: a close first"),
        (4, [2..=255, 0, 15, 0, ..]) => Some("4: an open first, of a wrong length"),
        (4, [2..=255, 0, 16, 0, ..]) => Some("4: a close first, of a wrong length"),
        _ => None,
    })
}

/// What the refusal of a record behind the begin shows, if it is of kind 15 or 16.
fn later_record(trace: &[u8], refusal: Refusal, version: u16) -> Shown {
    let framed = |at: usize| reference::frame(&trace[at..], 0).expect("the records before a refused one are framed");
    let (front, record) = trace.split_at((0..refusal.event).fold(0, |at, _| at + framed(at).len()));
    let [_, _, 15..=16, 0, ..] = record else { return Shown::new() };
    let alone = reference::read_at(record, 0).map(|(event, _)| event);
    if let (2, 19, Ok(Event::Close { thread, outcome })) = (version, refusal.number, alone) {
        let low_byte = (outcome % 256 < 2).then_some("19: an outcome whose low byte is 0 or 1");
        let open = if is_open(front, thread) { "19: of a thread that is open" } else { "19: ahead of 12" };
        return low_byte.into_iter().chain([open]).collect();
    }
    Shown::from_iter(match (version, refusal) {
        (1, Refusal { number: 3, event: 2_049 }) => Some("3: event 2,049, version 1"),
        (2, Refusal { number: 13, event: 2_049 }) => Some("13: event 2,049, version 2"),
        (1, _) => in_version_1(refusal.number, record[2], alone),
        _ => in_version_2(refusal.number, record, alone),
    })
}

/// What a refusal shows of a record of kind 15 or 16 in version 1; `alone` is the record read alone.
fn in_version_1(number: u16, kind: u8, alone: Result<Event, Refusal>) -> Option<&'static str> {
    Some(match (number, kind, alone) {
        (3, 15, Ok(_)) => "3: an open",
        (3, 15, Err(_)) => "3: an open of a wrong length",
        (3, _, Ok(_)) => "3: a close",
        (3, _, Err(_)) => "3: a close of a wrong length",
        (2, ..) => "2: ahead of 3",
        (4, ..) => "4: a length under 2, ahead of 3",
        _ => return None,
    })
}

/// What a refusal shows of a record of kind 15 or 16 in version 2; `alone` is the record read alone.
fn in_version_2(number: u16, record: &[u8], alone: Result<Event, Refusal>) -> Option<&'static str> {
    Some(match (number, alone) {
        (4, _) if reference::frame(record, 0).is_none() => return None,
        (4, _) if record[2] == 15 => "4: an open of a wrong length",
        (4, _) => "4: a close of a wrong length",
        (7, Ok(Event::Open { .. })) => "7: an open",
        (7, Ok(Event::Close { outcome: 0..=1, .. })) => "7: a close",
        (7, Ok(_)) => "7: a close, ahead of 19",
        (12, Ok(Event::Open { .. })) => "12: an open",
        (12, Ok(Event::Close { outcome: 0, .. })) => "12: a close with outcome 0",
        (12, Ok(_)) => "12: a close with outcome 1",
        _ => return None,
    })
}

/// Whether a thread is open behind the records of an accepted trace.
fn is_open(trace: &[u8], thread: u16) -> bool {
    events_of(trace).iter().fold(false, |open, event| match event {
        Event::Open { thread: other } if *other == thread => true,
        Event::Close { thread: other, .. } if *other == thread => false,
        Event::Crash => false,
        _ => open,
    })
}

/// What must come up, and in how many of the traces at least.
const WANTED: &[(&str, u64)] = &[
    ("outcome 1 with something held", 1_500),
    ("outcome 1 with nothing held", 1_000),
    ("outcome 0 with something held", 500),
    ("a crash with something held", 250),
    ("the trace ends with something held", 180),
    ("several loads count", 1_200),
    ("loads of several locations count", 1_000),
    ("two sources of one location count", 350),
    ("a locked operation's load counts", 300),
    ("a locked operation's load is dropped", 80),
    ("a crossing load in a region and in a skip", 180),
    ("a locked operation's load likewise", 50),
    ("an open in a skip", 140),
    ("a close in a skip, with something held", 120),
    ("a load in a region that is not crossing", 800),
    ("a load counts at once where another is held", 350),
    ("two threads hold at once", 80),
    ("a store there before the close", 150),
    ("a second region of a thread in its stretch", 1_000),
    ("a region behind two crashes", 600),
    ("regions in a trace of many events", 3),
    ("broken at a close", 500),
    ("broken at a load, with regions", 400),
    ("robust, with regions", 1_200),
    ("6: version 0", 4),
    ("6: version 3", 4),
    ("1: an open first", 4),
    ("1: a close first", 4),
    ("4: an open first, of a wrong length", 1),
    ("4: a close first, of a wrong length", 1),
    ("3: an open", 12),
    ("3: a close", 18),
    ("3: an open of a wrong length", 12),
    ("3: a close of a wrong length", 12),
    ("3: event 2,049, version 1", 6),
    ("2: ahead of 3", 10),
    ("4: a length under 2, ahead of 3", 12),
    ("13: event 2,049, version 2", 12),
    ("4: an open of a wrong length", 12),
    ("4: a close of a wrong length", 12),
    ("7: an open", 6),
    ("7: a close", 3),
    ("7: a close, ahead of 19", 3),
    ("12: an open", 6),
    ("12: a close with outcome 0", 10),
    ("12: a close with outcome 1", 10),
    ("19: of a thread that is open", 15),
    ("19: ahead of 12", 50),
    ("19: an outcome whose low byte is 0 or 1", 20),
];

#[test]
fn each_sort_of_region_and_each_refusal_comes_up() {
    let mut generator = Generator::new();
    let mut met: BTreeMap<&str, u64> = BTreeMap::new();
    for number in 0..TRACES {
        let (trace, family) = generator.trace(SEED, number);
        let shown = match reference::judge(trace) {
            Ok(verdict) => regions(trace, family, &verdict),
            Err(refusal) => refusals(trace, refusal),
        };
        shown.into_iter().for_each(|name| *met.entry(name).or_default() += 1);
    }
    let few: Vec<_> = WANTED.iter().filter(|(name, least)| met.get(name).is_none_or(|times| times < least)).collect();
    assert!(few.is_empty(), "too few of {few:?} in {met:#?}");
}
