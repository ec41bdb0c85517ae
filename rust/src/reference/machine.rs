//! The machine: which records are accepted, and what is known of the stores and loads of those that are.

use super::EVENTS;
use crate::types::Event;
use std::collections::{BTreeMap, VecDeque};

/// "A store is named by its issue's event number."
pub struct Store {
    pub event: u16,
    pub thread: u16,
    pub location: u16,
    pub stretch: u16,
    /// Its place in "the order of commits", over all stretches; `None` if it waits or was dropped.
    pub commit: Option<usize>,
}

impl Store {
    /// "location ÷ 8 without remainder is its 64-byte cache line"
    pub fn line(&self) -> u16 {
        self.location / 8
    }
}

/// A load that the machine accepted.
pub struct Load {
    pub event: u16,
    pub thread: u16,
    pub location: u16,
    pub source: u16,
    pub stretch: u16,
    /// "A crossing load in a skip is checked but not counted; all other crossing loads count." Document 02, job 7: one
    /// under a checksum is held, and counts later or not at all.
    pub heeded: bool,
}

/// What stands under a checksum, document 02, job 7: "kind 15 (open: thread, length 4) and kind 16 (close: thread,
/// outcome, length 6)".
struct Region {
    thread: u16,
    stretch: u16,
    open: u16,
    /// The event number of the close and its outcome; `None` if a crash or the trace's end came first.
    close: Option<(u16, u16)>,
}

/// A signal that the machine accepted.
pub struct Signal {
    pub event: u16,
    pub thread: u16,
    pub stretch: u16,
}

/// A wait that the machine accepted. Its source is the event number of a signal.
pub struct Wait {
    pub event: u16,
    pub thread: u16,
    pub source: u16,
    pub stretch: u16,
}

/// The state of the machine and what it has seen. Stores stand in the order of their event numbers, and so do loads,
/// signals and waits.
pub struct Machine {
    pub version: u16,
    pub threads: u16,
    locations: u16,
    /// "A stretch is the part between crashes, numbered from 1"
    pub stretch: u16,
    queues: Vec<VecDeque<usize>>,
    skips: Vec<bool>,
    /// The region in which each thread is, if it is open.
    opened: Vec<Option<usize>>,
    regions: Vec<Region>,
    commits: usize,
    pub stores: Vec<Store>,
    pub loads: Vec<Load>,
    pub signals: Vec<Signal>,
    pub waits: Vec<Wait>,
}

impl Machine {
    /// "The trace starts with empty queues, no skips and no commits."
    pub fn new() -> Self {
        Machine {
            version: 0,
            threads: 0,
            locations: 0,
            stretch: 1,
            queues: Vec::new(),
            skips: Vec::new(),
            opened: Vec::new(),
            regions: Vec::new(),
            commits: 0,
            stores: Vec::new(),
            loads: Vec::new(),
            signals: Vec::new(),
            waits: Vec::new(),
        }
    }

    /// The number of the store that an event issued.
    pub fn store_of(&self, event: u16) -> Option<usize> {
        self.stores.binary_search_by_key(&event, |store| store.event).ok()
    }

    /// The number of the signal that an event is.
    pub fn signal_of(&self, event: u16) -> Option<usize> {
        self.signals.binary_search_by_key(&event, |signal| signal.event).ok()
    }

    /// Takes the record with an event number, or gives the refusal: "1, 5, 13, 6, 7, 8, and the kind's own rule".
    pub fn step(&mut self, number: u16, event: &Event) -> Result<(), u16> {
        self.general(number, event)?;
        match *event {
            Event::Begin { version, threads, locations } => self.begin(version, threads, locations),
            Event::Issue { thread, location } => self.issue(number, thread, location),
            Event::Commit { thread } => self.commit(thread)?,
            Event::Load { thread, location, source } => self.load(number, thread, location, source)?,
            Event::Clflush { .. } | Event::Clwb { .. } | Event::Sfence { .. } => {}
            Event::Mfence { thread } => self.empty_queue(thread)?,
            Event::Crash => self.crash(),
            Event::SkipOn { thread } => self.skip(thread, true)?,
            Event::SkipOff { thread } => self.skip(thread, false)?,
            Event::Locked { thread, location, source } => self.locked(number, thread, location, source)?,
            Event::Signal { thread } => self.signal(number, thread)?,
            Event::Wait { thread, source } => self.wait(number, thread, source)?,
            Event::Open { thread } => self.open(number, thread)?,
            Event::Close { thread, outcome } => self.close(number, thread, outcome)?,
        }
        Ok(())
    }

    /// The refusals that do not belong to one kind alone, in their order: "1, 5, 13, 6, 7, 8".
    fn general(&self, number: u16, event: &Event) -> Result<(), u16> {
        let begin = matches!(event, Event::Begin { .. });
        let (thread, location) = places_of(event);
        let conditions = [
            (1, number == 0 && !begin),
            (5, number > 0 && begin),
            (13, number > EVENTS || *event == Event::Crash && self.stretch == 8),
            (6, begin && !in_range(event)),
            (7, thread.is_some_and(|thread| thread >= self.threads)),
            (8, location.is_some_and(|location| location >= self.locations)),
        ];
        match conditions.iter().find(|(_, holds)| *holds) {
            Some((refusal, _)) => Err(*refusal),
            None => Ok(()),
        }
    }

    /// "begin | version (1), threads n, locations m"
    fn begin(&mut self, version: u16, threads: u16, locations: u16) {
        self.version = version;
        self.threads = threads;
        self.locations = locations;
        self.queues = (0..threads).map(|_| VecDeque::new()).collect();
        self.skips = vec![false; threads.into()];
        self.opened = vec![None; threads.into()];
    }

    /// "Issue: the store joins its thread's queue."
    fn issue(&mut self, event: u16, thread: u16, location: u16) {
        self.queues[usize::from(thread)].push_back(self.stores.len());
        self.stores.push(Store { event, thread, location, stretch: self.stretch, commit: None });
    }

    /// "Commit: the oldest waiting store of the thread takes effect; the order of commits is the stretch's store
    /// order." Refusal 10: "commit, empty queue".
    fn commit(&mut self, thread: u16) -> Result<(), u16> {
        let store = self.queues[usize::from(thread)].pop_front().ok_or(10_u16)?;
        self.stores[store].commit = Some(self.commits);
        self.commits += 1;
        Ok(())
    }

    /// "Load: if the thread has waiting stores to the location, the source is the newest. Otherwise, if the stretch has
    /// commits to it, the last one committed. Otherwise the load is *crossing*, and the source is 0 or a store to that
    /// location committed in an earlier stretch." Refusal 9: "source against the load rule".
    fn load(&mut self, event: u16, thread: u16, location: u16, source: u16) -> Result<(), u16> {
        let named = self.newest_waiting(thread, location).or_else(|| self.last_committed(location));
        let allowed = match named {
            Some(store) => self.stores[store].event == source,
            None => source == 0 || self.landed(location, source),
        };
        if !allowed {
            return Err(9);
        }
        let heeded = named.is_none() && !self.skips[usize::from(thread)];
        self.loads.push(Load { event, thread, location, source, stretch: self.stretch, heeded });
        Ok(())
    }

    /// "if the thread has waiting stores to the location, the source is the newest"
    fn newest_waiting(&self, thread: u16, location: u16) -> Option<usize> {
        let queue = &self.queues[usize::from(thread)];
        queue.iter().rev().copied().find(|&store| self.stores[store].location == location)
    }

    /// "if the stretch has commits to it, the last one committed"
    fn last_committed(&self, location: u16) -> Option<usize> {
        let here = |store: &&Store| store.stretch == self.stretch && store.location == location;
        let last = self.stores.iter().filter(here).filter(|store| store.commit.is_some()).max_by_key(|s| s.commit)?;
        self.store_of(last.event)
    }

    /// "a store to that location committed in an earlier stretch"
    fn landed(&self, location: u16, source: u16) -> bool {
        self.store_of(source).is_some_and(|store| {
            let store = &self.stores[store];
            store.location == location && store.commit.is_some() && store.stretch < self.stretch
        })
    }

    /// Document 02, job 2: "Kind 12 (thread, location, source, length 8) is a load, issue and commit with nothing
    /// between, and its event number names its store." "11 also if kind 12's thread has a waiting store, before 9."
    fn locked(&mut self, event: u16, thread: u16, location: u16, source: u16) -> Result<(), u16> {
        self.empty_queue(thread)?;
        self.load(event, thread, location, source)?;
        self.issue(event, thread, location);
        self.commit(thread)
    }

    /// Document 02, job 4: "Signals are written when visible, so the queue is empty by then."
    fn signal(&mut self, event: u16, thread: u16) -> Result<(), u16> {
        self.empty_queue(thread)?;
        self.signals.push(Signal { event, thread, stretch: self.stretch });
        Ok(())
    }

    /// Document 02, job 4: "18 for a wait whose source is no earlier signal of the same stretch, after 7."
    fn wait(&mut self, event: u16, thread: u16, source: u16) -> Result<(), u16> {
        let named = self.signal_of(source).map(|signal| &self.signals[signal]);
        if named.is_none_or(|signal| signal.stretch != self.stretch) {
            return Err(18);
        }
        self.waits.push(Wait { event, thread, source, stretch: self.stretch });
        Ok(())
    }

    /// "mfence needs an empty queue." Refusal 11: "mfence, queue not empty"; "11 also if kind 12's thread has a waiting
    /// store"; "11 for a signal with waiting stores".
    fn empty_queue(&self, thread: u16) -> Result<(), u16> {
        if self.queues[usize::from(thread)].is_empty() {
            Ok(())
        } else {
            Err(11)
        }
    }

    /// "a crash finishes it, drops waiting stores, ends skips and starts counts afresh". Document 02, job 7: "a crash
    /// ends the open state."
    fn crash(&mut self) {
        self.stretch += 1;
        self.queues.iter_mut().for_each(VecDeque::clear);
        self.skips.fill(false);
        self.opened.fill(None);
    }

    /// "A skip [...] is on or off per thread." Refusal 12: "skip already on, or already off".
    fn skip(&mut self, thread: u16, on: bool) -> Result<(), u16> {
        let skip = &mut self.skips[usize::from(thread)];
        if *skip == on {
            return Err(12);
        }
        *skip = on;
        Ok(())
    }

    /// Document 02, job 7: "12 for open when open".
    fn open(&mut self, event: u16, thread: u16) -> Result<(), u16> {
        let opened = &mut self.opened[usize::from(thread)];
        if opened.is_some() {
            return Err(12);
        }
        *opened = Some(self.regions.len());
        self.regions.push(Region { thread, stretch: self.stretch, open: event, close: None });
        Ok(())
    }

    /// Document 02, job 7: "12 for [...] close when not; 19 for another outcome, before 12."
    fn close(&mut self, event: u16, thread: u16, outcome: u16) -> Result<(), u16> {
        if outcome != 0 && outcome != 1 {
            return Err(19);
        }
        let region = self.opened[usize::from(thread)].take().ok_or(12_u16)?;
        self.regions[region].close = Some((event, outcome));
        Ok(())
    }

    /// The loads that count, by the event as of which they do.
    pub fn counted(&self) -> BTreeMap<u16, Vec<&Load>> {
        let mut counted = BTreeMap::new();
        for load in &self.loads {
            if let Some(event) = self.counts_as_of(load) {
                counted.entry(event).or_insert_with(Vec::new).push(load);
            }
        }
        counted
    }

    /// Document 02, job 7: "A thread's crossing loads in between are held. Outcome 1 counts them all as of the close; 0
    /// drops them; a crash or the trace's end drops them". A load outside counts as of itself.
    fn counts_as_of(&self, load: &Load) -> Option<u16> {
        if !load.heeded {
            return None;
        }
        match self.regions.iter().find(|region| region.holds(load)).map(|region| region.close) {
            None => Some(load.event),
            Some(Some((event, 1))) => Some(event),
            Some(_) => None,
        }
    }
}

impl Region {
    /// Whether a load of its thread stands "in between". A crash ends the region, so both are of one stretch.
    fn holds(&self, load: &Load) -> bool {
        self.thread == load.thread
            && self.stretch == load.stretch
            && self.open < load.event
            && self.close.is_none_or(|(close, _)| load.event < close)
    }
}

/// "version (1), threads n, locations m", "Threads: 1 to 8", "Locations: 1 to 256": refusal 6 otherwise. Document 02,
/// job 7: "6 lets versions 1 and 2 pass".
fn in_range(begin: &Event) -> bool {
    match *begin {
        Event::Begin { version, threads, locations } => {
            (1..=2).contains(&version) && (1..=8).contains(&threads) && (1..=256).contains(&locations)
        }
        _ => false,
    }
}

/// The thread and the location of an event, of the kinds that have one.
fn places_of(event: &Event) -> (Option<u16>, Option<u16>) {
    match *event {
        Event::Issue { thread, location }
        | Event::Load { thread, location, .. }
        | Event::Locked { thread, location, .. }
        | Event::Clflush { thread, location }
        | Event::Clwb { thread, location } => (Some(thread), Some(location)),
        Event::Commit { thread }
        | Event::Sfence { thread }
        | Event::Mfence { thread }
        | Event::SkipOn { thread }
        | Event::SkipOff { thread }
        | Event::Signal { thread }
        | Event::Wait { thread, .. }
        | Event::Open { thread }
        | Event::Close { thread, .. } => (Some(thread), None),
        Event::Begin { .. } | Event::Crash => (None, None),
    }
}
