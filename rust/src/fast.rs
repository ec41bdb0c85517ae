//! A judge that is written for speed: one pass over the trace with vector clocks, in tables that are kept between
//! calls; for a flush fault a second one, over the records between its two stores.
//!
//! A store is named by its event number. The stores of a thread are linked in the order of their issues, and numbered
//! from 1 over the whole trace. A clock gives for each thread the number of its last store that happens before; a
//! number of an earlier stretch says that there is none in this one. A crash moves each thread's commits up to its
//! last issue: so a store waits exactly if its name is above the last committed one of its thread. With that a crash
//! leaves clocks and locations as they are. A signal stands in the table of stores with the clock that it hands over.
//!
//! The loads that a thread holds under a checksum are linked, the newest first, each with the last store that it found
//! at its location. A close that counts them marks what they forbid and observe, and then looks for evidence once.
//! Those of one location all found the same store, so a location is walked once, back to the oldest of their sources.

use crate::types::{Kind, Refusal, Verdict, Window, Windows, CUT, THREADS};
use std::ops::RangeInclusive;

/// The most events after the begin.
const EVENTS: i16 = 2_048;
const LOCATIONS: usize = 256;
const STRETCHES: usize = 8;

/// The number of places in the table of stores: a power of two, so that a masked index needs no check.
const ROOM: usize = 4_096;

/// The kinds, and those that only a begin of version 2 admits.
const KINDS: RangeInclusive<u16> = 1..=16;
const KINDS_OF_VERSION_2: RangeInclusive<u16> = 15..=16;

/// The header of each kind's record as one number: the kind above its length. A kind stands at its lowest four bits, so
/// kind 16 at 0.
const HEADERS: [u32; 16] = {
    let lengths = [8, 6, 4, 8, 6, 6, 4, 4, 2, 4, 4, 8, 4, 6, 4, 6];
    let mut headers = [0; 16];
    let mut kind = 1;
    while kind <= lengths.len() {
        headers[kind & 15] = (kind as u32) << 16 | lengths[kind - 1];
        kind += 1;
    }
    headers
};

/// Bits of a thread's switches: a skip is on, and loads are held.
const SKIPS: u16 = 1;
const OPEN: u16 = 1 << 8;

/// One number for each thread. The numbers are at most 2,048; signed ones have a maximum instruction on every x86-64.
type Clock = [i16; THREADS];

/// The event number of a store, 0 for none, or t - 8 for the place before the first store of thread t.
type Name = i16;

/// A store, in the table at its name; or a signal, at its event number.
#[derive(Clone, Copy, Default)]
struct Store {
    /// The last store of each thread that happens before this one; of its own thread, this one. Of a signal, the last
    /// store of each thread that it hands over.
    clock: Clock,
    /// The call in which it was committed; of a signal, one more than its call. Another number is a leftover.
    call: u32,
    location: u16,
    /// The next store of the same thread, if there is one.
    next: Name,
    /// The store to the same location that was committed before it, or 0.
    older: Name,
    /// The event number of its commit.
    commit: Name,
    /// Its stretch, counted from 0, times 8, and its thread.
    place: u8,
    forbidden: bool,
    observed: bool,
}

/// The last store that was committed to a location, and the stretch of that commit above it.
#[derive(Clone, Copy, Default, PartialEq, Eq)]
struct Last(u32);

/// A location. The alignment makes its place in the table a shift.
#[derive(Clone, Copy)]
#[repr(align(32))]
struct Location {
    /// The last store that each thread issued here.
    issued: [Name; THREADS],
    last: Last,
    /// The last store that the last counted load found, and its source; of several that a close counts, the oldest
    /// source. What they forbid is marked already. That load was crossing, so as long as `last` is that store, loads
    /// are.
    counted: (Last, u16),
}

/// A location without stores and loads: no store is as low as the issued ones, and no stretch as high as the last
/// one's.
const UNTOUCHED: Location =
    Location { issued: [Name::MIN; THREADS], last: Last(0xffff_0000), counted: (Last(0xffff_ffff), 0) };

/// A thread. The entry of the clock at the thread itself is not kept: it is `number`.
#[derive(Clone, Copy, Default)]
#[repr(align(32))]
struct Thread {
    clock: Clock,
    /// The number of stores that it issued.
    number: i16,
    /// The store that it issued last.
    issued: Name,
    /// The store up to which its stores are committed or dropped.
    committed: Name,
    /// The newest load that it holds, or 0. Means something only while it is open.
    held: Name,
}

/// A load that is held, in the table at its event number.
#[derive(Clone, Copy, Default)]
struct Held {
    location: u16,
    source: u16,
    /// The last store to the location that it found.
    head: Last,
    /// The load that its thread held before it, or 0.
    older: Name,
}

/// What is known of the choice in one stretch.
#[derive(Clone, Copy)]
struct Stretch {
    /// The numbers up to which each thread's stores belong to earlier stretches.
    start: Clock,
    /// The numbers up to which each thread's stores must be in.
    cut: Clock,
    /// The smallest number of each thread's forbidden stores.
    forbidden: Clock,
}

const EMPTY: Stretch = Stretch { start: [0; THREADS], cut: [0; THREADS], forbidden: [i16::MAX; THREADS] };

/// The evidence of a broken trace.
#[derive(Clone, Copy)]
struct Evidence {
    load: Name,
    missing: Name,
    observed: Name,
}

/// A judge with its tables. A call sets back only what its trace can touch, and allocates nothing.
pub struct Fast {
    stores: Box<[Store; ROOM]>,
    held: Box<[Held; ROOM]>,
    locations: Vec<Location>,
    threads: [Thread; THREADS],
    stretches: [Stretch; STRETCHES],
    version: u16,
    thread_count: u16,
    /// The number of crashes so far.
    stretch: u8,
    /// Bit t is set while a skip of thread t is on, bit 8 + t while it is open.
    switches: u16,
    /// The number of stores committed in finished stretches.
    committed: u32,
    evidence: Option<Evidence>,
    /// The number of the call, which is even.
    call: u32,
}

impl Default for Fast {
    fn default() -> Self {
        Self::new()
    }
}

impl Fast {
    /// A judge with empty tables.
    #[must_use]
    pub fn new() -> Self {
        Fast {
            stores: Box::new([Store::default(); ROOM]),
            held: Box::new([Held::default(); ROOM]),
            locations: Vec::with_capacity(LOCATIONS),
            threads: [Thread::default(); THREADS],
            stretches: [EMPTY; STRETCHES],
            version: 0,
            thread_count: 0,
            stretch: 0,
            switches: 0,
            committed: 0,
            evidence: None,
            call: 0,
        }
    }

    /// Judges a trace. No bytes are a trace with no events.
    ///
    /// # Errors
    ///
    /// The refusal (1 to 13, 18 or 19) if the trace is not accepted.
    pub fn judge(&mut self, trace: &[u8]) -> Result<Verdict, Refusal> {
        let events = self.run(trace)?;
        Ok(self.verdict(trace, events))
    }

    /// Takes all records. Gives the number of events after the begin. On its own, so that the loop does not keep the
    /// start of the trace, which only windows ask for.
    #[inline(never)]
    fn run(&mut self, trace: &[u8]) -> Result<u16, Refusal> {
        let mut rest = self.begin(trace).map_err(|number| Refusal { number, event: 0 })?;
        let mut event = 1;
        while let Some(record) = rest.first_chunk() {
            if event > EVENTS {
                break;
            }
            rest = self.record(event, record, rest).map_err(|number| Refusal { number, event: event as u16 })?;
            event += 1;
        }
        self.finish(event, rest)
    }

    /// Reads the begin and sets the tables back. Gives the bytes behind it.
    fn begin<'a>(&mut self, trace: &'a [u8]) -> Result<&'a [u8], u16> {
        let Some(record) = trace.first_chunk::<10>().filter(|record| header(record) == HEADERS[1]) else {
            return self.no_begin(trace);
        };
        let [version, threads, locations] = [4, 6, 8].map(|at| field(record, at));
        if !(1..=2).contains(&version) || !(1..=8).contains(&threads) || !(1..=256).contains(&locations) {
            return Err(6);
        }
        self.version = version;
        self.set_back(threads, locations);
        Ok(&trace[10..])
    }

    /// Bytes that start with no begin: none are a trace with no events, threads and locations; others are refused. On
    /// its own, so that a begin is read with no test for it.
    #[cold]
    fn no_begin<'a>(&mut self, trace: &'a [u8]) -> Result<&'a [u8], u16> {
        if !trace.is_empty() {
            return Err(unreadable(trace, 2).unwrap_or(1));
        }
        self.set_back(0, 0);
        Ok(trace)
    }

    /// Sets the tables back for a trace of so many threads and locations.
    #[inline(always)]
    fn set_back(&mut self, threads: u16, locations: u16) {
        self.thread_count = threads;
        self.locations.clear();
        self.locations.resize(locations.into(), UNTOUCHED);
        for (thread, first) in self.threads.iter_mut().zip(-8..) {
            *thread = Thread { issued: first, committed: first, ..Thread::default() };
        }
        self.stretches[0] = EMPTY;
        self.stretch = 0;
        self.switches = 0;
        self.committed = 0;
        self.evidence = None;
        self.next_call();
    }

    /// Gives the call a number that no store or signal in the table has.
    fn next_call(&mut self) {
        self.call = self.call.wrapping_add(2);
        if self.call == 0 {
            self.stores.iter_mut().for_each(|store| store.call = 0);
            self.call = 2;
        }
    }

    /// The end of the trace: fewer bytes than the largest record has, or a record too many. A record is read from a
    /// copy that is filled up.
    fn finish(&mut self, mut event: Name, mut rest: &[u8]) -> Result<u16, Refusal> {
        while !rest.is_empty() {
            let refused = |number| Refusal { number, event: event as u16 };
            if let Some(number) = unreadable(rest, self.version).or((event > EVENTS).then_some(13)) {
                return Err(refused(number));
            }
            let mut record = [0; 10];
            record[..rest.len()].copy_from_slice(rest);
            rest = self.record(event, &record, rest).map_err(refused)?;
            event += 1;
        }
        Ok(event as u16 - 1)
    }

    /// Takes the record that the bytes start with. Gives the bytes behind it.
    #[inline(always)]
    fn record<'a>(&mut self, event: Name, record: &[u8; 10], rest: &'a [u8]) -> Result<&'a [u8], u16> {
        let kind = record[2] & 15;
        if header(record) != HEADERS[usize::from(kind)] {
            return Err(unreadable(rest, self.version).unwrap_or(3));
        }
        match kind {
            2 => self.issue(event, self.thread(record)?, field(record, 6)).map(|()| &rest[8..]),
            3 => self.commit(event, self.thread(record)?).map(|()| &rest[6..]),
            4 => self.load(event, self.thread(record)?, field(record, 6), field(record, 8)).map(|()| &rest[10..]),
            5 | 6 => self.thread(record).and_then(|_| self.check_location(field(record, 6))).map(|()| &rest[8..]),
            7 => self.thread(record).map(|_| &rest[6..]),
            8 => self.check_empty_queue(self.thread(record)?).map(|()| &rest[6..]),
            9 => self.crash().map(|()| &rest[4..]),
            10 | 11 => self.skip(self.thread(record)?, kind == 10).map(|()| &rest[6..]),
            12 => self.locked(event, self.thread(record)?, field(record, 6), field(record, 8)).map(|()| &rest[10..]),
            13 => self.signal(event, self.thread(record)?).map(|()| &rest[6..]),
            14 => self.wait(self.thread(record)?, field(record, 6)).map(|()| &rest[8..]),
            15 => self.open(self.thread_of_version_2(record)?).map(|()| &rest[6..]),
            0 => self.close(event, self.thread_of_version_2(record)?, field(record, 6)).map(|()| &rest[8..]),
            _ => Err(5),
        }
    }

    /// The thread of a record, or refusal 7.
    #[inline(always)]
    fn thread(&self, record: &[u8; 10]) -> Result<usize, u16> {
        let thread = field(record, 4);
        if thread >= self.thread_count {
            return Err(7);
        }
        Ok(usize::from(thread) & (THREADS - 1))
    }

    /// The thread of a record that only version 2 knows, or refusal 3 or 7.
    #[inline(always)]
    fn thread_of_version_2(&self, record: &[u8; 10]) -> Result<usize, u16> {
        if self.version == 1 {
            return Err(3);
        }
        self.thread(record)
    }

    #[inline(always)]
    fn issue(&mut self, event: Name, thread: usize, location: u16) -> Result<(), u16> {
        let place = self.locations.get_mut(usize::from(location)).ok_or(8_u16)?;
        place.issued[thread] = event;
        let issuer = &mut self.threads[thread];
        self.stores[at(issuer.issued)].next = event;
        issuer.issued = event;
        issuer.number += 1;
        let store = &mut self.stores[at(event)];
        store.clock = issuer.clock;
        store.clock[thread] = issuer.number;
        store.location = location;
        store.place = self.stretch << 3 | thread as u8;
        Ok(())
    }

    #[inline(always)]
    fn commit(&mut self, event: Name, thread: usize) -> Result<(), u16> {
        let owner = &self.threads[thread];
        if owner.committed == owner.issued {
            return Err(10);
        }
        let oldest = self.stores[at(owner.committed)].next;
        self.take_effect(event, thread, oldest, self.stores[at(oldest)].location);
        Ok(())
    }

    /// The oldest waiting store of a thread takes effect.
    #[inline(always)]
    fn take_effect(&mut self, event: Name, thread: usize, oldest: Name, location: u16) {
        self.threads[thread].committed = oldest;
        let store = &mut self.stores[at(oldest)];
        let location = &mut self.locations[usize::from(location)];
        store.call = self.call;
        store.older = location.last.store();
        store.commit = event;
        store.forbidden = false;
        store.observed = false;
        location.last = Last::new(self.stretch, oldest as u16);
    }

    #[inline(always)]
    fn load(&mut self, event: Name, thread: usize, location: u16, source: u16) -> Result<(), u16> {
        let place = self.locations.get(usize::from(location)).ok_or(8_u16)?;
        let waiting = place.issued[thread];
        if waiting > self.threads[thread].committed {
            return if source == waiting as u16 { Ok(()) } else { Err(9) };
        }
        if self.load_last(thread, location, source) {
            return Ok(());
        }
        let place = &self.locations[usize::from(location)];
        if place.counted == (place.last, source) {
            return Ok(());
        }
        self.crossing(event, thread, location, source)
    }

    /// Loads from the stretch's last store to the location, if that is the source, and gives whether it is. The store
    /// happens before what the thread issues next.
    #[inline(always)]
    fn load_last(&mut self, thread: usize, location: u16, source: u16) -> bool {
        let is_last = self.locations[usize::from(location)].last == Last::new(self.stretch, source);
        if is_last {
            let reader = &mut self.threads[thread];
            reader.clock = larger(&reader.clock, &self.stores[at(source as Name)].clock);
        }
        is_last
    }

    /// A load that is crossing or refused. One that repeats the last counted load of its location need not come here.
    #[inline(never)]
    fn crossing(&mut self, event: Name, thread: usize, location: u16, source: u16) -> Result<(), u16> {
        if self.locations[usize::from(location)].last.stretch() == self.stretch.into() {
            return Err(9);
        }
        if source != 0 {
            let store = self.stores.get(usize::from(source)).ok_or(9_u16)?;
            if store.call != self.call || store.location != location {
                return Err(9);
            }
        }
        let switches = self.switches >> thread & (SKIPS | OPEN);
        if switches == 0 && self.evidence.is_none() {
            self.count(event, location, source);
        } else if switches == OPEN {
            self.hold(event, thread, location, source);
        }
        Ok(())
    }

    /// Counts a crossing load.
    #[inline(always)]
    fn count(&mut self, event: Name, location: u16, source: u16) {
        let forbidden = self.forbid(location, source);
        let observed = source != 0 && self.observe(source);
        let place = &mut self.locations[usize::from(location)];
        place.counted = (place.last, source);
        if forbidden || observed {
            self.evidence = Some(self.find_evidence(event));
        }
    }

    /// Adds a crossing load to those that its thread holds. On its own, so that the other ones save no registers.
    #[inline(never)]
    fn hold(&mut self, event: Name, thread: usize, location: u16, source: u16) {
        let head = self.locations[usize::from(location)].last;
        let older = std::mem::replace(&mut self.threads[thread].held, event);
        self.held[at(event)] = Held { location, source, head, older };
    }

    /// A load, then the issue of a store and its commit. The load is judged before the store is the location's last.
    #[inline(never)]
    fn locked(&mut self, event: Name, thread: usize, location: u16, source: u16) -> Result<(), u16> {
        self.check_location(location)?;
        self.check_empty_queue(thread)?;
        if !self.load_last(thread, location, source) {
            return self.locked_crossing(event, thread, location, source);
        }
        self.issue_and_commit(event, thread, location)
    }

    /// A locked operation whose load is crossing, or that is refused. On its own, so that the other ones save no
    /// registers.
    #[inline(never)]
    fn locked_crossing(&mut self, event: Name, thread: usize, location: u16, source: u16) -> Result<(), u16> {
        self.crossing(event, thread, location, source)?;
        self.issue_and_commit(event, thread, location)
    }

    /// The issue and the commit of a store by a thread that has no waiting store.
    #[inline(always)]
    fn issue_and_commit(&mut self, event: Name, thread: usize, location: u16) -> Result<(), u16> {
        self.issue(event, thread, location)?;
        self.take_effect(event, thread, event, location);
        Ok(())
    }

    /// Keeps the clock that a store issued here would have, but for that store itself.
    #[inline(always)]
    fn signal(&mut self, event: Name, thread: usize) -> Result<(), u16> {
        self.check_empty_queue(thread)?;
        let giver = &self.threads[thread];
        let signal = &mut self.stores[at(event)];
        signal.clock = giver.clock;
        signal.clock[thread] = giver.number;
        signal.call = self.call + 1;
        signal.place = self.stretch << 3 | thread as u8;
        Ok(())
    }

    /// What the signal hands over happens before what the thread issues next. On its own, so that other records save no
    /// registers.
    #[inline(never)]
    fn wait(&mut self, thread: usize, source: u16) -> Result<(), u16> {
        let signal = self.stores.get(usize::from(source)).ok_or(18_u16)?;
        if signal.call != self.call + 1 || signal.stretch() != self.stretch.into() {
            return Err(18);
        }
        let taker = &mut self.threads[thread];
        taker.clock = larger(&taker.clock, &signal.clock);
        Ok(())
    }

    /// Marks the stores to a location from the last back to the source. Gives whether one of them must be in.
    fn forbid(&mut self, location: u16, source: u16) -> bool {
        let place = &self.locations[usize::from(location)];
        let (source, marked_for) = (source as Name, place.counted.1 as Name);
        let marked = if source == marked_for { place.counted.0.store() } else { source };
        self.mark(place.last.store(), source, marked)
    }

    /// Marks the stores to a location that a held load found, from the last back to the source. Where the same ones are
    /// marked back to another source, goes on from there, if this one is older. Gives whether one of them must be in.
    #[inline(always)]
    fn forbid_found(&mut self, held: &Held) -> bool {
        let place = &mut self.locations[usize::from(held.location)];
        let (source, marked_for) = (held.source as Name, place.counted.1 as Name);
        let (from, marked) = if held.head == place.counted.0 {
            if self.stores[at(marked_for)].commit <= self.stores[at(source)].commit {
                return false;
            }
            (marked_for, source)
        } else {
            (held.head.store(), if source == marked_for { place.counted.0.store() } else { source })
        };
        place.counted = (held.head, held.source);
        self.mark(from, source, marked)
    }

    /// Marks stores to one location from one back to the source, or to one from which they are marked already. Gives
    /// whether one of them must be in.
    #[inline(always)]
    fn mark(&mut self, mut name: Name, source: Name, marked: Name) -> bool {
        let mut must_be_in = false;
        while name != source && name != marked {
            let store = &mut self.stores[at(name)];
            store.forbidden = true;
            name = store.older;
            let thread = store.thread();
            let number = store.clock[thread];
            let stretch = &mut self.stretches[store.stretch()];
            stretch.forbidden[thread] = stretch.forbidden[thread].min(number);
            must_be_in |= number <= stretch.cut[thread];
        }
        must_be_in
    }

    /// Raises the cut of the source's stretch by its clock. Gives whether a forbidden store must be in now.
    fn observe(&mut self, source: u16) -> bool {
        let store = &mut self.stores[at(source as Name)];
        store.observed = true;
        let stretch = &mut self.stretches[store.stretch()];
        stretch.cut = larger(&stretch.cut, &store.clock);
        (0..THREADS).fold(false, |any, thread| any | (stretch.forbidden[thread] <= stretch.cut[thread]))
    }

    /// The smallest forbidden store that must be in, and the smallest observed store that it is or happens before.
    /// Observed stores of earlier stretches have lower clocks, and those of later stretches are not the smallest.
    #[cold]
    fn find_evidence(&self, load: Name) -> Evidence {
        let smallest = |test: &dyn Fn(&Store) -> bool| {
            let found = (1..load).find(|&name| {
                let store = &self.stores[at(name)];
                store.call == self.call && test(store)
            });
            found.expect("a broken trace has evidence")
        };
        let missing = smallest(&|store| {
            let thread = store.thread();
            store.forbidden && store.clock[thread] <= self.stretches[store.stretch()].cut[thread]
        });
        let first = &self.stores[at(missing)];
        let thread = first.thread();
        let observed = smallest(&|store| store.observed && store.clock[thread] >= first.clock[thread]);
        Evidence { load, missing, observed }
    }

    /// Refusal 8 if there is no such location.
    #[inline(always)]
    fn check_location(&self, location: u16) -> Result<(), u16> {
        if usize::from(location) < self.locations.len() {
            Ok(())
        } else {
            Err(8)
        }
    }

    /// Refusal 11 if the thread has a waiting store.
    #[inline(always)]
    fn check_empty_queue(&self, thread: usize) -> Result<(), u16> {
        if self.threads[thread].issued == self.threads[thread].committed {
            Ok(())
        } else {
            Err(11)
        }
    }

    #[inline(always)]
    fn skip(&mut self, thread: usize, on: bool) -> Result<(), u16> {
        self.switch(thread, SKIPS, on)
    }

    /// Turns a switch of a thread on or off. Refusal 12 if it is so already.
    #[inline(always)]
    fn switch(&mut self, thread: usize, which: u16, on: bool) -> Result<(), u16> {
        let bit = which << thread;
        if (self.switches & bit != 0) == on {
            return Err(12);
        }
        self.switches ^= bit;
        Ok(())
    }

    /// From here on the thread holds its crossing loads. On its own, as `wait` is.
    #[inline(never)]
    fn open(&mut self, thread: usize) -> Result<(), u16> {
        self.switch(thread, OPEN, true)?;
        self.threads[thread].held = 0;
        Ok(())
    }

    /// Counts what the thread holds, if the outcome is 1. On its own, as `wait` is.
    #[inline(never)]
    fn close(&mut self, event: Name, thread: usize, outcome: u16) -> Result<(), u16> {
        if outcome > 1 {
            return Err(19);
        }
        self.switch(thread, OPEN, false)?;
        if outcome == 1 && self.evidence.is_none() {
            self.count_held(event, self.threads[thread].held);
        }
        Ok(())
    }

    /// Counts loads as of a close: the newest, and those that were held before it. All are marked before evidence is
    /// looked for.
    #[inline(never)]
    fn count_held(&mut self, event: Name, newest: Name) {
        let mut name = newest;
        let mut broken = false;
        while name != 0 {
            let held = self.held[at(name)];
            if self.locations[usize::from(held.location)].counted != (held.head, held.source) {
                broken |= self.forbid_found(&held);
                broken |= held.source != 0 && self.observe(held.source);
            }
            name = held.older;
        }
        if broken {
            self.evidence = Some(self.find_evidence(event));
        }
    }

    #[inline(never)]
    fn crash(&mut self) -> Result<(), u16> {
        if usize::from(self.stretch) + 1 == STRETCHES {
            return Err(13);
        }
        let start = self.threads.map(|thread| thread.number);
        let finished = &self.stretches[usize::from(self.stretch)];
        for (number, thread) in self.threads.iter_mut().enumerate() {
            let last = &self.stores[at(thread.committed)];
            self.committed += (last.clock[number] - finished.start[number]) as u32;
            thread.committed = thread.issued;
        }
        self.stretch += 1;
        self.stretches[usize::from(self.stretch)] = Stretch { start, cut: start, ..EMPTY };
        self.switches = 0;
        Ok(())
    }

    /// The windows of a flush fault, by a pass over the records behind the missing store up to the observed one, which
    /// are of one stretch. A store whose clock, for the missing store's thread, is not below that store's own happens
    /// after it, and a signal with such a clock hands it over. A window opens behind the thread's first load of such a
    /// store or wait for such a signal, and ends at its last issue that the observed store's clock reaches. A locked
    /// operation that opens a window is in front of it, so it does not end it.
    #[cold]
    fn windows(&self, trace: &[u8], missing: Name, observed: Name) -> Windows {
        let [p, q] = [missing, observed].map(|name| &self.stores[at(name)]);
        let primary = p.thread();
        let mut open = [0; THREADS];
        open[primary] = missing + 1;
        let mut threads = [None; THREADS];
        let mut rest = (0..missing + 1).fold(trace, |rest, _| behind(rest));
        let mut event = missing + 1;
        while event <= observed {
            let record = rest.first_chunk().expect("a crash and a load come behind the observed store");
            let thread = usize::from(record[4]) & (THREADS - 1);
            let first = open[thread];
            let reached = || self.stores[at(event)].clock[thread] <= q.clock[thread];
            let brings = |source: u16| self.stores[at(source as Name)].clock[primary] >= p.clock[primary];
            match record[2] {
                2 | 12 if first != 0 && reached() => {
                    threads[thread] = Some(Window { first: first as u16, last: event as u16 });
                }
                4 | 12 if first == 0 && brings(field(record, 8)) => open[thread] = event + 1,
                14 if first == 0 && brings(field(record, 6)) => open[thread] = event + 1,
                _ => {}
            }
            rest = behind(rest);
            event += 1;
        }
        Windows { primary: primary as u16, threads }
    }

    /// The kind of a broken trace. Two locations are on one line if they differ in the three lowest bits at most.
    #[cold]
    fn kind(&self, trace: &[u8], missing: Name, observed: Name) -> Kind {
        let [p, q] = [missing, observed].map(|name| self.stores[at(name)].location);
        match p ^ q {
            _ if missing == observed => Kind::Contradiction,
            0..=7 => Kind::Impossible,
            _ => Kind::Flush(self.windows(trace, missing, observed)),
        }
    }

    fn verdict(&self, trace: &[u8], events: u16) -> Verdict {
        if let Some(Evidence { load, missing, observed }) = self.evidence {
            let kind = self.kind(trace, missing, observed);
            let [load, missing, observed] = [load, missing, observed].map(|name| name as u16);
            return Verdict::Broken { events, load, missing, observed, kind };
        }
        let mut cut = [0; CUT];
        let mut inside = 0;
        for (row, stretch) in cut.chunks_exact_mut(THREADS).zip(&self.stretches[..usize::from(self.stretch)]) {
            for (count, (last, start)) in row.iter_mut().zip(stretch.cut.iter().zip(stretch.start)) {
                *count = (last - start) as u16;
                inside += u32::from(*count);
            }
        }
        let share = (100 * inside).checked_div(self.committed).unwrap_or(100);
        Verdict::Robust { events, share: share as u16, cut }
    }
}

impl Store {
    #[inline(always)]
    fn thread(&self) -> usize {
        usize::from(self.place) & (THREADS - 1)
    }

    #[inline(always)]
    fn stretch(&self) -> usize {
        usize::from(self.place) >> 3 & (STRETCHES - 1)
    }
}

impl Last {
    #[inline(always)]
    fn new(stretch: u8, store: u16) -> Self {
        Last(u32::from(stretch) << 16 | u32::from(store))
    }

    #[inline(always)]
    fn stretch(self) -> u32 {
        self.0 >> 16
    }

    /// The store, or 0 if there is none.
    #[inline(always)]
    fn store(self) -> Name {
        self.0 as Name
    }
}

/// The place of a store in its table.
#[inline(always)]
fn at(name: Name) -> usize {
    usize::from(name as u16) & (ROOM - 1)
}

/// The larger of two clocks at each thread.
#[inline(always)]
fn larger(a: &Clock, b: &Clock) -> Clock {
    std::array::from_fn(|thread| a[thread].max(b[thread]))
}

/// The length and the kind of a record as one number, the kind above.
#[inline(always)]
fn header(record: &[u8; 10]) -> u32 {
    u32::from_le_bytes([record[0], record[1], record[2], record[3]])
}

/// The two-byte number at a position of a record.
#[inline(always)]
fn field(record: &[u8; 10], at: usize) -> u16 {
    u16::from_le_bytes([record[at], record[at + 1]])
}

/// The bytes behind the record that the bytes start with, which can be framed.
#[inline(always)]
fn behind(bytes: &[u8]) -> &[u8] {
    let length = bytes.first_chunk().map_or(0, |length| u16::from_le_bytes(*length));
    &bytes[2 + usize::from(length)..]
}

/// The refusal of a record that cannot be read in a trace of a version, or 5 if it is a begin; `None` otherwise. There
/// is at least one byte.
#[cold]
fn unreadable(bytes: &[u8], version: u16) -> Option<u16> {
    let number = |at: usize| bytes.get(at..at + 2).map(|pair| u16::from_le_bytes([pair[0], pair[1]]));
    let Some(length) = number(0) else { return Some(2) };
    if length < 2 {
        return Some(4);
    }
    if bytes.len() - 2 < usize::from(length) {
        return Some(2);
    }
    let kind = number(2)?;
    if !KINDS.contains(&kind) || version == 1 && KINDS_OF_VERSION_2.contains(&kind) {
        return Some(3);
    }
    if HEADERS[usize::from(kind & 15)] & 0xffff != length.into() {
        return Some(4);
    }
    (kind == 1).then_some(5)
}

#[cfg(test)]
mod tests {
    use super::*;

    /// Begin with 1 thread and 2 locations, issue at 0, commit, crash, load from 1.
    const TRACE: [u8; 38] = [
        8, 0, 1, 0, 1, 0, 1, 0, 2, 0, 6, 0, 2, 0, 0, 0, 0, 0, 4, 0, 3, 0, 0, 0, 2, 0, 9, 0, 8, 0, 4, 0, 0, 0, 0, 0, 1,
        0,
    ];

    #[test]
    fn leftovers_of_earlier_calls_are_no_stores() {
        let mut fast = Fast::new();
        let robust = fast.judge(&TRACE);
        assert!(matches!(robust, Ok(Verdict::Robust { events: 4, share: 100, .. })));
        let without_store = [&TRACE[..10], &TRACE[24..]].concat();
        assert_eq!(fast.judge(&without_store), Err(Refusal { number: 9, event: 2 }));
        assert_eq!(fast.judge(&TRACE), robust);
    }

    #[test]
    fn leftovers_of_earlier_calls_are_no_signals() {
        let mut fast = Fast::new();
        let [signal, fence, wait] = [&[4, 0, 13, 0, 0, 0][..], &[4, 0, 7, 0, 0, 0], &[6, 0, 14, 0, 0, 0, 1, 0]];
        let robust = fast.judge(&[&TRACE[..10], signal, wait].concat());
        assert!(matches!(robust, Ok(Verdict::Robust { events: 2, share: 100, .. })));
        let without_signal = [&TRACE[..10], fence, wait].concat();
        assert_eq!(fast.judge(&without_signal), Err(Refusal { number: 18, event: 2 }));
    }

    #[test]
    fn the_number_of_the_call_wraps_around() {
        let mut fast = Fast::new();
        let robust = fast.judge(&TRACE);
        fast.call = u32::MAX - 3;
        for _ in 0..4 {
            assert_eq!(fast.judge(&TRACE), robust);
        }
        assert_eq!(fast.call, 6);
    }

    #[test]
    fn every_kind_but_those_that_there_are_is_unknown() {
        for kind in 0..=u16::MAX {
            let [low, high] = kind.to_le_bytes();
            let record = [2, 0, low, high];
            let expected = match kind {
                9 => [None; 2],
                1..=14 => [Some(4); 2],
                15..=16 => [Some(3), Some(4)],
                _ => [Some(3); 2],
            };
            assert_eq!([1, 2].map(|version| unreadable(&record, version)), expected);
            assert!(kind == 9 || HEADERS[usize::from(kind & 15)] != u32::from_le_bytes(record));
        }
    }
}
