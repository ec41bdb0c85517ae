//! A trace that grows by events which the machine's rules allow.

use super::settings::{Memory, Settings};
use super::spread::Spread;
use super::Random;
use std::collections::VecDeque;

/// The events by which a store is handed on by a load.
const HAND_ON: u16 = 3;

/// The most events of a hand-over by a signal.
const HAND_OVER: u16 = 11;

/// The most events of a compare-and-swap chain.
const SWAP_CHAIN: u16 = 6;

/// The trace so far and the state that the rules ask for. Buffers are kept from one trace to the next.
pub struct Draft {
    pub bytes: Vec<u8>,
    /// The number of the last event.
    pub events: u16,
    pub version: u16,
    pub threads: u16,
    pub locations: u16,
    pub crashes: u16,
    /// The locations that are used.
    used: Vec<u16>,
    /// The waiting stores of each thread with their locations.
    queues: Vec<VecDeque<(u16, u16)>>,
    /// Bit t is set while a skip of thread t is on.
    skips: u16,
    /// Bit t is set while thread t is open.
    open: u16,
    /// Bit t is set if the loads that thread t holds read half-written data.
    torn: u16,
    /// The store committed last in this stretch to each location, or 0.
    current: Vec<u16>,
    /// The commits of this stretch: store, location, thread.
    commits: Vec<(u16, u16, u16)>,
    /// The stores committed in earlier stretches with their locations.
    landed: Vec<(u16, u16)>,
    /// The store that stayed at each location, or 0.
    memory: Vec<u16>,
    /// The signals of this stretch.
    pub signals: Vec<u16>,
    /// The signals of earlier stretches.
    pub ended: Vec<u16>,
    /// The thread that waited for a signal last.
    waited: Option<u16>,
}

impl Draft {
    /// A draft with empty buffers and no trace.
    pub fn new() -> Self {
        Draft {
            bytes: Vec::new(),
            events: 0,
            version: 0,
            threads: 0,
            locations: 0,
            crashes: 0,
            used: Vec::new(),
            queues: (0..9).map(|_| VecDeque::new()).collect(),
            skips: 0,
            open: 0,
            torn: 0,
            current: vec![0; 257],
            commits: Vec::new(),
            landed: Vec::new(),
            memory: vec![0; 257],
            signals: Vec::new(),
            ended: Vec::new(),
            waited: None,
        }
    }

    /// Starts a trace with a begin. Every location is used.
    pub fn begin(&mut self, version: u16, threads: u16, locations: u16) {
        self.bytes.clear();
        self.put(1, &[version, threads, locations]);
        self.events = 0;
        self.version = version;
        self.threads = threads;
        self.locations = locations;
        self.crashes = 0;
        self.used.clear();
        self.used.extend(0..locations);
        self.queues.iter_mut().for_each(VecDeque::clear);
        self.skips = 0;
        self.open = 0;
        self.current.fill(0);
        self.commits.clear();
        self.landed.clear();
        self.memory.fill(0);
        self.signals.clear();
        self.ended.clear();
        self.waited = None;
    }

    /// Starts a trace of some version, few threads and few used locations.
    pub fn begin_some(&mut self, random: &Random) {
        self.begin_version(random.between(1, 2), random);
    }

    /// Starts a trace of few threads and few used locations.
    pub fn begin_version(&mut self, version: u16, random: &Random) {
        let threads = random.pick(&[1, 1, 1, 2, 2, 2, 2, 3, 3, 4, 8]);
        self.begin_spread(version, threads, random.pick(&[1, 2, 3, 3, 4, 5]), random);
    }

    /// Starts a trace of some version, several threads and several used locations.
    pub fn begin_several(&mut self, random: &Random) {
        let threads = random.pick(&[2, 2, 3, 3, 4, 8]);
        self.begin_spread(random.between(1, 2), threads, random.between(3, 6), random);
    }

    /// Starts a trace that uses so many locations, in some spread over the cache lines.
    fn begin_spread(&mut self, version: u16, threads: u16, count: u16, random: &Random) {
        let used = Spread::draw(random).locations(count, random);
        let least = 1 + used.iter().max().expect("at least one location");
        self.begin(version, threads, (least + random.pick(&[0, 0, 1, 9])).min(256));
        self.used = used;
    }

    /// Uses that many locations, which is at most all of them: some that stand evenly apart.
    pub fn use_some(&mut self, count: u16, random: &Random) {
        let apart = random.between(1, self.locations / count);
        let first = random.between(0, self.locations - 1);
        self.used.clear();
        self.used.extend((0..count).map(|number| (first + number * apart) % self.locations));
    }

    /// Uses the last location too.
    pub fn use_last(&mut self) {
        self.used.push(self.locations - 1);
    }

    /// Appends a record.
    pub fn put(&mut self, kind: u16, fields: &[u16]) {
        for number in [2 + 2 * fields.len() as u16, kind].iter().chain(fields) {
            self.bytes.extend_from_slice(&number.to_le_bytes());
        }
        self.events += 1;
    }

    /// Some thread of the trace.
    pub fn some_thread(&self, random: &Random) -> u16 {
        random.between(0, self.threads - 1)
    }

    /// Some other thread than the one given, if there is another.
    fn another_thread(&self, thread: u16, random: &Random) -> u16 {
        (thread + random.between(1, self.threads.max(2) - 1)) % self.threads
    }

    /// Some location of those in use.
    pub fn some_location(&self, random: &Random) -> u16 {
        random.pick(&self.used)
    }

    /// Whether a thread has no waiting store.
    fn drained(&self, thread: u16) -> bool {
        self.queues[usize::from(thread)].is_empty()
    }

    /// A thread whose queue is empty, or one whose queue is not.
    pub fn thread_with_queue(&self, empty: bool, random: &Random) -> Option<u16> {
        let first = random.between(0, self.threads - 1);
        let threads = (0..self.threads).map(|step| (first + step) % self.threads);
        threads.into_iter().find(|&thread| self.drained(thread) == empty)
    }

    /// Appends allowed events up to an event number. Crashes stop at seven.
    pub fn grow(&mut self, events: u16, settings: &Settings, random: &Random) {
        while self.events < events {
            let early = self.commits.len() < settings.commits;
            if random.below(10_000) >= settings.crash || self.crashes == 7 || early {
                self.pattern_or_step(events - self.events, settings, random);
                continue;
            }
            self.crash(settings, random);
            let loads = random.below(settings.loads_after_crash + 1) as u16;
            self.load_after_crash(loads.min(events - self.events), settings, random);
        }
    }

    /// Appends so many events of threads that have no waiting store, most of them loads. Some are in regions.
    fn load_after_crash(&mut self, more: u16, settings: &Settings, random: &Random) {
        let end = self.events + more;
        while self.events < end {
            let thread = self.some_thread(random);
            if self.version == 2 && random.below(100) < settings.regions_after_crash {
                self.region(thread, end, settings, random);
            } else {
                self.load_or_lock(thread, settings, random);
            }
        }
    }

    /// Opens a thread, if it is not open, and appends some loads, most of them of that thread, and most often a close.
    /// Ends at an event number at the latest.
    fn region(&mut self, thread: u16, end: u16, settings: &Settings, random: &Random) {
        if !self.opened(thread) {
            self.open_or_close(thread, settings, random);
        }
        let room = (end - self.events).saturating_sub(1);
        for _ in 0..room.min(random.pick(&[0, 1, 3, 5, 8, 12])) {
            match random.below(100) {
                0..=14 => self.load_or_lock(self.some_thread(random), settings, random),
                drawn if drawn < 15 + 8 * settings.skip => self.skip(thread),
                _ => self.load_or_lock(thread, settings, random),
            }
        }
        if self.events < end && !random.once_in(8) {
            self.open_or_close(thread, settings, random);
        }
    }

    /// Appends a load, or now and then a locked operation, of a thread that has no waiting store.
    fn load_or_lock(&mut self, thread: u16, settings: &Settings, random: &Random) {
        let location = self.some_location(random);
        if random.below(100) < settings.locked_after_crash {
            self.locked(thread, location, settings, random);
        } else {
            self.load(thread, location, settings, random);
        }
    }

    /// Appends one of the patterns, if one is drawn and there is room for it, else one event.
    fn pattern_or_step(&mut self, room: u16, settings: &Settings, random: &Random) {
        let drawn = room >= HAND_ON && self.hand_on(settings, random)
            || room >= HAND_OVER && self.hand_over(settings, random)
            || room >= SWAP_CHAIN && self.swap_chain(settings, random);
        if !drawn {
            self.step(settings, random);
        }
    }

    /// Appends so many allowed events, none of them a crash.
    pub fn grow_without_crash(&mut self, more: u16, settings: &Settings, random: &Random) {
        (0..more).for_each(|_| self.step(settings, random));
    }

    /// Appends an allowed event that is no crash.
    fn step(&mut self, settings: &Settings, random: &Random) {
        let Settings { issue, commit, load, flush, fence, skip, locked, signal, wait, .. } = *settings;
        let region = if self.version == 2 { settings.region } else { 0 };
        let weights = [issue, commit, load, flush, fence, skip, locked, signal, wait, region];
        let mut drawn = random.below(weights.iter().sum());
        let mut action = 0;
        while drawn >= weights[action] {
            drawn -= weights[action];
            action += 1;
        }
        let thread = self.some_thread(random);
        let location = self.some_location(random);
        match action {
            0 => self.issue(thread, location),
            1 => match self.thread_with_queue(false, random) {
                Some(thread) => self.commit(thread),
                None => self.issue(thread, location),
            },
            2 => self.load(thread, location, settings, random),
            3 => self.put(random.between(5, 6), &[thread, location]),
            4 if self.drained(thread) => self.put(random.between(7, 8), &[thread]),
            4 => self.sfence(thread),
            5 => self.skip(thread),
            9 => self.open_or_close(thread, settings, random),
            8 if !self.signals.is_empty() => self.wait(thread, random.pick(&self.signals)),
            _ => match self.thread_with_queue(true, random) {
                Some(thread) if action == 6 => self.locked(thread, location, settings, random),
                Some(thread) => self.signal(thread),
                None => self.commit(thread),
            },
        }
    }

    /// Now and then, another thread loads the store that was committed last, and a store of its own takes effect. Gives
    /// whether that was so. Several in a row are a chain of happens-before over several threads.
    fn hand_on(&mut self, settings: &Settings, random: &Random) -> bool {
        if random.below(100) >= settings.hand_on || self.threads == 1 {
            return false;
        }
        let Some(&(_, location, giver)) = self.commits.last() else { return false };
        let taker = self.another_thread(giver, random);
        self.load(taker, location, settings, random);
        self.store(taker, random);
        true
    }

    /// Now and then, a thread signals, and one or two threads wait for it, of which most store then; one of them may be
    /// the thread itself. Before they wait, it may store or load, which is not handed over. Gives whether that was so.
    /// Several in a row are a chain, in which a thread may pass on what came to it by waits or loads alone.
    fn hand_over(&mut self, settings: &Settings, random: &Random) -> bool {
        if random.below(100) >= settings.hand_over {
            return false;
        }
        let Some(giver) = self.giver(random) else { return false };
        match (random.below(4), self.commits.last()) {
            (0 | 1, _) => self.store(giver, random),
            (2, Some(&(_, location, _))) => self.load(giver, location, settings, random),
            _ => {}
        }
        self.signal(giver);
        let signal = self.events;
        match random.below(4) {
            0 => self.store(giver, random),
            1 => self.load(giver, self.some_location(random), settings, random),
            _ => {}
        }
        for _ in 0..random.pick(&[1, 1, 2]) {
            let taker = if random.once_in(8) { giver } else { self.another_thread(giver, random) };
            self.wait(taker, signal);
            if !random.once_in(3) {
                self.store(taker, random);
            }
        }
        true
    }

    /// A thread that may signal: most often the one that waited or committed last.
    fn giver(&self, random: &Random) -> Option<u16> {
        let committed = self.commits.last().map(|&(_, _, thread)| thread);
        let drawn = random.pick(&[self.waited, committed, None]);
        drawn.filter(|&thread| self.drained(thread)).or_else(|| self.thread_with_queue(true, random))
    }

    /// Issues a store to some location and commits the thread's oldest one.
    fn store(&mut self, thread: u16, random: &Random) {
        self.issue(thread, self.some_location(random));
        self.commit(thread);
    }

    /// Now and then, threads with an empty queue take turns in compare-and-swaps at one location, each of which loads
    /// what the one before stored. Some store elsewhere first, which the compare-and-swap publishes. Gives whether that
    /// was so.
    fn swap_chain(&mut self, settings: &Settings, random: &Random) -> bool {
        let first = self.thread_with_queue(true, random);
        let (Some(mut thread), true) = (first, random.below(100) < settings.swap_chain) else { return false };
        let location = self.some_location(random);
        let publishes = random.pick(&[1, 1, 2]);
        let end = self.events + random.between(3, SWAP_CHAIN);
        while self.events < end {
            if random.once_in(publishes) && self.events + 2 < end {
                self.store(thread, random);
            }
            self.locked(thread, location, settings, random);
            let next = self.another_thread(thread, random);
            thread = if self.drained(next) { next } else { thread };
        }
        true
    }

    /// Issues a store.
    pub fn issue(&mut self, thread: u16, location: u16) {
        self.put(2, &[thread, location]);
        self.queues[usize::from(thread)].push_back((self.events, location));
    }

    /// Commits the oldest waiting store of a thread that has one.
    pub fn commit(&mut self, thread: u16) {
        if let Some((store, location)) = self.queues[usize::from(thread)].pop_front() {
            self.put(3, &[thread]);
            self.take_effect(store, location, thread);
        }
    }

    /// Notes that a store takes effect.
    fn take_effect(&mut self, store: u16, location: u16, thread: u16) {
        self.current[usize::from(location)] = store;
        self.commits.push((store, location, thread));
    }

    /// Fences, which every thread may at any time.
    pub fn sfence(&mut self, thread: u16) {
        self.put(7, &[thread]);
    }

    /// A signal of a thread that has no waiting store.
    pub fn signal(&mut self, thread: u16) {
        self.put(13, &[thread]);
        self.signals.push(self.events);
    }

    /// Waits for a signal of this stretch.
    pub fn wait(&mut self, thread: u16, signal: u16) {
        self.put(14, &[thread, signal]);
        self.waited = Some(thread);
    }

    /// Whether a skip of the thread is on.
    pub fn skips(&self, thread: u16) -> bool {
        self.skips >> thread & 1 == 1
    }

    /// Turns the thread's skip on or off.
    fn skip(&mut self, thread: u16) {
        self.put(if self.skips(thread) { 11 } else { 10 }, &[thread]);
        self.skips ^= 1 << thread;
    }

    /// Whether a thread is open.
    pub fn opened(&self, thread: u16) -> bool {
        self.open >> thread & 1 == 1
    }

    /// Whether a thread is in a region whose loads read half-written data.
    fn reads_torn(&self, thread: u16) -> bool {
        (self.open & self.torn) >> thread & 1 == 1
    }

    /// Opens a thread, or closes it if it is open. Most often, what read half-written data is dropped, and the rest
    /// counts.
    pub fn open_or_close(&mut self, thread: u16, settings: &Settings, random: &Random) {
        let bit = 1 << thread;
        if self.opened(thread) {
            let counts =
                if self.reads_torn(thread) { random.below(100) < settings.wrong_sum } else { !random.once_in(8) };
            self.put(16, &[thread, counts.into()]);
        } else {
            self.put(15, &[thread]);
            self.torn = if random.below(100) < settings.torn { self.torn | bit } else { self.torn & !bit };
        }
        self.open ^= bit;
    }

    /// Loads from an allowed source.
    fn load(&mut self, thread: u16, location: u16, settings: &Settings, random: &Random) {
        self.put(4, &[thread, location, self.source(thread, location, settings, random)]);
    }

    /// A locked operation of a thread that has no waiting store.
    fn locked(&mut self, thread: u16, location: u16, settings: &Settings, random: &Random) {
        self.put(12, &[thread, location, self.source(thread, location, settings, random)]);
        self.take_effect(self.events, location, thread);
    }

    /// An allowed source of a load.
    pub fn source(&self, thread: u16, location: u16, settings: &Settings, random: &Random) -> u16 {
        match self.named_source(thread, location) {
            Some(store) => store,
            None if self.reads_torn(thread) => self.some_source(location, random),
            None if random.below(1_000) < settings.any_source => self.some_source(location, random),
            None => self.memory[usize::from(location)],
        }
    }

    /// The only source that a load may have if it is not crossing.
    fn named_source(&self, thread: u16, location: u16) -> Option<u16> {
        let waiting = self.queues[usize::from(thread)].iter().rev().find(|(_, place)| *place == location);
        let current = self.current[usize::from(location)];
        waiting.map(|(store, _)| *store).or((current != 0).then_some(current))
    }

    /// 0 or some store to a location that was committed in an earlier stretch.
    fn some_source(&self, location: u16, random: &Random) -> u16 {
        let here = || self.landed.iter().filter(|(_, place)| *place == location);
        let drawn = random.below(here().count() + 1);
        here().nth(drawn).map_or(0, |(store, _)| *store)
    }

    /// Whether the load rule allows a source.
    pub fn allows(&self, thread: u16, location: u16, source: u16) -> bool {
        match self.named_source(thread, location) {
            Some(store) => store == source,
            None => source == 0 || self.landed.contains(&(source, location)),
        }
    }

    /// Appends a crash, be it allowed or not.
    pub fn crash(&mut self, settings: &Settings, random: &Random) {
        self.put(9, &[]);
        self.crashes += 1;
        self.keep(settings.memory, random);
        self.landed.extend(self.commits.drain(..).map(|(store, location, _)| (store, location)));
        self.queues.iter_mut().for_each(VecDeque::clear);
        self.current.fill(0);
        self.skips = 0;
        self.open = 0;
        self.ended.append(&mut self.signals);
        self.waited = None;
    }

    /// Draws what stays of the stretch's stores.
    fn keep(&mut self, memory: Memory, random: &Random) {
        let mut points = [0; 9];
        let all = self.commits.len();
        let most = if matches!(memory, Memory::LastThread) { all / 2 } else { all };
        for point in &mut points {
            *point = random.pick(&[0, random.below(most + 1), random.below(most + 1), most]);
        }
        if let (Memory::LastThread, Some(&(_, _, thread))) = (memory, self.commits.last()) {
            points[usize::from(thread)] = all;
        }
        for (place, &(store, location, thread)) in self.commits.iter().enumerate() {
            let point = match memory {
                Memory::InOrder => points[0],
                Memory::ByThread | Memory::LastThread => points[usize::from(thread)],
                Memory::ByLocation => points[usize::from(location) % points.len()],
            };
            if place < point {
                self.memory[usize::from(location)] = store;
            }
        }
    }
}
