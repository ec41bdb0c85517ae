//! Compares the library, the reference and the fast judge on a trace: the answers, and what the lent buffers hold
//! after.

use crate::fast::Fast;
use crate::generator::Random;
use crate::reference::{self, Accepted};
use crate::types::{Event, Kind, Order, Refusal, Verdict, Window, CUT, LARGEST_RECORD, WORK};
use crate::{ffi, wrapper};
use std::fmt::Debug;

/// The most numbers that are lent beyond the least work area.
const EXTRA: usize = 64;

/// The most choices of a trace that is also judged by trying them all.
const CHOICES: usize = 2_000;

/// The most events of a trace whose stores are queried in all pairs whenever it comes up, and now and then.
const ALL_PAIRS: u16 = 8;
const ALL_PAIRS_AT_TIMES: u16 = 20;

/// What the numbers of the library's verdict are, up to the places of the windows.
const JUDGE: &str = "library: refusal, event, verdict, events, share, load, missing, observed, kind, primary + 1";

/// Where the primary thread and the places of the windows stand among the numbers of the library's verdict.
const PRIMARY: usize = 9;
const PLACES: usize = 10;

/// What was met in a comparison.
#[derive(Clone, Debug, Default, PartialEq, Eq)]
pub struct Counts {
    /// All traces.
    pub traces: u64,
    /// Traces judged robust.
    pub robust: u64,
    /// Traces judged robust whose least choice has a store in.
    pub robust_with_stores: u64,
    /// Traces of no bytes. Of each, all is compared that is asked of other traces now and then: order queries, reading,
    /// framing, buffers of a wrong size, and the verdict by trying all choices.
    pub no_bytes: u64,
    /// Traces judged broken by a contradiction.
    pub contradiction: u64,
    /// Traces judged broken by a missing flush.
    pub flush: u64,
    /// Those whose primary thread has no window.
    pub primary_without_window: u64,
    /// Those with windows of several threads.
    pub several_windows: u64,
    /// Those whose observed store's thread has no window.
    pub observing_without_window: u64,
    /// Those whose locations are fewer than eight apart, at the border of two cache lines.
    pub flush_at_border: u64,
    /// Traces judged broken by two stores on one cache line.
    pub impossible: u64,
    /// Those whose stores are at two locations.
    pub impossible_apart: u64,
    /// Accepted traces with a locked operation.
    pub locked: u64,
    /// Broken traces whose load is a locked operation.
    pub load_locked: u64,
    /// Broken traces whose missing store is a locked operation's.
    pub missing_locked: u64,
    /// Broken traces whose observed store is a locked operation's.
    pub observed_locked: u64,
    /// Accepted traces with a wait.
    pub waits: u64,
    /// Broken traces that are robust with an sfence in place of each wait.
    pub broken_by_waits: u64,
    /// Traces judged broken by a missing flush with a window that a wait opens.
    pub opened_by_waits: u64,
    /// Accepted traces with a close as of which loads count.
    pub counting_closes: u64,
    /// Those with a close that counts several loads.
    pub several_held: u64,
    /// Broken traces whose load is a close.
    pub broken_at_close: u64,
    /// Robust traces that are broken with an sfence in place of each open and close.
    pub robust_by_drops: u64,
    /// Refused traces, by the number of the refusal.
    pub refused: [u64; 20],
    /// Accepted traces that were also judged by trying all choices.
    pub all_choices: u64,
    /// Broken traces among those.
    pub all_choices_broken: u64,
    /// Traces whose order queries were compared for all pairs of numbers.
    pub all_pairs: u64,
    /// Order queries.
    pub queries: u64,
    /// Calls with a work area or a cut buffer of a wrong size.
    pub wrong_buffers: u64,
    /// Records that were read, written and framed.
    pub records: u64,
}

/// The buffers and counts of a comparison.
pub struct Comparison {
    work: Vec<u16>,
    cut: Vec<u16>,
    fast: Fast,
    /// What was met so far.
    pub counts: Counts,
}

impl Default for Comparison {
    fn default() -> Self {
        Self::new()
    }
}

/// A difference, told in words, if the two are not the same.
fn same<T: PartialEq + Debug>(what: &str, answer: T, reference: T) -> Result<(), String> {
    if answer == reference {
        return Ok(());
    }
    Err(format!("{what}\n  answer:    {answer:?}\n  reference: {reference:?}"))
}

impl Comparison {
    /// A comparison that has met nothing yet.
    #[must_use]
    pub fn new() -> Self {
        Comparison { work: vec![0; WORK + EXTRA], cut: vec![0; 2 * CUT], fast: Fast::new(), counts: Counts::default() }
    }

    /// Compares all that is asked of one trace. The random numbers choose the checks that are made now and then; of no
    /// bytes each is made.
    ///
    /// # Errors
    ///
    /// A difference, told in words.
    pub fn check(&mut self, trace: &[u8], random: &Random) -> Result<(), String> {
        let accepted = reference::accept(trace);
        let expected = accepted.as_ref().map(Accepted::verdict).map_err(|refusal| *refusal);
        let at_times = |times| trace.is_empty() || random.once_in(times);
        self.count(&expected);
        self.counts.no_bytes += u64::from(trace.is_empty());
        self.check_judge(trace, &expected, random)?;
        same("fast judge", self.fast.judge(trace), expected)?;
        if let Ok(verdict) = &expected {
            let events = events_of(trace);
            self.count_lines(&events, verdict);
            self.count_locked(&events, verdict);
            self.count_waits(&events, verdict);
            self.count_closes(&events, verdict, &accepted.as_ref().map_or(Vec::new(), Accepted::counting));
        }
        if at_times(2) {
            self.check_all_choices(trace, &expected)?;
        }
        match &accepted {
            Ok(accepted) => self.check_orders(trace, accepted, &expected, random)?,
            Err(refusal) if at_times(4) => {
                let [first, second] = [0, 1].map(|_| random.between(0, 20));
                self.check_order(trace, first, second, Err(*refusal), random)?;
            }
            Err(_) => {}
        }
        if at_times(16) {
            self.check_wrong_buffers(trace, random)?;
        }
        if at_times(8) {
            self.check_records(trace, random)?;
        }
        Ok(())
    }

    fn count(&mut self, answer: &Result<Verdict, Refusal>) {
        self.counts.traces += 1;
        let has_stores = |cut: &[u16; CUT]| cut.iter().any(|&count| count > 0);
        self.counts.robust_with_stores +=
            u64::from(matches!(answer, Ok(Verdict::Robust { cut, .. }) if has_stores(cut)));
        *match answer {
            Ok(Verdict::Robust { .. }) => &mut self.counts.robust,
            Ok(Verdict::Broken { kind: Kind::Contradiction, .. }) => &mut self.counts.contradiction,
            Ok(Verdict::Broken { kind: Kind::Flush(windows), .. }) => {
                let there = windows.threads.iter().flatten().count();
                self.counts.primary_without_window +=
                    u64::from(windows.threads[usize::from(windows.primary)].is_none());
                self.counts.several_windows += u64::from(there > 1);
                &mut self.counts.flush
            }
            Ok(Verdict::Broken { kind: Kind::Impossible, .. }) => &mut self.counts.impossible,
            Err(refusal) => &mut self.counts.refused[usize::from(refusal.number)],
        } += 1;
    }

    /// Counts how far apart the locations of a broken trace's two stores are.
    fn count_lines(&mut self, events: &[Event], verdict: &Verdict) {
        let &Verdict::Broken { missing, observed, kind, .. } = verdict else { return };
        let [missing, observed] = [missing, observed].map(|number| location_of(&events[usize::from(number)]));
        let apart = missing.abs_diff(observed);
        self.counts.flush_at_border += u64::from(matches!(kind, Kind::Flush(_)) && apart < 8);
        self.counts.impossible_apart += u64::from(kind == Kind::Impossible && apart > 0);
    }

    /// Counts what a verdict says of the locked operations of its trace.
    fn count_locked(&mut self, events: &[Event], verdict: &Verdict) {
        self.counts.locked += u64::from(events.iter().any(|event| matches!(event, Event::Locked { .. })));
        let &Verdict::Broken { load, missing, observed, kind, .. } = verdict else { return };
        let thread_of = |number: u16| match events[usize::from(number)] {
            Event::Locked { thread, .. } => Some(thread),
            _ => None,
        };
        self.counts.load_locked += u64::from(thread_of(load).is_some());
        self.counts.missing_locked += u64::from(thread_of(missing).is_some());
        self.counts.observed_locked += u64::from(thread_of(observed).is_some());
        if let (Some(thread), Kind::Flush(windows)) = (thread_of(observed), kind) {
            self.counts.observing_without_window += u64::from(windows.threads[usize::from(thread)].is_none());
        }
    }

    /// Counts what a verdict owes to the waits of its trace.
    fn count_waits(&mut self, events: &[Event], verdict: &Verdict) {
        let is_wait = |event: &Event| matches!(event, Event::Wait { .. });
        if !events.iter().any(is_wait) {
            return;
        }
        self.counts.waits += 1;
        let &Verdict::Broken { kind, .. } = verdict else { return };
        let without = self.fast.judge(&fenced(events, is_wait));
        self.counts.broken_by_waits += u64::from(matches!(without, Ok(Verdict::Robust { .. })));
        if let Kind::Flush(windows) = kind {
            let opens = |window: &Window| is_wait(&events[usize::from(window.first) - 1]);
            self.counts.opened_by_waits += u64::from(windows.threads.iter().flatten().any(opens));
        }
    }

    /// Counts what a verdict owes to the closes of its trace; `counting` has the events as of which loads count, and
    /// how many.
    fn count_closes(&mut self, events: &[Event], verdict: &Verdict, counting: &[(u16, usize)]) {
        let is_close = |number: u16| matches!(events[usize::from(number)], Event::Close { .. });
        let several = |&(event, loads): &(u16, usize)| is_close(event) && loads > 1;
        self.counts.counting_closes += u64::from(counting.iter().any(|&(event, _)| is_close(event)));
        self.counts.several_held += u64::from(counting.iter().any(several));
        match *verdict {
            Verdict::Broken { load, .. } => self.counts.broken_at_close += u64::from(is_close(load)),
            Verdict::Robust { .. } => {
                let bounds = |event: &Event| matches!(event, Event::Open { .. } | Event::Close { .. });
                let without = events.iter().any(bounds).then(|| self.fast.judge(&fenced(events, bounds)));
                self.counts.robust_by_drops += u64::from(matches!(without, Some(Ok(Verdict::Broken { .. }))));
            }
        }
    }

    /// Fills the work area with a number that is not 0. Gives that number.
    fn fill_work(&mut self, random: &Random) -> u16 {
        let pattern = random.between(1, u16::MAX);
        self.work.fill(pattern);
        pattern
    }

    /// Whether the work area holds a pattern from some place on, and only 0 before it.
    fn work_holds(&self, cleared: usize, pattern: u16) -> Result<(), String> {
        let differences = |part: &[u16], number: u16| part.iter().fold(0, |all, &each| all | (each ^ number));
        let (front, rest) = self.work.split_at(cleared);
        if differences(front, 0) | differences(rest, pattern) == 0 {
            return Ok(());
        }
        let wrong = self.work.iter().enumerate().find(|(at, &is)| is != if *at < cleared { 0 } else { pattern });
        Err(format!(
            "library, work area, lent full of {pattern}, of which {cleared} are to be 0: (place, number) {wrong:?}"
        ))
    }

    /// The library's verdict, the cut buffer and the work area.
    fn check_judge(
        &mut self,
        trace: &[u8],
        expected: &Result<Verdict, Refusal>,
        random: &Random,
    ) -> Result<(), String> {
        let pattern = self.fill_work(random);
        let lent = WORK + random.below(EXTRA + 1);
        self.cut.fill(pattern);
        let answer = ffi::judge(trace, &mut self.work[..lent], &mut self.cut[..CUT]);
        same_answer(&answer, &answer_of(expected))?;
        let cut = match expected {
            Ok(Verdict::Robust { cut, .. }) => *cut,
            _ => [pattern; CUT],
        };
        same("library, cut buffer", &self.cut[..CUT], &cut)?;
        same("library, behind the cut buffer", &self.cut[CUT..], &[pattern; CUT])?;
        self.work_holds(WORK, pattern)
    }

    /// The reference against itself: the verdict by trying all choices.
    fn check_all_choices(&mut self, trace: &[u8], expected: &Result<Verdict, Refusal>) -> Result<(), String> {
        let Some(answer) = reference::judge_by_all_choices(trace, CHOICES) else { return Ok(()) };
        self.counts.all_choices += u64::from(answer.is_ok());
        self.counts.all_choices_broken += u64::from(matches!(answer, Ok(Verdict::Broken { .. })));
        same("reference by all choices", &answer, expected)
    }

    /// Order queries on an accepted trace: if it is small, or no bytes, all pairs and a pair of any numbers, else one
    /// pair, which may be that of the evidence.
    fn check_orders(
        &mut self,
        trace: &[u8],
        accepted: &Accepted,
        expected: &Result<Verdict, Refusal>,
        random: &Random,
    ) -> Result<(), String> {
        let &Ok(Verdict::Robust { events, .. } | Verdict::Broken { events, .. }) = expected else { return Ok(()) };
        if events <= ALL_PAIRS || events <= ALL_PAIRS_AT_TIMES && random.once_in(64) {
            self.counts.all_pairs += 1;
            for first in 0..=events + 1 {
                for second in 0..=events + 1 {
                    self.check_order(trace, first, second, accepted.order(first, second), random)?;
                }
            }
            let [first, second] = [0, 1].map(|_| random.between(0, u16::MAX));
            self.check_order(trace, first, second, accepted.order(first, second), random)?;
        } else if random.once_in(2) {
            let [first, second] = match *expected {
                Ok(Verdict::Broken { missing, observed, .. }) if random.once_in(4) => [missing, observed],
                _ => [0, 1].map(|_| random.between(0, events + 1)),
            };
            self.check_order(trace, first, second, accepted.order(first, second), random)?;
        }
        Ok(())
    }

    /// One order query, and the work area after it.
    fn check_order(
        &mut self,
        trace: &[u8],
        first: u16,
        second: u16,
        expected: Result<Order, Refusal>,
        random: &Random,
    ) -> Result<(), String> {
        self.counts.queries += 1;
        let pattern = self.fill_work(random);
        let lent = WORK + random.below(EXTRA + 1);
        let answer = ffi::order(trace, &mut self.work[..lent], first, second);
        let numbers = match expected {
            Ok(Order::Before) => [0, 0, 1],
            Ok(Order::After) => [0, 0, 2],
            Ok(Order::Same) => [0, 0, 3],
            Ok(Order::Neither) => [0, 0, 4],
            Err(Refusal { number, event }) => [number, event, 0],
        };
        same(&format!("library, order of {first} and {second}: refusal, event, standing"), answer, numbers)?;
        self.work_holds(WORK, pattern)
    }

    /// "refusals 14 and 15 touch nothing", and 14 comes before 15.
    fn check_wrong_buffers(&mut self, trace: &[u8], random: &Random) -> Result<(), String> {
        self.counts.wrong_buffers += 1;
        let pattern = self.fill_work(random);
        self.cut.fill(pattern);
        let work = random.pick(&[0, 1, random.below(WORK), WORK - 1, WORK, WORK + 1]);
        let wrong_cuts = [0, 1, CUT - 1, CUT + 1, 2 * CUT];
        let cut = if work < WORK && random.once_in(2) { CUT } else { random.pick(&wrong_cuts) };
        let number = if work < WORK { 14 } else { 15 };
        let answer = ffi::judge(trace, &mut self.work[..work], &mut self.cut[..cut]);
        same("library, judge with wrong buffers", answer, answer_of(&Err(Refusal { number, event: 0 })))?;
        if work < WORK {
            let [first, second] = [0, 1].map(|_| random.between(0, 20));
            let answer = ffi::order(trace, &mut self.work[..work], first, second);
            same("library, order with a work area too small", answer, [14, 0, 0])?;
        }
        same("library, cut buffer after a refusal of buffers", &self.cut[..], &[pattern; 2 * CUT])?;
        self.work_holds(0, pattern)
    }

    /// The record layer: reads record by record, writes each event again, frames each record.
    fn check_records(&mut self, trace: &[u8], random: &Random) -> Result<(), String> {
        let (mut at, mut number) = (0, 0);
        loop {
            let read = reference::read_at(trace, at);
            check_read(trace, at, &read)?;
            let Ok((event, next)) = read else { break };
            check_write(&event, &trace[at..next], random)?;
            if number < 64 {
                check_frame(trace, number)?;
            }
            (at, number) = (next, number + 1);
        }
        self.counts.records += number as u64;
        for e in [number, number + 1, number + 2, random.below(100), usize::MAX - random.below(2)] {
            check_frame(trace, e)?;
        }
        for _ in 0..4 {
            let at = random.below(trace.len() + 8);
            check_read(trace, at, &reference::read_at(trace, at))?;
        }
        check_read(trace, usize::MAX, &reference::read_at(trace, usize::MAX))
    }
}

/// Reading at a position: the wrapper's answer, and all numbers of the library's record.
fn check_read(trace: &[u8], at: usize, expected: &Result<(Event, usize), Refusal>) -> Result<(), String> {
    same("library, read_at", &wrapper::read_at(trace, at), expected)?;
    let (next, record) = ffi::read(trace, at);
    match expected {
        Ok((event, end)) => same("library, numbers of a record", (next, record), (*end, wrapper::record_of(event))),
        Err(refusal) => same("library, refusal of a record", (next, record[0]), (0, refusal.number)),
    }
}

/// Writing an event: the bytes, the bytes behind them, and what happens if the output is too short.
fn check_write(event: &Event, bytes: &[u8], random: &Random) -> Result<(), String> {
    const ROOM: usize = LARGEST_RECORD + 4;
    let pattern = random.below(256) as u8;
    let room = random.between(0, ROOM as u16).into();
    let mut library = [pattern; ROOM];
    let mut expected = [pattern; ROOM];
    let answer = wrapper::write(event, &mut library[..room]);
    same("library, write", answer, reference::write(event, &mut expected[..room]))?;
    same("library, output", library, expected)?;
    if answer.is_ok() {
        same("library, bytes of a record that is written again", &library[..bytes.len()], bytes)?;
    }
    let mut record = wrapper::record_of(event);
    ffi::write(&mut record, &mut library[..room]);
    record[0] = 0;
    same("library, numbers of a record after it is written", record, wrapper::record_of(event))
}

/// Framing a record: its bytes, and that they are a part of the trace.
fn check_frame(trace: &[u8], e: usize) -> Result<(), String> {
    let (library, expected) = (wrapper::frame(trace, e), reference::frame(trace, e));
    same("library, frame", library, expected)?;
    same("library, position of a frame", library.map(<[u8]>::as_ptr), expected.map(<[u8]>::as_ptr))
}

/// The events of an accepted trace, each at its number.
pub fn events_of(trace: &[u8]) -> Vec<Event> {
    let mut at = 0;
    let mut events = Vec::new();
    while let Ok((event, next)) = reference::read_at(trace, at) {
        events.push(event);
        at = next;
    }
    events
}

/// The location of a store, by the event that issues it.
pub fn location_of(store: &Event) -> u16 {
    match *store {
        Event::Issue { location, .. } | Event::Locked { location, .. } => location,
        _ => panic!("no issue: {store:?}"),
    }
}

/// The trace of some events with an sfence in place of each that is chosen.
fn fenced(events: &[Event], chosen: impl Fn(&Event) -> bool) -> Vec<u8> {
    let mut trace = Vec::new();
    for event in events {
        let event = if chosen(event) { Event::Sfence { thread: 0 } } else { *event };
        let mut record = [0; LARGEST_RECORD];
        let size = reference::write(&event, &mut record).expect("the largest record has room");
        trace.extend_from_slice(&record[..size]);
    }
    trace
}

/// All numbers of the library's answer; the windows thread by thread, so that a difference names the thread.
fn same_answer(answer: &[u16; ffi::ANSWER], expected: &[u16; ffi::ANSWER]) -> Result<(), String> {
    same(JUDGE, &answer[..PLACES], &expected[..PLACES])?;
    let pairs = answer[PLACES..].chunks_exact(2).zip(expected[PLACES..].chunks_exact(2));
    pairs.enumerate().try_for_each(|(thread, (window, expected))| {
        same(&format!("library, window of thread {thread}: first, last"), window, expected)
    })
}

/// The number of a kind in the library's answer.
fn number_of(kind: &Kind) -> u16 {
    match kind {
        Kind::Contradiction => 1,
        Kind::Flush(_) => 2,
        Kind::Impossible => 3,
    }
}

/// The numbers of the library's answer that belong to an answer.
fn answer_of(answer: &Result<Verdict, Refusal>) -> [u16; ffi::ANSWER] {
    let front = match *answer {
        Err(Refusal { number, event }) => [number, event, 0, 0, 0, 0, 0, 0, 0],
        Ok(Verdict::Robust { events, share, .. }) => [0, 0, 1, events, share, 0, 0, 0, 0],
        Ok(Verdict::Broken { events, load, missing, observed, kind }) => {
            [0, 0, 2, events, 0, load, missing, observed, number_of(&kind)]
        }
    };
    let mut numbers = [0; ffi::ANSWER];
    numbers[..PRIMARY].copy_from_slice(&front);
    if let Ok(Verdict::Broken { kind: Kind::Flush(windows), .. }) = answer {
        numbers[PRIMARY] = windows.primary + 1;
        for (places, window) in numbers[PLACES..].chunks_exact_mut(2).zip(&windows.threads) {
            places.copy_from_slice(&window.map_or([0, 0], |Window { first, last }| [first, last]));
        }
    }
    numbers
}
