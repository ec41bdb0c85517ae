//! Document 02, job 2, on a locked operation: "In an accepted trace, replacing it by the three, while the event limit
//! holds, must give the same verdict, cut and share, event numbers being carried over." Here all those of a trace are
//! replaced at once.

use gorbuzte::generator::Generator;
use gorbuzte::reference::{self, Accepted};
use gorbuzte::{Event, Kind, Verdict, Window, Windows, LARGEST_RECORD};

const SEED: u64 = 2_026;
const TRACES: u64 = 8_000;
const EVENTS: u16 = 2_048;

/// The most events of a trace whose stores are queried in all pairs.
const ALL_PAIRS: usize = 24;

/// A trace with a load, an issue and a commit in place of each locked operation.
#[derive(Default)]
struct Replaced {
    bytes: Vec<u8>,
    /// The number of each event of the old trace, which is that of a locked operation's load.
    as_load: Vec<u16>,
    /// The same, but of a locked operation the number of its issue.
    as_store: Vec<u16>,
    /// The numbers of the locked operations in the old trace.
    locked: Vec<u16>,
    /// The numbers of the closes in the old trace.
    closes: Vec<u16>,
    /// The number of waits whose signal has another number than in the old trace.
    moved_waits: u32,
    /// The number of records, the begin included.
    records: u16,
}

impl Replaced {
    fn new(trace: &[u8]) -> Self {
        let mut replaced = Replaced::default();
        let (mut at, mut number) = (0, 0);
        while let Ok((event, next)) = reference::read_at(trace, at) {
            replaced.add(number, event);
            (at, number) = (next, number + 1);
        }
        replaced
    }

    /// Appends what stands for an event of the old trace.
    fn add(&mut self, number: u16, event: Event) {
        let moved = number + 2 * self.locked.len() as u16;
        self.as_load.push(moved);
        self.as_store.push(moved + u16::from(matches!(event, Event::Locked { .. })));
        match event {
            Event::Load { thread, location, source } => self.put_load(thread, location, source),
            Event::Locked { thread, location, source } => {
                self.locked.push(number);
                self.put_load(thread, location, source);
                self.put(Event::Issue { thread, location });
                self.put(Event::Commit { thread });
            }
            Event::Wait { thread, source } => {
                let signal = self.carried_source(source);
                self.moved_waits += u32::from(signal != source);
                self.put(Event::Wait { thread, source: signal });
            }
            Event::Close { .. } => {
                self.closes.push(number);
                self.put(event);
            }
            _ => self.put(event),
        }
    }

    /// Appends a load whose source is that of the old trace.
    fn put_load(&mut self, thread: u16, location: u16, source: u16) {
        self.put(Event::Load { thread, location, source: self.carried_source(source) });
    }

    /// A source with its number carried over: that of a store or of a signal.
    fn carried_source(&self, source: u16) -> u16 {
        self.as_store[usize::from(source)]
    }

    fn put(&mut self, event: Event) {
        let mut record = [0; LARGEST_RECORD];
        let size = reference::write(&event, &mut record).unwrap();
        self.bytes.extend_from_slice(&record[..size]);
        self.records += 1;
    }

    /// A verdict on the old trace with its numbers carried over, apart from those of windows.
    fn carried(&self, verdict: Verdict) -> Verdict {
        let events = self.records - 1;
        match verdict {
            Verdict::Robust { share, cut, .. } => Verdict::Robust { events, share, cut },
            Verdict::Broken { load, missing, observed, kind, .. } => Verdict::Broken {
                events,
                load: self.as_load[usize::from(load)],
                missing: self.as_store[usize::from(missing)],
                observed: self.as_store[usize::from(observed)],
                kind,
            },
        }
    }

    /// The window of a thread with its places carried over: one past the missing store, a load or a wait, and an issue.
    fn carried_window(&self, window: Window, primary: bool) -> Window {
        let numbers = if primary { &self.as_store } else { &self.as_load };
        let (first, last) = (usize::from(window.first), usize::from(window.last));
        Window { first: numbers[first - 1] + 1, last: self.as_store[last] }
    }

    /// Whether a window stands inside what was a locked operation: in front of the issue only.
    fn inside_locked(&self, window: Window) -> bool {
        let issue = |&number: &u16| self.as_store[usize::from(number)];
        window.first == window.last && self.locked.iter().map(issue).any(|issue| issue == window.first)
    }
}

/// What was met.
#[derive(Debug, Default)]
struct Met {
    robust: u32,
    contradiction: u32,
    flush: u32,
    impossible: u32,
    load: u32,
    missing: u32,
    observed: u32,
    /// Broken at a close.
    at_close: u32,
    windows_inside: u32,
    moved_waits: u32,
    pairs: u32,
}

impl Met {
    fn verdict(&mut self, verdict: &Verdict, replaced: &Replaced) {
        let &Verdict::Broken { load, missing, observed, kind, .. } = verdict else {
            self.robust += 1;
            return;
        };
        self.load += u32::from(replaced.locked.contains(&load));
        self.missing += u32::from(replaced.locked.contains(&missing));
        self.observed += u32::from(replaced.locked.contains(&observed));
        self.at_close += u32::from(replaced.closes.contains(&load));
        *match kind {
            Kind::Contradiction => &mut self.contradiction,
            Kind::Flush(_) => &mut self.flush,
            Kind::Impossible => &mut self.impossible,
        } += 1;
    }

    /// Each window is carried over, and only a window inside a locked operation, where no flush can stand, is added.
    fn windows(&mut self, old: &Windows, new: &Windows, replaced: &Replaced, what: &str) {
        assert_eq!(old.primary, new.primary, "{what}");
        for (thread, (old_window, new_window)) in old.threads.iter().zip(&new.threads).enumerate() {
            let primary = thread == usize::from(old.primary);
            match (old_window, new_window) {
                (None, Some(window)) => {
                    assert!(!primary && replaced.inside_locked(*window), "{what}: thread {thread}, {window:?}");
                    self.windows_inside += 1;
                }
                _ => assert_eq!(old_window.map(|old| replaced.carried_window(old, primary)), *new_window, "{what}"),
            }
        }
    }

    /// Order queries of all pairs of numbers.
    fn orders(&mut self, old: &Accepted, new: &Accepted, replaced: &Replaced, what: &str) {
        for (first, &first_there) in (0..).zip(&replaced.as_store) {
            for (second, &second_there) in (0..).zip(&replaced.as_store) {
                let there = new.order(first_there, second_there);
                assert_eq!(old.order(first, second), there, "{what}: {first}, {second}");
                self.pairs += 1;
            }
        }
    }
}

/// A verdict with no window, and its windows.
fn without_windows(verdict: Verdict) -> (Verdict, Option<Windows>) {
    match verdict {
        Verdict::Broken { events, load, missing, observed, kind: Kind::Flush(windows) } => {
            let none = Kind::Flush(Windows { primary: windows.primary, threads: [None; 8] });
            (Verdict::Broken { events, load, missing, observed, kind: none }, Some(windows))
        }
        _ => (verdict, None),
    }
}

#[test]
fn load_issue_and_commit_give_the_same() {
    let (mut generator, mut met) = (Generator::new(), Met::default());
    for number in 0..TRACES {
        let (trace, _) = generator.trace(SEED, number);
        let Ok(old) = reference::accept(trace) else { continue };
        let replaced = Replaced::new(trace);
        if replaced.locked.is_empty() || replaced.records > EVENTS + 1 {
            continue;
        }
        let what = format!("trace {number} of seed {SEED}");
        let new = reference::accept(&replaced.bytes).expect(&what);
        met.verdict(&old.verdict(), &replaced);
        met.moved_waits += replaced.moved_waits;
        let (verdict, windows) = without_windows(replaced.carried(old.verdict()));
        let (new_verdict, new_windows) = without_windows(new.verdict());
        assert_eq!(verdict, new_verdict, "{what}");
        if let (Some(windows), Some(new_windows)) = (windows, new_windows) {
            met.windows(&windows, &new_windows, &replaced, &what);
        }
        if replaced.as_load.len() <= ALL_PAIRS {
            met.orders(&old, &new, &replaced, &what);
        }
    }
    let verdicts = [met.robust, met.contradiction, met.flush, met.impossible];
    assert!(verdicts.iter().sum::<u32>() > 2_000, "{met:?}");
    let stores = [met.load, met.missing, met.observed];
    let others = [met.at_close, met.windows_inside, met.moved_waits, met.pairs];
    assert!(verdicts.iter().chain(&stores).chain(&others).all(|&number| number > 0), "{met:?}");
}
