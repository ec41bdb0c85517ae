//! Happens-before, by a search in a graph of stores and signals.

use super::machine::Machine;

/// A point of the graph, by its number in the machine's list: a store, or a signal, which stands for a store that might
/// be issued in its place.
#[derive(Clone, Copy, PartialEq, Eq)]
enum Point {
    Store(usize),
    Signal(usize),
}

/// Some of the stores and signals: true for those.
pub struct Points {
    pub stores: Vec<bool>,
    pub signals: Vec<bool>,
}

/// For each store and each signal, the points that come before it by one step.
pub struct Precedence {
    stores: Vec<Vec<Point>>,
    signals: Vec<Vec<Point>>,
    /// All points in the order of their events.
    order: Vec<Point>,
}

impl Points {
    fn at(&mut self, point: Point) -> &mut bool {
        match point {
            Point::Store(store) => &mut self.stores[store],
            Point::Signal(signal) => &mut self.signals[signal],
        }
    }
}

impl Precedence {
    /// The steps between all stores and signals of a machine.
    pub fn new(machine: &Machine) -> Self {
        let stores = machine.stores.iter().map(|q| directly_before(machine, q.event, q.thread, q.stretch)).collect();
        let signals = machine.signals.iter().map(|s| directly_before(machine, s.event, s.thread, s.stretch)).collect();
        Precedence { stores, signals, order: in_order(machine) }
    }

    /// The points before a point by one step.
    fn before_by_one(&self, point: Point) -> &[Point] {
        match point {
            Point::Store(store) => &self.stores[store],
            Point::Signal(signal) => &self.signals[signal],
        }
    }

    /// "or by a chain of these": adds each store before q to those found so far. What is found already was searched
    /// from.
    pub fn gather(&self, q: usize, found: &mut [bool]) {
        let mut signals = vec![false; self.signals.len()];
        let mut open = vec![Point::Store(q)];
        while let Some(point) = open.pop() {
            for &before in self.before_by_one(point) {
                let met = match before {
                    Point::Store(p) => &mut found[p],
                    Point::Signal(signal) => &mut signals[signal],
                };
                if !*met {
                    *met = true;
                    open.push(before);
                }
            }
        }
    }

    /// All stores that happen before q.
    pub fn all_before(&self, q: usize) -> Vec<bool> {
        let mut found = vec![false; self.stores.len()];
        self.gather(q, &mut found);
        found
    }

    /// All stores that happen after p, and all signals that pass p on: each step of a chain goes to a later point.
    pub fn all_after(&self, p: usize) -> Points {
        let mut found = Points { stores: vec![false; self.stores.len()], signals: vec![false; self.signals.len()] };
        for &point in &self.order {
            let steps = self.before_by_one(point);
            let after = steps.iter().any(|&step| step == Point::Store(p) || *found.at(step));
            *found.at(point) = after;
        }
        found
    }

    /// Whether p happens before q.
    pub fn before(&self, p: usize, q: usize) -> bool {
        self.all_before(q)[p]
    }
}

/// All stores and signals of a machine in the order of their events.
fn in_order(machine: &Machine) -> Vec<Point> {
    let stores = machine.stores.iter().enumerate().map(|(number, store)| (store.event, Point::Store(number)));
    let signals = machine.signals.iter().enumerate().map(|(number, signal)| (signal.event, Point::Signal(number)));
    let mut points: Vec<(u16, Point)> = stores.chain(signals).collect();
    points.sort_unstable_by_key(|(event, _)| *event);
    points.into_iter().map(|(_, point)| point).collect()
}

/// The points before a store that the thread issues at the event, by one step. "Store p happens before q in the same
/// stretch if p is issued earlier by the same thread, or q's thread, before issuing q, loaded from p in that stretch".
/// Document 02, job 2: one record may be "a load, issue and commit"; in it, the load comes before the issue. Job 4:
/// "Each store that would happen before a store issued in the signal's place happens before all stores that the waiting
/// thread issues, in that stretch, after a wait naming that signal".
fn directly_before(machine: &Machine, event: u16, thread: u16, stretch: u16) -> Vec<Point> {
    let mut found = Vec::new();
    for (number, store) in machine.stores.iter().enumerate().take_while(|(_, store)| store.event < event) {
        if store.stretch == stretch && store.thread == thread {
            found.push(Point::Store(number));
        }
    }
    for load in machine.loads.iter().take_while(|load| load.event <= event) {
        if load.stretch == stretch && load.thread == thread {
            let source = machine.store_of(load.source).filter(|&p| machine.stores[p].stretch == stretch);
            found.extend(source.map(Point::Store));
        }
    }
    for wait in machine.waits.iter().take_while(|wait| wait.event < event) {
        if wait.stretch == stretch && wait.thread == thread {
            found.extend(machine.signal_of(wait.source).map(Point::Signal));
        }
    }
    found
}

#[cfg(test)]
mod tests {
    use crate::reference::machine::Machine;
    use crate::reference::order::Precedence;
    use crate::types::Event;

    /// A machine of three threads and three locations that has taken some events.
    fn machine_of(events: &[Event]) -> Machine {
        let mut machine = Machine::new();
        let begin = Event::Begin { version: 1, threads: 3, locations: 3 };
        for (number, event) in (0..).zip([&begin].into_iter().chain(events)) {
            machine.step(number, event).unwrap();
        }
        machine
    }

    /// Thread 1 reads a store of thread 0 and stores; thread 2 reads that and stores.
    fn chain() -> Machine {
        let load = |thread, location, source| Event::Load { thread, location, source };
        machine_of(&[
            Event::Issue { thread: 0, location: 0 },
            Event::Commit { thread: 0 },
            load(1, 0, 1),
            Event::Issue { thread: 1, location: 1 },
            Event::Commit { thread: 1 },
            Event::Issue { thread: 0, location: 2 },
            load(2, 1, 4),
            Event::Issue { thread: 2, location: 2 },
        ])
    }

    /// Thread 0 stores, signals and stores; thread 1 waits for that and signals; thread 2 waits for that and stores.
    fn hand_overs() -> Machine {
        machine_of(&[
            Event::Issue { thread: 0, location: 0 },
            Event::Commit { thread: 0 },
            Event::Signal { thread: 0 },
            Event::Issue { thread: 0, location: 1 },
            Event::Wait { thread: 1, source: 3 },
            Event::Signal { thread: 1 },
            Event::Wait { thread: 2, source: 6 },
            Event::Issue { thread: 2, location: 2 },
        ])
    }

    #[test]
    fn chains_are_found() {
        let machine = chain();
        let precedence = Precedence::new(&machine);
        let [first, second, other, third] = [1, 4, 6, 8].map(|event| machine.store_of(event).unwrap());
        assert!(precedence.before(first, second) && precedence.before(second, third));
        assert!(precedence.before(first, third) && precedence.before(first, other));
        assert!(!precedence.before(third, first) && !precedence.before(other, third));
        assert!(!precedence.before(first, first));
        assert_eq!(precedence.all_after(first).stores, [false, true, true, true]);
        assert_eq!(precedence.all_after(second).stores, [false, false, false, true]);
        assert_eq!(precedence.all_after(other).stores, [false; 4]);
    }

    #[test]
    fn hand_overs_are_found() {
        let machine = hand_overs();
        let precedence = Precedence::new(&machine);
        let [first, other, last] = [1, 4, 8].map(|event| machine.store_of(event).unwrap());
        assert!(precedence.before(first, other) && precedence.before(first, last) && !precedence.before(other, last));
        let (after_first, after_other) = (precedence.all_after(first), precedence.all_after(other));
        assert_eq!((after_first.stores, after_first.signals), (vec![false, true, true], vec![true; 2]));
        assert_eq!((after_other.stores, after_other.signals), (vec![false; 3], vec![false; 2]));
    }
}
