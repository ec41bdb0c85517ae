//! A judge that is independent of the library: each function states a sentence of document 01 or 02, quoted in its
//! comment.
//!
//! Queues are queues, happens-before is a search in a graph, and the least choice is what the observed stores and all
//! stores before them need. [`judge_by_all_choices`] answers the same question by trying every choice. Nothing here is
//! shared with the wrapper but the types of the answers.

mod choice;
mod machine;
mod order;
mod records;
mod windows;

use crate::types::{Kind, Order, Refusal, Verdict, CUT};
use choice::{all_choices, demand_of, Demand, Explanation};
use machine::{Machine, Store};
use order::Precedence;
use windows::windows;

use records::read_later;
pub use records::{frame, read_at, write};

/// "at most 2,048"
const EVENTS: u16 = 2_048;

/// An accepted trace: what the machine saw, and which stores happen before which.
pub struct Accepted {
    machine: Machine,
    precedence: Precedence,
    /// The number of records, the begin included.
    records: u16,
}

/// "A trace is accepted if no refusal over its records (1 to 13 here) applies." Document 02, job 4, adds 18, job 7 adds
/// 19. Job 6: "For judging, empty bytes mean a trace with no events", so one with no records, and "1 in judging only
/// for bytes that begin with some other record." Calls other than judging turn this trace away themselves.
///
/// # Errors
///
/// The refusal with its event number.
pub fn accept(trace: &[u8]) -> Result<Accepted, Refusal> {
    let mut machine = Machine::new();
    let (mut at, mut event) = (0, 0);
    while at < trace.len() {
        let refused = |number| Refusal { number, event };
        let read = match event {
            0 => read_at(trace, at).map_err(|refusal| refusal.number),
            _ => read_later(trace, at, machine.version),
        };
        let (record, next) = read.map_err(refused)?;
        machine.step(event, &record).map_err(refused)?;
        at = next;
        event += 1;
    }
    let precedence = Precedence::new(&machine);
    Ok(Accepted { machine, precedence, records: event })
}

/// The verdict on a trace. The least choice is taken as what the observed stores and all stores before them need.
/// Document 02, job 6, says of empty bytes: "robust, all-zero cut, share 100, `events 0`." Here that follows from there
/// being no counted load and no store.
///
/// # Errors
///
/// The refusal (1 to 13, 18 or 19) if the trace is not accepted.
pub fn judge(trace: &[u8]) -> Result<Verdict, Refusal> {
    Ok(accept(trace)?.verdict())
}

/// "The order query takes a trace, a work area and two event numbers: before, after, same, neither."
///
/// # Errors
///
/// The refusal (1 to 13, 18 or 19) if the trace is not accepted, 1 for no bytes too, "then 16": "query number is no
/// issue".
pub fn order(trace: &[u8], first: u16, second: u16) -> Result<Order, Refusal> {
    accept(trace)?.order(first, second)
}

/// The verdict on a trace, found by trying every choice on the trace and, if there is none, on the records 0 to e for
/// each e. Gives `None` if the trace has more than `limit` choices. No bytes have no finished stretch, so one choice.
#[must_use]
pub fn judge_by_all_choices(trace: &[u8], limit: usize) -> Option<Result<Verdict, Refusal>> {
    let whole = match accept(trace) {
        Err(refusal) => return Some(Err(refusal)),
        Ok(accepted) => accepted,
    };
    if choice::count(&whole.machine, limit) > limit {
        return None;
    }
    Some(Ok(match whole.least_by_all_choices() {
        Some(cut) => whole.robust(cut),
        None => whole.broken_by_prefixes(trace),
    }))
}

impl Accepted {
    /// "Robust: a closed choice explains all counted loads." "Broken: no closed choice does. Load is the smallest event
    /// number for which records 0 to load, taken as a trace, have none either." So counted loads are added event by
    /// event, those of a close all together, until a store that must be in is forbidden.
    #[must_use]
    pub fn verdict(&self) -> Verdict {
        let mut explanation = Explanation::new(&self.machine);
        for (event, loads) in self.machine.counted() {
            loads.iter().for_each(|load| explanation.add(&demand_of(&self.machine, load), &self.precedence));
            if explanation.fails() {
                return self.broken(event, &explanation.observed, &explanation.forbidden, self.events());
            }
        }
        self.robust(explanation.counts(&self.machine))
    }

    /// The events as of which loads count, each with the number of these loads.
    #[must_use]
    pub fn counting(&self) -> Vec<(u16, usize)> {
        self.machine.counted().into_iter().map(|(event, loads)| (event, loads.len())).collect()
    }

    /// "two event numbers: before, after, same, neither". Document 02, job 6, on empty bytes: "Other calls still turn
    /// it away." That is 1, "no record", and 16 comes behind it.
    ///
    /// # Errors
    ///
    /// 1 if there is no record; 16, "query number is no issue"; "14, 15, 16 and 17 carry 0".
    pub fn order(&self, first: u16, second: u16) -> Result<Order, Refusal> {
        if self.records == 0 {
            return Err(Refusal { number: 1, event: 0 });
        }
        let store = |event| self.machine.store_of(event).ok_or(Refusal { number: 16, event: 0 });
        let (first, second) = (store(first)?, store(second)?);
        Ok(if first == second {
            Order::Same
        } else if self.precedence.before(first, second) {
            Order::Before
        } else if self.precedence.before(second, first) {
            Order::After
        } else {
            Order::Neither
        })
    }

    /// "Events after begin"; of a trace with no records, which has no begin either, `events 0`.
    fn events(&self) -> u16 {
        self.records.saturating_sub(1)
    }

    /// "Share: the percentage of stores committed in finished stretches that are in the least choice, rounded down; 100
    /// if there are none."
    fn robust(&self, cut: [u16; CUT]) -> Verdict {
        let finished = |store: &&Store| store.commit.is_some() && store.stretch < self.machine.stretch;
        let committed = self.machine.stores.iter().filter(finished).count();
        let inside: usize = cut.iter().map(|&count| usize::from(count)).sum();
        let share = (100 * inside).checked_div(committed).unwrap_or(100);
        Verdict::Robust { events: self.events(), share: share.try_into().expect("at most 100"), cut }
    }

    /// "Missing is a store that some counted load of those records forbids, observed one that some counted load there
    /// observes, and they are equal or missing happens before observed; of all such pairs, the smallest missing, then
    /// the smallest observed event number."
    fn broken(&self, load: u16, observed: &[bool], forbidden: &[bool], events: u16) -> Verdict {
        let stores = 0..self.machine.stores.len();
        let before: Vec<Option<Vec<bool>>> =
            stores.clone().map(|store| observed[store].then(|| self.precedence.all_before(store))).collect();
        for p in stores.clone().filter(|&store| forbidden[store]) {
            for (q, earlier) in before.iter().enumerate() {
                if earlier.as_ref().is_some_and(|earlier| p == q || earlier[p]) {
                    let kind = self.kind(p, q);
                    let [missing, observed] = [p, q].map(|store| self.machine.stores[store].event);
                    return Verdict::Broken { events, load, missing, observed, kind };
                }
            }
        }
        panic!("no pair of a forbidden and an observed store, though the trace is broken");
    }

    /// "Kind is "contradiction" if they are equal, else "flush"." Document 02, job 1: "broken gains the windows", and
    /// "Contradictions have none." Job 5: "A broken pair on one line has the kind "impossible" unless it is a
    /// contradiction. It has no windows."
    fn kind(&self, p: usize, q: usize) -> Kind {
        let [missing, observed] = [p, q].map(|store| &self.machine.stores[store]);
        if p == q {
            Kind::Contradiction
        } else if missing.line() == observed.line() {
            Kind::Impossible
        } else {
            Kind::Flush(windows(&self.machine, &self.precedence, p, q))
        }
    }

    /// What each counted load observes and forbids.
    fn demands(&self) -> Vec<Demand> {
        self.machine.counted().values().flatten().map(|load| demand_of(&self.machine, load)).collect()
    }

    /// "The least (every other such choice has at least its count at every place)" of the closed choices that explain
    /// all counted loads, if there is one.
    fn least_by_all_choices(&self) -> Option<[u16; CUT]> {
        all_choices(&self.machine, &self.precedence, &self.demands())
    }

    /// "Load is the smallest event number for which records 0 to load, taken as a trace, have none either."
    fn broken_by_prefixes(&self, trace: &[u8]) -> Verdict {
        let mut end = 0;
        for load in 0..=self.events() {
            end += frame(trace, load.into()).expect("a record of an accepted trace").len();
            let prefix = accept(&trace[..end]).expect("records 0 to load of an accepted trace");
            if prefix.least_by_all_choices().is_none() {
                let mut sets = Explanation::new(&prefix.machine);
                prefix.demands().iter().for_each(|demand| sets.mark(demand));
                return prefix.broken(load, &sets.observed, &sets.forbidden, self.events());
            }
        }
        panic!("the whole trace has no choice, and yet each of its prefixes has one");
    }
}
