//! Where the flush may go: document 02, job 1, "For missing p, observed q and thread t", job 2 on kind 12, and job 4 on
//! waits.

use super::machine::{Load, Machine, Wait};
use super::order::{Points, Precedence};
use crate::types::{Window, Windows};

/// "Each thread gets its window, or none if either end is lacking or they are out of order; p's thread is marked
/// primary. The thread of q must always have one." But job 2: "if q's own record is the load that first brings p to its
/// thread, that thread has no window."
pub fn windows(machine: &Machine, precedence: &Precedence, p: usize, q: usize) -> Windows {
    let (after, before) = (precedence.all_after(p), precedence.all_before(q));
    let window = |thread| {
        let first = first_place(machine, p, &after, thread)?;
        let last = last_place(machine, q, &before, thread)?;
        (first <= last).then_some(Window { first, last })
    };
    let [primary, observing] = [p, q].map(|store| machine.stores[store].thread);
    let brought_by_q = || first_bringing(machine, p, &after, observing) == Some(machine.stores[q].event);
    let none = observing != primary && brought_by_q();
    assert_eq!(window(observing).is_none(), none, "the window of the observed store's thread");
    Windows { primary, threads: std::array::from_fn(|thread| window(thread as u16)) }
}

/// "the first place is p + 1 in p's thread", "outside p's thread a window's first place is one past the first such load
/// or the first wait whose signal passes p on, the earlier of the two".
fn first_place(machine: &Machine, p: usize, after: &Points, thread: u16) -> Option<u16> {
    let missing = &machine.stores[p];
    let past = if thread == missing.thread { Some(missing.event) } else { first_bringing(machine, p, after, thread) };
    past.map(|event| event + 1)
}

/// "the first such load or the first wait whose signal passes p on, the earlier of the two"
fn first_bringing(machine: &Machine, p: usize, after: &Points, thread: u16) -> Option<u16> {
    let (load, wait) = (first_load(machine, p, after, thread), first_wait(machine, p, after, thread));
    load.into_iter().chain(wait).min()
}

/// "t's first load in that stretch whose source is p or happens after p"
fn first_load(machine: &Machine, p: usize, after: &Points, thread: u16) -> Option<u16> {
    let brings = |load: &&Load| {
        load.thread == thread
            && load.stretch == machine.stores[p].stretch
            && machine.store_of(load.source).is_some_and(|source| source == p || after.stores[source])
    };
    machine.loads.iter().find(brings).map(|load| load.event)
}

/// "the first wait whose signal passes p on"
fn first_wait(machine: &Machine, p: usize, after: &Points, thread: u16) -> Option<u16> {
    let brings = |wait: &&Wait| {
        wait.thread == thread
            && wait.stretch == machine.stores[p].stretch
            && machine.signal_of(wait.source).is_some_and(|signal| after.signals[signal])
    };
    machine.waits.iter().find(brings).map(|wait| wait.event)
}

/// "The last place is t's last issue that is q or happens before q."
fn last_place(machine: &Machine, q: usize, before: &[bool], thread: u16) -> Option<u16> {
    let issues = machine.stores.iter().enumerate().filter(|(_, store)| store.thread == thread);
    issues.filter(|&(number, _)| number == q || before[number]).map(|(_, store)| store.event).next_back()
}
