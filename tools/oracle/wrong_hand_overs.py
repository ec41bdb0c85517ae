"""Wrong judges of signals and waits (document 02, job 4), for mutants.py. A function that is imported by its name is
the oracle's own, whatever stands in its place in the oracle."""

from __future__ import annotations

from dataclasses import replace
from typing import Callable, Optional

import oracle
from oracle import (Event, Machine, Refused, Store, Wait, directly_before, first_place, general_refusal, order,
                    own_refusal, take_effect)


def waits_before(m: Machine, q: Store, end: int) -> list[Wait]:
    """The waits of q's thread in q's stretch before an event number."""
    return [wait for wait in m.waits if wait.thread == q.thread and wait.stretch == q.stretch and wait.event < end]


def signals_before(m: Machine, q: Store, end: int) -> set[int]:
    """The signals that q's thread waited for in q's stretch before an event number."""
    return {wait.source for wait in waits_before(m, q, end)}


def waits_unordered(m: Machine, q: Store) -> set[int]:
    """Nothing is handed over."""
    return directly_before(m, q) - m.signals.keys()


def as_of_the_wait(m: Machine, q: Store) -> set[int]:
    """A wait takes over what the signalling thread has by then, and not what it had at the signal."""
    later = [replace(m.signals[wait.source], event=wait.event) for wait in waits_before(m, q, q.event)]
    return directly_before(m, q).union(*(as_of_the_wait(m, place) for place in later))


def own_stores_handed(m: Machine, q: Store) -> set[int]:
    """A signal passes on the stores of its own thread, and what happens before them, but nothing else that came to the
    thread."""
    true = directly_before(m, q)
    return {p for p in true if p in m.stores and m.stores[p].thread == q.thread} if q.event in m.signals else true


def waits_not_passed_on(m: Machine, q: Store) -> set[int]:
    """A signal does not pass on what came by waits."""
    return (waits_unordered if q.event in m.signals else directly_before)(m, q)


def loads_not_passed_on(m: Machine, q: Store) -> set[int]:
    """A signal does not pass on what came by loads."""
    loads = [load for load in m.loads if load.thread != q.thread] if q.event in m.signals else m.loads
    return directly_before(replace(m, loads=loads), q)


def to_earlier_stores(m: Machine, q: Store) -> set[int]:
    """A wait also hands over to stores that its thread issued before it."""
    return directly_before(m, q) | signals_before(m, q, m.events + 1)


def to_waiting_stores(m: Machine, q: Store) -> set[int]:
    """A wait also hands over to stores that its thread issued before it and commits after it."""
    return directly_before(m, q) | signals_before(m, q, q.commit or 0)


def to_all_threads(m: Machine, q: Store) -> set[int]:
    """A signal needs no wait: it passes on to every thread."""
    return directly_before(m, q) | {number for number, signal in m.signals.items()
                                    if signal.stretch == q.stretch and number < q.event}


def last_signal(m: Machine, q: Store) -> set[int]:
    """A wait takes the signalling thread's last signal before it for the one that it names."""
    named = [(m.signals[wait.source], wait.event) for wait in waits_before(m, q, q.event)]
    return waits_unordered(m, q) | {max(number for number, other in m.signals.items()
                                        if other.thread == signal.thread and number < wait) for signal, wait in named}


def last_wait_only(m: Machine, q: Store) -> set[int]:
    """The last wait of the stretch before q hands over, the others do not."""
    return waits_unordered(m, q) | {wait.source for wait in waits_before(m, q, q.event)[-1:]}


def handed_back(m: Machine, q: Store) -> set[int]:
    """A wait also hands over to the signalling thread what the waiting one has."""
    named = [wait for wait in m.waits if wait.event < q.event and wait.stretch == q.stretch
             and m.signals[wait.source].thread == q.thread]
    places = [Store(wait.event, wait.thread, oracle.NO_LOCATION, wait.stretch) for wait in named]
    return directly_before(m, q).union(*(handed_back(m, place) for place in places))


def from_earlier_stretches(m: Machine, q: Store) -> set[int]:
    """A signal passes on what its thread stored before the last crash too."""
    old = {p.event for p in m.stores.values() if p.thread == q.thread and p.stretch < q.stretch and p.commit}
    return directly_before(m, q) | (old if q.event in m.signals else set())


def waits_outlive_crash(m: Machine, q: Store) -> set[int]:
    """A wait hands over to stores of later stretches too."""
    return directly_before(m, q) | {wait.source for wait in m.waits
                                    if wait.thread == q.thread and wait.event < q.event}


def skipped_waits(m: Machine, number: int, event: Event) -> None:
    """A wait in a skip hands nothing over."""
    take_effect(m, number, event)
    if event.kind == oracle.WAIT and event.get("thread") in m.skips:
        m.waits.pop()


def signal_before_thread(m: Machine, number: int, event: Event) -> int:
    """For a wait, 18 goes before 7."""
    true = general_refusal(m, number, event)
    return 18 if true == 7 and event.kind == oracle.WAIT and own_refusal(m, event) else true


def source_as_location(m: Machine, number: int, event: Event) -> int:
    """The source of a wait, which stands where other kinds have their location, is taken for one."""
    true = general_refusal(m, number, event)
    return 8 if true == 0 and event.kind == oracle.WAIT and event.get("source") >= m.locations else true


def queue_before_thread(m: Machine, number: int, event: Event) -> int:
    """A signal is turned away by a store that waits in any thread, and that goes before 7."""
    true = general_refusal(m, number, event)
    return 11 if true in (0, 7) and event.kind == oracle.SIGNAL and any(m.queues) else true


def with_rule(rule: Callable[[Machine, Event], Optional[int]]) -> Callable[[Machine, Event], int]:
    """own_refusal with another answer for some signals and waits; None leaves the true one."""
    def refusal(m: Machine, event: Event) -> int:
        wrong = rule(m, event) if event.kind in (oracle.SIGNAL, oracle.WAIT) else None
        return own_refusal(m, event) if wrong is None else wrong
    return refusal


def named_by(event: Event) -> Optional[int]:
    """The source of a wait."""
    return event.get("source") if event.kind == oracle.WAIT else None


def on_old_signal(m: Machine, event: Event) -> Optional[int]:
    """A signal outlives a crash."""
    return 0 if named_by(event) in m.signals else None


def on_any_event(m: Machine, event: Event) -> Optional[int]:
    """A wait may name any earlier event."""
    return 0 if named_by(event) in range(1, m.events + 1) else None


def on_nothing(m: Machine, event: Event) -> Optional[int]:
    """A wait may name 0."""
    return 0 if named_by(event) == 0 else None


def on_later_event(m: Machine, event: Event) -> Optional[int]:
    """A wait may name itself or a later event."""
    return 0 if event.kind == oracle.WAIT and event.get("source") > m.events else None


def on_other_threads(m: Machine, event: Event) -> Optional[int]:
    """A wait may not name a signal of its own thread."""
    signal = m.signals.get(named_by(event))
    return 18 if signal is not None and signal.thread == event.get("thread") else None


def once(m: Machine, event: Event) -> Optional[int]:
    """A signal may be named by one wait."""
    return 18 if named_by(event) in {wait.source for wait in m.waits} else None


def drained_wait(m: Machine, event: Event) -> Optional[int]:
    """A wait needs an empty queue."""
    return 11 if event.kind == oracle.WAIT and m.queues[event.get("thread")] else None


def early_signal(m: Machine, event: Event) -> Optional[int]:
    """A signal needs no empty queue."""
    return 0 if event.kind == oracle.SIGNAL else None


def loads_only(m: Machine, before: dict[int, set[int]], p: int, thread: int) -> Optional[int]:
    """Only loads bring p."""
    return first_place(replace(m, waits=[]), before, p, thread)


def waits_first(m: Machine, before: dict[int, set[int]], p: int, thread: int) -> Optional[int]:
    """The first wait that brings p goes before an earlier load that does."""
    by_wait = first_place(replace(m, loads=[]), before, p, thread)
    return first_place(m, before, p, thread) if by_wait is None else by_wait


def any_wait(m: Machine, before: dict[int, set[int]], p: int, thread: int) -> Optional[int]:
    """Every wait is taken for one that brings p."""
    return first_place(m, before | {signal: {p} for signal in m.signals}, p, thread)


def queried(also: Callable[[Machine], set[int]]) -> Callable[[bytes, int, int], object]:
    """order, for queries that may name other events too."""
    def answer(data: bytes, first: int, second: int) -> object:
        m = oracle.run(data)
        if isinstance(m, Refused) or not {first, second} <= m.stores.keys() | also(m):
            return order(data, first, second)
        before = oracle.happens_before(m)
        return ("same" if first == second else "before" if first in before.get(second, set()) else
                "after" if second in before.get(first, set()) else "neither")
    return answer


HAND_OVERS: dict[str, dict[str, object]] = {
    "hand-over: none": {"directly_before": waits_unordered},
    "hand-over: as of the wait": {"directly_before": as_of_the_wait},
    "hand-over: own stores only": {"directly_before": own_stores_handed},
    "hand-over: not what came by waits": {"directly_before": waits_not_passed_on},
    "hand-over: not what came by loads": {"directly_before": loads_not_passed_on},
    "hand-over: to earlier stores too": {"directly_before": to_earlier_stores},
    "hand-over: to waiting stores too": {"directly_before": to_waiting_stores},
    "hand-over: to all threads": {"directly_before": to_all_threads},
    "hand-over: by the thread's last signal": {"directly_before": last_signal},
    "hand-over: by the last wait only": {"directly_before": last_wait_only},
    "hand-over: back too": {"directly_before": handed_back},
    "hand-over: not in a skip": {"take_effect": skipped_waits},
    "hand-over: what was stored before a crash": {"directly_before": from_earlier_stretches},
    "hand-over: to stores after a crash": {"directly_before": waits_outlive_crash},
    "wait: 18 before 7": {"general_refusal": signal_before_thread},
    "wait: source taken for a location": {"general_refusal": source_as_location},
    "wait: for a signal before a crash": {"own_refusal": with_rule(on_old_signal)},
    "wait: for any earlier event": {"own_refusal": with_rule(on_any_event)},
    "wait: for 0": {"own_refusal": with_rule(on_nothing)},
    "wait: for itself or a later event": {"own_refusal": with_rule(on_later_event)},
    "wait: not for the own thread": {"own_refusal": with_rule(on_other_threads)},
    "wait: once for a signal": {"own_refusal": with_rule(once)},
    "wait: with an empty queue": {"own_refusal": with_rule(drained_wait)},
    "signal: with waiting stores": {"own_refusal": with_rule(early_signal)},
    "signal: 11 by any thread, before 7": {"general_refusal": queue_before_thread},
    "signal: a store in queries": {"order": queried(lambda m: set(m.signals))},
    "wait: a store in queries": {"order": queried(lambda m: {wait.event for wait in m.waits})},
    "first place: loads only": {"first_place": loads_only},
    "first place: waits before loads": {"first_place": waits_first},
    "first place: any wait": {"first_place": any_wait},
}
