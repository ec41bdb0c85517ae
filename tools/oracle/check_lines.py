"""Checks of the oracle about cache lines (document 02, job 5), for check.py."""

from __future__ import annotations

from dataclasses import replace
from itertools import product
from typing import Callable, Optional

import generate
import oracle
from oracle import Answer, Broken, Event, Machine, Robust, Store

MAX_MEMORIES = 20000


def committed_by_line(m: Machine) -> list[list[int]]:
    """For each finished stretch and line the stores committed there, in commit order."""
    found: dict[tuple[int, int], list[Store]] = {}
    for store in m.stores.values():
        if store.commit is not None and store.stretch in m.finished():
            found.setdefault((store.stretch, oracle.line(store.location)), []).append(store)
    return [[store.event for store in sorted(stores, key=lambda s: s.commit)] for stores in found.values()]


def kept_by_lines(m: Machine, last: int) -> Optional[bool]:
    """Whether some memory that keeps of each finished stretch and line a number of its first commits explains the
    loads counted up to an event number: "Stores on one cache line reach memory in commit order". Neither threads nor
    happens-before bind it otherwise. None if there are too many such memories to try."""
    lines = committed_by_line(m)
    loads = [(oracle.observes(load), oracle.forbids(m, load)) for load in oracle.counted(m, last)]
    size = 1
    for stores in lines:
        size *= len(stores) + 1
    if size > MAX_MEMORIES:
        return None
    for counts in product(*(range(len(stores) + 1) for stores in lines)):
        inside = {store for stores, count in zip(lines, counts) for store in stores[:count]}
        if all(observed <= inside and not forbidden & inside for observed, forbidden in loads):
            return True
    return False


def check_kind(m: Machine, answer: Broken) -> None:
    """ 'A broken pair on one line has the kind "impossible" unless it is a contradiction. It has no windows.' Its
    stores were committed in one stretch, missing first, and no memory that keeps each line's stores in commit order
    explains the counted loads. Of a flush fault nothing of that kind is said. """
    p, q = m.stores[answer.missing], m.stores[answer.observed]
    assert (answer.kind == "contradiction") == (p == q)
    assert (answer.kind == "impossible") == (p != q and p.location // 8 == q.location // 8)
    if answer.kind == "impossible":
        assert answer.primary is None and answer.windows == ()
        assert p.stretch == q.stretch and p.commit < q.commit
        assert not kept_by_lines(m, answer.load)


def renamed(events: list[Event], new: Callable[[int], int], locations: int) -> bytes:
    """The trace with other locations, and so many in its begin, if it has one."""
    changed = [Event(event.kind, tuple(new(value) if name == "location" else locations if name == "locations" else value
                                       for name, value in zip(oracle.KINDS[event.kind][1], event.fields)))
               for event in events]
    return generate.encode_all(changed)


def check_renamed(events: list[Event], m: Machine, answer: Answer) -> list[str]:
    """Lines are a matter of the kind, and of what goes with it, only. With each location on a line of its own,
    impossible pairs of two locations are flush faults; with all on one line, flush faults are impossible pairs. All
    else stays. Says what was tried."""
    used, tried = sorted({event.get("location") for event in events if event.has("location")}), []
    if m.locations <= oracle.MAX_LOCATIONS // 8:
        assert oracle.judge_closure(renamed(events, lambda x: 8 * x, 8 * m.locations - 7)) == on_two_lines(m, answer)
        tried.append("lines: one for each location")
    if len(used) <= 8:
        assert oracle.judge_closure(renamed(events, used.index, 8)) == on_one_line(answer)
        tried.append("lines: one for all locations")
    return tried


def on_two_lines(m: Machine, answer: Answer) -> Answer:
    """The answer with the pair's locations, if they are two, on two lines."""
    if not isinstance(answer, Broken) or answer.kind != "impossible":
        return answer
    p, q = m.stores[answer.missing], m.stores[answer.observed]
    windows = oracle.windows(m, p.event, q.event)
    return answer if p.location == q.location else replace(answer, kind="flush", primary=p.thread, windows=windows)


def on_one_line(answer: Answer) -> Answer:
    """The answer with the pair's locations on one line."""
    flush = isinstance(answer, Broken) and answer.kind == "flush"
    return replace(answer, kind="impossible", primary=None, windows=()) if flush else answer


def line_features(m: Machine, answer: Answer) -> list[str]:
    """Names of what the lines of an accepted trace show."""
    if isinstance(answer, Robust):
        inside = {store for place in oracle.places(m)
                  for store in oracle.issued_at(m, place)[:answer.cut[8 * (place[0] - 1) + place[1]]]}
        against = [stores for stores in committed_by_line(m) if set(stores[:len(inside & set(stores))]) - inside]
        return ["robust: cut against commit order on a line"] if against else []
    p, q = m.stores[answer.missing], m.stores[answer.observed]
    found = oracle.pairs(m, oracle.counted(m, answer.load), oracle.happens_before(m))
    kinds = {oracle.kind_of(m, *pair) for pair in found}
    shown = {
        "at one location": p.location == q.location,
        "at neighbouring locations": abs(p.location - q.location) == 1,
        "of two threads": p.thread != q.thread,
        "of a later stretch": p.stretch > 1,
        "another pair is flush": answer.kind != "flush" and "flush" in kinds,
        "another pair is impossible": answer.kind != "impossible" and "impossible" in kinds,
        "no memory of lines was tried": answer.kind == "impossible" and kept_by_lines(m, answer.load) is None,
    }
    return [f"{answer.kind}: {name}" for name, holds in shown.items() if holds]
