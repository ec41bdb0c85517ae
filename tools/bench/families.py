"""Traces of one family and size, for counting the judge's instructions.

`python3 families.py FAMILY EVENTS` writes a trace with that many events after its begin to standard output. Every
trace is accepted, and but for the last three families robust: a broken trace ends the judging of loads early. The first
eight are families of everyday programs, the last five are made to be dear.
"""

from __future__ import annotations

import random
import struct
import sys
from typing import Callable, Dict, List


class Trace:
    """A trace that grows by events that the machine's rules allow, and knows what its loads may read."""

    def __init__(self, threads: int, locations: int, version: int = 1) -> None:
        self.bytes = struct.pack("<5H", 8, 1, version, threads, locations)
        self.threads = threads
        self.locations = locations
        self.events = 0
        self.queues: List[List[tuple[int, int]]] = [[] for _ in range(threads)]
        self.current: Dict[int, int] = {}
        self.landed: Dict[int, int] = {}

    def add(self, kind: int, *fields: int) -> int:
        self.bytes += struct.pack(f"<{2 + len(fields)}H", 2 + 2 * len(fields), kind, *fields)
        self.events += 1
        return self.events

    def issue(self, thread: int, location: int) -> None:
        self.queues[thread].append((self.add(2, thread, location), location))

    def commit(self, thread: int) -> None:
        store, location = self.queues[thread].pop(0)
        self.add(3, thread)
        self.current[location] = store

    def load(self, thread: int, location: int) -> None:
        """The source that the load rule names; a crossing load reads the last store that landed before the stretch."""
        waiting = [store for store, place in self.queues[thread] if place == location]
        self.add(4, thread, location, waiting[-1] if waiting else self.last(location))

    def locked(self, thread: int, location: int) -> None:
        """A load and a store that takes effect in one record, of a thread with no waiting store."""
        self.current[location] = self.add(12, thread, location, self.last(location))

    def open(self, thread: int) -> None:
        """The thread's crossing loads are held from here on; only in version 2."""
        self.add(15, thread)

    def close(self, thread: int, outcome: int) -> None:
        """The loads that the thread holds count, if the outcome is 1, or are dropped, if it is 0."""
        self.add(16, thread, outcome)

    def last(self, location: int) -> int:
        """The last store that took effect at a location, or 0."""
        return self.current.get(location, self.landed.get(location, 0))

    def crash(self) -> None:
        self.add(9)
        self.landed.update(self.current)
        self.current = {}
        self.queues = [[] for _ in range(self.threads)]


def mixed(events: int) -> Trace:
    """Typical: four threads, 64 locations, stores and their commits, loads, flushes and fences, three crashes."""
    draw = random.Random(1)
    trace = Trace(4, 64)
    while trace.events < events:
        thread, location = draw.randrange(4), draw.randrange(64)
        choice = draw.randrange(100)
        if trace.events % (events // 4) == events // 4 - 1:
            trace.crash()
        elif choice < 30:
            trace.issue(thread, location)
        elif choice < 60 and trace.queues[thread]:
            trace.commit(thread)
        elif choice < 85:
            trace.load(thread, location)
        elif choice < 95:
            trace.add(6, thread, location)
        else:
            trace.add(7, thread)
    return trace


def one_location(events: int) -> Trace:
    """All stores at one location, then, after a crash, loads of it."""
    trace = Trace(1, 1)
    while trace.events < events // 2:
        trace.issue(0, 0)
        trace.commit(0)
    trace.crash()
    while trace.events < events:
        trace.load(0, 0)
    return trace


def long_queue(events: int) -> Trace:
    """One thread with a long queue, which loads other locations."""
    trace = Trace(1, 256)
    while trace.events < events // 2:
        trace.issue(0, trace.events % 128)
    while trace.events < events:
        trace.load(0, 128 + trace.events % 128)
    return trace


def eight_stretches(trace: Trace, events: int, step: Callable[[], None]) -> Trace:
    """Steps until each of seven crashes, one after every eighth of the events; then loads in turn to the end."""
    for _ in range(7):
        while (trace.events + 1) % (events // 8):
            step()
        trace.crash()
    while trace.events < events:
        trace.load(trace.events % trace.threads, trace.events % trace.locations)
    return trace


def seven_crashes(events: int) -> Trace:
    """Stores before each of seven crashes, and loads after each."""
    trace = Trace(2, 32)
    part = events // 8

    def step() -> None:
        turn = trace.events % part
        if turn < part // 3:
            trace.load(turn % 2, turn % 32)
        else:
            trace.issue(turn % 2, turn % 32)
            if (trace.events + 1) % part:
                trace.commit(turn % 2)

    return eight_stretches(trace, events, step)


def eight_threads(events: int) -> Trace:
    """Eight threads that store and load from each other."""
    trace = Trace(8, 8)
    while trace.events + 3 <= events:
        turn = trace.events // 3
        trace.issue(turn % 8, turn % 8)
        trace.commit(turn % 8)
        trace.load((turn + 1) % 8, turn % 8)
    while trace.events < events:
        trace.load(0, 0)
    return trace


def locked(events: int) -> Trace:
    """Compare-and-swap chains: eight threads in turn at four locations, before and after each of seven crashes."""
    trace = Trace(8, 4)
    while trace.events < events:
        if (trace.events + 1) % (events // 8) or trace.events + 1 == events:
            trace.locked(trace.events % 8, trace.events // 8 % 4)
        else:
            trace.crash()
    return trace


def hand_over(events: int) -> Trace:
    """Nodes handed on in chains before each of seven crashes: of eight threads in turn each stores and signals, and the
    next one waits for that. Loads after the last crash."""
    trace = Trace(8, 8)

    def step() -> None:
        turn = trace.events // 4
        thread = turn % 8
        if trace.events % 4 == 0:
            trace.issue(thread, thread)
        elif trace.events % 4 == 1:
            trace.commit(thread)
        elif trace.events % 4 == 2:
            trace.add(13, thread)
        else:
            trace.add(14, (thread + 1) % 8, trace.events)

    return eight_stretches(trace, events, step)


def regions(events: int) -> Trace:
    """Redo logs: at the start and after each of three crashes, four threads read the log in regions of a few loads,
    two threads at a time; each fifth pair of regions reads half-written data and drops it. Then they write new
    entries."""
    trace = Trace(4, 64, 2)
    pairs = 0
    for stretch in range(4):
        end = events * (stretch + 1) // 4
        half = (trace.events + end) // 2
        while trace.events + 6 <= half:
            read_log(trace, 2 * (pairs % 2), min(12, half - trace.events - 4), pairs % 5 == 4)
            pairs += 1
        while trace.events + 5 <= end:
            thread, location = trace.events // 4 % 4, trace.events // 4 % 64
            trace.issue(thread, location)
            trace.commit(thread)
            trace.add(6, thread, location)
            trace.add(7, thread)
        while trace.events + 1 < end:
            trace.add(7, 0)
        if stretch < 3:
            trace.crash()
        else:
            trace.add(7, 0)
    return trace


def read_log(trace: Trace, first: int, loads: int, torn: bool) -> None:
    """Regions of a thread and the next one, with so many crossing loads in turn. Torn ones read the value before the
    trace and are dropped, the others count."""
    both = (first, first + 1)
    for thread in both:
        trace.open(thread)
    for turn in range(loads):
        location = trace.events % trace.locations
        trace.add(4, both[turn % 2], location, 0 if torn else trace.last(location))
    for thread in both:
        trace.close(thread, 0 if torn else 1)


def deep_walks(events: int) -> Trace:
    """Stores at one location, then a load of the value before the trace in each later stretch: a walk, and six repeats."""
    trace = Trace(1, 1)
    while trace.events < events - 15:
        trace.issue(0, 0)
        trace.commit(0)
    for _ in range(7):
        trace.crash()
        trace.add(4, 0, 0, 0)
    while trace.events < events:
        trace.add(7, 0)
    return trace


def many_crossings(events: int) -> Trace:
    """A crossing load of another location at almost every event, in all eight stretches."""
    trace = Trace(8, 256)
    return eight_stretches(trace, events, lambda: trace.load(trace.events % 8, trace.events % 256))


def handed_on(events: int) -> Trace:
    """A store at location 255, then stores of eight threads that load from each other, until three events are left."""
    trace = Trace(8, 256)
    trace.issue(0, 255)
    trace.commit(0)
    while trace.events < events - 5:
        turn = trace.events // 3
        trace.issue(turn % 8, turn % 255)
        trace.commit(turn % 8)
        trace.load((turn + 1) % 8, turn % 255)
    while trace.events < events - 3:
        trace.add(7, 0)
    return trace


def late_break(events: int) -> Trace:
    """Stores of eight threads that load from each other, and a contradiction at the last event: broken."""
    trace = handed_on(events)
    trace.crash()
    trace.add(4, 0, 255, 1)
    trace.add(4, 0, 255, 0)
    return trace


def wide_windows(events: int) -> Trace:
    """The same stores, and a flush fault at the last event: the first store is missing, the last one, on another cache
    line, is observed, and every record between them is looked at for windows."""
    trace = handed_on(events)
    last = max(trace.current.values())
    location = next(place for place, store in trace.current.items() if store == last)
    assert location // 8 != 255 // 8, "both stores are on one line, so there are no windows: take another size"
    trace.crash()
    trace.add(4, 0, 255, 0)
    trace.add(4, 0, location, last)
    return trace


def hold_in_turn(trace: Trace, end: int) -> None:
    """Opens thread 0, which loads location 0 from 0 and from store 1 in turn, up to an event number."""
    trace.open(0)
    while trace.events < end:
        trace.add(4, 0, 0, trace.events % 2)


def checksums(events: int) -> Trace:
    """Stores at one location; after a crash held loads of it that alternate between the first store and the value
    before the trace: a region that drops them, and one that counts them at the last event, behind stores of its own
    stretch to the location: broken. A judge that walks for each held load from the last store back to its source does
    not work in proportion to the events."""
    trace = Trace(1, 1, 2)
    while trace.events < events * 3 // 8:
        trace.issue(0, 0)
        trace.commit(0)
    trace.crash()
    hold_in_turn(trace, events * 7 // 16)
    trace.close(0, 0)
    hold_in_turn(trace, events * 15 // 16)
    while trace.events + 3 <= events:
        trace.issue(0, 0)
        trace.commit(0)
    while trace.events + 1 < events:
        trace.add(7, 0)
    trace.close(0, 1)
    return trace


FAMILIES: Dict[str, Callable[[int], Trace]] = {
    "mixed": mixed, "one_location": one_location, "long_queue": long_queue, "seven_crashes": seven_crashes,
    "eight_threads": eight_threads, "locked": locked, "hand_over": hand_over, "regions": regions,
    "deep_walks": deep_walks, "many_crossings": many_crossings, "late_break": late_break, "wide_windows": wide_windows,
    "checksums": checksums}

if __name__ == "__main__":
    made = FAMILIES[sys.argv[1]](int(sys.argv[2]))
    assert made.events == int(sys.argv[2]), made.events
    sys.stdout.buffer.write(made.bytes)
