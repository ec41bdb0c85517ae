"""Brute-force oracle for the judge of store order across crashes.

Every function states one sentence of document 01 ("A judge of store order across crashes") and computes it in the
most direct way: queues are queues, happens-before is a graph search, and the verdict comes from trying all choices.
The windows of a flush fault are document 02's, job 1; locked operations, kind 12, are its job 2; signals and waits,
kinds 13 and 14, its job 4; pairs on one cache line its job 5; no bytes its job 6; loads under a checksum, kinds 15 and
16 of version 2, its job 7. Refusals 14 and 15 (sizes of lent buffers) are not treated here.
"""

from __future__ import annotations

from collections import deque
from dataclasses import dataclass, field
from itertools import product
from typing import Iterator, Optional, Union

from records import (ADMITTED_BY_2, BEGIN, CLFLUSH, CLFLUSHOPT, CLOSE, COMMIT, CRASH, ISSUE, KINDS, LOAD, LOCKED,
                     MFENCE, OPEN, SFENCE, SIGNAL, SKIP_OFF, SKIP_ON, VERSIONS, WAIT, Event, Refused, decode, encode,
                     frame_at, number_at, read_record, record_part, write_event)

NO_LOCATION = -1  # of the store that stands for a signal in happens-before
MAX_EVENT, MAX_CRASHES, MAX_THREADS, MAX_LOCATIONS, CUT_NUMBERS, MAX_INPUT = 2048, 7, 8, 256, 56, 65535


@dataclass(frozen=True)
class Robust:
    """ "Robust: a closed choice explains all counted loads." `cut` is the least one, 56 numbers. """

    events: int
    cut: tuple[int, ...]
    share: int


Window = tuple[int, int]  # the first and the last record in front of which a thread may flush


@dataclass(frozen=True)
class Broken:
    """ "Broken: no closed choice does." `load` is a load, a locked operation or a close: "Broken may then name a close
    as its load." `kind` is "contradiction", "impossible" or "flush". A flush fault has a primary thread, and for each
    of threads 0 to 7 its window or None. The other kinds have neither. """

    events: int
    load: int
    missing: int
    observed: int
    kind: str
    primary: Optional[int] = None
    windows: tuple[Optional[Window], ...] = ()


Answer = Union[Refused, Robust, Broken]


# ---- The machine ----

# Document 02, job 2: "Wherever issues, commits or loads are named, this record is meant too."
ISSUES, COMMITS, LOADS = (ISSUE, LOCKED), (COMMIT, LOCKED), (LOAD, LOCKED)


@dataclass
class Store:
    """ "A store is named by its issue's event number." `commit` is the event number of its commit, if it has one. """

    event: int
    thread: int
    location: int
    stretch: int
    commit: Optional[int] = None


@dataclass(frozen=True)
class Load:
    """An accepted load. `crossing` as in the rules of the machine; `skipped` if its thread is in a skip."""

    event: int
    thread: int
    location: int
    source: int
    stretch: int
    crossing: bool
    skipped: bool


@dataclass(frozen=True)
class Wait:
    """An accepted wait; its source is the event number of a signal."""

    event: int
    thread: int
    source: int
    stretch: int


@dataclass
class Region:
    """The part of a thread between an open and what ends it, a close or a crash. `end` is the number of that event,
    None if the trace ends in the region; `outcome` is the close's, and 0 without a close. """

    thread: int
    start: int
    end: Optional[int] = None
    outcome: int = 0


@dataclass
class Machine:
    """ "The trace starts with empty queues, no skips and no commits." Stretches are "numbered from 1". Before the
    begin, so for "a trace with no events" too (job 6), there is no version, no threads and no locations, and `events
    0`. """

    version: Optional[int] = None
    threads: int = 0
    locations: int = 0
    events: int = 0  # number of the last event; "Events after begin"
    stretch: int = 1
    queues: list[deque[int]] = field(default_factory=list)
    memory: dict[int, list[int]] = field(default_factory=dict)  # location -> stores committed in this stretch
    skips: set[int] = field(default_factory=set)
    stores: dict[int, Store] = field(default_factory=dict)
    loads: list[Load] = field(default_factory=list)
    signals: dict[int, Store] = field(default_factory=dict)  # signal -> "a store issued in the signal's place"
    waits: list[Wait] = field(default_factory=list)
    regions: list[Region] = field(default_factory=list)

    def open_region(self, thread: int) -> Optional[Region]:
        """The region that the thread is in now, or None."""
        return next((one for one in self.regions if one.thread == thread and one.end is None), None)

    def finished(self) -> range:
        """ "A stretch is the part between crashes, numbered from 1; a crash finishes it." """
        return range(1, self.stretch)


def legal_sources(m: Machine, thread: int, location: int) -> tuple[list[int], bool]:
    """The sources that the load rule allows, and whether the load is crossing.

    "Load: if the thread has waiting stores to the location, the source is the newest. Otherwise, if the stretch has
    commits to it, the last one committed. Otherwise the load is crossing, and the source is 0 or a store to that
    location committed in an earlier stretch."
    """
    waiting = [store for store in m.queues[thread] if m.stores[store].location == location]
    if waiting:
        return [waiting[-1]], False
    if m.memory.get(location):
        return [m.memory[location][-1]], False
    old = [s.event for s in m.stores.values()
           if s.location == location and s.commit is not None and s.stretch < m.stretch]
    return [0] + old, True


def general_refusal(m: Machine, number: int, event: Event) -> int:
    """ "Order: ... 1, 5, 13, 6, 7, 8, and the kind's own rule": the refusal before the kind's own rule, or 0. Job 6: "1
    in judging only for bytes that begin with some other record." """
    if number == 0 and event.kind != BEGIN:
        return 1
    if number > 0 and event.kind == BEGIN:
        return 5
    if number > MAX_EVENT or (event.kind == CRASH and m.stretch - 1 == MAX_CRASHES):
        return 13
    if event.kind == BEGIN:
        version, threads, locations = event.fields
        passes = version in VERSIONS and 1 <= threads <= MAX_THREADS and 1 <= locations <= MAX_LOCATIONS
        return 0 if passes else 6
    if event.has("thread") and event.get("thread") >= m.threads:
        return 7
    if event.has("location") and event.get("location") >= m.locations:
        return 8
    return 0


def own_refusal(m: Machine, event: Event) -> int:
    """The refusal of "the kind's own rule" (9 to 12, 18 and 19), or 0. "11 also if kind 12's thread has a waiting
    store, before 9."; its own store is there to commit, so 10 is no matter of kind 12. "11 for a signal with waiting
    stores; 18 for a wait whose source is no earlier signal of the same stretch". """
    if event.kind in (MFENCE, LOCKED, SIGNAL) and m.queues[event.get("thread")]:
        return 11
    if event.kind == WAIT:
        signal = m.signals.get(event.get("source"))
        return 0 if signal is not None and signal.stretch == m.stretch else 18
    if event.kind in LOADS:
        sources, _ = legal_sources(m, event.get("thread"), event.get("location"))
        return 0 if event.get("source") in sources else 9
    if event.kind == COMMIT:
        return 0 if m.queues[event.get("thread")] else 10
    if event.kind == SKIP_ON:
        return 12 if event.get("thread") in m.skips else 0
    if event.kind == SKIP_OFF:
        return 0 if event.get("thread") in m.skips else 12
    return region_refusal(m, event) if event.kind in ADMITTED_BY_2 else 0


def region_refusal(m: Machine, event: Event) -> int:
    """ "12 for open when open, or close when not; 19 for another outcome, before 12." """
    if event.kind == CLOSE and event.get("outcome") not in (0, 1):
        return 19
    opened = m.open_region(event.get("thread")) is not None
    return 12 if opened == (event.kind == OPEN) else 0


def take_load(m: Machine, number: int, event: Event) -> None:
    """The load as it was accepted; whether and when it counts is said by `counts_as_of`."""
    thread, location, source = event.fields
    _, crossing = legal_sources(m, thread, location)
    m.loads.append(Load(number, thread, location, source, m.stretch, crossing, thread in m.skips))


def take_issue(m: Machine, number: int, event: Event) -> None:
    """ "the store joins its thread's queue" """
    thread, location = event.get("thread"), event.get("location")
    m.stores[number] = Store(number, thread, location, m.stretch)
    m.queues[thread].append(number)


def take_commit(m: Machine, number: int, event: Event) -> None:
    """ "the oldest waiting store of the thread takes effect" """
    store = m.stores[m.queues[event.get("thread")].popleft()]
    store.commit = number
    m.memory.setdefault(store.location, []).append(store.event)


def take_crash(m: Machine, number: int) -> None:
    """ "a crash finishes it, drops waiting stores, ends skips and starts counts afresh"; "a crash ends the open
    state". """
    m.stretch += 1
    m.queues = [deque() for _ in range(m.threads)]
    m.memory = {}
    m.skips = set()
    for thread in range(m.threads):
        end_region(m, number, thread, 0)


def end_region(m: Machine, number: int, thread: int, outcome: int) -> None:
    """A close or a crash ends the region of a thread, if it is in one."""
    region = m.open_region(thread)
    if region is not None:
        region.end, region.outcome = number, outcome


def take_effect(m: Machine, number: int, event: Event) -> None:
    """The change that an accepted event makes. "Each kind has its own rule." Kind 12 "is a load, issue and commit with
    nothing between, and its event number names its store". """
    m.events = number
    if event.kind in LOADS:
        take_load(m, number, event)
    if event.kind in ISSUES:
        take_issue(m, number, event)
    if event.kind in COMMITS:
        take_commit(m, number, event)
    if event.kind == BEGIN:
        m.version, m.threads, m.locations = event.fields
        m.queues = [deque() for _ in range(m.threads)]
    elif event.kind == CRASH:
        take_crash(m, number)
    elif event.kind == SKIP_ON:
        m.skips.add(event.get("thread"))
    elif event.kind == SKIP_OFF:
        m.skips.remove(event.get("thread"))
    elif event.kind == SIGNAL:
        m.signals[number] = Store(number, event.get("thread"), NO_LOCATION, m.stretch)
    elif event.kind == WAIT:
        m.waits.append(Wait(number, *event.fields, m.stretch))
    elif event.kind == OPEN:
        m.regions.append(Region(event.get("thread"), number))
    elif event.kind == CLOSE:
        end_region(m, number, *event.fields)


def run(data: bytes) -> Union[Machine, Refused]:
    """ "A record that can't be read ends the judging there with its refusal." "A trace is accepted if no refusal over
    its records (1 to 13 here) applies", nor 18 or 19. Job 6: "For judging, empty bytes mean a trace with no events": no
    refusal applies over no records. Job 7: a record behind the begin is read by the begin's version. """
    m, at, number = Machine(), 0, 0
    while at < len(data):
        record = frame_at(data, at)
        event = record if isinstance(record, int) else decode(record, m.version)
        if isinstance(event, int):
            return Refused(event, number)
        refusal = general_refusal(m, number, event) or own_refusal(m, event)
        if refusal:
            return Refused(refusal, number)
        take_effect(m, number, event)
        at, number = at + len(record), number + 1
    return m


def prefix(data: bytes, last: int) -> bytes:
    """The bytes of "records 0 to" `last`, for a trace that has them; none for -1."""
    at = 0
    for _ in range(last + 1):
        at += 2 + number_at(data, at)
    return data[:at]


# ---- Which loads count ----

def region_of(m: Machine, load: Load) -> Optional[Region]:
    """The region that a load stands in, or None: "A thread's crossing loads in between are held." """
    return next((one for one in m.regions if one.thread == load.thread and one.start < load.event
                 and (one.end is None or load.event < one.end)), None)


def counts_as_of(m: Machine, load: Load) -> Optional[int]:
    """The event as of which a load counts, or None if it does not. "A crossing load in a skip is checked but not
    counted; all other crossing loads count." Of those in a region: "Outcome 1 counts them all as of the close; 0 drops
    them; a crash or the trace's end drops them". "A load in a skip is never held." """
    if not load.crossing or load.skipped:
        return None
    region = region_of(m, load)
    if region is None:
        return load.event
    return region.end if region.outcome == 1 else None


def counted(m: Machine, last: Optional[int] = None) -> list[Load]:
    """The loads that count, in the order of their events; those as of an event up to `last`, if it is given."""
    numbers = [(load, counts_as_of(m, load)) for load in m.loads]
    return [load for load, number in numbers if number is not None and (last is None or number <= last)]


# ---- Happens-before ----

def directly_before(m: Machine, q: Store) -> set[int]:
    """ "Store p happens before q in the same stretch if p is issued earlier by the same thread, or q's thread, before
    issuing q, loaded from p in that stretch": all such p, without chains. A load with q's own number is that of a kind
    12 record, which loads before it issues. Job 4: "Each store that would happen before a store issued in the signal's
    place happens before all stores that the waiting thread issues, in that stretch, after a wait naming that signal":
    the signals of waits before q are among what is given, each for the store in its place. """
    same_thread = {p.event for p in m.stores.values()
                   if p.thread == q.thread and p.stretch == q.stretch and p.event < q.event}
    loaded = {load.source for load in m.loads
              if load.thread == q.thread and load.stretch == q.stretch and load.event <= q.event}
    signals = {wait.source for wait in m.waits
               if wait.thread == q.thread and wait.stretch == q.stretch and wait.event < q.event}
    return same_thread | {p for p in loaded if p in m.stores and m.stores[p].stretch == q.stretch} | signals


def happens_before(m: Machine) -> dict[int, set[int]]:
    """ "or by a chain of these": for each store q, all p that happen before it, by depth-first search over stores and
    signals; and for each signal "each store that would happen before a store issued in the signal's place". """
    direct = {number: directly_before(m, q) for number, q in (m.stores | m.signals).items()}
    result: dict[int, set[int]] = {}
    for q in direct:
        found: set[int] = set()
        to_visit = list(direct[q])
        while to_visit:
            p = to_visit.pop()
            if p not in found:
                found.add(p)
                to_visit.extend(direct[p])
        result[q] = found & m.stores.keys()
    return result


def order(data: bytes, first: int, second: int) -> Union[str, Refused]:
    """ "The order query takes a trace, a work area and two event numbers: before, after, same, neither."
    The trace's own refusal comes first, then 16: "query number is no issue". Job 6, of empty bytes: "Other calls still
    turn it away", with 1, "no record". """
    m = run(data) if data else Refused(1, 0)
    if isinstance(m, Refused):
        return m
    if first not in m.stores or second not in m.stores:
        return Refused(16, 0)
    before = happens_before(m)
    if first == second:
        return "same"
    if first in before[second]:
        return "before"
    return "after" if second in before[first] else "neither"


# ---- The choice ----

Choice = tuple[int, ...]  # one count for each place, in the order of places()


def places(m: Machine) -> list[tuple[int, int]]:
    """ "each finished stretch and thread" """
    return [(stretch, thread) for stretch in m.finished() for thread in range(m.threads)]


def issued_at(m: Machine, place: tuple[int, int]) -> list[int]:
    """The stores that a thread issued in a stretch, in the order of issue."""
    return [s.event for s in m.stores.values() if (s.stretch, s.thread) == place]


def commits_at(m: Machine, place: tuple[int, int]) -> int:
    """ "its commits there": how many stores of the thread were committed in the stretch. """
    return sum(m.stores[store].commit is not None for store in issued_at(m, place))


def choices_size(m: Machine) -> int:
    """How many choices there are, closed or not."""
    size = 1
    for place in places(m):
        size *= commits_at(m, place) + 1
    return size


def all_choices(m: Machine) -> Iterator[Choice]:
    """ "A choice gives each finished stretch and thread a count (the thread's crash point), at most its commits
    there": where no stretch is finished there is one, of no counts. """
    return product(*(range(commits_at(m, place) + 1) for place in places(m)))


def observes(load: Load) -> set[int]:
    """ "A counted load with source s observes s (unless s is 0)" """
    return {load.source} - {0}


def forbids(m: Machine, load: Load, committed_only: bool = False) -> set[int]:
    """ "and forbids every store to its location in earlier stretches that is in a later stretch than s, or in s's
    stretch and committed after s; with source 0, all of them."

    By the letter this covers stores that were never committed; `committed_only` leaves them out.
    """
    earlier = [p for p in m.stores.values() if p.location == load.location and p.stretch < load.stretch]
    if committed_only:
        earlier = [p for p in earlier if p.commit is not None]
    if load.source == 0:
        return {p.event for p in earlier}
    s = m.stores[load.source]
    assert s.commit is not None
    return {p.event for p in earlier if p.stretch > s.stretch
            or (p.stretch == s.stretch and p.commit is not None and p.commit > s.commit)}


def explaining_choices(m: Machine, committed_only: bool = False) -> Iterator[Choice]:
    """All closed choices that explain all counted loads, by trying every choice.

    "that many of its first stores are in. It is closed if each store before one that is in is in too." "The choice
    explains the load if the observed store is in and no forbidden one is. One choice serves the whole trace." Job 7: "A
    choice must explain the counted loads in this sense."
    """
    before = happens_before(m)
    issued = [issued_at(m, place) for place in places(m)]
    loads = [(observes(load), forbids(m, load, committed_only)) for load in counted(m)]
    for choice in all_choices(m):
        inside = {store for stores, count in zip(issued, choice) for store in stores[:count]}
        if all(observed <= inside and not forbidden & inside for observed, forbidden in loads):
            if all(before[q] <= inside for q in inside):
                yield choice


# ---- Where the flush may go (document 02, job 1) ----

def first_place(m: Machine, before: dict[int, set[int]], p: int, thread: int) -> Optional[int]:
    """ "the first place is p + 1 in p's thread, elsewhere one past t's first load in that stretch whose source is p or
    happens after p." Job 4: "one past the first such load or the first wait whose signal passes p on, the earlier of
    the two." """
    if thread == m.stores[p].thread:
        return p + 1
    loads = [load for load in m.loads if load.source == p or p in before.get(load.source, set())]
    waits = [wait for wait in m.waits if p in before[wait.source]]
    return min((one.event + 1 for one in loads + waits
                if one.thread == thread and one.stretch == m.stores[p].stretch), default=None)


def last_place(m: Machine, before: dict[int, set[int]], q: int, thread: int) -> Optional[int]:
    """ "The last place is t's last issue that is q or happens before q." """
    return max((s for s in before[q] | {q} if m.stores[s].thread == thread), default=None)


def window(m: Machine, before: dict[int, set[int]], p: int, q: int, thread: int) -> Optional[Window]:
    """ "Each thread gets its window, or none if either end is lacking or they are out of order". Job 2: "if q's own
    record is the load that first brings p to its thread, that thread has no window": its ends, one past the load that
    is q and the issue that is q, are out of order. """
    first, last = first_place(m, before, p, thread), last_place(m, before, q, thread)
    return None if first is None or last is None or first > last else (first, last)


def windows(m: Machine, p: int, q: int) -> tuple[Optional[Window], ...]:
    """The windows of threads 0 to 7, for missing p and observed q."""
    before = happens_before(m)
    return tuple(window(m, before, p, q, thread) for thread in range(MAX_THREADS))


# ---- The verdict ----

def least(choices: list[Choice]) -> Choice:
    """ "The least (every other such choice has at least its count at every place)" """
    minimum = tuple(min(counts) for counts in zip(*choices))
    assert minimum in choices, "the pointwise minimum is itself no such choice"
    assert all(a <= b for choice in choices for a, b in zip(minimum, choice))
    return minimum


def robust_answer(m: Machine, choice: Choice) -> Robust:
    """ "stretch j, thread t stands at 8 × (j − 1) + t, the rest 0. Share: the percentage of stores committed in
    finished stretches that are in the least choice, rounded down; 100 if there are none." So for "a trace with no
    events", job 6: "robust, all-zero cut, share 100, `events 0`". """
    cut = [0] * CUT_NUMBERS
    for (stretch, thread), count in zip(places(m), choice):
        cut[8 * (stretch - 1) + thread] = count
    committed = sum(commits_at(m, place) for place in places(m))
    return Robust(m.events, tuple(cut), 100 * sum(choice) // committed if committed else 100)


def pairs(m: Machine, loads: list[Load], before: dict[int, set[int]],
          committed_only: bool = False) -> set[tuple[int, int]]:
    """ "Missing is a store that some counted load of those records forbids, observed one that some counted load there
    observes, and they are equal or missing happens before observed": all such pairs. """
    observed = {q for load in loads for q in observes(load)}
    forbidden = {p for load in loads for p in forbids(m, load, committed_only)}
    return {(p, q) for p in forbidden for q in observed if p == q or p in before[q]}


def smallest_pair(m: Machine, loads: list[Load], before: dict[int, set[int]],
                  committed_only: bool) -> Optional[tuple[int, int]]:
    """ "of all such pairs, the smallest missing, then the smallest observed event number." None if there is none. """
    return min(pairs(m, loads, before, committed_only), default=None)


def line(location: int) -> int:
    """ "a location is an aligned 8-byte word, and location ÷ 8 without remainder is its 64-byte cache line." """
    return location // 8


def kind_of(m: Machine, p: int, q: int) -> str:
    """ 'Kind is "contradiction" if they are equal, else "flush".' Job 5: 'A broken pair on one line has the kind
    "impossible" unless it is a contradiction.' """
    if p == q:
        return "contradiction"
    return "impossible" if line(m.stores[p].location) == line(m.stores[q].location) else "flush"


def broken_answer(m: Machine, load: int, p: int, q: int) -> Broken:
    """ "p's thread is marked primary." "Contradictions have none." Of an impossible pair: "It has no windows." """
    kind = kind_of(m, p, q)
    if kind != "flush":
        return Broken(m.events, load, p, q, kind)
    return Broken(m.events, load, p, q, kind, m.stores[p].thread, windows(m, p, q))


def judge(data: bytes) -> Answer:
    """The verdict by trying all choices. "A refusal anywhere outranks broken." "Load is the smallest event number for
    which records 0 to load, taken as a trace, have none either." """
    m = run(data)
    if isinstance(m, Refused):
        return m
    found = list(explaining_choices(m))
    assert found == list(explaining_choices(m, committed_only=True)), "the dropped stores changed the choices"
    if found:
        return robust_answer(m, least(found))
    for load in range(m.events + 1):
        short = run(prefix(data, load))
        assert isinstance(short, Machine), "a prefix of an accepted trace is accepted"
        if next(explaining_choices(short), None) is None:
            break
    loads, before = counted(short), happens_before(short)
    pair = smallest_pair(short, loads, before, False)
    assert pair is not None, "broken without a pair"
    assert pair == smallest_pair(short, loads, before, True), "the dropped stores changed the pair"
    return broken_answer(m, load, *pair)


def judge_closure(data: bytes) -> Answer:
    """A second judge, for traces with too many choices to try. It is not document 01's wording: it takes as in exactly
    the observed stores and all that happens before them, and is broken at the first event up to which the loads that
    count have a pair. """
    m = run(data)
    return m if isinstance(m, Refused) else closure_answer(m)


def closure_answer(m: Machine) -> Union[Robust, Broken]:
    """The answer of judge_closure for the machine behind an accepted trace."""
    before, loads = happens_before(m), counted(m)
    for event in sorted({counts_as_of(m, load) for load in loads}):
        pair = smallest_pair(m, counted(m, event), before, False)
        if pair is not None:
            return broken_answer(m, event, *pair)
    inside = {p for load in loads for q in observes(load) for p in before[q] | {q}}
    return robust_answer(m, tuple(sum(p in inside for p in issued_at(m, place)) for place in places(m)))
