"""Random checks of the oracle itself: `python3 check.py SEED COUNT [switches of generate.py]`.

For each generated session it checks what the documents and the demands say of all traces, and counts what was met.
"""

from __future__ import annotations

import sys
from collections import Counter
from dataclasses import replace
from itertools import product
from typing import Optional

import generate
import oracle
from check_lines import check_kind, check_renamed, line_features
from check_regions import (check_load, check_regions, check_versions, counting, empty_regions, never_met,
                           region_features)
from lines import verdict_lines
from notation import show
from oracle import Answer, Broken, Event, Machine, Refused, Robust, Window

NAMED = {oracle.LOCKED: ", locked", oracle.SIGNAL: ", signal", oracle.WAIT: ", wait", oracle.OPEN: ", open",
         oracle.CLOSE: ", close"}  # kinds counted apart
MANY = 1000  # sessions among which each sort of region comes up
NOTHING = Robust(0, (0,) * oracle.CUT_NUMBERS, 100)  # "robust, all-zero cut, share 100, `events 0`"


def read_events(data: bytes) -> list[Event]:
    """The events of an accepted trace."""
    events, at = [], 0
    while at < len(data):
        event = oracle.read_record(data[at:])
        assert isinstance(event, Event)
        events.append(event)
        at += len(oracle.encode(event))
    return events


def without(events: list[Event], dropped: set[int]) -> tuple[bytes, dict[int, int]]:
    """The trace without some records, its sources renumbered, and old number -> new number."""
    kept = [number for number in range(len(events)) if number not in dropped]
    new = {old: place for place, old in enumerate(kept)}
    return generate.encode_all([renumbered(events[number], new) for number in kept]), new


def renumbered(event: Event, new: dict[int, int]) -> Event:
    """The event with the new number of its source, if its kind has one."""
    return Event(event.kind, event.fields[:-1] + (new[event.get("source")],)) if event.has("source") else event


def of_kinds(events: list[Event], kinds: tuple[int, ...]) -> set[int]:
    """The numbers of the events of some kinds."""
    return {number for number, event in enumerate(events) if event.kind in kinds}


def idle(events: list[Event]) -> set[int]:
    """The waits for a signal of their own thread, and the signals that no other thread waits for."""
    waits = of_kinds(events, (oracle.WAIT,))
    own = {wait for wait in waits if events[events[wait].get("source")].get("thread") == events[wait].get("thread")}
    return own | of_kinds(events, (oracle.SIGNAL,)) - {events[wait].get("source") for wait in waits - own}


def check_neutral(events: list[Event], answer: Answer, dropped: set[int]) -> None:
    """ "in an accepted trace flush records never move a verdict, apart from shifting event numbers", nor do the other
    records that are dropped here. """
    shorter, new = without(events, dropped)
    other, last = oracle.judge(shorter), max(new.values(), default=0)
    if isinstance(answer, Robust):
        assert other == Robust(last, answer.cut, answer.share)
    else:
        assert other == Broken(last, new[answer.load], new[answer.missing], new[answer.observed],
                               answer.kind, answer.primary, carried(answer.windows, new))


def carried(windows: tuple[Optional[Window], ...], new: dict[int, int]) -> tuple[Optional[Window], ...]:
    """The windows of a trace without some records: the last place is an issue, the first is one past the record that
    brought the missing store."""
    return tuple(ends and (new[ends[0] - 1] + 1, new[ends[1]]) for ends in windows)


def in_three(event: Event) -> list[Event]:
    """ "a load, issue and commit": the three records of a locked operation. """
    thread, location, _ = event.fields
    return [Event(oracle.LOAD, event.fields), Event(oracle.ISSUE, (thread, location)), Event(oracle.COMMIT, (thread,))]


def replaced(events: list[Event], chosen: list[int]) -> tuple[bytes, dict[int, int], dict[int, int]]:
    """The trace with the chosen locked operations as three records, and for each old number the new one, of a load and
    of a store: as a store, a locked operation that was replaced is the second of the three."""
    of_load = {number: number + 2 * sum(k < number for k in chosen) for number in range(len(events))}
    of_store = {number: new + (number in chosen) for number, new in of_load.items()}
    changed = []
    for number, event in enumerate(events):
        event = renumbered(event, of_store)
        changed += in_three(event) if number in chosen else [event]
    return generate.encode_all(changed), of_load, of_store


def check_replaced(data: bytes, m: Machine, answer: Answer) -> int:
    """ "In an accepted trace, replacing it by the three, while the event limit holds, must give the same verdict, cut
    and share, event numbers being carried over": each locked operation alone, and all at once. Says how many traces
    that is. """
    events = read_events(data)
    locked = [number for number, event in enumerate(events) if event.kind == oracle.LOCKED]
    tried = [[k] for k in locked] + ([locked] if len(locked) > 1 else [])
    for chosen in tried:
        longer, of_load, of_store = replaced(events, chosen)
        other = oracle.judge(longer)
        assert not isinstance(other, Refused) and other.events == answer.events + 2 * len(chosen)
        if isinstance(answer, Robust):
            assert other == replace(answer, events=other.events)
        else:
            assert other == Broken(other.events, of_load[answer.load], of_store[answer.missing],
                                   of_store[answer.observed], answer.kind, answer.primary,
                                   replaced_windows(m, answer, chosen, of_load, of_store))
    return len(tried)


def replaced_windows(m: Machine, answer: Broken, chosen: list[int], of_load: dict[int, int],
                     of_store: dict[int, int]) -> tuple[Optional[Window], ...]:
    """The windows with locked operations as three records. A thread whose last place is also the first load that brings
    p has no window; if that locked operation is replaced, it has the place between load and issue."""
    before, p, found = oracle.happens_before(m), answer.missing, []
    for thread, ends in enumerate(answer.windows):
        last = oracle.last_place(m, before, answer.observed, thread)
        if ends is not None:
            brought = of_store[p] if ends[0] - 1 == p else of_load[ends[0] - 1]
            found.append((brought + 1, of_store[ends[1]]))
        elif last in chosen and oracle.first_place(m, before, p, thread) == last + 1 and thread != answer.primary:
            found.append((of_store[last], of_store[last]))
        else:
            found.append(None)
    return tuple(found)


def stored(events: list[Event]) -> tuple[bytes, dict[int, int]]:
    """The trace with "a store issued in the signal's place" for each signal, at a location of its own and committed at
    once, and with a load from it for each wait; and old number -> new number, of a signal that of its store."""
    signals = sorted(of_kinds(events, (oracle.SIGNAL,)))
    version, threads, locations = events[0].fields
    place = {signal: locations + k for k, signal in enumerate(signals)}
    new = {number: number + sum(signal < number for signal in signals) for number in range(len(events))}
    changed = [Event(oracle.BEGIN, (version, threads, locations + len(signals)))]
    for number, event in enumerate(events[1:], start=1):
        if event.kind == oracle.SIGNAL:
            thread = event.get("thread")
            changed += [Event(oracle.ISSUE, (thread, place[number])), Event(oracle.COMMIT, (thread,))]
        elif event.kind == oracle.WAIT:
            thread, signal = event.fields
            changed.append(Event(oracle.LOAD, (thread, place[signal], new[signal])))
        else:
            changed.append(renumbered(event, new))
    return generate.encode_all(changed), new


def check_stored(events: list[Event], m: Machine, answer: Answer) -> None:
    """Hand-overs as stores and loads order the other stores as before: the same verdict and evidence, the same first
    places, and as many of the other stores in. The stores that were signals are stores, too, so a last place may be
    later, and a thread may have a window more."""
    longer, new = stored(events)
    other, added = oracle.judge_closure(longer), {new[signal] for signal in m.signals}
    if isinstance(answer, Robust):
        assert isinstance(other, Robust)
        longer_m = oracle.run(longer)
        for stretch, thread in oracle.places(m):
            at = 8 * (stretch - 1) + thread
            inside = oracle.issued_at(longer_m, (stretch, thread))[:other.cut[at]]
            assert answer.cut[at] == len(set(inside) - added)
        return
    assert isinstance(other, Broken) and (other.kind, other.primary) == (answer.kind, answer.primary)
    assert [other.load, other.missing, other.observed] == [new[answer.load], new[answer.missing], new[answer.observed]]
    for ends, others in zip(answer.windows, other.windows):
        if ends is not None:
            assert others is not None and others[0] == new[ends[0] - 1] + 1
            assert others[1] == new[ends[1]] or (others[1] in added and others[1] > new[ends[1]])


def check_prefixes(data: bytes, answer: Answer) -> None:
    """Records 0 to e are broken exactly from the named load on, and robust before."""
    for last in range(len(read_events(data))):
        short = oracle.judge(oracle.prefix(data, last))
        broken = isinstance(answer, Broken) and last >= answer.load
        assert isinstance(short, Broken) == broken
        if broken:
            assert short == replace(answer, events=last)


def check_windows(data: bytes, answer: Broken) -> None:
    """ "The thread of q must always have one", but "if q's own record is the load that first brings p to its thread,
    that thread has no window". Every place of a window is a record of the stretch, behind one that brought p to the
    thread, and at or in front of a store of it that is q or happens before q. Since p and q are on two lines, some
    thread has one. Pairs of other kinds have none. """
    if answer.kind != "flush":
        assert answer.primary is None and answer.windows == ()
        return
    events, m, p, q = read_events(data), oracle.run(data), answer.missing, answer.observed
    assert answer.primary == m.stores[p].thread
    assert (answer.windows[m.stores[q].thread] is None) == brought_by_observed(data, events, p, q)
    assert any(answer.windows)
    assert all(event.kind != oracle.CRASH for event in events[p:q + 1])
    for thread, ends in enumerate(answer.windows):
        if ends is not None:
            first, last = ends
            brought = events[first - 1]
            assert p < first <= last <= q
            assert events[last].get("thread") == brought.get("thread") == thread
            assert events[last].kind in oracle.ISSUES and oracle.order(data, last, q) in ("same", "before")
            assert first - 1 == p or brings(data, brought, p)


def brings(data: bytes, event: Event, p: int) -> bool:
    """The event is a load "whose source is p or happens after p", or a wait "whose signal passes p on"."""
    if event.kind == oracle.WAIT:
        return passes_on(data, event.get("source"), p)
    return event.kind in oracle.LOADS and oracle.order(data, p, event.get("source")) in ("same", "before")


def passes_on(data: bytes, signal: int, p: int) -> bool:
    """p "would happen before a store issued in the signal's place": in the trace up to there, with that store in the
    place of the signal, it does."""
    thread = oracle.read_record(oracle.record_part(data, signal)).get("thread")
    instead = oracle.prefix(data, signal - 1) + oracle.encode(Event(oracle.ISSUE, (thread, 0)))
    return p < signal and oracle.order(instead, p, signal) == "before"


def brought_by_observed(data: bytes, events: list[Event], p: int, q: int) -> bool:
    """ "q's own record is the load that first brings p to its thread"; p's own thread had it before. """
    thread = events[q].get("thread")
    earlier = [event for event in events[p + 1:q] if event.has("thread") and event.get("thread") == thread]
    return (thread != events[p].get("thread") and brings(data, events[q], p)
            and not any(brings(data, event, p) for event in earlier))


def check_order(data: bytes, m: Machine) -> None:
    """The order answers fit each other, and what happens before has a smaller number and is committed earlier. A query
    of 0, which is no issue, gets 16; of no bytes it is turned away with 1."""
    assert oracle.order(data, 0, 0) == Refused(16 if data else 1, 0)
    opposite = {"before": "after", "after": "before", "same": "same", "neither": "neither"}
    for p in m.stores.values():
        for q in m.stores.values():
            answer = oracle.order(data, p.event, q.event)
            assert oracle.order(data, q.event, p.event) == opposite[answer]
            assert (answer == "same") == (p.event == q.event)
            if answer == "before":
                assert p.stretch == q.stretch and p.event < q.event
                assert q.commit is None or (p.commit is not None and p.commit < q.commit)


def check_records(data: bytes) -> None:
    """ "an event written reads back as itself, and a record read and written again has its old bytes" """
    number = 0
    while part := oracle.record_part(data, number):
        event = oracle.read_record(part)
        if isinstance(event, Event):
            output = bytearray(len(part) + 1)
            assert oracle.write_event(event, output) is None and bytes(output) == part + b"\0"
            assert oracle.write_event(event, bytearray(len(part) - 1)) == Refused(17, 0)
        number += 1


def check_first(data: bytes, answer: Answer) -> None:
    """ "1 in judging only for bytes that begin with some other record." """
    first = oracle.read_record(data)
    assert (answer == Refused(1, 0)) == (isinstance(first, Event) and first.kind != oracle.BEGIN)


def check_no_bytes(answer: Answer) -> None:
    """ "For judging, empty bytes mean a trace with no events: robust, all-zero cut, share 100, `events 0`. Other calls
    still turn it away." No stretch is finished, so there is no cut line. """
    assert answer == oracle.judge_closure(b"") == NOTHING
    assert verdict_lines(b"") == ["events 0", "verdict robust", "share 100"]
    assert oracle.read_record(b"") == Refused(1, 0) and oracle.record_part(b"", 0) == b""
    for first, second in product((0, 1, 2, 65535), repeat=2):
        assert oracle.order(b"", first, second) == Refused(1, 0)


def check_refusal(data: bytes, answer: Refused) -> None:
    """The records before the refused one, which may be none, are accepted, and bytes after it change nothing unless
    bytes were missing. The order query gets the same refusal."""
    if answer.number != 2:
        assert oracle.judge(data + b"\x02\x00\x09\x00") == answer
    assert not isinstance(oracle.run(oracle.prefix(data, answer.event - 1)), Refused)
    assert oracle.order(data, 0, 0) == answer


def refused_kind(data: bytes, answer: Refused) -> str:
    """The name of the refused record's kind, if it is counted apart and its bytes are there."""
    record = data[len(oracle.prefix(data, answer.event - 1)):]
    return NAMED.get(oracle.number_at(record, 2), "") if len(record) >= 4 else ""


def features(m: Machine, answer: Answer) -> list[str]:
    """Names of what an accepted trace shows, for the count."""
    counted = [load for load in oracle.counted(m) if load.stretch > 1]
    found = ["with a counted load after a crash"] if counted else []
    if isinstance(answer, Robust) and counted:
        found.append("robust with a counted load after a crash")
        found += ["robust, share 1 to 99"] if 0 < answer.share < 100 else []
    if isinstance(answer, Broken):
        last = counting(m, answer.load)
        forbidden, sources = set().union(*(oracle.forbids(m, load) for load in last)), {load.source for load in last}
        missing, observed = m.stores[answer.missing], m.stores[answer.observed]
        found += ["broken: load does not forbid missing"] if missing.event not in forbidden else []
        found += ["broken: load does not observe observed"] if observed.event not in sources else []
        found += ["broken: pair of two threads"] if missing.thread != observed.thread else []
        found += ["broken: pair of a later stretch"] if missing.stretch > 1 else []
        found += ["broken: events after load"] if answer.load < answer.events else []
        found += window_features(m, answer) if answer.kind == "flush" else []
    dropped = [s for s in m.stores.values() if s.commit is None and s.stretch < m.stretch]
    found += ["dropped stores"] if dropped else []
    found += ["dropped store forbidden"] if any(oracle.forbids(m, load) & {s.event for s in dropped}
                                                for load in counted) else []
    found += ["crossing load in a skip"] if any(load.crossing and load.skipped for load in m.loads) else []
    return found + locked_features(m, answer) + handed_features(m, answer) + [f"crashes {m.stretch - 1}"]


def locked_features(m: Machine, answer: Answer) -> list[str]:
    """Names of what the locked operations of an accepted trace show."""
    locked = [load for load in m.loads if load.event in m.stores]
    numbers = {load.event for load in locked}
    shown = {
        "some": locked,
        "counted": [load for load in locked if load in oracle.counted(m)],
        "crossing in a skip": [load for load in locked if load.crossing and load.skipped],
        "a chain": [load for load in locked if load.source in numbers and not load.crossing],
        "its store observed": numbers & {q for load in oracle.counted(m) for q in oracle.observes(load)},
    }
    if isinstance(answer, Broken):
        shown |= {f"{name} of broken": numbers & {getattr(answer, name)} for name in ("load", "missing", "observed")}
    return [f"locked: {name}" for name, found in shown.items() if found]


def handed_features(m: Machine, answer: Answer) -> list[str]:
    """Names of what the signals and waits of an accepted trace show."""
    signal_of = {wait: m.signals[wait.source] for wait in m.waits}
    others = [wait for wait in m.waits if signal_of[wait].thread != wait.thread]
    decided = generate.handed_over(m, answer)
    shown = {
        "a signal": m.signals,
        "a wait for another thread's": others,
        "a wait for the own thread's": len(others) < len(m.waits),
        "two waits for one signal": len({wait.source for wait in m.waits}) < len(m.waits),
        "in a later stretch": [wait for wait in others if wait.stretch > 1],
        "a chain": [wait for wait in others for earlier in others if earlier.stretch == wait.stretch
                    and earlier.thread == signal_of[wait].thread and earlier.event < wait.source],
        "with waiting stores": [wait for wait in others for store in m.stores.values()
                                if (store.thread, store.stretch) == (wait.thread, wait.stretch)
                                and store.event < wait.event < (store.commit or m.events)],
        "broken only by it": decided and isinstance(answer, Broken),
        "cut only by it": decided and isinstance(answer, Robust),
    }
    if isinstance(answer, Broken):
        first = {ends[0] - 1 for ends in answer.windows if ends is not None}
        shown["first place of a window"] = first & {wait.event for wait in m.waits}
    return [f"hand-over: {name}" for name, found in shown.items() if found]


def window_features(m: Machine, answer: Broken) -> list[str]:
    """Names of what the windows of a flush fault show."""
    before, pair = oracle.happens_before(m), {m.stores[answer.missing].thread, m.stores[answer.observed].thread}
    found = ["windows: primary has none"] if answer.windows[answer.primary] is None else []
    observed = m.stores[answer.observed]
    found += ["windows: observed's thread has none"] if answer.windows[observed.thread] is None else []
    found += ["windows: longer than a record"] if any(ends and ends[0] < ends[1] for ends in answer.windows) else []
    for thread in set(range(m.threads)) - pair:
        first = oracle.first_place(m, before, answer.missing, thread)
        last = oracle.last_place(m, before, answer.observed, thread)
        kind = ("neither end" if first is None and last is None else "no last place" if last is None else
                "no first place" if first is None else "out of order" if first > last else "a window")
        found.append("windows: third thread, " + kind)
    return found


def check(data: bytes, answer: Answer, counts: Counter) -> None:
    """All checks of one session."""
    check_records(data)
    check_first(data, answer)
    counts.update(check_versions(data))
    assert oracle.judge_closure(data) == answer
    if isinstance(answer, Refused):
        counts[f"refused {answer.number}{refused_kind(data, answer)}"] += 1
        check_refusal(data, answer)
        return
    events, m = read_events(data), oracle.run(data)
    counts["no bytes"] += not data
    counts["a begin alone"] += len(events) == 1
    if not data:
        check_no_bytes(answer)
    counts[f"broken {answer.kind}" if isinstance(answer, Broken) else "robust"] += 1
    counts.update(features(m, answer) + line_features(m, answer) + check_renamed(events, m, answer))
    counts.update(region_features(events, m, answer))
    counts.update(check_regions(events, m, answer))
    flushes = of_kinds(events, (oracle.CLFLUSH, oracle.CLFLUSHOPT))
    fences = of_kinds(events, (oracle.SFENCE, oracle.MFENCE))
    for dropped in (flushes, flushes | fences, idle(events), empty_regions(events, m)):
        check_neutral(events, answer, dropped)
    counts["traces with locked operations replaced"] += check_replaced(data, m, answer)
    if m.signals and m.locations + len(m.signals) <= oracle.MAX_LOCATIONS:
        counts["traces with hand-overs as stores and loads"] += 1
        check_stored(events, m, answer)
    check_prefixes(data, answer)
    if isinstance(answer, Broken):
        check_load(m, answer)
        check_kind(m, answer)
        check_windows(data, answer)
    check_order(data, m)


def main() -> None:
    """Run the checks and print the counts. Of many sessions, without switches, every sort of region must come up."""
    values = vars(generate.arguments())
    seed, count = values.pop("seed"), values.pop("count")
    limits, counts = generate.Limits(regions=True, **values), Counter()
    for data, answer in generate.generate(seed, count, limits):
        try:
            check(data, answer, counts)
        except AssertionError:
            print("failed:", data.hex(), show(data), answer)
            raise
    for name in sorted(counts):
        print(f"{counts[name]:8} {name}")
    missed = never_met(counts) if count >= MANY and limits == generate.Limits(regions=True) else []
    if missed:
        sys.exit("never met: " + "; ".join(missed))
    print(f"{count} passed, 0 failed")


if __name__ == "__main__":
    main()
