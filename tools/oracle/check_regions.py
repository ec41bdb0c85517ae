"""Checks of the oracle about versions and loads under a checksum (document 02, job 7), for check.py."""

from __future__ import annotations

from collections import Counter
from typing import Optional

import generate
import oracle
from oracle import Answer, Broken, Event, Load, Machine, Refused, Region, Robust


def with_version(data: bytes, version: int) -> bytes:
    """The bytes of a trace with another version in its begin."""
    return data[:4] + version.to_bytes(2, "little") + data[6:]


def first_admitted(data: bytes) -> Optional[int]:
    """The number of the first framed record behind the begin whose kind only version 2 admits."""
    number = 1
    while part := oracle.record_part(data, number):
        if oracle.number_at(part, 2) in oracle.ADMITTED_BY_2:
            return number
        number += 1
    return None


def check_versions(data: bytes) -> list[str]:
    """ "later in a version 1 trace they get 3, ahead of a wrong length": in version 1 the judging ends at the first
    such record, if it did not end before; all else is as in version 2. Says what was met. """
    begin = oracle.read_record(data)
    if isinstance(begin, Refused) or begin.kind != oracle.BEGIN:
        return []
    in_1, in_2 = (oracle.judge_closure(with_version(data, version)) for version in oracle.VERSIONS)
    first = first_admitted(data)
    if first is None or (isinstance(in_2, Refused) and in_2.event < first):
        assert in_1 == in_2
        return []
    assert in_1 == Refused(3, first)
    same = isinstance(in_2, Refused) and in_2.event == first
    return [f"version: 3, in version 2 {in_2.number} there" if same else "version: 3, in version 2 it passes"]


def check_load(m: Machine, answer: Broken) -> None:
    """Some load counts as of the event that broken names, so that a close with nothing held is never named: that load
    itself, or a close of the load's thread with outcome 1. """
    loads = counting(m, answer.load)
    assert loads
    for load in loads:
        closes = [region for region in m.regions if region.end == answer.load and region.outcome == 1]
        assert load.event == answer.load or [region.thread for region in closes] == [load.thread]


def counting(m: Machine, event: int) -> list[Load]:
    """The loads that count as of an event."""
    return [load for load in m.loads if oracle.counts_as_of(m, load) == event]


def held_by(m: Machine, region: Region) -> list[Load]:
    """The loads that were held in a region."""
    return [load for load in m.loads if oracle.region_of(m, load) == region and load.crossing and not load.skipped]


def is_closed(events: list[Event], region: Region) -> bool:
    """Whether a close ends the region, and neither a crash nor the trace's end."""
    return region.end is not None and events[region.end].kind == oracle.CLOSE


def empty_regions(events: list[Event], m: Machine) -> set[int]:
    """The opens and closes of regions in which their thread loads nothing: without them nothing moves."""
    found: set[int] = set()
    for region in m.regions:
        inside = events[region.start:region.end]
        if not any(event.kind in oracle.LOADS and event.get("thread") == region.thread for event in inside):
            found |= {region.start, region.end} if is_closed(events, region) else {region.start}
    return found


def as_skips(events: list[Event], m: Machine) -> tuple[list[Event], int]:
    """The trace with a skip in the place of each dropped region, of threads that have no skips; and how many these
    are."""
    skipping = {event.get("thread") for event in events if event.kind in (oracle.SKIP_ON, oracle.SKIP_OFF)}
    chosen = [region for region in m.regions if region.outcome == 0 and region.thread not in skipping]
    changed = list(events)
    for region in chosen:
        changed[region.start] = Event(oracle.SKIP_ON, (region.thread,))
        if is_closed(events, region):
            changed[region.end] = Event(oracle.SKIP_OFF, (region.thread,))
    return changed, len(chosen)


def at_once(events: list[Event], m: Machine) -> tuple[bytes, dict[int, int]]:
    """The trace without the opens and closes of regions that are closed with outcome 1, its sources renumbered, and new
    number -> old number."""
    taken = {number for region in m.regions if region.outcome == 1 for number in (region.start, region.end)}
    kept = [number for number in range(len(events)) if number not in taken]
    new = {old: place for place, old in enumerate(kept)}
    changed = [Event(event.kind, tuple(new[value] if name == "source" else value for name, value
                                       in zip(oracle.KINDS[event.kind][1], event.fields)))
               for event in (events[number] for number in kept)]
    return generate.encode_all(changed), dict(enumerate(kept))


def check_at_once(events: list[Event], m: Machine, answer: Answer) -> None:
    """If the held loads that count counted at once, the same loads would count over the whole trace: the same verdict,
    cut and share, and a broken trace would be broken no later."""
    shorter, old = at_once(events, m)
    other = oracle.judge_closure(shorter)
    if isinstance(answer, Robust):
        assert other == Robust(len(old) - 1, answer.cut, answer.share)
    else:
        assert isinstance(other, Broken) and old[other.load] <= answer.load


def turned(events: list[Event], m: Machine) -> list[Event]:
    """The trace with each run of loads that one region holds, record behind record, the other way round."""
    changed = list(events)
    for region in m.regions:
        numbers = [load.event for load in held_by(m, region) if load.event not in m.stores]
        while numbers:
            run = [number for place, number in enumerate(numbers) if number == numbers[0] + place]
            changed[run[0]:run[-1] + 1] = reversed(changed[run[0]:run[-1] + 1])
            numbers = numbers[len(run):]
    return changed


def check_regions(events: list[Event], m: Machine, answer: Answer) -> list[str]:
    """What regions do, of an accepted trace. A dropped region is as good as a skip. The order of held loads is no
    matter: "Outcome 1 counts them all as of the close". Says what was tried."""
    if not m.regions:
        return []
    skipped, many = as_skips(events, m)
    assert oracle.judge(generate.encode_all(skipped)) == answer
    assert oracle.judge(generate.encode_all(turned(events, m))) == answer
    check_at_once(events, m, answer)
    tried = ["regions: dropped ones as skips"] if many else []
    return tried + (["regions: held loads turned round"] if turned(events, m) != events else [])


def region_features(events: list[Event], m: Machine, answer: Answer) -> dict[str, int]:
    """Names of what the regions of a trace can show: 1 if those of this accepted one do, else 0."""
    closed = [region for region in m.regions if region.outcome == 1]
    held = [load for region in closed for load in held_by(m, region)]
    sources = {(load.location, load.source) for load in held}
    shown = {
        "version 2 without regions": m.version == 2 and not m.regions,
        "closed with 1": closed,
        "closed with 0": [region for region in m.regions if is_closed(events, region) and region.outcome == 0],
        "ended by a crash": [region for region in m.regions if region.end and not is_closed(events, region)],
        "never ended": [region for region in m.regions if region.end is None],
        "several held loads count": [region for region in closed if len(held_by(m, region)) > 1],
        "of one location, with two sources": len(sources) > len({location for location, _ in sources}),
        "a locked operation's load counts": [load for load in held if load.event in m.stores],
        "a load in a skip": [load for load in m.loads if load.skipped and load.crossing and oracle.region_of(m, load)],
        "a load that is not crossing": [load for load in m.loads if not load.crossing and oracle.region_of(m, load)],
        "a store there before the close": [
            load for load in held for store in m.stores.values() if store.location == load.location
            and store.commit and load.event < store.commit < oracle.counts_as_of(m, load)],
        "two threads open": [one for one in m.regions for two in m.regions if one.thread != two.thread
                             and one.start < two.start < (one.end or len(events))],
        "held loads decide": generate.held(m, answer),
        "dropped loads decide": generate.dropped(m, answer),
        "broken at a close": isinstance(answer, Broken) and answer.load in {region.end for region in closed},
    }
    return {f"regions: {name}": int(bool(found)) for name, found in shown.items()}


def never_met(counts: Counter) -> list[str]:
    """What regions can show, and the refusals of an open and of a close, that did not come up."""
    features = [name for name in counts if name.startswith("regions: ")]
    refusals = [f"refused {number}, {kind}" for number in (3, 4, 7, 12) for kind in ("open", "close")]
    return [name for name in [*features, *refusals, "refused 19, close"] if counts[name] == 0]
