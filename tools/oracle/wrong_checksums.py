"""Wrong judges of versions and of loads under a checksum (document 02, job 7), for mutants.py. A function that is
imported by its name is the oracle's own, whatever stands in its place in the oracle."""

from __future__ import annotations

from dataclasses import replace
from typing import Callable, Optional, Union

import oracle
from oracle import (ADMITTED_BY_2, Broken, Event, Load, Machine, Refused, Region, Robust, Store, broken_answer,
                    closure_answer, counts_as_of, decode, directly_before, forbids, frame_at, general_refusal,
                    number_at, observes, prefix, read_record, region_of, region_refusal, run, take_effect)
from wrong_hand_overs import queried

Counting = Callable[[Machine, Load], Optional[int]]


def heeded(load: Load) -> bool:
    """The load is crossing and in no skip."""
    return load.crossing and not load.skipped


def in_region(rule: Callable[[Machine, Load, Region], Optional[int]]) -> Counting:
    """counts_as_of, with another answer for the loads in regions."""
    def counting(m: Machine, load: Load) -> Optional[int]:
        region = region_of(m, load)
        return counts_as_of(m, load) if region is None else rule(m, load, region)
    return counting


def at_the_load(m: Machine, load: Load, region: Region) -> Optional[int]:
    """A held load that counts does so at once."""
    return load.event if heeded(load) and region.outcome == 1 else None


def as_if_not_open(m: Machine, load: Load, region: Region) -> Optional[int]:
    """No load is held."""
    return load.event if heeded(load) else None


def at_the_end(m: Machine, load: Load, region: Region) -> Optional[int]:
    """The trace's end counts the held loads."""
    return m.events if heeded(load) and region.end is None else counts_as_of(m, load)


def skipped_held(m: Machine, load: Load, region: Region) -> Optional[int]:
    """A load in a skip is held."""
    return counts_as_of(m, replace(load, skipped=False))


def locked_at_once(m: Machine, load: Load, region: Region) -> Optional[int]:
    """The load of a locked operation is not held."""
    return load.event if heeded(load) and load.event in m.stores else counts_as_of(m, load)


def locked_dropped(m: Machine, load: Load, region: Region) -> Optional[int]:
    """The load of a locked operation in a region never counts."""
    return None if load.event in m.stores else counts_as_of(m, load)


def not_crossing_held(m: Machine, load: Load, region: Region) -> Optional[int]:
    """A load that is not crossing is held too."""
    committed = load.source in m.stores and m.stores[load.source].commit is not None
    return counts_as_of(m, replace(load, crossing=load.crossing or committed))


def crossing_at_close(m: Machine, load: Load, region: Region) -> Optional[int]:
    """Whether a load is crossing is asked at the close: a store that takes effect there in between drops it."""
    stored = [store for store in m.stores.values() if store.location == load.location and store.commit is not None
              and load.event < store.commit < (region.end or 0)]
    return None if stored else counts_as_of(m, load)


def at_the_next_close(m: Machine, load: Load, region: Region) -> Optional[int]:
    """The loads of a region count as of the close that `left_for_next` has noted in the place of its outcome."""
    return region.outcome if heeded(load) and region.outcome > 1 else counts_as_of(m, load)


def one_of_the_held(place: int) -> Callable[[Machine, Load, Region], Optional[int]]:
    """Of the held loads of a close only the first or the last counts."""
    def counting(m: Machine, load: Load, region: Region) -> Optional[int]:
        held = [one for one in m.loads if heeded(one) and region_of(m, one) == region]
        return counts_as_of(m, load) if held[place:][:1] == [load] else None
    return counting


def one_of_a_location(m: Machine, load: Load, region: Region) -> Optional[int]:
    """Of the held loads of one location only the last counts."""
    held = [one for one in m.loads if heeded(one) and region_of(m, one) == region and one.location == load.location]
    return counts_as_of(m, load) if held[-1:] == [load] else None


def by_any_close(m: Machine, load: Load, region: Region) -> Optional[int]:
    """A close with outcome 1 counts the held loads of all threads."""
    closes = [one.end for one in m.regions if one.outcome == 1 and load.event < one.end <= (region.end or m.events)]
    return min(closes, default=None) if heeded(load) else None


def held_before_open(m: Machine, load: Load) -> Optional[int]:
    """A load before the open is held too."""
    later = [region for region in m.regions if region.thread == load.thread and region.start > load.event
             and not any(load.event < one.end < region.start for one in m.regions if one.end)]
    outside = heeded(load) and region_of(m, load) is None and later
    return counts_as_of(m, load) if not outside else later[0].end if later[0].outcome == 1 else None


def of_any_thread(m: Machine, load: Load) -> Optional[Region]:
    """The open state of a thread holds the loads of all threads."""
    found = [region_of(m, replace(load, thread=thread)) for thread in range(m.threads)]
    return next((region for region in found if region is not None), None)


def closing(change: Callable[[int], int]) -> Callable[[Machine, int, Event], None]:
    """take_effect, with another outcome of closes."""
    def effect(m: Machine, number: int, event: Event) -> None:
        closes = event.kind == oracle.CLOSE
        thread_outcome = event.fields[:1] + tuple(map(change, event.fields[1:]))
        take_effect(m, number, Event(oracle.CLOSE, thread_outcome) if closes else event)
    return effect


def left_for_next(m: Machine, number: int, event: Event) -> None:
    """Outcome 0 leaves the held loads for the thread's next close in that stretch, which counts them if it has 1."""
    take_effect(m, number, event)
    for region in m.regions:
        if region.outcome == 0 and event.kind == oracle.CRASH:
            region.outcome = -1
        elif region.outcome == 0 and region.end and event == Event(oracle.CLOSE, (region.thread, 1)):
            region.outcome = number


def skip_drops(m: Machine, number: int, event: Event) -> None:
    """A skip drops what its thread has held before it."""
    region = m.open_region(event.get("thread")) if event.kind == oracle.SKIP_ON else None
    m.loads = [replace(load, skipped=load.skipped or (region is not None and region_of(m, load) == region))
               for load in m.loads]
    take_effect(m, number, event)


def dropped_in_skip(m: Machine, number: int, event: Event) -> None:
    """A close in a skip drops the held loads, whatever its outcome."""
    drops = event.kind == oracle.CLOSE and event.get("thread") in m.skips
    take_effect(m, number, Event(oracle.CLOSE, (event.get("thread"), 0)) if drops else event)


def store_dropped(m: Machine, number: int, event: Event) -> None:
    """Outcome 0 drops the stores of locked operations whose loads are held, too."""
    region = m.open_region(event.get("thread")) if event.kind == oracle.CLOSE else None
    take_effect(m, number, event)
    for load in m.loads if region is not None and region.outcome == 0 else []:
        if heeded(load) and load.event in m.stores and region_of(m, load) == region:
            m.stores[load.event].commit = None
            m.memory[load.location].remove(load.event)


def crash_counts(m: Machine, number: int, event: Event) -> None:
    """A crash counts the held loads."""
    opened = [region for region in m.regions if region.end is None]
    take_effect(m, number, event)
    for region in opened if event.kind == oracle.CRASH else []:
        region.outcome = 1


def over_crash(keeps_loads: bool) -> Callable[[Machine, int, Event], None]:
    """The open state lives on over a crash, with the held loads or without them."""
    def effect(m: Machine, number: int, event: Event) -> None:
        opened = [region for region in m.regions if region.end is None]
        take_effect(m, number, event)
        for region in opened if event.kind == oracle.CRASH else []:
            region.end, region.start = None, region.start if keeps_loads else number
    return effect


def one_by_one(newest_first: bool) -> Callable[[Machine], Union[Robust, Broken]]:
    """The held loads of a close are judged one by one, up to the first with which there is a pair."""
    def answer(m: Machine) -> Union[Robust, Broken]:
        sign = -1 if newest_first else 1
        loads = sorted(oracle.counted(m), key=lambda load: (counts_as_of(m, load), sign * load.event))
        before = oracle.happens_before(m)
        for many, load in enumerate(loads, start=1):
            pair = oracle.smallest_pair(m, loads[:many], before, False)
            if pair is not None:
                return broken_answer(m, counts_as_of(m, load), *pair)
        return closure_answer(m)
    return answer


def half_at_once(observing: bool) -> Callable[[Machine], Union[Robust, Broken]]:
    """A held load that counts observes at once and forbids as of the close, or the other way round."""
    def answer(m: Machine) -> Union[Robust, Broken]:
        before, loads = oracle.happens_before(m), oracle.counted(m)
        for event in sorted({number for load in loads for number in (load.event, counts_as_of(m, load))}):
            early, late = [load for load in loads if load.event <= event], oracle.counted(m, event)
            observed = {q for load in (early if observing else late) for q in observes(load)}
            forbidden = {p for load in (late if observing else early) for p in forbids(m, load)}
            pairs = {(p, q) for p in forbidden for q in observed if p == q or p in before[q]}
            if pairs:
                return broken_answer(m, event, *min(pairs))
        return closure_answer(m)
    return answer


def load_for_close(which: Callable[..., int]) -> Callable[[Machine, int, int, int], Broken]:
    """Broken names the first or the last held load, and not the close."""
    def answer(m: Machine, load: int, p: int, q: int) -> Broken:
        held = [one.event for one in m.loads if counts_as_of(m, one) == load]
        return broken_answer(m, which(held, default=load), p, q)
    return answer


def held_forbid_nothing(m: Machine, load: Load, committed_only: bool = False) -> set[int]:
    """Held loads only observe."""
    return forbids(m, load) if region_of(m, load) is None else set()


def as_of_the_close(m: Machine, load: Load, committed_only: bool = False) -> set[int]:
    """A held load forbids what is committed at its location by the close, of its own stretch too."""
    region = region_of(m, load)
    current = {p.event for p in m.stores.values() if p.location == load.location and p.stretch == load.stretch
               and p.commit is not None and region is not None and p.commit < (region.end or 0)}
    return forbids(m, load) | current


def dropped_unordered(m: Machine, q: Store) -> set[int]:
    """The loads of a region that is not closed with outcome 1 do not order."""
    kept = [load for load in m.loads if region_of(m, load) is None or region_of(m, load).outcome == 1]
    return directly_before(replace(m, loads=kept), q)


def length_before_version(record: bytes, version: Optional[int] = None) -> Union[Event, int]:
    """In version 1 a wrong length goes before 3."""
    alone, true = decode(record), decode(record, version)
    return alone if alone == 4 else true


def known_in_version_1(record: bytes, version: Optional[int] = None) -> Union[Event, int]:
    """Version 1 knows the two kinds."""
    return decode(record)


def unknown_when_first(record: bytes, version: Optional[int] = None) -> Union[Event, int]:
    """The two kinds are unknown as a trace's first record."""
    return decode(record, 1 if version is None else version)


def unknown_in_version_2(record: bytes, version: Optional[int] = None) -> Union[Event, int]:
    """Version 2 does not know the two kinds either."""
    return decode(record, None if version is None else 1)


def right_length_known(record: bytes, version: Optional[int] = None) -> Union[Event, int]:
    """Version 1 knows the two kinds if their length is right."""
    alone = decode(record)
    return alone if isinstance(alone, Event) else decode(record, version)


def no_skips_in_version_2(record: bytes, version: Optional[int] = None) -> Union[Event, int]:
    """Version 2 does not know skips."""
    return 3 if version == 2 and number_at(record, 2) in (oracle.SKIP_ON, oracle.SKIP_OFF) else decode(record, version)


def version_before(refusal: int) -> Callable[[bytes], Union[Machine, Refused]]:
    """In version 1 the two kinds get 3 before 2, or before a length under 2, which is 4."""
    def running(data: bytes) -> Union[Machine, Refused]:
        answer = run(data)
        if not isinstance(answer, Refused) or answer.event == 0 or read_record(data).get("version") != 1:
            return answer
        rest = data[len(prefix(data, answer.event - 1)):]
        early = frame_at(rest, 0) == refusal and len(rest) >= 4 and number_at(rest, 2) in ADMITTED_BY_2
        return Refused(3, answer.event) if early else answer
    return running


def limit_before_version(m: Machine, number: int, event: Event) -> int:
    """The two kinds get 3 in version 1 behind 13."""
    within = m.version == 1 and event.kind in ADMITTED_BY_2 and number <= oracle.MAX_EVENT
    return 3 if within else general_refusal(m, number, event)


def fields_before_version(m: Machine, number: int, event: Event) -> int:
    """The two kinds get 3 in version 1 behind 13 and 7."""
    return general_refusal(m, number, event) or (3 if m.version == 1 and event.kind in ADMITTED_BY_2 else 0)


def open_before_outcome(m: Machine, event: Event) -> int:
    """12 goes before 19."""
    as_closed = Event(event.kind, event.fields[:1] + (1,) * len(event.fields[1:]))
    return region_refusal(m, as_closed) or region_refusal(m, event)


def outcome_before_thread(m: Machine, number: int, event: Event) -> int:
    """19 goes before 7."""
    true = general_refusal(m, number, event)
    return 19 if true == 7 and event.kind == oracle.CLOSE and event.get("outcome") > 1 else true


def open_before_thread(m: Machine, number: int, event: Event) -> int:
    """For a close, 12 goes before 7."""
    true = general_refusal(m, number, event)
    return 12 if true == 7 and event.kind == oracle.CLOSE and event.get("outcome") <= 1 else true


def any_outcome(m: Machine, event: Event) -> int:
    """Every outcome passes."""
    return 0 if region_refusal(m, event) == 19 and m.open_region(event.get("thread")) else region_refusal(m, event)


def low_byte(m: Machine, event: Event) -> int:
    """Only the low byte of the outcome is looked at."""
    return region_refusal(m, Event(event.kind, event.fields[:1] + tuple(value % 256 for value in event.fields[1:])))


def passing(kind: int) -> Callable[[Machine, Event], int]:
    """An open when open, or a close when not, passes."""
    return lambda m, event: 0 if event.kind == kind and region_refusal(m, event) == 12 else region_refusal(m, event)


def one_open_state(m: Machine, event: Event) -> int:
    """There is one open state for all threads: an open is turned away if any thread is open."""
    opened = any(region.end is None for region in m.regions)
    return 12 if event.kind == oracle.OPEN and opened else region_refusal(m, event)


CHECKSUMS: dict[str, dict[str, object]] = {
    "held: counted at the load": {"counts_as_of": in_region(at_the_load)},
    "held: nothing": {"counts_as_of": in_region(as_if_not_open)},
    "held: outcome 0 counts": {"take_effect": closing(lambda outcome: 1)},
    "held: outcome 1 drops": {"take_effect": closing(lambda outcome: 0)},
    "held: outcomes exchanged": {"take_effect": closing(lambda outcome: 1 - outcome)},
    "held: a crash counts": {"take_effect": crash_counts},
    "held: the trace's end counts": {"counts_as_of": in_region(at_the_end)},
    "held: kept over a crash": {"take_effect": over_crash(True)},
    "held: open state kept over a crash": {"take_effect": over_crash(False)},
    "held: a load in a skip": {"counts_as_of": in_region(skipped_held)},
    "held: not a locked operation's load": {"counts_as_of": in_region(locked_at_once)},
    "held: a locked operation's load never counts": {"counts_as_of": in_region(locked_dropped)},
    "held: a load that is not crossing": {"counts_as_of": in_region(not_crossing_held)},
    "held: a load before the open": {"counts_as_of": held_before_open},
    "held: by any thread's open": {"region_of": of_any_thread},
    "held: dropped by a skip behind it": {"take_effect": skip_drops},
    "held: forbids nothing": {"forbids": held_forbid_nothing},
    "held: observes at once, forbids as of the close": {"closure_answer": half_at_once(True)},
    "held: forbids at once, observes as of the close": {"closure_answer": half_at_once(False)},
    "close: outcome 0 leaves them for the next close": {"take_effect": left_for_next,
                                                        "counts_as_of": in_region(at_the_next_close)},
    "close: drops in a skip": {"take_effect": dropped_in_skip},
    "close: outcome 0 drops a locked operation's store": {"take_effect": store_dropped},
    "close: crossing asked there": {"counts_as_of": in_region(crossing_at_close)},
    "close: the first held load only": {"counts_as_of": in_region(one_of_the_held(0))},
    "close: the last held load only": {"counts_as_of": in_region(one_of_the_held(-1))},
    "close: the last held load of a location only": {"counts_as_of": in_region(one_of_a_location)},
    "close: held loads of all threads": {"counts_as_of": in_region(by_any_close)},
    "close: one by one, oldest first": {"closure_answer": one_by_one(False)},
    "close: one by one, newest first": {"closure_answer": one_by_one(True)},
    "close: the first held load named": {"broken_answer": load_for_close(min)},
    "close: the last held load named": {"broken_answer": load_for_close(max)},
    "close: stores of the current stretch forbidden": {"forbids": as_of_the_close},
    "region: dropped loads do not order": {"directly_before": dropped_unordered},
    "region: an open in queries": {"order": queried(lambda m: {region.start for region in m.regions})},
    "region: a close in queries": {"order": queried(lambda m: {region.end for region in m.regions})},
    "version: 2 out of range": {"VERSIONS": (1,)},
    "version: 3 passes": {"VERSIONS": (1, 2, 3)},
    "version: 0 passes": {"VERSIONS": (0, 1, 2)},
    "version 1: wrong length before 3": {"decode": length_before_version},
    "version 1: knows the kinds": {"decode": known_in_version_1},
    "version 1: knows the kinds of right length": {"decode": right_length_known},
    "version 1: 3 behind 7": {"decode": right_length_known, "general_refusal": fields_before_version},
    "version 1: 3 before 2": {"run": version_before(2)},
    "version 1: 3 before a length under 2": {"run": version_before(4)},
    "version 1: 3 behind 13": {"decode": right_length_known, "general_refusal": limit_before_version},
    "version 2: does not know the kinds": {"decode": unknown_in_version_2},
    "version 2: does not know skips": {"decode": no_skips_in_version_2},
    "first record: the kinds unknown": {"decode": unknown_when_first},
    "close: 12 before 19": {"region_refusal": open_before_outcome},
    "close: 19 before 7": {"general_refusal": outcome_before_thread},
    "close: 12 before 7": {"general_refusal": open_before_thread},
    "close: any outcome": {"region_refusal": any_outcome},
    "close: low byte of the outcome": {"region_refusal": low_byte},
    "open: when open": {"region_refusal": passing(oracle.OPEN)},
    "close: when not open": {"region_refusal": passing(oracle.CLOSE)},
    "open: 12 by any thread": {"region_refusal": one_open_state},
}
