"""Seeded generator of random sessions with the oracle's answers.

`python3 generate.py SEED COUNT [switches]`; the same seed, count and switches always give the same output.
"""

from __future__ import annotations

import argparse
from dataclasses import replace
from random import Random
from typing import Iterator, Optional

import oracle
from builder import Builder, Limits, encode_all
from lines import verdict_lines
from oracle import Answer, Broken, Event, Machine, Refused, Robust

# ---- Near misses: one record that the wanted refusal applies to ----

def beyond(rng: Random, bound: int) -> int:
    """A number that is at least the bound."""
    return rng.choice([bound, bound, bound + 1, bound + 256, 65535])


def event_with(rng: Random, name: str, values: dict[str, int]) -> Event:
    """An event of a random kind that has the named field, which a begin has not."""
    return event_of(rng.choice([k for k, (_, names) in oracle.KINDS.items() if name in names]), values)


def event_of(kind: int, values: dict[str, int]) -> Event:
    """An event of a kind other than begin, with these values of its fields."""
    return Event(kind, tuple(values[name] for name in oracle.KINDS[kind][1]))


def wrong_bytes(rng: Random, number: int, version: Optional[int]) -> bytes:
    """A record that cannot be read where a trace of that version goes on, for refusals 2, 3 and 4: of version 1 also a
    kind that version 2 admits, with its right or a wrong length."""
    some = lambda count: bytes(rng.choice([0, 1, 2, 8, rng.randrange(256)]) for _ in range(count))
    kind = rng.choice(list(oracle.KINDS))
    if number == 2:
        record = oracle.encode(Event(kind, tuple(rng.randrange(3) for _ in oracle.KINDS[kind][1])))
        return record[:rng.randrange(1, len(record))]
    if number == 3:
        others = [0, 17, 18, 256 * kind, 256 + kind, 99]
        kind = rng.choice(oracle.ADMITTED_BY_2 if version == 1 and rng.random() < 0.75 else others)
        length = rng.choice([2, 3, 4, 4, 6, 6, 8])
    else:
        length = rng.choice([n for n in range(11) if n != oracle.KINDS[kind][0]])
    return length.to_bytes(2, "little") + kind.to_bytes(2, "little") + some(max(0, length - 2))


def wrong_event(rng: Random, m: Machine, number: int) -> Optional[Event]:
    """An event for refusals 5, 7 to 12, 18 and 19 in the machine's present state, or None if it has none."""
    thread, location = rng.randrange(m.threads), rng.randrange(m.locations)
    values = {"thread": thread, "location": location, "source": rng.choice([0, 1, 2, *m.signals]),
              "outcome": rng.choice([0, 1, 2])}
    if number == 5:
        return Event(oracle.BEGIN, (rng.randint(0, 3), rng.randint(0, 9), rng.randint(0, 257)))
    if number == 7:
        values |= {"location": rng.choice([location, beyond(rng, m.locations)]), "thread": beyond(rng, m.threads)}
        kind = rng.choice([None, None, oracle.WAIT, oracle.CLOSE])
        return event_with(rng, "thread", values) if kind is None else event_of(kind, values)
    if number == 8:
        return event_with(rng, "location", values | {"location": beyond(rng, m.locations)})
    if number == 9:
        used = [s.location for s in m.stores.values()] or [location]
        location = rng.choice(used + [location])
        legal, _ = oracle.legal_sources(m, thread, location)
        stores = [s for s in m.stores if s not in legal and (m.stores[s].location == location or rng.random() < 0.3)]
        others = [s for s in [0, m.events, m.events + 1, 65535] if s not in legal]
        kind = oracle.LOAD if m.queues[thread] else rng.choice(oracle.LOADS)
        return Event(kind, (thread, location, rng.choice(stores * 2 + others)))
    if number == 18:
        return Event(oracle.WAIT, (thread, no_signal(rng, m)))
    if number == 19:
        return Event(oracle.CLOSE, (thread, rng.choice([2, 2, 3, 256, 257, 65535])))
    if number == 11 and rng.random() < 0.4:
        return locked_too_early(rng, m, location)
    kind = rng.choice({10: [oracle.COMMIT], 11: [oracle.MFENCE, oracle.SIGNAL],
                       12: [oracle.SKIP_ON, oracle.SKIP_OFF, *oracle.ADMITTED_BY_2]}[number])
    outcome = (rng.randint(0, 1),) if kind == oracle.CLOSE else ()
    events = [Event(kind, (t, *outcome)) for t in range(m.threads)]
    fitting = [event for event in events if oracle.own_refusal(m, event) == number]
    return rng.choice(fitting) if fitting else None


def no_signal(rng: Random, m: Machine) -> int:
    """A number that a wait may not name now: 0, a signal of an earlier stretch, a store or another event, the wait
    itself, a later number."""
    old = [number for number, signal in m.signals.items() if signal.stretch < m.stretch]
    others = [number for number in range(1, m.events + 1) if number not in m.signals]
    later = [m.events + 1, m.events + 2, m.events + rng.randint(3, 9), 65535]
    return rng.choice(rng.choice([group for group in ([0], old, old, old, list(m.stores), others, later) if group]))


def locked_too_early(rng: Random, m: Machine, location: int) -> Optional[Event]:
    """A locked operation of a thread with a waiting store, there or at another location; its source is one that the
    load rule allows, or not."""
    waiting = [store for queue in m.queues for store in queue]
    if not waiting:
        return None
    store = m.stores[rng.choice(waiting)]
    location = rng.choice([store.location, location])
    legal, _ = oracle.legal_sources(m, store.thread, location)
    return Event(oracle.LOCKED, (store.thread, location, rng.choice(legal + [0, m.events + 1])))


def filled(events: list[Event]) -> list[Event]:
    """The events with fences added up to event 2,048."""
    return events + [Event(oracle.SFENCE, (0,))] * (oracle.MAX_EVENT + 1 - len(events))


def past_limits(rng: Random, events: list[Event], limits: Limits) -> bytes:
    """The events with crashes added up to the eighth, or filled up to event 2,049."""
    if limits.long and rng.random() < 0.3:
        return encode_all(filled(events) + [Event(rng.choice([oracle.COMMIT, oracle.OPEN]), (rng.randrange(10),))])
    have = sum(event.kind == oracle.CRASH for event in events)
    return encode_all(events + [Event(oracle.CRASH)] * (oracle.MAX_CRASHES + 1 - have))


def place_of_fault(rng: Random, events: list[Event], number: int) -> int:
    """Where the record with the fault goes: anywhere, but a wait mostly behind a crash, so that it may name a signal
    before the crash."""
    crashes = [place for place, event in enumerate(events) if event.kind == oracle.CRASH]
    return rng.randint(crashes[0] + 1 if number == 18 and crashes and rng.random() < 0.7 else 1, len(events))


def without_begin(rng: Random, events: list[Event]) -> bytes:
    """ "bytes that begin with some other record" than a begin: all records behind it, the first of them alone, or one
    of them, an open or a close in front of it. """
    others = events[1:]
    admitted = event_of(rng.choice(oracle.ADMITTED_BY_2), {"thread": 0, "outcome": rng.randint(0, 2)})
    return encode_all(rng.choice([others, others, others[:1], [rng.choice(others), *events], [admitted, *events]]))


def other_version(events: list[Event]) -> bytes:
    """The events behind a begin of the other version: 3 at the first kind that only version 2 admits, if it was 2."""
    version, *numbers = events[0].fields
    return encode_all([Event(oracle.BEGIN, (3 - version, *numbers)), *events[1:]])


def with_fault(rng: Random, limits: Limits, number: int) -> bytes:
    """An accepted trace with one record put in, taken out or changed so that a wanted refusal may apply."""
    events = Builder(rng, limits).build()
    at = place_of_fault(rng, events, number)
    front, rest = encode_all(events[:at]), encode_all(events[at:])
    if number == 1:
        return without_begin(rng, events)
    if number == 3 and rng.random() < 0.5:
        return other_version(events)
    if number in (2, 3, 4):
        readable, version = (front, events[0].get("version")) if rng.random() < 0.8 else (b"", None)
        return readable + wrong_bytes(rng, number, version) + (b"" if number == 2 else rest)
    if number == 6:
        fields = rng.choice([(1, 0, 2), (1, 9, 2), (1, 1, 0), (1, 1, 257), (0, 1, 2), (3, 1, 2), (3, 2, 2), (256, 1, 2),
                             (258, 1, 2), (2, 9, 2), (2, 1, 0), (1, 257, 1), (1, 1, 513), (65535, 65535, 65535)])
        return oracle.encode(Event(oracle.BEGIN, fields)) + rest
    if number == 13:
        return past_limits(rng, events, limits)
    m = oracle.run(front)
    assert isinstance(m, Machine)
    event = wrong_event(rng, m, number)
    return front + rest if event is None else front + oracle.encode(event) + rest


def region_miss(rng: Random, limits: Limits) -> bytes:
    """The first events of an accepted trace, and an open or a close that is turned away. In version 1, which does not
    know it: bytes that end behind its kind (2), event 2,049 (3), a length under 2 (4). In version 2: a thread that
    there is not (7), an open when open or a close when not, since it comes twice (12). Or the begin is turned away for
    its version (6)."""
    number, kind = rng.choice([2, 4, 6, 7, 12] * 7 + [3]), rng.choice(oracle.ADMITTED_BY_2)
    events, version = Builder(rng, limits).build(), {6: rng.choice([0, 3]), 7: 2, 12: 2}.get(number, 1)
    events[0] = Event(oracle.BEGIN, (version, *events[0].fields[1:]))
    most = next((at for at, event in enumerate(events) if version == 1 and event.kind in oracle.ADMITTED_BY_2),
                len(events))
    front = events[:rng.randint(1, most)]
    thread = beyond(rng, events[0].get("threads")) if number == 7 else rng.randrange(events[0].get("threads"))
    record = oracle.encode(event_of(kind, {"thread": thread, "outcome": rng.randint(0, 1 if number == 12 else 2)}))
    wrong = {2: record[:rng.randrange(4, len(record))], 4: bytes([rng.randint(0, 1), 0]) + record[2:], 12: 2 * record}
    return encode_all(filled(front) if number == 3 else front) + wrong.get(number, record)


def near_miss(rng: Random, limits: Limits) -> bytes:
    """A trace with a refusal drawn from 1 to 13, 18 and 19; several are tried, since not every state has every
    refusal."""
    number = rng.choice([*range(1, 14), 3, 3, 3, 6, 7, 11, 12, 12, 18, 18, 18, 19, 19])
    for _ in range(20):
        data = with_fault(rng, limits, number)
        answer = oracle.run(data)
        if isinstance(answer, Refused) and answer.number == number:
            break
    return data


# ---- Damaged and random bytes ----

def damaged(rng: Random, limits: Limits) -> bytes:
    """A trace with a changed, lost or added byte, or with records swapped, doubled or lost; or random bytes, some of
    them one to three only."""
    events = Builder(rng, limits).build()
    data, way = bytearray(encode_all(events)), rng.randrange(10)
    at, record = rng.randrange(len(data)), rng.randrange(1, len(events))
    if way == 0:
        data[at] = rng.choice([0, 1, 2, 4, 6, 8, rng.randrange(256)])
    elif way == 1:
        del data[at]
    elif way == 2:
        data.insert(at, rng.randrange(17))
    elif way == 3:
        del data[at:]
    elif way == 4:
        data = bytearray(rng.choice([0, 0, 1, 2, 4, 6, 8, 9, rng.randrange(256)]) for _ in range(rng.randrange(40)))
    elif way == 5:
        data = data[:10] + bytes(rng.randrange(17) for _ in range(rng.randrange(20)))
    elif way == 6:
        data = bytearray(rng.choice([0, 0, 1, 2, 8, rng.randrange(256)]) for _ in range(rng.randint(1, 3)))
    elif way == 7:
        events[record:record + 2] = reversed(events[record:record + 2])
    elif way == 8:
        events.insert(record, rng.choice(events))
    else:
        del events[record]
    return encode_all(events) if way >= 7 else bytes(data)


# ---- The stream of sessions ----

WISHES = (["any"] + ["robust"] * 3 + ["robust, handed over"] + ["flush"] * 3 + ["impossible"] * 2
          + ["contradiction"] * 2 + ["two threads"] * 2 + ["later stretch"] + ["third thread"]
          + ["broken, handed over"] * 4 + ["broken at a close"] * 7 + ["robust, held"] * 2 + ["robust, dropped"])


def labels(data: bytes) -> set[str]:
    """What an accepted trace shows, in the words of WISHES."""
    m = oracle.run(data)
    answer = oracle.closure_answer(m)
    verdict = "broken" if isinstance(answer, Broken) else "robust"
    decides = {"handed over": handed_over(m, answer), "held": held(m, answer), "dropped": dropped(m, answer)}
    found = {"any"} | {f"{verdict}, {name}" for name, holds in decides.items() if holds}
    if isinstance(answer, Broken):
        found |= {"broken at a close"} if answer.load in {region.end for region in m.regions} else set()
        missing, observed = m.stores[answer.missing], m.stores[answer.observed]
        with_window = {thread for thread, ends in enumerate(answer.windows) if ends is not None}
        return found | {answer.kind, "two threads" if missing.thread != observed.thread else "one thread",
                        "later stretch" if missing.stretch > 1 else "first stretch",
                        "third thread" if with_window - {missing.thread, observed.thread} else "no third thread"}
    return found | ({"robust"} if any(load.stretch > 1 for load in oracle.counted(m)) else set())


def handed_over(m: Machine, answer: Answer) -> bool:
    """Whether hand-overs decide: if the waits handed nothing over, a broken trace would be robust, or a robust one
    would have another cut."""
    other = oracle.closure_answer(replace(m, waits=[]))
    return isinstance(other, Robust) and other != answer


def held(m: Machine, answer: Answer) -> bool:
    """Whether loads that count as of a close decide: if every region were dropped, the answer would be another."""
    return oracle.closure_answer(replace(m, regions=[replace(region, outcome=0) for region in m.regions])) != answer


def dropped(m: Machine, answer: Answer) -> bool:
    """Whether it decides that loads are dropped: if those of all such regions counted at once, the answer would be
    another."""
    return oracle.closure_answer(replace(m, regions=[region for region in m.regions if region.outcome == 1])) != answer


def accepted(rng: Random, limits: Limits) -> bytes:
    """An accepted trace; several are tried to get what is drawn from WISHES, so that the verdicts are balanced. One in
    a hundred is no bytes ("empty bytes mean a trace with no events") or a begin alone."""
    if rng.random() < 0.01:
        return rng.choice([b"", encode_all(Builder(rng, limits).events)])
    wish = rng.choice(WISHES)
    for _ in range(30):
        data = encode_all(Builder(rng, limits).build())
        if wish in labels(data):
            break
    return data


def one_session(rng: Random, limits: Limits) -> bytes:
    """Mostly accepted traces, some near misses, with `limits.regions` more of them, some damaged bytes."""
    if limits.regions and rng.random() < 0.06:
        return region_miss(rng, limits)
    kind = rng.random()
    if limits.only == "accepted" or (limits.only == "all" and kind < 0.72):
        return accepted(rng, limits)
    return near_miss(rng, limits) if kind < 0.90 else damaged(rng, limits)


def fits(data: bytes, limits: Limits) -> bool:
    """Whether a session has few enough choices and the wanted kind of answer."""
    m = oracle.run(data)
    if isinstance(m, Refused):
        return limits.only != "accepted"
    few = limits.max_choices == 0 or oracle.choices_size(m) <= limits.max_choices
    return few and limits.only != "refused"


def generate(seed: int, count: int, limits: Limits) -> Iterator[tuple[bytes, Answer]]:
    """The sessions of a seed with their answers."""
    rng = Random(seed)
    judging = oracle.judge if limits.max_choices else oracle.judge_closure
    while count:
        data = one_session(rng, limits)
        if fits(data, limits):
            yield data, judging(data)
            count -= 1


# ---- Output ----

def text_line(data: bytes, answer: Answer) -> str:
    """Hexadecimal bytes, a TAB, and the lines of `verdict` joined by ' / '."""
    return data.hex() + "\t" + " / ".join(verdict_lines(data, lambda _: answer))


def arguments() -> argparse.Namespace:
    """The command line."""
    parser = argparse.ArgumentParser(description=__doc__)
    parser.add_argument("seed", type=int)
    parser.add_argument("count", type=int)
    for name in ("max_events", "max_threads", "max_locations", "max_crashes", "max_choices"):
        parser.add_argument("--" + name.replace("_", "-"), type=int, default=getattr(Limits, name))
    parser.add_argument("--spread", action="store_true", help="locations anywhere below 256")
    parser.add_argument("--long", action="store_true", help="also traces up to event 2,049")
    parser.add_argument("--only", choices=["accepted", "refused", "all"], default="all")
    return parser.parse_args()


def main() -> None:
    """Print the sessions."""
    values = vars(arguments())
    seed, count = values.pop("seed"), values.pop("count")
    for data, answer in generate(seed, count, Limits(**values)):
        print(text_line(data, answer))


if __name__ == "__main__":
    main()
