"""Seeded builder of accepted traces: actions, by weights, that keep to the oracle's machine."""

from __future__ import annotations

from dataclasses import dataclass
from random import Random
from typing import Optional

import oracle
from oracle import Event, Machine


@dataclass(frozen=True)
class Limits:
    """The switches that bound a session."""

    max_events: int = 25
    max_threads: int = 3
    max_locations: int = 3  # that are used, near each other or far apart
    max_crashes: int = 3
    max_choices: int = 20000  # 0: no bound, and judge_closure answers
    spread: bool = False  # locations anywhere below 256
    long: bool = False  # near misses of refusal 13 also by event 2,049
    only: str = "all"
    regions: bool = False  # more near misses by versions, opens and closes: region_miss of generate.py


# How crossing loads get their source. strict: from a closed choice, so the trace is robust. weak: each location keeps
# a beginning of its own store order, as a memory without ordered stores would. torn: as weak, but a store that came to
# another thread is lost and that thread's next store is kept. handed: as torn, in a trace with more hand-overs than
# loads of others' stores. late: one location loses all and is loaded last, the others keep all. wild: any legal source.
MODES = ["strict"] * 2 + ["weak"] * 2 + ["torn"] * 2 + ["handed"] * 3 + ["late"] * 2 + ["wild"] * 2
TORN = ("torn", "handed")

# Weights of the actions: in a part with stores, and in a part with mostly loads.
STORING = {"issue": 6.0, "commit": 7.0, "load": 3.0, "relay": 3.0, "chain": 1.0, "swaps": 2.0, "hands": 1.0,
           "signal": 0.6, "wait": 0.8, "flush": 1.2, "fence": 0.7, "skip": 0.4, "skipped": 0.9, "region": 0.0}
LOADING = {"issue": 0.8, "commit": 0.6, "load": 6.0, "recover": 3.0, "relay": 0.1, "swaps": 0.6, "hands": 0.1,
           "signal": 0.2, "wait": 0.4, "flush": 0.6, "fence": 0.4, "skip": 0.5, "skipped": 0.9, "region": 0.0}

# What becomes of a region: closed with this outcome, or None: left open, until a crash or the trace's end.
FATES = [1, 1, 1, 0, 0, None]


def near_or_far(rng: Random, wanted: int) -> list[int]:
    """So many locations: the first ones, some of one line, some about the border of two lines, some of three lines, or
    each on a line of its own; of lines mostly the first ones."""
    everywhere = range(oracle.MAX_LOCATIONS)
    start = 8 * rng.choice([0, 0, 0, 1, 1, rng.randrange(32)])
    spans = [everywhere[:wanted], everywhere[start:start + 8], everywhere[start + 6:start + 10],
             everywhere[start:start + 24], everywhere[rng.randrange(8):start + 64:8]]
    return rng.sample(rng.choice([span for span in spans if len(span) >= wanted]), wanted)


class Builder:
    """Builds an accepted trace event by event, with the oracle's machine at its side."""

    def __init__(self, rng: Random, limits: Limits) -> None:
        """Draw the mode, the threads and the locations to use, and add the begin."""
        self.rng, self.limits = rng, limits
        self.mode = rng.choice(MODES)
        relays = rng.choice([9.0, 18.0] if self.mode == "torn" else [0.5, 3.0, 9.0])
        hands = rng.choice([12.0, 24.0] if self.mode == "handed" else [0.0, 0.5, 3.0, 9.0])
        version, regions = rng.choice([(1, 0.0)] * 5 + [(2, 0.0), (2, 1.0), (2, 3.0), (2, 9.0)])
        self.recoveries = [self.recover] + ([self.region] * 2 if regions else [])
        self.storing = STORING | {"relay": relays, "chain": relays / 3, "hands": hands, "signal": hands / 4,
                                  "wait": hands / 3, "region": regions / 2}
        self.loading = LOADING | {"region": 2 * regions}
        self.machine, self.events = Machine(), []
        self.fates: dict[int, Optional[int]] = {}  # thread -> what becomes of its last region
        self.image: dict[int, int] = {}  # location -> the store that a load after the crash sees
        self.relayed: list[tuple[int, int]] = []  # a store, and one of a thread that loaded or waited for it before
        late = self.mode == "late"  # two threads and three locations can show which of several pairs is the smallest
        threads = min(rng.choice([2, 2, 3] if late else [1, 2, 2, 3, rng.randint(1, 8)]), limits.max_threads)
        wanted = min(3 if late else rng.choice([1, 2, 2, 3, 3, rng.randint(1, 256)]), limits.max_locations)
        spread = limits.spread and rng.random() < 0.5
        self.used = rng.sample(range(oracle.MAX_LOCATIONS), wanted) if spread else near_or_far(rng, wanted)
        locations = rng.choice([max(self.used) + 1, min(max(self.used) + 2, oracle.MAX_LOCATIONS)])
        self.add(Event(oracle.BEGIN, (version, threads, oracle.MAX_LOCATIONS if spread else locations)))

    def add(self, event: Event) -> None:
        """Append an event that the machine's rules allow."""
        m, number = self.machine, len(self.events)
        assert not oracle.general_refusal(m, number, event) and not oracle.own_refusal(m, event)
        oracle.take_effect(m, number, event)
        self.events.append(event)

    def thread(self) -> int:
        """A random thread."""
        return self.rng.randrange(self.machine.threads)

    def issue(self) -> None:
        """Issue a store; sometimes commit it at once if the queue was empty."""
        thread = self.thread()
        self.add(Event(oracle.ISSUE, (thread, self.rng.choice(self.used))))
        if len(self.machine.queues[thread]) == 1 and self.rng.random() < 0.4:
            self.add(Event(oracle.COMMIT, (thread,)))

    def commit(self) -> None:
        """Commit the oldest store of a thread that has one; otherwise issue."""
        waiting = [t for t in range(self.machine.threads) if self.machine.queues[t]]
        if waiting:
            self.add(Event(oracle.COMMIT, (self.rng.choice(waiting),)))
        else:
            self.issue()

    def load(self, location: Optional[int] = None, thread: Optional[int] = None) -> None:
        """Load from a legal source."""
        thread = self.thread() if thread is None else thread
        location = self.rng.choice(self.used) if location is None else location
        self.add(Event(oracle.LOAD, (thread, location, self.source(thread, location))))

    def source(self, thread: int, location: int) -> int:
        """A legal source; a crossing load takes it as the mode says, with some disturbance, more of it in a region, and
        any if it will not count: in a skip, or in a region that will not be closed with outcome 1."""
        m = self.machine
        sources, crossing = oracle.legal_sources(m, thread, location)
        source = self.rng.choice(sources)
        opened = m.open_region(thread) is not None
        dropped = thread in m.skips or (opened and self.fates[thread] != 1)
        disturbed = dropped or self.rng.random() < (0.15 if opened and self.mode != "strict" else 0.04)
        return self.image.get(location, 0) if crossing and self.mode != "wild" and not disturbed else source

    def swap(self, location: int, thread: int) -> None:
        """A locked operation, after the commits of the thread's waiting stores."""
        self.drain(thread)
        self.add(Event(oracle.LOCKED, (thread, location, self.source(thread, location))))
        self.note_relays(self.machine.events)

    def drain(self, thread: int) -> None:
        """Commit all waiting stores of a thread."""
        while self.machine.queues[thread]:
            self.add(Event(oracle.COMMIT, (thread,)))

    def note_relays(self, q: int) -> None:
        """Note all stores of other threads that happen before q."""
        stores = self.machine.stores
        before = oracle.happens_before(self.machine)[q]
        self.relayed += [(p, q) for p in sorted(before) if stores[p].thread != stores[q].thread]

    def swaps(self) -> None:
        """Locked operations of any threads over one location, as in compare-and-swap loops."""
        location = self.rng.choice(self.used)
        for _ in range(self.rng.randint(1, 3)):
            self.swap(location, self.thread())

    def recover(self) -> None:
        """Load from every used location, as a recovery after a crash would."""
        chosen = self.rng.sample(self.used, min(4, len(self.used)))
        if self.mode == "late":
            chosen.sort(key=lambda location: location == self.used[0])
        for location in chosen:
            self.load(location)

    def relays(self) -> list[tuple[int, int, int]]:
        """Thread, location and source of every load from what another thread committed in this stretch."""
        found = []
        for thread in range(self.machine.threads):
            for location, committed in self.machine.memory.items():
                sources, _ = oracle.legal_sources(self.machine, thread, location)
                if sources == committed[-1:] and self.machine.stores[sources[0]].thread != thread:
                    found.append((thread, location, sources[0]))
        return found

    def relay(self) -> None:
        """Load what another thread committed last to some location, then issue a store, or both by a locked operation;
        otherwise commit."""
        m, possible = self.machine, self.relays()
        if not possible:
            self.commit()
            return
        thread, location, source = self.rng.choice(possible)
        if self.rng.random() < 0.3:
            self.swap(location, thread)
            return
        parts = [Event(oracle.LOAD, (thread, location, source)),
                 Event(oracle.ISSUE, (thread, self.rng.choice(self.used)))]
        if len(possible) > 1 and self.rng.random() < 0.4:
            self.load(self.rng.choice(possible)[1], thread)
        for event in parts if self.rng.random() < 0.75 else reversed(parts):
            if not oracle.own_refusal(m, event):  # the store may come first and then be the source
                self.add(event)
        self.relayed.append((source, max(m.stores)))
        self.commit_some(thread)

    def commit_some(self, thread: int) -> None:
        """Commit stores of a thread, mostly all of them."""
        while self.machine.queues[thread] and self.rng.random() < 0.8:
            self.add(Event(oracle.COMMIT, (thread,)))

    def chain(self) -> None:
        """A relay, and a relay of what it stored: what the first one loaded came to the last one by two steps."""
        known = len(self.relayed)
        self.relay()
        if len(self.relayed) == known:
            return
        source, middle = self.relayed[-1]
        further = [(thread, location) for thread, location, stored in self.relays() if stored == middle]
        if further:
            thread, location = self.rng.choice(further)
            self.load(location, thread)
            self.add(Event(oracle.ISSUE, (thread, self.rng.choice(self.used))))
            self.relayed.append((source, max(self.machine.stores)))
            self.commit_some(thread)

    def signal(self, thread: Optional[int] = None) -> int:
        """A signal, after the commits of the thread's waiting stores."""
        thread = self.thread() if thread is None else thread
        self.drain(thread)
        self.add(Event(oracle.SIGNAL, (thread,)))
        return self.machine.events

    def wait(self, thread: Optional[int] = None) -> None:
        """A wait for any signal of the stretch, its own thread's too; if there is none, a signal."""
        m = self.machine
        signals = [number for number, signal in m.signals.items() if signal.stretch == m.stretch]
        if signals:
            self.add(Event(oracle.WAIT, (self.thread() if thread is None else thread, self.rng.choice(signals))))
        else:
            self.signal()

    def hands(self) -> None:
        """Hand-overs from thread to thread, one after the other. A thread may load another's store or store before it
        signals, or do neither, so that it passes on what came to it."""
        rng, threads = self.rng, self.machine.threads
        thread = self.thread()
        if rng.random() < 0.5:
            self.add(Event(oracle.ISSUE, (thread, rng.choice(self.used))))
        for _ in range(rng.choice([1, 1, 2, 3])):
            if rng.random() < 0.4:
                self.load_other(thread)
            other = rng.choice([t for t in range(threads) if t != thread] or [thread])
            self.hand(thread, other)
            thread = other
            if rng.random() < 0.25:
                self.store(thread)
        self.store(thread)

    def load_other(self, thread: int) -> None:
        """A load of what another thread committed last to some location, if there is such a location."""
        possible = [location for t, location, _ in self.relays() if t == thread]
        if possible:
            self.load(self.rng.choice(possible), thread)

    def hand(self, giving: int, taking: int) -> None:
        """A signal and a wait that names it. Between them the signalling thread may go on and signal again, and a store
        of the waiting one may wait. That one may also load what is handed over, and wait for another signal."""
        rng = self.rng
        signal = self.signal(giving)
        if rng.random() < 0.25:
            self.store(giving)
            if rng.random() < 0.5:
                self.signal(giving)
        if rng.random() < 0.2:
            self.add(Event(oracle.ISSUE, (taking, rng.choice(self.used))))
            self.relayed += [(p, self.machine.events) for p in sorted(oracle.happens_before(self.machine)[signal])]
        if taking not in self.machine.skips and rng.random() < 0.1:
            self.skip(taking)
        parts = [lambda: self.add(Event(oracle.WAIT, (taking, signal)))]
        parts += [lambda: self.load_other(taking)] if rng.random() < 0.25 else []
        parts += [lambda: self.wait(taking)] if rng.random() < 0.25 else []
        for part in rng.sample(parts, len(parts)):
            part()
        if rng.random() < 0.15:
            self.store(giving)

    def store(self, thread: int) -> None:
        """A store of a thread, mostly committed; what came to the thread is noted."""
        self.add(Event(oracle.ISSUE, (thread, self.rng.choice(self.used))))
        self.note_relays(self.machine.events)
        self.commit_some(thread)

    def flush(self) -> None:
        """Either kind of flush."""
        self.add(Event(self.rng.choice([oracle.CLFLUSH, oracle.CLFLUSHOPT]),
                       (self.thread(), self.rng.choice(self.used))))

    def fence(self) -> None:
        """An mfence if the thread's queue is empty, otherwise an sfence."""
        thread = self.thread()
        kind = oracle.SFENCE if self.machine.queues[thread] else self.rng.choice([oracle.SFENCE, oracle.MFENCE])
        self.add(Event(kind, (thread,)))

    def skip(self, thread: Optional[int] = None) -> None:
        """Turn a thread's skip on or off."""
        thread = self.thread() if thread is None else thread
        self.add(Event(oracle.SKIP_OFF if thread in self.machine.skips else oracle.SKIP_ON, (thread,)))

    def skipped(self) -> None:
        """One or two loads or locked operations of a thread in a skip, then perhaps a store of it after the skip."""
        thread = self.thread()
        if thread not in self.machine.skips:
            self.skip(thread)
        for _ in range(self.rng.randint(1, 2)):
            kind = self.swap if self.rng.random() < 0.3 else self.load
            kind(self.rng.choice(self.used), thread)
        if self.rng.random() < 0.7:
            self.skip(thread)
        if self.rng.random() < 0.5:
            self.add(Event(oracle.ISSUE, (thread, self.rng.choice(self.used))))

    def region(self) -> None:
        """Loads of a thread under a checksum, and what may stand between them; then the close, if there is to be one.
        An open region of the thread goes on."""
        rng, thread = self.rng, self.thread()
        if self.machine.open_region(thread) is None:
            self.fates[thread] = rng.choice(FATES)
            self.add(Event(oracle.OPEN, (thread,)))
        for _ in range(rng.choice([0, 1, 1, 2, 2, 3])):
            rng.choices([self.held, self.among], [4, 1])[0](thread)
        still_open = self.machine.open_region(thread) is not None
        if still_open and self.fates[thread] is not None and rng.random() < 0.85:
            self.add(Event(oracle.CLOSE, (thread, self.fates[thread])))

    def held(self, thread: int) -> None:
        """Loads of the thread that is in a region: from several locations, from one twice, or by a locked operation."""
        rng = self.rng
        way = rng.random()
        if way < 0.25:
            self.swap(rng.choice(self.used), thread)
            return
        location = rng.choice(self.used)
        several = rng.sample(self.used, min(3, len(self.used)))
        for each in [location] * rng.randint(1, 2) if way < 0.5 else several:
            self.load(each, thread)

    def among(self, thread: int) -> None:
        """What may stand between the loads of a region: a store, of the thread or another one; a load of any thread;
        the thread's skip turned on or off, and a load; another region, or more of this one."""
        rng = self.rng
        way = rng.randrange(4)
        if way == 0:
            self.store(rng.choice([thread, self.thread()]))
        elif way == 1:
            self.load()
        elif way == 2:
            self.skip(thread)
            self.load(thread=thread)
        else:
            self.region()

    def crash(self) -> None:
        """Decide what the loads after the crash see, then crash."""
        kept = self.closed_stores() if self.mode == "strict" else self.torn_stores()
        for location, committed in self.machine.memory.items():
            inside = [store for store in committed if store in kept]
            if inside:
                self.image[location] = inside[-1]
        self.relayed = []
        self.add(Event(oracle.CRASH))

    def torn_stores(self) -> set[int]:
        """For each location a beginning of its store order; in the modes TORN, one relay keeps only its second."""
        counts = {location: self.rng.randint(0, len(committed)) for location, committed in self.machine.memory.items()}
        if self.mode == "late":
            counts = {location: len(committed) for location, committed in self.machine.memory.items()}
            counts[self.used[0]] = 0
        stores = self.machine.stores
        pairs = [(stores[p], stores[q]) for p, q in self.relayed
                 if stores[q].commit is not None and stores[p].location != stores[q].location]
        if pairs and self.mode in TORN:
            p, q = self.rng.choice(pairs)
            counts = {location: count * self.rng.randint(0, 1) for location, count in counts.items()}
            counts[p.location] = self.machine.memory[p.location].index(p.event)
            counts[q.location] = self.machine.memory[q.location].index(q.event) + 1
        return {store for location, count in counts.items()
                for store in self.machine.memory.get(location, [])[:count]}

    def closed_stores(self) -> set[int]:
        """Some committed stores of this stretch with all that happens before them."""
        committed = [store for stores in self.machine.memory.values() for store in stores]
        chosen = self.rng.sample(committed, self.rng.randint(0, min(3, len(committed))))
        before = oracle.happens_before(self.machine)
        return {p for q in chosen for p in before[q] | {q}}

    def part(self, length: int, weights: dict[str, float]) -> None:
        """Add at least `length` events by the given weights."""
        end = len(self.events) + length
        while len(self.events) < end:
            action = self.rng.choices(list(weights), list(weights.values()))[0]
            getattr(self, action)()

    def build(self) -> list[Event]:
        """A whole trace: parts with stores, crashes between them, and a last part with mostly loads."""
        rng = self.rng
        crashes = min(rng.choice([1, 1, 2, 2, 3, rng.randint(0, 7)]), self.limits.max_crashes)
        total = rng.randint(min(10, self.limits.max_events), self.limits.max_events)
        shares = [rng.uniform(2, 4)] + [rng.uniform(0.3, 2.5) for _ in range(crashes)]
        for number, share in enumerate(shares):
            if number > 0:
                self.crash()
                if rng.random() < 0.6:
                    rng.choice(self.recoveries)()
            length = max(1, round((total - crashes) * share / sum(shares)) - 2)
            loading = 0 if number == 0 else length if number == crashes else length // 4
            self.part(loading, self.loading)
            self.part(length - loading, self.storing)
        return self.events[:self.limits.max_events + 1]


def encode_all(events: list[Event]) -> bytes:
    """The bytes of a list of events."""
    return b"".join(oracle.encode(event) for event in events)
