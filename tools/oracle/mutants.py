"""Wrong judges, and how many generated sessions tell each from the oracle: `python3 mutants.py SEED COUNT [switches]`.

Each wrong judge replaces one or two functions of the oracle; judge_closure then runs with them. Those of hand-overs are
in wrong_hand_overs.py, those of cache lines in wrong_lines.py, those of no bytes in wrong_empty.py, those of checksums
in wrong_checksums.py. A wrong judge that no session tells shows that the generator misses an error: the run fails.
"""

from __future__ import annotations

import sys
from collections import deque
from contextlib import contextmanager
from dataclasses import replace
from typing import Callable, Iterator, Optional

import generate
import oracle
from oracle import Event, Load, Machine, Refused, Store
from wrong_checksums import CHECKSUMS
from wrong_empty import EMPTY
from wrong_hand_overs import HAND_OVERS, signals_before
from wrong_lines import LINES

TRUE = {name: getattr(oracle, name) for name in ("run", "directly_before", "happens_before", "forbids", "observes",
                                                "legal_sources", "take_effect", "general_refusal", "own_refusal",
                                                "smallest_pair", "robust_answer", "broken_answer", "first_place",
                                                "last_place", "window", "order", "line", "kind_of", "COMMITS",
                                                "counts_as_of", "region_of", "region_refusal", "closure_answer",
                                                "decode", "VERSIONS")}


def sources_up_to(m: Machine, q: Store, last: int) -> list[int]:
    """The stores of q's stretch that q's thread loaded from up to an event number, in the order of the loads."""
    return [load.source for load in m.loads if load.thread == q.thread and load.stretch == q.stretch
            and load.event <= last and load.source in m.stores and m.stores[load.source].stretch == q.stretch]


def no_loads(m: Machine, q: Store) -> set[int]:
    """Only the order of issue in one thread, and hand-overs."""
    return TRUE["directly_before"](m, q) - {p for p in m.stores if m.stores[p].thread != q.thread}


def no_issue_order(m: Machine, q: Store) -> set[int]:
    """Only the loads, and hand-overs."""
    return set(sources_up_to(m, q, q.event)) | signals_before(m, q, q.event)


def at_commit(m: Machine, q: Store) -> set[int]:
    """ "order taken at the commit" """
    return TRUE["directly_before"](m, q) | set(sources_up_to(m, q, q.commit or 0)) - {q.event}


def one_crash_point(m: Machine, q: Store) -> set[int]:
    """ "one crash point by commit order" """
    last = q.event if q.event in m.signals else q.commit or 0
    return {p.event for p in m.stores.values() if p.stretch == q.stretch and p.commit and p.commit < last}


def over_crashes(m: Machine, q: Store) -> set[int]:
    """ "clocks kept over a crash": the order of issue goes on over crashes. """
    return TRUE["directly_before"](m, q) | {p.event for p in m.stores.values()
                                            if p.thread == q.thread and p.event < q.event and p.commit}


def by_crossing_loads(m: Machine, q: Store) -> set[int]:
    """Crossing loads order stores of two stretches."""
    return TRUE["directly_before"](m, q) | {load.source for load in m.loads if load.thread == q.thread
                                            and load.stretch == q.stretch and load.source and load.event <= q.event}


def last_load_only(m: Machine, q: Store) -> set[int]:
    """The last load of the stretch before q orders, the others do not."""
    return no_loads(m, q) | set(sources_up_to(m, q, q.event)[-1:])


def no_chains(m: Machine) -> dict[int, set[int]]:
    """Direct order only; a hand-over is one step."""
    direct = {number: oracle.directly_before(m, q) for number, q in (m.stores | m.signals).items()}
    return {number: {p for one in found for p in (direct[one] if one in m.signals else {one}) if p in m.stores}
            for number, found in direct.items()}


def middle_forgotten(m: Machine, load: Load, committed_only: bool = False) -> set[int]:
    """ "stores of stretches in between forgotten" """
    stretch = m.stores[load.source].stretch if load.source else 0
    return {p for p in TRUE["forbids"](m, load) if load.source == 0 or m.stores[p].stretch == stretch}


def last_stretch_only(m: Machine, load: Load, committed_only: bool = False) -> set[int]:
    """Only the stretch before the load's is forbidden."""
    return {p for p in TRUE["forbids"](m, load) if m.stores[p].stretch == load.stretch - 1}


def zero_free(m: Machine, load: Load, committed_only: bool = False) -> set[int]:
    """ "a read of source 0 taken as free" """
    return TRUE["forbids"](m, load) if load.source else set()


def by_issue(m: Machine, load: Load, committed_only: bool = False) -> set[int]:
    """In s's stretch, issued after s instead of committed after s."""
    return {p.event for p in m.stores.values() if p.location == load.location and p.stretch < load.stretch
            and p.event > load.source}


def own_stretch_unseen(m: Machine, load: Load, committed_only: bool = False) -> set[int]:
    """Later stores of s's own stretch are not forbidden."""
    stretch = m.stores[load.source].stretch if load.source else 0
    return {p for p in TRUE["forbids"](m, load) if m.stores[p].stretch != stretch}


def of_loading_thread(m: Machine, load: Load, committed_only: bool = False) -> set[int]:
    """The location's stores are looked up by the load's thread."""
    return {p for p in TRUE["forbids"](m, load) if m.stores[p].thread == load.thread}


def of_last_storing_thread(m: Machine, load: Load, committed_only: bool = False) -> set[int]:
    """The location's stores are looked up by the thread of the last one."""
    last = max(TRUE["forbids"](m, load, True), key=lambda p: m.stores[p].commit, default=0)
    return {p for p in TRUE["forbids"](m, load) if last and m.stores[p].thread == m.stores[last].thread}


def nothing_observed(load: Load) -> set[int]:
    """Loads only forbid."""
    return set()


def pair_of_last_load(m: Machine, loads: list[Load], before: dict[int, set[int]], committed_only: bool):
    """The last load must itself forbid the missing store."""
    observed = {q for load in loads for q in oracle.observes(load)}
    return min(((p, q) for p in oracle.forbids(m, loads[-1]) for q in observed if p == q or p in before[q]),
               default=None)


def observed_first(m: Machine, loads: list[Load], before: dict[int, set[int]], committed_only: bool):
    """The smallest observed store first, then the smallest missing one."""
    return min(oracle.pairs(m, loads, before), key=lambda pair: (pair[1], pair[0]), default=None)


def changed_effect(change: Callable[[Machine, Machine, Event], None]) -> Callable[[Machine, int, Event], None]:
    """take_effect, followed by a change that may look at what the machine was before."""
    def effect(m: Machine, number: int, event: Event) -> None:
        old = replace(m, queues=[deque(q) for q in m.queues], skips=set(m.skips))
        TRUE["take_effect"](m, number, event)
        change(m, old, event)
    return effect


def keep_skips(m: Machine, old: Machine, event: Event) -> None:
    """Skips live on over a crash."""
    m.skips = old.skips if event.kind == oracle.CRASH else m.skips


def keep_queues(m: Machine, old: Machine, event: Event) -> None:
    """Waiting stores live on over a crash."""
    m.queues = old.queues if event.kind == oracle.CRASH else m.queues


def count_all(m: Machine, old: Machine, event: Event) -> None:
    """Crossing loads in a skip count."""
    if event.kind in oracle.LOADS:
        m.loads[-1] = replace(m.loads[-1], skipped=False)


def skip_unorders(m: Machine, old: Machine, event: Event) -> None:
    """Loads in a skip are forgotten whole."""
    if event.kind in oracle.LOADS and event.get("thread") in m.skips:
        m.loads.pop()


def any_skip(m: Machine, old: Machine, event: Event) -> None:
    """A skip of any thread is taken as a skip of all."""
    if event.kind in oracle.LOADS and m.skips:
        m.loads[-1] = replace(m.loads[-1], skipped=True)


def own_queue_unseen(m: Machine, thread: int, location: int) -> tuple[list[int], bool]:
    """Loads look past the thread's own waiting stores."""
    return TRUE["legal_sources"](replace(m, queues=[deque() for _ in m.queues]), thread, location)


def dropped_allowed(m: Machine, thread: int, location: int) -> tuple[list[int], bool]:
    """A crossing load may take a store that was never committed."""
    sources, crossing = TRUE["legal_sources"](m, thread, location)
    old = [s.event for s in m.stores.values() if s.location == location and s.stretch < m.stretch]
    return ([0] + old, True) if crossing else (sources, False)


def greatest_share(m: Machine, choice: oracle.Choice) -> oracle.Robust:
    """The share is taken of issued instead of committed stores."""
    true = TRUE["robust_answer"](m, choice)
    issued = sum(len(oracle.issued_at(m, place)) for place in oracle.places(m))
    return oracle.Robust(true.events, true.cut, 100 * sum(choice) // issued if issued else 100)


def first_at_missing(m: Machine, before: dict[int, set[int]], p: int, thread: int) -> Optional[int]:
    """The first place is p in p's thread, and not behind it."""
    return p if thread == m.stores[p].thread else TRUE["first_place"](m, before, p, thread)


def first_at_load(m: Machine, before: dict[int, set[int]], p: int, thread: int) -> Optional[int]:
    """The first place is the load or wait that brings p, and not one past it."""
    true = TRUE["first_place"](m, before, p, thread)
    return true if true is None or thread == m.stores[p].thread else true - 1


def first_load(m: Machine, before: dict[int, set[int]], p: int, thread: int) -> Optional[int]:
    """Every load is taken for one that brings p."""
    return TRUE["first_place"](replace(m, loads=[replace(load, source=p) for load in m.loads]), before, p, thread)


def last_load(m: Machine, before: dict[int, set[int]], p: int, thread: int) -> Optional[int]:
    """The last load or wait that brings p, and not the first."""
    places = [TRUE["first_place"](replace(m, loads=loads, waits=waits), before, p, thread)
              for loads, waits in [([load], []) for load in m.loads] + [([], [wait]) for wait in m.waits]]
    own = TRUE["first_place"](replace(m, loads=[], waits=[]), before, p, thread)
    return max((place for place in places if place is not None), default=own)


def only_from_missing(m: Machine, before: dict[int, set[int]], p: int, thread: int) -> Optional[int]:
    """Of the loads only one from p itself brings it."""
    return TRUE["first_place"](replace(m, loads=[load for load in m.loads if load.source == p]), before, p, thread)


def last_issue(m: Machine, before: dict[int, set[int]], q: int, thread: int) -> Optional[int]:
    """The last issue of the stretch, whether it happens before q or not."""
    return max(oracle.issued_at(m, (m.stores[q].stretch, thread)), default=None)


def last_at_commit(m: Machine, before: dict[int, set[int]], q: int, thread: int) -> Optional[int]:
    """The last place is the commit of the last store, and not its issue."""
    true = TRUE["last_place"](m, before, q, thread)
    return None if true is None else m.stores[true].commit


def out_of_order(m: Machine, before: dict[int, set[int]], p: int, q: int, thread: int) -> Optional[oracle.Window]:
    """Ends that are out of order are a window."""
    first, last = oracle.first_place(m, before, p, thread), oracle.last_place(m, before, q, thread)
    return None if first is None or last is None else (first, last)


def contradiction_windows(m: Machine, load: int, p: int, q: int) -> oracle.Broken:
    """Contradictions have windows too."""
    true = TRUE["broken_answer"](m, load, p, q)
    return replace(true, primary=m.stores[p].thread, windows=oracle.windows(m, p, q)) if p == q else true


def primary_of_observed(m: Machine, load: int, p: int, q: int) -> oracle.Broken:
    """q's thread is marked primary."""
    true = TRUE["broken_answer"](m, load, p, q)
    return true if true.primary is None else replace(true, primary=m.stores[q].thread)


def source_before_queue(m: Machine, event: Event) -> int:
    """For a locked operation, 9 goes before 11."""
    source = TRUE["own_refusal"](m, Event(oracle.LOAD, event.fields)) if event.kind == oracle.LOCKED else 0
    return source or TRUE["own_refusal"](m, event)


def queue_of_location(m: Machine, event: Event) -> int:
    """A locked operation is turned away by 11 only if the store waits at its own location."""
    waits = event.kind == oracle.LOCKED and any(m.stores[store].location == event.get("location")
                                                for store in m.queues[event.get("thread")])
    as_load = event.kind == oracle.LOCKED and not waits
    return TRUE["own_refusal"](m, Event(oracle.LOAD, event.fields) if as_load else event)


def locked_uncounted(m: Machine, old: Machine, event: Event) -> None:
    """The load of a locked operation does not count."""
    if event.kind == oracle.LOCKED:
        m.loads[-1] = replace(m.loads[-1], skipped=True)


def locked_counted(m: Machine, old: Machine, event: Event) -> None:
    """The load of a locked operation counts in a skip too."""
    if event.kind == oracle.LOCKED:
        count_all(m, old, event)


def load_after_issue(m: Machine, q: Store) -> set[int]:
    """A locked operation issues its store before it loads: its source does not happen before its store."""
    return TRUE["directly_before"](replace(m, loads=[load for load in m.loads if load.event < q.event]), q)


def own_store_forbidden(m: Machine, load: Load, committed_only: bool = False) -> set[int]:
    """The load of a locked operation finds its own store committed last at the location, and forbids it."""
    return TRUE["forbids"](m, load) | ({load.event} & set(m.stores))


def first_at_locked(m: Machine, before: dict[int, set[int]], p: int, thread: int) -> Optional[int]:
    """The first place is the locked operation that brings p, as if a flush could stand inside the record."""
    true = TRUE["first_place"](m, before, p, thread)
    return true if true is None or thread == m.stores[p].thread or true - 1 not in m.stores else true - 1


def locked_brings_nothing(m: Machine, before: dict[int, set[int]], p: int, thread: int) -> Optional[int]:
    """Only a plain load brings p."""
    plain = replace(m, loads=[load for load in m.loads if load.event not in m.stores])
    return TRUE["first_place"](plain, before, p, thread)


MUTANTS: dict[str, dict[str, object]] = {
    "no order by loads": {"directly_before": no_loads},
    "no order by issue": {"directly_before": no_issue_order},
    "order taken at the commit": {"directly_before": at_commit},
    "one crash point by commit order": {"directly_before": one_crash_point},
    "order of issue over crashes": {"directly_before": over_crashes},
    "crossing loads order": {"directly_before": by_crossing_loads},
    "only the last load orders": {"directly_before": last_load_only},
    "no chains": {"happens_before": no_chains},
    "stretches in between forgotten": {"forbids": middle_forgotten},
    "only the stretch before forbidden": {"forbids": last_stretch_only},
    "source 0 free": {"forbids": zero_free},
    "later by issue": {"forbids": by_issue},
    "own stretch not forbidden": {"forbids": own_stretch_unseen},
    "stores of the loading thread": {"forbids": of_loading_thread},
    "stores of the last storing thread": {"forbids": of_last_storing_thread},
    "nothing observed": {"observes": nothing_observed},
    "pair of the last load": {"smallest_pair": pair_of_last_load},
    "smallest observed first": {"smallest_pair": observed_first},
    "skips kept over a crash": {"take_effect": changed_effect(keep_skips)},
    "queues kept over a crash": {"take_effect": changed_effect(keep_queues)},
    "skipped loads count": {"take_effect": changed_effect(count_all)},
    "skipped loads do not order": {"take_effect": changed_effect(skip_unorders)},
    "skip of any thread": {"take_effect": changed_effect(any_skip)},
    "own queue not seen": {"legal_sources": own_queue_unseen},
    "dropped stores as source": {"legal_sources": dropped_allowed},
    "share of issued stores": {"robust_answer": greatest_share},
    "first place at missing": {"first_place": first_at_missing},
    "first place at the load": {"first_place": first_at_load},
    "first place behind the first load": {"first_place": first_load},
    "first place behind the last load": {"first_place": last_load},
    "only loads from missing bring it": {"first_place": only_from_missing},
    "last place at the last issue": {"last_place": last_issue},
    "last place at the commit": {"last_place": last_at_commit},
    "windows out of order": {"window": out_of_order},
    "windows for contradictions": {"broken_answer": contradiction_windows},
    "observed's thread primary": {"broken_answer": primary_of_observed},
    "locked: 9 before 11": {"own_refusal": source_before_queue},
    "locked: 11 only at its location": {"own_refusal": queue_of_location},
    "locked: its commit left waiting": {"COMMITS": (oracle.COMMIT,)},
    "locked: its load not counted": {"take_effect": changed_effect(locked_uncounted)},
    "locked: its load counted in a skip": {"take_effect": changed_effect(locked_counted)},
    "locked: its load after its issue": {"directly_before": load_after_issue},
    "locked: its own store forbidden": {"forbids": own_store_forbidden},
    "locked: first place inside": {"first_place": first_at_locked},
    "locked: brings nothing": {"first_place": locked_brings_nothing},
} | HAND_OVERS | LINES | EMPTY | CHECKSUMS


@contextmanager
def replaced(functions: dict[str, object]) -> Iterator[None]:
    """The oracle with some functions replaced."""
    for name, function in functions.items():
        setattr(oracle, name, function)
    try:
        yield
    finally:
        for name in functions:
            setattr(oracle, name, TRUE[name])


def differs(data: bytes, answer: oracle.Answer, functions: dict[str, object]) -> bool:
    """Whether the wrong judge gives another answer; one that stumbles counts too. One that is wrong in queries is asked
    queries, too."""
    with replaced(functions):
        try:
            return oracle.judge_closure(data) != answer or ("order" in functions and queries_differ(data))
        except (AssertionError, KeyError, IndexError, ValueError):
            return True


def queries_differ(data: bytes) -> bool:
    """Whether a query gets another answer than it must: 16, if it names a signal, a wait, an open or a close of an
    accepted trace; the trace's own refusal; 1, if there are no bytes."""
    m = oracle.run(data) if data else Refused(1, 0)
    if isinstance(m, Refused):
        return any(oracle.order(data, number, number) != m for number in (0, 1, 65535))
    ends = [number for region in m.regions for number in (region.start, region.end) if number is not None]
    numbers = [*m.signals, *(wait.event for wait in m.waits), *ends]
    return any(oracle.order(data, number, number) != Refused(16, 0) for number in numbers)


def main() -> None:
    """Print for each wrong judge how many sessions tell it from the oracle."""
    values = vars(generate.arguments())
    seed, count = values.pop("seed"), values.pop("count")
    listed = list(generate.generate(seed, count, generate.Limits(regions=True, **values)))
    untold = []
    for name, functions in MUTANTS.items():
        times = sum(differs(data, answer, functions) for data, answer in listed)
        print(f"{times:6} of {count}  {name}", flush=True)
        untold += [name] if times == 0 else []
    if untold:
        sys.exit("told by no session: " + ", ".join(untold))
    print(f"{len(MUTANTS)} wrong judges, each told by some of {count} sessions")


if __name__ == "__main__":
    main()
