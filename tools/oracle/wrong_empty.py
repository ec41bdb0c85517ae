"""Wrong judges of no bytes and of a trace's first record (document 02, job 6), for mutants.py. A function that is
imported by its name is the oracle's own, whatever stands in its place in the oracle."""

from __future__ import annotations

from dataclasses import replace
from typing import Callable, Union

from oracle import Choice, Machine, Refused, Robust, order, robust_answer, run

Ruling = Union[Machine, Refused]


def turned_away(number: int) -> Callable[[bytes], Ruling]:
    """Empty bytes are turned away in judging: with 1, "no record", or with 2, as if they ended inside a record."""
    return lambda data: run(data) if data else Refused(number, 0)


def last_number(data: bytes) -> Ruling:
    """The number of the last event of none is -1, in two bytes."""
    m = run(data)
    return m if data else replace(m, events=65535)


def none_in(m: Machine, choice: Choice) -> Robust:
    """Of no bytes none of the stores is in, so the share is 0."""
    true = robust_answer(m, choice)
    return true if m.threads else replace(true, share=0)


def begin_needs_more(data: bytes) -> Ruling:
    """A begin alone is turned away with 1, as if it were no record."""
    m = run(data)
    return Refused(1, 0) if data and isinstance(m, Machine) and m.events == 0 else m


def taken_for_none(empty: Callable[[bytes, Ruling], bool]) -> Callable[[bytes], Ruling]:
    """Other bytes too are judged as if there were none."""
    return lambda data: run(b"") if empty(data, run(data)) else run(data)


def leftover_byte(data: bytes) -> Ruling:
    """A byte behind the last record is taken for no bytes: the trace ends there."""
    shorter = run(data[:-1])
    return shorter if isinstance(run(data), Refused) and isinstance(shorter, Machine) else run(data)


def no_begin_first(data: bytes) -> Ruling:
    """A first record of an unknown kind or a wrong length is turned away as no begin: 1 before 3 and 4."""
    m = run(data)
    return Refused(1, 0) if m in (Refused(3, 0), Refused(4, 0)) else m


def queried_as_begun(data: bytes, first: int, second: int) -> object:
    """In queries no bytes are a trace without stores: 16."""
    return order(data, first, second) if data else Refused(16, 0)


def same_of_none(data: bytes, first: int, second: int) -> object:
    """Equal numbers are compared before the trace is looked at, if there are no bytes."""
    return "same" if not data and first == second else order(data, first, second)


def unordered_in_none(data: bytes, first: int, second: int) -> object:
    """In a trace with no events nothing is ordered."""
    return order(data, first, second) if data else "neither"


def queried_without_begin(data: bytes, first: int, second: int) -> object:
    """In queries bytes that begin with some other record are a trace without stores: 16."""
    true = order(data, first, second)
    return Refused(16, 0) if data and true == Refused(1, 0) else true


EMPTY: dict[str, dict[str, object]] = {
    "no bytes: turned away with 1": {"run": turned_away(1)},
    "no bytes: turned away with 2": {"run": turned_away(2)},
    "no bytes: share 0": {"robust_answer": none_in},
    "no bytes: events 65,535": {"run": last_number},
    "no bytes: 16 in queries": {"order": queried_as_begun},
    "no bytes: same in queries": {"order": same_of_none},
    "no bytes: neither in queries": {"order": unordered_in_none},
    "no bytes: and any other record first": {"run": taken_for_none(lambda data, m: m == Refused(1, 0))},
    "no bytes: and a single byte": {"run": taken_for_none(lambda data, m: len(data) == 1)},
    "no bytes: and zeros": {"run": taken_for_none(lambda data, m: not any(data))},
    "no bytes: and a first record cut short": {"run": taken_for_none(lambda data, m: m == Refused(2, 0))},
    "no bytes: and a first record of unknown kind": {"run": taken_for_none(lambda data, m: m == Refused(3, 0))},
    "no bytes: and a leftover byte": {"run": leftover_byte},
    "first record: a begin alone turned away": {"run": begin_needs_more},
    "first record: 1 before 3 and 4": {"run": no_begin_first},
    "first record: 16 in queries if no begin": {"order": queried_without_begin},
}
