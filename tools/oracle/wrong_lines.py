"""Wrong judges of pairs on one cache line (document 02, job 5), for mutants.py. A function that is imported by its name
is the oracle's own, whatever stands in its place in the oracle."""

from __future__ import annotations

from dataclasses import replace
from typing import Callable, Optional

import oracle
from oracle import Broken, Load, Machine, Store, broken_answer, directly_before, kind_of, line, pairs, smallest_pair

Pair = tuple[int, int]


def line_before_equality(m: Machine, p: int, q: int) -> str:
    """The lines are compared before the stores: contradictions are called impossible."""
    return "impossible" if p == q else kind_of(m, p, q)


def flush_on_one_line(m: Machine, p: int, q: int) -> str:
    """Lines are no matter of the kind."""
    return "contradiction" if p == q else "flush"


def lines_of(words: int) -> Callable[[int], int]:
    """Lines of another number of words."""
    return lambda location: location // words


def word_of_line(location: int) -> int:
    """The remainder is taken for the line."""
    return location % 8


def windows_left(m: Machine, load: int, p: int, q: int) -> Broken:
    """An impossible pair has windows and a primary thread."""
    true = broken_answer(m, load, p, q)
    return replace(true, primary=m.stores[p].thread, windows=oracle.windows(m, p, q)) if p != q else true


def chosen_again(m: Machine, loads: list[Load], before: dict[int, set[int]], committed_only: bool) -> Optional[Pair]:
    """Instead of an impossible pair the smallest one on two lines is chosen, if there is one."""
    true = smallest_pair(m, loads, before, committed_only)
    if true is None or kind_of(m, *true) != "impossible":
        return true
    return min((pair for pair in pairs(m, loads, before) if kind_of(m, *pair) == "flush"), default=true)


def one_line_first(m: Machine, loads: list[Load], before: dict[int, set[int]], committed_only: bool) -> Optional[Pair]:
    """Instead of a pair on two lines the smallest one on one line is chosen, if there is one."""
    true = smallest_pair(m, loads, before, committed_only)
    if true is None or kind_of(m, *true) != "flush":
        return true
    return min((pair for pair in pairs(m, loads, before) if kind_of(m, *pair) == "impossible"), default=true)


def never_on_one_line(m: Machine, loads: list[Load], before: dict[int, set[int]],
                      committed_only: bool) -> Optional[Pair]:
    """A pair on one line does not break a trace, unless it is a contradiction."""
    return min((pair for pair in pairs(m, loads, before) if kind_of(m, *pair) != "impossible"), default=None)


def by_commits_on_line(m: Machine, q: Store) -> set[int]:
    """Of two stores on one line the one committed first happens before the other."""
    return directly_before(m, q) | {p.event for p in m.stores.values() if p.stretch == q.stretch and p.commit
                                    and q.commit and p.commit < q.commit and line(p.location) == line(q.location)}


LINES: dict[str, dict[str, object]] = {
    "lines: contradictions impossible": {"kind_of": line_before_equality},
    "lines: no matter of the kind": {"kind_of": flush_on_one_line},
    "lines: of 16 words": {"line": lines_of(16)},
    "lines: of 4 words": {"line": lines_of(4)},
    "lines: of 1 word": {"line": lines_of(1)},
    "lines: the remainder": {"line": word_of_line},
    "lines: windows for impossible pairs": {"broken_answer": windows_left},
    "lines: a pair on two lines chosen again": {"smallest_pair": chosen_again},
    "lines: a pair on one line chosen first": {"smallest_pair": one_line_first},
    "lines: pairs on one line do not break": {"smallest_pair": never_on_one_line},
    "lines: stores ordered by commit": {"directly_before": by_commits_on_line},
}
