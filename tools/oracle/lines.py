"""The lines of the program `verdict`, and behind them those of a flush fault's windows."""

from __future__ import annotations

from oracle import MAX_INPUT, Answer, Broken, Refused, judge, run


def answer_lines(answer: Answer, finished: int, threads: int) -> list[str]:
    """The lines of the program `verdict` for an answer: "one cut line per finished stretch: its number, then each
    thread's count", so none for no bytes; "`refused` gives number and event, and is then the only line". """
    if isinstance(answer, Refused):
        return [f"refused {answer.number} {answer.event}"]
    if isinstance(answer, Broken):
        return [f"events {answer.events}", "verdict broken", f"load {answer.load}", f"missing {answer.missing}",
                f"observed {answer.observed}", f"kind {answer.kind}"]
    cuts = [" ".join(["cut", str(j)] + [str(answer.cut[8 * (j - 1) + t]) for t in range(threads)])
            for j in range(1, finished + 1)]
    return [f"events {answer.events}", "verdict robust", *cuts, f"share {answer.share}"]


def verdict_lines(data: bytes, judging=judge) -> list[str]:
    """ "Reads a trace from standard input; over 65,535 bytes it prints `refused 13 0`." """
    if len(data) > MAX_INPUT:
        return ["refused 13 0"]
    m = run(data)
    finished, threads = (0, 0) if isinstance(m, Refused) else (m.stretch - 1, m.threads)
    return answer_lines(judging(data), finished, threads)


def window_lines(answer: Answer) -> list[str]:
    """The lines of a flush fault's windows, as the program `sessions` prints them behind the verdict's: the primary
    thread, and the first and the last place of each thread that has a window. """
    if not isinstance(answer, Broken) or answer.primary is None:
        return []
    there = [(thread, *ends) for thread, ends in enumerate(answer.windows) if ends is not None]
    return [f"primary {answer.primary}"] + [f"window {thread} {first} {last}" for thread, first, last in there]


def lines_with_windows(data: bytes, judging=judge) -> list[str]:
    """The lines of the program `verdict`, and behind them those of the windows."""
    answer = judging(data)
    return verdict_lines(data, lambda _: answer) + window_lines(answer)
