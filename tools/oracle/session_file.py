"""Write the input of the program `sessions` and what it must print.

python3 session_file.py ../../crates/sessions       # writes its files stdin and stdout

The sessions of documents 01 and 02 and their answers are those that sessions.py and checksum_sessions.py state by hand;
those of the random sessions and of all their order queries come from the brute force of oracle.py. The answers 14 and
15, and how many numbers of each buffer are 0 afterwards, are worked out here from document 01's sentences.
"""

from __future__ import annotations

import sys
from pathlib import Path

import generate
import oracle
from checksum_sessions import CHECKSUM_BYTES, CHECKSUMS
from lines import lines_with_windows
from notation import body, show
from oracle import Refused
from sessions import CASES, EDGES, ERRORS, HANDED, LOCKED, LOOKUPS, MORE_REFUSALS, NO_BYTES, ONE_LINE, ORDERS
from sessions import REFUSALS, WINDOWS, without_windows

LONGEST = 32767  # the program's room for a trace; the program `verdict` is run on longer input by tests/verdict
SEED = 2027
RANDOM_JUDGED = 400
RANDOM_ORDERED = 25

Pair = tuple[str, list[str]]


def lines_of(answer: object) -> list[str]:
    """What is printed for the answer of an order query."""
    return [f"refused {answer.number} {answer.event}"] if isinstance(answer, Refused) else [str(answer)]


def judged(letter: str, comment: str, data: bytes, lines: list[str]) -> list[Pair]:
    """A comment and a trace to judge, each with what is printed for it; letter w also has the windows printed."""
    return [("# " + comment, ["# " + comment]), (letter + data.hex(), lines)]


def listed() -> list[Pair]:
    """The sessions of documents 01 and 02, as sessions.py and checksum_sessions.py have them."""
    pairs: list[Pair] = []
    for name, data, expected in CASES + REFUSALS + MORE_REFUSALS + EDGES + ERRORS:
        if len(data) <= LONGEST:
            pairs += judged("j", name, data, without_windows(expected))
    for name, data, expected in WINDOWS + LOCKED + LOOKUPS + HANDED + ONE_LINE + NO_BYTES + CHECKSUMS + CHECKSUM_BYTES:
        pairs += judged("w", name, data, expected.split(" / "))
    for name, data, first, second, answer in ORDERS:
        pairs.append((f"# order: {name}", [f"# order: {name}"]))
        pairs.append((f"o{first:04x}{second:04x}{data.hex()}", lines_of(answer)))
    return pairs


def with_buffers() -> list[Pair]:
    """ "14, 15; then per record"; "refusals 14 and 15 touch nothing"; a refusal and broken leave the cut buffer as
    lent; afterwards the work area's "first 32,768 are 0 and the rest untouched". No number of a buffer is 0 before. Of
    no bytes, document 02, job 6: "robust, all-zero cut, share 100, `events 0`". """
    robust, broken, refused = CASES[1][1], CASES[0][1], CASES[7][1]
    at_close, dropped = CHECKSUMS[0][1], CHECKSUMS[1][1]
    lines = {data: without_windows(expected) for _, data, expected in CASES + CHECKSUMS}
    cleared, kept = 32768, 0
    cut_of_robust, cut_of_none = 56 - 1, 56
    none = ["events 0", "verdict robust", "share 100"]
    table = [
        ("work area of 32,767 numbers", 32767, 56, robust, ["refused 14 0"], kept, 0),
        ("no work area", 0, 56, robust, ["refused 14 0"], kept, 0),
        ("14 before 15", 32767, 55, robust, ["refused 14 0"], kept, 0),
        ("14 before the trace's refusal", 32767, 56, refused, ["refused 14 0"], kept, 0),
        ("cut buffer of 55 numbers", 32768, 55, robust, ["refused 15 0"], kept, 0),
        ("cut buffer of 57 numbers", 32768, 57, robust, ["refused 15 0"], kept, 0),
        ("no cut buffer", 32768, 0, robust, ["refused 15 0"], kept, 0),
        ("15 before the trace's refusal", 32768, 55, refused, ["refused 15 0"], kept, 0),
        ("robust, with the smallest buffers", 32768, 56, robust, lines[robust], cleared, cut_of_robust),
        ("robust, with a larger work area", 32770, 56, robust, lines[robust], cleared, cut_of_robust),
        ("broken", 32769, 56, broken, lines[broken], cleared, 0),
        ("refused", 32769, 56, refused, lines[refused], cleared, 0),
        ("broken at a close", 32769, 56, at_close, lines[at_close], cleared, 0),
        ("robust, since the held loads are dropped", 32769, 56, dropped, lines[dropped], cleared, cut_of_none),
        ("no bytes", 32768, 56, b"", none, cleared, cut_of_none),
        ("a larger work area for no bytes", 32770, 56, b"", none, cleared, cut_of_none),
        ("a work area of 32,767 numbers for no bytes", 32767, 56, b"", ["refused 14 0"], kept, 0),
        ("a cut buffer of 55 numbers for no bytes", 32768, 55, b"", ["refused 15 0"], kept, 0),
        ("a cut buffer of 57 numbers for no bytes", 32768, 57, b"", ["refused 15 0"], kept, 0),
        ("neither buffer for no bytes: 14 before 15", 0, 0, b"", ["refused 14 0"], kept, 0),
        ("a crash and no begin", 32768, 56, body("X"), ["refused 1 0"], cleared, 0),
    ]
    pairs: list[Pair] = []
    for name, work, cut, data, expected, work_zeros, cut_zeros in table:
        pairs.append((f"# buffers: {name}", [f"# buffers: {name}"]))
        zeros = [f"zeros of the work area {work_zeros}", f"zeros of the cut buffer {cut_zeros}"]
        pairs.append((f"b{work:04x}{cut:04x}{data.hex()}", expected + zeros))
    return pairs


def random_judged() -> list[Pair]:
    """Random sessions: robust, broken and refused."""
    pairs: list[Pair] = []
    for data, answer in generate.generate(SEED, RANDOM_JUDGED, generate.Limits()):
        pairs += judged("w", show(data), data, lines_with_windows(data, lambda _, known=answer: known))
    return pairs


def random_ordered() -> list[Pair]:
    """Order queries between the first five stores of random accepted sessions, and to a number that is no store; of a
    session without stores one from 1 to 0."""
    pairs: list[Pair] = []
    for data, _ in generate.generate(SEED + 1, RANDOM_ORDERED, generate.Limits(only="accepted")):
        pairs.append(("# order: " + show(data), ["# order: " + show(data)]))
        stores = sorted(oracle.run(data).stores)[:5]
        for first in stores or [1]:
            for second in stores + [0]:
                answer = lines_of(oracle.order(data, first, second))
                pairs.append((f"o{first:04x}{second:04x}{data.hex()}", answer))
    return pairs


def main() -> None:
    """Write the two files."""
    folder = Path(sys.argv[1])
    pairs = listed() + with_buffers() + random_judged() + random_ordered()
    (folder / "stdin").write_text("".join(line + "\n" for line, _ in pairs))
    (folder / "stdout").write_text("".join(line + "\n" for _, lines in pairs for line in lines))


if __name__ == "__main__":
    main()
