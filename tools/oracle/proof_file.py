"""Write a list of sessions as a proof file of the crate `model`: their bytes, their events, and the expected answers.

python3 proof_file.py cases > ../../crates/model/proofs/Cases.antt
python3 proof_file.py trade > ../../crates/model/proofs/CasesOfTrade.antt
python3 proof_file.py windows > ../../crates/model/proofs/CasesOfWindows.antt
python3 proof_file.py locked > ../../crates/model/proofs/CasesOfLocked.antt
python3 proof_file.py handed > ../../crates/model/proofs/CasesOfHandOver.antt
python3 proof_file.py one_line > ../../crates/model/proofs/CasesOfOneLine.antt
python3 proof_file.py no_bytes > ../../crates/model/proofs/CasesOfNoBytes.antt
python3 proof_file.py checksums > ../../crates/model/proofs/CasesOfChecksums.antt
python3 proof_file.py random SEED COUNT > ../../crates/model/proofs/RandomSessions.antt

The expected answers of the random sessions come from the brute force of oracle.py; those of all others are the ones
that sessions.py and checksum_sessions.py state by hand from documents 01 and 02.
"""

from __future__ import annotations

import re
import sys
import textwrap
from typing import Iterable

import generate
import oracle
from checksum_sessions import CHECKSUM_BYTES, CHECKSUMS
from lines import lines_with_windows
from oracle import Event, Refused
from sessions import CASES, ERRORS, HANDED, LOCKED, NO_BYTES, ONE_LINE, WINDOWS

CONSTRUCTORS = {oracle.BEGIN: "Begin", oracle.ISSUE: "Issue", oracle.COMMIT: "Commit", oracle.LOAD: "Load",
                oracle.CLFLUSH: "Clflush", oracle.CLFLUSHOPT: "Clwb", oracle.SFENCE: "Sfence", oracle.MFENCE: "Mfence",
                oracle.CRASH: "Crash", oracle.SKIP_ON: "SkipOn", oracle.SKIP_OFF: "SkipOff", oracle.LOCKED: "Locked",
                oracle.SIGNAL: "Signal", oracle.WAIT: "Wait", oracle.OPEN: "Open", oracle.CLOSE: "Close"}

LISTS = {"cases": CASES, "trade": ERRORS, "windows": WINDOWS, "locked": LOCKED, "handed": HANDED,
         "one_line": ONE_LINE, "no_bytes": NO_BYTES, "checksums": CHECKSUMS}
THEOREMS = {"cases": "cases_1_to_11", "trade": "errors_of_the_trade", "windows": "windows_as_worked",
            "locked": "locked_as_worked", "handed": "handed_as_worked", "one_line": "one_line_as_worked",
            "no_bytes": "no_bytes_as_worked", "checksums": "checksums_as_worked", "random": "random_sessions"}

# What stands on top of the file, and behind it how it is shown and made.
HEADERS = {
    "cases": """Document 01, "Sessions": "Cases 1 to 11 are the proved ones." The definitions give each case's bytes the
        answer that document 01 states, for cases 1, 4 and 5 with the kind of document 02, job 5, and the cut
        buffer; case 11 stands for both its loads.""",
    "trade": """Document 01, "Errors the trade has made": a session for each that has no case of its own, and for rules
        that no case needs. The definitions give their bytes the answers that follow from documents 01 and 02, and the
        cut buffers.""",
    "windows": """Document 02, job 1, "Where the flush may go": a session for each thing that moves a place or takes a
        window away. The definitions give their bytes the answers that follow from document 02, and the cut buffers.""",
    "locked": """Document 02, job 2, "Locked operations in one record": a session for each thing that the load, the
        issue and the commit of such a record do, that turns it away, or that it does to a window. The definitions give
        their bytes the answers that follow from documents 01 and 02, and the cut buffers.""",
    "handed": """Document 02, job 4, "Work handed over through ordinary memory": a session for each thing that a signal
        passes on or not, that a wait hands over to or not, that turns either away, or that they do to a window. The
        definitions give their bytes the answers that follow from documents 01 and 02, and the cut buffers.""",
    "one_line": """Document 02, job 5, "Two stores on one line": a session for each thing that puts missing and observed
        on one line or on two, or decides between the kinds. The definitions give their bytes the answers that follow
        from documents 01 and 02, and the cut buffers.""",
    "no_bytes": """Document 02, job 6, "A recorder that never started": no bytes, and bytes that are nearly none, each
        with what tells it from them. The definitions give them the answers that follow from documents 01 and 02, and
        the cut buffers. Some are no records, so the answers are computed from the bytes themselves.""",
    "checksums": """Document 02, job 7, "Loads under a checksum": a session for each thing that holds a load or not,
        that counts or drops the held ones, that a held load does, or that turns an open or a close away. The
        definitions give their bytes the answers that follow from documents 01 and 02, and the cut buffers. A second
        list has bytes of which some are no records, or have no begin in front.""",
    "random": """Random sessions: the definitions give their bytes the answers of an independent brute force over all
        choices (tools/oracle).""",
}
SHOWN = "Shown together as one list, by computation."
SHOWN_TWICE = "Each list is shown together, by computation."
MADE = "Made by tools/oracle/proof_file.py."

IMPORTS = """use mathlib.Core.Path.{◌≡◌, refl, sym, ap, ◌∙◌}
use mathlib.Core.List.{List, [], ◌∷◌, map}
use Prim.Native.Nat.{ℕ}
use Rattle.record.specs.declared.events.Event.{Event}
%s
use Rattle.record.specs.Events.{record_of}
use Rattle.record.specs.Table.{row_of}
use Rattle.model.specs.Search.{some, any, last, first, first_from, most}
use Rattle.model.specs.Trace.{stretch, count}
use Rattle.model.specs.Machine.{committed, commit_of, waiting, current, source_fits, switched}
use Rattle.model.specs.Machine.{countable, held, counting}
use Rattle.model.specs.Rules.{answer, rules}
use Rattle.model.specs.Choice.{finished}
use Rattle.model.specs.Clocks.{seen, clock, vc}
use Rattle.model.specs.Verdict.{forbids?, observes?, forbidden?, observed?, pair?, missing?, bad?, closure}
use Rattle.model.specs.Verdict.{load_of, missing_of, observed_of, ruling_of}
use Rattle.model.specs.Windows.{%s}
use Rattle.model.specs.Answers.{%s}
use Rattle.model.specs.Answers.{tabulate, cut_of, sum, share_of, fault_of}
use Rattle.model.specs.Reading.{encode}
use Rattle.model.proofs.Encoding.{reading_events}
use Rattle.model.proofs.Sessions.{%s, Outcome, outcome_of, outcome_of_events, outcome_all}"""

THEOREM = """encoded : map encode traces ≡ sessions
unfolding traces sessions encode record_of row_of
encoded = refl

computed : map outcome_of_events traces ≡ answers
unfolding traces answers reading_events some last first first_from most stretch count committed commit_of waiting current
    source_fits switched countable held counting any answer rules finished seen clock vc forbids? observes? forbidden?
    observed? pair? missing? bad? closure load_of missing_of observed_of ruling_of behind last_covered window_of fault_of
    tabulate cut_of sum share_of row_of
computed = refl

pub %s : map outcome_of sessions ≡ answers
unfolding traces
%s = ap (map outcome_of) (sym encoded) ∙ (outcome_all traces refl ∙ computed)"""


# The same for bytes that need not be records.
BYTES_IMPORTS = """use mathlib.Core.Path.{◌≡◌, refl}
use mathlib.Core.List.{List, [], ◌∷◌, map}
use Prim.Native.Nat.{ℕ}
use Rattle.record.specs.Reading.{read_at, read_first, read_framed, frame}
use Rattle.record.specs.Parts.{start, size_at}
use Rattle.record.specs.Table.{row_of}
use Rattle.record.specs.Fields.{event_of}
use Rattle.record.specs.Versions.{later_refusal}
use Rattle.model.specs.Search.{some, any, first, first_from, most}
use Rattle.model.specs.Trace.{stretch, count}
use Rattle.model.specs.Machine.{countable, held, counting}
use Rattle.model.specs.Rules.{answer, rules}
use Rattle.model.specs.Choice.{finished}
use Rattle.model.specs.Verdict.{forbidden?, observed?, pair?, missing?, bad?, closure, ruling_of}
use Rattle.model.specs.Answers.{%s}
use Rattle.model.specs.Answers.{tabulate, cut_of, sum, share_of}
use Rattle.model.specs.Reading.{events, record_at, stop, reading_of}
use Rattle.model.specs.Judge.{judge_of, cut_after}
use Rattle.model.proofs.Sessions.{%s, Outcome, outcome_of}"""

BYTES_THEOREM = """pub {theorem} : map outcome_of {sessions} ≡ {answers}
unfolding {both} judge_of cut_after reading_of stop record_at events some any first first_from most answer rules
    read_at read_first read_framed frame start size_at row_of event_of later_refusal stretch count countable held counting
    finished forbidden? observed? pair? missing? bad? closure ruling_of tabulate cut_of sum share_of
{theorem} = refl"""


def events_of(data: bytes) -> list[Event]:
    """The events of a trace that can be read whole."""
    events, at = [], 0
    while at < len(data):
        event = oracle.read_record(data[at:])
        assert not isinstance(event, Refused)
        events.append(event)
        at += len(oracle.encode(event))
    return events


def header(which: str) -> str:
    """The comment on top of the file."""
    shown = SHOWN_TWICE if which == "checksums" else SHOWN
    words = " ".join(f"{HEADERS[which]} {shown} {MADE}".split())
    return textwrap.fill(words, 120, initial_indent="-- ", subsequent_indent="-- ", break_on_hyphens=False)


def imported(names: list[str]) -> list[str]:
    """The lines that bring in constructors of `Event`, six to a line."""
    groups = [names[first:first + 6] for first in range(0, len(names), 6)]
    return [f"use Rattle.record.specs.declared.events.Event.TheVariants.{{{', '.join(group)}}}" for group in groups]


def named(names: str, answers: Iterable[str], more: str = "") -> str:
    """Those of the names that stand in the answers, and some more, as they are imported."""
    words = set(re.findall(r"\w+", " ".join(answers)))
    return ", ".join([name for name in names.split() if name in words] + more.split())


def wrapped(items: Iterable[str], indent: str) -> str:
    """An antt list in lines of at most 120 columns and 150 bytes; no item is parted."""
    lines, line = [], indent
    for item in list(items) + ["[]"]:
        piece = item if line == indent else " ∷ " + item
        if len(line + piece) > 110 or len((line + piece).encode()) > 146:
            lines.append(line)
            line, piece = indent, "∷ " + item
        line += piece
    return "\n".join(lines + [line])


def shown_record(event: Event) -> str:
    """The bytes of an event's record, as the items of an antt list."""
    return " ∷ ".join(str(byte) for byte in oracle.encode(event))


def shown_event(event: Event) -> str:
    """An event as an antt term."""
    return " ".join([CONSTRUCTORS[event.kind]] + [str(value) for value in event.fields])


def shown_answer(lines: list[str]) -> str:
    """The lines of `verdict`, and of the windows, as an antt record of answer and cut buffer."""
    words = [line.split() for line in lines]
    if words[0][0] == "refused":
        return shown_outcome(f"refused {words[0][1]} {words[0][2]}", "lent")
    events = words[0][1]
    if words[1][1] == "broken":
        load, missing, observed, kind = (word[1] for word in words[2:6])
        fault = shown_windows(words[6][1], words[7:]) if kind == "flush" else kind
        return shown_outcome(f"broken {events} {load} {missing} {observed} {fault}", "lent")
    cut = shown_cut([[int(number) for number in word[2:]] for word in words if word[0] == "cut"])
    return shown_outcome(f"robust {events} {words[-1][1]}", cut)


def shown_outcome(answer: str, cut: str) -> str:
    """An antt record of answer and cut buffer, in one line if it fits."""
    line = f"record {{ answer = {answer}; cut = {cut} }}"
    return line if len(line) <= 110 else f"record {{\n      answer = {answer};\n      cut = {cut};\n    }}"


def shown_windows(primary: str, lines: list[list[str]]) -> str:
    """A flush fault: its primary thread, and the windows of the threads up to the last that has one. There is one."""
    ends = {int(thread): f"between {first} {last}" for _, thread, first, last in lines}
    listed = [ends.get(thread, "none") for thread in range(max(ends) + 1)]
    return f"(flush {primary} (padded ({' ∷ '.join(listed + ['[]'])})))"


def shown_cut(rows: list[list[int]]) -> str:
    """The 56 numbers of a cut: each stretch's counts, the rest 0."""
    numbers = [number for row in rows for number in row + [0] * (8 - len(row))]
    while numbers and numbers[-1] == 0:
        numbers.pop()
    return "".join(f"{number} ∷ " for number in numbers) + f"zeros {56 - len(numbers)}"


def table(name: str, type_: str, entries: list[tuple[str, str]]) -> str:
    """A list, with a comment for each entry."""
    rows = [f"    -- {title}\n    ({entry.strip()}) ∷" for title, entry in entries]
    return f"{name} : List {type_}\n{name} =\n" + "\n".join(rows) + "\n    []"


Listed = list[tuple[str, bytes, list[str]]]  # title, bytes, lines


def events_imports(listed: Listed) -> str:
    """What a file of events brings in."""
    kinds = {event.kind for _, data, _ in listed for event in events_of(data)}
    used = "\n".join(imported([CONSTRUCTORS[kind] for kind in sorted(kinds)]))
    entries = [shown_answer(lines) for _, _, lines in listed]
    windows = named("none between", entries, "behind last_covered window_of")
    faults = named("refused robust broken contradiction impossible flush", entries)
    return IMPORTS % (used, windows, faults, named("lent zeros padded", entries))


def events_parts(which: str, listed: Listed) -> list[str]:
    """The lists of bytes, events and answers, and their theorem."""
    name = THEOREMS[which]
    bytes_ = [(title, wrapped(map(shown_record, events_of(data)), "    ")) for title, data, _ in listed]
    events = [(title, wrapped(map(shown_event, events_of(data)), "    ")) for title, data, _ in listed]
    answers = [(title, shown_answer(lines)) for title, _, lines in listed]
    return ["-- the bytes\n" + "pub " + table("sessions", "(List ℕ)", bytes_),
            "-- the events that they are the records of\n" + table("traces", "(List Event)", events),
            "-- the answers, and the cut buffers afterwards\n" + "pub " + table("answers", "Outcome", answers),
            THEOREM % (name, name)]


def bytes_imports(listed: Listed) -> str:
    """What a file of bytes that need not be records brings in."""
    entries = [shown_answer(lines) for _, _, lines in listed]
    return BYTES_IMPORTS % (named("refused robust", entries), named("lent zeros", entries))


def bytes_parts(theorem: str, listed: Listed, sessions: str = "sessions", answers: str = "answers") -> list[str]:
    """The lists of bytes that need not be records and of answers, and their theorem."""
    bytes_ = [(title, wrapped(map(str, data), "    ")) for title, data, _ in listed]
    shown = [(title, shown_answer(lines)) for title, _, lines in listed]
    return ["-- the bytes\n" + "pub " + table(sessions, "(List ℕ)", bytes_),
            "-- the answers, and the cut buffers afterwards\n" + "pub " + table(answers, "Outcome", shown),
            BYTES_THEOREM.format(theorem=theorem, sessions=sessions, answers=answers, both=f"{sessions} {answers}")]


def with_more(imports: str, more: str) -> str:
    """The lines of the imports, and behind them those that bring in what only the second ones do."""
    taken = lambda line: line.removeprefix("use ").removesuffix("}").split(".{")
    have = {(module, name) for module, names in map(taken, imports.split("\n")) for name in names.split(", ")}
    lines = [imports]
    for module, names in map(taken, more.split("\n")):
        new = [name for name in names.split(", ") if (module, name) not in have]
        lines += [f"use {module}.{{{', '.join(new)}}}"] if new else []
    return "\n".join(lines)


def whole(which: str, imports: str, parts: list[str]) -> str:
    """The whole file."""
    return "\n\n".join([header(which) + "\n" + imports, *parts]) + "\n"


def proof_file(which: str, listed: Listed) -> str:
    """The file of a list; `no_bytes` is one of bytes, `checksums` has a second list of them."""
    if which == "no_bytes":
        return whole(which, bytes_imports(listed), bytes_parts(THEOREMS[which], listed))
    if which == "checksums":
        more = split_lines(CHECKSUM_BYTES)
        return whole(which, with_more(events_imports(listed), bytes_imports(more)), events_parts(which, listed)
                     + bytes_parts("checksum_bytes_as_worked", more, "bytes", "outcomes"))
    return whole(which, events_imports(listed), events_parts(which, listed))


def split_lines(listed: list[tuple[str, bytes, str]]) -> Listed:
    """Sessions with their lines apart."""
    return [(name, data, lines.split(" / ")) for name, data, lines in listed]


def random_sessions(seed: int, count: int) -> Listed:
    """Sessions that can be read whole, with the brute force's lines."""
    drawn = generate.generate(seed, 4 * count, generate.Limits())
    whole = [(data, answer) for data, answer in drawn if readable(data)][:count]
    return [(f"session {number}", data, lines_with_windows(data, lambda _: answer))
            for number, (data, answer) in enumerate(whole, 1)]


def readable(data: bytes) -> bool:
    """The bytes are records of known kinds, one behind the other, or none."""
    at = 0
    while at < len(data):
        event = oracle.read_record(data[at:])
        if isinstance(event, Refused):
            return False
        at += len(oracle.encode(event))
    return True


def main() -> None:
    """Print the file."""
    which = sys.argv[1]
    random = which == "random"
    listed = random_sessions(int(sys.argv[2]), int(sys.argv[3])) if random else split_lines(LISTS[which])
    print(proof_file(which, listed), end="")


if __name__ == "__main__":
    main()
