"""A notation for sessions, separated by blanks: thread.location, and behind < the source.

I0.1 issue, C0 commit, L0.1<3 load from 3, R0.1<3 locked operation (kind 12) from 3, S0 signal (kind 13), W1<3 wait
(kind 14) for signal 3, F0.1 clflush, O0.1 clflushopt or clwb, SF0 sfence, MF0 mfence, X crash, SKIP0 skip on, UNSKIP0
skip off, OPEN0 open (kind 15), CLOSE0.1 close (kind 16) with outcome 1, B1.2.2 begin (version, threads, locations).
"""

from __future__ import annotations

import re
from typing import Optional

import oracle
from oracle import Event, Refused

LETTERS = {"B": oracle.BEGIN, "I": oracle.ISSUE, "C": oracle.COMMIT, "L": oracle.LOAD, "F": oracle.CLFLUSH,
           "O": oracle.CLFLUSHOPT, "SF": oracle.SFENCE, "MF": oracle.MFENCE, "X": oracle.CRASH,
           "SKIP": oracle.SKIP_ON, "UNSKIP": oracle.SKIP_OFF, "R": oracle.LOCKED, "S": oracle.SIGNAL, "W": oracle.WAIT,
           "OPEN": oracle.OPEN, "CLOSE": oracle.CLOSE}
NAMES = {kind: letters for letters, kind in LETTERS.items()}


def parse_event(word: str) -> Event:
    """The event of one word of the notation."""
    letters, numbers = re.fullmatch(r"([A-Z]+)([0-9.<]*)", word).groups()
    return Event(LETTERS[letters], tuple(int(number) for number in re.split("[.<]", numbers) if number))


def show_event(event: Event) -> str:
    """One word of the notation for an event."""
    numbers = [str(value) for value in event.fields]
    source = "<" + numbers.pop() if event.has("source") else ""
    return NAMES[event.kind] + ".".join(numbers) + source


def show(data: bytes) -> str:
    """A trace in the notation, for messages; unreadable bytes are shown in hexadecimal, no bytes as such."""
    if not data:
        return "(no bytes)"
    words, at = [], 0
    while at < len(data):
        event = oracle.read_record(data[at:])
        if isinstance(event, Refused):
            return " ".join(words + [data[at:].hex(" ")])
        words.append(show_event(event))
        at += len(oracle.encode(event))
    return " ".join(words)


def begin(threads: int, locations: int, version: int = 1) -> bytes:
    """A begin record."""
    return oracle.encode(Event(oracle.BEGIN, (version, threads, locations)))


def body(text: str) -> bytes:
    """The records of a text in the notation, without a begin in front."""
    return b"".join(oracle.encode(parse_event(word)) for word in text.split())


def session(text: str, threads: Optional[int] = None, locations: int = 2, version: int = 1) -> bytes:
    """ "Each has 2 locations and the threads it names, at least one". """
    events = [parse_event(word) for word in text.split()]
    named = [event.get("thread") + 1 for event in events if event.has("thread")]
    return begin(max(named, default=1) if threads is None else threads, locations, version) + body(text)


def version_2(text: str, threads: Optional[int] = None, locations: int = 2) -> bytes:
    """A session whose begin is of version 2, which admits OPEN and CLOSE."""
    return session(text, threads, locations, 2)


def raw(text: str) -> bytes:
    """Bytes written in hexadecimal."""
    return bytes.fromhex(text)


B = raw("08 00 01 00 01 00 01 00 02 00")
