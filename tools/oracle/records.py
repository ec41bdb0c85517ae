"""Records of a trace, by documents 01 and 02: reading, framing, writing. Nothing here knows of threads or crashes."""

from __future__ import annotations

from dataclasses import dataclass
from typing import Optional, Union

(BEGIN, ISSUE, COMMIT, LOAD, CLFLUSH, CLFLUSHOPT, SFENCE, MFENCE, CRASH, SKIP_ON, SKIP_OFF, LOCKED, SIGNAL, WAIT, OPEN,
 CLOSE) = range(1, 17)

# "Kinds and their lengths are one fixed table": kind -> (length, names of the fields).
KINDS: dict[int, tuple[int, tuple[str, ...]]] = {
    BEGIN: (8, ("version", "threads", "locations")),
    ISSUE: (6, ("thread", "location")),
    COMMIT: (4, ("thread",)),
    LOAD: (8, ("thread", "location", "source")),
    CLFLUSH: (6, ("thread", "location")),
    CLFLUSHOPT: (6, ("thread", "location")),
    SFENCE: (4, ("thread",)),
    MFENCE: (4, ("thread",)),
    CRASH: (2, ()),
    SKIP_ON: (4, ("thread",)),
    SKIP_OFF: (4, ("thread",)),
    LOCKED: (8, ("thread", "location", "source")),
    SIGNAL: (4, ("thread",)),
    WAIT: (6, ("thread", "source")),
    OPEN: (4, ("thread",)),
    CLOSE: (6, ("thread", "outcome")),
}

# Document 02, job 7: "Version 2 of the begin record admits kind 15 [..] and kind 16". Every version knows the others.
VERSIONS = (1, 2)
ADMITTED_BY_2 = (OPEN, CLOSE)


@dataclass(frozen=True)
class Event:
    """One record: its kind and the values of its fields, in the order of the table."""

    kind: int
    fields: tuple[int, ...] = ()

    def get(self, name: str) -> int:
        """The value of a named field; the kind must have it."""
        return self.fields[KINDS[self.kind][1].index(name)]

    def has(self, name: str) -> bool:
        """Whether this kind has the named field."""
        return name in KINDS[self.kind][1]


@dataclass(frozen=True)
class Refused:
    """ "Each refusal carries its event number; 14, 15, 16 and 17 carry 0." """

    number: int
    event: int


def number_at(data: bytes, at: int) -> int:
    """ "Little-endian": the two-byte number at a position. """
    return data[at] + 256 * data[at + 1]


def frame_at(data: bytes, at: int) -> Union[bytes, int]:
    """ "A record is a two-byte length (of all that follows it), a two-byte kind, and two-byte fields."

    Gives the record at a position, length bytes included, or the refusal: "per record length under 2, 2".
    """
    if len(data) - at < 2:
        return 2
    length = number_at(data, at)
    if length < 2:
        return 4
    if len(data) - at - 2 < length:
        return 2
    return data[at:at + 2 + length]


def known(kind: int, version: Optional[int]) -> bool:
    """Whether the kind is known where a trace of that version goes on; None: "Read alone, or as a trace's first record,
    the two kinds are known; later in a version 1 trace they get 3". """
    return kind in KINDS and not (version == 1 and kind in ADMITTED_BY_2)


def decode(record: bytes, version: Optional[int] = None) -> Union[Event, int]:
    """The event of a framed record, or the refusal: "3, wrong length" (3 unknown kind, 4 wrong for the kind). The
    version is that of the begin before the record, if there is one. """
    kind = number_at(record, 2)
    if not known(kind, version):
        return 3
    if number_at(record, 0) != KINDS[kind][0]:
        return 4
    return Event(kind, tuple(number_at(record, at) for at in range(4, len(record), 2)))


def read_record(data: bytes) -> Union[Event, Refused]:
    """ "Reading one record alone, the first of the bytes given, ignores what follows it and gives its event, or
    1 (no bytes), 2, 3 or 4, with event 0." Document 02, job 6, of empty bytes: "Other calls still turn it away." """
    if not data:
        return Refused(1, 0)
    record = frame_at(data, 0)
    event = record if isinstance(record, int) else decode(record)
    return Refused(event, 0) if isinstance(event, int) else event


def record_part(data: bytes, wanted: int) -> bytes:
    """ "A call returns record number e as a part of the caller's trace, length bytes included; it returns an empty
    part exactly if records 0 to e cannot all be framed (a length under 2, or bytes missing)." """
    at = 0
    for _ in range(wanted):
        record = frame_at(data, at)
        if isinstance(record, int):
            return b""
        at += len(record)
    record = frame_at(data, at)
    return b"" if isinstance(record, int) else record


def encode(event: Event) -> bytes:
    """The bytes of an event: "a two-byte length (of all that follows it), a two-byte kind, and two-byte fields"."""
    length, names = KINDS[event.kind]
    assert len(names) == len(event.fields)
    return b"".join(value.to_bytes(2, "little") for value in (length, event.kind, *event.fields))


def write_event(event: Event, output: bytearray) -> Optional[Refused]:
    """ "Writing takes all field values from 0 to 65,535, since ranges are the judge's matter, and refuses only with
    17." "Writing fills the record's bytes and no others." """
    record = encode(event)
    if len(output) < len(record):
        return Refused(17, 0)
    output[:len(record)] = record
    return None
