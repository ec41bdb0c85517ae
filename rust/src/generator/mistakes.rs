//! Traces with a record that some rule turns away, and random records.

use super::draft::Draft;
use super::settings::Settings;
use super::{Random, FIRST_OF_VERSION_2, KINDS};
use crate::types::REFUSALS;

/// A trace that is allowed up to a record which breaks a drawn rule, and perhaps others besides. Records may follow.
pub fn near_miss(draft: &mut Draft, random: &Random) {
    let settings = Settings::draw(random);
    let rule = random.pick(&REFUSALS);
    match rule {
        1 => return no_begin(draft, random),
        6 => return bad_begin(draft, random),
        19 => draft.begin_version(random.pick(&[1, 2, 2, 2, 2, 2]), random),
        _ => draft.begin_some(random),
    }
    let before = random.between(0, 30);
    draft.grow(before, &settings, random);
    let start = make_mistake(draft, rule, &settings, random);
    if random.once_in(4) {
        spoil(&mut draft.bytes, start, random);
    }
    if random.once_in(2) {
        let more = random.between(1, 10);
        draft.grow_without_crash(more, &settings, random);
    }
}

/// A first record that is no begin. A begin may come behind it, and records may follow.
fn no_begin(draft: &mut Draft, random: &Random) {
    draft.begin(1, 1, 2);
    draft.bytes.clear();
    any_record(draft, random);
    if random.once_in(4) {
        spoil(&mut draft.bytes, 0, random);
    }
    if random.once_in(2) {
        draft.put(1, &[random.between(1, 2), 1, 2]);
    }
    (0..random.below(5)).for_each(|_| any_record(draft, random));
}

/// A begin with a field out of range, followed by some records.
fn bad_begin(draft: &mut Draft, random: &Random) {
    draft.begin(1, 1, 2);
    draft.bytes.clear();
    let mut fields = [random.between(1, 2), random.between(1, 8), random.between(1, 256)];
    let place = random.below(3);
    fields[place] = random.pick(&[0, [3, 9, 257][place], random.between(258, u16::MAX), u16::MAX]);
    draft.put(1, &fields);
    if random.once_in(8) {
        spoil(&mut draft.bytes, 0, random);
    }
    (0..random.below(5)).for_each(|_| any_record(draft, random));
}

/// Appends the record that breaks a rule, behind those that it needs before it. Gives its position.
pub fn make_mistake(draft: &mut Draft, rule: u16, settings: &Settings, random: &Random) -> usize {
    prepare(draft, rule, settings, random);
    let start = draft.bytes.len();
    match rule {
        2 => cut_short(draft, random),
        3 => unknown_kind(draft, random),
        4 => wrong_length(draft, random),
        5 => draft.put(1, &[random.between(0, 3), random.between(0, 9), random.between(0, 300)]),
        7 => wrong_thread(draft, random),
        8 => wrong_location(draft, random),
        9 => wrong_source(draft, random),
        10 => draft.put(3, &[draft.thread_with_queue(true, random).unwrap_or(0)]),
        11 => waiting_store(draft, settings, random),
        12 => wrong_switch(draft, random),
        18 => wrong_signal(draft, random),
        19 => wrong_outcome(draft, random),
        _ if draft.events >= 2_048 => any_record(draft, random),
        _ => draft.put(9, &[]),
    }
    start
}

/// Appends the records that a mistake needs before it.
fn prepare(draft: &mut Draft, rule: u16, settings: &Settings, random: &Random) {
    match rule {
        10 => prepare_empty_queue(draft, settings, random),
        11 => {
            let (thread, location) = (draft.some_thread(random), draft.some_location(random));
            draft.issue(thread, location);
        }
        13 if random.once_in(200) => (draft.events..2_048).for_each(|_| draft.sfence(0)),
        13 => (draft.crashes..7).for_each(|_| draft.crash(settings, random)),
        18 => prepare_signal(draft, settings, random),
        12 | 19 if draft.version == 2 => prepare_region(draft, settings, random),
        _ => {}
    }
}

/// Sees to it that a thread has an empty queue: by commits, or by a crash that drops what waits.
fn prepare_empty_queue(draft: &mut Draft, settings: &Settings, random: &Random) {
    if draft.crashes < 7 && random.once_in(2) {
        draft.crash(settings, random);
    }
    while draft.thread_with_queue(true, random).is_none() {
        draft.commit(0);
    }
}

/// Sees to it that there is a signal and a wait for it, if some thread has an empty queue. A crash may come behind.
fn prepare_signal(draft: &mut Draft, settings: &Settings, random: &Random) {
    if let Some(thread) = draft.thread_with_queue(true, random) {
        draft.signal(thread);
        draft.wait(draft.some_thread(random), draft.events);
    }
    if draft.crashes < 7 && random.once_in(2) {
        draft.crash(settings, random);
    }
}

/// Opens or closes some thread, once or twice. A crash, which ends the open state, may come behind.
fn prepare_region(draft: &mut Draft, settings: &Settings, random: &Random) {
    for _ in 0..random.below(3) {
        draft.open_or_close(draft.some_thread(random), settings, random);
    }
    if draft.crashes < 7 && random.once_in(4) {
        draft.crash(settings, random);
    }
}

/// Appends a record whose bytes end early; in version 1 often of a kind that version 2 knows.
fn cut_short(draft: &mut Draft, random: &Random) {
    let start = draft.bytes.len();
    let first = if draft.version == 1 && random.once_in(2) { FIRST_OF_VERSION_2 } else { 2 };
    record_from(draft, first, random);
    let size = draft.bytes.len() - start;
    draft.bytes.truncate(start + 1 + random.below(size - 1));
}

/// Appends a record of an unknown kind, with any length; in version 1 often one that version 2 knows.
fn unknown_kind(draft: &mut Draft, random: &Random) {
    let mut kind = random.pick(&[0, KINDS + 1, 99, 256 + 9, u16::MAX, random.between(KINDS + 1, u16::MAX)]);
    if draft.version == 1 && random.once_in(2) {
        kind = random.between(FIRST_OF_VERSION_2, KINDS);
    }
    let length = random.pick(&[2, 4, 6, 8, random.between(2, 20)]);
    framed(draft, length, kind, random);
}

/// Appends a record with a length under 2, in version 1 often before a kind that version 2 knows, or with a length that
/// is wrong for its kind.
fn wrong_length(draft: &mut Draft, random: &Random) {
    if random.once_in(3) {
        draft.bytes.extend_from_slice(&[random.below(2) as u8, 0]);
        if draft.version == 1 && random.once_in(2) {
            draft.bytes.extend_from_slice(&[random.between(FIRST_OF_VERSION_2, KINDS) as u8, 0]);
        }
        (0..random.below(4)).for_each(|_| draft.bytes.push(random.between(0, KINDS) as u8));
    } else {
        let length = random.pick(&[2, 3, 4, 5, 6, 7, 8, 9, 10, random.between(2, 40)]);
        framed(draft, length, random.between(1, KINDS), random);
    }
}

/// Appends the bytes of a record with a length and a kind; its fields are small random numbers.
fn framed(draft: &mut Draft, length: u16, kind: u16, random: &Random) {
    draft.bytes.extend_from_slice(&length.to_le_bytes());
    draft.bytes.extend_from_slice(&kind.to_le_bytes());
    for place in 2..length {
        draft.bytes.push(if place % 2 == 0 { random.below(3) as u8 } else { 0 });
    }
    draft.events += 1;
}

/// Appends a load or a locked operation whose source the load rule does not allow, if one is found in a few draws. The
/// locked operation's thread has no waiting store, if there is such a thread.
fn wrong_source(draft: &mut Draft, random: &Random) {
    let kind = random.pick(&[4, 12]);
    let (mut thread, mut location, mut source) = (0, 0, 0);
    for _ in 0..8 {
        thread = draft.some_thread(random);
        if kind == 12 {
            thread = draft.thread_with_queue(true, random).unwrap_or(thread);
        }
        location = draft.some_location(random);
        source = any_number(draft, random);
        if !draft.allows(thread, location, source) {
            break;
        }
    }
    draft.put(kind, &[thread, location, source]);
}

/// Appends a wait whose source is no signal of its stretch, if one is found in a few draws: one of the last events, the
/// wait itself, a later number, a signal of an earlier stretch, a number that agrees with a signal's in twelve bits, or
/// any.
fn wrong_signal(draft: &mut Draft, random: &Random) {
    let thread = draft.some_thread(random);
    let some = |signals: &[u16]| signals.get(random.below(signals.len().max(1))).copied();
    let mut source = 0;
    for _ in 0..8 {
        let near = (draft.events + random.between(0, 6)).saturating_sub(4);
        let ended = some(&draft.ended).unwrap_or(near);
        let alike = 4_096 + some(&draft.signals).unwrap_or(near);
        source = random.pick(&[near, near, ended, ended, alike, any_number(draft, random)]);
        if !draft.signals.contains(&source) {
            break;
        }
    }
    draft.put(14, &[thread, source]);
}

/// Appends a switch of a thread that is as it says already: a skip, in version 2 also an open or a close.
fn wrong_switch(draft: &mut Draft, random: &Random) {
    let thread = draft.some_thread(random);
    if draft.version == 1 || random.once_in(2) {
        draft.put(if draft.skips(thread) { 10 } else { 11 }, &[thread]);
    } else if draft.opened(thread) {
        draft.put(15, &[thread]);
    } else {
        draft.put(16, &[thread, random.between(0, 1)]);
    }
}

/// Appends a close with another outcome than 0 and 1, of a thread that is open or not.
fn wrong_outcome(draft: &mut Draft, random: &Random) {
    let outcome = random.pick(&[2, 3, 255, 256, 257, u16::MAX, random.between(2, u16::MAX)]);
    draft.put(16, &[draft.some_thread(random), outcome]);
}

/// Appends an mfence, a signal or a locked operation of a thread that has a waiting store. The source is one that the
/// load rule allows, or any.
fn waiting_store(draft: &mut Draft, settings: &Settings, random: &Random) {
    let thread = draft.thread_with_queue(false, random).unwrap_or(0);
    let location = draft.some_location(random);
    match random.below(4) {
        0 => draft.put(8, &[thread]),
        1 => draft.put(13, &[thread]),
        2 => draft.put(12, &[thread, location, draft.source(thread, location, settings, random)]),
        _ => draft.put(12, &[thread, location, any_number(draft, random)]),
    }
}

/// A number of an event, or one that no event has.
fn any_number(draft: &Draft, random: &Random) -> u16 {
    random.pick(&[0, random.between(0, draft.events), draft.events + 1, u16::MAX, 4_096])
}

/// Appends a record of some kind that has a thread, with a thread that there is not; the location may be wrong too.
fn wrong_thread(draft: &mut Draft, random: &Random) {
    let thread = random.pick(&[draft.threads, draft.threads + 1, 8, 9, 256, u16::MAX]).max(draft.threads);
    let location = if random.once_in(2) { draft.locations } else { draft.some_location(random) };
    let kind = random.pick(&[2, 3, 4, 5, 6, 7, 8, 10, 11, 12, 13, 14, 15, 16]);
    put_located(draft, kind, thread, location, random.between(0, draft.events + 1));
}

/// Appends a record of some kind that has a location, with a location that there is not.
fn wrong_location(draft: &mut Draft, random: &Random) {
    let location = random.pick(&[draft.locations, draft.locations + 1, 256, 257, u16::MAX]).max(draft.locations);
    let (thread, source) = (draft.some_thread(random), random.between(0, draft.events + 1));
    put_located(draft, random.pick(&[2, 4, 5, 6, 12]), thread, location, source);
}

/// Appends a record of any kind, with the fields that it has; the outcome of a close is the location's
/// remainder by 3.
fn put_located(draft: &mut Draft, kind: u16, thread: u16, location: u16, source: u16) {
    let fields = match kind {
        14 => [thread, source, 0],
        16 => [thread, location % 3, 0],
        _ => [thread, location, source],
    };
    let count = [0, 3, 2, 1, 3, 2, 2, 1, 1, 0, 1, 1, 3, 1, 2, 1, 2][usize::from(kind)];
    draft.put(kind, &fields[..count]);
}

/// Appends a record of any kind but a begin with any small fields. The machine may turn it away.
fn any_record(draft: &mut Draft, random: &Random) {
    record_from(draft, 2, random);
}

/// The same of some kind from the one given on.
pub fn record_from(draft: &mut Draft, first: u16, random: &Random) {
    let kind = random.between(first, KINDS);
    let (thread, location) = (random.between(0, draft.threads), random.between(0, draft.locations));
    let source = random.between(0, draft.events.min(40) + 1);
    put_located(draft, kind, thread, location, source);
}

/// Changes the record at a position: cuts the trace inside it, or gives it another length or kind.
fn spoil(bytes: &mut Vec<u8>, start: usize, random: &Random) {
    let size = bytes.len() - start;
    if size < 4 {
        return;
    }
    match random.below(3) {
        0 => bytes.truncate(start + 1 + random.below(size - 1)),
        1 => bytes[start] = random.between(0, 10) as u8,
        _ => bytes[start + 2] = random.between(0, KINDS + 2) as u8,
    }
}

/// A begin and records of any kinds with small fields.
pub fn random_records(draft: &mut Draft, random: &Random) {
    let (threads, locations) = (random.between(1, 3), random.between(1, 3));
    draft.begin(random.between(1, 2), threads, locations);
    for _ in 0..random.below(20) {
        any_record(draft, random);
    }
}
