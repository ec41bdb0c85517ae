//! A notation for sessions, the lines that the program `verdict` prints for an answer, what it says of windows, and
//! lists of sessions that are given to every way of judging.
//!
//! Words are separated by blanks: B1.2.2 begin (version, threads, locations), I0.1 issue (thread, location), C0
//! commit, L0.1<3 load from 3, F0.1 clflush, O0.1 clflushopt or clwb, SF0 sfence, MF0 mfence, X crash, SKIP0 skip on,
//! UNSKIP0 skip off, R0.1<3 locked operation that loads from 3, S0 signal, W1<3 wait for signal 3, O0 open, which has a
//! thread alone, K0.1 close (thread, outcome), x0800 bytes in hexadecimal, 8*X a word eight times.

#![allow(dead_code)]

use gorbuzte::fast::Fast;
use gorbuzte::{reference, Event, Judge, Kind, Order, Refusal, Verdict};

/// Why, a session, and what is expected of it.
pub type Row = (&'static str, &'static str, &'static str);

/// A session, two event numbers, and how their stores stand.
pub type OrderRow = (&'static str, u16, u16, Result<Order, Refusal>);

/// Sessions with the answers that follow from the documents.
pub struct Expected {
    /// The lines of `verdict`, joined by ' / '.
    pub verdicts: &'static [&'static [Row]],
    /// What the answer says of windows.
    pub windows: &'static [Row],
    pub orders: &'static [OrderRow],
}

impl Expected {
    /// Gives all sessions to the library.
    pub fn check_library(&self) {
        let mut judge = Judge::new();
        self.check("library", |trace| judge.judge(trace));
        self.check_orders("library", |trace, first, second| judge.order(trace, first, second));
    }

    /// Gives all sessions to the judges in Rust.
    pub fn check_others(&self) {
        let mut fast = Fast::new();
        self.check("fast judge", |trace| fast.judge(trace));
        self.check("reference", reference::judge);
        self.check("by all choices", |trace| reference::judge_by_all_choices(trace, 100_000).unwrap());
        self.check_orders("reference", reference::order);
    }

    fn check(&self, name: &str, mut judging: impl FnMut(&[u8]) -> Result<Verdict, Refusal>) {
        for (why, text, expected) in self.verdicts.iter().copied().flatten() {
            let trace = session(text);
            assert_eq!(lines(&trace, &judging(&trace)), *expected, "{name}, {why}");
        }
        for (why, text, expected) in self.windows {
            assert_eq!(windows(&judging(&session(text))), *expected, "{name}, {why}");
        }
    }

    fn check_orders(&self, name: &str, mut ordering: impl FnMut(&[u8], u16, u16) -> Result<Order, Refusal>) {
        for &(text, first, second, expected) in self.orders {
            assert_eq!(ordering(&session(text), first, second), expected, "{name}, {text}");
        }
    }
}

/// The bytes of a session.
pub fn session(text: &str) -> Vec<u8> {
    let mut bytes = Vec::new();
    for word in text.split_whitespace() {
        let (times, word) = match word.split_once('*') {
            Some((times, word)) => (times.parse().unwrap(), word),
            None => (1, word),
        };
        let record = record(word);
        (0..times).for_each(|_| bytes.extend_from_slice(&record));
    }
    bytes
}

/// The bytes of one word.
fn record(word: &str) -> Vec<u8> {
    if let Some(digits) = word.strip_prefix('x') {
        return (0..digits.len()).step_by(2).map(|at| u8::from_str_radix(&digits[at..at + 2], 16).unwrap()).collect();
    }
    let mut output = [0; gorbuzte::LARGEST_RECORD];
    let size = reference::write(&event(word), &mut output).unwrap();
    output[..size].to_vec()
}

/// The event of one word.
fn event(word: &str) -> Event {
    let split = word.find(|letter: char| letter.is_ascii_digit()).unwrap_or(word.len());
    let (letters, numbers) = word.split_at(split);
    let fields: Vec<u16> = numbers.split(['.', '<']).filter_map(|number| number.parse().ok()).collect();
    match (letters, fields.as_slice()) {
        ("B", &[version, threads, locations]) => Event::Begin { version, threads, locations },
        ("I", &[thread, location]) => Event::Issue { thread, location },
        ("C", &[thread]) => Event::Commit { thread },
        ("L", &[thread, location, source]) => Event::Load { thread, location, source },
        ("F", &[thread, location]) => Event::Clflush { thread, location },
        ("O", &[thread, location]) => Event::Clwb { thread, location },
        ("SF", &[thread]) => Event::Sfence { thread },
        ("MF", &[thread]) => Event::Mfence { thread },
        ("X", &[]) => Event::Crash,
        ("SKIP", &[thread]) => Event::SkipOn { thread },
        ("UNSKIP", &[thread]) => Event::SkipOff { thread },
        ("R", &[thread, location, source]) => Event::Locked { thread, location, source },
        ("S", &[thread]) => Event::Signal { thread },
        ("W", &[thread, source]) => Event::Wait { thread, source },
        ("O", &[thread]) => Event::Open { thread },
        ("K", &[thread, outcome]) => Event::Close { thread, outcome },
        _ => panic!("no such word: {word}"),
    }
}

/// The lines that the program `verdict` prints, joined by ' / '.
pub fn lines(trace: &[u8], answer: &Result<Verdict, Refusal>) -> String {
    match answer {
        Err(Refusal { number, event }) => format!("refused {number} {event}"),
        Ok(Verdict::Robust { events, share, cut }) => {
            let (threads, finished) = shape(trace);
            let counts = |stretch: usize| cut[8 * stretch..][..threads].iter().map(|count| format!(" {count}"));
            let row = |stretch: usize| format!(" / cut {}{}", stretch + 1, counts(stretch).collect::<String>());
            let rows: String = (0..finished).map(row).collect();
            format!("events {events} / verdict robust{rows} / share {share}")
        }
        Ok(Verdict::Broken { events, load, missing, observed, kind }) => {
            let kind = match kind {
                Kind::Contradiction => "contradiction",
                Kind::Flush(_) => "flush",
                Kind::Impossible => "impossible",
            };
            let evidence = format!("load {load} / missing {missing} / observed {observed} / kind {kind}");
            format!("events {events} / verdict broken / {evidence}")
        }
    }
}

/// What an answer says of windows.
pub fn windows(answer: &Result<Verdict, Refusal>) -> String {
    let &Ok(Verdict::Broken { missing, observed, kind: Kind::Flush(windows), .. }) = answer else {
        return "none".to_string();
    };
    let mut text = format!("{missing} before {observed}, primary {}", windows.primary);
    for (thread, window) in windows.threads.iter().enumerate() {
        if let Some(window) = window {
            text += &format!(", thread {thread}: {} to {}", window.first, window.last);
        }
    }
    text
}

/// The numbers of threads and of crashes of an accepted trace.
fn shape(trace: &[u8]) -> (usize, usize) {
    let (mut at, mut threads, mut crashes) = (0, 0, 0);
    while let Ok((event, next)) = reference::read_at(trace, at) {
        match event {
            Event::Begin { threads: number, .. } => threads = number.into(),
            Event::Crash => crashes += 1,
            _ => {}
        }
        at = next;
    }
    (threads, crashes)
}
