//! A judge of store order across crashes, for Rust.
//!
//! The calls at the root of this crate go to the proved library `libcabi.a` ([`ffi`] holds its C interface as it is):
//!
//! ```
//! use gorbuzte::{judge, write, Event, Verdict};
//!
//! let mut trace = Vec::new();
//! for event in [
//!     Event::Begin { version: 1, threads: 1, locations: 2 },
//!     Event::Issue { thread: 0, location: 0 },
//!     Event::Commit { thread: 0 },
//!     Event::Crash,
//!     Event::Load { thread: 0, location: 0, source: 1 },
//! ] {
//!     let mut record = [0; gorbuzte::LARGEST_RECORD];
//!     let size = write(&event, &mut record).unwrap();
//!     trace.extend_from_slice(&record[..size]);
//! }
//! let Ok(Verdict::Robust { events: 4, share: 100, cut }) = judge(&trace) else { panic!("not robust") };
//! assert_eq!(cut[0], 1);
//! ```
//!
//! The file of a recorder that never started is empty. For judging, no bytes are a trace with no events; other calls
//! turn them away:
//!
//! ```
//! use gorbuzte::{frame, judge, order, read_at, Refusal, Verdict, CUT};
//!
//! assert_eq!(judge(&[]), Ok(Verdict::Robust { events: 0, share: 100, cut: [0; CUT] }));
//! assert_eq!(order(&[], 0, 0), Err(Refusal { number: 1, event: 0 }));
//! assert_eq!(read_at(&[], 0), Err(Refusal { number: 1, event: 0 }));
//! assert_eq!(frame(&[], 0), None);
//! ```
//!
//! Two more judges answer the same question in plain Rust: [`reference`](mod@reference) states the rules one by one and
//! is slow, [`fast`] is written for speed. [`comparison`] runs all three over the traces that [`generator`] makes.

#![deny(unsafe_code)]
#![warn(missing_docs)]

pub mod comparison;
pub mod fast;
#[allow(unsafe_code)]
pub mod ffi;
pub mod generator;
pub mod reference;
mod types;
mod wrapper;

pub use types::{Event, Kind, Order, Refusal, Verdict, Window, Windows};
pub use types::{CUT, LARGEST_RECORD, REFUSALS, THREADS, WORK};
pub use wrapper::{frame, judge, judge_with, order, order_with, read_at, write, Judge};
