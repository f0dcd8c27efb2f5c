//! Safe functions over the archive of Khamdoriem, a proved reader of syslog lines.
//!
//! Whatever bytes come in, a call ends with its answer or with a [`Refusal`], and a refused call has changed nothing (but for a
//! [`Splitter`], which moves on with the two refusals of a stream). There are two
//! readers: [`Tables::read_loose`] takes RFC 3164 and RFC 5424 by the loose rules of the Rust crate syslog_loose, and says where a
//! line has no reading and is the message whole ([`LooseAnswer`]); [`Tables::read_strict`] takes what the grammar of RFC 5424
//! derives and nothing else. Both give a [`Reading`]: fields are parts of the line, and elements and parameters are gone through in
//! the order of the line.
//!
//! ```
//! use khamdoriem::{Offset, Settings, Tables, Variant, Year};
//!
//! let settings = Settings::new(Variant::Either, Year::new(2026).unwrap(), Offset::UTC);
//! let mut tables = Tables::new(64, 256); // once, for all lines
//! let line = br#"<13>1 - gate8 reader 43 TAP [stage@32473 name="radio" ms="30"][stage@32473 name="paddle" ms="47"] open"#;
//!
//! let reading = tables.read_loose(line, settings)?.exact()?; // refusal 4 where the line has no reading
//! assert_eq!(reading.host_str(), Some("gate8"));
//! for stage in reading.elements_with("stage@32473") {
//!     println!("{:?} took {:?} ms", stage.get("name"), stage.get("ms").map(|ms| ms.value_str()));
//! }
//! # Ok::<(), khamdoriem::Refusal>(())
//! ```
//!
//! What a wrong caller could get wrong does not compile, or cannot be made: settings hold no value out of range, a reading cannot
//! be taken apart from its line and its tables, and a table's entry cannot be read past the counts. So the archive's refusal 2
//! cannot arise, and 7 for a [`Claim`] alone (see [`Refusal`]).
//!
//! A stream that comes over TCP is cut into frames, each to be read as a line, by a [`Splitter`], which is fed whatever came; with the
//! feature `std`, [`Frames`] goes through those of a reader.
//!
//! A [`Tally`] counts readings by facility and severity, and writes itself as a table for a person.
//!
//! A [`SettingsFile`] has the year, offset, variant and default host of each gate of a site, and [`Tables::read_with`] reads a line as
//! the record of its gate says.
//!
//! [`check_claim`] says whether a record and tables that somebody else made, a [`Claim`], are the line's strict reading.
//!
//! A [`Line`] is made of its fields and written so that the strict reader reads the same.
//!
//! A [`Comparer`] says in which fields two lines differ, and where their elements do.
//!
//! Texts are parts of the line, as bytes and, with `_str` behind the name, as `str`. No call allocates: tables own their memory
//! ([`Tables::new`], with the feature `std`, which is on by default) or are laid over what is lent ([`Tables::over`]).
//!
//! The archive is for x86-64. On Arm, `host/on-arm cargo run` builds a program for x86-64 and runs it under an emulator.

#![no_std]
#![deny(missing_docs)]
#![deny(unsafe_code, unsafe_op_in_unsafe_fn)]
#![warn(missing_debug_implementations, rust_2018_idioms, unreachable_pub)]

#[cfg(any(feature = "std", test))]
extern crate std;

mod answer;
mod claim;
mod compare;
mod elements;
#[cfg(feature = "std")]
mod frames;
mod line;
mod memory;
mod priority;
mod reading;
mod record;
mod refusal;
mod settings;
mod settings_file;
mod site_reading;
mod splitter;
#[allow(unsafe_code)]
mod sys;
mod tables;
mod tally;
#[allow(unsafe_code)]
mod texts;
mod timestamp;

pub use answer::{Answer, LooseAnswer, WholeLine};
pub use claim::{check_claim, Claim, ClaimedText};
#[cfg(feature = "std")]
pub use compare::compare;
pub use compare::{Comparer, Differences, ElementDifference, Field, Fields, Which};
pub use elements::{Element, Elements, ElementsWith, Param, Params, Unescape};
#[cfg(feature = "std")]
pub use frames::{FrameError, Frames};
pub use line::{Draft, InElement, Line, NoElement, Version};
pub use priority::{Facility, Priority, Severity};
pub use reading::{Loose, Reading, Strict};
pub use record::Protocol;
pub use refusal::Refusal;
pub use settings::{Offset, Settings, Variant, Year};
pub use settings_file::{Gate, GateSettings, SettingsFile, SettingsVersion};
pub use site_reading::SiteReading;
pub use splitter::{Event, Fed, Framing, Splitter};
pub use sys::{ElementEntry, ParamEntry};
pub use tables::Tables;
pub use tally::{Tally, TallyCell, TallyCells};
pub use timestamp::Timestamp;

// The examples of the README are tried with those of the documentation.
#[cfg(all(doctest, feature = "std"))]
#[doc = include_str!("../README.md")]
struct Readme;

/// The longest line that a reader takes and that is written, in bytes.
pub const MAX_LINE: usize = 8192;

/// No reading has more elements: each takes at least three bytes of the line, as `[a]`.
pub const MAX_ELEMENTS: usize = MAX_LINE / 3;

/// No reading has more parameters: each takes at least five bytes of the line, as ` a=""`.
pub const MAX_PARAMS: usize = MAX_LINE / 5;

/// No reading prints to more bytes. What is absent or short in the line, as the offset of a timestamp, takes at most 25 bytes more in
/// print, and a blank before an element's first parameter, which the loose rules do not ask for, one more for seven of the line.
pub const MAX_PRINTED: usize = MAX_LINE + (MAX_LINE + 164) / 7;
