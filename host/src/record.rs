//! The record's memory, word by word, as docs/INTERFACE.md lays it out.

use core::fmt;

use crate::priority::{Facility, Severity};
use crate::settings::Offset;
use crate::timestamp::Timestamp;

/// Bytes of a strict record, which is the longest.
const BYTES: usize = 248;
/// Words of it.
pub(crate) const WORDS: usize = BYTES / 8;
/// Bytes of a loose record. Those of a strict one begin with them.
const LOOSE_BYTES: usize = 216;

pub(crate) const PROTOCOL: usize = 0;
pub(crate) const VERSION: usize = 8;
pub(crate) const FACILITY: usize = 16;
pub(crate) const SEVERITY: usize = 32;
pub(crate) const TIMESTAMP: usize = 48;
const SECONDS: usize = 56;
const NANOSECONDS: usize = 64;
const DIGITS: usize = 72;
const OFFSET: usize = 80;
pub(crate) const HOST: usize = 88;
pub(crate) const APP_NAME: usize = 112;
pub(crate) const PROCESS_ID: usize = 136;
pub(crate) const MESSAGE_ID: usize = 160;
pub(crate) const MESSAGE: usize = 184;
pub(crate) const ELEMENTS: usize = 200;
pub(crate) const PARAMS: usize = 208;
pub(crate) const TIMESTAMP_TEXT: usize = 216;
pub(crate) const HAS_MESSAGE: usize = 240;

/// The protocol of a line.
#[derive(Clone, Copy, Debug, PartialEq, Eq, Hash)]
pub enum Protocol {
    /// RFC 3164, which has no version.
    Rfc3164,
    /// RFC 5424.
    Rfc5424 {
        /// The version that the line names.
        version: u32,
    },
}

impl fmt::Display for Protocol {
    /// Writes `RFC 3164`, or `RFC 5424 version 1`.
    fn fmt(&self, f: &mut fmt::Formatter<'_>) -> fmt::Result {
        match self {
            Protocol::Rfc3164 => f.pad("RFC 3164"),
            Protocol::Rfc5424 { version } => write!(f, "RFC 5424 version {version}"),
        }
    }
}

/// The memory of a record: what the last reader that was not refused left there.
#[derive(Clone)]
pub(crate) struct Record([u8; BYTES]);

impl Record {
    /// The empty record.
    pub(crate) const EMPTY: Record = Record([0; BYTES]);

    /// The empty record but for its counts: one element, one parameter.
    pub(crate) const ONE_PARAM: Record = {
        let mut bytes = [0; BYTES];
        bytes[ELEMENTS] = 1;
        bytes[PARAMS] = 1;
        Record(bytes)
    };

    /// All of the memory, for a reader to write.
    pub(crate) fn memory(&mut self) -> &mut [u8] {
        &mut self.0
    }

    /// What printing and lookup read.
    pub(crate) fn bytes(&self) -> &[u8] {
        &self.0[..LOOSE_BYTES]
    }

    /// What the check of a claim reads.
    pub(crate) fn strict_bytes(&self) -> &[u8] {
        &self.0
    }

    pub(crate) fn word(&self, at: usize) -> u64 {
        let mut word = [0; 8];
        word.copy_from_slice(&self.0[at..at + 8]);
        u64::from_le_bytes(word)
    }

    // Every number that a reader leaves has a value of the narrower type below, so no cast loses a bit.

    fn count(&self, at: usize) -> usize {
        self.word(at) as usize
    }

    fn marked(&self, at: usize) -> bool {
        self.word(at) == 1
    }

    pub(crate) fn protocol(&self) -> Protocol {
        match self.word(PROTOCOL) {
            0 => Protocol::Rfc3164,
            _ => Protocol::Rfc5424 { version: self.word(VERSION) as u32 },
        }
    }

    fn level<Level>(&self, at: usize, from_number: fn(u8) -> Option<Level>) -> Option<Level> {
        self.marked(at).then(|| from_number(self.word(at + 8) as u8).expect("a reader leaves a level in range"))
    }

    pub(crate) fn facility(&self) -> Option<Facility> {
        self.level(FACILITY, Facility::from_number)
    }

    pub(crate) fn severity(&self) -> Option<Severity> {
        self.level(SEVERITY, Severity::from_number)
    }

    pub(crate) fn timestamp(&self) -> Option<Timestamp> {
        if !self.marked(TIMESTAMP) {
            return None;
        }
        Some(Timestamp {
            seconds: self.word(SECONDS) as i64,
            nanoseconds: self.word(NANOSECONDS) as u32,
            offset: Offset::from_minutes(self.word(OFFSET) as i32).expect("a reader leaves an offset in range"),
            digits: self.word(DIGITS) as u8,
        })
    }

    /// The field at a mark, a start and a length.
    pub(crate) fn field<'line>(&self, at: usize, line: &'line [u8]) -> Option<&'line [u8]> {
        self.marked(at).then(|| part(line, [self.count(at + 8), self.count(at + 16)]))
    }

    pub(crate) fn message<'line>(&self, line: &'line [u8]) -> &'line [u8] {
        part(line, [self.count(MESSAGE), self.count(MESSAGE + 8)])
    }

    pub(crate) fn has_message(&self) -> bool {
        self.marked(HAS_MESSAGE)
    }

    pub(crate) fn elements(&self) -> usize {
        self.count(ELEMENTS)
    }

    pub(crate) fn params(&self) -> usize {
        self.count(PARAMS)
    }
}

/// The part of the line at a place. It is in the line wherever a reader left the place, and is checked all the same.
pub(crate) fn part(line: &[u8], [start, len]: [usize; 2]) -> &[u8] {
    &line[start..][..len]
}
