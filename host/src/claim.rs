//! Whether a reading that somebody else made is the line's.

use core::fmt;

use crate::priority::{Facility, Severity};
use crate::reading::{Reading, Strict};
use crate::record::{self, Record};
use crate::refusal::Refusal;
use crate::sys::{self, ElementEntry, Lent, ParamEntry};

/// A strict reading as somebody claims it: a record, counts and tables, of any numbers. [`check_claim`] says whether it is the line's.
///
/// A vendor's numbers are put into it one by one. What is not put is absent: no timestamp, no texts, no message, counts of 0. Nothing
/// is looked at before the check.
///
/// ```
/// use khamdoriem::{check_claim, Claim, ClaimedText, ElementEntry, Facility, ParamEntry, Refusal, Severity};
///
/// let line = br#"<34>1 2023-02-05T10:01:02.5Z gate7 - - TAP [t@32473 ms="212"] ok"#;
/// let elements = [ElementEntry::new(44, 7)]; // t@32473
/// let params = [ParamEntry::new(0, (52, 2), (56, 3))]; // ms and 212, of element 0
/// let mut claim = Claim::new(&elements, &params);
/// claim.priority(Facility::Auth, Severity::Crit);
/// claim.version(1);
/// claim.timestamp(1_675_591_262, 500_000_000, 1, 0, (6, 22));
/// claim.text(ClaimedText::Host, 29, 5);
/// claim.text(ClaimedText::MessageId, 39, 3);
/// claim.message(62, 2);
/// assert_eq!(check_claim(line, &claim), Ok(()));
///
/// claim.timestamp(1_675_587_662, 500_000_000, 1, 60, (6, 22)); // `Z` is no +01:00
/// assert_eq!(check_claim(line, &claim), Err(Refusal::WrongClaim));
/// ```
///
/// A claim of a strict reading is told yes, always:
///
/// ```
/// use khamdoriem::{check_claim, Claim, Tables};
///
/// let mut tables = Tables::new(4, 16);
/// let line = b"<13>1 - gate7 reader 42 TAP - ok";
/// let claim = Claim::of(&tables.read_strict(line)?);
/// check_claim(line, &claim)
/// # ?; Ok::<(), khamdoriem::Refusal>(())
/// ```
#[derive(Clone)]
pub struct Claim<'tables> {
    record: Record,
    elements: &'tables [ElementEntry],
    params: &'tables [ParamEntry],
}

/// A text of the header that a [`Claim`] may have.
#[derive(Clone, Copy, Debug, PartialEq, Eq, Hash)]
pub enum ClaimedText {
    /// The host.
    Host,
    /// The app name.
    AppName,
    /// The process id.
    ProcessId,
    /// The message id.
    MessageId,
}

impl<'tables> Claim<'tables> {
    /// Words of a strict record.
    pub const WORDS: usize = record::WORDS;

    /// A claim of protocol RFC 5424, version 0, with these entries, all of them counted, and nothing else set.
    pub fn new(elements: &'tables [ElementEntry], params: &'tables [ParamEntry]) -> Claim<'tables> {
        let mut claim = Claim { record: Record::EMPTY, elements, params };
        claim.put(record::PROTOCOL, &[1]);
        claim.counts(elements.len(), params.len());
        claim
    }

    /// A claim of the words of a strict record, as docs/INTERFACE.md lays them out, counts and marks among them; any words may be given.
    /// Entries past the counts are of no account.
    pub fn from_words(
        words: &[u64; Claim::WORDS],
        elements: &'tables [ElementEntry],
        params: &'tables [ParamEntry],
    ) -> Claim<'tables> {
        let mut claim = Claim { record: Record::EMPTY, elements, params };
        claim.put(0, words);
        claim
    }

    /// What the strict reader left of a line.
    pub fn of(reading: &Reading<'_, 'tables, Strict>) -> Claim<'tables> {
        let (record, elements, params) = reading.parts();
        Claim { record: record.clone(), elements, params }
    }

    /// The words of the record, as [`from_words`](Claim::from_words) takes them.
    pub fn words(&self) -> [u64; Claim::WORDS] {
        core::array::from_fn(|at| self.record.word(8 * at))
    }

    /// How many entries of each table are claimed, in place of all.
    pub fn counts(&mut self, elements: usize, params: usize) -> &mut Self {
        self.put(record::ELEMENTS, &[elements as u64]);
        self.put(record::PARAMS, &[params as u64])
    }

    /// Facility and severity.
    pub fn priority(&mut self, facility: Facility, severity: Severity) -> &mut Self {
        self.put(record::FACILITY, &[1, facility.number().into()]);
        self.put(record::SEVERITY, &[1, severity.number().into()])
    }

    /// The version.
    pub fn version(&mut self, version: u32) -> &mut Self {
        self.put(record::VERSION, &[version.into()])
    }

    /// The timestamp: seconds since 1970-01-01T00:00:00Z, nanoseconds past the second, the digits of its fraction, the offset in minutes,
    /// and start and length of its text in the line.
    pub fn timestamp(
        &mut self,
        seconds: i64,
        nanoseconds: u32,
        digits: u32,
        offset: i32,
        (start, len): (usize, usize),
    ) -> &mut Self {
        self.put(record::TIMESTAMP, &[1, seconds as u64, nanoseconds.into(), digits.into(), i64::from(offset) as u64]);
        self.put(record::TIMESTAMP_TEXT, &[1, start as u64, len as u64])
    }

    /// The place of a text in the line.
    pub fn text(&mut self, text: ClaimedText, start: usize, len: usize) -> &mut Self {
        let at = match text {
            ClaimedText::Host => record::HOST,
            ClaimedText::AppName => record::APP_NAME,
            ClaimedText::ProcessId => record::PROCESS_ID,
            ClaimedText::MessageId => record::MESSAGE_ID,
        };
        self.put(at, &[1, start as u64, len as u64])
    }

    /// The place of the message in the line. An empty message that is there is not an absent one.
    pub fn message(&mut self, start: usize, len: usize) -> &mut Self {
        self.put(record::MESSAGE, &[start as u64, len as u64]);
        self.put(record::HAS_MESSAGE, &[1])
    }

    /// Words, from a byte of the record on.
    fn put(&mut self, at: usize, words: &[u64]) -> &mut Self {
        for (bytes, word) in self.record.memory()[at..].chunks_exact_mut(8).zip(words) {
            bytes.copy_from_slice(&word.to_le_bytes());
        }
        self
    }
}

impl fmt::Debug for Claim<'_> {
    fn fmt(&self, f: &mut fmt::Formatter<'_>) -> fmt::Result {
        f.debug_struct("Claim")
            .field("words", &self.words())
            .field("elements", &self.elements)
            .field("params", &self.params)
            .finish()
    }
}

/// Says whether a claim is the line's reading by the grammar of RFC 5424, whoever made it: record, counts, and the entries counted. Who
/// follows the grammar is told yes, and there is one such claim for a line, which is proved. The line is not read afresh: what is claimed
/// is held against the bytes where it is claimed to stand.
///
/// # Errors
///
/// [`LineTooLong`](Refusal::LineTooLong); then [`Unsuitable`](Refusal::Unsuitable), where a number of the claim cannot be of this line;
/// then [`WrongClaim`](Refusal::WrongClaim), where the claim is not the line's.
///
/// # Panics
///
/// If the archive that is linked has another interface than this crate.
pub fn check_claim(line: &[u8], claim: &Claim<'_>) -> Result<(), Refusal> {
    sys::check_interface();
    let (elements, params) = (claim.elements, claim.params);
    Refusal::check_claim(sys::check_claim(Lent { line, record: claim.record.strict_bytes(), elements, params }))
}
