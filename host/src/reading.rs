//! A line that was read.

use core::fmt;
use core::marker::PhantomData;
use core::str;

use crate::elements::{Elements, ElementsWith, Params, Unescape};
use crate::priority::{Facility, Severity};
use crate::record::{Protocol, Record, APP_NAME, HOST, MESSAGE_ID, PROCESS_ID, TIMESTAMP_TEXT};
use crate::refusal::Refusal;
use crate::sys::{self, ElementEntry, Lent, ParamEntry, Written};
use crate::timestamp::Timestamp;
use crate::MAX_PRINTED;

/// Marks a [`Reading`] by the loose rules.
#[derive(Clone, Copy, Debug)]
pub enum Loose {}

/// Marks a [`Reading`] by the strict grammar.
#[derive(Clone, Copy, Debug)]
pub enum Strict {}

/// A line that was read: the line, and what the reader left of it in the [`Tables`](crate::Tables).
///
/// It borrows both, so neither can change while it lives. Fields are parts of the line, as long-lived as the line. A field may be
/// absent (`None`) or empty, and the two differ. Each text is had as bytes and, with `_str` behind the name, as a `str`: all that a
/// loose reading holds is UTF-8, and all that a strict one holds but its message. Nothing is checked for that again.
///
/// `Display` writes what [`print`](Reading::print) writes. Where a strict reading's message is not UTF-8, what is none of it is
/// shown as U+FFFD.
///
/// The kind says by which rules it was read. Only a strict reading tells the timestamp's text, and whether there was a message
/// at all; asking a loose one does not compile:
///
/// ```
/// # let mut tables = khamdoriem::Tables::new(0, 0);
/// let reading = tables.read_strict(b"<13>1 - gate7 reader 42 TAP -")?;
/// assert_eq!(reading.timestamp_text(), None);
/// # Ok::<(), khamdoriem::Refusal>(())
/// ```
///
/// ```compile_fail,E0599
/// # let mut tables = khamdoriem::Tables::new(0, 0);
/// let reading = tables.read_strict(b"<13>1 - gate7 reader 42 TAP -")?;
/// assert_eq!(reading.into_loose()?.timestamp_text(), None);
/// # Ok::<(), khamdoriem::Refusal>(())
/// ```
pub struct Reading<'line, 'tables, Kind = Loose> {
    line: &'line [u8],
    record: &'tables Record,
    elements: &'tables [ElementEntry],
    params: &'tables [ParamEntry],
    kind: PhantomData<Kind>,
}

// By hand, because a derived one would ask the same of the mark.
impl<Kind> Clone for Reading<'_, '_, Kind> {
    fn clone(&self) -> Self {
        *self
    }
}

impl<Kind> Copy for Reading<'_, '_, Kind> {}

impl<'line, 'tables, Kind> Reading<'line, 'tables, Kind> {
    pub(crate) fn new(
        line: &'line [u8],
        record: &'tables Record,
        elements: &'tables [ElementEntry],
        params: &'tables [ParamEntry],
    ) -> Self {
        Reading { line, record, elements, params, kind: PhantomData }
    }

    /// The line that was read, whole.
    pub fn line(&self) -> &'line [u8] {
        self.line
    }

    /// The protocol, with its version where it has one.
    pub fn protocol(&self) -> Protocol {
        self.record.protocol()
    }

    /// The facility.
    pub fn facility(&self) -> Option<Facility> {
        self.record.facility()
    }

    /// The severity.
    pub fn severity(&self) -> Option<Severity> {
        self.record.severity()
    }

    /// The timestamp.
    pub fn timestamp(&self) -> Option<Timestamp> {
        self.record.timestamp()
    }

    /// The host.
    pub fn host(&self) -> Option<&'line [u8]> {
        self.record.field(HOST, self.line)
    }

    /// The app name; in RFC 3164, the tag or what stands of it before `[`.
    pub fn app_name(&self) -> Option<&'line [u8]> {
        self.record.field(APP_NAME, self.line)
    }

    /// The process id, as the line writes it.
    pub fn process_id(&self) -> Option<&'line [u8]> {
        self.record.field(PROCESS_ID, self.line)
    }

    /// The message id, which only RFC 5424 has.
    pub fn message_id(&self) -> Option<&'line [u8]> {
        self.record.field(MESSAGE_ID, self.line)
    }

    /// The elements of the structured data, in the order of the line. Going through them and their parameters takes
    /// time in proportion to both counts.
    pub fn elements(&self) -> Elements<'line, 'tables> {
        Elements::new(self.line, self.elements, self.params)
    }

    /// The elements with this id, in the order of the line. A strict reading has at most one, a loose one any number:
    ///
    /// ```
    /// use khamdoriem::{Offset, Settings, Tables, Variant, Year};
    ///
    /// # let settings = Settings::new(Variant::Either, Year::new(2026).unwrap(), Offset::UTC);
    /// # let mut tables = Tables::new(4, 16);
    /// let line = br#"<13>1 - gate8 reader 43 TAP [stage@32473 ms="30"][card@32473 ms="9"][stage@32473 ms="4"] open"#;
    /// let reading = tables.read_loose(line, settings)?.exact()?;
    /// let stages = reading.elements_with("stage@32473");
    /// let ms: Vec<&str> = stages.filter_map(|stage| stage.get("ms")).map(|ms| ms.value_str()).collect();
    /// assert_eq!(ms, ["30", "4"]);
    /// # Ok::<(), khamdoriem::Refusal>(())
    /// ```
    pub fn elements_with<'id>(&self, id: &'id (impl AsRef<[u8]> + ?Sized)) -> ElementsWith<'line, 'tables, 'id> {
        ElementsWith::new(self.elements(), id.as_ref())
    }

    /// The parameters of all elements, in the order of the line.
    pub fn params(&self) -> Params<'line, 'tables> {
        Params::new(self.line, self.elements, self.params)
    }

    /// Writes the record as text at the front of `output` and answers the part that was written. The bytes past it are kept.
    ///
    /// An absent facility counts as 5 and an absent severity as 7; the timestamp has the digits of its fraction as they stand in the
    /// line, and its offset as sign, hours and minutes. [`MAX_PRINTED`] bytes are always enough.
    ///
    /// # Errors
    ///
    /// [`OutputTooShort`](Refusal::OutputTooShort); the output is then as it was.
    ///
    /// ```
    /// # let mut tables = khamdoriem::Tables::new(4, 16);
    /// let reading = tables.read_strict(b"<13>1 2026-01-05T10:01:02.003Z gate7 reader 42 TAP - ok")?;
    /// let mut output = [0; 256];
    /// let text = reading.print(&mut output)?;
    /// assert_eq!(text, b"<13>1 2026-01-05T10:01:02.003+00:00 gate7 reader 42 TAP - ok");
    /// # Ok::<(), khamdoriem::Refusal>(())
    /// ```
    pub fn print<'output>(&self, output: &'output mut [u8]) -> Result<&'output [u8], Refusal> {
        let written = sys::print(self.lent(), output);
        result(written, output)
    }

    /// Writes the value of the first parameter with this element id and name, unescaped, at the front of `output` and answers
    /// the part that was written. The bytes past it are kept. It is never longer than the value in the line, so
    /// [`MAX_LINE`](crate::MAX_LINE) bytes are always enough.
    ///
    /// A later element of the same id is reached through [`elements_with`](Reading::elements_with).
    ///
    /// # Errors
    ///
    /// [`NoSuchParam`](Refusal::NoSuchParam), [`OutputTooShort`](Refusal::OutputTooShort); the output is then as it was.
    ///
    /// ```
    /// use khamdoriem::Unescape;
    ///
    /// # let mut tables = khamdoriem::Tables::new(4, 16);
    /// let reading = tables.read_strict(br#"<13>1 - gate7 reader 42 TAP [stage@32473 name="denylist" ms="212"] ok"#)?;
    /// let mut output = [0; 64];
    /// assert_eq!(reading.lookup("stage@32473", "ms", Unescape::Strict, &mut output)?, b"212");
    /// # Ok::<(), khamdoriem::Refusal>(())
    /// ```
    pub fn lookup<'output>(
        &self,
        id: &(impl AsRef<[u8]> + ?Sized),
        name: &(impl AsRef<[u8]> + ?Sized),
        unescape: Unescape,
        output: &'output mut [u8],
    ) -> Result<&'output [u8], Refusal> {
        let written = sys::lookup(self.lent(), id.as_ref(), name.as_ref(), unescape.number(), output);
        result(written, output)
    }

    fn lent(&self) -> Lent<'_> {
        Lent { line: self.line, record: self.record.bytes(), elements: self.elements, params: self.params }
    }
}

impl<'line> Reading<'line, '_, Loose> {
    /// The message, which may be empty.
    pub fn message(&self) -> &'line [u8] {
        self.record.message(self.line)
    }
}

impl<'line, 'tables> Reading<'line, 'tables, Strict> {
    /// The record, and the entries counted.
    pub(crate) fn parts(&self) -> (&'tables Record, &'tables [ElementEntry], &'tables [ParamEntry]) {
        (self.record, self.elements, self.params)
    }

    /// The message. A line may end without one, and one may be empty.
    pub fn message(&self) -> Option<&'line [u8]> {
        self.record.has_message().then(|| self.record.message(self.line))
    }

    /// The text of the timestamp, as the line writes it.
    pub fn timestamp_text(&self) -> Option<&'line [u8]> {
        self.record.field(TIMESTAMP_TEXT, self.line)
    }

    /// The same reading for code that takes those of the loose reader: a message that is absent is then empty.
    ///
    /// # Errors
    ///
    /// [`NotUtf8`](Refusal::NotUtf8), as of the loose reader, where the message is not UTF-8 and so the line is not.
    pub fn into_loose(self) -> Result<Reading<'line, 'tables, Loose>, Refusal> {
        // All else that a strict reading holds is UTF-8 by the grammar, so that this makes true what `texts` says of a loose one.
        match str::from_utf8(self.record.message(self.line)) {
            Ok(_) => Ok(Reading::new(self.line, self.record, self.elements, self.params)),
            Err(_) => Err(Refusal::NotUtf8),
        }
    }
}

/// The part of the output that was written, or the refusal.
pub(crate) fn result(written: Written, output: &mut [u8]) -> Result<&[u8], Refusal> {
    Refusal::check(written.number)?;
    Ok(&output[..written.len])
}

/// Bytes that are shown as text, with what is not ASCII escaped.
pub(crate) struct Shown<'a>(pub(crate) &'a [u8]);

impl fmt::Debug for Shown<'_> {
    fn fmt(&self, f: &mut fmt::Formatter<'_>) -> fmt::Result {
        write!(f, "\"{}\"", self.0.escape_ascii())
    }
}

impl<Kind> fmt::Display for Reading<'_, '_, Kind> {
    /// Writes the record as text, as [`print`](Reading::print) does, with what is not UTF-8 as U+FFFD. It takes [`MAX_PRINTED`]
    /// bytes of stack.
    fn fmt(&self, f: &mut fmt::Formatter<'_>) -> fmt::Result {
        let mut output = [0; MAX_PRINTED];
        let mut left = self.print(&mut output).map_err(|_| fmt::Error)?;
        while let Err(error) = str::from_utf8(left) {
            let (text, rest) = left.split_at(error.valid_up_to());
            f.write_str(str::from_utf8(text).map_err(|_| fmt::Error)?)?;
            f.write_str("\u{fffd}")?;
            left = &rest[error.error_len().unwrap_or(rest.len())..];
        }
        f.write_str(str::from_utf8(left).map_err(|_| fmt::Error)?)
    }
}

impl<Kind> fmt::Debug for Reading<'_, '_, Kind> {
    fn fmt(&self, f: &mut fmt::Formatter<'_>) -> fmt::Result {
        f.debug_struct("Reading")
            .field("protocol", &self.protocol())
            .field("facility", &self.facility())
            .field("severity", &self.severity())
            .field("timestamp", &self.timestamp())
            .field("host", &self.host().map(Shown))
            .field("app_name", &self.app_name().map(Shown))
            .field("process_id", &self.process_id().map(Shown))
            .field("message_id", &self.message_id().map(Shown))
            .field("elements", &self.elements())
            .field("message", &Shown(self.record.message(self.line)))
            .finish()
    }
}
