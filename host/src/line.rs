//! A line of RFC 5424 that is written.

use core::fmt;
use core::marker::PhantomData;
use core::num::NonZeroU16;

use crate::memory::Memory;
use crate::priority::Priority;
use crate::reading::result;
use crate::refusal::Refusal;
use crate::sys::{self, ElementEntry, Fields, ParamEntry, Part};
use crate::timestamp::Timestamp;
use crate::MAX_LINE;

/// The version of a line's protocol: 1 to 999.
///
/// ```
/// use khamdoriem::Version;
///
/// assert_eq!(Version::new(2).map(Version::get), Some(2));
/// assert_eq!((Version::new(0), Version::new(1000)), (None, None));
/// assert_eq!(Version::default(), Version::ONE);
/// ```
#[derive(Clone, Copy, Debug, PartialEq, Eq, PartialOrd, Ord, Hash)]
pub struct Version(NonZeroU16);

impl Version {
    /// 1, that of RFC 5424.
    pub const ONE: Version = match Version::new(1) {
        Some(version) => version,
        None => panic!("1 is a version"),
    };

    /// The version, or `None` where it is 0 or above 999.
    pub const fn new(version: u16) -> Option<Version> {
        match NonZeroU16::new(version) {
            Some(version) if version.get() <= 999 => Some(Version(version)),
            _ => None,
        }
    }

    /// The version as a number.
    pub const fn get(self) -> u16 {
        self.0.get()
    }
}

impl Default for Version {
    /// 1.
    fn default() -> Version {
        Version::ONE
    }
}

/// The memory that the texts of a [`Line`] are collected in before it is written: for their bytes, for elements and for parameters.
///
/// Make it once and write every line with it, one for each thread: nothing is allocated after that, and nothing is cleared. Its memory
/// is its own (`new`, with the feature `std`) or lent (`over`).
pub struct Draft<'memory> {
    text: Memory<'memory, u8>,
    elements: Memory<'memory, ElementEntry>,
    params: Memory<'memory, ParamEntry>,
}

#[cfg(feature = "std")]
impl Draft<'static> {
    /// A draft for lines of at most so many elements and so many parameters. Either may be 0.
    ///
    /// # Panics
    ///
    /// As [`over`](Draft::over).
    pub fn new(elements: usize, params: usize) -> Draft<'static> {
        let text = std::vec![0; MAX_LINE].into_boxed_slice();
        let elements = std::vec![ElementEntry::EMPTY; elements].into_boxed_slice();
        let params = std::vec![ParamEntry::EMPTY; params].into_boxed_slice();
        Draft::of(Memory::Owned(text), Memory::Owned(elements), Memory::Owned(params))
    }
}

impl<'memory> Draft<'memory> {
    /// A draft over memory that is lent, for lines of at most as many elements and parameters as there are entries. Either may be
    /// empty. The text is as long as the longest line: what it does not hold, no line does.
    ///
    /// # Panics
    ///
    /// If the archive that is linked has another interface than this crate.
    pub fn over(
        text: &'memory mut [u8; MAX_LINE],
        elements: &'memory mut [ElementEntry],
        params: &'memory mut [ParamEntry],
    ) -> Draft<'memory> {
        Draft::of(Memory::Lent(text), Memory::Lent(elements), Memory::Lent(params))
    }

    fn of(
        text: Memory<'memory, u8>,
        elements: Memory<'memory, ElementEntry>,
        params: Memory<'memory, ParamEntry>,
    ) -> Draft<'memory> {
        sys::check_interface();
        Draft { text, elements, params }
    }

    /// How many elements a line may have.
    pub fn element_capacity(&self) -> usize {
        self.elements.len()
    }

    /// How many parameters a line may have.
    pub fn param_capacity(&self) -> usize {
        self.params.len()
    }
}

impl fmt::Debug for Draft<'_> {
    /// Says how much it holds: what it holds belongs to a line.
    fn fmt(&self, f: &mut fmt::Formatter<'_>) -> fmt::Result {
        f.debug_struct("Draft")
            .field("element_capacity", &self.element_capacity())
            .field("param_capacity", &self.param_capacity())
            .finish_non_exhaustive()
    }
}

/// Marks a [`Line`] that has no element yet.
#[derive(Clone, Copy, Debug)]
pub enum NoElement {}

/// Marks a [`Line`] that has an element, to which parameters may be added.
#[derive(Clone, Copy, Debug)]
pub enum InElement {}

/// A line of RFC 5424 that is being made, for [`write`](Line::write) to write as the strict reader takes it.
///
/// Texts are copied to the [`Draft`] as they come. A value is given raw, as it is meant: writing puts a backslash before `"`, `\` and
/// `]`. What is not given is absent, and written as `-`, or not at all if it is the message; an empty message is another thing.
///
/// ```
/// use khamdoriem::{Draft, Facility, Line, Offset, Severity, Tables, Timestamp, Unescape, MAX_LINE};
///
/// let mut draft = Draft::new(4, 16); // once, for all lines
/// let mut output = [0; MAX_LINE];
/// let stamp = Timestamp::new(1_767_607_262, 215_000_000, 3, Offset::UTC).unwrap();
///
/// let line = Line::new(&mut draft, (Facility::User, Severity::Notice))
///     .timestamp(stamp)
///     .host("gate7")
///     .app_name("reader")
///     .message_id("TAP")
///     .element("stage@32473")
///     .param("name", "deny\"list")
///     .param("ms", "212")
///     .message("ok")
///     .write(&mut output)?;
/// assert_eq!(line, br#"<13>1 2026-01-05T10:01:02.215+00:00 gate7 reader - TAP [stage@32473 name="deny\"list" ms="212"] ok"#);
///
/// // The strict reader reads what was given, which is proved of every line that is written.
/// let mut tables = Tables::new(4, 16);
/// let reading = tables.read_strict(line)?;
/// assert_eq!((reading.timestamp(), reading.host_str(), reading.process_id()), (Some(stamp), Some("gate7"), None));
/// let mut value = [0; 64];
/// assert_eq!(reading.lookup("stage@32473", "name", Unescape::Strict, &mut value)?, b"deny\"list");
/// # Ok::<(), khamdoriem::Refusal>(())
/// ```
///
/// A parameter is of the element before it; without one it does not compile:
///
/// ```compile_fail,E0599
/// use khamdoriem::{Draft, Facility, Line, Severity};
///
/// let mut draft = Draft::new(4, 16);
/// let line = Line::new(&mut draft, (Facility::User, Severity::Notice)).param("ms", "212");
/// ```
///
/// Priority, version and timestamp hold no value out of range, and places are kept here, so refusal 7 of the archive cannot arise.
/// What can be wrong is the texts, and a timestamp of over six digits: [`Refusal::Unwritable`].
#[must_use = "a line is written by `write`"]
pub struct Line<'draft, At = NoElement> {
    text: &'draft mut [u8],
    elements: &'draft mut [ElementEntry],
    params: &'draft mut [ParamEntry],
    /// How many bytes of the text are used.
    used: usize,
    fields: Fields,
    /// Why not all that was given could be kept: the first that was.
    unkept: Option<Refusal>,
    at: PhantomData<At>,
}

impl<'draft> Line<'draft> {
    /// A line with this priority, of version 1, and with nothing else in it. A priority is made of a facility and a severity.
    ///
    /// What the draft held is given up: it holds one line at a time.
    pub fn new(draft: &'draft mut Draft<'_>, priority: impl Into<Priority>) -> Line<'draft> {
        let mut fields = Fields::EMPTY;
        (fields.priority, fields.version) = (priority.into().number().into(), Version::ONE.get().into());
        Line {
            text: &mut draft.text,
            elements: &mut draft.elements,
            params: &mut draft.params,
            used: 0,
            fields,
            unkept: None,
            at: PhantomData,
        }
    }
}

impl<'draft> Line<'draft, InElement> {
    /// A parameter more of the last element, with a value of any UTF-8, as it is meant and without escapes. A name may come again.
    pub fn param(mut self, name: impl AsRef<[u8]>, value: impl AsRef<[u8]>) -> Line<'draft, InElement> {
        let (name, value) = (self.keep(name.as_ref()), self.keep(value.as_ref()));
        // There is an element, unless the draft could not hold it and nothing is written.
        let element = self.fields.element_count.saturating_sub(1);
        match self.params.get_mut(self.fields.param_count) {
            Some(entry) => {
                *entry = ParamEntry([element, name.start, name.len, value.start, value.len]);
                self.fields.param_count += 1;
            }
            None => self.give_up(Refusal::TooManyParams),
        }
        self
    }
}

impl<'draft, At> Line<'draft, At> {
    /// The version of the protocol, where it is not 1.
    pub fn version(mut self, version: Version) -> Self {
        self.fields.version = version.get().into();
        self
    }

    /// The timestamp. It is written with as many digits as it has, which may be six at most.
    pub fn timestamp(mut self, timestamp: Timestamp) -> Self {
        self.fields.stamped = 1;
        self.fields.seconds = timestamp.seconds();
        self.fields.nanos = timestamp.nanoseconds();
        self.fields.digits = timestamp.digits().into();
        self.fields.offset = timestamp.offset().minutes();
        self
    }

    /// The host: 1 to 255 bytes of 33 to 126, and not `-`, which stands for none.
    pub fn host(mut self, host: impl AsRef<[u8]>) -> Self {
        self.fields.host = self.keep(host.as_ref());
        self
    }

    /// The app name: 1 to 48 bytes of 33 to 126, and not `-`.
    pub fn app_name(mut self, app_name: impl AsRef<[u8]>) -> Self {
        self.fields.app = self.keep(app_name.as_ref());
        self
    }

    /// The process id: 1 to 128 bytes of 33 to 126, and not `-`.
    pub fn process_id(mut self, process_id: impl AsRef<[u8]>) -> Self {
        self.fields.procid = self.keep(process_id.as_ref());
        self
    }

    /// The message id: 1 to 32 bytes of 33 to 126, and not `-`.
    pub fn message_id(mut self, message_id: impl AsRef<[u8]>) -> Self {
        self.fields.msgid = self.keep(message_id.as_ref());
        self
    }

    /// The message: any bytes, none too. Behind EF BB BF, which says so, it is UTF-8.
    pub fn message(mut self, message: impl AsRef<[u8]>) -> Self {
        self.fields.message = self.keep(message.as_ref());
        self
    }

    /// An element more, without parameters. Ids and names are 1 to 32 bytes of 33 to 126 but `=`, `]` and `"`, and the ids of a line
    /// differ.
    pub fn element(mut self, id: impl AsRef<[u8]>) -> Line<'draft, InElement> {
        let id = self.keep(id.as_ref());
        match self.elements.get_mut(self.fields.element_count) {
            Some(entry) => {
                *entry = ElementEntry([id.start, id.len]);
                self.fields.element_count += 1;
            }
            None => self.give_up(Refusal::TooManyElements),
        }
        let Line { text, elements, params, used, fields, unkept, .. } = self;
        Line { text, elements, params, used, fields, unkept, at: PhantomData }
    }

    /// Writes the line at the front of `output` and answers the part that was written. The bytes past it are kept.
    /// [`MAX_LINE`] bytes are always enough.
    ///
    /// # Errors
    ///
    /// [`Unwritable`](Refusal::Unwritable), [`LineTooLong`](Refusal::LineTooLong), [`OutputTooShort`](Refusal::OutputTooShort): the
    /// first that applies; the output is then as it was. No other line is refused. But before these, where the draft could not hold
    /// all that was given: [`LineTooLong`](Refusal::LineTooLong) for texts of over [`MAX_LINE`] bytes together, those too that were
    /// given twice, [`TooManyElements`](Refusal::TooManyElements) or [`TooManyParams`](Refusal::TooManyParams), whichever came first.
    pub fn write<'output>(&self, output: &'output mut [u8]) -> Result<&'output [u8], Refusal> {
        if let Some(refusal) = self.unkept {
            return Err(refusal);
        }
        let written = sys::write_strict(&self.text[..self.used], self.fields, self.elements, self.params, output);
        result(written, output)
    }

    /// Copies a text to the draft, and answers its place.
    fn keep(&mut self, text: &[u8]) -> Part {
        let start = self.used;
        match self.text[start..].get_mut(..text.len()) {
            Some(place) => {
                place.copy_from_slice(text);
                self.used += text.len();
            }
            None => self.give_up(Refusal::LineTooLong),
        }
        Part { present: 1, start, len: text.len() }
    }

    fn give_up(&mut self, refusal: Refusal) {
        self.unkept.get_or_insert(refusal);
    }
}

impl<At> fmt::Debug for Line<'_, At> {
    /// Says how much the draft holds of it.
    fn fmt(&self, f: &mut fmt::Formatter<'_>) -> fmt::Result {
        f.debug_struct("Line")
            .field("bytes", &self.used)
            .field("elements", &self.fields.element_count)
            .field("params", &self.fields.param_count)
            .finish_non_exhaustive()
    }
}
