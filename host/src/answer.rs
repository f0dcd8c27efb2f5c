//! What is answered to a line that is not refused, where there is more than one answer.

use core::fmt;

use crate::reading::{Loose, Reading, Shown, Strict};
use crate::refusal::Refusal;

/// What [`Tables::read_loose`](crate::Tables::read_loose) makes of a line: its reading, or the whole line as the message where the
/// rules give it none.
///
/// The two are told apart by a match. [`exact`](LooseAnswer::exact) is for who has no use for a line without a reading, and
/// [`or_whole`](LooseAnswer::or_whole) for who takes both alike.
///
/// ```
/// use khamdoriem::{LooseAnswer, Offset, Settings, Tables, Variant, Year};
///
/// let settings = Settings::new(Variant::Either, Year::new(2026).unwrap(), Offset::UTC);
/// let mut tables = Tables::new(4, 16);
/// for line in [&b"<13>1 - gate7 reader 42 TAP - ok"[..], b"paddle stuck"] {
///     match tables.read_loose(line, settings)? {
///         LooseAnswer::Read(reading) => assert_eq!(reading.host(), Some(&b"gate7"[..])),
///         LooseAnswer::Whole(whole) => assert_eq!(whole.message(), b"paddle stuck"),
///     }
/// }
/// # Ok::<(), khamdoriem::Refusal>(())
/// ```
///
/// Nothing of a reading is to be had without that:
///
/// ```compile_fail,E0599
/// # use khamdoriem::{Offset, Settings, Tables, Variant, Year};
/// # let settings = Settings::new(Variant::Either, Year::new(2026).unwrap(), Offset::UTC);
/// # let mut tables = Tables::new(4, 16);
/// tables.read_loose(b"paddle stuck", settings)?.host();
/// # Ok::<(), khamdoriem::Refusal>(())
/// ```
#[must_use = "the line may have no reading"]
#[derive(Clone, Copy, Debug)]
pub enum LooseAnswer<'line, 'tables> {
    /// The rules give the line a reading.
    Read(Reading<'line, 'tables, Loose>),
    /// They give it none.
    Whole(WholeLine<'line, 'tables>),
}

impl<'line, 'tables> LooseAnswer<'line, 'tables> {
    /// The reading that the rules give.
    ///
    /// # Errors
    ///
    /// [`NoReading`](Refusal::NoReading) where they give none; no place in the line is said.
    ///
    /// ```
    /// # use khamdoriem::{LooseAnswer, Offset, Refusal, Settings, Tables, Variant, Year};
    /// # let settings = Settings::new(Variant::Either, Year::new(2026).unwrap(), Offset::UTC);
    /// # let mut tables = Tables::new(4, 16);
    /// let reading = tables.read_loose(b"<13>1 - gate7 reader 42 TAP - ok", settings)?.exact()?;
    /// assert_eq!(reading.message(), b"ok");
    /// let refused = tables.read_loose(b"paddle stuck", settings).and_then(LooseAnswer::exact);
    /// assert_eq!(refused.unwrap_err(), Refusal::NoReading { reach: None });
    /// # Ok::<(), Refusal>(())
    /// ```
    pub fn exact(self) -> Result<Reading<'line, 'tables, Loose>, Refusal> {
        match self {
            LooseAnswer::Read(reading) => Ok(reading),
            LooseAnswer::Whole(_) => Err(Refusal::NoReading { reach: None }),
        }
    }

    /// The reading that the rules give, or else that of the message alone.
    ///
    /// ```
    /// # use khamdoriem::{Offset, Refusal, Settings, Tables, Variant, Year};
    /// # let settings = Settings::new(Variant::Either, Year::new(2026).unwrap(), Offset::UTC);
    /// # let mut tables = Tables::new(4, 16);
    /// let reading = tables.read_loose(b"paddle stuck", settings)?.or_whole();
    /// assert_eq!((reading.host(), reading.message()), (None, &b"paddle stuck"[..]));
    /// # Ok::<(), Refusal>(())
    /// ```
    pub fn or_whole(self) -> Reading<'line, 'tables, Loose> {
        match self {
            LooseAnswer::Read(reading) => reading,
            LooseAnswer::Whole(whole) => whole.into_reading(),
        }
    }
}

/// What [`Tables::read_strict_or_loose`](crate::Tables::read_strict_or_loose) makes of a line.
#[must_use = "it says by which rules the line was read"]
#[derive(Clone, Copy, Debug)]
pub enum Answer<'line, 'tables> {
    /// The grammar of RFC 5424 derives the line.
    Strict(Reading<'line, 'tables, Strict>),
    /// It does not, and this is what the loose reader answers.
    Loose(LooseAnswer<'line, 'tables>),
}

/// A line that the loose rules give no reading: it is the message, whole and untrimmed.
#[derive(Clone, Copy)]
pub struct WholeLine<'line, 'tables>(Reading<'line, 'tables, Loose>);

impl<'line, 'tables> WholeLine<'line, 'tables> {
    /// Of the record that the reader left for such a line.
    pub(crate) fn new(record: Reading<'line, 'tables, Loose>) -> Self {
        WholeLine(record)
    }

    /// The message, which is the line.
    pub fn message(&self) -> &'line [u8] {
        self.0.message()
    }

    /// Writes the message as the text of a record, `<47> - - : ` in front, and answers the part of `output` that was written. The
    /// bytes past it are kept.
    ///
    /// # Errors
    ///
    /// [`OutputTooShort`](Refusal::OutputTooShort); the output is then as it was.
    pub fn print<'output>(&self, output: &'output mut [u8]) -> Result<&'output [u8], Refusal> {
        self.0.print(output)
    }

    /// The same for code that takes readings: protocol RFC 3164, the message, and nothing else set.
    pub fn into_reading(self) -> Reading<'line, 'tables, Loose> {
        self.0
    }
}

impl fmt::Debug for WholeLine<'_, '_> {
    fn fmt(&self, f: &mut fmt::Formatter<'_>) -> fmt::Result {
        f.debug_tuple("WholeLine").field(&Shown(self.message())).finish()
    }
}
