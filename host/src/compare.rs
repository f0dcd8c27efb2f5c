//! Two lines compared, field by field.

use core::fmt;
use core::iter::FusedIterator;

use crate::elements::Param;
use crate::refusal::Refusal;
use crate::settings::Settings;
use crate::sys;
use crate::tables::Tables;

/// One of the two lines of a comparison.
#[derive(Clone, Copy, Debug, PartialEq, Eq, Hash)]
pub enum Which {
    /// The first line.
    First,
    /// The second line.
    Second,
}

impl Which {
    /// What the archive names by a number, 1 or 2; 0 is neither.
    const fn from_number(number: u32) -> Option<Which> {
        match number {
            1 => Some(Which::First),
            2 => Some(Which::Second),
            _ => None,
        }
    }
}

impl fmt::Display for Which {
    /// Writes `first` or `second`.
    fn fmt(&self, f: &mut fmt::Formatter<'_>) -> fmt::Result {
        f.pad(match self {
            Which::First => "first",
            Which::Second => "second",
        })
    }
}

/// A field of a line that is compared.
#[derive(Clone, Copy, Debug, PartialEq, Eq, PartialOrd, Ord, Hash)]
pub enum Field {
    /// The protocol, and in RFC 5424 its version.
    Protocol,
    /// The facility.
    Facility,
    /// The severity.
    Severity,
    /// The timestamp: its instant and its offset. How many digits its fraction has is of no account.
    Timestamp,
    /// The host.
    Host,
    /// The app name.
    AppName,
    /// The process id, as the line writes it.
    ProcessId,
    /// The message id.
    MessageId,
    /// The elements of the structured data.
    Elements,
    /// The message.
    Message,
}

impl Field {
    /// All fields, in the order in which a comparison names them.
    pub const ALL: [Field; 10] = [
        Field::Protocol,
        Field::Facility,
        Field::Severity,
        Field::Timestamp,
        Field::Host,
        Field::AppName,
        Field::ProcessId,
        Field::MessageId,
        Field::Elements,
        Field::Message,
    ];

    /// The field in words: `process id`.
    pub const fn name(self) -> &'static str {
        match self {
            Field::Protocol => "protocol",
            Field::Facility => "facility",
            Field::Severity => "severity",
            Field::Timestamp => "timestamp",
            Field::Host => "host",
            Field::AppName => "app name",
            Field::ProcessId => "process id",
            Field::MessageId => "message id",
            Field::Elements => "elements",
            Field::Message => "message",
        }
    }

    /// Its bit in the archive's answer.
    const fn bit(self) -> u32 {
        1 << self as u32
    }
}

impl fmt::Display for Field {
    fn fmt(&self, f: &mut fmt::Formatter<'_>) -> fmt::Result {
        f.pad(self.name())
    }
}

/// An iterator over fields that differ, in the order of [`Field::ALL`]: [`Differences::fields`].
#[derive(Clone, Debug)]
pub struct Fields {
    /// The bits of those that are to come.
    left: u32,
}

impl Iterator for Fields {
    type Item = Field;

    fn next(&mut self) -> Option<Field> {
        let next = Field::ALL.into_iter().find(|field| self.left & field.bit() != 0)?;
        self.left &= !next.bit();
        Some(next)
    }

    fn size_hint(&self) -> (usize, Option<usize>) {
        let left = Field::ALL.into_iter().filter(|field| self.left & field.bit() != 0).count();
        (left, Some(left))
    }
}

impl ExactSizeIterator for Fields {}
impl FusedIterator for Fields {}

/// Where the elements of two lines differ first.
#[derive(Clone, Copy, Debug)]
pub struct ElementDifference<'lines> {
    /// The position, from 0. The elements before it are the same in both lines.
    pub position: usize,
    /// Where both lines have one id at the position, a parameter whose pair of name and unescaped value one of them has more
    /// often there: the first such parameter of the first line, or where it has none of the second. `None` where the ids
    /// differ, or where one line has no element at the position.
    pub pair: Option<(Which, Param<'lines>)>,
}

/// In which fields two lines differ. [`Display`](fmt::Display) is for a person: `same`, or the fields, as in
/// `host, elements at 0: a="1" of the first line`.
#[must_use = "it says whether the lines differ"]
#[derive(Clone, Copy, Debug)]
pub struct Differences<'lines> {
    bits: u32,
    elements: Option<ElementDifference<'lines>>,
}

impl<'lines> Differences<'lines> {
    /// Whether no field differs.
    pub const fn is_empty(&self) -> bool {
        self.bits == 0
    }

    /// The fields that differ, in the order of [`Field::ALL`].
    pub const fn fields(&self) -> Fields {
        Fields { left: self.bits }
    }

    /// Whether this field differs.
    pub const fn contains(&self, field: Field) -> bool {
        self.bits & field.bit() != 0
    }

    /// Where the elements differ first, if they do.
    pub const fn elements(&self) -> Option<ElementDifference<'lines>> {
        self.elements
    }
}

impl fmt::Display for ElementDifference<'_> {
    fn fmt(&self, f: &mut fmt::Formatter<'_>) -> fmt::Result {
        write!(f, "elements at {}", self.position)?;
        match self.pair {
            Some((which, pair)) => write!(f, ": {}=\"{}\" of the {which} line", pair.name_str(), pair.value_str()),
            None => Ok(()),
        }
    }
}

impl fmt::Display for Differences<'_> {
    fn fmt(&self, f: &mut fmt::Formatter<'_>) -> fmt::Result {
        if self.is_empty() {
            return f.pad("same");
        }
        for (number, field) in self.fields().enumerate() {
            if number > 0 {
                f.write_str(", ")?;
            }
            match (field, self.elements) {
                (Field::Elements, Some(difference)) => difference.fmt(f)?,
                _ => f.write_str(field.name())?,
            }
        }
        Ok(())
    }
}

/// The memory of comparisons: [`Tables`] for each of the two lines. Make it once for all pairs of lines.
///
/// Both lines are read by the loose rules with one set of settings. Texts are compared as bytes, and absent differs from empty.
/// Elements are compared by position: their ids, and their parameters as pairs of name and unescaped value, in any order,
/// repeats counted. A longer list of elements differs from a shorter one. That a line compared with itself differs in nothing,
/// and that two lines exchanged differ in the same fields and at the same position, is proved.
///
/// ```
/// use khamdoriem::{Comparer, Field, Offset, Settings, Variant, Which, Year};
///
/// let settings = Settings::new(Variant::Either, Year::new(2026).unwrap(), Offset::UTC);
/// let mut comparer = Comparer::for_any_line(); // once, for all pairs
/// let before = br#"<13>1 - gate7 reader 42 TAP [stage@32473 name="radio" ms="30"] open"#;
/// let after = br#"<13>1 - gate7 reader 42 TAP [stage@32473 ms="31" name="radio"] open"#;
///
/// let differences = comparer.compare(before, after, settings).unwrap();
/// assert_eq!(differences.fields().collect::<Vec<_>>(), [Field::Elements]);
/// assert_eq!(differences.to_string(), r#"elements at 0: ms="30" of the first line"#);
/// let (which, pair) = differences.elements().unwrap().pair.unwrap();
/// assert_eq!((which, pair.name_str()), (Which::First, "ms"));
///
/// assert!(comparer.compare(before, before, settings).unwrap().is_empty());
/// ```
#[derive(Debug)]
pub struct Comparer<'memory> {
    first: Tables<'memory>,
    second: Tables<'memory>,
}

#[cfg(feature = "std")]
impl Comparer<'static> {
    /// With tables that are long enough for every line, some 220,000 bytes.
    pub fn for_any_line() -> Comparer<'static> {
        Comparer::over(Tables::for_any_line(), Tables::for_any_line())
    }
}

impl<'memory> Comparer<'memory> {
    /// With these tables, of the first line and of the second, whose memory may be lent.
    pub fn over(first: Tables<'memory>, second: Tables<'memory>) -> Comparer<'memory> {
        Comparer { first, second }
    }

    /// Compares two lines, both read by the loose rules with these settings.
    ///
    /// # Errors
    ///
    /// The line that is refused, and why: the first, or where that is read the second, with [`LineTooLong`](Refusal::LineTooLong),
    /// [`NotUtf8`](Refusal::NotUtf8), [`NoReading`](Refusal::NoReading), [`TooManyElements`](Refusal::TooManyElements) or
    /// [`TooManyParams`](Refusal::TooManyParams), the first that applies.
    ///
    /// ```
    /// # use khamdoriem::{Comparer, Offset, Refusal, Settings, Variant, Which, Year};
    /// # let settings = Settings::new(Variant::Either, Year::new(2026).unwrap(), Offset::UTC);
    /// # let mut comparer = Comparer::for_any_line();
    /// let refused = comparer.compare(b"<13>1 - gate7 reader 42 TAP - ok", b"paddle stuck", settings);
    /// assert_eq!(refused.unwrap_err(), (Which::Second, Refusal::NoReading { reach: None }));
    /// ```
    pub fn compare<'lines>(
        &mut self,
        first: &'lines [u8],
        second: &'lines [u8],
        settings: Settings,
    ) -> Result<Differences<'lines>, (Which, Refusal)> {
        let answer = sys::compare([first, second], settings.numbers(), self.first.entries(), self.second.entries());
        if let Err(refusal) = Refusal::check_loose(answer.number) {
            return Err((Which::from_number(answer.line).unwrap_or(Which::First), refusal));
        }
        let pair = Which::from_number(answer.pair_line).map(|which| {
            let (line, tables) = match which {
                Which::First => (first, &self.first),
                Which::Second => (second, &self.second),
            };
            (which, tables.param(line, answer.pair_entry))
        });
        let elements = ElementDifference { position: answer.position, pair };
        Ok(Differences {
            bits: answer.fields,
            elements: (answer.fields & Field::Elements.bit() != 0).then_some(elements),
        })
    }
}

/// Compares two lines, both read by the loose rules with these settings: a [`Comparer`] for one pair of lines. It allocates the
/// tables of both; who compares many pairs keeps a comparer.
///
/// # Errors
///
/// As [`Comparer::compare`]; no line has more elements or parameters than the tables hold.
///
/// ```
/// use khamdoriem::{compare, Offset, Settings, Variant, Year};
///
/// let settings = Settings::new(Variant::Either, Year::new(2026).unwrap(), Offset::UTC);
/// let differences = compare(b"<13>1 - gate7 reader 42 TAP - ok", b"<13>1 - gate8 reader 42 TAP - okay", settings).unwrap();
/// assert_eq!(differences.to_string(), "host, message");
/// ```
#[cfg(feature = "std")]
pub fn compare<'lines>(
    first: &'lines [u8],
    second: &'lines [u8],
    settings: Settings,
) -> Result<Differences<'lines>, (Which, Refusal)> {
    Comparer::for_any_line().compare(first, second, settings)
}
