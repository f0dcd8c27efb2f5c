//! Why a call was refused.

use core::fmt;

use crate::sys::ReadAnswer;

/// The number of the one refusal that says more than its number.
const NO_READING: u32 = 4;
/// The number that no call but the check of a claim brings about.
const UNSUITABLE: u32 = 7;

/// The refusals, one row each: number, name and words. All else here follows from the rows, but for the refusal that has a place, the second meaning of 9, and 7.
macro_rules! refusals {
    ($($(#[$doc:meta])+ $number:literal $name:ident $words:literal)+) => {
        /// Why a call was refused. A refused call has changed nothing that it was lent. (A [`Splitter`](crate::Splitter) moves on with
        /// what it reports: the stream has ended, or goes on behind the long frame.)
        ///
        /// Of the numbers that the archive may answer, 2 is not here, because no call of this crate can bring it about:
        /// it is for settings out of range, and the types of [`Settings`](crate::Settings), [`Unescape`](crate::Unescape) and
        /// [`Framing`](crate::Framing) hold none. Number 7 is for a record or tables that do not suit the line, and a
        /// [`Claim`](crate::Claim) alone can be such: a [`Reading`](crate::Reading) holds the line, the record and the tables of one
        /// reading together and lets nobody change them. It is also for a facility or a severity that a tally has no place for, and
        /// [`Facility`](crate::Facility) and [`Severity`](crate::Severity) have none of those; and for a timestamp that is none or
        /// texts that are not in what a line is written of, and a [`Timestamp`](crate::Timestamp) is one and a
        /// [`Line`](crate::Line) keeps its texts.
        ///
        /// More are to come with further calls, so a match has an arm for the rest; without one it does not compile:
        ///
        /// ```compile_fail,E0004
        /// use khamdoriem::Refusal::{self, *};
        ///
        /// fn number(refusal: Refusal) -> u32 {
        ///     match refusal {
        ///         LineTooLong | NotUtf8 | TooManyElements | TooManyParams | OutputTooShort | NoSuchParam => 1,
        ///         NoSuchGate | CellFull | BadCount | FrameTooLong | BadLength | UnknownVersion | BadField | Unwritable => 2,
        ///         NoReading { .. } => 4,
        ///         Unsuitable | WrongClaim => 7,
        ///         Unexpected(number) => number,
        ///     }
        /// }
        /// ```
        #[derive(Clone, Copy, Debug, PartialEq, Eq, Hash)]
        #[non_exhaustive]
        pub enum Refusal {
            $($(#[$doc])+ $name,)+
            /// Number 9 of a [`SettingsFile`](crate::SettingsFile): it has no record of the gate.
            NoSuchGate,
            /// Number 7 of a [`Claim`](crate::Claim): a place ends past the line, the numbers of the parameters' elements are not
            /// those of elements in their order, a count is more than its table has, or a number is out of its range.
            Unsuitable,
            /// Number 4: there is no reading. The strict reader gives it, the reading [with settings](crate::Tables::read_with), the
            /// [comparison](crate::Comparer::compare), and [`LooseAnswer::exact`](crate::LooseAnswer::exact).
            NoReading {
                /// Of the strict reader, how far the line is right: the length of the longest beginning of it that some line of the
                /// strict grammar, of any length, also begins with. It is below the line's length where the byte that stands there
                /// is wrong, and the line's length where the line was cut short. The loose rules have no such place.
                ///
                /// ```
                /// # use khamdoriem::{Refusal, Tables};
                /// # let mut tables = Tables::new(4, 16);
                /// let refused = tables.read_strict(b"<13>1 2023-02-29T10:01:02Z gate7 reader 42 TAP - ok").unwrap_err();
                /// assert_eq!(refused, Refusal::NoReading { reach: Some(15) });
                /// assert_eq!(refused.to_string(), "the line has no reading from column 16 on");
                ///
                /// let cut = tables.read_strict(b"<13>1 2023-02-2").unwrap_err();
                /// assert_eq!(cut.reach(), Some(15));
                /// ```
                reach: Option<usize>,
            },
            /// Any other number. The proved archive gives none to a call of this crate, so another one has been linked.
            Unexpected(u32),
        }

        impl Refusal {
            /// The number that the archive and its documents give this refusal.
            pub const fn number(self) -> u32 {
                match self {
                    $(Refusal::$name => $number,)+
                    Refusal::NoSuchGate => Refusal::NoSuchParam.number(),
                    Refusal::Unsuitable => UNSUITABLE,
                    Refusal::NoReading { .. } => NO_READING,
                    Refusal::Unexpected(number) => number,
                }
            }

            /// How far a line that the strict reader refused is right, as [`NoReading`](Refusal::NoReading) says; `None` of every
            /// other refusal.
            pub const fn reach(self) -> Option<usize> {
                match self {
                    Refusal::NoReading { reach } => reach,
                    _ => None,
                }
            }

            /// The column of the first byte that is wrong or missing, counted in bytes from 1: one more than [`reach`](Refusal::reach).
            pub const fn column(self) -> Option<usize> {
                match self.reach() {
                    Some(reach) => Some(reach + 1),
                    None => None,
                }
            }

            /// What an answer of the archive means: 0 is done.
            pub(crate) const fn check(number: u32) -> Result<(), Refusal> {
                match number {
                    0 => Ok(()),
                    $($number => Err(Refusal::$name),)+
                    _ => Err(Refusal::Unexpected(number)),
                }
            }

            /// The same of a call that refuses a loose line with 4.
            pub(crate) const fn check_loose(number: u32) -> Result<(), Refusal> {
                match number {
                    NO_READING => Err(Refusal::NoReading { reach: None }),
                    number => Refusal::check(number),
                }
            }

            /// The same of a call that reads a settings file.
            pub(crate) const fn check_settings(number: u32) -> Result<(), Refusal> {
                match Refusal::check_loose(number) {
                    Err(Refusal::NoSuchParam) => Err(Refusal::NoSuchGate),
                    checked => checked,
                }
            }
        }

        impl fmt::Display for Refusal {
            fn fmt(&self, f: &mut fmt::Formatter<'_>) -> fmt::Result {
                match self {
                    $(Refusal::$name => f.pad($words),)+
                    Refusal::NoSuchGate => f.pad("the settings file has no record of the gate"),
                    Refusal::Unsuitable => f.pad("what is claimed does not suit the line"),
                    Refusal::NoReading { reach: None } => f.pad("the line has no reading"),
                    Refusal::NoReading { reach: Some(reach) } => write!(f, "the line has no reading from column {} on", reach + 1),
                    Refusal::Unexpected(number) => {
                        write!(f, "the archive answered {number}, which no call of khamdoriem brings about")
                    }
                }
            }
        }
    };
}

refusals! {
    /// Number 1: the line has over [`MAX_LINE`](crate::MAX_LINE) bytes, or one to be written would have.
    1 LineTooLong "the line has over 8,192 bytes"
    /// Number 3: the line is not UTF-8. The loose reader asks for that, and a reading that is to pass for one of its.
    3 NotUtf8 "the line is not UTF-8"
    /// Number 5: the reading has more elements than the table.
    5 TooManyElements "the reading has more elements than the table"
    /// Number 6: the reading has more parameters than the table.
    6 TooManyParams "the reading has more parameters than the table"
    /// Number 8: the output is shorter than the result.
    8 OutputTooShort "the output is shorter than the result"
    /// Number 9: there is no parameter of this element and name.
    9 NoSuchParam "there is no parameter of this element and name"
    /// Number 10: the cell of a [`Tally`](crate::Tally) holds `u32::MAX`, and is not raised.
    10 CellFull "the cell of the tally holds 4,294,967,295 already"
    /// Number 11: in the place of a frame's count there is none. The stream has ended.
    11 BadCount "the count of a frame is none, and the stream has ended"
    /// Number 12: a frame of over [`MAX_LINE`](crate::MAX_LINE) bytes. It was passed over, and the stream goes on behind it.
    12 FrameTooLong "a frame of over 8,192 bytes was passed over"
    /// Number 13: the length of a [`SettingsFile`](crate::SettingsFile) is no multiple of 32.
    13 BadLength "the length of the settings file is no multiple of 32"
    /// Number 14: the version of the gate's record is not known to the reader.
    14 UnknownVersion "the version of the settings record is not known"
    /// Number 15: a field of the gate's record is out of range, or a byte that says nothing is not zero.
    15 BadField "a field of the settings record is out of range, or a reserved byte is not zero"
    /// Number 16: a [`Claim`](crate::Claim) that suits the line and is not its reading.
    16 WrongClaim "what is claimed is not the line's reading"
    /// Number 17: a field of a [`Line`](crate::Line) breaks the grammar, so that no line has it.
    17 Unwritable "a field of the line to be written breaks the grammar"
}

impl Refusal {
    /// What an answer of the check of a claim means: 7 can arise.
    pub(crate) const fn check_claim(number: u32) -> Result<(), Refusal> {
        match number {
            UNSUITABLE => Err(Refusal::Unsuitable),
            number => Refusal::check(number),
        }
    }

    /// What an answer of the strict reader means: 4 comes with how far the line is right.
    pub(crate) const fn check_strict(answer: ReadAnswer) -> Result<(), Refusal> {
        match answer.number {
            NO_READING => Err(Refusal::NoReading { reach: Some(answer.reach) }),
            number => Refusal::check(number),
        }
    }
}

#[cfg(feature = "std")]
impl std::error::Error for Refusal {}
