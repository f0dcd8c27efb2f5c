//! What the loose reader is told beside the line, in types that hold no value out of range.

use core::fmt;

use crate::sys::Numbers;

/// Which protocols the loose reader tries.
#[derive(Clone, Copy, Debug, PartialEq, Eq, Hash)]
pub enum Variant {
    /// RFC 5424, and then RFC 3164. No line has a reading in both.
    Either,
    /// RFC 3164 alone.
    Rfc3164,
    /// RFC 5424 alone.
    Rfc5424,
}

impl Variant {
    const fn number(self) -> u32 {
        match self {
            Variant::Either => 0,
            Variant::Rfc3164 => 1,
            Variant::Rfc5424 => 2,
        }
    }

    pub(crate) const fn from_number(number: u32) -> Option<Variant> {
        match number {
            0 => Some(Variant::Either),
            1 => Some(Variant::Rfc3164),
            2 => Some(Variant::Rfc5424),
            _ => None,
        }
    }
}

/// The year of a timestamp that names none, as those of RFC 3164: 0 to 9999.
///
/// ```
/// use khamdoriem::Year;
///
/// assert_eq!(Year::new(2026).map(Year::get), Some(2026));
/// assert_eq!(Year::new(10_000), None);
/// ```
#[derive(Clone, Copy, Debug, PartialEq, Eq, PartialOrd, Ord, Hash)]
pub struct Year(u32);

impl Year {
    /// The year 0.
    pub const MIN: Year = Year(0);
    /// The year 9999.
    pub const MAX: Year = Year(9999);

    /// The year, or `None` where it is above 9999.
    pub const fn new(year: u32) -> Option<Year> {
        if year <= Year::MAX.0 {
            Some(Year(year))
        } else {
            None
        }
    }

    /// The year as a number.
    pub const fn get(self) -> u32 {
        self.0
    }
}

/// The offset of a local time from UTC: -1439 to 1439 minutes, which is less than a day either way.
///
/// ```
/// use khamdoriem::Offset;
///
/// assert_eq!(Offset::from_minutes(60).map(Offset::minutes), Some(60));
/// assert_eq!(Offset::from_minutes(-1440), None);
/// assert_eq!(Offset::MIN.to_string(), "-23:59");
/// ```
#[derive(Clone, Copy, Debug, PartialEq, Eq, PartialOrd, Ord, Hash)]
pub struct Offset(i32);

impl Offset {
    /// -1439 minutes, the furthest west.
    pub const MIN: Offset = Offset(-1439);
    /// No offset.
    pub const UTC: Offset = Offset(0);
    /// 1439 minutes, the furthest east.
    pub const MAX: Offset = Offset(1439);

    /// The offset, or `None` where it is a day or more.
    pub const fn from_minutes(minutes: i32) -> Option<Offset> {
        if Offset::MIN.0 <= minutes && minutes <= Offset::MAX.0 {
            Some(Offset(minutes))
        } else {
            None
        }
    }

    /// The offset in minutes, positive to the east.
    pub const fn minutes(self) -> i32 {
        self.0
    }
}

impl fmt::Display for Offset {
    /// Writes sign, hours and minutes: `+01:00`.
    fn fmt(&self, f: &mut fmt::Formatter<'_>) -> fmt::Result {
        let sign = if self.0 < 0 { '-' } else { '+' };
        let minutes = self.0.abs();
        write!(f, "{sign}{:02}:{:02}", minutes / 60, minutes % 60)
    }
}

/// The settings of the loose reader. Its fields are public: each holds only values that the reader takes.
///
/// Settings that never change are best a constant, whose ranges the compiler checks:
///
/// ```
/// use khamdoriem::{Offset, Settings, Variant, Year};
///
/// const GATES: Settings = match (Year::new(2026), Offset::from_minutes(60)) {
///     (Some(year), Some(offset)) => Settings::new(Variant::Either, year, offset),
///     _ => panic!("the year or the offset is out of range"),
/// };
/// assert_eq!(GATES.offset.minutes(), 60);
/// ```
#[derive(Clone, Copy, Debug, PartialEq, Eq, Hash)]
pub struct Settings {
    /// Which protocols are tried.
    pub variant: Variant,
    /// The year of timestamps that name none.
    pub year: Year,
    /// The offset at which timestamps that name none are shown. Those without a year are local time there; those with one are UTC.
    pub offset: Offset,
}

impl Settings {
    /// The settings with these three.
    pub const fn new(variant: Variant, year: Year, offset: Offset) -> Settings {
        Settings { variant, year, offset }
    }

    pub(crate) const fn numbers(self) -> Numbers {
        Numbers { variant: self.variant.number(), year: self.year.0, offset: self.offset.0 }
    }
}
