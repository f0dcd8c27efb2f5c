//! The timestamp of a line.

use core::fmt;

use crate::settings::Offset;

/// The timestamp of a line: an instant, how finely the line tells it, and the offset at which it is shown.
///
/// `10:01:02.5` and `10:01:02.500` are one instant with other digits, and as timestamps they are not equal: compare
/// [`seconds`](Timestamp::seconds) and [`nanoseconds`](Timestamp::nanoseconds) where the instant alone counts.
///
/// It is shown as RFC 3339 has it, byte for byte as printing writes it. With the feature `std` it is also a `SystemTime`.
///
/// ```
/// use std::time::{Duration, SystemTime};
///
/// # let mut tables = khamdoriem::Tables::new(0, 0);
/// let line = b"<13>1 2026-01-05T10:01:02.500Z gate7 reader 42 TAP - ok";
/// let stamp = tables.read_strict(line)?.timestamp().unwrap();
/// assert_eq!((stamp.seconds(), stamp.nanoseconds()), (1_767_607_262, 500_000_000));
/// assert_eq!((stamp.digits(), stamp.resolution_nanoseconds()), (3, 1_000_000)); // a clock of milliseconds
/// assert_eq!(stamp.to_string(), "2026-01-05T10:01:02.500+00:00");
/// assert_eq!(SystemTime::from(stamp), SystemTime::UNIX_EPOCH + Duration::from_millis(1_767_607_262_500));
/// # Ok::<(), khamdoriem::Refusal>(())
/// ```
#[derive(Clone, Copy, Debug, PartialEq, Eq, Hash)]
pub struct Timestamp {
    // Not public, so that what a reader left or `new` took is what stands here: the year at the offset is one of 0 to 9999, and the
    // digits, 0 to 9, show all of the nanoseconds.
    pub(crate) seconds: i64,
    pub(crate) nanoseconds: u32,
    pub(crate) digits: u8,
    pub(crate) offset: Offset,
}

impl Timestamp {
    /// The timestamp of an instant, seconds since 1970-01-01T00:00:00Z and nanoseconds past that second, that is told with so many
    /// digits and shown at an offset. `None` where there is none such: nanoseconds over 999,999,999 or with more digits than those, over
    /// 9 digits, or a year at the offset that is not 0 to 9999.
    ///
    /// ```
    /// use khamdoriem::{Offset, Timestamp};
    ///
    /// let stamp = Timestamp::new(1_767_607_262, 500_000_000, 3, Offset::UTC).unwrap();
    /// assert_eq!(stamp.to_string(), "2026-01-05T10:01:02.500+00:00");
    /// assert_eq!(Timestamp::new(1_767_607_262, 500_000_000, 0, Offset::UTC), None); // no digit shows half a second
    /// ```
    pub const fn new(seconds: i64, nanoseconds: u32, digits: u8, offset: Offset) -> Option<Timestamp> {
        if digits > 9 || nanoseconds > 999_999_999 || nanoseconds % 10u32.pow(9 - digits as u32) != 0 {
            return None;
        }
        let local = seconds.saturating_add(offset.minutes() as i64 * 60);
        if FIRST_SECOND <= local && local <= LAST_SECOND {
            Some(Timestamp { seconds, nanoseconds, digits, offset })
        } else {
            None
        }
    }

    /// The timestamp of an instant, cut to so many digits and shown at an offset: `None` as in [`new`](Timestamp::new).
    ///
    /// ```
    /// use khamdoriem::{Offset, Timestamp};
    /// use std::time::{Duration, SystemTime};
    ///
    /// let time = SystemTime::UNIX_EPOCH + Duration::from_micros(1_767_607_262_999_999);
    /// let stamp = Timestamp::from_system_time(time, 3, Offset::UTC).unwrap();
    /// assert_eq!(stamp.to_string(), "2026-01-05T10:01:02.999+00:00");
    /// ```
    #[cfg(feature = "std")]
    pub fn from_system_time(time: std::time::SystemTime, digits: u8, offset: Offset) -> Option<Timestamp> {
        let (seconds, nanoseconds) = match time.duration_since(std::time::SystemTime::UNIX_EPOCH) {
            Ok(since) => (i64::try_from(since.as_secs()).ok()?, since.subsec_nanos()),
            // Nanoseconds are past the second before 1970 too.
            Err(before) => match (i64::try_from(before.duration().as_secs()).ok()?, before.duration().subsec_nanos()) {
                (seconds, 0) => (-seconds, 0),
                (seconds, nanoseconds) => (-seconds - 1, 1_000_000_000 - nanoseconds),
            },
        };
        let step = 10u32.pow(9u32.checked_sub(digits.into())?);
        Timestamp::new(seconds, nanoseconds - nanoseconds % step, digits, offset)
    }

    /// Seconds since 1970-01-01T00:00:00Z, negative before it.
    pub const fn seconds(&self) -> i64 {
        self.seconds
    }

    /// Nanoseconds past the second, also before 1970: 0 to 999,999,999.
    pub const fn nanoseconds(&self) -> u32 {
        self.nanoseconds
    }

    /// How many digits the line's fraction of a second has, zeros at its end too: 0 to 9. `10:01:02.000` has three, `10:01:02` has
    /// none, and RFC 3164's own forms of the clock never have one. Printing writes exactly so many.
    pub const fn digits(&self) -> u8 {
        self.digits
    }

    /// How many nanoseconds a one in the last digit is: the step of the clock as the line tells it, 1,000,000,000 where it has whole
    /// seconds and 1 where it has nine digits. `nanoseconds` is a multiple of it.
    pub const fn resolution_nanoseconds(&self) -> u32 {
        10u32.pow(9 - self.digits as u32)
    }

    /// The offset of the local time from UTC.
    pub const fn offset(&self) -> Offset {
        self.offset
    }
}

const SECONDS_PER_DAY: i64 = 86_400;
/// 0000-01-01T00:00:00Z and 9999-12-31T23:59:59Z.
const FIRST_SECOND: i64 = -62_167_219_200;
const LAST_SECOND: i64 = 253_402_300_799;

/// Year, month and day of the day that is so many days after 1970-01-01.
fn date(days: i64) -> (i64, i64, i64) {
    // From 1 March of the year 0 on, so that a leap day ends its year: 146,097 days are 400 years, and 153 are five months.
    let days = days + 719_468;
    let (era, day) = (days.div_euclid(146_097), days.rem_euclid(146_097));
    let year = (day - day / 1_460 + day / 36_524 - day / 146_096) / 365;
    let day = day - (365 * year + year / 4 - year / 100);
    let month = (5 * day + 2) / 153; // March is 0
    let day_of_month = day - (153 * month + 2) / 5 + 1;
    let (month, next) = if month < 10 { (month + 3, 0) } else { (month - 9, 1) };
    (400 * era + year + next, month, day_of_month)
}

impl fmt::Display for Timestamp {
    /// Writes it as RFC 3339 has it, with as many digits as the line: `2026-01-05T10:01:02.500+00:00`.
    fn fmt(&self, f: &mut fmt::Formatter<'_>) -> fmt::Result {
        let local = self.seconds + i64::from(self.offset.minutes()) * 60;
        let (year, month, day) = date(local.div_euclid(SECONDS_PER_DAY));
        let second = local.rem_euclid(SECONDS_PER_DAY);
        let (hour, minute, second) = (second / 3_600, second / 60 % 60, second % 60);
        write!(f, "{year:04}-{month:02}-{day:02}T{hour:02}:{minute:02}:{second:02}")?;
        if self.digits > 0 {
            let fraction = self.nanoseconds / self.resolution_nanoseconds();
            write!(f, ".{fraction:0digits$}", digits = usize::from(self.digits))?;
        }
        self.offset.fmt(f)
    }
}

#[cfg(feature = "std")]
impl From<Timestamp> for std::time::SystemTime {
    /// The instant.
    fn from(stamp: Timestamp) -> std::time::SystemTime {
        use std::time::{Duration, SystemTime};

        let whole = Duration::from_secs(stamp.seconds.unsigned_abs());
        let second = if stamp.seconds < 0 { SystemTime::UNIX_EPOCH - whole } else { SystemTime::UNIX_EPOCH + whole };
        second + Duration::from_nanos(stamp.nanoseconds.into())
    }
}
