//! A line that was read with the settings of its gate.

use core::fmt;

use crate::reading::{Loose, Reading, Shown};
use crate::settings_file::SettingsFile;
use crate::sys::SiteAnswer;

/// `holder` where the settings file holds the host.
const IN_FILE: u32 = 2;

/// A line that was read with the settings of its gate ([`Tables::read_with`](crate::Tables::read_with)).
///
/// Its [`host`](SiteReading::host) is a part of the line, or where the line names none of the settings file. All else is the
/// [`reading`](SiteReading::reading)'s, whose own `host` is the line's.
#[derive(Clone, Copy)]
pub struct SiteReading<'lent, 'tables> {
    reading: Reading<'lent, 'tables, Loose>,
    default: Option<&'lent [u8]>,
}

impl<'lent, 'tables> SiteReading<'lent, 'tables> {
    pub(crate) fn new(
        reading: Reading<'lent, 'tables, Loose>,
        file: SettingsFile<'lent>,
        answer: SiteAnswer,
    ) -> SiteReading<'lent, 'tables> {
        let default = (answer.holder == IN_FILE).then(|| file.part(answer.host_start, answer.host_len));
        SiteReading { reading, default }
    }

    /// The host: the line's own, or where it has none that of the settings. `None` where there is neither.
    pub fn host(&self) -> Option<&'lent [u8]> {
        self.default.or(self.reading.host())
    }

    /// Whether the host is that of the settings.
    pub fn is_default(&self) -> bool {
        self.default.is_some()
    }

    /// The reading of the line.
    pub fn reading(&self) -> Reading<'lent, 'tables, Loose> {
        self.reading
    }
}

impl fmt::Debug for SiteReading<'_, '_> {
    fn fmt(&self, f: &mut fmt::Formatter<'_>) -> fmt::Result {
        f.debug_struct("SiteReading")
            .field("host", &self.host().map(Shown))
            .field("is_default", &self.is_default())
            .field("reading", &self.reading)
            .finish()
    }
}
