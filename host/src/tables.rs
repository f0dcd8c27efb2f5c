//! The memory that a reading is written into.

use core::fmt;

use crate::answer::{Answer, LooseAnswer, WholeLine};
use crate::elements::Param;
use crate::memory::Memory;
use crate::reading::{Reading, Strict};
use crate::record::Record;
use crate::refusal::Refusal;
use crate::settings::Settings;
use crate::settings_file::{Gate, SettingsFile};
use crate::site_reading::SiteReading;
use crate::sys::{self, ElementEntry, ParamEntry};

/// The tables that a reader fills: one of elements, one of parameters, and the record beside them.
///
/// Make them once and read every line with them, one for each thread: a call allocates nothing and clears nothing. A [`Reading`]
/// borrows its tables, so the next line cannot be read while something still looks at this one:
///
/// ```compile_fail,E0499
/// use khamdoriem::Tables;
///
/// let mut tables = Tables::new(4, 16);
/// let first = tables.read_strict(b"<13>1 - gate7 reader 42 TAP - ok")?;
/// let second = tables.read_strict(b"<13>1 - gate8 reader 43 TAP - ok")?;
/// first.host(); // its tables hold the second line
/// # Ok::<(), khamdoriem::Refusal>(())
/// ```
///
/// Fields are parts of the line itself, and outlive the reading:
///
/// ```
/// use khamdoriem::Tables;
///
/// let mut tables = Tables::new(4, 16);
/// let first = tables.read_strict(b"<13>1 - gate7 reader 42 TAP - ok")?.host();
/// let second = tables.read_strict(b"<13>1 - gate8 reader 43 TAP - ok")?.host();
/// assert_eq!((first, second), (Some(&b"gate7"[..]), Some(&b"gate8"[..])));
/// # Ok::<(), khamdoriem::Refusal>(())
/// ```
///
/// Their memory is their own (`new`, with the feature `std`) or lent (`over`). In the first case they are `Tables<'static>`, as in a
/// struct of yours that keeps them. A function that takes `&mut Tables<'_>` takes both.
pub struct Tables<'memory> {
    elements: Memory<'memory, ElementEntry>,
    params: Memory<'memory, ParamEntry>,
    record: Record,
}

#[cfg(feature = "std")]
impl Tables<'static> {
    /// Tables for readings of at most so many elements and so many parameters. Either may be 0.
    ///
    /// # Panics
    ///
    /// As [`over`](Tables::over).
    pub fn new(elements: usize, params: usize) -> Tables<'static> {
        let elements = std::vec![ElementEntry::EMPTY; elements].into_boxed_slice();
        let params = std::vec![ParamEntry::EMPTY; params].into_boxed_slice();
        Tables::of(Memory::Owned(elements), Memory::Owned(params))
    }

    /// Tables that are long enough for every line, some 110,000 bytes: [`MAX_ELEMENTS`](crate::MAX_ELEMENTS) and
    /// [`MAX_PARAMS`](crate::MAX_PARAMS). No reader that is given them refuses a line with [`Refusal::TooManyElements`] or
    /// [`Refusal::TooManyParams`].
    pub fn for_any_line() -> Tables<'static> {
        Tables::new(crate::MAX_ELEMENTS, crate::MAX_PARAMS)
    }
}

impl<'memory> Tables<'memory> {
    /// Tables over memory that is lent, for readings of at most as many elements and parameters as there are entries. Either may be
    /// empty. What the entries hold is overwritten by the next reading, and nothing is cleared.
    ///
    /// # Panics
    ///
    /// Where the archive that is linked has another interface than this crate was written for (docs/INTERFACE.md), so that what it
    /// leaves would be misread. Nothing reaches the archive without tables, a splitter, a tally or a draft, so no call goes to such a one.
    ///
    /// ```
    /// use khamdoriem::{ElementEntry, ParamEntry, Tables};
    ///
    /// let (mut elements, mut params) = ([ElementEntry::EMPTY; 8], [ParamEntry::EMPTY; 32]);
    /// let mut tables = Tables::over(&mut elements, &mut params);
    /// let reading = tables.read_strict(br#"<13>1 - gate7 reader 42 TAP [stage@32473 ms="212"] ok"#)?;
    /// assert_eq!(reading.elements().len(), 1);
    /// # Ok::<(), khamdoriem::Refusal>(())
    /// ```
    pub fn over(elements: &'memory mut [ElementEntry], params: &'memory mut [ParamEntry]) -> Tables<'memory> {
        Tables::of(Memory::Lent(elements), Memory::Lent(params))
    }

    fn of(elements: Memory<'memory, ElementEntry>, params: Memory<'memory, ParamEntry>) -> Tables<'memory> {
        sys::check_interface();
        Tables { elements, params, record: Record::EMPTY }
    }

    /// How many elements a reading may have.
    pub fn element_capacity(&self) -> usize {
        self.elements.len()
    }

    /// How many parameters a reading may have.
    pub fn param_capacity(&self) -> usize {
        self.params.len()
    }

    /// Reads a line by the loose rules. A line that has no reading is answered whole: as the message, untrimmed, of protocol RFC
    /// 3164, with nothing else set.
    ///
    /// # Errors
    ///
    /// [`LineTooLong`](Refusal::LineTooLong), [`NotUtf8`](Refusal::NotUtf8), [`TooManyElements`](Refusal::TooManyElements),
    /// [`TooManyParams`](Refusal::TooManyParams): the first that applies.
    ///
    /// ```
    /// use khamdoriem::{LooseAnswer, Offset, Refusal, Settings, Tables, Variant, Year};
    ///
    /// let settings = Settings::new(Variant::Either, Year::new(2023).unwrap(), Offset::from_minutes(60).unwrap());
    /// let mut tables = Tables::new(4, 16);
    /// let reading = tables.read_loose(b"<13>Feb  5 10:01:02 gate7 reader[42]: tap ok", settings)?.exact()?;
    /// assert_eq!(reading.process_id(), Some(&b"42"[..]));
    /// assert_eq!(reading.timestamp().unwrap().seconds(), 1_675_587_662);
    ///
    /// assert!(matches!(tables.read_loose(b"tap ok", settings)?, LooseAnswer::Whole(_)));
    /// # Ok::<(), Refusal>(())
    /// ```
    pub fn read_loose<'line, 'tables>(
        &'tables mut self,
        line: &'line [u8],
        settings: Settings,
    ) -> Result<LooseAnswer<'line, 'tables>, Refusal> {
        let record = self.record.memory();
        let answer = sys::read_loose(line, settings.numbers(), &mut self.elements, &mut self.params, record);
        Refusal::check(answer.number)?;
        let reading = self.reading(line);
        Ok(match answer.whole {
            0 => LooseAnswer::Read(reading),
            _ => LooseAnswer::Whole(WholeLine::new(reading)),
        })
    }

    /// Reads a line by the loose rules, with the settings that a site's file has for its gate. Variant, year and offset are the
    /// record's; the host is the line's own, or where it has none the record's.
    ///
    /// # Errors
    ///
    /// Those of [`SettingsFile::gate`], and then [`LineTooLong`](Refusal::LineTooLong), [`NotUtf8`](Refusal::NotUtf8),
    /// [`NoReading`](Refusal::NoReading), [`TooManyElements`](Refusal::TooManyElements), [`TooManyParams`](Refusal::TooManyParams):
    /// the first that applies.
    ///
    /// ```
    /// use khamdoriem::{Gate, SettingsFile, Tables};
    ///
    /// let file = *b"\x01\x05\xEA\x07\x3C\x00\x07\x00depot\0\0\0\0\0\0\0\0\0\0\0\0\0\0\0\0\0\0\0";
    /// let file = SettingsFile::new(&file);
    /// let mut tables = Tables::new(4, 16);
    ///
    /// let own = tables.read_with(file, Gate(7), b"<13>1 - gate7 reader 42 TAP - ok")?;
    /// assert_eq!((own.host_str(), own.is_default()), (Some("gate7"), false));
    ///
    /// let none = tables.read_with(file, Gate(7), b"<13>1 - - reader 42 TAP - ok")?;
    /// assert_eq!((none.host_str(), none.is_default()), (Some("depot"), true));
    /// assert_eq!(none.reading().app_name_str(), Some("reader"));
    /// # Ok::<(), khamdoriem::Refusal>(())
    /// ```
    pub fn read_with<'lent, 'tables>(
        &'tables mut self,
        file: SettingsFile<'lent>,
        gate: Gate,
        line: &'lent [u8],
    ) -> Result<SiteReading<'lent, 'tables>, Refusal> {
        let (elements, params, record) = (&mut self.elements, &mut self.params, self.record.memory());
        let answer = sys::read_with_settings(file.bytes(), gate.0.into(), line, elements, params, record);
        Refusal::check_settings(answer.number)?;
        Ok(SiteReading::new(self.reading(line), file, answer))
    }

    /// Reads a line by the grammar of RFC 5424, section 6: it is taken exactly when the grammar derives it. Where it is not,
    /// [`NoReading`](Refusal::NoReading) says how far it is right.
    ///
    /// # Errors
    ///
    /// [`LineTooLong`](Refusal::LineTooLong), [`NoReading`](Refusal::NoReading),
    /// [`TooManyElements`](Refusal::TooManyElements), [`TooManyParams`](Refusal::TooManyParams): the first that applies.
    pub fn read_strict<'line, 'tables>(
        &'tables mut self,
        line: &'line [u8],
    ) -> Result<Reading<'line, 'tables, Strict>, Refusal> {
        let answer = sys::read_strict(line, &mut self.elements, &mut self.params, self.record.memory());
        Refusal::check_strict(answer)?;
        Ok(self.reading(line))
    }

    /// Reads a line strictly where the grammar of RFC 5424 derives it, and else by the loose rules.
    ///
    /// # Errors
    ///
    /// The strict reader's but [`NoReading`](Refusal::NoReading), and then the loose reader's.
    ///
    /// ```
    /// use khamdoriem::{Answer, Offset, Reading, Refusal, Settings, Tables, Variant, Year};
    ///
    /// const SETTINGS: Settings = Settings::new(Variant::Either, Year::MIN, Offset::UTC);
    ///
    /// fn read<'line, 'tables>(
    ///     line: &'line [u8],
    ///     tables: &'tables mut Tables<'_>,
    /// ) -> Result<Reading<'line, 'tables>, Refusal> {
    ///     match tables.read_strict_or_loose(line, SETTINGS)? {
    ///         Answer::Strict(reading) => reading.into_loose(),
    ///         Answer::Loose(answer) => answer.exact(),
    ///     }
    /// }
    ///
    /// let mut tables = Tables::new(4, 16);
    /// assert_eq!(read(b"<13>1 - gate7 reader 42 TAP - ok", &mut tables)?.host_str(), Some("gate7"));
    /// assert_eq!(read(b"<13>- gate7 reader[42]: ok", &mut tables)?.host_str(), Some("gate7"));
    /// # Ok::<(), Refusal>(())
    /// ```
    ///
    /// Of two calls the borrow checker would not have it: the first one's tables are lent until the function returns.
    ///
    /// ```compile_fail,E0499
    /// # use khamdoriem::{Offset, Reading, Refusal, Settings, Tables, Variant, Year};
    /// # const SETTINGS: Settings = Settings::new(Variant::Either, Year::MIN, Offset::UTC);
    /// # fn read<'line, 'tables>(line: &'line [u8], tables: &'tables mut Tables<'_>) -> Result<Reading<'line, 'tables>, Refusal> {
    /// match tables.read_strict(line) {
    ///     Ok(reading) => reading.into_loose(),
    ///     Err(_) => tables.read_loose(line, SETTINGS)?.exact(),
    /// }
    /// # }
    /// ```
    pub fn read_strict_or_loose<'line, 'tables>(
        &'tables mut self,
        line: &'line [u8],
        settings: Settings,
    ) -> Result<Answer<'line, 'tables>, Refusal> {
        let answer = sys::read_strict(line, &mut self.elements, &mut self.params, self.record.memory());
        match Refusal::check_strict(answer) {
            Ok(()) => Ok(Answer::Strict(self.reading(line))),
            Err(Refusal::NoReading { .. }) => self.read_loose(line, settings).map(Answer::Loose),
            Err(refusal) => Err(refusal),
        }
    }

    /// The memory of both tables, for a call that keeps no record here.
    pub(crate) fn entries(&mut self) -> (&mut [ElementEntry], &mut [ParamEntry]) {
        (&mut self.elements, &mut self.params)
    }

    /// The parameter of a line that a call has left here, by the number of its entry.
    pub(crate) fn param<'line>(&self, line: &'line [u8], entry: usize) -> Param<'line> {
        Param::new(line, &self.elements, self.params[entry])
    }

    /// The reading that a reader of this kind has left here.
    fn reading<'line, Kind>(&self, line: &'line [u8]) -> Reading<'line, '_, Kind> {
        let elements = &self.elements[..self.record.elements()];
        let params = &self.params[..self.record.params()];
        Reading::new(line, &self.record, elements, params)
    }
}

impl fmt::Debug for Tables<'_> {
    /// Says how long the tables are: what they hold belongs to a reading.
    fn fmt(&self, f: &mut fmt::Formatter<'_>) -> fmt::Result {
        f.debug_struct("Tables")
            .field("element_capacity", &self.element_capacity())
            .field("param_capacity", &self.param_capacity())
            .finish_non_exhaustive()
    }
}
