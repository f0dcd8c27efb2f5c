//! The settings file of a site: a record of 32 bytes for each gate, and the settings that they hold.

use core::fmt;

use crate::reading::{result, Shown};
use crate::refusal::Refusal;
use crate::settings::{Offset, Settings, Variant, Year};
use crate::sys::{self, SettingsAnswer};

/// The number of a gate. Each of 16 bits is one.
#[derive(Clone, Copy, Debug, PartialEq, Eq, PartialOrd, Ord, Hash)]
pub struct Gate(pub u16);

impl From<u16> for Gate {
    fn from(number: u16) -> Gate {
        Gate(number)
    }
}

impl fmt::Display for Gate {
    fn fmt(&self, f: &mut fmt::Formatter<'_>) -> fmt::Result {
        self.0.fmt(f)
    }
}

/// The version of a record of a settings file.
#[derive(Clone, Copy, Debug, PartialEq, Eq, PartialOrd, Ord, Hash)]
pub enum SettingsVersion {
    /// Version 1, which has no variant: it means [`Variant::Either`].
    One,
    /// Version 2.
    Two,
}

impl SettingsVersion {
    /// 1 or 2.
    pub const fn number(self) -> u8 {
        match self {
            SettingsVersion::One => 1,
            SettingsVersion::Two => 2,
        }
    }

    const fn from_number(number: u32) -> Option<SettingsVersion> {
        match number {
            1 => Some(SettingsVersion::One),
            2 => Some(SettingsVersion::Two),
            _ => None,
        }
    }
}

/// The settings of a gate: what a record of a [`SettingsFile`] holds.
///
/// What is [written](GateSettings::write) is read back, and one text has one meaning: settings that were read write the bytes that they
/// were read from. Both are proved.
///
/// ```
/// use khamdoriem::{Gate, GateSettings, Offset, Settings, SettingsFile, SettingsVersion, Variant, Year};
///
/// let settings = GateSettings {
///     version: SettingsVersion::Two,
///     gate: Gate(7),
///     settings: Settings::new(Variant::Rfc3164, Year::new(2026).unwrap(), Offset::from_minutes(60).unwrap()),
///     host: Some(b"gate7.north"),
/// };
/// let mut record = [0; GateSettings::RECORD];
/// settings.write(&mut record)?;
/// assert_eq!(SettingsFile::new(&record).gate(Gate(7))?, settings);
/// # Ok::<(), khamdoriem::Refusal>(())
/// ```
#[derive(Clone, Copy, PartialEq, Eq, Hash)]
pub struct GateSettings<'file> {
    /// The version of the record.
    pub version: SettingsVersion,
    /// The gate.
    pub gate: Gate,
    /// What the loose reader is told: variant, year and offset.
    pub settings: Settings,
    /// The host of lines that name none, 1 to [`MAX_HOST`](GateSettings::MAX_HOST) bytes of 33 to 126.
    pub host: Option<&'file [u8]>,
}

impl GateSettings<'_> {
    /// How many bytes a record has.
    pub const RECORD: usize = 32;

    /// How many bytes a host may have.
    pub const MAX_HOST: usize = 20;

    /// Writes the settings as a record at the front of `output` and answers the part that was written, which has
    /// [`RECORD`](GateSettings::RECORD) bytes. Those past it are kept. An empty host is written as none.
    ///
    /// # Errors
    ///
    /// [`BadField`](Refusal::BadField), where the host has over 20 bytes or one outside 33 to 126, and in version 1 where the variant is
    /// not [`Variant::Either`]; [`OutputTooShort`](Refusal::OutputTooShort). The output is then as it was.
    ///
    /// # Panics
    ///
    /// If the archive that is linked has another interface than this crate.
    pub fn write<'output>(&self, output: &'output mut [u8]) -> Result<&'output [u8], Refusal> {
        sys::check_interface();
        let (version, gate) = (u32::from(self.version.number()), u32::from(self.gate.0));
        let host = self.host.unwrap_or_default();
        let written = sys::settings_write(version, gate, self.settings.numbers(), host, output);
        result(written, output)
    }
}

impl fmt::Debug for GateSettings<'_> {
    fn fmt(&self, f: &mut fmt::Formatter<'_>) -> fmt::Result {
        f.debug_struct("GateSettings")
            .field("version", &self.version)
            .field("gate", &self.gate)
            .field("settings", &self.settings)
            .field("host", &self.host.map(Shown))
            .finish()
    }
}

/// The settings file of a site, over its bytes: records of [`GateSettings::RECORD`] bytes, one behind the other.
///
/// The last record of a gate counts, and no other is judged, whatever it holds. Nothing is kept of a file but where it is, so a `SettingsFile`
/// is made and copied for nothing; a call goes through the records from the end of the file on.
///
/// ```
/// use khamdoriem::{Gate, Refusal, SettingsFile, Variant};
///
/// let file = *b"\x01\x05\xEA\x07\x3C\x00\x07\x00depot\0\0\0\0\0\0\0\0\0\0\0\0\0\0\0\0\0\0\0";
/// let file = SettingsFile::new(&file);
/// let gate = file.gate(Gate(7))?;
/// assert_eq!((gate.settings.year.get(), gate.settings.offset.minutes()), (2026, 60));
/// assert_eq!((gate.settings.variant, gate.host), (Variant::Either, Some(&b"depot"[..])));
/// assert_eq!(file.gate(Gate(8)), Err(Refusal::NoSuchGate));
/// # Ok::<(), Refusal>(())
/// ```
#[derive(Clone, Copy, PartialEq, Eq)]
pub struct SettingsFile<'file> {
    bytes: &'file [u8],
}

impl<'file> SettingsFile<'file> {
    /// The file with these bytes, whatever they are.
    ///
    /// # Panics
    ///
    /// If the archive that is linked has another interface than this crate.
    pub fn new(bytes: &'file [u8]) -> SettingsFile<'file> {
        sys::check_interface();
        SettingsFile { bytes }
    }

    /// The bytes.
    pub fn bytes(&self) -> &'file [u8] {
        self.bytes
    }

    /// The settings of a gate.
    ///
    /// # Errors
    ///
    /// [`BadLength`](Refusal::BadLength), [`NoSuchGate`](Refusal::NoSuchGate), [`UnknownVersion`](Refusal::UnknownVersion),
    /// [`BadField`](Refusal::BadField): the first that applies.
    pub fn gate(&self, gate: Gate) -> Result<GateSettings<'file>, Refusal> {
        self.settings_of(sys::settings_read(self.bytes, gate.0.into()))
    }

    /// The same by the reader that knows version 1 alone.
    ///
    /// # Errors
    ///
    /// The same; [`UnknownVersion`](Refusal::UnknownVersion) for version 2 too.
    pub fn gate_version_1(&self, gate: Gate) -> Result<GateSettings<'file>, Refusal> {
        self.settings_of(sys::settings_read_1(self.bytes, gate.0.into()))
    }

    fn settings_of(&self, answer: SettingsAnswer) -> Result<GateSettings<'file>, Refusal> {
        Refusal::check_settings(answer.number)?;
        let host = self.part(answer.host_start, answer.host_len);
        let held = || {
            Some(GateSettings {
                version: SettingsVersion::from_number(answer.version)?,
                gate: Gate(u16::try_from(answer.gate).ok()?),
                settings: Settings::new(
                    Variant::from_number(answer.variant)?,
                    Year::new(answer.year)?,
                    Offset::from_minutes(answer.offset)?,
                ),
                host: (!host.is_empty()).then_some(host),
            })
        };
        Ok(held().expect("the reader leaves settings in range"))
    }

    /// A part of the file.
    pub(crate) fn part(&self, start: usize, len: usize) -> &'file [u8] {
        &self.bytes[start..][..len]
    }
}

impl fmt::Debug for SettingsFile<'_> {
    /// Says how long the file is.
    fn fmt(&self, f: &mut fmt::Formatter<'_>) -> fmt::Result {
        f.debug_struct("SettingsFile").field("len", &self.bytes.len()).finish_non_exhaustive()
    }
}
