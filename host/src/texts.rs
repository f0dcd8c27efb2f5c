//! The texts of a reading as `str`. Nothing is checked: that they are UTF-8 is proved of the archive.
//!
//! Why each `unsafe` below is sound:
//!
//! - **Loose**. The loose reader takes lines of UTF-8 alone, and all texts that it leaves are UTF-8, of a whole line too:
//!   `WholeCharacters` in `crates/texts/specs/Texts.antt`, `loose` and `whole`. A strict reading becomes a loose one only where its
//!   message is UTF-8 ([`Reading::into_loose`]); its other texts are so by the next point, and then the line is.
//! - **Strict**. The grammar derives the line (`Derives` in `crates/grammar/specs/Line.antt`), so the texts of the header, the ids
//!   and the names are ASCII, and the values are UTF-8. Of the message nothing is known, and there is no `str` of it here.
//! - **Unescaped**. Of a value that is UTF-8 either unescaping makes UTF-8: `WholeCharacters`, `lookup`. It asks that of all texts,
//!   but what lookup writes depends on those of the tables alone (`Looks` in `crates/lookup/specs/Lookup.antt`), so a strict reading's
//!   message is of no account.
//! - **Settings**. The host of a settings record is bytes of 33 to 126: `in_range` in `crates/settings/specs/Record.antt`.
//! - **Printed**. Of texts that are UTF-8 printing makes UTF-8: `WholeCharacters`, `print`.
//!
//! A reading lets nobody change its line, its record or its tables, so what held when it was read holds while it lives. The archive
//! that is linked is taken to be the proved one, as everywhere in this crate; a build with debug assertions checks the bytes.

use core::str;

use crate::answer::WholeLine;
use crate::elements::{Element, Param, Unescape};
use crate::reading::{Loose, Reading, Strict};
use crate::refusal::Refusal;
use crate::site_reading::SiteReading;

/// The text that these bytes are.
///
/// # Safety
///
/// They are UTF-8.
unsafe fn text(bytes: &[u8]) -> &str {
    debug_assert!(str::from_utf8(bytes).is_ok(), "a text of a reading is not UTF-8: the archive is not the proved one");
    // SAFETY: the caller's word.
    unsafe { str::from_utf8_unchecked(bytes) }
}

impl<'line, Kind> Reading<'line, '_, Kind> {
    /// The [`host`](Reading::host).
    pub fn host_str(&self) -> Option<&'line str> {
        // SAFETY: Loose, Strict.
        self.host().map(|host| unsafe { text(host) })
    }

    /// The [`app_name`](Reading::app_name).
    pub fn app_name_str(&self) -> Option<&'line str> {
        // SAFETY: Loose, Strict.
        self.app_name().map(|name| unsafe { text(name) })
    }

    /// The [`process_id`](Reading::process_id).
    pub fn process_id_str(&self) -> Option<&'line str> {
        // SAFETY: Loose, Strict.
        self.process_id().map(|id| unsafe { text(id) })
    }

    /// The [`message_id`](Reading::message_id).
    pub fn message_id_str(&self) -> Option<&'line str> {
        // SAFETY: Loose, Strict.
        self.message_id().map(|id| unsafe { text(id) })
    }

    /// [`lookup`](Reading::lookup), with the result as a `str`.
    ///
    /// # Errors
    ///
    /// The same.
    pub fn lookup_str<'output>(
        &self,
        id: &(impl AsRef<[u8]> + ?Sized),
        name: &(impl AsRef<[u8]> + ?Sized),
        unescape: Unescape,
        output: &'output mut [u8],
    ) -> Result<&'output str, Refusal> {
        // SAFETY: Unescaped, of a value that is UTF-8 by Loose, Strict.
        self.lookup(id, name, unescape, output).map(|value| unsafe { text(value) })
    }
}

impl<'line> Reading<'line, '_, Loose> {
    /// The [`line`](Reading::line) that was read.
    pub fn line_str(&self) -> &'line str {
        // SAFETY: Loose.
        unsafe { text(self.line()) }
    }

    /// The [`message`](Reading::message).
    pub fn message_str(&self) -> &'line str {
        // SAFETY: Loose.
        unsafe { text(self.message()) }
    }

    /// [`print`](Reading::print), with the result as a `str`.
    ///
    /// # Errors
    ///
    /// The same.
    pub fn print_str<'output>(&self, output: &'output mut [u8]) -> Result<&'output str, Refusal> {
        // SAFETY: Printed, of texts that are UTF-8 by Loose.
        self.print(output).map(|printed| unsafe { text(printed) })
    }
}

impl<'line> Reading<'line, '_, Strict> {
    /// The [`timestamp_text`](Reading::timestamp_text).
    pub fn timestamp_text_str(&self) -> Option<&'line str> {
        // SAFETY: Strict.
        self.timestamp_text().map(|stamp| unsafe { text(stamp) })
    }
}

impl<'line> WholeLine<'line, '_> {
    /// The [`message`](WholeLine::message).
    pub fn message_str(&self) -> &'line str {
        // SAFETY: Loose.
        unsafe { text(self.message()) }
    }
}

impl<'lent> SiteReading<'lent, '_> {
    /// The [`host`](SiteReading::host).
    pub fn host_str(&self) -> Option<&'lent str> {
        // SAFETY: Loose, Settings.
        self.host().map(|host| unsafe { text(host) })
    }
}

impl<'line> Element<'line, '_> {
    /// The [`id`](Element::id).
    pub fn id_str(&self) -> &'line str {
        // SAFETY: Loose, Strict.
        unsafe { text(self.id()) }
    }
}

impl<'line> Param<'line> {
    /// The [`id`](Param::id) of its element.
    pub fn id_str(&self) -> &'line str {
        // SAFETY: Loose, Strict.
        unsafe { text(self.id()) }
    }

    /// The [`name`](Param::name).
    pub fn name_str(&self) -> &'line str {
        // SAFETY: Loose, Strict.
        unsafe { text(self.name()) }
    }

    /// The [`value`](Param::value), as the line writes it.
    pub fn value_str(&self) -> &'line str {
        // SAFETY: Loose, Strict.
        unsafe { text(self.value()) }
    }

    /// [`unescaped`](Param::unescaped), with the result as a `str`.
    ///
    /// # Errors
    ///
    /// The same.
    pub fn unescaped_str<'output>(
        &self,
        unescape: Unescape,
        output: &'output mut [u8],
    ) -> Result<&'output str, Refusal> {
        // SAFETY: Unescaped, of a value that is UTF-8 by Loose, Strict.
        self.unescaped(unescape, output).map(|value| unsafe { text(value) })
    }
}
