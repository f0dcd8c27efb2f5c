//! Memory that is lent, or its keeper's own.

use core::ops::{Deref, DerefMut};

/// Memory of entries or bytes.
pub(crate) enum Memory<'memory, Entry> {
    Lent(&'memory mut [Entry]),
    #[cfg(feature = "std")]
    Owned(std::boxed::Box<[Entry]>),
}

impl<Entry> Deref for Memory<'_, Entry> {
    type Target = [Entry];

    fn deref(&self) -> &[Entry] {
        match self {
            Memory::Lent(entries) => entries,
            #[cfg(feature = "std")]
            Memory::Owned(entries) => entries,
        }
    }
}

impl<Entry> DerefMut for Memory<'_, Entry> {
    fn deref_mut(&mut self) -> &mut [Entry] {
        match self {
            Memory::Lent(entries) => entries,
            #[cfg(feature = "std")]
            Memory::Owned(entries) => entries,
        }
    }
}
