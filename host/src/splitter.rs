//! Streams of frames, as they come over TCP.

use core::fmt;

use crate::memory::Memory;
use crate::refusal::Refusal;
use crate::sys::{self, StreamState};
use crate::MAX_LINE;

/// How one frame of a stream ends and the next begins, by RFC 6587.
#[derive(Clone, Copy, Debug, PartialEq, Eq, Hash)]
pub enum Framing {
    /// A count of one to six digits, the first of them 1 to 9, a space, and so many bytes.
    Counted,
    /// The bytes up to LF, which is not of the frame. An empty line is an empty frame, and CR is a byte like others.
    Lines,
}

impl Framing {
    const fn kind(self) -> u32 {
        match self {
            Framing::Counted => 0,
            Framing::Lines => 1,
        }
    }
}

/// What a call of [`Splitter::feed`] answers.
#[derive(Clone, Copy, Debug, PartialEq, Eq)]
pub struct Fed<'buffer> {
    /// How many of the bytes were taken. The others are for the next call.
    pub taken: usize,
    /// What came of them.
    pub event: Event<'buffer>,
}

/// What comes of bytes that are fed.
#[derive(Clone, Copy, Debug, PartialEq, Eq)]
pub enum Event<'buffer> {
    /// All bytes were taken, and no frame is complete.
    More,
    /// A frame, at most [`MAX_LINE`] bytes, so a line that no reader refuses for its length.
    Frame(&'buffer [u8]),
    /// [`BadCount`](Refusal::BadCount): the stream has ended. [`FrameTooLong`](Refusal::FrameTooLong): the frame was passed over, and the
    /// splitter's [`buffer`](Splitter::buffer) has its first 8,192 bytes.
    Refused(Refusal),
}

impl<'buffer> Event<'buffer> {
    /// The frame, if there is one, or the refusal.
    ///
    /// # Errors
    ///
    /// That of [`Event::Refused`].
    pub fn frame(self) -> Result<Option<&'buffer [u8]>, Refusal> {
        match self {
            Event::More => Ok(None),
            Event::Frame(frame) => Ok(Some(frame)),
            Event::Refused(refusal) => Err(refusal),
        }
    }
}

/// Cuts a stream into frames, fed any number of bytes at a time, none too. It holds one frame, in a buffer of 8,192 bytes, and lends
/// it when it is complete. However the stream is cut into calls, frames, refusals and the state at its end are the same: that is proved.
///
/// ```
/// use khamdoriem::{Event, Framing, Splitter};
///
/// let mut splitter = Splitter::new(Framing::Counted); // one for each connection
/// let mut seen = Vec::new();
/// for piece in [&b"5 hel"[..], b"", b"lo3 ab", b"c2", b"7 "] {
///     let mut bytes = piece;
///     while !bytes.is_empty() {
///         let fed = splitter.feed(bytes);
///         bytes = &bytes[fed.taken..];
///         match fed.event {
///             Event::Frame(frame) => seen.push(frame.to_vec()), // to be read as a line
///             Event::More => {}
///             Event::Refused(refusal) => println!("refusal {}: {refusal}", refusal.number()),
///         }
///     }
/// }
/// assert_eq!(seen, [&b"hello"[..], b"abc"]);
/// assert_eq!(splitter.finish(), 0); // of the frame of 27 bytes none has come
/// ```
///
/// A frame lies in the buffer, so nothing is fed while something looks at it:
///
/// ```compile_fail,E0499
/// use khamdoriem::{Framing, Splitter};
///
/// let mut splitter = Splitter::new(Framing::Lines);
/// let first = splitter.feed(b"one\n");
/// let second = splitter.feed(b"two\n");
/// println!("{first:?}"); // the buffer holds the second
/// ```
///
/// Its buffer is its own (`new`, with the feature `std`) or lent (`over`).
pub struct Splitter<'memory> {
    framing: Framing,
    state: StreamState,
    buffer: Memory<'memory, u8>,
}

/// What came of bytes, without the frame itself.
pub(crate) enum Told {
    More,
    Frame(usize),
    Refused(Refusal),
}

#[cfg(feature = "std")]
impl Splitter<'static> {
    /// A splitter at the start of a stream.
    ///
    /// # Panics
    ///
    /// As [`over`](Splitter::over).
    pub fn new(framing: Framing) -> Splitter<'static> {
        Splitter::of(framing, Memory::Owned(std::vec![0; MAX_LINE].into_boxed_slice()))
    }
}

impl<'memory> Splitter<'memory> {
    /// A splitter at the start of a stream, over a buffer that is lent. What that holds is of no account, and is not cleared.
    ///
    /// # Panics
    ///
    /// Where the archive that is linked has another interface than this crate was written for (docs/INTERFACE.md).
    ///
    /// ```
    /// use khamdoriem::{Framing, Splitter, MAX_LINE};
    ///
    /// let mut buffer = [0; MAX_LINE];
    /// let mut splitter = Splitter::over(Framing::Lines, &mut buffer);
    /// let fed = splitter.feed(b"one\ntwo\n");
    /// assert_eq!((fed.taken, fed.event.frame()), (4, Ok(Some(&b"one"[..]))));
    /// ```
    pub fn over(framing: Framing, buffer: &'memory mut [u8; MAX_LINE]) -> Splitter<'memory> {
        Splitter::of(framing, Memory::Lent(buffer))
    }

    fn of(framing: Framing, buffer: Memory<'memory, u8>) -> Splitter<'memory> {
        sys::check_interface();
        Splitter { framing, state: sys::stream_start(framing.kind()).state, buffer }
    }

    /// How frames are told apart.
    pub fn framing(&self) -> Framing {
        self.framing
    }

    /// Takes bytes up to the end of a frame or to a refusal, and says how many those were. Call it again with the others.
    ///
    /// A bad count ends the stream. Each call with a byte or more then takes one and is refused with
    /// [`BadCount`](Refusal::BadCount) again, until a restart.
    pub fn feed(&mut self, bytes: &[u8]) -> Fed<'_> {
        let (taken, told) = self.take(bytes);
        let event = match told {
            Told::More => Event::More,
            Told::Frame(len) => Event::Frame(&self.buffer[..len]),
            Told::Refused(refusal) => Event::Refused(refusal),
        };
        Fed { taken, event }
    }

    /// The same; where there is a frame, its length in the place of the frame.
    pub(crate) fn take(&mut self, bytes: &[u8]) -> (usize, Told) {
        let answer = sys::stream_feed(self.state, bytes, &mut self.buffer);
        self.state = answer.state;
        let told = match Refusal::check(answer.number) {
            Err(refusal) => Told::Refused(refusal),
            Ok(()) if answer.frame == 0 => Told::More,
            Ok(()) => Told::Frame(answer.len),
        };
        (answer.taken, told)
    }

    /// The end of the stream: how many content bytes came of a frame that is not complete, passed over or not, and `u32::MAX` if more.
    /// Such a frame is not handed out; [`held`](Splitter::held) has the front of it. The stream may go on nevertheless.
    ///
    /// ```
    /// use khamdoriem::{Event, Framing, Splitter};
    ///
    /// let mut splitter = Splitter::new(Framing::Lines);
    /// assert_eq!(splitter.feed(b"the last li").event, Event::More);
    /// assert_eq!((splitter.finish(), splitter.held()), (11, &b"the last li"[..]));
    /// ```
    pub fn finish(&self) -> u32 {
        sys::stream_finish(self.state).unfinished
    }

    /// The content bytes of a frame that is not complete, no more than the first 8,192.
    pub fn held(&self) -> &[u8] {
        let came = self.finish() as usize;
        &self.buffer[..came.min(MAX_LINE)]
    }

    /// The buffer as the last call left it. After [`FrameTooLong`](Refusal::FrameTooLong) it is the front of the frame that was passed over.
    pub fn buffer(&self) -> &[u8] {
        &self.buffer
    }

    /// Starts anew, whatever came before.
    ///
    /// ```
    /// use khamdoriem::{Event, Framing, Refusal, Splitter};
    ///
    /// let mut splitter = Splitter::new(Framing::Counted);
    /// assert_eq!(splitter.feed(b"<13>").event, Event::Refused(Refusal::BadCount));
    /// splitter.restart();
    /// assert_eq!(splitter.feed(b"2 ok").event, Event::Frame(b"ok"));
    /// ```
    pub fn restart(&mut self) {
        self.state = sys::stream_start(self.framing.kind()).state;
    }
}

impl fmt::Debug for Splitter<'_> {
    /// Says where the stream stands: what the buffer holds is a frame's.
    fn fmt(&self, f: &mut fmt::Formatter<'_>) -> fmt::Result {
        f.debug_struct("Splitter")
            .field("framing", &self.framing)
            .field("unfinished", &self.finish())
            .finish_non_exhaustive()
    }
}
