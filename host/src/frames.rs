//! The frames of a reader.

use std::error::Error;
use std::fmt;
use std::io::{self, BufRead, BufReader, Read};

use crate::refusal::Refusal;
use crate::splitter::{Framing, Splitter, Told};

/// How many bytes are asked of the reader at a time.
const PIECE: usize = 65_536;

/// Why there is no frame.
#[derive(Debug)]
#[non_exhaustive]
pub enum FrameError {
    /// [`FrameTooLong`](Refusal::FrameTooLong): a frame was passed over, and the next may be asked for.
    /// [`BadCount`](Refusal::BadCount): the stream has ended.
    Refused(Refusal),
    /// The reader's error. Nothing is lost by it: where the reader can go on, so can the frames.
    Read(io::Error),
}

impl fmt::Display for FrameError {
    fn fmt(&self, f: &mut fmt::Formatter<'_>) -> fmt::Result {
        match self {
            FrameError::Refused(refusal) => refusal.fmt(f),
            FrameError::Read(error) => error.fmt(f),
        }
    }
}

impl Error for FrameError {
    fn source(&self) -> Option<&(dyn Error + 'static)> {
        match self {
            FrameError::Refused(_) => None,
            FrameError::Read(error) => error.source(),
        }
    }
}

impl From<FrameError> for io::Error {
    /// The reader's error as it was; a refusal as invalid data.
    fn from(error: FrameError) -> io::Error {
        match error {
            FrameError::Refused(refusal) => io::Error::new(io::ErrorKind::InvalidData, refusal),
            FrameError::Read(error) => error,
        }
    }
}

/// The frames of a reader, as a connection, one after the other. Each lies in the splitter's buffer until the next is asked for, and is
/// not copied; so this is no `Iterator`, whose items would have to outlive each other.
///
/// ```
/// use khamdoriem::{FrameError, Frames, Framing};
///
/// let connection = &b"5 hello3 abc9 unfin"[..]; // or a TcpStream
/// let mut frames = Frames::new(connection, Framing::Counted);
/// let mut seen = Vec::new();
/// while let Some(frame) = frames.next_frame() {
///     match frame {
///         Ok(frame) => seen.push(frame.to_vec()), // to be read as a line
///         Err(FrameError::Refused(refusal)) => println!("refusal {}: {refusal}", refusal.number()),
///         Err(error) => return Err(error.into()),
///     }
/// }
/// assert_eq!(seen, [&b"hello"[..], b"abc"]);
/// assert_eq!(frames.finish(), 5); // bytes of a frame that never ended
/// # Ok::<(), std::io::Error>(())
/// ```
pub struct Frames<R> {
    reader: BufReader<R>,
    splitter: Splitter<'static>,
    ended: bool,
}

impl<R: Read> Frames<R> {
    /// The frames of what a reader is still to give. It is asked for 65,536 bytes at a time.
    ///
    /// # Panics
    ///
    /// As [`Splitter::over`].
    pub fn new(reader: R, framing: Framing) -> Frames<R> {
        Frames { reader: BufReader::with_capacity(PIECE, reader), splitter: Splitter::new(framing), ended: false }
    }

    /// The next frame, or why there is none; `None` at the end of the reader, and after a bad count, which is told once.
    ///
    /// # Errors
    ///
    /// [`FrameError`]: a refusal, or the reader's error, but for `Interrupted`, after which it is asked again.
    pub fn next_frame(&mut self) -> Option<Result<&[u8], FrameError>> {
        while !self.ended {
            let bytes = match self.reader.fill_buf() {
                Ok(bytes) if bytes.is_empty() => return None,
                Ok(bytes) => bytes,
                Err(error) if error.kind() == io::ErrorKind::Interrupted => continue,
                Err(error) => return Some(Err(FrameError::Read(error))),
            };
            let (taken, told) = self.splitter.take(bytes);
            self.reader.consume(taken);
            match told {
                Told::More => {}
                Told::Frame(len) => return Some(Ok(&self.splitter.buffer()[..len])),
                Told::Refused(refusal) => {
                    self.ended = refusal != Refusal::FrameTooLong;
                    return Some(Err(FrameError::Refused(refusal)));
                }
            }
        }
        None
    }

    /// How many content bytes came of a frame that is not complete: [`Splitter::finish`].
    pub fn finish(&self) -> u32 {
        self.splitter.finish()
    }

    /// The splitter, for what it [holds](Splitter::held) of a frame that is not complete, as the last line of a file that does not end
    /// with LF.
    pub fn splitter(&self) -> &Splitter<'static> {
        &self.splitter
    }

    /// The reader.
    pub fn get_ref(&self) -> &R {
        self.reader.get_ref()
    }
}

impl<R> fmt::Debug for Frames<R> {
    fn fmt(&self, f: &mut fmt::Formatter<'_>) -> fmt::Result {
        f.debug_struct("Frames").field("splitter", &self.splitter).field("ended", &self.ended).finish_non_exhaustive()
    }
}
