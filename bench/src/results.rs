//! What bench/run measured: rows of words, the last of which is a number.
//!
//!     kind KIND LINES BYTES            what the file has
//!     fills KIND ELEMENTS PARAMS BYTES what its lines have: elements, parameters, bytes of messages
//!     use WHAT CALLS [FOUND]           how often a reading is printed or looked up in, in a pass, and how often it has what is looked up
//!     peer READ REFUSED ELEMENTS PARAMS BYTES  how many of the lines of RFC 5424 go-syslog reads and refuses, and what they have
//!     answer SHAPE BYTES read|whole    whether a shaped line has a reading, or is the message whole
//!     answer SHAPE BYTES read|refused  the strict reader's answer, of a line of ids
//!     before SHAPE BYTES read|refused  the same, by the archive of --before
//!     elements SHAPE BYTES COUNT       how many elements a line of ids has
//!     reach SHAPE BYTES COUNT RIGHT    how far the strict reader says that a broken line is right, and how far it is
//!     insns WHAT READER COUNT          instructions of a pass over the lines of a kind, or over the uses of readings
//!     nanos WHAT READER COUNT          nanoseconds a line, call or frame, the median of nine, where the machine runs the program itself
//!     emulated WHAT READER COUNT       the same under the emulator
//!     shape SHAPE BYTES READER COUNT   instructions of one reading
//!     stream NAME BYTES CALLS FRAMES   what a stream has
//!     cutting NAME COUNT               instructions of cutting it once, in the functions of the archive
//!     tally NAME CALLS                 how often a call of a tally is made in a pass
//!     tallying NAME COUNT              instructions of the pass, in the functions of the archive
//!     site NAME CALLS                  how often a call of a settings file is made in a pass
//!     sited NAME COUNT                 instructions of the pass, in the functions of the archive
//!     claim NAME CALLS                 how often a line is read, or its claim checked, in a pass
//!     claimed NAME CALL COUNT          instructions of the pass, in the functions of the archive: strict or check
//!     write NAME CALLS BYTES           how often a line is written in a pass, and its length
//!     writing NAME COUNT               instructions of the pass, in the functions of the archive
//!     pairs NAME PAIRS BYTES           how many pairs of lines are compared in a pass, and how many bytes they have
//!     compared NAME read|compare COUNT instructions of a pass in the functions of the archive, of reading both lines or of comparing them
//!     function KIND READER NAME COUNT  instructions of a pass in one function
//!     about NAME WORDS..               the seed, the machine, the versions; native: the machine of the nanoseconds, timed: of what they are; peer, emulator: its version
//!
//! The readers are rust, loose, strict and those of readers.rs; rust-lto is the Rust with link-time optimisation, strict-before the strict one in the
//! archive of --before; peer is go-syslog with its collector off, peer_collected with it on.

pub struct Results(Vec<Vec<String>>);

impl Results {
    pub fn of(text: &str) -> Results {
        Results(text.lines().map(|l| l.split(' ').map(String::from).collect()).collect())
    }

    /// What stands behind the words `key` in each row that starts with them.
    pub fn behind<'a>(&'a self, key: &'a [&str]) -> impl Iterator<Item = &'a [String]> + 'a {
        let starts = move |row: &&Vec<String>| row.len() > key.len() && row.iter().zip(key).all(|(a, b)| a == b);
        self.0.iter().filter(starts).map(move |row| &row[key.len()..])
    }

    fn first<'a>(&'a self, key: &'a [&str]) -> Result<&'a [String], String> {
        self.behind(key).next().ok_or(format!("the results have no '{}'", key.join(" ")))
    }

    pub fn words(&self, key: &[&str]) -> Result<String, String> {
        Ok(self.first(key)?.join(" "))
    }

    pub fn number(&self, key: &[&str], i: usize) -> Result<f64, String> {
        let row = self.first(key)?;
        row.get(i).and_then(|w| w.parse().ok()).ok_or(format!("'{}' has no number", key.join(" ")))
    }

    /// The lines of a kind, or the calls of a use.
    pub fn count(&self, what: &str) -> Result<f64, String> {
        self.number(&["kind", what], 0).or(self.number(&["use", what], 0))
    }

    /// Instructions a line, or a call.
    pub fn a_line(&self, what: &str, reader: &str) -> Result<f64, String> {
        Ok(self.number(&["insns", what, reader], 0)? / self.count(what)?)
    }

    /// Instructions a byte of a shaped line.
    pub fn a_byte(&self, shape: &str, bytes: usize, reader: &str) -> Result<f64, String> {
        Ok(self.number(&["shape", shape, &bytes.to_string(), reader], 0)? / bytes as f64)
    }
}
