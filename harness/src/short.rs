//! Every short string over a small alphabet, in several contexts: first all of no letter in each context, then all of one, and so on.

struct Context {
    before: &'static str,
    after: &'static str,
    letters: &'static [&'static str],
}

const STRUCTURE: &[&str] = &["[", "]", "\"", "\\", "=", " ", "a", "-", "n"];
const HEADER: &[&str] = &["h", "-", ":", " ", "[", "]", "7", "\t", "\u{85}"];
const STAMP: &[&str] = &["0", "1", "9", ":", " ", "2", "-", "T"];
const VALUE: &[&str] = &["\\", "\"", "]", "n", "a", " ", "\u{e9}"];

const CONTEXTS: [Context; 22] = [
    Context { before: "", after: "", letters: &["<", ">", "1", "-", " ", "a", ":", "[", "\u{a0}"] },
    Context { before: "<13>", after: "", letters: &["1", "-", " ", "x", ":", "\t", "["] },
    Context { before: "<13>1 - h a p m ", after: "", letters: STRUCTURE },
    Context { before: "<13>1 - h a p m ", after: " x", letters: STRUCTURE },
    Context { before: "<13>1 - h a p m [", after: "] x", letters: STRUCTURE },
    Context { before: "<13>1 - h a p m [i", after: "\"]x", letters: STRUCTURE },
    Context { before: "<13>1 - h a p m [i a=\"", after: "\"] x", letters: VALUE },
    Context { before: "<13>1 - h a p m [i a=\"b\"", after: "] x", letters: STRUCTURE },
    Context { before: "<13>1 - h a p m [i a=\"b\"]", after: "[j c=\"d\"] x", letters: STRUCTURE },
    Context { before: "<13>Feb 5 10:01:02", after: "", letters: HEADER },
    Context { before: "<13>Feb 5 10:01:02 ", after: " m", letters: HEADER },
    Context { before: "<13>Feb 5 10:01:02 h", after: "t: m", letters: HEADER },
    Context { before: "<13>Feb 5 10:01:02 h t: ", after: "", letters: STRUCTURE },
    Context { before: "<13>Feb 5 10:01:02 h t: [i a=\"", after: "\"] m", letters: VALUE },
    Context { before: "<13>Feb 5 10:01:02 h t: [i a=\"b\"]", after: "m", letters: STRUCTURE },
    Context { before: "<13>1 ", after: " h a p m - x", letters: STAMP },
    Context { before: "<13>1 - ", after: " - x", letters: HEADER },
    Context { before: "<", after: ">1 - - - - - -", letters: &["0", "1", "2", "5", "9", "+"] },
    Context { before: "<13>Feb 2", after: ":59 h t: m", letters: &["0", "3", "9", ":", " ", "\t"] },
    Context { before: "<13>1 2024-02-29T23:59:59", after: " h a p m - x", letters: &["0", "1", ".", ":", "Z", "+", "-", "z", "\u{2212}"] },
    Context { before: "<13>20", after: "T10:01:02Z h t: m", letters: &["0", "1", "2", "3", "9", "-"] },
    Context { before: "<13>1 2023-02-05", after: "+01:00 h a p m - x", letters: &["T", "2", "0", "6", ":", ".", " "] },
];

pub struct Short {
    left: u64,
    step: u64,
    context: usize,
    letters: u32,
    index: u64,
}

impl Short {
    pub fn new(part: u64, parts: u64) -> Self {
        Short { left: part, step: parts, context: 0, letters: 0, index: 0 }
    }

    /// The next string of this part's share.
    pub fn next(&mut self, line: &mut Vec<u8>) {
        for _ in 0..self.left {
            self.advance();
        }
        self.left = self.step;
        let context = &CONTEXTS[self.context];
        line.extend_from_slice(context.before.as_bytes());
        let mut index = self.index;
        for _ in 0..self.letters {
            line.extend_from_slice(context.letters[(index % context.letters.len() as u64) as usize].as_bytes());
            index /= context.letters.len() as u64;
        }
        line.extend_from_slice(context.after.as_bytes());
    }

    fn advance(&mut self) {
        self.index += 1;
        if self.index < (CONTEXTS[self.context].letters.len() as u64).pow(self.letters) {
            return;
        }
        self.index = 0;
        self.context += 1;
        if self.context == CONTEXTS.len() {
            self.context = 0;
            self.letters += 1;
        }
    }

    /// How many letters all strings have been gone through with.
    pub fn done(&self) -> u32 {
        self.letters
    }
}
