//! The structured data of a reading, element by element.

use core::fmt;
use core::iter::FusedIterator;
use core::slice;

use crate::reading::{result, Shown};
use crate::record::{part, Record};
use crate::refusal::Refusal;
use crate::sys::{self, ElementEntry, Lent, ParamEntry};

/// How a parameter's value is unescaped. Either way a backslash before `"`, `\` or `]` goes.
#[derive(Clone, Copy, Debug, PartialEq, Eq, Hash)]
pub enum Unescape {
    /// `\n` is a newline, and a lone backslash at the end goes.
    Loose,
    /// `\n` stays two characters, as in RFC 5424, and a lone backslash at the end stays.
    Strict,
}

impl Unescape {
    pub(crate) const fn number(self) -> u32 {
        match self {
            Unescape::Loose => 0,
            Unescape::Strict => 1,
        }
    }
}

/// An iterator over the elements of a [`Reading`](crate::Reading), in the order of the line.
#[derive(Clone)]
pub struct Elements<'line, 'tables> {
    line: &'line [u8],
    elements: &'tables [ElementEntry],
    /// The number of the next element.
    next: usize,
    /// The parameters of the elements that are to come: they are in the order of their elements' numbers.
    params: &'tables [ParamEntry],
}

impl<'line, 'tables> Elements<'line, 'tables> {
    pub(crate) fn new(line: &'line [u8], elements: &'tables [ElementEntry], params: &'tables [ParamEntry]) -> Self {
        Elements { line, elements, next: 0, params }
    }
}

impl<'line, 'tables> Iterator for Elements<'line, 'tables> {
    type Item = Element<'line, 'tables>;

    fn next(&mut self) -> Option<Element<'line, 'tables>> {
        let id = part(self.line, self.elements.get(self.next)?.0);
        let count = self.params.iter().take_while(|entry| entry.0[0] == self.next).count();
        let (own, rest) = self.params.split_at(count);
        self.params = rest;
        self.next += 1;
        Some(Element { id, params: Params::new(self.line, self.elements, own) })
    }

    fn size_hint(&self) -> (usize, Option<usize>) {
        let left = self.elements.len() - self.next;
        (left, Some(left))
    }
}

impl ExactSizeIterator for Elements<'_, '_> {}
impl FusedIterator for Elements<'_, '_> {}

impl fmt::Debug for Elements<'_, '_> {
    fn fmt(&self, f: &mut fmt::Formatter<'_>) -> fmt::Result {
        f.debug_list().entries(self.clone()).finish()
    }
}

/// An iterator over the elements of a [`Reading`](crate::Reading) with one id, in the order of the line:
/// [`elements_with`](crate::Reading::elements_with).
#[derive(Clone)]
pub struct ElementsWith<'line, 'tables, 'id> {
    elements: Elements<'line, 'tables>,
    id: &'id [u8],
}

impl<'line, 'tables, 'id> ElementsWith<'line, 'tables, 'id> {
    pub(crate) fn new(elements: Elements<'line, 'tables>, id: &'id [u8]) -> Self {
        ElementsWith { elements, id }
    }
}

impl<'line, 'tables> Iterator for ElementsWith<'line, 'tables, '_> {
    type Item = Element<'line, 'tables>;

    fn next(&mut self) -> Option<Element<'line, 'tables>> {
        let id = self.id;
        self.elements.find(|element| element.id == id)
    }

    fn size_hint(&self) -> (usize, Option<usize>) {
        (0, Some(self.elements.len()))
    }
}

impl FusedIterator for ElementsWith<'_, '_, '_> {}

impl fmt::Debug for ElementsWith<'_, '_, '_> {
    fn fmt(&self, f: &mut fmt::Formatter<'_>) -> fmt::Result {
        f.debug_list().entries(self.clone()).finish()
    }
}

/// An element of the structured data.
#[derive(Clone)]
pub struct Element<'line, 'tables> {
    id: &'line [u8],
    params: Params<'line, 'tables>,
}

impl<'line, 'tables> Element<'line, 'tables> {
    /// The id.
    pub fn id(&self) -> &'line [u8] {
        self.id
    }

    /// The parameters, in the order of the line.
    pub fn params(&self) -> Params<'line, 'tables> {
        self.params.clone()
    }

    /// The first parameter with this name. It has the value both ways: [`value`](Param::value) as the line writes it, and
    /// [`unescaped`](Param::unescaped).
    ///
    /// ```
    /// # let mut tables = khamdoriem::Tables::new(4, 16);
    /// let reading = tables.read_strict(br#"<13>1 - gate7 reader 42 TAP [stage@32473 name="denylist" ms="212"] ok"#)?;
    /// let stage = reading.elements().next().unwrap();
    /// assert_eq!(stage.get("ms").map(|ms| ms.value()), Some(&b"212"[..]));
    /// assert!(stage.get("us").is_none());
    /// # Ok::<(), khamdoriem::Refusal>(())
    /// ```
    pub fn get(&self, name: &(impl AsRef<[u8]> + ?Sized)) -> Option<Param<'line>> {
        self.params().find(|param| param.name() == name.as_ref())
    }
}

impl fmt::Debug for Element<'_, '_> {
    fn fmt(&self, f: &mut fmt::Formatter<'_>) -> fmt::Result {
        f.debug_struct("Element").field("id", &Shown(self.id)).field("params", &self.params).finish()
    }
}

/// An iterator over parameters: of an [`Element`], or of all of a [`Reading`](crate::Reading).
#[derive(Clone)]
pub struct Params<'line, 'tables> {
    line: &'line [u8],
    elements: &'tables [ElementEntry],
    entries: slice::Iter<'tables, ParamEntry>,
}

impl<'line, 'tables> Params<'line, 'tables> {
    pub(crate) fn new(line: &'line [u8], elements: &'tables [ElementEntry], params: &'tables [ParamEntry]) -> Self {
        Params { line, elements, entries: params.iter() }
    }
}

impl<'line> Iterator for Params<'line, '_> {
    type Item = Param<'line>;

    fn next(&mut self) -> Option<Param<'line>> {
        let entry = self.entries.next()?;
        Some(Param::new(self.line, self.elements, *entry))
    }

    fn size_hint(&self) -> (usize, Option<usize>) {
        self.entries.size_hint()
    }
}

impl ExactSizeIterator for Params<'_, '_> {}
impl FusedIterator for Params<'_, '_> {}

impl fmt::Debug for Params<'_, '_> {
    fn fmt(&self, f: &mut fmt::Formatter<'_>) -> fmt::Result {
        f.debug_list().entries(self.clone()).finish()
    }
}

/// A parameter of an element.
#[derive(Clone, Copy)]
pub struct Param<'line> {
    line: &'line [u8],
    id: [usize; 2],
    name: [usize; 2],
    value: [usize; 2],
}

impl<'line> Param<'line> {
    pub(crate) fn new(line: &'line [u8], elements: &[ElementEntry], entry: ParamEntry) -> Param<'line> {
        let [number, name_start, name_len, value_start, value_len] = entry.0;
        Param { line, id: elements[number].0, name: [name_start, name_len], value: [value_start, value_len] }
    }

    /// The id of its element.
    pub fn id(&self) -> &'line [u8] {
        part(self.line, self.id)
    }

    /// The name.
    pub fn name(&self) -> &'line [u8] {
        part(self.line, self.name)
    }

    /// The value as the line writes it, between its quotes, escapes and all.
    pub fn value(&self) -> &'line [u8] {
        part(self.line, self.value)
    }

    /// Writes the value, unescaped, at the front of `output` and answers the part that was written. The bytes past it are kept.
    /// It is never longer than [`value`](Param::value).
    ///
    /// # Errors
    ///
    /// [`OutputTooShort`](Refusal::OutputTooShort); the output is then as it was.
    ///
    /// ```
    /// use khamdoriem::Unescape;
    ///
    /// # let mut tables = khamdoriem::Tables::new(4, 16);
    /// let reading = tables.read_strict(br#"<13>1 - gate7 reader 42 TAP [stage@32473 name="deny\"list\""] ok"#)?;
    /// let param = reading.params().next().unwrap();
    /// assert_eq!(param.value(), br#"deny\"list\""#);
    /// let mut output = [0; 64];
    /// assert_eq!(param.unescaped(Unescape::Strict, &mut output)?, br#"deny"list""#);
    /// # Ok::<(), khamdoriem::Refusal>(())
    /// ```
    pub fn unescaped<'output>(&self, unescape: Unescape, output: &'output mut [u8]) -> Result<&'output [u8], Refusal> {
        // Lookup finds the first of an id and a name, so it is given tables that hold this parameter alone.
        let ([name_start, name_len], [value_start, value_len]) = (self.name, self.value);
        let lent = Lent {
            line: self.line,
            record: Record::ONE_PARAM.bytes(),
            elements: &[ElementEntry(self.id)],
            params: &[ParamEntry([0, name_start, name_len, value_start, value_len])],
        };
        let written = sys::lookup(lent, self.id(), self.name(), unescape.number(), output);
        result(written, output)
    }
}

impl fmt::Debug for Param<'_> {
    fn fmt(&self, f: &mut fmt::Formatter<'_>) -> fmt::Result {
        f.debug_struct("Param").field("name", &Shown(self.name())).field("value", &Shown(self.value())).finish()
    }
}
