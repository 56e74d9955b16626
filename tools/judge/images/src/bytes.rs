//! What the four images share: numbers, marks, codes, texts and bundles.
//!
//! A `Reader` stands over one part of an image and knows where in the whole image it is, so that every refusal names a
//! byte. It can keep a log of what it read, field by field; that log is what `image show` prints.

use std::cell::{Cell, RefCell};
use std::fmt::{Display, Formatter};

/// Why some bytes are no image, and at which byte.
#[derive(Debug, Clone, PartialEq, Eq)]
pub struct Damage {
    pub at: usize,
    pub message: String,
}

impl Display for Damage {
    fn fmt(&self, formatter: &mut Formatter<'_>) -> std::fmt::Result {
        write!(formatter, "byte {}: {}", self.at, self.message)
    }
}

pub type Read<T> = Result<T, Damage>;

pub fn damage<T>(at: usize, message: impl Into<String>) -> Read<T> {
    Err(Damage { at, message: message.into() })
}

/// A value that has no image, because a part of it is too long for its count or it breaks a rule of its image.
#[derive(Debug, Clone, PartialEq, Eq)]
pub struct NoImage(pub String);

impl Display for NoImage {
    fn fmt(&self, formatter: &mut Formatter<'_>) -> std::fmt::Result {
        formatter.write_str(&self.0)
    }
}

pub type Written = Result<Vec<u8>, NoImage>;

/// The width of a count, in bytes.
#[derive(Debug, Clone, Copy, PartialEq, Eq)]
pub enum Width {
    /// In the statement and the catalogue.
    Two,
    /// In the row and the bound statement.
    Four,
}

impl Width {
    pub fn bytes(self) -> usize {
        match self {
            Width::Two => 2,
            Width::Four => 4,
        }
    }

    fn largest(self) -> usize {
        match self {
            Width::Two => u16::MAX as usize,
            Width::Four => u32::MAX as usize,
        }
    }
}

/// One field that was read: the bytes from `start` to `end`, how deep it lies, and what it says. A heading stands over
/// fields and has no bytes of its own.
#[derive(Debug, Clone, PartialEq, Eq)]
pub struct Field {
    pub start: usize,
    pub end: usize,
    pub depth: usize,
    pub heading: bool,
    pub text: String,
}

/// The fields read so far. A log that is off keeps nothing and makes no texts.
pub struct Log {
    on: bool,
    depth: Cell<usize>,
    fields: RefCell<Vec<Field>>,
}

impl Log {
    pub fn off() -> Self {
        Log { on: false, depth: Cell::new(0), fields: RefCell::new(Vec::new()) }
    }

    pub fn on() -> Self {
        Log { on: true, ..Log::off() }
    }

    pub fn into_fields(self) -> Vec<Field> {
        self.fields.into_inner()
    }

    fn add(&self, start: usize, end: usize, text: impl FnOnce() -> String) {
        self.push(start, end, false, text);
    }

    fn push(&self, start: usize, end: usize, heading: bool, text: impl FnOnce() -> String) {
        if self.on {
            let field = Field { start, end, depth: self.depth.get(), heading, text: text() };
            self.fields.borrow_mut().push(field);
        }
    }
}

/// A place in a part of an image.
#[derive(Clone, Copy)]
pub struct Reader<'a> {
    rest: &'a [u8],
    at: usize,
    log: &'a Log,
}

impl<'a> Reader<'a> {
    pub fn new(image: &'a [u8], log: &'a Log) -> Self {
        Reader { rest: image, at: 0, log }
    }

    /// The place in the whole image.
    pub fn at(&self) -> usize {
        self.at
    }

    pub fn logs(&self) -> bool {
        self.log.on
    }

    pub fn is_empty(&self) -> bool {
        self.rest.is_empty()
    }

    pub fn remaining(&self) -> usize {
        self.rest.len()
    }

    /// Cuts the next `length` bytes off as a part of their own.
    pub fn part(&mut self, length: usize, what: &str) -> Read<Reader<'a>> {
        if self.rest.len() < length {
            return damage(self.at, format!("{what}: {length} bytes are needed and {} are left", self.rest.len()));
        }
        let (head, tail) = self.rest.split_at(length);
        let part = Reader { rest: head, ..*self };
        self.rest = tail;
        self.at += length;
        Ok(part)
    }

    fn unlogged_number(&mut self, width: usize, what: &str) -> Read<u64> {
        let part = self.part(width, what)?;
        Ok(part.rest.iter().rev().fold(0, |sum, byte| sum << 8 | u64::from(*byte)))
    }

    pub fn number(&mut self, width: usize, what: &str) -> Read<u64> {
        let start = self.at;
        let number = self.unlogged_number(width, what)?;
        self.log.add(start, self.at, || format!("{what}: {number}"));
        Ok(number)
    }

    pub fn signed(&mut self, what: &str) -> Read<i64> {
        let start = self.at;
        let number = self.unlogged_number(8, what)? as i64;
        self.log.add(start, self.at, || format!("{what}: {number}"));
        Ok(number)
    }

    pub fn mark(&mut self, what: &str) -> Read<bool> {
        let start = self.at;
        let byte = self.unlogged_number(1, what)?;
        if byte > 1 {
            return damage(start, format!("{what}: a mark is 0 or 1, not {byte}"));
        }
        self.log.add(start, self.at, || format!("{what}: {}", if byte == 1 { "yes" } else { "no" }));
        Ok(byte == 1)
    }

    /// A code: its number indexes `meanings`.
    pub fn code(&mut self, what: &str, meanings: &[&str]) -> Read<usize> {
        let start = self.at;
        let byte = self.unlogged_number(1, what)? as usize;
        let Some(meaning) = meanings.get(byte) else {
            return damage(start, format!("{what}: {byte} is no code here, the last is {}", meanings.len() - 1));
        };
        self.log.add(start, self.at, || format!("{what}: {byte}, {meaning}"));
        Ok(byte)
    }

    /// The rest of the part, as a text.
    pub fn text(&mut self, what: &str) -> Read<String> {
        let start = self.at;
        match std::str::from_utf8(self.rest) {
            Ok(text) => {
                self.at += self.rest.len();
                self.rest = &[];
                self.log.add(start, self.at, || format!("{what}: {text:?}"));
                Ok(text.to_string())
            }
            Err(error) => damage(start + error.valid_up_to(), format!("{what}: the text is not UTF-8 here")),
        }
    }

    /// Nothing may stand behind the last field of a part.
    pub fn finish(&self, what: &str) -> Read<()> {
        if self.rest.is_empty() {
            return Ok(());
        }
        damage(self.at, format!("{what}: {} bytes stand behind its last field", self.rest.len()))
    }

    /// A bundle that fills the rest of the part.
    pub fn bundle(mut self, width: Width, what: &str) -> Read<Vec<Reader<'a>>> {
        let start = self.at;
        let count = self.unlogged_number(width.bytes(), what)? as usize;
        if self.rest.len() / width.bytes() < count {
            return damage(
                self.at,
                format!("{what}: {count} lengths are needed and {} bytes are left", self.rest.len()),
            );
        }
        let mut lengths = Vec::with_capacity(count);
        for _ in 0..count {
            lengths.push(self.unlogged_number(width.bytes(), what)? as usize);
        }
        let sum: usize = lengths.iter().sum();
        if sum != self.rest.len() {
            let have = self.rest.len();
            return damage(start, format!("{what}: the lengths add up to {sum}, and {have} bytes stand behind them"));
        }
        self.log.add(start, self.at, || contents(what, &lengths));
        lengths.iter().map(|length| self.part(*length, what)).collect()
    }

    /// A bundle of exactly N parts.
    pub fn record<const N: usize>(self, width: Width, what: &str) -> Read<[Reader<'a>; N]> {
        let start = self.at;
        let parts = self.bundle(width, what)?;
        let have = parts.len();
        match parts.try_into() {
            Ok(parts) => Ok(parts),
            Err(_) => damage(start, format!("{what}: a record of {N} parts has {have}")),
        }
    }

    /// A bundle whose parts are all read by `read`, which is told the place of its part.
    pub fn list<T>(
        self,
        width: Width,
        what: &str,
        entry: &str,
        mut read: impl FnMut(Reader<'a>) -> Read<T>,
    ) -> Read<Vec<T>> {
        let parts = self.bundle(width, what)?;
        let mut entries = Vec::with_capacity(parts.len());
        for (place, part) in parts.into_iter().enumerate() {
            entries.push(part.inside(|| format!("{entry} {place}"), || read(part))?);
        }
        Ok(entries)
    }

    /// Logs a heading for the rest of this part, and what `read` logs one step deeper.
    pub fn inside<T>(&self, heading: impl FnOnce() -> String, read: impl FnOnce() -> Read<T>) -> Read<T> {
        self.log.push(self.at, self.at + self.rest.len(), true, heading);
        self.log.depth.set(self.log.depth.get() + 1);
        let result = read();
        self.log.depth.set(self.log.depth.get() - 1);
        result
    }

    /// The same place, logging elsewhere.
    pub fn with_log<'b>(&self, log: &'b Log) -> Reader<'b>
    where
        'a: 'b,
    {
        Reader { rest: self.rest, at: self.at, log }
    }

    /// Logs a line over bytes that were already read.
    pub fn note(&self, start: usize, end: usize, text: impl FnOnce() -> String) {
        self.log.add(start, end, text);
    }

    /// The number of `width` bytes that starts `offset` places on.
    pub fn peek_number(&self, offset: usize, width: usize) -> usize {
        let bytes = &self.rest[offset..offset + width];
        bytes.iter().rev().fold(0, |sum, byte| sum << 8 | usize::from(*byte))
    }
}

/// The table of contents of a bundle, for people.
fn contents(what: &str, lengths: &[usize]) -> String {
    let listed: Vec<String> = lengths.iter().map(usize::to_string).collect();
    match lengths {
        [] => format!("{what}: no parts"),
        [length] => format!("{what}: 1 part, length {length}"),
        _ => format!("{what}: {} parts, lengths {}", lengths.len(), listed.join(" ")),
    }
}

/// Appends a count, or says that it is too large.
pub fn push_count(out: &mut Vec<u8>, width: Width, count: usize, what: &str) -> Result<(), NoImage> {
    if count > width.largest() {
        return Err(NoImage(format!("{what}: {count} does not fit a count of {} bytes", width.bytes())));
    }
    out.extend_from_slice(&count.to_le_bytes()[..width.bytes()]);
    Ok(())
}

pub fn bundle(width: Width, what: &str, parts: &[Vec<u8>]) -> Written {
    let mut out = Vec::with_capacity(width.bytes() * (1 + parts.len()) + parts.iter().map(Vec::len).sum::<usize>());
    push_count(&mut out, width, parts.len(), what)?;
    for part in parts {
        push_count(&mut out, width, part.len(), what)?;
    }
    for part in parts {
        out.extend_from_slice(part);
    }
    Ok(out)
}

/// A bundle whose parts are written by `write`.
pub fn list<T>(width: Width, what: &str, entries: &[T], write: impl Fn(&T) -> Written) -> Written {
    let parts = entries.iter().map(write).collect::<Result<Vec<_>, _>>()?;
    bundle(width, what, &parts)
}

pub fn marks(marks: &[bool]) -> Vec<u8> {
    marks.iter().map(|mark| u8::from(*mark)).collect()
}
