//! A plain safe Rust reader with the same checks as the library, written as
//! one would write it for speed without unsafe code: the measure to hold the
//! library against. `tests/plain.rs` holds it against the independent reader.
//! Each name is compared with all before it, which is the fastest for the few
//! names that most messages have; `read_with` takes another way to check them.

#![allow(dead_code)]

use std::collections::HashSet;

pub const MAX_LENGTH: usize = 48_000_000;
pub const MAX_SEQUENCES: usize = 16;
pub const MAX_SECTIONS: usize = MAX_SEQUENCES + 1;
const MAX_LEVELS: usize = 32;
const MAX_ELEMENTS: usize = 262_144;

/// A refusal's number and place.
pub type Refused = (u32, usize);

#[derive(Clone, Copy, Debug, Default, PartialEq, Eq)]
pub struct View {
    pub length: usize,
    pub request_id: i32,
    pub response_to: i32,
    pub flags: u32,
    pub elements: usize,
    /// How many sections there are, and which of them is the body.
    pub used: usize,
    pub body: usize,
    pub sections: [Section; MAX_SECTIONS],
}

impl View {
    /// Where the body's document starts.
    fn body_start(&self) -> usize {
        match self.sections[self.body] {
            Section::Body(part) => part.start,
            _ => unreachable!("the body's own entry"),
        }
    }
}

#[derive(Clone, Copy, Debug, Default, PartialEq, Eq)]
pub enum Section {
    #[default]
    None,
    Body(Part),
    Sequence {
        identifier: Part,
        documents: Part,
        number: usize,
    },
}

/// Bytes of the message from a place to another.
#[derive(Clone, Copy, Debug, Default, PartialEq, Eq)]
pub struct Part {
    pub start: usize,
    pub end: usize,
}

#[derive(Clone, Copy)]
pub struct Edition {
    pub bits: u32,
    pub sequences: bool,
}

// --------------------------------------------------------------- checksum

static TABLES: [[u32; 256]; 16] = tables();

const fn tables() -> [[u32; 256]; 16] {
    let mut tables = [[0; 256]; 16];
    let mut i = 0;
    while i < 256 {
        let mut crc = i as u32;
        let mut bit = 0;
        while bit < 8 {
            crc = (crc >> 1) ^ (0x82F6_3B78 * (crc & 1));
            bit += 1;
        }
        tables[0][i] = crc;
        i += 1;
    }
    let mut table = 1;
    while table < 16 {
        let mut i = 0;
        while i < 256 {
            let before = tables[table - 1][i];
            tables[table][i] = (before >> 8) ^ tables[0][(before & 0xFF) as usize];
            i += 1;
        }
        table += 1;
    }
    tables
}

/// CRC-32C, sixteen bytes at a time.
pub fn crc32c(bytes: &[u8]) -> u32 {
    let mut crc = u32::MAX;
    let (blocks, rest) = bytes.as_chunks::<16>();
    for block in blocks {
        crc = word(12, crc ^ u32_at(block, 0))
            ^ word(8, u32_at(block, 4))
            ^ word(4, u32_at(block, 8))
            ^ word(0, u32_at(block, 12));
    }
    for &byte in rest {
        crc = (crc >> 8) ^ TABLES[0][((crc ^ u32::from(byte)) & 0xFF) as usize];
    }
    !crc
}

/// What four bytes give that have `after` bytes of their block behind them.
#[inline(always)]
fn word(after: usize, word: u32) -> u32 {
    let [a, b, c, d] = word.to_le_bytes();
    TABLES[after + 3][a as usize]
        ^ TABLES[after + 2][b as usize]
        ^ TABLES[after + 1][c as usize]
        ^ TABLES[after][d as usize]
}

// ------------------------------------------------------------------- read

#[inline]
fn u32_at(bytes: &[u8], at: usize) -> u32 {
    let four: [u8; 4] = bytes[at..at + 4].try_into().expect("four bytes");
    u32::from_le_bytes(four)
}

#[inline]
fn i32_at(bytes: &[u8], at: usize) -> i32 {
    u32_at(bytes, at) as i32
}

/// The place of the first zero byte before the limit.
#[inline]
fn zero_from(bytes: &[u8], at: usize, limit: usize) -> Option<usize> {
    let zero = bytes[at..limit].iter().position(|&byte| byte == 0)?;
    Some(at + zero)
}

/// Sees that the text from `start` to `end` is UTF-8. Most texts are ASCII, and
/// short, which is quicker to see by itself.
#[inline]
fn utf8_at(bytes: &[u8], start: usize, end: usize) -> Result<(), Refused> {
    let text = &bytes[start..end];
    if text.is_ascii() {
        return Ok(());
    }
    match std::str::from_utf8(text) {
        Ok(_) => Ok(()),
        Err(fault) => Err((27, start + fault.valid_up_to())),
    }
}

pub fn read(edition: Edition, buffer: &[u8]) -> Result<View, Refused> {
    let (view, _) = read_parts(edition, buffer, Reader::names_differ)?;
    Ok(view)
}

/// Reads a message with this way to find the place of the first name that is
/// an earlier one's: `by_set` or `by_order`.
pub fn read_with(
    edition: Edition,
    buffer: &[u8],
    first_again: impl Fn(&[Name]) -> Option<usize>,
) -> Result<View, Refused> {
    let names_differ = |reader: &Reader| match first_again(&reader.names) {
        Some(place) => Err((23, place)),
        None => Ok(()),
    };
    let (view, _) = read_parts(edition, buffer, names_differ)?;
    Ok(view)
}

/// Looks for the name in a hash set of those before it.
pub fn by_set(names: &[Name]) -> Option<usize> {
    let mut seen = HashSet::with_capacity(names.len());
    let again = names.iter().find(|name| !seen.insert(name.text))?;
    Some(again.start)
}

/// Sorts the names by their texts and then their places: equal ones are
/// neighbours then.
pub fn by_order(names: &[Name]) -> Option<usize> {
    let mut sorted: Vec<(&[u8], usize)> = names.iter().map(|n| (n.text, n.start)).collect();
    sorted.sort_unstable();
    let again = sorted.windows(2).filter(|two| two[0].0 == two[1].0);
    again.map(|two| two[1].1).min()
}

/// Reads a message; the reader that comes with the view holds its names.
fn read_parts<'a>(
    edition: Edition,
    buffer: &'a [u8],
    names_differ: impl Fn(&Reader<'a>) -> Result<(), Refused>,
) -> Result<(View, Reader<'a>), Refused> {
    if buffer.len() < 16 {
        return Err((1, 0));
    }
    let stated = i32_at(buffer, 0);
    if !(16..=MAX_LENGTH as i32).contains(&stated) {
        return Err((2, 0));
    }
    let Some(message) = buffer.get(..stated as usize) else {
        return Err((3, 0));
    };
    match i32_at(message, 12) {
        2013 => {}
        2012 => return Err((5, 12)),
        1 | 2001 | 2002 | 2004..=2007 => return Err((4, 12)),
        _ => return Err((6, 12)),
    }
    if message.len() < 20 {
        return Err((7, 16));
    }
    let flags = u32_at(message, 16);
    if flags & !edition.bits & 0xFFFF != 0 {
        return Err((8, 16));
    }
    let mut end = message.len();
    if flags & 1 != 0 {
        if end < 24 {
            return Err((7, 16));
        }
        end -= 4;
        if crc32c(&message[..end]) != u32_at(message, end) {
            return Err((9, end));
        }
    }
    let mut view = View {
        length: message.len(),
        request_id: i32_at(message, 4),
        response_to: i32_at(message, 8),
        flags: flags & edition.bits,
        ..View::default()
    };
    let mut reader = Reader::new(&message[..end]);
    reader.sections(edition, &mut view)?;
    view.elements = reader.elements;
    names_differ(&reader)?;
    reader.identifiers_differ(&view)?;
    Ok((view, reader))
}

struct Reader<'a> {
    /// The message up to the end of its sections.
    bytes: &'a [u8],
    elements: usize,
    /// The names at the top of the body with their places, later the
    /// identifiers too.
    names: Vec<Name<'a>>,
}

pub struct Name<'a> {
    text: &'a [u8],
    start: usize,
}

impl<'a> Reader<'a> {
    fn new(bytes: &'a [u8]) -> Reader<'a> {
        Reader {
            bytes,
            elements: 0,
            names: Vec::new(),
        }
    }

    fn sections(&mut self, edition: Edition, view: &mut View) -> Result<(), Refused> {
        let end = self.bytes.len();
        let mut has_body = false;
        let mut at = 20;
        while at < end {
            match self.bytes[at] {
                0 => {
                    if has_body {
                        return Err((11, at));
                    }
                    has_body = true;
                    let start = at + 1;
                    at = self.document(start, end, 1, true)?;
                    view.body = view.used;
                    view.sections[view.used] = Section::Body(Part { start, end: at });
                    view.used += 1;
                }
                1 if edition.sequences => {
                    if view.used - usize::from(has_body) == MAX_SEQUENCES {
                        return Err((14, at));
                    }
                    (view.sections[view.used], at) = self.sequence(at + 1)?;
                    view.used += 1;
                }
                _ => return Err((10, at)),
            }
        }
        if !has_body {
            return Err((22, end));
        }
        Ok(())
    }

    /// Reads a sequence from its size on; answers the place after it too.
    fn sequence(&mut self, at: usize) -> Result<(Section, usize), Refused> {
        let left = self.bytes.len() - at;
        if left < 4 {
            return Err((12, at));
        }
        let size = i32_at(self.bytes, at);
        if size < 5 || size as usize > left {
            return Err((12, at));
        }
        let end = at + size as usize;
        let start = at + 4;
        let zero = match zero_from(self.bytes, start, end) {
            Some(zero) if zero > start => zero,
            _ => return Err((13, start)),
        };
        utf8_at(self.bytes, start, zero)?;
        let number = self.documents(zero + 1, end)?;
        let sequence = Section::Sequence {
            identifier: Part { start, end: zero },
            documents: Part {
                start: zero + 1,
                end,
            },
            number,
        };
        Ok((sequence, end))
    }

    /// Reads documents that stand back to back; answers how many.
    fn documents(&mut self, start: usize, end: usize) -> Result<usize, Refused> {
        let mut documents = 0;
        let mut next = start;
        while next < end {
            next = self.document(next, end, 1, false)?;
            documents += 1;
        }
        Ok(documents)
    }

    /// Reads a document, keeps its names where asked, and answers the place
    /// after it.
    fn document(
        &mut self,
        start: usize,
        limit: usize,
        level: usize,
        keep_names: bool,
    ) -> Result<usize, Refused> {
        if level > MAX_LEVELS {
            return Err((20, start));
        }
        if limit - start < 4 {
            return Err((15, start));
        }
        let length = i32_at(self.bytes, start);
        if length < 5 || length as usize > limit - start {
            return Err((15, start));
        }
        let after = start + length as usize;
        let last = after - 1;
        if self.bytes[last] != 0 {
            return Err((16, last));
        }
        let mut at = start + 4;
        while at < last {
            if self.elements == MAX_ELEMENTS {
                return Err((21, at));
            }
            self.elements += 1;
            let kind = self.bytes[at];
            if !matches!(kind, 0x01..=0x13 | 0x7F | 0xFF) {
                return Err((17, at));
            }
            let Some(zero) = zero_from(self.bytes, at + 1, last) else {
                return Err((18, at + 1));
            };
            utf8_at(self.bytes, at + 1, zero)?;
            if keep_names {
                let text = &self.bytes[at + 1..zero];
                self.names.push(Name {
                    text,
                    start: at + 1,
                });
            }
            at = self.value(kind, zero + 1, last, level)?;
        }
        Ok(after)
    }

    fn value(&mut self, kind: u8, at: usize, last: usize, level: usize) -> Result<usize, Refused> {
        let size = match kind {
            0x01 | 0x09 | 0x11 | 0x12 => Some(8),
            0x10 => Some(4),
            0x02 | 0x0D | 0x0E => Some(self.string(at, at, last)?),
            0x03 | 0x04 => return self.document(at, last, level + 1, false),
            0x05 => self.binary(at, last),
            0x06 | 0x0A | 0x7F | 0xFF => Some(0),
            0x07 => Some(12),
            0x08 if self.bytes[at] <= 1 => Some(1),
            0x08 => None,
            0x0B => Some(self.expression(at, last)?),
            0x0C => Some(self.string(at, at, last)? + 12),
            0x0F => return self.code_with_scope(at, last, level),
            _ => Some(16),
        };
        match size {
            Some(size) if size <= last - at => Ok(at + size),
            _ => Err((19, at)),
        }
    }

    /// The size of the string at `at`, which ends before the limit, in the
    /// value that starts at `value`.
    fn string(&self, value: usize, at: usize, limit: usize) -> Result<usize, Refused> {
        if limit - at < 5 {
            return Err((19, value));
        }
        let length = i32_at(self.bytes, at);
        if length < 1 || length as usize > limit - at - 4 {
            return Err((19, value));
        }
        let zero = at + 3 + length as usize;
        if self.bytes[zero] != 0 {
            return Err((19, value));
        }
        utf8_at(self.bytes, at + 4, zero)?;
        Ok(zero + 1 - at)
    }

    fn binary(&self, at: usize, limit: usize) -> Option<usize> {
        if limit - at < 5 {
            return None;
        }
        let length = usize::try_from(i32_at(self.bytes, at)).ok()?;
        if self.bytes[at + 4] == 2 {
            let content = length.checked_sub(4)?;
            if length > limit - at - 5 || i32_at(self.bytes, at + 5) as usize != content {
                return None;
            }
        }
        Some(5 + length)
    }

    fn expression(&self, at: usize, limit: usize) -> Result<usize, Refused> {
        let Some(first) = zero_from(self.bytes, at, limit) else {
            return Err((19, at));
        };
        utf8_at(self.bytes, at, first)?;
        let Some(second) = zero_from(self.bytes, first + 1, limit) else {
            return Err((19, at));
        };
        utf8_at(self.bytes, first + 1, second)?;
        Ok(second + 1 - at)
    }

    fn code_with_scope(&mut self, at: usize, last: usize, level: usize) -> Result<usize, Refused> {
        if last - at < 4 {
            return Err((19, at));
        }
        let total = i32_at(self.bytes, at);
        if total < 14 || total as usize > last - at {
            return Err((19, at));
        }
        let end = at + total as usize;
        let size = self.string(at, at + 4, end)?;
        if self.document(at + 4 + size, end, level + 1, false)? != end {
            return Err((19, at));
        }
        Ok(end)
    }

    fn has_name(&self, count: usize, text: &[u8]) -> bool {
        self.names[..count].iter().any(|name| name.text == text)
    }

    fn names_differ(&self) -> Result<(), Refused> {
        for (index, name) in self.names.iter().enumerate() {
            if self.has_name(index, name.text) {
                return Err((23, name.start));
            }
        }
        Ok(())
    }

    fn identifiers_differ(&mut self, view: &View) -> Result<(), Refused> {
        for section in &view.sections[..view.used] {
            let Section::Sequence { identifier, .. } = section else {
                continue;
            };
            let start = identifier.start;
            let text = &self.bytes[start..identifier.end];
            if self.is_taken(view.body_start(), text) {
                return Err((24, start));
            }
            self.names.push(Name { text, start });
        }
        Ok(())
    }

    /// Whether an identifier is one of the names, or leads to a name from the
    /// body on. Most have no dot, and are not taken apart.
    fn is_taken(&self, body: usize, identifier: &[u8]) -> bool {
        if self.has_name(self.names.len(), identifier) {
            return true;
        }
        if !identifier.contains(&b'.') {
            return false;
        }
        let path: Vec<&[u8]> = identifier.split(|&byte| byte == b'.').collect();
        self.has_path(body, &path)
    }

    /// Whether a path of names leads to an element, from the document that
    /// starts here and was read.
    fn has_path(&self, start: usize, path: &[&[u8]]) -> bool {
        let Some((name, rest)) = path.split_first() else {
            return false;
        };
        let last = start + u32_at(self.bytes, start) as usize - 1;
        let mut at = start + 4;
        while at < last {
            let kind = self.bytes[at];
            let zero = self.zero_after(at + 1);
            let value = zero + 1;
            if self.bytes[at + 1..zero] == **name
                && (rest.is_empty() || kind == 0x03 && self.has_path(value, rest))
            {
                return true;
            }
            at = self.value_end(kind, value);
        }
        false
    }

    /// The end of a value that was read, by the lengths that it states.
    fn value_end(&self, kind: u8, at: usize) -> usize {
        let stated = || u32_at(self.bytes, at) as usize;
        match kind {
            0x01 | 0x09 | 0x11 | 0x12 => at + 8,
            0x10 => at + 4,
            0x02 | 0x0D | 0x0E => at + 4 + stated(),
            0x03 | 0x04 | 0x0F => at + stated(),
            0x05 => at + 5 + stated(),
            0x06 | 0x0A | 0x7F | 0xFF => at,
            0x07 => at + 12,
            0x08 => at + 1,
            0x0B => self.zero_after(self.zero_after(at) + 1) + 1,
            0x0C => at + 4 + stated() + 12,
            _ => at + 16,
        }
    }

    /// The place of the zero byte that ends a text which was read.
    fn zero_after(&self, at: usize) -> usize {
        zero_from(self.bytes, at, self.bytes.len()).expect("the text was read")
    }
}

// ----------------------------------------- forward, write, append and move

pub fn forward(edition: Edition, message: &[u8], output: &mut [u8]) -> Result<View, Refused> {
    let view = read(edition, message)?;
    let Some(output) = output.get_mut(..view.length) else {
        return Err((25, 0));
    };
    output.copy_from_slice(&message[..view.length]);
    output[16..20].copy_from_slice(&view.flags.to_le_bytes());
    if view.flags & 1 != 0 {
        sign(output);
    }
    Ok(view)
}

/// Puts the checksum into the last four bytes.
fn sign(message: &mut [u8]) {
    let end = message.len() - 4;
    let crc = crc32c(&message[..end]);
    message[end..].copy_from_slice(&crc.to_le_bytes());
}

/// Checks the body where it lies, and then writes the message.
pub fn write(
    edition: Edition,
    request_id: i32,
    response_to: i32,
    flags: u32,
    body: &[u8],
    output: &mut [u8],
) -> Result<View, Refused> {
    if flags & !edition.bits != 0 {
        return Err((8, 16));
    }
    let end = 21 + body.len();
    let length = end + if flags & 1 != 0 { 4 } else { 0 };
    if length > MAX_LENGTH {
        return Err((2, 0));
    }
    let Some(output) = output.get_mut(..length) else {
        return Err((25, 0));
    };
    if body.len() < 4 || i64::from(i32_at(body, 0)) != body.len() as i64 {
        return Err((15, 21));
    }
    let mut reader = Reader::new(body);
    reader
        .document(0, body.len(), 1, true)
        .and_then(|_| reader.names_differ())
        .map_err(|(number, place)| (number, place + 21))?;
    output[0..4].copy_from_slice(&(length as i32).to_le_bytes());
    output[4..8].copy_from_slice(&request_id.to_le_bytes());
    output[8..12].copy_from_slice(&response_to.to_le_bytes());
    output[12..16].copy_from_slice(&2013i32.to_le_bytes());
    output[16..20].copy_from_slice(&flags.to_le_bytes());
    output[20] = 0;
    output[21..end].copy_from_slice(body);
    if flags & 1 != 0 {
        sign(output);
    }
    let mut view = View {
        length,
        request_id,
        response_to,
        flags,
        elements: reader.elements,
        used: 1,
        ..View::default()
    };
    view.sections[0] = Section::Body(Part { start: 21, end });
    Ok(view)
}

/// Checks the message and then the new documents where they lie, and then
/// writes the longer message.
pub fn append(
    edition: Edition,
    message: &[u8],
    identifier: &[u8],
    documents: &[u8],
    output: &mut [u8],
) -> Result<View, Refused> {
    let (mut view, old) = read_parts(edition, message, Reader::names_differ)?;
    let end = view.length - if view.flags & 1 != 0 { 4 } else { 0 };
    if !edition.sequences {
        return Err((10, end));
    }
    if view.used == MAX_SECTIONS {
        return Err((14, end));
    }
    if identifier.is_empty() || identifier.contains(&0) {
        return Err((13, end + 5));
    }
    let size = 5 + identifier.len() + documents.len();
    let length = view.length + 1 + size;
    if length > MAX_LENGTH {
        return Err((2, 0));
    }
    let Some(output) = output.get_mut(..length) else {
        return Err((25, 0));
    };
    utf8_at(identifier, 0, identifier.len())
        .map_err(|(number, place)| (number, place + end + 5))?;
    let start = end + 6 + identifier.len();
    let mut reader = Reader::new(documents);
    reader.elements = old.elements;
    let number = reader
        .documents(0, documents.len())
        .map_err(|(number, place)| (number, place + start))?;
    if old.is_taken(view.body_start(), identifier) {
        return Err((24, end + 5));
    }
    output[..end].copy_from_slice(&message[..end]);
    output[0..4].copy_from_slice(&(length as i32).to_le_bytes());
    output[16..20].copy_from_slice(&view.flags.to_le_bytes());
    output[end] = 1;
    output[end + 1..end + 5].copy_from_slice(&(size as i32).to_le_bytes());
    output[end + 5..start - 1].copy_from_slice(identifier);
    output[start - 1] = 0;
    output[start..start + documents.len()].copy_from_slice(documents);
    if view.flags & 1 != 0 {
        sign(output);
    }
    view.length = length;
    view.elements = reader.elements;
    view.sections[view.used] = Section::Sequence {
        identifier: Part {
            start: end + 5,
            end: start - 1,
        },
        documents: Part {
            start,
            end: start + documents.len(),
        },
        number,
    };
    view.used += 1;
    Ok(view)
}

/// Writes the message with its body behind so many of its sequences, section by
/// section.
pub fn move_body(
    edition: Edition,
    message: &[u8],
    behind: u32,
    output: &mut [u8],
) -> Result<View, Refused> {
    let mut view = read(edition, message)?;
    let behind = behind as usize;
    if behind >= view.used {
        return Err((28, 0));
    }
    let Some(output) = output.get_mut(..view.length) else {
        return Err((25, 0));
    };
    if behind > view.body {
        view.sections[view.body..=behind].rotate_left(1);
    } else {
        view.sections[behind..=view.body].rotate_right(1);
    }
    view.body = behind;
    output[..16].copy_from_slice(&message[..16]);
    output[16..20].copy_from_slice(&view.flags.to_le_bytes());
    let mut at = 20;
    for section in &mut view.sections[..view.used] {
        let own = section.whole();
        let after = at + (own.end - own.start);
        output[at..after].copy_from_slice(&message[own.start..own.end]);
        section.shift(own.start, at);
        at = after;
    }
    if view.flags & 1 != 0 {
        sign(output);
    }
    Ok(view)
}

impl Section {
    /// The section from its kind byte on.
    fn whole(&self) -> Part {
        match self {
            Section::None => Part::default(),
            Section::Body(part) => Part {
                start: part.start - 1,
                end: part.end,
            },
            Section::Sequence {
                identifier,
                documents,
                ..
            } => Part {
                start: identifier.start - 5,
                end: documents.end,
            },
        }
    }

    /// Shows the section at another place.
    fn shift(&mut self, from: usize, to: usize) {
        match self {
            Section::None => {}
            Section::Body(part) => part.shift(from, to),
            Section::Sequence {
                identifier,
                documents,
                ..
            } => {
                identifier.shift(from, to);
                documents.shift(from, to);
            }
        }
    }
}

impl Part {
    fn shift(&mut self, from: usize, to: usize) {
        self.start = self.start - from + to;
        self.end = self.end - from + to;
    }
}
