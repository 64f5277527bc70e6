//! An independent reader, forwarder, writer, appender and mover, written from
//! the rules of document 01, change requests 2, 4, 5 and 6 and RFC 3629 and
//! from nothing else. It is plain and slow on purpose: the tests hold the
//! library against it.

use std::collections::HashSet;
use std::ops::Range;

pub const MAX_MESSAGE: usize = 48_000_000;
pub const MAX_SEQUENCES: usize = 16;
pub const MAX_LEVEL: usize = 32;
pub const MAX_ELEMENTS: usize = 262_144;
pub const MAX_SECTIONS: usize = 17;
pub const VIEW_NUMBERS: usize = 107;

/// A refusal's number and place.
#[derive(Clone, Copy, Debug, PartialEq, Eq)]
pub struct Refused {
    pub number: u32,
    pub place: usize,
    /// What a 27 is about, so that a test can count the kinds.
    pub text: Option<BadText>,
    /// What a 24 is about, for the same reason.
    pub clash: Option<Clash>,
}

impl Refused {
    pub fn new(number: u32, place: usize) -> Refused {
        Refused {
            number,
            place,
            text: None,
            clash: None,
        }
    }
}

/// What an identifier clashes with.
#[derive(Clone, Copy, Debug, PartialEq, Eq)]
pub enum Clash {
    /// A top-level name of the body.
    TopName,
    /// An earlier identifier.
    Identifier,
    /// A name that it leads to, from the body on.
    Path,
}

/// A text that is not UTF-8.
#[derive(Clone, Copy, Debug, PartialEq, Eq)]
pub struct BadText {
    pub kind: Text,
    /// The text from the refusal's place on, as far as it goes and at most
    /// this long; the rest is zero.
    pub left: [u8; 4],
    /// How many bytes of `left` are the text's.
    pub count: usize,
}

/// Where a text stands.
#[derive(Clone, Copy, Debug, PartialEq, Eq)]
pub enum Text {
    Identifier,
    /// The name of an element of a section's document.
    TopName,
    /// The name of an element further inside.
    InnerName,
    /// Type 02.
    String,
    /// Type 0D.
    Code,
    /// Type 0E.
    Symbol,
    /// The first part of type 0B.
    Pattern,
    /// Its second part.
    Options,
    /// The string of type 0C.
    Pointer,
    /// The string of type 0F.
    ScopedCode,
}

impl Text {
    pub const ALL: [Text; 10] = [
        Text::Identifier,
        Text::TopName,
        Text::InnerName,
        Text::String,
        Text::Code,
        Text::Symbol,
        Text::Pattern,
        Text::Options,
        Text::Pointer,
        Text::ScopedCode,
    ];
}

#[derive(Clone, Copy, Debug, PartialEq, Eq)]
pub struct Edition {
    pub bits: u32,
    pub sequences: bool,
}

#[derive(Clone, Debug, PartialEq, Eq)]
pub struct View {
    pub length: usize,
    pub request_id: i32,
    pub response_to: i32,
    pub flags: u32,
    pub elements: usize,
    /// In message order.
    pub sections: Vec<Section>,
}

#[derive(Clone, Debug, PartialEq, Eq)]
pub enum Section {
    /// The body's document.
    Body(Range<usize>),
    Sequence(Sequence),
}

#[derive(Clone, Debug, PartialEq, Eq)]
pub struct Sequence {
    pub identifier: Range<usize>,
    pub documents: Range<usize>,
    pub count: usize,
}

impl View {
    pub fn body(&self) -> Range<usize> {
        let mut sections = self.sections.iter();
        let body = sections.find_map(|section| match section {
            Section::Body(document) => Some(document.clone()),
            Section::Sequence(_) => None,
        });
        body.expect("an accepted message has a body")
    }

    pub fn sequences(&self) -> Vec<&Sequence> {
        sequences_of(&self.sections)
    }

    /// How many sequences stand before the body.
    pub fn behind(&self) -> usize {
        let mut sections = self.sections.iter();
        let place = sections.position(|section| matches!(section, Section::Body(_)));
        place.expect("an accepted message has a body")
    }

    /// The 107 numbers of the C interface.
    pub fn numbers(&self) -> [i64; VIEW_NUMBERS] {
        let mut numbers = vec![
            self.length as i64,
            i64::from(self.request_id),
            i64::from(self.response_to),
            i64::from(self.flags),
            self.elements as i64,
        ];
        for section in &self.sections {
            numbers.extend(section.numbers());
        }
        for _ in self.sections.len()..MAX_SECTIONS {
            numbers.extend([-1, 0, 0, 0, 0, 0]);
        }
        numbers.try_into().expect("as many as there are")
    }
}

impl Section {
    /// Where the section stands: its kind byte and all that follows it.
    fn whole(&self) -> Range<usize> {
        match self {
            Section::Body(document) => document.start - 1..document.end,
            // A kind byte and a size stand before the identifier.
            Section::Sequence(sequence) => sequence.identifier.start - 5..sequence.documents.end,
        }
    }

    fn numbers(&self) -> [i64; 6] {
        match self {
            Section::Body(document) => [0, 0, 0, document.start as i64, document.len() as i64, 0],
            Section::Sequence(sequence) => [
                1,
                sequence.identifier.start as i64,
                sequence.identifier.len() as i64,
                sequence.documents.start as i64,
                sequence.documents.len() as i64,
                sequence.count as i64,
            ],
        }
    }
}

fn sequences_of(sections: &[Section]) -> Vec<&Sequence> {
    let sequences = sections.iter().filter_map(|section| match section {
        Section::Body(_) => None,
        Section::Sequence(sequence) => Some(sequence),
    });
    sequences.collect()
}

fn refuse<T>(number: u32, place: usize) -> Result<T, Refused> {
    Err(Refused::new(number, place))
}

// ---------------------------------------------------------------- numbers

fn u32_at(bytes: &[u8], at: usize) -> u32 {
    u32::from_le_bytes([bytes[at], bytes[at + 1], bytes[at + 2], bytes[at + 3]])
}

fn i32_at(bytes: &[u8], at: usize) -> i32 {
    u32_at(bytes, at) as i32
}

/// The place of the first zero byte in the range.
fn zero_in(bytes: &[u8], range: Range<usize>) -> Option<usize> {
    range.into_iter().find(|&place| bytes[place] == 0)
}

// ------------------------------------------------------------------- text

/// The length of the longest beginning that is UTF-8. It takes whole
/// characters, so none that is cut off.
pub fn utf8_beginning(text: &[u8]) -> usize {
    let mut at = 0;
    while let Some(length) = character(&text[at..]) {
        at += length;
    }
    at
}

/// The length of the character that the bytes start with, if there is one: the
/// shortest form of a number up to 10FFFF that is no surrogate.
fn character(bytes: &[u8]) -> Option<usize> {
    let first = *bytes.first()?;
    // One byte starts with a 0; else the first has as many ones as there are
    // bytes, and each further one starts with 10.
    let (length, least) = match first.leading_ones() {
        0 => (1, 0),
        2 => (2, 0x80),
        3 => (3, 0x800),
        4 => (4, 0x1_0000),
        _ => return None,
    };
    let mut number = u32::from(first) & (0x7F >> first.leading_ones());
    for &byte in bytes.get(1..length)? {
        if byte.leading_ones() != 1 {
            return None;
        }
        number = number * 64 + u32::from(byte % 64);
    }
    let surrogate = (0xD800..=0xDFFF).contains(&number);
    (number >= least && number <= 0x10_FFFF && !surrogate).then_some(length)
}

// --------------------------------------------------------------- checksum

/// CRC-32C as it is defined, bit by bit.
pub fn crc32c_by_bits(bytes: &[u8]) -> u32 {
    let mut crc = u32::MAX;
    for &byte in bytes {
        crc = eight_steps(crc ^ u32::from(byte));
    }
    !crc
}

/// CRC-32C with the eight steps of each byte looked up.
pub fn crc32c(bytes: &[u8]) -> u32 {
    static TABLE: [u32; 256] = step_table();
    let mut crc = u32::MAX;
    for &byte in bytes {
        let low = (crc ^ u32::from(byte)) & 0xFF;
        crc = (crc >> 8) ^ TABLE[low as usize];
    }
    !crc
}

const fn eight_steps(mut crc: u32) -> u32 {
    let mut step = 0;
    while step < 8 {
        crc = if crc & 1 == 1 {
            (crc >> 1) ^ 0x82F6_3B78
        } else {
            crc >> 1
        };
        step += 1;
    }
    crc
}

const fn step_table() -> [u32; 256] {
    let mut table = [0; 256];
    let mut low = 0;
    while low < 256 {
        table[low] = eight_steps(low as u32);
        low += 1;
    }
    table
}

// ------------------------------------------------------------------- read

pub fn read(edition: &Edition, buffer: &[u8]) -> Result<View, Refused> {
    let (view, body) = read_before_24(edition, buffer)?;
    check_identifiers(buffer, &body, &view.sequences())?;
    Ok(view)
}

/// Every check but 24; answers the elements of the body too.
pub fn read_before_24(edition: &Edition, buffer: &[u8]) -> Result<(View, Vec<Element>), Refused> {
    let length = read_header(buffer)?;
    let message = &buffer[..length];
    let flags = read_flags(edition, message)?;
    let end = sections_end(message, flags)?;
    let found = read_sections(edition, message, end)?;
    let Some(body) = found.body else {
        return refuse(22, end);
    };
    check_names(message, &body)?;
    let view = View {
        length,
        request_id: i32_at(message, 4),
        response_to: i32_at(message, 8),
        flags: flags & edition.bits,
        elements: found.elements,
        sections: found.sections,
    };
    Ok((view, body))
}

/// The elements of a document that stands by itself, where nothing is wrong
/// with it.
pub fn elements_of(document: &[u8]) -> Option<Vec<Element>> {
    let mut walk = Walk {
        message: document,
        elements: 0,
    };
    let (after, elements) = walk.document(0, document.len(), 1).ok()?;
    (after == document.len()).then_some(elements)
}

/// Checks 1 to 6; answers messageLength.
fn read_header(buffer: &[u8]) -> Result<usize, Refused> {
    if buffer.len() < 16 {
        return refuse(1, 0);
    }
    let stated = i32_at(buffer, 0);
    if stated < 16 || stated > MAX_MESSAGE as i32 {
        return refuse(2, 0);
    }
    let length = stated as usize;
    if buffer.len() < length {
        return refuse(3, 0);
    }
    match i32_at(buffer, 12) {
        1 | 2001 | 2002 | 2004..=2007 => refuse(4, 12),
        2012 => refuse(5, 12),
        2013 => Ok(length),
        _ => refuse(6, 12),
    }
}

/// Check 7, 8 and 7 again; answers the flag word as it came.
fn read_flags(edition: &Edition, message: &[u8]) -> Result<u32, Refused> {
    if message.len() < 20 {
        return refuse(7, 16);
    }
    let flags = u32_at(message, 16);
    let unknown = flags & !edition.bits;
    if unknown & 0xFFFF != 0 {
        return refuse(8, 16);
    }
    if has_checksum(flags) && message.len() < 24 {
        return refuse(7, 16);
    }
    Ok(flags)
}

/// Check 9; answers the end of the sections.
fn sections_end(message: &[u8], flags: u32) -> Result<usize, Refused> {
    if !has_checksum(flags) {
        return Ok(message.len());
    }
    let end = message.len() - 4;
    if u32_at(message, end) != crc32c(&message[..end]) {
        return refuse(9, end);
    }
    Ok(end)
}

fn has_checksum(flags: u32) -> bool {
    flags & 1 == 1
}

struct Found {
    sections: Vec<Section>,
    /// The elements of the body, where there is one.
    body: Option<Vec<Element>>,
    elements: usize,
}

/// An element that was read.
#[derive(Clone, Debug)]
pub struct Element {
    pub kind: u8,
    /// Where its name stands, without the zero byte.
    pub name: Range<usize>,
    /// The elements of the document, array or scope that it holds.
    pub inside: Vec<Element>,
}

/// Checks 10 to 21 and 27, from left to right.
fn read_sections(edition: &Edition, message: &[u8], end: usize) -> Result<Found, Refused> {
    let mut walk = Walk {
        message,
        elements: 0,
    };
    let mut body = None;
    let mut sections = Vec::new();
    let mut at = 20;
    while at < end {
        match message[at] {
            0 if body.is_some() => return refuse(11, at),
            0 => {
                let (after, elements) = walk.document(at + 1, end, 1)?;
                sections.push(Section::Body(at + 1..after));
                body = Some(elements);
                at = after;
            }
            1 if edition.sequences => {
                if sequences_of(&sections).len() == MAX_SEQUENCES {
                    return refuse(14, at);
                }
                let sequence = walk.sequence(at + 1, end)?;
                at = sequence.documents.end;
                sections.push(Section::Sequence(sequence));
            }
            _ => return refuse(10, at),
        }
    }
    Ok(Found {
        sections,
        body,
        elements: walk.elements,
    })
}

/// The walk over all documents of a message; it counts the elements.
struct Walk<'a> {
    message: &'a [u8],
    elements: usize,
}

impl Walk<'_> {
    /// Reads a sequence from its size field on.
    fn sequence(&mut self, at: usize, end: usize) -> Result<Sequence, Refused> {
        if end - at < 4 {
            return refuse(12, at);
        }
        let size = i32_at(self.message, at);
        if size < 5 || size as usize > end - at {
            return refuse(12, at);
        }
        let section_end = at + size as usize;
        let first = at + 4;
        let zero = match zero_in(self.message, first..section_end) {
            Some(zero) if zero > first => zero,
            _ => return refuse(13, first),
        };
        self.text(Text::Identifier, first..zero)?;
        let mut count = 0;
        let mut next = zero + 1;
        while next < section_end {
            (next, _) = self.document(next, section_end, 1)?;
            count += 1;
        }
        Ok(Sequence {
            identifier: first..zero,
            documents: zero + 1..section_end,
            count,
        })
    }

    /// Reads a document; answers the place after it and its elements.
    fn document(
        &mut self,
        start: usize,
        enclosing_end: usize,
        level: usize,
    ) -> Result<(usize, Vec<Element>), Refused> {
        if level > MAX_LEVEL {
            return refuse(20, start);
        }
        if enclosing_end - start < 4 {
            return refuse(15, start);
        }
        let length = i32_at(self.message, start);
        if length < 5 || length as usize > enclosing_end - start {
            return refuse(15, start);
        }
        let after = start + length as usize;
        let last = after - 1;
        if self.message[last] != 0 {
            return refuse(16, last);
        }
        let mut elements = Vec::new();
        let mut at = start + 4;
        while at < last {
            let (next, element) = self.element(at, last, level)?;
            elements.push(element);
            at = next;
        }
        Ok((after, elements))
    }

    /// Reads an element of a document whose last byte is at `last`; answers
    /// the place after it, and it.
    fn element(
        &mut self,
        at: usize,
        last: usize,
        level: usize,
    ) -> Result<(usize, Element), Refused> {
        if self.elements == MAX_ELEMENTS {
            return refuse(21, at);
        }
        self.elements += 1;
        let kind = self.message[at];
        if !matches!(kind, 0x01..=0x13 | 0x7F | 0xFF) {
            return refuse(17, at);
        }
        let name_start = at + 1;
        let Some(zero) = zero_in(self.message, name_start..last) else {
            return refuse(18, name_start);
        };
        let text = if level == 1 {
            Text::TopName
        } else {
            Text::InnerName
        };
        self.text(text, name_start..zero)?;
        let value = zero + 1;
        let (next, inside) = match kind {
            0x03 | 0x04 => self.document(value, last, level + 1)?,
            0x0F => self.code_with_scope(value, last, level)?,
            _ => (self.value(kind, value, last)?, Vec::new()),
        };
        let name = name_start..zero;
        Ok((next, Element { kind, name, inside }))
    }

    /// Reads a value that holds no document; answers the place after it.
    fn value(&self, kind: u8, at: usize, last: usize) -> Result<usize, Refused> {
        let found = match kind {
            0x01 | 0x09 | 0x11 | 0x12 => fixed(at, 8, last),
            0x10 => fixed(at, 4, last),
            0x13 => fixed(at, 16, last),
            0x07 => fixed(at, 12, last),
            0x08 => fixed(at, 1, last).filter(|_| self.message[at] <= 1),
            0x06 | 0x0A | 0x7F | 0xFF => Some(at),
            0x02 => return self.string(Text::String, at, at, last),
            0x0D => return self.string(Text::Code, at, at, last),
            0x0E => return self.string(Text::Symbol, at, at, last),
            0x05 => self.binary(at, last),
            0x0B => return self.two_texts(at, last),
            0x0C => {
                let after = self.string(Text::Pointer, at, at, last)?;
                fixed(after, 12, last)
            }
            _ => unreachable!("the type was looked up in the table"),
        };
        match found {
            Some(after) => Ok(after),
            None => refuse(19, at),
        }
    }

    /// Check 27 of a text without its length and ending zero.
    fn text(&self, kind: Text, range: Range<usize>) -> Result<(), Refused> {
        let text = &self.message[range.clone()];
        let good = utf8_beginning(text);
        if good == text.len() {
            return Ok(());
        }
        let count = (text.len() - good).min(4);
        let mut left = [0; 4];
        left[..count].copy_from_slice(&text[good..good + count]);
        let mut refused = Refused::new(27, range.start + good);
        refused.text = Some(BadText { kind, left, count });
        Err(refused)
    }

    /// Reads the string at `at` of the value that starts at `value`; answers
    /// the place after it.
    fn string(&self, kind: Text, value: usize, at: usize, limit: usize) -> Result<usize, Refused> {
        let Some(after) = self.string_end(at, limit) else {
            return refuse(19, value);
        };
        self.text(kind, at + 4..after - 1)?;
        Ok(after)
    }

    /// The place after a string whose length and last byte are right.
    fn string_end(&self, at: usize, limit: usize) -> Option<usize> {
        let start = fixed(at, 4, limit)?;
        let length = i32_at(self.message, at);
        if length < 1 {
            return None;
        }
        let after = fixed(start, length as usize, limit)?;
        (self.message[after - 1] == 0).then_some(after)
    }

    fn binary(&self, at: usize, limit: usize) -> Option<usize> {
        let start = fixed(at, 5, limit)?;
        let length = i32_at(self.message, at);
        if length < 0 {
            return None;
        }
        let after = fixed(start, length as usize, limit)?;
        if self.message[at + 4] == 2 {
            let content = fixed(start, 4, after)?;
            if i64::from(i32_at(self.message, start)) != (after - content) as i64 {
                return None;
            }
        }
        Some(after)
    }

    fn two_texts(&self, at: usize, limit: usize) -> Result<usize, Refused> {
        let between = self.ended_text(Text::Pattern, at, at, limit)?;
        self.ended_text(Text::Options, at, between, limit)
    }

    /// Reads the zero-ended text at `at` of the value that starts at `value`;
    /// answers the place after its zero.
    fn ended_text(
        &self,
        kind: Text,
        value: usize,
        at: usize,
        limit: usize,
    ) -> Result<usize, Refused> {
        let Some(zero) = zero_in(self.message, at..limit) else {
            return refuse(19, value);
        };
        self.text(kind, at..zero)?;
        Ok(zero + 1)
    }

    /// Reads a value of type 0F; answers the place after it and the elements of
    /// its scope.
    fn code_with_scope(
        &mut self,
        at: usize,
        last: usize,
        level: usize,
    ) -> Result<(usize, Vec<Element>), Refused> {
        if last - at < 4 {
            return refuse(19, at);
        }
        let total = i32_at(self.message, at);
        if total < 14 || total as usize > last - at {
            return refuse(19, at);
        }
        let end = at + total as usize;
        let scope = self.string(Text::ScopedCode, at, at + 4, end)?;
        let (after, elements) = self.document(scope, end, level + 1)?;
        if after != end {
            return refuse(19, at);
        }
        Ok((end, elements))
    }
}

/// The place after `size` bytes, where they fit before the limit.
fn fixed(at: usize, size: usize, limit: usize) -> Option<usize> {
    (size <= limit - at).then_some(at + size)
}

/// Check 23.
fn check_names(message: &[u8], body: &[Element]) -> Result<(), Refused> {
    let mut seen = HashSet::new();
    for element in body {
        if !seen.insert(&message[element.name.clone()]) {
            return refuse(23, element.name.start);
        }
    }
    Ok(())
}

/// Check 24: the first identifier that clashes in any way.
fn check_identifiers(
    message: &[u8],
    body: &[Element],
    sequences: &[&Sequence],
) -> Result<(), Refused> {
    if sequences.is_empty() {
        return Ok(());
    }
    let names: HashSet<&[u8]> = body.iter().map(|e| &message[e.name.clone()]).collect();
    let mut earlier = HashSet::new();
    for sequence in sequences {
        let identifier = &message[sequence.identifier.clone()];
        let clash = if names.contains(identifier) {
            Clash::TopName
        } else if !earlier.insert(identifier) {
            Clash::Identifier
        } else if leads_to_a_name(message, body, identifier) {
            Clash::Path
        } else {
            continue;
        };
        let mut refused = Refused::new(24, sequence.identifier.start);
        refused.clash = Some(clash);
        return Err(refused);
    }
    Ok(())
}

/// Whether an identifier with dots leads to a name, from these elements on. Its
/// names are followed one at a time: from the documents that were reached, all
/// documents of type 03 with the next name are reached. The last name may be
/// that of any element.
pub fn leads_to_a_name(bytes: &[u8], body: &[Element], identifier: &[u8]) -> bool {
    let mut names: Vec<&[u8]> = identifier.split(|&byte| byte == b'.').collect();
    let last = names.pop().expect("a part at least");
    if names.is_empty() {
        return false;
    }
    let mut reached: Vec<&[Element]> = vec![body];
    for name in names {
        let named = reached
            .into_iter()
            .flatten()
            .filter(|element| bytes[element.name.clone()] == *name);
        reached = named
            .filter(|element| element.kind == 0x03)
            .map(|element| &element.inside[..])
            .collect();
    }
    let mut elements = reached.into_iter().flatten();
    elements.any(|element| bytes[element.name.clone()] == *last)
}

// ----------------------------------------- forward, write, append and move

/// A view and the message that goes to the output.
pub type Written = (View, Vec<u8>);

pub fn forward(edition: &Edition, buffer: &[u8], room: usize) -> Result<Written, Refused> {
    let view = read(edition, buffer)?;
    if room < view.length {
        return refuse(25, 0);
    }
    let message = forwarded(&view, buffer);
    Ok((view, message))
}

/// The message as it is forwarded: the shown flag word, a new checksum.
fn forwarded(view: &View, buffer: &[u8]) -> Vec<u8> {
    let mut message = buffer[..view.length].to_vec();
    message[16..20].copy_from_slice(&view.flags.to_le_bytes());
    if has_checksum(view.flags) {
        message.truncate(view.length - 4);
        add_checksum(&mut message);
    }
    message
}

fn add_checksum(message: &mut Vec<u8>) {
    let crc = crc32c(message);
    message.extend(crc.to_le_bytes());
}

pub fn write(
    edition: &Edition,
    request_id: i32,
    response_to: i32,
    flags: u32,
    body: &[u8],
    room: usize,
) -> Result<Written, Refused> {
    if flags & !edition.bits != 0 {
        return refuse(8, 16);
    }
    let length = 21 + body.len() + if has_checksum(flags) { 4 } else { 0 };
    if length > MAX_MESSAGE {
        return refuse(2, 0);
    }
    if room < length {
        return refuse(25, 0);
    }
    if body.len() < 4 || i64::from(i32_at(body, 0)) != body.len() as i64 {
        return refuse(15, 21);
    }
    let mut message = Vec::with_capacity(length);
    message.extend((length as i32).to_le_bytes());
    message.extend(request_id.to_le_bytes());
    message.extend(response_to.to_le_bytes());
    message.extend(2013i32.to_le_bytes());
    message.extend(flags.to_le_bytes());
    message.push(0);
    message.extend(body);
    if has_checksum(flags) {
        add_checksum(&mut message);
    }
    let view = read(edition, &message)?;
    Ok((view, message))
}

pub fn append(
    edition: &Edition,
    buffer: &[u8],
    identifier: &[u8],
    documents: &[u8],
    room: usize,
) -> Result<Written, Refused> {
    let old = read(edition, buffer)?;
    let checksum = if has_checksum(old.flags) { 4 } else { 0 };
    let end = old.length - checksum;
    if !edition.sequences {
        return refuse(10, end);
    }
    if old.sequences().len() == MAX_SEQUENCES {
        return refuse(14, end);
    }
    if identifier.is_empty() || identifier.contains(&0) {
        return refuse(13, end + 5);
    }
    let size = 4 + identifier.len() + 1 + documents.len();
    let length = old.length + 1 + size;
    if length > MAX_MESSAGE {
        return refuse(2, 0);
    }
    if room < length {
        return refuse(25, 0);
    }
    let mut message = forwarded(&old, buffer);
    message.truncate(end);
    message.push(1);
    message.extend((size as i32).to_le_bytes());
    message.extend(identifier);
    message.push(0);
    message.extend(documents);
    message[0..4].copy_from_slice(&(length as i32).to_le_bytes());
    if checksum != 0 {
        add_checksum(&mut message);
    }
    let view = read(edition, &message)?;
    Ok((view, message))
}

/// The forwarded message with its body behind so many of its sequences.
pub fn move_body(
    edition: &Edition,
    buffer: &[u8],
    behind: u32,
    room: usize,
) -> Result<Written, Refused> {
    let old = read(edition, buffer)?;
    let sequences = old.sequences().len();
    if i64::from(behind) > sequences as i64 {
        return refuse(28, 0);
    }
    if room < old.length {
        return refuse(25, 0);
    }
    let forwarded = forwarded(&old, buffer);
    let mut parts: Vec<Range<usize>> = old.sections.iter().map(Section::whole).collect();
    let body = parts.remove(old.behind());
    parts.insert(behind as usize, body);

    // The header and the flag word, each section's own bytes, the checksum.
    let mut message = forwarded[..20].to_vec();
    for part in parts {
        message.extend(&forwarded[part]);
    }
    if has_checksum(old.flags) {
        add_checksum(&mut message);
    }
    let view = read(edition, &message).expect("the same sections in another order");
    Ok((view, message))
}
