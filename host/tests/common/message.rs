//! Messages put together from sections, without any check.

use super::reference::crc32c;

/// A message before it is put into bytes.
#[derive(Clone, Debug)]
pub struct Draft {
    pub request_id: i32,
    pub response_to: i32,
    pub flags: u32,
    pub sections: Vec<Section>,
}

#[derive(Clone, Debug)]
pub enum Section {
    Body(Vec<u8>),
    Sequence {
        identifier: Vec<u8>,
        documents: Vec<u8>,
    },
    /// Bytes with the kind byte first, right or wrong.
    Raw(Vec<u8>),
}

impl Draft {
    pub fn new(sections: Vec<Section>) -> Draft {
        Draft {
            request_id: 7,
            response_to: 0,
            flags: 0,
            sections,
        }
    }

    /// The message with the length, and the checksum where bit 0 is set.
    pub fn bytes(&self) -> Vec<u8> {
        let mut bytes = vec![0; 4];
        bytes.extend(self.request_id.to_le_bytes());
        bytes.extend(self.response_to.to_le_bytes());
        bytes.extend(2013i32.to_le_bytes());
        bytes.extend(self.flags.to_le_bytes());
        for section in &self.sections {
            bytes.extend(section.bytes());
        }
        if self.flags & 1 == 1 {
            bytes.extend([0; 4]);
        }
        set_length(&mut bytes);
        sign(&mut bytes);
        bytes
    }
}

impl Section {
    pub fn bytes(&self) -> Vec<u8> {
        match self {
            Section::Body(document) => [&[0], document.as_slice()].concat(),
            Section::Sequence {
                identifier,
                documents,
            } => sequence(identifier, documents),
            Section::Raw(bytes) => bytes.clone(),
        }
    }
}

/// A section of kind 1.
pub fn sequence(identifier: &[u8], documents: &[u8]) -> Vec<u8> {
    let size = (4 + identifier.len() + 1 + documents.len()) as i32;
    let mut bytes = vec![1];
    bytes.extend(size.to_le_bytes());
    bytes.extend(identifier);
    bytes.push(0);
    bytes.extend(documents);
    bytes
}

/// A message with a body alone.
pub fn with_body(body: Vec<u8>) -> Vec<u8> {
    Draft::new(vec![Section::Body(body)]).bytes()
}

/// The message with this flag word, and with a right checksum exactly where
/// that has bit 0.
pub fn with_flags(message: &[u8], flags: u32) -> Vec<u8> {
    let had = if get_u32(message, 16) & 1 == 1 { 4 } else { 0 };
    let has = if flags & 1 == 1 { 4 } else { 0 };
    let mut bytes = message[..message.len() - had].to_vec();
    bytes.extend(vec![0; has]);
    put_u32(&mut bytes, 16, flags);
    set_length(&mut bytes);
    sign(&mut bytes);
    bytes
}

pub fn put_u32(bytes: &mut [u8], at: usize, number: u32) {
    bytes[at..at + 4].copy_from_slice(&number.to_le_bytes());
}

pub fn get_u32(bytes: &[u8], at: usize) -> u32 {
    u32::from_le_bytes([bytes[at], bytes[at + 1], bytes[at + 2], bytes[at + 3]])
}

/// Sets messageLength to the buffer's length.
pub fn set_length(bytes: &mut [u8]) {
    if bytes.len() >= 4 {
        let length = bytes.len() as u32;
        put_u32(bytes, 0, length);
    }
}

/// Puts the right checksum at the end, where the header and flags ask for one
/// and the buffer has it.
pub fn sign(bytes: &mut [u8]) {
    if bytes.len() < 24 || get_u32(bytes, 16) & 1 == 0 {
        return;
    }
    let length = get_u32(bytes, 0) as usize;
    if (24..=bytes.len()).contains(&length) {
        let crc = crc32c(&bytes[..length - 4]);
        put_u32(bytes, length - 4, crc);
    }
}
