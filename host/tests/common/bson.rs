//! Pieces of BSON, put together without any check.

/// Every type of the table.
pub const TYPES: [u8; 21] = [
    0x01, 0x02, 0x03, 0x04, 0x05, 0x06, 0x07, 0x08, 0x09, 0x0A, 0x0B, 0x0C, 0x0D, 0x0E, 0x0F, 0x10,
    0x11, 0x12, 0x13, 0x7F, 0xFF,
];

/// The shortest document.
pub const EMPTY: [u8; 5] = [5, 0, 0, 0, 0];

/// A document around its elements.
pub fn document(elements: &[u8]) -> Vec<u8> {
    let mut bytes = ((elements.len() + 5) as i32).to_le_bytes().to_vec();
    bytes.extend(elements);
    bytes.push(0);
    bytes
}

/// An element; the name comes without its zero byte.
pub fn element(kind: u8, name: &[u8], value: &[u8]) -> Vec<u8> {
    let mut bytes = vec![kind];
    bytes.extend(name);
    bytes.push(0);
    bytes.extend(value);
    bytes
}

/// A string value; the text comes without its zero byte.
pub fn string(text: &[u8]) -> Vec<u8> {
    let mut bytes = ((text.len() + 1) as i32).to_le_bytes().to_vec();
    bytes.extend(text);
    bytes.push(0);
    bytes
}

/// A binary value.
pub fn binary(subtype: u8, content: &[u8]) -> Vec<u8> {
    let mut bytes = (content.len() as i32).to_le_bytes().to_vec();
    bytes.push(subtype);
    bytes.extend(content);
    bytes
}

/// A binary value of subtype 02, which states its length a second time.
pub fn old_binary(content: &[u8]) -> Vec<u8> {
    let length = (content.len() as i32).to_le_bytes();
    binary(2, &[&length, content].concat())
}

/// A value of type 0F.
pub fn code_with_scope(code: &[u8], scope: &[u8]) -> Vec<u8> {
    let string = string(code);
    let mut bytes = ((4 + string.len() + scope.len()) as i32)
        .to_le_bytes()
        .to_vec();
    bytes.extend(string);
    bytes.extend(scope);
    bytes
}

/// A document inside a value of this type: 03, 04 or 0F.
pub fn holder(kind: u8, inner: &[u8]) -> Vec<u8> {
    match kind {
        0x03 | 0x04 => inner.to_vec(),
        0x0F => code_with_scope(b"", inner),
        _ => panic!("type {kind:#04x} holds no document"),
    }
}

/// A document of `levels` levels, each inside an element of this type.
pub fn nested(kind: u8, levels: usize) -> Vec<u8> {
    let mut bytes = EMPTY.to_vec();
    for _ in 1..levels {
        bytes = document(&element(kind, b"n", &holder(kind, &bytes)));
    }
    bytes
}

/// A document of `count` nulls with different names.
pub fn nulls(count: usize) -> Vec<u8> {
    let names = (0..count).map(|i| element(0x0A, format!("{i}").as_bytes(), b""));
    document(&names.collect::<Vec<_>>().concat())
}

/// The document with a binary element put at its end, so that it grows by
/// `growth` bytes; it must grow by at least 11.
pub fn padded(inner: &[u8], growth: usize) -> Vec<u8> {
    let padding = element(0x05, b"~pad", &binary(0, &vec![0xEE; growth - 11]));
    document(&[&inner[4..inner.len() - 1], &padding].concat())
}
