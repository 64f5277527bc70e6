//! Random documents, messages and editions, whole and with faults inside.

use super::bson::*;
use super::dotted::{dotted_identifier, nested_document};
use super::message::*;
use super::random::Random;
use super::reference::{self, elements_of, Edition, MAX_ELEMENTS};
use super::text::{any_string_text, any_text, faulty_text};

/// The length that long random messages come near to, and the number of
/// elements. These are far below the limits, which would take too long for many
/// cases: messages of the greatest length have tests of their own.
pub const LONG: usize = 49_152;
pub const MANY: usize = 4_096;

/// How a document is made.
#[derive(Clone, Copy)]
pub struct Style {
    /// The most elements in one document.
    pub width: usize,
    /// The most levels.
    pub depth: usize,
    /// How many of a hundred elements and documents get a fault.
    pub faults: usize,
    /// Whether the names at the top are all different.
    pub different: bool,
}

impl Style {
    pub const SMALL: Style = Style {
        width: 4,
        depth: 3,
        faults: 0,
        different: true,
    };
}

const SHORT_NAMES: [&[u8]; 8] = [b"", b"a", b"b", b"ab", b"flow", b"ping", b"x1", b"x2"];

/// A document with elements of all types.
pub fn any_document(random: &mut Random, style: Style) -> Vec<u8> {
    let mut elements = Vec::new();
    for index in 0..random.below(style.width + 1) {
        let name = any_name(random, style, index);
        if random.percent(style.faults) {
            elements.extend(faulty_element(random, &name));
            if random.percent(70) {
                break;
            }
        } else {
            elements.extend(any_element(random, style, &name));
        }
    }
    let mut bytes = document(&elements);
    if random.percent(style.faults) {
        spoil_frame(random, &mut bytes);
    }
    bytes
}

fn any_name(random: &mut Random, style: Style, index: usize) -> Vec<u8> {
    if style.different {
        let length = random.below(4);
        let mut name = any_text(random, length);
        name.extend(format!("-{index}").bytes());
        name
    } else {
        random.pick(&SHORT_NAMES).to_vec()
    }
}

pub fn any_element(random: &mut Random, style: Style, name: &[u8]) -> Vec<u8> {
    let mut kind = random.pick(&TYPES);
    if style.depth <= 1 && matches!(kind, 0x03 | 0x04 | 0x0F) {
        kind = 0x10;
    }
    let value = any_value(random, style, kind);
    element(kind, name, &value)
}

fn any_value(random: &mut Random, style: Style, kind: u8) -> Vec<u8> {
    match kind {
        0x01 | 0x09 | 0x11 | 0x12 => random.bytes(8),
        0x10 => random.bytes(4),
        0x13 => random.bytes(16),
        0x07 => random.bytes(12),
        0x08 => vec![random.below(2) as u8],
        0x02 | 0x0D | 0x0E => any_string(random),
        0x05 => any_binary(random),
        0x0B => {
            let (first, second) = (random.below(4), random.below(4));
            let texts = [any_text(random, first), any_text(random, second)];
            [&texts[0][..], &[0], &texts[1][..], &[0]].concat()
        }
        0x0C => [any_string(random), random.bytes(12)].concat(),
        0x03 | 0x04 => inner_document(random, style),
        0x0F => {
            let length = random.below(4);
            let code = any_string_text(random, length);
            code_with_scope(&code, &inner_document(random, style))
        }
        _ => Vec::new(),
    }
}

fn any_string(random: &mut Random) -> Vec<u8> {
    let length = match random.below(20) {
        0 => random.between(10, 60),
        _ => random.below(10),
    };
    string(&any_string_text(random, length))
}

/// A binary of any subtype, often 02.
fn any_binary(random: &mut Random) -> Vec<u8> {
    let length = random.below(12);
    let content = random.bytes(length);
    match random.byte() {
        2 => old_binary(&content),
        _ if random.percent(20) => old_binary(&content),
        subtype => binary(subtype, &content),
    }
}

fn inner_document(random: &mut Random, style: Style) -> Vec<u8> {
    let inner = Style {
        depth: style.depth - 1,
        width: style.width.min(4),
        different: false,
        ..style
    };
    any_document(random, inner)
}

/// Gives a document a wrong length or last byte.
fn spoil_frame(random: &mut Random, bytes: &mut [u8]) {
    let length = bytes.len() as u32;
    match random.below(3) {
        0 => *bytes.last_mut().expect("a last byte") = random.byte().max(1),
        1 => put_u32(bytes, 0, length.wrapping_add(random.below(7) as u32)),
        _ => {
            let wrong = [0, 4, length - 1, u32::MAX, 1 << 31, 50_000];
            put_u32(bytes, 0, random.pick(&wrong));
        }
    }
}

/// An element with a fault. Some are faults at the end of a document only.
fn faulty_element(random: &mut Random, name: &[u8]) -> Vec<u8> {
    match random.below(13) {
        0 => {
            let kind = random.pick(&[0x00, 0x14, 0x15, 0x7E, 0x80, 0xFE]);
            let length = random.below(9);
            element(kind, name, &random.bytes(length))
        }
        1 => {
            let length = random.below(4);
            [vec![random.pick(&TYPES)], random.text(length)].concat()
        }
        2 => element(0x08, name, &[random.pick(&[2, 2, 3, 128, 255])]),
        3 => {
            let kind = random.pick(&[0x02, 0x0D, 0x0E, 0x0C]);
            element(kind, name, &faulty_string(random))
        }
        4 => {
            let mut value = binary(0, b"abc");
            put_u32(&mut value, 0, random.pick(&[4, u32::MAX, 1 << 31, 49_000]));
            element(0x05, name, &value)
        }
        5 => element(0x0B, name, random.pick(&[&b"a"[..], b"a\0b", b"", b"\0"])),
        6 | 7 => element(0x0F, name, &faulty_code_with_scope(random)),
        8 => element(0x05, name, &faulty_old_binary(random)),
        9..=11 => element_with_bad_text(random, name),
        _ => cut_element(random, name),
    }
}

/// An element with a text that is not UTF-8; at times what stands behind that
/// text is wrong too, or the text's own end is missing.
fn element_with_bad_text(random: &mut Random, name: &[u8]) -> Vec<u8> {
    let bad = faulty_text(random);
    let inside = [any_string_text(random, 1), bad.clone()].concat();
    let mut bytes = match random.below(9) {
        0 => element(random.pick(&TYPES), &bad, &EMPTY),
        1 => any_element(random, Style::SMALL, &bad),
        2 => element(0x02, name, &string(&inside)),
        3 => element(0x0D, name, &string(&inside)),
        4 => element(0x0E, name, &string(&inside)),
        5 => element(0x0B, name, &[&bad[..], b"\0i\0"].concat()),
        6 => element(0x0B, name, &[b"a\0", &bad[..], b"\0"].concat()),
        7 => element(0x0C, name, &[string(&inside), random.bytes(12)].concat()),
        _ => {
            let scopes: [&[u8]; 4] = [&EMPTY, &EMPTY, &[4, 0, 0, 0, 0], &[5, 0, 0, 0, 0, 0]];
            element(0x0F, name, &code_with_scope(&inside, random.pick(&scopes)))
        }
    };
    if random.percent(20) {
        bytes.truncate(bytes.len() - random.between(1, 3));
    }
    bytes
}

/// A document with one element whose text is not UTF-8, at any of four levels
/// and with others beside it.
pub fn bad_text_document(random: &mut Random) -> Vec<u8> {
    let flat = Style {
        depth: 1,
        ..Style::SMALL
    };
    let mut bad = element_with_bad_text(random, b"bad");
    for _ in 0..random.pick(&[0, 0, 1, 2, 3]) {
        let kind = random.pick(&[0x03, 0x04, 0x0F]);
        bad = element(kind, b"n", &holder(kind, &document(&bad)));
    }
    let before = any_document(random, flat);
    let after = any_document(random, flat);
    let inside = |bytes: &[u8]| bytes[4..bytes.len() - 1].to_vec();
    document(&[inside(&before), bad, inside(&after)].concat())
}

/// A binary of subtype 02 whose own length is wrong or missing.
fn faulty_old_binary(random: &mut Random) -> Vec<u8> {
    let length = random.below(9);
    let mut value = old_binary(&random.bytes(length));
    let outer = get_u32(&value, 0);
    match random.below(4) {
        // No room for a length.
        0 => {
            let length = random.below(4);
            value = binary(2, &random.bytes(length));
        }
        1 => put_u32(&mut value, 5, random.pick(&[outer, u32::MAX, 1 << 31])),
        2 => put_u32(&mut value, 5, outer - 4 + random.between(1, 3) as u32),
        // The outer length is wrong: more than there is, or less.
        _ => put_u32(&mut value, 0, random.pick(&[outer + 1, outer - 1, 49_000])),
    }
    value
}

fn faulty_string(random: &mut Random) -> Vec<u8> {
    let mut value = string(b"abc");
    match random.below(3) {
        0 => put_u32(
            &mut value,
            0,
            random.pick(&[0, 3, u32::MAX, 1 << 31, 49_000]),
        ),
        1 => put_u32(&mut value, 0, random.between(1, 40) as u32),
        _ => value[7] = random.byte().max(1),
    }
    value
}

fn faulty_code_with_scope(random: &mut Random) -> Vec<u8> {
    let mut value = code_with_scope(b"abc", &EMPTY);
    let total = value.len() as u32;
    match random.below(6) {
        // A wrong total.
        0 => put_u32(&mut value, 0, random.pick(&[13, 14, u32::MAX, 49_000])),
        1 => put_u32(&mut value, 0, total - random.between(1, 4) as u32),
        // Bytes left over after the scope.
        2 => {
            let extra = random.between(1, 5);
            value.extend(random.bytes(extra));
            put_u32(&mut value, 0, total + extra as u32);
        }
        // A wrong string; the longer ones leave no room for the scope.
        3 => put_u32(&mut value, 4, random.between(0, 12) as u32),
        // A wrong scope.
        4 => put_u32(&mut value, 12, random.between(0, 8) as u32),
        _ => *value.last_mut().expect("a last byte") = 1,
    }
    value
}

/// An element whose value stops too early.
fn cut_element(random: &mut Random, name: &[u8]) -> Vec<u8> {
    let flat = Style {
        depth: 2,
        ..Style::SMALL
    };
    let mut bytes = any_element(random, flat, name);
    let value = bytes.len() - (1 + name.len() + 1);
    if value > 0 {
        let cut = random.between(1, value);
        bytes.truncate(bytes.len() - cut);
    }
    bytes
}

/// A document of this many levels with other elements beside the chain; at
/// times the innermost document has a fault.
pub fn deep_document(random: &mut Random, levels: usize) -> Vec<u8> {
    let flat = Style {
        depth: 1,
        different: false,
        ..Style::SMALL
    };
    let mut bytes = any_document(random, flat);
    if random.percent(15) {
        spoil_frame(random, &mut bytes);
    }
    for _ in 1..levels {
        let kind = random.pick(&[0x03, 0x04, 0x0F]);
        let mut elements = Vec::new();
        if random.percent(20) {
            elements.extend(any_element(random, flat, b"before"));
        }
        elements.extend(element(kind, b"n", &holder(kind, &bytes)));
        if random.percent(20) {
            elements.extend(any_element(random, flat, b"after"));
        }
        bytes = document(&elements);
    }
    bytes
}

/// A document with exactly this many elements at all its levels, and with
/// different names at the top; at times the last has a wrong type.
pub fn crowded_document(random: &mut Random, count: usize) -> Vec<u8> {
    let mut elements = Vec::new();
    let mut left = count;
    for index in 0.. {
        if left == 0 {
            break;
        }
        let name = format!("{index}");
        let inside = if random.percent(5) {
            random.below(left)
        } else {
            0
        };
        if inside > 0 {
            let many = element(0x0A, b"", b"").repeat(inside);
            elements.extend(element(0x03, name.as_bytes(), &document(&many)));
        } else {
            let kind = if left == 1 && random.percent(10) {
                0x77
            } else {
                0x0A
            };
            elements.extend(element(kind, name.as_bytes(), b""));
        }
        left -= 1 + inside;
    }
    document(&elements)
}

/// An edition: often the house's, else anything.
pub fn any_edition(random: &mut Random) -> Edition {
    let house = 0x0001_0003;
    let bits = match random.below(10) {
        0..=4 => house,
        5 => random.pick(&[0, 1, 2, 3, u32::MAX, 0xFFFF, 0xFFFF_0000]),
        6 => house | 1 << random.below(32),
        7 => house & !(1 << random.pick(&[0, 1, 16])),
        8 => random.next() as u32 & random.next() as u32,
        _ => random.next() as u32 | random.next() as u32,
    };
    Edition {
        bits,
        sequences: !random.percent(8),
    }
}

/// A flag word for the edition: known bits and a few optional ones.
pub fn any_flags(random: &mut Random, edition: &Edition) -> u32 {
    let known = edition.bits & random.next() as u32;
    match random.below(20) {
        0..=6 => known & 0xFFFF,
        7..=9 => edition.bits & 1,
        10..=12 => known,
        13..=16 => known | (random.next() as u32 & 0xFFFF_0000),
        17..=18 => (edition.bits & 1) | 1 << random.between(16, 31),
        _ => known | 1 << random.below(32),
    }
}

/// A message that is mostly accepted.
pub fn any_draft(random: &mut Random, edition: &Edition) -> Draft {
    let style = any_style(random);
    let mut draft = Draft {
        request_id: random.i32(),
        response_to: random.i32(),
        flags: any_flags(random, edition),
        sections: Vec::new(),
    };
    match random.below(40) {
        0 => {
            let total = random.pick(&[MANY - 1, MANY, MANY + 1, MANY + 2, 4_200, 5_000]);
            draft.sections = crowded_sections(random, total);
        }
        1..=2 => draft.sections = deep_sections(random),
        _ => draft.sections = any_sections(random, edition, style),
    }
    if random.percent(3) {
        grow(random, &mut draft);
    }
    draft
}

/// A message with about as many elements as there may be, or a few too many.
pub fn overcrowded_draft(random: &mut Random, edition: &Edition) -> Draft {
    let total = any_overcrowd(random);
    Draft {
        request_id: random.i32(),
        response_to: random.i32(),
        flags: any_flags(random, edition),
        sections: crowded_sections(random, total),
    }
}

/// About as many elements as there may be.
pub fn any_overcrowd(random: &mut Random) -> usize {
    random.pick(&[
        MAX_ELEMENTS - 1,
        MAX_ELEMENTS,
        MAX_ELEMENTS + 1,
        MAX_ELEMENTS + 1,
        MAX_ELEMENTS + 2,
        MAX_ELEMENTS + 300,
    ])
}

pub fn any_style(random: &mut Random) -> Style {
    Style {
        width: random.pick(&[0, 1, 2, 4, 8, 16]),
        depth: random.between(1, 5),
        faults: 0,
        different: !random.percent(10),
    }
}

/// A body, a number of sequences, and the body at any place, often as the first
/// or the last section.
fn any_sections(random: &mut Random, edition: &Edition, style: Style) -> Vec<Section> {
    let count = match random.below(20) {
        _ if !edition.sequences && !random.percent(10) => 0,
        0..=4 => 0,
        5..=12 => random.between(1, 3),
        13..=16 => random.between(4, 14),
        _ => random.between(15, 17),
    };
    let body = if style.faults == 0 && random.percent(50) {
        nested_document(random)
    } else {
        any_document(random, style)
    };
    let mut sections: Vec<Section> = (0..count)
        .map(|index| any_sequence(random, style, index))
        .collect();
    if random.percent(50) {
        put_in_dots(random, &mut sections, &body);
    }
    let place = match random.below(10) {
        0..=3 => 0,
        4..=5 => count,
        _ => random.below(count + 1),
    };
    sections.insert(place, Section::Body(body));
    sections
}

/// Gives some of the sequences identifiers with dots that lead to no name of
/// the body, and seldom one that does.
fn put_in_dots(random: &mut Random, sequences: &mut [Section], body: &[u8]) {
    let elements = elements_of(body).unwrap_or_default();
    let mut taken = Vec::new();
    for section in sequences {
        let Section::Sequence { identifier, .. } = section else {
            continue;
        };
        let clashes = random.percent(2);
        match dotted_identifier(random, body, &elements, clashes) {
            Some(new) if random.percent(60) && !taken.contains(&new) => {
                taken.push(new.clone());
                *identifier = new;
            }
            _ => {}
        }
    }
}

/// How many sequences the body of this message shall be moved behind: as many
/// as there are, fewer, or too many.
pub fn any_behind(random: &mut Random, edition: &Edition, message: &[u8]) -> u32 {
    let count = match reference::read(edition, message) {
        Ok(view) => view.sequences().len(),
        Err(_) => random.below(4),
    };
    let right = random.below(count + 1) as u32;
    match random.below(20) {
        0..=9 => right,
        10..=11 => 0,
        12..=14 => count as u32,
        15..=16 => count as u32 + 1,
        17 => count as u32 + 2,
        // Right but for bits that a shorter number does not have.
        18 => right + random.pick(&[1 << 8, 1 << 16, 1 << 31]),
        _ if random.percent(50) => random.next() as u32,
        _ => random.pick(&[16, 17, 18, 255, u32::MAX]),
    }
}

fn any_sequence(random: &mut Random, style: Style, index: usize) -> Section {
    let identifier = if random.percent(2) {
        random.pick(&SHORT_NAMES[1..]).to_vec()
    } else {
        let length = random.below(6);
        let mut text = any_text(random, length);
        text.extend(format!("+{index}").bytes());
        text
    };
    Section::Sequence {
        identifier,
        documents: any_documents(random, style),
    }
}

/// A run of documents.
pub fn any_documents(random: &mut Random, style: Style) -> Vec<u8> {
    let inner = Style {
        different: false,
        width: style.width.min(4),
        ..style
    };
    let count = random.pick(&[0, 1, 1, 2, 3]);
    (0..count)
        .flat_map(|_| any_document(random, inner))
        .collect()
}

/// Sections with so many elements in all, spread over levels and sections.
fn crowded_sections(random: &mut Random, total: usize) -> Vec<Section> {
    let count = random.below(4);
    let mut left = total;
    let mut sections = Vec::new();
    for index in 0..count {
        let share = random.below(left);
        left -= share;
        let part = random.below(share + 1);
        let first = crowded_document(random, part);
        let second = crowded_document(random, share - part);
        sections.push(Section::Sequence {
            identifier: format!("+{index}").into_bytes(),
            documents: [first, second].concat(),
        });
    }
    let body = Section::Body(crowded_document(random, left));
    let place = random.below(count + 1);
    sections.insert(place, body);
    sections
}

/// Sections with documents of about 32 levels.
fn deep_sections(random: &mut Random) -> Vec<Section> {
    let levels = random.pick(&[20, 31, 32, 32, 32, 33, 33, 34, 40]);
    let deep = deep_document(random, levels);
    if random.percent(50) {
        return vec![Section::Body(deep)];
    }
    vec![
        Section::Sequence {
            identifier: b"deep".to_vec(),
            documents: deep,
        },
        Section::Body(EMPTY.to_vec()),
    ]
}

/// Grows the body so that the message is long.
fn grow(random: &mut Random, draft: &mut Draft) {
    let now = draft.bytes().len();
    let target = random.pick(&[LONG - 11, LONG, LONG + 1, LONG + 1, 65_536, 65_537, 65_600]);
    if target < now + 11 {
        return;
    }
    for section in &mut draft.sections {
        if let Section::Body(body) = section {
            *body = padded(body, target - now);
            return;
        }
    }
}

/// A message with faults inside its documents or sections, its lengths and
/// checksum else right.
pub fn faulty_draft(random: &mut Random, edition: &Edition) -> Draft {
    let mut draft = any_draft(random, edition);
    match random.below(17) {
        0 => draft.sections.retain(|s| !matches!(s, Section::Body(_))),
        1 => {
            let place = random.below(draft.sections.len() + 1);
            draft.sections.insert(place, Section::Body(EMPTY.to_vec()));
        }
        2 => {
            let place = random.below(draft.sections.len() + 1);
            let raw = faulty_section(random);
            draft.sections.insert(place, Section::Raw(raw));
        }
        3 => clash(random, &mut draft),
        4 => name_twice(random, &mut draft),
        5..=6 => bad_text(random, &mut draft),
        7 => {
            // A fault in the seventeenth sequence, or thereabouts.
            let count = random.between(15, 17);
            draft.sections = vec![Section::Body(EMPTY.to_vec())];
            for index in 0..count {
                draft
                    .sections
                    .push(any_sequence(random, Style::SMALL, index));
            }
            draft.sections.push(Section::Raw(faulty_section(random)));
        }
        8..=11 => path_clash(random, &mut draft),
        _ => {
            let style = Style {
                faults: random.between(5, 30),
                width: random.between(1, 8),
                ..any_style(random)
            };
            draft.sections = any_sections(random, edition, style);
        }
    }
    draft
}

/// A section with a wrong kind, size or identifier.
fn faulty_section(random: &mut Random) -> Vec<u8> {
    let mut bytes = sequence(b"id", &EMPTY);
    match random.below(12) {
        0 => bytes[0] = random.between(2, 255) as u8,
        1 => bytes = sequence(b"", &EMPTY),
        2 => {
            // No zero inside the section.
            let length = random.between(1, 4);
            bytes = [vec![1, 4 + length as u8, 0, 0, 0], random.text(length)].concat();
        }
        3 => put_u32(
            &mut bytes,
            1,
            random.pick(&[0, 4, 5, u32::MAX, 1 << 31, 49_152]),
        ),
        4 => put_u32(&mut bytes, 1, random.between(1, 40) as u32),
        5 => bytes.truncate(random.between(1, 5)),
        6 => {
            // Bytes after the last document.
            let length = random.between(1, 5);
            bytes = sequence(b"id", &[&EMPTY[..], &random.bytes(length)].concat());
        }
        // No UTF-8; what follows is right, or has a fault of its own.
        7..=9 => bytes = sequence(&faulty_text(random), &EMPTY),
        10 => bytes = sequence(&faulty_text(random), &EMPTY[..4]),
        _ => bytes = vec![1],
    }
    bytes
}

/// Puts in a sequence whose identifier is taken by a name of the body or by
/// another sequence.
fn clash(random: &mut Random, draft: &mut Draft) {
    let place = random.below(draft.sections.len() + 1);
    draft.sections.insert(
        place,
        Section::Sequence {
            identifier: b"flow".to_vec(),
            documents: Vec::new(),
        },
    );
    if random.percent(50) {
        draft.sections.push(Section::Sequence {
            identifier: b"flow".to_vec(),
            documents: EMPTY.to_vec(),
        });
    } else {
        add_to_body(draft, &element(0x0A, b"flow", b""));
    }
}

/// Makes the body anew, and puts in sequences whose identifiers lead to names
/// in it; at times there is another clash too.
pub fn path_clash(random: &mut Random, draft: &mut Draft) {
    let new = nested_document(random);
    let elements = elements_of(&new).expect("nothing is wrong with it");
    for section in &mut draft.sections {
        if let Section::Body(body) = section {
            body.clone_from(&new);
        }
    }
    for _ in 0..random.pick(&[1, 1, 2]) {
        let Some(identifier) = dotted_identifier(random, &new, &elements, true) else {
            return;
        };
        let place = random.below(draft.sections.len() + 1);
        let documents = random.pick(&[&b""[..], &EMPTY]).to_vec();
        draft.sections.insert(
            place,
            Section::Sequence {
                identifier,
                documents,
            },
        );
    }
    match random.below(10) {
        0..=3 => clash(random, draft),
        4 => name_twice(random, draft),
        _ => {}
    }
}

/// Puts a text that is not UTF-8 into the body or a sequence.
fn bad_text(random: &mut Random, draft: &mut Draft) {
    let bad = bad_text_document(random);
    if random.percent(50) {
        add_to_body(draft, &bad[4..bad.len() - 1]);
        return;
    }
    let place = random.below(draft.sections.len() + 1);
    let identifier = random.pick(&[&b"bad"[..], b"flow"]).to_vec();
    let documents = [&EMPTY, &bad[..]].concat();
    draft.sections.insert(
        place,
        Section::Sequence {
            identifier,
            documents,
        },
    );
}

/// Gives the body a name twice, with another element between or not.
fn name_twice(random: &mut Random, draft: &mut Draft) {
    let mut elements = element(0x10, b"flow", &[1, 0, 0, 0]);
    if random.percent(50) {
        elements.extend(element(0x08, b"between", &[1]));
    }
    elements.extend(element(0x10, b"flow", &[2, 0, 0, 0]));
    add_to_body(draft, &elements);
}

/// Puts elements at the end of the body.
fn add_to_body(draft: &mut Draft, elements: &[u8]) {
    for section in &mut draft.sections {
        if let Section::Body(body) = section {
            *body = document(&[&body[4..body.len() - 1], elements].concat());
        }
    }
}
