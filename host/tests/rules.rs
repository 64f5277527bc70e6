//! The trials T1 to T14 of document 01, its levels and sequences at their
//! limits, and its marked orders, where texts and binaries of subtype 02 (change
//! request 4) come among them, the list of sections and moved bodies (change
//! request 5), and identifiers with dots (change request 2), run directly. The
//! independent reader must give the same answers. The limits of length and
//! elements are in `limits.rs`.

mod common;

use common::bson::*;
use common::generate::LONG;
use common::message::*;
use common::reference::{self, crc32c, crc32c_by_bits, MAX_ELEMENTS, MAX_MESSAGE};
use common::PING;
use relay::{append, ffi, forward, move_body, read, write, Edition, Refusal, View};
use relay::{Sequence, VIEW_NUMBERS};
use std::ops::Range;

const HOUSE: Edition = Edition::HOUSE;

/// Room for every message but one.
const ROOM: usize = LONG + 100;

/// The same edition for the independent reader.
fn as_reference(edition: &Edition) -> reference::Edition {
    reference::Edition {
        bits: edition.bits,
        sequences: edition.sequences,
    }
}

/// The view as the independent reader has it.
fn as_reference_view(view: &View) -> reference::View {
    let sections = view.sections().map(|section| match section {
        relay::Section::Body(document) => reference::Section::Body(document),
        relay::Section::Sequence(sequence) => reference::Section::Sequence(reference::Sequence {
            identifier: sequence.identifier,
            documents: sequence.documents,
            count: sequence.count,
        }),
    });
    reference::View {
        length: view.length,
        request_id: view.request_id,
        response_to: view.response_to,
        flags: view.flags,
        elements: view.elements,
        sections: sections.collect(),
    }
}

/// Reads with the library, and sees that the independent reader agrees.
fn read_both(edition: &Edition, message: &[u8]) -> Result<View, Refusal> {
    let answer = read(edition, message);
    let other = reference::read(&as_reference(edition), message);
    match (&answer, &other) {
        (Ok(view), Ok(expected)) => assert_eq!(as_reference_view(view), *expected),
        (Err(refusal), Err(expected)) => {
            assert_eq!(refusal.number(), expected.number);
            assert_eq!(refusal.place(), expected.place);
        }
        _ => panic!("the library answers {answer:?}, the independent reader {other:?}"),
    }
    answer
}

/// PING with some bytes replaced.
fn ping_with(at: usize, bytes: &[u8]) -> Vec<u8> {
    let mut message = PING.to_vec();
    message[at..at + bytes.len()].copy_from_slice(bytes);
    message
}

/// The sections that a view shows.
fn listed(view: &View) -> Vec<relay::Section> {
    view.sections().collect()
}

fn body_at(document: Range<usize>) -> relay::Section {
    relay::Section::Body(document)
}

fn sequence_at(identifier: Range<usize>, documents: Range<usize>, count: usize) -> relay::Section {
    relay::Section::Sequence(Sequence {
        identifier,
        documents,
        count,
    })
}

fn element_count(message: &[u8]) -> usize {
    read_both(&HOUSE, message).expect("accepted").elements
}

// ------------------------------------------------------------------ trials

#[test]
fn t1_ping_is_accepted() {
    let view = read_both(&HOUSE, &PING).expect("accepted");
    assert_eq!(view.length, 36);
    assert_eq!((view.request_id, view.response_to, view.flags), (7, 0, 0));
    assert_eq!((view.body().start, view.body().len()), (21, 15));
    assert_eq!(view.elements, 1);
    assert_eq!(view.sequences().len(), 0);
}

#[test]
fn t2_empty_buffer() {
    assert_eq!(read_both(&HOUSE, &[]), Err(Refusal::BufferUnder16(0)));
}

#[test]
fn t3_length_under_zero() {
    let message = ping_with(0, &[0xFF; 4]);
    assert_eq!(
        read_both(&HOUSE, &message),
        Err(Refusal::LengthOutOfRange(0))
    );
}

#[test]
fn t4_buffer_a_byte_short() {
    assert_eq!(read_both(&HOUSE, &PING[..35]), Err(Refusal::BufferShort(0)));
}

#[test]
fn t5_and_t6_other_opcodes() {
    let with_opcode = |code: i32| read_both(&HOUSE, &ping_with(12, &code.to_le_bytes()));
    assert_eq!(with_opcode(2003), Err(Refusal::OtherOpcode(12)));
    assert_eq!(with_opcode(2004), Err(Refusal::OldOpcode(12)));
    for code in [1, 2001, 2002, 2004, 2005, 2006, 2007] {
        assert_eq!(with_opcode(code), Err(Refusal::OldOpcode(12)));
    }
    assert_eq!(with_opcode(2012), Err(Refusal::CompressedOpcode(12)));
    for code in [0, -1, 2, 2000, 2003, 2008, 2009, 2010, 2011, 2014] {
        assert_eq!(with_opcode(code), Err(Refusal::OtherOpcode(12)));
    }
}

#[test]
fn t7_unknown_required_bit() {
    let message = ping_with(16, &4u32.to_le_bytes());
    assert_eq!(read_both(&HOUSE, &message), Err(Refusal::UnknownFlag(16)));
}

#[test]
fn t8_unknown_optional_bit_is_cleared() {
    let message = ping_with(16, &131_072u32.to_le_bytes());
    assert_eq!(read_both(&HOUSE, &message).expect("accepted").flags, 0);
    let mut output = [0xAA; 36];
    let view = forward(&HOUSE, &message, &mut output).expect("accepted");
    assert_eq!(view.flags, 0);
    assert_eq!(output, PING);
}

#[test]
fn t9_no_sections() {
    let mut message = PING[..20].to_vec();
    set_length(&mut message);
    assert_eq!(read_both(&HOUSE, &message), Err(Refusal::NoBody(20)));
}

#[test]
fn t10_kind_2() {
    let message = ping_with(20, &[2]);
    assert_eq!(read_both(&HOUSE, &message), Err(Refusal::UnknownKind(20)));
}

#[test]
fn t11_and_t12_append_and_an_edition_without_kind_1() {
    let mut output = [0xAA; 50];
    let view = append(&HOUSE, &PING, b"d", &EMPTY, &mut output).expect("accepted");
    assert_eq!(view.length, 48);
    assert_eq!(
        listed(&view),
        [body_at(21..36), sequence_at(41..42, 43..48, 1)]
    );
    let draft = Draft::new(vec![
        Section::Body(PING[21..].to_vec()),
        Section::Sequence {
            identifier: b"d".to_vec(),
            documents: EMPTY.to_vec(),
        },
    ]);
    assert_eq!(output[..48], draft.bytes());
    assert_eq!(output[48..], [0xAA; 2]);

    let bodies_only = Edition {
        sequences: false,
        ..HOUSE
    };
    assert_eq!(
        read_both(&bodies_only, &output[..48]),
        Err(Refusal::UnknownKind(36))
    );
}

#[test]
fn t13_append_with_a_name_of_the_body() {
    let mut output = [0xAA; 60];
    assert_eq!(
        append(&HOUSE, &PING, b"ping", &EMPTY, &mut output),
        Err(Refusal::IdentifierClash(41))
    );
    assert_eq!(output, [0xAA; 60]);
}

#[test]
fn t14_a_name_twice() {
    let ping = element(0x10, b"ping", &[1, 0, 0, 0]);
    let message = with_body(document(&ping.repeat(2)));
    assert_eq!(read_both(&HOUSE, &message), Err(Refusal::NameTwice(36)));
}

// ------------------------------------------------------------------ limits

#[test]
fn levels_32_and_33() {
    for (kind, step) in [(0x03, 7), (0x04, 7), (0x0F, 16)] {
        let message = with_body(nested(kind, 32));
        assert_eq!(element_count(&message), 31);

        // Each level starts `step` bytes after the one around it.
        let place = 21 + 32 * step;
        let message = with_body(nested(kind, 33));
        assert_eq!(read_both(&HOUSE, &message), Err(Refusal::TooDeep(place)));

        // Level 33 is refused before its own length is looked at.
        let mut message = with_body(nested(kind, 33));
        put_u32(&mut message, place, u32::MAX);
        assert_eq!(read_both(&HOUSE, &message), Err(Refusal::TooDeep(place)));

        let mut output = vec![0xAA; ROOM];
        let view = append(&HOUSE, &PING, b"d", &nested(kind, 32), &mut output);
        assert_eq!(view.expect("accepted").elements, 32);
        assert_eq!(
            append(&HOUSE, &PING, b"d", &nested(kind, 33), &mut output),
            Err(Refusal::TooDeep(43 + 32 * step))
        );
        assert_eq!(
            write(&HOUSE, 0, 0, 0, &nested(kind, 33), &mut output),
            Err(Refusal::TooDeep(place))
        );
    }
}

#[test]
fn sequences_16_and_17() {
    let mut message = PING.to_vec();
    for index in 0..16 {
        let identifier = format!("s{index}");
        let mut output = vec![0xAA; ROOM];
        let view = append(
            &HOUSE,
            &message,
            identifier.as_bytes(),
            &EMPTY.repeat(index),
            &mut output,
        )
        .expect("accepted");
        assert_eq!(view.sections().len(), index + 2);
        assert_eq!(view.sequences().len(), index + 1);
        let last = view.sequences().next_back().expect("a sequence");
        assert_eq!(last.count, index);
        output.truncate(view.length);
        message = output;
    }
    let end = message.len();
    let refused = append(&HOUSE, &message, b"s16", &EMPTY, &mut vec![0; ROOM]);
    assert_eq!(refused, Err(Refusal::SeventeenthSequence(end)));

    message.extend(sequence(b"s16", &EMPTY));
    set_length(&mut message);
    assert_eq!(
        read_both(&HOUSE, &message),
        Err(Refusal::SeventeenthSequence(end))
    );
}

// --------------------------------------------------------------- checksums

#[test]
fn published_checksums() {
    // RFC 3720, appendix B.4, and the usual check value.
    let rising: Vec<u8> = (0..32).collect();
    let falling: Vec<u8> = (0..32).rev().collect();
    let scsi_read = [
        0x01, 0xC0, 0, 0, 0, 0, 0, 0, 0, 0, 0, 0, 0, 0, 0, 0, 0x14, 0, 0, 0, 0, 0, 0x04, 0, 0, 0,
        0, 0x14, 0, 0, 0, 0x18, 0x28, 0, 0, 0, 0, 0, 0, 0, 0x02, 0, 0, 0, 0, 0, 0, 0,
    ];
    let vectors: [(&[u8], u32); 7] = [
        (b"", 0),
        (b"123456789", 0xE306_9283),
        (&[0; 32], 0x8A91_36AA),
        (&[0xFF; 32], 0x62A8_AB43),
        (&rising, 0x46DD_794E),
        (&falling, 0x113F_DB5C),
        (&scsi_read, 0xD996_3A56),
    ];
    for (bytes, expected) in vectors {
        assert_eq!(crc32c_by_bits(bytes), expected);
        assert_eq!(crc32c(bytes), expected);
    }
}

#[test]
fn written_checksums_are_the_definition_s() {
    for growth in 11..300 {
        let body = padded(&EMPTY, growth);
        let mut output = vec![0xAA; ROOM];
        let view = write(&HOUSE, -1, i32::MIN, 1, &body, &mut output).expect("accepted");
        let end = view.length - 4;
        assert_eq!(get_u32(&output, end), crc32c_by_bits(&output[..end]));
    }
}

#[test]
fn a_wrong_checksum_is_refused_whichever_bit_is_wrong() {
    let mut message = vec![0; 40];
    write(&HOUSE, 7, 0, 1, &PING[21..], &mut message).expect("accepted");
    for bit in 0..32 {
        let mut wrong = message.clone();
        wrong[36 + bit / 8] ^= 1 << (bit % 8);
        assert_eq!(read_both(&HOUSE, &wrong), Err(Refusal::ChecksumDiffers(36)));
    }
}

#[test]
fn the_checksum_covers_the_flags_as_they_came() {
    let mut draft = Draft::new(vec![Section::Body(EMPTY.to_vec())]);
    draft.flags = 1 | 1 << 31;
    let message = draft.bytes();
    let view = read_both(&HOUSE, &message).expect("accepted");
    assert_eq!(view.flags, 1);
    let mut output = vec![0xAA; message.len()];
    forward(&HOUSE, &message, &mut output).expect("accepted");
    draft.flags = 1;
    assert_eq!(output, draft.bytes());
}

#[test]
fn a_cleared_bit_gives_the_checksum_anew_at_every_length() {
    // An empty body makes 30 bytes.
    let growths = (11..2_000).chain([4_000, 20_000, LONG - 31, LONG - 30]);
    for growth in growths {
        let mut draft = Draft::new(vec![Section::Body(padded(&EMPTY, growth))]);
        draft.flags = 1 | 1 << 16 | 1 << (17 + growth % 15);
        let message = draft.bytes();
        assert_eq!(message.len(), 30 + growth);
        let mut output = vec![0xAA; ROOM];
        let view = forward(&HOUSE, &message, &mut output).expect("accepted");
        draft.flags = 1 | 1 << 16;
        assert_eq!(view.flags, draft.flags);
        assert_eq!(output[..view.length], draft.bytes());
        assert!(output[view.length..].iter().all(|&byte| byte == 0xAA));
    }
}

// ------------------------------------------------------------------ orders

#[test]
fn short_messages_give_7_8_and_7_again() {
    let short = |length: usize, flags: u32| {
        let mut message = PING.to_vec();
        put_u32(&mut message, 0, length as u32);
        put_u32(&mut message, 16, flags);
        read_both(&HOUSE, &message)
    };
    // Under 20 the flag word is not looked at.
    for length in 16..20 {
        assert_eq!(short(length, 4), Err(Refusal::LengthTooSmall(16)));
    }
    for length in 20..24 {
        assert_eq!(short(length, 5), Err(Refusal::UnknownFlag(16)));
        assert_eq!(short(length, 1), Err(Refusal::LengthTooSmall(16)));
    }
    assert_eq!(short(24, 1), Err(Refusal::ChecksumDiffers(20)));
    // The same checksum differs, and an unknown bit comes before it.
    assert_eq!(short(24, 5), Err(Refusal::UnknownFlag(16)));
    assert_eq!(short(20, 0), Err(Refusal::NoBody(20)));
    assert_eq!(short(15, 0), Err(Refusal::LengthOutOfRange(0)));
}

#[test]
fn a_nested_length_is_held_to_the_outer_document() {
    // The inner document would fit the message but not the outer one.
    let inner = element(0x03, b"n", &[7, 0, 0, 0, 0]);
    let mut draft = Draft::new(vec![
        Section::Body(document(&inner)),
        Section::Raw(vec![0; 20]),
    ]);
    assert_eq!(
        read_both(&HOUSE, &draft.bytes()),
        Err(Refusal::DocumentLength(28))
    );
    draft.sections.truncate(1);
    assert_eq!(
        read_both(&HOUSE, &draft.bytes()),
        Err(Refusal::DocumentLength(28))
    );
}

#[test]
fn faults_of_code_with_scope() {
    // The value starts at 28: the body at 21, its first element at 25.
    let with_value = |value: &[u8]| {
        let message = with_body(document(&element(0x0F, b"n", value)));
        read_both(&HOUSE, &message)
    };
    let good = code_with_scope(b"abc", &EMPTY);
    assert_eq!(good.len(), 17);
    assert!(with_value(&good).is_ok());
    assert!(with_value(&code_with_scope(b"", &EMPTY)).is_ok());

    let changed = |at: usize, number: u32| {
        let mut value = good.clone();
        put_u32(&mut value, at, number);
        with_value(&value)
    };
    assert_eq!(changed(0, 13), Err(Refusal::BadValue(28)));
    assert_eq!(changed(0, 18), Err(Refusal::BadValue(28)));
    // The string is held to t, and so is the scope, which keeps its number.
    assert_eq!(changed(4, 10), Err(Refusal::BadValue(28)));
    assert_eq!(changed(4, 0), Err(Refusal::BadValue(28)));
    assert_eq!(changed(0, 16), Err(Refusal::DocumentLength(40)));
    assert_eq!(changed(12, 6), Err(Refusal::DocumentLength(40)));
    assert_eq!(changed(12, 4), Err(Refusal::DocumentLength(40)));
    // A string that fills t leaves no byte for the scope.
    let full = [&14u32.to_le_bytes()[..], &string(b"12345")].concat();
    assert_eq!(with_value(&full), Err(Refusal::DocumentLength(42)));
    // A byte left over.
    let mut long = good.clone();
    long.push(0);
    put_u32(&mut long, 0, 18);
    assert_eq!(with_value(&long), Err(Refusal::BadValue(28)));
}

#[test]
fn the_order_of_write() {
    let house_but_16 = Edition {
        bits: 3,
        sequences: true,
    };
    let mut output = vec![0xAA; ROOM];
    let huge = vec![0; MAX_MESSAGE];
    let mut refusal = |edition: &Edition, flags: u32, body: &[u8], room: usize| {
        let refusal = write(edition, 0, 0, flags, body, &mut output[..room]).unwrap_err();
        assert!(output.iter().all(|&byte| byte == 0xAA));
        refusal
    };
    let edition = &house_but_16;
    assert_eq!(
        refusal(edition, 1 << 16, &huge, 0),
        Refusal::UnknownFlag(16)
    );
    assert_eq!(refusal(edition, 4, &huge, 0), Refusal::UnknownFlag(16));
    assert_eq!(refusal(edition, 3, &huge, 0), Refusal::LengthOutOfRange(0));
    assert_eq!(refusal(edition, 3, b"", 24), Refusal::OutputShort(0));
    assert_eq!(refusal(edition, 3, b"", 25), Refusal::DocumentLength(21));
    assert_eq!(refusal(edition, 0, b"abc", 24), Refusal::DocumentLength(21));
    let short = &EMPTY[..4];
    assert_eq!(refusal(edition, 0, short, 25), Refusal::DocumentLength(21));
    let stated_4 = [4, 0, 0, 0];
    assert_eq!(
        refusal(edition, 0, &stated_4, 25),
        Refusal::DocumentLength(21)
    );
    let open = [5, 0, 0, 0, 9];
    assert_eq!(refusal(edition, 0, &open, 25), Refusal::OutputShort(0));
    assert_eq!(
        refusal(edition, 0, &open, 26),
        Refusal::DocumentLastByte(25)
    );
}

#[test]
fn the_order_of_append() {
    let bodies_only = Edition {
        sequences: false,
        ..HOUSE
    };
    let mut output = vec![0xAA; ROOM];
    let huge = vec![0; MAX_MESSAGE];
    let mut refusal = |edition: &Edition, message: &[u8], id: &[u8], run: &[u8], room: usize| {
        let refusal = append(edition, message, id, run, &mut output[..room]).unwrap_err();
        assert!(output.iter().all(|&byte| byte == 0xAA));
        refusal
    };
    assert_eq!(
        refusal(&bodies_only, &PING[..35], b"", &huge, 0),
        Refusal::BufferShort(0)
    );
    assert_eq!(
        refusal(&bodies_only, &PING, b"", &huge, 0),
        Refusal::UnknownKind(36)
    );
    assert_eq!(
        refusal(&HOUSE, &PING, b"", &huge, 0),
        Refusal::BadIdentifier(41)
    );
    assert_eq!(
        refusal(&HOUSE, &PING, b"a\0", &huge, 0),
        Refusal::BadIdentifier(41)
    );
    assert_eq!(
        refusal(&HOUSE, &PING, b"ping", &huge, 0),
        Refusal::LengthOutOfRange(0)
    );
    assert_eq!(
        refusal(&HOUSE, &PING, b"ping", &[9], 46),
        Refusal::OutputShort(0)
    );
    assert_eq!(
        refusal(&HOUSE, &PING, b"ping", &[9], 47),
        Refusal::DocumentLength(46)
    );
    assert_eq!(
        refusal(&HOUSE, &PING, b"ping", b"", 46),
        Refusal::IdentifierClash(41)
    );

    // Under a checksum, E is four bytes before the end.
    let mut signed = [0; 40];
    write(&HOUSE, 7, 0, 1, &PING[21..], &mut signed).expect("accepted");
    assert_eq!(
        refusal(&bodies_only, &signed, b"d", b"", 60),
        Refusal::UnknownKind(36)
    );
    assert_eq!(
        refusal(&HOUSE, &signed, b"", b"", 60),
        Refusal::BadIdentifier(41)
    );
}

#[test]
fn sixteen_sequences_come_before_a_bad_identifier() {
    let mut sections = vec![Section::Body(EMPTY.to_vec())];
    for index in 0..16 {
        sections.push(Section::Sequence {
            identifier: vec![b'a' + index],
            documents: Vec::new(),
        });
    }
    let message = Draft::new(sections).bytes();
    assert_eq!(
        append(&HOUSE, &message, b"", b"", &mut []),
        Err(Refusal::SeventeenthSequence(message.len()))
    );
}

#[test]
fn a_clash_of_names_comes_before_a_clash_of_identifiers() {
    let twice = element(0x0A, b"n", b"").repeat(2);
    let clashing = |documents: &[u8]| Section::Sequence {
        identifier: b"n".to_vec(),
        documents: documents.to_vec(),
    };
    // The sequences stand first, but the names of the body are checked first.
    let message = Draft::new(vec![
        clashing(b""),
        clashing(b""),
        Section::Body(document(&twice)),
    ])
    .bytes();
    // 20 bytes, two sections of 7, a kind byte, a length, an element, a type.
    assert_eq!(read_both(&HOUSE, &message), Err(Refusal::NameTwice(43)));

    // With one such name the first sequence clashes, though the body is later.
    let message = Draft::new(vec![
        clashing(b""),
        clashing(b""),
        Section::Body(document(&twice[..3])),
    ])
    .bytes();
    assert_eq!(
        read_both(&HOUSE, &message),
        Err(Refusal::IdentifierClash(25))
    );
}

#[test]
fn no_body_comes_before_a_clash_of_identifiers() {
    let message = Draft::new(vec![
        Section::Sequence {
            identifier: b"n".to_vec(),
            documents: Vec::new(),
        };
        2
    ])
    .bytes();
    assert_eq!(
        read_both(&HOUSE, &message),
        Err(Refusal::NoBody(message.len()))
    );
}

// ------------------------------------------------------------------- texts

/// A text that is UTF-8 up to its byte 2.
const BAD: &[u8] = b"ab\xFFcd";

/// An edition that does not know sequences.
const BODIES_ONLY: Edition = Edition {
    sequences: false,
    ..HOUSE
};

/// Reads a message with these elements in its body. The body starts at 21, so
/// the first element's type is at 25 and its name at 26; after a name of one
/// letter the value is at 28.
fn read_elements(elements: &[u8]) -> Result<View, Refusal> {
    read_both(&HOUSE, &with_body(document(elements)))
}

/// The same with one element, whose value is at 28.
fn read_value(kind: u8, value: &[u8]) -> Result<View, Refusal> {
    read_elements(&element(kind, b"n", value))
}

/// Reads sections, of which the first is at 20.
fn read_sections(sections: &[Section]) -> Result<View, Refusal> {
    read_both(&HOUSE, &Draft::new(sections.to_vec()).bytes())
}

fn with_identifier(identifier: &[u8], documents: &[u8]) -> Section {
    Section::Sequence {
        identifier: identifier.to_vec(),
        documents: documents.to_vec(),
    }
}

/// The value with one of its numbers changed.
fn changed(value: &[u8], at: usize, number: u32) -> Vec<u8> {
    let mut value = value.to_vec();
    put_u32(&mut value, at, number);
    value
}

#[test]
fn a_name_is_checked_between_its_zero_and_its_value() {
    let bad_name = Err(Refusal::TextNotUtf8(28));
    assert_eq!(read_elements(&element(0x0A, BAD, b"")), bad_name);
    // Its type and its zero come before.
    assert_eq!(
        read_elements(&element(0x77, BAD, b"")),
        Err(Refusal::UnknownType(25))
    );
    assert_eq!(
        read_elements(b"\x0A\xFF\xFF"),
        Err(Refusal::NameWithoutZero(26))
    );
    // All of its value comes later.
    assert_eq!(read_elements(&element(0x08, BAD, &[2])), bad_name);
    assert_eq!(read_elements(&element(0x02, BAD, &[9])), bad_name);
    assert_eq!(read_elements(&element(0x02, BAD, &string(BAD))), bad_name);
    assert_eq!(
        read_elements(&element(0x05, BAD, &binary(2, b""))),
        bad_name
    );
    let open = [5, 0, 0, 0, 9];
    assert_eq!(read_elements(&element(0x03, BAD, &open)), bad_name);
    assert_eq!(read_elements(&element(0x04, BAD, &open[..3])), bad_name);
}

#[test]
fn a_bad_name_after_other_elements() {
    let null = element(0x0A, b"n", b"");
    let bad = element(0x0A, BAD, b"");
    // From left to right: a bad value before it, a name twice after all.
    let wrong = element(0x08, b"n", &[2]);
    assert_eq!(
        read_elements(&[&wrong[..], &bad].concat()),
        Err(Refusal::BadValue(28))
    );
    assert_eq!(
        read_elements(&[&null[..], &null, &bad].concat()),
        Err(Refusal::TextNotUtf8(34))
    );
    assert_eq!(
        read_elements(&[&bad[..], &bad].concat()),
        Err(Refusal::TextNotUtf8(28))
    );

    // The last element that a message may have, and one too many.
    let crowd = |count: usize| {
        let nulls = nulls(count);
        let place = 21 + nulls.len() - 1;
        let elements = [&nulls[4..nulls.len() - 1], &bad].concat();
        (place, read_elements(&elements))
    };
    let (place, answer) = crowd(MAX_ELEMENTS - 1);
    assert_eq!(answer, Err(Refusal::TextNotUtf8(place + 3)));
    let (place, answer) = crowd(MAX_ELEMENTS);
    assert_eq!(answer, Err(Refusal::TooManyElements(place)));
}

#[test]
fn a_document_s_frame_comes_before_the_names_in_it() {
    let bad = document(&element(0x0A, BAD, b""));
    let last = bad.len() - 1;
    let mut open = bad.clone();
    open[last] = 1;
    assert_eq!(
        read_both(&HOUSE, &with_body(open.clone())),
        Err(Refusal::DocumentLastByte(21 + last))
    );
    let long = changed(&bad, 0, 99);
    assert_eq!(
        read_both(&HOUSE, &with_body(long.clone())),
        Err(Refusal::DocumentLength(21))
    );
    // The same one level deeper, where the name is at 28 + 5.
    assert_eq!(
        read_value(0x03, &open),
        Err(Refusal::DocumentLastByte(28 + last))
    );
    assert_eq!(read_value(0x04, &long), Err(Refusal::DocumentLength(28)));
    assert_eq!(read_value(0x03, &bad), Err(Refusal::TextNotUtf8(35)));
    // In a scope: a total, a string of five bytes, a length, a type.
    let scoped = code_with_scope(b"", &bad);
    assert_eq!(read_value(0x0F, &scoped), Err(Refusal::TextNotUtf8(44)));

    // The name of a document at level 33 comes before its level.
    let mut deep = document(&element(0x03, b"\xFF", &EMPTY));
    for _ in 1..32 {
        deep = document(&element(0x03, b"n", &deep));
    }
    assert_eq!(
        read_both(&HOUSE, &with_body(deep)),
        Err(Refusal::TextNotUtf8(21 + 31 * 7 + 5))
    );
}

#[test]
fn strings_are_checked_after_their_length_and_zero() {
    for kind in [0x02, 0x0D, 0x0E] {
        let read = |value: &[u8]| read_value(kind, value);
        // The text is at 32.
        assert_eq!(read(&string(BAD)), Err(Refusal::TextNotUtf8(34)));
        assert_eq!(read(&string(b"\xFF")), Err(Refusal::TextNotUtf8(32)));
        for length in [0, 5, 7, u32::MAX] {
            let wrong = changed(&string(BAD), 0, length);
            assert_eq!(read(&wrong), Err(Refusal::BadValue(28)));
        }
        let mut open = string(BAD);
        open[9] = 1;
        assert_eq!(read(&open), Err(Refusal::BadValue(28)));
        assert_eq!(read(&string(BAD)[..9]), Err(Refusal::BadValue(28)));

        // A zero inside is a character, and the text goes on behind it.
        assert!(read(&string(b"")).is_ok());
        assert!(read(&string(b"a\0b\0")).is_ok());
        assert_eq!(read(&string(b"a\0\xFF")), Err(Refusal::TextNotUtf8(34)));
        // The zero behind the text is none of its bytes.
        assert_eq!(read(&string(b"ab\xC3")), Err(Refusal::TextNotUtf8(34)));
    }
}

#[test]
fn a_character_that_is_no_character_is_placed_at_its_first_byte() {
    let faults: [&[u8]; 22] = [
        // Cut off by the end and by other bytes.
        b"\xC2",
        b"\xE2\x82",
        b"\xF0\x9F\x98",
        b"\xC2a",
        b"\xE2\x82a",
        b"\xE2\x82\xC2\xA0",
        b"\xF0\x9F\x98a",
        b"\xF0\x9F\x98\xE2\x82\xAC",
        // Too long: /, U+007F, U+07FF, U+FFFF.
        b"\xC0\xAF",
        b"\xC1\xBF",
        b"\xE0\x80\xAF",
        b"\xE0\x9F\xBF",
        b"\xF0\x80\x80\xAF",
        b"\xF0\x8F\xBF\xBF",
        // The first and the last surrogate, and 110000.
        b"\xED\xA0\x80",
        b"\xED\xBF\xBF",
        b"\xF4\x90\x80\x80",
        b"\xF5\x80\x80\x80",
        // Bytes that no character has, and a tail alone.
        b"\xF8\x88\x80\x80\x80",
        b"\xFE",
        b"\x80",
        b"\xBF\xBF",
    ];
    for fault in faults {
        for before in ["", "a", "é", "€", "😀", "Überlauf 水"] {
            let text = [before.as_bytes(), fault].concat();
            let place = 32 + before.len();
            assert_eq!(
                read_value(0x02, &string(&text)),
                Err(Refusal::TextNotUtf8(place)),
                "{fault:02X?}"
            );
        }
    }
    // A name in a Latin code page.
    assert_eq!(
        read_value(0x02, &string(b"M\xFCller")),
        Err(Refusal::TextNotUtf8(33))
    );
}

#[test]
fn characters_at_the_edges_are_accepted() {
    let text = "\u{1}\u{7F}\u{80}\u{7FF}\u{800}\u{FFF}\u{1000}\u{CFFF}\u{D000}\u{D7FF}\
        \u{E000}\u{FEFF}\u{FDD0}\u{FFFD}\u{FFFE}\u{FFFF}\u{10000}\u{3FFFF}\u{40000}\
        \u{FFFFF}\u{100000}\u{10FFFF}"
        .as_bytes();
    assert!(read_elements(&element(0x0A, text, b"")).is_ok());
    assert!(read_value(0x02, &string(text)).is_ok());
    let expression = [text, b"\0", text, b"\0"].concat();
    assert!(read_value(0x0B, &expression).is_ok());
    assert!(
        read_sections(&[Section::Body(EMPTY.to_vec()), with_identifier(text, &EMPTY),]).is_ok()
    );
}

#[test]
fn both_parts_of_a_regular_expression() {
    let read = |parts: &[&[u8]]| read_value(0x0B, &parts.concat());
    assert!(read(&[b"\0\0"]).is_ok());
    assert!(read(&["größe\0".as_bytes(), "水\0".as_bytes()]).is_ok());
    // A part without its zero is 19, whatever it holds.
    assert_eq!(read(&[BAD]), Err(Refusal::BadValue(28)));
    assert_eq!(read(&[b"a\0", BAD]), Err(Refusal::BadValue(28)));
    // The first part comes before the second one's zero.
    assert_eq!(read(&[BAD, b"\0"]), Err(Refusal::TextNotUtf8(30)));
    assert_eq!(read(&[BAD, b"\0", b"i"]), Err(Refusal::TextNotUtf8(30)));
    assert_eq!(
        read(&[BAD, b"\0", BAD, b"\0"]),
        Err(Refusal::TextNotUtf8(30))
    );
    assert_eq!(
        read(&[b"a\0", BAD, b"\0"]),
        Err(Refusal::TextNotUtf8(30 + 2))
    );
}

#[test]
fn a_pointer_s_string_comes_before_its_twelve_bytes() {
    let read = |text: &[u8], rest: usize| {
        let value = [string(text), vec![0xFF; rest]].concat();
        read_value(0x0C, &value)
    };
    assert!(read(b"ab", 12).is_ok());
    assert_eq!(read(b"ab", 11), Err(Refusal::BadValue(28)));
    assert_eq!(read(BAD, 12), Err(Refusal::TextNotUtf8(34)));
    assert_eq!(read(BAD, 11), Err(Refusal::TextNotUtf8(34)));
    assert_eq!(read(BAD, 0), Err(Refusal::TextNotUtf8(34)));
    let wrong = changed(&string(BAD), 0, 5);
    assert_eq!(
        read_value(0x0C, &[&wrong[..], &[0; 12]].concat()),
        Err(Refusal::BadValue(28))
    );
}

#[test]
fn the_code_comes_between_its_length_and_its_scope() {
    // The total at 28, the string's length at 32, the text at 36.
    let read = |value: &[u8]| read_value(0x0F, value);
    let bad = code_with_scope(BAD, &EMPTY);
    let not_utf8 = Err(Refusal::TextNotUtf8(38));
    assert_eq!(read(&bad), not_utf8);
    for total in [13, 99, u32::MAX] {
        assert_eq!(read(&changed(&bad, 0, total)), Err(Refusal::BadValue(28)));
    }
    for length in [0, 5, 12] {
        assert_eq!(read(&changed(&bad, 4, length)), Err(Refusal::BadValue(28)));
    }
    // The total leaves too little room for the scope, or none.
    assert_eq!(read(&changed(&bad, 0, 15)), not_utf8);
    assert_eq!(read(&changed(&bad, 0, 14)), not_utf8);
    // The scope has a wrong length or last byte, or leaves bytes over.
    assert_eq!(read(&code_with_scope(BAD, &[9, 0, 0, 0, 0])), not_utf8);
    assert_eq!(read(&code_with_scope(BAD, &[5, 0, 0, 0, 9])), not_utf8);
    assert_eq!(read(&code_with_scope(BAD, &[5, 0, 0, 0, 0, 0])), not_utf8);

    // At level 33 the code is checked before the scope's level.
    let mut deep = document(&element(0x0F, b"n", &code_with_scope(b"\xFF", &EMPTY)));
    for _ in 1..32 {
        deep = document(&element(0x03, b"n", &deep));
    }
    assert_eq!(
        read_both(&HOUSE, &with_body(deep)),
        Err(Refusal::TextNotUtf8(21 + 31 * 7 + 7 + 8))
    );
}

#[test]
fn an_identifier_comes_before_the_documents_behind_it() {
    // The kind at 20, the size at 21, the identifier at 25.
    let body = Section::Body(EMPTY.to_vec());
    let not_utf8 = Err(Refusal::TextNotUtf8(27));
    let first = |section: Section| read_sections(&[section, body.clone()]);
    assert_eq!(first(with_identifier(BAD, &EMPTY)), not_utf8);
    assert_eq!(first(with_identifier(BAD, b"")), not_utf8);
    assert_eq!(first(with_identifier(BAD, &[9])), not_utf8);
    assert_eq!(first(with_identifier(BAD, &[5, 0, 0, 0, 9])), not_utf8);

    // Its size and its zero come before.
    let wrong_size = changed(&sequence(BAD, &EMPTY), 1, 9_999);
    assert_eq!(
        first(Section::Raw(wrong_size)),
        Err(Refusal::SectionSize(21))
    );
    let open = b"\x01\x06\0\0\0\xFF\xFF".to_vec();
    assert_eq!(first(Section::Raw(open)), Err(Refusal::BadIdentifier(25)));
    assert_eq!(
        first(with_identifier(b"", &EMPTY)),
        Err(Refusal::BadIdentifier(25))
    );

    let bodies_only = |sections: &[Section]| {
        let message = Draft::new(sections.to_vec()).bytes();
        read_both(&BODIES_ONLY, &message)
    };
    assert_eq!(
        bodies_only(&[with_identifier(BAD, &EMPTY), body.clone()]),
        Err(Refusal::UnknownKind(20))
    );
}

#[test]
fn an_identifier_among_other_sections() {
    let body = Section::Body(EMPTY.to_vec());
    let bad = with_identifier(BAD, b"");
    let good = with_identifier(b"n", b"");
    // A section without documents has 6 bytes and its identifier.
    assert_eq!(
        read_sections(std::slice::from_ref(&bad)),
        Err(Refusal::TextNotUtf8(27))
    );
    assert_eq!(
        read_sections(&[bad.clone(), body.clone(), body.clone()]),
        Err(Refusal::TextNotUtf8(27))
    );
    assert_eq!(
        read_sections(&[body.clone(), body.clone(), bad.clone()]),
        Err(Refusal::SecondBody(26))
    );
    // Equal identifiers are looked at when all sections are read.
    assert_eq!(
        read_sections(&[good.clone(), good.clone(), bad.clone(), body.clone()]),
        Err(Refusal::TextNotUtf8(20 + 7 + 7 + 5 + 2))
    );
    let twice = Section::Body(document(&element(0x0A, b"n", b"").repeat(2)));
    assert_eq!(
        read_sections(&[bad.clone(), twice]),
        Err(Refusal::TextNotUtf8(27))
    );

    // A seventeenth sequence is refused before its identifier.
    let mut sections = vec![body];
    sections.extend((0..16).map(|index| with_identifier(&[b'a' + index], b"")));
    sections.push(bad);
    let kind = 20 + 6 + 16 * 7;
    assert_eq!(
        read_sections(&sections),
        Err(Refusal::SeventeenthSequence(kind))
    );
}

#[test]
fn the_flags_and_the_checksum_come_before_a_text() {
    let bad = with_body(document(&element(0x0A, BAD, b"")));
    let refused = |flags: u32| read_both(&HOUSE, &with_flags(&bad, flags));
    assert_eq!(refused(4), Err(Refusal::UnknownFlag(16)));
    assert_eq!(refused(1), Err(Refusal::TextNotUtf8(28)));
    let mut unsigned = with_flags(&bad, 1);
    let end = unsigned.len() - 4;
    unsigned[end] ^= 1;
    assert_eq!(
        read_both(&HOUSE, &unsigned),
        Err(Refusal::ChecksumDiffers(end))
    );
}

#[test]
fn forwarding_refuses_a_text_before_a_short_output_and_view() {
    let bad = with_body(document(&element(0x0A, BAD, b"")));
    assert_eq!(
        forward(&HOUSE, &bad, &mut []),
        Err(Refusal::TextNotUtf8(28))
    );
    let mut output = vec![0xAA; ROOM];
    assert_eq!(
        forward(&HOUSE, &bad, &mut output),
        Err(Refusal::TextNotUtf8(28))
    );
    assert!(output.iter().all(|&byte| byte == 0xAA));
    assert_eq!(ffi::read(HOUSE.bits, 1, &bad, &mut []), 27 << 32 | 28);
    let result = ffi::forward(HOUSE.bits, 1, &bad, &mut output, &mut []);
    assert_eq!(result, 27 << 32 | 28);
}

#[test]
fn binaries_of_subtype_02_state_their_length_again() {
    let read = |value: &[u8]| read_value(0x05, value);
    let wrong = Err(Refusal::BadValue(28));
    for content in [&b""[..], b"a", b"abcd", b"\xFF\xFF\xFF\xFF"] {
        assert!(read(&old_binary(content)).is_ok());
    }
    // No room for the length.
    for outer in 0..4 {
        assert_eq!(read(&binary(2, &[0; 4][..outer])), wrong);
    }
    let good = old_binary(b"abcd");
    for inner in [0, 3, 5, 8, 0x0100_0004, 1 << 31, u32::MAX] {
        assert_eq!(read(&changed(&good, 5, inner)), wrong);
    }
    assert_eq!(read(&changed(&old_binary(b""), 5, u32::MAX)), wrong);
    // The outer length is wrong: under the inner one, over the document, under 0.
    for outer in [7, 9, 49_000, u32::MAX] {
        assert_eq!(read(&changed(&good, 0, outer)), wrong);
    }
    // The inner length stands behind the document's last byte.
    assert_eq!(read(&good[..5]), wrong);
    assert_eq!(read(&good[..8]), wrong);
    for subtype in (0..=255).filter(|&subtype| subtype != 2) {
        assert!(read(&binary(subtype, b"\xFF")).is_ok());
        assert!(read(&binary(subtype, &[9; 8])).is_ok());
    }
}

#[test]
fn the_order_of_write_with_a_bad_text() {
    let body = document(&element(0x02, b"n", &string(BAD)));
    let mut output = vec![0xAA; ROOM];
    let mut refusal = |flags: u32, body: &[u8], room: usize| {
        let refusal = write(&HOUSE, 0, 0, flags, body, &mut output[..room]).unwrap_err();
        assert!(output.iter().all(|&byte| byte == 0xAA));
        refusal
    };
    let huge = padded(&body, MAX_MESSAGE);
    assert_eq!(refusal(4, &huge, 0), Refusal::UnknownFlag(16));
    assert_eq!(refusal(0, &huge, 0), Refusal::LengthOutOfRange(0));
    let length = 21 + body.len();
    assert_eq!(refusal(0, &body, length - 1), Refusal::OutputShort(0));
    assert_eq!(
        refusal(0, &changed(&body, 0, 9), length),
        Refusal::DocumentLength(21)
    );
    // The value at 28, its text at 32.
    assert_eq!(refusal(0, &body, length), Refusal::TextNotUtf8(34));
    assert_eq!(refusal(1, &body, length + 4), Refusal::TextNotUtf8(34));
    assert_eq!(refusal(1, &body, ROOM), Refusal::TextNotUtf8(34));
}

#[test]
fn the_order_of_append_with_a_bad_text() {
    let bad = with_body(document(&element(0x0A, BAD, b"")));
    let mut output = vec![0xAA; ROOM];
    let huge = vec![0; MAX_MESSAGE];
    let mut refusal = |edition: &Edition, message: &[u8], id: &[u8], run: &[u8], room: usize| {
        let refusal = append(edition, message, id, run, &mut output[..room]).unwrap_err();
        assert!(output.iter().all(|&byte| byte == 0xAA));
        refusal
    };
    // The message's own text, before anything that is new.
    assert_eq!(
        refusal(&BODIES_ONLY, &bad, b"", &huge, 0),
        Refusal::TextNotUtf8(28)
    );
    // The identifier's, behind 10, 13, 2 and 25. It stands at 41.
    assert_eq!(
        refusal(&BODIES_ONLY, &PING, BAD, &huge, 0),
        Refusal::UnknownKind(36)
    );
    assert_eq!(
        refusal(&HOUSE, &PING, b"ab\xFF\0", &huge, 0),
        Refusal::BadIdentifier(41)
    );
    assert_eq!(
        refusal(&HOUSE, &PING, BAD, &huge, 0),
        Refusal::LengthOutOfRange(0)
    );
    assert_eq!(
        refusal(&HOUSE, &PING, BAD, b"", 46),
        Refusal::OutputShort(0)
    );
    assert_eq!(
        refusal(&HOUSE, &PING, BAD, b"", 47),
        Refusal::TextNotUtf8(43)
    );
    // It comes before the documents, which come before a clash of names.
    assert_eq!(
        refusal(&HOUSE, &PING, BAD, &[9], 48),
        Refusal::TextNotUtf8(43)
    );
    let run = document(&element(0x02, b"n", &string(BAD)));
    let both = [&EMPTY, &run[..]].concat();
    assert_eq!(
        refusal(&HOUSE, &PING, BAD, &both, ROOM),
        Refusal::TextNotUtf8(43)
    );
    // The documents are at 46: the empty one, a length, an element, a length.
    assert_eq!(
        refusal(&HOUSE, &PING, b"ping", &both, ROOM),
        Refusal::TextNotUtf8(46 + 5 + 4 + 3 + 4 + 2)
    );

    // Under a checksum the section is at the same place.
    let signed = with_flags(&PING, 1);
    assert_eq!(
        refusal(&HOUSE, &signed, BAD, b"", ROOM),
        Refusal::TextNotUtf8(43)
    );
}

#[test]
fn sixteen_sequences_come_before_a_new_identifier_that_is_not_utf_8() {
    let mut sections = vec![Section::Body(EMPTY.to_vec())];
    sections.extend((0..16).map(|index| with_identifier(&[b'a' + index], b"")));
    let message = Draft::new(sections).bytes();
    assert_eq!(
        append(&HOUSE, &message, BAD, b"", &mut [0; 1_000]),
        Err(Refusal::SeventeenthSequence(message.len()))
    );
}

// ------------------------------------------- the list of sections, and moves

/// A sequence `a` of two empty documents, PING's body, a sequence `bc` of none.
fn three_sections() -> [Section; 3] {
    [
        with_identifier(b"a", &EMPTY.repeat(2)),
        Section::Body(PING[21..].to_vec()),
        with_identifier(b"bc", b""),
    ]
}

/// The message of these sections with a requestID under 0, a responseTo and
/// this flag word.
fn drafted(sections: &[&Section], flags: u32) -> Vec<u8> {
    Draft {
        request_id: -1,
        response_to: 9,
        flags,
        sections: sections.iter().map(|&section| section.clone()).collect(),
    }
    .bytes()
}

/// The numbers of a view with these entries.
fn numbers_of(head: [i64; 5], entries: &[[i64; 6]]) -> [i64; VIEW_NUMBERS] {
    let mut numbers = head.to_vec();
    numbers.extend(entries.iter().flatten());
    while numbers.len() < VIEW_NUMBERS {
        numbers.extend([-1, 0, 0, 0, 0, 0]);
    }
    numbers.try_into().expect("107 numbers")
}

#[test]
fn the_list_shows_the_sections_in_message_order() {
    let [a, body, bc] = &three_sections();
    let message = drafted(&[a, body, bc], 0);
    let view = read_both(&HOUSE, &message).expect("accepted");
    assert_eq!(
        listed(&view),
        [
            sequence_at(25..26, 27..37, 2),
            body_at(38..53),
            sequence_at(58..60, 61..61, 0),
        ]
    );
    assert_eq!((view.body(), view.behind()), (38..53, 1));
    assert_eq!(view.elements, 1);

    let mut numbers = [7; VIEW_NUMBERS];
    assert_eq!(ffi::read(HOUSE.bits, 1, &message, &mut numbers), 0);
    let entries = [
        [1, 25, 1, 27, 10, 2],
        [0, 0, 0, 38, 15, 0],
        [1, 58, 2, 61, 0, 0],
    ];
    assert_eq!(numbers, numbers_of([61, -1, 9, 0, 1], &entries));
}

#[test]
fn the_list_is_full_with_sixteen_sequences() {
    let sequences: Vec<Section> = (0..16)
        .map(|index| with_identifier(&[b'a' + index], b""))
        .collect();
    for place in 0..=16 {
        let mut sections: Vec<&Section> = sequences.iter().collect();
        let body = Section::Body(EMPTY.to_vec());
        sections.insert(place, &body);
        let message = drafted(&sections, 0);
        let mut numbers = [7; VIEW_NUMBERS];
        assert_eq!(ffi::read(HOUSE.bits, 1, &message, &mut numbers), 0);
        // A body of 6 bytes, sequences of 7; a sequence's identifier is 5 bytes
        // in, its documents would be 7.
        let entries: Vec<[i64; 6]> = (0..17)
            .map(|index| {
                let before = 20 + 7 * index as i64 - i64::from(index > place);
                if index == place {
                    [0, 0, 0, before + 1, 5, 0]
                } else {
                    [1, before + 5, 1, before + 7, 0, 0]
                }
            })
            .collect();
        assert_eq!(numbers, numbers_of([138, -1, 9, 0, 0], &entries));
    }
}

#[test]
fn the_whole_view_of_a_moved_message() {
    let [a, body, bc] = &three_sections();
    // The body's place, the sections, and their entries.
    let orders = [
        (
            0,
            [body, a, bc],
            [
                [0, 0, 0, 21, 15, 0],
                [1, 41, 1, 43, 10, 2],
                [1, 58, 2, 61, 0, 0],
            ],
        ),
        (
            1,
            [a, body, bc],
            [
                [1, 25, 1, 27, 10, 2],
                [0, 0, 0, 38, 15, 0],
                [1, 58, 2, 61, 0, 0],
            ],
        ),
        (
            2,
            [a, bc, body],
            [
                [1, 25, 1, 27, 10, 2],
                [1, 42, 2, 45, 0, 0],
                [0, 0, 0, 46, 15, 0],
            ],
        ),
    ];
    // Without a checksum and with one; bit 17 is not known.
    for (flags, length) in [(2, 61), (3, 65)] {
        for (_, from, _) in &orders {
            for (behind, to, entries) in &orders {
                let message = drafted(from, flags | 1 << 17);
                let mut output = [0xAA; 70];
                let mut numbers = [7; VIEW_NUMBERS + 3];
                let result =
                    ffi::move_body(HOUSE.bits, 1, &message, *behind, &mut output, &mut numbers);
                assert_eq!(result, 0);
                assert_eq!(output[..length], drafted(to, flags));
                assert!(output[length..].iter().all(|&byte| byte == 0xAA));
                let head = [length as i64, -1, 9, i64::from(flags), 1];
                assert_eq!(numbers[..VIEW_NUMBERS], numbers_of(head, entries));
                assert_eq!(numbers[VIEW_NUMBERS..], [7; 3]);
            }
        }
    }
}

#[test]
fn the_order_of_move() {
    let [a, body, bc] = &three_sections();
    let message = drafted(&[a, body, bc], 0);
    let mut output = vec![0xAA; ROOM];
    let mut refusal = |edition: &Edition, message: &[u8], behind: u32, room: usize| {
        let refusal = move_body(edition, message, behind, &mut output[..room]).unwrap_err();
        assert!(output.iter().all(|&byte| byte == 0xAA));
        refusal
    };
    // Reading's refusals, whatever the number and the room.
    let clash = drafted(&[body, &with_identifier(b"ping", b"")], 0);
    for behind in [0, 3, 17, u32::MAX] {
        let short = &message[..60];
        assert_eq!(refusal(&HOUSE, short, behind, 0), Refusal::BufferShort(0));
        assert_eq!(
            refusal(&HOUSE, b"", behind, ROOM),
            Refusal::BufferUnder16(0)
        );
        assert_eq!(
            refusal(&BODIES_ONLY, &message, behind, 0),
            Refusal::UnknownKind(20)
        );
        assert_eq!(
            refusal(&HOUSE, &clash, behind, 0),
            Refusal::IdentifierClash(41)
        );
    }
    // Then 28, before 25.
    for behind in [3, 4, 16, 17, 0x0100, 0x0001_0000, 1 << 31, u32::MAX] {
        assert_eq!(refusal(&HOUSE, &message, behind, 0), Refusal::MoveTooFar(0));
        assert_eq!(
            refusal(&HOUSE, &message, behind, ROOM),
            Refusal::MoveTooFar(0)
        );
    }
    for behind in 0..=2 {
        assert_eq!(
            refusal(&HOUSE, &message, behind, 0),
            Refusal::OutputShort(0)
        );
        assert_eq!(
            refusal(&HOUSE, &message, behind, 60),
            Refusal::OutputShort(0)
        );
    }
    // Without a sequence, and where none is known, there is one number.
    for edition in [&HOUSE, &BODIES_ONLY] {
        assert_eq!(refusal(edition, &PING, 1, 0), Refusal::MoveTooFar(0));
        assert_eq!(refusal(edition, &PING, 0, 35), Refusal::OutputShort(0));
        let mut output = [0xAA; 36];
        move_body(edition, &PING, 0, &mut output).expect("accepted");
        assert_eq!(output, PING);
    }
}

#[test]
fn moving_refuses_a_number_too_far_before_a_short_view() {
    let [a, body, bc] = &three_sections();
    let message = drafted(&[a, body, bc], 1);
    for numbers in [0, 5, VIEW_NUMBERS - 1] {
        let mut output = [0xAA; 70];
        let mut view = vec![7; numbers];
        let mut result = |message: &[u8], behind: u32, room: usize| {
            let result = ffi::move_body(
                HOUSE.bits,
                1,
                message,
                behind,
                &mut output[..room],
                &mut view,
            );
            assert_eq!(output, [0xAA; 70]);
            assert!(view.iter().all(|&number| number == 7));
            result
        };
        assert_eq!(result(&message[..64], 3, 70), 3 << 32);
        assert_eq!(result(&message, 3, 70), 28 << 32);
        assert_eq!(result(&message, 2, 70), 25 << 32);
        assert_eq!(result(&message, 2, 64), 25 << 32);
        assert_eq!(result(&message, 3, 64), 28 << 32);
    }
}

// ----------------------------------------------------- identifiers with dots

/// A document of these elements, as an element.
fn within(name: &[u8], elements: &[Vec<u8>]) -> Vec<u8> {
    element(0x03, name, &document(&elements.concat()))
}

fn null(name: &[u8]) -> Vec<u8> {
    element(0x0A, name, b"")
}

/// Whether a sequence may not have this identifier behind a body of these
/// elements; then it is refused at its place.
fn is_taken(elements: &[Vec<u8>], identifier: &[u8]) -> bool {
    let body = document(&elements.concat());
    let place = 21 + body.len() + 5;
    match read_sections(&[Section::Body(body), with_identifier(identifier, b"")]) {
        Ok(_) => false,
        Err(refusal) => {
            assert_eq!(refusal, Refusal::IdentifierClash(place));
            true
        }
    }
}

/// The body of the worked examples, which the definition was tried on.
fn worked_body() -> [Vec<u8>; 7] {
    let run = within(
        b"run",
        &[
            element(0x10, b"points", &[1, 0, 0, 0]),
            within(b"sub", &[null(b"x")]),
            element(0x04, b"arr", &document(&[null(b"0"), null(b"x")].concat())),
        ],
    );
    let twice = within(
        b"twice",
        &[
            null(b"d"),
            within(b"d", &[null(b"q")]),
            within(b"d", &[null(b"r")]),
        ],
    );
    let unnamed = within(b"", &[null(b""), null(b"a")]);
    let list = element(0x04, b"list", &document(&null(b"0")));
    let scope = code_with_scope(b"", &document(&null(b"v")));
    let code = element(0x0F, b"code", &scope);
    // As they stand there.
    assert_eq!((run[5], twice[7], unnamed[2], scope[0]), (46, 30, 10, 17));
    [
        run,
        twice,
        unnamed,
        null(b"one.two"),
        list,
        code,
        null(b"flat"),
    ]
}

/// The last name of these is found in the worked body.
const LEADING: [&[u8]; 9] = [
    b"run.points",
    b"run.arr",
    b"run.sub.x",
    b"twice.d",
    b"twice.d.q",
    b"twice.d.r",
    b".",
    b".a",
    b"flat",
];

/// That of these is not, or a name before it is no document's; then names are
/// empty, or parted at a dot that stands in a name.
const LOST: [&[u8]; 15] = [
    b"run.other",
    b"run.points.x",
    b"run.arr.x",
    b"twice.d.s",
    b"list.0",
    b"code.v",
    b"flat.x",
    b"points",
    b"d.q",
    b"..",
    b"run.",
    b".run",
    b".points",
    b"run..points",
    b"one.two",
];

#[test]
fn the_identifiers_of_the_worked_body() {
    let body = worked_body();
    for identifier in LEADING {
        assert!(is_taken(&body, identifier), "{}", identifier.escape_ascii());
    }
    for identifier in LOST {
        // A name at the top is compared as a whole.
        let whole = identifier == b"one.two";
        let taken = is_taken(&body, identifier);
        assert_eq!(taken, whole, "{}", identifier.escape_ascii());
    }
    // The same one level deeper, where no name is compared as a whole.
    let deeper = [within(b"in", &body)];
    let also = |identifier: &[u8]| [b"in.", identifier].concat();
    for identifier in LEADING {
        assert!(is_taken(&deeper, &also(identifier)));
        assert!(!is_taken(&deeper, identifier));
    }
    for identifier in LOST {
        assert!(!is_taken(&deeper, &also(identifier)));
        assert!(!is_taken(&deeper, identifier));
    }
}

#[test]
fn the_worked_clashes_by_number_and_place() {
    let elements = [within(b"run", &[null(b"p")]), null(b"f"), null(b"o.t")].concat();
    let body = &Section::Body(document(&elements));
    let [p, q, f, t] =
        &[&b"run.p"[..], b"run.q", b"f", b"o.t"].map(|name| with_identifier(name, b""));
    let clash = |place| Err(Refusal::IdentifierClash(place));
    let read = |sections: &[&Section]| {
        let sections: Vec<Section> = sections.iter().map(|&s| s.clone()).collect();
        read_sections(&sections).map(|view| view.sequences().len())
    };
    assert_eq!(read(&[body, q]), Ok(1));
    assert_eq!(read(&[body, p]), clash(52));
    assert_eq!(read(&[p, body]), clash(25));
    assert_eq!(read(&[body, q, f, p]), clash(63));
    assert_eq!(read(&[body, q, p, f]), clash(63));
    assert_eq!(read(&[q, body, q]), clash(63));
    assert_eq!(read(&[body, t]), clash(52));

    let append = |sections: &[&Section], identifier: &[u8]| {
        let message = Draft::new(sections.iter().map(|&s| s.clone()).collect()).bytes();
        let mut output = [0xAA; 999];
        let answer = append(&HOUSE, &message, identifier, b"", &mut output);
        assert!(answer.is_ok() || output == [0xAA; 999]);
        answer.map(|view| view.sequences().len())
    };
    assert_eq!(append(&[body, q], b"run.p"), clash(63));
    assert_eq!(append(&[q, body], b"run.q"), clash(63));
    assert_eq!(append(&[body], b"run.p.x"), Ok(1));
}

/// A value of each type; of 03, 04 and 0F with `x` inside.
fn value_of(kind: u8) -> Vec<u8> {
    let inside = document(&null(b"x"));
    match kind {
        0x01 | 0x09 | 0x11 | 0x12 => vec![0; 8],
        0x02 | 0x0D | 0x0E => string(b"x"),
        0x03 | 0x04 | 0x0F => holder(kind, &inside),
        0x05 => binary(0, &inside),
        0x07 => vec![0; 12],
        0x08 => vec![1],
        0x0B => b"x\0x\0".to_vec(),
        0x0C => [string(b"x"), vec![0; 12]].concat(),
        0x10 => vec![0; 4],
        0x13 => vec![0; 16],
        _ => Vec::new(),
    }
}

#[test]
fn the_last_name_may_be_of_any_type_and_the_others_are_documents() {
    for kind in TYPES {
        let value = value_of(kind);
        let body = [within(b"run", &[element(kind, b"last", &value)])];
        assert!(is_taken(&body, b"run.last"), "{kind:#04x}");
        assert_eq!(is_taken(&body, b"run.last.x"), kind == 0x03, "{kind:#04x}");
        let top = [element(kind, b"last", &value)];
        assert_eq!(is_taken(&top, b"last.x"), kind == 0x03, "{kind:#04x}");
    }
}

#[test]
fn every_element_is_passed_over_on_the_way() {
    // Elements of all types at both levels before the names that count.
    let others: Vec<Vec<u8>> = TYPES
        .iter()
        .map(|&kind| element(kind, format!("t{kind}").as_bytes(), &value_of(kind)))
        .collect();
    let inside = [&others[..], &[null(b"points")]].concat();
    let body = [&others[..], &[within(b"run", &inside)]].concat();
    assert!(is_taken(&body, b"run.points"));
    assert!(!is_taken(&body, b"run.point"));
    assert!(!is_taken(&body, b"run.x"));
    for kind in TYPES {
        assert!(is_taken(&body, format!("run.t{kind}").as_bytes()));
        let entered = is_taken(&body, format!("run.t{kind}.x").as_bytes());
        assert_eq!(entered, kind == 0x03, "{kind:#04x}");
        let entered = is_taken(&body, format!("t{kind}.x").as_bytes());
        assert_eq!(entered, kind == 0x03, "{kind:#04x}");
    }
}

#[test]
fn of_a_repeated_nested_name_any_counts() {
    let array = element(0x04, b"d", &document(&null(b"of an array")));
    let scope = code_with_scope(b"", &document(&null(b"of a scope")));
    let one = [
        null(b"d"),
        array,
        within(b"d", &[null(b"one"), within(b"e", &[null(b"x")])]),
        element(0x0F, b"d", &scope),
        within(b"d", &[]),
        within(b"d", &[null(b"two"), null(b"e"), within(b"e", &[])]),
        within(b"other", &[null(b"three")]),
        within(b"d", &[null(b"four"), within(b"e", &[null(b"y")])]),
        element(0x10, b"d", &[0; 4]),
    ];
    let mut orders = vec![one.to_vec(), one.iter().rev().cloned().collect()];
    for place in 1..one.len() {
        let mut order = one.to_vec();
        order.rotate_left(place);
        orders.push(order);
    }
    for order in orders {
        let body = [within(b"r", &order)];
        for free in [&b"three"[..], b"of an array", b"of a scope", b"e.z", b"d"] {
            assert!(!is_taken(&body, &[b"r.d.", free].concat()));
        }
        for taken in [&b"one"[..], b"two", b"four", b"e", b"e.x", b"e.y"] {
            assert!(is_taken(&body, &[b"r.d.", taken].concat()));
        }
        assert!(is_taken(&body, b"r.d"));
        assert!(is_taken(&body, b"r.other.three"));
    }
}

#[test]
fn names_are_compared_whole() {
    let body = [
        within(b"run", &[null(b"points"), null("größe".as_bytes())]),
        within(b"ru", &[null(b"n")]),
        within("meßreihe".as_bytes(), &[null(b"x")]),
    ];
    let taken = ["run.points", "run.größe", "ru.n", "meßreihe.x"];
    for identifier in taken {
        assert!(is_taken(&body, identifier.as_bytes()), "{identifier}");
    }
    let free = [
        "run.point",
        "run.pointss",
        "run.Points",
        "ru.points",
        "runs.points",
        "run.grö",
        "r.un",
        "run.n",
        "ru.run",
        "meßreihe.y",
        "me.x",
        "points.run",
        "run.points.",
        ".run.points",
        "run. points",
        "run .points",
        // Other characters that look like a dot.
        "run․points",
        "run．points",
        "run。points",
        "run·points",
    ];
    for identifier in free {
        assert!(!is_taken(&body, identifier.as_bytes()), "{identifier}");
    }
}

#[test]
fn a_name_with_a_dot_is_never_followed() {
    // At the top it is compared as a whole, whatever stands beside it.
    let body = [null(b"a.b"), null(b"."), null(b"x."), null(b".x")];
    for identifier in [&b"a.b"[..], b".", b"x.", b".x"] {
        assert!(is_taken(&body, identifier));
    }
    for identifier in [
        &b"a"[..],
        b"b",
        b"x",
        b"..",
        b"a.b.",
        b"a.b.c",
        b"x..",
        b"a..b",
    ] {
        assert!(!is_taken(&body, identifier));
    }
    // Inside, and on the way, it is not met.
    let inside = [within(b"r", &body), within(b"s.t", &[null(b"u")])];
    for identifier in [&b"r.a.b"[..], b"r..", b"r.x.", b"r..x", b"s.t.u"] {
        assert!(
            !is_taken(&inside, identifier),
            "{}",
            identifier.escape_ascii()
        );
    }
    assert!(is_taken(&inside, b"s.t"));
    // What it looks like may be there too.
    let both = [within(b"r", &[null(b"a.b"), within(b"a", &[null(b"b")])])];
    assert!(is_taken(&both, b"r.a.b"));
}

/// Documents of so many levels inside each other, all by this name.
fn chain(name: &[u8], levels: usize) -> Vec<u8> {
    let mut inside = EMPTY.to_vec();
    for _ in 1..levels {
        inside = document(&element(0x03, name, &inside));
    }
    inside
}

#[test]
fn a_dot_is_seen_wherever_it_stands() {
    for letter in ["x", "ж", "水"] {
        for (before, behind) in (0..40).flat_map(|n| (0..40).map(move |m| (n, m))) {
            let (first, last) = (letter.repeat(before), letter.repeat(behind));
            let dotted = format!("{first}.{last}");
            let inside = |name: &str| [within(first.as_bytes(), &[null(name.as_bytes())])];
            assert!(is_taken(&inside(&last), dotted.as_bytes()), "{dotted}");
            let longer = format!("{last}x");
            assert!(!is_taken(&inside(&longer), dotted.as_bytes()), "{dotted}");
            // The bytes beside a dot's in the order of their values.
            for other in ["-", "/"] {
                let undotted = format!("{first}{other}{last}");
                assert!(!is_taken(&inside(&last), undotted.as_bytes()), "{undotted}");
            }
        }
    }
}

#[test]
fn an_identifier_of_any_length_has_an_end() {
    for letter in ["x", "ж", "水"] {
        for count in 1..70 {
            let identifier = letter.repeat(count);
            let ended = with_identifier(identifier.as_bytes(), b"");
            let body = Section::Body(document(&null(b"a")));
            let view = read_sections(&[body.clone(), ended]).unwrap();
            let sequence = view.sequences().next().unwrap();
            assert_eq!(sequence.identifier.len(), identifier.len());
            let place = sequence.identifier.start;
            // The same without the zero byte at its end.
            let size = 4 + identifier.len() as u32;
            let bytes = [&[1], &size.to_le_bytes()[..], identifier.as_bytes()].concat();
            let unended = read_sections(&[body, Section::Raw(bytes)]);
            assert_eq!(unended, Err(Refusal::BadIdentifier(place)));
        }
    }
}

#[test]
fn identifiers_of_dots_beside_nested_empty_names() {
    let elements_of = |body: &[u8]| [body[4..body.len() - 1].to_vec()];
    for levels in [1, 2, 3, 4, 31, 32] {
        let body = elements_of(&chain(b"", levels));
        // So many dots stand between one name more.
        for dots in 1..40 {
            let names = dots + 1;
            let taken = is_taken(&body, &b".".repeat(dots));
            assert_eq!(taken, names < levels, "{dots} dots, {levels} levels");
        }
        assert!(!is_taken(&body, &b".".repeat(4_000)));
    }
    // A name that is not empty is none of them, and they are no other name.
    let body = elements_of(&chain(b"", 4));
    for identifier in [&b"a"[..], b".a", b"a.", b"..a", b".a.", b"a.."] {
        assert!(!is_taken(&body, identifier));
    }
    let body = elements_of(&chain(b"a", 4));
    assert!(is_taken(&body, b"a.a.a"));
    for identifier in [&b"."[..], b"..", b"a.", b".a", b"a..a", b".a.a", b"a.a."] {
        assert!(!is_taken(&body, identifier));
    }
    let body = [within(b"", &[within(b"a", &[within(b"", &[null(b"b")])])])];
    for identifier in [&b".a"[..], b".a.", b".a..b"] {
        assert!(is_taken(&body, identifier));
    }
    for identifier in [
        &b"."[..],
        b"a",
        b"a.",
        b"a..b",
        b".a.b",
        b"..a",
        b".a..",
        b".a..b.",
    ] {
        assert!(!is_taken(&body, identifier));
    }
}

#[test]
fn a_path_through_32_levels() {
    let body = nested(0x03, 32);
    let message = with_body(body.clone());
    for names in 1..=40 {
        let identifier = vec!["n"; names].join(".").into_bytes();
        let taken = names <= 31;
        assert_eq!(
            is_taken(&[body[4..body.len() - 1].to_vec()], &identifier),
            taken
        );
        let answer = append(&HOUSE, &message, &identifier, b"", &mut [0; 999]);
        let expected = Err(Refusal::IdentifierClash(message.len() + 5));
        assert_eq!(answer.map(|_| ()), if taken { expected } else { Ok(()) });
    }
    // Where one level is an array or a scope, its name is the last that counts.
    for kind in [0x04, 0x0F] {
        for level in 1..32 {
            let mut inside = EMPTY.to_vec();
            for around in (1..32).rev() {
                let kind = if around == level { kind } else { 0x03 };
                inside = document(&element(kind, b"n", &holder(kind, &inside)));
            }
            let body = [inside[4..inside.len() - 1].to_vec()];
            for (names, taken) in [(level, true), (level + 1, false), (31, level == 31)] {
                let identifier = vec!["n"; names].join(".").into_bytes();
                assert_eq!(is_taken(&body, &identifier), taken, "{names} of {level}");
            }
        }
    }
}

#[test]
fn a_clash_of_names_comes_before_a_path() {
    let twice = [within(b"run", &[null(b"p")]), null(b"f"), null(b"f")].concat();
    let path = with_identifier(b"run.p", b"");
    let body = Section::Body(document(&twice));
    // Its second `f` is 4 + 13 + 3 + 1 bytes behind the body's start.
    assert_eq!(
        read_sections(&[path.clone(), body.clone()]),
        Err(Refusal::NameTwice(20 + 11 + 1 + 21))
    );
    assert_eq!(
        read_sections(&[body, path.clone()]),
        Err(Refusal::NameTwice(21 + 21))
    );
    // So do a missing body, and a name inside that is not UTF-8.
    assert_eq!(
        read_sections(&[path.clone(), path.clone()]),
        Err(Refusal::NoBody(42))
    );
    let bad = Section::Body(document(&within(b"run", &[null(b"p"), null(BAD)])));
    assert_eq!(
        read_sections(&[path, bad]),
        Err(Refusal::TextNotUtf8(20 + 11 + 1 + 4 + 5 + 4 + 3 + 1 + 2))
    );
}

/// All orders of four.
fn orders() -> Vec<[usize; 4]> {
    let all = (0..256).map(|number| [number / 64, number / 16 % 4, number / 4 % 4, number % 4]);
    all.filter(|order| (0..4).all(|index| order.contains(&index)))
        .collect()
}

#[test]
fn the_first_identifier_that_clashes_in_any_way() {
    let body = Section::Body(document(
        &[within(b"run", &[null(b"p")]), null(b"f")].concat(),
    ));
    // A path, a name at the top, and one identifier twice.
    let names: [&[u8]; 4] = [b"run.p", b"f", b"x.y.z", b"x.y.z"];
    assert_eq!(orders().len(), 24);
    for order in orders() {
        for place in 0..=4 {
            let identifiers = order.map(|index| names[index]);
            let mut sections = identifiers.map(|name| with_identifier(name, b"")).to_vec();
            sections.insert(place, body.clone());
            let second = identifiers.iter().rposition(|name| *name == b"x.y.z");
            let first = identifiers
                .iter()
                .position(|name| matches!(*name, b"run.p" | b"f"))
                .into_iter()
                .chain(second)
                .min()
                .expect("a clash");
            let before = first + usize::from(first >= place);
            let bytes = sections[..before].iter().map(|s| s.bytes().len());
            let expected = Refusal::IdentifierClash(20 + bytes.sum::<usize>() + 5);
            assert_eq!(
                read_sections(&sections),
                Err(expected),
                "{order:?}, {place}"
            );
        }
    }
}

#[test]
fn identifiers_are_followed_from_the_body_alone() {
    let points = document(&within(b"run", &[null(b"points")]));
    let other = Section::Body(document(&within(b"other", &[null(b"points")])));
    // Not into the documents of a sequence, and not into its own.
    let sections = [
        with_identifier(b"s", &points),
        other.clone(),
        with_identifier(b"run.points", &points),
        with_identifier(b"s.run", b""),
    ];
    assert!(read_sections(&sections).is_ok());
    // Not from one identifier to another.
    let sections = [
        with_identifier(b"run", &points),
        with_identifier(b"run.points", b""),
        with_identifier(b"run.points.x", b""),
        other,
    ];
    assert!(read_sections(&sections).is_ok());
}

#[test]
fn a_path_is_refused_by_every_call_that_reads() {
    let body = Section::Body(document(&within(b"run", &[null(b"points")])));
    let sequences = [&b"a"[..], b"run.points", b"b"].map(|name| with_identifier(name, &EMPTY));
    for place in 0..=3 {
        let mut sections = sequences.to_vec();
        sections.insert(place, body.clone());
        for flags in [0, 1, 1 | 1 << 17] {
            let all: Vec<&Section> = sections.iter().collect();
            let message = drafted(&all, flags);
            let refused = read_both(&HOUSE, &message).unwrap_err();
            let body = if place <= 1 { body.bytes().len() } else { 0 };
            let a = sequences[0].bytes().len();
            assert_eq!(refused, Refusal::IdentifierClash(20 + body + a + 5));
            let mut output = [0xAA; 200];
            let other_calls = [
                forward(&HOUSE, &message, &mut output),
                append(&HOUSE, &message, b"c", b"", &mut output),
                move_body(&HOUSE, &message, 0, &mut output),
                move_body(&HOUSE, &message, 3, &mut output),
                move_body(&HOUSE, &message, 4, &mut output),
                forward(&HOUSE, &message, &mut []),
            ];
            assert!(other_calls.iter().all(|answer| *answer == Err(refused)));
            assert_eq!(output, [0xAA; 200]);
        }
    }
}

#[test]
fn append_refuses_a_path_behind_the_sections() {
    let body = Section::Body(document(&within(b"run", &[null(b"points")])));
    let sequences = [&b"a"[..], b"run.other", b"b"].map(|name| with_identifier(name, &EMPTY));
    for count in 0..=3 {
        for place in 0..=count {
            let mut sections: Vec<&Section> = sequences[..count].iter().collect();
            sections.insert(place, &body);
            for flags in [0, 1, 1 | 1 << 17] {
                let mut message = drafted(&sections, flags);
                let end = message.len() - 4 * (flags & 1) as usize;
                // Bytes behind the message do not count.
                message.extend(b"run.points\0");
                let mut output = [0xAA; 200];
                for identifier in [&b"run"[..], b"run.points"] {
                    assert_eq!(
                        append(&HOUSE, &message, identifier, &EMPTY, &mut output),
                        Err(Refusal::IdentifierClash(end + 5))
                    );
                    assert_eq!(output, [0xAA; 200]);
                }
                for identifier in [&b"run.point"[..], b"run.points.x", b"points", b"run."] {
                    let view = append(&HOUSE, &message, identifier, &EMPTY, &mut output);
                    let view = view.expect("accepted");
                    assert_eq!(view.sequences().len(), count + 1);
                    read_both(&HOUSE, &output).expect("accepted");
                }
            }
        }
    }
}

#[test]
fn the_order_of_append_with_a_path() {
    let message = with_body(document(&within(b"run", &[null(b"points")])));
    let end = message.len();
    let path = b"run.points";
    // As many elements as there may be, where each takes two bytes.
    let crowd = document(&element(0x0A, b"", b"").repeat(MAX_ELEMENTS - 1));
    let room = crowd.len() + ROOM;
    let mut output = vec![0xAA; room];
    let huge = vec![0; MAX_MESSAGE];
    let mut refusal = |edition: &Edition, id: &[u8], run: &[u8], room: usize| {
        let refusal = append(edition, &message, id, run, &mut output[..room]).unwrap_err();
        assert!(output.iter().all(|&byte| byte == 0xAA));
        refusal
    };
    assert_eq!(
        refusal(&BODIES_ONLY, path, b"", ROOM),
        Refusal::UnknownKind(end)
    );
    assert_eq!(
        refusal(&HOUSE, b"run.points\0", b"", ROOM),
        Refusal::BadIdentifier(end + 5)
    );
    assert_eq!(
        refusal(&HOUSE, path, &huge, ROOM),
        Refusal::LengthOutOfRange(0)
    );
    let length = end + 6 + path.len();
    assert_eq!(
        refusal(&HOUSE, path, b"", length - 1),
        Refusal::OutputShort(0)
    );
    assert_eq!(
        refusal(&HOUSE, b"run.points.\xFF", b"", ROOM),
        Refusal::TextNotUtf8(end + 5 + 11)
    );
    // The new documents come before it, to their last byte.
    assert_eq!(
        refusal(&HOUSE, path, &[9], ROOM),
        Refusal::DocumentLength(length)
    );
    let open = [5, 0, 0, 0, 9];
    assert_eq!(
        refusal(&HOUSE, path, &[EMPTY, open].concat(), ROOM),
        Refusal::DocumentLastByte(length + 9)
    );
    assert_eq!(
        refusal(&HOUSE, path, &crowd, room),
        Refusal::TooManyElements(length + crowd.len() - 1 - 2)
    );
    assert_eq!(
        refusal(&HOUSE, path, b"", length),
        Refusal::IdentifierClash(end + 5)
    );
    assert_eq!(
        refusal(&HOUSE, path, &EMPTY, ROOM),
        Refusal::IdentifierClash(end + 5)
    );
    // A view that is too short comes last.
    let mut view = [7; VIEW_NUMBERS - 1];
    let result = ffi::append(HOUSE.bits, 1, &message, path, b"", &mut output, &mut view);
    assert_eq!(result, 24 << 32 | (end + 5) as u64);
    let result = ffi::append(
        HOUSE.bits,
        1,
        &message,
        b"run.p",
        b"",
        &mut output,
        &mut view,
    );
    assert_eq!(result, 25 << 32);
    assert_eq!(view, [7; VIEW_NUMBERS - 1]);
}

#[test]
fn sixteen_sequences_come_before_a_path() {
    let mut sections = vec![Section::Body(document(&within(b"run", &[null(b"points")])))];
    sections.extend((0..16).map(|index| with_identifier(&[b'a' + index], b"")));
    let message = Draft::new(sections.clone()).bytes();
    let kind = message.len();
    assert_eq!(
        append(&HOUSE, &message, b"run.points", b"", &mut [0; 1_000]),
        Err(Refusal::SeventeenthSequence(kind))
    );
    sections.push(with_identifier(b"run.points", b""));
    assert_eq!(
        read_sections(&sections),
        Err(Refusal::SeventeenthSequence(kind))
    );
    // As the sixteenth it is refused for itself.
    sections.remove(1);
    assert_eq!(
        read_sections(&sections),
        Err(Refusal::IdentifierClash(kind - 7 + 5))
    );
}

#[test]
fn writing_knows_no_paths() {
    // A name with dots beside the names that it could lead to.
    let elements = [within(b"run", &[null(b"points")]), null(b"run.points")];
    let body = document(&elements.concat());
    for flags in [0, 1] {
        let mut output = [0xAA; 100];
        let view = write(&HOUSE, 7, 0, flags, &body, &mut output).expect("accepted");
        assert_eq!(view.elements, 3);
        assert_eq!(output[21..21 + body.len()], body);
        read_both(&HOUSE, &output).expect("accepted");
    }
}
