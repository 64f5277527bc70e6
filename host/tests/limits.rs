//! The greatest length, 48,000,000 bytes, and the most elements, 262,144, met
//! and passed by one (change request 6), in each call, with a checksum and
//! without. The C functions are held against the independent reader: the answer,
//! the whole output and the whole view. Each case also says itself what the
//! answer shall be. Levels and sequences at their limits are in `rules.rs`.

mod common;

use common::bson::*;
use common::dotted;
use common::message::*;
use common::reference::{self, Edition, Refused, MAX_ELEMENTS, MAX_MESSAGE, VIEW_NUMBERS};
use common::PING;
use relay::ffi;

const HOUSE: Edition = Edition {
    bits: 0x0001_0003,
    sequences: true,
};

/// What the view and the output are filled with first.
const NUMBER: i64 = -7_777;
const BYTE: u8 = 0xAA;

/// An output with room for every message, and some bytes more.
const ROOM: usize = MAX_MESSAGE + 100;

/// A refusal's number and place; nothing where a call is accepted.
type Answer = Option<(u32, usize)>;

const TOO_LONG: Answer = Some((2, 0));
const NO_ROOM: Answer = Some((25, 0));

// -------------------------------------------------------------- comparison

/// Makes a call with an output of this length, and sees that the answer is this
/// one, and that the answer and all that is written are those of the independent
/// reader.
fn compare(
    case: &str,
    answer: Answer,
    room: usize,
    expected: Result<reference::Written, Refused>,
    call: impl Fn(&mut [u8], &mut [i64]) -> u64,
) {
    let refused = expected.as_ref().err();
    let number_and_place = refused.map(|refused| (refused.number, refused.place));
    assert_eq!(number_and_place, answer, "{case}: the independent reader");
    let mut output = vec![BYTE; room];
    let mut view = [NUMBER; VIEW_NUMBERS];
    let result = call(&mut output, &mut view);
    let (number, place) = answer.unwrap_or((0, 0));
    let parts = ((result >> 32) as u32, result as u32 as usize);
    assert_eq!(parts, (number, place), "{case}: the library");
    let mut numbers = [NUMBER; VIEW_NUMBERS];
    let mut written = &[][..];
    if let Ok((view, message)) = &expected {
        numbers = view.numbers();
        written = message;
    }
    assert!(view == numbers, "{case}: the view");
    let (message, rest) = output.split_at(written.len());
    assert!(message == written, "{case}: the message");
    assert!(rest.iter().all(|&byte| byte == BYTE), "{case}: the rest");
}

fn check_read(case: &str, message: &[u8], answer: Answer) {
    let expected = reference::read(&HOUSE, message).map(|view| (view, Vec::new()));
    compare(&format!("{case}: read"), answer, 0, expected, |_, view| {
        ffi::read(HOUSE.bits, 1, message, view)
    });
}

fn check_forward(case: &str, message: &[u8], room: usize, answer: Answer) {
    let expected = reference::forward(&HOUSE, message, room);
    let case = format!("{case}: forward");
    compare(&case, answer, room, expected, |output, view| {
        ffi::forward(HOUSE.bits, 1, message, output, view)
    });
}

fn check_move(case: &str, message: &[u8], behind: u32, room: usize, answer: Answer) {
    let expected = reference::move_body(&HOUSE, message, behind, room);
    let case = format!("{case}: move behind {behind}");
    compare(&case, answer, room, expected, |output, view| {
        ffi::move_body(HOUSE.bits, 1, message, behind, output, view)
    });
}

fn check_write(case: &str, flags: u32, body: &[u8], room: usize, answer: Answer) {
    let expected = reference::write(&HOUSE, -1, 2, flags, body, room);
    let case = format!("{case}: write");
    compare(&case, answer, room, expected, |output, view| {
        ffi::write(HOUSE.bits, 1, -1, 2, flags, body, output, view)
    });
}

fn check_append(
    case: &str,
    message: &[u8],
    identifier: &[u8],
    documents: &[u8],
    room: usize,
    answer: Answer,
) {
    let expected = reference::append(&HOUSE, message, identifier, documents, room);
    let case = format!("{case}: append");
    compare(&case, answer, room, expected, |output, view| {
        ffi::append(HOUSE.bits, 1, message, identifier, documents, output, view)
    });
}

// ----------------------------------------------------------------- lengths

/// A message of this length: a sequence, a body that takes most of it, and
/// another sequence.
fn of_length(length: usize, flags: u32) -> Vec<u8> {
    let sequence = |identifier: &[u8]| Section::Sequence {
        identifier: identifier.to_vec(),
        documents: nulls(50),
    };
    let with = |body: Vec<u8>| {
        let mut draft = Draft::new(vec![sequence(b"a"), Section::Body(body), sequence(b"b")]);
        draft.flags = flags;
        draft.bytes()
    };
    let small = with(EMPTY.to_vec()).len();
    with(padded(&EMPTY, length - small))
}

/// The flag words: with a checksum and without, and with a bit that is cleared.
const FLAGS: [u32; 3] = [0, 1, 1 | 1 << 17];

#[test]
fn a_message_of_the_greatest_length_is_read_and_passed_on() {
    for flags in FLAGS {
        let case = format!("flags {flags:#x}");
        let message = of_length(MAX_MESSAGE, flags);
        assert_eq!(message.len(), MAX_MESSAGE);
        check_read(&case, &message, None);
        check_forward(&case, &message, ROOM, None);
        check_forward(&case, &message, MAX_MESSAGE - 1, NO_ROOM);
        check_move(&case, &message, 2, MAX_MESSAGE, None);
        check_move(&case, &message, 0, MAX_MESSAGE - 1, NO_ROOM);
        check_move(&case, &message, 3, ROOM, Some((28, 0)));
    }
}

#[test]
fn a_message_of_one_byte_more_is_refused() {
    for flags in FLAGS {
        let case = format!("flags {flags:#x}");
        let message = of_length(MAX_MESSAGE + 1, flags);
        assert_eq!(message.len(), MAX_MESSAGE + 1);
        check_read(&case, &message, TOO_LONG);
        check_forward(&case, &message, ROOM, TOO_LONG);
        check_move(&case, &message, 1, ROOM, TOO_LONG);
        check_append(&case, &message, b"d", b"", ROOM, TOO_LONG);
        // It is refused for what it states, not for what there is.
        check_read(&case, &message[..16], TOO_LONG);
        let mut shorter = message;
        put_u32(&mut shorter, 0, MAX_MESSAGE as u32);
        check_read(&case, &shorter[..MAX_MESSAGE - 1], Some((3, 0)));
    }
}

#[test]
fn the_greatest_length_behind_other_bytes_of_the_buffer() {
    let mut message = of_length(MAX_MESSAGE, 0);
    message.extend([0x99; 50]);
    check_read("bytes behind", &message, None);
    check_forward("bytes behind", &message, ROOM, None);
}

#[test]
fn write_at_the_greatest_length() {
    for (flags, frame) in [(0, 21), (1, 25)] {
        let case = format!("flags {flags}");
        let body = padded(&EMPTY, MAX_MESSAGE - frame - 5);
        check_write(&case, flags, &body, ROOM, None);
        check_write(&case, flags, &body, MAX_MESSAGE, None);
        check_write(&case, flags, &body, MAX_MESSAGE - 1, NO_ROOM);
        let body = padded(&EMPTY, MAX_MESSAGE - frame - 4);
        check_write(&case, flags, &body, ROOM, TOO_LONG);
    }
}

#[test]
fn append_at_the_greatest_length() {
    for flags in FLAGS {
        let case = format!("flags {flags:#x}");
        let mut draft = Draft::new(vec![Section::Body(PING[21..].to_vec())]);
        draft.flags = flags;
        let small = draft.bytes();
        let left = MAX_MESSAGE - small.len() - 7;
        let documents = padded(&EMPTY, left - 5);
        check_append(&case, &small, b"d", &documents, ROOM, None);
        check_append(&case, &small, b"d", &documents, MAX_MESSAGE - 1, NO_ROOM);
        check_append(&case, &small, b"dd", &documents, ROOM, TOO_LONG);
        let documents = padded(&EMPTY, left - 4);
        check_append(&case, &small, b"d", &documents, ROOM, TOO_LONG);
    }
}

#[test]
fn append_to_a_message_of_nearly_the_greatest_length() {
    for flags in [0, 1] {
        let case = format!("flags {flags:#x}");
        // A kind, a size, a letter and its zero are added.
        let message = of_length(MAX_MESSAGE - 7, flags);
        check_append(&case, &message, b"d", b"", ROOM, None);
        check_append(&case, &message, b"dd", b"", ROOM, TOO_LONG);
        check_append(&case, &message, b"d", &EMPTY, ROOM, TOO_LONG);
        let message = of_length(MAX_MESSAGE, flags);
        check_append(&case, &message, b"d", b"", ROOM, TOO_LONG);
    }
}

#[test]
fn a_long_message_s_checksum_and_last_bytes_are_looked_at() {
    let message = of_length(MAX_MESSAGE, 1);
    let end = MAX_MESSAGE - 4;
    for place in [20, MAX_MESSAGE / 2, end - 1, end, MAX_MESSAGE - 1] {
        let mut wrong = message.clone();
        wrong[place] ^= 0x10;
        check_read(&format!("byte {place}"), &wrong, Some((9, end)));
    }
    // The last byte of the last document.
    let mut open = of_length(MAX_MESSAGE, 0);
    open[MAX_MESSAGE - 1] = 1;
    check_read("open", &open, Some((16, MAX_MESSAGE - 1)));
    check_forward("open", &open, ROOM, Some((16, MAX_MESSAGE - 1)));
}

/// A string of characters of one and two bytes that takes almost all of a
/// message.
#[test]
fn a_text_of_almost_the_greatest_length() {
    // A frame of 26 bytes, a type, a name of one, a length and a zero.
    let length = MAX_MESSAGE - 26 - 3 - 5;
    let mut text = "größe ".repeat(length / 8).into_bytes();
    text.resize(length, b'a');
    let with = |text: &[u8]| with_body(document(&element(0x02, b"n", &string(text))));
    let message = with(&text);
    assert_eq!(message.len(), MAX_MESSAGE);
    check_read("text", &message, None);
    // The text starts at 32.
    for place in [7, length / 16 * 8 + 7, length - 1] {
        // The blank behind a word, or a letter at the end.
        let mut bad = text.clone();
        bad[place] = 0xFF;
        check_read("bad text", &with(&bad), Some((27, 32 + place)));
    }
    // A character that the end cuts off.
    text[length - 1] = 0xC3;
    check_read("cut text", &with(&text), Some((27, 32 + length - 1)));
    check_write(
        "cut text",
        0,
        &with(&text)[21..],
        ROOM,
        Some((27, 32 + length - 1)),
    );
}

// ---------------------------------------------------------------- elements

/// So many nulls without names, which take two bytes each.
fn unnamed(count: usize) -> Vec<u8> {
    element(0x0A, b"", b"").repeat(count)
}

/// Reads, forwards, writes and moves a message with this body and nothing else.
fn check_body(case: &str, body: &[u8], answer: Answer) {
    let message = with_body(body.to_vec());
    let room = message.len() + 100;
    check_read(case, &message, answer);
    check_forward(case, &message, room, answer);
    check_write(case, 1, body, room, answer);
    check_move(case, &message, 0, room, answer);
}

#[test]
fn elements_of_one_document() {
    // One holds the others: its type, name and length take seven bytes.
    let within = |count: usize| document(&element(0x03, b"n", &document(&unnamed(count - 1))));
    check_body("the most", &within(MAX_ELEMENTS), None);
    let over = within(MAX_ELEMENTS + 1);
    let place = 21 + 4 + 7 + 2 * (MAX_ELEMENTS - 1);
    check_body("one more", &over, Some((21, place)));

    // It is refused before its type is looked at.
    let mut unknown = over;
    unknown[place - 21] = 0x77;
    check_body("one more, of no type", &unknown, Some((21, place)));
    let mut unknown = within(MAX_ELEMENTS);
    unknown[place - 21 - 2] = 0x77;
    check_body("the last, of no type", &unknown, Some((17, place - 2)));
}

#[test]
fn elements_of_a_sequence() {
    let run = |count: usize| document(&unnamed(count));
    // PING has one.
    let most = MAX_ELEMENTS - 1;
    let append = |case: &str, documents: &[u8], answer: Answer| {
        let room = 100 + documents.len();
        check_append(case, &PING, b"d", documents, room, answer);
        let mut message = [&PING, &sequence(b"d", documents)[..]].concat();
        set_length(&mut message);
        check_read(case, &message, answer);
        check_move(case, &message, 1, room, answer);
    };
    append("the most", &run(most), None);
    // The documents start at 43.
    let place = 43 + 4 + 2 * most;
    append("one more", &run(most + 1), Some((21, place)));
    // In many documents, each of one element.
    let small = document(&unnamed(1));
    append("the most, of many", &small.repeat(most), None);
    let place = 43 + most * small.len() + 4;
    append(
        "one more, of many",
        &small.repeat(most + 1),
        Some((21, place)),
    );
}

/// The same over levels and sections.
#[test]
fn elements_over_levels_and_sections() {
    let level = |inside: usize| {
        let inner = document(&unnamed(inside));
        document(
            &[
                element(0x03, b"a", &inner),
                element(0x0F, b"b", &code_with_scope(b"x", &inner)),
                element(0x04, b"c", &document(&element(0x03, b"d", &inner))),
            ]
            .concat(),
        )
    };
    // 4 + 3 * 20,000 elements in the body, as many in each of two documents of
    // a sequence, and the rest in a second sequence.
    let message = |rest: usize, flags: u32| {
        let mut draft = Draft::new(vec![
            Section::Sequence {
                identifier: b"s".to_vec(),
                documents: level(20_000).repeat(2),
            },
            Section::Body(level(20_000)),
            Section::Sequence {
                identifier: b"t".to_vec(),
                documents: nulls(rest),
            },
        ]);
        draft.flags = flags;
        draft.bytes()
    };
    let rest = MAX_ELEMENTS - 3 * 60_004;
    for flags in FLAGS {
        let case = format!("flags {flags:#x}");
        let most = message(rest, flags);
        let room = most.len() + 100;
        check_read(&case, &most, None);
        check_forward(&case, &most, room, None);
        check_move(&case, &most, 0, room, None);
        let view = reference::read(&HOUSE, &most).expect("accepted");
        assert_eq!(view.elements, MAX_ELEMENTS);
        check_append(&case, &most, b"u", &EMPTY, room, None);
        // The new element would be one too many.
        let one = document(&unnamed(1));
        let end = most.len() - 4 * (flags & 1) as usize;
        check_append(&case, &most, b"u", &one, room, Some((21, end + 7 + 4)));

        let over = message(rest + 1, flags);
        // A type, a name of five digits and its zero, and the last byte.
        let place = over.len() - 4 * (flags & 1) as usize - 1 - 7;
        assert_eq!(over[place], 0x0A);
        check_read(&case, &over, Some((21, place)));
        check_forward(&case, &over, room, Some((21, place)));
        check_move(&case, &over, 0, room, Some((21, place)));
    }
}

// ------------------------------------------------------------------- names

/// A body of these names with a null each, and the places of the names in its
/// message.
fn named(names: &[String]) -> (Vec<u8>, Vec<usize>) {
    let mut elements = Vec::new();
    let mut places = Vec::new();
    for name in names {
        places.push(21 + 4 + elements.len() + 1);
        elements.extend(element(0x0A, name.as_bytes(), b""));
    }
    (document(&elements), places)
}

#[test]
fn every_element_is_a_name_at_the_top() {
    let mut names: Vec<String> = (0..MAX_ELEMENTS).map(|index| index.to_string()).collect();
    let (body, _) = named(&names);
    check_read("names", &with_body(body), None);

    // One more, and the count comes first.
    names.push("0".to_string());
    let (body, places) = named(&names);
    let place = places[MAX_ELEMENTS] - 1;
    check_read("one name more", &with_body(body), Some((21, place)));
}

#[test]
fn two_equal_names_at_the_ends() {
    let last = MAX_ELEMENTS - 1;
    let mut names: Vec<String> = (0..MAX_ELEMENTS).map(|index| index.to_string()).collect();
    for earlier in [0, last - 1] {
        names[last] = names[earlier].clone();
        let (body, places) = named(&names);
        let case = format!("{earlier} and {last}");
        check_read(&case, &with_body(body), Some((23, places[last])));
    }
}

/// Two equal names among the most, and an earlier pair, which counts.
#[test]
fn of_two_pairs_the_first_counts() {
    let last = MAX_ELEMENTS - 1;
    let mut names: Vec<String> = (0..MAX_ELEMENTS).map(|index| index.to_string()).collect();
    names[last] = names[0].clone();
    names[100_000] = names[99_000].clone();
    let (body, places) = named(&names);
    check_read("two pairs", &with_body(body), Some((23, places[100_000])));
}

/// Names in no order, of all lengths up to twelve bytes.
#[test]
fn names_in_no_order() {
    let mut names: Vec<String> = (0..MAX_ELEMENTS as u64)
        .map(|index| {
            // Odd factors keep numbers of 48 bits apart.
            let number = index.wrapping_mul(0x9E37_79B9_7F4B) & 0xFFFF_FFFF_FFFF;
            format!("{number:x}")
        })
        .collect();
    let (body, _) = named(&names);
    check_read("no order", &with_body(body), None);
    let last = MAX_ELEMENTS - 1;
    names[last] = names[1].clone();
    let (body, places) = named(&names);
    check_read("no order", &with_body(body), Some((23, places[last])));
}

/// An identifier beside so many names: one of them, or none.
#[test]
fn an_identifier_beside_the_most_names() {
    let names: Vec<String> = (0..MAX_ELEMENTS).map(|index| index.to_string()).collect();
    let (body, _) = named(&names);
    let message = with_body(body);
    let room = message.len() + 100;
    let clash = Some((24, message.len() + 5));
    let last = (MAX_ELEMENTS - 1).to_string();
    check_append("free", &message, b"d", &EMPTY[..0], room, None);
    check_append("last", &message, last.as_bytes(), b"", room, clash);
}

// ----------------------------------------------------- identifiers with dots

/// Sixteen identifiers, each followed through as many documents as a body can
/// have: in vain, or the last one to the last name of all.
#[test]
fn sixteen_identifiers_through_the_most_elements() {
    // A document and its eight nulls each, and the one around all.
    let count = (MAX_ELEMENTS - 1) / 9;
    let mut body = dotted::points(count);
    let mut identifiers = dotted::in_vain('.');
    let message = dotted::with_identifiers(body.clone(), &identifiers);
    check_read("in vain", &message, None);

    // Behind the name stand its zero and the last bytes of three documents.
    let last = body.len() - 4;
    assert_eq!(&body[last - 10..last], b"measured_8");
    body[last - 1] = b'9';
    let clash = |message: &[u8]| Some((24, message.len() - 1 - 21));
    identifiers[15] = b"run.points.measured_9".to_vec();
    let message = dotted::with_identifiers(body.clone(), &identifiers);
    check_read("to the last name", &message, clash(&message));
    let others = dotted::with_identifiers(body, &identifiers[..15]);
    let refusal = Some((24, others.len() + 5));
    let room = others.len() + 100;
    check_append("last", &others, &identifiers[15], b"", room, refusal);
}

/// Empty names, twice at each level, so that almost all elements are reached.
#[test]
fn dots_through_the_most_empty_names() {
    let body = dotted::unnamed_tree(19);
    let in_vain: Vec<Vec<u8>> = (b'a'..=b'p')
        .map(|letter| [b".".repeat(17), vec![letter]].concat())
        .collect();
    let message = dotted::with_identifiers(body.clone(), &in_vain);
    let view = reference::read(&HOUSE, &message).expect("accepted");
    assert_eq!(view.elements, MAX_ELEMENTS - 1);
    check_read("in vain", &message, None);
    for (dots, leads) in [(17, true), (18, false), (1_000_000, false)] {
        let identifier = b".".repeat(dots);
        let message = dotted::with_identifiers(body.clone(), &[identifier]);
        let place = message.len() - 1 - dots;
        let case = format!("{dots} dots");
        check_read(&case, &message, leads.then_some((24, place)));
    }
}
