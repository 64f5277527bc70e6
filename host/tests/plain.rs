//! Holds the plain reader that the benchmark compares with against the
//! independent one: both must make the same checks.

#[path = "../bench/plain.rs"]
mod plain;

mod common;

use common::bson::{document, element, padded, EMPTY};
use common::damage::damage;
use common::dotted::dotted_identifier;
use common::generate::*;
use common::message::{with_body, with_flags};
use common::random::Random;
use common::reference::{self, Clash, Edition, Refused, View, MAX_ELEMENTS, MAX_MESSAGE};
use common::setting;
use common::text::{any_text, faulty_text, Faults};

fn same_view(plain: &plain::View, view: &View) -> bool {
    let head = [
        plain.length as i64,
        i64::from(plain.request_id),
        i64::from(plain.response_to),
        i64::from(plain.flags),
        plain.elements as i64,
    ];
    let rest = plain.sections.iter().flat_map(section_numbers);
    let used = plain
        .sections
        .iter()
        .position(|s| *s == plain::Section::None);
    head.into_iter().chain(rest).eq(view.numbers())
        && plain.used == used.unwrap_or(plain::MAX_SECTIONS)
        && plain.body == view.behind()
}

fn section_numbers(section: &plain::Section) -> [i64; 6] {
    let start_and_length = |part: &plain::Part| [part.start as i64, (part.end - part.start) as i64];
    match section {
        plain::Section::None => [-1, 0, 0, 0, 0, 0],
        plain::Section::Body(part) => {
            let [start, length] = start_and_length(part);
            [0, 0, 0, start, length, 0]
        }
        plain::Section::Sequence {
            identifier,
            documents,
            number,
        } => {
            let [name, name_length] = start_and_length(identifier);
            let [start, length] = start_and_length(documents);
            [1, name, name_length, start, length, *number as i64]
        }
    }
}

fn compare(
    answer: Result<plain::View, plain::Refused>,
    expected: &Result<(View, Vec<u8>), Refused>,
    output: &[u8],
) -> bool {
    match (answer, expected) {
        (Ok(view), Ok((expected, message))) => {
            same_view(&view, expected)
                && output[..message.len()] == *message
                && output[message.len()..].iter().all(|&byte| byte == 0xAA)
        }
        (Err(refused), Err(expected)) => {
            refused == (expected.number, expected.place) && output.iter().all(|&byte| byte == 0xAA)
        }
        _ => false,
    }
}

const CASES: u64 = 40_000;

/// How often a text was not UTF-8, an identifier led to a name, and what moves
/// did.
#[derive(Default)]
struct Seen {
    /// In read, forward, move, append and write.
    calls: [u64; 5],
    faults: Faults,
    /// The same of paths.
    paths: [u64; 5],
    /// To another place, and refused with 28.
    moved: u64,
    too_far: u64,
}

impl Seen {
    fn note<T>(&mut self, call: usize, expected: &Result<T, Refused>) {
        if let Err(refused) = expected {
            self.calls[call] += u64::from(refused.number == 27);
            self.faults.note(refused);
            self.paths[call] += u64::from(refused.clash == Some(Clash::Path));
        }
    }
}

#[test]
fn the_plain_reader_agrees_with_the_independent_one() {
    let seed = setting("RELAY_SEED", 1);
    let mut seen = Seen::default();
    for case in 0..CASES {
        let random = &mut Random::for_case(seed ^ 0xBE, case);
        let edition = any_edition(random);
        let known = plain::Edition {
            bits: edition.bits,
            sequences: edition.sequences,
        };
        let message = any_message(random, &edition);
        let room = random.between(0, 2) * message.len();
        let mut output = vec![0xAA; room];

        let expected = reference::read(&edition, &message).map(|view| (view, Vec::new()));
        for answer in [
            plain::read(known, &message),
            plain::read_with(known, &message, plain::by_set),
            plain::read_with(known, &message, plain::by_order),
        ] {
            assert!(
                compare(answer, &expected, &[]),
                "seed {seed}, case {case}: read"
            );
        }
        seen.note(0, &expected);

        let forwarded = plain::forward(known, &message, &mut output);
        let expected = reference::forward(&edition, &message, room);
        assert!(
            compare(forwarded, &expected, &output),
            "seed {seed}, case {case}: forward"
        );
        seen.note(1, &expected);

        let behind = any_behind(random, &edition, &message);
        output.fill(0xAA);
        let answer = plain::move_body(known, &message, behind, &mut output);
        let expected = reference::move_body(&edition, &message, behind, room);
        assert!(
            compare(answer, &expected, &output),
            "seed {seed}, case {case}: move behind {behind}"
        );
        seen.note(2, &expected);
        seen.moved += u64::from(answer.is_ok() && answer != forwarded);
        seen.too_far += u64::from(answer == Err((28, 0)));

        let style = Style {
            faults: random.pick(&[0, 0, 15]),
            ..any_style(random)
        };
        let documents = any_documents(random, style);
        let identifier = match random.below(10) {
            0 => faulty_text(random),
            1 => random.text(3),
            2..=6 => identifier_with_dots(random, &edition, &message),
            _ => any_text(random, 3),
        };
        output.fill(0xAA);
        let answer = plain::append(known, &message, &identifier, &documents, &mut output);
        let expected = reference::append(&edition, &message, &identifier, &documents, room);
        assert!(
            compare(answer, &expected, &output),
            "seed {seed}, case {case}: append"
        );
        seen.note(3, &expected);

        let flags = any_flags(random, &edition);
        output.fill(0xAA);
        let body = match random.below(8) {
            0 => documents,
            1 => bad_text_document(random),
            _ => any_document(random, style),
        };
        let answer = plain::write(known, 1, -2, flags, &body, &mut output);
        let expected = reference::write(&edition, 1, -2, flags, &body, room);
        assert!(
            compare(answer, &expected, &output),
            "seed {seed}, case {case}: write"
        );
        seen.note(4, &expected);
    }
    seen.faults.print();
    assert!(
        seen.calls.iter().all(|&count| count >= CASES / 200),
        "27 came {:?} times",
        seen.calls
    );
    seen.faults.check(CASES / 1_000);
    // What the message itself is refused for, append refuses too.
    let [read, .., append, _] = seen.paths;
    assert!(read >= CASES / 100, "24 by a path came {read} times");
    let new = append - read;
    assert!(new >= CASES / 200, "24 by a new path came {new} times");
    assert!(seen.moved >= CASES / 20, "moved {} times", seen.moved);
    assert!(seen.too_far >= CASES / 50, "28 came {} times", seen.too_far);
}

fn any_message(random: &mut Random, edition: &Edition) -> Vec<u8> {
    let mut message = if random.percent(60) {
        any_draft(random, edition).bytes()
    } else {
        faulty_draft(random, edition).bytes()
    };
    if random.percent(20) {
        damage(random, &mut message);
    }
    message
}

/// An identifier that leads to a name of the body or nearly so, where the
/// message has such a body.
fn identifier_with_dots(random: &mut Random, edition: &Edition, message: &[u8]) -> Vec<u8> {
    let clashes = random.percent(80);
    let body = reference::read_before_24(edition, message).map_or(Vec::new(), |(_, body)| body);
    dotted_identifier(random, message, &body, clashes).unwrap_or_else(|| any_text(random, 3))
}

#[test]
fn the_plain_reader_keeps_the_limits() {
    let edition = Edition {
        bits: 0x0001_0003,
        sequences: true,
    };
    let known = plain::Edition {
        bits: edition.bits,
        sequences: true,
    };
    let crowd = |count: usize| {
        let nulls = element(0x0A, b"", b"").repeat(count - 1);
        with_body(document(&element(0x03, b"n", &document(&nulls))))
    };
    let of_length = |length: usize| with_body(padded(&EMPTY, length - 26));
    for (message, number) in [
        (of_length(MAX_MESSAGE), 0),
        (of_length(MAX_MESSAGE + 1), 2),
        (with_flags(&of_length(MAX_MESSAGE - 4), 1), 0),
        (crowd(MAX_ELEMENTS), 0),
        (crowd(MAX_ELEMENTS + 1), 21),
    ] {
        let expected = reference::forward(&edition, &message, message.len());
        let refused = expected.as_ref().err();
        assert_eq!(refused.map_or(0, |refused| refused.number), number);
        let mut output = vec![0xAA; message.len()];
        let answer = plain::forward(known, &message, &mut output);
        assert!(compare(answer, &expected, &output), "{number}");
    }
    for (flags, frame) in [(0, 21), (1, 25)] {
        for (over, number) in [(0, 0), (1, 2)] {
            let body = padded(&EMPTY, MAX_MESSAGE + over - frame - EMPTY.len());
            let expected = reference::write(&edition, 1, -2, flags, &body, MAX_MESSAGE + 1);
            let refused = expected.as_ref().err();
            assert_eq!(refused.map_or(0, |refused| refused.number), number);
            let mut output = vec![0xAA; MAX_MESSAGE + 1];
            let answer = plain::write(known, 1, -2, flags, &body, &mut output);
            assert!(compare(answer, &expected, &output), "{number}");
        }
    }
}

#[test]
fn the_plain_checksum_is_the_definition_s() {
    let mut random = Random::new(3);
    for length in (0..200).chain([4_000, LONG]) {
        let bytes = random.bytes(length);
        assert_eq!(plain::crc32c(&bytes), reference::crc32c_by_bits(&bytes));
    }
}
