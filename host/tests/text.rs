//! Check 27, that texts are UTF-8: all short texts, and long ones with a fault
//! at every place, at each kind of text. Rust's own check says what is right,
//! and the independent reader's is held against it too.

mod common;

use common::bson::*;
use common::message::*;
use common::random::Random;
use common::reference::{self, utf8_beginning};
use common::text::{any_text, faulty_text, Fault};
use common::PING;
use relay::{ffi, Edition, VIEW_NUMBERS};
use std::array;
use std::str::from_utf8;

const HOUSE: Edition = Edition::HOUSE;

/// Room for every message that is written here.
const ROOM: usize = 200;

/// The bytes at which rules change, and their neighbours.
const EDGES: [u8; 37] = [
    0x00, 0x01, 0x41, 0x7E, 0x7F, 0x80, 0x81, 0x8E, 0x8F, 0x90, 0x91, 0x9F, 0xA0, 0xA1, 0xBE, 0xBF,
    0xC0, 0xC1, 0xC2, 0xC3, 0xDF, 0xE0, 0xE1, 0xEC, 0xED, 0xEE, 0xEF, 0xF0, 0xF1, 0xF3, 0xF4, 0xF5,
    0xF7, 0xF8, 0xFB, 0xFC, 0xFF,
];

// ----------------------------------------------------------- what is asked

/// A message with this text at one place.
type Build = fn(&[u8]) -> Vec<u8>;

/// Each kind of text with a way to build it; names at several places.
const KINDS: [(&str, Build); 12] = [
    ("string", |text| one_element(0x02, b"n", &string(text))),
    ("code", |text| one_element(0x0D, b"n", &string(text))),
    ("symbol", |text| one_element(0x0E, b"n", &string(text))),
    ("pointer", |text| {
        one_element(0x0C, b"n", &[&string(text)[..], &[0x11; 12]].concat())
    }),
    ("scoped code", |text| {
        one_element(0x0F, b"n", &code_with_scope(text, &EMPTY))
    }),
    ("pattern", |text| {
        one_element(0x0B, b"n", &[text, b"\0i\0"].concat())
    }),
    ("options", |text| {
        one_element(0x0B, b"n", &[b"p\0", text, b"\0"].concat())
    }),
    ("name", |text| one_element(0x0A, text, b"")),
    ("name below", |text| {
        let inner = document(&element(0x08, text, &[1]));
        one_element(0x03, b"n", &inner)
    }),
    ("name in a scope", |text| {
        let inner = document(&element(0x0A, text, b""));
        one_element(0x0F, b"n", &code_with_scope(b"", &inner))
    }),
    ("name in a sequence", |text| {
        with_sequence(b"runs", &document(&element(0x0A, text, b"")))
    }),
    ("identifier", |text| with_sequence(text, &EMPTY)),
];

/// How many of the kinds are strings, which may hold zeros; they come first.
const STRINGS: usize = 5;

/// A message whose body has one element.
fn one_element(kind: u8, name: &[u8], value: &[u8]) -> Vec<u8> {
    with_body(document(&element(kind, name, value)))
}

/// A message with a sequence and an empty body behind it.
fn with_sequence(identifier: &[u8], documents: &[u8]) -> Vec<u8> {
    Draft::new(vec![
        Section::Sequence {
            identifier: identifier.to_vec(),
            documents: documents.to_vec(),
        },
        Section::Body(EMPTY.to_vec()),
    ])
    .bytes()
}

/// A message with a text of a fixed length that is written over again and again.
struct Probe {
    kind: &'static str,
    message: Vec<u8>,
    /// Where the text starts.
    start: usize,
    view: [i64; VIEW_NUMBERS],
}

impl Probe {
    fn new((kind, build): (&'static str, Build), length: usize) -> Probe {
        let text = vec![b'~'; length];
        let message = build(&text);
        let mut places = message.windows(length).enumerate();
        let (start, _) = places
            .find(|(_, bytes)| *bytes == text)
            .expect("the text is there");
        assert!(places.all(|(_, bytes)| bytes != text), "{kind}: one place");
        Probe {
            kind,
            message,
            start,
            view: [0; VIEW_NUMBERS],
        }
    }

    fn put(&mut self, text: &[u8]) {
        self.message[self.start..self.start + text.len()].copy_from_slice(text);
    }

    /// Reads the message with this text.
    fn check(&mut self, text: &[u8]) {
        self.put(text);
        let result = ffi::read(HOUSE.bits, 1, &self.message, &mut self.view);
        check(result, self.start, text, self.kind);
    }

    /// The same by the independent reader.
    fn check_reference(&mut self, text: &[u8]) {
        self.put(text);
        let house = reference::Edition {
            bits: HOUSE.bits,
            sequences: HOUSE.sequences,
        };
        let result = match reference::read(&house, &self.message) {
            Ok(_) => 0,
            Err(refused) => u64::from(refused.number) << 32 | refused.place as u64,
        };
        check(result, self.start, text, self.kind);
    }
}

/// Holds a result to the text that stands at `start`: accepted if it is UTF-8,
/// else 27 at the byte after its longest beginning that is.
fn check(result: u64, start: usize, text: &[u8], kind: &str) {
    let expected = match from_utf8(text) {
        Ok(_) => 0,
        Err(fault) => 27 << 32 | (start + fault.valid_up_to()) as u64,
    };
    assert!(
        result == expected,
        "{kind} at {start}, {text:02X?}: {} at {}, expected {} at {}",
        result >> 32,
        result as u32,
        expected >> 32,
        expected as u32
    );
}

/// Calls with every text of N of these bytes.
fn for_texts<const N: usize>(bytes: &[u8], mut call: impl FnMut(&[u8; N])) {
    for number in 0..bytes.len().pow(N as u32) {
        let mut rest = number;
        call(&array::from_fn(|_| {
            let byte = bytes[rest % bytes.len()];
            rest /= bytes.len();
            byte
        }));
    }
}

/// All bytes from this one on.
fn bytes_from(first: u8) -> Vec<u8> {
    (first..=0xFF).collect()
}

// -------------------------------------------------------------- all texts

fn all_texts_in_a_string<const N: usize>(bytes: &[u8]) {
    let mut probe = Probe::new(KINDS[0], N);
    for_texts::<N>(bytes, |text| probe.check(text));
}

#[test]
fn strings_of_one_and_two_bytes() {
    all_texts_in_a_string::<1>(&bytes_from(0));
    all_texts_in_a_string::<2>(&bytes_from(0));
}

#[test]
fn strings_of_three_bytes() {
    all_texts_in_a_string::<3>(&bytes_from(0));
}

#[test]
fn strings_of_four_bytes() {
    all_texts_in_a_string::<4>(&EDGES);
}

#[test]
fn one_and_two_bytes_at_each_other_kind_of_text() {
    for (index, kind) in KINDS.into_iter().enumerate().skip(1) {
        let bytes = bytes_from(if index < STRINGS { 0 } else { 1 });
        let mut probe = Probe::new(kind, 1);
        for_texts::<1>(&bytes, |text| {
            probe.check(text);
            probe.check_reference(text);
        });
        let mut probe = Probe::new(kind, 2);
        for_texts::<2>(&bytes, |text| {
            probe.check(text);
            probe.check_reference(text);
        });
    }
}

#[test]
fn every_character_is_accepted() {
    let mut probes = [1, 2, 3, 4].map(|length| Probe::new(KINDS[0], length));
    let mut bytes = [0; 4];
    let mut count = 0;
    for character in '\0'..=char::MAX {
        let text = character.encode_utf8(&mut bytes);
        probes[text.len() - 1].check(text.as_bytes());
        count += 1;
    }
    // All numbers up to 10FFFF but the 2,048 surrogates.
    assert_eq!(count, 0x11_0000 - 0x800);
}

#[test]
fn the_independent_check_is_rust_s() {
    fn check_text(text: &[u8]) {
        let expected = from_utf8(text).map_or_else(|fault| fault.valid_up_to(), str::len);
        assert!(utf8_beginning(text) == expected, "{text:02X?}");
    }
    check_text(b"");
    for_texts::<1>(&bytes_from(0), |text| check_text(text));
    for_texts::<2>(&bytes_from(0), |text| check_text(text));
    for_texts::<3>(&bytes_from(0), |text| check_text(text));
    for_texts::<4>(&EDGES, |text| check_text(text));
}

// ------------------------------------------------------------- long texts

/// Texts of about 70 bytes, of characters of one to four bytes; and two that
/// have several of the blocks by which the library passes them.
const LONG: [(char, usize); 6] = [
    ('a', 70),
    ('a', 230),
    ('ж', 35),
    ('ж', 115),
    ('水', 24),
    ('😀', 18),
];

/// What is put into them: a character of each length, and faults of all kinds.
const INSERTS: [&[u8]; 20] = [
    "é".as_bytes(),
    "€".as_bytes(),
    "𝄞".as_bytes(),
    b"\x80",
    b"\xBF",
    b"\xC0",
    b"\xC1\xBF",
    b"\xC3",
    b"\xE0\x9F\xBF",
    b"\xE2",
    b"\xE2\x82",
    b"\xED\xA0\x80",
    b"\xF0\x8F\xBF\xBF",
    b"\xF0",
    b"\xF0\x9D",
    b"\xF0\x9D\x84",
    b"\xF4\x90\x80\x80",
    b"\xF5\x80\x80\x80",
    b"\xFF",
    b"\xFF\xFE",
];

/// Calls with each long text that has a piece put in, or written over it, at
/// every place up to its end.
fn for_long_texts(mut call: impl FnMut(&[u8])) {
    for (character, count) in LONG {
        let base = character.to_string().repeat(count).into_bytes();
        for place in 0..=base.len() {
            let (before, behind) = base.split_at(place);
            for piece in INSERTS {
                call(&[before, piece, behind].concat());
                let covered = piece.len().min(behind.len());
                call(&[before, piece, &behind[covered..]].concat());
            }
        }
    }
}

#[test]
fn a_fault_at_every_place_of_a_long_text() {
    for (kind, build) in KINDS {
        for_long_texts(|text| {
            let mut probe = Probe::new((kind, build), text.len());
            probe.check(text);
            probe.check_reference(text);
        });
    }
}

#[test]
fn a_long_text_at_every_place_of_a_word() {
    let mut view = [0; VIEW_NUMBERS];
    for shift in 0..16 {
        let name = vec![b'n'; shift];
        // The body is at 21, its element at 25, then a name, its zero, a length.
        let start = 26 + shift + 1 + 4;
        for_long_texts(|text| {
            let message = one_element(0x02, &name, &string(text));
            let result = ffi::read(HOUSE.bits, 1, &message, &mut view);
            check(result, start, text, "string");
        });
    }
}

/// Runs of characters of as many bytes each, some with a lone character of
/// another length behind them.
fn runs(random: &mut Random) -> Vec<u8> {
    const CHARACTERS: [char; 12] = [
        'a',
        ' ',
        '\x7F',
        'ä',
        'ж',
        '߿',
        'ก',
        '水',
        '한',
        '\u{FFFD}',
        '😀',
        '\u{10FFFF}',
    ];
    let mut text = String::new();
    for _ in 0..random.between(1, 8) {
        let length = random.pick(&[1, 2, 7, 8, 9, 31, 32, 33, 64, 95, 96, 97, 160]);
        let character = random.pick(&CHARACTERS);
        (0..random.between(1, length)).for_each(|_| text.push(character));
        if random.percent(50) {
            text.push(random.pick(&CHARACTERS));
        }
    }
    text.into_bytes()
}

#[test]
fn runs_of_characters() {
    let random = &mut Random::new(4);
    let mut view = [0; VIEW_NUMBERS];
    let (mut good, mut bad) = (0, 0);
    for _ in 0..100_000 {
        let mut text = runs(random);
        if random.percent(60) {
            let place = random.below(text.len());
            text[place] = random.pick(&EDGES);
        }
        let message = one_element(0x02, b"n", &string(&text));
        let result = ffi::read(HOUSE.bits, 1, &message, &mut view);
        check(result, 32, &text, "string");
        match result {
            0 => good += 1,
            _ => bad += 1,
        }
    }
    assert!(good > 30_000 && bad > 30_000, "{good} good, {bad} bad");
}

#[test]
fn zeros_in_a_long_string() {
    let mut probe = Probe::new(KINDS[0], 70);
    for place in 0..70 {
        let mut text = [b'a'; 70];
        text[place] = 0;
        probe.check(&text);
        // The zero ends no text: a fault behind it is seen.
        text[69] = 0xFF;
        probe.check(&text);
    }
}

// ------------------------------------------------------ write and append

#[test]
fn written_texts() {
    let mut output = [0; ROOM];
    let mut view = [0; VIEW_NUMBERS];
    for kind in &KINDS[..10] {
        let mut probe = Probe::new(*kind, 2);
        for_texts::<2>(&bytes_from(1), |text| {
            probe.put(text);
            let body = &probe.message[21..];
            let result = ffi::write(HOUSE.bits, 1, 7, 0, 1, body, &mut output, &mut view);
            check(result, probe.start, text, probe.kind);
        });
    }
}

#[test]
fn appended_texts() {
    let mut output = [0; ROOM];
    let mut view = [0; VIEW_NUMBERS];
    let mut append = |identifier: &[u8], documents: &[u8]| {
        ffi::append(
            HOUSE.bits,
            1,
            &PING,
            identifier,
            documents,
            &mut output,
            &mut view,
        )
    };
    let mut document = document(&element(0x02, b"n", &string(b"~~")));
    for_texts::<2>(&bytes_from(1), |text| {
        // The section is at 36: its kind, its size, the identifier.
        check(append(text, &EMPTY), 41, text, "identifier");
        // A zero, the document's length, a type, a name, a string's length.
        document[11..13].copy_from_slice(text);
        check(append(b"runs", &document), 46 + 11, text, "string");
    });
}

// ------------------------------------------------------- the cases' texts

#[test]
fn the_cases_have_characters_of_all_lengths_and_each_fault() {
    let random = &mut Random::new(27);
    let mut lengths = [0; 5];
    for _ in 0..1_000 {
        let text = any_text(random, 3);
        let text = from_utf8(&text).expect("UTF-8");
        text.chars().for_each(|c| lengths[c.len_utf8()] += 1);
        assert!(!text.contains('\0'));
    }
    assert!(lengths[1..].iter().all(|&count| count >= 100));

    for fault in Fault::ALL {
        for _ in 0..1_000 {
            let bytes = fault.bytes(random);
            assert_eq!(utf8_beginning(&bytes), 0);
            assert_eq!(Fault::of(&bytes[..bytes.len().min(4)]), fault);
        }
    }
    for _ in 0..1_000 {
        assert!(from_utf8(&faulty_text(random)).is_err());
    }
}
