//! Texts in UTF-8 with characters of one to four bytes, and texts with each
//! kind of fault.

use super::random::Random;
use super::reference::{Refused, Text};

/// The first and the last characters of each length, those around the
/// surrogates, and some that are characters though no one writes them.
const EDGES: [u32; 14] = [
    0x01, 0x7F, 0x80, 0x7FF, 0x800, 0xFFF, 0x1000, 0xD7FF, 0xE000, 0xFEFF, 0xFFFE, 0xFFFF,
    0x1_0000, 0x10_FFFF,
];

/// A character other than U+0000.
pub fn any_character(random: &mut Random) -> char {
    let number = match random.below(8) {
        0..=2 => random.between(0x01, 0x7F),
        3 => random.between(0x80, 0x7FF),
        4 => random.between(0x800, 0xD7FF),
        5 => random.between(0xE000, 0xFFFF),
        6 => random.between(0x1_0000, 0x10_FFFF),
        _ => random.pick(&EDGES) as usize,
    };
    char::from_u32(number as u32).expect("no surrogate")
}

/// So many characters without a zero among them.
pub fn any_text(random: &mut Random, characters: usize) -> Vec<u8> {
    let text: String = (0..characters).map(|_| any_character(random)).collect();
    text.into_bytes()
}

/// The text of a string, where zeros may stand.
pub fn any_string_text(random: &mut Random, characters: usize) -> Vec<u8> {
    let text: String = (0..characters)
        .map(|_| match random.below(10) {
            0 => '\0',
            _ => any_character(random),
        })
        .collect();
    text.into_bytes()
}

/// What is wrong with the first bytes of a text that are no character.
#[derive(Clone, Copy, Debug, PartialEq, Eq)]
pub enum Fault {
    /// A character that the text's end cuts off.
    CutByEnd,
    /// A character that another byte cuts off.
    CutByByte,
    /// Two bytes for a number that has one.
    TooLong2,
    /// Three bytes for a number that has fewer.
    TooLong3,
    /// Four bytes for a number that has fewer.
    TooLong4,
    Surrogate,
    /// Above 10FFFF.
    TooHigh,
    /// A byte that no character has.
    NoCharacter,
    /// A tail without a first byte.
    LoneTail,
}

impl Fault {
    pub const ALL: [Fault; 9] = [
        Fault::CutByEnd,
        Fault::CutByByte,
        Fault::TooLong2,
        Fault::TooLong3,
        Fault::TooLong4,
        Fault::Surrogate,
        Fault::TooHigh,
        Fault::NoCharacter,
        Fault::LoneTail,
    ];

    /// The fault that these bytes start with; they are what is left of a text,
    /// or the first four bytes of it.
    pub fn of(left: &[u8]) -> Fault {
        let first = left[0];
        let length = match first {
            0x80..=0xBF => return Fault::LoneTail,
            0xF5..=0xFF => return Fault::NoCharacter,
            0xC0..=0xDF => 2,
            0xE0..=0xEF => 3,
            0xF0..=0xF4 => 4,
            0x00..=0x7F => panic!("{first:#04x} is a character"),
        };
        let tails = left[1..].iter().take_while(|&&byte| byte & 0xC0 == 0x80);
        let there = 1 + tails.count().min(length - 1);
        match first {
            0xC0..=0xC1 if there < length => Fault::NoCharacter,
            _ if there < length && there == left.len() => Fault::CutByEnd,
            _ if there < length => Fault::CutByByte,
            0xC0..=0xC1 => Fault::TooLong2,
            0xE0 => Fault::TooLong3,
            0xED => Fault::Surrogate,
            0xF0 => Fault::TooLong4,
            0xF4 => Fault::TooHigh,
            _ => panic!("{left:02X?} starts with a character"),
        }
    }

    /// Bytes with this fault at their start.
    pub fn bytes(self, random: &mut Random) -> Vec<u8> {
        let (tail, last) = (any_tail(random), any_tail(random));
        match self {
            Fault::CutByEnd => cut_character(random),
            Fault::CutByByte => [cut_character(random), any_text(random, 1)].concat(),
            Fault::TooLong2 => vec![random.pick(&[0xC0, 0xC1]), tail],
            Fault::TooLong3 => vec![0xE0, edged(random, 0x80, 0x9F), tail],
            Fault::TooLong4 => vec![0xF0, edged(random, 0x80, 0x8F), tail, last],
            Fault::Surrogate => vec![0xED, edged(random, 0xA0, 0xBF), tail],
            Fault::TooHigh => vec![0xF4, edged(random, 0x90, 0xBF), tail, last],
            Fault::NoCharacter if random.percent(20) => {
                [vec![random.pick(&[0xC0, 0xC1])], any_text(random, 1)].concat()
            }
            // With tails, as if it began a character.
            Fault::NoCharacter => vec![edged(random, 0xF5, 0xFF), tail, last],
            Fault::LoneTail => vec![tail],
        }
    }
}

fn any_tail(random: &mut Random) -> u8 {
    edged(random, 0x80, 0xBF)
}

/// A byte from the first to the last, often one of these two.
fn edged(random: &mut Random, first: u8, last: u8) -> u8 {
    match random.below(4) {
        0 => first,
        1 => last,
        _ => random.between(first.into(), last.into()) as u8,
    }
}

/// A character of two to four bytes without its last ones.
fn cut_character(random: &mut Random) -> Vec<u8> {
    let mut bytes = loop {
        let character = any_character(random);
        if !character.is_ascii() {
            break character.to_string().into_bytes();
        }
    };
    bytes.truncate(random.between(1, bytes.len() - 1));
    bytes
}

/// A text without a zero that has some fault, behind any number of characters.
pub fn faulty_text(random: &mut Random) -> Vec<u8> {
    let fault = random.pick(&Fault::ALL);
    let before = random.pick(&[0, 0, 1, 2, 5, 20]);
    let after = match fault {
        Fault::CutByEnd => 0,
        _ => random.pick(&[0, 1, 3]),
    };
    [
        any_text(random, before),
        fault.bytes(random),
        any_text(random, after),
    ]
    .concat()
}

/// How often each kind of text was refused for each kind of fault.
#[derive(Default)]
pub struct Faults {
    counts: [[u64; Fault::ALL.len()]; Text::ALL.len()],
}

impl Faults {
    /// Counts a refusal, where it is a 27.
    pub fn note(&mut self, refused: &Refused) {
        if let Some(bad) = refused.text {
            let fault = Fault::of(&bad.left[..bad.count]);
            self.counts[bad.kind as usize][fault as usize] += 1;
        }
    }

    pub fn add(&mut self, other: &Faults) {
        let counts = self.counts.iter_mut().flatten();
        counts
            .zip(other.counts.iter().flatten())
            .for_each(|(sum, n)| *sum += n);
    }

    pub fn print(&self) {
        print!("{:<11}", "27");
        for fault in Fault::ALL {
            print!("{:>12}", format!("{fault:?}"));
        }
        println!();
        for (kind, row) in Text::ALL.iter().zip(&self.counts) {
            print!("{:<11}", format!("{kind:?}"));
            row.iter().for_each(|count| print!("{count:>12}"));
            println!();
        }
    }

    /// Every kind of text must have had every fault so often.
    pub fn check(&self, least: u64) {
        for (kind, row) in Text::ALL.iter().zip(&self.counts) {
            for (fault, &count) in Fault::ALL.iter().zip(row) {
                assert!(count >= least, "{kind:?} with {fault:?}: {count} times");
            }
        }
    }
}
