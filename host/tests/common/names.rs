//! Families of names for the top of a body: usual ones, and those that make
//! it hard to tell them apart. A reader can keep most names apart by a slot
//! that it makes of some of their bytes: of the first and last four, for
//! marks, or of the middle four too. Names of one slot are the dearest then.
//!
//! Names are told apart by two letters where there are up to 4,096 of them, else
//! by three; the other bytes are the same, but for one in the middle of some.

use super::bson::{document, element};
use super::message::with_body;
use super::random::Random;
use super::reference::{MAX_ELEMENTS, MAX_MESSAGE};
use std::collections::HashSet;

#[derive(Clone, Copy, Debug, PartialEq, Eq)]
pub enum Family {
    /// `field00001` and so on.
    Usual,
    /// The same behind 38 bytes that all names share.
    LongUsual,
    /// Two letters again and again, so that all lengths differ.
    UsualLengths,
    /// Names of one slot of [`mark`], which differ elsewhere.
    OneMark,
    /// Names with the same first four, last four and middle four bytes, in
    /// rising order.
    OneSlot,
    /// The same in falling order.
    Falling,
    /// 48 bytes, the same but for two behind the middle, in rising order.
    LongSlot,
    /// Three names in each slot of [`home`], so that as many steps are made as
    /// there are names, and the last ones are too many; in falling order. Where
    /// there are more names, as many as need be in each slot.
    Full,
    /// Names that differ in the letters behind 10 bytes.
    Prefix,
    /// Names that differ in the letters behind 46 bytes.
    LongPrefix,
    /// Names that differ in the letters before 10 bytes.
    Suffix,
    /// Names that differ in the letters before 46 bytes.
    LongSuffix,
    /// One letter, one to many times: all lengths differ, and each name is
    /// the start of the next.
    Lengths,
}

impl Family {
    pub const ALL: [Family; 13] = [
        Family::Usual,
        Family::LongUsual,
        Family::UsualLengths,
        Family::OneMark,
        Family::OneSlot,
        Family::Falling,
        Family::LongSlot,
        Family::Full,
        Family::Prefix,
        Family::LongPrefix,
        Family::Suffix,
        Family::LongSuffix,
        Family::Lengths,
    ];

    pub fn words(self) -> &'static str {
        match self {
            Family::Usual => "usual",
            Family::LongUsual => "usual, 48 bytes",
            Family::UsualLengths => "usual, all lengths differ",
            Family::OneMark => "one slot of the marks",
            Family::OneSlot => "one slot of both",
            Family::Falling => "one slot of both, falling",
            Family::LongSlot => "one slot of both, 48 bytes",
            Family::Full => "full slots, falling",
            Family::Prefix => "common prefix, 12 bytes",
            Family::LongPrefix => "common prefix, 48 bytes",
            Family::Suffix => "common suffix, 12 bytes",
            Family::LongSuffix => "common suffix, 48 bytes",
            Family::Lengths => "all lengths differ",
        }
    }

    /// Usual names of the same lengths, or nearly so.
    pub fn usual(self) -> Family {
        match self {
            Family::LongUsual | Family::LongSlot | Family::LongPrefix | Family::LongSuffix => {
                Family::LongUsual
            }
            Family::UsualLengths | Family::Lengths => Family::UsualLengths,
            _ => Family::Usual,
        }
    }

    /// How many names with a null each fit into a message.
    pub fn most(self) -> usize {
        self.fitting(MAX_MESSAGE)
    }

    /// How many fit into a message of this length.
    pub fn fitting(self, length: usize) -> usize {
        let left = length - 26;
        if let Family::UsualLengths | Family::Lengths = self {
            // 1 and 2 bytes, 2 and 2, and so on.
            let size = |count: usize| count * (count + 1) / 2 + 2 * count;
            let most = (0..).take_while(|&count| size(count) <= left).last();
            return most.expect("none at least");
        }
        let most = |letters| left / (self.name_length(letters) + 2);
        match most(2) {
            few if few <= LETTERS.len().pow(2) => few,
            _ => most(3).clamp(LETTERS.len().pow(2), MAX_ELEMENTS),
        }
    }

    /// The bytes of each name, where they are told apart by so many letters.
    fn name_length(self, letters: usize) -> usize {
        match self {
            Family::OneMark => 10,
            Family::Full => 12,
            Family::Usual => 8 + letters,
            Family::OneSlot | Family::Falling if letters == 3 => 14,
            Family::LongUsual | Family::LongSlot | Family::LongPrefix | Family::LongSuffix => {
                46 + letters
            }
            _ => 10 + letters,
        }
    }

    /// So many names, all different. Those of `Falling` and `Full` are not
    /// the first ones of more, and up to 4,096 are not those of more.
    pub fn names(self, count: usize) -> Vec<Vec<u8>> {
        assert!(count <= self.most());
        match self {
            Family::OneMark => of_one_mark(count),
            Family::Falling => {
                let mut names = Family::OneSlot.names(count);
                names.reverse();
                names
            }
            Family::Full => full_slots(count),
            _ => {
                let letters = if count <= LETTERS.len().pow(2) { 2 } else { 3 };
                (0..count).map(|index| self.name(index, letters)).collect()
            }
        }
    }

    fn name(self, index: usize, letters: usize) -> Vec<u8> {
        let own = &numbered(index, letters)[..];
        match self {
            Family::Usual => usual(index, letters),
            Family::LongUsual => [&common(38)[..], &usual(index, letters)].concat(),
            Family::UsualLengths => own.iter().copied().cycle().take(index + 1).collect(),
            // The middle four bytes are behind the letters.
            Family::OneSlot if letters == 3 => [b"part", own, b"-number"].concat(),
            Family::OneSlot => [b"part", own, b"number"].concat(),
            Family::LongSlot => [&common(38)[..], own, b"readings"].concat(),
            Family::Prefix => [&common(10), own].concat(),
            Family::LongPrefix => [&common(46), own].concat(),
            Family::Suffix => [own, &common(10)].concat(),
            Family::LongSuffix => [own, &common(46)].concat(),
            Family::Lengths => vec![b'n'; index + 1],
            _ => unreachable!("made together"),
        }
    }
}

/// A usual name of 8 bytes more than these letters would have.
fn usual(index: usize, letters: usize) -> Vec<u8> {
    let (number, digits) = (index + 1, 3 + letters);
    format!("field{number:0digits$}").into_bytes()
}

/// 64 letters in rising order.
const LETTERS: &[u8; 64] = b"-0123456789ABCDEFGHIJKLMNOPQRSTUVWXYZ_abcdefghijklmnopqrstuvwxyz";

/// A number as so many letters, in rising order.
fn numbered(index: usize, letters: usize) -> Vec<u8> {
    let places = (0..letters as u32).rev();
    places
        .map(|place| LETTERS[index / LETTERS.len().pow(place) % LETTERS.len()])
        .collect()
}

/// So many bytes that names have in common.
fn common(length: usize) -> Vec<u8> {
    let text = b"measurement.".iter().copied();
    text.cycle().take(length).collect()
}

/// Names of ten letters that fall into one slot, found by search. The library
/// has 2,048 slots for its marks however many names there are.
fn of_one_mark(count: usize) -> Vec<Vec<u8>> {
    let mut random = Random::new(23);
    let mut seen = HashSet::new();
    let mut names = Vec::new();
    while names.len() < count {
        let bits = random.next();
        let name: [u8; 10] = std::array::from_fn(|i| LETTERS[(bits >> (6 * i)) as usize % 64]);
        if mark(&name) == 0 && seen.insert(name) {
            names.push(name.to_vec());
        }
    }
    names
}

/// So many names in falling order, three for each slot, and up to three that
/// stand behind such. Where there are more than that for all slots, each gets as
/// many others as the next, or one more.
fn full_slots(count: usize) -> Vec<Vec<u8>> {
    let name = |which, group| -> [u8; 12] {
        let (which, group) = (numbered(which, 2), numbered(group, 2));
        let bytes = [b"part", &which[..], &group, b"mber"].concat();
        bytes.try_into().expect("12 bytes")
    };
    // Groups whose slots are three apart, so that none fills another's.
    let mut taken = HashSet::new();
    let groups: Vec<usize> = (0..4_096)
        .filter(|&group| {
            let slot = home(&name(0, group));
            let apart = (slot.saturating_sub(2)..=slot + 2).all(|near| !taken.contains(&near));
            apart && taken.insert(slot)
        })
        .take(count / 3 + 3)
        .collect();
    let (full, each) = match count.saturating_sub(1) / 3 {
        full if full <= groups.len() => (full, 3),
        _ => (groups.len(), count / groups.len()),
    };
    let mut names = Vec::new();
    for which in (1..=each).rev() {
        names.extend(
            groups[..full]
                .iter()
                .rev()
                .map(|&g| name(which, g).to_vec()),
        );
    }
    let left = count - names.len();
    names.extend(groups[..left].iter().rev().map(|&g| name(0, g).to_vec()));
    names
}

/// Four bytes as a number.
fn word(name: &[u8], at: usize) -> u64 {
    let four: [u8; 4] = name[at..at + 4].try_into().expect("four bytes");
    u64::from(u32::from_le_bytes(four))
}

/// A slot of 2,048, made of the first and the last four bytes as the library
/// makes it for its marks (`spread` in the crate opmsg_body_names).
fn mark(name: &[u8; 10]) -> u64 {
    (word(name, 0) + 3 * word(name, 6)) * 0x9E3_779B / 0x40_0000 % 2048
}

/// A slot of 8,192, made of the length and the middle four bytes too, as the
/// library makes it for its tables (`hash` and `home` in the crate
/// opmsg_name_slots). It has no more of them for more names.
fn home(name: &[u8; 12]) -> u64 {
    let sum = 12 + word(name, 0) + 3 * word(name, 8) + 5 * word(name, 6);
    sum * 0x9E3_779B / 0x40_0000 % 8_192
}

/// A message with a body of these names, each with a null.
pub fn message_of(names: &[Vec<u8>]) -> Vec<u8> {
    let elements: Vec<u8> = names
        .iter()
        .flat_map(|name| element(0x0A, name, b""))
        .collect();
    with_body(document(&elements))
}
