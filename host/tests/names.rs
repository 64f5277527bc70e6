//! Check 23: a name at the top of the body that comes again is refused at its
//! first byte, and of several the first. Bodies of few names and of as many as
//! fit, names of all families of the benchmark, and random ones. The C
//! functions are held against the independent reader, and against what the
//! names themselves say. At the end stands check 24 with identifiers that make
//! following them dear.
//!
//! RELAY_CASES is the number of random cases (1,000 if not set), RELAY_SEED
//! the seed (1). A failure names its seed and case; RELAY_FIRST=<case>
//! RELAY_CASES=1 with that seed makes that case alone again:
//!
//! ```text
//! RELAY_CASES=100000 RELAY_SEED=2 cargo test --release --test names
//! ```
//!
//! Names that crowd the library's slots are kept in blocks: of 2,048 where there
//! are up to 32,768 of them, else of 16,384. The bodies here have up to 33,000
//! names; those with as many as there may be are in `limits.rs`.

mod common;

use common::bson::*;
use common::dotted;
use common::generate::{any_element, Style, LONG, MANY};
use common::message::{Draft, Section};
use common::names::Family;
use common::random::Random;
use common::reference::{self, Edition, Refused, View, VIEW_NUMBERS};
use common::setting;
use common::text::{any_character, any_text};
use relay::ffi;
use std::collections::HashMap;

const HOUSE: Edition = Edition {
    bits: 0x0001_0003,
    sequences: true,
};

/// What the view and the output are filled with first.
const NUMBER: i64 = -7_777;
const BYTE: u8 = 0xAA;

/// The most bytes of a message with more names than a long one has.
const FAR: usize = 500_000;

type Names = Vec<Vec<u8>>;

// -------------------------------------------------------------- comparison

/// A message and the places of the names at the top of its body.
struct Named {
    message: Vec<u8>,
    body: Vec<u8>,
    places: Vec<usize>,
}

impl Named {
    /// The elements as a body, with these sections before it.
    fn new(elements: &[Vec<u8>], before: Vec<Section>) -> Named {
        let body = document(&elements.concat());
        let mut sections = before;
        let start = 21 + sections.iter().map(|s| s.bytes().len()).sum::<usize>();
        sections.push(Section::Body(body.clone()));
        let mut places = Vec::new();
        let mut at = start + 4;
        for element in elements {
            places.push(at + 1);
            at += element.len();
        }
        Named {
            message: Draft::new(sections).bytes(),
            body,
            places,
        }
    }

    /// Each name with a null.
    fn nulls(names: &Names) -> Named {
        let elements: Vec<Vec<u8>> = names.iter().map(|name| element(0x0A, name, b"")).collect();
        Named::new(&elements, Vec::new())
    }
}

/// The first name that is an earlier one's, by its number.
fn first_again(names: &[Vec<u8>]) -> Option<usize> {
    let mut seen = HashMap::new();
    (0..names.len()).find(|&index| seen.insert(&names[index], index).is_some())
}

/// Reads the names, each with a null: they differ, or this one comes again.
fn check(names: &Names, again: Option<usize>, case: &str) {
    let named = Named::nulls(names);
    assert_eq!(first_again(names), again, "{case}: the case itself");
    let expected = reference::read(&HOUSE, &named.message);
    match (&expected, again) {
        (Ok(view), None) => assert_eq!(view.elements, names.len(), "{case}: elements"),
        (Err(refused), Some(index)) => {
            let place = named.places[index];
            assert_eq!((refused.number, refused.place), (23, place), "{case}");
        }
        _ => panic!("{case}: the independent reader answers {expected:?}"),
    }
    compare_read(&named.message, &expected, case);
}

/// The same with `later` made equal to `earlier`; all others differ.
fn check_pair(names: &Names, earlier: usize, later: usize, case: &str) {
    let mut names = names.clone();
    names[later] = names[earlier].clone();
    let case = format!("{case}, {} names, {earlier} and {later}", names.len());
    check(&names, Some(later), &case);
}

fn result_of<T>(expected: &Result<T, Refused>) -> u64 {
    match expected {
        Ok(_) => 0,
        Err(refused) => u64::from(refused.number) << 32 | refused.place as u64,
    }
}

/// A result as a refusal's number and place.
fn parts(result: u64) -> (u64, u64) {
    (result >> 32, result & 0xFFFF_FFFF)
}

fn compare_read(message: &[u8], expected: &Result<View, Refused>, case: &str) {
    let mut view = [NUMBER; VIEW_NUMBERS];
    let result = ffi::read(HOUSE.bits, 1, message, &mut view);
    assert_eq!(parts(result), parts(result_of(expected)), "{case}: read");
    let shown = match expected {
        Ok(expected) => expected.numbers(),
        Err(_) => [NUMBER; VIEW_NUMBERS],
    };
    assert!(view == shown, "{case}: the view of read");
}

/// A message whose identifiers have dots: all of them are free, or the one of
/// this number leads to a name.
fn check_identifiers(body: &[u8], identifiers: &Names, leading: Option<usize>, case: &str) {
    let message = dotted::with_identifiers(body.to_vec(), identifiers);
    let expected = reference::read(&HOUSE, &message);
    match (&expected, leading) {
        (Ok(view), None) => assert_eq!(view.sequences().len(), identifiers.len(), "{case}"),
        (Err(refused), Some(index)) => {
            let before = identifiers[..index].iter().map(|i| i.len() + 6);
            let place = 21 + body.len() + before.sum::<usize>() + 5;
            assert_eq!((refused.number, refused.place), (24, place), "{case}");
        }
        _ => panic!("{case}: the independent reader answers {expected:?}"),
    }
    compare_read(&message, &expected, case);
    // The last one appended to the others.
    if let Some((last, others)) = identifiers.split_last() {
        let named = Named {
            message: dotted::with_identifiers(body.to_vec(), others),
            body: body.to_vec(),
            places: Vec::new(),
        };
        compare_others(&named, last, case);
    }
}

/// The four calls that write, on the same message and body.
fn compare_others(named: &Named, identifier: &[u8], case: &str) {
    let message = &named.message;
    // Appending adds most.
    let room = message.len() + identifier.len() + 100;
    compare_written(
        room,
        reference::forward(&HOUSE, message, room),
        |output, view| ffi::forward(HOUSE.bits, 1, message, output, view),
        &format!("{case}: forward"),
    );
    compare_written(
        room,
        reference::write(&HOUSE, 7, 0, 1, &named.body, room),
        |output, view| ffi::write(HOUSE.bits, 1, 7, 0, 1, &named.body, output, view),
        &format!("{case}: write"),
    );
    compare_written(
        room,
        reference::append(&HOUSE, message, identifier, &EMPTY, room),
        |output, view| ffi::append(HOUSE.bits, 1, message, identifier, &EMPTY, output, view),
        &format!("{case}: append"),
    );
    compare_written(
        room,
        reference::move_body(&HOUSE, message, 0, room),
        |output, view| ffi::move_body(HOUSE.bits, 1, message, 0, output, view),
        &format!("{case}: move"),
    );
}

fn compare_written(
    room: usize,
    expected: Result<reference::Written, Refused>,
    call: impl Fn(&mut [u8], &mut [i64]) -> u64,
    case: &str,
) {
    let mut output = vec![BYTE; room];
    let mut view = [NUMBER; VIEW_NUMBERS];
    let result = call(&mut output, &mut view);
    assert_eq!(parts(result), parts(result_of(&expected)), "{case}");
    let mut shown = vec![BYTE; room];
    let mut numbers = [NUMBER; VIEW_NUMBERS];
    if let Ok((view, message)) = expected {
        shown[..message.len()].copy_from_slice(&message);
        numbers = view.numbers();
    }
    assert!(output == shown, "{case}: the output");
    assert!(view == numbers, "{case}: the view");
}

// ---------------------------------------------------------------- families

#[test]
fn two_equal_names_around_64() {
    for family in Family::ALL {
        let case = family.words();
        for count in [2, 3, 63, 64, 65, 66, 127, 128, 129, 200] {
            let names = family.names(count);
            check(&names, None, case);
            let mut borders = vec![0, 1, 2, 31, 62, 63, 64, 65, 127, count - 2, count - 1];
            borders.retain(|&border| border < count);
            borders.sort_unstable();
            borders.dedup();
            for (index, &later) in borders.iter().enumerate() {
                for &earlier in &borders[..index] {
                    check_pair(&names, earlier, later, case);
                }
            }
        }
    }
}

#[test]
fn two_equal_names_at_a_distance() {
    for family in Family::ALL {
        let case = family.words();
        for (count, distances) in [(300, &[1, 2, 63, 64, 65][..]), (1_100, &[1_000])] {
            let count = count.min(family.fitting(FAR));
            let names = family.names(count);
            check(&names, None, case);
            let last = count - 1;
            for &distance in distances.iter().filter(|&&distance| distance <= last) {
                check_pair(&names, 0, distance, case);
                check_pair(&names, (last - distance) / 2, (last + distance) / 2, case);
                check_pair(&names, last - distance, last, case);
            }
        }
    }
}

/// Names that are kept in blocks, at the border of two of them.
#[test]
fn two_equal_names_around_a_block() {
    for family in [Family::OneSlot, Family::Falling, Family::Full] {
        let names = family.names(2_100);
        check(&names, None, family.words());
        let borders = [0, 1, 2_046, 2_047, 2_048, 2_049, 2_099];
        for (index, &later) in borders.iter().enumerate() {
            for &earlier in &borders[..index] {
                check_pair(&names, earlier, later, family.words());
            }
        }
        // In both blocks; the first counts.
        let mut several = names.clone();
        several[2_060] = several[2_055].clone();
        several[2_070] = several[3].clone();
        check(&several, Some(2_060), family.words());
    }
}

/// The same in larger blocks, since there are more names.
#[test]
fn two_equal_names_around_a_large_block() {
    for family in [Family::OneSlot, Family::Falling, Family::Full] {
        let case = family.words();
        for count in [32_767, 32_768, 32_769] {
            let names = family.names(count);
            check(&names, None, case);
            check_pair(&names, 0, count - 1, case);
            check_pair(&names, 16_383, 16_384, case);
        }
        let names = family.names(33_000);
        check(&names, None, case);
        let borders = [0, 2_048, 16_383, 16_384, 32_767, 32_768, 32_999];
        for (index, &later) in borders.iter().enumerate() {
            for &earlier in &borders[..index] {
                check_pair(&names, earlier, later, case);
            }
        }
    }
}

/// The last of as many names as a long message has is the first again, or for
/// some families the one before it.
#[test]
fn two_equal_names_among_many() {
    for family in Family::ALL {
        let names = family.names(family.fitting(LONG).min(4_000));
        let last = names.len() - 1;
        check_pair(&names, 0, last, family.words());
        if let Family::Usual | Family::Falling | Family::Full = family {
            check_pair(&names, last - 1, last, family.words());
        }
    }
}

/// Numbers for names, up to just over 4,096 of them, and some more than the
/// library's slots hold.
#[test]
fn two_equal_names_among_numbers() {
    for count in [MANY - 1, MANY, MANY + 1, 8_191, 8_224, 8_225, 10_000] {
        let names: Names = (0..count)
            .map(|index| format!("{index}").into_bytes())
            .collect();
        check(&names, None, "numbers");
        check_pair(&names, 0, count - 1, "numbers");
        check_pair(&names, count - 2, count - 1, "numbers");
        check_pair(&names, count / 2, count / 2 + 1, "numbers");
    }
}

/// More names of each family than slots, those of one slot in a row of blocks.
#[test]
fn two_equal_names_among_more_than_slots() {
    for family in Family::ALL {
        let names = family.names(9_000.min(family.fitting(FAR)));
        let last = names.len() - 1;
        check(&names, None, family.words());
        for (earlier, later) in [(0, last), (last - 1, last), (2_047, 6_144)] {
            if later <= last {
                check_pair(&names, earlier, later, family.words());
            }
        }
    }
}

#[test]
fn of_several_the_first_counts() {
    let plants: [&[(usize, usize)]; 6] = [
        // One inside the other, crossed, and one after the other.
        &[(10, 90), (40, 60)],
        &[(10, 60), (40, 90)],
        &[(10, 40), (60, 90)],
        // A name three times.
        &[(5, 70), (5, 150)],
        // Around the 64th, and right behind each other.
        &[(0, 65), (1, 64), (2, 66)],
        &[(198, 199), (197, 198), (0, 197)],
    ];
    for family in Family::ALL {
        let names = family.names(200);
        for pairs in plants {
            let mut names = names.clone();
            for &(earlier, later) in pairs {
                names[later] = names[earlier].clone();
            }
            let first = pairs.iter().map(|pair| pair.1).min();
            check(&names, first, &format!("{}, {pairs:?}", family.words()));
        }
    }
}

// ------------------------------------------------------------- near misses

#[test]
fn names_that_differ_in_one_byte() {
    let mut random = Random::new(11);
    for length in (1..=24).chain([31, 32, 33, 47, 64, 65, 100]) {
        let base = short_characters(&mut random, length);
        let mut names = vec![base.clone()];
        for place in 0..length {
            for bit in [0x01, 0x10, 0x40] {
                let mut name = base.clone();
                name[place] ^= bit;
                if name[place] != 0 && std::str::from_utf8(&name).is_ok() {
                    names.push(name);
                }
            }
        }
        let case = format!("one byte of {length}");
        check(&names, None, &case);
        let last = names.len();
        names.push(Vec::new());
        for earlier in [0, 1, last / 2, last - 1] {
            check_pair(&names, earlier, last, &case);
        }
    }
}

/// So many bytes of characters with one or two each.
fn short_characters(random: &mut Random, length: usize) -> Vec<u8> {
    let mut text = String::new();
    while text.len() < length {
        let two = length - text.len() >= 2 && random.percent(50);
        let number = if two {
            random.between(0x80, 0x7FF)
        } else {
            random.between(0x01, 0x7F)
        };
        text.push(char::from_u32(number as u32).expect("no surrogate"));
    }
    text.into_bytes()
}

#[test]
fn an_empty_name_may_stand_once() {
    let empty = Vec::new();
    check(&vec![empty.clone()], None, "empty alone");
    check(&vec![empty.clone(); 2], Some(1), "empty twice");
    check(&vec![empty.clone(); 3], Some(1), "empty three times");
    for family in Family::ALL {
        for place in [0, 1, 63, 64, 65, 199] {
            let mut names = family.names(200);
            names[place] = empty.clone();
            let case = format!("{}, empty at {place}", family.words());
            check(&names, None, &case);
            names.push(empty.clone());
            check(&names, Some(200), &case);
        }
    }
}

#[test]
fn names_that_begin_other_names() {
    let mut random = Random::new(5);
    let letters: Vec<char> = (0..150)
        .map(|_| random.between(0x01, 0x7F) as u8 as char)
        .collect();
    let characters: Vec<char> = (0..150).map(|_| any_character(&mut random)).collect();
    for (text, what) in [(letters, "letters"), (characters, "characters")] {
        let name = |part: &[char]| part.iter().collect::<String>().into_bytes();
        let rising: Names = (0..=150).map(|length| name(&text[..length])).collect();
        let falling: Names = rising.iter().rev().cloned().collect();
        // The same for the ends of a text.
        let ends: Names = (0..=150).map(|start| name(&text[start..])).collect();
        for (names, how) in [(rising, "rising"), (falling, "falling"), (ends, "ends")] {
            let case = format!("{what}, {how}");
            check(&names, None, &case);
            for earlier in [0, 1, 3, 4, 5, 63, 64, 100, 149] {
                check_pair(&names, earlier, 150, &case);
            }
        }
    }
}

/// All names of one byte, and some of two and three.
#[test]
fn short_names() {
    let of = |first: u32, last: u32| -> Names {
        (first..=last)
            .map(|number| char::from_u32(number).expect("no surrogate"))
            .map(|character| character.to_string().into_bytes())
            .collect()
    };
    let one = of(0x01, 0x7F);
    let two: Names = one.iter().map(|name| [name, &[1][..]].concat()).collect();
    let characters = [of(0x80, 0x17F), of(0x800, 0x8FF), of(0xFF00, 0xFFFF)].concat();
    let mut names = [one, two, characters].concat();
    check(&names, None, "short");
    let last = names.len();
    names.push(Vec::new());
    for earlier in (0..last).step_by(7) {
        check_pair(&names, earlier, last, "short");
    }
}

/// Names inside a value are not names at the top.
#[test]
fn names_at_other_levels_do_not_count() {
    for family in Family::ALL {
        let names = family.names(70);
        let mut elements = Vec::new();
        for (index, name) in names.iter().enumerate() {
            let inner = document(&element(0x0A, &names[69 - index], b"").repeat(2));
            let kind = [0x03, 0x04, 0x0F][index % 3];
            elements.push(element(kind, name, &holder(kind, &inner)));
        }
        let case = format!("{}, names inside", family.words());
        let named = Named::new(&elements, Vec::new());
        let expected = reference::read(&HOUSE, &named.message);
        assert!(expected.is_ok(), "{case}");
        compare_read(&named.message, &expected, &case);

        elements.push(elements[69].clone());
        let named = Named::new(&elements, Vec::new());
        let expected = reference::read(&HOUSE, &named.message);
        let place = named.places[70];
        assert_eq!(expected, Err(Refused::new(23, place)), "{case}");
        compare_read(&named.message, &expected, &case);
    }
}

// ------------------------------------------------------------ random cases

#[test]
fn random_bodies() {
    let seed = setting("RELAY_SEED", 1);
    let first = setting("RELAY_FIRST", 0);
    let cases = setting("RELAY_CASES", 1_000);
    let mut refused = 0;
    for case in first..first + cases {
        let random = &mut Random::for_case(seed ^ 0x23, case);
        refused += u64::from(random_body(random, &format!("seed {seed}, case {case}")));
    }
    let accepted = cases - refused;
    assert!(
        cases < 100 || refused.min(accepted) > cases / 5,
        "{refused} of {cases} cases have a name twice"
    );
}

/// One body; tells whether it has a name twice.
fn random_body(random: &mut Random, case: &str) -> bool {
    let count = match random.below(100) {
        0 => random.between(1_000, 4_000),
        1..=6 => random.between(200, 1_100),
        7..=39 => random.between(60, 200),
        _ => random.between(1, 70),
    };
    let mut names = any_names(random, count);
    for _ in 0..random.pick(&[0, 0, 0, 1, 1, 2, 5]) {
        let (from, to) = (random.below(names.len()), random.below(names.len()));
        names[to] = names[from].clone();
    }
    let before = any_sections_before(random, &names);
    let small = count <= 200;
    let elements = any_elements(random, &mut names, small);
    let again = first_again(&names);

    let named = Named::new(&elements, before);
    let expected = reference::read(&HOUSE, &named.message);
    let refused = expected.as_ref().err().copied();
    match again {
        Some(index) => {
            let place = named.places[index];
            assert_eq!(refused, Some(Refused::new(23, place)), "{case}");
        }
        // A sequence may have one of the names.
        None => assert!(refused.is_none_or(|r| r.number == 24), "{case}"),
    }
    compare_read(&named.message, &expected, case);
    if small {
        let identifier = any_identifier(random, &names);
        compare_others(&named, &identifier, case);
    }
    again.is_some()
}

/// Names of a family in any order, or random ones.
fn any_names(random: &mut Random, count: usize) -> Names {
    match random.below(10) {
        0..=5 => {
            let family = random.pick(&Family::ALL);
            let mut names = family.names(count.min(family.fitting(LONG)));
            match random.below(3) {
                0 => names.reverse(),
                1 => shuffle(random, &mut names),
                _ => {}
            }
            names
        }
        // A common start, and a number that makes them different.
        6..=7 => {
            let length = random.below(8);
            let text = any_text(random, length);
            (0..count)
                .map(|index| [&text, format!("{index}").as_bytes()].concat())
                .collect()
        }
        // One character of a text changed, at times to what it was.
        8 => {
            let length = random.between(1, 20);
            let text: Vec<char> = (0..length).map(|_| any_character(random)).collect();
            (0..count.min(300))
                .map(|_| {
                    let mut name = text.clone();
                    name[random.below(length)] = any_character(random);
                    name.into_iter().collect::<String>().into_bytes()
                })
                .collect()
        }
        _ => {
            let longest = random.between(1, 12);
            (0..count)
                .map(|_| {
                    let length = random.between(longest.min(4), longest.max(4));
                    any_text(random, length)
                })
                .collect()
        }
    }
}

fn shuffle(random: &mut Random, names: &mut Names) {
    for index in (1..names.len()).rev() {
        names.swap(index, random.below(index + 1));
    }
}

/// An element for each name: of any type where they are few, else a null.
/// Names for which there is no room are left out.
fn any_elements(random: &mut Random, names: &mut Names, any_type: bool) -> Vec<Vec<u8>> {
    let style = Style {
        depth: 2,
        ..Style::SMALL
    };
    let mixed = any_type && random.percent(50);
    let mut left = LONG - 200;
    let mut elements = Vec::new();
    for name in names.iter() {
        let element = if mixed {
            any_element(random, style, name)
        } else {
            element(0x0A, name, b"")
        };
        if left < element.len() {
            break;
        }
        left -= element.len();
        elements.push(element);
    }
    names.truncate(elements.len());
    elements
}

/// No section before the body, or a sequence.
fn any_sections_before(random: &mut Random, names: &Names) -> Vec<Section> {
    if random.percent(70) {
        return Vec::new();
    }
    let mut identifier = any_identifier(random, names);
    if identifier.len() > 80 {
        identifier = b"+long".to_vec();
    }
    vec![Section::Sequence {
        identifier,
        documents: EMPTY.to_vec(),
    }]
}

/// An identifier, at times one of the names.
fn any_identifier(random: &mut Random, names: &Names) -> Vec<u8> {
    let name = &names[random.below(names.len())];
    if random.percent(50) && !name.is_empty() {
        name.clone()
    } else {
        b"+documents".to_vec()
    }
}

// ----------------------------------------------- identifiers that cost much

/// Sixteen identifiers, each of which is followed through all of the body.
#[test]
fn sixteen_identifiers_through_long_bodies() {
    let counts = dotted::LENGTHS.map(dotted::fitting_points);
    for count in [0, 1].into_iter().chain(counts) {
        let case = format!("{count} points");
        let mut body = dotted::points(count);
        let mut identifiers = dotted::in_vain('.');
        check_identifiers(&body, &identifiers, None, &case);

        // The last name of the last document, by each of them in turn.
        let Some(place) = last_place(&body, b"measured_8") else {
            continue;
        };
        body[place..place + 10].copy_from_slice(b"measured_9");
        for index in [0, 7, 15] {
            let vain = identifiers[index].clone();
            identifiers[index] = b"run.points.measured_9".to_vec();
            check_identifiers(&body, &identifiers, Some(index), &case);
            identifiers[index] = vain;
        }
    }
}

fn last_place(bytes: &[u8], part: &[u8]) -> Option<usize> {
    bytes.windows(part.len()).rposition(|bytes| bytes == part)
}

/// A last name that is longer than all names of the body, and is looked for in
/// every document of one name.
#[test]
fn a_long_last_name_in_many_documents() {
    for count in [0, 1, 10, 100, 1_000, 2_000] {
        let body = dotted::many_documents(count);
        for length in [1, 2, 200, 20_000] {
            let case = format!("{length} bytes in {count} documents");
            let identifiers = vec![dotted::with_long_name(length)];
            let leading = (length == 1 && count > 0).then_some(0);
            check_identifiers(&body, &identifiers, leading, &case);
        }
        // Sixteen that are a part of it each.
        let identifiers = (0..16)
            .map(|index| dotted::with_long_name(1_000 + index))
            .collect();
        let case = format!("16 long names in {count} documents");
        check_identifiers(&body, &identifiers, None, &case);
    }
    // The same name in the last document, or another by a byte.
    let few = dotted::many_documents(500);
    let long = vec![b'n'; 20_000];
    let mut changed = long.clone();
    changed[19_999] = b'm';
    for (name, leading) in [
        (&long, Some(0)),
        (&changed, None),
        (&long[1..].to_vec(), None),
    ] {
        let last = element(0x03, b"a", &document(&element(0x0A, name, b"")));
        // The elements of `r` stand behind its own length.
        let inside = [&few[11..few.len() - 2], &last].concat();
        let body = document(&element(0x03, b"r", &document(&inside)));
        let identifiers = vec![dotted::with_long_name(20_000)];
        check_identifiers(&body, &identifiers, leading, "a long name inside");
    }
}

/// Far more names than a body has levels.
#[test]
fn thousands_of_dots_beside_nested_empty_names() {
    for levels in [2, 3, 7, 13] {
        let body = dotted::unnamed_tree(levels);
        for dots in (1..40).chain([100, 5_000, 20_000]) {
            let case = format!("{dots} dots, {levels} levels");
            let leading = (dots + 1 < levels).then_some(0);
            check_identifiers(&body, &vec![b".".repeat(dots)], leading, &case);
        }
        // To the innermost names of all, and in vain.
        let identifiers: Names = (0..16)
            .map(|index| [b".".repeat(levels - 1), vec![b'a' + index]].concat())
            .collect();
        let case = format!("16 identifiers of dots, {levels} levels");
        check_identifiers(&body, &identifiers, None, &case);
    }
    // Many empty names beside each other.
    let body = document(&element(
        0x03,
        b"",
        &document(&element(0x03, b"", &EMPTY).repeat(4_000)),
    ));
    for (dots, leading) in [(1, Some(0)), (2, None), (10_000, None)] {
        let case = format!("{dots} dots, 4,000 names");
        check_identifiers(&body, &vec![b".".repeat(dots)], leading, &case);
    }
}
