//! What document 00 demands of the calls together, run on random messages:
//! the round trip, and what two editions make of one message. With it, what
//! change request 5 says of moved bodies, which the round trip needs where the
//! body is not first, change request 2 of identifiers with dots, and change
//! request 13 of any chain of relays.
//!
//! RELAY_CASES sets the number of messages (20,000 if not set), RELAY_SEED the
//! seed.

mod common;

use common::bson::{element, nulls};
use common::dotted::dotted_identifier;
use common::generate::*;
use common::message::{get_u32, Draft};
use common::random::Random;
use common::{message, reference, setting};
use relay::{append, forward, move_body, read, write, Edition, Refusal, Section, View};
use relay::{MAX_LENGTH, MAX_SECTIONS, MAX_SEQUENCES};
use std::cell::Cell;
use std::collections::BTreeSet;

fn cases() -> u64 {
    setting("RELAY_CASES", 20_000)
}

/// Runs a property on random numbers; it answers whether the case took part.
/// At least one case in `one_in` must.
fn for_cases(one_in: u64, property: impl Fn(&mut Random) -> bool) {
    let seed = setting("RELAY_SEED", 1);
    let cases = cases();
    let mut took_part = 0;
    for case in 0..cases {
        let mut random = Random::for_case(seed ^ 0x5EED, case);
        took_part += u64::from(property(&mut random));
    }
    assert!(
        took_part >= cases / one_in,
        "only {took_part} of {cases} cases took part"
    );
}

fn count(seen: &Cell<u64>) {
    seen.set(seen.get() + 1);
}

fn any_relay(random: &mut Random) -> Edition {
    let edition = any_edition(random);
    Edition {
        bits: edition.bits,
        sequences: edition.sequences,
    }
}

/// The same edition for the independent reader.
fn as_reference(edition: &Edition) -> reference::Edition {
    reference::Edition {
        bits: edition.bits,
        sequences: edition.sequences,
    }
}

/// An edition that knows some of what the other knows.
fn older_than(random: &mut Random, newer: &Edition) -> Edition {
    let bits = match random.below(4) {
        0 => newer.bits,
        1 => newer.bits & random.next() as u32,
        2 => newer.bits & !(1 << random.below(32)),
        _ => newer.bits & (0xFFFF | random.next() as u32),
    };
    Edition {
        bits,
        sequences: newer.sequences && random.percent(80),
    }
}

/// A message for this edition, mostly accepted, at times with bytes after it.
fn any_message(random: &mut Random, edition: &Edition) -> Vec<u8> {
    let mut message = any_draft(random, &as_reference(edition)).bytes();
    if random.percent(20) {
        message.extend(random.bytes(9));
    }
    message
}

/// What a relay forwards, with the view it shows.
fn forwarded(edition: &Edition, message: &[u8]) -> (View, Vec<u8>) {
    let mut output = vec![0xAA; message.len() + 100];
    let view = forward(edition, message, &mut output).expect("accepted, with room");
    output.truncate(view.length);
    (view, output)
}

/// What a relay makes of a message with its body behind so many sequences.
fn moved(edition: &Edition, message: &[u8], behind: u32) -> (View, Vec<u8>) {
    let mut output = vec![0x55; message.len() + 100];
    let view = move_body(edition, message, behind, &mut output).expect("accepted, with room");
    output.truncate(view.length);
    (view, output)
}

/// A place that the body of such a message can have.
fn any_place(random: &mut Random, view: &View) -> u32 {
    random.below(view.sections().len()) as u32
}

// -------------------------------------------------------------- round trip

/// The message written from the view's body, and appended to with the view's
/// sequences in order.
fn rebuilt(edition: &Edition, view: &View, message: &[u8]) -> (View, Vec<u8>) {
    let mut built = vec![0xAA; message.len()];
    let mut last = write(
        edition,
        view.request_id,
        view.response_to,
        view.flags,
        &message[view.body()],
        &mut built,
    )
    .expect("written");
    for sequence in view.sequences() {
        let mut longer = vec![0x55; message.len()];
        last = append(
            edition,
            &built[..last.length],
            &message[sequence.identifier],
            &message[sequence.documents],
            &mut longer,
        )
        .expect("appended");
        built = longer;
    }
    built.truncate(last.length);
    (last, built)
}

#[test]
fn writing_from_a_view_gives_the_message_again() {
    for_cases(4, |random| {
        let edition = any_relay(random);
        let message = any_message(random, &edition);
        let Ok(view) = read(&edition, &message) else {
            return false;
        };
        if view.body().start != 21 || get_u32(&message, 16) & !edition.bits != 0 {
            return false;
        }
        let (last, built) = rebuilt(&edition, &view, &message);
        assert_eq!(last, view);
        assert!(built == message[..view.length]);
        true
    });
}

#[test]
fn writing_and_moving_gives_every_message_again() {
    let places = [const { Cell::new(0) }; MAX_SECTIONS];
    for_cases(3, |random| {
        let edition = any_relay(random);
        let message = any_message(random, &edition);
        let Ok(view) = read(&edition, &message) else {
            return false;
        };
        if get_u32(&message, 16) & !edition.bits != 0 {
            return false;
        }
        let (_, built) = rebuilt(&edition, &view, &message);
        let (last, built) = moved(&edition, &built, view.behind());
        assert_eq!(last, view);
        assert!(built == message[..view.length]);
        count(&places[view.behind() as usize]);
        true
    });
    for (behind, places) in places.iter().enumerate() {
        assert!(places.get() >= cases() / 2_000, "behind {behind}");
    }
}

// ------------------------------------------------------------------- moves

#[test]
fn moving_to_where_the_body_stands_is_forwarding() {
    for_cases(2, |random| {
        let edition = any_relay(random);
        let message = any_message(random, &edition);
        let Ok(view) = read(&edition, &message) else {
            return false;
        };
        assert!(moved(&edition, &message, view.behind()) == forwarded(&edition, &message));
        true
    });
}

#[test]
fn moving_twice_is_moving_once() {
    for_cases(4, |random| {
        let edition = any_relay(random);
        let message = any_message(random, &edition);
        let Ok(view) = read(&edition, &message) else {
            return false;
        };
        let (first, second) = (any_place(random, &view), any_place(random, &view));
        let (_, output) = moved(&edition, &message, first);
        assert!(moved(&edition, &output, second) == moved(&edition, &message, second));
        // Forwarding first is moving too.
        let (_, output) = forwarded(&edition, &message);
        assert!(moved(&edition, &output, second) == moved(&edition, &message, second));
        first != view.behind() && second != first
    });
}

#[test]
fn moving_back_gives_what_forwarding_gives() {
    for_cases(4, |random| {
        let edition = any_relay(random);
        let message = any_message(random, &edition);
        let Ok(view) = read(&edition, &message) else {
            return false;
        };
        let away = any_place(random, &view);
        let (_, output) = moved(&edition, &message, away);
        assert!(moved(&edition, &output, view.behind()) == forwarded(&edition, &message));
        away != view.behind()
    });
}

/// A section as a view shows it: its own bytes from the kind byte on, and what
/// stands at the places that are shown.
#[derive(Debug, PartialEq)]
struct Shown<'a> {
    own: &'a [u8],
    identifier: Option<&'a [u8]>,
    documents: &'a [u8],
    count: usize,
}

/// The sections of a message, which fill it from the flag word to the end.
fn shown<'a>(view: &View, message: &'a [u8]) -> Vec<Shown<'a>> {
    let mut at = 20;
    let mut all = Vec::new();
    for section in view.sections() {
        let (end, section) = match section {
            Section::Body(document) => {
                assert_eq!((document.start, message[at]), (at + 1, 0));
                let shown = Shown {
                    own: &message[at..document.end],
                    identifier: None,
                    documents: &message[document.clone()],
                    count: 1,
                };
                (document.end, shown)
            }
            Section::Sequence(sequence) => {
                assert_eq!((sequence.identifier.start, message[at]), (at + 5, 1));
                let end = sequence.documents.end;
                let shown = Shown {
                    own: &message[at..end],
                    identifier: Some(&message[sequence.identifier]),
                    documents: &message[sequence.documents],
                    count: sequence.count,
                };
                (end, shown)
            }
        };
        all.push(section);
        at = end;
    }
    assert_eq!(at, view.length - 4 * (view.flags & 1) as usize);
    all
}

#[test]
fn moving_shows_the_same_sections_in_the_new_order() {
    let checksums = Cell::new(0);
    for_cases(4, |random| {
        let edition = any_relay(random);
        let message = any_message(random, &edition);
        let Ok(view) = read(&edition, &message) else {
            return false;
        };
        let behind = any_place(random, &view);
        let (new, output) = moved(&edition, &message, behind);
        assert_eq!(read(&edition, &output), Ok(new));
        assert_eq!(new.behind(), behind);
        let head = |view: &View| {
            let ids = (view.request_id, view.response_to);
            (view.length, ids, view.flags, view.elements)
        };
        assert_eq!(head(&new), head(&view));
        assert!(output[..16] == message[..16]);
        assert_eq!(get_u32(&output, 16), view.flags);

        let mut expected = shown(&view, &message);
        let body = expected.remove(view.behind() as usize);
        assert_eq!(body.identifier, None);
        expected.insert(behind as usize, body);
        assert_eq!(shown(&new, &output), expected);
        if view.flags & 1 == 1 {
            let end = view.length - 4;
            assert_eq!(get_u32(&output, end), reference::crc32c(&output[..end]));
            count(&checksums);
        }
        behind != view.behind()
    });
    assert!(checksums.get() >= cases() / 10);
}

#[test]
fn a_number_too_far_is_refused() {
    for_cases(2, |random| {
        let edition = any_relay(random);
        let message = any_message(random, &edition);
        let Ok(view) = read(&edition, &message) else {
            return false;
        };
        let most = view.sequences().len() as u32;
        let behind = match random.below(3) {
            0 => most + 1,
            1 => most + random.between(1, 300) as u32,
            _ => (random.next() as u32).max(most + 1),
        };
        let room = random.pick(&[0, view.length - 1, view.length, view.length + 9]);
        let mut output = vec![0xAA; room];
        let answer = move_body(&edition, &message, behind, &mut output);
        assert_eq!(answer, Err(Refusal::MoveTooFar(0)));
        assert!(output.iter().all(|&byte| byte == 0xAA));
        true
    });
}

/// The message with its body behind so many of these sequences.
fn with_body_behind(sequences: &[message::Section], behind: usize, flags: u32) -> Vec<u8> {
    let body = element(0x02, b"insert", b"\x05\0\0\0runs\0");
    let mut draft = Draft::new(sequences.to_vec());
    draft.sections.insert(
        behind,
        message::Section::Body(common::bson::document(&body)),
    );
    draft.flags = flags;
    draft.bytes()
}

#[test]
fn every_place_among_up_to_16_sequences_to_every_other() {
    // No two sections have the same length.
    let all: Vec<message::Section> = (0..MAX_SEQUENCES)
        .map(|index| message::Section::Sequence {
            identifier: format!("s{index}").into_bytes(),
            documents: (0..index).flat_map(nulls).collect(),
        })
        .collect();
    // The house edition does not know bits 17 and 31.
    for flags in [0, 1, 2 | 1 << 17, 1 | 1 << 16 | 1 << 31] {
        for number in 0..=MAX_SEQUENCES {
            let known = flags & Edition::HOUSE.bits;
            let at = |behind, flags| with_body_behind(&all[..number], behind, flags);
            let expected: Vec<(View, Vec<u8>)> = (0..=number)
                .map(|behind| {
                    let message = at(behind, known);
                    let view = read(&Edition::HOUSE, &message).expect("accepted");
                    assert_eq!(view.behind() as usize, behind);
                    assert_eq!(view.sequences().len(), number);
                    (view, message)
                })
                .collect();
            for from in 0..=number {
                let message = at(from, flags);
                for (to, expected) in expected.iter().enumerate() {
                    let moved = moved(&Edition::HOUSE, &message, to as u32);
                    assert!(moved == *expected, "{from} to {to} of {number}, {flags:#x}");
                }
                let too_far = move_body(&Edition::HOUSE, &message, number as u32 + 1, &mut []);
                assert_eq!(too_far, Err(Refusal::MoveTooFar(0)));
            }
        }
    }
}

// ------------------------------------------------------------------- paths

/// Adds the ways by name from these elements on: to each of them, and through
/// the documents among them, with dots between the names. A name that holds a
/// dot is on no way, so that two ways never read the same.
fn add_ways(
    bytes: &[u8],
    elements: &[reference::Element],
    before: &[u8],
    ways: &mut BTreeSet<Vec<u8>>,
) {
    for element in elements {
        let name = &bytes[element.name.clone()];
        if name.contains(&b'.') {
            continue;
        }
        let way = [before, name].concat();
        if element.kind == 0x03 {
            let onwards = [&way[..], b"."].concat();
            add_ways(bytes, &element.inside, &onwards, ways);
        }
        ways.insert(way);
    }
}

/// A message that can be appended to, what stands in its body, and the place
/// that a new identifier would have.
struct Open {
    message: Vec<u8>,
    body: Vec<reference::Element>,
    ways: BTreeSet<Vec<u8>>,
    place: usize,
}

impl Open {
    fn any(random: &mut Random, edition: &Edition) -> Option<Open> {
        let message = any_message(random, edition);
        let view = read(edition, &message).ok()?;
        if !edition.sequences || view.sequences().len() == MAX_SEQUENCES {
            return None;
        }
        let (_, body) = reference::read_before_24(&as_reference(edition), &message).ok()?;
        let mut ways = BTreeSet::new();
        add_ways(&message, &body, b"", &mut ways);
        let end = view.length - 4 * (view.flags & 1) as usize;
        Some(Open {
            message,
            body,
            ways,
            place: end + 5,
        })
    }

    /// Whether there is room for a sequence of no documents.
    fn has_room(&self, identifier: &[u8]) -> bool {
        get_u32(&self.message, 0) as usize + 6 + identifier.len() <= MAX_LENGTH
    }

    fn append(&self, edition: &Edition, identifier: &[u8]) -> Result<View, Refusal> {
        let mut output = vec![0; self.message.len() + 6 + identifier.len()];
        append(edition, &self.message, identifier, b"", &mut output)
    }
}

#[test]
fn a_way_through_the_body_s_documents_is_a_clash() {
    let long = Cell::new(0);
    for_cases(10, |random| {
        let edition = any_relay(random);
        let Some(open) = Open::any(random, &edition) else {
            return false;
        };
        let ways = open.ways.iter().filter(|way| way.contains(&b'.'));
        let ways: Vec<&Vec<u8>> = ways.filter(|way| open.has_room(way)).collect();
        let clash = Err(Refusal::IdentifierClash(open.place));
        for _ in 0..ways.len().min(5) {
            let way = random.pick(&ways);
            assert_eq!(open.append(&edition, way), clash, "{}", way.escape_ascii());
            if way.iter().filter(|&&byte| byte == b'.').count() > 1 {
                count(&long);
            }
        }
        !ways.is_empty()
    });
    assert!(long.get() >= cases() / 10);
}

#[test]
fn an_identifier_with_dots_clashes_with_nothing_else() {
    let [clashes, accepted] = [const { Cell::new(0) }; 2];
    for_cases(3, |random| {
        let edition = any_relay(random);
        let Some(open) = Open::any(random, &edition) else {
            return false;
        };
        let wanted = random.percent(20);
        let Some(new) = dotted_identifier(random, &open.message, &open.body, wanted) else {
            return false;
        };
        if !open.has_room(&new) {
            return false;
        }
        let view = read(&edition, &open.message).expect("accepted");
        let mut identifiers = view.sequences().map(|s| &open.message[s.identifier]);
        let mut names = open.body.iter().map(|e| &open.message[e.name.clone()]);
        let taken = open.ways.contains(&new)
            || identifiers.any(|identifier| identifier == new)
            || names.any(|name| name == new);
        let answer = open.append(&edition, &new).map(|_| ());
        if taken {
            assert_eq!(answer, Err(Refusal::IdentifierClash(open.place)));
            count(&clashes);
        } else {
            assert_eq!(answer, Ok(()), "{}", new.escape_ascii());
            count(&accepted);
        }
        true
    });
    assert!(clashes.get() >= cases() / 50);
    assert!(accepted.get() >= cases() / 5);
}

#[test]
fn a_clash_stays_wherever_the_body_stands() {
    let clashes = Cell::new(0);
    for_cases(4, |random| {
        let edition = any_relay(random);
        let mut draft = any_draft(random, &as_reference(&edition));
        if random.percent(60) {
            path_clash(random, &mut draft);
        }
        let place = draft
            .sections
            .iter()
            .position(|section| matches!(section, message::Section::Body(_)))
            .expect("a body");
        let body = draft.sections.remove(place);
        // The places of the identifiers, and the answer, for each place of the body.
        let answers: Vec<_> = (0..=draft.sections.len())
            .map(|place| {
                let mut draft = draft.clone();
                draft.sections.insert(place, body.clone());
                let mut at = 20;
                let mut places = Vec::new();
                for section in &draft.sections {
                    if let message::Section::Sequence { .. } = section {
                        places.push(at + 5);
                    }
                    at += section.bytes().len();
                }
                let bytes = draft.bytes();
                let answer = read(&edition, &bytes);
                let forwarded = forward(&edition, &bytes, &mut vec![0; bytes.len()]);
                assert_eq!(forwarded, answer);
                (places, answer)
            })
            .collect();
        let which = |(places, answer): &(Vec<usize>, Result<View, Refusal>)| match answer {
            Ok(_) => None,
            Err(Refusal::IdentifierClash(at)) => places.iter().position(|place| place == at),
            Err(refusal) => panic!("{refusal}"),
        };
        match answers[0].1 {
            Ok(_) => assert!(answers.iter().all(|(_, answer)| answer.is_ok())),
            Err(Refusal::IdentifierClash(_)) => {
                let first = which(&answers[0]);
                assert!(first.is_some());
                assert!(answers.iter().all(|answer| which(answer) == first));
                count(&clashes);
            }
            Err(_) => return false,
        }
        answers.len() > 1
    });
    assert!(clashes.get() >= cases() / 10);
}

// ---------------------------------------------------------------- editions

#[test]
fn forwarding_shows_what_reading_shows() {
    for_cases(2, |random| {
        let edition = any_relay(random);
        let message = any_message(random, &edition);
        let Ok(view) = read(&edition, &message) else {
            return false;
        };
        let (shown, output) = forwarded(&edition, &message);
        assert_eq!(shown, view);
        assert_eq!(read(&edition, &output), Ok(view));
        true
    });
}

#[test]
fn an_older_edition_accepts_just_what_it_knows() {
    let refused_8 = Cell::new(0);
    let refused_10 = Cell::new(0);
    for_cases(2, |random| {
        let newer = any_relay(random);
        let older = older_than(random, &newer);
        assert!(newer.is_newer_than(&older));
        let message = any_message(random, &newer);
        let Ok(shown) = read(&newer, &message) else {
            return false;
        };
        let answer = read(&older, &message);
        let required = get_u32(&message, 16) & 0xFFFF;
        if required & !older.bits != 0 {
            assert_eq!(answer, Err(Refusal::UnknownFlag(16)));
            count(&refused_8);
        } else if let (false, Some(first)) = (older.sequences, shown.sequences().next()) {
            let kind = first.identifier.start - 5;
            assert_eq!(answer, Err(Refusal::UnknownKind(kind)));
            count(&refused_10);
        } else {
            let mut expected = shown;
            expected.flags &= older.bits;
            assert_eq!(answer, Ok(expected));
        }
        true
    });
    assert!(refused_8.get() >= cases() / 100);
    assert!(refused_10.get() >= cases() / 100);
}

#[test]
fn a_newer_edition_accepts_what_an_older_one_forwards() {
    for_cases(4, |random| {
        let newer = any_relay(random);
        let older = older_than(random, &newer);
        // Messages for either: the newer may not accept the message itself.
        let maker = random.pick(&[newer, older]);
        let message = any_message(random, &maker);
        let Ok(shown) = read(&older, &message) else {
            return false;
        };
        let (_, output) = forwarded(&older, &message);
        assert_eq!(read(&newer, &output), Ok(shown));
        true
    });
}

#[test]
fn two_relays_forward_the_same_in_either_order() {
    for_cases(4, |random| {
        let one = any_relay(random);
        let two = if random.percent(50) {
            any_relay(random)
        } else {
            older_than(random, &one)
        };
        let message = any_message(random, &one);
        if read(&one, &message).is_err() || read(&two, &message).is_err() {
            return false;
        }
        let (_, after_one) = forwarded(&one, &message);
        let (_, after_two) = forwarded(&two, &message);
        let (_, one_then_two) = forwarded(&two, &after_one);
        let (_, two_then_one) = forwarded(&one, &after_two);
        assert!(one_then_two == two_then_one);
        true
    });
}

/// One to six relays, most of which differ in optional bits alone, and a
/// message for one of them.
fn any_chain(random: &mut Random) -> (Vec<Edition>, Vec<u8>) {
    let about = any_relay(random);
    let count = random.between(1, 6);
    let chain: Vec<Edition> = (0..count)
        .map(|_| match random.below(12) {
            0 => any_relay(random),
            1 => older_than(random, &about),
            2..=4 => about,
            _ => Edition {
                bits: about.bits & 0xFFFF | (random.next() as u32 | random.next() as u32) & !0xFFFF,
                sequences: about.sequences || random.percent(30),
            },
        })
        .collect();
    let maker = random.pick(&chain);
    let message = any_message(random, &maker);
    (chain, message)
}

/// The bytes after the last relay, each with an output of its own, often with
/// no byte to spare; or which relay refuses what it gets, and how.
fn through(
    random: &mut Random,
    chain: &[Edition],
    message: &[u8],
) -> Result<Vec<u8>, (usize, Refusal)> {
    let mut bytes = message.to_vec();
    for (index, edition) in chain.iter().enumerate() {
        let spare = random.pick(&[0, 0, 1, 100]);
        let length = get_u32(&bytes, 0) as usize + spare;
        let mut output = vec![random.byte(); length];
        match forward(edition, &bytes, &mut output) {
            Ok(view) => output.truncate(view.length),
            Err(refusal) => return Err((index, refusal)),
        }
        bytes = output;
    }
    Ok(bytes)
}

#[test]
fn a_chain_forwards_what_one_relay_does() {
    let chains = [const { Cell::new(0) }; 7];
    let cleared_later = Cell::new(0);
    let sealed_anew = Cell::new(0);
    for_cases(4, |random| {
        let (chain, message) = any_chain(random);
        if chain.iter().any(|edition| read(edition, &message).is_err()) {
            return false;
        }
        let last = through(random, &chain, &message).expect("all accept the message");
        let one = Edition {
            bits: chain.iter().fold(!0, |bits, edition| bits & edition.bits),
            sequences: chain.iter().all(|edition| edition.sequences),
        };
        assert!(last == forwarded(&one, &message).1);
        let (_, expected) = reference::forward(&as_reference(&one), &message, MAX_LENGTH)
            .expect("accepted, with room");
        assert!(last == expected);
        let reversed: Vec<Edition> = chain.iter().rev().copied().collect();
        assert!(through(random, &reversed, &message) == Ok(last));

        count(&chains[chain.len()]);
        let flags = get_u32(&message, 16);
        if flags & chain[0].bits & !one.bits != 0 {
            count(&cleared_later);
            if flags & 1 != 0 {
                count(&sealed_anew);
            }
        }
        true
    });
    for (length, chains) in chains.iter().enumerate().skip(1) {
        assert!(chains.get() >= cases() / 30, "chains of {length}");
    }
    assert!(cleared_later.get() >= cases() / 20);
    assert!(sealed_anew.get() >= cases() / 100);
}

#[test]
fn a_chain_refuses_at_the_first_relay_that_refuses_the_message() {
    for_cases(50, |random| {
        let (chain, message) = any_chain(random);
        let refusing = chain
            .iter()
            .enumerate()
            .find_map(|(index, edition)| Some((index, read(edition, &message).err()?)));
        assert_eq!(through(random, &chain, &message).err(), refusing);
        refusing.is_some_and(|(index, _)| index > 0)
    });
}

#[test]
fn what_the_output_held_has_no_part_in_the_message() {
    for_cases(2, |random| {
        let edition = any_relay(random);
        let message = any_message(random, &edition);
        let behind = any_behind(random, &as_reference(&edition), &message);
        let room = message.len() + 100;
        same_over_all(room, |output| move_body(&edition, &message, behind, output));
        same_over_all(room, |output| forward(&edition, &message, output))
    });
}

/// A call writes the same over zeros and over ones, and its message alone;
/// answers whether it writes any.
fn same_over_all(room: usize, call: impl Fn(&mut [u8]) -> Result<View, Refusal>) -> bool {
    let mut zeros = vec![0x00; room];
    let mut ones = vec![0xFF; room];
    let first = call(&mut zeros);
    let second = call(&mut ones);
    assert_eq!(first, second);
    let written = first.map_or(0, |view| view.length);
    assert!(zeros[..written] == ones[..written]);
    assert!(zeros[written..].iter().all(|&byte| byte == 0x00));
    assert!(ones[written..].iter().all(|&byte| byte == 0xFF));
    first.is_ok()
}
