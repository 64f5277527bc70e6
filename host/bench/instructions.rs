//! Makes one call again and again, for a count of its instructions by
//! `bench/instructions.sh`:
//!
//! ```text
//! instructions <call> <message> <calls>
//! ```
//!
//! The calls:
//!
//! - `read` and `forward`;
//! - `cleared` forwards the message with a checksum and with a flag bit that
//!   the house edition clears;
//! - `move` moves the body behind all sequences;
//! - `bare` reads the message without its checksum;
//! - `undotted` reads the message with other bytes for the dots in its
//!   identifiers, so that none is followed into the body;
//! - `copy` copies the message, and looks at nothing in it.
//!
//! Without arguments it lists the messages with their lengths, and says which
//! have a checksum, which have identifiers with dots, those with the lengths of
//! their bodies, and which have as many identifiers without dots.

#[path = "../tests/common/mod.rs"]
mod common;
#[allow(dead_code)]
mod mix;

use common::bson::{document, element};
use common::dotted;
use common::message::{get_u32, with_flags};
use common::names::{message_of, Family};
use common::reference::MAX_SEQUENCES;
use relay::{ffi, Edition, VIEW_NUMBERS};
use std::env;
use std::hint::black_box;
use std::iter::once;
use std::process::ExitCode;

const HOUSE: Edition = Edition::HOUSE;

fn main() -> ExitCode {
    let arguments: Vec<String> = env::args().skip(1).collect();
    let done = match &arguments[..] {
        [] => {
            list();
            Some(())
        }
        [call, name, calls] => run(call, name, calls),
        _ => None,
    };
    if done.is_none() {
        eprintln!(
            "instructions <read, forward, cleared, move, bare, undotted or copy> <message> <calls>"
        );
        return ExitCode::FAILURE;
    }
    ExitCode::SUCCESS
}

struct Message {
    name: String,
    bytes: Vec<u8>,
    /// How many sequences it has, all behind its body.
    sequences: u32,
}

/// The messages of the benchmark, the smaller insert with a checksum, three
/// with usual names, those with 16 identifiers that are followed in vain
/// through bodies of all lengths, and small ones with 16 that have no dots.
fn messages() -> Vec<Message> {
    let mut messages: Vec<Message> = mix::mix()
        .into_iter()
        .chain(mix::texts())
        .map(|item| Message {
            name: item.name.replace(' ', "-"),
            bytes: item.message,
            sequences: item.behind,
        })
        .collect();
    let insert = messages.iter().find(|message| message.name == "insert");
    let insert = insert.expect("among the messages");
    messages.push(Message {
        name: "sealed-insert".to_string(),
        bytes: with_flags(&insert.bytes, 1),
        sequences: insert.sequences,
    });
    messages.extend([16, 64, 256].map(|count| Message {
        name: format!("names-{count}"),
        bytes: message_of(&Family::Usual.names(count)),
        sequences: 0,
    }));
    messages.extend(dotted::LENGTHS.map(|length| {
        let body = dotted::points(dotted::fitting_points(length));
        let identifiers = dotted::in_vain('.');
        Message {
            name: format!("dotted-{}", length / 1_024),
            bytes: dotted::with_identifiers(body, &identifiers),
            sequences: identifiers.len() as u32,
        }
    }));
    for (name, nested) in [("sequences", false), ("nested", true)] {
        for (script, first, lengths) in SCRIPTS {
            messages.extend(lengths.map(|length| Message {
                name: format!("{name}-{script}-{length}"),
                bytes: with_sequences(nested, first, length),
                sequences: MAX_SEQUENCES as u32,
            }));
        }
    }
    messages
}

/// Letters of one byte, of two and of three: the first of some that follow it,
/// and how many an identifier has.
const SCRIPTS: [(&str, char, [usize; 5]); 3] = [
    ("latin", 'a', [1, 3, 9, 30, 2_900]),
    ("greek", 'α', [1, 5, 10, 40, 1_400]),
    ("chinese", '一', [1, 5, 10, 40, 900]),
];

/// A ping and 16 sequences of no documents, whose identifiers have so many
/// letters and no dots. They are looked at for dots where a document is nested.
fn with_sequences(nested: bool, first: char, length: usize) -> Vec<u8> {
    let mut body = element(0x10, b"ping", &1_i32.to_le_bytes());
    if nested {
        body.extend(element(0x03, b"lsid", &document(b"")));
    }
    let letter = |number| char::from_u32(first as u32 + number as u32).expect("a letter");
    let identifiers: Vec<Vec<u8>> = (0..MAX_SEQUENCES)
        .map(|index| {
            let others = (1..length).map(|place| (7 * place + 3 * index) % 23);
            let letters = once(index).chain(others).map(letter);
            letters.collect::<String>().into_bytes()
        })
        .collect();
    dotted::with_identifiers(document(&body), &identifiers)
}

fn list() {
    for Message { name, bytes, .. } in messages() {
        let mark = if name.starts_with("dotted") {
            let view = relay::read(&HOUSE, &bytes).expect("accepted");
            format!("dotted {}", view.body().len())
        } else if name.starts_with("sequences") || name.starts_with("nested") {
            "plain".to_string()
        } else if get_u32(&bytes, 16) & 1 == 1 {
            "sealed".to_string()
        } else {
            "-".to_string()
        };
        println!("{name} {} {mark}", bytes.len());
    }
}

/// The message with a hyphen for each dot in its identifiers.
fn undotted(message: &[u8]) -> Vec<u8> {
    let mut bytes = message.to_vec();
    let view = relay::read(&HOUSE, message).expect("accepted");
    for sequence in view.sequences() {
        for byte in &mut bytes[sequence.identifier] {
            if *byte == b'.' {
                *byte = b'-';
            }
        }
    }
    bytes
}

/// What is done with a message.
enum Deed {
    Read,
    Forward,
    Move,
    Copy,
}

fn run(call: &str, name: &str, calls: &str) -> Option<()> {
    let calls: u32 = calls.parse().ok()?;
    let message = messages()
        .into_iter()
        .find(|message| message.name == name)?;
    let Message {
        bytes, sequences, ..
    } = message;
    let (deed, bytes) = match call {
        "read" => (Deed::Read, bytes),
        "bare" => (Deed::Read, with_flags(&bytes, 0)),
        "undotted" => (Deed::Read, undotted(&bytes)),
        "forward" => (Deed::Forward, bytes),
        "cleared" => (Deed::Forward, with_flags(&bytes, 1 | 1 << 17)),
        "move" => (Deed::Move, bytes),
        "copy" => (Deed::Copy, bytes),
        _ => return None,
    };
    let bits = HOUSE.bits;
    let mut view = [0; VIEW_NUMBERS];
    let mut output = vec![0; bytes.len()];
    for _ in 0..calls {
        let bytes = black_box(&bytes);
        let result = match deed {
            Deed::Read => ffi::read(bits, 1, bytes, &mut view),
            Deed::Forward => ffi::forward(bits, 1, bytes, &mut output, &mut view),
            Deed::Move => ffi::move_body(bits, 1, bytes, sequences, &mut output, &mut view),
            Deed::Copy => {
                output[..bytes.len()].copy_from_slice(bytes);
                0
            }
        };
        assert_eq!(result, 0);
        black_box((&mut output, &mut view));
    }
    Some(())
}
