//! What a byte costs in messages of 4 KB to the greatest length, made alike: an
//! insert with one sequence of records, each with a remark of some 1,350 bytes.

use crate::common::message::with_flags;
use crate::timing::{medians_over, SAMPLES};
use crate::{mix, plain, HOUSE, PLAIN_HOUSE};
use relay::{ffi, MAX_LENGTH, VIEW_NUMBERS};
use std::hint::black_box;

/// The lengths in bytes, nearly. The last leaves room for a checksum.
const LENGTHS: [(&str, usize); 5] = [
    ("4 KB", 4_600),
    ("47 KB", 47_000),
    ("1 MB", 1_000_000),
    ("16 MB", 16_000_000),
    ("48 MB", MAX_LENGTH - 4),
];

/// How many samples are taken of the longest message.
const FEW_SAMPLES: usize = 51;

/// Which length the others are compared with.
const USUAL: usize = 1;

/// Nanoseconds of the library, where it is measured, and of plain Rust.
type Times = (Option<f64>, f64);

/// A way to pass over a message.
type Pass = fn(&[u8]) -> Times;

pub fn print() {
    let messages = LENGTHS.map(|(_, length)| mix::long_insert(length));
    let sealed = messages.each_ref().map(|message| with_flags(message, 1));
    let passes: [(&str, Pass, &[Vec<u8>]); 6] = [
        ("read", read, &messages),
        ("forward", forward, &messages),
        ("read, checksum", read, &sealed),
        ("forward, checksum", forward, &sealed),
        ("copy", copy, &messages),
        ("checksum pass", checksum, &messages),
    ];
    println!("Nanoseconds a byte, medians over {SAMPLES} samples, for 48 MB over {FEW_SAMPLES};");
    println!("and by those of the message of 47 KB.");
    println!(
        "{:<19}{:>6}{:>10}{:>10}  {:>8}{:>8}{:>15}{:>15}{:>13}",
        "call",
        "",
        "bytes",
        "elements",
        "library",
        "plain",
        "library/plain",
        "library/47 KB",
        "plain/47 KB"
    );
    for (call, pass, messages) in passes {
        print_pass(call, pass, messages);
    }
}

fn print_pass(call: &str, pass: Pass, messages: &[Vec<u8>]) {
    let each: Vec<Times> = messages
        .iter()
        .map(|message| {
            let bytes = message.len() as f64;
            let (library, plain) = pass(message);
            (library.map(|time| time / bytes), plain / bytes)
        })
        .collect();
    let (usual, usual_plain) = each[USUAL];
    for (((name, _), message), &(library, plain)) in LENGTHS.iter().zip(messages).zip(&each) {
        let view = relay::read(&HOUSE, message).expect("accepted");
        let (bytes, elements) = (message.len(), view.elements);
        let by_usual = library.zip(usual).map(|(time, usual)| time / usual);
        println!(
            "{call:<19}{name:>6}{bytes:>10}{elements:>10}  {:>8}{plain:>8.3}{:>15}{:>15}{:>13.2}",
            shown(library, 3),
            shown(library.map(|time| time / plain), 2),
            shown(by_usual, 2),
            plain / usual_plain
        );
    }
}

/// A figure with so many digits, or nothing.
fn shown(figure: Option<f64>, digits: usize) -> String {
    figure.map_or(String::new(), |figure| format!("{figure:.digits$}"))
}

/// How many samples a median is taken over.
fn samples(message: &[u8]) -> usize {
    match message.len() {
        0..=20_000_000 => SAMPLES,
        _ => FEW_SAMPLES,
    }
}

fn read(message: &[u8]) -> Times {
    let mut view = [0; VIEW_NUMBERS];
    let [library, plain] = medians_over(
        [samples(message); 2],
        [
            &mut || {
                let result = ffi::read(HOUSE.bits, 1, black_box(message), &mut view);
                assert_eq!(result, 0);
                black_box(&mut view);
            },
            &mut || {
                let view = plain::read(PLAIN_HOUSE, black_box(message));
                assert!(black_box(view).is_ok());
            },
        ],
    );
    (Some(library), plain)
}

fn forward(message: &[u8]) -> Times {
    let mut view = [0; VIEW_NUMBERS];
    let [mut one, mut two] = [(); 2].map(|()| vec![0; message.len()]);
    let [library, plain] = medians_over(
        [samples(message); 2],
        [
            &mut || {
                let result = ffi::forward(HOUSE.bits, 1, black_box(message), &mut one, &mut view);
                assert_eq!(result, 0);
                black_box((&mut one, &mut view));
            },
            &mut || {
                let view = plain::forward(PLAIN_HOUSE, black_box(message), &mut two);
                assert!(view.is_ok());
                black_box(&mut two);
            },
        ],
    );
    assert!(one == two);
    (Some(library), plain)
}

fn copy(message: &[u8]) -> Times {
    let mut output = vec![0; message.len()];
    let [copy] = medians_over(
        [samples(message)],
        [&mut || {
            output.copy_from_slice(black_box(message));
            black_box(&mut output);
        }],
    );
    (None, copy)
}

fn checksum(message: &[u8]) -> Times {
    let [checksum] = medians_over(
        [samples(message)],
        [&mut || {
            black_box(plain::crc32c(black_box(message)));
        }],
    );
    (None, checksum)
}
