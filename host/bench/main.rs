//! Measures the library beside a plain safe Rust reader with the same checks,
//! a plain copy and a checksum pass, all in one run:
//!
//! ```text
//! cargo bench
//! ```
//!
//! Every figure is the median over many samples; the samples of all
//! contenders are taken in turn, so that the ratios come from the same time.
//! Outputs and views are not cleared between calls. `library` is the C
//! function, with a view that is lent again and again; `crate` is the safe
//! function, which makes and converts a view each time; `plain` is
//! `bench/plain.rs`.
//!
//! Where libbson is installed (apt-get install libbson-dev), its
//! `bson_validate` is measured too, on all documents of each message.
//!
//! A last table has what a byte costs in messages of 4 KB to 48 MB, which are
//! made alike; `cargo bench -- long` prints it alone.

mod bson;
#[path = "../tests/common/mod.rs"]
mod common;
mod long;
mod mix;
mod plain;
mod timing;

use mix::Item;
use relay::{ffi, Edition, VIEW_NUMBERS};
use std::env;
use std::hint::black_box;
use timing::{medians, SAMPLES};

const HOUSE: Edition = Edition::HOUSE;
const PLAIN_HOUSE: plain::Edition = plain::Edition {
    bits: HOUSE.bits,
    sequences: HOUSE.sequences,
};

fn main() {
    if env::args().any(|argument| argument == "long") {
        return long::print();
    }
    let mut items = mix::mix();
    items.extend(mix::texts());
    println!("Nanoseconds for each call, medians over {SAMPLES} samples.");
    println!("Outputs and views are not cleared between calls.");
    println!();
    println!(
        "{:<14}{:>7}  {:<8}{:>10}{:>10}{:>10}{:>15}{:>13}",
        "message", "bytes", "call", "library", "crate", "plain", "library/plain", "crate/plain"
    );
    let mut reads = Vec::new();
    for item in &items {
        check(item);
        reads.push(measure_read(item));
        measure_forward(item);
        measure_write(item);
        measure_append(item);
        measure_move(item);
    }
    println!();
    println!(
        "{:<14}{:>7}  {:>10}{:>10}{:>14}{:>13}",
        "message", "bytes", "copy", "checksum", "read/checksum", "read/copy"
    );
    for (item, read) in items.iter().zip(&reads) {
        measure_passes(item, *read);
    }
    println!();
    bson::compare(&items, &reads);
    println!();
    long::print();
}

/// The contenders must give the same answer, or the ratio says nothing.
fn check(item: &Item) {
    let view = relay::read(&HOUSE, &item.message).expect("accepted");
    let other = plain::read(PLAIN_HOUSE, &item.message).expect("accepted");
    assert_eq!(view.length, other.length);
    assert_eq!(view.elements, other.elements);
    assert_eq!(view.sections().len(), other.used);

    let [mut one, mut two, _] = outputs(item);
    relay::forward(&HOUSE, &item.message, &mut one).expect("accepted");
    plain::forward(PLAIN_HOUSE, &item.message, &mut two).expect("accepted");
    assert!(one == two);
    relay::write(&HOUSE, 7, 0, item.flags, &item.body, &mut one).expect("accepted");
    plain::write(PLAIN_HOUSE, 7, 0, item.flags, &item.body, &mut two).expect("accepted");
    assert!(one == two);
    let (identifier, documents) = (&item.identifier, &item.documents);
    relay::append(&HOUSE, &item.shorter, identifier, documents, &mut one).expect("accepted");
    plain::append(PLAIN_HOUSE, &item.shorter, identifier, documents, &mut two).expect("accepted");
    assert!(one == two);
    let behind = item.behind;
    relay::move_body(&HOUSE, &item.message, behind, &mut one).expect("accepted");
    plain::move_body(PLAIN_HOUSE, &item.message, behind, &mut two).expect("accepted");
    assert!(one == two);
}

// ------------------------------------------------------------ measurements

/// Reads; answers the library's time.
fn measure_read(item: &Item) -> f64 {
    let message = &item.message;
    let mut view = [0; VIEW_NUMBERS];
    let times = medians([
        &mut || {
            let result = ffi::read(HOUSE.bits, 1, black_box(message), &mut view);
            assert_eq!(result, 0);
            black_box(&mut view);
        },
        &mut || {
            let _ = black_box(relay::read(&HOUSE, black_box(message)));
        },
        &mut || {
            let _ = black_box(plain::read(PLAIN_HOUSE, black_box(message)));
        },
    ]);
    print_row(item.name, message.len(), "read", times);
    times[0]
}

fn measure_forward(item: &Item) {
    let message = &item.message;
    let mut view = [0; VIEW_NUMBERS];
    let [mut one, mut two, mut three] = outputs(item);
    let times = medians([
        &mut || {
            let result = ffi::forward(HOUSE.bits, 1, black_box(message), &mut one, &mut view);
            assert_eq!(result, 0);
            black_box((&mut one, &mut view));
        },
        &mut || {
            let view = relay::forward(&HOUSE, black_box(message), &mut two);
            black_box((view.is_ok(), &mut two));
        },
        &mut || {
            let view = plain::forward(PLAIN_HOUSE, black_box(message), &mut three);
            black_box((view.is_ok(), &mut three));
        },
    ]);
    print_row(item.name, message.len(), "forward", times);
}

fn measure_write(item: &Item) {
    let (flags, body) = (item.flags, &item.body);
    let mut view = [0; VIEW_NUMBERS];
    let [mut one, mut two, mut three] = outputs(item);
    let times = medians([
        &mut || {
            let body = black_box(body);
            let result = ffi::write(HOUSE.bits, 1, 7, 0, flags, body, &mut one, &mut view);
            assert_eq!(result, 0);
            black_box((&mut one, &mut view));
        },
        &mut || {
            let view = relay::write(&HOUSE, 7, 0, flags, black_box(body), &mut two);
            black_box((view.is_ok(), &mut two));
        },
        &mut || {
            let view = plain::write(PLAIN_HOUSE, 7, 0, flags, black_box(body), &mut three);
            black_box((view.is_ok(), &mut three));
        },
    ]);
    let length = 21 + body.len() + 4 * (flags & 1) as usize;
    print_row(item.name, length, "write", times);
}

fn measure_append(item: &Item) {
    let (message, identifier, documents) = (&item.shorter, &item.identifier, &item.documents);
    let mut view = [0; VIEW_NUMBERS];
    let [mut one, mut two, mut three] = outputs(item);
    let times = medians([
        &mut || {
            let result = ffi::append(
                HOUSE.bits,
                1,
                black_box(message),
                identifier,
                documents,
                &mut one,
                &mut view,
            );
            assert_eq!(result, 0);
            black_box((&mut one, &mut view));
        },
        &mut || {
            let message = black_box(message);
            let view = relay::append(&HOUSE, message, identifier, documents, &mut two);
            black_box((view.is_ok(), &mut two));
        },
        &mut || {
            let message = black_box(message);
            let view = plain::append(PLAIN_HOUSE, message, identifier, documents, &mut three);
            black_box((view.is_ok(), &mut three));
        },
    ]);
    let length = message.len() + 6 + identifier.len() + documents.len();
    print_row(item.name, length, "append", times);
}

/// Moves the body behind all sequences.
fn measure_move(item: &Item) {
    let (message, behind) = (&item.message, item.behind);
    let mut view = [0; VIEW_NUMBERS];
    let [mut one, mut two, mut three] = outputs(item);
    let times = medians([
        &mut || {
            let message = black_box(message);
            let result = ffi::move_body(HOUSE.bits, 1, message, behind, &mut one, &mut view);
            assert_eq!(result, 0);
            black_box((&mut one, &mut view));
        },
        &mut || {
            let view = relay::move_body(&HOUSE, black_box(message), behind, &mut two);
            black_box((view.is_ok(), &mut two));
        },
        &mut || {
            let view = plain::move_body(PLAIN_HOUSE, black_box(message), behind, &mut three);
            black_box((view.is_ok(), &mut three));
        },
    ]);
    print_row(item.name, message.len(), "move", times);
}

/// A plain copy and a checksum pass over the message.
fn measure_passes(item: &Item, read: f64) {
    let message = &item.message;
    let length = message.len();
    let [mut output, ..] = outputs(item);
    let [copy, checksum] = medians([
        &mut || {
            output[..length].copy_from_slice(black_box(message));
            black_box(&mut output);
        },
        &mut || {
            black_box(plain::crc32c(black_box(message)));
        },
    ]);
    let (by_checksum, by_copy) = (read / checksum, read / copy);
    let name = item.name;
    println!(
        "{name:<14}{length:>7}  {copy:>10.1}{checksum:>10.1}{by_checksum:>14.2}{by_copy:>13.2}"
    );
}

fn print_row(name: &str, length: usize, call: &str, [library, safe, plain]: [f64; 3]) {
    let (library_ratio, safe_ratio) = (library / plain, safe / plain);
    println!(
        "{name:<14}{length:>7}  {call:<8}{library:>10.1}{safe:>10.1}{plain:>10.1}\
         {library_ratio:>15.2}{safe_ratio:>13.2}"
    );
}

/// Outputs with room for every message that is made of the item: append adds
/// most.
fn outputs(item: &Item) -> [Vec<u8>; 3] {
    let message = item.message.len().max(item.body.len());
    let room = message + item.identifier.len() + item.documents.len() + 100;
    [(); 3].map(|()| vec![0; room])
}
