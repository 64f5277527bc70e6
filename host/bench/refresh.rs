//! Measures the refreshed checksum (change request 8) beside a checksum of the
//! whole message, bit by bit in Rust and by the library, and forwarding where a
//! flag bit is cleared beside forwarding where none is; all in one run, by
//! `bench/refresh.sh`.
//!
//! Every figure is the median over many samples, which are taken in turn.
//! Outputs and views are not cleared between calls. With `--cfg before`
//! `relay_forward` of an older archive, by the name `before_forward`, is
//! measured too.

#![allow(unexpected_cfgs)]

#[path = "../tests/common/mod.rs"]
mod common;
#[allow(dead_code)]
mod mix;
mod timing;

use common::bson::{document, padded};
use common::message::{put_u32, with_body, with_flags};
use relay::ffi::c::relay_forward;
use relay::{Edition, VIEW_NUMBERS};
use std::hint::black_box;
use timing::{medians, SAMPLES};

const HOUSE: Edition = Edition::HOUSE;

/// A flag word with a checksum and nothing else, and one with a bit more, which
/// the house edition clears.
const NONE: u32 = 1;
const CLEARED: u32 = 1 | 1 << 17;

/// Numbers of bytes between the flag word and the checksum: those that the
/// request's figures are for, and those between which rereading and refreshing
/// take turns.
const FOLLOWING: [usize; 12] = [
    64, 255, 256, 511, 512, 767, 768, 1_023, 1_279, 1_280, 4_096, 49_128,
];
const MANY: u64 = 48_000_000;

#[link(name = "crc32c_c", kind = "static")]
extern "C" {
    fn crc32c_update(register: u32, s: *const u8, n: usize) -> u32;
    fn crc32c_refresh(checksum: u32, old: u32, new: u32, following: u64) -> u32;
}

/// The checksum bit by bit. In this form the compiler leaves the steps as they
/// are: of a step that branches it makes a table of bytes.
fn by_bits(s: &[u8]) -> u32 {
    let mut register = !0u32;
    for &byte in s {
        register ^= u32::from(byte);
        for _ in 0..8 {
            register = (register >> 1) ^ ((register & 1) * 0x82F6_3B78);
        }
    }
    !register
}

fn checksum(s: &[u8]) -> u32 {
    !unsafe { crc32c_update(!0, s.as_ptr(), s.len()) }
}

fn refresh(checksum: u32, old: u32, new: u32, following: u64) -> u32 {
    unsafe { crc32c_refresh(checksum, old, new, following) }
}

/// `relay_forward`, of this archive or of an older one.
type Forward =
    unsafe extern "C" fn(u32, u8, *const u8, usize, *mut u8, usize, *mut i64, usize) -> u64;

#[cfg(before)]
#[link(name = "relay_before", kind = "static")]
extern "C" {
    fn before_forward(
        bits: u32,
        sequences: u8,
        message: *const u8,
        message_len: usize,
        output: *mut u8,
        output_len: usize,
        view: *mut i64,
        view_len: usize,
    ) -> u64;
}

#[cfg(before)]
const BEFORE: Forward = before_forward;
#[cfg(not(before))]
const BEFORE: Forward = relay_forward;

fn main() {
    println!("Nanoseconds for each call, medians over {SAMPLES} samples.");
    println!();
    print_refresh();
    println!();
    print_forward();
}

// ---------------------------------------------------------------- refreshing

fn print_refresh() {
    println!(
        "{:>10}{:>14}{:>12}{:>10}{:>14}{:>18}",
        "following", "bit by bit", "checksum", "refresh", "bits/refresh", "checksum/refresh"
    );
    for following in FOLLOWING {
        let [bits, whole, fresh] = measure_refresh(following);
        println!(
            "{following:>10}{bits:>14.0}{whole:>12.1}{fresh:>10.1}{:>14.1}{:>18.2}",
            bits / fresh,
            whole / fresh
        );
    }
    let [fresh] = medians([&mut || {
        black_box(refresh(0, black_box(CLEARED), NONE, black_box(MANY)));
    }]);
    println!("{MANY:>10}{:>14}{:>12}{fresh:>10.1}", "", "");
}

/// The checksum of a message of 20 bytes and those that follow, in three ways.
fn measure_refresh(following: usize) -> [f64; 3] {
    let mut old: Vec<u8> = (0..20 + following).map(|i| (i * i >> 3) as u8).collect();
    put_u32(&mut old, 16, CLEARED);
    let mut new = old.clone();
    put_u32(&mut new, 16, NONE);
    let before = checksum(&old);
    let after = refresh(before, CLEARED, NONE, following as u64);
    assert_eq!(after, checksum(&new));
    assert_eq!(after, by_bits(&new));
    medians([
        &mut || {
            black_box(by_bits(black_box(&new)));
        },
        &mut || {
            black_box(checksum(black_box(&new)));
        },
        &mut || {
            let following = black_box(following as u64);
            black_box(refresh(black_box(before), CLEARED, NONE, following));
        },
    ])
}

// ---------------------------------------------------------------- forwarding

fn print_forward() {
    println!(
        "{:<14}{:>7}{:>14}{:>12}{:>10}{:>14}{:>16}",
        "forward", "bytes", "none cleared", "cleared", "before", "cleared/none", "before/cleared"
    );
    let mix = mix::mix();
    for name in ["insert", "large insert"] {
        let item = mix.iter().find(|item| item.name == name).expect("mixed");
        measure_forward(name, &item.message);
    }
    // The least work beside the checksum: one element.
    for length in [4_096, 47_104] {
        let empty = document(b"");
        let message = with_body(padded(&empty, length - 4 - 21 - empty.len()));
        measure_forward("one element", &message);
    }
}

fn forward(by: Forward, message: &[u8], (output, view): &mut (Vec<u8>, [i64; VIEW_NUMBERS])) {
    let message = black_box(message);
    let (m, n) = (message.as_ptr(), message.len());
    let (o, r) = (output.as_mut_ptr(), output.len());
    let result = unsafe { by(HOUSE.bits, 1, m, n, o, r, view.as_mut_ptr(), view.len()) };
    assert_eq!(result, 0);
    black_box((output, view));
}

fn measure_forward(name: &str, message: &[u8]) {
    let none = with_flags(message, NONE);
    let some = with_flags(message, CLEARED);
    let mut outputs = [0, 1, 2].map(|_| (vec![0; none.len()], [0; VIEW_NUMBERS]));
    let [one, two, three] = &mut outputs;
    let [plain, cleared, before] = medians([
        &mut || forward(relay_forward, &none, one),
        &mut || forward(relay_forward, &some, two),
        &mut || forward(BEFORE, &some, three),
    ]);
    // An older archive may show another view.
    assert!(one == two && two.0 == three.0 && one.0 == none);
    let bytes = none.len();
    print!("{name:<14}{bytes:>7}{plain:>14.1}{cleared:>12.1}");
    if cfg!(before) {
        println!(
            "{before:>10.1}{:>14.3}{:>16.2}",
            cleared / plain,
            before / cleared
        );
    } else {
        println!("{:>10}{:>14.3}", "", cleared / plain);
    }
}
