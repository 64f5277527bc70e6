//! Damage to the bytes of a message.

use super::message::*;
use super::random::Random;
use super::text::Fault;

/// Damages a message in one way; with some chance the length and the checksum
/// are then made right again, so that later checks see the damage.
pub fn damage(random: &mut Random, bytes: &mut Vec<u8>) {
    match random.below(13) {
        0 => truncate(random, bytes),
        1 => wrong_length(random, bytes),
        2 => wrong_opcode(random, bytes),
        3 => wrong_flags(random, bytes),
        4 => short_message(random, bytes),
        5 => wrong_checksum(random, bytes),
        6..=7 => flip_bytes(random, bytes),
        8..=9 => wrong_inner_length(random, bytes),
        10 => cut_out(random, bytes),
        11 => bad_text(random, bytes),
        _ => put_in(random, bytes),
    }
}

fn truncate(random: &mut Random, bytes: &mut Vec<u8>) {
    let keep = match random.below(4) {
        0 => random.below(17),
        1 => random.below(bytes.len() + 1),
        _ => bytes.len().saturating_sub(random.between(1, 5)),
    };
    bytes.truncate(keep);
}

/// Lengths at the limits, and some under and over them.
const WRONG_LENGTHS: [u32; 11] = [
    0,
    15,
    16,
    19,
    20,
    23,
    24,
    48_000_000,
    48_000_001,
    u32::MAX,
    1 << 31,
];

fn wrong_length(random: &mut Random, bytes: &mut [u8]) {
    if bytes.len() < 4 {
        return;
    }
    let right = bytes.len() as u32;
    let wrong = match random.below(3) {
        0 => random.pick(&WRONG_LENGTHS),
        1 => random.below(bytes.len() + 8) as u32,
        _ => right.wrapping_add(random.below(9) as u32).wrapping_sub(4),
    };
    put_u32(bytes, 0, wrong);
    maybe_sign(random, bytes);
}

fn wrong_opcode(random: &mut Random, bytes: &mut [u8]) {
    if bytes.len() < 16 {
        return;
    }
    let wrong = match random.below(5) {
        0 => random.pick(&[0, 1, 2, u32::MAX, 1 << 31, 2000, 2008, 2014, 0x07DD_0000]),
        1 => random.next() as u32,
        2 => 2012,
        3 => random.pick(&[1, 2001, 2002, 2003, 2004, 2005, 2006, 2007]),
        _ => random.between(1999, 2014) as u32,
    };
    put_u32(bytes, 12, wrong);
    maybe_sign(random, bytes);
}

fn wrong_flags(random: &mut Random, bytes: &mut [u8]) {
    if bytes.len() < 20 {
        return;
    }
    let flags = get_u32(bytes, 16) ^ 1 << random.below(32);
    put_u32(bytes, 16, flags);
    maybe_sign(random, bytes);
}

/// Leaves a message of 16 to 24 bytes, with the checksum's bit or without.
fn short_message(random: &mut Random, bytes: &mut Vec<u8>) {
    let length = random.between(16, 24);
    bytes.resize(length.max(20), 0);
    let flags = random.pick(&[0, 1, 1, 3, 5]);
    put_u32(bytes, 16, flags);
    bytes.truncate(length);
    set_length(bytes);
    maybe_sign(random, bytes);
    if random.percent(50) {
        // Room after the message, so that a reader could look too far.
        bytes.extend(random.bytes(8));
    }
}

fn wrong_checksum(random: &mut Random, bytes: &mut Vec<u8>) {
    if bytes.len() < 20 {
        return;
    }
    if bytes[16] & 1 == 0 {
        bytes[16] |= 1;
        bytes.extend([0; 4]);
        set_length(bytes);
        sign(bytes);
    }
    let at = bytes.len() - random.between(1, 4);
    bytes[at] ^= 1 << random.below(8);
}

fn flip_bytes(random: &mut Random, bytes: &mut [u8]) {
    for _ in 0..random.pick(&[1, 1, 1, 2, 4]) {
        if bytes.is_empty() {
            return;
        }
        let at = random.below(bytes.len());
        bytes[at] = match random.below(4) {
            0 => random.byte(),
            1 => random.pick(&[0, 0, 1, 2, 3, 4, 5, 0x0F, b'.', 0x7F, 0x80, 0xFF]),
            2 => bytes[at].wrapping_add(1),
            _ => bytes[at] ^ 1 << random.below(8),
        };
    }
    maybe_sign(random, bytes);
}

/// Changes something inside the sections that looks like a length.
fn wrong_inner_length(random: &mut Random, bytes: &mut [u8]) {
    let lengths: Vec<usize> = (20..bytes.len().saturating_sub(3))
        .filter(|&at| (1..bytes.len() as u32).contains(&get_u32(bytes, at)))
        .collect();
    if lengths.is_empty() {
        return;
    }
    let at = random.pick(&lengths);
    let right = get_u32(bytes, at);
    let wrong = match random.below(4) {
        0 => random.pick(&[0, 1, 4, 5, 13, 14, u32::MAX, 1 << 31, i32::MAX as u32]),
        1 => bytes.len() as u32 - at as u32,
        _ => right.wrapping_add(random.below(11) as u32).wrapping_sub(5),
    };
    put_u32(bytes, at, wrong);
    maybe_sign(random, bytes);
}

fn cut_out(random: &mut Random, bytes: &mut Vec<u8>) {
    if bytes.len() <= 20 {
        return;
    }
    let first = random.between(20, bytes.len() - 1);
    let after = (first + random.between(1, 6)).min(bytes.len());
    bytes.drain(first..after);
    set_length(bytes);
    maybe_sign(random, bytes);
}

fn put_in(random: &mut Random, bytes: &mut Vec<u8>) {
    if bytes.len() < 20 {
        return;
    }
    let at = random.between(20, bytes.len());
    let count = random.between(1, 6);
    let more = if random.percent(50) {
        vec![0; count]
    } else {
        random.bytes(count)
    };
    bytes.splice(at..at, more);
    set_length(bytes);
    maybe_sign(random, bytes);
}

/// Writes bytes that are not UTF-8 over some others in the sections.
fn bad_text(random: &mut Random, bytes: &mut [u8]) {
    if bytes.len() <= 20 {
        return;
    }
    let at = random.between(20, bytes.len() - 1);
    let bad = random.pick(&Fault::ALL).bytes(random);
    for (byte, wrong) in bytes[at..].iter_mut().zip(bad) {
        *byte = wrong;
    }
    maybe_sign(random, bytes);
}

fn maybe_sign(random: &mut Random, bytes: &mut [u8]) {
    if random.percent(85) {
        sign(bytes);
    }
}
