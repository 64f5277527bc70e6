//! What the tests share.

#![allow(dead_code)]

pub mod bson;
pub mod damage;
pub mod dotted;
pub mod generate;
pub mod message;
pub mod names;
pub mod random;
pub mod reference;
pub mod stored;
pub mod text;

/// PING of document 01.
pub const PING: [u8; 36] = [
    0x24, 0x00, 0x00, 0x00, 0x07, 0x00, 0x00, 0x00, 0x00, 0x00, 0x00, 0x00, 0xDD, 0x07, 0x00, 0x00,
    0x00, 0x00, 0x00, 0x00, 0x00, 0x0F, 0x00, 0x00, 0x00, 0x10, 0x70, 0x69, 0x6E, 0x67, 0x00, 0x01,
    0x00, 0x00, 0x00, 0x00,
];

/// A number from the environment, or the default.
pub fn setting(name: &str, default: u64) -> u64 {
    match std::env::var(name) {
        Ok(text) => match text.parse() {
            Ok(number) => number,
            Err(_) => panic!("{name} is not a whole number: {text}"),
        },
        Err(_) => default,
    }
}
