//! The C functions called as C calls them: null pointers with the length 0.

mod common;

use common::PING;
use relay::ffi::c::*;
use std::ptr::{null, null_mut};

const HOUSE: u32 = 0x0001_0003;

/// How many numbers a view has.
const N: usize = 107;

fn refusal(number: u64, place: u64) -> u64 {
    number << 32 | place
}

#[test]
fn a_null_message_is_an_empty_one() {
    let mut view = [-1i64; N];
    let mut output = [0xAAu8; 64];
    let view_at = view.as_mut_ptr();
    let output_at = output.as_mut_ptr();
    unsafe {
        assert_eq!(relay_read(HOUSE, 1, null(), 0, view_at, N), refusal(1, 0));
        assert_eq!(
            relay_forward(HOUSE, 1, null(), 0, output_at, 64, view_at, N),
            refusal(1, 0)
        );
        assert_eq!(
            relay_append(
                HOUSE,
                1,
                null(),
                0,
                null(),
                0,
                null(),
                0,
                output_at,
                64,
                view_at,
                N
            ),
            refusal(1, 0)
        );
        assert_eq!(
            relay_write(HOUSE, 1, 0, 0, 0, null(), 0, output_at, 64, view_at, N),
            refusal(15, 21)
        );
        assert_eq!(
            relay_move(HOUSE, 1, null(), 0, 1, output_at, 64, view_at, N),
            refusal(1, 0)
        );
    }
    assert_eq!(view, [-1; N]);
    assert_eq!(output, [0xAA; 64]);
}

#[test]
fn a_null_output_is_too_short() {
    let mut view = [-1i64; N];
    let view_at = view.as_mut_ptr();
    let (ping, body) = (PING.as_ptr(), PING[21..].as_ptr());
    unsafe {
        assert_eq!(
            relay_forward(HOUSE, 1, ping, 36, null_mut(), 0, view_at, N),
            refusal(25, 0)
        );
        assert_eq!(
            relay_write(HOUSE, 1, 7, 0, 0, body, 15, null_mut(), 0, view_at, N),
            refusal(25, 0)
        );
        assert_eq!(
            relay_append(
                HOUSE,
                1,
                ping,
                36,
                b"d".as_ptr(),
                1,
                null(),
                0,
                null_mut(),
                0,
                view_at,
                N
            ),
            refusal(25, 0)
        );
        assert_eq!(
            relay_move(HOUSE, 1, ping, 36, 0, null_mut(), 0, view_at, N),
            refusal(25, 0)
        );
        assert_eq!(
            relay_move(HOUSE, 1, ping, 36, 1, null_mut(), 0, view_at, N),
            refusal(28, 0)
        );
    }
    assert_eq!(view, [-1; N]);
}

#[test]
fn a_null_view_is_too_short_after_the_other_refusals() {
    let mut output = [0xAAu8; 64];
    let ping = PING.as_ptr();
    unsafe {
        assert_eq!(
            relay_read(HOUSE, 1, ping, 36, null_mut(), 0),
            refusal(25, 0)
        );
        assert_eq!(relay_read(HOUSE, 1, ping, 35, null_mut(), 0), refusal(3, 0));
        assert_eq!(
            relay_forward(HOUSE, 1, ping, 36, output.as_mut_ptr(), 64, null_mut(), 0),
            refusal(25, 0)
        );
        let mut move_behind = |behind: u32, length: usize| {
            let output_at = output.as_mut_ptr();
            relay_move(HOUSE, 1, ping, length, behind, output_at, 64, null_mut(), 0)
        };
        assert_eq!(move_behind(0, 36), refusal(25, 0));
        assert_eq!(move_behind(1, 36), refusal(28, 0));
        assert_eq!(move_behind(1, 35), refusal(3, 0));
    }
    assert_eq!(output, [0xAA; 64]);
}

#[test]
fn a_null_listing_misses_its_first_line() {
    let mut answer = [-1i64; 3];
    let answer_at = answer.as_mut_ptr();
    unsafe {
        for numbers in 0..=3 {
            assert_eq!(
                relay_read_listing(null(), 0, answer_at, numbers),
                refusal(38, 1)
            );
        }
        assert_eq!(relay_read_listing(null(), 0, null_mut(), 0), refusal(38, 1));
    }
    assert_eq!(answer, [-1; 3]);
}

#[test]
fn a_null_answer_is_too_short_after_the_lines() {
    let listing = b"relay-log\t2\nend\t0\n";
    let at = listing.as_ptr();
    unsafe {
        assert_eq!(
            relay_read_listing(at, listing.len(), null_mut(), 0),
            refusal(25, 0)
        );
        assert_eq!(
            relay_read_listing(at, listing.len() - 1, null_mut(), 0),
            refusal(38, 2)
        );
    }
}

#[test]
fn a_null_identifier_is_empty_and_null_documents_are_none() {
    let mut view = [-1i64; N];
    let mut output = [0xAAu8; 64];
    let mut append = |identifier: *const u8, length: usize| unsafe {
        relay_append(
            HOUSE,
            1,
            PING.as_ptr(),
            36,
            identifier,
            length,
            null(),
            0,
            output.as_mut_ptr(),
            64,
            view.as_mut_ptr(),
            N,
        )
    };
    assert_eq!(append(null(), 0), refusal(13, 41));
    assert_eq!(append(b"d".as_ptr(), 1), 0);
    assert_eq!(view[..5], [43, 7, 0, 0, 1]);
    assert_eq!(view[5..11], [0, 0, 0, 21, 15, 0]);
    assert_eq!(view[11..17], [1, 41, 1, 43, 0, 0]);
    for entry in view[17..].chunks(6) {
        assert_eq!(entry, [-1, 0, 0, 0, 0, 0]);
    }
    assert_eq!(output[36..43], [1, 6, 0, 0, 0, b'd', 0]);
    assert_eq!(output[43..], [0xAA; 21]);
}
