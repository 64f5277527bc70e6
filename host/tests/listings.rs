//! The reader of stored listings (change request 6): every kind of line with
//! every kind of fault, by hand, and random listings, whole and damaged, held
//! against an independent reader.
//!
//! RELAY_CASES is the number of random cases (200,000 if not set), RELAY_SEED
//! the seed (1). A failure names its seed and case; RELAY_FIRST=<case>
//! RELAY_CASES=1 with that seed makes that case alone again:
//!
//! ```text
//! RELAY_CASES=20000000 RELAY_SEED=2 cargo test --release --test listings
//! ```

mod common;

use common::random::Random;
use common::setting;
use common::stored::{self, any_lines, with_newlines, Damage, Told};
use relay::{ffi, read_listing, Listing, Refusal};

/// Numbers around the answer, to see that they stay.
const GUARD: usize = 3;

/// What the answer is filled with first.
const NUMBER: i64 = -7_777;

/// What the library answers, and leaves behind, where so many numbers are lent.
fn compare(listing: &[u8], expected: Result<Told, u64>, numbers: usize) -> Result<(), String> {
    let mut answer = vec![NUMBER; numbers + 2 * GUARD];
    let lent = listing.to_vec();
    let result = ffi::read_listing(&lent, &mut answer[GUARD..GUARD + numbers]);
    let mut shown = vec![NUMBER; numbers + 2 * GUARD];
    let right = match expected {
        Err(line) => (38 << 32) + line,
        Ok(_) if numbers < 2 => 25 << 32,
        Ok((version, messages)) => {
            shown[GUARD] = i64::from(version);
            shown[GUARD + 1] = messages as i64;
            0
        }
    };
    let text = listing.escape_ascii();
    if result != right {
        let [right, wrong] = [right, result].map(|result| (result >> 32, result as u32));
        return Err(format!("expected {right:?}, library {wrong:?}: {text}"));
    }
    if answer != shown || lent != listing {
        return Err(format!("{answer:?} instead of {shown:?}: {text}"));
    }
    Ok(())
}

/// A listing and what it tells, or the number of its first bad or missing line,
/// by the independent reader, the C function and the crate.
fn check(listing: &[u8], expected: Result<Told, u64>) {
    let text = listing.escape_ascii();
    assert_eq!(stored::read_listing(listing), expected, "{text}");
    for numbers in [0, 1, 2, 3] {
        if let Err(fault) = compare(listing, expected, numbers) {
            panic!("{fault}");
        }
    }
    let answer = read_listing(listing);
    let expected = match expected {
        Ok((version, messages)) => Ok(Listing { version, messages }),
        Err(line) => Err(Refusal::BadLine(line as usize)),
    };
    assert_eq!(answer, expected, "{text}");
}

fn good(lines: &[&str], told: Told) {
    check(&joined(lines), Ok(told));
}

fn bad(lines: &[&str], line: u64) {
    check(&joined(lines), Err(line));
}

/// The lines with a newline behind each.
fn joined(lines: &[&str]) -> Vec<u8> {
    let lines: Vec<String> = lines.iter().map(|line| line.to_string()).collect();
    with_newlines(&lines)
}

const FIRST: [&str; 2] = ["relay-log\t1", "relay-log\t2"];
const PING: &str = "msg\t0\t36\t7\t0\t0\t0\t1";

// ------------------------------------------------------------------ examples

#[test]
fn the_examples_of_the_papers() {
    for (index, first) in FIRST.into_iter().enumerate() {
        let version = index as u32 + 1;
        good(&[first, PING, "bad\t36\t1\t0", "end\t1"], (version, 1));
        good(&[first, "end\t0"], (version, 0));
        good(&[first, "bad\t0\t1\t0", "end\t0"], (version, 0));
    }
    let long = ["big\t36\t65537", "msg\t65573\t26\t-1\t7\t65539\t16\t262144"];
    good(&[FIRST[1], PING, long[0], long[1], "end\t3"], (2, 3));
}

#[test]
fn an_empty_listing_misses_its_first_line() {
    check(b"", Err(1));
    check(b"\n", Err(1));
    check(b"\n\n", Err(1));
}

/// Whatever a listing is cut to, the line that is cut or missing is named.
#[test]
fn a_listing_cut_at_every_byte() {
    let last = "msg\t65573\t49152\t-2147483648\t2147483647\t18446744073709551615\t16\t4096";
    let whole = [
        joined(&[FIRST[0], PING, "bad\t36\t8\t16", "end\t1"]),
        joined(&[FIRST[1], PING, "big\t36\t65537", last, "end\t3"]),
        joined(&[FIRST[1], "end\t0"]),
    ];
    for listing in &whole {
        assert!(stored::read_listing(listing).is_ok());
        for length in 0..listing.len() {
            let cut = &listing[..length];
            let lines = cut.iter().filter(|&&byte| byte == b'\n').count();
            check(cut, Err(lines as u64 + 1));
        }
    }
}

// -------------------------------------------------------------------- fields

/// Fields that are no number at all, or none that is written so.
const NO_NUMBERS: [&str; 22] = [
    "",
    "00",
    "-0",
    "+0",
    "+1",
    "+26",
    "01",
    "026",
    "-",
    "+",
    "--1",
    " 0",
    "0 ",
    " ",
    "0x1",
    "1e1",
    "1.0",
    "1,000",
    "a",
    "\u{0661}",
    "18446744073709551616",
    "340282366920938463463374607431768211482",
];

/// Signed numbers, for fields that have no sign.
const SIGNED: [&str; 4] = ["-1", "-26", "-2147483648", "-18446744073709551616"];

/// A field of a line, and the values that it may have and may not have.
struct Field {
    place: usize,
    good: &'static [&'static str],
    bad: &'static [&'static str],
    signed: bool,
}

const fn field(
    place: usize,
    good: &'static [&'static str],
    bad: &'static [&'static str],
    signed: bool,
) -> Field {
    Field {
        place,
        good,
        bad,
        signed,
    }
}

/// Any unsigned 64-bit number.
const ALL_UNSIGNED: &[&str] = &[
    "0",
    "1",
    "9",
    "10",
    "4294967295",
    "4294967296",
    "9223372036854775808",
    "18446744073709551615",
];

const ALL_SIGNED: &[&str] = &["0", "1", "-1", "10", "-10", "2147483647", "-2147483648"];
const NOT_SIGNED: &[&str] = &[
    "2147483648",
    "-2147483649",
    "4294967295",
    "4294967296",
    "-4294967296",
    "18446744073709551615",
    "-01",
    "-00",
    "- 1",
    "1-",
];

/// The fields of `msg` but its offset, in version 1 and in version 2.
const MESSAGE_FIELDS: [[Field; 6]; 2] = [
    [
        field(
            2,
            &["26", "27", "49151", "49152"],
            &[
                "0",
                "25",
                "49153",
                "65536",
                "65537",
                "48000000",
                "4294967322",
            ],
            false,
        ),
        field(3, ALL_SIGNED, NOT_SIGNED, true),
        field(4, ALL_SIGNED, NOT_SIGNED, true),
        field(5, ALL_UNSIGNED, &[], false),
        field(
            6,
            &["0", "1", "16"],
            &["17", "255", "256", "4294967296"],
            false,
        ),
        field(
            7,
            &["0", "1", "4095", "4096"],
            &["4097", "65536", "262144", "4294967296"],
            false,
        ),
    ],
    [
        field(
            2,
            &["26", "49152", "49153", "65535", "65536"],
            &["0", "25", "65537", "48000000", "48000001", "4294967322"],
            false,
        ),
        field(3, ALL_SIGNED, NOT_SIGNED, true),
        field(4, ALL_SIGNED, NOT_SIGNED, true),
        field(5, ALL_UNSIGNED, &[], false),
        field(
            6,
            &["0", "1", "16"],
            &["17", "255", "256", "4294967296"],
            false,
        ),
        field(
            7,
            &["0", "4096", "4097", "262143", "262144"],
            &["262145", "4294967296", "18446744073709551615"],
            false,
        ),
    ],
];

const BIG_FIELDS: [Field; 1] = [field(
    2,
    &["65537", "65538", "47999999", "48000000"],
    &["0", "26", "65536", "48000001", "4295032833"],
    false,
)];

const BAD_FIELDS: [Field; 2] = [
    field(2, ALL_UNSIGNED, &[], false),
    field(3, ALL_UNSIGNED, &[], false),
];

/// The line with another field at this place.
fn with_field(line: &str, place: usize, field: &str) -> String {
    let mut fields: Vec<&str> = line.split('\t').collect();
    fields[place] = field;
    fields.join("\t")
}

/// Reads a listing whose last lines but one are the same again and again: this
/// one stands behind so many.
fn check_fields(version: usize, line: &str, fields: &[Field], counts: bool) {
    for before in [0, 1, 7] {
        let offset = before * 36;
        let mut lines = vec![FIRST[version - 1].to_string()];
        lines.extend((0..before).map(|index| with_field(PING, 1, &format!("{}", 36 * index))));
        let number = lines.len() as u64 + 1;
        let line = with_field(line, 1, &offset.to_string());
        let count = before + usize::from(counts);
        let read = |line: &str, expected: Result<Told, u64>| {
            let mut lines = lines.clone();
            lines.push(line.to_string());
            lines.push(format!("end\t{count}"));
            check(&with_newlines(&lines), expected);
        };
        let accepted = Ok((version as u32, count as u64));
        let refused = Err(number);
        read(&line, accepted);

        // Offsets that do not run on, or are written otherwise.
        for wrong in [offset + 1, offset + 36, offset + (1 << 32), usize::MAX] {
            read(&with_field(&line, 1, &wrong.to_string()), refused);
        }
        let beyond = (offset as u128 + (1 << 64)).to_string();
        let zeros = format!("0{offset}");
        let signs = [format!("+{offset}"), format!("-{offset}")];
        for wrong in [&beyond, &zeros, &signs[0], &signs[1]] {
            read(&with_field(&line, 1, wrong), refused);
        }
        if offset > 0 {
            read(&with_field(&line, 1, "0"), refused);
            read(&with_field(&line, 1, &(offset - 1).to_string()), refused);
        }

        for field in fields {
            for value in field.good {
                read(&with_field(&line, field.place, value), accepted);
            }
            let signed: &[&str] = if field.signed { &[] } else { &SIGNED };
            for value in NO_NUMBERS.iter().chain(field.bad).chain(signed) {
                read(&with_field(&line, field.place, value), refused);
            }
        }
        check_shape(&line, |line| read(line, refused));
    }
}

/// A line with each field left out, put in or parted otherwise is refused.
fn check_shape(line: &str, refused: impl Fn(&str)) {
    let fields: Vec<&str> = line.split('\t').collect();
    for place in 0..fields.len() {
        let mut fewer = fields.clone();
        fewer.remove(place);
        refused(&fewer.join("\t"));
        refused(&fields[..place].join("\t"));
        refused(&with_field(line, place, ""));
        refused(&with_field(line, place, &format!("{} ", fields[place])));
        refused(&with_field(line, place, &format!(" {}", fields[place])));
        refused(&with_field(line, place, &format!("{}\r", fields[place])));
        refused(&with_field(line, place, &format!("{}\0", fields[place])));
    }
    for place in 0..=fields.len() {
        for new in ["", "0", "1", "msg"] {
            let mut more = fields.clone();
            more.insert(place, new);
            refused(&more.join("\t"));
        }
    }
    for between in [" ", ",", "\t\t", "", "\t \t"] {
        refused(&fields.join(between));
    }
    // The word with each letter otherwise.
    let word = fields[0];
    for place in 0..word.len() {
        for new in [b'A', b'z', word.as_bytes()[place] ^ 0x20] {
            let mut other = word.as_bytes().to_vec();
            other[place] = new;
            let other = String::from_utf8(other).expect("letters");
            refused(&with_field(line, 0, &other));
        }
        refused(&with_field(line, 0, &word[..place]));
    }
    refused(&with_field(line, 0, &format!("{word}s")));
}

#[test]
fn messages_of_both_versions() {
    for version in [1, 2] {
        check_fields(version, PING, &MESSAGE_FIELDS[version - 1], true);
    }
}

#[test]
fn long_messages_in_version_2_alone() {
    let line = "big\t0\t65537";
    check_fields(2, line, &BIG_FIELDS, true);
    bad(&[FIRST[0], line, "end\t1"], 2);
    bad(&[FIRST[0], PING, "big\t36\t65537", "end\t2"], 3);
}

#[test]
fn refusals_in_a_listing() {
    for version in [1, 2] {
        check_fields(version, "bad\t0\t8\t16", &BAD_FIELDS, false);
    }
}

#[test]
fn versions() {
    for (index, first) in FIRST.into_iter().enumerate() {
        good(&[first, "end\t0"], (index as u32 + 1, 0));
        check_shape(first, |line| bad(&[line, "end\t0"], 1));
    }
    let others = [
        "0",
        "3",
        "01",
        "02",
        "10",
        "11",
        "12",
        "21",
        "22",
        "1.0",
        "4294967297",
    ];
    for version in NO_NUMBERS.iter().chain(&SIGNED).chain(&others) {
        bad(&[&format!("relay-log\t{version}"), "end\t0"], 1);
    }
    // A byte order mark, and lines before the first.
    bad(&["\u{FEFF}relay-log\t2", "end\t0"], 1);
    bad(&["", "relay-log\t2", "end\t0"], 1);
    bad(&[PING, "end\t1"], 1);
    bad(&["end\t0"], 1);
    bad(&["relay-log\t2", "relay-log\t2", "end\t0"], 2);
    // Bytes that are no text.
    check(b"relay-log\t\xB2\nend\t0\n", Err(1));
    check(b"relay-log\t2\nend\t\xFF\n", Err(2));
}

#[test]
fn the_end_counts_right() {
    for version in [1, 2] {
        for messages in 0..=12usize {
            let mut lines = vec![FIRST[version - 1].to_string()];
            for index in 0..messages {
                lines.push(with_field(PING, 1, &(36 * index).to_string()));
            }
            for refused in [false, true] {
                let mut lines = lines.clone();
                if refused {
                    lines.push(format!("bad\t{}\t9\t32", 36 * messages));
                }
                let number = lines.len() as u64 + 1;
                let read = |end: &str, expected| {
                    let mut lines = lines.clone();
                    lines.push(end.to_string());
                    check(&with_newlines(&lines), expected);
                };
                let end = format!("end\t{messages}");
                read(&end, Ok((version as u32, messages as u64)));
                for wrong in NO_NUMBERS.iter().chain(&SIGNED) {
                    read(&format!("end\t{wrong}"), Err(number));
                }
                for wrong in (0..30).filter(|&wrong| wrong != messages) {
                    read(&format!("end\t{wrong}"), Err(number));
                }
                for more in [1u128 << 32, 1 << 64] {
                    let wrong = messages as u128 + more;
                    read(&format!("end\t{wrong}"), Err(number));
                }
                read(&format!("end\t0{messages}"), Err(number));
                check_shape(&end, |line| read(line, Err(number)));
            }
        }
    }
}

// --------------------------------------------------------------------- order

/// Lines of every kind, and some of none.
const ANY_LINES: [&str; 14] = [
    PING,
    "msg\t36\t36\t7\t0\t0\t0\t1",
    "big\t0\t65537",
    "big\t36\t65537",
    "bad\t0\t1\t0",
    "bad\t36\t1\t0",
    "end",
    "end\t3",
    "relay-log\t2",
    "",
    " ",
    "\r",
    "#",
    "msg",
];

#[test]
fn only_the_end_follows_a_refusal() {
    for first in FIRST {
        for line in ANY_LINES {
            bad(&[first, PING, "bad\t36\t1\t0", line, "end\t1"], 4);
        }
        bad(&[first, PING, "bad\t36\t1\t0"], 4);
    }
}

#[test]
fn nothing_follows_the_end() {
    for first in FIRST {
        for line in ANY_LINES.iter().chain(&["end\t1", "end\t0"]) {
            bad(&[first, PING, "end\t1", line], 4);
            bad(&[first, PING, "bad\t36\t1\t0", "end\t1", line], 5);
            // Without its newline, where it is not empty.
            let mut bytes = joined(&[first, PING, "end\t1", line]);
            bytes.pop();
            let expected = match line.len() {
                0 => Ok((if first == FIRST[0] { 1 } else { 2 }, 1)),
                _ => Err(4),
            };
            check(&bytes, expected);
        }
        let twice = joined(&[first, PING, "end\t1"]).repeat(2);
        check(&twice, Err(4));
    }
    check(b"relay-log\t2\nend\t0\n\0", Err(3));
}

#[test]
fn empty_and_unknown_lines() {
    let lines = [
        FIRST[1],
        PING,
        "big\t36\t65537",
        "bad\t65573\t1\t0",
        "end\t2",
    ];
    good(&lines, (2, 2));
    for place in 0..lines.len() {
        for new in ["", " ", "\t", "#", "relay-log", "unknown\t1", "MSG"] {
            let mut more = lines.to_vec();
            more.insert(place, new);
            bad(&more, place as u64 + 1);
        }
    }
}

#[test]
fn lines_end_in_a_newline_alone() {
    let lines = [
        FIRST[1],
        PING,
        "big\t36\t65537",
        "bad\t65573\t1\t0",
        "end\t2",
    ];
    for place in 0..lines.len() {
        let mut other = lines.map(String::from);
        other[place].push('\r');
        check(&with_newlines(&other), Err(place as u64 + 1));
    }
    let text = joined(&lines);
    let feeds = String::from_utf8(text.clone()).expect("text");
    check(feeds.replace('\n', "\r\n").as_bytes(), Err(1));
    check(feeds.replace('\n', "\r").as_bytes(), Err(1));
    check(feeds.replace('\n', "\0").as_bytes(), Err(1));
    check(&text[..text.len() - 1], Err(5));
}

#[test]
fn lines_left_out_doubled_and_swapped() {
    let lines = [
        FIRST[1],
        PING,
        "msg\t36\t26\t-1\t1\t65536\t0\t0",
        "big\t62\t48000000",
        "msg\t48000062\t65536\t-1\t1\t1\t16\t262144",
        "bad\t48065598\t3\t0",
        "end\t4",
    ];
    good(&lines, (2, 4));
    for place in 0..lines.len() {
        let mut fewer = lines.to_vec();
        fewer.remove(place);
        // The next line's offset does not run on, or the end counts wrong; a
        // listing without its `bad` is one.
        match place {
            5 => good(&fewer, (2, 4)),
            _ => bad(&fewer, place as u64 + 1),
        }
        let mut twice = lines.to_vec();
        twice.insert(place, lines[place]);
        bad(&twice, place as u64 + 2);
        for other in place + 1..lines.len() {
            let mut swapped = lines.to_vec();
            swapped.swap(place, other);
            // The end may stand for `bad`, which then is behind it.
            let line = if (place, other) == (5, 6) {
                7
            } else {
                place + 1
            };
            bad(&swapped, line as u64);
        }
    }
}

/// Many lines, so that a line's number has more than one byte and offsets pass
/// 32 bits.
#[test]
fn long_listings() {
    let count = 100_000usize;
    let mut lines = vec![FIRST[1].to_string()];
    for index in 0..count {
        lines.push(format!("big\t{}\t48000000", 48_000_000 * index));
    }
    lines.push(format!("end\t{count}"));
    let listing = with_newlines(&lines);
    check(&listing, Ok((2, count as u64)));
    for place in [255, 256, 65_535, 65_536, count] {
        let mut wrong = lines.clone();
        wrong[place] = wrong[place].replace("48000000", "48000001");
        check(&with_newlines(&wrong), Err(place as u64 + 1));
    }
    check(&listing[..listing.len() - 1], Err(count as u64 + 2));
    // An offset that is right but for the bits beyond 32.
    let mut wrong = lines.clone();
    let offset = 48_000_000 * 90u64;
    assert!(offset > 1 << 32);
    wrong[91] = format!("big\t{}\t48000000", offset - (1 << 32));
    check(&with_newlines(&wrong), Err(92));
}

/// Fields and lines that are far longer than any that is good.
#[test]
fn long_fields_and_lines() {
    for length in [19, 20, 21, 40, 1_000, 300_000] {
        let [zeros, ones, nines, minus] = ["0", "1", "9", "-"].map(|digit| digit.repeat(length));
        for line in [PING, "big\t0\t65537", "bad\t0\t1\t0"] {
            for place in 1..line.split('\t').count() {
                for field in [&zeros, &minus, &format!("{zeros}1"), &format!("-{nines}")] {
                    bad(&[FIRST[1], &with_field(line, place, field), "end\t1"], 2);
                }
                // Flags, and the number and place of a refusal, may have 20
                // digits, but not all nines.
                let unbounded = line.starts_with("bad") && place > 1 || place == 5;
                if length > 20 || !unbounded {
                    bad(&[FIRST[1], &with_field(line, place, &ones), "end\t1"], 2);
                    bad(&[FIRST[1], &with_field(line, place, &nines), "end\t1"], 2);
                }
            }
        }
        bad(&[&format!("relay-log\t{ones}"), "end\t0"], 1);
        bad(&[FIRST[1], PING, &format!("end\t{zeros}1")], 3);
        bad(&[FIRST[1], PING, &format!("end\t{ones}")], 3);
        bad(
            &[&format!("{}relay-log\t2", " ".repeat(length)), "end\t0"],
            1,
        );
        bad(&[FIRST[1], &"\t".repeat(length), "end\t0"], 2);
        bad(
            &[
                FIRST[1],
                &format!("{PING}{}", "\t0".repeat(length)),
                "end\t1",
            ],
            2,
        );
        bad(&[FIRST[1], &"msg".repeat(length), "end\t1"], 2);
    }
    // The greatest number that has twenty digits, and one more.
    let most = u64::MAX.to_string();
    good(&[FIRST[1], &with_field(PING, 5, &most), "end\t1"], (2, 1));
    bad(
        &[
            FIRST[1],
            &with_field(PING, 5, &format!("{most}0")),
            "end\t1",
        ],
        2,
    );
}

// -------------------------------------------------------------------- random

/// How often the answers came.
#[derive(Default)]
struct Tally {
    /// Accepted, by version.
    accepted: [u64; 3],
    /// Accepted with so many messages; the last is that many or more.
    messages: [u64; 12],
    /// Refused at this line; the last is that line or a later one.
    lines: [u64; 16],
    /// Refused behind the last newline, by a line that is missing.
    missing: u64,
    /// For each kind of damage alone: accepted and refused.
    damaged: [[u64; 2]; Damage::ALL.len()],
    /// Accepted, but too few numbers are lent.
    short: u64,
}

fn count(counts: &mut [u64], index: usize) {
    counts[index.min(counts.len() - 1)] += 1;
}

#[test]
fn random_listings() {
    let cases = setting("RELAY_CASES", 200_000);
    let seed = setting("RELAY_SEED", 1);
    let first = setting("RELAY_FIRST", 0);
    let mut tally = Tally::default();
    for case in first..first + cases {
        let random = &mut Random::for_case(seed ^ 0x38, case);
        if let Err(fault) = random_listing(random, &mut tally) {
            panic!("seed {seed}, case {case}: {fault}");
        }
    }
    tally.check(cases);
}

fn random_listing(random: &mut Random, tally: &mut Tally) -> Result<(), String> {
    let lines = any_lines(random);
    let mut damage = None;
    let listing = if random.percent(30) {
        with_newlines(&lines)
    } else {
        let index = random.below(Damage::ALL.len());
        damage = Some(index);
        Damage::ALL[index].done_to(random, lines)
    };
    let expected = stored::read_listing(&listing);
    let numbers = random.pick(&[0, 1, 2, 2, 2, 2, 3, 9]);
    compare(&listing, expected, numbers)?;
    if let Some(index) = damage {
        tally.damaged[index][usize::from(expected.is_err())] += 1;
    }
    match expected {
        Ok((version, messages)) => {
            tally.accepted[version as usize] += 1;
            count(&mut tally.messages, messages as usize);
            tally.short += u64::from(numbers < 2);
        }
        Err(line) => {
            count(&mut tally.lines, line as usize);
            let whole = listing.iter().filter(|&&byte| byte == b'\n').count();
            let ended = listing.ends_with(b"\n");
            tally.missing += u64::from(ended && line as usize == whole + 1);
        }
    }
    Ok(())
}

impl Tally {
    /// Every answer must come often, or the cases show too little.
    fn check(&self, cases: u64) {
        println!("accepted {:?}, messages {:?}", self.accepted, self.messages);
        println!("lines {:?}, missing {}", self.lines, self.missing);
        for (damage, [accepted, refused]) in Damage::ALL.iter().zip(self.damaged) {
            println!("{damage:?}: accepted {accepted}, refused {refused}");
            assert!(refused >= cases / 100, "{damage:?} refused {refused} times");
        }
        for version in [1, 2] {
            let accepted = self.accepted[version];
            assert!(accepted >= cases / 20, "version {version}: {accepted}");
        }
        for (messages, &count) in self.messages.iter().enumerate() {
            assert!(count >= cases / 100, "{messages} messages: {count}");
        }
        for (line, &count) in self.lines.iter().enumerate().skip(1) {
            assert!(count >= cases / 100, "line {line}: {count}");
        }
        assert!(self.missing >= cases / 200, "missing {}", self.missing);
        assert!(self.short >= cases / 50, "short {}", self.short);
        // Damage that leaves a listing: another number, a changed digit, a
        // version that allows the same, a line that is not needed.
        for damage in [
            Damage::Number,
            Damage::Nearly,
            Damage::FieldsSwapped,
            Damage::LineLeftOut,
            Damage::OtherVersion,
            Damage::ByteChanged,
        ] {
            let accepted = self.damaged[damage as usize][0];
            assert!(accepted >= cases / 1_000, "{damage:?}: {accepted}");
        }
    }
}
