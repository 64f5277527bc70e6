//! An independent reader of stored listings, written from the words of change
//! request 6 and document 01 and from nothing else; and random listings, whole
//! and damaged.

use super::random::Random;

/// What a listing tells: its version and its messages.
pub type Told = (u32, u64);

/// What may stand in a line.
enum Due {
    First,
    /// A message, a refusal or the end.
    Any(Version),
    /// The end behind a refusal.
    End(Version),
    Nothing,
}

/// A version with its limits.
#[derive(Clone, Copy)]
struct Version {
    number: u32,
    longest: u64,
    elements: u64,
    has_big: bool,
}

const VERSION_1: Version = Version {
    number: 1,
    longest: 49_152,
    elements: 4_096,
    has_big: false,
};

const VERSION_2: Version = Version {
    number: 2,
    longest: 65_536,
    elements: 262_144,
    has_big: true,
};

/// Reads a listing; else answers the number, from 1, of the first line that is
/// bad or missing.
pub fn read_listing(listing: &[u8]) -> Result<Told, u64> {
    let mut due = Due::First;
    let mut told = (0, 0);
    let mut offset = 0;
    let mut number = 0;
    for piece in listing.split_inclusive(|&byte| byte == b'\n') {
        number += 1;
        let line = piece.strip_suffix(b"\n").ok_or(number)?;
        let fields = text_fields(line).ok_or(number)?;
        let fields: Vec<&str> = fields.iter().map(String::as_str).collect();
        due = match (due, &fields[..]) {
            (Due::First, ["relay-log", "1"]) => Due::Any(VERSION_1),
            (Due::First, ["relay-log", "2"]) => Due::Any(VERSION_2),
            (Due::Any(version), ["msg", at, length, ids @ .., flags, sequences, elements]) => {
                let [request, response] = ids else {
                    return Err(number);
                };
                let length = bounded(length, 26, version.longest).ok_or(number)?;
                let good = unsigned(at).map(u128::from) == Some(offset)
                    && signed(request)
                    && signed(response)
                    && unsigned(flags).is_some()
                    && bounded(sequences, 0, 16).is_some()
                    && bounded(elements, 0, version.elements).is_some();
                if !good {
                    return Err(number);
                }
                offset += u128::from(length);
                told.1 += 1;
                Due::Any(version)
            }
            (Due::Any(version), ["big", at, length]) if version.has_big => {
                let length = bounded(length, 65_537, 48_000_000).ok_or(number)?;
                if unsigned(at).map(u128::from) != Some(offset) {
                    return Err(number);
                }
                offset += u128::from(length);
                told.1 += 1;
                Due::Any(version)
            }
            (Due::Any(version), ["bad", at, refusal, place]) => {
                let good = unsigned(at).map(u128::from) == Some(offset)
                    && unsigned(refusal).is_some()
                    && unsigned(place).is_some();
                if !good {
                    return Err(number);
                }
                Due::End(version)
            }
            (Due::Any(version) | Due::End(version), ["end", messages]) => {
                if unsigned(messages) != Some(told.1) {
                    return Err(number);
                }
                told.0 = version.number;
                Due::Nothing
            }
            _ => return Err(number),
        };
    }
    match due {
        Due::Nothing => Ok(told),
        _ => Err(number + 1),
    }
}

/// The fields of a line, where all of it is text.
fn text_fields(line: &[u8]) -> Option<Vec<String>> {
    let fields = line.split(|&byte| byte == b'\t');
    fields
        .map(|field| String::from_utf8(field.to_vec()).ok())
        .collect()
}

/// An unsigned 64-bit number in the one way to write it.
fn unsigned(field: &str) -> Option<u64> {
    let number: u64 = field.parse().ok()?;
    (number.to_string() == field).then_some(number)
}

fn bounded(field: &str, least: u64, most: u64) -> Option<u64> {
    unsigned(field).filter(|number| (least..=most).contains(number))
}

/// Whether the field is a signed 32-bit number in the one way to write it.
fn signed(field: &str) -> bool {
    let number: Result<i32, _> = field.parse();
    number.is_ok_and(|number| number.to_string() == field)
}

// ---------------------------------------------------------- random listings

/// Numbers at which rules change, and their neighbours.
const NUMBERS: [&str; 40] = [
    "",
    "0",
    "00",
    "-0",
    "+0",
    "1",
    "01",
    "+1",
    "-1",
    "-01",
    "2",
    "3",
    "16",
    "17",
    "25",
    "26",
    "4096",
    "4097",
    "49152",
    "49153",
    "65536",
    "65537",
    "262144",
    "262145",
    "48000000",
    "48000001",
    "2147483647",
    "2147483648",
    "-2147483648",
    "-2147483649",
    "4294967295",
    "4294967296",
    "9223372036854775807",
    "9223372036854775808",
    "18446744073709551615",
    "18446744073709551616",
    "18446744073709551642",
    "36893488147419103232",
    "99999999999999999999",
    "100000000000000000000000000000000000000000",
];

/// A number from 0 to the most, often at its end.
fn any_number(random: &mut Random, most: u64) -> u64 {
    match random.below(6) {
        0 => 0,
        1 => most,
        2 => most.saturating_sub(1),
        3 => most & random.next() & 0xFF,
        _ => match most {
            u64::MAX => random.next() >> random.below(64),
            _ => random.next() % (most + 1),
        },
    }
}

/// The lines of a listing, each without its newline.
pub fn any_lines(random: &mut Random) -> Vec<String> {
    let version = random.pick(&[VERSION_1, VERSION_2, VERSION_2]);
    let count = match random.below(10) {
        0 => 0,
        1 => random.between(16, 40),
        _ => random.between(1, 15),
    };
    let mut lines = vec![format!("relay-log\t{}", version.number)];
    let mut offset = 0;
    for _ in 0..count {
        let length = if version.has_big && random.percent(25) {
            let length = 65_537 + any_number(random, 48_000_000 - 65_537);
            lines.push(format!("big\t{offset}\t{length}"));
            length
        } else {
            let length = 26 + any_number(random, version.longest - 26);
            let [request, response] = [random.i32(), random.i32()];
            let flags = any_number(random, u64::MAX);
            let sequences = any_number(random, 16);
            let elements = any_number(random, version.elements);
            lines.push(format!(
                "msg\t{offset}\t{length}\t{request}\t{response}\t{flags}\t{sequences}\t{elements}"
            ));
            length
        };
        offset += length;
    }
    if random.percent(40) {
        let number = any_number(random, u64::MAX);
        let place = any_number(random, u64::MAX);
        lines.push(format!("bad\t{offset}\t{number}\t{place}"));
    }
    lines.push(format!("end\t{count}"));
    lines
}

/// The lines with a newline behind each.
pub fn with_newlines(lines: &[String]) -> Vec<u8> {
    lines
        .iter()
        .flat_map(|line| format!("{line}\n").into_bytes())
        .collect()
}

/// How the lines or bytes of a listing are damaged.
#[derive(Clone, Copy, Debug, PartialEq, Eq)]
pub enum Damage {
    /// A field becomes another number.
    Number,
    /// A number that is there becomes greater or less by a little.
    Nearly,
    FieldLeftOut,
    FieldPutIn,
    FieldsSwapped,
    LinesSwapped,
    LineTwice,
    LineLeftOut,
    LinePutIn,
    /// A line gets another's first word.
    OtherWord,
    OtherVersion,
    ByteChanged,
    BytePutIn,
    ByteLeftOut,
    Cut,
}

impl Damage {
    pub const ALL: [Damage; 15] = [
        Damage::Number,
        Damage::Nearly,
        Damage::FieldLeftOut,
        Damage::FieldPutIn,
        Damage::FieldsSwapped,
        Damage::LinesSwapped,
        Damage::LineTwice,
        Damage::LineLeftOut,
        Damage::LinePutIn,
        Damage::OtherWord,
        Damage::OtherVersion,
        Damage::ByteChanged,
        Damage::BytePutIn,
        Damage::ByteLeftOut,
        Damage::Cut,
    ];

    /// The damaged listing.
    pub fn done_to(self, random: &mut Random, mut lines: Vec<String>) -> Vec<u8> {
        let at = random.below(lines.len());
        let other = random.below(lines.len());
        match self {
            Damage::LinesSwapped => lines.swap(at, other),
            Damage::LineTwice => lines.insert(other, lines[at].clone()),
            Damage::LineLeftOut => drop(lines.remove(at)),
            Damage::LinePutIn => {
                let line = random.pick(&["", "msg", "end\t0", "bad\t0\t1\t0", "# no line", "\t"]);
                lines.insert(at, line.to_string());
            }
            Damage::OtherWord => {
                let word = random.pick(&["relay-log", "msg", "big", "bad", "end", "", "Msg", "ms"]);
                let (_, rest) = lines[at].split_once('\t').expect("a field");
                lines[at] = format!("{word}\t{rest}");
            }
            Damage::OtherVersion => {
                let version = random.pick(&["0", "1", "1", "1", "2", "2", "3", "01", "-1", ""]);
                lines[0] = format!("relay-log\t{version}");
            }
            Damage::ByteChanged | Damage::BytePutIn | Damage::ByteLeftOut | Damage::Cut => {
                return self.done_to_bytes(random, with_newlines(&lines));
            }
            _ => self.done_to_fields(random, &mut lines[at]),
        }
        with_newlines(&lines)
    }

    fn done_to_fields(self, random: &mut Random, line: &mut String) {
        let mut fields: Vec<String> = line.split('\t').map(String::from).collect();
        let at = random.between(1, fields.len() - 1);
        match self {
            Damage::Number => fields[at] = random.pick(&NUMBERS).to_string(),
            Damage::Nearly => {
                let by = random.pick(&[-2, -1, 1, 2, 1 << 32, 1 << 64]);
                if let Ok(number) = fields[at].parse::<i128>() {
                    fields[at] = (number + by).to_string();
                }
            }
            Damage::FieldLeftOut => drop(fields.remove(at)),
            Damage::FieldPutIn => fields.insert(at, random.pick(&["", "0", "1"]).to_string()),
            _ => {
                let other = random.between(1, fields.len() - 1);
                fields.swap(at, other);
            }
        }
        *line = fields.join("\t");
    }

    fn done_to_bytes(self, random: &mut Random, mut bytes: Vec<u8>) -> Vec<u8> {
        let at = random.below(bytes.len());
        let byte = match random.below(4) {
            0 => random.byte(),
            1 => random.pick(b"\t\n\r\0 +-.\xFF"),
            _ => random.pick(b"0123456789"),
        };
        match self {
            Damage::ByteChanged => bytes[at] = byte,
            Damage::BytePutIn => bytes.insert(random.pick(&[at, at, at, bytes.len()]), byte),
            Damage::ByteLeftOut => drop(bytes.remove(random.pick(&[at, at, at, bytes.len() - 1]))),
            _ => bytes.truncate(at),
        }
        bytes
    }
}
