// Lists a stream as relay_log does, line for line, with the plain reader of host/bench and a buffer of the same length.
use std::fs::File;
use std::io::{self, BufWriter, Read, Write};

#[path = "../../host/bench/plain.rs"]
mod plain;

const HOUSE: plain::Edition = plain::Edition { bits: 0x10003, sequences: true };
const ROOM: usize = 65_536;

/// The length that a header states.
fn stated(bytes: &[u8]) -> i32 {
    i32::from_le_bytes(bytes[..4].try_into().expect("four bytes"))
}

fn is_long(length: i32) -> bool {
    (ROOM as i32 + 1..=plain::MAX_LENGTH as i32).contains(&length)
}

/// How many bytes are wanted at hand: the header, then the whole message if it fits.
fn wanted(bytes: &[u8]) -> usize {
    match bytes.len() {
        0..16 => 16,
        _ if stated(bytes) <= ROOM as i32 => stated(bytes).max(16) as usize,
        _ => 16,
    }
}

/// Whether so many bytes more could be passed over.
fn passes(input: &mut dyn Read, buffer: &mut [u8], mut left: usize) -> io::Result<bool> {
    while left > 0 {
        let n = input.read(&mut buffer[..left.min(ROOM)])?;
        if n == 0 {
            return Ok(false);
        }
        left -= n;
    }
    Ok(true)
}

fn list(input: &mut dyn Read, out: &mut dyn Write) -> io::Result<()> {
    let mut buffer = vec![0; ROOM];
    let (mut at, mut end, mut ended) = (0, 0, false);
    let (mut offset, mut messages) = (0, 0);
    writeln!(out, "relay-log\t2")?;
    loop {
        while !ended && end - at < wanted(&buffer[at..end]) {
            buffer.copy_within(at..end, 0);
            (at, end) = (0, end - at);
            let n = input.read(&mut buffer[end..])?;
            ended = n == 0;
            end += n;
        }
        let bytes = &buffer[at..end];
        if bytes.is_empty() {
            break;
        }
        let refused = if bytes.len() >= 16 && is_long(stated(bytes)) {
            let length = stated(bytes) as usize;
            let left = length - bytes.len();
            if passes(input, &mut buffer, left)? {
                writeln!(out, "big\t{offset}\t{length}")?;
                (at, end) = (0, 0);
                offset += length;
                None
            } else {
                Some((3, 0))
            }
        } else {
            match plain::read(HOUSE, bytes) {
                Ok(v) => {
                    let (request, response, sequences) = (v.request_id, v.response_to, v.used - 1);
                    writeln!(out, "msg\t{offset}\t{}\t{request}\t{response}\t{}\t{sequences}\t{}", v.length, v.flags, v.elements)?;
                    at += v.length;
                    offset += v.length;
                    None
                }
                Err(refused) => Some(refused),
            }
        };
        if let Some((number, place)) = refused {
            writeln!(out, "bad\t{offset}\t{number}\t{place}")?;
            break;
        }
        messages += 1;
    }
    writeln!(out, "end\t{messages}")?;
    out.flush()
}

fn main() -> io::Result<()> {
    let mut input: Box<dyn Read> = match std::env::args().nth(1) {
        Some(name) => Box::new(File::open(name)?),
        None => Box::new(File::open("/dev/stdin")?),
    };
    list(&mut *input, &mut BufWriter::new(io::stdout().lock()))
}
