// Makes streams, and times three programs on them in one run: relay_log, the listing of plain.rs, and cat. `run` builds and starts it.
use std::fs::File;
use std::io::Write;
use std::ops::Range;
use std::process::{Command, Stdio};
use std::time::Instant;

#[path = "../../host/bench/plain.rs"]
mod plain;

const PROGRAMS: [&str; 3] = ["crates/relay_log/out/relay_log", "target/listing-plain", "cat"];
const ROUNDS: usize = 9;
const SIZE: usize = 100_000_000;

struct Random(u64);

impl Random {
    fn below(&mut self, n: usize) -> usize {
        self.0 = self.0.wrapping_mul(6364136223846793005).wrapping_add(1442695040888963407);
        (self.0 >> 33) as usize % n
    }
}

// ---------------------------------------------------------------- streams

fn element(kind: u8, name: &str, value: &[u8]) -> Vec<u8> {
    [&[kind], name.as_bytes(), &[0], value].concat()
}

fn text(name: &str, text: &str) -> Vec<u8> {
    let length = text.len() as i32 + 1;
    element(2, name, &[&length.to_le_bytes(), text.as_bytes(), &[0]].concat())
}

fn document(elements: &[Vec<u8>]) -> Vec<u8> {
    let body = elements.concat();
    let length = body.len() as i32 + 5;
    [&length.to_le_bytes(), &body[..], &[0]].concat()
}

/// A record of some 170 bytes with nine elements.
fn record(r: &mut Random) -> Vec<u8> {
    let mut double = |name| element(1, name, &(r.below(1 << 30) as f64 / 1e6).to_le_bytes());
    let flow = document(&[double("low"), double("high")]);
    let numbers = [double("mass"), double("seconds"), double("uncertainty")];
    let remark = &"The meter ran for an hour at the middle flow, and its error stayed small."[..20 + r.below(50)];
    document(&[text("meter", "FM-2041-DN50"), numbers.concat(), element(3, "flow", &flow), element(8, "signed", &[1]), text("remark", remark)])
}

/// An insert with a sequence of records, which end just before a length in the range.
fn insert(r: &mut Random, range: Range<usize>, checksum: bool) -> Vec<u8> {
    let most = range.start + r.below(range.len());
    let body = document(&[text("insert", "runs"), element(8, "ordered", &[1]), text("$db", "certificates")]);
    let mut message = vec![0; 20];
    message[12..16].copy_from_slice(&2013i32.to_le_bytes());
    message[16] = u8::from(checksum);
    message.push(0);
    message.extend(body);
    message.push(1);
    let sized = message.len();
    message.extend([0; 4]);
    message.extend(b"documents\0");
    loop {
        let next = record(r);
        if message.len() + next.len() + 4 > most {
            break;
        }
        message.extend(next);
    }
    let size = (message.len() - sized) as i32;
    message[sized..sized + 4].copy_from_slice(&size.to_le_bytes());
    let length = (message.len() + if checksum { 4 } else { 0 }) as i32;
    message[..4].copy_from_slice(&length.to_le_bytes());
    message[4..8].copy_from_slice(&(r.below(1 << 31) as i32).to_le_bytes());
    if checksum {
        let crc = plain::crc32c(&message);
        message.extend(crc.to_le_bytes());
    }
    message
}

/// A message that is passed over: a length and random bytes.
fn long(r: &mut Random) -> Vec<u8> {
    let length = 65_537 + r.below(4_000_000);
    let mut message: Vec<u8> = (0..length).map(|_| r.below(256) as u8).collect();
    message[..4].copy_from_slice(&(length as i32).to_le_bytes());
    message
}

const USUAL: Range<usize> = 2_000..60_000;
const STREAMS: [(&str, fn(&mut Random) -> Vec<u8>); 4] = [
    ("2 to 60 KB", |r| insert(r, USUAL, false)),
    ("with checksums", |r| insert(r, USUAL, true)),
    ("about 300 bytes", |r| insert(r, 300..400, false)),
    ("every fourth big", |r| if r.below(4) > 0 { insert(r, USUAL, false) } else { long(r) }),
];

fn stream(next: fn(&mut Random) -> Vec<u8>) -> Vec<u8> {
    let (mut r, mut data) = (Random(1), Vec::new());
    while data.len() < SIZE {
        data.extend(next(&mut r));
    }
    data
}

// ----------------------------------------------------------------- timing

/// Seconds from the start of the program to its end.
fn time(program: &str, file: &str, piped: Option<&[u8]>) -> f64 {
    let start = Instant::now();
    let mut command = Command::new(program);
    command.stdout(File::create("/dev/null").expect("/dev/null"));
    let mut child = match piped {
        Some(_) => command.stdin(Stdio::piped()).spawn(),
        None => command.arg(file).spawn(),
    }
    .expect(program);
    if let Some(data) = piped {
        let mut pipe = child.stdin.take().expect("a pipe");
        pipe.write_all(data).expect("all is read");
    }
    assert!(child.wait().expect(program).success());
    start.elapsed().as_secs_f64()
}

fn listing(program: &str, file: &str) -> Vec<u8> {
    Command::new(program).arg(file).output().expect(program).stdout
}

fn main() {
    let file = "target/listing-bench.stream";
    println!("MB/s over streams of {} MB (1 MB = 1,000,000 bytes): wall time of a process from its start to its end, which", SIZE / 1_000_000);
    println!("reads a pipe that is kept full, or a file in the page cache, and writes to /dev/null; medians of {ROUNDS} rounds, in which");
    println!("the programs take turns. relay_log and plain Rust list the same lines; cat reads and writes all bytes.");
    println!("stream              messages   big  from   relay_log  plain Rust     cat   relay_log/plain  relay_log/cat");
    for (name, next) in STREAMS {
        let data = stream(next);
        std::fs::write(file, &data).expect(file);
        let lines = listing(PROGRAMS[0], file);
        assert!(lines == listing(PROGRAMS[1], file), "both list the same");
        let count = |kind: &[u8]| lines.split(|&b| b == b'\n').filter(|l| l.starts_with(kind)).count();
        let (messages, big) = (count(b"msg") + count(b"big"), count(b"big"));
        assert_eq!(count(b"bad"), 0);
        for (from, piped) in [("pipe", Some(&data[..])), ("file", None)] {
            let mut times = [const { Vec::new() }; PROGRAMS.len()];
            for _ in 0..ROUNDS {
                for (k, program) in PROGRAMS.iter().enumerate() {
                    times[k].push(time(program, file, piped));
                }
            }
            let [ours, plain, cat] = times.map(|mut t| {
                t.sort_by(f64::total_cmp);
                data.len() as f64 / 1e6 / t[ROUNDS / 2]
            });
            print!("{name:<18}{messages:>10}{big:>6}{from:>6}{ours:>12.0}{plain:>12.0}{cat:>8.0}");
            println!("{:>18.2}{:>15.2}", ours / plain, ours / cat);
        }
    }
    std::fs::remove_file(file).expect(file);
}
