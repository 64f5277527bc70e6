//! Holds the library against the independent reader on random cases: every
//! call, many editions, whole and damaged messages, outputs and views that are
//! too short, just long enough and longer. The answer, every byte of the
//! output and every number of the view are compared, also those that must
//! stay, and so are the lent inputs and some bytes around the output and view.
//!
//! A longer run is one command:
//!
//! ```text
//! RELAY_CASES=20000000 RELAY_SEED=2 cargo test --release --test agreement -- --nocapture
//! ```
//!
//! RELAY_CASES is the number of cases (200,000 if not set), RELAY_SEED the
//! seed (1). A failure names its seed and case; RELAY_FIRST=<case>
//! RELAY_CASES=1 with that seed makes that case alone again.

mod common;

use common::bson::*;
use common::damage::damage;
use common::dotted::{dotted_identifier, Told};
use common::generate::*;
use common::random::Random;
use common::reference::{self, Clash, Edition, Refused, View};
use common::reference::{MAX_MESSAGE, MAX_SECTIONS, VIEW_NUMBERS};
use common::text::{any_text, faulty_text, Faults};
use common::{message::get_u32, setting};
use relay::ffi;
use std::fmt::Write as _;
use std::sync::atomic::{AtomicBool, Ordering};
use std::thread;

/// Bytes or numbers around an output or view, to see that they stay. It is
/// odd, so that no output stands at an even place.
const GUARD: usize = 9;

const CALLS: [&str; 5] = ["read", "forward", "write", "append", "move"];

/// A call with its inputs.
enum Call {
    Read {
        message: Vec<u8>,
    },
    Forward {
        message: Vec<u8>,
    },
    Write {
        request_id: i32,
        response_to: i32,
        flags: u32,
        body: Vec<u8>,
    },
    Append {
        message: Vec<u8>,
        identifier: Vec<u8>,
        documents: Vec<u8>,
    },
    Move {
        message: Vec<u8>,
        behind: u32,
    },
}

struct Case {
    bits: u32,
    sequences: u8,
    call: Call,
    /// The output's length.
    room: usize,
    /// The view's length.
    numbers: usize,
    /// What the output and view are filled with first.
    pattern: u64,
}

/// What a call answered and left behind.
#[derive(PartialEq)]
struct Outcome {
    result: u64,
    output: Vec<u8>,
    view: Vec<i64>,
    inputs_stay: bool,
}

// ------------------------------------------------------------------- cases

fn any_case(random: &mut Random) -> Case {
    let edition = any_edition(random);
    let call = match random.below(5) {
        0 => Call::Read {
            message: any_message(random, &edition, 60),
        },
        1 => Call::Forward {
            message: any_message(random, &edition, 30),
        },
        2 => any_write(random, &edition),
        3 => any_append(random, &edition),
        _ => any_move(random, &edition),
    };
    let sequences = if edition.sequences {
        random.pick(&[1, 1, 1, 2, 128, 255])
    } else {
        0
    };
    Case {
        bits: edition.bits,
        sequences,
        room: any_room(random, call.needed()),
        numbers: any_view_length(random),
        pattern: random.next(),
        call,
    }
}

/// A message, of a hundred so many with something wrong, and at times with
/// bytes after it. Seldom it has about as many elements as there may be.
fn any_message(random: &mut Random, edition: &Edition, wrong: usize) -> Vec<u8> {
    let mut bytes = if random.below(250) == 0 {
        overcrowded_draft(random, edition).bytes()
    } else if !random.percent(wrong) {
        any_draft(random, edition).bytes()
    } else if random.percent(50) {
        faulty_draft(random, edition).bytes()
    } else {
        let mut bytes = if random.percent(20) {
            faulty_draft(random, edition).bytes()
        } else {
            any_draft(random, edition).bytes()
        };
        for _ in 0..random.pick(&[1, 1, 2]) {
            damage(random, &mut bytes);
        }
        bytes
    };
    if random.percent(25) {
        let more = random.between(1, 40);
        bytes.extend(random.bytes(more));
    }
    bytes
}

fn any_write(random: &mut Random, edition: &Edition) -> Call {
    let flags = if random.percent(80) {
        edition.bits & random.next() as u32
    } else {
        any_flags(random, edition)
    };
    Call::Write {
        request_id: random.i32(),
        response_to: random.i32(),
        flags,
        body: any_body(random, flags),
    }
}

fn any_body(random: &mut Random, flags: u32) -> Vec<u8> {
    let style = any_style(random);
    match random.below(20) {
        0..=10 => any_document(random, style),
        11 => bad_text_document(random),
        12..=14 => {
            let faulty = Style {
                faults: 15,
                width: 8,
                ..style
            };
            any_document(random, faulty)
        }
        15 => {
            let mut body = any_document(random, style);
            let keep = random.below(body.len() + 1);
            body.truncate(keep);
            body
        }
        16 => {
            let more = random.between(1, 6);
            [any_document(random, style), random.bytes(more)].concat()
        }
        17 => {
            let levels = random.between(30, 34);
            deep_document(random, levels)
        }
        18 if random.percent(30) => {
            let count = match random.below(5) {
                0 => any_overcrowd(random),
                _ => random.between(MANY - 6, MANY + 6),
            };
            crowded_document(random, count)
        }
        18 => {
            let frame = 21 + if flags & 1 == 1 { 4 } else { 0 };
            if random.percent(6) {
                return huge(random, frame);
            }
            let body = any_document(random, style);
            let target = random.between(LONG - 2, LONG + 2);
            padded(&body, target - frame - body.len())
        }
        _ => {
            let length = random.below(12);
            random.bytes(length)
        }
    }
}

/// Bytes that make, with so many others, a message of about the greatest
/// length. They are not looked at: either that is too long, or there is no room
/// for it.
fn huge(random: &mut Random, others: usize) -> Vec<u8> {
    let target = random.between(MAX_MESSAGE - 1, MAX_MESSAGE + 4);
    vec![0; target - others]
}

fn any_append(random: &mut Random, edition: &Edition) -> Call {
    let message = any_message(random, edition, 12);
    let documents = any_run(random, message.len());
    Call::Append {
        identifier: any_identifier(random, edition, &message),
        message,
        documents,
    }
}

fn any_move(random: &mut Random, edition: &Edition) -> Call {
    let message = any_message(random, edition, 30);
    let behind = any_behind(random, edition, &message);
    Call::Move { message, behind }
}

fn any_identifier(random: &mut Random, edition: &Edition, message: &[u8]) -> Vec<u8> {
    match random.below(25) {
        0 => Vec::new(),
        1 => b"with\0zero".to_vec(),
        2 => vec![0],
        3 => b"trailing\0".to_vec(),
        4..=7 => taken_identifier(edition, message).unwrap_or_else(|| b"free".to_vec()),
        8 => faulty_text(random),
        9..=15 => identifier_with_dots(random, edition, message)
            .unwrap_or_else(|| b"free.of.dots".to_vec()),
        _ => {
            let length = random.between(1, 9);
            any_text(random, length)
        }
    }
}

/// The identifier of the last sequence, or else the first name in the body.
fn taken_identifier(edition: &Edition, message: &[u8]) -> Option<Vec<u8>> {
    let view = reference::read(edition, message).ok()?;
    if let Some(sequence) = view.sequences().last() {
        return Some(message[sequence.identifier.clone()].to_vec());
    }
    let name = &message[view.body().start + 5..view.body().end];
    let zero = name.iter().position(|&byte| byte == 0)?;
    (zero > 0).then(|| name[..zero].to_vec())
}

/// An identifier with dots that leads to a name in the body or nearly so.
fn identifier_with_dots(random: &mut Random, edition: &Edition, message: &[u8]) -> Option<Vec<u8>> {
    let (_, body) = reference::read_before_24(edition, message).ok()?;
    let clashes = random.percent(70);
    dotted_identifier(random, message, &body, clashes)
}

/// A run of documents for a message of this length.
fn any_run(random: &mut Random, message: usize) -> Vec<u8> {
    let style = any_style(random);
    match random.below(30) {
        0..=2 => {
            let faulty = Style {
                faults: 15,
                ..style
            };
            any_documents(random, faulty)
        }
        3 => {
            let length = random.below(20);
            random.bytes(length)
        }
        4 => {
            let levels = random.between(31, 33);
            deep_document(random, levels)
        }
        5 if random.percent(30) => {
            let count = match random.below(10) {
                0 => any_overcrowd(random),
                _ => random.between(MANY - 6, MANY + 6),
            };
            crowded_document(random, count)
        }
        // The identifier and what follows the message make it more or less.
        5 if random.percent(8) => {
            let less = random.below(24);
            huge(random, message + less)
        }
        5 if message + 60 < LONG => {
            let target = LONG - random.below(24);
            padded(&EMPTY, target - message - EMPTY.len())
        }
        6 => [any_documents(random, style), bad_text_document(random)].concat(),
        _ => any_documents(random, style),
    }
}

/// An output's length: too short, just right, or longer. For a message of about
/// the greatest length it is too short.
fn any_room(random: &mut Random, needed: usize) -> usize {
    match random.below(20) {
        _ if needed > MAX_MESSAGE - 100 => random.below(100),
        0 => needed.saturating_sub(1),
        1 => random.below(needed + 1),
        2 => 0,
        3..=9 => needed,
        10 => needed + 1,
        _ => needed + random.between(1, 80),
    }
}

fn any_view_length(random: &mut Random) -> usize {
    match random.below(20) {
        0 => random.pick(&[0, 5, 11, 88, 106, 106, 106]),
        1..=5 => VIEW_NUMBERS + random.between(1, 12),
        _ => VIEW_NUMBERS,
    }
}

impl Call {
    fn index(&self) -> usize {
        match self {
            Call::Read { .. } => 0,
            Call::Forward { .. } => 1,
            Call::Write { .. } => 2,
            Call::Append { .. } => 3,
            Call::Move { .. } => 4,
        }
    }

    /// The length that the output must have, if all goes well.
    fn needed(&self) -> usize {
        match self {
            Call::Read { .. } => 0,
            Call::Forward { message } | Call::Move { message, .. } => stated_length(message),
            Call::Write { flags, body, .. } => 21 + body.len() + 4 * (flags & 1) as usize,
            Call::Append {
                message,
                identifier,
                documents,
            } => stated_length(message) + 6 + identifier.len() + documents.len(),
        }
    }

    /// The slices that are lent to read from.
    fn inputs(&self) -> Vec<&[u8]> {
        match self {
            Call::Read { message } | Call::Forward { message } | Call::Move { message, .. } => {
                vec![message]
            }
            Call::Write { body, .. } => vec![body],
            Call::Append {
                message,
                identifier,
                documents,
            } => vec![message, identifier, documents],
        }
    }
}

/// messageLength where the buffer has so many bytes, else the buffer's length.
fn stated_length(message: &[u8]) -> usize {
    if message.len() < 4 {
        return message.len();
    }
    let stated = get_u32(message, 0) as usize;
    stated.min(message.len())
}

// ---------------------------------------------------------------- outcomes

impl Case {
    fn edition(&self) -> Edition {
        Edition {
            bits: self.bits,
            sequences: self.sequences != 0,
        }
    }

    /// The output, with its guards, before the call.
    fn fresh_output(&self) -> Vec<u8> {
        let start = self.pattern as u8;
        (0..self.room + 2 * GUARD)
            .map(|i| start.wrapping_add((i % 251) as u8))
            .collect()
    }

    /// The view, with its guards, before the call.
    fn fresh_view(&self) -> Vec<i64> {
        (0..self.numbers + 2 * GUARD)
            .map(|i| (self.pattern as i64).wrapping_mul(2 * i as i64 + 1))
            .collect()
    }

    /// What the rules say.
    fn expected(&self) -> (Outcome, Result<View, Refused>) {
        let mut answer = self.reference_answer();
        if answer.is_ok() && self.numbers < VIEW_NUMBERS {
            answer = Err(Refused::new(25, 0));
        }
        let mut outcome = Outcome {
            result: 0,
            output: self.fresh_output(),
            view: self.fresh_view(),
            inputs_stay: true,
        };
        let answer = answer.map(|(view, message)| {
            outcome.output[GUARD..GUARD + message.len()].copy_from_slice(&message);
            outcome.view[GUARD..GUARD + VIEW_NUMBERS].copy_from_slice(&view.numbers());
            view
        });
        if let Err(refused) = answer {
            outcome.result = u64::from(refused.number) << 32 | refused.place as u64;
        }
        (outcome, answer)
    }

    fn reference_answer(&self) -> Result<reference::Written, Refused> {
        let edition = self.edition();
        match &self.call {
            Call::Read { message } => {
                reference::read(&edition, message).map(|view| (view, Vec::new()))
            }
            Call::Forward { message } => reference::forward(&edition, message, self.room),
            Call::Write {
                request_id,
                response_to,
                flags,
                body,
            } => reference::write(&edition, *request_id, *response_to, *flags, body, self.room),
            Call::Append {
                message,
                identifier,
                documents,
            } => reference::append(&edition, message, identifier, documents, self.room),
            Call::Move { message, behind } => {
                reference::move_body(&edition, message, *behind, self.room)
            }
        }
    }

    /// What the library does with copies of the inputs, which start at any
    /// place of a word.
    fn actual(&self) -> Outcome {
        let mut output = self.fresh_output();
        let mut view = self.fresh_view();
        let shift = (self.pattern % 8) as usize;
        let inputs = self.call.inputs();
        let lent: Vec<Vec<u8>> = inputs
            .iter()
            .map(|input| [&[0x99; 8][..shift], input].concat())
            .collect();
        let result = self.call_library(
            |index| &lent[index][shift..],
            &mut output[GUARD..GUARD + self.room],
            &mut view[GUARD..GUARD + self.numbers],
        );
        let inputs_stay = lent.iter().zip(inputs).all(|(l, i)| &l[shift..] == i);
        Outcome {
            result,
            output,
            view,
            inputs_stay,
        }
    }

    fn call_library<'a>(
        &self,
        input: impl Fn(usize) -> &'a [u8],
        output: &mut [u8],
        view: &mut [i64],
    ) -> u64 {
        let (bits, sequences) = (self.bits, self.sequences);
        match self.call {
            Call::Read { .. } => ffi::read(bits, sequences, input(0), view),
            Call::Forward { .. } => ffi::forward(bits, sequences, input(0), output, view),
            Call::Write {
                request_id,
                response_to,
                flags,
                ..
            } => ffi::write(
                bits,
                sequences,
                request_id,
                response_to,
                flags,
                input(0),
                output,
                view,
            ),
            Call::Append { .. } => {
                ffi::append(bits, sequences, input(0), input(1), input(2), output, view)
            }
            Call::Move { behind, .. } => {
                ffi::move_body(bits, sequences, input(0), behind, output, view)
            }
        }
    }

    /// The case in words, for a failure.
    fn describe(&self) -> String {
        let mut text = format!(
            "{}, bits {:#x}, sequences {}, output of {}, view of {}",
            CALLS[self.call.index()],
            self.bits,
            self.sequences,
            self.room,
            self.numbers
        );
        match &self.call {
            Call::Read { message } | Call::Forward { message } => {
                show(&mut text, "message", message)
            }
            Call::Write {
                request_id,
                response_to,
                flags,
                body,
            } => {
                let _ = write!(text, "\nids {request_id} {response_to}, flags {flags:#x}");
                show(&mut text, "body", body);
            }
            Call::Append {
                message,
                identifier,
                documents,
            } => {
                show(&mut text, "message", message);
                show(&mut text, "identifier", identifier);
                show(&mut text, "documents", documents);
            }
            Call::Move { message, behind } => {
                let _ = write!(text, "\nbehind {behind}");
                show(&mut text, "message", message);
            }
        }
        text
    }
}

/// Adds the first bytes in hexadecimal.
fn show(text: &mut String, what: &str, bytes: &[u8]) {
    let _ = write!(text, "\n{what}, {} bytes:", bytes.len());
    for byte in bytes.iter().take(400) {
        let _ = write!(text, " {byte:02X}");
    }
}

/// Where and how two outcomes differ.
fn difference(expected: &Outcome, actual: &Outcome) -> String {
    let mut text = format!(
        "expected {} at {}, library {} at {}",
        expected.result >> 32,
        expected.result as u32,
        actual.result >> 32,
        actual.result as u32
    );
    if let Some(at) = first_difference(&expected.output, &actual.output) {
        let place = at as i64 - GUARD as i64;
        let (right, wrong) = (expected.output[at], actual.output[at]);
        let _ = write!(
            text,
            "; output byte {place}: expected {right:#04x}, library {wrong:#04x}"
        );
    }
    if let Some(at) = first_difference(&expected.view, &actual.view) {
        let place = at as i64 - GUARD as i64;
        let (right, wrong) = (expected.view[at], actual.view[at]);
        let _ = write!(
            text,
            "; view number {place}: expected {right}, library {wrong}"
        );
    }
    if !actual.inputs_stay {
        text.push_str("; a lent input changed");
    }
    text
}

fn first_difference<T: PartialEq>(left: &[T], right: &[T]) -> Option<usize> {
    left.iter().zip(right).position(|(l, r)| l != r)
}

// ------------------------------------------------------------------- tally

const FEATURES: [&str; 15] = [
    "accepted with over 49,152 bytes",
    "accepted with over 4,096 elements",
    "accepted with 16 sequences",
    "accepted, body not first",
    "accepted with a checksum",
    "accepted, requestID under 0",
    "forward clears a bit",
    "forward clears a bit and renews a checksum",
    "move to where the body stands",
    "move nearer to the front",
    "move nearer to the end",
    "move among 16 sequences",
    "move under a checksum",
    "move clears a bit",
    "move clears a bit under a checksum",
];

/// The refusals that writing can give.
const WRITE_NUMBERS: [usize; 12] = [2, 8, 15, 16, 17, 18, 19, 20, 21, 23, 25, 27];

/// The refusals that there are.
fn refusals() -> impl Iterator<Item = usize> {
    (1..=25).chain([27, 28])
}

/// Whether a call can give this refusal: a move can give all.
fn can_refuse(call: &str, number: usize) -> bool {
    match call {
        "move" => true,
        "write" => WRITE_NUMBERS.contains(&number),
        _ => number != 28,
    }
}

/// How often each answer came.
#[derive(Default)]
struct Tally {
    /// For each call: accepted at 0, refused with number n at n.
    answers: [[u64; 29]; CALLS.len()],
    features: [u64; FEATURES.len()],
    /// Accepted messages by the place of their body, moved ones where it stood.
    places: [u64; MAX_SECTIONS],
    /// Moved ones by its new place.
    targets: [u64; MAX_SECTIONS],
    /// 28 where the output or the view is too short as well.
    far_and_short: u64,
    faults: Faults,
    /// For each call: 24 where an identifier leads to a name, in append the new
    /// identifier.
    paths: [u64; CALLS.len()],
    told: Told,
}

impl Tally {
    fn note(&mut self, case: &Case, answer: &Result<View, Refused>) {
        self.note_path(case, answer);
        let row = &mut self.answers[case.call.index()];
        match answer {
            Err(refused) => {
                row[refused.number as usize] += 1;
                self.faults.note(refused);
                let short = case.room < case.call.needed() || case.numbers < VIEW_NUMBERS;
                self.far_and_short += u64::from(refused.number == 28 && short);
            }
            Ok(view) => {
                row[0] += 1;
                self.note_features(case, view);
            }
        }
    }

    /// Counts a case that came to check 24.
    fn note_path(&mut self, case: &Case, answer: &Result<View, Refused>) {
        let refused = answer.as_ref().err();
        if refused.is_some_and(|refused| refused.number != 24) {
            return;
        }
        let (message, new) = match &case.call {
            Call::Read { message } | Call::Forward { message } | Call::Move { message, .. } => {
                (message, None)
            }
            Call::Append {
                message,
                identifier,
                ..
            } => (message, Some(&identifier[..])),
            Call::Write { .. } => return,
        };
        // Behind the message stands what is new.
        let of_message = refused.is_some_and(|refused| refused.place < stated_length(message));
        let new = new.filter(|_| !of_message);
        self.told.note(&case.edition(), message, new);
        let by_path = refused.is_some_and(|refused| refused.clash == Some(Clash::Path));
        let counted = !matches!(case.call, Call::Append { .. }) || new.is_some();
        self.paths[case.call.index()] += u64::from(by_path && counted);
    }

    fn note_features(&mut self, case: &Case, view: &View) {
        let sum = view.flags & 1 == 1;
        let cleared = |message: &[u8]| get_u32(message, 16) != view.flags;
        let forward_clears = match &case.call {
            Call::Forward { message } => cleared(message),
            _ => false,
        };
        let last = view.sections.len() - 1;
        let place = view.behind();
        let mut stood = place;
        let mut move_clears = false;
        let mut moved = false;
        if let Call::Move { message, .. } = &case.call {
            let old = reference::read(&case.edition(), message).expect("moved");
            stood = old.behind();
            move_clears = cleared(message);
            moved = true;
            self.targets[place] += 1;
        }
        self.places[stood] += 1;
        let seen = [
            view.length > LONG,
            view.elements > MANY,
            last == reference::MAX_SEQUENCES,
            place != 0,
            sum,
            view.request_id < 0,
            forward_clears,
            forward_clears && sum,
            moved && place == stood,
            moved && place < stood,
            moved && place > stood,
            place != stood && last == reference::MAX_SEQUENCES,
            place != stood && sum,
            move_clears,
            move_clears && sum,
        ];
        for (count, seen) in self.features.iter_mut().zip(seen) {
            *count += u64::from(seen);
        }
    }

    fn add(&mut self, other: &Tally) {
        for (row, more) in self.answers.iter_mut().zip(&other.answers) {
            add_each(row, more);
        }
        add_each(&mut self.features, &other.features);
        add_each(&mut self.places, &other.places);
        add_each(&mut self.targets, &other.targets);
        self.far_and_short += other.far_and_short;
        self.faults.add(&other.faults);
        add_each(&mut self.paths, &other.paths);
        self.told.add(&other.told);
    }

    fn total(&self, number: usize) -> u64 {
        self.answers.iter().map(|row| row[number]).sum()
    }

    fn print(&self) {
        print!("{:>8}", "number");
        for name in CALLS.iter().chain([&"all"]) {
            print!(" {name:>9}");
        }
        println!();
        for number in [0].into_iter().chain(refusals()) {
            let name = match number {
                0 => "accepted".to_string(),
                _ => number.to_string(),
            };
            print!("{name:>8}");
            for row in &self.answers {
                print!(" {:>9}", row[number]);
            }
            println!(" {:>9}", self.total(number));
        }
        for (name, count) in FEATURES.iter().zip(self.features) {
            println!("{count:>9} {name}");
        }
        let count = self.far_and_short;
        println!("{count:>9} refused with 28, output or view too short");
        println!("{:>8} {:>9} {:>9}", "behind", "stood", "moved to");
        for (place, (stood, moved)) in self.places.iter().zip(self.targets).enumerate() {
            println!("{place:>8} {stood:>9} {moved:>9}");
        }
        self.faults.print();
        for (call, count) in CALLS.iter().zip(self.paths) {
            println!("{count:>9} {call} refused with 24, by a path");
        }
        self.told.print();
    }

    /// Every answer must come often, or the cases show too little.
    fn check(&self, cases: u64) {
        for number in refusals() {
            let count = self.total(number);
            assert!(
                count >= cases / 1_000,
                "refusal {number} came {count} times"
            );
        }
        for (call, row) in CALLS.iter().zip(&self.answers) {
            assert!(row[0] >= cases / 50, "{call} accepted {} times", row[0]);
            // A text is at many places, so its refusal must come more often.
            let made: u64 = row.iter().sum();
            assert!(row[27] >= made / 200, "{call} refused with 27 too rarely");
            for number in refusals().filter(|&number| can_refuse(call, number)) {
                let count = row[number];
                assert!(
                    count >= cases / 10_000,
                    "{call} refused with {number} {count} times"
                );
            }
        }
        for (name, count) in FEATURES.iter().zip(self.features) {
            assert!(count >= cases / 2_000, "{name}: {count} times");
        }
        let count = self.far_and_short;
        assert!(count >= cases / 2_000, "28 before 25: {count} times");
        for (place, (stood, moved)) in self.places.iter().zip(self.targets).enumerate() {
            assert!(
                *stood >= cases / 2_000,
                "the body stood behind {place} sequences {stood} times"
            );
            assert!(
                moved >= cases / 5_000,
                "the body moved behind {place} sequences {moved} times"
            );
        }
        self.faults.check(cases / 10_000);
        // Writing makes no sequence.
        for (call, one_in) in [(0, 300), (1, 1_000), (3, 300), (4, 1_000)] {
            let (call, count) = (CALLS[call], self.paths[call]);
            assert!(
                count >= cases / one_in,
                "{call} refused with 24 by a path {count} times"
            );
        }
        self.told.check(cases / 2_000);
    }
}

fn add_each(sums: &mut [u64], more: &[u64]) {
    for (sum, more) in sums.iter_mut().zip(more) {
        *sum += more;
    }
}

// --------------------------------------------------------------------- run

/// Runs one case; answers what is wrong, if something is.
fn run_case(seed: u64, number: u64, tally: &mut Tally) -> Result<(), String> {
    let case = any_case(&mut Random::for_case(seed, number));
    let (expected, answer) = case.expected();
    let actual = case.actual();
    if expected != actual {
        let difference = difference(&expected, &actual);
        let case = case.describe();
        return Err(format!("seed {seed}, case {number}: {difference}\n{case}"));
    }
    tally.note(&case, &answer);
    Ok(())
}

/// Runs some of the cases, and stops where any worker found a fault.
fn run_cases(
    seed: u64,
    numbers: impl Iterator<Item = u64>,
    stop: &AtomicBool,
) -> Result<Tally, String> {
    let mut tally = Tally::default();
    for number in numbers {
        if stop.load(Ordering::Relaxed) {
            break;
        }
        if let Err(fault) = run_case(seed, number, &mut tally) {
            stop.store(true, Ordering::Relaxed);
            return Err(fault);
        }
    }
    Ok(tally)
}

#[test]
fn the_library_agrees_with_the_independent_reader() {
    let cases = setting("RELAY_CASES", 200_000);
    let seed = setting("RELAY_SEED", 1);
    let first = setting("RELAY_FIRST", 0);
    let workers = thread::available_parallelism().map_or(1, |n| n.get());
    let stop = &AtomicBool::new(false);
    let mut all = Tally::default();
    thread::scope(|scope| {
        let handles: Vec<_> = (0..workers)
            .map(|worker| {
                let numbers = (first..first + cases).skip(worker).step_by(workers);
                scope.spawn(move || run_cases(seed, numbers, stop))
            })
            .collect();
        for handle in handles {
            match handle.join().expect("the worker ends") {
                Ok(tally) => all.add(&tally),
                Err(fault) => panic!("{fault}"),
            }
        }
    });
    println!("{cases} cases from {first} on, seed {seed}");
    all.print();
    all.check(cases);
}
