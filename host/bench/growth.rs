//! Measures how the time to read a body grows with the number of its names,
//! which must differ, all in one run:
//!
//! ```text
//! cargo bench --bench growth
//! ```
//!
//! Every figure is nanoseconds a name: the time of a read by the number of
//! names. Each name stands before a null. `library` is the C function, with a
//! view that is lent again and again; `set` and `order` are `bench/plain.rs`
//! with a hash set and with the names sorted. Their samples are taken in turn.
//! `cargo bench --bench growth -- <word>` measures the families with this word
//! in their names alone, `-- identifiers` the last table.
//!
//! The last table is of identifiers with dots, which are followed into the
//! body: the time of a read, and that by the number of the body's documents.
//! `plain` is `bench/plain.rs` as it is.

#[path = "../tests/common/mod.rs"]
mod common;
mod plain;
mod timing;

use common::dotted;
use common::names::{message_of, Family};
use relay::{ffi, Edition, VIEW_NUMBERS};
use std::env;
use std::hint::black_box;
use std::time::Duration;
use timing::{medians_over, time_of};

const HOUSE: Edition = Edition::HOUSE;
const PLAIN_HOUSE: plain::Edition = plain::Edition {
    bits: HOUSE.bits,
    sequences: HOUSE.sequences,
};

const COUNTS: [usize; 15] = [
    4, 8, 16, 32, 64, 128, 256, 512, 1_024, 2_048, 3_400, 4_000, 16_384, 65_536, 262_144,
];

/// How many samples each median is taken over, and where there are many names.
const SAMPLES: usize = 51;
const SAMPLES_OF_MANY: usize = 11;
const MANY: usize = 16_384;

/// How many samples of the library, where a read takes it longer than this.
const FEW_SAMPLES: usize = 5;
const SLOW: Duration = Duration::from_millis(10);
const ONE_SAMPLE: usize = 1;
const VERY_SLOW: Duration = Duration::from_millis(300);

/// Nanoseconds a name: of the library, with a hash set, with sorted names.
type Costs = [f64; 3];

/// The costs of a family for each number of names.
struct Growth {
    family: Family,
    rows: Vec<(usize, Costs)>,
}

fn main() {
    let words: Vec<String> = env::args()
        .skip(1)
        .filter(|a| !a.starts_with('-'))
        .collect();
    let asked = |name: &str| words.is_empty() || words.iter().any(|word| name.contains(word));
    println!("Nanoseconds a name, medians over {SAMPLES} samples, from {MANY} names on over");
    println!("{SAMPLES_OF_MANY}. Where the library takes more than");
    let [slow, very_slow] = [SLOW, VERY_SLOW].map(|time| time.as_millis());
    println!("{slow} ms for a read, its medians are over {FEW_SAMPLES}, from {very_slow} ms on");
    println!("there is one sample of it.");
    println!();
    println!(
        "{:<28}{:>7}{:>10}  {:>10}{:>8}{:>8}{:>13}{:>11}",
        "family", "names", "bytes", "library", "set", "order", "library/set", "order/set"
    );
    let families = Family::ALL.into_iter().filter(|f| asked(f.words()));
    let all: Vec<Growth> = families.map(measure).collect();
    print_growth(&all);
    print_beside_usual(&all);
    if asked("identifiers") {
        print_followed();
    }
}

/// Measures a family; the last row has the most names that fit.
fn measure(family: Family) -> Growth {
    let most = family.most();
    let fitting = COUNTS.into_iter().filter(|&count| count < most);
    let rows = fitting
        .chain([most])
        .map(|count| {
            let message = message_of(&family.names(count));
            let costs = measure_read(&message, count);
            print_row(family, count, message.len(), costs);
            (count, costs)
        })
        .collect();
    Growth { family, rows }
}

fn measure_read(message: &[u8], count: usize) -> Costs {
    let mut view = [0; VIEW_NUMBERS];
    let mut library = || {
        let result = ffi::read(HOUSE.bits, 1, black_box(message), &mut view);
        assert_eq!(result, 0);
        black_box(&mut view);
    };
    let mut set = || {
        let view = plain::read_with(PLAIN_HOUSE, black_box(message), plain::by_set);
        assert_eq!(black_box(view).map(|view| view.elements), Ok(count));
    };
    let mut order = || {
        let view = plain::read_with(PLAIN_HOUSE, black_box(message), plain::by_order);
        assert_eq!(black_box(view).map(|view| view.elements), Ok(count));
    };
    let others = if count < MANY {
        SAMPLES
    } else {
        SAMPLES_OF_MANY
    };
    let own = match time_of(&mut library, 1) {
        time if time > VERY_SLOW => ONE_SAMPLE,
        time if time > SLOW => FEW_SAMPLES,
        _ => others,
    };
    let samples = [own, others, others];
    medians_over(samples, [&mut library, &mut set, &mut order]).map(|time| time / count as f64)
}

fn print_row(family: Family, count: usize, bytes: usize, [library, set, order]: Costs) {
    let words = family.words();
    let (library_ratio, order_ratio) = (library / set, order / set);
    println!(
        "{words:<28}{count:>7}{bytes:>10}  {library:>10.1}{set:>8.1}{order:>8.1}\
         {library_ratio:>13.2}{order_ratio:>11.2}"
    );
}

impl Growth {
    fn at(&self, count: usize) -> Costs {
        let row = self.rows.iter().find(|row| row.0 == count);
        row.expect("measured").1
    }

    /// The row of 3,400 names, and the last.
    fn large(&self) -> [(usize, Costs); 2] {
        let last = self.rows[self.rows.len() - 1].0;
        [3_400, last].map(|count| (count, self.at(count)))
    }
}

/// What a name costs among many, by what it costs among 256.
fn print_growth(all: &[Growth]) {
    println!();
    println!("A name among many, by a name among 256:");
    println!(
        "{:<28}{:>7}{:>9}{:>8}{:>8}",
        "family", "names", "library", "set", "order"
    );
    for growth in all {
        for (count, many) in growth.large() {
            let few = growth.at(256);
            let [library, set, order] = [0, 1, 2].map(|index| many[index] / few[index]);
            let words = growth.family.words();
            println!("{words:<28}{count:>7}{library:>9.2}{set:>8.2}{order:>8.2}");
        }
    }
}

/// What a name of each family costs the library, by what a usual one of the
/// same length costs.
fn print_beside_usual(all: &[Growth]) {
    println!();
    println!("The library's cost of a name, by that of a usual one of the same length:");
    println!(
        "{:<28}{:>9}{:>9}{:>9}",
        "family", "16 names", "32 names", "64 names"
    );
    for growth in all {
        let usual = growth.family.usual();
        let Some(usual) = all.iter().find(|other| other.family == usual) else {
            continue;
        };
        let ratios = [16, 32, 64].map(|count| growth.at(count)[0] / usual.at(count)[0]);
        let words = growth.family.words();
        println!(
            "{words:<28}{:>9.2}{:>9.2}{:>9.2}",
            ratios[0], ratios[1], ratios[2]
        );
    }
}

/// What identifiers with dots cost, by the documents that they are followed
/// into; all of them in vain.
fn print_followed() {
    println!();
    println!("Identifiers with dots, nanoseconds a read:");
    println!(
        "{:<28}{:>9}{:>9}  {:>10}{:>10}{:>12}{:>15}",
        "identifiers", "documents", "bytes", "library", "plain", "a document", "library/plain"
    );
    let lengths = dotted::LENGTHS.into_iter().chain([1_048_576, 3_145_728]);
    let counts: Vec<usize> = lengths.map(dotted::fitting_points).collect();
    for (words, dot) in [("16 with dots", '.'), ("16 without", '-')] {
        for &count in &counts {
            let body = dotted::points(count);
            let message = dotted::with_identifiers(body, &dotted::in_vain(dot));
            measure_followed(words, count, &message);
        }
    }
    for count in [125, 250, 500, 1_000, 2_000, 20_000, 130_000] {
        let identifiers = [dotted::with_long_name(20_000)];
        let message = dotted::with_identifiers(dotted::many_documents(count), &identifiers);
        measure_followed("last name of 20,000 bytes", count, &message);
    }
    for levels in [6, 8, 10, 12, 13, 16, 19] {
        // The last name is looked for among the innermost.
        let identifiers: Vec<Vec<u8>> = (b'a'..=b'p')
            .map(|letter| [b".".repeat(levels - 2), vec![letter]].concat())
            .collect();
        let message = dotted::with_identifiers(dotted::unnamed_tree(levels), &identifiers);
        measure_followed("16 of dots and a letter", (1 << (levels - 1)) - 1, &message);
    }
    for dots in [1_000, 5_000, 20_000] {
        let identifiers = [b".".repeat(dots)];
        let message = dotted::with_identifiers(dotted::unnamed_tree(13), &identifiers);
        measure_followed(&format!("{dots} dots"), 4_095, &message);
    }
}

fn measure_followed(identifiers: &str, documents: usize, message: &[u8]) {
    let mut view = [0; VIEW_NUMBERS];
    let mut library = || {
        let result = ffi::read(HOUSE.bits, 1, black_box(message), &mut view);
        assert_eq!(result, 0);
        black_box(&mut view);
    };
    let mut plain = || {
        let view = plain::read(PLAIN_HOUSE, black_box(message));
        assert!(black_box(view).is_ok());
    };
    let slow = time_of(&mut library, 1) > SLOW;
    let samples = [if slow { FEW_SAMPLES } else { SAMPLES }, SAMPLES];
    let [library, plain] = medians_over(samples, [&mut library, &mut plain]);
    let bytes = message.len();
    let (each, ratio) = (library / documents as f64, library / plain);
    println!(
        "{identifiers:<28}{documents:>9}{bytes:>9}  {library:>10.0}{plain:>10.0}{each:>12.1}\
         {ratio:>15.2}"
    );
}
