//! The messages that are measured.

use crate::common::bson::{binary, document, element, string};
use crate::common::message::{Draft, Section};
use crate::common::random::Random;
use crate::common::PING;

/// A message, and the inputs from which it is written and appended to.
pub struct Item {
    pub name: &'static str,
    pub message: Vec<u8>,
    /// A body of about the message's length, for write.
    pub body: Vec<u8>,
    /// The flag word of the message.
    pub flags: u32,
    /// The message that is appended to, for append.
    pub shorter: Vec<u8>,
    pub identifier: Vec<u8>,
    pub documents: Vec<u8>,
    /// All documents of the message back to back.
    pub all_documents: Vec<u8>,
    /// How many sequences the body, which stands first, moves behind: all.
    pub behind: u32,
}

/// The mix: ping, command, insert, large insert with a checksum.
pub fn mix() -> Vec<Item> {
    vec![
        ping(),
        command(),
        insert("insert", &ENGLISH, 1, 32, 0),
        insert("large insert", &ENGLISH, 16, 24, 1),
    ]
}

/// Messages that show what texts cost: the insert with names and strings of
/// two and of three bytes a character, and long texts. The last one changes the
/// length of its characters so often that no run of them pays.
pub fn texts() -> Vec<Item> {
    vec![
        insert("Greek insert", &GREEK, 1, 32, 0),
        insert("Chinese insert", &CHINESE, 1, 32, 0),
        long_text("long ASCII", ENGLISH.remark),
        long_text("long German", GERMAN_REMARK),
        long_text("long Greek", GREEK.remark),
        long_text("long Chinese", CHINESE.remark),
        long_text("long mixed", VIETNAMESE_REMARK),
        long_text("long hostile", "aaж 水é a水 😀a éaa水 é水😀 水aaaé"),
    ]
}

/// An insert of at most this length, with one sequence of as many records as
/// fit. Each record carries a remark, so that one of 48,000,000 bytes has not
/// too many elements; all lengths have the same mix of records.
pub fn long_insert(length: usize) -> Vec<u8> {
    let body = insert_body(&ENGLISH);
    let frame = Draft::new(vec![
        Section::Body(body.clone()),
        Section::Sequence {
            identifier: ENGLISH.documents.as_bytes().to_vec(),
            documents: Vec::new(),
        },
    ]);
    let mut left = length - frame.bytes().len();
    let mut documents = Vec::new();
    let mut random = Random::new(6);
    for index in 0.. {
        let remark = in_any_order(&mut random, ENGLISH.remark, REMARK);
        let mut elements = record_elements(&ENGLISH, index);
        elements.extend(element(0x02, b"remark", &string(remark.as_bytes())));
        let record = document(&elements);
        if record.len() > left {
            break;
        }
        left -= record.len();
        documents.extend(record);
    }
    let mut draft = frame;
    draft.sections[1] = Section::Sequence {
        identifier: ENGLISH.documents.as_bytes().to_vec(),
        documents,
    };
    draft.bytes()
}

/// About how many bytes a record's remark has. With eight elements a record of
/// fewer than 1,465 bytes would come too often in 48,000,000.
const REMARK: usize = 1_350;

/// The words of an insert and of its records in one language.
struct Words {
    collection: &'static str,
    database: &'static str,
    documents: &'static str,
    meter: &'static str,
    meter_name: &'static str,
    mass: &'static str,
    seconds: &'static str,
    flow: &'static str,
    uncertainty: &'static str,
    signed: &'static str,
    /// A sentence for long texts.
    remark: &'static str,
}

const ENGLISH: Words = Words {
    collection: "runs",
    database: "certificates",
    documents: "documents",
    meter: "meter",
    meter_name: "FM-2041-DN50",
    mass: "mass",
    seconds: "seconds",
    flow: "flow",
    uncertainty: "uncertainty",
    signed: "signed",
    remark: "The meter ran for an hour at the middle flow, and its error stayed small. ",
};

const GREEK: Words = Words {
    collection: "μετρήσεις",
    database: "πιστοποιητικά",
    documents: "έγγραφα",
    meter: "μετρητής",
    meter_name: "ΡΟΗ-2041-ΔΝ50",
    mass: "μάζα",
    seconds: "δευτερόλεπτα",
    flow: "ροή",
    uncertainty: "αβεβαιότητα",
    signed: "υπογραφή",
    remark: "Ο μετρητής λειτούργησε μία ώρα με μέση ροή και το σφάλμα έμεινε μικρό. ",
};

const CHINESE: Words = Words {
    collection: "测量",
    database: "证书",
    documents: "文档",
    meter: "流量计",
    meter_name: "流量计-2041-口径50",
    mass: "质量",
    seconds: "秒数",
    flow: "流量",
    uncertainty: "不确定度",
    signed: "已签名",
    remark: "流量计以中等流量运行了一小时，误差一直很小。",
};

/// Mostly one byte a character, with others strewn in.
const GERMAN_REMARK: &str =
    "Der Zähler lief eine Stunde bei mittlerem Durchfluß, die Abweichung blieb über die Länge klein. ";

/// Characters of one, two and three bytes.
const VIETNAMESE_REMARK: &str =
    "Đồng hồ đo lưu lượng chạy trong một giờ ở lưu lượng trung bình, sai số vẫn nhỏ. ";

fn ping() -> Item {
    let body = PING[21..].to_vec();
    without_sequences("ping", body)
}

/// A command of about 300 bytes.
fn command() -> Item {
    let filter = document(
        &[
            element(0x02, b"meter", &string(b"FM-2041-DN50")),
            element(
                0x03,
                b"at",
                &document(&[number(b"$gte", 1.5e12), number(b"$lt", 1.6e12)].concat()),
            ),
            element(0x08, b"signed", &[1]),
        ]
        .concat(),
    );
    let shown = |name: &[u8]| element(0x10, name, &[1, 0, 0, 0]);
    let projection = document(
        &[
            shown(b"mass"),
            shown(b"seconds"),
            shown(b"flow"),
            shown(b"uncertainty"),
        ]
        .concat(),
    );
    let body = document(
        &[
            element(0x02, b"find", &string(b"runs")),
            element(0x03, b"filter", &filter),
            element(
                0x03,
                b"sort",
                &document(&element(0x10, b"at", &[1, 0, 0, 0])),
            ),
            element(0x03, b"projection", &projection),
            element(0x10, b"limit", &[100, 0, 0, 0]),
            lsid(),
            element(0x02, b"$db", &string(b"certificates")),
        ]
        .concat(),
    );
    without_sequences("command", body)
}

fn without_sequences(name: &'static str, body: Vec<u8>) -> Item {
    let message = Draft::new(vec![Section::Body(body.clone())]).bytes();
    Item {
        name,
        flags: 0,
        shorter: message.clone(),
        message,
        all_documents: body.clone(),
        body,
        identifier: b"documents".to_vec(),
        documents: record(&ENGLISH, 1),
        behind: 0,
    }
}

/// A command that carries a text of about 16,000 bytes, which has the words of
/// a sentence in any order: a text that comes again and again is foreseen.
fn long_text(name: &'static str, sentence: &str) -> Item {
    let text = in_any_order(&mut Random::new(16), sentence, 16_000);
    let body = document(
        &[
            element(0x02, b"remark", &string(text.as_bytes())),
            lsid(),
            element(0x02, b"$db", &string(b"certificates")),
        ]
        .concat(),
    );
    without_sequences(name, body)
}

/// The words of a sentence in any order, of this length or a little more.
fn in_any_order(random: &mut Random, sentence: &str, length: usize) -> String {
    let words: Vec<&str> = sentence.split_whitespace().collect();
    let mut text = String::new();
    while text.len() < length {
        text.push_str(random.pick(&words));
        text.push(' ');
    }
    text
}

/// The body of an insert, whose records stand in sequences.
fn insert_body(words: &Words) -> Vec<u8> {
    document(
        &[
            element(0x02, b"insert", &string(words.collection.as_bytes())),
            element(0x08, b"ordered", &[1]),
            lsid(),
            element(0x02, b"$db", &string(words.database.as_bytes())),
        ]
        .concat(),
    )
}

/// An insert with so many sequences of so many records.
fn insert(name: &'static str, words: &Words, sequences: usize, records: usize, flags: u32) -> Item {
    let body = insert_body(words);
    let run: Vec<u8> = (0..records)
        .flat_map(|index| record(words, index))
        .collect();
    let identifier = |index: usize| format!("{}{index}", words.documents).into_bytes();
    let mut draft = Draft::new(vec![Section::Body(body.clone())]);
    draft.flags = flags;
    let mut shorter = Vec::new();
    for index in 0..sequences {
        shorter = draft.bytes();
        draft.sections.push(Section::Sequence {
            identifier: identifier(index),
            documents: run.clone(),
        });
    }
    Item {
        name,
        message: draft.bytes(),
        body: with_array(&body, words, sequences * records),
        flags,
        shorter,
        identifier: identifier(sequences - 1),
        all_documents: [body, run.repeat(sequences)].concat(),
        documents: run,
        behind: sequences as u32,
    }
}

/// The body with its records in an array instead of in sequences.
fn with_array(body: &[u8], words: &Words, records: usize) -> Vec<u8> {
    let entries: Vec<u8> = (0..records)
        .flat_map(|index| element(0x03, format!("{index}").as_bytes(), &record(words, index)))
        .collect();
    let array = element(0x04, words.documents.as_bytes(), &document(&entries));
    document(&[&body[4..body.len() - 1], &array].concat())
}

/// One run of a meter.
fn record(words: &Words, index: usize) -> Vec<u8> {
    document(&record_elements(words, index))
}

fn record_elements(words: &Words, index: usize) -> Vec<u8> {
    let mut id = [0x5A; 12];
    id[8..].copy_from_slice(&(index as u32).to_be_bytes());
    let meter = string(words.meter_name.as_bytes());
    [
        element(0x07, b"_id", &id),
        element(0x02, words.meter.as_bytes(), &meter),
        number(words.mass.as_bytes(), 997.1 + index as f64),
        number(words.seconds.as_bytes(), 60.02),
        number(words.flow.as_bytes(), 16.61),
        number(words.uncertainty.as_bytes(), 0.03),
        element(0x08, words.signed.as_bytes(), &[1]),
    ]
    .concat()
}

fn number(name: &[u8], value: f64) -> Vec<u8> {
    element(0x01, name, &value.to_le_bytes())
}

fn lsid() -> Vec<u8> {
    let id = element(0x05, b"id", &binary(4, &[0x11; 16]));
    element(0x03, b"lsid", &document(&id))
}
