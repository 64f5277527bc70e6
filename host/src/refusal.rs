//! The numbered refusals.

use std::fmt;

macro_rules! refusals {
    ($($number:literal $name:ident $words:literal,)*) => {
        /// Why a call was refused; every case carries its place in the message.
        ///
        /// The place is counted in bytes from the start of the message, or of
        /// the message that the call would have written. [`Refusal::BadLine`]
        /// alone has the number of a line of a stored listing for it, counted
        /// from 1.
        ///
        /// ```
        /// use relay::{read, Edition, Refusal};
        ///
        /// let refusal = read(&Edition::HOUSE, b"").unwrap_err();
        /// assert_eq!(refusal, Refusal::BufferUnder16(0));
        /// assert_eq!(refusal.number(), 1);
        /// assert_eq!(refusal.to_string(), "refusal 1 at 0: buffer is under 16 bytes");
        /// ```
        #[derive(Clone, Copy, Debug, PartialEq, Eq, Hash)]
        pub enum Refusal {
            $(
                #[doc = concat!("Number ", $number, ": ", $words, ".")]
                $name(usize),
            )*
        }

        impl Refusal {
            /// The refusal with this number and place; nothing where there is
            /// no such number.
            pub fn new(number: u32, place: usize) -> Option<Refusal> {
                match number {
                    $($number => Some(Refusal::$name(place)),)*
                    _ => None,
                }
            }

            /// The number: 1 to 25, 27, 28 or 38.
            pub fn number(&self) -> u32 {
                match self {
                    $(Refusal::$name(_) => $number,)*
                }
            }

            /// The place, counted in bytes from the start of the message; in
            /// a stored listing the number of the line, counted from 1.
            pub fn place(&self) -> usize {
                match self {
                    $(Refusal::$name(place) => *place,)*
                }
            }

            /// When this number is given.
            pub fn words(&self) -> &'static str {
                match self {
                    $(Refusal::$name(_) => $words,)*
                }
            }
        }
    };
}

refusals! {
    1 BufferUnder16 "buffer is under 16 bytes",
    2 LengthOutOfRange "messageLength is under 16 or over 48,000,000",
    3 BufferShort "buffer is shorter than messageLength",
    4 OldOpcode "message of an older protocol (opCode 1, 2001, 2002, 2004 to 2007)",
    5 CompressedOpcode "compressed message (opCode 2012)",
    6 OtherOpcode "opCode is none that is known",
    7 LengthTooSmall "messageLength is under 20, or under 24 with bit 0 of the flag word set",
    8 UnknownFlag "flag word has an unknown bit set (of bits 0 to 15; in write, of all)",
    9 ChecksumDiffers "message's checksum differs from that of its bytes",
    10 UnknownKind "section's kind is not known",
    11 SecondBody "message has a second body",
    12 SectionSize "sequence's size is cut off, under 5, or passes the end of the sections",
    13 BadIdentifier "sequence's identifier is empty, or its zero byte is not inside its section (in append: or it holds one)",
    14 SeventeenthSequence "message has a seventeenth sequence",
    15 DocumentLength "document's length is cut off, under 5, or passes the enclosing end (in write: or is not the lent body's)",
    16 DocumentLastByte "document's last byte is not zero",
    17 UnknownType "element's type is none of BSON 1.1",
    18 NameWithoutZero "element's name has no zero byte before the document's last byte",
    19 BadValue "element's value breaks its type's rule or passes the document's last byte",
    20 TooDeep "document stands at level 33",
    21 TooManyElements "element is number 262,145 of its message",
    22 NoBody "message has no body",
    23 NameTwice "body has a top-level name that equals an earlier one",
    24 IdentifierClash "sequence's identifier is a top-level name of the body, an earlier identifier, or a dotted path to a name in the body",
    25 OutputShort "output is too short for the message, or view for its 107 numbers",
    27 TextNotUtf8 "name, identifier, string or part of a regular expression is not UTF-8",
    28 MoveTooFar "body is to move behind more sequences than the message has",
    38 BadLine "line of a stored listing is bad or missing",
}

impl fmt::Display for Refusal {
    fn fmt(&self, f: &mut fmt::Formatter<'_>) -> fmt::Result {
        write!(
            f,
            "refusal {} at {}: {}",
            self.number(),
            self.place(),
            self.words()
        )
    }
}

impl std::error::Error for Refusal {}

/// Takes the library's result apart: 0 is accepted.
///
/// # Panics
///
/// If the result names no refusal, which the library promises never to answer.
pub(crate) fn from_result(result: u64) -> Result<(), Refusal> {
    if result == 0 {
        return Ok(());
    }
    let number = (result >> 32) as u32;
    let place = (result & 0xFFFF_FFFF) as usize;
    match Refusal::new(number, place) {
        Some(refusal) => Err(refusal),
        None => panic!("the relay library answered {result:#x}, which is no refusal"),
    }
}

/// The least result of a bad line: its number in the place of the refusal's.
const BAD_LINE: u64 = 38 << 32;

/// Takes the result for a stored listing apart: 0 is accepted, and all others
/// are lines, even where their numbers have more than 32 bits.
///
/// # Panics
///
/// If the result is no line, which the library promises never to answer where
/// there is room for its numbers.
pub(crate) fn from_listing_result(result: u64) -> Result<(), Refusal> {
    match result {
        0 => Ok(()),
        BAD_LINE.. => Err(Refusal::BadLine((result - BAD_LINE) as usize)),
        _ => panic!("the relay library answered {result:#x}, which is no line"),
    }
}

#[cfg(test)]
mod tests {
    use super::*;

    #[test]
    fn every_number_from_1_to_25_27_28_and_38_and_no_other_is_a_refusal() {
        for number in (1..=25).chain([27, 28, 38]) {
            let refusal = Refusal::new(number, 7).expect("a refusal");
            assert_eq!((refusal.number(), refusal.place()), (number, 7));
        }
        for number in [0, 26, 29, 30, 37, 39, u32::MAX] {
            assert_eq!(Refusal::new(number, 7), None);
        }
    }

    #[test]
    fn a_result_holds_number_and_place() {
        assert_eq!(from_result(0), Ok(()));
        let result = (19 << 32) | 47_999_999;
        assert_eq!(from_result(result), Err(Refusal::BadValue(47_999_999)));
    }

    #[test]
    fn the_number_of_a_line_may_pass_32_bits() {
        assert_eq!(from_listing_result(0), Ok(()));
        for line in [1, 2, u32::MAX as usize, 1 << 32, (1 << 32) + 5] {
            let result = (38 << 32) + line as u64;
            assert_eq!(from_listing_result(result), Err(Refusal::BadLine(line)));
        }
        let shown = Refusal::BadLine(3).to_string();
        assert_eq!(
            shown,
            "refusal 38 at 3: line of a stored listing is bad or missing"
        );
    }

    #[test]
    #[should_panic(expected = "no line")]
    fn a_result_below_the_lines_is_not_taken() {
        let _ = from_listing_result(25 << 32);
    }

    #[test]
    #[should_panic(expected = "no refusal")]
    fn a_result_without_a_number_is_not_taken() {
        let _ = from_result(5);
    }

    #[test]
    fn the_words_are_shown() {
        let shown = Refusal::IdentifierClash(41).to_string();
        assert_eq!(
            shown,
            "refusal 24 at 41: sequence's identifier is a top-level name of the body, an earlier identifier, or a dotted path to a name in the body"
        );
    }
}
