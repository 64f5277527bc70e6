//! Reads, forwards, writes, extends and reorders MongoDB OP_MSG messages, and
//! reads the listings of them that the program `relay_log` has made.
//!
//! The work is done by a library whose rules are proved; this crate is a safe
//! cover over its C interface. Every call ends with an answer: the [`View`] of
//! an accepted message, or a [`Refusal`] with its number and place. A refused
//! call changes no byte of the lent output. An accepted call decides every
//! byte of the message it writes, and the bytes of the output past that
//! message stay as they were.
//!
//! An output as long as the message suffices to [`forward`] it or to move its
//! body. [`write()`] makes 21 bytes more than the body has, and 4 more with a
//! checksum; [`append`] makes 6 more than the message, the identifier and the
//! documents have. [`MAX_LENGTH`] bytes are room for all, but they are too many
//! for the stack.
//!
//! ```
//! use relay::{append, move_body, read, Edition, Section};
//!
//! let ping = b"\x24\0\0\0\x07\0\0\0\0\0\0\0\xDD\x07\0\0\0\0\0\0\
//!     \0\x0F\0\0\0\x10ping\0\x01\0\0\0\0";
//! let view = read(&Edition::HOUSE, ping)?;
//! assert_eq!(view.request_id, 7);
//! assert_eq!(view.body(), 21..36);
//!
//! let mut output = [0; 64];
//! let empty_document = b"\x05\0\0\0\0";
//! let view = append(&Edition::HOUSE, ping, b"d", empty_document, &mut output)?;
//! assert_eq!(view.length, 48);
//!
//! let mut moved = [0; 64];
//! let view = move_body(&Edition::HOUSE, &output, 1, &mut moved)?;
//! let sections: Vec<Section> = view.sections().collect();
//! let [Section::Sequence(sequence), Section::Body(body)] = &sections[..] else {
//!     panic!("the body behind one sequence");
//! };
//! assert_eq!(&moved[sequence.identifier.clone()], b"d");
//! assert_eq!(moved[body.clone()], ping[21..]);
//! # Ok::<(), relay::Refusal>(())
//! ```

#![deny(unsafe_code)]
#![warn(missing_docs)]

#[allow(unsafe_code)]
pub mod ffi;
mod listing;
mod refusal;
mod view;

pub use listing::{read_listing, Listing, LISTING_NUMBERS};
pub use refusal::Refusal;
pub use view::{Section, Sequence, View, VIEW_NUMBERS};

/// The version of the crate and of `relay.h`.
pub const VERSION: &str = env!("CARGO_PKG_VERSION");

/// The longest message in bytes; an output of this length always has room. It
/// belongs on the heap, and where memory is dear, one that is as long as the
/// message to come is enough.
pub const MAX_LENGTH: usize = 48_000_000;

/// The most elements in a message, at all levels of all its documents.
pub const MAX_ELEMENTS: usize = 262_144;

/// The deepest level at which a document may stand; that of a section's
/// document is 1.
pub const MAX_LEVELS: usize = 32;

/// The most document sequences in a message.
pub const MAX_SEQUENCES: usize = 16;

/// The most sections in a message: a body and its document sequences.
pub const MAX_SECTIONS: usize = MAX_SEQUENCES + 1;

/// The flag bits and section kinds that a relay knows.
#[derive(Clone, Copy, Debug, PartialEq, Eq, Hash)]
pub struct Edition {
    /// The known flag bits.
    pub bits: u32,
    /// Whether kind 1, the document sequence, is known. Kind 0 always is.
    pub sequences: bool,
}

impl Edition {
    /// The house edition: bits 0 (checksumPresent), 1 (moreToCome) and 16
    /// (exhaustAllowed), and document sequences.
    pub const HOUSE: Edition = Edition {
        bits: 1 << 0 | 1 << 1 | 1 << 16,
        sequences: true,
    };

    /// Whether this edition knows all that the other knows.
    ///
    /// ```
    /// use relay::Edition;
    ///
    /// let older = Edition { bits: 1, sequences: false };
    /// assert!(Edition::HOUSE.is_newer_than(&older));
    /// assert!(!older.is_newer_than(&Edition::HOUSE));
    /// assert!(older.is_newer_than(&older));
    /// ```
    pub fn is_newer_than(&self, other: &Edition) -> bool {
        other.bits & !self.bits == 0 && (self.sequences || !other.sequences)
    }
}

/// Reads one message from the start of the buffer. Bytes after the message
/// are not looked at.
///
/// ```
/// use relay::{read, Edition, Refusal};
///
/// // A header and a flag word, and no section.
/// let message = b"\x14\0\0\0\x07\0\0\0\0\0\0\0\xDD\x07\0\0\0\0\0\0";
/// assert_eq!(read(&Edition::HOUSE, message), Err(Refusal::NoBody(20)));
/// assert_eq!(read(&Edition::HOUSE, &message[..19]), Err(Refusal::BufferShort(0)));
/// ```
pub fn read(edition: &Edition, message: &[u8]) -> Result<View, Refusal> {
    answer(|view| ffi::read(edition.bits, edition.sequences.into(), message, view))
}

/// Reads a message and copies it to the output with unknown optional flag
/// bits cleared and, where bit 0 is set, its checksum worked out anew.
///
/// The output must have room for the message, else the refusal is
/// [`Refusal::OutputShort`]: one as long as the message suffices.
///
/// ```
/// use relay::{forward, Edition};
///
/// // Bit 17 of the flag word is set; the house edition does not know it.
/// let message = b"\x1A\0\0\0\x07\0\0\0\0\0\0\0\xDD\x07\0\0\0\0\x02\0\0\x05\0\0\0\0";
/// let mut output = vec![0; message.len()];
/// let view = forward(&Edition::HOUSE, message, &mut output)?;
/// assert_eq!(view.flags, 0);
/// assert_eq!(output[16..20], [0, 0, 0, 0]);
///
/// // Bytes past the message stay.
/// let mut longer = [0xAA; 30];
/// forward(&Edition::HOUSE, message, &mut longer)?;
/// assert_eq!(longer[..26], output);
/// assert_eq!(longer[26..], [0xAA; 4]);
/// # Ok::<(), relay::Refusal>(())
/// ```
pub fn forward(edition: &Edition, message: &[u8], output: &mut [u8]) -> Result<View, Refusal> {
    answer(|view| {
        ffi::forward(
            edition.bits,
            edition.sequences.into(),
            message,
            output,
            view,
        )
    })
}

/// Writes a message from both ids, a flag word and a body, with a checksum
/// where bit 0 is set. Every set bit must be known, the optional ones too.
///
/// ```
/// use relay::{write, Edition, Refusal};
///
/// let body = b"\x0F\0\0\0\x10ping\0\x01\0\0\0\0";
/// let mut output = [0; 40];
/// let view = write(&Edition::HOUSE, 7, 0, 1, body, &mut output)?;
/// assert_eq!((view.length, view.flags, view.elements), (40, 1, 1));
///
/// let refused = write(&Edition::HOUSE, 7, 0, 1, body, &mut output[..39]);
/// assert_eq!(refused, Err(Refusal::OutputShort(0)));
/// # Ok::<(), relay::Refusal>(())
/// ```
pub fn write(
    edition: &Edition,
    request_id: i32,
    response_to: i32,
    flags: u32,
    body: &[u8],
    output: &mut [u8],
) -> Result<View, Refusal> {
    answer(|view| {
        ffi::write(
            edition.bits,
            edition.sequences.into(),
            request_id,
            response_to,
            flags,
            body,
            output,
            view,
        )
    })
}

/// Forwards a message to the output with one more document sequence at its
/// end. The identifier comes without its zero byte; the documents stand back
/// to back, and there may be none.
///
/// An identifier that is taken is refused with [`Refusal::IdentifierClash`]: by
/// a name at the top of the body, by another sequence, or, where it has dots, by
/// a name that it leads to from the body on.
///
/// ```
/// use relay::{append, write, Edition, Refusal};
///
/// let mut message = [0; 26];
/// write(&Edition::HOUSE, 1, 0, 0, b"\x05\0\0\0\0", &mut message)?;
/// let mut output = [0; 100];
/// let view = append(&Edition::HOUSE, &message, b"runs", b"", &mut output)?;
/// assert_eq!(view.sequences().len(), 1);
///
/// let again = append(&Edition::HOUSE, &output[..view.length], b"runs", b"", &mut [0; 100]);
/// assert_eq!(again, Err(Refusal::IdentifierClash(41)));
///
/// // A body with `points` inside `run`.
/// let mut message = [0; 44];
/// let body = b"\x17\0\0\0\x03run\0\x0D\0\0\0\x0Apoints\0\0\0";
/// write(&Edition::HOUSE, 1, 0, 0, body, &mut message)?;
/// let dotted = append(&Edition::HOUSE, &message, b"run.points", b"", &mut output);
/// assert_eq!(dotted, Err(Refusal::IdentifierClash(49)));
/// # Ok::<(), relay::Refusal>(())
/// ```
pub fn append(
    edition: &Edition,
    message: &[u8],
    identifier: &[u8],
    documents: &[u8],
    output: &mut [u8],
) -> Result<View, Refusal> {
    answer(|view| {
        ffi::append(
            edition.bits,
            edition.sequences.into(),
            message,
            identifier,
            documents,
            output,
            view,
        )
    })
}

/// Forwards a message to the output with its body behind the first `behind` of
/// its sequences. Each section keeps its own bytes, and the sequences their
/// order; where bit 0 is set, there is a new checksum. The view is that of the
/// new message.
///
/// Where the message has fewer sequences, the refusal is
/// [`Refusal::MoveTooFar`]. Else the output must have room for the message, as
/// in [`forward`].
///
/// ```
/// use relay::{append, move_body, write, Edition, Refusal};
///
/// let mut message = [0; 26];
/// write(&Edition::HOUSE, 1, 0, 0, b"\x05\0\0\0\0", &mut message)?;
/// let mut longer = [0; 36];
/// let view = append(&Edition::HOUSE, &message, b"runs", b"", &mut longer)?;
/// assert_eq!((view.behind(), view.body()), (0, 21..26));
///
/// let mut output = [0; 36];
/// let view = move_body(&Edition::HOUSE, &longer, 1, &mut output)?;
/// assert_eq!((view.behind(), view.body()), (1, 31..36));
/// assert_eq!(output[20..30], longer[26..36]);
///
/// let refused = move_body(&Edition::HOUSE, &longer, 2, &mut output);
/// assert_eq!(refused, Err(Refusal::MoveTooFar(0)));
/// # Ok::<(), relay::Refusal>(())
/// ```
pub fn move_body(
    edition: &Edition,
    message: &[u8],
    behind: u32,
    output: &mut [u8],
) -> Result<View, Refusal> {
    answer(|view| {
        ffi::move_body(
            edition.bits,
            edition.sequences.into(),
            message,
            behind,
            output,
            view,
        )
    })
}

/// Makes a call with room for a view and turns its result into an answer.
fn answer(call: impl FnOnce(&mut [i64]) -> u64) -> Result<View, Refusal> {
    let mut numbers = [0; VIEW_NUMBERS];
    refusal::from_result(call(&mut numbers))?;
    Ok(View::from_numbers(&numbers))
}
