//! What a stored listing tells.

use crate::{ffi, refusal, Refusal};

/// How many numbers the library answers for a listing.
pub const LISTING_NUMBERS: usize = 2;

/// What a stored listing tells of itself.
#[derive(Clone, Copy, Debug, PartialEq, Eq, Hash)]
pub struct Listing {
    /// The version that its first line states: 1 or 2.
    pub version: u32,
    /// How many messages it lists, which its last line states.
    pub messages: u64,
}

/// Reads a stored listing: the lines that `relay_log` has printed, from the
/// first to `end`, and nothing behind them.
///
/// Else the refusal is [`Refusal::BadLine`] with the number of a line instead of
/// a place: the first that is bad, or that is missing.
///
/// ```
/// use relay::{read_listing, Listing, Refusal};
///
/// let listing = b"relay-log\t2\nmsg\t0\t36\t7\t0\t0\t0\t1\nbad\t36\t1\t0\nend\t1\n";
/// let answer = read_listing(listing)?;
/// assert_eq!(answer, Listing { version: 2, messages: 1 });
///
/// // One line less, and another offset in the second line.
/// assert_eq!(read_listing(&listing[..42]), Err(Refusal::BadLine(4)));
/// let gap = b"relay-log\t2\nmsg\t1\t36\t7\t0\t0\t0\t1\nend\t1\n";
/// assert_eq!(read_listing(gap), Err(Refusal::BadLine(2)));
/// # Ok::<(), relay::Refusal>(())
/// ```
pub fn read_listing(listing: &[u8]) -> Result<Listing, Refusal> {
    let mut answer = [0; LISTING_NUMBERS];
    refusal::from_listing_result(ffi::read_listing(listing, &mut answer))?;
    let [version, messages] = answer;
    Ok(Listing {
        version: version as u32,
        messages: messages as u64,
    })
}
