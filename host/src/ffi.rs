//! The C functions of the archive, and safe calls of them over slices.
//!
//! This is the only module with unsafe code. The functions here take an
//! edition as two numbers and answer the library's own result: 0 for
//! accepted, else the refusal's number times 2^32 plus its place, for a listing
//! plus the number of the line. The crate's own functions, [`crate::read`] and
//! the others, are easier to use.

/// The C declarations; `relay.h` says what each one promises.
pub mod c {
    #[allow(missing_docs)]
    extern "C" {
        pub fn relay_read(
            bits: u32,
            sequences: u8,
            message: *const u8,
            message_len: usize,
            view: *mut i64,
            view_len: usize,
        ) -> u64;

        pub fn relay_forward(
            bits: u32,
            sequences: u8,
            message: *const u8,
            message_len: usize,
            output: *mut u8,
            output_len: usize,
            view: *mut i64,
            view_len: usize,
        ) -> u64;

        pub fn relay_write(
            bits: u32,
            sequences: u8,
            request_id: i32,
            response_to: i32,
            flags: u32,
            body: *const u8,
            body_len: usize,
            output: *mut u8,
            output_len: usize,
            view: *mut i64,
            view_len: usize,
        ) -> u64;

        pub fn relay_append(
            bits: u32,
            sequences: u8,
            message: *const u8,
            message_len: usize,
            identifier: *const u8,
            identifier_len: usize,
            documents: *const u8,
            documents_len: usize,
            output: *mut u8,
            output_len: usize,
            view: *mut i64,
            view_len: usize,
        ) -> u64;

        pub fn relay_move(
            bits: u32,
            sequences: u8,
            message: *const u8,
            message_len: usize,
            behind: u32,
            output: *mut u8,
            output_len: usize,
            view: *mut i64,
            view_len: usize,
        ) -> u64;

        pub fn relay_read_listing(
            listing: *const u8,
            listing_len: usize,
            answer: *mut i64,
            answer_len: usize,
        ) -> u64;
    }
}

// In every call below the pointers and lengths come from slices, so they are
// valid for the call, and the borrow rules keep the written slices apart from
// all others. An empty slice gives a valid pointer and the length 0.

/// Calls `relay_read`.
pub fn read(bits: u32, sequences: u8, message: &[u8], view: &mut [i64]) -> u64 {
    unsafe {
        c::relay_read(
            bits,
            sequences,
            message.as_ptr(),
            message.len(),
            view.as_mut_ptr(),
            view.len(),
        )
    }
}

/// Calls `relay_forward`.
pub fn forward(
    bits: u32,
    sequences: u8,
    message: &[u8],
    output: &mut [u8],
    view: &mut [i64],
) -> u64 {
    unsafe {
        c::relay_forward(
            bits,
            sequences,
            message.as_ptr(),
            message.len(),
            output.as_mut_ptr(),
            output.len(),
            view.as_mut_ptr(),
            view.len(),
        )
    }
}

/// Calls `relay_write`.
#[allow(clippy::too_many_arguments)]
pub fn write(
    bits: u32,
    sequences: u8,
    request_id: i32,
    response_to: i32,
    flags: u32,
    body: &[u8],
    output: &mut [u8],
    view: &mut [i64],
) -> u64 {
    unsafe {
        c::relay_write(
            bits,
            sequences,
            request_id,
            response_to,
            flags,
            body.as_ptr(),
            body.len(),
            output.as_mut_ptr(),
            output.len(),
            view.as_mut_ptr(),
            view.len(),
        )
    }
}

/// Calls `relay_append`.
pub fn append(
    bits: u32,
    sequences: u8,
    message: &[u8],
    identifier: &[u8],
    documents: &[u8],
    output: &mut [u8],
    view: &mut [i64],
) -> u64 {
    unsafe {
        c::relay_append(
            bits,
            sequences,
            message.as_ptr(),
            message.len(),
            identifier.as_ptr(),
            identifier.len(),
            documents.as_ptr(),
            documents.len(),
            output.as_mut_ptr(),
            output.len(),
            view.as_mut_ptr(),
            view.len(),
        )
    }
}

/// Calls `relay_move`.
pub fn move_body(
    bits: u32,
    sequences: u8,
    message: &[u8],
    behind: u32,
    output: &mut [u8],
    view: &mut [i64],
) -> u64 {
    unsafe {
        c::relay_move(
            bits,
            sequences,
            message.as_ptr(),
            message.len(),
            behind,
            output.as_mut_ptr(),
            output.len(),
            view.as_mut_ptr(),
            view.len(),
        )
    }
}

/// Calls `relay_read_listing`.
pub fn read_listing(listing: &[u8], answer: &mut [i64]) -> u64 {
    unsafe {
        c::relay_read_listing(
            listing.as_ptr(),
            listing.len(),
            answer.as_mut_ptr(),
            answer.len(),
        )
    }
}
