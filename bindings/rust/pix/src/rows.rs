//! Rows of indices: packed into bytes and back, and counted.

use crate::error::Error;
use crate::table::done;
use pix_sys::check_library;

/// How many bits an index takes in a packed row.
#[repr(u32)]
#[derive(Clone, Copy, Debug, PartialEq, Eq, Hash)]
pub enum IndexDepth {
    /// Eight indices in a byte, 0 and 1.
    One = 1,
    /// Four indices in a byte, from 0 to 3.
    Two = 2,
    /// Two indices in a byte, from 0 to 15.
    Four = 4,
    /// One index in a byte.
    Eight = 8,
}

impl IndexDepth {
    /// How many bytes a row of this many indices takes.
    ///
    /// ```
    /// use pix::IndexDepth;
    ///
    /// assert_eq!(IndexDepth::Two.row_size(9), 3);
    /// ```
    pub const fn row_size(self, count: usize) -> usize {
        count.div_ceil(8 / self as usize)
    }
}

/// Counts how often each number is among the indices.
///
/// ```
/// let mut counts = [0; 4];
/// pix::count_indices(&[0, 2, 2, 3], &mut counts)?;
/// assert_eq!(counts, [1, 0, 2, 1]);
/// # Ok::<(), pix::Error>(())
/// ```
///
/// # Errors
///
/// `Index` if an index has no count. The counts are unchanged.
pub fn count_indices(indices: &[u8], counts: &mut [usize]) -> Result<(), Error> {
    check_library()?;
    // SAFETY: pointers and lengths come from two slices, and the exclusive one shares no byte with the other.
    done(unsafe {
        pix_sys::pix_raw_count_indices(
            indices.as_ptr(),
            indices.len(),
            counts.as_mut_ptr(),
            counts.len(),
        )
    })
}

/// Packs a row of indices into the bytes of a row, in order, in each byte from its most significant bits on. Unused bits
/// of the last byte are 0.
///
/// ```
/// use pix::{IndexDepth, pack_row, unpack_row};
///
/// let (mut row, mut back) = ([0; 2], [0; 5]);
/// pack_row(IndexDepth::Two, &[3, 0, 1, 2, 3], &mut row)?;
/// assert_eq!(row, [0b11_00_01_10, 0b11_00_00_00]);
/// unpack_row(IndexDepth::Two, &row, &mut back)?;
/// assert_eq!(back, [3, 0, 1, 2, 3]);
/// # Ok::<(), pix::Error>(())
/// ```
///
/// # Errors
///
/// `Length` if there are not exactly as many bytes as the row takes, and `Index` if an index takes more bits. The bytes
/// are unchanged.
pub fn pack_row(depth: IndexDepth, indices: &[u8], bytes: &mut [u8]) -> Result<(), Error> {
    check_library()?;
    // SAFETY: pointers and lengths come from two slices, and the exclusive one shares no byte with the other.
    done(unsafe {
        pix_sys::pix_raw_pack_row(
            depth as u32,
            indices.as_ptr(),
            indices.len(),
            bytes.as_mut_ptr(),
            bytes.len(),
        )
    })
}

/// Unpacks a row of indices from its bytes. Unused bits of the last byte are ignored.
///
/// ```
/// use pix::{IndexDepth, unpack_row};
///
/// let mut indices = [0; 3];
/// unpack_row(IndexDepth::Four, &[0x12, 0x3f], &mut indices)?;
/// assert_eq!(indices, [1, 2, 3]);
/// # Ok::<(), pix::Error>(())
/// ```
///
/// # Errors
///
/// `Length` if there are not exactly as many bytes as the row takes. The indices are unchanged.
pub fn unpack_row(depth: IndexDepth, bytes: &[u8], indices: &mut [u8]) -> Result<(), Error> {
    check_library()?;
    // SAFETY: pointers and lengths come from two slices, and the exclusive one shares no byte with the other.
    done(unsafe {
        pix_sys::pix_raw_unpack_row(
            depth as u32,
            bytes.as_ptr(),
            bytes.len(),
            indices.as_mut_ptr(),
            indices.len(),
        )
    })
}
