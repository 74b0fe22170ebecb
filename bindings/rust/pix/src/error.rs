//! The errors of calls.

use core::fmt;
use pix_sys::{LibraryFault, status};

/// Why a call failed. It has changed nothing then.
///
/// `index` is the place of the bad command in its list; the commands before it are fine. Any call can also fail with
/// `Processor` or `Library`, and then all calls do.
#[non_exhaustive]
#[derive(Clone, Copy, Debug, PartialEq, Eq)]
pub enum Error {
    /// The image has a side above 2147483647, a stride below its width, or too few pixels.
    Size,
    /// A region has a side above 2147483647.
    Region {
        /// The place of the command in its list.
        index: usize,
    },
    /// The source or the mask has a side above 2147483647, a stride below its width, or too few pixels.
    Source {
        /// The place of the command in its list.
        index: usize,
    },
    /// The picture to convert, or the source to scale, has a side above 2147483647, a stride below its width, or too few bytes.
    Picture,
    /// The picture to convert and the picture to write have different sizes.
    OtherSize,
    /// [`convert`](crate::convert) doesn't take this format. A [`BitmapMut`](crate::BitmapMut) takes all.
    Format,
    /// A conversion in place to a format with larger pixels.
    Larger,
    /// Lengths don't match: bytes that aren't whole pixels, more or fewer indices than pixels, work memory of another
    /// length, or serpentine rows that are not whole.
    Length,
    /// A table of colors has no entry, or more than 256.
    Table,
    /// An index is past the end of a table or of the counts, or takes more bits than the depth has.
    Index,
    /// A table has no room for a color.
    Full,
    /// The strength of error diffusion is above 16.
    Strength,
    /// A side of the source, or of the picture at another size, is 0.
    NoSide,
    /// A side of the source is above 65535, or the picture at another size is too large for its sums.
    TooLarge,
    /// The window isn't all in the picture at another size.
    Outside,
    /// There is less work memory than [`scale_work`](crate::scale_work) or [`scale_by_work`](crate::scale_by_work) says.
    Work,
    /// A table of [`Weights`](crate::Weights) doesn't fit the picture or the source, or a row of it doesn't add up.
    Weights,
    /// The processor is neither x86-64 with SSE4.1 nor aarch64.
    Processor,
    /// The archive has another version or layout than the crate `pix-sys`.
    Library,
    /// A status that this crate doesn't know.
    Unknown {
        /// The number that the library returned.
        status: u32,
        /// The place of a command in its list, or 0.
        index: usize,
    },
}

impl Error {
    /// The error of a status that is not 0.
    pub(crate) fn of(status: u32, index: usize) -> Error {
        match status {
            status::BAD_SIZE => Error::Size,
            status::BAD_REGION => Error::Region { index },
            status::BAD_SOURCE => Error::Source { index },
            status::BAD_FORMAT => Error::Format,
            status::BAD_LENGTH => Error::Length,
            status::BAD_TABLE => Error::Table,
            status::BAD_INDEX => Error::Index,
            status::FULL_TABLE => Error::Full,
            status::BAD_STRENGTH => Error::Strength,
            status::NO_SIDE => Error::NoSide,
            status::TOO_LARGE => Error::TooLarge,
            status::OUTSIDE => Error::Outside,
            status::SMALL_WORK => Error::Work,
            status::BAD_WEIGHTS => Error::Weights,
            _ => Error::Unknown { status, index },
        }
    }
}

impl From<LibraryFault> for Error {
    fn from(fault: LibraryFault) -> Error {
        match fault {
            LibraryFault::Processor => Error::Processor,
            LibraryFault::Archive => Error::Library,
        }
    }
}

impl fmt::Display for Error {
    fn fmt(&self, f: &mut fmt::Formatter<'_>) -> fmt::Result {
        match self {
            Error::Size => f.write_str("the image has a bad size or stride, or too few pixels"),
            Error::Region { index } => {
                write!(f, "command {index}: a region has a side above 2147483647")
            }
            Error::Source { index } => {
                write!(
                    f,
                    "command {index}: its source has a bad size or stride, or too few pixels"
                )
            }
            Error::Picture => {
                f.write_str("the picture that is read has a bad size or stride, or too few bytes")
            }
            Error::OtherSize => f.write_str(
                "the picture to be converted has another size than the one to be written",
            ),
            Error::Format => {
                f.write_str("`convert` takes formats up to SGray8; a BitmapMut takes all")
            }
            Error::Larger => f.write_str("in place, a pixel would be larger"),
            Error::Length => f.write_str("the lengths don't match"),
            Error::Table => f.write_str("a table must have 1 to 256 entries"),
            Error::Index => f.write_str("an index is past the end, or needs more bits than it has"),
            Error::Full => f.write_str("a table has no room for a color"),
            Error::Strength => f.write_str("errors are diffused with a strength of 0 to 16"),
            Error::NoSide => f.write_str("a side of the source or of the new picture is 0"),
            Error::TooLarge => f.write_str(
                "a side of the source is above 65535, or the new picture is too large for its sums",
            ),
            Error::Outside => f.write_str("the window is not all in the new picture"),
            Error::Work => f.write_str("the work memory is too small"),
            Error::Weights => f.write_str(
                "a table of weights doesn't fit the image or the source, or a row of it doesn't add up",
            ),
            Error::Processor => LibraryFault::Processor.fmt(f),
            Error::Library => LibraryFault::Archive.fmt(f),
            Error::Unknown { status, index } => write!(f, "command {index}: status {status}"),
        }
    }
}

impl core::error::Error for Error {}
