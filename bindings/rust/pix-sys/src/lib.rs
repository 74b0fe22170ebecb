//! The C interface of the library `pix`: the functions of `libpix_c.a` and the types that cross to it.
//!
//! `bindings/c/pix.h` documents it. Programs in Rust use the safe crate `pix` above this one. If you call these functions,
//! call [`check_library`] first: it tests whether the processor and the archive are the right ones.
//!
//! # Duties
//!
//! A caller of these functions ensures the following, which no function can test. Breaking one is undefined behavior:
//!
//! - Pointers, also in commands, are valid for their counts, aligned and not null, even if a count is 0.
//! - Memory that a call writes shares no byte with any other argument, nor with memory that commands point to. It belongs
//!   to the call until that returns: no other thread, signal handler, process or device reads or writes it meanwhile.
//! - Memory that a call only reads may be read by others meanwhile, but nobody writes it. A call tests commands and
//!   indices, and then trusts them: if one changes in between, the call reads or writes memory that was never passed.
//! - The thread has the stack that the call needs.
//!
//! # Stack
//!
//! A call's working memory is on the stack of its thread, which needs this many KiB. They include the thread's first frames, and
//! 8 KiB for a signal handler that runs meanwhile:
//!
//! <!-- made by tools/names: stack -->
//! | KiB | calls |
//! |--:|---|
//! | 272 | `pix_raw_map_indexed`, `pix_raw_map_indexed_alpha`, `pix_raw_quantize_refined`, `pix_raw_quantize_refined_alpha`, `pix_raw_diffuse_indexed_by`, `pix_raw_diffuse_indexed_by_alpha` |
//! | 128 | `pix_raw_quantize_rgba` |
//! | 48 | `pix_raw_index_pixels`, `pix_raw_map_indexed_rgba`, `pix_raw_diffuse_indexed_rgba` |
//! | 24 | all others |
//! <!-- made by tools/names: end -->
//!
//! Threads of `std` have 2 MiB.
#![no_std]
#![warn(missing_docs)]

mod library;
mod pixel;
mod scale;
mod table;

pub use crate::library::{LibraryFault, check_library};
pub use crate::pixel::*;
pub use crate::scale::*;
pub use crate::table::*;

use core::mem::{offset_of, size_of};

/// A command on pixels `P` with mattes `M`. No pointer is null, even if its count is 0.
#[repr(C)]
#[derive(Clone, Copy, Debug)]
pub struct Command<P, M> {
    /// The kind of command: one of [`kind`].
    pub kind: u32,
    /// The number of an operator. 0 if the kind has none.
    pub op: u32,
    /// The region that is changed.
    pub to: Region,
    /// The region of the source that is read, or of the matte of [`kind::COMPOSITE_MATTE`].
    pub from: Region,
    /// The color of kinds that have one.
    pub color: P,
    /// The pixels of the source.
    pub pixels: *const P,
    /// How many pixels there are.
    pub pixel_count: usize,
    /// The values of the matte or the mask.
    pub mattes: *const M,
    /// How many values there are.
    pub matte_count: usize,
    /// The width of the source, or of the matte of [`kind::COMPOSITE_MATTE`].
    pub width: u32,
    /// Its height.
    pub height: u32,
    /// The distance from a row of it to the next, in elements: at least the width.
    pub stride: u32,
    /// The region of the mask of [`kind::COMPOSITE_IMAGE_MATTE`] that is read.
    pub mask: Region,
    /// The width of the mask.
    pub mask_width: u32,
    /// Its height.
    pub mask_height: u32,
    /// The distance from a row of it to the next.
    pub mask_stride: u32,
    /// The opacity of [`kind::COMPOSITE_IMAGE_ALPHA`].
    pub alpha: M,
}

/// A command on pixels of 16 bits a channel: a [`Command`], and mattes of 8 bits. No pointer is null, even if its count is
/// 0.
#[repr(C)]
#[derive(Clone, Copy, Debug)]
pub struct CommandRgba16 {
    /// The command, with mattes of 16 bits.
    pub command: Command<Rgba16, u16>,
    /// Mattes of 8 bits. If there are any, the kinds with mattes read these and not the ones of 16 bits, each as 257 times
    /// its value.
    pub mattes8: *const u8,
    /// How many there are.
    pub matte8_count: usize,
}

/// Kinds of commands.
pub mod kind {
    // made by tools/names: kinds
    /// All pixels of the image become clear.
    pub const CLEAR: u32 = 0;
    /// A color replaces pixels.
    pub const COPY_COLOR: u32 = 1;
    /// The pixels of a source replace others.
    pub const COPY_IMAGE: u32 = 2;
    /// A color is composited.
    pub const COMPOSITE_COLOR: u32 = 3;
    /// A source is composited.
    pub const COMPOSITE_IMAGE: u32 = 4;
    /// A color is composited through a matte.
    pub const COMPOSITE_MATTE: u32 = 5;
    /// A source is composited through a mask.
    pub const COMPOSITE_IMAGE_MATTE: u32 = 6;
    /// A source is composited at an opacity.
    pub const COMPOSITE_IMAGE_ALPHA: u32 = 7;
    // made by tools/names: end
}

/// The statuses that the functions return.
pub mod status {
    // made by tools/names: statuses
    /// Done.
    pub const OK: u32 = 0;
    /// The written image: a side above 2147483647, a stride below the width, or more pixels than its memory has.
    pub const BAD_SIZE: u32 = 1;
    /// No such kind of command.
    pub const BAD_KIND: u32 = 2;
    /// A region of a command has a side above 2147483647.
    pub const BAD_REGION: u32 = 3;
    /// No such operator.
    pub const BAD_OP: u32 = 4;
    /// A source, a matte, a mask or a bitmap that is read: as `BAD_SIZE`.
    pub const BAD_SOURCE: u32 = 5;
    /// No such format, or one that the call doesn't take.
    pub const BAD_FORMAT: u32 = 6;
    /// More pixels, indices or commands than memory holds, or lengths that don't match.
    pub const BAD_LENGTH: u32 = 7;
    /// A table has no entry, or more than 256.
    pub const BAD_TABLE: u32 = 11;
    /// An index is past the end, or takes more bits than the depth has.
    pub const BAD_INDEX: u32 = 12;
    /// The depth of indices is not 1, 2, 4 or 8 bits.
    pub const BAD_DEPTH: u32 = 13;
    /// A table has no room for a color.
    pub const FULL_TABLE: u32 = 14;
    /// The strength of error diffusion is above 16.
    pub const BAD_STRENGTH: u32 = 15;
    /// A side of the source or of the new picture is 0.
    pub const NO_SIDE: u32 = 16;
    /// A side of the source is above 65535, or the new picture has larger sides than its sums allow.
    pub const TOO_LARGE: u32 = 17;
    /// The window is not all in the new picture.
    pub const OUTSIDE: u32 = 18;
    /// The work memory has fewer words than `scale_work` says.
    pub const SMALL_WORK: u32 = 19;
    /// No such filter.
    pub const BAD_FILTER: u32 = 20;
    /// A table of weights doesn't fit the image or the source, or a row of it doesn't add up.
    pub const BAD_WEIGHTS: u32 = 21;
    // made by tools/names: end
}

/// A function that runs commands `C` on a window of a picture, of pixels `P`. The window's place comes after the count of its
/// pixels.
pub type RunWindow<P, C> = unsafe extern "C" fn(
    *mut P,
    usize,
    u32,
    u32,
    u32,
    u32,
    u32,
    *const C,
    usize,
    *mut usize,
) -> u32;

#[link(name = "pix_c", kind = "static")]
unsafe extern "C" {
    // made by tools/names: calls
    /// Returns fact number `index` of the library. The first is its version. The others are sizes and offsets in
    /// bytes, in the order of the facts of each binding. Past the last one it returns the greatest number of 32 bits.
    pub safe fn pix_layout(index: usize) -> u32;

    /// Returns how many bytes a pixel of a format has, or 0 if there is no such format.
    pub safe fn pix_raw_format_size(format: u32) -> u32;

    /// Runs all commands on a window of a picture, or none. `done` is their number, or the index of the bad one. The
    /// window's first pixel is the point (`left`, `top`) of the picture, so an image by itself is the window at
    /// (0, 0).
    ///
    /// # Safety
    ///
    /// The [duties](crate#duties) are met.
    pub fn pix_raw_run_window(
        pixels: *mut Rgba8,
        pixel_count: usize,
        left: u32,
        top: u32,
        width: u32,
        height: u32,
        stride: u32,
        commands: *const Command<Rgba8, u8>,
        command_count: usize,
        done: *mut usize,
    ) -> u32;

    /// The same on pixels of 16 bits a channel.
    ///
    /// # Safety
    ///
    /// The [duties](crate#duties) are met.
    pub fn pix_raw_run_window_rgba16(
        pixels: *mut Rgba16,
        pixel_count: usize,
        left: u32,
        top: u32,
        width: u32,
        height: u32,
        stride: u32,
        commands: *const CommandRgba16,
        command_count: usize,
        done: *mut usize,
    ) -> u32;

    /// The same on pixels of gray and alpha.
    ///
    /// # Safety
    ///
    /// The [duties](crate#duties) are met.
    pub fn pix_raw_run_window_graya8(
        pixels: *mut Graya8,
        pixel_count: usize,
        left: u32,
        top: u32,
        width: u32,
        height: u32,
        stride: u32,
        commands: *const Command<Graya8, u8>,
        command_count: usize,
        done: *mut usize,
    ) -> u32;

    /// Converts `count` pixels from a format to another one.
    ///
    /// # Safety
    ///
    /// The [duties](crate#duties) are met.
    pub fn pix_raw_convert(
        from: u32,
        to: u32,
        src: *const u8,
        src_len: usize,
        dst: *mut u8,
        dst_len: usize,
        count: usize,
    ) -> u32;

    /// Writes a bitmap from another of the same size, pixel by pixel. Strides are in bytes, and 0 does not stand for
    /// the width. Both buffers begin with the row that is lowest in memory, which is the bottom one if the stride is
    /// negative. They end with the last row's last pixel.
    ///
    /// # Safety
    ///
    /// The [duties](crate#duties) are met.
    pub fn pix_raw_convert_bitmap(
        from: u32,
        to: u32,
        src: *const u8,
        src_len: usize,
        dst: *mut u8,
        dst_len: usize,
        src_stride: i64,
        dst_stride: i64,
        width: u32,
        height: u32,
    ) -> u32;
    // made by tools/names: end
}

/// The version of the binary interface. It changes if a call, a number or a layout changes.
pub const ABI_VERSION: u32 = 4;

/// The numbers that [`pix_layout`] returns, from 0 on. First comes the version. Then come the sizes of the kinds of
/// pixels and of a region, and the offsets of its fields. Last is the size of each kind's command, and the offsets of its
/// fields.
pub const FACTS: [u32; 65] = facts();

const fn facts() -> [u32; 65] {
    let (four, wide, gray) = (
        command_facts::<Rgba8, u8>(),
        command_facts::<Rgba16, u16>(),
        command_facts::<Graya8, u8>(),
    );
    let mut all = [ABI_VERSION; 65];
    all[1] = size_of::<Rgba8>() as u32;
    all[2] = size_of::<Rgba16>() as u32;
    all[3] = size_of::<Graya8>() as u32;
    all[4] = size_of::<Region>() as u32;
    all[5] = offset_of!(Region, x) as u32;
    all[6] = offset_of!(Region, y) as u32;
    all[7] = offset_of!(Region, width) as u32;
    all[8] = offset_of!(Region, height) as u32;
    let mut i = 0;
    while i < 18 {
        all[9 + i] = four[i] as u32;
        all[27 + i] = wide[i] as u32;
        all[47 + i] = gray[i] as u32;
        i += 1;
    }
    all[27] = size_of::<CommandRgba16>() as u32;
    all[45] = offset_of!(CommandRgba16, mattes8) as u32;
    all[46] = offset_of!(CommandRgba16, matte8_count) as u32;
    all
}

/// The size of a command and the offsets of its fields.
const fn command_facts<P, M>() -> [usize; 18] {
    [
        size_of::<Command<P, M>>(),
        offset_of!(Command<P, M>, kind),
        offset_of!(Command<P, M>, op),
        offset_of!(Command<P, M>, to),
        offset_of!(Command<P, M>, from),
        offset_of!(Command<P, M>, color),
        offset_of!(Command<P, M>, pixels),
        offset_of!(Command<P, M>, pixel_count),
        offset_of!(Command<P, M>, mattes),
        offset_of!(Command<P, M>, matte_count),
        offset_of!(Command<P, M>, width),
        offset_of!(Command<P, M>, height),
        offset_of!(Command<P, M>, stride),
        offset_of!(Command<P, M>, mask),
        offset_of!(Command<P, M>, mask_width),
        offset_of!(Command<P, M>, mask_height),
        offset_of!(Command<P, M>, mask_stride),
        offset_of!(Command<P, M>, alpha),
    ]
}

/// Whether the archive that is linked has the version and the layout of these declarations.
pub fn is_as_declared() -> bool {
    let mut facts = FACTS.iter().enumerate();
    facts.all(|(index, fact)| pix_layout(index) == *fact) && pix_layout(FACTS.len()) == u32::MAX
}

/// Whether a command has the layout that the library reads.
const fn is_laid_out<P, M>() -> bool {
    let word = size_of::<usize>();
    let slices = (40 + size_of::<P>()).next_multiple_of(word);
    let sizes = slices + 4 * word;
    offset_of!(Command<P, M>, kind) == 0
        && offset_of!(Command<P, M>, op) == 4
        && offset_of!(Command<P, M>, to) == 8
        && offset_of!(Command<P, M>, from) == 24
        && offset_of!(Command<P, M>, color) == 40
        && offset_of!(Command<P, M>, pixels) == slices
        && offset_of!(Command<P, M>, pixel_count) == slices + word
        && offset_of!(Command<P, M>, mattes) == slices + 2 * word
        && offset_of!(Command<P, M>, matte_count) == slices + 3 * word
        && offset_of!(Command<P, M>, width) == sizes
        && offset_of!(Command<P, M>, height) == sizes + 4
        && offset_of!(Command<P, M>, stride) == sizes + 8
        && offset_of!(Command<P, M>, mask) == sizes + 12
        && offset_of!(Command<P, M>, mask_width) == sizes + 28
        && offset_of!(Command<P, M>, mask_height) == sizes + 32
        && offset_of!(Command<P, M>, mask_stride) == sizes + 36
        && offset_of!(Command<P, M>, alpha) == sizes + 40
        && size_of::<Command<P, M>>() == (sizes + 42).next_multiple_of(word)
}

const _: () = assert!(is_laid_out::<Rgba8, u8>() && size_of::<Rgba8>() == 4);
const _: () = assert!(is_laid_out::<Rgba16, u16>() && size_of::<Rgba16>() == 8);
const _: () = assert!(
    offset_of!(CommandRgba16, command) == 0
        && offset_of!(CommandRgba16, mattes8) == size_of::<Command<Rgba16, u16>>()
        && offset_of!(CommandRgba16, matte8_count)
            == size_of::<Command<Rgba16, u16>>() + size_of::<usize>()
        && size_of::<CommandRgba16>() == size_of::<Command<Rgba16, u16>>() + 2 * size_of::<usize>()
);
const _: () = assert!(is_laid_out::<Graya8, u8>() && size_of::<Graya8>() == 2);
const _: () = assert!(size_of::<Region>() == 16 && offset_of!(Region, width) == 8);
