//! Compositing of raster images in the caller's own memory.
//!
//! You make [`Command`]s and run a list of them on an [`ImageMut`], which borrows its pixels. The pixels are changed in
//! place; nothing is allocated and nothing is kept. The static library below is proved to meet its contracts. This crate
//! is a safe layer over it, tested and not proved: the borrow checker ensures the duties that the library can't test.
//!
//! ```
//! use pix::{Command, ImageMut, Op, Region, Rgba8};
//!
//! let mut pixels = vec![Rgba8::default(); 64 * 64];
//! let mut image = ImageMut::new(&mut pixels, 64, 64);
//! image.run(&[
//!     Command::copy_color(Region::new(0, 0, 64, 64), Rgba8::new(0, 0, 64, 255)),
//!     Command::composite_color(Region::new(50, -8, 20, 20), Rgba8::new(90, 40, 0, 128), Op::SrcOver),
//! ])?;
//! assert_eq!(pixels[63], Rgba8::new(90, 40, 32, 255));
//! # Ok::<(), pix::Error>(())
//! ```
//!
//! Pixels are premultiplied and linear: the color channels are multiplied by the alpha and proportional to light.
//! A [`BitmapMut`] converts the bytes of image files and back: with 16 bits a channel, pixels with an alpha of at least
//! 13 come back unchanged. [`convert`] does it in 8 bits. Regions may be anywhere; points outside an image are neither
//! read nor written. A list is tested as a whole before its first command runs, so an [`Error`] means that no pixel was
//! changed. The archive runs under Linux on x86-64 with SSE4.1 and on aarch64. On any other processor, or with an archive
//! of another version or layout, the first call fails.
//!
//! You can paint a picture tile by tile, with [`ImageMut::run_window`], and one image in several threads, in
//! [`bands`](ImageMut::bands) of rows. The result is the picture painted whole. [`scale`] makes pictures at another size, or
//! windows of them.
//!
//! # Duties of a caller
//!
//! Borrows ensure everything that the library can't test, so a program without `unsafe` has no duty. A program that makes a
//! slice with `unsafe` has the duties of any slice. Such a slice may be of a mapped file, or of memory that is shared with
//! another process or another language. While it is borrowed, nothing else may write it. While it is borrowed mutably,
//! nothing else may read it either. Both hold for each address of that memory.
//!
//! No call takes a lock or waits for another one. So a destructor or a signal handler may make calls too, on images that it
//! may borrow, even if it interrupts a call.
//!
//! A thread needs a stack of 272 KiB to match pixels to a table ([`ColorTable::map_indexed`], [`ColorTable::diffuse_indexed`]),
//! and for [`quantize`] and [`quantize_refined`]. It needs 128 KiB for [`quantize_rgba`], 48 for [`index_pixels`] and to match to
//! a [`RgbaTable`], and 24 for all other calls. Each number includes 8 for a signal handler. Threads of `std` have 2 MiB.
//!
//! docs/PROMISES.md of the repository lists all calls in four languages, and their proved promises.
#![no_std]
#![warn(missing_docs)]

mod bitmap;
mod command;
mod diffusion;
mod error;
mod format;
mod image;
mod pixel;
mod rgba_table;
mod rows;
mod scale;
mod scale_by;
mod table;

pub use crate::bitmap::{Bitmap, BitmapMut};
pub use crate::command::{Command, Op};
pub use crate::diffusion::Diffusion;
pub use crate::error::Error;
pub use crate::format::{Format, convert};
pub use crate::image::{Bands, Image, ImageMut};
pub use crate::pixel::{Graya8, Pixel, Region, Rgba8, Rgba16, bytes, bytes_mut};
pub use crate::rgba_table::{RgbaTable, quantize_rgba};
pub use crate::rows::{IndexDepth, count_indices, pack_row, unpack_row};
pub use crate::scale::{Filter, scale, scale_work};
pub use crate::scale_by::{Weights, scale_by, scale_by_work};
pub use crate::table::{
    ColorTable, DEFAULT_ROUNDS, Srgb8, Srgba8, diffuse_indexed_work, index_pixels, quantize,
    quantize_alpha, quantize_refined, quantize_refined_alpha,
};
