//! Pixels and regions.

use crate::bitmap::{Bitmap, BitmapMut};
use crate::error::Error;
use crate::format::Format;
use core::ptr::NonNull;
use core::slice;
use pix_sys::{RunWindow, Scale, ScaleBy};

pub use pix_sys::{Graya8, Region, Rgba8, Rgba16};

/// A pixel that can be composited: [`Rgba8`], [`Rgba16`] or [`Graya8`]. This trait is sealed.
pub trait Pixel: Copy + Default + private::Calls<Self::Matte> {
    /// A value of a mask, from 0 (none of the color is composited) to the maximum (all of it).
    type Matte: Copy + Default;

    /// The format of these pixels in a bitmap.
    const FORMAT: Format;

    /// The first pixel of these bytes in a format, as a color to paint with.
    ///
    /// ```
    /// use pix::{Format, Pixel, Rgba16};
    ///
    /// let half_white = Rgba16::color_of(Format::SRgba8, &[255, 255, 255, 128])?; // in light
    /// assert_eq!(half_white, Rgba16::new(32896, 32896, 32896, 32896));
    /// # Ok::<(), pix::Error>(())
    /// ```
    ///
    /// # Errors
    ///
    /// `Picture` if there are fewer bytes than a pixel of the format has.
    fn color_of(format: Format, pixel: &[u8]) -> Result<Self, Error> {
        let mut color = [Self::default()];
        let source = Bitmap::new(pixel, 1, 1, format);
        BitmapMut::new(bytes_mut(&mut color), 1, 1, Self::FORMAT).convert_bitmap(source)?;
        Ok(color[0])
    }
}

pub(crate) mod private {
    use core::fmt::Debug;
    use pix_sys::{Command, RunWindow, Scale, ScaleBy};

    /// The library's calls for a kind of pixels.
    pub trait Calls<M>: Sized {
        /// A command as the call reads it.
        type Raw: Copy + Debug;

        const RUN: RunWindow<Self, Self::Raw>;

        const SCALE: Scale<Self>;

        const SCALE_BY: ScaleBy<Self>;

        /// A command with only the fields that all kinds of pixels have.
        fn raw(command: Command<Self, M>) -> Self::Raw;

        /// The fields of a command that all kinds of pixels have.
        fn command(raw: &mut Self::Raw) -> &mut Command<Self, M>;
    }
}

impl Pixel for Rgba8 {
    type Matte = u8;

    const FORMAT: Format = Format::Rgba8p;
}

impl private::Calls<u8> for Rgba8 {
    type Raw = pix_sys::Command<Rgba8, u8>;

    const RUN: RunWindow<Rgba8, Self::Raw> = pix_sys::pix_raw_run_window;

    const SCALE: Scale<Rgba8> = pix_sys::pix_raw_scale;

    const SCALE_BY: ScaleBy<Rgba8> = pix_sys::pix_raw_scale_by;

    fn raw(command: pix_sys::Command<Rgba8, u8>) -> Self::Raw {
        command
    }

    fn command(raw: &mut Self::Raw) -> &mut pix_sys::Command<Rgba8, u8> {
        raw
    }
}

impl Pixel for Rgba16 {
    type Matte = u16;

    const FORMAT: Format = Format::Rgba16p;
}

impl private::Calls<u16> for Rgba16 {
    type Raw = pix_sys::CommandRgba16;

    const RUN: RunWindow<Rgba16, Self::Raw> = pix_sys::pix_raw_run_window_rgba16;

    const SCALE: Scale<Rgba16> = pix_sys::pix_raw_scale_rgba16;

    const SCALE_BY: ScaleBy<Rgba16> = pix_sys::pix_raw_scale_by_rgba16;

    fn raw(command: pix_sys::Command<Rgba16, u16>) -> Self::Raw {
        pix_sys::CommandRgba16 {
            command,
            mattes8: NonNull::dangling().as_ptr(),
            matte8_count: 0,
        }
    }

    fn command(raw: &mut Self::Raw) -> &mut pix_sys::Command<Rgba16, u16> {
        &mut raw.command
    }
}

impl Pixel for Graya8 {
    type Matte = u8;

    const FORMAT: Format = Format::Graya8p;
}

impl private::Calls<u8> for Graya8 {
    type Raw = pix_sys::Command<Graya8, u8>;

    const RUN: RunWindow<Graya8, Self::Raw> = pix_sys::pix_raw_run_window_graya8;

    const SCALE: Scale<Graya8> = pix_sys::pix_raw_scale_graya8;

    const SCALE_BY: ScaleBy<Graya8> = pix_sys::pix_raw_scale_by_graya8;

    fn raw(command: pix_sys::Command<Graya8, u8>) -> Self::Raw {
        command
    }

    fn command(raw: &mut Self::Raw) -> &mut pix_sys::Command<Graya8, u8> {
        raw
    }
}

/// The bytes of pixels, in the order of their channels. A channel of 16 bits is in the machine's order.
pub fn bytes<P: Pixel>(pixels: &[P]) -> &[u8] {
    // SAFETY: the kinds of pixels are numbers without padding, and the slice is borrowed as long as the pixels.
    unsafe { slice::from_raw_parts(pixels.as_ptr().cast(), size_of_val(pixels)) }
}

/// The bytes of pixels, to be written: [`convert`](crate::convert) decodes a picture into them.
///
/// ```
/// use pix::{Format, Rgba8, bytes, bytes_mut, convert};
///
/// let mut pixels = [Rgba8::default(); 2];
/// convert(Format::SGray8, &[188, 255], Format::Rgba8p, bytes_mut(&mut pixels))?;
/// assert_eq!(pixels, [Rgba8::new(128, 128, 128, 255), Rgba8::new(255, 255, 255, 255)]);
/// assert_eq!(bytes(&pixels)[3..5], [255, 255]);
/// # Ok::<(), pix::Error>(())
/// ```
pub fn bytes_mut<P: Pixel>(pixels: &mut [P]) -> &mut [u8] {
    // SAFETY: as in `bytes`; any bytes are pixels, and the borrow is exclusive.
    unsafe { slice::from_raw_parts_mut(pixels.as_mut_ptr().cast(), size_of_val(pixels)) }
}
