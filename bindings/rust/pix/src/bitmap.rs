//! Bitmaps: images of any format, as in files, windows and other libraries.

use crate::error::Error;
use crate::format::Format;
use pix_sys::status;

/// A picture in bytes that is read: rows of pixels of a [`Format`].
///
/// Rows begin `stride` bytes apart. A negative stride is for rows from bottom to top: the bytes begin with the bottom row.
/// A conversion fails if there are too few bytes, if a side is above 2147483647, or if rows would share bytes.
#[derive(Clone, Copy, Debug)]
pub struct Bitmap<'a> {
    bytes: &'a [u8],
    width: u32,
    height: u32,
    stride: isize,
    format: Format,
}

impl<'a> Bitmap<'a> {
    /// A picture with rows that follow each other without gaps, from top to bottom.
    pub const fn new(bytes: &'a [u8], width: u32, height: u32, format: Format) -> Bitmap<'a> {
        let stride = width as isize * format.size() as isize;
        Bitmap::with_stride(bytes, width, height, stride, format)
    }

    /// A picture with rows that begin `stride` bytes apart.
    ///
    /// ```
    /// use pix::{Bitmap, BitmapMut, Format};
    ///
    /// let upwards = [1, 0, 2, 0]; // two rows of a gray pixel and a byte of padding, the lower row first
    /// let mut gray = [0; 2];
    /// let src = Bitmap::with_stride(&upwards, 1, 2, -2, Format::SGray8);
    /// BitmapMut::new(&mut gray, 1, 2, Format::SGray8).convert_bitmap(src)?;
    /// assert_eq!(gray, [2, 1]);
    /// # Ok::<(), pix::Error>(())
    /// ```
    pub const fn with_stride(
        bytes: &'a [u8],
        width: u32,
        height: u32,
        stride: isize,
        format: Format,
    ) -> Bitmap<'a> {
        Bitmap {
            bytes,
            width,
            height,
            stride,
            format,
        }
    }
}

/// A picture in bytes that is written; see [`Bitmap`].
#[derive(Debug)]
pub struct BitmapMut<'a> {
    bytes: &'a mut [u8],
    width: u32,
    height: u32,
    stride: isize,
    format: Format,
}

impl<'a> BitmapMut<'a> {
    /// A picture with rows that follow each other without gaps, from top to bottom.
    pub const fn new(
        bytes: &'a mut [u8],
        width: u32,
        height: u32,
        format: Format,
    ) -> BitmapMut<'a> {
        let stride = width as isize * format.size() as isize;
        BitmapMut::with_stride(bytes, width, height, stride, format)
    }

    /// A picture with rows that begin `stride` bytes apart. The padding between them is not changed.
    pub const fn with_stride(
        bytes: &'a mut [u8],
        width: u32,
        height: u32,
        stride: isize,
        format: Format,
    ) -> BitmapMut<'a> {
        BitmapMut {
            bytes,
            width,
            height,
            stride,
            format,
        }
    }

    /// Writes each pixel from the same point of a picture of the same size, in this format.
    ///
    /// Between sRGB of 8 bits and linear channels of 16 bits, a pixel with an alpha of at least 13 comes back unchanged. Below
    /// that the alpha comes back, but the colors may change: at alpha 0 they are 0. All other pairs of formats are converted as
    /// [`convert`](crate::convert) does.
    ///
    /// ```
    /// use pix::{Bitmap, BitmapMut, Command, Format, ImageMut, Op, Region, Rgba16};
    ///
    /// let photo = [188, 90, 7, 255, 3, 2, 1, 60]; // two pixels, as a file holds them
    /// let mut pixels = [Rgba16::default(); 2];
    /// let mut light = ImageMut::new(&mut pixels, 2, 1);
    /// light.as_bitmap_mut().convert_bitmap(Bitmap::new(&photo, 2, 1, Format::SRgba8))?;
    /// let red = Rgba16::new(20000, 0, 0, 20000);
    /// light.run(&[Command::composite_color(Region::new(0, 0, 1, 1), red, Op::SrcOver)])?;
    /// let mut shown = [0; 8];
    /// BitmapMut::new(&mut shown, 2, 1, Format::SRgba8).convert_bitmap(light.as_bitmap())?;
    /// assert_eq!(shown[4..], photo[4..]);
    /// # Ok::<(), pix::Error>(())
    /// ```
    ///
    /// # Errors
    ///
    /// `OtherSize` if the pictures have different sizes. `Size` if this one has a bad size or stride or too few bytes, and
    /// `Picture` if `src` has. The pixels are unchanged.
    pub fn convert_bitmap(&mut self, src: Bitmap<'_>) -> Result<(), Error> {
        pix_sys::check_library()?;
        if (src.width, src.height) != (self.width, self.height) {
            return Err(Error::OtherSize);
        }
        // SAFETY: pointers and lengths come from two slices, and the exclusive one shares no byte with the other.
        let answer = unsafe {
            pix_sys::pix_raw_convert_bitmap(
                src.format as u32,
                self.format as u32,
                src.bytes.as_ptr(),
                src.bytes.len(),
                self.bytes.as_mut_ptr(),
                self.bytes.len(),
                src.stride as i64,
                self.stride as i64,
                self.width,
                self.height,
            )
        };
        match answer {
            status::OK => Ok(()),
            status::BAD_SOURCE => Err(Error::Picture),
            _ => Err(Error::of(answer, 0)),
        }
    }

    /// Converts each pixel in place to a format with pixels that are no larger. The pixels of `to` are at the starts of the same
    /// rows.
    ///
    /// ```
    /// use pix::{BitmapMut, Format};
    ///
    /// let mut picture = [200, 100, 50, 128];
    /// BitmapMut::new(&mut picture, 1, 1, Format::Rgba8).convert_in_place(Format::Rgba8p)?;
    /// assert_eq!(picture, [100, 50, 25, 128]);
    /// # Ok::<(), pix::Error>(())
    /// ```
    ///
    /// # Errors
    ///
    /// `Larger` if a pixel of `to` is larger, and `Size` if the picture has a bad size or stride or too few bytes. The pixels are
    /// unchanged.
    pub fn convert_in_place(self, to: Format) -> Result<(), Error> {
        let (size, to_size) = (self.format.size(), to.size());
        if to_size > size {
            return Err(Error::Larger);
        }
        let (width, height) = (self.width as usize, self.height as usize);
        let (wide, apart) = (width * size, self.stride.unsigned_abs());
        let end = (height.saturating_sub(1))
            .saturating_mul(apart)
            .saturating_add(wide);
        let is_high = height > 0;
        let is_too_large = self.width > i32::MAX as u32 || self.height > i32::MAX as u32;
        if is_too_large || wide > apart || is_high && end > self.bytes.len() {
            return Err(Error::Size);
        }
        if width == 0 {
            // There may be many rows without pixels.
            return Ok(());
        }
        // A block of pixels is copied, and converted from the copy.
        let mut block = [0; 64 * 8];
        for row in 0..height {
            for first in (0..width).step_by(64) {
                let count = (width - first).min(64);
                let start = row * apart + first * size;
                let source = &mut block[..count * size];
                source.copy_from_slice(&self.bytes[start..start + count * size]);
                let start = row * apart + first * to_size;
                let target = &mut self.bytes[start..start + count * to_size];
                let source = Bitmap::new(source, count as u32, 1, self.format);
                BitmapMut::new(target, count as u32, 1, to).convert_bitmap(source)?;
            }
        }
        Ok(())
    }
}
