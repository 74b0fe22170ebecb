//! Images: views of borrowed pixels.

use crate::bitmap::{Bitmap, BitmapMut};
use crate::command::Command;
use crate::error::Error;
use crate::pixel::private::Calls;
use crate::pixel::{Pixel, bytes, bytes_mut};
use core::mem;
use pix_sys::status;

/// An image that is read: rows of pixels from top to bottom, or of a mask's values.
///
/// If the slice is shorter than the sizes say, a side is above 2147483647, or the stride is below the width, the run of a
/// command with the image fails.
#[derive(Clone, Copy, Debug)]
pub struct Image<'a, T> {
    pub(crate) pixels: &'a [T],
    pub(crate) width: u32,
    pub(crate) height: u32,
    pub(crate) stride: u32,
}

impl<'a, T> Image<'a, T> {
    /// An image with rows that follow each other without padding.
    pub const fn new(pixels: &'a [T], width: u32, height: u32) -> Image<'a, T> {
        Image::with_stride(pixels, width, height, width)
    }

    /// An image with rows that begin `stride` pixels apart. It has (height - 1) * stride + width pixels. So a part of a picture
    /// is an image too:
    ///
    /// ```
    /// use pix::{Command, Image, ImageMut, Region, Rgba8};
    ///
    /// let sheet: Vec<_> = (0..32).map(|i| Rgba8::new(i, 0, 0, 255)).collect(); // 8 x 4 pixels
    /// let sprite = Image::with_stride(&sheet[8 + 3..], 2, 2, 8); // from (3, 1) on
    /// let (mut pixels, all) = ([Rgba8::default(); 4], Region::new(0, 0, 2, 2));
    /// ImageMut::new(&mut pixels, 2, 2).run(&[Command::copy_image(all, sprite, all)])?;
    /// assert_eq!(pixels.map(|pixel| pixel.r), [11, 12, 19, 20]);
    /// # Ok::<(), pix::Error>(())
    /// ```
    pub const fn with_stride(
        pixels: &'a [T],
        width: u32,
        height: u32,
        stride: u32,
    ) -> Image<'a, T> {
        Image {
            pixels,
            width,
            height,
            stride,
        }
    }
}

impl<'a, P: Pixel> Image<'a, P> {
    /// The image as a bitmap, to be read.
    ///
    /// ```
    /// use pix::{BitmapMut, Format, Image, Rgba16};
    ///
    /// let light = [Rgba16::new(37852, 12309, 1391, 65535)];
    /// let mut file = [0; 3];
    /// let picture = Image::new(&light, 1, 1).as_bitmap();
    /// BitmapMut::new(&mut file, 1, 1, Format::SRgb8).convert_bitmap(picture)?;
    /// assert_eq!(file, [200, 120, 40]);
    /// # Ok::<(), pix::Error>(())
    /// ```
    pub fn as_bitmap(&self) -> Bitmap<'a> {
        let stride = self.stride as usize * size_of::<P>();
        Bitmap::with_stride(
            bytes(self.pixels),
            self.width,
            self.height,
            stride as isize,
            P::FORMAT,
        )
    }
}

/// An image that is written.
#[derive(Debug)]
pub struct ImageMut<'a, P> {
    pub(crate) pixels: &'a mut [P],
    pub(crate) width: u32,
    pub(crate) height: u32,
    pub(crate) stride: u32,
}

impl<'a, P: Pixel> ImageMut<'a, P> {
    /// An image with rows that follow each other without padding.
    ///
    /// ```
    /// use pix::{Command, ImageMut, Region, Rgba8};
    ///
    /// let mut pixels = vec![Rgba8::default(); 64 * 48];
    /// let mut image = ImageMut::new(&mut pixels, 64, 48);
    /// image.run(&[Command::copy_color(Region::new(8, 8, 16, 16), Rgba8::new(200, 0, 0, 255))])?;
    /// assert_eq!(pixels[8 * 64 + 8], Rgba8::new(200, 0, 0, 255));
    /// # Ok::<(), pix::Error>(())
    /// ```
    pub const fn new(pixels: &'a mut [P], width: u32, height: u32) -> ImageMut<'a, P> {
        ImageMut::with_stride(pixels, width, height, width)
    }

    /// An image with rows that begin `stride` pixels apart. The padding between them is not changed.
    pub const fn with_stride(
        pixels: &'a mut [P],
        width: u32,
        height: u32,
        stride: u32,
    ) -> ImageMut<'a, P> {
        ImageMut {
            pixels,
            width,
            height,
            stride,
        }
    }

    /// The image as a source for another one.
    ///
    /// ```
    /// use pix::{Command, ImageMut, Op, Region, Rgba8};
    ///
    /// let (mut sprite, mut pixels) = ([Rgba8::default()], [Rgba8::default(); 2]);
    /// let (one, red) = (Region::new(0, 0, 1, 1), Rgba8::new(200, 0, 0, 255));
    /// let mut painted = ImageMut::new(&mut sprite, 1, 1);
    /// painted.run(&[Command::copy_color(one, red)])?;
    /// let at = Command::composite_image(Region::new(1, 0, 1, 1), painted.as_image(), one, Op::SrcOver);
    /// ImageMut::new(&mut pixels, 2, 1).run(&[at])?;
    /// assert_eq!(pixels, [Rgba8::default(), red]);
    /// # Ok::<(), pix::Error>(())
    /// ```
    pub const fn as_image(&self) -> Image<'_, P> {
        Image::with_stride(self.pixels, self.width, self.height, self.stride)
    }

    /// The image as a bitmap, to be written from another one; see [`BitmapMut`].
    ///
    /// ```
    /// use pix::{Bitmap, Format, ImageMut, Rgba16};
    ///
    /// let file = [200, 120, 40]; // a pixel as a file has it: #c87828
    /// let mut pixels = [Rgba16::default()];
    /// let mut image = ImageMut::new(&mut pixels, 1, 1);
    /// image.as_bitmap_mut().convert_bitmap(Bitmap::new(&file, 1, 1, Format::SRgb8))?;
    /// assert_eq!(pixels, [Rgba16::new(37852, 12309, 1391, 65535)]);
    /// # Ok::<(), pix::Error>(())
    /// ```
    pub fn as_bitmap_mut(&mut self) -> BitmapMut<'_> {
        let stride = self.stride as usize * size_of::<P>();
        BitmapMut::with_stride(
            bytes_mut(self.pixels),
            self.width,
            self.height,
            stride as isize,
            P::FORMAT,
        )
    }

    /// The image as a bitmap, to be read.
    pub fn as_bitmap(&self) -> Bitmap<'_> {
        let stride = self.stride as usize * size_of::<P>();
        Bitmap::with_stride(
            bytes(self.pixels),
            self.width,
            self.height,
            stride as isize,
            P::FORMAT,
        )
    }

    /// Runs the commands in order, or none of them if one is bad.
    ///
    /// ```
    /// use pix::{Command, Error, ImageMut, Op, Region, Rgba8};
    ///
    /// let mut pixels = [Rgba8::default(); 4];
    /// let mut image = ImageMut::new(&mut pixels, 2, 2);
    /// let (blue, red) = (Rgba8::new(0, 0, 200, 255), Rgba8::new(100, 0, 0, 128));
    /// image.run(&[
    ///     Command::copy_color(Region::new(0, 0, 2, 2), blue),
    ///     Command::composite_color(Region::new(1, -5, 9, 6), red, Op::SrcOver), // the upper right pixel
    /// ])?;
    /// let too_wide = Command::copy_color(Region::new(0, 0, u32::MAX, 1), red);
    /// assert_eq!(image.run(&[Command::clear(), too_wide]), Err(Error::Region { index: 1 }));
    /// assert_eq!(pixels, [blue, Rgba8::new(100, 0, 100, 255), blue, blue]);
    /// # Ok::<(), pix::Error>(())
    /// ```
    ///
    /// # Errors
    ///
    /// `Size` if the image has a side above 2147483647, a stride below its width, or too few pixels. `Region` or `Source`, with
    /// the index of the command, if one is bad. No pixel has changed then.
    pub fn run(&mut self, commands: &[Command<'_, P>]) -> Result<(), Error> {
        self.run_window(0, 0, commands)
    }

    /// Runs the commands on this image as a window of a picture: its first pixel is the point (`left`, `top`) of the
    /// picture. The regions of the commands are in the picture's coordinates.
    ///
    /// Each pixel gets the value that [`run`](ImageMut::run) on the whole picture would give it. So you can paint a picture
    /// tile by tile, in any order, or [`bands`](ImageMut::bands) of one image in several threads.
    ///
    /// ```
    /// use pix::{Command, ImageMut, Region, Rgba8};
    ///
    /// let green = Rgba8::new(0, 255, 0, 255);
    /// let list = [Command::copy_color(Region::new(101, 200, 1, 1), green)];
    /// let mut tile = [Rgba8::default(); 4]; // the pixels from (100, 200) to (101, 201) of a picture
    /// ImageMut::new(&mut tile, 2, 2).run_window(100, 200, &list)?;
    /// assert_eq!(tile[1], green);
    /// # Ok::<(), pix::Error>(())
    /// ```
    ///
    /// # Errors
    ///
    /// As [`run`](ImageMut::run), and `Size` too if `left` plus the width or `top` plus the height is above 2147483647.
    pub fn run_window(
        &mut self,
        left: u32,
        top: u32,
        commands: &[Command<'_, P>],
    ) -> Result<(), Error> {
        pix_sys::check_library()?;
        let mut done = 0;
        // SAFETY: pointers and counts, also in the commands, come from slices that are borrowed until the call is over.
        // The exclusive borrow of the pixels shares no byte with the others. A `Command` has the layout of the `Raw` in
        // it, which the call reads.
        let answer = unsafe {
            <P as Calls<P::Matte>>::RUN(
                self.pixels.as_mut_ptr(),
                self.pixels.len(),
                left,
                top,
                self.width,
                self.height,
                self.stride,
                commands.as_ptr().cast(),
                commands.len(),
                &mut done,
            )
        };
        if answer == status::OK {
            Ok(())
        } else {
            Err(Error::of(answer, done))
        }
    }

    /// Returns bands of this many rows, at least one, from top to bottom: each with the row of the image where it begins.
    /// The last one may have fewer rows. An image without pixels has no bands.
    ///
    /// They borrow parts of the image that share nothing, so threads may paint them at once.
    ///
    /// ```
    /// use pix::{Command, ImageMut, Op, Region, Rgba8};
    /// use std::thread;
    ///
    /// let mut pixels = vec![Rgba8::new(0, 0, 0, 255); 64 * 64];
    /// let mut image = ImageMut::new(&mut pixels, 64, 64);
    /// let (whole, red) = (Region::new(0, 0, 64, 64), Rgba8::new(128, 0, 0, 128));
    /// let commands = [Command::composite_color(whole, red, Op::SrcOver)];
    /// thread::scope(|threads| {
    ///     let painting: Vec<_> = image
    ///         .bands(16)
    ///         .map(|(top, mut band)| threads.spawn(move || band.run_window(0, top, &commands)))
    ///         .collect();
    ///     painting.into_iter().try_for_each(|each| each.join().expect("a thread that paints"))
    /// })?;
    /// assert!(pixels.iter().all(|pixel| *pixel == Rgba8::new(128, 0, 0, 255)));
    /// # Ok::<(), pix::Error>(())
    /// ```
    ///
    /// If the image has too few pixels, the run of the incomplete bands fails.
    pub fn bands(&mut self, rows: u32) -> Bands<'_, P> {
        Bands {
            pixels: self.pixels,
            width: self.width,
            // There may be many rows without pixels.
            height: if self.width == 0 { 0 } else { self.height },
            stride: self.stride,
            rows: rows.max(1),
            top: 0,
        }
    }
}

/// Bands of rows of an image that share nothing: see [`ImageMut::bands`].
#[derive(Debug)]
pub struct Bands<'a, P> {
    pixels: &'a mut [P],
    width: u32,
    height: u32,
    stride: u32,
    rows: u32,
    top: u32,
}

impl<'a, P: Pixel> Iterator for Bands<'a, P> {
    type Item = (u32, ImageMut<'a, P>);

    fn next(&mut self) -> Option<(u32, ImageMut<'a, P>)> {
        if self.top >= self.height {
            return None;
        }
        let (top, rows) = (self.top, self.rows.min(self.height - self.top));
        let count = usize::try_from(u64::from(rows) * u64::from(self.stride)).unwrap_or(usize::MAX);
        let pixels = mem::take(&mut self.pixels);
        let (band, rest) = pixels.split_at_mut(count.min(pixels.len()));
        self.pixels = rest;
        self.top += rows;
        Some((
            top,
            ImageMut::with_stride(band, self.width, rows, self.stride),
        ))
    }
}
