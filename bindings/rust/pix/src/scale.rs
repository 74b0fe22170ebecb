//! Pictures at another size.

use crate::error::Error;
use crate::image::{Image, ImageMut};
use crate::pixel::Pixel;
use crate::pixel::private::Calls;
use pix_sys::{check_library, status};

/// How a pixel of a picture at another size is made of those of the source.
///
/// Columns and rows are weighed apart, in whole numbers. A pixel is the sum of all products of pixels and weights, divided by
/// the sum of the weights. It is rounded once, to the nearest, ties up. The last three have weights below 0: an alpha is cut at
/// 0 and at the greatest channel, and a color at 0 and at the new alpha. A side that keeps its length is not filtered by them.
#[repr(u32)]
#[non_exhaustive]
#[derive(Clone, Copy, Debug, PartialEq, Eq, Hash)]
pub enum Filter {
    // made by tools/names: filters
    /// The pixel under its center: for sprites.
    Nearest = 0,
    /// The mean of the area that it covers: for photographs, and for sharp enlarged pixels.
    Area = 1,
    /// By the distance of centers, as far as one pixel, of the source or of the result: smooth.
    Linear = 2,
    /// A cubic as far as two pixels, with weights below 0: sharp.
    CatmullRom = 3,
    /// Such a cubic that is softer, with less of a rim around edges.
    Mitchell = 4,
    /// A windowed sine as far as three pixels: the sharpest.
    Lanczos = 5,
    // made by tools/names: end
}

impl Filter {
    /// All filters, in the order of their numbers.
    // made by tools/names: all filters
    pub const ALL: [Filter; 6] = [
        Filter::Nearest,
        Filter::Area,
        Filter::Linear,
        Filter::CatmullRom,
        Filter::Mitchell,
        Filter::Lanczos,
    ];
    // made by tools/names: end
}

/// Answers a status.
pub(crate) fn answered(status: u32) -> Result<(), Error> {
    match status {
        status::OK => Ok(()),
        status::BAD_SOURCE => Err(Error::Picture),
        _ => Err(Error::of(status, 0)),
    }
}

/// How many words of work memory [`scale`] takes for a window of the size `to`, of a new picture of `size`, that is made of
/// one of the size `from`: each is (width, height).
///
/// # Errors
///
/// `NoSide` or `TooLarge`, as [`scale`] has them.
pub fn scale_work<P: Pixel>(
    to: (u32, u32),
    size: (u32, u32),
    from: (u32, u32),
    filter: Filter,
) -> Result<usize, Error> {
    check_library()?;
    let bits = 8 * size_of::<P::Matte>();
    let channels = size_of::<P>() / size_of::<P::Matte>();
    let mut words = 0;
    // SAFETY: `words` is a number of this function, borrowed exclusively.
    answered(unsafe {
        pix_sys::pix_raw_scale_work(
            to.0,
            to.1,
            size.0,
            size.1,
            from.0,
            from.1,
            channels as u32,
            bits as u32,
            filter as u32,
            &mut words,
        )
    })?;
    usize::try_from(words).map_err(|_| Error::TooLarge)
}

/// Writes a window of a picture at another size: the part of a new picture of `size` whose upper left pixel is at `at`. The
/// new picture is made of all of `from`.
///
/// The whole need never be in memory. So a viewer pans and zooms by windows, and tiles side by side are the whole without a
/// seam: make [`bands`](ImageMut::bands) in several threads, each with work memory of its own. `work` has at least as many
/// words as [`scale_work`] says; what is in it doesn't matter.
///
/// Pixels are premultiplied and linear, and premultiplied ones stay so. For a picture of sRGB, decode it to [`Rgba16`] with a
/// [`BitmapMut`](crate::BitmapMut), scale, and encode it.
///
/// ```
/// use pix::{Filter, Image, ImageMut, Rgba8, scale, scale_work};
///
/// let (black, white) = (Rgba8::new(0, 0, 0, 255), Rgba8::new(255, 255, 255, 255));
/// let dots = [white, black, black, black];
/// let mut mean = [Rgba8::default()];
/// let mut work = vec![0; scale_work::<Rgba8>((1, 1), (1, 1), (2, 2), Filter::Area)?];
/// let mut image = ImageMut::new(&mut mean, 1, 1);
/// scale(&mut image, (0, 0), (1, 1), &Image::new(&dots, 2, 2), Filter::Area, &mut work)?;
/// assert_eq!(mean, [Rgba8::new(64, 64, 64, 255)]); // 63.75
/// # Ok::<(), pix::Error>(())
/// ```
///
/// # Errors
///
/// In this order, and no pixel has changed then: `NoSide` if a side of the source or of the new picture is 0. `TooLarge` if a
/// side of the source is above 65535, or the new picture is too large for its sums. `Outside` if the window is not all in the
/// new picture. `Size` if the window has a bad stride or too few pixels, and `Picture` if the source has. `Work` if there is
/// too little work memory.
///
/// [`Rgba16`]: crate::Rgba16
pub fn scale<P: Pixel>(
    to: &mut ImageMut<'_, P>,
    at: (u32, u32),
    size: (u32, u32),
    from: &Image<'_, P>,
    filter: Filter,
    work: &mut [u32],
) -> Result<(), Error> {
    check_library()?;
    // SAFETY: pointers and counts come from slices that are borrowed until the call is over. The exclusive borrows of the
    // pixels and of the work memory share no byte with each other or with the source.
    answered(unsafe {
        <P as Calls<P::Matte>>::SCALE(
            to.pixels.as_mut_ptr(),
            to.pixels.len(),
            at.0,
            at.1,
            to.width,
            to.height,
            to.stride,
            size.0,
            size.1,
            from.pixels.as_ptr(),
            from.pixels.len(),
            from.width,
            from.height,
            from.stride,
            filter as u32,
            work.as_mut_ptr(),
            work.len(),
        )
    })
}
