//! Pictures at another size by tables of the caller's own.

use crate::error::Error;
use crate::image::{Image, ImageMut};
use crate::pixel::Pixel;
use crate::pixel::private::Calls;
use crate::scale::answered;
use pix_sys::check_library;

/// A table of weights for the columns, or the rows, of a picture at another size.
///
/// Column `i` is made of `taps` columns of the source, from `firsts[i]` on, all of which are in the source. Their weights begin
/// at `weights[i * taps]`, in 2^14ths. They add up to 16384, and the negative ones among them to more than -8192.
#[derive(Clone, Copy, Debug, PartialEq, Eq)]
pub struct Weights<'a> {
    /// The first place of the source, for each column or row of the picture.
    pub firsts: &'a [u32],
    /// How many places of the source count for each.
    pub taps: u32,
    /// A weight for each of these places.
    pub weights: &'a [i32],
}

/// How many words of work memory [`scale_by`] takes for a picture of the size `to`, that is made of one of the size `from`:
/// each is (width, height). The tables have `taps` weights for a column, and `row_taps` for a row.
///
/// # Errors
///
/// `NoSide` or `TooLarge`, as [`scale_by`] has them, and `Weights` if there are more of them for a place than the source has
/// places.
pub fn scale_by_work<P: Pixel>(
    to: (u32, u32),
    from: (u32, u32),
    taps: u32,
    row_taps: u32,
) -> Result<usize, Error> {
    check_library()?;
    let bits = 8 * size_of::<P::Matte>();
    let channels = size_of::<P>() / size_of::<P::Matte>();
    let mut words = 0;
    // SAFETY: `words` is a number of this function, borrowed exclusively.
    answered(unsafe {
        pix_sys::pix_raw_scale_by_work(
            to.0,
            to.1,
            from.0,
            from.1,
            taps,
            row_taps,
            channels as u32,
            bits as u32,
            &mut words,
        )
    })?;
    usize::try_from(words).map_err(|_| Error::TooLarge)
}

/// Writes a picture at another size by two tables of the caller's own: `across` for its columns, and `down` for its rows.
///
/// This serves a filter that [`Filter`](crate::Filter) has not, a picture that is moved by a part of a pixel, or one that is
/// mirrored. Each channel is the sum of those of the source by both weights. It is rounded once, to the nearest, ties up. An
/// alpha is cut at 0 and at the greatest channel, and a color at 0 and at the new alpha. `work` has at least as many words as
/// [`scale_by_work`] says; what is in it doesn't matter.
///
/// ```
/// use pix::{Graya8, Image, ImageMut, Weights, scale_by, scale_by_work};
///
/// let row = [10, 20, 30, 51].map(|value| Graya8::new(value, 255));
/// let mut means = [Graya8::default(); 2];
/// let across = Weights { firsts: &[0, 2], taps: 2, weights: &[8192; 4] };
/// let down = Weights { firsts: &[0], taps: 1, weights: &[16384] };
/// let mut work = vec![0; scale_by_work::<Graya8>((2, 1), (4, 1), 2, 1)?];
/// let mut image = ImageMut::new(&mut means, 2, 1);
/// scale_by(&mut image, &Image::new(&row, 4, 1), &across, &down, &mut work)?;
/// assert_eq!(means, [Graya8::new(15, 255), Graya8::new(41, 255)]); // 40.5
/// # Ok::<(), pix::Error>(())
/// ```
///
/// # Errors
///
/// In this order, and no pixel has changed then: `NoSide` if a side of the source is 0. `TooLarge` if one is above 65535.
/// `Size` if the picture has a bad stride or too few pixels, and `Picture` if the source has. `Weights` if a table is not as
/// [`Weights`] says, or not one of as many columns or rows as the picture has. `Work` if there is too little work memory.
pub fn scale_by<P: Pixel>(
    to: &mut ImageMut<'_, P>,
    from: &Image<'_, P>,
    across: &Weights<'_>,
    down: &Weights<'_>,
    work: &mut [u32],
) -> Result<(), Error> {
    check_library()?;
    // SAFETY: pointers and counts come from slices that are borrowed until the call is over. The exclusive borrows of the
    // pixels and of the work memory share no byte with each other, with the source or with the tables.
    answered(unsafe {
        <P as Calls<P::Matte>>::SCALE_BY(
            to.pixels.as_mut_ptr(),
            to.pixels.len(),
            to.width,
            to.height,
            to.stride,
            from.pixels.as_ptr(),
            from.pixels.len(),
            from.width,
            from.height,
            from.stride,
            across.firsts.as_ptr(),
            across.firsts.len(),
            across.taps,
            across.weights.as_ptr(),
            across.weights.len(),
            down.firsts.as_ptr(),
            down.firsts.len(),
            down.taps,
            down.weights.as_ptr(),
            down.weights.len(),
            work.as_mut_ptr(),
            work.len(),
        )
    })
}
