//! Tables of colors, for images of indices.

use crate::diffusion::Diffusion;
use crate::error::Error;
pub use pix_sys::{Srgb8, Srgba8};
use pix_sys::{check_library, status};

/// A table of 1 to 256 colors, which it borrows.
///
/// ```
/// use pix::{ColorTable, Srgb8};
///
/// let entries = [Srgb8::new(0, 0, 0), Srgb8::new(255, 255, 255)];
/// let table = ColorTable::new(&entries)?;
/// let mut indices = [0; 2];
/// table.map_indexed(&[Srgb8::new(200, 190, 180), Srgb8::new(30, 20, 10)], &mut indices)?;
/// assert_eq!(indices, [1, 0]);
/// # Ok::<(), pix::Error>(())
/// ```
#[derive(Clone, Copy, Debug)]
pub struct ColorTable<'a> {
    entries: &'a [Srgb8],
}

/// The error of a status, if it is one.
pub(crate) fn done(answer: u32) -> Result<(), Error> {
    if answer == status::OK {
        Ok(())
    } else {
        Err(Error::of(answer, 0))
    }
}

/// The entries of a table, if there are 1 to 256.
pub(crate) fn of_a_table<T>(entries: &[T]) -> Result<&[T], Error> {
    match entries.len() {
        1..=256 => Ok(entries),
        _ => Err(Error::Table),
    }
}

impl<'a> ColorTable<'a> {
    /// A table of these entries, in order.
    ///
    /// # Errors
    ///
    /// `Table` if there is none, or more than 256.
    pub fn new(entries: &'a [Srgb8]) -> Result<ColorTable<'a>, Error> {
        of_a_table(entries).map(|entries| ColorTable { entries })
    }

    /// The entries, in order.
    pub fn entries(&self) -> &'a [Srgb8] {
        self.entries
    }

    /// The index of the entry that is nearest to a color, the first if several are equal. The nearest has the least sum of
    /// the squares of the differences in red, green and blue.
    ///
    /// ```
    /// use pix::{ColorTable, Srgb8};
    ///
    /// let entries = [Srgb8::new(0, 0, 0), Srgb8::new(255, 0, 0), Srgb8::new(255, 255, 255)];
    /// assert_eq!(ColorTable::new(&entries)?.nearest(Srgb8::new(180, 30, 20))?, 1);
    /// # Ok::<(), pix::Error>(())
    /// ```
    ///
    /// # Errors
    ///
    /// `Processor` or `Library`, as of any call.
    pub fn nearest(&self, color: Srgb8) -> Result<u8, Error> {
        check_library()?;
        let mut index = 0;
        // SAFETY: the pointers come from a slice and of two values of this function.
        let answer = unsafe {
            pix_sys::pix_raw_nearest(
                self.entries.as_ptr(),
                self.entries.len(),
                &color,
                &mut index,
            )
        };
        done(answer).map(|()| index)
    }

    /// Sets each index to the entry that is nearest to the pixel in the same place.
    ///
    /// ```
    /// use pix::{ColorTable, Srgb8};
    ///
    /// let gray = |v| Srgb8::new(v, v, v);
    /// let (entries, mut indices) = ([gray(0), gray(100), gray(255)], [0; 3]);
    /// ColorTable::new(&entries)?.map_indexed(&[gray(240), gray(90), gray(7)], &mut indices)?;
    /// assert_eq!(indices, [2, 1, 0]);
    /// # Ok::<(), pix::Error>(())
    /// ```
    ///
    /// # Errors
    ///
    /// `Length` if there are not as many indices as pixels. They are unchanged.
    pub fn map_indexed(&self, pixels: &[Srgb8], indices: &mut [u8]) -> Result<(), Error> {
        check_library()?;
        // SAFETY: pointers and lengths come from three slices, and the exclusive one shares no byte with the others.
        done(unsafe {
            pix_sys::pix_raw_map_indexed(
                self.entries.as_ptr(),
                self.entries.len(),
                pixels.as_ptr(),
                pixels.len(),
                indices.as_mut_ptr(),
                indices.len(),
            )
        })
    }

    /// Sets each index to the entry that is nearest to the pixel in the same place, for pixels with an alpha. A pixel with an
    /// alpha below `alpha` gets the index `transparent_index`, which may point to a transparent entry. For all others the alpha
    /// is ignored.
    ///
    /// ```
    /// use pix::{ColorTable, Srgb8, Srgba8};
    ///
    /// let entries = [Srgb8::new(0, 0, 0), Srgb8::new(255, 255, 255)];
    /// let pixels = [Srgba8::new(200, 200, 200, 255), Srgba8::new(200, 200, 200, 40)];
    /// let mut indices = [0; 2];
    /// ColorTable::new(&entries)?.map_indexed_alpha(&pixels, 128, 2, &mut indices)?;
    /// assert_eq!(indices, [1, 2]);
    /// # Ok::<(), pix::Error>(())
    /// ```
    ///
    /// # Errors
    ///
    /// `Length` if there are not as many indices as pixels. They are unchanged.
    pub fn map_indexed_alpha(
        &self,
        pixels: &[Srgba8],
        alpha: u8,
        transparent_index: u8,
        indices: &mut [u8],
    ) -> Result<(), Error> {
        check_library()?;
        // SAFETY: pointers and lengths come from three slices, and the exclusive one shares no byte with the others.
        done(unsafe {
            pix_sys::pix_raw_map_indexed_alpha(
                self.entries.as_ptr(),
                self.entries.len(),
                pixels.as_ptr(),
                pixels.len(),
                alpha,
                transparent_index,
                indices.as_mut_ptr(),
                indices.len(),
            )
        })
    }

    /// Sets the index of each pixel of rows of `width` by error diffusion, to the entry nearest to its target. The target is,
    /// in each channel, the pixel's number plus its shares of earlier errors. It is rounded to the nearest, a half up, and
    /// clamped to 0..255. An error is the target less the chosen entry, within a bound either way: half of the widest step
    /// between neighboring levels of the table in a channel, and at least 24. 12/16 of it are passed on ([`Diffusion`]). Of
    /// these, 7/16 go to the pixel on the right, 3/16 to the one below on the left, 5/16 to the one below, and 1/16 to the one
    /// below on the right. Shares past the sides of a row are lost. Every second row goes from right to left, with left and
    /// right exchanged. `work` has exactly [`diffuse_indexed_work`] colors.
    ///
    /// ```
    /// use pix::{ColorTable, Srgb8, diffuse_indexed_work};
    ///
    /// let gray = |v| Srgb8::new(v, v, v);
    /// let entries = [gray(0), gray(255)];
    /// let (mut work, mut indices) = (vec![gray(0); diffuse_indexed_work(4).unwrap()], [9; 8]);
    /// ColorTable::new(&entries)?.diffuse_indexed(&[gray(128); 8], 4, &mut work, &mut indices)?;
    /// assert_eq!(indices, [1, 0, 1, 0, 0, 1, 0, 1]);
    /// # Ok::<(), pix::Error>(())
    /// ```
    ///
    /// # Errors
    ///
    /// `Length` if a row has no pixel or isn't whole, if `work` has another length, or if there are not as many indices as
    /// pixels. The indices are unchanged.
    pub fn diffuse_indexed(
        &self,
        pixels: &[Srgb8],
        width: usize,
        work: &mut [Srgb8],
        indices: &mut [u8],
    ) -> Result<(), Error> {
        self.diffuse_indexed_by(pixels, width, Diffusion::default(), work, indices)
    }

    /// Sets the index of each pixel by error diffusion, like [`diffuse_indexed`](ColorTable::diffuse_indexed), for pixels with
    /// an alpha. A pixel with an alpha below `alpha` gets the index `transparent_index`, and passes on no error.
    ///
    /// ```
    /// use pix::{ColorTable, Srgb8, Srgba8, diffuse_indexed_work};
    ///
    /// let entries = [Srgb8::new(0, 0, 0), Srgb8::new(255, 255, 255)];
    /// let (gray, clear) = (Srgba8::new(128, 128, 128, 255), Srgba8::new(9, 9, 9, 0));
    /// let mut work = vec![Srgb8::default(); diffuse_indexed_work(4).unwrap()];
    /// let mut indices = [9; 4];
    /// let pixels = [gray, gray, clear, gray];
    /// ColorTable::new(&entries)?.diffuse_indexed_alpha(&pixels, 4, 128, 2, &mut work, &mut indices)?;
    /// assert_eq!(indices, [1, 0, 2, 1]);
    /// # Ok::<(), pix::Error>(())
    /// ```
    ///
    /// # Errors
    ///
    /// As [`diffuse_indexed`](ColorTable::diffuse_indexed).
    pub fn diffuse_indexed_alpha(
        &self,
        pixels: &[Srgba8],
        width: usize,
        alpha: u8,
        transparent_index: u8,
        work: &mut [Srgb8],
        indices: &mut [u8],
    ) -> Result<(), Error> {
        let how = Diffusion::default();
        self.diffuse_indexed_by_alpha(pixels, width, alpha, transparent_index, how, work, indices)
    }

    /// Sets each pixel to the entry of the index in the same place.
    ///
    /// ```
    /// use pix::{ColorTable, Srgb8};
    ///
    /// let entries = [Srgb8::new(0, 0, 0), Srgb8::new(255, 0, 0)];
    /// let mut pixels = [Srgb8::default(); 3];
    /// ColorTable::new(&entries)?.look_up(&[1, 0, 1], &mut pixels)?;
    /// assert_eq!(pixels, [entries[1], entries[0], entries[1]]);
    /// # Ok::<(), pix::Error>(())
    /// ```
    ///
    /// # Errors
    ///
    /// `Length` if there are not as many pixels as indices, and `Index` if an index is past the end. The pixels are
    /// unchanged.
    pub fn look_up(&self, indices: &[u8], pixels: &mut [Srgb8]) -> Result<(), Error> {
        check_library()?;
        // SAFETY: pointers and lengths come from three slices, and the exclusive one shares no byte with the others.
        done(unsafe {
            pix_sys::pix_raw_look_up(
                self.entries.as_ptr(),
                self.entries.len(),
                indices.as_ptr(),
                indices.len(),
                pixels.as_mut_ptr(),
                pixels.len(),
            )
        })
    }
}

/// How many colors of work memory error diffusion takes for rows of this many pixels, or `None` if a `usize` can't hold the
/// number.
pub const fn diffuse_indexed_work(width: usize) -> Option<usize> {
    width.checked_mul(4)
}

/// How many rounds refine a table where a call doesn't say it.
pub const DEFAULT_ROUNDS: u8 = 6;

/// Makes a table of the colors of `pixels` in the first of `entries`, and returns those. If there are no more distinct colors
/// than entries, they are the table, in order of first place. Otherwise, if all are grays, no table of at most as many
/// entries has a smaller squared error. Otherwise, the colors are split into boxes, always by the split that reduces the
/// squared error most. Then the pairs of boxes that raise it least are merged, and the entries are the means of the boxes,
/// which six rounds refine ([`quantize_refined`]). Errors are compared by quotients rounded down, so of nearly equal ones
/// another may be chosen. The contents of the other entries are unspecified. `work` has exactly as many colors as there are
/// pixels; for a large picture pass a sample of its pixels.
///
/// ```
/// use pix::{Srgb8, quantize};
///
/// let (red, blue) = (Srgb8::new(255, 0, 0), Srgb8::new(0, 0, 255));
/// let mut work = [Srgb8::default(); 3];
/// let mut entries = [Srgb8::default(); 256];
/// assert_eq!(quantize(&[red, blue, red], &mut work, &mut entries)?, [red, blue]);
/// # Ok::<(), pix::Error>(())
/// ```
///
/// # Errors
///
/// `Table` if there is no entry or more than 256, and `Length` if `work` has fewer colors. Both are unchanged.
pub fn quantize<'a>(
    pixels: &[Srgb8],
    work: &mut [Srgb8],
    entries: &'a mut [Srgb8],
) -> Result<&'a [Srgb8], Error> {
    quantize_refined(pixels, DEFAULT_ROUNDS, work, entries)
}

/// Makes a table of the colors of pixels with an alpha, like [`quantize`]. Pixels with an alpha below `alpha` do not count. If
/// none counts, there is no entry, and so no [`ColorTable`]: then use the transparent index for each pixel.
///
/// ```
/// use pix::{ColorTable, Srgb8, Srgba8, quantize_alpha};
///
/// let clear = [Srgba8::new(1, 2, 3, 0), Srgba8::new(4, 5, 6, 99)];
/// let (mut work, mut entries, mut indices) = ([Srgb8::default(); 2], [Srgb8::default(); 255], [0; 2]);
/// match quantize_alpha(&clear, 128, &mut work, &mut entries)? {
///     [] => indices.fill(255),
///     made => ColorTable::new(made)?.map_indexed_alpha(&clear, 128, 255, &mut indices)?,
/// }
/// assert_eq!(indices, [255, 255]);
/// # Ok::<(), pix::Error>(())
/// ```
///
/// # Errors
///
/// As [`quantize`].
pub fn quantize_alpha<'a>(
    pixels: &[Srgba8],
    alpha: u8,
    work: &mut [Srgb8],
    entries: &'a mut [Srgb8],
) -> Result<&'a [Srgb8], Error> {
    quantize_refined_alpha(pixels, alpha, DEFAULT_ROUNDS, work, entries)
}

/// Makes a table as [`quantize`] does, with another number of rounds than [`DEFAULT_ROUNDS`]. They refine it if there are more
/// distinct colors than entries, and not all are grays. In a round each color goes to its nearest entry, the first if several
/// are equal. Each entry goes to the mean of its colors, rounded, and stays if it has none. No round makes the sum of the
/// squared errors greater.
///
/// ```
/// use pix::{Srgb8, quantize, quantize_refined};
///
/// let red = |v| Srgb8::new(v, 0, 0);
/// let pixels = [130, 100, 160, 60, 170, 70].map(red);
/// let (mut work, mut entries) = ([Srgb8::default(); 6], [Srgb8::default(); 2]);
/// assert_eq!(quantize_refined(&pixels, 0, &mut work, &mut entries)?, [90, 165].map(red));
/// assert_eq!(quantize(&pixels, &mut work, &mut entries)?, [77, 153].map(red));
/// # Ok::<(), pix::Error>(())
/// ```
///
/// # Errors
///
/// As [`quantize`].
pub fn quantize_refined<'a>(
    pixels: &[Srgb8],
    rounds: u8,
    work: &mut [Srgb8],
    entries: &'a mut [Srgb8],
) -> Result<&'a [Srgb8], Error> {
    check_library()?;
    let mut made = 0;
    // SAFETY: pointers and lengths come from three slices and a value, and the exclusive ones share no byte with another.
    done(unsafe {
        pix_sys::pix_raw_quantize_refined(
            pixels.as_ptr(),
            pixels.len(),
            rounds,
            work.as_mut_ptr(),
            work.len(),
            entries.as_mut_ptr(),
            entries.len(),
            &mut made,
        )
    })?;
    Ok(&entries[..made])
}

/// Makes a table of the colors of pixels with an alpha, and refines it, like [`quantize_refined`]. Pixels with an alpha below
/// `alpha` do not count, as in [`quantize_alpha`].
///
/// ```
/// use pix::{Srgb8, Srgba8, quantize_refined_alpha};
///
/// let pixels = [Srgba8::new(9, 9, 9, 255), Srgba8::new(7, 0, 0, 3), Srgba8::new(0, 200, 0, 128)];
/// let (mut work, mut entries) = ([Srgb8::default(); 3], [Srgb8::default(); 16]);
/// let table = quantize_refined_alpha(&pixels, 128, 2, &mut work, &mut entries)?;
/// assert_eq!(table, [Srgb8::new(9, 9, 9), Srgb8::new(0, 200, 0)]);
/// # Ok::<(), pix::Error>(())
/// ```
///
/// # Errors
///
/// As [`quantize`].
pub fn quantize_refined_alpha<'a>(
    pixels: &[Srgba8],
    alpha: u8,
    rounds: u8,
    work: &mut [Srgb8],
    entries: &'a mut [Srgb8],
) -> Result<&'a [Srgb8], Error> {
    check_library()?;
    let mut made = 0;
    // SAFETY: pointers and lengths come from three slices and a value, and the exclusive ones share no byte with another.
    done(unsafe {
        pix_sys::pix_raw_quantize_refined_alpha(
            pixels.as_ptr(),
            pixels.len(),
            alpha,
            rounds,
            work.as_mut_ptr(),
            work.len(),
            entries.as_mut_ptr(),
            entries.len(),
            &mut made,
        )
    })?;
    Ok(&entries[..made])
}

/// Sets the color of each pixel in a table, one after the other, and its index. A color gets the index of its match, if that
/// differs from it by no more than `threshold` in each of red, green and blue. With a threshold of 0 that is the color itself.
/// Otherwise, the next entry is set to the color. `used` is how many of the entries are used, before and afterwards, so one
/// table may be used for several pictures. The match is the last candidate: entry 0 is the first candidate, and each later
/// entry replaces it that is no worse in each channel and better in one.
///
/// ```
/// use pix::{Srgb8, index_pixels};
///
/// let gray = |v| Srgb8::new(v, v, v);
/// let (mut entries, mut used, mut indices) = ([gray(0); 256], 0, [0; 3]);
/// index_pixels(&mut entries, &mut used, gray(2), &[gray(9), gray(200), gray(11)], &mut indices)?;
/// assert_eq!((&entries[..used], indices), (&[gray(9), gray(200)][..], [0, 1, 0]));
/// # Ok::<(), pix::Error>(())
/// ```
///
/// # Errors
///
/// `Table` if there is room for no entry or for more than 256. `Length` if more are used than there are, or if there are not as
/// many indices as pixels. `Full` if there is no room for a color. Nothing is changed then.
pub fn index_pixels(
    entries: &mut [Srgb8],
    used: &mut usize,
    threshold: Srgb8,
    pixels: &[Srgb8],
    indices: &mut [u8],
) -> Result<(), Error> {
    check_library()?;
    // SAFETY: pointers and lengths come from three slices and two values, and the exclusive ones share no byte with another.
    done(unsafe {
        pix_sys::pix_raw_index_pixels(
            entries.as_mut_ptr(),
            entries.len(),
            used,
            &threshold,
            pixels.as_ptr(),
            pixels.len(),
            indices.as_mut_ptr(),
            indices.len(),
        )
    })
}
