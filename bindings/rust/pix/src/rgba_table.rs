//! Tables of colors with an alpha.

use crate::diffusion::Diffusion;
use crate::error::Error;
use crate::table::{Srgba8, done, of_a_table};
use pix_sys::check_library;

/// A table of 1 to 256 colors with an alpha, which it borrows, as in a PNG with the chunks PLTE and tRNS.
///
/// Two pixels are compared by their look over black and over white, in 8 bits. Over black a color is its product with the
/// alpha, rounded to the nearest. Over white it is that plus 255 less the alpha. The distance of two pixels is the sum of the
/// squares of their six differences. So the color of a transparent pixel does not count. If all pixels and entries are opaque,
/// the indices are the same as with a [`ColorTable`](crate::ColorTable).
///
/// ```
/// use pix::{RgbaTable, Srgba8};
///
/// let entries = [Srgba8::new(0, 0, 0, 0), Srgba8::new(255, 0, 0, 128), Srgba8::new(255, 0, 0, 255)];
/// let pixels = [Srgba8::new(250, 9, 0, 140), Srgba8::new(80, 90, 70, 0), Srgba8::new(240, 10, 10, 255)];
/// let mut indices = [9; 3];
/// RgbaTable::new(&entries)?.map_indexed(&pixels, &mut indices)?;
/// assert_eq!(indices, [1, 0, 2]);
/// # Ok::<(), pix::Error>(())
/// ```
#[derive(Clone, Copy, Debug)]
pub struct RgbaTable<'a> {
    entries: &'a [Srgba8],
}

impl<'a> RgbaTable<'a> {
    /// A table of these entries, in order.
    ///
    /// # Errors
    ///
    /// `Table` if there is none, or more than 256.
    pub fn new(entries: &'a [Srgba8]) -> Result<RgbaTable<'a>, Error> {
        of_a_table(entries).map(|entries| RgbaTable { entries })
    }

    /// The entries, in order.
    pub fn entries(&self) -> &'a [Srgba8] {
        self.entries
    }

    /// Sets each index to the entry that looks nearest to the pixel in the same place, the first if several are equal.
    ///
    /// # Errors
    ///
    /// `Length` if there are not as many indices as pixels. They are unchanged.
    pub fn map_indexed(&self, pixels: &[Srgba8], indices: &mut [u8]) -> Result<(), Error> {
        check_library()?;
        // SAFETY: pointers and lengths come from three slices, and the exclusive one shares no byte with the others.
        done(unsafe {
            pix_sys::pix_raw_map_indexed_rgba(
                self.entries.as_ptr(),
                self.entries.len(),
                pixels.as_ptr(),
                pixels.len(),
                indices.as_mut_ptr(),
                indices.len(),
            )
        })
    }

    /// Sets the index of each pixel of rows of `width` by error diffusion, like
    /// [`ColorTable::diffuse_indexed_by`](crate::ColorTable::diffuse_indexed_by). It diffuses the errors of the colors over
    /// black and of the alpha. A target color is clamped to the target alpha. A transparent pixel (alpha 0) gets the entry that
    /// looks nearest to it, takes no errors, and passes on none. `work` has exactly
    /// [`diffuse_indexed_work`](crate::diffuse_indexed_work) pixels.
    ///
    /// ```
    /// use pix::{Diffusion, RgbaTable, Srgba8};
    ///
    /// let entries = [Srgba8::new(0, 0, 0, 0), Srgba8::new(0, 0, 0, 255)];
    /// let half = [Srgba8::new(0, 0, 0, 128); 8]; // two rows of four
    /// let (mut work, mut indices) = ([Srgba8::default(); 4 * 4], [9; 8]);
    /// RgbaTable::new(&entries)?.diffuse_indexed(&half, 4, Diffusion::default(), &mut work, &mut indices)?;
    /// assert_eq!(indices, [1, 0, 1, 0, 0, 1, 0, 1]);
    /// # Ok::<(), pix::Error>(())
    /// ```
    ///
    /// # Errors
    ///
    /// As [`ColorTable::diffuse_indexed_by`](crate::ColorTable::diffuse_indexed_by).
    pub fn diffuse_indexed(
        &self,
        pixels: &[Srgba8],
        width: usize,
        how: Diffusion,
        work: &mut [Srgba8],
        indices: &mut [u8],
    ) -> Result<(), Error> {
        check_library()?;
        // SAFETY: pointers and lengths come from four slices, and the exclusive ones share no byte with another.
        done(unsafe {
            pix_sys::pix_raw_diffuse_indexed_rgba(
                self.entries.as_ptr(),
                self.entries.len(),
                pixels.as_ptr(),
                pixels.len(),
                width,
                how.strength,
                u8::from(how.serpentine),
                work.as_mut_ptr(),
                work.len(),
                indices.as_mut_ptr(),
                indices.len(),
            )
        })
    }

    /// Sets each pixel to the entry of the index in the same place.
    ///
    /// ```
    /// use pix::{RgbaTable, Srgba8};
    ///
    /// let (clear, red) = (Srgba8::new(0, 0, 0, 0), Srgba8::new(255, 0, 0, 255));
    /// let mut pixels = [Srgba8::default(); 3];
    /// RgbaTable::new(&[clear, red])?.look_up(&[1, 1, 0], &mut pixels)?;
    /// assert_eq!(pixels, [red, red, clear]);
    /// # Ok::<(), pix::Error>(())
    /// ```
    ///
    /// # Errors
    ///
    /// `Length` if there are not as many pixels as indices, and `Index` if an index is past the end. The pixels are
    /// unchanged.
    pub fn look_up(&self, indices: &[u8], pixels: &mut [Srgba8]) -> Result<(), Error> {
        check_library()?;
        // SAFETY: pointers and lengths come from three slices, and the exclusive one shares no byte with the others.
        done(unsafe {
            pix_sys::pix_raw_look_up_rgba(
                self.entries.as_ptr(),
                self.entries.len(),
                indices.as_ptr(),
                indices.len(),
                pixels.as_mut_ptr(),
                pixels.len(),
            )
        })
    }
}

/// Makes a table of colors with an alpha, and refines it by `rounds` rounds, like
/// [`quantize_refined`](crate::quantize_refined). If several pixels look alike, the first one counts. If there is room for all
/// of these, they are the table, unchanged. Otherwise, boxes are split by red, green and blue over black and by the alpha, and
/// then merged. In a round an entry also stays if the mean of its colors would make their squared error greater. After all rounds
/// an entry whose alpha is at least 250 becomes opaque, if more than half of the colors nearest to it are opaque. The result is
/// divided by its alpha at the end; this doesn't change its look. `work` is exactly as long as `pixels`.
///
/// ```
/// use pix::{Srgba8, quantize_rgba};
///
/// let (red, half, clear) = (Srgba8::new(255, 0, 0, 255), Srgba8::new(255, 0, 0, 128), Srgba8::new(7, 8, 9, 0));
/// let (mut work, mut entries) = ([Srgba8::default(); 4], [Srgba8::default(); 256]);
/// let made = quantize_rgba(&[red, clear, half, red], 4, &mut work, &mut entries)?;
/// assert_eq!(made, [red, clear, half]);
/// # Ok::<(), pix::Error>(())
/// ```
///
/// # Errors
///
/// As [`quantize`](crate::quantize).
pub fn quantize_rgba<'a>(
    pixels: &[Srgba8],
    rounds: u8,
    work: &mut [Srgba8],
    entries: &'a mut [Srgba8],
) -> Result<&'a [Srgba8], Error> {
    check_library()?;
    let mut made = 0;
    // SAFETY: pointers and lengths come from three slices and a value, and the exclusive ones share no byte with another.
    done(unsafe {
        pix_sys::pix_raw_quantize_rgba(
            pixels.as_ptr(),
            pixels.len(),
            rounds,
            work.as_mut_ptr(),
            work.len(),
            entries.as_mut_ptr(),
            entries.len(),
            &mut made,
        )
    })?;
    Ok(&entries[..made])
}
