//! Error diffusion with a strength, and in rows of both directions.

use crate::error::Error;
use crate::table::{ColorTable, Srgb8, Srgba8, done};
use pix_sys::check_library;

/// How errors are diffused. The default is like [`ColorTable::diffuse_indexed`]: 12/16 of each error, and every second row from
/// right to left.
///
/// ```
/// use pix::Diffusion;
///
/// let whole = Diffusion { strength: 16, ..Diffusion::default() };
/// assert_eq!((whole.strength, whole.serpentine), (16, true));
/// ```
#[derive(Clone, Copy, Debug, PartialEq, Eq, Hash)]
pub struct Diffusion {
    /// How many sixteenths of an error are passed on, from 0 to 16. Lower values give less noise, but areas match the picture
    /// less. With 0 each pixel gets its nearest entry.
    pub strength: u8,
    /// Whether every second row goes from right to left: the second, the fourth and so on. The shares of an error are mirrored
    /// there.
    pub serpentine: bool,
}

impl Default for Diffusion {
    fn default() -> Diffusion {
        Diffusion {
            strength: 12,
            serpentine: true,
        }
    }
}

impl ColorTable<'_> {
    /// Sets the index of each pixel by error diffusion with the settings in `how`, and otherwise like
    /// [`diffuse_indexed`](ColorTable::diffuse_indexed). The sum of the errors that a pixel gets is multiplied by the
    /// strength, and rounded once.
    ///
    /// ```
    /// use pix::{ColorTable, Diffusion, Srgb8, diffuse_indexed_work};
    ///
    /// let gray = |v| Srgb8::new(v, v, v);
    /// let entries = [gray(0), gray(255)];
    /// let (table, mut indices) = (ColorTable::new(&entries)?, [9; 4]);
    /// let mut work = vec![gray(0); diffuse_indexed_work(2).unwrap()];
    /// let how = Diffusion { strength: 16, ..Diffusion::default() };
    /// table.diffuse_indexed_by(&[gray(120); 4], 2, how, &mut work, &mut indices)?;
    /// assert_eq!(indices, [0, 1, 1, 0]);
    /// # Ok::<(), pix::Error>(())
    /// ```
    ///
    /// # Errors
    ///
    /// `Strength` if the strength is above 16. `Length` as in [`diffuse_indexed`](ColorTable::diffuse_indexed); only serpentine
    /// rows have to be whole. The indices are unchanged.
    pub fn diffuse_indexed_by(
        &self,
        pixels: &[Srgb8],
        width: usize,
        how: Diffusion,
        work: &mut [Srgb8],
        indices: &mut [u8],
    ) -> Result<(), Error> {
        check_library()?;
        // SAFETY: pointers and lengths come from four slices, and the exclusive ones share no byte with another.
        done(unsafe {
            pix_sys::pix_raw_diffuse_indexed_by(
                self.entries().as_ptr(),
                self.entries().len(),
                pixels.as_ptr(),
                pixels.len(),
                width,
                how.strength,
                u8::from(how.serpentine),
                work.as_mut_ptr(),
                work.len(),
                indices.as_mut_ptr(),
                indices.len(),
            )
        })
    }

    /// Sets the index of each pixel with an alpha by error diffusion with the settings in `how`, and otherwise like
    /// [`diffuse_indexed_alpha`](ColorTable::diffuse_indexed_alpha).
    ///
    /// ```
    /// use pix::{ColorTable, Diffusion, Srgb8, Srgba8};
    ///
    /// let entries = [Srgb8::new(0, 0, 0), Srgb8::new(255, 255, 255)];
    /// let (gray, clear) = (Srgba8::new(128, 128, 128, 255), Srgba8::new(0, 0, 0, 9));
    /// let (mut work, mut indices) = ([Srgb8::default(); 4 * 4], [9; 4]);
    /// let (table, how) = (ColorTable::new(&entries)?, Diffusion { strength: 16, serpentine: false });
    /// table.diffuse_indexed_by_alpha(&[gray, gray, clear, gray], 4, 128, 7, how, &mut work, &mut indices)?;
    /// assert_eq!(indices, [1, 0, 7, 1]);
    /// # Ok::<(), pix::Error>(())
    /// ```
    ///
    /// # Errors
    ///
    /// As [`diffuse_indexed_by`](ColorTable::diffuse_indexed_by).
    #[allow(clippy::too_many_arguments)]
    pub fn diffuse_indexed_by_alpha(
        &self,
        pixels: &[Srgba8],
        width: usize,
        alpha: u8,
        transparent_index: u8,
        how: Diffusion,
        work: &mut [Srgb8],
        indices: &mut [u8],
    ) -> Result<(), Error> {
        check_library()?;
        // SAFETY: pointers and lengths come from four slices, and the exclusive ones share no byte with another.
        done(unsafe {
            pix_sys::pix_raw_diffuse_indexed_by_alpha(
                self.entries().as_ptr(),
                self.entries().len(),
                pixels.as_ptr(),
                pixels.len(),
                width,
                alpha,
                transparent_index,
                how.strength,
                u8::from(how.serpentine),
                work.as_mut_ptr(),
                work.len(),
                indices.as_mut_ptr(),
                indices.len(),
            )
        })
    }
}
