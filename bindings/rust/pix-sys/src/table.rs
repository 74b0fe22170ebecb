//! The functions on tables of colors.

use crate::{Srgb8, Srgba8};

unsafe extern "C" {
    // made by tools/names: calls
    /// Writes the index of the entry of a table that is nearest to a color.
    ///
    /// # Safety
    ///
    /// The [duties](crate#duties) are met.
    pub fn pix_raw_nearest(
        entries: *const Srgb8,
        len: usize,
        color: *const Srgb8,
        index: *mut u8,
    ) -> u32;

    /// Writes the index of the nearest entry of each pixel.
    ///
    /// # Safety
    ///
    /// The [duties](crate#duties) are met.
    pub fn pix_raw_map_indexed(
        entries: *const Srgb8,
        len: usize,
        pixels: *const Srgb8,
        pixel_count: usize,
        indices: *mut u8,
        index_count: usize,
    ) -> u32;

    /// The same for pixels with an alpha: one below `alpha` gets the index `transparent_index`. If all are below, a
    /// table without an entry serves too.
    ///
    /// # Safety
    ///
    /// The [duties](crate#duties) are met.
    pub fn pix_raw_map_indexed_alpha(
        entries: *const Srgb8,
        len: usize,
        pixels: *const Srgba8,
        pixel_count: usize,
        alpha: u8,
        transparent_index: u8,
        indices: *mut u8,
        index_count: usize,
    ) -> u32;

    /// Writes a table of the colors of pixels, refined by `rounds` rounds, and how many entries it has.
    ///
    /// # Safety
    ///
    /// The [duties](crate#duties) are met.
    pub fn pix_raw_quantize_refined(
        pixels: *const Srgb8,
        pixel_count: usize,
        rounds: u8,
        work: *mut Srgb8,
        work_len: usize,
        entries: *mut Srgb8,
        len: usize,
        made: *mut usize,
    ) -> u32;

    /// The same for pixels with an alpha: those below `alpha` are left out.
    ///
    /// # Safety
    ///
    /// The [duties](crate#duties) are met.
    pub fn pix_raw_quantize_refined_alpha(
        pixels: *const Srgba8,
        pixel_count: usize,
        alpha: u8,
        rounds: u8,
        work: *mut Srgb8,
        work_len: usize,
        entries: *mut Srgb8,
        len: usize,
        made: *mut usize,
    ) -> u32;

    /// Writes the index of each pixel of rows of `width` by error diffusion, with `strength` sixteenths of each
    /// error. If `serpentine` isn't 0, every second row goes from right to left.
    ///
    /// # Safety
    ///
    /// The [duties](crate#duties) are met.
    pub fn pix_raw_diffuse_indexed_by(
        entries: *const Srgb8,
        len: usize,
        pixels: *const Srgb8,
        pixel_count: usize,
        width: usize,
        strength: u8,
        serpentine: u8,
        work: *mut Srgb8,
        work_len: usize,
        indices: *mut u8,
        index_count: usize,
    ) -> u32;

    /// The same for pixels with an alpha: one below `alpha` gets the index `transparent_index`, and passes on no
    /// error. If all are below, a table without an entry serves too.
    ///
    /// # Safety
    ///
    /// The [duties](crate#duties) are met.
    pub fn pix_raw_diffuse_indexed_by_alpha(
        entries: *const Srgb8,
        len: usize,
        pixels: *const Srgba8,
        pixel_count: usize,
        width: usize,
        alpha: u8,
        transparent_index: u8,
        strength: u8,
        serpentine: u8,
        work: *mut Srgb8,
        work_len: usize,
        indices: *mut u8,
        index_count: usize,
    ) -> u32;

    /// Sets the color of each pixel in a table, and writes its index and how many entries are used.
    ///
    /// # Safety
    ///
    /// The [duties](crate#duties) are met.
    pub fn pix_raw_index_pixels(
        entries: *mut Srgb8,
        len: usize,
        used: *mut usize,
        threshold: *const Srgb8,
        pixels: *const Srgb8,
        pixel_count: usize,
        indices: *mut u8,
        index_count: usize,
    ) -> u32;

    /// Writes the entry of each index.
    ///
    /// # Safety
    ///
    /// The [duties](crate#duties) are met.
    pub fn pix_raw_look_up(
        entries: *const Srgb8,
        len: usize,
        indices: *const u8,
        index_count: usize,
        pixels: *mut Srgb8,
        pixel_count: usize,
    ) -> u32;

    /// Writes how often each number below the length of `counts` is among the indices.
    ///
    /// # Safety
    ///
    /// The [duties](crate#duties) are met.
    pub fn pix_raw_count_indices(
        indices: *const u8,
        index_count: usize,
        counts: *mut usize,
        len: usize,
    ) -> u32;

    /// Packs a row of indices into bytes.
    ///
    /// # Safety
    ///
    /// The [duties](crate#duties) are met.
    pub fn pix_raw_pack_row(
        bits: u32,
        indices: *const u8,
        index_count: usize,
        bytes: *mut u8,
        byte_count: usize,
    ) -> u32;

    /// Unpacks a row of indices from bytes.
    ///
    /// # Safety
    ///
    /// The [duties](crate#duties) are met.
    pub fn pix_raw_unpack_row(
        bits: u32,
        bytes: *const u8,
        byte_count: usize,
        indices: *mut u8,
        index_count: usize,
    ) -> u32;

    /// Writes a table of the colors of pixels, with their alphas, refined by `rounds` rounds, and how many entries it
    /// has.
    ///
    /// # Safety
    ///
    /// The [duties](crate#duties) are met.
    pub fn pix_raw_quantize_rgba(
        pixels: *const Srgba8,
        pixel_count: usize,
        rounds: u8,
        work: *mut Srgba8,
        work_len: usize,
        entries: *mut Srgba8,
        len: usize,
        made: *mut usize,
    ) -> u32;

    /// Writes the index of the entry that looks nearest to each pixel.
    ///
    /// # Safety
    ///
    /// The [duties](crate#duties) are met.
    pub fn pix_raw_map_indexed_rgba(
        entries: *const Srgba8,
        len: usize,
        pixels: *const Srgba8,
        pixel_count: usize,
        indices: *mut u8,
        index_count: usize,
    ) -> u32;

    /// Writes the index of each pixel of rows of `width` by error diffusion, as [`pix_raw_diffuse_indexed_by`] does.
    ///
    /// # Safety
    ///
    /// The [duties](crate#duties) are met.
    pub fn pix_raw_diffuse_indexed_rgba(
        entries: *const Srgba8,
        len: usize,
        pixels: *const Srgba8,
        pixel_count: usize,
        width: usize,
        strength: u8,
        serpentine: u8,
        work: *mut Srgba8,
        work_len: usize,
        indices: *mut u8,
        index_count: usize,
    ) -> u32;

    /// Writes the entry of each index.
    ///
    /// # Safety
    ///
    /// The [duties](crate#duties) are met.
    pub fn pix_raw_look_up_rgba(
        entries: *const Srgba8,
        len: usize,
        indices: *const u8,
        index_count: usize,
        pixels: *mut Srgba8,
        pixel_count: usize,
    ) -> u32;
    // made by tools/names: end
}
