//! The functions on pictures at another size.

use crate::{Graya8, Rgba8, Rgba16};

/// A function that writes a window of a picture at another size. The window's place comes after the count of its pixels.
pub type Scale<P> = unsafe extern "C" fn(
    *mut P,
    usize,
    u32,
    u32,
    u32,
    u32,
    u32,
    u32,
    u32,
    *const P,
    usize,
    u32,
    u32,
    u32,
    u32,
    *mut u32,
    usize,
) -> u32;

/// A function that writes a picture at another size by two tables of weights. A table is its first places, how many weights
/// each has, and the weights.
pub type ScaleBy<P> = unsafe extern "C" fn(
    *mut P,
    usize,
    u32,
    u32,
    u32,
    *const P,
    usize,
    u32,
    u32,
    u32,
    *const u32,
    usize,
    u32,
    *const i32,
    usize,
    *const u32,
    usize,
    u32,
    *const i32,
    usize,
    *mut u32,
    usize,
) -> u32;

unsafe extern "C" {
    // made by tools/names: calls
    /// Writes the window at (`left`, `top`) of a picture of `across` by `down` pixels that is made of a source.
    /// `work` is the memory for it, of at least as many words as [`pix_raw_scale_work`] says.
    ///
    /// # Safety
    ///
    /// The [duties](crate#duties) are met.
    pub fn pix_raw_scale(
        pixels: *mut Rgba8,
        pixel_count: usize,
        left: u32,
        top: u32,
        width: u32,
        height: u32,
        stride: u32,
        across: u32,
        down: u32,
        source: *const Rgba8,
        source_count: usize,
        source_width: u32,
        source_height: u32,
        source_stride: u32,
        filter: u32,
        work: *mut u32,
        work_len: usize,
    ) -> u32;

    /// The same for pixels of 16 bits a channel.
    ///
    /// # Safety
    ///
    /// The [duties](crate#duties) are met.
    pub fn pix_raw_scale_rgba16(
        pixels: *mut Rgba16,
        pixel_count: usize,
        left: u32,
        top: u32,
        width: u32,
        height: u32,
        stride: u32,
        across: u32,
        down: u32,
        source: *const Rgba16,
        source_count: usize,
        source_width: u32,
        source_height: u32,
        source_stride: u32,
        filter: u32,
        work: *mut u32,
        work_len: usize,
    ) -> u32;

    /// The same for pixels of gray and alpha.
    ///
    /// # Safety
    ///
    /// The [duties](crate#duties) are met.
    pub fn pix_raw_scale_graya8(
        pixels: *mut Graya8,
        pixel_count: usize,
        left: u32,
        top: u32,
        width: u32,
        height: u32,
        stride: u32,
        across: u32,
        down: u32,
        source: *const Graya8,
        source_count: usize,
        source_width: u32,
        source_height: u32,
        source_stride: u32,
        filter: u32,
        work: *mut u32,
        work_len: usize,
    ) -> u32;

    /// Sets `words` to how many words of work memory a window of `width` by `height` takes. Its pixels have so many
    /// channels, of 8 or 16 bits.
    ///
    /// # Safety
    ///
    /// The [duties](crate#duties) are met.
    pub fn pix_raw_scale_work(
        width: u32,
        height: u32,
        across: u32,
        down: u32,
        source_width: u32,
        source_height: u32,
        channels: u32,
        bits: u32,
        filter: u32,
        words: *mut u64,
    ) -> u32;

    /// Writes a picture that is made of a source by a table of weights for its columns and one for its rows. Row i of
    /// a table counts `taps` places from the i-th of `firsts` on, by so many weights in 2^14ths. `work` is the memory
    /// for it, of at least as many words as [`pix_raw_scale_by_work`] says.
    ///
    /// # Safety
    ///
    /// The [duties](crate#duties) are met.
    pub fn pix_raw_scale_by(
        pixels: *mut Rgba8,
        pixel_count: usize,
        width: u32,
        height: u32,
        stride: u32,
        source: *const Rgba8,
        source_count: usize,
        source_width: u32,
        source_height: u32,
        source_stride: u32,
        firsts: *const u32,
        first_count: usize,
        taps: u32,
        weights: *const i32,
        weight_count: usize,
        row_firsts: *const u32,
        row_first_count: usize,
        row_taps: u32,
        row_weights: *const i32,
        row_weight_count: usize,
        work: *mut u32,
        work_len: usize,
    ) -> u32;

    /// The same for pixels of 16 bits a channel.
    ///
    /// # Safety
    ///
    /// The [duties](crate#duties) are met.
    pub fn pix_raw_scale_by_rgba16(
        pixels: *mut Rgba16,
        pixel_count: usize,
        width: u32,
        height: u32,
        stride: u32,
        source: *const Rgba16,
        source_count: usize,
        source_width: u32,
        source_height: u32,
        source_stride: u32,
        firsts: *const u32,
        first_count: usize,
        taps: u32,
        weights: *const i32,
        weight_count: usize,
        row_firsts: *const u32,
        row_first_count: usize,
        row_taps: u32,
        row_weights: *const i32,
        row_weight_count: usize,
        work: *mut u32,
        work_len: usize,
    ) -> u32;

    /// The same for pixels of gray and alpha.
    ///
    /// # Safety
    ///
    /// The [duties](crate#duties) are met.
    pub fn pix_raw_scale_by_graya8(
        pixels: *mut Graya8,
        pixel_count: usize,
        width: u32,
        height: u32,
        stride: u32,
        source: *const Graya8,
        source_count: usize,
        source_width: u32,
        source_height: u32,
        source_stride: u32,
        firsts: *const u32,
        first_count: usize,
        taps: u32,
        weights: *const i32,
        weight_count: usize,
        row_firsts: *const u32,
        row_first_count: usize,
        row_taps: u32,
        row_weights: *const i32,
        row_weight_count: usize,
        work: *mut u32,
        work_len: usize,
    ) -> u32;

    /// Sets `words` to how many words of work memory a picture of `width` by `height` takes, by tables of so many
    /// weights for a column and for a row. Its pixels have so many channels, of 8 or 16 bits.
    ///
    /// # Safety
    ///
    /// The [duties](crate#duties) are met.
    pub fn pix_raw_scale_by_work(
        width: u32,
        height: u32,
        source_width: u32,
        source_height: u32,
        taps: u32,
        row_taps: u32,
        channels: u32,
        bits: u32,
        words: *mut u64,
    ) -> u32;
    // made by tools/names: end
}
