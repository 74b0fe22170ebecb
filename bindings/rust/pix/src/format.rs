//! Conversions between the formats of picture files.

use crate::error::Error;
use pix_sys::status;

/// A format of bytes: the channels of a pixel in the order of the name, of 8 or 16 bits.
///
/// `S`: the colors are encoded by the sRGB curve, as in most files; without it they are linear. `p` at the end: the
/// colors are multiplied by the alpha. `x`: a byte that is not read, and is written as 255. A channel of 16 bits is a
/// word in the machine's order. [`convert`] takes the formats up to `SGray8`, and a [`BitmapMut`](crate::BitmapMut) all.
#[repr(u32)]
#[derive(Clone, Copy, Debug, PartialEq, Eq, Hash)]
pub enum Format {
    // made by tools/names: formats
    /// Red, green, blue, alpha; 8 bits, sRGB, straight.
    SRgba8 = 0,
    /// Red, green, blue, alpha; 8 bits, sRGB, multiplied by the alpha.
    SRgba8p = 1,
    /// Red, green, blue, alpha; 8 bits, linear, straight.
    Rgba8 = 2,
    /// Red, green, blue, alpha; 8 bits, linear, multiplied by the alpha: the format of the pixels [`Rgba8`](crate::Rgba8).
    Rgba8p = 3,
    /// Blue, green, red, alpha; 8 bits, linear, straight.
    Bgra8 = 4,
    /// Blue, green, red, alpha; 8 bits, linear, multiplied by the alpha.
    Bgra8p = 5,
    /// Red, green, blue; 8 bits, linear.
    Rgb8 = 6,
    /// Gray; 8 bits, linear.
    Gray8 = 7,
    /// Blue, green, red, alpha; 8 bits, sRGB, straight.
    SBgra8 = 8,
    /// Blue, green, red, alpha; 8 bits, sRGB, multiplied by the alpha.
    SBgra8p = 9,
    /// Red, green, blue; 8 bits, sRGB.
    SRgb8 = 10,
    /// Gray; 8 bits, sRGB.
    SGray8 = 11,
    /// Red, green, blue, alpha; 16 bits, linear, straight.
    Rgba16 = 12,
    /// Red, green, blue, alpha; 16 bits, linear, multiplied by the alpha: the format of the pixels [`Rgba16`](crate::Rgba16).
    Rgba16p = 13,
    /// Red, green, blue; 16 bits, linear.
    Rgb16 = 14,
    /// Blue, green, red, alpha; 16 bits, linear, straight.
    Bgra16 = 15,
    /// Blue, green, red, alpha; 16 bits, linear, multiplied by the alpha.
    Bgra16p = 16,
    /// Blue, green, red; 16 bits, linear.
    Bgr16 = 17,
    /// Blue, green, red; 8 bits, linear.
    Bgr8 = 18,
    /// Blue, green, red; 8 bits, sRGB.
    SBgr8 = 19,
    /// Gray, alpha; 8 bits, linear, straight.
    Graya8 = 20,
    /// Gray, alpha; 8 bits, linear, multiplied by the alpha: the format of the pixels [`Graya8`](crate::Graya8).
    Graya8p = 21,
    /// Gray, alpha; 8 bits, sRGB, straight.
    SGraya8 = 22,
    /// Gray, alpha; 8 bits, sRGB, multiplied by the alpha.
    SGraya8p = 23,
    /// Gray; 16 bits, linear.
    Gray16 = 24,
    /// Gray, alpha; 16 bits, linear, straight.
    Graya16 = 25,
    /// Gray, alpha; 16 bits, linear, multiplied by the alpha.
    Graya16p = 26,
    /// An alpha alone, of 8 bits: a mask.
    Matte8 = 27,
    /// An alpha alone, of 16 bits: a mask.
    Matte16 = 28,
    /// Cyan, magenta, yellow; 8 bits, linear.
    Cmy8 = 29,
    /// Cyan, magenta, yellow, alpha; 8 bits, linear, straight.
    Cmya8 = 30,
    /// Cyan, magenta, yellow, alpha; 8 bits, linear, multiplied by the alpha.
    Cmya8p = 31,
    /// Cyan, magenta, yellow; 16 bits, linear.
    Cmy16 = 32,
    /// Cyan, magenta, yellow, alpha; 16 bits, linear, straight.
    Cmya16 = 33,
    /// Cyan, magenta, yellow, alpha; 16 bits, linear, multiplied by the alpha.
    Cmya16p = 34,
    /// Cyan, magenta, yellow; 8 bits, sRGB.
    SCmy8 = 35,
    /// Cyan, magenta, yellow, alpha; 8 bits, sRGB, straight.
    SCmya8 = 36,
    /// Cyan, magenta, yellow, alpha; 8 bits, sRGB, multiplied by the alpha.
    SCmya8p = 37,
    /// Hue, saturation, value; 8 bits, linear.
    Hsv8 = 38,
    /// Hue, saturation, value, alpha; 8 bits, linear, straight.
    Hsva8 = 39,
    /// Hue, saturation, value, alpha; 8 bits, linear, multiplied by the alpha.
    Hsva8p = 40,
    /// Hue, saturation, value; 16 bits, linear.
    Hsv16 = 41,
    /// Hue, saturation, value, alpha; 16 bits, linear, straight.
    Hsva16 = 42,
    /// Hue, saturation, value, alpha; 16 bits, linear, multiplied by the alpha.
    Hsva16p = 43,
    /// Hue, saturation, value; 8 bits, sRGB.
    SHsv8 = 44,
    /// Hue, saturation, value, alpha; 8 bits, sRGB, straight.
    SHsva8 = 45,
    /// Hue, saturation, value, alpha; 8 bits, sRGB, multiplied by the alpha.
    SHsva8p = 46,
    /// Hue, saturation, lightness; 8 bits, linear.
    Hsl8 = 47,
    /// Hue, saturation, lightness, alpha; 8 bits, linear, straight.
    Hsla8 = 48,
    /// Hue, saturation, lightness, alpha; 8 bits, linear, multiplied by the alpha.
    Hsla8p = 49,
    /// Hue, saturation, lightness; 16 bits, linear.
    Hsl16 = 50,
    /// Hue, saturation, lightness, alpha; 16 bits, linear, straight.
    Hsla16 = 51,
    /// Hue, saturation, lightness, alpha; 16 bits, linear, multiplied by the alpha.
    Hsla16p = 52,
    /// Hue, saturation, lightness; 8 bits, sRGB.
    SHsl8 = 53,
    /// Hue, saturation, lightness, alpha; 8 bits, sRGB, straight.
    SHsla8 = 54,
    /// Hue, saturation, lightness, alpha; 8 bits, sRGB, multiplied by the alpha.
    SHsla8p = 55,
    /// Hue, whiteness, blackness; 8 bits, linear.
    Hwb8 = 56,
    /// Hue, whiteness, blackness, alpha; 8 bits, linear, straight.
    Hwba8 = 57,
    /// Hue, whiteness, blackness, alpha; 8 bits, linear, multiplied by the alpha.
    Hwba8p = 58,
    /// Hue, whiteness, blackness; 16 bits, linear.
    Hwb16 = 59,
    /// Hue, whiteness, blackness, alpha; 16 bits, linear, straight.
    Hwba16 = 60,
    /// Hue, whiteness, blackness, alpha; 16 bits, linear, multiplied by the alpha.
    Hwba16p = 61,
    /// Hue, whiteness, blackness; 8 bits, sRGB.
    SHwb8 = 62,
    /// Hue, whiteness, blackness, alpha; 8 bits, sRGB, straight.
    SHwba8 = 63,
    /// Hue, whiteness, blackness, alpha; 8 bits, sRGB, multiplied by the alpha.
    SHwba8p = 64,
    /// Luma, blue difference, red difference; 8 bits, linear.
    YCbCr8 = 65,
    /// Luma, blue difference, red difference, alpha; 8 bits, linear, straight.
    YCbCra8 = 66,
    /// Luma, blue difference, red difference, alpha; 8 bits, linear, multiplied by the alpha.
    YCbCra8p = 67,
    /// Luma, blue difference, red difference; 16 bits, linear.
    YCbCr16 = 68,
    /// Luma, blue difference, red difference, alpha; 16 bits, linear, straight.
    YCbCra16 = 69,
    /// Luma, blue difference, red difference, alpha; 16 bits, linear, multiplied by the alpha.
    YCbCra16p = 70,
    /// X, Y, Z; 8 bits, linear.
    Xyz8 = 71,
    /// X, Y, Z, alpha; 8 bits, linear, straight.
    Xyza8 = 72,
    /// X, Y, Z, alpha; 8 bits, linear, multiplied by the alpha.
    Xyza8p = 73,
    /// X, Y, Z; 16 bits, linear.
    Xyz16 = 74,
    /// X, Y, Z, alpha; 16 bits, linear, straight.
    Xyza16 = 75,
    /// X, Y, Z, alpha; 16 bits, linear, multiplied by the alpha.
    Xyza16p = 76,
    /// Red, green, blue, and a byte that is not read; 8 bits, sRGB.
    SRgbx8 = 77,
    /// Blue, green, red, and a byte that is not read; 8 bits, sRGB.
    SBgrx8 = 78,
    /// Red, green, blue, and a byte that is not read; 8 bits, linear.
    Rgbx8 = 79,
    /// Blue, green, red, and a byte that is not read; 8 bits, linear.
    Bgrx8 = 80,
    // made by tools/names: end
}

/// How many bytes a pixel has, by the number of its format.
// made by tools/names: sizes
const SIZES: [u8; 81] = [
    4, 4, 4, 4, 4, 4, 3, 1, 4, 4, 3, 1, 8, 8, 6, 8, 8, 6, 3, 3, 2, 2, 2, 2, 2, 4, 4, 1, 2, 3, 4, 4,
    6, 8, 8, 3, 4, 4, 3, 4, 4, 6, 8, 8, 3, 4, 4, 3, 4, 4, 6, 8, 8, 3, 4, 4, 3, 4, 4, 6, 8, 8, 3, 4,
    4, 3, 4, 4, 6, 8, 8, 3, 4, 4, 6, 8, 8, 4, 4, 4, 4,
];
// made by tools/names: end

impl Format {
    /// How many bytes a pixel has, from 1 to 8.
    ///
    /// ```
    /// assert_eq!([pix::Format::SGray8.size(), pix::Format::Rgba16p.size()], [1, 8]);
    /// ```
    pub const fn size(self) -> usize {
        SIZES[self as usize] as usize
    }
}

/// Converts all pixels of `src` to the format of `dst`, which has room for exactly as many.
///
/// If `from` has no alpha, it is 255. If `to` has none, the alpha is dropped. Colors that were multiplied by it stay so
/// from `Rgba8p` and `SRgba8p` to `Rgb8` and `SRgb8`; to all other formats they are divided by it.
///
/// ```
/// use pix::{Format, convert};
///
/// let mut linear = [0; 8];
/// convert(Format::SRgb8, &[255, 188, 0, 0, 0, 255], Format::Rgba8p, &mut linear)?;
/// assert_eq!(linear, [255, 128, 0, 255, 0, 0, 255, 255]);
/// # Ok::<(), pix::Error>(())
/// ```
///
/// # Errors
///
/// `Length` if the bytes aren't the same number of whole pixels in both, and `Format` if a format comes after `SGray8`: a
/// [`BitmapMut`](crate::BitmapMut) takes those too. The bytes are unchanged.
pub fn convert(from: Format, src: &[u8], to: Format, dst: &mut [u8]) -> Result<(), Error> {
    pix_sys::check_library()?;
    let count = src.len() / from.size();
    // SAFETY: pointers and lengths come from two slices, and the exclusive one shares no byte with the other.
    let answer = unsafe {
        pix_sys::pix_raw_convert(
            from as u32,
            to as u32,
            src.as_ptr(),
            src.len(),
            dst.as_mut_ptr(),
            dst.len(),
            count,
        )
    };
    if answer == status::OK {
        Ok(())
    } else {
        Err(Error::of(answer, 0))
    }
}
