//! Pixels, colors and regions, as they cross to the library.

/// Red, green, blue and alpha of 8 bits, premultiplied and linear.
#[repr(C)]
#[derive(Clone, Copy, Debug, Default, PartialEq, Eq, Hash)]
pub struct Rgba8 {
    /// Red, from 0 to 255, multiplied by the alpha.
    pub r: u8,
    /// Green.
    pub g: u8,
    /// Blue.
    pub b: u8,
    /// Alpha, from 0 (clear) to 255 (opaque).
    pub a: u8,
}

impl Rgba8 {
    /// A pixel of these channels. The colors are multiplied by the alpha already.
    pub const fn new(r: u8, g: u8, b: u8, a: u8) -> Rgba8 {
        Rgba8 { r, g, b, a }
    }
}

/// Red, green, blue and alpha of 16 bits, premultiplied and linear.
#[repr(C)]
#[derive(Clone, Copy, Debug, Default, PartialEq, Eq, Hash)]
pub struct Rgba16 {
    /// Red, from 0 to 65535, multiplied by the alpha.
    pub r: u16,
    /// Green.
    pub g: u16,
    /// Blue.
    pub b: u16,
    /// Alpha, from 0 (clear) to 65535 (opaque).
    pub a: u16,
}

impl Rgba16 {
    /// A pixel of these channels. The colors are multiplied by the alpha already.
    pub const fn new(r: u16, g: u16, b: u16, a: u16) -> Rgba16 {
        Rgba16 { r, g, b, a }
    }
}

/// Gray and alpha of 8 bits, premultiplied and linear.
#[repr(C)]
#[derive(Clone, Copy, Debug, Default, PartialEq, Eq, Hash)]
pub struct Graya8 {
    /// Gray, from 0 to 255, multiplied by the alpha.
    pub value: u8,
    /// Alpha, from 0 (clear) to 255 (opaque).
    pub a: u8,
}

impl Graya8 {
    /// A pixel of these channels. The gray is multiplied by the alpha already.
    pub const fn new(value: u8, a: u8) -> Graya8 {
        Graya8 { value, a }
    }
}

/// Red, green and blue of 8 bits in sRGB: an entry of a table, or a pixel.
#[repr(C)]
#[derive(Clone, Copy, Debug, Default, PartialEq, Eq, Hash)]
pub struct Srgb8 {
    /// Red, from 0 to 255.
    pub r: u8,
    /// Green.
    pub g: u8,
    /// Blue.
    pub b: u8,
}

impl Srgb8 {
    /// A color of these channels.
    pub const fn new(r: u8, g: u8, b: u8) -> Srgb8 {
        Srgb8 { r, g, b }
    }
}

/// Red, green, blue and alpha of 8 bits in sRGB, not multiplied by the alpha.
#[repr(C)]
#[derive(Clone, Copy, Debug, Default, PartialEq, Eq, Hash)]
pub struct Srgba8 {
    /// Red, from 0 to 255.
    pub r: u8,
    /// Green.
    pub g: u8,
    /// Blue.
    pub b: u8,
    /// Alpha, from 0 (clear) to 255 (opaque).
    pub a: u8,
}

impl Srgba8 {
    /// A pixel of these channels. The colors are not multiplied by the alpha.
    pub const fn new(r: u8, g: u8, b: u8, a: u8) -> Srgba8 {
        Srgba8 { r, g, b, a }
    }
}

/// A rectangle of points, anywhere; a side of at most 2147483647 is accepted.
#[repr(C)]
#[derive(Clone, Copy, Debug, Default, PartialEq, Eq, Hash)]
pub struct Region {
    /// The column of its upper left corner. It grows to the right.
    pub x: i32,
    /// The row of its upper left corner. It grows downwards.
    pub y: i32,
    /// How many columns it has.
    pub width: u32,
    /// How many rows it has.
    pub height: u32,
}

impl Region {
    /// A region with its upper left corner at (`x`, `y`).
    pub const fn new(x: i32, y: i32, width: u32, height: u32) -> Region {
        Region {
            x,
            y,
            width,
            height,
        }
    }
}
