//! Commands: changes of an image as values.

use crate::image::Image;
use crate::pixel::private::Calls;
use crate::pixel::{Pixel, Region, Rgba16};
use core::marker::PhantomData;
use core::ptr::NonNull;
use pix_sys::kind;

/// An operator of Porter and Duff, or the sum.
///
/// The term at each operator gives each channel of the result, the alpha too. s and d are the channels of source and
/// destination, and sa and da the alphas as fractions. Products are rounded to the nearest, and a sum saturates at the
/// maximum.
#[repr(u32)]
#[derive(Clone, Copy, Debug, PartialEq, Eq, Hash)]
pub enum Op {
    // made by tools/names: operators
    /// s
    Src = 0,
    /// d
    Dest = 1,
    /// s + d * (1 - sa): the usual one
    SrcOver = 2,
    /// s * (1 - da) + d
    DestOver = 3,
    /// s * (1 - da)
    SrcOut = 4,
    /// d * (1 - sa)
    DestOut = 5,
    /// s * da
    SrcIn = 6,
    /// d * sa
    DestIn = 7,
    /// s * da + d * (1 - sa)
    SrcAtop = 8,
    /// s * (1 - da) + d * sa
    DestAtop = 9,
    /// s * (1 - da) + d * (1 - sa)
    Xor = 10,
    /// 0
    Clear = 11,
    /// s + d
    Plus = 12,
    // made by tools/names: end
}

impl Op {
    /// All operators, in the order of their numbers.
    // made by tools/names: all operators
    pub const ALL: [Op; 13] = [
        Op::Src,
        Op::Dest,
        Op::SrcOver,
        Op::DestOver,
        Op::SrcOut,
        Op::DestOut,
        Op::SrcIn,
        Op::DestIn,
        Op::SrcAtop,
        Op::DestAtop,
        Op::Xor,
        Op::Clear,
        Op::Plus,
    ];
    // made by tools/names: end
}

/// A change of an image of pixels `P`. It borrows its source until it has run.
///
/// With two regions the corners are paired: a point of `to` gets the point of `from` at the same distance from the upper
/// left corner. A point is changed if it is inside both regions and both images.
#[repr(transparent)]
#[derive(Clone, Copy, Debug)]
pub struct Command<'a, P: Pixel> {
    raw: <P as Calls<P::Matte>>::Raw,
    source: PhantomData<(&'a [P], &'a [P::Matte])>,
}

// SAFETY: a command is numbers and shared borrows of numbers.
unsafe impl<P: Pixel> Send for Command<'_, P> {}
// SAFETY: as above.
unsafe impl<P: Pixel> Sync for Command<'_, P> {}

impl<'a, P: Pixel> Command<'a, P> {
    /// Makes all pixels of the image transparent: all channels 0.
    ///
    /// ```
    /// use pix::{Command, ImageMut, Rgba8};
    ///
    /// let mut pixels = [Rgba8::new(9, 9, 9, 255); 4];
    /// ImageMut::new(&mut pixels, 2, 2).run(&[Command::clear()])?;
    /// assert_eq!(pixels, [Rgba8::default(); 4]);
    /// # Ok::<(), pix::Error>(())
    /// ```
    pub fn clear() -> Command<'a, P> {
        Command::plain(kind::CLEAR, Op::Src, Region::default(), P::default())
    }

    /// Replaces the pixels of `to` by a color, whose channels are premultiplied and linear.
    ///
    /// ```
    /// use pix::{Command, Format, ImageMut, Pixel, Region, Rgba16};
    ///
    /// let orange = Rgba16::color_of(Format::SRgb8, &[200, 120, 40])?; // #c87828
    /// let mut pixels = [Rgba16::default(); 3];
    /// ImageMut::new(&mut pixels, 3, 1).run(&[Command::copy_color(Region::new(1, 0, 1, 1), orange)])?;
    /// assert_eq!(pixels[1], Rgba16::new(37852, 12309, 1391, 65535));
    /// # Ok::<(), pix::Error>(())
    /// ```
    pub fn copy_color(to: Region, color: P) -> Command<'a, P> {
        Command::plain(kind::COPY_COLOR, Op::Src, to, color)
    }

    /// Replaces the pixels of `to` by those of `from` in a source.
    ///
    /// ```
    /// use pix::{Command, Image, ImageMut, Region, Rgba8};
    ///
    /// let sheet: Vec<_> = (0..16).map(|i| Rgba8::new(i, 0, 0, 255)).collect();
    /// let (sheet, one) = (Image::new(&sheet, 4, 4), Region::new(2, 3, 1, 1));
    /// let mut pixels = [Rgba8::default(); 2];
    /// let copy = Command::copy_image(Region::new(1, 0, 1, 1), sheet, one);
    /// ImageMut::new(&mut pixels, 2, 1).run(&[copy])?;
    /// assert_eq!(pixels, [Rgba8::default(), Rgba8::new(14, 0, 0, 255)]);
    /// # Ok::<(), pix::Error>(())
    /// ```
    pub fn copy_image(to: Region, source: Image<'a, P>, from: Region) -> Command<'a, P> {
        Command::plain(kind::COPY_IMAGE, Op::Src, to, P::default()).with_pixels(source, from)
    }

    /// Composites a color with the pixels of `to`.
    ///
    /// ```
    /// use pix::{Command, ImageMut, Op, Region, Rgba8};
    ///
    /// let (one, half) = (Region::new(0, 0, 1, 1), Rgba8::new(100, 0, 0, 128)); // half of a red
    /// let mut pixels = [Rgba8::new(0, 0, 200, 255)];
    /// let mut image = ImageMut::new(&mut pixels, 1, 1);
    /// image.run(&[Command::composite_color(one, half, Op::SrcOver)])?;
    /// assert_eq!(pixels, [Rgba8::new(100, 0, 100, 255)]);
    /// # Ok::<(), pix::Error>(())
    /// ```
    pub fn composite_color(to: Region, color: P, op: Op) -> Command<'a, P> {
        Command::plain(kind::COMPOSITE_COLOR, op, to, color)
    }

    /// Composites the pixels of `from` in a source with those of `to`: a sprite.
    ///
    /// ```
    /// use pix::{Command, Image, ImageMut, Op, Region, Rgba8};
    ///
    /// let (sky, clear, red) = (Rgba8::new(9, 20, 60, 255), Rgba8::default(), Rgba8::new(80, 0, 0, 255));
    /// let (sprite, all) = ([clear, red], Region::new(0, 0, 2, 1));
    /// let sprite = Image::new(&sprite, 2, 1);
    /// let mut pixels = [sky; 4];
    /// let at = Region::new(1, 0, 2, 1);
    /// ImageMut::new(&mut pixels, 4, 1).run(&[Command::composite_image(at, sprite, all, Op::SrcOver)])?;
    /// assert_eq!(pixels, [sky, sky, red, sky]);
    /// # Ok::<(), pix::Error>(())
    /// ```
    pub fn composite_image(
        to: Region,
        source: Image<'a, P>,
        from: Region,
        op: Op,
    ) -> Command<'a, P> {
        Command::plain(kind::COMPOSITE_IMAGE, op, to, P::default()).with_pixels(source, from)
    }

    /// Composites a color, multiplied by the values of `from` in a mask, with the pixels of `to`: a glyph.
    ///
    /// ```
    /// use pix::{Command, Image, ImageMut, Op, Region, Rgba8};
    ///
    /// let glyph = [0, 128, 255];
    /// let (glyph, all) = (Image::new(&glyph, 3, 1), Region::new(0, 0, 3, 1));
    /// let (paper, ink) = (Rgba8::new(255, 255, 255, 255), Rgba8::new(0, 0, 0, 255));
    /// let mut pixels = [paper; 3];
    /// let text = Command::composite_matte(all, glyph, all, ink, Op::SrcOver);
    /// ImageMut::new(&mut pixels, 3, 1).run(&[text])?;
    /// assert_eq!(pixels, [paper, Rgba8::new(127, 127, 127, 255), ink]);
    /// # Ok::<(), pix::Error>(())
    /// ```
    pub fn composite_matte(
        to: Region,
        matte: Image<'a, P::Matte>,
        from: Region,
        color: P,
        op: Op,
    ) -> Command<'a, P> {
        let mut command = Command::plain(kind::COMPOSITE_MATTE, op, to, color);
        let raw = P::command(&mut command.raw);
        raw.mattes = matte.pixels.as_ptr();
        raw.matte_count = matte.pixels.len();
        command.with_size(matte, from)
    }

    /// Composites the pixels of `from` in a source, multiplied by the values of `mask_from` in a mask, with those of `to`:
    /// soft edges. All three corners are paired. A point is changed if it is inside all three regions, and inside image,
    /// source and mask.
    ///
    /// ```
    /// use pix::{Command, Image, ImageMut, Op, Region, Rgba8};
    ///
    /// let (photo, all) = ([Rgba8::new(200, 100, 0, 255); 3], Region::new(0, 0, 3, 1));
    /// let (photo, edge) = (Image::new(&photo, 3, 1), Image::new(&[0, 102, 255], 3, 1));
    /// let mut pixels = [Rgba8::default(); 3];
    /// let soft = Command::composite_image_matte(all, photo, all, edge, all, Op::SrcOver);
    /// ImageMut::new(&mut pixels, 3, 1).run(&[soft])?;
    /// assert_eq!(pixels, [Rgba8::default(), Rgba8::new(80, 40, 0, 102), Rgba8::new(200, 100, 0, 255)]);
    /// # Ok::<(), pix::Error>(())
    /// ```
    pub fn composite_image_matte(
        to: Region,
        source: Image<'a, P>,
        from: Region,
        mask: Image<'a, P::Matte>,
        mask_from: Region,
        op: Op,
    ) -> Command<'a, P> {
        let mut command = Command::plain(kind::COMPOSITE_IMAGE_MATTE, op, to, P::default());
        let raw = P::command(&mut command.raw);
        raw.mattes = mask.pixels.as_ptr();
        raw.matte_count = mask.pixels.len();
        command.with_mask(mask, mask_from).with_pixels(source, from)
    }

    /// Composites the pixels of `from` in a source, multiplied by `alpha`, with those of `to`: a fade. At the maximum alpha
    /// this is [`Command::composite_image`].
    ///
    /// ```
    /// use pix::{Command, Image, ImageMut, Op, Region, Rgba8};
    ///
    /// let (source, one) = ([Rgba8::new(200, 0, 0, 255)], Region::new(0, 0, 1, 1));
    /// let mut pixels = [Rgba8::new(0, 0, 200, 255)];
    /// let fade = Command::composite_image_alpha(one, Image::new(&source, 1, 1), one, 51, Op::SrcOver);
    /// ImageMut::new(&mut pixels, 1, 1).run(&[fade])?;
    /// assert_eq!(pixels, [Rgba8::new(40, 0, 160, 255)]);
    /// # Ok::<(), pix::Error>(())
    /// ```
    pub fn composite_image_alpha(
        to: Region,
        source: Image<'a, P>,
        from: Region,
        alpha: P::Matte,
        op: Op,
    ) -> Command<'a, P> {
        let mut command = Command::plain(kind::COMPOSITE_IMAGE_ALPHA, op, to, P::default());
        P::command(&mut command.raw).alpha = alpha;
        command.with_pixels(source, from)
    }

    /// A pattern: the commands that composite copies of `from` in a source over all of `to`. They are side by side from its
    /// upper left corner on, row by row, and cut at its other sides. A copy that begins past 2147483647 can't be in any
    /// image, and is left out.
    ///
    /// ```
    /// use pix::{Command, Image, ImageMut, Op, Region, Rgba8};
    ///
    /// let (dark, pale) = (Rgba8::new(40, 40, 40, 255), Rgba8::new(90, 90, 90, 255));
    /// let tile = [dark, pale, pale, dark];
    /// let (tile, all) = (Image::new(&tile, 2, 2), Region::new(0, 0, 2, 2));
    /// let list: Vec<_> = Command::repeat_image(Region::new(0, 0, 3, 3), tile, all, Op::SrcOver).collect();
    /// let mut pixels = [Rgba8::default(); 9];
    /// ImageMut::new(&mut pixels, 3, 3).run(&list)?;
    /// assert_eq!(pixels, [dark, pale, dark, pale, dark, pale, dark, pale, dark]);
    /// # Ok::<(), pix::Error>(())
    /// ```
    pub fn repeat_image(
        to: Region,
        source: Image<'a, P>,
        from: Region,
        op: Op,
    ) -> impl Iterator<Item = Command<'a, P>> {
        let right = to.width.min(to.x.abs_diff(i32::MAX).saturating_add(1));
        let bottom = to.height.min(to.y.abs_diff(i32::MAX).saturating_add(1));
        let columns = right.div_ceil(from.width.max(1));
        let rows = bottom.div_ceil(from.height.max(1));
        let is_empty = to.width == 0 || from.width == 0 || from.height == 0;
        (0..if is_empty { 0 } else { rows }).flat_map(move |row| {
            (0..columns).map(move |column| {
                let (x, y) = (column * from.width, row * from.height);
                let copy = Region {
                    x: to.x.wrapping_add_unsigned(x),
                    y: to.y.wrapping_add_unsigned(y),
                    width: from.width.min(to.width - x),
                    height: from.height.min(to.height - y),
                };
                Command::composite_image(copy, source, from, op)
            })
        })
    }

    /// A command without a source.
    fn plain(kind: u32, op: Op, to: Region, color: P) -> Command<'a, P> {
        let raw = pix_sys::Command {
            kind,
            op: op as u32,
            to,
            from: Region::default(),
            color,
            pixels: NonNull::dangling().as_ptr(),
            pixel_count: 0,
            mattes: NonNull::dangling().as_ptr(),
            matte_count: 0,
            width: 0,
            height: 0,
            stride: 0,
            mask: Region::default(),
            mask_width: 0,
            mask_height: 0,
            mask_stride: 0,
            alpha: P::Matte::default(),
        };
        Command {
            raw: P::raw(raw),
            source: PhantomData,
        }
    }

    /// The command with a source.
    fn with_pixels(mut self, source: Image<'a, P>, from: Region) -> Command<'a, P> {
        let raw = P::command(&mut self.raw);
        raw.pixels = source.pixels.as_ptr();
        raw.pixel_count = source.pixels.len();
        self.with_size(source, from)
    }

    /// The command with the size of its source.
    fn with_size<T>(mut self, source: Image<'a, T>, from: Region) -> Command<'a, P> {
        let raw = P::command(&mut self.raw);
        raw.from = from;
        raw.width = source.width;
        raw.height = source.height;
        raw.stride = source.stride;
        self
    }

    /// The command with the size of its mask.
    fn with_mask<T>(mut self, mask: Image<'a, T>, mask_from: Region) -> Command<'a, P> {
        let raw = P::command(&mut self.raw);
        raw.mask = mask_from;
        raw.mask_width = mask.width;
        raw.mask_height = mask.height;
        raw.mask_stride = mask.stride;
        self
    }
}

impl<'a> Command<'a, Rgba16> {
    /// Composites a color, multiplied by the values of `from` in a mask of 8 bits, with the pixels of `to`: a glyph from a
    /// rasterizer. Each value counts as 257 times itself in a mask of 16 bits, so 255 is all of the color.
    ///
    /// ```
    /// use pix::{Command, Image, ImageMut, Op, Region, Rgba16};
    ///
    /// let (coverage, all) = ([0, 128, 255], Region::new(0, 0, 3, 1));
    /// let (glyph, ink) = (Image::new(&coverage, 3, 1), Rgba16::new(65535, 0, 0, 65535));
    /// let mut pixels = [Rgba16::default(); 3];
    /// let text = Command::composite_matte8(all, glyph, all, ink, Op::SrcOver);
    /// ImageMut::new(&mut pixels, 3, 1).run(&[text])?;
    /// assert_eq!(pixels, [Rgba16::default(), Rgba16::new(32896, 0, 0, 32896), ink]);
    /// # Ok::<(), pix::Error>(())
    /// ```
    pub fn composite_matte8(
        to: Region,
        matte: Image<'a, u8>,
        from: Region,
        color: Rgba16,
        op: Op,
    ) -> Command<'a, Rgba16> {
        Command::plain(kind::COMPOSITE_MATTE, op, to, color)
            .with_mattes8(matte)
            .with_size(matte, from)
    }

    /// Composites the pixels of `from` in a source, multiplied by the values of `mask_from` in a mask of 8 bits, with those
    /// of `to`. [`Command::composite_image_matte`] does it with a mask of 16 bits.
    ///
    /// ```
    /// use pix::{Command, Image, ImageMut, Op, Region, Rgba16};
    ///
    /// let (red, soft, all) = (Rgba16::new(65535, 0, 0, 65535), [255, 128], Region::new(0, 0, 2, 1));
    /// let (source, mask) = ([red; 2], Image::new(&soft, 2, 1));
    /// let mut pixels = [Rgba16::default(); 2];
    /// let source = Image::new(&source, 2, 1);
    /// let faded = Command::composite_image_matte8(all, source, all, mask, all, Op::SrcOver);
    /// ImageMut::new(&mut pixels, 2, 1).run(&[faded])?;
    /// assert_eq!(pixels, [red, Rgba16::new(32896, 0, 0, 32896)]);
    /// # Ok::<(), pix::Error>(())
    /// ```
    pub fn composite_image_matte8(
        to: Region,
        source: Image<'a, Rgba16>,
        from: Region,
        mask: Image<'a, u8>,
        mask_from: Region,
        op: Op,
    ) -> Command<'a, Rgba16> {
        Command::plain(kind::COMPOSITE_IMAGE_MATTE, op, to, Rgba16::default())
            .with_mattes8(mask)
            .with_mask(mask, mask_from)
            .with_pixels(source, from)
    }

    /// The command with mattes of 8 bits.
    fn with_mattes8(mut self, mattes: Image<'a, u8>) -> Command<'a, Rgba16> {
        self.raw.mattes8 = mattes.pixels.as_ptr();
        self.raw.matte8_count = mattes.pixels.len();
        self
    }
}
