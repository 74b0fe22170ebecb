//! Pictures, regions and sources without pixels, one side of them as long as can be: each call answers at once.
#![forbid(unsafe_code)]

use pix::{
    Bitmap, BitmapMut, ColorTable, Command, Diffusion, Error, Format, Graya8, Image, ImageMut, Op,
    Pixel, Region, Rgba8, Rgba16, RgbaTable, Srgb8, Srgba8, convert, diffuse_indexed_work,
    quantize_rgba,
};
use std::time::{Duration, Instant};

const LONG: u32 = i32::MAX as u32;

/// Sizes without pixels.
const EMPTY: [(u32, u32); 3] = [(0, LONG), (LONG, 0), (0, 0)];

/// What a call answers, after a test that it took no time.
#[track_caller]
fn at_once<T>(call: impl FnOnce() -> T) -> T {
    let start = Instant::now();
    let answer = call();
    assert!(start.elapsed() < Duration::from_secs(1));
    answer
}

/// One command of each kind, from `to` and `from`, with a source and a mask.
fn all_kinds<'a, P: Pixel>(
    to: Region,
    from: Region,
    source: Image<'a, P>,
    mask: Image<'a, P::Matte>,
) -> [Command<'a, P>; 8] {
    let (color, alpha) = (P::default(), P::Matte::default());
    [
        Command::clear(),
        Command::copy_color(to, color),
        Command::copy_image(to, source, from),
        Command::composite_color(to, color, Op::SrcOver),
        Command::composite_image(to, source, from, Op::SrcOver),
        Command::composite_matte(to, mask, from, color, Op::SrcOver),
        Command::composite_image_matte(to, source, from, mask, from, Op::SrcOver),
        Command::composite_image_alpha(to, source, from, alpha, Op::SrcOver),
    ]
}

/// Paints images without pixels, and one of one pixel by regions and sources that have none.
fn paint<P: Pixel>() {
    let whole = Region::new(0, 0, LONG, LONG);
    for (width, height) in EMPTY {
        let (source, mask) = (
            Image::new(&[], width, height),
            Image::new(&[], width, height),
        );
        let part = Region::new(0, 0, width, height);
        for (to, from) in [(whole, whole), (part, whole), (whole, part), (part, part)] {
            let list = all_kinds(to, from, source, mask);
            let mut empty = ImageMut::<P>::new(&mut [], width, height);
            assert_eq!(at_once(|| empty.run(&list)), Ok(()));
            assert_eq!(
                at_once(|| empty.run_window(LONG - width, LONG - height, &list)),
                Ok(())
            );
            let answers = at_once(|| {
                let bands = empty.bands(1);
                bands
                    .map(|(top, mut band)| band.run_window(0, top, &list))
                    .collect::<Vec<_>>()
            });
            assert_eq!(answers, []);
            let mut one = [P::default()];
            assert_eq!(at_once(|| ImageMut::new(&mut one, 1, 1).run(&list)), Ok(()));
        }
    }
}

#[test]
fn images_of_each_kind() {
    paint::<Rgba8>();
    paint::<Rgba16>();
    paint::<Graya8>();
}

#[test]
fn bitmaps() {
    let formats = [
        Format::SRgba8,
        Format::Rgba8p,
        Format::Rgba16p,
        Format::Matte8,
        Format::Xyza16p,
    ];
    for (width, height) in EMPTY {
        for (from, to) in formats
            .into_iter()
            .flat_map(|from| formats.map(|to| (from, to)))
        {
            let source = Bitmap::new(&[], width, height, from);
            let mut shown = BitmapMut::new(&mut [], width, height, to);
            assert_eq!(at_once(|| shown.convert_bitmap(source)), Ok(()));
            let wanted = if to.size() > from.size() {
                Err(Error::Larger)
            } else {
                Ok(())
            };
            let image = BitmapMut::new(&mut [], width, height, from);
            assert_eq!(at_once(|| image.convert_in_place(to)), wanted);
        }
        let mut light = ImageMut::<Rgba16>::new(&mut [], width, height);
        let source = Bitmap::new(&[], width, height, Format::SRgb8);
        assert_eq!(
            at_once(|| light.as_bitmap_mut().convert_bitmap(source)),
            Ok(())
        );
    }
    // Rows without pixels that lie a byte apart, upwards: they need memory all the same.
    let far = Bitmap::with_stride(&[], 0, LONG, -1, Format::SRgb8);
    let mut shown = BitmapMut::new(&mut [], 0, LONG, Format::SRgb8);
    assert_eq!(at_once(|| shown.convert_bitmap(far)), Err(Error::Picture));
    assert_eq!(
        at_once(|| convert(Format::SRgba8, &[], Format::Rgb8, &mut [])),
        Ok(())
    );
}

#[test]
fn patterns() {
    let source = Image::<Rgba8>::new(&[], 0, 0);
    for (width, height) in [(0, u32::MAX), (u32::MAX, 0), (0, 0)] {
        let (none, whole) = (
            Region::new(0, 0, width, height),
            Region::new(0, 0, LONG, LONG),
        );
        for (to, from) in [(none, Region::new(0, 0, 1, 1)), (whole, none), (none, none)] {
            let pattern = Command::repeat_image(to, source, from, Op::SrcOver);
            assert_eq!(at_once(|| pattern.count()), 0);
        }
    }
}

#[test]
fn rows_of_indices() {
    let entries = [Srgb8::new(1, 2, 3)];
    let table = ColorTable::new(&entries).unwrap();
    let mut work = vec![Srgb8::default(); diffuse_indexed_work(1 << 20).unwrap()];
    let no_row = at_once(|| table.diffuse_indexed(&[], 0, &mut [], &mut []));
    assert_eq!(no_row, Err(Error::Length));
    let no_pixel = at_once(|| table.diffuse_indexed(&[], 1 << 20, &mut work, &mut []));
    assert_eq!(no_pixel, Ok(()));
    let how = Diffusion {
        strength: 16,
        serpentine: true,
    };
    let turned = at_once(|| table.diffuse_indexed_by(&[], 1 << 20, how, &mut work, &mut []));
    assert_eq!(turned, Ok(()));
    let mut entries = [Srgba8::new(1, 2, 3, 4)];
    let made = at_once(|| quantize_rgba(&[], 255, &mut [], &mut entries).map(<[_]>::len));
    assert_eq!(made, Ok(0));
    let table = RgbaTable::new(&entries).unwrap();
    let mut work = vec![Srgba8::default(); diffuse_indexed_work(1 << 20).unwrap()];
    assert_eq!(at_once(|| table.map_indexed(&[], &mut [])), Ok(()));
    let no_pixel = at_once(|| table.diffuse_indexed(&[], 1 << 20, how, &mut work, &mut []));
    assert_eq!(no_pixel, Ok(()));
}
