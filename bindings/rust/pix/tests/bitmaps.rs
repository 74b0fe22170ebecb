//! Pictures as files hold them: they come back from light as they were, whatever their stride; and what is refused.
#![forbid(unsafe_code)]

use pix::{
    Bitmap, BitmapMut, Command, Error, Format, Image, ImageMut, Op, Pixel, Region, Rgba8, Rgba16,
};

const WIDTH: u32 = 320;
const HEIGHT: u32 = 200;

/// A photograph of no camera: gradients, edges and noise, of pixels that are clear or have an alpha of 13 or more.
fn photograph(channels: usize) -> Vec<u8> {
    let mut seed = 1_u32;
    let mut bytes = Vec::new();
    for y in 0..HEIGHT {
        for x in 0..WIDTH {
            seed = seed.wrapping_mul(1664525).wrapping_add(1013904223);
            let alpha = ((x + y) % 256) as u8;
            let is_clear = channels == 4 && alpha < 13;
            let levels = [x * 256 / WIDTH, y * 256 / HEIGHT, (x ^ y) & 255];
            for level in levels {
                let noisy = (level + (seed >> 28)).min(255) as u8;
                bytes.push(if is_clear { 0 } else { noisy });
            }
            if channels == 4 {
                bytes.push(if is_clear { 0 } else { alpha });
            }
        }
    }
    bytes
}

#[track_caller]
fn comes_back(format: Format) {
    let size = format.size();
    let photo = photograph(size);
    let mut pixels = vec![Rgba16::default(); (WIDTH * HEIGHT) as usize];
    let mut light = ImageMut::new(&mut pixels, WIDTH, HEIGHT);
    let source = Bitmap::new(&photo, WIDTH, HEIGHT, format);
    light
        .as_bitmap_mut()
        .convert_bitmap(source)
        .expect("decoded");
    let color = Rgba16::new(9000, 0, 0, 30000);
    let painted = Region::new(100, 50, 64, 64);
    let list = [Command::composite_color(painted, color, Op::SrcOver)];
    light.run(&list).expect("painted");
    let mut back = vec![0; photo.len()];
    let mut shown = BitmapMut::new(&mut back, WIDTH, HEIGHT, format);
    shown.convert_bitmap(light.as_bitmap()).expect("encoded");
    let mut changed = 0;
    for (index, (old, new)) in photo.chunks(size).zip(back.chunks(size)).enumerate() {
        let (x, y) = (index as u32 % WIDTH, index as u32 / WIDTH);
        if old != new {
            assert!(
                (100..164).contains(&x) && (50..114).contains(&y),
                "({x}, {y}) changed"
            );
            changed += 1;
        }
    }
    assert!(changed > 4000);
}

#[test]
fn photographs_come_back() {
    for format in [Format::SRgba8, Format::SBgra8, Format::SRgb8, Format::SBgr8] {
        comes_back(format);
    }
}

/// Pixels come back where their alpha is 13 or more; below that their alpha does, and a clear one comes back as 0.
#[test]
fn pixels_of_each_alpha() {
    for alpha in 0..=255 {
        let (photo, mut back) = ([188, 90, 7, alpha], [9; 4]);
        let mut pixels = [Rgba16::default()];
        let mut light = ImageMut::new(&mut pixels, 1, 1);
        let source = Bitmap::new(&photo, 1, 1, Format::SRgba8);
        light
            .as_bitmap_mut()
            .convert_bitmap(source)
            .expect("decoded");
        let mut shown = BitmapMut::new(&mut back, 1, 1, Format::SRgba8);
        shown.convert_bitmap(light.as_bitmap()).expect("encoded");
        match alpha {
            0 => assert_eq!(back, [0; 4]),
            13.. => assert_eq!(back, photo),
            _ => assert_eq!(back[3], alpha),
        }
    }
}

#[test]
fn rows_from_bottom_to_top() {
    // two rows of one pixel, and a byte between them that stays
    let up = [1, 2, 3, 0, 4, 5, 6];
    let mut down = [9; 8];
    let source = Bitmap::with_stride(&up, 1, 2, -4, Format::SBgr8);
    let mut shown = BitmapMut::with_stride(&mut down, 1, 2, 4, Format::SRgb8);
    shown.convert_bitmap(source).expect("turned over");
    assert_eq!(down, [6, 5, 4, 9, 3, 2, 1, 9]);
}

#[test]
fn opaque_pixels_and_words() {
    let photo = [10, 20, 30, 77];
    let mut words = [0; 8];
    let mut wide = BitmapMut::new(&mut words, 1, 1, Format::Rgba16);
    let source = Bitmap::new(&photo, 1, 1, Format::Rgbx8);
    wide.convert_bitmap(source)
        .expect("the last byte is not read");
    let numbers = words
        .chunks(2)
        .map(|pair| u16::from_ne_bytes([pair[0], pair[1]]));
    assert_eq!(
        numbers.collect::<Vec<_>>(),
        [10 * 257, 20 * 257, 30 * 257, 65535]
    );
    let mut bytes = [0; 4];
    let mut opaque = BitmapMut::new(&mut bytes, 1, 1, Format::Bgrx8);
    opaque
        .convert_bitmap(Bitmap::new(&words, 1, 1, Format::Rgba16))
        .expect("the last byte is 255");
    assert_eq!(bytes, [30, 20, 10, 255]);
}

#[test]
fn in_place() {
    let mut bytes = [200, 100, 50, 128, 255, 0, 255, 0];
    let image = BitmapMut::new(&mut bytes, 2, 1, Format::Rgba8);
    image.convert_in_place(Format::Rgba8p).expect("multiplied");
    assert_eq!(bytes, [100, 50, 25, 128, 0, 0, 0, 0]);
    let image = BitmapMut::new(&mut bytes, 2, 1, Format::Rgba8);
    assert_eq!(image.convert_in_place(Format::Rgba16), Err(Error::Larger));
    let image = BitmapMut::new(&mut bytes, 2, 1, Format::Rgbx8);
    image.convert_in_place(Format::Rgb8).expect("smaller");
    assert_eq!(bytes, [100, 50, 25, 0, 0, 0, 0, 0]);
}

#[test]
fn colors() {
    let half_white = Rgba16::color_of(Format::SRgba8, &[255, 255, 255, 128]);
    assert_eq!(half_white, Ok(Rgba16::new(32896, 32896, 32896, 32896)));
    assert_eq!(
        Rgba16::color_of(Format::SRgb8, &[188, 0, 0]),
        Ok(Rgba16::new(32957, 0, 0, 65535))
    );
    assert_eq!(
        Rgba8::color_of(Format::Rgba8, &[200, 100, 50, 128]),
        Ok(Rgba8::new(100, 50, 25, 128))
    );
    let few = Rgba8::color_of(Format::Rgba8, &[200, 100, 50]);
    assert_eq!(few, Err(Error::Picture));
}

#[test]
fn refusals() {
    let (photo, mut back) = ([1; 16], [7; 16]);
    let mut small = [Rgba8::default(); 3];
    let mut image = ImageMut::new(&mut small, 2, 2);
    let source = Bitmap::new(&photo, 2, 2, Format::SRgba8);
    assert_eq!(
        image.as_bitmap_mut().convert_bitmap(source),
        Err(Error::Size)
    );
    let mut shown = BitmapMut::new(&mut back, 2, 2, Format::SRgba8);
    for source in [
        Bitmap::new(&photo[..15], 2, 2, Format::SRgba8),
        Bitmap::with_stride(&photo, 2, 2, 7, Format::SRgba8),
        Bitmap::with_stride(&photo, 2, 2, -7, Format::SRgba8),
        Bitmap::with_stride(&photo, 2, 2, isize::MIN, Format::SRgba8),
    ] {
        assert_eq!(shown.convert_bitmap(source), Err(Error::Picture));
    }
    for (width, height) in [(2, 1), (1, 2), (0, 0), (0, u32::MAX)] {
        let source = Bitmap::new(&photo, width, height, Format::SRgba8);
        assert_eq!(shown.convert_bitmap(source), Err(Error::OtherSize));
    }
    assert_eq!(back, [7; 16]);
}

#[test]
fn sizes_are_those_of_the_library() {
    for format in [
        Format::SRgba8,
        Format::Rgb16,
        Format::Matte8,
        Format::Xyza16p,
        Format::Bgrx8,
    ] {
        assert!((1..=8).contains(&format.size()));
    }
    assert_eq!(
        (
            Format::Rgb16.size(),
            Format::Graya8.size(),
            Format::SRgbx8.size()
        ),
        (6, 2, 4)
    );
}

/// Each pixel of a pattern stands at its point's place in it.
#[test]
fn patterns() {
    let tile: Vec<_> = (0..30).map(|i| Rgba8::new(8 * i, 0, 0, 255)).collect();
    let source = Image::new(&tile, 6, 5);
    for (x, y, width, height, wide, high) in [
        (-3, -5, 20, 18, 2, 3),
        (4, 2, 7, 8, 3, 3),
        (30, 0, 5, 5, 1, 1),
        (0, 0, 9, 9, 0, 2),
        (0, 0, 0, 9, 2, 2),
    ] {
        let (to, from) = (
            Region::new(x, y, width, height),
            Region::new(1, 2, wide, high),
        );
        let list: Vec<_> = Command::repeat_image(to, source, from, Op::SrcOver).collect();
        let mut pixels = [Rgba8::default(); 15 * 11];
        ImageMut::new(&mut pixels, 15, 11)
            .run(&list)
            .expect("a pattern");
        for (place, pixel) in pixels.iter().enumerate() {
            let (column, row) = ((place % 15) as i32 - x, (place / 15) as i32 - y);
            let covers = |at: i32, length: u32| at >= 0 && (at as u32) < length;
            let is_painted = covers(column, width) && covers(row, height) && wide * high > 0;
            let wanted = if is_painted {
                tile[(2 + row as usize % high as usize) * 6 + 1 + column as usize % wide as usize]
            } else {
                Rgba8::default()
            };
            assert_eq!(*pixel, wanted, "{to:?}, {from:?}: {place}");
        }
    }
    let far = Region::new(i32::MAX - 1, i32::MIN, i32::MAX as u32, 7);
    assert_eq!(
        Command::repeat_image(far, source, Region::new(0, 0, 1, 3), Op::Src).count(),
        6
    );
}
