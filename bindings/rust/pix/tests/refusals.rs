//! What is refused, that a refusal changes nothing, and what strides, operators and the other pixels do.
#![forbid(unsafe_code)]

use pix::{
    Bitmap, BitmapMut, Command, Error, Format, Graya8, Image, ImageMut, Op, Region, Rgba8, Rgba16,
    bytes, bytes_mut, convert,
};
use std::thread;

const LONG: u32 = 1 << 31;
const WHOLE: Region = Region::new(0, 0, 4, 4);
const COLOR: Rgba8 = Rgba8::new(9, 9, 9, 9);

/// Sixteen pixels that differ.
fn pixels() -> Vec<Rgba8> {
    (0..16).map(|i| Rgba8::new(i, 20, 30, 200)).collect()
}

/// What a list of a good command and this one answers, after a test that nothing was changed.
#[track_caller]
fn answer(command: Command<'_, Rgba8>) -> Option<Error> {
    let mut image = pixels();
    let list = [Command::copy_color(WHOLE, COLOR), command];
    let error = ImageMut::new(&mut image, 4, 4).run(&list).err();
    assert_eq!(image, pixels());
    error
}

#[test]
fn images_are_tested() {
    let mut image = pixels();
    let clear = [Command::clear()];
    assert_eq!(
        ImageMut::new(&mut image, LONG, 0).run(&clear),
        Err(Error::Size)
    );
    assert_eq!(
        ImageMut::new(&mut image, 0, LONG).run(&clear),
        Err(Error::Size)
    );
    assert_eq!(
        ImageMut::new(&mut image, 4, 5).run(&clear),
        Err(Error::Size)
    );
    assert_eq!(
        ImageMut::new(&mut image, u32::MAX, u32::MAX).run(&clear),
        Err(Error::Size)
    );
    assert_eq!(
        ImageMut::with_stride(&mut image, 4, 4, 3).run(&clear),
        Err(Error::Size)
    );
    assert_eq!(
        ImageMut::with_stride(&mut image, 4, 4, 5).run(&clear),
        Err(Error::Size)
    );
    assert_eq!(image, pixels());
    assert_eq!(ImageMut::new(&mut [], 0, 7).run(&clear), Ok(()));
    assert_eq!(ImageMut::new(&mut [], 7, 0).run(&clear), Ok(()));
    assert_eq!(ImageMut::new(&mut image, 4, 4).run(&[]), Ok(()));
    assert_eq!(image, pixels());
}

#[test]
fn regions_are_tested() {
    let other = pixels();
    let source = Image::new(&other, 4, 4);
    let refused = Some(Error::Region { index: 1 });
    let wide = Region::new(0, 0, LONG, 1);
    let high = Region::new(0, 0, 1, u32::MAX);
    assert_eq!(answer(Command::copy_color(wide, COLOR)), refused);
    assert_eq!(
        answer(Command::composite_color(high, COLOR, Op::Xor)),
        refused
    );
    assert_eq!(answer(Command::copy_image(wide, source, WHOLE)), refused);
    assert_eq!(
        answer(Command::composite_image(WHOLE, source, high, Op::Plus)),
        refused
    );
}

#[test]
fn sources_are_tested() {
    let other = pixels();
    let refused = Some(Error::Source { index: 1 });
    for source in [
        Image::new(&other, LONG, 0),
        Image::new(&other, 0, LONG),
        Image::new(&other, 4, 5),
        Image::with_stride(&other, 4, 4, 3),
        Image::with_stride(&other, 4, 4, 5),
    ] {
        assert_eq!(answer(Command::copy_image(WHOLE, source, WHOLE)), refused);
        assert_eq!(
            answer(Command::composite_image(WHOLE, source, WHOLE, Op::SrcOver)),
            refused
        );
    }
    let matte = Image::new(&[255; 15], 4, 4);
    let command = Command::composite_matte(WHOLE, matte, WHOLE, COLOR, Op::SrcOver);
    assert_eq!(answer(command), refused);
}

#[test]
fn errors_have_texts() {
    let text = Error::Region { index: 3 }.to_string();
    assert_eq!(text, "command 3: a region has a side above 2147483647");
    let mut dst = [7; 8];
    let wide = convert(Format::Rgba16, &[1; 8], Format::Rgba8, &mut dst[..4]).unwrap_err();
    assert_eq!(
        wide.to_string(),
        "`convert` takes formats up to SGray8; a BitmapMut takes all"
    );
    assert_eq!(
        convert(Format::Rgba8, &[1; 4], Format::Rgba16, &mut dst),
        Err(wide)
    );
    let image = BitmapMut::new(&mut dst, 2, 1, Format::Rgba8);
    let larger = image.convert_in_place(Format::Rgba16).unwrap_err();
    assert_eq!(larger.to_string(), "in place, a pixel would be larger");
    let mut image = BitmapMut::new(&mut dst, 2, 1, Format::Rgba8);
    let sizes = image
        .convert_bitmap(Bitmap::new(&[1; 8], 1, 2, Format::Rgba8))
        .unwrap_err();
    let other_size = "the picture to be converted has another size than the one to be written";
    assert_eq!(sizes.to_string(), other_size);
    let few = image
        .convert_bitmap(Bitmap::new(&[1; 7], 2, 1, Format::Rgba8))
        .unwrap_err();
    let picture = "the picture that is read has a bad size or stride, or too few bytes";
    assert_eq!(few.to_string(), picture);
    assert_eq!(dst, [7; 8]);
}

#[test]
fn lengths_are_tested() {
    let mut dst = [7; 8];
    let refused = Err(Error::Length);
    assert_eq!(
        convert(Format::Rgba8, &[1; 7], Format::Bgra8, &mut dst),
        refused
    );
    assert_eq!(
        convert(Format::Rgba8, &[1; 4], Format::Bgra8, &mut dst),
        refused
    );
    assert_eq!(
        convert(Format::Rgba8, &[1; 12], Format::Bgra8, &mut dst),
        refused
    );
    assert_eq!(
        convert(Format::Rgba8, &[1; 8], Format::Bgra8, &mut dst[..7]),
        refused
    );
    assert_eq!(dst, [7; 8]);
    assert_eq!(convert(Format::Rgba8, &[], Format::Gray8, &mut []), Ok(()));
    assert_eq!(
        convert(
            Format::Rgba8,
            &[1, 2, 3, 4, 5, 6, 7, 8],
            Format::Bgra8,
            &mut dst
        ),
        Ok(())
    );
    assert_eq!(dst, [3, 2, 1, 4, 7, 6, 5, 8]);
}

#[test]
fn an_alpha_is_dropped() {
    let (half, mut to) = ([64, 64, 64, 128], [0; 3]);
    let stay = convert(Format::Rgba8p, &half, Format::Rgb8, &mut to);
    assert_eq!((stay, to), (Ok(()), [64; 3]));
    let divided = convert(Format::Bgra8p, &half, Format::Rgb8, &mut to);
    assert_eq!((divided, to), (Ok(()), [128; 3]));
}

#[test]
fn what_lies_between_rows_stays() {
    let mut padded = [Rgba8::new(1, 2, 3, 4); 13];
    let rows: Vec<Rgba8> = (0..13).map(|i| Rgba8::new(i, 0, 0, 255)).collect();
    let large = Region::new(0, 0, 9, 9);
    let source = Image::with_stride(&rows, 3, 3, 5);
    let mut image = ImageMut::with_stride(&mut padded, 3, 3, 5);
    let copy = Command::copy_image(Region::new(-1, -1, 9, 9), source, large);
    assert_eq!(image.run(&[copy]), Ok(()));
    for (i, pixel) in padded.iter().enumerate() {
        let is_inside = i % 5 < 2 && i / 5 < 2;
        assert_eq!(usize::from(pixel.r), if is_inside { i + 6 } else { 1 });
    }
    let mut image = ImageMut::with_stride(&mut padded, 3, 3, 5);
    assert_eq!(image.run(&[Command::copy_color(large, COLOR)]), Ok(()));
    for (i, pixel) in padded.iter().enumerate() {
        assert_eq!(*pixel == COLOR, i % 5 < 3);
    }
}

/// One channel by the two terms of each operator.
fn composite(op: Op, s: u32, d: u32, sa: u32, da: u32) -> u32 {
    let times = |a: u32, b: u32| (2 * a * b + 255) / 510;
    let (na, nb) = (255 - sa, 255 - da);
    let (by_source, by_dest) = match op {
        // made by tools/names: operators
        Op::Src => (255, 0),
        Op::Dest => (0, 255),
        Op::SrcOver => (255, na),
        Op::DestOver => (nb, 255),
        Op::SrcOut => (nb, 0),
        Op::DestOut => (0, na),
        Op::SrcIn => (da, 0),
        Op::DestIn => (0, sa),
        Op::SrcAtop => (da, na),
        Op::DestAtop => (nb, sa),
        Op::Xor => (nb, na),
        Op::Clear => (0, 0),
        Op::Plus => (255, 255),
        // made by tools/names: end
    };
    (times(s, by_source) + times(d, by_dest)).min(255)
}

#[test]
fn operators_are_those_of_their_names() {
    for op in Op::ALL {
        let (s, d) = (Rgba8::new(90, 17, 0, 130), Rgba8::new(5, 20, 30, 200));
        let mut pixel = [d];
        let list = [Command::composite_color(WHOLE, s, op)];
        assert_eq!(ImageMut::new(&mut pixel, 1, 1).run(&list), Ok(()));
        let expected = |s: u8, d: u8| composite(op, s.into(), d.into(), 130, 200) as u8;
        let channels = [
            expected(s.r, d.r),
            expected(s.g, d.g),
            expected(s.b, d.b),
            expected(s.a, d.a),
        ];
        assert_eq!(bytes(&pixel), channels);
    }
}

#[test]
fn masks_and_opacities() {
    let (pixel, below) = (Rgba8::new(200, 100, 0, 200), Rgba8::new(0, 0, 100, 255));
    let (faded, kept) = (Rgba8::new(100, 50, 61, 255), Rgba8::new(200, 100, 22, 255));
    let whole = Region::new(0, 0, 3, 1);
    let sources = [pixel; 3];
    let source = Image::new(&sources, 3, 1);
    let mut pixels = [below; 3];
    let list = [Command::composite_image_alpha(
        Region::new(0, 0, 1, 1),
        source,
        whole,
        128,
        Op::SrcOver,
    )];
    assert_eq!(ImageMut::new(&mut pixels, 3, 1).run(&list), Ok(()));
    assert_eq!(pixels, [faded, below, below]);
    pixels = [below; 3];
    let mask = Image::new(&[9, 9, 9, 128, 0, 255], 3, 2);
    let second = Region::new(0, 1, 3, 1);
    let list = [Command::composite_image_matte(
        whole,
        source,
        whole,
        mask,
        second,
        Op::SrcOver,
    )];
    assert_eq!(ImageMut::new(&mut pixels, 3, 1).run(&list), Ok(()));
    assert_eq!(pixels, [faded, below, kept]);
    let short = Image::new(&[255; 5], 3, 2);
    let command = Command::composite_image_matte(whole, source, whole, short, whole, Op::SrcOver);
    assert_eq!(
        ImageMut::new(&mut pixels, 3, 1).run(&[command]),
        Err(Error::Source { index: 0 })
    );
}

#[test]
fn wide_and_gray_pixels() {
    let whole = Region::new(0, 0, 2, 1);
    let mut wide = [Rgba16::new(1000, 2000, 3000, 65535); 2];
    let matte = Image::new(&[0, 32768], 2, 1);
    let color = Rgba16::new(65535, 0, 0, 65535);
    let list = [Command::composite_matte(
        whole,
        matte,
        whole,
        color,
        Op::SrcOver,
    )];
    assert_eq!(ImageMut::new(&mut wide, 2, 1).run(&list), Ok(()));
    assert_eq!(
        wide,
        [
            Rgba16::new(1000, 2000, 3000, 65535),
            Rgba16::new(33268, 1000, 1500, 65535)
        ]
    );
    let mut gray = [Graya8::new(50, 255); 2];
    let source = [Graya8::new(100, 200), Graya8::new(0, 0)];
    let list = [Command::composite_image(
        whole,
        Image::new(&source, 2, 1),
        whole,
        Op::SrcOver,
    )];
    assert_eq!(ImageMut::new(&mut gray, 2, 1).run(&list), Ok(()));
    assert_eq!(gray, [Graya8::new(111, 255), Graya8::new(50, 255)]);
    bytes_mut(&mut gray)[0] = 7;
    assert_eq!(gray[0].value, 7);
}

#[test]
fn one_list_paints_in_two_threads() {
    let other = pixels();
    let source = Image::new(&other, 4, 4);
    let list = [Command::copy_image(WHOLE, source, WHOLE)];
    let (mut first, mut second) = (vec![COLOR; 16], vec![COLOR; 16]);
    thread::scope(|scope| {
        scope.spawn(|| ImageMut::new(&mut first, 4, 4).run(&list));
        scope.spawn(|| ImageMut::new(&mut second, 4, 4).run(&list));
    });
    assert_eq!(first, other);
    assert_eq!(second, other);
}

#[test]
fn a_view_of_a_padded_image_keeps_its_rows() {
    let mut padded: Vec<Rgba8> = (0..13).map(|i| Rgba8::new(i, 0, 0, 255)).collect();
    let image = ImageMut::with_stride(&mut padded, 3, 3, 5);
    let mut copy = [COLOR; 9];
    let list = [Command::copy_image(WHOLE, image.as_image(), WHOLE)];
    assert_eq!(ImageMut::new(&mut copy, 3, 3).run(&list), Ok(()));
    for (i, pixel) in copy.iter().enumerate() {
        assert_eq!(usize::from(pixel.r), i / 3 * 5 + i % 3);
    }
}

#[test]
fn formats_have_their_sizes() {
    use Format::*;
    let all = [
        SRgba8, SRgba8p, Rgba8, Rgba8p, Bgra8, Bgra8p, Rgb8, Gray8, SBgra8, SBgra8p, SRgb8, SGray8,
    ];
    for (from, size) in all.into_iter().zip([4, 4, 4, 4, 4, 4, 3, 1, 4, 4, 3, 1]) {
        assert_eq!(from.size(), size);
        for to in all {
            let (src, mut dst) = (vec![255; 2 * from.size()], vec![7; 2 * to.size()]);
            assert_eq!(convert(from, &src, to, &mut dst), Ok(()));
            assert!(dst.iter().all(|byte| *byte == 255));
        }
    }
}

/// A list whose commands cross the borders of tiles.
fn crossing(sprite: &[Rgba8; 16]) -> [Command<'_, Rgba8>; 4] {
    let source = Image::new(sprite, 4, 4);
    [
        Command::copy_color(Region::new(-3, -3, 9, 20), Rgba8::new(0, 0, 9, 99)),
        Command::composite_image(Region::new(5, 2, 4, 4), source, WHOLE, Op::SrcOver),
        Command::composite_image(Region::new(-1, 9, 99, 99), source, WHOLE, Op::Xor),
        Command::composite_color(Region::new(3, 1, 7, 9), COLOR, Op::SrcAtop),
    ]
}

fn sprite() -> [Rgba8; 16] {
    core::array::from_fn(|i| Rgba8::new(i as u8, 0, 0, 100 + i as u8))
}

/// A picture of twelve columns and eleven rows that no two pixels share.
fn picture() -> Vec<Rgba8> {
    (0..132).map(|i| Rgba8::new(i, 0, i / 2, 200)).collect()
}

#[test]
fn tiles_are_the_picture_painted_whole() {
    let (sprite, mut whole) = (sprite(), picture());
    let list = crossing(&sprite);
    ImageMut::new(&mut whole, 12, 11).run(&list).unwrap();
    let mut tiles = picture();
    for (left, top) in [(6, 0), (0, 5), (0, 0), (6, 5)] {
        let (columns, rows) = (6, if top == 0 { 5 } else { 6 });
        let start = top as usize * 12 + left as usize;
        ImageMut::with_stride(&mut tiles[start..], columns, rows, 12)
            .run_window(left, top, &list)
            .unwrap();
    }
    assert_eq!(tiles, whole);
}

#[test]
fn threads_paint_bands_of_one_image() {
    let (sprite, mut whole) = (sprite(), picture());
    let list = crossing(&sprite);
    ImageMut::new(&mut whole, 12, 11).run(&list).unwrap();
    for rows in [0, 1, 3, 4, 11, u32::MAX] {
        let mut banded = picture();
        let mut image = ImageMut::new(&mut banded, 12, 11);
        thread::scope(|threads| {
            let painting: Vec<_> = image
                .bands(rows)
                .map(|(top, mut band)| threads.spawn(move || band.run_window(0, top, &list)))
                .collect();
            assert_eq!(painting.len() as u32, 11_u32.div_ceil(rows.clamp(1, 11)));
            for each in painting {
                assert_eq!(each.join().unwrap(), Ok(()));
            }
        });
        assert_eq!(banded, whole);
    }
}

#[test]
fn windows_are_tested() {
    let mut image = pixels();
    let far = [Command::copy_color(
        Region::new(i32::MAX - 4, 0, 9, 1),
        COLOR,
    )];
    for (left, top) in [(LONG - 4, 0), (0, LONG - 4), (u32::MAX, 0), (0, u32::MAX)] {
        let answer = ImageMut::new(&mut image, 4, 4).run_window(left, top, &far);
        assert_eq!(answer, Err(Error::Size));
    }
    let bad = Command::copy_color(Region::new(0, 0, LONG, 1), COLOR);
    let answer = ImageMut::new(&mut image, 4, 4).run_window(LONG - 5, 0, &[far[0], bad]);
    assert_eq!(answer, Err(Error::Region { index: 1 }));
    assert_eq!(image, pixels());
    assert_eq!(
        ImageMut::new(&mut image, 4, 4).run_window(LONG - 5, 0, &far),
        Ok(())
    );
    assert_eq!((image[0], image[3], image[4]), (COLOR, COLOR, pixels()[4]));
    let mut short = pixels();
    let answers: Vec<_> = ImageMut::new(&mut short[..15], 4, 4)
        .bands(2)
        .map(|(top, mut band)| band.run_window(0, top, &[Command::clear()]))
        .collect();
    assert_eq!(answers, [Ok(()), Err(Error::Size)]);
}

#[test]
fn windows_of_the_other_kinds() {
    let far = Region::new(7, 3, 1, 1);
    let mut wide = [Rgba16::new(1, 2, 3, 4); 4];
    let (one, dark) = (Rgba16::new(9, 9, 9, 9), Graya8::new(9, 9));
    let list = [Command::copy_color(far, one)];
    assert_eq!(
        ImageMut::new(&mut wide, 2, 2).run_window(6, 3, &list),
        Ok(())
    );
    assert_eq!(wide.map(|pixel| pixel.r), [1, 9, 1, 1]);
    let mut gray = [Graya8::new(1, 2); 4];
    let list = [Command::copy_color(far, dark)];
    assert_eq!(
        ImageMut::new(&mut gray, 2, 2).run_window(7, 2, &list),
        Ok(())
    );
    assert_eq!(gray.map(|pixel| pixel.value), [1, 1, 9, 1]);
}
