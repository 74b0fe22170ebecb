//! Masks of 8 bits on images of 16 bits a channel, beside masks of 16 with the same values.

use pix::{Command, Error, Image, ImageMut, Op, Region, Rgba16};

const WIDE: u32 = 7;
const HIGH: u32 = 5;
const POINTS: usize = 35;

fn values() -> Vec<u8> {
    (0..POINTS as u32).map(|i| (i * 73 % 256) as u8).collect()
}

fn words(values: &[u8]) -> Vec<u16> {
    values.iter().map(|value| u16::from(*value) * 257).collect()
}

fn pixels(by: u16) -> Vec<Rgba16> {
    let pixel = |i| Rgba16::new(i * by, i * 900, 7, 65535 - i * 1000);
    (0..POINTS as u16).map(pixel).collect()
}

/// The white of a color through each of the 256 values.
#[test]
fn each_value_is_that_part_of_the_maximum() -> Result<(), Error> {
    let values: Vec<u8> = (0..=255).collect();
    let (all, white) = (
        Region::new(0, 0, 256, 1),
        Rgba16::new(65535, 65535, 65535, 65535),
    );
    let mut row = [Rgba16::default(); 256];
    let mask = Image::new(&values, 256, 1);
    ImageMut::new(&mut row, 256, 1).run(&[Command::composite_matte8(
        all,
        mask,
        all,
        white,
        Op::Src,
    )])?;
    for (i, pixel) in row.iter().enumerate() {
        let part = (i * 65535 / 255) as u16;
        assert_eq!(*pixel, Rgba16::new(part, part, part, part));
    }
    Ok(())
}

/// All operators and arguments, in one list of both kinds of masks.
#[test]
fn a_mask_of_8_bits_is_one_of_16() -> Result<(), Error> {
    let (values, source) = (values(), pixels(800));
    let words = words(&values);
    let (to, from, part) = (
        Region::new(-1, 1, 6, 9),
        Region::new(1, 0, 9, 4),
        Region::new(2, 1, 5, 5),
    );
    let color = Rgba16::new(3000, 50000, 9, 60000);
    let photo = Image::new(&source, WIDE, HIGH);
    let bytes = Image::with_stride(&values[..33], 4, HIGH, WIDE);
    let wide = Image::with_stride(&words[..33], 4, HIGH, WIDE);
    for op in Op::ALL {
        let one = [
            Command::composite_matte(to, wide, from, color, op),
            Command::composite_image_matte(to, photo, from, wide, part, op),
            Command::composite_image_alpha(to, photo, part, 30000, Op::SrcOver),
        ];
        let (first, second) = (
            Command::composite_matte8(to, bytes, from, color, op),
            Command::composite_image_matte8(to, photo, from, bytes, part, op),
        );
        let mut wanted = pixels(300);
        ImageMut::new(&mut wanted, WIDE, HIGH).run(&one)?;
        for list in [
            [first, second, one[2]],
            [first, one[1], one[2]],
            [one[0], second, one[2]],
        ] {
            let mut got = pixels(300);
            ImageMut::new(&mut got, WIDE, HIGH).run(&list)?;
            assert_eq!(got, wanted, "{op:?}");
        }
    }
    Ok(())
}

/// A mask whose rows are not in its values refuses the list, and nothing is painted.
#[test]
fn a_short_mask_is_refused_with_its_index() {
    let (values, source) = (values(), pixels(800));
    let (all, color) = (Region::new(0, 0, WIDE, HIGH), Rgba16::new(1, 2, 3, 4));
    let (good, short) = (
        Image::new(&values, WIDE, HIGH),
        Image::new(&values[..34], WIDE, HIGH),
    );
    let photo = Image::new(&source, WIDE, HIGH);
    let clear = Command::composite_matte8(all, good, all, color, Op::Src);
    for refused in [
        Command::composite_matte8(all, short, all, color, Op::Src),
        Command::composite_image_matte8(all, photo, all, short, all, Op::Src),
    ] {
        let mut image = pixels(300);
        let answer = ImageMut::new(&mut image, WIDE, HIGH).run(&[clear, refused]);
        assert_eq!(answer, Err(Error::Source { index: 1 }));
        assert_eq!(image, pixels(300));
    }
}
