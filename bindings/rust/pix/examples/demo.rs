//! Paints the picture of demo.c, and writes it as a PPM file: demo FILE
#![forbid(unsafe_code)]

use pix::{Bitmap, BitmapMut, Command, Error, Format, Image, ImageMut, Op, Region, Rgba16};

const WIDTH: u32 = 192;
const HEIGHT: u32 = 128;
const SUN: u32 = 48;
const LETTER: u32 = 32;
const LETTERS: u32 = 3;
const STEP: u32 = 14;
const SWATCHES: Region = Region::new(0, 0, STEP * Op::ALL.len() as u32, 12);

/// As many transparent pixels as an image of this size has.
fn blank(width: u32, height: u32) -> Vec<Rgba16> {
    vec![Rgba16::default(); (width * height) as usize]
}

/// The linear color of these channels of 8 bits, in 16.
fn color(r: u16, g: u16, b: u16, a: u16) -> Rgba16 {
    Rgba16::new(257 * r, 257 * g, 257 * b, 257 * a)
}

/// A disk that fades to its rim, decoded into light from sRGB with a straight alpha.
fn sun() -> Result<Vec<Rgba16>, Error> {
    let last = SUN as i32 - 1;
    let rim = last * last;
    let mut sprite = Vec::new();
    for y in 0..SUN as i32 {
        for x in 0..SUN as i32 {
            let (dx, dy) = (2 * x - last, 2 * y - last);
            let from_center = dx * dx + dy * dy;
            sprite.extend(if from_center < rim {
                [
                    255,
                    (220 - 120 * from_center / rim) as u8,
                    40,
                    ((rim - from_center) / 4).min(255) as u8,
                ]
            } else {
                [0; 4]
            });
        }
    }
    let mut pixels = blank(SUN, SUN);
    ImageMut::new(&mut pixels, SUN, SUN)
        .as_bitmap_mut()
        .convert_bitmap(Bitmap::new(&sprite, SUN, SUN, Format::SRgba8))?;
    Ok(pixels)
}

/// A mask of the letters P, I and X side by side, paler to the bottom.
fn letters() -> Vec<u16> {
    const ROWS: [[u8; 8]; LETTERS as usize] = [
        [0xFC, 0x66, 0x66, 0x7C, 0x60, 0x60, 0xF0, 0x00],
        [0x3C, 0x18, 0x18, 0x18, 0x18, 0x18, 0x3C, 0x00],
        [0xC6, 0xC6, 0x6C, 0x38, 0x6C, 0xC6, 0xC6, 0x00],
    ];
    let value = |x: u32, y: u32| {
        let row = ROWS[(x / LETTER) as usize][(8 * y / LETTER) as usize];
        let bit = 7 - 8 * (x % LETTER) / LETTER;
        if row >> bit & 1 == 1 {
            257 * (255 - 4 * y as u16)
        } else {
            0
        }
    };
    (0..LETTER)
        .flat_map(|y| (0..LETTERS * LETTER).map(move |x| value(x, y)))
        .collect()
}

/// Two squares for each operator: an orange one, and a blue one that is composited with its corner.
fn swatches() -> Result<Vec<Rgba16>, Error> {
    let mut pixels = blank(SWATCHES.width, SWATCHES.height);
    let mut list = Vec::new();
    for (op, x) in Op::ALL.into_iter().zip((0..).step_by(STEP as usize)) {
        list.push(Command::copy_color(
            Region::new(x, 0, 8, 8),
            color(160, 60, 0, 200),
        ));
        list.push(Command::composite_color(
            Region::new(x + 4, 4, 8, 8),
            color(0, 40, 140, 160),
            op,
        ));
    }
    ImageMut::new(&mut pixels, SWATCHES.width, SWATCHES.height).run(&list)?;
    Ok(pixels)
}

/// Paints the picture by one list.
fn picture() -> Result<Vec<Rgba16>, Error> {
    let (sun, letters, swatches) = (sun()?, letters(), swatches()?);
    let sun = Image::new(&sun, SUN, SUN);
    let letters = Image::new(&letters, LETTERS * LETTER, LETTER);
    let swatches = Image::new(&swatches, SWATCHES.width, SWATCHES.height);
    let whole_sun = Region::new(0, 0, SUN, SUN);
    let mut list = vec![Command::copy_color(
        Region::new(0, 0, WIDTH, HEIGHT),
        color(8, 12, 48, 255),
    )];
    for band in 0..10 {
        let reg = Region::new(-10, 40 + 7 * band, 400, 400);
        list.push(Command::composite_color(
            reg,
            color(20, 4, 0, 24),
            Op::SrcOver,
        ));
    }
    list.push(Command::composite_image(
        Region::new(160, -14, SUN, SUN),
        sun,
        whole_sun,
        Op::SrcOver,
    ));
    list.push(Command::composite_image(
        Region::new(-20, 76, SUN, SUN),
        sun,
        whole_sun,
        Op::Plus,
    ));
    for i in 0..LETTERS as i32 {
        let letter = Region::new(LETTER as i32 * i, 0, LETTER, LETTER);
        let (shade, light) = (color(0, 0, 0, 160), color(255, 240, 200, 255));
        for (x, y, ink) in [(41 + 42 * i, 44, shade), (38 + 42 * i, 41, light)] {
            let to = Region::new(x, y, LETTER, LETTER);
            list.push(Command::composite_matte(
                to,
                letters,
                letter,
                ink,
                Op::SrcOver,
            ));
        }
    }
    let to = Region::new(6, 110, SWATCHES.width, SWATCHES.height);
    list.push(Command::composite_image(
        to,
        swatches,
        SWATCHES,
        Op::SrcOver,
    ));
    let mut pixels = blank(WIDTH, HEIGHT);
    ImageMut::new(&mut pixels, WIDTH, HEIGHT).run(&list)?;
    Ok(pixels)
}

fn main() -> Result<(), Box<dyn std::error::Error>> {
    let pixels = picture()?;
    let mut encoded = vec![0; 3 * pixels.len()]; // it is opaque everywhere
    BitmapMut::new(&mut encoded, WIDTH, HEIGHT, Format::SRgb8)
        .convert_bitmap(Image::new(&pixels, WIDTH, HEIGHT).as_bitmap())?;
    let mut file = format!("P6\n{WIDTH} {HEIGHT}\n255\n").into_bytes();
    file.extend(encoded);
    std::fs::write(std::env::args().nth(1).unwrap_or("demo.ppm".into()), file)?;
    Ok(())
}
