//! Paints the pictures of CALLING.md into the folder that it is run in: calling LAKE
//!
//! LAKE is pictures/lake.ppm. calling.c and calling.py paint the same pictures, byte by byte.
#![forbid(unsafe_code)]

use pix::{Bitmap, BitmapMut, Command, Error, Format, Image, ImageMut, Op, Pixel, Region};
use pix::{ColorTable, Filter, Rgba8, Rgba16, Srgb8, scale, scale_work};
use std::io::Write;

/// The letter P as a mask: each digit is a ninth of full coverage.
const LETTER: &[u8; 8 * 9] = b"99999720\
                               99003892\
                               99000299\
                               99000299\
                               99003892\
                               99999720\
                               99000000\
                               99000000\
                               99000000";

/// Makes a pixel to paint with from a color of sRGB, written as 0xRRGGBB.
fn srgb(color: u32) -> Result<Rgba8, Error> {
    let [_, red, green, blue] = color.to_be_bytes();
    Rgba8::color_of(Format::SRgba8, &[red, green, blue, 255])
}

/// Fills a picture with the color of the sky.
fn paint_sky(picture: &mut ImageMut<'_, Rgba8>) -> Result<(), Error> {
    let sky = Command::copy_color(Region::new(0, 0, 64, 36), srgb(0xA0D0F0)?);
    picture.run(&[sky])
}

/// Draws a ball into a sprite of 16 by 16 pixels, which is clear around it.
fn draw_ball(pixels: &mut [Rgba8]) -> Result<(), Error> {
    for (i, pixel) in (0..).zip(pixels) {
        let (x, y) = (2 * (i % 16) - 15, 2 * (i / 16) - 15);
        if x * x + y * y < 256 {
            *pixel = srgb(0xE07020)?;
        }
    }
    Ok(())
}

/// Composites a sprite over a picture, with its corner at (x, y). Any part of it may lie outside.
fn paste(
    picture: &mut ImageMut<'_, Rgba8>,
    sprite: Image<'_, Rgba8>,
    x: i32,
    y: i32,
) -> Result<(), Error> {
    let (to, all) = (Region::new(x, y, 16, 16), Region::new(0, 0, 16, 16));
    picture.run(&[Command::composite_image(to, sprite, all, Op::SrcOver)])
}

/// Draws a glyph in one color, with its corner at (x, y). Its mask has a byte for each pixel.
fn draw_glyph(
    picture: &mut ImageMut<'_, Rgba8>,
    glyph: Image<'_, u8>,
    (x, y): (i32, i32),
    ink: Rgba8,
) -> Result<(), Error> {
    let (to, all) = (Region::new(x, y, 8, 9), Region::new(0, 0, 8, 9));
    picture.run(&[Command::composite_matte(to, glyph, all, ink, Op::SrcOver)])
}

/// Composites a sprite at one opacity, from 0 (nothing) to 255 (all of it).
fn fade(
    picture: &mut ImageMut<'_, Rgba8>,
    sprite: Image<'_, Rgba8>,
    (x, y): (i32, i32),
    opacity: u8,
) -> Result<(), Error> {
    let (to, all) = (Region::new(x, y, 16, 16), Region::new(0, 0, 16, 16));
    picture.run(&[Command::composite_image_alpha(
        to,
        sprite,
        all,
        opacity,
        Op::SrcOver,
    )])
}

/// Lays a band over the middle of a photograph: sRGB bytes, three a pixel.
fn glaze(photo: &mut [u8], width: u32, height: u32) -> Result<(), Error> {
    let mut light = vec![Rgba16::default(); (width * height) as usize];
    let mut image = ImageMut::new(&mut light, width, height);
    let bytes = Bitmap::new(photo, width, height, Format::SRgb8);
    image.as_bitmap_mut().convert_bitmap(bytes)?;
    let band = Region::new(0, height as i32 / 3, width, height / 3);
    let half_white = Rgba16::color_of(Format::SRgba8, &[255, 255, 255, 128])?;
    image.run(&[Command::composite_color(band, half_white, Op::SrcOver)])?;
    BitmapMut::new(photo, width, height, Format::SRgb8).convert_bitmap(image.as_bitmap())
}

/// Makes a thumbnail of a photograph, both sRGB bytes, three a pixel: decodes them to light, scales
/// by areas, and encodes. Both sizes are (width, height).
fn make_thumbnail(photo: &[u8], from: (u32, u32), size: (u32, u32)) -> Result<Vec<u8>, Error> {
    let mut light = vec![Rgba16::default(); (from.0 * from.1) as usize];
    let mut means = vec![Rgba16::default(); (size.0 * size.1) as usize];
    let mut bytes = vec![0; 3 * means.len()];
    let mut work = vec![0; scale_work::<Rgba16>(size, size, from, Filter::Area)?];
    let mut large = ImageMut::new(&mut light, from.0, from.1);
    let mut small = ImageMut::new(&mut means, size.0, size.1);
    let photo = Bitmap::new(photo, from.0, from.1, Format::SRgb8);
    let mut thumbnail = BitmapMut::new(&mut bytes, size.0, size.1, Format::SRgb8);
    large.as_bitmap_mut().convert_bitmap(photo)?;
    let source = large.as_image();
    scale(&mut small, (0, 0), size, &source, Filter::Area, &mut work)?;
    thumbnail.convert_bitmap(small.as_bitmap())?;
    Ok(bytes)
}

/// Makes a table of at most 16 colors of a picture, and sets the index of each pixel in it.
fn index_picture<'a>(
    pixels: &[Srgb8],
    width: usize,
    room: &'a mut [Srgb8; 16],
    indices: &mut [u8],
) -> Result<ColorTable<'a>, Error> {
    let mut work = vec![Srgb8::default(); pixels.len()];
    let table = ColorTable::new(pix::quantize(pixels, &mut work, room)?)?;
    let mut work = vec![Srgb8::default(); 4 * width];
    table.diffuse_indexed(pixels, width, &mut work, indices)?;
    Ok(table)
}

/// Draws a list of commands on a picture of 64 by 36 pixels, a tile of 32 by 18 at a time.
fn draw_by_tiles(
    picture: &mut ImageMut<'_, Rgba8>,
    commands: &[Command<'_, Rgba8>],
) -> Result<(), Error> {
    let mut pixels = [Rgba8::default(); 32 * 18];
    for (left, top) in [(0, 0), (32, 0), (0, 18), (32, 18)] {
        ImageMut::new(&mut pixels, 32, 18).run_window(left, top, commands)?;
        let (place, all) = (
            Region::new(left as i32, top as i32, 32, 18),
            Region::new(0, 0, 32, 18),
        );
        picture.run(&[Command::copy_image(place, Image::new(&pixels, 32, 18), all)])?;
    }
    Ok(())
}

/// Writes sRGB bytes, three a pixel, as a PPM file.
fn write_ppm(name: &str, bytes: &[u8], width: u32, height: u32) -> std::io::Result<()> {
    let mut file = std::fs::File::create(name)?;
    write!(file, "P6\n{width} {height}\n255\n")?;
    file.write_all(bytes)
}

/// Encodes a picture of 64 by 36 pixels for a screen, and writes it as a PPM file.
fn save(picture: &ImageMut<'_, Rgba8>, name: &str) -> Result<(), Box<dyn std::error::Error>> {
    let mut bytes = [0; 3 * 64 * 36];
    BitmapMut::new(&mut bytes, 64, 36, Format::SRgb8).convert_bitmap(picture.as_bitmap())?;
    Ok(write_ppm(name, &bytes, 64, 36)?)
}

/// Reads the photograph, pictures/lake.ppm, of 160 by 100 pixels.
fn read_lake(name: &str) -> std::io::Result<Vec<u8>> {
    Ok(std::fs::read(name)?.split_off("P6\n160 100\n255\n".len()))
}

fn main() -> Result<(), Box<dyn std::error::Error>> {
    let (mut pixels, mut ball) = ([Rgba8::default(); 64 * 36], [Rgba8::default(); 16 * 16]);
    let mut picture = ImageMut::new(&mut pixels, 64, 36);
    draw_ball(&mut ball)?;
    let ball = Image::new(&ball, 16, 16);

    paint_sky(&mut picture)?;
    paste(&mut picture, ball, 24, 10)?;
    paste(&mut picture, ball, -6, 4)?;
    paste(&mut picture, ball, 56, 26)?;
    save(&picture, "paste.ppm")?;

    let mask = LETTER.map(|digit| (255 * u16::from(digit - b'0') / 9) as u8);
    let glyph = Image::new(&mask, 8, 9);
    paint_sky(&mut picture)?;
    draw_glyph(&mut picture, glyph, (10, 13), srgb(0x202040)?)?;
    draw_glyph(&mut picture, glyph, (28, 13), srgb(0xC02020)?)?;
    draw_glyph(&mut picture, glyph, (46, 13), srgb(0xFFFFFF)?)?;
    save(&picture, "glyph.ppm")?;

    paint_sky(&mut picture)?;
    for i in 0..4 {
        fade(&mut picture, ball, (16 * i, 10), 255 - 64 * i as u8)?;
    }
    save(&picture, "fade.ppm")?;

    let lake = std::env::args().nth(1).ok_or("calling LAKE")?;
    let mut photo = read_lake(&lake)?;
    glaze(&mut photo, 160, 100)?;
    write_ppm("light.ppm", &photo, 160, 100)?;

    let thumbnail = make_thumbnail(&read_lake(&lake)?, (160, 100), (64, 40))?;
    write_ppm("thumbnail.ppm", &thumbnail, 64, 40)?;

    let colors: Vec<Srgb8> = read_lake(&lake)?
        .chunks(3)
        .map(|p| Srgb8::new(p[0], p[1], p[2]))
        .collect();
    let (mut room, mut indices) = ([Srgb8::default(); 16], [0; 160 * 100]);
    let table = index_picture(&colors, 160, &mut room, &mut indices)?;
    let mut shown = vec![Srgb8::default(); 160 * 100];
    table.look_up(&indices, &mut shown)?;
    let bytes: Vec<u8> = shown.iter().flat_map(|p| [p.r, p.g, p.b]).collect();
    write_ppm("indexed.ppm", &bytes, 160, 100)?;

    let all = Region::new(0, 0, 16, 16);
    draw_by_tiles(
        &mut picture,
        &[
            Command::copy_color(Region::new(0, 0, 64, 36), srgb(0xA0D0F0)?),
            Command::composite_image(Region::new(24, 10, 16, 16), ball, all, Op::SrcOver),
            Command::composite_image(Region::new(-6, 4, 16, 16), ball, all, Op::SrcOver),
            Command::composite_image(Region::new(56, 26, 16, 16), ball, all, Op::SrcOver),
        ],
    )?;
    save(&picture, "tiles.ppm")
}
