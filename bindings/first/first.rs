use pix::{BitmapMut, Command, Format, Image, ImageMut, Op, Region, Rgba8};
use std::{error::Error, fs};

const WIDTH: u32 = 240;
const HEIGHT: u32 = 160;
const DISC: u32 = 96;

fn main() -> Result<(), Box<dyn Error>> {
    let mut pixels = vec![Rgba8::default(); (WIDTH * HEIGHT) as usize];
    let disc = Vec::from_iter((0..(DISC * DISC) as i32).map(|i| {
        let size = DISC as i32; // a mask: 255 within the disc, and less at its rim
        let (x, y) = (2 * (i % size) - size + 1, 2 * (i / size) - size + 1);
        ((size * size - x * x - y * y) / 2).clamp(0, 255) as u8
    }));
    let (mask, all) = (Image::new(&disc, DISC, DISC), Region::new(0, 0, DISC, DISC));
    let light = |x, y, color| {
        Command::composite_matte(Region::new(x, y, DISC, DISC), mask, all, color, Op::Plus)
    };
    let mut image = ImageMut::new(&mut pixels, WIDTH, HEIGHT);
    image.run(&[
        Command::copy_color(Region::new(0, 0, WIDTH, HEIGHT), Rgba8::new(3, 4, 16, 255)),
        light(72, 6, Rgba8::new(230, 30, 10, 255)),
        light(42, 58, Rgba8::new(10, 150, 40, 255)),
        light(102, 58, Rgba8::new(20, 60, 230, 255)),
    ])?;
    let mut bytes = vec![0; (3 * WIDTH * HEIGHT) as usize]; // from light to the bytes of a screen
    BitmapMut::new(&mut bytes, WIDTH, HEIGHT, Format::SRgb8).convert_bitmap(image.as_bitmap())?;
    let mut file = format!("P6\n{WIDTH} {HEIGHT}\n255\n").into_bytes();
    file.extend(&bytes);
    fs::write("first.ppm", file)?;
    println!("first.ppm: done");
    Ok(())
}
