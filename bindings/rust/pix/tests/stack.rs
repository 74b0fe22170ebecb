//! Calls in threads of the stack that the crate's page names, less 8 KiB that are for a signal handler.

use pix::*;
use std::{hint::black_box, thread};

const KIB: usize = 1024;

/// Runs a call in a thread of so many KiB, of which 8 are taken. A thread that needs more ends the tests.
fn in_thread(kib: usize, call: fn() -> Result<(), Error>) {
    let taken = move || -> Result<(), Error> {
        let mut room = [0u8; 8 * KIB];
        black_box(&mut room);
        let answer = call();
        black_box(&mut room);
        answer
    };
    let thread = thread::Builder::new()
        .stack_size(kib * KIB)
        .spawn(taken)
        .expect("a thread");
    assert_eq!(thread.join().expect("a call"), Ok(()));
}

/// Colors that differ, so that each asks for a list of its own.
fn colors() -> Vec<Srgb8> {
    let mut random = 1u32;
    let next = |_| {
        random = random.wrapping_mul(1664525).wrapping_add(1013904223);
        Srgb8::new(
            (random >> 24) as u8,
            (random >> 16) as u8,
            (random >> 8) as u8,
        )
    };
    Vec::from_iter((0..9216).map(next))
}

fn shades() -> Vec<Srgba8> {
    Vec::from_iter(
        colors()
            .iter()
            .map(|c| Srgba8::new(c.r, c.g, c.b, c.r ^ c.b)),
    )
}

#[test]
fn tables_are_refined_and_matched_to() {
    in_thread(272, || {
        let (pixels, mut work, mut entries) = (colors(), colors(), [Srgb8::default(); 256]);
        let table = quantize_refined(&pixels, 2, &mut work, &mut entries)?;
        let mut indices = vec![0; pixels.len()];
        ColorTable::new(table)?.map_indexed(&pixels, &mut indices)?;
        ColorTable::new(table)?.diffuse_indexed(&pixels, 96, &mut work[..4 * 96], &mut indices)
    });
}

#[test]
fn tables_are_made() {
    in_thread(272, || {
        let (mut work, mut entries) = (colors(), [Srgb8::default(); 256]);
        quantize(&colors(), &mut work, &mut entries).map(|_| ())
    });
    in_thread(128, || {
        let (mut work, mut entries) = (shades(), [Srgba8::default(); 256]);
        quantize_rgba(&shades(), 2, &mut work, &mut entries).map(|_| ())
    });
}

#[test]
fn tables_with_alphas_are_matched_to() {
    in_thread(48, || {
        let (pixels, mut indices) = (shades(), vec![0; 9216]);
        let table = RgbaTable::new(&pixels[..256])?;
        table.map_indexed(&pixels, &mut indices)?;
        let mut work = vec![Srgba8::default(); 4 * 96];
        table.diffuse_indexed(&pixels, 96, Diffusion::default(), &mut work, &mut indices)
    });
}

#[test]
fn pictures_are_scaled() {
    in_thread(24, || {
        let source = vec![Rgba16::new(9, 99, 999, 9999); 96 * 96];
        let mut pixels = vec![Rgba16::default(); 96 * 96];
        for filter in Filter::ALL {
            for size in [(31, 17), (300, 200)] {
                let window = (31, 17);
                let mut work = vec![0; scale_work::<Rgba16>(window, size, (96, 96), filter)?];
                let mut image = ImageMut::new(&mut pixels, 31, 17);
                let from = Image::new(&source, 96, 96);
                scale(&mut image, (0, 0), size, &from, filter, &mut work)?;
            }
        }
        Ok(())
    });
}

#[test]
fn images_are_painted() {
    in_thread(24, || {
        let mut pixels = vec![Rgba16::default(); 96 * 96];
        let source = vec![Rgba16::new(9, 99, 999, 9999); 96 * 96];
        let (whole, image) = (Region::new(0, 0, 96, 96), Image::new(&source, 96, 96));
        Op::ALL.iter().try_for_each(|op| {
            let list = [Command::composite_image_alpha(
                whole, image, whole, 30000, *op,
            )];
            ImageMut::new(&mut pixels, 96, 96).run(&list)
        })
    });
}
