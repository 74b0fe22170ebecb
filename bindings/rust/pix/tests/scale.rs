//! Pictures at another size: each filter beside the sum that defines it, windows, strides, and what is refused.
#![forbid(unsafe_code)]

use pix::{Error, Filter, Graya8, Image, ImageMut, Pixel, Rgba8, Rgba16, scale, scale_work};
use std::thread;

type Size = (u32, u32);

/// A picture of this size, of pixels that differ.
fn picture<P>(size: Size, pixel: fn(u32) -> P) -> Vec<P> {
    (0..size.0 * size.1)
        .map(|i| pixel(i.wrapping_mul(0x9e37_79b1) >> 8))
        .collect()
}

fn color(i: u32) -> Rgba8 {
    let alpha = i as u8 | 7;
    let part = |c: u32| ((i >> c) as u8).min(alpha);
    Rgba8::new(part(3), part(6), part(9), alpha)
}

fn gray(i: u32) -> Graya8 {
    let alpha = i as u8;
    Graya8::new(((i / 2) as u8).min(alpha), alpha)
}

fn wide(i: u32) -> Rgba16 {
    Rgba16::new(i as u16, (i >> 4) as u16, (i >> 8) as u16, u16::MAX)
}

/// The weights of all places of a side for place `i` of another one, and what they add up to: by areas, and by the center
/// nearest to it.
fn weights(filter: Filter, from: u32, to: u32, i: u32) -> Vec<u64> {
    let (n, m, i) = (u64::from(from), u64::from(to), u64::from(i));
    let overlap = |j: u64| {
        ((i + 1) * n)
            .min((j + 1) * m)
            .saturating_sub((i * n).max(j * m))
    };
    let is_under = |j| u64::from(j == (2 * i + 1) * n / (2 * m));
    (0..n)
        .map(|j| {
            if filter == Filter::Area {
                overlap(j)
            } else {
                is_under(j)
            }
        })
        .collect()
}

/// The red of a pixel of the new picture.
fn red(filter: Filter, source: &[Rgba8], from: Size, size: Size, x: u32, y: u32) -> u8 {
    let (across, down) = (
        weights(filter, from.0, size.0, x),
        weights(filter, from.1, size.1, y),
    );
    let whole = across.iter().sum::<u64>() * down.iter().sum::<u64>();
    let sum: u64 = (0..source.len())
        .map(|i| {
            (
                i % from.0 as usize,
                i / from.0 as usize,
                u64::from(source[i].r),
            )
        })
        .map(|(u, v, r)| across[u] * down[v] * r)
        .sum();
    ((2 * sum + whole) / (2 * whole)) as u8
}

fn scaled<P: Pixel>(source: &[P], from: Size, size: Size, filter: Filter) -> Result<Vec<P>, Error> {
    let mut pixels = vec![P::default(); (size.0 * size.1) as usize];
    let mut work = vec![0; scale_work::<P>(size, size, from, filter)?];
    let mut image = ImageMut::new(&mut pixels, size.0, size.1);
    scale(
        &mut image,
        (0, 0),
        size,
        &Image::new(source, from.0, from.1),
        filter,
        &mut work,
    )?;
    Ok(pixels)
}

#[test]
fn a_pixel_is_one_rounding_of_the_sum() -> Result<(), Error> {
    for (from, size) in [
        ((7, 5), (3, 4)),
        ((5, 7), (12, 9)),
        ((6, 1), (4, 3)),
        ((1, 4), (1, 4)),
    ] {
        let source = picture(from, color);
        for filter in [Filter::Nearest, Filter::Area] {
            for (i, pixel) in scaled(&source, from, size, filter)?.iter().enumerate() {
                let (x, y) = (i as u32 % size.0, i as u32 / size.0);
                assert_eq!(
                    pixel.r,
                    red(filter, &source, from, size, x, y),
                    "{filter:?} {x} {y}"
                );
                assert!(pixel.r.max(pixel.g).max(pixel.b) <= pixel.a);
            }
        }
    }
    Ok(())
}

#[test]
fn the_same_size_is_the_picture() -> Result<(), Error> {
    let (size, half) = ((9, 6), (18, 12));
    for filter in Filter::ALL {
        assert_eq!(
            scaled(&picture(size, color), size, size, filter)?,
            picture(size, color)
        );
        assert_eq!(
            scaled(&picture(size, wide), size, size, filter)?,
            picture(size, wide)
        );
        assert_eq!(
            scaled(&picture(size, gray), size, size, filter)?,
            picture(size, gray)
        );
    }
    let twice = scaled(&picture(size, wide), size, half, Filter::Nearest)?;
    assert_eq!(
        twice,
        scaled(&picture(size, wide), size, half, Filter::Area)?
    );
    assert_eq!(
        scaled(&twice, half, size, Filter::Area)?,
        picture(size, wide)
    );
    Ok(())
}

#[test]
fn linear_is_between() -> Result<(), Error> {
    let dots = [Graya8::new(0, 255), Graya8::new(255, 255)];
    let row = scaled(&dots, (2, 1), (4, 1), Filter::Linear)?;
    assert_eq!(
        Vec::from_iter(row.iter().map(|p| p.value)),
        [0, 64, 191, 255]
    );
    assert_eq!(
        scaled(&dots, (2, 1), (1, 1), Filter::Linear)?,
        [Graya8::new(128, 255)]
    );
    Ok(())
}

#[test]
fn windows_and_bands_are_the_whole() -> Result<(), Error> {
    let (from, size) = ((13, 11), (37, 29));
    let source = picture(from, color);
    for filter in Filter::ALL {
        let whole = scaled(&source, from, size, filter)?;
        let mut banded = vec![Rgba8::default(); whole.len()];
        let mut image = ImageMut::new(&mut banded, size.0, size.1);
        thread::scope(|threads| {
            let made = Vec::from_iter(image.bands(8).map(|(top, mut band)| {
                let source = &source;
                threads.spawn(move || {
                    let read = Image::new(source, from.0, from.1);
                    let mut work = vec![0; scale_work::<Rgba8>((37, 8), size, from, filter)?];
                    scale(&mut band, (0, top), size, &read, filter, &mut work)
                })
            }));
            made.into_iter()
                .try_for_each(|each| each.join().expect("a thread that scales"))
        })?;
        assert_eq!(banded, whole);
        // A window of 5 by 4 in rows of 8, whose padding stays.
        let mut window = vec![Rgba8::new(1, 2, 3, 4); 3 * 8 + 5];
        let mut work = vec![0; scale_work::<Rgba8>((5, 4), size, from, filter)?];
        let mut image = ImageMut::with_stride(&mut window, 5, 4, 8);
        scale(
            &mut image,
            (30, 20),
            size,
            &Image::new(&source, from.0, from.1),
            filter,
            &mut work,
        )?;
        for (i, pixel) in window.iter().enumerate() {
            let at = (20 + i / 8) * 37 + 30 + i % 8;
            assert_eq!(
                *pixel,
                if i % 8 < 5 {
                    whole[at]
                } else {
                    Rgba8::new(1, 2, 3, 4)
                }
            );
        }
    }
    Ok(())
}

/// What a call with one other argument answers; it has written nothing then.
fn answer(
    window: Size,
    at: Size,
    size: Size,
    from: Size,
    strides: Size,
    words: usize,
) -> Result<(), Error> {
    let source = vec![Rgba8::new(9, 9, 9, 9); 64];
    let mut pixels = vec![Rgba8::default(); 16];
    let mut work = vec![0; words];
    let mut image = ImageMut::with_stride(&mut pixels, window.0, window.1, strides.0);
    let read = Image::with_stride(&source, from.0, from.1, strides.1);
    let answer = scale(&mut image, at, size, &read, Filter::Area, &mut work);
    assert!(answer.is_ok() || pixels.iter().all(|pixel| *pixel == Rgba8::default()));
    answer
}

#[test]
fn refusals_have_names() {
    let (four, eight, none) = ((4, 4), (8, 8), (0, 0));
    assert_eq!(answer(four, four, eight, eight, (4, 8), 999), Ok(()));
    assert_eq!(
        answer(four, none, (0, 8), eight, (4, 8), 999),
        Err(Error::NoSide)
    );
    assert_eq!(
        answer(four, none, eight, (8, 0), (4, 8), 999),
        Err(Error::NoSide)
    );
    assert_eq!(
        answer(four, none, eight, (65536, 1), (4, 65536), 999),
        Err(Error::TooLarge)
    );
    assert_eq!(
        answer(four, (5, 4), eight, eight, (4, 8), 999),
        Err(Error::Outside)
    );
    assert_eq!(
        answer(four, (4, u32::MAX), eight, eight, (4, 8), 999),
        Err(Error::Outside)
    );
    assert_eq!(
        answer(four, none, eight, eight, (3, 8), 999),
        Err(Error::Size)
    );
    assert_eq!(
        answer((4, 5), none, eight, eight, (4, 8), 999),
        Err(Error::Size)
    );
    assert_eq!(
        answer(four, none, eight, eight, (4, 9), 999),
        Err(Error::Picture)
    );
    assert_eq!(
        answer(four, none, eight, eight, (4, 8), 0),
        Err(Error::Work)
    );
    let work = |to, size, from| scale_work::<Rgba8>(to, size, from, Filter::Linear);
    assert_eq!(work(four, none, eight), Err(Error::NoSide));
    assert_eq!(work(four, eight, (1, 65536)), Err(Error::TooLarge));
    let needed = scale_work::<Rgba8>(four, eight, eight, Filter::Area).expect("a number of words");
    assert_eq!(
        answer(four, four, eight, eight, (4, 8), needed - 1),
        Err(Error::Work)
    );
    assert_eq!(
        Error::Outside.to_string(),
        "the window is not all in the new picture"
    );
}
