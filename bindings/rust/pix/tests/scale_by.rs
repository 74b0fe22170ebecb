//! Pictures at another size by tables of the caller's own: means, mirrored pictures, the sum that defines a pixel, and what is
//! refused.
#![forbid(unsafe_code)]

use pix::{Error, Filter, Graya8, Image, ImageMut, Pixel, Rgba8, Rgba16, Weights};
use pix::{scale, scale_by, scale_by_work, scale_work};

type Size = (u32, u32);

fn color(i: u32) -> Rgba8 {
    let i = i.wrapping_mul(0x9e37_79b1) >> 8;
    let alpha = i as u8 | 7;
    let part = |c: u32| ((i >> c) as u8).min(alpha);
    Rgba8::new(part(3), part(6), part(9), alpha)
}

fn picture<P>(size: Size, pixel: fn(u32) -> P) -> Vec<P> {
    (0..size.0 * size.1).map(pixel).collect()
}

fn scaled<P: Pixel>(
    source: &[P],
    from: Size,
    across: Weights<'_>,
    down: Weights<'_>,
) -> Result<Vec<P>, Error> {
    let size = (across.firsts.len() as u32, down.firsts.len() as u32);
    let mut pixels = vec![P::default(); (size.0 * size.1) as usize];
    let mut work = vec![0; scale_by_work::<P>(size, from, across.taps, down.taps)?];
    let mut image = ImageMut::new(&mut pixels, size.0, size.1);
    let read = Image::new(source, from.0, from.1);
    scale_by(&mut image, &read, &across, &down, &mut work)?;
    Ok(pixels)
}

/// A table of `count` places of one weight each.
fn picked(firsts: &[u32]) -> Weights<'_> {
    const WHOLE: [i32; 64] = [16384; 64];
    Weights {
        firsts,
        taps: 1,
        weights: &WHOLE[..firsts.len()],
    }
}

#[test]
fn one_weight_picks_pixels() -> Result<(), Error> {
    let size = (9, 6);
    let (forth, back) = (Vec::from_iter(0..9), Vec::from_iter((0..9).rev()));
    let rows = Vec::from_iter(0..6);
    let source = picture(size, color);
    assert_eq!(
        scaled(&source, size, picked(&forth), picked(&rows))?,
        source
    );
    let mirrored = scaled(&source, size, picked(&back), picked(&rows))?;
    for (i, pixel) in mirrored.iter().enumerate() {
        assert_eq!(*pixel, source[i / 9 * 9 + 8 - i % 9]);
    }
    Ok(())
}

#[test]
fn equal_weights_are_means() -> Result<(), Error> {
    let (from, size) = ((8, 6), (4, 3));
    let firsts = [0, 2, 4, 6];
    let halves = |count: usize| Weights {
        firsts: &firsts[..count],
        taps: 2,
        weights: &[8192; 8][..2 * count],
    };
    let source = picture(from, |i| {
        Rgba16::new(i as u16, 77, (i * 999) as u16, u16::MAX)
    });
    let mut means = vec![Rgba16::default(); 12];
    let mut work = vec![0; scale_work::<Rgba16>(size, size, from, Filter::Area)?];
    let mut image = ImageMut::new(&mut means, 4, 3);
    let read = Image::new(&source, from.0, from.1);
    scale(&mut image, (0, 0), size, &read, Filter::Area, &mut work)?;
    assert_eq!(scaled(&source, from, halves(4), halves(3))?, means);
    Ok(())
}

#[test]
fn a_pixel_is_one_rounding_of_the_sum() -> Result<(), Error> {
    let (from, taps) = ((7, 5), 3);
    let source = picture(from, color);
    let firsts = [4, 0, 2, 1, 3];
    let weights = Vec::from_iter((0..5).flat_map(|i| [i * 2000, 16384 - i * 37, i * -1963]));
    let across = Weights {
        firsts: &firsts,
        taps,
        weights: &weights,
    };
    let down = Weights {
        firsts: &[2, 1],
        taps,
        weights: &[-4000, 20000, 384, 16384 + 8191, -8000, -191],
    };
    for (i, pixel) in scaled(&source, from, across, down)?.iter().enumerate() {
        let (x, y) = (i % 5, i / 5);
        let sum = |channel: fn(&Rgba8) -> u8| -> i64 {
            let places = (0..9).map(|k| (k % 3, k / 3));
            let terms = places.map(|(u, v)| {
                let at = (down.firsts[y] as usize + v) * 7 + firsts[x] as usize + u;
                let both = i64::from(weights[3 * x + u]) * i64::from(down.weights[3 * y + v]);
                both * i64::from(channel(&source[at]))
            });
            terms.sum()
        };
        let rounded = |sum: i64, top: i64| ((sum + (1 << 27)) >> 28).clamp(0, top);
        let alpha = rounded(sum(|p| p.a), 255);
        assert_eq!(i64::from(pixel.a), alpha);
        assert_eq!(i64::from(pixel.r), rounded(sum(|p| p.r), alpha));
        assert_eq!(i64::from(pixel.g), rounded(sum(|p| p.g), alpha));
        assert_eq!(i64::from(pixel.b), rounded(sum(|p| p.b), alpha));
    }
    Ok(())
}

/// What a call answers for a picture of 2 by 2 of one of 4 by 4; it has written nothing if it fails.
fn answer(firsts: &[u32], taps: u32, weights: &[i32], words: usize) -> Result<(), Error> {
    let source = [Graya8::new(9, 9); 16];
    let mut pixels = [Graya8::default(); 4];
    let mut work = vec![0; words];
    let across = Weights {
        firsts,
        taps,
        weights,
    };
    let down = picked(&[0, 3]);
    let mut image = ImageMut::new(&mut pixels, 2, 2);
    let read = Image::new(&source, 4, 4);
    let answer = scale_by(&mut image, &read, &across, &down, &mut work);
    assert!(answer.is_ok() || pixels == [Graya8::default(); 4]);
    answer
}

#[test]
fn refusals_have_names() {
    let bad = Err(Error::Weights);
    let (one, far) = ([8192; 4], [16384 + 8191, -8191, 16384, 0]);
    assert_eq!(answer(&[0, 2], 2, &one, 99), Ok(()));
    assert_eq!(answer(&[0, 2], 2, &far, 99), Ok(()));
    assert_eq!(answer(&[0, 3], 2, &one, 99), bad);
    assert_eq!(answer(&[u32::MAX, 0], 2, &one, 99), bad);
    assert_eq!(answer(&[0], 2, &one[..2], 99), bad);
    assert_eq!(answer(&[0, 2], 2, &one[..3], 99), bad);
    assert_eq!(answer(&[0, 2], 3, &one, 99), bad);
    assert_eq!(answer(&[0, 2], 0, &[], 99), bad);
    assert_eq!(answer(&[0, 2], 2, &[8192, 8192, 8192, 8193], 99), bad);
    assert_eq!(
        answer(&[0, 2], 2, &[16384 + 8192, -8192, 16384, 0], 99),
        bad
    );
    assert_eq!(
        answer(&[0, 2], 2, &[i32::MIN, i32::MIN + 16384, 16384, 0], 99),
        bad
    );
    let needed = scale_by_work::<Graya8>((2, 2), (4, 4), 2, 1).expect("a number of words");
    assert_eq!(answer(&[0, 2], 2, &one, needed), Ok(()));
    assert_eq!(answer(&[0, 2], 2, &one, needed - 1), Err(Error::Work));
    assert_eq!(answer(&[0, 2], 2, &[0; 4], needed - 1), bad);
    let work = |from, taps| scale_by_work::<Rgba8>((2, 2), from, taps, 1);
    assert_eq!(work((0, 4), 1), Err(Error::NoSide));
    assert_eq!(work((65536, 4), 1), Err(Error::TooLarge));
    assert_eq!(work((4, 4), 5), bad.map(|()| 0));
    let text =
        "a table of weights doesn't fit the image or the source, or a row of it doesn't add up";
    assert_eq!(Error::Weights.to_string(), text);
}
