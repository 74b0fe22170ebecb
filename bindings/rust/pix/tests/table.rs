//! Tables of colors beside plain loops, and what is refused.

use pix::{
    ColorTable, DEFAULT_ROUNDS, Diffusion, Error, IndexDepth, RgbaTable, Srgb8, Srgba8,
    count_indices, diffuse_indexed_work, index_pixels, pack_row, quantize, quantize_alpha,
    quantize_refined, quantize_refined_alpha, quantize_rgba, unpack_row,
};

/// Bytes that look random.
fn bytes(seed: u32) -> impl FnMut() -> u8 {
    let mut state = seed;
    move || {
        state = state.wrapping_mul(1664525).wrapping_add(1013904223);
        (state >> 24) as u8
    }
}

fn distance(p: Srgb8, q: Srgb8) -> i32 {
    let square = |x: u8, y: u8| (i32::from(x) - i32::from(y)).pow(2);
    square(p.r, q.r) + square(p.g, q.g) + square(p.b, q.b)
}

#[test]
fn nearest_entries() {
    for (len, mask) in [(1, 255), (16, 0xc0), (255, 255), (256, 0xf0)] {
        let mut next = bytes(len as u32);
        let mut color = |mask: u8| Srgb8::new(next() & mask, next() & mask, next() & mask);
        let entries: Vec<Srgb8> = (0..len).map(|_| color(mask)).collect();
        let pixels: Vec<Srgb8> = (0..3000)
            .map(|i| color(if i % 2 == 0 { mask } else { 255 }))
            .collect();
        let table = ColorTable::new(&entries).unwrap();
        let mut indices = vec![9; pixels.len()];
        table.map_indexed(&pixels, &mut indices).unwrap();
        for (pixel, index) in pixels.iter().zip(&indices) {
            // min_by_key answers the first of equals.
            let plain = (0..len)
                .min_by_key(|at| distance(entries[*at], *pixel))
                .unwrap();
            assert_eq!(usize::from(*index), plain);
        }
        assert_eq!(table.nearest(pixels[0]), Ok(indices[0]));
        let with_alpha: Vec<Srgba8> = pixels
            .iter()
            .enumerate()
            .map(|(i, p)| Srgba8::new(p.r, p.g, p.b, (126 + i % 4) as u8))
            .collect();
        let mut with_clear = vec![9; pixels.len()];
        table
            .map_indexed_alpha(&with_alpha, 128, 77, &mut with_clear)
            .unwrap();
        for (i, index) in with_clear.iter().enumerate() {
            assert_eq!(*index, if i % 4 < 2 { 77 } else { indices[i] });
        }
        let mut back = vec![Srgb8::default(); pixels.len()];
        table.look_up(&indices, &mut back).unwrap();
        for (pixel, index) in back.iter().zip(&indices) {
            assert_eq!(*pixel, entries[usize::from(*index)]);
        }
    }
}

#[test]
fn indexed_pixels() {
    let gray = |v| Srgb8::new(v, v, v);
    let (mut entries, mut used, mut indices) = ([gray(77); 3], 0, [9; 4]);
    let pixels = [gray(10), gray(200), gray(13), gray(14)];
    // 13 is within 3 of 10, and 14 is not, so it is added.
    index_pixels(&mut entries, &mut used, gray(3), &pixels, &mut indices).unwrap();
    assert_eq!((entries, used), ([gray(10), gray(200), gray(14)], 3));
    assert_eq!(indices, [0, 1, 0, 2]);
    // 13 differs by 3 from entry 0 and by 1 from entry 2, which is the last candidate.
    index_pixels(
        &mut entries,
        &mut used,
        gray(3),
        &[gray(13)],
        &mut indices[..1],
    )
    .unwrap();
    assert_eq!(indices[0], 2);
    let before = (entries, used, indices);
    let mut all = [gray(5); 257];
    let more = [gray(10), gray(100)];
    for refused in [
        index_pixels(&mut entries, &mut used, gray(0), &more, &mut indices[..2])
            == Err(Error::Full),
        index_pixels(&mut entries, &mut used, gray(3), &pixels, &mut []) == Err(Error::Length),
        index_pixels(&mut entries[..2], &mut used, gray(3), &[], &mut []) == Err(Error::Length),
        index_pixels(&mut [], &mut used, gray(3), &[], &mut []) == Err(Error::Table),
        index_pixels(&mut all, &mut used, gray(3), &[], &mut []) == Err(Error::Table),
    ] {
        assert!(refused);
    }
    assert_eq!((entries, used, indices), before);
}

#[test]
fn tables_of_pixels() {
    let gray = |v| Srgb8::new(v, v, v);
    let mut work = [Srgb8::default(); 8];
    let mut entries = [gray(77); 4];
    let few = [gray(9), gray(1), gray(9), gray(200)];
    let made = quantize(&few, &mut work, &mut entries).unwrap();
    assert_eq!(made, [gray(9), gray(1), gray(200)]);
    assert!(quantize(&[], &mut [], &mut entries).unwrap().is_empty());
    // Cut between 1 and 200: 0, 0, 0 and 1 make 0, and 200, 201, 200, 201 make 201, since ties go up.
    let red = |v| Srgb8::new(v, 0, 0);
    let many = [0, 0, 0, 1, 200, 201, 200, 201].map(red);
    let made = quantize(&many, &mut work, &mut entries[..2]).unwrap();
    assert_eq!(made, [red(0), red(201)]);
    // Of three boxes the first two cost as much to join as the last two, and the first two are joined.
    let made = quantize(&[10, 20, 30].map(red), &mut work, &mut entries[..2]).unwrap();
    assert_eq!(made, [red(15), red(30)]);
    let clear = [Srgba8::new(1, 2, 3, 128), Srgba8::new(4, 5, 6, 127)];
    let made = quantize_alpha(&clear, 128, &mut work, &mut entries).unwrap();
    assert_eq!(made, [Srgb8::new(1, 2, 3)]);
    let made = quantize_alpha(&clear, 129, &mut work, &mut entries).unwrap();
    assert_eq!(made, []);
    let before = (work, entries);
    let mut none: [Srgb8; 0] = [];
    let mut large = [gray(5); 257];
    assert_eq!(quantize(&few, &mut work, &mut none), Err(Error::Table));
    assert_eq!(quantize(&few, &mut work, &mut large), Err(Error::Table));
    let short = quantize(&few, &mut work[..3], &mut entries);
    assert_eq!(short, Err(Error::Length));
    assert_eq!((work, entries), before);
}

#[test]
fn refined_tables() {
    let (gray, red) = (|v| Srgb8::new(v, v, v), |v| Srgb8::new(v, 0, 0));
    let mut work = [Srgb8::default(); 8];
    let mut entries = [gray(77); 4];
    let few = [gray(9), gray(1), gray(9), gray(200)];
    let made = quantize_refined(&few, 3, &mut work, &mut entries).unwrap();
    assert_eq!(made, [gray(9), gray(1), gray(200)]);
    // By hand: the joined boxes are 60, 70, 100 and 130, whose mean is 90, and 160 and 170. 130 is
    // nearer to 165, and goes there.
    let pixels = [130, 100, 160, 60, 170, 70].map(red);
    let by_default = quantize(&pixels, &mut work, &mut entries[..2]).unwrap();
    assert_eq!((by_default, DEFAULT_ROUNDS), (&[77, 153].map(red)[..], 6));
    let mut made = |rounds| {
        let made = quantize_refined(&pixels, rounds, &mut work, &mut entries[..2]);
        made.unwrap().to_vec()
    };
    assert_eq!(made(0), [90, 165].map(red));
    assert_eq!(made(1), [77, 153].map(red));
    assert_eq!(made(255), [77, 153].map(red));
    let alphas = [130, 100, 160, 60, 170, 70, 10];
    let alphas = alphas.map(|v| Srgba8::new(v, 0, 0, 50 + u8::from(v != 10)));
    let made = quantize_refined_alpha(&alphas, 51, 1, &mut work, &mut entries[..2]).unwrap();
    assert_eq!(made, [77, 153].map(red));
    let made = quantize_alpha(&alphas, 51, &mut work, &mut entries[..2]).unwrap();
    assert_eq!(made, [77, 153].map(red));
    let before = (work, entries);
    let mut large = [gray(5); 257];
    assert_eq!(
        quantize_refined(&few, 3, &mut work, &mut []),
        Err(Error::Table)
    );
    assert_eq!(
        quantize_refined(&few, 3, &mut work, &mut large),
        Err(Error::Table)
    );
    let short = quantize_refined(&few, 3, &mut work[..3], &mut entries);
    assert_eq!(short, Err(Error::Length));
    assert_eq!((work, entries), before);
}

/// By hand: 60, 70, 100 and 130 make 90, and 160 and 170 make 165, with an error of 3050 in a channel. With 130
/// beside 160 and 170 it is 1734, and no other parts have less. Rounds don't change that.
#[test]
fn least_tables_of_grays() {
    let gray = |v| Srgb8::new(v, v, v);
    let pixels = [130, 100, 160, 60, 170, 70].map(gray);
    let (mut work, mut entries) = ([gray(0); 6], [gray(0); 2]);
    for rounds in [0, 1, 255] {
        let made = quantize_refined(&pixels, rounds, &mut work, &mut entries).unwrap();
        let mut levels: Vec<u8> = made.iter().map(|color| color.g).collect();
        levels.sort_unstable();
        assert_eq!(levels, [77, 153]);
    }
}

#[test]
fn diffused_errors() {
    let gray = |v| Srgb8::new(v, v, v);
    let entries = [gray(0), gray(255)];
    let table = ColorTable::new(&entries).unwrap();
    let mut work = vec![gray(0); diffuse_indexed_work(4).unwrap()];
    let mut indices = [9; 4];
    // By hand: in black and a gray of 48 no error that is handed on is above 24. 255 is 48, so that 10 is 18 and black.
    let dark = [gray(0), gray(48)];
    let mut pair = [9; 2];
    ColorTable::new(&dark)
        .unwrap()
        .diffuse_indexed(&[gray(255), gray(10)], 2, &mut work[..8], &mut pair)
        .unwrap();
    assert_eq!(pair, [1, 0]);
    // 120 is black and hands on 7 sixteenths of it, of which 12 of 16 are passed on: 120 and 39.375 are 159, which is white; and
    // so on.
    table
        .diffuse_indexed(&[gray(120); 4], 4, &mut work, &mut indices)
        .unwrap();
    assert_eq!(indices, [0, 1, 0, 1]);
    let clear = [0, 255].map(|alpha| Srgba8::new(100, 100, 100, alpha));
    let mut two = [7; 2];
    let (width, alpha, transparent_index) = (2, 1, 9);
    table
        .diffuse_indexed_alpha(
            &clear,
            width,
            alpha,
            transparent_index,
            &mut work[..8],
            &mut two,
        )
        .unwrap();
    assert_eq!(two, [9, 0]);
    for (width, room, count) in [(0, 0, 4), (4, 15, 4), (4, 16, 3), (3, 12, 4)] {
        let refused = table.diffuse_indexed(
            &[gray(1); 4],
            width,
            &mut work[..room],
            &mut indices[..count],
        );
        assert_eq!(refused, Err(Error::Length));
    }
    assert_eq!(indices, [0, 1, 0, 1]);
    assert_eq!(diffuse_indexed_work(usize::MAX / 2), None);
}

#[test]
fn errors_diffused_in_a_way() {
    let gray = |v| Srgb8::new(v, v, v);
    let entries = [gray(0), gray(255)];
    let table = ColorTable::new(&entries).unwrap();
    let mut work = vec![gray(0); 8];
    let mut indices = [9; 4];
    let shades = [255, 255, 50, 255].map(|alpha| Srgba8::new(100, 100, 100, alpha));
    // By hand: two rows of two pixels, and the third of the four set apart by its alpha. Its row goes from right to left where
    // it is serpentine: the last pixel gets 100 - 555 sixteenths before it. With 8 of 16 it gets 100 + 610 sixteenths, halved.
    for (strength, serpentine, wanted) in [
        (16, false, [0, 1, 0, 0]),
        (16, true, [0, 1, 1, 0]),
        (8, true, [0, 0, 1, 0]),
        (0, true, [0, 0, 0, 0]),
    ] {
        let how = Diffusion {
            strength,
            serpentine,
        };
        table
            .diffuse_indexed_by(&[gray(100); 4], 2, how, &mut work, &mut indices)
            .unwrap();
        assert_eq!(indices, wanted);
        let (alpha, transparent_index) = (51, 7);
        table
            .diffuse_indexed_by_alpha(
                &shades,
                2,
                alpha,
                transparent_index,
                how,
                &mut work,
                &mut indices,
            )
            .unwrap();
        assert_eq!(indices, [0, wanted[1], 7, 0]);
    }
    // Of three pixels in a row that goes from right to left, the one on the left gets what the other two hand on.
    let (mut row, mut work) = ([9; 6], vec![gray(0); 12]);
    let pixels = [0, 0, 0, 120, 120, 120].map(|v| Srgba8::new(v, v, v, 255));
    let how = Diffusion {
        strength: 16,
        ..Diffusion::default()
    };
    assert_eq!(Diffusion::default().strength, 12);
    table
        .diffuse_indexed_by_alpha(&pixels, 3, 0, 0, how, &mut work, &mut row)
        .unwrap();
    assert_eq!(row, [0, 0, 0, 0, 1, 0]);
    let before = indices;
    let strong = Diffusion {
        strength: 17,
        ..how
    };
    let mut diffuse = |count: usize, width, how, indices: &mut [u8]| {
        table.diffuse_indexed_by(&[gray(1); 4][..count], width, how, &mut work[..8], indices)
    };
    assert_eq!(diffuse(4, 0, strong, &mut indices), Err(Error::Strength));
    assert_eq!(diffuse(3, 2, how, &mut indices[..3]), Err(Error::Length));
    assert_eq!(diffuse(4, 3, how, &mut indices), Err(Error::Length));
    assert_eq!(diffuse(4, 2, how, &mut indices[..3]), Err(Error::Length));
    let refused =
        table.diffuse_indexed_by_alpha(&shades, 2, 1, 2, strong, &mut work[..8], &mut indices);
    assert_eq!(refused, Err(Error::Strength));
    assert_eq!(indices, before);
}

/// How far two pixels are seen apart: over black, and over white.
fn seen_distance(p: Srgba8, q: Srgba8) -> i32 {
    let seen = |pixel: Srgba8, ground: i32| {
        [pixel.r, pixel.g, pixel.b].map(|v| {
            let product = (i32::from(v) * i32::from(pixel.a) + 127) / 255;
            product + ground * (255 - i32::from(pixel.a))
        })
    };
    let apart = |ground| {
        let (p, q) = (seen(p, ground), seen(q, ground));
        (0..3).map(|k| (p[k] - q[k]).pow(2)).sum::<i32>()
    };
    apart(0) + apart(1)
}

#[test]
fn tables_with_an_alpha() {
    for (len, mask) in [(1, 255), (16, 0xc0), (255, 255), (256, 0xf0)] {
        let mut next = bytes(len as u32 + 1);
        let mut pixel = |mask: u8| {
            let mut number = || next() & mask;
            Srgba8::new(number(), number(), number(), number())
        };
        let entries: Vec<Srgba8> = (0..len).map(|_| pixel(mask)).collect();
        let pixels: Vec<Srgba8> = (0..3000)
            .map(|i| pixel(if i % 2 == 0 { mask } else { 255 }))
            .collect();
        let table = RgbaTable::new(&entries).unwrap();
        let mut indices = vec![9; pixels.len()];
        table.map_indexed(&pixels, &mut indices).unwrap();
        for (pixel, index) in pixels.iter().zip(&indices) {
            // min_by_key answers the first of equals.
            let plain = (0..len).min_by_key(|at| seen_distance(entries[*at], *pixel));
            assert_eq!(Some(usize::from(*index)), plain);
        }
        let mut shown = vec![Srgba8::default(); pixels.len()];
        table.look_up(&indices, &mut shown).unwrap();
        for (pixel, index) in shown.iter().zip(&indices) {
            assert_eq!(*pixel, entries[usize::from(*index)]);
        }
        // Without strength, errors are not diffused.
        let (how, mut work) = (
            Diffusion {
                strength: 0,
                serpentine: true,
            },
            vec![pixels[0]; 400],
        );
        let mut diffused = vec![9; pixels.len()];
        table
            .diffuse_indexed(&pixels, 100, how, &mut work, &mut diffused)
            .unwrap();
        assert_eq!(diffused, indices);
    }
}

#[test]
fn opaque_tables_with_an_alpha() {
    let mut next = bytes(5);
    let colors: Vec<Srgb8> = (0..600)
        .map(|_| Srgb8::new(next(), next() / 2, next() / 4))
        .collect();
    let opaque = |c: &Srgb8| Srgba8::new(c.r, c.g, c.b, 255);
    let pixels: Vec<Srgba8> = colors.iter().map(opaque).collect();
    let (mut work, mut entries) = (vec![Srgb8::default(); 600], [Srgb8::default(); 31]);
    let (mut room, mut slots) = (vec![Srgba8::default(); 600], [Srgba8::default(); 31]);
    for rounds in [0, 1, 4] {
        let plain = quantize_refined(&colors, rounds, &mut work, &mut entries).unwrap();
        let made = quantize_rgba(&pixels, rounds, &mut room, &mut slots).unwrap();
        assert_eq!(made, plain.iter().map(opaque).collect::<Vec<_>>());
        let (table, with_alpha) = (
            ColorTable::new(plain).unwrap(),
            RgbaTable::new(made).unwrap(),
        );
        let (mut one, mut other) = ([0; 600], [1; 600]);
        for (strength, serpentine) in [(16, false), (16, true), (5, true), (11, false)] {
            let how = Diffusion {
                strength,
                serpentine,
            };
            table
                .diffuse_indexed_by(&colors, 30, how, &mut work[..120], &mut one)
                .unwrap();
            with_alpha
                .diffuse_indexed(&pixels, 30, how, &mut room[..120], &mut other)
                .unwrap();
            assert_eq!(one, other);
        }
    }
}

#[test]
fn tables_with_an_alpha_by_hand() {
    let mut work = [Srgba8::default(); 4];
    let mut entries = [Srgba8::new(7, 7, 7, 7); 4];
    let some = [(200, 128), (255, 255), (9, 0), (0, 0)].map(|(v, a)| Srgba8::new(v, v, v, a));
    // Clear pixels are seen alike, and the first of them is the entry.
    let made = quantize_rgba(&some, 0, &mut work, &mut entries).unwrap();
    assert_eq!(made, &some[..3]);
    // 200 at 128 is 100 over black and 227 over white, and so nearer to white than to black. With white it makes 178 at 192, which
    // is 236 before it is multiplied.
    let three = [(200, 128), (0, 255), (255, 255)].map(|(v, a)| Srgba8::new(v, v, v, a));
    let made = quantize_rgba(&three, 0, &mut work, &mut entries[..2]).unwrap();
    assert_eq!(
        made,
        [(0, 255), (236, 192)].map(|(v, a)| Srgba8::new(v, v, v, a))
    );
    // A clear pixel and an opaque white one make half of white.
    let made = quantize_rgba(&some[1..3], 0, &mut work, &mut entries[..1]).unwrap();
    assert_eq!(made, [Srgba8::new(255, 255, 255, 128)]);
    let before = (work, entries);
    let mut large = [some[0]; 257];
    let short = quantize_rgba(&some, 1, &mut work[..3], &mut entries);
    assert_eq!(short, Err(Error::Length));
    assert_eq!(
        quantize_rgba(&some, 1, &mut work, &mut []),
        Err(Error::Table)
    );
    assert_eq!(
        quantize_rgba(&some, 1, &mut work, &mut large),
        Err(Error::Table)
    );
    assert_eq!(RgbaTable::new(&[]).unwrap_err(), Error::Table);
    assert_eq!(RgbaTable::new(&large).unwrap_err(), Error::Table);
    let table = RgbaTable::new(&some[..2]).unwrap();
    assert_eq!(table.entries(), &some[..2]);
    let (mut indices, mut pixels) = ([2; 2], [some[3]; 2]);
    assert_eq!(table.map_indexed(&some, &mut indices), Err(Error::Length));
    assert_eq!(table.look_up(&[0, 2], &mut pixels), Err(Error::Index));
    assert_eq!(table.look_up(&[0], &mut pixels), Err(Error::Length));
    let strong = Diffusion {
        strength: 17,
        serpentine: false,
    };
    let refused = table.diffuse_indexed(&some[..2], 0, strong, &mut work, &mut indices);
    assert_eq!(refused, Err(Error::Strength));
    let turning = Diffusion {
        strength: 16,
        serpentine: true,
    };
    let refused = table.diffuse_indexed(&some[..2], 4, turning, &mut [some[0]; 16], &mut indices);
    assert_eq!(refused, Err(Error::Length));
    assert_eq!(
        (work, entries, indices, pixels),
        (before.0, before.1, [2; 2], [some[3]; 2])
    );
}

/// By hand: a table with a round that moves its entries.
#[test]
fn rounds_with_an_alpha() {
    let gray = |v| Srgba8::new(v, v, v, 255);
    let pixels = [130, 100, 160, 60, 170, 70].map(gray);
    let (mut work, mut entries) = ([gray(0); 6], [gray(0); 2]);
    for (rounds, wanted) in [(0, [90, 165]), (1, [77, 153]), (255, [77, 153])] {
        let made = quantize_rgba(&pixels, rounds, &mut work, &mut entries).unwrap();
        assert_eq!(made, wanted.map(gray));
    }
}

#[test]
fn rows_of_indices() {
    for depth in [
        IndexDepth::One,
        IndexDepth::Two,
        IndexDepth::Four,
        IndexDepth::Eight,
    ] {
        let bits = depth as usize;
        for count in 0..40 {
            let mut next = bytes(count as u32);
            let indices: Vec<u8> = (0..count).map(|_| next() >> (8 - bits)).collect();
            let mut row = vec![0x5a; depth.row_size(count)];
            pack_row(depth, &indices, &mut row).unwrap();
            let spelled = row
                .iter()
                .map(|byte| format!("{byte:08b}"))
                .collect::<String>();
            let wanted = indices
                .iter()
                .map(|index| format!("{index:0bits$b}"))
                .collect::<String>();
            assert_eq!(spelled, format!("{wanted:0<width$}", width = row.len() * 8));
            let mut back = vec![0x5a; count];
            unpack_row(depth, &row, &mut back).unwrap();
            assert_eq!(back, indices);
        }
    }
}

#[test]
fn counts() {
    let mut counts = [9; 4];
    count_indices(&[3, 0, 3], &mut counts).unwrap();
    assert_eq!(counts, [1, 0, 0, 2]);
    assert_eq!(count_indices(&[4], &mut counts), Err(Error::Index));
    assert_eq!(counts, [1, 0, 0, 2]);
}

#[test]
fn what_is_refused_changes_nothing() {
    let entries = [Srgb8::new(1, 2, 3); 257];
    assert_eq!(ColorTable::new(&[]).unwrap_err(), Error::Table);
    assert_eq!(ColorTable::new(&entries).unwrap_err(), Error::Table);
    let table = ColorTable::new(&entries[..2]).unwrap();
    let (mut indices, mut pixels) = ([9; 2], [Srgb8::default(); 2]);
    assert_eq!(
        table.map_indexed(&entries[..3], &mut indices),
        Err(Error::Length)
    );
    assert_eq!(table.look_up(&[0, 2], &mut pixels), Err(Error::Index));
    assert_eq!(table.look_up(&[0], &mut pixels), Err(Error::Length));
    assert_eq!(
        pack_row(IndexDepth::Four, &[1, 16], &mut indices[..1]),
        Err(Error::Index)
    );
    assert_eq!(
        pack_row(IndexDepth::Four, &[1, 2, 3], &mut indices[..1]),
        Err(Error::Length)
    );
    assert_eq!(
        unpack_row(IndexDepth::Two, &[1, 2], &mut indices),
        Err(Error::Length)
    );
    assert_eq!((indices, pixels), ([9; 2], [Srgb8::default(); 2]));
}
