//! Each status of these declarations, as the archive answers it, and the kinds by what they do.

use pix_sys::{Command, Region, Rgba8, kind, pix_raw_convert, pix_raw_run_window, status};

const WHOLE: Region = Region::new(0, 0, 2, 1);

// How many there are, which is the first number without one.
// made by tools/names: counts
const KINDS: u32 = 8;
const OPERATORS: u32 = 13;
// made by tools/names: end

fn command(kind: u32) -> Command<Rgba8, u8> {
    static SOURCE: [Rgba8; 2] = [Rgba8::new(1, 2, 3, 255), Rgba8::new(4, 5, 6, 255)];
    static MATTES: [u8; 2] = [255, 0];
    Command {
        kind,
        op: 12,
        to: WHOLE,
        from: WHOLE,
        color: Rgba8::new(9, 8, 7, 255),
        pixels: SOURCE.as_ptr(),
        pixel_count: SOURCE.len(),
        mattes: MATTES.as_ptr(),
        matte_count: MATTES.len(),
        width: 2,
        height: 1,
        stride: 2,
        mask: WHOLE,
        mask_width: 2,
        mask_height: 1,
        mask_stride: 2,
        alpha: 51,
    }
}

/// What a command answers on an image of `width` pixels and one row in two pixels, and its red channels afterwards.
fn run(width: u32, command: Command<Rgba8, u8>) -> (u32, [u8; 2]) {
    let mut pixels = [Rgba8::new(100, 0, 0, 0); 2];
    let mut done = 0;
    // SAFETY: pointers and counts are those of an array, a command and the slices of `command`.
    let answer = unsafe {
        pix_raw_run_window(
            pixels.as_mut_ptr(),
            2,
            0,
            0,
            width,
            1,
            width,
            &command,
            1,
            &mut done,
        )
    };
    (answer, [pixels[0].r, pixels[1].r])
}

fn convert(from: u32, length: usize) -> u32 {
    let (src, mut dst) = ([0; 8], [0; 8]);
    // SAFETY: pointers and lengths are those of two arrays.
    unsafe { pix_raw_convert(from, 4, src.as_ptr(), length, dst.as_mut_ptr(), 8, 2) }
}

#[test]
fn statuses_are_those_of_the_archive() {
    let untouched = |status| (status, [100, 100]);
    let good = command(kind::COPY_IMAGE);
    assert_eq!(run(2, good), (status::OK, [1, 4]));
    assert_eq!(run(3, good), untouched(status::BAD_SIZE));
    assert_eq!(run(2, command(KINDS)), untouched(status::BAD_KIND));
    let mut wrong = good;
    wrong.to.width = 1 << 31;
    assert_eq!(run(2, wrong), untouched(status::BAD_REGION));
    wrong = good;
    wrong.op = OPERATORS;
    assert_eq!(run(2, wrong), untouched(status::BAD_OP));
    wrong = good;
    wrong.height = 2;
    assert_eq!(run(2, wrong), untouched(status::BAD_SOURCE));
    assert_eq!(convert(2, 8), status::OK);
    assert_eq!(convert(12, 8), status::BAD_FORMAT);
    assert_eq!(convert(2, 7), status::BAD_LENGTH);
}

#[test]
fn kinds_are_those_of_the_archive() {
    let reds = |kind| run(2, command(kind)).1;
    assert_eq!(reds(kind::CLEAR), [0, 0]);
    assert_eq!(reds(kind::COPY_COLOR), [9, 9]);
    assert_eq!(reds(kind::COPY_IMAGE), [1, 4]);
    assert_eq!(reds(kind::COMPOSITE_COLOR), [109, 109]);
    assert_eq!(reds(kind::COMPOSITE_IMAGE), [101, 104]);
    assert_eq!(reds(kind::COMPOSITE_MATTE), [109, 100]);
    assert_eq!(reds(kind::COMPOSITE_IMAGE_MATTE), [101, 100]);
    assert_eq!(reds(kind::COMPOSITE_IMAGE_ALPHA), [100, 101]);
}

#[test]
fn the_layout_is_that_of_the_archive() {
    assert!(pix_sys::is_as_declared());
}
