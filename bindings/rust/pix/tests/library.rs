//! That the right library is taken, and another one refused: linked with `bindings/c/other.c`, where `PIX_OTHER_FACT` of
//! the environment is the number of the fact that is another one. It is tested once in a process, so each has its own.
#![forbid(unsafe_code)]

use pix::{Command, Error, Format, ImageMut, Rgba8, convert};

#[test]
fn another_library_is_refused() {
    let wanted = match std::env::var_os("PIX_OTHER_FACT") {
        Some(_) => Err(Error::Library),
        None => Ok(()),
    };
    for _ in 0..2 {
        let mut pixels = [Rgba8::new(1, 2, 3, 4); 4];
        let answer = ImageMut::new(&mut pixels, 2, 2).run(&[Command::clear()]);
        assert_eq!(answer, wanted);
        assert_eq!(pixels[3].r, u8::from(wanted.is_err()));
        let mut bytes = [7; 3];
        let answer = convert(Format::Rgba8, &[1, 2, 3, 4], Format::Rgb8, &mut bytes);
        assert_eq!(answer, wanted);
        assert_eq!(bytes[0], if wanted.is_err() { 7 } else { 1 });
    }
    assert_eq!(
        Error::Library.to_string(),
        "libpix_c.a has another version or layout than the crate pix-sys"
    );
    assert_eq!(
        Error::Processor.to_string(),
        "the library needs a processor of x86-64 with SSE4.1, or one of aarch64"
    );
}
