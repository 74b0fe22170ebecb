//! Whether the processor and the archive are the ones that this crate was written for. It is tested once.

use crate::is_as_declared;
use core::fmt;
use core::sync::atomic::{AtomicU8, Ordering};

/// Why the archive must not be called.
#[derive(Clone, Copy, Debug, PartialEq, Eq)]
pub enum LibraryFault {
    /// The processor is neither x86-64 with SSE4.1 nor aarch64.
    Processor,
    /// The archive has another version or layout than this crate.
    Archive,
}

impl fmt::Display for LibraryFault {
    fn fmt(&self, f: &mut fmt::Formatter<'_>) -> fmt::Result {
        f.write_str(match self {
            LibraryFault::Processor => {
                "the library needs a processor of x86-64 with SSE4.1, or one of aarch64"
            }
            LibraryFault::Archive => {
                "libpix_c.a has another version or layout than the crate pix-sys"
            }
        })
    }
}

impl core::error::Error for LibraryFault {}

const UNKNOWN: u8 = 0;
const GOOD: u8 = 1;
const NO_PROCESSOR: u8 = 2;
const OTHER_ARCHIVE: u8 = 3;

static ANSWER: AtomicU8 = AtomicU8::new(UNKNOWN);

/// Tests whether this processor and the linked archive are the right ones. The functions of the archive test neither:
/// call this before you call them.
///
/// # Errors
///
/// `Processor` if the processor is another one. Otherwise `Archive` if the archive is another one.
#[inline]
pub fn check_library() -> Result<(), LibraryFault> {
    let mut answer = ANSWER.load(Ordering::Relaxed);
    if answer == UNKNOWN {
        answer = look(is_served, is_as_declared);
        ANSWER.store(answer, Ordering::Relaxed);
    }
    meaning(answer)
}

/// Tests the processor first, and the archive only if the processor is right, since the archive's code may need it.
fn look(is_served: fn() -> bool, is_as_declared: fn() -> bool) -> u8 {
    if !is_served() {
        NO_PROCESSOR
    } else if !is_as_declared() {
        OTHER_ARCHIVE
    } else {
        GOOD
    }
}

fn meaning(answer: u8) -> Result<(), LibraryFault> {
    match answer {
        GOOD => Ok(()),
        NO_PROCESSOR => Err(LibraryFault::Processor),
        _ => Err(LibraryFault::Archive),
    }
}

/// Whether the processor has the instructions that the archive was built for: SSE4.1 on x86-64.
#[cfg(target_arch = "x86_64")]
fn is_served() -> bool {
    // SAFETY: all processors of x86-64 have the instruction.
    #[allow(unused_unsafe)]
    let features = unsafe { core::arch::x86_64::__cpuid(1) };
    features.ecx & 1 << 19 != 0
}

/// All processors of aarch64 can run its archive. There is no archive for other processors, or for big-endian words.
#[cfg(not(target_arch = "x86_64"))]
fn is_served() -> bool {
    cfg!(all(target_arch = "aarch64", target_endian = "little"))
}

#[cfg(test)]
mod tests {
    use super::*;

    fn yes() -> bool {
        true
    }

    fn no() -> bool {
        false
    }

    #[test]
    fn another_processor_is_refused_before_the_archive_is_called() {
        let called = || -> bool { panic!("called") };
        assert_eq!(meaning(look(no, called)), Err(LibraryFault::Processor));
        assert_eq!(meaning(look(yes, no)), Err(LibraryFault::Archive));
        assert_eq!(meaning(look(yes, yes)), Ok(()));
        assert_eq!(check_library(), Ok(()));
    }
}
