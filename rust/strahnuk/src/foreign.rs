//! The archive's calls, and the only `unsafe` code of the crate: each call is lent what Rust's slices say, in a plain floating-point
//! environment.
use crate::Pair;
use std::arch::asm;
use std::slice;

/// What every call answers, as the archive lays it out: three numbers, 0 first for done.
#[repr(C)]
pub(crate) struct Answer {
    pub(crate) number: u64,
    pub(crate) vector: u64,
    pub(crate) place: u64,
}

/// What choosing answers: the answer as of every call, and the pair.
#[repr(C)]
pub(crate) struct Choice {
    pub(crate) answer: Answer,
    pub(crate) exponent: u8,
    pub(crate) factor: u8,
}

/// MXCSR as at the start of a program: to nearest, every exception masked, subnormals kept, no sticky flag. The proofs take it so.
const PLAIN: u32 = 0x1F80;

/// The plain floating-point environment for as long as this lives; then the caller's comes back, its sticky flags too.
///
/// Rust itself takes the environment to be the plain one, so this sets nothing that the compiler doesn't count on. A host in another
/// language may still call with directed rounding or traps.
struct PlainFloats {
    was: u32,
}

impl PlainFloats {
    fn enter() -> PlainFloats {
        let mut was: u32 = 0;
        // SAFETY: stmxcsr stores four bytes, and `was` has four that nothing else refers to.
        unsafe { asm!("stmxcsr [{}]", in(reg) &mut was, options(nostack, preserves_flags)) };
        // SAFETY: this is the environment that Rust itself takes for granted.
        unsafe { set_mxcsr(PLAIN) };
        PlainFloats { was }
    }
}

impl Drop for PlainFloats {
    fn drop(&mut self) {
        // SAFETY: MXCSR held this value when the call began, so it can be loaded, and nothing is set that was not so before.
        unsafe { set_mxcsr(self.was) };
    }
}

/// Loads `value` into MXCSR.
///
/// # Safety
/// `value` has no reserved bit, which would fault, and the code that runs under it can stand its rounding and its traps.
unsafe fn set_mxcsr(value: u32) {
    // SAFETY: ldmxcsr reads four bytes, and `value` has four. It changes the exception flags, so `preserves_flags` is not said; and it
    // may touch memory for all the compiler knows, so no call moves past it.
    unsafe { asm!("ldmxcsr [{}]", in(reg) &value, options(nostack)) };
}

/// The pairs as the archive takes them: two bytes per vector, exponent then factor.
fn bytes_of(pairs: &[Pair]) -> &[u8] {
    // SAFETY: `Pair` is two `u8` in C's layout, so it has size 2, alignment 1 and no padding; and a slice of pairs has at most
    // `isize::MAX` bytes, so twice its length is its size in bytes and doesn't overflow.
    unsafe { slice::from_raw_parts(pairs.as_ptr().cast(), pairs.len() * 2) }
}

/// Declares the six calls of one kind as crates/abi exports them, and a safe function over each.
macro_rules! calls {
    ($bits:ty: $measure:ident $alp_measure:ident, $write:ident $alp_write:ident, $read:ident $alp_read:ident,
     $read_vector:ident $alp_read_vector:ident, $examine:ident $alp_examine:ident, $choose:ident $alp_choose:ident) => {
        #[link(name = "abi", kind = "static")]
        extern "C" {
            fn $alp_measure(
                values: *const $bits,
                values_length: usize,
                s: u8,
                pairs: *const u8,
                pairs_length: usize,
            ) -> Answer;
            fn $alp_write(
                values: *const $bits,
                values_length: usize,
                s: u8,
                pairs: *const u8,
                pairs_length: usize,
                out: *mut u8,
                out_length: usize,
            ) -> Answer;
            fn $alp_read(
                page: *const u8,
                page_length: usize,
                out: *mut $bits,
                out_length: usize,
            ) -> Answer;
            fn $alp_read_vector(
                page: *const u8,
                page_length: usize,
                number: usize,
                out: *mut $bits,
                out_length: usize,
            ) -> Answer;
            fn $alp_examine(page: *const u8, page_length: usize) -> Answer;
            fn $alp_choose(values: *const $bits, values_length: usize) -> Choice;
        }

        pub(crate) fn $measure(values: &[$bits], s: u8, pairs: &[Pair]) -> Answer {
            let pairs = bytes_of(pairs);
            let _floats = PlainFloats::enter();
            // SAFETY: each pointer is a slice's, with its length; the archive reads no further and writes nothing.
            unsafe { $alp_measure(values.as_ptr(), values.len(), s, pairs.as_ptr(), pairs.len()) }
        }

        pub(crate) fn $write(values: &[$bits], s: u8, pairs: &[Pair], out: &mut [u8]) -> Answer {
            let pairs = bytes_of(pairs);
            let _floats = PlainFloats::enter();
            // SAFETY: each pointer is a slice's, with its length; `out` is borrowed mutably, so it overlaps nothing else.
            unsafe {
                $alp_write(
                    values.as_ptr(),
                    values.len(),
                    s,
                    pairs.as_ptr(),
                    pairs.len(),
                    out.as_mut_ptr(),
                    out.len(),
                )
            }
        }

        pub(crate) fn $read(page: &[u8], out: &mut [$bits]) -> Answer {
            let _floats = PlainFloats::enter();
            // SAFETY: each pointer is a slice's, with its length; `out` is borrowed mutably, so it overlaps nothing else.
            unsafe { $alp_read(page.as_ptr(), page.len(), out.as_mut_ptr(), out.len()) }
        }

        pub(crate) fn $read_vector(page: &[u8], number: usize, out: &mut [$bits]) -> Answer {
            let _floats = PlainFloats::enter();
            // SAFETY: each pointer is a slice's, with its length; `out` is borrowed mutably, so it overlaps nothing else.
            unsafe {
                $alp_read_vector(page.as_ptr(), page.len(), number, out.as_mut_ptr(), out.len())
            }
        }

        pub(crate) fn $examine(page: &[u8]) -> Answer {
            let _floats = PlainFloats::enter();
            // SAFETY: the pointer is a slice's, with its length; the archive reads no further and writes nothing.
            unsafe { $alp_examine(page.as_ptr(), page.len()) }
        }

        pub(crate) fn $choose(values: &[$bits]) -> Choice {
            let _floats = PlainFloats::enter();
            // SAFETY: the pointer is a slice's, with its length; the archive reads no further and writes nothing.
            unsafe { $alp_choose(values.as_ptr(), values.len()) }
        }
    };
}

calls!(u32: measure32 alp_measure32, write32 alp_write32, read32 alp_read32, read_vector32 alp_read_vector32,
    examine32 alp_examine32, choose32 alp_choose32);
calls!(u64: measure64 alp_measure64, write64 alp_write64, read64 alp_read64, read_vector64 alp_read_vector64,
    examine64 alp_examine64, choose64 alp_choose64);
