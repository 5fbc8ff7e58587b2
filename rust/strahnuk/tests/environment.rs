//! The host's floating-point environment changes nothing, and stands afterwards.
use std::arch::asm;
use strahnuk::*;

const MASKS: u32 = 0x1F80;
const DOWNWARD: u32 = 0x2000;
const UPWARD: u32 = 0x4000;
const TOWARD_ZERO: u32 = 0x6000;
/// Flush to zero, and subnormals taken as zero.
const FLUSHED: u32 = 0x8040;
/// All six exceptions have happened before.
const STICKY: u32 = 0x003F;

/// Environments of hosts: every rounding, with traps on and off, with flushing, with sticky flags from earlier.
const ENVIRONMENTS: [u32; 9] = [
    MASKS,
    MASKS | DOWNWARD,
    MASKS | UPWARD,
    MASKS | TOWARD_ZERO,
    MASKS | FLUSHED,
    MASKS | STICKY | UPWARD,
    UPWARD,
    DOWNWARD | FLUSHED,
    0,
];

fn mxcsr() -> u32 {
    let mut value = 0_u32;
    // SAFETY: stmxcsr stores four bytes, and `value` has four.
    unsafe { asm!("stmxcsr [{}]", in(reg) &mut value, options(nostack, preserves_flags)) };
    value
}

fn set_mxcsr(value: u32) {
    // SAFETY: ldmxcsr reads four bytes, and `value` has four. What runs until the plain value is back does no arithmetic on floats.
    unsafe { asm!("ldmxcsr [{}]", in(reg) &value, options(nostack)) };
}

/// Runs `call` under this environment; gives what it gave and the environment that it left.
fn under<T>(environment: u32, call: impl FnOnce() -> T) -> (T, u32) {
    let was = mxcsr();
    set_mxcsr(environment);
    let result = call();
    let left = mxcsr();
    set_mxcsr(was);
    (result, left)
}

/// 0.1 x 10 by the processor: 1 to nearest, more than 1 upward. Whether the tests' way of setting rounding works at all.
fn rounds_upward() -> bool {
    let (mut product, ten) = (0.1_f64, 10.0_f64);
    // SAFETY: one multiplication of two registers.
    unsafe {
        asm!("mulsd {}, {}", inout(xmm_reg) product, in(xmm_reg) ten, options(nostack, nomem))
    };
    product.to_bits() > 1.0_f64.to_bits()
}

#[test]
fn rounding_is_really_set() {
    assert!(!rounds_upward());
    let (upward, left) = under(MASKS | UPWARD, rounds_upward);
    assert!(upward);
    assert_eq!(left & 0x3F, 0x20, "an inexact product leaves its flag, which the calls must not");
}

/// The tests of one kind, on hundredths: rounded otherwise, some would come back with other bits.
macro_rules! environments {
    ($kind:ident $float:ident $bits:ident $measure:ident $write_into:ident $read_into:ident
     $read_vector_into:ident $examine:ident $choose:ident) => {
        #[test]
        fn $kind() {
            let column = [0.1, 0.7, 1.23, 4.56, 7.89, 0.29, 1.1, 2.2].map($float::to_bits);
            let pairs = [Pair { exponent: 2, factor: 0 }];
            let call = || {
                let mut page = [0xA5; 200];
                let mut values: [$bits; 8] = [0; 8];
                let mut alone: [$bits; 8] = [0; 8];
                let measured = $measure(&column, 3, &pairs);
                let length = $write_into(&column, 3, &pairs, &mut page);
                let examined = $examine(&page[..length.unwrap_or(0)]);
                let count = $read_into(&page[..length.unwrap_or(0)], &mut values);
                let counted = $read_vector_into(&page[..length.unwrap_or(0)], 0, &mut alone);
                let chosen = $choose(&column);
                (page, values, alone, measured, length, examined, count, counted, chosen)
            };
            let plain = call();
            assert_eq!((plain.1, plain.2), (column, column));
            assert_eq!(plain.3, plain.4);
            assert_eq!(plain.5, Ok(8));
            for environment in ENVIRONMENTS {
                let (result, left) = under(environment, call);
                assert_eq!(result, plain, "under {:04X}", environment);
                assert_eq!(left, environment);
            }
        }
    };
}

environments!(of_32_bits f32 u32 measure32 write_into32 read_into32 read_vector_into32 examine32 choose32);
environments!(of_64_bits f64 u64 measure64 write_into64 read_into64 read_vector_into64 examine64 choose64);

#[test]
fn a_refusal_restores_too() {
    for environment in ENVIRONMENTS {
        let (result, left) = under(environment, || examine64(&[]));
        assert_eq!(result, Err(Refusal { row: Row::FewBytes, vector: 0, place: 0 }));
        assert_eq!(left, environment);
    }
}
