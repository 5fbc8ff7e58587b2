//! The two kinds of floats, and the way from a value to a whole number and
//! back (document 01, "From a value to a whole number", with the fast rounding
//! of document 02's T-05, and the reading rule's sum as its T-06 has it).
//!
//! Values travel as bit patterns in a `u64` (the low 32 bits for the 32-bit
//! kind), whole numbers as `i64`. The arithmetic is Rust's own on `f32` and
//! `f64`: one IEEE multiplication, addition or subtraction, rounded once to
//! nearest, ties to even.

#[derive(Clone, Copy, PartialEq, Eq, Debug)]
pub enum Kind {
    Single,
    Double,
}

pub const KINDS: [Kind; 2] = [Kind::Single, Kind::Double];

/// A pair of exponent and factor that the rules allow: the factor is at most
/// the exponent, and that at most E.
#[derive(Clone, Copy, PartialEq, Eq, Debug)]
pub struct Pair {
    pub exponent: usize,
    pub factor: usize,
}

/// A way from a value to its whole number, for a kind, an exponent and a
/// factor; nothing if the value is an exception.
pub type Turn = fn(Kind, u64, usize, usize) -> Option<i64>;

/// 10^0 to 10^E, exact in their kind.
pub const TENS_32: [f32; 11] = [1e0, 1e1, 1e2, 1e3, 1e4, 1e5, 1e6, 1e7, 1e8, 1e9, 1e10];
pub const TENS_64: [f64; 19] = [
    1e0, 1e1, 1e2, 1e3, 1e4, 1e5, 1e6, 1e7, 1e8, 1e9, 1e10, 1e11, 1e12, 1e13, 1e14, 1e15, 1e16,
    1e17, 1e18,
];

/// 10^-0 to 10^-E, each the float nearest to it.
pub const TENTHS_32: [f32; 11] =
    [1e-0, 1e-1, 1e-2, 1e-3, 1e-4, 1e-5, 1e-6, 1e-7, 1e-8, 1e-9, 1e-10];
pub const TENTHS_64: [f64; 19] = [
    1e-0, 1e-1, 1e-2, 1e-3, 1e-4, 1e-5, 1e-6, 1e-7, 1e-8, 1e-9, 1e-10, 1e-11, 1e-12, 1e-13, 1e-14,
    1e-15, 1e-16, 1e-17, 1e-18,
];

/// L, the largest scaled magnitude: 2^31 - 128 and 2^63 - 1,024.
pub const LARGEST_32: f32 = 2_147_483_520.0;
pub const LARGEST_64: f64 = 9_223_372_036_854_774_784.0;

/// What the fast rounding adds and takes away again (004, section 4.3):
/// 2^22 + 2^23 and 2^51 + 2^52.
pub const ROUNDER_32: f32 = 12_582_912.0;
pub const ROUNDER_64: f64 = 6_755_399_441_055_744.0;

const NEGATIVE_ZERO_32: u32 = 0x8000_0000;
const NEGATIVE_ZERO_64: u64 = 0x8000_0000_0000_0000;

impl Kind {
    /// The kind's bits; also W, the largest width.
    pub fn bits(self) -> usize {
        match self {
            Kind::Single => 32,
            Kind::Double => 64,
        }
    }

    /// Bytes of a value, and of a frame.
    pub fn size(self) -> usize {
        self.bits() / 8
    }

    /// E, the largest exponent.
    pub fn largest_exponent(self) -> usize {
        match self {
            Kind::Single => 10,
            Kind::Double => 18,
        }
    }

    /// L; a 32-bit float is exact as a 64-bit one.
    pub fn largest(self) -> f64 {
        match self {
            Kind::Single => LARGEST_32.into(),
            Kind::Double => LARGEST_64,
        }
    }

    /// The constant of the fast rounding.
    pub fn rounder(self) -> f64 {
        match self {
            Kind::Single => ROUNDER_32.into(),
            Kind::Double => ROUNDER_64,
        }
    }

    /// The scaled value of a value.
    pub fn scaled(self, value: u64, exponent: usize, factor: usize) -> f64 {
        match self {
            Kind::Single => scaled_32(f32::from_bits(value as u32), exponent, factor).into(),
            Kind::Double => scaled_64(f64::from_bits(value), exponent, factor),
        }
    }

    /// The whole number of a value, or nothing if the value is an exception.
    /// Exponent and factor are at most E.
    pub fn whole(self, value: u64, exponent: usize, factor: usize) -> Option<i64> {
        match self {
            Kind::Single => whole_32(value as u32, exponent, factor).map(i64::from),
            Kind::Double => whole_64(value, exponent, factor),
        }
    }

    /// The value that a whole number comes back as.
    pub fn back(self, whole: i64, exponent: usize, factor: usize) -> u64 {
        match self {
            Kind::Single => u64::from(back_32(whole as i32, exponent, factor)),
            Kind::Double => back_64(whole, exponent, factor),
        }
    }

    /// The kind's bits read as signed, in two's complement.
    pub fn signed(self, bits: u64) -> i64 {
        match self {
            Kind::Single => i64::from(bits as u32 as i32),
            Kind::Double => bits as i64,
        }
    }

    /// The largest whole number of the kind's signed range, 2^(W-1) - 1. The
    /// smallest is -2^(W-1).
    pub fn most(self) -> i64 {
        i64::MAX >> (64 - self.bits())
    }

    /// The reading rule: frame plus field, or nothing if that leaves the kind's
    /// signed range. The sum is taken in a wider type, so that it can.
    pub fn plus(self, frame: i64, field: u64) -> Option<i64> {
        let sum = i128::from(frame) + i128::from(field);
        let most = i128::from(self.most());
        (-most - 1..=most).contains(&sum).then_some(sum as i64)
    }

    /// The float of this kind nearest to a 64-bit float.
    pub fn nearest(self, value: f64) -> u64 {
        match self {
            Kind::Single => u64::from((value as f32).to_bits()),
            Kind::Double => value.to_bits(),
        }
    }

    /// All bits of the kind set.
    pub fn mask(self) -> u64 {
        u64::MAX >> (64 - self.bits())
    }

    /// The sign bit of the kind.
    pub fn sign(self) -> u64 {
        1 << (self.bits() - 1)
    }
}

/// The scaled value, 32-bit: two products, each rounded once.
fn scaled_32(value: f32, exponent: usize, factor: usize) -> f32 {
    let scaled = value * TENS_32[exponent];
    scaled * TENTHS_32[factor]
}

/// The fast rounding, 32-bit: a sum and a difference, each rounded once in the
/// kind. Nothing else makes the number whole: a half may be left.
fn fast_32(scaled: f32) -> f32 {
    let sum = scaled + ROUNDER_32;
    sum - ROUNDER_32
}

/// The exception rule and the whole number, 32-bit.
fn whole_32(bits: u32, exponent: usize, factor: usize) -> Option<i32> {
    let value = f32::from_bits(bits);
    if value.is_nan() || value.is_infinite() || bits == NEGATIVE_ZERO_32 {
        return None;
    }
    let scaled = scaled_32(value, exponent, factor);
    if scaled.is_infinite() || scaled.abs() > LARGEST_32 {
        return None;
    }
    let rounded = fast_32(scaled);
    if rounded.abs() > LARGEST_32 {
        return None;
    }
    // `as` drops the fraction, if one is left.
    let whole = rounded as i32;
    // The bits are compared, not the floats: negative zero equals zero.
    if back_32(whole, exponent, factor) != bits {
        return None;
    }
    Some(whole)
}

/// The way back, 32-bit. `as` rounds to nearest, ties to even.
fn back_32(whole: i32, exponent: usize, factor: usize) -> u32 {
    let value = whole as f32 * TENS_32[factor];
    let value = value * TENTHS_32[exponent];
    value.to_bits()
}

/// The scaled value, 64-bit.
fn scaled_64(value: f64, exponent: usize, factor: usize) -> f64 {
    let scaled = value * TENS_64[exponent];
    scaled * TENTHS_64[factor]
}

/// The fast rounding, 64-bit.
fn fast_64(scaled: f64) -> f64 {
    let sum = scaled + ROUNDER_64;
    sum - ROUNDER_64
}

/// The exception rule and the whole number, 64-bit.
fn whole_64(bits: u64, exponent: usize, factor: usize) -> Option<i64> {
    let value = f64::from_bits(bits);
    if value.is_nan() || value.is_infinite() || bits == NEGATIVE_ZERO_64 {
        return None;
    }
    let scaled = scaled_64(value, exponent, factor);
    if scaled.is_infinite() || scaled.abs() > LARGEST_64 {
        return None;
    }
    let rounded = fast_64(scaled);
    if rounded.abs() > LARGEST_64 {
        return None;
    }
    let whole = rounded as i64;
    if back_64(whole, exponent, factor) != bits {
        return None;
    }
    Some(whole)
}

/// The way back, 64-bit.
fn back_64(whole: i64, exponent: usize, factor: usize) -> u64 {
    let value = whole as f64 * TENS_64[factor];
    let value = value * TENTHS_64[exponent];
    value.to_bits()
}

#[cfg(test)]
mod tests {
    use super::*;

    /// A positive float below 1 as mantissa and shift: mantissa / 2^shift.
    fn parts(bits: u64, fraction_bits: u32, bias: u32) -> (u128, u32) {
        let exponent = (bits >> fraction_bits) as u32;
        let fraction = bits & ((1 << fraction_bits) - 1);
        let mantissa = u128::from(fraction | (1 << fraction_bits));
        (mantissa, bias + fraction_bits - exponent)
    }

    /// |10^-k - m / 2^t| is less than half a unit of m, over whole numbers:
    /// 2 x |2^t - m x 10^k| < 10^k. No table entry is a power of two but 1.
    fn assert_nearest(k: u32, mantissa: u128, shift: u32) {
        let ten = 10u128.pow(k);
        let difference = (1u128 << shift).abs_diff(mantissa * ten);
        assert!(2 * difference < ten || difference == 0, "10^-{k}");
    }

    #[test]
    fn negative_powers_are_the_nearest_floats() {
        for (k, power) in TENTHS_32.iter().enumerate().skip(1) {
            let (mantissa, shift) = parts(u64::from(power.to_bits()), 23, 127);
            assert_nearest(k as u32, mantissa, shift);
        }
        for (k, power) in TENTHS_64.iter().enumerate().skip(1) {
            let (mantissa, shift) = parts(power.to_bits(), 52, 1023);
            assert_nearest(k as u32, mantissa, shift);
        }
        assert_eq!((TENTHS_32[0], TENTHS_64[0]), (1.0, 1.0));
    }

    #[test]
    fn positive_powers_are_exact() {
        for (k, power) in TENS_32.iter().enumerate() {
            assert_eq!(*power as u128, 10u128.pow(k as u32));
        }
        for (k, power) in TENS_64.iter().enumerate() {
            assert_eq!(*power as u128, 10u128.pow(k as u32));
        }
    }

    #[test]
    fn largest_magnitudes() {
        assert_eq!(LARGEST_32 as i64, (1 << 31) - 128);
        assert_eq!(LARGEST_64 as i128, (1 << 63) - 1024);
    }

    #[test]
    fn values_at_an_edge() {
        assert_eq!(Kind::Single.whole(0x43F0_F756, 5, 1), None);
        assert_eq!(Kind::Single.whole(0x49B5_237D, 2, 1), Some(14_838_876));
        assert_eq!(Kind::Double.whole(0x40A2_ACAD_871D_05B0, 13, 1), None);
    }

    #[test]
    fn exceptions_by_rule() {
        let single = |bits| Kind::Single.whole(bits, 0, 0);
        assert_eq!(single(0x7FC0_0000), None, "a NaN");
        assert_eq!(single(0xFF80_0001), None, "a NaN with sign and payload");
        assert_eq!(single(0x7F80_0000), None, "infinite");
        assert_eq!(single(0x8000_0000), None, "negative zero");
        assert_eq!(single(0x0000_0000), Some(0), "zero");
        assert_eq!(single(0x4EFF_FFFF), None, "L, which rounds to 2^31");
        assert_eq!(single(0xCEFF_FFFF), Some(-2_147_483_520), "-L");
        assert_eq!(single(0x4F00_0000), None, "2^31");
        assert_eq!(single(0xCF00_0000), None, "-2^31");
        let double = |bits| Kind::Double.whole(bits, 0, 0);
        assert_eq!(double(0x43DF_FFFF_FFFF_FFFF), None, "L, which rounds to 2^63");
        assert_eq!(double(0xC3DF_FFFF_FFFF_FFFF), Some(-i64::MAX + 1023), "-L");
        assert_eq!(double(0x43E0_0000_0000_0000), None, "2^63");
        assert_eq!(double(0xC3E0_0000_0000_0000), None, "-2^63");
    }

    #[test]
    fn rounders() {
        assert_eq!(ROUNDER_32 as i64, (1 << 22) + (1 << 23));
        assert_eq!(ROUNDER_64 as i64, (1 << 51) + (1 << 52));
    }

    /// The whole number of a value whose scaled value it is itself.
    fn single(value: f32) -> Option<i64> {
        Kind::Single.whole(value.to_bits().into(), 0, 0)
    }

    fn double(value: f64) -> Option<i64> {
        Kind::Double.whole(value.to_bits(), 0, 0)
    }

    #[test]
    fn the_sum_rounds_to_even_above_2_to_22() {
        let fast = |scaled| fast_32(scaled) as i64;
        assert_eq!([4_194_303.0, 4_194_304.0].map(fast), [4_194_303, 4_194_304]);
        assert_eq!([4_194_304.5, 4_194_305.0].map(fast), [4_194_304, 4_194_304], "down");
        assert_eq!([4_194_306.0, 4_194_307.0].map(fast), [4_194_306, 4_194_308], "up");
        assert_eq!([8_388_607.0, 8_388_608.0].map(fast), [8_388_608, 8_388_608], "at 2^23");
        assert_eq!([8_388_609.0, 8_388_611.0].map(fast), [8_388_608, 8_388_612], "above 2^23");
        assert_eq!(single(4_194_305.0), None);
        assert_eq!(single(4_194_306.0), Some(4_194_306));
        assert_eq!(single(8_388_607.0), None);
        assert_eq!(single(8_388_608.0), Some(8_388_608));
        assert_eq!(single(8_388_609.0), None);
        assert_eq!(single(16_777_214.0), Some(16_777_214), "2^24 - 2");
        assert_eq!(single(33_554_428.0), Some(33_554_428), "2^25 - 4");
        assert_eq!(single(33_554_430.0), None, "2^25 - 2");
    }

    #[test]
    fn the_sum_rounds_to_even_above_2_to_51() {
        let (low, high) = (2_251_799_813_685_248, 4_503_599_627_370_496);
        let fast = |scaled| fast_64(scaled) as i64 - low;
        assert_eq!([2_251_799_813_685_247.5, 2_251_799_813_685_248.0].map(fast), [0, 0]);
        assert_eq!([2_251_799_813_685_248.5, 2_251_799_813_685_249.0].map(fast), [0, 0]);
        assert_eq!([2_251_799_813_685_250.0, 2_251_799_813_685_251.0].map(fast), [2, 4]);
        assert_eq!(double(2_251_799_813_685_247.0), Some(low - 1));
        assert_eq!(double(2_251_799_813_685_249.0), None);
        assert_eq!(double(4_503_599_627_370_495.0), None, "2^52 - 1");
        assert_eq!(double(4_503_599_627_370_496.0), Some(high));
        assert_eq!(double(4_503_599_627_370_497.0), None, "2^52 + 1");
    }

    #[test]
    fn below_zero_a_half_may_be_left_and_is_dropped() {
        assert_eq!(fast_32(-4_194_303.5), -4_194_304.0, "to even, up to -2^22");
        assert_eq!(fast_32(-4_194_305.5), -4_194_305.5);
        assert_eq!(fast_32(-8_388_607.5), -8_388_607.5);
        assert_eq!(fast_64(-2_251_799_813_685_247.5), -2_251_799_813_685_248.0);
        assert_eq!(fast_64(-2_251_799_813_685_249.5), -2_251_799_813_685_249.5);
        // -524,288.94 and -303,235,023,958,211.94, times ten: a half is dropped
        // toward zero. The nearest even number does not come back.
        assert_eq!(Kind::Single.whole(0xC900_000F, 1, 0), Some(-5_242_889));
        assert_eq!(Kind::Double.whole(0xC2F1_3CA6_7E2F_0C3F, 1, 0), Some(-3_032_350_239_582_119));
        for value in [-4_194_303.0, -4_194_305.0, -8_388_607.0, -8_388_609.0, -16_777_215.0] {
            assert_eq!(single(value), Some(value as i64));
        }
        for value in [-2_251_799_813_685_249.0, -4_503_599_627_370_495.0, -4_503_599_627_370_497.0]
        {
            assert_eq!(double(value), Some(value as i64));
        }
    }

    #[test]
    fn a_rounded_magnitude_above_the_largest_is_an_exception() {
        assert_eq!(
            (fast_32(LARGEST_32), fast_64(LARGEST_64)),
            (f32::powi(2.0, 31), f64::powi(2.0, 63))
        );
        // A conversion that stops at the largest number of the kind would let
        // these come back.
        for (kind, value, exponent, factor) in
            [(Kind::Single, 0x4D4C_CCCC, 2, 1), (Kind::Double, 0x43A9_9999_9999_9999, 6, 5)]
        {
            assert_eq!(kind.scaled(value, exponent, factor), kind.largest());
            assert_eq!(kind.back(kind.most(), exponent, factor), value);
            assert_eq!(kind.whole(value, exponent, factor), None);
        }
    }

    #[test]
    fn values_that_come_back_from_a_number_that_is_not_nearest() {
        // 1,048,576.9, 83,886.234, 828,597,786,013,746.5, 867,930,790,695,762.9
        assert_eq!(Kind::Single.scaled(0x4980_0007, 1, 0), 10_485_769.0);
        assert_eq!(Kind::Single.whole(0x4980_0007, 1, 0), Some(10_485_768));
        assert_eq!(Kind::Single.scaled(0x47A3_D71E, 2, 0), 8_388_623.0);
        assert_eq!(Kind::Single.whole(0x47A3_D71E, 2, 0), Some(8_388_624));
        assert_eq!(Kind::Double.scaled(0x4307_8CD7_A593_8194, 1, 0), 8_285_977_860_137_465.0);
        assert_eq!(Kind::Double.whole(0x4307_8CD7_A593_8194, 1, 0), Some(8_285_977_860_137_464));
        assert_eq!(Kind::Double.scaled(0x4308_AB07_13C0_9A97, 1, 0), 8_679_307_906_957_629.0);
        assert_eq!(Kind::Double.whole(0x4308_AB07_13C0_9A97, 1, 0), Some(8_679_307_906_957_628));
    }

    #[test]
    fn frame_plus_field_stays_in_the_kind_or_is_nothing() {
        for (kind, most) in [(Kind::Single, i32::MAX.into()), (Kind::Double, i64::MAX)] {
            let (least, widest) = (-most - 1, kind.mask());
            assert_eq!(kind.plus(most, 0), Some(most));
            assert_eq!(kind.plus(most, 1), None);
            assert_eq!(kind.plus(most - 1, 1), Some(most));
            assert_eq!(kind.plus(most, widest), None);
            assert_eq!(kind.plus(-1, 2), Some(1));
            assert_eq!(kind.plus(-1, most as u64 + 1), Some(most));
            assert_eq!(kind.plus(-1, most as u64 + 2), None);
            assert_eq!(kind.plus(least, widest), Some(most));
            assert_eq!(kind.plus(least + 1, widest), None);
            assert_eq!(kind.plus(least, 0), Some(least));
        }
    }

    #[test]
    fn bits_read_as_signed() {
        assert_eq!(Kind::Single.signed(0xFFFF_FFFF), -1);
        assert_eq!(Kind::Single.signed(0x8000_0000), i32::MIN.into());
        assert_eq!(Kind::Single.signed(0x7FFF_FFFF), Kind::Single.most());
        assert_eq!(Kind::Double.signed(u64::MAX), -1);
        assert_eq!(Kind::Double.signed(1 << 63), i64::MIN);
        assert_eq!(Kind::Double.signed(u64::MAX >> 1), Kind::Double.most());
    }
}
