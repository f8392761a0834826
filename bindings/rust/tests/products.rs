//! Document 02's U3 on this processor: the products that the engine computes have the bits of the
//! quotients that document 01 names, and the computed cases of the pages `specs/Examples.antt` of
//! the crates `floats`, `single` and `spline` have the bits that the processor gives.
use std::hint::black_box;

/// x and its half, as bits.
const HALVES: [(u32, u32); 10] = [
    (1, 0),
    (3, 2),
    (0x007f_ffff, 0x0040_0000),
    (0x0080_0001, 0x0040_0000),
    (0x8000_0000, 0x8000_0000),
    (0x8000_0003, 0x8000_0002),
    (0x3f80_0001, 0x3f00_0001),
    (0x7f7f_ffff, 0x7eff_ffff),
    (0x7f80_0000, 0x7f80_0000),
    (0xff80_0000, 0xff80_0000),
];

/// x and its 256th, as bits.
const PARTS: [(u32, u32); 11] = [
    (0x80, 0),
    (0x81, 1),
    (0x180, 2),
    (0x03ff_ffff, 0x0040_0000),
    (0x0400_0001, 0x0040_0000),
    (0x8000_0000, 0x8000_0000),
    (0x8000_0180, 0x8000_0002),
    (0x3f80_0001, 0x3b80_0001),
    (0x7f7f_ffff, 0x7b7f_ffff),
    (0x7f80_0000, 0x7f80_0000),
    (0xff80_0000, 0xff80_0000),
];

/// A slope as it is stored, and the bits of its float.
const SLOPES: [(i16, u32); 9] = [
    (-32_768, 0xc300_0000),
    (-32_767, 0xc2ff_fe00),
    (-1, 0xbb80_0000),
    (0, 0),
    (1, 0x3b80_0000),
    (255, 0x3f7f_0000),
    (256, 0x3f80_0000),
    (257, 0x3f80_8000),
    (32_767, 0x42ff_fe00),
];

/// A true division: the compiler does not see the divisor, and makes no product of it.
fn quotient(x: f32, divisor: f32) -> u32 {
    (x / black_box(divisor)).to_bits()
}

fn same(bits: u32) {
    let x = f32::from_bits(bits);
    assert_eq!((x * 0.5).to_bits(), quotient(x, 2.0), "half of {bits:#010x}");
    assert_eq!((x * 0.00390625).to_bits(), quotient(x, 256.0), "256th of {bits:#010x}");
}

#[test]
fn the_bits_of_the_computed_cases() {
    for (x, half) in HALVES {
        assert_eq!(quotient(f32::from_bits(x), 2.0), half, "{x:#010x}");
    }
    for (x, part) in PARTS {
        assert_eq!(quotient(f32::from_bits(x), 256.0), part, "{x:#010x}");
    }
    for (slope, bits) in SLOPES {
        assert_eq!(quotient(f32::from(slope), 256.0), bits, "{slope}");
    }
    // 5 times the float nearest to a third is not 5 / 3
    assert_eq!((5.0 * black_box(1.0 / 3.0_f32)).to_bits(), 0x3fd5_5556);
    assert_eq!(quotient(5.0, 3.0), 0x3fd5_5555);
}

#[test]
fn a_product_has_the_bits_of_the_quotient() {
    HALVES.iter().chain(&PARTS).for_each(|(x, _)| same(*x));
    (0..=u32::MAX).step_by(4_099).for_each(same);
}

/// NaN and its bits too: `cargo test --release --test products -- --ignored`, half a minute.
#[test]
#[ignore = "all floats take half a minute"]
fn a_product_has_the_bits_of_the_quotient_of_every_float() {
    (0..=u32::MAX).for_each(same);
}
