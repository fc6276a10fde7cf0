//! Prints what the reference's functions give, a line for each input: the function, the input or the two, the output, all as bits.
//! A NaN is printed as 0x7fc0_0000, whatever its sign and payload. The functions from `min` on are Rust's own of f32.
//! A line that starts with `open` is no outside value: the sign of its zero is open in Rust, or another by our decision.

use crate::math;
use std::hint::black_box;

const NAN: u32 = 0x7fc0_0000;

const FLOOR: [u32; 30] = [
    NAN,
    0x7f80_0000, // +inf
    0xff80_0000, // -inf
    0x0000_0000, // +0
    0x8000_0000, // -0
    0x0000_0001, // the smallest subnormal
    0x8000_0001,
    0x807f_ffff, // the largest subnormal, negative
    0x7f7f_ffff, // the largest finite number
    0x4eff_fffb, // 2147483008, which the literal 2147483000 stands for, and neighbours
    0xceff_fffb,
    0x4eff_fffc,
    0xceff_fffa,
    0x4aff_ffff, // 8388607.5
    0xcaff_ffff,
    0x4b00_0000, // 8388608
    0xcb00_0000,
    0xbf00_0000, // -0.5
    0xb089_705f, // -1e-9
    0x3f7f_ffff, // 0.99999994
    0x3f80_0000, // 1
    0xbf80_0000, // -1
    0xbe80_0000, // -0.25
    0xc020_0000, // -2.5
    0xc040_0000, // -3
    0x40ff_f7cf, // 7.999
    0x4a80_0001, // 4194304.5
    0xca80_0001,
    0x4b00_0001, // 8388609
    0xcb00_0001,
];

const FRACT: [u32; 20] = [
    NAN,
    0x7f80_0000, // +inf
    0xff80_0000, // -inf
    0x0000_0000, // +0
    0x8000_0000, // -0
    0x0000_0001, // the smallest subnormal
    0x8000_0001,
    0x0080_0000, // the smallest normal number
    0x7f7f_ffff, // the largest finite number
    0x4aff_ffff, // 8388607.5
    0xcaff_ffff,
    0xbf00_0000, // -0.5
    0xb089_705f, // -1e-9
    0xb300_0000, // -2^-25: the last that gives 1
    0xb300_0001,
    0x3f7f_ffff, // 0.99999994
    0x3f80_0000, // 1
    0x40a9_999a, // 5.3
    0xbf7d_70a4, // -0.99
    0xbc2a_aaab, // -1/96
];

const EXP2: [u32; 20] = [
    NAN,
    0x7f80_0000, // +inf
    0xff80_0000, // -inf
    0x8000_0000, // -0
    0x8000_0001, // the smallest subnormal, negative
    0x7f7f_ffff, // the largest finite number
    0xc2fc_0000, // -126
    0xc2fe_0000, // -127
    0xc2fb_ffff, // next to -126
    0x42fe_0000, // 127
    0x4300_0000, // 128
    0x42fd_ffff, // next to 127
    0x41c0_0000, // 24
    0xc1c0_0000, // -24
    0x3f7f_ffff, // 0.99999994
    0xb089_705f, // -1e-9
    0xbeaa_aaab, // -1/3
    0x3f7f_c8d0, // at one of these a change of any coefficient's last bit shows
    0x3f68_1aa6,
    0x3f7b_d2e4,
];

const LOG2: [u32; 20] = [
    NAN,
    0x7f80_0000, // +inf
    0xff80_0000, // -inf
    0x0000_0000, // +0
    0x8000_0000, // -0
    0xbf80_0000, // -1
    0x0000_0001, // the smallest subnormal
    0x0040_0000, // 2^-127
    0x007f_ffff, // the largest subnormal
    0x0080_0000, // the smallest normal number
    0x7f7f_ffff, // the largest finite number
    0x3f80_0000, // 1 and neighbours
    0x3f7f_ffff,
    0x3f80_0001,
    0x3fff_ffff, // 1.9999999
    0x4000_0000, // 2
    0x3f00_0000, // 0.5
    0x4c00_0000, // 2^25
    0x3fff_69f7, // at one of these a change of any coefficient's last bit shows
    0x3ffe_fbf1,
];

const SIN_TURNS: [u32; 20] = [
    NAN,
    0xff80_0000, // -inf
    0x8000_0000, // -0
    0x0000_0001, // the smallest subnormal
    0x8000_0001,
    0x3e80_0000, // 0.25 and neighbours
    0x3e7f_ffff,
    0x3e80_0001,
    0x3f00_0000, // 0.5 and neighbours
    0x3eff_ffff,
    0x3f00_0001,
    0x3f40_0000, // 0.75
    0x3f7f_ffff, // 0.99999994
    0x40c0_0000, // 6
    0x40a9_999a, // 5.3
    0xbf80_0000, // -1
    0xbf7d_70a4, // -0.99
    0xbc2a_aaab, // -1/96
    0x3e7c_a519, // at one of these a change of any coefficient's last bit shows
    0x3e7f_cfb6,
];

const UNIT: [u32; 16] = [
    NAN,
    0x7f80_0000, // +inf
    0xff80_0000, // -inf
    0x0000_0000, // +0
    0x8000_0000, // -0
    0x0000_0001, // the smallest subnormal
    0x8000_0001,
    0x007f_ffff, // the largest subnormal
    0x0080_0000, // the smallest normal number
    0x7f7f_ffff, // the largest finite number
    0xff7f_ffff,
    0x3f00_0000, // 0.5
    0xbf00_0000,
    0x3f7f_ffff, // 1 and neighbours
    0x3f80_0000,
    0x3f80_0001,
];

const POWERS: [u32; 16] = [
    NAN,
    0x7f80_0000, // +inf
    0xff80_0000, // -inf
    0x0000_0000, // +0
    0x8000_0000, // -0
    0x8000_0001, // the smallest subnormal, negative
    0x7f7f_ffff, // the largest finite number
    0xff7f_ffff,
    0xc2fb_ffff, // -126 and neighbours
    0xc2fc_0000,
    0xc2fc_0001,
    0x42fd_ffff, // 127 and neighbours
    0x42fe_0000,
    0x42fe_0001,
    0xb089_705f, // -1e-9
    0x41c0_0000, // 24
];

const PAIRS: [(u32, u32); 21] = [
    (NAN, NAN),
    (NAN, 0x3f80_0000),
    (0x3f80_0000, NAN),
    (NAN, 0xff80_0000),
    (0x8000_0000, NAN),
    (0x7f80_0000, 0xff80_0000),
    (0xff80_0000, 0x7f80_0000),
    (0x7f80_0000, 0x7f7f_ffff),
    (0xff7f_ffff, 0xff80_0000),
    (0x0000_0000, 0x0000_0001),
    (0x0000_0001, 0x8000_0000),
    (0x8000_0001, 0x0000_0000),
    (0x8000_0000, 0x8000_0001),
    (0x007f_ffff, 0x0080_0000),
    (0x3f80_0000, 0x3f80_0001),
    (0xbf80_0000, 0xbf80_0001),
    (0xbf00_0000, 0xbf00_0000),
    (0x0000_0000, 0x0000_0000),
    (0x0000_0000, 0x8000_0000),
    (0x8000_0000, 0x0000_0000),
    (0x8000_0000, 0x8000_0000),
];

/// The bits, as antt writes them.
fn shown(x: f32) -> String {
    let b = if x.is_nan() { NAN } else { x.to_bits() };
    format!("0x{:04x}_{:04x}", b >> 16, b & 0xffff)
}

fn one(name: &str, inputs: &[u32], f: fn(f32) -> f32, open: fn(f32) -> bool) {
    for &b in inputs {
        let x = black_box(f32::from_bits(b));
        let mark = if open(x) { "open " } else { "" };
        println!("{mark}{name} {} {}", shown(x), shown(f(x)));
    }
}

fn two(name: &str, f: fn(f32, f32) -> f32) {
    for &(a, b) in &PAIRS {
        let (x, y) = (black_box(f32::from_bits(a)), black_box(f32::from_bits(b)));
        // Of two zeros Rust may return either, and we return +0: only where both are +0 is it the same for sure.
        let open = x == 0.0 && y == 0.0 && (a, b) != (0, 0);
        let mark = if open { "open " } else { "" };
        println!("{mark}{name} {} {} {}", shown(x), shown(y), shown(f(x, y)));
    }
}

fn never(_: f32) -> bool {
    false
}

pub fn run() {
    one("floor", &FLOOR, math::floor, never);
    one("fract", &FRACT, math::fract, never);
    one("exp2", &EXP2, math::exp2, never);
    one("log2", &LOG2, math::log2, never);
    one("sin_turns", &SIN_TURNS, math::sin_turns, never);
    two("min", f32::min);
    two("max", f32::max);
    // -0 against an end that is +0: f32::clamp leaves the sign open, and we return -0.
    one(
        "clamp_unit",
        &UNIT,
        |x| x.clamp(0.0, 1.0),
        |x| x.to_bits() == 0x8000_0000,
    );
    one("clamp_powers", &POWERS, |x| x.clamp(-126.0, 127.0), never);
    one("abs", &UNIT, f32::abs, never);
}
