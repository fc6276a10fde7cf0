//! Measures the reference's math.rs where a comment of it makes a claim: the figures of docs/DIFFERENCES.md.
//! "Every f32" is meant so. The true sine, power and logarithm are those of f64, which is good to about 1e-15.

use crate::math;
use std::f64::consts::TAU;

/// The unit of the figures: 2^-24.
const UNIT: f64 = 1.0 / 16_777_216.0;

/// The largest of some sizes, where it was found, and how many there were.
struct Largest {
    size: f64,
    at: f32,
    count: u64,
}

impl Largest {
    fn new() -> Self {
        Largest {
            size: -1.0,
            at: 0.0,
            count: 0,
        }
    }

    fn see(&mut self, size: f64, at: f32) {
        self.count += 1;
        if size > self.size {
            self.size = size;
            self.at = at;
        }
    }

    fn show(&self, what: &str) {
        println!(
            "{what}: {:.6e} = {:.4} units of 2^-24, at {:e} (0x{:08x}), of {} numbers",
            self.size,
            self.size / UNIT,
            self.at,
            self.at.to_bits(),
            self.count
        );
    }
}

fn value(what: &str, x: f32, y: f32) {
    println!(
        "{what} of {x:e} (0x{:08x}) is {y:e} (0x{:08x})",
        x.to_bits(),
        y.to_bits()
    );
}

/// Every f32 from one to another, both from +0 up or both from -0 down.
fn every(from: u32, to: u32) -> impl Iterator<Item = f32> {
    (from..=to).map(f32::from_bits)
}

/// `sin_turns` from 0 to 1, and the sine's height.
fn sine() {
    let (mut quarter, mut whole, mut height, mut clamped) = (
        Largest::new(),
        Largest::new(),
        Largest::new(),
        Largest::new(),
    );
    let (mut top, mut tallest) = (Largest::new(), Largest::new());
    let (mut above, mut first, mut last) = (0u64, 0.0f32, 0.0f32);
    for x in every(0, 0x3f80_0000) {
        let y = math::sin_turns(x);
        let truth = (f64::from(x) * TAU).sin();
        let error = (f64::from(y) - truth).abs();
        whole.see(error, x);
        if x <= 0.25 {
            quarter.see(error, x);
            top.see(f64::from(y), x);
            if y > 1.0 {
                if above == 0 {
                    first = x;
                }
                above += 1;
                last = x;
            }
        }
        let h = 0.5 + 0.5 * y;
        let exact = 0.5 + 0.5 * truth;
        height.see((f64::from(h) - exact).abs(), x);
        clamped.see((f64::from(h.clamp(0.0, 1.0)) - exact).abs(), x);
        tallest.see(f64::from(h), x);
    }
    quarter.show("sin_turns, largest error from 0 to 0.25");
    whole.show("sin_turns, largest error from 0 to 1");
    println!(
        "sin_turns, largest value: 1 + {:e}, first at 0x{:08x}",
        top.size - 1.0,
        top.at.to_bits()
    );
    println!("sin_turns passes 1 at {above} numbers up to 0.25, from {first:e} (0x{:08x}) to {last:e} (0x{:08x})", first.to_bits(), last.to_bits());
    height.show("0.5 + 0.5 sin, largest error from 0 to 1");
    clamped.show("the same, clamped to 0..1");
    println!(
        "0.5 + 0.5 sin, largest value: 1 + {:e}, first at 0x{:08x}",
        tallest.size - 1.0,
        tallest.at.to_bits()
    );
    for bits in [
        0x3e80_0000,
        quarter.at.to_bits(),
        height.at.to_bits(),
        clamped.at.to_bits(),
        first.to_bits(),
    ] {
        let x = f32::from_bits(bits);
        value("sin_turns", x, math::sin_turns(x));
    }
    // the ninth-order series alone, without rounding: at a quarter turn, and up to where it keeps a billionth
    let series = |x: f64| {
        let (a, s) = (x * TAU, x * x * TAU * TAU);
        a * (1.0 + s * (-1.0 / 6.0 + s * (1.0 / 120.0 + s * (-1.0 / 5040.0 + s / 362_880.0))))
    };
    let error = |x: f64| (series(x) - (x * TAU).sin()).abs();
    let (mut low, mut high) = (0.0, 0.25);
    for _ in 0..60 {
        let middle = (low + high) / 2.0;
        if error(middle) < 1e-9 {
            low = middle;
        } else {
            high = middle;
        }
    }
    println!(
        "the series alone: {:.6e} too much at 0.25, a billionth up to {low:.6}",
        error(0.25)
    );
}

/// The fold of a negative number of turns, and every f32's fract.
fn fold() {
    let mut inexact = Largest::new();
    for x in every(0x8000_0001, 0xbf80_0000) {
        inexact.see((f64::from(math::fract(x)) - (f64::from(x) + 1.0)).abs(), x);
    }
    inexact.show("fract, largest error from -1 to -0");
    let x = f32::from_bits(0xb089_705f);
    value("fract", x, math::fract(x));
    value("sin_turns", x, math::sin_turns(x));
    let (mut ones, mut least, mut most, mut outside, mut nans) =
        (0u64, f32::NEG_INFINITY, 0.0f32, 0u64, 0u64);
    for bits in 0..=u32::MAX {
        let x = f32::from_bits(bits);
        let y = math::fract(x);
        if y.is_nan() && !x.is_nan() {
            nans += 1;
        }
        if y < 0.0 || y > 1.0 {
            outside += 1;
        }
        if y == 1.0 {
            ones += 1;
            least = least.max(x);
            most = most.min(x);
        }
    }
    println!(
        "fract is 1 at {ones} of all f32, from {most:e} (0x{:08x}) to {least:e} (0x{:08x})",
        most.to_bits(),
        least.to_bits()
    );
    println!("fract is below 0 or above 1 at {outside}, and a NaN at {nans} that are none");
    let next = f32::from_bits(0xb300_0001);
    value("fract", next, math::fract(next));
    value("sin_turns", next, math::sin_turns(next));
}

/// Every f32: is floor the largest whole number not above x?
fn floors() {
    let (mut wrong, mut zero) = (0u64, 0u64);
    for bits in 0..=u32::MAX {
        let x = f32::from_bits(bits);
        let y = math::floor(x);
        let z = x.floor();
        if x.is_nan() {
            wrong += u64::from(!y.is_nan());
        } else if y != z {
            wrong += 1;
        } else if y.to_bits() != z.to_bits() {
            zero += 1;
        }
    }
    println!("floor differs from the largest whole number at {wrong} of all f32, and in the sign of a zero at {zero}");
    let bound: f32 = 2_147_483_000.0;
    println!(
        "2147483000 as an f32 is {} (0x{:08x})",
        f64::from(bound),
        bound.to_bits()
    );
}

/// The polynomial of `exp2` cut after its fifth order, as its documentation has it.
fn fifth_order(part: f32) -> f32 {
    let inner = 0.055_504_1 + part * (0.009_618_1 + part * 0.001_333_36);
    1.0 + part * (0.693_147_2 + part * (0.240_226_5 + part * inner))
}

fn powers() {
    let (mut relative, mut unit) = (Largest::new(), Largest::new());
    let (mut falls, mut before, mut differs) = (0u64, 0.0f32, None);
    for x in every(0, 0x3f7f_ffff) {
        let y = math::exp2(x);
        let truth = f64::from(x).exp2();
        relative.see((f64::from(y) - truth).abs() / truth, x);
        unit.see((f64::from(y) - truth).abs(), x);
        if y < before {
            falls += 1;
        }
        before = y;
        if y != fifth_order(x) && differs.is_none() {
            differs = Some(x);
        }
    }
    if let Some(x) = differs {
        value("exp2", x, math::exp2(x));
        value(
            "the fifth order, which first differs here,",
            x,
            fifth_order(x),
        );
    }
    relative.show("exp2, largest relative error from 0 to below 1");
    unit.show("exp2, largest error from 0 to below 1");
    println!("exp2 falls at {falls} numbers from 0 to below 1");
    // the series alone, without rounding, at the top of the interval, through orders five and eight, with the exact coefficients
    for order in [5, 8] {
        let (mut term, mut sum) = (1.0f64, 1.0f64);
        for n in 1..=order {
            term *= std::f64::consts::LN_2 / f64::from(n);
            sum += term;
        }
        println!(
            "2^1 by the series through order {order}: {:.6e} short",
            2.0 - sum
        );
    }
    for bits in [
        0x42fe_0000,
        0x42fe_0001,
        0x42ff_ffff,
        0x4300_0000,
        0xc2fc_0000,
        0xc2fc_0001,
        0xc300_0000,
        0xb089_705f,
        0x8000_0001,
    ] {
        let x = f32::from_bits(bits);
        value("exp2", x, math::exp2(x));
    }
}

fn logarithms() {
    let mut error = Largest::new();
    let (mut falls, mut before) = (0u64, 0.0f32);
    for x in every(0x3f80_0000, 0x3fff_ffff) {
        let y = math::log2(x);
        error.see((f64::from(y) - f64::from(x).log2()).abs(), x);
        if y < before {
            falls += 1;
        }
        before = y;
    }
    error.show("log2, largest error from 1 to below 2");
    println!("log2 falls at {falls} numbers from 1 to below 2");
    let mut subnormal = Largest::new();
    let (mut below, mut lowest, mut highest) = (0u64, 0.0f32, -200.0f32);
    for x in every(1, 0x007f_ffff) {
        let y = math::log2(x);
        subnormal.see((f64::from(y) - f64::from(x).log2()).abs(), x);
        below += u64::from(y < -126.0);
        lowest = lowest.min(y);
        highest = highest.max(y);
    }
    subnormal.show("log2, largest error of a subnormal number");
    println!(
        "log2 of a subnormal number lies from {lowest:e} to {highest:e}, below -126 at {below}"
    );
    for bits in [
        0x0000_0000,
        0x0000_0001,
        0x0000_0002,
        0x0040_0000,
        0x007f_ffff,
        0x0080_0000,
        0x3f7f_ffff,
        0x3fff_ffff,
        0x7f7f_ffff,
        0x7f80_0000,
        0x7fc0_0000,
    ] {
        let x = f32::from_bits(bits);
        value("log2", x, math::log2(x));
    }
    // "the inverse of exp2"
    let mut back = Largest::new();
    for x in every(0x3f80_0000, 0x3fff_ffff) {
        back.see(
            (f64::from(math::exp2(math::log2(x))) - f64::from(x)).abs() / f64::from(x),
            x,
        );
    }
    back.show("exp2 of log2, largest relative error from 1 to below 2");
    value("exp2 of log2", f32::MAX, math::exp2(math::log2(f32::MAX)));
}

pub fn run() {
    sine();
    fold();
    floors();
    powers();
    logarithms();
}
