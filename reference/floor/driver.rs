//! Both floors, and `fract` by each, against the reference's at every bit pattern: the same bits, or a NaN on both sides.
use crate::math;
use std::sync::atomic::{AtomicU32, Ordering};
use std::thread;
use std::time::Instant;

unsafe extern "C" {
    fn floor_by_exponent(x: f32) -> f32;
    fn floor_by_rounding(x: f32) -> f32;
    fn fract_by_exponent(x: f32) -> f32;
    fn fract_by_rounding(x: f32) -> f32;
}

/// The patterns with one highest byte are a part, which a thread takes and tries.
const PARTS: u32 = 256;

/// How many functions are tried.
const N: usize = 4;

const NAMES: [&str; N] = ["floor_by_exponent", "floor_by_rounding", "fract_by_exponent", "fract_by_rounding"];

fn ours(x: f32) -> [f32; N] {
    // Safety: numbers in, a number out.
    unsafe { [floor_by_exponent(x), floor_by_rounding(x), fract_by_exponent(x), fract_by_rounding(x)] }
}

fn theirs(x: f32) -> [f32; N] {
    let (floor, fract) = (math::floor(x), math::fract(x));
    [floor, floor, fract, fract]
}

fn agree(a: f32, b: f32) -> bool {
    a.to_bits() == b.to_bits() || a.is_nan() && b.is_nan()
}

/// How many of a part's answers differ, by function. The first of each is printed.
fn part(n: u32) -> [u64; N] {
    let mut different = [0; N];
    for low in 0..1 << 24 {
        let x = f32::from_bits(n << 24 | low);
        let (a, b) = (ours(x), theirs(x));
        for f in 0..N {
            if !agree(a[f], b[f]) {
                if different[f] == 0 {
                    let bits = [x, a[f], b[f]].map(f32::to_bits);
                    println!("{} of 0x{:08x}: ours 0x{:08x}, the reference's 0x{:08x}", NAMES[f], bits[0], bits[1], bits[2]);
                }
                different[f] += 1;
            }
        }
    }
    different
}

/// Takes parts until none is left.
fn work(next: &AtomicU32) -> [u64; N] {
    let mut sum = [0; N];
    loop {
        let n = next.fetch_add(1, Ordering::Relaxed);
        if n >= PARTS {
            return sum;
        }
        let different = part(n);
        for f in 0..N {
            sum[f] += different[f];
        }
        eprint!("\rreference/floor: part {} of {PARTS}", n + 1);
    }
}

pub fn run() {
    let threads = thread::available_parallelism().map_or(1, |n| n.get());
    let next = AtomicU32::new(0);
    let start = Instant::now();
    let sums: Vec<[u64; N]> = thread::scope(|s| {
        let workers: Vec<_> = (0..threads).map(|_| s.spawn(|| work(&next))).collect();
        workers.into_iter().map(|w| w.join().expect("a thread ended early")).collect()
    });
    eprintln!();
    let mut all = 0;
    for (f, name) in NAMES.iter().enumerate() {
        let different: u64 = sums.iter().map(|s| s[f]).sum();
        println!("{name}: {} bit patterns, {different} different", 1u64 << 32);
        all += different;
    }
    println!("{} s, {threads} threads", start.elapsed().as_secs());
    std::process::exit(i32::from(all > 0));
}
