//! The reference as objects, so that the driver can look into it no more than into the library. For a single height it reads the block; for
//! a strip it builds its generator once and samples it at the strip's positions; for the settings it builds its generator. `run` compiles this file in three forms, since the rest of
//! an object decides what the compiler makes of `Generator::at`:
//!   called     one object for all functions: they share `at` and call it, as the users of another crate do
//!   inlined    an object for each function: `at` has one caller and is inlined
//!   known      an object for each function and code: the compiler knows the curve too, and can compute several samples at once
//! BENCH_SIDE is the form with its level of optimisation, and with the code where BENCH_CODE is one; the cfg flags name the functions.
#![allow(unused_imports)]

mod calls;

use crate::answers::{Taps, build};
use crate::generator::Generator;
use crate::stand_in::Program;
use calls::{Answer, Steps, StripAnswer};

const KNOWN: Option<&str> = option_env!("BENCH_CODE");

/// The generator of the code, or of the one that is known.
#[inline(always)]
fn generator(block: *const u8, code: u32) -> Generator {
    const CODE: usize = match KNOWN {
        Some(digits) => match usize::from_str_radix(digits, 10) {
            Ok(code) => code,
            Err(_) => panic!("BENCH_CODE is not a number"),
        },
        None => 0,
    };
    let code = if KNOWN.is_some() { CODE } else { code as usize };
    // The driver's block is a `Program`.
    build(code, unsafe { &*block.cast::<Program>() })
}

#[cfg(height)]
#[unsafe(export_name = concat!(env!("BENCH_SIDE"), "_height"))]
unsafe extern "C" fn height(block: *const u8, _: usize, code: u32, t: f32) -> Answer {
    let steps = Steps::uninit();
    let height = generator(block, code).at(t);
    Answer { steps, height }
}

#[cfg(strip)]
#[unsafe(export_name = concat!(env!("BENCH_SIDE"), "_strip"))]
unsafe extern "C" fn strip(block: *const u8, _: usize, code: u32, out: *mut f32, len: usize) -> StripAnswer {
    let out = unsafe { std::slice::from_raw_parts_mut(out, len) };
    let generator = generator(block, code);
    let last = (out.len() - 1) as f32;
    for (i, sample) in out.iter_mut().enumerate() {
        *sample = generator.at(i as f32 / last);
    }
    let steps = Steps::uninit();
    StripAnswer { steps }
}

#[cfg(settings)]
#[unsafe(export_name = concat!(env!("BENCH_SIDE"), "_settings"))]
unsafe extern "C" fn settings(block: *const u8, _: usize, code: u32, _: *mut f32) -> StripAnswer {
    std::hint::black_box(&generator(block, code));
    let steps = Steps::uninit();
    StripAnswer { steps }
}

#[cfg(taps)]
#[unsafe(export_name = concat!(env!("BENCH_SIDE"), "_taps_height"))]
unsafe extern "C" fn taps_height(at: *const f32, tall: *const f32, used: u32, t: f32) -> Answer {
    let (at, tall) = unsafe { (*at.cast(), *tall.cast()) };
    let steps = Steps::uninit();
    let height = Taps { at, tall, used }.generator().at(t);
    Answer { steps, height }
}

/// `reference/rust/build` calls it; an object of functions has nothing to run.
pub fn run() {}
