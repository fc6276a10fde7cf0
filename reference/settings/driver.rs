//! Prints the settings that the reference's builders give, as bits, and counts over all bytes. It is compiled as a module below generator.rs.

use super::{Envelope, EnvelopeId, Filter, Lfo, LfoId, Oscillator, OscillatorId, Pass, Shape};
use crate::param::ParamId;
use crate::program::Program;
use crate::stand_in::BLOCK;

fn program(set: &[(ParamId, u8)]) -> Program {
    let mut block = [0; BLOCK];
    for &(parameter, value) in set {
        block[parameter as usize] = value;
    }
    Program(block)
}

/// Attack, decay, sustain, release, then their curves.
fn envelope(bytes: [u8; 8]) -> Envelope {
    let parameters = EnvelopeId::Vca.parameters();
    let set: Vec<(ParamId, u8)> = parameters.into_iter().zip(bytes).collect();
    match super::envelope(&program(&set), EnvelopeId::Vca).shape {
        Shape::Envelope(envelope) => envelope,
        _ => unreachable!(),
    }
}

fn lfo(shape: u8, slew: u8, sync: u8) -> Lfo {
    let set = [
        (ParamId::Lfo1Shape, shape),
        (ParamId::Lfo1SlewRate, slew),
        (ParamId::Lfo1KeySync, sync),
    ];
    match super::lfo(&program(&set), LfoId::One).shape {
        Shape::Lfo(lfo) => lfo,
        _ => unreachable!(),
    }
}

fn fade(byte: u8) -> f32 {
    match super::lfo_fade(&program(&[(ParamId::Lfo1DelayFade, byte)]), LfoId::One).shape {
        Shape::Fade { end } => end,
        _ => unreachable!(),
    }
}

fn low_pass(resonance: u8, pole: u8) -> Filter {
    match super::filter_response(&program(&[
        (ParamId::VcfResonance, resonance),
        (ParamId::Vcf2PoleMode, pole),
    ]))
    .shape
    {
        Shape::Filter(filter) => filter,
        _ => unreachable!(),
    }
}

fn oscillator(source: u8, pulse: u8, saw: u8, depth: u8) -> Oscillator {
    let set = [
        (ParamId::Osc1PwmSource, source),
        (ParamId::Osc1PulseEnable, pulse),
        (ParamId::Osc1SawEnable, saw),
        (ParamId::Osc1PwmDepth, depth),
    ];
    match super::oscillator(&program(&set), OscillatorId::One).shape {
        Shape::Oscillator(oscillator) => oscillator,
        _ => unreachable!(),
    }
}

fn high_pass() -> Filter {
    match super::high_pass_response(&program(&[])).shape {
        Shape::Filter(filter) => filter,
        _ => unreachable!(),
    }
}

fn oscillator_two(level: u8) -> Oscillator {
    match super::oscillator(&program(&[(ParamId::Osc2Level, level)]), OscillatorId::Two).shape {
        Shape::Oscillator(oscillator) => oscillator,
        _ => unreachable!(),
    }
}

fn noise(level: u8) -> f32 {
    match super::noise(&program(&[(ParamId::NoiseLevel, level)])).shape {
        Shape::Noise { level } => level,
        _ => unreachable!(),
    }
}

fn bits(x: f32) -> String {
    let b = x.to_bits();
    format!("0x{:04x}_{:04x}", b >> 16, b & 0xffff)
}

pub fn table() {
    for b in [0, 1, 3, 51, 85, 127, 128, 254, 255] {
        println!("byte ({b}, {})", bits(super::byte(b)));
    }
    for c in [0, 1, 64, 127, 128, 129, 192, 254, 255] {
        println!("bend ({c}, {})", bits(super::bend(c)));
    }
    // Release 0: the third end at 1, below it, above it; then all times, none, and one of each alone.
    for [a, d, r] in [
        [0, 0, 0],
        [255, 255, 0],
        [255, 254, 0],
        [255, 193, 0],
        [255, 255, 255],
        [255, 0, 0],
        [0, 255, 0],
        [0, 0, 255],
        [1, 2, 3],
        [40, 90, 200],
    ] {
        let e = envelope([a, d, 0, r, 0, 0, 0, 0]);
        println!(
            "ends ({a}, {d}, {r}, {}, {}, {})",
            bits(e.ends[0]),
            bits(e.ends[1]),
            bits(e.ends[2])
        );
    }
    for [s, c] in [
        [255, 0],
        [255, 255],
        [0, 0],
        [0, 255],
        [128, 127],
        [128, 128],
        [200, 3],
        [17, 240],
        [254, 254],
        [1, 1],
    ] {
        println!(
            "sustain ({s}, {c}, {})",
            bits(envelope([0, 0, s, 0, 0, 0, c, 0]).sustain_end)
        );
    }
    for b in [
        [40, 90, 200, 17, 10, 100, 190, 240],
        [0, 255, 1, 254, 255, 0, 60, 129],
    ] {
        let e = envelope(b);
        let given = b.map(|byte| byte.to_string()).join(", ");
        let [first, second, third] = e.ends.map(bits);
        let [attack, decay, _, release] = e.bends.map(bits);
        println!(
            "envelope ({given}, {first}, {second}, {third}, {}, {}, {attack}, {decay}, {release})",
            bits(e.sustain),
            bits(e.sustain_end)
        );
    }
    // The shape byte is the sync byte too.
    for b in [0, 1, 2, 3, 4, 5, 6, 7, 8, 255] {
        let l = lfo(b, 77, b);
        println!(
            "shape ({b}, {}, {}, {}, {})",
            l.shape as u8,
            bits(l.turns),
            bits(l.slew),
            u8::from(l.synced)
        );
    }
    for b in [0, 1, 2, 127, 128, 254, 255] {
        println!("fade ({b}, {})", bits(fade(b)));
    }
    for p in [0, 1, 2, 3, 255] {
        let f = low_pass(200, p);
        println!(
            "pole ({p}, {}, {}, {}, {})",
            bits(f.slope),
            bits(f.resonance),
            bits(f.span),
            u8::from(f.pass == Pass::High)
        );
    }
    let h = high_pass();
    println!(
        "high ({}, {}, {}, {})",
        bits(h.slope),
        bits(h.resonance),
        bits(h.span),
        u8::from(h.pass == Pass::High)
    );
    for s in [0, 1, 2, 3, 4, 5, 6, 7, 255] {
        let o = oscillator(s, 0, 2, 255);
        println!(
            "source ({s}, {}, {}, {}, {}, {})",
            u8::from(o.saw),
            u8::from(o.pulse),
            bits(o.width),
            bits(o.sweep),
            bits(o.level)
        );
    }
    for d in [0, 1, 100, 128, 254, 255] {
        println!(
            "depth ({d}, {}, {})",
            bits(oscillator(0, 1, 0, d).width),
            bits(oscillator(1, 1, 0, d).sweep)
        );
    }
    for l in [0, 1, 200, 255] {
        let o = oscillator_two(l);
        println!(
            "two ({l}, {}, {}, {}, {}, {})",
            u8::from(o.saw),
            u8::from(o.pulse),
            bits(o.width),
            bits(o.sweep),
            bits(o.level)
        );
        println!("noise ({l}, {})", bits(noise(l)));
    }
}

pub fn measure() {
    let mut counts = [0u32; 3];
    let (mut least, mut most) = (f32::MAX, 0.0f32);
    for a in 0..=255u8 {
        for d in 0..=255u8 {
            let third = envelope([a, d, 0, 0, 0, 0, 0, 0]).ends[2];
            counts[if third == 1.0 {
                0
            } else if third < 1.0 {
                1
            } else {
                2
            }] += 1;
            least = least.min(third);
            most = most.max(third);
        }
    }
    println!(
        "release 0: the third end is 1 at {}, below at {}, above at {} of 65536 pairs; from {} to {}",
        counts[0],
        counts[1],
        counts[2],
        bits(least),
        bits(most)
    );
    let (mut above, mut most, mut order) = (0u32, 0.0f32, 0u32);
    for r in 0..=255u8 {
        for a in 0..=255u8 {
            for d in 0..=255u8 {
                let e = envelope([a, d, 0, r, 0, 0, 0, 0]).ends;
                above += u32::from(e[2] > 1.0);
                most = most.max(e[2]);
                order += u32::from(!(0.0 <= e[0] && e[0] <= e[1] && e[1] <= e[2]));
            }
        }
    }
    println!(
        "all bytes: the third end is above 1 at {above} of 16777216, at most {}; out of order at {order}",
        bits(most)
    );
    let symmetric: Vec<u8> = (1..=127u8)
        .filter(|k| super::bend(128 - k) * super::bend(128 + k) == 1.0)
        .collect();
    println!(
        "bend(128 - k) * bend(128 + k), rounded, is 1 for {} of k = 1 to 127",
        symmetric.len()
    );
    let exact: Vec<u8> = (1..=127u8)
        .filter(|k| f64::from(super::bend(128 - k)) * f64::from(super::bend(128 + k)) == 1.0)
        .collect();
    println!("unrounded it is 1 for k = {exact:?}");
    let inverse: Vec<u8> = (1..=127u8)
        .filter(|k| (1.0 / super::bend(128 + k)).to_bits() == super::bend(128 - k).to_bits())
        .collect();
    println!(
        "1 / bend(128 + k), rounded, is bend(128 - k) for {} of k = 1 to 127",
        inverse.len()
    );
    let widest = (1..=127u8)
        .map(|k| (f64::from(super::bend(128 - k)) * f64::from(super::bend(128 + k)) - 1.0).abs())
        .fold(0.0, f64::max);
    println!(
        "the product is at most {widest:e} from 1; bend(0) is {}, bend(255) {}",
        bits(super::bend(0)),
        bits(super::bend(255))
    );
    let slope = |c: u8| (super::byte(c) - 0.5) * 2.0;
    println!(
        "the slope is {} at 127, {} at 128, {} at 0, {} at 255; 0 at {} bytes",
        slope(127),
        slope(128),
        slope(0),
        slope(255),
        (0..=255u8).filter(|&c| slope(c) == 0.0).count()
    );
    let held = (0..=255u8)
        .filter(|&s| envelope([0, 0, s, 0, 0, 0, 128, 0]).sustain_end == super::byte(s))
        .count();
    println!("with curve 128 the sustain is level at {held} of 256 sustain bytes");
    let mut out = 0;
    for s in 0..=255u8 {
        for c in 0..=255u8 {
            out +=
                u32::from(!(0.0..=1.0).contains(&envelope([0, 0, s, 0, 0, 0, c, 0]).sustain_end));
        }
    }
    println!("the sustain ends outside 0..1 at {out} of 65536 pairs");
    let fades = (0..=255u8).map(fade).fold(0.0, f32::max);
    println!("a fade ends at {} at most", bits(fades));
}
