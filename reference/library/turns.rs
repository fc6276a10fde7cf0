//! Jobs at six turns and at eight, and with numbers of turns that are refused.

use super::asked::{Asked, Curve, Reference};
use super::{Job, LENGTHS, STRIDE, Work, drawn_block, drawn_length, positions};
use crate::answers::{READ, block, neighbours, place};
use crate::juvrada::BLOCK;
use crate::random::Random;
use crate::stand_in::Program;

/// At six turns and at eight: the marks, the scale, heights at positions of every kind, and a strip.
fn at_turns(work: &mut Work, code: usize, program: &Program, n: usize) {
    fn each(work: &mut Work, curve: &Curve<impl Reference>, n: usize) {
        work.marks(curve);
        work.scale(curve);
        for b in positions(&mut work.random, curve, 4) {
            work.height(curve, f32::from_bits(b));
        }
        work.strip(curve, n);
    }
    each(work, &Curve::six(code, program), n);
    each(work, &Curve::eight(code, program), n);
    let t = work.random.unit();
    work.unchanged(code, program, t, n);
}

/// A block with an LFO of this shape and slew.
fn lfo_block(random: &mut Random, code: usize, shape: u8, slew: u8) -> Program {
    let sync = random.byte() & 1;
    block(random, READ[code], &[shape, sync, slew])
}

/// Every shape byte of an LFO, those that name no shape too.
fn shapes(work: &mut Work, code: usize) {
    for shape in 0..=255 {
        for slew in [0, 1, 128, 255, work.random.byte()] {
            let program = lfo_block(&mut work.random, code, shape, slew);
            let n = drawn_length(&mut work.random);
            at_turns(work, code, &program, n);
        }
    }
}

/// Every slew of a sampled shape.
fn slews(work: &mut Work, code: usize, shape: u8) {
    for slew in 0..=255 {
        let program = lfo_block(&mut work.random, code, shape, slew);
        at_turns(work, code, &program, 33);
    }
}

/// Every code of random blocks.
fn blocks(work: &mut Work) {
    for _ in 0..50 {
        let program = drawn_block(&mut work.random);
        for code in 0..14 {
            let n = drawn_length(&mut work.random);
            at_turns(work, code, &program, n);
        }
    }
}

/// Strips of telling lengths.
fn lengths(work: &mut Work, code: usize, program: &Program) {
    for n in LENGTHS {
        work.strip(&Curve::six(code, program), n);
        work.strip(&Curve::eight(code, program), n);
    }
}

/// Positions from 0 to 1 at an even distance of bits, without slew.
fn sweep(work: &mut Work, code: usize, shape: u8) {
    let program = lfo_block(&mut work.random, code, shape, 0);
    let (six, eight) = (Curve::six(code, &program), Curve::eight(code, &program));
    for b in (0..=0x3f80_0000u32).step_by(STRIDE) {
        work.height(&six, f32::from_bits(b));
        work.height(&eight, f32::from_bits(b));
    }
}

/// Each place where the walk of a sampled shape takes a step more, with both neighbours.
fn steps(work: &mut Work, code: usize, shape: u8, slew: u8) {
    fn each(work: &mut Work, curve: &Curve<impl Reference>) {
        let turns = curve.generator.measure().1;
        for count in 96..=96 * (turns as u16 + 1) {
            for b in neighbours(place(count) / turns) {
                work.height(curve, f32::from_bits(b));
            }
        }
    }
    let program = lfo_block(&mut work.random, code, shape, slew);
    each(work, &Curve::six(code, &program));
    each(work, &Curve::eight(code, &program));
}

/// Numbers of turns that are taken, and others that are not, some of which have the low byte of one that is.
const TURNS: [u32; 16] =
    [6, 8, 0, 1, 5, 7, 9, 48, 68, 262, 264, 0x600, 0x1_0006, 0x100_0008, 0x8000_0006, u32::MAX];

fn refusals(work: &mut Work) {
    let bytes = work.random.bytes(1000);
    for len in [0, 1, 241, 242, 243, 484, 1000] {
        for code in (0..=15).chain([255, 256, 259, 269, u32::MAX]) {
            for turns in TURNS.map(Some) {
                for n in [0, 1, 2, 4096, 4097] {
                    work.refused(Asked::new(&bytes[..len], code, turns), n);
                }
            }
        }
    }
    // Every number of turns that is near, and some at random.
    let drawn: Vec<u32> = (0..1000).map(|_| work.random.next() as u32).collect();
    for turns in (0..=1024).chain(drawn).map(Some) {
        let code = work.random.below(14) as u32;
        work.refused(Asked::new(&bytes[..BLOCK], code, turns), 100);
    }
}

pub fn jobs() -> Vec<Job> {
    let mut all: Vec<Job> = vec![Box::new(refusals)];
    for code in 3..7 {
        all.push(Box::new(move |work| shapes(work, code)));
        for shape in [5, 6] {
            all.push(Box::new(move |work| slews(work, code, shape)));
            all.push(Box::new(move |work| sweep(work, code, shape)));
            for slew in [1, 128, 255] {
                all.push(Box::new(move |work| steps(work, code, shape, slew)));
            }
        }
    }
    for shape in 0..8 {
        for slew in [0, 1, 128, 255] {
            let code = 3 + (usize::from(shape) + usize::from(slew)) % 4;
            all.push(Box::new(move |work| {
                let program = lfo_block(&mut work.random, code, shape, slew);
                lengths(work, code, &program);
            }));
        }
    }
    for code in (0..3).chain(7..14) {
        all.push(Box::new(move |work| {
            let program = drawn_block(&mut work.random);
            lengths(work, code, &program);
        }));
    }
    all.extend((0..20).map(|_| Box::new(blocks) as Job));
    all
}
