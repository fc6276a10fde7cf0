//! Prints the list of the reference's answers. A line is a letter, then hexadecimal numbers:
//!
//!     G CODE BYTES    the generator that the lines up to the next G or T speak of: its code, and the bytes it reads as one number, in the
//!                     order of `READ`; code a0 stands for the gates, with byte 160
//!     T WORD .. USED  the taps that they speak of: four positions, four heights, and how many are used
//!     B SEED MOST     a whole block, drawn from a seed, of bytes up to MOST: `drawn_block` says how
//!     P CODE          the generator that the lines up to the next G, T or P speak of: that of the code and the last block; code a0 stands for
//!                     the gates
//!     S WORD ..       its settings
//!     H T WORD STEPS  its height at position T, and the steps that the height took
//!     N COUNT         how many marks it has, or gates
//!     M WORD ..       where its marks lie, or where the gates start
//!     K KIND ..       the kinds of its marks: 0 to 3 a segment, 4 corner, 5 cycle, 6 tap, 7 width, 8 sweep
//!     E WORD ..       where the gates end
//!     R WORD          its rest
//!     C KIND WORD     its scale: 0 normalised, 1 turns, 2 octaves, and the scale's number, +0 where it has none
//!     A FLAG          whether it is anchored
//!
//! A WORD is an f32's bits, a NaN being 7fc00000, or a flag, 0 or 1, or an enum's number, by the order of its declaration. The bytes
//! of a G's block that the code doesn't read are random.

use crate::answers::{
    POSITIONS, READ, Setting, Taps, block, build, joins, kind, neighbours, place, scale, settings, slewed, steps_of,
    word,
};
use crate::generator::{Generator, arpeggiator_gates};
use crate::random::Random;
use crate::stand_in::Program;

/// The line that names a generator.
fn select(code: usize, bytes: &[u8]) {
    let number = bytes.iter().fold(0u64, |n, &b| n << 8 | u64::from(b));
    println!("G {code:x} {number:x}");
}

/// A line.
fn print(letter: char, numbers: impl IntoIterator<Item = u32>) {
    let text: String = numbers.into_iter().map(|n| format!(" {n:x}")).collect();
    println!("{letter}{text}");
}

fn print_settings(code: usize, generator: &Generator) {
    let number = |setting| match setting {
        Setting::Float(x) => word(x),
        Setting::Number(n) => u32::from(n),
    };
    print('S', settings(code, generator).into_iter().map(number));
}

/// Marks, rest, scale and whether it is anchored.
fn print_about(generator: &Generator) {
    print('N', [generator.marks().count() as u32]);
    print('M', generator.marks().map(|mark| word(mark.at())));
    print('K', generator.marks().map(|mark| u32::from(kind(mark.kind()))));
    print('R', [word(generator.rest())]);
    let (kind, number) = scale(generator.scale());
    print('C', [kind, word(number)]);
    print('A', [u32::from(generator.anchored())]);
}

/// A few positions at random, two of any bits at all.
fn random_positions(random: &mut Random, drawn: usize) -> Vec<u32> {
    let mut positions: Vec<u32> = (0..drawn).map(|_| random.unit().to_bits()).collect();
    positions.extend((0..2).map(|_| random.next() as u32));
    positions
}

fn print_heights(generator: &Generator, positions: &[u32], steps: impl Fn(f32) -> u32) {
    for &b in positions {
        let t = f32::from_bits(b);
        print('H', [b, word(generator.at(t)), steps(t)]);
    }
}

/// Where a slewed LFO takes a step more, for some of its counts, with both neighbours.
fn step_positions(random: &mut Random, turns: f32) -> Vec<u32> {
    (0..4)
        .flat_map(|_| {
            let count = 96 + random.below(96 * turns as usize) as u16;
            neighbours(place(count) / turns)
        })
        .collect()
}

fn print_generator(random: &mut Random, code: usize, bytes: &[u8]) {
    select(code, bytes);
    let program = block(random, READ[code], bytes);
    let generator = build(code, &program);
    print_settings(code, &generator);
    print_about(&generator);
    let mut positions = POSITIONS.to_vec();
    positions.extend(joins(&generator));
    if slewed(code, &program) {
        positions.extend(step_positions(random, scale(generator.scale()).1));
    }
    positions.extend(random_positions(random, 8));
    print_heights(&generator, &positions, |t| steps_of(code, &program, &generator, t));
}

/// The generators whose heights are listed: at the ends of their bytes and in between.
fn drawn(random: &mut Random) -> Vec<(usize, Vec<u8>)> {
    let mut all: Vec<(usize, Vec<u8>)> = Vec::new();
    for code in 0..3 {
        for (times, levels) in [(0, 255), (255, 0), (128, 128)] {
            for curve in [0, 255] {
                all.push((
                    code,
                    vec![times, times, levels, times, curve, curve, 255 - curve, curve],
                ));
            }
        }
        // A stretch of no width at either side of one that has some.
        all.push((code, vec![0, 200, 100, 0, 64, 64, 128, 192]));
        all.push((code, vec![200, 0, 100, 1, 192, 0, 127, 64]));
        for _ in 0..6 {
            all.push((code, random.bytes(8)));
        }
    }
    for code in 3..7 {
        for shape in 0..7 {
            all.push((code, vec![shape, random.byte() & 1, 0]));
        }
    }
    for shape in 0..7 {
        for (i, slew) in [1, 2, 128, 255, random.byte(), random.byte()].into_iter().enumerate() {
            // Each of the four codes in turn.
            let code = 3 + (usize::from(shape) + i) % 4;
            all.push((code, vec![shape, random.byte() & 1, slew]));
        }
    }
    for slew in [0, 200] {
        all.push((3, vec![7, 0, slew]));
        all.push((3, vec![255, 255, slew]));
    }
    for code in [7, 8, 12, 13] {
        for b in [0, 1, 128, 255] {
            all.push((code, vec![b]));
        }
        all.push((code, random.bytes(1)));
        all.push((code, random.bytes(1)));
    }
    for pole in [0, 1, 2, 255] {
        for resonance in [0, 255, random.byte()] {
            all.push((9, vec![resonance, pole]));
        }
    }
    all.push((10, vec![]));
    for source in [0, 1, 5, 6] {
        for (pulse, saw) in [(0, 0), (0, 255), (1, 0), (128, 2)] {
            all.push((11, vec![source, pulse, saw, random.byte()]));
        }
        all.push((11, vec![source, 1, 0, 0]));
        all.push((11, vec![source, 1, 1, 255]));
    }
    all
}

fn print_gates(program: &Program) {
    print('N', [arpeggiator_gates(program).count() as u32]);
    print('M', arpeggiator_gates(program).map(|gate| word(gate.start())));
    print('E', arpeggiator_gates(program).map(|gate| word(gate.end())));
}

fn print_taps(random: &mut Random, used: u32) {
    let taps = Taps {
        used,
        ..Taps::drawn(random)
    };
    let generator = taps.generator();
    let words = taps.at.iter().chain(&taps.tall).map(|&x| word(x));
    print('T', words.chain([taps.used]));
    print_about(&generator);
    let mut positions = POSITIONS.to_vec();
    positions.extend(taps.positions());
    positions.extend(random_positions(random, 4));
    print_heights(&generator, &positions, |_| 0);
}

/// The block of a seed: with s the seed at first, s becomes s * 48271 modulo 2^31 - 1 for each byte, and the byte is the highest eight of the
/// 31 bits of s, modulo MOST + 1.
fn drawn_block(seed: u32, most: u8) -> Program {
    let mut s = u64::from(seed);
    Program(std::array::from_fn(|_| {
        s = s * 48271 % 0x7fff_ffff;
        ((s >> 23) % (u64::from(most) + 1)) as u8
    }))
}

/// Every code of a drawn block, and its gates. Nothing but the block tells the other side which bytes a code reads.
fn print_block(random: &mut Random, most: u8) {
    let seed = 1 + random.below(0x7fff_fffe) as u32;
    print('B', [seed, u32::from(most)]);
    let program = drawn_block(seed, most);
    for code in 0..READ.len() {
        print('P', [code as u32]);
        let generator = build(code, &program);
        print_settings(code, &generator);
        print_about(&generator);
        let positions = random_positions(random, 2);
        print_heights(&generator, &positions, |t| steps_of(code, &program, &generator, t));
    }
    print('P', [0xa0]);
    print_gates(&program);
}

pub fn run() {
    // Another list is made with another seed, the program's argument.
    let seed = std::env::args()
        .nth(1)
        .map_or(0, |text| text.parse().expect("a seed is a whole number"));
    let random = &mut Random(seed);
    println!(
        "# Answers of the reference, printed by reference/generator/run; reference/generator/list.rs says what a line means."
    );
    println!("# Settings: of each byte that a code reads, every value once, the others being random.");
    for (code, read) in READ.iter().enumerate() {
        let columns: Vec<Vec<u8>> = read.iter().map(|_| random.values()).collect();
        for row in 0..if read.is_empty() { 1 } else { 256 } {
            let bytes: Vec<u8> = columns.iter().map(|column| column[row]).collect();
            select(code, &bytes);
            print_settings(code, &build(code, &block(random, READ[code], &bytes)));
        }
    }
    println!("# Settings, marks, rest, scale, anchored, and heights with their steps.");
    for (code, bytes) in drawn(random) {
        print_generator(random, code, &bytes);
    }
    println!("# Taps: marks, rest, scale, anchored and heights.");
    for used in [0, 1, 2, 3, 4, 5, u32::MAX] {
        for _ in 0..3 {
            print_taps(random, used);
        }
    }
    println!("# Gates.");
    for open in 0..=255 {
        println!("G a0 {open:x}");
        print_gates(&block(random, &[160], &[open]));
    }
    println!("# Whole blocks: settings, marks, rest, scale, anchored, and heights with their steps, of every code; and the gates.");
    // Any bytes; those that name shapes, sources and poles; switches.
    for most in [255, 255, 255, 255, 255, 255, 255, 255, 6, 6, 6, 6, 6, 6, 6, 6, 1, 1, 1, 1] {
        print_block(random, most);
    }
}
