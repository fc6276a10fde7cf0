//! The reference's answers, as numbers: its generators by their codes, what each says of itself, and the steps of a
//! slew walk. The reference is the module `generator` beside this one: unchanged, or the copy with eight turns.

use super::generator::{
    EnvelopeId, Generator, LfoId, MarkKind, OscillatorId, Scale, Segment, envelope, filter_response,
    high_pass_response, lfo, lfo_fade, lfo_unipolar, noise, oscillator, taps,
};
use crate::random::Random;
use crate::stand_in::{BLOCK, Program};

/// The bytes that each code reads: of an envelope attack, decay, sustain, release and their four curves, of an LFO shape, sync and slew, of a
/// filter resonance and pole, of oscillator 1 source, pulse, saw and depth.
pub const READ: [&[usize]; 14] = [
    &[53, 54, 55, 56, 58, 59, 60, 61],
    &[62, 63, 64, 65, 67, 68, 69, 70],
    &[71, 72, 73, 74, 76, 77, 78, 79],
    &[2, 3, 6],
    &[9, 10, 13],
    &[2, 3, 6],
    &[9, 10, 13],
    &[1],
    &[8],
    &[41, 51],
    &[],
    &[16, 18, 19, 25],
    &[26],
    &[33],
];

/// A block that is random but for these bytes.
pub fn block(random: &mut Random, read: &[usize], bytes: &[u8]) -> Program {
    let mut program = Program([0; BLOCK]);
    program.0.iter_mut().for_each(|b| *b = random.byte());
    assert_eq!(read.len(), bytes.len());
    read.iter().zip(bytes).for_each(|(&at, &b)| program.0[at] = b);
    program
}

/// The generator of a code.
pub fn build(code: usize, program: &Program) -> Generator {
    match code {
        0 => envelope(program, EnvelopeId::Vca),
        1 => envelope(program, EnvelopeId::Vcf),
        2 => envelope(program, EnvelopeId::Mod),
        3 => lfo(program, LfoId::One),
        4 => lfo(program, LfoId::Two),
        5 => lfo_unipolar(program, LfoId::One),
        6 => lfo_unipolar(program, LfoId::Two),
        7 => lfo_fade(program, LfoId::One),
        8 => lfo_fade(program, LfoId::Two),
        9 => filter_response(program),
        10 => high_pass_response(program),
        11 => oscillator(program, OscillatorId::One),
        12 => oscillator(program, OscillatorId::Two),
        _ => noise(program),
    }
}

/// Whether the code's generator is an LFO whose slew is not 0.
pub fn slewed(code: usize, program: &Program) -> bool {
    (3..7).contains(&code) && program.0[READ[code][2]] != 0
}

/// An f32's bits, a NaN's being always the same.
pub fn word(x: f32) -> u32 {
    if x.is_nan() { 0x7fc0_0000 } else { x.to_bits() }
}

/// What stands after `name: ` in the generator's debug text, up to the end of the field.
fn field<'a>(text: &'a str, name: &str) -> &'a str {
    let at = text.find(&format!("{name}: ")).expect(name) + name.len() + 2;
    let rest = &text[at..];
    let end = if rest.starts_with('[') {
        rest.find(']')
    } else {
        rest.find([',', ' '])
    };
    rest[..end.expect(name)].trim_start_matches('[')
}

/// A setting: an f32, a flag, or an enum's number, by the order of its declaration.
#[derive(Clone, Copy, Debug)]
pub enum Setting {
    Float(f32),
    Number(u8),
}

fn setting(text: &str) -> Setting {
    match text {
        "true" => Setting::Number(1),
        "false" => Setting::Number(0),
        // The shapes and the passes, in the order of their declarations.
        "Sine" | "Low" => Setting::Number(0),
        "Triangle" | "High" => Setting::Number(1),
        "Square" => Setting::Number(2),
        "RampUp" => Setting::Number(3),
        "RampDown" => Setting::Number(4),
        "SampleAndHold" => Setting::Number(5),
        "SampleAndGlide" => Setting::Number(6),
        _ => Setting::Float(text.parse().expect("an f32's text")),
    }
}

/// The settings. They are private, and an f32's debug text reads back as the same f32.
pub fn settings(code: usize, generator: &Generator) -> Vec<Setting> {
    let text = format!("{generator:?}");
    let all = |names: &[&str]| names.iter().map(|name| setting(field(&text, name))).collect();
    match code {
        0..=2 => {
            let many = |name| -> Vec<Setting> { field(&text, name).split(", ").map(setting).collect() };
            let (ends, bends) = (many("ends"), many("bends"));
            let [sustain, end] = ["sustain", "sustain_end"].map(|name| setting(field(&text, name)));
            vec![ends[0], ends[1], ends[2], sustain, end, bends[0], bends[1], bends[3]]
        }
        3..=6 => {
            // The first "shape: " of the text is the generator's own.
            let inner = &text[text.find("Lfo { ").expect("an LFO")..];
            ["shape", "turns", "slew", "unipolar", "synced"]
                .iter()
                .map(|name| setting(field(inner, name)))
                .collect()
        }
        7 | 8 => all(&["end"]),
        9 | 10 => all(&["slope", "resonance", "span", "pass"]),
        11 | 12 => all(&["saw", "pulse", "width", "sweep", "level"]),
        _ => all(&["level"]),
    }
}

/// 0 to 3 a segment, 4 corner, 5 cycle, 6 tap, 7 width, 8 sweep.
pub fn kind(kind: MarkKind) -> u8 {
    match kind {
        MarkKind::Segment(Segment::Attack) => 0,
        MarkKind::Segment(Segment::Decay) => 1,
        MarkKind::Segment(Segment::Sustain) => 2,
        MarkKind::Segment(Segment::Release) => 3,
        MarkKind::Corner => 4,
        MarkKind::Cycle => 5,
        MarkKind::Tap => 6,
        MarkKind::Width => 7,
        MarkKind::Sweep => 8,
    }
}

/// Where the marks lie, and their kinds.
pub fn marks(generator: &Generator) -> Vec<(f32, u8)> {
    generator.marks().map(|mark| (mark.at(), kind(mark.kind()))).collect()
}

/// 0 normalised, 1 turns, 2 octaves, and the scale's number, 0 where it has none.
pub fn scale(scale: Scale) -> (u32, f32) {
    match scale {
        Scale::Normalised => (0, 0.0),
        Scale::Turns(turns) => (1, turns),
        Scale::Octaves(octaves) => (2, octaves),
    }
}

/// Where the walk's step of this count ends, if nothing cuts it short.
pub fn place(count: u16) -> f32 {
    -1.0 + f32::from(count) * (1.0 / 96.0)
}

/// The steps of a slewed LFO's height at t, which the reference counts and doesn't tell: the smallest count from 1 up whose place isn't below
/// the phase.
pub fn steps(turns: f32, t: f32) -> u32 {
    let phase = if t.is_nan() { 0.0 } else { t.clamp(0.0, 1.0) } * turns;
    (1..=u16::MAX)
        .find(|&count| !(place(count) < phase))
        .map_or(u32::MAX, u32::from)
}

/// The steps that the code's generator takes at t; only a slewed LFO takes any.
pub fn steps_of(code: usize, program: &Program, generator: &Generator, t: f32) -> u32 {
    if slewed(code, program) {
        steps(scale(generator.scale()).1, t)
    } else {
        0
    }
}

/// The steps of one walk along a slewed LFO's strip of n samples: the full ones short of the last phase, which is one
/// turn, six or eight, and a cut one for each sample.
pub fn once_steps(turns: f32, n: usize) -> u32 {
    let full = match turns {
        1.0 => 191,
        6.0 => 671,
        8.0 => 863,
        _ => panic!("a strip of {turns} turns"),
    };
    full + n as u32
}

/// Positions of every kind.
pub const POSITIONS: [u32; 31] = [
    0x7fc0_0000, // NaN, of either sign, and one that signals
    0xffc0_0000,
    0x7f80_0001,
    0x7f80_0000, // +inf
    0xff80_0000, // -inf
    0x0000_0000, // +0
    0x8000_0000, // -0
    0x0000_0001, // the smallest subnormal
    0x8000_0001,
    0x007f_ffff, // the largest subnormal
    0x807f_ffff,
    0x0080_0000, // the smallest normal number
    0x3380_0000, // 2^-24
    0xb380_0000,
    0x7f7f_ffff, // the largest finite number
    0xff7f_ffff,
    0x3e7f_ffff, // 0.25 and neighbours
    0x3e80_0000,
    0x3e80_0001,
    0x3eff_ffff, // 0.5 and neighbours
    0x3f00_0000,
    0x3f00_0001,
    0x3f40_0000, // 0.75
    0x3e2a_aaab, // 1/6
    0x3eaa_aaab, // 1/3
    0x3f2a_aaab, // 2/3
    0x3f7f_ffff, // 1 and neighbours
    0x3f80_0000,
    0x3f80_0001,
    0xbf80_0000, // -1
    0x4000_0000, // 2
];

/// A number from above 0 to below 1 and both its neighbours; nothing of another number.
pub fn neighbours(x: f32) -> impl Iterator<Item = u32> {
    let b = x.to_bits();
    let inside = 0 < b && b < 0x3f80_0000;
    [b.wrapping_sub(1), b, b.wrapping_add(1)]
        .into_iter()
        .filter(move |_| inside)
}

/// Where the curve is joined, as its marks say, with both neighbours.
pub fn joins(generator: &Generator) -> Vec<u32> {
    let mut all: Vec<u32> = generator
        .marks()
        .flat_map(|mark| neighbours(mark.at()))
        .filter(|b| !POSITIONS.contains(b))
        .collect();
    all.dedup();
    all
}

/// Impulse trains: four positions, four heights and how many are used, 0 to 5 and more, with numbers of every kind among the eight.
pub struct Taps {
    pub at: [f32; 4],
    pub tall: [f32; 4],
    pub used: u32,
}

impl Taps {
    pub fn generator(&self) -> Generator {
        let pairs = std::array::from_fn(|i| (self.at[i], self.tall[i]));
        taps(pairs, self.used as usize)
    }

    /// One that is drawn: each number is usual, or now and then of another kind.
    pub fn drawn(random: &mut Random) -> Self {
        const AT: [f32; 12] = [
            f32::NAN,
            f32::INFINITY,
            f32::NEG_INFINITY,
            f32::MAX,
            f32::MIN,
            -0.0,
            0.0,
            1.0,
            -0.01,
            1.01,
            1e-40,
            -3.0,
        ];
        const TALL: [f32; 10] = [
            f32::NAN,
            f32::INFINITY,
            f32::NEG_INFINITY,
            f32::MAX,
            f32::MIN,
            -0.0,
            -0.5,
            1.0,
            1.5,
            1e-40,
        ];
        let mut at: [f32; 4] = std::array::from_fn(|_| random.unit());
        let mut tall: [f32; 4] = std::array::from_fn(|_| random.unit());
        for i in 0..4 {
            match random.below(8) {
                0 | 1 => at[i] = AT[random.below(AT.len())],
                // Two that overlap.
                2 | 3 => at[i] = at[(i + 1) % 4] + (random.unit() - 0.5) * 0.02,
                // Any bits at all.
                4 => at[i] = f32::from_bits(random.next() as u32),
                _ => {}
            }
            match random.below(4) {
                0 => tall[i] = TALL[random.below(TALL.len())],
                1 if random.below(4) == 0 => tall[i] = f32::from_bits(random.next() as u32),
                _ => {}
            }
        }
        let used = match random.below(8) {
            6 => 1000,
            7 => u32::MAX,
            n => n as u32,
        };
        Self { at, tall, used }
    }

    /// Positions about the taps: where each begins and ends, its middle, and two points on its sides.
    pub fn positions(&self) -> Vec<u32> {
        let about = |at: &f32| [-0.014, -0.007, 0.0, 0.0035, 0.014].map(|d| at + d);
        self.at.iter().flat_map(about).flat_map(neighbours).collect()
    }
}
