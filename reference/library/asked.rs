//! What the library is asked with and what is lent to it, and beside it what the reference says.

use crate::answers::{self, READ, build, once_steps, scale, slewed, steps};
use crate::eight::{self, generator::Generator as Eight};
use crate::generator::Generator;
use crate::juvrada::{self, CountResult, HeightResult, MAX_MARKS, ScaleResult, StripResult};
use crate::stand_in::Program;
use std::fmt;

// ---- what is lent

/// An entry of a lent array. Before the call each holds a value of its own, which no answer is.
pub trait Entry: Copy + PartialEq {
    fn fresh(i: usize) -> Self;
}

impl Entry for f32 {
    fn fresh(i: usize) -> Self {
        f32::from_bits(0x5a00_0000 + i as u32)
    }
}

impl Entry for u8 {
    fn fresh(i: usize) -> Self {
        0x40 + (i % 64) as u8
    }
}

/// A lent array, with entries on either side that nobody may write.
pub struct Lent<T>(pub Vec<T>);

pub const BESIDE: usize = 8;

impl<T: Entry> Lent<T> {
    pub fn new(n: usize) -> Self {
        Self((0..n + 2 * BESIDE).map(T::fresh).collect())
    }

    pub fn pointer(&mut self) -> *mut T {
        self.0[BESIDE..].as_mut_ptr()
    }

    pub fn first(&self, n: usize) -> &[T] {
        &self.0[BESIDE..BESIDE + n]
    }

    /// Whether all but the first entries are as they were, those beside the array too.
    pub fn kept_from(&self, count: usize) -> bool {
        let written = BESIDE..BESIDE + count;
        let kept = |(i, &x): (usize, &T)| written.contains(&i) || x == T::fresh(i);
        self.0.iter().enumerate().all(kept)
    }
}

// ---- what is asked and compared

/// What the library is asked with: the bytes of a block, a code, and a number of turns, or none.
#[derive(Clone, Copy)]
pub struct Asked<'a> {
    pub bytes: &'a [u8],
    pub code: u32,
    pub turns: Option<u32>,
}

impl<'a> Asked<'a> {
    pub fn new(bytes: &'a [u8], code: u32, turns: Option<u32>) -> Self {
        Self { bytes, code, turns }
    }

    pub fn height(&self, t: f32) -> HeightResult {
        let (at, len, code) = (self.bytes.as_ptr(), self.bytes.len(), self.code);
        match self.turns {
            None => unsafe { juvrada::juvrada_height(at, len, code, t) },
            Some(turns) => unsafe { juvrada::juvrada_height_turns(at, len, code, turns, t) },
        }
    }

    pub fn strip(&self, out: &mut Lent<f32>, n: usize) -> StripResult {
        let (at, len, code, out) = (self.bytes.as_ptr(), self.bytes.len(), self.code, out.pointer());
        match self.turns {
            None => unsafe { juvrada::juvrada_strip(at, len, code, out, n) },
            Some(turns) => unsafe { juvrada::juvrada_strip_turns(at, len, code, turns, out, n) },
        }
    }

    pub fn strip_once(&self, out: &mut Lent<f32>, n: usize) -> StripResult {
        let (at, len, code, out) = (self.bytes.as_ptr(), self.bytes.len(), self.code, out.pointer());
        match self.turns {
            None => unsafe { juvrada::juvrada_strip_once(at, len, code, out, n) },
            Some(turns) => unsafe { juvrada::juvrada_strip_once_turns(at, len, code, turns, out, n) },
        }
    }

    pub fn marks(&self, places: &mut Lent<f32>, kinds: &mut Lent<u8>) -> CountResult {
        let (at, len, code) = (self.bytes.as_ptr(), self.bytes.len(), self.code);
        let (places, kinds) = (places.pointer(), kinds.pointer());
        match self.turns {
            None => unsafe { juvrada::juvrada_marks(at, len, code, places, kinds) },
            Some(turns) => unsafe { juvrada::juvrada_marks_turns(at, len, code, turns, places, kinds) },
        }
    }

    pub fn scale(&self) -> ScaleResult {
        let (at, len, code) = (self.bytes.as_ptr(), self.bytes.len(), self.code);
        match self.turns {
            None => unsafe { juvrada::juvrada_scale(at, len, code) },
            Some(turns) => unsafe { juvrada::juvrada_scale_turns(at, len, code, turns) },
        }
    }

    /// All that these five answer, and what they leave in the lent arrays.
    pub fn words(&self, t: f32, n: usize) -> Vec<u32> {
        let (height, scale) = (self.height(t), self.scale());
        let mut words = vec![height.refusal, height.steps, height.height.to_bits()];
        words.extend([scale.refusal, scale.kind, scale.number.to_bits()]);
        for fill in [Self::strip, Self::strip_once] {
            let mut out = Lent::new(n);
            let r = fill(self, &mut out, n);
            words.extend([r.refusal, r.steps]);
            words.extend(out.0.iter().map(|x| x.to_bits()));
        }
        let (mut places, mut kinds) = (Lent::new(MAX_MARKS), Lent::new(MAX_MARKS));
        let r = self.marks(&mut places, &mut kinds);
        words.extend([r.refusal, r.count]);
        words.extend(places.0.iter().map(|x| x.to_bits()));
        words.extend(kinds.0.iter().map(|&kind| u32::from(kind)));
        words
    }
}

/// What the reference says of a curve: the unchanged one, or its copy with eight turns.
pub trait Reference {
    fn height(&self, t: f32) -> f32;
    fn all_marks(&self) -> Vec<(f32, u8)>;
    fn measure(&self) -> (u32, f32);
}

impl Reference for Generator {
    fn height(&self, t: f32) -> f32 {
        self.at(t)
    }

    fn all_marks(&self) -> Vec<(f32, u8)> {
        answers::marks(self)
    }

    fn measure(&self) -> (u32, f32) {
        scale(self.scale())
    }
}

impl Reference for Eight {
    fn height(&self, t: f32) -> f32 {
        self.at(t)
    }

    fn all_marks(&self) -> Vec<(f32, u8)> {
        eight::answers::marks(self)
    }

    fn measure(&self) -> (u32, f32) {
        eight::answers::scale(self.scale())
    }
}

/// A curve: a code of a block, the number of turns that it is asked for with, or none, and the reference's generator.
pub struct Curve<'a, G> {
    pub code: usize,
    pub program: &'a Program,
    pub turns: Option<u32>,
    pub generator: G,
}

impl<'a> Curve<'a, Generator> {
    pub fn new(code: usize, program: &'a Program) -> Self {
        Self {
            code,
            program,
            turns: None,
            generator: build(code, program),
        }
    }

    pub fn six(code: usize, program: &'a Program) -> Self {
        Self {
            turns: Some(6),
            ..Self::new(code, program)
        }
    }
}

impl<'a> Curve<'a, Eight> {
    pub fn eight(code: usize, program: &'a Program) -> Self {
        Self {
            code,
            program,
            turns: Some(8),
            generator: eight::answers::build(code, program),
        }
    }
}

impl<G: Reference> Curve<'_, G> {
    pub fn asked(&self) -> Asked<'_> {
        Asked::new(&self.program.0, self.code as u32, self.turns)
    }

    pub fn slewed(&self) -> bool {
        slewed(self.code, self.program)
    }

    /// The steps of the height at t; only a slewed LFO takes any.
    pub fn steps(&self, t: f32) -> u32 {
        if self.slewed() { steps(self.generator.measure().1, t) } else { 0 }
    }

    /// Those of one walk along a strip of n.
    pub fn once_steps(&self, n: usize) -> u32 {
        if self.slewed() { once_steps(self.generator.measure().1, n) } else { 0 }
    }
}

/// As it is printed.
impl<G> fmt::Display for Curve<'_, G> {
    fn fmt(&self, out: &mut fmt::Formatter) -> fmt::Result {
        let bytes: Vec<String> = READ[self.code].iter().map(|&n| format!("{n}: {}", self.program.0[n])).collect();
        write!(out, "code {}, bytes {{{}}}", self.code, bytes.join(", "))?;
        self.turns.map_or(Ok(()), |turns| write!(out, ", {turns} turns"))
    }
}
