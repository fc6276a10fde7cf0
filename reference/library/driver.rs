//! Compares everything that the static library offers with the reference: equal bits, NaN with NaN, zero with zero. The
//! reference is unchanged; at eight turns it is the copy that draws as many. What it doesn't have is restated here:
//! steps (beside its walk, in answers.rs), strips, captions, which curve bytes end near a level, and refusals; its
//! gates are the bars too. Every difference is printed with its input.

mod asked;
mod turns;

use crate::answers::{self, POSITIONS, READ, Setting, Taps, block, build, kind, neighbours, place};
use crate::generator::{GATES_DRAWN, Generator, arpeggiator_gates};
use crate::juvrada::{self, BLOCK, MAX_MARKS, MAX_SETTINGS, MAX_STRIP, MIN_STRIP};
use crate::juvrada::{CountResult, CurveResult, StripResult};
use crate::random::Random;
use crate::stand_in::Program;
use asked::{Asked, Curve, Lent, Reference};
use std::sync::atomic::{AtomicU64, AtomicUsize, Ordering::Relaxed};
use std::time::{Duration, Instant};

fn agree(ours: f32, theirs: f32) -> bool {
    // Floats that are equal and whose bits differ are zeros.
    ours.to_bits() == theirs.to_bits() || ours == theirs || ours.is_nan() && theirs.is_nan()
}

// ---- counts

const COUNTED: usize = 20;

/// How many of each were compared.
#[derive(Clone, Copy)]
enum Counted {
    Heights,
    Slewed,
    Samples,
    Strips,
    Captions,
    Captioned,
    Changed,
    Settings,
    Marks,
    Others,
    Gates,
    Bars,
    TapHeights,
    TapMarks,
    Curves,
    NoCurves,
    Bends,
    Unchanged,
    Refusals,
    TurnsRefusals,
}

/// Without a number of turns, at six, and at eight.
const ROWS: usize = 3;

fn row(turns: Option<u32>) -> usize {
    match turns {
        None => 0,
        Some(6) => 1,
        Some(_) => 2,
    }
}

type Find = unsafe extern "C" fn(*const u8, usize, *mut f32, *mut f32) -> CountResult;

/// What finds the gates, and the bars, which are the gates too.
const STRETCHES: [(&str, Find, Counted); 2] = [
    ("gates", juvrada::juvrada_gates, Counted::Gates),
    ("bars", juvrada::juvrada_bars, Counted::Bars),
];

/// What all threads share.
struct Shared {
    counts: [[AtomicU64; COUNTED]; ROWS],
    different: AtomicUsize,
}

/// The most differences that are printed.
const PRINTED: usize = 40;

/// What one thread works with.
struct Work<'a> {
    shared: &'a Shared,
    counts: [[u64; COUNTED]; ROWS],
    random: Random,
}

impl Work<'_> {
    fn count(&mut self, what: Counted, n: usize) {
        self.count_at(None, what, n);
    }

    fn count_at(&mut self, turns: Option<u32>, what: Counted, n: usize) {
        self.counts[row(turns)][what as usize] += n as u64;
    }

    fn differ(&self, text: impl FnOnce() -> String) {
        if self.shared.different.fetch_add(1, Relaxed) < PRINTED {
            println!("different: {}", text());
        }
    }

    fn flush(&mut self) {
        let sums = self.shared.counts.iter().flatten();
        for (sum, n) in sums.zip(self.counts.iter_mut().flatten()) {
            sum.fetch_add(*n, Relaxed);
            *n = 0;
        }
    }

    // ---- one comparison each

    fn height(&mut self, curve: &Curve<impl Reference>, t: f32) {
        let ours = curve.asked().height(t);
        let (theirs, steps) = (curve.generator.height(t), curve.steps(t));
        if ours.refusal != 0 || !agree(ours.height, theirs) || ours.steps != steps {
            self.differ(|| {
                let b = t.to_bits();
                format!("height of {curve} at {t} ({b:08x}): {ours:?}, the reference has {theirs}, steps {steps}")
            });
        }
        self.count_at(curve.turns, Counted::Heights, 1);
        self.count_at(curve.turns, Counted::Slewed, usize::from(steps > 0));
    }

    fn settings(&mut self, curve: &Curve<Generator>) {
        let (code, program) = (curve.code, curve.program);
        let mut lent = Lent::new(MAX_SETTINGS);
        let ours = unsafe { juvrada::juvrada_settings(program.0.as_ptr(), BLOCK, code as u32, lent.pointer()) };
        let number = |setting| match setting {
            Setting::Float(x) => x,
            Setting::Number(n) => f32::from(n),
        };
        let theirs: Vec<f32> = answers::settings(code, &curve.generator).into_iter().map(number).collect();
        let n = theirs.len();
        let same = lent.first(n).iter().zip(&theirs).all(|(&a, &b)| agree(a, b));
        if !same || ours != accepted(n) || !lent.kept_from(n) {
            let all = lent.first(MAX_SETTINGS);
            self.differ(|| format!("settings of {curve}: {ours:?} {all:?}, the reference has {theirs:?}"));
        }
        self.count(Counted::Settings, n);
    }

    fn marks(&mut self, curve: &Curve<impl Reference>) {
        let (mut at, mut kinds) = (Lent::new(MAX_MARKS), Lent::new(MAX_MARKS));
        let ours = curve.asked().marks(&mut at, &mut kinds);
        let n = self.same_marks(&curve.generator, ours, &at, &kinds, || curve.to_string());
        self.count_at(curve.turns, Counted::Marks, n);
    }

    fn same_marks(
        &self,
        generator: &impl Reference,
        ours: CountResult,
        at: &Lent<f32>,
        kinds: &Lent<u8>,
        input: impl FnOnce() -> String,
    ) -> usize {
        let theirs = generator.all_marks();
        let n = theirs.len();
        let same = (0..n).all(|i| agree(at.first(n)[i], theirs[i].0) && kinds.first(n)[i] == theirs[i].1);
        if !same || ours != accepted(n) || !at.kept_from(n) || !kinds.kept_from(n) {
            let (at, kinds) = (at.first(MAX_MARKS), kinds.first(MAX_MARKS));
            self.differ(|| {
                let input = input();
                format!("marks of {input}: {ours:?} {at:?} {kinds:?}, the reference has {theirs:?}")
            });
        }
        n
    }

    fn scale(&mut self, curve: &Curve<impl Reference>) {
        let (ours, theirs) = (curve.asked().scale(), curve.generator.measure());
        if ours.refusal != 0 || ours.kind != theirs.0 || !agree(ours.number, theirs.1) {
            self.differ(|| format!("scale of {curve}: {ours:?}, the reference has {theirs:?}"));
        }
        self.count_at(curve.turns, Counted::Others, 1);
    }

    /// Rest, scale and whether it is anchored.
    fn others(&mut self, curve: &Curve<Generator>) {
        let (at, code) = (curve.program.0.as_ptr(), curve.code as u32);
        let ours = unsafe { juvrada::juvrada_rest(at, BLOCK, code) };
        let theirs = curve.generator.rest();
        if ours.refusal != 0 || !agree(ours.level, theirs) {
            self.differ(|| format!("rest of {curve}: {ours:?}, the reference has {theirs}"));
        }
        self.scale(curve);
        let ours = unsafe { juvrada::juvrada_anchored(at, BLOCK, code) };
        let theirs = curve.generator.anchored();
        if ours.refusal != 0 || ours.anchored != u32::from(theirs) {
            self.differ(|| format!("anchored of {curve}: {ours:?}, the reference has {theirs}"));
        }
        self.count(Counted::Others, 2);
    }

    /// All that a generator says of itself.
    fn about(&mut self, curve: &Curve<Generator>) {
        self.settings(curve);
        self.marks(curve);
        self.others(curve);
    }

    fn strip(&mut self, curve: &Curve<impl Reference>, n: usize) {
        let mut lent = Lent::new(n);
        let ours = curve.asked().strip(&mut lent, n);
        let mut steps = 0;
        for (i, &sample) in lent.first(n).iter().enumerate() {
            let t = sample_position(i, n);
            let theirs = curve.generator.height(t);
            steps += curve.steps(t);
            if !agree(sample, theirs) {
                self.differ(|| {
                    format!("sample {i} of a strip of {n} of {curve}: {sample}, the reference has {theirs}")
                });
            }
        }
        if ours != (StripResult { refusal: 0, steps }) || !lent.kept_from(n) {
            self.differ(|| format!("strip of {n} of {curve}: {ours:?}, the steps are {steps}"));
        }
        self.strip_once(curve, lent.first(n));
        self.count_at(curve.turns, Counted::Strips, 1);
        self.count_at(curve.turns, Counted::Samples, n);
    }

    /// One walk along the strip leaves what the plain engine left. Its steps are its own.
    fn strip_once(&mut self, curve: &Curve<impl Reference>, plain: &[f32]) {
        let n = plain.len();
        let mut lent = Lent::new(n);
        let ours = curve.asked().strip_once(&mut lent, n);
        let steps = curve.once_steps(n);
        let alike = plain.iter().zip(lent.first(n)).all(|(a, b)| a.to_bits() == b.to_bits());
        if ours != (StripResult { refusal: 0, steps }) || !alike || !lent.kept_from(n) {
            self.differ(|| {
                let plain = if alike { "as the plain engine's" } else { "not as the plain engine's" };
                format!("strip of {n} by one walk, of {curve}: {ours:?}, the steps are {steps}; {plain}")
            });
        }
    }

    /// At six turns each function answers as the one without turns, bit for bit; at eight too, except sampled shapes.
    fn unchanged(&mut self, code: usize, program: &Program, t: f32, n: usize) {
        let words = |turns| Asked::new(&program.0, code as u32, turns).words(t, n);
        let without = words(None);
        let sampled = (3..7).contains(&code) && matches!(program.0[READ[code][0]], 5 | 6);
        for turns in [6, 8] {
            if turns == 8 && sampled {
                continue;
            }
            if words(Some(turns)) != without {
                self.differ(|| {
                    let curve = Curve::new(code, program);
                    format!("{curve} at {turns} turns, height at {t}, strip of {n}: not as without turns")
                });
            }
            self.count(Counted::Unchanged, without.len());
        }
    }

    fn captions(&mut self, curve: &Curve<Generator>, n: usize) {
        let (code, program) = (curve.code, curve.program);
        let mut lent = Lent::new(n);
        let refusal = unsafe { juvrada::juvrada_captions(program.0.as_ptr(), BLOCK, code as u32, lent.pointer(), n) };
        let by_marks = |i: usize| {
            if code > 2 {
                return 255;
            }
            let t = sample_position(i, n);
            let before = curve.generator.marks().filter(|mark| mark.at() <= t);
            before
                .map(|mark| kind(mark.kind()))
                .last()
                .expect("the attack starts at 0")
        };
        let mut changed = 0;
        for (i, &caption) in lent.first(n).iter().enumerate() {
            let marked = by_marks(i);
            // The rule before had sample 0 of an envelope as the attack. What has changed since is that sample where the attack's byte is 0.
            let start = code < 3 && i == 0;
            let former = if start { 0 } else { marked };
            let listed = match READ[code] {
                &[attack, decay, ..] if start && program.0[attack] == 0 => 1 + u8::from(program.0[decay] == 0),
                _ => former,
            };
            changed += usize::from(caption != former);
            for (what, expected) in [("its marks", marked), ("the list of changes", listed)] {
                if caption != expected {
                    self.differ(|| format!("caption {i} of {n} of {curve}: {caption}, expected {expected} by {what}"));
                }
            }
        }
        if refusal != 0 || !lent.kept_from(n) {
            self.differ(|| format!("{n} captions of {curve}: refusal {refusal}"));
        }
        self.count(Counted::Captions, 1);
        self.count(Counted::Captioned, n);
        self.count(Counted::Changed, changed);
    }

    fn gates(&mut self, program: &Program) {
        let gates: Vec<(f32, f32)> = arpeggiator_gates(program)
            .map(|gate| (gate.start(), gate.end()))
            .collect();
        let n = gates.len();
        for (what, find, counted) in STRETCHES {
            let (mut start, mut end) = (Lent::new(GATES_DRAWN), Lent::new(GATES_DRAWN));
            let ours = unsafe { find(program.0.as_ptr(), BLOCK, start.pointer(), end.pointer()) };
            let same = (0..n).all(|i| agree(start.first(n)[i], gates[i].0) && agree(end.first(n)[i], gates[i].1));
            if !same || ours != accepted(n) || !start.kept_from(n) || !end.kept_from(n) {
                let (byte, start, end) = (program.0[160], start.first(GATES_DRAWN), end.first(GATES_DRAWN));
                self.differ(|| format!("{what} of byte {byte}: {ours:?} {start:?} {end:?}, expected {gates:?}"));
            }
            self.count(counted, n);
        }
    }

    fn taps(&mut self, taps: &Taps, positions: impl IntoIterator<Item = u32>) {
        let generator = taps.generator();
        let (at, tall, used) = (taps.at, taps.tall, taps.used);
        for b in positions {
            let t = f32::from_bits(b);
            let ours = unsafe { juvrada::juvrada_taps_height(at.as_ptr(), tall.as_ptr(), used, t) };
            let theirs = generator.at(t);
            if ours.refusal != 0 || ours.steps != 0 || !agree(ours.height, theirs) {
                self.differ(|| {
                    format!("taps {at:?} {tall:?} {used} at {t} ({b:08x}): {ours:?}, the reference has {theirs}")
                });
            }
            self.count(Counted::TapHeights, 1);
        }
        let (mut places, mut kinds) = (Lent::new(MAX_MARKS), Lent::new(MAX_MARKS));
        let ours =
            unsafe { juvrada::juvrada_taps_marks(at.as_ptr(), tall.as_ptr(), used, places.pointer(), kinds.pointer()) };
        let n = self.same_marks(&generator, ours, &places, &kinds, || {
            format!("taps {at:?} {tall:?} {used}")
        });
        self.count(Counted::TapMarks, n);
    }

    /// A curve byte whose end is near the wanted level, among those that the reference stores; or that there is none, or that the level is none.
    fn curve(&mut self, sustain: u8, ends: &[f32], wanted: f32) {
        let ours = unsafe { juvrada::juvrada_curve_for_end(sustain, wanted) };
        let answer = |refusal, found, byte, tried| CurveResult { refusal, found, byte, tried };
        let end = ends.get(ours.byte as usize).filter(|_| ours.found == 1);
        let (counted, right) = if !(0.0..=1.0).contains(&wanted) {
            (Counted::Refusals, ours == answer(4, 0, 0, 0))
        } else if let Some(&end) = end {
            (Counted::Curves, near(end, wanted) && ours == answer(0, 1, ours.byte, ours.byte + 1))
        } else {
            let none = !ends.iter().any(|&end| near(end, wanted));
            (Counted::NoCurves, none && ours == answer(0, 0, 0, 256))
        };
        if !right {
            let b = wanted.to_bits();
            self.differ(|| format!("curve byte for sustain {sustain} and {wanted} ({b:08x}): {ours:?}, end {end:?}"));
        }
        self.count(counted, 1);
    }

    /// The bend of a curve byte is what the reference stores for the curve of each segment that bends.
    fn bend(&mut self, curve: u8) {
        let ours = unsafe { juvrada::juvrada_bend(curve) };
        for (column, setting) in [(4, 5), (5, 6), (7, 7)] {
            let program = block(&mut self.random, &READ[0][column..=column], &[curve]);
            let theirs = stored(&program, setting);
            if ours.to_bits() != theirs.to_bits() {
                self.differ(|| format!("bend of {curve}: {ours}, the reference has {theirs}"));
            }
            self.count(Counted::Bends, 1);
        }
    }

    /// Every function that looks at the block, or, with a number of turns, every one that takes it, with input that is
    /// refused: the refusal, zeros beside it, and everything lent as it was.
    fn refused(&mut self, asked: Asked, n: usize) {
        let block = (asked.bytes.len() != BLOCK, 1);
        let code = (asked.code > 13, 2);
        let turns = (asked.turns.is_some_and(|turns| turns != 6 && turns != 8), 5);
        let length = (!(MIN_STRIP..=MAX_STRIP).contains(&n), 3);
        let first = |checks: &[(bool, u32)]| checks.iter().find(|check| check.0).map(|check| check.1);
        let mut refused = Refused::new(asked, n);
        if let Some(refusal) = first(&[block, code, turns, length]) {
            refused.strips(refusal);
        }
        if let Some(refusal) = first(&[block, code, turns]) {
            refused.curves(refusal, self.random.unit());
        }
        if let (None, Some(refusal)) = (asked.turns, first(&[block])) {
            refused.stretches(refusal);
        }
        for text in &refused.wrong {
            let (len, code, turns) = (asked.bytes.len(), asked.code, asked.turns);
            self.differ(|| {
                let input = format!("a block of {len}, code {code}, turns {turns:?}, {n} samples");
                format!("refusal of {input}: {text}, or what was lent is written to")
            });
        }
        let counted = if asked.turns.is_none() { Counted::Refusals } else { Counted::TurnsRefusals };
        self.count(counted, refused.calls);
    }
}

/// Calls that are refused: what is asked with, the samples of a strip, how many calls were made, and what was wrong.
struct Refused<'a> {
    asked: Asked<'a>,
    n: usize,
    calls: usize,
    wrong: Vec<String>,
}

impl<'a> Refused<'a> {
    fn new(asked: Asked<'a>, n: usize) -> Self {
        Self {
            asked,
            n,
            calls: 0,
            wrong: Vec::new(),
        }
    }

    fn see(&mut self, good: bool, text: String) {
        self.calls += 1;
        if !good {
            self.wrong.push(text);
        }
    }

    /// What has a length.
    fn strips(&mut self, refusal: u32) {
        let (asked, n) = (self.asked, self.n);
        let none = StripResult { refusal, steps: 0 };
        let mut out = Lent::new(n);
        let r = asked.strip(&mut out, n);
        self.see(r == none && out.kept_from(0), format!("strip {r:?}"));
        let r = asked.strip_once(&mut out, n);
        self.see(r == none && out.kept_from(0), format!("strip by one walk {r:?}"));
        if asked.turns.is_some() {
            return;
        }
        let mut out = Lent::new(n);
        let (at, len) = (asked.bytes.as_ptr(), asked.bytes.len());
        let r = unsafe { juvrada::juvrada_captions(at, len, asked.code, out.pointer(), n) };
        self.see(r == refusal && out.kept_from(0), format!("captions {r}"));
    }

    /// What takes a code and has no length.
    fn curves(&mut self, refusal: u32, t: f32) {
        let asked = self.asked;
        let none = CountResult { refusal, count: 0 };
        let r = asked.height(t);
        let good = (r.refusal, r.steps, r.height.to_bits()) == (refusal, 0, 0);
        self.see(good, format!("height {r:?}"));
        let (mut places, mut kinds) = (Lent::new(MAX_MARKS), Lent::new(MAX_MARKS));
        let r = asked.marks(&mut places, &mut kinds);
        let good = r == none && places.kept_from(0) && kinds.kept_from(0);
        self.see(good, format!("marks {r:?}"));
        let r = asked.scale();
        let good = (r.refusal, r.kind, r.number.to_bits()) == (refusal, 0, 0);
        self.see(good, format!("scale {r:?}"));
        if asked.turns.is_some() {
            return;
        }
        let (at, len, code) = (asked.bytes.as_ptr(), asked.bytes.len(), asked.code);
        let r = unsafe { juvrada::juvrada_rest(at, len, code) };
        self.see((r.refusal, r.level.to_bits()) == (refusal, 0), format!("rest {r:?}"));
        let r = unsafe { juvrada::juvrada_anchored(at, len, code) };
        self.see((r.refusal, r.anchored) == (refusal, 0), format!("anchored {r:?}"));
        let mut out = Lent::new(MAX_SETTINGS);
        let r = unsafe { juvrada::juvrada_settings(at, len, code, out.pointer()) };
        self.see(r == none && out.kept_from(0), format!("settings {r:?}"));
    }

    /// The gates and the bars, which take a block alone.
    fn stretches(&mut self, refusal: u32) {
        let (at, len) = (self.asked.bytes.as_ptr(), self.asked.bytes.len());
        for (what, find, _) in STRETCHES {
            let (mut start, mut end) = (Lent::new(GATES_DRAWN), Lent::new(GATES_DRAWN));
            let r = unsafe { find(at, len, start.pointer(), end.pointer()) };
            let good = r == CountResult { refusal, count: 0 } && start.kept_from(0) && end.kept_from(0);
            self.see(good, format!("{what} {r:?}"));
        }
    }
}

fn accepted(n: usize) -> CountResult {
    CountResult {
        refusal: 0,
        count: n as u32,
    }
}

/// Whether two levels are at most 1/512 apart. Their difference is exact as an f64, or is rounded on its own side of 1/512.
fn near(a: f32, b: f32) -> bool {
    (f64::from(a) - f64::from(b)).abs() <= 1.0 / 512.0
}

/// The ends of the sustain that the reference stores, by the curve's byte.
fn ends(sustain: u8) -> Vec<f32> {
    let end = |curve| {
        let mut program = Program([0; BLOCK]);
        program.0[READ[0][2]] = sustain;
        program.0[READ[0][6]] = curve;
        stored(&program, 4)
    };
    (0..=255).map(end).collect()
}

/// A setting that the reference stores for the VCA envelope, by its place among them.
fn stored(program: &Program, at: usize) -> f32 {
    match answers::settings(0, &build(0, program))[at] {
        Setting::Float(x) => x,
        Setting::Number(_) => unreachable!("an envelope's settings are floats"),
    }
}

/// Where sample i of n lies.
fn sample_position(i: usize, n: usize) -> f32 {
    i as f32 / (n - 1) as f32
}

// ---- what is drawn

/// A block whose looked-up bytes are often ones that the tables name.
fn drawn_block(random: &mut Random) -> Program {
    let mut program = block(random, &[], &[]);
    let mut often = |at: usize, below: usize| {
        if random.below(4) > 0 {
            program.0[at] = random.below(below) as u8;
        }
    };
    for (at, below) in [(2, 8), (9, 8), (3, 2), (10, 2), (16, 7), (18, 2), (19, 2), (51, 3)] {
        often(at, below);
    }
    for at in [6, 13, 53, 54, 56, 62, 63, 65, 71, 72, 74] {
        if random.below(4) == 0 {
            program.0[at] = 0;
        }
    }
    program
}

/// Positions of every kind, every mark and its neighbours, places where a walk takes a step more, and some at random.
fn positions(random: &mut Random, curve: &Curve<impl Reference>, drawn: usize) -> Vec<u32> {
    let mut all = POSITIONS.to_vec();
    for (at, _) in curve.generator.all_marks() {
        let b = at.to_bits();
        all.extend([b.wrapping_sub(1), b, b.wrapping_add(1)]);
    }
    if curve.slewed() {
        let turns = curve.generator.measure().1;
        for _ in 0..2 {
            let count = 96 + random.below(96 * turns as usize) as u16;
            all.extend(neighbours(place(count) / turns));
        }
    }
    all.extend((0..drawn).map(|_| random.unit().to_bits()));
    all.push(random.next() as u32);
    all
}

/// The length of a strip: mostly short, now and then long or an end of what is allowed.
fn drawn_length(random: &mut Random) -> usize {
    match random.below(256) {
        0 => MAX_STRIP,
        1 => MIN_STRIP,
        2 => MIN_STRIP + random.below(MAX_STRIP - MIN_STRIP + 1),
        _ => MIN_STRIP + random.below(40),
    }
}

// ---- jobs

type Job = Box<dyn Fn(&mut Work) + Send + Sync>;

/// Every value of one byte that a code reads, the others random.
fn every_value(work: &mut Work, code: usize, column: usize) {
    for value in 0..=255 {
        for _ in 0..6 {
            let mut program = drawn_block(&mut work.random);
            program.0[READ[code][column]] = value;
            let curve = Curve::new(code, &program);
            work.about(&curve);
            for b in positions(&mut work.random, &curve, 6) {
                work.height(&curve, f32::from_bits(b));
            }
        }
    }
}

/// A generator of these bytes, what it says of itself, and some heights.
fn one(work: &mut Work, code: usize, bytes: &[u8], heights: usize) {
    let program = block(&mut work.random, READ[code], bytes);
    let curve = Curve::new(code, &program);
    work.about(&curve);
    for _ in 0..heights {
        let t = work.random.unit();
        work.height(&curve, t);
    }
}

/// Every slew of a shape, with a short strip.
fn every_slew(work: &mut Work, code: usize, shape: u8) {
    for slew in 0..=255 {
        let bytes = [shape, work.random.byte() & 1, slew];
        one(work, code, &bytes, 12);
        let program = block(&mut work.random, READ[code], &bytes);
        work.strip(&Curve::new(code, &program), 33);
    }
}

/// All that is offered, of every code of a random block.
fn whole_block(work: &mut Work, program: &Program) {
    for code in 0..14 {
        let curve = Curve::new(code, program);
        work.about(&curve);
        for b in positions(&mut work.random, &curve, 4) {
            work.height(&curve, f32::from_bits(b));
        }
        let n = drawn_length(&mut work.random);
        work.strip(&curve, n);
        work.captions(&curve, n);
    }
    work.gates(program);
}

const LENGTHS: [usize; 9] = [2, 3, 4, 63, 64, 511, 512, 4095, 4096];

/// Strips and captions of telling lengths.
fn lengths(work: &mut Work, code: usize, slew: Option<u8>, shape: u8) {
    for n in LENGTHS {
        let mut program = drawn_block(&mut work.random);
        if let Some(slew) = slew {
            program.0[READ[code][0]] = shape;
            program.0[READ[code][2]] = slew;
        }
        let curve = Curve::new(code, &program);
        work.strip(&curve, n);
        work.captions(&curve, n);
    }
}

/// Captions of an envelope with this attack and every decay, with no release and with one, at telling lengths.
fn starts(work: &mut Work, code: usize, attack: u8) {
    for decay in 0..=255 {
        for release in [0, work.random.byte()] {
            let program = block(&mut work.random, &READ[code][..4], &[attack, decay, 200, release]);
            for n in [MIN_STRIP, 65, 501] {
                work.captions(&Curve::new(code, &program), n);
            }
        }
    }
}

/// The bits between two positions of a sweep.
const STRIDE: usize = 1021;

/// Positions from 0 to 1 at an even distance of bits, 8 blocks in turn. LFOs have slew 0.
fn sweep(work: &mut Work, code: usize) {
    let programs: Vec<Program> = (0..8)
        .map(|_| {
            let mut program = drawn_block(&mut work.random);
            program.0[6] = 0;
            program.0[13] = 0;
            program
        })
        .collect();
    let curves: Vec<_> = programs.iter().map(|program| Curve::new(code, program)).collect();
    for (i, b) in (0..=0x3f80_0000u32).step_by(STRIDE).enumerate() {
        work.height(&curves[i % curves.len()], f32::from_bits(b));
    }
}

fn refusals(work: &mut Work) {
    let bytes = work.random.bytes(1000);
    for len in [0, 1, 160, 241, 242, 243, 484, 1000] {
        // What is no byte is refused too, and not read by its low byte.
        for code in (0..=255).chain([256, 257, 269, 512, 0x1_0000, 0x100_0003, u32::MAX]) {
            for n in [0, 1, 2, 4096, 4097, 5000] {
                work.refused(Asked::new(&bytes[..len], code, None), n);
            }
        }
    }
}

/// Wanted levels of a sustain byte: each end of it, what lies 1/512 to either side, the neighbours of all these, and numbers of every kind.
fn wanted(work: &mut Work, sustain: u8) {
    let ends = ends(sustain);
    for &end in &ends {
        for level in [end, end - 1.0 / 512.0, end + 1.0 / 512.0] {
            for bits in [-2, -1, 0, 1, 2].map(|by| level.to_bits().wrapping_add_signed(by)) {
                work.curve(sustain, &ends, f32::from_bits(bits));
            }
        }
        let level = work.random.unit();
        work.curve(sustain, &ends, level);
    }
    for bits in POSITIONS {
        work.curve(sustain, &ends, f32::from_bits(bits));
    }
}

/// Every length of a block that is near, and every length of a strip that is.
fn refusal_ends(work: &mut Work) {
    let bytes = work.random.bytes(600);
    for len in 0..=600 {
        work.refused(Asked::new(&bytes[..len], (len % 20) as u32, None), 100);
    }
    for n in (0..=20).chain(4080..=4200) {
        for code in 0..14 {
            work.refused(Asked::new(&bytes[..BLOCK], code, None), n);
        }
    }
}

fn jobs() -> Vec<Job> {
    let mut all: Vec<Job> = vec![Box::new(refusals), Box::new(refusal_ends)];
    for code in 0..14 {
        for column in 0..READ[code].len() {
            all.push(Box::new(move |work| every_value(work, code, column)));
        }
        all.push(Box::new(move |work| sweep(work, code)));
        all.push(Box::new(move |work| lengths(work, code, None, 0)));
    }
    for code in 3..7 {
        for shape in 0..8 {
            all.push(Box::new(move |work| every_slew(work, code, shape)));
        }
    }
    for shape in 0..7 {
        for slew in [0, 1, 128, 255] {
            let code = 3 + usize::from(shape + slew) % 4;
            all.push(Box::new(move |work| lengths(work, code, Some(slew), shape)));
        }
    }
    for pole in 0..=255 {
        all.push(Box::new(move |work| {
            (0..=255).for_each(|resonance| one(work, 9, &[resonance, pole], 4));
        }));
    }
    for source in 0..=255 {
        all.push(Box::new(move |work| {
            for depth in 0..=255 {
                for waves in 0..4 {
                    one(work, 11, &[source, waves & 1, waves >> 1, depth], 2);
                }
            }
        }));
    }
    for code in [0, 1, 2] {
        // Every curve of each segment with every level: the sustain's, then the others with their times.
        for curve in 0..=255 {
            all.push(Box::new(move |work| {
                for level in 0..=255 {
                    let mut bytes = work.random.bytes(8);
                    bytes[2] = level;
                    bytes[4 + usize::from(level) % 4] = curve;
                    bytes[6] = curve;
                    one(work, code, &bytes, 4);
                }
            }));
        }
    }
    all.push(Box::new(|work| {
        for value in 0..=255 {
            for _ in 0..8 {
                let program = block(&mut work.random, &[160], &[value]);
                work.gates(&program);
            }
        }
    }));
    for value in [0, 255] {
        all.push(Box::new(move |work| whole_block(work, &Program([value; BLOCK]))));
    }
    for _ in 0..120 {
        all.push(Box::new(|work| {
            for _ in 0..100 {
                let program = drawn_block(&mut work.random);
                whole_block(work, &program);
            }
        }));
    }
    for _ in 0..20 {
        all.push(Box::new(|work| {
            for _ in 0..1000 {
                let taps = Taps::drawn(&mut work.random);
                let mut positions = POSITIONS.to_vec();
                positions.extend(taps.positions());
                positions.extend((0..4).map(|_| work.random.unit().to_bits()));
                work.taps(&taps, positions);
            }
        }));
    }
    for sustain in 0..=255 {
        all.push(Box::new(move |work| wanted(work, sustain)));
    }
    for code in [0, 1, 2] {
        for attack in [0, 1, 255] {
            all.push(Box::new(move |work| starts(work, code, attack)));
        }
    }
    all.push(Box::new(|work| (0..=255).for_each(|curve| work.bend(curve))));
    // These stand last, so that the others draw the numbers that they drew without them.
    all.extend(turns::jobs());
    all
}

/// 1234567 as 1,234,567.
fn grouped(n: u64) -> String {
    let digits = n.to_string();
    let group = |(i, c)| {
        if i > 0 && (digits.len() - i) % 3 == 0 {
            vec![',', c]
        } else {
            vec![c]
        }
    };
    digits.chars().enumerate().flat_map(group).collect()
}

fn print_counts(shared: &Shared) {
    use Counted::*;
    let at = |turns, what: Counted| grouped(shared.counts[row(turns)][what as usize].load(Relaxed));
    let of = |what| at(None, what);
    println!("heights {}, of them slewed {}", of(Heights), of(Slewed));
    let (samples, strips, captioned, captions) = (of(Samples), of(Strips), of(Captioned), of(Captions));
    println!("samples {samples} of {strips} strips, captions {captioned} of {captions}, changed {}", of(Changed));
    println!("settings {}, marks {}, rest, scale, anchored {}", of(Settings), of(Marks), of(Others));
    let (heights, marks) = (of(TapHeights), of(TapMarks));
    println!("gates {}, bars {}, taps: heights {heights}, marks {marks}", of(Gates), of(Bars));
    println!("curve bytes {}, none {}, bends {}", of(Curves), of(NoCurves), of(Bends));
    for turns in [6, 8] {
        let of = |what| at(Some(turns), what);
        let (heights, slewed, samples, strips) = (of(Heights), of(Slewed), of(Samples), of(Strips));
        print!("at {turns} turns: heights {heights}, of them slewed {slewed}, samples {samples} of {strips} strips, ");
        println!("marks {}, scales {}", of(Marks), of(Others));
    }
    println!("words that are the same with turns and without {}", of(Unchanged));
    println!("refusals {}, and where turns are taken {}", of(Refusals), of(TurnsRefusals));
}

pub fn run() {
    let started = Instant::now();
    let jobs = jobs();
    let shared = Shared {
        counts: [const { [const { AtomicU64::new(0) }; COUNTED] }; ROWS],
        different: AtomicUsize::new(0),
    };
    let (taken, done) = (AtomicUsize::new(0), AtomicUsize::new(0));
    let threads = std::thread::available_parallelism().map_or(2, usize::from);
    std::thread::scope(|scope| {
        for _ in 0..threads {
            scope.spawn(|| {
                loop {
                    let i = taken.fetch_add(1, Relaxed);
                    let Some(job) = jobs.get(i) else { break };
                    let mut work = Work {
                        shared: &shared,
                        counts: [[0; COUNTED]; ROWS],
                        // A job's numbers don't hang on which thread takes it.
                        random: Random((i as u64 + 1) << 32),
                    };
                    job(&mut work);
                    work.flush();
                    done.fetch_add(1, Relaxed);
                }
            });
        }
        let mut told = Instant::now();
        while done.load(Relaxed) < jobs.len() && shared.different.load(Relaxed) < PRINTED {
            std::thread::sleep(Duration::from_millis(50));
            if told.elapsed() > Duration::from_secs(5) {
                eprintln!("reference/library: {} of {} parts", done.load(Relaxed), jobs.len());
                told = Instant::now();
            }
        }
        // There is enough to look at: no further part is begun.
        taken.store(jobs.len(), Relaxed);
    });
    print_counts(&shared);
    let different = shared.different.load(Relaxed);
    println!(
        "different {different} ({:.0} s, {threads} threads)",
        started.elapsed().as_secs_f64()
    );
    if different > 0 {
        std::process::exit(1);
    }
}
