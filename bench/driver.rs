//! Times the library and the unchanged reference side by side, doing the same work, or counts their instructions; and prints the tables.
//!   driver time              a line for each figure and side, in seconds
//!   driver count             under callgrind: a dump for each figure and side, and one for the driver's own loop
//!   driver report FILE ..    the tables of what the other two left
//! `run` puts them together.

// The library's functions are declared here once more, in the form that every side has.
#![allow(clashing_extern_declarations)]

mod calls;
mod report;

use crate::answers::{READ, Taps, block};
use crate::juvrada::{BLOCK, MAX_SETTINGS};
use crate::random::Random;
use crate::stand_in::Program;
use calls::{Answer, Height, HeightTurns, Settings, Steps, Strip, StripAnswer, StripTurns, TapsHeight};
use std::arch::asm;
use std::ffi::CString;
use std::hint::black_box;
use std::time::{Duration, Instant};

/// How long one measurement takes at least. It is short, so that some fall between the other work of the machine.
const MEASURED: Duration = Duration::from_micros(100);

/// The sides take turns until each has so many measurements on a quiet core, or until it has taken too long.
const QUIET: usize = 16;
const ENOUGH: Duration = Duration::from_millis(60);

/// How long a measurement waits for a quiet core at most.
const PATIENCE: Duration = Duration::from_millis(3);

/// A figure with fewer quiet measurements of some side is taken up again later, as long as the whole has not taken too long.
const FEWEST: usize = 3;
const LONGEST: Duration = Duration::from_secs(40);

const LENGTHS: [usize; 4] = [2, 64, 512, 4096];

/// The positions of the single heights, and the curve bytes of the settings.
const SINGLE: usize = 256;

/// The envelopes are codes 0 to 2.
const ENVELOPES: usize = 3;

const CODES: [&str; 14] = [
    "VCA envelope",
    "VCF envelope",
    "Mod envelope",
    "LFO 1",
    "LFO 2",
    "LFO 1, unipolar",
    "LFO 2, unipolar",
    "fade of LFO 1",
    "fade of LFO 2",
    "low-pass",
    "high-pass",
    "oscillator 1",
    "oscillator 2",
    "noise",
];

const SHAPES: [&str; 7] = [
    "sine",
    "triangle",
    "square",
    "ramp up",
    "ramp down",
    "sample and hold",
    "sample and glide",
];

/// The slew of the LFOs that are slewed.
const SLEW: u8 = 128;

/// What a row of the one walk has in its name beyond that of the plain engine.
pub const ONE_WALK: &str = ", one walk";

/// What a row of settings has in its name beyond that of the curve.
pub const SETTINGS: &str = ", settings";

/// What a row of the functions that take a number of turns has in its name beyond that of the plain engine.
const TURNS: &str = ", at 6 turns";

/// What fills a strip. Where an LFO is slewed, the plain engine walks to every sample from the start, the other along the strip once. The third is the plain one that is given its
/// turns, as its heights are.
#[derive(Clone, Copy, PartialEq)]
enum Engine {
    Plain,
    OneWalk,
    Turns,
}

impl Engine {
    fn suffix(self) -> &'static str {
        match self {
            Engine::Plain => "",
            Engine::OneWalk => ONE_WALK,
            Engine::Turns => TURNS,
        }
    }
}

/// A library, or the reference in one form and at one level. Its functions are found by the code; only the known form has several.
struct Side {
    name: &'static str,
    height: [Height; 14],
    strip: [Strip; 14],
    strip_once: [Strip; 14],
    height_turns: [Height; 14],
    strip_turns: [Strip; 14],
    settings: [Settings; ENVELOPES],
    taps_height: TapsHeight,
}

impl Side {
    /// A side with one height and one strip, which stand in for those of the other engines too.
    fn new(
        name: &'static str,
        height: [Height; 14],
        strip: [Strip; 14],
        settings: [Settings; ENVELOPES],
        taps_height: TapsHeight,
    ) -> Self {
        Self {
            name,
            height,
            strip,
            strip_once: strip,
            height_turns: height,
            strip_turns: strip,
            settings,
            taps_height,
        }
    }

    fn strip(&self, engine: Engine, code: usize) -> Strip {
        match engine {
            Engine::Plain => self.strip[code],
            Engine::OneWalk => self.strip_once[code],
            Engine::Turns => self.strip_turns[code],
        }
    }

    fn height(&self, engine: Engine, code: usize) -> Height {
        match engine {
            Engine::Turns => self.height_turns[code],
            _ => self.height[code],
        }
    }
}

/// A function of a side, by its symbol.
macro_rules! function {
    ($type:ty, $($symbol:expr),*) => {{
        unsafe extern "C" {
            #[link_name = concat!($($symbol),*)]
            fn function();
        }
        unsafe { std::mem::transmute::<unsafe extern "C" fn(), $type>(function) }
    }};
}

/// A side whose functions are called by its name, and the code where the codes are listed.
macro_rules! side {
    ($name:literal) => {
        Side::new(
            $name,
            [function!(Height, $name, "_height"); 14],
            [function!(Strip, $name, "_strip"); 14],
            [function!(Settings, $name, "_settings"); ENVELOPES],
            function!(TapsHeight, $name, "_taps_height"),
        )
    };
    ($name:literal, $($code:literal)*) => {
        Side::new(
            $name,
            [$(function!(Height, $name, "_", $code, "_height")),*],
            [$(function!(Strip, $name, "_", $code, "_strip")),*],
            [
                function!(Settings, $name, "_", 0, "_settings"),
                function!(Settings, $name, "_", 1, "_settings"),
                function!(Settings, $name, "_", 2, "_settings"),
            ],
            function!(TapsHeight, $name, "_taps_height"),
        )
    };
}

/// A side that has both engines.
macro_rules! library {
    ($name:literal) => {
        Side {
            strip_once: [function!(Strip, $name, "_strip_once"); 14],
            ..side!($name)
        }
    };
}

unsafe extern "C" fn height_at_six(block: *const u8, len: usize, code: u32, t: f32) -> Answer {
    let height = function!(HeightTurns, "juvrada_height_turns");
    unsafe { height(block, len, code, 6, t) }
}

unsafe extern "C" fn strip_at_six(block: *const u8, len: usize, code: u32, out: *mut f32, n: usize) -> StripAnswer {
    let strip = function!(StripTurns, "juvrada_strip_turns");
    unsafe { strip(block, len, code, 6, out, n) }
}

fn sides() -> Vec<Side> {
    vec![
        Side {
            height_turns: [height_at_six; 14],
            strip_turns: [strip_at_six; 14],
            ..library!("juvrada")
        },
        #[cfg(before)]
        library!("before"),
        side!("called2"),
        side!("called3"),
        side!("inlined2"),
        side!("inlined3"),
        side!("known2", 0 1 2 3 4 5 6 7 8 9 10 11 12 13),
        side!("known3", 0 1 2 3 4 5 6 7 8 9 10 11 12 13),
    ]
}

const NOTHING: &str = "nothing";

/// The sides that are libraries.
const LIBRARIES: [&str; 2] = ["juvrada", "before"];

/// A side of one instruction, the return: its count is that of the driver's own loop.
fn nothing() -> Side {
    extern "C" fn height(_: *const u8, _: usize, _: u32, height: f32) -> Answer {
        let steps = Steps::uninit();
        Answer { steps, height }
    }
    extern "C" fn strip(_: *const u8, _: usize, _: u32, _: *mut f32, _: usize) -> StripAnswer {
        let steps = Steps::uninit();
        StripAnswer { steps }
    }
    extern "C" fn taps_height(_: *const f32, _: *const f32, _: u32, height: f32) -> Answer {
        let steps = Steps::uninit();
        Answer { steps, height }
    }
    extern "C" fn settings(_: *const u8, _: usize, _: u32, _: *mut f32) -> StripAnswer {
        let steps = Steps::uninit();
        StripAnswer { steps }
    }
    Side::new(
        NOTHING,
        [height; 14],
        [strip; 14],
        [settings; ENVELOPES],
        taps_height,
    )
}

/// What all sides read and write, at the same addresses.
#[repr(C, align(4096))]
struct Data {
    program: Program,
    taps: Taps,
    positions: [f32; SINGLE],
    out: [f32; 4096],
}

#[derive(Clone, Copy)]
enum Work {
    Heights { engine: Engine, code: usize },
    Strip { engine: Engine, code: usize, n: usize },
    Settings { code: usize },
    Taps,
}

/// Fills the stack below the caller, where its callee will be, with 1.0. The inlined reference computes with what it finds there before it
/// knows whether it needs it; with a denormal number, as half a pointer is one, that takes many times as long.
#[inline(never)]
fn fill_stack() {
    black_box([1.0f32; 512]);
}

/// The driver's loops: every side is called from the same instructions.
#[inline(never)]
fn heights(height: Height, program: &Program, code: u32, positions: &[f32], out: &mut [f32], times: u32) {
    fill_stack();
    for _ in 0..times {
        for (t, out) in positions.iter().zip(&mut *out) {
            *out = unsafe { height(program.0.as_ptr(), BLOCK, code, *t) }.height;
        }
    }
}

#[inline(never)]
fn strips(strip: Strip, program: &Program, code: u32, out: &mut [f32], times: u32) -> StripAnswer {
    fill_stack();
    let mut last = StripAnswer { steps: Steps::uninit() };
    for _ in 0..times {
        last = unsafe { strip(program.0.as_ptr(), BLOCK, code, out.as_mut_ptr(), out.len()) };
    }
    last
}

/// Each call has another byte for the curves.
#[inline(never)]
fn settings(settings: Settings, program: &mut Program, code: u32, out: &mut [f32], times: u32) {
    fill_stack();
    let curves = &READ[code as usize][4..];
    for _ in 0..times {
        for (curve, out) in (0..=u8::MAX).zip(out.chunks_exact_mut(MAX_SETTINGS)) {
            curves.iter().for_each(|&at| program.0[at] = curve);
            unsafe { settings(program.0.as_ptr(), BLOCK, code, out.as_mut_ptr()) };
        }
    }
}

#[inline(never)]
fn trains(height: TapsHeight, taps: &Taps, positions: &[f32], out: &mut [f32], times: u32) {
    fill_stack();
    for _ in 0..times {
        for (t, out) in positions.iter().zip(&mut *out) {
            *out = unsafe { height(taps.at.as_ptr(), taps.tall.as_ptr(), taps.used, *t) }.height;
        }
    }
}

impl Work {
    /// The length of the strip; 1 of the single heights and of the settings.
    fn length(self) -> usize {
        match self {
            Work::Strip { n, .. } => n,
            _ => 1,
        }
    }

    /// The calls of doing it once.
    fn calls(self) -> usize {
        match self {
            Work::Strip { .. } => 1,
            _ => SINGLE,
        }
    }

    /// The numbers that doing it once writes.
    fn written(self) -> usize {
        match self {
            Work::Settings { .. } => MAX_SETTINGS * self.calls(),
            _ => self.length() * self.calls(),
        }
    }

    fn perform(self, side: &Side, data: &mut Data, times: u32) {
        let out = &mut data.out[..self.written()];
        match self {
            Work::Heights { engine, code } => heights(
                side.height(engine, code),
                &data.program,
                code as u32,
                &data.positions,
                out,
                times,
            ),
            Work::Strip { engine, code, .. } => {
                drop(strips(side.strip(engine, code), &data.program, code as u32, out, times))
            }
            Work::Settings { code } => settings(side.settings[code], &mut data.program, code as u32, out, times),
            Work::Taps => trains(side.taps_height, &data.taps, &data.positions, out, times),
        }
    }

    /// What the sides computed must agree, or the figures say nothing. `first` is what the first of them computed. Of the settings the reference writes none; those
    /// of the libraries are held to each other.
    fn check(self, row: &str, side: &Side, data: &mut Data, first: &mut Option<Vec<u32>>) {
        let out = &mut data.out[..self.written()];
        if matches!(self, Work::Settings { .. }) && !LIBRARIES.contains(&side.name) {
            return;
        }
        let bits: Vec<u32> = out.iter().map(|height| height.to_bits()).collect();
        out.fill(f32::NAN);
        let (side, n) = (side.name, self.length());
        let agreed = *first.get_or_insert_with(|| bits.clone()) == bits;
        assert!(agreed, "{row}, {n}: {side} differs: run reference/library/run");
    }
}

fn data() -> Box<Data> {
    let mut program = block(&mut Random(7), &[], &[]);
    // Both fades and levels are well inside, the waves on and swept, and the LFOs a sine without slew.
    for (at, value) in [
        (1, 128),
        (8, 128),
        (16, 1),
        (18, 1),
        (19, 1),
        (25, 100),
        (26, 200),
        (33, 200),
        (51, 0),
    ] {
        program.0[at] = value;
    }
    for at in [2, 9, 6, 13] {
        program.0[at] = 0;
    }
    Box::new(Data {
        program,
        taps: Taps {
            at: [0.1, 0.3, 0.5, 0.9],
            tall: [1.0, 0.7, 0.5, 0.2],
            used: 0,
        },
        positions: std::array::from_fn(|i| i as f32 / (SINGLE - 1) as f32),
        out: [0.0; 4096],
    })
}

/// Every figure: its row, its work, and the data that it is done on.
fn figures(mut each: impl FnMut(&str, Work, &mut Data)) {
    let mut data = data();
    let mut row = |name: String, engine: Engine, code, data: &mut Data| {
        let name = name + engine.suffix();
        if engine != Engine::OneWalk {
            each(&name, Work::Heights { engine, code }, data);
        }
        for n in LENGTHS {
            each(&name, Work::Strip { engine, code, n }, data);
        }
    };
    for (code, name) in CODES.iter().enumerate() {
        row(format!("{code}: {name}"), Engine::Plain, code, &mut data);
    }
    row(format!("0: {}", CODES[0]), Engine::Turns, 0, &mut data);
    let runs = [
        (0, Engine::Plain, 0),
        (SLEW, Engine::Plain, 0),
        (SLEW, Engine::OneWalk, 0),
        (0, Engine::Turns, 5),
        (SLEW, Engine::Turns, 5),
    ];
    for (slew, engine, from) in runs {
        for (shape, name) in SHAPES.iter().enumerate().skip(from) {
            data.program.0[2] = shape as u8;
            data.program.0[6] = slew;
            row(format!("3: LFO 1, {name}, slew {slew}"), engine, 3, &mut data);
        }
    }
    for (code, name) in CODES.iter().enumerate().take(ENVELOPES) {
        each(&format!("{code}: {name}{SETTINGS}"), Work::Settings { code }, &mut data);
    }
    for used in [1, 4] {
        data.taps.used = used;
        each(&format!("taps, {used} used"), Work::Taps, &mut data);
    }
}

fn seconds(work: Work, side: &Side, data: &mut Data, times: u32) -> f64 {
    let start = Instant::now();
    work.perform(side, data, times);
    start.elapsed().as_secs_f64() / f64::from(times)
}

/// How long a fixed work takes of which many repetitions can be under way at once, as can the samples of a strip. Two threads of a machine
/// may share a core, and while the other one works each has half the room for that: the gauge then shows nearly twice as much.
fn gauge() -> f64 {
    let start = Instant::now();
    unsafe {
        asm!("2:", "movaps {x}, {one}", ".rept 11", "divss {x}, {one}", ".endr", ".rept 160", "nop", ".endr", "dec {n}", "jnz 2b",
            x = out(xmm_reg) _, one = in(xmm_reg) 1.0f32, n = inout(reg) 300u64 => _);
    }
    start.elapsed().as_secs_f64()
}

/// Whether something else was running on the core, where the gauge has shown this, and never less than `least`.
pub fn is_occupied(gauge: f64, least: f64) -> bool {
    gauge > least * 1.3
}

/// Waits for a quiet core, but not for long; `least` is the least that the gauge has shown.
fn wait(least: &mut f64) -> f64 {
    let start = Instant::now();
    loop {
        let gauge = gauge();
        *least = least.min(gauge);
        if !is_occupied(gauge, *least) || start.elapsed() > PATIENCE {
            return gauge;
        }
    }
}

/// The best measurement of a side, quiet ones before others: seconds for a call, and the gauge beside it; and how many were quiet.
#[derive(Clone, Copy)]
struct Best {
    time: f64,
    gauge: f64,
    quiet: usize,
}

impl Best {
    const NONE: Self = Self {
        time: f64::INFINITY,
        gauge: f64::INFINITY,
        quiet: 0,
    };

    fn add(&mut self, time: f64, gauge: f64, least: f64) {
        let [was_occupied, occupied] = [self.gauge, gauge].map(|gauge| is_occupied(gauge, least));
        if was_occupied {
            self.quiet = 0;
        }
        self.quiet += usize::from(!occupied);
        if (occupied, time) < (was_occupied, self.time) {
            (self.time, self.gauge) = (time, gauge);
        }
    }

    /// The gauge is left out where too few were quiet.
    fn text(&self) -> String {
        let gauge = if self.quiet < FEWEST { f64::INFINITY } else { self.gauge };
        format!("{:e}\t{gauge:e}", self.time)
    }
}

/// Whether every side has so many quiet measurements, by what the gauge has shown so far.
fn quiet(best: &[Best], n: usize, least: f64) -> bool {
    best.iter()
        .all(|best| best.quiet >= n && !is_occupied(best.gauge, least))
}

/// Measures the sides in turn.
fn race(work: Work, sides: &[Side], data: &mut Data, best: &mut [Best], least: &mut f64) {
    if quiet(best, FEWEST, *least) {
        return;
    }
    let mut times = |side| {
        let mut n = 1;
        while seconds(work, side, data, n) * f64::from(n) < MEASURED.as_secs_f64() {
            n *= 2;
        }
        n
    };
    let times: Vec<u32> = sides.iter().map(&mut times).collect();
    let start = Instant::now();
    for round in 0.. {
        if round >= FEWEST && (start.elapsed() > ENOUGH || quiet(best, QUIET, *least)) {
            break;
        }
        for (i, side) in sides.iter().enumerate() {
            // The side before has left its own traces in caches and predictors.
            if times[i] > 1 {
                work.perform(side, data, 1);
            }
            let before = wait(least);
            let time = seconds(work, side, data, times[i]) / work.calls() as f64;
            let after = gauge();
            best[i].add(time, before.max(after), *least);
        }
    }
}

/// How the cost of our strip of LFO 1 grows; `ours` is our side alone.
fn time_growth(row: &str, engine: Engine, ours: &[Side], data: &mut Data, least: &mut f64) {
    let code = 3;
    for n in LENGTHS {
        let mut best = [Best::NONE];
        race(Work::Strip { engine, code, n }, ours, data, &mut best, least);
        let strip = ours[0].strip(engine, code);
        let answer = strips(strip, &data.program, code as u32, &mut data.out[..n], 1);
        let [_, steps] = unsafe { answer.steps.assume_init() };
        println!("growth\t{row}\t{n}\t{steps}\t{}", best[0].text());
    }
}

fn time() {
    let sides = sides();
    // Within a second some moment is quiet.
    let mut least = f64::INFINITY;
    let start = Instant::now();
    while start.elapsed() < Duration::from_secs(1) {
        least = least.min(gauge());
    }
    let mut lines = Vec::new();
    for pass in 0.. {
        let mut at = 0;
        figures(|row, work, data| {
            if pass == 0 {
                let mut first = None;
                for side in &sides {
                    work.perform(side, data, 1);
                    work.check(row, side, data, &mut first);
                }
                lines.push((format!("time\t{row}\t{}", work.length()), vec![Best::NONE; sides.len()]));
            }
            race(work, &sides, data, &mut lines[at].1, &mut least);
            at += 1;
        });
        if lines.iter().all(|(_, best)| quiet(best, FEWEST, least)) || start.elapsed() > LONGEST {
            break;
        }
    }
    for (line, best) in lines {
        for (side, best) in sides.iter().zip(best) {
            println!("{line}\t{}\t{}", side.name, best.text());
        }
    }
    let mut data = data();
    for (shape, slew) in [(0, 0), (0, 1), (0, 255), (2, SLEW), (5, SLEW)] {
        data.program.0[2] = shape as u8;
        data.program.0[6] = slew;
        for engine in [Engine::Plain, Engine::OneWalk] {
            let row = format!("{}, slew {slew}{}", SHAPES[shape], engine.suffix());
            time_growth(&row, engine, &sides[..1], &mut data, &mut least);
        }
    }
}

/// A request to callgrind, as valgrind.h makes it; outside of valgrind it does nothing.
fn request(number: u64, text: Option<&CString>) {
    let text = text.map_or(0, |text| text.as_ptr() as u64);
    let words = [u64::from(u32::from_be_bytes(*b"CT\0\0")) + number, text, 0, 0, 0, 0];
    unsafe {
        asm!("rol rdi, 3", "rol rdi, 13", "rol rdi, 61", "rol rdi, 51", "xchg rbx, rbx",
            in("rax") &words, inout("rdx") 0u64 => _);
    }
}

fn count() {
    const ZERO: u64 = 1;
    const DUMP_AT: u64 = 3;
    let mut sides = sides();
    sides.push(nothing());
    figures(|row, work, data| {
        let mut first = None;
        for side in &sides {
            let name = format!("{row}\t{}\t{}\t{}", work.length(), side.name, work.calls());
            let name = CString::new(name).expect("no NUL in a name");
            request(ZERO, None);
            work.perform(side, data, 1);
            request(DUMP_AT, Some(&name));
            if side.name != NOTHING {
                work.check(row, side, data, &mut first);
            }
        }
    });
}

pub fn run() {
    let words: Vec<String> = std::env::args().skip(1).collect();
    let words: Vec<&str> = words.iter().map(String::as_str).collect();
    match words[..] {
        ["time"] => time(),
        ["count"] => count(),
        ["report", ref files @ ..] => report::print(files),
        _ => panic!("time, count, or report FILE .."),
    }
}
