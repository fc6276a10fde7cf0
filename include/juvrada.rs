//! The declarations of juvrada.h for Rust; what each function does is said there.
#![allow(dead_code)]

pub const BLOCK: usize = 242;
pub const MIN_STRIP: usize = 2;
pub const MAX_STRIP: usize = 4096;
pub const MAX_MARKS: usize = 8;
pub const MAX_SETTINGS: usize = 8;
pub const GATES: usize = 4;
pub const TAPS: usize = 4;

/// `refusal`
pub const ACCEPTED: u32 = 0;
pub const BAD_BLOCK: u32 = 1;
pub const BAD_CODE: u32 = 2;
pub const BAD_STRIP: u32 = 3;
pub const BAD_LEVEL: u32 = 4;
pub const BAD_TURNS: u32 = 5;

/// Kinds of marks. The first four are captions too.
pub const MARK_ATTACK: u8 = 0;
pub const MARK_DECAY: u8 = 1;
pub const MARK_SUSTAIN: u8 = 2;
pub const MARK_RELEASE: u8 = 3;
pub const MARK_CORNER: u8 = 4;
pub const MARK_CYCLE: u8 = 5;
pub const MARK_TAP: u8 = 6;
pub const MARK_WIDTH: u8 = 7;
pub const MARK_SWEEP: u8 = 8;
pub const NO_CAPTION: u8 = 255;

/// Kinds of scales.
pub const SCALE_NORMALISED: u32 = 0;
pub const SCALE_TURNS: u32 = 1;
pub const SCALE_OCTAVES: u32 = 2;

#[repr(C)]
#[derive(Clone, Copy, Debug)]
pub struct HeightResult {
    pub refusal: u32,
    pub steps: u32,
    pub height: f32,
}

#[repr(C)]
#[derive(Clone, Copy, Debug, PartialEq, Eq)]
pub struct StripResult {
    pub refusal: u32,
    pub steps: u32,
}

#[repr(C)]
#[derive(Clone, Copy, Debug, PartialEq, Eq)]
pub struct CountResult {
    pub refusal: u32,
    pub count: u32,
}

#[repr(C)]
#[derive(Clone, Copy, Debug)]
pub struct RestResult {
    pub refusal: u32,
    pub level: f32,
}

#[repr(C)]
#[derive(Clone, Copy, Debug)]
pub struct ScaleResult {
    pub refusal: u32,
    pub kind: u32,
    pub number: f32,
}

#[repr(C)]
#[derive(Clone, Copy, Debug, PartialEq, Eq)]
pub struct AnchoredResult {
    pub refusal: u32,
    pub anchored: u32,
}

#[repr(C)]
#[derive(Clone, Copy, Debug, PartialEq, Eq)]
pub struct CurveResult {
    pub refusal: u32,
    pub found: u32,
    pub byte: u32,
    pub tried: u32,
}

unsafe extern "C" {
    pub fn juvrada_height(block: *const u8, block_len: usize, code: u32, t: f32) -> HeightResult;
    pub fn juvrada_strip(block: *const u8, block_len: usize, code: u32, out: *mut f32, out_len: usize) -> StripResult;
    pub fn juvrada_strip_once(block: *const u8, block_len: usize, code: u32, out: *mut f32, out_len: usize) -> StripResult;
    pub fn juvrada_marks(block: *const u8, block_len: usize, code: u32, at: *mut f32, kind: *mut u8) -> CountResult;
    pub fn juvrada_rest(block: *const u8, block_len: usize, code: u32) -> RestResult;
    pub fn juvrada_scale(block: *const u8, block_len: usize, code: u32) -> ScaleResult;
    pub fn juvrada_anchored(block: *const u8, block_len: usize, code: u32) -> AnchoredResult;
    pub fn juvrada_height_turns(block: *const u8, block_len: usize, code: u32, turns: u32, t: f32) -> HeightResult;
    pub fn juvrada_strip_turns(
        block: *const u8,
        block_len: usize,
        code: u32,
        turns: u32,
        out: *mut f32,
        out_len: usize,
    ) -> StripResult;
    pub fn juvrada_strip_once_turns(
        block: *const u8,
        block_len: usize,
        code: u32,
        turns: u32,
        out: *mut f32,
        out_len: usize,
    ) -> StripResult;
    pub fn juvrada_marks_turns(
        block: *const u8,
        block_len: usize,
        code: u32,
        turns: u32,
        at: *mut f32,
        kind: *mut u8,
    ) -> CountResult;
    pub fn juvrada_scale_turns(block: *const u8, block_len: usize, code: u32, turns: u32) -> ScaleResult;
    pub fn juvrada_settings(block: *const u8, block_len: usize, code: u32, out: *mut f32) -> CountResult;
    pub fn juvrada_captions(block: *const u8, block_len: usize, code: u32, out: *mut u8, out_len: usize) -> u32;
    pub fn juvrada_gates(block: *const u8, block_len: usize, start: *mut f32, end: *mut f32) -> CountResult;
    pub fn juvrada_bars(block: *const u8, block_len: usize, start: *mut f32, end: *mut f32) -> CountResult;
    pub fn juvrada_curve_for_end(sustain: u8, wanted: f32) -> CurveResult;
    pub fn juvrada_bend(curve: u8) -> f32;
    pub fn juvrada_taps_height(at: *const f32, tall: *const f32, used: u32, t: f32) -> HeightResult;
    pub fn juvrada_taps_marks(
        at: *const f32,
        tall: *const f32,
        used: u32,
        mark_at: *mut f32,
        kind: *mut u8,
    ) -> CountResult;
}
