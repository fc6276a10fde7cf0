//! How every side is called: in the form of the library's C functions. The reference has the same form, so that the driver calls all sides
//! from one loop.

use std::mem::MaybeUninit;

/// Refusal and steps, which the library answers. The reference has neither, and spends no instruction on them.
pub type Steps = MaybeUninit<[u32; 2]>;

#[repr(C)]
pub struct Answer {
    pub steps: Steps,
    pub height: f32,
}

#[repr(C)]
pub struct StripAnswer {
    pub steps: Steps,
}

/// Block, its length, code, position. The code of an older library is a u8; x86-64 passes both in the same register.
pub type Height = unsafe extern "C" fn(*const u8, usize, u32, f32) -> Answer;

/// Block, its length, code, the samples and how many.
pub type Strip = unsafe extern "C" fn(*const u8, usize, u32, *mut f32, usize) -> StripAnswer;

/// The same with a number of turns behind the code.
pub type HeightTurns = unsafe extern "C" fn(*const u8, usize, u32, u32, f32) -> Answer;
pub type StripTurns = unsafe extern "C" fn(*const u8, usize, u32, u32, *mut f32, usize) -> StripAnswer;

/// The taps' positions, their heights, how many are used, position.
pub type TapsHeight = unsafe extern "C" fn(*const f32, *const f32, u32, f32) -> Answer;

/// Block, its length, code, the settings. The reference's settings are private: it builds its generator, and writes nothing.
pub type Settings = unsafe extern "C" fn(*const u8, usize, u32, *mut f32) -> StripAnswer;
