//! Calls every function of the static library from Rust; status 0 where all expectations hold.

use juvrada::*;

#[path = "vendor/juvrada.rs"]
mod juvrada;

fn main() {
    // The empty program.
    let mut block = [0u8; BLOCK];
    let code = |block: &[u8; BLOCK], code: u32, t: f32| unsafe { juvrada_height(block.as_ptr(), BLOCK, code, t) };

    let r = code(&block, 7, f32::NAN);
    assert_eq!((r.refusal, r.steps, r.height), (ACCEPTED, 0, 1.0));
    block[2] = 5;
    block[6] = 1;
    let r = code(&block, 5, 1.0);
    assert_eq!((r.refusal, r.steps), (ACCEPTED, 672));
    block[2] = 0;
    block[6] = 0;
    for number in [14, 255, 256, 269, u32::MAX] {
        let r = code(&block, number, 1.0);
        assert_eq!((r.refusal, r.steps, r.height), (BAD_CODE, 0, 0.0));
    }

    // A triangle.
    block[2] = 1;
    let mut strip = [9.0; 6];
    let r = unsafe { juvrada_strip(block.as_ptr(), BLOCK, 3, strip.as_mut_ptr(), 5) };
    assert_eq!((r.refusal, r.steps, strip), (ACCEPTED, 0, [0.0, 0.5, 1.0, 0.5, 0.0, 9.0]));

    // The same with slew: one walk along the strip has steps of its own.
    block[6] = 1;
    let mut once = [9.0; 6];
    let r = unsafe { juvrada_strip(block.as_ptr(), BLOCK, 3, strip.as_mut_ptr(), 5) };
    assert_eq!((r.refusal, r.steps), (ACCEPTED, 96 + 120 + 144 + 168 + 192));
    let r = unsafe { juvrada_strip_once(block.as_ptr(), BLOCK, 3, once.as_mut_ptr(), 5) };
    assert_eq!((r.refusal, r.steps, once), (ACCEPTED, 191 + 5, strip));
    block[2] = 0;
    block[6] = 0;
    let mut long = vec![9.0; MAX_STRIP + 1];
    for strip in [juvrada_strip, juvrada_strip_once] {
        let r = unsafe { strip(block.as_ptr(), BLOCK, 3, long.as_mut_ptr(), MAX_STRIP + 1) };
        assert_eq!((r.refusal, r.steps), (BAD_STRIP, 0));
        assert!(long.iter().all(|&x| x == 9.0));
    }

    let (mut at, mut kind) = ([9.0; MAX_MARKS], [9; MAX_MARKS]);
    let r = unsafe { juvrada_marks(block.as_ptr(), BLOCK, 9, at.as_mut_ptr(), kind.as_mut_ptr()) };
    assert_eq!((r.refusal, r.count), (ACCEPTED, 1));
    assert_eq!(
        (at, kind),
        ([0.5, 9.0, 9.0, 9.0, 9.0, 9.0, 9.0, 9.0], [MARK_CORNER, 9, 9, 9, 9, 9, 9, 9])
    );

    let r = unsafe { juvrada_rest(block.as_ptr(), BLOCK, 3) };
    assert_eq!((r.refusal, r.level), (ACCEPTED, 0.5));
    let r = unsafe { juvrada_scale(block.as_ptr(), BLOCK, 12) };
    assert_eq!((r.refusal, r.kind, r.number), (ACCEPTED, SCALE_TURNS, 1.0));
    let r = unsafe { juvrada_anchored(block.as_ptr(), BLOCK, 0) };
    assert_eq!((r.refusal, r.anchored), (ACCEPTED, 1));
    let r = unsafe { juvrada_anchored(block.as_ptr(), BLOCK - 1, 0) };
    assert_eq!((r.refusal, r.anchored), (BAD_BLOCK, 0));

    let mut settings = [9.0; MAX_SETTINGS];
    let r = unsafe { juvrada_settings(block.as_ptr(), BLOCK, 10, settings.as_mut_ptr()) };
    assert_eq!((r.refusal, r.count), (ACCEPTED, 4));
    assert_eq!(settings, [6.0, 0.0, 3.0, 1.0, 9.0, 9.0, 9.0, 9.0]);

    for (attack, decay, first) in [(0, 0, MARK_SUSTAIN), (0, 1, MARK_DECAY), (1, 0, MARK_ATTACK)] {
        block[53] = attack;
        block[54] = decay;
        let mut captions = [9; 4];
        let refusal = unsafe { juvrada_captions(block.as_ptr(), BLOCK, 0, captions.as_mut_ptr(), 3) };
        assert_eq!((refusal, captions), (ACCEPTED, [first, MARK_SUSTAIN, MARK_RELEASE, 9]));
        let refusal = unsafe { juvrada_captions(block.as_ptr(), BLOCK, 14, captions.as_mut_ptr(), 3) };
        assert_eq!((refusal, captions), (BAD_CODE, [first, MARK_SUSTAIN, MARK_RELEASE, 9]));
    }
    block[53] = 0;

    for find in [juvrada_gates, juvrada_bars] {
        let (mut start, mut end) = ([9.0; GATES], [9.0; GATES]);
        block[160] = 0;
        let r = unsafe { find(block.as_ptr(), BLOCK, start.as_mut_ptr(), end.as_mut_ptr()) };
        assert_eq!((r.refusal, r.count, start, end), (ACCEPTED, 0, [9.0; 4], [9.0; 4]));
        block[160] = 255;
        let r = unsafe { find(block.as_ptr(), BLOCK - 1, start.as_mut_ptr(), end.as_mut_ptr()) };
        assert_eq!((r.refusal, r.count, start, end), (BAD_BLOCK, 0, [9.0; 4], [9.0; 4]));
        let r = unsafe { find(block.as_ptr(), BLOCK, start.as_mut_ptr(), end.as_mut_ptr()) };
        assert_eq!((r.refusal, r.count), (ACCEPTED, 4));
        assert_eq!((start, end), ([0.0, 1.0, 2.0, 3.0], [1.0, 2.0, 3.0, 4.0]));
    }

    let curve = |sustain: u8, wanted: f32| {
        let r = unsafe { juvrada_curve_for_end(sustain, wanted) };
        (r.refusal, r.found, r.byte, r.tried)
    };
    assert_eq!(curve(255, 0.0), (ACCEPTED, 1, 0, 1));
    assert_eq!(curve(0, 1.0), (ACCEPTED, 1, 255, 256));
    assert_eq!(curve(0, 2.0 / 255.0), (ACCEPTED, 0, 0, 256));
    for wanted in [f32::NAN, -f32::MIN_POSITIVE, 1.0 + f32::EPSILON, f32::INFINITY, f32::NEG_INFINITY] {
        assert_eq!(curve(128, wanted), (BAD_LEVEL, 0, 0, 0));
    }

    let bend = |curve: u8| unsafe { juvrada_bend(curve) };
    assert_eq!([0, 64, 128, 192].map(bend), [0.25, 0.5, 1.0, 2.0]);
    assert_eq!([1, 127, 255].map(|curve| bend(curve).to_bits()), [0x3e81_64d2, 0x3f7d_3e0b, 0x407d_3e0b]);

    let (taps, tall) = ([0.5, f32::NAN, 0.0, 0.0], [0.75, 1.0, 1.0, 1.0]);
    let r = unsafe { juvrada_taps_height(taps.as_ptr(), tall.as_ptr(), 2, 0.5) };
    assert_eq!((r.refusal, r.steps, r.height), (ACCEPTED, 0, 0.75));
    let (mut at, mut kind) = ([9.0; MAX_MARKS], [9; MAX_MARKS]);
    let r = unsafe { juvrada_taps_marks(taps.as_ptr(), tall.as_ptr(), 2, at.as_mut_ptr(), kind.as_mut_ptr()) };
    assert_eq!(
        (r.refusal, r.count, at[0], at[2], kind),
        (ACCEPTED, 2, 0.5, 9.0, [MARK_TAP, MARK_TAP, 9, 9, 9, 9, 9, 9])
    );
    assert!(at[1].is_nan());

    block = [0; BLOCK];
    at_turns(&mut block);
    refused_turns(&block);
}

/// Sample and hold at a number of turns, without slew and with it.
fn at_turns(block: &mut [u8; BLOCK]) {
    block[2] = 5;
    let height = |block: &[u8; BLOCK], turns: u32, t: f32| unsafe {
        let r = juvrada_height_turns(block.as_ptr(), BLOCK, 3, turns, t);
        (r.refusal, r.steps, r.height.to_bits())
    };
    assert_eq!(height(block, 8, 1.0), (ACCEPTED, 0, 0x3f38_51ec));
    assert_eq!(height(block, 6, 1.0), (ACCEPTED, 0, 0.31f32.to_bits()));
    for (turns, cycles) in [(6, 6.0), (8, 8.0)] {
        let (mut at, mut kind) = ([9.0; MAX_MARKS], [9; MAX_MARKS]);
        let r = unsafe { juvrada_marks_turns(block.as_ptr(), BLOCK, 5, turns, at.as_mut_ptr(), kind.as_mut_ptr()) };
        assert_eq!((r.refusal, r.count), (ACCEPTED, turns));
        for i in 0..MAX_MARKS {
            let mark = if i < turns as usize { ((i + 1) as f32 / cycles, MARK_CYCLE) } else { (9.0, 9) };
            assert_eq!((at[i], kind[i]), mark);
        }
        let r = unsafe { juvrada_scale_turns(block.as_ptr(), BLOCK, 3, turns) };
        assert_eq!((r.refusal, r.kind, r.number), (ACCEPTED, SCALE_TURNS, cycles));
        let r = unsafe { juvrada_scale_turns(block.as_ptr(), BLOCK, 9, turns) };
        assert_eq!((r.refusal, r.kind, r.number), (ACCEPTED, SCALE_OCTAVES, 6.0));
    }
    block[6] = 1;
    assert_eq!([0.0, 1.0].map(|t| height(block, 8, t).1), [96, 864]);
    let (mut strip, mut once) = ([9.0; 6], [9.0; 6]);
    for (turns, each, walked) in [(6, 96 + 240 + 384 + 528 + 672, 671 + 5), (8, 96 + 288 + 480 + 672 + 864, 863 + 5)] {
        let r = unsafe { juvrada_strip_turns(block.as_ptr(), BLOCK, 3, turns, strip.as_mut_ptr(), 5) };
        assert_eq!((r.refusal, r.steps), (ACCEPTED, each));
        let r = unsafe { juvrada_strip_once_turns(block.as_ptr(), BLOCK, 3, turns, once.as_mut_ptr(), 5) };
        assert_eq!((r.refusal, r.steps, once), (ACCEPTED, walked, strip));
    }
    block[2] = 0;
    block[6] = 0;
}

/// The block is looked at before the code, then the turns, then the strip.
fn refused_turns(block: &[u8; BLOCK]) {
    let numbers = [0, 1, 5, 7, 9, 262, 264, u32::MAX].map(|turns| (BLOCK, 3, turns, 2, BAD_TURNS));
    let order = [
        (BLOCK - 1, 14, 7, 1, BAD_BLOCK),
        (BLOCK, 14, 7, 1, BAD_CODE),
        (BLOCK, 0, 7, 1, BAD_TURNS),
        (BLOCK, 0, 8, 1, BAD_STRIP),
    ];
    for (len, code, turns, n, refusal) in order.into_iter().chain(numbers) {
        for strip in [juvrada_strip_turns, juvrada_strip_once_turns] {
            let mut out = [9.0; 2];
            let r = unsafe { strip(block.as_ptr(), len, code, turns, out.as_mut_ptr(), n) };
            assert_eq!((r.refusal, r.steps, out), (refusal, 0, [9.0; 2]));
        }
        if refusal == BAD_STRIP {
            continue;
        }
        let r = unsafe { juvrada_height_turns(block.as_ptr(), len, code, turns, 1.0) };
        assert_eq!((r.refusal, r.steps, r.height), (refusal, 0, 0.0));
        let (mut at, mut kind) = ([9.0; MAX_MARKS], [9; MAX_MARKS]);
        let r = unsafe { juvrada_marks_turns(block.as_ptr(), len, code, turns, at.as_mut_ptr(), kind.as_mut_ptr()) };
        assert_eq!((r.refusal, r.count, at, kind), (refusal, 0, [9.0; MAX_MARKS], [9; MAX_MARKS]));
        let r = unsafe { juvrada_scale_turns(block.as_ptr(), len, code, turns) };
        assert_eq!((r.refusal, r.kind, r.number), (refusal, 0, 0.0));
    }
}
