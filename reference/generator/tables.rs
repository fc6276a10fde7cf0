//! Holds the stand-in against the reference's generated tables and accessors: every byte number, and every value of every byte that is looked up.

use crate::param::ParamId as Theirs;
use crate::program::Program as TheirProgram;
use crate::program::generated;
use crate::stand_in::{BLOCK, LfoShape, ParamId, Program};
use std::process::exit;

fn same(what: &str, ours: impl std::fmt::Debug, theirs: impl std::fmt::Debug) -> bool {
    let (ours, theirs) = (format!("{ours:?}"), format!("{theirs:?}"));
    if ours != theirs {
        eprintln!("{what}: {ours} here, {theirs} in generated.rs");
    }
    ours == theirs
}

macro_rules! bytes {
    ($($name:ident)*) => {
        [$((stringify!($name), ParamId::$name as usize, Theirs::$name as usize)),*]
    };
}

pub fn run() {
    let mut good = true;
    let bytes = bytes!(
        Lfo1DelayFade Lfo1Shape Lfo1KeySync Lfo1SlewRate Lfo2DelayFade Lfo2Shape Lfo2KeySync Lfo2SlewRate
        Osc1PwmSource Osc1PulseEnable Osc1SawEnable Osc1PwmDepth Osc2Level NoiseLevel VcfResonance Vcf2PoleMode
        VcaEnvelopeAttackTime VcaEnvelopeDecayTime VcaEnvelopeSustainLevel VcaEnvelopeReleaseTime
        VcaEnvelopeAttackCurve VcaEnvelopeDecayCurve VcaEnvelopeSustainCurve VcaEnvelopeReleaseCurve
        VcfEnvelopeAttackTime VcfEnvelopeDecayTime VcfEnvelopeSustainLevel VcfEnvelopeReleaseTime
        VcfEnvelopeAttackCurve VcfEnvelopeDecayCurve VcfEnvelopeSustainCurve VcfEnvelopeReleaseCurve
        ModEnvelopeAttackTime ModEnvelopeDecayTime ModEnvelopeSustainLevel ModEnvelopeReleaseTime
        ModEnvelopeAttackCurve ModEnvelopeDecayCurve ModEnvelopeSustainCurve ModEnvelopeReleaseCurve
        ArpGateTime
    );
    for (name, ours, theirs) in bytes {
        good &= same(name, ours, theirs);
    }
    for value in 0..=255 {
        let (ours, theirs) = (Program([value; BLOCK]), TheirProgram([value; BLOCK]));
        good &= same("shape", LfoShape::from_raw(value), generated::LfoShape::from_raw(value));
        good &= same("pole mode", ours.vcf2_pole_mode(), theirs.vcf2_pole_mode());
        good &= same("source", ours.osc1_pwm_source(), theirs.osc1_pwm_source());
        good &= same("pulse", ours.osc1_pulse_enable(), theirs.osc1_pulse_enable());
        good &= same("saw", ours.osc1_saw_enable(), theirs.osc1_saw_enable());
    }
    if !good {
        exit(1);
    }
}
