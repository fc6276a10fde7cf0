//! What generator.rs asks of the rest of its crate, over a block of 242 bytes in which parameter n is byte n.

/// The parameters that generator.rs reads, by their bytes.
#[derive(Debug, Clone, Copy, PartialEq, Eq)]
#[repr(u8)]
pub enum ParamId {
    Lfo1DelayFade = 1,
    Lfo1Shape = 2,
    Lfo1KeySync = 3,
    Lfo1SlewRate = 6,
    Lfo2DelayFade = 8,
    Lfo2Shape = 9,
    Lfo2KeySync = 10,
    Lfo2SlewRate = 13,
    Osc1PwmSource = 16,
    Osc1PulseEnable = 18,
    Osc1SawEnable = 19,
    Osc1PwmDepth = 25,
    Osc2Level = 26,
    NoiseLevel = 33,
    VcfResonance = 41,
    Vcf2PoleMode = 51,
    VcaEnvelopeAttackTime = 53,
    VcaEnvelopeDecayTime = 54,
    VcaEnvelopeSustainLevel = 55,
    VcaEnvelopeReleaseTime = 56,
    VcaEnvelopeAttackCurve = 58,
    VcaEnvelopeDecayCurve = 59,
    VcaEnvelopeSustainCurve = 60,
    VcaEnvelopeReleaseCurve = 61,
    VcfEnvelopeAttackTime = 62,
    VcfEnvelopeDecayTime = 63,
    VcfEnvelopeSustainLevel = 64,
    VcfEnvelopeReleaseTime = 65,
    VcfEnvelopeAttackCurve = 67,
    VcfEnvelopeDecayCurve = 68,
    VcfEnvelopeSustainCurve = 69,
    VcfEnvelopeReleaseCurve = 70,
    ModEnvelopeAttackTime = 71,
    ModEnvelopeDecayTime = 72,
    ModEnvelopeSustainLevel = 73,
    ModEnvelopeReleaseTime = 74,
    ModEnvelopeAttackCurve = 76,
    ModEnvelopeDecayCurve = 77,
    ModEnvelopeSustainCurve = 78,
    ModEnvelopeReleaseCurve = 79,
    ArpGateTime = 160,
}

#[derive(Debug, Clone, Copy, PartialEq, Eq)]
pub enum LfoShape {
    Sine,
    Triangle,
    Square,
    RampUp,
    RampDown,
    SampleAndHold,
    SampleAndGlide,
}

impl LfoShape {
    pub const fn from_raw(raw: u8) -> Option<Self> {
        match raw {
            0 => Some(Self::Sine),
            1 => Some(Self::Triangle),
            2 => Some(Self::Square),
            3 => Some(Self::RampUp),
            4 => Some(Self::RampDown),
            5 => Some(Self::SampleAndHold),
            6 => Some(Self::SampleAndGlide),
            _ => None,
        }
    }
}

#[derive(Debug, Clone, Copy, PartialEq, Eq)]
pub enum VcfPoleMode {
    FourPole,
    TwoPole,
}

/// The sources of the pulse width. Which of them it is plays no part beyond Manual or not.
#[derive(Debug, Clone, Copy, PartialEq, Eq)]
pub enum PwmSource {
    Manual,
    Lfo1,
    Lfo2,
    VcaEnv,
    VcfEnv,
    ModEnv,
}

pub const BLOCK: usize = 242;

pub struct Program(pub [u8; BLOCK]);

impl Program {
    pub fn get(&self, parameter: ParamId) -> u8 {
        self.0[parameter as usize]
    }

    pub fn osc1_pulse_enable(&self) -> bool {
        self.get(ParamId::Osc1PulseEnable) != 0
    }

    pub fn osc1_saw_enable(&self) -> bool {
        self.get(ParamId::Osc1SawEnable) != 0
    }

    pub fn vcf2_pole_mode(&self) -> Option<VcfPoleMode> {
        match self.get(ParamId::Vcf2PoleMode) {
            0 => Some(VcfPoleMode::FourPole),
            1 => Some(VcfPoleMode::TwoPole),
            _ => None,
        }
    }

    pub fn osc1_pwm_source(&self) -> Option<PwmSource> {
        match self.get(ParamId::Osc1PwmSource) {
            0 => Some(PwmSource::Manual),
            1 => Some(PwmSource::Lfo1),
            2 => Some(PwmSource::Lfo2),
            3 => Some(PwmSource::VcaEnv),
            4 => Some(PwmSource::VcfEnv),
            5 => Some(PwmSource::ModEnv),
            _ => None,
        }
    }
}
