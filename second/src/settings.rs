//! Settings: ranges and the closest available setting, once for all widths.

/// How a ranged control's numbers are read from the two bytes that hold them.
#[derive(Clone, Copy, Debug, PartialEq, Eq)]
pub struct Scale {
    /// Bytes on the wire, 1 or 2.
    pub size: usize,
    /// Whether numbers are two's complement.
    pub signed: bool,
    /// "RES 1 to 32767 (127 for one byte, 65535 for delay)".
    pub res_most: i32,
    /// Volume alone: "−32768 means silence", and its MIN is at least −32767.
    pub silence: bool,
}

/// "2 volume (signed 16 bits)".
pub const VOLUME: Scale = Scale { size: 2, signed: true, res_most: 32767, silence: true };
/// "3 bass, 4 mid, 5 treble (signed 8)".
pub const TONE: Scale = Scale { size: 1, signed: true, res_most: 127, silence: false };
/// "8 delay (unsigned 16)".
pub const DELAY: Scale = Scale { size: 2, signed: false, res_most: 65535, silence: false };

/// "For volume −32768 means silence".
pub const SILENCE: i32 = -32768;

/// Why a range is not legal.
#[derive(Clone, Copy, Debug, PartialEq, Eq)]
pub enum Fault {
    /// MIN above MAX.
    Order,
    /// RES is 0.
    ResZero,
    /// RES above its most.
    ResHigh,
    /// Volume MIN below −32767.
    VolumeMin,
}

/// MIN, MAX and RES as numbers.
#[derive(Clone, Copy, Debug, PartialEq, Eq)]
pub struct Range {
    /// MIN.
    pub min: i32,
    /// MAX.
    pub max: i32,
    /// RES.
    pub res: i32,
}

impl Scale {
    /// Whether a number is "too wide for the control".
    pub fn too_wide(&self, held: u16) -> bool {
        self.size == 1 && held > 255
    }

    /// The number that the held bytes mean.
    pub fn number(&self, held: u16) -> i32 {
        match (self.size, self.signed) {
            (1, _) => i32::from(held as u8 as i8),
            (_, true) => i32::from(held as i16),
            (_, false) => i32::from(held),
        }
    }

    /// The bytes that hold a number.
    pub fn held(&self, number: i32) -> u16 {
        if self.size == 1 {
            u16::from(number as u8)
        } else {
            number as u16
        }
    }

    /// The range that the held bytes mean. RES is never negative.
    pub fn range(&self, min: u16, max: u16, res: u16) -> Range {
        Range { min: self.number(min), max: self.number(max), res: i32::from(res) }
    }

    /// "Legal: MIN ≤ MAX; RES 1 to 32767 (127 for one byte, 65535 for delay); volume MIN at least
    /// −32767."
    pub fn fault(&self, range: Range) -> Option<Fault> {
        if self.silence && range.min < -32767 {
            return Some(Fault::VolumeMin);
        }
        if range.min > range.max {
            return Some(Fault::Order);
        }
        if range.res == 0 {
            return Some(Fault::ResZero);
        }
        (range.res > self.res_most).then_some(Fault::ResHigh)
    }

    /// What is stored for `wanted`: "The closest one is stored, at a tie the lower. For volume
    /// −32768 means silence: it is stored as it is, nothing else is rounded to it".
    pub fn stored(&self, range: Range, wanted: i32) -> i32 {
        if self.silence && wanted == SILENCE {
            SILENCE
        } else {
            closest(range, wanted)
        }
    }

    /// Whether `value` is a setting: available, or silence for volume.
    pub fn is_setting(&self, range: Range, value: i32) -> bool {
        (self.silence && value == SILENCE) || available(range, value)
    }
}

/// "The available settings are MIN + k·RES up to MAX."
pub fn available(range: Range, value: i32) -> bool {
    (range.min..=range.max).contains(&value) && (value - range.min) % range.res == 0
}

/// The closest available setting, "at a tie the lower", of a legal range.
pub fn closest(range: Range, wanted: i32) -> i32 {
    let steps = (range.max - range.min) / range.res;
    let top = range.min + steps * range.res;
    if wanted <= range.min {
        return range.min;
    }
    if wanted >= top {
        return top;
    }
    let below = range.min + (wanted - range.min) / range.res * range.res;
    let above = below + range.res;
    if wanted - below <= above - wanted {
        below
    } else {
        above
    }
}

#[cfg(test)]
mod tests {
    use super::*;

    /// "Volume −5120..0 by 256: −300 gives −256, −384 gives −512, 500 gives 0, −32768 stays."
    #[test]
    fn the_volumes_of_the_cases_to_prove_together() {
        let range = Range { min: -5120, max: 0, res: 256 };
        assert_eq!(VOLUME.stored(range, -300), -256);
        assert_eq!(VOLUME.stored(range, -384), -512);
        assert_eq!(VOLUME.stored(range, 500), 0);
        assert_eq!(VOLUME.stored(range, -32768), -32768);
        assert_eq!(VOLUME.stored(range, -32767), -5120);
    }

    /// "Bass −10..9 by 4: 9 gives 6."
    #[test]
    fn the_bass_of_the_cases_to_prove_together() {
        assert_eq!(TONE.stored(Range { min: -10, max: 9, res: 4 }, 9), 6);
    }

    /// The closest setting against the definition by trial of every available one.
    #[test]
    fn closest_is_the_lowest_of_the_nearest() {
        for min in -12..6 {
            for max in min..10 {
                for res in 1..9 {
                    let range = Range { min, max, res };
                    for wanted in -20..20 {
                        let all = (min..=max).filter(|&one| available(range, one));
                        let best = all.min_by_key(|&one| ((one - wanted).abs(), one));
                        assert_eq!(Some(closest(range, wanted)), best);
                    }
                }
            }
        }
    }

    #[test]
    fn bounds_of_a_range() {
        let volume = |min, max, res| VOLUME.fault(VOLUME.range(min, max, res));
        assert_eq!(volume(0x8001, 0x7FFF, 32767), None);
        assert_eq!(volume(0x8000, 0, 1), Some(Fault::VolumeMin));
        assert_eq!(volume(0, 0, 32768), Some(Fault::ResHigh));
        assert_eq!(volume(1, 0, 1), Some(Fault::Order));
        let delay = |min, max, res| DELAY.fault(DELAY.range(min, max, res));
        assert_eq!(delay(0, 0xFFFF, 0xFFFF), None);
        assert_eq!(delay(0x8000, 0x7FFF, 1), Some(Fault::Order));
        let tone = |min, max, res| TONE.fault(TONE.range(min, max, res));
        assert_eq!(tone(0x80, 0x7F, 127), None);
        assert_eq!(tone(0x80, 0x7F, 128), Some(Fault::ResHigh));
        assert_eq!(tone(0, 0, 0), Some(Fault::ResZero));
    }

    #[test]
    fn numbers_are_held_as_on_the_wire() {
        assert_eq!(TONE.held(-10), 0x00F6);
        assert_eq!(TONE.number(0x00F6), -10);
        assert_eq!(VOLUME.held(-5120), 0xEC00);
        assert_eq!(DELAY.number(0xFFFF), 65535);
    }
}
