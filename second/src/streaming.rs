//! Streaming groups (refusal 14).

use crate::cut::{two_bytes, Descriptor, Group, Purpose, CLASS};
use crate::topology::Topology;
use crate::ways::{Refusal, Way};

/// "byte 3 a Terminal of type 0x0101".
const USB_STREAMING: u16 = 0x0101;

/// Refusal 14, at the "first such group's interface descriptor".
pub fn check(groups: &[Group], topology: &Topology) -> Result<(), Refusal> {
    for group in groups.iter().filter(|group| group.purpose() == Purpose::Streaming) {
        if let Some(way) = breach(group, topology) {
            return Err(Refusal::at(way, group.interface.place));
        }
    }
    Ok(())
}

/// "A streaming group with no endpoints (byte 4) holds no type 24. Any other has, directly after
/// the interface: GENERAL ...; then FORMAT_TYPE ..."
fn breach(group: &Group, topology: &Topology) -> Option<Way> {
    if group.endpoints() == 0 {
        return group.body.iter().any(|one| one.kind() == CLASS).then_some(Way::IdleClass);
    }
    let Some(general) = group.body.first() else {
        return Some(Way::GeneralAbsent);
    };
    let channels = match linked_channels(general, topology) {
        Ok(channels) => channels,
        Err(way) => return Some(way),
    };
    let Some(format) = group.body.get(1) else {
        return Some(Way::FormatAbsent);
    };
    if !opens(format, 0x02) {
        return Some(Way::FormatOpening);
    }
    if format.len() < 4 {
        return Some(Way::FormatLength);
    }
    // "Other tags are not read further."
    if two_bytes(general.bytes, 5) == 1 {
        pcm_breach(format.bytes, channels)
    } else {
        None
    }
}

/// Whether bytes 1 and 2 are 24 and `subtype`.
fn opens(descriptor: &Descriptor, subtype: u8) -> bool {
    descriptor.len() >= 3 && descriptor.kind() == CLASS && descriptor.bytes[2] == subtype
}

/// "GENERAL (24 01, length 7), byte 3 a Terminal of type 0x0101": that terminal's c.
fn linked_channels(general: &Descriptor, topology: &Topology) -> Result<u8, Way> {
    if !opens(general, 0x01) {
        return Err(Way::GeneralOpening);
    }
    if general.len() != 7 {
        return Err(Way::GeneralLength);
    }
    let index = topology.find(general.bytes[3]).ok_or(Way::LinkUnknown)?;
    let terminal = topology.entities[index].terminal().ok_or(Way::LinkUnit)?;
    if terminal != USB_STREAMING {
        return Err(Way::LinkType);
    }
    Ok(topology.clusters[index].channels)
}

/// "If the tag at GENERAL 5..6 is 1: the length is at least 8; format byte 3 is 1; byte 4 equals
/// that terminal's c; byte 5 is 1 to 4; byte 6 is 1 to 8 times byte 5; byte 7 is f: if f > 0 the
/// length is 8+3f, if 0 it is 14 and the rate at 8..10 is at most that at 11..13."
fn pcm_breach(format: &[u8], channels: u8) -> Option<Way> {
    if format.len() < 8 {
        return Some(Way::PcmLength);
    }
    if format[3] != 1 {
        return Some(Way::PcmFormat);
    }
    if format[4] != channels {
        return Some(Way::PcmChannels);
    }
    if !(1..=4).contains(&format[5]) {
        return Some(Way::PcmSubframe);
    }
    if !(1..=8 * format[5]).contains(&format[6]) {
        return Some(Way::PcmResolution);
    }
    let f = usize::from(format[7]);
    if f > 0 {
        return (format.len() != 8 + 3 * f).then_some(Way::PcmRates);
    }
    if format.len() != 14 {
        return Some(Way::PcmRangeLength);
    }
    (rate(format, 8) > rate(format, 11)).then_some(Way::PcmRangeOrder)
}

/// A rate of three bytes, the low one first.
fn rate(format: &[u8], at: usize) -> usize {
    two_bytes(format, at) + 65536 * usize::from(format[at + 2])
}

#[cfg(test)]
mod tests {
    use super::*;

    #[test]
    fn a_range_of_rates_may_be_a_single_rate() {
        let one = [14, 0x24, 2, 1, 1, 2, 16, 0, 0x80, 0xBB, 0, 0x80, 0xBB, 0];
        assert_eq!(pcm_breach(&one, 1), None);
        let mut falling = one;
        falling[8] += 1;
        assert_eq!(pcm_breach(&falling, 1), Some(Way::PcmRangeOrder));
        let mut wide = one;
        wide[13] = 1;
        wide[8] = 0xFF;
        assert_eq!(pcm_breach(&wide, 1), None);
    }
}
