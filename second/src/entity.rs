//! Entities: the five kinds, each with its own fields (refusals 9 and 17).

use crate::cut::{two_bytes, Descriptor};
use crate::numbers::PINS;
use crate::ways::Way;

/// "A cluster is channels c, a bitmap of locations, and a first name index."
#[derive(Clone, Copy, Debug, PartialEq, Eq)]
pub struct Cluster {
    /// c.
    pub channels: u8,
    /// The bitmap.
    pub bitmap: u16,
    /// The first name index.
    pub name: u8,
}

impl Cluster {
    /// Reads four bytes.
    fn read(bytes: &[u8], at: usize) -> Cluster {
        Cluster {
            channels: bytes[at],
            bitmap: two_bytes(bytes, at + 1) as u16,
            name: bytes[at + 3],
        }
    }
}

/// "Each entity is one of five kinds, with that kind's own fields".
#[derive(Clone, Debug, PartialEq, Eq)]
pub enum Kind {
    /// 02: "terminal type at 4, cluster at 7..10. No pins."
    InputTerminal {
        /// The terminal type.
        terminal: u16,
        /// What it declares.
        cluster: Cluster,
    },
    /// 03: "type at 4, source at 7".
    OutputTerminal {
        /// The terminal type.
        terminal: u16,
    },
    /// 04: "p at 4, sources from 5, cluster at 5+p..8+p, N control bytes from 9+p".
    Mixer {
        /// What it declares.
        cluster: Cluster,
    },
    /// 05: "p at 4, sources from 5, length 6+p".
    Selector,
    /// 06: "source at 4, control size n at 5 (1 to 4), masks of n bytes from 6".
    FeatureUnit {
        /// n.
        size: usize,
    },
}

/// An entity as its layout reads it, with the kinds of this edition or of another.
#[derive(Clone, Debug)]
pub struct Entity<'a, K = Kind> {
    /// Where its descriptor stands.
    pub place: usize,
    /// Its descriptor's bytes.
    pub bytes: &'a [u8],
    /// "byte 3 the ID".
    pub id: u8,
    /// Its kind and that kind's fields.
    pub kind: K,
    /// The source IDs, one for each pin.
    pub sources: Vec<u8>,
}

impl Entity<'_> {
    /// The kind as the sheet shows it.
    pub fn kind_byte(&self) -> u8 {
        self.bytes[2]
    }

    /// The terminal type, of a Terminal.
    pub fn terminal(&self) -> Option<u16> {
        match self.kind {
            Kind::InputTerminal { terminal, .. } | Kind::OutputTerminal { terminal } => {
                Some(terminal)
            }
            _ => None,
        }
    }
}

/// Reads the layout of one entity. "any other kind, or too few bytes to hold those fields, is a
/// wrong layout." The clause is of 9, or 17's.
pub fn read<'a>(descriptor: &Descriptor<'a>) -> Result<Entity<'a>, Way> {
    let bytes = descriptor.bytes;
    if bytes.len() < 4 {
        return Err(Way::KindAbsent);
    }
    let (kind, sources) = match bytes[2] {
        0x02 => input_terminal(bytes)?,
        0x03 => output_terminal(bytes)?,
        0x04 => mixer(bytes)?,
        0x05 => selector(bytes)?,
        0x06 => feature_unit(bytes)?,
        _ => return Err(Way::KindUnknown),
    };
    Ok(Entity { place: descriptor.place, bytes, id: bytes[3], kind, sources })
}

type Fields = (Kind, Vec<u8>);

/// "02 Input Terminal: length 12".
fn input_terminal(bytes: &[u8]) -> Result<Fields, Way> {
    if bytes.len() != 12 {
        return Err(Way::InputTerminalLength);
    }
    let terminal = two_bytes(bytes, 4) as u16;
    Ok((Kind::InputTerminal { terminal, cluster: Cluster::read(bytes, 7) }, Vec::new()))
}

/// "03 Output Terminal: length 9".
fn output_terminal(bytes: &[u8]) -> Result<Fields, Way> {
    if bytes.len() != 9 {
        return Err(Way::OutputTerminalLength);
    }
    let terminal = two_bytes(bytes, 4) as u16;
    Ok((Kind::OutputTerminal { terminal }, vec![bytes[7]]))
}

/// "04 Mixer: ... Refusal 9 asks only a length of at least 10+p."
fn mixer(bytes: &[u8]) -> Result<Fields, Way> {
    if bytes.len() < 5 {
        return Err(Way::MixerLength);
    }
    let p = usize::from(bytes[4]);
    if !(1..=PINS).contains(&p) {
        return Err(Way::MixerPins);
    }
    if bytes.len() < 10 + p {
        return Err(Way::MixerLength);
    }
    Ok((Kind::Mixer { cluster: Cluster::read(bytes, 5 + p) }, bytes[5..5 + p].to_vec()))
}

/// "05 Selector: p at 4, sources from 5, length 6+p." With "length 7+p ... if byte 5 is 0" it is the
/// printed Selector, which "the reader no longer accepts".
fn selector(bytes: &[u8]) -> Result<Fields, Way> {
    if bytes.len() < 5 {
        return Err(Way::SelectorLength);
    }
    let p = usize::from(bytes[4]);
    if !(1..=PINS).contains(&p) {
        return Err(Way::SelectorPins);
    }
    if bytes.len() == 6 + p {
        return Ok((Kind::Selector, bytes[5..5 + p].to_vec()));
    }
    if bytes.len() != 7 + p {
        return Err(Way::SelectorLength);
    }
    Err(if bytes[5] == 0 { Way::SelectorPrinted } else { Way::SelectorPad })
}

/// "06 Feature Unit: ... Refusal 9 asks only a length of at least 7."
fn feature_unit(bytes: &[u8]) -> Result<Fields, Way> {
    if bytes.len() < 7 {
        return Err(Way::FeatureLength);
    }
    let size = usize::from(bytes[5]);
    if !(1..=4).contains(&size) {
        return Err(Way::FeatureSize);
    }
    Ok((Kind::FeatureUnit { size }, vec![bytes[4]]))
}

#[cfg(test)]
mod tests {
    use super::*;

    fn layout(bytes: &[u8]) -> Result<(u8, Vec<u8>), Way> {
        read(&Descriptor { place: 0, bytes }).map(|one| (one.kind_byte(), one.sources))
    }

    #[test]
    fn a_selector_by_table_4_6_has_its_sources_from_5() {
        assert_eq!(layout(&[8, 0x24, 5, 7, 2, 1, 3, 0]), Ok((0x05, vec![1, 3])));
    }

    #[test]
    fn the_printed_selector_is_withdrawn() {
        assert_eq!(layout(&[9, 0x24, 5, 7, 2, 0, 1, 3, 0]), Err(Way::SelectorPrinted));
        assert_eq!(layout(&[8, 0x24, 5, 7, 1, 0, 1, 0]), Err(Way::SelectorPrinted));
        assert_eq!(layout(&[9, 0x24, 5, 7, 2, 4, 1, 3, 0]), Err(Way::SelectorPad));
    }

    #[test]
    fn two_lengths_fit_one_selector_only() {
        assert_eq!(layout(&[9, 0x24, 5, 7, 3, 0, 1, 3, 0]), Ok((0x05, vec![0, 1, 3])));
    }

    #[test]
    fn a_kind_needs_its_bytes() {
        assert_eq!(layout(&[2, 0x24]), Err(Way::KindAbsent));
        assert_eq!(layout(&[6, 0x24, 6, 1, 1, 1]), Err(Way::FeatureLength));
        assert_eq!(layout(&[7, 0x24, 6, 1, 1, 5, 0]), Err(Way::FeatureSize));
        assert_eq!(layout(&[4, 0x24, 7, 1]), Err(Way::KindUnknown));
    }
}
