//! Controls and the table of controls (refusal 15).

use crate::entity::{Entity, Kind};
use crate::numbers::CONTROLS;
use crate::settings::{Scale, DELAY, TONE, VOLUME};
use crate::topology::Topology;

/// The selector number that a Selector's one control has; its request has wValue 0.
pub const PIN_SELECTOR: u8 = 0;

/// What a control holds.
#[derive(Clone, Copy, Debug, PartialEq, Eq)]
pub enum Holds {
    /// "A Selector's value is a pin".
    Pin,
    /// "Yes/no, one byte, 0 or 1".
    YesNo,
    /// Ranged, on its scale.
    Ranged(Scale),
}

impl Holds {
    /// From the selector; none if it is "an unknown selector".
    pub fn of(selector: u8) -> Option<Holds> {
        match selector {
            PIN_SELECTOR => Some(Holds::Pin),
            1 | 7 | 9 | 10 => Some(Holds::YesNo),
            2 => Some(Holds::Ranged(VOLUME)),
            3..=5 => Some(Holds::Ranged(TONE)),
            8 => Some(Holds::Ranged(DELAY)),
            _ => None,
        }
    }

    /// The control's size on the wire.
    pub fn size(self) -> usize {
        match self {
            Holds::Pin | Holds::YesNo => 1,
            Holds::Ranged(scale) => scale.size,
        }
    }

    /// The scale of a ranged control.
    pub fn scale(self) -> Option<Scale> {
        match self {
            Holds::Ranged(scale) => Some(scale),
            _ => None,
        }
    }
}

/// A place of the table. Numbers are held as on the wire, two bytes each.
#[derive(Clone, Copy, Debug, Default, PartialEq, Eq)]
pub struct Control {
    /// The unit's ID.
    pub unit: u8,
    /// The channel, 0 for the master and for a Selector.
    pub channel: u8,
    /// The selector number.
    pub selector: u8,
    /// A Selector's pins; 0 for others.
    pub pins: u8,
    /// Whether a load has come.
    pub loaded: bool,
    /// MIN.
    pub min: u16,
    /// MAX.
    pub max: u16,
    /// RES.
    pub res: u16,
    /// CUR.
    pub cur: u16,
}

impl Control {
    /// What names a control: unit ID, channel and selector.
    pub fn name(&self) -> (u8, u8, u8) {
        (self.unit, self.channel, self.selector)
    }
}

/// The table: a count, and places of which the spare ones are zero after reading.
#[derive(Clone, Debug, PartialEq, Eq)]
pub struct Table {
    /// How many places are in use; a table that is put may say anything.
    pub count: u16,
    /// The places.
    pub places: [Control; CONTROLS],
}

impl Table {
    /// "an empty table".
    pub fn empty() -> Table {
        Table { count: 0, places: [Control::default(); CONTROLS] }
    }

    /// The table of these controls, in this order, if there are places for them.
    pub fn of(controls: &[Control]) -> Option<Table> {
        let mut table = Table::empty();
        table.places.get_mut(..controls.len())?.copy_from_slice(controls);
        table.count = controls.len() as u16;
        Some(table)
    }

    /// The places in use, if the count is not over their number.
    pub fn controls(&self) -> Option<&[Control]> {
        self.places.get(..usize::from(self.count))
    }
}

/// All controls: "The table goes by entity place, channel, selector".
pub fn of_topology(topology: &Topology) -> Vec<Control> {
    let mut all = Vec::new();
    for (entity, cluster) in topology.entities.iter().zip(&topology.clusters) {
        match entity.kind {
            Kind::Selector => all.push(of_selector(entity)),
            Kind::FeatureUnit { size } => {
                all.extend(of_feature_unit(entity, size, usize::from(cluster.channels)));
            }
            _ => {}
        }
    }
    all
}

/// "Each Selector has one control." Its value is "at first 1".
fn of_selector(entity: &Entity) -> Control {
    let pins = entity.sources.len() as u8;
    Control { unit: entity.id, selector: PIN_SELECTOR, pins, cur: 1, ..Control::default() }
}

/// "Channel k's mask (0 is master), bit b: control with selector b+1, for b from 0 to 9 except 5.
/// Other bits carry none."
fn of_feature_unit(entity: &Entity, size: usize, channels: usize) -> Vec<Control> {
    let mut all = Vec::new();
    for channel in 0..=channels {
        let mask = &entity.bytes[6 + channel * size..6 + (channel + 1) * size];
        for b in (0..10).filter(|&b| b != 5 && b / 8 < size) {
            if mask[b / 8] >> (b % 8) & 1 == 1 {
                let (channel, selector) = (channel as u8, b as u8 + 1);
                all.push(Control { unit: entity.id, channel, selector, ..Control::default() });
            }
        }
    }
    all
}

#[cfg(test)]
mod tests {
    use super::*;

    #[test]
    fn the_equaliser_and_what_is_above_loudness_are_unknown() {
        for selector in 0..=255 {
            let known = selector <= 10 && selector != 6;
            assert_eq!(Holds::of(selector).is_some(), known, "{selector}");
        }
    }

    #[test]
    fn a_mask_goes_by_channel_and_selector() {
        let bytes = [11, 0x24, 6, 2, 1, 2, 0xFF, 0xFF, 0x01, 0x02, 0];
        let entity = Entity {
            place: 0,
            bytes: &bytes,
            id: 2,
            kind: Kind::FeatureUnit { size: 2 },
            sources: vec![1],
        };
        let names: Vec<(u8, u8)> = of_feature_unit(&entity, 2, 1)
            .iter()
            .map(|control| (control.channel, control.selector))
            .collect();
        let master = [1, 2, 3, 4, 5, 7, 8, 9, 10].map(|selector| (0, selector));
        assert_eq!(names[..9], master);
        assert_eq!(names[9..], [(1, 1), (1, 10)]);
    }
}
