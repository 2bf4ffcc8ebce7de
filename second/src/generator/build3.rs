//! Constructors of configurations of the 3.0 edition with their cluster buffers (document 02, No. 12),
//! and the examples of source document 003.

use super::build::{class, interface, GroupPlan, Part, Plan};
use crate::numbers::EDITION_3;

/// What stands in the fields that are not read; no entity and no cluster of what follows bears it.
pub const SKIPPED: u8 = 0xE7;

/// A configuration and a cluster buffer to be written.
#[derive(Clone, Debug)]
pub struct Third {
    /// The configuration, its header that of this edition unless another is given.
    pub plan: Plan,
    /// The cluster descriptors, one behind the other.
    pub clusters: Vec<Vec<u8>>,
}

impl Third {
    /// A plan with this run, these groups and these clusters.
    pub fn new(parts: Vec<Part>, groups: Vec<GroupPlan>, clusters: Vec<Vec<u8>>) -> Third {
        let mut plan = Plan::new(parts, groups);
        plan.control[7] = EDITION_3;
        Third { plan, clusters }
    }

    /// The plan with its header, which table 4-15 says.
    fn whole(&self) -> Plan {
        let mut plan = self.plan.clone();
        if plan.header.is_none() {
            let run: usize = plan.parts.iter().map(|part| part.bytes().len()).sum();
            let [low, high] = plan.total.unwrap_or(10 + run as u16).to_le_bytes();
            plan.header = Some(class(&[1, 4, low, high, 1, 0, 0, 0]));
        }
        plan
    }

    /// The configuration's bytes.
    pub fn config(&self) -> Vec<u8> {
        self.whole().bytes()
    }

    /// The cluster buffer.
    pub fn buffer(&self) -> Vec<u8> {
        self.clusters.concat()
    }

    /// Where the header stands.
    pub fn header_place(&self) -> usize {
        self.plan.header_place()
    }

    /// Where the entity of this index stands.
    pub fn part_place(&self, index: usize) -> usize {
        self.whole().part_place(index)
    }

    /// Where the cluster descriptor of this index stands, in its buffer.
    pub fn cluster_place(&self, index: usize) -> usize {
        self.clusters[..index].concat().len()
    }

    /// Pads the configuration to this length with descriptors that are skipped.
    pub fn padded(self, length: usize) -> Third {
        Third { plan: self.whole().padded(length), ..self }
    }
}

/// Table 4-16.
pub fn input3(id: u8, clock: u8, cluster: u16) -> Part {
    let [low, high] = cluster.to_le_bytes();
    let head = [2, id, 0x01, 0x02, SKIPPED, clock];
    Part::Raw(class(&[&head[..], &[SKIPPED; 4], &[low, high], &[SKIPPED; 6]].concat()))
}

/// Table 4-17.
pub fn output3(id: u8, source: u8, clock: u8) -> Part {
    Part::Raw(class(&[&[3, id, 0x01, 0x03, SKIPPED, source, clock][..], &[SKIPPED; 10]].concat()))
}

/// Table 4-29, with so many control bytes.
pub fn mixer3(id: u8, sources: &[u8], cluster: u16, controls: usize) -> Part {
    let [low, high] = cluster.to_le_bytes();
    let head = [&[5, id, sources.len() as u8][..], sources, &[low, high]].concat();
    Part::Raw(class(&[&head[..], &vec![0xFF; controls], &[SKIPPED; 6]].concat()))
}

/// Table 4-30.
pub fn selector3(id: u8, sources: &[u8]) -> Part {
    Part::Raw(class(&[&[6, id, sources.len() as u8][..], sources, &[SKIPPED; 6]].concat()))
}

/// Table 4-31, for so many channels.
pub fn feature3(id: u8, source: u8, channels: usize) -> Part {
    let masks = vec![0xFF; 4 * (channels + 1)];
    Part::Raw(class(&[&[7, id, source][..], &masks, &[SKIPPED; 2]].concat()))
}

/// Table 4-43.
pub fn clock3(id: u8) -> Part {
    Part::Raw(class(&[0x0B, id, 3, 1, 0, 0, 0, SKIPPED, SKIPPED, SKIPPED]))
}

/// A cluster descriptor (table 4-3) with what follows its header.
pub fn cluster3(id: u16, channels: u8, blocks: &[u8]) -> Vec<u8> {
    let [short, long] = (7 + blocks.len() as u16).to_le_bytes();
    let [low, high] = id.to_le_bytes();
    [&[short, long, 0x26, 0x00, low, high, channels][..], blocks].concat()
}

/// A channel's block: an Information Segment with this relationship, and an End Segment.
fn channel(relationship: u8) -> [u8; 9] {
    [0x06, 0x00, 0x20, 0x00, relationship, 0x00, 0x03, 0x00, 0xFF]
}

/// The mono cluster of source document 003, table 4-1.
pub fn mono(id: u16) -> Vec<u8> {
    cluster3(id, 1, &channel(1))
}

/// The stereo cluster of source document 003, table 4-2.
pub fn stereo(id: u16) -> Vec<u8> {
    cluster3(id, 2, &[channel(2), channel(3)].concat())
}

/// How much of source document 003 is taken as it is printed.
#[derive(Clone, Copy, Debug, PartialEq, Eq)]
pub enum Basic {
    /// Without the Power Domains, and Feature Units with the subtype of source document 001, 07.
    Taken,
    /// With its Power Domains (subtype 10), and Feature Units of subtype 07.
    PowerDomains,
    /// Without the Power Domains, and Feature Units of subtype 06, as 003 prints them.
    PrintedSubtype,
    /// As it is printed.
    Printed,
}

fn basic_input(id: u8, terminal: u16, pair: u8, cluster: u8) -> Vec<u8> {
    let [low, high] = terminal.to_le_bytes();
    let head = [2, id, low, high, pair, 9, 0, 0, 0, 0, cluster];
    class(&[&head[..], &[0; 7]].concat())
}

fn basic_output(id: u8, terminal: u16, pair: u8, source: u8) -> Vec<u8> {
    let [low, high] = terminal.to_le_bytes();
    class(&[&[3, id, low, high, pair, source, 9][..], &[0; 10]].concat())
}

fn basic_feature(basic: Basic, id: u8, source: u8, channels: usize) -> Vec<u8> {
    let subtype = match basic {
        Basic::Taken | Basic::PowerDomains => 7,
        Basic::PrintedSubtype | Basic::Printed => 6,
    };
    let mut bytes = vec![subtype, id, source, 3, 0, 0, 0];
    bytes.extend([0x0C, 0, 0, 0].repeat(channels));
    bytes.extend([0, 0]);
    class(&bytes)
}

fn basic_clock() -> Vec<u8> {
    class(&[0x0B, 9, 1, 1, 0, 0, 0, 0, 0, 0])
}

fn power_domain(id: u8, one: u8, two: u8) -> Vec<u8> {
    class(&[0x10, id, 0x58, 0x02, 0x70, 0x17, 2, one, two, 0, 0])
}

/// A streaming interface with no endpoint, and one with an endpoint, by sections 6.3 and 6.4 of 003.
fn basic_stream(number: u8, terminal: u8, address: u8) -> Vec<GroupPlan> {
    let face = |setting, endpoints| {
        let mut bytes = interface(number, setting, endpoints, 1, 2);
        bytes[7] = EDITION_3;
        bytes
    };
    let general = class(&[&[1, terminal][..], &[0; 19]].concat());
    let endpoint = vec![7, 5, address, 5, 0x60, 0, 1];
    let class_endpoint = vec![10, 0x25, 1, 0, 0, 0, 0, 0, 0, 0];
    vec![
        GroupPlan { interface: face(0, 0), body: vec![] },
        GroupPlan { interface: face(1, 1), body: vec![general, endpoint, class_endpoint] },
    ]
}

fn basic_function(
    category: u8,
    profile: u8,
    basic: Basic,
    mut run: Vec<Vec<u8>>,
    domains: Vec<Vec<u8>>,
    groups: Vec<GroupPlan>,
) -> Third {
    if matches!(basic, Basic::PowerDomains | Basic::Printed) {
        run.extend(domains);
    }
    let total = 10 + run.concat().len() as u8;
    let count = 1 + groups.len() as u8 / 2;
    let parts = run.into_iter().map(Part::Raw).collect();
    let mut third = Third::new(parts, groups, vec![mono(1), stereo(2)]);
    third.plan.between = vec![vec![8, 0x0B, 0, count, 1, profile, EDITION_3, 0]];
    third.plan.header = Some(class(&[1, category, total, 0, 1, 0, 0, 0]));
    third
}

/// The microphone of source document 003, section 8.4: one channel or two.
pub fn basic_microphone(basic: Basic, channels: u8) -> Third {
    let run = vec![
        basic_input(4, 0x0201, 0, channels),
        basic_output(6, 0x0101, 0, 5),
        basic_feature(basic, 5, 4, usize::from(channels)),
        basic_clock(),
    ];
    let groups = basic_stream(1, 6, 0x81);
    basic_function(3, 0x23, basic, run, vec![power_domain(11, 4, 6)], groups)
}

/// The headset of source document 003, section 8.5: one channel to the microphone, one channel or two
/// to the ears.
pub fn basic_headset(basic: Basic, channels: u8) -> Third {
    let run = vec![
        basic_input(1, 0x0101, 0, channels),
        basic_input(4, 0x0402, 3, 1),
        basic_output(3, 0x0402, 4, 2),
        basic_output(6, 0x0101, 0, 5),
        class(&[5, 8, 2, 1, 7, channels, 0, 0, 0, 0, 0, 0, 0, 0]),
        basic_feature(basic, 2, 8, usize::from(channels)),
        basic_feature(basic, 5, 4, 1),
        basic_feature(basic, 7, 4, 1),
        basic_clock(),
    ];
    let domains = vec![power_domain(10, 1, 3), power_domain(11, 4, 6)];
    let groups = [basic_stream(1, 1, 0x01), basic_stream(2, 6, 0x81)].concat();
    basic_function(4, 0x24, basic, run, domains, groups)
}

#[cfg(test)]
mod tests {
    use super::*;

    /// The lengths of source document 001's tables, and the totals of 003's.
    #[test]
    fn descriptors_are_as_long_as_the_tables_say() {
        let length = |part: Part| part.bytes().len();
        assert_eq!(length(input3(1, 9, 1)), 20);
        assert_eq!(length(output3(1, 2, 9)), 19);
        assert_eq!(length(mixer3(1, &[2, 3], 1, 4)), 13 + 2 + 4);
        assert_eq!(length(selector3(1, &[2, 3, 4])), 11 + 3);
        assert_eq!(length(feature3(1, 2, 6)), 7 + 4 * 7);
        assert_eq!(length(clock3(1)), 12);
        assert_eq!((mono(1).len(), stereo(2).len()), (16, 25));
        for (channels, microphone, headset) in [(1, 0x59, 0xBB), (2, 0x5D, 0xBF)] {
            let third = basic_microphone(Basic::Printed, channels);
            assert_eq!(third.config()[third.header_place()..][4..6], [microphone, 0]);
            let third = basic_headset(Basic::Printed, channels);
            assert_eq!(third.config()[third.header_place()..][4..6], [headset, 0]);
        }
    }
}
