//! Constructors of configurations: a plan with all its parts, the bytes that it makes, and the
//! examples of the source documents.

use crate::cut::CLASS;

/// An entity to be written.
#[derive(Clone, Debug)]
pub enum Part {
    /// 02.
    Input { id: u8, terminal: u16, cluster: (u8, u16, u8) },
    /// 03.
    Output { id: u8, terminal: u16, source: u8 },
    /// 04, with its control bytes.
    Mixer { id: u8, sources: Vec<u8>, cluster: (u8, u16, u8), controls: Vec<u8> },
    /// 05.
    Selector { id: u8, sources: Vec<u8> },
    /// 06, with all masks in a row.
    Feature { id: u8, source: u8, size: u8, masks: Vec<u8> },
    /// Bytes as they are.
    Raw(Vec<u8>),
}

impl Part {
    /// The descriptor.
    pub fn bytes(&self) -> Vec<u8> {
        let body = match self {
            Part::Raw(bytes) => return bytes.clone(),
            Part::Input { id, terminal, cluster } => {
                let [low, high] = terminal.to_le_bytes();
                [&[2, *id, low, high, 0][..], &cluster_bytes(*cluster), &[0]].concat()
            }
            Part::Output { id, terminal, source } => {
                let [low, high] = terminal.to_le_bytes();
                vec![3, *id, low, high, 0, *source, 0]
            }
            Part::Mixer { id, sources, cluster, controls } => {
                let head = [4, *id, sources.len() as u8];
                [&head[..], sources, &cluster_bytes(*cluster), controls, &[0]].concat()
            }
            Part::Selector { id, sources } => {
                [&[5, *id, sources.len() as u8][..], sources, &[0]].concat()
            }
            Part::Feature { id, source, size, masks } => {
                [&[6, *id, *source, *size][..], masks, &[0]].concat()
            }
        };
        class(&body)
    }

    /// The raw form, with one byte made another.
    pub fn with(&self, at: usize, byte: u8) -> Part {
        let mut bytes = self.bytes();
        bytes[at] = byte;
        Part::Raw(bytes)
    }

    /// The raw form, made `length` long by cutting or by zeros, its length byte too.
    pub fn resized(&self, length: usize) -> Part {
        let mut bytes = self.bytes();
        bytes.resize(length, 0);
        bytes[0] = length as u8;
        Part::Raw(bytes)
    }
}

fn cluster_bytes((channels, bitmap, name): (u8, u16, u8)) -> [u8; 4] {
    let [low, high] = bitmap.to_le_bytes();
    [channels, low, high, name]
}

/// A descriptor of type 24 from the bytes after its type.
pub fn class(body: &[u8]) -> Vec<u8> {
    [&[body.len() as u8 + 2, CLASS][..], body].concat()
}

/// A descriptor of any type, of `length` bytes, the rest zeros.
pub fn filler(kind: u8, length: usize) -> Vec<u8> {
    let mut bytes = vec![0; length];
    bytes[0] = length as u8;
    bytes[1] = kind;
    bytes
}

/// A group to be written.
#[derive(Clone, Debug)]
pub struct GroupPlan {
    /// The interface descriptor.
    pub interface: Vec<u8>,
    /// What follows it.
    pub body: Vec<Vec<u8>>,
}

/// An interface descriptor.
pub fn interface(number: u8, setting: u8, endpoints: u8, class: u8, subclass: u8) -> Vec<u8> {
    vec![9, 4, number, setting, endpoints, class, subclass, 0, 0]
}

/// A streaming group with no endpoints.
pub fn idle(number: u8, setting: u8) -> GroupPlan {
    GroupPlan { interface: interface(number, setting, 0, 1, 2), body: Vec::new() }
}

/// GENERAL for a terminal.
pub fn general(terminal: u8, tag: u16) -> Vec<u8> {
    let [low, high] = tag.to_le_bytes();
    class(&[1, terminal, 1, low, high])
}

/// FORMAT_TYPE of Type I, 16 bits in two bytes, with these rates; none means a range.
pub fn pcm(channels: u8, rates: &[u32]) -> Vec<u8> {
    let mut body = vec![2, 1, channels, 2, 16, rates.len() as u8];
    for rate in rates {
        body.extend(&rate.to_le_bytes()[..3]);
    }
    class(&body)
}

/// FORMAT_TYPE of Type I over a range of rates.
pub fn pcm_range(channels: u8, low: u32, high: u32) -> Vec<u8> {
    let mut bytes = pcm(channels, &[low, high]);
    bytes[7] = 0;
    bytes
}

/// A streaming group at work: GENERAL, FORMAT_TYPE, the endpoint and its class descriptor.
pub fn working(number: u8, setting: u8, terminal: u8, format: Vec<u8>) -> GroupPlan {
    let endpoint = vec![9, 5, 0x80 | number, 5, 0x60, 0, 1, 0, 0];
    let class_endpoint = vec![7, 0x25, 1, 0, 0, 0, 0];
    GroupPlan {
        interface: interface(number, setting, 1, 1, 2),
        body: vec![general(terminal, 1), format, endpoint, class_endpoint],
    }
}

/// A whole configuration to be written.
#[derive(Clone, Debug)]
pub struct Plan {
    /// Bytes 2..3 in place of L.
    pub length: Option<u16>,
    /// Descriptors between the configuration and the first group.
    pub between: Vec<Vec<u8>>,
    /// How many of `groups` stand before the AudioControl group.
    pub control_after: usize,
    /// The AudioControl interface descriptor.
    pub control: Vec<u8>,
    /// The header's bytes in place of the right ones.
    pub header: Option<Vec<u8>>,
    /// The header's total in place of the right one.
    pub total: Option<u16>,
    /// The listed numbers in place of the right ones.
    pub listed: Option<Vec<u8>>,
    /// The run.
    pub parts: Vec<Part>,
    /// What follows the run in the AudioControl group.
    pub tail: Vec<Vec<u8>>,
    /// All other groups.
    pub groups: Vec<GroupPlan>,
}

impl Plan {
    /// A plan with this run and these groups, AudioControl first with number 0.
    pub fn new(parts: Vec<Part>, groups: Vec<GroupPlan>) -> Plan {
        Plan {
            length: None,
            between: Vec::new(),
            control_after: 0,
            control: interface(0, 0, 0, 1, 1),
            header: None,
            total: None,
            listed: None,
            parts,
            tail: Vec::new(),
            groups,
        }
    }

    /// The numbers that the header lists: of streaming and MIDI groups, each once.
    pub fn listed_numbers(&self) -> Vec<u8> {
        if let Some(listed) = &self.listed {
            return listed.clone();
        }
        let mut numbers = Vec::new();
        for group in &self.groups {
            let bytes = &group.interface;
            let audio = bytes.len() >= 7 && bytes[5] == 1 && (bytes[6] == 2 || bytes[6] == 3);
            if audio && !numbers.contains(&bytes[2]) {
                numbers.push(bytes[2]);
            }
        }
        numbers
    }

    fn header_bytes(&self) -> Vec<u8> {
        if let Some(header) = &self.header {
            return header.clone();
        }
        let listed = self.listed_numbers();
        let run: usize = self.parts.iter().map(|part| part.bytes().len()).sum();
        let total = self.total.unwrap_or((8 + listed.len() + run) as u16);
        let [low, high] = total.to_le_bytes();
        let head = [1, 0, 1, low, high, listed.len() as u8];
        class(&[&head[..], &listed].concat())
    }

    /// The configuration's bytes.
    pub fn bytes(&self) -> Vec<u8> {
        let mut bytes = vec![9, 2, 0, 0, 0, 1, 0, 0x80, 0x32];
        bytes.extend(self.between.concat());
        bytes.extend(groups_bytes(&self.groups[..self.control_after]));
        bytes.extend(&self.control);
        bytes.extend(self.header_bytes());
        bytes.extend(self.parts.iter().flat_map(Part::bytes));
        bytes.extend(self.tail.concat());
        bytes.extend(groups_bytes(&self.groups[self.control_after..]));
        bytes[4] = 1 + self.groups.len() as u8;
        let [low, high] = self.length.unwrap_or(bytes.len() as u16).to_le_bytes();
        bytes[2] = low;
        bytes[3] = high;
        bytes
    }

    /// Where the AudioControl interface descriptor stands.
    pub fn control_place(&self) -> usize {
        9 + self.between.concat().len() + groups_bytes(&self.groups[..self.control_after]).len()
    }

    /// Where the header stands.
    pub fn header_place(&self) -> usize {
        self.control_place() + self.control.len()
    }

    /// Where the entity of this index stands.
    pub fn part_place(&self, index: usize) -> usize {
        let run: usize = self.parts[..index].iter().map(|part| part.bytes().len()).sum();
        self.header_place() + self.header_bytes().len() + run
    }

    /// Where the other group of this index stands.
    pub fn group_place(&self, index: usize) -> usize {
        if index < self.control_after {
            return 9 + self.between.concat().len() + groups_bytes(&self.groups[..index]).len();
        }
        self.part_place(self.parts.len())
            + self.tail.concat().len()
            + groups_bytes(&self.groups[self.control_after..index]).len()
    }

    /// Pads to this length with descriptors that are skipped.
    pub fn padded(mut self, length: usize) -> Plan {
        let mut missing = length - self.bytes().len();
        while missing > 0 {
            let take = if missing > 255 { 200 } else { missing };
            self.between.push(filler(0x41, take));
            missing -= take;
        }
        self
    }
}

fn groups_bytes(groups: &[GroupPlan]) -> Vec<u8> {
    let one = |group: &GroupPlan| [group.interface.clone(), group.body.concat()].concat();
    groups.iter().flat_map(one).collect()
}

/// Case A of document 01, 109 bytes.
pub fn case_a() -> Vec<u8> {
    [
        vec![0x09, 0x02, 0x6D, 0x00, 0x02, 0x01, 0x00, 0x80, 0x32],
        vec![0x09, 0x04, 0x00, 0x00, 0x00, 0x01, 0x01, 0x00, 0x00],
        vec![0x09, 0x24, 0x01, 0x00, 0x01, 0x27, 0x00, 0x01, 0x01],
        vec![0x0C, 0x24, 0x02, 0x01, 0x01, 0x02, 0x00, 0x01, 0x00, 0x00, 0x00, 0x00],
        vec![0x09, 0x24, 0x06, 0x02, 0x01, 0x01, 0x01, 0x02, 0x00],
        vec![0x09, 0x24, 0x03, 0x03, 0x01, 0x01, 0x00, 0x02, 0x00],
        vec![0x09, 0x04, 0x01, 0x00, 0x00, 0x01, 0x02, 0x00, 0x00],
        vec![0x09, 0x04, 0x01, 0x01, 0x01, 0x01, 0x02, 0x00, 0x00],
        vec![0x07, 0x24, 0x01, 0x03, 0x01, 0x01, 0x00],
        vec![0x0B, 0x24, 0x02, 0x01, 0x01, 0x02, 0x10, 0x01, 0x80, 0xBB, 0x00],
        vec![0x09, 0x05, 0x81, 0x05, 0x60, 0x00, 0x01, 0x00, 0x00],
        vec![0x07, 0x25, 0x01, 0x00, 0x00, 0x00, 0x00],
    ]
    .concat()
}

/// The microphone of source document 000, tables B-2 to B-12.
pub fn microphone() -> Vec<u8> {
    [
        vec![0x09, 0x02, 0x64, 0x00, 0x02, 0x01, 0x00, 0x80, 0x0A],
        vec![0x09, 0x04, 0x00, 0x00, 0x00, 0x01, 0x01, 0x00, 0x00],
        vec![0x09, 0x24, 0x01, 0x00, 0x01, 0x1E, 0x00, 0x01, 0x01],
        vec![0x0C, 0x24, 0x02, 0x01, 0x01, 0x02, 0x00, 0x01, 0x00, 0x00, 0x00, 0x00],
        vec![0x09, 0x24, 0x03, 0x02, 0x01, 0x01, 0x00, 0x01, 0x00],
        vec![0x09, 0x04, 0x01, 0x00, 0x00, 0x01, 0x02, 0x00, 0x00],
        vec![0x09, 0x04, 0x01, 0x01, 0x01, 0x01, 0x02, 0x00, 0x00],
        vec![0x07, 0x24, 0x01, 0x02, 0x01, 0x01, 0x00],
        vec![0x0B, 0x24, 0x02, 0x01, 0x01, 0x02, 0x10, 0x01, 0x40, 0x1F, 0x00],
        vec![0x09, 0x05, 0x81, 0x01, 0x10, 0x00, 0x01, 0x00, 0x00],
        vec![0x07, 0x25, 0x01, 0x00, 0x00, 0x00, 0x00],
    ]
    .concat()
}

/// What the telephone's Selectors look like.
#[derive(Clone, Copy, Debug, PartialEq, Eq)]
pub enum Telephone {
    /// Source document 004, tables C-11 to C-13: 9 bytes, no field at offset 5.
    Printed,
    /// Source document 000, table 4-6: 8 bytes.
    Tables,
}

/// The telephone of source document 000, tables C-2 to C-25. `second_number` is the interface
/// number of its second streaming interface, which tables C-20 and C-21 print as 1; `total` is the
/// header's, which table C-4 prints as 0x64.
pub fn telephone(selectors: Telephone, second_number: u8, total: u8) -> Vec<u8> {
    let selector = |id: u8, one: u8, two: u8| match selectors {
        Telephone::Printed => vec![0x09, 0x24, 0x05, id, 0x02, 0x00, one, two, 0x00],
        Telephone::Tables => vec![0x08, 0x24, 0x05, id, 0x02, one, two, 0x00],
    };
    let input = |id: u8, low: u8, high: u8, pair: u8, name: u8| {
        vec![0x0C, 0x24, 0x02, id, low, high, pair, 0x01, 0x00, 0x00, 0x00, name]
    };
    let output = |id: u8, low: u8, high: u8, pair: u8, source: u8, name: u8| {
        vec![0x09, 0x24, 0x03, id, low, high, pair, source, name]
    };
    let stream = |number: u8, terminal: u8, address: u8| {
        [
            vec![0x09, 0x04, number, 0x00, 0x00, 0x01, 0x02, 0x00, 0x00],
            vec![0x09, 0x04, number, 0x01, 0x01, 0x01, 0x02, 0x00, 0x00],
            vec![0x07, 0x24, 0x01, terminal, 0x01, 0x01, 0x00],
            vec![0x0B, 0x24, 0x02, 0x01, 0x01, 0x02, 0x10, 0x01, 0x40, 0x1F, 0x00],
            vec![0x09, 0x05, address, 0x0B, 0x10, 0x00, 0x01, 0x00, 0x00],
            vec![0x07, 0x25, 0x01, 0x00, 0x00, 0x00, 0x00],
        ]
        .concat()
    };
    let mut bytes = [
        vec![0x09, 0x02, 0x00, 0x00, 0x03, 0x01, 0x00, 0x60, 0x00],
        vec![0x09, 0x04, 0x00, 0x00, 0x00, 0x01, 0x01, 0x00, 0x00],
        vec![0x0A, 0x24, 0x01, 0x00, 0x01, total, 0x00, 0x02, 0x01, 0x02],
        input(0x01, 0x01, 0x05, 0x04, 0x00),
        input(0x02, 0x01, 0x04, 0x05, 0x04),
        input(0x03, 0x01, 0x01, 0x06, 0x05),
        output(0x04, 0x01, 0x05, 0x01, 0x07, 0x06),
        output(0x05, 0x01, 0x04, 0x01, 0x08, 0x00),
        output(0x06, 0x01, 0x01, 0x03, 0x09, 0x00),
        selector(0x07, 0x02, 0x03),
        selector(0x08, 0x01, 0x03),
        selector(0x09, 0x01, 0x02),
        stream(1, 0x03, 0x01),
        stream(second_number, 0x06, 0x81),
    ]
    .concat();
    bytes[2] = bytes.len() as u8;
    bytes
}

#[cfg(test)]
mod tests {
    use super::*;
    use crate::generator::configs::desk;
    use crate::sheet;

    #[test]
    fn the_microphone_is_as_long_as_it_says() {
        assert_eq!(microphone().len(), 0x64);
        let records = [
            "01 02 01 00 00 00 00 00 00 00 00 00 00 00 00 00",
            "02 03 01 00 00 00 01 00 01 00 00 00 00 00 00 00",
        ];
        let printed = records.map(|record| format!("{record}{}\n", " 00".repeat(16)));
        assert_eq!(sheet::program(&microphone()), printed.concat());
    }

    #[test]
    fn the_telephone_with_either_selector() {
        let line = |config: &[u8]| sheet::program(config).lines().nth(6).map(str::to_string);
        let printed = telephone(Telephone::Printed, 2, 0x64);
        assert_eq!(sheet::program(&printed), "refused 17 at 91\n");
        let tables = telephone(Telephone::Tables, 2, 0x61);
        let selector = "07 05 01 00 00 00 02 00 02 03".to_string() + &" 00".repeat(22);
        assert_eq!(line(&tables), Some(selector));
    }

    #[test]
    fn places_are_where_the_parts_stand() {
        let plan = desk().padded(700);
        let bytes = plan.bytes();
        assert_eq!(bytes.len(), 700);
        assert_eq!(bytes[plan.control_place()..][..3], [9, 4, plan.control[2]]);
        assert_eq!(bytes[plan.header_place()..][1..5], [0x24, 1, 0, 1]);
        for (index, part) in plan.parts.iter().enumerate() {
            let part = part.bytes();
            assert_eq!(bytes[plan.part_place(index)..][..part.len()], part);
        }
        for (index, group) in plan.groups.iter().enumerate() {
            assert_eq!(bytes[plan.group_place(index)..][..9], group.interface);
        }
    }
}
