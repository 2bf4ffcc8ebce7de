//! Cutting: from bytes to descriptors, groups, the header and the run (refusals 1 to 8).

use crate::numbers::{CONFIGURATION_LEAST, CONFIGURATION_MOST, ENTITIES};
use crate::ways::{Refusal, Way};

/// Type 02, a configuration.
const CONFIGURATION: u8 = 0x02;
/// Type 04: "A descriptor of type 04 opens a group".
const INTERFACE: u8 = 0x04;
/// Type 24, a class descriptor.
pub const CLASS: u8 = 0x24;
/// "bytes 1 to 4 are 24 01 00 01".
pub const HEADER_OPENING: [u8; 4] = [0x24, 0x01, 0x00, 0x01];

/// "Numbers of two bytes have the low byte first."
pub fn two_bytes(bytes: &[u8], at: usize) -> usize {
    usize::from(bytes[at]) + 256 * usize::from(bytes[at + 1])
}

/// One descriptor: a part of the configuration and the offset where it stands.
#[derive(Clone, Copy, Debug)]
pub struct Descriptor<'a> {
    /// Offset from the configuration's first byte.
    pub place: usize,
    /// Its bytes, the length byte included; two at least.
    pub bytes: &'a [u8],
}

impl Descriptor<'_> {
    /// The length that it declares, which is that of its bytes.
    pub fn len(&self) -> usize {
        self.bytes.len()
    }

    /// Byte 1.
    pub fn kind(&self) -> u8 {
        self.bytes[1]
    }

    /// The offset just past it.
    pub fn end(&self) -> usize {
        self.place + self.bytes.len()
    }
}

/// What a group is for: "Class 1 subclass 1 is AudioControl, 1/2 AudioStreaming, 1/3 MIDI".
#[derive(Clone, Copy, Debug, PartialEq, Eq)]
pub enum Purpose {
    /// 1/1.
    AudioControl,
    /// 1/2.
    Streaming,
    /// 1/3.
    Midi,
    /// "all other groups ... are skipped".
    Other,
}

/// A group: its interface descriptor, and the descriptors up to the next one.
#[derive(Clone, Debug)]
pub struct Group<'a> {
    /// The descriptor of type 04 that opens it.
    pub interface: Descriptor<'a>,
    /// What follows in the group.
    pub body: Vec<Descriptor<'a>>,
}

impl Group<'_> {
    /// Byte 2 of the interface descriptor.
    pub fn number(&self) -> u8 {
        self.interface.bytes[2]
    }

    /// Byte 3.
    pub fn setting(&self) -> u8 {
        self.interface.bytes[3]
    }

    /// Byte 4.
    pub fn endpoints(&self) -> u8 {
        self.interface.bytes[4]
    }

    /// Byte 7.
    pub fn protocol(&self) -> u8 {
        self.interface.bytes[7]
    }

    /// From bytes 5 and 6.
    pub fn purpose(&self) -> Purpose {
        match (self.interface.bytes[5], self.interface.bytes[6]) {
            (1, 1) => Purpose::AudioControl,
            (1, 2) => Purpose::Streaming,
            (1, 3) => Purpose::Midi,
            _ => Purpose::Other,
        }
    }
}

/// What cutting promises to the layer above.
#[derive(Clone, Debug)]
pub struct Cut<'a> {
    /// All groups, by place.
    pub groups: Vec<Group<'a>>,
    /// The AudioControl interface number.
    pub control_number: u8,
    /// The header.
    pub header: Descriptor<'a>,
    /// "The run's descriptors are the entities."
    pub run: Vec<Descriptor<'a>>,
}

/// Cuts a configuration, refusing with 1 to 8.
pub fn cut(config: &[u8]) -> Result<Cut<'_>, Refusal> {
    let cut = cut_whatever_run(config)?;
    match count_breach(cut.run.len()) {
        Some(way) => Err(Refusal::at(way, cut.header.place)),
        None => Ok(cut),
    }
}

/// Cuts a configuration, refusing with 1 to 7.
pub fn cut_whatever_run(config: &[u8]) -> Result<Cut<'_>, Refusal> {
    let (groups, control) = outline(config)?;
    let control = &groups[control];
    let header = find_header(control, config.len())?;
    let run = cut_run(control, header, 5, [Way::TotalWrong, Way::ClassAfterRun])?;
    check_collection(&groups, header)?;
    let control_number = control.number();
    Ok(Cut { control_number, header, run, groups })
}

/// The groups, and the index of the AudioControl one: what is the same in both editions. Refuses with
/// 1 to 4.
pub fn outline(config: &[u8]) -> Result<(Vec<Group<'_>>, usize), Refusal> {
    check_opening(config)?;
    let groups = group(descriptors(config)?);
    let control = check_interfaces(&groups, config.len())?;
    Ok((groups, control))
}

/// Refusal 8: "no entity, or more than 32".
pub fn count_breach(entities: usize) -> Option<Way> {
    match entities {
        0 => Some(Way::NoEntity),
        1..=ENTITIES => None,
        _ => Some(Way::ManyEntities),
    }
}

/// Refusals 1 and 2, both at 0.
fn check_opening(config: &[u8]) -> Result<(), Refusal> {
    let refuse = |way| Err(Refusal::at(way, 0));
    if config.len() < CONFIGURATION_LEAST {
        return refuse(Way::LengthLow);
    }
    if config.len() > CONFIGURATION_MOST {
        return refuse(Way::LengthHigh);
    }
    if config[0] != 9 {
        return refuse(Way::OpeningLength);
    }
    if config[1] != CONFIGURATION {
        return refuse(Way::OpeningType);
    }
    if two_bytes(config, 2) != config.len() {
        return refuse(Way::OpeningTotal);
    }
    Ok(())
}

/// Refusal 3: "a descriptor's length is below 2 or runs past L", at that descriptor.
fn descriptors(config: &[u8]) -> Result<Vec<Descriptor<'_>>, Refusal> {
    let mut found = Vec::new();
    let mut place = 0;
    while place < config.len() {
        let length = usize::from(config[place]);
        if length < 2 {
            return Err(Refusal::at(Way::DescriptorShort, place));
        }
        if place + length > config.len() {
            return Err(Refusal::at(Way::DescriptorLong, place));
        }
        found.push(Descriptor { place, bytes: &config[place..place + length] });
        place += length;
    }
    Ok(found)
}

/// "A descriptor of type 04 opens a group that runs to the next one"; "descriptors between the
/// configuration and the first group, are skipped".
fn group(descriptors: Vec<Descriptor<'_>>) -> Vec<Group<'_>> {
    let mut groups: Vec<Group> = Vec::new();
    for descriptor in descriptors {
        if descriptor.kind() == INTERFACE {
            groups.push(Group { interface: descriptor, body: Vec::new() });
        } else if let Some(last) = groups.last_mut() {
            last.body.push(descriptor);
        }
    }
    groups
}

/// Refusal 4, at the "first such descriptor; L if only the AudioControl one is missing".
fn check_interfaces(groups: &[Group], end: usize) -> Result<usize, Refusal> {
    let mut control = None;
    for (index, group) in groups.iter().enumerate() {
        let refuse = |way| Err(Refusal::at(way, group.interface.place));
        if group.interface.len() != 9 {
            return refuse(Way::InterfaceLength);
        }
        let is_control = group.purpose() == Purpose::AudioControl;
        if is_control && group.setting() != 0 {
            return refuse(Way::AudioControlSetting);
        }
        let pair = (group.number(), group.setting());
        if groups[..index].iter().any(|earlier| (earlier.number(), earlier.setting()) == pair) {
            return refuse(Way::InterfacePair);
        }
        if is_control && control.is_some() {
            return refuse(Way::SecondAudioControl);
        }
        if is_control {
            control = Some(index);
        }
    }
    control.ok_or(Refusal::at(Way::NoAudioControl, end))
}

/// Refusal 5: "The header is the next descriptor in the AudioControl group: bytes 1 to 4 are
/// 24 01 00 01, byte 7 is n, length 8+n." Its place is where it should stand.
fn find_header<'a>(control: &Group<'a>, end: usize) -> Result<Descriptor<'a>, Refusal> {
    let place = control.interface.end();
    let Some(header) = control.body.first() else {
        let way = if place == end { Way::HeaderAtEnd } else { Way::HeaderAtGroup };
        return Err(Refusal::at(way, place));
    };
    if header.len() < 5 || header.bytes[1..5] != HEADER_OPENING {
        return Err(Refusal::at(Way::HeaderOpening, place));
    }
    if header.len() < 8 || header.len() != 8 + usize::from(header.bytes[7]) {
        return Err(Refusal::at(Way::HeaderLength, place));
    }
    Ok(*header)
}

/// Refusal 6: "The run is all type 24 descriptors that follow it without a break in that group.
/// Bytes 5..6 are the length of header and run together; no other type 24 stands later in the
/// group." The edition says where the total stands, and has clauses of its own.
pub fn cut_run<'a>(
    control: &Group<'a>,
    header: Descriptor<'a>,
    total_at: usize,
    [total, after_run]: [Way; 2],
) -> Result<Vec<Descriptor<'a>>, Refusal> {
    let after = &control.body[1..];
    let run: Vec<Descriptor> =
        after.iter().take_while(|one| one.kind() == CLASS).copied().collect();
    let together = header.len() + run.iter().map(Descriptor::len).sum::<usize>();
    if two_bytes(header.bytes, total_at) != together {
        return Err(Refusal::at(total, header.place));
    }
    if after[run.len()..].iter().any(|one| one.kind() == CLASS) {
        return Err(Refusal::at(after_run, header.place));
    }
    Ok(run)
}

/// Refusal 7: "The n listed numbers are distinct, each is that of a streaming or MIDI group, and
/// each such group's number is listed."
fn check_collection(groups: &[Group], header: Descriptor) -> Result<(), Refusal> {
    let refuse = |way| Err(Refusal::at(way, header.place));
    let listed = &header.bytes[8..];
    for (index, number) in listed.iter().enumerate() {
        if listed[..index].contains(number) {
            return refuse(Way::ListedTwice);
        }
    }
    let of = |purpose| move |group: &&Group| group.purpose() == purpose;
    let streaming: Vec<u8> =
        groups.iter().filter(of(Purpose::Streaming)).map(Group::number).collect();
    let midi: Vec<u8> = groups.iter().filter(of(Purpose::Midi)).map(Group::number).collect();
    if listed.iter().any(|number| !streaming.contains(number) && !midi.contains(number)) {
        return refuse(Way::ListedUnknown);
    }
    if streaming.iter().any(|number| !listed.contains(number)) {
        return refuse(Way::StreamingUnlisted);
    }
    if midi.iter().any(|number| !listed.contains(number)) {
        return refuse(Way::MidiUnlisted);
    }
    Ok(())
}
