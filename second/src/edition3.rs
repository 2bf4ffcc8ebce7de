//! The 3.0 edition (document 02, No. 12; source document 001): the header, the run and its entities,
//! the cluster descriptors of a second lent buffer, and the sheet.
//!
//! Rules 1 to 4 are those of [`cut`], 10 and 12 those of [`topology`]. The order is 1 to 6, 8, 51, 9,
//! 10, 11, 12, 52, 13, 16; "Rules 7, 14, 15 and 17 are not applied."

use crate::cut::{self, two_bytes, Descriptor, Group, CLASS};
use crate::entity;
use crate::numbers::{CHANNELS, CLUSTER_LEAST, EDITION_3, ENTITIES, PINS, RECORD};
use crate::reader;
use crate::topology::{self, find, sources_of};
use crate::ways::{Refusal, Way};

/// The subtypes of table A-15 that are taken.
mod subtype {
    pub const HEADER: u8 = 0x01;
    pub const INPUT_TERMINAL: u8 = 0x02;
    pub const OUTPUT_TERMINAL: u8 = 0x03;
    pub const MIXER_UNIT: u8 = 0x05;
    pub const SELECTOR_UNIT: u8 = 0x06;
    pub const FEATURE_UNIT: u8 = 0x07;
    pub const CLOCK_SOURCE: u8 = 0x0B;
}

/// Reads a configuration by the edition that its AudioControl interface names, and answers how many
/// entities it has: "An AudioControl interface whose protocol byte (offset 7) is 0x30 is read by
/// source document 001; all others as now."
pub fn read(config: &[u8], clusters: &[u8], sheet: &mut [u8]) -> Result<usize, Refusal> {
    let (groups, control) = cut::outline(config)?;
    if groups[control].protocol() == EDITION_3 {
        return accept(&groups[control], config.len(), clusters, sheet);
    }
    let answer = reader::read(config, sheet);
    match answer.refusal {
        Some(refusal) => Err(refusal),
        None => Ok(answer.entities),
    }
}

/// The rules of this edition in their order; the first refusal stands, and leaves the sheet's bytes.
fn accept(
    control: &Group,
    end: usize,
    clusters: &[u8],
    sheet: &mut [u8],
) -> Result<usize, Refusal> {
    let header = find_header(control, end)?;
    let ways = [Way::TotalWrongIn3, Way::ClassAfterRunIn3];
    let run = cut::cut_run(control, header, 4, ways)?;
    if run.is_empty() {
        return Err(Refusal::at(Way::NoEntityIn3, header.place));
    }
    if run.len() > ENTITIES {
        return Err(Refusal::at(Way::ManyEntitiesIn3, header.place));
    }
    let clusters = cut_clusters(clusters)?;
    let entities = run.iter().map(lay_out).collect::<Result<Vec<Entity>, Refusal>>()?;
    topology::check_ids(&entities, [Way::IdZeroIn3, Way::IdRepeatedIn3])?;
    check_sources(&entities)?;
    // A clock is no source.
    topology::check_chains(&entities, [Way::ChainOnLoopIn3, Way::ChainBelowLoopIn3])?;
    check_cluster_ids(&entities, &clusters)?;
    let shown: Vec<Option<Cluster>> =
        (0..entities.len()).map(|index| leaving(&entities, &clusters, index)).collect();
    check_clusters(&entities, &shown)?;
    if sheet.len() < RECORD * entities.len() {
        return Err(Refusal::at(Way::SheetShortIn3, header.place));
    }
    write_sheet(&entities, &shown, sheet);
    Ok(entities.len())
}

/// Refusal 5: table 4-15, "header of 10".
fn find_header<'a>(control: &Group<'a>, end: usize) -> Result<Descriptor<'a>, Refusal> {
    let place = control.interface.end();
    let Some(header) = control.body.first() else {
        let way = if place == end { Way::HeaderAtEndIn3 } else { Way::HeaderAtGroupIn3 };
        return Err(Refusal::at(way, place));
    };
    if header.len() < 3 || header.bytes[1..3] != [CLASS, subtype::HEADER] {
        return Err(Refusal::at(Way::HeaderOpeningIn3, place));
    }
    if header.len() != 10 {
        return Err(Refusal::at(Way::HeaderLengthIn3, place));
    }
    Ok(*header)
}

/// A cluster descriptor: "length at 0..1, 7 or more; ID at 4..5; c at 6" (table 4-3).
#[derive(Clone, Copy, Debug)]
struct Cluster<'a> {
    bytes: &'a [u8],
}

impl Cluster<'_> {
    fn id(&self) -> usize {
        two_bytes(self.bytes, 4)
    }

    /// c.
    fn channels(&self) -> usize {
        usize::from(self.bytes[6])
    }

    /// "the same cluster content, all bytes but the ID".
    fn content(&self) -> (&[u8], &[u8]) {
        (&self.bytes[..4], &self.bytes[6..])
    }
}

/// Refusal 51: "if the cluster buffer does not tile or has an ID that is 0 or repeated", at the first
/// such descriptor, "with the place in that buffer".
fn cut_clusters(buffer: &[u8]) -> Result<Vec<Cluster<'_>>, Refusal> {
    let mut found: Vec<Cluster> = Vec::new();
    let mut place = 0;
    while place < buffer.len() {
        let refuse = |way| Err(Refusal::at(way, place));
        let left = &buffer[place..];
        if left.len() < 2 {
            return refuse(Way::ClusterCut);
        }
        let length = two_bytes(left, 0);
        if length < CLUSTER_LEAST {
            return refuse(Way::ClusterShort);
        }
        if length > left.len() {
            return refuse(Way::ClusterLong);
        }
        let cluster = Cluster { bytes: &left[..length] };
        if cluster.id() == 0 {
            return refuse(Way::ClusterZero);
        }
        if found.iter().any(|earlier| earlier.id() == cluster.id()) {
            return refuse(Way::ClusterTwice);
        }
        found.push(cluster);
        place += length;
    }
    Ok(found)
}

/// The kinds that are taken, with their own fields.
#[derive(Clone, Copy, Debug, PartialEq, Eq)]
enum Kind {
    /// Table 4-16: bCSourceID at 7, wClusterDescrID at 12.
    InputTerminal { clock: u8, cluster: usize },
    /// Table 4-17: bSourceID at 7, bCSourceID at 8.
    OutputTerminal { clock: u8 },
    /// Table 4-29: p at 4, sources from 5, wClusterDescrID at 5+p.
    Mixer { cluster: usize },
    /// Table 4-30: p at 4, sources from 5.
    Selector,
    /// Table 4-31: bSourceID at 4.
    FeatureUnit,
    /// Table 4-43; bReferenceTerminal is not read.
    ClockSource,
}

impl Kind {
    /// "document 01's kind numbers, 0B ... for a Clock Source".
    fn shown(self) -> u8 {
        match self {
            Kind::InputTerminal { .. } => 0x02,
            Kind::OutputTerminal { .. } => 0x03,
            Kind::Mixer { .. } => 0x04,
            Kind::Selector => 0x05,
            Kind::FeatureUnit => 0x06,
            Kind::ClockSource => 0x0B,
        }
    }
}

type Entity<'a> = entity::Entity<'a, Kind>;

/// Refusal 9: any other kind, or too few bytes for that kind's fields; what is exact for a Mixer and a
/// Feature Unit is 13's.
fn lay_out<'a>(&Descriptor { place, bytes }: &Descriptor<'a>) -> Result<Entity<'a>, Refusal> {
    match fields(bytes) {
        Ok((kind, sources)) => Ok(Entity { place, bytes, id: bytes[3], kind, sources }),
        Err(way) => Err(Refusal::at(way, place)),
    }
}

fn fields(bytes: &[u8]) -> Result<(Kind, Vec<u8>), Way> {
    if bytes.len() < 4 {
        return Err(Way::KindAbsentIn3);
    }
    let long = |length, way| if bytes.len() == length { Ok(()) } else { Err(way) };
    match bytes[2] {
        subtype::INPUT_TERMINAL => {
            long(20, Way::InputTerminalLengthIn3)?;
            Ok((Kind::InputTerminal { clock: bytes[7], cluster: two_bytes(bytes, 12) }, vec![]))
        }
        subtype::OUTPUT_TERMINAL => {
            long(19, Way::OutputTerminalLengthIn3)?;
            Ok((Kind::OutputTerminal { clock: bytes[8] }, vec![bytes[7]]))
        }
        subtype::MIXER_UNIT => {
            let p = pins(bytes, Way::MixerLengthIn3, Way::MixerPinsIn3)?;
            if bytes.len() < 13 + p {
                return Err(Way::MixerLengthIn3);
            }
            Ok((Kind::Mixer { cluster: two_bytes(bytes, 5 + p) }, bytes[5..5 + p].to_vec()))
        }
        subtype::SELECTOR_UNIT => {
            let p = pins(bytes, Way::SelectorLengthIn3, Way::SelectorPinsIn3)?;
            long(11 + p, Way::SelectorLengthIn3)?;
            Ok((Kind::Selector, bytes[5..5 + p].to_vec()))
        }
        subtype::FEATURE_UNIT if bytes.len() < 7 => Err(Way::FeatureLengthIn3),
        subtype::FEATURE_UNIT => Ok((Kind::FeatureUnit, vec![bytes[4]])),
        subtype::CLOCK_SOURCE => {
            long(12, Way::ClockLength)?;
            Ok((Kind::ClockSource, vec![]))
        }
        _ => Err(Way::KindUnknownIn3),
    }
}

/// p at 4, "Pins go up to 24 in all kinds".
fn pins(bytes: &[u8], short: Way, other: Way) -> Result<usize, Way> {
    match bytes.get(4).map(|&p| usize::from(p)) {
        None => Err(short),
        Some(p) if (1..=PINS).contains(&p) => Ok(p),
        Some(_) => Err(other),
    }
}

/// Refusal 11: "A Terminal's clock ID names a Clock Source, which is no source for a pin; rule 11
/// covers both", at the first entity by place that has such a pin or such a clock.
fn check_sources(entities: &[Entity]) -> Result<(), Refusal> {
    for entity in entities {
        let clock = match entity.kind {
            Kind::InputTerminal { clock, .. } | Kind::OutputTerminal { clock } => Some(clock),
            _ => None,
        };
        let by_pin = entity.sources.iter().find_map(|&source| source_breach(entities, source));
        let by_clock = || clock.and_then(|clock| clock_breach(entities, clock));
        if let Some(way) = by_pin.or_else(by_clock) {
            return Err(Refusal::at(way, entity.place));
        }
    }
    Ok(())
}

fn source_breach(entities: &[Entity], source: u8) -> Option<Way> {
    if source == 0 {
        return Some(Way::SourceZeroIn3);
    }
    match find(entities, source).map(|index| entities[index].kind) {
        None => Some(Way::SourceUnknownIn3),
        Some(Kind::OutputTerminal { .. }) => Some(Way::SourceOutputIn3),
        Some(Kind::ClockSource) => Some(Way::SourceClock),
        Some(_) => None,
    }
}

fn clock_breach(entities: &[Entity], clock: u8) -> Option<Way> {
    if clock == 0 {
        return Some(Way::ClockZero);
    }
    match find(entities, clock).map(|index| entities[index].kind) {
        None => Some(Way::ClockUnknown),
        Some(Kind::ClockSource) => None,
        Some(_) => Some(Way::ClockOther),
    }
}

fn named<'a>(clusters: &[Cluster<'a>], id: usize) -> Option<Cluster<'a>> {
    clusters.iter().copied().find(|cluster| cluster.id() == id)
}

/// Refusal 52: "at the first entity whose cluster ID is unknown, between 12 and 13".
fn check_cluster_ids(entities: &[Entity], clusters: &[Cluster]) -> Result<(), Refusal> {
    for entity in entities {
        let (id, way) = match entity.kind {
            Kind::InputTerminal { cluster, .. } => (cluster, Way::InputCluster),
            Kind::Mixer { cluster } => (cluster, Way::MixerCluster),
            _ => continue,
        };
        if named(clusters, id).is_none() {
            return Err(Refusal::at(way, entity.place));
        }
    }
    Ok(())
}

/// The cluster that is shown for an entity: the one that an Input Terminal or a Mixer names; for a
/// Selector, a Feature Unit and an Output Terminal that of the first pin, which 12 lets come to an end;
/// none for a Clock Source.
fn leaving<'a>(entities: &[Entity], clusters: &[Cluster<'a>], index: usize) -> Option<Cluster<'a>> {
    match entities[index].kind {
        Kind::InputTerminal { cluster, .. } | Kind::Mixer { cluster } => named(clusters, cluster),
        Kind::ClockSource => None,
        _ => leaving(entities, clusters, sources_of(entities, index)[0]),
    }
}

/// Refusal 13, at the first entity.
fn check_clusters(entities: &[Entity], shown: &[Option<Cluster>]) -> Result<(), Refusal> {
    for (index, entity) in entities.iter().enumerate() {
        let pins: Vec<Cluster> = sources_of(entities, index)
            .into_iter()
            .map(|source| shown[source].expect("no pin has a Clock Source"))
            .collect();
        if let Some(way) = cluster_breach(entity, &pins, shown[index]) {
            return Err(Refusal::at(way, entity.place));
        }
    }
    Ok(())
}

/// "c stays 1 to 16"; "Mixer 13+p+N", N being i·c/8 rounded up; "Feature Unit 7+4(c+1)"; "Selector pins
/// must have the same cluster content".
fn cluster_breach(entity: &Entity, pins: &[Cluster], own: Option<Cluster>) -> Option<Way> {
    let c = own.map_or(0, |own| own.channels());
    let outside = |zero, high| match c {
        0 => Some(zero),
        1..=CHANNELS => None,
        _ => Some(high),
    };
    match entity.kind {
        Kind::InputTerminal { .. } => outside(Way::InputChannelsZeroIn3, Way::InputChannelsHighIn3),
        Kind::Mixer { .. } => {
            let entering: usize = pins.iter().map(Cluster::channels).sum();
            let length = 13 + pins.len() + (entering * c).div_ceil(8);
            outside(Way::MixerChannelsZeroIn3, Way::MixerChannelsHighIn3)
                .or((entity.bytes.len() != length).then_some(Way::MixerControlsIn3))
        }
        Kind::FeatureUnit => {
            (entity.bytes.len() != 7 + 4 * (c + 1)).then_some(Way::FeatureMasksIn3)
        }
        Kind::Selector => pins
            .iter()
            .any(|pin| pin.content() != pins[0].content())
            .then_some(Way::SelectorContent),
        Kind::OutputTerminal { .. } | Kind::ClockSource => None,
    }
}

/// "The answer is the sheet only, with document 01's kind numbers, 0B and no channels for a Clock
/// Source, and 00 for bitmap and name index".
fn write_sheet(entities: &[Entity], shown: &[Option<Cluster>], sheet: &mut [u8]) {
    for ((entity, cluster), row) in entities.iter().zip(shown).zip(sheet.chunks_exact_mut(RECORD)) {
        let pins = entity.sources.len();
        row.fill(0);
        row[0] = entity.id;
        row[1] = entity.kind.shown();
        row[2] = cluster.map_or(0, |cluster| cluster.bytes[6]);
        row[6] = pins as u8;
        row[8..8 + pins].copy_from_slice(&entity.sources);
    }
}
