//! Topology: entities and their sources, ranks and clusters (refusals 9, 17 and 10 to 13).

use crate::cut::Descriptor;
use crate::entity::{self, Cluster, Entity, Kind};
use crate::numbers::CHANNELS;
use crate::ways::{Refusal, Way};

/// The entities of an accepted run, each with the cluster shown for it.
#[derive(Clone, Debug)]
pub struct Topology<'a> {
    /// In the order of the run.
    pub entities: Vec<Entity<'a>>,
    /// The cluster that each gives out; "For an Output Terminal the entering cluster is shown."
    pub clusters: Vec<Cluster>,
}

impl Topology<'_> {
    /// The index of the entity that bears `id`.
    pub fn find(&self, id: u8) -> Option<usize> {
        find(&self.entities, id)
    }
}

/// Reads the run as entities, refusing with 9, 17 and 10 to 13.
pub fn read<'a>(run: &[Descriptor<'a>]) -> Result<Topology<'a>, Refusal> {
    let layout = |one| entity::read(one).map_err(|way| Refusal::at(way, one.place));
    judge(laid_out(run.iter().map(layout).collect())?)
}

/// The entities, refusing with 10 to 13.
pub fn judge(entities: Vec<Entity<'_>>) -> Result<Topology<'_>, Refusal> {
    check_ids(&entities, [Way::IdZero, Way::IdRepeated])?;
    check_sources(&entities)?;
    check_chains(&entities, [Way::ChainOnLoop, Way::ChainBelowLoop])?;
    let clusters = clusters_of(&entities);
    for (index, entity) in entities.iter().enumerate() {
        if let Some(way) = cluster_breach(&entities, &clusters, index) {
            return Err(Refusal::at(way, entity.place));
        }
    }
    Ok(Topology { entities, clusters })
}

/// Refusal 9, "an entity's layout is wrong", at the "first such entity", and then 17, "at the first
/// such entity, after 9 and before 10": a wrong layout behind a printed Selector comes first.
pub fn laid_out(layouts: Vec<Result<Entity<'_>, Refusal>>) -> Result<Vec<Entity<'_>>, Refusal> {
    let refused = layouts.iter().filter_map(|layout| layout.as_ref().err());
    // Of several with the same number this is the first.
    match refused.min_by_key(|refusal| refusal.way.number()) {
        Some(&refusal) => Err(refusal),
        None => layouts.into_iter().collect(),
    }
}

/// Refusal 10, of either edition: "ID zero or borne by an earlier entity".
pub fn check_ids<K>(entities: &[Entity<K>], [zero, repeated]: [Way; 2]) -> Result<(), Refusal> {
    for (index, entity) in entities.iter().enumerate() {
        if entity.id == 0 {
            return Err(Refusal::at(zero, entity.place));
        }
        if find(&entities[..index], entity.id).is_some() {
            return Err(Refusal::at(repeated, entity.place));
        }
    }
    Ok(())
}

/// The index of the entity that bears `id`.
pub fn find<K>(entities: &[Entity<K>], id: u8) -> Option<usize> {
    entities.iter().position(|entity| entity.id == id)
}

/// Refusal 11: "a source ID is 0, unknown, or an Output Terminal's".
fn check_sources(entities: &[Entity]) -> Result<(), Refusal> {
    for entity in entities {
        for &source in &entity.sources {
            if let Some(way) = source_breach(entities, source) {
                return Err(Refusal::at(way, entity.place));
            }
        }
    }
    Ok(())
}

fn source_breach(entities: &[Entity], source: u8) -> Option<Way> {
    if source == 0 {
        return Some(Way::SourceZero);
    }
    let Some(index) = find(entities, source) else {
        return Some(Way::SourceUnknown);
    };
    match entities[index].kind {
        Kind::OutputTerminal { .. } => Some(Way::SourceOutput),
        _ => None,
    }
}

/// The indices of an entity's sources, all of which are known.
pub fn sources_of<K>(entities: &[Entity<K>], index: usize) -> Vec<usize> {
    let known = |&id: &u8| find(entities, id).expect("refusal 11 comes first");
    entities[index].sources.iter().map(known).collect()
}

/// Refusal 12, of either edition: "some upstream chain of sources is longer than 32 steps (no ranks
/// exist)", for what stands on a loop and for what stands below one.
pub fn check_chains<K>(entities: &[Entity<K>], [on_loop, below]: [Way; 2]) -> Result<(), Refusal> {
    let sources: Vec<Vec<usize>> =
        (0..entities.len()).map(|index| sources_of(entities, index)).collect();
    match unranked(&sources) {
        None => Ok(()),
        Some((index, on)) => {
            Err(Refusal::at(if on { on_loop } else { below }, entities[index].place))
        }
    }
}

/// The first index without a rank, if there is one, and whether it stands on a loop.
///
/// An entity gets a rank once all its sources have one. With at most 32 entities no chain without
/// a return is longer than 31 steps, so those left without a rank are the ones that have a chain
/// with no end: they stand on a loop or below one.
fn unranked(sources: &[Vec<usize>]) -> Option<(usize, bool)> {
    let mut ranked = vec![false; sources.len()];
    for _ in 0..sources.len() {
        for (index, above) in sources.iter().enumerate() {
            ranked[index] = above.iter().all(|&source| ranked[source]);
        }
    }
    let index = ranked.iter().position(|&has| !has)?;
    Some((index, reaches(sources, index, index)))
}

/// Whether some chain of one step or more leads upstream from `from` to `to`.
fn reaches(sources: &[Vec<usize>], from: usize, to: usize) -> bool {
    let mut seen = vec![false; sources.len()];
    let mut open = vec![from];
    while let Some(index) = open.pop() {
        for &source in &sources[index] {
            if source == to {
                return true;
            }
            if !seen[source] {
                seen[source] = true;
                open.push(source);
            }
        }
    }
    false
}

/// The cluster that each entity gives out.
fn clusters_of(entities: &[Entity]) -> Vec<Cluster> {
    let mut given = vec![None; entities.len()];
    (0..entities.len()).map(|index| give(entities, &mut given, index)).collect()
}

/// The cluster of one entity, found once: a ladder of Selectors has two to the 31 routes.
fn give(entities: &[Entity], given: &mut [Option<Cluster>], index: usize) -> Cluster {
    if let Some(found) = given[index] {
        return found;
    }
    let sources = sources_of(entities, index);
    let entering: Vec<Cluster> =
        sources.into_iter().map(|source| give(entities, given, source)).collect();
    let cluster = given_out(&entities[index].kind, &entering);
    given[index] = Some(cluster);
    cluster
}

/// "An Input Terminal and a Mixer declare theirs"; "A Feature Unit gives out its source's
/// cluster"; an Output Terminal shows what enters.
fn given_out(kind: &Kind, entering: &[Cluster]) -> Cluster {
    match *kind {
        Kind::InputTerminal { cluster, .. } | Kind::Mixer { cluster } => cluster,
        Kind::Selector => selected(entering),
        Kind::OutputTerminal { .. } | Kind::FeatureUnit { .. } => entering[0],
    }
}

/// What a Selector gives out: "If their name indices differ, the Selector gives out index 0." Where
/// pins are unlike in c or bitmap, which 13 refuses, the rules of others read pin 1's.
fn selected(pins: &[Cluster]) -> Cluster {
    let same = pins.iter().all(|pin| pin.name == pins[0].name);
    Cluster { name: if same { pins[0].name } else { 0 }, ..pins[0] }
}

/// Refusal 13 for one entity. "Each rule reads the declared bytes, even where those break a rule
/// themselves."
fn cluster_breach(entities: &[Entity], clusters: &[Cluster], index: usize) -> Option<Way> {
    let entity = &entities[index];
    let pins: Vec<Cluster> =
        sources_of(entities, index).into_iter().map(|source| clusters[source]).collect();
    let entering: Vec<usize> = pins.iter().map(|pin| usize::from(pin.channels)).collect();
    let length = entity.bytes.len();
    match entity.kind {
        Kind::InputTerminal { cluster, .. } => declared_breach(cluster, &INPUT_TERMINAL),
        Kind::OutputTerminal { .. } => None,
        Kind::Mixer { cluster } => declared_breach(cluster, &MIXER).or_else(|| {
            let bits = entering.iter().sum::<usize>() * usize::from(cluster.channels);
            let wanted = 10 + entering.len() + bits.div_ceil(8);
            (length != wanted).then_some(Way::MixerControls)
        }),
        Kind::Selector => unlike(&pins),
        Kind::FeatureUnit { size } => {
            (length != 7 + (entering[0] + 1) * size).then_some(Way::FeatureMasks)
        }
    }
}

/// Refusal 13 for a Selector: "all pins must have the same c and the same bitmap".
fn unlike(pins: &[Cluster]) -> Option<Way> {
    if pins.iter().any(|pin| pin.channels != pins[0].channels) {
        return Some(Way::SelectorChannels);
    }
    pins.iter().any(|pin| pin.bitmap != pins[0].bitmap).then_some(Way::SelectorBitmap)
}

/// The names of the clauses for one of the two kinds that declare a cluster.
struct Declared {
    zero: Way,
    high: Way,
    reserved: Way,
    ones: Way,
    equal: Way,
    index: Way,
}

const INPUT_TERMINAL: Declared = Declared {
    zero: Way::InputChannelsZero,
    high: Way::InputChannelsHigh,
    reserved: Way::InputReserved,
    ones: Way::InputOnes,
    equal: Way::InputIndexEqual,
    index: Way::InputIndexHigh,
};

const MIXER: Declared = Declared {
    zero: Way::MixerChannelsZero,
    high: Way::MixerChannelsHigh,
    reserved: Way::MixerReserved,
    ones: Way::MixerOnes,
    equal: Way::MixerIndexEqual,
    index: Way::MixerIndexHigh,
};

/// "c is 1 to 16; bits 12 to 15 are 0; the ones in the bitmap are at most c; if equal, the index
/// is 0; if fewer and the index is not 0, index + c − ones − 1 is at most 255."
fn declared_breach(cluster: Cluster, names: &Declared) -> Option<Way> {
    let c = usize::from(cluster.channels);
    let ones = cluster.bitmap.count_ones() as usize;
    let index = usize::from(cluster.name);
    if c == 0 {
        return Some(names.zero);
    }
    if c > CHANNELS {
        return Some(names.high);
    }
    if cluster.bitmap & 0xF000 != 0 {
        return Some(names.reserved);
    }
    if ones > c {
        return Some(names.ones);
    }
    if ones == c && index != 0 {
        return Some(names.equal);
    }
    if ones < c && index != 0 && index + (c - ones) - 1 > 255 {
        return Some(names.index);
    }
    None
}

#[cfg(test)]
mod tests {
    use super::*;

    fn declared(channels: u8, bitmap: u16, name: u8) -> Option<Way> {
        declared_breach(Cluster { channels, bitmap, name }, &INPUT_TERMINAL)
    }

    /// "cluster 5, 0x0051, index 254: kept, 255: broken; 4, 0x0107, index 0: kept, 1: broken."
    #[test]
    fn the_clusters_of_the_cases_to_prove_together() {
        assert_eq!(declared(5, 0x0051, 254), None);
        assert_eq!(declared(5, 0x0051, 255), Some(Way::InputIndexHigh));
        assert_eq!(declared(4, 0x0107, 0), None);
        assert_eq!(declared(4, 0x0107, 1), Some(Way::InputIndexEqual));
    }

    #[test]
    fn pins_are_alike_in_c_and_bitmap() {
        let pin = |channels, bitmap, name| Cluster { channels, bitmap, name };
        let (left, centre) = (pin(1, 0x0001, 0), pin(1, 0x0004, 0));
        assert_eq!(unlike(&[left, centre]), Some(Way::SelectorBitmap));
        assert_eq!(unlike(&[left, left, pin(2, 0x0001, 0)]), Some(Way::SelectorChannels));
        assert_eq!(unlike(&[pin(2, 1, 5), pin(2, 1, 6)]), None);
        assert_eq!(selected(&[left, centre]), left);
        assert_eq!(selected(&[pin(2, 1, 5), pin(3, 2, 5)]), pin(2, 1, 5));
        assert_eq!(selected(&[pin(2, 1, 5), pin(2, 1, 5), pin(2, 1, 6)]), pin(2, 1, 0));
        assert_eq!(selected(&[pin(2, 1, 5)]), pin(2, 1, 5));
    }

    #[test]
    fn the_bounds_of_c() {
        assert_eq!(declared(0, 0, 0), Some(Way::InputChannelsZero));
        assert_eq!(declared(1, 0, 255), None);
        assert_eq!(declared(16, 0x0FFF, 0), None);
        assert_eq!(declared(17, 0, 0), Some(Way::InputChannelsHigh));
        assert_eq!(declared(16, 0x1000, 0), Some(Way::InputReserved));
    }
}
