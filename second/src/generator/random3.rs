//! Configurations of the 3.0 edition at random, with their cluster buffers: good ones by construction,
//! and damage of many kinds.

use super::build::Part;
use super::build3::{clock3, cluster3, feature3, input3, mixer3, output3, selector3, Third};
use super::random::{
    change_byte, change_length, damage_bytes, damage_edges, damage_groups, groups, on_group,
    on_part,
};
use super::rng::Rng;
use crate::numbers::{CONFIGURATION_MOST, ENTITIES, PINS, STEP};

/// A configuration and a cluster buffer: a third of them good, the others damaged in one way or in
/// several.
pub fn configuration(rng: &mut Rng) -> (Vec<u8>, Vec<u8>) {
    let mut third = good(rng);
    let times = match rng.below(20) {
        0..=5 => 0,
        6..=16 => 1,
        17..=18 => 2,
        _ => 3,
    };
    for _ in 0..times {
        damage(rng, &mut third);
    }
    let (mut config, mut buffer) = (third.config(), third.buffer());
    if times > 0 && rng.one_in(20) {
        damage_bytes(rng, &mut config);
    }
    config.truncate(STEP);
    buffer.truncate(STEP);
    (config, buffer)
}

/// An entity that gives something out: its ID and the index of its cluster.
type Carrier = (u8, usize);

/// A plan that keeps every rule, within 4,096 bytes.
pub fn good(rng: &mut Rng) -> Third {
    loop {
        let third = some(rng);
        if third.config().len() <= CONFIGURATION_MOST {
            return third;
        }
    }
}

/// A run while it grows.
#[derive(Default)]
struct Growing {
    parts: Vec<Part>,
    carriers: Vec<Carrier>,
    /// Terminals, with the c of what enters or leaves them.
    streams: Vec<(u8, u8)>,
}

impl Growing {
    /// Adds an entity of some kind with this ID, and this clock if it is a Terminal.
    fn grow(&mut self, rng: &mut Rng, id: u8, clock: u8, clusters: &[Vec<u8>]) {
        let kind = if self.carriers.is_empty() { 0 } else { rng.below(8) };
        let (part, cluster) = match kind {
            0 | 1 => {
                let cluster = rng.below(clusters.len());
                self.streams.push((id, clusters[cluster][6]));
                (input3(id, clock, id_of(&clusters[cluster])), cluster)
            }
            2 | 3 => mixer(rng, id, &self.carriers, clusters),
            4 | 5 => selector(rng, id, &self.carriers, clusters),
            6 => {
                let (source, cluster) = *rng.pick(&self.carriers);
                (feature3(id, source, usize::from(clusters[cluster][6])), cluster)
            }
            _ => {
                let (source, cluster) = *rng.pick(&self.carriers);
                self.streams.push((id, clusters[cluster][6]));
                self.parts.push(output3(id, source, clock));
                return;
            }
        };
        self.parts.push(part);
        self.carriers.push((id, cluster));
    }
}

fn some(rng: &mut Rng) -> Third {
    let mut clusters = clusters(rng);
    let mut ids: Vec<u8> = (1..=255).collect();
    rng.shuffle(&mut ids);
    let mut ids = ids.into_iter();
    let mut id = || ids.next().expect("fewer than 255 entities");
    let count = if rng.one_in(8) { ENTITIES } else { 2 + rng.below(14) };
    let clocks: Vec<u8> = (0..1 + rng.below(2)).map(|_| id()).collect();
    let mut run = Growing::default();
    run.parts.extend(clocks.iter().map(|&clock| clock3(clock)));
    while run.parts.len() < count {
        let (own, clock) = (id(), *rng.pick(&clocks));
        run.grow(rng, own, clock, &clusters);
    }
    rng.shuffle(&mut run.parts);
    run.streams.truncate(3);
    let groups = groups(rng, &run.streams);
    while rng.one_in(3) {
        clusters.push(cluster3(0xF000 + clusters.len() as u16, rng.byte(), &[]));
    }
    rng.shuffle(&mut clusters);
    let mut third = Third::new(run.parts, groups, clusters);
    third.plan.control_after = rng.below(third.plan.groups.len() + 1);
    third
}

/// The ID of a cluster descriptor.
fn id_of(cluster: &[u8]) -> u16 {
    u16::from_le_bytes([cluster[4], cluster[5]])
}

/// One cluster descriptor or several, some with the content of an earlier one.
fn clusters(rng: &mut Rng) -> Vec<Vec<u8>> {
    let mut all: Vec<Vec<u8>> = Vec::new();
    for _ in 0..1 + rng.below(5) {
        let id = loop {
            let id = if rng.one_in(2) { 1 + rng.below(6) as u16 } else { rng.next() as u16 };
            if id != 0 && id < 0xF000 && all.iter().all(|earlier| id_of(earlier) != id) {
                break id;
            }
        };
        let mut one = if !all.is_empty() && rng.one_in(2) {
            rng.pick(&all).clone()
        } else {
            let c = *rng.pick(&[1, 1, 1, 2, 2, 2, 3, 4, 6, 8, 16]);
            let blocks: Vec<u8> = (0..rng.below(9)).map(|_| rng.byte()).collect();
            cluster3(0, c, &blocks)
        };
        one[4..6].copy_from_slice(&id.to_le_bytes());
        all.push(one);
    }
    all
}

fn pins(rng: &mut Rng) -> usize {
    match rng.below(6) {
        0 => 1,
        1 => 1 + rng.below(PINS),
        _ => 1 + rng.below(4),
    }
}

/// A Mixer of any sources, with fewer pins if it would pass 255 bytes.
fn mixer(rng: &mut Rng, id: u8, carriers: &[Carrier], clusters: &[Vec<u8>]) -> (Part, usize) {
    let cluster = rng.below(clusters.len());
    let c = usize::from(clusters[cluster][6]);
    let mut chosen: Vec<Carrier> = (0..pins(rng)).map(|_| *rng.pick(carriers)).collect();
    loop {
        let entering: usize = chosen.iter().map(|&(_, at)| usize::from(clusters[at][6])).sum();
        let controls = (entering * c).div_ceil(8);
        if 13 + chosen.len() + controls <= 255 {
            let sources: Vec<u8> = chosen.iter().map(|&(source, _)| source).collect();
            return (mixer3(id, &sources, id_of(&clusters[cluster]), controls), cluster);
        }
        chosen.pop();
    }
}

/// A Selector of sources with the same cluster content.
fn selector(rng: &mut Rng, id: u8, carriers: &[Carrier], clusters: &[Vec<u8>]) -> (Part, usize) {
    let (_, first) = *rng.pick(carriers);
    let content = |at: usize| [&clusters[at][..4], &clusters[at][6..]].concat();
    let alike: Vec<Carrier> =
        carriers.iter().copied().filter(|&(_, at)| content(at) == content(first)).collect();
    let chosen: Vec<Carrier> = (0..pins(rng)).map(|_| *rng.pick(&alike)).collect();
    let sources: Vec<u8> = chosen.iter().map(|&(source, _)| source).collect();
    (selector3(id, &sources), chosen[0].1)
}

/// Damages one thing of a plan.
fn damage(rng: &mut Rng, third: &mut Third) {
    match rng.below(22) {
        0 | 1 => on_part(rng, &mut third.plan, |rng, bytes| change_byte(rng, bytes, 2)),
        2 | 3 => on_part(rng, &mut third.plan, change_length),
        4..=7 => rewire(rng, third),
        8 | 9 => damage_run(rng, third),
        10 | 11 => rename(rng, third),
        12..=17 => damage_clusters(rng, third),
        18 if rng.one_in(2) => damage_groups(rng, &mut third.plan),
        18 => {
            on_group(rng, &mut third.plan, |rng, group| change_byte(rng, &mut group.interface, 2))
        }
        19 => change_byte(rng, &mut third.plan.control, 2),
        20 => third.plan.total = Some(rng.below(500) as u16),
        _ => damage_edges(rng, &mut third.plan),
    }
}

/// Gives an entity another source, clock or ID, from those that there are.
fn rewire(rng: &mut Rng, third: &mut Third) {
    let id = |part: &Part| part.bytes().get(3).copied().unwrap_or(0);
    let mut ids: Vec<u8> = third.plan.parts.iter().map(id).collect();
    if rng.one_in(4) {
        ids = vec![0, rng.byte()];
    }
    let new = if ids.is_empty() { 0 } else { *rng.pick(&ids) };
    on_part(rng, &mut third.plan, |rng, bytes| {
        let pins = usize::from(bytes.get(4).copied().unwrap_or(0)).clamp(1, PINS);
        let at = match bytes.get(2) {
            _ if rng.one_in(8) => 3,
            Some(2) => 7,
            Some(3) => 7 + rng.below(2),
            Some(5 | 6) => 5 + rng.below(pins),
            Some(7) => 4,
            _ => 3,
        };
        if at < bytes.len() {
            bytes[at] = new;
        }
    });
}

/// Takes an entity away, has one twice, adds many or adds one of any kind.
fn damage_run(rng: &mut Rng, third: &mut Third) {
    let parts = &mut third.plan.parts;
    match rng.below(4) {
        0 if !parts.is_empty() => drop(parts.remove(rng.below(parts.len()))),
        1 if !parts.is_empty() => parts.push(parts[rng.below(parts.len())].clone()),
        2 => {
            let first = rng.byte();
            while parts.len() < ENTITIES + rng.below(3) {
                parts.push(clock3(first.wrapping_add(parts.len() as u8)));
            }
        }
        _ => {
            let mut bytes: Vec<u8> = (0..4 + rng.below(20)).map(|_| rng.byte()).collect();
            (bytes[0], bytes[1], bytes[2]) = (bytes.len() as u8, 0x24, rng.below(18) as u8);
            parts.push(Part::Raw(bytes));
        }
    }
}

/// Gives an Input Terminal or a Mixer the ID of another cluster, or of none.
fn rename(rng: &mut Rng, third: &mut Third) {
    let known: Vec<u16> =
        third.clusters.iter().filter(|one| one.len() > 5).map(|one| id_of(one)).collect();
    let id = match rng.below(4) {
        0 => rng.next() as u16,
        1 => 0,
        _ if known.is_empty() => 1,
        _ => *rng.pick(&known),
    };
    on_part(rng, &mut third.plan, |_, bytes| {
        let at = match bytes.get(2) {
            Some(5) => 5 + usize::from(bytes.get(4).copied().unwrap_or(0)),
            _ => 12,
        };
        if at + 1 < bytes.len() {
            bytes[at..at + 2].copy_from_slice(&id.to_le_bytes());
        }
    });
}

/// Damages the cluster buffer.
fn damage_clusters(rng: &mut Rng, third: &mut Third) {
    let clusters = &mut third.clusters;
    if clusters.is_empty() {
        clusters.push(vec![rng.byte(); 1 + rng.below(9)]);
        return;
    }
    let at = rng.below(clusters.len());
    match rng.below(9) {
        0 => drop(clusters.remove(at)),
        1 => clusters.push(clusters[at].clone()),
        2 => {
            let length = rng.below(clusters[at].len() + 1);
            clusters[at].truncate(length);
        }
        3 => clusters[at].push(rng.byte()),
        4 => clusters.push(vec![rng.byte() % 16; 1 + rng.below(8)]),
        5 if clusters[at].len() > 6 => {
            clusters[at][6] = *rng.pick(&[0, 1, 2, 3, 15, 16, 17, 255]);
        }
        6 => change_byte(rng, &mut clusters[at], 7),
        7 => clusters.clear(),
        _ => change_byte(rng, &mut clusters[at], 0),
    }
}

#[cfg(test)]
mod tests {
    use super::*;
    use crate::edition3;
    use crate::numbers::SHEET;

    #[test]
    fn what_is_good_by_construction_is_accepted() {
        let mut rng = Rng::new(30);
        for _ in 0..500 {
            let third = good(&mut rng);
            let got = edition3::read(&third.config(), &third.buffer(), &mut [0; SHEET]);
            assert_eq!(got, Ok(third.plan.parts.len()));
        }
    }
}
