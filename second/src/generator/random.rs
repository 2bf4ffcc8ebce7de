//! Configurations and steps at random: good ones by construction, and damage of many kinds.

use super::build::{
    class, filler, idle, interface, pcm, pcm_range, working, GroupPlan, Part, Plan,
};
use super::configs::{mixer, printed};
use super::rng::Rng;
use super::script::{load_body, put_body, request_body, setup, Script};
use super::steps::sample;
use crate::controls::{Control, Holds, Table};
use crate::numbers::{
    CHANNELS, CONFIGURATION_MOST, CONTROLS, ENTITIES, OLD_PINS, PINS, REPLY, SHEET,
};
use crate::reader;
use crate::relay::{LOAD, PLUG_IN, PUT, REQUEST, SHOW};
use crate::requests::{self, table_breach, Load, State, ALL_CHANNELS};
use crate::settings::Scale;

/// Numbers at which one-byte and two-byte readings part.
const EDGES: [u16; 14] =
    [0, 1, 2, 126, 127, 128, 129, 255, 256, 0x7FFF, 0x8000, 0x8001, 0xFFFE, 0xFFFF];

/// A configuration: a quarter of them good, the others damaged in one way or in several.
pub fn configuration(rng: &mut Rng) -> Vec<u8> {
    let mut plan = good(rng);
    let times = match rng.below(20) {
        0..=4 => 0,
        5..=16 => 1,
        17..=18 => 2,
        _ => 3,
    };
    for _ in 0..times {
        damage(rng, &mut plan);
    }
    if rng.one_in(300) {
        let length = CONFIGURATION_MOST - 1 + rng.below(3);
        plan = if plan.bytes().len() < length { plan.padded(length) } else { plan };
    }
    let mut bytes = plan.bytes();
    if times > 0 && rng.one_in(12) {
        damage_bytes(rng, &mut bytes);
    }
    bytes
}

/// A plan that keeps every rule, but that 15 may be broken now and then.
pub fn good(rng: &mut Rng) -> Plan {
    let mut run = Run::new(rng);
    run.inputs(rng);
    run.units(rng);
    run.outputs(rng);
    let mut parts = run.parts;
    if !rng.one_in(3) {
        rng.shuffle(&mut parts);
    }
    let groups = groups(rng, &run.streams);
    let mut plan = Plan::new(parts, groups);
    plan.control[2] = if rng.one_in(3) { 200 } else { 0 };
    plan.control_after = rng.below(plan.groups.len() + 1);
    if rng.one_in(4) {
        let length = 2 + rng.below(9);
        plan.between.push(filler(*rng.pick(&[0x0B, 0x24, 0x25, 0x41]), length));
    }
    if rng.one_in(4) {
        plan.tail.push(filler(*rng.pick(&[0x05, 0x25, 0x41]), 9));
    }
    plan
}

/// c, bitmap and name index.
type Given = (u8, u16, u8);

/// A run while it is being made: what may be a source, with what it gives out, and what may be
/// streamed, with its c.
struct Run {
    ids: Vec<u8>,
    parts: Vec<Part>,
    sources: Vec<(u8, Given)>,
    streams: Vec<(u8, u8)>,
    most: usize,
}

impl Run {
    fn new(rng: &mut Rng) -> Run {
        let mut ids: Vec<u8> = (1..=255).rev().collect();
        if rng.one_in(2) {
            rng.shuffle(&mut ids);
        }
        let most = if rng.one_in(12) { ENTITIES } else { 3 + rng.below(9) };
        Run { ids, parts: Vec::new(), sources: Vec::new(), streams: Vec::new(), most }
    }

    fn id(&mut self) -> u8 {
        self.ids.pop().expect("fewer entities than IDs")
    }

    fn inputs(&mut self, rng: &mut Rng) {
        for _ in 0..1 + rng.below(3) {
            let id = self.id();
            let cluster = self.cluster(rng);
            let terminal = terminal(rng);
            if terminal == 0x0101 {
                self.streams.push((id, cluster.0));
            }
            self.parts.push(Part::Input { id, terminal, cluster });
            self.sources.push((id, cluster));
        }
    }

    /// A cluster to declare: a new one, or that of a source with an index of its own, so that a
    /// Selector may have them both.
    fn cluster(&self, rng: &mut Rng) -> Given {
        if self.sources.is_empty() || rng.one_in(2) {
            return cluster(rng);
        }
        let (channels, bitmap, _) = rng.pick(&self.sources).1;
        (channels, bitmap, name(rng, channels, bitmap))
    }

    fn units(&mut self, rng: &mut Rng) {
        let count = rng.below(self.most - 2);
        for _ in 0..count {
            let id = self.id();
            let (part, given) = match rng.below(3) {
                0 => self.mixer(rng, id),
                1 => self.selector(rng, id),
                _ => {
                    let (source, given) = *rng.pick(&self.sources);
                    (feature(rng, id, source, given.0), given)
                }
            };
            self.parts.push(part);
            self.sources.push((id, given));
        }
    }

    /// A Selector among sources of one c and one bitmap.
    fn selector(&self, rng: &mut Rng, id: u8) -> (Part, Given) {
        let (channels, bitmap, _) = rng.pick(&self.sources).1;
        let alike = |one: &&(u8, Given)| (one.1 .0, one.1 .1) == (channels, bitmap);
        let alike: Vec<(u8, Given)> = self.sources.iter().filter(alike).copied().collect();
        let pins: Vec<(u8, Given)> = (0..pins(rng)).map(|_| *rng.pick(&alike)).collect();
        let first = pins[0].1 .2;
        let name = if pins.iter().all(|pin| pin.1 .2 == first) { first } else { 0 };
        let sources = pins.iter().map(|pin| pin.0).collect();
        (Part::Selector { id, sources }, (channels, bitmap, name))
    }

    /// A Mixer whose control bytes have room in a descriptor.
    fn mixer(&self, rng: &mut Rng, id: u8) -> (Part, Given) {
        loop {
            let cluster = self.cluster(rng);
            let pins: Vec<(u8, Given)> = (0..pins(rng)).map(|_| *rng.pick(&self.sources)).collect();
            let entering: usize = pins.iter().map(|pin| usize::from(pin.1 .0)).sum();
            let sources: Vec<u8> = pins.iter().map(|pin| pin.0).collect();
            if 10 + pins.len() + (entering * usize::from(cluster.0)).div_ceil(8) < 256 {
                return (mixer(id, &sources, entering, cluster), cluster);
            }
        }
    }

    fn outputs(&mut self, rng: &mut Rng) {
        while self.parts.len() < self.most && !rng.one_in(3) {
            let id = self.id();
            let (source, given) = *rng.pick(&self.sources);
            let terminal = terminal(rng);
            if terminal == 0x0101 {
                self.streams.push((id, given.0));
            }
            self.parts.push(Part::Output { id, terminal, source });
        }
    }
}

fn terminal(rng: &mut Rng) -> u16 {
    *rng.pick(&[0x0101, 0x0201, 0x0301, 0x0401])
}

fn pins(rng: &mut Rng) -> usize {
    if rng.one_in(6) {
        *rng.pick(&[PINS, PINS - 1, OLD_PINS, OLD_PINS + 1])
    } else {
        1 + rng.below(4)
    }
}

/// A cluster that keeps the rules, often at their bounds.
fn cluster(rng: &mut Rng) -> Given {
    let channels = *rng.pick(&[1u8, 1, 1, 2, 2, 2, 3, 5, 6, 8, 12, 16]);
    let mut bitmap = rng.next() as u16 & 0x0FFF;
    while bitmap.count_ones() > u32::from(channels) {
        bitmap &= bitmap - 1;
    }
    if rng.one_in(3) {
        bitmap = 0;
    }
    (channels, bitmap, name(rng, channels, bitmap))
}

/// A name index that goes with these.
fn name(rng: &mut Rng, channels: u8, bitmap: u16) -> u8 {
    let unnamed = channels - bitmap.count_ones() as u8;
    match unnamed {
        0 => 0,
        _ if rng.one_in(2) => 0,
        _ if rng.one_in(2) => (256 - u16::from(unnamed)) as u8,
        _ => 1 + rng.below(256 - usize::from(unnamed)) as u8,
    }
}

/// A Feature Unit whose masks carry little or much.
fn feature(rng: &mut Rng, id: u8, source: u8, channels: u8) -> Part {
    let size = 1 + rng.below(4);
    let busy = rng.one_in(6);
    let mut mask = || match rng.below(4) {
        _ if busy => rng.byte(),
        0 => 1 << rng.below(8),
        1 => rng.byte() & rng.byte(),
        _ => 0,
    };
    let masks = (0..(usize::from(channels) + 1) * size).map(|_| mask()).collect();
    Part::Feature { id, source, size: size as u8, masks }
}

/// The streaming groups of these Terminals, and some groups beside.
pub fn groups(rng: &mut Rng, streams: &[(u8, u8)]) -> Vec<GroupPlan> {
    let mut groups = Vec::new();
    let mut number = 1;
    for &(id, channels) in streams {
        if rng.one_in(5) {
            continue;
        }
        groups.push(idle(number, 0));
        for setting in 1..=1 + rng.below(2) as u8 {
            groups.push(working(number, setting, id, format(rng, channels)));
            if rng.one_in(6) {
                let last = groups.last_mut().expect("just pushed");
                last.body[0][5] = rng.byte();
                last.body[0][6] = 0x10;
                last.body[1].truncate(4);
                last.body[1][0] = 4;
            }
        }
        number += 1;
    }
    if rng.one_in(4) {
        let body = vec![class(&[1, 0, 1, 7, 0])];
        groups.push(GroupPlan { interface: interface(number, 0, 2, 1, 3), body });
        number += 1;
    }
    if rng.one_in(3) {
        let (first, second) = *rng.pick(&[(3, 0), (255, 1), (1, 0), (1, 4), (14, 2)]);
        let body = vec![class(&[1, 2, 3])];
        groups.push(GroupPlan { interface: interface(number, 0, 1, first, second), body });
    }
    groups
}

/// A FORMAT_TYPE that keeps the rules.
fn format(rng: &mut Rng, channels: u8) -> Vec<u8> {
    let rate = rng.next() as u32 & 0x00FF_FFFF;
    let mut format = match rng.below(3) {
        0 => pcm_range(channels, rate / 2, rate),
        1 => pcm_range(channels, rate, rate),
        _ => pcm(channels, &vec![rate; 1 + rng.below(4)]),
    };
    format[5] = 1 + rng.below(4) as u8;
    format[6] = if rng.one_in(3) { 8 * format[5] } else { 1 + rng.below(8) as u8 };
    format
}

/// Another value for a byte: a near one, a small one, or any.
fn another(rng: &mut Rng, byte: u8) -> u8 {
    match rng.below(5) {
        0 => byte.wrapping_add(1),
        1 => byte.wrapping_sub(1),
        2 => rng.below(10) as u8,
        3 => byte ^ (1 << rng.below(8)),
        _ => rng.byte(),
    }
}

/// Changes a byte at `from` or later, if there is one.
pub fn change_byte(rng: &mut Rng, bytes: &mut [u8], from: usize) {
    if bytes.len() > from {
        let at = from + rng.below(bytes.len() - from);
        bytes[at] = another(rng, bytes[at]);
    }
}

/// Makes a descriptor a little longer or shorter, its length byte too.
pub fn change_length(rng: &mut Rng, bytes: &mut Vec<u8>) {
    let length = (bytes.len() as i32 + rng.between(-3, 3)).clamp(2, 255) as usize;
    bytes.resize(length, rng.byte());
    bytes[0] = length as u8;
}

/// Damages one thing of a plan.
fn damage(rng: &mut Rng, plan: &mut Plan) {
    match rng.below(19) {
        0 | 1 => on_part(rng, plan, |rng, bytes| change_byte(rng, bytes, 2)),
        2 => on_part(rng, plan, change_length),
        3..=5 => rewire(rng, plan),
        6 => damage_run(rng, plan),
        7 => damage_cluster(rng, plan),
        8 => on_group(rng, plan, |rng, group| change_byte(rng, &mut group.interface, 2)),
        9 | 10 => on_group(rng, plan, |rng, group| {
            let count = group.body.len();
            if count > 0 {
                let at = rng.below(count.min(2));
                change_byte(rng, &mut group.body[at], 1);
            }
        }),
        11 => on_group(rng, plan, damage_body),
        12 => damage_groups(rng, plan),
        13 => change_byte(rng, &mut plan.control, 2),
        14 => damage_header(rng, plan),
        15 | 16 => turn_pin(rng, plan),
        17 => print_selector(rng, plan),
        _ => damage_edges(rng, plan),
    }
}

/// Changes the bytes of an entity at random.
pub fn on_part(rng: &mut Rng, plan: &mut Plan, change: impl FnOnce(&mut Rng, &mut Vec<u8>)) {
    if !plan.parts.is_empty() {
        let at = rng.below(plan.parts.len());
        let mut bytes = plan.parts[at].bytes();
        change(rng, &mut bytes);
        plan.parts[at] = Part::Raw(bytes);
    }
}

/// Changes a group at random.
pub fn on_group(rng: &mut Rng, plan: &mut Plan, change: impl FnOnce(&mut Rng, &mut GroupPlan)) {
    if !plan.groups.is_empty() {
        let at = rng.below(plan.groups.len());
        change(rng, &mut plan.groups[at]);
    }
}

/// Gives an entity another source, or another ID, from those that there are.
fn rewire(rng: &mut Rng, plan: &mut Plan) {
    if plan.parts.is_empty() {
        return;
    }
    let id = |part: &Part| part.bytes().get(3).copied().unwrap_or(0);
    let mut ids: Vec<u8> = plan.parts.iter().map(id).collect();
    if rng.one_in(4) {
        ids = vec![0, rng.byte()];
    }
    let new = *rng.pick(&ids);
    on_part(rng, plan, |rng, bytes| {
        let pins = usize::from(bytes.get(4).copied().unwrap_or(0)).clamp(1, PINS);
        let at = match bytes.get(2) {
            _ if rng.one_in(8) => 3,
            Some(3) => 7,
            Some(4 | 5) => 5 + rng.below(pins),
            Some(6) => 4,
            _ => 3,
        };
        if at < bytes.len() {
            bytes[at] = new;
        }
    });
}

fn damage_run(rng: &mut Rng, plan: &mut Plan) {
    match rng.below(4) {
        0 if !plan.parts.is_empty() => {
            let at = rng.below(plan.parts.len());
            plan.parts.remove(at);
        }
        1 if !plan.parts.is_empty() => {
            let part = rng.pick(&plan.parts).clone();
            plan.parts.push(part);
        }
        2 => {
            let more = ENTITIES + rng.below(3);
            let first = rng.byte();
            while plan.parts.len() < more {
                let id = first.wrapping_add(plan.parts.len() as u8);
                plan.parts.push(Part::Input { id, terminal: 0x0201, cluster: (1, 0, 0) });
            }
        }
        _ => {
            let length = 2 + rng.below(14);
            let mut bytes: Vec<u8> = (0..length).map(|_| rng.byte()).collect();
            bytes[0] = length as u8;
            bytes[1] = 0x24;
            if length > 2 {
                bytes[2] = rng.below(9) as u8;
            }
            plan.parts.push(Part::Raw(bytes));
        }
    }
}

/// Makes a declared cluster another, often near a bound.
fn damage_cluster(rng: &mut Rng, plan: &mut Plan) {
    let channels = *rng.pick(&[0u8, 1, 2, 3, 15, 16, 17, 255]);
    let bitmap = *rng.pick(&[0u16, 1, 3, 7, 0x0FFF, 0x07FF, 0x1000, 0x8000, 0x0107, 0x0051]);
    let name = *rng.pick(&[0u8, 1, 239, 240, 241, 253, 254, 255]);
    let declared = |part: &&mut Part| matches!(part, Part::Input { .. } | Part::Mixer { .. });
    let mut parts: Vec<&mut Part> = plan.parts.iter_mut().filter(declared).collect();
    if parts.is_empty() {
        return;
    }
    let at = rng.below(parts.len());
    if let Part::Input { cluster, .. } | Part::Mixer { cluster, .. } = &mut *parts[at] {
        match rng.below(4) {
            0 => cluster.0 = channels,
            1 => cluster.1 = bitmap,
            2 => cluster.2 = name,
            _ => *cluster = (channels, bitmap, name),
        }
    }
}

/// Makes some Selector a printed one.
fn print_selector(rng: &mut Rng, plan: &mut Plan) {
    let is_selector = |part: &&mut Part| matches!(part, Part::Selector { .. });
    let mut selectors: Vec<&mut Part> = plan.parts.iter_mut().filter(is_selector).collect();
    if selectors.is_empty() {
        return;
    }
    let at = rng.below(selectors.len());
    if let Part::Selector { id, sources } = &*selectors[at] {
        *selectors[at] = printed(*id, sources);
    }
}

/// Gives a pin of some Selector with several another bitmap where that pin declares one: with as many
/// ones, elsewhere, or with one where it had none.
fn turn_pin(rng: &mut Rng, plan: &mut Plan) {
    let chosen = |part: &Part| match part {
        Part::Selector { sources, .. } if sources.iter().any(|id| *id != sources[0]) => {
            sources.clone()
        }
        _ => Vec::new(),
    };
    let pins: Vec<u8> = plan.parts.iter().flat_map(chosen).collect();
    let mut bitmaps: Vec<&mut u16> = Vec::new();
    for part in &mut plan.parts {
        if let Part::Input { id, cluster, .. } | Part::Mixer { id, cluster, .. } = part {
            if pins.contains(id) {
                bitmaps.push(&mut cluster.1);
            }
        }
    }
    if !bitmaps.is_empty() {
        let at = rng.below(bitmaps.len());
        let turned = *bitmaps[at] << 1;
        *bitmaps[at] = (turned & 0x0FFF | turned >> 12).max(1);
    }
}

fn damage_body(rng: &mut Rng, group: &mut GroupPlan) {
    let count = group.body.len();
    match rng.below(4) {
        0 if count > 0 => {
            group.body.remove(rng.below(count));
        }
        1 if count > 0 => {
            let at = rng.below(count.min(2));
            change_length(rng, &mut group.body[at]);
        }
        2 if count > 1 => group.body.swap(0, 1),
        _ => {
            let at = rng.below(count + 1);
            let kind = *rng.pick(&[0x24, 0x24, 0x25, 0x05]);
            group.body.insert(at, filler(kind, 2 + rng.below(8)));
        }
    }
}

/// Damages the groups.
pub fn damage_groups(rng: &mut Rng, plan: &mut Plan) {
    let count = plan.groups.len();
    if count == 0 {
        plan.groups.push(idle(rng.byte(), 0));
        return;
    }
    let at = rng.below(count);
    match rng.below(4) {
        0 => {
            plan.listed = rng.one_in(2).then(|| plan.listed_numbers());
            plan.groups.remove(at);
            plan.control_after = plan.control_after.min(count - 1);
        }
        1 => {
            let group = plan.groups[at].clone();
            plan.groups.push(group);
        }
        2 => change_length(rng, &mut plan.groups[at].interface),
        _ => {
            let mut group = plan.groups[at].clone();
            // an earlier damage may have cut the descriptor short
            for (offset, byte) in [(5, 1), (6, rng.below(4) as u8), (2, rng.byte())] {
                if let Some(place) = group.interface.get_mut(offset) {
                    *place = byte;
                }
            }
            plan.groups.push(group);
        }
    }
}

fn damage_header(rng: &mut Rng, plan: &mut Plan) {
    let mut listed = plan.listed_numbers();
    match rng.below(4) {
        0 => plan.total = Some(rng.below(400) as u16),
        1 => {
            listed.push(rng.below(6) as u8);
            plan.listed = Some(listed);
        }
        2 => {
            listed.pop();
            plan.listed = Some(listed);
        }
        _ => {
            let at = plan.header_place();
            let mut header = plan.bytes()[at..].to_vec();
            header.truncate(usize::from(header[0]));
            change_byte(rng, &mut header, 0);
            plan.header = Some(header);
        }
    }
}

/// Damages what stands before or behind the groups, or the length.
pub fn damage_edges(rng: &mut Rng, plan: &mut Plan) {
    match rng.below(3) {
        0 => plan.tail.push(filler(*rng.pick(&[0x24, 0x25, 0x05]), 2 + rng.below(9))),
        1 => plan.length = Some(rng.below(600) as u16),
        _ => plan.between.push(interface(rng.byte(), rng.below(2) as u8, 0, 1, 1)),
    }
}

/// Damage that knows nothing of descriptors.
pub fn damage_bytes(rng: &mut Rng, bytes: &mut Vec<u8>) {
    match rng.below(4) {
        0 => change_byte(rng, bytes, 0),
        1 => {
            let at = rng.below(bytes.len());
            bytes.remove(at);
        }
        2 => {
            let at = rng.below(bytes.len());
            bytes.insert(at, rng.byte());
        }
        _ => bytes.truncate(rng.below(bytes.len())),
    }
    if bytes.len() >= 4 && bytes.len() <= CONFIGURATION_MOST && !rng.one_in(4) {
        let [low, high] = (bytes.len() as u16).to_le_bytes();
        bytes[2] = low;
        bytes[3] = high;
    }
}

/// A good configuration that has controls for steps to go over.
pub fn with_controls(rng: &mut Rng) -> Vec<u8> {
    loop {
        let bytes = good(rng).bytes();
        if reader::read(&bytes, &mut [0; SHEET]).state.table.count >= 4 {
            return bytes;
        }
    }
}

/// Adds a configuration at random.
pub fn plug_in(rng: &mut Rng, script: &mut Script) {
    script.step(PLUG_IN, &configuration(rng));
}

/// Adds a step other than a plug-in, meant for the state that the script has come to.
pub fn step(rng: &mut Rng, script: &mut Script) {
    let spoilt = table_breach(&script.state.table).is_some();
    if spoilt && rng.one_in(3) {
        let body = put_good(rng);
        script.step(PUT, &body);
        return;
    }
    let (kind, body) = match rng.below(100) {
        0..=1 if script.state.table.count <= 20 => (SHOW, Vec::new()),
        2 => (PUT, put_shuffled(rng, &script.state)),
        3..=4 => (PUT, put_spoilt(rng, &script.state)),
        5..=29 => (LOAD, load(rng, &script.state)),
        _ => (REQUEST, request(rng, &script.state)),
    };
    script.step(kind, &body);
}

/// A load or a request, meant for this state.
pub fn load_or_request(rng: &mut Rng, state: &State) -> (u8, Vec<u8>) {
    match rng.below(4) {
        0 => (LOAD, load(rng, state)),
        _ => (REQUEST, request(rng, state)),
    }
}

/// Controls of the state that serve a purpose, or all, or a made-up one.
fn target(rng: &mut Rng, state: &State, wanted: fn(&Control) -> bool) -> Control {
    let controls = state.table.controls().unwrap_or(&[]);
    let chosen: Vec<Control> = controls.iter().copied().filter(wanted).collect();
    let mut control = match (chosen.is_empty(), controls.is_empty()) {
        (false, _) if !rng.one_in(12) => *rng.pick(&chosen),
        (_, false) => *rng.pick(controls),
        _ => Control { unit: rng.byte(), ..Control::default() },
    };
    if rng.one_in(20) {
        match rng.below(3) {
            0 => control.unit = another(rng, control.unit),
            1 => control.channel = another(rng, control.channel),
            _ => control.selector = another(rng, control.selector),
        }
    }
    control
}

fn is_ranged(control: &Control) -> bool {
    matches!(Holds::of(control.selector), Some(Holds::Ranged(_)))
}

fn can_answer(control: &Control) -> bool {
    control.loaded || !is_ranged(control)
}

/// Any number, an edge more often than not.
fn number(rng: &mut Rng) -> u16 {
    match rng.below(3) {
        0 => rng.next() as u16,
        1 => *rng.pick(&EDGES),
        _ => rng.below(300) as u16,
    }
}

/// A number that the scale can hold.
fn fitting(rng: &mut Rng, scale: Scale) -> u16 {
    scale.held(scale.number(number(rng)))
}

/// A load: a legal range more often than not.
fn load(rng: &mut Rng, state: &State) -> Vec<u8> {
    let control = target(rng, state, is_ranged);
    let scale = Holds::of(control.selector).and_then(Holds::scale);
    let numbers = match scale {
        Some(scale) if !rng.one_in(5) => legal(rng, scale),
        _ => [number(rng), number(rng), number(rng), number(rng)],
    };
    load_body(control.name(), numbers)
}

/// MIN, MAX, RES and CUR, legal but for a volume MIN of −32768 now and then.
fn legal(rng: &mut Rng, scale: Scale) -> [u16; 4] {
    let mut ends = [scale.number(fitting(rng, scale)), scale.number(fitting(rng, scale))];
    ends.sort();
    let span = (ends[1] - ends[0] + 2).min(scale.res_most);
    let res = match rng.below(4) {
        0 => scale.res_most,
        1 => 1,
        2 => 1 + rng.below(20) as i32,
        _ => rng.between(1, span.max(1)),
    };
    [scale.held(ends[0]), scale.held(ends[1]), res as u16, fitting(rng, scale)]
}

/// The controls of this one's unit and selector, by channel.
fn block(state: &State, control: &Control) -> Vec<Control> {
    let alike = |one: &&Control| (one.unit, one.selector) == (control.unit, control.selector);
    let controls = state.table.controls().unwrap_or(&[]);
    let mut block: Vec<Control> = controls.iter().filter(alike).copied().collect();
    block.sort_by_key(|one| one.channel);
    block
}

/// Type and request: bounds of a ranged control more often than of another.
fn pair(rng: &mut Rng, control: &Control) -> (u8, u8) {
    match rng.below(20) {
        0 => (rng.byte(), rng.byte()),
        1 => (*rng.pick(&[0x21, 0xA1]), *rng.pick(&[1, 2, 0x81, 0x82, 0x83, 0x84, 0x85])),
        2..=5 if is_ranged(control) || rng.one_in(4) => (0xA1, *rng.pick(&[0x82, 0x83, 0x84])),
        6..=10 => (0xA1, 0x81),
        _ => (0x21, 0x01),
    }
}

/// A request, for all channels now and then: good more often than not.
fn request(rng: &mut Rng, state: &State) -> Vec<u8> {
    let wanted = if rng.one_in(10) { |_: &Control| true } else { can_answer };
    let mut control = target(rng, state, wanted);
    let mut addressed = vec![control];
    if rng.one_in(6) {
        // The larger block of three.
        for other in [target(rng, state, wanted), target(rng, state, wanted)] {
            if block(state, &other).len() > block(state, &control).len() {
                control = other;
            }
        }
        addressed = block(state, &control);
        control.channel = ALL_CHANNELS;
    }
    let pair = pair(rng, &control);
    let each = Holds::of(control.selector).map_or(1, Holds::size);
    let size = each * addressed.len();
    let length = match rng.below(15) {
        0 => number(rng),
        1..=3 if pair.0 == 0xA1 => *rng.pick(&[0, 1, 2, 3, 64, size as u16 / 2, size as u16 + 1]),
        _ => size as u16,
    };
    let interface = if rng.one_in(25) { rng.byte() } else { state.number };
    let mut setup = setup(pair, interface, control.name(), length).to_vec();
    if rng.one_in(40) {
        setup.resize(rng.below(12), 0);
    }
    let mut data = Vec::new();
    if pair.0 == 0x21 || rng.one_in(10) {
        for one in &addressed {
            data.extend(&value(rng, one).to_le_bytes()[..each]);
        }
    }
    if pair.0 == 0x21 && rng.one_in(20) {
        data.resize(rng.below(size + 4), 0);
    }
    request_body(room(rng, size) as u16, &setup, &data)
}

/// Room for a reply: enough for so many bytes more often than not.
fn room(rng: &mut Rng, size: usize) -> usize {
    let enough = size.min(REPLY);
    if rng.one_in(10) {
        rng.below(enough + 2)
    } else {
        enough + rng.below(REPLY + 1 - enough)
    }
}

/// A value to be set: on the grid, beside it, halfway, or any.
fn value(rng: &mut Rng, control: &Control) -> u16 {
    match Holds::of(control.selector) {
        Some(Holds::Ranged(scale)) if control.loaded && !rng.one_in(4) => {
            let range = scale.range(control.min, control.max, control.res);
            let steps = if range.res > 0 && range.max >= range.min {
                (range.max - range.min) / range.res
            } else {
                0
            };
            let base = range.min + rng.between(0, steps.max(0)) * range.res;
            let beside = *rng.pick(&[0, 1, -1, range.res / 2, range.res / 2 + 1, range.res - 1]);
            scale.held(base + beside)
        }
        Some(Holds::Ranged(_)) => number(rng),
        Some(Holds::Pin) => rng.below(usize::from(control.pins) + 2) as u16,
        _ if rng.one_in(8) => number(rng),
        _ => rng.below(2) as u16,
    }
}

/// A put, of a good table more often than not.
pub fn some_put(rng: &mut Rng, state: &State) -> Vec<u8> {
    if rng.one_in(3) {
        put_spoilt(rng, state)
    } else {
        put_good(rng)
    }
}

/// A table that is one, its controls in any order.
fn put_good(rng: &mut Rng) -> Vec<u8> {
    let mut controls = if rng.one_in(3) { sample() } else { blocks(rng) };
    rng.shuffle(&mut controls);
    let count = controls.len();
    if rng.one_in(3) {
        controls.push(Control { unit: rng.byte(), selector: rng.byte(), ..Control::default() });
    }
    put_body(rng.byte(), count as u16, &controls)
}

/// The state's table in another order, if it is short; else a good one.
fn put_shuffled(rng: &mut Rng, state: &State) -> Vec<u8> {
    match state.table.controls() {
        Some(own) if own.len() <= 20 && rng.one_in(2) => {
            let mut controls = own.to_vec();
            rng.shuffle(&mut controls);
            put_body(state.number, state.table.count, &controls)
        }
        _ => put_good(rng),
    }
}

/// Three blocks of two units: a selector on some channels, loaded but for a few.
fn blocks(rng: &mut Rng) -> Vec<Control> {
    let mut selectors = [1, 2, 3, 4, 5, 7, 8, 9, 10];
    rng.shuffle(&mut selectors);
    let mut controls = Vec::new();
    for (unit, selector) in [(2, selectors[0]), (2, selectors[1]), (3, selectors[0])] {
        let gaps = 1 + rng.below(6);
        for channel in (0..=CHANNELS as u8).filter(|_| rng.one_in(gaps)) {
            controls.push(Control { unit, channel, selector, ..Control::default() });
        }
    }
    let mut table = Table::of(&controls).expect("at most 51 controls");
    for control in &controls {
        let scale = Holds::of(control.selector).and_then(Holds::scale);
        if let Some(scale) = scale.filter(|_| !rng.one_in(50)) {
            let [min, max, res, cur] = legal(rng, scale);
            // A volume MIN of -32768 is refused, and the control is one of the few.
            let _ = requests::load(&mut table, &Load { name: control.name(), min, max, res, cur });
        }
    }
    table.controls().expect("as many as before").to_vec()
}

/// The state's table, or the sample, with a field changed, or a count that is not its own.
fn put_spoilt(rng: &mut Rng, state: &State) -> Vec<u8> {
    let mut controls = sample();
    rng.shuffle(&mut controls);
    if let Some(own) = state.table.controls() {
        if !own.is_empty() && own.len() <= 16 && rng.one_in(2) {
            controls = own.to_vec();
        }
    }
    let at = rng.below(controls.len());
    let control = &mut controls[at];
    match rng.below(10) {
        0 => control.unit = rng.byte(),
        1 => control.channel = *rng.pick(&[0, 1, 15, 16, 17, 255]),
        2 => control.selector = rng.below(13) as u8,
        3 => control.pins = rng.below(PINS + 3) as u8,
        4 => control.loaded = !control.loaded,
        5 => control.min = number(rng),
        6 => control.max = number(rng),
        7 => control.res = number(rng),
        8 => control.cur = number(rng),
        _ => {
            let again = *control;
            controls.push(again);
        }
    }
    let count = match rng.below(12) {
        0 => number(rng),
        1 => CONTROLS as u16 + rng.below(2) as u16,
        2 => controls.len() as u16 + 1,
        3 => controls.len() as u16 - 1,
        _ => controls.len() as u16,
    };
    put_body(state.number, count, &controls)
}

/// Steps that follow one good configuration.
const BURST: usize = 40;

/// Adds so many configurations and so many steps, in turn, the steps over good configurations.
pub fn fill(rng: &mut Rng, script: &mut Script, configurations: usize, steps: usize) {
    let rounds = steps.div_ceil(BURST).max(1);
    let (mut more_configurations, mut more_steps) = (configurations, steps);
    for round in 0..rounds {
        let left = rounds - round;
        let now = more_configurations.div_ceil(left);
        for index in 0..now {
            if index + 1 == now {
                script.step(PLUG_IN, &with_controls(rng));
            } else {
                plug_in(rng, script);
            }
        }
        more_configurations -= now;
        let now = more_steps.min(BURST);
        for _ in 0..now {
            step(rng, script);
        }
        more_steps -= now;
    }
}

#[cfg(test)]
mod tests {
    use super::*;
    use crate::numbers::RECORD;
    use crate::relay;
    use crate::requests::Reply;
    use crate::ways::Way;

    #[test]
    fn what_is_made_good_is_accepted() {
        let mut rng = Rng::new(1);
        for _ in 0..3000 {
            let bytes = good(&mut rng).bytes();
            let refusal = reader::read(&bytes, &mut [0; SHEET]).refusal;
            let way = refusal.map(|one| one.way);
            assert!(matches!(way, None | Some(Way::ManyControls)), "{way:?} {bytes:02X?}");
        }
    }

    /// Whether some Selector of these bytes shows index 0, and one of its pins another.
    fn shows_no_name(bytes: &[u8]) -> bool {
        let mut sheet = [0; SHEET];
        let answer = reader::read(bytes, &mut sheet);
        let records: Vec<&[u8]> = sheet.chunks(RECORD).take(answer.entities).collect();
        let named = |id: &u8| records.iter().any(|one| one[0] == *id && one[5] != 0);
        let shown = |one: &&[u8]| one[1] == 5 && one[5] == 0 && one[8..].iter().any(named);
        records.iter().any(shown)
    }

    #[test]
    fn selectors_are_met_in_every_way() {
        let mut rng = Rng::new(5);
        let (mut unlike, mut unnamed, mut withdrawn) = (0, 0, 0);
        for _ in 0..4000 {
            let bytes = configuration(&mut rng);
            let way = reader::read(&bytes, &mut [0; SHEET]).way();
            unlike += usize::from(way == Some(Way::SelectorBitmap));
            unnamed += usize::from(shows_no_name(&bytes));
            withdrawn += usize::from(way == Some(Way::SelectorPrinted));
        }
        assert!(unlike > 40 && unnamed > 100 && withdrawn > 40, "{unlike} {unnamed} {withdrawn}");
    }

    /// A request for one unit and selector, with the bytes that it answers.
    fn asked(state: &mut State, setup: &[u8], data: &[u8]) -> Result<Vec<u8>, Way> {
        let mut reply = [0; REPLY];
        requests::request(state, setup, data, &mut reply).map(|answer| match answer {
            Reply::Set => Vec::new(),
            Reply::Got(sent) => reply[..sent].to_vec(),
        })
    }

    /// "The outcome, before that cut, equals the single requests done one after another in that
    /// order, when none would be refused, and the table is untouched otherwise."
    #[test]
    fn a_block_is_its_single_requests() {
        let mut rng = Rng::new(3);
        let mut met = [0; 2];
        for _ in 0..4000 {
            let mut controls = blocks(&mut rng);
            rng.shuffle(&mut controls);
            let mut state = State { number: 0, table: Table::of(&controls).unwrap() };
            let Some(control) = controls.first() else { continue };
            let (unit, selector) = (control.unit, control.selector);
            let pair = *rng.pick(&[(0x21, 1), (0xA1, 0x81), (0xA1, 0x82), (0xA1, 0x84)]);
            let each = Holds::of(selector).unwrap().size();
            let (mut one_by_one, mut outcome, mut block) = (state.clone(), Ok(vec![]), vec![]);
            for channel in 0..=CHANNELS as u8 {
                let name = (unit, channel, selector);
                let Some(one) = controls.iter().find(|one| one.name() == name) else { continue };
                let data = value(&mut rng, one).to_le_bytes()[..each].to_vec();
                let single = setup(pair, 0, name, each as u16);
                outcome = outcome.and_then(|mut bytes| {
                    bytes.extend(asked(&mut one_by_one, &single, &data)?);
                    Ok(bytes)
                });
                block.extend(data);
            }
            let before = state.clone();
            let all = setup(pair, 0, (unit, ALL_CHANNELS, selector), block.len() as u16);
            assert_eq!(asked(&mut state, &all, &block), outcome);
            assert_eq!(state, if outcome.is_ok() { one_by_one } else { before });
            met[usize::from(outcome.is_ok())] += 1;
        }
        assert!(met.into_iter().all(|times| times > 500), "{met:?}");
    }

    #[test]
    fn a_random_script_is_a_script() {
        let mut rng = Rng::new(2);
        let mut script = Script::new();
        fill(&mut rng, &mut script, 200, 500);
        assert_eq!((script.reach.configurations, script.reach.steps), (200, 500));
        assert_eq!(relay::program(&script.tape.bytes), script.tape.printed);
    }
}
