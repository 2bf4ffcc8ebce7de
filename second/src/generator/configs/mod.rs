//! Configurations made on purpose: each rule just kept and just broken, with the answer that
//! document 01 gives, written down here by hand and not taken from the reader.

mod cutting;
mod pins;
mod selectors;
mod streaming;
mod topology;
mod withdrawn;

use super::build::{
    case_a, class, filler, idle, interface, microphone, pcm, pcm_range, telephone, working,
    GroupPlan, Part, Plan, Telephone,
};
use super::rng::Rng;
use crate::numbers::{self, SHEET};
use crate::reader;
use crate::ways::Way;

pub use topology::feature_of;

/// A configuration with a name and the answer it must get.
#[derive(Clone, Debug)]
pub struct Case {
    /// What it is for.
    pub name: String,
    /// Its bytes.
    pub bytes: Vec<u8>,
    /// The clause and place of its refusal; none if it is to be accepted.
    pub expect: Option<(Way, usize)>,
    /// Records that its sheet has to show, whole or in part from their first byte on.
    pub shows: Vec<Vec<u8>>,
}

impl Case {
    /// Whether its sheet shows them.
    pub fn shown(&self) -> bool {
        let mut sheet = [0; SHEET];
        reader::read(&self.bytes, &mut sheet);
        let shown = |wanted: &Vec<u8>| {
            sheet.chunks(numbers::RECORD).any(|record| record.starts_with(wanted))
        };
        self.shows.iter().all(shown)
    }
}

/// The list of cases while it is being made.
#[derive(Default)]
pub struct Cases(Vec<Case>);

impl Cases {
    /// Bytes that are refused.
    fn refuse_bytes(&mut self, name: &str, bytes: Vec<u8>, way: Way, place: usize) {
        let expect = Some((way, place));
        self.0.push(Case { name: name.to_string(), bytes, expect, shows: vec![] });
    }

    /// Bytes that are accepted.
    fn keep_bytes(&mut self, name: &str, bytes: Vec<u8>) {
        self.0.push(Case { name: name.to_string(), bytes, expect: None, shows: vec![] });
    }

    /// The desk after a change that breaks a rule; the change answers the place.
    fn refuse(&mut self, name: &str, way: Way, change: impl FnOnce(&mut Plan) -> usize) {
        let mut plan = desk();
        let place = change(&mut plan);
        self.refuse_bytes(name, plan.bytes(), way, place);
    }

    /// The desk after a change that keeps all rules.
    fn keep(&mut self, name: &str, change: impl FnOnce(&mut Plan)) {
        let mut plan = desk();
        change(&mut plan);
        self.keep_bytes(name, plan.bytes());
    }

    /// Another plan, refused.
    fn refuse_plan(&mut self, name: &str, plan: &Plan, way: Way, place: usize) {
        self.refuse_bytes(name, plan.bytes(), way, place);
    }

    /// Another plan, accepted.
    fn keep_plan(&mut self, name: &str, plan: &Plan) {
        self.keep_bytes(name, plan.bytes());
    }

    /// Another plan, accepted, with a sheet that shows these records.
    fn keep_shown(&mut self, name: &str, plan: &Plan, shows: &[Vec<u8>]) {
        let (name, bytes) = (name.to_string(), plan.bytes());
        self.0.push(Case { name, bytes, expect: None, shows: shows.to_vec() });
    }
}

const STEREO: (u8, u16, u8) = (2, 0x0003, 0);

// The parts of the desk by index.
/// The Input Terminal of a microphone.
pub const MICROPHONE: usize = 0;
/// The Input Terminal of what is played.
pub const PLAYBACK: usize = 1;
/// The Mixer of both.
pub const MIXER: usize = 2;
/// The Feature Unit behind the Mixer.
pub const FEATURE: usize = 3;
/// The Selector behind it.
pub const SELECTOR: usize = 4;
/// The Output Terminal of what is recorded.
pub const RECORDING: usize = 5;
/// The Output Terminal of a speaker.
pub const SPEAKER: usize = 6;
const SWITCH: usize = 7;
const TRIM: usize = 8;

// The groups of the desk by index, the AudioControl group standing after the first.
const KEYS: usize = 0;
const RECORD_IDLE: usize = 1;
const RECORD: usize = 2;
const PLAY: usize = 4;
const MIDI: usize = 5;
const VENDOR: usize = 6;

/// A good configuration with every kind of entity and of group: nine entities, 17 controls.
pub fn desk() -> Plan {
    let parts = vec![
        Part::Input { id: 1, terminal: 0x0201, cluster: STEREO },
        Part::Input { id: 2, terminal: 0x0101, cluster: STEREO },
        Part::Mixer { id: 3, sources: vec![1, 2], cluster: STEREO, controls: vec![0xA5] },
        Part::Feature {
            id: 4,
            source: 3,
            size: 2,
            masks: vec![0x03, 0x00, 0xFF, 0x03, 0x40, 0xFC],
        },
        Part::Selector { id: 5, sources: vec![4, 1] },
        Part::Output { id: 6, terminal: 0x0101, source: 5 },
        Part::Output { id: 7, terminal: 0x0301, source: 2 },
        Part::Selector { id: 8, sources: vec![1, 2] },
        Part::Feature { id: 9, source: 8, size: 1, masks: vec![0x20, 0x81, 0x02] },
    ];
    let groups = vec![
        GroupPlan { interface: interface(4, 0, 1, 3, 0), body: vec![filler(0x21, 9)] },
        idle(1, 0),
        working(1, 1, 6, pcm(2, &[48000])),
        idle(2, 0),
        working(2, 1, 2, pcm_range(2, 8000, 96000)),
        GroupPlan { interface: interface(3, 0, 2, 1, 3), body: vec![class(&[1, 0, 1, 7, 0])] },
        GroupPlan { interface: interface(5, 0, 0, 255, 1), body: vec![class(&[9, 9, 9])] },
    ];
    let mut plan = Plan::new(parts, groups);
    plan.between = vec![vec![8, 0x0B, 0, 4, 1, 0, 0, 0]];
    plan.control_after = 1;
    plan
}

/// An Input Terminal that is a microphone.
pub fn input(id: u8, cluster: (u8, u16, u8)) -> Part {
    Part::Input { id, terminal: 0x0201, cluster }
}

/// An Output Terminal that is a speaker.
pub fn output(id: u8, source: u8) -> Part {
    Part::Output { id, terminal: 0x0301, source }
}

/// A Feature Unit over `channels` with one-byte masks that carry nothing.
pub fn feature(id: u8, source: u8, channels: u8) -> Part {
    Part::Feature { id, source, size: 1, masks: vec![0; usize::from(channels) + 1] }
}

/// A Selector.
pub fn selector(id: u8, sources: &[u8]) -> Part {
    Part::Selector { id, sources: sources.to_vec() }
}

/// A printed Selector: a byte 00 before its sources, and one longer for it.
pub fn printed(id: u8, sources: &[u8]) -> Part {
    Part::Raw(class(&[&[5, id, sources.len() as u8, 0][..], sources, &[0]].concat()))
}

/// A Mixer with the right number of control bytes for `entering` channels.
pub fn mixer(id: u8, sources: &[u8], entering: usize, cluster: (u8, u16, u8)) -> Part {
    let bytes = (entering * usize::from(cluster.0)).div_ceil(8);
    Part::Mixer { id, sources: sources.to_vec(), cluster, controls: vec![0xFF; bytes] }
}

/// All cases.
pub fn all() -> Vec<Case> {
    let mut cases = Cases::default();
    examples(&mut cases);
    cutting::all(&mut cases);
    topology::all(&mut cases);
    selectors::all(&mut cases);
    pins::all(&mut cases);
    withdrawn::all(&mut cases);
    streaming::all(&mut cases);
    shuffled(&mut cases);
    pairs(&mut cases);
    cases.0
}

/// The configurations of the papers.
fn examples(cases: &mut Cases) {
    let a = case_a();
    let with = |at: usize, byte: u8| {
        let mut changed = a.clone();
        changed[at] = byte;
        changed
    };
    cases.keep_bytes("case A", a.clone());
    cases.refuse_bytes("case A, bytes 2..3 made 108", with(2, 108), Way::OpeningTotal, 0);
    cases.refuse_bytes("case A, first 8 bytes", a[..8].to_vec(), Way::LengthLow, 0);
    cases.refuse_bytes("case A, Feature Unit sourcing itself", with(43, 2), Way::ChainOnLoop, 39);
    cases.refuse_bytes("case A, Feature Unit's ID made 1", with(42, 1), Way::IdRepeated, 39);
    cases.refuse_bytes("case A, its source made 3", with(43, 3), Way::SourceOutput, 39);
    cases.keep_bytes("microphone", microphone());
    let printed = telephone(Telephone::Printed, 2, 0x64);
    cases.refuse_bytes("telephone, printed Selectors", printed, Way::SelectorPrinted, 91);
    cases.keep_bytes("telephone, Selectors by table 4-6", telephone(Telephone::Tables, 2, 0x61));
    let as_printed = telephone(Telephone::Printed, 1, 0x64);
    cases.refuse_bytes("telephone as printed, number 1 twice", as_printed, Way::InterfacePair, 170);
    let total = telephone(Telephone::Tables, 2, 0x64);
    cases.refuse_bytes("telephone, table 4-6, total as printed", total, Way::TotalWrong, 18);
    cases.keep("desk", |_| {});
}

/// Runs in other orders: "Order carries no meaning: a source may stand after its user."
fn shuffled(cases: &mut Cases) {
    let mut rng = Rng::new(7);
    cases.keep("the desk's run turned round", |plan| plan.parts.reverse());
    for _ in 0..12 {
        cases.keep("the desk's run shuffled", |plan| rng.shuffle(&mut plan.parts));
    }
}

/// A change of the desk that breaks one rule, and what tells the place once all is done.
type Breach = (Way, fn(&mut Plan), fn(&Plan) -> usize);

/// Two rules broken in one configuration: "the lowest number that applies is given", but that 17
/// comes "after 9 and before 10".
fn pairs(cases: &mut Cases) {
    let breaches: [Breach; 14] = [
        (
            Way::InterfacePair,
            |plan| plan.groups[VENDOR].interface[2] = 4,
            |plan| plan.group_place(VENDOR),
        ),
        (
            Way::HeaderLength,
            |plan| plan.header = Some(vec![8, 0x24, 1, 0, 1, 0, 0, 1]),
            Plan::header_place,
        ),
        (Way::TotalWrong, |plan| plan.total = Some(11), Plan::header_place),
        (Way::ListedTwice, |plan| plan.listed = Some(vec![1, 1, 2, 3]), Plan::header_place),
        (
            Way::ManyEntities,
            |plan| plan.parts.extend((100..130).map(|id| input(id, STEREO))),
            Plan::header_place,
        ),
        (
            Way::OutputTerminalLength,
            |plan| plan.parts[SPEAKER] = plan.parts[SPEAKER].resized(10),
            |plan| plan.part_place(SPEAKER),
        ),
        (
            Way::SelectorPrinted,
            |plan| plan.parts[SELECTOR] = printed(5, &[4, 1]),
            |plan| plan.part_place(SELECTOR),
        ),
        (
            Way::IdRepeated,
            |plan| plan.parts[TRIM] = plan.parts[TRIM].with(3, 4),
            |plan| plan.part_place(TRIM),
        ),
        (
            Way::SourceUnknown,
            |plan| plan.parts[SWITCH] = plan.parts[SWITCH].with(6, 99),
            |plan| plan.part_place(SWITCH),
        ),
        (
            Way::ChainOnLoop,
            |plan| plan.parts[FEATURE] = plan.parts[FEATURE].with(4, 4),
            |plan| plan.part_place(FEATURE),
        ),
        (
            Way::InputIndexEqual,
            |plan| plan.parts[MICROPHONE] = plan.parts[MICROPHONE].with(10, 1),
            |plan| plan.part_place(MICROPHONE),
        ),
        (
            Way::SelectorBitmap,
            |plan| plan.parts[PLAYBACK] = plan.parts[PLAYBACK].with(8, 0x05),
            |plan| plan.part_place(SWITCH),
        ),
        (
            Way::GeneralLength,
            |plan| plan.groups[RECORD].body[0] = class(&[1, 6]),
            |plan| plan.group_place(RECORD),
        ),
        (
            Way::ManyControls,
            |plan| {
                plan.parts.push(input(50, (16, 0, 0)));
                let masks = vec![0xFF; 34];
                plan.parts.push(Part::Feature { id: 51, source: 50, size: 2, masks });
            },
            Plan::header_place,
        ),
    ];
    for (first, (way, change, place)) in breaches.iter().enumerate() {
        let alone = format!("{} alone", way.number());
        let mut plan = desk();
        change(&mut plan);
        cases.refuse_plan(&alone, &plan, *way, place(&plan));
        for (other_way, other, _) in &breaches[first + 1..] {
            let mut plan = desk();
            other(&mut plan);
            change(&mut plan);
            let name = format!("{} and {}", way.number(), other_way.number());
            cases.refuse_plan(&name, &plan, *way, place(&plan));
        }
    }
}

#[cfg(test)]
mod tests {
    use super::*;

    #[test]
    fn every_case_gets_its_answer() {
        for case in all() {
            let answer = reader::read(&case.bytes, &mut [0; SHEET]);
            let got = answer.refusal.map(|one| (one.way, one.place));
            assert_eq!(got, case.expect, "{}", case.name);
            assert!(case.shown(), "{}", case.name);
        }
    }

    #[test]
    fn the_desk_has_nine_entities_and_17_controls() {
        let answer = reader::read(&desk().bytes(), &mut [0; SHEET]);
        assert_eq!((answer.entities, answer.state.table.count), (9, 17));
    }
}
