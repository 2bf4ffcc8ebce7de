//! Configurations of the 3.0 edition made on purpose, with their cluster buffers: each rule just kept
//! and just broken, with the answer that document 02, No. 12 gives, written down here by hand.

use super::build::{case_a, class, filler, idle, working, GroupPlan, Part};
use super::build3::{
    basic_headset, basic_microphone, clock3, cluster3, feature3, input3, mixer3, mono, output3,
    selector3, stereo, Basic, Third, SKIPPED,
};
use super::configs::{
    self, desk, FEATURE, MICROPHONE, MIXER, PLAYBACK, RECORDING, SELECTOR, SPEAKER,
};
use super::rng::Rng;
use crate::numbers::{CONFIGURATION_MOST, EDITION_3, ENTITIES, PINS, STEP};
use crate::ways::Way;

/// A configuration with its cluster buffer, a name and the answer that it must get.
#[derive(Clone, Debug)]
pub struct Case3 {
    /// What it is for.
    pub name: String,
    /// The configuration.
    pub config: Vec<u8>,
    /// The cluster buffer.
    pub clusters: Vec<u8>,
    /// The clause and place of its refusal; none if it is to be accepted.
    pub expect: Option<(Way, usize)>,
    /// The records of its sheet from the first on, each from its first byte on, if they are told.
    pub shows: Vec<Vec<u8>>,
}

/// The list of cases while it is being made.
#[derive(Default)]
struct Cases(Vec<Case3>);

impl Cases {
    fn push(&mut self, name: &str, config: Vec<u8>, clusters: Vec<u8>, way: Option<(Way, usize)>) {
        let name = name.to_string();
        self.0.push(Case3 { name, config, clusters, expect: way, shows: vec![] });
    }

    /// A plan that is accepted.
    fn keep_plan(&mut self, name: &str, third: &Third) {
        self.push(name, third.config(), third.buffer(), None);
    }

    /// A plan that is accepted, and its records.
    fn keep_shown(&mut self, name: &str, third: &Third, shows: &[Vec<u8>]) {
        self.keep_plan(name, third);
        self.0.last_mut().expect("just pushed").shows = shows.to_vec();
    }

    /// A plan that is refused.
    fn refuse_plan(&mut self, name: &str, third: &Third, way: Way, place: usize) {
        self.push(name, third.config(), third.buffer(), Some((way, place)));
    }

    /// The console after a change that keeps all rules.
    fn keep(&mut self, name: &str, change: impl FnOnce(&mut Third)) {
        let mut third = console();
        change(&mut third);
        self.keep_plan(name, &third);
    }

    /// The console after a change that breaks a rule; the change answers the place.
    fn refuse(&mut self, name: &str, way: Way, change: impl FnOnce(&mut Third) -> usize) {
        let mut third = console();
        let place = change(&mut third);
        self.refuse_plan(name, &third, way, place);
    }

    /// The console with one byte of one entity made another, refused there.
    fn refuse_byte(&mut self, name: &str, way: Way, index: usize, at: usize, byte: u8) {
        self.refuse(name, way, |third| {
            third.plan.parts[index] = third.plan.parts[index].with(at, byte);
            third.part_place(index)
        });
    }

    /// The console with one entity made another, refused there.
    fn refuse_part(&mut self, name: &str, way: Way, index: usize, part: Part) {
        self.refuse(name, way, |third| {
            third.plan.parts[index] = part;
            third.part_place(index)
        });
    }
}

// The console's entities by index, behind the seven that it has in common with the desk.
const CLOCK: usize = 7;
const SPARE_CLOCK: usize = 8;
const LINE: usize = 9;
const TRIM: usize = 10;

// Its clusters by index.
const STEREO: usize = 0;
const TWIN: usize = 1;
const MONO: usize = 2;

/// A good configuration with every kind of entity: eleven, and four cluster descriptors, two of the
/// same content and one that nobody names. Its groups are listed nowhere, and rule 14 would refuse them.
pub fn console() -> Third {
    let parts = vec![
        input3(1, 9, 1),
        input3(2, 9, 2),
        mixer3(3, &[1, 2], 1, 1),
        feature3(4, 3, 2),
        selector3(5, &[4, 2]),
        output3(6, 5, 9),
        output3(7, 2, 10),
        clock3(9),
        clock3(10),
        input3(8, 10, 0x0301),
        feature3(11, 8, 1),
    ];
    let mut broken = working(1, 1, 6, class(&[2]));
    broken.body.swap(0, 1);
    let groups = vec![idle(1, 0), broken, idle(2, 0)];
    let mut third = Third::new(
        parts,
        groups,
        vec![stereo(1), stereo(2), mono(0x0301), cluster3(0x0100, 0, &[])],
    );
    third.plan.control_after = 1;
    third
}

/// All cases.
pub fn all() -> Vec<Case3> {
    let mut cases = Cases::default();
    examples(&mut cases);
    printed_examples(&mut cases);
    editions(&mut cases);
    both_editions(&mut cases);
    headers(&mut cases);
    totals(&mut cases);
    counts(&mut cases);
    buffers(&mut cases);
    buffer_ends(&mut cases);
    kept_buffers(&mut cases);
    layouts(&mut cases);
    pins(&mut cases);
    other_layouts(&mut cases);
    ids(&mut cases);
    sources(&mut cases);
    clocks(&mut cases);
    chains(&mut cases);
    cluster_ids(&mut cases);
    channels(&mut cases);
    lengths(&mut cases);
    mixers(&mut cases);
    entering(&mut cases);
    selectors(&mut cases);
    selectors_among_others(&mut cases);
    not_applied(&mut cases);
    orders(&mut cases);
    pairs(&mut cases);
    cases.0
}

/// A record's first bytes: ID, kind, c, no bitmap and no name index, pins, 00 and the sources.
fn record(id: u8, kind: u8, c: u8, sources: &[u8]) -> Vec<u8> {
    [&[id, kind, c, 0, 0, 0, sources.len() as u8, 0][..], sources, &vec![0; PINS - sources.len()]]
        .concat()
}

/// The console, and the microphone and the headset of source document 003.
fn examples(cases: &mut Cases) {
    let shows = [
        record(1, 2, 2, &[]),
        record(2, 2, 2, &[]),
        record(3, 4, 2, &[1, 2]),
        record(4, 6, 2, &[3]),
        record(5, 5, 2, &[4, 2]),
        record(6, 3, 2, &[5]),
        record(7, 3, 2, &[2]),
        record(9, 0x0B, 0, &[]),
        record(10, 0x0B, 0, &[]),
        record(8, 2, 1, &[]),
        record(11, 6, 1, &[8]),
    ];
    cases.keep_shown("the console", &console(), &shows);
    for c in [1, 2] {
        let shows = [
            record(4, 2, c, &[]),
            record(6, 3, c, &[5]),
            record(5, 6, c, &[4]),
            record(9, 0x0B, 0, &[]),
        ];
        cases.keep_shown("003's microphone", &basic_microphone(Basic::Taken, c), &shows);
        let shows = [
            record(1, 2, c, &[]),
            record(4, 2, 1, &[]),
            record(3, 3, c, &[2]),
            record(6, 3, 1, &[5]),
            record(8, 4, c, &[1, 7]),
            record(2, 6, c, &[8]),
            record(5, 6, 1, &[4]),
            record(7, 6, 1, &[4]),
            record(9, 0x0B, 0, &[]),
        ];
        cases.keep_shown("003's headset", &basic_headset(Basic::Taken, c), &shows);
    }
}

/// The same with what 003 prints beside: its Power Domains, and Feature Units of subtype 06. Such a unit
/// is a Selector here, with as many pins as its source's ID says: 4 in 15 bytes and 8 in 19 fit, and the
/// master mask's 03 is then pin 1's source.
fn printed_examples(cases: &mut Cases) {
    let other = [
        (Basic::PowerDomains, 1, (Way::KindUnknownIn3, 4), (Way::KindUnknownIn3, 9)),
        (Basic::PowerDomains, 2, (Way::KindUnknownIn3, 4), (Way::KindUnknownIn3, 9)),
        (Basic::PrintedSubtype, 1, (Way::SourceUnknownIn3, 2), (Way::SelectorLengthIn3, 5)),
        (Basic::PrintedSubtype, 2, (Way::SelectorLengthIn3, 2), (Way::SourceOutputIn3, 5)),
        (Basic::Printed, 1, (Way::KindUnknownIn3, 4), (Way::SelectorLengthIn3, 5)),
        (Basic::Printed, 2, (Way::SelectorLengthIn3, 2), (Way::KindUnknownIn3, 9)),
    ];
    for (basic, c, (way, index), (other, at)) in other {
        let third = basic_microphone(basic, c);
        cases.refuse_plan("003's microphone, more", &third, way, third.part_place(index));
        let third = basic_headset(basic, c);
        cases.refuse_plan("003's headset, more", &third, other, third.part_place(at));
    }
}

/// "An AudioControl interface whose protocol byte (offset 7) is 0x30 is read by source document 001; all
/// others as now": the buffer is then not looked at.
fn editions(cases: &mut Cases) {
    for protocol in [0x00, 0x01, 0x03, 0x20, 0x2F, 0x31, 0x32, 0xB0, 0xFF] {
        let mut plan = desk();
        plan.control[7] = protocol;
        cases.push("the desk, another protocol", plan.bytes(), vec![1], None);
        let mut third = console();
        third.plan.control[7] = protocol;
        let place = third.header_place();
        cases.refuse_plan("the console, another protocol", &third, Way::HeaderOpening, place);
    }
    let mut plan = desk();
    plan.control[7] = EDITION_3;
    let place = plan.header_place();
    let expect = Some((Way::HeaderLengthIn3, place));
    cases.push("the desk as 3.0", plan.bytes(), console().buffer(), expect);
    // With two numbers listed the header is 10 long, and its total stands elsewhere.
    plan.groups.clear();
    plan.control_after = 0;
    plan.listed = Some(vec![1, 2]);
    let expect = Some((Way::TotalWrongIn3, plan.header_place()));
    cases.push("1.0's header of 10", plan.bytes(), vec![], expect);
    // The byte of another interface, and other bytes of this one.
    let mut plan = desk();
    plan.control[8] = EDITION_3;
    plan.groups.iter_mut().for_each(|group| group.interface[7] = EDITION_3);
    cases.push("0x30 at all other interfaces", plan.bytes(), vec![], None);
    cases.keep("0x30 at the AudioControl interface alone", |third| {
        third.plan.control[4] = 1;
        third.plan.control[8] = 0;
        third.plan.groups.iter_mut().for_each(|group| group.interface[7] = 0x20);
    });
    cases.push("case A", case_a(), vec![], None);
    // 1.0's clauses, the first case of each.
    let mut seen = Vec::new();
    for case in configs::all() {
        if let Some((way, _)) = case.expect.filter(|(way, _)| !seen.contains(way)) {
            seen.push(way);
            cases.push(&case.name, case.bytes, vec![1], case.expect);
        }
    }
}

/// Whatever can be told as an AudioControl interface descriptor with its protocol byte made 0x30.
fn as_third(mut bytes: Vec<u8>) -> Vec<u8> {
    let mut place = 0;
    while place + 9 <= bytes.len() && bytes[place] >= 2 {
        if bytes[place + 1] == 4 && bytes[place + 5..place + 7] == [1, 1] {
            bytes[place + 7] = EDITION_3;
        }
        place += usize::from(bytes[place]);
    }
    bytes
}

/// "Rules 1 to 4" are the same for both, and come before what is wrong with the buffer.
fn both_editions(cases: &mut Cases) {
    for case in configs::all() {
        let same = case.expect.is_some_and(|(way, _)| way.is_of_both_editions());
        if same && case.bytes.len() <= 1000 {
            cases.push(&case.name, as_third(case.bytes), vec![1], case.expect);
        }
    }
    cases.push("no byte", vec![], vec![], Some((Way::LengthLow, 0)));
    cases.push("8,192 bytes", vec![0; STEP], vec![], Some((Way::LengthHigh, 0)));
    cases.keep_plan("4,096 bytes", &console().padded(CONFIGURATION_MOST));
    let long = console().padded(CONFIGURATION_MOST + 1);
    cases.refuse_plan("4,097 bytes", &long, Way::LengthHigh, 0);
    cases.refuse("two bytes off", Way::OpeningTotal, |third| {
        third.plan.length = Some(11);
        0
    });
    cases.refuse("an entity's length runs past the end", Way::DescriptorLong, |third| {
        third.plan.groups.truncate(1);
        third.plan.parts[TRIM] = third.plan.parts[TRIM].with(0, 255);
        third.plan.header = Some(class(&[1, 4, 0, 0, 1, 0, 0, 0]));
        third.part_place(TRIM)
    });
    cases.refuse("another AudioControl interface, 1.0", Way::SecondAudioControl, |third| {
        let mut second = third.plan.control.clone();
        (second[2], second[7]) = (7, 0);
        third.plan.groups.push(GroupPlan { interface: second, body: vec![] });
        third.config().len() - 9
    });
}

/// Rule 5: "header of 10" (24 01, total at 4..5).
fn headers(cases: &mut Cases) {
    let alone = |third: &mut Third| {
        third.plan.header = Some(vec![]);
        third.plan.parts.clear();
        third.header_place()
    };
    cases.refuse("header absent at the end", Way::HeaderAtEndIn3, |third| {
        third.plan.groups.truncate(1);
        alone(third)
    });
    cases.refuse("header absent, a group begins", Way::HeaderAtGroupIn3, alone);
    cases.refuse("an entity where the header should stand", Way::HeaderOpeningIn3, |third| {
        third.plan.header = Some(vec![]);
        third.header_place()
    });
    let right = header();
    for (at, byte) in [(1, 0x25), (1, 0x05), (2, 0x00), (2, 0x02), (2, 0x11)] {
        cases.refuse("the header's opening", Way::HeaderOpeningIn3, |third| {
            let mut header = right.clone();
            header[at] = byte;
            third.plan.header = Some(header);
            third.header_place()
        });
    }
    for short in [vec![2, 0x24], vec![3, 0x24, 2]] {
        cases.refuse("a short header", Way::HeaderOpeningIn3, |third| {
            third.plan.header = Some(short);
            third.header_place()
        });
    }
    for length in [3, 4, 5, 8, 9, 11, 12, 255] {
        cases.refuse("the header's length", Way::HeaderLengthIn3, |third| {
            let mut header = right.clone();
            header.resize(length, 0);
            header[0] = length as u8;
            third.plan.header = Some(header);
            third.header_place()
        });
    }
}

/// The console's header.
fn header() -> Vec<u8> {
    console().config()[console().header_place()..][..10].to_vec()
}

/// Rule 6, and bytes of the header that no rule reads.
fn totals(cases: &mut Cases) {
    let right = header();
    let total = right[4];
    for (at, byte) in [(3, 0x00), (3, 0x01), (3, 0xFF), (6, 0xFF), (9, 0xFF)] {
        cases.keep("other bytes of the header", |third| {
            let mut header = right.clone();
            header[at] = byte;
            third.plan.header = Some(header);
        });
    }
    let whole = u16::from(total);
    for wrong in [0, 10, whole - 10, whole - 1, whole + 1, whole + 256, whole << 8] {
        cases.refuse("the total", Way::TotalWrongIn3, |third| {
            third.plan.total = Some(wrong);
            third.header_place()
        });
    }
    cases.refuse("the total where 1.0 has it", Way::TotalWrongIn3, |third| {
        third.plan.header = Some(class(&[1, 4, 1, total, 0, 0, 0, 0]));
        third.header_place()
    });
    cases.refuse("a class descriptor after the run", Way::ClassAfterRunIn3, |third| {
        third.plan.tail = vec![filler(0x25, 7), clock3(99).bytes()];
        third.header_place()
    });
    cases.keep("other descriptors after the run", |third| {
        third.plan.tail = vec![filler(0x25, 7), filler(0x05, 7)];
    });
    cases.refuse("a break in the run", Way::TotalWrongIn3, |third| {
        third.plan.parts.insert(FEATURE, Part::Raw(filler(0x25, 4)));
        third.header_place()
    });
}

/// Rule 8, and a total of two bytes.
fn counts(cases: &mut Cases) {
    let clocks = |count: usize| {
        let parts = (1..=count as u8).map(|id| clock3(id.wrapping_mul(7))).collect();
        Third::new(parts, vec![], vec![])
    };
    let none = clocks(0);
    cases.refuse_plan("no entity", &none, Way::NoEntityIn3, none.header_place());
    for count in [1, 2, 31, ENTITIES] {
        let shows: Vec<Vec<u8>> =
            (1..=count as u8).map(|id| record(id.wrapping_mul(7), 0x0B, 0, &[])).collect();
        cases.keep_shown("Clock Sources alone, an empty buffer", &clocks(count), &shows);
    }
    for count in [33, 34, 40] {
        let third = clocks(count);
        let place = third.header_place();
        cases.refuse_plan("more than 32", &third, Way::ManyEntitiesIn3, place);
    }
    let full = |more: usize| {
        let mut parts = vec![clock3(255), input3(254, 255, 7)];
        parts.extend((0..30 + more as u8).map(|id| output3(id + 100, 254, 255)));
        Third::new(parts, vec![], vec![mono(7)])
    };
    cases.keep_plan("32 entities up to ID 255", &full(0));
    let place = full(1).header_place();
    cases.refuse_plan("33 entities", &full(1), Way::ManyEntitiesIn3, place);
}

/// The shortest cluster descriptor.
fn piece(id: u16) -> Vec<u8> {
    cluster3(id, 1, &[])
}

/// Rule 51, each way of it at the first, a middle and the last place.
fn buffers(cases: &mut Cases) {
    for at in [0, 2, 4] {
        let wrong: [(&str, Way, Vec<u8>); 9] = [
            ("a length of 0", Way::ClusterShort, [&[0; 2][..], &[1; 30]].concat()),
            ("a length of 1", Way::ClusterShort, [&[1, 0][..], &[1; 30]].concat()),
            ("a length of 6", Way::ClusterShort, [&[6, 0][..], &[1; 30]].concat()),
            ("a length of 65,535", Way::ClusterLong, [&[0xFF; 2][..], &[1; 30]].concat()),
            (
                "a length whose high byte counts",
                Way::ClusterLong,
                [7, 1, 0x26, 0, 9, 9, 1].repeat(2),
            ),
            ("an ID of 0", Way::ClusterZero, piece(0)),
            ("an ID that the first has", Way::ClusterTwice, cluster3(1, 4, &[9; 3])),
            ("an ID that the last has", Way::ClusterTwice, piece(0x0100)),
            ("a later one cut too", Way::ClusterZero, [&piece(0)[..], &[1]].concat()),
        ];
        for (name, way, bytes) in wrong {
            if at < 4 && way == Way::ClusterTwice {
                continue;
            }
            cases.refuse(name, way, |third| {
                third.clusters.insert(at, bytes);
                // Nothing but this piece is wrong up to here.
                third.cluster_place(at)
            });
        }
    }
}

/// Rule 51 where the buffer ends.
fn buffer_ends(cases: &mut Cases) {
    for (name, bytes, way) in [
        ("one byte left", vec![7], Way::ClusterCut),
        ("two bytes left", vec![7, 0], Way::ClusterLong),
        ("one byte too few", piece(99)[..6].to_vec(), Way::ClusterLong),
        ("one byte too few of many", cluster3(99, 1, &[1; 300])[..306].to_vec(), Way::ClusterLong),
        ("two bytes of a length too short", vec![2, 0], Way::ClusterShort),
    ] {
        cases.refuse(name, way, |third| {
            third.clusters.push(bytes);
            third.cluster_place(4)
        });
    }
    cases.refuse("one byte alone", Way::ClusterCut, |third| {
        third.clusters = vec![vec![0]];
        0
    });
    cases.refuse("a buffer one byte short", Way::ClusterLong, |third| {
        third.clusters[3].pop();
        third.cluster_place(3)
    });
    cases.refuse("a middle one repeated", Way::ClusterTwice, |third| {
        third.clusters[1] = stereo(1);
        third.cluster_place(1)
    });
}

/// Buffers that tile, of up to 8,192 bytes.
fn kept_buffers(cases: &mut Cases) {
    let kept: [(&str, Vec<u8>); 7] = [
        ("seven bytes", piece(99)),
        ("256 bytes", cluster3(99, 1, &[1; 249])),
        ("263 bytes", cluster3(99, 1, &[1; 256])),
        ("an ID whose low byte is 0", piece(0x0200)),
        ("an ID whose low byte another has", piece(0x0101)),
        ("an ID whose high byte another has", piece(0x0302)),
        ("another type and subtype", vec![7, 0, 0x99, 0x77, 99, 0, 1]),
    ];
    for (name, bytes) in kept {
        for at in [0, 2, 4] {
            cases.keep(name, |third| third.clusters.insert(at, bytes.clone()));
        }
    }
    let used = console().buffer().len();
    cases.keep("8,192 bytes of clusters", |third| {
        third.clusters.push(cluster3(0xFFFF, 1, &vec![0; STEP - used - 7]));
    });
    cases.keep("four hundred clusters", |third| {
        third.clusters.splice(0..0, (0..400).map(|id| piece(0x1000 + id)));
    });
    cases.refuse("four hundred clusters, the last repeated", Way::ClusterTwice, |third| {
        third.clusters.splice(0..0, (0..400).map(|id| piece(0x1000 + id)));
        third.clusters.push(piece(0x1000 + 399));
        third.cluster_place(404)
    });
}

/// Rule 9, each kind's length one off.
fn layouts(cases: &mut Cases) {
    let lengths: [(usize, usize, Way); 5] = [
        (MICROPHONE, 20, Way::InputTerminalLengthIn3),
        (RECORDING, 19, Way::OutputTerminalLengthIn3),
        (SELECTOR, 13, Way::SelectorLengthIn3),
        (CLOCK, 12, Way::ClockLength),
        (LINE, 20, Way::InputTerminalLengthIn3),
    ];
    for (index, right, way) in lengths {
        for length in [4, 5, 9, right - 1, right + 1, 255] {
            let part = console().plan.parts[index].resized(length);
            let name = format!("{}, {length} long", way.words());
            cases.refuse_part(&name, way, index, part);
        }
    }
    for length in [2, 3] {
        for index in 0..11 {
            let part = console().plan.parts[index].resized(length);
            cases.refuse_part("too few for a kind and an ID", Way::KindAbsentIn3, index, part);
        }
    }
    for length in [4, 12, 14] {
        let part = console().plan.parts[MIXER].resized(length);
        cases.refuse_part("a Mixer too short", Way::MixerLengthIn3, MIXER, part);
    }
    let part = console().plan.parts[MIXER].resized(15);
    cases.refuse_part("a Mixer of 13+p", Way::MixerControlsIn3, MIXER, part);
    for length in [4, 5, 6] {
        let part = console().plan.parts[FEATURE].resized(length);
        cases.refuse_part("a Feature Unit too short", Way::FeatureLengthIn3, FEATURE, part);
    }
    let part = console().plan.parts[FEATURE].resized(7);
    cases.refuse_part("a Feature Unit of 7", Way::FeatureMasksIn3, FEATURE, part);
}

/// Rule 9 for pins: 1 to 24.
fn pins(cases: &mut Cases) {
    for p in [0, 25, 26, 255] {
        let sources = vec![1; p];
        if p < 200 {
            let part = selector3(5, &sources);
            cases.refuse_part("a Selector's pins", Way::SelectorPinsIn3, SELECTOR, part);
            let part = mixer3(3, &sources, 1, (2 * p * 2usize).div_ceil(8));
            cases.refuse_part("a Mixer's pins", Way::MixerPinsIn3, MIXER, part);
        }
        cases.refuse_byte("a Selector's p", Way::SelectorPinsIn3, SELECTOR, 4, p as u8);
        cases.refuse_byte("a Mixer's p", Way::MixerPinsIn3, MIXER, 4, p as u8);
    }
    for p in [1, 8, 9, 24] {
        let sources: Vec<u8> = (0..p).map(|pin| 1 + pin as u8 % 2).collect();
        let mut third = console();
        third.plan.parts[SELECTOR] = selector3(5, &sources);
        third.plan.parts[MIXER] = mixer3(3, &sources, 1, (2 * p * 2usize).div_ceil(8));
        cases.keep_plan("up to 24 pins", &third);
    }
    for p in [1, 3] {
        cases.refuse_byte("a pin more or less", Way::SelectorLengthIn3, SELECTOR, 4, p);
    }
}

/// Rule 9 for other subtypes; the lengths of 1.0's layouts, and the printed Selector's, are none here.
fn other_layouts(cases: &mut Cases) {
    for length in [6 + 2, 7 + 2, 11 + 3] {
        let part = console().plan.parts[SELECTOR].with(5, 0).resized(length);
        cases.refuse_part("a Selector of another layout", Way::SelectorLengthIn3, SELECTOR, part);
    }
    let part = console().plan.parts[MICROPHONE].resized(12);
    cases.refuse_part("1.0's Input", Way::InputTerminalLengthIn3, MICROPHONE, part);
    let part = console().plan.parts[SPEAKER].resized(9);
    cases.refuse_part("1.0's Output", Way::OutputTerminalLengthIn3, SPEAKER, part);
    let others = [0, 1, 4, 8, 9, 0x0A, 0x0C, 0x0D, 0x0E, 0x0F, 0x10, 0x11, 0x15, 0x82, 0xFF];
    for subtype in others {
        let index = usize::from(subtype) % 11;
        cases.refuse_byte("another subtype", Way::KindUnknownIn3, index, 2, subtype);
        cases.refuse_byte("another subtype", Way::KindUnknownIn3, MIXER, 2, subtype);
    }
    cases.refuse("two, the first by place", Way::KindUnknownIn3, |third| {
        third.plan.parts[TRIM] = third.plan.parts[TRIM].resized(6);
        third.plan.parts[SPEAKER] = third.plan.parts[SPEAKER].with(2, 4);
        third.part_place(SPEAKER)
    });
}

/// Rule 10.
fn ids(cases: &mut Cases) {
    for index in [MICROPHONE, CLOCK, TRIM] {
        cases.refuse_byte("an ID of 0", Way::IdZeroIn3, index, 3, 0);
    }
    cases.refuse_byte("an Input's ID again", Way::IdRepeatedIn3, PLAYBACK, 3, 1);
    cases.refuse_byte("a clock with a unit's ID", Way::IdRepeatedIn3, CLOCK, 3, 5);
    cases.refuse_byte("a unit with a clock's ID", Way::IdRepeatedIn3, TRIM, 3, 9);
    cases.refuse_byte("two clocks of one ID", Way::IdRepeatedIn3, SPARE_CLOCK, 3, 9);
    cases.refuse("0 before a repeated one", Way::IdZeroIn3, |third| {
        third.plan.parts[FEATURE] = third.plan.parts[FEATURE].with(3, 0);
        third.plan.parts[TRIM] = third.plan.parts[TRIM].with(3, 1);
        third.part_place(FEATURE)
    });
    cases.refuse("a repeated one before 0", Way::IdRepeatedIn3, |third| {
        third.plan.parts[FEATURE] = third.plan.parts[FEATURE].with(3, 1);
        third.plan.parts[TRIM] = third.plan.parts[TRIM].with(3, 0);
        third.part_place(FEATURE)
    });
}

/// Rule 11 by pins: "a source ID is 0, unknown, or an Output Terminal's", or a Clock Source's.
fn sources(cases: &mut Cases) {
    let places = [
        (MIXER, 5),
        (MIXER, 6),
        (FEATURE, 4),
        (SELECTOR, 5),
        (SELECTOR, 6),
        (RECORDING, 7),
        (TRIM, 4),
    ];
    for (index, at) in places {
        for (name, way, source) in [
            ("a source of 0", Way::SourceZeroIn3, 0),
            ("an unknown source", Way::SourceUnknownIn3, 200),
            ("a source that is not read", Way::SourceUnknownIn3, SKIPPED),
            ("an Output Terminal as a source", Way::SourceOutputIn3, 7),
            ("itself or another Output", Way::SourceOutputIn3, 6),
            ("a Clock Source as a source", Way::SourceClock, 9),
            ("the other Clock Source as a source", Way::SourceClock, 10),
        ] {
            cases.refuse_byte(name, way, index, at, source);
        }
    }
    let mut third = console();
    third.plan.parts[SELECTOR] = selector3(5, &[[2; 23].as_slice(), &[9]].concat());
    let place = third.part_place(SELECTOR);
    cases.refuse_plan("the 24th pin", &third, Way::SourceClock, place);
}

/// Rule 11 by clocks: "A Terminal's clock ID names a Clock Source".
fn clocks(cases: &mut Cases) {
    for (index, at) in [(MICROPHONE, 7), (PLAYBACK, 7), (LINE, 7), (RECORDING, 8), (SPEAKER, 8)] {
        for (name, way, clock) in [
            ("a clock of 0", Way::ClockZero, 0),
            ("an unknown clock", Way::ClockUnknown, 200),
            ("a clock that is not read", Way::ClockUnknown, SKIPPED),
            ("an Input Terminal for a clock", Way::ClockOther, 1),
            ("a Mixer for a clock", Way::ClockOther, 3),
            ("a Feature Unit for a clock", Way::ClockOther, 4),
            ("a Selector for a clock", Way::ClockOther, 5),
            ("an Output Terminal for a clock", Way::ClockOther, 6),
            ("another Output Terminal for a clock", Way::ClockOther, 7),
        ] {
            cases.refuse_byte(name, way, index, at, clock);
        }
    }
    for index in [CLOCK, SPARE_CLOCK] {
        for reference in [0, 1, 6, 9, 200] {
            cases.keep("what a clock is derived from", |third| {
                third.plan.parts[index] = third.plan.parts[index].with(9, reference);
            });
        }
    }
    // "First" is by the entity's place, over pins and clocks alike.
    let both = [
        (Way::ClockZero, (PLAYBACK, 7, 0), (FEATURE, 4, 0)),
        (Way::SourceZeroIn3, (FEATURE, 4, 0), (LINE, 7, 0)),
        (Way::SourceUnknownIn3, (MIXER, 6, 200), (RECORDING, 8, 200)),
        (Way::ClockOther, (RECORDING, 8, 5), (TRIM, 4, 9)),
    ];
    for (way, (index, at, byte), (later, other, wrong)) in both {
        cases.refuse("pins and clocks, the first by place", way, |third| {
            third.plan.parts[later] = third.plan.parts[later].with(other, wrong);
            third.plan.parts[index] = third.plan.parts[index].with(at, byte);
            third.part_place(index)
        });
    }
    cases.refuse("a pin and a clock of one entity", Way::SourceUnknownIn3, |third| {
        third.plan.parts[SPEAKER] = third.plan.parts[SPEAKER].with(7, 200).with(8, 0);
        third.part_place(SPEAKER)
    });
}

/// Rule 12: "some upstream chain of sources is longer than 32 steps".
fn chains(cases: &mut Cases) {
    cases.refuse_byte("a Feature Unit sourcing itself", Way::ChainOnLoopIn3, FEATURE, 4, 4);
    cases.refuse_byte("a Mixer sourcing itself", Way::ChainOnLoopIn3, MIXER, 6, 3);
    cases.refuse_byte("a Selector sourcing itself", Way::ChainOnLoopIn3, SELECTOR, 6, 5);
    cases.refuse("a loop of two", Way::ChainOnLoopIn3, |third| {
        third.plan.parts[MIXER] = third.plan.parts[MIXER].with(5, 4);
        third.part_place(MIXER)
    });
    cases.refuse("below a loop, and first by place", Way::ChainBelowLoopIn3, |third| {
        third.plan.parts[FEATURE] = third.plan.parts[FEATURE].with(4, 4);
        third.plan.parts.swap(MICROPHONE, RECORDING);
        third.part_place(MICROPHONE)
    });
    let chain = |from: u8| {
        let mut parts = vec![clock3(40), input3(41, 40, 1), output3(30, 29, 40)];
        parts.extend((1..=29).map(|id| feature3(id, if id == 1 { from } else { id - 1 }, 1)));
        Third::new(parts, vec![], vec![mono(1)])
    };
    cases.keep_plan("the longest chain", &chain(41));
    let mut turned = chain(41);
    turned.plan.parts.reverse();
    cases.keep_plan("the longest chain, sources after users", &turned);
    let round = chain(29);
    let place = round.part_place(2);
    cases.refuse_plan("a loop of 29 with one below", &round, Way::ChainBelowLoopIn3, place);
    let mut ladder = vec![clock3(40), input3(1, 40, 1)];
    ladder.extend((2..=31).map(|id| selector3(id, &[id - 1; 2])));
    cases.keep_plan("a ladder of Selectors", &Third::new(ladder, vec![], vec![mono(1)]));
}

/// Rule 52: "at the first entity whose cluster ID is unknown".
fn cluster_ids(cases: &mut Cases) {
    let unknown: [(usize, usize, u8, u8); 9] = [
        (MICROPHONE, 12, 0, 0),
        (MICROPHONE, 12, 1, 1),
        (MICROPHONE, 12, 3, 0),
        (MICROPHONE, 12, SKIPPED, SKIPPED),
        (LINE, 12, 1, 2),
        (LINE, 12, 3, 1),
        (MIXER, 7, 0, 0),
        (MIXER, 7, 1, 1),
        (MIXER, 7, 0xFF, 0xFF),
    ];
    for (index, at, low, high) in unknown {
        let way = if index == MIXER { Way::MixerCluster } else { Way::InputCluster };
        let part = console().plan.parts[index].with(at, low).with(at + 1, high);
        cases.refuse_part("an unknown cluster", way, index, part);
    }
    cases.refuse("an empty buffer", Way::InputCluster, |third| {
        third.clusters.clear();
        third.part_place(MICROPHONE)
    });
    for (gone, index, way) in [
        (STEREO, MICROPHONE, Way::InputCluster),
        (TWIN, PLAYBACK, Way::InputCluster),
        (MONO, LINE, Way::InputCluster),
    ] {
        cases.refuse("a cluster that is gone", way, |third| {
            third.clusters.remove(gone);
            third.part_place(index)
        });
    }
    cases.refuse("a Mixer before an Input", Way::MixerCluster, |third| {
        third.plan.parts[MIXER] = third.plan.parts[MIXER].with(7, 77);
        third.plan.parts[LINE] = third.plan.parts[LINE].with(12, 77);
        third.part_place(MIXER)
    });
    cases.keep("clusters in another order", |third| third.clusters.reverse());
    cases.keep("an ID of two bytes", |third| {
        third.clusters.push(mono(0xFFFE));
        third.plan.parts[LINE] = third.plan.parts[LINE].with(12, 0xFE).with(13, 0xFF);
    });
}

/// Rule 13 for c: "c stays 1 to 16", asked where an Input Terminal or a Mixer names it.
fn channels(cases: &mut Cases) {
    for c in [0, 1, 2, 7, 15, 16, 17, 18, 50, 255] {
        let in_range = (1..=16).contains(&c);
        let mut third = console();
        third.clusters[MONO][6] = c;
        if c < 60 {
            third.plan.parts[TRIM] = feature3(11, 8, usize::from(c));
        }
        let way = if c == 0 { Way::InputChannelsZeroIn3 } else { Way::InputChannelsHighIn3 };
        match in_range {
            true => cases.keep_plan("an Input Terminal's c", &third),
            false => {
                let place = third.part_place(LINE);
                cases.refuse_plan("an Input Terminal's c", &third, way, place);
            }
        }
        // A Mixer with a cluster of its own, its length right by what it declares.
        let mut third = console();
        third.clusters.push(cluster3(50, c, &[]));
        let n = (4 * usize::from(c)).div_ceil(8);
        third.plan.parts[MIXER] = mixer3(3, &[1, 2], 50, n);
        third.plan.parts[SELECTOR] = selector3(5, &[4, 4]);
        if c < 60 {
            third.plan.parts[FEATURE] = feature3(4, 3, usize::from(c));
        }
        let way = if c == 0 { Way::MixerChannelsZeroIn3 } else { Way::MixerChannelsHighIn3 };
        match in_range {
            true => cases.keep_plan("a Mixer's c", &third),
            false => {
                let place = third.part_place(MIXER);
                cases.refuse_plan("a Mixer's c", &third, way, place);
            }
        }
        // A cluster that nobody names.
        cases.keep("an unnamed cluster's c", |third| third.clusters.push(cluster3(60, c, &[1; 4])));
    }
    cases.refuse(
        "both Input Terminals' c, the first by place",
        Way::InputChannelsZeroIn3,
        |third| {
            third.clusters[STEREO][6] = 0;
            third.clusters[MONO][6] = 17;
            third.part_place(MICROPHONE)
        },
    );
}

/// Rule 13 for the lengths of Mixers and Feature Units, by what enters.
fn lengths(cases: &mut Cases) {
    for length in [11, 12, 14, 16, 17, 19, 23, 28, 29] {
        let mut third = console();
        third.plan.parts[TRIM] = third.plan.parts[TRIM].resized(length);
        let place = third.part_place(TRIM);
        cases.refuse_plan("a Feature Unit's length", &third, Way::FeatureMasksIn3, place);
    }
    for length in [15, 17, 18, 40] {
        let part = console().plan.parts[MIXER].resized(length);
        cases.refuse_part("a Mixer's length", Way::MixerControlsIn3, MIXER, part);
    }
}

/// Rule 13 for a Mixer: N is i·c/8 rounded up, where i channels enter in all.
fn mixers(cases: &mut Cases) {
    for (pins, c) in
        [(1, 1), (8, 1), (9, 1), (4, 2), (3, 3), (16, 1), (17, 1), (24, 16), (5, 16), (7, 9)]
    {
        let n = (pins * c as usize).div_ceil(8);
        let with = |n: usize| {
            let parts = vec![
                clock3(9),
                mixer3(3, &vec![1; pins], 6, n),
                input3(1, 9, 5),
                feature3(4, 3, usize::from(c)),
                output3(7, 4, 9),
            ];
            Third::new(parts, vec![], vec![mono(5), cluster3(6, c, &[])])
        };
        let shows = [
            record(9, 0x0B, 0, &[]),
            record(3, 4, c, &vec![1; pins]),
            record(1, 2, 1, &[]),
            record(4, 6, c, &[3]),
            record(7, 3, c, &[4]),
        ];
        cases.keep_shown("a Mixer's N", &with(n), &shows);
        for wrong in [n - 1, n + 1] {
            let third = with(wrong);
            let place = third.part_place(1);
            cases.refuse_plan("a Mixer's N, one off", &third, Way::MixerControlsIn3, place);
        }
    }
}

/// What enters comes through Selectors and Feature Units, wherever they stand; and "Each rule reads the
/// declared bytes, even where those break a rule themselves."
fn entering(cases: &mut Cases) {
    for c in [1, 3, 16] {
        let with = |own: usize| {
            let parts = vec![
                feature3(5, 4, own),
                selector3(4, &[3, 3]),
                feature3(3, 2, usize::from(c)),
                input3(2, 9, 1),
                clock3(9),
            ];
            Third::new(parts, vec![], vec![cluster3(1, c, &[])])
        };
        cases.keep_plan("through a Selector and a Feature Unit", &with(usize::from(c)));
        for wrong in [usize::from(c) - 1, usize::from(c) + 1] {
            let third = with(wrong);
            let place = third.part_place(0);
            cases.refuse_plan("its own length is not taken", &third, Way::FeatureMasksIn3, place);
        }
    }
    let with = |c: u8| {
        let parts = vec![
            clock3(9),
            feature3(5, 2, usize::from(c)),
            mixer3(3, &[2, 2], 7, (2 * usize::from(c)).div_ceil(8)),
            input3(2, 9, 1),
        ];
        Third::new(parts, vec![], vec![cluster3(1, c, &[]), mono(7)])
    };
    for (c, way) in [(0, Way::InputChannelsZeroIn3), (17, Way::InputChannelsHighIn3)] {
        let third = with(c);
        let place = third.part_place(3);
        cases.refuse_plan("rules of others read a c that is none", &third, way, place);
    }
}

/// A Selector of these pins over an Input Terminal for each of these clusters, with IDs from 1 on.
fn selected_from(clusters: Vec<Vec<u8>>, pins: &[u8]) -> Third {
    let mut parts = vec![clock3(100), selector3(50, pins), output3(51, 50, 100)];
    for (index, cluster) in clusters.iter().enumerate() {
        let id = u16::from_le_bytes([cluster[4], cluster[5]]);
        parts.push(input3(1 + index as u8, 100, id));
    }
    Third::new(parts, vec![], clusters)
}

/// A cluster of two channels with one byte made another.
fn changed(at: usize, byte: u8) -> Vec<u8> {
    let mut other = cluster3(6, 2, &[1, 2, 3, 4]);
    other[at] = byte;
    other
}

/// Rule 13 for a Selector: "Selector pins must have the same cluster content, all bytes but the ID".
fn selectors(cases: &mut Cases) {
    let with = selected_from;
    let one = cluster3(5, 2, &[1, 2, 3, 4]);
    let alike = [cluster3(6, 2, &[1, 2, 3, 4]), cluster3(0x0500, 2, &[1, 2, 3, 4])];
    for other in alike {
        for pins in [&[1, 2][..], &[2, 1], &[1, 2, 1, 2], &[1, 1], &[2]] {
            cases.keep_plan(
                "the same content, another ID",
                &with(vec![one.clone(), other.clone()], pins),
            );
        }
    }
    let unlike = [
        ("another type", changed(2, 0x27)),
        ("another subtype", changed(3, 1)),
        ("another c", changed(6, 3)),
        ("the same c, another first byte", changed(7, 9)),
        ("the same c, another last byte", changed(10, 9)),
        ("longer", cluster3(6, 2, &[1, 2, 3, 4, 0])),
        ("shorter", cluster3(6, 2, &[1, 2, 3])),
        ("header alone", cluster3(6, 2, &[])),
        ("256 longer", cluster3(6, 2, &[&[1, 2, 3, 4][..], &[0; 256]].concat())),
    ];
    for (name, other) in unlike {
        for pins in [&[1, 2][..], &[2, 1], &[1, 1, 2], &[2, 2, 1, 2]] {
            let third = with(vec![one.clone(), other.clone()], pins);
            let place = third.part_place(1);
            cases.refuse_plan(name, &third, Way::SelectorContent, place);
        }
        cases.keep_plan(name, &with(vec![one.clone(), other.clone()], &[2, 2]));
    }
    // Unlike at the last of 24 pins alone.
    let mut pins = vec![1; PINS];
    pins[PINS - 1] = 2;
    let third = with(vec![one, changed(10, 9)], &pins);
    let place = third.part_place(1);
    cases.refuse_plan("the 24th pin alone", &third, Way::SelectorContent, place);
}

/// A cluster that many name, and unlike pins further up or with other entities below.
fn selectors_among_others(cases: &mut Cases) {
    let one = cluster3(5, 2, &[1, 2, 3, 4]);
    let parts = vec![
        clock3(9),
        input3(1, 9, 5),
        input3(2, 9, 5),
        mixer3(3, &[1, 2], 5, 1),
        selector3(4, &[3, 2, 1]),
    ];
    cases.keep_plan("a cluster named three times", &Third::new(parts, vec![], vec![one.clone()]));
    // Unlike pins are refused at the Selector; what is below it reads pin 1's.
    let below = |c: usize, first: bool| {
        let mut parts = vec![clock3(9), input3(1, 9, 5), input3(2, 9, 6), selector3(4, &[1, 2])];
        let feature = feature3(5, 4, c);
        parts.insert(if first { 3 } else { 4 }, feature);
        Third::new(parts, vec![], vec![mono(5), stereo(6)])
    };
    for (c, first, way, index) in [
        (1, true, Way::SelectorContent, 4),
        (1, false, Way::SelectorContent, 3),
        (2, true, Way::FeatureMasksIn3, 3),
        (2, false, Way::SelectorContent, 3),
    ] {
        let third = below(c, first);
        cases.refuse_plan("below unlike pins", &third, way, third.part_place(index));
    }
    // A Selector over Selectors, unlike two levels up.
    let parts = vec![
        clock3(9),
        input3(1, 9, 5),
        input3(2, 9, 6),
        selector3(10, &[11, 12]),
        selector3(11, &[1]),
        selector3(12, &[2, 2]),
    ];
    let third = Third::new(parts, vec![], vec![one, changed(7, 9)]);
    let place = third.part_place(3);
    cases.refuse_plan("unlike through Selectors", &third, Way::SelectorContent, place);
}

/// "Rules 7, 14, 15 and 17 are not applied."
fn not_applied(cases: &mut Cases) {
    cases.keep("the desk's groups, none listed", |third| {
        third.plan.groups = desk().groups;
        third.plan.control_after = 0;
        third.plan.control[2] = 9;
    });
    for case in configs::all() {
        let streaming = case.expect.is_some_and(|(way, _)| way.number() == 14);
        if let Some((_, place)) = case.expect.filter(|_| streaming) {
            let behind = descriptors_behind(&case.bytes, place);
            cases.keep(&case.name, |third| {
                third.plan.groups.clear();
                third.plan.control_after = 0;
                third.plan.control[2] = 99;
                third.plan.tail = vec![behind];
            });
        }
    }
    let parts = vec![
        clock3(9),
        input3(1, 9, 1),
        feature3(2, 1, 16),
        feature3(3, 1, 16),
        feature3(4, 3, 16),
        output3(5, 4, 9),
    ];
    cases.keep_plan(
        "far more than 128 controls",
        &Third::new(parts, vec![], vec![cluster3(1, 16, &[])]),
    );
    let part = console().plan.parts[SELECTOR].with(5, 0);
    cases.refuse_part("a source of 0 is no pad", Way::SourceZeroIn3, SELECTOR, part);
}

/// The bytes of the group that stands at this place.
fn descriptors_behind(bytes: &[u8], place: usize) -> Vec<u8> {
    let mut end = place + usize::from(bytes[place]);
    while end < bytes.len() && bytes[end + 1] != 4 {
        end += usize::from(bytes[end]);
    }
    bytes[place..end].to_vec()
}

/// "Order carries no meaning", of the run and of the buffer.
fn orders(cases: &mut Cases) {
    let mut rng = Rng::new(12);
    cases.keep("the console's run turned round", |third| third.plan.parts.reverse());
    for _ in 0..12 {
        cases.keep("the console shuffled", |third| {
            rng.shuffle(&mut third.plan.parts);
            rng.shuffle(&mut third.clusters);
        });
        let mut third = basic_headset(Basic::Taken, 2);
        rng.shuffle(&mut third.plan.parts);
        cases.keep_plan("003's headset shuffled", &third);
    }
}

/// A change of the console that breaks one rule, and what tells the place once all is done.
type Breach = (Way, fn(&mut Third), fn(&Third) -> usize);

/// Changes that break one rule each, in the order of the rules.
fn breaches() -> Vec<Breach> {
    fn byte(third: &mut Third, index: usize, at: usize, byte: u8) {
        third.plan.parts[index] = third.plan.parts[index].with(at, byte);
    }
    vec![
        (
            Way::InterfaceLength,
            |third| {
                third.plan.groups[0].interface.push(0);
                third.plan.groups[0].interface[0] = 10;
            },
            |third| third.plan.group_place(0),
        ),
        (
            Way::HeaderLengthIn3,
            |third| third.plan.header = Some(class(&[1, 4, 0, 0, 0, 0, 0])),
            Third::header_place,
        ),
        (Way::TotalWrongIn3, |third| third.plan.total = Some(10), Third::header_place),
        (
            Way::ManyEntitiesIn3,
            |third| third.plan.parts.extend((100..122).map(clock3)),
            Third::header_place,
        ),
        (
            Way::ClusterTwice,
            |third| third.clusters.push(mono(2)),
            |third| third.cluster_place(third.clusters.len() - 1),
        ),
        (
            Way::OutputTerminalLengthIn3,
            |third| third.plan.parts[SPEAKER] = third.plan.parts[SPEAKER].resized(9),
            |third| third.part_place(SPEAKER),
        ),
        (
            Way::IdRepeatedIn3,
            |third| byte(third, SPARE_CLOCK, 3, 1),
            |third| third.part_place(SPARE_CLOCK),
        ),
        (
            Way::SourceClock,
            |third| byte(third, RECORDING, 7, 9),
            |third| third.part_place(RECORDING),
        ),
        (
            Way::ChainOnLoopIn3,
            |third| byte(third, FEATURE, 4, 4),
            |third| third.part_place(FEATURE),
        ),
        (Way::MixerCluster, |third| byte(third, MIXER, 8, 9), |third| third.part_place(MIXER)),
        (
            Way::InputChannelsHighIn3,
            |third| third.clusters[STEREO][6] = 17,
            |third| third.part_place(MICROPHONE),
        ),
    ]
}

/// Two rules broken at once: the order is 1 to 6, 8, 51, 9, 10, 11, 12, 52, 13.
fn pairs(cases: &mut Cases) {
    let breaches = breaches();
    for (first, (way, change, place)) in breaches.iter().enumerate() {
        for (other_way, other, _) in &breaches[first..] {
            let mut third = console();
            if way != other_way {
                other(&mut third);
            }
            change(&mut third);
            let name = format!("{} and {}", way.number(), other_way.number());
            cases.refuse_plan(&name, &third, *way, place(&third));
        }
    }
}

/// Plans whose answer hangs on the lent sheet alone, for rule 16, of every count of entities.
pub fn of_each_count() -> Vec<Third> {
    let mut all =
        vec![console(), basic_headset(Basic::Taken, 2), basic_microphone(Basic::Taken, 1)];
    for count in 1..=ENTITIES {
        let mut parts = vec![clock3(200)];
        if count > 1 {
            parts.push(input3(201, 200, 3));
        }
        while parts.len() < count {
            let id = parts.len() as u8;
            parts.push(if id % 2 == 0 { feature3(id, 201, 2) } else { selector3(id, &[201; 3]) });
        }
        parts.reverse();
        all.push(Third::new(parts, vec![], vec![stereo(3)]));
    }
    all
}

#[cfg(test)]
mod tests {
    use super::*;
    use crate::edition3;
    use crate::numbers::SHEET;

    #[test]
    fn every_case_gets_its_answer() {
        for case in all() {
            let got = edition3::read(&case.config, &case.clusters, &mut [0; SHEET]);
            let way = got.err().map(|one| (one.way, one.place));
            assert_eq!(way, case.expect, "{}", case.name);
        }
    }
}
