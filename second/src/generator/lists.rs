//! Steps of `writer` (document 02, No. 9): lists of entities made on purpose, each with its answer,
//! the header and run of every configuration made on purpose taken apart, and lists at random.

use std::collections::BTreeSet;

use super::build::{case_a, idle, interface, microphone, telephone, Part, Telephone};
use super::configs::{self, desk, feature, input, mixer, output, selector};
use super::random;
use super::rng::Rng;
use super::script::Reach;
use super::tape::Tape;
use crate::cut;
use crate::lend;
use crate::numbers::{COLLECTION, CONFIGURATION_MOST, ENTITIES, FIELDS, MARK, ROOM};
use crate::reader;
use crate::relay::Printed;
use crate::ways::Way;
use crate::writer::{self, List};

/// Lists at random.
const RANDOM: usize = 400;
/// A cluster of one channel.
const ONE: (u8, u16, u8) = (1, 0, 0);
/// The clauses that the writer alone gives.
const OWN: [Way; 6] = [
    Way::EntityLong,
    Way::EntityPadded,
    Way::EntityPrintedWrong,
    Way::EntityPrinted,
    Way::CollectionLong,
    Way::BufferShort,
];

/// One step's bytes.
pub fn list_bytes(m: usize, list: &List) -> Vec<u8> {
    let number = |n: usize| (n as u16).to_le_bytes();
    let counted = |bytes: &Vec<u8>| [&number(bytes.len())[..], bytes].concat();
    let entities: Vec<u8> = list.entities.iter().flat_map(counted).collect();
    let count = list.entities.len() as u8;
    [&number(m)[..], &counted(&list.collection), &[count], &entities].concat()
}

/// The list of these parts: of each descriptor what stands behind its length and its type.
fn list(collection: &[u8], parts: &[Part]) -> List {
    let entities = parts.iter().map(|part| part.bytes()[2..].to_vec()).collect();
    List { collection: collection.to_vec(), entities }
}

/// The list whose header and run a configuration has; none if it has none, by 1 to 7. A printed
/// Selector goes by its kind in the list, and its byte 0 goes; so a descriptor that has this kind
/// itself, which is no kind to the reader, has no place in a list.
pub fn taken_apart(config: &[u8]) -> Option<List> {
    let cut = cut::cut_whatever_run(config).ok()?;
    if cut.run.iter().any(|one| one.bytes.get(2) == Some(&0x15)) {
        return None;
    }
    let fields = |bytes: &[u8]| match bytes {
        [length, _, 5, id, p @ 1..=24, 0, rest @ ..] if *length == 7 + p => {
            [&[0x15, *id, *p], rest].concat()
        }
        _ => bytes[2..].to_vec(),
    };
    let entities = cut.run.iter().map(|one| fields(one.bytes)).collect();
    Some(List { collection: cut.header.bytes[8..].to_vec(), entities })
}

/// The header and the run of a configuration, as they stand.
fn header_and_run(config: &[u8]) -> Vec<u8> {
    let cut = cut::cut_whatever_run(config).expect("a header and a run");
    let run = cut.run.iter().flat_map(|one| one.bytes.to_vec());
    cut.header.bytes.iter().copied().chain(run).collect()
}

/// What is written, "set within a configuration that keeps the remaining rules, is read back as the
/// same list". A list of numbers that 7 would refuse is not set within one, nor one that 1 would.
fn read_back(list: &List, written: &[u8]) {
    let numbers: BTreeSet<u8> = list.collection.iter().copied().collect();
    let Some(own) = (0..=255).find(|number| !numbers.contains(number)) else { return };
    let groups: Vec<u8> = numbers.iter().flat_map(|&number| idle(number, 0).interface).collect();
    let opening = [vec![9, 2, 0, 0, 0, 1, 0, 0x80, 0x32], interface(own, 0, 0, 1, 1)].concat();
    let mut config = [&opening, written, &groups].concat();
    let length = (config.len() as u16).to_le_bytes();
    config[2..4].copy_from_slice(&length);
    if numbers.len() < list.collection.len() || config.len() > CONFIGURATION_MOST {
        return;
    }
    assert_eq!(taken_apart(&config).as_ref(), Some(list));
    let way = reader::keep(&config).err().map(|refusal| refusal.way);
    assert!(matches!(way, None | Some(Way::ManyControls)), "{way:?}");
}

/// The steps while they are being written, with what the second program prints.
#[derive(Clone, Debug, Default)]
pub struct Lists {
    /// The steps, with what the program prints for them.
    pub tape: Tape,
    /// What was reached.
    pub reach: Reach,
    /// What was reached on purpose, before anything at random.
    pub named: Reach,
    /// Counts of entities, of collection numbers and of an entity's bytes that were written.
    counts: BTreeSet<usize>,
    collections: BTreeSet<usize>,
    lengths: BTreeSet<usize>,
    /// Indices at which each of 9 to 13 and 17 was given.
    places: BTreeSet<(u16, usize)>,
}

impl Lists {
    /// Adds a step; what is written has to be read back.
    pub fn step(&mut self, m: usize, list: &List) -> Printed {
        let printed = writer::step(m, list);
        if printed.way.is_none() {
            let mut lent = [0; ROOM];
            let count = writer::write(list, &mut lent).expect("written");
            read_back(list, &lent[..count]);
            self.counts.insert(list.entities.len());
            self.collections.insert(list.collection.len());
            self.lengths.extend(list.entities.iter().map(|entity| 2 + entity.len()));
        }
        self.tape.push(&list_bytes(m, list), &printed.lines);
        self.reach.count_list(&printed);
        printed
    }

    /// Adds a step that has to write these bytes and leave those past them.
    fn writes(&mut self, m: usize, list: &List, bytes: &[u8]) {
        let mut lent = vec![MARK; m];
        lent[..bytes.len()].copy_from_slice(bytes);
        let lines = format!("wrote {}\n{}", bytes.len(), lend::shown(&lent));
        assert_eq!(self.step(m, list).lines, lines);
    }

    /// Adds a step that has to be refused and to write nothing.
    fn refused(&mut self, m: usize, list: &List, way: Way, index: usize) {
        let printed = self.step(m, list);
        let lines = format!("refused {} at {index}\nrest {m}\n", way.number());
        assert_eq!((printed.way, printed.lines), (Some(way), lines));
        self.places.insert((way.number(), index));
    }

    /// Adds a list that is refused whatever the room.
    fn never(&mut self, list: &List, way: Way, index: usize) {
        for m in [0, ROOM] {
            self.refused(m, list, way, index);
        }
    }

    /// Adds a list with just enough room for these bytes, with more, with too little and with none.
    fn edges(&mut self, list: &List, bytes: &[u8]) {
        let need = bytes.len();
        for m in [need, need + 1, need + 16] {
            self.writes(m, list, bytes);
        }
        for m in [0, 1, 8, need / 2, need - 1] {
            self.refused(m, list, Way::BufferShort, 0);
        }
    }

    /// What the paper names and these steps do not reach; empty if all is well.
    pub fn missing(&self) -> Vec<String> {
        let mut missing = Vec::new();
        let entities = Way::ALL.iter().copied().filter(|way| way.is_of_entities());
        // A printed Selector goes by its kind in the list.
        for way in entities.filter(|&way| way != Way::SelectorPrinted).chain(OWN) {
            if !self.named.ways.contains_key(&way) {
                missing.push(format!("a list refused: {} {}", way.number(), way.words()));
            }
        }
        let counted = [
            ("entities", &self.counts, vec![1, 2, 3, 31, ENTITIES]),
            ("collection numbers", &self.collections, vec![0, 1, 2, 246, COLLECTION]),
            ("bytes of an entity", &self.lengths, vec![7, 9, 12, 253, 254, 255]),
        ];
        for (what, seen, wanted) in counted {
            for count in wanted.iter().filter(|count| !seen.contains(count)) {
                missing.push(format!("a list with {count} {what}, written"));
            }
        }
        for number in [9, 17, 10, 11, 12, 13] {
            for index in [0, 1, 2, ENTITIES - 1] {
                if !self.places.contains(&(number, index)) {
                    missing.push(format!("a list refused with {number} at {index}"));
                }
            }
        }
        missing
    }
}

/// All steps made on purpose, and more at random.
pub fn all(seed: u64) -> Lists {
    let mut lists = Lists::default();
    examples(&mut lists);
    apart(&mut lists);
    counts(&mut lists);
    long_entities(&mut lists);
    collections(&mut lists);
    printed_selectors(&mut lists);
    skipped_bytes(&mut lists);
    every_index(&mut lists);
    order(&mut lists);
    lists.named = lists.reach.clone();
    let mut rng = Rng::new(seed);
    for _ in 0..RANDOM {
        random(&mut rng, &mut lists);
    }
    lists
}

/// The papers' headers and runs, by the places at which the papers print them; each kind.
fn examples(lists: &mut Lists) {
    let (a, microphone) = (case_a(), microphone());
    let telephone = telephone(Telephone::Tables, 2, 0x61);
    for (config, from, to) in [(&a, 18, 57), (&microphone, 18, 48), (&telephone, 18, 115)] {
        lists.edges(&taken_apart(config).expect("a list"), &config[from..to]);
    }
    let plan = desk();
    let run: Vec<u8> = plan.parts.iter().flat_map(Part::bytes).collect();
    let head = [11, 0x24, 1, 0, 1, 11 + run.len() as u8, 0, 3, 1, 2, 3];
    lists.edges(&list(&[1, 2, 3], &plan.parts), &[&head[..], &run].concat());
    let one = list(&[], &[input(1, ONE)]);
    let bytes = [8, 0x24, 1, 0, 1, 20, 0, 0, 12, 0x24, 2, 1, 1, 2, 0, 1, 0, 0, 0, 0];
    lists.edges(&one, &bytes);
    lists.writes(ROOM, &one, &bytes);
    for size in 1..=4 {
        let masks = (1..=3 * size).collect();
        let parts = [input(1, (2, 3, 0)), Part::Feature { id: 2, source: 1, size, masks }];
        lists.step(ROOM, &list(&[], &parts));
    }
}

/// "every accepted header and run can be had from the writer, ... byte for byte", and what the reader
/// refuses with 8 to 13 or 17 the writer does, at the index of the entity that stands at the place.
fn apart(lists: &mut Lists) {
    let mut seen = BTreeSet::new();
    for case in configs::all() {
        let Some(list) = taken_apart(&case.bytes) else { continue };
        let step = list_bytes(0, &list);
        if !seen.insert(step.clone()) || step.len() > 1200 {
            continue;
        }
        match case.expect {
            Some((way, place)) if way.is_of_entities() => {
                let cut = cut::cut_whatever_run(&case.bytes).expect("1 to 7 are kept");
                let index = cut.run.iter().position(|one| one.place == place);
                let way = if way == Way::SelectorPrinted { Way::EntityPrinted } else { way };
                let index = if way.number() == 8 { 0 } else { index.expect("an entity") };
                lists.refused(step.len(), &list, way, index);
            }
            _ => {
                let bytes = header_and_run(&case.bytes);
                lists.writes(bytes.len(), &list, &bytes);
            }
        }
    }
}

/// 8: "no entity, or more than 32", before all else.
fn counts(lists: &mut Lists) {
    let inputs =
        |count: usize| -> Vec<Part> { (1..=count as u8).map(|id| input(id, ONE)).collect() };
    for count in [1, 2, 31, 32] {
        let bytes: Vec<u8> = inputs(count).iter().flat_map(Part::bytes).collect();
        let [low, high] = (8 + bytes.len() as u16).to_le_bytes();
        let head = [8, 0x24, 1, 0, 1, low, high, 0];
        lists.edges(&list(&[], &inputs(count)), &[&head[..], &bytes].concat());
    }
    for collection in [&[][..], &[1, 2], &[7; COLLECTION], &[7; COLLECTION + 1]] {
        lists.never(&list(collection, &[]), Way::NoEntity, 0);
        for count in [33, 34, 64, 255] {
            lists.never(&list(collection, &inputs(count)), Way::ManyEntities, 0);
        }
    }
    let nothing = |count| List { collection: vec![], entities: vec![vec![]; count] };
    lists.never(&nothing(33), Way::ManyEntities, 0);
    lists.never(&nothing(255), Way::ManyEntities, 0);
    lists.never(&nothing(32), Way::KindAbsent, 0);
    let longest = |count| List { collection: vec![], entities: vec![vec![2; FIELDS]; count] };
    lists.refused(ROOM, &longest(33), Way::ManyEntities, 0);
    lists.refused(ROOM, &longest(32), Way::EntityLong, 0);
}

/// Inputs of 16 channels and of so many, and a Mixer of 15 pins that eight channels leave, so that N
/// is the number of channels that enter: its length, 10+p+N, is that many more than 249.
fn long_mixer(more: u8) -> [Part; 3] {
    let sources = [vec![1; 14], vec![2]].concat();
    let mixer = mixer(3, &sources, 14 * 16 + usize::from(more), (8, 0, 0));
    [input(1, (16, 0, 0)), input(2, (more, 0, 0)), mixer]
}

/// "9 also for an entity that would pass 255 bytes", whatever else is wrong with it.
fn long_entities(lists: &mut Lists) {
    for more in [4, 5, 6] {
        let parts = long_mixer(more);
        let length = 249 + more;
        assert_eq!(parts[2].bytes()[0], length);
        let run: Vec<u8> = parts.iter().flat_map(Part::bytes).collect();
        let total = (9 + run.len() as u16).to_le_bytes();
        let head = [&[9, 0x24, 1, 0, 1][..], &total, &[1, 5]].concat();
        lists.edges(&list(&[5], &parts), &[head, run].concat());
    }
    too_long(lists);
    lengths_but_for_256(lists);
    long_and_wrong(lists);
    largest(lists);
}

/// The list of the Mixer of 255 bytes, with the entity of this index made so long, and changed.
fn long(index: usize, length: usize, change: impl Fn(&mut List)) -> List {
    let mut list = list(&[5], &long_mixer(6));
    list.entities[index].resize(length - 2, 0);
    change(&mut list);
    list
}

/// The Mixer of 255 bytes made longer, by bytes that are none of its own and by one that is.
fn too_long(lists: &mut Lists) {
    for length in [256, 257, 258, 268, 300, 511, 512, 513, 600, 602] {
        lists.never(&long(2, length, |_| {}), Way::EntityLong, 2);
    }
    // One channel more enters, and 10+p+N is 256.
    lists.never(&long(2, 256, |list| list.entities[1][5] = 7), Way::EntityLong, 2);
}

/// Lengths that are those of the kind but for 256, which no length byte tells from it; and 255, which
/// leaves an entity to its kind.
fn lengths_but_for_256(lists: &mut Lists) {
    for (index, length) in [(0, 268), (1, 268)] {
        lists.never(&long(index, length, |_| {}), Way::EntityLong, index);
    }
    let selector_and_feature = |at: usize, length: usize| {
        let parts = [input(1, ONE), selector(2, &[1, 1]), feature(3, 2, 1), output(4, 3)];
        let mut list = list(&[], &parts);
        list.entities[at].resize(length - 2, 0);
        list
    };
    for (at, length) in [(1, 264), (2, 265), (3, 265), (1, 256), (2, 256), (3, 256)] {
        lists.never(&selector_and_feature(at, length), Way::EntityLong, at);
    }
    lists.never(&selector_and_feature(1, 255), Way::SelectorLength, 1);
    lists.never(&selector_and_feature(2, 255), Way::FeatureMasks, 2);
    lists.never(&selector_and_feature(3, 255), Way::OutputTerminalLength, 3);
}

/// Whatever else is wrong with it, or with others behind it.
fn long_and_wrong(lists: &mut Lists) {
    let wrong: [&dyn Fn(&mut List); 6] = [
        &|list| list.entities[2][0] = 7,
        &|list| list.entities[2][0] = 0x15,
        &|list| list.entities[2][1] = 0,
        &|list| list.entities[2][3] = 3,
        &|list| list.entities[1][1] = 0,
        &|list| list.collection = vec![1; 300],
    ];
    for change in wrong {
        lists.never(&long(2, 256, change), Way::EntityLong, 2);
    }
    lists.never(&long(2, 256, |list| list.entities[0][0] = 0), Way::KindUnknown, 0);
    lists.never(&long(1, 256, |list| list.entities[2][0] = 0), Way::EntityLong, 1);
    lists.never(&long(1, FIELDS + 2, |list| list.entities[2].clear()), Way::EntityLong, 1);
}

/// The most bytes that these make: thirty Mixers of 255 bytes and 247 numbers.
fn largest(lists: &mut Lists) {
    let mut parts = long_mixer(6).to_vec();
    let bytes = parts[2].bytes();
    for id in 4..=ENTITIES as u8 {
        let mut mixer = bytes.clone();
        mixer[3] = id;
        parts.push(Part::Raw(mixer));
    }
    let numbers: Vec<u8> = (1..=247).collect();
    let most = list(&numbers, &parts);
    let run: Vec<u8> = parts.iter().flat_map(Part::bytes).collect();
    let total = (255 + run.len() as u16).to_le_bytes();
    let head = [&[255, 0x24, 1, 0, 1][..], &total, &[247], &numbers].concat();
    let bytes = [head, run].concat();
    assert_eq!(bytes.len(), 255 + 24 + 30 * 255);
    lists.writes(bytes.len(), &most, &bytes);
    lists.refused(bytes.len() - 1, &most, Way::BufferShort, 0);
}

/// 47: "the collection list has more than 247 numbers", which may be any, in any order.
fn collections(lists: &mut Lists) {
    let parts = [input(1, ONE), output(2, 1)];
    let run = parts.iter().flat_map(Part::bytes).collect::<Vec<u8>>();
    let rising = |count: usize| -> Vec<u8> { (0..count).map(|at| at as u8).collect() };
    let falling = |count: usize| -> Vec<u8> { rising(count).into_iter().rev().collect() };
    let repeated = |count: usize| vec![9; count];
    for count in [0, 1, 2, 3, 7, 8, 100, 246, 247] {
        for numbers in [rising(count), falling(count), repeated(count)] {
            let total = (8 + count as u16 + 21).to_le_bytes();
            let head = [&[8 + count as u8, 0x24, 1, 0, 1][..], &total, &[count as u8]].concat();
            let bytes = [&head[..], &numbers, &run].concat();
            lists.writes(bytes.len(), &list(&numbers, &parts), &bytes);
            lists.refused(bytes.len() - 1, &list(&numbers, &parts), Way::BufferShort, 0);
        }
    }
    for count in [248, 249, 255, 256, 257, 503, 504, FIELDS] {
        for numbers in [rising(count), repeated(count)] {
            lists.never(&list(&numbers, &parts), Way::CollectionLong, 0);
        }
    }
}

/// 17: a printed Selector goes by its kind; without a Selector's fields, or with a byte more, it is
/// a wrong layout, and so is a Selector with a byte more.
fn printed_selectors(lists: &mut Lists) {
    let with = |fields: &[u8]| {
        let mut list = list(&[], &[input(1, ONE), selector(2, &[1]), output(3, 2)]);
        list.entities[1] = fields.to_vec();
        list
    };
    let long: Vec<u8> = [&[0x15, 2, 24][..], &[1; 24], &[0]].concat();
    for fields in [&[0x15, 2, 1, 1, 0][..], &[0x15, 2, 2, 1, 1, 9], &[0x15, 0, 1, 0, 0], &long] {
        lists.never(&with(fields), Way::EntityPrinted, 1);
    }
    let more: Vec<u8> = [&[0x15, 2, 25][..], &[1; 25], &[0]].concat();
    let wrong: [&[u8]; 9] = [
        &[0x15, 2, 1, 0, 1, 0],
        &[0x15, 2, 1, 1, 1, 0],
        &[0x15, 2, 0, 0],
        &[0x15, 2, 0, 1, 0],
        &[0x15, 2, 1, 1],
        &[0x15, 2, 1],
        &[0x15, 2],
        &[0x15, 2, 255, 1, 0],
        &more,
    ];
    for fields in wrong {
        lists.never(&with(fields), Way::EntityPrintedWrong, 1);
    }
    lists.never(&with(&[0x15]), Way::EntityPrintedWrong, 1);
    for fields in [&[0x05, 2, 1, 0, 1, 0][..], &[0x05, 2, 2, 0, 1, 1, 0]] {
        lists.never(&with(fields), Way::EntityPadded, 1);
    }
    lists.never(&with(&[0x05, 2, 1, 1, 1, 0]), Way::SelectorPad, 1);
    // After 9, wherever it stands, and before 10.
    let printed = [0x15, 2, 1, 1, 0];
    let mut both = with(&printed);
    both.entities[2][0] = 0x25;
    lists.never(&both, Way::KindUnknown, 2);
    both.entities[2] = vec![0x15, 3, 1, 1, 0];
    lists.never(&both, Way::EntityPrinted, 1);
    both.entities[0][1] = 0;
    lists.never(&both, Way::EntityPrinted, 1);
    both.entities[0][0] = 1;
    lists.never(&both, Way::KindUnknown, 0);
}

/// "Bytes that the reader skips within an entity are fields too": associated terminals, names, type
/// and control bytes of every value, the last byte one that the room is full of.
fn skipped_bytes(lists: &mut Lists) {
    let skipped = [(0, 6), (0, 11), (1, 6), (1, 11), (2, 11), (2, 12), (3, 6), (3, 11), (3, 12)];
    let places = skipped.into_iter().chain([(4, 7), (5, 4), (5, 6), (5, 8), (6, 5), (8, 9)]);
    for (index, at) in places {
        for byte in [1, 0x24, MARK, 255] {
            let mut plan = desk();
            plan.parts[index] = plan.parts[index].with(at, byte);
            let bytes = header_and_run(&plan.bytes());
            lists.writes(bytes.len(), &list(&[1, 2, 3], &plan.parts), &bytes);
        }
    }
}

/// A change of one entity that one clause refuses.
type Breach = (Way, fn(&mut Vec<u8>));

/// Each of 9 to 13 and 17 at each index of the longest list, alone and with the same at the end.
fn every_index(lists: &mut Lists) {
    let breaches: [Breach; 6] = [
        (Way::KindUnknown, |entity| entity[0] = 0),
        (Way::EntityPrinted, |entity| entity[0] = 0x15),
        (Way::IdZero, |entity| entity[1] = 0),
        (Way::SourceUnknown, |entity| entity[3] = 255),
        (Way::ChainOnLoop, |entity| entity[3] = entity[1]),
        (Way::SelectorChannels, |entity| entity[4] = 201),
    ];
    let selectors = (1..=30).map(|id| selector(id, &[200, 200]));
    let ends = [input(200, ONE), input(201, (2, 0, 0))];
    for (way, breach) in breaches {
        for index in [0, 1, 2, 15, 30, 31] {
            let mut parts: Vec<Part> = ends.iter().cloned().chain(selectors.clone()).collect();
            // The two inputs stand in front of the Selectors, or behind them.
            if index < 2 {
                parts.rotate_left(2);
            }
            let mut list = list(&[], &parts);
            breach(&mut list.entities[index]);
            lists.never(&list, way, index);
            let later = if index < 2 { 29 } else { 31 };
            breach(&mut list.entities[later]);
            lists.never(&list, way, index);
        }
    }
}

/// A change of a list that one clause refuses, at this index.
type ListBreach = (Way, usize, fn(&mut List));

/// Two reasons at once: 8, 9, 17, 10, 11, 12, 13, 47, 48, whichever stands first in the list.
fn order(lists: &mut Lists) {
    let breaches: [ListBreach; 8] = [
        (Way::ManyEntities, 0, |list| list.entities.resize(33, vec![2, 77])),
        (Way::EntityLong, 6, |list| list.entities[6].resize(254, 0)),
        (Way::EntityPrinted, 7, |list| list.entities[7][0] = 0x15),
        (Way::IdRepeated, 8, |list| list.entities[8][1] = 4),
        (Way::SourceOutput, 5, |list| list.entities[5][5] = 7),
        (Way::ChainOnLoop, 3, |list| list.entities[3][2] = 4),
        (Way::InputOnes, 0, |list| list.entities[0][6] = 7),
        (Way::CollectionLong, 0, |list| list.collection = vec![1; 248]),
    ];
    for (first, (way, index, change)) in breaches.iter().enumerate() {
        let mut alone = list(&[1, 2, 3], &desk().parts);
        change(&mut alone);
        lists.never(&alone, *way, *index);
        for (_, _, other) in &breaches[first + 1..] {
            let mut both = list(&[1, 2, 3], &desk().parts);
            other(&mut both);
            change(&mut both);
            lists.never(&both, *way, *index);
        }
    }
}

/// Adds a list at random, with room near what is needed.
pub fn random(rng: &mut Rng, lists: &mut Lists) {
    let mut list = some_list(rng);
    for _ in 0..*rng.pick(&[0, 0, 0, 1, 1, 2]) {
        spoil(rng, &mut list);
    }
    let need = writer::write(&list, &mut [0; ROOM]).unwrap_or(64);
    let room = match rng.below(8) {
        0 => rng.below(ROOM + 1),
        1 => need - 1,
        2 => need / 2,
        _ => need + rng.below(3),
    };
    lists.step(room, &list);
}

/// A list that keeps the rules, or that of a configuration damaged in one way or in several.
fn some_list(rng: &mut Rng) -> List {
    let config = match rng.below(3) {
        0 => random::configuration(rng),
        _ => random::good(rng).bytes(),
    };
    let mut list = taken_apart(&config).unwrap_or_default();
    if rng.one_in(3) {
        let count = *rng.pick(&[0, 1, 5, 100, 246, 247, 248, 249, 256, FIELDS]);
        list.collection = (0..count).map(|_| rng.byte()).collect();
    }
    list
}

/// Damages one entity of a list, or its order or count.
fn spoil(rng: &mut Rng, list: &mut List) {
    if list.entities.is_empty() {
        return list.entities.push((0..rng.below(12)).map(|_| rng.byte()).collect());
    }
    let at = rng.below(list.entities.len());
    let entity = &mut list.entities[at];
    match rng.below(10) {
        0 => entity.resize(*rng.pick(&[252, 253, 254, 255, 256, 263, 266, FIELDS]), 0),
        1 => entity.truncate(rng.below(entity.len() + 1)),
        2 => entity.push(rng.byte()),
        3 if !entity.is_empty() => entity[0] = *rng.pick(&[0, 1, 2, 3, 4, 5, 6, 7, 0x15]),
        4 if entity.first() == Some(&5) => entity[0] = 0x15,
        7 if entity.first() == Some(&5) && entity.len() > 3 => entity.insert(3, 0),
        5 => rng.shuffle(&mut list.entities),
        6 => list.entities.resize(*rng.pick(&[1, 31, 32, 33, 40]), vec![2, 3]),
        _ if !entity.is_empty() => {
            let byte = rng.below(entity.len());
            entity[byte] = if rng.one_in(2) { rng.byte() } else { rng.below(9) as u8 };
        }
        _ => {}
    }
    // a step has no longer one, and damage comes on damage
    list.entities.iter_mut().for_each(|entity| entity.truncate(FIELDS));
}

#[cfg(test)]
mod tests {
    use super::*;
    use crate::generator::rng::steps;

    #[test]
    fn steps_at_random_are_steps() {
        let lists: Lists = steps(14, 1500, random);
        assert_eq!(writer::program(&lists.tape.bytes), lists.tape.printed);
        for way in OWN {
            assert!(lists.reach.ways.contains_key(&way), "{}", way.words());
        }
        assert!(lists.reach.answers["wrote"] > 300);
    }

    /// "every accepted header and run can be had from the writer, from the fields that the reader
    /// found, byte for byte"; and what is refused with 8 to 13 or 17 is refused by the writer.
    #[test]
    fn the_reader_and_the_writer_agree() {
        let mut rng = Rng::new(15);
        for _ in 0..1500 {
            let config = random::configuration(&mut rng);
            let Some(list) = taken_apart(&config) else { continue };
            let mut lent = [0; ROOM];
            match (reader::keep(&config), writer::write(&list, &mut lent)) {
                (_, Ok(count)) => {
                    assert_eq!(lent[..count], header_and_run(&config));
                }
                (Ok(_), Err(refusal)) => panic!("{refusal:?}"),
                (Err(one), Err(two)) => assert_eq!(one.way.number(), two.way.number()),
            }
            if let Err(refusal) = reader::keep(&config) {
                let written = writer::write(&list, &mut lent).is_ok();
                assert_eq!(written, !refusal.way.is_of_entities(), "{refusal:?}");
            }
        }
    }
}
