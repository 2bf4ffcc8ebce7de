//! The vectors: for each run of a program a folder with its `stdin`, its files and its `stdout`.
//! Those of `duet` that are short stand in `duet_ends`, those of `lend3` and all of `sheet3` in
//! `lent3_ends`.

use std::fs;
use std::path::Path;

use super::build::{case_a, microphone, telephone, Telephone};
use super::configs::{self, desk};
use super::duet_ends;
use super::duet_random;
use super::duet_steps;
use super::duets::Duets;
use super::headsets;
use super::isolation;
use super::lent::{self, lent_bytes, Lent};
use super::lent3::{self, Lent3};
use super::lent3_ends;
use super::lists::{self, list_bytes, Lists};
use super::moves::{self, move_bytes, Moves};
use super::pairs::{self, pair_bytes, Pairs};
use super::random;
use super::rng::Rng;
use super::routes::{self as ways, route_bytes, Routes};
use super::script::{step_bytes, Reach, Script};
use super::steps;
use crate::duet;
use crate::lend;
use crate::lend3;
use crate::mover;
use crate::numbers::{CONFIGURATION_MOST, CONTROLS, FIELDS, LENT, LIST, ROOM, STEP};
use crate::relay::{self, LOAD, PLUG_IN, PUT, REQUEST, SHOW};
use crate::routes;
use crate::sheet;
use crate::sheets::{self, PAIR, TO_NEW, TO_OLD};
use crate::ways::Way;
use crate::writer::{self, List};

/// The seed of all that is random in the vectors.
const SEED: u64 = 0x0001_9980_0318;
/// Configurations at random, beside those made on purpose.
const CONFIGURATIONS: usize = 2400;
/// Steps at random, beside those made on purpose.
const STEPS: usize = 14000;
/// Configurations at random over which those steps go.
const STEP_CONFIGURATIONS: usize = 350;
/// Steps of `duet` at random, beside those made on purpose.
const DUET_STEPS: usize = 3000;
/// Pairs of runs that agree on one side.
const TWO_RUNS: usize = 12;
/// What the vectors have to have at least.
const LEAST: (usize, usize) = (2000, 20000);

/// One run of a program.
#[derive(Clone)]
pub struct Run {
    /// The folder's name, which opens with the program's.
    pub name: String,
    /// The words behind the program's name.
    pub words: Vec<&'static str>,
    /// What the program reads.
    pub stdin: Vec<u8>,
    /// The files of the folder that it runs in.
    pub files: Vec<(&'static str, Vec<u8>)>,
    /// What it has to print.
    pub stdout: Vec<u8>,
}

impl Run {
    /// A run that reads standard input.
    pub fn new(name: impl Into<String>, stdin: Vec<u8>, stdout: impl Into<Vec<u8>>) -> Run {
        Run { name: name.into(), words: vec![], stdin, files: vec![], stdout: stdout.into() }
    }
}

/// All runs, and what they reach.
pub struct Vectors {
    /// The runs.
    pub runs: Vec<Run>,
    /// What the runs of many steps reach.
    pub reach: Reach,
    /// The steps of `lend`.
    lent: Lent,
    /// The pairs of `sheets`.
    pairs: Pairs,
    /// The moves of `sheets`.
    moves: Moves,
    /// The steps of `routes`.
    routes: Routes,
    /// The steps of `writer`.
    lists: Lists,
    /// The steps of `duet` made on purpose.
    duets: Duets,
    /// The steps of `lend3`.
    thirds: Lent3,
    /// What is reached on purpose, before anything at random.
    pub named: Reach,
}

/// Makes all vectors.
pub fn make() -> Vectors {
    let (mut reach, mut named) = (Reach::default(), Reach::default());
    let mut runs = sheets();
    let examples: Vec<&[u8]> = runs.iter().map(|run| &run.stdin[..]).collect();
    let lent = lent::all(SEED + 3, &examples);
    assert_eq!(lend::program(&lent.tape.bytes), lent.tape.printed);
    reach.add(&lent.reach);
    named.add(&lent.named);
    runs.push(Run::new("lend_steps", lent.tape.bytes.clone(), lent.tape.printed.as_str()));
    let orders = headsets::lent(SEED + 6);
    assert_eq!(lend::program(&orders.tape.bytes), orders.tape.printed);
    reach.add(&orders.reach);
    named.add(&orders.named);
    runs.push(Run::new("lend_orders", orders.tape.bytes, orders.tape.printed));
    let pairs = pairs::all(SEED + 4);
    assert_eq!(sheets::program(&pairs.tape.bytes), pairs.tape.printed);
    reach.add(&pairs.reach);
    named.add(&pairs.named);
    runs.push(Run::new("sheets_pairs", pairs.tape.bytes.clone(), pairs.tape.printed.as_str()));
    let moves = moves::all(SEED + 5);
    assert_eq!(sheets::program(&moves.tape.bytes), moves.tape.printed);
    reach.add(&moves.reach);
    named.add(&moves.named);
    runs.push(Run::new("sheets_moves", moves.tape.bytes.clone(), moves.tape.printed.as_str()));
    let routes = ways::all(SEED + 6);
    assert_eq!(routes::program(&routes.tape.bytes), routes.tape.printed);
    reach.add(&routes.reach);
    named.add(&routes.named);
    runs.push(Run::new("routes_steps", routes.tape.bytes.clone(), routes.tape.printed.as_str()));
    let lists = lists::all(SEED + 7);
    assert_eq!(writer::program(&lists.tape.bytes), lists.tape.printed);
    reach.add(&lists.reach);
    named.add(&lists.named);
    runs.push(Run::new("writer_steps", lists.tape.bytes.clone(), lists.tape.printed.as_str()));
    for (name, (script, on_purpose)) in [
        ("relay_configs", configuration_script()),
        ("relay_steps", step_script()),
        ("relay_orders", headsets::relayed(SEED + 7)),
    ] {
        assert_eq!(relay::program(&script.tape.bytes), script.tape.printed, "{name}");
        reach.add(&script.reach);
        named.add(&on_purpose);
        runs.push(Run::new(name, script.tape.bytes, script.tape.printed));
    }
    let mut duets = Duets::new();
    duet_steps::all(&mut duets);
    named.add(&duets.reach);
    for (name, script) in [("duet_steps", &duets), ("duet_random", &random_duets())] {
        assert_eq!(duet::program(&script.tape.bytes), script.tape.printed, "{name}");
        reach.add(&script.reach);
        runs.push(Run::new(name, script.tape.bytes.clone(), script.tape.printed.as_str()));
    }
    runs.extend(duet_ends::all());
    let thirds = lent3::all(SEED + 9);
    assert_eq!(lend3::program(&thirds.tape.bytes), thirds.tape.printed);
    reach.add(&thirds.reach);
    named.add(&thirds.named);
    runs.push(Run::new("lend3_steps", thirds.tape.bytes.clone(), thirds.tape.printed.as_str()));
    runs.extend(lent3_ends::all());
    runs.extend(quiet_ends());
    runs.extend(kept_steps());
    runs.extend(bad_steps());
    runs.extend(bad_lent_steps());
    runs.extend(bad_pairs());
    runs.extend(compared_files());
    runs.extend(moved_sheets());
    runs.extend(wrong_words());
    runs.extend(bad_route_steps());
    runs.extend(told_ways());
    runs.push(longest_list());
    runs.extend(bad_lists());
    Vectors { runs, reach, named, lent, pairs, moves, routes, lists, duets, thirds }
}

/// Every configuration made on purpose, with its answer held to what is written there, and more at
/// random; and what the first reach.
fn configuration_script() -> (Script, Reach) {
    let mut script = Script::new();
    for case in configs::all() {
        let printed = script.step(PLUG_IN, &case.bytes);
        let line = match case.expect {
            Some((way, place)) => format!("refused {} at {place}\n", way.number()),
            None => printed.lines.clone(),
        };
        assert_eq!(printed.way, case.expect.map(|(way, _)| way), "{}", case.name);
        assert_eq!(printed.lines, line, "{}", case.name);
    }
    let named = script.reach.clone();
    let mut rng = Rng::new(SEED);
    for _ in 0..CONFIGURATIONS {
        random::plug_in(&mut rng, &mut script);
    }
    (script, named)
}

/// Every step made on purpose, and more at random; and what the first reach.
fn step_script() -> (Script, Reach) {
    let mut script = Script::new();
    steps::all(&mut script);
    let named = script.reach.clone();
    let mut rng = Rng::new(SEED + 1);
    random::fill(&mut rng, &mut script, STEP_CONFIGURATIONS, STEPS);
    (script, named)
}

/// Steps of `duet` at random, from an empty box, and pairs of runs that agree on one side.
fn random_duets() -> Duets {
    let mut rng = Rng::new(SEED + 8);
    let mut duets = Duets::new();
    duets.clear();
    for _ in 0..DUET_STEPS {
        duet_random::step(&mut rng, &mut duets);
    }
    for _ in 0..TWO_RUNS {
        isolation::two_runs(&mut rng, &mut duets);
    }
    duets
}

/// Runs of `sheet`: the papers' examples, some made on purpose by name, some at random.
fn sheets() -> Vec<Run> {
    let run = |name: &str, config: Vec<u8>| {
        let stdout = sheet::program(&config);
        Run::new(name, config, stdout)
    };
    let mut runs = vec![
        run("sheet", case_a()),
        run("sheet_microphone", microphone()),
        run("sheet_telephone", telephone(Telephone::Tables, 2, 0x61)),
        run("sheet_telephone_printed", telephone(Telephone::Printed, 2, 0x64)),
        run("sheet_telephone_as_printed", telephone(Telephone::Printed, 1, 0x64)),
        run("sheet_desk", desk().bytes()),
        run("sheet_0", vec![]),
        run("sheet_1", vec![9]),
        run("sheet_4096", desk().padded(CONFIGURATION_MOST).bytes()),
        run("sheet_4097", desk().padded(CONFIGURATION_MOST + 1).bytes()),
        run("sheet_20000", desk().padded(20000).bytes()),
    ];
    let named = [
        ("sheet_backward", "a chain of 31 steps, sources before users"),
        ("sheet_forward", "a chain of 31 steps, sources after users"),
        ("sheet_ladder", "a ladder of 31 Selectors, two to the 31 routes"),
        ("sheet_turned", "the desk's run turned round"),
        ("sheet_through", "clusters through Selectors and Feature Units"),
        ("sheet_pins", "24 pins, sources rising"),
        ("sheet_32", "32 entities up to ID 255"),
        ("sheet_33", "33 entities"),
        ("sheet_loop", "a loop of length 32"),
        ("sheet_128", "128 controls, 16 of Selectors"),
        ("sheet_129", "129 controls, one a Selector's"),
    ];
    let cases = configs::all();
    for (folder, name) in named {
        let case = cases.iter().find(|case| case.name == name).expect("a case of that name");
        runs.push(run(folder, case.bytes.clone()));
    }
    let mut rng = Rng::new(SEED + 2);
    for index in 1..=8 {
        runs.push(run(&format!("sheet_random_{index}"), random::good(&mut rng).bytes()));
    }
    runs
}

/// Steps with which a short run of `relay` begins: the box emptied, and shown.
fn emptied() -> Vec<u8> {
    [step_bytes(PUT, &[0; 3]), step_bytes(SHOW, &[])].concat()
}

/// A step with which a short run of `lend` begins.
fn no_configuration() -> Vec<u8> {
    lent_bytes(49, &[9; 8])
}

/// Runs that end where a step could begin, and say nothing of it.
fn quiet_ends() -> Vec<Run> {
    let run = |name: &str, stdin: Vec<u8>, stdout: &str| {
        let printed = match name.split_once('_') {
            Some(("lend", _)) => lend::program,
            Some(("sheets", _)) => sheets::program,
            Some(("routes", _)) => routes::program,
            Some(("writer", _)) => writer::program,
            _ => relay::program,
        };
        assert_eq!(printed(&stdin), stdout, "{name}");
        Run::new(name, stdin, stdout)
    };
    vec![
        run("lend_empty", vec![], ""),
        run("lend_quiet", no_configuration(), "refused 1 at 0\nrest 49\n"),
        run("relay_empty", vec![], ""),
        run("relay_quiet", emptied(), "put\ntable 0\n"),
        run("sheets_empty", vec![], ""),
        run("sheets_quiet", pair_bytes(&[1; 32], &[]), "left 01\nend\n"),
        run("routes_empty", vec![], ""),
        run("routes_quiet", one_route(), ONE_ROUTE),
        run("writer_empty", vec![], ""),
        run("writer_quiet", list_bytes(21, &one_entity()), ONE_ENTITY),
    ]
}

/// A request of so many bytes that says its setup has so many.
fn request_bytes(setup: u8, length: usize) -> Vec<u8> {
    let mut body = vec![0; length];
    body[2] = setup;
    step_bytes(REQUEST, &body)
}

/// Runs of `relay` that go on after a step at the edge of being none.
fn kept_steps() -> Vec<Run> {
    let edges = [
        ("longest", step_bytes(PLUG_IN, &[0; STEP]), "refused 1 at 0\n"),
        ("setup", request_bytes(8, 11), "refused 31\n"),
        ("put_128", step_bytes(PUT, &[0; 3 + 13 * CONTROLS]), "put\n"),
    ];
    let run = |(name, edge, answer): (&str, Vec<u8>, &str)| {
        let stdin = [emptied(), edge, step_bytes(SHOW, &[])].concat();
        let stdout = relay::program(&stdin);
        assert_eq!(stdout, format!("put\ntable 0\n{answer}table 0\n"), "{name}");
        Run::new(format!("relay_kept_{name}"), stdin, stdout)
    };
    edges.into_iter().map(run).collect()
}

/// Runs of a program that end in what is no step: each way of it once, behind good steps, which print
/// this, and before another that is not read, unless the input ends there.
pub fn bad_runs(
    name: &str,
    program: fn(&[u8]) -> String,
    (good, says): (&[u8], &str),
    after: &[u8],
    ends: impl IntoIterator<Item = (&'static str, Vec<u8>)>,
) -> Vec<Run> {
    let run = |(end, bytes): (&str, Vec<u8>)| {
        let after = if end.starts_with("ends") { &[] } else { after };
        let stdin = [good, &bytes, after].concat();
        let stdout = program(&stdin);
        assert_eq!(stdout, format!("{says}bad step\n"), "{name} {end}");
        Run::new(format!("{name}_bad_{end}"), stdin, stdout)
    };
    ends.into_iter().map(run).collect()
}

/// Runs of `relay` that end in what is no step: each way of it once, after two good steps.
fn bad_steps() -> Vec<Run> {
    let whole = |kind, length| step_bytes(kind, &vec![0; length]);
    let ends: [(&str, Vec<u8>); 15] = [
        ("kind_0", whole(0, 0)),
        ("kind_6", whole(6, 0)),
        ("kind_255", whole(255, 4)),
        ("long", whole(PLUG_IN, STEP + 1)),
        ("load_10", whole(LOAD, 10)),
        ("load_12", whole(LOAD, 12)),
        ("request_2", whole(REQUEST, 2)),
        ("request_setup", request_bytes(8, 10)),
        ("show_1", whole(SHOW, 1)),
        ("put_2", whole(PUT, 2)),
        ("put_15", whole(PUT, 15)),
        ("put_129", whole(PUT, 3 + 13 * (CONTROLS + 1))),
        ("ends_in_kind", vec![SHOW]),
        ("ends_in_length", vec![SHOW, 0]),
        ("ends_in_body", whole(LOAD, 11)[..13].to_vec()),
    ];
    let good = (&emptied()[..], "put\ntable 0\n");
    bad_runs("relay", relay::program, good, &step_bytes(SHOW, &[]), ends)
}

/// Runs of `lend` that end in what is no step: each way of it once, after a good step.
fn bad_lent_steps() -> Vec<Run> {
    let good = no_configuration();
    let ends = [
        ("long_sheet", lent_bytes(LENT + 1, &case_a())),
        ("longest_sheet", lent_bytes(0xFFFF, &case_a())),
        ("long", lent_bytes(49, &[0; STEP + 1])),
        ("ends_in_m", good[..1].to_vec()),
        ("ends_before_n", good[..2].to_vec()),
        ("ends_in_n", good[..3].to_vec()),
        ("ends_before_body", good[..4].to_vec()),
        ("ends_in_body", good[..good.len() - 1].to_vec()),
    ];
    bad_runs("lend", lend::program, (&good, "refused 1 at 0\nrest 49\n"), &good, ends)
}

/// Runs of `sheets` that end in what is no step: each way of it once, after a good step.
fn bad_pairs() -> Vec<Run> {
    let good = pair_bytes(&[2; 32], &[3; 32]);
    let ends = [
        ("kind_0", step_bytes(0, &[0; 2])),
        ("kind_4", step_bytes(4, &[0; 2])),
        ("kind_255", step_bytes(255, &[0; 34])),
        ("body_0", step_bytes(PAIR, &[])),
        ("body_1", step_bytes(PAIR, &[0])),
        ("left", step_bytes(PAIR, &[17; 18])),
        ("longest_left", step_bytes(PAIR, &[0xFF; 34])),
        ("long", pair_bytes(&[1; 16], &[0; STEP - 17])),
        ("new_body_0", step_bytes(TO_NEW, &[])),
        ("new_body_1", step_bytes(TO_NEW, &[0])),
        ("old_body_1", step_bytes(TO_OLD, &[0])),
        ("new_room", move_bytes(TO_NEW, LENT + 1, &[1; 16])),
        ("old_room", move_bytes(TO_OLD, LENT + 1, &[1; 32])),
        ("longest_room", move_bytes(TO_OLD, 0xFFFF, &[1; 32])),
        ("long_move", move_bytes(TO_NEW, 0, &[1; STEP - 1])),
        ("ends_in_move", move_bytes(TO_NEW, 32, &[1; 16])[..20].to_vec()),
        ("ends_in_kind", good[..1].to_vec()),
        ("ends_in_length", good[..2].to_vec()),
        ("ends_before_body", good[..3].to_vec()),
        ("ends_in_body", good[..good.len() - 1].to_vec()),
    ];
    bad_runs("sheets", sheets::program, (&good, "left 02\nright 03\nend\n"), &good, ends)
}

/// Runs of `compare`: a pair with every kind of line, pairs at the edges, files that are not there.
fn compared_files() -> Vec<Run> {
    let (left, right) = pairs::example();
    let (old, mended) = pairs::mended();
    let run = |name: &str, left: &[u8], right: &[u8]| Run {
        files: vec![("left", left.to_vec()), ("right", right.to_vec())],
        ..Run::new(name, vec![], sheets::compared(left, right).lines)
    };
    let lone = |name: &str, files, stdout: &str| Run { files, ..Run::new(name, vec![], stdout) };
    vec![
        run("compare", &left, &right),
        run("compare_same", &left, &left),
        run("compare_nothing", &[], &[]),
        run("compare_mended", &old, &mended),
        run("compare_1025", &[1; 1025], &right),
        run("compare_1056", &left, &[1; 1056]),
        run("compare_old", &left, &moves::old_telephone()),
        run("compare_20000", &left, &[1; 20000]),
        run("compare_uneven", &left[1..], &right),
        run("compare_twice", &left, &[right.clone(), right[..32].to_vec()].concat()),
        lone("compare_no_left", vec![("right", right.clone())], "cannot read left\n"),
        lone("compare_no_right", vec![("left", left[1..].to_vec())], "cannot read right\n"),
        lone("compare_no_file", vec![], "cannot read left\n"),
    ]
}

/// A run of `move` with these words over this sheet.
fn moved(name: &str, words: &[&'static str], sheet: &[u8]) -> Run {
    let stdout = mover::program(words, || Ok::<_, ()>(sheet.to_vec())).expect("a sheet");
    Run { words: words.to_vec(), ..Run::new(name, sheet.to_vec(), stdout) }
}

/// Runs of `move`: the old telephone's sheet there and back, no record, as many as there may be and
/// more, and each refusal that comes there.
fn moved_sheets() -> Vec<Run> {
    let old = moves::old_telephone();
    let new = moved("move", &["new"], &old).stdout;
    assert_eq!(moved("move_old", &["old"], &new).stdout, old);
    let full = |record: usize| -> Vec<u8> {
        (1..=33).flat_map(|id| [vec![id; 16], vec![0; record - 16]].concat()).collect()
    };
    let with = |at: usize, byte: u8| {
        let mut changed = new.clone();
        changed[at] = byte;
        changed
    };
    vec![
        moved("move", &["new"], &old),
        moved("move_old", &["old"], &new),
        moved("move_new_0", &["new"], &[]),
        moved("move_old_0", &["old"], &[]),
        moved("move_new_512", &["new"], &full(16)[..512]),
        moved("move_new_513", &["new"], &full(16)[..513]),
        moved("move_old_1024", &["old"], &full(32)[..1024]),
        moved("move_old_1025", &["old"], &full(32)[..1025]),
        moved("move_new_20000", &["new"], &[1; 20000]),
        moved("move_new_uneven", &["new"], &old[1..]),
        moved("move_old_uneven", &["old"], &new[16..]),
        moved("move_new_new", &["new"], &new),
        moved("move_old_old", &["old"], &old),
        moved("move_old_zero", &["old"], &with(32, 0)),
        moved("move_old_twice", &["old"], &with(32, 1)),
        moved("move_old_16", &["old"], &with(16, 1)),
        moved("move_old_last", &["old"], &with(287, 0x80)),
    ]
}

/// Runs of `move` with words that are not its own.
fn wrong_words() -> Vec<Run> {
    let all: [(&str, &[&'static str]); 6] = [
        ("none", &[]),
        ("other", &["newer"]),
        ("short", &["ol"]),
        ("capital", &["NEW"]),
        ("two", &["new", "old"]),
        ("twice", &["old", "old"]),
    ];
    let sheet = moves::old_telephone();
    all.map(|(name, words)| moved(&format!("move_usage_{name}"), words, &sheet)).into()
}

/// A step with which a short run of `routes` begins, and what it prints.
fn one_route() -> Vec<u8> {
    route_bytes(3, 9, &case_a())
}

const ONE_ROUTE: &str = "routes 1 4\n03 02 01 00\nrest 5\n";

/// Runs of `routes` that end in what is no step: each way of it once, after a good step.
fn bad_route_steps() -> Vec<Run> {
    let good = one_route();
    let ends = [
        ("long_list", route_bytes(3, LIST + 1, &case_a())),
        ("longest_list", route_bytes(3, 0xFFFF, &case_a())),
        ("long", route_bytes(3, 9, &[0; STEP + 1])),
        ("ends_in_id", good[..1].to_vec()),
        ("ends_in_m", good[..2].to_vec()),
        ("ends_before_n", good[..3].to_vec()),
        ("ends_in_n", good[..4].to_vec()),
        ("ends_before_body", good[..5].to_vec()),
        ("ends_in_body", good[..good.len() - 1].to_vec()),
    ];
    bad_runs("routes", routes::program, (&good, ONE_ROUTE), &good, ends)
}

/// Runs of `way`.
fn told_ways() -> Vec<Run> {
    let run = |(name, words, config): ways::WayRun| {
        let stdout = routes::way(&words, || Ok::<_, ()>(config.clone())).expect("a configuration");
        Run { words, ..Run::new(format!("way{name}"), config, stdout) }
    };
    ways::way_runs().into_iter().map(run).collect()
}

/// A list with which a short run of `writer` begins, and what it prints in 21 bytes.
fn one_entity() -> List {
    List { collection: vec![5], entities: vec![vec![2, 1, 1, 2, 0, 1, 0, 0, 0, 7]] }
}

const ONE_ENTITY: &str = "wrote 21\n\
                          09 24 01 00 01 15 00 01 05 0C 24 02 01 01 02 00\n\
                          01 00 00 00 07\nrest 0\n";

/// A run of `writer` that goes on after the longest step that there is.
fn longest_list() -> Run {
    let longest = List { collection: vec![5; FIELDS], entities: vec![vec![2; FIELDS]; 255] };
    let stdin = [list_bytes(ROOM, &longest), list_bytes(21, &one_entity())].concat();
    let stdout = writer::program(&stdin);
    assert_eq!(stdout, format!("refused 8 at 0\nrest {ROOM}\n{ONE_ENTITY}"));
    Run::new("writer_kept_longest", stdin, stdout)
}

/// Runs of `writer` that end in what is no step: each way of it once, after a good step.
fn bad_lists() -> Vec<Run> {
    let list = one_entity();
    let good = list_bytes(21, &list);
    let long = |k, q| List { collection: vec![5; k], entities: vec![vec![2; 10], vec![2; q]] };
    let two = list_bytes(21, &long(1, 10));
    let ends = [
        ("long_room", list_bytes(ROOM + 1, &list)),
        ("longest_room", list_bytes(0xFFFF, &list)),
        ("long_collection", list_bytes(21, &long(FIELDS + 1, 10))),
        ("long_entity", list_bytes(21, &long(1, FIELDS + 1))),
        ("ends_in_m", good[..1].to_vec()),
        ("ends_before_k", good[..2].to_vec()),
        ("ends_in_k", good[..3].to_vec()),
        ("ends_before_number", good[..4].to_vec()),
        ("ends_before_e", good[..5].to_vec()),
        ("ends_before_q", good[..6].to_vec()),
        ("ends_in_q", good[..7].to_vec()),
        ("ends_before_kind", good[..8].to_vec()),
        ("ends_in_entity", good[..good.len() - 1].to_vec()),
        ("ends_before_second", two[..good.len()].to_vec()),
        ("ends_in_second", two[..two.len() - 1].to_vec()),
    ];
    bad_runs("writer", writer::program, (&good, ONE_ENTITY), &good, ends)
}

impl Vectors {
    /// What the papers name and these vectors do not reach on purpose; empty if all is well.
    pub fn missing(&self) -> Vec<String> {
        let reached = |way: &Way| self.named.ways.contains_key(way);
        let mut missing: Vec<String> = Way::ALL
            .iter()
            .filter(|way| !reached(way))
            .map(|way| format!("{} {}", way.number(), way.words()))
            .collect();
        for word in [
            "accepted",
            "loaded",
            "set",
            "got",
            "table",
            "put",
            "moved",
            "routes",
            "wrote",
            "unplugged",
            "bytes",
        ] {
            if !self.named.answers.contains_key(word) {
                missing.push(format!("an answer `{word}`"));
            }
        }
        if self.reach.configurations < LEAST.0 {
            missing.push(format!("{} configurations at least", LEAST.0));
        }
        if self.reach.steps < LEAST.1 {
            missing.push(format!("{} steps at least", LEAST.1));
        }
        missing.extend(self.lent.missing());
        missing.extend(self.pairs.missing());
        missing.extend(self.moves.missing());
        missing.extend(self.routes.missing());
        missing.extend(self.lists.missing());
        missing.extend(self.duets.missing());
        missing.extend(self.thirds.missing());
        missing
    }

    /// The table of what is reached.
    pub fn report(&self) -> String {
        let mut lines = String::new();
        for way in Way::ALL {
            let count = self.reach.ways.get(way).copied().unwrap_or(0);
            lines += &format!("{:>4} {count:>6}  {}\n", way.number(), way.words());
        }
        for (word, count) in &self.reach.answers {
            lines += &format!("     {count:>6}  answers `{word}`\n");
        }
        let bytes: usize = self.runs.iter().map(|run| run.stdin.len() + run.stdout.len()).sum();
        let (reach, named) = (&self.reach, &self.named);
        lines += &format!(
            "{} configurations ({} on purpose), {} other steps ({} on purpose)\n",
            reach.configurations, named.configurations, reach.steps, named.steps
        );
        lines += &format!(
            "{} configurations with sheets of many lengths ({} on purpose)\n",
            reach.lent, named.lent
        );
        lines += &format!("{} pairs of sheets ({} on purpose)\n", reach.pairs, named.pairs);
        lines += &format!("{} moves of sheets ({} on purpose)\n", reach.moves, named.moves);
        lines += &format!("{} steps of routes ({} on purpose)\n", reach.routes, named.routes);
        lines += &format!("{} lists of entities ({} on purpose)\n", reach.lists, named.lists);
        lines += &format!("{} steps of the duet box ({} on purpose)\n", reach.duets, named.duets);
        lines +=
            &format!("{} steps of both editions ({} on purpose)\n", reach.thirds, named.thirds);
        lines += &format!("{} runs, {bytes} bytes\n", self.runs.len());
        lines
    }

    /// Writes a folder for each run.
    pub fn write(&self, dir: &Path) -> std::io::Result<()> {
        for run in &self.runs {
            let folder = dir.join(&run.name);
            fs::create_dir_all(&folder)?;
            fs::write(folder.join("stdin"), &run.stdin)?;
            fs::write(folder.join("stdout"), &run.stdout)?;
            if !run.words.is_empty() {
                let lines: String = run.words.iter().map(|word| format!("{word}\n")).collect();
                fs::write(folder.join("args"), lines)?;
            }
            for (file, bytes) in &run.files {
                fs::create_dir_all(folder.join("data"))?;
                fs::write(folder.join("data").join(file), bytes)?;
            }
        }
        Ok(())
    }
}

#[cfg(test)]
mod tests {
    #[test]
    fn nothing_is_missing() {
        assert_eq!(super::make().missing(), Vec::<String>::new());
    }
}
