//! Short runs of `lend3`, which end in what is no step or where one could begin, and runs of `sheet3`.

use super::build::{case_a, telephone, Telephone};
use super::build3::{basic_headset, basic_microphone, cluster3, Basic, Third};
use super::cases3::console;
use super::lent3::step3_bytes;
use super::random3;
use super::rng::Rng;
use super::vectors::{bad_runs, Run};
use crate::lend3;
use crate::numbers::{CONFIGURATION_MOST, LENT, STEP};

/// A step with which a short run begins.
fn no_configuration() -> Vec<u8> {
    step3_bytes(49, &[9; 8], &[1, 2, 3])
}

/// All of them.
pub fn all() -> Vec<Run> {
    [quiet(), kept(), bad(), sheets(), told()].concat()
}

fn run(name: &str, stdin: Vec<u8>, stdout: &str) -> Run {
    assert_eq!(lend3::program(&stdin), stdout, "{name}");
    Run::new(name, stdin, stdout)
}

/// Runs that end where a step could begin, and say nothing of it.
fn quiet() -> Vec<Run> {
    let quiet = no_configuration();
    vec![
        run("lend3_empty", vec![], ""),
        run("lend3_quiet", quiet, "refused 1 at 0\nrest 49\n"),
        run("lend3_quiet_nothing", step3_bytes(0, &[], &[]), "refused 1 at 0\nrest 0\n"),
    ]
}

/// A run that goes on after the longest step that there is.
fn kept() -> Vec<Run> {
    let longest = step3_bytes(LENT, &[0; STEP], &[0; STEP]);
    let stdin = [longest, no_configuration()].concat();
    let stdout = "refused 1 at 0\nrest 2048\nrefused 1 at 0\nrest 49\n";
    vec![run("lend3_kept_longest", stdin, stdout)]
}

/// Runs that end in what is no step: each way of it once, after a good step.
fn bad() -> Vec<Run> {
    let good = no_configuration();
    let ends = [
        ("long_sheet", step3_bytes(LENT + 1, &case_a(), &[])),
        ("longest_sheet", step3_bytes(0xFFFF, &case_a(), &[])),
        ("long", step3_bytes(49, &[0; STEP + 1], &[])),
        ("long_clusters", step3_bytes(49, &case_a(), &[0; STEP + 1])),
        ("ends_in_m", good[..1].to_vec()),
        ("ends_before_n", good[..2].to_vec()),
        ("ends_in_n", good[..3].to_vec()),
        ("ends_before_k", good[..4].to_vec()),
        ("ends_in_k", good[..5].to_vec()),
        ("ends_before_body", good[..6].to_vec()),
        ("ends_in_body", good[..13].to_vec()),
        ("ends_before_clusters", good[..14].to_vec()),
        ("ends_in_clusters", good[..good.len() - 1].to_vec()),
    ];
    bad_runs("lend3", lend3::program, (&good, "refused 1 at 0\nrest 49\n"), &good, ends)
}

/// A run of `sheet3` over this configuration and this file.
fn sheet(name: &str, config: Vec<u8>, file: Vec<u8>) -> Run {
    let stdout = lend3::printed(&config, &file);
    Run { files: vec![("clusters", file)], ..Run::new(name, config, stdout) }
}

fn of(name: &str, third: &Third) -> Run {
    sheet(name, third.config(), third.buffer())
}

/// Runs of `sheet3`: the headset and the microphone of source document 003, 1.0's, refusals, buffers at
/// the edges, some at random.
fn sheets() -> Vec<Run> {
    let mut fourth = console();
    fourth.clusters[3].pop();
    let mut unknown = console();
    unknown.clusters.remove(2);
    let (headset, buffer) = (basic_headset(Basic::Taken, 2), console().buffer());
    // A file of more than 8,192 bytes is never taken for a whole one, even where a descriptor ends there.
    let filled = |bytes: usize| {
        let more = cluster3(0xFFFF, 1, &vec![0; bytes - buffer.len() - 7]);
        [buffer.clone(), more].concat()
    };
    let ends_there = [filled(STEP), vec![1; 4000]].concat();
    let mut runs = vec![
        of("sheet3", &headset),
        of("sheet3_mono", &basic_headset(Basic::Taken, 1)),
        of("sheet3_microphone", &basic_microphone(Basic::Taken, 1)),
        of("sheet3_microphone_stereo", &basic_microphone(Basic::Taken, 2)),
        of("sheet3_printed", &basic_headset(Basic::Printed, 2)),
        of("sheet3_console", &console()),
        of("sheet3_short", &fourth),
        of("sheet3_unknown", &unknown),
        of("sheet3_4096", &console().padded(CONFIGURATION_MOST)),
        of("sheet3_4097", &console().padded(CONFIGURATION_MOST + 1)),
        sheet("sheet3_no_clusters", headset.config(), vec![]),
        sheet("sheet3_case_a", case_a(), vec![1]),
        sheet("sheet3_telephone", telephone(Telephone::Tables, 2, 0x61), headset.buffer()),
        sheet("sheet3_nothing", vec![], vec![]),
        sheet("sheet3_8192", console().config(), filled(STEP)),
        sheet("sheet3_8193", console().config(), filled(STEP + 1)),
        sheet("sheet3_8194", console().config(), filled(STEP + 2)),
        sheet("sheet3_ends_at_8192", console().config(), ends_there),
    ];
    let mut rng = Rng::new(33);
    for index in 1..=4 {
        runs.push(of(&format!("sheet3_random_{index}"), &random3::good(&mut rng)));
    }
    runs
}

/// Runs of `sheet3` where there is no such file, whatever the configuration.
fn told() -> Vec<Run> {
    [("sheet3_no_file", console().config()), ("sheet3_no_file_1", case_a())]
        .map(|(name, config)| Run::new(name, config, "cannot read clusters\n"))
        .into()
}
