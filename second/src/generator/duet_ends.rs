//! Short runs of `duet`: quiet ends, the largest of what still is a step, and each way to be none.

use super::script::step_bytes;
use super::vectors::{bad_runs, Run};
use crate::duet::{self, LOAD, PLUG_IN, PUT, REQUEST, SHOW, STRETCH, UNPLUG};
use crate::numbers::{CONTROLS, STEP};
use crate::relay::PUT_CONTROL;

/// What the steps of `emptied` print.
const EMPTY: &str = "put\nleft\nempty\nright\nempty\n";

/// All of them.
pub fn all() -> Vec<Run> {
    let mut runs = quiet();
    runs.extend(kept());
    runs.extend(bad());
    runs
}

/// Steps with which a run begins: the box emptied, and shown.
fn emptied() -> Vec<u8> {
    [step_bytes(PUT, &[0, 0]), step_bytes(SHOW, &[])].concat()
}

fn run(name: String, stdin: Vec<u8>, stdout: String) -> Run {
    assert_eq!(duet::program(&stdin), stdout, "{name}");
    Run::new(name, stdin, stdout)
}

/// Runs that end where a step could begin, and say nothing of it.
fn quiet() -> Vec<Run> {
    vec![
        run("duet_empty".to_string(), vec![], String::new()),
        run("duet_quiet".to_string(), emptied(), EMPTY.to_string()),
    ]
}

/// One side of a put that gives so many controls, all zeros, with a count of 0.
fn put_zeros(given: usize) -> Vec<u8> {
    let [low, high] = (given as u16).to_le_bytes();
    [&[1, 0, 0, 0, low, high][..], &vec![0; PUT_CONTROL * given]].concat()
}

/// A request of so many bytes that says its setup has so many.
fn request(setup: u8, length: usize) -> Vec<u8> {
    let mut body = vec![0; length];
    body[2] = setup;
    body
}

/// Runs that go on after a step at the edge of being none.
fn kept() -> Vec<Run> {
    let edges = [
        ("longest", PLUG_IN, vec![0; STEP], "refused 1 at 0\n"),
        ("plug_in", PLUG_IN, vec![1], "refused 1 at 0\n"),
        ("setup", REQUEST, request(8, 11), "refused 31\n"),
        ("room", REQUEST, [&[255, 255, 8, 0xA1, 0x81][..], &[2; 6]].concat(), "refused 32\n"),
        ("put_128", PUT, [put_zeros(CONTROLS), put_zeros(CONTROLS)].concat(), "put\n"),
        ("stretch", STRETCH, vec![1, 0, 0, 0], "refused 1 at 0\n"),
    ];
    let one = |(name, kind, body, answer): (&str, u8, Vec<u8>, &str)| {
        let stdin = [emptied(), step_bytes(kind, &body), emptied()].concat();
        run(format!("duet_kept_{name}"), stdin, format!("{EMPTY}{answer}{EMPTY}"))
    };
    edges.into_iter().map(one).collect()
}

/// Runs that end in what is no step: each way of it once.
fn bad() -> Vec<Run> {
    let zeros = |kind, length| step_bytes(kind, &vec![0; length]);
    let mut ends = vec![
        ("kind_0", zeros(0, 0)),
        ("kind_8", zeros(8, 0)),
        ("kind_255", zeros(255, 4)),
        ("long", zeros(PLUG_IN, STEP + 1)),
        ("plug_in_0", zeros(PLUG_IN, 0)),
        ("plug_in_side", step_bytes(PLUG_IN, &[2, 9, 2])),
        ("load_11", zeros(LOAD, 11)),
        ("load_13", zeros(LOAD, 13)),
        ("load_side", step_bytes(LOAD, &[255; 12])),
        ("request_2", zeros(REQUEST, 2)),
        ("request_setup", step_bytes(REQUEST, &request(8, 10))),
        ("show_1", zeros(SHOW, 1)),
        ("unplug_0", zeros(UNPLUG, 0)),
        ("unplug_2", zeros(UNPLUG, 2)),
        ("unplug_side", step_bytes(UNPLUG, &[2])),
        ("stretch_3", zeros(STRETCH, 3)),
        ("stretch_left", step_bytes(STRETCH, &[0, 1, 2, 0, 9])),
        ("stretch_longest_left", step_bytes(STRETCH, &[1, 1, 255, 255, 9])),
        ("stretch_side", step_bytes(STRETCH, &[2, 1, 0, 0])),
        ("ends_in_kind", vec![SHOW]),
        ("ends_in_length", vec![SHOW, 0]),
        ("ends_in_body", zeros(LOAD, 12)[..14].to_vec()),
    ];
    ends.extend(bad_puts());
    bad_runs("duet", duet::program, (&emptied(), EMPTY), &step_bytes(SHOW, &[]), ends)
}

/// Puts that end too early, too late, or give too much.
fn bad_puts() -> Vec<(&'static str, Vec<u8>)> {
    let put = |body: &[u8]| step_bytes(PUT, body);
    let one = put_zeros(1);
    vec![
        ("put_0", put(&[])),
        ("put_left_alone", put(&[0])),
        ("put_opening", put(&one[..5])),
        ("put_cut", put(&one[..18])),
        ("put_right_cut", put(&[&one[..], &one[..18]].concat())),
        ("put_behind", put(&[0, 0, 0])),
        ("put_129", put(&[put_zeros(CONTROLS + 1), vec![0]].concat())),
        ("put_right_129", put(&[vec![0], put_zeros(CONTROLS + 1)].concat())),
    ]
}
