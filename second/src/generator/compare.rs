//! A longer comparison outside the gate: fresh inputs through other programs and this one.

use std::io::Write;
use std::process::{Command, Stdio};

use super::duet_random;
use super::duets::{put_duet, Duets};
use super::isolation;
use super::lent::{self, Lent};
use super::lent3::{self, Lent3};
use super::lists::{self, Lists};
use super::moves::{self, Moves};
use super::orders;
use super::pairs::{self, Pairs};
use super::random;
use super::rng::{steps, Rng};
use super::routes::{self, Routes};
use super::script::{put_body, step_bytes, Reach, Script};
use super::tape::Tape;
use crate::duet;
use crate::mover::{self, Wanted};
use crate::relay::{self, PLUG_IN};
use crate::requests::State;
use crate::sheet;
use crate::sides::Duet;
use crate::ways::Way;

/// Configurations, and as many steps, of one run of `relay`.
const BATCH: usize = 1000;
/// One in so many of a batch's configurations is followed by its run in another order.
const TWIN: usize = 10;
/// Loads and requests behind each of two orders.
const TWIN_STEPS: usize = 20;
/// One pair of runs of `duet` that agree on one side to so many of a batch's steps.
const TWO_RUNS: usize = 100;

/// What is to be compared.
pub struct Job {
    /// The seed.
    pub seed: u64,
    /// How many configurations, and how many other steps.
    pub count: usize,
    /// The program `sheet` and its arguments.
    pub sheet: Vec<String>,
    /// The program `lend` and its arguments.
    pub lend: Vec<String>,
    /// The program `relay` and its arguments.
    pub relay: Vec<String>,
    /// The program `sheets` and its arguments.
    pub sheets: Vec<String>,
    /// The program `move` and its arguments but the last.
    pub mover: Vec<String>,
    /// The program `routes` and its arguments.
    pub routes: Vec<String>,
    /// The program `writer` and its arguments.
    pub writer: Vec<String>,
    /// The program `duet` and its arguments.
    pub duet: Vec<String>,
    /// The program `lend3` and its arguments.
    pub lend3: Vec<String>,
    /// One configuration in so many goes through `sheet` too, and as many sheets through `move`;
    /// none if 0.
    pub every: usize,
}

/// A script of `count` configurations and `count` other steps.
pub fn script(seed: u64, count: usize) -> Script {
    let mut rng = Rng::new(seed);
    let mut script = Script::new();
    random::fill(&mut rng, &mut script, count, count);
    script
}

/// Compares batch after batch. The answer says how much was compared, or tells the first
/// difference.
pub fn run(job: &Job) -> Result<String, String> {
    let (mut done, mut sheets, mut twins) = (0, 0, 0);
    let mut reach = Reach::default();
    for batch in 0.. {
        if done == job.count {
            break;
        }
        let now = BATCH.min(job.count - done);
        let seed = job.seed.wrapping_mul(0x1_0000_0001).wrapping_add(batch);
        let script = script(seed, now);
        compare_relay(job, &script)?;
        sheets += compare_sheets(job, &script)?;
        let lent = lent_script(seed, &script);
        compare_tape("lend", &job.lend, &lent.tape)?;
        let (readings, answers) = twin_scripts(seed, now);
        compare_tape("lend", &job.lend, &readings.tape)?;
        compare_relay(job, &answers)?;
        let pairs: Pairs = steps(seed.rotate_left(32), now, pairs::random);
        compare_tape("sheets", &job.sheets, &pairs.tape)?;
        let moves: Moves = steps(seed.rotate_left(16), now, moves::random);
        compare_tape("sheets", &job.sheets, &moves.tape)?;
        compare_moves(job, seed, now)?;
        let routes: Routes = steps(seed.rotate_left(8), now, routes::random);
        compare_tape("routes", &job.routes, &routes.tape)?;
        let lists: Lists = steps(seed.rotate_left(24), now, lists::random);
        compare_tape("writer", &job.writer, &lists.tape)?;
        let duets = duet_script(seed, now);
        compare_duet(job, &duets)?;
        let thirds: Lent3 = steps(seed.rotate_left(40), now, lent3::random);
        compare_tape("lend3", &job.lend3, &thirds.tape)?;
        reach.add(&script.reach);
        reach.add(&lent.reach);
        twins += (readings.reach.lent + answers.reach.configurations) / 2;
        reach.add(&pairs.reach);
        reach.add(&moves.reach);
        reach.add(&routes.reach);
        reach.add(&lists.reach);
        reach.add(&duets.reach);
        reach.add(&thirds.reach);
        done += now;
        eprintln!("{done} of {} configurations and steps", job.count);
    }
    let (ways, all) = (reach.ways.len(), Way::ALL.len());
    Ok(format!(
        "no difference: {done} configurations and {done} other steps through `relay`, {sheets} \
         configurations through `sheet` and as many sheets through `move`, {} through `lend`, \
         {twins} with their runs in two orders, {} pairs and {} moves through `sheets`, {} steps \
         through `routes`, {} through `writer`, {} through `duet`, {} through `lend3`; {ways} of \
         the {all} clauses of refusals met",
        reach.lent, reach.pairs, reach.moves, reach.routes, reach.lists, reach.duets, reach.thirds
    ))
}

/// The configurations of a script, each with a sheet of a length at random.
fn lent_script(seed: u64, script: &Script) -> Lent {
    let mut rng = Rng::new(!seed);
    let mut lent = Lent::default();
    for config in configurations(script) {
        lent::random_length(&mut rng, &mut lent, config);
    }
    lent
}

/// Configurations with their runs in two orders: readings for `lend`, and loads and requests for
/// `relay`. They are held to one another while they are written, and what another program prints is
/// then compared with these bytes, so it holds for both.
fn twin_scripts(seed: u64, count: usize) -> (Lent, Script) {
    let mut rng = Rng::new(seed.rotate_left(8));
    let (mut lent, mut script) = (Lent::default(), Script::new());
    for _ in (0..count).step_by(TWIN) {
        orders::random_reading(&mut rng, &mut lent);
        orders::random_answers(&mut rng, &mut script, TWIN_STEPS);
    }
    (lent, script)
}

/// So many steps of `duet` at random, and pairs of runs that agree on one side, which are held to one
/// another while they are written.
fn duet_script(seed: u64, count: usize) -> Duets {
    let mut rng = Rng::new(seed.rotate_left(24));
    let mut duets = Duets::new();
    for _ in 0..count {
        duet_random::step(&mut rng, &mut duets);
    }
    for _ in (0..count).step_by(TWO_RUNS) {
        isolation::two_runs(&mut rng, &mut duets);
    }
    duets
}

/// Compares what `move` prints for sheets at random, one for each configuration of `sheet`.
fn compare_moves(job: &Job, seed: u64, count: usize) -> Result<(), String> {
    if job.every == 0 {
        return Ok(());
    }
    let mut rng = Rng::new(seed.rotate_left(48));
    for _ in (0..count).step_by(job.every) {
        let (wanted, sheet) = moves::some_sheet(&mut rng);
        let word = if wanted == Wanted::New { "new" } else { "old" };
        let command = [&job.mover[..], &[word.to_string()]].concat();
        let (wanted, got) = (mover::printed(wanted, &sheet), output(&command, &sheet)?);
        if got != wanted {
            return Err(format!(
                "difference in `move {word}`\nsheet: {}\nsecond prints: {}\nother prints: {}",
                hex(&sheet),
                hex(&wanted),
                hex(&got)
            ));
        }
    }
    Ok(())
}

/// Runs a program over these bytes and answers what it printed.
fn output(program: &[String], stdin: &[u8]) -> Result<Vec<u8>, String> {
    let trouble = |error: std::io::Error| format!("{}: {error}", program.join(" "));
    let mut child = Command::new(&program[0])
        .args(&program[1..])
        .stdin(Stdio::piped())
        .stdout(Stdio::piped())
        .spawn()
        .map_err(trouble)?;
    let mut pipe = child.stdin.take().expect("stdin is piped");
    std::thread::scope(|scope| {
        // A program may end before it has read all; what it printed is compared all the same.
        scope.spawn(move || drop(pipe.write_all(stdin)));
        child.wait_with_output().map(|output| output.stdout).map_err(trouble)
    })
}

fn compare_relay(job: &Job, script: &Script) -> Result<(), String> {
    let got = output(&job.relay, &script.tape.bytes)?;
    match script.tape.difference(&got) {
        Some((index, answers)) => Err(tell_step(script, index, &answers)),
        None => Ok(()),
    }
}

/// Compares what `duet` prints. The first difference is told with the box before it as a put step.
fn compare_duet(job: &Job, duets: &Duets) -> Result<(), String> {
    let got = output(&job.duet, &duets.tape.bytes)?;
    let Some((index, answers)) = duets.tape.difference(&got) else { return Ok(()) };
    let mut before = Duet::empty();
    for step in duets.tape.steps().take(index) {
        duet::step(&mut before, step[0], &step[3..]).expect("a good step");
    }
    Err(format!(
        "difference in `duet`\nbox before, as a step: {}\nstep: {}\n{answers}",
        hex(&step_bytes(duet::PUT, &put_duet(&before))),
        hex(duets.tape.step(index))
    ))
}

/// Compares what a program of this name prints for steps that hang on none before them.
fn compare_tape(name: &str, program: &[String], tape: &Tape) -> Result<(), String> {
    let got = output(program, &tape.bytes)?;
    match tape.difference(&got) {
        Some((index, answers)) => {
            Err(format!("difference in `{name}`\nstep: {}\n{answers}", hex(tape.step(index))))
        }
        None => Ok(()),
    }
}

/// The step of this index: the state before it as a put step, its bytes, and both answers.
fn tell_step(script: &Script, index: usize, answers: &str) -> String {
    let mut state = State::empty();
    for step in script.tape.steps().take(index) {
        relay::step(&mut state, step[0], &step[3..]).expect("a good step");
    }
    let places = state.table.controls().unwrap_or(&state.table.places);
    let before = step_bytes(relay::PUT, &put_body(state.number, state.table.count, places));
    format!(
        "difference in `relay`\nstate before, as a step: {}\nstep: {}\n{answers}",
        hex(&before),
        hex(script.tape.step(index))
    )
}

/// The configurations that a script plugs in.
fn configurations(script: &Script) -> impl Iterator<Item = &[u8]> {
    script.tape.steps().filter(|step| step[0] == PLUG_IN).map(|step| &step[3..])
}

fn hex(bytes: &[u8]) -> String {
    let all: Vec<String> = bytes.iter().map(|byte| format!("{byte:02X}")).collect();
    all.join(" ")
}

/// Compares the sheets of the configurations, on all processors.
fn compare_sheets(job: &Job, script: &Script) -> Result<usize, String> {
    if job.every == 0 {
        return Ok(0);
    }
    let chosen: Vec<&[u8]> = configurations(script).step_by(job.every).collect();
    let workers = std::thread::available_parallelism().map_or(1, usize::from);
    let share = chosen.len().div_ceil(workers).max(1);
    let results: Vec<Result<(), String>> = std::thread::scope(|scope| {
        let handles: Vec<_> = chosen
            .chunks(share)
            .map(|part| scope.spawn(|| part.iter().try_for_each(|one| compare_sheet(job, one))))
            .collect();
        handles.into_iter().map(|one| one.join().expect("no panic")).collect()
    });
    results.into_iter().collect::<Result<(), String>>()?;
    Ok(chosen.len())
}

fn compare_sheet(job: &Job, config: &[u8]) -> Result<(), String> {
    let wanted = sheet::program(config);
    let got = output(&job.sheet, config)?;
    if got == wanted.as_bytes() {
        return Ok(());
    }
    Err(format!(
        "difference in `sheet`\nconfiguration: {}\nsecond prints:\n{wanted}other prints:\n{}",
        hex(config),
        String::from_utf8_lossy(&got)
    ))
}
