//! The relay box a second time, written from the papers alone, and the generator of the vectors
//! that hold both programs.
//!
//! The work stands in three layers, as in document 01: cutting ([`cut`]), topology ([`entity`],
//! [`topology`], [`streaming`], put together by [`reader`]) and requests ([`controls`],
//! [`settings`], [`requests`]). Above them stand the programs [`sheet`], [`lend`] and [`relay`], the
//! duet box ([`sides`]) with its program [`duet`], and beside them the two forms of a sheet
//! ([`forms`]), what changed between two sheets ([`differences`], [`sheets`]), the mover from one form
//! to the other ([`mover`]), the routes up to the Input Terminals ([`routes`]), the writer of a header
//! and a run ([`writer`]), the 3.0 edition ([`edition3`]) with its programs ([`lend3`]) and the
//! [`generator`].
//!
//! `second sheet`, `second lend`, `second relay`, `second sheets`, `second routes`, `second writer`,
//! `second duet`, `second lend3`: the programs, from standard input to standard output.
//! `second sheet3`: the program `sheet3`, with the file `clusters` of the folder.
//! `second differ`: the program `compare`, over the files `left` and `right` of the folder.
//! `second move new|old`: the program `move`.
//! `second way ID`: the program `way`.
//! `second vectors DIR [--report]`: writes the vectors; fails if a clause is not reached.
//! `second fuzz SEED COUNT`: a fresh script of COUNT configurations and COUNT other steps.
//! `second compare SEED COUNT EVERY SHEET LEND RELAY SHEETS MOVE ROUTES WRITER DUET LEND3`: fresh inputs
//! through the programs SHEET, LEND, RELAY, SHEETS, MOVE, ROUTES, WRITER, DUET and LEND3 (each a
//! command with its arguments) and through this one; one configuration in EVERY goes through SHEET,
//! and as many sheets through MOVE.

#![deny(missing_docs)]

mod controls;
mod cut;
mod differences;
mod duet;
mod edition3;
mod entity;
mod forms;
mod generator;
mod lend;
mod lend3;
mod mover;
mod numbers;
mod reader;
mod relay;
mod requests;
mod routes;
mod settings;
mod sheet;
mod sheets;
mod sides;
mod streaming;
mod topology;
mod ways;
mod writer;

use std::io::{self, Read, Write};
use std::path::Path;
use std::process::ExitCode;

use generator::{compare, vectors};

const USAGE: &str = "usage: second sheet | lend | relay | sheets | differ | move new|old \
                     | routes | way ID | writer | duet | lend3 | sheet3 | vectors DIR [--report] \
                     | fuzz SEED COUNT | compare SEED COUNT EVERY SHEET LEND RELAY SHEETS MOVE \
                     ROUTES WRITER DUET LEND3";

fn main() -> ExitCode {
    let arguments: Vec<String> = std::env::args().skip(1).collect();
    let words: Vec<&str> = arguments.iter().map(String::as_str).collect();
    match run(&words) {
        Ok(printed) => match io::stdout().write_all(&printed) {
            Ok(()) => ExitCode::SUCCESS,
            Err(_) => ExitCode::FAILURE,
        },
        Err(message) => {
            eprintln!("{message}");
            ExitCode::FAILURE
        }
    }
}

/// What a subcommand prints, or why it fails.
fn run(words: &[&str]) -> Result<Vec<u8>, String> {
    match words {
        ["sheet"] => Ok(sheet::program(&input()?).into_bytes()),
        ["lend"] => Ok(lend::program(&input()?).into_bytes()),
        ["lend3"] => Ok(lend3::program(&input()?).into_bytes()),
        ["sheet3"] => lend3::told(Path::new("."), input).map(String::into_bytes),
        ["relay"] => Ok(relay::program(&input()?).into_bytes()),
        ["duet"] => Ok(duet::program(&input()?).into_bytes()),
        ["sheets"] => Ok(sheets::program(&input()?).into_bytes()),
        ["move", words @ ..] => mover::program(words, input),
        ["routes"] => Ok(routes::program(&input()?).into_bytes()),
        ["way", words @ ..] => routes::way(words, input),
        ["writer"] => Ok(writer::program(&input()?).into_bytes()),
        ["differ"] => Ok(sheets::compare(Path::new(".")).into_bytes()),
        ["vectors", dir] => write_vectors(dir, false),
        ["vectors", dir, "--report"] => write_vectors(dir, true),
        ["fuzz", seed, count] => {
            Ok(compare::script(number(seed)?, number(count)? as usize).tape.bytes)
        }
        ["compare", seed, count, every, programs @ ..] if programs.len() == 9 => {
            let command = |text: &str| text.split_whitespace().map(str::to_string).collect();
            let job = compare::Job {
                seed: number(seed)?,
                count: number(count)? as usize,
                sheet: command(programs[0]),
                lend: command(programs[1]),
                relay: command(programs[2]),
                sheets: command(programs[3]),
                mover: command(programs[4]),
                routes: command(programs[5]),
                writer: command(programs[6]),
                duet: command(programs[7]),
                lend3: command(programs[8]),
                every: number(every)? as usize,
            };
            compare::run(&job).map(|line| (line + "\n").into_bytes())
        }
        _ => Err(USAGE.to_string()),
    }
}

fn input() -> Result<Vec<u8>, String> {
    let mut bytes = Vec::new();
    io::stdin().read_to_end(&mut bytes).map_err(|error| error.to_string())?;
    Ok(bytes)
}

fn number(word: &str) -> Result<u64, String> {
    word.parse().map_err(|_| format!("not a number: {word}"))
}

/// Writes the vectors, unless something that the papers name is not reached.
fn write_vectors(dir: &str, report: bool) -> Result<Vec<u8>, String> {
    let made = vectors::make();
    let missing = made.missing();
    if !missing.is_empty() {
        return Err(format!("not reached:\n{}", missing.join("\n")));
    }
    made.write(Path::new(dir)).map_err(|error| format!("{dir}: {error}"))?;
    Ok(if report { made.report().into_bytes() } else { Vec::new() })
}
