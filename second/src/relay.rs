//! The program `relay`: the box over a script of steps.
//!
//! A step is a kind byte, a two-byte length n (low byte first), then n bytes. Each step prints its
//! answer; what is no step prints `bad step` and ends the program.

use crate::controls::{Control, Table};
use crate::cut::two_bytes;
use crate::numbers::{CONTROLS, REPLY, SHEET, STEP};
use crate::reader;
use crate::requests::{self, Load, Reply, State};
use crate::ways::Way;

/// 01: a configuration.
pub const PLUG_IN: u8 = 1;
/// 02: unit, channel, selector, MIN, MAX, RES, CUR.
pub const LOAD: u8 = 2;
/// 03: room of the reply, length of the setup, setup, data.
pub const REQUEST: u8 = 3;
/// 04: nothing.
pub const SHOW: u8 = 4;
/// 05: a state, unchecked.
pub const PUT: u8 = 5;

/// The bytes of a put before its controls: a number and a count.
pub const PUT_OPENING: usize = 3;
/// The bytes of one control in a put.
pub const PUT_CONTROL: usize = 13;

/// What a step prints, and the clause if it is a refusal.
#[derive(Clone, Debug, PartialEq, Eq)]
pub struct Printed {
    /// The lines, each with its end.
    pub lines: String,
    /// The clause of a refusal.
    pub way: Option<Way>,
}

/// Something that is no step.
#[derive(Clone, Copy, Debug, PartialEq, Eq)]
pub struct BadStep;

/// What a program prints over a whole input, given what the first step of what is left prints and what
/// follows it. What is no step ends the program.
pub fn each_step(
    input: &[u8],
    mut first: impl FnMut(&[u8]) -> Result<(Printed, &[u8]), BadStep>,
) -> String {
    let mut printed = String::new();
    let mut rest = input;
    while !rest.is_empty() {
        let Ok((step, after)) = first(rest) else {
            return printed + "bad step\n";
        };
        printed += &step.lines;
        rest = after;
    }
    printed
}

/// Runs a whole script.
pub fn program(script: &[u8]) -> String {
    let mut state = State::empty();
    each_step(script, |rest| {
        let (kind, body, after) = take(rest)?;
        Ok((step(&mut state, kind, body)?, after))
    })
}

/// The first step of what is not empty: its kind, its bytes, and what follows. "an n over 8,192 ...
/// or an input that ends within a step" is none.
pub fn take(script: &[u8]) -> Result<(u8, &[u8], &[u8]), BadStep> {
    if script.len() < 3 {
        return Err(BadStep);
    }
    let n = two_bytes(script, 1);
    if n > STEP || script.len() < 3 + n {
        return Err(BadStep);
    }
    Ok((script[0], &script[3..3 + n], &script[3 + n..]))
}

/// One step. "An unknown kind ... a body of the wrong length for its kind" is a bad step.
pub fn step(state: &mut State, kind: u8, body: &[u8]) -> Result<Printed, BadStep> {
    match kind {
        PLUG_IN => Ok(plug_in(state, body)),
        LOAD => load(state, body),
        REQUEST => request(state, body),
        SHOW if body.is_empty() => Ok(plain(show(&state.table))),
        PUT => put(body).map(|given| {
            *state = given;
            plain("put\n".to_string())
        }),
        _ => Err(BadStep),
    }
}

/// An answer that is no refusal.
pub fn plain(lines: String) -> Printed {
    Printed { lines, way: None }
}

/// `refused N`.
pub fn refused(way: Way) -> Printed {
    Printed { lines: format!("refused {}\n", way.number()), way: Some(way) }
}

/// "The box's state becomes what the reader answers": `accepted I E C` or `refused N at P`.
fn plug_in(state: &mut State, config: &[u8]) -> Printed {
    let answer = reader::read(config, &mut [0; SHEET]);
    let printed = Printed { lines: answer.line(), way: answer.way() };
    *state = answer.state;
    printed
}

/// 11 bytes.
fn load(state: &mut State, body: &[u8]) -> Result<Printed, BadStep> {
    let load = read_load(body)?;
    Ok(match requests::load(&mut state.table, &load) {
        Ok(()) => plain("loaded\n".to_string()),
        Err(way) => refused(way),
    })
}

/// A load from its 11 bytes.
pub fn read_load(body: &[u8]) -> Result<Load, BadStep> {
    if body.len() != 11 {
        return Err(BadStep);
    }
    let number = |at| two_bytes(body, at) as u16;
    Ok(Load {
        name: (body[0], body[1], body[2]),
        min: number(3),
        max: number(5),
        res: number(7),
        cur: number(9),
    })
}

fn request(state: &mut State, body: &[u8]) -> Result<Printed, BadStep> {
    over_body(body, |setup, data, reply| requests::request(state, setup, data, reply))
}

/// "two bytes: room m of the reply buffer (at most 64); one byte: length s of the setup; s bytes
/// of setup; the rest is the data of a Set": what `ask` answers to that request, printed.
pub fn over_body(
    body: &[u8],
    ask: impl FnOnce(&[u8], &[u8], &mut [u8]) -> Result<Reply, Way>,
) -> Result<Printed, BadStep> {
    if body.len() < 3 || body.len() < 3 + usize::from(body[2]) {
        return Err(BadStep);
    }
    let room = two_bytes(body, 0).min(REPLY);
    let (setup, data) = body[3..].split_at(usize::from(body[2]));
    let mut reply = [0; REPLY];
    Ok(match ask(setup, data, &mut reply[..room]) {
        Ok(Reply::Set) => plain("set\n".to_string()),
        Ok(Reply::Got(size)) => {
            let bytes: String = reply[..size].iter().map(|byte| format!(" {byte:02X}")).collect();
            plain(format!("got{bytes}\n"))
        }
        Err(way) => refused(way),
    })
}

/// "`table C`, then, if C is at most 128, a line for each control".
pub fn show(table: &Table) -> String {
    let mut lines = format!("table {}\n", table.count);
    for one in table.controls().unwrap_or(&[]) {
        let fields = [
            u16::from(one.unit),
            u16::from(one.channel),
            u16::from(one.selector),
            u16::from(one.pins),
            u16::from(one.loaded),
            one.min,
            one.max,
            one.res,
            one.cur,
        ];
        lines += &fields.map(|field| field.to_string()).join(" ");
        lines += "\n";
    }
    lines
}

/// "AudioControl number; count, two bytes; then at most 128 controls of 13 bytes ... The places
/// not given are all zeros. The state becomes exactly this, unchecked".
fn put(body: &[u8]) -> Result<State, BadStep> {
    if body.len() < PUT_OPENING {
        return Err(BadStep);
    }
    put_state(body[0], two_bytes(body, 1) as u16, &body[PUT_OPENING..])
}

/// A state of this number and count with these controls, "at most 128 controls of 13 bytes".
pub fn put_state(number: u8, count: u16, bytes: &[u8]) -> Result<State, BadStep> {
    let controls = bytes.chunks_exact(PUT_CONTROL);
    if !controls.remainder().is_empty() || controls.len() > CONTROLS {
        return Err(BadStep);
    }
    let mut table = Table::empty();
    table.count = count;
    for (place, bytes) in table.places.iter_mut().zip(controls) {
        *place = put_control(bytes);
    }
    Ok(State { number, table })
}

/// "unit, channel, selector, pins, loaded (0 no, else yes), MIN, MAX, RES, CUR two bytes each".
fn put_control(bytes: &[u8]) -> Control {
    let number = |at| two_bytes(bytes, at) as u16;
    Control {
        unit: bytes[0],
        channel: bytes[1],
        selector: bytes[2],
        pins: bytes[3],
        loaded: bytes[4] != 0,
        min: number(5),
        max: number(7),
        res: number(9),
        cur: number(11),
    }
}

#[cfg(test)]
mod tests {
    use super::*;
    use crate::generator::build::case_a;

    fn script(steps: &[(u8, &[u8])]) -> Vec<u8> {
        let mut bytes = Vec::new();
        for (kind, body) in steps {
            bytes.push(*kind);
            bytes.extend((body.len() as u16).to_le_bytes());
            bytes.extend(*body);
        }
        bytes
    }

    #[test]
    fn case_a_over_a_script() {
        let a = case_a();
        let load = [2, 1, 2, 0x00, 0xEC, 0, 0, 0, 1, 0x80, 0xFE];
        let get = [64, 0, 8, 0xA1, 0x81, 1, 2, 0, 2, 2, 0];
        let set = [0, 0, 8, 0x21, 1, 1, 2, 0, 2, 2, 0, 0x00, 0x80];
        let steps = [(1, &a[..]), (2, &load), (3, &get), (3, &set), (3, &get), (4, &[])];
        let printed = "accepted 0 3 2\nloaded\ngot 00 FE\nset\ngot 00 80\ntable 2\n\
                       2 0 1 0 0 0 0 0 0\n2 1 2 0 1 60416 0 256 32768\n";
        assert_eq!(program(&script(&steps)), printed);
    }

    #[test]
    fn what_is_no_step_ends_the_program() {
        assert_eq!(program(&[]), "");
        for bad in [&[0, 0, 0][..], &[6, 0, 0], &[4], &[4, 0], &[4, 1, 0, 0], &[1, 1, 0]] {
            assert_eq!(program(bad), "bad step\n", "{bad:?}");
        }
        assert_eq!(program(&script(&[(1, &[0; 8193])])), "bad step\n");
        assert_eq!(program(&script(&[(1, &[0; 8192])])), "refused 1 at 0\n");
        assert_eq!(program(&script(&[(2, &[0; 10]), (4, &[])])), "bad step\n");
        assert_eq!(program(&script(&[(3, &[0, 0, 9, 0, 0, 0, 0, 0, 0, 0, 0])])), "bad step\n");
        assert_eq!(program(&script(&[(5, &[0; 15])])), "bad step\n");
        assert_eq!(program(&script(&[(5, &[0; 3 + 13 * 129])])), "bad step\n");
    }

    #[test]
    fn a_put_is_not_checked() {
        let steps = [(5, &[3, 0x81, 0][..]), (4, &[]), (2, &[0; 11])];
        assert_eq!(program(&script(&steps)), "put\ntable 129\nrefused 30\n");
    }
}
