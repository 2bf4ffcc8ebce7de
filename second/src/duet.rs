//! The program `duet`: the duet box over a script of steps, each as in [`relay`]: a kind byte, a
//! two-byte length n (low byte first), then n bytes. What is no step prints `bad step` and ends the
//! program.

use crate::cut::two_bytes;
use crate::numbers::{CONTROLS, SHEET};
use crate::relay::{
    self, each_step, over_body, plain, read_load, refused, take, BadStep, Printed, PUT_CONTROL,
};
use crate::requests::State;
use crate::sides::{self, Duet, Refused, Side};
use crate::ways::Way;

/// 01: side, a configuration.
pub const PLUG_IN: u8 = 1;
/// 02: side, a load as in `relay`.
pub const LOAD: u8 = 2;
/// 03: a request as in `relay`.
pub const REQUEST: u8 = 3;
/// 04: nothing.
pub const SHOW: u8 = 4;
/// 05: a state, unchecked.
pub const PUT: u8 = 5;
/// 06: side.
pub const UNPLUG: u8 = 6;
/// 07: side, ID, two bytes a, a bytes of the left configuration, the right one.
pub const STRETCH: u8 = 7;

/// Runs a whole script.
pub fn program(script: &[u8]) -> String {
    let mut duet = Duet::empty();
    each_step(script, |rest| {
        let (kind, body, after) = take(rest)?;
        Ok((step(&mut duet, kind, body)?, after))
    })
}

/// One step. An unknown kind, a side byte over 1 or a body of the wrong length for its kind is a bad
/// step.
pub fn step(duet: &mut Duet, kind: u8, body: &[u8]) -> Result<Printed, BadStep> {
    match kind {
        PLUG_IN => plug_in(duet, body),
        LOAD => load(duet, body),
        REQUEST => over_body(body, |setup, data, reply| duet.request(setup, data, reply)),
        SHOW if body.is_empty() => Ok(plain(show(duet))),
        PUT => put(body).map(|given| {
            *duet = given;
            plain("put\n".to_string())
        }),
        UNPLUG => unplug(duet, body),
        STRETCH => stretch(body),
        _ => Err(BadStep),
    }
}

/// The side byte and what follows it.
fn sided(body: &[u8]) -> Result<(Side, &[u8]), BadStep> {
    let (&number, rest) = body.split_first().ok_or(BadStep)?;
    Ok((Side::of(number).ok_or(BadStep)?, rest))
}

/// `refused N at P` for the reader's, else `refused N`.
fn told(refusal: Refused) -> Printed {
    match refusal {
        Refused::Own(way) => refused(way),
        Refused::Reader(one) => Printed { lines: one.line(), way: Some(one.way) },
    }
}

/// `word`, or the refusal.
fn done(word: &str, outcome: Result<(), Way>) -> Printed {
    match outcome {
        Ok(()) => plain(format!("{word}\n")),
        Err(way) => refused(way),
    }
}

fn plug_in(duet: &mut Duet, body: &[u8]) -> Result<Printed, BadStep> {
    let (side, config) = sided(body)?;
    Ok(match duet.plug_in(side, config, &mut [0; SHEET]) {
        Ok(answer) => plain(answer.line()),
        Err(refusal) => told(refusal),
    })
}

fn load(duet: &mut Duet, body: &[u8]) -> Result<Printed, BadStep> {
    let (side, rest) = sided(body)?;
    let load = read_load(rest)?;
    Ok(done("loaded", duet.load(side, &load)))
}

fn unplug(duet: &mut Duet, body: &[u8]) -> Result<Printed, BadStep> {
    match sided(body)? {
        (side, []) => Ok(done("unplugged", duet.unplug(side))),
        _ => Err(BadStep),
    }
}

/// `left`, then `empty`, or `at` with the microphone's own AudioControl number, and the table; `right`
/// and the same.
fn show(duet: &Duet) -> String {
    let mut lines = String::new();
    for (side, word) in Side::BOTH.into_iter().zip(["left\n", "right\n"]) {
        lines += word;
        lines += &match duet.side(side) {
            None => "empty\n".to_string(),
            Some(State { number, table }) => format!("at {number}\n{}", relay::show(table)),
        };
    }
    lines
}

/// Both sides one after the other, and nothing behind them.
fn put(body: &[u8]) -> Result<Duet, BadStep> {
    let (left, rest) = put_side(body)?;
    let (right, rest) = put_side(rest)?;
    if !rest.is_empty() {
        return Err(BadStep);
    }
    Ok(Duet { sides: [left, right] })
}

/// A byte, 0 for an empty side; else the number, the count, how many controls are given (at most
/// 128), and these.
fn put_side(bytes: &[u8]) -> Result<(Option<State>, &[u8]), BadStep> {
    let (&plugged, rest) = bytes.split_first().ok_or(BadStep)?;
    if plugged == 0 {
        return Ok((None, rest));
    }
    if rest.len() < 5 {
        return Err(BadStep);
    }
    let given = two_bytes(rest, 3);
    if given > CONTROLS {
        return Err(BadStep);
    }
    let controls = rest.get(5..5 + PUT_CONTROL * given).ok_or(BadStep)?;
    let state = relay::put_state(rest[0], two_bytes(rest, 1) as u16, controls)?;
    Ok((Some(state), &rest[5 + controls.len()..]))
}

/// `bytes` and each byte of the entity, or the refusal.
fn stretch(body: &[u8]) -> Result<Printed, BadStep> {
    let (side, rest) = sided(body)?;
    if rest.len() < 3 {
        return Err(BadStep);
    }
    let (id, length, configs) = (rest[0], two_bytes(rest, 1), &rest[3..]);
    let (left, right) = configs.split_at_checked(length).ok_or(BadStep)?;
    Ok(match sides::stretch(side, id, left, right) {
        Ok(bytes) => {
            let hex: String = bytes.iter().map(|byte| format!(" {byte:02X}")).collect();
            plain(format!("bytes{hex}\n"))
        }
        Err(refusal) => told(refusal),
    })
}

#[cfg(test)]
mod tests {
    use super::*;
    use crate::generator::build::case_a;
    use crate::generator::script::step_bytes;

    #[test]
    fn case_a_on_both_sides() {
        let plug = |side: u8| step_bytes(PLUG_IN, &[&[side][..], &case_a()].concat());
        let load = [1, 2, 1, 2, 0x00, 0xEC, 0, 0, 0, 1, 0x80, 0xFE];
        let get = |side| [64, 0, 8, 0xA1, 0x81, 1, 2, side, 2, 2, 0];
        let script = [
            plug(1),
            step_bytes(LOAD, &load),
            plug(0),
            step_bytes(REQUEST, &get(1)),
            step_bytes(REQUEST, &get(0)),
            step_bytes(SHOW, &[]),
            step_bytes(UNPLUG, &[0]),
            step_bytes(SHOW, &[]),
        ];
        let right = "right\nat 0\ntable 2\n2 0 1 0 0 0 0 0 0\n2 1 2 0 1 60416 0 256 65024\n";
        let printed = format!(
            "accepted 0 3 2\nloaded\naccepted 0 3 2\ngot 00 FE\nrefused 36\nleft\nat 0\ntable 2\n\
             2 0 1 0 0 0 0 0 0\n2 1 2 0 0 0 0 0 0\n{right}unplugged\nleft\nempty\n{right}"
        );
        assert_eq!(program(&script.concat()), printed);
    }

    #[test]
    fn a_put_and_a_stretch() {
        let a = case_a();
        let put = [1, 9, 1, 0, 0, 0, 0];
        assert_eq!(program(&step_bytes(PUT, &put)), "put\n");
        let shown = [step_bytes(PUT, &put), step_bytes(SHOW, &[])].concat();
        assert_eq!(program(&shown), "put\nleft\nat 9\ntable 1\n0 0 0 0 0 0 0 0 0\nright\nempty\n");
        let ask = |side, id| {
            let body = [&[side, id, 2, 0, 9, 9][..], &a].concat();
            program(&step_bytes(STRETCH, &body))
        };
        assert_eq!(ask(1, 3), "bytes 09 24 03 03 01 01 00 02 00\n");
        assert_eq!(ask(1, 4), "refused 64\n");
        assert_eq!(ask(0, 3), "refused 1 at 0\n");
        assert_eq!(ask(2, 3), "bad step\n");
    }
}
