//! Steps made on purpose: loads, requests and tables, each rule just kept and just broken, with
//! the answers that document 01 gives. Requests for all channels stand in `blocks`.

use super::blocks;
use super::build::{case_a, telephone, Part, Plan, Telephone};
use super::configs::desk;
use super::script::{load_body, put_body, request_body, setup, Script};
use crate::controls::Control;
use crate::numbers::{CONTROLS, PINS};
use crate::relay::{LOAD, PLUG_IN, PUT, REQUEST, SHOW};
use crate::ways::Way;

/// Type and request of a Set and of each Get.
pub const SET: (u8, u8) = (0x21, 0x01);
pub const CUR: (u8, u8) = (0xA1, 0x81);
pub const MIN: (u8, u8) = (0xA1, 0x82);
pub const MAX: (u8, u8) = (0xA1, 0x83);
pub const RES: (u8, u8) = (0xA1, 0x84);

/// The selector numbers of ranged controls of two bytes and of one.
pub const WIDE: [u8; 2] = [2, 8];
const NARROW: [u8; 3] = [3, 4, 5];
pub const YES_NO: [u8; 4] = [1, 7, 9, 10];

type Name = (u8, u8, u8);

/// All steps made on purpose.
pub fn all(script: &mut Script) {
    before_plug_in(script);
    papers(script);
    refused_plug_in(script);
    loads(script);
    sets_and_gets(script);
    request_refusals(script);
    cut_gets(script);
    selectors(script);
    closest_sweeps(script);
    good_tables(script);
    spoilt_tables(script);
    every_field(script);
    full_tables(script);
    blocks::all(script);
}

/// A number of two bytes, as it is held.
pub fn signed(number: i32) -> u16 {
    number as u16
}

/// A number of one byte, as it is held.
pub fn narrow(number: i32) -> u16 {
    u16::from(number as u8)
}

/// The line of a Get that answers these bytes.
pub fn got(bytes: &[u8]) -> String {
    let hex: String = bytes.iter().map(|byte| format!(" {byte:02X}")).collect();
    format!("got{hex}")
}

/// Adds a load.
pub fn load(script: &mut Script, name: Name, numbers: [u16; 4], line: &str) {
    script.says(LOAD, &load_body(name, numbers), line);
}

/// Adds a Set of a value of so many bytes and a Get of what is then stored.
fn set_and_get(script: &mut Script, name: Name, wanted: u16, size: usize, stored: u16) {
    let number = script.state.number;
    let data = &wanted.to_le_bytes()[..size];
    let set = setup(SET, number, name, size as u16);
    script.says(REQUEST, &request_body(0, &set, data), "set");
    get(script, CUR, name, size, stored);
}

/// Adds a Get that answers `value`.
pub fn get(script: &mut Script, pair: (u8, u8), name: Name, size: usize, value: u16) {
    let number = script.state.number;
    let setup = setup(pair, number, name, size as u16);
    let line = got(&value.to_le_bytes()[..size]);
    script.says(REQUEST, &request_body(size as u16, &setup, &[]), &line);
}

/// A box with AudioControl number 4: unit 2 has every control on the master and on two channels,
/// unit 3 is a Selector of as many pins as may be, unit 4 one of one pin, unit 6 has no control.
fn bench() -> Vec<u8> {
    let masks = [0xFF, 0x03].repeat(3);
    let mut plan = Plan::new(
        vec![
            Part::Input { id: 1, terminal: 0x0201, cluster: (2, 3, 0) },
            Part::Feature { id: 2, source: 1, size: 2, masks },
            Part::Selector { id: 3, sources: vec![1; PINS] },
            Part::Selector { id: 4, sources: vec![2] },
            Part::Output { id: 5, terminal: 0x0301, source: 3 },
            Part::Feature { id: 6, source: 4, size: 1, masks: vec![0x20, 0, 0] },
        ],
        vec![],
    );
    plan.control[2] = 4;
    plan.bytes()
}

fn plug_bench(script: &mut Script) {
    script.says(PLUG_IN, &bench(), "accepted 4 6 29");
}

/// "The state before the first step: AudioControl number 0, an empty table."
fn before_plug_in(script: &mut Script) {
    script.says(SHOW, &[], "table 0");
    load(script, (0, 0, 0), [0; 4], "refused 20");
    let body = request_body(64, &setup(CUR, 1, (0, 0, 0), 1), &[]);
    script.fails(REQUEST, &body, Way::InterfaceNumber);
    let body = request_body(64, &setup(CUR, 0, (0, 0, 0), 1), &[]);
    script.fails(REQUEST, &body, Way::UnitUnknown);
    script.fails(REQUEST, &request_body(0, &[], &[]), Way::SetupLength);
}

/// Case A, the telephone and the settings of "Cases to prove together".
fn papers(script: &mut Script) {
    script.says(PLUG_IN, &case_a(), "accepted 0 3 2");
    let volume = (2, 1, 2);
    load(script, volume, [signed(-5120), 0, 256, signed(-300)], "loaded");
    get(script, CUR, volume, 2, signed(-256));
    get(script, MIN, volume, 2, signed(-5120));
    get(script, MAX, volume, 2, 0);
    get(script, RES, volume, 2, 256);
    for (wanted, stored) in [(-300, -256), (-384, -512), (500, 0), (-32768, -32768)] {
        set_and_get(script, volume, signed(wanted), 2, signed(stored));
    }
    script.step(SHOW, &[]);
    script.says(PLUG_IN, &telephone(Telephone::Printed, 2, 0x64), "refused 17 at 91");
    script.says(SHOW, &[], "table 0");
    script.says(PLUG_IN, &telephone(Telephone::Tables, 2, 0x61), "accepted 0 9 3");
    for unit in 7..=9 {
        get(script, CUR, (unit, 0, 0), 1, 1);
        set_and_get(script, (unit, 0, 0), 2, 1, 2);
        set_and_get(script, (unit, 0, 0), 1, 1, 1);
    }
    script.step(SHOW, &[]);
}

/// "A refused plug-in leaves the reader's answer: number 0, empty table."
fn refused_plug_in(script: &mut Script) {
    plug_bench(script);
    script.step(SHOW, &[]);
    script.says(PLUG_IN, &bench()[1..], "refused 2 at 0");
    script.says(SHOW, &[], "table 0");
    let body = request_body(64, &setup(CUR, 4, (2, 0, 1), 1), &[]);
    script.fails(REQUEST, &body, Way::InterfaceNumber);
}

/// Refusals 20 and 21, and loads just kept.
fn loads(script: &mut Script) {
    plug_bench(script);
    let range = [0, 10, 1, 5];
    for name in [(1, 0, 2), (5, 0, 2), (9, 0, 2), (2, 3, 2), (2, 0, 6), (2, 0, 11), (2, 0, 0)] {
        script.fails(LOAD, &load_body(name, range), Way::LoadUnknown);
    }
    for name in [(6, 0, 6), (3, 0, 2), (3, 1, 0), (0, 0, 0), (2, 255, 2), (2, 2, 0)] {
        script.fails(LOAD, &load_body(name, range), Way::LoadUnknown);
    }
    for selector in YES_NO {
        script.fails(LOAD, &load_body((2, 1, selector), range), Way::LoadUnranged);
    }
    for unit in [3, 4] {
        script.fails(LOAD, &load_body((unit, 0, 0), range), Way::LoadUnranged);
    }
    volume_loads(script);
    delay_loads(script);
    tone_loads(script);
    script.step(SHOW, &[]);
}

fn volume_loads(script: &mut Script) {
    let volume = (2, 1, 2);
    let low = signed(-32767);
    let high = signed(32767);
    for (numbers, way) in [
        ([1, 0, 1, 0], Way::LoadOrder),
        ([0, signed(-1), 1, 0], Way::LoadOrder),
        ([high, low, 1, 0], Way::LoadOrder),
        ([0, 0, 0, 0], Way::LoadResZero),
        ([0, 10, 0x8000, 0], Way::LoadResHigh),
        ([0, 10, 0xFFFF, 0], Way::LoadResHigh),
        ([0x8000, 0, 1, 0], Way::LoadVolumeMin),
        ([0x8000, 0x8000, 1, 0x8000], Way::LoadVolumeMin),
        ([0, 0x8000, 1, 0], Way::LoadOrder),
    ] {
        script.fails(LOAD, &load_body(volume, numbers), way);
        get_not_loaded(script, volume);
    }
    for (numbers, stored) in [
        ([0, 0, 1, 77], 0),
        ([0, 0, 32767, signed(-77)], 0),
        ([low, high, 1, 0x8001], low),
        ([low, high, 1, 0x8000], 0x8000),
        ([low, high, 32767, 16383], 0),
        ([low, high, 32767, signed(-16384)], low),
        ([low, high, 32767, 16384], high),
        ([low, signed(32766), 32767, 32767], 0),
        ([0, 32767, 32767, 16383], 0),
        ([0, 32767, 32767, 16384], 32767),
        ([1, 4, 2, 2], 1),
        ([1, 4, 2, 4], 3),
        ([signed(-5), signed(-1), 3, 0], signed(-2)),
        ([signed(-5), signed(-1), 4, signed(-3)], signed(-5)),
        ([high, high, 1, low], high),
        ([low, low, 1, 0], low),
    ] {
        load(script, volume, numbers, "loaded");
        get(script, CUR, volume, 2, stored);
        get(script, MIN, volume, 2, numbers[0]);
        get(script, MAX, volume, 2, numbers[1]);
        get(script, RES, volume, 2, numbers[2]);
    }
    script.fails(LOAD, &load_body(volume, [2, 1, 1, 1]), Way::LoadOrder);
    get(script, MIN, volume, 2, low);
}

fn get_not_loaded(script: &mut Script, name: Name) {
    let number = script.state.number;
    let body = request_body(64, &setup(CUR, number, name, 2), &[]);
    script.fails(REQUEST, &body, Way::NotLoaded);
}

fn delay_loads(script: &mut Script) {
    let delay = (2, 2, 8);
    for (numbers, way) in [
        ([1, 0, 1, 0], Way::LoadOrder),
        ([0x8000, 0x7FFF, 1, 0], Way::LoadOrder),
        ([0xFFFF, 0, 1, 0], Way::LoadOrder),
        ([0, 10, 0, 0], Way::LoadResZero),
    ] {
        script.fails(LOAD, &load_body(delay, numbers), way);
    }
    for (numbers, stored) in [
        ([0, 0xFFFF, 0xFFFF, 0x7FFF], 0),
        ([0, 0xFFFF, 0xFFFF, 0x8000], 0xFFFF),
        ([0, 0xFFFE, 0xFFFF, 0xFFFF], 0),
        ([0, 0xFFFF, 1, 0x8000], 0x8000),
        ([0x7FFF, 0x8000, 1, 0xFFFF], 0x8000),
        ([0x7FFF, 0x8000, 1, 0], 0x7FFF),
        ([0xFFFF, 0xFFFF, 0xFFFF, 0], 0xFFFF),
        ([0xFFF0, 0xFFFF, 6, 0xFFFF], 0xFFFC),
        ([0xFFF0, 0xFFFF, 6, 0xFFF3], 0xFFF0),
    ] {
        load(script, delay, numbers, "loaded");
        get(script, CUR, delay, 2, stored);
        get(script, RES, delay, 2, numbers[2]);
    }
}

fn tone_loads(script: &mut Script) {
    for (selector, channel) in NARROW.into_iter().zip(0..) {
        let tone = (2, channel, selector);
        for (numbers, way) in [
            ([narrow(1), 0, 1, 0], Way::LoadOrder),
            ([0, narrow(-1), 1, 0], Way::LoadOrder),
            ([0, 0x80, 1, 0], Way::LoadOrder),
            ([0, 10, 0, 0], Way::LoadResZero),
            ([0, 10, 128, 0], Way::LoadResHigh),
            ([0, 10, 255, 0], Way::LoadResHigh),
            ([256, 10, 1, 0], Way::LoadWide),
            ([0xFFF6, 9, 4, 9], Way::LoadWide),
            ([0, 256, 1, 0], Way::LoadWide),
            ([0, 10, 256, 0], Way::LoadWide),
            ([0, 10, 257, 0], Way::LoadWide),
            ([0, 10, 1, 256], Way::LoadWide),
            ([0, 10, 1, 0xFFFF], Way::LoadWide),
            ([0, 10, 1, 0x8000], Way::LoadWide),
        ] {
            script.fails(LOAD, &load_body(tone, numbers), way);
        }
        for (numbers, stored) in [
            ([narrow(-10), 9, 4, 9], 6),
            ([narrow(-128), 127, 127, narrow(-64)], narrow(-1)),
            ([narrow(-128), 127, 127, narrow(-65)], narrow(-128)),
            ([narrow(-128), 127, 1, narrow(-128)], narrow(-128)),
            ([narrow(-128), narrow(-128), 127, 0], narrow(-128)),
            ([127, 127, 1, narrow(-1)], 127),
            ([narrow(-1), 0, 1, narrow(-100)], narrow(-1)),
        ] {
            load(script, tone, numbers, "loaded");
            get(script, CUR, tone, 1, stored);
            get(script, MIN, tone, 1, numbers[0]);
            get(script, MAX, tone, 1, numbers[1]);
            get(script, RES, tone, 1, numbers[2]);
        }
    }
}

/// Sets on both sides of each bound, later ones too, and Gets that change nothing.
fn sets_and_gets(script: &mut Script) {
    plug_bench(script);
    for selector in YES_NO {
        for channel in 0..=2 {
            let name = (2, channel, selector);
            get(script, CUR, name, 1, 0);
            for value in [1, 1, 0, 1] {
                set_and_get(script, name, value, 1, value);
            }
        }
    }
    let volume = (2, 0, 2);
    load(script, volume, [signed(-5120), 0, 256, 0], "loaded");
    for (wanted, stored) in [
        (-32768, -32768),
        (-32767, -5120),
        (-5121, -5120),
        (-4992, -5120),
        (-4991, -4864),
        (-128, -256),
        (-127, 0),
        (-129, -256),
        (0, 0),
        (32767, 0),
        (-32768, -32768),
        (-1, 0),
    ] {
        set_and_get(script, volume, signed(wanted), 2, signed(stored));
        get(script, CUR, volume, 2, signed(stored));
    }
    let delay = (2, 1, 8);
    load(script, delay, [10, 50000, 100, 10], "loaded");
    for (wanted, stored) in
        [(0, 10), (60, 10), (61, 110), (32768, 32810), (50000, 49910), (65535, 49910)]
    {
        set_and_get(script, delay, wanted, 2, stored);
    }
    script.step(SHOW, &[]);
}

/// Refusals 31 to 39, each clause, on each kind of control, and each just kept.
fn request_refusals(script: &mut Script) {
    plug_bench(script);
    load(script, (2, 0, 2), [0, 100, 1, 7], "loaded");
    load(script, (2, 0, 3), [0, 100, 1, 7], "loaded");
    let good = setup(CUR, 4, (2, 0, 2), 2);
    for length in [0, 1, 2, 7] {
        let body = request_body(64, &good[..length], &[]);
        script.fails(REQUEST, &body, Way::SetupLength);
    }
    for length in [9, 16, 255] {
        let mut longer = good.to_vec();
        longer.resize(length, 0);
        script.fails(REQUEST, &request_body(64, &longer, &[]), Way::SetupLength);
    }
    for pair in [
        (0x21, 0x81),
        (0x21, 0x82),
        (0x21, 0x02),
        (0x21, 0x03),
        (0x21, 0x04),
        (0x21, 0x00),
        (0xA1, 0x01),
        (0xA1, 0x80),
        (0xA1, 0x85),
        (0xA1, 0xFF),
        (0x22, 0x01),
        (0xA2, 0x81),
        (0x20, 0x01),
        (0x01, 0x01),
        (0x81, 0x81),
        (0, 0),
    ] {
        let body = request_body(64, &setup(pair, 4, (2, 0, 2), 2), &[0, 0]);
        script.fails(REQUEST, &body, Way::SetupRequest);
    }
    let ask = |pair, number, name, length| {
        request_body(64, &setup(pair, number, name, length), &vec![0; usize::from(length % 64)])
    };
    for pair in [SET, CUR, MIN, MAX, RES] {
        for number in [0, 3, 5, 255] {
            script.fails(REQUEST, &ask(pair, number, (2, 0, 2), 2), Way::InterfaceNumber);
        }
        for unit in [0, 1, 5, 6, 7, 255] {
            script.fails(REQUEST, &ask(pair, 4, (unit, 0, 2), 2), Way::UnitUnknown);
        }
        for (channel, selector) in [(0, 0), (0, 6), (0, 11), (3, 2), (254, 2), (2, 0), (1, 255)] {
            let body = ask(pair, 4, (2, channel, selector), 2);
            script.fails(REQUEST, &body, Way::ControlUnknown);
        }
        for unit in [3, 4] {
            for (channel, selector) in [(1, 0), (0, 1), (0, 2), (255, 0), (2, 2)] {
                let body = ask(pair, 4, (unit, channel, selector), 1);
                script.fails(REQUEST, &body, Way::SelectorValue);
            }
        }
        for selector in WIDE.into_iter().chain(NARROW) {
            script.fails(REQUEST, &ask(pair, 4, (2, 1, selector), 9), Way::NotLoaded);
        }
    }
    for pair in [MIN, MAX, RES] {
        for selector in YES_NO {
            script.fails(REQUEST, &ask(pair, 4, (2, 1, selector), 1), Way::UnrangedYesNo);
            script.fails(REQUEST, &ask(pair, 4, (2, 1, selector), 2), Way::UnrangedYesNo);
        }
        script.fails(REQUEST, &ask(pair, 4, (3, 0, 0), 1), Way::UnrangedPin);
    }
    lengths(script);
}

/// "a Get answers the first wLength bytes of the value, or all of it if wLength is larger; wLength
/// 0 answers nothing and is accepted", and 39 "when the reply buffer is shorter than the bytes to
/// be sent".
fn cut_gets(script: &mut Script) {
    plug_bench(script);
    let volume = [0xEC03, 0x002B, 0x0102, 0xEF09];
    let bass = [0x00EC, 0x0014, 0x0004, 0x0008];
    load(script, (2, 1, 2), volume, "loaded");
    load(script, (2, 1, 3), bass, "loaded");
    let ranged = |name: Name, size: usize, [min, max, res, cur]: [u16; 4]| {
        [(MIN, min), (MAX, max), (RES, res), (CUR, cur)]
            .map(|(pair, value)| (name, size, pair, value))
    };
    let mut asked = ranged((2, 1, 2), 2, volume).to_vec();
    asked.extend(ranged((2, 1, 3), 1, bass));
    asked.extend([((2, 1, 1), 1, CUR, 0), ((3, 0, 0), 1, CUR, 1)]);
    for (name, size, pair, value) in asked {
        for length in [0, 1, 2, 3, 64, 256, 0xFFFF] {
            let sent = &value.to_le_bytes()[..size.min(usize::from(length))];
            for room in [0, 1, 2, 64] {
                let body = request_body(room, &setup(pair, 4, name, length), &[]);
                if usize::from(room) < sent.len() {
                    script.fails(REQUEST, &body, Way::ReplyShort);
                } else {
                    script.says(REQUEST, &body, &got(sent));
                }
            }
        }
    }
}

/// Refusals 37, 38 and 39.
fn lengths(script: &mut Script) {
    for (name, size) in [((2, 0, 2), 2u16), ((2, 0, 3), 1), ((2, 0, 1), 1), ((3, 0, 0), 1)] {
        let pairs = if name.2 == 2 || name.2 == 3 { &[CUR, MIN, MAX, RES][..] } else { &[CUR] };
        let ones = [1, 0, 0, 0];
        for wrong in [0, 1, 2, 3, 64, 256, 257, 258, 0xFFFF] {
            if wrong == size {
                continue;
            }
            let data = vec![1; usize::from(wrong.min(4))];
            let body = request_body(64, &setup(SET, 4, name, wrong), &data);
            script.fails(REQUEST, &body, Way::SetLength);
            let body = request_body(64, &setup(SET, 4, name, wrong), &ones[..usize::from(size)]);
            script.fails(REQUEST, &body, Way::SetLength);
        }
        for length in 0..4 {
            let body = request_body(64, &setup(SET, 4, name, size), &ones[..length]);
            if length == usize::from(size) {
                script.says(REQUEST, &body, "set");
            } else {
                script.fails(REQUEST, &body, Way::SetData);
            }
        }
        for &pair in pairs {
            for room in [0, 1, 2, 3, 65, 0xFFFF] {
                let body = request_body(room, &setup(pair, 4, name, size), &[]);
                if room < size {
                    script.fails(REQUEST, &body, Way::ReplyShort);
                } else {
                    assert_eq!(script.step(REQUEST, &body).way, None);
                }
            }
            let body = request_body(64, &setup(pair, 4, name, size), &[9; 40]);
            assert_eq!(script.step(REQUEST, &body).way, None, "a Get does not look at the data");
        }
    }
    for selector in YES_NO {
        for value in [2, 3, 128, 255] {
            let body = request_body(0, &setup(SET, 4, (2, 0, selector), 1), &[value]);
            script.fails(REQUEST, &body, Way::SetYesNo);
        }
    }
    script.step(SHOW, &[]);
}

/// "A Selector's value is a pin".
fn selectors(script: &mut Script) {
    plug_bench(script);
    for (unit, pins) in [(3, PINS as u8), (4, 1)] {
        let name = (unit, 0, 0);
        get(script, CUR, name, 1, 1);
        let set = |value: u8| request_body(0, &setup(SET, 4, name, 1), &[value]);
        script.fails(REQUEST, &set(0), Way::SetPinZero);
        for value in [pins + 1, pins + 2, 0x80, 255] {
            script.fails(REQUEST, &set(value), Way::SetPinHigh);
        }
        get(script, CUR, name, 1, 1);
        for value in (1..=pins).rev() {
            set_and_get(script, name, u16::from(value), 1, u16::from(value));
        }
    }
    script.says(PLUG_IN, &desk().bytes(), "accepted 0 9 17");
    script.step(SHOW, &[]);
}

/// Each value of a one-byte control over several ranges, and windows of values of the others.
fn closest_sweeps(script: &mut Script) {
    plug_bench(script);
    for (min, max, res) in [(-10, 9, 4), (-128, 127, 127), (-128, 127, 1), (-7, 90, 10)] {
        load(script, (2, 1, 4), [narrow(min), narrow(max), res, 0], "loaded");
        for wanted in -128..=127 {
            let near = by_trial(min, max, i32::from(res), wanted);
            set_and_get(script, (2, 1, 4), narrow(wanted), 1, narrow(near));
        }
    }
    for (min, max, res) in
        [(-5120, 0, 256), (-32767, 32767, 32767), (-300, 301, 7), (-32767, -32000, 100)]
    {
        load(script, (2, 0, 2), [signed(min), signed(max), res, 0], "loaded");
        let res = i32::from(res);
        let edges =
            [min, max, min + res, min + res / 2, max - res / 2, max - res, -32767, 32767, 0];
        for wanted in edges.iter().flat_map(|edge| edge - 3..=edge + 3) {
            if (-32767..=32767).contains(&wanted) {
                let near = by_trial(min, max, res, wanted);
                set_and_get(script, (2, 0, 2), signed(wanted), 2, signed(near));
            }
        }
        set_and_get(script, (2, 0, 2), 0x8000, 2, 0x8000);
    }
    for (min, max, res) in [(0, 65535, 65535), (0, 65535, 2), (100, 40000, 33333), (1, 2, 3)] {
        load(script, (2, 2, 8), [min as u16, max as u16, res as u16, 0], "loaded");
        let edges = [min, max, min + res, min + res / 2, max - res / 2, 32768, 65535, 0];
        for wanted in edges.iter().flat_map(|edge| edge - 2..=edge + 2) {
            if (0..=65535).contains(&wanted) {
                let near = by_trial(min, max, res, wanted);
                set_and_get(script, (2, 2, 8), wanted as u16, 2, near as u16);
            }
        }
    }
}

/// The closest setting by trying every one, the lowest first.
pub fn by_trial(min: i32, max: i32, res: i32, wanted: i32) -> i32 {
    let settings = (0..).map(|k| min + k * res).take_while(|&setting| setting <= max);
    settings.min_by_key(|setting| (setting - wanted).abs()).expect("MIN is one")
}

/// A table that is one: every kind of control, loaded or not, at its bounds.
pub fn sample() -> Vec<Control> {
    let control = |channel, selector, numbers: Option<[u16; 4]>| {
        let [min, max, res, cur] = numbers.unwrap_or_default();
        let loaded = numbers.is_some();
        Control { unit: 2, channel, selector, pins: 0, loaded, min, max, res, cur }
    };
    let pin = |unit, pins, cur| Control { unit, pins, cur, ..Control::default() };
    vec![
        Control { loaded: false, cur: 1, ..control(0, 1, None) },
        control(0, 2, Some([signed(-5120), 0, 256, signed(-512)])),
        control(1, 3, Some([narrow(-10), 9, 4, 6])),
        control(2, 4, Some([narrow(-128), 127, 127, narrow(-1)])),
        control(16, 5, Some([narrow(-128), 127, 1, 127])),
        control(16, 7, None),
        control(3, 8, Some([0, 0xFFFF, 0xFFFF, 0xFFFF])),
        control(4, 9, None),
        Control { cur: 1, ..control(5, 10, None) },
        control(6, 2, None),
        control(7, 2, Some([signed(-32767), 32767, 32767, 0x8000])),
        pin(3, PINS as u8, PINS as u16),
        pin(4, 1, 1),
    ]
}

/// Two probes after a put: a load and a request that are good unless 30 is given.
fn probe(script: &mut Script, way: Option<Way>) {
    let load = load_body((2, 0, 2), [signed(-5120), 0, 256, 0]);
    let get = request_body(64, &setup(CUR, 9, (3, 0, 0), 1), &[]);
    for (kind, body) in [(LOAD, load), (REQUEST, get)] {
        match way {
            Some(way) => script.fails(kind, &body, way),
            None => assert_eq!(script.step(kind, &body).way, None),
        }
    }
}

/// Adds a put of a table with these controls, and AudioControl number 9.
pub fn put(script: &mut Script, controls: &[Control]) {
    script.says(PUT, &put_body(9, controls.len() as u16, controls), "put");
}

/// Tables that 30 does not refuse, though something in them is odd.
fn good_tables(script: &mut Script) {
    let kept = |script: &mut Script, change: &dyn Fn(&mut Vec<Control>)| {
        let mut controls = sample();
        change(&mut controls);
        put(script, &controls);
        probe(script, None);
    };
    put(script, &sample());
    script.step(SHOW, &[]);
    kept(script, &|_| {});
    kept(script, &|table| table[9].res = 0xFFFF);
    kept(script, &|table| {
        (table[9].min, table[9].max, table[9].cur) = (0x8000, 0x7000, 0xFFFF);
    });
    kept(script, &|table| table[2].loaded = false);
    kept(script, &|table| {
        table[2].loaded = false;
        table[2].min = 0x1234;
    });
    kept(script, &|table| table[0].loaded = true);
    kept(script, &|table| table[11].loaded = true);
    kept(script, &|table| table[0].pins = 200);
    kept(script, &|table| table[1].pins = 9);
    kept(script, &|table| (table[0].min, table[0].max, table[0].res) = (255, 1, 77));
    kept(script, &|table| (table[12].min, table[12].max, table[12].res) = (255, 1, 77));
    kept(script, &|table| table[0].unit = 0);
    kept(script, &|table| table[5].unit = 3);
    kept(script, &|table| table[12].unit = 2);
    kept(script, &|table| table.reverse());
    kept(script, &|table| table[1].cur = 0x8000);
    for pins in 1..=PINS as u8 {
        kept(script, &|table| (table[12].pins, table[12].cur) = (pins, u16::from(pins)));
        kept(script, &|table| table[12].pins = pins);
    }
    let mut spare = sample();
    spare.push(Control { unit: 2, selector: 200, cur: 9, ..Control::default() });
    spare.push(spare[0]);
    script.says(PUT, &put_body(9, 13, &spare), "put");
    probe(script, None);
    script.says(PUT, &put_body(9, 0, &[]), "put");
    script.says(SHOW, &[], "table 0");
    script.fails(LOAD, &load_body((2, 0, 2), [0, 0, 1, 0]), Way::LoadUnknown);
    script.says(PUT, &put_body(9, 0, &spare), "put");
    script.says(SHOW, &[], "table 0");
    script.fails(LOAD, &load_body((2, 0, 2), [0, 0, 1, 0]), Way::LoadUnknown);
}

/// Each clause of 30, met by a load and by a request.
fn spoilt_tables(script: &mut Script) {
    let spoilt = |script: &mut Script, way: Way, change: &dyn Fn(&mut Vec<Control>)| {
        let mut controls = sample();
        change(&mut controls);
        put(script, &controls);
        probe(script, Some(way));
    };
    for count in [CONTROLS as u16 + 1, 256, 256 + 13, 0x8000, 0xFFFF] {
        script.says(PUT, &put_body(9, count, &sample()), "put");
        script.says(SHOW, &[], &format!("table {count}"));
        probe(script, Some(Way::TableCount));
    }
    spoilt(script, Way::TableTwice, &|table| table.push(table[0]));
    spoilt(script, Way::TableTwice, &|table| table.insert(0, table[11]));
    spoilt(script, Way::TableTwice, &|table| table[9].channel = 7);
    spoilt(script, Way::TableTwice, &|table| {
        let other = Control { loaded: false, cur: 5, ..table[1] };
        table.push(other);
    });
    for selector in [6, 11, 12, 128, 255] {
        spoilt(script, Way::TableSelector, &|table| table[9].selector = selector);
        spoilt(script, Way::TableSelector, &|table| table[0].selector = selector);
    }
    for channel in [17, 18, 128, 255] {
        for place in [0, 1, 2, 5, 6, 9] {
            spoilt(script, Way::TableChannel, &|table| table[place].channel = channel);
        }
    }
    for channel in [1, 16, 17, 255] {
        spoilt(script, Way::TableSelectorChannel, &|table| table[12].channel = channel);
    }
    for pins in [0, PINS as u8 + 1, 32, 255] {
        spoilt(script, Way::TablePins, &|table| table[12].pins = pins);
    }
    spoilt_ranges(script, &spoilt);
    spoilt_settings(script, &spoilt);
    for count in [1, 2] {
        script.says(PUT, &put_body(9, count, &[]), "put");
        script.step(SHOW, &[]);
        probe(script, Some(Way::TablePins));
    }
    let zeros = put_body(9, 15, &sample());
    script.says(PUT, &zeros, "put");
    script.step(SHOW, &[]);
    probe(script, Some(Way::TablePins));
}

type Spoilt<'a> = &'a dyn Fn(&mut Script, Way, &dyn Fn(&mut Vec<Control>));

fn spoilt_ranges(script: &mut Script, spoilt: Spoilt) {
    spoilt(script, Way::TableOrder, &|table| table[1].max = signed(-5121));
    spoilt(script, Way::TableOrder, &|table| table[1].max = 0x8000);
    spoilt(script, Way::TableOrder, &|table| table[2].max = narrow(-11));
    spoilt(script, Way::TableOrder, &|table| (table[4].min, table[4].max) = (0, 0x80));
    spoilt(script, Way::TableOrder, &|table| (table[6].min, table[6].max) = (0xFFFF, 0xFFFE));
    spoilt(script, Way::TableOrder, &|table| (table[6].min, table[6].max) = (0x8000, 0x7FFF));
    for place in [1, 2, 3, 4, 6] {
        spoilt(script, Way::TableResZero, &|table| table[place].res = 0);
    }
    spoilt(script, Way::TableResHigh, &|table| table[1].res = 0x8000);
    spoilt(script, Way::TableResHigh, &|table| table[10].res = 0xFFFF);
    spoilt(script, Way::TableResHigh, &|table| table[3].res = 128);
    spoilt(script, Way::TableResHigh, &|table| table[4].res = 255);
    spoilt(script, Way::TableVolumeMin, &|table| table[10].min = 0x8000);
    spoilt(script, Way::TableVolumeMin, &|table| table[1].min = 0x8000);
    for wide in [256, 257, 0x8000, 0xFFFF] {
        for place in [2, 3, 4] {
            let way = Way::TableWideLoaded;
            spoilt(script, way, &|table| table[place].min = wide);
            spoilt(script, way, &|table| table[place].max = wide);
            spoilt(script, way, &|table| table[place].res = wide);
            spoilt(script, way, &|table| table[place].cur = wide);
        }
        for place in [0, 5, 7, 8, 11, 12] {
            let way = Way::TableWideUnranged;
            spoilt(script, way, &|table| table[place].min = wide);
            spoilt(script, way, &|table| table[place].max = wide);
            spoilt(script, way, &|table| table[place].res = wide);
            spoilt(script, way, &|table| table[place].cur = wide);
        }
    }
}

fn spoilt_settings(script: &mut Script, spoilt: Spoilt) {
    for place in [0, 5, 7, 8] {
        for value in [2, 3, 255] {
            spoilt(script, Way::TableSettingYesNo, &|table| table[place].cur = value);
        }
    }
    for value in [0, PINS as u16 + 1, 255] {
        spoilt(script, Way::TableSettingPin, &|table| table[11].cur = value);
    }
    for value in [0, 2, 8] {
        spoilt(script, Way::TableSettingPin, &|table| table[12].cur = value);
    }
    let way = Way::TableSettingLoaded;
    for value in [-32767, -5376, -5121, -511, -1, 1, 256, 32767] {
        spoilt(script, way, &|table| table[1].cur = signed(value));
    }
    for value in [-128, -14, -11, -9, 7, 9, 10, 127] {
        spoilt(script, way, &|table| table[2].cur = narrow(value));
    }
    for value in [-127, 0, 125, 127] {
        spoilt(script, way, &|table| table[3].cur = narrow(value));
    }
    for value in [1, 0x7FFF, 0x8000, 0xFFFE] {
        spoilt(script, way, &|table| table[6].cur = value);
    }
    spoilt(script, way, &|table| (table[6].min, table[6].max, table[6].res) = (0, 0xFFFE, 1));
    spoilt(script, way, &|table| table[6].res = 0xFFFE);
}

/// Every field of every control of the sample made each of some values, whatever comes of it.
fn every_field(script: &mut Script) {
    let bytes = [0, 1, 2, 8, 9, 16, 17, 24, 25, 255];
    let numbers = [0, 1, 2, 127, 128, 255, 256, 0x7FFF, 0x8000, 0x8001, 0xFFFF];
    for place in 0..sample().len() {
        for field in 0..9 {
            let count = if field < 5 { bytes.len() } else { numbers.len() };
            for value in 0..count {
                let mut controls = sample();
                // Three other controls are enough to make a table with the spoilt one.
                spoil(&mut controls[place], field, bytes.get(value), numbers.get(value));
                let control = controls[place];
                let few = [controls[0], controls[1], controls[11], control];
                let from = if [0, 1, 11].contains(&place) { 3 } else { 4 };
                script.says(PUT, &put_body(9, from as u16, &few[..from]), "put");
                let name = control.name();
                let body = request_body(
                    2,
                    &setup(CUR, 9, name, 1 + u16::from(name.2 == 2 || name.2 == 8)),
                    &[],
                );
                script.step(REQUEST, &body);
            }
        }
    }
}

fn spoil(control: &mut Control, field: usize, byte: Option<&u8>, number: Option<&u16>) {
    let byte = byte.copied().unwrap_or_default();
    let number = number.copied().unwrap_or_default();
    match field {
        0 => control.unit = byte,
        1 => control.channel = byte,
        2 => control.selector = byte,
        3 => control.pins = byte,
        4 => control.loaded = byte != 0,
        5 => control.min = number,
        6 => control.max = number,
        7 => control.res = number,
        _ => control.cur = number,
    }
}

/// Tables of 128 controls, the last of which is reached, good or bad.
fn full_tables(script: &mut Script) {
    let mut full: Vec<Control> = (0..CONTROLS)
        .map(|at| Control {
            unit: 20 + (at / 17) as u8,
            channel: (at % 17) as u8,
            selector: 2,
            ..Control::default()
        })
        .collect();
    let last = full[CONTROLS - 1].name();
    put(script, &full);
    load(script, last, [signed(-10), 10, 5, 3], "loaded");
    get(script, CUR, last, 2, 5);
    set_and_get(script, last, signed(-8), 2, signed(-10));
    script.step(SHOW, &[]);
    full[CONTROLS - 1].selector = 6;
    put(script, &full);
    script.fails(LOAD, &load_body(full[0].name(), [0, 0, 1, 0]), Way::TableSelector);
    full[CONTROLS - 1] = full[0];
    put(script, &full);
    script.fails(LOAD, &load_body(full[0].name(), [0, 0, 1, 0]), Way::TableTwice);
}

#[cfg(test)]
mod tests {
    use super::*;
    use crate::relay;

    #[test]
    fn every_step_gets_its_answer() {
        let mut script = Script::new();
        all(&mut script);
        assert_eq!(relay::program(&script.tape.bytes), script.tape.printed);
    }
}
