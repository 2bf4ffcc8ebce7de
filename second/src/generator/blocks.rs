//! Steps made on purpose for channel number 255: "All channels in a single request" (document 02,
//! No. 2), with the answers that the papers give.

use super::build::{Part, Plan};
use super::configs::{input, output, selector};
use super::script::{put_body, request_body, setup, Script};
use super::steps::{
    by_trial, get, got, load, narrow, put, signed, CUR, MAX, MIN, RES, SET, WIDE, YES_NO,
};
use crate::controls::Control;
use crate::numbers::{CHANNELS, CONTROLS, REPLY};
use crate::relay::{PLUG_IN, PUT, REQUEST, SHOW};
use crate::requests::ALL_CHANNELS;
use crate::ways::Way;

/// A unit and a selector: what a request for all channels names.
type Names = (u8, u8);

/// The Gets of a ranged selector, and all requests.
const GETS: [(u8, u8); 4] = [MIN, MAX, RES, CUR];
const ALL_PAIRS: [(u8, u8); 5] = [SET, MIN, MAX, RES, CUR];

/// Every selector, ranged or not, with the channels of the console's unit 2 that have it: all of
/// them, some with gaps, the master alone, all but the master, one channel.
const CONSOLE: [(u8, &[u8]); 9] = [
    (1, &[0, 1, 2, 3, 4, 5, 6, 7, 8, 9, 10, 11, 12, 13, 14, 15, 16]),
    (2, &[0, 1, 2, 3, 4, 5, 6, 7, 8, 9, 10, 11, 12, 13, 14, 15, 16]),
    (3, &[1, 3, 5, 7, 9, 11, 13, 15]),
    (4, &[0]),
    (5, &[1, 2, 3, 4, 5, 6, 7, 8, 9, 10, 11, 12, 13, 14, 15, 16]),
    (7, &[1, 16]),
    (8, &[0, 3, 16]),
    (9, &[5]),
    (10, &[0, 2, 4, 6, 8, 10, 12, 14, 16]),
];

/// All steps.
pub fn all(script: &mut Script) {
    plug_console(script);
    before_and_after_loads(script);
    blocks_then_singles(script);
    singles_then_blocks(script);
    bad_values(script);
    no_such(script);
    rows_in_order(script);
    counts(script);
    cuts(script);
    lengths_of_sets(script);
    orders(script);
    one_not_loaded(script);
    each_by_its_own_range(script);
    odd_tables(script);
    full_table(script);
}

/// A box with AudioControl number 7 and sixteen channels: unit 2 as in `CONSOLE`; unit 3 with mute
/// on the master and channel 2, volume on channel 1; unit 4 a Selector; unit 5 with no control.
fn plug_console(script: &mut Script) {
    let mut masks = vec![0; 2 * (CHANNELS + 1)];
    for (selector, channels) in CONSOLE {
        for &channel in channels {
            let bit = usize::from(selector) - 1;
            masks[2 * usize::from(channel) + bit / 8] |= 1 << (bit % 8);
        }
    }
    let mut few = vec![0; CHANNELS + 1];
    (few[0], few[1], few[2]) = (1, 2, 1);
    let feature = |id, size, masks| Part::Feature { id, source: 1, size, masks };
    let parts = vec![
        feature(3, 1, few),
        selector(4, &[1, 2, 3]),
        input(1, (CHANNELS as u8, 0, 0)),
        feature(2, 2, masks),
        feature(5, 1, vec![0x20; CHANNELS + 1]),
        output(6, 4),
    ];
    let mut plan = Plan::new(parts, vec![]);
    plan.control[2] = 7;
    script.says(PLUG_IN, &plan.bytes(), "accepted 7 6 78");
}

fn size(selector: u8) -> usize {
    if WIDE.contains(&selector) {
        2
    } else {
        1
    }
}

fn held(selector: u8, number: i32) -> u16 {
    if WIDE.contains(&selector) {
        signed(number)
    } else {
        narrow(number)
    }
}

/// MIN, MAX, RES and CUR of a ranged selector, other ones on each channel; CUR is a setting.
fn numbers(selector: u8, channel: u8) -> [i32; 4] {
    let k = i32::from(channel);
    let (min, max, res) = match selector {
        2 => (-5000 - 300 * k, 700 + 11 * k, 256 + k),
        8 => (10 + 300 * k, 40000 + k, 257 + k),
        _ => (-110 + k + 3 * i32::from(selector), 50 + k, 2 + k % 5),
    };
    [min, max, res, min + (k + 1) * res]
}

/// A control with these numbers, loaded if it is ranged; a yes/no is 1 on channels 1, 4, 7 and on.
fn control(unit: u8, channel: u8, selector: u8) -> Control {
    let named = Control { unit, channel, selector, ..Control::default() };
    if YES_NO.contains(&selector) {
        return Control { cur: u16::from(channel % 3 == 1), ..named };
    }
    let [min, max, res, cur] = numbers(selector, channel).map(|number| held(selector, number));
    Control { loaded: true, min, max, res, cur, ..named }
}

fn controls(unit: u8, selector: u8, channels: &[u8]) -> Vec<Control> {
    channels.iter().map(|&channel| control(unit, channel, selector)).collect()
}

/// "The block holds the values from the lowest such channel up, each at its size".
fn block(selector: u8, values: impl IntoIterator<Item = u16>) -> Vec<u8> {
    let bytes = |value: u16| value.to_le_bytes().into_iter().take(size(selector));
    values.into_iter().flat_map(bytes).collect()
}

/// What a Get asks for of the controls that `control` makes for these channels.
fn block_of(pair: (u8, u8), selector: u8, channels: &[u8]) -> Vec<u8> {
    let held = |channel: &u8| {
        let one = control(0, *channel, selector);
        match pair {
            MIN => one.min,
            MAX => one.max,
            RES => one.res,
            _ => one.cur,
        }
    };
    block(selector, channels.iter().map(held))
}

/// The body of a request for all channels.
fn ask(script: &Script, pair: (u8, u8), names: Names, length: usize, room: usize) -> Vec<u8> {
    let name = (names.0, ALL_CHANNELS, names.1);
    let setup = setup(pair, script.state.number, name, length as u16);
    request_body(room as u16, &setup, &[])
}

/// Adds a Get for all channels, with this wLength and this much room, of which `block` is the whole
/// answer.
fn cut(
    script: &mut Script,
    pair: (u8, u8),
    names: Names,
    block: &[u8],
    length: usize,
    room: usize,
) {
    let body = ask(script, pair, names, length, room);
    let sent = &block[..block.len().min(length)];
    if room < sent.len() {
        script.fails(REQUEST, &body, Way::ReplyShort);
    } else {
        script.says(REQUEST, &body, &got(sent));
    }
}

/// Adds a Get for all channels that answers this block.
fn whole(script: &mut Script, pair: (u8, u8), names: Names, block: &[u8]) {
    cut(script, pair, names, block, block.len(), block.len());
}

/// The body of a Set for all channels.
fn set_body(script: &Script, names: Names, length: usize, data: &[u8]) -> Vec<u8> {
    [ask(script, SET, names, length, 0), data.to_vec()].concat()
}

/// Adds a Set for all channels that is accepted.
fn set(script: &mut Script, names: Names, data: &[u8]) {
    let body = set_body(script, names, data.len(), data);
    script.says(REQUEST, &body, "set");
}

/// "36 if any is not loaded": until the last of a selector's channels is. Then each Get, of the
/// numbers of each channel; "35" for those of a yes/no.
fn before_and_after_loads(script: &mut Script) {
    for (selector, channels) in CONSOLE {
        let names = (2, selector);
        let length = channels.len() * size(selector);
        if YES_NO.contains(&selector) {
            for pair in [MIN, MAX, RES] {
                let body = ask(script, pair, names, length, REPLY);
                script.fails(REQUEST, &body, Way::UnrangedYesNo);
            }
            whole(script, CUR, names, &vec![0; length]);
            continue;
        }
        for &channel in channels.iter().rev() {
            let body = ask(script, CUR, names, length, REPLY);
            script.fails(REQUEST, &body, Way::NotLoaded);
            let numbers = numbers(selector, channel).map(|number| held(selector, number));
            load(script, (2, channel, selector), numbers, "loaded");
        }
        for pair in GETS {
            whole(script, pair, names, &block_of(pair, selector, channels));
        }
    }
}

/// A value that is not stored as it is, and what is stored instead: beyond an end, or beside a
/// setting of the channel's own range.
fn wanted_and_stored(selector: u8, channel: u8) -> (u16, u16) {
    if YES_NO.contains(&selector) {
        let value = u16::from(channel % 4 < 2);
        return (value, value);
    }
    let [min, max, res, cur] = numbers(selector, channel);
    let wanted = match channel % 4 {
        0 => cur + res / 2 + 1,
        1 => min - 1,
        2 => cur - res / 2 - 1,
        _ => max + 1,
    };
    (held(selector, wanted), held(selector, by_trial(min, max, res, wanted)))
}

/// A Set of the whole block, and what then stands on each channel.
fn blocks_then_singles(script: &mut Script) {
    for (selector, channels) in CONSOLE {
        let values = channels.iter().map(|&channel| wanted_and_stored(selector, channel));
        set(script, (2, selector), &block(selector, values.clone().map(|value| value.0)));
        for (&channel, (_, stored)) in channels.iter().zip(values.clone()) {
            get(script, CUR, (2, channel, selector), size(selector), stored);
        }
        whole(script, CUR, (2, selector), &block(selector, values.map(|value| value.1)));
    }
    script.step(SHOW, &[]);
}

/// A Set on each channel, the highest first, and the block that they make.
fn singles_then_blocks(script: &mut Script) {
    for (selector, channels) in CONSOLE {
        for &channel in channels.iter().rev() {
            let data = block_of(CUR, selector, &[channel]);
            let setup = setup(SET, 7, (2, channel, selector), data.len() as u16);
            script.says(REQUEST, &request_body(0, &setup, &data), "set");
        }
        whole(script, CUR, (2, selector), &block_of(CUR, selector, channels));
    }
    whole(script, CUR, (3, 1), &[0, 0]);
}

/// 38 "over the whole block": a value that is none at each place of a block, and nothing stored.
fn bad_values(script: &mut Script) {
    for (selector, channels) in CONSOLE.into_iter().filter(|one| YES_NO.contains(&one.0)) {
        let stands = block_of(CUR, selector, channels);
        let turned: Vec<u8> = stands.iter().map(|value| 1 - value).collect();
        for at in 0..channels.len() {
            let mut data = turned.clone();
            data[at] = [2, 255, 128][at % 3];
            let body = set_body(script, (2, selector), data.len(), &data);
            script.fails(REQUEST, &body, Way::SetYesNo);
            whole(script, CUR, (2, selector), &stands);
        }
        let body = set_body(script, (2, selector), turned.len(), &vec![2; turned.len()]);
        script.fails(REQUEST, &body, Way::SetYesNo);
    }
    for at in 0..3 {
        put(script, &controls(2, 10, &[0, 2, 16]));
        let mut data = [1; 3];
        data[at] = 2;
        let body = set_body(script, (2, 10), 3, &data);
        script.fails(REQUEST, &body, Way::SetYesNo);
        script.says(
            SHOW,
            &[],
            "table 3\n2 0 10 0 0 0 0 0 0\n2 2 10 0 0 0 0 0 0\n2 16 10 0 0 0 0 0 1",
        );
    }
}

/// 33 and 34: units with no controls, selectors that no channel has, and a Selector's control,
/// which has no such form.
fn no_such(script: &mut Script) {
    plug_console(script);
    for pair in ALL_PAIRS {
        for unit in [0, 1, 5, 6, 255] {
            let body = ask(script, pair, (unit, 1), 2, REPLY);
            script.fails(REQUEST, &body, Way::UnitUnknown);
        }
        for names in [(2, 6), (2, 11), (2, 255), (3, 3), (3, 8), (3, 10)] {
            let body = ask(script, pair, names, 2, REPLY);
            script.fails(REQUEST, &body, Way::ChannelsUnknown);
        }
        for unit in [2, 3] {
            let body = ask(script, pair, (unit, 0), 1, REPLY);
            script.fails(REQUEST, &body, Way::ControlUnknown);
        }
        for selector in [0, 1, 2] {
            let body = ask(script, pair, (4, selector), 1, REPLY);
            script.fails(REQUEST, &body, Way::SelectorValue);
        }
        for channel in [17, 127, 128, 254] {
            let setup = setup(pair, 7, (2, channel, 1), 1);
            let body = request_body(REPLY as u16, &setup, &[]);
            script.fails(REQUEST, &body, Way::ControlUnknown);
        }
    }
    let body = set_body(script, (4, 0), 1, &[2]);
    script.fails(REQUEST, &body, Way::SelectorValue);
    get(script, CUR, (4, 0, 0), 1, 1);
}

/// What breaks two rows is refused by the earlier.
fn rows_in_order(script: &mut Script) {
    for pair in [MIN, MAX, RES] {
        let body = ask(script, pair, (2, 1), 17, 0);
        script.fails(REQUEST, &body, Way::UnrangedYesNo);
        let body = ask(script, pair, (2, 3), 8, 0);
        script.fails(REQUEST, &body, Way::NotLoaded);
    }
    let body = set_body(script, (2, 3), 1, &[0]);
    script.fails(REQUEST, &body, Way::NotLoaded);
    let body = ask(script, CUR, (2, 2), 0, 0);
    script.fails(REQUEST, &body, Way::NotLoaded);
    for (length, data, way) in [
        (1, &[2, 2][..], Way::SetLength),
        (2, &[2], Way::SetData),
        (2, &[2, 2, 2], Way::SetData),
        (2, &[1, 2], Way::SetYesNo),
    ] {
        let body = set_body(script, (3, 1), length, data);
        script.fails(REQUEST, &body, way);
    }
    whole(script, CUR, (3, 1), &[0, 0]);
    let wrong = setup(CUR, 8, (2, ALL_CHANNELS, 1), 17);
    let body = request_body(REPLY as u16, &wrong, &[]);
    script.fails(REQUEST, &body, Way::InterfaceNumber);
    let mut noisy = ask(script, CUR, (3, 1), 2, 2);
    noisy.extend([9; 40]);
    script.says(REQUEST, &noisy, "got 00 00");
}

/// Blocks of 1 to 17 channels of each size, chosen with gaps, in tables out of order.
fn counts(script: &mut Script) {
    let narrow = [1, 3, 4, 5, 7, 9, 10];
    for count in 1..=CHANNELS + 1 {
        let mut channels: Vec<u8> = (0..count).map(|at| ((7 * at + count) % 17) as u8).collect();
        let pair = [WIDE[count % WIDE.len()], narrow[count % narrow.len()]];
        let both = |&channel: &u8| pair.map(|selector| control(9, channel, selector));
        put(script, &channels.iter().flat_map(both).collect::<Vec<Control>>());
        channels.sort();
        for selector in pair {
            whole(script, CUR, (9, selector), &block_of(CUR, selector, &channels));
            let values = channels.iter().map(|&channel| wanted_and_stored(selector, channel));
            set(script, (9, selector), &block(selector, values.clone().map(|value| value.0)));
            whole(script, CUR, (9, selector), &block(selector, values.map(|value| value.1)));
        }
    }
}

/// "a Get's whole block is what wLength cuts", in the middle of a value too, and 39 by what is sent.
fn cuts(script: &mut Script) {
    let channels = [1, 2, 16];
    let mut table = controls(2, 2, &channels);
    table.extend(controls(2, 4, &channels));
    table.extend(controls(2, 7, &channels));
    put(script, &table);
    for (selector, pair) in [(2, CUR), (2, RES), (4, MIN), (7, CUR)] {
        let block = block_of(pair, selector, &channels);
        let most = block.len();
        for length in [0, 1, most - 1, most, most + 1, REPLY, 0xFFFF] {
            for room in [0, 1, most - 1, most] {
                cut(script, pair, (2, selector), &block, length, room);
            }
        }
    }
    let channels: Vec<u8> = (0..=CHANNELS as u8).collect();
    put(script, &controls(2, 8, &channels));
    for (pair, length) in GETS.into_iter().cycle().zip([0, 1, 2, 3, 17, 31, 33, 34, 35, 64, 256]) {
        let block = block_of(pair, 8, &channels);
        let sent = block.len().min(length);
        cut(script, pair, (2, 8), &block, length, sent);
        cut(script, pair, (2, 8), &block, length, sent.max(1) - 1);
    }
}

/// 37 "over the whole block": wLength and the data of a Set are the block's length.
fn lengths_of_sets(script: &mut Script) {
    let channels = [0, 3, 7];
    let mut table = controls(2, 8, &channels);
    table.extend(controls(2, 9, &channels));
    put(script, &table);
    for selector in [8, 9] {
        let most = channels.len() * size(selector);
        for length in [0, size(selector), most - 1, most + 1, REPLY, 256 + most, 0xFFFF] {
            for data in [most, length.min(REPLY)] {
                let body = set_body(script, (2, selector), length, &vec![1; data]);
                script.fails(REQUEST, &body, Way::SetLength);
            }
        }
        for data in [0, size(selector), most - 1, most + 1, REPLY] {
            let body = set_body(script, (2, selector), most, &vec![1; data]);
            script.fails(REQUEST, &body, Way::SetData);
        }
        whole(script, CUR, (2, selector), &block_of(CUR, selector, &channels));
        set(script, (2, selector), &vec![1; most]);
    }
    script.step(SHOW, &[]);
}

/// "from the lowest such channel up", however the table's controls stand: two units and three
/// selectors, their channels rising, falling, in turn, and mixed.
fn orders(script: &mut Script) {
    let parts =
        [(6, 2, &[0, 1, 5, 9][..]), (6, 5, &[5, 6, 16]), (4, 2, &[0, 2, 5]), (6, 7, &[0, 5])];
    let rising: Vec<Control> = parts
        .iter()
        .flat_map(|&(unit, selector, channels)| controls(unit, selector, channels))
        .collect();
    let mut falling = rising.clone();
    falling.reverse();
    let mut in_turn = rising.clone();
    in_turn.sort_by_key(|one| (one.channel, one.unit, one.selector));
    let mixed: Vec<Control> = (0..rising.len()).map(|at| rising[(at * 5 + 7) % 12]).collect();
    for table in [rising, falling, in_turn, mixed] {
        put(script, &table);
        for (unit, selector, channels) in parts {
            whole(script, CUR, (unit, selector), &block_of(CUR, selector, channels));
            let values = channels.iter().map(|&channel| wanted_and_stored(selector, channel));
            set(script, (unit, selector), &block(selector, values.clone().map(|value| value.0)));
            for (&channel, (_, stored)) in channels.iter().zip(values) {
                get(script, CUR, (unit, channel, selector), size(selector), stored);
            }
        }
        script.step(SHOW, &[]);
    }
}

/// A block with one control that is not loaded, at each place, in tables that rise and that fall.
fn one_not_loaded(script: &mut Script) {
    let channels = [0, 2, 3, 16];
    for (selector, falling) in [(2, false), (8, true), (4, true)] {
        for at in 0..channels.len() {
            let mut table = controls(2, selector, &channels);
            table[at] = Control { loaded: false, ..table[at] };
            if falling {
                table.reverse();
            }
            put(script, &table);
            let length = channels.len() * size(selector);
            for pair in GETS {
                let body = ask(script, pair, (2, selector), length, REPLY);
                script.fails(REQUEST, &body, Way::NotLoaded);
            }
            let body = set_body(script, (2, selector), length, &vec![0; length]);
            script.fails(REQUEST, &body, Way::NotLoaded);
            script.step(SHOW, &[]);
        }
    }
}

/// Each channel takes the closest of its own settings, and silence where it is asked for.
fn each_by_its_own_range(script: &mut Script) {
    let ranges =
        [(0, [-5120, 0, 256]), (1, [-300, 301, 7]), (2, [-10, 9, 4]), (9, [-32767, 32767, 32767])];
    let loaded = |(channel, [min, max, res]): (u8, [i32; 3])| {
        let [min, max, res] = [min, max, res].map(signed);
        Control { unit: 8, channel, selector: 2, pins: 0, loaded: true, min, max, res, cur: min }
    };
    put(script, &ranges.map(loaded));
    for (wanted, stored) in [
        ([-300, -300, -300, -300], [-256, -300, -10, 0]),
        ([-384, -296, 9, 16384], [-512, -293, 6, 32767]),
        ([500, 500, 500, -16384], [0, 295, 6, -32767]),
        ([-32768, 0, -32768, 0], [-32768, 1, -32768, 0]),
        ([-32767, -32768, 0, -32768], [-5120, -32768, -2, -32768]),
        ([-32768; 4], [-32768; 4]),
        ([32767, -32767, -4, -16383], [0, -300, -6, 0]),
    ] {
        set(script, (8, 2), &block(2, wanted.map(signed)));
        whole(script, CUR, (8, 2), &block(2, stored.map(signed)));
    }
    whole(script, MIN, (8, 2), &block(2, ranges.map(|one| signed(one.1[0]))));
    whole(script, MAX, (8, 2), &block(2, ranges.map(|one| signed(one.1[1]))));
    whole(script, RES, (8, 2), &block(2, ranges.map(|one| signed(one.1[2]))));
    script.step(SHOW, &[]);
}

/// Tables that the reader does not make: a unit with a Selector's control and others, unit 0, and
/// spare places that bear more channels.
fn odd_tables(script: &mut Script) {
    let pin = |unit| Control { unit, pins: 3, cur: 2, ..Control::default() };
    let mut table = controls(0, 1, &[4, 1]);
    table.insert(1, pin(0));
    put(script, &table);
    whole(script, CUR, (0, 1), &[1, 1]);
    set(script, (0, 1), &[1, 0]);
    let body = ask(script, CUR, (0, 0), 1, REPLY);
    script.fails(REQUEST, &body, Way::ControlUnknown);
    get(script, CUR, (0, 0, 0), 1, 2);
    script.says(SHOW, &[], "table 3\n0 4 1 0 0 0 0 0 0\n0 0 0 3 0 0 0 0 2\n0 1 1 0 0 0 0 0 1");
    let spare = controls(2, 3, &[6, 2, 4, 0]);
    script.says(PUT, &put_body(9, 2, &spare), "put");
    whole(script, CUR, (2, 3), &block_of(CUR, 3, &[2, 6]));
    let body = set_body(script, (2, 3), 4, &[0; 4]);
    script.fails(REQUEST, &body, Way::SetLength);
    script.says(PUT, &put_body(9, 0, &spare), "put");
    let body = ask(script, CUR, (2, 3), 4, REPLY);
    script.fails(REQUEST, &body, Way::UnitUnknown);
    let mut twice = controls(2, 3, &[6, 2]);
    twice.push(twice[0]);
    put(script, &twice);
    let body = ask(script, CUR, (2, 3), 3, REPLY);
    script.fails(REQUEST, &body, Way::TableTwice);
}

/// A table of 128 controls: the same selector of eight units in turn, their channels falling.
fn full_table(script: &mut Script) {
    let units: Vec<u8> = (20..28).collect();
    let one = |at: usize| control(units[at % 8], (16 - at / 8) as u8, 10);
    let table: Vec<Control> = (0..CONTROLS).map(one).collect();
    put(script, &table);
    let channels: Vec<u8> = (1..=16).collect();
    let first = block_of(CUR, 10, &channels);
    let turned: Vec<u8> = first.iter().map(|value| 1 - value).collect();
    for &unit in &units {
        whole(script, CUR, (unit, 10), &first);
        set(script, (unit, 10), &turned);
    }
    for &unit in &units {
        whole(script, CUR, (unit, 10), &turned);
    }
}
